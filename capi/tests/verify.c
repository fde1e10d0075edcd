/* What nvmearb_ctrl_verify finds: one number out of range, for each kind, and any bytes. */
#include "ctrl.h"
#include "places.h"
#include "tell.h"

static nvmearb_slot many[SLOTS];

/* The controller and its slots pass, and don't with another number in `bytes` of these. */
static int finds(void *at, unsigned where, unsigned value, unsigned bytes)
{
    uint8_t *to = (uint8_t *)at + where, before[4], after[4] = {(uint8_t)value, (uint8_t)(value >> 8), 0, 0};
    int is_well = nvmearb_ctrl_verify(&ctrl, slots, SLOTS) == NVMEARB_OK;
    memcpy(before, to, bytes), memcpy(to, after, bytes);
    is_well = is_well && nvmearb_ctrl_verify(&ctrl, slots, SLOTS) == NVMEARB_ESTATE;
    memcpy(to, before, bytes);
    return is_well;
}

/* The number of 2 bytes in a controller. */
static unsigned number_at(unsigned where)
{
    return ((uint8_t *)&ctrl)[where] | (unsigned)((uint8_t *)&ctrl)[where + 1] << 8;
}

/* A chain is as long as it says, and each of its slots is linked within the pool and used for it. */
static void wrong_chain(unsigned at, unsigned used)
{
    nvmearb_slot *first = &slots[number_at(at)];
    CHECK(finds(&ctrl, at, SLOTS, 2) && finds(&ctrl, at + 2, SLOTS, 2) && finds(&ctrl, at + 4, SLOTS + 1, 2));
    CHECK(finds(&ctrl, at + 4, number_at(at + 4) + 1, 2) && finds(&ctrl, at + 4, number_at(at + 4) - 1, 2));
    CHECK(finds(first, NEXT, SLOTS, 2) && finds(first, NEXT, number_at(at), 2) && finds(first, USED, used, 1));
}

/* One number out of range is found, wherever the calls rely on it. */
static void overwritten(void)
{
    uint32_t tag = 0;
    uint16_t slot, other = 0;
    CHECK(is_prepared(NVMEARB_WEIGHTED) && nvmearb_ctrl_sq_tail(&ctrl, 1, 3) == NVMEARB_OK);
    CHECK(read_fetched(0, 40) && picked(1) && taken(40, &tag) && read_fetched(1, 41) && read_fetched(2, 42));
    slot = NVMEARB_SLOT_OF(tag);
    CHECK(nvmearb_ctrl_sq_tail(&ctrl, 0, 4) == NVMEARB_OK && fetched(0, 2, IDENTIFY, 12, 0, 0, 0));
    CHECK(fetched(0, 3, IDENTIFY, 13, 0, 0, 0) && carried_out(NVMEARB_DONE) && carried_out(NVMEARB_DONE));
    CHECK(finds(&ctrl, SQS + SQ_SIZE + HEAD, 4, 2) && finds(&ctrl, SQS + SQ_SIZE + TAIL, 4, 2));
    CHECK(finds(&ctrl, CQS + CQ_SIZE + HEAD, 4, 2) && finds(&ctrl, CQS + CQ_SIZE + TAIL, 4, 2));
    CHECK(finds(&ctrl, SQS + SQ_SIZE + CQID, 65, 2));
    wrong_chain(SQS + SQ_SIZE + FIRST, 3);
    wrong_chain(CQS + FIRST, 1);
    wrong_chain(FREE_SLOTS, 1);
    CHECK(finds(&slots[number_at(SQS + SQ_SIZE + LAST)], USED, 7, 1));
    CHECK(finds(&slots[number_at(SQS + SQ_SIZE + FIRST)], SQID, 65, 1) && finds(&slots[slot], SQID, 65, 1));
    CHECK(finds(&slots[number_at(CQS + FIRST)], STATUS_TYPE, 8, 1));
    CHECK(finds(&ctrl, OUTSTANDING, 257, 2) && finds(&ctrl, PICKED_COUNT, 3, 2));
    CHECK(finds(&ctrl, ARBITER, 3, 2) && finds(&ctrl, ARBITER + 10, 2, 2)); /* the mechanism, and the last served */
    CHECK(finds(&ctrl, 0, 1, 1) && finds(&ctrl, 1, 0, 1) && finds(&ctrl, SQS + CLOSING, 1, 1)); /* the mark, a deletion */
    CHECK(nvmearb_ctrl_verify(&ctrl, slots, SLOTS - 1) == NVMEARB_ESTATE);
    CHECK(nvmearb_ctrl_verify(&ctrl, many, SLOTS) == NVMEARB_ESTATE);
    CHECK(posted_with(0, 2, 4, 12, 1, (nvmearb_status){0, 1}, 0, 8) && nvmearb_ctrl_sq_tail(&ctrl, 0, 5) == NVMEARB_OK);
    CHECK(fetched(0, 4, NVMEARB_OPC_DELETE_SQ, 14, 0, 1, 0) && carried_out(NVMEARB_BEGIN_DELETE));
    other = (uint16_t)number_at(SQS + SQ_SIZE + TAG);
    CHECK(finds(&ctrl, SQS + SQ_SIZE + TAG, SLOTS, 2) && finds(&ctrl, SQS + SQ_SIZE + TAG, slot, 2));
    CHECK(finds(&slots[other], USED, 0, 1));
}

/* A state and slots of any content are answered, and left. */
static void verified_bytes(void)
{
    static nvmearb_ctrl any, before;
    uint64_t state = 7;
    unsigned wrong = 0, passed = 0;
    CHECK(is_prepared(NVMEARB_ROUND_ROBIN));
    for (int round = 0; round < 20000; round++) {
        memcpy(&any, &ctrl, sizeof any);
        draw_into(&state, (uint8_t *)&any + 16, round % 2 ? sizeof any - 16 : drawn(&state) % 64);
        memcpy(&before, &any, sizeof any);
        draw_into(&state, many, SLOTS * sizeof *many);
        passed += nvmearb_ctrl_verify(&any, round % 4 ? slots : many, SLOTS) == NVMEARB_OK;
        wrong += memcmp(&any, &before, sizeof any) != 0;
    }
    CHECK(wrong == 0 && passed > 0 && passed < 20000);
}

int main(void)
{
    overwritten();
    verified_bytes();
    return told();
}
