/*
 * Reads of entries that end late, twice or out of order, as those by DMA: the slot that an entry was read in is handed
 * in with it, so none becomes a command in the place of another, and the same without a slot, where each does.
 */
#include "drive.h"

enum { RING = 16, POOL = 32 };

static uint8_t ring[RING][NVMEARB_SQE_BYTES];

/* The host wrote a Read into a slot of its ring, with this identifier. */
static void writes(uint16_t slot, uint16_t cid)
{
    nvmearb_sqe it = {.opcode = NVMEARB_OPC_READ, .cid = cid, .nsid = 1};
    nvmearb_sqe_encode(&it, ring[slot]);
}

/* A controller with a queue to which so many Reads were submitted, with the identifiers 100 and on. */
static int has_reads(uint16_t n)
{
    memset(ring, 0, sizeof ring);
    for (uint16_t slot = 0; slot < n; slot++)
        writes(slot, 100 + slot);
    return is_made(&config, POOL) && has_queues(1, RING, RING, 0) && rings(1, n);
}

static uint32_t at(uint16_t slot)
{
    return nvmearb_ctrl_fetched_at(&ctrl, slots, count, 1, slot, ring[slot % RING], slot);
}

static uint32_t without_slot(uint16_t slot)
{
    return nvmearb_ctrl_fetched(&ctrl, slots, count, 1, ring[slot], slot);
}

static uint32_t from(uint16_t slot, const uint8_t *entries, size_t n, size_t *done)
{
    static const uint32_t cookies[RING];
    return nvmearb_ctrl_fetched_n_at(&ctrl, slots, count, 1, slot, entries, n * NVMEARB_SQE_BYTES, cookies, n, done);
}

/* So many commands wait, with the identifiers 100 and on. */
static int wait_in_order(uint16_t n)
{
    nvmearb_sqe it;
    uint32_t cookie;
    for (uint16_t k = 0; k < n; k++)
        if (nvmearb_ctrl_waits(&ctrl, slots, count, 1, k, &it, &cookie) != NVMEARB_OK || it.cid != 100 + k)
            return 0;
    return nvmearb_ctrl_waits(&ctrl, slots, count, 1, n, &it, &cookie) == NVMEARB_NONE;
}

/* Whether a call changed nothing. */
static nvmearb_ctrl before;
#define REFUSES(call, want) (before = ctrl, (call) == (want) && !memcmp(&before, &ctrl, sizeof ctrl))

static void the_second_read_ends_first(void)
{
    CHECK(has_reads(2) && REFUSES(at(1), NVMEARB_ESLOT) && wait_in_order(0));
    CHECK(at(0) == NVMEARB_OK && at(1) == NVMEARB_OK && wait_in_order(2));
    /* without a slot the second entry is taken for the first */
    CHECK(has_reads(2) && without_slot(1) == NVMEARB_OK && !wait_in_order(1));
}

static void a_read_ends_twice(void)
{
    CHECK(has_reads(2) && at(0) == NVMEARB_OK && REFUSES(at(0), NVMEARB_ESLOT) && at(1) == NVMEARB_OK);
    CHECK(REFUSES(at(1), NVMEARB_NONE) && wait_in_order(2));
}

/* Ten entries were read. The doorbell that comes before they are handed in changes nothing: the others are told then. */
static void a_doorbell_comes_meanwhile(void)
{
    uint8_t copy[10][NVMEARB_SQE_BYTES];
    uint16_t slot = 0xffff;
    size_t done = 0;
    CHECK(has_reads(10) && nvmearb_ctrl_fetch(&ctrl, 1, &slot) == NVMEARB_OK && slot == 0);
    memcpy(copy, ring, sizeof copy);
    for (uint16_t k = 10; k < 15; k++)
        writes(k, 100 + k);
    CHECK(rings(1, 5) && from(slot, copy[0], 10, &done) == NVMEARB_OK && done == 10 && wait_in_order(10));
    CHECK(nvmearb_ctrl_fetch(&ctrl, 1, &slot) == NVMEARB_OK && slot == 10);
    CHECK(REFUSES(from(0, copy[0], 10, &done), NVMEARB_ESLOT) && done == 10);
    CHECK(from(slot, ring[slot], 5, &done) == NVMEARB_OK && done == 5 && wait_in_order(15));
    CHECK(REFUSES(from(15, ring[0], 1, &done), NVMEARB_NONE) && done == 0);
}

/* The ring goes on at its first slot, and no slot beyond it is one. */
static void slots_by_their_numbers(void)
{
    nvmearb_step step;
    nvmearb_command command;
    CHECK(has_reads(15));
    for (uint16_t slot = 0; slot < 15; slot++)
        CHECK(REFUSES(at(slot + RING), NVMEARB_ESLOT) && REFUSES(at(slot + 1), NVMEARB_ESLOT) && at(slot) == NVMEARB_OK);
    CHECK(picks(15, NVMEARB_PICKED, &step) && step.pick.n == 15);
    while (nvmearb_ctrl_take(&ctrl, slots, count, &command) == NVMEARB_OK)
        ;
    writes(15, 115), writes(0, 116);
    CHECK(rings(1, 2) && REFUSES(at(0), NVMEARB_ESLOT) && at(15) == NVMEARB_OK && REFUSES(at(RING), NVMEARB_ESLOT));
    CHECK(at(0) == NVMEARB_OK && REFUSES(at(1), NVMEARB_NONE));
}

/* Where the queue's deletion begins meanwhile, the entry is dropped. */
static void the_queue_is_deleted_meanwhile(void)
{
    nvmearb_step step;
    uint16_t slot;
    size_t done = 0xeeee;
    CHECK(has_reads(3) && nvmearb_ctrl_fetch(&ctrl, 1, &slot) == NVMEARB_OK && slot == 0);
    CHECK(submits(NVMEARB_OPC_DELETE_SQ, 1, 0) && picks(1, NVMEARB_CARRIED_OUT, &step));
    CHECK(REFUSES(at(0), NVMEARB_NONE) && REFUSES(from(0, ring[0], 3, &done), NVMEARB_NONE) && done == 0);
}

int main(void)
{
    the_second_read_ends_first();
    a_read_ends_twice();
    a_doorbell_comes_meanwhile();
    slots_by_their_numbers();
    the_queue_is_deleted_meanwhile();
    return told();
}
