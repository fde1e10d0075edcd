/* Picks take what there is room for. Values are the specification's: the burst is the most that may be fetched. */
#include "ctrl.h"
#include "tell.h"

enum { READS = 256, RING = READS + 1, POOL = 3 * READS };

static nvmearb_slot many[POOL];

/* What a pick is asked for and does. */
static uint32_t picks(uint16_t room, nvmearb_step *step)
{
    return nvmearb_ctrl_pick(&ctrl, many, POOL, room, step);
}

static int is_picked(uint16_t room, uint16_t n)
{
    nvmearb_step step;
    return picks(room, &step) == NVMEARB_OK && step.kind == NVMEARB_PICKED && step.pick.qid == 1 && step.pick.n == n;
}

/* An admin command is fetched, and the step that picks it with room for 1 is of this kind. */
static int goes_to(uint32_t kind, uint8_t opcode, uint64_t prp1, uint32_t cdw10, uint32_t cdw11, uint16_t tail)
{
    uint8_t bytes[NVMEARB_SQE_BYTES];
    nvmearb_step step;
    entry_of(opcode, tail, prp1, cdw10, cdw11, bytes);
    return nvmearb_ctrl_sq_tail(&ctrl, 0, tail) == NVMEARB_OK &&
           nvmearb_ctrl_fetched(&ctrl, many, POOL, 0, bytes, 0) == NVMEARB_OK && picks(0, &step) == NVMEARB_NOROOM &&
           picks(1, &step) == NVMEARB_OK && step.kind == kind;
}

/*
 * The host's I/O queues are created, the device holds a request, and 256 reads wait in the queue for submission. The
 * burst has no limit.
 */
static int is_ready(nvmearb_command *held)
{
    uint8_t bytes[NVMEARB_SQE_BYTES];
    nvmearb_config it = config;
    nvmearb_step step;
    uint16_t number;
    int is_well;
    it.depth = it.admin_depth = READS;
    is_well = nvmearb_ctrl_init(&ctrl, many, POOL, &it) == NVMEARB_OK &&
              nvmearb_ctrl_own_opcode(&ctrl, EVENT_REQUEST) == NVMEARB_OK &&
              nvmearb_ctrl_add_sq_region(&ctrl, SQ, RING, &number) == NVMEARB_OK &&
              nvmearb_ctrl_add_cq_region(&ctrl, CQ, RING, &number) == NVMEARB_OK &&
              goes_to(NVMEARB_CARRIED_OUT, NVMEARB_OPC_CREATE_CQ, CQ, READS << 16 | 1, 1, 1) &&
              goes_to(NVMEARB_CARRIED_OUT, NVMEARB_OPC_CREATE_SQ, SQ, READS << 16 | 1, 0x00010001, 2) &&
              goes_to(NVMEARB_PASSED, EVENT_REQUEST, 0, 0, 0, 3) && picks(0, &step) == NVMEARB_BUSY &&
              nvmearb_ctrl_take(&ctrl, many, POOL, held) == NVMEARB_OK && held->entry.opcode == EVENT_REQUEST &&
              nvmearb_ctrl_sq_tail(&ctrl, 1, READS) == NVMEARB_OK;
    entry_of(NVMEARB_OPC_READ, 7, 0, 0, 0, bytes);
    for (int k = 0; k < READS; k++)
        is_well = is_well && nvmearb_ctrl_fetched(&ctrl, many, POOL, 1, bytes, 0) == NVMEARB_OK;
    return is_well;
}

/* The device posts what is ready in a completion queue, and the host frees its slots. Returns how many there were. */
static unsigned post_all(uint16_t cqid)
{
    nvmearb_post post;
    unsigned n = 0;
    for (; nvmearb_ctrl_post(&ctrl, many, POOL, cqid, &post) == NVMEARB_OK; n++)
        CHECK(nvmearb_ctrl_cq_head(&ctrl, cqid, (uint16_t)((post.slot + 1) % (cqid ? RING : 8))) == NVMEARB_OK);
    return n;
}

/* The command that the device takes next, if there is one, is completed. */
static int is_done(void)
{
    nvmearb_command command;
    return nvmearb_ctrl_take(&ctrl, many, POOL, &command) == NVMEARB_OK && command.entry.opcode == NVMEARB_OPC_READ &&
           nvmearb_ctrl_complete(&ctrl, many, POOL, command.tag, &success, 0) == NVMEARB_OK;
}

/* A device with room for one command, that holds an Asynchronous Event Request, gets all of 256 reads in one queue. */
static void a_device_with_room_for_one(void)
{
    nvmearb_command held;
    nvmearb_step step;
    unsigned posted = 0;
    CHECK(is_ready(&held) && post_all(0) == 2);
    for (int k = 0; k < READS; k++) {
        CHECK(is_picked(1, 1) && picks(1, &step) == NVMEARB_BUSY && is_done());
        posted += post_all(1);
    }
    CHECK(posted == READS && picks(1, &step) == NVMEARB_NONE && picks(0, &step) == NVMEARB_NONE);
}

/* The order of the answers. Beside a request that the device holds, all of 256 reads are picked with any room. */
static void a_device_that_is_full(void)
{
    nvmearb_command held;
    nvmearb_step step;
    nvmearb_ctrl before;
    CHECK(is_ready(&held) && post_all(0) == 2);
    before = ctrl;
    CHECK(picks(0, &step) == NVMEARB_NOROOM && memcmp(&ctrl, &before, sizeof ctrl) == 0);
    CHECK(is_picked(NVMEARB_NO_LIMIT, READS) && picks(0, &step) == NVMEARB_BUSY);
    for (int k = 0; k < READS; k++)
        CHECK(is_done());
    CHECK(picks(0, &step) == NVMEARB_NONE && post_all(1) == READS);
    CHECK(nvmearb_ctrl_complete(&ctrl, many, POOL, held.tag, &success, 0) == NVMEARB_OK && post_all(0) == 1);
}

/* An urgent command waits for no more of a burst than there was room for. */
static void an_urgent_command(void)
{
    uint8_t bytes[NVMEARB_SQE_BYTES];
    nvmearb_config it = config;
    nvmearb_step step;
    uint16_t number;
    it.depth = it.admin_depth = READS, it.mechanism = NVMEARB_WEIGHTED;
    CHECK(nvmearb_ctrl_init(&ctrl, many, POOL, &it) == NVMEARB_OK);
    CHECK(nvmearb_ctrl_add_sq_region(&ctrl, SQ, 8, &number) == NVMEARB_OK);
    CHECK(nvmearb_ctrl_add_sq_region(&ctrl, 0x5000, 8, &number) == NVMEARB_OK);
    CHECK(nvmearb_ctrl_add_cq_region(&ctrl, CQ, 8, &number) == NVMEARB_OK);
    CHECK(goes_to(NVMEARB_CARRIED_OUT, NVMEARB_OPC_CREATE_CQ, CQ, 7u << 16 | 1, 1, 1));
    CHECK(goes_to(NVMEARB_CARRIED_OUT, NVMEARB_OPC_CREATE_SQ, SQ, 7u << 16 | 1, 0x00010001 | 3 << 1, 2));
    CHECK(goes_to(NVMEARB_CARRIED_OUT, NVMEARB_OPC_CREATE_SQ, 0x5000, 7u << 16 | 2, 0x00010001, 3));
    entry_of(NVMEARB_OPC_READ, 7, 0, 0, 0, bytes);
    CHECK(nvmearb_ctrl_sq_tail(&ctrl, 1, 3) == NVMEARB_OK && nvmearb_ctrl_sq_tail(&ctrl, 2, 1) == NVMEARB_OK);
    for (int k = 0; k < 3; k++)
        CHECK(nvmearb_ctrl_fetched(&ctrl, many, POOL, 1, bytes, 0) == NVMEARB_OK);
    CHECK(is_picked(1, 1) && is_done());
    CHECK(nvmearb_ctrl_fetched(&ctrl, many, POOL, 2, bytes, 0) == NVMEARB_OK);
    CHECK(picks(1, &step) == NVMEARB_OK && step.pick.qid == 2 && step.pick.n == 1 && is_done());
    CHECK(is_picked(2, 1) && is_done()); /* the weight of Low is 1 */
}

int main(void)
{
    a_device_with_room_for_one();
    a_device_that_is_full();
    an_urgent_command();
    return told();
}
