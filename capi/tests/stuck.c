/*
 * What may seem to be stuck, and how each ends: what the device keeps, queues that it holds, pools with fewer slots than
 * the depths have together, event requests that take the whole depth of the admin queue, deletions that wait.
 */
#include "drive.h"

enum { RING = 300, FEW = 8 };

static const nvmearb_status deleted = {NVMEARB_SCT_GENERIC, NVMEARB_SC_ABORTED_BY_DELETION};
static const nvmearb_status bad_deletion = {NVMEARB_SCT_COMMAND_SPECIFIC, NVMEARB_SC_INVALID_QUEUE_DELETION};

static uint32_t tags[4096];

/* The device takes n commands that were picked, and keeps them. */
static int keeps(unsigned n)
{
    for (unsigned k = 0; k < n; k++)
        if (!takes(&tags[k]))
            return 0;
    return 1;
}

/* The device keeps 194 commands, and 256 more wait: the next pick is a whole burst of 64. */
static void a_burst_beside_what_is_kept(void)
{
    nvmearb_config it = config;
    nvmearb_step step;
    it.cdw11 = 6, it.depth = 512;
    CHECK(is_made(&it, 1024) && has_queues(1, 1024, 1024, 0) && rings(1, 194) && fetch_all(1) == 194);
    CHECK(take_all(tags) == 194 && rings(1, 256) && fetch_all(1) == 256);
    CHECK(picks(NVMEARB_NO_LIMIT, NVMEARB_PICKED, &step) && step.pick.qid == 1 && step.pick.n == 64);
}

/* The device keeps as many commands as there may be. An Identify that comes then is served, and so is an Abort. */
static void admin_commands_beside_what_is_kept(uint32_t mechanism)
{
    nvmearb_config it = config;
    uint32_t tag = 0;
    it.mechanism = mechanism, it.depth = NVMEARB_MAX_DEPTH;
    CHECK(is_made(&it, NVMEARB_MAX_DEPTH + ADMIN_RING) && has_queues(1, 4096, 4096, 0));
    CHECK(nvmearb_ctrl_own_opcode(&ctrl, NVMEARB_OPC_ABORT) == NVMEARB_OK && rings(1, NVMEARB_MAX_DEPTH));
    for (unsigned taken = 0; taken < NVMEARB_MAX_DEPTH; taken += NVMEARB_MAX_COUNT) {
        unsigned n = NVMEARB_MAX_DEPTH - taken < NVMEARB_MAX_COUNT ? NVMEARB_MAX_DEPTH - taken : NVMEARB_MAX_COUNT;
        CHECK(fetch_all(1) == n && take_all(tags) == n);
        CHECK(submits(IDENTIFY, 0, 0) && is_passed(&tag) && completes(tag, success, 0) && last_answered(0));
        CHECK(submits(NVMEARB_OPC_ABORT, 1, 0) && is_passed(&tag) && completes(tag, success, 1) && last_answered(1));
    }
}

/* The Delete of a queue that is held ends what waits in it. */
static void a_held_queue_is_deleted(void)
{
    CHECK(is_made(&config, 1024) && has_queues(1, RING, RING, 0) && rings(1, 16) && fetch_all(1) == 16);
    CHECK(nvmearb_ctrl_hold(&ctrl, 1, 1) == NVMEARB_OK && picks_none(1, NVMEARB_NONE));
    CHECK(submits(NVMEARB_OPC_DELETE_SQ, 1, 0) && comes_to(NVMEARB_BEGIN_DELETE) && finishes_none());
    for (uint16_t k = 0; k < 16; k++)
        CHECK(finishes_none() && is_answered(1, k, deleted, 0));
    CHECK(finishes(1) && last_answered(0));
}

/* With fewer slots than the depths have together, a queue that is held keeps even its own Delete out, until it isn't. */
static void a_pool_that_is_too_small(void)
{
    nvmearb_config it = config;
    it.depth = 16;
    CHECK(is_made(&it, 16) && has_queues(1, RING, RING, 0) && nvmearb_ctrl_hold(&ctrl, 1, 1) == NVMEARB_OK);
    CHECK(rings(1, 20) && fetch_all(1) == 16 && !submits(NVMEARB_OPC_DELETE_SQ, 1, 0) && picks_none(1, NVMEARB_NONE));
    CHECK(nvmearb_ctrl_hold(&ctrl, 1, 0) == NVMEARB_OK && serve_all() == 16 && post_all(1, 1) == 16);
    CHECK(is_fetched(0, NVMEARB_OPC_DELETE_SQ, 1, 0) && comes_to(NVMEARB_BEGIN_DELETE));
    CHECK(finishes(1) && last_answered(0));
    /* one slot more is enough for it */
    CHECK(is_made(&it, 17) && has_queues(1, RING, RING, 0) && nvmearb_ctrl_hold(&ctrl, 1, 1) == NVMEARB_OK);
    CHECK(rings(1, 20) && fetch_all(1) == 16 && submits(NVMEARB_OPC_DELETE_SQ, 1, 0) && comes_to(NVMEARB_BEGIN_DELETE));
    CHECK(post_all(1, 1) == 16 && finishes(1) && last_answered(0));
}

/* Three queues that are always full are served alike, from as many slots as they need. */
static void three_busy_queues(void)
{
    nvmearb_config it = config;
    unsigned served[4] = {0};
    it.depth = FEW;
    CHECK(is_made(&it, 3 * FEW + ADMIN_RING));
    for (uint16_t qid = 1; qid <= 3; qid++)
        CHECK(has_queues(qid, RING, RING, 0) && rings(qid, RING - 1));
    for (unsigned pass = 0; pass < 10000; pass++) {
        nvmearb_step step;
        for (uint16_t qid = 1; qid <= 3; qid++)
            fetch_all(qid);
        CHECK(picks(1, NVMEARB_PICKED, &step) && keeps(1) && completes(tags[0], success, 0));
        served[step.pick.qid]++;
        CHECK(post_all(step.pick.qid, 1) == 1 && rings(step.pick.qid, 1));
    }
    CHECK(served[1] == 3334 && served[2] == 3333 && served[3] == 3333);
}

/* 64 queues of depth 1 with no limit on the burst are served alike too. */
static void queues_of_depth_1(void)
{
    unsigned served[NVMEARB_MAX_QUEUES] = {0}, uneven = 0;
    nvmearb_config it = config;
    it.depth = 1;
    CHECK(is_made(&it, 64 + ADMIN_RING));
    for (uint16_t qid = 1; qid <= 64; qid++)
        CHECK(has_queues(qid, RING, RING, 0) && rings(qid, RING - 1));
    for (unsigned pass = 0; pass < 6400; pass++) {
        nvmearb_step step;
        for (uint16_t qid = 1; qid <= 64; qid++)
            fetch_all(qid);
        CHECK(picks(NVMEARB_NO_LIMIT, NVMEARB_PICKED, &step) && step.pick.n == 1 && keeps(1));
        CHECK(completes(tags[0], success, 0) && post_all(step.pick.qid, 1) == 1);
        served[step.pick.qid]++;
    }
    for (uint16_t qid = 1; qid <= 64; qid++)
        uneven += served[qid] != 100;
    CHECK(uneven == 0);
}

/* Event requests take the whole depth of the admin queue: it goes on once its depth is larger, or one of them ends. */
static void requests_of_the_whole_depth(void)
{
    nvmearb_config it = config;
    it.admin_depth = 4;
    CHECK(is_made(&it, 1024));
    for (unsigned k = 0; k < 4; k++)
        CHECK(submits(EVENT_REQUEST, 0, 0) && is_passed(&tags[k]));
    CHECK(!submits(IDENTIFY, 0, 0) && nvmearb_ctrl_set_depth(&ctrl, 0, 5) == NVMEARB_OK);
    CHECK(is_fetched(0, IDENTIFY, 0, 0) && is_passed(&tags[4]) && completes(tags[4], success, 0) && last_answered(0));
    CHECK(nvmearb_ctrl_set_depth(&ctrl, 0, 4) == NVMEARB_OK && !submits(IDENTIFY, 0, 0));
    CHECK(completes(tags[2], success, 0) && is_answered(0, 2, success, 0) && is_fetched(0, IDENTIFY, 0, 0));
    CHECK(is_passed(&tags[2]) && completes(tags[2], success, 0) && last_answered(0));
}

/* So it is with a pool of as many slots as requests. */
static void requests_of_the_whole_pool(void)
{
    CHECK(is_made(&config, 2));
    for (unsigned k = 0; k < 2; k++)
        CHECK(submits(EVENT_REQUEST, 0, 0) && is_passed(&tags[k]));
    CHECK(!submits(IDENTIFY, 0, 0) && completes(tags[0], success, 0) && is_answered(0, 0, success, 0));
    CHECK(is_fetched(0, IDENTIFY, 0, 0) && is_passed(&tags[0]) && completes(tags[0], success, 0) && last_answered(0));
}

/* Two deletions wait for the device. Until both have ended, the Delete of their completion queue is refused. */
static void deletions_that_wait(void)
{
    uint32_t create = (RING - 1) << 16 | 2;
    CHECK(is_made(&config, 1024) && has_queues(1, RING, RING, 0));
    queues[2].sq_slots = RING;
    CHECK(submits(NVMEARB_OPC_CREATE_SQ, create, 1 << 16 | 1) && comes_to(NVMEARB_OPEN_SQ) && last_answered(0));
    CHECK(rings(1, 1) && rings(2, 1) && fetch_all(1) == 1 && fetch_all(2) == 1 && take_all(tags) == 2);
    for (uint16_t qid = 1; qid <= 2; qid++)
        CHECK(submits(NVMEARB_OPC_DELETE_SQ, qid, 0) && comes_to(NVMEARB_BEGIN_DELETE) && finishes_none());
    CHECK(submits(NVMEARB_OPC_DELETE_CQ, 1, 0) && comes_to(NVMEARB_DONE) && is_answered(0, last(), bad_deletion, 0));
    CHECK(completes(tags[1], success, 0) && is_answered(1, 0, success, 0) && finishes(2) && finishes_none());
    CHECK(is_answered(0, (uint16_t)(last() - 1), success, 0));
    CHECK(submits(NVMEARB_OPC_DELETE_CQ, 1, 0) && comes_to(NVMEARB_DONE) && is_answered(0, last(), bad_deletion, 0));
    CHECK(completes(tags[0], success, 0) && is_answered(1, 0, success, 0) && finishes(1));
    CHECK(is_answered(0, (uint16_t)(last() - 3), success, 0));
    CHECK(submits(NVMEARB_OPC_DELETE_CQ, 1, 0) && comes_to(NVMEARB_CLOSE_CQ) && last_answered(0));
}

int main(void)
{
    a_burst_beside_what_is_kept();
    admin_commands_beside_what_is_kept(NVMEARB_ROUND_ROBIN);
    admin_commands_beside_what_is_kept(NVMEARB_WEIGHTED);
    a_held_queue_is_deleted();
    a_pool_that_is_too_small();
    three_busy_queues();
    queues_of_depth_1();
    requests_of_the_whole_depth();
    requests_of_the_whole_pool();
    deletions_that_wait();
    return told();
}
