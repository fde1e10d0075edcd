/*
 * No queue stops all: one whose host reads no completions, or whose commands the device can't end, stops at its depth,
 * and no other does. The admin queue goes on, and with it Aborts of its commands and its Delete.
 */
#include "drive.h"

enum { QUEUES = 64, DEPTH = 256, RING = DEPTH + 1, POOL = QUEUES * DEPTH + ADMIN_RING };
enum { STOPPED = 2, OTHER = 3, FEW = 2 }; /* the queue that stops, with a completion queue of few slots; another one */

static const nvmearb_status requested = {NVMEARB_SCT_GENERIC, NVMEARB_SC_ABORT_REQUESTED};
static const nvmearb_status deleted = {NVMEARB_SCT_GENERIC, NVMEARB_SC_ABORTED_BY_DELETION};

/* 64 queues of one depth, each with a completion queue. Just as many slots are there as the depths have together. */
static int are_there(void)
{
    int is_well = is_made(&config, POOL);
    for (uint16_t qid = 1; qid <= QUEUES; qid++)
        is_well = is_well && has_queues(qid, RING, qid == STOPPED ? FEW : RING, 0);
    return is_well;
}

/* A queue gets as many commands as its depth once more, of which so many are fetched. */
static int gets(uint16_t qid, unsigned fetched)
{
    return rings(qid, DEPTH) && fetch_all(qid) == fetched;
}

/* Another queue goes on, and so does the admin queue. */
static void others_go_on(void)
{
    CHECK(gets(OTHER, DEPTH) && serve_all() == DEPTH && post_all(OTHER, 1) == DEPTH && admin_goes_on(7));
}

/* The host of a queue of depth 6 reads nothing: its ring has room for 3 completions, and 6 commands wait for it. */
static void of_few_slots(void)
{
    nvmearb_config it = config;
    it.depth = 6, it.admin_depth = 4;
    CHECK(is_made(&it, 16) && has_queues(1, 4, 4, 0) && has_queues(2, 4, 4, 0));
    for (unsigned n = 0; n < 9; n++)
        CHECK(rings(1, 1) && fetch_all(1) == 1 && serve_all() == 1 && post_all(1, 0) == (n < 3));
    CHECK(rings(1, 1) && fetch_all(1) == 0);
    for (unsigned n = 0; n < 20; n++)
        CHECK(rings(2, 1) && fetch_all(2) == 1 && serve_all() == 1 && post_all(2, 1) == 1 && fetch_all(1) == 0);
    CHECK(admin_goes_on(7) && nvmearb_ctrl_cq_head(&ctrl, 1, 1) == NVMEARB_OK);
    CHECK(post_all(1, 0) == 1 && fetch_all(1) == 1 && serve_all() == 1 && post_all(1, 0) == 0);
}

/* One of 64 queues. */
static void of_64_queues(void)
{
    static const unsigned unread[] = {DEPTH, 1, 0, 0}; /* one completion is posted, which leaves a slot */
    CHECK(are_there());
    for (unsigned round = 0; round < 4; round++) {
        for (uint16_t qid = 1; qid <= QUEUES; qid++) {
            unsigned may_come = qid == STOPPED ? unread[round] : DEPTH;
            CHECK(may_come ? gets(qid, may_come) : fetch_all(qid) == 0);
        }
        CHECK(serve_all() == (QUEUES - 1) * DEPTH + unread[round]);
        for (uint16_t qid = 1; qid <= QUEUES; qid++)
            CHECK(post_all(qid, qid != STOPPED) == (qid != STOPPED ? DEPTH : round == 0));
    }
    CHECK(nvmearb_ctrl_cq_head(&ctrl, STOPPED, 1) == NVMEARB_OK && post_all(STOPPED, 1) == DEPTH);
    CHECK(fetch_all(STOPPED) == DEPTH - 1 && serve_all() == DEPTH - 1 && post_all(STOPPED, 1) == DEPTH - 1);
}

/* The host reads no completion: one is posted, the others are ready, and one command more waits. */
static int is_not_read(void)
{
    return are_there() && gets(STOPPED, DEPTH) && serve_all() == DEPTH && post_all(STOPPED, 0) == 1 && gets(STOPPED, 1);
}

/* Its Delete is picked, and ends once the host has read what was left. */
static void its_delete(void)
{
    uint16_t delete;
    CHECK(is_not_read() && submits(NVMEARB_OPC_DELETE_SQ, STOPPED, 0) && comes_to(NVMEARB_BEGIN_DELETE));
    delete = last();
    CHECK(post_all(STOPPED, 0) == 0 && finishes_none());
    others_go_on();
    others_go_on();
    CHECK(nvmearb_ctrl_cq_head(&ctrl, STOPPED, 1) == NVMEARB_OK);
    for (uint16_t k = 1; k < DEPTH; k++)
        CHECK(finishes_none() && is_answered(STOPPED, k, success, 0));
    CHECK(is_answered(STOPPED, DEPTH, deleted, 0) && finishes(STOPPED) && is_answered(0, delete, success, 0));
    CHECK(submits(NVMEARB_OPC_DELETE_CQ, STOPPED, 0) && comes_to(NVMEARB_CLOSE_CQ) && last_answered(0));
}

/* An Abort takes the command that waits. One of a command that was answered aborts nothing. */
static void its_aborts(void)
{
    CHECK(is_not_read());
    CHECK(submits(NVMEARB_OPC_ABORT, DEPTH << 16 | STOPPED, 0) && comes_to(NVMEARB_ABORT) && last_answered(0));
    CHECK(submits(NVMEARB_OPC_ABORT, 9u << 16 | STOPPED, 0) && comes_to(NVMEARB_ABORT) && last_answered(1));
    others_go_on();
    CHECK(nvmearb_ctrl_cq_head(&ctrl, STOPPED, 1) == NVMEARB_OK);
    for (uint16_t k = 1; k < DEPTH; k++)
        CHECK(is_answered(STOPPED, k, success, 0));
    CHECK(is_answered(STOPPED, DEPTH, requested, 0));
}

/* An Abort of a command that the device has is picked, and the device ends both. */
static int aborts(uint16_t cid)
{
    uint32_t abort, named;
    return submits(NVMEARB_OPC_ABORT, (uint32_t)cid << 16 | STOPPED, 0) && is_passed(&abort) &&
           nvmearb_ctrl_named(&ctrl, slots, count, STOPPED, cid, &named) == NVMEARB_OK &&
           completes(named, requested, 0) && completes(abort, success, 0) && last_answered(0) &&
           is_answered(STOPPED, cid, requested, 0);
}

/* The device ends no command of a queue: Aborts end those that it can take back, and its Delete waits for the others. */
static void commands_without_end(void)
{
    static uint32_t tags[DEPTH + 2];
    uint16_t delete;
    CHECK(are_there() && nvmearb_ctrl_own_opcode(&ctrl, NVMEARB_OPC_ABORT) == NVMEARB_OK);
    CHECK(gets(STOPPED, DEPTH) && take_all(tags) == DEPTH && gets(STOPPED, 0));
    others_go_on();
    CHECK(aborts(0) && aborts(1) && fetch_all(STOPPED) == 2 && take_all(tags + DEPTH) == 2);
    CHECK(submits(NVMEARB_OPC_DELETE_SQ, STOPPED, 0) && comes_to(NVMEARB_BEGIN_DELETE));
    delete = last();
    others_go_on();
    for (uint16_t k = 2; k < DEPTH + 2; k++)
        CHECK(finishes_none() && completes(tags[k], success, 0) && is_answered(STOPPED, k, success, 0));
    CHECK(finishes(STOPPED) && is_answered(0, delete, success, 0));
}

int main(void)
{
    of_few_slots();
    of_64_queues();
    its_delete();
    its_aborts();
    commands_without_end();
    return told();
}
