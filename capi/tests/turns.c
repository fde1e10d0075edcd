/*
 * The next queue with an entry to fetch, and the next with a completion to post. Queues take turns by ascending
 * identifier, and 0 comes behind 64.
 */
#include "ctrl.h"
#include "tell.h"

/* Where queues 2 and 3 lie, and completion queue 2. */
enum { SQ_2 = 0x5000, SQ_3 = 0x6000, CQ_2 = 0x7000 };

static const uint16_t any[] = {0, 1, 2, 63, 64, 65, 65535};
enum { ANY = sizeof any / sizeof *any };

/* Behind this queue that one has the next turn, whose entry in this slot is fetched next. */
static int comes(uint16_t last, uint16_t qid, uint16_t slot)
{
    uint16_t told = last, at = 0xeeee;
    return nvmearb_ctrl_next_fetch(&ctrl, &told, &at) == NVMEARB_OK && told == qid && at == slot;
}

/* No queue has one, and nothing is written. */
static int none_comes(uint16_t last)
{
    uint16_t told = last, at = 0xeeee;
    return nvmearb_ctrl_next_fetch(&ctrl, &told, &at) == NVMEARB_NONE && told == last && at == 0xeeee;
}

/* The Read in that slot is fetched. */
static int fetches(uint16_t last, uint16_t qid, uint16_t slot, uint16_t cid)
{
    return comes(last, qid, slot) && fetched(qid, slot, NVMEARB_OPC_READ, cid, 0, 0, 0);
}

/* The same of completion queues. */
static int is_due(uint16_t last, uint16_t cqid)
{
    uint16_t told = last;
    return nvmearb_ctrl_next_to_post(&ctrl, slots, SLOTS, &told) == NVMEARB_OK && told == cqid;
}

static int none_due(uint16_t last)
{
    uint16_t told = last;
    return nvmearb_ctrl_next_to_post(&ctrl, slots, SLOTS, &told) == NVMEARB_NONE && told == last;
}

static int posts(uint16_t last, uint16_t cqid, uint16_t slot)
{
    nvmearb_post post;
    return is_due(last, cqid) && nvmearb_ctrl_post(&ctrl, slots, SLOTS, cqid, &post) == NVMEARB_OK && post.slot == slot;
}

static int rings(uint16_t qid, uint16_t tail)
{
    return nvmearb_ctrl_sq_tail(&ctrl, qid, tail) == NVMEARB_OK;
}

/* All that waits is picked, and the device ends it. Returns how many commands it took. */
static unsigned serve_all(void)
{
    nvmearb_step step;
    nvmearb_command command;
    unsigned n = 0;
    while (nvmearb_ctrl_pick(&ctrl, slots, SLOTS, NVMEARB_NO_LIMIT, &step) == NVMEARB_OK)
        for (; nvmearb_ctrl_take(&ctrl, slots, SLOTS, &command) == NVMEARB_OK; n++)
            CHECK(completes(command.tag, success, 0, NVMEARB_OK));
    return n;
}

/* The host has created three submission queues, of 4 slots each. Queues 1 and 3 post to completion queue 1, 2 to 2. */
static int are_three(void)
{
    uint16_t number;
    return is_prepared(NVMEARB_WEIGHTED) && nvmearb_ctrl_add_sq_region(&ctrl, SQ_2, 4, &number) == NVMEARB_OK &&
           nvmearb_ctrl_add_sq_region(&ctrl, SQ_3, 4, &number) == NVMEARB_OK &&
           nvmearb_ctrl_add_cq_region(&ctrl, CQ_2, 4, &number) == NVMEARB_OK && rings(0, 5) &&
           fetched(0, 2, NVMEARB_OPC_CREATE_CQ, 12, CQ_2, 0x00030002, 0x00000001) && carried_out(NVMEARB_OPEN_CQ) &&
           fetched(0, 3, NVMEARB_OPC_CREATE_SQ, 13, SQ_2, 0x00030002, 0x00020001) && carried_out(NVMEARB_OPEN_SQ) &&
           fetched(0, 4, NVMEARB_OPC_CREATE_SQ, 14, SQ_3, 0x00030003, 0x00010001) && carried_out(NVMEARB_OPEN_SQ) &&
           posted(0, 2, 5, 12, 1, success, 0) && posted(0, 3, 5, 13, 1, success, 0) &&
           posted(0, 4, 5, 14, 1, success, 0) && nvmearb_ctrl_cq_head(&ctrl, 0, 5) == NVMEARB_OK;
}

static void no_work(void)
{
    CHECK(is_prepared(NVMEARB_ROUND_ROBIN));
    for (unsigned k = 0; k < ANY; k++)
        CHECK(none_comes(any[k]) && none_due(any[k]));
}

/* A queue alone has each turn, whichever had the last one. */
static void one_queue(void)
{
    uint32_t tag = 0;
    CHECK(is_prepared(NVMEARB_ROUND_ROBIN) && rings(1, 2));
    for (unsigned k = 0; k < ANY; k++)
        CHECK(comes(any[k], 1, 0) && none_due(any[k]));
    CHECK(fetches(1, 1, 0, 20) && fetches(1, 1, 1, 21) && none_comes(1) && picked(2));
    CHECK(taken(20, &tag) && none_due(1) && completes(tag, success, 0, NVMEARB_OK));
    for (unsigned k = 0; k < ANY; k++)
        CHECK(is_due(any[k], 1) && none_comes(any[k]));
    CHECK(posts(1, 1, 0) && none_due(1));
}

/* Of several each has its turn. One that is at its depth has none until it may hold another slot. */
static void fetches_in_turn(void)
{
    uint16_t qid = NVMEARB_MAX_IO_QUEUES, slot = 0;
    unsigned told[4] = {0};
    CHECK(are_three() && rings(1, 2) && rings(2, 2) && rings(3, 1));
    CHECK(fetches(64, 1, 0, 20) && fetches(1, 2, 0, 30) && fetches(2, 3, 0, 40) && fetches(3, 1, 1, 21));
    CHECK(fetches(1, 2, 1, 31) && none_comes(2) && none_comes(64));
    CHECK(nvmearb_ctrl_set_depth(&ctrl, 1, 2) == NVMEARB_OK && rings(1, 3) && rings(2, 3) && rings(3, 2) && rings(0, 6));
    CHECK(comes(0, 2, 2) && comes(2, 3, 1) && comes(3, 0, 5) && comes(64, 0, 5) && comes(65535, 0, 5));
    CHECK(nvmearb_ctrl_set_depth(&ctrl, 1, 3) == NVMEARB_OK && comes(0, 1, 2));
    /* each within as many calls as there are queues, if all keep what they have */
    for (unsigned k = 0; k < NVMEARB_MAX_QUEUES; k++) {
        uint16_t want = (uint16_t)(k % 4);
        CHECK(nvmearb_ctrl_next_fetch(&ctrl, &qid, &slot) == NVMEARB_OK && qid == want);
        told[want]++;
    }
    CHECK(told[0] == 17 && told[1] == 16 && told[2] == 16 && told[3] == 16);
}

/* One whose ring is full has no turn, until the host has freed a slot. */
static void posts_in_turn(void)
{
    CHECK(are_three() && rings(1, 3) && rings(2, 2) && rings(3, 1));
    CHECK(fetches(0, 1, 0, 20) && fetches(1, 2, 0, 30) && fetches(2, 3, 0, 40) && fetches(3, 1, 1, 21));
    CHECK(fetches(1, 2, 1, 31) && fetches(2, 1, 2, 22) && none_comes(1) && serve_all() == 6 && rings(0, 6));
    CHECK(fetched(0, 5, NVMEARB_OPC_GET_FEATURES, 15, 0, NVMEARB_FID_ARBITRATION, 0) && carried_out(NVMEARB_DONE));
    CHECK(posts(64, 0, 5) && posts(0, 1, 0) && posts(1, 2, 0) && posts(2, 1, 1) && posts(1, 2, 1) && posts(2, 1, 2));
    CHECK(none_due(1) && none_due(64) && nvmearb_ctrl_cq_head(&ctrl, 1, 1) == NVMEARB_OK);
    CHECK(posts(1, 1, 3) && none_due(1));
}

/* Nothing more is fetched of a queue once its deletion began, but what it held is posted. */
static void a_deleted_queue(void)
{
    static const nvmearb_status deleted = {NVMEARB_SCT_GENERIC, NVMEARB_SC_ABORTED_BY_DELETION};
    uint16_t gone = 0xeeee;
    CHECK(are_three() && rings(2, 2) && rings(3, 1) && fetches(1, 2, 0, 30) && comes(1, 2, 1) && comes(2, 3, 0));
    CHECK(rings(0, 6) && fetched(0, 5, NVMEARB_OPC_DELETE_SQ, 15, 0, 2, 0) && none_due(0));
    CHECK(carried_out(NVMEARB_BEGIN_DELETE) && comes(1, 3, 0) && comes(2, 3, 0) && comes(3, 3, 0));
    CHECK(is_due(0, 2) && posted(2, 0, 1, 30, 1, deleted, 0) && none_due(2));
    CHECK(nvmearb_ctrl_finish(&ctrl, slots, SLOTS, &gone) == NVMEARB_OK && gone == 2);
    CHECK(is_due(2, 0) && posted(0, 5, 6, 15, 1, success, 0) && none_due(0));
    CHECK(fetches(0, 3, 0, 40) && none_comes(3) && nvmearb_ctrl_verify(&ctrl, slots, SLOTS) == NVMEARB_OK);
}

/* A fetch takes the last free slot: no queue has a turn until a completion is posted. */
static void no_free_slot(void)
{
    uint8_t bytes[NVMEARB_SQE_BYTES];
    uint16_t qid = 64, slot = 0;
    nvmearb_step step;
    nvmearb_post post;
    entry_of(NVMEARB_OPC_GET_FEATURES, 1, 0, NVMEARB_FID_ARBITRATION, 0, bytes);
    CHECK(nvmearb_ctrl_init(&ctrl, slots, 1, &config) == NVMEARB_OK && rings(0, 2) && comes(64, 0, 0));
    CHECK(nvmearb_ctrl_fetched(&ctrl, slots, 1, 0, bytes, 1001) == NVMEARB_OK && none_comes(64));
    CHECK(nvmearb_ctrl_next_to_post(&ctrl, slots, 1, &qid) == NVMEARB_NONE && qid == 64);
    CHECK(nvmearb_ctrl_pick(&ctrl, slots, 1, 1, &step) == NVMEARB_OK && none_comes(0));
    CHECK(nvmearb_ctrl_next_to_post(&ctrl, slots, 1, &qid) == NVMEARB_OK && qid == 0);
    CHECK(nvmearb_ctrl_post(&ctrl, slots, 1, qid, &post) == NVMEARB_OK);
    CHECK(nvmearb_ctrl_next_fetch(&ctrl, &qid, &slot) == NVMEARB_OK && qid == 0 && slot == 1);
}

int main(void)
{
    no_work();
    one_queue();
    fetches_in_turn();
    posts_in_turn();
    a_deleted_queue();
    no_free_slot();
    return told();
}
