/* A controller: each call with its refusals, and random calls on random states. Values are the specification's. */
#include "ctrl.h"
#include "every.h"
#include "tell.h"

static nvmearb_slot many[NVMEARB_MAX_SLOTS + 1];

_Static_assert(sizeof(nvmearb_slot) == 88, "nvmearb_slot");
_Static_assert(sizeof(nvmearb_ctrl) == 6016, "nvmearb_ctrl");
_Static_assert(sizeof(nvmearb_config) == 48 && offsetof(nvmearb_config, admin_depth) == 46, "nvmearb_config");
_Static_assert(sizeof(nvmearb_asked) == 16 && offsetof(nvmearb_asked, interrupts) == 12, "nvmearb_asked");
_Static_assert(sizeof(nvmearb_step) == 56 && offsetof(nvmearb_step, asked) == 40, "nvmearb_step");
_Static_assert(sizeof(nvmearb_command) == 72 && offsetof(nvmearb_command, tag) == 68, "nvmearb_command");
_Static_assert(sizeof(nvmearb_post) == 28 && offsetof(nvmearb_post, slot) == 24, "nvmearb_post");

static uint32_t init_with(nvmearb_config with, size_t count)
{
    return nvmearb_ctrl_init(&ctrl, slots, count, &with);
}

/* What isn't a configuration, in the order in which it is refused. */
static void wrong_configurations(void)
{
    nvmearb_config it = config;
    nvmearb_ctrl before;
    memset(&ctrl, 0, sizeof ctrl);
    before = ctrl;
    CHECK(init_with(it, 0) == NVMEARB_EARG);
    it.mechanism = 0, it.asq.slots = 1;
    CHECK(init_with(it, SLOTS) == NVMEARB_EARG);
    it.mechanism = 3;
    CHECK(init_with(it, SLOTS) == NVMEARB_EARG);
    it = config, it.nsq = 0;
    CHECK(init_with(it, SLOTS) == NVMEARB_EARG);
    it.nsq = 65;
    CHECK(init_with(it, SLOTS) == NVMEARB_EARG);
    it = config, it.ncq = 65;
    CHECK(init_with(it, SLOTS) == NVMEARB_EARG);
    it = config, it.depth = 0;
    CHECK(init_with(it, SLOTS) == NVMEARB_EARG);
    it.depth = 4096;
    CHECK(init_with(it, SLOTS) == NVMEARB_EARG);
    it = config, it.admin_depth = 0;
    CHECK(init_with(it, SLOTS) == NVMEARB_EARG);
    it.admin_depth = 4096;
    CHECK(init_with(it, SLOTS) == NVMEARB_EARG);
    it = config, it.asq.slots = 1, it.acq.address = ASQ;
    CHECK(init_with(it, SLOTS) == NVMEARB_ESIZE);
    it.asq.slots = 4096, it.acq.slots = 1;
    CHECK(init_with(it, SLOTS) == NVMEARB_EUSED);
    it.acq.address = ACQ;
    CHECK(init_with(it, SLOTS) == NVMEARB_ESIZE);
    it.acq.slots = 4097;
    CHECK(init_with(it, SLOTS) == NVMEARB_ESIZE);
    CHECK(memcmp(&ctrl, &before, sizeof ctrl) == 0);
    it.acq.slots = 2, it.nsq = 64, it.ncq = 64, it.depth = 4095, it.admin_depth = 4095;
    it.mechanism = NVMEARB_WEIGHTED;
    CHECK(init_with(it, 1) == NVMEARB_OK);
    CHECK(nvmearb_ctrl_init(&ctrl, many, NVMEARB_MAX_SLOTS + 1, &it) == NVMEARB_EARG);
    CHECK(nvmearb_ctrl_init(&ctrl, many, NVMEARB_MAX_SLOTS, &it) == NVMEARB_OK);
}

/* The regions that can't be added. */
static void regions(void)
{
    uint16_t number = 0xeeee;
    CHECK(nvmearb_ctrl_init(&ctrl, slots, SLOTS, &config) == NVMEARB_OK);
    CHECK(nvmearb_ctrl_add_sq_region(&ctrl, ACQ, 4, &number) == NVMEARB_EUSED);
    CHECK(nvmearb_ctrl_add_cq_region(&ctrl, ASQ, 1, &number) == NVMEARB_EUSED);
    CHECK(nvmearb_ctrl_add_sq_region(&ctrl, SQ, 1, &number) == NVMEARB_ESIZE);
    CHECK(nvmearb_ctrl_add_cq_region(&ctrl, CQ, 4097, &number) == NVMEARB_ESIZE && number == 0xeeee);
    for (uint16_t k = 1; k < NVMEARB_MAX_REGIONS; k++) {
        CHECK(nvmearb_ctrl_add_sq_region(&ctrl, 0x10000u * k, 4096, &number) == NVMEARB_OK && number == k);
    }
    CHECK(nvmearb_ctrl_add_sq_region(&ctrl, SQ, 4, &number) == NVMEARB_EMANY && number == 64);
    CHECK(nvmearb_ctrl_add_cq_region(&ctrl, 0x10000, 4, &number) == NVMEARB_EUSED);
    CHECK(nvmearb_ctrl_add_cq_region(&ctrl, CQ, 2, &number) == NVMEARB_OK && number == 1);
}

/* What a pick is shown of a queue. */
static int is_seen(uint16_t qid, uint16_t priority, uint16_t count)
{
    nvmearb_seen it;
    return nvmearb_ctrl_seen(&ctrl, qid, &it) == NVMEARB_OK && it.qid == qid && it.priority == priority &&
           it.count == count;
}

/* The command with this identifier waits as the n-th in a queue. */
static int waits(uint16_t qid, uint16_t n, uint16_t cid)
{
    nvmearb_sqe entry;
    uint32_t cookie;
    return nvmearb_ctrl_waits(&ctrl, slots, SLOTS, qid, n, &entry, &cookie) == NVMEARB_OK && entry.cid == cid &&
           entry.nsid == 1 && cookie == 1000u + cid;
}

/* Three commands go through; the device answers in another order. */
static void commands_go_through(void)
{
    uint32_t tags[3] = {0};
    uint16_t region, count;
    nvmearb_command command;
    nvmearb_post post;
    CHECK(is_prepared(NVMEARB_ROUND_ROBIN));
    CHECK(nvmearb_ctrl_sq(&ctrl, 1, &region) == NVMEARB_OK && region == 1);
    CHECK(nvmearb_ctrl_cq(&ctrl, 1, &region) == NVMEARB_OK && region == 1);
    CHECK(nvmearb_ctrl_sq(&ctrl, 2, &region) == NVMEARB_NONE && nvmearb_ctrl_cq(&ctrl, 2, &region) == NVMEARB_NONE);
    /* three commands fill a ring of four slots */
    CHECK(nvmearb_ctrl_sq_tail(&ctrl, 2, 1) == NVMEARB_NONE && nvmearb_ctrl_sq_tail(&ctrl, 1, 4) == NVMEARB_EARG);
    CHECK(nvmearb_ctrl_sq_tail(&ctrl, 1, 3) == NVMEARB_OK && nvmearb_ctrl_sq_tail(&ctrl, 1, 0) == NVMEARB_EARG);
    CHECK(nvmearb_ctrl_cq_head(&ctrl, 2, 0) == NVMEARB_NONE && nvmearb_ctrl_cq_head(&ctrl, 1, 1) == NVMEARB_EARG);
    CHECK(nvmearb_ctrl_waiting(&ctrl, 1, &count) == NVMEARB_OK && count == 0);
    CHECK(read_fetched(0, 20) && read_fetched(1, 21) && read_fetched(2, 22) && none_to_fetch(1) && none_to_fetch(2));
    CHECK(nvmearb_ctrl_waiting(&ctrl, 1, &count) == NVMEARB_OK && count == 3);
    CHECK(nvmearb_ctrl_waiting(&ctrl, 2, &count) == NVMEARB_NONE && count == 3);
    CHECK(is_seen(1, NVMEARB_URGENT, 3) && waits(1, 0, 20) && waits(1, 2, 22) && !waits(1, 3, 22) && !waits(2, 0, 20));
    CHECK(nvmearb_ctrl_take(&ctrl, slots, SLOTS, &command) == NVMEARB_NONE);
    CHECK(picked(3) && picks_none(NVMEARB_BUSY) && is_seen(1, NVMEARB_URGENT, 0) && !waits(1, 0, 20));
    CHECK(taken(20, &tags[0]) && taken(21, &tags[1]) && taken(22, &tags[2]));
    CHECK(nvmearb_ctrl_take(&ctrl, slots, SLOTS, &command) == NVMEARB_NONE && picks_none(NVMEARB_NONE));
    CHECK(completes(tags[2], (nvmearb_status){8, 0}, 0, NVMEARB_EARG));
    CHECK(completes(tags[2], success, 0, NVMEARB_OK) && completes(tags[2], success, 0, NVMEARB_NONE));
    CHECK(completes(SLOTS, success, 0, NVMEARB_NONE) && completes(65535, success, 0, NVMEARB_NONE));
    CHECK(nvmearb_ctrl_command(&ctrl, slots, SLOTS, tags[2], &command) == NVMEARB_NONE);
    CHECK(completes(tags[0], success, 5, NVMEARB_OK));
    CHECK(posted(1, 0, 3, 22, 1, success, 0) && posted(1, 1, 3, 20, 1, success, 5) && none_to_post(1));
    CHECK(completes(tags[1], (nvmearb_status){NVMEARB_SCT_GENERIC, NVMEARB_SC_LBA_OUT_OF_RANGE}, 9, NVMEARB_OK));
    CHECK(posted(1, 2, 3, 21, 1, (nvmearb_status){0, 0x80}, 9));
    CHECK(none_to_post(64) && nvmearb_ctrl_post(&ctrl, slots, SLOTS, 65, &post) == NVMEARB_NONE);
    CHECK(nvmearb_ctrl_cq_head(&ctrl, 1, 3) == NVMEARB_OK);
}

/* A full completion queue, and the phase tag of the second time round. */
static void rings_go_round(void)
{
    uint32_t tag = 0;
    commands_go_through();
    for (uint16_t k = 0; k < 4; k++) { /* slots 3, 0, 1, 2 of both rings */
        uint16_t slot = (uint16_t)(3 + k) % 4, next = (uint16_t)k % 4;
        CHECK(nvmearb_ctrl_sq_tail(&ctrl, 1, next) == NVMEARB_OK && read_fetched(slot, k) && picked(1));
        CHECK(taken(k, &tag) && completes(tag, success, 0, NVMEARB_OK));
        if (k < 3) {
            CHECK(posted(1, slot, next, k, slot == 3, success, 0));
        }
    }
    /* three completions fill a queue of four slots */
    CHECK(none_to_post(1) && nvmearb_ctrl_cq_head(&ctrl, 1, 0) == NVMEARB_OK && posted(1, 2, 3, 3, 0, success, 0));
}

/* An Abort and a deletion end what waits. The admin queue goes first. */
static void abort_and_deletion(void)
{
    static const nvmearb_status requested = {NVMEARB_SCT_GENERIC, NVMEARB_SC_ABORT_REQUESTED};
    static const nvmearb_status deleted = {NVMEARB_SCT_GENERIC, NVMEARB_SC_ABORTED_BY_DELETION};
    uint16_t qid = 0xeeee;
    uint32_t tag = 0;
    CHECK(is_prepared(NVMEARB_WEIGHTED));
    CHECK(nvmearb_ctrl_sq_tail(&ctrl, 1, 3) == NVMEARB_OK);
    CHECK(read_fetched(0, 40) && picked(1) && taken(40, &tag) && read_fetched(1, 41) && read_fetched(2, 42));
    CHECK(nvmearb_ctrl_sq_tail(&ctrl, 0, 4) == NVMEARB_OK);
    CHECK(fetched(0, 2, NVMEARB_OPC_ABORT, 12, 0, 42u << 16 | 1, 0) && carried_out(NVMEARB_ABORT));
    CHECK(fetched(0, 3, NVMEARB_OPC_DELETE_SQ, 13, 0, 1, 0));
    CHECK(posted(1, 0, 3, 42, 1, requested, 0) && posted(0, 2, 4, 12, 1, success, 0));
    CHECK(nvmearb_ctrl_finish(&ctrl, slots, SLOTS, &qid) == NVMEARB_NONE && carried_out(NVMEARB_BEGIN_DELETE));
    CHECK(picks_none(NVMEARB_NONE) && nvmearb_ctrl_sq_tail(&ctrl, 1, 0) == NVMEARB_NONE);
    CHECK(none_to_fetch(0) && none_to_fetch(1) && nvmearb_ctrl_sq(&ctrl, 1, &qid) == NVMEARB_NONE);
    CHECK(posted(1, 1, 3, 41, 1, deleted, 0) && none_to_post(1));
    CHECK(nvmearb_ctrl_finish(&ctrl, slots, SLOTS, &qid) == NVMEARB_NONE && qid == 0xeeee);
    CHECK(completes(tag, success, 0, NVMEARB_OK));
    CHECK(nvmearb_ctrl_finish(&ctrl, slots, SLOTS, &qid) == NVMEARB_NONE && posted(1, 2, 3, 40, 1, success, 0));
    CHECK(none_to_post(0) && nvmearb_ctrl_finish(&ctrl, slots, SLOTS, &qid) == NVMEARB_OK && qid == 1);
    CHECK(posted(0, 3, 4, 13, 1, success, 0) && nvmearb_ctrl_finish(&ctrl, slots, SLOTS, &qid) == NVMEARB_NONE);
    /* a reset: nothing of before is left */
    CHECK(nvmearb_ctrl_init(&ctrl, slots, SLOTS, &config) == NVMEARB_OK && none_to_fetch(0) && none_to_post(0));
    CHECK(nvmearb_ctrl_sq_tail(&ctrl, 0, 1) == NVMEARB_OK);
    CHECK(fetched(0, 0, NVMEARB_OPC_GET_FEATURES, 1, 0, NVMEARB_FID_ARBITRATION, 0) && carried_out(NVMEARB_DONE));
    CHECK(posted(0, 0, 1, 1, 1, success, 7));
}

/* Two queues are deleted at once, while the device has a command of the first. The admin queue goes on. */
static void two_deletions(void)
{
    uint16_t qid = 0xeeee, number = 0;
    uint32_t tag = 0;
    CHECK(is_prepared(NVMEARB_ROUND_ROBIN));
    CHECK(nvmearb_ctrl_add_sq_region(&ctrl, SQ + 0x2000, 4, &number) == NVMEARB_OK && number == 2);
    CHECK(nvmearb_ctrl_sq_tail(&ctrl, 1, 1) == NVMEARB_OK && read_fetched(0, 40) && picked(1) && taken(40, &tag));
    CHECK(nvmearb_ctrl_sq_tail(&ctrl, 0, 6) == NVMEARB_OK);
    CHECK(fetched(0, 2, NVMEARB_OPC_CREATE_SQ, 12, SQ + 0x2000, 0x00030002, 0x00010001) &&
          carried_out(NVMEARB_OPEN_SQ));
    CHECK(fetched(0, 3, NVMEARB_OPC_DELETE_SQ, 13, 0, 1, 0) && carried_out(NVMEARB_BEGIN_DELETE));
    CHECK(fetched(0, 4, NVMEARB_OPC_DELETE_SQ, 14, 0, 2, 0) && carried_out(NVMEARB_BEGIN_DELETE));
    CHECK(fetched(0, 5, NVMEARB_OPC_GET_FEATURES, 15, 0, NVMEARB_FID_ARBITRATION, 0) && carried_out(NVMEARB_DONE));
    CHECK(posted(0, 2, 6, 12, 1, success, 0) && posted(0, 3, 6, 15, 1, success, 7) && none_to_post(0));
    CHECK(nvmearb_ctrl_finish(&ctrl, slots, SLOTS, &qid) == NVMEARB_OK && qid == 2);
    CHECK(nvmearb_ctrl_finish(&ctrl, slots, SLOTS, &qid) == NVMEARB_NONE && qid == 2);
    CHECK(posted(0, 4, 6, 14, 1, success, 0) && completes(tag, success, 0, NVMEARB_OK));
    CHECK(nvmearb_ctrl_finish(&ctrl, slots, SLOTS, &qid) == NVMEARB_NONE && posted(1, 0, 1, 40, 1, success, 0));
    CHECK(nvmearb_ctrl_finish(&ctrl, slots, SLOTS, &qid) == NVMEARB_OK && qid == 1);
    CHECK(posted(0, 5, 6, 13, 1, success, 0) && none_to_post(0) && picks_none(NVMEARB_NONE));
}

/* The depth of the admin queue, and a pool without a free slot. A command holds its slot until its completion is posted. */
static void depths_and_slots(void)
{
    nvmearb_config it = config;
    uint8_t bytes[NVMEARB_SQE_BYTES];
    nvmearb_step step;
    nvmearb_post post;
    entry_of(NVMEARB_OPC_GET_FEATURES, 1, 0, NVMEARB_FID_ARBITRATION, 0, bytes);
    it.admin_depth = 2;
    CHECK(nvmearb_ctrl_init(&ctrl, slots, 3, &it) == NVMEARB_OK && nvmearb_ctrl_sq_tail(&ctrl, 0, 7) == NVMEARB_OK);
    CHECK(nvmearb_ctrl_fetched(&ctrl, slots, 3, 0, bytes, 1001) == NVMEARB_OK);
    CHECK(nvmearb_ctrl_fetched(&ctrl, slots, 3, 0, bytes, 1001) == NVMEARB_OK && none_to_fetch(0)); /* by the depth */
    CHECK(nvmearb_ctrl_pick(&ctrl, slots, 3, NVMEARB_NO_LIMIT, &step) == NVMEARB_OK && none_to_fetch(0));
    CHECK(nvmearb_ctrl_fetched(&ctrl, slots, 3, 0, bytes, 1001) == NVMEARB_NONE);
    CHECK(nvmearb_ctrl_set_depth(&ctrl, 0, 4) == NVMEARB_OK);
    CHECK(nvmearb_ctrl_fetched(&ctrl, slots, 3, 0, bytes, 1001) == NVMEARB_OK && none_to_fetch(0)); /* by the slots */
    CHECK(nvmearb_ctrl_set_depth(&ctrl, 0, 1) == NVMEARB_OK);
    for (int k = 0; k < 3; k++) { /* three hold a slot; the next one is fetched when none does any more */
        CHECK(none_to_fetch(0) && nvmearb_ctrl_post(&ctrl, slots, 3, 0, &post) == NVMEARB_OK);
        CHECK(nvmearb_ctrl_pick(&ctrl, slots, 3, NVMEARB_NO_LIMIT, &step) == (k < 2 ? NVMEARB_OK : NVMEARB_NONE));
    }
    CHECK(nvmearb_ctrl_fetched(&ctrl, slots, 3, 0, bytes, 1001) == NVMEARB_OK && none_to_fetch(0));
}

/* The depths that there aren't, and those of queues that aren't open. */
static void wrong_depths(void)
{
    nvmearb_ctrl before;
    CHECK(is_prepared(NVMEARB_ROUND_ROBIN));
    before = ctrl;
    CHECK(nvmearb_ctrl_set_depth(&ctrl, 1, 0) == NVMEARB_EARG && nvmearb_ctrl_set_depth(&ctrl, 1, 4096) == NVMEARB_EARG);
    CHECK(nvmearb_ctrl_set_depth(&ctrl, 65, 1) == NVMEARB_EARG && nvmearb_ctrl_set_depth(&ctrl, 65535, 1) == NVMEARB_EARG);
    CHECK(memcmp(&ctrl, &before, sizeof ctrl) == 0);
    CHECK(nvmearb_ctrl_set_depth(&ctrl, 64, 4095) == NVMEARB_OK && nvmearb_ctrl_set_depth(&ctrl, 64, 1) == NVMEARB_OK);
    CHECK(nvmearb_ctrl_set_depth(&ctrl, 64, SLOTS) == NVMEARB_OK && memcmp(&ctrl, &before, sizeof ctrl) == 0);
}

/* Without the mark each call answers NVMEARB_ESTATE, and with another number of slots NVMEARB_EARG. */
static void refused_states(void)
{
    for (unsigned which = 0; which < CALLS; which++) {
        struct call it = {.ctrl = &ctrl, .slots = many, .count = SLOTS - 1}, before;
        nvmearb_ctrl was;
        CHECK(is_prepared(NVMEARB_ROUND_ROBIN));
        memcpy(&before, &it, sizeof it);
        memcpy(&was, &ctrl, sizeof ctrl);
        CHECK(which < WITHOUT_SLOTS || made(&it, which) == NVMEARB_EARG);
        it.count = before.count = SLOTS + 1;
        CHECK(which < WITHOUT_SLOTS || made(&it, which) == NVMEARB_EARG);
        CHECK(memcmp(&it, &before, sizeof it) == 0 && memcmp(&ctrl, &was, sizeof was) == 0);
        ctrl.mark ^= 1, was.mark ^= 1;
        CHECK(made(&it, which) == NVMEARB_ESTATE);
        it.count = before.count = 0;
        CHECK(made(&it, which) == NVMEARB_ESTATE);
        CHECK(memcmp(&it, &before, sizeof it) == 0 && memcmp(&ctrl, &was, sizeof was) == 0);
    }
}

/* A controller that a library of another minor version saved has another mark, and is refused. */
static void other_version(void)
{
    uint16_t region;
    CHECK(is_prepared(NVMEARB_ROUND_ROBIN));
    CHECK((ctrl.mark & 0xffffff) == (NVMEARB_VERSION & 0xffff00));
    CHECK(nvmearb_ctrl_sq(&ctrl, 0, &region) == NVMEARB_OK);
    ctrl.mark -= 0x100;
    CHECK(nvmearb_ctrl_sq(&ctrl, 0, &region) == NVMEARB_ESTATE);
    CHECK(nvmearb_ctrl_verify(&ctrl, many, SLOTS) == NVMEARB_ESTATE);
}

/* How many commands the controller has, and the last tag of each slot, by what it answered. */
struct tally {
    unsigned held, out, passed, done[CALLS];
    uint32_t tags[SLOTS];
};

/* That of a slot, mostly; else one of before, or any. */
static uint32_t draw_tag(uint64_t word, const struct tally *tally)
{
    uint32_t tag = tally->tags[word % SLOTS];
    return word >> 61 ? tag : word >> 60 & 1 ? tag - 0x10000 : (uint32_t)(word >> 8);
}

/* A tag that was written is the last one of its slot. */
static int is_last(uint32_t tag, const struct tally *tally)
{
    uint32_t slot = NVMEARB_SLOT_OF(tag);
    return slot < SLOTS && tally->tags[slot] == tag;
}

/* The slot that was told with a queue is the one that the queue has. */
static int is_fetch_of(uint16_t qid, uint16_t slot)
{
    uint16_t told;
    return qid < NVMEARB_MAX_QUEUES && nvmearb_ctrl_fetch(&ctrl, qid, &told) == NVMEARB_OK && told == slot;
}

/* The items of a call over an array are there, and fit the tally. */
static int fits_array(const struct call *it, unsigned which, struct tally *tally)
{
    int is_well = it->n > 0 && it->n <= it->room;
    for (size_t k = 0; k < it->n; k++) {
        uint32_t tag = which == TAKE_N ? it->commands[k].tag : it->posts[k].tag;
        if (which == TAKE_N && NVMEARB_SLOT_OF(tag) < SLOTS)
            tally->tags[NVMEARB_SLOT_OF(tag)] += 0x10000;
        is_well = is_well && (which <= FETCHED_N || is_last(tag, tally));
        tally->held += (which <= FETCHED_N) - (which == POST_N);
        tally->out += which == TAKE_N;
    }
    return is_well;
}

/* One call with drawn arguments over the controller. What it answers and writes fits the tally. */
static unsigned random_call(uint64_t *state, struct tally *tally)
{
    static nvmearb_ctrl ctrl_before;
    static nvmearb_slot slots_before[SLOTS];
    struct call it = {.ctrl = &ctrl, .slots = slots, .count = SLOTS}, before;
    unsigned which = draw_call(state, &it), wrong = 0;
    uint32_t told;
    int changes;
    it.tag = draw_tag(drawn(state), tally);
    memcpy(&before, &it, sizeof it);
    memcpy(&ctrl_before, &ctrl, sizeof ctrl);
    memcpy(slots_before, slots, sizeof slots);
    told = made(&it, which);
    changes = memcmp(&ctrl_before, &ctrl, sizeof ctrl) != 0 || memcmp(slots_before, slots, sizeof slots) != 0;
    wrong += told > NVMEARB_ESLOT || told == NVMEARB_ESTATE;
    wrong += which >= WITHOUT_SLOTS && it.count != SLOTS && told != NVMEARB_EARG;
    if (told != NVMEARB_OK) {
        return wrong + changes + (memcmp(&it, &before, sizeof it) != 0);
    }
    tally->done[which]++;
    wrong += which >= FETCHED_N_AT && which <= POST_N && !fits_array(&it, which, tally);
    tally->held += (which == FETCHED || which == FETCHED_AT) - (which == POST);
    tally->out += (which == TAKE) - (which == COMPLETE || which == COMPLETE_WITH);
    tally->passed += which == PICK && it.step.kind == NVMEARB_PASSED;
    if (which == TAKE && NVMEARB_SLOT_OF(it.command.tag) < SLOTS)
        tally->tags[NVMEARB_SLOT_OF(it.command.tag)] += 0x10000;
    wrong += tally->held > SLOTS || tally->out > tally->held;
    wrong += (which == TAKE || which == COMMAND) && !is_last(it.command.tag, tally);
    wrong += (which == COMPLETE || which == COMPLETE_WITH || which == COMMAND) && !is_last(it.tag, tally);
    wrong += which == POST && (!is_last(it.post.tag, tally) || it.post.slot >= 8);
    wrong += which == NAMED && !is_last(it.named, tally);
    wrong += which == NEXT_FETCH && !is_fetch_of(it.a, it.number);
    wrong += which == NEXT_TO_POST && it.a >= NVMEARB_MAX_QUEUES;
    wrong += (which == PEEK || (which >= FETCH && which < WITHOUT_SLOTS) || which >= COMMAND) && changes;
    return wrong;
}

/* A million calls with random arguments; now and then the controller is made anew. */
static void random_calls(void)
{
    uint64_t state = 5;
    unsigned wrong = 0, done = 0;
    struct tally tally = {0};
    memset(slots, 0, sizeof slots);
    for (uint32_t slot = 0; slot < SLOTS; slot++)
        tally.tags[slot] = slot;
    for (int round = 0; round < 1000000; round++) {
        if (round % 500 == 0) {
            wrong += !is_prepared(round % 1000 ? NVMEARB_WEIGHTED : NVMEARB_ROUND_ROBIN);
            tally.held = tally.out = 0;
        }
        wrong += random_call(&state, &tally);
        wrong += round % 16 == 0 && nvmearb_ctrl_verify(&ctrl, slots, SLOTS) != NVMEARB_OK;
    }
    CHECK(wrong == 0);
    for (unsigned which = 0; which < CALLS; which++) {
        done += tally.done[which] > 0;
    }
    CHECK(done == CALLS && tally.passed > 0);
}

/* Calls over drawn bytes without the mark, with any arguments. Few slots are there, and none is looked at. */
static void random_states(void)
{
    uint64_t state = 6;
    unsigned wrong = 0;
    nvmearb_ctrl made_once;
    CHECK(nvmearb_ctrl_init(&made_once, slots, SLOTS, &config) == NVMEARB_OK);
    for (int round = 0; round < 20000; round++) {
        static nvmearb_ctrl drawn_ctrl, before_ctrl;
        struct call it, before;
        draw_into(&state, &drawn_ctrl, sizeof drawn_ctrl);
        draw_into(&state, &it, sizeof it);
        drawn_ctrl.mark ^= drawn_ctrl.mark == made_once.mark;
        it.ctrl = &drawn_ctrl, it.slots = slots;
        memcpy(&before, &it, sizeof it);
        memcpy(&before_ctrl, &drawn_ctrl, sizeof drawn_ctrl);
        wrong += made(&it, (unsigned)round % CALLS) != NVMEARB_ESTATE;
        wrong += memcmp(&before, &it, sizeof it) != 0 || memcmp(&before_ctrl, &drawn_ctrl, sizeof drawn_ctrl) != 0;
    }
    CHECK(wrong == 0);
}

/* A device gives each of the four flags, and no other. The controller flags what no retry changes. */
static void flags(void)
{
    nvmearb_status unread = {NVMEARB_SCT_MEDIA, NVMEARB_SC_UNRECOVERED_READ_ERROR};
    nvmearb_status used = {NVMEARB_SCT_COMMAND_SPECIFIC, NVMEARB_SC_INVALID_QUEUE_DELETION};
    nvmearb_status no_queue = {NVMEARB_SCT_COMMAND_SPECIFIC, NVMEARB_SC_INVALID_QUEUE_IDENTIFIER};
    nvmearb_status unknown = {NVMEARB_SCT_GENERIC, NVMEARB_SC_INVALID_OPCODE};
    uint32_t tags[3];
    CHECK(is_prepared(NVMEARB_ROUND_ROBIN) && nvmearb_ctrl_sq_tail(&ctrl, 1, 3) == NVMEARB_OK);
    CHECK(fetched(1, 0, NVMEARB_OPC_READ, 20, 0, 0, 0) && fetched(1, 1, NVMEARB_OPC_READ, 21, 0, 0, 0));
    CHECK(fetched(1, 2, NVMEARB_OPC_READ, 22, 0, 0, 0) && picked(3));
    CHECK(taken(20, &tags[0]) && taken(21, &tags[1]) && taken(22, &tags[2]));
    CHECK(completes_with(tags[0], unread, 4, NVMEARB_EARG) && completes_with(tags[0], unread, 255, NVMEARB_EARG));
    CHECK(completes_with(tags[0], (nvmearb_status){8, 0}, NVMEARB_DNR, NVMEARB_EARG));
    CHECK(completes_with(SLOTS, unread, NVMEARB_DNR, NVMEARB_NONE));
    CHECK(completes_with(tags[0], unread, NVMEARB_DNR, NVMEARB_OK));
    CHECK(completes_with(tags[1], unread, NVMEARB_MORE, NVMEARB_OK));
    CHECK(completes_with(tags[2], unread, NVMEARB_DNR | NVMEARB_MORE, NVMEARB_OK));
    CHECK(posted_with(1, 0, 3, 20, 1, unread, 0, 8) && posted_with(1, 1, 3, 21, 1, unread, 0, 4));
    CHECK(posted_with(1, 2, 3, 22, 1, unread, 0, 12));
    CHECK(nvmearb_ctrl_sq_tail(&ctrl, 0, 5) == NVMEARB_OK && fetched(0, 2, NVMEARB_OPC_DELETE_CQ, 12, 0, 1, 0));
    CHECK(fetched(0, 3, NVMEARB_OPC_DELETE_SQ, 13, 0, 2, 0) && fetched(0, 4, 0x06, 14, 0, 0, 0));
    CHECK(carried_out(NVMEARB_DONE) && carried_out(NVMEARB_DONE) && carried_out(NVMEARB_DONE));
    CHECK(posted_with(0, 2, 5, 12, 1, used, 0, 0) && posted_with(0, 3, 5, 13, 1, no_queue, 0, 8));
    CHECK(posted_with(0, 4, 5, 14, 1, unknown, 0, 8));
}

/* A command of the admin queue is passed on to the device, which takes it under the tag that is told. */
static int passed_on(uint8_t opcode, uint16_t cid, uint32_t *tag)
{
    nvmearb_step step;
    nvmearb_command it;
    int is_well = nvmearb_ctrl_pick(&ctrl, slots, SLOTS, 1, &step) == NVMEARB_OK && step.kind == NVMEARB_PASSED &&
                  step.pick.qid == 0 && step.pick.n == 1 && step.pick.fresh == 0 && step.answer.verdict == 0;
    is_well = is_well && picks_none(NVMEARB_BUSY) && nvmearb_ctrl_take(&ctrl, slots, SLOTS, &it) == NVMEARB_OK;
    *tag = it.tag;
    return is_well && it.entry.opcode == opcode && it.entry.cid == cid && it.cookie == 1000u + cid;
}

/* An announced Identify is the device's. A fused one isn't, nor is a command of the controller's own. */
static void own_opcodes(void)
{
    static const nvmearb_status unknown = {0, NVMEARB_SC_INVALID_OPCODE}, field = {0, NVMEARB_SC_INVALID_FIELD};
    static const nvmearb_status none = {0, NVMEARB_SC_INVALID_NAMESPACE};
    uint8_t bytes[NVMEARB_SQE_BYTES];
    uint32_t tags[3];
    uint16_t number;
    CHECK(is_prepared(NVMEARB_ROUND_ROBIN) && nvmearb_ctrl_sq_tail(&ctrl, 0, 3) == NVMEARB_OK);
    CHECK(fetched(0, 2, IDENTIFY, 12, 0x5000, 1, 0) && carried_out(NVMEARB_DONE)); /* it isn't announced yet */
    CHECK(posted_with(0, 2, 3, 12, 1, unknown, 0, 8));
    CHECK(nvmearb_ctrl_own_opcode(&ctrl, IDENTIFY) == NVMEARB_OK);
    CHECK(nvmearb_ctrl_own_opcode(&ctrl, NVMEARB_OPC_CREATE_CQ) == NVMEARB_OK);
    CHECK(nvmearb_ctrl_own_opcode(&ctrl, EVENT_REQUEST) == NVMEARB_OK);
    CHECK(nvmearb_ctrl_add_cq_region(&ctrl, 0x6000, 4, &number) == NVMEARB_OK && number == 2);
    CHECK(nvmearb_ctrl_sq_tail(&ctrl, 0, 0) == NVMEARB_OK && fetched(0, 3, EVENT_REQUEST, 13, 0, 0, 0));
    CHECK(fetched(0, 4, IDENTIFY, 14, 0x5000, 1, 0) && fetched(0, 5, IDENTIFY, 15, 0x5000, 0, 0));
    CHECK(passed_on(EVENT_REQUEST, 13, &tags[0]) && passed_on(IDENTIFY, 14, &tags[1]));
    entry_of(IDENTIFY, 16, 0x5000, 1, 0, bytes);
    bytes[1] = 1; /* fused */
    CHECK(nvmearb_ctrl_fetched(&ctrl, slots, SLOTS, 0, bytes, 1016) == NVMEARB_OK);
    CHECK(fetched(0, 7, NVMEARB_OPC_CREATE_CQ, 17, 0x6000, 0x00030002, 0x00000001));
    CHECK(passed_on(IDENTIFY, 15, &tags[2]) && carried_out(NVMEARB_DONE) && carried_out(NVMEARB_OPEN_CQ));
    /* the device answers in another order, and after commands that came later */
    CHECK(posted_with(0, 3, 0, 16, 1, field, 0, 8) && posted(0, 4, 0, 17, 1, success, 0) && none_to_post(0));
    CHECK(completes_with(tags[2], none, NVMEARB_DNR, NVMEARB_OK) && completes(tags[1], success, 9, NVMEARB_OK));
    CHECK(posted_with(0, 5, 0, 15, 1, none, 0, 8) && posted(0, 6, 0, 14, 1, success, 9) && none_to_post(0));
    CHECK(completes(tags[0], success, 0x10001, NVMEARB_OK) && completes(tags[0], success, 0, NVMEARB_NONE));
    CHECK(posted(0, 7, 0, 13, 1, success, 0x10001) && none_to_post(0));
}

/* Announced features are the device's, and of the controller's own all values but the current. Init forgets them. */
static void own_features(void)
{
    static const nvmearb_status unknown = {0, NVMEARB_SC_INVALID_OPCODE}, field = {0, NVMEARB_SC_INVALID_FIELD};
    static const nvmearb_status sequence = {0, NVMEARB_SC_SEQUENCE_ERROR};
    uint32_t tags[2];
    CHECK(is_prepared(NVMEARB_ROUND_ROBIN) && nvmearb_ctrl_sq_tail(&ctrl, 0, 6) == NVMEARB_OK);
    CHECK(nvmearb_ctrl_own_feature(&ctrl, NVMEARB_FID_ARBITRATION) == NVMEARB_OK);
    CHECK(nvmearb_ctrl_own_feature(&ctrl, NVMEARB_FID_NUMBER_OF_QUEUES) == NVMEARB_OK);
    CHECK(nvmearb_ctrl_own_feature(&ctrl, EVENTS) == NVMEARB_OK);
    CHECK(fetched(0, 2, NVMEARB_OPC_GET_FEATURES, 12, 0, 0x001, 0) && carried_out(NVMEARB_DONE));
    CHECK(fetched(0, 3, NVMEARB_OPC_GET_FEATURES, 13, 0, 0x101, 0));
    CHECK(passed_on(NVMEARB_OPC_GET_FEATURES, 13, &tags[0]));
    CHECK(fetched(0, 4, NVMEARB_OPC_SET_FEATURES, 14, 0, 0x007, 0x10001) && carried_out(NVMEARB_DONE));
    CHECK(fetched(0, 5, NVMEARB_OPC_SET_FEATURES, 15, 0, EVENTS, 0x100));
    CHECK(passed_on(NVMEARB_OPC_SET_FEATURES, 15, &tags[1]));
    CHECK(completes(tags[1], success, 0, NVMEARB_OK) && completes(tags[0], success, 3, NVMEARB_OK));
    CHECK(posted(0, 2, 6, 12, 1, success, 7) && posted_with(0, 3, 6, 14, 1, sequence, 0, 8));
    CHECK(posted(0, 4, 6, 15, 1, success, 0) && posted(0, 5, 6, 13, 1, success, 3) && none_to_post(0));
    CHECK(nvmearb_ctrl_own_opcode(&ctrl, IDENTIFY) == NVMEARB_OK);
    CHECK(is_prepared(NVMEARB_ROUND_ROBIN) && nvmearb_ctrl_sq_tail(&ctrl, 0, 5) == NVMEARB_OK);
    CHECK(fetched(0, 2, IDENTIFY, 12, 0x5000, 1, 0) && carried_out(NVMEARB_DONE));
    CHECK(fetched(0, 3, NVMEARB_OPC_GET_FEATURES, 13, 0, 0x101, 0) && carried_out(NVMEARB_DONE));
    CHECK(fetched(0, 4, NVMEARB_OPC_GET_FEATURES, 14, 0, EVENTS, 0) && carried_out(NVMEARB_DONE));
    CHECK(posted_with(0, 2, 5, 12, 1, unknown, 0, 8) && posted(0, 3, 5, 13, 1, success, 7));
    CHECK(posted_with(0, 4, 5, 14, 1, field, 0, 8));
}

/* The next pick is of this queue. */
static int is_next(uint16_t qid)
{
    nvmearb_pick pick;
    return nvmearb_ctrl_peek(&ctrl, slots, SLOTS, &pick) == NVMEARB_OK && pick.qid == qid;
}

/* What waits in a queue that is held stays there, and others go on. An Abort still ends it. */
static void holds(void)
{
    static const nvmearb_status requested = {NVMEARB_SCT_GENERIC, NVMEARB_SC_ABORT_REQUESTED};
    uint32_t tag = 0;
    uint16_t count = 0;
    CHECK(is_prepared(NVMEARB_WEIGHTED) && nvmearb_ctrl_sq_tail(&ctrl, 1, 3) == NVMEARB_OK);
    CHECK(nvmearb_ctrl_hold(&ctrl, 1, 2) == NVMEARB_EARG && nvmearb_ctrl_hold(&ctrl, 2, 255) == NVMEARB_EARG);
    CHECK(nvmearb_ctrl_hold(&ctrl, 2, 1) == NVMEARB_NONE && nvmearb_ctrl_hold(&ctrl, 65535, 0) == NVMEARB_NONE);
    CHECK(read_fetched(0, 40) && is_next(1) && nvmearb_ctrl_hold(&ctrl, 1, 1) == NVMEARB_OK && picks_none(NVMEARB_NONE));
    CHECK(read_fetched(1, 41) && nvmearb_ctrl_hold(&ctrl, 1, 1) == NVMEARB_OK && picks_none(NVMEARB_NONE));
    CHECK(nvmearb_ctrl_waiting(&ctrl, 1, &count) == NVMEARB_OK && count == 2);
    CHECK(is_seen(1, NVMEARB_URGENT, 0) && waits(1, 0, 40) && waits(1, 1, 41)); /* (of what is held a pick sees none) */
    CHECK(nvmearb_ctrl_sq_tail(&ctrl, 0, 4) == NVMEARB_OK);
    CHECK(fetched(0, 2, NVMEARB_OPC_ABORT, 12, 0, 41u << 16 | 1, 0) && carried_out(NVMEARB_ABORT));
    CHECK(posted(1, 0, 2, 41, 1, requested, 0) && posted(0, 2, 3, 12, 1, success, 0) && picks_none(NVMEARB_NONE));
    CHECK(nvmearb_ctrl_hold(&ctrl, 1, 0) == NVMEARB_OK && picked(1) && taken(40, &tag));
    CHECK(completes(tag, success, 0, NVMEARB_OK) && posted(1, 1, 2, 40, 1, success, 0));
    CHECK(nvmearb_ctrl_hold(&ctrl, 0, 1) == NVMEARB_OK && read_fetched(2, 42));
    CHECK(fetched(0, 3, NVMEARB_OPC_GET_FEATURES, 13, 0, NVMEARB_FID_ARBITRATION, 0) && picked(1) && taken(42, &tag));
    CHECK(picks_none(NVMEARB_NONE) && nvmearb_ctrl_hold(&ctrl, 0, 0) == NVMEARB_OK && carried_out(NVMEARB_DONE));
}

/* The class that a device sets is that of arbitration, until the queue is created anew. */
static void classes(void)
{
    uint16_t number;
    CHECK(is_prepared(NVMEARB_WEIGHTED) && nvmearb_ctrl_sq_tail(&ctrl, 0, 5) == NVMEARB_OK);
    CHECK(nvmearb_ctrl_add_sq_region(&ctrl, 0x5000, 4, &number) == NVMEARB_OK && number == 2);
    CHECK(nvmearb_ctrl_add_sq_region(&ctrl, 0x6000, 4, &number) == NVMEARB_OK && number == 3);
    CHECK(fetched(0, 2, NVMEARB_OPC_CREATE_SQ, 12, 0x5000, 0x00030002, 0x00010001) && carried_out(NVMEARB_OPEN_SQ));
    CHECK(nvmearb_ctrl_set_class(&ctrl, 1, NVMEARB_ADMIN) == NVMEARB_EARG);
    CHECK(nvmearb_ctrl_set_class(&ctrl, 1, 5) == NVMEARB_EARG && nvmearb_ctrl_set_class(&ctrl, 3, 65535) == NVMEARB_EARG);
    CHECK(nvmearb_ctrl_set_class(&ctrl, 0, NVMEARB_LOW) == NVMEARB_NONE);
    CHECK(nvmearb_ctrl_set_class(&ctrl, 3, NVMEARB_LOW) == NVMEARB_NONE);
    CHECK(nvmearb_ctrl_sq_tail(&ctrl, 1, 1) == NVMEARB_OK && nvmearb_ctrl_sq_tail(&ctrl, 2, 1) == NVMEARB_OK);
    CHECK(read_fetched(0, 40) && fetched(2, 0, NVMEARB_OPC_READ, 41, 0, 0, 0) && is_next(1));
    CHECK(nvmearb_ctrl_set_class(&ctrl, 1, NVMEARB_MEDIUM) == NVMEARB_OK && is_next(2));
    CHECK(is_seen(0, NVMEARB_ADMIN, 0) && is_seen(1, NVMEARB_MEDIUM, 1) && is_seen(2, NVMEARB_URGENT, 1));
    CHECK(nvmearb_ctrl_set_class(&ctrl, 2, NVMEARB_LOW) == NVMEARB_OK && is_next(1));
    CHECK(nvmearb_ctrl_set_class(&ctrl, 2, NVMEARB_HIGH) == NVMEARB_OK && is_next(2));
    CHECK(nvmearb_ctrl_set_class(&ctrl, 1, NVMEARB_URGENT) == NVMEARB_OK && is_next(1));
    CHECK(nvmearb_ctrl_set_class(&ctrl, 1, NVMEARB_LOW) == NVMEARB_OK && nvmearb_ctrl_hold(&ctrl, 2, 1) == NVMEARB_OK);
    CHECK(fetched(0, 3, NVMEARB_OPC_DELETE_SQ, 13, 0, 2, 0) && carried_out(NVMEARB_BEGIN_DELETE));
    CHECK(nvmearb_ctrl_set_class(&ctrl, 2, NVMEARB_LOW) == NVMEARB_NONE);
    CHECK(nvmearb_ctrl_hold(&ctrl, 2, 0) == NVMEARB_NONE);
    nvmearb_post post;
    CHECK(nvmearb_ctrl_post(&ctrl, slots, SLOTS, 1, &post) == NVMEARB_OK && post.bytes[14] >> 1 == 0x08);
    CHECK(nvmearb_ctrl_finish(&ctrl, slots, SLOTS, &number) == NVMEARB_OK && number == 2);
    CHECK(fetched(0, 4, NVMEARB_OPC_CREATE_SQ, 14, 0x6000, 0x00030002, 0x00010005) && carried_out(NVMEARB_OPEN_SQ));
    CHECK(nvmearb_ctrl_sq_tail(&ctrl, 2, 1) == NVMEARB_OK && fetched(2, 0, NVMEARB_OPC_READ, 42, 0, 0, 0) && is_next(2));
    CHECK(nvmearb_ctrl_set_class(&ctrl, 1, NVMEARB_HIGH) == NVMEARB_OK && is_next(1)); /* (QPRIO was medium) */
}

/* The tag of the command of these identifiers is told, or that the device has none. */
static int is_named(uint16_t qid, uint16_t cid, uint32_t tag)
{
    uint32_t told = 0xeeee, want = tag == 0xeeee ? NVMEARB_NONE : NVMEARB_OK;
    return nvmearb_ctrl_named(&ctrl, slots, SLOTS, qid, cid, &told) == want && told == tag;
}

/* An announced Abort is the device's where it names no command that waits. The device finds what it names. */
static void own_aborts(void)
{
    static const nvmearb_status requested = {NVMEARB_SCT_GENERIC, NVMEARB_SC_ABORT_REQUESTED};
    static const nvmearb_status exceeded = {NVMEARB_SCT_COMMAND_SPECIFIC, 0x03};
    const uint32_t none = 0xeeee;
    uint32_t tags[2] = {0}, aborts[3] = {0};
    CHECK(is_prepared(NVMEARB_WEIGHTED) && nvmearb_ctrl_sq_tail(&ctrl, 1, 3) == NVMEARB_OK);
    CHECK(read_fetched(0, 40) && read_fetched(1, 41) && picked(2) && is_named(1, 40, none));
    CHECK(taken(40, &tags[0]) && taken(41, &tags[1]) && read_fetched(2, 42) && tags[0] != tags[1]);
    CHECK(is_named(1, 40, tags[0]) && is_named(1, 41, tags[1]) && is_named(1, 42, none));
    CHECK(is_named(0, 40, none) && is_named(2, 40, none) && is_named(65535, 40, none) && is_named(1, 65535, none));
    /* it isn't announced yet */
    CHECK(nvmearb_ctrl_sq_tail(&ctrl, 0, 6) == NVMEARB_OK);
    CHECK(fetched(0, 2, NVMEARB_OPC_ABORT, 12, 0, 40u << 16 | 1, 0) && carried_out(NVMEARB_ABORT));
    CHECK(posted(0, 2, 3, 12, 1, success, 1) && nvmearb_ctrl_own_opcode(&ctrl, NVMEARB_OPC_ABORT) == NVMEARB_OK);
    CHECK(fetched(0, 3, NVMEARB_OPC_ABORT, 13, 0, 42u << 16 | 1, 0) && carried_out(NVMEARB_ABORT));
    CHECK(posted(1, 0, 3, 42, 1, requested, 0) && posted(0, 3, 4, 13, 1, success, 0));
    CHECK(fetched(0, 4, NVMEARB_OPC_ABORT, 14, 0, 40u << 16 | 1, 0) && passed_on(NVMEARB_OPC_ABORT, 14, &aborts[0]));
    CHECK(fetched(0, 5, NVMEARB_OPC_ABORT, 15, 0, 42u << 16 | 1, 0) && passed_on(NVMEARB_OPC_ABORT, 15, &aborts[1]));
    CHECK(nvmearb_ctrl_sq_tail(&ctrl, 0, 7) == NVMEARB_OK && nvmearb_ctrl_cq_head(&ctrl, 0, 4) == NVMEARB_OK);
    CHECK(fetched(0, 6, NVMEARB_OPC_ABORT, 16, 0, 41u << 16, 0) && passed_on(NVMEARB_OPC_ABORT, 16, &aborts[2]));
    CHECK(is_named(0, 14, aborts[0]) && is_named(0, 15, aborts[1]) && is_named(0, 16, aborts[2]));
    CHECK(completes(tags[0], requested, 0, NVMEARB_OK) && is_named(1, 40, none));
    CHECK(completes(aborts[0], success, 0, NVMEARB_OK) && completes(aborts[1], success, 1, NVMEARB_OK));
    CHECK(completes_with(aborts[2], exceeded, NVMEARB_DNR, NVMEARB_OK) && is_named(0, 16, none));
    CHECK(posted(1, 1, 3, 40, 1, requested, 0) && posted(0, 4, 7, 14, 1, success, 0));
    CHECK(posted(0, 5, 7, 15, 1, success, 1) && posted_with(0, 6, 7, 16, 1, exceeded, 0, 8));
}

int main(void)
{
    wrong_configurations();
    regions();
    rings_go_round();
    abort_and_deletion();
    two_deletions();
    depths_and_slots();
    wrong_depths();
    flags();
    own_opcodes();
    own_features();
    own_aborts();
    holds();
    classes();
    refused_states();
    other_version();
    random_calls();
    random_states();
    return told();
}
