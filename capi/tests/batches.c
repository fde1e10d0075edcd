/*
 * The calls over arrays beside the single calls: hosts and devices in drawn steps, under a fixed seed. For each call
 * over an array a copy of the controller and its slots gets the single calls. Both have the same bytes then, and the
 * items are the same. Then arrays that are too short or have no item, and what is refused.
 *
 *   batches [RUNS [SEED]]
 */
#include "drive.h"

#include <stdlib.h>

enum { STEPS = 2000, LARGEST = 40, POOL = 300, IO_QUEUES = 5, UNWRITTEN = 0xa5 };

static uint64_t seed;
static uint16_t nqueues; /* I/O queues of a kind */
static struct {
    nvmearb_ctrl ctrl;
    nvmearb_slot slots[POOL];
} copy;
static struct {
    unsigned n;
    uint32_t tags[POOL];
} out; /* what the device has */

/* The items. */
static uint8_t entries[LARGEST][NVMEARB_SQE_BYTES];
static uint32_t cookies[LARGEST];
static nvmearb_command commands[LARGEST];
static nvmearb_post posts[LARGEST];

/* How often a call over an array did nothing, all of it, or some of it, or had no item, and the most that it did. */
enum { FETCHED, TAKEN, POSTED, KINDS };
static struct {
    unsigned none, filled, some, empty;
    size_t most;
} tally[KINDS];

static uint32_t upto(uint32_t n)
{
    return (uint32_t)((drawn(&seed) >> 20) % n);
}

static void copy_all(void)
{
    copy.ctrl = ctrl;
    memcpy(copy.slots, slots, count * sizeof *slots);
}

static int is_as_copy(void)
{
    return !memcmp(&ctrl, &copy.ctrl, sizeof ctrl) && !memcmp(slots, copy.slots, count * sizeof *slots);
}

/* Whether a call over so many items answered as the copy's single calls did, of which these were done. */
static int is_told(int kind, uint32_t told, size_t n, size_t room, size_t done)
{
    tally[kind].empty += room == 0;
    tally[kind].none += room > 0 && done == 0;
    tally[kind].filled += room > 0 && done == room;
    tally[kind].some += done > 0 && done < room;
    if (done > tally[kind].most)
        tally[kind].most = done;
    return told == (done ? NVMEARB_OK : NVMEARB_NONE) && n == done && is_as_copy();
}

/* Whether nothing was written behind these items. */
static int is_unwritten(const void *items, size_t size, size_t n)
{
    const uint8_t *bytes = items;
    for (size_t k = n * size; k < LARGEST * size; k++)
        if (bytes[k] != UNWRITTEN)
            return 0;
    return 1;
}

/* ---- The calls over arrays ---- */

/* An entry that the host may have in a ring: of the admin queue each kind of command, and elsewhere a Read. */
static void draw_entry(uint16_t qid, uint8_t *bytes)
{
    static const uint8_t opcodes[] = {NVMEARB_OPC_DELETE_SQ, NVMEARB_OPC_CREATE_SQ,    NVMEARB_OPC_CREATE_SQ,
                                      NVMEARB_OPC_ABORT,     NVMEARB_OPC_GET_FEATURES, IDENTIFY, 0x80};
    nvmearb_sqe it = {.opcode = NVMEARB_OPC_READ, .cid = (uint16_t)drawn(&seed), .nsid = 1, .prp1 = 0x1000u * upto(9)};
    if (qid == 0) {
        it.opcode = opcodes[upto(sizeof opcodes)];
        it.cdw10 = 1 + upto(nqueues);
        it.cdw11 = it.cdw10 << 16 | upto(4) << 1 | 1;
        if (it.opcode == NVMEARB_OPC_CREATE_SQ)
            it.cdw10 |= (queues[it.cdw10].sq_slots - 1u) << 16;
    }
    nvmearb_sqe_encode(&it, bytes);
}

/* They are handed in, with the slot that the first was read in or without. With another slot they aren't taken. */
static uint32_t hands_in(uint16_t qid, size_t room, size_t *n)
{
    size_t bytes = room * NVMEARB_SQE_BYTES, none = 0xeeee;
    uint16_t slot = 0xffff, other;
    uint32_t is_due = nvmearb_ctrl_fetch(&ctrl, qid, &slot), told;
    if (upto(2))
        return nvmearb_ctrl_fetched_n(&ctrl, slots, count, qid, entries[0], bytes, cookies, room, n);
    other = slot ^ (uint16_t)(1 + upto(0xffff));
    told = nvmearb_ctrl_fetched_n_at(&ctrl, slots, count, qid, other, entries[0], bytes, cookies, room, &none);
    if (is_due == NVMEARB_OK ? told != NVMEARB_ESLOT || none != 0xeeee : told != NVMEARB_NONE || none != 0)
        return NVMEARB_ESTATE;
    return nvmearb_ctrl_fetched_n_at(&ctrl, slots, count, qid, slot, entries[0], bytes, cookies, room, n);
}

static int fetches_some(uint16_t qid)
{
    size_t room = upto(LARGEST + 1), n = 0xeeee, done = 0;
    uint32_t told;
    for (size_t k = 0; k < room; k++) {
        draw_entry(qid, entries[k]);
        cookies[k] = (uint32_t)drawn(&seed);
    }
    copy_all();
    told = hands_in(qid, room, &n);
    for (; done < room; done++)
        if (nvmearb_ctrl_fetched(&copy.ctrl, copy.slots, count, qid, entries[done], cookies[done]) != NVMEARB_OK)
            break;
    return is_told(FETCHED, told, n, room, done);
}

static int takes_some(void)
{
    size_t room = upto(LARGEST + 1), n = 0xeeee, done = 0;
    nvmearb_command it;
    uint32_t told;
    memset(commands, UNWRITTEN, sizeof commands);
    copy_all();
    told = nvmearb_ctrl_take_n(&ctrl, slots, count, commands, room, &n);
    for (; done < room && nvmearb_ctrl_take(&copy.ctrl, copy.slots, count, &it) == NVMEARB_OK; done++) {
        if (memcmp(&it, &commands[done], sizeof it))
            return 0;
        out.tags[out.n++] = it.tag;
    }
    return is_told(TAKEN, told, n, room, done) && is_unwritten(commands, sizeof it, done);
}

static int posts_some(uint16_t cqid)
{
    size_t room = upto(LARGEST + 1), n = 0xeeee, done = 0;
    nvmearb_post it;
    uint32_t told;
    memset(posts, UNWRITTEN, sizeof posts);
    copy_all();
    told = nvmearb_ctrl_post_n(&ctrl, slots, count, cqid, posts, room, &n);
    for (; done < room && nvmearb_ctrl_post(&copy.ctrl, copy.slots, count, cqid, &it) == NVMEARB_OK; done++) {
        const nvmearb_post *also = &posts[done];
        if (memcmp(it.bytes, also->bytes, sizeof it.bytes) || it.cookie != also->cookie || it.tag != also->tag ||
            it.slot != also->slot)
            return 0;
    }
    return is_told(POSTED, told, n, room, done) && is_unwritten(posts, sizeof it, done);
}

/* ---- Drawn steps ---- */

static int completes_one(void)
{
    static const nvmearb_status statuses[] = {{0, 0x00}, {0, 0x06}, {2, 0x81}};
    unsigned k;
    uint32_t tag;
    if (out.n == 0)
        return 1;
    k = upto(out.n), tag = out.tags[k];
    out.tags[k] = out.tags[--out.n];
    return nvmearb_ctrl_complete_with(&ctrl, slots, count, tag, &statuses[upto(3)], (uint32_t)drawn(&seed),
                                      (uint8_t)upto(4)) == NVMEARB_OK;
}

static int step(void)
{
    uint16_t qid = (uint16_t)(upto(8) ? upto(nqueues + 1u) : upto(70)), gone;
    uint16_t sq_slots = qid < NVMEARB_MAX_QUEUES && queues[qid].sq_slots ? queues[qid].sq_slots : 2;
    uint16_t cq_slots = qid < NVMEARB_MAX_QUEUES && queues[qid].cq_slots ? queues[qid].cq_slots : 2;
    nvmearb_step picked;
    switch (upto(12)) {
    case 0:
    case 1: /* (the host writes doorbells as it likes) */
        return nvmearb_ctrl_sq_tail(&ctrl, qid, (uint16_t)upto(sq_slots)) <= NVMEARB_EARG;
    case 2:
        return nvmearb_ctrl_cq_head(&ctrl, qid, (uint16_t)upto(cq_slots)) <= NVMEARB_EARG;
    case 3:
    case 4:
        return fetches_some(qid);
    case 5:
    case 6:
        return nvmearb_ctrl_pick(&ctrl, slots, count, (uint16_t)(upto(4) ? 1 + upto(60) : 1), &picked) != NVMEARB_EARG;
    case 7:
        return takes_some();
    case 8:
        return posts_some(qid);
    case 9:
        return nvmearb_ctrl_finish(&ctrl, slots, count, &gone) <= NVMEARB_NONE;
    default:
        for (uint32_t n = upto(20); n; n--)
            if (!completes_one())
                return 0;
        return 1;
    }
}

/* A controller whose host created its queues, with rings of drawn sizes and depths, over so many slots. */
static int is_begun(void)
{
    nvmearb_config it = config;
    it.mechanism = upto(2) ? NVMEARB_WEIGHTED : NVMEARB_ROUND_ROBIN;
    it.cdw11 = 0x03010000u | upto(8);
    it.depth = (uint16_t)(1 + upto(upto(2) ? 8 : 256)), it.admin_depth = (uint16_t)(2 + upto(ADMIN_RING));
    nqueues = (uint16_t)(1 + upto(IO_QUEUES)), out.n = 0;
    if (!is_made(&it, 8 + upto(POOL - 7)))
        return 0;
    for (uint16_t qid = 1; qid <= nqueues; qid++)
        if (!has_queues(qid, (uint16_t)(2 + upto(60)), (uint16_t)(2 + upto(60)), upto(4)))
            return 0;
    return 1;
}

static void beside_single_calls(unsigned long runs)
{
    for (unsigned long run = 0; run < runs; run++) {
        int is_well = is_begun();
        for (int k = 0; k < STEPS && is_well; k++)
            is_well = step();
        CHECK(is_well && nvmearb_ctrl_verify(&ctrl, slots, count) == NVMEARB_OK);
    }
    for (int kind = 0; kind < KINDS; kind++) {
        CHECK(tally[kind].none && tally[kind].filled && tally[kind].some && tally[kind].empty);
        CHECK(tally[kind].most >= 32);
    }
}

/* ---- Examples ---- */

/* A controller with a queue of 8 slots, to which the host submitted so many Reads, with the identifiers 0, 1 and on. */
static int has_reads(uint32_t n)
{
    for (uint16_t k = 0; k < LARGEST; k++) {
        nvmearb_sqe it = {.opcode = NVMEARB_OPC_READ, .cid = k, .nsid = 1};
        nvmearb_sqe_encode(&it, entries[k]);
        cookies[k] = 1000u + k;
    }
    return is_made(&config, 16) && has_queues(1, 8, 8, 0) && rings(1, n);
}

/* The entries from this one on are read, and so many of them are fetched. */
static int fetches_from(size_t first, size_t room, size_t want)
{
    size_t n = 0xeeee;
    uint32_t told = nvmearb_ctrl_fetched_n(&ctrl, slots, count, 1, entries[first], room * NVMEARB_SQE_BYTES,
                                           cookies + first, room, &n);
    return told == (want ? NVMEARB_OK : NVMEARB_NONE) && n == want;
}

/* The device takes so many commands, from this identifier on. */
static int takes_from(uint16_t cid, size_t room, size_t want)
{
    size_t n = 0xeeee;
    memset(commands, UNWRITTEN, sizeof commands);
    if (nvmearb_ctrl_take_n(&ctrl, slots, count, commands, room, &n) != (want ? NVMEARB_OK : NVMEARB_NONE) || n != want)
        return 0;
    for (size_t k = 0; k < n; k++)
        if (commands[k].entry.cid != cid + k || commands[k].cookie != 1000u + cid + k)
            return 0;
    for (size_t k = 0; k < n; k++)
        if (!completes(commands[k].tag, success, 0))
            return 0;
    return is_unwritten(commands, sizeof *commands, n);
}

/* So many completions are posted, from this identifier on, into the slots from this one on. */
static int posts_from(uint16_t cid, uint16_t slot, size_t room, size_t want)
{
    size_t n = 0xeeee;
    memset(posts, UNWRITTEN, sizeof posts);
    if (nvmearb_ctrl_post_n(&ctrl, slots, count, 1, posts, room, &n) != (want ? NVMEARB_OK : NVMEARB_NONE) || n != want)
        return 0;
    for (size_t k = 0; k < n; k++)
        if (posts[k].bytes[12] != cid + k || posts[k].cookie != 1000u + cid + k || posts[k].slot != (slot + k) % 8)
            return 0;
    return is_unwritten(posts, sizeof *posts, n);
}

/* The host has read the completions before this slot. */
static int frees(uint16_t head)
{
    return nvmearb_ctrl_cq_head(&ctrl, 1, head) == NVMEARB_OK;
}

/* What an array has no item for comes with the next one. A ring of 8 slots has 7 entries at most. */
static void arrays_too_short(void)
{
    nvmearb_step step;
    CHECK(has_reads(7) && fetches_from(0, 3, 3) && fetches_from(3, LARGEST - 3, 4) && fetches_from(7, 1, 0));
    CHECK(takes_from(0, LARGEST, 0) && picks(5, NVMEARB_PICKED, &step) && step.pick.n == 5);
    CHECK(takes_from(0, 2, 2) && takes_from(2, 2, 2) && takes_from(4, 2, 1) && takes_from(5, 2, 0));
    CHECK(posts_from(0, 0, 2, 2) && posts_from(2, 2, 2, 2) && posts_from(4, 4, 2, 1) && posts_from(5, 5, 2, 0));
    /* the ring goes on at its first slot */
    CHECK(picks(5, NVMEARB_PICKED, &step) && step.pick.n == 2 && takes_from(5, LARGEST, 2) && posts_from(5, 5, 3, 2));
    CHECK(rings(1, 3) && fetches_from(7, LARGEST - 7, 3) && picks(5, NVMEARB_PICKED, &step) && takes_from(7, 3, 3));
    CHECK(posts_from(7, 7, LARGEST, 0) && frees(2) && posts_from(7, 7, LARGEST, 2));
    CHECK(frees(3) && posts_from(9, 1, LARGEST, 1));
}

/* A fetch ends where the queue is at its depth, or no slot is free. */
static void fetches_that_end(void)
{
    CHECK(has_reads(7) && nvmearb_ctrl_set_depth(&ctrl, 1, 5) == NVMEARB_OK && fetches_from(0, 7, 5));
    CHECK(nvmearb_ctrl_set_depth(&ctrl, 1, 6) == NVMEARB_OK && fetches_from(5, 2, 1) && fetches_from(6, 1, 0));
    CHECK(has_reads(7) && is_made(&config, 4) && has_queues(1, 8, 8, 0) && rings(1, 7) && fetches_from(0, 7, 4));
}

/* Nothing changes by an array without an item, though there is work. */
static void arrays_of_length_0(void)
{
    nvmearb_step step;
    CHECK(has_reads(7) && (copy_all(), fetches_from(0, 0, 0)) && is_as_copy() && fetches_from(0, 7, 7));
    CHECK(picks(7, NVMEARB_PICKED, &step) && (copy_all(), takes_from(0, 0, 0)) && is_as_copy() && takes_from(0, 7, 7));
    CHECK((copy_all(), posts_from(0, 0, 0, 0)) && is_as_copy() && posts_from(0, 0, 7, 7));
}

/* Whether each call over an array refuses so, over so many slots, and writes nothing. */
static int is_refused(size_t of_slots, uint32_t want)
{
    size_t n = 0xeeee, bytes = 2 * NVMEARB_SQE_BYTES;
    memset(commands, UNWRITTEN, sizeof commands), memset(posts, UNWRITTEN, sizeof posts);
    copy_all();
    return nvmearb_ctrl_fetched_n(&ctrl, slots, of_slots, 1, entries[0], bytes, cookies, 2, &n) == want &&
           nvmearb_ctrl_fetched_n_at(&ctrl, slots, of_slots, 1, 9, entries[0], bytes, cookies, 2, &n) == want &&
           nvmearb_ctrl_take_n(&ctrl, slots, of_slots, commands, 2, &n) == want &&
           nvmearb_ctrl_post_n(&ctrl, slots, of_slots, 1, posts, 2, &n) == want && n == 0xeeee && is_as_copy() &&
           is_unwritten(commands, sizeof *commands, 0) && is_unwritten(posts, sizeof *posts, 0);
}

/* Whether a fetch of so many cookies refuses so many bytes, and writes nothing. */
static int is_refused_for(size_t bytes, size_t room)
{
    size_t n = 0xeeee;
    copy_all();
    return nvmearb_ctrl_fetched_n(&ctrl, slots, count, 1, entries[0], bytes, cookies, room, &n) == NVMEARB_EARG &&
           nvmearb_ctrl_fetched_n_at(&ctrl, slots, count, 1, 9, entries[0], bytes, cookies, room, &n) == NVMEARB_EARG &&
           n == 0xeeee && is_as_copy();
}

static void refusals(void)
{
    nvmearb_step step;
    CHECK(has_reads(7) && fetches_from(0, 4, 4) && picks(4, NVMEARB_PICKED, &step) && takes_from(0, 2, 2));
    CHECK(is_refused(count - 1, NVMEARB_EARG) && is_refused(count + 1, NVMEARB_EARG));
    CHECK(is_refused_for(0, 1) && is_refused_for(1, 0) && is_refused_for(NVMEARB_SQE_BYTES, 0));
    for (size_t room = 1; room < LARGEST; room++) {
        size_t whole = room * NVMEARB_SQE_BYTES;
        CHECK(is_refused_for(whole - 1, room) && is_refused_for(whole + 1, room) && is_refused_for(room, room));
        CHECK(is_refused_for(whole - NVMEARB_SQE_BYTES, room) && is_refused_for(whole + NVMEARB_SQE_BYTES, room));
    }
    ctrl.mark ^= 1;
    CHECK(is_refused(count, NVMEARB_ESTATE) && is_refused(count - 1, NVMEARB_ESTATE));
    ctrl.mark ^= 1;
    CHECK(fetches_from(4, 3, 3) && takes_from(2, 3, 2) && posts_from(0, 0, 4, 4));
}

int main(int words_count, char **words)
{
    unsigned long runs = words_count > 1 ? strtoul(words[1], NULL, 0) : 300;
    seed = words_count > 2 ? strtoull(words[2], NULL, 0) : 71;
    beside_single_calls(runs);
    arrays_too_short();
    fetches_that_end();
    arrays_of_length_0();
    refusals();
    return told();
}
