/* SPDX-License-Identifier: MIT */
/*
 * The worst single calls that were found, with 64 I/O queues open: each call of an arbiter, a board and a controller, in
 * the cases that take it longest. This is for `instructions`, and writes a line for each counted call: the call, the case,
 * what its instructions grow with, and 1. A case is there several times, and the largest number is its own. It is what
 * was found, and no bound.
 *
 *   worst
 */
#include <nvmearb.h>

#include <stdio.h>
#include <stdlib.h>
#include <string.h>

#define QUEUES 64
#define WINDOW NVMEARB_MAX_COUNT
/* As many commands of a queue as wait at most, and as many as are outstanding. */
#define DEPTH (WINDOW + 256)
#define RING 4096
/* As many slots as commands of 64 queues wait at most, and as are outstanding. */
#define POOL ((QUEUES + 1) * WINDOW + 256)
/* The weights 4, 2 and 1, and no burst. */
#define CDW11 0x03010007
#define SQS 0x1000000u
#define CQS 0x9000000u
#define BETWEEN 0x100000u
#define SIZES 3

static nvmearb_arbiter arbiter;
static nvmearb_board board;
static nvmearb_ctrl ctrl;
static nvmearb_slot slots[NVMEARB_MAX_SLOTS];
static uint16_t tails[QUEUES + 1], cq_slots = RING;

/* What the counted calls take and write. */
static nvmearb_seen seen[QUEUES + 1];
static nvmearb_config config;
static const nvmearb_placement placement = {4096, RING - 1, QUEUES};
static const nvmearb_status success = {0, 0};
static size_t pool;
static uint32_t mechanism, result, cookie, tag;
static uint16_t qid, number, n, on;
static uint8_t bytes[NVMEARB_SQE_BYTES];
static nvmearb_pick pick;
static nvmearb_step step;
static nvmearb_command command;
static nvmearb_sqe entry;
static nvmearb_post post;
static uint8_t entries[WINDOW][NVMEARB_SQE_BYTES];
static uint32_t cookies[WINDOW];
static nvmearb_command commands[WINDOW];
static nvmearb_post posts[WINDOW];
static size_t done;

/* A function that makes a call of the library with these arguments. */
#define CALL(name, ...) static void call_##name(void) { result = nvmearb_##name(__VA_ARGS__); }

CALL(arbiter_init, &arbiter, NVMEARB_WEIGHTED, CDW11)
CALL(arbiter_set, &arbiter, CDW11)
CALL(arbiter_peek, &arbiter, seen, n, &pick)
CALL(arbiter_pick, &arbiter, seen, n, &pick)
CALL(arbiter_pick_up_to, &arbiter, seen, n, 1, &pick)
CALL(board_init, &board, NVMEARB_WEIGHTED, CDW11)
CALL(board_open, &board, qid, NVMEARB_LOW)
CALL(board_close, &board, qid)
CALL(board_came, &board, qid)
CALL(board_came_n, &board, qid, n)
CALL(board_went, &board, qid)
CALL(board_peek, &board, &pick)
CALL(board_pick, &board, &pick)
CALL(board_pick_up_to, &board, 1, &pick)
CALL(board_set, &board, CDW11)
CALL(ctrl_init, &ctrl, slots, pool, &config)
CALL(ctrl_init_anywhere, &ctrl, slots, pool, &config, &placement)
CALL(ctrl_add_sq_region, &ctrl, 0xf0000000u, RING, &number)
CALL(ctrl_add_cq_region, &ctrl, 0xf1000000u, RING, &number)
CALL(ctrl_own_opcode, &ctrl, NVMEARB_OPC_ABORT)
CALL(ctrl_own_feature, &ctrl, 0xff)
CALL(ctrl_set_depth, &ctrl, qid, n)
CALL(ctrl_hold, &ctrl, qid, (uint8_t)on)
CALL(ctrl_set_class, &ctrl, qid, n)
CALL(ctrl_sq_tail, &ctrl, qid, n)
CALL(ctrl_cq_head, &ctrl, qid, n)
CALL(ctrl_fetch, &ctrl, qid, &number)
CALL(ctrl_next_fetch, &ctrl, &qid, &number)
CALL(ctrl_fetched, &ctrl, slots, pool, qid, bytes, 1)
CALL(ctrl_fetched_at, &ctrl, slots, pool, qid, number, bytes, 1)
CALL(ctrl_peek, &ctrl, slots, pool, &pick)
CALL(ctrl_pick, &ctrl, slots, pool, NVMEARB_NO_LIMIT, &step)
CALL(ctrl_take, &ctrl, slots, pool, &command)
CALL(ctrl_complete, &ctrl, slots, pool, tag, &success, 0)
CALL(ctrl_complete_with, &ctrl, slots, pool, tag, &success, 0, NVMEARB_DNR | NVMEARB_MORE)
CALL(ctrl_post, &ctrl, slots, pool, qid, &post)
CALL(ctrl_next_to_post, &ctrl, slots, pool, &qid)
CALL(ctrl_finish, &ctrl, slots, pool, &number)
CALL(ctrl_command, &ctrl, slots, pool, tag, &command)
CALL(ctrl_named, &ctrl, slots, pool, qid, n, &tag)
CALL(ctrl_sq, &ctrl, qid, &number)
CALL(ctrl_cq, &ctrl, qid, &number)
CALL(ctrl_waiting, &ctrl, qid, &number)
CALL(ctrl_waits, &ctrl, slots, pool, qid, n, &entry, &cookie)
CALL(ctrl_seen, &ctrl, qid, seen)
CALL(ctrl_fetched_n, &ctrl, slots, pool, qid, entries[0], n * sizeof *entries, cookies, n, &done)
CALL(ctrl_fetched_n_at, &ctrl, slots, pool, qid, number, entries[0], n * sizeof *entries, cookies, n, &done)
CALL(ctrl_take_n, &ctrl, slots, pool, commands, n, &done)
CALL(ctrl_post_n, &ctrl, slots, pool, qid, posts, n, &done)
CALL(ctrl_verify, &ctrl, slots, pool)

static void check(uint32_t is)
{
    if (is != NVMEARB_OK) {
        fprintf(stderr, "worst: a call was refused\n");
        exit(1);
    }
}

/* Its instructions are counted. */
__attribute__((noinline)) static void counted(void (*call)(void))
{
    call();
}

static void count(const char *name, const char *of, const char *grows, void (*call)(void))
{
    printf("nvmearb_%s|%s|%s|1\n", name, of, grows);
    counted(call);
}

/* Counts a call that does what it is for, or, with NONE, one that finds nothing. */
#define COUNT(name, of, grows) (count(#name, of, grows, call_##name), check(result))
#define NONE(name, of, grows) (count(#name, of, grows, call_##name), check(result ^ NVMEARB_NONE))

static void put(uint8_t opcode, uint16_t cid, uint64_t prp1, uint32_t cdw10, uint32_t cdw11)
{
    nvmearb_sqe of = {.opcode = opcode, .cid = cid, .prp1 = prp1, .cdw10 = cdw10, .cdw11 = cdw11};
    nvmearb_sqe_encode(&of, bytes);
}

static void ring(uint16_t of)
{
    tails[of] = (tails[of] + 1) % RING;
    check(nvmearb_ctrl_sq_tail(&ctrl, of, tails[of]));
}

/* A queue gets the entry of `bytes`. */
static void submit(uint16_t of)
{
    ring(of);
    check(nvmearb_ctrl_fetched(&ctrl, slots, pool, of, bytes, 1));
}

/* A queue gets so many Reads, with the command identifiers from 0 on. */
static void fill(uint16_t of, int commands)
{
    for (int k = 0; k < commands; k++) {
        put(NVMEARB_OPC_READ, (uint16_t)k, 0, 0, 0);
        submit(of);
    }
}

/* All commands that are picked are taken. */
static void take(void)
{
    while (nvmearb_ctrl_take(&ctrl, slots, pool, &command) == NVMEARB_OK) {
        tag = command.tag;
    }
}

/* All completions of the admin queue are posted, and read. */
static void post_admin(void)
{
    while (nvmearb_ctrl_post(&ctrl, slots, pool, 0, &post) == NVMEARB_OK) {
        check(nvmearb_ctrl_cq_head(&ctrl, 0, (post.slot + 1) % RING));
    }
}

static void put_create_cq(uint16_t of)
{
    put(NVMEARB_OPC_CREATE_CQ, 1, CQS + BETWEEN * of, (uint32_t)(cq_slots - 1) << 16 | of, 1);
}

/* The queues have the four classes in turn: 61 has high, 62 medium, 63 low, and 64 urgent. */
static void put_create_sq(uint16_t of)
{
    put(NVMEARB_OPC_CREATE_SQ, 1, SQS + BETWEEN * of, (RING - 1) << 16 | of, (uint32_t)of << 16 | of % 4 << 1 | 1);
}

static void make(size_t of_slots)
{
    pool = of_slots;
    config = (nvmearb_config){{SQS, RING}, {CQS, RING}, mechanism, CDW11, QUEUES, QUEUES, DEPTH, DEPTH};
    memset(tails, 0, sizeof tails);
}

/* Creates the I/O queues 1 to `last`. */
static void open(uint16_t last)
{
    for (uint16_t of = 1; of <= last; of++) {
        put_create_cq(of);
        submit(0);
        check(nvmearb_ctrl_pick(&ctrl, slots, pool, NVMEARB_NO_LIMIT, &step));
        put_create_sq(of);
        submit(0);
        check(nvmearb_ctrl_pick(&ctrl, slots, pool, NVMEARB_NO_LIMIT, &step));
        check(step.answer.status.sct | step.answer.status.sc);
        post_admin();
    }
}

/* A controller whose queues lie anywhere, with all I/O queues. */
static void anywhere(size_t of_slots)
{
    make(of_slots);
    check(nvmearb_ctrl_init_anywhere(&ctrl, slots, pool, &config, &placement));
    open(QUEUES);
}

/* A controller whose queues lie on regions, with so many for I/O of each kind, and as many I/O queues less `without`. */
static void on_regions(uint16_t regions, uint16_t without)
{
    make(POOL);
    check(nvmearb_ctrl_init(&ctrl, slots, pool, &config));
    for (uint16_t of = 1; of <= regions; of++) {
        check(nvmearb_ctrl_add_sq_region(&ctrl, SQS + BETWEEN * of, RING, &number));
        check(nvmearb_ctrl_add_cq_region(&ctrl, CQS + BETWEEN * of, RING, &number));
    }
    open(regions - without);
}

/* Which queues have commands: all, all without the first two classes, the admin queue, or one of class low. */
#define PATTERNS 4
static int has_commands(int pattern, uint16_t of)
{
    const int has[PATTERNS] = {1, of % 4 != 0, of == 0, of == 63};
    return has[pattern];
}

static const char *with(const char *what, unsigned of)
{
    static char text[100];
    snprintf(text, sizeof text, what, of);
    return text;
}

static void count_arbiter(uint16_t queues)
{
    COUNT(arbiter_init, "", "");
    for (int pattern = 0; pattern < PATTERNS; pattern++) {
        check(nvmearb_arbiter_init(&arbiter, mechanism, CDW11));
        for (n = 0; n < queues; n++) {
            uint16_t of = (uint16_t)(QUEUES + 1 - queues + n), waiting = has_commands(pattern, of) ? WINDOW : 0;
            seen[n] = (nvmearb_seen){of, of ? of % 4 + NVMEARB_URGENT : NVMEARB_ADMIN, waiting};
        }
        for (int k = 0; k < 8 && nvmearb_arbiter_peek(&arbiter, seen, n, &pick) == NVMEARB_OK; k++) {
            COUNT(arbiter_peek, with("%u queues are shown", n), "queues that are shown");
            COUNT(arbiter_pick_up_to, with("%u queues are shown", n), "queues that are shown");
            COUNT(arbiter_pick, with("%u queues are shown", n), "queues that are shown");
        }
    }
    COUNT(arbiter_set, "", "");
}

static void count_board_picks(void)
{
    for (int pattern = 0; pattern < PATTERNS; pattern++) {
        check(nvmearb_board_init(&board, mechanism, CDW11));
        for (uint16_t of = 0; of <= QUEUES; of++) {
            check(nvmearb_board_open(&board, of, of ? of % 4 + NVMEARB_URGENT : NVMEARB_ADMIN));
            check(nvmearb_board_came_n(&board, of, has_commands(pattern, of) ? 8 : 0));
        }
        for (int k = 0; k < 8 && nvmearb_board_peek(&board, &pick) == NVMEARB_OK; k++) {
            COUNT(board_peek, "", "");
            COUNT(board_pick_up_to, "", "");
            COUNT(board_pick, "", "");
        }
    }
}

static void count_board(void)
{
    COUNT(board_init, "", "");
    count_board_picks();
    for (uint16_t of = 1; of <= QUEUES; of += QUEUES - 1) {
        qid = of, n = WINDOW - 1;
        COUNT(board_close, "", "");
        COUNT(board_open, "", "");
        COUNT(board_came, "", "");
        COUNT(board_came_n, "", "");
        COUNT(board_went, "", "");
    }
    COUNT(board_set, "", "");
}

/* The admin command that was picked had this verdict. */
static void came_to(uint32_t verdict)
{
    check(step.kind != NVMEARB_CARRIED_OUT || step.answer.verdict != verdict);
}

/* The calls that take the longer the more slots there are. */
static void count_slots(size_t of_slots)
{
    make(of_slots);
    COUNT(ctrl_init, with("%u slots", (unsigned)pool), "slots");
    COUNT(ctrl_init_anywhere, with("%u slots", (unsigned)pool), "slots");
    anywhere(of_slots);
    unsigned each = (unsigned)(pool / (QUEUES + 1));
    for (uint16_t of = 1; of <= QUEUES; of++) {
        fill(of, (int)(each < WINDOW ? each : WINDOW));
    }
    COUNT(ctrl_verify, with("%u slots", (unsigned)pool), "slots");
    qid = QUEUES, n = RING;
    NONE(ctrl_named, with("none of %u slots", (unsigned)pool), "slots");
}

static void count_making(void)
{
    on_regions(QUEUES - 1, 0);
    COUNT(ctrl_add_sq_region, "the last region", "regions");
    COUNT(ctrl_add_cq_region, "the last region", "regions");
    anywhere(POOL);
    COUNT(ctrl_own_opcode, "", "");
    COUNT(ctrl_own_feature, "", "");
}

/* One command goes its way in queue 64, and all calls are made that it may take. */
static void count_way(void)
{
    anywhere(POOL);
    fill(qid = QUEUES, 3);
    n = tails[qid] + 1;
    COUNT(ctrl_sq_tail, "", "");
    tails[qid] = n;
    COUNT(ctrl_fetch, "", "");
    COUNT(ctrl_next_fetch, "the only queue", "queues before it whose work has to wait");
    COUNT(ctrl_fetched, "", "");
    ring(qid);
    number = tails[qid] - 1;
    COUNT(ctrl_fetched_at, "", "");
    NONE(ctrl_next_fetch, "no queue", "queues before it whose work has to wait");
    COUNT(ctrl_waiting, "", "");
    COUNT(ctrl_seen, "", "");
    check(nvmearb_ctrl_pick(&ctrl, slots, pool, NVMEARB_NO_LIMIT, &step));
    COUNT(ctrl_take, "", "");
    uint32_t first = command.tag;
    check(nvmearb_ctrl_take(&ctrl, slots, pool, &command));
    uint32_t second = command.tag;
    take();
    COUNT(ctrl_command, "", "");
    COUNT(ctrl_complete_with, "", "");
    check(nvmearb_ctrl_complete(&ctrl, slots, pool, second, &success, 0));
    tag = first;
    COUNT(ctrl_complete, "", "");
    COUNT(ctrl_next_to_post, "the only queue", "queues before it whose work has to wait");
    COUNT(ctrl_post, "", "");
    n = (post.slot + 1) % RING;
    COUNT(ctrl_cq_head, "", "");
    COUNT(ctrl_post, "", "");
    COUNT(ctrl_post, "", "");
    NONE(ctrl_next_to_post, "no queue", "queues before it whose work has to wait");
    COUNT(ctrl_sq, "", "");
    COUNT(ctrl_cq, "", "");
}

/* So many commands go their way in queue 64, by the calls over arrays. */
static void count_arrays(uint16_t items)
{
    anywhere(POOL);
    for (int k = 0; k < items; k++) {
        put(NVMEARB_OPC_READ, (uint16_t)k, 0, 0, 0);
        memcpy(entries[k], bytes, sizeof bytes);
    }
    qid = QUEUES, n = items;
    check(nvmearb_ctrl_sq_tail(&ctrl, qid, n));
    COUNT(ctrl_fetched_n, with("of %u", n), "entries");
    check(nvmearb_ctrl_pick(&ctrl, slots, pool, NVMEARB_NO_LIMIT, &step));
    COUNT(ctrl_take_n, with("of %u", n), "commands");
    for (int k = 0; k < items; k++) {
        check(nvmearb_ctrl_complete(&ctrl, slots, pool, commands[k].tag, &success, 0));
    }
    COUNT(ctrl_post_n, with("of %u", n), "completions");
    check(done != items);
    number = n;
    check(nvmearb_ctrl_sq_tail(&ctrl, qid, 2 * n));
    COUNT(ctrl_fetched_n_at, with("of %u", n), "entries");
}

/* With an entry in each I/O queue, none of which may be fetched yet. */
static void count_depths(void)
{
    anywhere(POOL);
    for (uint16_t of = 1; of <= QUEUES; of++) {
        check(nvmearb_ctrl_set_depth(&ctrl, of, 1));
        fill(of, 1);
        ring(of);
    }
    qid = QUEUES;
    NONE(ctrl_next_fetch, "no queue, each at its depth", "queues before it whose work has to wait");
}

/* With a completion ready for each I/O queue, none of which may be posted yet: their rings have two slots. */
static void count_full(void)
{
    cq_slots = 2;
    anywhere(POOL);
    cq_slots = RING;
    for (uint16_t of = 1; of <= QUEUES; of++) {
        fill(of, 2);
    }
    while (nvmearb_ctrl_pick(&ctrl, slots, pool, 1, &step) == NVMEARB_OK) {
        take();
        check(nvmearb_ctrl_complete(&ctrl, slots, pool, tag, &success, 0));
    }
    for (uint16_t of = 1; of <= QUEUES; of++) {
        check(nvmearb_ctrl_post(&ctrl, slots, pool, of, &post));
    }
    qid = QUEUES;
    NONE(ctrl_next_to_post, "no queue, each ring full", "queues before it whose work has to wait");
}

/* With all queues full: holding, classes, and picks of I/O queues. */
static void count_queues(void)
{
    for (int pattern = 0; pattern < PATTERNS; pattern++) {
        anywhere(POOL);
        for (uint16_t of = 1; of <= QUEUES; of++) {
            fill(of, has_commands(pattern, of) ? 12 : 0);
        }
        for (int k = 0; k < 8 && nvmearb_ctrl_peek(&ctrl, slots, pool, &pick) == NVMEARB_OK; k++) {
            COUNT(ctrl_peek, "", "");
            COUNT(ctrl_pick, "of an I/O queue", "");
            take();
        }
        qid = QUEUES, on = 1, n = NVMEARB_LOW;
        COUNT(ctrl_hold, "", "");
        on = 0;
        COUNT(ctrl_hold, "", "");
        COUNT(ctrl_set_class, "", "");
        n = DEPTH;
        COUNT(ctrl_set_depth, "", "");
    }
}

/* An Abort of the last of so many waiting commands, and a Delete of their queue. */
static void count_waiting(uint16_t commands)
{
    for (int own = 0; own < 2; own++) {
        anywhere(POOL);
        if (own) {
            call_ctrl_own_opcode();
        }
        fill(QUEUES, commands);
        put(NVMEARB_OPC_ABORT, 1, 0, (uint32_t)(commands - 1) << 16 | QUEUES, 0);
        submit(0);
        COUNT(ctrl_pick, with("of an Abort, waiting commands: %u", commands), "waiting commands of its queue");
        came_to(NVMEARB_ABORT);
    }
    anywhere(POOL);
    fill(QUEUES, commands);
    qid = QUEUES, n = commands - 1;
    COUNT(ctrl_waits, with("the last of %u", commands), "waiting commands before it");
    put(NVMEARB_OPC_DELETE_SQ, 1, 0, QUEUES, 0);
    submit(0);
    COUNT(ctrl_pick, with("of a Delete SQ, waiting commands: %u", commands), "waiting commands of its queue");
    came_to(NVMEARB_BEGIN_DELETE);
}

/* Creates of the last queue of each kind, and its deletion. */
static void count_creates(int is_anywhere)
{
    if (is_anywhere) {
        make(POOL);
        check(nvmearb_ctrl_init_anywhere(&ctrl, slots, pool, &config, &placement));
        open(QUEUES - 1);
    } else {
        on_regions(QUEUES, 1);
    }
    put_create_cq(QUEUES);
    submit(0);
    COUNT(ctrl_pick, "of a Create CQ", "open queues");
    came_to(NVMEARB_OPEN_CQ);
    put_create_sq(QUEUES);
    submit(0);
    COUNT(ctrl_pick, "of a Create SQ", "open queues");
    came_to(NVMEARB_OPEN_SQ);
    put(NVMEARB_OPC_DELETE_SQ, 1, 0, QUEUES, 0);
    submit(0);
    check(nvmearb_ctrl_pick(&ctrl, slots, pool, NVMEARB_NO_LIMIT, &step));
    COUNT(ctrl_finish, "one deletion, of queue 64", "identifiers before it");
    post_admin();
    put(NVMEARB_OPC_DELETE_CQ, 1, 0, QUEUES, 0);
    submit(0);
    COUNT(ctrl_pick, "of a Delete CQ", "open queues");
    came_to(NVMEARB_CLOSE_CQ);
}

static void count_features(void)
{
    anywhere(POOL);
    put(NVMEARB_OPC_SET_FEATURES, 1, 0, NVMEARB_FID_ARBITRATION, CDW11);
    submit(0);
    COUNT(ctrl_pick, "of Set or Get Features", "");
    came_to(NVMEARB_SET_ARBITRATION);
    put(NVMEARB_OPC_GET_FEATURES, 1, 0, NVMEARB_FID_NUMBER_OF_QUEUES, 0);
    submit(0);
    COUNT(ctrl_pick, "of Set or Get Features", "");
    check(nvmearb_ctrl_own_opcode(&ctrl, 0x06));
    put(0x06, 1, 0, 1, 0);
    submit(0);
    COUNT(ctrl_pick, "of the device's admin command", "");
}

/* All 64 queues are being deleted, and none or the last alone can end. */
static void count_deletions(void)
{
    for (uint16_t without = 0; without <= 1; without++) {
        anywhere(POOL);
        for (uint16_t of = 1; of <= QUEUES; of++) {
            fill(of, of > QUEUES - without ? 0 : 1);
        }
        for (uint16_t of = 1; of <= QUEUES; of++) {
            put(NVMEARB_OPC_DELETE_SQ, 1, 0, of, 0);
            submit(0);
            check(nvmearb_ctrl_pick(&ctrl, slots, pool, NVMEARB_NO_LIMIT, &step));
        }
        if (without) {
            COUNT(ctrl_finish, "64 deletions, the last ends", "identifiers before it");
        } else {
            NONE(ctrl_finish, "64 deletions, none ends", "identifiers before it");
        }
    }
}

int main(void)
{
    static const size_t pools[SIZES] = {256, POOL, NVMEARB_MAX_SLOTS};
    static const uint16_t items[SIZES] = {1, 64, WINDOW}, shown[SIZES] = {2, 16, QUEUES + 1};
    for (mechanism = NVMEARB_ROUND_ROBIN; mechanism <= NVMEARB_WEIGHTED; mechanism++) {
        for (int size = 0; size < SIZES; size++) {
            count_arbiter(shown[size]);
        }
        count_board();
        count_queues();
    }
    /* (under weighted round robin the admin queue comes first) */
    mechanism = NVMEARB_WEIGHTED;
    count_making();
    count_way();
    count_depths();
    count_full();
    count_features();
    count_creates(0);
    count_creates(1);
    count_deletions();
    for (int size = 0; size < SIZES; size++) {
        count_waiting(items[size]);
        count_arrays(items[size]);
        count_slots(pools[size]);
    }
    return 0;
}
