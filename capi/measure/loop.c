/* SPDX-License-Identifier: MIT */
/*
 * The loop of a device that has nothing to execute. In each round hosts ring the doorbells of all queues, the entries are
 * read, and all that is picked is taken, completed and posted. This file is compiled twice: over the calls of the library,
 * and with BY_HAND over those of hand.c. The same loop over Rattle's calls is crates/nvme_bench/src/loops/rounds.rt.
 */
#include "hand.h"
#include "loop.h"

#include <string.h>

#ifdef BY_HAND
#define LOOP loop_by_hand
#define NAME "by hand"
#define CALL(name) hand_##name
#else
#define LOOP loop_from_c
#define NAME "from C"
#define CALL(name) nvmearb_ctrl_##name
#endif

#define POOL 4096
#define DEPTH 512
#define RING 64
/* The weights 4, 2 and 1, and a burst of 8. */
#define CDW11 0x03010003

#define SQS 0x100000u
#define CQS 0x200000u
#define BETWEEN 0x1000u

static struct {
#ifdef BY_HAND
    hand_ctrl ctrl;
    hand_slot slots[POOL];
#else
    nvmearb_ctrl ctrl;
    nvmearb_slot slots[POOL];
#endif
    uint16_t tails[NVMEARB_MAX_QUEUES];
    uint8_t entry[NVMEARB_SQE_BYTES];
    uint32_t submitted;
    uint64_t sum;
} it;

static void loop_check(uint32_t result)
{
    if (result != NVMEARB_OK) {
        loop_fail(NAME, "a call was refused");
    }
}

static void loop_add(uint64_t value)
{
    it.sum = (it.sum ^ value) * 0x100000001b3;
}

/* Three numbers, each with bits of its own. */
static uint64_t loop_join(uint16_t a, uint16_t b, uint32_t c)
{
    return a | (uint32_t)b << 16 | (uint64_t)c << 32;
}

#ifndef BY_HAND
/* The host creates a queue of identifier `qid`, and region `qid`. */
static void loop_create(uint16_t tail, uint8_t opcode, uint64_t prp1, uint16_t qid, uint32_t cdw11)
{
    nvmearb_sqe entry = {.opcode = opcode, .prp1 = prp1, .cdw10 = (RING - 1) << 16 | qid, .cdw11 = cdw11};
    nvmearb_step step;
    nvmearb_post post;
    nvmearb_cqe answer;
    nvmearb_sqe_encode(&entry, it.entry);
    loop_check(nvmearb_ctrl_sq_tail(&it.ctrl, 0, tail % RING));
    loop_check(nvmearb_ctrl_fetched(&it.ctrl, it.slots, POOL, 0, it.entry, 0));
    loop_check(nvmearb_ctrl_pick(&it.ctrl, it.slots, POOL, NVMEARB_NO_LIMIT, &step));
    loop_check(nvmearb_ctrl_post(&it.ctrl, it.slots, POOL, 0, &post));
    loop_check(nvmearb_ctrl_cq_head(&it.ctrl, 0, tail % RING));
    loop_check(nvmearb_cqe_decode(post.bytes, &answer));
    loop_check(answer.status.sc | answer.status.sct);
}

static void loop_open(uint16_t qid, uint8_t priority)
{
    uint64_t sq = SQS + BETWEEN * qid, cq = CQS + BETWEEN * qid;
    uint16_t number, tail = (uint16_t)(2 * qid - 1);
    loop_check(nvmearb_ctrl_add_sq_region(&it.ctrl, sq, RING, &number));
    loop_check(nvmearb_ctrl_add_cq_region(&it.ctrl, cq, RING, &number));
    loop_create(tail, NVMEARB_OPC_CREATE_CQ, cq, qid, 1);
    loop_create((uint16_t)(tail + 1), NVMEARB_OPC_CREATE_SQ, sq, qid, (uint32_t)qid << 16 | (priority - 1u) << 1 | 1);
}
#endif

/* Each of these calls is refused. */
static void loop_add_refusals(const uint32_t *results, size_t count)
{
    for (size_t k = 0; k < count; k++) {
        if (results[k] == NVMEARB_OK) {
            loop_fail(NAME, "a call wasn't refused");
        }
        loop_add(results[k]);
    }
}

/* What the calls return where there is nothing to do, and for arguments that aren't valid. */
static void loop_refuse(uint16_t closed)
{
    const nvmearb_status success = {0, 0}, invalid = {8, 0};
    uint16_t slot;
    nvmearb_step step;
    nvmearb_command command;
    nvmearb_post post;
    const uint32_t results[] = {
        CALL(sq_tail)(&it.ctrl, closed, 1),
        CALL(sq_tail)(&it.ctrl, 1, RING),
        CALL(cq_head)(&it.ctrl, closed, 0),
        CALL(cq_head)(&it.ctrl, 1, RING),
        CALL(cq_head)(&it.ctrl, 1, 1),
        CALL(fetch)(&it.ctrl, closed, &slot),
        CALL(fetch)(&it.ctrl, 1, &slot),
        CALL(fetched)(&it.ctrl, it.slots, POOL, 1, it.entry, 0),
        CALL(pick)(&it.ctrl, it.slots, POOL, 0, &step),
        CALL(take)(&it.ctrl, it.slots, POOL, &command),
        CALL(complete)(&it.ctrl, it.slots, POOL, 0, &invalid, 0),
        CALL(complete)(&it.ctrl, it.slots, POOL, 0, &success, 0),
        CALL(complete)(&it.ctrl, it.slots, POOL, POOL, &success, 0),
        CALL(post)(&it.ctrl, it.slots, POOL, closed, &post),
        CALL(post)(&it.ctrl, it.slots, POOL, 1, &post),
    };
    loop_add_refusals(results, sizeof results / sizeof *results);
}

/* What they return for slots that aren't the whole pool. */
static void loop_refuse_slots(void)
{
    const nvmearb_status success = {0, 0};
    nvmearb_step step;
    nvmearb_command command;
    nvmearb_post post;
    const uint32_t results[] = {
        CALL(fetched)(&it.ctrl, it.slots, POOL - 1, 1, it.entry, 0),
        CALL(pick)(&it.ctrl, it.slots, POOL - 1, 0, &step),
        CALL(take)(&it.ctrl, it.slots, POOL - 1, &command),
        CALL(complete)(&it.ctrl, it.slots, POOL - 1, 0, &success, 0),
        CALL(post)(&it.ctrl, it.slots, POOL - 1, 1, &post),
    };
    loop_add_refusals(results, sizeof results / sizeof *results);
}

/*
 * Makes a controller whose I/O queues have the four classes in turn. The checksum of what comes out begins with the calls
 * that are refused, but for those that can't be made in Rattle, with other slots or over a controller that no call made.
 */
static uint64_t loop_make(const loop_case *of)
{
    nvmearb_config config = {{SQS, RING}, {CQS, RING}, of->mechanism, CDW11, 64, 64, DEPTH, DEPTH};
    memset(&it, 0, sizeof it);
#ifdef BY_HAND
    hand_init(&it.ctrl, it.slots, POOL, &config);
#else
    loop_check(nvmearb_ctrl_init(&it.ctrl, it.slots, POOL, &config));
#endif
    for (uint16_t qid = 1; qid <= of->queues; qid++) {
        uint8_t priority = qid % 4 + NVMEARB_URGENT;
#ifdef BY_HAND
        hand_open(&it.ctrl, it.slots, qid, RING, priority);
#else
        loop_open(qid, priority);
#endif
    }
    memset(it.entry, 0, sizeof it.entry);
    loop_refuse_slots();
    it.ctrl.mark ^= 1;
    loop_refuse_slots();
    loop_refuse(of->queues + 1);
    it.ctrl.mark ^= 1;
    uint64_t refusals = it.sum;
    it.sum = 0;
    loop_refuse(of->queues + 1);
    return refusals;
}

/* The host of a queue rings its doorbell, and the entries are read. */
static void loop_submit(uint16_t qid, uint16_t batch)
{
    uint16_t slot;
    it.tails[qid] = (it.tails[qid] + batch) % RING;
    loop_check(CALL(sq_tail)(&it.ctrl, qid, it.tails[qid]));
    while (CALL(fetch)(&it.ctrl, qid, &slot) == NVMEARB_OK) {
        uint32_t number = it.submitted++;
        it.entry[2] = (uint8_t)slot, it.entry[3] = (uint8_t)qid;
        memcpy(it.entry + NVMEARB_SQE_BYTES - sizeof number, &number, sizeof number);
        loop_check(CALL(fetched)(&it.ctrl, it.slots, POOL, qid, it.entry, number + qid));
    }
}

/* What was picked is taken, and completed in the other order. Tags have generations in the library's loop alone. */
static void loop_execute(void)
{
    const nvmearb_status success = {0, 0};
    nvmearb_command taken[NVMEARB_MAX_COUNT];
    int count = 0;
    while (CALL(take)(&it.ctrl, it.slots, POOL, &taken[count]) == NVMEARB_OK) {
        const nvmearb_command *command = &taken[count++];
        uint16_t slot = NVMEARB_SLOT_OF(command->tag);
        loop_add(loop_join(command->entry.cid, slot, command->cookie) ^ command->entry.cdw15);
    }
    while (count-- > 0) {
        loop_check(CALL(complete)(&it.ctrl, it.slots, POOL, taken[count].tag, &success, taken[count].cookie));
    }
}

/* The completions of a queue are posted, and its host consumes them. */
static void loop_post(uint16_t cqid)
{
    nvmearb_post post;
    uint16_t head = 0;
    while (CALL(post)(&it.ctrl, it.slots, POOL, cqid, &post) == NVMEARB_OK) {
        uint64_t halves[2];
        memcpy(halves, post.bytes, sizeof halves);
        loop_add(halves[0]);
        loop_add(halves[1]);
        loop_add(loop_join(post.slot, NVMEARB_SLOT_OF(post.tag), post.cookie));
        head = (post.slot + 1) % RING;
    }
    loop_check(CALL(cq_head)(&it.ctrl, cqid, head));
}

/* Its instructions are counted. */
__attribute__((noinline)) static uint64_t counted(const loop_case *of, unsigned long rounds)
{
    nvmearb_step step;
    while (rounds-- > 0) {
        for (uint16_t qid = 1; qid <= of->queues; qid++) {
            loop_submit(qid, of->batch);
        }
        while (CALL(pick)(&it.ctrl, it.slots, POOL, NVMEARB_NO_LIMIT, &step) == NVMEARB_OK) {
            loop_add(loop_join(step.pick.qid, step.pick.n, step.pick.fresh));
            loop_execute();
            loop_post(step.pick.qid);
        }
    }
    return it.sum;
}

const loop LOOP = {NAME, loop_make, counted};
