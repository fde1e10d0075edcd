/*
 * Random hosts over a controller, whose log this prints, for `nvmearb audit`:
 *
 *   logged [SEED [STEPS [RUDE]]]
 *
 * The device executes nothing. It has at most a few commands at a time, and ends them in any order. By an odd SEED it
 * is handed Aborts of what it has. The status is 0 where each command was answered in the end. With a RUDE above 0 any
 * doorbell is written with any value once in so many steps, and it is always 0.
 */
#include "hosts.h"
#include "log.h"

#include <stdlib.h>
#include <string.h>

enum { DEPTH = 12, SLOTS = (HOSTS_QUEUES + 1) * DEPTH, ROOM = 20, IDENTIFY = 0x06, EVENT_REQUEST = 0x0c };

static const nvmearb_status success = {NVMEARB_SCT_GENERIC, NVMEARB_SC_SUCCESS};
static const nvmearb_status aborted = {NVMEARB_SCT_GENERIC, NVMEARB_SC_ABORT_REQUESTED};
static const nvmearb_status unreadable = {NVMEARB_SCT_MEDIA, NVMEARB_SC_UNRECOVERED_READ_ERROR};

static struct {
    nvmearb_ctrl ctrl;
    nvmearb_slot slots[SLOTS];
    uint64_t sqs[NVMEARB_MAX_QUEUES], cqs[NVMEARB_MAX_QUEUES]; /* where queues lie, by identifier */
    uint16_t sq, cq;                                           /* those that had the last turn */
    nvmearb_command has[ROOM];
    unsigned count;
} d;
#define CTRL &d.ctrl, d.slots, SLOTS

static int enable(uint64_t seed)
{
    uint32_t mechanism = seed / 2 % 2 ? NVMEARB_WEIGHTED : NVMEARB_ROUND_ROBIN;
    nvmearb_region asq = {HOSTS_ASQ, HOSTS_ADMIN_SLOTS}, acq = {HOSTS_ACQ, HOSTS_ADMIN_SLOTS};
    nvmearb_config config = {asq, acq, mechanism, 1, HOSTS_QUEUES, HOSTS_QUEUES, DEPTH, DEPTH};
    nvmearb_placement placement = {4096, 4095, 1};
    d.sqs[0] = HOSTS_ASQ, d.cqs[0] = HOSTS_ACQ;
    d.sq = d.cq = HOSTS_QUEUES;
    log_start(stdout, HOSTS_ADMIN_SLOTS, HOSTS_ADMIN_SLOTS);
    return nvmearb_ctrl_init_anywhere(CTRL, &config, &placement) == NVMEARB_OK &&
           nvmearb_ctrl_own_opcode(&d.ctrl, IDENTIFY) == NVMEARB_OK &&
           nvmearb_ctrl_own_opcode(&d.ctrl, EVENT_REQUEST) == NVMEARB_OK &&
           (seed % 2 == 0 || nvmearb_ctrl_own_opcode(&d.ctrl, NVMEARB_OPC_ABORT) == NVMEARB_OK);
}

static void rings(uint16_t qid, int is_head, uint16_t slot)
{
    if (is_head) {
        log_head(stdout, qid, slot);
        nvmearb_ctrl_cq_head(&d.ctrl, qid, slot);
    } else {
        log_tail(stdout, qid, slot);
        nvmearb_ctrl_sq_tail(&d.ctrl, qid, slot);
    }
}

/* These return whether they did anything. */
static int fetch(void)
{
    uint8_t bytes[NVMEARB_SQE_BYTES];
    uint16_t slot;
    if (nvmearb_ctrl_next_fetch(&d.ctrl, &d.sq, &slot) != NVMEARB_OK)
        return 0;
    memcpy(bytes, hosts_memory + d.sqs[d.sq] + sizeof bytes * slot, sizeof bytes);
    log_fetch(stdout, d.sq, slot, bytes);
    return nvmearb_ctrl_fetched(CTRL, d.sq, bytes, d.sq) == NVMEARB_OK;
}

static int post(void)
{
    nvmearb_post it;
    if (nvmearb_ctrl_next_to_post(CTRL, &d.cq) != NVMEARB_OK || nvmearb_ctrl_post(CTRL, d.cq, &it) != NVMEARB_OK)
        return 0;
    log_post(stdout, d.cq, it.slot, it.bytes);
    memcpy(hosts_memory + d.cqs[d.cq] + sizeof it.bytes * it.slot, it.bytes, sizeof it.bytes);
    return 1;
}

static int finish(void)
{
    uint16_t gone;
    return nvmearb_ctrl_finish(CTRL, &gone) == NVMEARB_OK;
}

/* Ends the command at a place of those that the device has. */
static void end(unsigned k, nvmearb_status status, uint32_t dw0)
{
    nvmearb_ctrl_complete(CTRL, d.has[k].tag, &status, dw0);
    d.has[k] = d.has[--d.count];
}

/* Ends the command at a place, an Abort with the one that it names, where the device has that. */
static void end_by_kind(unsigned k)
{
    const nvmearb_sqe *entry = &d.has[k].entry;
    int is_admin = d.has[k].cookie == 0; /* the queue */
    uint32_t tag, own = d.has[k].tag;
    if (!is_admin || entry->opcode != NVMEARB_OPC_ABORT)
        end(k, is_admin || hosts_draw(10) ? success : unreadable, 0);
    else if (nvmearb_ctrl_named(CTRL, entry->cdw10 & 0xffff, entry->cdw10 >> 16, &tag) != NVMEARB_OK || tag == own)
        end(k, success, 1);
    else {
        unsigned named = 0;
        while (d.has[named].tag != tag)
            named++;
        end(named, aborted, 0);
        for (k = 0; d.has[k].tag != own;)
            k++;
        end(k, success, 0);
    }
}

/* Ends some command that isn't an event request. */
static int end_one(void)
{
    for (unsigned n = 0, k = d.count ? hosts_draw(d.count) : 0; n < d.count; n++, k = (k + 1) % d.count)
        if (d.has[k].cookie != 0 || d.has[k].entry.opcode != EVENT_REQUEST) {
            end_by_kind(k);
            return 1;
        }
    return 0;
}

static int pick(void)
{
    nvmearb_step step;
    if (nvmearb_ctrl_pick(CTRL, (uint16_t)(ROOM - d.count), &step) != NVMEARB_OK)
        return 0;
    if (step.answer.verdict == NVMEARB_OPEN_SQ)
        d.sqs[step.answer.qid] = step.asked.address;
    if (step.answer.verdict == NVMEARB_OPEN_CQ)
        d.cqs[step.answer.qid] = step.asked.address;
    finish();
    while (nvmearb_ctrl_take(CTRL, &d.has[d.count]) == NVMEARB_OK)
        d.count++;
    return 1;
}

/* The hosts submit no more. Returns how many of their commands stay unanswered. */
static unsigned settle(void)
{
    unsigned left = 1;
    for (int turns = 0; left && turns < 1000; turns++) {
        left = hosts_settle();
        while (fetch() | pick() | end_one() | post() | finish())
            ;
    }
    return left;
}

int main(int count, char **words)
{
    static int (*const parts[])(void) = {fetch, fetch, pick, end_one, post, finish};
    uint64_t seed = count > 1 ? strtoull(words[1], NULL, 0) : 1;
    uint64_t steps = count > 2 ? strtoull(words[2], NULL, 0) : 20000;
    uint32_t rude = count > 3 ? (uint32_t)strtoul(words[3], NULL, 0) : 0;
    if (!nvmearb_is_of_this_header() || !enable(seed)) {
        fprintf(stderr, "logged: libnvmearb isn't that of nvmearb.h, or an unproved build\n");
        return 3;
    }
    hosts_begin(seed, rings);
    for (; steps; steps--) {
        hosts_step();
        if (rude && hosts_draw(rude) == 0)
            rings((uint16_t)hosts_draw(HOSTS_QUEUES + 2), (int)hosts_draw(2), (uint16_t)hosts_draw(20));
        parts[hosts_draw(sizeof parts / sizeof *parts)]();
    }
    unsigned left = settle();
    if (rude || (left == 0 && hosts_strays() == 0))
        return fflush(stdout) ? 3 : 0;
    fprintf(stderr, "logged: %u commands weren't answered, %u completions named none\n", left, hosts_strays());
    return 1;
}
