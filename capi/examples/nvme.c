/* The loop of the device of nvme.h: fetch, pick, start, post. To be kept as it is. */
#include "parts.h"

#include <stdatomic.h>
#include <string.h>

static int copy(struct nvme *d, uint64_t address, void *bytes, size_t length, int to_guest)
{
    return d->host.copy(d->host.context, address, bytes, length, to_guest);
}

void nvme_complete(struct nvme *d, uint32_t tag, nvmearb_status status, uint32_t dw0)
{
    uint8_t flags = nvme_is_error(status) ? NVMEARB_DNR : 0; /* none of the device's errors goes away by itself */
    nvmearb_ctrl_complete_with(&d->state.ctrl, d->state.slots, NVME_COMMANDS, tag, &status, dw0, flags);
}

/* ---- Rings ---- */

/*
 * CSTS.CFS: a ring isn't memory, say, and the device waits for a reset. So it does too where the controller tells what it
 * can't: something else wrote into it, or it was restored of bytes that somebody made up.
 */
static void fail(struct nvme *d)
{
    d->state.registers[CSTS] |= CFS;
}

static int has_failed(const struct nvme *d)
{
    return (d->state.registers[CSTS] & CFS) != 0;
}

int nvme_is_ring(const struct nvme *d, const struct nvme_ring *ring)
{
    return ring->address % NVME_PAGE == 0 && ring->slots >= 2 && ring->slots <= NVME_MQES + 1 &&
           ring->vector < d->vectors;
}

/* Where a slot of a ring lies. Returns 0 where the ring has none such, or goes over the end of all addresses there. */
static int place(const struct nvme_ring *ring, uint16_t slot, unsigned bytes, uint64_t *at)
{
    *at = ring->address + (uint64_t)slot * bytes;
    return slot < ring->slots && *at >= ring->address;
}

/* Reads the entry in a slot of a submission queue, and hands it to the controller. Returns 0 where that failed. */
static int fetch_one(struct nvme *d, uint16_t qid, uint16_t slot)
{
    uint8_t bytes[NVMEARB_SQE_BYTES]; /* a copy: the host may write there */
    uint64_t at;
    if (qid > NVME_QUEUES || !place(&d->state.sqs[qid], slot, sizeof bytes, &at) ||
        !copy(d, at, bytes, sizeof bytes, 0))
        return 0;
    if (d->log)
        log_fetch(d->log, qid, slot, bytes);
    if (qid == 0)
        nvme_see(d, bytes);
    return nvmearb_ctrl_fetched(&d->state.ctrl, d->state.slots, NVME_COMMANDS, qid, bytes, qid) == NVMEARB_OK;
}

/* Fetches what the host submitted to a queue, from this slot of its ring on. */
static void fetch(struct nvme *d, uint16_t qid, uint16_t slot)
{
    do {
        if (!fetch_one(d, qid, slot))
            fail(d);
    } while (!has_failed(d) && nvmearb_ctrl_fetch(&d->state.ctrl, qid, &slot) == NVMEARB_OK);
}

/* Writes a completion into its slot, Dword 3 last. Returns 0 where that isn't memory. */
static int put_completion(struct nvme *d, const struct nvme_ring *ring, nvmearb_post *it)
{
    uint64_t at;
    if (!place(ring, it->slot, sizeof it->bytes, &at) || !copy(d, at, it->bytes, 12, 1))
        return 0;
    atomic_thread_fence(memory_order_release);
    return copy(d, at + 12, it->bytes + 12, 4, 1);
}

/* Writes the next completion of a queue into its ring. Returns 0 where that failed. */
static int post_one(struct nvme *d, uint16_t cqid, nvmearb_post *it)
{
    struct nvme_ring *ring = cqid <= NVME_QUEUES ? &d->state.cqs[cqid] : NULL;
    if (d->log)
        log_post(d->log, cqid, it->slot, it->bytes);
    if (!ring || !put_completion(d, ring, it))
        return 0;
    d->state.counts.aborted += (it->bytes[15] << 8 | it->bytes[14]) >> 1 == NVMEARB_SC_ABORT_REQUESTED;
    ring->tail = (uint16_t)((it->slot + 1) % ring->slots);
    ring->has_news = ring->has_interrupt;
    return 1;
}

/* Writes what is ready into a completion queue that has something. */
static void post(struct nvme *d, uint16_t cqid)
{
    nvmearb_post it;
    int has_posted = 0;
    while (nvmearb_ctrl_post(&d->state.ctrl, d->state.slots, NVME_COMMANDS, cqid, &it) == NVMEARB_OK) {
        has_posted = post_one(d, cqid, &it);
        if (!has_posted)
            break;
    }
    if (!has_posted)
        fail(d);
}

/* A command was carried out. Where it created a queue: its ring, by its identifier, and the class that was chosen for it. */
static void opened(struct nvme *d, const nvmearb_step *step)
{
    const nvmearb_asked *asked = &step->asked;
    uint16_t qid = step->answer.qid;
    int is_sq = step->answer.verdict == NVMEARB_OPEN_SQ, is_cq = step->answer.verdict == NVMEARB_OPEN_CQ;
    struct nvme_ring ring = {.address = asked->address,
                             .slots = (uint16_t)(asked->qsize + 1),
                             .vector = asked->vector,
                             .has_interrupt = (uint8_t)asked->interrupts};
    if ((is_sq || is_cq) && (qid > NVME_QUEUES || !nvme_is_ring(d, &ring))) {
        fail(d);
        return;
    }
    if (is_cq)
        d->state.cqs[qid] = ring;
    if (!is_sq)
        return;
    d->state.sqs[qid] = ring;
    d->state.held_queues[qid] = 0;
    if (d->classes[qid])
        nvmearb_ctrl_set_class(&d->state.ctrl, qid, d->classes[qid]);
}

/* ---- The limit on what is in flight ---- */

/* Requests have ended, so namespaces may have room: their queues take part in arbitration again. */
static void release(struct nvme *d)
{
    if (!d->has_ended)
        return;
    d->has_ended = 0;
    for (uint16_t qid = 1; qid <= NVME_QUEUES; qid++)
        if (d->state.held_queues[qid]) {
            d->state.held_queues[qid] = 0;
            nvmearb_ctrl_hold(&d->state.ctrl, qid, 0);
        }
}

/* The namespace of the n-th command that waits in a queue, by its place, or `count`: it goes to none, or to all. */
static uint32_t namespace_of(struct nvme *d, uint16_t qid, uint16_t n)
{
    nvmearb_sqe entry = {.nsid = 0};
    uint32_t cookie;
    nvmearb_ctrl_waits(&d->state.ctrl, d->state.slots, NVME_COMMANDS, qid, n, &entry, &cookie);
    return entry.nsid - 1 < d->count ? entry.nsid - 1 : d->count;
}

/* How many of the commands that are picked next their namespaces have room for. */
static uint16_t fitting(struct nvme *d, const nvmearb_pick *next)
{
    uint16_t more[NVME_NAMESPACES + 1] = {0}, n;
    for (n = 0; n < next->n; n++) {
        uint32_t k = namespace_of(d, next->qid, n);
        if (k < d->count && d->in_flight[k] + more[k] >= d->most)
            break;
        more[k]++;
    }
    return n;
}

/*
 * How many commands may be picked now, 0 for none: those that are next, as far as there is room for them. The rest of
 * the burst waits until the turn of its queue comes again. Queues whose next command there is no room for are left out
 * of arbitration until a request ends.
 */
static uint16_t room(struct nvme *d)
{
    nvmearb_pick next;
    release(d);
    while (nvmearb_ctrl_peek(&d->state.ctrl, d->state.slots, NVME_COMMANDS, &next) == NVMEARB_OK) {
        uint16_t whole = next.n;
        if (next.qid == 0)
            return NVMEARB_NO_LIMIT;
        if (d->most)
            next.n = fitting(d, &next);
        if (next.n && d->host.may_pick && !d->host.may_pick(d->host.context, &next))
            return 0;
        if (next.n)
            return next.n < whole ? next.n : NVMEARB_NO_LIMIT;
        if (next.qid > NVME_QUEUES || nvmearb_ctrl_hold(&d->state.ctrl, next.qid, 1) != NVMEARB_OK) {
            fail(d);
            return 0;
        }
        d->state.held_queues[next.qid] = 1;
    }
    return 0;
}

/* ---- The loop ---- */

/* The next pick, of as many commands as there is room for, which is told for a trace. */
static uint32_t pick(struct nvme *d, nvmearb_step *step)
{
    struct trace_view view;
    nvmearb_ctrl *ctrl = &d->state.ctrl;
    uint16_t most = room(d);
    if (!d->host.picked)
        return nvmearb_ctrl_pick(ctrl, d->state.slots, NVME_COMMANDS, most, step);
    trace_look(ctrl, most, &view);
    uint32_t told = nvmearb_ctrl_pick(ctrl, d->state.slots, NVME_COMMANDS, most, step);
    if (told == NVMEARB_OK)
        d->host.picked(d->host.context, &view, step);
    return told;
}

/* Starts what arbitration picks. Returns whether it picked anything. */
static int work(struct nvme *d)
{
    nvmearb_ctrl *ctrl = &d->state.ctrl;
    nvmearb_command command;
    nvmearb_step step;
    uint16_t gone;
    int has_picked = 0;
    while (pick(d, &step) == NVMEARB_OK) {
        has_picked = 1;
        if (step.kind == NVMEARB_CARRIED_OUT)
            opened(d, &step);
        while (nvmearb_ctrl_take(ctrl, d->state.slots, NVME_COMMANDS, &command) == NVMEARB_OK) {
            if (command.cookie != 0) /* the queue */
                nvme_begin(d, &command);
            else
                nvme_admin(d, &command);
        }
        nvmearb_ctrl_finish(ctrl, d->state.slots, NVME_COMMANDS, &gone); /* at once, if nothing of its queue is held */
    }
    return has_picked;
}

/* Sends a message for each queue with new entries, and says whether the host has entries to take, by the pin. */
static void interrupt(struct nvme *d)
{
    int is_asserted = 0;
    for (uint16_t qid = 0; qid <= NVME_QUEUES; qid++) {
        struct nvme_ring *ring = &d->state.cqs[qid];
        uint16_t region;
        if (ring->has_news && d->host.message)
            d->host.message(d->host.context, ring->vector);
        ring->has_news = 0;
        if (ring->has_interrupt && ring->tail != ring->head && !(d->state.masked >> ring->vector % 32 & 1))
            is_asserted |= nvmearb_ctrl_cq(&d->state.ctrl, qid, &region) == NVMEARB_OK;
    }
    if (is_asserted != d->state.is_asserted)
        d->host.interrupt(d->host.context, is_asserted);
    d->state.is_asserted = (uint8_t)is_asserted;
}

void nvme_turn(struct nvme *d)
{
    nvmearb_ctrl *ctrl = &d->state.ctrl;
    nvmearb_slot *slots = d->state.slots;
    /*
     * Each call begins with the admin queue, and goes on until no queue has an entry to fetch or a completion to post.
     * With fewer slots than the depths have together, keep these two between calls, and let `fetch` read one entry, so
     * that queues share the slots.
     */
    uint16_t qid = NVME_QUEUES, cqid = NVME_QUEUES, slot, gone;
    nvme_stop(d);
    for (int goes_on = 1; goes_on && !has_failed(d);) {
        while (!has_failed(d) && nvmearb_ctrl_next_fetch(ctrl, &qid, &slot) == NVMEARB_OK)
            fetch(d, qid, slot);
        goes_on = work(d);
        nvme_tell_event(d);
        for (; !has_failed(d) && nvmearb_ctrl_next_to_post(ctrl, slots, NVME_COMMANDS, &cqid) == NVMEARB_OK; goes_on = 1)
            post(d, cqid);
        goes_on |= nvmearb_ctrl_finish(ctrl, slots, NVME_COMMANDS, &gone) == NVMEARB_OK;
    }
    interrupt(d);
}
