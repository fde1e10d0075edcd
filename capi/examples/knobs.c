/* The knobs of knobs.h. */
#include "knobs.h"

#include <errno.h>
#include <stdlib.h>

/* By Command Dword 10. The value is in Command Dwords 11 and 12, or comes in Dword 0 of the completion. */
enum { RATE, BAD_BLOCK, WEIGHTED, CLASS, BAD_READS, ABORTED, RESETS, LATE, LATE_ONES, MOST, RESIZE, MOVE, INTERRUPTS };

struct late {
    struct nvme_request *request;
    uint64_t due;
    struct late *next;
};

static struct {
    struct nvme *device;
    const struct nvme_backend *backends[NVME_NAMESPACES];
    uint32_t rate, bad_nsid, bad_reads, late_nsid, late_ms, late_count, interrupts;
    uint64_t bad_block, due;
    struct late *late;
    int moves;
} knobs;

static uint64_t now(void)
{
    return knobs.device->host.now(knobs.device->host.context);
}

static const struct nvme_backend *backend_of(const struct nvme_request *r)
{
    return knobs.backends[r->on - knobs.device->namespaces];
}

/* ---- Between the device and its backends ---- */

static void begin(struct nvme_request *r)
{
    uint32_t nsid = (uint32_t)(r->on - knobs.device->namespaces) + 1;
    uint64_t bad = knobs.bad_block << r->on->shift;
    if (r->what == NVME_READ && nsid == knobs.bad_nsid && bad - r->at < r->length) {
        knobs.bad_reads++;
        nvme_end(r, EIO);
        return;
    }
    struct late *it = nsid == knobs.late_nsid ? malloc(sizeof *it) : NULL;
    if (it) {
        *it = (struct late){r, now() + knobs.late_ms * 1000000ull, knobs.late};
        knobs.late = it;
        knobs.late_count++;
    } else
        backend_of(r)->begin(r);
}

/* Takes a late request out of the list. */
static void forget(struct late **at)
{
    struct late *it = *at;
    *at = it->next;
    free(it);
    knobs.late_count--;
}

static int cancel(struct nvme_request *r)
{
    for (struct late **at = &knobs.late; *at; at = &(*at)->next)
        if ((*at)->request == r) {
            forget(at);
            return 1;
        }
    return backend_of(r)->cancel && backend_of(r)->cancel(r);
}

static const struct nvme_backend knobs_backend = {.begin = begin, .cancel = cancel};

/* Whether the limit on the rate allows the next pick. */
static int may_pick(void *context, const nvmearb_pick *next)
{
    uint64_t time = now();
    (void)context;
    if (knobs.rate && time < knobs.due)
        return 0;
    if (knobs.rate)
        knobs.due = (knobs.due + 10000000 > time ? knobs.due : time) + next->n * 1000000000ull / knobs.rate;
    return 1;
}

/* ---- What a guest chooses ---- */

static nvmearb_status set(uint32_t what, uint32_t first, uint32_t second)
{
    nvmearb_status invalid = {NVMEARB_SCT_GENERIC, NVMEARB_SC_INVALID_FIELD}, success = {0, 0};
    struct nvme *d = knobs.device;
    if (what == RATE)
        knobs.rate = first, knobs.due = 0;
    else if (what == BAD_BLOCK)
        knobs.bad_nsid = first, knobs.bad_block = second;
    else if (what == WEIGHTED)
        d->is_weighted = first & 1;
    else if (what == CLASS)
        d->classes[first % (NVME_QUEUES + 1)] = second % 5;
    else if (what == LATE)
        knobs.late_nsid = first, knobs.late_ms = second;
    else if (what == MOST)
        d->most = (uint16_t)first;
    else if (what == RESIZE && first - 1 < d->count)
        nvme_resize(d, first, second);
    else if (what == MOVE)
        knobs.moves = 1;
    else
        return invalid;
    return success;
}

static nvmearb_status choose(void *context, const nvmearb_sqe *entry, uint32_t *dw0)
{
    const struct nvme_counts *counts = &knobs.device->state.counts;
    (void)context;
    if (entry->cdw10 == BAD_READS)
        *dw0 = knobs.bad_reads;
    else if (entry->cdw10 == ABORTED)
        *dw0 = counts->aborted;
    else if (entry->cdw10 == RESETS)
        *dw0 = counts->resets;
    else if (entry->cdw10 == LATE_ONES)
        *dw0 = knobs.late_count;
    else if (entry->cdw10 == INTERRUPTS)
        *dw0 = knobs.interrupts;
    else
        return set(entry->cdw10, entry->cdw11, entry->cdw12);
    return (nvmearb_status){0, 0};
}

/* ---- Between turns ---- */

/* Saves the device, and restores it in place of the first, as a machine does that is moved. */
static void move(void)
{
    struct nvme *d = knobs.device;
    struct nvme_saved *saved = malloc(sizeof *saved);
    FILE *log = d->log;
    if (!saved)
        return;
    while (!nvme_save(d, saved))
        d->host.settle(d->host.context);
    nvme_reset(d);
    if (!nvme_restore(d, saved))
        abort();
    d->log = log; /* it goes on, since nothing happened in between */
    free(saved);
}

int knobs_turn(void)
{
    uint64_t time = now(), next = UINT64_MAX;
    if (knobs.moves)
        knobs.moves = 0, move();
    for (struct late **at = &knobs.late; *at;) {
        struct nvme_request *r = (*at)->request;
        if ((*at)->due <= time) {
            forget(at);
            backend_of(r)->begin(r);
            at = &knobs.late; /* what it began may be late, too */
            continue;
        }
        next = (*at)->due < next ? (*at)->due : next;
        at = &(*at)->next;
    }
    if (knobs.rate && knobs.due > time)
        next = knobs.due < next ? knobs.due : next;
    return next == UINT64_MAX ? -1 : (int)((next - time) / 1000000 + 1);
}

void knobs_settle(void)
{
    while (knobs.late) {
        struct nvme_request *r = knobs.late->request;
        forget(&knobs.late);
        backend_of(r)->begin(r);
    }
}

void knobs_interrupt(void)
{
    knobs.interrupts++;
}

void knobs_init(struct nvme *d)
{
    knobs.device = d;
    for (uint32_t k = 0; k < d->count; k++) {
        knobs.backends[k] = d->namespaces[k].backend;
        d->namespaces[k].backend = &knobs_backend;
    }
    d->host.may_pick = may_pick;
    d->host.vendor = choose;
}
