/*
 * Save and restore of the device of nvme.h, as for a migration. To be kept, with what a device adds to its state: each of
 * its numbers that something goes by is looked at here, as a VMM that takes over a device can't trust the other side.
 */
#include "parts.h"

#include <stddef.h>
#include <string.h>

/* What the bytes begin with. The number is that of this form. */
static const char letters[8] = {'n', 'v', 'm', 'e', 'd', 'e', 'v', '2'};
_Static_assert(sizeof(struct nvme_state) % sizeof(uint64_t) == 0, "the sum goes by whole words");

/* A sum over the words of a state. It finds mistakes, and stops nobody who makes one that fits. */
static uint64_t sum_of(const struct nvme_state *s)
{
    uint64_t sum = 0xcbf29ce484222325u, word;
    for (size_t at = 0; at < sizeof *s; at += sizeof word) {
        memcpy(&word, (const uint8_t *)s + at, sizeof word);
        sum = ((sum << 23 | sum >> 41) ^ word) * 0x100000001b3u;
    }
    return sum;
}

/* Power-on time goes on from what it was. */
int nvme_save(const struct nvme *d, struct nvme_saved *to)
{
    if (d->requests)
        return 0;
    *to = (struct nvme_saved){.version = NVMEARB_VERSION, .bytes = sizeof *to};
    memcpy(to->letters, letters, sizeof letters);
    memcpy(&to->state, &d->state, sizeof to->state);
    to->state.counts.begun = d->host.now(d->host.context) - d->state.counts.begun;
    to->sum = sum_of(&to->state);
    return 1;
}

/* ---- What is looked at ---- */

/* An open submission queue has a ring, with the slot that is fetched next. */
static int is_sq_sound(const struct nvme *d, const struct nvme_state *s, uint16_t qid)
{
    const struct nvme_ring *ring = &s->sqs[qid];
    uint16_t slot;
    return nvme_is_ring(d, ring) && (nvmearb_ctrl_fetch(&s->ctrl, qid, &slot) != NVMEARB_OK || slot < ring->slots);
}

/*
 * Whether the head and the tail of a ring are where the controller has them. A copy of that tells: it takes the head, then
 * the tail as a head, and no slot behind that.
 */
static int are_ends_sound(nvmearb_ctrl copy, uint16_t cqid, const struct nvme_ring *ring)
{
    return nvmearb_ctrl_cq_head(&copy, cqid, ring->head) == NVMEARB_OK &&
           nvmearb_ctrl_cq_head(&copy, cqid, ring->tail) == NVMEARB_OK &&
           nvmearb_ctrl_cq_head(&copy, cqid, (uint16_t)((ring->tail + 1) % ring->slots)) != NVMEARB_OK;
}

/* An open completion queue has a ring. (A device that failed may have failed at an entry that the controller posted.) */
static int is_cq_sound(const struct nvme *d, const struct nvme_state *s, uint16_t cqid)
{
    const struct nvme_ring *ring = &s->cqs[cqid];
    return nvme_is_ring(d, ring) && ring->has_interrupt <= 1 && ring->tail < ring->slots && ring->head < ring->slots &&
           (s->registers[CSTS] & CFS || are_ends_sound(s->ctrl, cqid, ring));
}

/* No queue has news, since a turn ends with telling them, and what is open is sound. */
static int are_queues_sound(const struct nvme *d, const struct nvme_state *s)
{
    uint16_t region;
    for (uint16_t qid = 0; qid <= NVME_QUEUES; qid++) {
        if (s->cqs[qid].has_news || s->sqs[qid].has_news)
            return 0;
        if (nvmearb_ctrl_sq(&s->ctrl, qid, &region) == NVMEARB_OK && !is_sq_sound(d, s, qid))
            return 0;
        if (nvmearb_ctrl_cq(&s->ctrl, qid, &region) == NVMEARB_OK && !is_cq_sound(d, s, qid))
            return 0;
    }
    return 1;
}

/* Each request that is held is an event request that the device has, and none is there twice. */
static int are_requests_sound(const struct nvme_state *s)
{
    nvmearb_command command;
    if (s->held_count > NVME_EVENT_REQUESTS)
        return 0;
    for (unsigned k = 0; k < s->held_count; k++) {
        uint32_t tag = s->held[k];
        if (nvmearb_ctrl_command(&s->ctrl, s->slots, NVME_COMMANDS, tag, &command) != NVMEARB_OK ||
            command.cookie != 0 || command.entry.opcode != NVME_EVENT_REQUEST)
            return 0;
        for (unsigned n = 0; n < k; n++)
            if (s->held[n] == tag)
                return 0;
    }
    return 1;
}

/* A controller is there where the device is enabled. On zeros the library refuses every call: no queue is open. */
static int is_sound(const struct nvme *d, const struct nvme_state *s)
{
    return s->is_asserted <= 1 && s->is_stopping <= 1 && nvme_are_registers(s) && nvme_are_features(s) &&
           (s->pending | s->told) >> EVENTS == 0 && (uint64_t)s->changed >> d->count == 0 &&
           (s->ctrl.mark == 0 || nvmearb_ctrl_verify(&s->ctrl, s->slots, NVME_COMMANDS) == NVMEARB_OK) &&
           are_queues_sound(d, s) && are_requests_sound(s);
}

int nvme_restore(struct nvme *d, const struct nvme_saved *from)
{
    if (d->requests || memcmp(from->letters, letters, sizeof letters) || from->version != NVMEARB_VERSION ||
        from->bytes != sizeof *from || from->sum != sum_of(&from->state) || !is_sound(d, &from->state))
        return 0;
    memcpy(&d->state, &from->state, sizeof d->state);
    d->state.counts.begun = d->host.now(d->host.context) - from->state.counts.begun;
    d->state.is_asserted = 0; /* so that the next turn tells it */
    /* No namespace is busy, so no queue is held: what the bytes say of that needn't be looked at. */
    for (uint16_t qid = 0; qid <= NVME_QUEUES; qid++)
        nvmearb_ctrl_hold(&d->state.ctrl, qid, 0);
    memset(d->state.held_queues, 0, sizeof d->state.held_queues);
    d->log = NULL; /* a log has one start */
    return 1;
}
