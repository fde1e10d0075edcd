/* SPDX-License-Identifier: MIT */
#include "hand.h"

#include <string.h>

#define MARK 0x68616e64u
#define MOST_WAITING 256
#define NO_LIMIT 7

enum { FREE, WAITING, OUT, DONE };

static inline uint16_t after(uint16_t slots, uint16_t index)
{
    return index + 1 < slots ? index + 1 : 0;
}

/* How many slots of a ring are from one index up to another. */
static inline unsigned gap(uint16_t slots, uint16_t from, uint16_t to)
{
    return from <= to ? to - from : to + slots - from;
}

static inline void push(hand_slot *slots, hand_chain *chain, uint16_t tag)
{
    if (chain->len == 0) {
        chain->first = tag;
    } else {
        slots[chain->last].next = tag;
    }
    chain->last = tag;
    chain->len++;
}

static inline uint16_t pop(const hand_slot *slots, hand_chain *chain)
{
    uint16_t tag = chain->first;
    chain->first = slots[tag].next;
    chain->len--;
    return tag;
}

void hand_init(hand_ctrl *ctrl, hand_slot *slots, size_t count, const nvmearb_config *config)
{
    memset(ctrl, 0, sizeof *ctrl);
    memset(slots, 0, count * sizeof *slots);
    ctrl->mark = MARK;
    ctrl->count = count;
    ctrl->weighted = config->mechanism == NVMEARB_WEIGHTED;
    ctrl->depth = config->depth;
    ctrl->burst = config->cdw11 & 7;
    ctrl->weight[NVMEARB_HIGH] = (uint16_t)((config->cdw11 >> 24) + 1);
    ctrl->weight[NVMEARB_MEDIUM] = (uint16_t)((config->cdw11 >> 16 & 0xff) + 1);
    ctrl->weight[NVMEARB_LOW] = (uint16_t)((config->cdw11 >> 8 & 0xff) + 1);
    for (size_t tag = 0; tag < count; tag++) {
        push(slots, &ctrl->free, (uint16_t)tag);
    }
}

void hand_open(hand_ctrl *ctrl, hand_slot *slots, uint16_t qid, uint16_t ring, uint8_t priority)
{
    ctrl->cq[qid] = (hand_cq){.slots = ring, .open = 1, .phase = 1};
    ctrl->sq[qid] = (hand_sq){.slots = ring, .open = 1, .cqid = qid, .depth = ctrl->depth, .priority = priority};
    for (int creates = 0; creates < 2; creates++) {
        push(slots, &ctrl->free, pop(slots, &ctrl->free));
    }
}

uint32_t hand_sq_tail(hand_ctrl *ctrl, uint16_t qid, uint16_t tail)
{
    if (ctrl->mark != MARK) {
        return NVMEARB_ESTATE;
    }
    if (qid >= NVMEARB_MAX_QUEUES || !ctrl->sq[qid].open) {
        return NVMEARB_NONE;
    }
    hand_sq *sq = &ctrl->sq[qid];
    if (tail >= sq->slots || gap(sq->slots, sq->head, sq->tail) + gap(sq->slots, sq->tail, tail) >= sq->slots) {
        return NVMEARB_EARG;
    }
    sq->tail = tail;
    return NVMEARB_OK;
}

uint32_t hand_cq_head(hand_ctrl *ctrl, uint16_t cqid, uint16_t head)
{
    if (ctrl->mark != MARK) {
        return NVMEARB_ESTATE;
    }
    if (cqid >= NVMEARB_MAX_QUEUES || !ctrl->cq[cqid].open) {
        return NVMEARB_NONE;
    }
    hand_cq *cq = &ctrl->cq[cqid];
    if (head >= cq->slots || gap(cq->slots, cq->head, head) > gap(cq->slots, cq->head, cq->tail)) {
        return NVMEARB_EARG;
    }
    cq->head = head;
    return NVMEARB_OK;
}

/* Whether a command of the queue may be fetched: one is submitted, fewer hold a slot than its depth, and a slot is free. */
static inline int is_fetchable(const hand_ctrl *ctrl, uint16_t qid)
{
    if (qid >= NVMEARB_MAX_QUEUES || !ctrl->sq[qid].open || ctrl->free.len == 0) {
        return 0;
    }
    const hand_sq *sq = &ctrl->sq[qid];
    return sq->head != sq->tail && sq->waiting + sq->unposted < sq->depth && sq->waiting < MOST_WAITING &&
           sq->waiting < sq->slots - 1;
}

uint32_t hand_fetch(const hand_ctrl *ctrl, uint16_t qid, uint16_t *slot)
{
    if (ctrl->mark != MARK) {
        return NVMEARB_ESTATE;
    }
    if (!is_fetchable(ctrl, qid)) {
        return NVMEARB_NONE;
    }
    *slot = ctrl->sq[qid].head;
    return NVMEARB_OK;
}

uint32_t hand_fetched(hand_ctrl *ctrl, hand_slot *slots, size_t count, uint16_t qid, const uint8_t *bytes, uint32_t cookie)
{
    if (ctrl->mark != MARK) {
        return NVMEARB_ESTATE;
    }
    if (count != ctrl->count) {
        return NVMEARB_EARG;
    }
    if (!is_fetchable(ctrl, qid)) {
        return NVMEARB_NONE;
    }
    hand_sq *sq = &ctrl->sq[qid];
    uint16_t tag = pop(slots, &ctrl->free);
    hand_slot *it = &slots[tag];
    memcpy(&it->entry, bytes, NVMEARB_SQE_BYTES);
    it->cookie = cookie;
    it->sqid = (uint8_t)qid;
    it->state = WAITING;
    sq->head = after(sq->slots, sq->head);
    push(slots, &sq->fetched, tag);
    sq->waiting++;
    ctrl->ready[sq->priority] |= 1ull << (qid - 1);
    return NVMEARB_OK;
}

/* The first queue of this set whose identifier is above `last`, or else the first of all. */
static inline uint16_t next_queue(uint64_t set, uint16_t last)
{
    uint64_t above = last < 64 ? set >> last << last : 0;
    return (uint16_t)(__builtin_ctzll(above ? above : set) + 1);
}

static inline uint16_t least(unsigned a, unsigned b)
{
    return (uint16_t)(a < b ? a : b);
}

/* The queue that round robin serves next. */
static inline uint32_t round_robin(const hand_ctrl *ctrl, nvmearb_pick *pick)
{
    const uint64_t *ready = ctrl->ready;
    uint64_t set = ready[NVMEARB_URGENT] | ready[NVMEARB_HIGH] | ready[NVMEARB_MEDIUM] | ready[NVMEARB_LOW];
    if (!set) {
        return NVMEARB_NONE;
    }
    pick->qid = next_queue(set, ctrl->last[0]);
    pick->n = ctrl->sq[pick->qid].waiting;
    return NVMEARB_OK;
}

/* That of weighted round robin: urgent, or of the first level that has credit left, or else of the first in a new round. */
static inline uint32_t weighted(const hand_ctrl *ctrl, nvmearb_pick *pick)
{
    unsigned level = NVMEARB_URGENT, credit = MOST_WAITING;
    if (!ctrl->ready[level]) {
        for (level = NVMEARB_HIGH; level <= NVMEARB_LOW; level++) {
            credit = ctrl->weight[level] - ctrl->used[level];
            if (ctrl->ready[level] && credit) {
                break;
            }
        }
    }
    if (level > NVMEARB_LOW) {
        level = ctrl->ready[NVMEARB_HIGH] ? NVMEARB_HIGH : ctrl->ready[NVMEARB_MEDIUM] ? NVMEARB_MEDIUM : NVMEARB_LOW;
        credit = ctrl->weight[level];
        pick->fresh = 1;
    }
    if (!ctrl->ready[level]) {
        return NVMEARB_NONE;
    }
    pick->qid = next_queue(ctrl->ready[level], ctrl->last[level]);
    pick->n = least(ctrl->sq[pick->qid].waiting, credit);
    return NVMEARB_OK;
}

/* Counts a pick as served. */
static inline void serve(hand_ctrl *ctrl, const nvmearb_pick *pick)
{
    hand_sq *sq = &ctrl->sq[pick->qid];
    if (!ctrl->weighted) {
        ctrl->last[0] = pick->qid;
    } else {
        if (pick->fresh) {
            memset(ctrl->used, 0, sizeof ctrl->used);
        }
        ctrl->last[sq->priority] = pick->qid;
        if (sq->priority != NVMEARB_URGENT) {
            ctrl->used[sq->priority] = (uint16_t)(ctrl->used[sq->priority] + pick->n);
        }
    }
    sq->waiting = (uint16_t)(sq->waiting - pick->n);
    if (!sq->waiting) {
        ctrl->ready[sq->priority] &= ~(1ull << (pick->qid - 1));
    }
}

uint32_t hand_pick(hand_ctrl *ctrl, hand_slot *slots, size_t count, uint16_t room, nvmearb_step *step)
{
    (void)slots;
    nvmearb_pick pick = {0, 0, 0};
    if (ctrl->mark != MARK) {
        return NVMEARB_ESTATE;
    }
    if (count != ctrl->count) {
        return NVMEARB_EARG;
    }
    if (ctrl->picked) {
        return NVMEARB_BUSY;
    }
    if (ctrl->weighted ? weighted(ctrl, &pick) : round_robin(ctrl, &pick)) {
        return NVMEARB_NONE;
    }
    if (ctrl->burst != NO_LIMIT) {
        pick.n = least(pick.n, 1u << ctrl->burst);
    }
    pick.n = least(pick.n, room);
    if (room == 0) {
        return NVMEARB_NOROOM;
    }
    serve(ctrl, &pick);
    ctrl->sq[pick.qid].unposted = (uint16_t)(ctrl->sq[pick.qid].unposted + pick.n);
    ctrl->picked = pick.n;
    ctrl->picked_qid = pick.qid;
    memset(step, 0, sizeof *step);
    step->kind = NVMEARB_PICKED;
    step->pick = pick;
    return NVMEARB_OK;
}

uint32_t hand_take(hand_ctrl *ctrl, hand_slot *slots, size_t count, nvmearb_command *command)
{
    if (ctrl->mark != MARK) {
        return NVMEARB_ESTATE;
    }
    if (count != ctrl->count) {
        return NVMEARB_EARG;
    }
    if (!ctrl->picked) {
        return NVMEARB_NONE;
    }
    uint16_t tag = pop(slots, &ctrl->sq[ctrl->picked_qid].fetched);
    slots[tag].state = OUT;
    ctrl->picked--;
    command->entry = slots[tag].entry;
    command->cookie = slots[tag].cookie;
    command->tag = tag;
    return NVMEARB_OK;
}

uint32_t hand_complete(hand_ctrl *ctrl, hand_slot *slots, size_t count, uint16_t tag, const nvmearb_status *status,
                       uint32_t dw0)
{
    if (ctrl->mark != MARK) {
        return NVMEARB_ESTATE;
    }
    if (count != ctrl->count || status->sct > 7) {
        return NVMEARB_EARG;
    }
    if (tag >= count || slots[tag].state != OUT) {
        return NVMEARB_NONE;
    }
    hand_slot *it = &slots[tag];
    it->state = DONE;
    it->sct = status->sct;
    it->sc = status->sc;
    it->dw0 = dw0;
    push(slots, &ctrl->cq[ctrl->sq[it->sqid].cqid].done, tag);
    return NVMEARB_OK;
}

uint32_t hand_post(hand_ctrl *ctrl, hand_slot *slots, size_t count, uint16_t cqid, nvmearb_post *post)
{
    if (ctrl->mark != MARK) {
        return NVMEARB_ESTATE;
    }
    if (count != ctrl->count) {
        return NVMEARB_EARG;
    }
    if (cqid >= NVMEARB_MAX_QUEUES || !ctrl->cq[cqid].open) {
        return NVMEARB_NONE;
    }
    hand_cq *cq = &ctrl->cq[cqid];
    if (cq->done.len == 0 || gap(cq->slots, cq->head, cq->tail) + 1 >= cq->slots) {
        return NVMEARB_NONE;
    }
    uint16_t tag = pop(slots, &cq->done);
    hand_slot *it = &slots[tag];
    uint32_t end = it->entry.cid | (uint32_t)cq->phase << 16 | (uint32_t)it->sc << 17 | (uint32_t)it->sct << 25;
    uint32_t dwords[4] = {it->dw0, 0, ctrl->sq[it->sqid].head | (uint32_t)it->sqid << 16, end};
    memcpy(post->bytes, dwords, sizeof dwords);
    post->cookie = it->cookie;
    post->tag = tag;
    post->slot = cq->tail;
    cq->tail = after(cq->slots, cq->tail);
#ifndef HAND_IS_WRONG
    cq->phase ^= cq->tail == 0;
#endif
    it->state = FREE;
    ctrl->sq[it->sqid].unposted--;
    push(slots, &ctrl->free, tag);
    return NVMEARB_OK;
}
