/* SPDX-License-Identifier: MIT */
/*
 * A front for I/O queues as one writes it by hand in C: the yardstick of the library's controller. Its calls check what
 * the library's check, return the same results, and write the same bytes, but for the generations of tags. It has no
 * admin commands and holds no queue, so it leaves out what these want, and it copies entries as they are, which wants a
 * little-endian machine.
 */
#ifndef HAND_H
#define HAND_H

#include <nvmearb.h>

/* A command from its fetch until its completion is posted. Its number is the tag. */
typedef struct hand_slot {
    nvmearb_sqe entry;
    uint32_t cookie, dw0;
    uint16_t next; /* the next slot of the same chain */
    uint8_t sqid, state, sct, sc;
} hand_slot;

/* Slots in the order in which they came. */
typedef struct hand_chain {
    uint16_t first, last, len;
} hand_chain;

typedef struct hand_sq {
    uint16_t slots, head, tail;
    hand_chain fetched; /* what isn't taken: first what is picked, then what waits */
    uint16_t waiting, unposted, depth, cqid;
    uint8_t open, priority;
} hand_sq;

typedef struct hand_cq {
    uint16_t slots, head, tail;
    hand_chain done;
    uint8_t open, phase;
} hand_cq;

typedef struct hand_ctrl {
    uint64_t mark;
    size_t count;
    uint64_t ready[NVMEARB_LOW + 1]; /* the queues of a class in which commands wait, as bit qid - 1 */
    uint16_t last[NVMEARB_LOW + 1];  /* the queue of a class that was served last; at 0 that of all, for round robin */
    uint16_t weight[NVMEARB_LOW + 1], used[NVMEARB_LOW + 1];
    hand_sq sq[NVMEARB_MAX_QUEUES];
    hand_cq cq[NVMEARB_MAX_QUEUES];
    hand_chain free;
    uint16_t depth, picked, picked_qid;
    uint8_t weighted, burst;
} hand_ctrl;

/* As nvmearb_ctrl_init. */
void hand_init(hand_ctrl *ctrl, hand_slot *slots, size_t count, const nvmearb_config *config);

/* What a Create of a completion queue and one of a submission queue leave behind, both of this identifier. */
void hand_open(hand_ctrl *ctrl, hand_slot *slots, uint16_t qid, uint16_t ring, uint8_t priority);

/* As the calls of the library that end so. */
uint32_t hand_sq_tail(hand_ctrl *ctrl, uint16_t qid, uint16_t tail);
uint32_t hand_cq_head(hand_ctrl *ctrl, uint16_t cqid, uint16_t head);
uint32_t hand_fetch(const hand_ctrl *ctrl, uint16_t qid, uint16_t *slot);
uint32_t hand_fetched(hand_ctrl *ctrl, hand_slot *slots, size_t count, uint16_t qid, const uint8_t *bytes, uint32_t cookie);
uint32_t hand_pick(hand_ctrl *ctrl, hand_slot *slots, size_t count, uint16_t room, nvmearb_step *step);
uint32_t hand_take(hand_ctrl *ctrl, hand_slot *slots, size_t count, nvmearb_command *command);
uint32_t hand_complete(hand_ctrl *ctrl, hand_slot *slots, size_t count, uint16_t tag, const nvmearb_status *status,
                       uint32_t dw0);
uint32_t hand_post(hand_ctrl *ctrl, hand_slot *slots, size_t count, uint16_t cqid, nvmearb_post *post);

#endif
