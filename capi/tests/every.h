/* Each call of a controller, but for those that make it and nvmearb_ctrl_verify, by its number. */
#ifndef EVERY_H
#define EVERY_H

#include "ctrl.h"
#include "tell.h"

enum { ITEMS = 3 };

/* What a call takes and writes. */
struct call {
    nvmearb_ctrl *ctrl;
    nvmearb_slot *slots;
    size_t count;
    uint16_t a, b; /* (NEXT_FETCH and NEXT_TO_POST take a queue from `a`, and write one there) */
    uint32_t tag, dw0;
    nvmearb_status status;
    uint8_t flags;
    uint8_t bytes[NVMEARB_SQE_BYTES];
    size_t room, entries_bytes; /* of an array */
    uint8_t entries[ITEMS][NVMEARB_SQE_BYTES];
    uint32_t cookies[ITEMS];
    /* what it writes */
    uint16_t number;
    uint32_t named;
    nvmearb_pick pick;
    nvmearb_step step;
    nvmearb_command command;
    nvmearb_post post;
    nvmearb_seen seen;
    nvmearb_sqe entry;
    uint32_t cookie;
    size_t n;
    nvmearb_command commands[ITEMS];
    nvmearb_post posts[ITEMS];
};
/* The calls. Those that take no slots come first. */
enum { ADD_SQ, ADD_CQ, OWN_OPCODE, OWN_FEATURE, SET_DEPTH, HOLD, SET_CLASS, SQ_TAIL, CQ_HEAD };
enum { FETCH = CQ_HEAD + 1, NEXT_FETCH, SQ_OF, CQ_OF, WAITING, SEEN, WITHOUT_SLOTS };
enum { FETCHED = WITHOUT_SLOTS, PEEK, PICK, TAKE, COMPLETE, COMPLETE_WITH, POST, FINISH };
enum { FETCHED_AT = FINISH + 1, FETCHED_N_AT, FETCHED_N, TAKE_N, POST_N, COMMAND, NAMED, WAITS, NEXT_TO_POST, CALLS };

static inline uint32_t made(struct call *it, unsigned which)
{
    switch (which) {
    case ADD_SQ:
        return nvmearb_ctrl_add_sq_region(it->ctrl, 0x1000u * (it->a % 8u), it->b, &it->number);
    case ADD_CQ:
        return nvmearb_ctrl_add_cq_region(it->ctrl, 0x1000u * (it->a % 8u), it->b, &it->number);
    case OWN_OPCODE:
        return nvmearb_ctrl_own_opcode(it->ctrl, it->bytes[0]);
    case OWN_FEATURE:
        return nvmearb_ctrl_own_feature(it->ctrl, it->bytes[40]); /* (Command Dword 10) */
    case SET_DEPTH:
        return nvmearb_ctrl_set_depth(it->ctrl, it->a, it->b);
    case HOLD:
        return nvmearb_ctrl_hold(it->ctrl, it->a, it->flags);
    case SET_CLASS:
        return nvmearb_ctrl_set_class(it->ctrl, it->a, it->b);
    case SQ_TAIL:
        return nvmearb_ctrl_sq_tail(it->ctrl, it->a, it->b);
    case CQ_HEAD:
        return nvmearb_ctrl_cq_head(it->ctrl, it->a, it->b);
    case FETCH:
        return nvmearb_ctrl_fetch(it->ctrl, it->a, &it->number);
    case NEXT_FETCH:
        return nvmearb_ctrl_next_fetch(it->ctrl, &it->a, &it->number);
    case SQ_OF:
        return nvmearb_ctrl_sq(it->ctrl, it->a, &it->number);
    case CQ_OF:
        return nvmearb_ctrl_cq(it->ctrl, it->a, &it->number);
    case WAITING:
        return nvmearb_ctrl_waiting(it->ctrl, it->a, &it->number);
    case SEEN:
        return nvmearb_ctrl_seen(it->ctrl, it->a, &it->seen);
    case WAITS:
        return nvmearb_ctrl_waits(it->ctrl, it->slots, it->count, it->a, it->b, &it->entry, &it->cookie);
    case FETCHED:
        return nvmearb_ctrl_fetched(it->ctrl, it->slots, it->count, it->a, it->bytes, it->dw0);
    case PEEK:
        return nvmearb_ctrl_peek(it->ctrl, it->slots, it->count, &it->pick);
    case PICK:
        return nvmearb_ctrl_pick(it->ctrl, it->slots, it->count, it->a, &it->step);
    case TAKE:
        return nvmearb_ctrl_take(it->ctrl, it->slots, it->count, &it->command);
    case COMPLETE:
        return nvmearb_ctrl_complete(it->ctrl, it->slots, it->count, it->tag, &it->status, it->dw0);
    case POST:
        return nvmearb_ctrl_post(it->ctrl, it->slots, it->count, it->a, &it->post);
    case FINISH:
        return nvmearb_ctrl_finish(it->ctrl, it->slots, it->count, &it->number);
    case FETCHED_AT:
        return nvmearb_ctrl_fetched_at(it->ctrl, it->slots, it->count, it->a, it->b, it->bytes, it->dw0);
    case FETCHED_N_AT:
        return nvmearb_ctrl_fetched_n_at(it->ctrl, it->slots, it->count, it->a, it->b, it->entries[0], it->entries_bytes,
                                         it->cookies, it->room, &it->n);
    case FETCHED_N:
        return nvmearb_ctrl_fetched_n(it->ctrl, it->slots, it->count, it->a, it->entries[0], it->entries_bytes,
                                      it->cookies, it->room, &it->n);
    case TAKE_N:
        return nvmearb_ctrl_take_n(it->ctrl, it->slots, it->count, it->commands, it->room, &it->n);
    case POST_N:
        return nvmearb_ctrl_post_n(it->ctrl, it->slots, it->count, it->a, it->posts, it->room, &it->n);
    case COMMAND:
        return nvmearb_ctrl_command(it->ctrl, it->slots, it->count, it->tag, &it->command);
    case NAMED:
        return nvmearb_ctrl_named(it->ctrl, it->slots, it->count, it->a, it->b, &it->named);
    case NEXT_TO_POST:
        return nvmearb_ctrl_next_to_post(it->ctrl, it->slots, it->count, &it->a);
    default:
        return nvmearb_ctrl_complete_with(it->ctrl, it->slots, it->count, it->tag, &it->status, it->dw0, it->flags);
    }
}

/* An entry that may be one of each kind. */
static inline void draw_entry(uint64_t *state, uint8_t *bytes)
{
    static const uint8_t opcodes[] = {0, 1, 2, 4, 5, 8, 9, 10, 0x0c, 0x80}, fids[] = {1, 7, 2, EVENTS};
    uint64_t word = drawn(state);
    uint8_t opcode = opcodes[word % sizeof opcodes];
    uint32_t low = (uint32_t)(word >> 8) % 4, high = opcode == NVMEARB_OPC_ABORT ? (uint32_t)(word >> 16) % 8 : 3;
    int is_feature = opcode == NVMEARB_OPC_SET_FEATURES || opcode == NVMEARB_OPC_GET_FEATURES;
    uint32_t select = (uint32_t)(word >> 52) % 2;
    uint32_t cdw10 = is_feature ? select << 8 | fids[low] : high << 16 | low;
    uint32_t cdw11 = 0x10001 + (uint32_t)(word >> 48) % 8;
    entry_of(opcode, (uint16_t)(word >> 32) % 8, 0x1000 * (1 + (word >> 40) % 7), cdw10, cdw11, bytes);
}

/* Draws a call and its arguments but for the tag. Mostly numbers are small, and those of slots are `count`. */
static inline unsigned draw_call(uint64_t *state, struct call *it)
{
    static const uint8_t often[CALLS] = {SQ_TAIL, SQ_TAIL, FETCH,    FETCHED,   FETCHED,       FETCHED,     PEEK,
                                         PICK,    PICK,    TAKE,     TAKE,      TAKE,          POST,        POST,
                                         FINISH,  COMMAND, COMPLETE, COMPLETE,  COMPLETE_WITH, NAMED,       HOLD,
                                         HOLD,    SEEN,    WAITS,    SET_DEPTH, NEXT_FETCH,    NEXT_TO_POST,
                                         TAKE_N,  POST_N,  FETCHED_N, FETCHED_AT,   FETCHED_N_AT};
    uint64_t word = drawn(state);
    unsigned which = word & 1 ? often[(word >> 4) % CALLS] : (unsigned)(word >> 4) % CALLS;
    it->a = word >> 60 ? (uint16_t)(word >> 16) % 3 : (uint16_t)(word >> 16);
    it->b = word >> 60 ? (uint16_t)(word >> 32) % SLOTS : (uint16_t)(word >> 32);
    it->count = (word >> 55 & 31) ? it->count : (size_t)(word >> 32); /* (where it is another, no slot is looked at) */
    it->status.sct = (uint8_t)(word >> 40) % 9;
    it->flags = (uint8_t)(word >> 48) % 5;
    if (which == ADD_SQ || which == ADD_CQ)
        it->b = word & 8 ? 4 : it->b; /* (the rings that Creates name) */
    draw_entry(state, it->bytes);
    it->room = (word >> 52) % (ITEMS + 1), it->n = 0;
    it->entries_bytes = it->room * NVMEARB_SQE_BYTES;
    if (it->room && !(word >> 57 & 7))
        it->entries_bytes -= 1 + (word >> 32) % NVMEARB_SQE_BYTES;
    for (size_t k = 0; k < ITEMS; k++)
        draw_entry(state, it->entries[k]);
    return which;
}

#endif
