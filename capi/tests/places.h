/* Where numbers lie in a controller and in a slot, for the tests that write there. */
#ifndef PLACES_H
#define PLACES_H

#include <nvmearb.h>

/* Each queue has a ring of slots, head and tail, and a chain of first, last and length, each of 2 bytes. */
enum {
    PLACING = 16, /* where queues may lie */
    BOARD = 16 + sizeof(nvmearb_table) - 8 + PLACING,
    SQS = BOARD + sizeof(nvmearb_board) - 8,
    ARBITER = SQS - sizeof(nvmearb_arbiter),
    SQ_SIZE = 20,
    CQS = SQS + NVMEARB_MAX_REGIONS * SQ_SIZE,
    CQ_SIZE = 14,
    FREE_SLOTS = CQS + NVMEARB_MAX_REGIONS * CQ_SIZE
};
enum { HEAD = 2, TAIL = 4, FIRST = 6, LAST = 8, LENGTH = 10, CQID = 14, TAG = 16, CLOSING = 19 };
enum { DEPTHS = FREE_SLOTS + 6, OUTSTANDING = DEPTHS + 2 * NVMEARB_MAX_QUEUES, PICKED_COUNT = OUTSTANDING + 2 };
enum { NEXT = 72, GENERATION = 74, STATUS_TYPE = 76, SQID = 78, USED = 79 };

#endif
