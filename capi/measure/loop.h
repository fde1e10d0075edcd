/* SPDX-License-Identifier: MIT */
#ifndef LOOP_H
#define LOOP_H

#include <stdint.h>

/* What goes through a controller: in a round, `batch` commands of each of the queues 1 to `queues`. */
typedef struct loop_case {
    uint32_t mechanism;
    uint16_t queues, batch;
} loop_case;

/* The loop over the calls of one implementation (loop.c). */
typedef struct loop {
    const char *name;
    /* Makes a controller. Returns the checksum of what calls answer that can't be made in Rattle. Each is refused. */
    uint64_t (*make)(const loop_case *of);
    /* Goes round so many times. Returns the checksum of what came out of all other calls since the controller was made. */
    uint64_t (*run)(const loop_case *of, unsigned long rounds);
} loop;

extern const loop loop_by_hand, loop_from_c;

/* Ends the program, with a message that tells where and why. */
void loop_fail(const char *where, const char *why);

#endif
