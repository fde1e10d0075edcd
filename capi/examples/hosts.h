/*
 * Random hosts of one controller, over memory of theirs. They create and delete queues of few slots, submit commands to
 * them, abort some, and are slow to take completions. Some of their admin commands are to be refused. They keep the
 * rules for the host (docs/KEYS.md, "Rules of a log").
 */
#ifndef HOSTS_H
#define HOSTS_H

#include <nvmearb.h>

enum { HOSTS_QUEUES = 4, HOSTS_ADMIN_SLOTS = 8 }; /* I/O queues of a kind, from 1 on; slots of an admin queue */
enum { HOSTS_ASQ = 0x1000, HOSTS_ACQ = 0x2000, HOSTS_BYTES = 0x40000 }; /* addresses; the size of the memory */

extern uint8_t hosts_memory[HOSTS_BYTES];

/* Begins with the admin queues alone. Each doorbell write is handed to `bell`. */
void hosts_begin(uint64_t seed, void (*bell)(uint16_t qid, int is_head, uint16_t slot));

/* One of them does something: it submits, writes a doorbell, or takes completions. */
void hosts_step(void);

/*
 * They submit no more, write each doorbell that is due, and take all completions that are there. Returns how many
 * commands aren't answered, but for event requests.
 */
unsigned hosts_settle(void);

/* How many completions named none of their commands. */
unsigned hosts_strays(void);

/* The next number of the sequence that the seed begins, below n. */
uint32_t hosts_draw(uint32_t n);

#endif
