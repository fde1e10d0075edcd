/* SPDX-License-Identifier: MIT */
/* The parts of a simulation. Lists and trees lie behind it in its memory, and are found by offsets. */
/*
 * Decided: a simulation by step in C is C over the library, and not proved. Rattle's keeps its lists in allocated memory,
 * and no struct that does so may cross to C. So it can't lie in memory of the caller, nor be saved as bytes. The one in C
 * is a second reading of the model, which tests/sim compares with Rattle's, byte for byte.
 */
#ifndef SIM_H
#define SIM_H

#include "nvmearb_sim.h"

#define NO_COMMAND UINT32_MAX
#define NO_CHANNEL UINT32_MAX

#define ADMIN_SLOTS 256u

/* xoshiro256++. */
typedef struct stream {
    uint64_t words[4];
} stream;

/* 128 bits. */
typedef struct sum {
    uint64_t low, high;
} sum;

/* How far a command is. */
enum stage { UNUSED, GIVEN, CAME, SUBMITTED, FETCHED, TAKEN, RUNS };

typedef struct command {
    nvmearb_sim_command told;
    uint32_t next; /* the one behind it in its list */
    uint32_t tag;
    uint32_t stage;
} command;

/* Commands, by their indices. */
typedef struct list {
    uint32_t first, last;
} list;

/* Sums over the commands that count and are done. */
typedef struct tally {
    sum latency, host, arbitration, device, service;
    uint64_t commands, blocks, latency_max;
} tally;

typedef struct queue {
    nvmearb_sim_queue of;
    stream arrivals, services, operations, places;
    tally tally;
    list given, came, submitted; /* what is to come, what waits for the ring, what is in it */
    uint64_t number;             /* of the next command */
    uint64_t last_given;         /* when the last one comes that was given */
    uint64_t end;                /* the block behind the one drawn last */
    uint16_t tail, head;         /* of the submission ring, as far as its host knows */
    uint16_t fetched, read;      /* the slots that are read next: by the controller, and by the host of the other ring */
} queue;

typedef struct channel {
    uint64_t busy;
    uint64_t resumed; /* when its last pause ended */
    uint32_t runs;    /* the command that runs there */
    uint16_t paused, put_off;
    uint32_t rests;   /* whether no pause is planned, since nothing was to come */
} channel;

enum what { ARRIVAL, END, PAUSE, RESUME };

/* What comes, in the order of `at`, then of `number`. */
typedef struct event {
    uint64_t at, number;
    uint32_t what;
    uint32_t of; /* the queue, or the channel */
} event;

/* What a step goes on with: an event, a pick, the commands of one, the rest of an end, the rest of a resumption. */
enum phase { EVENTS, PICKS, TAKES, ENDS, RESUMES };

/* What nvmearb_sim_init writes before all else. */
#define MARK (UINT64_C(0x6e766d6573000000) + NVMEARB_VERSION)

struct nvmearb_sim {
    uint64_t mark;
    nvmearb_sim_config config;
    uint64_t now;
    uint64_t came, done;
    uint64_t numbers;                                 /* of events */
    size_t queues, channels, commands, events, slots; /* where these lie */
    size_t bytes;                                     /* of all of it */
    uint32_t slot_count, event_count, most_events;
    uint32_t free;      /* the first command that isn't used */
    uint32_t in_device; /* how many run or wait there */
    list waiting;       /* those that wait there */
    uint32_t phase;
    uint32_t left;      /* TAKES: how many of the pick aren't taken */
    uint32_t of;        /* TAKES: their queue; ENDS, RESUMES: the channel */
    uint32_t ended;     /* ENDS: the command */
    uint32_t starting;  /* the channel on which the last step started a command, whose end isn't planned */
    uint32_t fault;     /* that of the last step, if it had one */
    uint16_t admin;     /* the slot of the admin queue that comes next */
    tally tally;
    nvmearb_ctrl ctrl;
};

/* Where the queues lie, before all else. */
#define QUEUES ((sizeof(nvmearb_sim) + 15) & ~(size_t)15)

static inline queue *queue_of(const nvmearb_sim *sim, uint32_t qid)
{
    return (queue *)((char *)sim + sim->queues) + (qid - 1);
}

static inline channel *channel_of(const nvmearb_sim *sim, uint32_t at)
{
    return (channel *)((char *)sim + sim->channels) + at;
}

static inline command *command_of(const nvmearb_sim *sim, uint32_t index)
{
    return (command *)((char *)sim + sim->commands) + index;
}

static inline event *events_of(const nvmearb_sim *sim)
{
    return (event *)((char *)sim + sim->events);
}

static inline nvmearb_slot *slots_of(const nvmearb_sim *sim)
{
    return (nvmearb_slot *)((char *)sim + sim->slots);
}

/* draws.c. Those that answer 0 would be 2^64 or more. */
enum purpose { ARRIVALS, SERVICES, OPERATIONS, PLACES };
stream sim_stream_of(uint64_t seed, uint32_t qid, enum purpose purpose);
int sim_draw_next(queue *queue, uint64_t time, uint64_t *next); /* when the command behind this time comes */
int sim_draw_command(queue *queue, uint64_t size, nvmearb_sim_command *told);

/* lists.c */
uint32_t sim_allot(nvmearb_sim *sim);
void sim_release(nvmearb_sim *sim, uint32_t index);
void sim_append(nvmearb_sim *sim, list *to, uint32_t index);
uint32_t sim_take_first(nvmearb_sim *sim, list *of);
uint32_t sim_take_behind(nvmearb_sim *sim, list *of, uint32_t before); /* the one behind this, or the first */
uint32_t sim_plan(nvmearb_sim *sim, uint64_t at, enum what what, uint32_t of);
event sim_pop(nvmearb_sim *sim);

/* making.c */
int sim_lay_out(nvmearb_sim *sim, const nvmearb_sim_config *config, const nvmearb_sim_queue *queues);

/* hosts.c */
uint32_t sim_create_queues(nvmearb_sim *sim);
uint32_t sim_submit(nvmearb_sim *sim, uint16_t qid); /* what its ring has room for; the controller reads what it may */
uint32_t sim_fetch(nvmearb_sim *sim, uint16_t qid);  /* the controller reads what it may */
uint32_t sim_collect(nvmearb_sim *sim, uint32_t index);

/* device.c */
uint32_t sim_room(const nvmearb_sim *sim);
void sim_into_device(nvmearb_sim *sim, uint32_t index);
void sim_start_next(nvmearb_sim *sim, uint32_t at);
uint32_t sim_plan_end(nvmearb_sim *sim); /* of the command that starts */

/* numbers.c */
void sim_count(nvmearb_sim *sim, const nvmearb_sim_command *told);

#endif
