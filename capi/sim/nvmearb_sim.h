/* SPDX-License-Identifier: MIT */
/*
 * nvmearb_sim.h: a controller in virtual time, by step, for device models of your own. It does what `nvmearb simulate`
 * does (docs/SIMULATION.md has the model): hosts whose commands come at random times, at equal gaps or as you give
 * them, the controller of nvmearb.h, and a device of channels whose services you may set.
 *
 * The controller is the proved one. What stands around it here, hosts, clock and channels, is C, and isn't proved:
 * tests/sim compares the times of each command with those that `nvmearb simulate` tells, byte for byte.
 *
 * The order of calls:
 *
 *   1. nvmearb_sim_bytes, and memory of so many bytes.
 *   2. nvmearb_sim_init.
 *   3. nvmearb_sim_step while it returns NVMEARB_OK. After NVMEARB_SIM_STARTED, and before the next step,
 *      nvmearb_sim_serve may set how long the command runs, or put off its end until nvmearb_sim_end.
 *   4. nvmearb_sim_numbers_of, at any time.
 *
 * Times are whole picoseconds. Everything is a function of the configuration, the queues, and what the calls say. No
 * call allocates, reads a clock or keeps a pointer. The caller sees to what the head of nvmearb.h says of pointers and
 * threads. A call returns NVMEARB_OK except where its comment says otherwise, and but for a step has written nothing
 * then. It returns NVMEARB_ESTATE first if `sim` isn't what nvmearb_sim_init of this version wrote.
 *
 * A simulation holds no pointer. A copy of its nvmearb_sim_bytes, at any multiple of 16, goes on with the same steps,
 * also in another process with a library of the same version (nvmearb_sim_verify).
 */
#ifndef NVMEARB_SIM_H
#define NVMEARB_SIM_H

#include "nvmearb.h"

#ifdef __cplusplus
extern "C" {
#endif

/* Results of a step beside those of nvmearb.h. Each step after one of them returns the same. */
#define NVMEARB_SIM_ELONG 16u   /* a time would be 2^64 picoseconds or more, which are 213 days */
#define NVMEARB_SIM_EMANY 17u   /* more commands came and aren't done than `outstanding` allows */
#define NVMEARB_SIM_EBROKEN 18u /* something happened that never does */

/* How times are spread. */
#define NVMEARB_SIM_FIXED 0u       /* each is `time` */
#define NVMEARB_SIM_EXPONENTIAL 1u /* exponential, of the mean `time`: 1 to NVMEARB_SIM_MAX_MEAN */
#define NVMEARB_SIM_TWO_POINTS 2u  /* `rare` with a probability of 1 / `one_in`, which is above 0; else `time` */

/* The greatest mean of exponential times: 3.3 days. */
#define NVMEARB_SIM_MAX_MEAN 288230376151711743u

/* How long a command runs: zeros are no time at all. */
typedef struct nvmearb_sim_service {
    uint64_t time;
    uint64_t rare, one_in; /* of NVMEARB_SIM_TWO_POINTS */
    uint64_t per_block;    /* what each block adds; a flush has no block */
    uint32_t spread;       /* NVMEARB_SIM_FIXED .. NVMEARB_SIM_TWO_POINTS */
} nvmearb_sim_service;

/* When the commands of a queue come. */
#define NVMEARB_SIM_POISSON 0u /* at exponential gaps of the mean `gap`, 1 to NVMEARB_SIM_MAX_MEAN */
#define NVMEARB_SIM_EVERY 1u   /* at equal gaps of `gap`, above 0 */
#define NVMEARB_SIM_BURSTS 2u  /* as NVMEARB_SIM_POISSON, where time passes in on phases alone */
#define NVMEARB_SIM_CLOSED 3u  /* `closed` at the start, 1 to 4096, and one by `gap` behind each completion */
#define NVMEARB_SIM_GIVEN 4u   /* as nvmearb_sim_come says: nothing of them is drawn */

/*
 * A submission queue with a completion queue of its own, and its host. NVMEARB_SIM_GIVEN needs `priority` and `slots` alone;
 * else a service is looked at where its operation has a share.
 */
typedef struct nvmearb_sim_queue {
    uint64_t gap;
    uint64_t on, off;                  /* the phases of NVMEARB_SIM_BURSTS, on first: `on` above 0, both below 2^64 */
    uint32_t arrivals;                 /* NVMEARB_SIM_POISSON .. NVMEARB_SIM_GIVEN */
    uint32_t closed;
    uint16_t priority;                 /* NVMEARB_URGENT .. NVMEARB_LOW */
    uint16_t slots;                    /* of each of its two rings, 2 to 4096 */
    uint32_t reads, writes, flushes;   /* their shares of the commands, one of which is above 0 */
    uint32_t blocks;                   /* of each read and write, 1 to 65536, and at most the `size` of the namespace */
    uint32_t sequential;               /* 0: at any multiple of `blocks`; 1: behind the one before, round the namespace */
    nvmearb_sim_service read, write, flush;
} nvmearb_sim_queue;

/* What a simulation is made with. */
typedef struct nvmearb_sim_config {
    uint64_t stripe;       /* 0: a command runs on any channel; else on that of its first block, so many on each in turn */
    uint64_t size;         /* the blocks of the namespace, 1 to 2^63 - 1 */
    uint64_t pause_every;  /* in each such time a channel starts no command for `pause_length`, which is shorter; */
    uint64_t pause_length; /* both 0: never */
    uint64_t seed;         /* of all that is drawn */
    uint64_t commands;     /* the most that come in all, 1 or more: UINT64_MAX where it is for you to say */
    uint64_t until;        /* none comes at this time and later; 0: no such time */
    uint64_t warm_up;      /* how many of those that come first don't count */
    uint32_t mechanism;    /* NVMEARB_ROUND_ROBIN, NVMEARB_WEIGHTED */
    uint32_t cdw11;        /* Arbitration: burst 2^n in bits 2:0, weights less 1: low 15:8, medium 23:16, high 31:24 */
    uint32_t queues;       /* how many there are, 1 to NVMEARB_MAX_IO_QUEUES: queues 1, 2 and so on */
    uint32_t channels;     /* 1 to 4096, each of which runs a command at a time */
    uint32_t depth;        /* the most commands of the device, 1 to 256, those that run included */
    uint32_t outstanding;  /* the most commands that came and aren't done, 1 to 2^24: some 100 bytes each */
} nvmearb_sim_config;

/* A simulation: opaque. */
typedef struct nvmearb_sim nvmearb_sim;

/* A command. Times to which it hasn't come are 0. */
typedef struct nvmearb_sim_command {
    uint64_t number;    /* how many commands of its queue came before it */
    uint64_t block;     /* its first block */
    uint64_t service;   /* how long it runs, as drawn, given or set; where its end was put off 0 until that is known */
    uint64_t came, submitted, picked, started, done;
    uint32_t blocks;    /* 0 of a flush */
    uint32_t channel;   /* that on which it runs */
    uint16_t queue;
    uint16_t operation; /* NVMEARB_OPC_FLUSH, NVMEARB_OPC_WRITE, NVMEARB_OPC_READ */
    uint32_t counts;    /* 1 behind the warm-up, else 0 */
} nvmearb_sim_command;

/* What happened in a step. */
#define NVMEARB_SIM_CAME 1u     /* a `command` came to its host */
#define NVMEARB_SIM_PICKED 2u   /* arbitration picked commands (`pick`), of which the device had room for `room` */
#define NVMEARB_SIM_STARTED 3u  /* a `command` starts on a channel */
#define NVMEARB_SIM_FINISHED 4u /* a `command` is done, and its host has the completion */
#define NVMEARB_SIM_PAUSED 5u   /* a `channel` starts no command until it goes on */
#define NVMEARB_SIM_RESUMED 6u  /* a `channel` goes on */

/* A field that a happening of its kind doesn't have is 0. */
typedef struct nvmearb_sim_happening {
    uint64_t time;
    uint32_t kind;
    uint32_t channel;
    uint32_t room;
    nvmearb_pick pick;
    nvmearb_sim_command command;
} nvmearb_sim_happening;

/* Numbers of the commands that count and are done. Means are rounded down; all are 0 of no command. */
typedef struct nvmearb_sim_numbers {
    uint64_t commands, blocks;
    uint64_t latency_mean, latency_max;
    uint64_t host_mean, arbitration_mean, device_mean, service_mean; /* the parts of a latency, one after the other */
} nvmearb_sim_numbers;

/* Returns NVMEARB_VERSION of the header with which the library was made. */
uint32_t nvmearb_sim_version(void);

/* Returns how many bytes a simulation takes, or 0 if a field is out of its range. `queues` has config->queues items. */
size_t nvmearb_sim_bytes(const nvmearb_sim_config *config, const nvmearb_sim_queue *queues);

/*
 * Makes a simulation at time 0, whose queues are created and to which no command came.
 * NVMEARB_EARG if a field is out of its range or `sim` isn't a multiple of 16; otherwise NVMEARB_NOROOM if `bytes` is
 * less than nvmearb_sim_bytes; otherwise NVMEARB_SIM_ELONG if the first command of a queue of NVMEARB_SIM_BURSTS
 * would come too late: each step returns it then too.
 */
uint32_t nvmearb_sim_init(nvmearb_sim *sim, size_t bytes, const nvmearb_sim_config *config,
                          const nvmearb_sim_queue *queues);

/*
 * Tests what was restored: whether the `bytes` at `sim` are nvmearb_sim_bytes of its configuration, each number is in
 * its range, each list ends, and the controller is one (nvmearb_ctrl_verify). What the library wrote passes, with a fault
 * too. What passes touches nothing else. But changed times and counts aren't found: restore what you saved, and keep a
 * checksum with it.
 * NVMEARB_ESTATE if not.
 */
uint32_t nvmearb_sim_verify(const nvmearb_sim *sim, size_t bytes);

/*
 * Goes on until something happens, and writes it. At one time things happen in the order in which they were planned.
 * For a loop with events of its own `until` is the time of the next one of these, included, and else UINT64_MAX. So at
 * one time the simulation goes first.
 * NVMEARB_NONE if nothing more happens up to `until`; otherwise NVMEARB_SIM_ELONG, NVMEARB_SIM_EMANY,
 * NVMEARB_SIM_EBROKEN. `happening` isn't written then. Each of these is a step too, after which nvmearb_sim_serve comes
 * too late; but with an `until` before the time of the last happening nothing is done.
 */
uint32_t nvmearb_sim_step(nvmearb_sim *sim, uint64_t until, nvmearb_sim_happening *happening);

/*
 * Writes a time before which nothing happens, for a loop that has to know when to step next: that of the last happening
 * where more may happen at it, else that of what comes next.
 * NVMEARB_NONE if nothing is to come but what nvmearb_sim_come and nvmearb_sim_end will say.
 */
uint32_t nvmearb_sim_next(const nvmearb_sim *sim, uint64_t *time);

/* What nvmearb_sim_serve sets where the end of a command isn't known when it starts. */
#define NVMEARB_SIM_LATER UINT64_MAX

/*
 * Sets how long the command runs that the last step started. With NVMEARB_SIM_LATER it runs until nvmearb_sim_end, which
 * is planned when that is called: set here what is known here, since of what happens at one time the order may matter.
 * A device that takes each command at once has as many channels as its depth, and no stripe.
 * NVMEARB_NONE if the last step started none.
 */
uint32_t nvmearb_sim_serve(nvmearb_sim *sim, uint64_t service);

/*
 * The command on a channel, whose end was put off, ends at a time.
 * NVMEARB_NONE if there is no such command; otherwise NVMEARB_EARG if `at` is before the time of the last happening.
 */
uint32_t nvmearb_sim_end(nvmearb_sim *sim, uint32_t channel, uint64_t at);

/*
 * A command comes to a queue of NVMEARB_SIM_GIVEN at the time `came`. Its `queue`, `operation`, `block`, `blocks` and
 * `service` are taken as well, and no other field: NVMEARB_SIM_LATER is for nvmearb_sim_serve.
 * NVMEARB_EARG if the queue is none of these, `came` is before the time of the last happening or of the queue's last such
 * command, the operation is none, or a read or write hasn't 1 to 65536 blocks within the namespace; otherwise
 * NVMEARB_NONE if none may come at that time, or any more (`until`, `commands`); otherwise the fault that nvmearb_sim_step
 * returns by now; otherwise NVMEARB_NOROOM if `outstanding` commands came, or are to come by this call, and aren't done;
 * otherwise as nvmearb_sim_step. Where `commands` have come before it, a command that was taken doesn't come.
 */
uint32_t nvmearb_sim_come(nvmearb_sim *sim, const nvmearb_sim_command *command);

/*
 * Steps until `count` commands that count were done, and writes these in their order. Each runs as long as was drawn or
 * given. `n` is how many were written, also with a fault: fewer than `count` if nothing more happens.
 * It goes on through pauses, and so takes as long as the times say: while a command runs for a day, a channel that
 * pauses in each microsecond does so 10^11 times. Where you don't know the times, as after nvmearb_sim_verify, call
 * nvmearb_sim_step, which returns at each pause.
 * As nvmearb_sim_step, but NVMEARB_OK where nothing more happens.
 */
uint32_t nvmearb_sim_run(nvmearb_sim *sim, nvmearb_sim_command *commands, size_t count, size_t *n);

/*
 * Writes the numbers of a queue, or of all for a `qid` of 0.
 * NVMEARB_EARG if there is no such queue.
 */
uint32_t nvmearb_sim_numbers_of(const nvmearb_sim *sim, uint16_t qid, nvmearb_sim_numbers *numbers);

/*
 * Writes how long a channel ran commands. That of one that runs counts whole, once it is known and the step behind its
 * start was made.
 * NVMEARB_EARG if there is no such channel.
 */
uint32_t nvmearb_sim_busy(const nvmearb_sim *sim, uint32_t channel, uint64_t *busy);

#ifdef __cplusplus
}
#endif

#endif
