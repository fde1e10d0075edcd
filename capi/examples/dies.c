/* SPDX-License-Identifier: MIT */
/*
 * A device model of one's own behind the hosts and the controller of nvmearb_sim.h: 8 dies, each of which does one thing
 * at a time. A read takes 60 us of its die, a program 600 us. The device takes each command at once, so its channels are
 * as many as its depth, and how long a command runs is the time until its die has done it.
 *
 *   cc dies.c $(pkg-config --cflags --libs nvmearb_sim) && ./a.out
 */
#include <inttypes.h>
#include <stdio.h>
#include <stdlib.h>

#include <nvmearb_sim.h>

#define US UINT64_C(1000000)
#define DIES 8

/* When each die has done all that it has to do. */
static uint64_t idle_at[DIES];

/* How long a command runs that starts now. */
static uint64_t service_of(const nvmearb_sim_command *it)
{
    uint64_t *die = &idle_at[it->block / 8 % DIES];
    uint64_t begins = *die > it->started ? *die : it->started;
    *die = begins + (it->operation == NVMEARB_OPC_READ ? 60 * US : 600 * US);
    return *die - it->started;
}

int main(void)
{
    nvmearb_sim_queue queues[2] = {
        {.arrivals = NVMEARB_SIM_POISSON, .gap = 40 * US, .priority = NVMEARB_HIGH, .slots = 1024, .reads = 1, .blocks = 8},
        {.arrivals = NVMEARB_SIM_CLOSED, .closed = 4, .priority = NVMEARB_LOW, .slots = 64, .writes = 1, .blocks = 8},
    };
    nvmearb_sim_config config = {.mechanism = NVMEARB_WEIGHTED, .cdw11 = 0x07000000, .queues = 2, .channels = 16, .depth = 16,
                                 .size = 1 << 20, .seed = 1, .commands = 100000, .outstanding = 1 << 16};
    size_t bytes = nvmearb_sim_bytes(&config, queues);
    nvmearb_sim *sim = bytes ? aligned_alloc(16, (bytes + 15) / 16 * 16) : NULL;
    nvmearb_sim_happening told;
    nvmearb_sim_numbers numbers;
    uint32_t result;
    if (!nvmearb_is_of_this_header() || nvmearb_sim_version() != NVMEARB_VERSION) /* (device.c says which it isn't) */
        return 1;
    if (!sim || nvmearb_sim_init(sim, bytes, &config, queues) != NVMEARB_OK)
        return 1;
    while ((result = nvmearb_sim_step(sim, UINT64_MAX, &told)) == NVMEARB_OK)
        if (told.kind == NVMEARB_SIM_STARTED)
            nvmearb_sim_serve(sim, service_of(&told.command));
    for (uint16_t qid = 1; qid <= 2 && result == NVMEARB_NONE; qid++) {
        nvmearb_sim_numbers_of(sim, qid, &numbers);
        printf("q%u: %" PRIu64 " commands, mean latency %" PRIu64 " us\n", qid, numbers.commands, numbers.latency_mean / US);
    }
    free(sim);
    return result != NVMEARB_NONE;
}
