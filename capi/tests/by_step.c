/* SPDX-License-Identifier: MIT */
/* The calls of nvmearb_sim.h beside the models of tests/sim: refusals, faults, commands that are handed in, damaged bytes. */
#include <inttypes.h>
#include <stdlib.h>
#include <string.h>

#include "sim/nvmearb_sim.h"
#include "tell.h"

#define US UINT64_C(1000000)
#define MOST 400

static const nvmearb_sim_service one_us = {.time = US};

/* A simulation of one queue, and its bytes. */
static size_t bytes;
static nvmearb_sim *memory(void)
{
    nvmearb_sim *sim = bytes ? aligned_alloc(16, (bytes + 15) / 16 * 16) : NULL;
    if (!sim)
        exit(1);
    return sim;
}

static nvmearb_sim *made(nvmearb_sim_config config, nvmearb_sim_queue queue)
{
    bytes = nvmearb_sim_bytes(&config, &queue);
    nvmearb_sim *sim = memory();
    if (nvmearb_sim_init(sim, bytes, &config, &queue) != NVMEARB_OK)
        exit(1);
    return sim;
}

static nvmearb_sim_config config_of(uint64_t commands, uint32_t outstanding)
{
    return (nvmearb_sim_config){.size = 1 << 20, .commands = commands, .mechanism = NVMEARB_WEIGHTED, .queues = 1, .channels = 1, .depth = 1,
                                .outstanding = outstanding};
}

static nvmearb_sim_queue queue_of(uint32_t arrivals, uint64_t gap)
{
    return (nvmearb_sim_queue){.arrivals = arrivals, .gap = gap, .closed = 2, .priority = NVMEARB_LOW, .slots = 8, .reads = 1, .blocks = 8, .read = one_us};
}

/* Steps until nothing more happens, and keeps when commands started. Returns the last answer. */
static uint64_t started[MOST];
static unsigned count;
static uint32_t run(nvmearb_sim *sim)
{
    nvmearb_sim_happening it;
    uint32_t result;
    while ((result = nvmearb_sim_step(sim, UINT64_MAX, &it)) == NVMEARB_OK)
        if (it.kind == NVMEARB_SIM_STARTED && count < MOST)
            started[count++] = it.time;
    return result;
}

static uint32_t come(nvmearb_sim *sim, uint64_t at)
{
    nvmearb_sim_command it = {.queue = 1, .came = at, .operation = NVMEARB_OPC_READ, .blocks = 8, .service = 50};
    return nvmearb_sim_come(sim, &it);
}

/* A fault is told again and again. */
static void faults(void)
{
    nvmearb_sim *sim = made(config_of(100, 4), queue_of(NVMEARB_SIM_EVERY, 1000));
    nvmearb_sim_happening it = {.kind = 77};
    CHECK(run(sim) == NVMEARB_SIM_EMANY);
    CHECK(nvmearb_sim_step(sim, UINT64_MAX, &it) == NVMEARB_SIM_EMANY && it.kind == 77);
    free(sim);
    sim = made(config_of(100, 4), queue_of(NVMEARB_SIM_EVERY, UINT64_MAX / 2));
    CHECK(run(sim) == NVMEARB_SIM_ELONG && run(sim) == NVMEARB_SIM_ELONG);
    free(sim);
}

/* So is one that the making meets: the first command comes in a phase that is behind all times. */
static void made_with_a_fault(void)
{
    nvmearb_sim_config config = config_of(100, 4);
    nvmearb_sim_queue queue = queue_of(NVMEARB_SIM_BURSTS, US);
    queue.on = 1;
    queue.off = UINT64_C(1) << 63;
    bytes = nvmearb_sim_bytes(&config, &queue);
    nvmearb_sim *sim = memory();
    CHECK(nvmearb_sim_init(sim, bytes, &config, &queue) == NVMEARB_SIM_ELONG && run(sim) == NVMEARB_SIM_ELONG);
    CHECK(nvmearb_sim_verify(sim, bytes) == NVMEARB_OK);
    free(sim);
}

/* Steps, and makes the other calls behind it. Returns what the step did. */
static uint32_t stir(nvmearb_sim *sim, nvmearb_sim_happening *it)
{
    nvmearb_sim_command given = {.queue = 2, .came = it->time + 4, .operation = NVMEARB_OPC_WRITE, .block = 7, .blocks = 8, .service = 50};
    uint32_t result = nvmearb_sim_step(sim, UINT64_MAX, it);
    nvmearb_sim_serve(sim, it->command.number % 2 ? NVMEARB_SIM_LATER : 1000);
    nvmearb_sim_end(sim, it->command.channel, it->time + 10);
    nvmearb_sim_come(sim, &given);
    return result;
}

/* What a fault left is whole, and its copy has the fault: commands are there when one comes that would run too long. */
static void faulted(void)
{
    nvmearb_sim_config config = {.size = 1 << 20, .pause_every = 432767, .pause_length = 306540, .commands = UINT64_MAX, .mechanism = NVMEARB_WEIGHTED,
                                 .queues = 3, .channels = 16, .depth = 22, .outstanding = 110};
    nvmearb_sim_queue queues[3] = {queue_of(NVMEARB_SIM_CLOSED, 0), queue_of(NVMEARB_SIM_GIVEN, 0), queue_of(NVMEARB_SIM_EVERY, 5)};
    nvmearb_sim_happening it = {0};
    uint32_t result = NVMEARB_OK;
    unsigned steps = 0, whole = 0;
    queues[2].read.per_block = UINT64_C(1) << 61;
    bytes = nvmearb_sim_bytes(&config, queues);
    nvmearb_sim *sim = memory(), *copy = memory();
    CHECK(nvmearb_sim_init(sim, bytes, &config, queues) == NVMEARB_OK);
    for (; result == NVMEARB_OK && steps < 100; steps++) {
        result = stir(sim, &it);
        whole += nvmearb_sim_verify(sim, bytes) == NVMEARB_OK;
    }
    nvmearb_sim_command late = {.queue = 2, .came = UINT64_MAX, .operation = NVMEARB_OPC_FLUSH};
    CHECK(result == NVMEARB_SIM_ELONG && steps > 10 && whole == steps && nvmearb_sim_come(sim, &late) == NVMEARB_SIM_ELONG);
    memcpy(copy, sim, bytes);
    memset(sim, 0, bytes);
    CHECK(nvmearb_sim_verify(copy, bytes) == NVMEARB_OK && nvmearb_sim_step(copy, UINT64_MAX, &it) == NVMEARB_SIM_ELONG);
    free(copy);
    free(sim);
}

/* Commands that are handed in one by one meet the same pauses as those that are handed in at once. */
static void pauses(void)
{
    nvmearb_sim_config config = config_of(UINT64_MAX, 8);
    uint64_t ahead[8];
    config.pause_every = 1000;
    config.pause_length = 100;
    static const uint64_t at[] = {10, 1950, 3000, 5050, 7060, 8999};
    nvmearb_sim *sim = made(config, queue_of(NVMEARB_SIM_GIVEN, 0));
    for (int k = 0; k < 6; k++)
        CHECK(come(sim, at[k]) == NVMEARB_OK);
    count = 0;
    CHECK(run(sim) == NVMEARB_NONE && count == 6 && started[3] == 5100);
    memcpy(ahead, started, sizeof ahead);
    free(sim);
    sim = made(config, queue_of(NVMEARB_SIM_GIVEN, 0));
    count = 0;
    for (int k = 0; k < 6; k++)
        CHECK(come(sim, at[k]) == NVMEARB_OK && run(sim) == NVMEARB_NONE);
    CHECK(count == 6 && memcmp(ahead, started, 6 * sizeof *ahead) == 0);
    free(sim);
}

/* A run goes on through pauses, at each of which a step returns. */
static void run_through_pauses(void)
{
    nvmearb_sim_config config = config_of(2, 8);
    config.pause_every = 1000;
    config.pause_length = 100;
    nvmearb_sim_queue queue = queue_of(NVMEARB_SIM_CLOSED, 0);
    nvmearb_sim *sim = made(config, queue);
    nvmearb_sim_happening it;
    nvmearb_sim_command done[3];
    unsigned paused = 0;
    size_t n;
    while (nvmearb_sim_step(sim, UINT64_MAX, &it) == NVMEARB_OK)
        paused += it.kind == NVMEARB_SIM_PAUSED;
    CHECK(paused == 2000);
    CHECK(nvmearb_sim_init(sim, bytes, &config, &queue) == NVMEARB_OK);
    CHECK(nvmearb_sim_run(sim, done, 1, &n) == NVMEARB_OK && n == 1 && done[0].done == US);
    CHECK(nvmearb_sim_run(sim, done, 3, &n) == NVMEARB_OK && n == 1 && done[0].done == 2 * US);
    free(sim);
}

static void refusals(void)
{
    nvmearb_sim_config config = config_of(2, 8);
    config.until = 1000;
    nvmearb_sim_queue queue = queue_of(NVMEARB_SIM_GIVEN, 0);
    nvmearb_sim *sim = made(config, queue);
    nvmearb_sim_happening it;
    CHECK(nvmearb_sim_init((nvmearb_sim *)((char *)sim + 8), bytes, &config, &queue) == NVMEARB_EARG);
    CHECK(nvmearb_sim_init(sim, bytes - 1, &config, &queue) == NVMEARB_NOROOM);
    CHECK(come(sim, 1000) == NVMEARB_NONE && come(sim, 999) == NVMEARB_OK && come(sim, 998) == NVMEARB_EARG);
    CHECK(nvmearb_sim_step(sim, 998, &it) == NVMEARB_NONE && nvmearb_sim_serve(sim, 1) == NVMEARB_NONE);
    CHECK(nvmearb_sim_end(sim, 0, 2000) == NVMEARB_NONE && nvmearb_sim_end(sim, 1, 2000) == NVMEARB_NONE);
    CHECK(come(sim, 999) == NVMEARB_OK && run(sim) == NVMEARB_NONE && come(sim, 1100) == NVMEARB_NONE);
    memset(sim, 0, 8);
    CHECK(nvmearb_sim_step(sim, 0, &it) == NVMEARB_ESTATE && come(sim, 999) == NVMEARB_ESTATE && nvmearb_sim_serve(sim, 1) == NVMEARB_ESTATE);
    CHECK(nvmearb_sim_end(sim, 0, 0) == NVMEARB_ESTATE && nvmearb_sim_next(sim, &it.time) == NVMEARB_ESTATE);
    free(sim);
}

/* Nothing happens before the time that is told, and something may at it. */
static void next(void)
{
    nvmearb_sim *sim = made(config_of(100, 100), queue_of(NVMEARB_SIM_CLOSED, 3 * US));
    nvmearb_sim_happening it;
    uint64_t time = 0;
    unsigned early = 0, at_it = 0;
    while (nvmearb_sim_next(sim, &time) == NVMEARB_OK) {
        early += time > 0 && nvmearb_sim_step(sim, time - 1, &it) != NVMEARB_NONE;
        while (nvmearb_sim_step(sim, time, &it) == NVMEARB_OK)
            at_it += it.time == time;
    }
    CHECK(early == 0 && at_it == 400 && nvmearb_sim_step(sim, UINT64_MAX, &it) == NVMEARB_NONE);
    free(sim);
}

/* Bytes that were changed are refused, or the calls touch nothing else. */
static void damaged(void)
{
    nvmearb_sim *sim = made(config_of(200, 16), queue_of(NVMEARB_SIM_CLOSED, 0)), *copy = memory();
    nvmearb_sim_happening it;
    unsigned taken = 0;
    uint64_t draws = 1;
    for (int step = 0; step < 100; step++)
        nvmearb_sim_step(sim, UINT64_MAX, &it);
    CHECK(nvmearb_sim_verify(sim, bytes) == NVMEARB_OK && nvmearb_sim_verify(sim, bytes + 1) == NVMEARB_ESTATE);
    for (int turn = 0; turn < 40000; turn++) {
        memcpy(copy, sim, bytes);
        size_t at = drawn(&draws) % (turn % 2 ? 1200 : bytes), width = 1 + drawn(&draws) % 4;
        for (size_t k = 0; k < width && at + k < bytes; k++)
            ((uint8_t *)copy)[at + k] ^= (uint8_t)(turn % 3 ? 1u << drawn(&draws) % 8 : drawn(&draws));
        if (nvmearb_sim_verify(copy, bytes) != NVMEARB_OK)
            continue;
        taken++;
        for (int step = 0; step < 200 && nvmearb_sim_step(copy, UINT64_MAX, &it) == NVMEARB_OK; step++)
            ;
    }
    CHECK(taken > 100 && taken < 39900);
    free(copy);
    free(sim);
}

int main(void)
{
    faults();
    made_with_a_fault();
    faulted();
    pauses();
    run_through_pauses();
    refusals();
    next();
    damaged();
    return told();
}
