/* SPDX-License-Identifier: MIT */
/*
 * Runs a simulation by step, and prints its log as `nvmearb simulate --log` writes it. tests/sim hands it models.
 *
 *   sim MODE     numbers on standard input: the fields of nvmearb_sim_config in their order, and of each queue
 *
 * MODE says what is done beside: `plain` nothing; `moved` copies the simulation to other memory at each 7th step and
 * overwrites the first; `served` sets each drawn service; `later` puts each end off, and tells it at once;
 * `bounded` steps up to times, one after the other; `run` takes nvmearb_sim_run; `given` hands in commands, which stand behind the
 * queues: their number, and of each the queue, when it comes, opcode, block, blocks and service.
 */
#include <inttypes.h>
#include <stdio.h>
#include <stdlib.h>
#include <string.h>

#include "library.h"
#include "sim/nvmearb_sim.h"

#define FAIL(...) (fprintf(stderr, __VA_ARGS__), exit(1))

static uint64_t number(void)
{
    uint64_t value;
    if (scanf("%" SCNu64, &value) != 1)
        FAIL("a number is missing\n");
    return value;
}

static void read_config(nvmearb_sim_config *to)
{
    uint64_t *wide[] = {&to->stripe, &to->size, &to->pause_every, &to->pause_length, &to->seed, &to->commands, &to->until, &to->warm_up};
    uint32_t *narrow[] = {&to->mechanism, &to->cdw11, &to->queues, &to->channels, &to->depth, &to->outstanding};
    for (size_t field = 0; field < sizeof wide / sizeof *wide; field++)
        *wide[field] = number();
    for (size_t field = 0; field < sizeof narrow / sizeof *narrow; field++)
        *narrow[field] = (uint32_t)number();
}

static nvmearb_sim_service read_service(void)
{
    nvmearb_sim_service it = {.time = number()};
    it.rare = number();
    it.one_in = number();
    it.per_block = number();
    it.spread = (uint32_t)number();
    return it;
}

static nvmearb_sim_queue read_queue(void)
{
    nvmearb_sim_queue it = {.gap = number()};
    it.on = number();
    it.off = number();
    uint32_t *narrow[] = {&it.arrivals, &it.closed, NULL, NULL, &it.reads, &it.writes, &it.flushes, &it.blocks, &it.sequential};
    for (size_t field = 0; field < sizeof narrow / sizeof *narrow; field++) {
        uint64_t value = number();
        if (field == 2)
            it.priority = (uint16_t)value;
        else if (field == 3)
            it.slots = (uint16_t)value;
        else
            *narrow[field] = (uint32_t)value;
    }
    it.read = read_service();
    it.write = read_service();
    it.flush = read_service();
    return it;
}

static void print(const nvmearb_sim_command *it)
{
    static const char *const names[] = {"flush", "write", "read"};
    printf("%u,%" PRIu64 ",%s,%" PRIu64 ",%u,%u,%" PRIu64 ",%" PRIu64 ",%" PRIu64 ",%" PRIu64 ",%" PRIu64 "\n", it->queue,
           it->number, names[it->operation], it->block, it->blocks, it->channel, it->came, it->submitted, it->picked,
           it->started, it->done);
}

/* Hands in each command of the input. */
static void come_all(nvmearb_sim *sim)
{
    for (uint64_t left = number(); left > 0; left--) {
        nvmearb_sim_command it = {.queue = (uint16_t)number()};
        it.came = number();
        it.operation = (uint16_t)number();
        it.block = number();
        it.blocks = (uint32_t)number();
        it.service = number();
        uint32_t result = nvmearb_sim_come(sim, &it);
        if (result != NVMEARB_OK)
            FAIL("come: %u\n", result);
    }
}

static nvmearb_sim *memory_of(size_t bytes)
{
    nvmearb_sim *it = aligned_alloc(16, (bytes + 15) / 16 * 16);
    if (!it)
        FAIL("no memory\n");
    memset(it, 0xa5, bytes);
    return it;
}

static nvmearb_sim *moved(nvmearb_sim *sim, size_t bytes)
{
    nvmearb_sim *to = memory_of(bytes);
    memcpy(to, sim, bytes);
    memset(sim, 0x5a, bytes);
    if (nvmearb_sim_verify(sim, bytes) != NVMEARB_ESTATE || nvmearb_sim_verify(to, bytes - 1) != NVMEARB_ESTATE ||
        nvmearb_sim_verify(to, bytes) != NVMEARB_OK)
        FAIL("what was moved isn't whole\n");
    free(sim);
    return to;
}

/* What a mode does behind a start. */
static void serve(nvmearb_sim *sim, const char *mode, const nvmearb_sim_command *it)
{
    if (strcmp(mode, "served") == 0 && nvmearb_sim_serve(sim, it->service) != NVMEARB_OK)
        FAIL("a service wasn't set\n");
    if (strcmp(mode, "later"))
        return;
    if (nvmearb_sim_serve(sim, NVMEARB_SIM_LATER) != NVMEARB_OK ||
        nvmearb_sim_end(sim, it->channel, it->started + it->service) != NVMEARB_OK)
        FAIL("an end wasn't told\n");
}

static void step_all(nvmearb_sim *sim, size_t bytes, const char *mode)
{
    nvmearb_sim_happening told;
    uint64_t until = strcmp(mode, "bounded") ? UINT64_MAX : 0, last = 0;
    for (size_t step = 1;; step++) {
        uint32_t result = nvmearb_sim_step(sim, until, &told);
        if (result == NVMEARB_NONE && until != UINT64_MAX && until < (uint64_t)1 << 50) {
            until += until / 64 + 1000000;
            continue;
        }
        if (result == NVMEARB_NONE)
            break;
        if (result != NVMEARB_OK)
            FAIL("step %zu: %u\n", step, result);
        if (told.time < last || told.time > until)
            FAIL("step %zu: time %" PRIu64 "\n", step, told.time);
        last = told.time;
        if (told.kind == NVMEARB_SIM_STARTED)
            serve(sim, mode, &told.command);
        if (told.kind == NVMEARB_SIM_FINISHED)
            print(&told.command);
        if (strcmp(mode, "moved") == 0 && step % 7 == 0)
            sim = moved(sim, bytes);
    }
    free(sim);
}

static void run_all(nvmearb_sim *sim)
{
    nvmearb_sim_command commands[100];
    size_t n;
    do {
        uint32_t result = nvmearb_sim_run(sim, commands, 100, &n);
        if (result != NVMEARB_OK)
            FAIL("run: %u\n", result);
        for (size_t place = 0; place < n; place++)
            print(&commands[place]);
    } while (n == 100);
    free(sim);
}

int main(int argc, char **argv)
{
    nvmearb_sim_config config;
    nvmearb_sim_queue queues[NVMEARB_MAX_IO_QUEUES];
    if (argc != 2 || !IS_OF_HEADER)
        FAIL("usage: sim MODE, with the library of the header\n");
    read_config(&config);
    for (uint32_t queue = 0; queue < config.queues && queue < NVMEARB_MAX_IO_QUEUES; queue++)
        queues[queue] = read_queue();
    size_t bytes = nvmearb_sim_bytes(&config, queues);
    if (bytes == 0)
        FAIL("no such model\n");
    nvmearb_sim *sim = memory_of(bytes);
    uint32_t result = nvmearb_sim_init(sim, bytes, &config, queues);
    if (result != NVMEARB_OK)
        FAIL("init: %u\n", result);
    puts("queue,number,operation,block,blocks,channel,came_ps,submitted_ps,picked_ps,started_ps,done_ps");
    if (strcmp(argv[1], "given") == 0)
        come_all(sim);
    if (strcmp(argv[1], "run") == 0)
        run_all(sim);
    else
        step_all(sim, bytes, argv[1]);
    return 0;
}
