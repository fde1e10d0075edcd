/* SPDX-License-Identifier: MIT */
/*
 * Random models, each with the calls of nvmearb_sim.h in any order: at random moments nvmearb_sim_verify takes what is
 * there, since nothing but the library wrote it.
 *
 *   images [NUMBER]    so many images are looked at
 */
#include <stdlib.h>

#include "sim/nvmearb_sim.h"
#include "tell.h"

enum { IMAGES = 100000, CALLS = 1000 };

/* The model, its simulation, the time of its last happening, and what is drawn next. */
static nvmearb_sim_config config;
static nvmearb_sim_queue queues[NVMEARB_MAX_IO_QUEUES];
static nvmearb_sim *sim;
static size_t bytes;
static uint64_t now, state;

static uint32_t upto(uint32_t n)
{
    return (uint32_t)((drawn(&state) >> 20) % n);
}

/* Mostly a short time, and sometimes one of any length. (One draw a statement: else the compiler says which is first.) */
static uint64_t draw_time(void)
{
    uint32_t bits = upto(60) ? 0 : 1 + upto(64);
    return bits ? drawn(&state) >> (64 - bits) : upto(1000000);
}

/* The same, above 0. */
static uint64_t draw_mean(void)
{
    return 1 + draw_time() % NVMEARB_SIM_MAX_MEAN;
}

/* Mostly a time to come. */
static uint64_t draw_moment(void)
{
    uint64_t time = draw_time();
    return upto(10) ? now + time : time;
}

static nvmearb_sim_service draw_service(void)
{
    nvmearb_sim_service it = {.time = draw_mean()};
    it.rare = draw_time();
    it.one_in = 1 + upto(20);
    it.spread = upto(3);
    it.per_block = upto(4) ? 0 : draw_time();
    if (upto(40) == 0)
        it.per_block = drawn(&state);
    return it;
}

static nvmearb_sim_queue draw_queue(void)
{
    nvmearb_sim_queue it = {.gap = draw_mean()};
    it.on = draw_mean();
    it.off = draw_mean();
    it.closed = 1 + upto(20);
    it.arrivals = upto(5);
    it.priority = (uint16_t)(NVMEARB_URGENT + upto(4));
    it.slots = (uint16_t)(2 + upto(upto(10) ? 12 : 4095));
    it.reads = upto(4);
    it.writes = upto(4);
    it.flushes = it.reads || it.writes ? upto(2) : 1;
    it.blocks = 1 + upto(config.size < 64 ? (uint32_t)config.size : 64);
    it.sequential = upto(2);
    it.read = draw_service();
    it.write = draw_service();
    it.flush = draw_service();
    return it;
}

static void draw_model(void)
{
    config = (nvmearb_sim_config){.seed = drawn(&state)};
    config.size = 1 + upto(1 << 20);
    config.warm_up = upto(20);
    config.cdw11 = (uint32_t)drawn(&state);
    config.stripe = upto(2) ? 0 : 1 + upto(64);
    config.pause_every = upto(2) ? 0 : 1 + draw_mean();
    config.pause_length = config.pause_every ? 1 + draw_time() % (config.pause_every - 1) : 0;
    config.commands = upto(3) ? UINT64_MAX : 1 + upto(300);
    config.until = upto(4) ? 0 : draw_time();
    config.mechanism = NVMEARB_ROUND_ROBIN + upto(2);
    config.queues = 1 + upto(upto(40) ? 5 : NVMEARB_MAX_IO_QUEUES);
    config.channels = 1 + upto(20);
    config.depth = 1 + upto(upto(4) ? 24 : 256);
    config.outstanding = 1 + upto(upto(4) ? 1000 : 20);
    for (uint32_t place = 0; place < config.queues; place++)
        queues[place] = draw_queue();
}

/* A command comes. Mostly it may. */
static void come(void)
{
    nvmearb_sim_command it = {.queue = (uint16_t)upto(config.queues + 2)};
    it.came = draw_moment();
    it.operation = (uint16_t)upto(4);
    it.block = upto(20) ? upto((uint32_t)config.size) : drawn(&state);
    it.blocks = upto(20) ? 1 + upto(8) : (uint32_t)drawn(&state);
    it.service = draw_time();
    nvmearb_sim_come(sim, &it);
}

static void end(void)
{
    uint32_t channel = upto(config.channels + 1);
    nvmearb_sim_end(sim, channel, draw_moment());
}

static void look(void)
{
    nvmearb_sim_numbers numbers;
    uint64_t time;
    nvmearb_sim_next(sim, &time);
    nvmearb_sim_numbers_of(sim, (uint16_t)upto(config.queues + 2), &numbers);
    nvmearb_sim_busy(sim, upto(config.channels + 1), &time);
}

static uint32_t step(void)
{
    nvmearb_sim_happening told;
    uint32_t result = nvmearb_sim_step(sim, upto(2) ? UINT64_MAX : draw_moment(), &told);
    if (result == NVMEARB_OK)
        now = told.time;
    return result;
}

/* A run, where no pauses make it long. */
static uint32_t run(void)
{
    nvmearb_sim_command done[3];
    size_t n = 0;
    uint32_t result = config.pause_every ? NVMEARB_OK : nvmearb_sim_run(sim, done, upto(4), &n);
    if (n > 0)
        now = done[n - 1].done;
    return result;
}

/* Makes a call. Returns what a step or a run answered. */
static uint32_t call(void)
{
    switch (upto(16)) {
    case 0:
        nvmearb_sim_serve(sim, upto(2) ? NVMEARB_SIM_LATER : draw_time());
        return NVMEARB_OK;
    case 1:
    case 2:
        end();
        return NVMEARB_OK;
    case 3:
    case 4:
    case 5:
        come();
        return NVMEARB_OK;
    case 6:
        look();
        return NVMEARB_OK;
    case 7:
        return upto(8) ? NVMEARB_OK : run();
    default:
        return step();
    }
}

static void make(void)
{
    draw_model();
    now = 0;
    bytes = nvmearb_sim_bytes(&config, queues);
    sim = bytes ? aligned_alloc(16, (bytes + 15) / 16 * 16) : NULL;
    if (!sim)
        exit(1);
}

/* What came out of the models: images that were taken, images, and models that had a fault. */
static unsigned long taken, images, faulted;

/* A model until it has a fault, or has had its calls. */
static void go_through(void)
{
    make();
    uint32_t result = nvmearb_sim_init(sim, bytes, &config, queues);
    for (unsigned calls = 0; calls < CALLS && result < NVMEARB_SIM_ELONG; calls++) {
        result = call();
        if (upto(4) && result < NVMEARB_SIM_ELONG)
            continue;
        images++;
        taken += nvmearb_sim_verify(sim, bytes) == NVMEARB_OK;
    }
    faulted += result >= NVMEARB_SIM_ELONG;
    free(sim);
}

int main(int argc, char **argv)
{
    unsigned long most = argc > 1 ? strtoul(argv[1], NULL, 10) : IMAGES, models = 0;
    while (images < most) {
        go_through();
        models++;
    }
    printf("%lu images of %lu models, %lu of which had a fault\n", images, models, faulted);
    CHECK(taken == images);
    CHECK(faulted > models / 20 && faulted < models - models / 20);
    return told();
}
