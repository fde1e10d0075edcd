/* SPDX-License-Identifier: MIT */
/* The making of a simulation. */
#include <string.h>

#include "sim.h"

static int is_mean(uint64_t time)
{
    return time >= 1 && time <= NVMEARB_SIM_MAX_MEAN;
}

static int is_service(const nvmearb_sim_service *it)
{
    switch (it->spread) {
    case NVMEARB_SIM_FIXED:
        return 1;
    case NVMEARB_SIM_EXPONENTIAL:
        return is_mean(it->time);
    case NVMEARB_SIM_TWO_POINTS:
        return it->one_in > 0;
    default:
        return 0;
    }
}

static int has_arrivals(const nvmearb_sim_queue *it)
{
    uint64_t both;
    switch (it->arrivals) {
    case NVMEARB_SIM_POISSON:
        return is_mean(it->gap);
    case NVMEARB_SIM_EVERY:
        return it->gap > 0;
    case NVMEARB_SIM_BURSTS:
        return is_mean(it->gap) && it->on > 0 && !__builtin_add_overflow(it->on, it->off, &both);
    case NVMEARB_SIM_CLOSED:
        return it->closed >= 1 && it->closed <= 4096;
    default:
        return it->arrivals == NVMEARB_SIM_GIVEN;
    }
}

static int has_commands(const nvmearb_sim_queue *it, uint64_t size)
{
    if (it->arrivals == NVMEARB_SIM_GIVEN)
        return 1;
    return (it->reads || it->writes || it->flushes) && (!it->reads || is_service(&it->read)) &&
           (!it->writes || is_service(&it->write)) && (!it->flushes || is_service(&it->flush)) && it->blocks >= 1 &&
           it->blocks <= 65536 && it->blocks <= size && it->sequential <= 1;
}

static int is_queue(const nvmearb_sim_queue *it, uint64_t size)
{
    return it->priority >= NVMEARB_URGENT && it->priority <= NVMEARB_LOW && it->slots >= 2 && it->slots <= 4096 &&
           has_arrivals(it) && has_commands(it, size);
}

static int is_device(const nvmearb_sim_config *it)
{
    int pauses = it->pause_length > 0 && it->pause_length < it->pause_every;
    return it->channels >= 1 && it->channels <= 4096 && it->depth >= 1 && it->depth <= 256 && it->size >= 1 &&
           it->size <= INT64_MAX && (pauses || (it->pause_every == 0 && it->pause_length == 0));
}

static int is_config(const nvmearb_sim_config *it, const nvmearb_sim_queue *queues)
{
    if (it->mechanism != NVMEARB_ROUND_ROBIN && it->mechanism != NVMEARB_WEIGHTED)
        return 0;
    if (!is_device(it) || it->commands < 1 || it->outstanding < 1 || it->outstanding > 1 << 24)
        return 0;
    if (it->queues < 1 || it->queues > NVMEARB_MAX_IO_QUEUES)
        return 0;
    for (uint32_t place = 0; place < it->queues; place++)
        if (!is_queue(&queues[place], it->size))
            return 0;
    return 1;
}

/* The most events that are planned at a time: the next commands, the ends of those that run, and a pause a channel. */
static uint32_t most_events(const nvmearb_sim_config *config, const nvmearb_sim_queue *queues)
{
    uint32_t count = config->depth + config->channels, given = 0;
    for (uint32_t place = 0; place < config->queues; place++) {
        given |= queues[place].arrivals == NVMEARB_SIM_GIVEN;
        count += queues[place].arrivals == NVMEARB_SIM_CLOSED ? queues[place].closed : 1;
    }
    return count + given * config->outstanding;
}

/* As many as may wait of each queue, as the device may have, and one of the admin queue. */
static uint32_t slot_count(const nvmearb_sim_config *config)
{
    return config->queues * NVMEARB_MAX_COUNT + config->depth + 1;
}

/* Where what takes so many bytes lies, behind the rest. */
static size_t behind(size_t *end, size_t bytes)
{
    size_t at = (*end + 15) & ~(size_t)15;
    *end = at + bytes;
    return at;
}

/* Says where everything lies. Returns 0 where a field is out of its range. */
int sim_lay_out(nvmearb_sim *sim, const nvmearb_sim_config *config, const nvmearb_sim_queue *queues)
{
    size_t end = sizeof *sim;
    if (!is_config(config, queues))
        return 0;
    sim->slot_count = slot_count(config);
    sim->most_events = most_events(config, queues);
    sim->queues = behind(&end, config->queues * sizeof(queue));
    sim->channels = behind(&end, config->channels * sizeof(channel));
    sim->commands = behind(&end, config->outstanding * sizeof(command));
    sim->events = behind(&end, sim->most_events * sizeof(event));
    sim->slots = behind(&end, sim->slot_count * sizeof(nvmearb_slot));
    sim->bytes = end;
    return 1;
}

uint32_t nvmearb_sim_version(void)
{
    return NVMEARB_VERSION;
}

size_t nvmearb_sim_bytes(const nvmearb_sim_config *config, const nvmearb_sim_queue *queues)
{
    nvmearb_sim made;
    return sim_lay_out(&made, config, queues) ? made.bytes : 0;
}

static uint32_t make_controller(nvmearb_sim *sim)
{
    nvmearb_config config = {{0, ADMIN_SLOTS}, {0, ADMIN_SLOTS}, sim->config.mechanism, sim->config.cdw11, 64, 64, 512, 1};
    nvmearb_placement placement = {4096, 4095, 1};
    return nvmearb_ctrl_init_anywhere(&sim->ctrl, slots_of(sim), sim->slot_count, &config, &placement);
}

static void make_queue(nvmearb_sim *sim, const nvmearb_sim_queue *of, uint32_t qid)
{
    static const list none = {NO_COMMAND, NO_COMMAND};
    uint64_t seed = sim->config.seed;
    *queue_of(sim, qid) = (queue){.of = *of, .given = none, .came = none, .submitted = none};
    queue_of(sim, qid)->arrivals = sim_stream_of(seed, qid, ARRIVALS);
    queue_of(sim, qid)->services = sim_stream_of(seed, qid, SERVICES);
    queue_of(sim, qid)->operations = sim_stream_of(seed, qid, OPERATIONS);
    queue_of(sim, qid)->places = sim_stream_of(seed, qid, PLACES);
}

/* The first commands of a queue. */
static uint32_t plan_queue(nvmearb_sim *sim, uint32_t qid)
{
    queue *it = queue_of(sim, qid);
    uint64_t first;
    uint32_t fault = NVMEARB_OK;
    if (it->of.arrivals == NVMEARB_SIM_GIVEN)
        return NVMEARB_OK;
    if (it->of.arrivals != NVMEARB_SIM_CLOSED)
        return sim_draw_next(it, 0, &first) ? sim_plan(sim, first, ARRIVAL, qid) : NVMEARB_SIM_ELONG;
    for (uint32_t command = 0; command < it->of.closed && fault == NVMEARB_OK; command++)
        fault = sim_plan(sim, 0, ARRIVAL, qid);
    return fault;
}

static uint32_t plan_pauses(nvmearb_sim *sim)
{
    uint32_t count = sim->config.channels, fault = NVMEARB_OK;
    for (uint32_t at = 0; sim->config.pause_every && at < count && fault == NVMEARB_OK; at++)
        fault = sim_plan(sim, (uint64_t)((unsigned __int128)sim->config.pause_every * (at + 1) / count), PAUSE, at);
    return fault;
}

/* What is as the configuration says. */
static void make_parts(nvmearb_sim *sim, const nvmearb_sim_config *config, const nvmearb_sim_queue *queues)
{
    memset(sim, 0, sim->bytes);
    *sim = (nvmearb_sim){.mark = MARK, .config = *config, .free = NO_COMMAND, .starting = NO_CHANNEL};
    sim->waiting = (list){NO_COMMAND, NO_COMMAND};
    sim_lay_out(sim, config, queues);
    for (uint32_t index = config->outstanding; index-- > 0;)
        sim_release(sim, index);
    for (uint32_t at = 0; at < config->channels; at++)
        channel_of(sim, at)->runs = NO_COMMAND;
    for (uint32_t qid = 1; qid <= config->queues; qid++)
        make_queue(sim, &queues[qid - 1], qid);
}

uint32_t nvmearb_sim_init(nvmearb_sim *sim, size_t bytes, const nvmearb_sim_config *config,
                          const nvmearb_sim_queue *queues)
{
    size_t needed = nvmearb_sim_bytes(config, queues);
    if (needed == 0 || (uintptr_t)sim % 16 != 0)
        return NVMEARB_EARG;
    if (bytes < needed)
        return NVMEARB_NOROOM;
    sim->bytes = needed;
    make_parts(sim, config, queues);
    uint32_t fault = make_controller(sim);
    if (fault == NVMEARB_OK)
        fault = sim_create_queues(sim);
    for (uint32_t qid = 1; qid <= config->queues && fault == NVMEARB_OK; qid++)
        fault = plan_queue(sim, qid);
    sim->fault = fault == NVMEARB_OK ? plan_pauses(sim) : fault;
    return sim->fault;
}
