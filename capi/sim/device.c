/* SPDX-License-Identifier: MIT */
/* The device: channels, and the commands that wait for one. */
#include "sim.h"

uint32_t sim_room(const nvmearb_sim *sim)
{
    return sim->config.depth - sim->in_device;
}

static int is_idle(const channel *it)
{
    return it->runs == NO_COMMAND && !it->paused;
}

/* The channel on which a command of a striped device runs. */
static uint32_t stripe_of(const nvmearb_sim *sim, const command *it)
{
    return (uint32_t)(it->told.block / sim->config.stripe % sim->config.channels);
}

/* The first idle channel on which a command may run. */
static uint32_t idle_for(const nvmearb_sim *sim, const command *it)
{
    if (sim->config.stripe) {
        uint32_t at = stripe_of(sim, it);
        return is_idle(channel_of(sim, at)) ? at : NO_CHANNEL;
    }
    for (uint32_t at = 0; at < sim->config.channels; at++)
        if (is_idle(channel_of(sim, at)))
            return at;
    return NO_CHANNEL;
}

static void start(nvmearb_sim *sim, uint32_t index, uint32_t at)
{
    command *it = command_of(sim, index);
    it->stage = RUNS;
    it->told.started = sim->now;
    it->told.channel = at;
    channel_of(sim, at)->runs = index;
    sim->starting = at;
}

void sim_into_device(nvmearb_sim *sim, uint32_t index)
{
    command *it = command_of(sim, index);
    uint32_t at = idle_for(sim, it);
    it->stage = TAKEN;
    it->told.picked = sim->now;
    sim->in_device++;
    if (at == NO_CHANNEL)
        sim_append(sim, &sim->waiting, index);
    else
        start(sim, index, at);
}

void sim_start_next(nvmearb_sim *sim, uint32_t at)
{
    uint32_t before = NO_COMMAND;
    if (!is_idle(channel_of(sim, at)))
        return;
    for (uint32_t index = sim->waiting.first; index != NO_COMMAND; index = command_of(sim, index)->next) {
        if (!sim->config.stripe || stripe_of(sim, command_of(sim, index)) == at) {
            start(sim, sim_take_behind(sim, &sim->waiting, before), at);
            return;
        }
        before = index;
    }
}

uint32_t sim_plan_end(nvmearb_sim *sim)
{
    uint32_t at = sim->starting;
    channel *it = channel_of(sim, at);
    uint64_t end;
    sim->starting = NO_CHANNEL;
    if (it->put_off)
        return NVMEARB_OK;
    if (__builtin_add_overflow(sim->now, command_of(sim, it->runs)->told.service, &end))
        return NVMEARB_SIM_ELONG;
    it->busy += end - sim->now;
    return sim_plan(sim, end, END, at);
}
