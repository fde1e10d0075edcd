/* SPDX-License-Identifier: MIT */
/* The numbers of the commands that count and are done. */
#include "sim.h"

static void add(sum *to, uint64_t time)
{
    to->high += __builtin_add_overflow(to->low, time, &to->low);
}

static uint64_t mean(sum of, uint64_t commands)
{
    return commands ? (uint64_t)(((unsigned __int128)of.high << 64 | of.low) / commands) : 0;
}

static void count_in(tally *tally, const nvmearb_sim_command *told)
{
    uint64_t latency = told->done - told->came;
    tally->commands++;
    tally->blocks += told->blocks;
    if (latency > tally->latency_max)
        tally->latency_max = latency;
    add(&tally->latency, latency);
    add(&tally->host, told->submitted - told->came);
    add(&tally->arbitration, told->picked - told->submitted);
    add(&tally->device, told->started - told->picked);
    add(&tally->service, told->done - told->started);
}

void sim_count(nvmearb_sim *sim, const nvmearb_sim_command *told)
{
    if (!told->counts)
        return;
    count_in(&queue_of(sim, told->queue)->tally, told);
    count_in(&sim->tally, told);
}

uint32_t nvmearb_sim_numbers_of(const nvmearb_sim *sim, uint16_t qid, nvmearb_sim_numbers *numbers)
{
    if (sim->mark != MARK)
        return NVMEARB_ESTATE;
    if (qid > sim->config.queues)
        return NVMEARB_EARG;
    const tally *of = qid ? &queue_of(sim, qid)->tally : &sim->tally;
    numbers->commands = of->commands;
    numbers->blocks = of->blocks;
    numbers->latency_mean = mean(of->latency, of->commands);
    numbers->latency_max = of->latency_max;
    numbers->host_mean = mean(of->host, of->commands);
    numbers->arbitration_mean = mean(of->arbitration, of->commands);
    numbers->device_mean = mean(of->device, of->commands);
    numbers->service_mean = mean(of->service, of->commands);
    return NVMEARB_OK;
}

uint32_t nvmearb_sim_busy(const nvmearb_sim *sim, uint32_t channel, uint64_t *busy)
{
    if (sim->mark != MARK)
        return NVMEARB_ESTATE;
    if (channel >= sim->config.channels)
        return NVMEARB_EARG;
    *busy = channel_of(sim, channel)->busy;
    return NVMEARB_OK;
}
