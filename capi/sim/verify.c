/* SPDX-License-Identifier: MIT */
/* Looks whether the numbers of a simulation are in their ranges, so that its calls touch nothing else. */
#include "sim.h"

/* What is left of the commands that lists may have. */
typedef struct look {
    const nvmearb_sim *sim;
    uint32_t left;
} look;

static int is_command(const nvmearb_sim *sim, uint32_t index)
{
    return index < sim->config.outstanding;
}

static int is_list(look *it, uint32_t first)
{
    for (uint32_t index = first; index != NO_COMMAND; index = command_of(it->sim, index)->next)
        if (!is_command(it->sim, index) || it->left-- == 0)
            return 0;
    return 1;
}

static int ends_well(const nvmearb_sim *sim, const list *it)
{
    return it->first == NO_COMMAND || is_command(sim, it->last);
}

static int is_placed(const nvmearb_sim *sim, const queue *it)
{
    uint16_t slots = it->of.slots;
    return it->tail < slots && it->head < slots && it->fetched < slots && it->read < slots &&
           it->end <= sim->config.size && ends_well(sim, &it->given) && ends_well(sim, &it->came) &&
           ends_well(sim, &it->submitted);
}

static int has_lists(const nvmearb_sim *sim)
{
    look it = {sim, sim->config.outstanding};
    for (uint32_t qid = 1; qid <= sim->config.queues; qid++) {
        const queue *of = queue_of(sim, qid);
        if (!is_placed(sim, of) || !is_list(&it, of->given.first) || !is_list(&it, of->came.first) ||
            !is_list(&it, of->submitted.first))
            return 0;
    }
    return ends_well(sim, &sim->waiting) && is_list(&it, sim->waiting.first) && is_list(&it, sim->free);
}

static int has_commands(const nvmearb_sim *sim)
{
    for (uint32_t index = 0; index < sim->config.outstanding; index++) {
        const command *it = command_of(sim, index);
        int is_used = it->stage != UNUSED && it->stage != GIVEN;
        if (it->stage > RUNS || (is_used && (it->told.queue < 1 || it->told.queue > sim->config.queues)))
            return 0;
    }
    for (uint32_t at = 0; at < sim->config.channels; at++) {
        uint32_t runs = channel_of(sim, at)->runs;
        if (runs != NO_COMMAND && (!is_command(sim, runs) || command_of(sim, runs)->stage != RUNS))
            return 0;
    }
    return 1;
}

static int has_events(const nvmearb_sim *sim)
{
    for (uint32_t place = 0; place < sim->event_count; place++) {
        const event *it = &events_of(sim)[place];
        if (it->what > RESUME || it->at < sim->now)
            return 0;
        if (it->what == ARRIVAL ? it->of < 1 || it->of > sim->config.queues : it->of >= sim->config.channels)
            return 0;
    }
    return 1;
}

/* Whether a step can go on with what it left. */
static int has_phase(const nvmearb_sim *sim)
{
    if (sim->starting != NO_CHANNEL &&
        (sim->starting >= sim->config.channels || channel_of(sim, sim->starting)->runs == NO_COMMAND))
        return 0;
    switch (sim->phase) {
    case TAKES:
        return sim->of >= 1 && sim->of <= sim->config.queues;
    case ENDS:
        return is_command(sim, sim->ended) && command_of(sim, sim->ended)->stage == RUNS;
    case RESUMES:
        return sim->of < sim->config.channels;
    default:
        return sim->phase <= RESUMES;
    }
}

/* Whether everything lies where a simulation of this configuration has it. */
static int is_laid_out(const nvmearb_sim *sim, size_t bytes)
{
    nvmearb_sim_queue queues[NVMEARB_MAX_IO_QUEUES];
    nvmearb_sim made;
    uint32_t count = sim->config.queues;
    if (count > NVMEARB_MAX_IO_QUEUES || sim->queues != QUEUES || bytes < QUEUES + count * sizeof(queue))
        return 0;
    for (uint32_t qid = 1; qid <= count; qid++)
        queues[qid - 1] = queue_of(sim, qid)->of;
    return sim_lay_out(&made, &sim->config, queues) && made.bytes == bytes && made.channels == sim->channels &&
           made.commands == sim->commands && made.events == sim->events && made.slots == sim->slots &&
           made.slot_count == sim->slot_count && made.most_events == sim->most_events;
}

uint32_t nvmearb_sim_verify(const nvmearb_sim *sim, size_t bytes)
{
    if (bytes < sizeof *sim || sim->mark != MARK || sim->bytes != bytes || !is_laid_out(sim, bytes))
        return NVMEARB_ESTATE;
    if (sim->event_count > sim->most_events || sim->in_device > sim->config.depth || sim->admin >= ADMIN_SLOTS)
        return NVMEARB_ESTATE;
    if (!has_lists(sim) || !has_commands(sim) || !has_events(sim) || !has_phase(sim))
        return NVMEARB_ESTATE;
    return nvmearb_ctrl_verify(&sim->ctrl, slots_of(sim), sim->slot_count);
}
