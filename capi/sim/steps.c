/* SPDX-License-Identifier: MIT */
/* The steps of a simulation. */
#include "sim.h"

/* What a part of a step answers where nothing is to be told yet. */
#define GO_ON UINT32_MAX

static int may_come(const nvmearb_sim *sim)
{
    return (sim->config.until == 0 || sim->now < sim->config.until) && sim->came < sim->config.commands;
}

/* Whether no more commands come by themselves, whatever is done. */
static int is_at_end(const nvmearb_sim *sim)
{
    for (uint32_t qid = 1; qid <= sim->config.queues; qid++)
        if (queue_of(sim, qid)->of.arrivals != NVMEARB_SIM_GIVEN || queue_of(sim, qid)->given.first != NO_COMMAND)
            return 0;
    return 1;
}

static uint32_t tell(const nvmearb_sim *sim, nvmearb_sim_happening *told, uint32_t kind, uint32_t channel)
{
    *told = (nvmearb_sim_happening){.time = sim->now, .kind = kind, .channel = channel};
    return NVMEARB_OK;
}

static uint32_t tell_command(const nvmearb_sim *sim, nvmearb_sim_happening *told, uint32_t kind, uint32_t index)
{
    tell(sim, told, kind, 0);
    told->command = command_of(sim, index)->told;
    return NVMEARB_OK;
}

/* Draws a command. One that would run too long isn't used. */
static uint32_t draw(nvmearb_sim *sim, queue *queue, uint32_t index)
{
    nvmearb_sim_command *told = &command_of(sim, index)->told;
    *told = (nvmearb_sim_command){.came = sim->now};
    if (sim_draw_command(queue, sim->config.size, told))
        return NVMEARB_OK;
    sim_release(sim, index);
    return NVMEARB_SIM_ELONG;
}

/* The command that comes to a queue now: the next one that was given, or one that is drawn. */
static uint32_t next_command(nvmearb_sim *sim, queue *queue, uint32_t *index)
{
    int given = queue->of.arrivals == NVMEARB_SIM_GIVEN;
    *index = given ? sim_take_first(sim, &queue->given) : sim_allot(sim);
    if (*index == NO_COMMAND)
        return NVMEARB_SIM_EMANY;
    return given ? NVMEARB_OK : draw(sim, queue, *index);
}

/* The next command of a queue is planned, behind this time. */
static uint32_t plan_next(nvmearb_sim *sim, uint16_t qid)
{
    uint64_t next;
    return sim_draw_next(queue_of(sim, qid), sim->now, &next) ? sim_plan(sim, next, ARRIVAL, qid) : NVMEARB_SIM_ELONG;
}

/* A command comes to a queue, if one may. */
static uint32_t arrive(nvmearb_sim *sim, uint16_t qid, nvmearb_sim_happening *told)
{
    queue *it = queue_of(sim, qid);
    uint32_t index, fault;
    sim->phase = PICKS;
    if (it->of.arrivals == NVMEARB_SIM_GIVEN && it->given.first == NO_COMMAND)
        return NVMEARB_SIM_EBROKEN;
    if (!may_come(sim)) {
        if (it->of.arrivals == NVMEARB_SIM_GIVEN)
            sim_release(sim, sim_take_first(sim, &it->given));
        return GO_ON;
    }
    if ((fault = next_command(sim, it, &index)) != NVMEARB_OK)
        return fault;
    command_of(sim, index)->stage = CAME;
    command_of(sim, index)->told.queue = qid;
    command_of(sim, index)->told.number = it->number++;
    command_of(sim, index)->told.counts = sim->came >= sim->config.warm_up;
    sim_append(sim, &it->came, index);
    sim->came++;
    if (it->of.arrivals < NVMEARB_SIM_CLOSED && may_come(sim) && (fault = plan_next(sim, qid)) != NVMEARB_OK)
        return fault;
    if ((fault = sim_submit(sim, qid)) != NVMEARB_OK)
        return fault;
    return tell_command(sim, told, NVMEARB_SIM_CAME, index);
}

/* The command on a channel ends, and the next one starts there. Its completion follows. */
static uint32_t end(nvmearb_sim *sim, uint32_t at)
{
    channel *it = channel_of(sim, at);
    if (it->runs == NO_COMMAND)
        return NVMEARB_SIM_EBROKEN;
    sim->ended = it->runs;
    it->runs = NO_COMMAND;
    it->put_off = 0;
    sim->in_device--;
    sim_start_next(sim, at);
    sim->phase = ENDS;
    return GO_ON;
}

/* The host has the completion of the command that ended. */
static uint32_t finish(nvmearb_sim *sim, nvmearb_sim_happening *told)
{
    uint32_t index = sim->ended, fault = sim_collect(sim, index);
    command *it = command_of(sim, index);
    uint16_t qid = it->told.queue;
    if (fault != NVMEARB_OK)
        return fault;
    it->told.done = sim->now;
    sim_count(sim, &it->told);
    tell_command(sim, told, NVMEARB_SIM_FINISHED, index);
    sim_release(sim, index);
    sim->done++;
    sim->phase = PICKS;
    if (queue_of(sim, qid)->of.arrivals == NVMEARB_SIM_CLOSED && may_come(sim) &&
        (fault = plan_next(sim, qid)) != NVMEARB_OK)
        return fault;
    return sim_submit(sim, qid);
}

static uint32_t pause(nvmearb_sim *sim, uint32_t at, nvmearb_sim_happening *told)
{
    uint64_t until;
    sim->phase = PICKS;
    channel_of(sim, at)->paused = 1;
    if (__builtin_add_overflow(sim->now, sim->config.pause_length, &until))
        return NVMEARB_SIM_ELONG;
    uint32_t fault = sim_plan(sim, until, RESUME, at);
    return fault == NVMEARB_OK ? tell(sim, told, NVMEARB_SIM_PAUSED, at) : fault;
}

/* A channel goes on: a command may start there. */
static uint32_t go_on(nvmearb_sim *sim, uint32_t at)
{
    channel_of(sim, at)->paused = 0;
    sim_start_next(sim, at);
    sim->phase = RESUMES;
    return GO_ON;
}

/* The next pause of the channel that goes on is planned, unless all is over. */
static uint32_t resume(nvmearb_sim *sim, nvmearb_sim_happening *told)
{
    channel *it = channel_of(sim, sim->of);
    uint64_t next;
    sim->phase = PICKS;
    it->resumed = sim->now;
    it->rests = sim->came == sim->done && (!may_come(sim) || is_at_end(sim));
    if (!it->rests) {
        if (__builtin_add_overflow(sim->now, sim->config.pause_every - sim->config.pause_length, &next))
            return NVMEARB_SIM_ELONG;
        uint32_t fault = sim_plan(sim, next, PAUSE, sim->of);
        if (fault != NVMEARB_OK)
            return fault;
    }
    return tell(sim, told, NVMEARB_SIM_RESUMED, sim->of);
}

/* The pauses of a channel go on as if they had never ended. */
static uint32_t plan_pause_again(nvmearb_sim *sim, uint32_t at)
{
    channel *it = channel_of(sim, at);
    uint64_t next, until;
    if (!it->rests)
        return NVMEARB_OK;
    it->rests = 0;
    if (__builtin_add_overflow(it->resumed, sim->config.pause_every, &until))
        return NVMEARB_SIM_ELONG;
    next = until - sim->config.pause_length;
    it->paused = next < sim->now;
    return it->paused ? sim_plan(sim, until, RESUME, at) : sim_plan(sim, next, PAUSE, at);
}

/* The next event comes, if it comes up to this time. */
static uint32_t advance(nvmearb_sim *sim, uint64_t until, nvmearb_sim_happening *told)
{
    if (sim->event_count == 0 || events_of(sim)[0].at > until)
        return NVMEARB_NONE;
    event first = sim_pop(sim);
    sim->now = first.at;
    sim->of = first.of;
    switch (first.what) {
    case ARRIVAL:
        return arrive(sim, (uint16_t)first.of, told);
    case END:
        return end(sim, first.of);
    case PAUSE:
        return pause(sim, first.of, told);
    default:
        return go_on(sim, first.of);
    }
}

static uint32_t pick(nvmearb_sim *sim, nvmearb_sim_happening *told)
{
    nvmearb_step step;
    uint32_t free = sim_room(sim), result;
    sim->phase = EVENTS;
    if (free == 0)
        return GO_ON;
    result = nvmearb_ctrl_pick(&sim->ctrl, slots_of(sim), sim->slot_count, (uint16_t)free, &step);
    if (result == NVMEARB_NONE)
        return GO_ON;
    if (result != NVMEARB_OK || step.kind != NVMEARB_PICKED || step.pick.n == 0)
        return NVMEARB_SIM_EBROKEN;
    sim->phase = TAKES;
    sim->of = step.pick.qid;
    sim->left = step.pick.n;
    tell(sim, told, NVMEARB_SIM_PICKED, 0);
    told->room = free;
    told->pick = step.pick;
    return NVMEARB_OK;
}

/* The device takes the next command of the pick. Behind the last one the controller reads what it may. */
static uint32_t take(nvmearb_sim *sim)
{
    nvmearb_command taken;
    if (sim->left == 0) {
        uint32_t fault = sim_fetch(sim, (uint16_t)sim->of);
        sim->phase = PICKS;
        return fault == NVMEARB_OK ? GO_ON : fault;
    }
    sim->left--;
    if (nvmearb_ctrl_take(&sim->ctrl, slots_of(sim), sim->slot_count, &taken) != NVMEARB_OK ||
        taken.cookie >= sim->config.outstanding)
        return NVMEARB_SIM_EBROKEN;
    command *it = command_of(sim, taken.cookie);
    if (it->stage != FETCHED || it->told.queue != sim->of)
        return NVMEARB_SIM_EBROKEN;
    it->tag = taken.tag;
    sim_into_device(sim, taken.cookie);
    return GO_ON;
}

static uint32_t go(nvmearb_sim *sim, uint64_t until, nvmearb_sim_happening *told)
{
    switch (sim->phase) {
    case PICKS:
        return pick(sim, told);
    case TAKES:
        return take(sim);
    case ENDS:
        return finish(sim, told);
    case RESUMES:
        return resume(sim, told);
    default:
        return advance(sim, until, told);
    }
}

/* Goes on until something is to be told, or nothing more happens. */
static uint32_t step(nvmearb_sim *sim, uint64_t until, nvmearb_sim_happening *told)
{
    uint32_t result = sim->starting == NO_CHANNEL ? NVMEARB_OK : sim_plan_end(sim);
    if (result != NVMEARB_OK)
        return result;
    do {
        result = go(sim, until, told);
        if (sim->starting != NO_CHANNEL)
            return tell_command(sim, told, NVMEARB_SIM_STARTED, channel_of(sim, sim->starting)->runs);
    } while (result == GO_ON);
    return result;
}

uint32_t nvmearb_sim_step(nvmearb_sim *sim, uint64_t until, nvmearb_sim_happening *happening)
{
    nvmearb_sim_happening told;
    if (sim->mark != MARK)
        return NVMEARB_ESTATE;
    if (sim->fault != NVMEARB_OK)
        return sim->fault;
    if (until < sim->now)
        return NVMEARB_NONE;
    uint32_t result = step(sim, until, &told);
    if (result == NVMEARB_OK)
        *happening = told;
    else if (result != NVMEARB_NONE)
        sim->fault = result;
    return result;
}

uint32_t nvmearb_sim_next(const nvmearb_sim *sim, uint64_t *time)
{
    if (sim->mark != MARK)
        return NVMEARB_ESTATE;
    if (sim->phase != EVENTS || sim->starting != NO_CHANNEL) {
        *time = sim->now;
        return NVMEARB_OK;
    }
    if (sim->event_count == 0)
        return NVMEARB_NONE;
    *time = events_of(sim)[0].at;
    return NVMEARB_OK;
}

uint32_t nvmearb_sim_serve(nvmearb_sim *sim, uint64_t service)
{
    if (sim->mark != MARK)
        return NVMEARB_ESTATE;
    if (sim->starting == NO_CHANNEL)
        return NVMEARB_NONE;
    channel *it = channel_of(sim, sim->starting);
    it->put_off = service == NVMEARB_SIM_LATER;
    command_of(sim, it->runs)->told.service = it->put_off ? 0 : service;
    return NVMEARB_OK;
}

uint32_t nvmearb_sim_end(nvmearb_sim *sim, uint32_t number, uint64_t at)
{
    if (sim->mark != MARK)
        return NVMEARB_ESTATE;
    if (number >= sim->config.channels || channel_of(sim, number)->runs == NO_COMMAND || !channel_of(sim, number)->put_off)
        return NVMEARB_NONE;
    if (at < sim->now)
        return NVMEARB_EARG;
    channel *it = channel_of(sim, number);
    command *ending = command_of(sim, it->runs);
    it->put_off = 0;
    if (sim->starting == number)
        sim->starting = NO_CHANNEL;
    ending->told.service = at - ending->told.started;
    it->busy += ending->told.service;
    return sim_plan(sim, at, END, number);
}

static int is_within(const nvmearb_sim *sim, const nvmearb_sim_command *it)
{
    return it->blocks >= 1 && it->blocks <= 65536 && it->blocks <= sim->config.size &&
           it->block <= sim->config.size - it->blocks;
}

static int is_given(const nvmearb_sim *sim, const nvmearb_sim_command *it)
{
    if (it->queue < 1 || it->queue > sim->config.queues)
        return 0;
    const queue *to = queue_of(sim, it->queue);
    if (to->of.arrivals != NVMEARB_SIM_GIVEN || it->came < sim->now || it->came < to->last_given)
        return 0;
    if (it->operation == NVMEARB_OPC_FLUSH)
        return 1;
    return (it->operation == NVMEARB_OPC_READ || it->operation == NVMEARB_OPC_WRITE) && is_within(sim, it);
}

/* A command that is to come, as it was given. */
static void keep(nvmearb_sim *sim, uint32_t index, const nvmearb_sim_command *given)
{
    int flush = given->operation == NVMEARB_OPC_FLUSH;
    queue *to = queue_of(sim, given->queue);
    command_of(sim, index)->stage = GIVEN;
    command_of(sim, index)->told = (nvmearb_sim_command){.came = given->came,
                                                         .block = flush ? 0 : given->block,
                                                         .blocks = flush ? 0 : given->blocks,
                                                         .operation = given->operation,
                                                         .service = given->service};
    sim_append(sim, &to->given, index);
    to->last_given = given->came;
}

uint32_t nvmearb_sim_come(nvmearb_sim *sim, const nvmearb_sim_command *given)
{
    uint32_t index, fault;
    if (sim->mark != MARK)
        return NVMEARB_ESTATE;
    if (!is_given(sim, given))
        return NVMEARB_EARG;
    if ((sim->config.until != 0 && given->came >= sim->config.until) || sim->came >= sim->config.commands)
        return NVMEARB_NONE;
    if (sim->fault != NVMEARB_OK)
        return sim->fault;
    if ((index = sim_allot(sim)) == NO_COMMAND)
        return NVMEARB_NOROOM;
    keep(sim, index, given);
    fault = sim_plan(sim, given->came, ARRIVAL, given->queue);
    for (uint32_t at = 0; at < sim->config.channels && fault == NVMEARB_OK; at++)
        fault = plan_pause_again(sim, at);
    if (fault != NVMEARB_OK)
        sim->fault = fault;
    return fault;
}

uint32_t nvmearb_sim_run(nvmearb_sim *sim, nvmearb_sim_command *commands, size_t count, size_t *n)
{
    nvmearb_sim_happening told;
    for (*n = 0; *n < count;) {
        uint32_t result = nvmearb_sim_step(sim, UINT64_MAX, &told);
        if (result != NVMEARB_OK)
            return result == NVMEARB_NONE ? NVMEARB_OK : result;
        if (told.kind == NVMEARB_SIM_FINISHED && told.command.counts)
            commands[(*n)++] = told.command;
    }
    return NVMEARB_OK;
}
