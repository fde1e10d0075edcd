/* SPDX-License-Identifier: MIT */
/* The commands, in lists, and the events to come, in a heap. */
#include "sim.h"

uint32_t sim_allot(nvmearb_sim *sim)
{
    uint32_t index = sim->free;
    if (index != NO_COMMAND)
        sim->free = command_of(sim, index)->next;
    return index;
}

void sim_release(nvmearb_sim *sim, uint32_t index)
{
    command *it = command_of(sim, index);
    it->stage = UNUSED;
    it->next = sim->free;
    sim->free = index;
}

void sim_append(nvmearb_sim *sim, list *to, uint32_t index)
{
    command_of(sim, index)->next = NO_COMMAND;
    if (to->first == NO_COMMAND)
        to->first = index;
    else
        command_of(sim, to->last)->next = index;
    to->last = index;
}

uint32_t sim_take_first(nvmearb_sim *sim, list *of)
{
    uint32_t index = of->first;
    if (index != NO_COMMAND)
        of->first = command_of(sim, index)->next;
    return index;
}

uint32_t sim_take_behind(nvmearb_sim *sim, list *of, uint32_t before)
{
    if (before == NO_COMMAND)
        return sim_take_first(sim, of);
    command *at = command_of(sim, before);
    uint32_t index = at->next;
    at->next = command_of(sim, index)->next;
    if (of->last == index)
        of->last = before;
    return index;
}

static int is_before(const event *a, const event *b)
{
    return a->at < b->at || (a->at == b->at && a->number < b->number);
}

static void swap(event *a, event *b)
{
    event kept = *a;
    *a = *b;
    *b = kept;
}

uint32_t sim_plan(nvmearb_sim *sim, uint64_t at, enum what what, uint32_t of)
{
    event *heap = events_of(sim);
    uint32_t place = sim->event_count;
    if (at < sim->now || place == sim->most_events)
        return NVMEARB_SIM_EBROKEN;
    heap[place] = (event){at, sim->numbers++, what, of};
    sim->event_count++;
    for (; place > 0 && is_before(&heap[place], &heap[(place - 1) / 2]); place = (place - 1) / 2)
        swap(&heap[place], &heap[(place - 1) / 2]);
    return NVMEARB_OK;
}

event sim_pop(nvmearb_sim *sim)
{
    event *heap = events_of(sim), first = heap[0];
    heap[0] = heap[--sim->event_count];
    for (uint32_t place = 0, least;; place = least) {
        uint32_t left = 2 * place + 1, right = left + 1;
        least = left < sim->event_count && is_before(&heap[left], &heap[place]) ? left : place;
        if (right < sim->event_count && is_before(&heap[right], &heap[least]))
            least = right;
        if (least == place)
            return first;
        swap(&heap[place], &heap[least]);
    }
}
