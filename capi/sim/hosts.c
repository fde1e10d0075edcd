/* SPDX-License-Identifier: MIT */
/* The hosts: they create their queues, submit commands and read completions. */
#include <string.h>

#include "sim.h"

static uint16_t slot_behind(uint16_t slot, uint16_t slots)
{
    return slot + 1 == slots ? 0 : slot + 1;
}

/* Little endian. */
static void put(uint8_t *bytes, uint64_t value, int count)
{
    for (int byte = 0; byte < count; byte++)
        bytes[byte] = (uint8_t)(value >> 8 * byte);
}

/* Opcode, command identifier, NSID, PRP1, and Dwords 10 to 12; the rest is 0. */
static void encode(uint8_t *bytes, uint8_t opcode, uint16_t cid, uint32_t nsid, uint64_t prp1, const uint32_t dwords[3])
{
    memset(bytes, 0, NVMEARB_SQE_BYTES);
    bytes[0] = opcode;
    put(bytes + 2, cid, 2);
    put(bytes + 4, nsid, 4);
    put(bytes + 24, prp1, 8);
    for (int dword = 0; dword < 3; dword++)
        put(bytes + 40 + 4 * dword, dwords[dword], 4);
}

/* The admin queue has a command, which the controller carries out, and which succeeds. */
static uint32_t carry_out(nvmearb_sim *sim, const uint8_t *entry)
{
    nvmearb_slot *slots = slots_of(sim);
    uint16_t at, next = slot_behind(sim->admin, ADMIN_SLOTS);
    nvmearb_step step;
    nvmearb_post post;
    if (nvmearb_ctrl_sq_tail(&sim->ctrl, 0, next) != NVMEARB_OK ||
        nvmearb_ctrl_fetch(&sim->ctrl, 0, &at) != NVMEARB_OK || at != sim->admin ||
        nvmearb_ctrl_fetched(&sim->ctrl, slots, sim->slot_count, 0, entry, 0) != NVMEARB_OK ||
        nvmearb_ctrl_pick(&sim->ctrl, slots, sim->slot_count, 1, &step) != NVMEARB_OK ||
        step.kind != NVMEARB_CARRIED_OUT ||
        nvmearb_ctrl_post(&sim->ctrl, slots, sim->slot_count, 0, &post) != NVMEARB_OK ||
        (post.bytes[14] & 0xfe) != 0 || post.bytes[15] != 0 || nvmearb_ctrl_cq_head(&sim->ctrl, 0, next) != NVMEARB_OK)
        return NVMEARB_SIM_EBROKEN;
    sim->admin = next;
    return NVMEARB_OK;
}

/* QPRIO of a class. */
static uint32_t qprio(uint16_t priority)
{
    switch (priority) {
    case NVMEARB_HIGH:
        return 1;
    case NVMEARB_MEDIUM:
        return 2;
    case NVMEARB_LOW:
        return 3;
    default:
        return 0;
    }
}

static uint32_t create_queue(nvmearb_sim *sim, uint16_t qid)
{
    const nvmearb_sim_queue *of = &queue_of(sim, qid)->of;
    uint32_t size_and_id = (uint32_t)(of->slots - 1) << 16 | qid;
    uint32_t cq[3] = {size_and_id, 1, 0}, sq[3] = {size_and_id, (uint32_t)qid << 16 | qprio(of->priority) << 1 | 1, 0};
    uint8_t entry[NVMEARB_SQE_BYTES];
    encode(entry, NVMEARB_OPC_CREATE_CQ, qid, 0, 2 * (uint64_t)qid * 4096, cq);
    uint32_t fault = carry_out(sim, entry);
    if (fault != NVMEARB_OK)
        return fault;
    encode(entry, NVMEARB_OPC_CREATE_SQ, qid, 0, (2 * (uint64_t)qid + 1) * 4096, sq);
    return carry_out(sim, entry);
}

uint32_t sim_create_queues(nvmearb_sim *sim)
{
    for (uint16_t qid = 1; qid <= sim->config.queues; qid++) {
        uint32_t fault = create_queue(sim, qid);
        if (fault != NVMEARB_OK)
            return fault;
    }
    return NVMEARB_OK;
}

/* Puts what waits into the ring, as far as its host knows free slots. Whether the tail moved. */
static int fill_ring(nvmearb_sim *sim, queue *queue)
{
    int moved = 0;
    for (;;) {
        uint16_t next = slot_behind(queue->tail, queue->of.slots);
        uint32_t index = next == queue->head ? NO_COMMAND : sim_take_first(sim, &queue->came);
        if (index == NO_COMMAND)
            return moved;
        command *it = command_of(sim, index);
        it->stage = SUBMITTED;
        it->told.submitted = sim->now;
        sim_append(sim, &queue->submitted, index);
        queue->tail = next;
        moved = 1;
    }
}

/* The entry of a command of namespace 1. (NVM Command Set Specification, Flush, Write, Read) */
static void encode_command(uint8_t *bytes, const nvmearb_sim_command *of)
{
    uint32_t flush[3] = {0, 0, 0}, rest[3] = {(uint32_t)of->block, (uint32_t)(of->block >> 32), of->blocks - 1};
    encode(bytes, (uint8_t)of->operation, (uint16_t)of->number, 1, 0, of->operation == NVMEARB_OPC_FLUSH ? flush : rest);
}

uint32_t sim_fetch(nvmearb_sim *sim, uint16_t qid)
{
    queue *queue = queue_of(sim, qid);
    uint16_t slot;
    while (nvmearb_ctrl_fetch(&sim->ctrl, qid, &slot) == NVMEARB_OK) {
        uint8_t entry[NVMEARB_SQE_BYTES];
        uint32_t index = sim_take_first(sim, &queue->submitted);
        if (slot != queue->fetched || index == NO_COMMAND)
            return NVMEARB_SIM_EBROKEN;
        command *it = command_of(sim, index);
        encode_command(entry, &it->told);
        if (nvmearb_ctrl_fetched(&sim->ctrl, slots_of(sim), sim->slot_count, qid, entry, index) != NVMEARB_OK)
            return NVMEARB_SIM_EBROKEN;
        it->stage = FETCHED;
        queue->fetched = slot_behind(slot, queue->of.slots);
    }
    return NVMEARB_OK;
}

uint32_t sim_submit(nvmearb_sim *sim, uint16_t qid)
{
    queue *queue = queue_of(sim, qid);
    if (fill_ring(sim, queue) && nvmearb_ctrl_sq_tail(&sim->ctrl, qid, queue->tail) != NVMEARB_OK)
        return NVMEARB_SIM_EBROKEN;
    return sim_fetch(sim, qid);
}

uint32_t sim_collect(nvmearb_sim *sim, uint32_t index)
{
    static const nvmearb_status success = {0, 0};
    const command *it = command_of(sim, index);
    uint16_t qid = it->told.queue;
    queue *queue = queue_of(sim, qid);
    nvmearb_post post;
    if (nvmearb_ctrl_complete(&sim->ctrl, slots_of(sim), sim->slot_count, it->tag, &success, 0) != NVMEARB_OK ||
        nvmearb_ctrl_post(&sim->ctrl, slots_of(sim), sim->slot_count, qid, &post) != NVMEARB_OK)
        return NVMEARB_SIM_EBROKEN;
    if (post.cookie != index || post.tag != it->tag || post.slot != queue->read)
        return NVMEARB_SIM_EBROKEN;
    queue->head = (uint16_t)(post.bytes[8] | post.bytes[9] << 8);
    queue->read = slot_behind(queue->read, queue->of.slots);
    return nvmearb_ctrl_cq_head(&sim->ctrl, qid, queue->read) == NVMEARB_OK ? NVMEARB_OK : NVMEARB_SIM_EBROKEN;
}
