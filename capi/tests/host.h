/* A host of the device of ../examples/nvme.h, by its registers and by rings in memory, for tests of that. */
#ifndef HOST_H
#define HOST_H

#include "../examples/nvme.h"
#include "tell.h"

#include <string.h>

enum { PAIRS = 4, VECTORS = 4, ADMIN_RING = 64, IO_RING = 1024, MOST = 1024, BLOCKS = 1024, SHIFT = 9 };
enum { AT_CC = 0x14, AT_CSTS = 0x1c, AT_AQA = 0x24, AT_ASQ = 0x28, AT_ACQ = 0x30, AT_DOORBELLS = 0x1000 };
enum { EVENT_REQUEST = 0x0c, IDENTIFY = 0x06, DATA = 0x300000 };

static uint8_t memory[16 << 20], blocks[BLOCKS << SHIFT];
static struct nvme device;

/* Pairs of queues, the admin queues first, with what came back by identifier: how often, and with what. */
static struct queue {
    uint64_t sq, cq;
    uint16_t slots, tail, head, submitted;
    uint8_t phase, came[MOST];
    uint32_t dw0[MOST];
    uint16_t status[MOST]; /* its type in bits 10:8, and its code */
} queues[PAIRS];

/* Where the pairs lie, and how long their rings are where nothing else is said. */
static const struct queue places[PAIRS] = {{.sq = 0x10000, .cq = 0x20000, .slots = ADMIN_RING, .phase = 1},
                                           {.sq = 0x100000, .cq = 0x200000, .slots = IO_RING, .phase = 1},
                                           {.sq = 0x120000, .cq = 0x210000, .slots = 16, .phase = 1},
                                           {.sq = 0x140000, .cq = 0x220000, .slots = 5, .phase = 1}};

/* How many times the device did what it may not, a copy across a page, a message of a vector that it hasn't; and messages. */
static unsigned crossings, wild_messages, messages, messages_of[VECTORS];

static int copy(void *context, uint64_t address, void *bytes, size_t length, int to_guest)
{
    (void)context;
    crossings += address % NVME_PAGE + length > NVME_PAGE;
    if (address > sizeof memory || length > sizeof memory - address)
        return 0;
    memcpy(to_guest ? memory + address : bytes, to_guest ? bytes : memory + address, length);
    return 1;
}

static void interrupt(void *context, int is_asserted)
{
    (void)context, (void)is_asserted;
}

static void message(void *context, uint16_t vector)
{
    (void)context;
    messages++;
    messages_of[vector % VECTORS]++;
    wild_messages += vector >= device.vectors;
}

static uint64_t now(void *context)
{
    static uint64_t time;
    (void)context;
    return time += 1000000;
}

/* Puts a command into a ring, whose doorbell is rung later. Returns its identifier. */
static uint16_t put(unsigned qid, nvmearb_sqe entry)
{
    struct queue *q = &queues[qid];
    entry.cid = q->submitted++;
    nvmearb_sqe_encode(&entry, memory + q->sq + (size_t)NVMEARB_SQE_BYTES * q->tail);
    q->tail = (uint16_t)((q->tail + 1) % q->slots);
    return entry.cid;
}

static void ring(unsigned qid)
{
    nvme_write(&device, AT_DOORBELLS + 8 * qid, queues[qid].tail, 4);
}

/* Reads the completions that are there. Returns how many. */
static unsigned read_completions(unsigned qid)
{
    struct queue *q = &queues[qid];
    unsigned n = 0;
    for (; (memory[q->cq + 16u * q->head + 14] & 1) == q->phase; n++) {
        const uint8_t *it = memory + q->cq + 16u * q->head;
        uint16_t cid = (uint16_t)(it[12] | it[13] << 8) % MOST;
        q->came[cid]++;
        q->dw0[cid] = it[0] | (uint32_t)it[1] << 8 | (uint32_t)it[2] << 16 | (uint32_t)it[3] << 24;
        q->status[cid] = (uint16_t)((it[14] >> 1 | it[15] << 7) & 0x7ff);
        q->head = (uint16_t)((q->head + 1) % q->slots);
        q->phase ^= q->head == 0;
    }
    if (n)
        nvme_write(&device, AT_DOORBELLS + 4 + 8 * qid, q->head, 4);
    return n;
}

/* A command came back once, with this status and Dword 0. */
static int came_back(unsigned qid, uint16_t cid, uint16_t status, uint32_t dw0)
{
    const struct queue *q = &queues[qid];
    return q->came[cid] == 1 && q->status[cid] == status && q->dw0[cid] == dw0;
}

static int is_running(void)
{
    return nvme_read(&device, AT_CSTS, 4) == 1;
}

/* An admin command is submitted, and comes back at once. */
static int answers(nvmearb_sqe entry, uint16_t status, uint32_t dw0)
{
    uint16_t cid = put(0, entry);
    ring(0);
    return read_completions(0) == 1 && came_back(0, cid, status, dw0);
}

/* Makes a device over a backend. */
static int is_made(const struct nvme_backend *backend)
{
    memset(&device, 0, sizeof device);
    device.host = (struct nvme_host){.copy = copy, .interrupt = interrupt, .message = message, .now = now};
    device.namespaces[0] = (struct nvme_namespace){backend, blocks, BLOCKS, SHIFT};
    device.count = 1, device.vectors = VECTORS;
    return nvme_init(&device);
}

/* The host says where the admin queues lie, and writes CC. */
static void enable(uint32_t cc)
{
    memset(memory, 0, sizeof memory), memcpy(queues, places, sizeof places);
    nvme_write(&device, AT_AQA, (ADMIN_RING - 1) << 16 | (ADMIN_RING - 1), 4);
    nvme_write(&device, AT_ASQ, queues[0].sq, 8);
    nvme_write(&device, AT_ACQ, queues[0].cq, 8);
    nvme_write(&device, AT_CC, cc, 4);
}

/* The Create of a queue, at its place. That of a completion queue asks for interrupts by the vector of its number. */
static nvmearb_sqe create_of(uint8_t opcode, unsigned qid)
{
    uint32_t cdw10 = (queues[qid].slots - 1u) << 16 | qid;
    if (opcode == NVMEARB_OPC_CREATE_CQ)
        return (nvmearb_sqe){.opcode = opcode, .prp1 = queues[qid].cq, .cdw10 = cdw10, .cdw11 = qid << 16 | 3};
    return (nvmearb_sqe){.opcode = opcode, .prp1 = queues[qid].sq, .cdw10 = cdw10, .cdw11 = qid << 16 | 1};
}

/*
 * A device over a backend, whose host enabled it, has so many event requests out, has set the Arbitration feature, and
 * has created both queues 1.
 */
static inline int is_begun(const struct nvme_backend *backend, int is_weighted, uint32_t arbitration, unsigned requests)
{
    int is_well = is_made(backend);
    enable(0x460001u | (uint32_t)is_weighted << 11); /* CC.AMS: weighted */
    is_well = is_well && is_running();
    for (unsigned k = 0; k < requests; k++)
        put(0, (nvmearb_sqe){.opcode = EVENT_REQUEST});
    nvmearb_sqe set = {.opcode = NVMEARB_OPC_SET_FEATURES, .cdw10 = NVMEARB_FID_ARBITRATION, .cdw11 = arbitration};
    is_well = is_well && answers(set, 0, 0);
    is_well = is_well && answers(create_of(NVMEARB_OPC_CREATE_CQ, 1), 0, 0);
    return is_well && answers(create_of(NVMEARB_OPC_CREATE_SQ, 1), 0, 0);
}

#endif
