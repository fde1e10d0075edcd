/* The hosts of hosts.h. */
#include "hosts.h"

#include <string.h>

enum { CIDS = 24, MOST_SLOTS = 16, SQS = 0x10000, CQS = 0x20000, DATA = 0x30000 };
enum { IDENTIFY = 0x06, EVENT_REQUEST = 0x0c, MOST_REQUESTS = 2 };

/*
 * The queues by identifier. Of one that isn't open `slots` is 0. While a Create or a Delete of it isn't answered,
 * `is_asked`, its doorbell isn't written. `rung` is what that was written with last.
 */
static struct sq {
    uint16_t slots, tail, rung, head, cqid;
    int is_asked;
    uint8_t is_out[CIDS]; /* whether a command of an identifier isn't answered */
    nvmearb_sqe commands[CIDS];
} sqs[HOSTS_QUEUES + 1];
static struct cq {
    uint16_t slots, head, rung;
    uint8_t phase;
    int is_asked;
} cqs[HOSTS_QUEUES + 1];
static int others_asked; /* the same of a queue that there never is */

uint8_t hosts_memory[HOSTS_BYTES];
static uint64_t state;
static unsigned strays;
static void (*ring)(uint16_t qid, int is_head, uint16_t slot);

/* By splitmix64. */
uint32_t hosts_draw(uint32_t n)
{
    uint64_t z = state += 0x9e3779b97f4a7c15u;
    z = (z ^ (z >> 30)) * 0xbf58476d1ce4e5b9u;
    z = (z ^ (z >> 27)) * 0x94d049bb133111ebu;
    return (uint32_t)((z ^ (z >> 31)) >> 20) % n;
}

unsigned hosts_strays(void)
{
    return strays;
}

static uint64_t sq_address(uint16_t qid)
{
    return qid ? SQS + 0x1000u * qid : HOSTS_ASQ;
}

static uint64_t cq_address(uint16_t cqid)
{
    return cqid ? CQS + 0x1000u * cqid : HOSTS_ACQ;
}

static unsigned out_of(const struct sq *sq)
{
    unsigned n = 0;
    for (unsigned cid = 0; cid < CIDS; cid++)
        n += sq->is_out[cid];
    return n;
}

/* ---- Submitting ---- */

/* Puts a command into the next slot, under an identifier that no outstanding one has. Returns 0 where it can't. */
static int put(uint16_t qid, nvmearb_sqe entry)
{
    struct sq *sq = &sqs[qid];
    uint16_t cid = (uint16_t)hosts_draw(CIDS);
    if (sq->slots == 0 || sq->is_asked || (sq->tail + 1) % sq->slots == sq->head || sq->is_out[cid])
        return 0;
    entry.cid = cid;
    nvmearb_sqe_encode(&entry, hosts_memory + sq_address(qid) + (size_t)NVMEARB_SQE_BYTES * sq->tail);
    sq->tail = (uint16_t)((sq->tail + 1) % sq->slots);
    sq->is_out[cid] = 1;
    sq->commands[cid] = entry;
    return 1;
}

static void put_some(uint16_t qid)
{
    for (uint32_t n = 1 + hosts_draw(MOST_SLOTS); n; n--)
        put(qid, (nvmearb_sqe){.opcode = (uint8_t)hosts_draw(3), .nsid = 1, .prp1 = DATA, .cdw10 = hosts_draw(8)});
}

static void ring_tail(uint16_t qid)
{
    struct sq *sq = &sqs[qid];
    if (sq->slots == 0 || sq->is_asked || sq->tail == sq->rung)
        return;
    sq->rung = sq->tail;
    ring(qid, 0, sq->tail);
}

static void ring_head(uint16_t cqid)
{
    struct cq *cq = &cqs[cqid];
    if (cq->slots == 0 || cq->is_asked || cq->head == cq->rung)
        return;
    cq->rung = cq->head;
    ring(cqid, 1, cq->head);
}

/* Where it is noted that a Create or a Delete isn't answered. A queue has one at a time. NULL: it is neither. */
static int *asked(const nvmearb_sqe *entry)
{
    uint16_t qid = entry->cdw10 & 0xffff;
    int is_one = qid && qid <= HOSTS_QUEUES;
    switch (entry->opcode) {
    case NVMEARB_OPC_CREATE_SQ:
    case NVMEARB_OPC_DELETE_SQ:
        return is_one ? &sqs[qid].is_asked : &others_asked;
    case NVMEARB_OPC_CREATE_CQ:
    case NVMEARB_OPC_DELETE_CQ:
        return is_one ? &cqs[qid].is_asked : &others_asked;
    default:
        return NULL;
    }
}

/* A Create or a Delete of a queue of a kind: mostly what fits. */
static nvmearb_sqe draw_turn(int is_sq)
{
    uint16_t qid = (uint16_t)(hosts_draw(16) ? 1 + hosts_draw(HOSTS_QUEUES) : hosts_draw(2) * 60);
    uint32_t slots = hosts_draw(30) ? 2 + hosts_draw(MOST_SLOTS - 1) : 1;
    int is_open = qid <= HOSTS_QUEUES && (is_sq ? sqs[qid].slots : cqs[qid].slots);
    nvmearb_sqe entry = {.cdw10 = (slots - 1) << 16 | qid, .cdw11 = 1};
    if (is_open == (hosts_draw(8) != 0))
        entry.opcode = is_sq ? NVMEARB_OPC_DELETE_SQ : NVMEARB_OPC_DELETE_CQ;
    else {
        entry.opcode = is_sq ? NVMEARB_OPC_CREATE_SQ : NVMEARB_OPC_CREATE_CQ;
        entry.cdw11 |= is_sq ? hosts_draw(4) << 1 | (1 + hosts_draw(HOSTS_QUEUES)) << 16 : 0;
        entry.prp1 = is_sq ? sq_address(qid) : cq_address(qid);
    }
    return entry;
}

static void put_turn(void)
{
    nvmearb_sqe entry = draw_turn((int)hosts_draw(2));
    int *it = asked(&entry);
    uint16_t qid = entry.cdw10 & 0xffff;
    if (*it)
        return;
    if (entry.opcode == NVMEARB_OPC_CREATE_CQ && qid <= HOSTS_QUEUES && cqs[qid].slots == 0)
        memset(hosts_memory + cq_address(qid), 0, MOST_SLOTS * NVMEARB_CQE_BYTES);
    *it = put(0, entry);
}

/* An Abort of a command that isn't answered, an event request too, or of none. */
static void put_abort(void)
{
    uint16_t qid = (uint16_t)hosts_draw(HOSTS_QUEUES + 1);
    for (uint32_t n = 0, cid = hosts_draw(CIDS); n < CIDS; n++, cid = (cid + 1) % CIDS)
        if (sqs[qid].is_out[cid] && (qid || sqs[0].commands[cid].opcode == EVENT_REQUEST)) {
            put(0, (nvmearb_sqe){.opcode = NVMEARB_OPC_ABORT, .cdw10 = cid << 16 | qid});
            return;
        }
    put(0, (nvmearb_sqe){.opcode = NVMEARB_OPC_ABORT, .cdw10 = CIDS << 16 | qid});
}

static unsigned requests(void)
{
    unsigned n = 0;
    for (unsigned cid = 0; cid < CIDS; cid++)
        n += sqs[0].is_out[cid] && sqs[0].commands[cid].opcode == EVENT_REQUEST;
    return n;
}

static void put_admin(void)
{
    static const uint8_t fids[] = {NVMEARB_FID_ARBITRATION, NVMEARB_FID_NUMBER_OF_QUEUES};
    uint32_t fid = fids[hosts_draw(2)], numbers = (HOSTS_QUEUES - 1) * 0x10001u;
    uint32_t value = fid == NVMEARB_FID_ARBITRATION ? 0x01020302 : numbers;
    switch (hosts_draw(8)) {
    case 0:
        put(0, (nvmearb_sqe){.opcode = IDENTIFY, .prp1 = DATA, .cdw10 = 1});
        return;
    case 1:
        put(0, (nvmearb_sqe){.opcode = NVMEARB_OPC_SET_FEATURES, .cdw10 = fid, .cdw11 = value});
        return;
    case 2:
        if (requests() < MOST_REQUESTS)
            put(0, (nvmearb_sqe){.opcode = EVENT_REQUEST});
        return;
    case 3:
    case 4:
        put_abort();
        return;
    default:
        put_turn();
    }
}

/* ---- Taking ---- */

static int take(uint16_t cqid);

/*
 * A Create or a Delete succeeded. Where it is of a queue that there may not be, the controller is wrong. What a deleted
 * queue left is taken before it may come again.
 */
static void turned(const nvmearb_sqe *it)
{
    uint16_t qid = it->cdw10 & 0xffff, slots = (uint16_t)((it->cdw10 >> 16) + 1);
    if (qid == 0 || qid > HOSTS_QUEUES)
        return;
    switch (it->opcode) {
    case NVMEARB_OPC_CREATE_CQ:
        cqs[qid] = (struct cq){.slots = slots, .phase = 1};
        return;
    case NVMEARB_OPC_DELETE_CQ:
        cqs[qid].slots = 0;
        return;
    case NVMEARB_OPC_CREATE_SQ:
        sqs[qid] = (struct sq){.slots = slots, .cqid = (uint16_t)(it->cdw11 >> 16)};
        return;
    case NVMEARB_OPC_DELETE_SQ:
        while (take(sqs[qid].cqid))
            ;
        sqs[qid] = (struct sq){.slots = 0};
    }
}

/* Takes the next completion of a queue. Returns 0 where none is there. */
static int take(uint16_t cqid)
{
    struct cq *cq = &cqs[cqid];
    uint8_t bytes[NVMEARB_CQE_BYTES], flags;
    nvmearb_cqe it;
    memcpy(bytes, hosts_memory + cq_address(cqid) + sizeof bytes * cq->head, sizeof bytes);
    if (cq->slots == 0 || (bytes[14] & 1) != cq->phase)
        return 0;
    cq->head = (uint16_t)((cq->head + 1) % cq->slots);
    cq->phase ^= cq->head == 0;
    if (nvmearb_cqe_decode_with(bytes, &it, &flags) != NVMEARB_OK || it.sqid > HOSTS_QUEUES || it.cid >= CIDS ||
        !sqs[it.sqid].is_out[it.cid]) {
        strays++;
        return 1;
    }
    nvmearb_sqe command = sqs[it.sqid].commands[it.cid];
    sqs[it.sqid].is_out[it.cid] = 0;
    sqs[it.sqid].head = it.sqhd;
    if (it.sqid == 0 && asked(&command)) {
        *asked(&command) = 0;
        if (it.status.sct == 0 && it.status.sc == 0)
            turned(&command);
    }
    return 1;
}

/* ---- All of it ---- */

void hosts_begin(uint64_t seed, void (*bell)(uint16_t qid, int is_head, uint16_t slot))
{
    memset(hosts_memory, 0, sizeof hosts_memory), memset(sqs, 0, sizeof sqs), memset(cqs, 0, sizeof cqs);
    state = seed, ring = bell, strays = 0, others_asked = 0;
    sqs[0].slots = cqs[0].slots = HOSTS_ADMIN_SLOTS, cqs[0].phase = 1;
    put(0, (nvmearb_sqe){.opcode = NVMEARB_OPC_SET_FEATURES,
                         .cdw10 = NVMEARB_FID_NUMBER_OF_QUEUES,
                         .cdw11 = (HOSTS_QUEUES - 1) * 0x10001u});
}

void hosts_step(void)
{
    uint16_t qid = (uint16_t)hosts_draw(HOSTS_QUEUES + 1);
    switch (hosts_draw(8)) {
    case 0:
        put_admin();
        return;
    case 1:
    case 2:
        if (qid)
            put_some(qid);
        return;
    case 3:
    case 4:
        ring_tail(qid);
        return;
    case 5:
    case 6:
        for (uint32_t n = 1 + hosts_draw(4); n && take(qid); n--)
            ;
        return;
    default:
        ring_head(qid);
    }
}

unsigned hosts_settle(void)
{
    unsigned n = 0;
    for (uint16_t qid = 0; qid <= HOSTS_QUEUES; qid++) {
        while (take(qid))
            ;
        ring_head(qid), ring_tail(qid);
    }
    for (uint16_t qid = 0; qid <= HOSTS_QUEUES; qid++)
        n += out_of(&sqs[qid]);
    return n - requests();
}
