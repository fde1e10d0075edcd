/*
 * Whether it goes on for ever: controllers under fair hosts and devices of drawn sizes, under a fixed seed. A host that
 * submits, reads each completion at some time and rings its doorbells, and a device that ends each command at some time
 * and releases each queue that it holds, get every command back, each once, whatever the rings, the depths, the burst,
 * the weights, the room of each pick, and the Asynchronous Event Requests that the device keeps all the while.
 *
 *   fair [COUNT [SEED]]
 */
#include "tell.h"
#include <nvmearb.h>
#include <stdlib.h>
#include <string.h>

enum {
    QUEUES = 65,
    RING = 512,      /* slots of a ring */
    MOST = 400,      /* commands of a queue */
    ALL = 1200,      /* commands of the I/O queues of a run, about */
    FLYING = 1024,   /* commands that the device has at a time */
    TURNS = 200000,  /* after as many turns nothing will come any more */
    EVENT_REQUEST = 0x0c,
    READ = NVMEARB_OPC_READ,
};

/* Says where a fact fails, and counts nothing otherwise. */
#define MUST(fact) ((fact) ? (void)0 : check_that(0, #fact, __FILE__, __LINE__))

/* A submission queue of the host: its ring, its commands by identifier, and how often each came back. */
static struct sq {
    uint8_t ring[RING][NVMEARB_SQE_BYTES];
    uint8_t came[MOST];
    uint16_t slots, tail, head, total, submitted, back, held;
    int is_open;
} sqs[QUEUES];

/* A completion queue of the host. */
static struct cq {
    uint8_t ring[RING][NVMEARB_CQE_BYTES];
    uint16_t slots, head, phase, slowness;
} cqs[QUEUES];

/* An admin command that the host has submitted or will submit. */
static struct command {
    uint8_t opcode;
    uint64_t prp1;
    uint32_t cdw10, cdw11;
} script[MOST];

static nvmearb_ctrl ctrl;
static nvmearb_slot pool[NVMEARB_MAX_SLOTS];
static size_t count;
static uint64_t seed;
static uint16_t nqueues, nevents, capacity, largest, most;
static int is_eager; /* the host submits all that it can at once */
static int by_turns; /* the device asks for the next queue with work, and not each queue */
static struct {
    uint32_t tag;
    uint16_t turns;
} in_flight[FLYING];
static uint32_t events[8]; /* their tags */
static uint16_t flying, kept;
static unsigned long full, cut, holds; /* picks that there was no room for, picks of as many as there was, and holds */
static unsigned long outstanding, many; /* commands picked and not posted, and picks that left more than 256 of them */

static uint32_t upto(uint32_t n)
{
    return (uint32_t)((drawn(&seed) >> 20) % n);
}

/* Mostly a small number, 1 to n. */
static uint16_t some(uint32_t n)
{
    return (uint16_t)(1 + upto(1 + upto(n)));
}

/* ---- The host ---- */

static uint16_t free_slots(const struct sq *q)
{
    return (uint16_t)((q->head + q->slots - q->tail - 1) % q->slots);
}

static void submit(uint16_t qid, const struct command *it)
{
    struct sq *q = &sqs[qid];
    nvmearb_sqe entry = {.opcode = it->opcode, .cid = q->submitted++, .nsid = 1, .prp1 = it->prp1};
    entry.cdw10 = it->cdw10, entry.cdw11 = it->cdw11;
    nvmearb_sqe_encode(&entry, q->ring[q->tail]);
    q->tail = (uint16_t)((q->tail + 1) % q->slots);
}

/* Submits one admin command, or as many of a queue's commands as are drawn, and rings its doorbell once. */
static void fill(uint16_t qid)
{
    static const struct command read = {.opcode = READ};
    struct sq *q = &sqs[qid];
    uint16_t tail = q->tail;
    for (uint16_t n = !qid ? 1 : is_eager ? RING : some(RING); n && q->submitted < q->total && free_slots(q); n--)
        submit(qid, qid ? &read : &script[q->submitted]);
    if (q->tail != tail)
        MUST(nvmearb_ctrl_sq_tail(&ctrl, qid, q->tail) == NVMEARB_OK);
}

/* An I/O queue is open from the completion of its Create to its Delete. */
static void note_admin(uint16_t cid, unsigned status)
{
    const struct command *it = &script[cid];
    MUST(status == 0);
    if (it->opcode == NVMEARB_OPC_CREATE_SQ || it->opcode == NVMEARB_OPC_DELETE_SQ)
        sqs[it->cdw10 & 0xffff].is_open = it->opcode == NVMEARB_OPC_CREATE_SQ;
}

static void come_back(const uint8_t *bytes)
{
    uint16_t sqhd = (uint16_t)(bytes[8] | bytes[9] << 8), sqid = (uint16_t)(bytes[10] | bytes[11] << 8);
    uint16_t cid = (uint16_t)(bytes[12] | bytes[13] << 8);
    struct sq *q = &sqs[sqid];
    q->head = sqhd;
    q->came[cid]++;
    q->back++;
    if (sqid == 0)
        note_admin(cid, (bytes[14] >> 1 | bytes[15] << 7) & 0x7ff);
}

/* Reads the completions that are there, if it reads this queue in this turn, and rings its doorbell once. */
static void read_cq(uint16_t cqid)
{
    struct cq *q = &cqs[cqid];
    uint16_t head = q->head;
    if (upto(q->slowness))
        return;
    while ((q->ring[q->head][14] & 1) == q->phase) {
        come_back(q->ring[q->head]);
        q->head = (uint16_t)((q->head + 1) % q->slots);
        q->phase ^= q->head == 0;
    }
    if (q->head != head)
        MUST(nvmearb_ctrl_cq_head(&ctrl, cqid, q->head) == NVMEARB_OK);
}

/* Admin commands come one after another, but for those that nothing has to wait for. */
static int may_fill(uint16_t qid)
{
    const struct sq *q = &sqs[0];
    if (qid)
        return sqs[qid].is_open && (is_eager || upto(3) == 0);
    if (q->submitted == q->total)
        return 0;
    return script[q->submitted].opcode == EVENT_REQUEST || q->submitted - q->back == kept;
}

static void host(void)
{
    for (uint16_t qid = 0; qid <= nqueues; qid++)
        if (may_fill(qid))
            fill(qid);
    for (uint16_t cqid = 0; cqid <= nqueues; cqid++)
        if (cqs[cqid].slots)
            read_cq(cqid);
}

/* ---- The device ---- */

static void take_all(void)
{
    nvmearb_command it;
    while (nvmearb_ctrl_take(&ctrl, pool, count, &it) == NVMEARB_OK) {
        if (it.entry.opcode == EVENT_REQUEST) {
            events[kept++] = it.tag;
            continue;
        }
        in_flight[flying].tag = it.tag;
        in_flight[flying++].turns = (uint16_t)upto(6);
    }
}

/* As many commands as the device can take now, beside the requests that it keeps. */
static uint16_t room(void)
{
    return (uint16_t)(capacity > flying ? 1 + upto((uint32_t)(capacity - flying)) : 0);
}

static void pick_all(void)
{
    nvmearb_step step;
    uint16_t most_now = room();
    uint32_t told = nvmearb_ctrl_pick(&ctrl, pool, count, most_now, &step);
    for (; told == NVMEARB_OK; told = nvmearb_ctrl_pick(&ctrl, pool, count, most_now, &step)) {
        MUST(step.pick.n <= most_now);
        cut += step.pick.n == most_now;
        outstanding += step.kind == NVMEARB_CARRIED_OUT ? 1 : step.pick.n;
        many += outstanding > 256;
        take_all();
        most_now = room();
    }
    MUST(told == NVMEARB_NONE || (told == NVMEARB_NOROOM && !most_now));
    full += told == NVMEARB_NOROOM;
}

/* Ends the commands whose time has come, and any of them before another. */
static void complete_some(void)
{
    static const nvmearb_status success = {NVMEARB_SCT_GENERIC, NVMEARB_SC_SUCCESS};
    for (uint16_t k = flying; k--;) {
        uint16_t at = (uint16_t)upto(flying);
        if (in_flight[at].turns && in_flight[at].turns--)
            continue;
        MUST(nvmearb_ctrl_complete(&ctrl, pool, count, in_flight[at].tag, &success, 0) == NVMEARB_OK);
        in_flight[at] = in_flight[--flying];
    }
}

static void finish_all(void)
{
    uint16_t qid;
    while (nvmearb_ctrl_finish(&ctrl, pool, count, &qid) == NVMEARB_OK)
        continue;
}

static void post_all(uint16_t cqid)
{
    nvmearb_post it;
    for (; nvmearb_ctrl_post(&ctrl, pool, count, cqid, &it) == NVMEARB_OK; outstanding--)
        memcpy(cqs[cqid].ring[it.slot], it.bytes, sizeof it.bytes);
    finish_all();
}

/* Posts to each queue, or to those to which something can be posted. */
static void post_each(void)
{
    static uint16_t last;
    while (by_turns && nvmearb_ctrl_next_to_post(&ctrl, pool, count, &last) == NVMEARB_OK)
        post_all(last);
    for (uint16_t cqid = 0; !by_turns && cqid <= nqueues; cqid++)
        post_all(cqid);
}

static void fetched(uint16_t qid, uint16_t slot)
{
    MUST(nvmearb_ctrl_fetched(&ctrl, pool, count, qid, sqs[qid].ring[slot], qid) == NVMEARB_OK);
}

/* Fetches all of each queue, or an entry of each in turn. */
static void fetch_each(void)
{
    static uint16_t last;
    uint16_t slot;
    while (by_turns && nvmearb_ctrl_next_fetch(&ctrl, &last, &slot) == NVMEARB_OK)
        fetched(last, slot);
    for (uint16_t qid = 0; !by_turns && qid <= nqueues; qid++)
        while (nvmearb_ctrl_fetch(&ctrl, qid, &slot) == NVMEARB_OK)
            fetched(qid, slot);
}

/* Holds a queue for some turns, or releases one whose time has come. */
static void hold_some(void)
{
    uint16_t qid = (uint16_t)upto(nqueues + 1u);
    struct sq *q = &sqs[qid];
    if (qid && !q->is_open)
        return;
    if (q->held && --q->held == 0)
        nvmearb_ctrl_hold(&ctrl, qid, 0);
    else if (!q->held && upto(8) == 0 && nvmearb_ctrl_hold(&ctrl, qid, 1) == NVMEARB_OK)
        q->held = some(4), holds++;
}

static void device(void)
{
    fetch_each();
    hold_some();
    pick_all();
    finish_all();
    complete_some();
    post_each();
}

/* ---- A run ---- */

static void say(uint8_t opcode, uint64_t prp1, uint32_t cdw10, uint32_t cdw11)
{
    script[sqs[0].total++] = (struct command){opcode, prp1, cdw10, cdw11};
}

/* The slots of a ring: at least 2. */
static uint16_t draw_slots(void)
{
    return (uint16_t)(1 + (is_eager ? upto(largest - 1u) + 1 : some(largest - 1u)));
}

/* The admin commands: requests that the device keeps, and Creates. Some queues share a completion queue. */
static void draw_script(void)
{
    for (uint16_t k = 0; k < nevents; k++)
        say(EVENT_REQUEST, 0, 0, 0);
    for (uint16_t qid = 1; qid <= nqueues; qid++) {
        uint16_t cqid = upto(3) ? qid : (uint16_t)(1 + upto(qid));
        struct cq *q = &cqs[cqid];
        sqs[qid] = (struct sq){.slots = draw_slots(), .total = is_eager ? most : (uint16_t)upto(most)};
        if (!q->slots) {
            *q = (struct cq){.slots = draw_slots(), .phase = 1, .slowness = some(8)};
            say(NVMEARB_OPC_CREATE_CQ, (uint64_t)cqid << 16, (q->slots - 1u) << 16 | cqid, 1);
        }
        say(NVMEARB_OPC_CREATE_SQ, (uint64_t)qid << 16, (sqs[qid].slots - 1u) << 16 | qid,
            (uint32_t)cqid << 16 | upto(4) << 1 | 1);
    }
}

static void begin(void)
{
    static const nvmearb_placement placement = {4096, 4095, 1};
    nvmearb_config config = {{0x1000, 0}, {0x2000, 0}, 1 + upto(2), (uint32_t)drawn(&seed), 64, 64, 256, 0};
    config.depth = upto(2) ? some(RING) : RING / 2;
    config.cdw11 |= upto(3) ? 0 : 7; /* no burst limit */
    memset(sqs, 0, sizeof sqs);
    memset(cqs, 0, sizeof cqs);
    nqueues = some(some(64)), nevents = (uint16_t)upto(5), flying = kept = 0, outstanding = 0;
    capacity = upto(2) ? some(FLYING) : FLYING;
    is_eager = upto(4) == 0, by_turns = (int)upto(2);
    largest = is_eager ? RING : (uint16_t)(1 + some(RING - 1));
    most = (uint16_t)(1 + ALL / nqueues < MOST ? 1 + ALL / nqueues : MOST);
    sqs[0] = (struct sq){.slots = (uint16_t)(draw_slots() + nevents), .is_open = 1};
    sqs[0].slots = sqs[0].slots < RING ? sqs[0].slots : RING;
    cqs[0] = (struct cq){.slots = draw_slots(), .phase = 1, .slowness = some(4)};
    draw_script();
    config.asq.slots = sqs[0].slots, config.acq.slots = cqs[0].slots;
    config.admin_depth = (uint16_t)(nevents + some(RING));
    count = (size_t)nqueues * config.depth + config.admin_depth;
    MUST(nvmearb_ctrl_init_anywhere(&ctrl, pool, count, &config, &placement) == NVMEARB_OK);
    MUST(nvmearb_ctrl_own_opcode(&ctrl, EVENT_REQUEST) == NVMEARB_OK);
}

/* Whether each command came back but the requests that the device keeps. */
static int is_done(void)
{
    for (uint16_t qid = 0; qid <= nqueues; qid++)
        if (sqs[qid].back + (qid ? 0 : nevents) < sqs[qid].total)
            return 0;
    return 1;
}

static int came_once(uint16_t qid)
{
    for (uint16_t cid = 0; cid < sqs[qid].total; cid++)
        if (sqs[qid].came[cid] != 1)
            return 0;
    return 1;
}

/* At last the host deletes all queues, and the device ends the requests. */
static void end(void)
{
    static const nvmearb_status success = {NVMEARB_SCT_GENERIC, NVMEARB_SC_SUCCESS};
    for (uint16_t qid = 1; qid <= nqueues; qid++)
        say(NVMEARB_OPC_DELETE_SQ, 0, qid, 0);
    for (uint16_t cqid = 1; cqid <= nqueues; cqid++)
        if (cqs[cqid].slots)
            say(NVMEARB_OPC_DELETE_CQ, 0, cqid, 0);
    for (; kept; kept--)
        MUST(nvmearb_ctrl_complete(&ctrl, pool, count, events[kept - 1], &success, 0) == NVMEARB_OK);
    for (int turn = 0; turn < TURNS && sqs[0].back < sqs[0].total; turn++) {
        device();
        host();
    }
    for (uint16_t qid = 0; qid <= nqueues; qid++)
        MUST(came_once(qid));
    MUST(nvmearb_ctrl_verify(&ctrl, pool, count) == NVMEARB_OK);
}

static void run(void)
{
    int turn = 0;
    begin();
    for (; turn < TURNS && !is_done(); turn++) {
        host();
        device();
    }
    MUST(turn < TURNS && kept == nevents);
    end();
}

int main(int argc, char **argv)
{
    unsigned long runs = argc > 1 ? strtoul(argv[1], NULL, 10) : 10000, ran = 0;
    seed = argc > 2 ? strtoull(argv[2], NULL, 10) : 1;
    for (; ran < runs && !failed; ran++)
        run();
    CHECK(ran == runs);
    CHECK(full && cut && holds && many);
    return told();
}
