/*
 * Save and restore of the device of ../examples/nvme.h.
 *
 * A host does anything for a while. At many moments the device is saved, and one that is restored does the same from
 * there on: in its memory no byte differs. Then what was saved is damaged, in single numbers, or in bytes. Without a sum
 * that fits it is refused, and the device keeps each byte. With one it is refused so, or harmless: whatever its host does
 * then, the device tells no vector that it hasn't, copies nothing across a page, asks its backend for no block that there
 * isn't, and is as new after a reset.
 *
 *   restore [COUNT [SEED]]    so many damaged states
 */
#define _POSIX_C_SOURCE 200809L /* (for alarm) */
#include "host.h"
#include "places.h"

#include "../examples/memory.h"
#include "../examples/parts.h"

#include <stddef.h>
#include <stdlib.h>
#include <unistd.h>

enum { SAVED = 24, MOMENTS = 5 * SAVED, STEPS = 60, MOST_KEPT = 256, LIMIT = 6, SECONDS = 60 };

static uint64_t seed;

static uint32_t upto(uint32_t n)
{
    return (uint32_t)((drawn(&seed) >> 20) % n);
}

/* ---- A backend that leaves requests for a while ---- */

static struct nvme_request *kept[MOST_KEPT];
static unsigned count, outside;

static void keep(struct nvme_request *r)
{
    outside += r->at > sizeof blocks || r->length > sizeof blocks - r->at || count == MOST_KEPT;
    kept[count++ % MOST_KEPT] = r;
}

static int give_back(struct nvme_request *r)
{
    for (unsigned k = 0; k < count; k++)
        if (kept[k] == r) {
            kept[k] = kept[--count];
            return 1;
        }
    return 0;
}

static void end_one(void)
{
    memory_backend.begin(kept[--count]);
}

static void settle(void *context)
{
    (void)context;
    while (count)
        end_one();
}

static const struct nvme_backend late = {.begin = keep, .cancel = give_back};

/* ---- What the host does ---- */

/* By pair: whether it is there, and how many commands are out. */
static struct pair {
    uint16_t is_there, out;
} pairs[PAIRS];

/* What a moment is: the device's, the host's, and what both have in memory. */
static struct moment {
    struct nvme_saved saved;
    struct queue queues[PAIRS];
    struct pair pairs[PAIRS];
} moments[SAVED], before, after;
static unsigned unsaved; /* that couldn't be saved, since something was in flight */
static uint8_t memory_before[sizeof memory], blocks_before[sizeof blocks], memory_after[sizeof memory];

static void collect(unsigned qid)
{
    pairs[qid].out = (uint16_t)(pairs[qid].out - read_completions(qid));
}

/* Submits a command where the ring has room. */
static void submit(unsigned qid, nvmearb_sqe entry)
{
    if (pairs[qid].out + 1 >= queues[qid].slots)
        return;
    pairs[qid].out++;
    put(qid, entry);
}

static nvmearb_sqe draw_io(void)
{
    static const uint8_t opcodes[] = {NVMEARB_OPC_READ, NVMEARB_OPC_WRITE, NVMEARB_OPC_FLUSH, NVME_COMPARE,
                                      NVME_WRITE_ZEROES, NVME_DATASET_MANAGEMENT, 0x0a, NVME_VENDOR};
    nvmearb_sqe it = {.opcode = opcodes[upto(sizeof opcodes)]};
    it.nsid = upto(20) ? 1 : upto(3);
    it.prp1 = DATA + NVME_PAGE * upto(64);
    it.prp2 = DATA + NVME_PAGE * upto(64);
    it.cdw10 = upto(BLOCKS + 8);
    it.cdw11 = it.opcode == NVME_DATASET_MANAGEMENT ? upto(8) : 0;
    it.cdw12 = upto(10);
    return it;
}

/* An admin command, none that creates or deletes. */
static nvmearb_sqe draw_admin(void)
{
    static const uint8_t opcodes[] = {IDENTIFY, EVENT_REQUEST, NVME_GET_LOG_PAGE, NVMEARB_OPC_ABORT,
                                      NVMEARB_OPC_SET_FEATURES, NVMEARB_OPC_GET_FEATURES, NVME_VENDOR};
    static const uint8_t fids[] = {NVMEARB_FID_ARBITRATION, NVMEARB_FID_NUMBER_OF_QUEUES, NVME_POWER, NVME_TEMPERATURE,
                                   NVME_RECOVERY, NVME_CACHE, NVME_VECTOR, NVME_EVENTS, 0x7f};
    nvmearb_sqe it = {.opcode = opcodes[upto(sizeof opcodes)], .prp1 = DATA};
    it.nsid = upto(2);
    it.cdw10 = it.opcode == NVME_GET_LOG_PAGE ? 127u << 16 | upto(6) : upto(3);
    uint32_t more = upto(64);
    if (it.opcode == NVMEARB_OPC_ABORT)
        it.cdw10 = upto(PAIRS) | more << 16;
    if (it.opcode == NVMEARB_OPC_SET_FEATURES || it.opcode == NVMEARB_OPC_GET_FEATURES)
        it.cdw10 = fids[upto(sizeof fids)] | (more < 48 ? 0 : more % 4 << 8);
    it.cdw11 = upto(2) ? upto(8) : (uint32_t)drawn(&seed);
    return it;
}

/* Creates a pair, or deletes it: then nothing of it may be at the backend. */
static void create_or_delete(unsigned qid)
{
    if (pairs[0].out + 3 >= ADMIN_RING)
        return;
    if (pairs[qid].is_there) {
        settle(NULL), nvme_turn(&device), collect(qid);
        submit(0, (nvmearb_sqe){.opcode = NVMEARB_OPC_DELETE_SQ, .cdw10 = qid});
        ring(0), collect(qid); /* what waited */
        submit(0, (nvmearb_sqe){.opcode = NVMEARB_OPC_DELETE_CQ, .cdw10 = qid});
    } else {
        queues[qid] = places[qid];
        memset(memory + queues[qid].cq, 0, queues[qid].slots * (size_t)NVMEARB_CQE_BYTES);
        submit(0, create_of(NVMEARB_OPC_CREATE_CQ, qid)), submit(0, create_of(NVMEARB_OPC_CREATE_SQ, qid));
    }
    pairs[qid] = (struct pair){.is_there = !pairs[qid].is_there};
    ring(0), collect(0);
}

/* The host disables the controller, or shuts it down, or enables it, sometimes without waiting, or with a ring elsewhere. */
static void restart(void)
{
    uint32_t shn = upto(4) ? 0 : 1 << 14, mechanism = upto(2) << 11;
    nvme_write(&device, AT_CC, 0x460000u | shn | upto(2), 4);
    if (upto(3) == 0)
        return;
    memset(pairs, 0, sizeof pairs), pairs[0].is_there = 1;
    nvme_write(&device, AT_CC, 0x460000u, 4);
    if (upto(2))
        settle(NULL), nvme_turn(&device);
    enable(upto(6) ? 0x460001u | mechanism : (uint32_t)drawn(&seed));
    if (upto(8) == 0) {
        nvme_write(&device, AT_CC, 0x460000u, 4), settle(NULL), nvme_turn(&device);
        nvme_write(&device, AT_ACQ, sizeof memory, 8), nvme_write(&device, AT_CC, 0x460001u, 4);
    }
}

static void step(void)
{
    unsigned qid = upto(PAIRS), at = upto(2 * PAIRS + 2);
    switch (upto(16)) {
    case 0:
        create_or_delete(1 + upto(PAIRS - 1));
        break;
    case 1:
        nvme_write(&device, AT_DOORBELLS + 4 * at, (uint32_t)drawn(&seed), 4);
        break;
    case 2:
        nvme_write(&device, at % 2 ? 0x0c : 0x10, upto(16), 4); /* INTMS, INTMC */
        break;
    case 3:
    case 4:
    case 5:
        collect(qid);
        break;
    case 6:
    case 7:
    case 8:
        for (unsigned k = upto(LIMIT); k && count; k--)
            end_one();
        nvme_turn(&device);
        break;
    case 9:
        if (upto(12) == 0)
            restart();
        break;
    default:
        for (unsigned k = upto(8); k && (qid == 0 || pairs[qid].is_there); k--)
            submit(qid, qid ? draw_io() : draw_admin());
        ring(qid);
    }
}

/* ---- Moments ---- */

static void save(struct moment *to)
{
    unsaved += !nvme_save(&device, &to->saved);
    memcpy(to->queues, queues, sizeof queues), memcpy(to->pairs, pairs, sizeof pairs);
}

/* A device like the first, with nothing in flight. */
static int is_made_anew(void)
{
    settle(NULL);
    nvme_reset(&device);
    int is_well = is_made(&late);
    device.host.settle = settle, device.most = LIMIT;
    return is_well;
}

/* What the host does next, from a seed on, and where that ends. */
static void go_on(uint64_t from, struct moment *to)
{
    seed = from;
    for (unsigned k = 0; k < STEPS; k++)
        step();
    do
        settle(NULL), nvme_turn(&device);
    while (count);
    save(to);
    to->saved.sum = to->saved.state.counts.begun = 0; /* (of a time that goes on) */
}

/*
 * Whether the device, restored, does the same from there on. It was saved as a machine is that stops: once all that it had
 * in flight had ended.
 */
static int is_taken_over(struct moment *from, uint64_t seed_of_both)
{
    settle(NULL);
    save(from);
    memcpy(memory_before, memory, sizeof memory), memcpy(blocks_before, blocks, sizeof blocks);
    go_on(seed_of_both, &before);
    memcpy(memory_after, memory, sizeof memory);
    int is_well = is_made_anew() && nvme_restore(&device, &from->saved);
    memcpy(memory, memory_before, sizeof memory), memcpy(blocks, blocks_before, sizeof blocks);
    memcpy(queues, from->queues, sizeof queues), memcpy(pairs, from->pairs, sizeof pairs);
    go_on(seed_of_both, &after);
    return is_well && !memcmp(&before, &after, sizeof before) && !memcmp(memory, memory_after, sizeof memory);
}

static void states_are_taken_over(void)
{
    unsigned differ = 0, running = 0, held = 0, requests = 0;
    CHECK(is_made_anew());
    enable(0x460801u);
    memset(pairs, 0, sizeof pairs), pairs[0].is_there = 1;
    for (unsigned k = 0; k < MOMENTS; k++) {
        for (unsigned n = upto(2 * STEPS); n; n--)
            step();
        struct moment *it = &moments[k % SAVED];
        held += memchr(device.state.held_queues, 1, sizeof device.state.held_queues) != NULL;
        differ += !is_taken_over(it, drawn(&seed));
        running += is_running(), requests += it->saved.state.held_count != 0;
        if (!is_running() || upto(12) == 0) /* else hardly any would be */
            restart();
    }
    printf("%u states, %u of running devices, %u with held queues, ", MOMENTS, running, held);
    printf("%u with event requests\n", requests);
    CHECK(differ == 0 && running > MOMENTS / 2 && held > 0 && requests > MOMENTS / 4);
    CHECK(crossings == 0 && wild_messages == 0 && outside == 0 && messages > 0 && unsaved == 0);
}

/* ---- Damage of single numbers ---- */

static struct moment damaged;
static struct nvme_state state_before;

/* The sum that fits the state which lies there: whoever makes up a state can make it too. */
static void mend_sum(void)
{
    uint64_t sum = 0xcbf29ce484222325u, word;
    for (size_t at = 0; at < sizeof damaged.saved.state; at += sizeof word) {
        memcpy(&word, (uint8_t *)&damaged.saved.state + at, sizeof word);
        sum = ((sum << 23 | sum >> 41) ^ word) * 0x100000001b3u;
    }
    damaged.saved.sum = sum;
}

/* The bytes are refused, and the device keeps each of its own. */
static int is_refused(void)
{
    memcpy(&state_before, &device.state, sizeof state_before);
    return !nvme_restore(&device, &damaged.saved) && !memcmp(&state_before, &device.state, sizeof state_before);
}

/* Numbers that a device doesn't save which runs, has one event request, and posted 3 completions to queue 1 of which its
 * host read 2. */
#define OF(field) offsetof(struct nvme_state, field), sizeof(((struct nvme_state *)0)->field)
static const struct damage {
    const char *name;
    size_t at, bytes;
    uint64_t number;
} damages[] = {
    {"a vector that isn't there", OF(cqs[1].vector), VECTORS},
    {"the last vector of 16 bits", OF(cqs[1].vector), 0xffff},
    {"a completion ring without slots", OF(cqs[1].slots), 0},
    {"a completion ring of one slot", OF(cqs[1].slots), 1},
    {"a completion ring with too many slots", OF(cqs[1].slots), NVME_MQES + 2},
    {"a submission ring without slots", OF(sqs[1].slots), 0},
    {"a submission ring with too many slots", OF(sqs[1].slots), NVME_MQES + 2},
    {"a submission ring without the slot that is next", OF(sqs[1].slots), 3},
    {"a completion ring that begins within a page", OF(cqs[1].address), 0x200040},
    {"a submission ring that begins within a page", OF(sqs[1].address), 0x100800},
    {"a tail behind the last entry", OF(cqs[1].tail), 4},
    {"a tail before the last entry", OF(cqs[1].tail), 2},
    {"a tail that isn't in the ring", OF(cqs[1].tail), IO_RING},
    {"a head behind the last entry", OF(cqs[1].head), 4},
    {"a head before those that were read", OF(cqs[1].head), 1},
    {"interrupts that are neither on nor off", OF(cqs[1].has_interrupt), 2},
    {"news", OF(cqs[1].has_news), 1},
    {"more event requests than there may be", OF(held_count), NVME_EVENT_REQUESTS + 1},
    {"an event request with no tag", OF(held_count), 2},
    {"a tag of no command", OF(held[0]), 0x12345678},
    {"CAP", OF(registers[CAP_LOW]), 0xffff},
    {"VS", OF(registers[VS]), 0x10400},
    {"CSTS of a controller that isn't ready", OF(registers[CSTS]), 0},
    {"a shutdown that goes on", OF(registers[CSTS]), RDY | SHUTTING_DOWN},
    {"CC of a controller that isn't enabled", OF(registers[CC]), 0x460000},
    {"AQA of other rings", OF(registers[AQA]), 0x1f001f},
    {"ASQ of another ring", OF(registers[ASQ]), 0x30000},
    {"ACQ of another ring", OF(registers[ACQ]), 0x30000},
    {"an admin queue without interrupts", OF(cqs[0].has_interrupt), 0},
    {"an admin queue with another vector", OF(cqs[0].vector), 1},
    {"an admin queue elsewhere", OF(cqs[0].address), 0x30000},
    {"a device that stops", OF(is_stopping), 1},
    {"a pin that is neither", OF(is_asserted), 2},
    {"reserved bits of a feature", OF(features[NVME_CACHE]), 3},
    {"a power state that there isn't", OF(features[NVME_POWER]), 1},
    {"reserved bits of a namespace's feature", OF(recovery[0]), 0x20000},
    {"a vector that is neither coalesced nor not", OF(uncoalesced[VECTORS - 1]), 2},
    {"an event that there isn't, pending", OF(pending), 1u << EVENTS},
    {"an event that there isn't, told", OF(told), 1u << EVENTS},
    {"a namespace that there isn't", OF(changed), 2},
    {"no mark", OF(ctrl.mark), 0},
    {"another mark", OF(ctrl.mark), 1},
    {"another number of slots", OF(ctrl.count), NVME_COMMANDS - 1},
    {"an arbiter of no mechanism", offsetof(struct nvme_state, ctrl) + ARBITER, 4, 3},
};

/* What a device like that saves. */
static void save_a_running_device(struct moment *to)
{
    CHECK(is_begun(&memory_backend, 1, 0, 1));
    for (unsigned k = 0; k < 2; k++)
        put(1, (nvmearb_sqe){.opcode = NVMEARB_OPC_FLUSH, .nsid = 1});
    ring(1);
    CHECK(read_completions(1) == 2);
    put(1, (nvmearb_sqe){.opcode = NVMEARB_OPC_FLUSH, .nsid = 1});
    ring(1);
    nvmearb_ctrl_sq_tail(&device.state.ctrl, 1, 4); /* (a doorbell before the turn: slot 3 is next) */
    CHECK(device.state.cqs[1].tail == 3 && device.state.cqs[1].head == 2 && device.state.held_count == 1);
    CHECK(nvme_save(&device, &to->saved));
}

static void numbers_are_refused(void)
{
    static struct moment whole;
    save_a_running_device(&whole);
    memcpy(&damaged, &whole, sizeof whole);
    mend_sum();
    CHECK(damaged.saved.sum == whole.saved.sum);
    CHECK(is_made_anew() && nvme_restore(&device, &whole.saved) && is_made_anew());
    for (size_t k = 0; k < sizeof damages / sizeof *damages; k++) {
        memcpy(&damaged, &whole, sizeof whole);
        memcpy((uint8_t *)&damaged.saved.state + damages[k].at, &damages[k].number, damages[k].bytes);
        CHECK(is_refused());
        mend_sum();
        if (!is_refused())
            printf("taken: %s\n", damages[k].name);
        CHECK(is_refused());
    }
    memcpy(&damaged, &whole, sizeof whole);
    damaged.saved.state.held_count = 2, damaged.saved.state.held[1] = damaged.saved.state.held[0], mend_sum();
    CHECK(is_refused()); /* one event request twice */
    for (size_t at = 0; at < offsetof(struct nvme_saved, state); at++) {
        memcpy(&damaged, &whole, sizeof whole);
        ((uint8_t *)&damaged.saved)[at] ^= 1u << upto(8);
        CHECK(is_refused());
    }
}

/* ---- A controller that is made up, of numbers that nvmearb_ctrl_verify can't find wrong ---- */

static int may_pick_none(void *context, const nvmearb_pick *next)
{
    (void)context, (void)next;
    return 0;
}

/* A device that runs, in whose I/O queue commands with any opcodes wait, since none may be picked. */
static void save_a_device_that_waits(struct moment *to)
{
    CHECK(is_begun(&memory_backend, 0, 0, 0));
    device.host.may_pick = may_pick_none;
    for (unsigned k = 0; k < NVME_DEPTH; k++) {
        uint8_t opcode = (uint8_t)(k < 128 ? k : NVMEARB_OPC_SET_FEATURES + k % 2);
        opcode = (uint8_t)(k >= 64 && k < 128 ? 128 + opcode : opcode);
        put(1, (nvmearb_sqe){.opcode = opcode, .nsid = k % 3, .prp1 = DATA, .cdw10 = k * 2 % 256, .cdw11 = k});
    }
    ring(1);
    CHECK(nvme_save(&device, &to->saved));
    memcpy(to->queues, queues, sizeof queues);
}

/* Puts a number of so many bytes in place of each that is this one. Returns how many there were. */
static unsigned replace(uint8_t *object, size_t size, uint32_t from, uint32_t to, size_t width)
{
    unsigned n = 0;
    for (size_t at = 0; at + width <= size; at += width)
        if (!memcmp(object + at, &from, width))
            memcpy(object + at, &to, width), n++;
    return n;
}

/* A controller that allows more vectors, and pages of other sizes, than the device has: it fails at such a queue. */
static void other_places_are_seen(const struct moment *whole)
{
    static const struct {
        uint32_t from, to;
        size_t width;
        nvmearb_sqe create;
    } others[] = {
        {VECTORS, 0xffff, 2, {.opcode = NVMEARB_OPC_CREATE_CQ, .prp1 = 0x210000, .cdw11 = VECTORS << 16 | 3}},
        {NVME_PAGE, 64, 4, {.opcode = NVMEARB_OPC_CREATE_CQ, .prp1 = 0x210fc0, .cdw11 = 3}},
        {NVME_PAGE, 64, 4, {.opcode = NVMEARB_OPC_CREATE_SQ, .prp1 = 0x120840, .cdw11 = 1 << 16 | 1}},
    };
    for (size_t k = 0; k < sizeof others / sizeof *others; k++) {
        memcpy(&damaged, whole, sizeof damaged);
        uint8_t *placing = (uint8_t *)&damaged.saved.state.ctrl + BOARD - PLACING;
        CHECK(replace(placing, PLACING, others[k].from, others[k].to, others[k].width) == 1);
        mend_sum();
        CHECK(is_made_anew() && nvme_restore(&device, &damaged.saved) && is_running());
        memcpy(queues, damaged.queues, sizeof queues);
        nvmearb_sqe create = others[k].create;
        create.cdw10 = 15 << 16 | 2; /* of queue 2, with 16 slots */
        put(0, create), ring(0);
        CHECK(nvme_read(&device, AT_CSTS, 4) == (RDY | CFS));
    }
}

/* Commands that wait in an I/O queue, as if they were of the admin queue: most of them aren't the device's. */
static void other_commands_are_refused(const struct moment *whole)
{
    unsigned n = 0;
    memcpy(&damaged, whole, sizeof damaged);
    for (unsigned k = 0; k < NVME_COMMANDS; k++) {
        uint8_t *slot = (uint8_t *)&damaged.saved.state.slots[k];
        n += slot[USED] && replace(slot + sizeof(nvmearb_sqe), NEXT - sizeof(nvmearb_sqe), 1, 0, 4) == 1;
    }
    CHECK(n == NVME_DEPTH);
    mend_sum();
    CHECK(is_made_anew() && nvme_restore(&device, &damaged.saved));
    memcpy(queues, damaged.queues, sizeof queues);
    nvme_turn(&device);
    CHECK(read_completions(1) >= NVME_DEPTH - NVME_EVENT_REQUESTS && is_running());
}

static void made_up_controllers_do_no_harm(void)
{
    static struct moment whole;
    save_a_device_that_waits(&whole);
    other_places_are_seen(&whole);
    other_commands_are_refused(&whole);
    CHECK(crossings == 0 && wild_messages == 0 && outside == 0);
}

/* ---- Damage of anything ---- */

/* Another number of one, two, four or eight bytes, which mostly is about a limit. */
static void overwrite(uint8_t *object, size_t size)
{
    static const uint64_t limits[] = {0,    1,          2,          3,          4,          5,    63,    64,    65,
                                      127,  128,        255,        256,        257,        1023, 1024,  4095,  4096,
                                      4097, 32767,      32768,      65535,      65536,      65537, 0x100000,
                                      INT32_MAX, 0x80000000, UINT32_MAX, UINT64_MAX, UINT64_MAX - 4095};
    size_t width = (size_t)1 << upto(4), place = width * upto((uint32_t)(size / width));
    uint64_t number = upto(4) ? limits[upto(sizeof limits / sizeof *limits)] : drawn(&seed);
    memcpy(object + place, &number, width);
}

/* A slot of which something is used, if there is one, from any on. */
static uint8_t *draw_slot(struct nvme_state *s)
{
    unsigned from = upto(NVME_COMMANDS), n = 0;
    while (n < NVME_COMMANDS && !((uint8_t *)&s->slots[(from + n) % NVME_COMMANDS])[USED])
        n++;
    return (uint8_t *)&s->slots[(from + n) % NVME_COMMANDS];
}

/*
 * Damages a state in one to three places, and sometimes in many: the controller, above all where queues may lie, slots,
 * in front of their numbers a command, and what the device itself keeps, above all the rings.
 */
static void damage(struct nvme_state *s)
{
    size_t own = offsetof(struct nvme_state, sqs), command = sizeof(nvmearb_sqe);
    for (unsigned n = upto(10) ? 1 + upto(3) : upto(100); n; n--)
        switch (upto(8)) {
        case 0:
            overwrite((uint8_t *)&s->ctrl + BOARD - PLACING, PLACING);
            break;
        case 1:
            overwrite((uint8_t *)&s->ctrl, sizeof s->ctrl);
            break;
        case 2:
            overwrite(draw_slot(s), command);
            break;
        case 3:
            overwrite(draw_slot(s) + command, sizeof *s->slots - command);
            break;
        case 4:
            overwrite((uint8_t *)(upto(2) ? s->sqs : s->cqs), PAIRS * sizeof *s->sqs);
            break;
        default:
            overwrite((uint8_t *)s + own, sizeof *s - own);
        }
}

/* An entry for the admin queue: a Create, sometimes of another vector and at another address, or any. */
static nvmearb_sqe draw_create(void)
{
    unsigned qid = upto(PAIRS);
    nvmearb_sqe it = create_of(upto(2) ? NVMEARB_OPC_CREATE_CQ : NVMEARB_OPC_CREATE_SQ, qid);
    it.cdw11 ^= upto(4) ? 0 : upto(0x10000) << 16;
    it.prp1 ^= upto(4) ? 0 : 64 * upto(64);
    return upto(2) ? it : draw_admin();
}

/* What a host may do to a device of which it knows nothing. */
static void drive(void)
{
    for (unsigned k = 0; k < 12; k++) {
        unsigned qid = upto(PAIRS), any = upto(140);
        nvmearb_sqe entry = qid ? draw_io() : draw_create();
        entry.cid = (uint16_t)upto(64);
        for (unsigned slot = 0; slot < queues[qid].slots; slot++)
            nvmearb_sqe_encode(&entry, memory + queues[qid].sq + (size_t)NVMEARB_SQE_BYTES * slot);
        nvme_write(&device, AT_DOORBELLS + 8 * qid, upto(queues[qid].slots), 4);
        nvme_write(&device, AT_DOORBELLS + 4 + 8 * qid, upto(queues[qid].slots), 4);
        nvme_write(&device, AT_DOORBELLS + 4 * any, upto(3) ? upto(66) : (uint32_t)drawn(&seed), 4);
        for (unsigned n = upto(4); n && count; n--)
            end_one();
        nvme_turn(&device);
    }
}

/* Whether a device that was taken does no harm, and is as new after a reset. */
static int is_harmless(void)
{
    memcpy(queues, damaged.queues, sizeof queues);
    nvme_turn(&device);
    drive();
    settle(NULL), nvme_turn(&device);
    nvme_reset(&device);
    return crossings == 0 && wild_messages == 0 && outside == 0 && nvme_read(&device, AT_CC, 4) == 0 &&
           nvme_read(&device, AT_CSTS, 4) == 0 && device.state.ctrl.mark == 0;
}

static void states_are_refused_or_harmless(unsigned most)
{
    unsigned not_mended = 0, refused = 0, taken = 0, wrong = 0;
    CHECK(is_made_anew());
    for (unsigned k = 0; k < most && !wrong; k++) {
        alarm(SECONDS);
        memcpy(&damaged, &moments[upto(SAVED)], sizeof damaged);
        memcpy(&state_before, &damaged.saved.state, sizeof state_before);
        damage(&damaged.saved.state);
        int is_changed = memcmp(&state_before, &damaged.saved.state, sizeof state_before) != 0;
        not_mended += is_changed;
        wrong += is_changed && !is_refused();
        mend_sum();
        if (is_refused()) {
            refused++;
            continue;
        }
        taken++;
        wrong += !is_harmless();
        if (taken % 64 == 0)
            wrong += !is_begun(&memory_backend, 1, 0, 1) || !is_made_anew();
    }
    alarm(0);
    printf("%u damaged states, refused; with a sum that fits %u refused, %u harmless\n", not_mended, refused, taken);
    CHECK(wrong == 0 && refused > most / 10 && taken > most / 10);
}

/* Nothing is saved, and nothing restored, while a request is in flight. */
static void requests_are_waited_for(void)
{
    static struct moment whole;
    save_a_running_device(&whole);
    memcpy(&damaged, &whole, sizeof whole);
    CHECK(is_begun(&late, 0, 0, 0));
    put(1, (nvmearb_sqe){.opcode = NVMEARB_OPC_FLUSH, .nsid = 1}), ring(1);
    CHECK(count == 1 && is_refused() && !nvme_save(&device, &whole.saved));
    CHECK(!memcmp(&damaged, &whole, sizeof whole));
    settle(NULL);
    CHECK(nvme_save(&device, &whole.saved) && nvme_restore(&device, &damaged.saved));
}

int main(int count_of_words, char **words)
{
    unsigned most = count_of_words > 1 ? (unsigned)strtoul(words[1], NULL, 0) : 3000;
    seed = count_of_words > 2 ? strtoull(words[2], NULL, 0) : 67;
    states_are_taken_over();
    numbers_are_refused();
    made_up_controllers_do_no_harm();
    requests_are_waited_for();
    states_are_refused_or_harmless(most);
    return told();
}
