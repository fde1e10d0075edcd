/*
 * The registers of the device of nvme.h: BAR 0 of a PCI function. To be written anew for another transport, or where a
 * device has registers of its own: a Controller Memory Buffer, say, or shadow doorbells.
 */
#include "parts.h"

#include <string.h>

enum { DOORBELLS = 0x1000, TIMEOUT = 20 }; /* in units of 500 ms */
enum { IOSQES = 6, IOCQES = 4 };           /* the sizes of I/O entries, as powers of 2: those of SQES and CQES in Identify */

/* Whether CC is as CAP and Identify allow: CSS and MPS are 0, AMS is 0 or 1, and sizes of entries right or not chosen. */
static int is_supported(uint32_t cc)
{
    uint32_t iosqes = cc >> 16 & 0xf, iocqes = cc >> 20 & 0xf;
    return !(cc & 0x7f0) && (cc >> 11 & 7) <= 1 && (iosqes == 0 || iosqes == IOSQES) && (iocqes == 0 || iocqes == IOCQES);
}

/*
 * A host may choose the sizes of I/O entries once the controller is enabled, but before it creates I/O queues. Until then
 * a Create ends with 1/02, Invalid Queue Size: the controller, which doesn't know CC, is handed a QSIZE that no ring has.
 */
void nvme_see(const struct nvme *d, uint8_t entry[NVMEARB_SQE_BYTES])
{
    uint32_t cc = d->state.registers[CC];
    int is_sq = entry[0] == NVMEARB_OPC_CREATE_SQ, is_cq = entry[0] == NVMEARB_OPC_CREATE_CQ;
    if ((is_sq && (cc >> 16 & 0xf) != IOSQES) || (is_cq && (cc >> 20 & 0xf) != IOCQES))
        entry[42] = entry[43] = 0xff; /* bits 31:16 of Command Dword 10 */
}

/* CC.EN becomes 1. CSTS says failed (CFS) unless all is supported. */
static void enable(struct nvme *d)
{
    struct nvme_state *s = &d->state;
    const uint32_t *r = s->registers;
    nvmearb_region asq = {(uint64_t)r[ASQ_HIGH] << 32 | r[ASQ], (uint16_t)((r[AQA] & 0xfff) + 1)};
    nvmearb_region acq = {(uint64_t)r[ACQ_HIGH] << 32 | r[ACQ], (uint16_t)((r[AQA] >> 16 & 0xfff) + 1)};
    uint32_t ams = r[CC] >> 11 & 7, mechanism = d->is_weighted || ams ? NVMEARB_WEIGHTED : NVMEARB_ROUND_ROBIN;
    nvmearb_config config = {asq, acq, mechanism, NVME_ARBITRATION, NVME_QUEUES, NVME_QUEUES, NVME_DEPTH, NVME_DEPTH};
    nvmearb_placement placement = {NVME_PAGE, NVME_MQES, d->vectors};
    s->sqs[0] = (struct nvme_ring){.address = asq.address, .slots = asq.slots};
    s->cqs[0] = (struct nvme_ring){.address = acq.address, .slots = acq.slots, .has_interrupt = 1};
    s->counts.resets++;
    s->registers[CSTS] = CFS;
    if (!is_supported(r[CC]) ||
        nvmearb_ctrl_init_anywhere(&s->ctrl, s->slots, NVME_COMMANDS, &config, &placement) != NVMEARB_OK)
        return;
    nvme_own(d);
    if (d->host.enabled)
        d->host.enabled(d->host.context, &config);
    if (d->log)
        log_start(d->log, asq.slots, acq.slots);
    s->registers[CSTS] = RDY;
}

/* No queue is there any more. Errors, counts and what was changed stay. */
static void forget(struct nvme *d)
{
    struct nvme_state *s = &d->state;
    memset(&s->ctrl, 0, sizeof s->ctrl); /* the library refuses every call on zeros */
    memset(s->sqs, 0, sizeof s->sqs);
    memset(s->cqs, 0, sizeof s->cqs);
    memset(s->held_queues, 0, sizeof s->held_queues);
    s->masked = 0;
    s->held_count = 0;
    s->pending = s->told = 0;
    d->log = NULL; /* a log has one start */
    nvme_reset_features(d);
}

/* CC.EN becomes 0. CSTS.RDY follows in nvme_stop. */
static void disable(struct nvme *d)
{
    forget(d);
    nvme_drop(d);
    d->state.is_stopping = 1;
}

void nvme_stop(struct nvme *d)
{
    if (!d->state.is_stopping || !nvme_is_quiet(d))
        return;
    d->state.is_stopping = 0;
    d->state.registers[CSTS] = 0;
    if (d->state.registers[CC] & 1) /* the host didn't wait */
        enable(d);
}

static void write_cc(struct nvme *d, uint32_t value)
{
    uint32_t was = d->state.registers[CC];
    d->state.registers[CC] = value;
    if (value & ~was & 1 && !d->state.is_stopping)
        enable(d);
    if (~value & was & 1)
        disable(d);
    if (value >> 14 & 3 && !(was >> 14 & 3)) /* SHN */
        nvme_shut_down(d);
}

/* The doorbells of a queue are one after the other, that of its submission queue first. */
static void ring_doorbell(struct nvme *d, uint64_t index, uint32_t value)
{
    nvmearb_ctrl *ctrl = &d->state.ctrl;
    uint16_t qid = (uint16_t)(index / 2), to = (uint16_t)value;
    uint32_t told = index % 2 ? nvmearb_ctrl_cq_head(ctrl, qid, to) : nvmearb_ctrl_sq_tail(ctrl, qid, to);
    if (d->log)
        (index % 2 ? log_head : log_tail)(d->log, qid, to);
    if (told == NVMEARB_OK && index % 2)
        d->state.cqs[qid].head = to;
    if (told == NVMEARB_NONE || told == NVMEARB_EARG)
        nvme_note_error(d, qid, told == NVMEARB_NONE ? INVALID_REGISTER : INVALID_VALUE);
}

static void write_register(struct nvme *d, uint64_t offset, uint32_t value)
{
    uint32_t *r = d->state.registers;
    switch (offset / 4) {
    case INTMS:
        d->state.masked |= value;
        break;
    case INTMC:
        d->state.masked &= ~value;
        break;
    case CC:
        write_cc(d, value);
        break;
    case AQA: /* to ACQ */
    case ASQ:
    case ASQ_HIGH:
    case ACQ:
    case ACQ_HIGH:
        if (!(r[CC] & 1))
            r[offset / 4] = offset / 4 == ASQ || offset / 4 == ACQ ? value & ~(NVME_PAGE - 1) : value;
        break;
    default:
        if (offset >= DOORBELLS)
            ring_doorbell(d, (offset - DOORBELLS) / 4, value);
    }
}

void nvme_write(struct nvme *d, uint64_t offset, uint64_t value, unsigned size)
{
    if (offset % 4 || (size != 4 && size != 8) || offset >= NVME_BAR_BYTES)
        return;
    write_register(d, offset, (uint32_t)value);
    if (size == 8)
        write_register(d, offset + 4, (uint32_t)(value >> 32));
    if (d->host.later)
        d->host.later(d->host.context);
    else
        nvme_turn(d);
}

uint64_t nvme_read(struct nvme *d, uint64_t offset, unsigned size)
{
    uint32_t *r = d->state.registers;
    uint64_t value = 0;
    r[INTMS] = r[INTMC] = d->state.masked;
    if (size <= 8 && offset <= sizeof d->state.registers - size)
        memcpy(&value, (const uint8_t *)r + offset, size);
    return value;
}

/* The registers after a reset. */
static void make_registers(uint32_t r[NVME_REGISTERS])
{
    memset(r, 0, NVME_REGISTERS * sizeof *r);
    /* CAP: 4096 slots, contiguous queues, weighted round robin, the NVM command set, ready with media (CRMS). */
    r[CAP_LOW] = NVME_MQES | 1u << 16 | 1u << 17 | (uint32_t)TIMEOUT << 24;
    r[CAP_HIGH] = 1u << 5 | 1u << 27;
    r[VS] = 0x20000;
    r[CRTO] = TIMEOUT;
}

int nvme_init(struct nvme *d)
{
    if (!nvmearb_is_of_this_header() || d->count > NVME_NAMESPACES || d->vectors < 1 || d->vectors > NVME_QUEUES + 1)
        return 0;
    make_registers(d->state.registers);
    d->state.counts.begun = d->host.now(d->host.context);
    forget(d);
    return 1;
}

void nvme_reset(struct nvme *d)
{
    struct nvme_state *s = &d->state;
    s->counts.unsafe_shutdowns += s->registers[CSTS] & RDY && !(s->registers[CSTS] & SHUT_DOWN);
    nvme_drop(d);
    if (d->host.settle)
        d->host.settle(d->host.context);
    if (s->is_asserted)
        d->host.interrupt(d->host.context, 0);
    s->is_asserted = s->is_stopping = 0;
    make_registers(s->registers);
    forget(d);
}

/* Whether the controller is made, enabled and running go together, and the admin queues lie where registers say. */
static int is_enabled_soundly(const struct nvme_state *s)
{
    const uint32_t *r = s->registers;
    const struct nvme_ring *sq = &s->sqs[0], *cq = &s->cqs[0];
    int is_made = s->ctrl.mark != 0, is_ready = r[CSTS] & RDY && !s->is_stopping;
    if (!is_made)
        return !is_ready;
    return is_ready && r[CC] & 1 && sq->address == ((uint64_t)r[ASQ_HIGH] << 32 | r[ASQ]) &&
           cq->address == ((uint64_t)r[ACQ_HIGH] << 32 | r[ACQ]) && sq->slots == (r[AQA] & 0xfff) + 1 &&
           cq->slots == (r[AQA] >> 16 & 0xfff) + 1 && cq->vector == 0 && cq->has_interrupt;
}

int nvme_are_registers(const struct nvme_state *s)
{
    static const uint8_t written[] = {INTMS, INTMC, CC, CSTS, AQA, ASQ, ASQ_HIGH, ACQ, ACQ_HIGH};
    uint32_t first[NVME_REGISTERS];
    make_registers(first);
    for (size_t k = 0; k < sizeof written; k++)
        first[written[k]] = s->registers[written[k]];
    return !memcmp(first, s->registers, sizeof first) && !(first[CSTS] & ~(uint32_t)(RDY | CFS | SHUT_DOWN)) &&
           !((first[ASQ] | first[ACQ]) % NVME_PAGE) && is_enabled_soundly(s);
}
