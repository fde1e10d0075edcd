/*
 * The admin commands of the device of nvme.h: Set and Get Features, Abort, Asynchronous Event Request, as the NVM
 * Express Base Specification 2.0 has them. To be written anew where a device has other features or events: each feature
 * has a row in `features` below.
 */
#include "parts.h"

#include <string.h>

/* Status codes of the command specific type. */
enum { EVENT_LIMIT_EXCEEDED = 0x05, NOT_NAMESPACE_SPECIFIC = 0x0f };
enum { OVER = 343 }; /* the threshold for too high a temperature, in kelvins: WCTEMP */

/* The device's features: which bits of Command Dword 11 there are, and which of them must be 0. */
static const struct feature {
    uint8_t fid, scope;
    uint32_t bits, zero;
} features[] = {
    {NVME_POWER, NVME_OF_CONTROLLER, 0xff, 0x1f}, /* one power state; workload hints */
    {NVME_TEMPERATURE, NVME_OF_CONTROLLER, 0xffff, 0},
    {NVME_RECOVERY, NVME_OF_NAMESPACE, 0x1ffff, 0x10000}, /* no DULBE */
    {NVME_CACHE, NVME_OF_CONTROLLER, 1, 0},
    {NVME_COALESCING, NVME_OF_CONTROLLER, 0xffff, 0},
    {NVME_VECTOR, NVME_OF_CONTROLLER, 0x1ffff, 0},
    {NVME_ATOMICITY, NVME_OF_CONTROLLER, 1, 0},
    {NVME_EVENTS, NVME_OF_CONTROLLER, 0x11f, 0}, /* health, and changed namespaces */
};
enum { FEATURES = sizeof features / sizeof features[0] };

static nvmearb_status generic(uint8_t sc)
{
    return (nvmearb_status){NVMEARB_SCT_GENERIC, sc};
}

static nvmearb_status specific(uint8_t sc)
{
    return (nvmearb_status){NVMEARB_SCT_COMMAND_SPECIFIC, sc};
}

/* ---- Features ---- */

/* The value of a feature after a reset. */
static uint32_t default_of(uint32_t fid, uint32_t cdw11)
{
    switch (fid) {
    case NVMEARB_FID_ARBITRATION:
        return NVME_ARBITRATION;
    case NVMEARB_FID_NUMBER_OF_QUEUES:
        return (NVME_QUEUES - 1) * 0x10001u;
    case NVME_TEMPERATURE: /* THSEL: over, or under */
        return cdw11 >> 20 & 3 ? 0 : OVER;
    case NVME_VECTOR:
        return cdw11 & 0xffff;
    default:
        return fid == NVME_CACHE;
    }
}

void nvme_reset_features(struct nvme *d)
{
    for (uint32_t fid = 0; fid < 32; fid++)
        d->state.features[fid] = default_of(fid, 0);
    d->state.features[0] = 0; /* the threshold for too low a temperature */
    memset(d->state.recovery, 0, sizeof d->state.recovery);
    memset(d->state.uncoalesced, 0, sizeof d->state.uncoalesced);
}

/* Whether a temperature threshold is named that there is: of the composite temperature, or in a Set of all sensors. */
static int is_threshold(uint32_t cdw11, int sets)
{
    uint32_t sensor = cdw11 >> 16 & 0xf;
    return (cdw11 >> 20 & 3) <= 1 && (sensor == 0 || (sets && sensor == 0xf));
}

/* The status of a command that names a namespace for a feature of namespaces, or names none for another. */
static nvmearb_status check_nsid(const struct nvme *d, const struct feature *it, uint32_t nsid, int sets)
{
    int is_there = nsid - 1 < d->count && d->namespaces[nsid - 1].blocks;
    if (it->scope == NVME_OF_NAMESPACE && !is_there && !(sets && nsid == UINT32_MAX))
        return generic(NVMEARB_SC_INVALID_NAMESPACE);
    if (it->scope == NVME_OF_CONTROLLER && sets && nsid != 0 && nsid != UINT32_MAX)
        return is_there ? specific(NOT_NAMESPACE_SPECIFIC) : generic(NVMEARB_SC_INVALID_NAMESPACE);
    return nvme_success;
}

static nvmearb_status get_feature(const struct nvme *d, const nvmearb_sqe *entry, uint32_t *dw0)
{
    uint32_t fid = entry->cdw10 & 0xff, sel = entry->cdw10 >> 8 & 7, cdw11 = entry->cdw11;
    if (sel > 3 || (fid == NVME_TEMPERATURE && !is_threshold(cdw11, 0)) ||
        (fid == NVME_VECTOR && (cdw11 & 0xffff) >= d->vectors))
        return nvme_invalid_field;
    if (sel == 3)
        *dw0 = fid == NVME_RECOVERY ? 6 : 4; /* changeable, and of a namespace */
    else if (sel != 0)
        *dw0 = default_of(fid, cdw11);
    else if (fid == NVME_RECOVERY)
        *dw0 = d->state.recovery[entry->nsid - 1];
    else if (fid == NVME_VECTOR)
        *dw0 = (cdw11 & 0xffff) | (uint32_t)d->state.uncoalesced[cdw11 & 0xffff] << 16;
    else
        *dw0 = d->state.features[fid == NVME_TEMPERATURE && cdw11 >> 20 & 1 ? 0 : fid];
    return nvme_success;
}

static nvmearb_status set_feature(struct nvme *d, const nvmearb_sqe *entry, const struct feature *it)
{
    uint32_t cdw11 = entry->cdw11, fid = it->fid;
    if (entry->cdw10 >> 31)
        return specific(NVMEARB_SC_FEATURE_NOT_SAVEABLE);
    if (cdw11 & it->zero || (fid == NVME_TEMPERATURE && !is_threshold(cdw11, 1)) ||
        (fid == NVME_VECTOR && (cdw11 & 0xffff) >= d->vectors))
        return nvme_invalid_field;
    if (fid == NVME_RECOVERY)
        for (uint32_t k = 0; k < d->count; k++)
            d->state.recovery[k] =
                entry->nsid == UINT32_MAX || entry->nsid == k + 1 ? cdw11 & it->bits : d->state.recovery[k];
    else if (fid == NVME_VECTOR)
        d->state.uncoalesced[cdw11 & 0xffff] = cdw11 >> 16 & 1;
    else
        d->state.features[fid == NVME_TEMPERATURE && cdw11 >> 20 & 1 ? 0 : fid] = cdw11 & it->bits;
    return nvme_success;
}

static const struct feature *feature_of(uint32_t fid)
{
    for (int k = 0; k < FEATURES; k++)
        if (features[k].fid == fid)
            return &features[k];
    return NULL;
}

int nvme_are_features(const struct nvme_state *s)
{
    for (int k = 0; k < FEATURES; k++) {
        const struct feature *it = &features[k];
        if (it->scope == NVME_OF_CONTROLLER && s->features[it->fid] & (~it->bits | it->zero))
            return 0;
        for (int nsid = 1; it->scope == NVME_OF_NAMESPACE && nsid <= NVME_NAMESPACES; nsid++)
            if (s->recovery[nsid - 1] & (~it->bits | it->zero))
                return 0;
    }
    for (int vector = 0; vector <= NVME_QUEUES; vector++)
        if (s->uncoalesced[vector] > 1)
            return 0;
    return 1;
}

int nvme_feature_scope(uint32_t fid)
{
    const struct feature *it = feature_of(fid);
    if (fid == NVMEARB_FID_ARBITRATION || fid == NVMEARB_FID_NUMBER_OF_QUEUES)
        return NVME_OF_CONTROLLER;
    return it ? it->scope : 0;
}

/* Of the controller's own features, Get alone comes here, for other values than the current one. */
static nvmearb_status feature(struct nvme *d, const nvmearb_sqe *entry, uint32_t *dw0)
{
    const struct feature *it = feature_of(entry->cdw10 & 0xff);
    int sets = entry->opcode == NVMEARB_OPC_SET_FEATURES;
    if (!it && (sets || !nvme_feature_scope(entry->cdw10 & 0xff)))
        return nvme_invalid_field;
    nvmearb_status status = it ? check_nsid(d, it, entry->nsid, sets) : nvme_success;
    if (nvme_is_error(status))
        return status;
    return sets ? set_feature(d, entry, it) : get_feature(d, entry, dw0);
}

/* ---- Asynchronous events ---- */

static void hold(struct nvme *d, uint32_t tag)
{
    if (d->state.held_count == sizeof d->state.held / sizeof d->state.held[0])
        nvme_complete(d, tag, specific(EVENT_LIMIT_EXCEEDED), 0);
    else
        d->state.held[d->state.held_count++] = tag;
}

static void release(struct nvme *d, unsigned k)
{
    memmove(d->state.held + k, d->state.held + k + 1, (--d->state.held_count - k) * sizeof d->state.held[0]);
}

/*
 * Answers the oldest request with a pending event. After that none of its type is told until the host has read the log:
 * there are two types, errors and a notice.
 */
void nvme_tell_event(struct nvme *d)
{
    static const uint32_t dw0[EVENTS] = {0x10000, 0x10100, 0x40002}; /* the log page, the event, and its type */
    uint32_t errors = 1 << INVALID_REGISTER | 1 << INVALID_VALUE;
    for (uint32_t k = 0; k < EVENTS && d->state.held_count; k++) {
        uint32_t type = errors >> k & 1 ? errors : 1u << NAMESPACE_CHANGED;
        if (!(d->state.pending >> k & 1) || d->state.told & type)
            continue;
        nvme_complete(d, d->state.held[0], nvme_success, dw0[k]);
        release(d, 0);
        d->state.pending &= ~(1u << k);
        d->state.told |= 1u << k;
    }
}

void nvme_note_error(struct nvme *d, uint16_t qid, int event)
{
    uint64_t count = d->state.errors[0].count;
    memmove(d->state.errors + 1, d->state.errors, sizeof d->state.errors - sizeof d->state.errors[0]);
    d->state.errors[0].count = count + 1;
    d->state.errors[0].qid = qid;
    d->state.pending |= 1u << event;
}

void nvme_resize(struct nvme *d, uint32_t nsid, uint64_t blocks)
{
    d->namespaces[nsid - 1].blocks = blocks;
    d->state.changed |= 1u << (nsid - 1);
    if (d->state.features[NVME_EVENTS] >> 8 & 1)
        d->state.pending |= 1u << NAMESPACE_CHANGED;
}

/* ---- Commands ---- */

/*
 * An Abort of a command that doesn't wait: an event request, or a command that is at its backend. Returns Command Dword
 * 0: 0 where it ended.
 */
static uint32_t abort_command(struct nvme *d, const nvmearb_sqe *entry)
{
    nvmearb_status requested = {NVMEARB_SCT_GENERIC, NVMEARB_SC_ABORT_REQUESTED};
    uint16_t sqid = entry->cdw10 & 0xffff, cid = entry->cdw10 >> 16, k = 0;
    uint32_t tag;
    if (nvmearb_ctrl_named(&d->state.ctrl, d->state.slots, NVME_COMMANDS, sqid, cid, &tag) != NVMEARB_OK)
        return 1;
    while (k < d->state.held_count && d->state.held[k] != tag)
        k++;
    if (k < d->state.held_count)
        release(d, k);
    else if (!nvme_abort(d, tag))
        return 1;
    nvmearb_ctrl_complete(&d->state.ctrl, d->state.slots, NVME_COMMANDS, tag, &requested, 0);
    return 0;
}

/* What isn't the device's doesn't come here, but of a controller that something else wrote into. */
void nvme_admin(struct nvme *d, const nvmearb_command *command)
{
    const nvmearb_sqe *entry = &command->entry;
    nvmearb_status status = nvme_success;
    uint32_t dw0 = 0;
    switch (entry->opcode) {
    case NVME_EVENT_REQUEST:
        hold(d, command->tag);
        return;
    case NVME_GET_LOG_PAGE:
        status = nvme_get_log_page(d, entry);
        break;
    case NVME_IDENTIFY:
        status = nvme_identify(d, entry);
        break;
    case NVMEARB_OPC_ABORT:
        dw0 = abort_command(d, entry);
        break;
    case NVMEARB_OPC_SET_FEATURES:
    case NVMEARB_OPC_GET_FEATURES:
        status = feature(d, entry, &dw0);
        break;
    default:
        status = generic(NVMEARB_SC_INVALID_OPCODE);
        if (entry->opcode == NVME_VENDOR && d->host.vendor)
            status = d->host.vendor(d->host.context, entry, &dw0);
    }
    nvme_complete(d, command->tag, status, dw0);
}

void nvme_own(struct nvme *d)
{
    static const uint8_t opcodes[] = {NVME_GET_LOG_PAGE, NVME_IDENTIFY, NVME_EVENT_REQUEST, NVMEARB_OPC_ABORT};
    for (size_t k = 0; k < sizeof opcodes; k++)
        nvmearb_ctrl_own_opcode(&d->state.ctrl, opcodes[k]);
    if (d->host.vendor)
        nvmearb_ctrl_own_opcode(&d->state.ctrl, NVME_VENDOR);
    for (int k = 0; k < FEATURES; k++)
        nvmearb_ctrl_own_feature(&d->state.ctrl, features[k].fid);
    /* of the controller's own, values that aren't the current ones */
    nvmearb_ctrl_own_feature(&d->state.ctrl, NVMEARB_FID_ARBITRATION);
    nvmearb_ctrl_own_feature(&d->state.ctrl, NVMEARB_FID_NUMBER_OF_QUEUES);
}
