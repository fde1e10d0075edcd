/*
 * The commands of the NVM command set, as requests to a backend: Flush, Write, Read, Compare, Write Zeroes, Dataset
 * Management and Verify. To be written anew for another command set, or for a backend that takes guest memory itself:
 * here data goes through memory of the request, so that guest memory is touched at the beginning and at the end alone.
 */
#include "parts.h"

#include <errno.h>
#include <stdlib.h>
#include <string.h>

#define RANGE_BYTES 16 /* of Dataset Management */
#define COMPARE_FAILURE 0x85

static uint64_t first_of(const nvmearb_sqe *entry)
{
    return (uint64_t)entry->cdw11 << 32 | entry->cdw10;
}

/* ---- Requests in flight ---- */

static struct nvme_request *new_request(struct nvme *d, const nvmearb_command *command, size_t length)
{
    struct nvme_request *r = calloc(1, sizeof *r);
    size_t whole = (length + NVME_PAGE - 1) / NVME_PAGE * NVME_PAGE;
    if (!r || (length && !(r->bytes = aligned_alloc(NVME_PAGE, whole)))) {
        free(r);
        return NULL;
    }
    r->device = d;
    r->length = length;
    r->is_own = !command;
    if (command) {
        r->entry = command->entry;
        r->tag = command->tag;
    }
    r->after = d->requests;
    if (r->after)
        r->after->before = r;
    d->requests = r;
    return r;
}

static void free_request(struct nvme_request *r)
{
    if (r->before)
        r->before->after = r->after;
    else
        r->device->requests = r->after;
    if (r->after)
        r->after->before = r->before;
    free(r->bytes);
    free(r);
}

/* Hands a part of a command to the backend of its namespace. */
static void begin(struct nvme_request *r, struct nvme_namespace *on, enum nvme_what what)
{
    r->on = on;
    r->what = what;
    r->next = NULL;
    r->done = 0;
    r->error = 0;
    r->device->in_flight[on - r->device->namespaces]++;
    on->backend->begin(r);
}

static void has_ended(struct nvme_request *r)
{
    r->device->in_flight[r->on - r->device->namespaces]--;
    r->device->has_ended = 1;
}

/* ---- The ends of commands ---- */

/* What a host is told of a request that failed. */
static nvmearb_status status_of(const struct nvme_request *r, int error)
{
    if (error == ENOMEM)
        return (nvmearb_status){NVMEARB_SCT_GENERIC, NVMEARB_SC_INTERNAL_ERROR};
    return (nvmearb_status){NVMEARB_SCT_MEDIA,
                            r->what == NVME_READ ? NVMEARB_SC_UNRECOVERED_READ_ERROR : NVMEARB_SC_WRITE_FAULT};
}

/* Compares what was read with what the host has. */
static nvmearb_status compare(struct nvme_request *r)
{
    nvmearb_status status = {NVMEARB_SCT_MEDIA, COMPARE_FAILURE};
    uint8_t *bytes = malloc(r->length);
    if (!bytes)
        return (nvmearb_status){NVMEARB_SCT_GENERIC, NVMEARB_SC_INTERNAL_ERROR};
    nvmearb_status moved = nvme_move(r->device, r->pieces, r->count, bytes, 0);
    if (nvme_is_error(moved) || !memcmp(bytes, r->bytes, r->length))
        status = moved;
    free(bytes);
    return status;
}

static nvmearb_status finish(struct nvme_request *r)
{
    struct nvme_counts *counts = &r->device->state.counts;
    uint8_t opcode = r->entry.opcode;
    counts->reads += opcode == NVMEARB_OPC_READ || opcode == NVME_COMPARE;
    counts->writes += opcode == NVMEARB_OPC_WRITE;
    counts->sectors_read += opcode == NVMEARB_OPC_READ || opcode == NVME_COMPARE ? r->length >> 9 : 0;
    counts->sectors_written += opcode == NVMEARB_OPC_WRITE ? r->length >> 9 : 0;
    if (opcode == NVMEARB_OPC_READ)
        return nvme_move(r->device, r->pieces, r->count, r->bytes, 1);
    return opcode == NVME_COMPARE ? compare(r) : nvme_success;
}

/* Begins the next range of a Dataset Management that isn't empty. Returns 0 if there is none. */
static int next_range(struct nvme_request *r)
{
    while (r->step < r->count) {
        uint64_t first;
        uint32_t blocks;
        const uint8_t *range = r->bytes + RANGE_BYTES * r->step++;
        memcpy(&blocks, range + 4, sizeof blocks);
        memcpy(&first, range + 8, sizeof first);
        if (blocks == 0)
            continue;
        r->at = first << r->on->shift;
        r->length = (uint64_t)blocks << r->on->shift;
        begin(r, r->on, NVME_DISCARD);
        return 1;
    }
    return 0;
}

/* Begins the Flush of the next active namespace. */
static int next_flush(struct nvme_request *r)
{
    struct nvme *d = r->device;
    while (r->step < d->count) {
        struct nvme_namespace *on = &d->namespaces[r->step++];
        if (on->blocks) {
            begin(r, on, NVME_FLUSH);
            return 1;
        }
    }
    return 0;
}

/* Begins the next part of a command. Returns 0 if there is none. */
static int next_part(struct nvme_request *r)
{
    if (r->is_own || (r->entry.opcode == NVMEARB_OPC_FLUSH && r->entry.nsid == UINT32_MAX))
        return next_flush(r);
    if (r->entry.opcode == NVME_DATASET_MANAGEMENT)
        return next_range(r);
    if (!r->is_durable)
        return 0;
    r->is_durable = 0;
    begin(r, r->on, NVME_FLUSH);
    return 1;
}

void nvme_end(struct nvme_request *r, int error)
{
    struct nvme *d = r->device;
    has_ended(r);
    if (!r->is_dropped && !error && next_part(r))
        return;
    if (r->is_own && !r->is_dropped)
        d->state.registers[CSTS] = (d->state.registers[CSTS] & ~(uint32_t)SHUTTING_DOWN) | SHUT_DOWN;
    else if (!r->is_dropped) {
        d->state.counts.media_errors += error != 0 && error != ENOMEM;
        nvme_complete(d, r->tag, error ? status_of(r, error) : finish(r), 0);
    }
    free_request(r);
}

/* ---- The beginnings of commands ---- */

/* The status of a command by its fields, but for its PRPs. */
static nvmearb_status check(const struct nvme *d, const nvmearb_sqe *entry)
{
    uint64_t sizes[NVME_NAMESPACES];
    nvmearb_status status;
    for (uint32_t k = 0; k < d->count; k++)
        sizes[k] = d->namespaces[k].blocks;
    nvmearb_check(entry, sizes, d->count, &status);
    if (status.sct != NVMEARB_SCT_GENERIC || status.sc != NVMEARB_SC_INVALID_OPCODE)
        return status;
    nvmearb_sqe whole = *entry; /* Dataset Management has no SLBA: its ranges are looked at one by one */
    switch (entry->opcode) {
    case NVME_DATASET_MANAGEMENT:
        whole.cdw10 = whole.cdw11 = whole.cdw12 = 0;
        nvmearb_range(&whole, sizes, d->count, &status);
        return status;
    case NVME_COMPARE:
    case NVME_WRITE_ZEROES:
    case NVME_VERIFY:
        nvmearb_range(entry, sizes, d->count, &status);
        return status;
    default:
        return status;
    }
}

/* Whether what a command writes must be on the medium before it ends: by FUA, or since the write cache is off. */
static int is_durable(const struct nvme *d, const nvmearb_sqe *entry)
{
    int is_write = entry->opcode == NVMEARB_OPC_WRITE || entry->opcode == NVME_WRITE_ZEROES;
    return entry->cdw12 >> 30 & 1 || (is_write && !(d->state.features[NVME_CACHE] & 1));
}

/* Begins a Write, Read, Compare, Write Zeroes or Verify. */
static nvmearb_status begin_blocks(struct nvme *d, const nvmearb_command *command)
{
    const nvmearb_sqe *entry = &command->entry;
    struct nvme_namespace *on = &d->namespaces[entry->nsid - 1];
    uint64_t length = (uint64_t)((entry->cdw12 & 0xffff) + 1) << on->shift;
    int is_zero = entry->opcode == NVME_WRITE_ZEROES, has_data = !is_zero && entry->opcode != NVME_VERIFY;
    nvmearb_status status = nvme_success;
    if (!is_zero && length > NVME_MOST_BYTES) /* MDTS, and VSL */
        return nvme_invalid_field;
    struct nvme_request *r = new_request(d, command, is_zero ? 0 : length);
    if (!r)
        return (nvmearb_status){NVMEARB_SCT_GENERIC, NVMEARB_SC_INTERNAL_ERROR};
    r->at = first_of(entry) << on->shift;
    r->length = length;
    r->is_durable = (uint8_t)is_durable(d, entry);
    if (has_data)
        status = nvme_find(d, entry, length, r->pieces, &r->count);
    if (!nvme_is_error(status) && entry->opcode == NVMEARB_OPC_WRITE)
        status = nvme_move(d, r->pieces, r->count, r->bytes, 0);
    if (nvme_is_error(status))
        free_request(r);
    else
        begin(r, on, is_zero ? NVME_ZERO : entry->opcode == NVMEARB_OPC_WRITE ? NVME_WRITE : NVME_READ);
    return status;
}

/* Whether each range of a Dataset Management is within its namespace. */
static nvmearb_status check_ranges(const struct nvme_request *r)
{
    for (unsigned k = 0; k < r->count; k++) {
        uint64_t first;
        uint32_t blocks;
        memcpy(&blocks, r->bytes + RANGE_BYTES * k + 4, sizeof blocks);
        memcpy(&first, r->bytes + RANGE_BYTES * k + 8, sizeof first);
        if (blocks > r->on->blocks || first > r->on->blocks - blocks)
            return (nvmearb_status){NVMEARB_SCT_GENERIC, NVMEARB_SC_LBA_OUT_OF_RANGE};
    }
    return nvme_success;
}

/* Begins a Dataset Management. Without Deallocate it says how blocks are used, which nothing here needs. */
static nvmearb_status begin_ranges(struct nvme *d, const nvmearb_command *command)
{
    unsigned count = (command->entry.cdw10 & 0xff) + 1;
    int deallocates = command->entry.cdw11 >> 2 & 1;
    struct nvme_request *r = new_request(d, command, count * RANGE_BYTES);
    if (!r)
        return (nvmearb_status){NVMEARB_SCT_GENERIC, NVMEARB_SC_INTERNAL_ERROR};
    r->on = &d->namespaces[command->entry.nsid - 1];
    r->count = (uint16_t)count;
    nvmearb_status status = nvme_transfer(d, &r->entry, r->bytes, count * RANGE_BYTES, 0);
    if (!nvme_is_error(status))
        status = check_ranges(r);
    if (nvme_is_error(status) || !deallocates || !next_range(r)) {
        free_request(r);
        if (!nvme_is_error(status))
            nvme_complete(d, command->tag, status, 0);
    }
    return status;
}

static nvmearb_status begin_flush(struct nvme *d, const nvmearb_command *command)
{
    struct nvme_request *r = new_request(d, command, 0);
    if (!r)
        return (nvmearb_status){NVMEARB_SCT_GENERIC, NVMEARB_SC_INTERNAL_ERROR};
    if (command->entry.nsid != UINT32_MAX)
        begin(r, &d->namespaces[command->entry.nsid - 1], NVME_FLUSH);
    else if (!next_flush(r)) {
        nvme_complete(d, r->tag, nvme_success, 0);
        free_request(r);
    }
    return nvme_success;
}

void nvme_begin(struct nvme *d, const nvmearb_command *command)
{
    nvmearb_status status = check(d, &command->entry);
    if (!nvme_is_error(status) && command->entry.opcode == NVMEARB_OPC_FLUSH)
        status = begin_flush(d, command);
    else if (!nvme_is_error(status) && command->entry.opcode == NVME_DATASET_MANAGEMENT)
        status = begin_ranges(d, command);
    else if (!nvme_is_error(status))
        status = begin_blocks(d, command);
    if (nvme_is_error(status))
        nvme_complete(d, command->tag, status, 0);
}

void nvme_shut_down(struct nvme *d)
{
    struct nvme_request *r = new_request(d, NULL, 0);
    d->state.registers[CSTS] |= SHUTTING_DOWN;
    if (r && next_flush(r))
        return;
    d->state.registers[CSTS] = (d->state.registers[CSTS] & ~(uint32_t)SHUTTING_DOWN) | SHUT_DOWN;
    if (r)
        free_request(r);
}

/* ---- Commands that are to end early ---- */

/* Nothing of the request was done yet, and nothing will be. */
static int take_back(struct nvme_request *r)
{
    if (!r->on->backend->cancel || !r->on->backend->cancel(r))
        return 0;
    has_ended(r);
    return 1;
}

/*
 * A command that its backend hasn't begun is taken back. Of one that reads, what comes later is dropped. One that
 * writes goes on, since it may still change what the host writes after it.
 */
int nvme_abort(struct nvme *d, uint32_t tag)
{
    struct nvme_request *r = d->requests;
    while (r && (r->is_own || r->is_dropped || r->tag != tag))
        r = r->after;
    if (!r)
        return 0;
    if (take_back(r)) {
        free_request(r);
        return 1;
    }
    r->is_dropped = r->what == NVME_READ;
    return r->is_dropped;
}

void nvme_drop(struct nvme *d)
{
    for (struct nvme_request *r = d->requests, *after; r; r = after) {
        after = r->after;
        r->is_dropped = 1;
        if (take_back(r))
            free_request(r);
    }
}

int nvme_is_quiet(const struct nvme *d)
{
    const struct nvme_request *r = d->requests;
    while (r && r->what == NVME_READ)
        r = r->after;
    return !r;
}
