/*
 * Identify and the log pages of the device of nvme.h, as the NVM Express Base Specification 2.0 and the NVM Command Set
 * Specification 1.0 have them. To be written anew: what a device tells of itself, above all its names.
 */
#include "parts.h"

#include <stdlib.h>
#include <string.h>

#define MODEL "libnvmearb example"
#define FIRMWARE "0.1"
#define NQN "nqn.2026-11.org.example:nvmearb:"
#define INVALID_LOG_PAGE 0x09
enum { TEMPERATURE = 300, WARNING = 343, CRITICAL = 353 }; /* in kelvins */

/* The I/O commands that the device has, and which of them change blocks. */
static const struct {
    uint8_t opcode, changes;
} io_commands[] = {{NVMEARB_OPC_FLUSH, 0}, {NVMEARB_OPC_WRITE, 1},       {NVMEARB_OPC_READ, 0}, {NVME_COMPARE, 0},
                   {NVME_WRITE_ZEROES, 1}, {NVME_DATASET_MANAGEMENT, 1}, {NVME_VERIFY, 0}};
static const uint8_t admin_commands[] = {NVMEARB_OPC_DELETE_SQ, NVMEARB_OPC_CREATE_SQ,    NVME_GET_LOG_PAGE,
                                         NVMEARB_OPC_DELETE_CQ, NVMEARB_OPC_CREATE_CQ,    NVME_IDENTIFY,
                                         NVMEARB_OPC_ABORT,     NVMEARB_OPC_SET_FEATURES, NVMEARB_OPC_GET_FEATURES,
                                         NVME_EVENT_REQUEST};

/* Puts a number of so many bytes, the least significant first. */
static void put(uint8_t *to, uint64_t value, int bytes)
{
    for (int k = 0; k < bytes; k++)
        to[k] = (uint8_t)(value >> 8 * k);
}

/* Puts a text, filled up with spaces. */
static void put_text(uint8_t *to, const char *text, size_t length)
{
    memset(to, ' ', length);
    memcpy(to, text, strlen(text));
}

/* ---- Names ---- */

/* FNV-1a of the serial number. */
static uint64_t sum_of(const struct nvme *d)
{
    uint64_t sum = 0xcbf29ce484222325u;
    for (const char *at = d->serial; *at; at++)
        sum = (sum ^ (uint8_t)*at) * 0x100000001b3u;
    return sum;
}

/* Identifiers of a namespace, under an OUI that is administered locally. A device that is sold has its maker's OUI. */
static const uint8_t oui[] = {0x52, 0x54, 0x00};

static void put_nguid(const struct nvme *d, uint8_t *to, uint32_t nsid)
{
    put(to, sum_of(d), 8);
    memcpy(to + 8, oui, sizeof oui);
    put(to + 11, nsid, 5);
}

static void put_eui64(const struct nvme *d, uint8_t *to, uint32_t nsid)
{
    memcpy(to, oui, sizeof oui);
    put(to + 3, sum_of(d) ^ sum_of(d) >> 32, 4);
    put(to + 7, nsid, 1);
}

/* ---- Identify ---- */

static void identify_controller(const struct nvme *d, uint8_t *page)
{
    put(page, d->vid, 2);
    put(page + 2, d->ssvid, 2);
    put_text(page + 4, d->serial, 20);
    put_text(page + 24, MODEL, 40);
    put_text(page + 64, FIRMWARE, 8);
    page[72] = 3;                                                             /* RAB: a burst of 8 */
    memcpy(page + 73, (const uint8_t[]){oui[2], oui[1], oui[0]}, sizeof oui); /* IEEE */
    page[77] = 8;                                                             /* MDTS: 256 pages */
    put(page + 78, d->cntlid, 2);
    put(page + 80, d->state.registers[VS], 4); /* VER */
    put(page + 92, 0x100, 4);                  /* OAES: changed namespaces */
    page[111] = 1;                             /* CNTRLTYPE: I/O */
    page[258] = 3;                             /* ACL: four Aborts */
    page[259] = 3;                             /* AERL: four requests */
    page[260] = 3;                             /* FRMW: one slot, which is read only */
    page[261] = 0x26; /* LPA: effects, log page offsets, and the pages that tell which pages and features there are */
    page[262] = 3;    /* ELPE: four entries */
    put(page + 266, WARNING, 2); /* WCTEMP and CCTEMP */
    put(page + 268, CRITICAL, 2);
    page[512] = 0x66; /* SQES and CQES: 64 and 16 bytes */
    page[513] = 0x44;
    put(page + 516, d->count, 4);
    put(page + 520, 0x9d, 2); /* ONCS: Compare, Dataset Management, Write Zeroes, Select in Get Features, Verify */
    page[525] = 7;            /* VWC: there is a cache, and a Flush of all namespaces */
    strcpy((char *)page + 768, NQN);
    strcat((char *)page + 768, d->serial);
}

/* NSZE, NCAP, NUSE, DLFEAT, NGUID, EUI64 and LBAF0. */
static void identify_namespace(const struct nvme *d, uint8_t *page, uint32_t nsid)
{
    for (int at = 0; at < 24; at += 8)
        put(page + at, d->namespaces[nsid - 1].blocks, 8);
    page[33] = 9; /* of deallocated blocks zeros are read, and Write Zeroes may deallocate */
    put_nguid(d, page + 104, nsid);
    put_eui64(d, page + 120, nsid);
    page[130] = (uint8_t)d->namespaces[nsid - 1].shift;
}

/* Descriptors: a type, a length and an identifier. */
static void describe_namespace(const struct nvme *d, uint8_t *page, uint32_t nsid)
{
    page[0] = 1;
    page[1] = 8;
    put_eui64(d, page + 4, nsid);
    page[12] = 2;
    page[13] = 16;
    put_nguid(d, page + 16, nsid);
    page[32] = 4; /* the command set: NVM, which is 0 */
    page[33] = 1;
}

/* The active namespaces above this one. */
static void list_namespaces(const struct nvme *d, uint8_t *page, uint32_t nsid)
{
    for (uint32_t k = nsid; k < d->count; k++)
        if (d->namespaces[k].blocks) {
            put(page, k + 1, 4);
            page += 4;
        }
}

nvmearb_status nvme_identify(struct nvme *d, const nvmearb_sqe *entry)
{
    uint8_t page[NVME_PAGE] = {0}, cns = entry->cdw10 & 0xff;
    uint32_t nsid = entry->nsid, has_csi = cns == 5 || cns == 6;
    int is_there = nsid - 1 < d->count, is_active = is_there && d->namespaces[nsid - 1].blocks;
    int wants = cns == 0 || cns == 3 || cns == 5 || cns == 8;
    if (has_csi && entry->cdw11 >> 24) /* another command set than NVM */
        return nvme_invalid_field;
    if (cns == 2 ? nsid >= 0xfffffffe : wants && (cns == 3 ? !is_active : !is_there))
        return (nvmearb_status){NVMEARB_SCT_GENERIC, NVMEARB_SC_INVALID_NAMESPACE};
    if (cns == 0 && is_active)
        identify_namespace(d, page, nsid);
    else if (cns == 1)
        identify_controller(d, page);
    else if (cns == 2)
        list_namespaces(d, page, nsid);
    else if (cns == 3)
        describe_namespace(d, page, nsid);
    else if (cns == 6)
        page[0] = 8; /* VSL: as MDTS */
    else if (cns == 8)
        page[14] = (uint8_t)is_active; /* NSTAT: ready */
    else if (cns != 0 && cns != 5)
        return nvme_invalid_field;
    return nvme_transfer(d, entry, page, sizeof page, 1);
}

/* ---- Log pages ---- */

static void error_log(struct nvme *d, uint8_t *page) /* errors, which are of no command */
{
    for (int k = 0; k < 4 && d->state.errors[k].count; k++) {
        put(page + 64 * k, d->state.errors[k].count, 8);
        put(page + 64 * k + 8, d->state.errors[k].qid, 2);
        put(page + 64 * k + 10, 0xffff0000ffff, 6);
    }
}

static void health(struct nvme *d, uint8_t *page)
{
    const struct nvme_counts *it = &d->state.counts;
    uint64_t hours = (d->host.now(d->host.context) - it->begun) / 3600000000000u;
    int is_over = TEMPERATURE >= d->state.features[NVME_TEMPERATURE], is_under = TEMPERATURE <= d->state.features[0];
    page[0] = (uint8_t)((is_over || is_under) << 1); /* the critical warning of the temperature */
    put(page + 1, TEMPERATURE, 2);
    put(page + 3, 0x0a64, 2);                           /* spare and its threshold in percent */
    put(page + 32, (it->sectors_read + 999) / 1000, 8); /* data units */
    put(page + 48, (it->sectors_written + 999) / 1000, 8);
    put(page + 64, it->reads, 8);
    put(page + 80, it->writes, 8);
    put(page + 112, 1, 8); /* power cycles */
    put(page + 128, hours, 8);
    put(page + 144, it->unsafe_shutdowns, 8);
    put(page + 160, it->media_errors, 8);
    put(page + 176, d->state.errors[0].count, 8);
}

static void firmware(struct nvme *d, uint8_t *page) /* that of slot 1 */
{
    (void)d;
    page[0] = 1;
    put_text(page + 8, FIRMWARE, 8);
}

static void changed(struct nvme *d, uint8_t *page)
{
    for (uint32_t k = 0; k < d->count; k++)
        if (d->state.changed >> k & 1) {
            put(page, k + 1, 4);
            page += 4;
        }
}

static void effects(struct nvme *d, uint8_t *page) /* supported; which scope; which change blocks */
{
    for (size_t k = 0; k < sizeof admin_commands; k++)
        put(page + 4 * admin_commands[k], 1u << 21 | 1, 4);
    if (d->host.vendor)
        put(page + 4 * NVME_VENDOR, 1u << 21 | 1, 4);
    for (size_t k = 0; k < sizeof io_commands / sizeof io_commands[0]; k++)
        put(page + 1024 + 4 * io_commands[k].opcode, 1u << 20 | io_commands[k].changes * 2u | 1, 4);
}

static void features(struct nvme *d, uint8_t *page)
{
    (void)d;
    for (uint32_t fid = 0; fid < 256; fid++) {
        int scope = nvme_feature_scope(fid);
        put(page + 4 * fid, scope ? 1 | 1u << (scope == NVME_OF_NAMESPACE ? 20 : 21) : 0, 4);
    }
}

static void nothing(struct nvme *d, uint8_t *page) /* no command of the Management Interface */
{
    (void)d;
    (void)page;
}

static void supported(struct nvme *d, uint8_t *page);

static const struct {
    uint8_t lid;
    uint16_t bytes;
    void (*put)(struct nvme *d, uint8_t *page);
} logs[] = {{0x00, 1024, supported}, {0x01, 256, error_log}, {0x02, 512, health},    {0x03, 512, firmware},
            {0x04, 4096, changed},   {0x05, 4096, effects},  {0x12, 1024, features}, {0x13, 4096, nothing}};
enum { LOGS = sizeof logs / sizeof logs[0] };

static void supported(struct nvme *d, uint8_t *page)
{
    (void)d;
    for (int k = 0; k < LOGS; k++)
        put(page + 4 * logs[k].lid, 1, 4);
}

/* The host has read a log: its events may be told again. */
static void was_read(struct nvme *d, uint8_t lid)
{
    if (lid == 1)
        d->state.told &= ~(1u << INVALID_REGISTER | 1u << INVALID_VALUE);
    if (lid == 4) {
        d->state.changed = 0;
        d->state.told &= ~(1u << NAMESPACE_CHANGED);
    }
}

/* What follows the end of a log is 0. */
nvmearb_status nvme_get_log_page(struct nvme *d, const nvmearb_sqe *entry)
{
    uint8_t page[NVME_PAGE] = {0}, lid = entry->cdw10 & 0xff, is_retained = entry->cdw10 >> 15 & 1;
    size_t length = ((size_t)(entry->cdw11 & 0xffff) << 16 | entry->cdw10 >> 16) * 4 + 4;
    uint64_t offset = (uint64_t)entry->cdw13 << 32 | entry->cdw12;
    int k = 0;
    while (k < LOGS && logs[k].lid != lid)
        k++;
    if (k == LOGS)
        return (nvmearb_status){NVMEARB_SCT_COMMAND_SPECIFIC, INVALID_LOG_PAGE};
    if (length > NVME_MOST_BYTES || offset % 4 || offset > logs[k].bytes ||
        (lid == 2 && entry->nsid != 0 && entry->nsid != UINT32_MAX)) /* health isn't that of a namespace */
        return nvme_invalid_field;
    uint8_t *bytes = calloc(1, length);
    if (!bytes)
        return (nvmearb_status){NVMEARB_SCT_GENERIC, NVMEARB_SC_INTERNAL_ERROR};
    logs[k].put(d, page);
    memcpy(bytes, page + offset, length < logs[k].bytes - offset ? length : logs[k].bytes - offset);
    nvmearb_status status = nvme_transfer(d, entry, bytes, length, 1);
    free(bytes);
    if (!is_retained && !nvme_is_error(status))
        was_read(d, lid);
    return status;
}
