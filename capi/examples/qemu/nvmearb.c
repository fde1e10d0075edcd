/*
 * SPDX-License-Identifier: MIT
 *
 * The device of ../nvme.h as a PCI device of QEMU's own tree, with MSI-X. ./build puts it into QEMU 7.2, as Debian 12 has
 * it; later versions have other names for some of what it calls.
 *
 *   -drive file=FILE,format=raw,if=none,id=disk -device nvmearb,drive=disk,serial=S[,..]
 *   -object memory-backend-ram,id=disk,size=64M -device nvmearb,memdev=disk,serial=S[,..]
 *
 * drive       a block backend, by QEMU's asynchronous calls; logical_block_size is 512 to 4096
 * memdev      blocks in memory, copied while a command is started
 * serial      1 to 20 characters, of which the other names are made
 * mechanism   as-host (CC.AMS decides, by default) or weighted
 * classes     a letter a queue, from queue 1 on: u, h, m, l, or - for what the host asks for
 * most        the most commands at the drive (32), for the reason that nvme.h gives; 0: no limit
 * vectors     the number of MSI-X vectors (65), or 0: the pin alone
 * trace       a folder for traces of the picks: FOLDER/n from the n-th enabling on
 * log         the same for logs of doorbells, fetches and completions
 */
#include "qemu/osdep.h"
#include "qemu/main-loop.h"
#include "qapi/error.h"
#include "hw/pci/msix.h"
#include "hw/pci/pci.h"
#include "hw/pci/pcie.h"
#include "hw/block/block.h"
#include "hw/qdev-properties.h"
#include "migration/vmstate.h"
#include "qom/object.h"
#include "sysemu/block-backend.h"
#include "sysemu/hostmem.h"
#include "memory.h"
#include "nvme.h"

#define TYPE_NVMEARB "nvmearb"
OBJECT_DECLARE_SIMPLE_TYPE(NvmearbState, NVMEARB)

struct NvmearbState {
    PCIDevice parent_obj;
    MemoryRegion iomem;
    HostMemoryBackend *backend;
    BlockConf conf;
    QEMUBH *bottom;
    char *serial, *mechanism, *classes, *traces, *logs;
    uint32_t most, vectors, enabled;
    FILE *trace, *log;
    struct nvme device;
    struct nvme_saved saved; /* for a migration */
};

/* ---- What the device asks for ---- */

/* QEMU's way to memory: it looks at bus mastering, and marks pages as written, so that their code is translated anew. */
static int nvmearb_copy(void *context, uint64_t address, void *bytes, size_t length, int to_guest)
{
    PCIDevice *pci = context;
    return (to_guest ? pci_dma_write(pci, address, bytes, length)
                     : pci_dma_read(pci, address, bytes, length)) == MEMTX_OK;
}

static void nvmearb_interrupt(void *context, int is_asserted)
{
    if (!msix_enabled(context)) {
        pci_set_irq(context, is_asserted);
    }
}

static void nvmearb_message(void *context, uint16_t vector)
{
    if (msix_enabled(context)) {
        msix_notify(context, vector);
    }
}

static void nvmearb_later(void *context)
{
    qemu_bh_schedule(((NvmearbState *)context)->bottom);
}

static uint64_t nvmearb_now(void *context)
{
    return qemu_clock_get_ns(QEMU_CLOCK_VIRTUAL);
}

/* Begins the file of an enabling in place of that before. It is NULL without a folder, or where it can't be opened. */
static FILE *nvmearb_reopen(FILE *before, const char *folder, uint32_t enabled)
{
    g_autofree char *name = folder ? g_strdup_printf("%s/%u", folder, enabled) : NULL;
    if (before) {
        fclose(before);
    }
    return name ? fopen(name, "we") : NULL;
}

static void nvmearb_enabled(void *context, const nvmearb_config *config)
{
    NvmearbState *s = context;
    s->enabled++;
    s->trace = nvmearb_reopen(s->trace, s->traces, s->enabled);
    s->device.log = s->log = nvmearb_reopen(s->log, s->logs, s->enabled);
    if (s->trace) {
        trace_head(s->trace, config);
    }
}

static void nvmearb_picked(void *context, const struct trace_view *view, const nvmearb_step *step)
{
    NvmearbState *s = context;
    if (s->trace) {
        trace_step(s->trace, view, step);
    }
}

/* ---- The backend over a drive ---- */

typedef struct {
    struct nvme_request *request;
    NvmearbState *s;
    QEMUIOVector bytes;
    BlockAcctCookie account;
} Request;

static void nvmearb_done(void *opaque, int result)
{
    Request *it = opaque;
    BlockAcctStats *stats = blk_get_stats(it->s->conf.blk);
    if (result < 0) {
        block_acct_failed(stats, &it->account);
    } else {
        block_acct_done(stats, &it->account);
    }
    nvme_end(it->request, result < 0 ? -result : 0);
    qemu_bh_schedule(it->s->bottom);
    qemu_iovec_destroy(&it->bytes);
    g_free(it);
}

static void nvmearb_begin(struct nvme_request *r)
{
    static const enum BlockAcctType types[] = {
        [NVME_READ] = BLOCK_ACCT_READ,   [NVME_WRITE] = BLOCK_ACCT_WRITE,   [NVME_FLUSH] = BLOCK_ACCT_FLUSH,
        [NVME_ZERO] = BLOCK_ACCT_WRITE, [NVME_DISCARD] = BLOCK_ACCT_UNMAP,
    };
    NvmearbState *s = r->on->of;
    BlockBackend *blk = s->conf.blk;
    Request *it = g_new0(Request, 1);
    it->request = r;
    it->s = s;
    qemu_iovec_init(&it->bytes, 1);
    block_acct_start(blk_get_stats(blk), &it->account, r->what == NVME_FLUSH ? 0 : r->length, types[r->what]);
    switch (r->what) {
    case NVME_READ:
        qemu_iovec_add(&it->bytes, r->bytes, r->length);
        blk_aio_preadv(blk, r->at, &it->bytes, 0, nvmearb_done, it);
        break;
    case NVME_WRITE:
        qemu_iovec_add(&it->bytes, r->bytes, r->length);
        blk_aio_pwritev(blk, r->at, &it->bytes, 0, nvmearb_done, it);
        break;
    case NVME_FLUSH:
        blk_aio_flush(blk, nvmearb_done, it);
        break;
    case NVME_ZERO:
    case NVME_DISCARD: /* of what is discarded zeros are to be read */
        blk_aio_pwrite_zeroes(blk, r->at, r->length, BDRV_REQ_MAY_UNMAP, nvmearb_done, it);
        break;
    }
}

static const struct nvme_backend nvmearb_drive = { .begin = nvmearb_begin };

static void nvmearb_settle(void *context)
{
    NvmearbState *s = context;
    if (s->conf.blk) {
        blk_drain(s->conf.blk);
    }
}

static void nvmearb_resized(void *opaque)
{
    NvmearbState *s = opaque;
    nvme_resize(&s->device, 1, blk_getlength(s->conf.blk) >> s->device.namespaces[0].shift);
    qemu_bh_schedule(s->bottom);
}

static const BlockDevOps nvmearb_drive_ops = { .resize_cb = nvmearb_resized };

/* ---- What QEMU asks for ---- */

static void nvmearb_turn(void *opaque)
{
    nvme_turn(&((NvmearbState *)opaque)->device);
}

static uint64_t nvmearb_mmio_read(void *opaque, hwaddr address, unsigned size)
{
    return nvme_read(&((NvmearbState *)opaque)->device, address, size);
}

static void nvmearb_mmio_write(void *opaque, hwaddr address, uint64_t value, unsigned size)
{
    nvme_write(&((NvmearbState *)opaque)->device, address, value, size);
}

static const MemoryRegionOps nvmearb_ops = {
    .read = nvmearb_mmio_read,
    .write = nvmearb_mmio_write,
    .endianness = DEVICE_LITTLE_ENDIAN,
    .impl = { .min_access_size = 1, .max_access_size = 8 },
};

/* Takes over the properties. */
static bool nvmearb_choose(NvmearbState *s, Error **errp)
{
    static const char letters[] = "-uhml"; /* at their places: 0, NVMEARB_URGENT .. NVMEARB_LOW */
    struct nvme *d = &s->device;
    if (!s->serial || !*s->serial || strlen(s->serial) > NVME_SERIAL) {
        error_setg(errp, "nvmearb: a serial of 1 to %d characters is needed", NVME_SERIAL);
        return false;
    }
    if (s->mechanism && strcmp(s->mechanism, "as-host") && strcmp(s->mechanism, "weighted")) {
        error_setg(errp, "nvmearb: the mechanism is as-host or weighted");
        return false;
    }
    for (size_t k = 0; s->classes && s->classes[k]; k++) {
        const char *at = strchr(letters, s->classes[k]);
        if (k >= NVME_QUEUES || !at) {
            error_setg(errp, "nvmearb: a class is a letter a queue: u, h, m, l or -");
            return false;
        }
        d->classes[k + 1] = at - letters;
    }
    if (s->most > UINT16_MAX || s->vectors > NVME_QUEUES + 1) {
        error_setg(errp, "nvmearb: most is at most %d, and vectors at most %d", UINT16_MAX, NVME_QUEUES + 1);
        return false;
    }
    d->is_weighted = s->mechanism && !strcmp(s->mechanism, "weighted");
    strcpy(d->serial, s->serial);
    d->most = s->most;
    d->vectors = s->vectors ? s->vectors : 1;
    d->vid = pci_get_word(s->parent_obj.config + PCI_VENDOR_ID);
    d->ssvid = pci_get_word(s->parent_obj.config + PCI_SUBSYSTEM_VENDOR_ID);
    return true;
}

/* Makes the one namespace. */
static bool nvmearb_open(NvmearbState *s, Error **errp)
{
    struct nvme_namespace *it = &s->device.namespaces[0];
    BlockBackend *blk = s->conf.blk;
    if (!blk == !s->backend || (s->backend && host_memory_backend_is_mapped(s->backend))) {
        error_setg(errp, "nvmearb: either drive, or memdev with a memory backend that nothing else uses");
        return false;
    }
    s->device.count = 1;
    if (s->backend) {
        MemoryRegion *memory = host_memory_backend_get_memory(s->backend);
        host_memory_backend_set_mapped(s->backend, true);
        *it = (struct nvme_namespace){ &memory_backend, memory_region_get_ram_ptr(memory),
                                       memory_region_size(memory) >> 9, 9 };
        return true;
    }
    if (!blkconf_blocksizes(&s->conf, errp) ||
        !blkconf_apply_backend_options(&s->conf, !blk_supports_write_perm(blk), true, errp)) {
        return false;
    }
    if (s->conf.logical_block_size > 4096) {
        error_setg(errp, "nvmearb: blocks have 512 to 4096 bytes");
        return false;
    }
    blk_set_dev_ops(blk, &nvmearb_drive_ops, s);
    it->shift = ctz32(s->conf.logical_block_size);
    *it = (struct nvme_namespace){ &nvmearb_drive, s, blk_getlength(blk) >> it->shift, it->shift };
    return true;
}

static bool nvmearb_make_vectors(NvmearbState *s, Error **errp)
{
    if (s->vectors && msix_init_exclusive_bar(&s->parent_obj, s->vectors, 4, errp)) {
        return false;
    }
    for (unsigned k = 0; k < s->vectors; k++) {
        msix_vector_use(&s->parent_obj, k);
    }
    return true;
}

static void nvmearb_realize(PCIDevice *pci, Error **errp)
{
    NvmearbState *s = NVMEARB(pci);
    struct nvme_host host = { .context = s, .copy = nvmearb_copy, .interrupt = nvmearb_interrupt,
                              .message = nvmearb_message, .later = nvmearb_later, .settle = nvmearb_settle,
                              .now = nvmearb_now };
    if (!nvmearb_choose(s, errp) || !nvmearb_open(s, errp)) {
        return;
    }
    pci->config[PCI_INTERRUPT_PIN] = 1;
    pci_config_set_prog_interface(pci->config, 2);
    pcie_endpoint_cap_init(pci, 0x80);
    pcie_cap_flr_init(pci);
    memory_region_init_io(&s->iomem, OBJECT(s), &nvmearb_ops, s, "nvmearb", NVME_BAR_BYTES);
    pci_register_bar(pci, 0, PCI_BASE_ADDRESS_SPACE_MEMORY | PCI_BASE_ADDRESS_MEM_TYPE_64, &s->iomem);
    if (!nvmearb_make_vectors(s, errp)) {
        return;
    }
    s->bottom = qemu_bh_new(nvmearb_turn, s);
    if (s->traces || s->logs) {
        host.enabled = nvmearb_enabled;
        host.picked = s->traces ? nvmearb_picked : NULL;
    }
    s->device.host = host;
    if (!nvme_init(&s->device)) {
        error_setg(errp, "nvmearb: libnvmearb.a isn't the proved one of nvmearb.h");
    }
}

static void nvmearb_exit(PCIDevice *pci)
{
    NvmearbState *s = NVMEARB(pci);
    nvme_reset(&s->device);
    if (s->backend) {
        host_memory_backend_set_mapped(s->backend, false);
    }
    qemu_bh_delete(s->bottom);
    s->trace = nvmearb_reopen(s->trace, NULL, 0);
    s->log = nvmearb_reopen(s->log, NULL, 0);
    if (s->vectors) {
        msix_uninit_exclusive_bar(pci);
    }
}

static void nvmearb_reset(DeviceState *dev)
{
    NvmearbState *s = NVMEARB(dev);
    qemu_bh_cancel(s->bottom);
    nvme_reset(&s->device);
    if (s->trace) {
        fflush(s->trace);
    }
    if (s->log) {
        fflush(s->log);
    }
}

/* Guests reset the function by its PCI Express capability. */
static void nvmearb_write_config(PCIDevice *pci, uint32_t address, uint32_t value, int length)
{
    pci_default_write_config(pci, address, value, length);
    pcie_cap_flr_write_config(pci, address, value, length);
}

static int nvmearb_pre_save(void *opaque)
{
    NvmearbState *s = opaque;
    nvmearb_settle(s);
    return nvme_save(&s->device, &s->saved) ? 0 : -EBUSY;
}

static int nvmearb_post_load(void *opaque, int version)
{
    NvmearbState *s = opaque;
    if (!nvme_restore(&s->device, &s->saved)) {
        return -EINVAL;
    }
    qemu_bh_schedule(s->bottom);
    return 0;
}

static const VMStateDescription nvmearb_vmstate = {
    .name = TYPE_NVMEARB,
    .version_id = 2,
    .minimum_version_id = 2,
    .pre_save = nvmearb_pre_save,
    .post_load = nvmearb_post_load,
    .fields = (VMStateField[]) {
        VMSTATE_PCI_DEVICE(parent_obj, NvmearbState),
        VMSTATE_MSIX(parent_obj, NvmearbState),
        VMSTATE_BUFFER_UNSAFE(saved, NvmearbState, 0, sizeof(struct nvme_saved)),
        VMSTATE_END_OF_LIST()
    }
};

static Property nvmearb_properties[] = {
    DEFINE_BLOCK_PROPERTIES(NvmearbState, conf),
    DEFINE_PROP_LINK("memdev", NvmearbState, backend, TYPE_MEMORY_BACKEND, HostMemoryBackend *),
    DEFINE_PROP_STRING("serial", NvmearbState, serial),
    DEFINE_PROP_STRING("mechanism", NvmearbState, mechanism),
    DEFINE_PROP_STRING("classes", NvmearbState, classes),
    DEFINE_PROP_STRING("trace", NvmearbState, traces),
    DEFINE_PROP_STRING("log", NvmearbState, logs),
    DEFINE_PROP_UINT32("most", NvmearbState, most, 32),
    DEFINE_PROP_UINT32("vectors", NvmearbState, vectors, NVME_QUEUES + 1),
    DEFINE_PROP_END_OF_LIST(),
};

static void nvmearb_class_init(ObjectClass *oc, void *data)
{
    DeviceClass *dc = DEVICE_CLASS(oc);
    PCIDeviceClass *pc = PCI_DEVICE_CLASS(oc);
    pc->realize = nvmearb_realize;
    pc->exit = nvmearb_exit;
    pc->config_write = nvmearb_write_config;
    pc->class_id = PCI_CLASS_STORAGE_EXPRESS;
    pc->vendor_id = 0x1234; /* those of qemu.c */
    pc->device_id = 0x564e;
    dc->reset = nvmearb_reset;
    dc->vmsd = &nvmearb_vmstate;
    dc->hotpluggable = false;
    dc->desc = "NVMe over libnvmearb";
    device_class_set_props(dc, nvmearb_properties);
    set_bit(DEVICE_CATEGORY_STORAGE, dc->categories);
}

static const TypeInfo nvmearb_info = {
    .name = TYPE_NVMEARB,
    .parent = TYPE_PCI_DEVICE,
    .instance_size = sizeof(NvmearbState),
    .class_init = nvmearb_class_init,
    .interfaces = (InterfaceInfo[]) { { INTERFACE_PCIE_DEVICE }, { } },
};

static void nvmearb_register(void)
{
    type_register_static(&nvmearb_info);
}

type_init(nvmearb_register)
