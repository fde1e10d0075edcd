/*
 * An NVMe device over nvmearb_ctrl, to be copied. What fetches, arbitrates and posts is the library's controller, and
 * what drives it is nvme.c, which an emulator can keep as it is. The other files are what one writes anew:
 *
 *   registers.c   the registers of BAR 0, doorbells, enabling, resets and shutdowns
 *   prp.c         guest memory that PRPs name
 *   admin.c       features, Abort and Asynchronous Event Requests; pages.c: Identify and log pages
 *   io.c          the commands of the NVM command set, as requests to a backend
 *   memory.c      a backend that executes at once, over memory
 *   disk.c        a backend over a file, with many requests at a time: by io_uring (uring.c) or by threads
 *
 * saving.c, which saves the device and restores it, follows what a device adds to `nvme_state`. docs/IN_C.md has a table
 * of what is changed for what.
 *
 * The machine is around it: qemu.c serves the device to QEMU as a process of its own, and qemu/ has it in QEMU's tree.
 *
 * What is in flight has a limit, `most`. A pick hands commands to a backend, which serves what it has in an order of
 * its own. If it may have all, few wait to be picked, and weights are without effect, though each pick is lawful. So
 * no more is picked for a namespace than its backend needs to be busy: a pick takes what there is room for. Where a
 * queue's next command goes to a namespace without room, the queue is held meanwhile, and the others go on.
 */
#ifndef NVME_H
#define NVME_H

#include "log.h"
#include "trace.h"

#include <nvmearb.h>

#define NVME_PAGE 4096u
#define NVME_QUEUES NVMEARB_MAX_IO_QUEUES             /* the most I/O queues of a kind */
#define NVME_DEPTH 256                                /* the most commands of a queue that the controller holds */
#define NVME_COMMANDS ((NVME_QUEUES + 1) * NVME_DEPTH) /* its slots */
#define NVME_EVENT_REQUESTS 4                         /* the most Asynchronous Event Requests that are held */
#define NVME_NAMESPACES 16                            /* the most namespaces */
#define NVME_SERIAL 20                                /* the most characters of a serial number */
#define NVME_MOST_BYTES (256 * NVME_PAGE)             /* the most bytes of one transfer (MDTS) */
#define NVME_PIECES 257                               /* the most pieces of guest memory of one */
#define NVME_BAR_BYTES 0x4000                         /* the size of the registers, doorbells included */
#define NVME_REGISTERS 28                             /* of four bytes each, those before the doorbells */
#define NVME_ARBITRATION 0x07030103u                  /* after a reset: burst 8; weights: high 8, medium 4, low 2 */

struct nvme;
struct nvme_request;

/* What the device needs of the machine around it. */
struct nvme_host {
    void *context; /* handed to each of these */
    /* Copies to or from guest memory, within a page. Returns 0 where it isn't memory, or bus mastering is off. */
    int (*copy)(void *context, uint64_t address, void *bytes, size_t length, int to_guest);
    /*
     * Whether the pin is asserted from now on; and NULL, or sends the message of a vector, which is below `vectors`:
     * entries were posted to a completion queue of it. The function does one of both: messages while MSI-X is enabled
     * in its configuration space, else the pin. Masks and pending bits of MSI-X are the machine's.
     */
    void (*interrupt)(void *context, int is_asserted);
    void (*message)(void *context, uint16_t vector);
    /* NULL, or sees to nvme_turn being called soon, so that who writes a doorbell needn't wait for it. */
    void (*later)(void *context);
    /* Waits until each request that was begun has ended. NULL if no backend leaves any. */
    void (*settle)(void *context);
    /* The time in nanoseconds, from any beginning. */
    uint64_t (*now)(void *context);
    /* NULL, or whether the next pick of I/O commands may be made now, of as many as there is room for. */
    int (*may_pick)(void *context, const nvmearb_pick *next);
    /* Executes an admin command of opcode C0h. NULL: there is none. */
    nvmearb_status (*vendor)(void *context, const nvmearb_sqe *entry, uint32_t *dw0);
    /* NULL, or what the controller was made with when it was enabled; and each pick, for a trace. */
    void (*enabled)(void *context, const nvmearb_config *config);
    void (*picked)(void *context, const struct trace_view *view, const nvmearb_step *step);
};

/* What executes requests on a namespace. */
struct nvme_backend {
    /* Begins a request. nvme_end is called once it ended: now or later, and always on the thread of the device. */
    void (*begin)(struct nvme_request *request);
    /* NULL, or takes a request back that nothing was done of yet. Returns 0 if it can't. nvme_end isn't called then. */
    int (*cancel)(struct nvme_request *request);
};

/* A namespace: `blocks` blocks of 2^shift bytes. Its identifier is its place plus 1. */
struct nvme_namespace {
    const struct nvme_backend *backend;
    void *of;        /* the backend's own: what it needs to find the blocks */
    uint64_t blocks; /* 0: it isn't active */
    unsigned shift;  /* 9 to 12 */
};

/* What a backend is asked for. Of zeroed and discarded bytes zeros are read. */
enum nvme_what { NVME_READ, NVME_WRITE, NVME_FLUSH, NVME_ZERO, NVME_DISCARD };

/* Bytes of guest memory, which don't cross a page. */
struct nvme_piece {
    uint64_t address;
    uint32_t length;
};

/* A request to a backend: a part of a command, or all of it. */
struct nvme_request {
    struct nvme *device;
    struct nvme_namespace *on;
    enum nvme_what what;
    uint64_t at, length; /* the bytes of the namespace. Read, Write: at most NVME_MOST_BYTES */
    uint8_t *bytes;      /* Read, Write: the data. These belong to the request, so guest memory isn't touched */
    /* The backend's own. */
    struct nvme_request *next;
    uint64_t done;
    int error;
    /* The device's own: those in flight, the command, and whether it was answered already. */
    struct nvme_request *before, *after;
    nvmearb_sqe entry;
    uint32_t tag;
    uint16_t step, count;
    uint8_t is_own, is_dropped, is_durable;
    struct nvme_piece pieces[NVME_PIECES];
};

/* A ring in guest memory. That of a completion queue has its interrupt too. */
struct nvme_ring {
    uint64_t address;
    uint16_t slots, tail, head, vector;
    uint8_t has_interrupt, has_news, unused[6];
};

/* What the device tells of what it did: the SMART / Health Information log, and resets and Aborts for tests. */
struct nvme_counts {
    uint64_t sectors_read, sectors_written, reads, writes; /* sectors of 512 bytes */
    uint64_t media_errors, begun;                          /* when the device was made: of `now` */
    uint32_t unsafe_shutdowns, resets, aborted, unused;
};

/*
 * What the device remembers: numbers without a pointer, and no padding, in which other bytes of the machine's might be
 * saved. What is added here is looked at in saving.c.
 */
struct nvme_state {
    nvmearb_ctrl ctrl;
    nvmearb_slot slots[NVME_COMMANDS];
    struct nvme_ring sqs[NVME_QUEUES + 1], cqs[NVME_QUEUES + 1]; /* by identifier */
    uint32_t registers[NVME_REGISTERS], masked, features[32], recovery[NVME_NAMESPACES];
    uint8_t uncoalesced[NVME_QUEUES + 1]; /* by vector: CD of Interrupt Vector Configuration */
    uint8_t held_queues[NVME_QUEUES + 1]; /* queues that are held, since a namespace has no room */
    uint8_t is_asserted, is_stopping;     /* the pin; CC.EN is 0, and Writes are in flight */
    uint32_t held[NVME_EVENT_REQUESTS];   /* Asynchronous Event Requests, by their tags */
    uint16_t held_count, unused;
    uint32_t pending, told;               /* events, and those whose log wasn't read since they were told */
    uint32_t changed;                     /* namespaces that changed since their log was read: bit 0 is namespace 1 */
    struct {
        uint64_t count;
        uint16_t qid, unused[3];
    } errors[4]; /* the newest first */
    struct nvme_counts counts;
};

struct nvme {
    /* Chosen before nvme_init. */
    struct nvme_host host;
    struct nvme_namespace namespaces[NVME_NAMESPACES];
    uint32_t count;               /* of namespaces */
    uint16_t vid, ssvid;          /* the vendor identifiers of the PCI header */
    uint16_t cntlid;              /* by which controllers of one NQN differ */
    uint16_t vectors;             /* the interrupt vectors: 1 for a pin alone, at most NVME_QUEUES + 1 */
    uint16_t most;                /* the most I/O commands of a namespace in flight. 0: no limit of the device's */
    char serial[NVME_SERIAL + 1]; /* of which NQN, NGUID and EUI64 are made: no two devices have the same */
    /*
     * From the next enabling on: weighted round robin whatever CC.AMS says, and classes by queue instead of QPRIO
     * (NVMEARB_URGENT .. NVMEARB_LOW, or 0). Linux asks for round robin, and for urgent in all queues.
     */
    uint8_t is_weighted, classes[NVME_QUEUES + 1];
    /* The device's own. */
    struct nvme_state state;
    struct nvme_request *requests; /* those in flight */
    uint16_t in_flight[NVME_NAMESPACES];
    uint8_t has_ended; /* whether a request ended since queues were held */
    /* NULL, or where a log is written (log.h): for `enabled` to choose, until the next reset or restore. */
    FILE *log;
};

/* What nvme_save writes: these bytes are all that is to be moved. */
struct nvme_saved {
    char letters[8];
    uint32_t version, bytes; /* NVMEARB_VERSION, and the bytes of all */
    uint64_t sum;            /* over the state */
    struct nvme_state state;
};

/*
 * Makes a device, which isn't enabled. It must be zero but for what is chosen. Returns 0 where the library isn't that of
 * nvmearb.h, or `count` or `vectors` is out of its range.
 */
int nvme_init(struct nvme *device);

/* Reads 1 to 8 bytes of the registers. */
uint64_t nvme_read(struct nvme *device, uint64_t offset, unsigned size);

/* Writes 4 or 8 bytes of the registers. Others are ignored. */
void nvme_write(struct nvme *device, uint64_t offset, uint64_t value, unsigned size);

/* Goes on: to be called after nvme_end, and where `may_pick` refused a pick and wouldn't now. */
void nvme_turn(struct nvme *device);

/* A backend has ended a request: `error` is 0 or a number of errno.h. The request isn't valid any more. */
void nvme_end(struct nvme_request *request, int error);

/* A reset of the function, as by the bus: no register and no queue is kept. Waits for what is in flight. */
void nvme_reset(struct nvme *device);

/* A namespace has another size from now on: the host is told. No request beyond it is in flight. */
void nvme_resize(struct nvme *device, uint32_t nsid, uint64_t blocks);

/*
 * Save and restore, once `settle` has waited; nvme_turn then goes on. What was chosen is the same on both sides, and so is
 * the version of the library. Both return 0, and write nothing, while this device has requests in flight: let `settle`
 * wait once more, where one was begun by another's end.
 * nvme_restore does so too where the bytes aren't those that nvme_save wrote, by their sum. Of bytes whose sum fits it
 * looks at each number that the device goes by: registers, rings, vectors, event requests, features, and the controller
 * by nvmearb_ctrl_verify. Bytes that somebody made up may then answer their guest wrongly, or never, but are to give the
 * machine nothing that a guest couldn't: no vector that isn't there, no copy that crosses a page. (../tests/restore.c
 * tries thousands.)
 */
int nvme_save(const struct nvme *device, struct nvme_saved *to);
int nvme_restore(struct nvme *device, const struct nvme_saved *from);

#endif
