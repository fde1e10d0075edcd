/* SPDX-License-Identifier: MIT */
/*
 * nvmearb.h: the queues of an NVMe controller, for firmware, emulators and simulators with their own loop. Terms are
 * those of the NVM Express Base Specification 2.0 and the NVM Command Set Specification 1.0. A status is written as
 * its type and code in hexadecimal: 0/08. With a device, take the controller. With queues of your own, take what you
 * want of the other sections.
 *
 * The order of calls, with a controller (docs/IN_C.md has the loop):
 *   1. nvmearb_is_of_this_header.
 *   2. When CC.EN becomes 1, nvmearb_ctrl_init_anywhere with the admin queues (AQA, ASQ, ACQ). Where it refuses what
 *      the host wrote, set CSTS.CFS. Check CC.IOSQES (6) and CC.IOCQES (4) yourself: a host may choose them until its
 *      first Create (capi/examples/registers.c). When CC.EN becomes 0, make no call until it is 1 again, and begin
 *      here. Drop what the backend ends meanwhile, or complete it after the making, for NVMEARB_NONE. Tags don't stop a
 *      data transfer: end each before CSTS.RDY becomes 0. A shutdown (CC.SHN) is the device's, and no call tells of it:
 *      go on, flush, and set CSTS.SHST.
 *   3. nvmearb_ctrl_own_opcode and nvmearb_ctrl_own_feature for the device's own admin commands, such as Identify.
 *   4. nvmearb_ctrl_sq_tail or nvmearb_ctrl_cq_head at each doorbell write.
 *   5. While nvmearb_ctrl_next_fetch tells a queue and a slot: read the entry there, and nvmearb_ctrl_fetched, or
 *      nvmearb_ctrl_fetched_at where several reads are under way.
 *   6. While nvmearb_ctrl_take gives a command, execute it. Then nvmearb_ctrl_pick, and take again, until nothing is
 *      picked. Keep where a created queue lies (nvmearb_asked).
 *   7. nvmearb_ctrl_complete or nvmearb_ctrl_complete_with for each command that ends, in any order, at any time.
 *   8. While nvmearb_ctrl_next_to_post tells a queue, nvmearb_ctrl_post: write the bytes into the slot of the ring,
 *      Dword 3 with the phase tag last, and send the interrupt of the queue's vector, if enabled.
 *   9. After a pick that began a deletion (NVMEARB_BEGIN_DELETE), nvmearb_ctrl_finish at once and after each 8., while
 *      it answers NVMEARB_OK.
 *   10. Go back to 5. until a pass does nothing, and once the device has more room than at its last pick, or no longer
 *       holds a queue.
 *
 * Every function is proved (crates/nvme_capi), unless NVMEARB_UNPROVED says otherwise, but for the two that are inline
 * here. None allocates, waits, starts a thread, keeps a pointer, or reads or writes anything but what its arguments
 * point to. All return, whatever bytes the arguments, states and slots have. The caller sees to this:
 *   - Each pointer, also to an array of length 0, isn't null, is aligned, and points to as many objects as its comment
 *     says, which outlive the call.
 *   - Nothing else writes during the call what a pointer points to: hand in a copy of an entry that others may write.
 *     Nothing else reads what a pointer that isn't const points to, and no other argument's object overlaps it.
 *   - Calls on one state run one after another, also those of a signal or interrupt handler; those on different objects
 *     may run at the same time on any threads.
 *
 * Numbers are in the machine's byte order, bytes of entries in the specification's. Of a proved library, making a
 * controller takes at most 34 KB of stack, every other call 1 KB. Link with -lnvmearb; the only other symbols are
 * memcpy and memset. docs/IN_C.md tells processors, what a kernel sees to, which depths weights need, how a full device
 * picks admin commands, and which calls take longer with more.
 */
#ifndef NVMEARB_H
#define NVMEARB_H

#include <stddef.h>
#include <stdint.h>

#ifdef __cplusplus
extern "C" {
#endif

#ifdef __cplusplus
static_assert(sizeof(size_t) == 8, "libnvmearb is built for 64-bit processors alone");
#else
_Static_assert(sizeof(size_t) == 8, "libnvmearb is built for 64-bit processors alone");
#endif

/* The version of this header. Until the major number is 1, the minor one rises with each change of a struct or call. */
#define NVMEARB_VERSION_MAJOR 0
#define NVMEARB_VERSION_MINOR 2
#define NVMEARB_VERSION_PATCH 0
#define NVMEARB_VERSION (NVMEARB_VERSION_MAJOR * 0x10000u + NVMEARB_VERSION_MINOR * 0x100u + NVMEARB_VERSION_PATCH)

/* Returns the version of the library. */
uint32_t nvmearb_version(void);

#define NVMEARB_STATE_ARBITER 1u
#define NVMEARB_STATE_BOARD 2u
#define NVMEARB_STATE_TABLE 3u
#define NVMEARB_STATE_CTRL 4u
#define NVMEARB_STATE_SLOT 5u

/* Returns the bytes of a state in the library, 0 of another number. */
uint32_t nvmearb_size(uint32_t state);

/*
 * What nvmearb_version adds where nothing of the library is proved (tools/build --unproved). Such a library is slower,
 * and ends the program at a fault that it finds. Define NVMEARB_ALLOW_UNPROVED before the header to take it.
 */
#define NVMEARB_UNPROVED 0x80000000u

/*
 * The results. A call returns NVMEARB_OK except where its comment, or that of its section or state, says otherwise.
 * Then it has written nothing, but a 0 into `n` where that is said.
 * NVMEARB_ESTATE comes before all other results: a state that the call doesn't initialise isn't valid. NVMEARB_EARG
 * comes next: an argument, or a field in it, is outside what comments allow, and no other result is told for that. The
 * others come in the order told. But a doorbell of a queue that isn't open is NVMEARB_NONE, whatever its value.
 * States are arbiters, boards, queue tables and controllers; their fields are the library's. All but arbiters are valid
 * if `mark` is what their initialisation writes. It has the major and minor version: no other takes them. An arbiter,
 * board or table may be copied, and if valid acts as its fields say, whoever wrote them.
 */
#define NVMEARB_OK 0u     /* done */
#define NVMEARB_NONE 1u   /* nothing to do, no such queue or command */
#define NVMEARB_EARG 2u   /* an argument isn't valid */
#define NVMEARB_ESTATE 3u /* the state isn't valid: not initialised, overwritten, or of another version */
#define NVMEARB_EUSED 4u  /* another region has this address */
#define NVMEARB_EMANY 5u  /* there are NVMEARB_MAX_REGIONS regions of this kind, or queues may lie anywhere */
#define NVMEARB_ESIZE 6u  /* a region has 2 to 4096 slots */
#define NVMEARB_BUSY 7u   /* picked commands are to be taken first */
#define NVMEARB_NOROOM 8u /* the device has room for no command */
#define NVMEARB_ESLOT 9u  /* the entry of another slot is to be fetched next */

/* Returns the name of a result and what it says, for a message. The comments of a call say more. */
static inline const char *nvmearb_text(uint32_t result)
{
    static const char *const texts[] = {
        "NVMEARB_OK: done",
        "NVMEARB_NONE: nothing to do, no such queue or command",
        "NVMEARB_EARG: an argument isn't valid",
        "NVMEARB_ESTATE: the state isn't valid: not initialised, overwritten, or of another version",
        "NVMEARB_EUSED: another region has this address",
        "NVMEARB_EMANY: there are NVMEARB_MAX_REGIONS regions of this kind, or queues may lie anywhere",
        "NVMEARB_ESIZE: a region has 2 to 4096 slots",
        "NVMEARB_BUSY: picked commands are to be taken first",
        "NVMEARB_NOROOM: the device has room for no command",
        "NVMEARB_ESLOT: the entry of another slot is to be fetched next",
    };
    return result < sizeof texts / sizeof texts[0] ? texts[result] : "no result of nvmearb.h";
}

/* Entries: their fields, and the status of an I/O command. No call keeps a state. */

#define NVMEARB_SQE_BYTES 64
#define NVMEARB_CQE_BYTES 16
#define NVMEARB_MAX_NAMESPACES 16

/* Opcodes: of I/O, then of admin commands. */
#define NVMEARB_OPC_FLUSH 0x00u
#define NVMEARB_OPC_WRITE 0x01u
#define NVMEARB_OPC_READ 0x02u
#define NVMEARB_OPC_DELETE_SQ 0x00u
#define NVMEARB_OPC_CREATE_SQ 0x01u
#define NVMEARB_OPC_DELETE_CQ 0x04u
#define NVMEARB_OPC_CREATE_CQ 0x05u
#define NVMEARB_OPC_ABORT 0x08u
#define NVMEARB_OPC_SET_FEATURES 0x09u
#define NVMEARB_OPC_GET_FEATURES 0x0au

/* Features. */
#define NVMEARB_FID_ARBITRATION 0x01u
#define NVMEARB_FID_NUMBER_OF_QUEUES 0x07u

/* A submission queue entry, with any values. */
typedef struct nvmearb_sqe {
    uint8_t opcode;
    uint8_t flags; /* FUSE in bits 1:0, PSDT in bits 7:6 */
    uint16_t cid;
    uint32_t nsid;
    uint32_t cdw2;
    uint32_t cdw3;
    uint64_t mptr;
    uint64_t prp1; /* of a Create: the address of the queue */
    uint64_t prp2;
    uint32_t cdw10;
    uint32_t cdw11;
    uint32_t cdw12;
    uint32_t cdw13;
    uint32_t cdw14;
    uint32_t cdw15;
} nvmearb_sqe;

/* A status: {0, 0} is success. */
typedef struct nvmearb_status {
    uint8_t sct; /* status code type, 0 to 7 */
    uint8_t sc;
} nvmearb_status;

#define NVMEARB_SCT_GENERIC 0u
#define NVMEARB_SCT_COMMAND_SPECIFIC 1u
#define NVMEARB_SCT_MEDIA 2u /* media and data integrity errors */

/* Status codes of the generic type. The library answers all but those of the device. */
#define NVMEARB_SC_SUCCESS 0x00u
#define NVMEARB_SC_INVALID_OPCODE 0x01u
#define NVMEARB_SC_INVALID_FIELD 0x02u
#define NVMEARB_SC_DATA_TRANSFER_ERROR 0x04u /* device */
#define NVMEARB_SC_INTERNAL_ERROR 0x06u /* device */
#define NVMEARB_SC_ABORT_REQUESTED 0x07u /* Command Abort Requested */
#define NVMEARB_SC_ABORTED_BY_DELETION 0x08u /* Command Aborted due to SQ Deletion */
#define NVMEARB_SC_INVALID_NAMESPACE 0x0bu
#define NVMEARB_SC_SEQUENCE_ERROR 0x0cu
#define NVMEARB_SC_PRP_OFFSET_INVALID 0x13u
#define NVMEARB_SC_LBA_OUT_OF_RANGE 0x80u
#define NVMEARB_SC_CAPACITY_EXCEEDED 0x81u /* device */
#define NVMEARB_SC_NAMESPACE_NOT_READY 0x82u /* device */

/* Status codes of the command specific type. */
#define NVMEARB_SC_COMPLETION_QUEUE_INVALID 0x00u
#define NVMEARB_SC_INVALID_QUEUE_IDENTIFIER 0x01u
#define NVMEARB_SC_INVALID_QUEUE_SIZE 0x02u
#define NVMEARB_SC_INVALID_INTERRUPT_VECTOR 0x08u
#define NVMEARB_SC_INVALID_QUEUE_DELETION 0x0cu
#define NVMEARB_SC_FEATURE_NOT_SAVEABLE 0x0du

/* Status codes of the media type. */
#define NVMEARB_SC_WRITE_FAULT 0x80u
#define NVMEARB_SC_UNRECOVERED_READ_ERROR 0x81u

/*
 * The status flags of a completion: bits 31 and 30 of Dword 3. Without Do Not Retry Linux submits a failing Read six
 * times. docs/KEYS.md tells which of the controller's own statuses have it. None has More.
 */
#define NVMEARB_DNR 1u  /* Do Not Retry */
#define NVMEARB_MORE 2u /* the Error Information log page has more of the command */

/* A completion queue entry. CRD, More and Do Not Retry have no field: nvmearb_cqe_encode writes 0. */
typedef struct nvmearb_cqe {
    uint32_t dw0;
    uint16_t sqhd; /* the index of a slot */
    uint16_t sqid;
    uint16_t cid;
    uint8_t phase; /* phase tag, 0 or 1 */
    nvmearb_status status;
} nvmearb_cqe;

#define NVMEARB_ADMIN_OTHER 0u /* every other opcode */
#define NVMEARB_ADMIN_DELETE_SQ 1u
#define NVMEARB_ADMIN_CREATE_SQ 2u
#define NVMEARB_ADMIN_DELETE_CQ 3u
#define NVMEARB_ADMIN_CREATE_CQ 4u
#define NVMEARB_ADMIN_SET_FEATURES 5u
#define NVMEARB_ADMIN_GET_FEATURES 6u
#define NVMEARB_ADMIN_ABORT 7u

/* What the queue table reads of an admin command. A field that its kind doesn't have is 0. */
typedef struct nvmearb_admin {
    uint32_t kind;
    uint32_t cdw11; /* Set Features: the value */
    uint64_t prp1;  /* Create: the address of the queue */
    uint16_t qid;   /* Create, Delete: QID; Abort: SQID */
    uint16_t qsize; /* Create: QSIZE, its slots less 1 */
    uint16_t cqid;  /* Create SQ: CQID */
    uint8_t qprio;  /* Create SQ: QPRIO, 0 urgent to 3 low. NVMEARB_URGENT .. are 1 more */
    uint8_t pc;     /* Create: PC, 0 or 1 */
    uint8_t fid;    /* Set and Get Features: FID */
    uint8_t sv;     /* Set Features: SV, 0 or 1 */
    uint16_t cid;   /* Abort: CID */
} nvmearb_admin;

/* What a Command Dword 11 of the Arbitration feature says. Bits 07:03 of a `cdw11` are ignored. */
typedef struct nvmearb_settings {
    uint32_t cdw11;  /* as Get Features answers it: bits 07:03 are 0 */
    uint16_t burst;  /* the most commands of one pick: a power of 2 from 1 to 64, or 0 for no limit */
    uint16_t high;   /* weights: the most commands of this class in one round, 1 to 256 */
    uint16_t medium;
    uint16_t low;
} nvmearb_settings;

/* Decodes and encodes a submission queue entry. Every bit belongs to a field. Each undoes the other. */
void nvmearb_sqe_decode(const uint8_t bytes[NVMEARB_SQE_BYTES], nvmearb_sqe *fields);
void nvmearb_sqe_encode(const nvmearb_sqe *fields, uint8_t bytes[NVMEARB_SQE_BYTES]);

/*
 * The same of a completion queue entry. NVMEARB_EARG if Dword 1 or bits 31:28 of Dword 3, of no field, aren't 0.
 */
uint32_t nvmearb_cqe_decode(const uint8_t bytes[NVMEARB_CQE_BYTES], nvmearb_cqe *fields);
uint32_t nvmearb_cqe_encode(const nvmearb_cqe *fields, uint8_t bytes[NVMEARB_CQE_BYTES]);

/*
 * Decodes a completion queue entry that may have flags, as what the controller posts, and writes them: NVMEARB_DNR,
 * NVMEARB_MORE, both or none. NVMEARB_EARG if Dword 1 or CRD, bits 29:28 of Dword 3, isn't 0.
 */
uint32_t nvmearb_cqe_decode_with(const uint8_t bytes[NVMEARB_CQE_BYTES], nvmearb_cqe *fields, uint8_t *flags);

/*
 * Writes the status of an I/O command, of which Flush, Write and Read are supported: that of the first check that it
 * fails, or success. `sizes` are those of `count` namespaces, at most NVMEARB_MAX_NAMESPACES, in logical blocks, each
 * at least 1, from NSID 1 on. PSDT isn't looked at.
 */
uint32_t nvmearb_outcome(const nvmearb_sqe *entry, const uint64_t *sizes, size_t count, nvmearb_status *status);

/*
 * The same for a device that moves data by PRPs: PSDT is looked at, namespaces may be any number, and those of size 0
 * are inactive. The first of these that is so gives the status, and 0/00 where none is:
 *   0/02   FUSE isn't 0; PSDT isn't 0 (SGLs, or reserved)
 *   0/01   the command is no Flush, Write or Read
 *   0/02   NSID is FFFFFFFFh, and the command is no Flush. A Flush with it succeeds
 *   0/0b   NSID is 0 or above `count`
 *   0/02   NSID is inactive
 *   0/80   SLBA + NLB + 1 of a Write or Read is above the size
 * A device with more opcodes goes on from 0/01: what stands above it was passed.
 */
void nvmearb_check(const nvmearb_sqe *entry, const uint64_t *sizes, size_t count, nvmearb_status *status);

/*
 * Writes what the last four rows above give a Read, and looks at nothing else: for commands with NSID, SLBA and NLB
 * (Command Dwords 10 to 12), as Write Uncorrectable, Compare, Write Zeroes, Verify.
 */
void nvmearb_range(const nvmearb_sqe *entry, const uint64_t *sizes, size_t count, nvmearb_status *status);

/* Writes the kind and fields of an admin command. FUSE and NSID are ignored. */
void nvmearb_admin_of(const nvmearb_sqe *entry, nvmearb_admin *command);

/* Writes what a `cdw11` says. */
void nvmearb_settings_of(uint32_t cdw11, nvmearb_settings *settings);

/* Arbiter: which submission queue is served next, and how many of its commands, by what each pick is shown. */

#define NVMEARB_ROUND_ROBIN 1u
#define NVMEARB_WEIGHTED 2u /* weighted round robin with urgent priority class */

/* Priority classes. */
#define NVMEARB_ADMIN 0u
#define NVMEARB_URGENT 1u
#define NVMEARB_HIGH 2u
#define NVMEARB_MEDIUM 3u
#define NVMEARB_LOW 4u

/* The most submission queues, with the admin queue, and commands said to wait in one. */
#define NVMEARB_MAX_QUEUES 65
#define NVMEARB_MAX_COUNT 256

/* A room or a limit without a bound, as is each from NVMEARB_MAX_COUNT on. */
#define NVMEARB_NO_LIMIT 65535u

/*
 * An arbiter. It is valid if `mechanism` is one of the two and each of `last` is at most 65536: zeros aren't; other
 * memory may be.
 */
typedef struct nvmearb_arbiter {
    uint32_t mechanism;
    uint32_t cdw11;
    uint32_t last[6];
    uint16_t used[3];
} nvmearb_arbiter;

/* An open queue as a pick is shown it. */
typedef struct nvmearb_seen {
    uint16_t qid;      /* 0 to 64 */
    uint16_t priority; /* NVMEARB_ADMIN for queue 0; NVMEARB_URGENT .. NVMEARB_LOW for the others */
    uint16_t count;    /* how many of its commands wait, or NVMEARB_MAX_COUNT if more do */
} nvmearb_seen;

/* A pick: the next n commands of a queue. */
typedef struct nvmearb_pick {
    uint16_t qid;
    uint16_t n;     /* 1 to as many as wait */
    uint16_t fresh; /* 1 if it starts a new round of weighted round robin, else 0 */
} nvmearb_pick;

/* Initialises an arbiter, which has served nothing yet. */
uint32_t nvmearb_arbiter_init(nvmearb_arbiter *arbiter, uint32_t mechanism, uint32_t cdw11);

/* Takes new settings. They start a new round; which queues were served last is kept. */
uint32_t nvmearb_arbiter_set(nvmearb_arbiter *arbiter, uint32_t cdw11);

/*
 * Writes the next pick. `seen` has the open queues by ascending identifier, `count` of them, at most
 * NVMEARB_MAX_QUEUES. NVMEARB_NONE if no command waits.
 */
uint32_t nvmearb_arbiter_peek(const nvmearb_arbiter *arbiter, const nvmearb_seen *seen, size_t count, nvmearb_pick *pick);

/* The same, and these commands count as served. Take all n. */
uint32_t nvmearb_arbiter_pick(nvmearb_arbiter *arbiter, const nvmearb_seen *seen, size_t count, nvmearb_pick *pick);

/*
 * As nvmearb_arbiter_pick, but n is at most `limit`, from 1 on, and only these count as served. The rest waits for its
 * queue's next turn; what it would have used of its class's weight stays.
 */
uint32_t nvmearb_arbiter_pick_up_to(nvmearb_arbiter *arbiter, const nvmearb_seen *seen, size_t count, uint16_t limit,
                                    nvmearb_pick *pick);

/*
 * Board: an arbiter that keeps the open queues and the numbers of their commands itself, and picks as if shown them. A
 * call with a `qid`, but nvmearb_board_open, answers NVMEARB_EARG if that queue isn't open.
 */

/* A board. Its arbiter has to be valid too. */
typedef struct nvmearb_board {
    uint64_t mark;
    struct {
        uint64_t ready[4];
        struct {
            uint16_t priority, count;
        } places[NVMEARB_MAX_QUEUES];
    } queues;
    nvmearb_arbiter arbiter;
} nvmearb_board;

/* As nvmearb_arbiter_init. No queue is open. */
uint32_t nvmearb_board_init(nvmearb_board *board, uint32_t mechanism, uint32_t cdw11);

/* Opens a queue, in which no command waits, as nvmearb_seen has it. NVMEARB_EARG too if it is open. */
uint32_t nvmearb_board_open(nvmearb_board *board, uint16_t qid, uint16_t priority);

/* Closes a queue. Its waiting commands are forgotten, what was served is kept. */
uint32_t nvmearb_board_close(nvmearb_board *board, uint16_t qid);

/* One more command waits in a queue, or `n` do. NVMEARB_EARG too if more than NVMEARB_MAX_COUNT would. */
uint32_t nvmearb_board_came(nvmearb_board *board, uint16_t qid);
uint32_t nvmearb_board_came_n(nvmearb_board *board, uint16_t qid, uint16_t n);

/* A waiting command left a queue without being picked, as by an Abort. NVMEARB_EARG too if none waits. */
uint32_t nvmearb_board_went(nvmearb_board *board, uint16_t qid);

/* Writes the next pick; NVMEARB_NONE if no command waits. */
uint32_t nvmearb_board_peek(const nvmearb_board *board, nvmearb_pick *pick);

/* The same, and these commands count as served, not as waiting. Take all n. A `limit` is as of an arbiter. */
uint32_t nvmearb_board_pick(nvmearb_board *board, nvmearb_pick *pick);
uint32_t nvmearb_board_pick_up_to(nvmearb_board *board, uint16_t limit, nvmearb_pick *pick);

/* As nvmearb_arbiter_set. The queues stay. */
uint32_t nvmearb_board_set(nvmearb_board *board, uint32_t cdw11);

/*
 * Table: the queues and features of a controller, and the answers to admin commands on them. Rings, doorbells, phase
 * tags, interrupts and data are the caller's. docs/IN_C.md tells the order of calls, with a board.
 */

/* The most regions of a kind, with the admin queue's, and I/O queues. */
#define NVMEARB_MAX_REGIONS 65
#define NVMEARB_MAX_IO_QUEUES 64

/* A region: the memory of one ring, which a Create names by its address. */
typedef struct nvmearb_region {
    uint64_t address;
    uint16_t slots; /* 2 to 4096 */
} nvmearb_region;

typedef struct nvmearb_table {
    uint64_t mark;
    struct {
        nvmearb_region places[NVMEARB_MAX_REGIONS];
        uint8_t count;
    } sq_regions, cq_regions;
    uint32_t cdw11;
    uint16_t nsq, ncq;
    struct {
        uint16_t priority, cqid;
        uint8_t region, closing;
    } sqs[NVMEARB_MAX_REGIONS];
    struct {
        uint8_t open, region;
    } cqs[NVMEARB_MAX_REGIONS];
    uint8_t sq_used[NVMEARB_MAX_REGIONS], cq_used[NVMEARB_MAX_REGIONS];
    uint8_t numbers_set, created;
} nvmearb_table;

/*
 * The verdict on an admin command: what to do before it is answered. All but NVMEARB_DONE mean success, and but for
 * NVMEARB_ABORT a Dword 0 of 0.
 */
#define NVMEARB_DONE 0u            /* nothing: answer with `status` and `dw0` */
#define NVMEARB_OPEN_SQ 1u         /* a submission queue was created: fetch from it (nvmearb_board_open) */
#define NVMEARB_OPEN_CQ 2u         /* a completion queue was created */
#define NVMEARB_BEGIN_DELETE 3u    /* a submission queue is closing: see nvmearb_table_finish_delete */
#define NVMEARB_CLOSE_CQ 4u        /* a completion queue was deleted */
#define NVMEARB_SET_ARBITRATION 5u /* Arbitration was set: hand `cdw11` on (nvmearb_board_set) */
#define NVMEARB_ABORT 6u           /* abort a waiting command: see nvmearb_table_apply */

/* The answer to an admin command. A field that its verdict doesn't have is 0. */
typedef struct nvmearb_answer {
    uint32_t verdict;
    uint32_t dw0;          /* Dword 0 of its completion; NVMEARB_ABORT: 0, and the caller decides */
    uint32_t cdw11;        /* NVMEARB_SET_ARBITRATION: the settings, with bits 07:03 as 0 */
    uint16_t qid;          /* QID; NVMEARB_ABORT: SQID */
    uint16_t region;       /* NVMEARB_OPEN_SQ, NVMEARB_OPEN_CQ: the number of its region; anywhere, its identifier */
    uint16_t cqid;         /* NVMEARB_OPEN_SQ: its completion queue */
    uint16_t priority;     /* NVMEARB_OPEN_SQ: NVMEARB_URGENT .. NVMEARB_LOW */
    nvmearb_status status; /* of its completion */
    uint16_t cid;          /* NVMEARB_ABORT: CID */
} nvmearb_answer;

/* A submission queue that is open or closing. */
typedef struct nvmearb_queue {
    uint16_t region;   /* the number of its region */
    uint16_t cqid;
    uint16_t priority; /* NVMEARB_ADMIN .. NVMEARB_LOW */
    uint16_t closing;  /* 1 if it is closing, else 0 */
} nvmearb_queue;

/*
 * Initialises a table without regions or queues. `nsq` and `ncq` are the most I/O submission and completion queues, 1
 * to NVMEARB_MAX_IO_QUEUES.
 */
uint32_t nvmearb_table_init(nvmearb_table *table, uint16_t nsq, uint16_t ncq, uint32_t cdw11);

/*
 * Adds a submission or completion region, and writes its number, from 0 on. Region 0 is that of the admin queue, which
 * is open from then on. A Create takes one of the others for good. NVMEARB_EUSED (by either kind), NVMEARB_EMANY,
 * NVMEARB_ESIZE.
 */
uint32_t nvmearb_table_add_sq_region(nvmearb_table *table, uint64_t address, uint16_t slots, uint16_t *number);
uint32_t nvmearb_table_add_cq_region(nvmearb_table *table, uint64_t address, uint16_t slots, uint16_t *number);

/*
 * Applies an admin command, and writes the answer. Where its status isn't success, every byte of the table stays.
 * NVMEARB_ADMIN_OTHER is answered with 0/01; a FUSE other than 0, and Set and Get Features of identifiers other than
 * 01h and 07h, with 0/02. Keep what you answer yourself, such as Identify, from the table (nvmearb_admin_of).
 * At NVMEARB_ABORT take the oldest command with this identifier that waits in this queue out (nvmearb_board_went),
 * answer it with 0/07, and the Abort with 0 as Dword 0. If there is none, as where SQID is 0 or not open, or the
 * command was picked, answer the Abort with 1.
 */
uint32_t nvmearb_table_apply(nvmearb_table *table, const uint8_t bytes[NVMEARB_SQE_BYTES], nvmearb_answer *answer);

/*
 * Finishes the deletion of a submission queue: its identifier is free again. After NVMEARB_BEGIN_DELETE fetch and pick
 * no more of the queue (nvmearb_board_close), answer each command that waits with 0/08, wait until those picked are
 * answered too, make this call, and only then answer the Delete, with success. NVMEARB_EARG if the queue isn't closing.
 */
uint32_t nvmearb_table_finish_delete(nvmearb_table *table, uint16_t qid);

/* Writes what the table has of a submission queue; NVMEARB_NONE if that is neither open nor closing. */
uint32_t nvmearb_table_sq(const nvmearb_table *table, uint16_t qid, nvmearb_queue *queue);

/* Writes the region of a completion queue; NVMEARB_NONE if it isn't open. */
uint32_t nvmearb_table_cq(const nvmearb_table *table, uint16_t qid, uint16_t *region);

/* Write how many I/O queues are allotted, and the settings of the Arbitration feature. */
uint32_t nvmearb_table_allotted(const nvmearb_table *table, uint16_t *nsq, uint16_t *ncq);
uint32_t nvmearb_table_settings(const nvmearb_table *table, nvmearb_settings *settings);

/*
 * Controller: the queue side of an NVMe controller, by calls in the order at the top. It carries out the admin commands
 * on queues, features and Abort. The device executes all others, and keeps registers, memory, data and interrupts
 * (capi/examples/device.c).
 *
 * A `qid` is a submission queue, 0 the admin queue, and a `cqid` a completion queue. A call with one by value, but
 * nvmearb_ctrl_set_depth and nvmearb_ctrl_named, answers NVMEARB_NONE if it isn't open, and a call with a `tag` by
 * value if the device has no command of it. If `count` isn't that of the making, nvmearb_ctrl_verify answers
 * NVMEARB_ESTATE, and every other call NVMEARB_EARG.
 * A call with _n makes that without it again and again, in order, until it answers NVMEARB_NONE or the array ends, and
 * writes how many it made into `n`. What lies behind them in the array stays. If it makes none, it answers
 * NVMEARB_NONE, with 0 in `n`.
 */

/*
 * A slot holds one command from its fetch until its completion is posted. The caller keeps an array of them, whose
 * content is the library's. With admin_depth + nsq * depth of them no fetch lacks one, while queues are being deleted
 * too. With fewer, queues keep each other from being fetched: no Abort or Delete is fetched while others hold all.
 */
typedef struct nvmearb_slot {
    uint64_t words[11];
} nvmearb_slot;

#define NVMEARB_MAX_SLOTS 65535
#define NVMEARB_MAX_DEPTH 4095

/*
 * A controller. nvmearb_ctrl_peek and nvmearb_ctrl_pick answer NVMEARB_ESTATE too if its arbiter isn't valid, as that
 * of a making is.
 *
 * Hand each call the slots of the making, and write neither into them nor into the controller. If something did, a call
 * still returns, and reads and writes only what it is given; nothing more is promised. Read no slot of a ring, and post
 * no completion, but those that a call tells or takes.
 * A submission queue is open until its deletion begins, and then closing until nvmearb_ctrl_finish ends that.
 * A controller and its slots hold no pointer, and may together be moved, or saved and restored (docs/IN_C.md).
 * PC must be 1, and a ring has at most 4096 slots: CAP.CQR is 1, and CAP.MQES at most 4095. Commands without a posted
 * completion have no limit but the depths. A completion queue that its host doesn't read stops the submission queues
 * that post to it, and no other.
 */
typedef struct nvmearb_ctrl {
    uint64_t mark;
    size_t count; /* the number of its slots */
    uint64_t words[750];
} nvmearb_ctrl;

/* What a controller is made with. */
typedef struct nvmearb_config {
    nvmearb_region asq, acq; /* ASQ and ACQ; slots are the fields of AQA plus 1 */
    uint32_t mechanism;      /* CC.AMS 000b: NVMEARB_ROUND_ROBIN, 001b: NVMEARB_WEIGHTED */
    uint32_t cdw11;          /* the Arbitration feature */
    uint16_t nsq, ncq;       /* the most I/O submission and completion queues, 1 to NVMEARB_MAX_IO_QUEUES */
    uint16_t depth;          /* the most commands of an I/O queue with a slot, 1 to NVMEARB_MAX_DEPTH; no ring's size */
    uint16_t admin_depth;    /* the same of the admin queue, above the number of event requests that the device holds */
} nvmearb_config;

/* What a Create may ask for where queues may lie anywhere. */
typedef struct nvmearb_placement {
    uint32_t page;    /* the memory page in bytes, a power of 2, 2^(12 + CC.MPS): PRP1 is a multiple of it */
    uint16_t mqes;    /* the largest QSIZE (CAP.MQES), 1 to 4095 */
    uint16_t vectors; /* interrupt vectors, at least 1, also for a device with a pin: IV is below it */
} nvmearb_placement;

/* What an accepted Create asked for. */
typedef struct nvmearb_asked {
    uint64_t address;    /* PRP1: where the ring lies */
    uint16_t qsize;      /* QSIZE: its slots less 1 */
    uint16_t vector;     /* IV of a completion queue, else 0 */
    uint16_t interrupts; /* IEN of a completion queue, 1 or 0, else 0 */
} nvmearb_asked;

#define NVMEARB_PICKED 1u      /* commands of an I/O queue: nvmearb_ctrl_take gives them */
#define NVMEARB_CARRIED_OUT 2u /* a command of the admin queue, which the controller carried out */
#define NVMEARB_PASSED 3u      /* an admin command of the device: nvmearb_ctrl_take gives it */

/* What a pick did. A field that its kind doesn't have is 0. */
typedef struct nvmearb_step {
    uint32_t kind;
    /* NVMEARB_CARRIED_OUT: what it came to. Its completion becomes ready by itself; 6. and 9. at the top say more. */
    nvmearb_answer answer;
    nvmearb_pick pick;   /* NVMEARB_PICKED and NVMEARB_PASSED: the queue, and how many of its commands */
    nvmearb_asked asked; /* with a verdict of NVMEARB_OPEN_SQ or NVMEARB_OPEN_CQ; else all 0 */
} nvmearb_step;

/*
 * A command that the device has. Its tag names it until it is completed: bits 15:0 are the index of its slot, bits
 * 31:16 the slot's generation, which rises by one with each command that the device takes of it. The tag is used up, so
 * that a call with it changes nothing, once its command is completed or the controller made anew over the same slots.
 * It comes again with the 65,536th command taken from its slot after it.
 */
typedef struct nvmearb_command {
    nvmearb_sqe entry;
    uint32_t cookie; /* what nvmearb_ctrl_fetched was given with it */
    uint32_t tag;
} nvmearb_command;

/*
 * A tag's slot, an index for what the device keeps of a command: below `count`, unless something wrote into the
 * controller or its slots.
 */
#define NVMEARB_SLOT_OF(tag) ((tag) & 0xffffu)

/* A completion for its ring. nvmearb_cqe_decode_with takes its bytes. */
typedef struct nvmearb_post {
    uint8_t bytes[NVMEARB_CQE_BYTES];
    uint32_t cookie; /* that of its command */
    /* that of its command; of one never taken, the last of its slot: it is used up, and others may have it too */
    uint32_t tag;
    uint16_t slot; /* of the ring */
} nvmearb_post;

/*
 * As nvmearb_ctrl_init, but the host chooses where queues lie: Creates are any number, each at any multiple of the
 * memory page, and docs/KEYS.md lists their checks. The host may reuse a queue's memory once its Delete is answered.
 * The device keeps nvmearb_asked of an accepted Create by kind and identifier, until the next accepted one of both. The
 * admin queues lie at ASQ and ACQ, with vector 0 and interrupts enabled.
 * The library doesn't know the memory, and accepts a Create where none is, or over another ring. The device checks each
 * access, and that no address goes over the end of all. Where one to a ring fails, it sets CSTS.CFS and waits for the
 * reset. NVMEARB_ESIZE for `asq` or `acq`; their addresses aren't compared.
 */
uint32_t nvmearb_ctrl_init_anywhere(nvmearb_ctrl *ctrl, nvmearb_slot *slots, size_t count, const nvmearb_config *config,
                                    const nvmearb_placement *placement);

/*
 * Initialises a controller with its admin queues alone, which are open, on region 0 of each kind. All slots are free,
 * 1 to NVMEARB_MAX_SLOTS. Any bytes may lie in `ctrl` and the slots. These keep their generations: at a reset hand in
 * the same ones, uncleared, so that tags of before are used up.
 * The device says beforehand where rings may lie. A Create names the address of a region that no queue has used, of
 * exactly QSIZE + 1 slots. Add a region before a Create of its address is picked: with one added later, docs/PROVED.md
 * promises less. NVMEARB_ESIZE for `asq`; NVMEARB_EUSED if both have one address; NVMEARB_ESIZE for `acq`.
 */
uint32_t nvmearb_ctrl_init(nvmearb_ctrl *ctrl, nvmearb_slot *slots, size_t count, const nvmearb_config *config);

/* As those of a table, and NVMEARB_EMANY first if queues may lie anywhere. */
uint32_t nvmearb_ctrl_add_sq_region(nvmearb_ctrl *ctrl, uint64_t address, uint16_t slots, uint16_t *number);
uint32_t nvmearb_ctrl_add_cq_region(nvmearb_ctrl *ctrl, uint64_t address, uint16_t slots, uint16_t *number);

/*
 * Until the next making, admin commands of this opcode are the device's: picked in their turn, taken and completed as
 * I/O commands. 00h, 01h, 04h, 05h, 09h and 0Ah stay the controller's, and so does a fused command, which it refuses.
 * PSDT is left to the device. A command that is neither's is answered with 0/01, and Set and Get Features of an
 * identifier that is neither's with 0/02.
 * The controller answers a waiting command that an Abort names with 0/07, and the Abort with 0 as Dword 0. The
 * Abort's completion isn't held for that of the command, whose queue may be full: a device that wants this order
 * posts to that queue first. If none waits, it answers the Abort with 1, not aborted, unless NVMEARB_OPC_ABORT was
 * announced here. Then the device gets the Abort, and finds the tag by nvmearb_admin_of and nvmearb_ctrl_named. If
 * it can end that command, it completes it with 0/07, and then the Abort with 0; otherwise the Abort with 1, also
 * one that names itself (compare the tags). Above the ACL of Identify it is 1/03, Abort Command Limit Exceeded.
 * capi/examples/admin.c ends event requests so.
 */
uint32_t nvmearb_ctrl_own_opcode(nvmearb_ctrl *ctrl, uint8_t opcode);

/*
 * Set and Get Features of this identifier are the device's, as nvmearb_ctrl_own_opcode tells; of 01h and 07h, the
 * controller's own, only a Get Features of another value (SEL) than the current one.
 */
uint32_t nvmearb_ctrl_own_feature(nvmearb_ctrl *ctrl, uint8_t fid);

/*
 * From now on at most `depth` commands of a queue, 0 to NVMEARB_MAX_IO_QUEUES and open or not, hold a slot, as
 * nvmearb_config has it, until the next call or making, whatever is created and deleted. Set it best before the queue
 * is created: where more hold a slot already, nothing is fetched until fewer do. The admin queue fetches nothing any
 * more once the device holds as many event requests as its depth.
 */
uint32_t nvmearb_ctrl_set_depth(nvmearb_ctrl *ctrl, uint16_t qid, uint16_t depth);

/*
 * With an `on` of 1 no command of a queue is picked from now on, with 0 they are again. Commands are still fetched up
 * to its depth; an Abort and a deletion still end what waits. What was picked stays picked. A queue created anew isn't
 * held.
 */
uint32_t nvmearb_ctrl_hold(nvmearb_ctrl *ctrl, uint16_t qid, uint8_t on);

/*
 * From now on an I/O queue has this priority class, NVMEARB_URGENT to NVMEARB_LOW, whatever its Create asked for
 * (QPRIO). A queue created anew has the class of its Create. Under round robin a class has no effect. NVMEARB_NONE too
 * if `qid` is 0.
 */
uint32_t nvmearb_ctrl_set_class(nvmearb_ctrl *ctrl, uint16_t qid, uint16_t priority);

/*
 * The host wrote a tail doorbell: `tail` is bits 15:00 of the value. NVMEARB_NONE is an Invalid Doorbell Register;
 * NVMEARB_EARG an Invalid Doorbell Write Value: the ring has no such slot, or not as many free ones, and it holds one
 * command less than it has slots. A value that the doorbell has already is accepted, here and of a head, so hand in
 * what a shadow doorbell has. (The specification lets a controller report it.)
 */
uint32_t nvmearb_ctrl_sq_tail(nvmearb_ctrl *ctrl, uint16_t qid, uint16_t tail);

/*
 * The same of a head doorbell: NVMEARB_EARG if the ring has no such slot, or not as many completions were posted. The
 * host has entries to read, for which a pin stays asserted, unless `head` is the slot after that of the last post.
 */
uint32_t nvmearb_ctrl_cq_head(nvmearb_ctrl *ctrl, uint16_t cqid, uint16_t head);

/*
 * Writes the slot of the ring whose entry is fetched next. NVMEARB_NONE too if the host submitted no more, no slot of
 * `ctrl` is free, the queue's commands hold as many as its depth, or 256 of them wait, or one less than its ring has
 * slots.
 */
uint32_t nvmearb_ctrl_fetch(const nvmearb_ctrl *ctrl, uint16_t qid, uint16_t *slot);

/*
 * Writes the next queue of which nvmearb_ctrl_fetch tells a slot, and that; NVMEARB_NONE if none. Queues take turns by
 * ascending identifier, 0 after NVMEARB_MAX_IO_QUEUES, from behind the one in `qid`: leave there what was told, and
 * to begin with queue 0, NVMEARB_MAX_IO_QUEUES or more. A queue that keeps having an entry to fetch is told within
 * NVMEARB_MAX_QUEUES calls (law queues_take_turns, crates/nvme_ctrl). nvmearb_ctrl_fetch tells further slots of a
 * queue. With fewer slots than depths together, fetch one entry a call, so that queues share them.
 */
uint32_t nvmearb_ctrl_next_fetch(const nvmearb_ctrl *ctrl, uint16_t *qid, uint16_t *slot);

/*
 * The entry in the slot that nvmearb_ctrl_fetch tells was read: its command waits to be picked, with `cookie`.
 * NVMEARB_NONE too if it tells none. Other calls may come before this one, as with DMA: until then the same slot of the
 * queue is told again, or none. If the queue's deletion begins meanwhile, drop the entry.
 */
uint32_t nvmearb_ctrl_fetched(nvmearb_ctrl *ctrl, nvmearb_slot *slots, size_t count, uint16_t qid,
                              const uint8_t bytes[NVMEARB_SQE_BYTES], uint32_t cookie);

/*
 * As nvmearb_ctrl_fetched, of the entry that was read in this slot: with several reads under way, or a slot that was
 * told before other calls, no entry is taken for another. NVMEARB_NONE as there; NVMEARB_ESLOT if nvmearb_ctrl_fetch
 * tells another slot.
 */
uint32_t nvmearb_ctrl_fetched_at(nvmearb_ctrl *ctrl, nvmearb_slot *slots, size_t count, uint16_t qid, uint16_t slot,
                                 const uint8_t bytes[NVMEARB_SQE_BYTES], uint32_t cookie);

/*
 * `entries` are those from the slot on that nvmearb_ctrl_fetch tells, slot 0 after the last, each with its cookie:
 * `bytes` is NVMEARB_SQE_BYTES times `cookie_count`. They end before the last accepted tail: from there on the host may
 * still write. What wasn't fetched is told again, once it may be.
 */
uint32_t nvmearb_ctrl_fetched_n(nvmearb_ctrl *ctrl, nvmearb_slot *slots, size_t count, uint16_t qid,
                                const uint8_t *entries, size_t bytes, const uint32_t *cookies, size_t cookie_count,
                                size_t *n);

/* The same of entries that were read from this slot on. NVMEARB_NONE as there; NVMEARB_ESLOT as above. */
uint32_t nvmearb_ctrl_fetched_n_at(nvmearb_ctrl *ctrl, nvmearb_slot *slots, size_t count, uint16_t qid, uint16_t slot,
                                   const uint8_t *entries, size_t bytes, const uint32_t *cookies, size_t cookie_count,
                                   size_t *n);

/*
 * Writes the next pick of what waits now, with room for all of it, whether or not nvmearb_ctrl_pick can make it yet.
 * NVMEARB_NONE if no command waits but in queues that are held.
 */
uint32_t nvmearb_ctrl_peek(const nvmearb_ctrl *ctrl, const nvmearb_slot *slots, size_t count, nvmearb_pick *pick);

/*
 * Makes the next pick, and writes what it did. `room` is how many commands the device can take now, or
 * NVMEARB_NO_LIMIT. The queue is the same with any room. n is the least of the burst, what its class has left of its
 * weight, what waits in the queue, and `room`. The rest waits as nvmearb_arbiter_pick_up_to tells.
 * An admin command is picked alone, and wants a room of 1. If it isn't the device's, it is carried out at once. A
 * deletion answers the waiting commands of its queue with 0/08.
 * NVMEARB_BUSY if commands are picked and not taken; NVMEARB_NONE as nvmearb_ctrl_peek; NVMEARB_NOROOM if `room` is 0.
 */
uint32_t nvmearb_ctrl_pick(nvmearb_ctrl *ctrl, nvmearb_slot *slots, size_t count, uint16_t room, nvmearb_step *step);

/* The device takes the oldest command, or up to `room`, picked and not taken; NVMEARB_NONE if all are taken. */
uint32_t nvmearb_ctrl_take(nvmearb_ctrl *ctrl, nvmearb_slot *slots, size_t count, nvmearb_command *command);
uint32_t nvmearb_ctrl_take_n(nvmearb_ctrl *ctrl, nvmearb_slot *slots, size_t count, nvmearb_command *commands,
                             size_t room, size_t *n);

/* The device completes a command, whose completion is ready then, with NVMEARB_DNR, NVMEARB_MORE, both or no flags. */
uint32_t nvmearb_ctrl_complete(nvmearb_ctrl *ctrl, nvmearb_slot *slots, size_t count, uint32_t tag,
                               const nvmearb_status *status, uint32_t dw0);
uint32_t nvmearb_ctrl_complete_with(nvmearb_ctrl *ctrl, nvmearb_slot *slots, size_t count, uint32_t tag,
                                    const nvmearb_status *status, uint32_t dw0, uint8_t flags);

/*
 * Writes the completion that became ready first in a queue, or the first up to `room`, in the order of the ring, as
 * posted; NVMEARB_NONE too if none is ready, or no slot of the ring is free. Let each reach memory before a later one
 * of any queue: that of a Delete may free the ring.
 */
uint32_t nvmearb_ctrl_post(nvmearb_ctrl *ctrl, nvmearb_slot *slots, size_t count, uint16_t cqid, nvmearb_post *post);
uint32_t nvmearb_ctrl_post_n(nvmearb_ctrl *ctrl, nvmearb_slot *slots, size_t count, uint16_t cqid, nvmearb_post *posts,
                             size_t room, size_t *n);

/* Writes the next queue of which nvmearb_ctrl_post gives a completion, or NVMEARB_NONE, as nvmearb_ctrl_next_fetch. */
uint32_t nvmearb_ctrl_next_to_post(const nvmearb_ctrl *ctrl, const nvmearb_slot *slots, size_t count, uint16_t *cqid);

/*
 * Finishes a deletion of a submission queue all of whose fetched commands have their completions posted; of several the
 * first by identifier. Writes the identifier, which is free then, and the completion of the Delete is ready.
 * NVMEARB_NONE if there is none such. Until here nothing is fetched or picked of the queue, and a Delete of its
 * completion queue is refused (1/0c): also one that came with it, if this isn't done at once. What the device has of
 * the queue may still be completed and posted. Other queues go on, and further deletions may begin.
 */
uint32_t nvmearb_ctrl_finish(nvmearb_ctrl *ctrl, nvmearb_slot *slots, size_t count, uint16_t *qid);

/* Writes the command of a tag once more. */
uint32_t nvmearb_ctrl_command(const nvmearb_ctrl *ctrl, const nvmearb_slot *slots, size_t count, uint32_t tag,
                              nvmearb_command *command);

/*
 * Writes the tag of the command `cid` of queue `qid` that the device has, such as one that an Abort names, or of one of
 * several. NVMEARB_NONE if it has none such: it waits, say, or is completed.
 */
uint32_t nvmearb_ctrl_named(const nvmearb_ctrl *ctrl, const nvmearb_slot *slots, size_t count, uint16_t qid,
                            uint16_t cid, uint32_t *tag);

/* Write the region of a queue, its identifier where queues may lie anywhere. */
uint32_t nvmearb_ctrl_sq(const nvmearb_ctrl *ctrl, uint16_t qid, uint16_t *region);
uint32_t nvmearb_ctrl_cq(const nvmearb_ctrl *ctrl, uint16_t cqid, uint16_t *region);

/* Writes how many commands of a queue were fetched and wait to be picked. */
uint32_t nvmearb_ctrl_waiting(const nvmearb_ctrl *ctrl, uint16_t qid, uint16_t *count);

/*
 * Writes the entry and the cookie of a command that waits in a queue, by `n` from 0, the oldest. NVMEARB_NONE too if at
 * most `n` wait.
 */
uint32_t nvmearb_ctrl_waits(const nvmearb_ctrl *ctrl, const nvmearb_slot *slots, size_t count, uint16_t qid,
                            uint16_t n, nvmearb_sqe *entry, uint32_t *cookie);

/*
 * Writes what the next pick is shown of a queue; `count` is 0 if it is held. An arbiter shown all open queues so picks
 * the same (capi/examples/trace.c).
 */
uint32_t nvmearb_ctrl_seen(const nvmearb_ctrl *ctrl, uint16_t qid, nvmearb_seen *seen);

/*
 * Tests whether something wrote into a controller or its slots by mistake: for tests, and what was restored.
 * NVMEARB_ESTATE too if the arbiter, a head or tail, a number of outstanding or picked commands, one used for a queue
 * or a slot, or a chain of slots is out of range. What the library wrote passes. Not each mistake is found, such as
 * another command in a slot, or another queue in the queue table.
 */
uint32_t nvmearb_ctrl_verify(const nvmearb_ctrl *ctrl, const nvmearb_slot *slots, size_t count);

/*
 * Returns 1 if the library is that of this header, by its version and the sizes of its states, else 0, and 0 for an
 * unproved one but where NVMEARB_ALLOW_UNPROVED is defined. Make no other call of a library of another header.
 */
static inline int nvmearb_is_of_this_header(void)
{
    uint32_t version = nvmearb_version();
#ifdef NVMEARB_ALLOW_UNPROVED
    version &= ~NVMEARB_UNPROVED;
#endif
    return version == NVMEARB_VERSION && nvmearb_size(NVMEARB_STATE_ARBITER) == sizeof(nvmearb_arbiter) &&
           nvmearb_size(NVMEARB_STATE_BOARD) == sizeof(nvmearb_board) &&
           nvmearb_size(NVMEARB_STATE_TABLE) == sizeof(nvmearb_table) &&
           nvmearb_size(NVMEARB_STATE_CTRL) == sizeof(nvmearb_ctrl) &&
           nvmearb_size(NVMEARB_STATE_SLOT) == sizeof(nvmearb_slot);
}

#ifdef __cplusplus
}
#endif

#endif
