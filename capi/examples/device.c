/*
 * A device over nvmearb_ctrl, to be copied: an array stands for guest memory, and another one for the blocks of its
 * namespace. It serves the admin queues and one I/O queue pair. The host is at the bottom.
 */
#include <nvmearb.h>
#include <stdio.h>
#include <string.h>

#define QUEUES 1 /* the I/O queues of a kind */
#define RING 8   /* the slots of each ring */
/* The slots of the controller: enough that commands of one queue never keep those of the other from being fetched. */
#define COMMANDS ((QUEUES + 1) * RING)
#define BLOCKS 16
#define BLOCK 512
#define PAGE 4096

struct device {
    nvmearb_ctrl ctrl;
    nvmearb_slot slots[COMMANDS];
    uint64_t sqs[QUEUES + 1], cqs[QUEUES + 1]; /* where the rings lie, by the identifiers of their queues */
    uint16_t sq, cq;                           /* the queues that had the last turn */
    int has_failed;                            /* CSTS.CFS: a ring isn't in memory, and the device waits for a reset */
    uint8_t blocks[BLOCKS][BLOCK];
};
static struct device device;

/* Guest memory: the rings, and pages of data. */
static uint8_t memory[0x8000];

/* Where bytes lie in guest memory, or NULL. */
static uint8_t *place(uint64_t address, size_t length)
{
    return address > sizeof memory || length > sizeof memory - address ? NULL : memory + address;
}

/* CC.EN becomes 1: the host has written ASQ and ACQ. Nothing is left of before. */
static uint32_t enable(struct device *d, uint64_t asq, uint64_t acq)
{
    nvmearb_config config = {
        .asq = {.address = asq, .slots = RING},
        .acq = {.address = acq, .slots = RING},
        .mechanism = NVMEARB_WEIGHTED,
        .cdw11 = 0x01000001, /* burst 2; weights: high 2, medium 1, low 1 */
        .nsq = QUEUES,
        .ncq = QUEUES,
        .depth = RING,
        .admin_depth = RING,
    };
    nvmearb_placement placement = {.page = PAGE, .mqes = RING - 1, .vectors = 1};
    d->sqs[0] = asq, d->cqs[0] = acq;
    d->has_failed = 0;
    return nvmearb_ctrl_init_anywhere(&d->ctrl, d->slots, COMMANDS, &config, &placement);
}

/* Keeps where the queue lies that a Create made. With interrupts, the vector and the enable bit are kept too. */
static void keep(struct device *d, const nvmearb_step *step)
{
    if (step->answer.verdict == NVMEARB_OPEN_SQ)
        d->sqs[step->answer.qid] = step->asked.address;
    if (step->answer.verdict == NVMEARB_OPEN_CQ)
        d->cqs[step->answer.qid] = step->asked.address;
}

/*
 * Fetches what the host submitted to a queue, from this slot of its ring on. This and the three below return whether they
 * did anything.
 */
static int fetch(struct device *d, uint16_t qid, uint16_t slot)
{
    uint8_t bytes[NVMEARB_SQE_BYTES]; /* a copy: the host may write there */
    do {
        const uint8_t *entry = place(d->sqs[qid] + slot * sizeof bytes, sizeof bytes);
        d->has_failed |= !entry;
        if (!entry)
            return 0;
        memcpy(bytes, entry, sizeof bytes);
        nvmearb_ctrl_fetched(&d->ctrl, d->slots, COMMANDS, qid, bytes, qid);
    } while (nvmearb_ctrl_fetch(&d->ctrl, qid, &slot) == NVMEARB_OK);
    return 1;
}

/*
 * Executes a command: Reads and Writes of blocks in one page that PRP1 names. It reads no PRP2, and refuses what goes
 * over the end of the page with 0/02, Invalid Field in Command.
 */
static nvmearb_status execute(struct device *d, const nvmearb_sqe *entry)
{
    static const uint64_t sizes[] = {BLOCKS};
    nvmearb_status status;
    size_t length = ((entry->cdw12 & 0xffff) + 1) * BLOCK;
    nvmearb_check(entry, sizes, 1, &status);
    if (status.sct || status.sc || entry->opcode == NVMEARB_OPC_FLUSH)
        return status;
    if (entry->prp1 % 4)
        return (nvmearb_status){NVMEARB_SCT_GENERIC, NVMEARB_SC_PRP_OFFSET_INVALID};
    if (length > PAGE - entry->prp1 % PAGE)
        return (nvmearb_status){NVMEARB_SCT_GENERIC, NVMEARB_SC_INVALID_FIELD};
    uint8_t *data = place(entry->prp1, length);
    if (!data)
        return (nvmearb_status){NVMEARB_SCT_GENERIC, NVMEARB_SC_DATA_TRANSFER_ERROR};
    if (entry->opcode == NVMEARB_OPC_READ)
        memcpy(data, d->blocks[entry->cdw10], length);
    else
        memcpy(d->blocks[entry->cdw10], data, length);
    return status;
}

/*
 * Executes what arbitration picks. Each command ends before the next pick, so there is always room. A device may just as
 * well complete a command later, and then passes how many more it can take.
 */
static int work(struct device *d)
{
    int did = 0;
    uint16_t gone;
    nvmearb_command command;
    nvmearb_step step;
    while (nvmearb_ctrl_pick(&d->ctrl, d->slots, COMMANDS, NVMEARB_NO_LIMIT, &step) == NVMEARB_OK) {
        did = 1;
        keep(d, &step);
        while (nvmearb_ctrl_take(&d->ctrl, d->slots, COMMANDS, &command) == NVMEARB_OK) {
            nvmearb_status status = execute(d, &command.entry);
            uint8_t flags = status.sct || status.sc ? NVMEARB_DNR : 0; /* what fails here would fail again */
            nvmearb_ctrl_complete_with(&d->ctrl, d->slots, COMMANDS, command.tag, &status, 0, flags);
        }
        nvmearb_ctrl_finish(&d->ctrl, d->slots, COMMANDS, &gone); /* of an empty queue, before its completion queue's */
    }
    return did;
}

/* Writes the completions of a completion queue, and would send the interrupt. */
static int post(struct device *d, uint16_t cqid)
{
    int did = 0;
    nvmearb_post post;
    for (; nvmearb_ctrl_post(&d->ctrl, d->slots, COMMANDS, cqid, &post) == NVMEARB_OK; did = 1) {
        uint8_t *entry = place(d->cqs[cqid] + post.slot * sizeof post.bytes, sizeof post.bytes);
        d->has_failed |= !entry;
        if (!entry)
            return 0;
        memcpy(entry, post.bytes, 12);
        /* a host on another thread wants a release barrier here: Dword 3 has the phase tag */
        memcpy(entry + 12, post.bytes + 12, 4);
    }
    return did;
}

/* A pass over the queues with work: picks make room for fetches, posts for picks, and the end of a deletion for both. */
static int pass(struct device *d)
{
    int did = 0;
    uint16_t slot, gone;
    while (!d->has_failed && nvmearb_ctrl_next_fetch(&d->ctrl, &d->sq, &slot) == NVMEARB_OK)
        did |= fetch(d, d->sq, slot);
    did |= work(d);
    while (!d->has_failed && nvmearb_ctrl_next_to_post(&d->ctrl, d->slots, COMMANDS, &d->cq) == NVMEARB_OK)
        did |= post(d, d->cq);
    return did | (nvmearb_ctrl_finish(&d->ctrl, d->slots, COMMANDS, &gone) == NVMEARB_OK);
}

/* A doorbell write: `doorbell` is 2 * QID, or 2 * QID + 1 for a completion queue. An invalid one is an error event. */
static uint32_t rings(struct device *d, uint16_t doorbell, uint32_t value)
{
    uint16_t qid = doorbell / 2, to = (uint16_t)value;
    uint32_t told = doorbell % 2 ? nvmearb_ctrl_cq_head(&d->ctrl, qid, to) : nvmearb_ctrl_sq_tail(&d->ctrl, qid, to);
    while (!d->has_failed && pass(d))
        ;
    return told;
}

/* Where the host puts its rings, by the identifiers of their queues. */
static const uint64_t sq_address[] = {0x1000, 0x3000}, cq_address[] = {0x2000, 0x4000};

/* The host's side of a queue pair. */
struct pair {
    uint16_t qid, tail, head;
    uint8_t phase;
};

/* Writes a command into its slot, and returns its identifier. */
static uint16_t submit(struct pair *pair, nvmearb_sqe entry)
{
    entry.cid = pair->tail;
    nvmearb_sqe_encode(&entry, memory + sq_address[pair->qid] + pair->tail * NVMEARB_SQE_BYTES);
    pair->tail = (pair->tail + 1) % RING;
    return entry.cid;
}

/* Takes the completion of a command: its status as SCT * 256 + SC, or -1 where it didn't come. */
static int collect(struct pair *pair, uint16_t cid)
{
    nvmearb_cqe done;
    uint8_t flags;
    const uint8_t *bytes = memory + cq_address[pair->qid] + pair->head * NVMEARB_CQE_BYTES;
    if (nvmearb_cqe_decode_with(bytes, &done, &flags) != NVMEARB_OK || done.phase != pair->phase || done.cid != cid ||
        done.sqhd != pair->tail)
        return -1;
    pair->head = (pair->head + 1) % RING;
    pair->phase ^= pair->head == 0;
    return rings(&device, 2 * pair->qid + 1, pair->head) == NVMEARB_OK ? done.status.sct * 256 + done.status.sc : -1;
}

/* Submits a command, and takes its completion. */
static int run(struct pair *pair, nvmearb_sqe entry)
{
    uint16_t cid = submit(pair, entry);
    return rings(&device, 2 * pair->qid, pair->tail) == NVMEARB_OK ? collect(pair, cid) : -1;
}

/* Deletes the I/O queues by one doorbell write. */
static int delete_queues(struct pair *admin)
{
    uint16_t sq = submit(admin, (nvmearb_sqe){.opcode = NVMEARB_OPC_DELETE_SQ, .cdw10 = 1});
    uint16_t cq = submit(admin, (nvmearb_sqe){.opcode = NVMEARB_OPC_DELETE_CQ, .cdw10 = 1});
    return rings(&device, 0, admin->tail) == NVMEARB_OK && collect(admin, sq) == 0 && collect(admin, cq) == 0 ? 0 : -1;
}

/* Whether the library is that of the header. One of which nothing is proved is another one. */
static int is_of_this_header(void)
{
    const char *is = nvmearb_version() & NVMEARB_UNPROVED ? "an unproved build, which -DNVMEARB_ALLOW_UNPROVED takes" : "not that of nvmearb.h";
    if (nvmearb_is_of_this_header())
        return 1;
    fprintf(stderr, "device: libnvmearb is %s\n", is);
    return 0;
}

int main(void)
{
    if (!is_of_this_header())
        return 1;
    struct pair admin = {.qid = 0, .phase = 1}, io = {.qid = 1, .phase = 1};
    uint32_t cdw10 = (RING - 1) << 16 | 1;
    nvmearb_sqe create_cq = {.opcode = NVMEARB_OPC_CREATE_CQ, .prp1 = cq_address[1], .cdw10 = cdw10, .cdw11 = 1};
    nvmearb_sqe create_sq = {.opcode = NVMEARB_OPC_CREATE_SQ, .prp1 = sq_address[1], .cdw10 = cdw10, .cdw11 = 0x10001};
    nvmearb_sqe write = {.opcode = NVMEARB_OPC_WRITE, .nsid = 1, .prp1 = 0x5000, .cdw10 = 3};
    nvmearb_sqe read = {.opcode = NVMEARB_OPC_READ, .nsid = 1, .prp1 = 0x6000, .cdw10 = 3}, over = read, sgl = read;
    int wrong = enable(&device, sq_address[0], cq_address[0]) != NVMEARB_OK;
    wrong += run(&admin, create_cq) != 0 || run(&admin, create_sq) != 0;
    for (int n = 0; n < 20; n++) { /* twice round the rings and more */
        memset(memory + 0x5000, n, BLOCK);
        wrong += run(&io, write) != 0 || run(&io, read) != 0 || memcmp(memory + 0x6000, memory + 0x5000, BLOCK) != 0;
    }
    over.prp1 = 0x6f00; /* over the end of its page */
    sgl.flags = 0x40;   /* PSDT */
    wrong += run(&io, over) != NVMEARB_SC_INVALID_FIELD || run(&io, sgl) != NVMEARB_SC_INVALID_FIELD;
    read.cdw10 = BLOCKS;
    wrong += run(&io, read) != NVMEARB_SC_LBA_OUT_OF_RANGE;
    wrong += delete_queues(&admin) != 0;
    wrong += rings(&device, 2, 0) != NVMEARB_NONE; /* the doorbell of a queue that is gone */
    printf("%u passed, %u failed\n", wrong == 0, wrong != 0);
    return wrong != 0;
}
