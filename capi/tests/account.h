/*
 * An account of a controller, for the test of hostile.c: its queues and commands in plain lists, and what an admin
 * command is answered with. The rules are those of the specification, read a second time (docs/KEYS.md, "Checks
 * of admin commands").
 */
#ifndef ACCOUNT_H
#define ACCOUNT_H

#include <nvmearb.h>

#include <string.h>

enum { SLOTS = 600, NO_COMMAND = SLOTS, QUEUES = NVMEARB_MAX_QUEUES, LARGEST_QSIZE = 4095 };

enum state { NOT_HERE, WAITING, PICKED, OUT, READY };

/* A command, from its fetch until its completion is posted. */
struct command {
    enum state state;
    int has_tag;
    uint16_t qid, cqid; /* its queues */
    uint32_t tag;       /* once it was taken */
    uint32_t cookie, dw0;
    nvmearb_status status;
    uint8_t entry[NVMEARB_SQE_BYTES], flags;
};

/* Commands in an order, by their numbers. */
struct list {
    unsigned n;
    uint16_t at[SLOTS];
};

/* A queue, by its identifier, with what was counted in its ring since it was created. */
struct sq {
    enum { NO_QUEUE, OPEN, CLOSING } state;
    uint64_t address; /* stays after a deletion */
    uint16_t slots, region, cqid, priority;
    uint64_t submitted, fetched;
    unsigned unposted;
    int is_held;
    uint16_t deleting; /* the Delete of a closing queue */
    struct list waiting;
};
struct cq {
    int is_open;
    uint64_t address;
    uint16_t slots, region;
    uint64_t consumed, posted;
    struct list ready;
};

/* The regions of a kind, on which queues lie where they may not lie anywhere. */
struct regions {
    unsigned n;
    nvmearb_region at[NVMEARB_MAX_REGIONS];
    int is_used[NVMEARB_MAX_REGIONS];
};

static struct account {
    struct command commands[SLOTS];
    unsigned slots, held, pending;
    uint16_t depths[QUEUES];         /* by identifier */
    int is_slow;                     /* the device hardly completes anything */
    int stirs;                       /* the host mostly creates and deletes queues, and seldom resets the controller */
    int is_anywhere;                 /* queues may lie anywhere, within the limits of `placement` */
    nvmearb_placement placement;
    struct regions sq_regions, cq_regions;
    struct sq sqs[QUEUES];
    struct cq cqs[QUEUES];
    uint16_t nsq, ncq;               /* the allotted numbers of queues */
    int is_numbered;                 /* a Set of Number of Queues was accepted */
    unsigned creates;                /* how many Creates were */
    uint32_t cdw11;                  /* the Arbitration feature */
    struct list picked;
    uint16_t by_slot[SLOTS];         /* the commands that were taken by their tags' slots, or NO_COMMAND */
    nvmearb_arbiter arbiter;
    uint8_t opcodes[256], fids[256]; /* 1 for those that are the device's */
} account;

/* The tag under which the last command of each slot was taken, if one was, also by a controller of before. */
static struct last_tag {
    int is_known;
    uint32_t tag;
} last_tags[SLOTS];

/* The command of a slot that the device has, by its number, or NO_COMMAND. */
static uint16_t out_in(uint32_t slot)
{
    uint16_t number = slot < SLOTS ? account.by_slot[slot] : NO_COMMAND;
    return number < SLOTS && account.commands[number].state == OUT ? number : NO_COMMAND;
}

/* That under a tag. */
static uint16_t out_under(uint32_t tag)
{
    uint16_t number = out_in(NVMEARB_SLOT_OF(tag));
    return number < SLOTS && account.commands[number].tag == tag ? number : NO_COMMAND;
}

/* Whether a tag that was told is the last one of a slot, or of one of which none is known. */
static int may_be_last(uint32_t tag)
{
    uint32_t slot = NVMEARB_SLOT_OF(tag);
    return slot < account.slots && (!last_tags[slot].is_known || last_tags[slot].tag == tag);
}

static void push(struct list *list, uint16_t number)
{
    list->at[list->n++] = number;
}

/* Takes the number at a place of a list. */
static uint16_t pull(struct list *list, unsigned place)
{
    uint16_t number = list->at[place];
    list->n--;
    memmove(list->at + place, list->at + place + 1, (list->n - place) * sizeof *list->at);
    return number;
}

/* A submission queue that is open and isn't closing. */
static struct sq *open_sq(uint16_t qid)
{
    return qid < QUEUES && account.sqs[qid].state == OPEN ? &account.sqs[qid] : NULL;
}

static struct cq *open_cq(uint16_t cqid)
{
    return cqid < QUEUES && account.cqs[cqid].is_open ? &account.cqs[cqid] : NULL;
}

/* What an arbiter is shown: how many commands wait in each open queue, none in one that is held. */
static size_t observe(nvmearb_seen *seen)
{
    size_t n = 0;
    for (uint16_t qid = 0; qid < QUEUES; qid++) {
        const struct sq *sq = open_sq(qid);
        if (sq)
            seen[n++] = (nvmearb_seen){qid, sq->priority, (uint16_t)(sq->is_held ? 0 : sq->waiting.n)};
    }
    return n;
}

/* The statuses that no retry changes. */
static int has_dnr(nvmearb_status it)
{
    static const nvmearb_status final[] = {{0, 0x01}, {0, 0x02}, {0, 0x0c}, {0, 0x13}, {1, 0x00},
                                           {1, 0x01}, {1, 0x02}, {1, 0x08}, {1, 0x0d}};
    for (unsigned k = 0; k < sizeof final / sizeof *final; k++)
        if (it.sct == final[k].sct && it.sc == final[k].sc)
            return 1;
    return 0;
}

/* The completion of a command is ready. */
static void ready(uint16_t number, nvmearb_status status, uint32_t dw0, uint8_t flags)
{
    struct command *it = &account.commands[number];
    it->state = READY;
    it->status = status;
    it->dw0 = dw0;
    it->flags = flags;
    push(&account.cqs[it->cqid].ready, number);
}

/* So is that of one which the controller answers itself. */
static void answered(uint16_t number, nvmearb_status status, uint32_t dw0)
{
    ready(number, status, dw0, has_dnr(status) ? NVMEARB_DNR : 0);
}

/* ---- Admin commands ---- */

static const nvmearb_status success = {0, 0x00}, bad_opcode = {0, 0x01}, bad_field = {0, 0x02},
                            bad_sequence = {0, 0x0c}, bad_offset = {0, 0x13}, no_cq = {1, 0x00},
                            bad_identifier = {1, 0x01}, bad_size = {1, 0x02}, bad_vector = {1, 0x08},
                            bad_deletion = {1, 0x0c}, not_saveable = {1, 0x0d};

/* The halves of a dword: QID and QSIZE, SQID and CID, NSQR and NCQR. CQID and IV are upper ones. */
static uint16_t low(uint32_t dword)
{
    return (uint16_t)dword;
}

static uint16_t high(uint32_t dword)
{
    return (uint16_t)(dword >> 16);
}

/*
 * The region that a Create takes, or 0: an unused one at its address, of as many slots. Where queues may lie anywhere
 * the identifier stands for it.
 */
static uint16_t region_for(const struct regions *regions, const nvmearb_sqe *it)
{
    if (account.is_anywhere)
        return low(it->cdw10);
    for (uint16_t k = 1; k < regions->n; k++)
        if (!regions->is_used[k] && regions->at[k].address == it->prp1 && regions->at[k].slots == high(it->cdw10) + 1)
            return k;
    return 0;
}

/* What a Create is refused for where its queue may lie anywhere. */
static nvmearb_status placement_of(const nvmearb_sqe *it)
{
    if (high(it->cdw10) > account.placement.mqes)
        return bad_size;
    if (it->prp1 % account.placement.page)
        return bad_offset;
    return it->opcode == NVMEARB_OPC_CREATE_CQ && high(it->cdw11) >= account.placement.vectors ? bad_vector : success;
}

static nvmearb_status of_create_cq(const nvmearb_sqe *it)
{
    uint16_t qid = low(it->cdw10), qsize = high(it->cdw10);
    if (!(it->cdw11 & 1))
        return bad_field;
    if (qid == 0 || qid > account.ncq || open_cq(qid))
        return bad_identifier;
    if (qsize == 0 || qsize > LARGEST_QSIZE)
        return bad_size;
    return region_for(&account.cq_regions, it) ? success : bad_field;
}

static nvmearb_status of_create_sq(const nvmearb_sqe *it)
{
    uint16_t qid = low(it->cdw10), qsize = high(it->cdw10), cqid = high(it->cdw11);
    if (!(it->cdw11 & 1))
        return bad_field;
    if (qid == 0 || qid > account.nsq || account.sqs[qid].state != NO_QUEUE)
        return bad_identifier;
    if (qsize == 0 || qsize > LARGEST_QSIZE)
        return bad_size;
    if (cqid == 0 || cqid > account.ncq)
        return bad_identifier;
    if (!open_cq(cqid))
        return no_cq;
    return region_for(&account.sq_regions, it) ? success : bad_field;
}

static nvmearb_status of_delete_cq(uint16_t cqid)
{
    if (cqid == 0 || !open_cq(cqid))
        return bad_identifier;
    for (uint16_t qid = 1; qid < QUEUES; qid++)
        if (account.sqs[qid].state != NO_QUEUE && account.sqs[qid].cqid == cqid)
            return bad_deletion;
    return success;
}

static nvmearb_status of_features(const nvmearb_sqe *it)
{
    uint8_t fid = (uint8_t)it->cdw10;
    int is_numbers = fid == NVMEARB_FID_NUMBER_OF_QUEUES;
    if (fid != NVMEARB_FID_ARBITRATION && !is_numbers)
        return bad_field;
    if (it->opcode == NVMEARB_OPC_GET_FEATURES)
        return success;
    if (it->cdw10 >> 31)
        return not_saveable;
    if (is_numbers && account.creates)
        return bad_sequence;
    return is_numbers && (low(it->cdw11) == 0xffff || high(it->cdw11) == 0xffff) ? bad_field : success;
}

/* The status of an admin command. */
static nvmearb_status status_of(const nvmearb_sqe *it)
{
    int is_create = it->opcode == NVMEARB_OPC_CREATE_CQ || it->opcode == NVMEARB_OPC_CREATE_SQ;
    nvmearb_status placed = account.is_anywhere && is_create ? placement_of(it) : success;
    if (it->flags & 3)
        return bad_field;
    if (placed.sct || placed.sc)
        return placed;
    switch (it->opcode) {
    case NVMEARB_OPC_CREATE_CQ:
        return of_create_cq(it);
    case NVMEARB_OPC_CREATE_SQ:
        return of_create_sq(it);
    case NVMEARB_OPC_DELETE_CQ:
        return of_delete_cq(low(it->cdw10));
    case NVMEARB_OPC_DELETE_SQ:
        return low(it->cdw10) && open_sq(low(it->cdw10)) ? success : bad_identifier;
    case NVMEARB_OPC_SET_FEATURES:
    case NVMEARB_OPC_GET_FEATURES:
        return of_features(it);
    }
    return it->opcode == NVMEARB_OPC_ABORT ? success : bad_opcode;
}

/* A Create is accepted. Its queue is a new one, whatever had its identifier or its memory before. */
static nvmearb_answer opens_cq(const nvmearb_sqe *it)
{
    uint16_t qid = low(it->cdw10), slots = (uint16_t)(high(it->cdw10) + 1);
    uint16_t region = region_for(&account.cq_regions, it);
    account.creates++;
    account.cq_regions.is_used[region] = 1;
    account.cqs[qid] = (struct cq){.is_open = 1, .address = it->prp1, .slots = slots, .region = region};
    return (nvmearb_answer){.verdict = NVMEARB_OPEN_CQ, .qid = qid, .region = region};
}

static nvmearb_answer opens_sq(const nvmearb_sqe *it)
{
    uint16_t qid = low(it->cdw10), slots = (uint16_t)(high(it->cdw10) + 1), cqid = high(it->cdw11);
    uint16_t region = region_for(&account.sq_regions, it), priority = (uint16_t)(NVMEARB_URGENT + (it->cdw11 >> 1 & 3));
    account.creates++;
    account.sq_regions.is_used[region] = 1;
    account.sqs[qid] = (struct sq){.state = OPEN, .address = it->prp1, .slots = slots,
                                   .region = region, .cqid = cqid, .priority = priority};
    return (nvmearb_answer){
        .verdict = NVMEARB_OPEN_SQ, .qid = qid, .region = region, .cqid = cqid, .priority = priority};
}

/* An accepted Set or Get Features. The first Set of Number of Queues fixes the numbers. */
static nvmearb_answer does_features(const nvmearb_sqe *it)
{
    int is_set = it->opcode == NVMEARB_OPC_SET_FEATURES;
    if ((uint8_t)it->cdw10 == NVMEARB_FID_ARBITRATION) {
        if (!is_set)
            return (nvmearb_answer){.verdict = NVMEARB_DONE, .dw0 = account.cdw11};
        account.cdw11 = it->cdw11 & ~0xf8u;
        return (nvmearb_answer){.verdict = NVMEARB_SET_ARBITRATION, .cdw11 = account.cdw11};
    }
    if (is_set && !account.is_numbered) {
        account.nsq = low(it->cdw11) + 1 < account.nsq ? (uint16_t)(low(it->cdw11) + 1) : account.nsq;
        account.ncq = high(it->cdw11) + 1 < account.ncq ? (uint16_t)(high(it->cdw11) + 1) : account.ncq;
        account.is_numbered = 1;
    }
    return (nvmearb_answer){.verdict = NVMEARB_DONE, .dw0 = (account.nsq - 1u) | (account.ncq - 1u) << 16};
}

/* An admin command is answered, and takes effect. */
static nvmearb_answer answer_to(const nvmearb_sqe *it)
{
    uint16_t qid = low(it->cdw10);
    nvmearb_status status = status_of(it);
    if (status.sct || status.sc)
        return (nvmearb_answer){.verdict = NVMEARB_DONE, .status = status};
    switch (it->opcode) {
    case NVMEARB_OPC_CREATE_CQ:
        return opens_cq(it);
    case NVMEARB_OPC_CREATE_SQ:
        return opens_sq(it);
    case NVMEARB_OPC_DELETE_CQ:
        account.cqs[qid].is_open = 0;
        return (nvmearb_answer){.verdict = NVMEARB_CLOSE_CQ, .qid = qid};
    case NVMEARB_OPC_DELETE_SQ:
        account.sqs[qid].state = CLOSING;
        return (nvmearb_answer){.verdict = NVMEARB_BEGIN_DELETE, .qid = qid};
    case NVMEARB_OPC_ABORT:
        return (nvmearb_answer){.verdict = NVMEARB_ABORT, .qid = qid, .cid = high(it->cdw10)};
    }
    return does_features(it);
}

/* A step tells what a Create asked for that made a queue. A submission queue has no interrupts of its own. */
static int is_asked(const nvmearb_asked *told, const nvmearb_sqe *it, const nvmearb_answer *answer)
{
    int is_cq = answer->verdict == NVMEARB_OPEN_CQ, is_new = is_cq || answer->verdict == NVMEARB_OPEN_SQ;
    return told->address == (is_new ? it->prp1 : 0) && told->qsize == (is_new ? high(it->cdw10) : 0) &&
           told->vector == (is_cq ? high(it->cdw11) : 0) && told->interrupts == (is_cq ? it->cdw11 >> 1 & 1 : 0);
}

#endif
