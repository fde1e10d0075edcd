/*
 * A controller over any number of slots, its host and its device, for the tests of what stops and what goes on. The
 * commands of a queue have the identifiers 0, 1, 2 and so on, in the order in which they are fetched.
 */
#ifndef DRIVE_H
#define DRIVE_H

#include <nvmearb.h>

#include "tell.h"

#include <string.h>

enum { IDENTIFY = 0x06, EVENT_REQUEST = 0x0c, ADMIN_RING = 32 };

static nvmearb_ctrl ctrl;
static nvmearb_slot slots[NVMEARB_MAX_SLOTS];
static size_t count; /* of slots */

/* Of the queues of an identifier: the slots of their rings, and how many commands were submitted and fetched. */
static struct {
    uint16_t sq_slots, cq_slots;
    uint32_t submitted, fetched;
} queues[NVMEARB_MAX_QUEUES];

static const nvmearb_status success = {NVMEARB_SCT_GENERIC, NVMEARB_SC_SUCCESS};

/* Round robin with no limit on the burst, and a depth of 256. */
static const nvmearb_config config = {
    {0x1000, ADMIN_RING}, {0x2000, ADMIN_RING}, NVMEARB_ROUND_ROBIN, 7, 64, 64, 256, ADMIN_RING};

/* A controller over so many slots, as they are. Identify and event requests are the device's. */
static inline int is_made(const nvmearb_config *with, size_t of_slots)
{
    static const nvmearb_placement placement = {4096, 4095, 1};
    memset(queues, 0, sizeof queues);
    count = of_slots, queues[0].sq_slots = with->asq.slots, queues[0].cq_slots = with->acq.slots;
    return nvmearb_ctrl_init_anywhere(&ctrl, slots, count, with, &placement) == NVMEARB_OK &&
           nvmearb_ctrl_own_opcode(&ctrl, IDENTIFY) == NVMEARB_OK &&
           nvmearb_ctrl_own_opcode(&ctrl, EVENT_REQUEST) == NVMEARB_OK;
}

/* ---- The host ---- */

/* It submits n commands more by one doorbell write. */
static inline int rings(uint16_t qid, uint32_t n)
{
    queues[qid].submitted += n;
    return nvmearb_ctrl_sq_tail(&ctrl, qid, (uint16_t)(queues[qid].submitted % queues[qid].sq_slots)) == NVMEARB_OK;
}

/* One of them is fetched. */
static inline int is_fetched(uint16_t qid, uint8_t opcode, uint32_t cdw10, uint32_t cdw11)
{
    uint16_t slot = 0xeeee, number = (uint16_t)queues[qid].fetched;
    uint8_t bytes[NVMEARB_SQE_BYTES];
    nvmearb_sqe entry = {.opcode = opcode, .cid = number, .nsid = 1, .prp1 = 0x10000, .cdw10 = cdw10, .cdw11 = cdw11};
    nvmearb_sqe_encode(&entry, bytes);
    if (nvmearb_ctrl_fetch(&ctrl, qid, &slot) != NVMEARB_OK || slot != queues[qid].fetched % queues[qid].sq_slots)
        return 0;
    queues[qid].fetched++;
    return nvmearb_ctrl_fetched(&ctrl, slots, count, qid, bytes, number) == NVMEARB_OK;
}

/* An admin command is submitted and fetched. */
static inline int submits(uint8_t opcode, uint32_t cdw10, uint32_t cdw11)
{
    return rings(0, 1) && is_fetched(0, opcode, cdw10, cdw11);
}

/* The identifier of the last of them. */
static inline uint16_t last(void)
{
    return (uint16_t)(queues[0].fetched - 1);
}

/* Each submitted Read of a queue that may be is fetched. Returns how many. */
static inline unsigned fetch_all(uint16_t qid)
{
    unsigned n = 0;
    while (is_fetched(qid, NVMEARB_OPC_READ, 0, 0))
        n++;
    return n;
}

/* The next completion of a queue is that of this command. The host reads it. */
static inline int is_answered(uint16_t cqid, uint16_t cid, nvmearb_status status, uint32_t dw0)
{
    nvmearb_post post;
    nvmearb_cqe cqe;
    uint8_t flags;
    if (nvmearb_ctrl_post(&ctrl, slots, count, cqid, &post) != NVMEARB_OK)
        return 0;
    return nvmearb_cqe_decode_with(post.bytes, &cqe, &flags) == NVMEARB_OK && flags <= NVMEARB_DNR && cqe.cid == cid && cqe.dw0 == dw0 &&
           cqe.status.sct == status.sct && cqe.status.sc == status.sc &&
           nvmearb_ctrl_cq_head(&ctrl, cqid, (uint16_t)((post.slot + 1) % queues[cqid].cq_slots)) == NVMEARB_OK;
}

/* The last admin command is answered next, with success. */
static inline int last_answered(uint32_t dw0)
{
    return is_answered(0, last(), success, dw0);
}

/* All that can be is posted to a queue. A host that reads frees each slot. Returns how many there were. */
static inline unsigned post_all(uint16_t cqid, int reads)
{
    nvmearb_post post;
    unsigned n = 0;
    for (; nvmearb_ctrl_post(&ctrl, slots, count, cqid, &post) == NVMEARB_OK; n++)
        if (reads)
            CHECK(nvmearb_ctrl_cq_head(&ctrl, cqid, (uint16_t)((post.slot + 1) % queues[cqid].cq_slots)) == NVMEARB_OK);
    return n;
}

/* ---- The device ---- */

static inline int picks(uint16_t room, uint32_t kind, nvmearb_step *step)
{
    return nvmearb_ctrl_pick(&ctrl, slots, count, room, step) == NVMEARB_OK && step->kind == kind;
}

static inline int picks_none(uint16_t room, uint32_t want)
{
    nvmearb_step step;
    return nvmearb_ctrl_pick(&ctrl, slots, count, room, &step) == want;
}

/* An admin command is picked and carried out, and comes to this. */
static inline int comes_to(uint32_t verdict)
{
    nvmearb_step step;
    return picks(1, NVMEARB_CARRIED_OUT, &step) && step.answer.verdict == verdict;
}

static inline int takes(uint32_t *tag)
{
    nvmearb_command it;
    if (nvmearb_ctrl_take(&ctrl, slots, count, &it) != NVMEARB_OK)
        return 0;
    *tag = it.tag;
    return 1;
}

/* An admin command is picked and handed to the device. */
static inline int is_passed(uint32_t *tag)
{
    nvmearb_step step;
    return picks(1, NVMEARB_PASSED, &step) && takes(tag);
}

static inline int completes(uint32_t tag, nvmearb_status status, uint32_t dw0)
{
    return nvmearb_ctrl_complete(&ctrl, slots, count, tag, &status, dw0) == NVMEARB_OK;
}

/* All that waits is picked and taken, with no limit, before any command ends. Returns how many. */
static inline unsigned take_all(uint32_t *tags)
{
    nvmearb_step step;
    unsigned n = 0;
    while (nvmearb_ctrl_pick(&ctrl, slots, count, NVMEARB_NO_LIMIT, &step) == NVMEARB_OK)
        while (takes(&tags[n]))
            n++;
    CHECK(picks_none(NVMEARB_NO_LIMIT, NVMEARB_NONE));
    return n;
}

/* And the device ends them all. */
static inline unsigned serve_all(void)
{
    static uint32_t tags[NVMEARB_MAX_SLOTS];
    unsigned n = take_all(tags);
    for (unsigned k = 0; k < n; k++)
        CHECK(completes(tags[k], success, 0));
    return n;
}

static inline int finishes(uint16_t qid)
{
    uint16_t gone = 0xeeee;
    return nvmearb_ctrl_finish(&ctrl, slots, count, &gone) == NVMEARB_OK && gone == qid;
}

static inline int finishes_none(void)
{
    uint16_t gone;
    return nvmearb_ctrl_finish(&ctrl, slots, count, &gone) == NVMEARB_NONE;
}

/* ---- Both ---- */

/* The host creates the queues of an identifier, with rings of so many slots, and reads both answers. */
static inline int has_queues(uint16_t qid, uint16_t sq_slots, uint16_t cq_slots, uint32_t qprio)
{
    uint32_t cq = (cq_slots - 1u) << 16 | qid, sq = (sq_slots - 1u) << 16 | qid;
    queues[qid].sq_slots = sq_slots, queues[qid].cq_slots = cq_slots;
    queues[qid].submitted = queues[qid].fetched = 0;
    return submits(NVMEARB_OPC_CREATE_CQ, cq, 1) && comes_to(NVMEARB_OPEN_CQ) && last_answered(0) &&
           submits(NVMEARB_OPC_CREATE_SQ, sq, (uint32_t)qid << 16 | qprio << 1 | 1) && comes_to(NVMEARB_OPEN_SQ) &&
           last_answered(0);
}

/* The host asks for the burst, and is told. */
static inline int admin_goes_on(uint32_t cdw11)
{
    return submits(NVMEARB_OPC_GET_FEATURES, NVMEARB_FID_ARBITRATION, 0) && comes_to(NVMEARB_DONE) &&
           last_answered(cdw11);
}

#endif
