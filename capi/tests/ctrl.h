/* A controller of 16 slots, and what is asked of it, for the tests of ctrl.c, room.c and verify.c. */
#ifndef CTRL_H
#define CTRL_H

#include <nvmearb.h>

#include <string.h>

#define SLOTS 16
#define ASQ 0x1000
#define ACQ 0x2000
#define SQ 0x3000
#define CQ 0x4000

/* Identify, Asynchronous Event Request, and the feature identifier of Asynchronous Event Configuration. */
enum { IDENTIFY = 0x06, EVENT_REQUEST = 0x0c, EVENTS = 0x0b };

static nvmearb_ctrl ctrl;
static nvmearb_slot slots[SLOTS];
static const nvmearb_status success = {NVMEARB_SCT_GENERIC, NVMEARB_SC_SUCCESS};

/* Admin queues of 8 slots, at most 4 I/O queues of a kind, no limit on the burst, depths of all slots. */
static const nvmearb_config config = {{ASQ, 8}, {ACQ, 8}, NVMEARB_ROUND_ROBIN, 7, 4, 4, SLOTS, SLOTS};

/* The bytes of an entry. */
static inline void entry_of(uint8_t opcode, uint16_t cid, uint64_t prp1, uint32_t cdw10, uint32_t cdw11, uint8_t *bytes)
{
    nvmearb_sqe entry = {.opcode = opcode, .cid = cid, .nsid = 1, .prp1 = prp1, .cdw10 = cdw10, .cdw11 = cdw11};
    nvmearb_sqe_encode(&entry, bytes);
}

/* The entry that is to be read next is that of a slot, and it is read. */
static inline int fetched(uint16_t qid, uint16_t slot, uint8_t opcode, uint16_t cid, uint64_t prp1, uint32_t cdw10,
                   uint32_t cdw11)
{
    uint8_t bytes[NVMEARB_SQE_BYTES];
    uint16_t told = 0xeeee;
    entry_of(opcode, cid, prp1, cdw10, cdw11, bytes);
    return nvmearb_ctrl_fetch(&ctrl, qid, &told) == NVMEARB_OK && told == slot &&
           nvmearb_ctrl_fetched(&ctrl, slots, SLOTS, qid, bytes, 1000u + cid) == NVMEARB_OK;
}

static inline int read_fetched(uint16_t slot, uint16_t cid)
{
    return fetched(1, slot, NVMEARB_OPC_READ, cid, 0, 0, 0);
}

/* Nothing is to be read. */
static inline int none_to_fetch(uint16_t qid)
{
    uint16_t told = 0xeeee;
    return nvmearb_ctrl_fetch(&ctrl, qid, &told) == NVMEARB_NONE && told == 0xeeee;
}

/* A command of the admin queue is carried out, and comes to this verdict. */
static inline int carried_out(uint32_t verdict)
{
    nvmearb_step step;
    return nvmearb_ctrl_pick(&ctrl, slots, SLOTS, NVMEARB_NO_LIMIT, &step) == NVMEARB_OK &&
           step.kind == NVMEARB_CARRIED_OUT && step.answer.verdict == verdict;
}

/* Commands of queue 1 are picked. */
static inline int picked(uint16_t n)
{
    nvmearb_step step;
    nvmearb_pick pick;
    return nvmearb_ctrl_peek(&ctrl, slots, SLOTS, &pick) == NVMEARB_OK && pick.qid == 1 && pick.n == n &&
           nvmearb_ctrl_pick(&ctrl, slots, SLOTS, NVMEARB_NO_LIMIT, &step) == NVMEARB_OK &&
           step.kind == NVMEARB_PICKED && step.pick.qid == 1 && step.pick.n == n && step.pick.fresh == 0;
}

/* A pick with this room answers this, and writes nothing. */
static inline int picks_none_with(uint16_t room, uint32_t want)
{
    nvmearb_step step, before;
    memset(&step, 0xee, sizeof step);
    before = step;
    return nvmearb_ctrl_pick(&ctrl, slots, SLOTS, room, &step) == want && memcmp(&step, &before, sizeof step) == 0;
}

static inline int picks_none(uint32_t want)
{
    return picks_none_with(NVMEARB_NO_LIMIT, want);
}

/* The command with this identifier is taken, under the tag that is told. */
static inline int taken(uint16_t cid, uint32_t *tag)
{
    nvmearb_command command, again;
    int is_well = nvmearb_ctrl_take(&ctrl, slots, SLOTS, &command) == NVMEARB_OK && command.entry.cid == cid &&
                  command.entry.opcode == NVMEARB_OPC_READ && command.entry.nsid == 1 && command.cookie == 1000u + cid;
    *tag = command.tag;
    return is_well && nvmearb_ctrl_command(&ctrl, slots, SLOTS, command.tag, &again) == NVMEARB_OK &&
           again.tag == command.tag && again.entry.cid == cid && again.cookie == command.cookie;
}

static inline int completes(uint32_t tag, nvmearb_status status, uint32_t dw0, uint32_t want)
{
    return nvmearb_ctrl_complete(&ctrl, slots, SLOTS, tag, &status, dw0) == want;
}

static inline int completes_with(uint32_t tag, nvmearb_status status, unsigned flags, uint32_t want)
{
    return nvmearb_ctrl_complete_with(&ctrl, slots, SLOTS, tag, &status, 0, (uint8_t)flags) == want;
}

/*
 * A completion is posted to a completion queue with these fields, by a submission queue of the same identifier. `top` is
 * bits 31:28 of Dword 3: 8 is Do Not Retry, and 4 is More.
 */
static inline int posted_with(uint16_t cqid, uint16_t slot, uint16_t sqhd, uint16_t cid, uint8_t phase,
                              nvmearb_status status, uint32_t dw0, unsigned top)
{
    nvmearb_post post;
    nvmearb_cqe cqe;
    uint8_t flags;
    if (nvmearb_ctrl_post(&ctrl, slots, SLOTS, cqid, &post) != NVMEARB_OK || post.bytes[15] >> 4 != top)
        return 0;
    return post.slot == slot && post.cookie == 1000u + cid &&
           nvmearb_cqe_decode_with(post.bytes, &cqe, &flags) == NVMEARB_OK &&
           flags == (top & 8 ? NVMEARB_DNR : 0) + (top & 4 ? NVMEARB_MORE : 0) && cqe.sqhd == sqhd && cqe.sqid == cqid && cqe.cid == cid && cqe.phase == phase &&
           cqe.status.sct == status.sct && cqe.status.sc == status.sc && cqe.dw0 == dw0;
}

static inline int posted(uint16_t cqid, uint16_t slot, uint16_t sqhd, uint16_t cid, uint8_t phase,
                         nvmearb_status status, uint32_t dw0)
{
    return posted_with(cqid, slot, sqhd, cid, phase, status, dw0, 0);
}

static inline int none_to_post(uint16_t cqid)
{
    nvmearb_post post;
    return nvmearb_ctrl_post(&ctrl, slots, SLOTS, cqid, &post) == NVMEARB_NONE;
}

/* A controller with the regions of queues 1, of 4 slots. */
static inline int is_made(uint32_t mechanism)
{
    nvmearb_config it = config;
    uint16_t sq = 0, cq = 0;
    it.mechanism = mechanism;
    return nvmearb_ctrl_init(&ctrl, slots, SLOTS, &it) == NVMEARB_OK &&
           nvmearb_ctrl_add_sq_region(&ctrl, SQ, 4, &sq) == NVMEARB_OK && sq == 1 &&
           nvmearb_ctrl_add_cq_region(&ctrl, CQ, 4, &cq) == NVMEARB_OK && cq == 1;
}

/* And one whose host created both queues. */
static inline int is_prepared(uint32_t mechanism)
{
    return is_made(mechanism) && nvmearb_ctrl_sq_tail(&ctrl, 0, 2) == NVMEARB_OK &&
           fetched(0, 0, NVMEARB_OPC_CREATE_CQ, 10, CQ, 0x00030001, 0x00000001) &&
           fetched(0, 1, NVMEARB_OPC_CREATE_SQ, 11, SQ, 0x00030001, 0x00010001) && none_to_fetch(0) &&
           carried_out(NVMEARB_OPEN_CQ) && carried_out(NVMEARB_OPEN_SQ) && picks_none(NVMEARB_NONE) &&
           posted(0, 0, 2, 10, 1, success, 0) && posted(0, 1, 2, 11, 1, success, 0) && none_to_post(0) &&
           nvmearb_ctrl_cq_head(&ctrl, 0, 3) == NVMEARB_EARG && nvmearb_ctrl_cq_head(&ctrl, 0, 2) == NVMEARB_OK;
}

#endif
