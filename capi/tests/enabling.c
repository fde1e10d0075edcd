/*
 * What the device of ../examples/nvme.h makes of CC, by Base Specification 2.0, Controller Configuration: where a host
 * chooses what CAP or Identify doesn't allow, the controller has failed (CSTS.CFS) until it is disabled. The sizes of I/O
 * entries may be chosen later, but before I/O queues are created: until then a Create ends with 1/02. And what
 * nvme_init refuses.
 */
#include "host.h"

#include "../examples/memory.h"

enum { READY = 1, FAILED = 2, INVALID_QUEUE_SIZE = 0x102, SUCCESS = 0 };

static uint64_t csts(void)
{
    return nvme_read(&device, AT_CSTS, 4);
}

static void disable(void)
{
    nvme_write(&device, AT_CC, 0, 4);
    CHECK(csts() == 0);
}

/* By its fields, where the others are as Linux writes them: 64 and 16 bytes, the NVM command set, pages of 4 KiB. */
static uint32_t cc_of(uint32_t css, uint32_t mps, uint32_t ams, uint32_t iosqes, uint32_t iocqes)
{
    return 1 | css << 4 | mps << 7 | ams << 11 | iosqes << 16 | iocqes << 20;
}

static void comes_to(uint32_t cc, uint64_t wanted)
{
    enable(cc);
    CHECK(csts() == wanted);
    if (wanted == FAILED) { /* it does nothing */
        put(0, (nvmearb_sqe){.opcode = IDENTIFY, .prp1 = DATA, .cdw10 = 1}), ring(0);
        CHECK(read_completions(0) == 0 && csts() == FAILED);
    }
    disable();
    enable(cc_of(0, 0, 0, 6, 4));
    CHECK(csts() == READY && answers((nvmearb_sqe){.opcode = IDENTIFY, .prp1 = DATA, .cdw10 = 1}, 0, 0));
    disable();
}

static void values_of_cc(void)
{
    comes_to(cc_of(0, 0, 0, 6, 4), READY);
    comes_to(cc_of(0, 0, 1, 6, 4), READY);
    for (uint32_t n = 1; n < 8; n++)
        comes_to(cc_of(n, 0, 0, 6, 4), FAILED); /* CSS: only the NVM command set */
    for (uint32_t n = 1; n < 16; n++)
        comes_to(cc_of(0, n, 0, 6, 4), FAILED); /* MPS: CAP.MPSMAX is 0 */
    for (uint32_t n = 2; n < 8; n++)
        comes_to(cc_of(0, 0, n, 6, 4), FAILED); /* AMS: reserved, and vendor specific */
    for (uint32_t n = 0; n < 16; n++) {
        comes_to(cc_of(0, 0, 0, n, 4), n == 0 || n == 6 ? READY : FAILED); /* SQES of Identify is 66h */
        comes_to(cc_of(0, 0, 0, 6, n), n == 0 || n == 4 ? READY : FAILED); /* CQES of Identify is 44h */
    }
}

/* Sizes that are chosen after the controller was enabled, and Creates before and after. */
static void sizes_are_chosen_later(void)
{
    nvmearb_sqe cq = create_of(NVMEARB_OPC_CREATE_CQ, 1), sq = create_of(NVMEARB_OPC_CREATE_SQ, 1);
    enable(cc_of(0, 0, 0, 0, 0));
    CHECK(csts() == READY && answers(cq, INVALID_QUEUE_SIZE, 0) && answers(sq, INVALID_QUEUE_SIZE, 0));
    nvme_write(&device, AT_CC, cc_of(0, 0, 0, 6, 0), 4);
    CHECK(answers(cq, INVALID_QUEUE_SIZE, 0) && answers(sq, 0x100, 0)); /* Completion Queue Invalid */
    nvme_write(&device, AT_CC, cc_of(0, 0, 0, 7, 4), 4);
    CHECK(answers(cq, SUCCESS, 0) && answers(sq, INVALID_QUEUE_SIZE, 0));
    nvme_write(&device, AT_CC, cc_of(0, 0, 0, 6, 4), 4);
    CHECK(answers(sq, SUCCESS, 0) && csts() == READY);
    uint16_t cid = put(1, (nvmearb_sqe){.opcode = NVMEARB_OPC_READ, .nsid = 1, .prp1 = DATA});
    ring(1);
    CHECK(read_completions(1) == 1 && came_back(1, cid, SUCCESS, 0) && messages > 0 && wild_messages == 0);
    disable();
}

/* Choices that are out of their range. A library that isn't the header's is refused too: tests/capi builds over one. */
static void choices_are_refused(void)
{
    static const struct {
        uint32_t count;
        uint16_t vectors;
        int is_made;
    } choices[] = {{0, 1, 1},
                   {1, 0, 0},
                   {1, NVME_QUEUES + 2, 0},
                   {NVME_NAMESPACES, NVME_QUEUES + 1, 1},
                   {NVME_NAMESPACES + 1, 1, 0}};
    for (size_t k = 0; k < sizeof choices / sizeof *choices; k++) {
        CHECK(is_made(&memory_backend));
        device.count = choices[k].count, device.vectors = choices[k].vectors;
        CHECK(nvme_init(&device) == choices[k].is_made);
    }
}

int main(void)
{
    CHECK(is_made(&memory_backend));
    values_of_cc();
    sizes_are_chosen_later();
    choices_are_refused();
    return told();
}
