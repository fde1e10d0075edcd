/* A controller whose queues lie anywhere in memory. Values are the specification's. */
#include "ctrl.h"
#include "tell.h"

enum { PAGE = 0x1000, ROUNDS = 400, AT_SQ = 0x20000, AT_CQ = 0x30000 };

static nvmearb_slot many[NVMEARB_MAX_SLOTS + 1];
static const nvmearb_placement placement = {PAGE, 7, 2};
static const nvmearb_status bad_size = {NVMEARB_SCT_COMMAND_SPECIFIC, NVMEARB_SC_INVALID_QUEUE_SIZE};
static const nvmearb_status bad_vector = {NVMEARB_SCT_COMMAND_SPECIFIC, NVMEARB_SC_INVALID_INTERRUPT_VECTOR};
static const nvmearb_status bad_identifier = {NVMEARB_SCT_COMMAND_SPECIFIC, NVMEARB_SC_INVALID_QUEUE_IDENTIFIER};
static const nvmearb_status bad_offset = {NVMEARB_SCT_GENERIC, NVMEARB_SC_PRP_OFFSET_INVALID};

static uint32_t init_with(nvmearb_config with, nvmearb_placement lies, size_t count)
{
    return nvmearb_ctrl_init_anywhere(&ctrl, slots, count, &with, &lies);
}

/* The admin ring's slot that is submitted, fetched and posted next, and the phase tag there. */
static uint16_t next;
static uint8_t phase;

static int is_begun(void)
{
    next = 0, phase = 1;
    return init_with(config, placement, SLOTS) == NVMEARB_OK;
}

/*
 * An admin command goes through: it comes to a verdict, and is answered with a status. `rest` is what is done between its
 * pick and its post. The host consumes the completion.
 */
static int through(uint8_t opcode, uint64_t prp1, uint32_t cdw10, uint32_t cdw11, uint32_t verdict, nvmearb_status status,
                   nvmearb_asked *asked)
{
    uint16_t slot = next, told, gone;
    uint8_t bytes[NVMEARB_SQE_BYTES], flags;
    nvmearb_step step;
    nvmearb_post post;
    nvmearb_cqe cqe;
    next = (uint16_t)((next + 1) % config.asq.slots);
    entry_of(opcode, slot, prp1, cdw10, cdw11, bytes);
    if (nvmearb_ctrl_sq_tail(&ctrl, 0, next) != NVMEARB_OK || nvmearb_ctrl_fetch(&ctrl, 0, &told) != NVMEARB_OK ||
        told != slot || nvmearb_ctrl_fetched(&ctrl, slots, SLOTS, 0, bytes, 7) != NVMEARB_OK ||
        nvmearb_ctrl_pick(&ctrl, slots, SLOTS, 1, &step) != NVMEARB_OK || step.kind != NVMEARB_CARRIED_OUT ||
        step.answer.verdict != verdict)
        return 0;
    if (verdict == NVMEARB_BEGIN_DELETE && nvmearb_ctrl_finish(&ctrl, slots, SLOTS, &gone) != NVMEARB_OK)
        return 0;
    if (nvmearb_ctrl_post(&ctrl, slots, SLOTS, 0, &post) != NVMEARB_OK || post.slot != slot)
        return 0;
    if (nvmearb_cqe_decode_with(post.bytes, &cqe, &flags) != NVMEARB_OK || cqe.status.sct != status.sct || cqe.status.sc != status.sc ||
        cqe.phase != phase || nvmearb_ctrl_cq_head(&ctrl, 0, next) != NVMEARB_OK)
        return 0;
    phase ^= next == 0;
    if (asked)
        *asked = step.asked;
    return 1;
}

static int refuses(uint8_t opcode, uint64_t prp1, uint32_t cdw10, uint32_t cdw11, nvmearb_status status)
{
    nvmearb_asked asked = {1, 1, 1, 1};
    return through(opcode, prp1, cdw10, cdw11, NVMEARB_DONE, status, &asked) && !asked.address && !asked.qsize &&
           !asked.vector && !asked.interrupts;
}

/* What can't be made so. */
static void wrong_ones(void)
{
    nvmearb_config it = config;
    const nvmearb_placement no_ranges[] = {{0, 7, 2}, {PAGE + 1, 7, 2}, {3 * PAGE, 7, 2},
                                           {PAGE, 0, 2}, {PAGE, 4096, 2}, {PAGE, 7, 0}};
    const nvmearb_placement widest = {1u << 31, 4095, 0xffff};
    uint16_t number = 0xeeee;
    for (size_t i = 0; i < sizeof no_ranges / sizeof *no_ranges; i++)
        CHECK(init_with(it, no_ranges[i], SLOTS) == NVMEARB_EARG);
    CHECK(init_with(it, widest, SLOTS) == NVMEARB_OK && init_with(it, placement, 0) == NVMEARB_EARG);
    CHECK(nvmearb_ctrl_init_anywhere(&ctrl, many, NVMEARB_MAX_SLOTS + 1, &it, &placement) == NVMEARB_EARG);
    it.mechanism = 3;
    CHECK(init_with(it, placement, SLOTS) == NVMEARB_EARG);
    it = config, it.acq.slots = 1;
    CHECK(init_with(it, placement, SLOTS) == NVMEARB_ESIZE);
    it = config, it.asq.slots = 4097;
    CHECK(init_with(it, placement, SLOTS) == NVMEARB_ESIZE);
    it = config, it.acq.address = it.asq.address;
    CHECK(init_with(it, placement, SLOTS) == NVMEARB_OK);
    CHECK(is_begun() && nvmearb_ctrl_add_sq_region(&ctrl, SQ, 4, &number) == NVMEARB_EMANY && number == 0xeeee);
    CHECK(nvmearb_ctrl_add_cq_region(&ctrl, CQ, 4, &number) == NVMEARB_EMANY && number == 0xeeee);
    CHECK(nvmearb_ctrl_add_sq_region(&ctrl, config.asq.address, 4, &number) == NVMEARB_EMANY);
    CHECK(nvmearb_ctrl_add_cq_region(&ctrl, config.acq.address, 4, &number) == NVMEARB_EMANY);
    CHECK(nvmearb_ctrl_add_sq_region(&ctrl, SQ, 0, &number) == NVMEARB_EMANY);
}

/* What a Create may not ask for, and may after that. (Linux tries again after a refused Create.) */
static void limits(void)
{
    nvmearb_asked asked;
    CHECK(is_begun());
    CHECK(refuses(NVMEARB_OPC_CREATE_CQ, AT_CQ, 8 << 16 | 1, 1, bad_size));
    CHECK(refuses(NVMEARB_OPC_CREATE_CQ, AT_CQ + 8, 7 << 16 | 1, 1, bad_offset));
    CHECK(refuses(NVMEARB_OPC_CREATE_CQ, AT_CQ, 7 << 16 | 1, 2 << 16 | 3, bad_vector));
    CHECK(refuses(NVMEARB_OPC_CREATE_CQ, AT_CQ, 7 << 16 | 5, 1, bad_identifier));
    CHECK(through(NVMEARB_OPC_CREATE_CQ, AT_CQ, 7 << 16 | 1, 1 << 16 | 3, NVMEARB_OPEN_CQ, success, &asked));
    CHECK(asked.address == AT_CQ && asked.qsize == 7 && asked.vector == 1 && asked.interrupts == 1);
    CHECK(refuses(NVMEARB_OPC_CREATE_SQ, AT_SQ + 0x800, 7 << 16 | 1, 1 << 16 | 1, bad_offset));
    CHECK(refuses(NVMEARB_OPC_CREATE_SQ, AT_SQ, 8 << 16 | 1, 1 << 16 | 1, bad_size));
    CHECK(through(NVMEARB_OPC_CREATE_SQ, AT_SQ, 7 << 16 | 1, 1 << 16 | 1, NVMEARB_OPEN_SQ, success, &asked));
    CHECK(asked.address == AT_SQ && asked.qsize == 7 && asked.vector == 0 && asked.interrupts == 0);
    /* two queues at one address, which is the host's affair */
    CHECK(through(NVMEARB_OPC_CREATE_CQ, AT_CQ, 3 << 16 | 2, 1, NVMEARB_OPEN_CQ, success, &asked));
    CHECK(asked.vector == 0 && asked.interrupts == 0);
}

/* A command goes through queue 1, whose rings have `size` slots and are new. */
static int serves(uint16_t size, uint16_t cid)
{
    uint32_t tag;
    return nvmearb_ctrl_sq_tail(&ctrl, 1, 1) == NVMEARB_OK && read_fetched(0, cid) && picked(1) && taken(cid, &tag) &&
           completes(tag, success, 0, NVMEARB_OK) && posted(1, 0, 1, cid, 1, success, 0) &&
           nvmearb_ctrl_sq_tail(&ctrl, 1, size) == NVMEARB_EARG;
}

/* Queues that are created and deleted without end, at one address and at many, of one size and of others. */
static void queues_without_end(void)
{
    CHECK(is_begun());
    for (uint32_t k = 0; k < ROUNDS; k++) {
        uint32_t qsize = 1 + k % 7;
        uint64_t sq = k % 3 ? AT_SQ : AT_SQ + (uint64_t)k * PAGE, cq = AT_CQ + (uint64_t)(k % 5) * PAGE;
        int is_well = through(NVMEARB_OPC_CREATE_CQ, cq, qsize << 16 | 1, 1, NVMEARB_OPEN_CQ, success, NULL) &&
                      through(NVMEARB_OPC_CREATE_SQ, sq, qsize << 16 | 1, 1 << 16 | 1, NVMEARB_OPEN_SQ, success, NULL) &&
                      serves((uint16_t)(qsize + 1), (uint16_t)(100 + k)) &&
                      refuses(NVMEARB_OPC_CREATE_SQ, sq, qsize << 16 | 1, 1 << 16 | 1, bad_identifier) &&
                      through(NVMEARB_OPC_DELETE_SQ, 0, 1, 0, NVMEARB_BEGIN_DELETE, success, NULL) &&
                      through(NVMEARB_OPC_DELETE_CQ, 0, 1, 0, NVMEARB_CLOSE_CQ, success, NULL);
        CHECK(is_well && none_to_fetch(1) && none_to_post(1));
    }
}

int main(void)
{
    wrong_ones();
    limits();
    queues_without_end();
    return told();
}
