/*
 * The device of ../examples/nvme.h under a host that has event requests out, sets a burst without a limit, and submits
 * 256 Reads by one doorbell write: all come back with their data, and an Abort, a Set Features and a Delete after them.
 */
#include "host.h"

#include "../examples/memory.h"

enum { READS = 256, PAGE = 4096 };

static void reads_come_back(int is_weighted, uint32_t arbitration, unsigned requests)
{
    unsigned came = 0;
    for (size_t k = 0; k < sizeof blocks; k++)
        blocks[k] = (uint8_t)(k >> SHIFT ^ k);
    CHECK(is_begun(&memory_backend, is_weighted, arbitration, requests));
    for (uint32_t k = 0; k < READS; k++)
        put(1, (nvmearb_sqe){.opcode = NVMEARB_OPC_READ, .nsid = 1, .prp1 = DATA + PAGE * k, .cdw10 = k});
    ring(1);
    for (int turn = 0; turn < 1000; turn++) {
        nvme_turn(&device);
        came += read_completions(1);
    }
    CHECK(came == READS);
    for (uint16_t k = 0; k < READS; k++)
        CHECK(came_back(1, k, 0, 0) && !memcmp(memory + DATA + PAGE * k, blocks + (k << SHIFT), 1 << SHIFT));
    CHECK(answers((nvmearb_sqe){.opcode = NVMEARB_OPC_ABORT, .cdw10 = 100 << 16 | 1}, 0, 1)); /* it came back before */
    CHECK(answers((nvmearb_sqe){.opcode = NVMEARB_OPC_SET_FEATURES, .cdw10 = 1, .cdw11 = 0x07030103}, 0, 0));
    CHECK(answers((nvmearb_sqe){.opcode = NVMEARB_OPC_DELETE_SQ, .cdw10 = 1}, 0, 0) && is_running());
    CHECK(answers((nvmearb_sqe){.opcode = NVMEARB_OPC_DELETE_CQ, .cdw10 = 1}, 0, 0));
    for (uint16_t k = 0; k < requests; k++)
        CHECK(queues[0].came[k] == 0);
}

int main(void)
{
    static const uint32_t arbitrations[] = {0x07030107, 0xffffff07, 0x07030106, 0x07030103, 0};
    for (int is_weighted = 0; is_weighted < 2; is_weighted++)
        for (unsigned k = 0; k < sizeof arbitrations / sizeof *arbitrations; k++)
            for (unsigned requests = 0; requests <= NVME_EVENT_REQUESTS; requests++)
                reads_come_back(is_weighted, arbitrations[k], requests);
    return told();
}
