/*
 * The device of ../examples/nvme.h over a backend that ends nothing for a while, under a host that has event requests out,
 * sets a burst without a limit, and submits 256 Flushes by one doorbell write: meanwhile an Identify, an Abort, a Set
 * Features and a Delete are carried out, and all come back.
 */
#include "host.h"

enum { FLUSHES = 256, ABORTED = 100, ABORT_REQUESTED = 0x007 };

/* A backend that keeps what it is given. */
static struct nvme_request *kept[FLUSHES];
static unsigned count;

static void keep(struct nvme_request *request)
{
    kept[count++ % FLUSHES] = request;
}

static int give_back(struct nvme_request *request)
{
    for (unsigned k = 0; k < count; k++)
        if (kept[k] == request) {
            kept[k] = kept[--count];
            return 1;
        }
    return 0;
}

static const struct nvme_backend late = {.begin = keep, .cancel = give_back};

static void flushes_come_back(int is_weighted, uint32_t arbitration, unsigned requests)
{
    uint16_t delete;
    count = 0;
    CHECK(is_begun(&late, is_weighted, arbitration, requests));
    for (unsigned k = 0; k < FLUSHES; k++)
        put(1, (nvmearb_sqe){.opcode = NVMEARB_OPC_FLUSH, .nsid = 1});
    ring(1);
    CHECK(count == FLUSHES && read_completions(1) == 0);
    CHECK(answers((nvmearb_sqe){.opcode = IDENTIFY, .prp1 = DATA, .cdw10 = 1}, 0, 0));
    CHECK(answers((nvmearb_sqe){.opcode = NVMEARB_OPC_ABORT, .cdw10 = ABORTED << 16 | 1}, 0, 0));
    CHECK(count == FLUSHES - 1 && read_completions(1) == 1 && came_back(1, ABORTED, ABORT_REQUESTED, 0));
    CHECK(answers((nvmearb_sqe){.opcode = NVMEARB_OPC_SET_FEATURES, .cdw10 = 1, .cdw11 = 0x07030103}, 0, 0));
    delete = put(0, (nvmearb_sqe){.opcode = NVMEARB_OPC_DELETE_SQ, .cdw10 = 1});
    ring(0);
    CHECK(read_completions(0) == 0 && answers((nvmearb_sqe){.opcode = IDENTIFY, .prp1 = DATA, .cdw10 = 1}, 0, 0));
    while (count)
        nvme_end(kept[--count], 0);
    nvme_turn(&device);
    CHECK(read_completions(1) == FLUSHES - 1 && read_completions(0) == 1 && came_back(0, delete, 0, 0));
    for (uint16_t k = 0; k < FLUSHES; k++)
        CHECK(came_back(1, k, k == ABORTED ? ABORT_REQUESTED : 0, 0));
    for (uint16_t k = 0; k < requests; k++)
        CHECK(queues[0].came[k] == 0);
    CHECK(is_running());
}

int main(void)
{
    static const uint32_t arbitrations[] = {0x07030107, 0xffffff07, 0x07030106, 0x07030103, 0};
    for (int is_weighted = 0; is_weighted < 2; is_weighted++)
        for (unsigned k = 0; k < sizeof arbitrations / sizeof *arbitrations; k++)
            for (unsigned requests = 0; requests <= NVME_EVENT_REQUESTS; requests++)
                flushes_come_back(is_weighted, arbitrations[k], requests);
    return told();
}
