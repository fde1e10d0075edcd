/*
 * No pick waits for ever: beside Asynchronous Event Requests that the device holds, 256 reads that wait in one queue are
 * all picked, whatever the burst, as many at a time as there is room for, and come back. The admin queue is served
 * meanwhile, also where the device ends no read.
 */
#include "drive.h"

enum { READS = 256, RING = READS + 1, MOST_REQUESTS = 4, POOL = READS + ADMIN_RING };

/* What might come to a full stop: how many requests the device holds, and the most commands of a pick. */
struct with {
    uint32_t mechanism, cdw11;
    uint16_t requests, burst;
};

static uint32_t held[MOST_REQUESTS];
static const nvmearb_status requested = {NVMEARB_SCT_GENERIC, NVMEARB_SC_ABORT_REQUESTED};

/* The device holds its requests, both queues 1 are there, of any class, and 256 reads wait, all submitted at once. */
static int is_ready(const struct with *with)
{
    nvmearb_config it = config;
    int is_well;
    it.mechanism = with->mechanism, it.cdw11 = with->cdw11;
    is_well = is_made(&it, POOL) && nvmearb_ctrl_own_opcode(&ctrl, NVMEARB_OPC_ABORT) == NVMEARB_OK;
    for (uint16_t k = 0; k < with->requests; k++)
        is_well = is_well && submits(EVENT_REQUEST, 0, 0) && is_passed(&held[k]);
    return is_well && has_queues(1, RING, RING, with->requests % 4) && rings(1, READS) && fetch_all(1) == READS;
}

/* The requests were held to the last, and are answered. */
static int gives_up_requests(const struct with *with)
{
    int is_well = 1;
    for (uint16_t k = 0; k < with->requests; k++)
        is_well = is_well && completes(held[k], success, k) && is_answered(0, k, success, k);
    return is_well && nvmearb_ctrl_verify(&ctrl, slots, count) == NVMEARB_OK;
}

/* The device takes and ends all commands of a pick, and they come back. */
static int are_served(const nvmearb_pick *pick, uint16_t first)
{
    uint32_t tags[READS];
    for (uint16_t k = 0; k < pick->n; k++)
        if (!takes(&tags[k]) || !completes(tags[k], success, 0))
            return 0;
    for (uint16_t k = 0; k < pick->n; k++)
        if (!is_answered(pick->qid, (uint16_t)(first + k), success, 0))
            return 0;
    return 1;
}

/* With this room all reads are picked and come back. An Identify that waits with them is one of the first two picks. */
static void all_come_back(const struct with *with, uint16_t room)
{
    nvmearb_step step;
    uint32_t told;
    uint16_t came = 0, least = room < with->burst ? room : with->burst;
    unsigned made = 0, identified = 0;
    CHECK(is_ready(with) && submits(IDENTIFY, 0, 0));
    while ((told = nvmearb_ctrl_pick(&ctrl, slots, count, room, &step)) == NVMEARB_OK && made++ <= READS) {
        const nvmearb_pick *pick = &step.pick;
        uint16_t rest = (uint16_t)(READS - came);
        CHECK(step.kind == (pick->qid ? NVMEARB_PICKED : NVMEARB_PASSED) && are_served(pick, pick->qid ? came : last()));
        CHECK(pick->n == (pick->qid == 0 ? 1 : rest < least ? rest : least));
        if (pick->qid)
            came = (uint16_t)(came + pick->n);
        else
            identified = made;
    }
    CHECK(told == NVMEARB_NONE && came == READS && identified && identified <= 2);
    CHECK(gives_up_requests(with));
}

/* The device has all reads, and ends none: what the host submits to the admin queue is carried out all the same. */
static void admin_is_served(const struct with *with)
{
    uint32_t tags[READS], tag = 0, named = 0;
    CHECK(is_ready(with) && take_all(tags) == READS);
    CHECK(submits(IDENTIFY, 0, 0) && is_passed(&tag) && completes(tag, success, 0) && last_answered(0));
    CHECK(submits(NVMEARB_OPC_ABORT, 100 << 16 | 1, 0) && is_passed(&tag));
    CHECK(nvmearb_ctrl_named(&ctrl, slots, count, 1, 100, &named) == NVMEARB_OK && named == tags[100]);
    CHECK(completes(named, requested, 0) && completes(tag, success, 0) && last_answered(0));
    CHECK(is_answered(1, 100, requested, 0));
    CHECK(submits(NVMEARB_OPC_SET_FEATURES, NVMEARB_FID_ARBITRATION, 3) && comes_to(NVMEARB_SET_ARBITRATION));
    CHECK(last_answered(0) && submits(NVMEARB_OPC_DELETE_SQ, 1, 0) && comes_to(NVMEARB_BEGIN_DELETE) && finishes_none());
    for (uint16_t k = 0; k < READS; k++)
        CHECK(k == 100 || (completes(tags[k], success, 0) && is_answered(1, k, success, 0)));
    CHECK(finishes(1) && last_answered(0) && gives_up_requests(with));
}

int main(void)
{
    static const uint32_t mechanisms[] = {NVMEARB_ROUND_ROBIN, NVMEARB_WEIGHTED};
    static const uint16_t rooms[] = {NVMEARB_NO_LIMIT, READS, READS - 1, 62, 1};
    static const struct {
        uint32_t cdw11; /* weights of 256 */
        uint16_t burst;
    } bursts[] = {{0xffffff07, READS}, {0xffffff06, 64}, {0xffffff03, 8}, {0xffffff00, 1}};
    for (unsigned m = 0; m < 2; m++)
        for (unsigned b = 0; b < 4; b++)
            for (uint16_t requests = 0; requests <= MOST_REQUESTS; requests++) {
                struct with with = {mechanisms[m], bursts[b].cdw11, requests, bursts[b].burst};
                for (unsigned k = 0; k < sizeof rooms / sizeof *rooms; k++)
                    all_come_back(&with, rooms[k]);
                admin_is_served(&with);
            }
    return told();
}
