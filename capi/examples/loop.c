/* A controller's loop as an emulator would write it: doorbell, pick, completion. Here the host is at the bottom. */
#include <nvmearb.h>
#include <stdio.h>
#include <string.h>

#define SLOTS 8
#define QUEUES 2

struct queue {
    uint8_t sq[SLOTS][NVMEARB_SQE_BYTES], cq[SLOTS][NVMEARB_CQE_BYTES];
    uint16_t tail, head, cq_tail; /* the submission doorbell, what was fetched, what was completed */
    uint8_t phase;
};
static struct queue queues[QUEUES];
static const uint64_t sizes[] = {1000};
static nvmearb_arbiter arbiter;

/* One command: its entry is decoded, and its completion is written. */
static int serve(struct queue *queue, uint16_t qid)
{
    nvmearb_sqe entry;
    nvmearb_cqe done = {0, 0, qid, 0, queue->phase, {0, 0}};
    nvmearb_sqe_decode(queue->sq[queue->head], &entry);
    queue->head = (queue->head + 1) % SLOTS;
    done.cid = entry.cid;
    done.sqhd = queue->head;
    if (nvmearb_outcome(&entry, sizes, 1, &done.status) != NVMEARB_OK ||
        nvmearb_cqe_encode(&done, queue->cq[queue->cq_tail]) != NVMEARB_OK)
        return -1;
    queue->cq_tail = (queue->cq_tail + 1) % SLOTS;
    queue->phase ^= queue->cq_tail == 0;
    return 0;
}

/* Serves what waits, in the order of arbitration. */
static int turn(void)
{
    for (;;) {
        nvmearb_seen seen[QUEUES];
        nvmearb_pick pick;
        uint32_t answer;
        for (uint16_t k = 0; k < QUEUES; k++)
            seen[k] = (nvmearb_seen){k + 1, k ? NVMEARB_LOW : NVMEARB_HIGH, (queues[k].tail - queues[k].head + SLOTS) % SLOTS};
        answer = nvmearb_arbiter_pick(&arbiter, seen, QUEUES, &pick);
        if (answer != NVMEARB_OK)
            return answer == NVMEARB_NONE ? 0 : -1;
        printf("pick q%u %u%s\n", pick.qid, pick.n, pick.fresh ? " fresh" : "");
        for (uint16_t n = 0; n < pick.n; n++)
            if (serve(&queues[pick.qid - 1], pick.qid) != 0)
                return -1;
    }
}

/* The host: five reads in each queue, the last of each past the end of the namespace. */
int main(void)
{
    unsigned wrong = 0;
    if (!nvmearb_is_of_this_header()) /* or an unproved one, which -DNVMEARB_ALLOW_UNPROVED takes */
        return 1;
    nvmearb_arbiter_init(&arbiter, NVMEARB_WEIGHTED, 0x01000001); /* burst 2, high 2, low 1 */
    for (uint16_t k = 0; k < QUEUES; k++) {
        queues[k].phase = 1;
        for (uint16_t n = 0; n < 5; n++) {
            nvmearb_sqe read = {.opcode = 2, .cid = n, .nsid = 1, .cdw10 = n == 4 ? 1000 : n};
            nvmearb_sqe_encode(&read, queues[k].sq[queues[k].tail++]);
        }
    }
    wrong += turn() != 0;
    for (uint16_t k = 0; k < QUEUES; k++)
        for (uint16_t n = 0; n < 5; n++) {
            nvmearb_cqe done;
            wrong += nvmearb_cqe_decode(queues[k].cq[n], &done) != NVMEARB_OK || done.cid != n || done.sqid != k + 1;
            wrong += done.phase != 1 || done.status.sc != (n == 4 ? 0x80 : 0);
        }
    printf("%u passed, %u failed\n", wrong == 0, wrong != 0);
    return wrong != 0;
}
