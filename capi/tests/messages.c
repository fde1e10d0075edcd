/*
 * The messages of the device of ../examples/nvme.h, for MSI-X: one of the vector of each completion queue that has new
 * entries, and enabled interrupts, after each turn; and none besides. Queues may share a vector. The pin is told beside
 * them, and stays asserted while entries aren't read.
 */
#include "host.h"

#include "../examples/memory.h"

/* Whether the pin is asserted, as the device said last. */
static int pin;

static void set_pin(void *context, int is_asserted)
{
    (void)context;
    pin = is_asserted;
}

/* Whether so many messages of vectors 0 to 3 were sent since it was last asked. */
static int were_sent(unsigned zero, unsigned one, unsigned two, unsigned three)
{
    unsigned sent[VECTORS] = {zero, one, two, three};
    int is_so = !memcmp(sent, messages_of, sizeof sent);
    memset(messages_of, 0, sizeof messages_of);
    return is_so;
}

/* So many Flushes of a queue are submitted, and come back. */
static void flush(unsigned qid, unsigned n)
{
    for (unsigned k = 0; k < n; k++)
        put(qid, (nvmearb_sqe){.opcode = NVMEARB_OPC_FLUSH, .nsid = 1});
    ring(qid);
}

/* Creates a pair, whose completion queue has this vector, and interrupts or none. */
static void create(unsigned qid, uint32_t vector, uint32_t interrupts)
{
    nvmearb_sqe cq = create_of(NVMEARB_OPC_CREATE_CQ, qid);
    cq.cdw11 = vector << 16 | interrupts << 1 | 1;
    CHECK(answers(cq, 0, 0) && answers(create_of(NVMEARB_OPC_CREATE_SQ, qid), 0, 0));
    CHECK(were_sent(2, 0, 0, 0)); /* of the admin queue */
}

int main(void)
{
    CHECK(is_begun(&memory_backend, 0, 0, 0));
    device.host.interrupt = set_pin;
    CHECK(were_sent(3, 0, 0, 0)); /* Set Features, and both Creates of pair 1 */
    create(2, 3, 1);
    create(3, 2, 0);
    flush(1, 1);
    CHECK(were_sent(0, 1, 0, 0) && pin);
    flush(2, 5); /* one message for five entries */
    CHECK(were_sent(0, 0, 0, 1) && pin);
    flush(3, 2); /* no interrupts */
    CHECK(were_sent(0, 0, 0, 0) && pin);
    CHECK(read_completions(1) == 1 && pin && read_completions(2) == 5 && !pin && read_completions(3) == 2);
    CHECK(were_sent(0, 0, 0, 0)); /* what is read sends none */
    CHECK(answers((nvmearb_sqe){.opcode = NVMEARB_OPC_DELETE_SQ, .cdw10 = 3}, 0, 0));
    CHECK(answers((nvmearb_sqe){.opcode = NVMEARB_OPC_DELETE_CQ, .cdw10 = 3}, 0, 0) && were_sent(2, 0, 0, 0));
    queues[3] = places[3], memset(memory + places[3].cq, 0, 64 * NVMEARB_CQE_BYTES);
    create(3, 1, 1); /* with the vector of queue 1 */
    flush(3, 1);
    CHECK(were_sent(0, 1, 0, 0));
    flush(1, 1);
    CHECK(were_sent(0, 1, 0, 0) && read_completions(1) == 1 && read_completions(3) == 1 && !pin);
    nvmearb_sqe refused = create_of(NVMEARB_OPC_CREATE_CQ, 2);
    refused.cdw10 += 2, refused.cdw11 = VECTORS << 16 | 3;
    CHECK(answers(refused, 0x108, 0) && wild_messages == 0); /* Invalid Interrupt Vector */
    return told();
}
