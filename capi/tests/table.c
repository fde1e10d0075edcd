/* The queue table: sequences of admin commands with their statuses, and a million random calls on random states. */
#include <nvmearb.h>

#include <string.h>

#include "tell.h"

_Static_assert(sizeof(nvmearb_region) == 16, "nvmearb_region");
_Static_assert(sizeof(nvmearb_table) == 2768, "nvmearb_table");
_Static_assert(offsetof(nvmearb_table, created) == 2763, "nvmearb_table");
_Static_assert(sizeof(nvmearb_answer) == 24, "nvmearb_answer");
_Static_assert(offsetof(nvmearb_answer, cid) == 22, "nvmearb_answer");
_Static_assert(sizeof(nvmearb_queue) == 8, "nvmearb_queue");

enum { DELETE_SQ = 0x00, CREATE_SQ = 0x01, DELETE_CQ = 0x04, CREATE_CQ = 0x05, ABORT = 0x08, SET_FEATURES = 0x09, GET_FEATURES = 0x0a };

/* Applies an entry of an opcode and flags, with PRP1 and Command Dwords 10 and 11. */
static nvmearb_answer applied(nvmearb_table *table, uint16_t opcode, uint64_t prp1, uint32_t cdw10, uint32_t cdw11)
{
    uint8_t bytes[NVMEARB_SQE_BYTES];
    nvmearb_sqe entry;
    nvmearb_answer answer;
    memset(&entry, 0, sizeof entry);
    memset(&answer, 0xee, sizeof answer);
    entry.opcode = (uint8_t)opcode;
    entry.flags = (uint8_t)(opcode >> 8);
    entry.prp1 = prp1;
    entry.cdw10 = cdw10;
    entry.cdw11 = cdw11;
    nvmearb_sqe_encode(&entry, bytes);
    CHECK(nvmearb_table_apply(table, bytes, &answer) == NVMEARB_OK);
    return answer;
}

/* Whether an entry is refused with a status, and leaves the table. */
static int is_refused(nvmearb_table *table, uint16_t opcode, uint64_t prp1, uint32_t cdw10, uint32_t cdw11, int sct, int sc)
{
    nvmearb_table before;
    nvmearb_answer a;
    memcpy(&before, table, sizeof before);
    a = applied(table, opcode, prp1, cdw10, cdw11);
    return a.verdict == NVMEARB_DONE && a.status.sct == sct && a.status.sc == sc && a.dw0 == 0 && a.cdw11 == 0 &&
           a.qid == 0 && a.region == 0 && a.cqid == 0 && a.priority == 0 && a.cid == 0 && memcmp(&before, table, sizeof before) == 0;
}

/* Whether an entry is accepted with a verdict over a queue, and Dword 0. */
static int comes_to(nvmearb_answer a, uint32_t verdict, uint16_t qid, uint16_t region, uint32_t dw0)
{
    return a.verdict == verdict && a.qid == qid && a.region == region && a.dw0 == dw0 && a.status.sct == 0 && a.status.sc == 0;
}

/* Regions of 8 slots at 0x1000 to 0x3000 and 0x8000 to 0xa000, one of 16 slots of each kind, and completion queue 1 and
   submission queue 1 open. */
static void prepare(nvmearb_table *table, uint16_t nsq, uint16_t ncq)
{
    nvmearb_answer a;
    uint16_t number = 0xeeee;
    memset(table, 0xee, sizeof *table);
    CHECK(nvmearb_table_init(table, nsq, ncq, 0) == NVMEARB_OK);
    for (uint16_t k = 0; k < 4; k++) {
        CHECK(nvmearb_table_add_sq_region(table, 0x1000u * (k + 1u), k < 3 ? 8 : 16, &number) == NVMEARB_OK && number == k);
        CHECK(nvmearb_table_add_cq_region(table, 0x8000u + 0x1000u * k, k < 3 ? 8 : 16, &number) == NVMEARB_OK && number == k);
    }
    CHECK(comes_to(applied(table, CREATE_CQ, 0x9000, 0x00070001, 1), NVMEARB_OPEN_CQ, 1, 1, 0));
    a = applied(table, CREATE_SQ, 0x2000, 0x00070001, 0x00010003);
    CHECK(comes_to(a, NVMEARB_OPEN_SQ, 1, 1, 0) && a.cqid == 1 && a.priority == NVMEARB_HIGH);
}

static void create_refusals(void)
{
    nvmearb_table t;
    prepare(&t, 16, 16);
    CHECK(is_refused(&t, CREATE_SQ, 0x3000, 0x00000003, 0x00010003, 1, 0x02));
    CHECK(is_refused(&t, CREATE_SQ, 0x3000, 0x10000003, 0x00010003, 1, 0x02));
    CHECK(is_refused(&t, CREATE_SQ, 0x3000, 0x01000003, 0x00010003, 0, 0x02));
    CHECK(is_refused(&t, CREATE_SQ, 0x3000, 0x00070001, 0x00010003, 1, 0x01));
    CHECK(is_refused(&t, CREATE_SQ, 0x3000, 0x00070011, 0x00010003, 1, 0x01));
    CHECK(is_refused(&t, CREATE_SQ, 0x3000, 0x00070003, 0x00020003, 1, 0x00));
    CHECK(is_refused(&t, CREATE_SQ, 0x3000, 0x00070003, 0x00000003, 1, 0x01));
    CHECK(is_refused(&t, CREATE_SQ, 0x3000, 0x00070003, 0x00010002, 0, 0x02));
    CHECK(is_refused(&t, CREATE_SQ, 0x2000, 0x00070003, 0x00010003, 0, 0x02));
    CHECK(is_refused(&t, 0x100 | CREATE_SQ, 0x3000, 0x00070003, 0x00010003, 0, 0x02));
    CHECK(is_refused(&t, CREATE_CQ, 0x9000, 0x00070002, 1, 0, 0x02));
    CHECK(is_refused(&t, CREATE_CQ, 0xa000, 0x00070001, 1, 1, 0x01));
    CHECK(comes_to(applied(&t, CREATE_SQ, 0x3000, 0x00070003, 0x00010003), NVMEARB_OPEN_SQ, 3, 2, 0));
}

static void deletions(void)
{
    nvmearb_table t, before;
    nvmearb_queue queue;
    uint16_t region;
    prepare(&t, 16, 16);
    CHECK(is_refused(&t, DELETE_CQ, 0, 1, 0, 1, 0x0c));
    memcpy(&before, &t, sizeof before);
    CHECK(nvmearb_table_finish_delete(&t, 1) == NVMEARB_EARG && memcmp(&before, &t, sizeof t) == 0);
    CHECK(comes_to(applied(&t, DELETE_SQ, 0, 1, 0), NVMEARB_BEGIN_DELETE, 1, 0, 0));
    CHECK(nvmearb_table_sq(&t, 1, &queue) == NVMEARB_OK && queue.closing == 1 && queue.region == 1 && queue.cqid == 1);
    CHECK(is_refused(&t, DELETE_CQ, 0, 1, 0, 1, 0x0c));
    CHECK(is_refused(&t, DELETE_SQ, 0, 1, 0, 1, 0x01));
    CHECK(is_refused(&t, CREATE_SQ, 0x3000, 0x00070001, 0x00010003, 1, 0x01));
    CHECK(nvmearb_table_finish_delete(&t, 1) == NVMEARB_OK);
    CHECK(nvmearb_table_sq(&t, 1, &queue) == NVMEARB_NONE);
    CHECK(nvmearb_table_finish_delete(&t, 1) == NVMEARB_EARG);
    CHECK(comes_to(applied(&t, DELETE_CQ, 0, 1, 0), NVMEARB_CLOSE_CQ, 1, 0, 0));
    CHECK(nvmearb_table_cq(&t, 1, &region) == NVMEARB_NONE);
    CHECK(is_refused(&t, DELETE_CQ, 0, 1, 0, 1, 0x01));
}

/* An Abort is told with its queue and command, whether or not the queue is open, and leaves the table. */
static void aborts(void)
{
    nvmearb_table t, before;
    nvmearb_answer a;
    prepare(&t, 16, 16);
    memcpy(&before, &t, sizeof before);
    a = applied(&t, ABORT, 0, 0x00050001, 0);
    CHECK(comes_to(a, NVMEARB_ABORT, 1, 0, 0) && a.cid == 5 && a.cqid == 0 && a.priority == 0 && a.cdw11 == 0);
    a = applied(&t, ABORT, 0, 0xffff0000, 0);
    CHECK(comes_to(a, NVMEARB_ABORT, 0, 0, 0) && a.cid == 0xffff);
    a = applied(&t, ABORT, 0, 0x00010009, 0);
    CHECK(comes_to(a, NVMEARB_ABORT, 9, 0, 0) && a.cid == 1);
    CHECK(memcmp(&before, &t, sizeof t) == 0);
    CHECK(is_refused(&t, 0x100 | ABORT, 0, 0x00050001, 0, 0, 0x02));
    a = applied(&t, DELETE_SQ, 0, 1, 0);
    CHECK(comes_to(a, NVMEARB_BEGIN_DELETE, 1, 0, 0) && a.cid == 0);
    a = applied(&t, ABORT, 0, 0x00050001, 0);
    CHECK(comes_to(a, NVMEARB_ABORT, 1, 0, 0) && a.cid == 5);
}

static void features(void)
{
    nvmearb_table t;
    nvmearb_settings settings;
    nvmearb_answer a;
    uint16_t nsq, ncq, number;
    CHECK(nvmearb_table_init(&t, 8, 4, 0) == NVMEARB_OK);
    CHECK(nvmearb_table_add_sq_region(&t, 0x1000, 8, &number) == NVMEARB_OK);
    CHECK(nvmearb_table_add_cq_region(&t, 0x8000, 8, &number) == NVMEARB_OK);
    CHECK(nvmearb_table_add_cq_region(&t, 0x9000, 8, &number) == NVMEARB_OK);
    CHECK(comes_to(applied(&t, GET_FEATURES, 0, 7, 0), NVMEARB_DONE, 0, 0, 0x00030007));
    CHECK(is_refused(&t, SET_FEATURES, 0, 7, 0x0003ffff, 0, 0x02));
    CHECK(comes_to(applied(&t, SET_FEATURES, 0, 7, 0x00070003), NVMEARB_DONE, 0, 0, 0x00030003));
    CHECK(comes_to(applied(&t, SET_FEATURES, 0, 7, 0x00000000), NVMEARB_DONE, 0, 0, 0x00030003));
    CHECK(comes_to(applied(&t, GET_FEATURES, 0, 7, 0), NVMEARB_DONE, 0, 0, 0x00030003));
    CHECK(nvmearb_table_allotted(&t, &nsq, &ncq) == NVMEARB_OK && nsq == 4 && ncq == 4);
    CHECK(is_refused(&t, CREATE_CQ, 0x9000, 0x00070005, 1, 1, 0x01));
    CHECK(comes_to(applied(&t, CREATE_CQ, 0x9000, 0x00070004, 1), NVMEARB_OPEN_CQ, 4, 1, 0));
    CHECK(is_refused(&t, SET_FEATURES, 0, 7, 0x0003ffff, 0, 0x0c));
    CHECK(is_refused(&t, SET_FEATURES, 0, 0x80000001, 0x03010001, 1, 0x0d));
    CHECK(is_refused(&t, SET_FEATURES, 0, 2, 0, 0, 0x02));
    CHECK(is_refused(&t, GET_FEATURES, 0, 2, 0, 0, 0x02));
    CHECK(is_refused(&t, 0x06, 0, 0, 0, 0, 0x01));
    a = applied(&t, SET_FEATURES, 0, 1, 0x030100f9);
    CHECK(comes_to(a, NVMEARB_SET_ARBITRATION, 0, 0, 0) && a.cdw11 == 0x03010001);
    CHECK(comes_to(applied(&t, GET_FEATURES, 0, 1, 0), NVMEARB_DONE, 0, 0, 0x03010001));
    CHECK(nvmearb_table_settings(&t, &settings) == NVMEARB_OK && settings.burst == 2 && settings.high == 4);
}

static void regions(void)
{
    nvmearb_table t, before;
    nvmearb_queue queue;
    uint16_t number = 0xeeee, region;
    memset(&t, 0xee, sizeof t);
    memcpy(&before, &t, sizeof before);
    CHECK(nvmearb_table_init(&t, 0, 1, 0) == NVMEARB_EARG && nvmearb_table_init(&t, 1, 65, 0) == NVMEARB_EARG);
    CHECK(memcmp(&before, &t, sizeof t) == 0);
    CHECK(nvmearb_table_add_sq_region(&t, 0, 8, &number) == NVMEARB_ESTATE && number == 0xeeee);
    CHECK(nvmearb_table_init(&t, 1, 1, 0) == NVMEARB_OK && (t.mark & 0xffffff) == (NVMEARB_VERSION & 0xffff00));
    CHECK(nvmearb_table_sq(&t, 0, &queue) == NVMEARB_NONE && nvmearb_table_cq(&t, 0, &region) == NVMEARB_NONE);
    CHECK(nvmearb_table_add_sq_region(&t, 1, 1, &number) == NVMEARB_ESIZE);
    CHECK(nvmearb_table_add_cq_region(&t, 1, 4097, &number) == NVMEARB_ESIZE);
    for (uint16_t k = 0; k < NVMEARB_MAX_REGIONS; k++) {
        CHECK(nvmearb_table_add_sq_region(&t, k, 4096, &number) == NVMEARB_OK && number == k);
        CHECK(nvmearb_table_add_cq_region(&t, k, 2, &number) == NVMEARB_EUSED && number == k);
    }
    memcpy(&before, &t, sizeof before);
    CHECK(nvmearb_table_add_sq_region(&t, 3, 0, &number) == NVMEARB_EUSED);
    CHECK(nvmearb_table_add_sq_region(&t, 99, 0, &number) == NVMEARB_EMANY);
    CHECK(memcmp(&before, &t, sizeof t) == 0);
    CHECK(nvmearb_table_sq(&t, 0, &queue) == NVMEARB_OK && queue.priority == NVMEARB_ADMIN && queue.closing == 0);
    CHECK(nvmearb_table_sq(&t, 65, &queue) == NVMEARB_NONE && nvmearb_table_cq(&t, 65535, &region) == NVMEARB_NONE);
    CHECK(nvmearb_table_add_cq_region(&t, 99, 2, &number) == NVMEARB_OK && number == 0);
    CHECK(nvmearb_table_cq(&t, 0, &region) == NVMEARB_OK && region == 0);
}

/* Makes drawn bytes those of a table in which commands are accepted now and then. */
static void mend(nvmearb_table *t)
{
    t->nsq = 1 + t->nsq % NVMEARB_MAX_IO_QUEUES, t->ncq = 1 + t->ncq % NVMEARB_MAX_IO_QUEUES;
    t->sq_regions.count %= NVMEARB_MAX_REGIONS + 1, t->cq_regions.count %= NVMEARB_MAX_REGIONS + 1;
    t->numbers_set &= 1, t->created &= 1;
    for (int k = 0; k < NVMEARB_MAX_REGIONS; k++) {
        t->sq_regions.places[k].address %= 512, t->sq_regions.places[k].slots %= 4;
        t->cq_regions.places[k].address %= 512, t->cq_regions.places[k].slots %= 4;
        t->sqs[k].priority %= 6, t->sqs[k].cqid %= 20, t->sqs[k].closing &= 1;
        t->cqs[k].open &= 1;
        t->sq_used[k] &= 1, t->cq_used[k] &= 1;
    }
}

/* A million calls on random states. Every fourth state has no mark, and every eighth is drawn bytes behind one. */
static void random_calls(void)
{
    uint64_t state = 4;
    unsigned wrong = 0, accepted = 0, taken[7] = {0};
    nvmearb_table drawn_table, table, before, made;
    memset(&drawn_table, 0, sizeof drawn_table);
    CHECK(nvmearb_table_init(&made, 1, 1, 0) == NVMEARB_OK);
    for (int round = 0; round < 1000000; round++) {
        uint8_t bytes[NVMEARB_SQE_BYTES] = {0};
        nvmearb_answer answer;
        nvmearb_queue queue;
        nvmearb_settings settings;
        uint64_t word = drawn(&state), more = drawn(&state);
        uint16_t qid = (uint16_t)(word >> 16) % 20, a = 0xeeee, b = 0xeeee;
        int is_taken = word >> 62 != 0;
        uint32_t told;
        if (round % 16 == 0) {
            draw_into(&state, &drawn_table, sizeof drawn_table);
        }
        memcpy(&table, &drawn_table, sizeof table);
        if (is_taken) {
            table.mark = made.mark;
        }
        if (word >> 61 & 1) {
            mend(&table);
        }
        memcpy(&before, &table, sizeof before);
        memset(&answer, 0xee, sizeof answer);
        switch (word % 8) {
        case 0:
            told = nvmearb_table_add_sq_region(&table, more % 512, (uint16_t)(word >> 32) % 8192, &a);
            break;
        case 1:
            told = nvmearb_table_add_cq_region(&table, more % 512, (uint16_t)(word >> 32) % 8192, &a);
            break;
        case 2:
            told = nvmearb_table_finish_delete(&table, qid);
            break;
        case 3:
            told = nvmearb_table_sq(&table, qid, &queue);
            told = told == NVMEARB_ESTATE ? told : nvmearb_table_cq(&table, qid, &a);
            break;
        case 4:
            told = nvmearb_table_settings(&table, &settings);
            told = told == NVMEARB_OK ? nvmearb_table_allotted(&table, &a, &b) : told;
            break;
        default:
            bytes[0] = (uint8_t)(more % 12);
            bytes[24] = (uint8_t)(more >> 8), bytes[25] = (uint8_t)(more >> 48) % 2;
            bytes[40] = (uint8_t)(more >> 16) % 20;
            bytes[42] = (uint8_t)(more >> 24) % 4;
            bytes[44] = (uint8_t)(more >> 32);
            bytes[46] = (uint8_t)(more >> 40) % 20;
            told = nvmearb_table_apply(&table, bytes, &answer);
            wrong += told == NVMEARB_OK && (answer.verdict > NVMEARB_ABORT || answer.status.sct > 1);
            accepted += told == NVMEARB_OK && answer.verdict != NVMEARB_DONE;
            if (told == NVMEARB_OK && (answer.status.sct || answer.status.sc)) {
                wrong += memcmp(&before, &table, sizeof before) != 0;
            }
        }
        wrong += (told == NVMEARB_ESTATE) == is_taken || told > NVMEARB_ESIZE;
        if (told <= NVMEARB_ESIZE) {
            taken[told]++;
        }
        if (told != NVMEARB_OK) {
            wrong += memcmp(&before, &table, sizeof before) != 0 || a != 0xeeee || answer.dw0 != 0xeeeeeeee;
        } else {
            /* What was kept is a state again. */
            wrong += nvmearb_table_settings(&table, &settings) != NVMEARB_OK;
        }
    }
    CHECK(wrong == 0);
    CHECK(accepted > 10000);
    for (int k = 0; k < 7; k++) {
        CHECK(taken[k] > 1000);
    }
}

int main(void)
{
    create_refusals();
    deletions();
    aborts();
    features();
    regions();
    random_calls();
    return told();
}
