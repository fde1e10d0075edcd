/* The tests of tests/c/guest.c by queues of its own, which it makes by Linux' admin commands and rings itself. */
#define _GNU_SOURCE
#include "guest.h"

#include <errno.h>
#include <fcntl.h>
#include <linux/netlink.h>
#include <stdlib.h>
#include <string.h>
#include <sys/mman.h>
#include <sys/socket.h>
#include <sys/wait.h>
#include <unistd.h>

#define OWN 3
#define ROUNDS 300 /* more than there are identifiers, and the rings lie in the same memory */
#define REMADE 50
#define BURST 8 /* of a pick, at first */

uint8_t *memory;
uint64_t physical;
volatile uint8_t *registers;
static volatile uint32_t *doorbells;

/* Takes memory and doorbells, and deletes the queues of Linux' that are used here. */
static void begin(void)
{
    uint64_t entry = 0;
    int map = open("/proc/self/pagemap", O_RDONLY), bar = open("/sys/class/nvme/nvme0/device/resource0", O_RDWR);
    memory =
        mmap(NULL, 2 << 20, PROT_READ | PROT_WRITE, MAP_PRIVATE | MAP_ANONYMOUS | MAP_HUGETLB | MAP_POPULATE, -1, 0);
    CHECK(memory != MAP_FAILED, "memory: %s", strerror(errno));
    memset(memory, 0, 2 << 20);
    madvise(memory, 2 << 20, MADV_DONTFORK); /* or a write after a fork would move it */
    CHECK(pread(map, &entry, 8, (off_t)((uintptr_t)memory / PAGE * 8)) == 8 && entry >> 63, "no physical address");
    physical = (entry & ((1ull << 55) - 1)) * PAGE;
    registers = mmap(NULL, 0x4000, PROT_READ | PROT_WRITE, MAP_SHARED, bar, 0);
    CHECK(registers != MAP_FAILED, "registers: %s", strerror(errno));
    doorbells = (volatile uint32_t *)(registers + 0x1000);
    for (uint32_t qid = FIRST_OWN; qid < FIRST_OWN + OWN; qid++) {
        CHECK(admin(0x00, 0, NULL, qid, 0, 0, NULL) == 0, "Delete SQ %u of Linux", qid);
        CHECK(admin(0x04, 0, NULL, qid, 0, 0, NULL) == 0, "Delete CQ %u of Linux", qid);
    }
}

void begin_anew(void)
{
    choose(RATE, 0, 0);
    reset();
    begin();
}

/* Linux names the memory of a command's data by PRP 1: so the address of a ring gets into a Create. */
static int create_cq(struct own *q, uint16_t cqid, uint16_t slots)
{
    q->cq = (volatile uint32_t *)(memory + (cqid * 2 + 1) * PAGE);
    q->cq_slots = slots;
    memset((void *)q->cq, 0, PAGE);
    return admin(0x05, 0, (void *)q->cq, (slots - 1u) << 16 | cqid, 1, 0, NULL);
}

static int create_sq(struct own *q, uint16_t qid, uint16_t cqid, uint32_t qprio)
{
    q->sq = memory + qid * 2 * PAGE;
    q->slots = 64;
    return admin(0x01, 0, q->sq, 63u << 16 | qid, (uint32_t)cqid << 16 | qprio << 1 | 1, 0, NULL);
}

void create(struct own *q, uint16_t qid, uint16_t cq_slots)
{
    *q = (struct own){.qid = qid, .phase = 1};
    int status = create_cq(q, qid, cq_slots);
    CHECK(status == 0, "Create CQ %u: %x", qid, status);
    status = create_sq(q, qid, qid, 0);
    CHECK(status == 0, "Create SQ %u: %x", qid, status);
}

void put_on(struct own *q, uint32_t nsid, uint16_t cid, uint32_t opcode, uint32_t first, uint32_t blocks, uint64_t prp1,
            uint64_t prp2)
{
    uint32_t entry[16] = {opcode | (uint32_t)cid << 16, nsid, [10] = first, 0, blocks - 1};
    memcpy(entry + 6, &prp1, 8);
    memcpy(entry + 8, &prp2, 8);
    memcpy(q->sq + q->tail * 64, entry, 64);
    q->tail = (uint16_t)((q->tail + 1) % q->slots);
}

static void put(struct own *q, uint16_t cid, uint32_t opcode, uint32_t first, uint32_t blocks, uint64_t prp1,
                uint64_t prp2)
{
    put_on(q, 1, cid, opcode, first, blocks, prp1, prp2);
}

/* Puts a Read of one block, at a block that is its identifier. */
static void put_read(struct own *q, uint16_t cid)
{
    put(q, cid, 0x02, cid, 1, physical + DATA + cid % 128 * PAGE, 0);
}

void ring(const struct own *q)
{
    __sync_synchronize();
    doorbells[2 * q->qid] = q->tail;
}

int take(struct own *q, struct ended *it, unsigned ms)
{
    double end = seconds() + ms / 1e3;
    volatile uint32_t *entry = q->cq + 4 * q->head;
    while ((entry[3] >> 16 & 1) != q->phase)
        if (seconds() > end)
            return 0;
    __sync_synchronize();
    *it = (struct ended){(uint16_t)(entry[2] >> 16), (uint16_t)entry[3], (uint16_t)(entry[3] >> 17 & 0x7ff),
                         (uint16_t)entry[2]};
    q->head = (uint16_t)((q->head + 1) % q->cq_slots);
    q->phase ^= q->head == 0;
    doorbells[2 * q->qid + 1] = q->head;
    return 1;
}

int delete_sq(uint16_t qid)
{
    pid_t child = fork();
    if (child == 0)
        _exit(admin(0x00, 0, NULL, qid, 0, 0, NULL) != 0);
    return child;
}

/* A queue is made, used, and deleted while commands wait in it. */
static void one_round(unsigned *aborted)
{
    struct own q;
    struct ended it;
    uint64_t seen = 0;
    int status;
    create(&q, FIRST_OWN, 256);
    for (uint16_t k = 0; k < 20; k++)
        put_read(&q, k);
    ring(&q);
    for (uint16_t k = 0; k < 20; k++)
        CHECK(take(&q, &it, 2000) && it.cid == k && it.status == 0 && it.sqid == q.qid, "read %u: cid %u, status %x", k,
              it.cid, it.status);
    CHECK(it.sqhd == 20, "SQHD is %u", it.sqhd);
    choose(RATE, 1, 0);
    for (uint16_t k = 0; k < 30; k++)
        put_read(&q, k);
    ring(&q);
    pid_t child = delete_sq(q.qid);
    for (unsigned k = 0; k < 30; k++) {
        CHECK(take(&q, &it, 2000), "%u completions of 30", k);
        CHECK(it.cid < 30 && !(seen >> it.cid & 1), "cid %u", it.cid);
        seen |= 1ull << it.cid;
        CHECK(it.status == (it.cid < BURST ? 0 : 0x08), "cid %u has status %x", it.cid, it.status);
        *aborted += it.status == 0x08;
    }
    waitpid(child, &status, 0);
    CHECK(status == 0, "Delete SQ: %x", status);
    choose(RATE, 0, 0);
    CHECK(!take(&q, &it, 0), "a completion too many: cid %u", it.cid);
    CHECK(admin(0x04, 0, NULL, q.qid, 0, 0, NULL) == 0, "Delete CQ");
}

void rounds(void)
{
    unsigned aborted = 0;
    begin_anew();
    for (unsigned made = 0; made < ROUNDS; made++)
        one_round(&aborted);
    good("%u queues made, used and deleted without a reset, %u commands answered 0/08", ROUNDS, aborted);
}

void own_aborts(void)
{
    struct own q;
    struct ended it;
    uint32_t dw0 = 9, found = 0;
    begin_anew();
    create(&q, FIRST_OWN, 256);
    choose(RATE, 1, 0);
    for (uint16_t k = 0; k < 20; k++)
        put_read(&q, k);
    ring(&q);
    CHECK(admin(0x08, 0, NULL, 15u << 16 | q.qid, 0, 0, &dw0) == 0 && dw0 == 0, "an Abort of what waits: %x", dw0);
    CHECK(admin(0x08, 0, NULL, 15u << 16 | q.qid, 0, 0, &dw0) == 0 && dw0 == 1, "an Abort of what is aborted: %x", dw0);
    CHECK(admin(0x08, 0, NULL, 3u << 16 | q.qid, 0, 0, &dw0) == 0 && dw0 == 1, "an Abort of what was picked: %x", dw0);
    choose(RATE, 0, 0);
    for (unsigned k = 0; k < 20; k++)
        CHECK(take(&q, &it, 2000) && it.status == (it.cid == 15 ? 0x07 : 0), "cid %u has status %x", it.cid, it.status);
    for (uint32_t cid = 0; cid < 64; cid++, found += dw0 == 0)
        CHECK(admin(0x08, 0, NULL, cid << 16, 0, 0, &dw0) == 0 && dw0 < 2, "an Abort of an admin command: %x", dw0);
    CHECK(found == 1, "%u event requests of Linux were aborted", found);
    good("found if it waits, or is an event request, else not");
}

/* A completion queue of four slots has three completions at most, however many are ready. */
void full(void)
{
    struct own q;
    struct ended it;
    begin_anew();
    create(&q, FIRST_OWN, 4);
    for (uint16_t k = 0; k < 60; k++)
        put_read(&q, k);
    ring(&q);
    usleep(50000);
    CHECK((q.cq[11] >> 16 & 1) == 1 && (q.cq[15] >> 16 & 1) == 0, "not just three slots are written");
    for (uint16_t k = 0; k < 60; k++)
        CHECK(take(&q, &it, 2000) && it.cid == k && it.status == 0, "completion %u: cid %u, status %x", k, it.cid,
              it.status);
    CHECK(!take(&q, &it, 0), "a completion too many: cid %u", it.cid);
    good("60 completions by a queue of four slots");
}

/* Admin commands that are refused, and with which status. All but one don't ask for a retry: it may help there. */
void refusals(void)
{
    static const struct {
        const char *name;
        uint32_t opcode, nsid, cdw10, cdw11;
        int status;
    } all[] = {
        {"Create SQ with an identifier that is used", 0x01, 0, 63 << 16 | 3, 3 << 16 | 1, 0x101},
        {"Create SQ with one that is too large", 0x01, 0, 63 << 16 | 30, 3 << 16 | 1, 0x101},
        {"Create SQ with no such completion queue", 0x01, 0, 63 << 16 | 4, 5 << 16 | 1, 0x100},
        {"Create SQ of one slot", 0x01, 0, 4, 3 << 16 | 1, 0x102},
        {"Create SQ that isn't contiguous", 0x01, 0, 63 << 16 | 4, 3 << 16, 0x002},
        {"Create CQ with identifier 0", 0x05, 0, 63 << 16, 1, 0x101},
        {"Delete CQ of a submission queue", 0x04, 0, 3, 0, 0x10c},
        {"Delete SQ that isn't there", 0x00, 0, 4, 0, 0x101},
        {"Delete SQ 0", 0x00, 0, 0, 0, 0x101},
        {"Set Features 07h after a Create", 0x09, 0, 7, 0x10001, 0x00c},
        {"Set Features 01h, saved", 0x09, 0, 1u << 31 | 1, 0, 0x10d},
        {"Set Features 0Bh, saved", 0x09, 0, 1u << 31 | 11, 0, 0x10d},
        {"Get Features 7Fh", 0x0a, 0, 0x7f, 0, 0x002},
        {"Identify of namespace 4", 0x06, 4, 0, 0, 0x00b},
        {"Identify of CNS 1Ch", 0x06, 0, 0x1c, 0, 0x002},
        {"Get Log Page 55h", 0x02, 0xffffffff, 1023 << 16 | 0x55, 0, 0x109},
        {"Security Send", 0x81, 0, 0, 0, 0x001},
    };
    struct own q;
    begin_anew();
    create(&q, FIRST_OWN, 256);
    for (size_t k = 0; k < sizeof all / sizeof all[0]; k++) {
        void *data = memory + DATA; /* where the command has data or an address */
        int has_data = all[k].opcode % 4 != 0 && all[k].opcode != 0x09 && all[k].opcode != 0x0a;
        int status =
            admin((uint8_t)all[k].opcode, all[k].nsid, has_data ? data : NULL, all[k].cdw10, all[k].cdw11, 0, NULL);
        int marked = all[k].status | (all[k].status == 0x10c ? 0 : 0x4000);
        CHECK(status == marked, "%s: status %x", all[k].name, status);
    }
    good("%zu", sizeof all / sizeof all[0]);
}

/* The status of a command. */
static int status_of(struct own *q, uint32_t opcode, uint32_t first, uint32_t blocks, uint64_t prp1, uint64_t prp2)
{
    struct ended it;
    put(q, 7, opcode, first, blocks, prp1, prp2);
    ring(q);
    CHECK(take(q, &it, 2000) && it.cid == 7, "no completion");
    return it.status;
}

/* 16 pages by PRP 1 and a list that begins in the last two entries of a page, so all but one are in the next page. */
void lists(void)
{
    enum { PAGES = 17, BLOCKS = 16 * 8 };
    struct own q;
    uint8_t *data = NULL;
    begin_anew();
    data = memory + DATA;
    create(&q, FIRST_OWN, 256);
    uint64_t at = physical + DATA, list = DATA + 64 * PAGE, far = 1ull << 40;
    uint64_t *first = (uint64_t *)(memory + list + PAGE - 16), *rest = (uint64_t *)(memory + list + 2 * PAGE);
    for (int k = 0; k < PAGES * PAGE; k++)
        data[k] = (uint8_t)random_below(256);
    first[0] = at + PAGE;
    first[1] = physical + list + 2 * PAGE;
    for (uint64_t k = 0; k < PAGES - 2; k++)
        rest[k] = at + (k + 2) * PAGE;
    uint64_t prp2 = physical + list + PAGE - 16;
    CHECK(status_of(&q, 0x01, 5000, BLOCKS, at + 512, prp2) == 0, "the Write");
    CHECK(status_of(&q, 0x02, 5000, 16, at + 32 * PAGE, at + 33 * PAGE) == 0, "a Read without a list");
    CHECK(!memcmp(data + 32 * PAGE, data + 512, 2 * PAGE), "its data");
    memset(data + 32 * PAGE, 0, PAGES * PAGE);
    for (uint64_t k = 0; k < PAGES - 2; k++)
        rest[k] = at + (k + 34) * PAGE;
    first[0] = at + 33 * PAGE;
    CHECK(status_of(&q, 0x02, 5000, BLOCKS, at + 32 * PAGE + 512, prp2) == 0, "the Read");
    CHECK(!memcmp(data + 32 * PAGE + 512, data + 512, 16 * PAGE), "its data");
    CHECK(status_of(&q, 0x4002, 5000, 1, at, 0) == 0x02, "an SGL");
    CHECK(status_of(&q, 0x02, 5000, 1, at + 2, 0) == 0x13, "PRP 1 within a dword");
    CHECK(status_of(&q, 0x02, 5000, 16, at, at + 512) == 0x13, "PRP 2 within a page");
    CHECK(status_of(&q, 0x02, 5000, 1, far, 0) == 0x04, "PRP 1 outside of memory");
    CHECK(status_of(&q, 0x02, 5000, 24, at, far) == 0x04, "a list outside of memory");
    CHECK(status_of(&q, 0x02, 131072 - 8, 9, at, at + PAGE) == 0x80, "a Read past the end");
    good("lists over two pages, and six refusals");
}

/* Features of the device, and the values of the controller's that aren't the current ones: by SEL, in bits 10:08. */
void features(void)
{
    static const struct {
        uint32_t cdw10, cdw11, want;
    } all[] = {
        {0x004, 0, 350},        {0x004, 1 << 20, 7},    {0x104, 0, 343},        {0x104, 1 << 20, 0},
        {0x304, 0, 4},          {0x001, 0, 0x01020304}, {0x101, 0, 0x07030103}, {0x301, 0, 4},
        {0x107, 0, 0x003f003f}, {0x307, 0, 4},          {0x008, 0, 0x0105},     {0x108, 0, 0},
    };
    uint32_t dw0;
    begin_anew();
    set_arbitration(0x01020304);
    CHECK(admin(0x09, 0, NULL, 4, 350, 0, NULL) == 0 && admin(0x09, 0, NULL, 4, 1 << 20 | 7, 0, NULL) == 0,
          "thresholds");
    CHECK(admin(0x09, 0, NULL, 8, 0x0105, 0, NULL) == 0, "coalescing");
    for (size_t k = 0; k < sizeof all / sizeof all[0]; k++) {
        int status = admin(0x0a, 0, NULL, all[k].cdw10, all[k].cdw11, 0, &dw0);
        CHECK(status == 0 && dw0 == all[k].want, "Get Features %03x: status %x, %08x", all[k].cdw10, status, dw0);
    }
    reset();
    CHECK(admin(0x0a, 0, NULL, 1, 0, 0, &dw0) == 0 && dw0 == 0x07030103, "after a reset: %08x", dw0);
    good("%zu values", sizeof all / sizeof all[0]);
}

/* Shares of three queues with one completion queue, where all have commands: the order is exact. */
static unsigned shares_of(uint32_t cdw11, const unsigned weights[OWN])
{
    struct own q[OWN];
    struct ended it;
    unsigned checked = 0, left[OWN];
    begin_anew();
    set_arbitration(cdw11);
    q[0] = (struct own){.qid = FIRST_OWN, .phase = 1};
    CHECK(create_cq(&q[0], FIRST_OWN, 256) == 0, "Create CQ");
    for (uint16_t k = 0; k < OWN; k++) {
        q[k].qid = (uint16_t)(FIRST_OWN + k);
        q[k].tail = 0;
        CHECK(create_sq(&q[k], q[k].qid, FIRST_OWN, k + 1u) == 0, "Create SQ %u", q[k].qid);
    }
    choose(RATE, 20, 0);
    for (int k = 0; k < OWN; k++) {
        for (uint16_t n = 0; n < 63; n++)
            put_read(&q[k], n);
        ring(&q[k]);
        left[k] = 63;
    }
    choose(RATE, 0, 0);
    for (int k = 0; left[0] && left[1] && left[2]; k = (k + 1) % OWN)
        for (unsigned n = 0; n < weights[k] && left[k]; n++, left[k]--, checked++) {
            CHECK(take(&q[0], &it, 2000), "no completion %u", checked);
            CHECK(it.sqid == q[k].qid && it.cid == 63 - left[k], "completion %u is %u of queue %u", checked, it.cid,
                  it.sqid);
        }
    return checked;
}

void shares(void)
{
    choose(WEIGHTED, 1, 0);
    unsigned first = shares_of(0x07030103, (unsigned[]){8, 4, 2});
    unsigned second = shares_of(0x04010003, (unsigned[]){5, 2, 1});
    choose(WEIGHTED, 0, 0);
    good("%u and %u commands in the order of weights 8, 4, 2 and 5, 2, 1", first, second);
}

/* A queue of the test below: its commands that haven't ended, by their identifiers, and which of them were aborted. */
struct use {
    struct own q;
    uint64_t out, aborted;
};
static unsigned submitted, ended_well, ended_aborted, ended_deleted;

/* Takes what is completed. A command ends once: with 0/07 if it was aborted, or else with success or `other`. */
static void settle(struct own *cq, struct use *uses, int other)
{
    struct ended it;
    while (take(cq, &it, 0)) {
        CHECK(it.sqid >= FIRST_OWN && it.sqid < FIRST_OWN + OWN && it.cid < 64, "cid %u of queue %u", it.cid, it.sqid);
        struct use *u = &uses[it.sqid - FIRST_OWN];
        uint64_t bit = 1ull << it.cid;
        CHECK(u->out & bit, "cid %u of queue %u ended twice", it.cid, it.sqid);
        if (u->aborted & bit)
            CHECK(it.status == 0x07, "cid %u was aborted, and has status %x", it.cid, it.status);
        else
            CHECK(it.status == 0 || it.status == other, "cid %u has status %x", it.cid, it.status);
        u->out &= ~bit;
        u->aborted &= ~bit;
        ended_well += it.status == 0;
        ended_aborted += it.status == 0x07;
        ended_deleted += it.status == 0x08;
    }
}

/* Submits up to eight Reads and Writes. */
static void submit(struct use *u)
{
    unsigned count = (unsigned)random_below(8) + 1, place = (u->q.qid - FIRST_OWN) * 64u;
    for (unsigned k = 0; k < count; k++) {
        uint16_t cid = (uint16_t)random_below(63);
        if (u->out >> cid & 1 || __builtin_popcountll(u->out) == 62)
            continue;
        uint32_t first = (place + cid) * 8;
        put(&u->q, cid, 1 + (uint32_t)random_below(2), first, 1 + (uint32_t)random_below(8),
            physical + DATA + (place + cid) * PAGE, 0);
        u->out |= 1ull << cid;
        submitted++;
    }
    ring(&u->q);
}

static void abort_one(struct use *u)
{
    uint32_t dw0 = 9;
    uint64_t cid = random_below(63);
    CHECK(admin(0x08, 0, NULL, (uint32_t)cid << 16 | u->q.qid, 0, 0, &dw0) == 0 && dw0 < 2, "Abort: %x", dw0);
    CHECK(dw0 == 1 || u->out >> cid & 1, "an Abort found what wasn't there");
    if (dw0 == 0)
        u->aborted |= 1ull << cid;
}

/* Deletes a queue and makes it again. When the Delete is completed, all its commands are. */
static void remake(struct own *cq, struct use *uses, struct use *u)
{
    settle(cq, uses, 0);
    CHECK(admin(0x00, 0, NULL, u->q.qid, 0, 0, NULL) == 0, "Delete SQ %u", u->q.qid);
    settle(cq, uses, 0x08);
    CHECK(u->out == 0, "queue %u is deleted, and %llx of its commands aren't ended", u->q.qid,
          (unsigned long long)u->out);
    u->q.tail = 0;
    CHECK(create_sq(&u->q, u->q.qid, FIRST_OWN, (uint32_t)random_below(4)) == 0, "Create SQ %u", u->q.qid);
}

/* Everything at once, at random: each command ends once, with a status that it may have. */
void mixture(void)
{
    struct use uses[OWN] = {0};
    struct own cq = {.qid = FIRST_OWN, .phase = 1};
    unsigned remade = 0, rates[] = {0, 50, 500, 5000};
    choose(WEIGHTED, 1, 0);
    begin_anew();
    CHECK(create_cq(&cq, FIRST_OWN, 256) == 0, "Create CQ");
    for (uint16_t k = 0; k < OWN; k++) {
        uses[k].q.qid = (uint16_t)(FIRST_OWN + k);
        CHECK(create_sq(&uses[k].q, uses[k].q.qid, FIRST_OWN, k) == 0, "Create SQ %u", uses[k].q.qid);
    }
    for (unsigned step = 0; step < 2000; step++) {
        struct use *u = &uses[random_below(OWN)];
        uint64_t what = random_below(100);
        if (what < 70)
            submit(u);
        else if (what < 90)
            abort_one(u);
        else if (what < 92 && remade < REMADE) {
            remake(&cq, uses, u);
            remade++;
        } else if (what < 95)
            choose(RATE, rates[random_below(4)], 0);
        else if (what < 97)
            set_arbitration((uint32_t)random_below(256) << 24 | (uint32_t)random_below(0x10000) << 8 | 3);
        settle(&cq, uses, 0);
    }
    choose(RATE, 0, 0);
    for (double end = seconds() + 5; uses[0].out | uses[1].out | uses[2].out;) {
        CHECK(seconds() < end, "commands that don't end");
        settle(&cq, uses, 0);
    }
    choose(WEIGHTED, 0, 0);
    CHECK(submitted == ended_well + ended_aborted + ended_deleted, "%u were submitted", submitted);
    good("%u commands, %u of them aborted, %u by %u deletions", submitted, ended_aborted, ended_deleted, remade);
}

/* Waits for an event that Linux tells. */
static void event(int events, const char *want)
{
    static char text[8192];
    double end = seconds() + 5;
    while (seconds() < end) {
        ssize_t n = recv(events, text, sizeof text - 1, MSG_DONTWAIT);
        text[n > 0 ? n : 0] = 0;
        for (char *it = text; it < text + n; it += strlen(it) + 1)
            if (!strncmp(it, "NVME_AEN=", 9)) {
                CHECK(!strcmp(it + 9, want), "the event is %s", it + 9);
                return;
            }
        usleep(5000);
    }
    bad("no event %s", want);
}

/* The newest error of the log, which has so many. */
static void error_log(uint64_t count, uint16_t qid)
{
    uint8_t *page = aligned_alloc(PAGE, PAGE);
    uint64_t was = 0;
    uint16_t which = 0;
    CHECK(admin(0x02, 0xffffffff, page, 1023u << 16 | 1, 0, 0, NULL) == 0, "Get Log Page");
    memcpy(&was, page, 8);
    memcpy(&which, page + 8, 2);
    CHECK(was == count && which == qid, "error %llu of queue %u", (unsigned long long)was, which);
}

void doorbell_events(void)
{
    struct sockaddr_nl all = {.nl_family = AF_NETLINK, .nl_groups = 1};
    struct own q;
    struct ended it;
    int events = socket(AF_NETLINK, SOCK_DGRAM, NETLINK_KOBJECT_UEVENT);
    CHECK(bind(events, (struct sockaddr *)&all, sizeof all) == 0, "events: %s", strerror(errno));
    begin_anew();
    create(&q, FIRST_OWN, 256);
    doorbells[2 * 60] = 1; /* a queue that isn't there */
    event(events, "0x010000");
    error_log(1, 60);
    doorbells[2 * q.qid] = 64; /* a slot that isn't there */
    event(events, "0x010100");
    error_log(2, q.qid);
    doorbells[2 * q.qid + 1] = 3; /* completions that weren't posted */
    event(events, "0x010100");
    error_log(3, q.qid);
    put_read(&q, 0);
    ring(&q);
    CHECK(take(&q, &it, 2000) && it.status == 0, "a read after them");
    good("three, each told by an event and in the log");
}
