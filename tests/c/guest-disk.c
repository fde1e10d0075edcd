/* The tests of tests/c/guest.c of a disk that answers late, by queues of its own. */
#define _GNU_SOURCE
#include "guest.h"

#include <string.h>
#include <sys/wait.h>
#include <unistd.h>

enum { WRITE = 1, READ = 2 };
enum { SLOW = 3, IN_FLIGHT = 8 }; /* the namespace that answers late, and its limit */

/* Two pairs of queues. Reads of the first go to the disk that is late, from block 0 on. */
static void begin_late(struct own q[2], unsigned ms, unsigned reads)
{
    begin_anew();
    create(&q[0], FIRST_OWN, 256);
    create(&q[1], FIRST_OWN + 1, 256);
    choose(MOST, IN_FLIGHT, 0);
    choose(LATE, SLOW, ms);
    for (uint16_t k = 0; k < reads; k++)
        put_on(&q[0], SLOW, k, READ, k, 1, physical + DATA + k * PAGE, 0);
    ring(&q[0]);
}

static void end_late(void)
{
    choose(LATE, 0, 0);
    choose(MOST, 32, 0);
}

/* The other queue goes on meanwhile: so many Reads of the disk in memory. */
static void others(struct own *q, unsigned count)
{
    struct ended it;
    for (uint16_t k = 0; k < count; k++) {
        put_on(q, 1, k, READ, k, 1, physical + DATA + 64 * PAGE, 0);
        ring(q);
        CHECK(take(q, &it, 2000), "read %u of the other queue", k);
        CHECK(it.cid == k && it.status == 0, "read %u of the other queue: status %x", k, it.status);
    }
}

/* A disk that is late stops no other queue, and has no more commands than its limit. */
void late_disk(void)
{
    struct own q[2];
    struct ended it;
    begin_late(q, 1500, 20);
    double start = seconds();
    others(&q[1], 50);
    CHECK(choose(LATE_ONES, 0, 0) == IN_FLIGHT, "%u are at the disk", choose(LATE_ONES, 0, 0));
    CHECK(!take(&q[0], &it, 0) && seconds() < start + 1.4, "the others took %.1f s", seconds() - start);
    choose(LATE, SLOW, 10);
    for (unsigned k = 0; k < 20; k++)
        CHECK(take(&q[0], &it, 4000) && it.status == 0, "completion %u of the disk that is late", k);
    end_late();
    good("50 reads beside it, %d of 20 at the disk", IN_FLIGHT);
}

/* An Abort ends what is at a disk, if nothing was done of it. */
void aborts_at_disk(void)
{
    struct own q[2];
    struct ended it;
    uint32_t dw0 = 9, cids[] = {1, 2};
    begin_late(q, 3000, 0);
    double start = seconds();
    memset(memory + DATA, 0x77, 512);
    put_on(&q[0], SLOW, 1, WRITE, 4000, 1, physical + DATA, 0);
    put_on(&q[0], SLOW, 2, READ, 4000, 1, physical + DATA, 0);
    ring(&q[0]);
    while (choose(LATE_ONES, 0, 0) != 2)
        CHECK(seconds() < start + 2, "%u are at the disk", choose(LATE_ONES, 0, 0));
    for (int k = 0; k < 2; k++) {
        CHECK(admin(0x08, 0, NULL, cids[k] << 16 | q[0].qid, 0, 0, &dw0) == 0 && dw0 == 0, "Abort %d: %x", k, dw0);
        CHECK(take(&q[0], &it, 500) && it.cid == cids[k] && it.status == 0x07, "its command: %x", it.status);
        CHECK(admin(0x08, 0, NULL, cids[k] << 16 | q[0].qid, 0, 0, &dw0) == 0 && dw0 == 1, "once more: %x", dw0);
    }
    CHECK(seconds() < start + 3, "that took %.1f s", seconds() - start);
    end_late();
    while (seconds() < start + 3.2)
        usleep(50000);
    put_on(&q[0], SLOW, 3, READ, 4000, 1, physical + DATA, 0);
    ring(&q[0]);
    CHECK(take(&q[0], &it, 2000) && it.cid == 3 && it.status == 0 && memory[DATA] != 0x77,
          "what was aborted is written");
    good("a Write and a Read, at once");
}

/* A deletion waits for what is at the disk, and drops what waits. The other queue goes on. */
void deleted_at_disk(void)
{
    struct own q[2];
    struct ended it;
    uint64_t seen = 0;
    int status;
    begin_late(q, 2000, 20);
    double start = seconds();
    pid_t child = delete_sq(q[0].qid);
    others(&q[1], 20);
    CHECK(waitpid(child, &status, WNOHANG) == 0, "the Delete ended within %.1f s", seconds() - start);
    for (unsigned k = 0; k < 20; k++) {
        CHECK(take(&q[0], &it, 4000) && it.cid < 20 && !(seen >> it.cid & 1), "completion %u", k);
        seen |= 1ull << it.cid;
        CHECK(it.status == (it.cid < IN_FLIGHT ? 0 : 0x08), "cid %u has status %x", it.cid, it.status);
    }
    waitpid(child, &status, 0);
    CHECK(status == 0 && seconds() > start + 1.9, "it took %.1f s", seconds() - start);
    end_late();
    good("%d read, %d dropped", IN_FLIGHT, 20 - IN_FLIGHT);
}
