/* What the tests of tests/c/guest.c and tests/c/guest-*.c share. */
#ifndef GUEST_H
#define GUEST_H

#include <stdint.h>

#define PAGE 4096

/* Ends the test that is going on: it failed. */
_Noreturn void bad(const char *format, ...);
#define CHECK(holds, ...) ((holds) ? (void)0 : bad(__VA_ARGS__))

/* Tells the figures of the test that is going on. */
void good(const char *format, ...);

/* Runs a test in a process of its own, of at most so many seconds. */
void row(const char *name, void (*test)(void), unsigned seconds);

/* Mounts what a guest has; says how many tests there were, and ends it. */
void begin_guest(void);
void end_guest(void);

double seconds(void);
uint64_t random_below(uint64_t limit);

/* Sends an admin command, and returns its status with Do Not Retry (4000h). `data` has 4096 bytes, if it isn't NULL. */
int admin(uint8_t opcode, uint32_t nsid, void *data, uint32_t cdw10, uint32_t cdw11, uint32_t cdw12, uint32_t *dw0);

/* The same with so many bytes of data, and to a disk, for a command of its namespace. */
int admin_of(uint8_t opcode, uint32_t nsid, void *data, uint32_t length, const uint32_t cdw[6], uint32_t *dw0);
int disk_command(const char *path, uint8_t opcode, void *data, uint32_t length, const uint32_t cdw[6]);

/* Reads a file of one line, into static memory. Writes one. */
const char *line_of(const char *path);
void write_line(const char *path, const char *line);

/* Starts fio with these words, and its report in this file. Waits until it ends well. The reads in a second of a job.
 */
int fio(const char *report, const char *words);
void fio_ends(int child, const char *report);
double reads_of(const char *report, int job);
#define VERIFIED                                                                                                       \
    "--ioengine=libaio --rw=randwrite --verify=crc32c --verify_fatal=1 --iodepth=16 --name=job --filename=/dev/"

struct disk {
    const char *name, *path;
    unsigned mib, block;
};

/* Random requests with patterns, and at the end the whole disk, against what was written. Returns the MiB of them. */
unsigned patterns_of(const struct disk *d, unsigned requests);

/* The disks of a guest, and its controller that admin commands go to. */
extern const struct disk disks[];
extern const unsigned disk_count;
extern const char *controller;

/* What the device lets a guest choose, and counts: numbers of capi/examples/knobs.c. */
enum { RATE, BAD_BLOCK, WEIGHTED, CLASS, BAD_READS, ABORTED, RESETS, LATE, LATE_ONES, MOST, RESIZE, MOVE, INTERRUPTS };
uint32_t choose(uint32_t what, uint32_t first, uint32_t second);

/* Sets the Arbitration feature. */
void set_arbitration(uint32_t cdw11);

/* Resets the controller by Linux. */
void reset(void);

/* ---- Queues that Linux doesn't know: guest-queues.c ---- */

#define FIRST_OWN 3       /* the queues that Linux makes and never uses: those of its polls but the first */
#define DATA (256 * PAGE) /* where data is in the memory of these queues; rings are before it */

struct own {
    uint16_t qid, slots, cq_slots, tail, head, phase;
    uint8_t *sq;
    volatile uint32_t *cq;
};
struct ended {
    uint16_t sqid, cid, status, sqhd;
};
extern uint8_t *memory;   /* 2 MiB, in one piece of physical memory */
extern uint64_t physical; /* its address */
extern volatile uint8_t *registers;

/* Begins tests of queues of its own anew: after a reset all queues are those of Linux. */
void begin_anew(void);
/* Makes a pair of queues. */
void create(struct own *q, uint16_t qid, uint16_t cq_slots);
/* Puts a command on a namespace into the ring, and rings the doorbell. */
void put_on(struct own *q, uint32_t nsid, uint16_t cid, uint32_t opcode, uint32_t first, uint32_t blocks, uint64_t prp1,
            uint64_t prp2);
void ring(const struct own *q);
/* Takes the next completion of the completion queue of `q`. Returns 0 if none comes within so many milliseconds. */
int take(struct own *q, struct ended *it, unsigned ms);
/* Deletes a submission queue, from a process beside this one, which goes on meanwhile. */
int delete_sq(uint16_t qid);

/* The tests there. */
void rounds(void), own_aborts(void), lists(void), full(void), refusals(void), features(void), shares(void),
    mixture(void), doorbell_events(void);

/* The tests of what the device tells of itself: guest-admin.c. */
void names(void), more_features(void), log_pages(void), counters(void), identified(void), bus_mastering(void),
    resized(void);

/* The tests of a disk that answers late: guest-disk.c. */
void late_disk(void), aborts_at_disk(void), deleted_at_disk(void);

/* The tests of commands of the NVM command set, of each disk: guest-commands.c. */
void commands(void);

#endif
