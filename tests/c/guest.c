/*
 * The first process of the guest of tests/guest: tests the disks of the device of capi/examples/nvme.c, first through
 * Linux, then by queues of its own. A test shows a line "row NAME: FIGURES" or "bad NAME: WHY", and the last
 * line is "end of N", for N tests. The word only=TEXT leaves out those that haven't TEXT in their names.
 */
#define _GNU_SOURCE
#include "guest.h"

#include <errno.h>
#include <fcntl.h>
#include <string.h>
#include <sys/ioctl.h>
#include <sys/wait.h>
#include <unistd.h>

/* In memory, in memory, and in a file. */
const struct disk disks[] = {
    {"nvme0n1", "/dev/nvme0n1", 64, 512}, {"nvme0n2", "/dev/nvme0n2", 32, 4096}, {"nvme0n3", "/dev/nvme0n3", 24, 512}};
const unsigned disk_count = sizeof disks / sizeof disks[0];
const char *controller = "/dev/nvme0";

uint32_t choose(uint32_t what, uint32_t first, uint32_t second)
{
    uint32_t dw0 = 0;
    int status = admin(0xc0, 0, NULL, what, first, second, &dw0);
    CHECK(status == 0, "the device's choice %u: status %x", what, status);
    return dw0;
}

/* ---- Through Linux ---- */

static void identity(void)
{
    for (const struct disk *d = disks; d < disks + disk_count; d++) {
        uint64_t bytes = 0;
        int block = 0, fd = open(d->path, O_RDONLY);
        CHECK(fd >= 0, "%s: %s", d->path, strerror(errno));
        ioctl(fd, _IOR(0x12, 114, size_t), &bytes); /* BLKGETSIZE64 */
        ioctl(fd, _IO(0x12, 104), &block);          /* BLKSSZGET */
        CHECK(bytes == (uint64_t)d->mib << 20, "%s has %llu bytes", d->name, (unsigned long long)bytes);
        CHECK(block == (int)d->block, "%s has blocks of %d", d->name, block);
    }
    CHECK(!strcmp(line_of("/sys/class/nvme/nvme0/model"), "libnvmearb example"), "the model");
    CHECK(!strcmp(line_of("/sys/class/nvme/nvme0/serial"), "1"), "the serial number");
    CHECK(!strcmp(line_of("/sys/class/nvme/nvme0/firmware_rev"), "0.1"), "the firmware revision");
    CHECK(!strcmp(line_of("/sys/class/nvme/nvme0/queue_count"), "6"), "%s queues",
          line_of("/sys/class/nvme/nvme0/queue_count"));
    good("%u, %u and %u MiB, six queues, enabled %u times", disks[0].mib, disks[1].mib, disks[2].mib,
         choose(RESETS, 0, 0));
}

static void patterns(void)
{
    unsigned first = patterns_of(&disks[0], 300), second = patterns_of(&disks[1], 150),
             file = patterns_of(&disks[2], 150);
    good("600 requests of 512 bytes to 1 MiB, %u, %u and %u MiB, and the disks compared", first, second, file);
}

static void verified(void)
{
    fio_ends(fio("/tmp/1", VERIFIED "nvme0n1 --bsrange=512-256k --size=32m"), "/tmp/1");
    fio_ends(fio("/tmp/2", VERIFIED "nvme0n2 --bsrange=4k-1m --size=24m"), "/tmp/2");
    good("56 MiB by fio, with crc32c");
}

/* Resets, under fio, whose data is verified. */
static void resets_under(const char *words)
{
    uint32_t before = choose(RESETS, 0, 0);
    pid_t child = fio("/tmp/1", words);
    for (int k = 0; k < 6; k++) {
        usleep(300000);
        reset();
    }
    CHECK(waitpid(child, NULL, WNOHANG) == 0, "fio ended before the resets");
    choose(RATE, 0, 0);
    choose(LATE, 0, 0);
    fio_ends(child, "/tmp/1");
    uint32_t count = choose(RESETS, 0, 0) - before;
    CHECK(count == 6, "%u resets of 6", count);
    good("%u under fio, no error", count);
}

static void resets(void)
{
    choose(RATE, 400, 0);
    resets_under(VERIFIED "nvme0n1 --bsrange=512-64k --size=24m");
}

static void late_resets(void)
{
    choose(LATE, 3, 30);
    resets_under(VERIFIED "nvme0n3 --bsrange=512-64k --size=20m");
}

/* The device is saved and restored, under fio, whose data is verified. */
static void moved(void)
{
    enum { MOST_TIMES = 20, FEWEST = 5 };
    int count = 0, status;
    choose(RATE, 400, 0);
    pid_t child = fio("/tmp/1", VERIFIED "nvme0n3 --bsrange=512-64k --size=20m");
    for (; count < MOST_TIMES && waitpid(child, &status, WNOHANG) == 0; count++) {
        usleep(50000);
        choose(MOVE, 0, 0);
    }
    choose(RATE, 0, 0);
    if (count == MOST_TIMES)
        fio_ends(child, "/tmp/1");
    else
        CHECK(status == 0 && count >= FEWEST, "fio ended with %x after %d times", status, count);
    good("%d times under fio, no error", count);
}

static void failing(void)
{
    static uint8_t bytes[PAGE] __attribute__((aligned(PAGE)));
    const off_t at = 1000 * 512;
    int fd = open(disks[0].path, O_RDWR | O_DIRECT);
    uint32_t before = choose(BAD_READS, 0, 0);
    choose(BAD_BLOCK, 1, 1000);
    CHECK(pread(fd, bytes, 512, at) < 0, "the bad block was read");
    int why = errno;
    CHECK(why == EIO || why == ENODATA, "the error is %s", strerror(why));
    CHECK(choose(BAD_READS, 0, 0) - before == 1, "it was read %u times", choose(BAD_READS, 0, 0) - before);
    CHECK(pread(fd, bytes, PAGE, at - PAGE) == PAGE && pread(fd, bytes, PAGE, at + 512) == PAGE, "its neighbours");
    CHECK(pwrite(fd, bytes, 512, at) == 512, "the bad block isn't written");
    choose(BAD_BLOCK, 0, 0);
    CHECK(pread(fd, bytes, 512, at) == 512, "the block isn't good again");
    good("sent once, %s", strerror(why));
}

static void linux_aborts(void)
{
    uint32_t before = choose(ABORTED, 0, 0), count = 0;
    choose(WEIGHTED, 1, 0); /* so admin commands come first */
    reset();
    write_line("/sys/block/nvme0n1/queue/io_timeout", "1000");
    choose(RATE, 4, 0);
    pid_t child = fio("/tmp/1", "--name=job --ioengine=libaio --rw=randread --bs=4k --iodepth=40 --number_ios=200 "
                                "--size=16m --filename=/dev/nvme0n1");
    double end = seconds() + 15;
    while (count < 3 && seconds() < end) {
        usleep(50000);
        count = choose(ABORTED, 0, 0) - before;
    }
    choose(RATE, 0, 0);
    write_line("/sys/block/nvme0n1/queue/io_timeout", "30000");
    CHECK(count >= 3, "%u commands were aborted", count);
    fio_ends(child, "/tmp/1");
    good("%u commands, and all were read in the end", count);
}

#define READS(disk)                                                                                                    \
    "--rw=randread --bs=512 --iodepth=64 --size=16m --time_based --ramp_time=1 --runtime=4 --filename=/dev/" disk      \
    " --name=low --ioengine=libaio --name=high --ioengine=io_uring --hipri=1"

/* The queue that Linux polls has priority high, the other one low, and both always have commands. */
static void shares_of(const char *words)
{
    choose(WEIGHTED, 1, 0);
    choose(CLASS, 1, 4);
    choose(CLASS, 2, 2);
    reset();
    set_arbitration(0x07030103);
    fio_ends(fio("/tmp/1", words), "/tmp/1");
    choose(CLASS, 1, 0);
    choose(CLASS, 2, 0);
    double low = reads_of("/tmp/1", 0), high = reads_of("/tmp/1", 1), share = high / low;
    CHECK(share > 3.6 && share < 4.4, "%.0f to %.0f reads a second", high, low);
    good("%.0f to %.0f reads a second, so %.2f for weights 8 to 2", high, low, share);
}

static void linux_shares(void)
{
    choose(RATE, 800, 0);
    shares_of(READS("nvme0n1"));
    choose(RATE, 0, 0);
}

/* The same where the disk is the bottleneck: the limit on what is in flight keeps commands waiting. */
static void disk_shares(void)
{
    choose(MOST, 16, 0);
    choose(LATE, 3, 20);
    shares_of(READS("nvme0n3"));
    choose(LATE, 0, 0);
    choose(MOST, 32, 0);
}

int main(void)
{
    begin_guest();
    row("identity", identity, 20);
    row("names of two devices", names, 20);
    row("patterns", patterns, 60);
    row("fio", verified, 60);
    row("commands", commands, 30);
    row("counters", counters, 20);
    row("another size", resized, 20);
    row("a failing read", failing, 20);
    row("resets", resets, 60);
    row("resets of a late disk", late_resets, 60);
    row("saved and restored", moved, 60);
    row("Aborts by Linux", linux_aborts, 40);
    row("shares of Linux' queues", linux_shares, 40);
    row("shares of a late disk", disk_shares, 40);
    row("queues made and deleted", rounds, 60);
    row("Aborts", own_aborts, 20);
    row("a late disk", late_disk, 30);
    row("Aborts of what is at a disk", aborts_at_disk, 30);
    row("a deletion of what is at a disk", deleted_at_disk, 30);
    row("data by lists", lists, 20);
    row("a full completion queue", full, 20);
    row("refused admin commands", refusals, 20);
    row("features", features, 20);
    row("features by namespace, vector and sensor", more_features, 20);
    row("log pages", log_pages, 20);
    row("version 2.0", identified, 20);
    row("bus mastering", bus_mastering, 20);
    row("shares", shares, 30);
    row("everything at once", mixture, 60);
    row("bad doorbells", doorbell_events, 30);
    end_guest();
}
