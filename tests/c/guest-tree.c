/*
 * The first process of the guest of tests/qemu: tests the device of capi/examples/qemu, which is in QEMU's own tree,
 * through Linux on four processors. Its lines are those of guest.c. Of two devices that with the serial number 2 has a
 * slow disk, high priority for queue 1 and low priority for queue 2.
 */
#define _GNU_SOURCE
#include "guest.h"

#include <dirent.h>
#include <errno.h>
#include <fcntl.h>
#include <stdio.h>
#include <stdlib.h>
#include <string.h>
#include <sys/mman.h>
#include <sys/wait.h>
#include <unistd.h>

enum { QUEUES = 4, RUNS = 200 };

/* Which of the two devices has which number is left to Linux. */
static char disk_names[2][8], paths[2][16], controllers[2][16];
const struct disk disks[] = {{disk_names[0], paths[0], 64, 512}};
const unsigned disk_count = 1;
const char *controller = controllers[0];

static void find(void)
{
    int is_swapped = strcmp(line_of("/sys/class/nvme/nvme0/serial"), "1") != 0;
    for (int k = 0; k < 2; k++) {
        snprintf(controllers[k], sizeof controllers[k], "/dev/nvme%d", k ^ is_swapped);
        snprintf(disk_names[k], sizeof disk_names[k], "nvme%dn1", k ^ is_swapped);
        snprintf(paths[k], sizeof paths[k], "/dev/nvme%dn1", k ^ is_swapped);
    }
}

/* fio's words for a disk. */
static const char *on(const char *words, const char *disk, const char *more)
{
    static char line[1000];
    snprintf(line, sizeof line, "%s%s %s", words, disk, more);
    return line;
}

/* A queue and a vector for each processor. */
static void queues(void)
{
    static char text[16384];
    char path[64], name[32];
    unsigned count = 0;
    snprintf(path, sizeof path, "/sys/block/%s/mq", disk_names[0]);
    DIR *folder = opendir(path);
    for (struct dirent *it; (it = readdir(folder)) != NULL;)
        count += it->d_name[0] != '.';
    CHECK(count == QUEUES, "%u queues", count);
    int fd = open("/proc/interrupts", O_RDONLY);
    for (ssize_t n, at = 0; (n = read(fd, text + at, sizeof text - 1 - (size_t)at)) > 0;)
        at += n;
    for (int q = 0; q <= QUEUES; q++) {
        snprintf(name, sizeof name, "%sq%d", controllers[0] + 5, q);
        CHECK(strstr(text, name), "%s has no interrupt", name);
    }
    CHECK(strstr(text, "PCI-MSI"), "no messages");
    good("%u, with a message each", count);
}

static void patterns(void)
{
    good("400 requests of 512 bytes to 1 MiB, %u MiB, and the disk compared", patterns_of(&disks[0], 400));
}

/* 16 MiB through the page cache, which is dropped before they are read. */
static void cached(void)
{
    enum { BYTES = 16 << 20 };
    uint8_t *want = malloc(BYTES), *got = malloc(BYTES);
    int fd = open(paths[0], O_RDWR);
    for (size_t k = 0; k < BYTES; k += 8) {
        uint64_t word = random_below(UINT64_MAX);
        memcpy(want + k, &word, 8);
    }
    CHECK(pwrite(fd, want, BYTES, 0) == BYTES && fsync(fd) == 0, "%s", strerror(errno));
    write_line("/proc/sys/vm/drop_caches", "3");
    CHECK(pread(fd, got, BYTES, 0) == BYTES && !memcmp(want, got, BYTES), "what is read differs");
    good("16 MiB through the page cache, the same");
}

static void verified(void)
{
    fio_ends(fio("/tmp/1", on(VERIFIED, disk_names[0], "--bsrange=512-256k --size=48m")), "/tmp/1");
    good("48 MiB by fio, with crc32c");
}

/* Writes to a file of /sys again and again, under fio. */
static void under_fio(const char *format, const char *what)
{
    enum { TIMES = 5 };
    char path[96];
    snprintf(path, sizeof path, format, controllers[0] + 5);
    pid_t child = fio("/tmp/1", on(VERIFIED, disk_names[0], "--bsrange=512-64k --size=40m --io_size=80m"));
    for (int k = 0; k < TIMES; k++) {
        usleep(300000);
        write_line(path, "1");
    }
    CHECK(waitpid(child, NULL, WNOHANG) == 0, "fio ended before that");
    fio_ends(child, "/tmp/1");
    good("%d %s under fio, no error", TIMES, what);
}

static void resets(void)
{
    under_fio("/sys/class/nvme/%s/reset_controller", "resets of the controller");
}

static void function_resets(void)
{
    under_fio("/sys/class/nvme/%s/device/reset", "resets of the function");
}

/* ---- Old code: a page that is read from the disk is run, again and again. ---- */

/* Puts functions that return their numbers, one a page, on the disk. */
static int put_code(void)
{
    uint8_t *page = aligned_alloc(PAGE, PAGE);
    int fd = open(paths[0], O_RDWR | O_DIRECT);
    for (uint8_t k = 0; k < 16; k++) {
        memset(page, 0x90, PAGE);
        memcpy(page, (const uint8_t[]){0xb8, k, 1, 0, 0, 0xc3}, 6); /* mov eax, 256 + k; ret */
        CHECK(pwrite(fd, page, PAGE, k * PAGE) == PAGE, "%s", strerror(errno));
    }
    return fd;
}

static int call(void *code)
{
    int (*function)(void);
    memcpy(&function, &code, sizeof function);
    return function();
}

static void read_code(void)
{
    int fd = put_code(), old = 0, access = PROT_READ | PROT_WRITE | PROT_EXEC;
    uint8_t *page = mmap(NULL, PAGE, access, MAP_PRIVATE | MAP_ANONYMOUS | MAP_POPULATE, -1, 0);
    for (int k = 0; k < RUNS; k++) {
        CHECK(pread(fd, page, PAGE, k % 16 * PAGE) == PAGE && page[1] == k % 16, "the data");
        old += call(page) != 256 + k % 16;
    }
    CHECK(old == 0, "%d of %d runs ran old code", old, RUNS);
    good("0 of %d runs", RUNS);
}

/* The same through the page cache, which is dropped each time, as for programs. */
static void mapped_code(void)
{
    int old = 0;
    close(put_code());
    int fd = open(paths[0], O_RDONLY);
    for (int k = 0; k < RUNS; k++) {
        int m = k * 7 % 16;
        write_line("/proc/sys/vm/drop_caches", "1");
        uint8_t *page = mmap(NULL, PAGE, PROT_READ | PROT_EXEC, MAP_PRIVATE, fd, m * PAGE);
        CHECK(page != MAP_FAILED, "%s", strerror(errno));
        madvise(page, PAGE, MADV_RANDOM); /* no reading ahead */
        old += call(page) != 256 + m;
        munmap(page, PAGE);
    }
    CHECK(old == 0, "%d of %d runs ran old code", old, RUNS);
    good("0 of %d runs", RUNS);
}

/* ---- Shares of the slow disk: a job on processor 0, and so on queue 1, and one on processor 1 ---- */

#define READS                                                                                                          \
    "--ioengine=libaio --rw=randread --bs=4k --iodepth=64 --size=60m --time_based --ramp_time=2 --runtime=5 "          \
    "--norandommap --name=high --cpus_allowed=0 --name=low --cpus_allowed=1 --filename=/dev/"

static void shares_by(uint32_t cdw11, double want)
{
    controller = controllers[1];
    set_arbitration(cdw11);
    char words[600];
    snprintf(words, sizeof words, "--filename=/dev/%s " READS "%s", disk_names[1], disk_names[1]);
    fio_ends(fio("/tmp/1", words), "/tmp/1");
    double high = reads_of("/tmp/1", 0), low = reads_of("/tmp/1", 1), share = high / low;
    CHECK(share > want * 0.97 && share < want * 1.03, "%.0f to %.0f reads a second, %.2f", high, low, share);
    good("%.0f to %.0f reads a second, %.2f", high, low, share);
}

static void shares_8_2(void)
{
    shares_by(0x07030103, 4);
}

static void shares_4_4(void)
{
    shares_by(0x03030303, 1);
}

static void shares_16_1(void)
{
    shares_by(0x0f000003, 16);
}

int main(void)
{
    begin_guest();
    find();
    row("queues", queues, 20);
    row("patterns", patterns, 90);
    row("the page cache", cached, 60);
    row("fio", verified, 90);
    row("commands", commands, 60);
    row("resets", resets, 90);
    row("resets of the function", function_resets, 90);
    row("old code", read_code, 60);
    row("old code through the page cache", mapped_code, 60);
    row("shares 8 to 2", shares_8_2, 60);
    row("shares 4 to 4", shares_4_4, 60);
    row("shares 16 to 1", shares_16_1, 60);
    end_guest();
}
