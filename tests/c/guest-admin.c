/* The tests of tests/c/guest.c of what the device tells of itself. */
#define _GNU_SOURCE
#include "guest.h"

#include <errno.h>
#include <fcntl.h>
#include <stdio.h>
#include <stdlib.h>
#include <string.h>
#include <sys/ioctl.h>
#include <unistd.h>

enum { GET_LOG_PAGE = 2, IDENTIFY = 6, SET_FEATURES = 9, GET_FEATURES = 10, ALL = -1 };

/* A page for data of commands. */
static uint8_t *page_of(void)
{
    static uint8_t *page;
    if (!page)
        page = aligned_alloc(PAGE, 4 * PAGE);
    memset(page, 0xee, 4 * PAGE);
    return page;
}

static uint64_t number(const uint8_t *at, int bytes)
{
    uint64_t value = 0;
    memcpy(&value, at, (size_t)bytes);
    return value;
}

/* Reads so many bytes of a log page. */
static int get_log(uint8_t *to, uint32_t lid, uint32_t nsid, uint32_t bytes, uint32_t offset)
{
    uint32_t numd = bytes / 4 - 1;
    return admin_of(GET_LOG_PAGE, nsid, to, bytes, (uint32_t[6]){numd << 16 | lid, numd >> 16, offset}, NULL);
}

/* A word of Linux' about a device, in memory of its own. */
static char *told(const char *format, const char *name)
{
    char path[128];
    snprintf(path, sizeof path, format, name);
    return strdup(line_of(path));
}

/* ---- Names ---- */

/* Two devices in one guest, of two serial numbers: no name is that of another. */
void names(void)
{
    static const char *const all[] = {"nvme0n1", "nvme0n2", "nvme0n3", "nvme1n1"};
    static uint8_t bytes[PAGE] __attribute__((aligned(PAGE)));
    char *ids[8];
    for (int k = 0; k < 4; k++) {
        ids[2 * k] = told("/sys/block/%s/nguid", all[k]);
        ids[2 * k + 1] = told("/sys/block/%s/eui", all[k]);
    }
    for (int k = 0; k < 8; k++) {
        CHECK(strspn(ids[k], "0 -") != strlen(ids[k]), "%s has no identifier", all[k / 2]);
        for (int n = 0; n < k; n++)
            CHECK(strcmp(ids[k], ids[n]), "%s and %s have %s", all[n / 2], all[k / 2], ids[k]);
    }
    CHECK(!strcmp(told("/sys/class/nvme/%s/serial", "nvme1"), "2"), "the serial number of the second");
    CHECK(strcmp(told("/sys/class/nvme/%s/subsysnqn", "nvme0"), told("/sys/class/nvme/%s/subsysnqn", "nvme1")), "NQN");
    int fd = open("/dev/nvme1n1", O_RDWR | O_DIRECT);
    CHECK(pread(fd, bytes, PAGE, 0) == PAGE, "a read of the second: %s", strerror(errno));
    uint8_t *page = page_of();
    CHECK(admin(IDENTIFY, 0, page, 1, 0, 0, NULL) == 0, "Identify");
    CHECK(number(page, 2) == strtoul(told("/sys/class/nvme/%s/device/vendor", "nvme0"), NULL, 16), "VID");
    CHECK(number(page + 2, 2) == strtoul(told("/sys/class/nvme/%s/device/subsystem_vendor", "nvme0"), NULL, 16),
          "SSVID");
    good("eight identifiers, two NQNs, VID %04x", (unsigned)number(page, 2));
}

/* ---- Features: each line is sent in turn. A Get has the value that comes. ---- */

void more_features(void)
{
    static const struct {
        const char *name;
        uint8_t opcode;
        uint32_t nsid, fid, cdw11;
        int status;
        uint32_t value;
    } all[] = {
        {"error recovery of namespace 1", SET_FEATURES, 1, 5, 7, 0, 0},
        {"that of namespace 1", GET_FEATURES, 1, 5, 0, 0, 7},
        {"that of namespace 2", GET_FEATURES, 2, 5, 0, 0, 0},
        {"that of all namespaces", SET_FEATURES, (uint32_t)ALL, 5, 9, 0, 0},
        {"that of namespace 2 then", GET_FEATURES, 2, 5, 0, 0, 9},
        {"Select: what is supported", GET_FEATURES, 2, 3 << 8 | 5, 0, 0, 6},
        {"that of namespace 77", SET_FEATURES, 77, 5, 5, 0x400b, 0},
        {"that of namespace 77", GET_FEATURES, 77, 5, 0, 0x400b, 0},
        {"DULBE, which NSFEAT doesn't tell of", SET_FEATURES, 1, 5, 0x10000, 0x4002, 0},
        {"a threshold of namespace 1", SET_FEATURES, 1, 4, 330, 0x410f, 0},
        {"coalescing of vector 0, off", SET_FEATURES, 0, 9, 0x10000, 0, 0},
        {"that of vector 0", GET_FEATURES, 0, 9, 0, 0, 0x10000},
        {"that of vector 5", SET_FEATURES, 0, 9, 5, 0x4002, 0},
        {"that of vector 77", GET_FEATURES, 0, 9, 77, 0x4002, 0},
        {"a threshold of all sensors", SET_FEATURES, 0, 4, 0xf0000 | 330, 0, 0},
        {"that of the composite temperature", GET_FEATURES, 0, 4, 0, 0, 330},
        {"that of all sensors", GET_FEATURES, 0, 4, 0xf0000, 0x4002, 0},
        {"a threshold of sensor 1", SET_FEATURES, 0, 4, 0x10000 | 330, 0x4002, 0},
        {"a threshold of THSEL 2", SET_FEATURES, 0, 4, 2 << 20 | 330, 0x4002, 0},
        {"events, all bits", SET_FEATURES, 0, 11, 0xffffffff, 0, 0},
        {"those that there are", GET_FEATURES, 0, 11, 0, 0, 0x11f},
        {"the write cache off", SET_FEATURES, 0, 6, 0, 0, 0},
        {"that", GET_FEATURES, 0, 6, 0, 0, 0},
        {"its default", GET_FEATURES, 0, 1 << 8 | 6, 0, 0, 1},
    };
    for (size_t k = 0; k < sizeof all / sizeof all[0]; k++) {
        uint32_t dw0 = 0;
        int status = admin(all[k].opcode, all[k].nsid, NULL, all[k].fid, all[k].cdw11, 0, &dw0);
        CHECK(status == all[k].status && (status || all[k].opcode == SET_FEATURES || dw0 == all[k].value),
              "%s: status %x, %x", all[k].name, status, dw0);
    }
    reset();
    good("%zu Sets and Gets", sizeof all / sizeof all[0]);
}

/* ---- Log pages ---- */

/* Whether the dwords of a page that tell what there is tell of these. */
static void tells(const char *name, const uint8_t *page, const uint8_t *there, size_t count)
{
    for (unsigned k = 0; k < 256; k++) {
        int is_there = memchr(there, (int)k, count) != NULL;
        CHECK((page[4 * k] & 1) == is_there, "%s: %02xh is told as %x", name, k, page[4 * k]);
    }
}

void log_pages(void)
{
    static const uint8_t pages[] = {0, 1, 2, 3, 4, 5, 0x12, 0x13}, fids[] = {1, 2, 4, 5, 6, 7, 8, 9, 10, 11};
    static const uint8_t admins[] = {0, 1, 2, 4, 5, 6, 8, 9, 10, 12, 0xc0}, commands[] = {0, 1, 2, 5, 8, 9, 12};
    uint8_t *page = page_of();
    CHECK(get_log(page, 0, 0, 1024, 0) == 0, "log 00h");
    tells("log 00h", page, pages, sizeof pages);
    for (size_t k = 0; k < sizeof pages; k++)
        CHECK(get_log(page, pages[k], 0, 512, 0) == 0, "log %02xh", pages[k]);
    CHECK(get_log(page, 5, 0, PAGE, 0) == 0, "log 05h");
    tells("log 05h, admin", page, admins, sizeof admins);
    tells("log 05h, I/O", page + 1024, commands, sizeof commands);
    CHECK(page[1024 + 4] & 2 && !(page[1024 + 8] & 2), "log 05h: which commands change blocks");
    CHECK(get_log(page, 0x12, 0, 1024, 0) == 0, "log 12h");
    tells("log 12h", page, fids, sizeof fids);
    CHECK(number(page + 4 * 5, 4) >> 20 == 1 && number(page + 4 * 4, 4) >> 20 == 2, "log 12h: what features belong to");
    CHECK(get_log(page, 1, 0, 2 * PAGE, 0) == 0, "log 01h of 8192 bytes");
    CHECK(get_log(page, 3, 0, 8, 8) == 0 && !memcmp(page, "0.1     ", 8), "log 03h from its byte 8 on");
    CHECK(get_log(page, 3, 0, 8, 516) == 0x4002 && get_log(page, 3, 0, 8, 2) == 0x4002,
          "log 03h from beyond its end on");
    CHECK(get_log(page, 2, 5, 512, 0) == 0x4002, "log 02h of a namespace");
    CHECK(get_log(page, 4, 0, PAGE, 0) == 0 && number(page, 4) == 0, "log 04h");
    good("%zu pages, and what three of them tell", sizeof pages);
}

/* Reads and writes are counted, by commands and by thousands of 512 bytes. */
void counters(void)
{
    enum { TIMES = 64, BYTES = 128 << 10 };
    uint8_t *before = aligned_alloc(PAGE, PAGE), *after = aligned_alloc(PAGE, PAGE), *data = aligned_alloc(PAGE, BYTES);
    int fd = open(disks[0].path, O_RDWR | O_DIRECT);
    CHECK(get_log(before, 2, (uint32_t)ALL, 512, 0) == 0, "the log");
    for (int k = 0; k < TIMES; k++)
        CHECK(pread(fd, data, BYTES, k * BYTES) == BYTES && pwrite(fd, data, BYTES, k * BYTES) == BYTES, "%s",
              strerror(errno));
    CHECK(get_log(after, 2, (uint32_t)ALL, 512, 0) == 0, "the log");
    for (int at = 32; at <= 48; at += 16) {
        uint64_t units = number(after + at, 8) - number(before + at, 8),
                 commands = number(after + at + 32, 8) - number(before + at + 32, 8);
        CHECK(units == TIMES * BYTES / 512000 || units == TIMES * BYTES / 512000 + 1, "%u units", (unsigned)units);
        CHECK(commands == TIMES, "%u commands", (unsigned)commands);
    }
    CHECK(number(after + 112, 8) == 1 && after[0] == 0, "power cycles, or a warning");
    good("%u Reads and %u Writes", TIMES, TIMES);
}

/* ---- What version 2.0 makes mandatory ---- */

void identified(void)
{
    uint8_t *page = page_of();
    begin_anew();
    uint64_t cap = *(volatile uint64_t *)registers;
    uint32_t version = *(volatile uint32_t *)(registers + 8), crto = *(volatile uint32_t *)(registers + 0x68);
    CHECK(version == 0x20000, "VS is %x", version);
    CHECK(cap >> 59 & 1, "CAP.CRMS is %x", (unsigned)(cap >> 59 & 3));
    CHECK((crto & 0xffff) == (cap >> 24 & 0xff), "CRTO is %x", crto);
    CHECK(admin(IDENTIFY, 0, page, 1, 0, 0, NULL) == 0 && number(page + 80, 4) == version, "VER");
    CHECK(admin(IDENTIFY, 3, page, 5, 0, 0, NULL) == 0, "CNS 05h");
    CHECK(admin(IDENTIFY, 3, page, 5, 1 << 24, 0, NULL) == 0x4002, "CNS 05h of another command set");
    CHECK(admin(IDENTIFY, 0, page, 6, 0, 0, NULL) == 0 && page[0] == 8, "CNS 06h: VSL is %u", page[0]);
    CHECK(admin(IDENTIFY, 3, page, 8, 0, 0, NULL) == 0 && page[14] == 1, "CNS 08h: NSTAT is %u", page[14]);
    CHECK(admin(IDENTIFY, 4, page, 8, 0, 0, NULL) == 0x400b, "CNS 08h of namespace 4");
    CHECK(admin(IDENTIFY, 3, page, 3, 0, 0, NULL) == 0 && page[0] == 1 && page[12] == 2 && page[32] == 4, "CNS 03h");
    good("VS %x, CRTO %x, CNS 05h, 06h and 08h", version, crto);
}

/* With bus mastering off the device neither reads nor writes memory. */
void bus_mastering(void)
{
    struct own q;
    struct ended it;
    uint16_t command = 0;
    begin_anew();
    create(&q, FIRST_OWN, 256);
    int fd = open("/sys/class/nvme/nvme0/device/config", O_RDWR);
    CHECK(pread(fd, &command, 2, 4) == 2 && command & 4, "the command register is %x", command);
    memset(memory + DATA, 0x5a, PAGE);
    command &= (uint16_t)~4;
    CHECK(pwrite(fd, &command, 2, 4) == 2, "it isn't written");
    put_on(&q, 1, 1, 2, 0, 8, physical + DATA, 0);
    ring(&q);
    CHECK(!take(&q, &it, 200), "a completion came");
    for (int k = 0; k < PAGE; k++)
        CHECK(memory[DATA + k] == 0x5a, "data came");
    CHECK(*(volatile uint32_t *)(registers + 0x1c) & 2, "CSTS is %x", *(volatile uint32_t *)(registers + 0x1c));
    command |= 4;
    CHECK(pwrite(fd, &command, 2, 4) == 2, "it isn't written");
    reset(); /* before any command: none is answered until then */
    begin_anew();
    create(&q, FIRST_OWN, 256);
    put_on(&q, 1, 1, 2, 0, 8, physical + DATA, 0);
    ring(&q);
    CHECK(take(&q, &it, 2000) && it.status == 0, "a read after that");
    good("off: CFS, and nothing was written");
}

/* A namespace gets another size while Linux uses it: it is told, and told of no other one. */
static void becomes(uint64_t blocks)
{
    uint64_t bytes = 0;
    choose(RESIZE, 3, (uint32_t)blocks);
    for (double end = seconds() + 5; bytes != blocks * 512;) {
        int fd = open(disks[2].path, O_RDONLY);
        CHECK(seconds() < end, "the disk has %llu bytes", (unsigned long long)bytes);
        ioctl(fd, _IOR(0x12, 114, size_t), &bytes); /* BLKGETSIZE64 */
        close(fd);
        usleep(20000);
    }
}

void resized(void)
{
    uint64_t whole = ((uint64_t)disks[2].mib << 20) / 512;
    becomes(whole / 2);
    becomes(whole);
    good("%llu blocks, and %llu again", (unsigned long long)whole / 2, (unsigned long long)whole);
}
