/* The tests of a guest of commands of the NVM command set, through Linux. */
#define _GNU_SOURCE
#include "guest.h"

#include <errno.h>
#include <fcntl.h>
#include <string.h>
#include <sys/ioctl.h>
#include <unistd.h>

enum { COMPARE = 5, WRITE_ZEROES = 8, DATASET_MANAGEMENT = 9, VERIFY = 12 };

#define AT (1 << 20)
#define BYTES (256 << 10)
static uint8_t want[BYTES], got[BYTES] __attribute__((aligned(PAGE)));

static int command(const struct disk *d, uint8_t opcode, void *data, uint32_t bytes, uint32_t first, uint32_t blocks)
{
    return disk_command(d->path, opcode, data, bytes, (uint32_t[6]){first, 0, blocks - 1});
}

/* What the disk should have is read. `first` and `count` are blocks from AT on that are 0 now. */
static void zeros(const struct disk *d, const char *name, unsigned first, unsigned count)
{
    int fd = open(d->path, O_RDWR | O_DIRECT);
    memset(want + first * d->block, 0, count * d->block);
    CHECK(pread(fd, got, BYTES, AT) == BYTES && !memcmp(got, want, BYTES), "%s of %s", name, d->name);
    close(fd);
}

static void write_zeroes(const struct disk *d)
{
    uint32_t base = AT / d->block, past = (d->mib << 20) / d->block;
    uint64_t range[2] = {AT + 48 * d->block, 8 * d->block};
    CHECK(command(d, WRITE_ZEROES, NULL, 0, base + 8, 8) == 0, "Write Zeroes");
    zeros(d, "Write Zeroes", 8, 8);
    CHECK(command(d, WRITE_ZEROES, NULL, 0, past - 1, 2) == 0x4080, "Write Zeroes past the end");
    int fd = open(d->path, O_RDWR);
    CHECK(ioctl(fd, _IO(0x12, 127), range) == 0, "BLKZEROOUT: %s", strerror(errno));
    close(fd);
    zeros(d, "BLKZEROOUT", 48, 8);
}

static void deallocate(const struct disk *d)
{
    struct {
        uint32_t attributes, blocks;
        uint64_t first;
    } ranges[3] = {{0, 4, AT / d->block + 20}, {0, 0, 0}, {0, 2, AT / d->block + 30}};
    uint64_t range[2] = {AT + 40 * d->block, 4 * d->block};
    uint32_t cdw[6] = {2, 0};
    CHECK(disk_command(d->path, DATASET_MANAGEMENT, ranges, sizeof ranges, cdw) == 0, "a hint");
    zeros(d, "a hint", 0, 0);
    cdw[1] = 4; /* AD */
    CHECK(disk_command(d->path, DATASET_MANAGEMENT, ranges, sizeof ranges, cdw) == 0, "Deallocate");
    memset(want + 20 * d->block, 0, 4 * d->block);
    zeros(d, "Deallocate", 30, 2);
    ranges[1].blocks = 1;
    ranges[1].first = (d->mib << 20) / d->block;
    CHECK(disk_command(d->path, DATASET_MANAGEMENT, ranges, sizeof ranges, cdw) == 0x4080, "a range past the end");
    int fd = open(d->path, O_RDWR);
    CHECK(ioctl(fd, _IO(0x12, 119), range) == 0, "BLKDISCARD: %s", strerror(errno));
    close(fd);
    zeros(d, "BLKDISCARD", 40, 4);
}

static void commands_of(const struct disk *d)
{
    uint32_t base = AT / d->block, past = (d->mib << 20) / d->block, mib = (1 << 20) / d->block;
    int fd = open(d->path, O_RDWR | O_DIRECT);
    for (int k = 0; k < BYTES; k++)
        got[k] = want[k] = (uint8_t)(random_below(255) + 1);
    CHECK(pwrite(fd, got, BYTES, AT) == BYTES && fdatasync(fd) == 0, "a write, or a Flush: %s", strerror(errno));
    close(fd);
    write_zeroes(d);
    deallocate(d);
    memcpy(got, want, 4 * PAGE);
    CHECK(command(d, COMPARE, got, 4 * PAGE, base, 4 * PAGE / d->block) == 0, "Compare");
    got[4 * PAGE - 1] ^= 1;
    CHECK(command(d, COMPARE, got, 4 * PAGE, base, 4 * PAGE / d->block) == 0x4285, "Compare with another byte");
    CHECK(command(d, COMPARE, got, PAGE, past, PAGE / d->block) == 0x4080, "Compare past the end");
    CHECK(command(d, VERIFY, NULL, 0, base, mib) == 0, "Verify");
    CHECK(command(d, VERIFY, NULL, 0, base, mib + 1) == 0x4002, "Verify of more than VSL");
    CHECK(command(d, VERIFY, NULL, 0, past - 1, 2) == 0x4080, "Verify past the end");
    CHECK(command(d, 0x04, NULL, 0, base, 1) == 0x4001, "Write Uncorrectable, which isn't there");
}

void commands(void)
{
    for (unsigned k = 0; k < disk_count; k++)
        commands_of(&disks[k]);
    good("Write Zeroes, Dataset Management, Compare, Verify and Flush of %u disks", disk_count);
}
