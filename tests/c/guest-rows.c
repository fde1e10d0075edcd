/* The rows of the first process of a guest, and what its tests call: commands by Linux, fio, and patterns on a disk. */
#define _GNU_SOURCE
#include "guest.h"

#include <errno.h>
#include <fcntl.h>
#include <linux/nvme_ioctl.h>
#include <stdarg.h>
#include <stdio.h>
#include <stdlib.h>
#include <string.h>
#include <sys/ioctl.h>
#include <sys/klog.h>
#include <sys/mman.h>
#include <sys/mount.h>
#include <sys/reboot.h>
#include <sys/stat.h>
#include <sys/wait.h>
#include <time.h>
#include <unistd.h>

#define LONGEST (1 << 20) /* a request: 1 MiB */

/* ---- Rows ---- */

static const char *current;
static unsigned count;

void bad(const char *format, ...)
{
    va_list words;
    va_start(words, format);
    printf("bad %s: ", current);
    vprintf(format, words);
    printf("\n");
    va_end(words);
    exit(1);
}

/* Shows the last lines of the kernel about the device. */
static void show_kernel(void)
{
    static char text[8192];
    int n = klogctl(3, text, sizeof text - 1); /* SYSLOG_ACTION_READ_ALL */
    text[n > 0 ? n : 0] = 0;
    for (char *it = strtok(text, "\n"); it; it = strtok(NULL, "\n"))
        if (strstr(it, "nvme"))
            printf("kernel: %s\n", it);
}

void row(const char *name, void (*test)(void), unsigned seconds)
{
    int status;
    const char *only = getenv("only"); /* a word of the kernel's command line */
    if (only && !strstr(name, only))
        return;
    current = name;
    count++;
    pid_t child = fork();
    if (child == 0) {
        alarm(seconds);
        test();
        exit(0);
    }
    waitpid(child, &status, 0);
    if (WIFSIGNALED(status))
        printf("bad %s: ended by signal %d\n", name, WTERMSIG(status));
    if (status != 0)
        show_kernel();
}

void good(const char *format, ...)
{
    va_list words;
    va_start(words, format);
    printf("row %s: ", current);
    vprintf(format, words);
    printf("\n");
    va_end(words);
}

double seconds(void)
{
    struct timespec it;
    clock_gettime(CLOCK_MONOTONIC, &it);
    return (double)it.tv_sec + (double)it.tv_nsec / 1e9;
}

static uint64_t random_state = 88172645463325252u;
uint64_t random_below(uint64_t limit)
{
    random_state ^= random_state << 13;
    random_state ^= random_state >> 7;
    random_state ^= random_state << 17;
    return random_state % limit;
}

const char *line_of(const char *path)
{
    static char line[256];
    int fd = open(path, O_RDONLY);
    ssize_t n = fd < 0 ? -1 : read(fd, line, sizeof line - 1);
    CHECK(n >= 0, "%s: %s", path, strerror(errno));
    close(fd);
    while (n > 0 && (line[n - 1] == '\n' || line[n - 1] == ' '))
        n--;
    line[n] = 0;
    return line;
}

void write_line(const char *path, const char *line)
{
    int fd = open(path, O_WRONLY);
    CHECK(fd >= 0 && write(fd, line, strlen(line)) > 0, "%s: %s", path, strerror(errno));
    close(fd);
}

/* ---- Admin commands ---- */

/* Sends a command by a call of Linux' to a file. */
static int command(int fd, unsigned long call, uint8_t opcode, uint32_t nsid, void *data, uint32_t length,
                   const uint32_t cdw[6], uint32_t *dw0)
{
    struct nvme_passthru_cmd it = {.opcode = opcode,
                                   .nsid = nsid,
                                   .addr = (uintptr_t)data,
                                   .data_len = length,
                                   .cdw10 = cdw[0],
                                   .cdw11 = cdw[1],
                                   .cdw12 = cdw[2],
                                   .cdw13 = cdw[3],
                                   .cdw14 = cdw[4],
                                   .cdw15 = cdw[5],
                                   .timeout_ms = 20000};
    int status = ioctl(fd, call, &it);
    CHECK(status >= 0, "command %02xh: %s", opcode, strerror(errno));
    if (dw0)
        *dw0 = it.result;
    return status & 0x47ff;
}

int admin_of(uint8_t opcode, uint32_t nsid, void *data, uint32_t length, const uint32_t cdw[6], uint32_t *dw0)
{
    int fd = open(controller, O_RDWR);
    int status = command(fd, NVME_IOCTL_ADMIN_CMD, opcode, nsid, data, length, cdw, dw0);
    close(fd);
    return status;
}

int admin(uint8_t opcode, uint32_t nsid, void *data, uint32_t cdw10, uint32_t cdw11, uint32_t cdw12, uint32_t *dw0)
{
    return admin_of(opcode, nsid, data, data ? PAGE : 0, (uint32_t[6]){cdw10, cdw11, cdw12}, dw0);
}

int disk_command(const char *path, uint8_t opcode, void *data, uint32_t length, const uint32_t cdw[6])
{
    int fd = open(path, O_RDWR);
    uint32_t nsid = (uint32_t)ioctl(fd, NVME_IOCTL_ID);
    int status = command(fd, NVME_IOCTL_IO_CMD, opcode, nsid, data, length, cdw, NULL);
    close(fd);
    return status;
}

void set_arbitration(uint32_t cdw11)
{
    uint32_t dw0 = 0;
    CHECK(admin(0x09, 0, NULL, 1, cdw11, 0, NULL) == 0, "Set Features");
    CHECK(admin(0x0a, 0, NULL, 1, 0, 0, &dw0) == 0 && dw0 == cdw11, "Get Features after Set Features: %08x", dw0);
}

void reset(void)
{
    char path[64];
    snprintf(path, sizeof path, "/sys/class/nvme/%s/reset_controller", controller + 5);
    write_line(path, "1");
}

/* ---- fio, and patterns ---- */

int fio(const char *report, const char *words)
{
    pid_t child = fork();
    if (child == 0) {
        static char line[1024];
        char *word[64] = {"fio", "--minimal", "--direct=1"};
        int n = 3, to = open(report, O_WRONLY | O_CREAT | O_TRUNC, 0644);
        snprintf(line, sizeof line, "%s", words);
        for (char *it = strtok(line, " "); it; it = strtok(NULL, " "))
            word[n++] = it;
        dup2(to, 1);
        dup2(to, 2);
        execv("/usr/bin/fio", word);
        _exit(127);
    }
    return child;
}

void fio_ends(int child, const char *report)
{
    int status;
    waitpid(child, &status, 0);
    if (status == 0)
        return;
    static char text[400];
    int fd = open(report, O_RDONLY);
    ssize_t n = read(fd, text, sizeof text - 1);
    for (ssize_t k = 0; k < n; k++)
        text[k] = text[k] == '\n' ? '/' : text[k];
    bad("fio ended with %x: %s", status, text);
}

/* The reads in a second that fio reports in a line, which is that of a job. */
double reads_of(const char *report, int line)
{
    static char text[8192];
    int fd = open(report, O_RDONLY);
    ssize_t n = read(fd, text, sizeof text - 1);
    char *it = text;
    close(fd);
    text[n > 0 ? n : 0] = 0;
    for (int k = 0; it && k < line; k++)
        it = (it = strchr(it, '\n')) ? it + 1 : NULL;
    for (int k = 0; it && k < 7; k++)
        it = (it = strchr(it, ';')) ? it + 1 : NULL;
    CHECK(it, "fio's report is %s", text);
    return atof(it);
}

unsigned patterns_of(const struct disk *d, unsigned requests)
{
    size_t size = (size_t)d->mib << 20, total = 0;
    int fd = open(d->path, O_RDWR | O_DIRECT);
    uint8_t *want = mmap(NULL, size, PROT_READ | PROT_WRITE, MAP_PRIVATE | MAP_ANONYMOUS, -1, 0);
    uint8_t *room = aligned_alloc(PAGE, LONGEST + PAGE);
    CHECK(fd >= 0, "%s: %s", d->path, strerror(errno));
    for (size_t at = 0; at < size; at += LONGEST)
        CHECK(pread(fd, want + at, LONGEST, (off_t)at) == LONGEST, "the first read at %zu: %s", at, strerror(errno));
    for (unsigned k = 0; k < requests; k++) {
        size_t most = (size_t)d->block << random_below(d->block == 512 ? 12 : 9);
        size_t length = (1 + random_below(most / d->block)) * d->block;
        size_t at = random_below((size - length) / d->block + 1) * d->block;
        uint8_t *bytes = room + 512 * random_below(8);
        if (random_below(2)) {
            for (size_t i = 0; i < length; i += 8) {
                uint64_t word = random_below(UINT64_MAX);
                memcpy(bytes + i, &word, 8);
            }
            memcpy(want + at, bytes, length);
            CHECK(pwrite(fd, bytes, length, (off_t)at) == (ssize_t)length, "write %u: %s", k, strerror(errno));
        } else {
            memset(bytes, 0x5a, length);
            CHECK(pread(fd, bytes, length, (off_t)at) == (ssize_t)length, "read %u: %s", k, strerror(errno));
            CHECK(!memcmp(bytes, want + at, length), "read %u of %zu bytes at %zu differs", k, length, at);
        }
        total += length;
    }
    for (size_t at = 0; at < size; at += LONGEST)
        CHECK(pread(fd, room, LONGEST, (off_t)at) == LONGEST && !memcmp(room, want + at, LONGEST),
              "the last read at %zu", at);
    return (unsigned)(total >> 20);
}

/* ---- The guest ---- */

void begin_guest(void)
{
    mkdir("/tmp", 0755);
    mount("proc", "/proc", "proc", 0, NULL);
    mount("sys", "/sys", "sysfs", 0, NULL);
    mount("dev", "/dev", "devtmpfs", 0, NULL);
    setvbuf(stdout, NULL, _IOLBF, 0);
    printf("\nbegin\n");
}

void end_guest(void)
{
    printf("end of %u\n", count);
    sync();
    usleep(100000);
    reboot(RB_POWER_OFF);
}
