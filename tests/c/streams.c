// SPDX-License-Identifier: MIT
/* Loaded before a program: changes what its standard input gives and its standard output takes.

     TAKE_ALL=N    the output takes N bytes in all, and then fails
     TAKE_EACH=N   the output takes N bytes at a write, at most
     TAKE_NONE=1   the output takes no byte, and doesn't fail
     GIVE_EACH=N   the input gives N bytes at a read, at most
     FAIL_READ=N   read N of the input, counted from 1, fails
     INTERRUPT=1   a signal interrupts each other read and write, before it does anything */
#define _GNU_SOURCE
#include <dlfcn.h>
#include <errno.h>
#include <stdlib.h>
#include <sys/types.h>
#include <sys/uio.h>
#include <unistd.h>

#define NEXT(name) \
    static __typeof__(name) *next; \
    if (!next) \
        next = (__typeof__(name) *)dlsym(RTLD_NEXT, #name)

static int is_set(const char *name, unsigned long *number)
{
    const char *text = getenv(name);
    if (text)
        *number = strtoul(text, NULL, 10);
    return text != NULL;
}

/* Each first call of two is interrupted. */
static int is_interrupted(void)
{
    static int calls;
    unsigned long unused;
    if (!is_set("INTERRUPT", &unused) || calls++ % 2)
        return 0;
    errno = EINTR;
    return 1;
}

/* How many of these bytes the output takes; -1 where it fails. */
static ssize_t taken(size_t count)
{
    static size_t total;
    unsigned long number;
    if (is_set("TAKE_NONE", &number))
        return 0;
    if (is_set("TAKE_EACH", &number) && count > number)
        count = number;
    if (is_set("TAKE_ALL", &number)) {
        if (total == number && count > 0) {
            errno = ENOSPC;
            return -1;
        }
        if (count > number - total)
            count = number - total;
        total += count;
    }
    return count;
}

ssize_t write(int to, const void *bytes, size_t count)
{
    NEXT(write);
    if (to != 1)
        return next(to, bytes, count);
    if (is_interrupted())
        return -1;
    ssize_t takes = taken(count);
    return takes <= 0 ? takes : next(to, bytes, takes);
}

ssize_t writev(int to, const struct iovec *parts, int count)
{
    NEXT(writev);
    if (to != 1)
        return next(to, parts, count);
    for (int i = 0; i < count; i++)
        if (parts[i].iov_len)
            return write(to, parts[i].iov_base, parts[i].iov_len);
    return 0;
}

ssize_t read(int from, void *bytes, size_t count)
{
    static unsigned long reads;
    unsigned long number;
    NEXT(read);
    if (from != 0)
        return next(from, bytes, count);
    if (is_interrupted())
        return -1;
    if (is_set("FAIL_READ", &number) && ++reads == number) {
        errno = EIO;
        return -1;
    }
    if (is_set("GIVE_EACH", &number) && count > number)
        count = number;
    return next(from, bytes, count);
}
