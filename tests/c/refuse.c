// SPDX-License-Identifier: MIT
/* Loaded before a program: refuses memory and threads. (A program's allocator can't be replaced in Rattle.)

     REFUSE_NTH=N    refuses allocation N, counted from 1, and no other
     REFUSE_FROM=N   refuses allocation N and all after it
     REFUSE_START=N  refuses the start of thread N, counted from 1
     REFUSE_LINES=1  counts and refuses allocations only between the lines `refuse` and `allow` that the program writes to
                     standard error
     REFUSE_TOLD=F   makes the file F when something was refused
     LIVE_TOLD=F     writes how many blocks of the program's own, and how many threads that weren't joined, are left when
                     it ends, and how many threads it started, into the file F */
#define _GNU_SOURCE
#include <dlfcn.h>
#include <errno.h>
#include <fcntl.h>
#include <link.h>
#include <pthread.h>
#include <stdatomic.h>
#include <stdint.h>
#include <stdio.h>
#include <stdlib.h>
#include <string.h>
#include <sys/syscall.h>
#include <unistd.h>

/* How many allocations and starts there were, which is told at the end. All threads count. */
static atomic_ulong allocations, starts;
static atomic_long blocks, threads;

static unsigned long nth, from, start;
static const char *told;
static atomic_int is_counting;

/* Where the program's own code lies. */
static uintptr_t first, last;

static unsigned long number(const char *name)
{
    const char *text = getenv(name);
    return text ? strtoul(text, NULL, 10) : 0;
}

static int find_program(struct dl_phdr_info *info, size_t size, void *unused)
{
    (void)size, (void)unused;
    for (int i = 0; i < info->dlpi_phnum; i++) {
        const ElfW(Phdr) *part = &info->dlpi_phdr[i];
        if (part->p_type == PT_LOAD && (part->p_flags & PF_X)) {
            first = info->dlpi_addr + part->p_vaddr;
            last = first + part->p_memsz;
        }
    }
    return 1; /* the program comes first */
}

__attribute__((constructor)) static void begin(void)
{
    nth = number("REFUSE_NTH");
    from = number("REFUSE_FROM");
    start = number("REFUSE_START");
    told = getenv("REFUSE_TOLD");
    atomic_store(&is_counting, !number("REFUSE_LINES"));
    dl_iterate_phdr(find_program, NULL);
}

static void end(void)
{
    const char *file = getenv("LIVE_TOLD");
    char text[96];
    if (!file)
        return;
    int length = snprintf(text, sizeof text, "%ld %ld %lu\n", atomic_load(&blocks), atomic_load(&threads),
                          atomic_load(&starts));
    int to = creat(file, 0600);
    if (write(to, text, length) != length)
        abort();
    close(to);
}

static int tell(void)
{
    if (told)
        close(creat(told, 0600));
    return 1;
}

static int is_own(void *caller)
{
    return (uintptr_t)caller >= first && (uintptr_t)caller < last;
}

static int refused(void)
{
    if (!atomic_load(&is_counting))
        return 0;
    unsigned long now = atomic_fetch_add(&allocations, 1) + 1;
    return (now == nth || (from && now >= from)) && tell();
}

#define NEXT(name) \
    static __typeof__(name) *next; \
    if (!next) \
        next = (__typeof__(name) *)dlsym(RTLD_NEXT, #name)

/* A block of the program's own is one that its code takes, and that its code gives back. */
#define COUNTED(made) counted(made, __builtin_return_address(0))

static void *counted(void *made, void *caller)
{
    if (made && is_own(caller))
        atomic_fetch_add(&blocks, 1);
    return made;
}

void *malloc(size_t size)
{
    NEXT(malloc);
    return refused() ? NULL : COUNTED(next(size));
}

void *aligned_alloc(size_t align, size_t size)
{
    NEXT(aligned_alloc);
    return refused() ? NULL : COUNTED(next(align, size));
}

void *realloc(void *old, size_t size)
{
    NEXT(realloc);
    if (refused())
        return NULL;
    void *made = next(old, size);
    return old ? made : COUNTED(made);
}

int posix_memalign(void **result, size_t align, size_t size)
{
    NEXT(posix_memalign);
    if (refused())
        return ENOMEM;
    int error = next(result, align, size);
    if (!error)
        COUNTED(*result);
    return error;
}

void free(void *old)
{
    NEXT(free);
    if (old && is_own(__builtin_return_address(0)))
        atomic_fetch_sub(&blocks, 1);
    next(old);
}

int pthread_create(pthread_t *thread, const pthread_attr_t *how, void *(*run)(void *), void *with)
{
    NEXT(pthread_create);
    if (atomic_fetch_add(&starts, 1) + 1 == start) {
        tell();
        return EAGAIN;
    }
    int error = next(thread, how, run, with);
    if (!error)
        atomic_fetch_add(&threads, 1);
    return error;
}

int pthread_join(pthread_t thread, void **result)
{
    NEXT(pthread_join);
    int error = next(thread, result);
    if (!error)
        atomic_fetch_sub(&threads, 1);
    return error;
}

int pthread_detach(pthread_t thread)
{
    NEXT(pthread_detach);
    atomic_fetch_sub(&threads, 1);
    return next(thread);
}

/* A program of Rattle's ends so. */
void _exit(int status)
{
    end();
    syscall(SYS_exit_group, status);
    abort();
}

static int is_line(const void *bytes, size_t count, const char *line)
{
    return count == strlen(line) && memcmp(bytes, line, count) == 0;
}

ssize_t write(int to, const void *bytes, size_t count)
{
    NEXT(write);
    if (to == 2 && getenv("REFUSE_LINES")) {
        if (is_line(bytes, count, "refuse\n")) {
            atomic_store(&is_counting, 1);
            return count;
        }
        if (is_line(bytes, count, "allow\n")) {
            atomic_store(&is_counting, 0);
            return count;
        }
    }
    return next(to, bytes, count);
}
