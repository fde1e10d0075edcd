// SPDX-License-Identifier: MIT
/* Loaded before a program: stops its threads for a while, wherever they are. A signal makes a thread go on instruction by
   instruction; at one of the program's own it sleeps. On x86-64 under Linux alone.

     STOP_SEED=N     which threads are stopped, when, and for how long
     STOP_TOLD=F     writes how often the first thread was stopped, and each that was started, in their order, and in how
                     many different places of the program's own code, into the file F */
#define _GNU_SOURCE
#include <dlfcn.h>
#include <errno.h>
#include <link.h>
#include <pthread.h>
#include <signal.h>
#include <stdatomic.h>
#include <stdint.h>
#include <stdio.h>
#include <stdlib.h>
#include <sys/syscall.h>
#include <time.h>
#include <ucontext.h>
#include <unistd.h>

enum {
    MOST_THREADS = 128,
    MOST_CODE = 1 << 22,
    /* How many instructions of the program's own a thread makes before it stops, and how many in all. */
    MOST_OWN_STEPS = 400,
    MOST_STEPS = 2000,
    /* How often threads are stopped in a run. */
    MOST_STOPS = 1500,
    /* The bit of the flags by which the processor traps after each instruction. */
    TRAP_FLAG = 0x100,
};

/* The threads of the program, the first one first; 0 where one has ended. */
static atomic_int ids[MOST_THREADS];
static atomic_ulong stops[MOST_THREADS];
static atomic_int threads;
static __thread int own;
/* The program ends. */
static atomic_int is_over;

/* The program's own code, and the places in it where a thread was stopped. */
static uintptr_t first, last;
static unsigned char places[MOST_CODE];

#define NEXT(name) \
    static __typeof__(name) *next; \
    if (!next) \
        next = (__typeof__(name) *)dlsym(RTLD_NEXT, #name)

static unsigned long random_of(unsigned long *seed)
{
    *seed ^= *seed << 13;
    *seed ^= *seed >> 7;
    *seed ^= *seed << 17;
    return *seed;
}

static void sleep_for(unsigned long microseconds)
{
    struct timespec time = {0, (long)microseconds * 1000};
    nanosleep(&time, NULL);
}

/* What is left of a stop that is to come: instructions of the program's own code, and all, and how long it takes. */
static __thread int own_steps, all_steps, length;

static void set_stepping(void *context, int is_on)
{
    greg_t *flags = &((ucontext_t *)context)->uc_mcontext.gregs[REG_EFL];
    *flags = is_on ? *flags | TRAP_FLAG : *flags & ~TRAP_FLAG;
}

/* The thread blocks signals, or is about to, so that it can't step. */
static __thread int is_calm;

static void set_calm(int is_on)
{
    is_calm = is_on;
    if (is_on)
        __builtin_ia32_writeeflags_u64(__builtin_ia32_readeflags_u64() & ~(unsigned long)TRAP_FLAG);
}

/* A thread is to be stopped: it goes on instruction by instruction from here. */
static void step(int signal, siginfo_t *how, void *context)
{
    (void)signal;
    if (is_calm)
        return;
    length = how->si_value.sival_int;
    own_steps = 1 + length % MOST_OWN_STEPS;
    all_steps = MOST_STEPS;
    set_stepping(context, 1);
}

/* After an instruction: whether the stop is here. */
static void stop(int signal, siginfo_t *how, void *context)
{
    (void)signal, (void)how;
    uintptr_t at = ((ucontext_t *)context)->uc_mcontext.gregs[REG_RIP];
    int is_own = at >= first && at < last && at - first < MOST_CODE;
    all_steps--;
    own_steps -= is_own;
    if (own_steps > 0 && all_steps > 0)
        return;
    set_stepping(context, 0);
    if (is_own) {
        int error = errno;
        places[at - first] = 1;
        atomic_fetch_add(&stops[own], 1);
        sleep_for(length);
        errno = error;
    }
}

static void send(int id, int microseconds)
{
    siginfo_t how = {.si_signo = SIGUSR1, .si_code = SI_QUEUE};
    how.si_value.sival_int = microseconds;
    syscall(SYS_rt_tgsigqueueinfo, getpid(), id, SIGUSR1, &how);
}

static void *disturb(void *until)
{
    unsigned long seed = strtoul(getenv("STOP_SEED"), NULL, 10) * 2654435761ul + 1;
    for (int sent = 0; sent < MOST_STOPS && !atomic_load((atomic_int *)until); sent++) {
        int id = atomic_load(&ids[random_of(&seed) % atomic_load(&threads)]);
        /* One stop of eight is long. */
        int length = random_of(&seed) % (random_of(&seed) % 8 ? 200 : 5000);
        if (id)
            send(id, length);
        sleep_for(random_of(&seed) % 200);
    }
    return NULL;
}

static int find_program(struct dl_phdr_info *info, size_t size, void *unused)
{
    (void)size, (void)unused;
    for (int i = 0; i < info->dlpi_phnum; i++) {
        const ElfW(Phdr) *part = &info->dlpi_phdr[i];
        if (part->p_type == PT_LOAD && (part->p_flags & PF_X)) {
            first = info->dlpi_addr + part->p_vaddr;
            last = first + part->p_memsz;
        }
    }
    return 1; /* the program comes first */
}

__attribute__((constructor)) static void begin(void)
{
    struct sigaction how = {.sa_sigaction = step, .sa_flags = SA_SIGINFO | SA_RESTART};
    sigaction(SIGUSR1, &how, NULL);
    how.sa_sigaction = stop;
    sigaddset(&how.sa_mask, SIGUSR1);
    sigaction(SIGTRAP, &how, NULL);
    dl_iterate_phdr(find_program, NULL);
    atomic_store(&ids[0], gettid());
    atomic_store(&threads, 1);
}

struct task {
    void *(*run)(void *);
    void *with;
    int place;
};

static void *run_task(void *given)
{
    struct task task = *(struct task *)given;
    free(given);
    own = task.place;
    is_calm = 1;
    atomic_store(&ids[own], gettid());
    is_calm = 0;
    void *result = task.run(task.with);
    set_calm(1);
    atomic_store(&ids[own], 0);
    return result;
}

int pthread_create(pthread_t *thread, const pthread_attr_t *how, void *(*run)(void *), void *with)
{
    set_calm(1);
    NEXT(pthread_create);
    int place = atomic_load(&threads);
    struct task *task = malloc(sizeof *task);
    pthread_t other;
    if (place == 1)
        next(&other, NULL, disturb, &is_over);
    if (place == MOST_THREADS || !task)
        abort();
    *task = (struct task){run, with, place};
    atomic_store(&threads, place + 1);
    int error = next(thread, how, run_task, task);
    set_calm(0);
    return error;
}

/* A program of Rattle's ends so. */
void _exit(int status)
{
    set_calm(1);
    atomic_store(&is_over, 1);
    FILE *file = fopen(getenv("STOP_TOLD"), "w");
    unsigned long different = 0;
    for (int place = 0; place < atomic_load(&threads); place++)
        fprintf(file, "%lu ", atomic_load(&stops[place]));
    for (uintptr_t at = 0; at < MOST_CODE; at++)
        different += places[at];
    fprintf(file, "\n%lu\n", different);
    fclose(file);
    syscall(SYS_exit_group, status);
    abort();
}
