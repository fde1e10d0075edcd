/* The backend of disk.h. To be written anew for another kind of disk. */
#define _GNU_SOURCE
#include "disk.h"

#include <errno.h>
#include <fcntl.h>
#include <linux/falloc.h>
#include <poll.h>
#include <pthread.h>
#include <stdlib.h>
#include <sys/eventfd.h>
#include <sys/ioctl.h>
#include <sys/stat.h>
#include <unistd.h>

#define THREADS 8

struct disk {
    int file, event;
    unsigned left;      /* begun and not ended; of the device's thread */
    struct uring *ring; /* NULL: threads */
    pthread_mutex_t lock;
    pthread_cond_t has_more;
    struct nvme_request *first, *last; /* what no thread has begun */
    struct nvme_request *ended;
};

static struct disk *disk_of(const struct nvme_request *r)
{
    return r->on->of;
}

/* ---- Threads ---- */

/* Reads or writes all bytes of a request. Returns 0, or a number of errno.h. */
static int transfer(int file, struct nvme_request *r)
{
    while (r->done < r->length) {
        uint8_t *bytes = r->bytes + r->done;
        off_t at = (off_t)(r->at + r->done);
        size_t left = r->length - r->done;
        ssize_t n = r->what == NVME_READ ? pread(file, bytes, left, at) : pwrite(file, bytes, left, at);
        if (n < 0 && errno == EINTR)
            continue;
        if (n <= 0)
            return n < 0 ? errno : EIO; /* the file has become shorter */
        r->done += (uint64_t)n;
    }
    return 0;
}

static int execute(int file, struct nvme_request *r)
{
    if (r->what == NVME_READ || r->what == NVME_WRITE)
        return transfer(file, r);
    if (r->what == NVME_FLUSH)
        return fdatasync(file) < 0 ? errno : 0;
    int told = fallocate(file, FALLOC_FL_PUNCH_HOLE | FALLOC_FL_KEEP_SIZE, (off_t)r->at, (off_t)r->length);
    return told < 0 ? errno : 0;
}

static void *serve(void *context)
{
    struct disk *disk = context;
    uint64_t one = 1;
    for (;;) {
        pthread_mutex_lock(&disk->lock);
        while (!disk->first)
            pthread_cond_wait(&disk->has_more, &disk->lock);
        struct nvme_request *r = disk->first;
        disk->first = r->next;
        pthread_mutex_unlock(&disk->lock);
        r->error = execute(disk->file, r);
        pthread_mutex_lock(&disk->lock);
        r->next = disk->ended;
        disk->ended = r;
        pthread_mutex_unlock(&disk->lock);
        if (write(disk->event, &one, sizeof one) < 0)
            abort(); /* an event descriptor takes each 1 */
    }
    return NULL;
}

static int start_threads(struct disk *disk)
{
    pthread_t thread;
    pthread_mutex_init(&disk->lock, NULL);
    pthread_cond_init(&disk->has_more, NULL);
    for (int k = 0; k < THREADS; k++) {
        int error = pthread_create(&thread, NULL, serve, disk);
        if (error)
            return error;
        pthread_detach(thread);
    }
    return 0;
}

/* ---- The backend ---- */

static void begin(struct nvme_request *r)
{
    struct disk *disk = disk_of(r);
    disk->left++;
#ifdef NVME_URING
    if (disk->ring) {
        uring_begin(disk->ring, disk->file, r);
        return;
    }
#endif
    pthread_mutex_lock(&disk->lock);
    if (disk->first)
        disk->last->next = r;
    else
        disk->first = r;
    disk->last = r;
    pthread_cond_signal(&disk->has_more);
    pthread_mutex_unlock(&disk->lock);
}

/* What io_uring has, the kernel has begun. */
static int cancel(struct nvme_request *r)
{
    struct disk *disk = disk_of(r);
    struct nvme_request **at = &disk->first, *before = NULL;
    if (disk->ring)
        return 0;
    pthread_mutex_lock(&disk->lock);
    for (; *at && *at != r; at = &(*at)->next)
        before = *at;
    int is_there = *at != NULL;
    if (is_there) {
        *at = r->next;
        disk->last = disk->last == r ? before : disk->last;
        disk->left--;
    }
    pthread_mutex_unlock(&disk->lock);
    return is_there;
}

const struct nvme_backend disk_backend = {.begin = begin, .cancel = cancel};

/* The next request that has ended, or NULL. */
static struct nvme_request *ended(struct disk *disk)
{
#ifdef NVME_URING
    if (disk->ring)
        return uring_ended(disk->ring, disk->file);
#endif
    pthread_mutex_lock(&disk->lock);
    struct nvme_request *r = disk->ended;
    if (r)
        disk->ended = r->next;
    pthread_mutex_unlock(&disk->lock);
    return r;
}

static void submit(struct disk *disk)
{
#ifdef NVME_URING
    if (disk->ring)
        uring_submit(disk->ring);
#endif
    (void)disk;
}

unsigned disk_turn(struct disk *disk)
{
    uint64_t times;
    unsigned count = 0;
    submit(disk);
    while (read(disk->event, &times, sizeof times) > 0)
        ;
    for (struct nvme_request *r; (r = ended(disk)) != NULL; count++) {
        disk->left--;
        nvme_end(r, r->error);
    }
    submit(disk); /* further parts of commands */
    return count;
}

void disk_settle(struct disk *disk)
{
    for (disk_turn(disk); disk->left; disk_turn(disk)) {
        struct pollfd it = {disk->event, POLLIN, 0};
        poll(&it, 1, -1);
    }
}

int disk_descriptor(const struct disk *disk)
{
    return disk->event;
}

int disk_has_ring(const struct disk *disk)
{
    return disk->ring != NULL;
}

static int size_of(int file, uint64_t *bytes)
{
    struct stat it;
    if (fstat(file, &it) < 0)
        return errno;
    *bytes = (uint64_t)it.st_size;
    if (S_ISBLK(it.st_mode) && ioctl(file, _IOR(0x12, 114, size_t), bytes) < 0) /* BLKGETSIZE64 */
        return errno;
    return 0;
}

struct disk *disk_open(const char *path, int by_ring, uint64_t *bytes)
{
    struct disk *disk = calloc(1, sizeof *disk);
    if (!disk)
        return NULL;
    disk->file = open(path, O_RDWR | O_CLOEXEC);
    disk->event = eventfd(0, EFD_CLOEXEC | EFD_NONBLOCK);
    int error = disk->file < 0 || disk->event < 0 ? errno : size_of(disk->file, bytes);
#ifdef NVME_URING
    if (!error && by_ring)
        disk->ring = uring_open(disk->event);
#endif
    (void)by_ring;
    if (!error && !disk->ring)
        error = start_threads(disk);
    if (!error)
        return disk;
    free(disk); /* the process ends */
    errno = error;
    return NULL;
}
