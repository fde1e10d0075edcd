/*
 * A backend over a file, or a block device, that has many requests at a time and ends them in any order: by io_uring
 * where liburing was there when it was built (NVME_URING) and the machine allows it, else by threads. Flush is
 * fdatasync. Of a file system it needs holes, as ext4, XFS, Btrfs and tmpfs have them: Write Zeroes and Deallocate make
 * some.
 */
#ifndef NVME_DISK_H
#define NVME_DISK_H

#include "nvme.h"

struct disk; /* `of` of its namespace */
extern const struct nvme_backend disk_backend;

/* Opens a file of `*bytes` bytes. Without `by_ring` by threads. Returns NULL, and errno says why. */
struct disk *disk_open(const char *path, int by_ring, uint64_t *bytes);

/* Readable when requests have ended, for poll. */
int disk_descriptor(const struct disk *disk);

/* On the thread of the device: submits what was begun, and ends what has ended. Returns how many. To be called before
 * each poll. */
unsigned disk_turn(struct disk *disk);

/* Waits until each request that was begun has ended. */
void disk_settle(struct disk *disk);

/* Whether it is by io_uring. */
int disk_has_ring(const struct disk *disk);

#ifdef NVME_URING
/* uring.c: the part of disk.c that io_uring does. Each returns 0, or a number of errno.h. */
struct uring;
struct uring *uring_open(int event);
void uring_begin(struct uring *ring, int file, struct nvme_request *request);
void uring_submit(struct uring *ring);
/* The next request that has ended, or NULL. */
struct nvme_request *uring_ended(struct uring *ring, int file);
#endif

#endif
