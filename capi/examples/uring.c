/* The part of disk.c that io_uring does, by liburing. To be left out where that isn't there. */
#define _GNU_SOURCE
#include "disk.h"

#include <errno.h>
#include <fcntl.h>
#include <liburing.h>
#include <linux/falloc.h>
#include <stdlib.h>

#define ENTRIES 256 /* of the submission ring: where it is full, the kernel takes what is there */

struct uring {
    struct io_uring ring;
};

struct uring *uring_open(int event)
{
    struct uring *it = calloc(1, sizeof *it);
    struct io_uring_params how = {.flags = IORING_SETUP_CQSIZE, .cq_entries = NVME_COMMANDS};
    if (it && io_uring_queue_init_params(ENTRIES, &it->ring, &how) == 0) {
        if (io_uring_register_eventfd(&it->ring, event) == 0)
            return it;
        io_uring_queue_exit(&it->ring);
    }
    free(it);
    return NULL;
}

void uring_begin(struct uring *it, int file, struct nvme_request *r)
{
    struct io_uring_sqe *sqe = io_uring_get_sqe(&it->ring);
    while (!sqe) {
        io_uring_submit(&it->ring);
        sqe = io_uring_get_sqe(&it->ring);
    }
    unsigned left = (unsigned)(r->length - r->done);
    if (r->what == NVME_READ)
        io_uring_prep_read(sqe, file, r->bytes + r->done, left, r->at + r->done);
    else if (r->what == NVME_WRITE)
        io_uring_prep_write(sqe, file, r->bytes + r->done, left, r->at + r->done);
    else if (r->what == NVME_FLUSH)
        io_uring_prep_fsync(sqe, file, IORING_FSYNC_DATASYNC);
    else
        io_uring_prep_fallocate(sqe, file, FALLOC_FL_PUNCH_HOLE | FALLOC_FL_KEEP_SIZE, (off_t)r->at, (off_t)r->length);
    io_uring_sqe_set_data(sqe, r);
}

void uring_submit(struct uring *it)
{
    io_uring_submit(&it->ring);
}

/* What was read or written in part goes on. */
struct nvme_request *uring_ended(struct uring *it, int file)
{
    struct io_uring_cqe *cqe;
    while (io_uring_peek_cqe(&it->ring, &cqe) == 0) {
        struct nvme_request *r = io_uring_cqe_get_data(cqe);
        int told = cqe->res, has_bytes = r->what == NVME_READ || r->what == NVME_WRITE;
        io_uring_cqe_seen(&it->ring, cqe);
        r->done += has_bytes && told > 0 ? (uint64_t)told : 0;
        if (told == -EINTR || told == -EAGAIN || (has_bytes && told > 0 && r->done < r->length)) {
            uring_begin(it, file, r);
            continue;
        }
        r->error = told < 0 ? -told : has_bytes && r->done < r->length ? EIO : 0; /* the file has become shorter */
        return r;
    }
    return NULL;
}
