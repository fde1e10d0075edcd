/* The backend of memory.h: to be kept for tests, or left out. */
#include "memory.h"

#include <string.h>

static void begin(struct nvme_request *r)
{
    uint8_t *blocks = (uint8_t *)r->on->of + r->at;
    if (r->what == NVME_READ)
        memcpy(r->bytes, blocks, r->length);
    else if (r->what == NVME_WRITE)
        memcpy(blocks, r->bytes, r->length);
    else if (r->what != NVME_FLUSH)
        memset(blocks, 0, r->length);
    nvme_end(r, 0);
}

const struct nvme_backend memory_backend = {.begin = begin};
