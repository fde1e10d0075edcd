/* A backend over memory, which executes each request at once: `of` of its namespace is where block 0 is. */
#ifndef NVME_MEMORY_H
#define NVME_MEMORY_H

#include "nvme.h"

extern const struct nvme_backend memory_backend;

#endif
