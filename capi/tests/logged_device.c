/*
 * Random hosts over the device of ../examples/nvme.h, whose log this prints, for `nvmearb audit`:
 *
 *   logged_device [SEED [STEPS [RUDE]]]
 *
 * The backend ends requests late and in any order, and takes some back. By an odd SEED the device acts at each
 * doorbell, by an even one only at times. The status is 0 where each command was answered in the end. With a RUDE
 * above 0 any doorbell is written with any value once in so many steps, and it is always 0.
 */
#include "../examples/hosts.h"
#include "../examples/nvme.h"

#include <errno.h>
#include <stdlib.h>
#include <string.h>

enum { AT_CC = 0x14, AT_CSTS = 0x1c, AT_AQA = 0x24, AT_ASQ = 0x28, AT_ACQ = 0x30, AT_DOORBELLS = 0x1000 };
enum { BLOCKS = 8, SHIFT = 9, KEPT = 256 };

static struct nvme device;
static uint8_t blocks[BLOCKS << SHIFT];
static struct nvme_request *kept[KEPT];
static unsigned count;

/* ---- The backend ---- */

static void keep(struct nvme_request *request)
{
    kept[count++] = request;
}

static int give_back(struct nvme_request *request)
{
    for (unsigned k = 0; k < count; k++)
        if (kept[k] == request && hosts_draw(2)) {
            kept[k] = kept[--count];
            return 1;
        }
    return 0;
}

static const struct nvme_backend late = {.begin = keep, .cancel = give_back};

/* Ends some request, a few of them with an error. Returns whether there was one. */
static int end_one(void)
{
    unsigned k = count ? hosts_draw(count) : 0;
    if (!count)
        return 0;
    struct nvme_request *request = kept[k];
    kept[k] = kept[--count];
    nvme_end(request, hosts_draw(20) ? 0 : EIO);
    return 1;
}

/* ---- The machine ---- */

static int copy(void *context, uint64_t address, void *bytes, size_t length, int to_guest)
{
    (void)context;
    if (address > sizeof hosts_memory || length > sizeof hosts_memory - address)
        return 0;
    memcpy(to_guest ? hosts_memory + address : bytes, to_guest ? bytes : hosts_memory + address, length);
    return 1;
}

static void interrupt(void *context, int is_asserted)
{
    (void)context, (void)is_asserted;
}

static void later(void *context)
{
    (void)context;
}

static uint64_t now(void *context)
{
    (void)context;
    return 0;
}

static void enabled(void *context, const nvmearb_config *config)
{
    (void)context, (void)config;
    device.log = stdout;
}

static int enable(uint64_t seed)
{
    device.host = (struct nvme_host){.copy = copy, .interrupt = interrupt, .now = now, .enabled = enabled};
    device.host.later = seed % 2 ? NULL : later;
    device.namespaces[0] = (struct nvme_namespace){&late, blocks, BLOCKS, SHIFT};
    device.count = device.vectors = 1;
    device.is_weighted = seed / 2 % 2;
    device.most = seed / 4 % 2 ? 3 : 0;
    if (!nvme_init(&device))
        return 0;
    nvme_write(&device, AT_AQA, (HOSTS_ADMIN_SLOTS - 1) * 0x10001u, 4);
    nvme_write(&device, AT_ASQ, HOSTS_ASQ, 8);
    nvme_write(&device, AT_ACQ, HOSTS_ACQ, 8);
    nvme_write(&device, AT_CC, 0x460001, 4);
    return nvme_read(&device, AT_CSTS, 4) == 1;
}

static void ring(uint16_t qid, int is_head, uint16_t slot)
{
    nvme_write(&device, AT_DOORBELLS + 8u * qid + 4u * (unsigned)is_head, slot, 4);
}

/* The hosts submit no more. Returns how many of their commands stay unanswered. */
static unsigned settle(void)
{
    unsigned left = 1;
    for (int turns = 0; left && turns < 1000; turns++) {
        left = hosts_settle();
        do
            nvme_turn(&device);
        while (end_one());
    }
    return left;
}

int main(int words, char **word)
{
    uint64_t seed = words > 1 ? strtoull(word[1], NULL, 0) : 1;
    uint64_t steps = words > 2 ? strtoull(word[2], NULL, 0) : 20000;
    uint32_t rude = words > 3 ? (uint32_t)strtoul(word[3], NULL, 0) : 0;
    if (!nvmearb_is_of_this_header() || !enable(seed))
        return 3;
    hosts_begin(seed, ring);
    for (; steps; steps--) {
        hosts_step();
        if (rude && hosts_draw(rude) == 0)
            ring((uint16_t)hosts_draw(HOSTS_QUEUES + 2), (int)hosts_draw(2), (uint16_t)hosts_draw(20));
        if (hosts_draw(3) == 0)
            end_one();
        if (hosts_draw(3) == 0)
            nvme_turn(&device);
    }
    unsigned left = settle();
    if (rude || (left == 0 && hosts_strays() == 0))
        return fflush(stdout) ? 3 : 0;
    fprintf(stderr, "logged_device: %u commands weren't answered, %u completions named none\n", left, hosts_strays());
    return 1;
}
