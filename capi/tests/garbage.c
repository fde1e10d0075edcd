/*
 * Any bytes in a controller and its slots: a million calls under a fixed seed, over states that are drawn but for their
 * mark, or those of a busy controller in which bytes are drawn or single numbers overwritten. Pages that nothing may
 * access lie before and behind each object. A call reads and writes what it is given, and returns. Where it doesn't
 * answer NVMEARB_OK it writes nothing.
 *
 *   garbage [COUNT [SEED]]
 */
#define _DEFAULT_SOURCE /* (for MAP_ANONYMOUS) */
#include "every.h"
#include "places.h"
#include "tell.h"

#include <signal.h>
#include <stdlib.h>
#include <sys/mman.h>
#include <unistd.h>

enum { BUSY = 64, CALLS_OF_ONE = 8, SECONDS = 20 };

/* What is handed to a call. Of the two of each kind one lies at the beginning of its pages, and the other at their end. */
static struct object {
    nvmearb_ctrl *ctrl;
    nvmearb_slot *slots;
    struct call *call;
} at[2], before;
static uint64_t seed;
static unsigned long made_calls, seen_calls;
static unsigned which;
static struct {
    nvmearb_ctrl ctrl;
    nvmearb_slot slots[SLOTS];
} busy[BUSY];

static uint32_t upto(uint32_t n)
{
    return (uint32_t)((drawn(&seed) >> 20) % n);
}

/* Pages of which the first and the last can't be accessed. The object lies at one end of the others. */
static void *guarded(size_t size, int is_at_end)
{
    size_t page = (size_t)sysconf(_SC_PAGESIZE), whole = (size + page - 1) / page * page;
    uint8_t *from = mmap(NULL, whole + 2 * page, PROT_NONE, MAP_PRIVATE | MAP_ANONYMOUS, -1, 0);
    if (from == MAP_FAILED || mprotect(from + page, whole, PROT_READ | PROT_WRITE)) {
        perror("garbage");
        exit(1);
    }
    return from + page + (is_at_end ? whole - size : 0);
}

static struct object objects(int is_at_end)
{
    return (struct object){guarded(sizeof(nvmearb_ctrl), is_at_end), guarded(SLOTS * sizeof(nvmearb_slot), is_at_end),
                           guarded(sizeof(struct call), is_at_end)};
}

/* A fault, or a call that doesn't return: the program ends, and says where. */
static void stop(int number)
{
    char text[100];
    if (number == SIGALRM && seen_calls != made_calls) {
        seen_calls = made_calls;
        alarm(SECONDS);
        return;
    }
    int length = snprintf(text, sizeof text, "signal %d at call %lu, of number %u\n", number, made_calls, which);
    _exit(write(1, text, (size_t)length) == length ? 1 : 2);
}

static void watch(void)
{
    static const int signals[] = {SIGALRM, SIGSEGV, SIGBUS, SIGILL, SIGTRAP, SIGFPE, SIGABRT};
    for (size_t k = 0; k < sizeof signals / sizeof *signals; k++)
        signal(signals[k], stop);
    alarm(SECONDS);
}

/* ---- The states ---- */

/* The tag of a slot, with the generation that lies there, or any tag. */
static uint32_t draw_tag(const nvmearb_slot *pool)
{
    uint16_t generation, slot = (uint16_t)upto(SLOTS);
    memcpy(&generation, (const uint8_t *)&pool[slot] + GENERATION, sizeof generation);
    return upto(8) ? slot | (uint32_t)generation << 16 : (uint32_t)drawn(&seed);
}

/* Controllers with commands on their ways, and with deletions, after some hundred calls. */
static void make_busy(void)
{
    static const uint8_t own[] = {IDENTIFY, EVENT_REQUEST, NVMEARB_OPC_ABORT};
    for (unsigned k = 0; k < BUSY; k++) {
        CHECK(is_prepared(k % 2 ? NVMEARB_WEIGHTED : NVMEARB_ROUND_ROBIN));
        for (unsigned n = 0; n < sizeof own; n++)
            CHECK(nvmearb_ctrl_own_opcode(&ctrl, own[n]) == NVMEARB_OK);
        for (unsigned n = 0; n < 4 * k; n++) {
            struct call it = {.ctrl = &ctrl, .slots = slots, .count = SLOTS};
            unsigned number = draw_call(&seed, &it);
            it.tag = draw_tag(slots);
            if (upto(8) == 0)
                entry_of(NVMEARB_OPC_DELETE_SQ, 9, 0, 1, 0, it.bytes);
            made(&it, number);
        }
        CHECK(nvmearb_ctrl_verify(&ctrl, slots, SLOTS) == NVMEARB_OK);
        busy[k].ctrl = ctrl;
        memcpy(busy[k].slots, slots, sizeof slots);
    }
}

/* Another number of one, two or four bytes, which mostly is about a limit. */
static void overwrite(void *object, size_t size)
{
    static const uint32_t limits[] = {0,  1,  2,   3,   4,   5,    6,    7,    SLOTS - 1, SLOTS, SLOTS + 1, 63,
                                      64, 65, 255, 256, 257, 4095, 4096, 4097, 32767,     65535, 65536,     65537};
    size_t width = (size_t)1 << upto(3), place = width * upto((uint32_t)(size / width));
    uint32_t number = upto(4) ? limits[upto(sizeof limits / sizeof *limits)] : (uint32_t)drawn(&seed);
    memcpy((uint8_t *)object + place, &number, width);
}

/* Some bytes one after the other. */
static void draw_some(void *object, size_t size)
{
    size_t from = upto((uint32_t)size), length = upto(upto(4) ? 64 : (uint32_t)size);
    draw_into(&seed, (uint8_t *)object + from, length < size - from ? length : size - from);
}

/* The next state: all is drawn, or something of it is. The mark stays, and mostly the number of slots. */
static void draw_state(const struct object *it)
{
    unsigned k = upto(BUSY), kind = upto(8);
    size_t size = SLOTS * sizeof *it->slots;
    *it->ctrl = busy[k].ctrl;
    memcpy(it->slots, busy[k].slots, size);
    if (kind == 0)
        draw_into(&seed, it->ctrl, sizeof *it->ctrl), draw_into(&seed, it->slots, size);
    else if (kind < 3)
        upto(2) ? draw_some(it->ctrl, sizeof *it->ctrl) : draw_some(it->slots, size);
    if (kind < 3 && upto(4)) /* else hardly any pick is made */
        memcpy((uint8_t *)it->ctrl + ARBITER, (uint8_t *)&busy[k].ctrl + ARBITER, sizeof(nvmearb_arbiter));
    for (unsigned n = kind < 3 ? 0 : 1 + upto(upto(3) ? 4 : 200); n; n--)
        upto(3) ? overwrite(it->ctrl, sizeof *it->ctrl) : overwrite(it->slots, size);
    it->ctrl->mark = busy[k].ctrl.mark;
    if (upto(64))
        it->ctrl->count = SLOTS;
}

/* ---- The calls ---- */

static int is_arbiter(const nvmearb_ctrl *it)
{
    nvmearb_arbiter arbiter;
    int is_well;
    memcpy(&arbiter, (const uint8_t *)it + ARBITER, sizeof arbiter);
    is_well = arbiter.mechanism == NVMEARB_ROUND_ROBIN || arbiter.mechanism == NVMEARB_WEIGHTED;
    for (int k = 0; k < 6; k++)
        is_well = is_well && arbiter.last[k] <= 65536;
    return is_well;
}

/* Whether a controller, its slots and the arguments are as they were. */
static int are_same(const struct object *it)
{
    return !memcmp(it->ctrl, before.ctrl, sizeof *it->ctrl) &&
           !memcmp(it->slots, before.slots, SLOTS * sizeof *it->slots) &&
           !memcmp(it->call, before.call, sizeof *it->call);
}

/* Clears what a call writes but for the controller and its slots. */
static void forget(struct call *it)
{
    switch (which) {
    case PEEK:
        memset(&it->pick, 0, sizeof it->pick);
        break;
    case PICK:
        memset(&it->step, 0, sizeof it->step);
        break;
    case TAKE:
    case COMMAND:
        memset(&it->command, 0, sizeof it->command);
        break;
    case POST:
        memset(&it->post, 0, sizeof it->post);
        break;
    case FETCHED_N_AT:
    case FETCHED_N:
        it->n = 0;
        break;
    case TAKE_N:
        memset(it->commands, 0, sizeof it->commands), it->n = 0;
        break;
    case POST_N:
        memset(it->posts, 0, sizeof it->posts), it->n = 0;
        break;
    case NAMED:
        it->named = 0;
        break;
    case NEXT_FETCH:
        it->a = it->number = 0;
        break;
    case NEXT_TO_POST:
        it->a = 0;
        break;
    case WAITS:
        memset(&it->entry, 0, sizeof it->entry);
        it->cookie = 0;
        break;
    case SEEN:
        memset(&it->seen, 0, sizeof it->seen);
        break;
    default:
        it->number = 0;
    }
}

/* Whether what a call that is done told is of its kind, whatever the controller's bytes. */
static int is_of_its_kind(const struct call *it)
{
    const nvmearb_step *step = &it->step;
    const nvmearb_pick *pick = which == PEEK ? &it->pick : &step->pick;
    int is_carried_out = which == PICK && step->kind == NVMEARB_CARRIED_OUT;
    if (which == NEXT_FETCH || which == NEXT_TO_POST)
        return it->a < NVMEARB_MAX_QUEUES;
    if (which >= FETCHED_N_AT && which <= POST_N)
        return it->n > 0 && it->n <= it->room;
    if (which == SEEN)
        return it->seen.qid == it->a && it->seen.priority <= NVMEARB_LOW && it->seen.count <= NVMEARB_MAX_COUNT;
    if (is_carried_out)
        return step->answer.verdict <= NVMEARB_ABORT && step->answer.priority <= NVMEARB_LOW && step->answer.status.sct < 8;
    if (which != PICK && which != PEEK)
        return 1;
    return (which == PEEK || step->kind == NVMEARB_PICKED || step->kind == NVMEARB_PASSED) && pick->fresh <= 1 &&
           pick->qid < NVMEARB_MAX_QUEUES && pick->n >= 1 && pick->n <= NVMEARB_MAX_COUNT;
}

/*
 * Whether what a call that is done wrote is its own: nothing by a look-up, and mark and number of slots by none. An
 * arbiter stays one.
 */
static int is_well_done(const struct object *it)
{
    int is_look = which == PEEK || (which >= FETCH && which < WITHOUT_SLOTS) || which >= COMMAND;
    if (!is_of_its_kind(it->call) || (is_arbiter(before.ctrl) && !is_arbiter(it->ctrl)))
        return 0;
    forget(it->call), forget(before.call);
    if (is_look)
        return are_same(it);
    return it->ctrl->mark == before.ctrl->mark && it->ctrl->count == before.ctrl->count &&
           (which >= WITHOUT_SLOTS || !memcmp(it->slots, before.slots, SLOTS * sizeof *it->slots)) &&
           !memcmp(it->call, before.call, sizeof *it->call);
}

/* One call. It refuses the state exactly where it is a pick, or a look at one, and the arbiter is none. */
static int is_well(const struct object *it, unsigned done[CALLS])
{
    memset(it->call, 0xa5, sizeof *it->call);
    it->call->ctrl = it->ctrl, it->call->slots = it->slots, it->call->count = SLOTS;
    which = draw_call(&seed, it->call);
    it->call->tag = draw_tag(it->slots);
    memcpy(before.ctrl, it->ctrl, sizeof *it->ctrl);
    memcpy(before.slots, it->slots, SLOTS * sizeof *it->slots);
    memcpy(before.call, it->call, sizeof *it->call);
    int is_refused = (which == PICK || which == PEEK) && !is_arbiter(it->ctrl);
    int is_other = which >= WITHOUT_SLOTS && it->call->count != it->ctrl->count;
    made_calls++;
    uint32_t told = made(it->call, which);
    done[which] += told == NVMEARB_OK;
    if ((told == NVMEARB_ESTATE) != is_refused || told > NVMEARB_ESLOT)
        return 0;
    if (is_other && !is_refused && told != NVMEARB_EARG)
        return 0;
    return told == NVMEARB_OK ? is_well_done(it) : are_same(it);
}

/* A look at all numbers changes none. A making takes any slots, and leaves their generations. */
static int is_made_well(const struct object *it)
{
    static const nvmearb_placement placement = {4096, 4095, 1};
    memcpy(before.ctrl, it->ctrl, sizeof *it->ctrl);
    memcpy(before.slots, it->slots, SLOTS * sizeof *it->slots);
    memcpy(before.call, it->call, sizeof *it->call);
    uint32_t told = nvmearb_ctrl_verify(it->ctrl, it->slots, SLOTS);
    if ((told != NVMEARB_OK && told != NVMEARB_ESTATE) || !are_same(it))
        return 0;
    told = upto(2) ? nvmearb_ctrl_init(it->ctrl, it->slots, SLOTS, &config)
                   : nvmearb_ctrl_init_anywhere(it->ctrl, it->slots, SLOTS, &config, &placement);
    for (unsigned k = 0; k < SLOTS; k++)
        if (memcmp((uint8_t *)&it->slots[k] + GENERATION, (uint8_t *)&before.slots[k] + GENERATION, 2))
            return 0;
    return told == NVMEARB_OK && nvmearb_ctrl_verify(it->ctrl, it->slots, SLOTS) == NVMEARB_OK;
}

int main(int count, char **words)
{
    unsigned long most = count > 1 ? strtoul(words[1], NULL, 0) : 1000000;
    unsigned done[CALLS] = {0}, never = 0;
    int are_well = 1;
    seed = count > 2 ? strtoull(words[2], NULL, 0) : 61;
    at[0] = objects(0), at[1] = objects(1), before = objects(0);
    make_busy();
    watch();
    while (are_well && made_calls < most) {
        const struct object *it = &at[upto(2)];
        draw_state(it);
        for (int k = 0; k < CALLS_OF_ONE && are_well; k++)
            are_well = is_well(it, done);
        are_well = are_well && (upto(8) || is_made_well(it));
    }
    alarm(0);
    if (!are_well)
        printf("at call %lu, of number %u\n", made_calls, which);
    CHECK(are_well && made_calls >= most);
    for (unsigned k = 0; k < CALLS; k++)
        never += done[k] == 0;
    CHECK(never == 0);
    return told();
}
