/*
 * Controllers under a hostile host and a hostile device: ten million calls with drawn arguments, under a fixed seed. An
 * account of its own (account.h) keeps each queue and each command in plain lists, and says before each call what it
 * has to answer and to write. The account picks as an arbiter that is shown its counts, and the room of each pick is
 * drawn. Of about every second controller queues may lie anywhere. Of the others they lie on regions, and a queue table
 * answers as the account does.
 *
 *   hostile [COUNT [SEED]]
 */
#include "account.h"
#include "draws.h"
#include "tell.h"
#include <stdlib.h>

enum { GUARD = 64 };

/* Answers as the account does where queues lie on regions. */
static nvmearb_table table;

/* ---- The calls ---- */

static struct {
    uint8_t before[GUARD];
    nvmearb_ctrl ctrl;
    uint8_t between[GUARD];
    nvmearb_slot slots[SLOTS];
    uint8_t after[GUARD];
} room;
#define CTRL (&room.ctrl)
#define POOL room.slots, account.slots

static struct {
    uint64_t ok, none, busy, full, refused, passed, passed_aborts, named, deep, held, classed, deletions, together, aborts;
    uint64_t flagged, created, made, again, cut, stale, turns, others;
    uint64_t anywhere, lies_anywhere, most, bad_sizes, bad_offsets, bad_vectors; /* where queues may lie anywhere */
} tally;

/* Whether a call answered what it had to. */
static int is_right(uint32_t told, uint32_t want)
{
    tally.ok += told == NVMEARB_OK;
    tally.none += told == NVMEARB_NONE;
    tally.busy += told == NVMEARB_BUSY;
    tally.full += told == NVMEARB_NOROOM;
    tally.others += told == NVMEARB_ESLOT;
    tally.refused += told == NVMEARB_EARG || told == NVMEARB_EUSED || told == NVMEARB_EMANY || told == NVMEARB_ESIZE;
    return told == want;
}

/* The limits of queues that may lie anywhere. */
static nvmearb_placement draw_placement(void)
{
    static const uint32_t pages[] = {1, 2, 4, 8, 0x200, 0x1000, 0x1000, 0x1000, 0x10000, 0x80000000};
    static const uint16_t sizes[] = {1, 2, 7, 31, 63, 1023, 2047, 4093, 4094, 4095}, vectors[] = {1, 2, 4, 0xffff};
    return (nvmearb_placement){pages[upto(10)], upto(2) ? sizes[upto(10)] : (uint16_t)(1 + upto(40)), vectors[upto(4)]};
}

/* The account begins with the admin queues alone. */
static void begin(const nvmearb_config *config)
{
    memset(&account, 0, sizeof account);
    account.is_anywhere = (int)upto(2);
    if (account.is_anywhere)
        account.placement = draw_placement();
    account.sqs[0] = (struct sq){.state = OPEN, .address = config->asq.address, .slots = config->asq.slots};
    account.cqs[0] = (struct cq){.is_open = 1, .address = config->acq.address, .slots = config->acq.slots};
    account.sq_regions = (struct regions){1, {config->asq}, {1}};
    account.cq_regions = (struct regions){1, {config->acq}, {1}};
    account.nsq = config->nsq, account.ncq = config->ncq;
    account.cdw11 = config->cdw11 & ~0xf8u;
    for (unsigned qid = 0; qid < QUEUES; qid++)
        account.depths[qid] = qid ? config->depth : config->admin_depth;
    account.slots = upto(3) ? SLOTS : 1 + upto(SLOTS);
    account.stirs = account.is_anywhere && upto(5) == 0;
    account.is_slow = !account.stirs && upto(3) == 0;
    for (unsigned slot = 0; slot < SLOTS; slot++)
        account.by_slot[slot] = NO_COMMAND;
}

static uint16_t draw_limit(void)
{
    return (uint16_t)(upto(4) ? 1 + upto(IDENTIFIERS) : NVMEARB_MAX_IO_QUEUES);
}

/* Draws the memory of a controller, and that of its slots or not: then their generations go on. */
static void draw_room(void)
{
    int is_again = tally.made > 0 && upto(3) > 0;
    draw_into(&seed, &room.ctrl, sizeof room.ctrl);
    if (!is_again) {
        draw_into(&seed, &room.slots, sizeof room.slots);
        memset(last_tags, 0, sizeof last_tags);
    }
    memset(room.before, 0xa5, GUARD), memset(room.between, 0xa5, GUARD), memset(room.after, 0xa5, GUARD);
    tally.again += (uint64_t)is_again;
}

/* The controller is made, as at the end of a reset. Nothing of before is left but the generations. */
static int make(void)
{
    static const uint16_t depths[] = {1, 2, 16, 256, 300, 4095};
    nvmearb_config config = {{0x1000, (uint16_t)(2 + upto(40))}, {0x2000, (uint16_t)(2 + upto(40))}, 1 + upto(2),
                             (uint32_t)drawn(&seed), draw_limit(), draw_limit(), depths[upto(6)], depths[1 + upto(5)]};
    uint16_t number;
    begin(&config);
    draw_room();
    tally.made++;
    tally.anywhere += (uint64_t)account.is_anywhere;
    if (nvmearb_arbiter_init(&account.arbiter, config.mechanism, config.cdw11) != NVMEARB_OK)
        return 0;
    if (account.is_anywhere)
        return nvmearb_ctrl_init_anywhere(CTRL, POOL, &config, &account.placement) == NVMEARB_OK;
    return nvmearb_table_init(&table, config.nsq, config.ncq, config.cdw11) == NVMEARB_OK &&
           nvmearb_table_add_sq_region(&table, 0x1000, config.asq.slots, &number) == NVMEARB_OK &&
           nvmearb_table_add_cq_region(&table, 0x2000, config.acq.slots, &number) == NVMEARB_OK &&
           nvmearb_ctrl_init(CTRL, POOL, &config) == NVMEARB_OK;
}

/* Nothing was written beside the controller and its slots, and their numbers are within their ranges. */
static int is_whole(void)
{
    uint8_t want[GUARD];
    memset(want, 0xa5, GUARD);
    return nvmearb_ctrl_verify(CTRL, POOL) == NVMEARB_OK && !memcmp(room.before, want, GUARD) &&
           !memcmp(room.between, want, GUARD) && !memcmp(room.after, want, GUARD);
}

/* Adds a region. Where queues may lie anywhere this is refused, and changes nothing. */
static int adds(void)
{
    int is_sq = (int)upto(2);
    struct regions *regions = is_sq ? &account.sq_regions : &account.cq_regions;
    uint32_t slots = upto(20) ? 2 + upto(upto(2) ? 24 : 300) : upto(6000);
    nvmearb_region it = {0x1000 * (uint64_t)(1 + upto(200)), (uint16_t)slots};
    uint16_t number = 0, found = 0;
    nvmearb_ctrl before = room.ctrl;
    uint32_t told, want = NVMEARB_EMANY;
    if (!account.is_anywhere)
        want = is_sq ? nvmearb_table_add_sq_region(&table, it.address, it.slots, &number)
                     : nvmearb_table_add_cq_region(&table, it.address, it.slots, &number);
    told = is_sq ? nvmearb_ctrl_add_sq_region(CTRL, it.address, it.slots, &found)
                 : nvmearb_ctrl_add_cq_region(CTRL, it.address, it.slots, &found);
    if (want == NVMEARB_OK)
        regions->at[regions->n++] = it;
    return is_right(told, want) && number == found &&
           (want == NVMEARB_OK || !memcmp(&before, CTRL, sizeof before));
}

static int announces(void)
{
    static const uint8_t opcodes[] = {6, 0x0c, 0, 8, 9}, fids[] = {1, 7, 0x0b};
    uint8_t opcode = opcodes[upto(5)], fid = fids[upto(3)];
    if (upto(2)) {
        account.opcodes[opcode] = 1;
        return is_right(nvmearb_ctrl_own_opcode(CTRL, opcode), NVMEARB_OK);
    }
    account.fids[fid] = 1;
    return is_right(nvmearb_ctrl_own_feature(CTRL, fid), NVMEARB_OK);
}

/* The device gives a queue another depth, whether or not it is open. */
static int sets_depth(void)
{
    uint16_t qid = draw_qid(), depth = (uint16_t)(upto(20) ? 1 + upto(upto(2) ? 8 : 300) : upto(0x10000));
    uint32_t want = qid < QUEUES && depth >= 1 && depth <= NVMEARB_MAX_DEPTH ? NVMEARB_OK : NVMEARB_EARG;
    if (want == NVMEARB_OK)
        account.depths[qid] = depth;
    tally.deep += want == NVMEARB_OK;
    return is_right(nvmearb_ctrl_set_depth(CTRL, qid, depth), want);
}

/* The device holds a queue, or holds it no longer. */
static int holds(void)
{
    uint16_t qid = draw_qid();
    uint8_t on = (uint8_t)(upto(20) ? upto(3) == 0 : upto(256));
    struct sq *sq = open_sq(qid);
    uint32_t want = on > 1 ? NVMEARB_EARG : sq ? NVMEARB_OK : NVMEARB_NONE;
    if (want == NVMEARB_OK)
        sq->is_held = on;
    tally.held += want == NVMEARB_OK && on;
    return is_right(nvmearb_ctrl_hold(CTRL, qid, on), want);
}

/* It sets the class of one. */
static int sets_class(void)
{
    uint16_t qid = draw_qid(), priority = (uint16_t)(upto(20) ? 1 + upto(4) : upto(10));
    struct sq *sq = qid ? open_sq(qid) : NULL;
    uint32_t want = sq ? NVMEARB_OK : NVMEARB_NONE;
    if (priority < NVMEARB_URGENT || priority > NVMEARB_LOW)
        want = NVMEARB_EARG;
    if (want == NVMEARB_OK)
        sq->priority = priority;
    tally.classed += want == NVMEARB_OK;
    return is_right(nvmearb_ctrl_set_class(CTRL, qid, priority), want);
}

/* How many slots it is from a count to a slot of the ring. */
static uint64_t gap(uint16_t slots, uint64_t from, uint16_t to)
{
    return (to + slots - from % slots) % slots;
}

static int rings_tail(void)
{
    uint16_t qid = draw_qid(), tail = (uint16_t)upto(0x10000);
    struct sq *sq = open_sq(qid);
    uint32_t want = NVMEARB_NONE;
    uint64_t next = 0;
    if (sq) {
        tail = upto(30) ? (uint16_t)((sq->submitted + upto(20)) % sq->slots) : tail % (2 * sq->slots);
        next = sq->submitted + gap(sq->slots, sq->submitted, tail);
        want = tail < sq->slots && next < sq->fetched + sq->slots ? NVMEARB_OK : NVMEARB_EARG;
        sq->submitted = want == NVMEARB_OK ? next : sq->submitted;
    }
    return is_right(nvmearb_ctrl_sq_tail(CTRL, qid, tail), want);
}

static int rings_head(void)
{
    uint16_t cqid = draw_qid(), head = (uint16_t)upto(0x10000);
    struct cq *cq = open_cq(cqid);
    uint32_t want = NVMEARB_NONE;
    uint64_t next = 0;
    if (cq) {
        head = upto(30) ? (uint16_t)((cq->consumed + upto(cq->slots)) % cq->slots) : head % (2 * cq->slots);
        next = cq->consumed + gap(cq->slots, cq->consumed, head);
        want = head < cq->slots && next <= cq->posted ? NVMEARB_OK : NVMEARB_EARG;
        cq->consumed = want == NVMEARB_OK ? next : cq->consumed;
    }
    return is_right(nvmearb_ctrl_cq_head(CTRL, cqid, head), want);
}

/* Whether a command of this queue may be fetched. */
static int may_fetch(const struct sq *sq)
{
    return sq && sq->fetched < sq->submitted && sq->unposted < account.depths[sq - account.sqs] &&
           sq->waiting.n < NVMEARB_MAX_COUNT && sq->waiting.n + 1u < sq->slots && account.held < account.slots;
}

/* Whether a completion may be posted to this queue. */
static int may_post(const struct cq *cq)
{
    return cq && cq->ready.n && cq->posted + 1 < cq->consumed + cq->slots;
}

static uint16_t free_number(void)
{
    uint16_t number = 0;
    while (number < SLOTS && account.commands[number].state != NOT_HERE)
        number++;
    return number;
}

/* The entry of a slot is handed in: by the call that is given the slot, of one or of an array of one, or by that without. */
static uint32_t hands_in(uint16_t qid, uint16_t slot, const uint8_t *bytes, uint32_t cookie)
{
    uint32_t way = upto(3), told;
    size_t n = 0xeeee;
    if (way < 2)
        return way ? nvmearb_ctrl_fetched(CTRL, POOL, qid, bytes, cookie)
                   : nvmearb_ctrl_fetched_at(CTRL, POOL, qid, slot, bytes, cookie);
    told = nvmearb_ctrl_fetched_n_at(CTRL, POOL, qid, slot, bytes, NVMEARB_SQE_BYTES, &cookie, 1, &n);
    return n == (told == NVMEARB_OK ? 1 : 0) ? told : NVMEARB_ESTATE;
}

/* That of another slot isn't taken. */
static int refuses_other(uint16_t qid, uint16_t slot, uint32_t want)
{
    uint8_t bytes[NVMEARB_SQE_BYTES];
    uint16_t other = slot ^ (uint16_t)(1 + upto(0xffff));
    uint32_t cookie = 7;
    size_t n = want == NVMEARB_NONE ? 0 : 0xeeee, count = n;
    nvmearb_ctrl before = room.ctrl;
    draw_into(&seed, bytes, sizeof bytes);
    want = want == NVMEARB_OK ? NVMEARB_ESLOT : want;
    return is_right(nvmearb_ctrl_fetched_at(CTRL, POOL, qid, other, bytes, cookie), want) &&
           is_right(nvmearb_ctrl_fetched_n_at(CTRL, POOL, qid, other, bytes, sizeof bytes, &cookie, 1, &n), want) &&
           n == count && !memcmp(&before, CTRL, sizeof before);
}

static int fetches(void)
{
    uint16_t qid = draw_qid(), slot = 0xffff, number;
    uint8_t bytes[NVMEARB_SQE_BYTES];
    struct sq *sq = open_sq(qid);
    uint32_t want = may_fetch(sq) ? NVMEARB_OK : NVMEARB_NONE, cookie = (uint32_t)drawn(&seed);
    if (!is_right(nvmearb_ctrl_fetch(CTRL, qid, &slot), want))
        return 0;
    if (want == NVMEARB_OK && slot != sq->fetched % sq->slots)
        return 0;
    if (upto(4) == 0 && !refuses_other(qid, slot, want))
        return 0;
    draw_entry(qid, bytes);
    number = free_number();
    if (want == NVMEARB_OK) {
        struct command *it = &account.commands[number];
        *it = (struct command){.state = WAITING, .qid = qid, .cqid = sq->cqid, .cookie = cookie};
        memcpy(it->entry, bytes, sizeof bytes);
        push(&sq->waiting, number);
        sq->fetched++, sq->unposted++, account.held++;
    }
    want = is_right(hands_in(qid, slot, bytes, cookie), want);
    draw_into(&seed, bytes, sizeof bytes); /* (the controller has a copy) */
    return (int)want;
}

/* The place of the oldest command with this identifier that waits in an open I/O queue, or -1. */
static int waits_at(uint16_t qid, uint16_t cid)
{
    const struct sq *sq = qid ? open_sq(qid) : NULL;
    for (unsigned place = 0; sq && place < sq->waiting.n; place++) {
        const uint8_t *entry = account.commands[sq->waiting.at[place]].entry;
        if ((entry[2] | entry[3] << 8) == cid)
            return (int)place;
    }
    return -1;
}

/* Whether an admin command is the device's. */
static int is_devices(const nvmearb_sqe *it)
{
    uint8_t fid = (uint8_t)it->cdw10;
    int is_of_controller = fid == NVMEARB_FID_ARBITRATION || fid == NVMEARB_FID_NUMBER_OF_QUEUES;
    int selects = it->opcode == NVMEARB_OPC_GET_FEATURES && (it->cdw10 >> 8 & 7) != 0;
    if (it->flags & 3)
        return 0;
    switch (it->opcode) {
    case NVMEARB_OPC_DELETE_SQ:
    case NVMEARB_OPC_CREATE_SQ:
    case NVMEARB_OPC_DELETE_CQ:
    case NVMEARB_OPC_CREATE_CQ:
        return 0;
    case NVMEARB_OPC_ABORT:
        return account.opcodes[NVMEARB_OPC_ABORT] && waits_at((uint16_t)it->cdw10, (uint16_t)(it->cdw10 >> 16)) < 0;
    case NVMEARB_OPC_SET_FEATURES:
    case NVMEARB_OPC_GET_FEATURES:
        return account.fids[fid] && (!is_of_controller || selects);
    }
    return account.opcodes[it->opcode];
}

/* A command is picked: it waits no longer. */
static uint16_t pulled(struct sq *sq)
{
    uint16_t number = pull(&sq->waiting, 0);
    account.commands[number].state = PICKED;
    return number;
}

/* The deletion of a queue began, by this command. All commands that wait in the queue are aborted. */
static void begin_deletion(uint16_t qid, uint16_t number)
{
    struct sq *sq = &account.sqs[qid];
    while (sq->waiting.n)
        answered(pull(&sq->waiting, 0), (nvmearb_status){0, NVMEARB_SC_ABORTED_BY_DELETION}, 0);
    sq->deleting = number;
    tally.together += account.pending++ > 0;
}

/* The oldest command with this identifier that waits in a queue is aborted, if there is one. */
static int aborts(uint16_t qid, uint16_t cid)
{
    int place = waits_at(qid, cid);
    if (place < 0)
        return 0;
    uint16_t number = pull(&open_sq(qid)->waiting, (unsigned)place);
    tally.aborts++;
    answered(number, (nvmearb_status){0, NVMEARB_SC_ABORT_REQUESTED}, 0);
    return 1;
}

/* A step picked commands for the device, and nothing else. */
static int is_taking(const nvmearb_step *step, uint32_t kind, const nvmearb_pick *pick)
{
    static const nvmearb_answer none;
    const nvmearb_asked *asked = &step->asked;
    return step->kind == kind && !memcmp(&step->pick, pick, sizeof *pick) &&
           !memcmp(&step->answer, &none, sizeof none) && asked->address == 0 && asked->qsize == 0 &&
           asked->vector == 0 && asked->interrupts == 0;
}

/* A step carried out an admin command, which came to this. */
static int is_carrying(const nvmearb_step *step, const nvmearb_sqe *entry, const nvmearb_answer *answer)
{
    static const nvmearb_pick none;
    return step->kind == NVMEARB_CARRIED_OUT && !memcmp(&step->pick, &none, sizeof none) &&
           !memcmp(&step->answer, answer, sizeof *answer) && is_asked(&step->asked, entry, answer);
}

/* Counts what came of a Create. */
static void count_create(const nvmearb_answer *answer)
{
    int is_new = answer->verdict == NVMEARB_OPEN_SQ || answer->verdict == NVMEARB_OPEN_CQ;
    tally.created += answer->verdict == NVMEARB_OPEN_SQ;
    if (!account.is_anywhere)
        return;
    tally.lies_anywhere += (uint64_t)is_new;
    tally.most = account.creates > tally.most ? account.creates : tally.most;
    tally.bad_sizes += answer->status.sct == 1 && answer->status.sc == 0x02;
    tally.bad_offsets += answer->status.sct == 0 && answer->status.sc == 0x13;
    tally.bad_vectors += answer->status.sct == 1 && answer->status.sc == 0x08;
}

/* An admin command is carried out. */
static int carries_out(uint16_t number, const nvmearb_sqe *entry, const nvmearb_step *step)
{
    nvmearb_answer answer = answer_to(entry), by_table = answer;
    if (!account.is_anywhere)
        nvmearb_table_apply(&table, account.commands[number].entry, &by_table);
    if (!is_carrying(step, entry, &answer) || memcmp(&answer, &by_table, sizeof answer))
        return 0;
    count_create(&answer);
    if (answer.verdict == NVMEARB_BEGIN_DELETE) {
        begin_deletion(answer.qid, number);
        return 1;
    }
    if (answer.verdict == NVMEARB_SET_ARBITRATION)
        nvmearb_arbiter_set(&account.arbiter, answer.cdw11);
    if (answer.verdict == NVMEARB_ABORT)
        answer.dw0 = !aborts(answer.qid, answer.cid);
    answered(number, answer.status, answer.dw0);
    return 1;
}

/* A pick that is to be made is made. */
static int follows(const nvmearb_pick *pick, const nvmearb_step *step)
{
    struct sq *sq = open_sq(pick->qid);
    nvmearb_sqe entry;
    if (pick->qid == 0) {
        uint16_t number = pulled(sq);
        nvmearb_sqe_decode(account.commands[number].entry, &entry);
        if (!is_devices(&entry))
            return pick->n == 1 && carries_out(number, &entry, step);
        push(&account.picked, number);
        tally.passed++;
        tally.passed_aborts += entry.opcode == NVMEARB_OPC_ABORT;
        return is_taking(step, NVMEARB_PASSED, pick);
    }
    for (unsigned k = 0; k < pick->n; k++)
        push(&account.picked, pulled(sq));
    return is_taking(step, NVMEARB_PICKED, pick);
}

/* How many commands the device can take: any number, a few, or none. */
static uint16_t draw_most(void)
{
    switch (upto(8)) {
    case 0:
        return 0;
    case 1:
        return (uint16_t)upto(0x10000);
    case 2:
    case 3:
        return NVMEARB_NO_LIMIT;
    }
    return (uint16_t)(1 + upto(upto(4) ? 6 : 300));
}

/* Whether a call with another number of slots is refused. */
static int is_refused(void)
{
    nvmearb_step step;
    nvmearb_pick pick;
    size_t other = account.slots + 1 + upto(3);
    return is_right(nvmearb_ctrl_pick(CTRL, room.slots, other, draw_most(), &step), NVMEARB_EARG) &&
           is_right(nvmearb_ctrl_peek(CTRL, room.slots, other, &pick), NVMEARB_EARG);
}

/* What a pick with this room answers, where `next` is what a look at it with any room does. */
static uint32_t pick_answer(uint32_t next, uint16_t most)
{
    if (account.picked.n)
        return NVMEARB_BUSY;
    if (next != NVMEARB_OK)
        return next;
    return most == 0 ? NVMEARB_NOROOM : NVMEARB_OK;
}

/* A pick: n is the least of the room and of what is picked with any room. */
static int picks(void)
{
    nvmearb_seen seen[NVMEARB_MAX_QUEUES];
    nvmearb_pick pick = {0}, found = {0};
    nvmearb_step step;
    uint16_t most = draw_most();
    size_t n = observe(seen);
    uint32_t next = nvmearb_arbiter_peek(&account.arbiter, seen, n, &pick), want;
    if (!is_right(nvmearb_ctrl_peek(CTRL, POOL, &found), next) || memcmp(&pick, &found, sizeof pick))
        return 0;
    int is_cut = most < pick.n;
    pick.n = is_cut ? most : pick.n;
    want = pick_answer(next, most);
    if (!is_right(nvmearb_ctrl_pick(CTRL, POOL, most, &step), want))
        return 0;
    if (want != NVMEARB_OK)
        return 1;
    tally.cut += (uint64_t)is_cut;
    if (nvmearb_arbiter_pick_up_to(&account.arbiter, seen, n, most, &found) || memcmp(&pick, &found, sizeof pick))
        return 0;
    return follows(&pick, &step);
}

/* What the device was given is the command as it was fetched. */
static int is_given(const struct command *it, const nvmearb_command *found)
{
    nvmearb_sqe entry;
    nvmearb_sqe_decode(it->entry, &entry);
    return !memcmp(&entry, &found->entry, sizeof entry) && it->cookie == found->cookie;
}

/* The tag of a command that is taken: its slot is nobody's, and has the next generation. */
static int is_next_tag(uint32_t tag)
{
    uint32_t slot = NVMEARB_SLOT_OF(tag);
    if (slot >= account.slots || account.by_slot[slot] != NO_COMMAND)
        return 0;
    struct last_tag was = last_tags[slot];
    last_tags[slot] = (struct last_tag){1, tag};
    return !was.is_known || tag == was.tag + 0x10000;
}

static int takes(void)
{
    nvmearb_command found;
    uint16_t number = account.picked.n ? pull(&account.picked, 0) : NO_COMMAND;
    struct command *it = &account.commands[number % SLOTS];
    if (!is_right(nvmearb_ctrl_take(CTRL, POOL, &found), number < SLOTS ? NVMEARB_OK : NVMEARB_NONE))
        return 0;
    if (number == NO_COMMAND)
        return 1;
    if (!is_next_tag(found.tag))
        return 0;
    account.by_slot[NVMEARB_SLOT_OF(found.tag)] = number;
    it->state = OUT;
    it->has_tag = 1;
    it->tag = found.tag;
    return is_given(it, &found);
}

/* A tag: mostly the last one of a slot, else one of before or after it, or any number. */
static uint32_t draw_tag(uint32_t slot)
{
    uint32_t tag = slot < SLOTS && last_tags[slot].is_known ? last_tags[slot].tag : slot;
    switch (upto(16)) {
    case 0:
        return tag - 0x10000 * (1 + upto(4));
    case 1:
        return tag + 0x10000 * (1 + upto(0xffff));
    case 2:
        return (uint32_t)drawn(&seed);
    }
    return tag;
}

/* A device that answers in any order, under tags that it may not have, or has no longer, with any status. */
static int completes(void)
{
    uint32_t slot = upto(account.slots), tag;
    for (unsigned k = 0; k < 40 && account.by_slot[slot] == NO_COMMAND; k++)
        slot = upto(account.slots);
    tag = draw_tag(slot);
    uint16_t number = out_under(tag);
    nvmearb_status status = {(uint8_t)(upto(50) ? upto(8) : upto(256)), (uint8_t)upto(256)};
    uint32_t dw0 = (uint32_t)drawn(&seed), told, want;
    uint8_t flags = (uint8_t)(upto(50) ? upto(4) : upto(256)), is_flagged = (uint8_t)upto(2);
    int is_out = number != NO_COMMAND;
    want = status.sct > 7 || (is_flagged && flags > 3) ? NVMEARB_EARG : is_out ? NVMEARB_OK : NVMEARB_NONE;
    told = is_flagged ? nvmearb_ctrl_complete_with(CTRL, POOL, tag, &status, dw0, flags)
                     : nvmearb_ctrl_complete(CTRL, POOL, tag, &status, dw0);
    if (want == NVMEARB_OK)
        ready(number, status, dw0, is_flagged ? flags : 0);
    tally.flagged += want == NVMEARB_OK && is_flagged;
    tally.stale += want == NVMEARB_NONE && out_in(NVMEARB_SLOT_OF(tag)) != NO_COMMAND;
    return is_right(told, want);
}

static void put(uint8_t *bytes, uint32_t dword)
{
    for (int k = 0; k < 4; k++)
        bytes[k] = (uint8_t)(dword >> 8 * k);
}

/* The completion of a command, for the next slot of its ring. */
static void completion(const struct command *it, uint8_t *bytes)
{
    const struct sq *sq = &account.sqs[it->qid];
    const struct cq *cq = &account.cqs[it->cqid];
    uint32_t phase = !(cq->posted / cq->slots & 1), cid = it->entry[2] | (uint32_t)it->entry[3] << 8;
    uint32_t final = (it->flags & NVMEARB_DNR) != 0, more = (it->flags & NVMEARB_MORE) != 0;
    put(bytes, it->dw0);
    put(bytes + 4, 0);
    put(bytes + 8, (uint32_t)(sq->fetched % sq->slots) | (uint32_t)it->qid << 16);
    put(bytes + 12, cid | phase << 16 | (uint32_t)it->status.sc << 17 | (uint32_t)it->status.sct << 25 | more << 30 |
                        final << 31);
}

static int posts(void)
{
    uint16_t cqid = draw_qid(), number;
    struct cq *cq = open_cq(cqid);
    for (int k = 0; k < 8 && (!cq || cq->ready.n == 0); k++)
        cqid = draw_qid(), cq = open_cq(cqid);
    uint8_t bytes[NVMEARB_CQE_BYTES];
    nvmearb_post found;
    uint32_t want = may_post(cq) ? NVMEARB_OK : NVMEARB_NONE;
    if (!is_right(nvmearb_ctrl_post(CTRL, POOL, cqid, &found), want))
        return 0;
    if (want != NVMEARB_OK)
        return 1;
    number = pull(&cq->ready, 0);
    struct command *it = &account.commands[number];
    completion(it, bytes);
    if (memcmp(bytes, found.bytes, sizeof bytes) || found.cookie != it->cookie || found.slot != cq->posted % cq->slots)
        return 0;
    if (it->has_tag ? found.tag != it->tag : !may_be_last(found.tag))
        return 0;
    if (it->has_tag)
        account.by_slot[NVMEARB_SLOT_OF(it->tag)] = NO_COMMAND;
    cq->posted++;
    account.sqs[it->qid].unposted--, account.held--;
    it->state = NOT_HERE;
    return 1;
}

/* The deletion of the first queue whose commands are all posted is finished. */
static int finishes(void)
{
    uint16_t found = 0xffff, qid = 1;
    while (qid < QUEUES && (account.sqs[qid].state != CLOSING || account.sqs[qid].unposted))
        qid++;
    if (!is_right(nvmearb_ctrl_finish(CTRL, POOL, &found), qid < QUEUES ? NVMEARB_OK : NVMEARB_NONE))
        return 0;
    if (qid == QUEUES)
        return 1;
    answered(account.sqs[qid].deleting, success, 0);
    account.sqs[qid].state = NO_QUEUE;
    account.pending--;
    tally.deletions++;
    return found == qid && (account.is_anywhere || nvmearb_table_finish_delete(&table, qid) == NVMEARB_OK);
}

/* The tag of a command by its queue and its identifier: of two with one identifier it is either. */
static int names(void)
{
    uint16_t qid = draw_identifier(), cid = (uint16_t)upto(12);
    uint32_t want = NVMEARB_NONE, tag = 0xffff;
    int is_one = 0;
    for (unsigned number = 0; number < SLOTS; number++) {
        const struct command *it = &account.commands[number];
        if (it->state == OUT && it->qid == qid && (it->entry[2] | it->entry[3] << 8) == cid)
            want = NVMEARB_OK;
    }
    if (!is_right(nvmearb_ctrl_named(CTRL, POOL, qid, cid, &tag), want))
        return 0;
    if (want != NVMEARB_OK)
        return tag == 0xffff;
    for (unsigned number = 0; number < SLOTS; number++) {
        const struct command *it = &account.commands[number];
        is_one |= it->state == OUT && it->qid == qid && (it->entry[2] | it->entry[3] << 8) == cid && it->tag == tag;
    }
    tally.named++;
    return is_one;
}

/* What a pick is shown of a queue, and a command that waits there. */
static int sees(void)
{
    uint16_t qid = draw_qid(), n = (uint16_t)upto(4);
    const struct sq *sq = open_sq(qid);
    const struct command *it = sq && n < sq->waiting.n ? &account.commands[sq->waiting.at[n]] : NULL;
    uint8_t bytes[NVMEARB_SQE_BYTES];
    uint32_t cookie = 0;
    nvmearb_seen seen = {0, 0, 0};
    nvmearb_sqe entry;
    if (!is_right(nvmearb_ctrl_seen(CTRL, qid, &seen), sq ? NVMEARB_OK : NVMEARB_NONE))
        return 0;
    if (sq && (seen.qid != qid || seen.priority != sq->priority || seen.count != (sq->is_held ? 0 : sq->waiting.n)))
        return 0;
    if (!is_right(nvmearb_ctrl_waits(CTRL, POOL, qid, n, &entry, &cookie), it ? NVMEARB_OK : NVMEARB_NONE))
        return 0;
    if (!it)
        return 1;
    nvmearb_sqe_encode(&entry, bytes);
    return cookie == it->cookie && !memcmp(bytes, it->entry, sizeof bytes);
}

/* The look-ups of a queue and of a tag. */
static int looks(void)
{
    uint16_t qid = draw_qid(), region = 0, waiting = 0;
    uint32_t tag = draw_tag(upto(account.slots));
    const struct sq *sq = open_sq(qid);
    const struct cq *cq = open_cq(qid);
    uint16_t number = out_under(tag);
    nvmearb_command found;
    int is_out = number != NO_COMMAND;
    if (!is_right(nvmearb_ctrl_command(CTRL, POOL, tag, &found), is_out ? NVMEARB_OK : NVMEARB_NONE))
        return 0;
    if (is_out && (found.tag != tag || !is_given(&account.commands[number], &found)))
        return 0;
    if (!is_right(nvmearb_ctrl_waiting(CTRL, qid, &waiting), sq ? NVMEARB_OK : NVMEARB_NONE))
        return 0;
    if (!is_right(nvmearb_ctrl_sq(CTRL, qid, &region), sq ? NVMEARB_OK : NVMEARB_NONE))
        return 0;
    if (sq && (waiting != sq->waiting.n || region != sq->region))
        return 0;
    return is_right(nvmearb_ctrl_cq(CTRL, qid, &region), cq ? NVMEARB_OK : NVMEARB_NONE) &&
           (!cq || region == cq->region) && sees();
}

static int has_fetch(uint16_t qid)
{
    return may_fetch(open_sq(qid));
}

static int has_post(uint16_t cqid)
{
    return may_post(open_cq(cqid));
}

/* The queue with work whose turn comes next behind this one, or QUEUES. */
static uint16_t next_turn(uint16_t last, int (*has_work)(uint16_t))
{
    uint16_t qid = last < QUEUES ? last : QUEUES - 1;
    for (unsigned turn = 0; turn < QUEUES; turn++) {
        qid = (uint16_t)((qid + 1) % QUEUES);
        if (has_work(qid))
            return qid;
    }
    return QUEUES;
}

/* The next queue of which an entry is fetched, and the next one to which a completion is posted. */
static int takes_turns(void)
{
    uint16_t last = (uint16_t)(upto(20) ? upto(QUEUES) : upto(0x10000)), qid = last, cqid = last, slot = 0xffff;
    uint16_t from = next_turn(last, has_fetch), to = next_turn(last, has_post);
    if (!is_right(nvmearb_ctrl_next_fetch(CTRL, &qid, &slot), from < QUEUES ? NVMEARB_OK : NVMEARB_NONE) ||
        !is_right(nvmearb_ctrl_next_to_post(CTRL, POOL, &cqid), to < QUEUES ? NVMEARB_OK : NVMEARB_NONE))
        return 0;
    tally.turns += from < QUEUES && to < QUEUES;
    return qid == (from < QUEUES ? from : last) && cqid == (to < QUEUES ? to : last) &&
           slot == (from < QUEUES ? account.sqs[from].fetched % account.sqs[from].slots : 0xffff);
}

/* ---- All of it ---- */

/* One call, or a few that belong together. */
static int call(void)
{
    enum { IN_FRONT = 9 }; /* those before the device's */
    static int (*const calls[])(void) = {rings_tail, rings_tail, fetches, fetches,   fetches,   fetches, picks,
                                         takes,      takes,      looks,   completes, completes, posts,   posts,
                                         posts,      rings_head, finishes};
    uint32_t which = upto(10000);
    if (which == 0 && (!account.stirs || upto(4) == 0))
        return is_whole() && make();
    if (which < 100)
        return adds();
    if (which < 130)
        return announces();
    if (which < 160)
        return is_refused();
    if (which < 200)
        return is_whole();
    if (which < 400)
        return names();
    if (which < 450)
        return holds();
    if (which < 480)
        return sets_class();
    if (which < 500)
        return sets_depth();
    if (which < 600)
        return takes_turns();
    if (account.is_slow && which % 32)
        return calls[upto(IN_FRONT)]();
    return calls[upto(sizeof calls / sizeof *calls)]();
}

int main(int count, char **words)
{
    uint64_t most = count > 1 ? strtoull(words[1], NULL, 0) : 10000000, made = 0;
    seed = count > 2 ? strtoull(words[2], NULL, 0) : 53;
    int holds = make();
    for (; holds && made < most; made = tally.ok + tally.none + tally.busy + tally.full + tally.refused)
        holds = call();
    printf("%ju calls: %ju done, %ju none, %ju busy, %ju full, %ju refused\n", (uintmax_t)made, (uintmax_t)tally.ok,
           (uintmax_t)tally.none, (uintmax_t)tally.busy, (uintmax_t)tally.full, (uintmax_t)tally.refused);
    printf("%ju controllers, %ju of them over slots as they were, %ju completions under tags of others refused\n",
           (uintmax_t)tally.made, (uintmax_t)tally.again, (uintmax_t)tally.stale);
    printf("%ju queues created, %ju deleted, %ju commands aborted\n", (uintmax_t)tally.created,
           (uintmax_t)tally.deletions, (uintmax_t)tally.aborts);
    printf("%ju commands passed on, %ju of them Aborts, %ju named, %ju flagged\n", (uintmax_t)tally.passed,
           (uintmax_t)tally.passed_aborts, (uintmax_t)tally.named, (uintmax_t)tally.flagged);
    printf("%ju queues held, %ju classes and %ju depths set, %ju picks cut to the room\n", (uintmax_t)tally.held,
           (uintmax_t)tally.classed, (uintmax_t)tally.deep, (uintmax_t)tally.cut);
    printf("%ju controllers with queues anywhere: %ju Creates accepted, at most %ju of one; refused by size %ju, by "
           "address %ju, by vector %ju\n", (uintmax_t)tally.anywhere, (uintmax_t)tally.lies_anywhere,
           (uintmax_t)tally.most, (uintmax_t)tally.bad_sizes, (uintmax_t)tally.bad_offsets,
           (uintmax_t)tally.bad_vectors);
    CHECK(holds && is_whole() && made >= most);
    CHECK(tally.busy && tally.full && tally.created && tally.deletions && tally.together && tally.aborts);
    CHECK(tally.most > NVMEARB_MAX_REGIONS && tally.bad_sizes && tally.bad_offsets && tally.bad_vectors);
    CHECK(tally.passed && tally.flagged && tally.passed_aborts && tally.named && tally.held && tally.classed);
    CHECK(tally.cut && tally.deep && tally.again && tally.stale && tally.turns && tally.others);
    return told();
}
