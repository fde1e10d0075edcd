/* SPDX-License-Identifier: MIT */
/* What is drawn: streams of random words, times, gaps, operations and places. */
#include "sim.h"

/* The most words of a run behind its first, runs of an exponential time, and words that a uniform number rejects. */
#define TURNS 64

static uint64_t rotated(uint64_t word, int by)
{
    return word << by | word >> (64 - by);
}

/* xoshiro256++. */
static uint64_t next_word(stream *it)
{
    uint64_t *s = it->words, word = rotated(s[0] + s[3], 23) + s[0], t = s[1] << 17;
    s[2] ^= s[0];
    s[3] ^= s[1];
    s[1] ^= s[2];
    s[0] ^= s[3];
    s[2] ^= t;
    s[3] = rotated(s[3], 45);
    return word;
}

/* SplitMix64. */
static uint64_t mixed(uint64_t *state)
{
    uint64_t z = *state += 0x9e3779b97f4a7c15;
    z = (z ^ z >> 30) * 0xbf58476d1ce4e5b9;
    z = (z ^ z >> 27) * 0x94d049bb133111eb;
    return z ^ z >> 31;
}

static void jump(stream *it, const uint64_t by[4])
{
    stream sum = {{0, 0, 0, 0}};
    for (int bit = 0; bit < 256; bit++) {
        for (int word = 0; word < 4 && by[bit / 64] >> bit % 64 & 1; word++)
            sum.words[word] ^= it->words[word];
        next_word(it);
    }
    *it = sum;
}

stream sim_stream_of(uint64_t seed, uint32_t qid, enum purpose purpose)
{
    static const uint64_t over_2_128[4] = {0x180ec6d33cfd0aba, 0xd5a61266f0c9392c, 0xa9582618e03fc9aa, 0x39abdc4529b1661c};
    static const uint64_t over_2_192[4] = {0x76e15d3efefdcbbf, 0xc5004e441c522fb3, 0x77710069854ee241, 0x39109bb02acbe635};
    stream it;
    for (int word = 0; word < 4; word++)
        it.words[word] = mixed(&seed);
    for (uint32_t queue = 0; queue < qid; queue++)
        jump(&it, over_2_192);
    for (uint32_t before = 0; before < purpose; before++)
        jump(&it, over_2_128);
    return it;
}

/* A number below `bound`, each equally likely. */
static uint64_t uniform(stream *it, uint64_t bound)
{
    uint64_t accepted_below = UINT64_MAX - UINT64_MAX % bound;
    for (int turn = 0; turn < TURNS; turn++) {
        uint64_t word = next_word(it);
        if (word < accepted_below)
            return word % bound;
    }
    return next_word(it) % bound;
}

/* Whether the falling run of words that begins with this one is odd. */
static int is_odd_run(stream *it, uint64_t last)
{
    int odd = 1;
    for (int turn = 0; turn < TURNS; turn++) {
        uint64_t word = next_word(it);
        if (word >= last)
            return odd;
        last = word;
        odd = !odd;
    }
    return odd;
}

/* An exponential time, by von Neumann's comparisons. */
static uint64_t exponential(stream *it, uint64_t mean)
{
    for (uint64_t turn = 0; turn < TURNS; turn++) {
        uint64_t first = next_word(it);
        if (is_odd_run(it, first))
            return turn * mean + (uint64_t)((unsigned __int128)first * mean >> 64);
    }
    return TURNS * mean;
}

/* The time behind a gap that passes in on phases alone. 0 where it is 2^64 or more. */
static int behind_phases(const nvmearb_sim_queue *of, uint64_t time, uint64_t gap, uint64_t *next)
{
    uint64_t cycle = of->on + of->off, rest = time % cycle, length, before;
    uint64_t passed = time / cycle * of->on + (rest < of->on ? rest : of->on);
    return !__builtin_add_overflow(passed, gap, &length) && !__builtin_mul_overflow(length / of->on, cycle, &before) &&
           !__builtin_add_overflow(before, length % of->on, next);
}

int sim_draw_next(queue *queue, uint64_t time, uint64_t *next)
{
    const nvmearb_sim_queue *of = &queue->of;
    if (of->arrivals == NVMEARB_SIM_EVERY || of->arrivals == NVMEARB_SIM_CLOSED)
        return !__builtin_add_overflow(time, of->gap, next);
    uint64_t gap = exponential(&queue->arrivals, of->gap);
    if (of->arrivals == NVMEARB_SIM_BURSTS)
        return behind_phases(of, time, gap, next);
    return !__builtin_add_overflow(time, gap, next);
}

static uint16_t draw_operation(queue *queue)
{
    const nvmearb_sim_queue *of = &queue->of;
    uint64_t before_flushes = (uint64_t)of->reads + of->writes;
    uint64_t number = uniform(&queue->operations, before_flushes + of->flushes);
    if (number < of->reads)
        return NVMEARB_OPC_READ;
    return number < before_flushes ? NVMEARB_OPC_WRITE : NVMEARB_OPC_FLUSH;
}

static uint64_t draw_block(queue *queue, uint64_t size)
{
    uint64_t blocks = queue->of.blocks, block;
    if (queue->of.sequential)
        block = queue->end > size - blocks ? 0 : queue->end;
    else
        block = uniform(&queue->places, size / blocks) * blocks;
    queue->end = block + blocks;
    return block;
}

static uint64_t draw_time(stream *it, const nvmearb_sim_service *of)
{
    switch (of->spread) {
    case NVMEARB_SIM_EXPONENTIAL:
        return exponential(it, of->time);
    case NVMEARB_SIM_TWO_POINTS:
        return uniform(it, of->one_in) < 1 ? of->rare : of->time;
    default:
        return of->time;
    }
}

int sim_draw_command(queue *queue, uint64_t size, nvmearb_sim_command *told)
{
    const nvmearb_sim_queue *of = &queue->of;
    uint64_t of_blocks = 0;
    told->operation = draw_operation(queue);
    if (told->operation == NVMEARB_OPC_FLUSH) {
        told->service = draw_time(&queue->services, &of->flush);
        return 1;
    }
    const nvmearb_sim_service *service = told->operation == NVMEARB_OPC_READ ? &of->read : &of->write;
    told->block = draw_block(queue, size);
    told->blocks = of->blocks;
    uint64_t time = draw_time(&queue->services, service);
    return !__builtin_mul_overflow(service->per_block, (uint64_t)of->blocks, &of_blocks) &&
           !__builtin_add_overflow(time, of_blocks, &told->service);
}
