/* The arbiter: worked runs, and a million random calls on random states. */
#include <nvmearb.h>

#include <string.h>

#include "tell.h"

_Static_assert(sizeof(nvmearb_arbiter) == 40, "nvmearb_arbiter");
_Static_assert(sizeof(nvmearb_seen) == 6, "nvmearb_seen");
_Static_assert(sizeof(nvmearb_pick) == 6, "nvmearb_pick");

/* Lets an arbiter pick until nothing waits, and compares with the picks that are wanted. */
static void plays(nvmearb_arbiter *arbiter, nvmearb_seen *seen, size_t count, const nvmearb_pick *want, size_t picks)
{
    nvmearb_pick ahead, pick;
    for (size_t k = 0; k < picks; k++) {
        CHECK(nvmearb_arbiter_peek(arbiter, seen, count, &ahead) == NVMEARB_OK);
        CHECK(nvmearb_arbiter_pick(arbiter, seen, count, &pick) == NVMEARB_OK);
        CHECK(memcmp(&ahead, &pick, sizeof pick) == 0);
        CHECK(pick.qid == want[k].qid && pick.n == want[k].n && pick.fresh == want[k].fresh);
        for (size_t i = 0; i < count; i++) {
            if (seen[i].qid == pick.qid) {
                seen[i].count = (uint16_t)(seen[i].count - pick.n);
            }
        }
    }
}

static void round_robin_four_queues(void)
{
    nvmearb_seen seen[] = {{0, NVMEARB_ADMIN, 2}, {1, NVMEARB_HIGH, 5}, {2, NVMEARB_LOW, 0}, {3, NVMEARB_MEDIUM, 1}};
    static const nvmearb_pick want[] = {{0, 1, 0}, {1, 1, 0}, {3, 1, 0}, {0, 1, 0},
                                        {1, 1, 0}, {1, 1, 0}, {1, 1, 0}, {1, 1, 0}};
    nvmearb_arbiter arbiter;
    nvmearb_pick pick;
    CHECK(nvmearb_arbiter_init(&arbiter, NVMEARB_ROUND_ROBIN, 0) == NVMEARB_OK);
    plays(&arbiter, seen, 4, want, 8);
    CHECK(nvmearb_arbiter_pick(&arbiter, seen, 4, &pick) == NVMEARB_NONE);
    CHECK(nvmearb_arbiter_pick(&arbiter, seen, 0, &pick) == NVMEARB_NONE);
}

static void weighted_two_rounds(void)
{
    nvmearb_seen seen[] = {{1, NVMEARB_HIGH, 5}, {2, NVMEARB_HIGH, 5}, {3, NVMEARB_MEDIUM, 5}, {4, NVMEARB_LOW, 5}};
    static const nvmearb_pick want[] = {{1, 2, 0}, {2, 2, 0}, {3, 2, 0}, {4, 1, 0}, {1, 2, 1}, {2, 2, 0}, {3, 2, 0},
                                        {4, 1, 0}, {1, 1, 1}, {2, 1, 0}, {3, 1, 0}, {4, 1, 0}, {4, 1, 1}, {4, 1, 1}};
    nvmearb_arbiter arbiter;
    nvmearb_pick pick;
    CHECK(nvmearb_arbiter_init(&arbiter, NVMEARB_WEIGHTED, 0x03010001) == NVMEARB_OK);
    plays(&arbiter, seen, 4, want, 14);
    CHECK(nvmearb_arbiter_pick(&arbiter, seen, 4, &pick) == NVMEARB_NONE);
}

static void urgent_cuts_in(void)
{
    nvmearb_seen seen[] = {{1, NVMEARB_HIGH, 5}, {2, NVMEARB_HIGH, 5}, {3, NVMEARB_MEDIUM, 5}, {4, NVMEARB_LOW, 5},
                           {5, NVMEARB_URGENT, 0}};
    static const nvmearb_pick before[] = {{1, 2, 0}, {2, 2, 0}};
    static const nvmearb_pick after[] = {{5, 2, 0}, {5, 1, 0}, {3, 2, 0}, {4, 1, 0}, {1, 2, 1}};
    nvmearb_arbiter arbiter;
    CHECK(nvmearb_arbiter_init(&arbiter, NVMEARB_WEIGHTED, 0x03010001) == NVMEARB_OK);
    plays(&arbiter, seen, 5, before, 2);
    seen[4].count = 3;
    plays(&arbiter, seen, 5, after, 5);
}

static void settings_start_a_round(void)
{
    nvmearb_seen seen[] = {{1, NVMEARB_HIGH, 9}, {2, NVMEARB_HIGH, 9}};
    static const nvmearb_pick first[] = {{1, 1, 0}};
    static const nvmearb_pick then[] = {{2, 1, 0}, {1, 1, 1}};
    nvmearb_arbiter arbiter;
    CHECK(nvmearb_arbiter_init(&arbiter, NVMEARB_WEIGHTED, 0) == NVMEARB_OK);
    plays(&arbiter, seen, 2, first, 1);
    CHECK(nvmearb_arbiter_set(&arbiter, 0x00000001) == NVMEARB_OK);
    plays(&arbiter, seen, 2, then, 2);
}

static void refused(void)
{
    static const nvmearb_seen bad[][2] = {
        {{1, NVMEARB_HIGH, 1}, {1, NVMEARB_HIGH, 1}}, {{2, NVMEARB_HIGH, 1}, {1, NVMEARB_HIGH, 1}},
        {{0, NVMEARB_HIGH, 1}, {1, NVMEARB_HIGH, 1}}, {{1, NVMEARB_ADMIN, 1}, {2, NVMEARB_HIGH, 1}},
        {{1, NVMEARB_HIGH, 1}, {65, NVMEARB_HIGH, 1}}, {{1, NVMEARB_HIGH, 257}, {2, NVMEARB_HIGH, 1}},
        {{1, 5, 1}, {2, NVMEARB_HIGH, 1}},
    };
    nvmearb_seen many[NVMEARB_MAX_QUEUES + 1] = {{0, 0, 0}};
    nvmearb_arbiter arbiter, kept;
    nvmearb_pick pick;
    CHECK(nvmearb_arbiter_init(&arbiter, 0, 0) == NVMEARB_EARG);
    CHECK(nvmearb_arbiter_init(&arbiter, 3, 0) == NVMEARB_EARG);
    CHECK(nvmearb_arbiter_init(&arbiter, NVMEARB_WEIGHTED, 0) == NVMEARB_OK);
    memcpy(&kept, &arbiter, sizeof kept);
    for (size_t k = 0; k < sizeof bad / sizeof bad[0]; k++) {
        CHECK(nvmearb_arbiter_pick(&arbiter, bad[k], 2, &pick) == NVMEARB_EARG);
        CHECK(nvmearb_arbiter_pick_up_to(&arbiter, bad[k], 2, 1, &pick) == NVMEARB_EARG);
    }
    CHECK(nvmearb_arbiter_pick(&arbiter, many, NVMEARB_MAX_QUEUES + 1, &pick) == NVMEARB_EARG);
    CHECK(memcmp(&kept, &arbiter, sizeof kept) == 0);
    memset(&arbiter, 0, sizeof arbiter);
    CHECK(nvmearb_arbiter_pick(&arbiter, many, 0, &pick) == NVMEARB_ESTATE);
    CHECK(nvmearb_arbiter_peek(&arbiter, many, 0, &pick) == NVMEARB_ESTATE);
    CHECK(nvmearb_arbiter_set(&arbiter, 0) == NVMEARB_ESTATE);
}

/* As many as there is room for: the rest of a burst waits for the next turn of its queue, and the credit stays. */
static void up_to_a_limit(void)
{
    /* burst 8; the weights are 4, 2 and 1 */
    static const nvmearb_pick want[] = {{1, 1, 0}, {1, 3, 0}, {2, 1, 0}, {2, 1, 0}, {3, 1, 0}, {1, 4, 1}};
    static const uint16_t limits[] = {1, 4, 1, NVMEARB_NO_LIMIT, 5, NVMEARB_MAX_COUNT};
    static const nvmearb_seen seen[] = {{1, NVMEARB_HIGH, 9}, {2, NVMEARB_MEDIUM, 9}, {3, NVMEARB_LOW, 9}};
    nvmearb_arbiter arbiter, kept;
    nvmearb_pick pick, none;
    memset(&none, 0xee, sizeof none);
    pick = none;
    CHECK(nvmearb_arbiter_init(&arbiter, NVMEARB_WEIGHTED, 0x03010003) == NVMEARB_OK);
    memcpy(&kept, &arbiter, sizeof kept);
    CHECK(nvmearb_arbiter_pick_up_to(&arbiter, seen, 3, 0, &pick) == NVMEARB_EARG);
    CHECK(nvmearb_arbiter_pick_up_to(&arbiter, seen, 0, 0, &pick) == NVMEARB_EARG);
    CHECK(nvmearb_arbiter_pick_up_to(&arbiter, seen, 0, 1, &pick) == NVMEARB_NONE);
    CHECK(memcmp(&kept, &arbiter, sizeof kept) == 0 && memcmp(&pick, &none, sizeof pick) == 0);
    for (size_t k = 0; k < sizeof want / sizeof *want; k++) {
        CHECK(nvmearb_arbiter_pick_up_to(&arbiter, seen, 3, limits[k], &pick) == NVMEARB_OK);
        CHECK(memcmp(&pick, &want[k], sizeof pick) == 0);
    }
    memset(&arbiter, 0, sizeof arbiter);
    CHECK(nvmearb_arbiter_pick_up_to(&arbiter, seen, 3, 0, &pick) == NVMEARB_ESTATE);
}

/* A pick, of which a drawn word says whether and how it is limited, does what was told ahead, but for its limit. */
static int is_pick(nvmearb_arbiter *arbiter, const nvmearb_seen *seen, size_t count, uint64_t word, uint32_t told,
                   nvmearb_pick ahead, nvmearb_pick *pick)
{
    uint16_t limit = word & 2 ? NVMEARB_NO_LIMIT : (uint16_t)(1 + (word >> 30) % 40);
    if (word & 1)
        return nvmearb_arbiter_pick(arbiter, seen, count, pick) == told && !memcmp(&ahead, pick, sizeof ahead);
    if (told == NVMEARB_OK && ahead.n > limit)
        ahead.n = limit;
    return nvmearb_arbiter_pick_up_to(arbiter, seen, count, limit, pick) == told && !memcmp(&ahead, pick, sizeof ahead);
}

/* A million rounds on random states, queues and lengths. */
static void random_calls(void)
{
    uint64_t state = 2;
    unsigned wrong = 0, picked = 0;
    for (int round = 0; round < 1000000; round++) {
        nvmearb_arbiter arbiter, before;
        nvmearb_seen seen[20];
        nvmearb_pick ahead = {0xeeee, 0xeeee, 0xeeee}, pick = {0xeeee, 0xeeee, 0xeeee};
        uint64_t word = drawn(&state);
        size_t count = word % 20;
        uint32_t told;
        memset(&arbiter, 0, sizeof arbiter);
        draw_into(&state, &arbiter, sizeof arbiter);
        draw_into(&state, seen, sizeof seen);
        if (word >> 60) {
            arbiter.mechanism = 1 + (uint32_t)(word >> 59 & 1);
            for (int k = 0; k < 6; k++) {
                arbiter.last[k] %= 18;
            }
            for (int k = 0; k < 3; k++) {
                arbiter.used[k] %= 300;
            }
            for (size_t i = 0; i < 20; i++) {
                seen[i].qid = (uint16_t)i;
                seen[i].priority = i ? 1 + seen[i].priority % 4 : 0;
                seen[i].count %= 256;
            }
        }
        memcpy(&before, &arbiter, sizeof before);
        told = nvmearb_arbiter_peek(&arbiter, seen, count, &ahead);
        wrong += told > NVMEARB_ESTATE;
        wrong += !is_pick(&arbiter, seen, count, word, told, ahead, &pick);
        if (told == NVMEARB_OK) {
            picked++;
            wrong += pick.qid >= count || pick.n < 1 || pick.n > seen[pick.qid].count || pick.fresh > 1;
            wrong += nvmearb_arbiter_set(&arbiter, (uint32_t)word) != NVMEARB_OK;
        } else {
            wrong += pick.n != 0xeeee || memcmp(&before, &arbiter, sizeof before) != 0;
        }
    }
    CHECK(wrong == 0);
    CHECK(picked > 500000);
}

int main(void)
{
    round_robin_four_queues();
    weighted_two_rounds();
    urgent_cuts_in();
    settings_start_a_round();
    refused();
    up_to_a_limit();
    random_calls();
    return told();
}
