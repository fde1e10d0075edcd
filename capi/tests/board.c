/* The board beside an arbiter that is shown the same queues, and random calls on random states. */
#include <nvmearb.h>

#include <string.h>

#include "tell.h"

_Static_assert(sizeof(nvmearb_board) == 344, "nvmearb_board");
_Static_assert(offsetof(nvmearb_board, arbiter) == 304, "nvmearb_board");

static void open_and_close(void)
{
    nvmearb_board board;
    nvmearb_pick pick;
    CHECK(nvmearb_board_init(&board, NVMEARB_WEIGHTED, 0x03010001) == NVMEARB_OK);
    CHECK(nvmearb_board_open(&board, 0, NVMEARB_HIGH) == NVMEARB_EARG);
    CHECK(nvmearb_board_open(&board, 1, NVMEARB_ADMIN) == NVMEARB_EARG);
    CHECK(nvmearb_board_open(&board, 65, NVMEARB_HIGH) == NVMEARB_EARG);
    CHECK(nvmearb_board_open(&board, 1, 5) == NVMEARB_EARG);
    CHECK(nvmearb_board_open(&board, 1, NVMEARB_HIGH) == NVMEARB_OK);
    CHECK(nvmearb_board_open(&board, 1, NVMEARB_HIGH) == NVMEARB_EARG);
    CHECK(nvmearb_board_came(&board, 2) == NVMEARB_EARG);
    CHECK(nvmearb_board_went(&board, 2) == NVMEARB_EARG && nvmearb_board_went(&board, 1) == NVMEARB_EARG);
    CHECK(nvmearb_board_pick(&board, &pick) == NVMEARB_NONE);
    for (int k = 0; k < NVMEARB_MAX_COUNT; k++) {
        CHECK(nvmearb_board_came(&board, 1) == NVMEARB_OK);
    }
    CHECK(nvmearb_board_came(&board, 1) == NVMEARB_EARG);
    CHECK(nvmearb_board_went(&board, 1) == NVMEARB_OK);
    CHECK(nvmearb_board_came(&board, 1) == NVMEARB_OK);
    CHECK(nvmearb_board_came(&board, 1) == NVMEARB_EARG);
    CHECK(nvmearb_board_pick(&board, &pick) == NVMEARB_OK);
    CHECK(pick.qid == 1 && pick.n == 2 && pick.fresh == 0);
    CHECK(nvmearb_board_came_n(&board, 1, 3) == NVMEARB_EARG && nvmearb_board_came_n(&board, 2, 0) == NVMEARB_EARG);
    CHECK(nvmearb_board_came_n(&board, 1, 65535) == NVMEARB_EARG);
    CHECK(nvmearb_board_came_n(&board, 1, 2) == NVMEARB_OK && nvmearb_board_came_n(&board, 1, 0) == NVMEARB_OK);
    CHECK(nvmearb_board_came_n(&board, 1, 1) == NVMEARB_EARG);
    CHECK(nvmearb_board_close(&board, 1) == NVMEARB_OK);
    CHECK(nvmearb_board_close(&board, 1) == NVMEARB_EARG);
    CHECK(nvmearb_board_close(&board, 65) == NVMEARB_EARG);
    CHECK(nvmearb_board_pick(&board, &pick) == NVMEARB_NONE);
    memset(&board, 0, sizeof board);
    CHECK(nvmearb_board_open(&board, 1, NVMEARB_HIGH) == NVMEARB_ESTATE);
    CHECK(nvmearb_board_close(&board, 1) == NVMEARB_ESTATE);
    CHECK(nvmearb_board_came(&board, 1) == NVMEARB_ESTATE);
    CHECK(nvmearb_board_came_n(&board, 1, 0) == NVMEARB_ESTATE);
    CHECK(nvmearb_board_went(&board, 1) == NVMEARB_ESTATE);
    CHECK(nvmearb_board_pick(&board, &pick) == NVMEARB_ESTATE);
    CHECK(nvmearb_board_peek(&board, &pick) == NVMEARB_ESTATE);
    CHECK(nvmearb_board_set(&board, 1) == NVMEARB_ESTATE);
}

/* What is over a limit still waits; a limit of 0 is refused. */
static void up_to_a_limit(void)
{
    nvmearb_board board, before;
    nvmearb_pick pick = {0xeeee, 0xeeee, 0xeeee};
    CHECK(nvmearb_board_init(&board, NVMEARB_WEIGHTED, 0x03010007) == NVMEARB_OK);
    CHECK(nvmearb_board_open(&board, 1, NVMEARB_HIGH) == NVMEARB_OK);
    CHECK(nvmearb_board_pick_up_to(&board, 1, &pick) == NVMEARB_NONE);
    CHECK(nvmearb_board_pick_up_to(&board, 0, &pick) == NVMEARB_EARG);
    CHECK(nvmearb_board_came_n(&board, 1, NVMEARB_MAX_COUNT) == NVMEARB_OK);
    memcpy(&before, &board, sizeof before);
    CHECK(nvmearb_board_pick_up_to(&board, 0, &pick) == NVMEARB_EARG && pick.n == 0xeeee);
    CHECK(memcmp(&before, &board, sizeof before) == 0);
    CHECK(nvmearb_board_pick_up_to(&board, 1, &pick) == NVMEARB_OK);
    CHECK(pick.qid == 1 && pick.n == 1 && pick.fresh == 0);
    CHECK(nvmearb_board_came_n(&board, 1, 2) == NVMEARB_EARG && nvmearb_board_came(&board, 1) == NVMEARB_OK);
    CHECK(nvmearb_board_pick_up_to(&board, NVMEARB_NO_LIMIT, &pick) == NVMEARB_OK);
    CHECK(pick.n == 3 && pick.fresh == 0); /* the rest of the weight */
    memset(&board, 0, sizeof board);
    CHECK(nvmearb_board_pick_up_to(&board, 0, &pick) == NVMEARB_ESTATE);
}

/* A board and an arbiter, over many steps of one kind or another. */
static void beside_an_arbiter(uint32_t mechanism)
{
    nvmearb_board board;
    nvmearb_arbiter arbiter;
    uint16_t priorities[NVMEARB_MAX_QUEUES] = {0}, counts[NVMEARB_MAX_QUEUES] = {0};
    int is_open[NVMEARB_MAX_QUEUES] = {0};
    uint64_t state = mechanism;
    unsigned wrong = 0, picked = 0;
    CHECK(nvmearb_board_init(&board, mechanism, 0x03010002) == NVMEARB_OK);
    CHECK(nvmearb_arbiter_init(&arbiter, mechanism, 0x03010002) == NVMEARB_OK);
    for (int step = 0; step < 300000; step++) {
        uint64_t word = drawn(&state);
        uint16_t qid = (uint16_t)(word >> 8) % NVMEARB_MAX_QUEUES;
        uint16_t priority = qid ? (uint16_t)(1 + (word >> 32) % 4) : NVMEARB_ADMIN;
        nvmearb_seen seen[NVMEARB_MAX_QUEUES];
        nvmearb_pick a, b;
        size_t count = 0;
        uint32_t told;
        switch (word % 64) {
        case 0:
            wrong += nvmearb_board_open(&board, qid, priority) != (is_open[qid] ? NVMEARB_EARG : NVMEARB_OK);
            if (!is_open[qid]) {
                is_open[qid] = 1, priorities[qid] = priority, counts[qid] = 0;
            }
            break;
        case 1:
            wrong += nvmearb_board_close(&board, qid) != (is_open[qid] ? NVMEARB_OK : NVMEARB_EARG);
            is_open[qid] = 0;
            break;
        case 3:
            told = is_open[qid] && counts[qid] ? NVMEARB_OK : NVMEARB_EARG;
            wrong += nvmearb_board_went(&board, qid) != told;
            counts[qid] = (uint16_t)(counts[qid] - (told == NVMEARB_OK));
            break;
        case 2:
            wrong += nvmearb_board_set(&board, (uint32_t)(word >> 16)) != NVMEARB_OK;
            wrong += nvmearb_arbiter_set(&arbiter, (uint32_t)(word >> 16)) != NVMEARB_OK;
            break;
        default:
            if (word % 4 == 1) {
                uint16_t n = (uint16_t)(word >> 40) % 4;
                told = is_open[qid] && counts[qid] + n <= NVMEARB_MAX_COUNT ? NVMEARB_OK : NVMEARB_EARG;
                wrong += nvmearb_board_came_n(&board, qid, n) != told;
                counts[qid] = (uint16_t)(counts[qid] + (told == NVMEARB_OK ? n : 0));
                break;
            }
            if (word % 4) {
                told = is_open[qid] && counts[qid] < NVMEARB_MAX_COUNT ? NVMEARB_OK : NVMEARB_EARG;
                wrong += nvmearb_board_came(&board, qid) != told;
                counts[qid] = (uint16_t)(counts[qid] + (told == NVMEARB_OK));
                break;
            }
            for (uint16_t q = 0; q < NVMEARB_MAX_QUEUES; q++) {
                if (is_open[q]) {
                    seen[count++] = (nvmearb_seen){q, priorities[q], counts[q]};
                }
            }
            if (word >> 41 & 1) {
                told = nvmearb_arbiter_pick(&arbiter, seen, count, &a);
                wrong += nvmearb_board_pick(&board, &b) != told;
            } else {
                uint16_t limit = (uint16_t)(1 + (word >> 42) % 4);
                told = nvmearb_arbiter_pick_up_to(&arbiter, seen, count, limit, &a);
                wrong += nvmearb_board_pick_up_to(&board, limit, &b) != told;
            }
            if (told == NVMEARB_OK) {
                picked++;
                wrong += memcmp(&a, &b, sizeof a) != 0;
                counts[a.qid] = (uint16_t)(counts[a.qid] - a.n);
            }
        }
    }
    CHECK(wrong == 0);
    CHECK(picked > 10000);
}

/* A million calls on random states. Half of them have a mark, and half of these are drawn bytes behind it. */
static void random_calls(void)
{
    uint64_t state = 3;
    unsigned wrong = 0, picked = 0;
    nvmearb_board made;
    CHECK(nvmearb_board_init(&made, NVMEARB_WEIGHTED, 0) == NVMEARB_OK);
    CHECK((made.mark & 0xffffff) == (NVMEARB_VERSION & 0xffff00));
    for (int round = 0; round < 1000000; round++) {
        nvmearb_board board, before;
        nvmearb_pick pick = {0xeeee, 0xeeee, 0xeeee};
        uint64_t word = drawn(&state);
        uint16_t qid = (uint16_t)(word >> 16) % 20;
        uint32_t told;
        memset(&board, 0, sizeof board);
        draw_into(&state, &board, sizeof board);
        if (word >> 63) {
            board.mark = made.mark;
            board.arbiter.mechanism = 1 + board.arbiter.mechanism % 2;
            for (int k = 0; k < 6; k++) {
                board.arbiter.last[k] %= 18;
            }
        }
        if (word >> 62 & 1) {
            for (int k = 0; k < NVMEARB_MAX_QUEUES; k++) {
                board.queues.places[k].priority %= 7;
                board.queues.places[k].count %= 512;
            }
        }
        memcpy(&before, &board, sizeof before);
        switch (word % 8) {
        case 0:
            told = nvmearb_board_open(&board, qid, (uint16_t)(word >> 32) % 7);
            break;
        case 1:
            told = nvmearb_board_close(&board, qid);
            break;
        case 2:
            told = nvmearb_board_came(&board, qid);
            break;
        case 3:
            told = nvmearb_board_set(&board, (uint32_t)word);
            break;
        case 4:
            told = nvmearb_board_went(&board, qid);
            break;
        case 5:
            told = nvmearb_board_peek(&board, &pick);
            break;
        case 6:
            told = nvmearb_board_came_n(&board, qid, (uint16_t)(word >> 32) % 300);
            break;
        default:
            told = word >> 32 & 1 ? nvmearb_board_pick(&board, &pick)
                                  : nvmearb_board_pick_up_to(&board, (uint16_t)(1 + (word >> 33) % 300), &pick);
        }
        picked += word % 8 == 7 && told == NVMEARB_OK && pick.n <= NVMEARB_MAX_COUNT && pick.qid < NVMEARB_MAX_QUEUES;
        wrong += told > NVMEARB_ESTATE;
        wrong += (told == NVMEARB_ESTATE) != !(word >> 63);
        if (told != NVMEARB_OK) {
            wrong += pick.n != 0xeeee || memcmp(&before, &board, sizeof before) != 0;
        }
    }
    CHECK(wrong == 0);
    CHECK(picked > 10000);
}

int main(void)
{
    open_and_close();
    up_to_a_limit();
    beside_an_arbiter(NVMEARB_ROUND_ROBIN);
    beside_an_arbiter(NVMEARB_WEIGHTED);
    random_calls();
    return told();
}
