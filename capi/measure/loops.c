/* SPDX-License-Identifier: MIT */
/*
 * Compares the loop over the library with the loop by hand (loop.c), by the time of a command: the least of nine runs of
 * COUNT commands, which take turns. All that comes out must be the same, or the program fails.
 *
 *   loops COUNT [counted]
 *
 * `counted` is for `instructions`: one run of each, with a line that tells how many commands went through.
 */
#include "loop.h"

#include <nvmearb.h>

#include <inttypes.h>
#include <stdio.h>
#include <stdlib.h>
#include <string.h>
#include <time.h>

#define RUNS 9

static const loop *const both[2] = {&loop_by_hand, &loop_from_c};

void loop_fail(const char *where, const char *why)
{
    fprintf(stderr, "loops: %s: %s\n", where, why);
    exit(1);
}

static double now(void)
{
    struct timespec t;
    clock_gettime(CLOCK_PROCESS_CPUTIME_ID, &t);
    return (double)t.tv_sec * 1e9 + (double)t.tv_nsec;
}

/* The results of one of the two. */
typedef struct results {
    double least; /* the time of its fastest run */
    uint64_t refusals, sum;
} results;

/* Runs both, in turn, `runs` times. */
static void run_both(const loop_case *of, unsigned long rounds, int runs, results of_both[2])
{
    for (int k = 0; k < 2; k++) {
        of_both[k] = (results){1e30, both[k]->make(of), 0};
    }
    for (int run = 0; run < runs; run++) {
        for (int k = 0; k < 2; k++) {
            double begun = now();
            of_both[k].sum = both[k]->run(of, rounds);
            double took = now() - begun;
            of_both[k].least = took < of_both[k].least ? took : of_both[k].least;
        }
    }
}

static void compare(const loop_case *of, unsigned long count, int is_counted)
{
    char name[100];
    results r[2];
    unsigned long in_a_round = (unsigned long)of->queues * of->batch;
    unsigned long rounds = count < in_a_round ? 1 : count / in_a_round;
    double commands = (double)(rounds * in_a_round);
    snprintf(name, sizeof name, "loop, %s, %d queue%s, %d at a time",
             of->mechanism == NVMEARB_WEIGHTED ? "weighted" : "round robin", of->queues, of->queues == 1 ? "" : "s",
             of->batch);
    run_both(of, rounds, is_counted ? 1 : RUNS, r);
    if (r[0].refusals != r[1].refusals) {
        loop_fail(name, "the library's answers to calls that aren't valid aren't those by hand");
    }
    if (r[0].sum != r[1].sum) {
        loop_fail(name, "what came out of the library isn't what came out by hand");
    }
    if (is_counted) {
        printf("%s|%s|%.0f\n%s|%s|%.0f\n", name, both[0]->name, commands, name, both[1]->name, commands);
    } else {
        printf("%s: %s %.1f ns, %s %.1f ns, %.2f times, checksum %016" PRIx64 "\n", name, both[0]->name,
               r[0].least / commands, both[1]->name, r[1].least / commands, r[1].least / r[0].least, r[0].sum);
    }
}

int main(int words, char **word)
{
    static const uint32_t mechanisms[] = {NVMEARB_ROUND_ROBIN, NVMEARB_WEIGHTED};
    static const uint16_t queues[] = {1, 4, 16, 64}, batches[] = {1, 32};
    unsigned long count = words > 1 ? strtoul(word[1], NULL, 10) : 0;
    int is_counted = words == 3 && strcmp(word[2], "counted") == 0;
    if (count == 0 || words > 2 + is_counted) {
        fprintf(stderr, "usage: loops COUNT [counted]\n");
        return 2;
    }
    for (int m = 0; m < 2; m++) {
        for (int b = 0; b < 2; b++) {
            for (int q = 0; q < 4; q++) {
                compare(&(loop_case){mechanisms[m], queues[q], batches[b]}, count, is_counted);
            }
        }
    }
    return 0;
}
