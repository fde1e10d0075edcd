/* Counting of tests: CHECK(fact) says where a fact fails, and told() writes the last line. */
#ifndef TELL_H
#define TELL_H

#include <stdint.h>
#include <stdio.h>

static unsigned passed, failed;

#define CHECK(fact) check_that((fact) != 0, #fact, __FILE__, __LINE__)

static void check_that(int holds, const char *text, const char *file, int line)
{
    if (holds) {
        passed++;
    } else {
        failed++;
        printf("%s:%d: not so: %s\n", file, line, text);
    }
}

static int told(void)
{
    printf("%u passed, %u failed\n", passed, failed);
    return failed != 0;
}

/* The next number of a fixed sequence (splitmix64). */
static inline uint64_t drawn(uint64_t *state)
{
    uint64_t z = *state += 0x9e3779b97f4a7c15u;
    z = (z ^ (z >> 30)) * 0xbf58476d1ce4e5b9u;
    z = (z ^ (z >> 27)) * 0x94d049bb133111ebu;
    return z ^ (z >> 31);
}

/* Fills an object with drawn bytes. */
static inline void draw_into(uint64_t *state, void *object, size_t size)
{
    unsigned char *bytes = object;
    for (size_t i = 0; i < size; i++) {
        bytes[i] = (unsigned char)drawn(state);
    }
}

#endif
