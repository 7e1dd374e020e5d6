/* How the programs of this folder measure: what a row compares is run in turns, each round runs every one of them once, and the best round
   of each counts. */
#define _GNU_SOURCE
#include <stdint.h>
#include <stdio.h>
#include <stdlib.h>
#include <string.h>
#include <time.h>

static double now(void) {
    struct timespec t;
    clock_gettime(CLOCK_MONOTONIC, &t);
    return t.tv_sec * 1e9 + t.tv_nsec;
}

/* one of those that a row compares: what it does in a round, and its best round, in ns */
struct racer {
    void (*work)(void);
    double best;
};

static void race(struct racer *racers, size_t count, int rounds) {
    for (size_t i = 0; i < count; i++) racers[i].best = 1e18;
    for (int round = 0; round < rounds; round++)
        for (size_t i = 0; i < count; i++) {
            double start = now();
            racers[i].work();
            double took = now() - start;
            if (took < racers[i].best) racers[i].best = took;
        }
}

#define COUNT(array) (sizeof array / sizeof *array)

static uint32_t state = 12345;

static uint32_t below(uint32_t n) {
    state = state * 1664525u + 1013904223u;
    return (state >> 8) % n;
}
