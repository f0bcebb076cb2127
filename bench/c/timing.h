/* How long works take: the best of several rounds, with works that are compared in turn. */
#ifndef TIMING_H
#define TIMING_H

#include <stdint.h>
#include <stdio.h>
#include <stdlib.h>
#include <string.h>
#include <time.h>

/* A round takes at least so many seconds. */
#define ROUND_SECONDS 2e-3

/* Works that are compared are at most so many. */
#define MOST_WORKS 2

/* One run of a work. What it answers hangs on all that it did. */
typedef uint64_t work(const void *context);

struct timed {
    work *work;
    const void *context;
    double seconds; /* of one run, the best */
};

/* Works add what they answer to this, so that no compiler leaves them out. */
static volatile uint64_t answered;

static inline double now(void) {
    struct timespec time;
    clock_gettime(CLOCK_MONOTONIC, &time);
    return (double)time.tv_sec + 1e-9 * (double)time.tv_nsec;
}

static inline double seconds_of_runs(const struct timed *timed, uint64_t runs) {
    uint64_t sum = 0;
    double start = now();
    for (uint64_t i = 0; i < runs; i++)
        sum += timed->work(timed->context);
    double end = now();
    answered += sum;
    return end - start;
}

/* How many runs make a round. The run that tells it warms the caches. */
static inline uint64_t runs_of_round(const struct timed *timed) {
    seconds_of_runs(timed, 1);
    double seconds = seconds_of_runs(timed, 1);
    return seconds >= ROUND_SECONDS ? 1 : (uint64_t)(ROUND_SECONDS / (seconds + 1e-9)) + 1;
}

/* Times at most MOST_WORKS works, in turn within each round. */
static inline void time_in_turn(struct timed *timed, size_t count, int rounds) {
    uint64_t runs[MOST_WORKS];
    for (size_t i = 0; i < count; i++) {
        runs[i] = runs_of_round(&timed[i]);
        timed[i].seconds = 1e9;
    }
    for (int round = 0; round < rounds; round++)
        for (size_t i = 0; i < count; i++) {
            double seconds = seconds_of_runs(&timed[i], runs[i]) / (double)runs[i];
            if (seconds < timed[i].seconds)
                timed[i].seconds = seconds;
        }
}

static inline double seconds_of(work *it, const void *context, int rounds) {
    struct timed timed = {it, context, 0};
    time_in_turn(&timed, 1, rounds);
    return timed.seconds;
}

/* How many rounds an argument asks for. */
static inline int rounds_of(const char *argument) {
    int rounds = atoi(argument);
    if (rounds < 1) {
        fprintf(stderr, "%s is no number of rounds\n", argument);
        exit(2);
    }
    return rounds;
}

#endif
