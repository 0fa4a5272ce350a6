/*
 * Two ways of doing one thing, timed in turns in one run, so that whatever else the machine does meets both alike.
 * The number that counts is the ratio.
 */
#ifndef MEASURE_H
#define MEASURE_H

#include <stdint.h>
#include <stdio.h>
#include <stdlib.h>
#include <time.h>

enum { ROUNDS = 201 };

/* Answers a number that depends on what was done, so that nothing is left out as unused. */
typedef uint64_t (*work)(void);

static volatile uint64_t measure_sink;

static inline double measure_once(work w, unsigned times)
{
    struct timespec from, to;
    uint64_t sum = 0;
    clock_gettime(CLOCK_MONOTONIC, &from);
    for (unsigned i = 0; i < times; i++)
        sum += w();
    clock_gettime(CLOCK_MONOTONIC, &to);
    measure_sink += sum;
    return ((double)(to.tv_sec - from.tv_sec) * 1e9 + (double)(to.tv_nsec - from.tv_nsec)) / times;
}

static inline int measure_order(const void *a, const void *b)
{
    double x = *(const double *)a;
    double y = *(const double *)b;
    return (x > y) - (x < y);
}

static inline double measure_median(const double *values, unsigned n)
{
    double sorted[ROUNDS];
    for (unsigned i = 0; i < n; i++)
        sorted[i] = values[i];
    qsort(sorted, n, sizeof sorted[0], measure_order);
    return sorted[n / 2];
}

/* What each of at most four works took in each round, in nanoseconds. */
struct taken {
    unsigned rounds;
    double by[4][ROUNDS];
};

/* Runs the works in turns, `times` times each in each of at most ROUNDS rounds. */
static inline void measure(struct taken *t, const work *works, unsigned n, unsigned rounds, unsigned times)
{
    t->rounds = rounds;
    for (unsigned i = 0; i < n; i++)
        measure_once(works[i], times);
    for (unsigned r = 0; r < rounds; r++)
        for (unsigned i = 0; i < n; i++)
            t->by[(i + r) % n][r] = measure_once(works[(i + r) % n], times);
}

/* The median of the rounds' ratios: a round that the machine slows down slows down both. */
static inline double measure_ratio(const double *ours, const double *other, unsigned rounds)
{
    double ratios[ROUNDS];
    for (unsigned r = 0; r < rounds; r++)
        ratios[r] = ours[r] / other[r];
    return measure_median(ratios, rounds);
}

/* Median times, and the ratio; no line end. */
static inline void print_times(const char *name, const double *ours, const double *other, unsigned rounds,
                               const char *other_name)
{
    printf("%-52s %12.0f ns   %s %12.0f ns   ratio %7.2f", name, measure_median(ours, rounds), other_name,
           measure_median(other, rounds), measure_ratio(ours, other, rounds));
}

static inline void print_ratio(const char *name, const double *ours, const double *other, unsigned rounds,
                               const char *other_name)
{
    print_times(name, ours, other, rounds, other_name);
    printf("\n");
}

/* The ratio beside its goal, at most which it should be; whether it is met. */
static inline unsigned print_goal(const char *name, const double *ours, const double *other, unsigned rounds,
                                  const char *other_name, double goal)
{
    unsigned met = measure_ratio(ours, other, rounds) <= goal;
    print_times(name, ours, other, rounds, other_name);
    printf("   goal %.2f %s\n", goal, met ? "met" : "missed");
    return met;
}

#endif
