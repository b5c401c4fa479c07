/* Timing: turns, and medians over them. */
#define _POSIX_C_SOURCE 200809L
#include <immintrin.h>
#include <stdio.h>
#include <stdlib.h>
#include <time.h>

#include "bench.h"

/* The processor's time for this process: what else the machine does is not counted. */
static double seconds(void)
{
    struct timespec now;

    clock_gettime(CLOCK_PROCESS_CPUTIME_ID, &now);
    return now.tv_sec + now.tv_nsec / 1e9;
}

/* ISA-L leaves the upper halves of the wide registers filled. That slows all code after it that knows nothing of them,
 * ours and jerasure's, to half its speed or less. So they are cleared before each turn. */
__attribute__((target("avx"))) static void clear_wide_registers(void)
{
    _mm256_zeroupper();
}

/* Seconds for so many calls; the pieces of work that they did are left in *pieces. */
static double time_calls(const struct candidate *c, size_t calls, size_t *pieces)
{
    if (__builtin_cpu_supports("avx"))
        clear_wide_registers();
    double start = seconds();
    *pieces = 0;
    for (size_t i = 0; i < calls; i++)
        *pieces += c->call(c->which);
    return seconds() - start;
}

/* How many calls make a turn long enough. */
static size_t calls_a_turn(const struct candidate *c)
{
    size_t calls = 1, pieces;

    while (time_calls(c, calls, &pieces) < TURN / 1e3)
        calls *= 2;
    return calls;
}

static int compare(const void *a, const void *b)
{
    double x = *(const double *)a, y = *(const double *)b;

    return (x > y) - (x < y);
}

static double median(double *values)
{
    qsort(values, TURNS, sizeof *values, compare);
    return values[TURNS / 2];
}

void measure(const struct candidate **list, size_t count, double *microseconds, double *ratio)
{
    size_t calls[CANDIDATES], pieces;
    double took[CANDIDATES][TURNS], by_turn[CANDIDATES][TURNS];

    for (size_t i = 0; i < count; i++) {
        if (!list[i]->right(list[i]->which)) {
            fprintf(stderr, "bench: not right: %s, %s\n", list[0]->name, list[i]->name);
            exit(1);
        }
        calls[i] = calls_a_turn(list[i]);
    }
    for (size_t turn = 0; turn < TURNS; turn++)
        for (size_t i = 0; i < count; i++) {
            double all = time_calls(list[i], calls[i], &pieces);
            took[i][turn] = all * 1e6 / pieces;
            by_turn[i][turn] = took[i][turn] / took[0][turn];
        }
    for (size_t i = 0; i < count; i++) {
        microseconds[i] = median(took[i]);
        ratio[i] = median(by_turn[i]);
    }
}
