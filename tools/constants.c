/* Which t to take, from the library's survey. Without arguments: each accepted shape (n,k,A), one a line. With n, k and
 * A: the lines that docs/CONSTANTS.md has of this shape. See tools/constants. */
#include <stdio.h>
#include <stdlib.h>

#include "whaupfield.h"

enum { FIRST_T = 2, LAST_T = 255, CONSTANTS = LAST_T - FIRST_T + 1 };

/* A survey must be given them, and turns on neither. */
enum { S = 1, EDITION = 2 };

/* A sample is runs of RUN sets that follow each other, the runs evenly over all sets. All t are tried on FIRST_RUNS
 * runs; the best quarter of them is tried on four times as many, and so on until one is left. The last four t are tried
 * on WHOLE sets; a shape that has no more is not left to samples. The head of the page, in tools/constants, has these
 * numbers. */
enum { RUN = 10, FIRST_RUNS = 100, WHOLE = 64 * FIRST_RUNS * RUN };

/* Up to this many failing sets are written out. */
enum { FEW = 6 };

struct shape {
    size_t n, k, a, sets;
};

/* A constant, and how many failing sets were counted with it. */
struct constant {
    size_t t, failing;
};

static size_t number_of_sets(size_t n, size_t k)
{
    size_t sets = 1;

    for (size_t chosen = 1; chosen <= k; chosen++)
        sets = sets * (n - k + chosen) / chosen;
    return sets;
}

static uint64_t survey(const struct shape *shape, size_t t, size_t start, size_t most, uint8_t *set)
{
    uint64_t answer = whaupfield_survey(shape->n, shape->k, shape->a, t, S, EDITION, start, most, set, shape->k);

    if (WHAUPFIELD_NUMBER(answer) != 0) {
        fprintf(stderr, "constants: (%zu,%zu,%zu), t = %zu: refused %u\n", shape->n, shape->k, shape->a, t,
                WHAUPFIELD_NUMBER(answer));
        exit(1);
    }
    return answer;
}

/* Takes each t from its start to its next failing set, and the start past that. Ends at the first t that has none left,
 * and gives that t; 0 if each has one. */
static size_t next_round(const struct shape *shape, size_t *starts)
{
    uint8_t set[WHAUPFIELD_MAX_NODES];

    for (size_t t = FIRST_T; t <= LAST_T; t++) {
        uint64_t answer = survey(shape, t, starts[t], SIZE_MAX, set);
        if (WHAUPFIELD_OUTCOME(answer) == WHAUPFIELD_DONE)
            return t;
        starts[t] = WHAUPFIELD_POSITION(answer) + 1;
    }
    return 0;
}

/* The best constant of all, after a first round that found a failing set with each t. Each round finds one more with
 * each; so the first t that has none left has the fewest, and no smaller t has as few. */
static struct constant best_of_all(const struct shape *shape, size_t *starts)
{
    struct constant best = {0, 0};

    while (best.t == 0) {
        best.failing++;
        best.t = next_round(shape, starts);
    }
    return best;
}

/* The failing sets among the positions from start to before end. */
static size_t failing_between(const struct shape *shape, size_t t, size_t start, size_t end)
{
    uint8_t set[WHAUPFIELD_MAX_NODES];
    size_t failing = 0;
    uint64_t answer = survey(shape, t, start, end - start, set);

    while (WHAUPFIELD_OUTCOME(answer) == WHAUPFIELD_FAILING) {
        failing++;
        start = WHAUPFIELD_POSITION(answer) + 1;
        answer = survey(shape, t, start, end - start, set);
    }
    return failing;
}

static size_t failing_in_sample(const struct shape *shape, size_t t, size_t runs)
{
    size_t failing = 0;

    for (size_t run = 0; run < runs; run++) {
        size_t start = shape->sets * run / runs;
        failing += failing_between(shape, t, start, start + RUN);
    }
    return failing;
}

/* Fewer failing sets first, then the smaller t. */
static int compare(const void *left, const void *right)
{
    const struct constant *x = left, *y = right;

    if (x->failing != y->failing)
        return x->failing < y->failing ? -1 : 1;
    return x->t < y->t ? -1 : 1;
}

/* Sorts these constants by their failing sets in a sample of so many runs. */
static void sort_by_sample(const struct shape *shape, struct constant *constants, size_t count, size_t runs)
{
    for (size_t c = 0; c < count; c++)
        constants[c].failing = failing_in_sample(shape, constants[c].t, runs);
    qsort(constants, count, sizeof *constants, compare);
}

/* The t that larger and larger samples leave. */
static size_t best_of_samples(const struct shape *shape)
{
    struct constant constants[CONSTANTS];
    size_t runs = FIRST_RUNS;

    for (size_t c = 0; c < CONSTANTS; c++)
        constants[c].t = FIRST_T + c;
    for (size_t left = CONSTANTS; left > 1; left = (left + 3) / 4) {
        sort_by_sample(shape, constants, left, runs);
        runs *= 4;
    }
    return constants[0].t;
}

static struct constant counted_whole(const struct shape *shape, size_t t)
{
    struct constant constant = {t, failing_between(shape, t, 0, shape->sets)};

    return constant;
}

/* A shape is accepted if a survey of none of its sets is not refused. */
static int accepted(size_t n, size_t k, size_t a)
{
    uint8_t set[WHAUPFIELD_MAX_NODES];

    return WHAUPFIELD_NUMBER(whaupfield_survey(n, k, a, FIRST_T, S, EDITION, 0, 0, set, k)) == 0;
}

/* The better of the t that samples leave for this shape and the t that they leave for (n,n-k,A), which often serves
 * both; each counted whole. */
static struct constant best_of_two(const struct shape *shape)
{
    const struct shape other = {shape->n, shape->n - shape->k, shape->a, shape->sets};
    struct constant best = counted_whole(shape, best_of_samples(shape));

    if (accepted(other.n, other.k, other.a)) {
        struct constant second = counted_whole(shape, best_of_samples(&other));
        if (compare(&second, &best) < 0)
            best = second;
    }
    return best;
}

static void print_number(size_t number)
{
    if (number < 1000) {
        printf("%zu", number);
    } else {
        print_number(number / 1000);
        printf(",%03zu", number % 1000);
    }
}

static void print_row(const struct shape *shape, struct constant constant, const char *chosen)
{
    printf("| (%zu,%zu,%zu) | %s | %zu | ", shape->n, shape->k, shape->a, constant.failing == 0 ? "yes" : "no",
           constant.t);
    print_number(constant.failing);
    printf(" | ");
    print_number(shape->sets);
    printf(" | %s |\n", chosen);
}

/* The drives that are lost if just those of the set live. */
static void print_lost(const struct shape *shape, size_t t, const uint8_t *set)
{
    size_t living = 0;

    printf("- (%zu,%zu,%zu), t = %zu:", shape->n, shape->k, shape->a, t);
    for (size_t node = 0; node < shape->n; node++)
        if (living < shape->k && set[living] == node)
            living++;
        else
            printf(" %zu", node);
    printf("\n");
}

static void print_all_lost(const struct shape *shape, struct constant constant)
{
    uint8_t set[WHAUPFIELD_MAX_NODES];
    size_t start = 0;

    for (size_t found = 0; found < constant.failing; found++) {
        start = WHAUPFIELD_POSITION(survey(shape, constant.t, start, SIZE_MAX, set)) + 1;
        print_lost(shape, constant.t, set);
    }
}

static void print_shape(const struct shape *shape)
{
    size_t starts[LAST_T + 1] = {0};
    struct constant best = {next_round(shape, starts), 0};

    if (best.t != 0) {
        print_row(shape, best, "first t");
    } else if (shape->sets <= WHOLE) {
        best = best_of_all(shape, starts);
        print_row(shape, best, "all t");
    } else {
        best = best_of_two(shape);
        print_row(shape, best, "samples");
    }
    if (best.failing <= FEW)
        print_all_lost(shape, best);
}

/* By rising A, then n, then k. */
static void print_accepted(void)
{
    for (size_t a = 0; a <= WHAUPFIELD_MAX_ROWS; a++)
        for (size_t n = 0; n <= WHAUPFIELD_MAX_NODES; n++)
            for (size_t k = 0; k <= n; k++)
                if (accepted(n, k, a))
                    printf("%zu %zu %zu\n", n, k, a);
}

int main(int count, char **arguments)
{
    struct shape shape;
    uint8_t set[WHAUPFIELD_MAX_NODES];

    if (count == 1) {
        print_accepted();
        return 0;
    }
    if (count != 4) {
        fprintf(stderr, "constants: wants n, k and A\n");
        return 1;
    }
    shape.n = strtoul(arguments[1], NULL, 10);
    shape.k = strtoul(arguments[2], NULL, 10);
    shape.a = strtoul(arguments[3], NULL, 10);
    if (shape.n > WHAUPFIELD_MAX_NODES || shape.k > shape.n) {
        fprintf(stderr, "constants: wants n up to %d, and k below n\n", WHAUPFIELD_MAX_NODES);
        return 1;
    }
    /* Ends here if the shape is not accepted. */
    survey(&shape, FIRST_T, 0, 0, set);
    shape.sets = number_of_sets(shape.n, shape.k);
    print_shape(&shape);
    return 0;
}
