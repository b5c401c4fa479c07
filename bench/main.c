/* Measures each job at three profiles, ours and the peers in turn, and prints one table of the ratios; then ours alone
 * as strips, nodes and rows grow. */
#include <stdio.h>

#include "bench.h"

enum { PROFILES = 3, NAME = 42 }; /* NAME: the width of a line's name */

static const struct whaupfield_profile profiles[PROFILES] = {
    {14, 10, 2, 2, 512, 2}, {12, 8, 4, 2, 512, 2}, {24, 20, 4, 2, 512, 2}};

/* What was measured at each profile; the first candidate of a job is ours. */
static double microseconds[JOBS][PROFILES][CANDIDATES], ratio[JOBS][PROFILES][CANDIDATES];
static size_t fetched[PROFILES], blocks[PROFILES], sets[PROFILES], failing[PROFILES];

/* Those who do this job, ours first. */
static size_t candidates(enum job job, const struct candidate **list)
{
    const struct candidate *libraries[] = {ours, isal, jerasure};
    size_t count = 0;

    for (size_t h = 0; h < 3; h++)
        for (const struct candidate *c = libraries[h]; c->name; c++)
            if (c->job == job)
                list[count++] = c;
    return count;
}

static void measure_profile(size_t i)
{
    const struct whaupfield_profile *p = &profiles[i];
    const struct candidate *list[CANDIDATES];

    prepare_setup(*p);
    prepare_ours();
    prepare_isal();
    prepare_jerasure();
    fetched[i] = setup.places * p->s;
    blocks[i] = p->k * p->a * p->s;
    sets[i] = setup.sets;
    failing[i] = setup.failing;
    for (enum job job = 0; job < JOBS; job++)
        measure(list, candidates(job, list), microseconds[job][i], ratio[job][i]);
}

static void print_numbers(const char *name, const double *values, int digits, const char *note)
{
    printf("%-*s", NAME, name);
    for (size_t i = 0; i < PROFILES; i++)
        printf("%10.*f", digits, values[i]);
    printf("%s%s\n", *note ? "   " : "", note);
}

static void print_counts(const char *name, const size_t *counts)
{
    printf("%-*s", NAME, name);
    for (size_t i = 0; i < PROFILES; i++)
        printf("%10zu", counts[i]);
    printf("\n");
}

/* The lines of one job: ours in microseconds, then each peer's ratio. */
static void print_job(enum job job)
{
    const struct candidate *list[CANDIDATES];
    size_t count = candidates(job, list);
    double values[PROFILES];
    char name[64];

    for (size_t c = 0; c < count; c++) {
        for (size_t i = 0; i < PROFILES; i++)
            values[i] = c == 0 ? microseconds[job][i][0] : ratio[job][i][c];
        snprintf(name, sizeof name, c == 0 ? "%s: ours, us" : "  %s", list[c]->name);
        print_numbers(name, values, c == 0 ? 1 : 2, list[c]->differs);
    }
}

/* What a rebuild fetches, in bytes of strips. */
static void print_fetched(void)
{
    double values[PROFILES];

    for (size_t i = 0; i < PROFILES; i++)
        values[i] = (double)blocks[i] / fetched[i];
    print_counts("  bytes fetched, ours", fetched);
    print_counts("  bytes fetched, a peer", blocks);
    print_numbers("  bytes fetched, peer to ours", values, 2, "k whole blocks, not the planned strips");
}

/* The same in a second. */
static void print_sets(void)
{
    double values[PROFILES];

    for (size_t i = 0; i < PROFILES; i++)
        values[i] = 1e6 / microseconds[SURVEY][i][0];
    print_numbers("  sets a second, ours", values, 0, "");
    print_counts("  sets in the sample", sets);
    print_counts("  of these failing", failing);
}

static void print_ratios(void)
{
    printf("The time a peer takes, divided by ours: above 1 ours is quicker. us: microseconds. S = 512, t = 2.\n");
    printf("Medians over %d turns of at least %d ms of processor time, ours and the peers in turn.\n\n", TURNS, TURN);
    printf("%-*s", NAME, "(n,k,A)");
    for (size_t i = 0; i < PROFILES; i++) {
        char shape[16];
        snprintf(shape, sizeof shape, "(%zu,%zu,%zu)", profiles[i].n, profiles[i].k, profiles[i].a);
        printf("%10s", shape);
    }
    printf("   what the peer does differently\n");
    for (enum job job = 0; job < JOBS; job++) {
        print_job(job);
        if (job == REBUILD)
            print_fetched();
        if (job == SURVEY)
            print_sets();
    }
}

/* A line of the second table: ours alone at one profile. */
static void print_growth(struct whaupfield_profile p)
{
    double took, one;
    char shape[24];

    prepare_setup(p);
    prepare_ours();
    snprintf(shape, sizeof shape, "  (%zu,%zu,%zu) %zu", p.n, p.k, p.a, p.s);
    printf("%-18s", shape);
    for (enum job job = 0; job < JOBS; job++) {
        const struct candidate *own = &ours[job];
        measure(&own, 1, &took, &one);
        printf("%12.1f", took);
    }
    printf("\n");
}

static void print_growths(void)
{
    printf("\nOurs alone, microseconds, t = 2.\n\n");
    printf("%-18s%12s%12s%12s%12s%12s\n", "(n,k,A) S", "encode", "rebuild", "last k", "each group", "survey, set");
    printf("as S grows\n");
    for (size_t s = 64; s <= 512; s *= 2)
        print_growth((struct whaupfield_profile){24, 20, 4, 2, s, 2});
    printf("as k grows, with four parity nodes\n");
    for (size_t k = 4; k <= 20; k += 4)
        print_growth((struct whaupfield_profile){k + 4, k, 4, 2, 512, 2});
    printf("as A grows\n");
    for (size_t a = 2; a <= 4; a++)
        print_growth((struct whaupfield_profile){24, 20, a, 2, 512, 2});
}

int main(void)
{
    for (size_t i = 0; i < PROFILES; i++)
        measure_profile(i);
    print_ratios();
    print_growths();
    return 0;
}
