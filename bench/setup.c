/* The setup: data, the encoded array, the lists of nodes to read from and the sample of sets. */
#include <string.h>

#include "bench.h"

struct setup setup;

static void make_data(void)
{
    const struct whaupfield_profile *p = &setup.p;
    size_t length = whaupfield_data_length(*p);
    uint32_t x = 1;

    for (size_t b = 0; b < length; b++) {
        x = x * 1664525 + 1013904223;
        setup.data[b] = x >> 24;
    }
    whaupfield_encode(WHAUPFIELD_PROFILE(*p), setup.data, length, setup.array, whaupfield_array_length(*p));
}

/* Encodes the unit data: k*a bytes a strip, one for each data symbol, and the strip of a symbol has a 1 at its own
 * byte. The symbols are counted row by row, the order that our squares have. */
static void make_generator(void)
{
    const struct whaupfield_profile *p = &setup.p;
    size_t side = p->k * p->a;
    struct whaupfield_profile units = *p;
    static uint8_t unit[SIDE * SIDE];

    memset(unit, 0, sizeof unit);
    for (size_t node = 0; node < p->k; node++)
        for (size_t row = 0; row < p->a; row++)
            unit[(node * p->a + row) * side + row * p->k + node] = 1;
    units.s = side;
    whaupfield_encode(WHAUPFIELD_PROFILE(units), unit, whaupfield_data_length(units), setup.generator,
                      whaupfield_array_length(units));
}

/* The lists. With SPREAD the m-th missing node is in group m, or from the first group on again where these run out. */
static void make_lists(void)
{
    const struct whaupfield_profile *p = &setup.p;
    size_t groups = p->n / p->a, lost = p->n - p->k;

    for (int list = 0; list < LISTS; list++) {
        bool gone[NODES] = {false};
        size_t count = 0, kept = 0;
        for (size_t m = 0; m < lost; m++)
            gone[list == LAST ? m : m % groups * p->a + m / groups] = true;
        for (size_t node = 0; node < p->n; node++)
            if (gone[node])
                setup.missing[list][count++] = node;
            else
                setup.kept[list][kept++] = node;
    }
}

/* The next set in lexicographic order. */
static void step(uint8_t *set)
{
    size_t n = setup.p.n, k = setup.p.k, i = k;

    while (i > 0 && set[i - 1] == n - k + i - 1)
        i--;
    if (i == 0)
        return;
    set[i - 1]++;
    for (; i < k; i++)
        set[i] = set[i - 1] + 1;
}

static size_t number_of_sets(void)
{
    size_t number = 1;

    for (size_t i = 1; i <= setup.p.k; i++)
        number = number * (setup.p.n - setup.p.k + i) / i;
    return number;
}

/* Surveys run after run and writes down the sets that were looked at. */
static void make_sample(void)
{
    const struct whaupfield_profile *p = &setup.p;
    size_t all = number_of_sets(), at = 0;
    uint8_t set[NODES], failing[NODES];

    for (size_t i = 0; i < p->k; i++)
        set[i] = i;
    setup.most = all / RUNS < RUN ? all / RUNS : RUN;
    setup.sets = setup.failing = 0;
    for (size_t run = 0; run < RUNS; run++) {
        setup.start[run] = run * all / RUNS;
        uint64_t answer = whaupfield_survey(WHAUPFIELD_PROFILE(*p), setup.start[run], setup.most, failing, p->k);
        setup.failing += WHAUPFIELD_OUTCOME(answer) == WHAUPFIELD_FAILING;
        for (; at < setup.start[run]; at++)
            step(set);
        for (; at < setup.start[run] + WHAUPFIELD_LOOKED(answer); at++) {
            memcpy(setup.set[setup.sets++], set, p->k);
            step(set);
        }
    }
}

void prepare_setup(struct whaupfield_profile p)
{
    uint8_t places[WHAUPFIELD_MAX_PLAN];

    setup.p = p;
    make_data();
    make_generator();
    make_lists();
    make_sample();
    setup.places = WHAUPFIELD_VALUE(whaupfield_plan(WHAUPFIELD_PROFILE(p), 0, places, sizeof places));
}
