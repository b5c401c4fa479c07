/* How often each node is read, from the library's plans: prints the lines that docs/LOAD.md has. See tools/load. */
#include <stdio.h>
#include <stdlib.h>
#include <string.h>

#include "whaupfield.h"

enum { EDITIONS = 2, NODES = WHAUPFIELD_MAX_NODES };

/* The shapes that the page shows node by node. */
static const struct whaupfield_profile shown[] = {
    {14, 10, 2, 2, 1, 0}, {12, 8, 4, 2, 1, 0}, {24, 20, 4, 2, 1, 0}, {24, 12, 4, 2, 1, 0}};

/* How many strips are read from each node, over one rebuild of each node, in each edition; and whether both editions
 * read the same places for each lost node. */
struct load {
    size_t strips[EDITIONS][NODES];
    int same_places;
};

/* The places that are read for one lost node. */
struct read {
    unsigned char at[NODES][WHAUPFIELD_MAX_ROWS];
};

static struct read read_for(struct whaupfield_profile p, size_t lost)
{
    struct read read = {{{0}}};
    uint8_t places[WHAUPFIELD_MAX_PLAN];
    uint64_t answer = whaupfield_plan(WHAUPFIELD_PROFILE(p), lost, places, sizeof places);

    if (WHAUPFIELD_NUMBER(answer) != WHAUPFIELD_OK) {
        fprintf(stderr, "load: (%zu,%zu,%zu), edition %zu: refused %u\n", p.n, p.k, p.a, p.edition,
                WHAUPFIELD_NUMBER(answer));
        exit(1);
    }
    for (uint64_t i = 0; i < WHAUPFIELD_VALUE(answer); i++)
        read.at[places[2 * i]][places[2 * i + 1]] = 1;
    return read;
}

static void add_strips(const struct read *read, size_t *strips)
{
    for (size_t node = 0; node < NODES; node++)
        for (size_t row = 0; row < WHAUPFIELD_MAX_ROWS; row++)
            strips[node] += read->at[node][row];
}

static struct load load_of(struct whaupfield_profile p)
{
    struct load load = {{{0}}, 1};

    for (size_t lost = 0; lost < p.n; lost++) {
        struct read read[EDITIONS];
        for (size_t e = 0; e < EDITIONS; e++) {
            p.edition = e + 1;
            read[e] = read_for(p, lost);
            add_strips(&read[e], load.strips[e]);
        }
        load.same_places &= memcmp(&read[0], &read[1], sizeof read[0]) == 0;
    }
    return load;
}

static size_t most(const size_t *strips, size_t n)
{
    size_t found = strips[0];

    for (size_t node = 1; node < n; node++)
        found = strips[node] > found ? strips[node] : found;
    return found;
}

static size_t least(const size_t *strips, size_t n)
{
    size_t found = strips[0];

    for (size_t node = 1; node < n; node++)
        found = strips[node] < found ? strips[node] : found;
    return found;
}

/* A line of a table: its name, and the strips of each node. */
static void print_line(const char *name, const size_t *strips, size_t n)
{
    printf("| %s |", name);
    for (size_t node = 0; node < n; node++)
        printf(" %zu |", strips[node]);
    printf("\n");
}

static void print_shape(struct whaupfield_profile p)
{
    struct load load = load_of(p);

    printf("\n## (%zu,%zu,%zu)\n\n| node |", p.n, p.k, p.a);
    for (size_t node = 0; node < p.n; node++)
        printf(" %zu |", node);
    printf("\n|---|");
    for (size_t node = 0; node < p.n; node++)
        printf("---|");
    printf("\n");
    print_line("edition 1", load.strips[0], p.n);
    print_line("edition 2", load.strips[1], p.n);
    printf("\nMost and least: %zu and %zu in edition 1, %zu and %zu in edition 2.\n", most(load.strips[0], p.n),
           least(load.strips[0], p.n), most(load.strips[1], p.n), least(load.strips[1], p.n));
}

/* Over all accepted shapes: how many there are, in how many both editions read the same places, how many read all nodes
 * alike in each edition, and in how many the node that is read most is read less often in edition 2. */
static void print_all(void)
{
    size_t shapes = 0, same = 0, alike[EDITIONS] = {0}, less = 0;

    for (size_t a = 2; a <= WHAUPFIELD_MAX_ROWS; a++)
        for (size_t n = 2 * a; n <= NODES; n += a)
            for (size_t k = 1; k <= n - a; k++) {
                struct load load = load_of((struct whaupfield_profile){n, k, a, 2, 1, 0});
                shapes++;
                same += (size_t)load.same_places;
                for (size_t e = 0; e < EDITIONS; e++)
                    alike[e] += most(load.strips[e], n) == least(load.strips[e], n);
                less += most(load.strips[1], n) < most(load.strips[0], n);
            }
    printf("Of the %zu accepted shapes (n,k,A), %zu have the same places in both editions, whichever node is lost.\n"
           "In %zu the node that is read most is read less often in edition 2 than in edition 1. All nodes are read\n"
           "alike by %zu shapes in edition 1, and by %zu in edition 2.\n",
           shapes, same, less, alike[0], alike[1]);
}

int main(void)
{
    print_all();
    for (size_t i = 0; i < sizeof shown / sizeof shown[0]; i++)
        print_shape(shown[i]);
    return 0;
}
