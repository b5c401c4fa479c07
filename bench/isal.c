/* The jobs as ISA-L does them: plain rows of a Cauchy code, a block of a*s bytes for each node; and the reading of our
 * own code with ISA-L's inversion and product. */
#include <isa-l/erasure_code.h>
#include <string.h>

#include "bench.h"

/* A reading: the lines of a code's matrix that were kept, the blocks that belong to them, which data blocks are wanted,
 * where they go, and what they should be. */
struct reading {
    int side, wanted, length;
    const uint8_t *matrix;
    size_t line[SIDE], want[SIDE];
    uint8_t *from[SIDE], *to[SIDE];
    const uint8_t *expected[SIDE];
};

static uint8_t matrix[NODES * NODES], tables[32 * NODES * NODES], random_square[SIDE * SIDE];
_Alignas(64) static uint8_t parity[NODES * COLUMN], output[NODES * COLUMN];
static uint8_t *block[NODES]; /* of all nodes: data, then parity */
static struct reading rebuilds[ROWS], readings[LISTS], squares[LISTS];
static uint8_t ready[ROWS][32 * NODES]; /* tables of the rebuilds */

/* The lines of a matrix, gathered to a square, inverted. */
static int invert(const uint8_t *lines, const size_t *line, size_t side, uint8_t *inverse)
{
    static uint8_t square[SIDE * SIDE];

    for (size_t i = 0; i < side; i++)
        memcpy(square + i * side, lines + line[i] * side, side);
    return gf_invert_matrix(square, inverse, side);
}

/* The tables of a reading: the wanted lines of the inverse, 32 bytes for each coefficient. */
static void make_tables(const struct reading *r, uint8_t *made)
{
    static uint8_t inverse[SIDE * SIDE], lines[SIDE * SIDE];

    invert(r->matrix, r->line, r->side, inverse);
    for (int w = 0; w < r->wanted; w++)
        memcpy(lines + w * r->side, inverse + r->want[w] * r->side, r->side);
    ec_init_tables(r->side, r->wanted, lines, made);
}

/* Everything in the call: inversion, tables, product. */
static void read_wanted(struct reading *r)
{
    static uint8_t made[32 * SIDE * SIDE];

    make_tables(r, made);
    ec_encode_data(r->length, r->side, r->wanted, made, r->from, r->to);
}

/* Blocks of the plain code: kept are the first k nodes that are not missing, wanted the missing data blocks. */
static void prepare_reading(struct reading *r, const uint8_t *missing, size_t count)
{
    const struct whaupfield_profile *p = &setup.p;
    size_t kept = 0, m = 0;

    *r = (struct reading){.side = p->k, .length = p->a * p->s, .matrix = matrix};
    for (size_t node = 0; node < p->n; node++) {
        if (m < count && missing[m] == node) {
            m++;
            if (node < p->k) {
                r->to[r->wanted] = output + r->wanted * r->length;
                r->expected[r->wanted] = block[node];
                r->want[r->wanted++] = node;
            }
        } else if (kept < p->k) {
            r->from[kept] = block[node];
            r->line[kept++] = node;
        }
    }
}

/* Strips of our own code: kept are all those of the listed nodes, wanted all data strips. */
static void prepare_square(struct reading *r, const uint8_t *kept)
{
    const struct whaupfield_profile *p = &setup.p;

    *r = (struct reading){.side = p->k * p->a, .wanted = p->k * p->a, .length = p->s, .matrix = setup.generator};
    for (size_t z = 0; z < p->k * p->a; z++) {
        size_t node = z / p->a, row = z % p->a;
        r->line[z] = kept[node] * p->a + row;
        r->from[z] = setup.array + r->line[z] * p->s;
        r->want[z] = row * p->k + node;
        r->to[z] = output + z * p->s;
        r->expected[z] = setup.data + z * p->s;
    }
}

static void make_random_square(void)
{
    static uint8_t copy[SIDE * SIDE], inverse[SIDE * SIDE];
    size_t side = setup.p.k * setup.p.a;
    uint32_t x = 1;

    do {
        for (size_t b = 0; b < side * side; b++) {
            x = x * 1664525 + 1013904223;
            random_square[b] = x >> 24;
        }
        memcpy(copy, random_square, side * side);
    } while (gf_invert_matrix(copy, inverse, side) != 0);
}

static size_t encode(int which)
{
    const struct whaupfield_profile *p = &setup.p;

    (void)which;
    ec_encode_data(p->a * p->s, p->k, p->n - p->k, tables, block, block + p->k);
    return 1;
}

static size_t make_and_encode(int which)
{
    const struct whaupfield_profile *p = &setup.p;

    gf_gen_cauchy1_matrix(matrix, p->n, p->k);
    ec_init_tables(p->k, p->n - p->k, matrix + p->k * p->k, tables);
    return encode(which);
}

void prepare_isal(void)
{
    const struct whaupfield_profile *p = &setup.p;
    size_t width = p->a * p->s;

    for (size_t node = 0; node < p->n; node++)
        block[node] = node < p->k ? setup.data + node * width : parity + (node - p->k) * width;
    make_and_encode(0);
    for (uint8_t node = 0; node < p->a; node++) {
        prepare_reading(&rebuilds[node], &node, 1);
        make_tables(&rebuilds[node], ready[node]);
    }
    for (int list = 0; list < LISTS; list++) {
        prepare_reading(&readings[list], setup.missing[list], p->n - p->k);
        prepare_square(&squares[list], setup.kept[list]);
    }
    make_random_square();
}

static void rebuild_node(size_t node, bool with_ready)
{
    struct reading *r = &rebuilds[node];

    if (with_ready)
        ec_encode_data(r->length, r->side, r->wanted, ready[node], r->from, r->to);
    else
        read_wanted(r);
}

/* The nodes of the first group in turn. */
static size_t rebuild(int with_ready)
{
    static size_t node;

    node = (node + 1) % setup.p.a;
    rebuild_node(node, with_ready);
    return 1;
}

static size_t read_plain(int list)
{
    read_wanted(&readings[list]);
    return 1;
}

static size_t read_square(int list)
{
    read_wanted(&squares[list]);
    return 1;
}

/* Inverts the square of each set of the sample: of our code, or of the plain one. Returns how many have no inverse. */
static size_t invert_sets(bool plain)
{
    static uint8_t inverse[SIDE * SIDE];
    const struct whaupfield_profile *p = &setup.p;
    size_t rows = plain ? 1 : p->a, without = 0, line[SIDE];

    for (size_t i = 0; i < setup.sets; i++) {
        for (size_t z = 0; z < p->k * rows; z++)
            line[z] = setup.set[i][z / rows] * rows + z % rows;
        without += invert(plain ? matrix : setup.generator, line, p->k * rows, inverse) != 0;
    }
    return without;
}

static size_t survey(int plain)
{
    invert_sets(plain);
    return setup.sets;
}

static size_t invert_random(int which)
{
    static uint8_t copy[SIDE * SIDE], inverse[SIDE * SIDE];
    size_t side = setup.p.k * setup.p.a;

    (void)which;
    memcpy(copy, random_square, side * side);
    return gf_invert_matrix(copy, inverse, side) == 0;
}

/* Whether the output is what was wanted. */
static bool as_expected(const struct reading *r)
{
    bool right = r->wanted > 0;

    for (int w = 0; w < r->wanted; w++)
        right = right && memcmp(r->to[w], r->expected[w], r->length) == 0;
    return right;
}

static bool plain_right(int list)
{
    memset(output, 0xEE, sizeof output);
    read_plain(list);
    return as_expected(&readings[list]);
}

static bool square_right(int list)
{
    memset(output, 0xEE, sizeof output);
    read_square(list);
    return as_expected(&squares[list]);
}

static bool rebuild_right(int with_ready)
{
    bool right = true;

    for (size_t node = 0; node < setup.p.a; node++) {
        memset(output, 0xEE, sizeof output);
        rebuild_node(node, with_ready);
        right = right && as_expected(&rebuilds[node]);
    }
    return right;
}

/* Whether data come back from parity made anew. */
static bool encode_right(int which)
{
    memset(parity, 0xEE, sizeof parity);
    encode(which);
    return plain_right(LAST);
}

static bool make_and_encode_right(int which)
{
    memset(tables, 0xEE, sizeof tables);
    memset(parity, 0xEE, sizeof parity);
    make_and_encode(which);
    return plain_right(LAST);
}

/* Our survey and these inversions must find equally many sets without an inverse; the plain code has none. */
static bool survey_right(int plain)
{
    return invert_sets(plain) == (plain ? 0 : setup.failing);
}

static bool random_right(int which)
{
    return invert_random(which) == 1;
}

const struct candidate isal[] = {
    {ENCODE, "ISA-L, tables ready", "parity alone: no data copied, nothing coupled", encode, encode_right, 0},
    {ENCODE, "ISA-L, matrix and tables made", "the same", make_and_encode, make_and_encode_right, 0},
    {REBUILD, "ISA-L", "k by k inverted, one sum of k blocks", rebuild, rebuild_right, false},
    {REBUILD, "ISA-L, tables ready", "the sum alone: inverted in an earlier call", rebuild, rebuild_right, true},
    {READ_LAST, "ISA-L", "k by k inverted, only lost data blocks made", read_plain, plain_right, LAST},
    {READ_LAST, "ISA-L, our code", "the same job: kA by kA, all data strips made", read_square, square_right, LAST},
    {READ_SPREAD, "ISA-L", "k by k inverted, only lost data blocks made", read_plain, plain_right, SPREAD},
    {READ_SPREAD, "ISA-L, our code", "the same job: kA by kA, all data strips made", read_square, square_right, SPREAD},
    {SURVEY, "ISA-L, kA by kA, our squares", "the same sets; makes the inverse as well", survey, survey_right, false},
    {SURVEY, "ISA-L, kA by kA, random", "a dense square; makes the inverse as well", invert_random, random_right, 0},
    {SURVEY, "ISA-L, k by k, its own code", "the same sets of plain rows: side k, not kA", survey, survey_right, true},
    {0},
};
