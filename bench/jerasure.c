/* The jobs as jerasure does them, with words of 8 bits: plain rows of a Vandermonde code, a block of a*s bytes for each
 * node. */
#include <stdio.h>
#include <jerasure.h>
#include <reed_sol.h>
#include <stdlib.h>
#include <string.h>

#include "bench.h"

enum { WORD = 8 };

static int *matrix, generator[NODES * ROWS * SIDE];
_Alignas(64) static char block[NODES * COLUMN];
static char *pointer[NODES]; /* to the blocks of all nodes: data, then parity */

static size_t encode(int which)
{
    const struct whaupfield_profile *p = &setup.p;

    (void)which;
    jerasure_matrix_encode(p->k, p->n - p->k, WORD, matrix, pointer, pointer + p->k, p->a * p->s);
    return 1;
}

static size_t make_and_encode(int which)
{
    free(matrix);
    matrix = reed_sol_vandermonde_coding_matrix(setup.p.k, setup.p.n - setup.p.k, WORD);
    return encode(which);
}

void prepare_jerasure(void)
{
    const struct whaupfield_profile *p = &setup.p;
    size_t width = p->a * p->s;

    for (size_t node = 0; node < p->n; node++)
        pointer[node] = block + node * width;
    memcpy(block, setup.data, p->k * width);
    make_and_encode(0);
    for (size_t i = 0; i < sizeof setup.generator; i++)
        generator[i] = setup.generator[i];
}

/* Makes the missing blocks in place. `ones` says that the first parity block may be used as what it is, the plain sum
 * of the data blocks. */
static int decode(const uint8_t *missing, size_t count, int ones)
{
    const struct whaupfield_profile *p = &setup.p;
    int erasures[NODES + 1];

    for (size_t m = 0; m < count; m++)
        erasures[m] = missing[m];
    erasures[count] = -1;
    return jerasure_matrix_decode(p->k, p->n - p->k, WORD, matrix, ones, erasures, pointer, pointer + p->k,
                                  p->a * p->s);
}

static size_t rebuild(int ones)
{
    static uint8_t node;

    node = (node + 1) % setup.p.a;
    decode(&node, 1, ones);
    return 1;
}

static size_t read_back(int list)
{
    decode(setup.missing[list], setup.p.n - setup.p.k, 1);
    return 1;
}

/* How many sets of the sample have a square without an inverse. */
static size_t judge_sets(void)
{
    static int square[SIDE * SIDE];
    const struct whaupfield_profile *p = &setup.p;
    size_t side = p->k * p->a, without = 0;

    for (size_t i = 0; i < setup.sets; i++) {
        for (size_t q = 0; q < p->k; q++)
            memcpy(square + q * p->a * side, generator + setup.set[i][q] * p->a * side, p->a * side * sizeof(int));
        without += !jerasure_invertible_matrix(square, side, WORD);
    }
    return without;
}

static size_t survey(int which)
{
    (void)which;
    judge_sets();
    return setup.sets;
}

/* Whether the data come back after these nodes' blocks were lost. */
static bool decode_right(const uint8_t *missing, size_t count, int ones)
{
    size_t width = setup.p.a * setup.p.s;

    for (size_t m = 0; m < count; m++)
        memset(pointer[missing[m]], 0xEE, width);
    return decode(missing, count, ones) == 0 && memcmp(block, setup.data, setup.p.k * width) == 0;
}

static bool rebuild_right(int ones)
{
    bool right = true;

    for (uint8_t node = 0; node < setup.p.a; node++)
        right = right && decode_right(&node, 1, ones);
    return right;
}

static bool read_right(int list)
{
    return decode_right(setup.missing[list], setup.p.n - setup.p.k, 1);
}

static bool parity_right(size_t (*call)(int which))
{
    size_t length = setup.p.k * setup.p.a * setup.p.s;

    memset(block + length, 0xEE, sizeof block - length);
    call(0);
    return read_right(LAST);
}

static bool encode_right(int which)
{
    (void)which;
    return parity_right(encode);
}

static bool make_and_encode_right(int which)
{
    (void)which;
    return parity_right(make_and_encode);
}

static bool survey_right(int which)
{
    (void)which;
    return judge_sets() == setup.failing;
}

const struct candidate jerasure[] = {
    {ENCODE, "jerasure, matrix ready", "parity alone: no data copied, nothing coupled", encode, encode_right, 0},
    {ENCODE, "jerasure, matrix made", "the same", make_and_encode, make_and_encode_right, 0},
    {REBUILD, "jerasure", "k by k inverted, one sum of k blocks", rebuild, rebuild_right, 0},
    {REBUILD, "jerasure, by its plain parity", "exclusive or alone: nothing inverted", rebuild, rebuild_right, 1},
    {READ_LAST, "jerasure", "k by k inverted, only lost blocks made", read_back, read_right, LAST},
    {READ_SPREAD, "jerasure", "the same, at (12,8,4) a parity block with them", read_back, read_right, SPREAD},
    {SURVEY, "jerasure, kA by kA, our squares", "the same job: these sets, a verdict alone", survey, survey_right, 0},
    {0},
};
