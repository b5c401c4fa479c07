/* The jobs as our library does them. */
#include <string.h>

#include "bench.h"

enum { SCENARIO = 7, SCENARIO_RUN = 2 };

static uint8_t bundle[NODES][WHAUPFIELD_MAX_BUNDLE];
static size_t bundle_length;
_Alignas(64) static uint8_t array[NODES * COLUMN], columns[LISTS][NODES * COLUMN];
_Alignas(64) static uint8_t column[COLUMN], output[NODES * COLUMN];

/* The columns of listed nodes, joined in list order. */
static void join(uint8_t *to, const uint8_t *from, const uint8_t *nodes)
{
    size_t width = whaupfield_column_length(setup.p);

    for (size_t i = 0; i < setup.p.k; i++)
        memcpy(to + i * width, from + nodes[i] * width, width);
}

void prepare_ours(void)
{
    const struct whaupfield_profile *p = &setup.p;

    bundle_length = whaupfield_bundle_length(*p);
    for (size_t node = 0; node < p->n; node++)
        whaupfield_write_bundle(WHAUPFIELD_PROFILE(*p), node, SCENARIO, SCENARIO_RUN, setup.array,
                                whaupfield_array_length(*p), bundle[node], bundle_length);
    for (int list = 0; list < LISTS; list++)
        join(columns[list], setup.array, setup.kept[list]);
}

static size_t encode(int which)
{
    const struct whaupfield_profile *p = &setup.p;

    (void)which;
    whaupfield_encode(WHAUPFIELD_PROFILE(*p), setup.data, whaupfield_data_length(*p), array,
                      whaupfield_array_length(*p));
    return 1;
}

static uint64_t rebuild_node(size_t node)
{
    const struct whaupfield_profile *p = &setup.p;

    return whaupfield_rebuild(WHAUPFIELD_PROFILE(*p), node, SCENARIO, SCENARIO_RUN, bundle[node], bundle_length, column,
                              whaupfield_column_length(*p));
}

/* The nodes of the first group in turn, so that every local column is met. */
static size_t rebuild(int which)
{
    static size_t node;

    (void)which;
    node = (node + 1) % setup.p.a;
    rebuild_node(node);
    return 1;
}

static uint64_t read_from(const uint8_t *nodes, const uint8_t *from)
{
    const struct whaupfield_profile *p = &setup.p;
    size_t length = whaupfield_data_length(*p);

    return whaupfield_read_back(WHAUPFIELD_PROFILE(*p), nodes, p->k, from, length, output, length);
}

static size_t read_back(int list)
{
    read_from(setup.kept[list], columns[list]);
    return 1;
}

static size_t survey(int which)
{
    const struct whaupfield_profile *p = &setup.p;
    uint8_t set[NODES];
    size_t looked = 0;

    (void)which;
    for (size_t run = 0; run < RUNS; run++)
        looked += WHAUPFIELD_LOOKED(
            whaupfield_survey(WHAUPFIELD_PROFILE(*p), setup.start[run], setup.most, set, p->k));
    return looked;
}

/* Whether the data come back from these columns. */
static bool gives_data(const uint8_t *nodes, const uint8_t *from)
{
    memset(output, 0xEE, sizeof output);
    return read_from(nodes, from) == 0 && memcmp(output, setup.data, whaupfield_data_length(setup.p)) == 0;
}

/* Whether the data come back from what was encoded, by either list. */
static bool encode_right(int which)
{
    static uint8_t joined[NODES * COLUMN];
    bool right = true;

    memset(array, 0xEE, sizeof array);
    encode(which);
    for (int list = 0; list < LISTS; list++) {
        join(joined, array, setup.kept[list]);
        right = right && gives_data(setup.kept[list], joined);
    }
    return right;
}

static bool rebuild_right(int which)
{
    size_t width = whaupfield_column_length(setup.p);
    bool right = true;

    (void)which;
    for (size_t node = 0; node < setup.p.n; node++) {
        memset(column, 0xEE, sizeof column);
        right = right && rebuild_node(node) == 0 && memcmp(column, setup.array + node * width, width) == 0;
    }
    return right;
}

static bool read_right(int list)
{
    return gives_data(setup.kept[list], columns[list]);
}

/* The verdicts are compared with the peers'. */
static bool survey_right(int which)
{
    return setup.sets > 0 && survey(which) == setup.sets;
}

const struct candidate ours[] = {
    {ENCODE, "encode", "", encode, encode_right, 0},
    {REBUILD, "rebuild one node", "", rebuild, rebuild_right, 0},
    {READ_LAST, "read back, the last k nodes", "", read_back, read_right, LAST},
    {READ_SPREAD, "read back, losses in each group", "", read_back, read_right, SPREAD},
    {SURVEY, "survey, a set", "", survey, survey_right, 0},
    {0},
};
