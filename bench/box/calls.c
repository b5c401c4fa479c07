/* Makes one of the library's calls so many times: calls JOB PROFILE S CALLS. For bench/box/run, which counts what it
 * takes. */
#include <stdio.h>
#include <stdlib.h>
#include <string.h>

#include "whaupfield.h"

enum { NODES = WHAUPFIELD_MAX_NODES, COLUMN = WHAUPFIELD_MAX_ROWS * WHAUPFIELD_MAX_STRIP, LOST = 1, SETS = 20 };

/* The recording. */
enum { SCENARIO = 7, SCENARIO_RUN = 2 };

static const struct whaupfield_profile profiles[] = {
    {14, 10, 2, 2, 0, 2}, {12, 8, 4, 2, 0, 2}, {24, 20, 4, 2, 0, 2}};

static struct whaupfield_profile p;
static uint8_t data[NODES * COLUMN], array[NODES * COLUMN], bundle[WHAUPFIELD_MAX_BUNDLE], column[COLUMN];
static uint8_t nodes[NODES], columns[NODES * COLUMN], output[NODES * COLUMN], set[NODES];

/* The last k nodes and their columns, joined. */
static void join_last(void)
{
    size_t width = whaupfield_column_length(p);

    for (size_t i = 0; i < p.k; i++) {
        nodes[i] = (uint8_t)(p.n - p.k + i);
        memcpy(columns + i * width, array + nodes[i] * width, width);
    }
}

static uint64_t encode(size_t call)
{
    (void)call;
    return whaupfield_encode(WHAUPFIELD_PROFILE(p), data, whaupfield_data_length(p), array, whaupfield_array_length(p));
}

static uint64_t write_bundle(void)
{
    return whaupfield_write_bundle(WHAUPFIELD_PROFILE(p), LOST, SCENARIO, SCENARIO_RUN, array,
                                   whaupfield_array_length(p), bundle, whaupfield_bundle_length(p));
}

static uint64_t rebuild(size_t call)
{
    (void)call;
    return whaupfield_rebuild(WHAUPFIELD_PROFILE(p), LOST, SCENARIO, SCENARIO_RUN, bundle,
                              whaupfield_bundle_length(p), column, whaupfield_column_length(p));
}

static uint64_t read_back(size_t call)
{
    size_t length = whaupfield_data_length(p);

    (void)call;
    return whaupfield_read_back(WHAUPFIELD_PROFILE(p), nodes, p.k, columns, length, output, length);
}

static uint64_t survey(size_t call)
{
    return whaupfield_survey(WHAUPFIELD_PROFILE(p), 100 + call * SETS, SETS, set, p.k);
}

static uint64_t products(size_t call)
{
    uint64_t sum = call;

    for (unsigned a = 0; a < 256; a++)
        sum += whaupfield_product((uint8_t)a, (uint8_t)(255 - a));
    return sum;
}

static uint64_t inverses(size_t call)
{
    uint64_t sum = call;

    for (unsigned a = 0; a < 256; a++)
        sum += whaupfield_inverse((uint8_t)a);
    return sum;
}

static const struct {
    const char *name;
    uint64_t (*call)(size_t);
} jobs[] = {{"encode", encode}, {"rebuild", rebuild},   {"read_back", read_back},
            {"survey", survey}, {"products", products}, {"inverses", inverses}};

int main(int argc, char **argv)
{
    uint64_t sum = 0;

    if (argc != 5)
        return 2;
    p = profiles[strtoul(argv[2], NULL, 10) % 3];
    p.s = strtoul(argv[3], NULL, 10);
    for (size_t i = 0; i < sizeof data; i++)
        data[i] = (uint8_t)(i * 7 + i / 251 + 3);
    sum += encode(0) + write_bundle();
    join_last();
    for (size_t j = 0; j < sizeof jobs / sizeof *jobs; j++)
        if (strcmp(jobs[j].name, argv[1]) == 0)
            for (size_t call = 0; call < strtoul(argv[4], NULL, 10); call++)
                sum += jobs[j].call(call);
    printf("%llu\n", (unsigned long long)sum);
    return 0;
}
