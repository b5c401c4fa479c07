/* Encodes document 01's sample data with (n, k, A) = (4, 2, 2), t = 2, S = 1, loses node 0, cuts a bundle of edition 2
 * for run 1 of scenario 212, prints its strips beside the plan and rebuilds the column from it; then shows what that
 * bundle gets where run 2 is wanted, and where edition 1 is, and what a bundle of run 2 gets whose second strip was
 * filled in from the last download. */
#include <stdio.h>
#include <stdlib.h>
#include <string.h>

#include "whaupfield.h"

/* In a bundle of edition 2 the first strip's field starts at HEAD, and each has FIELD bytes, its strip last. */
enum { LOST = 0, SCENARIO = 212, HEAD = 20, S = 1, FIELD = 11 + S };

static const struct whaupfield_profile p = {.n = 4, .k = 2, .a = 2, .t = 2, .s = S, .edition = 2};

static uint8_t *buffer(size_t length)
{
    uint8_t *bytes = malloc(length);

    if (bytes == NULL)
        exit(1);
    return bytes;
}

static void print_answer(const char *call, uint64_t answer)
{
    unsigned number = WHAUPFIELD_NUMBER(answer);
    unsigned long long value = WHAUPFIELD_VALUE(answer);

    if (number == WHAUPFIELD_OK)
        printf("%s: %s with %llu\n", call, whaupfield_refusal_name(number), value);
    else
        printf("%s: refused %u at %llu: %s\n", call, number, value, whaupfield_refusal_sentence(number));
}

/* Prints the plan, and the strip of each planned place in the bundle. */
static void print_strips(const uint8_t *bundle)
{
    uint8_t places[WHAUPFIELD_MAX_PLAN];
    uint64_t answer = whaupfield_plan(WHAUPFIELD_PROFILE(p), LOST, places, sizeof places);

    print_answer("plan", answer);
    for (uint64_t i = 0; i < WHAUPFIELD_VALUE(answer); i++)
        printf("strip %d of node %d row %d: %02X\n", (int)i, places[2 * i], places[2 * i + 1],
               bundle[HEAD + (i + 1) * FIELD - S]);
}

/* The array of the sample data. */
static void encode(uint8_t *array, size_t length)
{
    const uint8_t data[] = {0x01, 0x00, 0x02, 0x04};

    print_answer("encode", whaupfield_encode(WHAUPFIELD_PROFILE(p), data, sizeof data, array, length));
}

int main(void)
{
    size_t length = whaupfield_array_length(p), width = whaupfield_column_length(p);
    size_t cut = whaupfield_bundle_length(p);
    uint8_t *array = buffer(length), *bundle = buffer(cut), *newer = buffer(cut);
    uint8_t *kept = buffer(width), *column = buffer(width);

    /* The lost column is kept to compare with; in the array it is gone. */
    encode(array, length);
    memcpy(kept, array + LOST * width, width);
    memset(array + LOST * width, 0xEE, width);

    uint64_t answer = whaupfield_write_bundle(WHAUPFIELD_PROFILE(p), LOST, SCENARIO, 1, array, length, bundle, cut);
    print_answer("write bundle", answer);
    print_strips(bundle);
    answer = whaupfield_rebuild(WHAUPFIELD_PROFILE(p), LOST, SCENARIO, 1, bundle, cut, column, width);
    print_answer("rebuild", answer);
    if (WHAUPFIELD_NUMBER(answer) == WHAUPFIELD_OK)
        printf("column %02X %02X, %s\n", column[0], column[1],
               memcmp(column, kept, width) == 0 ? "as it was" : "not what it was");

    answer = whaupfield_rebuild(WHAUPFIELD_PROFILE(p), LOST, SCENARIO, 2, bundle, cut, column, width);
    print_answer("rebuild for run 2", answer);

    struct whaupfield_profile first = p;
    first.edition = 1;
    answer = whaupfield_rebuild(WHAUPFIELD_PROFILE(first), LOST, SCENARIO, 1, bundle, cut, column, width);
    print_answer("rebuild in edition 1", answer);

    whaupfield_write_bundle(WHAUPFIELD_PROFILE(p), LOST, SCENARIO, 2, array, length, newer, cut);
    memcpy(newer + HEAD + FIELD, bundle + HEAD + FIELD, FIELD);
    answer = whaupfield_rebuild(WHAUPFIELD_PROFILE(p), LOST, SCENARIO, 2, newer, cut, column, width);
    print_answer("rebuild for run 2 with a strip of run 1", answer);
    free(array);
    free(bundle);
    free(newer);
    free(kept);
    free(column);
    return 0;
}
