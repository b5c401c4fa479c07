/* Encodes document 01's sample recording with (n, k, A) = (4, 2, 2), t = 2, S = 1, keeps the columns of nodes 0 and 3
 * and reads the data back from them; then surveys the profile, and does both again with t = 5, for which those two
 * nodes will not do. */
#include <stdio.h>
#include <stdlib.h>
#include <string.h>

#include "whaupfield.h"

enum { K = 2, STEP = 4 };

static void print_refusal(size_t t, const char *call, uint64_t answer)
{
    unsigned number = WHAUPFIELD_NUMBER(answer);

    printf("t = %zu: %s: refused %u: %s\n", t, call, number, whaupfield_refusal_sentence(number));
}

/* Reads back from nodes 0 and 3 of an encoded array. */
static void read_two(struct whaupfield_profile p, const uint8_t *array)
{
    const uint8_t nodes[K] = {0, 3};
    size_t length = whaupfield_data_length(p), width = whaupfield_column_length(p);
    uint8_t *columns = malloc(length), *output = malloc(length);

    if (columns == NULL || output == NULL)
        exit(1);
    for (size_t i = 0; i < K; i++)
        memcpy(columns + i * width, array + nodes[i] * width, width);

    uint64_t answer =
        whaupfield_read_back(WHAUPFIELD_PROFILE(p), nodes, sizeof nodes, columns, length, output, length);
    if (WHAUPFIELD_NUMBER(answer) == WHAUPFIELD_OK)
        printf("t = %zu: read back %02X %02X %02X %02X\n", p.t, output[0], output[1], output[2], output[3]);
    else
        print_refusal(p.t, "read back", answer);
    free(columns);
    free(output);
}

static void encode_and_read(struct whaupfield_profile p)
{
    const uint8_t data[] = {0x01, 0x00, 0x02, 0x04};
    size_t length = whaupfield_array_length(p);
    uint8_t *array = malloc(length);

    if (array == NULL)
        exit(1);
    uint64_t answer = whaupfield_encode(WHAUPFIELD_PROFILE(p), data, sizeof data, array, length);
    if (WHAUPFIELD_NUMBER(answer) == WHAUPFIELD_OK)
        read_two(p, array);
    else
        print_refusal(p.t, "encode", answer);
    free(array);
}

/* Looks at a few sets at a time, and goes on where it stopped for as long as the survey is open. */
static void survey(struct whaupfield_profile p)
{
    uint8_t set[K] = {0};
    size_t start = 0;
    uint64_t answer;

    do {
        answer = whaupfield_survey(WHAUPFIELD_PROFILE(p), start, STEP, set, sizeof set);
        start += WHAUPFIELD_LOOKED(answer);
    } while (WHAUPFIELD_OUTCOME(answer) == WHAUPFIELD_OPEN);

    if (WHAUPFIELD_NUMBER(answer) != WHAUPFIELD_OK)
        print_refusal(p.t, "survey", answer);
    else if (WHAUPFIELD_OUTCOME(answer) == WHAUPFIELD_FAILING)
        printf("t = %zu: survey: failing at position %llu, nodes %d and %d, %zu looked at\n", p.t,
               (unsigned long long)WHAUPFIELD_POSITION(answer), set[0], set[1], start);
    else
        printf("t = %zu: survey: done, %zu looked at\n", p.t, start);
}

int main(void)
{
    struct whaupfield_profile p = {.n = 4, .k = K, .a = 2, .t = 2, .s = 1, .edition = 2};

    encode_and_read(p);
    survey(p);
    p.t = 5;
    encode_and_read(p);
    survey(p);
    return 0;
}
