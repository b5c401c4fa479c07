/* Encodes document 01's sample data with (n, k, A) = (4, 2, 2), t = 2, S = 1 and prints each node's column; then shows
 * what a refusal looks like. */
#include <stdio.h>
#include <stdlib.h>

#include "whaupfield.h"

int main(void)
{
    struct whaupfield_profile p = {.n = 4, .k = 2, .a = 2, .t = 2, .s = 1, .edition = 2};
    const uint8_t data[] = {0x01, 0x00, 0x02, 0x04};
    size_t length = whaupfield_array_length(p), width = whaupfield_column_length(p);
    uint8_t *array = malloc(length);

    if (array == NULL)
        return 1;
    uint64_t answer = whaupfield_encode(WHAUPFIELD_PROFILE(p), data, sizeof data, array, length);
    printf("encode: %s\n", whaupfield_refusal_name(WHAUPFIELD_NUMBER(answer)));
    if (WHAUPFIELD_NUMBER(answer) == WHAUPFIELD_OK)
        for (size_t node = 0; node < p.n; node++)
            printf("node %zu: %02X %02X\n", node, array[node * width], array[node * width + 1]);

    p.t = 1;
    answer = whaupfield_encode(WHAUPFIELD_PROFILE(p), data, sizeof data, array, length);
    printf("encode with t = 1: refused %u at %llu: %s\n", WHAUPFIELD_NUMBER(answer),
           (unsigned long long)WHAUPFIELD_VALUE(answer), whaupfield_refusal_sentence(WHAUPFIELD_NUMBER(answer)));
    free(array);
    return 0;
}
