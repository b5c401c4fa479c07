/* Divides a strip by a byte, as a host does that computes with strips itself: one inverse, and a product for each byte.
 * Zero has no inverse, so the number is looked at before the value. */
#include <stdio.h>

#include "whaupfield.h"

static void print_divided(const uint8_t *strip, size_t length, uint8_t divisor)
{
    uint64_t answer = whaupfield_inverse(divisor);

    printf("divided by %d:", divisor);
    if (WHAUPFIELD_NUMBER(answer) == WHAUPFIELD_NO_INVERSE) {
        printf(" there is no inverse\n");
        return;
    }
    for (size_t i = 0; i < length; i++)
        printf(" %d", whaupfield_product(strip[i], (uint8_t)WHAUPFIELD_VALUE(answer)));
    printf("\n");
}

int main(void)
{
    const uint8_t strip[] = {1, 5, 19};

    print_divided(strip, sizeof strip, 2);
    print_divided(strip, sizeof strip, 3);
    print_divided(strip, sizeof strip, 128);
    print_divided(strip, sizeof strip, 0);
    return 0;
}
