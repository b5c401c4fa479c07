/* Plans the rebuild of node 2 with (n, k, A) = (6, 2, 2) and prints the places to read, in edition 1 and in edition 2;
 * then shows what a node that does not exist gets, and a profile whose edition was not set. */
#include <stdio.h>

#include "whaupfield.h"

static void print_plan(struct whaupfield_profile p, size_t lost)
{
    uint8_t places[WHAUPFIELD_MAX_PLAN];
    uint64_t answer = whaupfield_plan(WHAUPFIELD_PROFILE(p), lost, places, sizeof places);
    unsigned number = WHAUPFIELD_NUMBER(answer);

    printf("plan for node %zu, edition %zu: ", lost, p.edition);
    if (number != WHAUPFIELD_OK) {
        printf("refused %u: %s\n", number, whaupfield_refusal_sentence(number));
        return;
    }
    printf("%llu places\n", (unsigned long long)WHAUPFIELD_VALUE(answer));
    for (uint64_t i = 0; i < WHAUPFIELD_VALUE(answer); i++)
        printf("node %d row %d\n", places[2 * i], places[2 * i + 1]);
}

int main(void)
{
    struct whaupfield_profile p = {.n = 6, .k = 2, .a = 2, .t = 2, .s = 1, .edition = 1};

    print_plan(p, 2);
    p.edition = 2;
    print_plan(p, 2);
    print_plan(p, 6);
    p.edition = 0;
    print_plan(p, 2);
    return 0;
}
