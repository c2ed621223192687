/* Steps over a net: several modes entered as one. Two cranes of examples/refit lift at once.
 *
 *   cc -I include examples/c/cranes.c target/staticlib/libabi.a -o cranes
 *   ./cranes examples/refit/net.sheet
 */
#include <inttypes.h>
#include <stdio.h>

#include "pnet.h"

static const struct {
    const char *words;
    struct pnet_mode modes[2];
    size_t count;
} steps[] = {
    {"a drum from forward and one from machinery to the quay", {{7}, {10}}, 2},
    {"two drums from forward, and room for one on the quay", {{7}, {7}}, 2},
    {"one of the two", {{7}}, 1},
    {"a pump out of machinery and one in, at once", {{9}, {3}}, 2},
    {"the pump out", {{9}}, 1},
    {"two pumps in, while one stands there", {{3}, {3}}, 2},
};

int main(int argc, char **argv)
{
    static uint8_t net[PNET_LARGEST_NET];
    uint32_t marking[PNET_PAIRS];
    FILE *file = argc == 2 ? fopen(argv[1], "rb") : NULL;
    if (!file) {
        fprintf(stderr, "%s NET\n", argv[0]);
        return 1;
    }
    size_t length = fread(net, 1, sizeof net, file);
    fclose(file);
    size_t pairs = pnet_size(net, length).pairs;
    if (pnet_begin(net, length, marking, pairs).number != 0)
        return 1;
    for (size_t each = 0; each < sizeof steps / sizeof *steps; each++) {
        struct pnet_answer fired = pnet_fire_step(net, length, marking, pairs, steps[each].modes, steps[each].count);
        if (fired.number == 0)
            printf("%s: accepted\n", steps[each].words);
        else
            printf("%s: refused by %" PRIu64 " at pair %" PRIu64 ", amount %" PRIu64 "\n", steps[each].words, fired.number,
                   fired.position, fired.amount);
    }
    printf("aboard:");
    for (size_t pair = 3; pair < 9; pair++)
        printf(" %" PRIu32, marking[pair]);
    printf("\n");
    return 0;
}
