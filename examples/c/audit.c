/* Both markings of a refit, the net's and its complement's, kept side by side and audited after every movement. The third removal is entered as
 * the old tracker entered all of them: the item is added on the quay, and not taken away aboard.
 *
 *   cc -I include examples/c/audit.c target/staticlib/libabi.a -o audit
 *   ./audit examples/refit/net.sheet examples/refit/weights.sheet examples/refit/movements.sheet
 */
#include <inttypes.h>
#include <stdio.h>
#include <stdlib.h>

#include "pnet.h"

enum { DRUMS_ON_THE_QUAY = 10, MARKED = 4, LAST = 9 }; /* a pair, and movements of the list: the tenth is refused */

struct sheet {
    uint8_t bytes[PNET_LARGEST_NET];
    size_t length;
};

static void load(const char *path, struct sheet *sheet)
{
    FILE *file = fopen(path, "rb");
    if (!file) {
        perror(path);
        exit(1);
    }
    sheet->length = fread(sheet->bytes, 1, sizeof sheet->bytes, file);
    fclose(file);
}

static void must(const char *call, struct pnet_answer answer)
{
    if (answer.number != 0) {
        printf("%s refused by %" PRIu64 " at %" PRIu64 "\n", call, answer.number, answer.position);
        exit(1);
    }
}

/* A pair's weight in kilograms stands at 7 + 4 times its number. */
static int64_t weight(const struct sheet *weights, struct pnet_pair pair)
{
    const uint8_t *at = weights->bytes + 7 + 4 * pair.number;
    return (int32_t)((uint32_t)at[0] << 24 | (uint32_t)at[1] << 16 | (uint32_t)at[2] << 8 | at[3]);
}

static struct sheet net, complement, weights, movements;
static uint32_t marking[PNET_PAIRS], both[PNET_PAIRS];
static size_t pairs, both_pairs;

static void tell(void)
{
    struct pnet_weighed figure = pnet_figure(net.bytes, net.length, weights.bytes, weights.length, marking, pairs);
    struct pnet_audited audited = pnet_audit(net.bytes, net.length, marking, pairs, both, both_pairs);
    must("figure", figure.answer);
    must("audit", audited.answer);
    printf("figure %" PRId64 " kg, ", figure.value);
    if (audited.found)
        printf("OUT OF STEP: pair %u has %" PRId64 " too many, %" PRId64 " kg were left behind\n", audited.pair.number,
               audited.excess, audited.excess * weight(&weights, audited.pair));
    else
        printf("in step\n");
}

int main(int argc, char **argv)
{
    if (argc != 4) {
        fprintf(stderr, "%s NET WEIGHTS MOVEMENTS\n", argv[0]);
        return 1;
    }
    load(argv[1], &net);
    load(argv[2], &weights);
    load(argv[3], &movements);
    struct pnet_counted written = pnet_complement(net.bytes, net.length, complement.bytes, sizeof complement.bytes);
    must("complement", written.answer);
    complement.length = written.value;
    pairs = pnet_size(net.bytes, net.length).pairs;
    both_pairs = pnet_size(complement.bytes, complement.length).pairs;
    must("begin", pnet_begin(net.bytes, net.length, marking, pairs));
    must("begin", pnet_begin(complement.bytes, complement.length, both, both_pairs));
    printf("at first: ");
    tell();
    for (int movement = 1; movement <= LAST; movement++) {
        const uint8_t *at = movements.bytes + 5 + 2 * (movement - 1);
        struct pnet_mode mode = {(uint16_t)(at[0] << 8 | at[1])};
        must("fire", pnet_fire(complement.bytes, complement.length, both, both_pairs, mode));
        if (movement == MARKED) {
            marking[DRUMS_ON_THE_QUAY]++;
            printf("%d, mode %u, kept as a mark: ", movement, mode.number);
            tell();
            marking[DRUMS_ON_THE_QUAY]--; /* the entry is struck out, and made as it should be */
        }
        must("fire", pnet_fire(net.bytes, net.length, marking, pairs, mode));
        printf("%d, mode %u: ", movement, mode.number);
        tell();
    }
    return 0;
}
