/* Strips an area bare: appends to a net the modes that take away all that stands at a pair, and says which of them does it, at first and after each movement that
 * changes what stands there.
 *
 *   cc -I include examples/c/strip.c target/staticlib/libabi.a -o strip
 *   ./strip examples/refit/net.sheet examples/refit/weights.sheet 5 2 2 8
 *
 * The pair is 5, pigs forward; two pigs come from the store (mode 2, twice), and one goes to the quay (mode 8).
 */
#include <inttypes.h>
#include <stdio.h>
#include <stdlib.h>
#include <string.h>

#include "pnet.h"

struct sheet {
    uint8_t bytes[PNET_LARGEST_NET];
    size_t length;
};

static void load(const char *path, struct sheet *sheet)
{
    FILE *file = fopen(path, "rb");
    if (file)
        sheet->length = fread(sheet->bytes, 1, sizeof sheet->bytes, file);
    if (!file || ferror(file)) {
        perror(path);
        exit(1);
    }
    fclose(file);
}

static void must(const char *call, struct pnet_answer answer)
{
    if (answer.number != 0) {
        printf("%s refused: number %" PRIu64 ", thing %" PRIu64 ", position %" PRIu64 "\n", call, answer.number, answer.thing,
               answer.position);
        exit(1);
    }
}

/* Tries the modes from `first` on: exactly one of them is enabled, and it takes all that stands at the pair. */
static void strip(const struct sheet *net, const struct sheet *weights, const uint32_t *marking, size_t pairs, struct pnet_pair pair,
                  size_t first, size_t modes)
{
    size_t enabled = 0;
    for (size_t each = first; each < modes; each++) {
        struct pnet_mode mode = {(uint16_t)each};
        if (pnet_test(net->bytes, net->length, marking, pairs, mode).number != 0)
            continue;
        uint32_t after[PNET_PAIRS];
        memcpy(after, marking, pairs * sizeof *after);
        must("fire", pnet_fire(net->bytes, net->length, after, pairs, mode));
        struct pnet_weighed change = pnet_change(net->bytes, net->length, weights->bytes, weights->length, mode);
        must("change", change.answer);
        enabled++;
        printf("%" PRIu32 " stand at pair %u: mode %u strips it, %+" PRId64 " kg, and leaves %" PRIu32 "\n", marking[pair.number],
               pair.number, mode.number, change.value, after[pair.number]);
    }
    if (enabled != 1)
        printf("%zu modes strip the pair\n", enabled);
}

int main(int argc, char **argv)
{
    static struct sheet net, weights, stripped;
    uint32_t marking[PNET_PAIRS];
    if (argc < 4) {
        fprintf(stderr, "%s NET WEIGHTS PAIR [MODE ..]\n", argv[0]);
        return 1;
    }
    load(argv[1], &net);
    load(argv[2], &weights);
    struct pnet_pair pair = {(uint16_t)atoi(argv[3])};
    struct pnet_sized before = pnet_size(net.bytes, net.length);
    must("size", before.answer);
    struct pnet_counted written = pnet_strip(net.bytes, net.length, pair, stripped.bytes, sizeof stripped.bytes);
    must("strip", written.answer);
    stripped.length = written.value;
    struct pnet_sized after = pnet_size(stripped.bytes, stripped.length);
    must("size", after.answer);
    printf("%zu bytes became %zu: modes %" PRIu64 " to %" PRIu64 " are new, one for each count up to K\n", net.length, stripped.length,
           before.modes, after.modes - 1);

    must("begin", pnet_begin(stripped.bytes, stripped.length, marking, before.pairs));
    strip(&stripped, &weights, marking, before.pairs, pair, before.modes, after.modes);
    for (int each = 4; each < argc; each++) {
        struct pnet_mode mode = {(uint16_t)atoi(argv[each])};
        uint32_t there = marking[pair.number];
        struct pnet_answer fired = pnet_fire(stripped.bytes, stripped.length, marking, before.pairs, mode);
        if (fired.number != 0) {
            printf("mode %u: refused by %" PRIu64 " at pair %" PRIu64 ", amount %" PRIu64 "\n", mode.number, fired.number, fired.position,
                   fired.amount);
            break;
        }
        printf("mode %u\n", mode.number);
        if (marking[pair.number] != there)
            strip(&stripped, &weights, marking, before.pairs, pair, before.modes, after.modes);
    }
    return 0;
}
