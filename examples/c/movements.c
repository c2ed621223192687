/* Runs the movements of three sheet files over a net, first one by one with the figure, then as one run, and certifies the end.
 * Each file holds one sheet and nothing after it.
 *
 *   cc -I include examples/c/movements.c target/staticlib/libabi.a -o movements
 *   ./movements examples/refit/net.sheet examples/refit/weights.sheet examples/refit/movements.sheet
 */
#include <inttypes.h>
#include <stdio.h>
#include <stdlib.h>
#include <string.h>

#include "pnet.h"

struct sheet {
    uint8_t bytes[65536];
    size_t length;
};

/* The whole file, or none of it: a directory opens, and only reading it fails. */
static void load(const char *path, struct sheet *sheet)
{
    FILE *file = fopen(path, "rb");
    if (file)
        sheet->length = fread(sheet->bytes, 1, sizeof sheet->bytes, file);
    if (!file || ferror(file)) {
        perror(path);
        exit(1);
    }
    if (fgetc(file) != EOF) {
        fprintf(stderr, "%s: more than %zu bytes, and so no sheet\n", path, sizeof sheet->bytes);
        exit(1);
    }
    fclose(file);
}

static void must(const char *call, struct pnet_answer answer)
{
    if (answer.number != 0) {
        printf("%s refused: number %" PRIu64 ", thing %" PRIu64 ", position %" PRIu64 "\n", call, answer.number,
               answer.thing, answer.position);
        exit(1);
    }
}

/* Where a sheet ends, as its reader says: bytes after it belong to nothing, and every call that takes the sheet refuses them by 3. */
static size_t end(const char *call, const struct sheet *sheet, struct pnet_counted read)
{
    must(call, read.answer);
    if (read.value != sheet->length) {
        printf("%s: %zu bytes after the sheet\n", call, (size_t)(sheet->length - read.value));
        exit(1);
    }
    return read.value;
}

int main(int argc, char **argv)
{
    static struct sheet net, weights, movements;
    static uint8_t complement[PNET_LARGEST_NET];
    uint32_t marking[PNET_PAIRS], start[PNET_PAIRS];
    if (argc != 4) {
        fprintf(stderr, "%s NET WEIGHTS MOVEMENTS\n", argv[0]);
        return 1;
    }
    load(argv[1], &net);
    load(argv[2], &weights);
    load(argv[3], &movements);

    struct pnet_sized size = pnet_size(net.bytes, net.length);
    must("size", size.answer);
    size_t pairs = size.pairs;
    must("begin", pnet_begin(net.bytes, net.length, marking, pairs));
    memcpy(start, marking, sizeof start);
    end("read_weights", &weights, pnet_read_weights(weights.bytes, weights.length, pairs));
    size_t last = end("read_movements", &movements, pnet_read_movements(movements.bytes, movements.length));

    /* A movement sheet is 5 bytes, then 2 bytes for each mode. */
    for (size_t at = 5; at < last; at += 2) {
        struct pnet_mode mode = {(uint16_t)(movements.bytes[at] << 8 | movements.bytes[at + 1])};
        struct pnet_answer fired = pnet_fire(net.bytes, net.length, marking, pairs, mode);
        if (fired.number != 0) {
            printf("mode %u: refused by %" PRIu64 " at pair %" PRIu64 ", amount %" PRIu64 "\n", mode.number, fired.number,
                   fired.position, fired.amount);
            break;
        }
        struct pnet_weighed change = pnet_change(net.bytes, net.length, weights.bytes, weights.length, mode);
        struct pnet_weighed figure = pnet_figure(net.bytes, net.length, weights.bytes, weights.length, marking, pairs);
        must("change", change.answer);
        must("figure", figure.answer);
        printf("mode %u: %+" PRId64 " kg, figure %" PRId64 " kg\n", mode.number, change.value, figure.value);
    }

    struct pnet_ran run = pnet_run(net.bytes, net.length, movements.bytes, movements.length, start, pairs);
    printf("run: %" PRIu64 " accepted, %" PRIu64 " arcs visited, answer %" PRIu64 "; the marking is %s\n", run.accepted, run.arcs,
           run.answer.number, memcmp(start, marking, pairs * sizeof *marking) ? "another" : "the same");
    struct pnet_answer certified =
        pnet_certify(net.bytes, net.length, movements.bytes, movements.length, marking, pairs);
    printf("certificate: answer %" PRIu64 "\n", certified.number);

    struct pnet_named dead = pnet_first_dead(net.bytes, net.length);
    must("first_dead", dead.answer);
    if (dead.found)
        printf("mode %u is locally dead at pair %u\n", dead.mode.number, dead.pair.number);
    else
        printf("no mode is locally dead\n");

    struct pnet_counted written = pnet_complement(net.bytes, net.length, complement, sizeof complement);
    must("complement", written.answer);
    printf("complement: %" PRIu64 " bytes, answer %" PRIu64 "\n", written.value,
           pnet_read_net(complement, written.value).answer.number);

    /* Where the length is 0, the pointer may be NULL. */
    printf("no bytes: answer %" PRIu64 "\n", pnet_read_net(NULL, 0).answer.number);
    return 0;
}
