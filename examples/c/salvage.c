/* What a yard gets back of a movement sheet whose upload ended early: a fresh sheet of the leading movements that the net accepts, and what became of the rest.
 *
 *   cc -I include examples/c/salvage.c target/staticlib/libabi.a -o salvage
 *   ./salvage examples/refit/net.sheet examples/refit/cut.sheet [FRESH]
 *
 * The fresh sheet is written to the file FRESH, where one is named.
 */
#include <inttypes.h>
#include <stdio.h>
#include <stdlib.h>

#include "pnet.h"

struct sheet {
    uint8_t bytes[65536];
    size_t length;
};

static void load(const char *path, struct sheet *sheet)
{
    FILE *file = fopen(path, "rb");
    if (file)
        sheet->length = fread(sheet->bytes, 1, sizeof sheet->bytes, file);
    if (!file || ferror(file)) {
        perror(path);
        exit(1);
    }
    fclose(file);
}

static void save(const char *path, const uint8_t *bytes, size_t length)
{
    FILE *file = fopen(path, "wb");
    size_t written = file ? fwrite(bytes, 1, length, file) : 0;
    if (!file || fclose(file) != 0 || written != length) {
        perror(path);
        exit(1);
    }
}

/* What a refusal of a movement says. */
static const char *why(uint64_t number)
{
    switch (number) {
    case 6: return "there is no such movement";
    case 11: return "too few stand there";
    case 12: return "there is no room";
    case 13: return "too many stand there for it";
    default: return "the counter is at its limit";
    }
}

int main(int argc, char **argv)
{
    static struct sheet net, damaged;
    static uint8_t fresh[5 + 2 * 8192];
    if (argc != 3 && argc != 4) {
        fprintf(stderr, "%s NET DAMAGED [FRESH]\n", argv[0]);
        return 1;
    }
    load(argv[1], &net);
    load(argv[2], &damaged);
    struct pnet_salvaged salvaged =
        pnet_salvage(net.bytes, net.length, damaged.bytes, damaged.length, fresh, sizeof fresh);
    if (salvaged.answer.number != 0) {
        printf("nothing can be salvaged: number %" PRIu64 ", thing %" PRIu64 ", position %" PRIu64 "\n", salvaged.answer.number,
               salvaged.answer.thing, salvaged.answer.position);
        return 1;
    }
    /* A movement sheet that is whole is accepted, and one that was cut is refused by 1. */
    struct pnet_counted read = pnet_read_movements(damaged.bytes, damaged.length);
    printf("%zu bytes were sent, read as they are: answer %" PRIu64 "\n", damaged.length, read.answer.number);
    printf("%" PRIu64 " movements kept, %" PRIu64 " dropped; the fresh sheet has %" PRIu64 " bytes\n", salvaged.kept, salvaged.dropped,
           salvaged.length);
    if (salvaged.stop.number != 0)
        printf("movement %" PRIu64 " is refused by %" PRIu64 " at pair %" PRIu64 ", amount %" PRIu64 ": %s\n", salvaged.kept + 1,
               salvaged.stop.number, salvaged.stop.position, salvaged.stop.amount, why(salvaged.stop.number));
    uint32_t marking[PNET_PAIRS];
    struct pnet_sized size = pnet_size(net.bytes, net.length);
    pnet_begin(net.bytes, net.length, marking, size.pairs);
    struct pnet_ran run = pnet_run(net.bytes, net.length, fresh, salvaged.length, marking, size.pairs);
    printf("the fresh sheet runs: %" PRIu64 " accepted, answer %" PRIu64 "\n", run.accepted, run.answer.number);
    if (argc == 4)
        save(argv[3], fresh, salvaged.length);
    return 0;
}
