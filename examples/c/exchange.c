/* A net for a partner whose tools read PNML (ISO/IEC 15909-2): the text of its complement, which has no bounds, and what comes of each text that the partner sends back.
 *
 *   cc -I include examples/c/exchange.c target/staticlib/libabi.a -o exchange
 *   ./exchange examples/refit/net.sheet examples/refit/movements.sheet refit.pnml [BACK ..]
 *
 * The text is written to the third file. Of each text that came back it says whether the net is the one that was sent, and how far the movements run in it; or the byte
 * from which it is no export.
 */
#include <inttypes.h>
#include <stdio.h>
#include <stdlib.h>
#include <string.h>

#include "pnet.h"

struct sheet {
    uint8_t bytes[PNET_LARGEST_NET + 1]; /* one more: a file that is longer is no sheet */
    size_t length;
};

struct text {
    uint8_t bytes[PNET_LARGEST_PNML + 1]; /* one more: a file that is longer is none */
    size_t length;
};

static struct sheet net, movements, complement, imported;
static struct text sent, back, again;

static size_t load(const char *path, uint8_t *bytes, size_t room)
{
    FILE *file = fopen(path, "rb");
    size_t length = file ? fread(bytes, 1, room, file) : 0;
    if (!file || ferror(file)) {
        perror(path);
        exit(1);
    }
    fclose(file);
    return length;
}

static void save(const char *path, const struct text *text)
{
    FILE *file = fopen(path, "wb");
    size_t written = file ? fwrite(text->bytes, 1, text->length, file) : 0;
    if (!file || fclose(file) != 0 || written != text->length) {
        perror(path);
        exit(1);
    }
}

/* What the run of the movements over a net comes to. */
static void run(const struct sheet *over)
{
    uint32_t marking[PNET_PAIRS];
    struct pnet_sized size = pnet_size(over->bytes, over->length);
    pnet_begin(over->bytes, over->length, marking, size.pairs);
    struct pnet_ran ran = pnet_run(over->bytes, over->length, movements.bytes, movements.length, marking, size.pairs);
    printf("pairs %" PRIu64 ", modes %" PRIu64 ", arcs %" PRIu64 "; movements accepted: %" PRIu64, size.pairs, size.modes, size.arcs, ran.accepted);
    if (ran.answer.number != 0)
        printf(", then %" PRIu64 " at pair %" PRIu64 ", amount %" PRIu64, ran.answer.number, ran.answer.position, ran.answer.amount);
    printf("\n");
}

/* The line of a text in which a byte stands, as an editor counts lines and columns, without the spaces that it begins with. */
static void show(const struct text *text, size_t at)
{
    size_t line = 1, start = 0, end;
    for (size_t byte = 0; byte < at; byte++)
        if (text->bytes[byte] == '\n')
            line++, start = byte + 1;
    printf("line %zu, column %zu: ", line, at - start + 1);
    while (start < text->length && text->bytes[start] == ' ')
        start++;
    for (end = start; end < text->length && text->bytes[end] != '\n'; end++)
        ;
    printf("%.*s\n", (int)(end - start), (const char *)text->bytes + start);
}

static void came_back(const char *path)
{
    const char *name = strrchr(path, '/') ? strrchr(path, '/') + 1 : path;
    back.length = load(path, back.bytes, sizeof back.bytes);
    struct pnet_counted read = pnet_import_pnml(back.bytes, back.length, imported.bytes, sizeof imported.bytes);
    if (read.answer.number == 20) {
        printf("%s: refused by 20 at byte %" PRIu64 ", ", name, read.answer.position);
        show(&back, read.answer.position);
        return;
    }
    if (read.answer.number != 0) {
        printf("%s: refused by %" PRIu64 "\n", name, read.answer.number);
        return;
    }
    imported.length = read.value;
    /* Equal nets have equal texts, and a net that was imported has the text that it came from. */
    again.length = pnet_export_pnml(imported.bytes, imported.length, again.bytes, sizeof again.bytes).value;
    int same = again.length == sent.length && memcmp(again.bytes, sent.bytes, sent.length) == 0;
    printf("%s: %s, %zu bytes as a sheet, ", name, same ? "the net that was sent" : "ANOTHER NET than was sent", imported.length);
    run(&imported);
}

int main(int argc, char **argv)
{
    if (argc < 4) {
        fprintf(stderr, "%s NET MOVEMENTS TEXT [BACK ..]\n", argv[0]);
        return 1;
    }
    net.length = load(argv[1], net.bytes, sizeof net.bytes);
    movements.length = load(argv[2], movements.bytes, sizeof movements.bytes);
    struct pnet_counted written = pnet_export_pnml(net.bytes, net.length, sent.bytes, sizeof sent.bytes);
    if (written.answer.number != 0)
        printf("the net itself has no text: refused by %" PRIu64 " at byte %" PRIu64 "\n", written.answer.number, written.answer.position);
    written = pnet_complement(net.bytes, net.length, complement.bytes, sizeof complement.bytes);
    if (written.answer.number != 0) {
        printf("nor has it a complement: refused by %" PRIu64 " at %" PRIu64 "\n", written.answer.number, written.answer.position);
        return 1;
    }
    complement.length = written.value;
    sent.length = pnet_export_pnml(complement.bytes, complement.length, sent.bytes, sizeof sent.bytes).value;
    save(argv[3], &sent);
    printf("its complement, %zu bytes as a sheet and %zu as a text: ", complement.length, sent.length);
    run(&complement);
    for (int each = 4; each < argc; each++)
        came_back(argv[each]);
    return 0;
}
