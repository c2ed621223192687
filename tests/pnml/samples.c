/* A sample of what the engine writes for PNML tools: the complement of a net, which of a net without bounds is the net itself, its text, and the sheet that comes back
 * from the text where it has at most 64 pairs and modes.
 *
 *   cc -I include tests/pnml/samples.c target/staticlib/libabi.a -o samples
 *   ./samples NET COMPLEMENT TEXT BACK
 *
 * It prints the answers to the export and to the import. tests/pnml/check.py holds the files to each other.
 */
#include <inttypes.h>
#include <stdio.h>
#include <stdlib.h>

#include "pnet.h"

static uint8_t net[PNET_LARGEST_NET], complement[PNET_LARGEST_NET], text[PNET_LARGEST_PNML], back[PNET_LARGEST_NET];

static size_t load(const char *path, uint8_t *bytes, size_t room)
{
    FILE *file = fopen(path, "rb");
    size_t length = file ? fread(bytes, 1, room, file) : 0;
    if (!file || ferror(file)) {
        perror(path);
        exit(1);
    }
    fclose(file);
    return length;
}

static void save(const char *path, const uint8_t *bytes, size_t length)
{
    FILE *file = fopen(path, "wb");
    size_t written = file ? fwrite(bytes, 1, length, file) : 0;
    if (!file || fclose(file) != 0 || written != length) {
        perror(path);
        exit(1);
    }
}

int main(int argc, char **argv)
{
    if (argc != 5) {
        fprintf(stderr, "%s NET COMPLEMENT TEXT BACK\n", argv[0]);
        return 1;
    }
    size_t length = load(argv[1], net, sizeof net);
    struct pnet_counted written = pnet_complement(net, length, complement, sizeof complement);
    if (written.answer.number != 0) {
        fprintf(stderr, "%s: refused by %" PRIu64 " at %" PRIu64 "\n", argv[1], written.answer.number, written.answer.position);
        return 1;
    }
    struct pnet_counted exported = pnet_export_pnml(complement, written.value, text, sizeof text);
    struct pnet_counted imported = pnet_import_pnml(text, exported.value, back, sizeof back);
    save(argv[2], complement, written.value);
    save(argv[3], text, exported.value);
    save(argv[4], back, imported.value);
    printf("%" PRIu64 " %" PRIu64 "\n", exported.answer.number, imported.answer.number);
    return 0;
}
