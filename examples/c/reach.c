/* What can never happen, by weights that every movement keeps. In the refit pumps are moved, and none is made or lost: let each weigh 1, wherever it
 * stands, and all else nothing.
 *
 *   cc -I include examples/c/reach.c target/staticlib/libabi.a -o reach
 *   ./reach examples/refit/net.sheet examples/refit/weights.sheet
 */
#include <inttypes.h>
#include <stdio.h>
#include <stdlib.h>
#include <string.h>

#include "pnet.h"

enum { PAIRS = 13 };
enum { STORE, FORWARD = 3, MACHINERY = 6, QUAY = 9 }; /* the pumps' pairs */

struct sheet {
    uint8_t bytes[PNET_LARGEST_NET];
    size_t length;
};

static struct sheet net, kilograms, pumps;

static void load(const char *path, struct sheet *sheet)
{
    FILE *file = fopen(path, "rb");
    if (!file) {
        perror(path);
        exit(1);
    }
    sheet->length = fread(sheet->bytes, 1, sizeof sheet->bytes, file);
    fclose(file);
}

/* L, the version, the number of weights, then 4 bytes for each pair. */
static void weigh_pumps(void)
{
    static const uint8_t head[] = {0, 0, 0, 3 + 4 * PAIRS, 1, 0, PAIRS};
    memcpy(pumps.bytes, head, sizeof head);
    pumps.length = sizeof head + 4 * PAIRS;
    for (int pair = STORE; pair <= QUAY; pair += 3)
        pumps.bytes[sizeof head + 4 * pair + 3] = 1;
}

static void ask(const char *words, const struct sheet *weights, const uint32_t *claim)
{
    struct pnet_answer answer =
        pnet_exclude(net.bytes, net.length, weights->bytes, weights->length, claim, PAIRS);
    if (answer.number == 0)
        printf("%s: no list of movements leads there\n", words);
    else if (answer.number == 21)
        printf("%s: nothing is shown, mode %" PRIu64 " changes the figure\n", words, answer.position);
    else if (answer.number == 22)
        printf("%s: nothing is shown, the figure is that of the first marking\n", words);
    else
        printf("%s: refused by %" PRIu64 " at %" PRIu64 "\n", words, answer.number, answer.position);
}

int main(int argc, char **argv)
{
    uint32_t claim[PAIRS];
    if (argc != 3) {
        fprintf(stderr, "%s NET WEIGHTS\n", argv[0]);
        return 1;
    }
    load(argv[1], &net);
    load(argv[2], &kilograms);
    weigh_pumps();
    if (pnet_begin(net.bytes, net.length, claim, PAIRS).number != 0)
        return 1;

    claim[STORE] = 0, claim[MACHINERY] = 3, claim[QUAY] = 2;
    ask("three pumps in the machinery space and two on the quay", &pumps, claim);
    claim[QUAY] = 0;
    ask("three pumps in the machinery space and no other", &pumps, claim);
    claim[QUAY] = 1;
    ask("three pumps in the machinery space and one on the quay", &pumps, claim);
    claim[QUAY] = 2;
    ask("five pumps, by the kilograms that the ship is weighed by", &kilograms, claim);
    claim[FORWARD] = 3;
    ask("three pumps forward, where K is 2", &pumps, claim);
    return 0;
}
