/* Which modes of a net may be entered in either order: those whose arcs share no pair (docs/RULES.md, "Either order"). Every two of them are run both
 * ways from the first marking, in the net and in its complement.
 *
 *   cc -I include examples/c/foremen.c target/staticlib/libabi.a -o foremen
 *   ./foremen examples/refit/net.sheet
 */
#include <inttypes.h>
#include <stdbool.h>
#include <stdio.h>
#include <string.h>

#include "pnet.h"

struct net {
    uint8_t bytes[PNET_LARGEST_NET];
    size_t length, pairs, modes;
    bool arc[256][PNET_PAIRS]; /* does the mode have an arc at the pair? */
};

static unsigned u16(const uint8_t *at)
{
    return at[0] << 8 | at[1];
}

/* Finds the arcs: in a net sheet of version 1 they are the last fields, 16 bytes each, mode and pair first; one of version 2 is converted.
 * False where the sheet is refused. */
static bool look(struct net *net)
{
    uint8_t sheet[PNET_LARGEST_NET];
    struct pnet_counted converted = pnet_to_version_1(net->bytes, net->length, sheet, sizeof sheet);
    if (converted.answer.number == 0) {
        memcpy(net->bytes, sheet, converted.value);
        net->length = converted.value;
    }
    struct pnet_sized size = pnet_size(net->bytes, net->length);
    if (size.answer.number != 0)
        return false;
    net->pairs = size.pairs;
    net->modes = size.modes;
    memset(net->arc, 0, sizeof net->arc);
    for (const uint8_t *at = net->bytes + net->length - 16 * size.arcs; at < net->bytes + net->length; at += 16)
        net->arc[u16(at)][u16(at + 2)] = true;
    return true;
}

/* Every arc counts, one with an inhibitor alone too. */
static bool apart(const struct net *net, unsigned one, unsigned other)
{
    for (size_t pair = 0; pair < net->pairs; pair++)
        if (net->arc[one][pair] && net->arc[other][pair])
            return false;
    return true;
}

/* Runs one and then the other from the first marking. */
static struct pnet_answer run(const struct net *net, unsigned one, unsigned other, uint32_t *marking)
{
    uint8_t movements[] = {0, 0, 0, 5, 1, one >> 8, one & 255, other >> 8, other & 255};
    pnet_begin(net->bytes, net->length, marking, net->pairs);
    return pnet_run(net->bytes, net->length, movements, sizeof movements, marking, net->pairs).answer;
}

/* Both orders are accepted and end at one marking, or neither is accepted. */
static bool alike(const struct net *net, unsigned one, unsigned other, bool *accepted)
{
    uint32_t this[PNET_PAIRS], that[PNET_PAIRS];
    *accepted = run(net, one, other, this).number == 0;
    if ((run(net, other, one, that).number == 0) != *accepted)
        return false;
    return !*accepted || memcmp(this, that, net->pairs * sizeof *this) == 0;
}

/* Tries every couple of modes both ways: names those of which one order alone is accepted, and counts those that share no pair. */
static void judge(const char *name, const struct net *net)
{
    size_t couples = 0, sharing_none = 0, same = 0, whole = 0;
    for (unsigned one = 0; one < net->modes; one++)
        for (unsigned other = 0; other < one; other++) {
            bool accepted, ends_alike = alike(net, one, other, &accepted), clear = apart(net, one, other);
            couples++;
            sharing_none += clear;
            same += clear && ends_alike;
            whole += clear && accepted;
            if (!ends_alike)
                printf("%s: %u and then %u is accepted, the other order is not\n", name, accepted ? one : other, accepted ? other : one);
        }
    printf("%s: %zu of %zu couples of modes share no pair; both orders give the same in %zu of them, and %zu are accepted\n", name,
           sharing_none, couples, same, whole);
}

int main(int argc, char **argv)
{
    static struct net net, complement;
    FILE *file = argc == 2 ? fopen(argv[1], "rb") : NULL;
    if (!file) {
        fprintf(stderr, "%s NET\n", argv[0]);
        return 1;
    }
    net.length = fread(net.bytes, 1, sizeof net.bytes, file);
    fclose(file);
    if (!look(&net))
        return 1;
    for (unsigned mode = 0; mode < net.modes; mode++) {
        printf("mode %u, at pairs", mode);
        for (unsigned pair = 0; pair < net.pairs; pair++)
            if (net.arc[mode][pair])
                printf(" %u", pair);
        printf(": either order with");
        for (unsigned other = 0; other < net.modes; other++)
            if (apart(&net, mode, other))
                printf(" %u", other);
        printf("\n");
    }
    judge("net", &net);
    complement.length = pnet_complement(net.bytes, net.length, complement.bytes, sizeof complement.bytes).value;
    if (look(&complement))
        judge("complement", &complement);
    return 0;
}
