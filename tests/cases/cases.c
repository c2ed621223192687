/* Runs the cases of standard input (make.py writes them, and says what a case holds) through the calls for C. Prints a line for each case that differs, with
 * what was found instead, and the counts last. The status is 0 where none differs, 1 where one does, and 2 for an input that is cut short or names no call. */
#include "pnet.h"

#include <inttypes.h>
#include <stdio.h>
#include <stdlib.h>
#include <string.h>

/* What is lent: `first` is the net, or the sheet or text that is read; `second` the weights, the movements, damaged or not, the modes of a step or the
 * complement's marking. */
struct lent {
    uint64_t number; /* a mode, a pair, or how many pairs */
    const uint8_t *first, *second;
    size_t first_length, second_length;
    uint32_t *marking;
    size_t counts;
    uint8_t *out;
    size_t room;
};

/* What a call tells: the answer's number, thing, position and amount, and up to three numbers that it yields. */
enum { TOLD = 7 };
struct told {
    int64_t numbers[TOLD];
};

static struct told tell(struct pnet_answer answer, int64_t a, int64_t b, int64_t c)
{
    return (struct told){{(int64_t)answer.number, (int64_t)answer.thing, (int64_t)answer.position, (int64_t)answer.amount, a, b, c}};
}

static struct told alone(struct pnet_answer answer) { return tell(answer, 0, 0, 0); }
static struct told counted(struct pnet_counted got) { return tell(got.answer, (int64_t)got.value, 0, 0); }
static struct told weighed(struct pnet_weighed got) { return tell(got.answer, got.value, 0, 0); }
static struct told decided(struct pnet_decided got) { return tell(got.answer, got.value, 0, 0); }
static struct told named(struct pnet_named got) { return tell(got.answer, got.found, got.mode.number, got.pair.number); }
static struct told audited(struct pnet_audited got) { return tell(got.answer, got.found, got.pair.number, got.excess); }
static struct told ran(struct pnet_ran got) { return tell(got.answer, (int64_t)got.accepted, (int64_t)got.arcs, 0); }
static struct told sized(struct pnet_sized got) { return tell(got.answer, (int64_t)got.pairs, (int64_t)got.modes, (int64_t)got.arcs); }
static struct told salvaged(struct pnet_salvaged got) { return tell(got.answer, (int64_t)got.length, (int64_t)got.kept, (int64_t)got.dropped); }

static _Noreturn void stop(const char *why)
{
    printf("cases: %s\n", why);
    exit(2);
}

static void *room_for(size_t bytes)
{
    void *made = malloc(bytes + 1); /* never 0 bytes */
    if (made == NULL)
        stop("no memory is left");
    return made;
}

static uint64_t number_at(const uint8_t *bytes, size_t width)
{
    uint64_t number = 0;
    for (size_t i = 0; i < width; i++)
        number = number << 8 | bytes[i];
    return number;
}

static uint32_t *counts_of(const uint8_t *bytes, size_t counts)
{
    uint32_t *made = room_for(counts * sizeof *made);
    for (size_t i = 0; i < counts; i++)
        made[i] = (uint32_t)number_at(bytes + 4 * i, 4);
    return made;
}

static struct told step(const struct lent *l, bool fires)
{
    size_t count = l->second_length / 4;
    struct pnet_mode *modes = room_for(count * sizeof *modes);
    for (size_t i = 0; i < count; i++)
        modes[i].number = (uint16_t)number_at(l->second + 4 * i, 4);
    struct told told = alone(fires ? pnet_fire_step(l->first, l->first_length, l->marking, l->counts, modes, count)
                                   : pnet_test_step(l->first, l->first_length, l->marking, l->counts, modes, count));
    free(modes);
    return told;
}

static struct told audit(const struct lent *l)
{
    uint32_t *beside = counts_of(l->second, l->second_length / 4);
    struct told told = audited(pnet_audit(l->first, l->first_length, l->marking, l->counts, beside, l->second_length / 4));
    free(beside);
    return told;
}

#define IS(word) (strcmp(name, word) == 0)
#define FIRST l->first, l->first_length
#define BOTH FIRST, l->second, l->second_length
#define MARKING l->marking, l->counts
#define OUT l->out, l->room

/* The calls that write bytes, and those that only look into sheets. */
static struct told call_on_sheets(const char *name, const struct lent *l, struct pnet_mode mode, struct pnet_pair pair)
{
    if (IS("read_net")) return counted(pnet_read_net(FIRST));
    if (IS("read_weights")) return counted(pnet_read_weights(FIRST, l->number));
    if (IS("read_movements")) return counted(pnet_read_movements(FIRST));
    if (IS("size")) return sized(pnet_size(FIRST));
    if (IS("change")) return weighed(pnet_change(BOTH, mode));
    if (IS("is_dead")) return decided(pnet_is_dead(FIRST, mode));
    if (IS("first_dead")) return named(pnet_first_dead(FIRST));
    if (IS("salvage")) return salvaged(pnet_salvage(BOTH, OUT));
    if (IS("salvage_stop")) return alone(pnet_salvage(BOTH, OUT).stop);
    if (IS("complement")) return counted(pnet_complement(FIRST, OUT));
    if (IS("to_version_2")) return counted(pnet_to_version_2(FIRST, OUT));
    if (IS("to_version_1")) return counted(pnet_to_version_1(FIRST, OUT));
    if (IS("strip")) return counted(pnet_strip(FIRST, pair, OUT));
    if (IS("export_pnml")) return counted(pnet_export_pnml(FIRST, OUT));
    if (IS("import_pnml")) return counted(pnet_import_pnml(FIRST, OUT));
    stop("no call has that name");
}

/* The call of that name. */
static struct told call(const char *name, const struct lent *l)
{
    struct pnet_mode mode = {(uint16_t)l->number};
    struct pnet_pair pair = {(uint16_t)l->number};
    if (IS("begin")) return alone(pnet_begin(FIRST, MARKING));
    if (IS("test")) return alone(pnet_test(FIRST, MARKING, mode));
    if (IS("fire")) return alone(pnet_fire(FIRST, MARKING, mode));
    if (IS("test_step")) return step(l, false);
    if (IS("fire_step")) return step(l, true);
    if (IS("run")) return ran(pnet_run(BOTH, MARKING));
    if (IS("certify")) return alone(pnet_certify(BOTH, MARKING));
    if (IS("figure")) return weighed(pnet_figure(BOTH, MARKING));
    if (IS("exclude")) return alone(pnet_exclude(BOTH, MARKING));
    if (IS("audit")) return audit(l);
    return call_on_sheets(name, l, mode, pair);
}

/* A case's parts, in the order in which they stand. */
enum { CALL, NUMBERS, NAME, FIRST_RUN, SECOND_RUN, COUNTS, EXPECTED, COUNTS_AFTER, WRITTEN, PARTS };
struct part {
    uint8_t *bytes;
    size_t length;
};

/* The next part of standard input, with a 0 after it; false at the input's end. */
static bool read_part(struct part *part)
{
    uint8_t head[4];
    size_t got = fread(head, 1, 4, stdin);
    if (got == 0)
        return false;
    if (got < 4)
        stop("the input is cut short");
    part->length = number_at(head, 4);
    part->bytes = room_for(part->length);
    if (fread(part->bytes, 1, part->length, stdin) < part->length)
        stop("the input is cut short");
    part->bytes[part->length] = 0;
    return true;
}

/* Whether all is as expected: the numbers told, the counts, and the bytes written; a byte that is not to be written stays 0xee. */
static bool same(const struct part *parts, const struct told *told, const struct lent *l)
{
    bool all = parts[EXPECTED].length == 8 * TOLD && parts[COUNTS_AFTER].length == 4 * l->counts && parts[WRITTEN].length <= l->room;
    for (size_t i = 0; all && i < TOLD; i++)
        all = told->numbers[i] == (int64_t)number_at(parts[EXPECTED].bytes + 8 * i, 8);
    for (size_t p = 0; all && p < l->counts; p++)
        all = l->marking[p] == (uint32_t)number_at(parts[COUNTS_AFTER].bytes + 4 * p, 4);
    for (size_t i = 0; all && i < l->room; i++)
        all = l->out[i] == (i < parts[WRITTEN].length ? parts[WRITTEN].bytes[i] : 0xee);
    return all;
}

static void show(const struct part *name, const struct told *told, const struct lent *l)
{
    printf("%s: found", (const char *)name->bytes);
    for (size_t i = 0; i < TOLD; i++)
        printf(" %" PRId64, told->numbers[i]);
    printf("; counts");
    for (size_t p = 0; p < l->counts; p++)
        printf(" %" PRIu32, l->marking[p]);
    size_t written = l->room;
    while (written > 0 && l->out[written - 1] == 0xee)
        written--;
    printf("; %zu bytes\n", written);
}

/* The call is made on what is lent, and then all of it is compared. */
static bool try_case(const struct part *parts)
{
    if (parts[NUMBERS].length != 8 || parts[COUNTS].length % 4 != 0)
        stop("a case is damaged");
    struct lent l = {.number = number_at(parts[NUMBERS].bytes, 4), .room = number_at(parts[NUMBERS].bytes + 4, 4), .first = parts[FIRST_RUN].bytes,
                     .first_length = parts[FIRST_RUN].length, .second = parts[SECOND_RUN].bytes, .second_length = parts[SECOND_RUN].length,
                     .counts = parts[COUNTS].length / 4};
    l.marking = counts_of(parts[COUNTS].bytes, l.counts);
    l.out = room_for(l.room);
    memset(l.out, 0xee, l.room);
    struct told told = call((const char *)parts[CALL].bytes, &l);
    bool is_same = same(parts, &told, &l);
    if (!is_same)
        show(&parts[NAME], &told, &l);
    free(l.marking);
    free(l.out);
    return is_same;
}

int main(void)
{
    size_t cases = 0, differ = 0;
    struct part parts[PARTS];
    while (read_part(&parts[0])) {
        for (size_t i = 1; i < PARTS; i++)
            if (!read_part(&parts[i]))
                stop("the input is cut short");
        cases++;
        differ += !try_case(parts);
        for (size_t i = 0; i < PARTS; i++)
            free(parts[i].bytes);
    }
    printf("%zu cases, %zu differ\n", cases, differ);
    return differ > 0 || cases == 0;
}
