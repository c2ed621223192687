/* How much of the stack each call uses: the call runs on a painted stack of its own, and the lowest byte that it changed is looked for.
 * What it says is from the caller's frame down, so that some bytes of it are the caller's.
 *
 *   cc -I include tests/stack.c target/staticlib/libabi.a -o stack && ./stack
 *
 * Exit status 1 where a call uses more than it may: pnet_run, pnet_salvage, pnet_fleet_add and pnet_statement 12 KiB, steps 6 KiB,
 * every other 4 KiB.
 */
#include <stdio.h>
#include <string.h>
#include <ucontext.h>

#include "pnet.h"

enum { PAINT = 0xA5, ROOM = 1 << 18, UNBOUNDED = -1 };

/* A sheet that is written from left to right. */
struct sheet {
    uint8_t bytes[40000];
    size_t length;
};

static void put(struct sheet *sheet, int bytes, uint32_t number)
{
    for (int shift = 8 * (bytes - 1); shift >= 0; shift -= 8)
        sheet->bytes[sheet->length++] = (uint8_t)(number >> shift);
}

static void open(struct sheet *sheet)
{
    sheet->length = 4;
    put(sheet, 1, 1);
}

static void close(struct sheet *sheet)
{
    size_t length = sheet->length;
    sheet->length = 0;
    put(sheet, 4, (uint32_t)(length - 4));
    sheet->length = length;
}

/* So many places and transitions of four each; each mode takes one and gives one at each of its arcs, and the last mode finds too few. */
static void net(struct sheet *sheet, int places, int transitions, int arcs, uint32_t capacity)
{
    int pairs = 4 * places, modes = 4 * transitions;
    open(sheet);
    put(sheet, 2, places);
    put(sheet, 2, transitions);
    for (int count = 0; count < places + transitions; count++)
        put(sheet, 2, 4);
    for (int pair = 0; pair < pairs; pair++) {
        put(sheet, 4, capacity);
        put(sheet, 4, capacity < 1000 ? capacity : 1000);
    }
    put(sheet, 2, modes * arcs);
    for (int mode = 0; mode < modes; mode++)
        for (int arc = 0; arc < arcs; arc++) {
            put(sheet, 2, mode);
            put(sheet, 2, arc * (pairs / arcs));
            put(sheet, 4, mode == modes - 1 ? 1001 : 1);
            put(sheet, 4, 1);
            put(sheet, 4, UNBOUNDED);
        }
    close(sheet);
}

/* The same weight for every pair. */
static void weigh(struct sheet *sheet, uint32_t weight)
{
    open(sheet);
    put(sheet, 2, PNET_PAIRS);
    for (int pair = 0; pair < PNET_PAIRS; pair++)
        put(sheet, 4, weight);
    close(sheet);
}

static struct sheet full, half, bare, two, square, weights, weightless, movements;
static uint32_t marking[PNET_PAIRS], both[PNET_PAIRS];
static uint8_t input[65536], text[PNET_LARGEST_PNML], out[PNET_LARGEST_PNML];
static size_t input_length, text_length;
static struct pnet_mode last = {255};
static struct pnet_pair last_pair = {255};
static struct pnet_mode step[64];
static struct pnet_fleet record;

static unsigned char stack[ROOM];
static volatile char *top;
static ucontext_t back, here;
static volatile uint64_t number;

#define CALL(name, expression)                 \
    static void name(void)                     \
    {                                          \
        top = __builtin_frame_address(0);      \
        number = (expression).number;          \
    }

#define NET full.bytes, full.length
#define WEIGHTS weights.bytes, weights.length
#define WEIGHTLESS weightless.bytes, weightless.length /* every mode keeps the figure 0 */
#define MOVEMENTS movements.bytes, movements.length
#define MARKING marking, PNET_PAIRS

CALL(read_net, pnet_read_net(NET).answer)
CALL(read_weights, pnet_read_weights(WEIGHTS, PNET_PAIRS).answer)
CALL(read_movements, pnet_read_movements(MOVEMENTS).answer)
CALL(begin, pnet_begin(NET, MARKING))
CALL(test, pnet_test(NET, MARKING, last))
CALL(fire, pnet_fire(NET, MARKING, last))
CALL(test_step, pnet_test_step(NET, MARKING, step, 64))
CALL(fire_step, pnet_fire_step(NET, MARKING, step, 64))
CALL(run, pnet_run(NET, MOVEMENTS, MARKING).answer)
CALL(salvage, pnet_salvage(NET, MOVEMENTS, out, sizeof out).answer)
CALL(fleet_add, pnet_fleet_add(&record, NET, WEIGHTS, MOVEMENTS))
CALL(certify, pnet_certify(NET, MOVEMENTS, MARKING))
CALL(figure, pnet_figure(NET, WEIGHTS, MARKING).answer)
CALL(change, pnet_change(NET, WEIGHTS, last).answer)
CALL(exclude, pnet_exclude(NET, WEIGHTLESS, MARKING))
CALL(is_dead, pnet_is_dead(NET, last).answer)
CALL(first_dead, pnet_first_dead(NET).answer)
CALL(size, pnet_size(NET).answer)
CALL(complement, pnet_complement(half.bytes, half.length, out, sizeof out).answer)
CALL(strip, pnet_strip(bare.bytes, bare.length, last_pair, out, sizeof out).answer)
CALL(to_version_2, pnet_to_version_2(NET, out, sizeof out).answer)
CALL(to_version_1, pnet_to_version_1(two.bytes, two.length, out, sizeof out).answer)
CALL(export_pnml, pnet_export_pnml(NET, out, sizeof out).answer)
CALL(import_pnml, pnet_import_pnml(text, text_length, out, sizeof out).answer)
CALL(audit, pnet_audit(half.bytes, half.length, marking, 128, both, 256).answer)
CALL(statement, pnet_statement(input, input_length, out, sizeof out).answer)

static const struct {
    const char *name;
    void (*call)(void);
    uint64_t number;
    long most;
} calls[] = {
    {"pnet_read_net", read_net, 0, 4096},       {"pnet_read_weights", read_weights, 0, 4096},
    {"pnet_read_movements", read_movements, 0, 4096}, {"pnet_begin", begin, 0, 4096},
    {"pnet_test", test, 11, 4096},              {"pnet_fire", fire, 11, 4096},
    {"pnet_test_step", test_step, 0, 6144},     {"pnet_fire_step", fire_step, 0, 6144},
    {"pnet_run", run, 11, 12288},               {"pnet_certify", certify, 11, 4096},
    {"pnet_figure", figure, 0, 4096},           {"pnet_change", change, 0, 4096},
    {"pnet_is_dead", is_dead, 0, 4096},         {"pnet_first_dead", first_dead, 0, 4096},
    {"pnet_size", size, 0, 4096},               {"pnet_complement", complement, 0, 4096},
    {"pnet_audit", audit, 0, 4096},             {"pnet_statement", statement, 0, 12288},
    {"pnet_exclude", exclude, 22, 4096},        {"pnet_to_version_2", to_version_2, 0, 4096},
    {"pnet_to_version_1", to_version_1, 0, 4096}, {"pnet_strip", strip, 0, 4096},
    {"pnet_salvage", salvage, 0, 12288},        {"pnet_fleet_add", fleet_add, 0, 12288},
    {"pnet_export_pnml", export_pnml, 0, 4096}, {"pnet_import_pnml", import_pnml, 0, 4096},
};

/* replay's input: the three sheets one after another. */
static void append(const struct sheet *sheet)
{
    memcpy(input + input_length, sheet->bytes, sheet->length);
    input_length += sheet->length;
}

/* Bytes below the caller's frame that the call changed. */
static long used(void (*call)(void))
{
    memset(stack, PAINT, sizeof stack);
    getcontext(&here);
    here.uc_stack.ss_sp = stack;
    here.uc_stack.ss_size = sizeof stack;
    here.uc_link = &back;
    makecontext(&here, call, 0);
    swapcontext(&back, &here);
    size_t lowest = 0;
    while (stack[lowest] == PAINT)
        lowest++;
    return (long)((char *)top - (char *)&stack[lowest]);
}

int main(void)
{
    int over = 0;
    net(&full, 64, 64, 8, UNBOUNDED);
    net(&half, 32, 64, 4, 1000000);
    net(&bare, 64, 48, 10, 63); /* room for the 64 modes that strip its last pair */
    net(&square, 16, 16, 32, UNBOUNDED); /* as many pairs, modes and arcs as can be imported */
    two.length = pnet_to_version_2(NET, two.bytes, sizeof two.bytes).value;
    text_length = pnet_export_pnml(square.bytes, square.length, text, sizeof text).value;
    weigh(&weights, 250);
    weigh(&weightless, 0);
    for (int pair = 0; pair < PNET_PAIRS; pair++) {
        marking[pair] = 1000;
        both[pair] = pair < 128 ? 1000 : 999000; /* the complement of half: K is 1000000 */
    }
    open(&movements);
    for (int movement = 0; movement < 8192; movement++)
        put(&movements, 2, movement == 8191 ? 255 : movement % 255);
    close(&movements);
    for (int member = 0; member < 64; member++)
        step[member].number = (uint16_t)(3 * member);
    append(&full);
    append(&weights);
    append(&movements);
    for (size_t each = 0; each < sizeof calls / sizeof *calls; each++) {
        calls[each].call(); /* once before: the loader binds memcpy at its first call, on the caller's stack */
        long bytes = used(calls[each].call);
        int bad = bytes > calls[each].most || number != calls[each].number;
        printf("%-22s %6ld bytes, at most %5ld%s\n", calls[each].name, bytes, calls[each].most,
               number != calls[each].number ? ": another answer" : bad ? ": TOO MANY" : "");
        over |= bad;
    }
    return over;
}
