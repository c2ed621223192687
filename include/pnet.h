/* Bezgintay, an engine for P-nets: its calls for C. Link target/staticlib/libabi.a (`tools/build abi`).
 *
 * Each call answers for any bytes, counts and numbers, and always returns. The engine holds nothing between calls, allocates
 * nothing, and uses at most 12 KiB of stack. docs/RULES.md says what a net, a sheet and a movement are, field by field and rule by rule.
 *
 * Words. A pair is a place with one of its colours: a marking has a count for each. A mode is a transition with one of its colours:
 * it is what moves. K is a pair's capacity. At a mode and a pair stand Pre, what the mode takes, Post, what it gives, and the
 * inhibitor I. A mode is enabled where, at every pair, Pre is at most the count, the count and Post together are at most K (in a net of
 * rule 1, the weak capacity rule, at most K and Pre together), and the count is at most I; firing it takes Pre and gives Post. K and I
 * may be unbounded. L, the number in the first 4 bytes of a sheet, is how many bytes follow them.
 *
 * Slices. A pointer is followed by its length in elements. Slices that are only read may overlap one another;
 * a slice that is written (no const) overlaps no other. Counts (uint32_t) and modes are aligned. Where the length is 0, the pointer
 * may be NULL.
 *
 * Sheets. A call that takes a net, weights or movements takes one whole sheet: its refusals are those of the sheet's reader,
 * and 3 for bytes after the sheet. What is refused first is said at each call, in the order in which it is looked for.
 */
#ifndef PNET_H
#define PNET_H

#include <stdbool.h>
#include <stddef.h>
#include <stdint.h>

#ifdef __cplusplus
extern "C" {
#endif

/* The version of these structs and calls is a name: every object that includes this header refers to pnet_abi_3, which answers 3.
 * One that was compiled with another version's header does not link, and the linker names what it lacks. */
uint64_t pnet_abi_3(void);

#if defined(__has_attribute)
#if __has_attribute(retain)
#define PNET_KEPT __attribute__((used, retain))
#endif
#endif
#ifndef PNET_KEPT
#define PNET_KEPT __attribute__((used))
#endif
PNET_KEPT static uint64_t (*const pnet_abi)(void) = pnet_abi_3;
#undef PNET_KEPT

/* Pairs and modes are both numbered from 0 across the whole net, place by place and transition by transition. The two are distinct
 * types, so that one is never handed over for the other. */
struct pnet_pair {
    uint16_t number;
};
struct pnet_mode {
    uint16_t number;
};

/* What pnet_answer's thing says was at fault. */
enum {
    PNET_NET = 0, /* also where a call is accepted, and for 10, 15 and any number above 18 */
    PNET_WEIGHTS = 1,
    PNET_MOVEMENTS = 2, /* also a movement that a run or a certificate refuses, or at which a salvage stops */
    PNET_ARGUMENT = 3   /* a marking, a claim, a mode, a pair, a step, a fleet's record or a text in PNML */
};

/* The limits of sheets, steps and texts. */
enum {
    PNET_PAIRS = 256,             /* at most, and so many counts in a marking */
    PNET_STEP = 64,               /* modes of a step, at most */
    PNET_SHIPS = 1000,            /* in a fleet's record, at most */
    PNET_LARGEST_NET = 35083,     /* bytes, of a complement too */
    PNET_LARGEST_LIST = 16389,    /* bytes of a movement sheet */
    PNET_LARGEST_COUNT = 1000000, /* in a sheet or a marking */
    PNET_TEXT_ROOM = 262144,      /* bytes, for any text of replay */
    PNET_LARGEST_PNML = 467928    /* bytes of a text in PNML */
};

/* An answer: its number, which thing was at fault, where, and by how much. The position of a byte, a field or an arc is the offset of its
 * first byte, counted from 0 at the first byte of its sheet or text; that of a pair or a mode is its number.
 *
 *   No  Given exactly when                                                        Position
 *    0  accepted                                                                  0
 *    1  fewer than 4 bytes, or fewer than 4 + L                                   0
 *       fewer than 5 damaged bytes, in pnet_salvage                               0
 *    2  the version byte is not 1, of a net sheet not 1 or 2                      4
 *       it is not the version that a conversion is from                           4
 *    3  L is 0                                                                    0
 *       a field runs past L                                                       the field
 *       bytes are left over after the last field, or after the sheet              the first of them
 *    4  a count is outside its limits, or the running total passes 256            the count's field
 *       in version 2 the running total of the modes' arc counts passes 2,048      that count's field
 *       a movement sheet has more than 8,192 movements                            5
 *       in version 2 the rule byte is neither 0 nor 1                             5
 *       a step is empty, or has more than PNET_STEP modes                         0
 *       a fleet's record has PNET_SHIPS ships already                             0
 *       a text in PNML has more than 64 pairs or 64 modes                         0
 *    5  a number is outside its range                                             its field; in a marking, the pair
 *    6  an arc's mode or pair is not there                                        its field in the arc
 *       a movement's mode, the mode handed over or one of a step is not there     0
 *       the pair that is to be stripped is not there                              0
 *    7  an arc is not above the one before, by mode, then pair                    the arc
 *       in version 2 its pair is not above that of its mode's arc before          the arc
 *    8  an arc is blank: Pre and Post are 0, I is unbounded                       the arc
 *    9  a count is above a bounded K                                              the first marking's field; in a marking, the pair
 *   10  the complement exceeds a sheet's limits                                   0
 *       K of the pair to strip is above 63, or a sheet's limit would be passed    0
 *       `room` is less than the sheet or PNML that is to be written takes         0
 *       `room` is below PNET_TEXT_ROOM, in pnet_statement                         0
 *   11  Pre is above the count                                                    the lowest such pair
 *   12  the count and Post together are above K, by rule 1 above K and Pre        the lowest such pair
 *   13  the count is above I                                                      the lowest such pair
 *   14  the new count is above 1,000,000                                          the lowest such pair
 *   15  I is bounded at a pair of unbounded K, in pnet_complement and pnet_audit  the arc
 *       the pair that is to be stripped has unbounded K                           0
 *   16  reserved: no answer has it
 *   17  a marking or weights are not one for each pair                            0; in weights, 5
 *   18  a certificate ends at another marking than is claimed                     the lowest pair that differs
 *   19  a K is bounded, in pnet_export_pnml                                       the first such K's field
 *       no K is, and an I is                                                      the first such I's field, in the arcs as they stand
 *   20  no export agrees with a text, in pnet_import_pnml                         the first byte from which none does, or the text's length
 *   21  a mode's weight change is not 0, in pnet_exclude                          the lowest such mode
 *   22  the claim has the figure of the first marking, in pnet_exclude            0
 *   23  a net of rule 1 has no sheet of version 1, in pnet_to_version_1           0
 *   24  a figure of a fleet's record would be above 10^18                         0
 *   25  a fleet's record is out of its bounds                                     0
 *
 * Numbers above 25 are kept for later calls; every number above 18 has thing PNET_NET.
 *
 * The amount is a number of tokens at the pair that the position names, at least 1:
 *
 *   11  how many are lacking: Pre less the count
 *   12  how many are over the capacity: the count and Post together, less K, and by rule 1 less Pre
 *   13  how many are over the inhibitor: the count less I
 *   14  how many are over the counter's limit: the new count less 1,000,000
 *
 * It is 0 for every other number. Of a step, Pre, Post and I are the sums and the least. */
struct pnet_answer {
    uint64_t number;
    uint64_t thing;
    uint64_t position;
    uint64_t amount;
};

/* Bytes, 0 where the call is refused. */
struct pnet_counted {
    struct pnet_answer answer;
    uint64_t value;
};

/* How many movements a run accepted, and how many arcs it visited: each movement tried counts the arcs of its mode once, the refused one
 * too, and a mode that is not there counts 0. Both are 0 where the run is refused before its first movement. */
struct pnet_ran {
    struct pnet_answer answer;
    uint64_t accepted;
    uint64_t arcs;
};

/* Kilograms, 0 where the call is refused. */
struct pnet_weighed {
    struct pnet_answer answer;
    int64_t value;
};

/* Yes or no; no where the call is refused. */
struct pnet_decided {
    struct pnet_answer answer;
    bool value;
};

/* A mode and a pair where found is true; otherwise, and where the call is refused, both are 0 and say nothing. */
struct pnet_named {
    struct pnet_answer answer;
    bool found;
    struct pnet_mode mode;
    struct pnet_pair pair;
};

/* A pair of the net that is out of step and by how much, where found is true; otherwise, and where the call is refused, both are 0 and say
 * nothing. */
struct pnet_audited {
    struct pnet_answer answer;
    bool found;
    struct pnet_pair pair;
    int64_t excess;
};

/* How many bytes of a fresh movement sheet were written, how many movements it has, how many more were considered and dropped, and the answer to
 * the first of these, all 0 if there is none; all 0 where the call is refused. */
struct pnet_salvaged {
    struct pnet_answer answer;
    uint64_t length;
    uint64_t kept;
    uint64_t dropped;
    struct pnet_answer stop;
};

/* How many pairs, modes and arcs a net has; each 0 where the call is refused. */
struct pnet_sized {
    struct pnet_answer answer;
    uint64_t pairs;
    uint64_t modes;
    uint64_t arcs;
};

/* The running record of a fleet, which the caller keeps; all 0 at first. */
struct pnet_fleet {
    uint64_t ships;      /* counted, at most PNET_SHIPS */
    uint64_t movements;  /* accepted */
    uint64_t refused[5]; /* ships whose run was stopped by 6, 11, 12, 13 and 14 */
    int64_t added;       /* kilograms, at most 10^18: weight changes above 0 of accepted movements */
    int64_t removed;     /* kilograms, at most 10^18: the sizes of those below 0 */
};

/* Readers. Each reads the sheet at the start of a run of bytes, which may go on after it, and writes nothing. The value is how
 * many bytes the sheet takes: what follows begins there.
 *
 * pnet_read_net        refuses by 1 to 9, thing PNET_NET
 * pnet_read_weights    refuses by 1, 2, 3, 17 where the sheet's pair count is not `pairs`, 5; thing PNET_WEIGHTS
 * pnet_read_movements  refuses by 1, 2, 3, 4; thing PNET_MOVEMENTS
 */
struct pnet_counted pnet_read_net(const uint8_t *bytes, size_t length);
struct pnet_counted pnet_read_weights(const uint8_t *bytes, size_t length, size_t pairs);
struct pnet_counted pnet_read_movements(const uint8_t *bytes, size_t length);

/* How large the net is: a marking has one count for each of its pairs, and its modes have the numbers below `modes`. Writes nothing.
 * Refuses: the net. */
struct pnet_sized pnet_size(const uint8_t *net, size_t net_length);

/* Writes the net's first marking. Reads the net; of the marking only the length matters.
 * Refuses: the net; 17 (PNET_ARGUMENT) where the marking is not one count for each pair. A refused call writes nothing. */
struct pnet_answer pnet_begin(const uint8_t *net, size_t net_length, uint32_t *marking, size_t counts);

/* Whether the mode is enabled at the marking. Writes nothing.
 * Refuses: the net; the marking: 17, then pair by pair 5 and 9; the mode: 6, 11, 12, 13, 14 (all PNET_ARGUMENT). */
struct pnet_answer pnet_test(const uint8_t *net, size_t net_length, const uint32_t *marking, size_t counts,
                             struct pnet_mode mode);

/* Fires the mode: writes the marking after it. Refuses what pnet_test refuses; a refused call writes nothing. */
struct pnet_answer pnet_fire(const uint8_t *net, size_t net_length, uint32_t *marking, size_t counts,
                             struct pnet_mode mode);

/* Whether a step is enabled at the marking: its modes, 1 to PNET_STEP of them, fire at once. A mode may stand there more than once, and
 * counts each time. Pre and Post are summed over the modes, and I is the least of theirs; a mode without an arc at a pair
 * counts 0, 0 and unbounded there. Writes nothing.
 * Refuses: the net; the marking: 17, then pair by pair 5 and 9; the step: 4, then 6 for any of its modes, then 11, 12, 13, 14 over the
 * sums (all PNET_ARGUMENT). A step of one mode is answered as pnet_test answers the mode. */
struct pnet_answer pnet_test_step(const uint8_t *net, size_t net_length, const uint32_t *marking, size_t counts,
                                  const struct pnet_mode *modes, size_t modes_count);

/* Fires a step: writes the marking after all its modes. Refuses what pnet_test_step refuses; a refused call writes nothing. */
struct pnet_answer pnet_fire_step(const uint8_t *net, size_t net_length, uint32_t *marking, size_t counts,
                                  const struct pnet_mode *modes, size_t modes_count);

/* Runs the movements from the counts found in the marking, up to the first that is refused. `accepted` is how many were accepted and `arcs`
 * how many arcs were visited, also where a movement is refused; the marking is what the accepted ones gave.
 * Refuses: the net; the movements; the marking: 17, then pair by pair 5 and 9 (PNET_ARGUMENT); a movement: 6, 11, 12, 13, 14
 * (PNET_MOVEMENTS). */
struct pnet_ran pnet_run(const uint8_t *net, size_t net_length, const uint8_t *movements, size_t movements_length, uint32_t *marking,
                         size_t counts);

/* Whether the movements run whole from the net's first marking and end at the claim. Writes nothing.
 * Refuses: the net; the movements; 17 for the claim (PNET_ARGUMENT); a movement: 6, 11, 12, 13, 14 (PNET_MOVEMENTS); 18 at the
 * lowest pair that ends elsewhere (PNET_ARGUMENT). The claim's counts are compared, and may be any. */
struct pnet_answer pnet_certify(const uint8_t *net, size_t net_length, const uint8_t *movements, size_t movements_length,
                                const uint32_t *claim, size_t counts);

/* What can be kept of a damaged movement sheet: writes a fresh sheet with the longest run of its leading movements that the net accepts from its
 * first marking, from the first byte of `out` on. No byte after it is touched, and PNET_LARGEST_LIST bytes are always room enough. Bytes
 * past the length L are ignored; where L says more than is there, what is there is used; a lone last byte is dropped; at most 8,192 movements
 * are considered. `stop` is the refusal of the first dropped one, 6, 11, 12, 13 or 14 (PNET_MOVEMENTS) with its amount. The sheet written runs
 * whole from the first marking, and with that one added it does not; a sheet that is whole and runs whole is written as it is.
 * Refuses: the net; of the damaged bytes 1 where they are fewer than 5, 3 where L is 0, 2 (PNET_MOVEMENTS); 10 where `room` is less than
 * the sheet takes. A refused call writes nothing. */
struct pnet_salvaged pnet_salvage(const uint8_t *net, size_t net_length, const uint8_t *damaged, size_t damaged_length, uint8_t *out,
                                  size_t room);

/* The lightship figure of the marking: the sum of weight times count. Writes nothing.
 * Refuses: the net; the weights; the marking: 17, then pair by pair 5 and 9 (PNET_ARGUMENT). */
struct pnet_weighed pnet_figure(const uint8_t *net, size_t net_length, const uint8_t *weights, size_t weights_length,
                                const uint32_t *marking, size_t counts);

/* The mode's weight change: the sum of weight times (Post less Pre). Writes nothing.
 * Refuses: the net; the weights; 6 for the mode (PNET_ARGUMENT). */
struct pnet_weighed pnet_change(const uint8_t *net, size_t net_length, const uint8_t *weights, size_t weights_length,
                                struct pnet_mode mode);

/* Counts one ship more in the lent record: its movements are run from the net's first marking, up to the first that is refused. The ship is
 * counted and the call accepted also where a movement is refused: one is added under its number. Added and removed grow by the weight change
 * of each accepted movement. From a record of zeros, with each ship given the record as the one before left it, the starting figures of the
 * ships counted, plus added, less removed, are their last figures. The record overlaps no sheet.
 * Refuses: 25 for a record with ships or a refused count above 1,000, movements above 8,192,000, or a figure below 0 or above 10^18; 4 for
 * ship 1,001 (PNET_ARGUMENT); the net; the weights; the movements; 24 where added or removed would be above 10^18. A refused call leaves
 * the record as it was found. */
struct pnet_answer pnet_fleet_add(struct pnet_fleet *record, const uint8_t *net, size_t net_length, const uint8_t *weights,
                                  size_t weights_length, const uint8_t *movements, size_t movements_length);

/* Whether the weights show that the claim is out of reach: every mode's weight change is 0, so that the figure stays the same over any
 * movements, and the claim's figure is not that of the net's first marking. Where it is accepted, no movements lead from the first marking to the
 * claim, however many; where it is refused, nothing is shown. The weights need not be kilograms. Writes nothing.
 * Refuses: the net; the weights; the claim as a marking: 17, then pair by pair 5 and 9 (PNET_ARGUMENT); 21 at the first mode that changes the
 * figure, locally dead or not; 22. */
struct pnet_answer pnet_exclude(const uint8_t *net, size_t net_length, const uint8_t *weights, size_t weights_length,
                                const uint32_t *claim, size_t counts);

/* Whether the mode is locally dead: at some pair Pre is above the least of K less Post and I (by rule 1 of K and I), or Post is above K.
 * Exactly then no marking enables it. Writes nothing.
 * Refuses: the net; 6 for the mode (PNET_ARGUMENT). */
struct pnet_decided pnet_is_dead(const uint8_t *net, size_t net_length, struct pnet_mode mode);

/* The lowest locally dead mode, with the lowest pair that makes it so, if there is one; a complement has none. Writes nothing.
 * Refuses: the net. */
struct pnet_named pnet_first_dead(const uint8_t *net, size_t net_length);

/* Writes the sheet of the net's complement from the first byte of `out` on; the value is its length. No byte after it is touched,
 * and PNET_LARGEST_NET bytes are always room enough. It has the version and the rule of the net. A locally dead mode, which is enabled at
 * no marking of the net, nor at one of the complement that is in step with it (pnet_audit), gives back at every complement pair what it takes there.
 * Refuses: the net; 15 at its first arc, of a locally dead mode too; 10 where the complement exceeds a sheet's limits or `room`. A
 * refused call writes nothing. */
struct pnet_counted pnet_complement(const uint8_t *net, size_t net_length, uint8_t *out, size_t room);

/* Writes the net of a sheet of version 1 as a sheet of version 2 (of rule 0), or back, from the first byte of `out` on; the value is its length.
 * What one wrote, the other takes back to the very bytes that it was written from. No byte after the sheet is touched, and PNET_LARGEST_NET
 * bytes are always room enough.
 * Refuses: the net, a sheet of the version that is to be written by 2; 23, to version 1, where the net has rule 1; 10 where `room` is less
 * than the sheet takes. A refused call writes nothing. */
struct pnet_counted pnet_to_version_2(const uint8_t *net, size_t net_length, uint8_t *out, size_t room);
struct pnet_counted pnet_to_version_1(const uint8_t *net, size_t net_length, uint8_t *out, size_t room);

/* Writes the sheet of the net with one transition appended, which strips a pair bare whatever its count: its mode n, for n from 0 to the
 * pair's K, takes n tokens there (Pre n) and is refused above n (I n). At every marking within capacity exactly one of these modes is
 * enabled, the one numbered by the count; it leaves 0 at the pair and every other pair as it was. The new modes are numbered after all
 * others, which keep their numbers and answer as before. The version and the rule are those of the sheet given; the value is the length
 * written. No byte after it is touched, and PNET_LARGEST_NET bytes are always room enough.
 * Refuses: the net; 6 for the pair, thing PNET_ARGUMENT; 15 where its K is unbounded; 10 where K is above 63, where the net would have more
 * than 64 transitions, 256 modes or 2,048 arcs, or where `room` is less than its sheet takes. A refused call writes nothing. */
struct pnet_counted pnet_strip(const uint8_t *net, size_t net_length, struct pnet_pair pair, uint8_t *out, size_t room);

/* Writes the net as a text in PNML (ISO/IEC 15909-2), a place/transition net, from the first byte of `out` on; the value is its length. Every K
 * and I of the net is unbounded, as in a complement. Each pair is a place (pair 7 is p007) with its first marking, each mode a transition (mode 3
 * is t003), and each Pre or Post above 0 an arc with that weight, from p007 to t003 (i003-007) or back (o003-007). The net's places and colours, its
 * version and its rule are not in the text. It is ASCII, its last byte ends its last line, and no byte after it is touched; PNET_LARGEST_PNML
 * bytes are always room enough.
 * Refuses: the net; 19 at the first bounded K, then at the first bounded I, of a locally dead mode too; 10 where `room` is less than the text
 * takes. A refused call writes nothing. */
struct pnet_counted pnet_export_pnml(const uint8_t *net, size_t net_length, uint8_t *out, size_t room);

/* Writes the net that a text in PNML is the export of, as a sheet of version 1 from the first byte of `out` on; the value is its length. It has the
 * pairs, modes, numbers and first marking of the net that was exported, each pair as a place of one colour and each mode as a transition of one
 * mode. Only what pnet_export_pnml writes is read, byte for byte: another tool's text of the same net is refused, and so is a byte after the
 * end. No byte after the sheet is touched, and PNET_LARGEST_NET bytes are always room enough.
 * Refuses: 20 at the first byte from which no export agrees with the text, or at `text_length` where the text is the beginning of an export; 4
 * (PNET_ARGUMENT) where it is an export of more than 64 pairs or 64 modes; 10 where `room` is less than the sheet takes. A refused call writes
 * nothing. */
struct pnet_counted pnet_import_pnml(const uint8_t *text, size_t text_length, uint8_t *out, size_t room);

/* Sets a marking of the net beside one of its complement (which has first the net's pairs, then one for each pair of bounded K), and names the
 * lowest pair of the net at which the two are out of step: they differ on it, or its K is bounded and its count and its complement
 * pair's do not add up to K. Found is false where there is none: so it is after any movements, where both begin as their nets do and every
 * movement is fired in both. A token that was left behind is found at once.
 * The excess is the count plus the complement pair's count less K, where K is bounded and that is not 0; otherwise the count less the count
 * of the same pair in the complement's marking. Writes nothing. The counts are compared, and may be any.
 * Refuses: the net; 15 at its first arc; 10 where the complement exceeds a sheet's limits; 17 for the marking, then for the complement's
 * (PNET_ARGUMENT), where it is not one count for each pair of its net. */
struct pnet_audited pnet_audit(const uint8_t *net, size_t net_length, const uint32_t *marking, size_t counts,
                               const uint32_t *complement_marking, size_t complement_counts);

/* Writes the text that `replay` prints for an input (a net sheet, a weight sheet, a movement sheet, then nothing) from the first byte of
 * `out` on; the value is its length. No byte after it is touched. A bad or a long input has a text too: the call
 * refuses only a room below PNET_TEXT_ROOM, by 10, and then writes nothing. */
struct pnet_counted pnet_statement(const uint8_t *input, size_t input_length, uint8_t *out, size_t room);

#ifdef __cplusplus
}
#endif

#endif
