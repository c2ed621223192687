"""Sheets and markings at document 01's limits, too long to be written out."""
import struct

from longest_run import ARCS_EACH, LIMIT, MODES, MOVEMENTS, PAIRS, arcs, capacity, first, movement
from sheets import UNBOUNDED, encode_movements as movements, encode_net as net, encode_weights as weights

ANY = UNBOUNDED


def put(sheet, at, field):
    """The sheet with another number in a field of 2 bytes."""
    return sheet[:at] + struct.pack(">H", field) + sheet[at + 2 :]


# 64 places of 4 colours, 64 transitions of 4 modes, each mode with 8 arcs of Pre 1.
LARGEST = net([4] * 64, [4] * 64, [(0, 0)] * 256, [(k // 8, k % 8, 1, 0, 0) for k in range(2048)])
# One place of 64 colours and one transition of 33 modes; 64 arcs of Pre 1 to a mode.
ARCS = [net([64], [33], [(0, 0)] * 64, [(k // 64, k % 64, 1, 0, 0) for k in range(count)]) for count in (2048, 2049)]
NO_ARCS = dict(modes=[4] * 64, arcs=[])
# Each of 256 modes takes one token from each of the first four pairs, of K 5.
TAKING = [(mode, pair, 1, 0, ANY) for mode in range(256) for pair in range(4)]
# By document 01's lines: Pre is the larger of Post 0 and 0 (I is unbounded), Post that plus the original Pre 1.
GIVING = [(mode, 128 + pair, 0, 1, ANY) for mode in range(256) for pair in range(4)]
LONGEST_ARCS = [(mode, p, pre, post, ANY if i > LIMIT else i) for mode in range(MODES) for p, pre, post, i in arcs(mode)]
LONGEST_PAIRS = [(ANY if capacity(p) > LIMIT else capacity(p), first(p)) for p in range(PAIRS)]

SHEETS = {
    "largest": LARGEST,
    # The last transition's count stands at 9 + 2 * 64 + 2 * 63 = 263, the arc count at 265 + 8 * 256 = 2,313.
    "largest_and_a_mode": put(LARGEST, 263, 5),
    "largest_and_an_arc": put(LARGEST, 2313, 2049),
    # The 2,049th arc's bytes come after the sheet, which ends at 527 + 16 * 2,048 = 33,295.
    "arcs_2048": ARCS[0] + ARCS[1][-16:],
    "arcs_2049": ARCS[1],
    # Every place, pair and arc gets a second in the complement, which so reaches 64 places, 256 pairs and 2,048 arcs.
    "half": net([4] * 32, [4] * 64, [(5, 0)] * 128, TAKING),
    "half_complement": net([4] * 64, [4] * 64, [(ANY, 0)] * 128 + [(ANY, 5)] * 128, TAKING + GIVING),
    # A fifth colour in the last place, unbounded: 129 pairs and 128 complements are 257.
    "half_and_a_pair": net([4] * 31 + [5], pairs=[(5, 0)] * 128 + [(ANY, 0)], **NO_ARCS),
    # A 33rd place of one colour, unbounded, the 32nd having three: 33 places and the 32 with a finite pair are 65.
    "half_and_a_place": net([4] * 31 + [3, 1], pairs=[(5, 0)] * 127 + [(ANY, 0)], **NO_ARCS),
    # One arc with I 4 alone at the fifth pair becomes one arc, on the complement pair: 2 * 1,024 + 1.
    "half_and_an_arc": net([4] * 32, [4] * 64, [(5, 0)] * 128, TAKING + [(255, 4, 0, 0, 4)]),
    # Four places of 64 colours, K 1,000,000, and no transition.
    "wide": net([64] * 4, [], [(LIMIT, 0)] * 256, []),
    "all_heaviest": weights([LIMIT] * 256),
    "all_lightest": weights([-LIMIT] * 256),
    "heaviest_and_minus_one": weights([LIMIT, -1] * 128),
    "longest": net([4] * 64, [4] * 64, LONGEST_PAIRS, LONGEST_ARCS),
    "longest_list": movements([movement(k) for k in range(MOVEMENTS)]),
}
MARKINGS = {"none": [0] * 256, "full": [LIMIT] * 256}
assert len(LONGEST_ARCS) == MODES * ARCS_EACH == 2048
