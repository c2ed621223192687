"""Net sheets of both versions (document 02, P9): at the limits, too long to be written out, and damaged."""
from sheets import UNBOUNDED, encode_net as net

# Document 01's own example, 65 bytes; in version 2, without the arc count and the modes of its two arcs but with a rule byte and a count for its mode, 62.
EXAMPLE = [1, 1], [1], [(5, 3), (UNBOUNDED, 0)], [(0, 0, 1, 0, 4), (0, 1, 0, 1, UNBOUNDED)]
ONE, TWO = (net(*EXAMPLE, version=version) for version in (1, 2))
# 32 modes of 64 arcs.
MANY = [64], [32], [(0, 0)] * 64, [(mode, pair, 1, 0, 0) for mode in range(32) for pair in range(64)]
EMPTY = [1], [64] * 4, [(UNBOUNDED, 0)], []


def every_pair(modes, more=()):
    """256 pairs in four places, and a mode with an arc at each of them, so many times; then other arcs."""
    arcs = [(mode, pair, 1, 0, 0) for mode in range(modes) for pair in range(256)] + [*more]
    return net([64] * 4, [modes + len(more)], [(0, 0)] * 256, arcs, version=2)


def counting(arcs):
    """One mode that says it has so many arcs, and none of them."""
    return net([1], [1], [(0, 0)], [], version=2)[:-2] + arcs.to_bytes(2, "big")


SHEETS = {
    "version_1": ONE,
    "version_2": TWO,
    "version_3": ONE[:4] + b"\3" + ONE[5:],
    "two_without_rule": b"\0\0\0\1\2",
    "two_of_rule_1": TWO[:5] + b"\1" + TWO[6:],
    "two_of_rule_2": TWO[:5] + b"\2" + TWO[6:],
    "two_of_rule_255": TWO[:5] + b"\xff" + TWO[6:],
    "two_of_rule_1_cut": TWO[:5] + b"\1" + TWO[6:-1],
    "two_of_rule_1_and_a_byte": TWO[:5] + b"\1" + TWO[6:] + b"\0",
    "no_body": bytes(4),
    "one_cut": ONE[:-1],
    "two_cut": TWO[:-1],
    "one_and_a_byte": ONE + b"\0",
    "two_and_a_byte": TWO + b"\0",
    "many_one": net(*MANY),
    "many_two": net(*MANY, version=2),
    "empty_one": net(*EMPTY),
    "empty_two": net(*EMPTY, version=2),
    "eight_modes": every_pair(8),
    "eight_modes_and_an_arc": every_pair(8, [(8, 0, 1, 0, 0)]),
    "counts_2048": counting(2048),
    "counts_2049": counting(2049),
}
