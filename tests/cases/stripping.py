"""Net sheets before and after stripping (document 02, P7): of both versions and rules, and at the limits, too long to be written out."""
from sheets import UNBOUNDED, encode_net as net
from versions import EXAMPLE


def both(colours, modes, pairs, arcs, pair, **given):
    """A net, and the net with a transition appended: "its mode n, for n from 0 to K, has Pre n and I n at the chosen pair"."""
    every = range(pairs[pair][0] + 1)
    after = arcs + [(sum(modes) + n, pair, n, 0, n) for n in every]
    return net(colours, modes, pairs, arcs, **given), net(colours, modes + [len(every)], pairs, after, **given)


def one_pair(k, modes, arcs=()):
    """One place of one colour, of this K."""
    return both([1], modes, [(k, 0)], list(arcs), 0)


def many(arcs):
    """64 pairs of K 0, and so many of the 2,048 arcs of 32 modes."""
    every = [(mode, pair, 1, 0, 0) for mode in range(32) for pair in range(64)]
    return both([64], [32], [(0, 0)] * 64, every[:arcs], 5, version=2)


# A full rack: by rule 1 an item of it is swapped.
RACK = [2], [1], [(2, 2), (UNBOUNDED, 0)], [(0, 0, 1, 1, UNBOUNDED), (0, 1, 0, 1, UNBOUNDED)]
MADE = {
    "example_one": both(*EXAMPLE, 0),
    "example_two": both(*EXAMPLE, 0, version=2),
    "full_rack": both(*RACK, 0, version=2, rule=1),
    "k_0": one_pair(0, [1], [(0, 0, 0, 0, 0)]),
    "k_63": one_pair(63, []),
    "k_64": one_pair(64, []),
    "transitions_63": one_pair(0, [1] * 63),
    "transitions_64": one_pair(0, [1] * 64),
    # K 3 adds four modes.
    "modes_252": one_pair(3, [63] * 4),
    "modes_253": one_pair(3, [63, 63, 63, 64]),
    "arcs_less_one": many(2047),
    "arcs_most": many(2048),
}
SHEETS = {f"{name}{end}": sheet for name, sheets in MADE.items() for end, sheet in zip(("", "_stripped"), sheets)}
assert SHEETS["example_one"] == net(*EXAMPLE)
