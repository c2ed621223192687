"""Makes the three sheets of docs/RULES.md, and says in words what is wrong with what it is given, naming the place and the item.

A net's pairs and modes are given as counts (the colours of each place, the modes of each transition) or, so that messages can name
them, as a `Named`. What is wrong is raised as `Wrong`, the first fault alone.
"""
import pathlib
import struct

UNBOUNDED = 4294967295
LIMIT = 1000000
MOST_COUNTS, MOST_COLOURS, MOST_IN_ALL, MOST_ARCS, MOST_MOVEMENTS = 64, 64, 256, 2048, 8192


class Wrong(ValueError):
    """What is wrong, in words."""


class Named:
    """Pairs by place and item, or modes by transition and item: Named(("aboard", ["pump", "pig"]), ("quay", ["pump"])) has
    numbers 0 to 2, and ["quay", "pump"] of it is 2."""

    def __init__(self, *groups):
        self.groups = groups
        self.names = [(group, item) for group, items in groups for item in items]
        self.counts = [len(items) for _, items in groups]
        for at, name in enumerate(self.names):
            if name in self.names[:at]:
                raise Wrong(f"{', '.join(name)}: this name is given twice")

    def __getitem__(self, name):
        if name not in self.names:
            raise Wrong(f"{', '.join(name)}: there is no such name")
        return self.names.index(name)


class _Numbering:
    """The numbers of a net's pairs or modes, and how a message names each."""

    def __init__(self, kind, group, items, given):
        self.kind, self.group, self.items, self.given = kind, group, items, given
        self.counts = list(given.counts if isinstance(given, Named) else given)

    def group_name(self, at):
        return f"{self.group} {at}" + (f" ({self.given.groups[at][0]})" if isinstance(self.given, Named) else "")

    def name(self, number):
        if isinstance(self.given, Named):
            return f"{self.kind} {number} ({', '.join(self.given.names[number])})"
        at, colour = 0, number
        while colour >= self.counts[at]:
            colour -= self.counts[at]
            at += 1
        return f"{self.kind} {number} ({self.group} {at}, colour {colour})"

    def check_counts(self, least):
        if not least <= len(self.counts) <= MOST_COUNTS:
            raise Wrong(f"{len(self.counts)} {self.group}s: a net has {least} to {MOST_COUNTS}")
        for at, count in enumerate(self.counts):
            _whole(f"{self.group_name(at)}: its count of {self.items}", count)
            if not 1 <= count <= MOST_COLOURS:
                raise Wrong(f"{self.group_name(at)} has {count} {self.items}: each has 1 to {MOST_COLOURS}")
        if sum(self.counts) > MOST_IN_ALL:
            raise Wrong(f"{sum(self.counts)} {self.kind}s in all: a net has at most {MOST_IN_ALL}")

    def check_number(self, what, number):
        _whole(f"{what}: the {self.kind}", number)
        if not 0 <= number < sum(self.counts):
            there = f"0 to {sum(self.counts) - 1} are" if self.counts else "none is"
            raise Wrong(f"{what}: {self.kind} {number} is not there, {there}")

    def check_one_each(self, what, given):
        if given < sum(self.counts):
            raise Wrong(f"{given} {what} for {sum(self.counts)} {self.kind}s: {self.name(given)} has none")
        if given > sum(self.counts):
            raise Wrong(f"{given} {what} for {sum(self.counts)} {self.kind}s: {given - sum(self.counts)} too many")


def _whole(what, number):
    if not isinstance(number, int) or isinstance(number, bool):
        raise Wrong(f"{what} is {number!r}, which is no whole number")


def _check_shape(what, due, size, given):
    if not isinstance(given, (tuple, list)) or len(given) != size:
        raise Wrong(f"{what}: {given!r} stands where {due} is due")


def _in_range(what, number, least=0, may_be_unbounded=False):
    _whole(what, number)
    if may_be_unbounded and number == UNBOUNDED:
        return
    if not least <= number <= LIMIT:
        raise Wrong(f"{what} is {number}: it must be {least} to {LIMIT}" + (" or UNBOUNDED" if may_be_unbounded else ""))


def _check_pair(name, numbers):
    _check_shape(name, "(K, first marking)", 2, numbers)
    capacity, first = numbers
    _in_range(f"{name}: K", capacity, may_be_unbounded=True)
    _in_range(f"{name}: the first marking", first)
    if first > capacity:
        raise Wrong(f"{name}: the first marking, {first}, is above K, {capacity}")


def _check_arc(name, pre, post, inhibitor):
    _in_range(f"{name}: Pre", pre)
    _in_range(f"{name}: Post", post)
    _in_range(f"{name}: I", inhibitor, may_be_unbounded=True)
    if (pre, post, inhibitor) == (0, 0, UNBOUNDED):
        raise Wrong(f"{name}: Pre and Post are 0 and I is UNBOUNDED: the arc is blank, leave it out")


def _check_arcs(pairs, modes, arcs):
    if len(arcs) > MOST_ARCS:
        raise Wrong(f"{len(arcs)} arcs: a net has at most {MOST_ARCS}")
    seen = set()
    for at, arc in enumerate(arcs):
        _check_shape(f"arc {at} as given", "(mode, pair, Pre, Post, I)", 5, arc)
        mode, pair = arc[:2]
        modes.check_number(f"arc {at} as given", mode)
        pairs.check_number(f"arc {at} as given", pair)
        name = f"{modes.name(mode)} at {pairs.name(pair)}"
        if (mode, pair) in seen:
            raise Wrong(f"{name}: two arcs, where one is allowed")
        seen.add((mode, pair))
        _check_arc(name, *arc[2:])


def _of_pairs(colours):
    return _Numbering("pair", "place", "colours", colours)


def _of_modes(modes):
    return _Numbering("mode", "transition", "modes", modes)


def net(colours, modes, pairs, arcs, version=1, rule=0):
    """A net sheet, of version 1 or 2. colours: of each place; modes: of each transition; pairs: (K, first marking) of each pair, in the order
    of their numbers; arcs: (mode, pair, Pre, Post, I), in any order. K and I may be UNBOUNDED. By rule 1, the weak capacity rule, which a sheet of
    version 2 alone can have, an item may be swapped where there is no room."""
    if version not in (1, 2):
        raise Wrong(f"version {version}: a net sheet has version 1 or 2")
    if rule not in (0, 1):
        raise Wrong(f"rule {rule}: a net sheet of version 2 has rule 0 or 1")
    if (version, rule) == (1, 1):
        raise Wrong("rule 1: a net sheet of version 1 has rule 0, write version 2")
    all_pairs, all_modes = _of_pairs(colours), _of_modes(modes)
    all_pairs.check_counts(1)
    all_modes.check_counts(0)
    all_pairs.check_one_each("capacities", len(pairs))
    for number, numbers in enumerate(pairs):
        _check_pair(all_pairs.name(number), numbers)
    _check_arcs(all_pairs, all_modes, arcs)
    return encode_net(all_pairs.counts, all_modes.counts, pairs, arcs, version, rule)


def weights(kilograms, colours=None):
    """A weight sheet: the kilograms of one token of each pair, in the order of their numbers. With the net's colours given, there
    must be one weight for each pair."""
    pairs = _of_pairs([1] * len(kilograms) if colours is None else colours)
    pairs.check_one_each("weights", len(kilograms))
    for number, weight in enumerate(kilograms):
        _in_range(f"pair {number}: the weight" if colours is None else f"{pairs.name(number)}: the weight", weight, -LIMIT)
    return encode_weights(kilograms)


def movements(listed, modes=None):
    """A movement sheet: the numbers of modes, in the order in which they are to happen. With the net's modes given, each must be there."""
    if len(listed) > MOST_MOVEMENTS:
        raise Wrong(f"{len(listed)} movements: a list has at most {MOST_MOVEMENTS}")
    for at, mode in enumerate(listed, 1):
        _of_modes([65536] if modes is None else modes).check_number(f"movement {at}", mode)
    return encode_movements(listed)


def sheet(fields, version=1):
    """The head of every sheet: a 4-byte length, a version byte; then the fields."""
    return struct.pack(">IB", 1 + len(fields), version) + fields


def encode_net(colours, modes, pairs, arcs, version=1, rule=0):
    """The bytes alone, arcs in their order, with nothing checked: for tests of what the engine refuses. Version 2 alone has a rule byte,
    and there an arc whose mode is not there has no place, and is left out."""
    fields = struct.pack(">HH", len(colours), len(modes))
    fields += b"".join(struct.pack(">H", count) for count in colours + modes)
    fields += b"".join(struct.pack(">II", *pair) for pair in pairs)
    if version == 1:
        fields += struct.pack(">H", len(arcs))
        return sheet(fields + b"".join(struct.pack(">HHIII", *arc) for arc in sorted(arcs)))
    for mode in range(sum(modes)):
        own = [arc[1:] for arc in sorted(arcs) if arc[0] == mode]
        fields += struct.pack(">H", len(own)) + b"".join(struct.pack(">HIII", *arc) for arc in own)
    return sheet(bytes([rule]) + fields, 2)


def encode_weights(kilograms):
    return sheet(struct.pack(">H", len(kilograms)) + b"".join(struct.pack(">i", weight) for weight in kilograms))


def encode_movements(listed):
    return sheet(b"".join(struct.pack(">H", mode) for mode in listed))


def write(folder, net_sheet, weight_sheet, movement_sheet):
    """net.sheet, weights.sheet and movements.sheet in this folder, which is made where it is not there."""
    folder = pathlib.Path(folder)
    folder.mkdir(parents=True, exist_ok=True)
    for name, data in (("net", net_sheet), ("weights", weight_sheet), ("movements", movement_sheet)):
        (folder / (name + ".sheet")).write_bytes(data)
