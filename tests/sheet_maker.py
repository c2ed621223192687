#!/usr/bin/env python3
"""What examples/sheets.py says of each wrong input, word for word; that it refuses what `replay` refuses, on random nets and weights, and nothing
else; and that each example's make.py writes the sheets that stand beside it."""
import pathlib, random, subprocess, sys, tempfile

sys.dont_write_bytecode = True
top = pathlib.Path(__file__).resolve().parent.parent
sys.path.insert(0, str(top / "examples"))
from sheets import LIMIT, UNBOUNDED, Named, Wrong, encode_net, encode_weights, movements, net, weights, write

PLACES = Named(("store", ["pump", "drum"]), ("aboard", ["pump", "drum"]))
MOVES = Named(("load", ["pump", "drum"]))
PAIRS = [(UNBOUNDED, 2), (UNBOUNDED, 5), (3, 1), (4, 4)]
ARCS = [(0, 0, 1, 0, UNBOUNDED), (0, 2, 0, 1, 2), (1, 1, 1, 0, UNBOUNDED), (1, 3, 0, 1, UNBOUNDED)]


def with_pairs(at, numbers):
    return lambda: net(PLACES, MOVES, PAIRS[:at] + [numbers] + PAIRS[at + 1 :], ARCS)


def with_arc(*arc):
    return lambda: net(PLACES, MOVES, PAIRS, [*ARCS, arc])


def plain(colours=(2, 2), modes=(2,), pairs=PAIRS, arcs=ARCS):
    return lambda: net(list(colours), list(modes), pairs, arcs)


# each wrong input, and what is said of it
WRONG = {
    "no place": (plain([], pairs=[]), "0 places: a net has 1 to 64"),
    "65 places": (plain([1] * 65, pairs=[(1, 0)] * 65), "65 places: a net has 1 to 64"),
    "65 transitions": (plain(modes=[1] * 65), "65 transitions: a net has 0 to 64"),
    "a place without colours": (lambda: net(Named(("store", []), ("aboard", ["pump"])), [], [(1, 0)], []), "place 0 (store) has 0 colours: each has 1 to 64"),
    "65 colours": (plain([2, 65]), "place 1 has 65 colours: each has 1 to 64"),
    "65 modes of a transition": (plain(modes=[65]), "transition 0 has 65 modes: each has 1 to 64"),
    "half a colour": (plain([2, 2.5]), "place 1: its count of colours is 2.5, which is no whole number"),
    "257 pairs": (plain([64, 64, 64, 64, 1], pairs=[(1, 0)] * 257), "257 pairs in all: a net has at most 256"),
    "257 modes": (plain(modes=[64, 64, 64, 64, 1]), "257 modes in all: a net has at most 256"),
    "one pair too few": (lambda: net(PLACES, MOVES, PAIRS[:3], ARCS), "3 capacities for 4 pairs: pair 3 (aboard, drum) has none"),
    "one pair too few, no names": (plain(pairs=PAIRS[:3]), "3 capacities for 4 pairs: pair 3 (place 1, colour 1) has none"),
    "two pairs too many": (lambda: net(PLACES, MOVES, PAIRS + PAIRS[:2], ARCS), "6 capacities for 4 pairs: 2 too many"),
    "K alone": (with_pairs(2, (3,)), "pair 2 (aboard, pump): (3,) stands where (K, first marking) is due"),
    "a number for a pair": (with_pairs(2, 3), "pair 2 (aboard, pump): 3 stands where (K, first marking) is due"),
    "K too large": (with_pairs(2, (LIMIT + 1, 0)), "pair 2 (aboard, pump): K is 1000001: it must be 0 to 1000000 or UNBOUNDED"),
    "K below zero": (with_pairs(2, (-1, 0)), "pair 2 (aboard, pump): K is -1: it must be 0 to 1000000 or UNBOUNDED"),
    "first marking unbounded": (with_pairs(0, (UNBOUNDED, UNBOUNDED)), "pair 0 (store, pump): the first marking is 4294967295: it must be 0 to 1000000"),
    "first marking above K": (with_pairs(3, (4, 5)), "pair 3 (aboard, drum): the first marking, 5, is above K, 4"),
    "first marking in words": (with_pairs(3, (4, "3")), "pair 3 (aboard, drum): the first marking is '3', which is no whole number"),
    "2,049 arcs": (plain([64] * 4, [64] * 4, [(1, 0)] * 256, [(0, 0, 1, 0, 0)] * 2049), "2049 arcs: a net has at most 2048"),
    "an arc of four numbers": (with_arc(0, 3, 1, 0), "arc 4 as given: (0, 3, 1, 0) stands where (mode, pair, Pre, Post, I) is due"),
    "an arc's mode": (with_arc(2, 0, 1, 0, 0), "arc 4 as given: mode 2 is not there, 0 to 1 are"),
    "an arc where there is no mode": (plain(modes=[]), "arc 0 as given: mode 0 is not there, none is"),
    "an arc's pair": (with_arc(0, 4, 1, 0, 0), "arc 4 as given: pair 4 is not there, 0 to 3 are"),
    "an arc's pair below zero": (with_arc(0, -1, 1, 0, 0), "arc 4 as given: pair -1 is not there, 0 to 3 are"),
    "two arcs at one pair": (with_arc(1, 3, 1, 0, 0), "mode 1 (load, drum) at pair 3 (aboard, drum): two arcs, where one is allowed"),
    "Pre too large": (with_arc(0, 3, LIMIT + 1, 0, 0), "mode 0 (load, pump) at pair 3 (aboard, drum): Pre is 1000001: it must be 0 to 1000000"),
    "Post unbounded": (with_arc(0, 3, 0, UNBOUNDED, 0), "mode 0 (load, pump) at pair 3 (aboard, drum): Post is 4294967295: it must be 0 to 1000000"),
    "I too large": (with_arc(0, 3, 0, 0, LIMIT + 1), "mode 0 (load, pump) at pair 3 (aboard, drum): I is 1000001: it must be 0 to 1000000 or UNBOUNDED"),
    "a blank arc": (
        with_arc(0, 3, 0, 0, UNBOUNDED),
        "mode 0 (load, pump) at pair 3 (aboard, drum): Pre and Post are 0 and I is UNBOUNDED: the arc is blank, leave it out",
    ),
    "version 3": (lambda: net(PLACES, MOVES, PAIRS, ARCS, version=3), "version 3: a net sheet has version 1 or 2"),
    "rule 2": (lambda: net(PLACES, MOVES, PAIRS, ARCS, version=2, rule=2), "rule 2: a net sheet of version 2 has rule 0 or 1"),
    "rule 1 of version 1": (lambda: net(PLACES, MOVES, PAIRS, ARCS, rule=1), "rule 1: a net sheet of version 1 has rule 0, write version 2"),
    "one weight too few": (lambda: weights([0, 0, 9], PLACES), "3 weights for 4 pairs: pair 3 (aboard, drum) has none"),
    "one weight too many": (lambda: weights([0] * 5, PLACES), "5 weights for 4 pairs: 1 too many"),
    "a weight too large": (lambda: weights([0, 0, 0, LIMIT + 1], PLACES), "pair 3 (aboard, drum): the weight is 1000001: it must be -1000000 to 1000000"),
    "a weight too small": (lambda: weights([-LIMIT - 1]), "pair 0: the weight is -1000001: it must be -1000000 to 1000000"),
    "half a kilogram": (lambda: weights([0, 0.5], [2]), "pair 1 (place 0, colour 1): the weight is 0.5, which is no whole number"),
    "8,193 movements": (lambda: movements([0] * 8193, MOVES), "8193 movements: a list has at most 8192"),
    "a movement's mode": (lambda: movements([0, 1, 2], MOVES), "movement 3: mode 2 is not there, 0 to 1 are"),
    "a movement that no sheet can hold": (lambda: movements([65536]), "movement 1: mode 65536 is not there, 0 to 65535 are"),
    "a name twice": (lambda: Named(("aboard", ["pump"]), ("aboard", ["pump"])), "aboard, pump: this name is given twice"),
    "a name that is not there": (lambda: PLACES["aboard", "pig"], "aboard, pig: there is no such name"),
}

faults = []
for name, (make, words) in WRONG.items():
    try:
        make()
        faults.append(f"{name}: accepted, and not: {words}")
    except Wrong as wrong:
        if str(wrong) != words:
            faults.append(f"{name}: {wrong}\n    and not: {words}")

# what is right is made, with names or without, whatever the order of its arcs; at the limits too
three = net(PLACES, MOVES, PAIRS, ARCS), weights([0, 0, 1200, -850], PLACES), movements([0, 1], MOVES)
if plain(arcs=ARCS[::-1])() != three[0]:
    faults.append("names or the order of arcs change the sheet")
movements([0] * 8192, MOVES), weights([LIMIT, -LIMIT])
largest = net([4] * 64, [4] * 64, [(LIMIT, LIMIT)] * 256, [(at // 8, at % 8, LIMIT, LIMIT, LIMIT) for at in range(2048)])
if len(largest) != 35083:
    faults.append(f"the largest net sheet has {len(largest)} bytes")
largest = net([4] * 64, [4] * 64, [(LIMIT, LIMIT)] * 256, [(at // 8, at % 8, LIMIT, LIMIT, LIMIT) for at in range(2048)], version=2)
if len(largest) != 31498:
    faults.append(f"the largest net sheet of version 2 has {len(largest)} bytes")
by_rule = [net(PLACES, MOVES, PAIRS, ARCS, version=2, rule=rule) for rule in (0, 1)]
if by_rule[1] != by_rule[0][:5] + b"\x01" + by_rule[0][6:]:
    faults.append("the rule is not the byte after the version, and that alone")


def accepts(make, *given):
    try:
        make(*given)
        return True
    except Wrong:
        return False


def random_net(pick):
    """A small net with each number at a limit or beside it; most have a fault or two, or none."""
    number = lambda: pick.choice([0] * 4 + [1] * 8 + [5, LIMIT] + [LIMIT + 1] * pick.randrange(2))
    bound = lambda: pick.choice([number(), UNBOUNDED, UNBOUNDED])
    colours = [pick.choice([1, 1, 2, 2, 64, 0, 65] if pick.random() < 0.05 else [1, 2, 3]) for _ in range(pick.choice([1, 2, 3]))]
    modes = [pick.choice([1, 2, 3]) for _ in range(pick.choice([0, 1, 2]))]
    pairs = [(UNBOUNDED, pick.choice([0, 1])) if pick.random() < 0.8 else (bound(), number()) for _ in range(sum(colours))]
    places = [(mode, pair) for mode in range(sum(modes) + (pick.random() < 0.1)) for pair in range(sum(colours) + (pick.random() < 0.1))]
    chosen = pick.choices(places, k=2) if places and pick.random() < 0.2 else pick.sample(places, min(3, len(places)))
    return colours, modes, pairs, [(mode, pair, number(), number(), bound()) for mode, pair in chosen]


def compare_with_replay(rounds):
    """The maker's yes or no beside the engine's: a sheet that it refuses is `bad`."""
    pick = random.Random(1)
    counts = {(fine, good): 0 for fine in (True, False) for good in (True, False)}
    for _ in range(rounds):
        # of version 2 every other one is by rule 1, and a few are by no rule
        version, rule = pick.choice([(1, 0)] * 20 + [(2, 0)] * 10 + [(2, 1)] * 10 + [(2, 2)])
        parts = random_net(pick)
        if version == 2:
            # there is no place for an arc whose mode is not there
            parts = (*parts[:3], [arc for arc in parts[3] if arc[0] < sum(parts[1])])
        pairs = sum(parts[0]) + pick.choice([0] * 8 + [1])
        kilograms = [pick.choice([0, 250, -LIMIT, LIMIT] + [LIMIT + 1, -LIMIT - 1] * (pick.random() < 0.05)) for _ in range(pairs)]
        fine = accepts(net, *parts, version, rule), accepts(weights, kilograms, parts[0])
        sheets = encode_net(*parts, version, rule) + encode_weights(kilograms) + movements([])
        ran = subprocess.run([top / "target/bin/replay"], input=sheets, stdout=subprocess.PIPE)
        text = ran.stdout.decode()
        good = not text.startswith("bad 0"), not text.startswith("bad")
        counts[fine] += 1
        if fine[0] != good[0] or all(fine) != good[1]:
            faults.append(f"replay prints {text!r}, and the sheet maker has {fine} of {parts}, {kilograms}, version {version}, rule {rule}")
    return counts


compared = compare_with_replay(500)
if min(compared.values()) < 10:
    faults.append(f"too few of a kind: {compared}")

with tempfile.TemporaryDirectory() as scratch:
    write(scratch + "/new/folder", *three)
    for example in ("document", "rack", "refit"):
        folder = pathlib.Path(scratch) / example
        subprocess.run([sys.executable, "-B", top / "examples" / example / "make.py", folder], check=True)
        stored = {path.name: path.read_bytes() for path in (top / "examples" / example).glob("*.sheet")}
        if len(stored) < 3 or stored != {path.name: path.read_bytes() for path in folder.glob("*.sheet")}:
            faults.append(f"examples/{example}/make.py does not write the sheets of examples/{example}")

for fault in faults:
    print(fault, file=sys.stderr)
print(f"sheet maker: {len(WRONG)} wrong inputs, {sum(compared.values())} compared with replay, {len(faults)} faults")
sys.exit(1 if faults else 0)
