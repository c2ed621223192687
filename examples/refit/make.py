"""A refit: pumps, cable drums and lead pigs between the store, two zones aboard and the quay, and a weight allowance. `retired.sheet` is the same net with one
movement more, which the yard has retired; `blasted.sheet` with the movements that strip the forward zone of its pigs.

    python3 examples/refit/make.py [FOLDER]      # this folder, where none is named"""
import pathlib, sys

here = pathlib.Path(__file__).resolve().parent
sys.path.insert(0, str(here.parent))
from sheets import UNBOUNDED, Named, movements, net, weights, write

KINDS = ["pump", "drum", "pig"]
PLACES = ["store", "forward", "machinery", "quay"]
ROUTES = [("store", "forward"), ("store", "machinery"), ("forward", "quay"), ("machinery", "quay"), ("forward", "machinery")]
pairs = Named(*[(place, KINDS) for place in PLACES], ("allowance", ["token"]))
modes = Named(*[(f"{origin} to {target}", KINDS) for origin, target in ROUTES], ("release", ["token"]))

arcs = [(modes["release", "token"], pairs["allowance", "token"], 1, 0, UNBOUNDED)]
for origin, target in ROUTES:
    for kind in KINDS:
        # a pump goes into the machinery space only while at most one stands there: the old one must come out first
        inhibitor = 1 if (target, kind) == ("machinery", "pump") else UNBOUNDED
        mode = modes[f"{origin} to {target}", kind]
        arcs += [(mode, pairs[origin, kind], 1, 0, UNBOUNDED), (mode, pairs[target, kind], 0, 1, inhibitor)]

FREE = UNBOUNDED
CAPACITIES_AND_FIRST = [
    (FREE, 2), (FREE, 6), (FREE, 40),  # store
    (2, 0), (4, 3), (60, 12),  # forward
    (3, 2), (4, 1), (60, 30),  # machinery
    (FREE, 0), (8, 5), (FREE, 0),  # quay: the crane's pad holds 8 drums
    (10, 4),  # allowance
]
ABOARD = [1200, 850, 25]  # a pump, a drum, a pig
WEIGHTS = [0, 0, 0] + ABOARD + ABOARD + [0, 0, 0] + [-500]
MOVEMENTS = [9, 3, 7, 7, 1, 13, 11, 11, 15, 3, 0]

# The planning tool never takes a movement out: it asks for 1,000,000 of what stands there, so that nobody can enter it.
with_retired = Named(*modes.groups, ("by the old crane", ["pump"]))
old_crane = with_retired["by the old crane", "pump"]
retired = [(old_crane, pairs["store", "pump"], 1, 0, UNBOUNDED), (old_crane, pairs["machinery", "pump"], 1000000, 1, 1)]

folder = pathlib.Path(sys.argv[1] if len(sys.argv) > 1 else here)
write(
    folder,
    net(pairs, modes, CAPACITIES_AND_FIRST, arcs),
    weights(WEIGHTS, pairs),
    movements(MOVEMENTS, modes),
)
# The same net as it is mailed over a slow link.
(folder / "mailed.sheet").write_bytes(net(pairs, modes, CAPACITIES_AND_FIRST, arcs, version=2))
# The movements as a tablet sent them that died: its upload ends in the seventh.
(folder / "cut.sheet").write_bytes(movements(MOVEMENTS, modes)[: 5 + 2 * 6 + 1])
(folder / "retired.sheet").write_bytes(net(pairs, with_retired, CAPACITIES_AND_FIRST, arcs + retired))

# Blasting takes all pigs forward, n of them by mode n of a transition more: what the engine's `strip` writes of the net.
forward = pairs["forward", "pig"]
with_blasting = Named(*modes.groups, ("blasting", [f"{n} pigs" for n in range(CAPACITIES_AND_FIRST[forward][0] + 1)]))
bare = [(with_blasting["blasting", f"{n} pigs"], forward, n, 0, n) for n in range(CAPACITIES_AND_FIRST[forward][0] + 1)]
(folder / "blasted.sheet").write_bytes(net(pairs, with_blasting, CAPACITIES_AND_FIRST, arcs + bare))
