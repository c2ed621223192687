"""A yard that swaps in a full rack: worn pumps against sound ones, by the weak capacity rule. `strict.sheet` is the same net by rule 0, which forbids the swap.

    python3 examples/rack/make.py [FOLDER]      # this folder, where none is named"""
import pathlib, sys

here = pathlib.Path(__file__).resolve().parent
sys.path.insert(0, str(here.parent))
from sheets import UNBOUNDED, Named, movements, net, weights, write

pairs = Named(("rack", ["pump"]), ("workshop", ["sound pump", "worn pump"]))
modes = Named(("swap", ["one", "three"]), ("rack", ["put", "take"]))
RACK, SOUND, WORN = pairs["rack", "pump"], pairs["workshop", "sound pump"], pairs["workshop", "worn pump"]

arcs = []
for mode, out_of_rack, into_rack in (
    (modes["swap", "one"], 1, 1),
    (modes["swap", "three"], 3, 3),
    (modes["rack", "put"], 0, 1),
    (modes["rack", "take"], 1, 0),
):
    arcs.append((mode, RACK, out_of_rack, into_rack, UNBOUNDED))
    if into_rack:
        arcs.append((mode, SOUND, into_rack, 0, UNBOUNDED))
    if out_of_rack:
        arcs.append((mode, WORN, 0, out_of_rack, UNBOUNDED))

# The rack aboard holds 5 pumps and is full; 6 sound ones stand in the workshop, and its bench has room for 5 worn ones.
CAPACITIES_AND_FIRST = [(5, 5), (UNBOUNDED, 6), (5, 0)]
WEIGHTS = [1200, 0, 0]
MOVEMENTS = [
    modes["swap", "one"],  # the rack is full: rule 0 would stop here
    modes["rack", "take"],
    modes["rack", "put"],
    modes["swap", "three"],  # by rule 0 a locally dead mode
    modes["rack", "put"],  # a sixth pump: no rule has room for it
]

folder = pathlib.Path(sys.argv[1] if len(sys.argv) > 1 else here)
write(
    folder,
    net(pairs, modes, CAPACITIES_AND_FIRST, arcs, version=2, rule=1),
    weights(WEIGHTS, pairs),
    movements(MOVEMENTS, modes),
)
(folder / "strict.sheet").write_bytes(net(pairs, modes, CAPACITIES_AND_FIRST, arcs, version=2))
