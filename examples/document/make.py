"""The small net of docs/RULES.md: aboard (K 5, first 3) and ashore (unbounded, first 0), one mode that lands one item.

    python3 examples/document/make.py [FOLDER]      # this folder, where none is named"""
import pathlib, sys

here = pathlib.Path(__file__).resolve().parent
sys.path.insert(0, str(here.parent))
from sheets import UNBOUNDED, Named, movements, net, weights, write

pairs = Named(("aboard", ["item"]), ("ashore", ["item"]))
modes = Named(("land", ["item"]))
arcs = [(0, 0, 1, 0, 4), (0, 1, 0, 1, UNBOUNDED)]
write(
    sys.argv[1] if len(sys.argv) > 1 else here,
    net(pairs, modes, [(5, 3), (UNBOUNDED, 0)], arcs),
    weights([250, 0], pairs),
    movements([0, 0, 0, 0], modes),
)
