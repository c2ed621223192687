"""The longest run: 256 modes of 8 arcs over 256 pairs, and 8,192 movements in which every mode fires 32 times and every count changes.

Its description, and what it gives by document 01's rule, worked out apart from the engine: limits.txt has the same markings as literals."""

PAIRS, MODES, ARCS_EACH, MOVEMENTS = 256, 256, 8, 8192
UNBOUNDED, LIMIT = float('inf'), 1_000_000


def first(p):
    return 387 + p // 8


def capacity(p):
    return UNBOUNDED if p % 2 else first(p) + 384 + p % 16


def arcs(mode):
    """Pair, Pre, Post and I of each arc."""
    for j in range(ARCS_EACH):
        p = 32 * j + (mode + 7 * j) % 32
        inhibitor = UNBOUNDED if mode // 32 % 4 else first(p) + 384
        yield p, (mode + j) % 4, mode // 32 % 4, inhibitor


def movement(k):
    return (37 * k + k // 256) % 256


# By how much each number is given: where that is above 0.
AMOUNTS = (
    (11, lambda m, k, pre, post, i: pre - m),
    (12, lambda m, k, pre, post, i: m + post - k),
    (13, lambda m, k, pre, post, i: m - i),
    (14, lambda m, k, pre, post, i: m - pre + post - LIMIT),
)


def refusal(marking, mode):
    """Number, lowest pair and amount there: each number over all pairs before the next."""
    for number, amount in AMOUNTS:
        short = {p: amount(marking[p], capacity(p), pre, post, i) for p, pre, post, i in arcs(mode)}
        pairs = [p for p in short if short[p] > 0]
        if pairs:
            return number, min(pairs), short[min(pairs)]
    return 0, 0, 0


def run(marking):
    """How many movements were accepted, how many arcs visited, the answer's number, pair and amount."""
    visited = 0
    for k in range(MOVEMENTS):
        mode = movement(k)
        visited += len(list(arcs(mode)))
        number, pair, amount = refusal(marking, mode)
        if number:
            return k, visited, number, pair, amount
        for p, pre, post, i in arcs(mode):
            marking[p] += post - pre
    return MOVEMENTS, visited, 0, 0, 0


def check(markings):
    """The three markings of limits.txt."""
    marking = [first(p) for p in range(PAIRS)]
    assert markings["longest_start"] == marking
    assert run(marking) == (MOVEMENTS, 65_536, 0, 0, 0) and markings["longest_end"] == marking
    assert run(marking) == (3, 32, 12, 178, 1) and markings["longest_end_again"] == marking
