"""Writes NAME.in, an input of `replay`, and NAME.out, what docs/RULES.md says it prints: literals and formulas, worked out apart from the engine."""
import pathlib, sys

here = pathlib.Path(__file__).parent
sys.path.insert(0, str(here.parent.parent / "examples"))
from sheets import UNBOUNDED, encode_weights, movements, net, weights

AWAY = (UNBOUNDED, 0)


def case(name, data, text):
    (here / (name + ".in")).write_bytes(data)
    (here / (name + ".out")).write_text(text)


def one_pair(capacity, first, arc, list_of_modes, weight=10):
    """A net of one pair and one mode with one arc (Pre, Post, I), its weight and a list of movements."""
    return net([1], [1], [(capacity, first)], [(0, 0, *arc)]) + weights([weight]) + movements(list_of_modes)


def two_pairs(before, pair, arc):
    """A net of two pairs (K, first) and one mode, which takes 1 from the first and has this arc at the second; each weighs 10; the mode once."""
    return net([1, 1], [1], [before, pair], [(0, 0, 1, 0, UNBOUNDED), (0, 1, *arc)]) + weights([10, 10]) + movements([0])


LANDING_NET = [1, 1], [1], [(5, 3), AWAY], [(0, 0, 1, 0, 4), (0, 1, 0, 1, UNBOUNDED)]
LANDING, LANDING_2 = net(*LANDING_NET), net(*LANDING_NET, version=2)
WEIGHTS = weights([250, 0])
FOUR = movements([0, 0, 0, 0])
# the small net of docs/RULES.md, in both versions
LANDED = "start 750\n1 0 0 500\n2 0 0 250\n3 0 0 0\nrefused 4 0 11 0 1\nend 3 0\n"
case("document", LANDING + WEIGHTS + FOUR, LANDED)
case("version_2", LANDING_2 + WEIGHTS + FOUR, LANDED)

# a refusal by each of 6 and 11 to 14
case("mode_not_there", LANDING + WEIGHTS + movements([0, 7, 0]), "start 750\n1 0 0 500\nrefused 2 7 6 0 0\nend 1 500\n")
case("lacking", one_pair(5, 1, (2, 0, 0), [0]), "start 10\nrefused 1 0 11 0 1\nend 0 10\n")
case("over_capacity", one_pair(5, 4, (0, 1, UNBOUNDED), [0, 0]), "start 40\n1 0 0 50\nrefused 2 0 12 0 1\nend 1 50\n")
case("full_swap", one_pair(5, 5, (1, 1, UNBOUNDED), [0]), "start 50\nrefused 1 0 12 0 1\nend 0 50\n")
# a full rack again, by the weak rule: 1 is swapped for 1; 2 for 1 are 1 too many; and 1 more is none less
FULL = [1], [1, 1, 1], [(5, 5)], [(0, 0, 1, 1, UNBOUNDED), (1, 0, 1, 2, UNBOUNDED), (2, 0, 0, 1, UNBOUNDED)]
WEAK = net(*FULL, version=2, rule=1) + weights([10])
case("full_swap_by_rule_1", WEAK + movements([0, 0, 1]), "start 50\n1 0 0 50\n2 0 0 50\nrefused 3 1 12 0 1\nend 2 50\n")
case("over_capacity_by_rule_1", WEAK + movements([0, 2]), "start 50\n1 0 0 50\nrefused 2 2 12 0 1\nend 1 50\n")
case("rule_2", WEAK[:5] + b"\x02" + WEAK[6:] + movements([]), "bad 0 4 5\n")
case("inhibited", one_pair(6, 4, (0, 1, 4), [0, 0]), "start 40\n1 0 0 50\nrefused 2 0 13 0 1\nend 1 50\n")
case("over_limit", one_pair(UNBOUNDED, 999999, (0, 1, UNBOUNDED), [0, 0]), "start 9999990\n1 0 0 10000000\nrefused 2 0 14 0 1\nend 1 10000000\n")

# amounts above 1: 9 are due and 2 are there; 3 and 9 are above 10 by 2; 7 are above 4 by 3; 999,999 and 5 are above the limit by 4. The pair before is in order.
ROOMY = (10, 5)
case("lacking_seven", two_pairs(ROOMY, (9, 2), (9, 0, UNBOUNDED)), "start 70\nrefused 1 0 11 1 7\nend 0 70\n")
case("over_capacity_by_two", two_pairs(ROOMY, (10, 3), (3, 9, 3)), "start 80\nrefused 1 0 12 1 2\nend 0 80\n")
case("inhibited_by_three", two_pairs(ROOMY, (9, 7), (1, 2, 4)), "start 120\nrefused 1 0 13 1 3\nend 0 120\n")
case("over_limit_by_four", two_pairs(ROOMY, (UNBOUNDED, 999999), (1, 6, UNBOUNDED)), "start 10000040\nrefused 1 0 14 1 4\nend 0 10000040\n")

# the refit, its pigs forward stripped by the mode that their number names: two come, one goes, and 13 are taken; the same again finds none
REFIT = here.parent.parent / "examples/refit"
BLASTED = (REFIT / "blasted.sheet").read_bytes() + (REFIT / "weights.sheet").read_bytes() + movements([2, 2, 8, 29, 29])
case("blasted", BLASTED, "start 4850\n1 2 0 4875\n2 2 0 4900\n3 8 0 4875\n4 29 0 4550\nrefused 5 29 11 5 13\nend 4 4550\n")

# a bad sheet of each thing; bytes after the third sheet; nothing
case("bad_net", LANDING[:4] + b"\x03" + LANDING[5:] + WEIGHTS + FOUR, "bad 0 2 4\n")
case("another_rule", LANDING_2[:5] + b"\x07" + LANDING_2[6:] + WEIGHTS + FOUR, "bad 0 4 5\n")
case("weights_of_version_2", LANDING_2 + WEIGHTS[:4] + b"\x02" + WEIGHTS[5:] + FOUR, "bad 1 2 4\n")
case("bad_weights", LANDING + weights([250, 0, 0]) + FOUR, "bad 1 17 5\n")
case("weight_too_large", LANDING + encode_weights([250, 1000001]) + FOUR, "bad 1 5 11\n")
case("bad_movements", LANDING + WEIGHTS + b"\x00\x00\x00\x04\x01\x00\x00\x00", "bad 2 3 7\n")
case("missing_movements", LANDING + WEIGHTS, "bad 2 1 0\n")
case("bytes_after", LANDING + WEIGHTS + FOUR + b"\x00", "bad 2 3 13\n")
case("empty", b"", "bad 0 1 0\n")
case("empty_list", LANDING + WEIGHTS + movements([]), "start 750\nend 0 750\n")

# 65,536 bytes are read, 65,537 are not
three = LANDING + WEIGHTS + FOUR
case("most_bytes", three + bytes(65536 - len(three)), "bad 2 3 13\n")
case("one_byte_more", three + bytes(65537 - len(three)), "long\n")
# the same bytes after a sheet of version 2 are not too many: it is 3 shorter
case("one_byte_more_version_2", LANDING_2 + three[len(LANDING) :] + bytes(65537 - len(three)), "bad 2 3 13\n")

# a figure below zero: an allowance of -500 a token, given back and taken again
ALLOWANCE = net([1], [1, 1], [(9, 2)], [(0, 0, 1, 0, UNBOUNDED), (1, 0, 0, 1, UNBOUNDED)])
case("below_zero", ALLOWANCE + weights([-500]) + movements([1, 0, 0, 0]), "start -1000\n1 1 0 -1500\n2 0 0 -1000\n3 0 0 -500\n4 0 0 0\nend 4 0\n")

# 8,192 movements: one token goes ashore and comes back, 4,096 times
FERRY = net([1, 1], [1, 1], [(1, 1), (1, 0)], [(0, 0, 1, 0, UNBOUNDED), (0, 1, 0, 1, UNBOUNDED), (1, 0, 0, 1, UNBOUNDED), (1, 1, 1, 0, UNBOUNDED)])
lines = "".join(f"{i} {(i + 1) % 2} 0 {0 if i % 2 else 250}\n" for i in range(1, 8193))
case("longest_list", FERRY + weights([250, 0]) + movements([0, 1] * 4096), "start 250\n" + lines + "end 8192 250\n")
