"""Texts in PNML (document 02, P5): one written out, others made and damaged after it; and the sheets of nets at the limits of an import.

ISO/IEC 15909-2, place/transition nets: a `pnml` holds a `net` of type ptnet, that a `page`, and that places with an `initialMarking`, transitions, and arcs
with an `inscription`. An export has the places by pair number, then each transition by mode number with its own arcs, by pair number, Pre before Post."""
from sheets import UNBOUNDED, encode_net as net

# The complement of document 01's own example: "first marking 3, 0, 2, and a third arc 0,2 with Pre 1, Post 2".
COMPLEMENT = b"""\
<?xml version="1.0" encoding="UTF-8"?>
<pnml xmlns="http://www.pnml.org/version-2009/grammar/pnml">
  <net id="n" type="http://www.pnml.org/version-2009/grammar/ptnet">
    <page id="g">
      <place id="p000"><initialMarking><text>3</text></initialMarking></place>
      <place id="p001"><initialMarking><text>0</text></initialMarking></place>
      <place id="p002"><initialMarking><text>2</text></initialMarking></place>
      <transition id="t000"/>
      <arc id="i000-000" source="p000" target="t000"><inscription><text>1</text></inscription></arc>
      <arc id="o000-001" source="t000" target="p001"><inscription><text>1</text></inscription></arc>
      <arc id="i000-002" source="p002" target="t000"><inscription><text>1</text></inscription></arc>
      <arc id="o000-002" source="t000" target="p002"><inscription><text>2</text></inscription></arc>
    </page>
  </net>
</pnml>
"""
LINES = COMPLEMENT.splitlines(keepends=True)
OPENING, CLOSING = b"".join(LINES[:4]), b"".join(LINES[-3:])
PLACES, TRANSITION, ARCS = LINES[4:7], LINES[7], LINES[8:12]


def arc(kind, mode, pair, weight):
    ends = [f"p{pair:03}", f"t{mode:03}"]
    source, target = ends if kind == "i" else ends[::-1]
    return f'      <arc id="{kind}{mode:03}-{pair:03}" source="{source}" target="{target}"><inscription><text>{weight}</text></inscription></arc>\n'


def text(first, modes):
    """Of a net with this first marking, and for each mode its arcs: pair, Pre, Post."""
    lines = [f'      <place id="p{pair:03}"><initialMarking><text>{count}</text></initialMarking></place>\n' for pair, count in enumerate(first)]
    for mode, arcs in enumerate(modes):
        lines.append(f'      <transition id="t{mode:03}"/>\n')
        lines += [arc(kind, mode, pair, weight) for pair, *both in arcs for kind, weight in zip("io", both) if weight]
    return OPENING + "".join(lines).encode() + CLOSING


def empty(pairs, modes):
    """No token, no arc: the text, and the sheet with places of one colour and transitions of one mode."""
    return text([0] * pairs, [[]] * modes), net([1] * pairs, [1] * modes, [(UNBOUNDED, 0)] * pairs, [])


def changed(line, old, new):
    """COMPLEMENT with another word in one of its lines, counted from 0."""
    assert LINES[line].count(old) == 1, old
    return b"".join([*LINES[:line], LINES[line].replace(old, new), *LINES[line + 1 :]])


assert text([3, 0, 2], [[(0, 1, 0), (1, 0, 1), (2, 1, 2)]]) == COMPLEMENT
PAIRS_64, MODES_64 = empty(64, 0), empty(1, 64)

SHEETS = {
    "complement_text": COMPLEMENT,
    "swap_rack_text": text([2, 0], [[(0, 1, 1), (1, 0, 1)], [(1, 2, 0)]]),
    "heavy_text": text([1000000], [[(0, 1000000, 1000000)]]),
    "alone_text": text([7], []),
    "quiet_text": text([0], [[]] * 256),
    "pairs_64_text": PAIRS_64[0],
    "pairs_64": PAIRS_64[1],
    "pairs_65_text": text([0] * 65, []),
    "pairs_65": net([5] * 13, [], [(UNBOUNDED, 0)] * 65, []),
    "pairs_65_text_cut": text([0] * 65, [])[:-1],
    "pairs_256_text": text([0] * 256, []),
    "pairs_257_text": text([0] * 257, []),
    "modes_64_text": MODES_64[0],
    "modes_64": MODES_64[1],
    "modes_65_text": text([0], [[]] * 65),
    # In the opening.
    "after_a_mark": b"\xef\xbb\xbf" + COMPLEMENT,
    "xml_1_1": changed(0, b"1.0", b"1.1"),
    "lines_of_two_bytes": COMPLEMENT.replace(b"\n", b"\r\n"),
    # In what is named.
    "place_not_filled_up": changed(4, b"p000", b"p0"),
    "places_from_1": OPENING + PLACES[1] + CLOSING,
    "arc_of_mode_1": changed(8, b"i000-000", b"i001-000"),
    "arc_at_pair_3": changed(8, b"i000-000", b"i000-003"),
    "arc_at_pair_10": changed(8, b"i000-000", b"i000-010"),
    "arc_at_pair_100": changed(8, b"i000-000", b"i000-100"),
    "arc_at_pair_1_again": changed(10, b"i000-002", b"i000-001"),
    "arc_of_another_source": changed(8, b"p000", b"p001"),
    # In a number.
    "marking_01": changed(5, b">0<", b">01<"),
    "marking_none": changed(4, b">3<", b"><"),
    "marking_1000001": changed(4, b">3<", b">1000001<"),
    "marking_2000000": changed(4, b">3<", b">2000000<"),
    "weight_0": changed(8, b">1<", b">0<"),
    "weight_1000001": changed(8, b">1<", b">1000001<"),
    # In the order of lines.
    "no_place": OPENING + CLOSING,
    "place_after_a_transition": OPENING + PLACES[0] + TRANSITION + PLACES[1] + CLOSING,
    "post_before_pre": b"".join(LINES[:10]) + ARCS[3] + ARCS[2] + CLOSING,
    "arc_without_a_transition": OPENING + b"".join(PLACES) + ARCS[0] + CLOSING,
    # At the end.
    "opening_alone": OPENING,
    "cut_in_an_arc": COMPLEMENT[:500],
    "cut_by_a_byte": COMPLEMENT[:-1],
}
