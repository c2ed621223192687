#!/usr/bin/env python3
"""Samples of what the engine exports, by readers that are not the engine's.

    check.py SAMPLES        SAMPLES is tests/pnml/samples.c, compiled

1. xmllint reads each text as XML, and holds it to ptnet.rng, the part of the PNML grammar that is used.
2. Python's expat reads it as a place/transition net: identifiers, markings, arcs and their weights, as the standard has them. The sheet is read here too, field by field by
   docs/RULES.md; both must say the same of every number.
   examples/refit/returned.pnml, the refit's text as another tool may save it, is the same net to both, though the engine refuses it.
3. The sheet that the engine imports from the text says the same again, each pair a place of one colour and each mode a transition of one mode.
Then both readers are given texts that are wrong, and must refuse them.
"""
import pathlib, struct, subprocess, sys, tempfile
from xml.parsers import expat

sys.dont_write_bytecode = True
here = pathlib.Path(__file__).resolve().parent
examples = here.parent.parent / "examples"
sys.path.insert(0, str(examples))
from sheets import LIMIT, UNBOUNDED, net

SPACE = "http://www.pnml.org/version-2009/grammar/pnml"
TYPE = "http://www.pnml.org/version-2009/grammar/ptnet"
PATH = ["pnml", "net", "page"]


class Unlike(Exception):
    pass


def hold(true, words):
    if not true:
        raise Unlike(words)


class Reader:
    """A place/transition net from a PNML text: the markings of its places by their identifiers, its transitions, and the weights of its arcs by source and target."""

    def __init__(self, text):
        self.path, self.ids, self.arc, self.number = [], set(), None, None
        self.markings, self.transitions, self.weights = {}, [], {}
        parser = expat.ParserCreate(namespace_separator=" ")
        parser.StartElementHandler, parser.EndElementHandler, parser.CharacterDataHandler = self.start, self.end, self.data
        try:
            parser.Parse(text, True)
        except expat.ExpatError as error:
            raise Unlike(f"no XML: {error}")
        for source, target in self.weights:
            ends = {source in self.markings, target in self.markings}
            hold(ends == {True, False} and {source, target} <= set(self.markings) | set(self.transitions), f"an arc from {source} to {target}")

    def start(self, name, given):
        space, _, name = name.rpartition(" ")
        hold(space == SPACE, f"an element {name} of {space or 'no namespace'}")
        self.path.append(name)
        if "id" in given:
            hold(given["id"] not in self.ids, f"{given['id']} twice")
            self.ids.add(given["id"])
        if self.path == PATH[:2]:
            hold(given["type"] == TYPE, f"a net of type {given['type']}")
        elif self.path == [*PATH, "place"]:
            self.markings[given["id"]] = 0
            self.place = given["id"]
        elif self.path == [*PATH, "transition"]:
            self.transitions.append(given["id"])
        elif self.path == [*PATH, "arc"]:
            self.arc = given["source"], given["target"]
            hold(self.arc not in self.weights, f"two arcs from {self.arc[0]} to {self.arc[1]}")
            self.weights[self.arc] = 1
        elif name == "text":
            self.number = ""

    def data(self, data):
        if self.number is not None:
            self.number += data
        else:
            hold(not data.strip(), f"{data!r} between elements")

    def end(self, _):
        if self.path[3:] == ["place", "initialMarking", "text"]:
            self.markings[self.place] = whole(self.number, 0)
        elif self.path[3:] == ["arc", "inscription", "text"]:
            self.weights[self.arc] = whole(self.number, 1)
        if self.path.pop() == "text":
            self.number = None


def whole(digits, least):
    hold(digits.isdecimal() and int(digits) >= least, f"{digits!r} is no number from {least} on")
    return int(digits)


class Sheet:
    """A net sheet's fields from left to right, by docs/RULES.md."""

    def __init__(self, data):
        self.data, self.at = data, 0
        length, version = self.take(">IB")
        hold(length + 4 == len(data), "a sheet with another length")
        if version == 2:
            self.take(">B")
        places, transitions = self.take(">HH")
        self.colours, self.modes = self.take(f">{places}H"), self.take(f">{transitions}H")
        self.pairs = [self.take(">II") for _ in range(sum(self.colours))]
        if version == 1:
            self.arcs = [self.take(">HHIII") for _ in range(*self.take(">H"))]
        else:
            self.arcs = [(mode, *self.take(">HIII")) for mode in range(sum(self.modes)) for _ in range(*self.take(">H"))]
        hold(self.at == len(data), "a sheet with bytes left over")

    def take(self, layout):
        fields = struct.unpack_from(layout, self.data, self.at)
        self.at += struct.calcsize(layout)
        return fields


def net_of(sheet):
    """What the text of a sheet's net must say: a place for each pair, a transition for each mode, an arc for each Pre and each Post that is not 0."""
    hold({capacity for capacity, _ in sheet.pairs} == {UNBOUNDED} and {arc[4] for arc in sheet.arcs} <= {UNBOUNDED}, "a net with bounds")
    markings = {f"p{pair:03}": first for pair, (_, first) in enumerate(sheet.pairs)}
    transitions = [f"t{mode:03}" for mode in range(sum(sheet.modes))]
    weights = {(f"p{pair:03}", f"t{mode:03}"): pre for mode, pair, pre, _, _ in sheet.arcs if pre > 0}
    weights |= {(f"t{mode:03}", f"p{pair:03}"): post for mode, pair, _, post, _ in sheet.arcs if post > 0}
    return markings, transitions, weights


def xmllint(text):
    """What xmllint says against a text, by the grammar; nothing where it has nothing to say."""
    ran = subprocess.run(["xmllint", "--noout", "--nonet", "--relaxng", here / "ptnet.rng", "-"], input=text, capture_output=True)
    return "" if ran.returncode == 0 else ran.stderr.decode() or f"xmllint ended with status {ran.returncode}"


def check(name, data, samples, scratch):
    """One net through the engine, and all readers on what came out: the text."""
    files = [scratch / f"{name}.{kind}" for kind in ("net", "complement", "pnml", "back")]
    files[0].write_bytes(data)
    ran = subprocess.run([samples, *files], capture_output=True, text=True, check=True)
    complement, text, back = (file.read_bytes() for file in files[1:])
    sheet, said = Sheet(complement), xmllint(text)
    few = len(sheet.pairs) <= 64 and sum(sheet.modes) <= 64
    hold(ran.stdout.split() == ["0", "0" if few else "4"], f"the answers are {ran.stdout}")
    hold(not said, said)
    hold(says(text, net_of(sheet)), "the text and the sheet say something else")
    hold(text.isascii() and text.endswith(b"</pnml>\n"), "the text is not as it is to be")
    if few:
        again = Sheet(back)
        hold((again.pairs, again.arcs) == (sheet.pairs, sheet.arcs), "what came back is another net")
        hold(set(again.colours) | set(again.modes) <= {1} and back[4] == 1, "what came back is not plain")
    print(f"{name}: {len(sheet.pairs)} places, {sum(sheet.modes)} transitions, {len(net_of(sheet)[2])} arcs, {len(text)} bytes")
    return text


def full(pairs, modes, each):
    """So many pairs, modes, and arcs of each mode, all numbers the largest."""
    split = lambda count: [count] if count <= 64 else [64] * (count // 64)
    arcs = [(mode, at * (pairs // each), LIMIT, LIMIT, UNBOUNDED) for mode in range(modes) for at in range(each)]
    return net(split(pairs), split(modes), [(UNBOUNDED, LIMIT)] * pairs, arcs)


SAMPLES = {
    "document": (examples / "document/net.sheet").read_bytes(),
    "refit": (examples / "refit/net.sheet").read_bytes(),
    "mailed": (examples / "refit/mailed.sheet").read_bytes(),
    "retired": (examples / "refit/retired.sheet").read_bytes(),
    "rack": (examples / "rack/net.sheet").read_bytes(),
    "no modes": net([1, 2], [], [(UNBOUNDED, 0), (UNBOUNDED, 7), (UNBOUNDED, LIMIT)], []),
    "largest that comes back": full(64, 64, 32),
    "largest": full(256, 256, 8),
}


def wrong(text):
    """A good text with one thing wrong, which the grammar must refuse, the reader, or both."""
    arc = '<arc id="i000-000" source="p000" target="t000"><inscription><text>1</text></inscription></arc>'
    both, grammar, reader = (True, True), (True, False), (False, True)
    for what, old, new, refused in (
        ("cut", "</pnml>\n", "", both),
        ("another namespace", "grammar/pnml", "grammar/pn", both),
        ("another type", "grammar/ptnet", "grammar/hlpn", both),
        ("a weight of 0", arc, arc.replace(">1<", ">0<"), both),
        ("a weight below 0", arc, arc.replace(">1<", ">-1<"), both),
        ("a marking in words", "<text>3<", "<text>three<", both),
        ("a place in an arc", arc, '<arc id="a" source="p000" target="t000"><place id="b"/></arc>', grammar),
        ("an element that is none", "<page", "<sheet/><page", grammar),
        ("an arc without a target", arc, arc.replace(' target="t000"', ""), grammar),
        ("an identifier twice", 'id="p001"', 'id="p000"', both),
        ("an identifier that is no name", 'id="p001"', 'id="1"', both),
        ("an arc to nowhere", arc, arc.replace("t000", "t007"), reader),
        ("an arc from place to place", arc, arc.replace("t000", "p001"), reader),
        ("another weight", arc, arc.replace(">1<", ">2<"), reader),
        ("another marking", "<text>3<", "<text>4<", reader),
        ("an arc left out", arc, "", reader),
        ("an arc turned round", arc, arc.replace('source="p000" target="t000"', 'source="t000" target="p000"'), reader),
        ("a transition more", arc, arc + '<transition id="t001"/>', reader),
        ("words between", arc, "one " + arc, both),
    ):
        hold(text.count(old) == 1, f"{what}: {old} does not stand there once")
        yield what, text.replace(old, new).encode(), refused


def says(text, expected):
    """Whether the reader takes a text, and finds this net in it."""
    try:
        read = Reader(text)
    except (Unlike, KeyError):
        return False
    return (read.markings, read.transitions, read.weights) == expected


def check_wrong(text, expected):
    """How many wrong texts were tried; each is refused by those that must refuse it."""
    tried = 0
    for what, text, refused in wrong(text):
        found = xmllint(text) != "", not says(text, expected)
        hold(found[0] >= refused[0] and found[1] >= refused[1], f"{what}: (xmllint, reader) refuse {found}, and not {refused}")
        tried += 1
    return tried


def main():
    samples = pathlib.Path(sys.argv[1]).resolve()
    with tempfile.TemporaryDirectory() as folder:
        scratch = pathlib.Path(folder)
        texts = {name: check(name, data, samples, scratch) for name, data in SAMPLES.items()}
        document, refit = (net_of(Sheet((scratch / f"{name}.complement").read_bytes())) for name in ("document", "refit"))
    tried = check_wrong(texts["document"].decode(), document)
    hold(texts["mailed"] == texts["refit"], "the version of a sheet changes the text")
    returned = (examples / "refit/returned.pnml").read_bytes()
    hold(returned != texts["refit"] and not xmllint(returned) and says(returned, refit), "examples/refit/returned.pnml is not the refit")
    hold([len(texts[name]) for name in ("largest that comes back", "largest")] == [445848, 467928], "the longest texts have another length")
    print(f"pnml: {len(texts)} samples, and {tried} wrong texts refused")


try:
    main()
except Unlike as unlike:
    sys.exit(f"pnml: {unlike}")
