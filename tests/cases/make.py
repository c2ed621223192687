#!/usr/bin/env python3
"""Turns the lists of this folder (*.txt, in the order of their names) into what the program cases.c reads, on standard output.

    python3 tests/cases/make.py           every case; compares the longest run with longest_run.py first
    python3 tests/cases/make.py --wrong   of the first case of each call, one for each number, count and byte that it expects, with that one changed: all must differ

A list has, each with its lines below it, indented; `#` starts a comment, which says where an expected value stands:

    net NAME            places (colours of each), transitions (modes of each), `pair 0: K 5, first 3`, `mode 0, pair 0: Pre 1, Post 0, I 4`; with `rule 1`, its rule byte, a
                        sheet of version 2
    bytes NAME          a sheet, written out in hexadecimal
    weights, movements, marking NAME: numbers
    case NAME           `call fire, net P1, marking 3 1, mode 0`, of a step `modes 0 1` or `modes 65 times 0`, of an audit `beside 3 1 2`, the complement's
                        marking; what it answers, `accepted` or
                        `refused by 13, thing 3, at 0, amount 1` (a number that is not said is 0), with what it yields, `value 91`, `yes`, `no`, `mode 1 pair 1`,
                        `pair 6 excess -1`, of a run `ran 3 arcs 8`: how many were accepted and how many arcs visited, of a size `pairs 2 modes 8 arcs 8`, or of a salvage
                        `length 11 kept 3 dropped 1`;
                        `salvage_stop` is the same call, and what it answers is the first refusal that it reports;
                        `leaves 2 1`, the marking after (else it is as before); `writes NAME`, the sheet or text in the bytes lent, of which it has `room` (else
                        nothing is written)
    both NET, COMPLEMENT   a row is a marking, `|` and the counts of its complement pairs, a mode, and `to` the marking after, or the refusals: `13 at 0 amount 1 | 11 at 2 amount 1`.
                        Each is tested and fired, in the net and in its complement: four cases.

Sheets at the limits are made by limits.py, those of both versions by versions.py, those that are stripped by stripping.py, damaged movement sheets by damaged.py, texts in PNML by texts.py, by name; `refit` is the net of examples/refit, `blasted` the same stripped of its pigs forward. A call is added in two places: a row of CALLS, and a line of cases.c. A call that tells something new gets a function there and a line in answer_of.

A case is nine parts, a length before each: call; a number and the room; name; first and second run of bytes, where the modes of a step and a complement's marking are counts;
counts lent; what is told; counts after; bytes written. Lengths and numbers are 4 bytes, big-endian, those told 8."""
import pathlib, re, struct, sys

here = pathlib.Path(__file__).resolve().parent
top = here.parent.parent
sys.path[:0] = [str(here), str(top / "examples")]
import damaged, limits, longest_run, stripping, texts, versions
from sheets import UNBOUNDED, encode_movements as movements, encode_net as net, encode_weights as weights

# The words that name a call's first and its second run of bytes.
CALLS = {
    "begin": ("net", ""),
    "test": ("net", ""),
    "fire": ("net", ""),
    "certify": ("net", "movements"),
    "test_step": ("net", "modes"),
    "fire_step": ("net", "modes"),
    "exclude": ("net", "weights"),
    "read_net": ("net", ""),
    "read_weights": ("weights", ""),
    "read_movements": ("movements", ""),
    "size": ("net", ""),
    "complement": ("net", ""),
    "to_version_2": ("net", ""),
    "to_version_1": ("net", ""),
    "strip": ("net", ""),
    "export_pnml": ("net", ""),
    "import_pnml": ("text", ""),
    "figure": ("net", "weights"),
    "change": ("net", "weights"),
    "is_dead": ("net", ""),
    "first_dead": ("net", ""),
    "audit": ("net", "beside"),
    "run": ("net", "movements"),
    "salvage": ("net", "movements"),
    "salvage_stop": ("net", "movements"),
}

sheets = dict(limits.SHEETS, **versions.SHEETS, **stripping.SHEETS, **damaged.SHEETS, **texts.SHEETS, **{name: (top / f"examples/refit/{file}.sheet").read_bytes() for name, file in (("refit", "net"), ("blasted", "blasted"))})
markings = dict(limits.MARKINGS)
cases = []


def number(word):
    return UNBOUNDED if word == "unbounded" else int(word)


def counts(words):
    """Numbers, the name of a marking, or `65 times 0`."""
    repeated = re.fullmatch(r"(\d+) times (\d+)", words)
    if repeated:
        return int(repeated[1]) * [int(repeated[2])]
    return markings[words] if words in markings else [int(word) for word in words.split()]


def bytes_of(names):
    return b"".join(sheets[name] for name in names.split())


def parse_net(name, lines):
    given, pairs, arcs = {}, [], []
    for line in lines:
        arc = re.fullmatch(r"mode (\d+), pair (\d+): Pre (\d+), Post (\d+), I (\w+)", line)
        pair = re.fullmatch(r"pair (\d+): K (\w+), first (\d+)", line)
        if arc:
            arcs.append(tuple(map(number, arc.groups())))
        elif pair:
            assert int(pair[1]) == len(pairs), line
            pairs.append((number(pair[2]), int(pair[3])))
        else:
            word, *numbers = line.split()
            given[word] = [int(n) for n in numbers]
    version = dict(version=2, rule=given.pop("rule")[0]) if "rule" in given else {}
    assert len(given) == 2 and sum(given["places"]) == len(pairs), lines
    sheets[name] = net(given["places"], given["transitions"], pairs, arcs, **version)


def pack(numbers):
    return struct.pack(f">{len(numbers)}I", *numbers)


def add(name, call, arguments, told, after, written):
    first, second = CALLS[call]
    known = {first, second, "marking", "mode", "pair", "pairs", "room"}
    lent = counts(arguments.get("marking", ""))
    left = lent if after is None else after
    room = int(arguments.get("room", 0))
    assert len(left) == len(lent) and len(written) <= room and set(arguments) <= known, name
    runs = [pack(counts(arguments[word])) if word in ("modes", "beside") else bytes_of(arguments.get(word, "")) for word in (first, second)]
    argument = int(arguments.get("mode", arguments.get("pair", arguments.get("pairs", 0))))
    cases.append([call.encode(), pack([argument, room]), name.encode(), *runs, pack(lent), struct.pack(">7q", *told), pack(left), written])


def answer_of(call, line):
    """Number, thing, position, amount and three numbers more, as cases.c has what is told."""
    found = re.fullmatch(r"(?:accepted|refused by (\d+)(?:, thing (\d+))?(?:, at (\d+))?(?:, amount (\d+))?)(?:, (value -?\d+|yes|no|mode \d+ pair \d+|pair \d+ excess -?\d+|ran \d+ arcs \d+|pairs \d+ modes \d+ arcs \d+|length \d+ kept \d+ dropped \d+))?", line)
    assert found, line
    yielded = found[5] or "no"
    told = [int(number or 0) for number in found.groups()[:4]]
    told += [1] * (yielded == "yes" or yielded.split()[0] in ("mode", "pair"))
    told += [int(number) for number in re.findall(r"-?\d+", yielded)]
    return [*told, *[0] * (7 - len(told))]


def parse_case(name, lines):
    call, *rest = [part.strip() for part in lines[0].removeprefix("call ").split(",")]
    after, written = None, b""
    for line in lines[2:]:
        word, _, what = line.partition(" ")
        if word == "leaves":
            after = counts(what)
        else:
            assert word == "writes", line
            written = sheets[what]
    add(name, call, dict(part.split(" ", 1) for part in rest), answer_of(call, lines[1]), after, written)


def parse_both(names, lines):
    original, complement = names.split(", ")
    for line in lines:
        start, mode, rest = re.fullmatch(r"(.*?)\s+mode (\d+)\s+(.*)", line).groups()
        here, beside = rest.split("|")
        own, other = start.split("|")
        for title, sheet, marking, last in ((original, original, own, here), ("complement of " + original, complement, own + " " + other, beside)):
            lent = " ".join(marking.split())
            if here.startswith("to "):
                answer, after = "accepted", counts(here[3:] + (beside if sheet == complement else ""))
            else:
                answer, after = re.sub(r"(\d+) at (\d+) amount (\d+)", r"refused by \1, thing 3, at \2, amount \3", last.strip()), None
            for call in ("test", "fire"):
                name = f"{title} at {lent.replace(' ', ',')}, mode {mode}, {call}"
                add(name, call, {"net": sheet, "marking": lent, "mode": mode}, answer_of(call, answer), after if call == "fire" else None, b"")


def parse(block):
    first, *lines = [line.strip() for line in block]
    kind, name = first.split(" ", 1)
    name, _, numbers = name.partition(":") if kind in ("weights", "movements", "marking") else (name, "", "")
    if kind == "net":
        parse_net(name, lines)
    elif kind == "bytes":
        sheets[name] = bytes.fromhex(" ".join(lines))
    elif kind == "marking":
        markings[name] = counts(" ".join([numbers, *lines]))
    elif kind in ("weights", "movements"):
        sheets[name] = {"weights": weights, "movements": movements}[kind](counts(numbers))
    else:
        {"case": parse_case, "both": parse_both}[kind](name, lines)


for file in sorted(here.glob("*.txt")):
    block = []
    for line in file.read_text().splitlines() + ["end"]:
        if line.partition("#")[0].strip():
            if not line.startswith(" ") and block:
                parse(block)
                block = []
            block.append(line.partition("#")[0])

names = [name for _, _, name, *_ in cases]
assert len(set(names)) == len(names), [name for name in names if names.count(name) > 1]
longest_run.check(markings)


def wrong(case):
    """The case with one thing that it expects changed: each number told, each count, each byte; and with the last byte not expected."""
    *given, told, left, written = case
    expected, counts_at, bytes_at = told + left + written, len(told), len(told + left)
    for at in [*range(7, counts_at, 8), *range(counts_at + 3, bytes_at, 4), *range(bytes_at, len(expected))]:
        changed = expected[:at] + bytes([expected[at] ^ 1]) + expected[at + 1 :]
        yield [*given, changed[:counts_at], changed[counts_at:bytes_at], changed[bytes_at:]]
    if written:
        yield [*given, told, left, written[:-1]]


if sys.argv[1:] == ["--wrong"]:
    firsts = {call: [call, *rest] for call, *rest in reversed(cases)}
    cases = [changed for case in firsts.values() for changed in wrong(case)]
sys.stdout.buffer.write(b"".join(pack([len(part)]) + part for case in cases for part in case))
