#!/usr/bin/env python3
"""Brings this repository's own definitions and lemmas to the spelling of today's Rattle, once, after port.py.

Words are in snake case: `lowestStop` becomes `lowest_stop`. A dash stays where it joins two names, as in `length-total`, and is `_` before a plain
word. A definition that answers a type is in camel case. Names of src/, of Rattle and of the kit stay. Where a lemma would fall together
with a definition it gets `_lem`. Prints each name that changed, old and new.
"""
import pathlib, re, sys

top = pathlib.Path('.')
TOKEN = re.compile(r"(?<![\w◌∞′'\-])([\w][\w∞′'\-]*)")
DEFINED = re.compile(r"^(\s*)(?:abbrev\s+)?(?:unfoldable\s+)?(?:pub\s+)?(?:abbrev\s+|unfoldable\s+|data\s+|record\s+)?(?:pub\s+)?([\w][\w∞′'\-]*)((?:\s+(?:\([^)]*\)|\{[^}]*\}|\w+))*)\s*:(?:\s|$)")
files = sorted(top.glob('crates/*/specs/**/*.antt')) + sorted(top.glob('crates/*/proofs/**/*.antt'))
sources = sorted(top.glob('crates/*/src/**/*.rt'))
edits = sorted(top.glob('crates/*/must-fail/*.edit'))

# Names that a parameter of src/ would hide, or a word that stands for something else.
BY_HAND = {'arcsAt': 'arcs_offset', 'pairsAt': 'pairs_offset', 'firstPair': 'first_pair_of', 'modeArcs': 'arcs_of_mode', 'ownArc': 'own_arc_put',
           'inBounds': 'within_bounds', 'startsAre': 'starts_hold', 'tailOf': 'tail_written'}
defined, types, functions, variables, tokens = {}, set(), set(), set(), set()
for path in sources:
    functions |= set(re.findall(r'\bfn (\w+)', path.read_text()))
    variables |= set(re.findall(r'\b(\w+)\s*:', path.read_text())) | set(re.findall(r'\blet (?:mut )?(\w+)', path.read_text()))
for path in files + sources:
    tokens |= set(TOKEN.findall(path.read_text()))
for path in files:
    answers = path.name in ('Proof.antt', 'Answers.antt', 'Invariants.antt')
    for line in path.read_text().split('\n'):
        if line.lstrip().startswith('--') or line.startswith('use '):
            continue
        found = DEFINED.match(line)
        if found and not (answers and '-' in found.group(2) and not found.group(2).endswith('-spec')):
            defined.setdefault(found.group(2), set()).add(path)
            if re.search(r'(?:→|:)\s*Type 0\s*$', line) and len(found.group(1)) == 0:
                types.add(found.group(2))

WORDS = set('length take drop map sum append cond get set zip filter reverse reserve min max eqb leb ltb lookup'.split()) | functions


def snake(word):
    return re.sub(r'(?<=[a-z0-9])([A-Z])', lambda m: '_' + m.group(1).lower(), word)


def respelled(name, known):
    if name in BY_HAND:
        return BY_HAND[name]
    if re.match(r'[A-Z]', name):
        return name
    parts = [snake(part) for part in name.split('-')]
    out = parts[0]
    for left, right in zip(parts, parts[1:]):
        out += ('-' if left in known and right in known else '_') + right
    return out


def new_names():
    """Old name to new, for each that changes."""
    known = WORDS | {snake(name) for name in defined if '-' not in name}
    new = {name: respelled(name, known) for name in defined}
    for name in types:
        if name[0].islower():
            new[name] = ''.join(word[:1].upper() + word[1:] for word in re.split(r'[_\-]', snake(name)))
    words = {new[name] for name in defined if re.match(r'[a-z]\w*[A-Z]', name)}
    for name in defined:
        # a lemma that was respelled before, or is now, and has the name of a definition
        if '-' in name and new[name] != name and (new[name] in words or new[name] in tokens):
            new[name] += '_lem'
        elif '_' in name and name in words and name not in functions and name not in variables:
            new[name] = name + '_lem'
    new = {old: name for old, name in new.items() if old != name}
    taken = {}
    for name in set(defined):
        taken.setdefault(new.get(name, name), set()).add(name)
    for name, olds in sorted(taken.items()):
        if len(olds) > 1:
            sys.exit(f'respell: {name} would stand for {sorted(olds)}')
    return new


def main():
    new = new_names()

    def turned(text):
        def one(found):
            token, before = found.group(1), text[max(0, found.start() - 60):found.start()]
            if token not in new:
                return token
            # a step of a proof, as in `c.with-post`, is a name of Rattle's
            if before.endswith('.') and '-' in token and not re.search(r"(?<![\w'-])[A-Z][\w'-]*\.$", before):
                return token
            return new[token]
        return TOKEN.sub(one, text)
    for path in files + sources + edits:
        text = path.read_text()
        if turned(text) != text:
            path.write_text(turned(text))
    for old, name in sorted(new.items()):
        print(old, name)


main()
