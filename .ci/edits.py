#!/usr/bin/env python3
"""Holds every must-fail edit to what rt says of its refusal: it is refused at the goal that its first line quotes.

1. The first line is `# fails: ` with the fact between double quotes. Each piece so quoted stands word for word, white space folded, after the one before it in
   what stands after `refused, as it must be: ` on the edit's line of `rt ci` or `rt must-fail`. That is the first error of the edit's check, or note of a function that is
   not proved, cut after 160 characters; rt keeps no more of it. An error that only follows from one in a proof file above is passed over by rt.
2. The prover refuses it, and not for a name or a library that cannot be found, or that a proof file names and the edit took away, nor with no more than a note that a
   goal is not proved, since its answer may stand under another name, nor only by a limit of its own: such an edit did not reach what it tries.

`edits.py FILE` reads what `rt ci` or `rt must-fail` printed; `edits.py` runs `rt must-fail`, which tries again only what changed. `edits.py --selftest` tries the
rules on samples that break them.
"""
import pathlib, re, subprocess, sys

top = pathlib.Path(__file__).resolve().parent.parent
# (a note of what is not proved may stand for a goal whose name moved, so that its answer answers nothing)
LOST = re.compile(r'can be named|is no library|does not use the library|has no field|not in scope|is not declared|it is not proved that')
REFUSED = 'refused, as it must be'
# (rt's words for what says little of a contract stand in parentheses before the colon)
LITTLE = re.compile(REFUSED + r' \(only (because a proof file names what the edit took away|by a limit of the prover)')


def folded(text):
    return ' '.join(text.split())


def lines(printed):
    """What rt said of each edit, by crate and name."""
    found = re.findall(r'^rt: must-fail (\w+)/(\S+)\.edit: (.*)$', printed, re.M)
    return {f'{crate}/{edit}': said for crate, edit, said in found}


def faults_of(first_line, said):
    if not said.startswith(REFUSED):
        return [f'it is not refused: {said[:300] or "rt says nothing of it"}']
    little = LITTLE.match(said)
    if little:
        return [f'it is refused only {little.group(1)}: {said.partition("): ")[2][:300]}']
    error = folded(said[len(REFUSED):].removeprefix(':'))
    pieces = re.findall(r'"([^"]+)"', first_line) if first_line.startswith('# fails: ') else []
    if not error:
        return ['rt tells of no error']
    faults = [] if pieces else ['its first line quotes nothing']
    at = 0
    for piece in map(folded, pieces):
        if piece not in error[at:]:
            faults.append(f'its first line quotes {piece}, which does not stand in what rt says of it, or not after the piece before it: {error}')
        at = max(at, error.find(piece, at) + len(piece))
    return faults + ([f'refused for a name that is not there: {error}'] if LOST.search(error) else [])


def selftest():
    said = lines('''== sums
rt: sums proved
rt: must-fail sums/kept.edit: refused, as it must be: ./proofs/Sums.antt:4:2: error: `kept`: `omega`: the goal fails, at `m` = 1,  `k` = 0
rt: must-fail sums/next.edit: refused, as it must be: note: src/lib.rt:4:1: it is not proved that what the function ensures holds when it returns (`returns`)
rt: must-fail sums/lost.edit: refused, as it must be: ./proofs/Sums.antt:4:2: error: `keep` is not in scope
rt: must-fail sums/named.edit: refused, as it must be (only because a proof file names what the edit took away, so this says little of the contract: change a value and keep the names): ./proofs/Sums.antt:4:2: error: `keep` is not in scope
rt: must-fail sums/limit.edit: refused, as it must be (only by a limit of the prover, which gave no verdict, so this says less of the contract: choose a change that it refuses sooner): src/lib.rt:4:1: error: antt ran out of stack
rt: must-fail sums/bare.edit: refused, as it must be
rt: must-fail sums/bad.edit: BAD EDIT: an 'old:' text is in src/lib.rt 0 times, and not once
rt: must-fail sums/proved.edit: NOT REFUSED: the crate is still proved with this edit (one that means the same as before cannot be refused: remove it)
rt: must-fail sums/killed.edit: NOT TRIED: its check was killed, most likely for memory, so nothing is known of it: run this again
''')
    samples = [
        ('# fails: "the goal fails, at `m` = 1, `k` = 0": the sum', 'kept', 0), ('# fails: "`kept`: `omega`" and "`k` = 0"', 'kept', 0),
        ('# fails: "at `n` = 2"', 'kept', 1), ('# fails: "at `m` = 1" and "at `n` = 2"', 'kept', 1), ('# fails: "refused, as it must be"', 'kept', 1),
        ('# fails: "`k` = 0" at "`m` = 1"', 'kept', 1), ('# fails: the sum is kept', 'kept', 1), ('"at `m` = 1"', 'kept', 1), ('', 'kept', 1),
        ('# fails: "holds when it returns (`returns`)"', 'next', 1), ('# fails: "`kept`"', 'next', 2), ('# fails: "`keep`"', 'lost', 1), ('# fails: "`m`"', 'lost', 2),
        ('# fails: "`keep`"', 'named', 1), ('# fails: "antt ran out of stack"', 'limit', 1), ('# fails: "`m`"', 'bare', 1), ('# fails: "src/lib.rt"', 'bad', 1),
        ('# fails: "still proved"', 'proved', 1), ('# fails: "killed"', 'killed', 1), ('# fails: "`m`"', 'absent', 1),
    ]
    wrong = [(line, found) for line, edit, faults in samples for found in [faults_of(line, said.get(f'sums/{edit}', ''))] if len(found) != faults]
    for line, found in wrong:
        print(f'selftest: {line} gives {found}', file=sys.stderr)
    print(f'edits: {len(samples)} samples, {len(wrong)} taken wrongly')
    return 1 if wrong else 0


def main():
    if sys.argv[1:] == ['--selftest']:
        return selftest()
    if sys.argv[1:]:
        printed = pathlib.Path(sys.argv[1]).read_text(errors='replace')
    else:
        printed = subprocess.run(['rt', 'must-fail'], cwd=top, stdin=subprocess.DEVNULL, stdout=subprocess.PIPE, text=True, errors='replace').stdout
    said, edits = lines(printed), sorted(top.glob('crates/*/must-fail/*.edit'))
    names = {f'{edit.parts[-3]}/{edit.stem}': edit for edit in edits}
    faults = [f'{where}: {text}' for where, edit in names.items() for text in faults_of(edit.read_text().split('\n')[0], said.get(where, ''))]
    faults += [f'{where}: rt tells of it, and there is no such edit' for where in said if where not in names]
    for text in faults:
        print(text, file=sys.stderr)
    print(f'edits: {len(edits)} edits, {len(faults)} faults')
    return 1 if faults or not edits else 0


sys.exit(main())
