#!/usr/bin/env python3
"""Prints the lines of code, of definitions and statements, and of proofs of each crate, in the order of crates.txt."""
import pathlib

top = pathlib.Path(__file__).resolve().parent.parent
folders = ('src', 'specs', 'proofs')


def lines(folder):
    return sum(len(f.read_text().splitlines()) for f in folder.rglob('*') if f.suffix in ('.rt', '.antt'))


crates = [row.split(':')[0] for row in (top / 'crates.txt').read_text().splitlines() if ':' in row]
rows = [(crate, [lines(top / 'crates' / crate / folder) for folder in folders]) for crate in crates]
rows.append(('all', [sum(column) for column in zip(*(counts for _, counts in rows))]))
print('| Crate |', ' | '.join(folders), '|')
print('|---|---|---|---|')
for crate, counts in rows:
    print(f'| {crate} |', ' | '.join(map(str, counts)), '|')
