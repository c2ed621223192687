#!/usr/bin/env python3
"""Holds to the crates what docs/CONTRACTS.md says is trusted, by what `rt ci` printed when it passed: `claims.py FILE`, with the program and the library for C
built (`tools/build`).

1. The kit is one that .ci/kit names, a line each, and every crate was proved by its logic.
2. No crate's verdict rests on an axiom; a program's rests on the contracts of the C library's `read` and `write`, by way of the kit's `libc`, and of the
   kit's `rattle_errno`, which tells the error of a call that failed, and on no others.
3. The program calls nothing else of the C library but what starts it and what fills, copies and compares memory.
4. No crate declares C functions of its own, in an `extern` block.
5. Every call of include/pnet.h has a row in tests/stack.c.
6. The library for C needs `memcpy` and `memset` of whoever links it, and nothing else, so that it links where there is no C library.

Of a crate that is kept `rt ci` prints no verdict: an earlier run on this machine, with the same kit, proved the same files over the same libraries. Rules 1 and 2 then
hold what that run printed, and here no more than that the crate is named. `claims.py --selftest` tries the rules on samples that break them.
"""
import pathlib, re, subprocess, sys

top = pathlib.Path(__file__).resolve().parent.parent
LIBC = {'libc::read', 'libc::write', 'os::c::rattle_errno'}
# (the last two groups are what the linker adds to start a program, and what LLVM writes for a loop over memory)
CALLS = re.compile(r'read|(__)?write|__errno_location|__libc_start_main|__cxa_finalize|__gmon_start__|_ITM_\w+|__sysv_signal|__x86_get_cpuid_feature_leaf|mem(set|cpy|move|cmp)|bcmp')
ASKED = {'memcpy', 'memset'}
VERDICT = re.compile(r'logic=proved functions=\d+(?: axioms=\d+)?(?: target=\S+)?(?: cpu=\S+)? sum=(\w+) native=nat,char,string logic-built=trusted'
                     r' libraries-built=trusted statements=trusted')


def kit(said, pinned):
    return [] if said in pinned else [f'the kit is {said!r}, and .ci/kit names {" and ".join(map(repr, pinned))}']


def section(crate, printed):
    """What `rt ci` printed of the crate: what its check said, `kept`, or nothing."""
    if re.search(rf'^rt: {crate} is kept: an earlier run on this machine proved the same files over the same libraries$', printed, re.M):
        return 'kept'
    found = re.search(rf'^== {crate}\n(.*?)^rt: {crate} proved$', printed, re.M | re.S)
    return found.group(1) if found else ''


def verdict(crate, program, printed, logic):
    log = section(crate, printed)
    if log == 'kept':
        return []
    line = next((line for line in reversed(log.split('\n')) if line.startswith('logic=')), '')
    found = VERDICT.fullmatch(line)
    if not found:
        return [f'{crate}: its verdict is {line!r}']
    faults = [] if found.group(1) == logic else [f'{crate}: proved by the logic {found.group(1)}, and the logic of the kit is {logic}']
    assumed = set(re.findall(r'[\w:]+::\w+', ' '.join(re.findall(r'^axioms (.*)', log, re.M))))
    counted = int((re.findall(r'axioms=(\d+)', line) or [0])[0])
    if counted != len(assumed) or assumed - (LIBC if program else set()):
        faults.append(f'{crate}: its verdict rests on {counted} axioms, {", ".join(sorted(assumed)) or "of no name"}')
    return faults


def reached(program, listed):
    """What the program calls of the C library, as `nm -D` lists it."""
    names = [line.split()[-1].partition('@')[0] for line in listed.splitlines() if line.strip()]
    others = [name for name in names if not CALLS.fullmatch(name)]
    return ([] if names else [f'{program}: no list of what it calls']) + ([f'{program} calls {", ".join(sorted(others))} of the C library'] if others else [])


def asked(listed):
    """What the library for C needs from outside, as `nm -u` lists it."""
    names = {line.split()[-1] for line in listed.splitlines() if re.match(r'\s+[Uwv] ', line)}
    return ([] if names else ['no list of what the library for C needs']) + ([f'the library for C needs {", ".join(sorted(names - ASKED))} of whoever links it'] if names - ASKED else [])


def foreign(path, source):
    found = re.search(r'\bextern\s*("[^"]*"\s*)?\{', re.sub(r'//.*', '', source))
    return [f'{path} has an `extern` block'] if found else []


def unmeasured(header, test):
    # pnet_abi_N is the header's version and no call
    calls = re.findall(r'\b(pnet_(?!abi_\d)\w+)\(', re.sub(r'/\*.*?\*/', '', header, flags=re.S))
    return [f'{call} has no row in tests/stack.c' for call in calls if f'{{"{call}",' not in test]


def selftest():
    line = 'logic=proved functions=9 sum=0a native=nat,char,string logic-built=trusted libraries-built=trusted statements=trusted'
    said = '== low\naxioms std: none reached of the 2 declared\n%s\nrt: low proved\n== one: its tests\nlogic=proved tests=1\nrt: one: its tests are proved\n== one\n%s\nrt: one proved\n'
    proved = said % (line, line)
    rests = said % (line, 'axioms libc: %s (1 of the 128 declared)\naxioms os: none reached of the 22 declared\n' + line.replace('9 sum', '9 axioms=1 target=x86_64 cpu=x86-64-v2 sum'))
    both = (rests % 'libc::read, libc::write').replace('none reached of', 'os::c::rattle_errno (1 of').replace('axioms=1', 'axioms=3')
    kept = proved.split('== one\n')[0] + 'rt: one is kept: an earlier run on this machine proved the same files over the same libraries\n'
    calls = '                 w __cxa_finalize@GLIBC_2.2.5\n                 U read@GLIBC_2.2.5\n                 U memcpy@GLIBC_2.14\n'
    samples = [
        (kit('kit-1 logic 0a', ['kit-1 logic 0a']), 0), (kit('kit-2 logic 0b', ['kit-1 logic 0a']), 1),
        (kit('kit-1 logic 0a', ['kit-2 logic 0b', 'kit-1 logic 0a']), 0), (kit('kit-1 logic', ['kit-1 logic 0a']), 1),
        (verdict('one', False, proved, '0a'), 0), (verdict('one', False, proved, '0b'), 1), (verdict('one', False, '', '0a'), 1), (verdict('on', False, proved, '0a'), 1),
        (verdict('one', False, said % (line, line.replace('proved', 'not-proved')), '0a'), 1), (verdict('one', False, said % (line, line.replace('9', '9 foreign=add')), '0a'), 1),
        (verdict('one', False, said % (line, ''), '0a'), 1), (verdict('one', False, said % (line, line + ' incremental=trusted'), '0a'), 1),
        (verdict('one', False, said % (line, line.replace(' statements=trusted', '')), '0a'), 1), (verdict('one', False, proved.replace('rt: one proved', 'rt: one NOT PROVED'), '0a'), 1),
        (verdict('one', False, kept, '0a'), 0), (verdict('low', False, kept, '0a'), 0), (verdict('other', False, kept, '0a'), 1), (verdict('one', False, kept.replace('rt: one is kept', 'note: rt: one is kept'), '0a'), 1),
        (verdict('one', False, rests % 'libc::write', '0a'), 1), (verdict('low', False, rests % 'libc::write', '0a'), 0), (verdict('one', True, rests % 'libc::write', '0a'), 0),
        (verdict('one', True, both, '0a'), 0), (verdict('one', True, both.replace('=3', '=2'), '0a'), 1), (verdict('one', True, rests % 'libc::open', '0a'), 1),
        (verdict('one', True, rests % 'other::write', '0a'), 1), (verdict('one', True, (rests % 'libc::write').replace('axioms libc', 'note libc'), '0a'), 1),
        (reached('one', calls), 0), (reached('one', calls + '                 U fork@GLIBC_2.2.5\n'), 1), (reached('one', ''), 1), (reached('one', calls.replace('read', 'pread')), 1),
        (asked('\nabi_c.o:\n                 U memcpy\n                 U memset\n'), 0), (asked('\nabi_c.o:\n                 U memcpy\n                 U memmove\n'), 1), (asked(''), 1),
        (foreign('lib.rt', 'extern "C" { fn add(); }'), 1), (foreign('lib.rt', 'pub extern "C" fn add() {'), 0), (foreign('lib.rt', 'extern\n{ fn add(); }'), 1),
        (unmeasured('struct pnet_answer pnet_fire(int net);', '{"pnet_fire", fire, 0, 4096}'), 0), (unmeasured('int pnet_fire(int net);', '{"pnet_fired", 0}'), 1),
    ]
    wrong = [(i, found) for i, (found, faults) in enumerate(samples) if len(found) != faults]
    for i, found in wrong:
        print(f'selftest: sample {i} gives {found}', file=sys.stderr)
    print(f'claims: {len(samples)} samples, {len(wrong)} taken wrongly')
    return 1 if wrong else 0


def main():
    if sys.argv[1:] == ['--selftest']:
        return selftest()
    if len(sys.argv) != 2:
        sys.exit('usage: claims.py FILE, where FILE has what `rt ci` printed')
    printed = pathlib.Path(sys.argv[1]).read_text(errors='replace')
    said = subprocess.run(['rt', 'version'], capture_output=True, text=True).stdout.strip()
    faults = kit(said, (top / '.ci/kit').read_text().splitlines())
    crates = re.findall(r'^(\w+)[^:\n]*:', (top / 'crates.txt').read_text(), re.M)
    kept = [crate for crate in crates if section(crate, printed) == 'kept']
    for crate in crates:
        program = (top / f'crates/{crate}/src/main.rt').exists()
        faults += verdict(crate, program, printed, said.split(' ')[-1])
        if program:
            faults += reached(crate, subprocess.run(['nm', '-D', top / 'target/bin' / crate], capture_output=True, text=True).stdout)
    for source in sorted(top.glob('crates/*/src/**/*.rt')):
        faults += foreign(source.relative_to(top), source.read_text())
    faults += asked(subprocess.run(['nm', '-u', top / 'target/staticlib/libabi.a'], capture_output=True, text=True).stdout)
    faults += unmeasured((top / 'include/pnet.h').read_text(), (top / 'tests/stack.c').read_text())
    for text in faults:
        print(text, file=sys.stderr)
    print(f'claims: {len(crates)} crates, {len(kept)} of them kept from earlier runs, {len(faults)} faults')
    return 1 if faults else 0


sys.exit(main())
