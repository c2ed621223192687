#!/usr/bin/env python3
"""Holds docs/CONTRACTS.md and docs/ARCHITECTURE.md to the crates, and every contract to its form.

1. On docs/CONTRACTS.md every code span with a '/' in it is a file or folder, from the top of the repository or below crates/; the code
   spans after it, up to the next such span in the same cell or sentence, are names that stand in it as words.
2. Every `pub fn` of a library with a `requires` stands among the shared parts of docs/ARCHITECTURE.md; every other `pub fn` is one of them too, or is a
   public call and stands on docs/CONTRACTS.md. A `pub(crate) fn` may be a shared part, among modules.
3. A public call `x_y` has one `ensures`: `XYAllows`, which specs/Allowed.antt of its crate, or of the module that docs/ARCHITECTURE.md lists, declares, over its arguments in their order and its outcome: the
   answer, and the final content of every slice or record that it is lent to write. `abi_c` has for each `pub fn` of `abi`, and for nothing else, an export for C in the module of the same name: with the
   same name, parameters, result and clauses.
4. Every `..Allows` of a specs/Allowed.antt is the contract of a public call and has its field in Uniqueness, in ConstantAnswers and, where it answers with a
   number of document 01, in CallTables (a field may serve two calls: the comment above it names them); a call for C in UniqueForC and ConstantAnswersForC.
5. A shared part says something of its result, and of every slice that it is lent to write: an equation whose other side does not speak of it, or a
   definition or record that some specs/ declares and that is not empty; of a result by `MatchResult`, in both cases. What the ghost fields of a struct that it
   makes say of the struct is said of its result.
6. A `pub fn` in the `impl` of a type is held as any other, under the name `Type::name`. Every function in the `impl` of a trait says something of its result: by
   its own clauses, or by the law that the `impl` gives of it: of `from` that is `from_gives`.
7. Every must-fail edit begins with a line that quotes the fact that fails.

`contracts.py --selftest` tries the rules on samples that break them.
"""
import pathlib, re, sys

top = pathlib.Path(__file__).resolve().parent.parent


# Reading: functions, their clauses, and expressions.

def words(text):
    """The words of an expression: parentheses are words too."""
    return re.findall(r'[()]|[^\s()]+', text)


def terms(tokens):
    """The terms of an application: single words and parenthesised runs of them."""
    out, depth, start = [], 0, 0
    for i, token in enumerate(tokens):
        if token == '(':
            start = i if depth == 0 else start
            depth += 1
        elif token == ')':
            depth -= 1
            if depth == 0:
                out.append(tokens[start:i + 1])
        elif depth == 0:
            out.append([token])
    return out


def bare(tokens):
    """The tokens without parentheses around the whole."""
    while len(tokens) > 1 and tokens[0] == '(' and len(terms(tokens)) == 1:
        tokens = tokens[1:-1]
    return tokens


def split(tokens, sign):
    """The parts of an expression around a sign that stands in no parentheses."""
    parts, depth = [[]], 0
    for token in tokens:
        depth += (token == '(') - (token == ')')
        if token == sign and depth == 0:
            parts.append([])
        else:
            parts[-1].append(token)
    return parts


def enclosed(text, at):
    """Where the bracket that opens there is closed."""
    depth = 0
    for i in range(at, len(text)):
        depth += (text[i] in '([{') - (text[i] in ')]}')
        if depth == 0:
            return i
    return len(text) - 1


def source(text):
    """The text of a file without comments, and with no bracket in a string or a character: what is left has its brackets in pairs."""
    def blank(found):
        return '' if found.group(0).startswith('//') else re.sub(r'[][(){}]', ' ', found.group(0))
    return re.sub(r'"(?:\\.|[^"\\])*"|\'(?:\\.|[^\'\\\n])\'|//[^\n]*', blank, text)


CLAUSE = re.compile(r'\s*(requires|ensures)(?: \*)?(?: \w+)? \{')


class Function:
    """A `pub fn` or `pub(crate) fn`, or one of a trait's `impl`: the crate or module that it belongs to, its parameters, its result, and its clauses.
    The head begins at the parameters, and what comes after the clauses is not read. `laws` are what the trait's `impl` says of it, each under its λ;
    `fields` are the names of the fields of the struct that it makes, and `kept` is what the struct's ghost fields say. `label` is how a page names it."""

    def __init__(self, crate, path, head, inner=False, exported=False, kind='', trait=False, laws=(), structs=None):
        self.crate, self.path, self.name, self.inner, self.exported = crate, path, path.split('::')[-1], inner, exported
        self.label, self.trait, self.laws = f'{kind}::{self.name}' if kind else self.name, trait, laws
        head = head[head.index('('):]
        end = enclosed(head, 0)
        # (a clause begins a line, and so does the body, but where there is no clause)
        after = re.compile(r'\s*(?:requires|ensures)\b|\s*\{').search(head, end + 1)
        self.result_type = head[end + 1:after.start() if after else len(head)].strip()
        # (a long head has its parameters on lines of their own)
        self.signature = re.sub(r'\( | (?=\))|, ?(?=\))', lambda m: m.group(0).strip(', '), ' '.join((head[:end + 1] + ' ' + self.result_type).split()))
        self.parameters = re.findall(r'^\s*()(&mut )(?=self\b)', head[1:end]) + re.findall(r'(\w+): (&mut |&\[|&)?', head[1:end])
        self.parameters = [(name or 'self', kind) for name, kind in self.parameters]
        self.returns = self.result_type.startswith('->')
        self.requires, self.ensures, at = [], [], end + 1 + len(head[end + 1:after.start()]) if after else len(head)
        while found := CLAUSE.match(head, at):
            at = enclosed(head, found.end() - 1) + 1
            (self.requires if found.group(1) == 'requires' else self.ensures).append(' '.join(head[found.end():at - 1].split()))
        self.fields, self.kept = (structs or {}).get(self.result_type.removeprefix('-> '), ((), ()))

    def lent(self):
        return [name for name, kind in self.parameters if kind == '&mut ']

    def contract(self):
        """The one contract that a public call of this name and these parameters may state."""
        call = re.sub('^pnet_', '', self.name)
        given = [name + ('.old' if kind == '&mut ' else '.now' if kind else '') for name, kind in self.parameters]
        left = ', '.join(f'{name}.new' for name in self.lent())
        outcomes = [f'(result, {left})'] if left else ['result', 'result.now']
        return [' '.join([camel(call) + 'Allows'] + given + [outcome]) for outcome in outcomes]


def camel(name):
    return ''.join(part.capitalize() for part in name.split('_'))


def listed():
    """The crates, and the modules `a::b` with specs of their own, that docs/ARCHITECTURE.md lists."""
    return set(re.findall(r'^\| `([\w:]+)` \|', (top / 'docs/ARCHITECTURE.md').read_text().split('\n\nIn each crate ')[0], re.M))


def blocks(text):
    """Each `impl` of a file: the trait, if it is of one, the type, and what stands between its braces."""
    for found in re.finditer(r'^(?:unsafe )?impl\b([^{]*)\{', text, re.M):
        head = ' '.join(found.group(1).split())
        if head.startswith('<'):
            depth = 0
            for at, sign in enumerate(head):
                depth += (sign == '<') - (sign == '>' and head[at - 1] != '-')
                if depth == 0:
                    break
            head = head[at + 1:].strip()
        parts = re.split(r' where\b', head)[0].split(' for ')
        yield parts[0] if len(parts) == 2 else None, parts[-1].strip(), text[found.end():enclosed(text, found.end() - 1)]


def structs_of(text):
    """What each struct with ghost fields has: the names of its fields, and what the ghost fields say."""
    out = {}
    for found in re.finditer(r'^(?:pub(?:\(crate\))? )?struct (\w+)[^{;(]*\{', text, re.M):
        body = text[found.end():enclosed(text, found.end() - 1)]
        kept = [body[at.end():enclosed(body, at.end() - 1)].split() for at in re.finditer(r'ghost \w+: \{', body)]
        names = re.findall(r'^    (?:pub(?:\(crate\))? )?(\w+): ', body, re.M)
        if kept:
            out[found.group(1)] = names, [' '.join(said) for said in kept]
    return out


def functions_of(crate, way, text):
    """The functions of a file that are held to something: the public ones and those of a crate or an `impl`, and every one of a trait's `impl`."""
    text = source(text)
    structs = structs_of(text)
    for found in re.finditer(r'^(#\[unsafe\(no_mangle\)\]\n)?pub(\(crate\))? (?:const )?(?:unsafe )?(extern "C" )?fn (\w+)', text, re.M):
        exported = bool(found.group(1) and found.group(3))
        yield Function(crate, '::'.join(way + [found.group(4)]), text[found.end():], bool(found.group(2)), exported, structs=structs)
    for trait, kind, body in blocks(text):
        for found in re.finditer(r'^    (pub(\(crate\))? )?(?:const )?(?:unsafe )?fn (\w+)', body, re.M):
            if trait or found.group(1):
                own, name = f'<{kind} as {trait}>' if trait else kind.split('<')[0], found.group(3)
                laws = [' '.join(body[at.end():enclosed(body, at.end() - 1)].split()) for at in re.finditer(rf'^    ghost {name}_gives = \{{', body, re.M)]
                yield Function(crate, '::'.join(way + [own, name]), body[found.end():], bool(found.group(2)), False, own, bool(trait), laws if trait else (), structs)


def functions():
    parts = listed()
    for file in sorted(top.glob('crates/*/src/**/*.rt')):
        if file.name == 'main.rt' or (file.parent / 'main.rt').exists():
            continue
        way = [file.relative_to(top).parts[1], *file.relative_to(top).with_suffix('').parts[3:]]
        way = way[:-1] if way[-1] == 'lib' else way
        own = 2 if '::'.join(way[:2]) in parts else 1
        yield from functions_of('::'.join(way[:own]), way[own:], file.read_text())


def contracts_of(crate):
    return 'crates/' + '/specs/'.join((crate + '::').split('::', 1)).replace('::', '/') + 'Allowed.antt'


def declarations(text):
    """What a specs/ file declares: each record with its fields, each definition with its clauses."""
    out = {}
    for found in re.finditer(r'^( *)(?:(?:abbrev|unfoldable) )?pub (record |data )?([A-Z]\w*)\b(.*?)(?=^\1\S|\Z)', text, re.M | re.S):
        if found.group(2):
            body = found.group(4).partition(' where')[2]
        else:
            body = ''.join(re.findall(r'^ *' + found.group(3) + r'\b.*?=(.*(?:\n +.*)*)', text, re.M))
        out[found.group(3)] = body
    return out


# The rules: each gives its faults.

# what stands in a definition that says something
SAYING = r'≡|↔|≤|<|[A-Z]\w+ '


def speaks(tokens, subject):
    """Whether an expression speaks of the result, or of the final content of a slice."""
    text = ' '.join(tokens)
    return bool(re.search(subject, text))


def says(tokens, subject, declared):
    """Whether an expression says something of its subject."""
    tokens = bare(tokens)
    parts = split(tokens, '×')
    if len(parts) > 1:
        return any(says(part, subject, declared) for part in parts)
    for sign in '≡', '↔':
        sides = split(tokens, sign)
        if len(sides) == 2:
            about = [speaks(side, subject) for side in sides]
            return about in ([True, False], [False, True])
    parts = terms(tokens)
    name = parts[0][0] if parts else ''
    if name == 'MatchResult' and len(parts) == 4 and speaks(parts[1], subject):
        return all(equates(bare(case)) for case in parts[2:])
    if not re.fullmatch(r'[A-Z]\w*', name) or not speaks(tokens, subject):
        return False
    if not re.search(SAYING, declared.get(name, '')):
        return False
    under = [part for part in map(bare, parts[1:]) if part[0] == 'λ' and speaks(part, subject)]
    return all(says(part[next((i + 1 for i, word in enumerate(part) if word.endswith('.')), 0):], subject, declared) for part in under)


def equates(case):
    """Whether what is said of a case of a result, under its λ, has an equation of which one side alone speaks of what the λ binds."""
    at = next((i + 1 for i, word in enumerate(case) if word.endswith('.')), 0)
    if case[0] != 'λ' or at < 2:
        return False
    bound = rf'(?<!\S){re.escape(" ".join(case[1:at]).rstrip("."))}(?:\.\S+)?(?!\S)'
    sides = [split(bare(part), '≡') for part in split(bare(case[at:]), '×')]
    return any(len(two) == 2 and speaks(two[0], bound) != speaks(two[1], bound) for two in sides)


def shared_part(f, declared):
    where = f'{f.crate}::{f.path}'
    # One that asks for nothing and has a definition of its name, as a call that is prepared, is held to the whole form of a public call.
    if not f.requires and re.search(SAYING, declared.get(f.contract()[0].split(' ')[0], '')):
        return public_call(f, declared)
    subjects = [(r'(?<!\S)result(?:\.\S+)?(?!\S)', 'its result')] if f.returns else []
    subjects += [(rf'(?<!\S){name}\.new(?:\.\S+)?(?!\S)', f'what it leaves in `{name}`') for name in f.lent()]
    if not subjects:
        return [f'{where} has no result and is lent nothing: there is nothing that it could say']
    return [f'{where} says nothing of {what}' for subject, what in subjects
            if not any(says(words(e), subject, declared) for e in f.ensures) and not (what == 'its result' and made(f, declared))]


def made(f, declared):
    """Whether the struct that a function makes says something of itself, by a ghost field."""
    return any(says(words(said), rf'(?<!\S){field}(?!\S)', declared) for said in f.kept for field in f.fields)


def under(law):
    """What a law says, and the last name that its λ, or those one after another, bind."""
    given = ''
    while (law := bare(law)) and law[0] == 'λ':
        at = next((i for i, word in enumerate(law) if word.endswith('.')), len(law) - 1)
        given, law = law[at].rstrip('.'), law[at + 1:]
    return law, given


def of_a_trait(f, declared):
    """The faults of a function in a trait's `impl`: its law binds what it is given, and what it gives last."""
    for law, given in map(under, map(words, f.laws)):
        if given and says(law, rf'(?<!\S){re.escape(given)}(?:\.\S+)?(?!\S)', declared):
            return []
    return shared_part(f, declared)


def public_call(f, contracts):
    where, may = f'{f.crate}::{f.path}', f.contract()
    if len(f.ensures) != 1 or f.ensures[0] not in may:
        return [f'{where} states {" and ".join(f.ensures) or "nothing"}, and not {may[0]}']
    name = may[0].split(' ')[0]
    return [] if name in contracts else [f'{where} states {name}, which {contracts_of(f.crate)} does not declare']


def exports(calls, exported):
    """The faults of `abi_c`'s functions, which are to be the calls of `abi` for C."""
    of = {f.path: f for f in exported}
    faults = [f'abi_c::{path} exports nothing of `abi`' for path in of if path not in [f.path for f in calls]]
    for f in calls:
        other = of.get(f.path)
        if not other or not other.exported or other.inner:
            faults.append(f'abi_c has no `pub extern "C" fn` {f.path} under #[unsafe(no_mangle)]')
        elif (f.signature, f.requires, f.ensures) != (other.signature, other.requires, other.ensures):
            faults.append(f'abi_c::{f.path} has other parameters, another result or other clauses than abi::{f.path}')
    return faults


def fields(text, record):
    """The fields of a record, each with the comment line above it."""
    body = re.search(r'^pub record ' + record + r' :.*?(?=^\S|\Z)', text, re.M | re.S)
    return dict((name, (above, kind)) for above, name, kind in
                re.findall(r'^((?:  --.*\n)?)  pub (\w+) : (.*(?:\n    +.*)*)', body.group(0) if body else '', re.M))


def has_number(outcome):
    return outcome.split(' × ')[0] not in ('List ℕ', 'Option ℕ')


def theorem_fields(crate, name, outcome, unique, constant, tables):
    """The faults of one `..Allows`: a field that is missing, or that speaks of something else."""
    field = re.sub(r'(?<=[a-z0-9])([A-Z])', r'_\1', name[:-len('Allows')]).lower()
    said = ('c.' if crate == 'abi' else '') + name
    for_c = 'ForC' if crate == 'abi' else ''
    faults = []
    for text, record in (unique, ('Unique' + for_c if for_c else 'Uniqueness')), (constant, 'ConstantAnswers' + for_c):
        kind = fields(text, record).get(field, ('', ''))[1]
        if not re.search(r'(?<![\w.])' + re.escape(said) + r'(?!\w)', kind):
            faults.append(f'{record} has no field `{field}` of {said} ({crate})')
    if crate != 'abi' and has_number(outcome):
        given = fields(tables, 'CallTables')
        spoken = field.replace('_', ' ')
        if field not in given and not any(re.search(r'\b' + spoken + r'\b', above) for above, _ in given.values()):
            faults.append(f'CallTables has no field `{field}` ({crate}), and no comment in it names {spoken}')
    return faults


def allows(text):
    """Each `..Allows` that a specs/Allowed.antt declares, with the type of its outcome."""
    return dict((name, kind.split(' → ')[-1]) for name, kind in re.findall(r'pub (\w+Allows) : (.*) → Type 0$', text, re.M))


# The repository.

def find(span):
    return next((place for place in (top / span, top / 'crates' / span) if place.exists()), None)


def text_of(place):
    if place.is_file():
        return place.read_text()
    return '\n'.join(f.read_text() for f in sorted(place.rglob('*')) if 'out' not in f.relative_to(top).parts and f.suffix in ('.rt', '.antt', '.edit', '.rs', '.py', '.c', '.h', '.md'))


def check_names(page, faults):
    count = 0
    for block in re.split(r'[|\n]', page):
        place = None
        for span in re.findall(r'`([^`]+)`', block):
            if '/' in span:
                place = find(span)
                count += 1
                if place is None:
                    faults.append(f'docs/CONTRACTS.md: no file {span}')
            elif place is not None and re.fullmatch(r"[\w'∞₀-₉-]+", span):
                count += 1
                if not re.search(r"(?<![\w'∞-])" + re.escape(span) + r"(?![\w'∞]|-\w)", text_of(place)):
                    faults.append(f'docs/CONTRACTS.md: no name {span} in {place.relative_to(top)}')
    return count


def check_functions(page, faults):
    parts = (top / 'docs/ARCHITECTURE.md').read_text().split('## Shared parts')[1].split('\n## ')[0]
    declared, contracts, stated, count = {}, {}, set(), 0
    for file in sorted(top.glob('crates/*/specs/**/*.antt')):
        declared.update(declarations(file.read_text()))
        if file.name == 'Allowed.antt':
            contracts['::'.join(part for part in file.relative_to(top).parts[1:-1] if part != 'specs')] = allows(file.read_text())
    found = list(functions())
    faults += exports([f for f in found if f.crate == 'abi' and not f.inner], [f for f in found if f.crate == 'abi_c'])
    for f in found:
        if f.crate == 'abi_c':
            continue
        count += not f.inner
        if f.trait:
            faults += of_a_trait(f, declared)
            continue
        row = next((line.split('|')[2] for line in parts.split('\n') if line.startswith(f'| `{f.crate}` |')), '')
        if re.search(r'`(?:[a-z_]\w*::)*' + re.escape(f.label) + '`', row):
            faults += shared_part(f, declared)
            continue
        if f.inner:
            continue
        if f.requires:
            faults.append(f'{f.crate}::{f.path} has a `requires` and is no shared part')
        if f'`{f.crate}::{f.path}`' not in page:
            faults.append(f'{f.crate}::{f.path} is a public call that docs/CONTRACTS.md does not name')
        faults += public_call(f, contracts.get(f.crate, {}))
        stated.add((f.crate, f.contract()[0].split(' ')[0]))
    promises = top / 'crates/promises/specs'
    unique, tables = (promises / 'Uniqueness.antt').read_text(), (promises / 'CallTables.antt').read_text()
    constant = '\n'.join((promises / f'ConstantAnswers{c}.antt').read_text() for c in ('', 'ForC'))
    for crate, names in contracts.items():
        for name, outcome in names.items():
            if (crate, name) not in stated:
                faults.append(f'{contracts_of(crate)} declares {name}, which no public call states')
            faults += theorem_fields(crate, name, outcome, unique, constant, tables)
    return count


def check_edits(faults):
    edits = sorted(top.glob('crates/*/must-fail/*.edit'))
    for edit in edits:
        if not re.match(r'# fails: .*".+"', edit.read_text().split('\n')[0]):
            faults.append(f'{edit.relative_to(top)} does not begin with a quote of the fact that fails')
    return len(edits)


# What the rules find in samples that break them, and in some that do not.

def selftest():
    declared = declarations('''pub record Rises (n r : ℕ) : Type 0 where
  pub up : n ≤ r

pub record Empty (r : ℕ) : Type 0 where

abbrev pub OfEach : (ℕ → Type 0) → Type 0
OfEach P = (n : ℕ) → P n ≡ P n

abbrev pub PartAllows : List ℕ → List ℕ → ℕ × List ℕ → Type 0
PartAllows s out o = o ≡ put s out
''')
    say = '(s: &[u8], out: &mut [u8]) -> usize\n    requires { x }\n    ensures { %s }\n{\n'
    nothing = '(out: &mut [u8])\n    requires first { x }\n    requires second { y }\n    ensures { %s }\n{\n'
    free = say.replace('    requires { x }\n', '')
    two = say.replace('ensures { %s }', 'ensures value { %s }\n    ensures out_after {\n        %s\n    }')
    whole = 'PartAllows s.now out.old (result, out.new)'
    both = '(result ≡ end s) × (out.new ≡ put s)'
    parts = [
        (say % both, 0), (say % 'result ≡ result', 2), (say % '⊤', 2), (say % '(result ≡ result) × (out.new ≡ put s)', 1), (say % 'result ≡ end s', 1),
        (say % 'result + 0 ≡ result', 2), (say % 'Rises out.new result', 0), (say % 'Unknown out.new result', 2), (say % 'Empty result', 2),
        (say % 'Rises out.old result', 1), (say % 'result.0 ≡ end s', 1), (say % 'result.0 ≡ result.1', 2), (say % 'results ≡ end s', 2), (say % 'Rises (result, out.new)', 1),
        (say % 'OfEach (λ t. result ≡ result)', 2), (say % 'OfEach (λ t. (result ≡ end t) × (out.new ≡ put t))', 0),
        (say % 'OfEach (λ t u. result ≡ result)', 2), (say % 'OfEach (λ t u. (result ≡ end t) × (out.new ≡ put u))', 0),
        (say % '(MatchResult result (λ n. n ≡ end s) (λ r. end s ≡ some r)) × (out.new ≡ put s)', 0), (say % 'MatchResult result (λ n. n ≡ n) (λ r. end s ≡ some r)', 2), (say % 'MatchResult result (λ n. end s ≡ 0) (λ r. end s ≡ some r)', 2),
        (say % 'MatchResult result (λ n. (end s ≡ 0) × (n ≡ s)) (λ r. ⊤)', 2), (say % 'MatchResult s (λ n. n ≡ end s) (λ r. end s ≡ some r)', 2),
        (two % ('result ≡ end s', 'out.new ≡ put s'), 0), (two % ('result ≡ end s', '⊤'), 1), (two % ('⊤', 'out.new ≡ put s'), 1),
        (free % whole, 0), (free % whole.replace(' out.old', ''), 1), (free % whole.replace('(result, out.new)', 'result'), 1), (free % both, 1),
        (say % whole, 1), (say % whole.replace('Part', 'Unknown'), 2), (free % whole.replace('Part', 'Unknown'), 1),
        (nothing % 'out.new ≡ put s', 0), (nothing % 'out.new ≡ out.new', 1), (nothing % '⊤', 1), ('(s: &[u8]) {\n    requires { result }\n', 1),
    ]
    call = '(net: &[u8], mode: Mode, out: &mut [u8]) -> Answer\n    ensures { %s }\n{\n'
    right = 'FireOnAllows net.now mode out.old (result, out.new)'
    calls = [
        (call % right, {'FireOnAllows'}, 0), (call % right, {}, 1), (call % 'result ≡ result', {'FireOnAllows'}, 1), (call % '⊤', {'FireOnAllows'}, 1),
        (call % right.replace(' mode', ''), {'FireOnAllows'}, 1), (call % right.replace('(result, out.new)', 'result'), {'FireOnAllows'}, 1),
        (call % right.replace('out.old', 'out.new'), {'FireOnAllows'}, 1), (call.replace('ensures {', 'ensures allowed {') % right, {'FireOnAllows'}, 0),
        (call.replace('out: &mut [u8]', 'out: &mut Fleet') % right, {'FireOnAllows'}, 0),
        (call.replace('out: &mut [u8]', 'out: &mut Fleet') % right.replace('(result, out.new)', 'result'), {'FireOnAllows'}, 1),
        ('(net: &[u8]) -> &[u8]\n    ensures { FireOnAllows net.now result.now }\n{\n', {'FireOnAllows'}, 0), ('(net: &[u8]) -> u8 {\n', {'FireOnAllows'}, 1),
        (call % right + '    ensures { ⊤ }\n{\n', {'FireOnAllows'}, 0), ((call % right).replace('{\n', '    ensures more { ⊤ }\n{\n'), {'FireOnAllows'}, 1),
        (call.replace('    ensures { %s }\n', ''), {'FireOnAllows'}, 1),
    ]
    unique = 'pub record Uniqueness : Type 0 where\n  pub fire_on : (s : List ℕ) → Unique (FireOnAllows s)\n  pub test : (s : List ℕ) → Unique (FireOnAllows s)\n'
    constant = 'pub record ConstantAnswers : Type 0 where\n  pub fire_on : Varies FireOnAllows number\n  pub test : Varies TestAllows number\n'
    tables = 'pub record CallTables : Type 0 where\n  -- test and fire on\n  pub test : (s : List ℕ) → Reads (table s) (refusal s)\n'
    records = [
        ('FireOnAllows', 'Answer', 0), ('TestAllows', 'Answer', 1), ('RunAllows', 'Ran × List ℕ', 3), ('PutAllows', 'Option ℕ × List ℕ', 2),
    ]
    other = call.replace('mode: Mode', 'mode: u16')
    long = call.replace('(net: &[u8], mode: Mode, out: &mut [u8])', '(\n    net: &[u8],\n    mode: Mode,\n    out: &mut [u8],\n)')
    for_c = [
        (call % right, call % right, 'pnet_fire_on', True, 0), (call % right, long % right, 'pnet_fire_on', True, 0), (call % right, call % right, 'pnet_fire_on', False, 1), (call % right, call % right, 'pnet_fire', True, 2),
        (call % right, call % '⊤', 'pnet_fire_on', True, 1), (call % right, other % right, 'pnet_fire_on', True, 1),
        (call % right, (call % right).replace('    ensures', '    requires { x }\n    ensures'), 'pnet_fire_on', True, 1),
    ]
    law = 'impl From<Answer> for Told {\n    ghost from_gives = { %s };\n\n    fn from(answer: Answer) -> Told {\n        tell(answer)\n    }\n}\n'
    table = 'pub struct Table {\n    pub digits: [u8; 2],\n    pub ghost digits_are: { %s },\n}\n\nimpl Table {\n    pub fn new() -> Table {\n        Table { digits }\n    }\n\n    fn own() -> u64 {\n        0\n    }\n}\n'
    method = 'impl Table {\n    pub fn size(&self) -> u64\n        ensures { %s }\n    {\n        0\n    }\n}\n'
    impls = [
        (law % 'λ answer told. told ≡ told_of answer', 0), (law % 'λ answer told. ⊤', 1), (law % 'λ answer told. told ≡ told', 1), (law % 'λ answer told. told_of answer ≡ 0', 1),
        (law % 'λ answer told. (told.number ≡ number answer) × Rises answer told', 0), (law % 'λ answer told. Empty told', 1), (law.replace('    ghost from_gives = { %s };\n\n', ''), 1),
        (law.replace('from_gives', 'into_gives') % 'λ answer told. told ≡ told_of answer', 1),
        (law.replace('    ghost from_gives = { %s };\n\n', '').replace('-> Told {', '-> Told\n        ensures { result ≡ told_of answer }\n    {'), 0),
        (table % 'Rises 2 digits', 0), (table % '⊤', 1), (table % 'digits ≡ digits', 1), (table % 'Rises 2 other', 1), (table.replace('    pub ghost digits_are: { %s },\n', ''), 1),
        (method % 'result ≡ 2', 0), (method % '⊤', 1), (method.replace('pub fn', 'pub const fn') % '⊤', 1), (method.replace('&self', '&mut self') % 'result ≡ 2', 1),
        (method.replace('&self', '&mut self') % '(result ≡ 2) × (self.new ≡ grown self.old)', 0), ((method % '⊤').replace('Table {', 'Table { // a comment {'), 1),
        ((method % '⊤').replace('    pub', "    fn close() -> u8 {\n        b'}'\n    }\n\n    pub"), 1), ((method % '⊤').replace('impl Table {', 'impl<T> Table<T>\nwhere\n    T: Copy,\n{'), 1),
        ((law % '⊤').replace('impl From', 'unsafe impl<T> From'), 1), (law % 'λ answer. λ told. told ≡ told_of answer', 0), (law % 'λ answer. λ told. number_of answer ≡ 1', 1),
    ]
    wrong = [f'{text!r}: {found} for {faults}' for text, faults in impls
             for found in [[fault for f in functions_of('sample', [], text) for fault in (of_a_trait if f.trait else shared_part)(f, declared)]] if len(found) != faults]
    wrong += [f'{head!r}: {found} for {faults}' for head, faults in parts
             for found in [shared_part(Function('sample', 'part', head), declared)] if len(found) != faults]
    wrong += [f'{head!r}: {found} for {faults}' for head, contracts, faults in calls
              for found in [public_call(Function('sample', 'fire_on', head), contracts)] if len(found) != faults]
    wrong += [f'{name}: {found} for {faults}' for name, outcome, faults in records
              for found in [theorem_fields('sample', name, outcome, unique, constant, tables)] if len(found) != faults]
    wrong += [f'{one!r}, {two!r}, {name}: {found} for {faults}' for one, two, name, exported, faults in for_c
              for found in [exports([Function('abi', 'moving::pnet_fire_on', one)], [Function('abi_c', f'moving::{name}', two, exported=exported)])] if len(found) != faults]
    for text in wrong:
        print('selftest: ' + text, file=sys.stderr)
    print(f'contracts: {len(parts) + len(impls) + len(calls) + len(records) + len(for_c)} samples, {len(wrong)} taken wrongly')
    return 1 if wrong else 0


def main():
    if sys.argv[1:] == ['--selftest']:
        return selftest()
    page, faults = (top / 'docs/CONTRACTS.md').read_text(), []
    names, calls, edits = check_names(page, faults), check_functions(page, faults), check_edits(faults)
    for text in faults:
        print(text, file=sys.stderr)
    print(f'contracts: {names} names, {calls} functions, {edits} edits, {len(faults)} faults')
    return 1 if faults else 0


sys.exit(main())
