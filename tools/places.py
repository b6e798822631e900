#!/usr/bin/env python3
"""Lists the places in crates/*/src that might be written in a newer form, by the points of docs/DESIGN-PASS.md.

    python3 tools/places.py [DIR]

DIR is a checkout, this one where none is named. What is listed is a candidate: the page says of each what became of it.
"""
import difflib
import itertools
import pathlib
import re
import sys

ROOT = pathlib.Path(sys.argv[1] if len(sys.argv) > 1 else pathlib.Path(__file__).resolve().parent.parent)
FILES = sorted(ROOT.glob('crates/*/src/**/*.rt'))
WORDS = set('fn pub mod impl for if else match return let mut struct enum trait const use ghost self Self crate ref in where move as'
            ' true false Ok Err Some None Option Result Vec usize bool u8 u16 u32 u64 i32 i64 requires ensures result now old new'.split())


def code(text):
    """The text without comments."""
    return re.sub(r'//[^\n]*', '', text)


def line_of(text, at):
    return text.count('\n', 0, at) + 1


def grep(pattern):
    for path in FILES:
        text = code(path.read_text())
        for m in re.finditer(pattern, text, re.M):
            line = line_of(text, m.start())
            yield f'{path.relative_to(ROOT)}:{line}', text.splitlines()[line - 1].strip()


def declared(body):
    """Whether the item has no body: a `;` ends it before one begins."""
    for line in body.splitlines():
        if re.search(r'\{\s*$', line):
            return False
        if line.rstrip().endswith(';'):
            return True
    return False


def items():
    """Each function, struct and impl: its place, its kind, its name and its text, comments and clauses apart."""
    for path in FILES:
        text = code(path.read_text())
        for m in re.finditer(r'^([ ]*)(?:pub(?:\(crate\))? )?(fn|struct|impl)\b', text, re.M):
            end = text.find('\n' + m.group(1) + '}', m.start())
            body = text[m.start():end]
            if end < 0 or declared(body):
                continue
            name = re.search(r'(?:fn|struct) (\w+)|impl(?:<[^{]*?>)? ([^{]+?) \{', body)
            yield f'{path.relative_to(ROOT)}:{line_of(text, m.start())}', m.group(2), (name.group(1) or name.group(2)) if name else '?', body


def shape(body):
    """The tokens of an item, all names and numbers of its own made alike."""
    body = re.sub(r'^ *(ghost use .*|requires.*|ensures.*)$', '', body, flags=re.M)
    return [t if t in WORDS or not re.match(r'\w', t) else '_' for t in re.findall(r'\w+|[^\w\s]', body)]


def report(title, found):
    found = list(found)
    print(f'\n{title}: {len(found)}')
    for row in found:
        print('  ' + '  '.join(row))


def twins():
    """Pairs of items of one kind, of 20 tokens or more, whose shapes agree in nine tokens of ten."""
    kinds = [(p, k, n, shape(b)) for p, k, n, b in items()]
    for (p, k, n, s), (q, l, m, t) in itertools.combinations(kinds, 2):
        if k == l and min(len(s), len(t)) >= 20 and difflib.SequenceMatcher(None, s, t, autojunk=False).ratio() >= 0.9:
            yield p, f'{k} {n}', q, f'{l} {m}'


def facts():
    """Facts that clauses of three functions or more state, of whatever they name, and parameters of three functions or more."""
    stated, travel = {}, {}
    for place, kind, name, body in items():
        if kind != 'fn':
            continue
        for clause in re.findall(r'requires \w* ?\{(.*)\}', body):
            fact = re.sub(r'\b[a-z_]+(\.(now|old|new|args))?\b(?=[\s)}]|$)', '_', clause.strip())
            stated.setdefault(fact, set()).add(f'{place} {name}')
        for fact in re.findall(r'ensures \w* ?\{(.*)\}', body):
            stated.setdefault(f'ensures {fact.strip()}', set()).add(f'{place} {name}')
        head = body[:body.find('{')]
        params = re.findall(r'(\w+): (&?(?:mut )?[\[\]\w<>& ]+)', re.sub(r'^.*?fn \w+(<[^(]*>)?\(', '', head, flags=re.S))
        for pair in itertools.combinations(sorted(params), 2):
            travel.setdefault(pair, set()).add(f'{place} {name}')
    for found, what in ((stated, 'fact'), (travel, 'parameters')):
        for key, where in sorted(found.items(), key=str):
            if len(where) >= 3:
                yield what, str(key), '; '.join(sorted(where))


NONE = r'^ *//[^\n]*where (?:there is none|it never is)[^\n]*\n(?: *//[^\n]*\n)* *(?:pub(?:\(crate\))? )?fn (\w+)'


def sentinels():
    for path in FILES:
        text = path.read_text()
        for m in re.finditer(NONE, text, re.M):
            yield f'{path.relative_to(ROOT)}:{line_of(text, m.start())}', m.group(1)


report('1a enums', grep(r'^\s*pub enum|^\s*enum'))
report('1b a number that stands for none', sentinels())
report('1c a flag in a struct, or a number that is kept for a kind', grep(r'^\s+(pub )?\w+: bool,|kind: (u|i)\d+'))
report('2 twins', twins())
report('3 loops that count, and counters by hand', grep(r'for \w+ in \w+\.\.|\bwhile\b|\bloop \{|= \w+\.wrapping_add\(1\)'))
report('4a casts', grep(r' as (?:u|i)(?:\d+|size)\b'))
report('4b a Result or an Option matched to build another', grep(r'Ok\((\w+)\) => Ok\(\1\)|Some\((\w+)\) => Some\(\2\)|Ok\(\w+\(.*\)\?\)$'))
report('4c orders and equality by hand', grep(r'fn (greater|beyond|less|equal|same|eq|cmp|partial_cmp)\b'))
report('4d fields that are printed by hand', grep(r'(println!|write!)\(|^\s+"refused'))
report('5 facts and parameters', facts())
report('6 arrays and counts in structs', grep(r'^\s+(pub(\(crate\))? )?\w+: \[.*; .*\],|^\s+(pub(\(crate\))? )?(count|len|length|used): (usize|u32),'))
report('7 function pointers, dyn, tables of functions', grep(r'\bfn\(|\bdyn\b'))
