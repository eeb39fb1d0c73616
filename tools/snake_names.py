#!/usr/bin/env python3
"""Gives the repository's own definitions, lemmas, fields and local names the spelling of today's library: words in snake case.

    python3 tools/snake_names.py    once, at a checkout of the older repository that the kit's port.py has turned

A name of a definition, lemma, field, constructor or local value in specs/ or proofs/ that has a dash or an inner capital is turned:
`then-accepted` to `then_accepted`, `refusalNumber` to `refusal_number`. Names of types and modules keep their capitals, and so do
the operators with the paper's letters (L, R, Lw, Rw, T, X, P, C, H). Names of the library and names in src/ stay. Where a function
and a lemma or field would fall together, the lemma or field gets `_lem`. Turned are specs/, proofs/, the clauses in src/, must-fail
edits, and names in backticks on the pages.
"""
import collections
import re
from pathlib import Path

ROOT = Path(__file__).resolve().parent.parent
CRATES = ROOT / 'crates'

SIGNATURE = re.compile(r'^\s*(?:abbrev |unfoldable |pub |opaque )*([^\s:(){},;.]+)((?: [^\s:(){},;.]+)*) : ')
BOUND = re.compile(r'\blet ([^\s:(){},;.=]+)')
DECLARED = re.compile(r'^\s*(?:pub )?(?:record|data) (\S+)')
TOKEN = re.compile(r'[^\s(){},;.:=|\[\]«»`"⌜⌝]+')
# already in snake case, and beside a function that now has the same name: the files in which it is a lemma or field
BESIDE = {
    'in_order': ['crates/sheet/proofs/InOrder.antt', 'crates/sheet/proofs/Begun.antt'],
    'minus_one': ['crates/algebra/proofs/Hecke.antt', 'crates/algebra/specs/Laws.antt', 'crates/algebra/proofs/Modular.antt'],
    'by_blocks': ['crates/pairings/proofs/ByLength.antt', 'crates/pairings/proofs/WordBlocks.antt'],
}


def snake(name):
    name = re.sub(r'getD|get_d(?=_|$)', 'get_or', name)
    if not name[0].isupper():
        name = re.sub(r'(?<=[a-z0-9])([A-Z])', lambda m: '_' + m.group(1).lower(), name)
    return name.replace('-', '_')


def own_files():
    """The files whose names are turned: definitions and lemmas, and not the proofs of functions, whose names Rattle makes."""
    for crate in sorted(CRATES.iterdir()):
        yield from sorted((crate / 'specs').rglob('*.antt'))
        yield from sorted((crate / 'proofs').glob('*.antt'))


def own_names():
    names = collections.Counter()
    for path in own_files():
        for line in path.read_text().splitlines():
            if line.lstrip().startswith('--'):
                continue
            for form in (SIGNATURE, DECLARED):
                if m := form.match(line):
                    names.update(' '.join(m.groups()).split())
            names.update(BOUND.findall(line))
    return names


def renamings(names):
    turned = {n: snake(n) for n in names if re.search(r'\w-\w|get_d_|_get_d', n) or (re.search(r'[a-z0-9][A-Z]', n) and not n[0].isupper())}
    functions = {snake(n) for n in turned if '-' not in n}
    for n, new in turned.items():
        if '-' in n and (new in functions or new in names):
            turned[n] = new + '_lem'
    taken = collections.Counter(turned.values())
    assert all(k == 1 for k in taken.values()), [n for n, k in taken.items() if k > 1]
    return turned


def imported(text):
    """The names that a file takes from a library."""
    found = set()
    for m in re.finditer(r'\buse ([A-Za-z.]+)\.\{([^}]*)\}', text):
        if not m.group(1).startswith('Rattle.') or m.group(1).startswith('Rattle.std.'):
            found.update(n.strip().split(' ')[0] for n in m.group(2).split(','))
    return found


def turn(text, turned, fields):
    """The text with its names turned; a name behind a dot or set in a record is a field, and no import hides it."""

    def name(m):
        field = text[:m.start()].endswith('.') or (re.search(r'(^|[{;])\s*$', text[:m.start()]) and text[m.end():].startswith(' = '))
        return (fields if field else turned).get(m.group(), m.group())

    return TOKEN.sub(name, text)


def in_comment(line, mark):
    at = line.find(mark)
    return (line, '') if at < 0 else (line[:at], line[at:])


def glossary(line):
    """Of a line of a glossary, what is explained and the column at which the explanation stands."""
    m = re.match(r'(--   \S.*?)   *(?=\S)', line) or re.match(r'(--) {9,}(?=\S)', line)
    return (m.group(1), m.end()) if m else None


def aligned(before, after):
    """The lines after, where the explanations of a glossary stand at one column, as they did before."""
    lines, k = list(after), 0
    while k < len(before):
        start = k
        while k < len(before) and before[k].startswith('--'):
            k += 1
        columns = collections.defaultdict(list)
        for i in range(start, k):
            if (old := glossary(before[i])) and (new := glossary(after[i])):
                columns[old[1]].append((i, new))
        for column, row in columns.items():
            to = max([column, *(len(head) + 3 for _, (head, _) in row)])
            for i, (head, at) in row:
                lines[i] = head.ljust(to) + after[i][at:]
        k = max(k, start + 1)
    return lines


def turn_file(path, turned, mark):
    text = path.read_text()
    theirs = imported(text)
    here = {n: new for n, new in turned.items() if n not in theirs}
    if path.relative_to(ROOT).as_posix() in {f for files in BESIDE.values() for f in files}:
        here |= {n: n + '_lem' for n, files in BESIDE.items() if path.relative_to(ROOT).as_posix() in files}
    spoken = here if mark == '--' else {n: new for n, new in here.items() if '-' not in n}
    lines, before = [], text.split('\n')
    for line in before:
        code, comment = in_comment(line, mark)
        lines.append(turn(code, here, turned | here) + turn(comment, spoken, spoken))
    new = '\n'.join(aligned(before, lines))
    if new != text:
        path.write_text(new)


def turn_page(path, names):
    """On a page, a name in backticks whose spelling in snake case is that of a definition or lemma."""

    def name(m):
        new = snake(m.group())
        return new if new != m.group() and new in names else m.group()

    text = path.read_text()
    new = re.sub(r'`[^`\n]+`', lambda m: TOKEN.sub(name, m.group()), text)
    if new != text:
        path.write_text(new)


def main():
    names = own_names()
    turned = renamings(names)
    for path in sorted(CRATES.rglob('*')):
        if path.suffix == '.antt':
            turn_file(path, turned, '--')
        elif path.suffix == '.rt':
            turn_file(path, turned, '//')
        elif path.suffix == '.edit':
            turn_file(path, turned, '#')
    now = set(own_names())
    for path in [ROOT / 'README.md', *sorted((ROOT / 'docs').glob('*.md'))]:
        turn_page(path, now)
    print(f'{len(turned)} names turned')


if __name__ == '__main__':
    main()
