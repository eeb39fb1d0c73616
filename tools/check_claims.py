#!/usr/bin/env python3
"""Checks docs/CLAIMS.md, and makes the links at its end.

    tools/check_claims.py            fail if the page has a fault
    tools/check_claims.py --write    write the links anew, and then check the page

A name on the page stands in a label, such as [`hecke::product`], whose form says where the name is declared:

    crate::name    a function, struct or enum in src/
    crate.name     a definition in specs/, or a theorem in proofs/
    crate!name     a must-fail edit
    file:name      a test

Where several files declare the name, a part of the path stands before it: crate::module::name, crate.File.name,
crate.proofs.name, folder/file:name. A field of a record counts where nothing else has its name.

Checked: every label is declared, in one file, and of a kind that its column asks for; every row has its header's cells; every
must-fail edit is on the page; the table of public functions has one row for each of them, with definitions that its contract
cites and two wrong answers, which are edits of code; every public function has a contract for all inputs; and the links are those of the labels.
"""
import re
import sys
from collections import Counter
from pathlib import Path
from typing import NamedTuple

ROOT = Path(__file__).resolve().parent.parent
PAGE = 'docs/CLAIMS.md'

# ---- what public functions may lack, each by its name; one that does not lack it may not stand here

# no contract can speak of what a program reads and prints
WITHOUT_CONTRACT = {'vector_io::print_field', 'program::run_input'}
# the contract says by itself what the fields of the reader are, that a list is zero, or that a number is a letter without its sign
WITHOUT_DEFINITION = WITHOUT_CONTRACT | {'sheet_format::new', 'sheet_format::moved', 'word_lists::clear',
                                         'element_checks::signed::size_of'}
# where there is no contract, no answer is wrong
UNTRIED = WITHOUT_CONTRACT
EXEMPT = {'a contract': WITHOUT_CONTRACT, 'a definition': WITHOUT_DEFINITION, 'two wrong answers': UNTRIED}

# ---- the page

LABEL = re.compile(r'\[`([^`]+)`\]')
LINKED_BY_HAND = re.compile(r'\[`([^`]+)`\][(\[:]')
LINKS = '<!-- the links: all that follows is made by tools/check_claims.py --write -->'
# cells without names: nothing carries the rule, or the table of public functions does
NOTHING, ALL, HEADING = '☐', '[all](#public-functions)', '\n## Public functions\n'
MAY_BE_ALL = {'definition', 'contract', 'must-fail edit'}
EDITS = {'code edit', 'definition edit'}
# the kinds of names under a column
COLUMNS = {
    'rule': None,
    'test': {'test'},
    'definition': {'definition', 'type'},
    'contract': {'function', 'type'},
    'theorem': {'theorem'},
    'must-fail edit': EDITS,
    'public function': {'function'},
    'promised by': {'definition'},
    'wrong answers': {'code edit'},
}

# ---- declarations

CODE = r'^\s*(?:pub(?:\(crate\))? )?(?:extern "C" )?'
TESTS = {'py': r'^\s*(?:def|class) (\w+)', 'rs': r'^\s*fn (\w+)', 'c': r'^static void (\w+)\('}
# what is declared, in which files, and how
SOURCES = [
    ('function', 'crates/*/src/**/*.rt', CODE + r'fn (\w+)'),
    ('type', 'crates/*/src/**/*.rt', CODE + r'(?:struct|enum) (\w+)'),
    *(('test', f'{folder}/**/*.{ending}', how)
      for folder in ('reference', 'tools', 'rust', 'tests', 'conformance') for ending, how in TESTS.items()),
]
# what these files say, in the folder of a function, is named by the prover and is no theorem
ANSWERS = {'Answers.antt', 'Invariants.antt'}
# a line of specs/ or proofs/: its indentation, what it begins, and of what is public whether it is a record, and its name
LOGIC = re.compile(
    r'^( *)(?:(module|record|data)\b|(?:(?:abbrev|unfoldable) )*pub (record |data )?(\S+)(?: [^:=]*)? :)', re.MULTILINE)
# the forms of a label: crate, part of the path, name
FORMS = [
    (re.compile(r'(\w+)((?:::\w+)*)::(\w+)'), {'function', 'type'}),
    (re.compile(r'(\w+)((?:\.\w+)*)\.([^.]+)'), {'definition', 'theorem'}),
    (re.compile(r'(\w+)()!(\w+)'), EDITS),
    (re.compile(r'()((?:\w+/)*\w+):(\w+)'), {'test'}),
]
# a public function, and what stands between its name and its body
PUBLIC_FUNCTION = re.compile(r'^[^/\n]*\bpub (?:extern "C" )?fn (\w+)(.*?)\{\n', re.MULTILINE | re.DOTALL)


class Declared(NamedTuple):
    kind: str
    name: str
    path: Path  # from the root
    field: bool = False  # of a record


def logic_names(text):
    """The names that a file of specs/ or proofs/ declares, and whether each is a field of a record."""
    around = []  # the modules and records that a line stands in: their indentation, and whether it is a record
    for match in LOGIC.finditer(text):
        indent, head, record, name = match.groups()
        while around and len(around[-1][0]) >= len(indent):
            around.pop()
        if name:
            yield name, bool(around and around[-1][1])
        if head or record:
            around.append((indent, head != 'module'))


def declarations(root):
    for kind, files, how in SOURCES:
        for path in root.glob(files):
            for name in re.findall(how, path.read_text(encoding='utf-8'), re.MULTILINE):
                yield Declared(kind, name, path.relative_to(root))
    for kind, folder in ('definition', 'specs'), ('theorem', 'proofs'):
        for path in root.glob(f'crates/*/{folder}/**/*.antt'):
            if path.name in ANSWERS and path.parent.name != folder:
                continue
            for name, field in logic_names(path.read_text(encoding='utf-8')):
                yield Declared(kind, name, path.relative_to(root), field)
    for path in root.glob('crates/*/must-fail/*.edit'):
        of_code = '\nfile: src/' in path.read_text(encoding='utf-8')
        yield Declared('code edit' if of_code else 'definition edit', path.stem, path.relative_to(root))


def declared(root):
    """Everything that a label may stand for, by its name."""
    names = {}
    for one in sorted(set(declarations(root))):
        names.setdefault(one.name, []).append(one)
    return names


def lies_in(path, crate, parts):
    """Whether a file lies in the crate with these parts in its path or, without a crate, has them at the path's end."""
    at = path.with_suffix('').parts
    return crate == at[1] and set(parts) <= set(at[2:]) if crate else at[-len(parts):] == parts


def candidates(label, names):
    """What a label may stand for, one for each file."""
    for form, kinds in FORMS:
        if match := form.fullmatch(label):
            crate, parts, name = match[1], tuple(re.findall(r'\w+', match[2])), match[3]
            fit = [one for one in names.get(name, ()) if one.kind in kinds and lies_in(one.path, crate, parts)]
            return list({one.path: one for one in [one for one in fit if not one.field] or fit}.values())
    return []


# ---- labels and links

def label_faults(body, meant):
    for label, found in meant.items():
        if not found:
            yield f'{label} is not declared'
        if len(found) > 1:
            yield f'{label} is declared in {" and in ".join(str(one.path) for one in found)}'
    for label in LINKED_BY_HAND.findall(body):
        yield f'{label} has a link of its own'
    folded = {}
    for label, found in meant.items():
        other = folded.setdefault(label.casefold(), label)
        if len({one.path for one in found + meant[other]}) > 1 and other != label:
            yield f'{other} and {label} are the same label to Markdown: one of them needs a part of its path'


def with_links(body, meant):
    """The page with the links of its labels at its end."""
    links = [f'[`{label}`]: ../{meant[label][0].path}\n' for label in sorted(meant) if len(meant[label]) == 1]
    return f'{body.rstrip()}\n\n{LINKS}\n\n{"".join(links)}'


# ---- tables

def cells(line):
    return [cell.strip() for cell in line.strip().removeprefix('|').removesuffix('|').split('|')]


def tables(body):
    """The lines of the page's tables: number, header and cells."""
    header = []
    for number, line in enumerate(body.splitlines(), 1):
        if not line.startswith('|'):
            header = []
        else:
            row = cells(line)
            header = header or row
            yield number, header, row


def is_row(header, row):
    """Whether a line has the header's cells, and is neither the header nor the line under it."""
    return row is not header and len(row) == len(header) and any(cell.strip('-') or not cell for cell in row)


def table_faults(body, meant):
    for number, header, row in tables(body):
        if row is header:
            yield from (f'line {number}: there is no column {name}' for name in header if name not in COLUMNS)
        elif len(row) != len(header):
            yield f'line {number}: {len(row)} cells for {len(header)}'
        elif is_row(header, row):
            for column, cell in zip(header, row):
                yield from (f'line {number}: {fault}' for fault in cell_faults(column, cell, meant))
    if ALL in body and HEADING not in body:
        yield f'{ALL} leads nowhere'


def cell_faults(column, cell, meant):
    kinds = COLUMNS.get(column)
    if kinds is None or cell == NOTHING or cell == ALL and column in MAY_BE_ALL:
        return
    if set(LABEL.sub('name', cell).split(', ')) != {'name'}:
        yield f'under {column} stands something else than names'
    for label in LABEL.findall(cell):
        yield from (f'{label}, a {one.kind}, stands under {column}' for one in meant[label] if one.kind not in kinds)


# ---- public functions and must-fail edits

def public_functions(root):
    """What stands between the name of each public function and its body."""
    return {(path.relative_to(root), name): contract for path in sorted(root.glob('crates/*/src/**/*.rt'))
            for name, contract in PUBLIC_FUNCTION.findall(path.read_text(encoding='utf-8'))}


def public_rows(body, meant):
    """The rows of the table of public functions: a function's label, and what is meant in each cell."""
    for _, header, row in tables(body):
        if header[0] == 'public function' and is_row(header, row):
            labels = [LABEL.findall(cell) for cell in row]
            yield from ((label, *([one for name in cell for one in meant[name]] for cell in labels)) for label in labels[0])


def listing_faults(rows, public):
    """Whether the table has the public functions, and each of them once."""
    listed = Counter((one.path, one.name) for _, functions, *_ in rows for one in functions)
    for path, name in sorted({*listed, *public}):
        if (path, name) not in public:
            yield f'{name} of {path} is not public'
        elif listed[path, name] != 1:
            yield f'{name} of {path} stands in {listed[path, name]} rows of the table of public functions'


def contract_faults(rows, public, exempt):
    """Whether the public functions have contracts for all inputs that cite the definitions, and two wrong answers."""
    lacking = {what: set() for what in exempt}
    for label, functions, definitions, edits in rows:
        contract = ''.join(public.get((one.path, one.name), '') for one in functions)
        if not contract:
            continue
        ensured = re.split(r'\bensures\b', contract, maxsplit=1)[1:]
        ensured = ensured[0] if ensured else ''
        cited = set(re.findall(r'[^\s(){}.,;]+', ensured))
        if re.search(r'\brequires\b', contract):
            yield f'{label} is not for all inputs'
        for one in definitions:
            if one.name.strip('◌') not in cited:
                yield f'{label} does not cite {one.name}'
        has = {'a contract': ensured, 'a definition': definitions, 'two wrong answers': len(set(edits)) > 1}
        for what in exempt:
            lacking[what] |= set() if has[what] else {label}
    for what, names in exempt.items():
        yield from (f'{name} lacks {what}' for name in sorted(lacking[what] - names))
        yield from (f'{name} is listed, and no function of that name lacks {what}' for name in sorted(names - lacking[what]))


def edit_faults(meant, names):
    cited = {one for found in meant.values() for one in found}
    for one in sorted(one for found in names.values() for one in found if one.kind in EDITS):
        if one not in cited:
            yield f'{one.path} is not on the page'


# ---- the whole

def read(root):
    """The page, what stands before its links, everything that is declared, and what each label may stand for."""
    page = (root / PAGE).read_text(encoding='utf-8')
    body = page.partition(LINKS)[0]
    names = declared(root)
    return page, body, names, {label: candidates(label, names) for label in LABEL.findall(body)}


def faults(root, exempt):
    page, body, names, meant = read(root)
    public = public_functions(root)
    rows = list(public_rows(body, meant))
    found = [*label_faults(body, meant), *table_faults(body, meant), *listing_faults(rows, public),
             *contract_faults(rows, public, exempt), *edit_faults(meant, names)]
    if page != with_links(body, meant):
        found.append('the links at its end are not what --write makes today')
    return found


def write(root):
    _, body, _, meant = read(root)
    (root / PAGE).write_text(with_links(body, meant), encoding='utf-8')


def main():
    if set(sys.argv[1:]) - {'--write'}:
        print(__doc__, file=sys.stderr)
        return 2
    if '--write' in sys.argv:
        write(ROOT)
    found = faults(ROOT, EXEMPT)
    for fault in found:
        print(f'{PAGE}: {fault}', file=sys.stderr)
    return 1 if found else 0


if __name__ == '__main__':
    sys.exit(main())
