"""The check of docs/CLAIMS.md, on small trees of its own: a good page passes, and each fault is found, and no other."""
import tempfile
import unittest
from pathlib import Path

from tools.check_claims import PAGE, faults, write

FILES = {
    'crates/pair/src/lib.rt': '''\
// Two numbers.
pub struct Pair {
    pub first: u64,
}

pub fn first(a: u64, b: u64) -> u64
    ensures { λ r. ⌜ r ≡ (firstOf a b then Swaps .at a) ⌝ }
{
    kept(a)
}

fn kept(a: u64) -> u64
    requires { a ≤ 6 }
{
    a
}
''',
    'crates/pair/specs/Pairs.antt': '''\
module _ (A : Type 0) where
  unfoldable pub firstOf : A → A → A
  firstOf a b = a

pub record Swaps : Type 0 where
  pub swap : ℕ

abbrev pub ◌then◌ : ℕ → ℕ → ℕ
''',
    'crates/pair/specs/Maps.antt': 'pub record Maps (f : ℕ → ℕ) : Type 0 where\n  pub firstOf : ℕ\n  pub kept : ℕ\n',
    'crates/pair/proofs/Pairs.antt': 'pub swaps : Swaps\n\npub swap : ℕ\n',
    'crates/pair/must-fail/second_returned.edit': '# the second\nfile: src/lib.rt\n',
    'crates/pair/must-fail/zero_returned.edit': '# zero\nfile: src/lib.rt\n',
    'crates/io/src/lib.rt': 'pub fn read() -> u64 {\n    0\n}\n',
    'reference/tests/test_pair.py': 'class Pairs:\n    def test_first(self):\n        pass\n',
}
RULES = '''\
# Claims

| rule | test | definition | contract | theorem | must-fail edit |
|---|---|---|---|---|---|
| The first | [`test_pair:test_first`] | [`pair.firstOf`], [`pair::Pair`] | [`pair::first`], [`pair::kept`] | ☐ | ☐ |
| Swaps | ☐ | [`pair.Swaps`], [`pair.specs.swap`] | [all](#public-functions) | [`pair.proofs.swaps`], [`pair.swap`] | ☐ |
| Wrong | ☐ | ☐ | ☐ | ☐ | [`pair!second_returned`], [`pair!zero_returned`] |
'''
FUNCTIONS = '''
## Public functions

| public function | promised by | wrong answers |
|---|---|---|
| [`pair::first`] | [`pair.firstOf`], [`pair.◌then◌`] | [`pair!second_returned`], [`pair!zero_returned`] |
| [`io::read`] | ☐ | ☐ |
'''
GOOD = RULES + FUNCTIONS
EXEMPT = {what: {'io::read'} for what in ('a contract', 'a definition', 'two wrong answers')}
STALE = 'the links at its end are not what --write makes today'


class Claims(unittest.TestCase):
    def setUp(self):
        folder = tempfile.TemporaryDirectory()
        self.addCleanup(folder.cleanup)
        self.root = Path(folder.name)
        for name, text in FILES.items():
            self.put(name, text)

    def put(self, name, text):
        path = self.root / name
        path.parent.mkdir(parents=True, exist_ok=True)
        path.write_text(text, encoding='utf-8')

    def found(self, page, exempt=EXEMPT):
        """The faults of a page whose links were just written."""
        self.put(PAGE, page)
        write(self.root)
        return faults(self.root, exempt)

    def changed(self, old, new):
        """The faults of the good page with one change."""
        self.assertEqual(GOOD.count(old), 1)
        return self.found(GOOD.replace(old, new))


class Pages(Claims):
    def test_good_page(self):
        self.assertEqual(self.found(GOOD), [])

    def test_links(self):
        self.found(GOOD)
        page = (self.root / PAGE).read_text(encoding='utf-8')
        self.assertTrue(page.endswith('[`test_pair:test_first`]: ../reference/tests/test_pair.py\n'))
        for label, path in {'pair::first': 'src/lib.rt', 'pair.firstOf': 'specs/Pairs.antt', 'pair.swap': 'proofs/Pairs.antt',
                            'pair.specs.swap': 'specs/Pairs.antt', 'pair!zero_returned': 'must-fail/zero_returned.edit'}.items():
            self.assertEqual(page.count(f'\n[`{label}`]: ../crates/pair/{path}\n'), 1)
        write(self.root)
        self.assertEqual((self.root / PAGE).read_text(encoding='utf-8'), page)

    def test_stale_links(self):
        self.put(PAGE, GOOD)
        self.assertEqual(faults(self.root, EXEMPT), [STALE])
        write(self.root)
        page = (self.root / PAGE).read_text(encoding='utf-8')
        for old, new in ((', [`pair.swap`]', ''), ('../crates/io/', '../crates/pair/')):  # a link that is not used; a wrong one
            self.assertEqual(page.count(old), 1)
            self.put(PAGE, page.replace(old, new))
            self.assertEqual(faults(self.root, EXEMPT), [STALE])

    def test_undefined_name(self):
        for label in ('pair.nothing', 'other.firstOf', 'pair::firstOf', 'pair.first', 'pair.Maps.Swaps', 'pair!first', 'firstOf',
                      'test_pear:test_first', 'tools/test_pair:test_first'):
            self.assertEqual(self.changed('[`pair.Swaps`]', f'[`{label}`]'), [f'{label} is not declared'])

    def test_name_of_several_files(self):
        for name, text, label, parted in (
                ('crates/pair/specs/More.antt', 'pub Swaps : Type 0\n', 'pair.Swaps', ('pair.More.Swaps', 'pair.Pairs.Swaps')),
                ('crates/pair/src/more.rt', 'enum Pair {\n}\n', 'pair::Pair', ('pair::lib::Pair', 'pair::more::Pair')),
                ('tools/test_pair.py', 'def test_first():\n', 'test_pair:test_first',
                 ('tests/test_pair:test_first', 'tools/test_pair:test_first'))):
            with self.subTest(label):
                self.put(name, text)
                fault, = self.changed(f'[`{label}`]', f'[`{label}`]')
                self.assertRegex(fault, f'^{label} is declared in .* and in ')
                self.assertIn(name, fault)
                self.assertEqual(self.changed(f'[`{label}`]', f'[`{parted[0]}`], [`{parted[1]}`]'), [])
                (self.root / name).unlink()

    def test_labels_that_differ_in_case_alone(self):
        same = 'are the same label to Markdown: one of them needs a part of its path'
        self.assertEqual(self.changed('pair.proofs.swaps', 'pair.swaps'), [f'pair.Swaps and pair.swaps {same}'])

    def test_link_of_its_own(self):
        fault = 'pair.Swaps has a link of its own'
        self.assertIn(fault, self.changed('[`pair.Swaps`]', '[`pair.Swaps`](../crates/pair/specs/Pairs.antt)'))
        self.assertIn(fault, self.found(GOOD + '\n[`pair.Swaps`]: ../README.md\n'))


class Tables(Claims):
    def test_wrong_kind_for_its_column(self):
        for old, new, fault in (('[`pair.firstOf`], [`pair::Pair`]', '[`pair.proofs.swaps`]', 'theorem, stands under definition'),
                                ('[`pair.firstOf`], [`pair::Pair`]', '[`pair::kept`]', 'function, stands under definition'),
                                ('[`pair::first`], [`pair::kept`]', '[`pair.firstOf`]', 'definition, stands under contract'),
                                ('[`pair.proofs.swaps`]', '[`pair.Swaps`]', 'definition, stands under theorem'),
                                ('[`test_pair:test_first`]', '[`pair!zero_returned`]', 'code edit, stands under test')):
            line = 6 if 'swaps' in old else 5
            self.assertEqual(self.changed(old, new), [f'line {line}: {new[2:-2]}, a {fault}'])

    def test_something_else_than_names(self):
        for cell in '', 'none', '[`pair.Swaps`] and more', '[all](#public-functions), [`pair.Swaps`]':
            fault = 'line 6: under definition stands something else than names'
            self.assertEqual(self.changed('[`pair.Swaps`], [`pair.specs.swap`]', cell), [fault])
        fault = 'line 6: under theorem stands something else than names'
        self.assertEqual(self.changed('[`pair.proofs.swaps`], [`pair.swap`]', '[all](#public-functions)'), [fault])

    def test_cells_and_columns(self):
        self.assertEqual(self.changed('[`pair.swap`] | ☐ |', '[`pair.swap`] |'), ['line 6: 5 cells for 6'])
        self.assertEqual(self.changed('| theorem |', '| lemma |'), ['line 3: there is no column lemma'])
        self.assertEqual(self.changed('## Public functions', '## Functions'), ['[all](#public-functions) leads nowhere'])


class PublicFunctions(Claims):
    def test_missing_public_function(self):
        row, = (f'{line}\n' for line in FUNCTIONS.splitlines() if line.startswith('| [`pair::first`]'))
        for rows, times in ('', 0), (row + row, 2):
            fault = f'first of crates/pair/src/lib.rt stands in {times} rows of the table of public functions'
            self.assertEqual(self.changed(row, rows), [fault])

    def test_function_that_is_not_public(self):
        row, more = '| [`io::read`] | ☐ | ☐ |', '| [`pair::kept`] | ☐ | ☐ |'
        self.assertEqual(self.changed(row, f'{row}\n{more}'), ['kept of crates/pair/src/lib.rt is not public'])

    def test_edit_that_stands_nowhere(self):
        self.put('crates/pair/must-fail/nothing_returned.edit', '# nothing\n')
        self.assertEqual(self.found(GOOD), ['crates/pair/must-fail/nothing_returned.edit is not on the page'])
        self.assertEqual(self.changed('| ☐ |\n| Wrong', '| [`pair!nothing_returned`] |\n| Wrong'), [])

    def test_one_wrong_answer(self):
        tried = '[`pair.◌then◌`] | [`pair!second_returned`]'
        listed = EXEMPT | {'two wrong answers': {'io::read', 'pair::first'}}
        for once in tried, f'{tried}, [`pair!second_returned`]':
            page = GOOD.replace(f'{tried}, [`pair!zero_returned`]', once)
            self.assertEqual(self.found(page), ['pair::first lacks two wrong answers'])
            self.assertEqual(self.found(page, listed), [])
        self.assertEqual(self.found(GOOD, listed),
                         ['pair::first is listed, and no function of that name lacks two wrong answers'])

    def test_wrong_answer_of_a_changed_definition(self):
        self.put('crates/pair/must-fail/zero_returned.edit', '# zero\nfile: specs/Pairs.antt\n')
        self.assertEqual(self.found(GOOD), ['line 13: pair!zero_returned, a definition edit, stands under wrong answers'])

    def test_definition_that_is_not_cited(self):
        self.assertEqual(self.changed('[`pair.◌then◌`]', '[`pair.specs.swap`]'), ['pair::first does not cite swap'])
        self.assertEqual(self.changed('[`pair.firstOf`], [`pair.◌then◌`]', '☐'), ['pair::first lacks a definition'])

    def test_contract(self):
        self.put('crates/io/src/lib.rt', 'pub fn read(n: u64) -> u64\n    requires { n ≤ 6 }\n{\n    0\n}\n')
        self.assertEqual(self.found(GOOD), ['io::read is not for all inputs'])
        self.put('crates/io/src/lib.rt', FILES['crates/io/src/lib.rt'])
        self.assertEqual(self.found(GOOD, EXEMPT | {'a contract': set()}), ['io::read lacks a contract'])

    def test_exempt_without_need(self):
        self.put('crates/io/src/lib.rt', 'pub fn read() -> u64\n    ensures { result ≡ 0 }\n{\n    0\n}\n')
        self.assertEqual(self.found(GOOD), ['io::read is listed, and no function of that name lacks a contract'])
        self.put('crates/io/src/lib.rt', FILES['crates/io/src/lib.rt'])
        self.assertEqual(self.found(GOOD, EXEMPT | {'a contract': {'io::read', 'io::print'}}),
                         ['io::print is listed, and no function of that name lacks a contract'])
