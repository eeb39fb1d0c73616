"""The conformance kit covers what it says, judged by its sheets and not by their names; `conformance/run.py` sees each fault."""
import re
import subprocess
import sys
import tempfile
import unittest
from collections import Counter
from itertools import product
from math import factorial
from pathlib import Path
from time import monotonic
from unittest.mock import patch

from reference import sheet as s
from reference.algebra import WORD, act, lengths_and_inverses, mirror, size
from reference.conformance import PARAMETERS, strangers
from reference.nested import blocks
from reference.permutations import cycle
from reference.refusals import Refused
from reference.sheet_cases import END, EXAMPLE, command

ROOT = Path(__file__).resolve().parents[2]
KIT = ROOT / 'conformance'
RANKS = range(s.MOST_RANK + 1)
REGISTERS = range(s.REGISTERS)
IS_REGISTER = set('rdab')

# document 01's words: its example, its marked cases and its counts
DOCUMENT = {
    'example_square_of_t_1': 'H 1 3\nR 0\n0 3\n1 2\nN 6\n',
    'indices_of_rank_2': 'H 2 3\n' + ''.join(f'R 0\n{index} 1\n' for index in range(6)) + 'N 81\n',
    'square_of_s_2_s_1_at_q_2': 'H 2 2\nR 1\n3 2\n5 1\nN 118\n',
    'square_of_t_1_at_q_0': 'H 1 0\nR 0\n1 18446744073709551615\nN 6\n',
    'square_of_t_1_at_q_1': 'H 1 1\nR 0\n0 1\nN 6\n',
} | {f'count_of_a_product_rank_{m}': f'H {m} 3\nN {count}\n' for m, count in enumerate((1, 9, 118, 2152, 55840, 2027640))}

# document 02, Ticket 2: T of s_1 s_2 paired with itself, and with T of s_2 s_1
PAIRINGS = {'pairing_of_s_1_s_2_with_itself_and_with_s_2_s_1_at_q_2': 'H 2 2\nP 0\nP 4\nN 0\n'}

# document 02, Ticket 4, by hand: a + z b at rank 1; 1, z, z, z^2, z^2 and z ((q - 1) z + q) at rank 2; a strand more is z times as much, and
# with the inverse of T_m it is (z + 1 - q) / q times as much: 2 (6 + 7 z) with q = 3 and z = 8
TRACES = {
    'trace_of_6_and_7_at_q_3_z_5': 'H 1 3\nT 41\nN 0\n',
    'trace_at_q_2_to_63_rank_1': 'H 1 9223372036854775808\nT 41\nN 0\n',
    'trace_of_each_basis_element_rank_2': 'H 2 3\nT 1\nT 5\nT 5\nT 25\nT 25\nT 65\nN 0\n',
    'trace_each_basis_element_in_one_number_rank_2': 'H 2 3\nT 6775551\nN 0\n',
    'trace_of_the_unit_rank_5': 'H 5 3\nT 1\nN 0\n',
    'trace_trefoil_on_two_strands': 'H 1 3\nT 41\nN 9\n',
    'trace_trefoil_on_three_strands': 'H 2 3\nT 205\nN 36\n',
    'trace_of_a_strand_added_the_other_way_rank_2': 'H 2 3\nT 124\nN 36\n',
    'trace_of_a_chain_of_each_letter_rank_5': 'H 5 3\nT 3125\nN 5400\n',
    'trace_wraps': 'H 1 3\nT 4294967295\nN 0\n',
}


def commands_of(sheet):
    """The commands of a valid sheet, none of a refused one."""
    try:
        return s.check(sheet)
    except Refused:
        return []


def faults(sheet):
    """Every condition of document 01's table, and 15, that holds in the sheet, with its place, in the order of the table: up to
    the end command, or to what cannot be read as a command."""
    if not 1 <= len(sheet) <= s.MOST_BYTES:
        yield 9, 0
    at, m, q = 0, sheet[1] if len(sheet) > 1 else 0, int.from_bytes(sheet[2:10], 'little')
    while at < len(sheet):
        code, here = sheet[at], sheet[at + 1:]
        if code not in s.OPERANDS:
            yield 10, at
        widths = s.OPERANDS.get(code, {})
        cut = sum(widths.values()) > len(here)
        if cut:
            yield 11, at
        if (code == s.BEGIN) != (at == 0):
            yield 12, at
        if not all(s.in_range(m, name, value) for name, value in operands(widths, here).items()):
            yield 13, at
        if code == s.INVERSE and q % 2 == 0 and sheet[0] == s.BEGIN:
            yield 15, at
        if cut or code not in s.OPERANDS:
            return
        at += 1 + sum(widths.values())
        if code == s.END:
            if at < len(sheet):
                yield 14, at
            return
    yield 14, len(sheet)


def operands(widths, sheet):
    """The operands at the front of the bytes, as far as they are there."""
    found, at = {}, 0
    for name, width in widths.items():
        if at + width <= len(sheet):
            found[name] = int.from_bytes(sheet[at:at + width], 'little')
        at += width
    return found


class Kit(unittest.TestCase):
    @classmethod
    def setUpClass(cls):
        cls.sheets = {path.stem: path.read_bytes() for path in sorted((KIT / 'sheets').glob('*.sheet'))}
        cls.texts = {path.stem: path.read_text() for path in sorted((KIT / 'sheets').glob('*.expected'))}
        cls.valid = {name: commands for name, sheet in cls.sheets.items() if (commands := commands_of(sheet))}
        cls.faults = {name: list(faults(sheet)) for name, sheet in cls.sheets.items() if name not in cls.valid}

    def of_rank(self, m):
        return [commands for commands in self.valid.values() if commands[0].operands['m'] == m]

    def used(self, code, *names):
        """The values of the named operands of a command, over all valid sheets."""
        every = (one.operands for commands in self.valid.values() for one in commands if one.code == code)
        return {tuple(values[name] for name in names) for values in every}


class Files(Kit):
    def test_sheets_and_texts(self):
        self.assertEqual(set(self.sheets), set(self.texts))
        self.assertEqual(len(set(self.sheets.values())), len(self.sheets))
        for name in self.sheets:
            self.assertRegex(name, '^[a-z0-9_]+$')

    def test_document(self):
        self.assertEqual({name: self.texts[f'document_{name}'] for name in DOCUMENT}, DOCUMENT)
        self.assertEqual({name: self.texts[name] for name in PAIRINGS}, PAIRINGS)
        self.assertEqual({name: self.texts[name] for name in TRACES}, TRACES)

    def test_refusals_are_those_of_the_names_and_of_the_table(self):
        for name, found in self.faults.items():
            number, place = re.fullmatch(r'(?:refusal|order)_(\d+)_.*_at_(\d+)', name).groups()
            self.assertEqual(self.texts[name], f'E {number} {place}\n', name)
            self.assertEqual((int(number), int(place)), found[0], name)

    def test_valid_sheets_print(self):
        for name, commands in self.valid.items():
            lines = self.texts[name].splitlines()
            self.assertEqual(lines[0], 'H {m} {q}'.format(**commands[0].operands))
            for letter, code in (('R', s.SHOW), ('P', s.PAIR), ('Q', s.EQUAL), ('T', s.TRACE)):
                self.assertEqual(sum(line[0] == letter for line in lines), sum(one.code == code for one in commands), name)
            self.assertRegex(lines[-1], r'^N \d+$')

    def test_table_of_the_page(self):
        rows = re.findall(r'^\| `(\w+)` \| (\d+) \|', (KIT / 'README.md').read_text(), re.MULTILINE)
        groups = Counter(re.match('refusal_[0-9]+|[a-z]+', name)[0] for name in self.sheets)
        self.assertEqual({group: int(number) for group, number in rows}, groups)

    def test_a_file_that_is_not_made_is_found(self):
        with tempfile.TemporaryDirectory() as folder:
            sheets = Path(folder) / 'conformance' / 'sheets'
            sheets.mkdir(parents=True)
            for name in ('one.sheet', 'one.expected', '../README.md', '../run.py', '../notes'):
                (sheets / name).write_bytes(b'')
            self.assertEqual(strangers(Path(folder), ['conformance/sheets/one.sheet']),
                             ['conformance/notes', 'conformance/sheets/one.expected'])


class Commands(Kit):
    def test_each_register_in_each_operand(self):
        for code, names in s.OPERANDS.items():
            registers = [name for name in names if name in IS_REGISTER]
            if registers:
                self.assertLessEqual(set(product(REGISTERS, repeat=len(registers))), self.used(code, *registers), code)

    def test_each_rank(self):
        for m in RANKS:
            codes = {one.code for commands in self.of_rank(m) for one in commands}
            self.assertEqual(codes, set(s.OPERANDS) - ({s.LETTER, s.INVERSE} if m == 0 else set()), m)
            for code in (s.LETTER, s.INVERSE):
                taken = {one.operands['i'] for commands in self.of_rank(m) for one in commands if one.code == code}
                self.assertEqual(taken, set(range(1, m + 1)))

    def test_aliased_destinations_at_each_rank(self):
        for m in RANKS[1:]:
            triples = [tuple(one.operands.values()) for commands in self.of_rank(m) for one in commands if one.code == s.PRODUCT]
            self.assertTrue(any(d == a != b for d, a, b in triples) and any(d == b != a for d, a, b in triples), m)

    def test_products_of_full_elements_at_each_rank_and_parameter(self):
        for m, q in [(0, 3), *product(RANKS[1:], PARAMETERS.values())]:
            of_both = [commands for commands in self.of_rank(m) if commands[0].operands['q'] == q]
            self.assertTrue(any(self.multiplies_full_elements(m, commands) for commands in of_both), (m, q))

    def multiplies_full_elements(self, m, commands):
        """Whether the first product takes two elements of nearly all different words, and is shown at once."""
        codes = [one.code for one in commands]
        if s.PRODUCT not in codes:
            return False
        at = codes.index(s.PRODUCT)
        registers = s.run(b''.join(command(code, *values.values()) for code, values in commands[:at]) + END).registers
        d, a, b = commands[at].operands.values()
        full = all(len(set(registers[r]) - {0}) >= 0.9 * size(m) for r in (a, b))
        return full and a != b and commands[at + 1] == s.Command(s.SHOW, {'r': d})

    def test_each_action_of_the_nested_method(self):
        """Products of rank 3, at a q that shows a factor q - 1, whose second factor is T_{a(j, l)} and nothing else."""
        taken = set()
        for commands in self.of_rank(3):
            sets = [one.operands for one in commands if one.code == s.SET]
            for b in (one.operands['b'] for one in commands if one.code == s.PRODUCT and commands[0].operands['q'] > 2):
                taken.add(tuple((values['index'], values['v']) for values in sets if values['r'] == b))
        self.assertLessEqual({((l * factorial(j), 1),) for j in (1, 2, 3) for l in range(1, j + 1)}, taken)

    def test_mirror_words_bring_home_at_each_rank(self):
        """A word of both kinds of letters on one register, and its mirror word read backwards; the register is compared with
        another before and after the second, and only then equal."""
        sheets = [name for name, commands in self.valid.items() if self.there_and_back(commands)]
        home = [self.texts[name] for name in sheets if self.texts[name].splitlines()[-3:-1] == ['Q 0', 'Q 1']]
        self.assertEqual({int(text.split()[1]) for text in home}, set(RANKS[1:]))

    def there_and_back(self, commands):
        """Whether the sheet's last letters are a word of 15, of both kinds, and its mirror word read backwards."""
        sign = {s.LETTER: 1, s.INVERSE: -1}
        signed = [sign[one.code] * one.operands['i'] for one in commands if one.code in sign]
        word = signed[-30:-15]
        return {i > 0 for i in word} == {True, False} and signed[-15:] == mirror(word)

    def test_inverse_letters_at_each_odd_parameter(self):
        found = {commands[0].operands['q'] for commands in self.valid.values() if any(one.code == s.INVERSE for one in commands)}
        self.assertLessEqual({q for q in PARAMETERS.values() if q % 2}, found)

    def test_a_count_over_many_commands(self):
        codes = [Counter(one.code for one in commands) for commands in self.valid.values()]
        self.assertTrue(any(min(number[code] for code in (s.LETTER, s.PRODUCT, s.SUM, s.SCALE)) >= 100 for number in codes))


class Pairings(Kit):
    def told(self, changed, ranks=RANKS):
        """The rank and q of each sheet whose text is another where lengths and inverses are changed: a list of a length and a place
        for each w becomes another."""
        found = set()
        for name, commands in self.valid.items():
            m, q = commands[0].operands.values()
            if m in ranks and any(one.code == s.PAIR for one in commands):
                with patch('reference.algebra.lengths_and_inverses', lambda m: changed(lengths_and_inverses(m))):
                    if s.printed(self.sheets[name]) != self.texts[name]:
                        found.add((m, q))
        return found

    def test_the_inverse_is_told_from_the_permutation(self):
        """At each rank that has other permutations than involutions; at each q, unless q to the power 2 is 0."""
        told = self.told(lambda table: [(n, w) for w, (n, _) in enumerate(table)])
        self.assertEqual({m for m, _ in told}, set(RANKS[2:]))
        self.assertLessEqual({q for q in PARAMETERS.values() if q * q % WORD}, {q for _, q in told})

    def test_the_power_of_q_is_told_from_1(self):
        self.assertEqual({m for m, _ in self.told(lambda table: [(0, v) for _, v in table])}, set(RANKS[1:]))

    def test_each_permutation_of_rank_3_is_told(self):
        """One length more, and the next place in the place of the inverse's, for one w."""
        for w, (n, v) in enumerate(lengths_and_inverses(3)):
            for wrong in ((n + 1, v), (n, (v + 1) % size(3))):
                self.assertTrue(self.told(lambda table: table[:w] + [wrong] + table[w + 1:], [3]), (w, wrong))

    def test_beside_the_product_at_each_rank(self):
        """A pairing, the product of the same registers, and its pairing with the unit: two equal lines."""
        found = set()
        for name, commands in self.valid.items():
            if [one.code for one in commands[-5:]] == [s.PAIR, s.PRODUCT, s.UNIT, s.PAIR, s.END]:
                paired, beside = (line for line in self.texts[name].splitlines() if line[0] == 'P')
                self.assertEqual(paired, beside)
                found.add(commands[0].operands['m'])
        self.assertEqual(found, set(RANKS))


class Traces(Kit):
    def told(self, changed):
        """The rank of each sheet whose text is another where the trace is changed."""
        found = set()
        for name, commands in self.valid.items():
            if any(one.code == s.TRACE for one in commands):
                with patch('reference.algebra.trace', changed):
                    if s.printed(self.sheets[name]) != self.texts[name]:
                        found.add(commands[0].operands['m'])
        return found

    def changed_trace(self, factor=lambda m, z: z, word=cycle, first=1):
        """The trace with another factor of the blocks, another word that acts on them, or blocks counted from another."""
        def changed(m, q, z, h):
            if m == 0:
                return h[0]
            parts = blocks(h, size(m - 1))
            turned = (act(m - 1, q, parts[k], word(m - 1, k - 1)) for k in range(first, m + 1))
            return (changed(m - 1, q, z, parts[0]) + factor(m, z) * sum(changed(m - 1, q, z, g) for g in turned)) % WORD
        return changed

    def test_the_trace_itself_is_not_told(self):
        self.assertEqual(self.told(self.changed_trace()), set())

    def test_the_factor_is_told(self):
        """Left out, and squared at one level of the recursion alone."""
        self.assertEqual(self.told(self.changed_trace(factor=lambda m, z: 1)), set(RANKS[1:]))
        for rank in RANKS[1:]:
            self.assertLessEqual({rank}, self.told(self.changed_trace(factor=lambda m, z: z * z if m == rank else z)))

    def test_the_word_is_told(self):
        """Left out, one letter short at either end, or read backwards, wherever there is such a word."""
        self.assertEqual(self.told(self.changed_trace(word=lambda j, k: [])), set(RANKS[2:]))
        self.assertEqual(self.told(self.changed_trace(word=lambda j, k: cycle(j, k)[1:])), set(RANKS[2:]))
        self.assertEqual(self.told(self.changed_trace(word=lambda j, k: cycle(j, k)[:-1])), set(RANKS[2:]))
        self.assertEqual(self.told(self.changed_trace(word=lambda j, k: cycle(j, k)[::-1])), set(RANKS[3:]))

    def test_the_first_block_is_told(self):
        self.assertEqual(self.told(self.changed_trace(first=2)), set(RANKS[1:]))

    def test_a_strand_added_at_each_rank(self):
        """The traces of xy and of x T_m y, for x and y of rank m - 1: the second is z times the first."""
        found = set()
        for name, commands in self.valid.items():
            if [one.code for one in commands[-6:]] == [s.PRODUCT, s.LETTER, s.PRODUCT, s.TRACE, s.TRACE, s.END]:
                below, above = (int(line[2:]) for line in self.texts[name].splitlines() if line[0] == 'T')
                z, m = commands[-2].operands['z'], commands[0].operands['m']
                self.assertEqual(above, z * below % WORD)
                self.assertEqual({one.operands['index'] < factorial(m) for one in commands if one.code == s.SET}, {True})
                found.add(m)
        self.assertEqual(found, set(RANKS[1:]))

    def test_each_parameter(self):
        """Each q, and for z the edges, which give different traces of one element."""
        found = {}
        for name, commands in self.valid.items():
            if name.startswith('trace_at_') and commands[0].operands['m'] == 3:
                zs = [one.operands['z'] for one in commands if one.code == s.TRACE]
                lines = [line for line in self.texts[name].splitlines() if line[0] == 'T']
                self.assertEqual(len(zs), len(lines))
                found.update({(commands[0].operands['q'], z): line for z, line in zip(zs, lines)})
        self.assertLessEqual(set(PARAMETERS.values()), {q for q, _ in found})
        at_3 = {z: text for (q, z), text in found.items() if q == 3}
        self.assertLessEqual({0, 1, 2, 2 ** 32, 2 ** 63, WORD - 1}, set(at_3))
        self.assertEqual(len({at_3[z] for z in (0, 1, 2, 2 ** 32, 2 ** 63, WORD - 1)}), 6)

    def test_count_nothing(self):
        """A sheet without its traces has the same last line."""
        for name, commands in self.valid.items():
            others = [one for one in commands if one.code != s.TRACE]
            if len(others) < len(commands) and commands[0].operands['m'] < 4:
                text = s.printed(b''.join(command(code, *values.values()) for code, values in others))
                self.assertEqual(text.splitlines(), [line for line in self.texts[name].splitlines() if line[0] != 'T'])


class Edges(Kit):
    def test_sizes(self):
        sizes = {len(sheet) for sheet in self.sheets.values()}
        self.assertLessEqual({0, 1, s.MOST_BYTES, s.MOST_BYTES + 1, s.MOST_BYTES + 2}, sizes)
        self.assertIn(s.MOST_BYTES, {len(self.sheets[name]) for name in self.valid})

    def test_words(self):
        for code, name in ((s.BEGIN, 'q'), (s.SET, 'v'), (s.SCALE, 'v'), (s.TRACE, 'z')):
            words = {word for word, in self.used(code, name)}
            self.assertIn(WORD - 1, words)
            self.assertTrue(any(len(set(word.to_bytes(8, 'little'))) == 8 for word in words))
        turned = {index for index, in self.used(s.SET, 'index')}
        self.assertTrue(any(index % 256 != index // 256 and index % 256 * 256 + index // 256 in turned for index in turned))

    def test_values_of_every_size_are_shown(self):
        values = {line.split()[1] for text in self.texts.values() for line in text.splitlines() if line[0].isdigit()}
        self.assertLessEqual({str(10 ** k - d) for k in range(1, 20) for d in (0, 1)} | {str(WORD - 1)}, values)

    def test_zero_and_both_ends_of_a_register_are_shown(self):
        self.assertTrue(any(re.search(r'R \d\n[RPQTN]', text) for text in self.texts.values()))
        for m in RANKS:
            ends = re.compile(rf'^R \d\n0 .*\n(?:[0-9].*\n)*{size(m) - 1} ' if m else r'^R \d\n0 ', re.MULTILINE)
            self.assertTrue(any(text.startswith(f'H {m} ') and ends.search(text) for text in self.texts.values()), m)


class Refusals(Kit):
    def first_faults(self):
        return [(self.sheets[name], found[0]) for name, found in self.faults.items()]

    def one_past(self, sheet, at):
        """The operand out of range, with its value, of the command at an offset. There is one alone."""
        found = operands(s.OPERANDS[sheet[at]], sheet[at + 1:])
        [wrong] = [(name, value) for name, value in found.items() if not s.in_range(sheet[1], name, value)]
        return wrong

    def test_each_number_first_and_later(self):
        places = {number: {at for _, (given, at) in self.first_faults() if given == number} for number in range(9, 16)}
        self.assertEqual(places[9], {0})
        for number in (10, 11, 12, 13):
            self.assertIn(0, places[number])
            self.assertGreaterEqual(len(places[number]), 3)
        self.assertLessEqual({10, 12, 15, 4092}, places[15])
        ends = {at == len(sheet) for sheet, (number, at) in self.first_faults() if number == 14}
        self.assertEqual(ends, {True, False})
        self.assertIn(s.MOST_BYTES, places[14])

    def test_each_command_is_first(self):
        first = {sheet[0] for sheet, given in self.first_faults() if given == (12, 0)}
        self.assertEqual(first, set(s.OPERANDS) - {s.BEGIN})

    def test_each_command_cut_after_each_byte(self):
        cut = {(sheet[at], len(sheet) - at) for sheet, (number, at) in self.first_faults() if number == 11}
        for code, widths in s.OPERANDS.items():
            self.assertLessEqual({(code, kept) for kept in range(1, 1 + sum(widths.values()))}, cut)

    def test_each_operand_at_its_bound_and_past_it(self):
        at_bound = {(commands[0].operands['m'], one.code, *item) for commands in self.valid.values() for one in commands
                    for item in one.operands.items()}
        past = {(sheet[1], sheet[at], *self.one_past(sheet, at)) for sheet, (number, at) in self.first_faults() if number == 13}
        for code, names in s.OPERANDS.items():
            for name in IS_REGISTER & set(names):
                self.assertTrue(any(x[1:] == (code, name, 3) for x in at_bound) and any(x[1:] == (code, name, 4) for x in past))
        self.assertIn((5, s.BEGIN, 'm', 5), at_bound)
        self.assertIn((6, s.BEGIN, 'm', 6), past)
        for m in RANKS:
            self.assertLessEqual({(m, s.SET, 'index', index) for index in (0, size(m) - 1)}, at_bound)
            self.assertIn((m, s.SET, 'index', size(m)), past)
            for code in (s.LETTER, s.INVERSE):
                self.assertLessEqual({(m, code, 'i', i) for i in (1, m) if m}, at_bound)
                self.assertIn((m, code, 'i', m + 1), past)
        self.assertLessEqual({(m, code, 'i', 0) for m in (0, 2) for code in (s.LETTER, s.INVERSE)}, past)

    def test_order_of_checks(self):
        """The first of two conditions is the one given: those at one command, and those at two."""
        one, two = set(), set()
        for (number, place), *others in self.faults.values():
            for other, at in others:
                (one if at == place else two).add((number, other))
        self.assertLessEqual({(10, 12), (11, 12), (11, 13), (12, 13), (11, 15), (13, 15)}, one)
        self.assertLessEqual(set(product((12, 13, 15), (10, 11, 12, 13, 14))) | {(12, 15), (13, 15), (15, 15)}, two)
        self.assertLessEqual({(9, 10), (9, 14)}, one | two)

    def test_each_even_parameter(self):
        missing = {int.from_bytes(sheet[2:10], 'little') for sheet, (number, _) in self.first_faults() if number == 15}
        self.assertLessEqual({q for q in PARAMETERS.values() if q % 2 == 0} | {WORD - 2}, missing)

    def test_bytes_after_the_end_are_no_commands(self):
        tails = [sheet[:10] + sheet[at:] for sheet, (number, at) in self.first_faults() if number == 14]
        judged = {number for sheet in tails for number, _ in faults(sheet)}
        self.assertLessEqual({10, 11, 12, 13, 15}, judged)


TEXTS = {EXAMPLE: DOCUMENT['example_square_of_t_1'].encode(), b'': b'E 9 0\n'}
PROGRAM = f'import os, sys, time\ntext = {TEXTS}[sys.stdin.buffer.read()]\nsay = sys.stdout.buffer.write\n'


class Runner(unittest.TestCase):
    """Small programs that know the texts of two sheets, and what `conformance/run.py` says of them."""

    def setUp(self):
        folder = tempfile.TemporaryDirectory()
        self.addCleanup(folder.cleanup)
        self.program, self.sheets = Path(folder.name) / 'program.py', Path(folder.name) / 'sheets'
        self.sheets.mkdir()
        for name, sheet in (('square', EXAMPLE), ('empty', b'')):
            (self.sheets / f'{name}.sheet').write_bytes(sheet)
            (self.sheets / f'{name}.expected').write_bytes(TEXTS[sheet])

    def run_kit(self, program, *options):
        kit = [sys.executable, KIT / 'run.py', '--sheets', self.sheets, *options]
        done = subprocess.run([*kit, *program], capture_output=True, text=True)
        return done.returncode, done.stdout.splitlines()

    def says(self, code, *options, arguments=()):
        self.program.write_text(PROGRAM + code + '\n')
        return self.run_kit([sys.executable, '-S', self.program, *arguments], *options)

    def assert_seen(self, code, square, empty=None, options=()):
        """The program is found to differ on the sheet `square`, as said, and on `empty`, if that is said."""
        lines = ([f'empty: {empty}'] if empty else []) + [f'square: {square}']
        self.assertEqual(self.says(code, *options), (1, [*lines, f'2 sheets, {len(lines)} differ']))

    def test_right(self):
        right = 0, ['2 sheets, 0 differ']
        self.assertEqual(self.says('say(text)'), right)
        self.assertEqual(self.says('print("note", file=sys.stderr)\nsay(text)'), right)
        self.assertEqual(self.says('assert sys.argv[1:] == ["--seconds", "x"]\nsay(text)', arguments=('--seconds', 'x')), right)

    def test_another_line(self):
        self.assert_seen("say(text.replace(b'0 3', b'0 4'))", r"line 3: expected '0 3\n', got '0 4\n'")
        self.assert_seen("say(text.replace(b'0 3', b'\\xff\\0'))", r"line 3: expected '0 3\n', got '\xff\x00\n'")
        self.assert_seen("say(text.replace(b'N 6', b'N 6\\r'))", r"line 5: expected 'N 6\n', got 'N 6\r\n'")

    def test_cut_short(self):
        self.assert_seen('say(text[:18])', r"line 5: expected 'N 6\n', but the output is cut short")
        self.assert_seen('say(text[:21])', r"line 5: expected 'N 6\n', got 'N 6'")
        self.assert_seen('', r"line 1: expected 'H 1 3\n', but the output is cut short",
                         r"line 1: expected 'E 9 0\n', but the output is cut short")

    def test_too_long(self):
        self.assert_seen("say(text + b'N 6\\n' * (len(text) > 6))", r"line 6: expected nothing more, got 'N 6\n'")
        endless = 'stopped, since it prints far too much; line {}: expected {}, got {}'
        self.assert_seen("say(text)\nwhile True: say(b'y' * 99999)", endless.format(6, 'nothing more', "'" + 'y' * 99),
                         endless.format(2, 'nothing more', "'" + 'y' * 99))

    def test_crash(self):
        self.assert_seen('say(text)\nsys.exit(3 * (len(text) > 6))', 'exit status 3')
        self.assert_seen('say(text)\nsys.stdout.flush()\nif len(text) > 6: os.abort()', 'ended by signal 6')
        self.assert_seen('if len(text) > 6: os.abort()\nsay(text)',
                         r"ended by signal 6; line 1: expected 'H 1 3\n', but the output is cut short")

    def test_no_end(self):
        start = monotonic()
        for code in ('time.sleep(99)', 'say(text)\nsys.stdout.flush()\nos.close(1)\ntime.sleep(99)',
                     'say(text)\nsys.stdout.flush()\nif os.fork() == 0: time.sleep(99)\nos._exit(0)'):
            self.assert_seen(code, 'no end within 1 seconds', 'no end within 1 seconds', ('--seconds', '1'))
        self.assertLess(monotonic() - start, 60)

    def test_no_program(self):
        self.assertEqual(self.run_kit([self.program]), (1, []))

    def test_kit_that_is_not_whole(self):
        (self.sheets / 'square.expected').unlink()
        self.assert_seen('say(text)', 'the kit is not whole: a sheet and its text belong together')
        for path in self.sheets.iterdir():
            path.unlink()
        self.assertEqual(self.says('say(text)'), (1, ['0 sheets, 0 differ']))
