"""Every example and every table of numbers in docs/GUIDE.md is what the reference makes.

An example is a row of fenced blocks labelled `sheet`, `bytes`, `output`, and `explain` where the sheet is refused.
"""
import re
import unittest
from itertools import count
from pathlib import Path

from reference.algebra import (act, basis, letter_count, lengths_and_inverses, pairing, permutations, product_count, size, trace,
                               unit)
from reference.nested import Nested, falling, rising
from reference.permutations import call_tower, standard_word, tower
from reference.refusals import Refused
from reference.sheet import MOST_BYTES, OPERANDS, check, printed
from tools.alexander import described, image, shown, value
from tools.sheet_text import CODES, FORMS, NAMES, refusal, to_bytes
from tools.tests.test_examples import kinds, text_of

ROOT = Path(__file__).resolve().parents[2]
GUIDE = (ROOT / 'docs' / 'GUIDE.md').read_text(encoding='utf-8')
FENCED = re.compile(r'^```(\w+)\n(.*?)^```$', re.MULTILINE | re.DOTALL)


def examples():
    """The blocks of each example, by their labels."""
    found = []
    for label, block in FENCED.findall(GUIDE):
        if label == 'sheet':
            found.append({})
        found[-1][label] = block
    return found


def row(*cells):
    return '| ' + ' | '.join(map(str, cells)) + ' |'


class Blocks(unittest.TestCase):
    def test_every_fence_is_part_of_an_example(self):
        self.assertEqual(2 * len(FENCED.findall(GUIDE)), GUIDE.count('```'))
        labels = ' '.join(label for label, _ in FENCED.findall(GUIDE))
        self.assertRegex(labels, r'^(sheet bytes output( explain)?( |$))+$')

    def test_bytes_line_by_line(self):
        for example in examples():
            lines = [line for line in example['sheet'].splitlines() if line.split('#')[0].strip()]
            self.assertEqual([to_bytes(line).hex(' ') for line in lines], example['bytes'].splitlines())

    def test_output(self):
        for example in examples():
            sheet = to_bytes(example['sheet'])
            self.assertEqual(printed(sheet), example['output'])
            why = refusal(sheet)
            self.assertEqual(example.get('explain'), why and why + '\n')

    def test_every_command_and_every_refusal(self):
        run = [check(to_bytes(example['sheet'])) for example in examples() if 'explain' not in example]
        self.assertEqual({command.code for commands in run for command in commands}, set(OPERANDS))
        refused = {example['output'].split()[1] for example in examples() if 'explain' in example}
        self.assertEqual(refused, {'9', '10', '11', '12', '13', '14', '15'})

    def test_knots(self):
        sheets = [to_bytes(example['sheet']) for example in examples()]
        for path in ROOT.glob('examples/*.txt'):
            self.assertIn(to_bytes(path.read_text()), sheets)


class Tables(unittest.TestCase):
    def test_commands(self):
        for name, code in CODES.items():
            self.assertIn(f'\n| `{FORMS[name]}` | `{code:02x}` | {1 + sum(OPERANDS[code].values())} | ', GUIDE)

    def test_refusals(self):
        """The numbers in the order of the checks, and a section for each in its own order."""
        self.assertEqual(re.findall(r'^\| `(\d+)` \|', GUIDE, re.MULTILINE), ['9', '10', '11', '12', '13', '15', '14'])
        self.assertEqual(re.findall(r'^### (\d+): ', GUIDE, re.MULTILINE), [str(number) for number in range(9, 16)])

    def test_numbers(self):
        """Every row that starts with a number: the indexes and the counts."""
        rows = []
        for m, index in [(1, 0), (1, 1), *((2, index) for index in range(6)), (3, 17), (5, 500)]:
            w = permutations(m)[index]
            word = ''.join(f's{i}' for i in standard_word(tower(w))) or 'none'
            rows.append(row(m, index, ' '.join(map(str, tower(w))), word, ' '.join(map(str, w))))
        for m in range(7):
            letter = f'{letter_count(m):,}' if m else 'none'
            rows.append(row(m, m + 1, f'{size(m):,}', letter, f'{product_count(m, m):,}'))
        self.assertEqual([line for line in GUIDE.splitlines() if re.match(r'\| \d', line)], rows)

    def test_bookings(self):
        """The table for the sheet of the figure-eight, made from its commands."""
        each = {'letter': letter_count(2), 'inverse': letter_count(2)}
        names = [NAMES[command.code] for command in check(to_bytes((ROOT / 'examples' / 'figure_eight.txt').read_text()))]
        rows = [row(f'`{name}`', names.count(name), count, names.count(name) * count) for name, count in each.items()]
        rows.append(f'| the sheet | | | {sum(names.count(name) * count for name, count in each.items())} |')
        self.assertEqual([line for line in GUIDE.splitlines() if re.match(r'\| (`\w+` \| \d|the sheet)', line)], rows)

    def test_parts_of_a_product(self):
        """Each step's element, sums and products, and that the other order gives the same."""
        h, g = [2, 5], [1, 4]
        rows, nested = [], Nested(3)

        def step(name, element):
            before = (nested.sums, nested.products)
            made = element()
            spent = [after - was or '' for after, was in zip((nested.sums, nested.products), before)]
            rows.append(' | '.join(['| ' + name, f'{made[0]} + {made[1]} T_1', *map(str, spent)]) + ' |')
            return made

        scaled = step('part 1: the left factor times 4', lambda: nested.scale(g[1], h))
        part = step('and then T_1', lambda: nested.action(1, scaled, 1, 1))
        other = step('part 0: the left factor times 1', lambda: nested.scale(g[0], h))
        step('the two added', lambda: nested.add(part, other))
        self.assertIn('\n'.join(rows).replace('|  |', '| |'), GUIDE)
        self.assertIn(f'These are {nested.sums} sums and {nested.products} products, {nested.count} together', GUIDE)
        for order in falling, rising:
            whole = Nested(3)
            self.assertEqual(whole.product(1, h, 1, g, order), [62, 53])
            self.assertEqual((whole.sums, whole.products), (nested.sums, nested.products))

    def test_numbers_in_sentences(self):
        sentences = ' '.join(GUIDE.split())
        self.assertIn(f'With q = 3 the number a is {pow(3, -1, 2 ** 64)}.', sentences)
        rest = to_bytes('begin 5 3\nunit 0\nshow 0\nend')
        letters = (MOST_BYTES - len(rest)) // len(to_bytes('letter 0 1'))
        self.assertIn(f'so {letters:,} letters of either kind fit beside `begin`, `unit`, `show` and `end`', sentences)

    def test_pairings(self):
        """The pairing worked by hand, the index of an inverse at rank 3, and the indexes of rank 2 that change places."""
        sentences = ' '.join(GUIDE.split())
        self.assertIn(f'2 · 4 + 5 · 7 · 3 = {pairing(1, 3, [2, 5], [4, 7])} at index 0', sentences)
        sheet = to_bytes('begin 2 3\nset 0 s1 4\nset 0 s1s2 5\nset 1 s1 7\nset 1 s2s1 8\npair 0 1\nend')
        self.assertEqual(printed(sheet).splitlines()[1], f'P {3 * 4 * 7 + 9 * 5 * 8}')
        length, other = lengths_and_inverses(3)[17]
        images = permutations(3)[17], permutations(3)[other]
        self.assertIn('for index 17 of rank 3, with images {}, these are {}, which is index {}.'.format(
            *(' '.join(map(str, w)) for w in images), other), sentences)
        self.assertIn(f'5 at index 17 and 7 at index {other} give 5 · 7 · q^{length}.', sentences)
        first, second = (w for w, (_, v) in enumerate(lengths_and_inverses(2)) if v != w)
        self.assertIn(f'At rank 2 only the indexes {first} and {second}, of s1s2 and s2s1, change places', sentences)

    def test_traces(self):
        """The table of rank 2, by its formulas and by the reference; the sums and products in sentences; the trefoil by hand."""
        sentences, q, z = ' '.join(GUIDE.split()), 3, 5
        formulas = {'1': 1, 'Z': z, 'Z · Z': z * z, 'Z · ((q − 1) · Z + q)': z * ((q - 1) * z + q)}
        found = re.findall(r'^\| (s[s0-9]+|none) \| (\d) \| ([^|]+) \| (\d+) \|$', GUIDE, re.MULTILINE)
        words = [''.join(f's{i}' for i in standard_word(tower(w))) or 'none' for w in permutations(2)]
        traces = [trace(2, q, z, basis(w)) for w in permutations(2)]
        self.assertEqual([(word, int(index), int(value)) for word, index, _, value in found], list(zip(words, range(6), traces)))
        self.assertEqual([formulas[formula] for _, _, formula, _ in found], traces)
        terms = ' + '.join(f'{x} · {10 ** k}' for k, x in enumerate(traces))
        self.assertIn(f'{terms} = {sum(x * 10 ** k for k, x in enumerate(traces))}.', sentences)
        first, second = act(1, q, unit(1), [1, 1, 1])
        self.assertEqual((first, second), (q * (q - 1), q ** 2 - q + 1))
        two, three = trace(1, q, z, [first, second]), trace(2, q, z, act(2, q, unit(2), [1, 1, 1, 2]))
        self.assertIn('T_1 T_1 T_1 = q (q − 1) + (q^2 − q + 1) T_1. So the trace is q (q − 1) + (q^2 − q + 1) · Z. '
                      f'With q = {q} it is {first} + {second} · Z, and with Z = {z} it is {first} + {second} · {z} = {two}:', sentences)
        self.assertIn(f'the trace Z times as much, {z} · {two} = {three}:', sentences)
        self.assertIn(f'{two} and {three} belong to one ring.', sentences)

    def test_a_strand_added_the_other_way(self):
        """The factor a Z + a - 1 at q = 3: 2 with Z = 8, and 1 with Z = 5."""
        a, other = pow(3, -1, 2 ** 64), act(2, 3, unit(2), [1, 1, 1, -2])
        for z, factor in ((8, 2), (5, 1)):
            self.assertEqual((a * z + a - 1) % 2 ** 64, factor)
            self.assertEqual(trace(2, 3, z, other), factor * (6 + 7 * z))
        self.assertIn(f'With q = 3 and Z = 8 the factor is 2, and the braid `1 1 1 -2` has the trace 2 · (6 + 7 · 8) = {2 * (6 + 7 * 8)}; '
                      'with Z = 5 the factor happens to be 1.', ' '.join(GUIDE.split()))

    def test_image_lists(self):
        """The lists that come in turn to one buffer, and a refusal as one word."""
        buffer, rows = [9, 9, 9], []
        for images in ([2, 0, 5, 2], [4, 3, 1, 2], [3, 1, 3, 9], [3, 1, 2, 5], [2, 3, 1], [2, 3, 3], [], [3, 1, 4, 2]):
            try:
                call_tower(images, buffer)
                answer = 'accepted'
            except Refused as refusal:
                answer = f'{refusal.number} at {refusal.place}'
            shown_list = f'`{" ".join(map(str, images))}`' if images else 'none'
            rows.append(row(shown_list, answer, ' '.join(map(str, buffer))))
        self.assertIn('\n| images | answer | buffer afterwards |\n|---|---|---|\n' + '\n'.join(rows) + '\n\n', GUIDE)
        self.assertIn(f'6 at 1 is the word {6 + 256 * 1}.', ' '.join(GUIDE.split()))

    def test_one_braid_in_other_letters(self):
        self.assertIn('`1 2 1` and `2 1 2` are the same braid', ' '.join(GUIDE.split()))
        for q in (1, 3, 101, 2 ** 64 - 1):
            sheet = to_bytes(f'begin 2 {q}\nunit 0\nletters 0 1 2 1\nletters 0 -2 -1 -2\nunit 1\nequal 0 1\nend')
            self.assertEqual(printed(sheet), f'H 2 {q}\nQ 1\nN 54\n')

    def test_alexander_polynomials(self):
        """What the tool prints for the knot 5_2, its values for the figure-eight and 7_2, and the trefoil by hand."""
        sentences = ' '.join(GUIDE.split())
        said = described((ROOT / 'examples' / 'five_two.expected').read_text(), 5, 1)
        self.assertIn('\n\n' + ''.join(f'    {line}\n' for line in said.splitlines()) + '\n', GUIDE)
        small, large = (value(*shown(printed(to_bytes(text_of((1, -2, 1, -2), q)))), 2, 2) for q in (3, 101))
        self.assertIn(f'At q = 3 the figure-eight has the value {small}, as the ring without a knot has', sentences)
        self.assertIn(f'at q = 101 it has {large}, and the polynomial is t^2 - 3 t + 1.', sentences)
        word = 1, 1, 1, 2, -1, 2, 3, -2, 3
        small, large = (described(printed(to_bytes(text_of(word, q))), *kinds(word)).splitlines() for q in (3, 41))
        self.assertIn(f'The knot 7_2, with the letters `{" ".join(map(str, word))}`, has the polynomial {large[1].split(": ")[1]}, '
                      f'which is {3 * 3 ** 2 - 5 * 3 + 3} at t = 3; there the tool prints {small[0].split(": ")[1]},', sentences)
        [[t]], (_, q, element) = image(1, 3, 1), shown((ROOT / 'examples' / 'trefoil.expected').read_text())
        total = element[0] + element[1] * t
        self.assertIn(f'{element[0]} + {element[1]} T_1 gives {element[0]} + {element[1]} · {t} = {total}', sentences)
        self.assertIn(f'is {1 + total}, and {1 + total} divided by 1 + {q} is {(1 + total) // (1 + q)},', sentences)

    def test_most_letters_for_a_polynomial(self):
        """How many of the letters 1 -1 1 -1 .. the tool takes at rank 2; they are T_1 or the unit."""
        def most(q):
            for letters in count(1):
                try:
                    value(2, q, {letters % 2: 1}, (letters + 1) // 2, letters // 2)
                except ValueError as wrong:
                    self.assertEqual(str(wrong), f'q = {q} is below 2, or too large for {letters} letters of rank 2')
                    return letters - 1

        self.assertIn(f'at rank 2 the tool takes at most {most(3)} letters at q = 3, and at most {most(101)} at q = 101;',
                      ' '.join(GUIDE.split()))
