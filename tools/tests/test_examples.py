"""The knots in examples/: the reference prints what is stored, and it agrees with formulas and invariants known apart from it.

`tools/alexander.py` says how the Alexander polynomial comes from what is printed. Each example is also run with other q, since at
q = 3 alone the figure-eight's polynomial is 1, the unknot's.
"""
import re
import subprocess
import sys
import unittest
from pathlib import Path

from reference.algebra import WORD, mirror
from reference.sheet import printed
from tools.alexander import (closure, combined, described, determinant, digits, identity, image, polynomial, shown, times,
                             value)
from tools.sheet_text import to_bytes
from tools.tests.test_traces import STRANDS

ROOT = Path(__file__).resolve().parents[2]
EXAMPLES = ROOT / 'examples'
PARAMETERS = 3, 5, 7, 101, 0x9E37_79B9_7F4A_7C15, WORD - 5

# braids of knots, with the coefficients of their Alexander polynomials, from the tables of knots; the number of strands is one
# more than the largest letter
TREFOIL, FIGURE_EIGHT, FIVE_TWO, SEVEN_TWO = (1, 1, 1), (1, -2, 1, -2), (1, 1, 1, 2, -1, 2), (1, 1, 1, 2, -1, 2, 3, -2, 3)
KNOTS = {
    (1,): (1,), (1, -2): (1,), TREFOIL: (1, -1, 1), FIGURE_EIGHT: (1, -3, 1), (1,) * 5: (1, -1, 1, -1, 1), FIVE_TWO: (2, -3, 2),
    (1, 1, 2, -1, -3, 2, -3): (2, -5, 2), (-1, -1, -1, 2, -1, 2): (1, -3, 3, -3, 1), (-1, -1, 2, -1, 2, 2): (1, -3, 5, -3, 1),
    (1, 1, 1, -2, -1, -1, -1, -2): (1, -2, 3, -2, 1), SEVEN_TWO: (3, -5, 3), (1, 2, 3, 4, 5): (1,), (-1, 2, -3, 4, -5): (1,),
}
NAMES = {'trefoil': TREFOIL, 'figure_eight': FIGURE_EIGHT, 'five_two': FIVE_TWO}


def text_of(word, q):
    """The text of a sheet that shows a braid's element."""
    return f'begin {max(map(abs, word))} {q}\nunit 0\nletters 0 {" ".join(map(str, word))}\nshow 0\nend\n'


def at(coefficients, q):
    """The value of a polynomial."""
    return sum(c * q ** k for k, c in enumerate(coefficients))


def kinds(word):
    """The numbers of plain and of inverse letters."""
    return sum(i > 0 for i in word), sum(i < 0 for i in word)


class Matrices(unittest.TestCase):
    def test_quadratic_relation(self):
        for q in PARAMETERS:
            for m, i in ((m, i) for m in range(1, 6) for i in range(1, m + 1)):
                t = image(m, q, i)
                self.assertEqual(times(t, t), combined(q - 1, t, q, identity(m)))

    def test_braid_relation(self):
        for q in PARAMETERS:
            for m, i in ((m, i) for m in range(2, 6) for i in range(1, m)):
                t, u = image(m, q, i), image(m, q, i + 1)
                self.assertEqual(times(times(t, u), t), times(times(u, t), u))
                self.assertNotEqual(times(t, u), times(u, t))

    def test_distant_generators_commute(self):
        for m, i, j in ((m, i, j) for m in range(3, 6) for i in range(1, m) for j in range(i + 2, m + 1)):
            self.assertEqual(times(image(m, 3, i), image(m, 3, j)), times(image(m, 3, j), image(m, 3, i)))

    def test_determinant(self):
        self.assertEqual([determinant(x) for x in ([], [[5]], [[1, 2], [3, 4]], identity(4))], [1, 5, WORD - 2, 1])
        self.assertEqual(determinant([[2, 0, 1], [1, 3, 2], [0, 1, 4]]), 21)


class Polynomials(unittest.TestCase):
    def test_modulo_2_to_64(self):
        """det(1 - B) is (1 + q + .. + q^m) A(q) up to a sign and a power of q: for each knot at each q, small or not."""
        for word, coefficients in KNOTS.items():
            for q in PARAMETERS:
                m, _, element = shown(printed(to_bytes(text_of(word, q))))
                found = closure(m, q, element, len(word))
                units = {sign * pow(q, k, WORD) for sign in (1, -1) for k in range(-6, 7)}
                wanted = at([1] * (m + 1), q) * at(coefficients, q)
                self.assertIn(found, {unit * wanted % WORD for unit in units}, (word, q))
                self.assertNotIn(found, {unit * (wanted + 2) % WORD for unit in units}, (word, q))

    def test_whole_values(self):
        """Of those that q divides, as 15 for the knot 7_2 at q = 3, what is left without the powers of q."""
        for word, coefficients in KNOTS.items():
            for q in (3, 11, 41):
                found = shown(printed(to_bytes(text_of(word, q))))
                due = 5 if (word, q) == (SEVEN_TWO, 3) else abs(at(coefficients, q))
                self.assertEqual(value(*found, *kinds(word)), due, (word, q))
        self.assertEqual(at(KNOTS[SEVEN_TWO], 3), 15)

    def test_coefficients(self):
        """At q = 41, above twice each coefficient, the digits are the coefficients; a mirror image has the same."""
        for word, coefficients in KNOTS.items():
            for one in (word, mirror(word)):
                text = printed(to_bytes(text_of(one, 41)))
                self.assertEqual(described(text, *kinds(one)).splitlines()[1].split(': ')[1], polynomial(coefficients))

    def test_plain_letters_at_even_q(self):
        text = printed(to_bytes(text_of(TREFOIL, 10)))
        read = 'polynomial, if each coefficient is from -4 to 5: t^2 - t + 1'
        self.assertEqual(described(text, 3, 0), f'value at t = 10, up to sign and powers of 10: 91\n{read}\n')

    def test_as_it_is_written(self):
        for coefficients, text in (((), '0'), ((0, 0), '0'), ((1,), '1'), ((-1,), '-1'), ((0, 1), 't'), ((2, -1), '-t + 2'),
                                   ((1, -3, 1), 't^2 - 3 t + 1'), ((-2, 0, 0, 5), '5 t^3 - 2')):
            self.assertEqual(polynomial(coefficients), text)

    def test_digits(self):
        for q in (2, 3, 10, 41):
            for whole in range(2000):
                found = list(digits(q, whole))
                self.assertEqual(at(found, q), whole)
                self.assertTrue(all(-((q - 1) // 2) <= digit <= q // 2 for digit in found))

    def refuses(self, wrong, given, plain, inverse):
        with self.assertRaises(ValueError) as caught:
            described(given, plain, inverse)
        self.assertEqual(str(caught.exception), wrong)

    def test_refused(self):
        text = printed(to_bytes(text_of(FIVE_TWO, 101)))
        for given, plain, inverse, wrong in (
                ('', 0, 0, 'no register is shown'), ('E 9 0\n', 0, 0, 'no register is shown'),
                ('H 1 3\nN 0\n', 0, 0, 'no register is shown'),
                ('H 1 3\nR 0\n0 1\n', 0, 0, 'the output is cut off: no line comes after the register'),
                (text, 7, 2, 'q = 101 is below 2, or too large for 9 letters of rank 2'),
                (text, 100000000, 0, '100000000 letters are more than 4096'),
                (text, 4096, 1, '4097 letters are more than 4096'),
                (text, 4095, 1, 'q = 101 is below 2, or too large for 4096 letters of rank 2'),
                ('H 1 1\nR 0\n0 1\nN 0\n', 0, 0, 'q = 1 is below 2, or too large for 0 letters of rank 1')):
            self.refuses(wrong, given, plain, inverse)

    def test_wrong_numbers_of_letters(self):
        """A letter too few, and the left-handed trefoil as the other; then what the sum, the bound, the division alone refuses."""
        for word, q, plain, inverse in ((FIVE_TWO, 101, 4, 1), (mirror(TREFOIL), 3, 3, 0), ((2, 2, 2), 3, 2, 0),
                                        ((-3, -3, -3, 1, 1, 2), 3, 0, 0), ((1, 1, -2, -2) * 7, 3, 10, 10)):
            self.refuses(f'the coefficients are not those of a braid with {plain} plain and {inverse} inverse letters',
                         printed(to_bytes(text_of(word, q))), plain, inverse)

    def test_wrong_lines(self):
        """Each number at its bound and past it; after the first line, one of the register."""
        words = f'Y from 0 to {WORD - 1}'
        for head in ('H', 'H 1', 'H 1 3 5', 'H x 3', 'H -1 3', 'H 6 3', f'H 1 {WORD}', 'H  1 3', f'H 1 {"1" * 5000}'):
            self.refuses(f'expected "H X Y", X from 0 to 5 and {words}, found "{head}"', f'{head}\nR 0\n0 1\nN 0\n', 0, 0)
        for line in ('5 1', '2 1', '-1 1', '1', '1 2 3', '', 'x', '1 -1', f'1 {WORD}'):
            self.refuses(f'expected "X Y", X from 0 to 1 and {words}, found "{line}"', f'H 1 3\nR 0\n0 1\n{line}\nN 0\n', 0, 0)
        most = WORD - 1
        for other in ('R 1\n0 1', 'P 7', 'Q 1', 'T 7'):
            self.assertEqual(shown(f'H 5 {most}\nP 7\nT 7\nR 0\n719 {most}\n{other}\nN 0\n'), (5, most, {719: most}))


class Examples(unittest.TestCase):
    def test_stored(self):
        names = {path.stem for path in EXAMPLES.glob('*.txt')}
        self.assertEqual(names, set(NAMES) | set(STRANDS))
        for name in names:
            text = (EXAMPLES / f'{name}.txt').read_text()
            self.assertEqual(printed(to_bytes(text)), (EXAMPLES / f'{name}.expected').read_text())

    def test_are_the_braids_of_their_knots(self):
        for name, word in NAMES.items():
            text = (EXAMPLES / f'{name}.txt').read_text()
            q = re.search(r'^begin \d (\d+)', text, re.MULTILINE)[1]
            self.assertEqual(to_bytes(text), to_bytes(text_of(word, q)))

    def test_polynomials_of_what_is_stored(self):
        for name, word in NAMES.items():
            m, q, element = shown((EXAMPLES / f'{name}.expected').read_text())
            self.assertEqual(value(m, q, element, *kinds(word)), abs(at(KNOTS[word], q)))

    def test_trefoil(self):
        for q in PARAMETERS:
            m, _, element = shown(printed(to_bytes(text_of(TREFOIL, q))))
            self.assertEqual((m, element), (1, {0: q * (q - 1) % WORD, 1: (q ** 2 - q + 1) % WORD}))

    def test_figure_eight(self):
        for q in PARAMETERS:
            a = pow(q, -1, WORD)
            b = a - 1
            known = {0: q * b * b, 1: (q - 1) * b * b, 2: q * a * b, 3: (q - 1) * a * b, 4: q * a * a}
            m, _, element = shown(printed(to_bytes(text_of(FIGURE_EIGHT, q))))
            self.assertEqual((m, element), (2, {index: x % WORD for index, x in known.items()}))


class CommandLine(unittest.TestCase):
    def run_tool(self, *arguments, given=''):
        tool = [sys.executable, str(ROOT / 'tools' / 'alexander.py')]
        done = subprocess.run([*tool, *arguments], input=given, capture_output=True, text=True)
        return done.returncode, done.stdout, done.stderr

    def test_file_and_standard_input(self):
        path = EXAMPLES / 'five_two.expected'
        due = ('value at t = 101, up to sign and powers of 101: 20101\n'
               'polynomial, if each coefficient is from -50 to 50: 2 t^2 - 3 t + 2\n')
        self.assertEqual(self.run_tool('5', '1', str(path)), (0, due, ''))
        self.assertEqual(self.run_tool('5', '1', given=path.read_text()), (0, due, ''))

    def test_wrong(self):
        self.assertEqual(self.run_tool('0', '0', given='E 9 0\n'), (1, '', 'no register is shown\n'))
        for arguments in ((), ('1',), ('1', 'x'), ('1', '9' * 5000), ('1', '2', '3', '4'), ('1', '2', 'no such file')):
            status, out, error = self.run_tool(*arguments)
            self.assertEqual((status, out), (1, ''))
            self.assertNotEqual(error, '')
            self.assertNotIn('Traceback', error)
