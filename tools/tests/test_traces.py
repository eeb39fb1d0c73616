"""The trefoil in examples/ on two strands and on three: the trace of the second is z times that of the first, modulo 2^64, and they differ
in nothing else. What is stored, and what the reference prints for other q and z; and the same of other braids."""
import random
import re
import unittest
from pathlib import Path

from reference.algebra import WORD, letter_count
from reference.sheet import printed
from tools.sheet_text import to_bytes

EXAMPLES = Path(__file__).resolve().parents[2] / 'examples'

# the braids of the examples, the second with a strand more, which crosses once
STRANDS = {'trefoil_trace': (1, 1, 1), 'trefoil_three_strands': (1, 1, 1, 2)}
# odd and even: a trace needs no inverse of q
QS = 0, 1, 2, 3, 10, 2 ** 63, WORD - 1, 0x9E37_79B9_7F4A_7C15
ZS = 0, 1, 5, 8, 2 ** 32, 2 ** 63, WORD - 1, 0xC2B2_AE3D_27D4_EB4F


def text_of(m, word, q, z):
    """The text of a sheet that prints the trace of a braid."""
    return f'begin {m} {q}\nunit 0\nletters 0 {" ".join(map(str, word))}\ntrace 0 {z}\nend\n'


def read(text):
    """The rank, q, trace and count of a text that has these and no other line."""
    found = re.fullmatch(r'H (\d) (\d+)\nT (\d+)\nN (\d+)\n', text)
    return tuple(map(int, found.groups()))


def trace_of(m, word, q, z):
    """The trace that the reference prints, beside the rank, q and count that are due."""
    found = read(printed(to_bytes(text_of(m, word, q, z))))
    assert (found[0], found[1], found[3]) == (m, q, len(word) * letter_count(m))
    return found[2]


class Stored(unittest.TestCase):
    def setUp(self):
        self.sheets, self.texts = ([(EXAMPLES / f'{name}.{kind}').read_text() for name in STRANDS] for kind in ('txt', 'expected'))

    def test_are_the_braids_with_one_q_and_one_z(self):
        """The second braid is the first with the highest letter of its rank on top, once."""
        (q, z), other = ((re.search(r'^begin \d (\d+)', text, re.MULTILINE)[1], re.search(r'^trace 0 (\d+)', text, re.MULTILINE)[1])
                         for text in self.sheets)
        self.assertEqual(other, (q, z))
        for m, (text, word) in enumerate(zip(self.sheets, STRANDS.values()), 1):
            self.assertEqual(to_bytes(text), to_bytes(text_of(m, word, q, z)))
        two, three = STRANDS.values()
        self.assertEqual(three, two + (2,))

    def test_differ_by_the_factor_z_and_nothing_else(self):
        z = int(re.search(r'^trace 0 (\d+)', self.sheets[0], re.MULTILINE)[1])
        (m, q, two, count), (m_, q_, three, count_) = map(read, self.texts)
        self.assertEqual(three, z * two % WORD)
        self.assertEqual((m_, q_), (m + 1, q))
        self.assertEqual((count, count_), (3 * letter_count(1), 4 * letter_count(2)))

    def test_by_hand(self):
        """q (q - 1) + (q^2 - q + 1) z."""
        self.assertEqual(self.texts, [f'H 1 3\nT {6 + 7 * 5}\nN 9\n', f'H 2 3\nT {5 * (6 + 7 * 5)}\nN 36\n'])


class OtherParameters(unittest.TestCase):
    def test_trefoil(self):
        for q in QS:
            for z in ZS:
                two, three = (trace_of(m, word, q, z) for m, word in enumerate(STRANDS.values(), 1))
                self.assertEqual(two, (q * (q - 1) + (q * q - q + 1) * z) % WORD)
                self.assertEqual(three, z * two % WORD)

    def test_the_other_way(self):
        """With the letter -2 the factor is another: a z + a - 1, where a q = 1."""
        for q in (q for q in QS if q % 2):
            a = pow(q, -1, WORD)
            for z in ZS:
                self.assertEqual(trace_of(2, (1, 1, 1, -2), q, z), (a * z + a - 1) * trace_of(1, (1, 1, 1), q, z) % WORD)

    def test_other_braids(self):
        """Eight letters below m, of both kinds, with the letter m put in once, anywhere."""
        source = random.Random(0)
        for m in range(2, 6):
            for q in (3, WORD - 1, source.randrange(1, WORD, 2)):
                word = tuple(source.choice((1, -1)) * source.randint(1, m - 1) for _ in range(8))
                at, z = source.randint(0, 8), source.randrange(WORD)
                self.assertEqual(trace_of(m, word[:at] + (m,) + word[at:], q, z), z * trace_of(m - 1, word, q, z) % WORD)
