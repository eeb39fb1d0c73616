"""The sheets that programs are tried with: there are enough, and they reach every command and refusal."""
import unittest

from pathlib import Path
from unittest.mock import patch

from reference import sheet as s
from reference.algebra import WORD, lengths_and_inverses, size
from reference.refusals import Refused
from reference.sheet_cases import END, cases, command, products_of_rank_5, short

ROOT = Path(__file__).resolve().parents[2]


def outcome(sheet):
    """The number of the refusal, or the rank with the commands."""
    try:
        commands = s.check(sheet)
    except Refused as refused:
        return refused.number
    return commands[0].operands['m'], {command.code for command in commands}


class Cases(unittest.TestCase):
    @classmethod
    def setUpClass(cls):
        cls.sheets = list(cases())
        cls.outcomes = [outcome(sheet) for sheet in cls.sheets]
        cls.valid = [x for x in cls.outcomes if isinstance(x, tuple)]

    def test_enough(self):
        self.assertGreaterEqual(len(set(self.sheets)), 500)
        self.assertGreaterEqual(len(self.valid), 200)
        self.assertEqual(len(set(short())), 256 + 256 * 13)

    def test_the_same_every_time(self):
        self.assertEqual(self.sheets, list(cases()))

    def test_every_refusal(self):
        self.assertLessEqual(set(range(9, 16)), set(x for x in self.outcomes if isinstance(x, int)))

    def test_every_command_at_every_rank(self):
        for rank in range(s.MOST_RANK + 1):
            codes = set().union(*(codes for m, codes in self.valid if m == rank))
            self.assertEqual(codes, set(s.OPERANDS) - ({s.LETTER, s.INVERSE} if rank == 0 else set()))

    def test_aliased_registers_and_parameters_at_every_rank(self):
        for rank in range(s.MOST_RANK + 1):
            for q in (0, WORD - 1):
                begin = command(s.BEGIN, rank, q)
                for operands in ((1, 1, 2), (2, 1, 2), (1, 1, 1)):
                    self.assertTrue(any(x.startswith(begin) and command(s.PRODUCT, *operands) in x for x in self.sheets))

    def test_mirror_words_bring_home_at_every_rank(self):
        """A sheet that compares a register before and after: what it prints last is that the two are equal."""
        for rank in range(1, s.MOST_RANK + 1):
            for q in (1, 3, WORD - 1):
                begin = command(s.BEGIN, rank, q)
                both = [x for x in self.sheets if x.startswith(begin) and x.endswith(command(s.EQUAL, 1, 2) + END)]
                self.assertIn('Q 1', [s.printed(x).splitlines()[-2] for x in both])

    def test_15_after_13_and_before_all_that_comes_later(self):
        refused = [(sheet, x) for sheet, x in zip(self.sheets, self.outcomes) if isinstance(x, int)]
        found = {(sheet[2], x) for sheet, x in refused if sheet[10:12] == command(s.UNIT, 0) and 0x34 in sheet[12:]}
        self.assertLessEqual({(2, 11), (2, 13), (2, 14), (2, 15), (3, 10), (3, 11), (3, 12), (3, 13), (3, 14)}, found)
        self.assertNotIn((3, 15), found)

    def test_pairings_tell_the_inverse_from_the_permutation(self):
        """At every rank that has other permutations than involutions: a pairing that its product's pairing with the unit confirms,
        and that is another where each permutation is taken for its inverse."""
        for rank in range(s.MOST_RANK + 1):
            begin, last = command(s.BEGIN, rank, 3), command(s.UNIT, 3) + command(s.PAIR, 2, 3) + END
            [sheet] = [x for x in self.sheets if x.startswith(begin) and x.endswith(last)]
            texts = [line for line in s.printed(sheet).splitlines() if line[0] == 'P']
            self.assertEqual(texts[0], texts[-1])
            itself = [(n, w) for w, (n, _) in enumerate(lengths_and_inverses(rank))]
            with patch('reference.algebra.lengths_and_inverses', lambda m: itself):
                self.assertEqual(s.printed(sheet).splitlines()[1] == texts[0], rank < 2)

    def test_a_strand_added_multiplies_the_trace_by_z(self):
        """At every rank and q, for four z: of the traces printed in threes the second is z times the first, at rank 0 the first."""
        for rank in range(s.MOST_RANK + 1):
            for q in (0, 3, WORD - 1):
                begin, first = command(s.BEGIN, rank, q), b''.join(command(s.TRACE, r, 0) for r in (2, 3, 0))
                [sheet] = [x for x in self.sheets if x.startswith(begin) and first in x]
                zs = [one.operands['z'] for one in s.check(sheet) if one.code == s.TRACE][::3]
                found = [int(line[2:]) for line in s.printed(sheet).splitlines() if line[0] == 'T']
                self.assertEqual(len(found), 12)
                self.assertEqual(found[1::3], [x * z % WORD if rank else x for x, z in zip(found[::3], zs)])

    def test_operands_at_and_past_their_bounds(self):
        for rank in range(s.MOST_RANK + 1):
            for index in (size(rank) - 1, size(rank)):
                self.assertTrue(any(x.startswith(command(s.BEGIN, rank, 3) + command(s.SET, 3, index, 5)) for x in self.sheets))
        for rank in (s.MOST_RANK, s.MOST_RANK + 1):
            self.assertIn(command(s.BEGIN, rank, 3) + command(s.SHOW, 0) + END, self.sheets)

    def test_example_of_products(self):
        sheet = products_of_rank_5()
        self.assertEqual((ROOT / 'examples' / 'products.sheet').read_bytes(), sheet)
        self.assertEqual(outcome(sheet)[0], s.MOST_RANK)
        self.assertLessEqual(4090, len(sheet))

    def test_edges_of_the_size(self):
        sizes = {len(sheet) for sheet in self.sheets}
        self.assertLessEqual({0, 4095, 4096, 4097}, sizes)
        self.assertTrue(any(isinstance(x, tuple) and len(sheet) == 4096 for sheet, x in zip(self.sheets, self.outcomes)))
