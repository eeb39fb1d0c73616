"""Run sheets: document 01's example, each command, and each refusal with its place."""
import subprocess
import sys
import unittest
from pathlib import Path

from reference import algebra as a
from reference import sheet as s
from reference.sheet_cases import EXAMPLE
from reference.tests.support import refused

ROOT = Path(__file__).resolve().parents[2]
PRINTED = 'H 1 3\nR 0\n0 3\n1 2\nN 6\n'


def begin(m, q):
    return bytes([0x10, m]) + q.to_bytes(8, 'little')


def put(r, index, v):
    return bytes([0x21, r]) + index.to_bytes(2, 'little') + v.to_bytes(8, 'little')


def scale(r, v):
    return bytes([0x33, r]) + v.to_bytes(8, 'little')


def trace(r, z):
    return bytes([0x43, r]) + z.to_bytes(8, 'little')


END = bytes([0])


class Program(unittest.TestCase):
    def run_program(self, sheet):
        return subprocess.run([sys.executable, '-m', 'reference'], input=sheet, cwd=ROOT, stdout=subprocess.PIPE, check=True).stdout

    def test_example_file(self):
        self.assertEqual((ROOT / 'examples' / 'square.sheet').read_bytes(), EXAMPLE)

    def test_example(self):
        self.assertEqual(self.run_program(EXAMPLE), PRINTED.encode())

    def test_4096_and_4097_bytes_and_more(self):
        sheet = begin(0, 1) + bytes([0x40, 3]) * 2042 + bytes([0x20, 0]) + END
        self.assertEqual(len(sheet), 4097)
        self.assertEqual(self.run_program(sheet), b'E 9 0\n')
        self.assertEqual(self.run_program(sheet + b'\xff' * 9000), b'E 9 0\n')
        full = begin(0, 1) + bytes([0x41, 0, 0]) + bytes([0x40, 3]) * 2041 + END
        self.assertEqual(len(full), 4096)
        self.assertEqual(self.run_program(full), b'H 0 1\nP 0\n' + b'R 3\n' * 2041 + b'N 0\n')

    def test_empty(self):
        self.assertEqual(self.run_program(b''), b'E 9 0\n')


class Commands(unittest.TestCase):
    def test_example_registers(self):
        self.assertEqual(s.call_run(EXAMPLE), (0, 0, [[3, 2] + [0] * 718] + [[0] * 720] * 3, 6))

    def test_refused_registers(self):
        self.assertEqual(s.call_run(EXAMPLE[:-1]), (14, 20, [[0] * 720] * 4, 0))

    def test_show_of_zero_and_of_every_nonzero_coefficient(self):
        sheet = begin(2, 5) + put(1, 5, 2 ** 64 - 1) + put(1, 0, 7) + put(1, 3, 0) + bytes([0x40, 0, 0x40, 1]) + END
        self.assertEqual(s.printed(sheet), 'H 2 5\nR 0\nR 1\n0 7\n5 18446744073709551615\nN 0\n')

    def test_operands_lowest_byte_first(self):
        sheet = begin(5, 0x0102_0304_0506_0708) + bytes([0x21, 2, 0xcf, 0x02, 1, 0, 0, 0, 0, 0, 0, 0x80, 0x40, 2]) + END
        self.assertEqual(s.printed(sheet), f'H 5 {0x0102030405060708}\nR 2\n719 {2 ** 63 + 1}\nN 0\n')

    def test_product_sum_scale_count(self):
        sheet = begin(2, 3) + bytes([0x20, 0, 0x30, 0, 2, 0x30, 0, 1, 0x31, 1, 0, 0, 0x32, 2, 1, 0]) + scale(2, 10) + bytes([0x40, 2]) + END
        t = a.act(2, 3, a.unit(2), [2, 1])
        expected = a.scale(10, a.add(a.product(2, 3, t, t), t))
        lines = [f'{index} {x}' for index, x in enumerate(expected) if x]
        self.assertEqual(s.printed(sheet).splitlines(), ['H 2 3', 'R 2', *lines, f'N {9 + 9 + 118 + 6 + 6}'])

    def test_inverse_letter(self):
        """A letter and then its inverse leave the unit, and each counts 3M/2."""
        third = (2 ** 65 + 1) // 3
        sheet = begin(1, 3) + bytes([0x20, 0, 0x34, 0, 1, 0x40, 0, 0x30, 0, 1, 0x40, 0]) + END
        self.assertEqual(s.printed(sheet), f'H 1 3\nR 0\n0 {third - 1}\n1 {third}\nR 0\n0 1\nN 6\n')
        h = a.act(3, 5, a.unit(3), [1, -2, 3, -1])
        sheet = begin(3, 5) + bytes([0x20, 2, 0x30, 2, 1, 0x34, 2, 2, 0x30, 2, 3, 0x34, 2, 1]) + END
        self.assertEqual((s.run(sheet).registers[2][:24], s.run(sheet).count), (h, 4 * 36))

    def test_destination_may_be_a_factor(self):
        for d, x, y in ((0, 0, 0), (0, 0, 1), (1, 0, 1)):
            sheet = begin(1, 3) + put(0, 0, 5) + put(0, 1, 7) + put(1, 1, 11) + bytes([0x31, d, x, y, 0x32, d, d, y]) + END
            registers = [[5, 7], [0, 11]]
            registers[d] = a.product(1, 3, registers[x], registers[y])
            registers[d] = a.add(registers[d], registers[y])
            self.assertEqual([r[:2] for r in s.run(sheet).registers[:2]], registers)

    def test_pairing_and_equality(self):
        sheet = begin(2, 2) + put(0, 3, 1) + put(1, 4, 1) + bytes([0x41, 0, 0, 0x41, 0, 1, 0x42, 0, 1, 0x42, 2, 3]) + END
        self.assertEqual(s.printed(sheet), 'H 2 2\nP 0\nP 4\nQ 0\nQ 1\nN 0\n')

    def test_pairing_is_the_coefficient_of_the_unit_in_the_product(self):
        """T_1 T_2 T_2 = 2 T_{s_1 s_2} + 3 T_1 with q = 3, and the word read backwards gives 2 T_{s_2 s_1} + 3 T_1: the two are paired,
        and their product is paired with the unit."""
        there, back = bytes([0x20, 0, 0x30, 0, 1, 0x30, 0, 2, 0x30, 0, 2]), bytes([0x20, 1, 0x30, 1, 2, 0x30, 1, 2, 0x30, 1, 1])
        sheet = begin(2, 3) + there + back + bytes([0x41, 0, 1, 0x31, 2, 0, 1, 0x20, 3, 0x41, 2, 3]) + END
        due = 9 * 2 * 2 + 3 * 3 * 3
        self.assertEqual(s.printed(sheet), f'H 2 3\nP {due}\nP {due}\nN {6 * 9 + 118}\n')

    def test_trace(self):
        """6 + 7 T_1 with z = 5 at q = 3; z lowest byte first; of all registers; it counts nothing and changes no register."""
        sheet = begin(1, 3) + put(0, 0, 6) + put(0, 1, 7) + trace(0, 5) + trace(0, 0) + trace(3, 5) + END
        self.assertEqual(s.printed(sheet), 'H 1 3\nT 41\nT 6\nT 0\nN 0\n')
        z = 0x0102_0304_0506_0708
        sheet = begin(1, 0) + put(3, 1, 1) + bytes([0x43, 3, 8, 7, 6, 5, 4, 3, 2, 1, 0x40, 3]) + END
        self.assertEqual(s.printed(sheet), f'H 1 0\nT {z}\nR 3\n1 1\nN 0\n')
        sheet = begin(2, 3) + b''.join(put(1, k, 10 ** k) for k in range(6)) + trace(1, 5) + bytes([0x30, 1, 1]) + trace(1, 0) + END
        self.assertEqual(s.printed(sheet), 'H 2 3\nT 6775551\nT 30\nN 9\n')
        self.assertEqual(s.run(sheet).registers, s.run(sheet.replace(trace(1, 5), b'')).registers)

    def test_trace_of_a_strand_added(self):
        """The braid 1 1 1 of two strands, as one of three too, and with the letter 2 on top: the last trace is z times the others."""
        for m, word, due in ((1, (1, 1, 1), 41), (2, (1, 1, 1), 41), (2, (1, 1, 1, 2), 205), (3, (1, 1, 1, 2, 3), 1025)):
            letters = b''.join(bytes([0x30, 2, i]) for i in word)
            sheet = begin(m, 3) + bytes([0x20, 2]) + letters + trace(2, 5) + END
            self.assertEqual(s.printed(sheet), f'H {m} 3\nT {due}\nN {len(word) * a.letter_count(m)}\n')

    def test_unit_and_put_are_not_counted(self):
        self.assertEqual(s.run(begin(3, 2) + bytes([0x20, 0]) + put(1, 2, 3) + END).count, 0)


class Refusals(unittest.TestCase):
    def test_9_size(self):
        for sheet in (b'', b'\xff' * 4097):
            with refused(self, 9):
                s.check(sheet)

    def test_each_command(self):
        start = begin(2, 3)
        cases = [
            (10, 0, b'\x01'), (10, 0, b'\xff\x00'), (10, 10, start + b'\x35\x00\x01'), (10, 12, start + b'\x20\x00\x44'),
            (11, 0, b'\x10'), (11, 0, start[:9]), (11, 0, b'\x20'), (11, 10, start + b'\x21\x00\x00\x00'), (11, 10, start + b'\x10'),
            (12, 0, b'\x00'), (12, 0, b'\x20\x09'), (12, 0, b'\x00\xff'), (12, 10, start + start), (12, 10, start + begin(9, 0)),
            (13, 0, begin(6, 3)), (13, 10, start + b'\x20\x04'), (13, 10, start + put(4, 0, 0)), (13, 10, start + put(0, 6, 0)),
            (13, 10, start + b'\x30\x00\x00'), (13, 10, start + b'\x30\x00\x03'), (13, 10, start + b'\x30\x04\x01'),
            (13, 10, start + b'\x34\x00\x00'), (13, 10, start + b'\x34\x00\x03'), (13, 10, start + b'\x34\x04\x01'),
            (11, 10, start + b'\x34'), (11, 10, start + b'\x34\x00'), (12, 0, b'\x34\x00\x01'),
            (13, 10, start + scale(4, 0)), (13, 10, start + b'\x40\x04'), (13, 10, begin(0, 3) + b'\x30\x00\x01'),
            (13, 10, begin(0, 3) + b'\x34\x00\x01'),
            (13, 10, start + trace(4, 0) + END), (13, 10, start + trace(255, 5)), (12, 0, trace(4, 5) + start),
        ]
        cases += [(11, 10, start + trace(4, 5)[:kept]) for kept in range(1, 10)]
        for code in (0x31, 0x32):
            cases += [(13, 10, start + bytes([code, *operands])) for operands in ((4, 0, 0), (0, 4, 0), (0, 0, 4))]
        for code in (0x41, 0x42):
            cases += [(13, 10, start + bytes([code, *operands])) for operands in ((4, 0), (0, 4))]
        for number, place, sheet in cases:
            with self.subTest(sheet=sheet.hex()), refused(self, number, place):
                s.check(sheet)

    def test_15_no_inverse(self):
        """After 13 at one command; lowest offset first; before 14."""
        even = begin(2, 2)
        for q in (0, 2, 2 ** 63, a.WORD - 2):
            with refused(self, 15, 10):
                s.check(begin(2, q) + b'\x34\x00\x01' + END)
        for number, place, rest in (
                (15, 10, '34 00 01 34 00 01 00'), (15, 13, '30 00 01 34 00 02 00'), (15, 10, '34 00 01 ff'),
                (15, 10, '34 00 01 34 00'), (15, 10, '34 00 01 20 04 00'), (15, 10, '34 00 01'), (15, 10, '34 00 01 00 00'),
                (13, 10, '34 00 03 00'), (13, 10, '34 04 01 34 00 01'), (13, 10, '20 04 34 00 01 00'), (11, 10, '34 00'),
                (14, 11, '00 34 00 01')):
            with self.subTest(rest=rest), refused(self, number, place):
                s.check(even + bytes.fromhex(rest))
        with refused(self, 12, 0):
            s.check(b'\x34\x00\x01' + even + END)

    def test_edges_in_range(self):
        for m in range(6):
            s.check(begin(m, 2 ** 64 - 1) + put(3, a.size(m) - 1, 1) + END)
            with refused(self, 13, 10):
                s.check(begin(m, 0) + put(3, a.size(m), 1) + END)

    def test_14_end(self):
        start = begin(2, 3)
        for place, sheet in ((10, start), (12, start + b'\x20\x00'), (11, start + END + END), (11, start + END + b'\xff\xff')):
            with refused(self, 14, place):
                s.check(sheet)

    def test_lowest_offset_comes_first(self):
        with refused(self, 13, 10):
            s.check(begin(2, 3) + b'\x20\x04\xff\x00\x00')

    def test_refused_sheet_prints_one_line(self):
        self.assertEqual(s.printed(begin(1, 3) + bytes([0x40, 0])), 'E 14 12\n')
