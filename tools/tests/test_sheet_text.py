"""The text form of sheets: every command, both ways and back, the lines that are no command, and each refusal in words."""
import subprocess
import sys
import unittest
from pathlib import Path

from reference.algebra import permutations
from reference.permutations import standard_word, tower
from reference.sheet import OPERANDS, printed, run
from reference.sheet_cases import EXAMPLE, cases
from tools.sheet_text import CODES, refusal, summary, to_bytes, to_text

TOOL = Path(__file__).resolve().parents[1] / 'sheet_text.py'

# each command with operands that tell their bytes apart
LINES = [
    ('begin 2 258', '10 02 02 01 00 00 00 00 00 00'),
    ('unit 1', '20 01'),
    ('set 1 515 1027', '21 01 03 02 03 04 00 00 00 00 00 00'),
    ('letter 2 3', '30 02 03'),
    ('set 2 1 1', '21 02 01 00 01 00 00 00 00 00 00 00'),
    ('inverse 2 3', '34 02 03'),
    ('product 1 2 3', '31 01 02 03'),
    ('sum 1 2 3', '32 01 02 03'),
    ('scale 1 72623859790382856', '33 01 08 07 06 05 04 03 02 01'),
    ('show 3', '40 03'),
    ('pair 1 2', '41 01 02'),
    ('equal 1 2', '42 01 02'),
    ('trace 1 72623859790382856', '43 01 08 07 06 05 04 03 02 01'),
    ('letters 1 2 3 2', '30 01 02 30 01 03 30 01 02'),
    ('letters 2 1 -2 1 -2', '30 02 01 34 02 02 30 02 01 34 02 02'),
    ('letters 3 -1 -255', '34 03 01 34 03 ff'),
    ('end', '00'),
]

START = '10 02 03 00 00 00 00 00 00 00 '
EVEN = '10 02 02 01 00 00 00 00 00 00 '
REFUSALS = [
    ('', '9 at 0: the sheet has 0 bytes, and a sheet has 1 to 4096'),
    ('00' * 4097, '9 at 0: the sheet has 4097 bytes, and a sheet has 1 to 4096'),
    ('ff', '10 at 0: unknown command: the byte is 0xff'),
    (START + '50 00 01 00', '10 at 10: unknown command: the byte is 0x50'),
    ('20', '11 at 0: operands cut off: "unit R" takes 2 bytes, and the sheet has 1 left'),
    (START + '21 00 05 00', '11 at 10: operands cut off: "set R INDEX V" takes 12 bytes, and the sheet has 4 left'),
    ('20 00 00', '12 at 0: begin comes first, and once: "unit 0" comes first'),
    ('00', '12 at 0: begin comes first, and once: "end" comes first'),
    (START + START, '12 at 10: begin comes first, and once: "begin 2 3" stands later'),
    ('10 06 03 00 00 00 00 00 00 00', '13 at 0: operand out of range: "begin 6 3" has the rank 6, and ranks are 0 to 5'),
    (START + '20 04 00', '13 at 10: operand out of range: "unit 4" has the register 4, and registers are 0 to 3'),
    (START + '31 03 05 04', '13 at 10: operand out of range: "product 3 5 4" has the register 5, and registers are 0 to 3'),
    (START + '20 00 21 00 06 00 07 00 00 00 00 00 00 00',
     '13 at 12: operand out of range: "set 0 6 7" has the index 6, and rank 2 has indexes 0 to 5'),
    (START + '30 00 03 00',
     '13 at 10: operand out of range: "letter 0 3" has the generator 3, and rank 2 has generators 1 to 2'),
    ('10 00 03 00 00 00 00 00 00 00 30 00 01',
     '13 at 10: operand out of range: "letter 0 1" has the generator 1, and rank 0 has no generators'),
    (START + '34 00 03 00',
     '13 at 10: operand out of range: "inverse 0 3" has the generator 3, and rank 2 has generators 1 to 2'),
    (START + '43 00 05 00', '11 at 10: operands cut off: "trace R Z" takes 10 bytes, and the sheet has 4 left'),
    (START + '43 04 05 00 00 00 00 00 00 00 00',
     '13 at 10: operand out of range: "trace 4 5" has the register 4, and registers are 0 to 3'),
    (START + '34 00', '11 at 10: operands cut off: "inverse R I" takes 3 bytes, and the sheet has 2 left'),
    (EVEN + '20 00 34 00 02 00', '15 at 12: no inverse: "inverse 0 2" needs an inverse of q, and q is 258, which is even'),
    (START + '00 20', '14 at 11: a byte after the end command: the byte is 0x20'),
    (START + '20 00', '14 at 12: no end command: the sheet stops without one'),
]

NAMES = 'expected one of begin, unit, set, letter, inverse, product, sum, scale, show, pair, equal, trace, end, letters, bytes'
WORDS = 'expected a number from -9223372036854775808 to 18446744073709551615'
LETTERS = 'I: expected a number from -255 to 255'
INDEXES = 'expected a number from 0 to 65535 or a shortest word such as s1s2'
BAD_LINES = [
    ('multiply 0 1 2', f'{NAMES}, found "multiply"'),
    ('Unit 0', f'{NAMES}, found "Unit"'),
    ('unit', 'expected "unit R", found "unit"'),
    ('set 0 5  # no value', 'expected "set R INDEX V", found "set 0 5"'),
    ('end 0', 'expected "end", found "end 0"'),
    ('letters 0', 'expected "letters R I I ..", found "letters 0"'),
    ('bytes', 'expected "bytes BYTE BYTE ..", found "bytes"'),
    ('unit 256', 'R: expected a number from 0 to 255, found "256"'),
    ('unit -1', 'R: expected a number from 0 to 255, found "-1"'),
    ('unit 1_0', 'R: expected a number from 0 to 255, found "1_0"'),
    ('letter 0 -2', 'I: expected a number from 0 to 255, found "-2"; write "inverse 0 2" or "letters 0 -2"'),
    ('letter 3 -0x1', 'I: expected a number from 0 to 255, found "-0x1"; write "inverse 3 0x1" or "letters 3 -0x1"'),
    ('letter 0 -256', 'I: expected a number from 0 to 255, found "-256"'),
    ('letter 0 -', 'I: expected a number from 0 to 255, found "-"'),
    ('letter 0 256', 'I: expected a number from 0 to 255, found "256"'),
    ('letter 256 -2', 'R: expected a number from 0 to 255, found "256"'),
    ('inverse 0 -1', 'I: expected a number from 0 to 255, found "-1"'),
    ('inverse 0', 'expected "inverse R I", found "inverse 0"'),
    ('letters 0 1 x', f'{LETTERS}, found "x"'),
    ('letters 0 1 -', f'{LETTERS}, found "-"'),
    ('letters 0 1 --1', f'{LETTERS}, found "--1"'),
    ('letters 0 1 +1', f'{LETTERS}, found "+1"'),
    ('letters 0 1 -256', f'{LETTERS}, found "-256"'),
    ('letters 0 256', f'{LETTERS}, found "256"'),
    ('letters -1 1', 'R: expected a number from 0 to 255, found "-1"'),
    ('letters 256 -1', 'R: expected a number from 0 to 255, found "256"'),
    ('bytes 0x100', 'BYTE: expected a number from 0 to 255, found "0x100"'),
    ('scale 0 18446744073709551616', f'V: {WORDS}, found "18446744073709551616"'),
    ('trace 0', 'expected "trace R Z", found "trace 0"'),
    ('trace 256 5', 'R: expected a number from 0 to 255, found "256"'),
    ('trace 0 18446744073709551616', f'Z: {WORDS}, found "18446744073709551616"'),
    ('trace 0 s1', f'Z: {WORDS}, found "s1"'),
    ('begin 2 -9223372036854775809', f'Q: {WORDS}, found "-9223372036854775809"'),
]
BAD_LINES += [(f'set 0 {index} 1', f'INDEX: {INDEXES}, found "{index}"')
              for index in ('65536', '-1', 's1s1', 's1s2s1s2', 's0', 's6', '1s', 's')]


class ToBytes(unittest.TestCase):
    def test_every_command(self):
        self.assertEqual(set(CODES.values()), set(OPERANDS))
        self.assertLessEqual(set(CODES), {line.split()[0] for line, _ in LINES})
        for line, sheet in LINES:
            self.assertEqual(to_bytes(line), bytes.fromhex(sheet))

    def test_comments_and_blanks(self):
        text = '# a\n\n  \t begin  1 3 # b\r\nunit 0#c\n#\x0cend\nend'
        self.assertEqual(to_bytes(text), to_bytes('begin 1 3\nunit 0\nend\n'))

    def test_numbers(self):
        for text, value in (('0x1F', 31), ('007', 7), ('-1', 2 ** 64 - 1), ('-0x10', 2 ** 64 - 16), (str(-2 ** 63), 2 ** 63),
                            (str(2 ** 64 - 1), 2 ** 64 - 1)):
            self.assertEqual(to_bytes(f'scale 2 {text}'), bytes([0x33, 2]) + value.to_bytes(8, 'little'))
            self.assertEqual(to_bytes(f'trace 2 {text}'), bytes([0x43, 2]) + value.to_bytes(8, 'little'))
        self.assertEqual(to_bytes('letters 0x3 0xff 0'), bytes([0x30, 3, 255, 0x30, 3, 0]))
        self.assertEqual(to_bytes('bytes 1 0x20 255'), bytes([1, 32, 255]))

    def test_shortest_words(self):
        """Document 01's indexes of rank 2, and the standard word of every permutation of rank 5."""
        for index, word in enumerate(['s1', 's2', 's1s2', 's2s1', 's1s2s1'], 1):
            self.assertEqual(to_bytes(f'set 0 {word} 7'), to_bytes(f'set 0 {index} 7'))
        self.assertEqual(to_bytes('set 0 s2s1s2 7'), to_bytes('set 0 5 7'))
        for index, w in list(enumerate(permutations(5)))[1:]:
            word = ''.join(f's{i}' for i in standard_word(tower(w)))
            self.assertEqual(to_bytes(f'set 0 {word} 7'), to_bytes(f'set 0 {index} 7'))

    def test_pairing_of_a_word_and_the_word_backwards(self):
        """Document 02, Ticket 2: T of s_1 s_2 paired with itself, and with T of s_2 s_1."""
        sheet = to_bytes('begin 2 2\nset 0 s1s2 1\nset 1 s2s1 1\npair 0 0\npair 0 1\nend')
        self.assertEqual(printed(sheet), 'H 2 2\nP 0\nP 4\nN 0\n')

    def test_trace_of_each_word(self):
        """Document 02, Ticket 4, by hand: with q = 3 and z = 5 the basis elements of rank 2 have 1, 5, 5, 25, 25 and 65."""
        sets = ''.join(f'set 0 {index} {10 ** k}\n' for k, index in enumerate(('0', 's1', 's2', 's1s2', 's2s1', 's1s2s1')))
        self.assertEqual(printed(to_bytes(f'begin 2 3\n{sets}trace 0 5\ntrace 0 -1\nend')),
                         f'H 2 3\nT 6775551\nT {1 - 110 + 11000 - 100000 + 2 ** 64}\nN 0\n')

    def test_bad_lines(self):
        for line, wrong in BAD_LINES:
            with self.subTest(line=line), self.assertRaises(ValueError) as caught:
                to_bytes(f'begin 1 3\n# a comment\n\n{line}\nnonsense\n')
            self.assertEqual(str(caught.exception), f'line 4: {wrong}')

    def test_the_range_is_not_judged(self):
        self.assertEqual(printed(to_bytes('begin 255 0\nend')), 'E 13 0\n')
        self.assertEqual(printed(to_bytes('unit 255')), 'E 12 0\n')
        self.assertEqual(printed(to_bytes('begin 2 3\nset 0 s3 1\nend')), 'E 13 10\n')


class ToText(unittest.TestCase):
    def test_every_command(self):
        text = ''.join(line + '\n' for line, _ in LINES)
        sheet = bytes.fromhex(''.join(sheet for _, sheet in LINES))
        self.assertEqual(to_text(sheet), f'{text}# {refusal(sheet)}\n')

    def test_example(self):
        self.assertEqual(to_text(EXAMPLE), 'begin 1 3\nunit 0\nletters 0 1 1\nshow 0\nend\n')

    def test_rows_of_letters(self):
        text = 'begin 2 3\nletters 0 1 2\nletter 1 2\nletters 0 2 1\nunit 0\nletter 0 1\nend\n'
        self.assertEqual(to_text(to_bytes(text)), text)

    def test_rows_of_both_kinds(self):
        """Every letter by itself too, in range or not: -0 is the inverse command of 0."""
        text = 'begin 2 3\nletters 0 1 -2 1 -2\ninverse 1 2\nletters 0 -2 -0 0\nunit 0\ninverse 0 1\nend\n'
        self.assertEqual(to_text(to_bytes(text)), f'{text}# {refusal(to_bytes(text))}\n')
        self.assertEqual(to_bytes('letters 0 -0x2 -0'), bytes([0x34, 0, 2, 0x34, 0, 0]))
        for code, i in ((code, i) for code in (0x30, 0x34) for i in range(256)):
            for row in (bytes([code, 1, i]), bytes([code, 1, i, 0x34, 1, 2])):
                self.assertEqual(to_bytes(to_text(row)), row)

    def test_damaged(self):
        for rest, why in (
                ('bytes 0x50 0x00 0x01 0x20 0x00', '10 at 12: unknown command: the byte is 0x50'),
                ('bytes 0x21 0x00', '11 at 12: operands cut off: "set R INDEX V" takes 12 bytes, and the sheet has 2 left'),
                ('end\nbytes 0x20 0x00', '14 at 13: a byte after the end command: the byte is 0x20'),
                ('begin 1 3\nunit 9\nend', '12 at 12: begin comes first, and once: "begin 1 3" stands later')):
            text = f'begin 2 3\nunit 0\n{rest}\n# refused with {why}\n'
            self.assertEqual(to_text(to_bytes(text)), text)

    def test_there_and_back(self):
        for sheet in cases():
            text = to_text(sheet)
            self.assertEqual(to_bytes(text), sheet)
            self.assertEqual(to_text(to_bytes(text)), text)


class InWords(unittest.TestCase):
    def test_refusals(self):
        for sheet, words in REFUSALS:
            sheet = bytes.fromhex(sheet)
            number, _, place = words.split(':')[0].split()
            self.assertEqual(refusal(sheet), f'refused with {words}')
            self.assertEqual(printed(sheet), f'E {number} {place}\n')

    def test_every_sheet_is_refused_or_counted(self):
        """Of those that pass, the ones of rank 0 to 2 are run."""
        ran = 0
        for sheet in cases():
            why = refusal(sheet)
            if why is not None:
                _, _, number, _, place, *_ = why.split()
                self.assertEqual(printed(sheet), f'E {number} {place.rstrip(":")}\n')
            elif sheet[1] < 3:
                self.assertEqual(int(summary(sheet).split()[-1]), run(sheet).count)
                ran += 1
        self.assertGreater(ran, 100)

    def test_summary(self):
        self.assertEqual(summary(EXAMPLE), 'passes its check: rank 1, q 3, commands 6, ring operations 6')
        sheet = to_bytes('begin 2 -1\nletters 0 1 -2 1\nproduct 0 0 0\nsum 1 0 0\nscale 1 5\nunit 3\nset 3 5 5\n'
                         'pair 0 1\nequal 0 1\nshow 0\ntrace 0 5\nend')
        self.assertEqual(summary(sheet), 'passes its check: rank 2, q 18446744073709551615, commands 14, '
                                         f'ring operations {3 * 9 + 118 + 6 + 6}')


class CommandLine(unittest.TestCase):
    def run_tool(self, *arguments, given=b''):
        done = subprocess.run([sys.executable, str(TOOL), *arguments], input=given, capture_output=True)
        return done.returncode, done.stdout, done.stderr

    def test_standard_input(self):
        text = b'begin 1 3\nunit 0\nletters 0 1 1\nshow 0\nend\n'
        self.assertEqual(self.run_tool('encode', given=text), (0, EXAMPLE, b''))
        self.assertEqual(self.run_tool('encode', given=b'\xef\xbb\xbf# \xff\r\n' + text), (0, EXAMPLE, b''))
        self.assertEqual(self.run_tool('decode', given=EXAMPLE), (0, text, b''))
        self.assertEqual(self.run_tool('decode', given=b'\xff')[0], 0)

    def test_file(self):
        example = str(TOOL.parents[1] / 'examples' / 'square.sheet')
        self.assertEqual(self.run_tool('explain', example), (0, summary(EXAMPLE).encode() + b'\n', b''))

    def test_explain_of_a_refused_sheet_fails(self):
        self.assertEqual(self.run_tool('explain', given=EXAMPLE[:-1]), (1, refusal(EXAMPLE[:-1]).encode() + b'\n', b''))

    def test_bad_line(self):
        wrong = b'line 2: expected "unit R", found "unit"\n'
        self.assertEqual(self.run_tool('encode', given=b'begin 1 3\nunit\n'), (1, b'', wrong))

    def test_bad_arguments(self):
        for arguments in ((), ('run',), ('encode', 'a', 'b'), ('decode', 'no such file')):
            status, out, error = self.run_tool(*arguments)
            self.assertEqual((status, out), (1, b''))
            self.assertNotEqual(error, b'')
            self.assertNotIn(b'Traceback', error)
