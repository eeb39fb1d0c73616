#!/usr/bin/env python3
"""A run sheet as text: text to bytes, bytes to text, and in words what a sheet will count or why it is refused.

    tools/sheet_text.py encode [FILE]     text to bytes
    tools/sheet_text.py decode [FILE]     bytes to text
    tools/sheet_text.py explain [FILE]    whether a sheet, in bytes, passes its check

Without FILE, standard input is read. The exit status is 1 for a text that cannot be encoded, for an explained sheet that is
refused, and for a FILE that cannot be read; else 0. A refused sheet is decoded too: a comment at the end says why.

The text has one command a line. Blank lines, and what follows a #, mean nothing.

    begin M Q    unit R    set R INDEX V    letter R I    inverse R I    product D A B    sum D A B    scale R V
    show R    pair A B    equal A B    trace R Z    end
    letters R I I ..       a row of letter commands, and of inverse commands for -I: how a braid word is written
    bytes BYTE BYTE ..     bytes as they are: how decode writes what is no command

Numbers are decimal, or hexadecimal after 0x. Q, V and Z may be negative, down to -2^63: -1 is 2^64 - 1. INDEX may be a shortest
word such as s1s2. What fits an operand's bytes is encoded whether it is in range or not, so that damaged sheets can be written.
"""
import re
import sys
from itertools import groupby
from pathlib import Path

sys.path.insert(0, str(Path(__file__).resolve().parent.parent))

from reference.algebra import place, size  # noqa: E402
from reference.permutations import length, of_word  # noqa: E402
from reference.refusals import Refused  # noqa: E402
from reference.sheet import (BEGIN, END, EQUAL, INVERSE, LETTER, MOST_BYTES, MOST_RANK, OPERANDS, PAIR, PRODUCT,  # noqa: E402
                             REGISTERS, SCALE, SET, SHOW, SUM, TRACE, UNIT, check, cost, decode, in_range)
from reference.sheet_cases import command  # noqa: E402

CODES = {'begin': BEGIN, 'unit': UNIT, 'set': SET, 'letter': LETTER, 'inverse': INVERSE, 'product': PRODUCT, 'sum': SUM,
         'scale': SCALE, 'show': SHOW, 'pair': PAIR, 'equal': EQUAL, 'trace': TRACE, 'end': END}
NAMES = {code: name for name, code in CODES.items()}
FORMS = {name: ' '.join([name, *map(str.upper, OPERANDS[code])]) for name, code in CODES.items()}
FORMS |= {'letters': 'letters R I I ..', 'bytes': 'bytes BYTE BYTE ..'}

NUMBER = re.compile(r'-?(?:0x[0-9a-fA-F]{1,99}|[0-9]{1,99})')
GENERATORS = re.compile(f'(?:s[1-{MOST_RANK}])+')


# ---- text to bytes

def index_of(text):
    """The place of a shortest word, the same at every rank that has its letters; None for any other text."""
    if not GENERATORS.fullmatch(text):
        return None
    letters = [int(i) for i in text[1:].split('s')]
    w = of_word(max(letters), letters)
    return place(w) if length(w) == len(letters) else None


def operand(name, width, text):
    """The number that a text stands for as an operand of this name and of so many bytes."""
    least, most, words = -2 ** 63 if width == 8 else 0, 256 ** width - 1, ''
    if NUMBER.fullmatch(text):
        value = int(text, 16 if 'x' in text else 10)
        if least <= value <= most:
            return value % 256 ** width
    if name == 'index':
        words = ' or a shortest word such as s1s2'
        if (index := index_of(text)) is not None:
            return index
    raise ValueError(f'{name.upper()}: expected a number from {least} to {most}{words}, found "{text}"')


def crossing(r, text):
    """The command of one letter of a row: inverse for a letter with the sign -, else letter."""
    try:
        return line_bytes('inverse', r, text[1:]) if text[0] == '-' else line_bytes('letter', r, text)
    except ValueError:
        operand('r', 1, r)
        raise ValueError(f'I: expected a number from -255 to 255, found "{text}"') from None


def hint(r, text):
    """What to write in the place of a letter command that is refused, if the letter is a number with the sign -."""
    if text[0] != '-':
        return ''
    try:
        crossing(r, text)
    except ValueError:
        return ''
    return f'; write "inverse {r} {text[1:]}" or "letters {r} {text}"'


def line_bytes(name, *texts):
    """The bytes of one line."""
    if name == 'letters' and len(texts) > 1:
        return b''.join(crossing(texts[0], i) for i in texts[1:])
    if name == 'bytes' and texts:
        return bytes(operand('byte', 1, text) for text in texts)
    if name not in FORMS:
        raise ValueError(f'expected one of {", ".join(FORMS)}, found "{name}"')
    if name not in CODES or len(texts) != len(OPERANDS[CODES[name]]):
        raise ValueError(f'expected "{FORMS[name]}", found "{" ".join([name, *texts])}"')
    code = CODES[name]
    try:
        return command(code, *(operand(*of, text) for of, text in zip(OPERANDS[code].items(), texts)))
    except ValueError as wrong:
        raise ValueError(f'{wrong}{hint(*texts) if code == LETTER else ""}') from None


def to_bytes(text):
    """The sheet that a text describes. A ValueError names the first bad line and what was expected there."""
    sheet = []
    for number, line in enumerate(text.split('\n'), 1):
        fields = line.split('#')[0].split()
        try:
            sheet.append(line_bytes(*fields) if fields else b'')
        except ValueError as wrong:
            raise ValueError(f'line {number}: {wrong}') from None
    return b''.join(sheet)


# ---- bytes to text

def line_of(one):
    """The line of one command."""
    return ' '.join(map(str, [NAMES[one.code], *one.operands.values()]))


def stand(sheet):
    """The commands from the start of a sheet to its first end command or to what is no command, and the offset after them."""
    commands, at = [], 0
    while at < len(sheet) and not (commands and commands[-1].code == END):
        try:
            one, at = decode(sheet, at)
        except Refused:
            break
        commands.append(one)
    return commands, at


def to_text(sheet):
    """The text of a sheet, from which `to_bytes` makes the same bytes again, whatever they are."""
    commands, at = stand(sheet)
    lines = []
    for r, group in groupby(commands, lambda one: one.operands['r'] if one.code in (LETTER, INVERSE) else None):
        row = list(group)
        if r is None or len(row) == 1:
            lines += map(line_of, row)
        else:
            signed = [f'{"-" if one.code == INVERSE else ""}{one.operands["i"]}' for one in row]
            lines.append(' '.join(['letters', str(r), *signed]))
    if at < len(sheet):
        lines.append(' '.join(['bytes', *(f'{x:#04x}' for x in sheet[at:])]))
    why = refusal(sheet)
    return ''.join(line + '\n' for line in lines + (['# ' + why] if why else []))


# ---- in words

def bounds(m, name):
    """What an operand of this name is, and which are in range in a sheet of rank m."""
    if name == 'm':
        return 'rank', f'ranks are 0 to {MOST_RANK}'
    if name == 'index':
        return 'index', f'rank {m} has indexes 0 to {size(m) - 1}'
    if name == 'i':
        return 'generator', f'rank {m} has generators 1 to {m}' if m else 'rank 0 has no generators'
    return 'register', f'registers are 0 to {REGISTERS - 1}'


def meaning(sheet, number, at):
    """What a refusal of the sheet with this number and place means, and what stands at the place."""
    if number == 9:
        return f'the sheet has {len(sheet)} bytes, and a sheet has 1 to {MOST_BYTES}'
    if number == 14 and at == len(sheet):
        return 'no end command: the sheet stops without one'
    code = sheet[at]
    if number == 14:
        return f'a byte after the end command: the byte is {code:#04x}'
    if number == 10:
        return f'unknown command: the byte is {code:#04x}'
    if number == 11:
        width = 1 + sum(OPERANDS[code].values())
        return f'operands cut off: "{FORMS[NAMES[code]]}" takes {width} bytes, and the sheet has {len(sheet) - at} left'
    one, _ = decode(sheet, at)
    if number == 12:
        return f'begin comes first, and once: "{line_of(one)}" ' + ('stands later' if at else 'comes first')
    m = sheet[1]
    if number == 15:
        q = int.from_bytes(sheet[2:10], 'little')
        return f'no inverse: "{line_of(one)}" needs an inverse of q, and q is {q}, which is even'
    name, value = next((name, value) for name, value in one.operands.items() if not in_range(m, name, value))
    kind, allowed = bounds(m, name)
    return f'operand out of range: "{line_of(one)}" has the {kind} {value}, and {allowed}'


def refusal(sheet):
    """Why a sheet is refused; None for one that passes its check."""
    try:
        check(sheet)
    except Refused as refused:
        return f'refused with {refused.number} at {refused.place}: {meaning(sheet, refused.number, refused.place)}'


def summary(sheet):
    """What a sheet that passes its check is, and what it will count."""
    commands = check(sheet)
    m, q = commands[0].operands.values()
    count = sum(cost(m, one.code) for one in commands)
    return f'passes its check: rank {m}, q {q}, commands {len(commands)}, ring operations {count}'


def main(arguments):
    if len(arguments) not in (1, 2) or arguments[0] not in ('encode', 'decode', 'explain'):
        sys.exit(__doc__)
    try:
        given = Path(arguments[1]).read_bytes() if arguments[1:] else sys.stdin.buffer.read()
        if arguments[0] == 'encode':
            sys.stdout.buffer.write(to_bytes(given.decode('utf-8-sig', 'replace')))
            return 0
    except (OSError, ValueError) as wrong:
        sys.exit(str(wrong))
    if arguments[0] == 'decode':
        sys.stdout.write(to_text(given))
        return 0
    why = refusal(given)
    print(why or summary(given))
    return 1 if why else 0


if __name__ == '__main__':
    sys.exit(main(sys.argv[1:]))
