"""Run sheets (document 01, "Run sheets", and document 02, Tickets 1, 2 and 4): bytes in, text out."""
from collections import namedtuple

from reference import algebra
from reference.refusals import Refused

MOST_BYTES = 4096
MOST_RANK = 5
REGISTERS = 4
REGISTER_WORDS = 720

END, BEGIN, UNIT, SET, LETTER, PRODUCT, SUM, SCALE, INVERSE, SHOW, PAIR, EQUAL, TRACE = (
    0x00, 0x10, 0x20, 0x21, 0x30, 0x31, 0x32, 0x33, 0x34, 0x40, 0x41, 0x42, 0x43)

# the operands of each command, by name, with their widths in bytes
OPERANDS = {
    END: {},
    BEGIN: {'m': 1, 'q': 8},
    UNIT: {'r': 1},
    SET: {'r': 1, 'index': 2, 'v': 8},
    LETTER: {'r': 1, 'i': 1},
    PRODUCT: {'d': 1, 'a': 1, 'b': 1},
    SUM: {'d': 1, 'a': 1, 'b': 1},
    SCALE: {'r': 1, 'v': 8},
    INVERSE: {'r': 1, 'i': 1},
    SHOW: {'r': 1},
    PAIR: {'a': 1, 'b': 1},
    EQUAL: {'a': 1, 'b': 1},
    TRACE: {'r': 1, 'z': 8},
}

Command = namedtuple('Command', 'code operands')
Run = namedtuple('Run', 'registers count lines')


def decode(sheet, at):
    """The command at an offset, and the offset after it; 10 unknown, 11 operands cut off."""
    code = sheet[at]
    if code not in OPERANDS:
        raise Refused(10, at)
    operands, next_at = {}, at + 1
    for name, width in OPERANDS[code].items():
        if next_at + width > len(sheet):
            raise Refused(11, at)
        operands[name] = int.from_bytes(sheet[next_at:next_at + width], 'little')
        next_at += width
    return Command(code, operands), next_at


def in_range(m, name, value):
    """Whether an operand of this name is in range in a sheet of rank m."""
    if name == 'm':
        return value <= MOST_RANK
    if name in ('r', 'd', 'a', 'b'):
        return value < REGISTERS
    if name == 'index':
        return value < algebra.size(m)
    if name == 'i':
        return 1 <= value <= m
    return True


def check(sheet):
    """The commands of a sheet that passes its whole check."""
    if not 1 <= len(sheet) <= MOST_BYTES:
        raise Refused(9)
    commands, at, m, q = [], 0, None, None
    while at < len(sheet):
        command, next_at = decode(sheet, at)
        if (command.code == BEGIN) != (at == 0):
            raise Refused(12, at)
        if command.code == BEGIN:
            m, q = command.operands['m'], command.operands['q']
        if not all(in_range(m, name, value) for name, value in command.operands.items()):
            raise Refused(13, at)
        if command.code == INVERSE and q % 2 == 0:
            raise Refused(15, at)
        commands.append(command)
        at = next_at
        if command.code == END:
            if at < len(sheet):
                raise Refused(14, at)
            return commands
    raise Refused(14, len(sheet))


def cost(m, code):
    """What a command counts in a sheet of rank m."""
    if code in (LETTER, INVERSE):
        return algebra.letter_count(m)
    if code == PRODUCT:
        return algebra.product_count(m, m)
    return algebra.size(m) if code in (SUM, SCALE) else 0


def run(sheet):
    """Checks the sheet whole, then obeys its commands: the registers, the count, and the lines that are printed."""
    commands = check(sheet)
    m, q = commands[0].operands['m'], commands[0].operands['q']
    registers = [[0] * algebra.size(m) for _ in range(REGISTERS)]
    lines = [f'H {m} {q}']
    for code, operands in commands[1:]:
        r, a, b, d = (operands.get(name) for name in 'rabd')
        if code == UNIT:
            registers[r] = algebra.unit(m)
        elif code == SET:
            registers[r][operands['index']] = operands['v']
        elif code == LETTER:
            registers[r] = algebra.times_generator(m, q, registers[r], operands['i'])
        elif code == INVERSE:
            registers[r] = algebra.times_inverse(m, q, registers[r], operands['i'])
        elif code == PRODUCT:
            registers[d] = algebra.product(m, q, registers[a], registers[b])
        elif code == SUM:
            registers[d] = algebra.add(registers[a], registers[b])
        elif code == SCALE:
            registers[r] = algebra.scale(operands['v'], registers[r])
        elif code == SHOW:
            lines.append(f'R {r}')
            lines += [f'{index} {x}' for index, x in enumerate(registers[r]) if x]
        elif code == PAIR:
            lines.append(f'P {algebra.pairing(m, q, registers[a], registers[b])}')
        elif code == EQUAL:
            lines.append(f'Q {int(registers[a] == registers[b])}')
        elif code == TRACE:
            lines.append(f'T {algebra.trace(m, q, operands["z"], registers[r])}')
    count = sum(cost(m, command.code) for command in commands)
    lines.append(f'N {count}')
    return Run([x + [0] * (REGISTER_WORDS - len(x)) for x in registers], count, lines)


def call_run(sheet):
    """The library's runner: the number and place of a refusal, 0 where there is none, the registers and the count."""
    try:
        done = run(sheet)
    except Refused as refused:
        return refused.number, refused.place, [[0] * REGISTER_WORDS] * REGISTERS, 0
    return 0, 0, done.registers, done.count


def printed(sheet):
    """What the program prints for a sheet."""
    try:
        lines = run(sheet).lines
    except Refused as refused:
        lines = [f'E {refused.number} {refused.place}']
    return ''.join(line + '\n' for line in lines)
