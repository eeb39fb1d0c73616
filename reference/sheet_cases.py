"""Sheets that a program is tried with: valid ones, damaged ones, cut ones and the edges. The same every time."""
import random

from reference.algebra import WORD, mirror, permutations, place, size
from reference.permutations import inverse
from reference.sheet import (BEGIN, EQUAL, INVERSE, LETTER, MOST_BYTES, MOST_RANK, OPERANDS, PAIR, PRODUCT, REGISTERS, SCALE, SET,
                             SHOW, SUM, TRACE, UNIT)

END = b'\0'
EXAMPLE = bytes.fromhex('10 01 03 00 00 00 00 00 00 00 20 00 30 00 01 30 00 01 40 00 00')
PARAMETERS = 0, 1, 2, 3, 10, 2 ** 32, 2 ** 63, WORD - 1
# products of a sheet by its rank: the reference takes a sixth of a second for one of rank 5
MOST_PRODUCTS = 9, 9, 9, 6, 3, 1


def command(code, *operands):
    return bytes([code]) + b''.join(x.to_bytes(width, 'little') for x, width in zip(operands, OPERANDS[code].values(), strict=True))


def word(source):
    """Small words, the largest, and any."""
    return source.choice([0, 1, source.randrange(10), WORD - 1, source.randrange(WORD), source.randrange(WORD)])


def random_command(source, m, codes):
    code = source.choice(codes)
    values = {'index': lambda: source.choice([0, size(m) - 1, source.randrange(size(m))]),
              'i': lambda: source.choice([1, m, source.randint(1, m)]),
              'v': lambda: word(source), 'z': lambda: word(source)}
    return command(code, *(values.get(name, lambda: source.randrange(REGISTERS))() for name in OPERANDS[code]))


def braid(r, word):
    """A row of commands 0x30 and 0x34: a word of signed letters on register r."""
    return b''.join(command(LETTER if i > 0 else INVERSE, r, abs(i)) for i in word)


def random_sheet(source, m, q, commands):
    """A valid sheet: some coefficients, any commands, and each register shown at the end."""
    body = [command(BEGIN, m, q)] + [random_command(source, m, [SET]) for _ in range(source.randrange(12))]
    codes = [UNIT, SET, PRODUCT, SUM, SCALE, SHOW, PAIR, EQUAL, TRACE] + [LETTER] * 3 * (m > 0) + [INVERSE] * 3 * (m > 0 and q % 2)
    products = 0
    for _ in range(commands):
        one = random_command(source, m, codes)
        products += one[0] == PRODUCT
        if one[0] != PRODUCT or products <= MOST_PRODUCTS[m]:
            body.append(one)
    return b''.join(body + [command(SHOW, r) for r in range(REGISTERS)]) + END


def valid(source):
    """Every rank with every parameter, and more."""
    for m in range(MOST_RANK + 1):
        for q in PARAMETERS:
            yield random_sheet(source, m, q, 20)
        for _ in range(40 if m < 4 else 12):
            yield random_sheet(source, m, word(source), source.randrange(40))


def aliased(m, q):
    """Product and sum with the destination, the factors or all of them in one register; all registers are shown."""
    start = b''.join([command(BEGIN, m, q), command(UNIT, 1), command(SET, 1, size(m) - 1, 7), command(UNIT, 2),
                      command(SET, 2, size(m) // 2, WORD - 3)])
    shows = b''.join(command(SHOW, r) for r in range(REGISTERS))
    for code in (PRODUCT, SUM):
        for d, a, b in ((0, 1, 2), (1, 1, 2), (2, 1, 2), (0, 1, 1), (1, 1, 1)):
            yield start + command(code, d, a, b) + shows + command(PAIR, a, b) + command(EQUAL, a, b) + command(EQUAL, d, d) + END


def paired(source, m, q):
    """Two registers with random words at some permutations and at the inverses of these: all pairings of the two, and that of their
    product with the unit, which is the first of them again."""
    some = source.choices(permutations(m), k=9)
    start = b''.join(command(SET, r, place(v), word(source)) for w in some for v in (w, inverse(w)) for r in (0, 1))
    pairs = b''.join(command(PAIR, a, b) for a in (0, 1) for b in (1, 0))
    return b''.join([command(BEGIN, m, q), start, pairs, command(PRODUCT, 2, 0, 1), command(UNIT, 3), command(PAIR, 2, 3), END])


def traced(source, m, q):
    """x and y have random words at some permutations of rank m - 1: for some z the traces of xy, of x T_m y, which is z times the
    first, and of another element of rank m. At rank 0 there is no letter, and the first two are equal."""
    both = b''.join(command(SET, r, source.randrange(size(max(m - 1, 0))), word(source)) for _ in range(9) for r in (0, 1))
    products = command(PRODUCT, 2, 0, 1) + braid(0, [m] * (m > 0)) + command(PRODUCT, 3, 0, 1)
    another = b''.join(command(SET, 0, source.randrange(size(m)), word(source)) for _ in range(9))
    traces = b''.join(command(TRACE, r, z) for z in (0, 1, WORD - 1, source.randrange(WORD)) for r in (2, 3, 0))
    return command(BEGIN, m, q) + both + products + another + traces + END


def bounds(m):
    """Each operand at and past its bounds, by rank."""
    start = command(BEGIN, m, 3)
    for index in (0, size(m) - 1, size(m), 65535):
        yield start + command(SET, 3, index, 5) + command(SHOW, 3) + END
    for code, i in ((code, i) for code in (LETTER, INVERSE) for i in (0, 1, m, m + 1, 255)):
        yield start + command(UNIT, 0) + command(code, 0, i) + command(SHOW, 0) + END
    for code, operands in ((UNIT, 1), (SHOW, 1), (PAIR, 2), (EQUAL, 2), (PRODUCT, 3), (SUM, 3)):
        for place in range(operands):
            for r in (3, 4, 255):
                yield start + command(code, *(r if k == place else 0 for k in range(operands))) + END
    for r in (3, 4, 255):
        yield start + command(SCALE, r, 2) + END
        yield start + command(TRACE, r, WORD - 1) + END
        yield start + command(SET, r, 0, 2) + END
        yield start + command(LETTER, r, m) + END
        yield start + command(INVERSE, r, m) + END


def there_and_back(source, m, q):
    """A word of signed letters on a register with some words, and its mirror word read backwards: home again, if q is odd. The
    register is shown after each, and compared with what it was."""
    start = b''.join(command(SET, 2, source.randrange(size(m)), word(source)) for _ in range(9)) + command(SUM, 1, 2, 3)
    letters = [source.choice((1, -1)) * source.randint(1, m) for _ in range(12)] + [-m]
    return b''.join([command(BEGIN, m, q), start, braid(1, letters), command(SHOW, 1), command(EQUAL, 1, 2),
                     braid(1, mirror(letters)), command(SHOW, 1), command(EQUAL, 1, 2), END])


def missing_inverses(q):
    """0x34 at rank 2 with a fault of its own, and with one before and after it: for even q 15 is given after 13 of the same
    command and before all that comes later. For odd q the other faults are left."""
    start, one, bad = command(BEGIN, 2, q) + command(UNIT, 0), command(INVERSE, 0, 1), command(UNIT, 4)
    for i in (0, 3, 255):
        yield start + command(INVERSE, 0, i) + END
    for r in (4, 255):
        yield start + command(INVERSE, r, 2) + one + END
    for kept in (1, 2):
        yield start + one[:kept]
        yield start + one + one[:kept]
    yield one + start + END
    for rest in (one, one + one, command(LETTER, 0, 1) + one, bad + one, one + bad, one + b'\xff', one + b'\x31\0', one + start):
        yield start + rest + END
    yield from (start + one, start + one + END + END, start + END + one)


def ranks():
    """The operand of begin at and past its bound."""
    for m in (0, MOST_RANK, MOST_RANK + 1, MOST_RANK + 2, 255):
        yield command(BEGIN, m, 3) + command(SHOW, 0) + END


def products_of_rank_5():
    """A sheet of nearly 4,096 bytes that multiplies and shows at rank 5: what the program spends its time on. Too slow for the reference."""
    source = random.Random(1)
    sheet = command(BEGIN, MOST_RANK, 3)
    for r in range(REGISTERS):
        for _ in range(20):
            sheet += command(SET, r, source.randrange(size(MOST_RANK)), source.randrange(WORD))
    while len(sheet) < MOST_BYTES - 6:
        sheet += command(PRODUCT, *(source.randrange(REGISTERS) for _ in range(3))) + command(SHOW, source.randrange(REGISTERS))
    return sheet + END


def damaged(source, sheet):
    """The sheet cut at each position, and each of its bytes changed."""
    for i in range(len(sheet)):
        yield sheet[:i]
        for x in {0, 255, sheet[i] ^ 1, (sheet[i] + 1) % 256, source.randrange(256)} - {sheet[i]}:
            yield sheet[:i] + bytes([x]) + sheet[i + 1:]


def every_command(m, q):
    """A short sheet with every command."""
    return b''.join([command(BEGIN, m, q), command(UNIT, 0), command(SET, 1, size(m) - 1, 258), command(LETTER, 0, m),
                     command(INVERSE, 0, 1), command(PRODUCT, 2, 0, 1),
                     command(SUM, 3, 2, 0), command(SCALE, 3, 513), command(SHOW, 3), command(PAIR, 2, 3), command(EQUAL, 0, 1),
                     command(TRACE, 3, 771)]) + END


def sizes():
    """4,096 and 4,097 bytes, more, and bytes after the end."""
    full = command(BEGIN, 2, 3) + command(UNIT, 0) + command(PAIR, 0, 0) * 1359 + command(SHOW, 0) * 3 + END
    shown = command(BEGIN, 3, 5) + b''.join(command(SET, 1, index, WORD - 1 - index) for index in range(size(3)))
    shown += command(SHOW, 1) * ((MOST_BYTES - len(shown) - 1) // 2) + END
    yield from (full, full + END, full + b'\x40', full + bytes(9000), full[:-1], shown, shown + bytes(5))
    for tail in (b'\0', b'\x20', b'\x20\0', b'\xff', bytes(20)):
        yield EXAMPLE + tail


def cases():
    """The sheets, but for those of one and two bytes."""
    source = random.Random(0)
    yield b''
    yield EXAMPLE
    yield from valid(source)
    yield from ranks()
    for m in range(MOST_RANK + 1):
        for q in (0, 3, WORD - 1):
            yield from aliased(m, q)
        yield from bounds(m)
    for q in PARAMETERS:
        yield from missing_inverses(q)
        yield from (there_and_back(source, m, q) for m in range(1, MOST_RANK + 1))
    yield from damaged(source, EXAMPLE)
    yield from damaged(source, every_command(2, 3))
    yield from sizes()
    for _ in range(200):
        yield bytes(source.choice([BEGIN, *OPERANDS, 0, 1, 2, 3]) for _ in range(source.randrange(40)))
        yield command(BEGIN, source.randrange(6), 2) + bytes(source.choice([*OPERANDS, 0, 1, 2]) for _ in range(source.randrange(60)))
    for q in PARAMETERS:
        yield from (paired(source, m, q) for m in range(MOST_RANK + 1))
    for q in PARAMETERS:
        yield from (traced(source, m, q) for m in range(MOST_RANK + 1))


def short():
    """All sheets of one byte, and all of two that begin with a command."""
    for i in range(256):
        yield bytes([i])
        for code in OPERANDS:
            yield bytes([code, i])
