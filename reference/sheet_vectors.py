"""Sheets for the test program `sheet_vectors`, and what their runs leave."""
import random

from reference.algebra import WORD, size
from reference.sheet import BEGIN, MOST_BYTES, MOST_RANK, PRODUCT, SCALE, SET, SUM, call_run
from reference.sheet_cases import (END, EXAMPLE, PARAMETERS, aliased, braid, command, damaged, missing_inverses, random_sheet, sizes,
                                   there_and_back)

# random sheets of each rank: the reference takes a sixth of a second for a product of rank 5
RANDOM = 8, 8, 8, 8, 5, 3


def record(sheet):
    """The size in two bytes, lowest first, and the bytes."""
    return len(sheet).to_bytes(2, 'little') + sheet


def line(sheet):
    """A and the count, or E with the number, the place and the count 0; the register, index and value of each word but 0."""
    number, place, registers, count = call_run(sheet)
    fields = ['E', number, place, count] if number else ['A', count]
    for r, words in enumerate(registers):
        for index, value in enumerate(words):
            if value:
                fields += r, index, value
    return ' '.join(map(str, fields)) + '\n'


def dense(source, m, q):
    """A product of two registers with many words, a sum of it, a multiple, and a letter of each kind."""
    body = [command(SET, r, source.randrange(size(m)), source.randrange(WORD)) for _ in range(100) for r in (0, 1)]
    body += [command(PRODUCT, 2, 0, 1), command(SUM, 3, 2, 1), command(SCALE, 3, source.randrange(WORD)), braid(2, (m, -1))]
    return command(BEGIN, m, q) + b''.join(body) + END


def sheets():
    """Sheets of every rank; inverse letters at odd and even q; the example, cut and changed at each byte; begin left out and
    repeated; the sizes."""
    source = random.Random(0)
    yield EXAMPLE
    for m, number in enumerate(RANDOM):
        for q in source.sample(PARAMETERS, number):
            yield random_sheet(source, m, q, 20)
    for m in range(MOST_RANK + 1):
        yield from aliased(m, source.choice(PARAMETERS))
    for m in range(1, MOST_RANK + 1):
        yield dense(source, m, 3)
    for q in (2, 3):
        yield from missing_inverses(q)
    for m in range(1, MOST_RANK + 1):
        yield from (there_and_back(source, m, q) for q in (3, WORD - 1, WORD - 2))
    yield from damaged(source, EXAMPLE)
    yield from (END, EXAMPLE[:10] + EXAMPLE)
    yield from (sheet for sheet in sizes() if len(sheet) <= MOST_BYTES + 1)


def sheet_vectors():
    """Sheets, and the whole outcomes of their runs."""
    vectors = list(sheets())
    yield 'crates/sheet_vectors/stdin', b''.join(map(record, vectors))
    yield 'crates/sheet_vectors/stdout', ''.join(map(line, vectors)).encode()
