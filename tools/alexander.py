#!/usr/bin/env python3
"""The Alexander polynomial of a closed braid, from what the braid's sheet prints.

    tools/alexander.py PLAIN INVERSE [FILE]

PLAIN and INVERSE are the numbers of letters of each kind in the braid word, which acted on the unit. Of what was printed, the
first register shown counts; without FILE, standard input is read. With A for the Alexander polynomial, this prints A(q) up to
sign and powers of q, and the polynomial that has this value. The exit status is 1 where no register was shown, where a line is
not one that a sheet prints, where there are over 4,096 letters, where q is below 2 or too large for so many letters, and where
the last paragraph shows that the coefficients are not those of such a braid; else 0.

The reduced Burau matrix of a generator s_i is S: the unit matrix but for row i, with t, -t and 1 around the diagonal. It has
S S = (1 - t) S + t, so that -S at t = q is a matrix for T_i. The sum over w of w's coefficient times the matrices along w's
standard word is, up to the sign of an odd number of letters, the braid's matrix B; det(1 - B) is (1 + q + .. + q^m) A(q) up to
sign and powers of q.

All this is modulo 2^64. Times q for each inverse letter it is a polynomial in q with whole coefficients. The absolute values in
a row of S, and of each of its matrices of minors, add up to at most 2q + 1; so do those of its inverse, times q. So the
polynomial's value is at most 2^m (2q + 1)^letters, and where this is below 2^63 the word gives the value itself.

So the coefficients are not those of such a braid where the word gives more, or what 1 + q + .. + q^m does not divide. Nor are
they where the sum over w of w's coefficient times q^length(w) is not q^(PLAIN - INVERSE): q, as a matrix of one row, is one for
T_i too.
"""
import re
import sys
from math import prod
from pathlib import Path

sys.path.insert(0, str(Path(__file__).resolve().parent.parent))

from reference.algebra import MOST_LETTERS, WORD, permutations, size  # noqa: E402
from reference.permutations import length, standard_word, tower  # noqa: E402
from reference.sheet import MOST_RANK  # noqa: E402

NUMBER = '([0-9]{1,20})'


def numbers(kind, most, line):
    """The two numbers of a line of this kind, the first at most so large and the second a word."""
    found = re.fullmatch(f'{kind}{NUMBER} {NUMBER}', line)
    if found and int(found[1]) <= most and int(found[2]) < WORD:
        return int(found[1]), int(found[2])
    raise ValueError(f'expected "{kind}X Y", X from 0 to {most} and Y from 0 to {WORD - 1}, found "{line}"')


def shown(text):
    """The rank, q, and the coefficients of the first register shown, by their index."""
    head, *lines = text.splitlines() or ['']
    if head[:1] != 'H' or not any(line[:1] == 'R' for line in lines):
        raise ValueError('no register is shown')
    m, q = numbers('H ', MOST_RANK, head)
    element = {}
    for line in lines[next(at for at, line in enumerate(lines, 1) if line[:1] == 'R'):]:
        if line[:1] in ('P', 'Q', 'R', 'T', 'N'):
            return m, q, element
        index, coefficient = numbers('', size(m) - 1, line)
        element[index] = coefficient
    raise ValueError('the output is cut off: no line comes after the register')


# ---- square matrices modulo 2^64

def identity(m):
    return [[int(i == j) for j in range(m)] for i in range(m)]


def times(x, y):
    return [[sum(a * b for a, b in zip(row, column)) % WORD for column in zip(*y)] for row in x]


def combined(a, x, b, y):
    """a x + b y."""
    return [[(a * s + b * t) % WORD for s, t in zip(*rows)] for rows in zip(x, y)]


def determinant(x):
    if not x:
        return 1
    return sum((-1) ** length(w) * prod(row[p - 1] for row, p in zip(x, w)) for w in permutations(len(x) - 1)) % WORD


def image(m, q, i):
    """The matrix of T_i at rank m, which is -S."""
    s = identity(m)
    for column, entry in ((i - 1, q), (i, -q), (i + 1, 1)):
        if 1 <= column <= m:
            s[i - 1][column - 1] = entry
    return [[-x % WORD for x in row] for row in s]


def matrix(m, q, element):
    """The matrix of an element."""
    total = combined(0, identity(m), 0, identity(m))
    for index, value in element.items():
        one = identity(m)
        for i in standard_word(tower(permutations(m)[index])):
            one = times(one, image(m, q, i))
        total = combined(1, total, value, one)
    return total


# ---- the polynomial

def closure(m, q, element, letters):
    """det(1 - B) for the element of a braid with so many letters, modulo 2^64."""
    return determinant(combined(1, identity(m), -(-1) ** letters, matrix(m, q, element)))


def value(m, q, element, plain, inverse):
    """A(q) up to sign and powers of q: a whole number that is 0 or that q does not divide."""
    letters = plain + inverse
    if letters > MOST_LETTERS:
        raise ValueError(f'{letters} letters are more than {MOST_LETTERS}')
    most = 2 ** m * (2 * q + 1) ** letters
    if q < 2 or most >= WORD // 2:
        raise ValueError(f'q = {q} is below 2, or too large for {letters} letters of rank {m}')
    total = sum(coefficient * q ** length(permutations(m)[index]) for index, coefficient in element.items())
    word = closure(m, q, element, letters) * q ** inverse % WORD
    found = min(word, WORD - word)
    whole, rest = divmod(found, sum(q ** k for k in range(m + 1)))
    if (total * q ** inverse - q ** plain) % WORD or found > most or rest:
        raise ValueError(f'the coefficients are not those of a braid with {plain} plain and {inverse} inverse letters')
    while whole and whole % q == 0:
        whole //= q
    return whole


def digits(q, whole):
    """The digits of a number in base q, the lowest first, each from -(q - 1) / 2 to q / 2."""
    while whole:
        digit = (whole + (q - 1) // 2) % q - (q - 1) // 2
        yield digit
        whole = (whole - digit) // q


def polynomial(coefficients):
    """A polynomial in t as it is written, from its coefficients, the constant one first."""
    text = ''
    for k, c in reversed(list(enumerate(coefficients))):
        power = ' '.join([str(abs(c))] * (abs(c) != 1 or k == 0) + ['t' if k == 1 else f't^{k}'] * (k > 0))
        if c:
            text += f' {"-" if c < 0 else "+"} {power}' if text else '-' * (c < 0) + power
    return text or '0'


def described(text, plain, inverse):
    """A(q) up to sign and powers of q, and the polynomial itself if q is large enough."""
    m, q, element = shown(text)
    whole = value(m, q, element, plain, inverse)
    read = polynomial(list(digits(q, whole)))
    return (f'value at t = {q}, up to sign and powers of {q}: {whole}\n'
            f'polynomial, if each coefficient is from {-((q - 1) // 2)} to {q // 2}: {read}\n')


def main(arguments):
    if len(arguments) not in (2, 3) or not all(re.fullmatch(NUMBER, number) for number in arguments[:2]):
        sys.exit(__doc__)
    try:
        text = Path(arguments[2]).read_text() if arguments[2:] else sys.stdin.read()
        sys.stdout.write(described(text, *map(int, arguments[:2])))
    except (OSError, ValueError) as wrong:
        sys.exit(str(wrong))


if __name__ == '__main__':
    main(sys.argv[1:])
