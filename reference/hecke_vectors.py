"""Calls on elements for the test program `hecke_vectors`, and their whole outcomes.

A vector is a call, a rank, the word q or c, two lists of words, a word of letters, and the sizes of the lent result and
scratch. A letter is a byte; a signed one is below 0 as 256 less. The second list of a trace is the word z.
"""
import random
from itertools import product as every

from reference import algebra
from reference.algebra import MOST_LETTERS, WORD, basis, size
from reference.permutations import inverse, of_word, standard_word
from reference.refusals import Refused

SUM, SCALE, ACT_WORD, PRODUCT, ACT_SIGNED_WORD, PAIRING, TRACE = range(1, 8)
LENT = 170  # each word of the result and the scratch before the call
SHOWN = 120  # the most words that are written in full
DIGEST_BASE = 0x5851F42D4C957F2D
QS = 0, 1, 2, 3, WORD - 1
ZS = 0, 1, 5, WORD - 1


def record(call, m, q, left, right, word, room, scratch):
    def number(n, width):
        return n.to_bytes(width, 'little')

    def words(a):
        return number(len(a), 2) + b''.join(number(x, 8) for x in a)

    return (bytes([call, m]) + number(q, 8) + words(left) + words(right) + number(len(word), 2)
            + bytes(letter % 256 for letter in word)
            + number(room, 2) + number(scratch, 2))


def digest(words):
    """The words as digits of a number modulo 2^64, the first the highest."""
    total = 0
    for x in words:
        total = (total * DIGEST_BASE + x) % WORD
    return total


def line(call, m, q, left, right, word, room, scratch):
    """A and the count, the pairing or the trace, or E with the number, the place and 0; the slice that the call writes; the scratch's
    digest."""
    left, result, scratch = list(left), [LENT] * room, [LENT] * scratch
    calls = {SUM: lambda: algebra.call_sum(m, left, right, result), SCALE: lambda: algebra.call_scale(m, q, left, result),
             ACT_WORD: lambda: algebra.call_act(m, q, left, word),
             ACT_SIGNED_WORD: lambda: algebra.call_act_signed(m, q, left, word),
             PRODUCT: lambda: algebra.call_product(m, q, left, right, result, scratch),
             PAIRING: lambda: algebra.call_pairing(m, q, left, right),
             TRACE: lambda: algebra.call_trace(m, q, right[0], left, scratch)}
    try:
        fields = ['A', calls[call]()]
    except Refused as refusal:
        fields = ['E', refusal.number, refusal.place, 0]
    written = left if call in (ACT_WORD, ACT_SIGNED_WORD) else result
    fields += written if len(written) <= SHOWN else [digest(written)]
    if call in (PRODUCT, TRACE):
        fields.append(digest(scratch))
    return ' '.join(map(str, fields)) + '\n'


# ---- calls with slices that fit, or have some words more

def on_sum(m, h, g, more=0):
    return SUM, m, 0, h, g, [], max(0, len(h) + more), 0


def on_scale(m, c, h, more=0):
    return SCALE, m, c, h, [], [], max(0, len(h) + more), 0


def on_word(m, q, h, word):
    return ACT_WORD, m, q, h, [], word, 0, 0


def on_signed_word(m, q, h, word):
    return ACT_SIGNED_WORD, m, q, h, [], word, 0, 0


def on_product(m, q, h, g, more=0, scratch=0):
    return PRODUCT, m, q, h, g, [], max(0, len(h) + more), (m + 6) * len(h) + scratch


def on_pairing(m, q, h, g):
    return PAIRING, m, q, h, g, [], 0, 0


def on_trace(m, q, z, h, scratch=0):
    return TRACE, m, q, h, [z], [], 0, max(0, (m + 6) * len(h) + scratch)


def on_all(m, q, h, g, word):
    """Each call but that of signed words, the pairing and the trace."""
    yield on_sum(m, h, g)
    yield on_scale(m, q, h)
    yield on_word(m, q, h, word)
    yield on_product(m, q, h, g, scratch=3)


# ---- the cases

def worked_cases():
    """Document 01's squares: T of s_2 s_1 at rank 2, and T_1 at rank 1 with q = 0 and q = 1.

    The examples in the comments of `hecke`, of which the word is also that of document 01's example sheet.
    """
    cycle = basis(of_word(2, [2, 1]))
    yield on_product(2, 2, cycle, cycle)
    for q in (0, 1):
        yield on_product(1, q, [0, 1], [0, 1])
    yield on_sum(1, [2, 3], [4, 5])
    yield on_scale(1, 3, [2, 3])
    yield on_word(1, 3, [1, 0], [1, 1])
    yield on_product(1, 3, [0, 1], [0, 1])


def random_element(source, m):
    """Words of all sizes."""
    return [source.randrange(2 ** source.choice((2, 8, 64))) for _ in range(size(m))]


def random_word(source, m, most):
    return [source.randrange(1, m + 1) for _ in range(source.randrange(most + 1))] if m else []


def random_calls(source):
    """Every call at ranks 0 to 4 with each of the q, and with random ones."""
    for m in range(5):
        for q in (*QS, *(source.randrange(WORD) for _ in range(3))):
            yield from on_all(m, q, random_element(source, m), random_element(source, m), random_word(source, m, 12))


def large_calls(source):
    """Every call at ranks 5 and 6."""
    for m in (5, 6):
        word = list(range(1, m + 1)) * 3
        yield from on_all(m, source.randrange(WORD), random_element(source, m), random_element(source, m), word)


def ranks(source):
    """Ranks above 6, whatever the slices are."""
    h = random_element(source, 1)
    for m in (7, 8, 64, 255):
        yield from on_all(m, 3, [], [], [])
        yield from on_all(m, 3, h, h, [0])
    yield PRODUCT, 7, 3, h * 2520, h * 2520, [], 5040, 60480


def sizes(source):
    """The first list, the second and the result, one at a time: one word short, one word longer and empty.

    At rank 6 only a scaling's result, one word short and one word longer. The scratch one word short, exact, one word and
    20 words longer, and empty.
    """
    for m in (0, 1, 3):
        h = random_element(source, m)
        for other in (h[:-1], h + [1], []):
            yield SUM, m, 0, other, h, [], len(h), 0
            yield SUM, m, 0, h, other, [], len(h), 0
            yield SUM, m, 0, h, h, [], len(other), 0
            yield SCALE, m, 3, other, [], [], len(h), 0
            yield SCALE, m, 3, h, [], [], len(other), 0
            yield on_word(m, 3, other, [])
            yield PRODUCT, m, 3, other, h, [], len(h), (m + 6) * len(h)
            yield PRODUCT, m, 3, h, other, [], len(h), (m + 6) * len(h)
            yield PRODUCT, m, 3, h, h, [], len(other), (m + 6) * len(h)
    for more in (-1, 1):
        yield on_scale(6, 3, random_element(source, 6), more=more)
    for m in (0, 1, 3):
        h, g = random_element(source, m), random_element(source, m)
        for scratch in (-1, 0, 1, 20, -(m + 6) * size(m)):
            yield on_product(m, 3, h, g, scratch=scratch)


def shortest_words(source):
    """The empty word at ranks 0 to 4; from rank 1 also the reversal's standard word, and that with one letter more.

    The standard word is shortest. No permutation is longer than the reversal, so the other word is not shortest.
    """
    for m in range(5):
        h, reversal = random_element(source, m), standard_word(range(1, m + 1))
        for word in ([], reversal, reversal + [1]) if m else ([],):
            yield on_word(m, source.randrange(WORD), h, word)


def words(source):
    """Letters 0, m + 1 and 255 as words of one letter; from rank 1 also at the first, a middle and the last of six indexes.

    Words with two bad letters. At rank 6 the letters 6 and 7. Words of 4,096 letters, good and with a bad last letter, and of
    4,097 letters.
    """
    yield on_word(6, 3, random_element(source, 6), [6, 7])
    for m in (0, 1, 3):
        h = random_element(source, m)
        for letter in (0, m + 1, 255):
            yield on_word(m, 3, h, [letter])
        if m:
            good = [1 + i % m for i in range(6)]
            for index in (0, 2, 5):
                for letter in (0, m + 1, 255):
                    yield on_word(m, 3, h, good[:index] + [letter] + good[index + 1:])
            for first, second in ((m + 1, 0), (0, m + 1), (255, 0)):
                yield on_word(m, 3, h, good[:2] + [first, 1, second])
    h = random_element(source, 2)
    most = [1 + i % 2 for i in range(MOST_LETTERS)]
    for word in (most, most[:-1] + [0], most + [1], most + [0], [0] + most):
        yield on_word(2, 3, h, word)


def order_of_checks(source):
    """Two faults or more: the rank before a size, a size before the scratch and before the word."""
    h = random_element(source, 2)
    yield PRODUCT, 2, 3, h[:-1], h, [], 6, 0
    yield PRODUCT, 2, 3, h, h[:-1], [], 6, 0
    yield PRODUCT, 2, 3, h, h, [], 5, 0
    yield PRODUCT, 7, 3, h, h[:-1], [], 5, 0
    yield on_word(2, 3, h[:-1], [0])
    yield on_word(2, 3, h[:-1], [1] * (MOST_LETTERS + 1))
    yield on_word(7, 3, h, [0] * (MOST_LETTERS + 1))


# ---- words of signed letters

def signed_worked_cases():
    """Both ways at rank 1 with q = 3, the example in the comment of `hecke`; the inverse of T_1 at q = 1, 2^64 - 1 and 0."""
    for word in ([-1], [1, 1, -1], [-1, 1], [1, 1]):
        yield on_signed_word(1, 3, [1, 0], word)
    for q in (1, WORD - 1, 0):
        yield on_signed_word(1, q, [2, 3], [-1])


def both_ways(source, word):
    """The word with signs by chance."""
    return [source.choice((1, -1)) * i for i in word]


def signed_words(source):
    """At ranks 0 to 4 and at odd and even q: the empty word; from rank 1 each letter by itself, both ways, and words with
    letters above 0 alone, below 0 alone and both ways. Even q is refused for each of these that has a letter below 0."""
    for m in range(5):
        h = random_element(source, m)
        for q in (*QS, source.randrange(0, WORD, 2), source.randrange(1, WORD, 2)):
            word = [source.randint(1, m) for _ in range(9)] if m else []
            letters = [[sign * i] for i in range(1, m + 1) for sign in (1, -1)]
            for signed in (*letters, word, [-i for i in word], both_ways(source, word)) if m else ([],):
                yield on_signed_word(m, q, h, signed)
        yield on_signed_word(m, 3, h, [])
        yield on_signed_word(m, 2, h, [])


def mirrors(source):
    """A word and then its mirror word read backwards, at ranks 1 to 4: in one call, and the second of two calls."""
    for m in range(1, 5):
        for q in (1, 3, WORD - 1, source.randrange(1, WORD, 2)):
            h, word = random_element(source, m), both_ways(source, [source.randint(1, m) for _ in range(7)])
            yield on_signed_word(m, q, h, word + algebra.mirror(word))
            yield on_signed_word(m, q, algebra.act(m, q, h, word), algebra.mirror(word))


def large_signed_words(source):
    """At ranks 5 and 6 a word of each letter both ways, the mirror word that brings its result home, a word that even q has no
    inverse for, and the letters m + 1 and -(m + 1)."""
    for m in (5, 6):
        h, q = random_element(source, m), source.randrange(1, WORD, 2)
        word = both_ways(source, range(1, m + 1)) + list(range(-m, 0))
        yield on_signed_word(m, q, h, word)
        yield on_signed_word(m, q, algebra.act(m, q, h, word), algebra.mirror(word))
        yield on_signed_word(m, q - 1, h, [m, -m])
        yield on_signed_word(m, q, h, [-m, m + 1])
        yield on_signed_word(m, q, h, [m, -(m + 1)])


def signed_refusals(source):
    """Letters 0, m + 1, -(m + 1), 127, -127 and -128 as words of one letter; from rank 1 also at the first, a middle and the
    last of six indexes, after letters below 0 at an odd and an even q: 4 comes before 15, wherever the letters are.

    Letters below 0 at even q, at each of six indexes and at two.
    """
    for m in (0, 1, 3):
        h = random_element(source, m)
        outside = 0, m + 1, -(m + 1), 127, -127, -128
        for q, letter in ((q, letter) for q in (3, 2) for letter in outside):
            yield on_signed_word(m, q, h, [letter])
        if m:
            plain = [1 + i % m for i in range(6)]
            good = [-m, *both_ways(source, plain[1:])]
            for q, index, letter in ((q, index, letter) for q in (3, 2) for index in (0, 2, 5) for letter in outside):
                yield on_signed_word(m, q, h, good[:index] + [letter] + good[index + 1:])
            for index in range(6):
                yield on_signed_word(m, 2, h, plain[:index] + [-m] + plain[index + 1:])
            yield on_signed_word(m, 2 ** 63, h, plain[:2] + [-1, 1, -m])
            yield on_signed_word(m, 2, h, plain[:2] + [0, 1, -128, -m])


def long_signed_words(source):
    """4,096 letters, good and with a bad or a negative last letter; 4,097 letters, at an odd and an even q."""
    h = random_element(source, 2)
    most = [1 + i % 2 for i in range(MOST_LETTERS)]
    mixed = both_ways(source, most)
    for q in (3, 2):
        for word in (most, mixed, most[:-1] + [-2], most[:-1] + [0], most[:-1] + [-3], most + [1], mixed + [-1], [0] + most):
            yield on_signed_word(2, q, h, word)


def order_of_signed_checks(source):
    """1 before 2, 2 before 4, 4 before 15: each with all the later faults too."""
    h = random_element(source, 2)
    for q in (3, 2):
        for m in (7, 8, 64, 255):
            yield on_signed_word(m, q, h[:-1], [-1, 0])
        for other in (h[:-1], h + [1], []):
            yield on_signed_word(2, q, other, [])
            yield on_signed_word(2, q, other, [-1, 0])
            yield on_signed_word(2, q, other, [-1] * (MOST_LETTERS + 1))
        yield on_signed_word(2, q, h, [-1] * (MOST_LETTERS + 1))
        yield on_signed_word(2, q, h, [-1, -2, 0])
        yield on_signed_word(2, q, h, [1, 2, -2, -1])
    yield on_signed_word(7, 2, h * 840, [-1])


# ---- the pairing

def worked_pairings():
    """Document 02's two cases, of T of s_1 s_2 at rank 2 with q = 2; the example in the comment of `pairings`."""
    h, g = basis(of_word(2, [1, 2])), basis(of_word(2, [2, 1]))
    yield on_pairing(2, 2, h, h)
    yield on_pairing(2, 2, h, g)
    yield on_pairing(1, 3, [0, 1], [0, 1])


def basis_pairings():
    """Each two T_w of ranks 0 to 2; of rank 3 each T_w with T of its inverse, and with itself."""
    for m in range(3):
        for u, v in every(algebra.permutations(m), repeat=2):
            yield on_pairing(m, 3, basis(u), basis(v))
    for w in algebra.permutations(3):
        yield on_pairing(3, 3, basis(w), basis(inverse(w)))
        yield on_pairing(3, 3, basis(w), basis(w))


def random_pairings(source):
    """At ranks 0 to 4 with each of the q, an even one and two others; at ranks 5 and 6 with an odd and an even one."""
    for m in range(5):
        for q in (*QS, source.randrange(0, WORD, 2), source.randrange(WORD), source.randrange(WORD)):
            yield on_pairing(m, q, random_element(source, m), random_element(source, m))
    for m in (5, 6):
        for q in (source.randrange(1, WORD, 2), source.randrange(0, WORD, 2)):
            yield on_pairing(m, q, random_element(source, m), random_element(source, m))


def refused_pairings(source):
    """Either list, and both, one word short, one word longer and empty; at rank 6 the first one word short, and the second one word
    longer. Ranks above 6, whatever the lists are: 1 comes before 2."""
    for m in (0, 1, 3):
        h = random_element(source, m)
        lists = h, h[:-1], h + [1], []
        yield from (on_pairing(m, 3, *two) for two in every(lists, repeat=2) if two != (h, h))
    h = random_element(source, 6)
    yield on_pairing(6, 3, h[:-1], h)
    yield on_pairing(6, 3, h, h + [1])
    h = random_element(source, 1)
    for m in (7, 8, 64, 255):
        yield from (on_pairing(m, 3, *two) for two in every(([], h), repeat=2))


# ---- the trace

def worked_traces():
    """Rank 1 at two q, by the rule a + z b; all of rank 2 in one number; the example in the comment of `traces`; the trefoil on two strands
    and on three."""
    for q in (3, 2):
        yield on_trace(1, q, 5, [4, 7])
    yield on_trace(2, 3, 5, [10 ** k for k in range(6)])
    yield on_trace(1, 3, 5, [2, 3])
    for m, word in ((1, [1, 1, 1]), (2, [1, 1, 1, 2])):
        yield on_trace(m, 3, 5, algebra.act(m, 3, algebra.unit(m), word))


def basis_traces():
    """Each T_w of ranks 0 to 3."""
    for m in range(4):
        for w in algebra.permutations(m):
            yield on_trace(m, 3, 5, basis(w))


def random_traces(source):
    """At ranks 0 to 4 with each of the q, an even one and two others, and with some z; at ranks 5 and 6 with an odd and an even q."""
    for m in range(5):
        for q in (*QS, source.randrange(0, WORD, 2), source.randrange(WORD), source.randrange(WORD)):
            for z in (source.choice(ZS), source.randrange(WORD)):
                yield on_trace(m, q, z, random_element(source, m), scratch=3)
    for m in (5, 6):
        for q in (source.randrange(1, WORD, 2), source.randrange(0, WORD, 2)):
            yield on_trace(m, q, source.randrange(WORD), random_element(source, m))


def edge_traces(source):
    """Each of the z at ranks 0 to 4; every word 2^64 - 1, with q and z so too."""
    for m in range(5):
        h = random_element(source, m)
        yield from (on_trace(m, 3, z, h) for z in ZS)
        yield on_trace(m, WORD - 1, WORD - 1, [WORD - 1] * size(m))


def added_strands(source):
    """x T_m y for x and y of rank m - 1, and xy at rank m and one rank below: the first trace is z times the other two."""
    for m in range(1, 5):
        x, y = random_element(source, m - 1), random_element(source, m - 1)
        above = [h + [0] * (size(m) - len(h)) for h in (x, y)]
        for q, z in ((3, 5), (source.randrange(WORD), source.randrange(WORD))):
            crossed = algebra.product(m, q, algebra.times_generator(m, q, above[0], m), above[1])
            yield on_trace(m, q, z, crossed)
            yield on_trace(m, q, z, algebra.product(m, q, *above))
            yield on_trace(m - 1, q, z, algebra.product(m - 1, q, x, y))


def refused_traces(source):
    """The element one word short, one word longer and empty, at rank 6 one word short. The scratch one word short, exact, one word and 20
    words longer, and empty. Ranks above 6, whatever the slices are. 1 before 2 and 3, and 2 before 3."""
    for m in (0, 1, 3):
        h = random_element(source, m)
        for other in (h[:-1], h + [1], []):
            for scratch in ((m + 6) * len(h), 0):
                yield TRACE, m, 3, other, [5], [], 0, scratch
        for scratch in (-1, 0, 1, 20, -(m + 6) * len(h)):
            yield on_trace(m, 3, 5, h, scratch=scratch)
    h = random_element(source, 6)
    yield TRACE, 6, 3, h[:-1], [5], [], 0, 60480
    yield on_trace(6, 3, 5, h, scratch=-1)
    for m in (7, 8, 64, 255):
        for words, scratch in (([], 0), (h[:2], 14), (h[:2], 0)):
            yield TRACE, m, 3, words, [5], [], 0, scratch
    yield TRACE, 7, 3, h, [5], [], 0, 60480


def hecke_vectors():
    """Calls of the seven functions on elements, and their whole outcomes."""
    source = random.Random(0)
    vectors = [*worked_cases(), *random_calls(source), *large_calls(source), *ranks(source), *sizes(source),
               *shortest_words(source), *words(source), *order_of_checks(source), *signed_worked_cases(), *signed_words(source),
               *mirrors(source), *large_signed_words(source), *signed_refusals(source), *long_signed_words(source),
               *order_of_signed_checks(source), *worked_pairings(), *basis_pairings(), *random_pairings(source),
               *refused_pairings(source), *worked_traces(), *basis_traces(), *random_traces(source), *edge_traces(source),
               *added_strands(source), *refused_traces(source)]
    yield 'crates/hecke_vectors/stdin', b''.join(record(*v) for v in vectors)
    yield 'crates/hecke_vectors/stdout', ''.join(line(*v) for v in vectors).encode()
