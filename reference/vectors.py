"""The stored vectors: inputs and expected outputs of the test programs, the tables that `perms`, `algebra` and `markov_trace` compute,
and the sheets of the conformance kit with their texts, made by this program.

    python3 -m reference.vectors            write the files
    python3 -m reference.vectors --check    say which files differ from what is made today or, in the kit, are not made, and fail if
                                            there is one
"""
import random
import sys
from itertools import chain, permutations as arrangements
from pathlib import Path

from reference import algebra
from reference import permutations as p
from reference.algebra import WORD
from reference.conformance import conformance_kit, strangers
from reference.hecke_vectors import hecke_vectors
from reference.refusals import Refused
from reference.sheet_vectors import sheet_vectors

ROOT = Path(__file__).resolve().parent.parent

# words at the ends of the halves and of the whole, and some patterns
EDGE_WORDS = sorted({0, 1, 2, 3, 0x5555_5555_5555_5555, 0xAAAA_AAAA_AAAA_AAAA, 0xFFFF_FFFF_0000_0000}
                    | {2 ** k + d for k in (31, 32, 33, 63) for d in (-1, 0, 1)} | {WORD - 2, WORD - 1})


def ring_vectors():
    """Pairs of words, lowest byte first; and their sums and products modulo 2^64."""
    source = random.Random(0)
    pairs = [(a, b) for a in EDGE_WORDS for b in EDGE_WORDS]
    pairs += [(source.randrange(WORD), source.randrange(WORD)) for _ in range(500)]
    yield 'crates/ring_vectors/stdin', b''.join(x.to_bytes(8, 'little') for pair in pairs for x in pair)
    yield 'crates/ring_vectors/stdout', ''.join(f'{(a + b) % WORD} {a * b % WORD}\n' for a, b in pairs).encode()


# ---- permutations and towers
#
# A vector is a call, its lists, and the size of the lent buffer, None for a call without one.

TOWER_OF, IMAGES_OF, INVERSE, PRODUCT, LENGTH, STANDARD_WORD, DESCENTS = range(1, 8)
ON_ONE_TOWER = IMAGES_OF, INVERSE, LENGTH, STANDARD_WORD, DESCENTS
LENT = 170  # each byte of the buffer before the call

EXAMPLE = [8, 4, 1, 6, 2, 7, 5, 10, 9, 3]
IMAGES = [3, 1, 6, 2, 5, 4]
TOWER, OTHER_TOWER = [0, 2, 1, 4, 0, 3], [1, 0, 3, 2, 5, 1]


CALLS = {TOWER_OF: p.call_tower, IMAGES_OF: p.call_images, INVERSE: p.call_inverse, PRODUCT: p.call_product,
         LENGTH: p.call_length, STANDARD_WORD: p.call_word, DESCENTS: p.call_descents}


def record(call, lists, room):
    """The call's number, each list after its size, and the buffer's size in two bytes, lowest first."""
    sized = b''.join(bytes([len(a), *a]) for a in lists)
    return bytes([call]) + sized + (b'' if room is None else room.to_bytes(2, 'little'))


def line(call, lists, room):
    """A and what the call answers, or E with the number and the place; then the buffer."""
    buffer = [LENT] * (room or 0)
    try:
        answer = CALLS[call](*lists) if room is None else CALLS[call](*lists, buffer)
        fields = ['A', *(answer if isinstance(answer, tuple) else () if answer is None else (answer,))]
    except Refused as refusal:
        fields = ['E', refusal.number, refusal.place]
    return ' '.join(map(str, fields + buffer)) + '\n'


def vector(call, *lists, more=0):
    """The call with a buffer that fits its result, or has that many bytes more."""
    first = lists[0]
    result = {TOWER_OF: len(first) - 1, IMAGES_OF: len(first) + 1, INVERSE: len(first), PRODUCT: len(first),
              STANDARD_WORD: sum(first)}
    return call, lists, max(0, result[call] + more) if call in result else None


def on_tower(t, u, more=0):
    """Every call on the tower t, and its product with u."""
    for call in ON_ONE_TOWER:
        yield vector(call, t, more=more)
    yield vector(PRODUCT, t, u, more=more)


def on_permutation(w, v):
    """Every call on w, its product with v, and its word with more room than it takes."""
    t = p.tower(w)
    yield vector(TOWER_OF, w)
    for call in (IMAGES_OF, INVERSE, LENGTH, DESCENTS):
        yield vector(call, t)
    yield vector(PRODUCT, t, p.tower(v))
    yield vector(STANDARD_WORD, t, more=3)


def changed(a, *changes):
    """The list with other values at some indexes."""
    a = list(a)
    for index, value in changes:
        a[index] = value
    return a


def document_cases():
    """Document 01's cases: images 2 3 1; and the images, the tower and the inverse of its longer example."""
    yield from on_permutation([2, 3, 1], [1, 3, 2])
    yield from on_permutation(EXAMPLE, p.inverse(EXAMPLE))
    yield from on_permutation(p.inverse(EXAMPLE), EXAMPLE)


def sizes():
    """Lists at the ends of the allowed sizes and past them; two towers of unequal size."""
    for n in (0, 1, 64, 65, 255):
        yield vector(TOWER_OF, list(range(n, 0, -1)))
    for n in (0, 1, 63, 64, 255):
        t = [j % 3 for j in range(1, n + 1)]
        yield from on_tower(t, t)
    for n, k in ((0, 1), (1, 0), (5, 6), (6, 5), (63, 0), (62, 63), (63, 62), (63, 64), (64, 63), (0, 64), (64, 0)):
        yield vector(PRODUCT, [0] * n, [0] * k)


def bad_images():
    """Images that are 0, too large or already seen, at the first, a middle and the last index; two faults."""
    for index in (0, 2, 5):
        for image in (0, 7, 255):
            yield vector(TOWER_OF, changed(IMAGES, (index, image)))
    for index, seen in ((1, 0), (2, 0), (3, 2), (5, 0), (5, 4)):
        yield vector(TOWER_OF, changed(IMAGES, (index, IMAGES[seen])))
    # the image at the lower index is not yet seen there
    for index, later in ((0, 1), (0, 5), (2, 4)):
        yield vector(TOWER_OF, changed(IMAGES, (index, IMAGES[later])))
    for faults in (((1, 0), (4, 9)), ((1, 9), (4, 0)), ((1, 3), (4, 0)), ((3, 7), (5, 3)), ((0, 0), (5, 0)),
                   ((2, 1), (3, 1))):
        yield vector(TOWER_OF, changed(IMAGES, *faults))
    for images in ([0], [2], [255], [1, 1], [2, 2], [2, 3], [0, 0]):
        yield vector(TOWER_OF, images)


def first_bad_images():
    """A first bad image at each index, which is 0, too large or already seen, with bad images after it, and buffers that fit or do
    not; and one of each kind, in every order."""
    for n in (1, 2, 3, 6, 64):
        kinds = 0, n + 1, n
        for index in range(n):
            for kind in range(3 if index else 2) if n < 64 else (index % 3,):
                images = [*range(n, n - index, -1), *(kinds[(kind + later) % 3] for later in range(n - index))]
                for more in (0, 1 - 2 * (index % 2)):
                    yield vector(TOWER_OF, images, more=more)
    for faults in arrangements((0, 7, IMAGES[0])):
        yield vector(TOWER_OF, changed(IMAGES, *zip((1, 3, 4), faults)))


def bad_entries():
    """Entries above their j at the first, a middle and the last index, and two faults; in either tower of a product."""
    faults = [((i, i + 2),) for i in (0, 3, 5)] + [((i, 255),) for i in (0, 3, 5)]
    faults += [((0, 2), (5, 7)), ((1, 3), (2, 255)), ((3, 255), (4, 6))]
    for fault in faults:
        bad = changed(TOWER, *fault)
        yield from on_tower(bad, OTHER_TOWER)
        yield vector(PRODUCT, OTHER_TOWER, bad)
    for t in ([2], [0, 3], [2, 3]):
        yield from on_tower(t, [0] * len(t))
    # of two bad towers the first is judged first
    for first, second in ((0, 5), (5, 0), (3, 3), (2, 4), (4, 2)):
        yield vector(PRODUCT, changed(TOWER, (first, first + 2)), changed(OTHER_TOWER, (second, second + 2)))


def buffers():
    """Buffers one byte short, exact, one byte longer, much longer and empty; also with the smallest and largest lists."""
    largest = [j % 3 for j in range(1, 64)]
    for more in (-1, 0, 1, 200, -100):
        yield vector(TOWER_OF, IMAGES, more=more)
        yield from on_tower(TOWER, OTHER_TOWER, more=more)
    for more in (-1, 0, 1):
        yield vector(TOWER_OF, [1], more=more)
        yield from on_tower([], [], more=more)
        yield vector(TOWER_OF, p.of_tower(largest), more=more)
        yield from on_tower(largest, largest[::-1], more=more)


def order_of_checks():
    """Two faults or more that different checks find: the size, then the first bad image or entry, then the buffer."""
    bad, other = changed(TOWER, (4, 6)), changed(OTHER_TOWER, (1, 3))
    for more in (-1, 0, 1):
        yield vector(TOWER_OF, list(range(65)), more=more)
        yield vector(TOWER_OF, changed(IMAGES, (5, 0)), more=more)
        yield from on_tower([1] * 63 + [65], [0] * 64, more=more)
        yield from on_tower([2] * 64, [2] * 64, more=more)
        yield from on_tower(bad, OTHER_TOWER, more=more)
        # faults of the second tower, and of both
        yield vector(PRODUCT, TOWER, other, more=more)
        yield vector(PRODUCT, bad, other, more=more)
        # unequal sizes and bad entries
        for first, second in ((bad, other[:5]), (bad, OTHER_TOWER[:5]), (TOWER[:5], other), (bad, [0] * 64),
                              ([0] * 64, other)):
            yield vector(PRODUCT, first, second, more=more)
    # no image or 65 bad ones, and a buffer of any size; an entry too large, of which no word fits the buffer
    yield TOWER_OF, ([],), 1
    yield TOWER_OF, ([0] * 65,), 0
    yield TOWER_OF, ([255] * 65,), 7
    yield STANDARD_WORD, (changed(TOWER, (5, 255)),), 0


def random_permutation(source, m):
    return p.of_tower([source.randrange(j + 1) for j in range(1, m + 1)])


def every_rank(source):
    """The identity, the reversal and random permutations of every rank, more of the small ranks."""
    for m in range(64):
        firsts = [p.identity(m), p.identity(m)[::-1]]
        firsts += [random_permutation(source, m) for _ in range(4 if m < 12 else 1)]
        for w in firsts:
            yield from on_permutation(w, random_permutation(source, m))


def random_bytes(source):
    """Short lists of small bytes, some of which are right, with buffers that mostly fit."""
    for _ in range(150):
        size = source.randrange(6)
        images, t, u = ([source.randrange(size + 2) for _ in range(size)] for _ in range(3))
        more = (0, 0, 0, -1, 1)[source.randrange(5)]
        yield vector(TOWER_OF, images, more=more)
        yield from on_tower(t, u, more=more)


def perms_vectors():
    """Calls of the seven functions on permutations and towers, and their whole outcomes."""
    source = random.Random(0)
    vectors = [*document_cases(), *sizes(), *bad_images(), *first_bad_images(), *bad_entries(), *buffers(), *order_of_checks(),
               *every_rank(source), *random_bytes(source)]
    yield 'crates/perms_vectors/stdin', b''.join(record(*v) for v in vectors)
    yield 'crates/perms_vectors/stdout', ''.join(line(*v) for v in vectors).encode()


# ---- tables for the prover
#
# The definitions of the crates `perms`, `algebra` and `markov_trace` are computed by the prover, so their vectors are tables in its
# language.

def numbers(a):
    return ''.join(f'{x} ∷ ' for x in a) + '[]'


def table(name, row, rows):
    return f'\nabbrev pub {name} : List {row}\n{name} =\n    ' + '\n    ∷ '.join(rows + ['[]']) + '\n'


PERMUTATIONS_HEAD = '''-- Permutations as the reference program has them, and what it finds of them: written by `python3 -m reference.vectors`.
--
--   vector w t v n x d    w has the tower t, the inverse v, the length n, the standard word x, and a descent set with the mask d
--   pair u v w            the product of u and v is w
use mathlib.Core.List.{List, [], ◌∷◌}
use Prim.Native.Nat.{ℕ}

pub record Vector : Type 0 where
  pub images : List ℕ
  pub tower : List ℕ
  pub inverse : List ℕ
  pub length : ℕ
  pub word : List ℕ
  pub descents : ℕ

abbrev vector : List ℕ → List ℕ → List ℕ → ℕ → List ℕ → ℕ → Vector
vector w t v n x d = record { images = w; tower = t; inverse = v; length = n; word = x; descents = d }

pub record Pair : Type 0 where
  pub left : List ℕ
  pub right : List ℕ
  pub product : List ℕ

abbrev pair : List ℕ → List ℕ → List ℕ → Pair
pair u v w = record { left = u; right = v; product = w }
'''


def permutation_vector(w):
    t = p.tower(w)
    mask = sum(2 ** (i - 1) for i in p.descents(w))
    return f'vector ({numbers(w)}) ({numbers(t)}) ({numbers(p.inverse(w))}) {p.length(w)} ({numbers(p.standard_word(t))}) {mask}'


def permutation_tables():
    """All permutations of ranks 0 to 2, five of rank 3 and four of rank 4, and document 01's longer example; and products of two
    that follow one another, and of the example and its inverse."""
    source = random.Random(0)
    ranks = [list(map(list, arrangements(p.identity(m)))) for m in range(5)]
    ranks[3:] = source.sample(ranks[3], 5), source.sample(ranks[4], 4)
    ranks.append([EXAMPLE])
    pairs = [pair for rank in ranks for pair in zip(rank, rank[1:])] + [(EXAMPLE, EXAMPLE), (EXAMPLE, p.inverse(EXAMPLE))]
    vectors = table('vectors', 'Vector', [permutation_vector(w) for rank in ranks for w in rank])
    products = table('pairs', 'Pair', [f'pair ({numbers(u)}) ({numbers(v)}) ({numbers(p.product(u, v))})' for u, v in pairs])
    yield 'crates/perms/proofs/Vectors.antt', (PERMUTATIONS_HEAD + vectors + products).encode()


PRODUCTS_HEAD = '''-- Products as the reference program computes them: written by `python3 -m reference.vectors`.
--
--   vector m l q h g k n    h of rank m times g of rank l is k, and takes n ring operations
use mathlib.Core.List.{List, [], ◌∷◌}
use Prim.Native.Nat.{ℕ}

pub data Vector : Type 0 where
  vector : ℕ → ℕ → ℕ → List ℕ → List ℕ → List ℕ → ℕ → Vector
'''


def random_element(source, m):
    """Words of all sizes."""
    return [source.randrange(2 ** source.choice((2, 8, 64))) for _ in range(algebra.size(m))]


def product_vector(source, m, l, q):
    """Random elements of ranks m and l, their product, and its count."""
    h, g = random_element(source, m), random_element(source, l)
    padded = g + [0] * (algebra.size(m) - algebra.size(l))
    hg = algebra.product(m, q, h, padded)
    return f'vector {m} {l} {q} ({numbers(h)}) ({numbers(g)}) ({numbers(hg)}) {algebra.product_count(m, l)}'


def algebra_vectors():
    """Products of elements of rank m with elements of rank l ≤ m ≤ 2, for each of six q, and one of rank 3."""
    source = random.Random(0)
    rows = [product_vector(source, m, l, q) for m in range(3) for l in range(m + 1) for q in (0, 1, 2, 3, 10, WORD - 1)]
    rows.append(product_vector(source, 3, 3, 3))
    yield 'crates/algebra/proofs/Vectors.antt', (PRODUCTS_HEAD + table('vectors', 'Vector', rows)).encode()


TRACES_HEAD = '''-- Traces as the reference program computes them: written by `python3 -m reference.vectors`.
--
--   vector m q z h t    h of rank m has the trace t with the parameter z
use mathlib.Core.List.{List, [], ◌∷◌}
use Prim.Native.Nat.{ℕ}

pub data Vector : Type 0 where
  vector : ℕ → ℕ → ℕ → List ℕ → ℕ → Vector
'''


def trace_vector(m, q, z, h):
    return f'vector {m} {q} {z} ({numbers(h)}) {algebra.trace(m, q, z, h)}'


def trace_vectors():
    """Random elements of ranks 0 to 2 for each of six q, with one of four z, and two of rank 3; each basis element of rank 2."""
    source = random.Random(0)
    rows = [trace_vector(m, q, source.choice((0, 1, WORD - 1, source.randrange(WORD))), random_element(source, m))
            for m in range(3) for q in (0, 1, 2, 3, 10, WORD - 1)]
    rows += [trace_vector(3, q, source.randrange(WORD), random_element(source, 3)) for q in (3, source.randrange(WORD))]
    rows += [trace_vector(2, 3, 5, algebra.basis(w)) for w in algebra.permutations(2)]
    yield 'crates/markov_trace/proofs/Vectors.antt', (TRACES_HEAD + table('vectors', 'Vector', rows)).encode()


def main(arguments):
    if arguments not in ([], ['--check']):
        sys.exit(__doc__)
    made, stale = [], []
    for name, contents in chain(ring_vectors(), perms_vectors(), permutation_tables(), algebra_vectors(), trace_vectors(),
                                hecke_vectors(), sheet_vectors(), conformance_kit()):
        path = ROOT / name
        made.append(name)
        if not arguments:
            path.parent.mkdir(exist_ok=True)
            path.write_bytes(contents)
        elif not path.is_file() or path.read_bytes() != contents:
            stale.append(name)
    if arguments:
        stale += strangers(ROOT, made)
    if stale:
        sys.exit('not what the reference makes today: ' + ', '.join(stale))


if __name__ == '__main__':
    main(sys.argv[1:])
