"""Permutations and towers (document 01, "Permutations and towers").

A permutation w of rank m is its image list: the image of point p, for p from 1 to m + 1, stands at index p - 1.
Products are read left to right: in uv, u acts first. A tower, the inversion table of w, has a_j at index j - 1.

The functions named `call_...` are the library's calls: they judge their lists in the order of document 01's table,
raise Refused before they write anything, and otherwise write their result into the lent buffer.
"""
from reference.refusals import Refused


def identity(m):
    return list(range(1, m + 2))


def product(u, v):
    return [v[p - 1] for p in u]


def inverse(w):
    return [w.index(p) + 1 for p in range(1, len(w) + 1)]


def generator(m, i):
    """s_i, which swaps i and i + 1."""
    w = identity(m)
    w[i - 1], w[i] = i + 1, i
    return w


def length(w):
    """The number of pairs i < j whose images stand in falling order."""
    return sum(w[i] > w[j] for j in range(len(w)) for i in range(j))


def tower(w):
    """a_j is the number of points before j + 1 whose image exceeds that of j + 1."""
    return [sum(w[i] > w[j] for i in range(j)) for j in range(1, len(w))]


def cycle(j, k):
    """The letters of a(j, k) = s_j s_{j-1} .. s_{j-k+1}."""
    return list(range(j, j - k, -1))


def standard_word(t):
    """The letters of a(1, a_1) to a(m, a_m), joined."""
    return [letter for j, a in enumerate(t, 1) for letter in cycle(j, a)]


def of_word(m, letters):
    """The product of the generators that the letters name."""
    w = identity(m)
    for i in letters:
        w = product(w, generator(m, i))
    return w


def of_tower(t):
    return of_word(len(t), standard_word(t))


def descents(w):
    """The i with l(s_i w) < l(w)."""
    m = len(w) - 1
    return [i for i in range(1, m + 1) if length(product(generator(m, i), w)) < length(w)]


# ---- the checks of the table, in its order

def check_images_size(images):
    if not 1 <= len(images) <= 64:
        raise Refused(5)


def check_tower_size(t):
    if len(t) > 63:
        raise Refused(5)


def check_images(images):
    for index, image in enumerate(images):
        if image == 0 or image > len(images) or image in images[:index]:
            raise Refused(6, index)


def check_tower(t):
    for j, a in enumerate(t, 1):
        if a > j:
            raise Refused(7, j - 1)


def check_buffer(buffer, size):
    if len(buffer) != size:
        raise Refused(8)


# ---- the calls

def call_tower(images, buffer):
    check_images_size(images)
    check_images(images)
    check_buffer(buffer, len(images) - 1)
    buffer[:] = tower(images)


def call_images(t, buffer):
    check_tower_size(t)
    check_tower(t)
    check_buffer(buffer, len(t) + 1)
    buffer[:] = of_tower(t)


def call_inverse(t, buffer):
    check_tower_size(t)
    check_tower(t)
    check_buffer(buffer, len(t))
    buffer[:] = tower(inverse(of_tower(t)))


def call_product(t, u, buffer):
    check_tower_size(t)
    check_tower_size(u)
    if len(t) != len(u):
        raise Refused(5)
    check_tower(t)
    check_tower(u)
    check_buffer(buffer, len(t))
    buffer[:] = tower(product(of_tower(t), of_tower(u)))


def call_length(t):
    check_tower_size(t)
    check_tower(t)
    return length(of_tower(t))


def call_word(t, buffer):
    """Writes the standard word and nothing after it; gives the number of its letters."""
    check_tower_size(t)
    check_tower(t)
    word = standard_word(t)
    if len(buffer) < len(word):
        raise Refused(8)
    buffer[:len(word)] = word
    return len(word)


def call_descents(t):
    """The mask with s_i at bit i - 1, and the number of its set bits."""
    check_tower_size(t)
    check_tower(t)
    found = descents(of_tower(t))
    return sum(1 << (i - 1) for i in found), len(found)
