"""Elements and their product by the definition over permutations (document 01, "Elements and their product"; document 02, Tickets 1,
2 and 4).

An element of rank m is the list of its M = (m + 1)! coefficients, words modulo 2^64. Towers appear in the place of a
coefficient and nowhere else.

The functions named `call_...` are the library's calls: they judge their lists in the order of document 01's table,
raise Refused before they write anything, otherwise write into the lent lists, and return the count. The calls of the
pairing and the trace count nothing, and return the pairing and the trace; of the lent lists only the trace's scratch is written.
"""
from functools import lru_cache
from itertools import permutations as arrangements
from math import factorial

from reference.permutations import cycle, generator, identity, inverse, length, product as compose, tower
from reference.refusals import Refused

WORD = 2 ** 64
MOST_LETTERS = 4096


def size(m):
    """M, the number of coefficients of an element of rank m."""
    return factorial(m + 1)


def place(w):
    """Where the coefficient of T_w stands: the sum of a_j times j!."""
    return sum(a * factorial(j) for j, a in enumerate(tower(w), 1))


@lru_cache(maxsize=None)
def permutations(m):
    """All image lists of rank m, by rising place."""
    return sorted((list(w) for w in arrangements(identity(m))), key=place)


def basis(w):
    """T_w: 1 at w's place and 0 elsewhere."""
    element = [0] * size(len(w) - 1)
    element[place(w)] = 1
    return element


def unit(m):
    return basis(identity(m))


@lru_cache(maxsize=None)
def neighbours(m, i):
    """For each w by rising place, the place of w s_i, and whether w s_i is longer than w."""
    s = generator(m, i)
    return [(place(compose(w, s)), length(compose(w, s)) > length(w)) for w in permutations(m)]


def times_generator(m, q, h, i):
    """h T_i. T_w T_s is T_{ws} when ws is longer than w, else (q - 1) T_w + q T_{ws} (formula 3.1).

    So the coefficient of h T_s at w is q h_{ws} when ws is longer than w, else h_{ws} + (q - 1) h_w (formula 4.1).
    """
    return [(q * h[ws] if longer else h[ws] + (q - 1) * x) % WORD for x, (ws, longer) in zip(h, neighbours(m, i))]


def times_inverse(m, q, h, i):
    """h times the inverse of T_i, for odd q: q' (h T_i) + (q' - 1) h, where q' is the inverse of q modulo 2^64."""
    q_inverse = pow(q, -1, WORD)
    return add(scale(q_inverse, times_generator(m, q, h, i)), scale(q_inverse - 1, h))


def act(m, q, h, word):
    """A word of signed letters acts on h, left to right: i is T_i, and -i its inverse, which even q does not have."""
    for i in word:
        h = times_generator(m, q, h, i) if i > 0 else times_inverse(m, q, h, -i)
    return h


def mirror(word):
    """The mirror word read backwards, which undoes the word."""
    return [-i for i in reversed(word)]


@lru_cache(maxsize=None)
def steps_up(m):
    """For each place, the letters that lead from there to a longer permutation, with that one's place.

    Each v but the identity is reached once, from v s_i with the least i that makes it shorter. So the letters on the way
    from the identity to v are a shortest word of v.
    """
    steps = [[] for _ in range(size(m))]
    for v in range(1, size(m)):
        i = next(i for i in range(1, m + 1) if not neighbours(m, i)[v][1])
        steps[neighbours(m, i)[v][0]].append((i, v))
    return steps


def product(m, q, h, g):
    """The sum over all v of g_v h T_v, where T_v acts through a shortest word of v (formulas 4.2 to 4.4)."""
    result = [0] * size(m)

    def visit(v, acted):
        result[:] = [x + g[v] * y for x, y in zip(result, acted)]
        for i, next_v in steps_up(m)[v]:
            visit(next_v, times_generator(m, q, acted, i))

    visit(place(identity(m)), h)
    return [x % WORD for x in result]


def add(h, g):
    return [(x + y) % WORD for x, y in zip(h, g)]


def scale(c, h):
    return [c * x % WORD for x in h]


@lru_cache(maxsize=None)
def lengths_and_inverses(m):
    """For each w by rising place, its length, and the place of its inverse."""
    return [(length(w), place(inverse(w))) for w in permutations(m)]


def pairing(m, q, a, b):
    """The coefficient of the unit in the product ab (document 02, Ticket 2).

    It is the sum over w of q to the power l(w) times a_w times b at the inverse of w.
    """
    return sum(pow(q, n, WORD) * x * b[other] for x, (n, other) in zip(a, lengths_and_inverses(m))) % WORD


def trace(m, q, z, h):
    """The Markov trace of h with the parameter z (document 02, Ticket 4).

    At rank 0 it is the coefficient. At rank m it is that of h_0, plus z times the sum over k = 1 to m of that of
    h_k T_{a(m - 1, k - 1)}, where h_k is block k of h.
    """
    if m == 0:
        return h[0]
    block = size(m - 1)
    first, *rest = (h[at:at + block] for at in range(0, len(h), block))
    turned = (act(m - 1, q, h_k, cycle(m - 1, k - 1)) for k, h_k in enumerate(rest, 1))
    return (trace(m - 1, q, z, first) + z * sum(trace(m - 1, q, z, g) for g in turned)) % WORD


# ---- the count

def letter_count(m):
    return 3 * size(m) // 2


@lru_cache(maxsize=None)
def action_count(m, j, l):
    """c(m, j, l), the ring operations of h T_{a(j, l)} by the nested method."""
    if l == 0:
        return 0
    count = (2 * l + 1) * factorial(m)
    if m > j:
        count += (m - j) * action_count(m - 1, j, l)
    if j > l:
        count += (j - l) * action_count(m - 1, j - 1, l)
    return count + sum(action_count(m - 1, j - 1, i - 1) + action_count(m - 1, j - i, l - i) for i in range(1, l + 1))


@lru_cache(maxsize=None)
def product_count(m, l):
    """C(m, l), the ring operations of a product of an element of rank m with one of rank l."""
    if l == 0:
        return size(m)
    return (l + 1) * product_count(m, l - 1) + sum(action_count(m, l, k) for k in range(l + 1)) + l * size(m)


# ---- the checks of the table, in its order

def check_rank(m):
    if m > 6:
        raise Refused(1)


def check_elements(m, *elements):
    if any(len(element) != size(m) for element in elements):
        raise Refused(2)


def check_scratch(m, scratch):
    if len(scratch) < (m + 6) * size(m):
        raise Refused(3)


def check_word(m, word, least=1):
    """Letters go from `least` to m, without 0."""
    if len(word) > MOST_LETTERS:
        raise Refused(4, MOST_LETTERS)
    for index, letter in enumerate(word):
        if letter == 0 or not least <= letter <= m:
            raise Refused(4, index)


def check_inverses(q, word):
    for index, letter in enumerate(word):
        if letter < 0 and q % 2 == 0:
            raise Refused(15, index)


def clear_scratch(m, scratch):
    """What a call that was lent scratch leaves of it."""
    used = (m + 6) * size(m)
    scratch[:used] = [0] * used


# ---- the calls

def call_sum(m, h, g, result):
    check_rank(m)
    check_elements(m, h, g, result)
    result[:] = add(h, g)
    return size(m)


def call_scale(m, c, h, result):
    check_rank(m)
    check_elements(m, h, result)
    result[:] = scale(c, h)
    return size(m)


def call_act(m, q, h, word):
    check_rank(m)
    check_elements(m, h)
    check_word(m, word)
    h[:] = act(m, q, h, word)
    return letter_count(m) * len(word)


def call_act_signed(m, q, h, word):
    check_rank(m)
    check_elements(m, h)
    check_word(m, word, -m)
    check_inverses(q, word)
    h[:] = act(m, q, h, word)
    return letter_count(m) * len(word)


def call_product(m, q, h, g, result, scratch):
    check_rank(m)
    check_elements(m, h, g, result)
    check_scratch(m, scratch)
    result[:] = product(m, q, h, g)
    clear_scratch(m, scratch)
    return product_count(m, m)


def call_pairing(m, q, h, g):
    check_rank(m)
    check_elements(m, h, g)
    return pairing(m, q, h, g)


def call_trace(m, q, z, h, scratch):
    check_rank(m)
    check_elements(m, h)
    check_scratch(m, scratch)
    clear_scratch(m, scratch)
    return trace(m, q, z, h)
