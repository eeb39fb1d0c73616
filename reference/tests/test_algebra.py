"""Document 01's sections "Elements and their product" and "The count": cases, edges, and the two methods; document 02's inverse
letters, pairing, trace and order of a product's parts."""
import random
import unittest
from itertools import permutations as arrangements, product as every
from math import factorial, prod

from reference import algebra as a
from reference import permutations as p
from reference.nested import Nested, blocks, falling, rising
from reference.tests.support import ODD, PARAMETERS, random_element, refused

# z = 0 and 1 are edges
ZS = 0, 1, 5, a.WORD - 1, 0xC2B2_AE3D_27D4_EB4F


def word_basis(m, word):
    """T_w for the permutation of a word."""
    return a.basis(p.of_word(m, word))


def at_rank(m, g):
    """g, of rank m or less, as an element of rank m."""
    return g + [0] * (a.size(m) - len(g))


class Cases(unittest.TestCase):
    def test_marked_indices(self):
        words = [], [1], [2], [1, 2], [2, 1], [1, 2, 1]
        self.assertEqual([a.place(p.of_word(2, word)) for word in words], list(range(6)))

    def test_marked_squares(self):
        for m, q, word, square in (
                (2, 2, [2, 1], [0, 0, 0, 2, 0, 1]), (1, 0, [1], [0, 2 ** 64 - 1]), (1, 1, [1], [1, 0])):
            h = word_basis(m, word)
            self.assertEqual(a.product(m, q, h, h), square)

    def test_marked_pairings(self):
        """Document 02, Ticket 2: at rank 2 with q = 2, T of s_1 s_2 paired with itself, and with T of s_2 s_1."""
        h, g = word_basis(2, [1, 2]), word_basis(2, [2, 1])
        self.assertEqual((a.pairing(2, 2, h, h), a.pairing(2, 2, h, g)), (0, 4))

    def test_counts(self):
        self.assertEqual([a.product_count(m, m) for m in range(7)], [1, 9, 118, 2152, 55840, 2027640, 99518160])
        self.assertEqual(a.product_count(2, 1), 27)

    def test_bounds(self):
        for m in range(7):
            self.assertLess(a.product_count(m, m), 4 * a.size(m) ** 2)
            for l in range(m + 1):
                self.assertLess(a.product_count(m, l), 4 * a.size(l) * a.size(m))

    def test_places_are_a_bijection(self):
        for m in range(6):
            self.assertEqual([a.place(w) for w in a.permutations(m)], list(range(a.size(m))))


class Definition(unittest.TestCase):
    def test_formula_3_1(self):
        for m in range(1, 5):
            for i in range(1, m + 1):
                for w in a.permutations(m):
                    ws = p.product(w, p.generator(m, i))
                    for q in PARAMETERS:
                        expected = a.basis(ws)
                        if p.length(ws) < p.length(w):
                            expected = a.add(a.scale(q - 1, a.basis(w)), a.scale(q, a.basis(ws)))
                        self.assertEqual(a.times_generator(m, q, a.basis(w), i), expected)

    def test_product_adds_over_all_permutations_by_standard_words(self):
        source = random.Random(2)
        for m in range(4):
            for q in PARAMETERS:
                h, g = random_element(source, m), random_element(source, m)
                expected = [0] * a.size(m)
                for v, x in zip(a.permutations(m), g):
                    expected = a.add(expected, a.scale(x, a.act(m, q, h, p.standard_word(p.tower(v)))))
                self.assertEqual(a.product(m, q, h, g), expected)

    def test_proposition_3_2(self):
        source = random.Random(3)
        for m in range(1, 5):
            for q in PARAMETERS:
                h = random_element(source, m)
                h_ = blocks(h, factorial(m))
                for j in range(1, m + 1):
                    for l in range(1, j + 1):
                        lines = []
                        for k in range(m + 1):
                            if k < m - j:
                                lines += a.act(m - 1, q, h_[k], p.cycle(j, l))
                            elif k < m - j + l:
                                lines += a.scale(q, a.act(m - 1, q, h_[k + 1], p.cycle(j - 1, l - 1)))
                            elif k == m - j + l:
                                total = [0] * factorial(m)
                                for i in range(1, l + 1):
                                    total = a.add(total, a.act(m - 1, q, h_[m - j + i], p.cycle(j - 1, i - 1)))
                                lines += a.add(h_[m - j], a.scale(q - 1, total))
                            else:
                                lines += a.act(m - 1, q, h_[k], p.cycle(j - 1, l))
                        self.assertEqual(lines, a.act(m, q, h, p.cycle(j, l)))

    def test_example_of_an_action(self):
        self.assertEqual(Nested(3).action(2, [1, 2, 3, 4, 5, 6], 2, 2), [36, 33, 54, 51, 43, 44])
        self.assertEqual(a.act(2, 3, [1, 2, 3, 4, 5, 6], p.cycle(2, 2)), [36, 33, 54, 51, 43, 44])

    def test_nested_method_and_its_count(self):
        source = random.Random(4)
        for m in range(5):
            for q in PARAMETERS:
                h = random_element(source, m)
                for j in range(1, m + 1):
                    for l in range(j + 1):
                        nested = Nested(q)
                        self.assertEqual(nested.action(m, h, j, l), a.act(m, q, h, p.cycle(j, l)))
                        self.assertEqual(nested.count, a.action_count(m, j, l))
                for l in range(m + 1):
                    g, nested = random_element(source, l), Nested(q)
                    self.assertEqual(nested.product(m, h, l, g, falling), a.product(m, q, h, at_rank(m, g)))
                    self.assertEqual(nested.count, a.product_count(m, l))


class Orders(unittest.TestCase):
    """Document 02, Ticket 5: the parts of a product, added in any order."""

    def compare(self, m, q, h, l, g, orders):
        """Every order gives the words of the definition, C(m, l), and the same number of sums and of products."""
        value, counts = a.product(m, q, h, at_rank(m, g)), set()
        for order in orders:
            nested = Nested(q)
            self.assertEqual(nested.product(m, h, l, g, order), value)
            self.assertEqual(nested.count, a.product_count(m, l))
            counts.add((nested.sums, nested.products))
        self.assertEqual(len(counts), 1)

    def test_falling_and_rising(self):
        self.assertEqual([falling(l) for l in range(4)], [[0], [1, 0], [2, 1, 0], [3, 2, 1, 0]])
        self.assertEqual([rising(l) for l in range(4)], [[0], [0, 1], [0, 1, 2], [0, 1, 2, 3]])

    def test_parts_are_added_as_they_are_listed(self):
        """Where h is the unit, part k is g_k in block k. The product's own sums are of 6 words, the action's of 2."""
        added = []

        class Watched(Nested):
            def add(self, h, g):
                added.append((h, g))
                return super().add(h, g)

        Watched(3).product(2, a.unit(2), 2, [1, 2, 3, 4, 5, 6], [[0], [1, 0], [2, 0, 1]].__getitem__)
        self.assertEqual([two for two in added if len(two[0]) == 6], [
            ([0, 6, 0, 0, 0, 0], [5, 0, 0, 0, 0, 0]),
            ([0, 2, 0, 0, 0, 0], [1, 0, 0, 0, 0, 0]),
            ([0, 0, 0, 0, 5, 6], [1, 2, 0, 0, 0, 0]),
            ([0, 4, 0, 0, 0, 0], [3, 0, 0, 0, 0, 0]),
            ([1, 2, 0, 0, 5, 6], [0, 0, 3, 4, 0, 0])])

    def test_sums_and_products_by_hand(self):
        """At rank 1, g_0 h and g_1 h take 2 products each, T_1 takes 2 products and a sum, and the parts together 2 sums."""
        for order in (falling, rising):
            nested = Nested(3)
            nested.product(1, [4, 5], 1, [6, 7], order)
            self.assertEqual((nested.sums, nested.products), (3, 6))

    def test_random_orders(self):
        """A random order for each level, or another whenever one is asked for."""
        source = random.Random(23)

        def shuffled(l):
            return source.sample(range(l + 1), l + 1)

        for m in range(5):
            for q in PARAMETERS:
                h = random_element(source, m)
                for l in range(m + 1):
                    levels = [[shuffled(n) for n in range(l + 1)] for _ in range(3)]
                    orders = falling, rising, shuffled, *(lists.__getitem__ for lists in levels)
                    self.compare(m, q, h, l, random_element(source, l), orders)

    def test_all_orders(self):
        """Up to rank 3, every choice of an order for each level."""
        source = random.Random(24)
        for m in range(4):
            for l in range(m + 1):
                levels = every(*(arrangements(range(n + 1)) for n in range(l + 1)))
                orders = (lists.__getitem__ for lists in levels)
                self.compare(m, 3, random_element(source, m), l, random_element(source, l), orders)

    def test_a_part_left_out_or_twice(self):
        """At one level, whichever it is: other words and another count."""
        source = random.Random(25)
        for m in range(1, 4):
            for q in PARAMETERS:
                h = random_element(source, m)
                for l in range(1, m + 1):
                    g = random_element(source, l)
                    value = a.product(m, q, h, at_rank(m, g))
                    for level in range(1, l + 1):
                        for k in falling(level):
                            left_out = [i for i in falling(level) if i != k]
                            for wrong in (left_out, [k, *falling(level)]):
                                nested = Nested(q)
                                words = nested.product(m, h, l, g, lambda n: wrong if n == level else falling(n))
                                self.assertNotEqual(words, value)
                                self.assertNotEqual(nested.count, a.product_count(m, l))


class Laws(unittest.TestCase):
    def test_associative(self):
        source = random.Random(5)
        for m in range(5):
            for q in PARAMETERS:
                h, g, k = (random_element(source, m) for _ in range(3))
                left = a.product(m, q, a.product(m, q, h, g), k)
                self.assertEqual(left, a.product(m, q, h, a.product(m, q, g, k)))

    def test_linear_and_unit(self):
        source = random.Random(6)
        for m in range(4):
            for q in PARAMETERS:
                h, k, g = (random_element(source, m) for _ in range(3))
                c = source.randrange(a.WORD)
                left = a.product(m, q, a.add(h, a.scale(c, k)), g)
                self.assertEqual(left, a.add(a.product(m, q, h, g), a.scale(c, a.product(m, q, k, g))))
                right = a.product(m, q, g, a.add(h, a.scale(c, k)))
                self.assertEqual(right, a.add(a.product(m, q, g, h), a.scale(c, a.product(m, q, g, k))))
                self.assertEqual(a.product(m, q, a.unit(m), h), h)
                self.assertEqual(a.product(m, q, h, a.unit(m)), h)

    def test_relations(self):
        source = random.Random(7)
        for m in range(1, 5):
            for q in PARAMETERS:
                h = random_element(source, m)
                for i in range(1, m + 1):
                    square = a.add(a.scale(q - 1, a.act(m, q, h, [i])), a.scale(q, h))
                    self.assertEqual(a.act(m, q, h, [i, i]), square)
                    for j in range(1, m + 1):
                        words = ([i, j, i], [j, i, j]) if abs(i - j) == 1 else ([i, j], [j, i])
                        self.assertEqual(a.act(m, q, h, words[0]), a.act(m, q, h, words[1]))

    def test_shortest_words_act_alike(self):
        h = random_element(random.Random(8), 3)
        for q in PARAMETERS:
            for x, y in (([1, 2, 1, 3], [2, 1, 2, 3]), ([1, 2, 1, 3, 2, 1], [3, 2, 3, 1, 2, 3]), ([1, 3, 2], [3, 1, 2])):
                self.assertEqual(p.of_word(3, x), p.of_word(3, y))
                self.assertEqual(a.act(3, q, h, x), a.act(3, q, h, y))
                self.assertEqual(a.act(3, q, h, x), a.product(3, q, h, word_basis(3, x)))


class Pairings(unittest.TestCase):
    def test_pairing(self):
        """The pairing is the coefficient of the unit in the product."""
        source = random.Random(9)
        for m in range(6):
            for q in (*PARAMETERS, 2 ** 63, source.randrange(0, a.WORD, 2), source.randrange(1, a.WORD, 2)):
                h, g = random_element(source, m), random_element(source, m)
                self.assertEqual(a.pairing(m, q, h, g), a.product(m, q, h, g)[0])

    def test_basis_elements(self):
        """T_u paired with T_v is q to the power l(u) where v is the inverse of u, else 0."""
        for m in range(4):
            for u in a.permutations(m):
                for v in a.permutations(m):
                    for q in PARAMETERS:
                        due = pow(q, p.length(u), a.WORD) if p.product(u, v) == p.identity(m) else 0
                        self.assertEqual(a.pairing(m, q, a.basis(u), a.basis(v)), due)

    def test_reversed_chains(self):
        """A shortest word paired with itself read backwards, and with itself unless the permutation is an involution."""
        for m in range(6):
            for w in random.Random(16).sample(a.permutations(m), min(a.size(m), 40)):
                word = p.standard_word(p.tower(w))
                h, g = word_basis(m, word), word_basis(m, word[::-1])
                self.assertEqual(a.pairing(m, 3, h, g), 3 ** len(word))
                self.assertEqual(a.pairing(m, 3, h, h), 3 ** len(word) if p.inverse(w) == w else 0)

    def test_linear_in_each_argument(self):
        source = random.Random(18)
        for m in range(6):
            for q in PARAMETERS:
                h, g, k = (random_element(source, m) for _ in range(3))
                c = source.randrange(a.WORD)
                both = (a.pairing(m, q, h, k) + c * a.pairing(m, q, g, k)) % a.WORD
                self.assertEqual(a.pairing(m, q, a.add(h, a.scale(c, g)), k), both)
                both = (a.pairing(m, q, k, h) + c * a.pairing(m, q, k, g)) % a.WORD
                self.assertEqual(a.pairing(m, q, k, a.add(h, a.scale(c, g))), both)

    def test_either_side_of_a_product(self):
        source = random.Random(17)
        for m in range(4):
            for q in PARAMETERS:
                h, g, k = (random_element(source, m) for _ in range(3))
                self.assertEqual(a.pairing(m, q, a.product(m, q, h, g), k), a.pairing(m, q, h, a.product(m, q, g, k)))

    def test_sum_over_all_permutations(self):
        """Of elements of ones: the sum of the powers of q by length, which is the product of 1 + q + .. + q^j for j = 1 to m."""
        for m in range(7):
            ones = [1] * a.size(m)
            for q in PARAMETERS:
                due = prod(sum(q ** i for i in range(j + 1)) for j in range(1, m + 1)) % a.WORD
                self.assertEqual(a.pairing(m, q, ones, ones), due)


class Traces(unittest.TestCase):
    def test_rank_0(self):
        """The coefficient, whatever q and z."""
        for q in PARAMETERS:
            for z in ZS:
                self.assertEqual(a.trace(0, q, z, [7]), 7)

    def test_rank_1_by_hand(self):
        """Block 1 is b, and a(0, 0) is empty: a + z b, whatever q."""
        for q in PARAMETERS:
            for z in ZS:
                self.assertEqual(a.trace(1, q, z, [4, 7]), (4 + 7 * z) % a.WORD)
        self.assertEqual(a.trace(1, 3, 5, [2, 3]), 17)

    def test_rank_2_by_hand(self):
        """Places 0 to 5 are T of 1, s_1, s_2, s_1 s_2, s_2 s_1 and s_1 s_2 s_1. Block 1 is as it is, block 2 goes through T_1: for the last
        this is T_1 T_1 = (q - 1) T_1 + q, of trace (q - 1) z + q."""
        for q in PARAMETERS:
            for z in ZS:
                due = 1, z, z, z * z, z * z, z * ((q - 1) * z + q)
                self.assertEqual([a.trace(2, q, z, a.basis(w)) for w in a.permutations(2)], [x % a.WORD for x in due])
        self.assertEqual(a.trace(2, 3, 5, [10 ** k for k in range(6)]), 1 + 50 + 500 + 25_000 + 250_000 + 6_500_000)

    def test_unit(self):
        for m in range(7):
            for q in PARAMETERS:
                for z in ZS:
                    self.assertEqual(a.trace(m, q, z, a.unit(m)), 1)

    def test_linear(self):
        source = random.Random(19)
        for m in range(6):
            for q in PARAMETERS:
                h, g = random_element(source, m), random_element(source, m)
                c, z = source.randrange(a.WORD), source.choice([*ZS, source.randrange(a.WORD)])
                both = (a.trace(m, q, z, h) + c * a.trace(m, q, z, g)) % a.WORD
                self.assertEqual(a.trace(m, q, z, a.add(h, a.scale(c, g))), both)

    def test_added_strand(self):
        """tr(x T_m y) = z tr(xy) for x and y of rank m - 1. Their product has the same trace at rank m."""
        source = random.Random(20)
        for m in range(1, 5):
            for q in PARAMETERS:
                x, y = random_element(source, m - 1), random_element(source, m - 1)
                above = [at_rank(m, h) for h in (x, y)]
                crossed = a.product(m, q, a.times_generator(m, q, above[0], m), above[1])
                for z in ZS:
                    below = a.trace(m - 1, q, z, a.product(m - 1, q, x, y))
                    self.assertEqual(a.trace(m, q, z, a.product(m, q, *above)), below)
                    self.assertEqual(a.trace(m, q, z, crossed), z * below % a.WORD)

    def test_added_strand_crossed_the_other_way(self):
        """With the inverse of T_m, which is q' T_m + q' - 1, the factor is q' z + q' - 1."""
        source = random.Random(21)
        for m in range(1, 5):
            for q in ODD:
                x, z = random_element(source, m - 1), source.randrange(a.WORD)
                above, inverse = at_rank(m, x), pow(q, -1, a.WORD)
                due = (inverse * z + inverse - 1) * a.trace(m - 1, q, z, x) % a.WORD
                self.assertEqual(a.trace(m, q, z, a.act(m, q, above, [-m])), due)

    def test_different_generators(self):
        """A product of different generators, in any order, has the trace z to the power of their number."""
        source = random.Random(22)
        for m in range(1, 6):
            for _ in range(8):
                word = source.sample(range(1, m + 1), source.randint(1, m))
                for q in (3, 2):
                    self.assertEqual(a.trace(m, q, 5, a.act(m, q, a.unit(m), word)), 5 ** len(word))


class Inverses(unittest.TestCase):
    def test_inverse_of_t_1(self):
        """At q = 3 the inverse of T_1 is a T_1 + a - 1, where 3 a = 2^65 + 1."""
        a_ = (2 ** 65 + 1) // 3
        self.assertEqual(a.times_inverse(1, 3, [1, 0], 1), [a_ - 1, a_])
        self.assertEqual(a.times_inverse(1, 1, [5, 7], 1), [7, 5])
        self.assertEqual(a.times_inverse(1, a.WORD - 1, [1, 0], 1), [a.WORD - 2, a.WORD - 1])

    def test_on_basis_elements(self):
        """T_w times the inverse of T_s is T_{ws} when ws is shorter than w, else q' T_{ws} + (q' - 1) T_w."""
        for m in range(1, 5):
            for i in range(1, m + 1):
                for w in a.permutations(m):
                    ws = p.product(w, p.generator(m, i))
                    for q in ODD:
                        expected, inverse = a.basis(ws), pow(q, -1, a.WORD)
                        if p.length(ws) > p.length(w):
                            expected = a.add(a.scale(inverse, a.basis(ws)), a.scale(inverse - 1, a.basis(w)))
                        self.assertEqual(a.times_inverse(m, q, a.basis(w), i), expected)

    def test_undoes_a_letter_and_is_undone(self):
        source = random.Random(11)
        for m in range(1, 5):
            for q in ODD:
                h = random_element(source, m)
                for i in range(1, m + 1):
                    self.assertEqual(a.act(m, q, h, [i, -i]), h)
                    self.assertEqual(a.act(m, q, h, [-i, i]), h)

    def test_is_a_product(self):
        source = random.Random(12)
        for m in range(1, 4):
            for q in ODD:
                h = random_element(source, m)
                for i in range(1, m + 1):
                    self.assertEqual(a.act(m, q, h, [-i]), a.product(m, q, h, a.times_inverse(m, q, a.unit(m), i)))

    def test_relations(self):
        source = random.Random(13)
        for m in range(2, 5):
            for q in ODD:
                h = random_element(source, m)
                for i in range(1, m):
                    for word, same in (([i, i + 1, -i], [-i - 1, i, i + 1]), ([-i, -i - 1, -i], [-i - 1, -i, -i - 1])):
                        self.assertEqual(a.act(m, q, h, word), a.act(m, q, h, same))
                    for j in range(i + 2, m + 1):
                        self.assertEqual(a.act(m, q, h, [i, -j]), a.act(m, q, h, [-j, i]))

    def test_mirror_brings_home(self):
        source = random.Random(14)
        self.assertEqual(a.mirror([1, -2, 3]), [-3, 2, -1])
        for m in range(1, 6):
            for q in ODD:
                start = random_element(source, m)
                h, word = list(start), [source.choice((1, -1)) * source.randint(1, m) for _ in range(21)]
                count = 21 * a.letter_count(m)
                self.assertEqual(a.call_act_signed(m, q, h, word), count)
                self.assertNotEqual(h, start)
                self.assertEqual(a.call_act_signed(m, q, h, a.mirror(word)), count)
                self.assertEqual(h, start)

    def test_letters_above_0_are_those_of_a_word(self):
        source = random.Random(15)
        for q in PARAMETERS:
            h = random_element(source, 3)
            g, word = list(h), [source.randint(1, 3) for _ in range(21)]
            self.assertEqual(a.call_act_signed(3, q, g, word), a.call_act(3, q, h, word))
            self.assertEqual(g, h)


class Calls(unittest.TestCase):
    def test_results_and_counts(self):
        result, scratch = [9] * 6, [9] * 50
        h, g = [1, 2, 3, 4, 5, a.WORD - 1], [6, 5, 4, 3, 2, 1]
        self.assertEqual(a.call_sum(2, h, g, result), 6)
        self.assertEqual(result, [7, 7, 7, 7, 7, 0])
        self.assertEqual(a.call_scale(2, 2 ** 63, h, result), 6)
        self.assertEqual(result, [2 ** 63, 0, 2 ** 63, 0, 2 ** 63, 2 ** 63])
        self.assertEqual(a.call_product(2, 3, h, g, result, scratch), 118)
        self.assertEqual((result, scratch), (a.product(2, 3, h, g), [0] * 48 + [9] * 2))
        self.assertEqual(a.call_act(2, 3, h, [1, 1, 2]), 27)
        self.assertEqual(h, a.act(2, 3, [1, 2, 3, 4, 5, a.WORD - 1], [1, 1, 2]))
        self.assertEqual(a.call_pairing(2, 3, [1, 2, 3, 4, 5, 6], g), 6 + 3 * (10 + 12) + 9 * (4 * 2 + 5 * 3) + 27 * 6)
        scratch = [9] * 50
        self.assertEqual(a.call_trace(2, 3, 5, g, scratch), 6 + 5 * (5 + 4) + 25 * (3 + 2) + 65 * 1)
        self.assertEqual((g, scratch), ([6, 5, 4, 3, 2, 1], [0] * 48 + [9] * 2))

    def test_rank_0(self):
        h, result = [5], [9]
        self.assertEqual(a.call_act(0, 3, h, []), 0)
        self.assertEqual((a.call_product(0, 3, h, [7], result, [9] * 6), result), (1, [35]))
        self.assertEqual(a.call_pairing(0, 3, h, [7]), 35)
        self.assertEqual((a.call_trace(0, 3, 9, h, scratch := [9] * 7), scratch), (5, [0] * 6 + [9]))

    def test_rank_6(self):
        size = a.size(6)
        result, scratch = [9] * size, [9] * (12 * size)
        h = random_element(random.Random(10), 6)
        self.assertEqual(a.call_sum(6, h, h, result), size)
        self.assertEqual(a.call_product(6, 3, h, a.unit(6), result, scratch), 99518160)
        self.assertEqual((result, scratch), (h, [0] * (12 * size)))
        self.assertEqual(a.call_pairing(6, 3, h, a.unit(6)), h[0])
        scratch = [9] * (12 * size + 1)
        self.assertEqual(a.call_trace(6, 3, 0, h, scratch), h[0])
        self.assertEqual(scratch, [0] * (12 * size) + [9])

    def test_4096_letters(self):
        h = [1, 0]
        self.assertEqual(a.call_act(1, 1, h, [1] * 4096), 3 * 4096)
        self.assertEqual(h, [1, 0])


class Refusals(unittest.TestCase):
    def test_1_rank(self):
        for m in (7, 255):
            with refused(self, 1, 0, h := [9]):
                a.call_sum(m, [], [], h)
            with refused(self, 1, 0, h):
                a.call_scale(m, 0, [], h)
            with refused(self, 1, 0, h):
                a.call_act(m, 0, h, [0])
            with refused(self, 1, 0, h):
                a.call_product(m, 0, [], [], h, [])
            for lists in (([], []), ([9], [9]), ([9] * 5040, [9] * 5041)):
                with refused(self, 1, 0, *lists):
                    a.call_pairing(m, 0, *lists)
                with refused(self, 1, 0, *lists):
                    a.call_trace(m, 0, 5, *lists)

    def test_2_element(self):
        for wrong in ([], [1], [1] * 3):
            for place in range(3):
                lists = [[1, 2], [3, 4], [9, 9]]
                lists[place] = list(wrong)
                with refused(self, 2, 0, *lists):
                    a.call_sum(1, *lists)
                with refused(self, 2, 0, *lists):
                    a.call_product(1, 3, *lists, [])
            with refused(self, 2, 0, wrong):
                a.call_scale(1, 3, [1, 2], wrong)
            with refused(self, 2, 0, result := [9, 9]):
                a.call_scale(1, 3, wrong, result)
            with refused(self, 2, 0, wrong):
                a.call_act(1, 3, wrong, [0])
            for lists in ((wrong, [3, 4]), ([1, 2], wrong), (wrong, wrong), (wrong, [9] * 4)):
                with refused(self, 2, 0, *lists):
                    a.call_pairing(1, 3, *lists)
            for scratch in ([9] * 14, [9] * 13, []):
                with refused(self, 2, 0, wrong, scratch):
                    a.call_trace(1, 3, 5, wrong, scratch)

    def test_3_scratch(self):
        for m, short in ((0, 5), (1, 13), (2, 47)):
            h = [1] * a.size(m)
            with refused(self, 3, 0, result := [9] * a.size(m), scratch := [9] * short):
                a.call_product(m, 3, h, h, result, scratch)
            for few in (short, short - 1, 0):
                with refused(self, 3, 0, h, scratch := [9] * few):
                    a.call_trace(m, 3, 5, h, scratch)

    def test_4_word(self):
        for word, place in (([0], 0), ([1, 3], 1), ([1, 2, 0, 9], 2), ([0] * 4097, 4096), ([1] * 4095 + [3], 4095)):
            with refused(self, 4, place, h := [1] * 6):
                a.call_act(2, 3, h, word)
        with refused(self, 4, 0, h := [1]):
            a.call_act(0, 3, h, [1])

    def test_signed_words(self):
        """1, 2, 4 and 15 in this order; even q has no inverse and is refused only where a letter needs one."""
        for q in (2, 3):
            for m, words in ((7, 5040), (255, 0)):
                with refused(self, 1, 0, h := [9] * words):
                    a.call_act_signed(m, q, h, [0, -1])
            for words in (0, 5, 7):
                with refused(self, 2, 0, h := [9] * words):
                    a.call_act_signed(2, q, h, [-1, 0])
            for word, place in (([0], 0), ([1, 3], 1), ([-1, -3], 1), ([-1, 2, 0, 9], 2), ([-128], 0), ([1, -128], 1), ([127], 0),
                                ([0] * 4097, 4096), ([-1] * 4097, 4096), ([-1] * 4095 + [-3], 4095)):
                with refused(self, 4, place, h := [1] * 6):
                    a.call_act_signed(2, q, h, word)
            for letter in (1, 0, -1, -128):
                with refused(self, 4, 0, h := [1]):
                    a.call_act_signed(0, q, h, [letter])
        for q in (0, 2, 2 ** 63, a.WORD - 2):
            for word, place in (([-1], 0), ([1, 2, -2, -1], 2), ([2] * 4095 + [-1], 4095)):
                with refused(self, 15, place, h := [1] * 6):
                    a.call_act_signed(2, q, h, word)
            self.assertEqual(a.call_act_signed(2, q, [1] * 6, [1, 2]), 18)
            self.assertEqual(a.call_act_signed(2, q, [1] * 6, []), 0)
            self.assertEqual(a.call_act_signed(0, q, [1], []), 0)
