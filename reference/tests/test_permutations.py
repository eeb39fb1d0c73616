"""Document 01's section "Permutations and towers", its cases and edges, and towers against permutations."""
import random
import unittest
from itertools import permutations as arrangements

from reference import permutations as p
from reference.tests.support import refused

EXAMPLE = [8, 4, 1, 6, 2, 7, 5, 10, 9, 3]


def all_of_rank(m):
    return [list(w) for w in arrangements(p.identity(m))]


def cycle(m, j, k):
    """a(j, k) as a permutation of rank m."""
    return p.of_word(m, p.cycle(j, k))


class Cases(unittest.TestCase):
    def test_marked_tower(self):
        self.assertEqual(p.tower([2, 3, 1]), [0, 2])

    def test_unmarked_tower_and_inverse(self):
        self.assertEqual(p.tower(EXAMPLE), [1, 2, 1, 3, 1, 3, 0, 1, 7])
        self.assertEqual(p.tower(p.inverse(EXAMPLE)), [0, 0, 3, 1, 3, 2, 7, 1, 2])

    def test_products_are_read_left_to_right(self):
        self.assertEqual(p.of_word(2, [2, 1]), [2, 3, 1])
        self.assertEqual(p.of_word(2, [1, 2]), [3, 1, 2])


class TwoWays(unittest.TestCase):
    def test_tower_by_counting_and_by_words(self):
        for m in range(7):
            for w in all_of_rank(m):
                t = p.tower(w)
                self.assertTrue(all(0 <= a <= j for j, a in enumerate(t, 1)))
                self.assertEqual(p.of_tower(t), w)
                self.assertEqual(len(p.standard_word(t)), p.length(w))

    def test_large_towers(self):
        source = random.Random(1)
        for m in (20, 62, 63):
            t = [source.randint(0, j) for j in range(1, m + 1)]
            self.assertEqual(p.tower(p.of_tower(t)), t)
            self.assertEqual(sum(t), p.length(p.of_tower(t)))

    def test_no_word_is_shorter(self):
        for m in range(5):
            reached, words = {tuple(p.identity(m))}, 0
            while reached:
                self.assertTrue(all(p.length(w) == words for w in reached))
                longer = {tuple(p.product(w, p.generator(m, i))) for w in reached for i in range(1, m + 1)}
                reached, words = {w for w in longer if p.length(w) > words}, words + 1
            self.assertEqual(words, m * (m + 1) // 2 + 1)

    def test_descents_by_length_and_by_tower(self):
        for m in range(7):
            for w in all_of_rank(m):
                t = [0] + p.tower(w)
                self.assertEqual(p.descents(w), [i for i in range(1, m + 1) if t[i] > t[i - 1]])

    def test_inverse(self):
        for m in range(6):
            for w in all_of_rank(m):
                self.assertEqual(p.product(w, p.inverse(w)), p.identity(m))

    def test_proposition_2_6(self):
        for m in range(1, 7):
            for j in range(1, m + 1):
                for k in range(m + 1):
                    for l in range(j + 1):
                        if k < m - j:
                            right = (j, l), (m, k)
                        elif k == m - j:
                            right = (1, 0), (m, k + l)
                        elif k <= m - j + l:
                            right = (j - 1, l - 1), (m, k - 1)
                        else:
                            right = (j - 1, l), (m, k)
                        expected = p.product(cycle(m, *right[0]), cycle(m, *right[1]))
                        self.assertEqual(p.product(cycle(m, m, k), cycle(m, j, l)), expected)


class Calls(unittest.TestCase):
    def test_results(self):
        t = p.tower(EXAMPLE)
        tower, images, inverse = [9] * 9, [9] * 10, [9] * 9
        p.call_tower(EXAMPLE, tower)
        p.call_images(tower, images)
        p.call_inverse(tower, inverse)
        self.assertEqual((tower, images, inverse), (t, EXAMPLE, [0, 0, 3, 1, 3, 2, 7, 1, 2]))
        self.assertEqual(p.call_length(t), 19)
        p.call_product(t, inverse, tower)
        self.assertEqual(tower, [0] * 9)

    def test_word_writes_its_letters_and_nothing_after_them(self):
        for room in (2, 3, 60):
            buffer = [9] * room
            self.assertEqual(p.call_word([0, 2], buffer), 2)
            self.assertEqual(buffer, [2, 1] + [9] * (room - 2))

    def test_descent_mask(self):
        self.assertEqual(p.call_descents([1, 2, 1, 3, 1, 3, 0, 1, 7]), (0b110101011, 6))
        self.assertEqual(p.call_descents(list(range(1, 64))), (2 ** 63 - 1, 63))

    def test_rank_0(self):
        images = [9]
        p.call_tower([1], [])
        p.call_images([], images)
        p.call_inverse([], [])
        p.call_product([], [], [])
        p.call_word([], [])
        self.assertEqual((images, p.call_length([]), p.call_descents([])), ([1], 0, (0, 0)))

    def test_64_images_and_63_entries(self):
        images, tower = list(range(64, 0, -1)), [9] * 63
        p.call_tower(images, tower)
        self.assertEqual(tower, list(range(1, 64)))
        p.call_images(tower, images)
        self.assertEqual(images, list(range(64, 0, -1)))
        self.assertEqual(p.call_length(tower), 63 * 32)


class Refusals(unittest.TestCase):
    def test_5_sizes(self):
        for images in ([], list(range(1, 66)), [0] * 65):
            with refused(self, 5, 0, buffer := [9]):
                p.call_tower(images, buffer)
        long = [0] * 64
        for call in (p.call_images, p.call_inverse, p.call_word):
            with refused(self, 5, 0, buffer := [9]):
                call(long, buffer)
        for call in (p.call_length, p.call_descents):
            with refused(self, 5):
                call(long)
        for first, second in ((long, long), ([0], long), ([0], [0, 0]), ([5], [])):
            with refused(self, 5, 0, buffer := [9]):
                p.call_product(first, second, buffer)

    def test_6_first_bad_image(self):
        for images, place in (([0], 0), ([2], 0), ([1, 3], 1), ([1, 1], 1), ([2, 2, 9], 1), ([3, 1, 0], 2), ([1, 2, 1], 2)):
            with refused(self, 6, place, buffer := [9] * 7):
                p.call_tower(images, buffer)

    def test_7_first_bad_entry(self):
        for t, place in (([2], 0), ([1, 3], 1), ([0, 0, 4, 9], 2)):
            for call in (p.call_images, p.call_inverse, p.call_word):
                with refused(self, 7, place, buffer := [9] * 7):
                    call(t, buffer)
            for call in (p.call_length, p.call_descents):
                with refused(self, 7, place):
                    call(t)
        for first, second, place in (([0, 3], [2, 0], 1), ([0, 2], [2, 0], 0)):
            with refused(self, 7, place, buffer := [9] * 7):
                p.call_product(first, second, buffer)

    def test_8_result_buffer(self):
        for size in (1, 3):
            for call, *lists in ((p.call_tower, [2, 3, 1]), (p.call_inverse, [0, 2]), (p.call_product, [0, 2], [1, 0])):
                with refused(self, 8, 0, buffer := [9] * size):
                    call(*lists, buffer)
        for size in (2, 4):
            with refused(self, 8, 0, buffer := [9] * size):
                p.call_images([0, 2], buffer)
        with refused(self, 8, 0, buffer := [9]):
            p.call_word([0, 2], buffer)
