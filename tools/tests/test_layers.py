"""The picture of the crates: each is drawn once, boxes stand apart, arrows lead from row to row, and few of them cross."""
import os
import re
import subprocess
import sys
import unittest
from itertools import combinations
from pathlib import Path
from unittest.mock import patch
from xml.etree import ElementTree

from tools import layers

ROOT = Path(__file__).resolve().parents[2]
MANY = {f'crate_{i}': [f'crate_{j}' for j in sorted({i // 3, i // 2, i - 8, i - 6, i - 5}) if 0 <= j < i] + ['io', 'libc']
        for i in range(30)}
STEP = re.compile(r'M(\S+) (\S+) C\S+ \S+ \S+ \S+ (\S+) (\S+?)(?: V(\S+))?')


def elements(picture, tag):
    return ElementTree.fromstring(picture).findall('{http://www.w3.org/2000/svg}' + tag)


def boxes(picture):
    """The left side and the top of each crate's box, with the names in it."""
    corners = [(float(rect.get('x')), float(rect.get('y'))) for rect in elements(picture, 'rect') if rect.get('rx') == '6']
    names = [(text.text, float(text.get('x')), float(text.get('y'))) for text in elements(picture, 'text')
             if text.get('class') == 'name']
    return [(x, y, [name for name, u, v in names if u == x + layers.WIDE / 2 and y < v < y + layers.HIGH]) for x, y in corners]


def steps(picture):
    """Where each step starts and ends, and how far down it goes on from there, or None."""
    return [tuple(number and float(number) for number in STEP.fullmatch(path.get('d')).groups())
            for path in elements(picture, 'path')]


def arranged(crates):
    rests = layers.reduced(crates)
    rows, ways = layers.rows_and_steps(rests, layers.levels(rests))
    return layers.arranged(rows, ways), ways


def crossings(middles, ways):
    ends = [(n, middles[n][a], middles[n - 1][b]) for n, a, b in ways]
    return sum(n == m and (a - c) * (b - d) < 0 for (n, a, b), (m, c, d) in combinations(ends, 2))


class Reduced(unittest.TestCase):
    def test_what_another_need_depends_on_is_left_out(self):
        crates = {'a': ['libc'], 'b': ['a'], 'c': ['a', 'b', 'io'], 'd': ['a', 'c'], 'e': ['b', 'a'], 'f': ['a', 'd', 'e', 'b']}
        self.assertEqual(layers.reduced(crates), {'a': [], 'b': ['a'], 'c': ['b'], 'd': ['c'], 'e': ['b'], 'f': ['d', 'e']})

    def test_all_that_is_left_out_is_reached(self):
        rests, below = layers.reduced(MANY), {}
        for name, needs in rests.items():
            below[name] = {name}.union(*(below[d] for d in needs))
            self.assertLessEqual({d for d in MANY[name] if d in MANY}, below[name])
            self.assertFalse([(a, b) for a in needs for b in needs if a != b and a in below[b]])


class Picture(unittest.TestCase):
    @classmethod
    def setUpClass(cls):
        cls.picture = layers.drawn(MANY)
        cls.boxes = boxes(cls.picture)

    def test_every_crate_once(self):
        self.assertEqual(sorted(names for _, _, names in self.boxes), sorted([name] for name in MANY))

    def test_boxes_stand_apart(self):
        for (x, y, _), (u, v, _) in combinations(self.boxes, 2):
            self.assertTrue(abs(x - u) >= layers.WIDE + layers.APART if y == v else abs(y - v) >= layers.HIGH + layers.BETWEEN)

    def test_all_is_inside(self):
        width, height = (float(ElementTree.fromstring(self.picture).get(side)) for side in ('width', 'height'))
        for x, y, _ in self.boxes:
            self.assertTrue(0 < x < width - layers.WIDE and 0 < y < height - layers.HIGH)
        for x, _, u, _, _ in steps(self.picture):
            self.assertTrue(0 < x < width and 0 < u < width)

    def test_steps_go_to_the_next_row(self):
        tops = {y for _, y, _ in self.boxes}
        for _, y, u, v, end in steps(self.picture):
            self.assertIn(y - layers.HIGH, tops)
            self.assertIn(v, tops)
            self.assertEqual(v - y, layers.BETWEEN)
            if end is not None:
                self.assertEqual(end - v, layers.HIGH)
                self.assertFalse([x for x, y, _ in self.boxes if y == v and x <= u <= x + layers.WIDE])

    def test_arrows_join_what_rests_on_what(self):
        """Each is followed down, step by step."""
        tops = {(x + layers.WIDE / 2, y): names[0] for x, y, names in self.boxes}
        sources = {(x, y + layers.HIGH): name for (x, y), name in tops.items()}
        found = []
        for x, y, u, v, end in sorted(steps(self.picture), key=lambda step: step[1]):
            if end is None:
                found.append((sources[x, y], tops[u, v]))
            else:
                self.assertNotIn((u, end), sources)
                sources[u, end] = sources[x, y]
        self.assertEqual(sorted(found), sorted((name, d) for name, needs in layers.reduced(MANY).items() for d in needs))

    def test_captions(self):
        """A long one is cut after three lines, and a missing one is drawn as none."""
        legend = 4
        self.assertEqual(len(elements(self.picture, 'text')), len(MANY) + legend)
        with patch.object(layers, 'captions', lambda: {'a': 'word ' * 40, 'b': 'short & plain'}):
            texts = [text.text for text in elements(layers.drawn({'a': [], 'b': ['a'], 'c': ['b']}), 'text')]
        self.assertEqual(len(texts), 3 + 3 + 1 + legend)
        self.assertIn('short & plain', texts)
        self.assertTrue(any(text.endswith('word ...') for text in texts))

    def test_the_same_again(self):
        self.assertEqual(layers.drawn(MANY), self.picture)
        made = 'import sys; from tools.tests.test_layers import MANY, layers; sys.stdout.write(layers.drawn(MANY))'
        for seed in '12':
            done = subprocess.run([sys.executable, '-c', made], cwd=ROOT, env={**os.environ, 'PYTHONHASHSEED': seed},
                                  capture_output=True, check=True, encoding='utf-8')
            self.assertEqual(done.stdout, self.picture)


class Order(unittest.TestCase):
    def test_crossed_pairs(self):
        """As listed, each two of the three arrows cross; a sweep and a sift take all crossings away, each by itself."""
        crates = {'a': [], 'b': [], 'c': [], 'd': ['c'], 'e': ['b'], 'f': ['a']}
        rows, ways = layers.rows_and_steps(crates, layers.levels(crates))
        listed, near = [layers.numbered(order) for order in rows], layers.joined(rows, ways)
        self.assertEqual(layers.crossings(listed, near), 3)
        for found in (layers.swept(listed, near, 0), layers.swept(listed, near, 1), layers.sifted(listed, near)):
            self.assertEqual(layers.crossings(found, near), 0)
        self.assertEqual(crossings(*arranged(crates)), 0)

    def test_arrow_through_a_row(self):
        """As listed, the arrow from e to a passes the row of c and d at its right end."""
        crates = {'a': [], 'b': [], 'c': ['b'], 'd': ['b'], 'e': ['c', 'a'], 'f': ['d']}
        middles, ways = arranged(crates)
        self.assertEqual(set(middles[1]), {'c', 'd', ('e', 'a')})
        self.assertEqual(crossings(middles, ways), 0)

    def test_ladder(self):
        """Five rows of six crates, listed in another order in each row, whose arrows need not cross."""
        crates = {}
        for n in range(5):
            for i in sorted(range(6), key=lambda i: (i + 1) * (n + 2) % 7):
                crates[f'{n}.{i}'] = [f'{n - 1}.{j}' for j in (i, i + 1) if n and j < 6]
        self.assertEqual(crossings(*arranged(crates)), 0)

    def test_one_crossing_is_left(self):
        """Two crates that both rest on the same two."""
        self.assertEqual(crossings(*arranged({'a': [], 'b': [], 'c': ['a', 'b'], 'd': ['a', 'b']})), 1)

    def test_counted_alike(self):
        middles, ways = arranged(MANY)
        near = layers.joined(middles, ways)
        self.assertEqual(layers.crossings([layers.numbered(list(at)) for at in middles], near), crossings(middles, ways))

    def test_row_in_order(self):
        for at in arranged(MANY)[0]:
            places = list(at)
            for a, b in zip(places, places[1:]):
                self.assertGreaterEqual(at[b] - at[a], layers.gap(a, b))


class Straightened(unittest.TestCase):
    def test_an_arrow_goes_straight_where_there_is_space(self):
        way = ('a', 'b')
        near = layers.gap('c', way)
        for right, straight in ((2 * near + 40, True), (2 * near - 40, False)):
            middles = [{'c': 0.2, way: near + 0.2}, {way: 0.2, 'd': right + 0.2}]
            at = {True: [near, near], False: [near, 0]}[straight]
            self.assertEqual(layers.straightened(middles), [{'c': 0, way: at[0]}, {way: at[1], 'd': right}])
            mirrored = [{place: -x for place, x in reversed(row.items())} for row in middles]
            self.assertEqual(layers.straightened(mirrored), [{way: -at[0], 'c': 0}, {'d': -right, way: -at[1]}])
