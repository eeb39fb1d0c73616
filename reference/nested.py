"""The nested method (document 01, Proposition 3.2 and "The count"; document 02, Ticket 5), which counts its ring operations as it
goes.

Only the tests use it: its values check the product by the definition, and its counts the recursions c and C.

Part k of the product of h with g, of rank l, is (h g_k) T_{a(l, k)}. An order is a function that gives for each rank l the list of
the parts k as they are added.
"""
from functools import reduce
from math import factorial

from reference.algebra import WORD, size


def falling(l):
    """From k = l down to 0: the library's order."""
    return list(range(l, -1, -1))


def rising(l):
    """From k = 0 up to l: document 01's order."""
    return list(range(l + 1))


class Nested:
    def __init__(self, q):
        self.q = q
        self.sums = self.products = 0

    @property
    def count(self):
        return self.sums + self.products

    def add(self, h, g):
        self.sums += len(h)
        return [(x + y) % WORD for x, y in zip(h, g)]

    def scale(self, c, h):
        self.products += len(h)
        return [c * x % WORD for x in h]

    def action(self, m, h, j, l):
        """h T_{a(j, l)} for h of rank m."""
        if l == 0:
            return h
        h = blocks(h, factorial(m))
        parts = [self.action(m - 1, h[m - j + i], j - 1, i - 1) for i in range(1, l + 1)]
        total = reduce(self.add, parts)
        result = []
        for k in range(m + 1):
            if k < m - j:
                result += self.action(m - 1, h[k], j, l)
            elif k < m - j + l:
                i = k + 1 - (m - j)
                result += self.scale(self.q, self.action(m - 1, parts[i - 1], j - i, l - i))
            elif k == m - j + l:
                result += self.add(h[m - j], self.scale(self.q - 1, total))
            else:
                result += self.action(m - 1, h[k], j - 1, l)
        return result

    def product(self, m, h, l, g, order):
        """h g for h of rank m and g of rank l. Each part is made and added before the next one is made, at every level in its order."""
        if l == 0:
            return self.scale(g[0], h)
        g = blocks(g, size(l - 1))
        parts = (self.action(m, self.product(m, h, l - 1, g[k], order), l, k) for k in order(l))
        return reduce(self.add, parts)


def blocks(h, length):
    return [h[k:k + length] for k in range(0, len(h), length)]
