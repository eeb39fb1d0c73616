"""What the tests share."""
import random
from contextlib import contextmanager

from reference.algebra import WORD, size
from reference.refusals import Refused

# q = 0 and 1 are edges, and at q = 2 a factor q - 1 cannot be seen
PARAMETERS = (0, 1, 2, 3, WORD - 1, 0x9E37_79B9_7F4A_7C15)
ODD = [q for q in PARAMETERS if q % 2]


def random_element(source: random.Random, m):
    return [source.randrange(WORD) for _ in range(size(m))]


@contextmanager
def refused(test, number, place=0, *buffers):
    """The block is refused with this number and place, and leaves the buffers as they were."""
    before = [list(buffer) for buffer in buffers]
    with test.assertRaises(Refused) as caught:
        yield
    test.assertEqual((caught.exception.number, caught.exception.place), (number, place))
    test.assertEqual([list(buffer) for buffer in buffers], before)
