"""The walk over an image list reads each image once: the code goes over the list in one place, the loop of the walk, hands the list on to
one walk, and else asks for its length; and the walk reads the image that the loop gives in one place."""
import re
import unittest
from pathlib import Path

SOURCE = Path(__file__).resolve().parents[2] / 'crates' / 'image_walk' / 'src' / 'lib.rt'


def code():
    """The source without comments, imports and contracts."""
    lines = SOURCE.read_text(encoding='utf-8').split('\n')
    return '\n'.join(line for line in lines if not re.match(r'\s*(//|use |ghost |requires |ensures )', line))


class Reads(unittest.TestCase):
    def test_an_image_is_read_at_one_place(self):
        text = code()
        uses = re.findall(r'\w*\(images, |images: |images\.(?:len|is_empty)\(\)|images\S*', text)
        handed = [use for use in uses if use not in ('images: ', 'images.len()', 'images.is_empty()')]
        self.assertEqual(handed, ['images.iter().enumerate()', 'walk(images, ', 'vet(images, '])
        loop = re.search(r'fn walk\(.*?    for \(i, x\) in images\.iter\(\)\.enumerate\(\) \{\n(.*?)\n    \}\n', text, re.DOTALL).group(1)
        self.assertNotRegex(loop, r'images(?!\.len\(\))')
        self.assertEqual(len(re.findall(r'\bx\b', loop)), 1, 'the image that the loop gives is read once')
