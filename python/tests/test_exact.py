"""The exact choice, against a second implementation by whole fifths: python3 -m unittest test_exact"""
import random
import struct
import unittest
from fractions import Fraction

import zakdomp
from common import CROSS, RING, SIDE, f32, whole_case

BARE = dict(window=1, least_neighbours=0, centroid_radius=0, merge_radius=0)
WIDE = 13


def tipped():
    """With a window of 1 the middle of 13 by 13 pixels is the one cell inside the border. Its response is 28 fifths,
    and so is that of a cell beside it, whose float is larger: a corner by exact values that rounding tips over."""
    return bytes(7 * place * place % 24 for place in range(WIDE * WIDE))


def faint(side, seed, greys=2):
    """Noise of a few greys, in which responses are often equal."""
    return bytes(random.Random(seed).choices(range(greys), k=side * side))


def fifths(image, side, x, y):
    """A cell's exact response (RULES 3.5); 0 at the edge."""
    if min(x, y) < 5 or max(x, y) + 5 >= side:
        return 0
    s = [image[(y + dy) * side + x + dx] for dx, dy in RING]
    cross = sum(image[(y + dy) * side + x + dx] for dx, dy in CROSS)
    sr = sum(abs(s[k] + s[k + 8] - s[k + 4] - s[k + 12]) for k in range(4))
    dr = sum(abs(s[k] - s[k + 8]) for k in range(8))
    return 5 * (sr - dr) - abs(5 * sum(s) - 16 * cross)


def beside(value):
    """The float nearest to a number, and its two neighbours."""
    bits, = struct.unpack("<I", struct.pack("<f", value))
    return [struct.unpack("<f", struct.pack("<I", bits + step))[0] for step in (-1, 0, 1)]


def exact_list(image, side, window, least, threshold):
    """The exact list of a square image (RULES 10.1), without a centroid radius. The threshold is a number as it is, and
    not the nearest fifth."""
    limit = 5 * Fraction(f32(threshold))
    cells = {(x, y): fifths(image, side, x, y) for y in range(side) for x in range(side)}
    inside = range(5 + window, side - 5 - window)
    found = []
    for x, y in ((x, y) for y in inside for x in inside):
        rows, columns = range(y - window, y + window + 1), range(x - window, x + window + 1)
        others = [cells[u, v] for v in rows for u in columns if (u, v) != (x, y)]
        enough = sum(other > 0 for other in others) >= least
        if cells[x, y] > limit and max(others, default=0) <= cells[x, y] and enough:
            found.append((x, y))
    return found


def places(corners):
    """The cells of corners; a centre of mass of one cell may be rounded beside it."""
    return [(round(corner.x), round(corner.y)) for corner in corners]


class Exact(unittest.TestCase):
    def refused(self, number, function, *arguments, **named):
        with self.assertRaises(zakdomp.Refusal) as caught:
            function(*arguments, **named)
        self.assertEqual(caught.exception.number, number)

    def test_a_corner_that_rounding_tips_over(self):
        image = tipped()
        upload = b"P5 13 13 255\n" + image
        self.assertEqual(zakdomp.find(image, WIDE, WIDE, **BARE), ([], 0))
        frame = zakdomp.find_exact(image, WIDE, WIDE, **BARE)
        self.assertEqual((places(frame.corners), frame.ties), ([(6, 6)], 0))
        self.assertAlmostEqual(frame.corners[0].strength, 5.6, 3)
        self.assertEqual(zakdomp.find_exact_corners(memoryview(image), WIDE, WIDE, **BARE), frame.corners)
        self.assertEqual(zakdomp.find_pgm(upload, **BARE), ([], 0))
        self.assertEqual(zakdomp.find_exact_pgm(upload, **BARE), frame)
        self.assertEqual(zakdomp.find_exact_corners_pgm(bytearray(upload), **BARE), frame.corners)

    def test_noise_of_few_greys(self):
        different = 0
        for seed in range(24):
            image, window, least = faint(36, seed, 2 + seed % 3), 1 + seed % 2, seed % 4
            for threshold in (0, 0.2, 1, 1.4, 1.6, 2.3, 3):
                named = {**BARE, "window": window, "least_neighbours": least, "threshold": threshold}
                found = zakdomp.find_exact_corners(image, 36, 36, **named)
                self.assertEqual(places(found), exact_list(image, 36, window, least, threshold))
                different += zakdomp.find_corners(image, 36, 36, **named) != found
        self.assertGreater(different, 10)

    def test_thresholds_at_and_beside_fifths(self):
        """By floats k fifths may be above a threshold that is not below them, and not above one that is."""
        named, computed_only, exact_only = {**BARE, "window": 0}, set(), set()
        for seed in range(6):
            image = faint(36, seed, 2 + seed % 3)
            for threshold in (near for fifths in (1, 2, 3, 4, 7, 12, 13) for near in beside(fifths / 5)):
                computed, exact = (places(find(image, 36, 36, threshold=threshold, **named))
                                   for find in (zakdomp.find_corners, zakdomp.find_exact_corners))
                self.assertEqual(exact, exact_list(image, 36, 0, 0, threshold), threshold)
                computed_only |= set(computed) - set(exact)
                exact_only |= set(exact) - set(computed)
        self.assertTrue(computed_only and exact_only)

    def test_thresholds_that_are_no_limit_and_that_nothing_is_above(self):
        for threshold, due in ((-1.0, 1), (float("nan"), 1), (2040.0, 0), (2041.0, 0), (1e30, 0), (float("inf"), 0)):
            found = zakdomp.find_exact_corners(tipped(), WIDE, WIDE, threshold=threshold, **BARE)
            self.assertEqual(len(found), due, threshold)
        for threshold, due in ((2031.0, 1), (2031.8, 1), (2032.0, 0)):
            found = zakdomp.find_exact_corners(whole_case(), SIDE, SIDE, threshold=threshold, **{**BARE, "window": 0})
            self.assertEqual(len(found), due, threshold)

    def test_where_nothing_is_tipped(self):
        board = bytes(20 if (x // 48 + y // 48) % 2 == 0 else 220 for y in range(288) for x in range(384))
        for image, width, height, named in ((whole_case(), SIDE, SIDE, {**BARE, "window": 0}),
                                            (board, 384, 288, dict(threshold=30)),
                                            (board, 384, 288, dict(threshold=30, levels=3, minimum_side=20))):
            frame = zakdomp.find(image, width, height, **named)
            self.assertGreater(len(frame.corners), 0)
            self.assertEqual(zakdomp.find_exact(image, width, height, **named), frame)

    def test_refusals_are_those_of_find(self):
        image = tipped()
        for number, sides, named in ((1, (4097, 13), {}), (2, (13, 12), {}), (3, (13, 13), dict(ring=6)),
                                     (5, (13, 13), dict(merge_radius=5000.0))):
            for function in (zakdomp.find, zakdomp.find_exact):
                self.refused(number, function, image, *sides, **{**BARE, **named})
        for number, upload in ((1, b"P5 4097 1 255\n"), (12, b"P6 1 1 255\na"), (13, b"P5 1 1 15\na")):
            for function in (zakdomp.find_pgm, zakdomp.find_exact_pgm):
                self.refused(number, function, upload)
        with self.assertRaises(ValueError):
            zakdomp.find_exact(image, WIDE, WIDE, levels=-1)

    def test_one_of_the_two_may_have_too_many(self):
        self.assertEqual(zakdomp.find(tipped(), WIDE, WIDE, most=0, **BARE), ([], 0))
        self.refused(10, zakdomp.find_exact, tipped(), WIDE, WIDE, most=0, **BARE)
        self.refused(10, zakdomp.find_exact_pgm, b"P5 13 13 255\n" + tipped(), most=0, **BARE)


if __name__ == "__main__":
    unittest.main()
