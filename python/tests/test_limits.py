"""Pixels known between limits, against a second implementation: python3 -m unittest test_limits"""
import itertools
import random
import unittest

import zakdomp
from common import CROSS, RING, whole_case


def terms(s, cross):
    """The absolute values of a response as pairs of sums, with what each counts in fifths."""
    four = [((s[k], s[k + 8]), (s[k + 4], s[k + 12]), 5) for k in range(4)]
    eight = [((s[k],), (s[k + 8],), -5) for k in range(8)]
    return four + eight + [(5 * list(s), 16 * list(cross), -1)]


def exact(image, w, h, radius, x, y):
    """Five times the exact response of a cell."""
    if not (radius <= x < w - radius and radius <= y < h - radius):
        return 0
    s = [image[(y + dy * radius // 5) * w + x + dx * radius // 5] for dx, dy in RING]
    cross = [image[(y + dy) * w + x + dx] for dx, dy in CROSS]
    return sum(weight * abs(sum(a) - sum(b)) for a, b, weight in terms(s, cross))


def extremes(a, b):
    """The least and the greatest of |A - B|, A and B being sums of numbers that are known as pairs, low and high."""
    values = [sum(v[i] for v in a) - sum(v[1 - i] for v in b) for i in (0, 1)]
    least = 0 if values[0] <= 0 <= values[1] else min(map(abs, values))
    return least, max(map(abs, values))


def limits(low, high, w, h, radius, x, y):
    """The two numbers of a cell, term by term."""
    if not (radius <= x < w - radius and radius <= y < h - radius):
        return 0, 0
    known = list(zip(low, high))
    s = [known[(y + dy * radius // 5) * w + x + dx * radius // 5] for dx, dy in RING]
    cross = [known[(y + dy) * w + x + dx] for dx, dy in CROSS]
    found = [(weight, extremes(a, b)) for a, b, weight in terms(s, cross)]
    return (sum(weight * ends[weight < 0] for weight, ends in found),
            sum(weight * ends[weight > 0] for weight, ends in found))


def is_sure(lows, highs, w, h, x, y, ring, threshold, window, least, centroid):
    border = ring + window + centroid
    if not (border <= x < w - border and border <= y < h - border):
        return False
    reach = range(-window, window + 1)
    around = [(y + dy) * w + x + dx for dy, dx in itertools.product(reach, reach) if (dx, dy) != (0, 0)]
    low = lows[y * w + x]
    return low > 5 * threshold and all(highs[i] <= low for i in around) and sum(lows[i] > 0 for i in around) >= least


def images(rng, cells):
    """Two images of which the first is nowhere above the second."""
    far = rng.choice((0, 1, 5, 60, 255))
    low = bytes(rng.randrange(256) for _ in range(cells))
    return low, bytes(min(255, v + rng.randint(0, far)) for v in low)


class Limits(unittest.TestCase):
    def test_the_whole_case(self):
        image = whole_case()
        less, more = bytes(max(v - 1, 0) for v in image), bytes(min(v + 1, 255) for v in image)
        dark, light = bytearray(image), bytearray(image)
        dark[60], light[60] = 127, 130
        for low, high, numbers in ((less, more, (9920, 10200)), (dark, light, (10128, 10176)),
                                   (bytes(121), 121 * b"\xff", (-30600, 10200)),
                                   (image, image, (10160, 10160))):
            found = zakdomp.response_limits(low, high, 11, 11)
            self.assertEqual((found.lows[60], found.highs[60]), numbers)
            self.assertEqual((sum(map(abs, found.lows)), sum(map(abs, found.highs))), tuple(map(abs, numbers)))

    def test_random_images(self):
        rng = random.Random(9)
        for _ in range(60):
            w, h, ring = rng.randint(1, 30), rng.randint(1, 30), rng.choice((5, 10))
            low, high = images(rng, w * h)
            found = zakdomp.response_limits(low, high, w, h, ring=ring)
            places = [(x, y) for y in range(h) for x in range(w)]
            self.assertEqual(list(zip(*found)), [limits(low, high, w, h, ring, x, y) for x, y in places])
            between = bytes(rng.randint(a, b) for a, b in zip(low, high))
            for (x, y), least, most in zip(places, *found):
                self.assertTrue(least <= exact(between, w, h, ring, x, y) <= most)
            known = zakdomp.response_limits(between, between, w, h, ring=ring)
            self.assertEqual(known.lows, known.highs)
            self.assertEqual(known.lows, [exact(between, w, h, ring, x, y) for x, y in places])

    def test_limits_are_met(self):
        """With one unknown pixel of two values the limits are the two responses, where no term turns between them."""
        rng = random.Random(10)
        met = 0
        for _ in range(200):
            image = bytearray(rng.randbytes(121))
            low, high = bytearray(image), bytearray(image)
            dx, dy = rng.choice(RING)
            at = (5 + dy) * 11 + 5 + dx
            low[at], high[at] = sorted((rng.randrange(256), rng.randrange(256)))
            found = zakdomp.response_limits(low, high, 11, 11)
            ends = [exact(i, 11, 11, 5, 5, 5) for i in (low, high)]
            self.assertTrue(found.lows[60] <= min(ends) and max(ends) <= found.highs[60])
            met += found.lows[60] == min(ends) or found.highs[60] == max(ends)
        self.assertGreater(met, 20)

    def test_refusals(self):
        low, high = bytes(121), 121 * b"\x01"
        for number, arguments, ring in ((1, (high, low[:120], 4097, 11), 6), (2, (high, low[:120], 11, 11), 6),
                                        (2, (high[:120], low, 11, 11), 6),
                                        (15, (high, low, 11, 11), 6), (3, (low, high, 11, 11), 6)):
            with self.assertRaises(zakdomp.Refusal) as refused:
                zakdomp.response_limits(*arguments, ring=ring)
            self.assertEqual(refused.exception.number, number)
        self.assertEqual(zakdomp.response_limits(b"", b"", 0, 0), ([], []))


class SurePeaks(unittest.TestCase):
    def test_any_maps(self):
        rng = random.Random(11)
        answers = {True: 0, False: 0}
        for _ in range(600):
            w, h = rng.randint(13, 19), rng.randint(13, 19)
            span = rng.choice((3, 100, (1 << 31) - 1))
            lows, highs = ([rng.randint(-span, span) for _ in range(w * h)] for _ in range(2))
            x, y = w // 2 + rng.randint(-2, 2), h // 2 + rng.randint(-2, 2)
            if rng.random() < 0.5:
                highs = [min(v, lows[y * w + x]) for v in highs]
                highs[y * w + x] = (1 << 31) - 1
            names = {"threshold": rng.choice((0, 0, 1, rng.randrange(1 << 32))), "window": rng.randint(0, 2),
                     "least_neighbours": rng.randint(0, 4),
                     "centroid_radius": rng.randint(0, 1)}
            sure = zakdomp.sure_peak(lows, highs, w, h, x, y, **names)
            self.assertEqual(sure, is_sure(lows, highs, w, h, x, y, 5, *names.values()))
            answers[sure] += 1
        self.assertGreater(min(answers.values()), 20)

    def test_thresholds(self):
        found = zakdomp.response_limits(whole_case(), whole_case(), 11, 11)
        for threshold, sure in ((0, True), (2031, True), (2032, False), (858_993_459, False), (858_993_460, False),
                                ((1 << 32) - 1, False)):
            self.assertEqual(zakdomp.sure_peak(*found, 11, 11, 5, 5, threshold=threshold, window=0, least_neighbours=0,
                                               centroid_radius=0), sure)

    def test_refusals(self):
        cells, more = 121 * [7], 122 * [7]
        for number, arguments, names in ((1, (cells, more, 4097, 11, 11, 0), {"ring": 6}),
                                         (2, (cells, more, 11, 11, 11, 0), {"ring": 6}),
                                         (2, (more, cells, 11, 11, 11, 0), {"ring": 6}),
                                         (3, (cells, cells, 11, 11, 11, 0), {"ring": 6}),
                                         (3, (cells, cells, 11, 11, 11, 0), {"window": 17}),
                                         (3, (cells, cells, 11, 11, 0, 0), {"centroid_radius": 17}),
                                         (14, (cells, cells, 11, 11, 11, 0), {}),
                                         (14, (cells, cells, 11, 11, 0, 11), {}), (14, ([], [], 0, 0, 0, 0), {})):
            with self.assertRaises(zakdomp.Refusal) as refused:
                zakdomp.sure_peak(*arguments, **names)
            self.assertEqual(refused.exception.number, number)
        with self.assertRaises(ValueError):
            zakdomp.sure_peak([1 << 31], [0], 1, 1, 0, 0)


if __name__ == "__main__":
    unittest.main()
