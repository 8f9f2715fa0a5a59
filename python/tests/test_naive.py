"""Corners merged by distance alone, against a second implementation and the merge by cells:
python3 -m unittest test_naive"""
import ctypes
import random
import unittest

import zakdomp
from common import f32
from zakdomp import Corner


def is_near(a, b, radius):
    dx, dy = f32(a.x - b.x), f32(a.y - b.y)
    return f32(f32(dx * dx) + f32(dy * dy)) <= f32(radius * radius)


def merged(corners, joins):
    """What is left by any rule that says which corners join."""
    kept = []
    for c in corners:
        place = next((i for i, o in enumerate(kept) if joins(c, o)), None)
        if place is None:
            kept.append(c)
        elif kept[place].strength < c.strength:
            kept[place] = c
    return kept


def by_distance(corners, radius):
    return merged(corners, lambda c, o: is_near(c, o, radius))


def by_cells(corners, radius):
    """The merge in use (RULES 8), for coordinates in range."""
    if not corners:
        return []
    inverse = f32(1 / radius)
    left, top = min(c.x for c in corners), min(c.y for c in corners)

    def cell(v, least):
        return int(f32(f32(v - least) * inverse))

    def joins(c, o):
        beside = abs(cell(c.x, left) - cell(o.x, left)) <= 1 and abs(cell(c.y, top) - cell(o.y, top)) <= 1
        return beside and is_near(c, o, radius)

    return merged(corners, joins)


def some_corners(rng, coordinate):
    return [Corner(coordinate(), coordinate(), float(rng.randrange(5)), rng.randrange(1 << 32))
            for _ in range(rng.randrange(24))]


class Naive(unittest.TestCase):
    def test_case(self):
        first, second, third = (Corner(x, y, 1.0, 0) for x, y in ((1 - 2 ** -24, 0.0), (2.0, 0.0), (0.0, 100.0)))
        self.assertEqual(zakdomp.merge_naive([first, second, third], 1), [first, third])
        self.assertEqual(by_cells([first, second, third], 1), [first, second, third])
        odd = [Corner(x / 64, 0.0, 1.0, 0) for x in (82, 123, 0)]
        self.assertEqual(zakdomp.merge_naive(odd, 41 / 64), [odd[0], odd[2]])
        self.assertEqual(by_cells(odd, 41 / 64), odd)

    def test_random_lists(self):
        rng = random.Random(12)
        differ = 0
        for case in range(2000):
            step, radius = rng.choice((1.0, 0.1, 1 / 64, 0.37)), f32(rng.choice((1.0, 3.0, 0.7, 2.5, 1 / 64)))
            corners = some_corners(rng, lambda: f32(step * rng.randrange(60)))
            if case % 10 == 0:  # corners of cells 1, 3 and 0, the first two just a radius apart
                radius = 41 / 64
                corners = [Corner(x / 64, 0.0, 1.0, 0) for x in (82, 123, 0)] + corners
            left = zakdomp.merge_naive(corners, radius)
            self.assertEqual(left, by_distance(corners, radius))
            differ += left != by_cells(corners, radius)
        self.assertGreater(differ, 0)

    def test_multiples_of_a_64th(self):
        rng = random.Random(64)
        for case in range(2000):
            radius, most = 2.0 ** (case % 19 - 6), rng.choice((40, 400, 4000, 262145))
            corners = some_corners(rng, lambda: rng.choice((-0.0, *5 * [rng.randrange(most) / 64])))
            self.assertEqual(zakdomp.merge_naive(corners, radius), by_cells(corners, radius))

    def test_off_radius(self):
        corners = [Corner(-1.0, 5.0, 1.0, 2), Corner(-1.0, 5.0, 1.0, 3)]
        for radius in (0.0, -1.0, float("inf"), float("nan")):
            self.assertEqual(zakdomp.merge_naive(corners, radius), corners)
        self.assertEqual(zakdomp.merge_naive([], 1.0), [])

    def test_refusals(self):
        inside, outside = Corner(1.0, 1.0, 1.0, 0), Corner(1.0, 4096.5, 1.0, 0)
        for number, corners, radius in ((4, [inside, outside], 5000), (5, [inside], 5000), (5, [], 1 / 65)):
            with self.assertRaises(zakdomp.Refusal) as refused:
                zakdomp.merge_naive(corners, radius)
            self.assertEqual(refused.exception.number, number)
        with self.assertRaises(ValueError):
            zakdomp.merge_naive([Corner(1.0, 1.0, 1.0, 1 << 32)], 1)

    def test_short_slices(self):
        given, kept = zakdomp._List.of([Corner(1.0, 1.0, 1.0, 7), Corner(2.0, 2.0, 2.0, 8)]), ctypes.c_size_t(77)
        words = given.words()
        words[-1] = 1  # a place for the neighbours of one corner only
        self.assertEqual(zakdomp._library.zakdomp_merge_naive(*words, 2, 1, ctypes.byref(kept)), 10)
        self.assertEqual((kept.value, given.corners(2)), (77, [(1.0, 1.0, 1.0, 7), (2.0, 2.0, 2.0, 8)]))


if __name__ == "__main__":
    unittest.main()
