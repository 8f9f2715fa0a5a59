"""The list that a merge would leave, against a second implementation: python3 -m unittest test_merged"""
import math
import random
import unittest
from fractions import Fraction

import zakdomp
from zakdomp import Corner


def by_the_rules(corners, radius):
    """The merge in exact arithmetic: corners on quarter pixels and radii that are powers of two leave nothing to be
    rounded."""
    if not math.isfinite(radius) or radius <= 0:
        return list(corners)
    exact = [(Fraction(c.x), Fraction(c.y)) for c in corners]
    left, top = (min((place[axis] for place in exact), default=0) for axis in (0, 1))
    r = Fraction(radius)
    kept = []
    for c, (x, y) in zip(corners, exact):
        for i, (_, (u, v)) in enumerate(kept):
            beside = abs((x - left) // r - (u - left) // r) <= 1 and abs((y - top) // r - (v - top) // r) <= 1
            if beside and (x - u) ** 2 + (y - v) ** 2 <= r ** 2:
                if kept[i][0].strength < c.strength:
                    kept[i] = (c, (x, y))
                break
        else:
            kept.append((c, (x, y)))
    return [c for c, _ in kept]


class Merged(unittest.TestCase):
    def refused(self, number, *arguments):
        with self.assertRaises(zakdomp.Refusal) as caught:
            zakdomp.merged(*arguments)
        self.assertEqual(caught.exception.number, number)

    def test_the_stronger_of_two(self):
        two = [Corner(1.0, 1.0, 3.0, 5), Corner(2.0, 1.0, 4.0, 6)]
        self.assertEqual(zakdomp.merged(two, 3), two[1:])
        self.assertEqual(zakdomp.merged(two, 0.5), two)
        for off in (0, -1, math.inf, math.nan):
            self.assertEqual(zakdomp.merged(two, off), two)
        self.assertEqual(zakdomp.merged([], 3), [])
        self.assertEqual(two, [(1.0, 1.0, 3.0, 5), (2.0, 1.0, 4.0, 6)])

    def test_refusals_in_their_order(self):
        out = [Corner(1.0, 1.0, 3.0, 0), Corner(-1.0, 1.0, 4.0, 0)]
        self.refused(4, out, 5000)
        self.refused(5, out[:1], 5000)
        self.assertEqual(zakdomp.merged(out, 0), out)
        with self.assertRaises(ValueError):
            zakdomp.merged([Corner(1.0, 1.0, 3.0, 1 << 32)], 3)

    def test_random_lists_against_the_second_implementation(self):
        r = random.Random(6)
        shorter = 0
        for case in range(300):
            count = 700 if case == 0 else r.randrange(30)
            side = 120 if case == 0 else 12
            corners = [Corner(r.randrange(4 * side) / 4, r.randrange(4 * side) / 4, float(r.randrange(4)), i)
                       for i in range(count)]
            for radius in (1, 0.5, r.choice((2, 4, 8, 1 / 64, 4096, 0))):
                told = by_the_rules(corners, radius)
                self.assertEqual(zakdomp.merged(corners, radius), told, (corners, radius))
                shorter += len(told) < count
        self.assertTrue(shorter > 300, shorter)


if __name__ == "__main__":
    unittest.main()
