"""The module over the shared object: python3 -m unittest test_zakdomp"""
import random
import unittest

import zakdomp
from common import PLAIN, SIDE, whole_case


def peaks_of(image, side, window, border):
    """The peaks of a square image's map at threshold 0, by RULES 4.3, a second time: each with the other cells of its
    window."""
    cells = zakdomp.response(image, side, side).cells
    for y in range(border, side - border):
        for x in range(border, side - border):
            rows, columns = range(y - window, y + window + 1), range(x - window, x + window + 1)
            value, others = cells[y * side + x], [cells[v * side + u] for v in rows for u in columns
                                                  if (u, v) != (x, y)]
            if value > 0 and all(cell <= value for cell in others):
                yield value, others


def ties_of(image, side, window, border):
    """How many cells of the peaks' windows equal the peak (RULES 23.1)."""
    return sum(others.count(value) for value, others in peaks_of(image, side, window, border))


def half(image, side):
    """A square image at half size (RULES 6.1)."""
    places = ((x, y) for y in range(0, side - 1, 2) for x in range(0, side - 1, 2))
    return bytes((sum(image[(y + v) * side + x + u] for v in (0, 1) for u in (0, 1)) + 2) // 4 for x, y in places)


class Finding(unittest.TestCase):
    def refused(self, number, *arguments, **named):
        with self.assertRaises(zakdomp.Refusal) as caught:
            zakdomp.find_corners(*arguments, **named)
        self.assertEqual(caught.exception.number, number)
        return str(caught.exception)

    def test_the_whole_case(self):
        for image in (whole_case(), bytes(whole_case()), memoryview(whole_case())):
            self.assertEqual(zakdomp.find_corners(image, SIDE, SIDE, **PLAIN), [(5.0, 5.0, 2032.0, 0)])

    def test_a_board_on_one_and_three_levels(self):
        image = bytes(20 if (x // 48 + y // 48) % 2 == 0 else 220 for y in range(288) for x in range(384))
        for levels in (1, 3):
            corners = zakdomp.find_corners(image, 384, 288, threshold=30, levels=levels, minimum_side=20)
            self.assertEqual(len(corners), 7 * 5)
            self.assertTrue(all(c.strength > 30 for c in corners))

    def test_more_corners_than_places_at_first(self):
        image = random.Random(1).randbytes(512 * 512)
        dense = dict(window=1, least_neighbours=0, merge_radius=0)
        found = zakdomp.find_corners(image, 512, 512, **dense)
        self.assertGreater(len(found), 1024)
        self.refused(10, image, 512, 512, most=1000, **dense)
        self.assertEqual(zakdomp.find_corners(image, 512, 512, most=len(found), **dense), found)

    def test_ties_of_one_level(self):
        dense = dict(least_neighbours=0, centroid_radius=0, merge_radius=0)
        for seed in range(6):
            numbers = random.Random(seed)
            image = bytes(numbers.choice((0, 255)) for _ in range(40 * 40))
            for window in (0, 1, 2):
                found = zakdomp.find(image, 40, 40, window=window, **dense)
                self.assertEqual(found.ties, ties_of(image, 40, window, 5 + window))
                self.assertEqual(found.corners, zakdomp.find_corners(image, 40, 40, window=window, **dense))
        self.assertGreater(found.ties, 0)

    def test_ties_of_the_seeds_do_not_count(self):
        image = random.Random(9).randbytes(48 * 48)
        dense = dict(window=1, least_neighbours=0, centroid_radius=0, merge_radius=0)
        self.assertEqual(zakdomp.find(half(image, 48), 24, 24, **dense).ties, 2)
        found = zakdomp.find(image, 48, 48, levels=2, **dense)
        self.assertEqual((len(found.corners), found.ties), (8, 0))

    def test_ties_before_merging(self):
        numbers = random.Random(2)
        image = bytes(numbers.choice((0, 255)) for _ in range(40 * 40))
        apart, merged = (zakdomp.find(image, 40, 40, window=1, least_neighbours=0, merge_radius=radius)
                         for radius in (0, 4096))
        self.assertEqual((len(merged.corners), merged.ties), (1, apart.ties))
        self.assertGreater(merged.ties, 0)

    def test_neighbours(self):
        image = random.Random(5).randbytes(48 * 48)
        for window in (0, 1, 2, 3):
            named = dict(window=window, least_neighbours=0, centroid_radius=1)
            due = [(value, sum(cell > 0 for cell in others)) for value,
                   others in peaks_of(image, 48, window, 6 + window)]
            apart, merged = (zakdomp.find_corners(image, 48, 48, merge_radius=radius, **named) for radius in (0, 8))
            self.assertEqual([(c.strength, c.neighbours) for c in apart], due)
            self.assertEqual(any(c.neighbours for c in apart), window > 0)
            self.assertLess(len(merged), len(apart))
            self.assertLessEqual({(c.strength, c.neighbours) for c in merged}, set(due))

    def test_refusals(self):
        image = whole_case()
        self.assertEqual(self.refused(1, image, 4097, 11), "a side is above 4096, or above 96 in a stream (number 1)")
        self.refused(2, image, 11, 10)
        self.refused(3, image, 11, 11, ring=6)
        self.refused(5, image, 11, 11, merge_radius=5000.0)

    def test_numbers_that_no_type_holds(self):
        for named in (dict(ring=5 + (1 << 32)), dict(levels=-1), dict(minimum_side=1 << 64)):
            with self.assertRaises(ValueError):
                zakdomp.find_corners(whole_case(), SIDE, SIDE, **named)

    def test_the_response_of_a_box(self):
        found = zakdomp.response(whole_case(), SIDE, SIDE, x0=4, x1=6, y0=5)
        self.assertEqual((found.width, found.height, len(found.cells)), (2, 6, 12))
        self.assertEqual(found.cells[:2], [0.0, 2032.0])
        self.assertEqual(zakdomp.response(whole_case(), SIDE, SIDE, x0=4, x1=4), (0, 0, []))


if __name__ == "__main__":
    unittest.main()
