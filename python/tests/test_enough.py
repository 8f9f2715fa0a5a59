"""Whether a map has enough peaks, against a second implementation: python3 -m unittest test_enough"""
import math
import random
import unittest

import zakdomp

PLAIN = dict(ring=5, threshold=0.0, window=0, least_neighbours=0, centroid_radius=0)


def rows_of_peaks(cells, width, height, *, ring, threshold, window, least_neighbours, centroid_radius):
    """The rows of all peaks, in row order, cell by cell."""
    border = ring + window + centroid_radius
    threshold = threshold if threshold > 0 else 0.0
    rows = []
    for y in range(border, height - border):
        for x in range(border, width - border):
            centre = cells[y * width + x]
            others = [cells[v * width + u] for v in range(y - window, y + window + 1)
                      for u in range(x - window, x + window + 1)
                      if (u, v) != (x, y)]
            if not centre <= threshold and not any(cell > centre for cell in others):
                if sum(cell > 0 for cell in others) >= least_neighbours:
                    rows.append(y)
    return rows


def counted(cells, width, height, wanted, **parameters):
    """The answer, from the list of all peaks."""
    border = parameters["ring"] + parameters["window"] + parameters["centroid_radius"]
    rows = rows_of_peaks(cells, width, height, **parameters)
    if wanted == 0:
        return True, 0
    if len(rows) >= wanted:
        return True, rows[wanted - 1] - border + 1
    return False, 0 if min(width, height) <= 2 * border else height - 2 * border


def column():
    """Three peaks, one below the other, in a map of 11 by 13 whose border leaves no other cell."""
    cells = [0.0] * (11 * 13)
    for y, value in ((5, 1.0), (6, 2.0), (7, 3.0)):
        cells[y * 11 + 5] = value
    return cells


class Enough(unittest.TestCase):
    def refused(self, number, *arguments, **named):
        with self.assertRaises(zakdomp.Refusal) as caught:
            zakdomp.has_peaks(*arguments, **named)
        self.assertEqual(caught.exception.number, number)

    def test_the_rows_of_a_column(self):
        for wanted, told in ((0, (True, 0)), (1, (True, 1)), (2, (True, 2)), (3, (True, 3)), (4, (False, 3)),
                             ((1 << 64) - 1, (False, 3))):
            self.assertEqual(zakdomp.has_peaks(column(), 11, 13, wanted, **PLAIN), told)

    def test_a_side_of_twice_the_border(self):
        for width, height in ((10, 13), (13, 10), (10, 10), (0, 0), (0, 4096)):
            cells = [7.0] * (width * height)
            self.assertEqual(zakdomp.has_peaks(cells, width, height, 1, **PLAIN), (False, 0))
            self.assertEqual(zakdomp.has_peaks(cells, width, height, 0, **PLAIN), (True, 0))

    def test_refusals_come_first(self):
        for wanted in (0, 1):
            self.refused(1, column(), 4097, 0, wanted, **PLAIN)
            self.refused(2, column(), 11, 12, wanted, **{**PLAIN, "ring": 6})
            for named in (dict(ring=6), dict(window=17), dict(centroid_radius=17)):
                self.refused(3, column(), 11, 13, wanted, **{**PLAIN, **named})
        for wanted in (-1, 1 << 64):
            with self.assertRaises(ValueError):
                zakdomp.has_peaks(column(), 11, 13, wanted, **PLAIN)

    def test_random_maps_against_the_second_implementation(self):
        r = random.Random(7)
        seen = {True: 0, False: 0}
        for _ in range(400):
            named = dict(ring=r.choice((5, 5, 5, 10)), threshold=r.choice((math.nan, -1.0, 0.0, 1.0, 2.5)),
                         window=r.randrange(3),
                         least_neighbours=r.randrange(4), centroid_radius=r.randrange(2))
            border = named["ring"] + named["window"] + named["centroid_radius"]
            width, height = (2 * border - 1 + r.randrange(12) for _ in range(2))
            cells = [r.choice((math.nan, -2.0, -1.0, 0.0, 1.0, 2.0, 3.0, 4.0)) for _ in range(width * height)]
            count = len(rows_of_peaks(cells, width, height, **named))
            for wanted in (0, 1, max(count - 1, 0), count, count + 1):
                told = counted(cells, width, height, wanted, **named)
                self.assertEqual(zakdomp.has_peaks(cells, width, height, wanted, **named), told,
                                 (width, height, wanted, named))
                seen[told[0]] += 1
        self.assertTrue(min(seen.values()) > 100, seen)


if __name__ == "__main__":
    unittest.main()
