"""A pixel changed and its map redone, against a second implementation: python3 -m unittest test_retouch"""
import array
import random
import unittest

import zakdomp
from common import CROSS, RING, f32


def ring_of(radius):
    return [(dx * radius // 5, dy * radius // 5) for dx, dy in RING]


def is_inside(w, h, radius, x, y):
    return radius <= x < w - radius and radius <= y < h - radius


def cell(image, w, h, radius, x, y):
    """The response of a cell, by the paper's sums and the original's order of float operations."""
    if not is_inside(w, h, radius, x, y):
        return 0.0
    s = [image[(y + dy) * w + x + dx] for dx, dy in ring_of(radius)]
    sr = sum(abs(s[k] + s[k + 8] - s[k + 4] - s[k + 12]) for k in range(4))
    dr = sum(abs(s[k] - s[k + 8]) for k in range(8))
    cross = sum(image[(y + dy) * w + x + dx] for dx, dy in CROSS)
    gap = f32(f32(sum(s) / 16) - f32(cross / 5))
    return f32(f32(sr - dr) - f32(16 * abs(gap)))


def whole(image, w, h, radius):
    return array.array("f", (cell(image, w, h, radius, x, y) for y in range(h) for x in range(w)))


def touched(w, h, radius, x, y):
    """The cells that are to be computed again: every cell of the map is asked for its samples."""
    samples = (*ring_of(radius), *CROSS)
    return [(i, j) for j in range(h) for i in range(w)
            if is_inside(w, h, radius, i, j) and any((i + dx, j + dy) == (x, y) for dx, dy in samples)]


class Retouch(unittest.TestCase):
    def test_random_images(self):
        rng = random.Random(8)
        for _ in range(60):
            w, h, ring = rng.randint(1, 30), rng.randint(1, 30), rng.choice((5, 10))
            image = bytearray(rng.randbytes(w * h))
            cells = array.array("f", zakdomp.response(image, w, h, ring=ring).cells)
            self.assertEqual(cells.tobytes(), whole(image, w, h, ring).tobytes())
            for _ in range(3):
                x, y, value = rng.randrange(w), rng.randrange(h), rng.randrange(256)
                painted = bytearray(image)
                painted[y * w + x] = value
                count = zakdomp.retouch(image, cells, w, h, x, y, value, ring=ring)
                self.assertEqual(count, len(touched(w, h, ring, x, y)))
                self.assertLessEqual(count, 21)
                self.assertEqual(image, painted)
                self.assertEqual(cells.tobytes(), whole(painted, w, h, ring).tobytes())

    def test_other_maps(self):
        rng = random.Random(9)
        for _ in range(60):
            w, h, ring = rng.randint(11, 40), rng.randint(11, 40), rng.choice((5, 10))
            image = bytearray(rng.randbytes(w * h))
            cells = array.array("f", (rng.choice((7.0, -0.0, float("inf"))) for _ in range(w * h)))
            x, y, value = rng.randrange(w), rng.randrange(h), rng.randrange(256)
            expected = array.array("f", cells)
            image_then = bytearray(image)
            image_then[y * w + x] = value
            for i, j in touched(w, h, ring, x, y):
                expected[j * w + i] = cell(image_then, w, h, ring, i, j)
            zakdomp.retouch(image, cells, w, h, x, y, value, ring=ring)
            self.assertEqual(cells.tobytes(), expected.tobytes())

    def test_grey_levels(self):
        """By d levels the exact response moves by at most 15 d fifths through the ring and 16 d through the cross."""
        rng = random.Random(10)
        farthest = {"ring": 0, "cross": 0}
        for _ in range(300):
            image = bytearray(rng.choice((rng.randbytes(441), bytes(rng.choice((0, 128, 255)) for _ in range(441)))))
            cells = array.array("f", zakdomp.response(image, 21, 21).cells)
            kind, (dx, dy) = rng.choice((("ring", rng.choice(RING)), ("cross", rng.choice(CROSS))))
            at, value = (10 + dy) * 21 + 10 + dx, rng.randrange(256)
            d, before = abs(image[at] - value), round(5 * cells[220])
            zakdomp.retouch(image, cells, 21, 21, 10 + dx, 10 + dy, value)
            moved = abs(round(5 * cells[220]) - before)
            self.assertLessEqual(moved, {"ring": 15, "cross": 16}[kind] * d)
            if d:
                farthest[kind] = max(farthest[kind], moved / d)
        self.assertGreater(farthest["ring"], 14)
        self.assertEqual(farthest["cross"], 16)

    def test_refusals(self):
        image, cells = bytearray(121), array.array("f", 121 * [7.0])
        short = array.array("f", 120 * [7.0])
        for number, arguments, ring in ((1, (image, short, 4097, 11, 11, 0, 1), 6),
                                        (2, (image, short, 11, 11, 11, 0, 1), 6),
                                        (2, (image[:120], cells, 11, 11, 5, 5, 1), 5),
                                        (3, (image, cells, 11, 11, 11, 0, 1), 6),
                                        (14, (image, cells, 11, 11, 11, 0, 1), 5),
                                        (14, (image, cells, 11, 11, 0, 11, 1), 5),
                                        (14, (bytearray(), array.array("f"), 0, 0, 0, 0, 1), 5)):
            with self.assertRaises(zakdomp.Refusal) as refused:
                zakdomp.retouch(*arguments, ring=ring)
            self.assertEqual(refused.exception.number, number)
        self.assertEqual((image, list(cells)), (bytearray(121), 121 * [7.0]))

    def test_buffers_of_another_kind(self):
        image, cells = bytearray(121), array.array("f", 121 * [7.0])
        with self.assertRaises(TypeError):
            zakdomp.retouch(bytes(121), cells, 11, 11, 5, 5, 1)
        with self.assertRaises(TypeError):
            zakdomp.retouch(image, array.array("d", 121 * [7.0]), 11, 11, 5, 5, 1)
        with self.assertRaises(ValueError):
            zakdomp.retouch(image, cells, 11, 11, 5, 5, 256)


if __name__ == "__main__":
    unittest.main()
