"""What several tests need: where things are, images and photographs to try, and the places of a response's samples."""
import os
import struct

HERE = os.path.dirname(os.path.dirname(os.path.abspath(__file__)))
TOP = os.path.dirname(HERE)
SIDE = 11
PLAIN = dict(window=0, least_neighbours=0, centroid_radius=0, search_radius=0)
RING = ((0, -5), (2, -5), (3, -3), (5, -2), (5, 0), (5, 2), (3, 3), (2, 5),
        (0, 5), (-2, 5), (-3, 3), (-5, 2), (-5, 0), (-5, -2), (-3, -3), (-2, -5))
CROSS = ((0, 0), (0, -1), (0, 1), (1, 0), (-1, 0))


def pgm(pixels, width, height):
    return b"P5\n%d %d\n255\n" % (width, height) + bytes(pixels)


def board(width=160, height=120, square=20):
    shades = (20 if (x // square + y // square) % 2 else 220 for y in range(height) for x in range(width))
    return pgm(shades, width, height)


def boxes(squares):
    """A photograph with seeds and no corner on three levels: 4 (squares - 1)^2 seeds. A faint board of so many squares
    a side, in the middle, is left on the third level alone, below stripes."""
    side = 32 * squares + 64

    def grey(x, y):
        place = x // 32 - 1, y // 32 - 1
        shade = 10 - 20 * (sum(place) % 2) if all(0 <= each < squares for each in place) else 0
        return 128 + (60 if x % 4 < 2 else -60) + shade

    return pgm((grey(x, y) for y in range(side) for x in range(side)), side, side)


def whole_case():
    """The whole case (RULES 14): one corner in the middle of 11 by 11 pixels."""
    image = bytearray(SIDE * SIDE)
    for places, grey in ((RING[:4] + RING[8:12], 255), (CROSS, 128)):
        for dx, dy in places:
            image[(5 + dy) * SIDE + 5 + dx] = grey
    return image


def f32(x):
    """The nearest float of four bytes: Python's own have eight, which is enough for one operation to be rounded
    again."""
    return struct.unpack("<f", struct.pack("<f", x))[0]
