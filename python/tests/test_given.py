"""What the module takes, and what it says of what it does not take: python3 -m unittest test_given"""
import array
import ctypes
import fractions
import importlib.util
import inspect
import math
import os
import pickle
import random
import signal
import struct
import subprocess
import sys
import threading
import unittest
from unittest import mock

import zakdomp
from common import PLAIN, SIDE, whole_case

HAS_NUMPY = importlib.util.find_spec("numpy") is not None
if HAS_NUMPY:
    import numpy

WHOLE = ["most", *(name for name, value in zakdomp.Params()._asdict().items() if isinstance(value, int))]
ONE = [(5.0, 5.0, 2032.0, 0)]


class Given(unittest.TestCase):
    def says(self, kind, words, function, *given, **named):
        """That a call raises one line, with these words, and no refusal of the library."""
        with self.assertRaises(kind) as caught:
            function(*given, **named)
        self.assertNotIsInstance(caught.exception, zakdomp.Refusal)
        self.assertIn(words, str(caught.exception))
        self.assertNotIn("\n", str(caught.exception))

    def test_what_is_no_number(self):
        image = whole_case()
        for value in ("5", 5.0, b"5", None, [5], 5j, math.nan):
            for name in WHOLE:
                self.says(TypeError, f"{name} is not a whole number: {value!r}", zakdomp.find, image, SIDE, SIDE,
                          **{name: value})
            self.says(TypeError, "width is not a whole number", zakdomp.find, image, value, SIDE)
            self.says(TypeError, "height is not a whole number", zakdomp.response, image, SIDE, value)
            self.says(TypeError, "x0 is not a whole number", zakdomp.response, image, SIDE, SIDE, x0=value)
            self.says(TypeError, "start is not a whole number", zakdomp.holding, 1, value, 0)
            self.says(TypeError, "place is not a whole number", zakdomp.EditedList([]).show, value)
        for value in ("30", b"30", None, [30], 30j):
            for name in ("threshold", "merge_radius"):
                self.says(TypeError, f"{name} is not a number: {value!r}", zakdomp.find, image, SIDE, SIDE,
                          **{name: value})
            self.says(TypeError, "radius is not a number", zakdomp.merged, [], value)
            self.says(TypeError, "radius is not a number", zakdomp.merge_naive, [], value)

    def test_numbers_that_no_type_holds(self):
        image = whole_case()
        for named in (dict(ring=5 + (1 << 32)), dict(levels=-1), dict(minimum_side=1 << 64), dict(most=-1)):
            self.says(ValueError, "is not within 0 to 2^", zakdomp.find, image, SIDE, SIDE, **named)
            self.says(ValueError, "is not within 0 to 2^", zakdomp.find_pgm, b"no photograph", **named)
        for value in (1e39, -1e39, 10 ** 400, fractions.Fraction(10) ** 50, 1e-50):
            self.says(ValueError, "is beyond single precision", zakdomp.find, image, SIDE, SIDE, merge_radius=value)
            self.says(ValueError, "x is beyond single precision", zakdomp.merged, [(value, 0, 0, 0)], 3)
        for value in (math.inf, -math.inf, math.nan, 0, -0.0, fractions.Fraction(1, 3), 3, 3.0, True):
            zakdomp.find(image, SIDE, SIDE, threshold=value)

    def test_what_is_no_buffer_of_bytes(self):
        for value in ("photo.pgm", 121, None, [0] * 121, 3.5):
            kind = type(value).__name__
            self.says(TypeError, f"pixels is no buffer of bytes: {kind}", zakdomp.find, value, SIDE, SIDE)
            self.says(TypeError, "upload is no buffer of bytes", zakdomp.find_pgm, value)
            self.says(TypeError, "stream is no buffer of bytes", zakdomp.holdings, value)
        for code in "bhHiIlLqQfd":
            items = array.array(code, bytes(8 * SIDE * SIDE))
            self.says(TypeError, f"pixels has items of type '{code}', and not bytes", zakdomp.find, items, SIDE, SIDE)
            self.says(TypeError, "low has items of type", zakdomp.response_limits, items, bytes(121), SIDE, SIDE)

    def test_buffers_of_bytes(self):
        image = bytes(whole_case())
        held = memoryview(b"".join(bytes((pixel, 7)) for pixel in image))[::2]
        rows = memoryview(image).cast("B", (SIDE, SIDE))
        for pixels in (bytearray(image), array.array("B", image), (ctypes.c_uint8 * 121)(*image),
                       (ctypes.c_char * 121)(*image), held, rows, memoryview(image).cast("c")):
            self.assertEqual(zakdomp.find_corners(pixels, SIDE, SIDE, **PLAIN), ONE)

    def test_sides_that_do_not_fit(self):
        wide = memoryview(bytes(12)).cast("B", (3, 4))
        self.assertEqual(zakdomp.find_corners(wide, 4, 3), [])
        due = "pixels is an array of 3 x 4, and not of height x width, "
        self.says(ValueError, due + "4 x 3", zakdomp.find, wide, 3, 4)
        self.says(ValueError, due + "2 x 6", zakdomp.find, wide, 6, 2)
        colour = memoryview(bytes(36)).cast("B", (3, 4, 3))
        self.says(ValueError, "pixels is an array of 3 x 4 x 3", zakdomp.response, colour, 4, 3)
        self.says(ValueError, "upload is an array of 3 x 4, and not of one row", zakdomp.find_pgm, wide)
        cells = memoryview(bytearray(48)).cast("B").cast("f", (3, 4))
        self.says(ValueError, "cells is an array of 3 x 4", zakdomp.has_peaks, cells, 3, 4, 1)
        self.says(ValueError, "cells is an array of 3 x 4", zakdomp.retouch, bytearray(12), cells, 3, 4, 0, 0, 1)

    def test_maps(self):
        rows = memoryview(bytes(484)).cast("f", (11, 11))
        for cells in ([0.0] * 121, tuple([0] * 121), array.array("f", [0] * 121), rows):
            self.assertEqual(zakdomp.has_peaks(cells, 11, 11, 0), (True, 0))
        self.assertEqual(zakdomp.has_peaks([], 0, 0, 1), (False, 0))
        for kind, words, cells in (
                (TypeError, "cells has items of type 'd'", array.array("d", [0] * 121)),
                (TypeError, "cells is no buffer of numbers of single precision", "cells"),
                (TypeError, "cells has an item that is no number", ["0"] * 121),
                (ValueError, "cells has a number that is beyond single precision", [1e39] + [0] * 120)):
            self.says(kind, words, zakdomp.has_peaks, cells, 11, 11, 1)

    def test_maps_of_limits(self):
        plain = dict(window=0, least_neighbours=0, centroid_radius=0)
        self.assertTrue(zakdomp.sure_peak(array.array("i", [9] * 121), [9] * 121, 11, 11, 5, 5, **plain))
        for kind, words, lows, highs in (
                (TypeError, "lows has items of type 'q'", array.array("q", [0] * 121), [0] * 121),
                (TypeError, "highs has an item that is no number", [0] * 121, [0.5] * 121),
                (ValueError, "lows has a number that is not within -2^31 to 2^31 - 1", [1 << 31] * 121, [0] * 121)):
            self.says(kind, words, zakdomp.sure_peak, lows, highs, 11, 11, 5, 5)

    def test_buffers_that_overlap(self):
        room = bytearray(16 * 16 * 5)
        for at in (0, 4, 252):
            pixels, cells = memoryview(room)[at:at + 256], memoryview(room)[:1024].cast("f")
            self.says(ValueError, "pixels and cells overlap", zakdomp.retouch, pixels, cells, 16, 16, 8, 8, 9)
            behind = memoryview(room)[1020:1276]
            self.says(ValueError, "pixels and cells overlap", zakdomp.retouch, behind, cells, 16, 16, 8, 8, 9)
        self.assertEqual(room, bytes(1280))
        pixels, cells = memoryview(room)[1024:], memoryview(room)[:1024].cast("f")
        self.assertGreater(zakdomp.retouch(pixels, cells, 16, 16, 8, 8, 9), 0)
        self.assertEqual(room[1024 + 8 * 16 + 8], 9)

    def test_buffers_that_cannot_be_changed(self):
        cells, doubles = array.array("f", [0] * 121), array.array("d", [0] * 121)
        for words, pixels, responses in (("pixels cannot be changed in place: it is read-only", bytes(121), cells),
                                         ("not in one piece", memoryview(bytearray(242))[::2], cells),
                                         ("cells has items of type 'd'", bytearray(121), doubles)):
            self.says(TypeError, words, zakdomp.retouch, pixels, responses, 11, 11, 5, 5, 1)

    def test_what_is_no_corner(self):
        for corner in ((1, 2, 3), (1, 2, 3, 4, 5), 7, None):
            for call in (zakdomp.listing, zakdomp.EditedList):
                self.says(TypeError, "not a corner", call, [corner])
            self.says(TypeError, "not a corner", zakdomp.merged, [corner], 3)
        self.says(TypeError, "x is not a number: '1'", zakdomp.listing, [("1", 2, 3, 4)])
        self.says(TypeError, "neighbours is not a whole number: 4.5", zakdomp.listing, [(1, 2, 3, 4.5)])
        self.says(ValueError, "neighbours is not within 0 to 2^32 - 1", zakdomp.merge_naive, [(1, 2, 3, -1)], 3)

    def test_a_refusal_from_another_process(self):
        again = pickle.loads(pickle.dumps(zakdomp.Refusal(5)))
        self.assertEqual((again.number, str(again)), (5, str(zakdomp.Refusal(5))))

    def test_no_library(self):
        run = subprocess.run([sys.executable, "-c", "import zakdomp"], cwd=os.path.dirname(zakdomp.__file__),
                             env={**os.environ, "ZAKDOMP_LIBRARY": "/nowhere/a.so"}, capture_output=True, check=False)
        self.assertRegex(run.stderr.decode().splitlines()[-1],
                         r"^ImportError: no library \(/nowhere/a\.so: .*\): tools/shared .* makes")

    def test_defaults(self):
        """The parameters of the functions begin as those of `Params` do."""
        due = zakdomp.Params._field_defaults
        for function in (zakdomp.find, zakdomp.find_exact_corners, zakdomp.find_pgm, zakdomp.find_exact_corners_pgm,
                         zakdomp.write_stream):
            said = inspect.signature(function).parameters
            self.assertEqual({name: said[name].default for name in due}, due)


@unittest.skipUnless(HAS_NUMPY, "no numpy on this machine")
class Numpy(unittest.TestCase):
    def test_numbers(self):
        image = bytes(whole_case())
        for kind in "uint8 int16 uint32 int64 uint64".split():
            numbers = {name: getattr(numpy, kind)(value) for name, value in zakdomp.Params()._asdict().items()}
            side = getattr(numpy, kind)(SIDE)
            self.assertEqual(zakdomp.find(image, side, side, **numbers), zakdomp.find(image, SIDE, SIDE))
        for kind in (numpy.float16, numpy.float32, numpy.float64):
            self.assertEqual(zakdomp.find_corners(image, SIDE, SIDE, **PLAIN, threshold=kind(2031)), ONE)
            with self.assertRaises(TypeError):
                zakdomp.find(image, SIDE, SIDE, ring=kind(5))
        with self.assertRaises(TypeError):
            zakdomp.find(image, SIDE, SIDE, threshold=numpy.complex64(3))

    def test_results_go_back_in(self):
        import zakdomp_numpy
        image = numpy.random.default_rng(1).integers(0, 256, (48, 64), "uint8")
        found, cells = zakdomp_numpy.find_corners(image), zakdomp_numpy.response(image)
        listed = zakdomp.find_corners(image, 64, 48)
        self.assertGreater(len(found), 3)
        self.assertEqual(zakdomp.listing(found), zakdomp.listing(listed))
        rightmost = max(corner.x for corner in listed)
        self.assertEqual(zakdomp.merged(found, found["x"].max()), zakdomp.merged(listed, rightmost))
        self.assertEqual(zakdomp.EditedList(found).corners, listed)
        self.assertEqual(zakdomp.merge_naive(found[:0], 1), [])
        strongest = found["strength"].max()
        self.assertEqual(zakdomp.find_corners(image, *reversed(image.shape), threshold=strongest), [])
        self.assertTrue(zakdomp.has_peaks(cells, 64, 48, numpy.int64(1)).enough)
        self.assertGreater(zakdomp.retouch(image, cells, 64, 48, 30, 20, image[0, 0]), 0)
        self.assertTrue((cells == zakdomp_numpy.response(image)).all())
        limits = [numpy.array(each, "int32").reshape(48, 64) for each in zakdomp.response_limits(image, image, 64, 48)]
        self.assertIsInstance(zakdomp.sure_peak(*limits, 64, 48, 20, 20), bool)

    def test_arrays_of_another_kind(self):
        image = numpy.zeros((48, 64), "uint8")
        for kind in ("float32", "int8", "bool", "uint16", "datetime64[s]"):
            with self.assertRaises(TypeError):
                zakdomp.find(image.astype(kind), 64, 48)
        for wrong in (image.T, image[None], numpy.array(7, "uint8")):
            with self.assertRaisesRegex(ValueError, "pixels is an array of .*, and not of height x width, 48 x 64"):
                zakdomp.find(wrong, 64, 48)
        with self.assertRaises(TypeError):
            zakdomp.has_peaks(image.astype("float64"), 64, 48, 1)
        with self.assertRaises(TypeError):
            zakdomp.has_peaks(image.astype(">f4"), 64, 48, 1)


def units(bits):
    """A column in 256ths by RULES 21.1, from the bits of a float and with fractions: a second implementation."""
    sign, exponent, part = bits >> 31, bits >> 23 & 255, bits & (1 << 23) - 1
    if sign or (exponent == 255 and part):
        return 0
    if exponent == 255:
        return (1 << 64) - 1
    x = fractions.Fraction(part + (1 << 23 if exponent else 0)) * fractions.Fraction(2) ** (max(exponent, 1) - 150)
    largest = (2 - fractions.Fraction(1, 1 << 23)) * 2 ** 127
    return min(math.floor(256 * x + fractions.Fraction(1, 2)) if 256 * x <= largest else 1 << 64, (1 << 64) - 1)


class Listings(unittest.TestCase):
    def test_negative_and_not_a_number(self):
        corners = [(-1.0, -0.0, -2.5, 3), (math.nan, -math.nan, math.nan, 0), (math.inf, -math.inf, math.inf, 1)]
        self.assertEqual(zakdomp.listing(corners), "corners 3\n0 0 bf800000 80000000 c0200000 3\n"
                         "0 0 7fc00000 7fc00000 7fc00000 0\n18446744073709551615 0 7f800000 ff800000 7f800000 1\n")

    def test_every_kind_of_float(self):
        rng = random.Random(3)
        patterns = [0, 1, 0x3affffff, 0x3b000000, 0x3b000001, 0x47800000, 0x4b800000, 0x5f7fffff, 0x5f800000,
                    0x7b7fffff, 0x7b800000, 0x7f7fffff, 0x7f800000, 0x7fc00000,
                    *(rng.getrandbits(32) for _ in range(5000)),
                    *(rng.randrange(0x3a000000, 0x45800001) for _ in range(5000))]
        for bits in patterns:
            x = struct.unpack("<f", struct.pack("<I", bits))[0]
            column, _, digits, *_ = zakdomp.listing([(x, 0, 0, 0)]).splitlines()[1].split()
            self.assertEqual((int(column), digits), (units(bits), "7fc00000" if math.isnan(x) else f"{bits:08x}"))

    def test_a_double_is_narrowed_first(self):
        for x in (0.1, 1 / 512 - 2 ** -60, 0.001953124999999):
            narrowed = struct.unpack("f", struct.pack("f", x))[0]
            self.assertEqual(zakdomp.listing([(x, x, x, 0)]), zakdomp.listing([(narrowed, narrowed, narrowed, 0)]))


class Buffers(unittest.TestCase):
    """The buffers that a thread keeps."""
    @staticmethod
    def passes(search):
        """How often the library is asked, and with which addresses."""
        asked, original = [], zakdomp._library.zakdomp_find_corners

        def counted(*words):
            asked.append(words[13])
            return original(*words)

        with mock.patch.object(zakdomp._library, "zakdomp_find_corners", counted):
            search()
        return asked

    def test_one_pass_for_noise(self):
        image = random.Random(4).randbytes(1024 * 1024)
        for window in (1, 2, 3):
            named = dict(window=window, least_neighbours=0, merge_radius=0)
            first = self.passes(lambda: zakdomp.find(image, 1024, 1024, **named))
            again = self.passes(lambda: zakdomp.find(image, 1024, 1024, **named))
            self.assertEqual(len(first), 1)
            self.assertEqual(again, first)

    def test_more_peaks_than_places_at_first(self):
        """Equal peaks are all kept, so that there can be more than one in a square of window + 1 cells."""
        image = bytes(255 if (x // 7 + y // 7) % 2 else 0 for y in range(200) for x in range(200))
        named = dict(window=16, least_neighbours=0, centroid_radius=0, merge_radius=0)
        found = zakdomp.find(image, 200, 200, **named)
        self.assertGreater(len(found.corners), (200 // 17 + 1) ** 2)
        self.assertGreater(len(self.passes(lambda: zakdomp.find(image, 200, 200, **named))), 1)
        self.assertEqual(zakdomp.find(image, 200, 200, most=len(found.corners), **named), found)
        with self.assertRaises(zakdomp.Refusal):
            zakdomp.find(image, 200, 200, most=len(found.corners) - 1, **named)

    def test_small_after_large(self):
        """Nothing of an image is left for the next."""
        for side in (300, 20, 150, 0, 64):
            image, alone, here = random.Random(side).randbytes(side * side), [], []
            thread = threading.Thread(target=self.on_levels, args=(image, side, alone))  # it has no buffers yet
            thread.start()
            thread.join()
            self.on_levels(image, side, here)
            self.assertEqual(here, alone)

    @staticmethod
    def on_levels(image, side, found):
        found += [zakdomp.find(image, side, side, levels=levels) for levels in (1, 3)]

    def test_threads(self):
        images = [random.Random(seed).randbytes(200 * 200) for seed in range(4)]
        due = [zakdomp.find(image, 200, 200) for image in images]
        found = [[] for _ in images]

        def work(at):
            found[at] = [zakdomp.find(images[at], 200, 200) for _ in range(25)]

        threads = [threading.Thread(target=work, args=(at,)) for at in range(4)]
        for thread in threads:
            thread.start()
        for thread in threads:
            thread.join()
        self.assertEqual(found, [25 * [each] for each in due])

    def test_a_signal_in_between(self):
        """A handler that finds corners itself runs between the library's answer and the reading of its buffers. The
        next signal comes when it has ended: else a busy machine would call handlers inside handlers without an end."""
        image, other = random.Random(5).randbytes(300 * 300), random.Random(6).randbytes(300 * 300)
        due, calls, under_way = zakdomp.find(image, 300, 300), [], threading.Event()

        def handler(*_):
            calls.append(zakdomp.find(other, 300, 300))
            if under_way.is_set():
                signal.setitimer(signal.ITIMER_REAL, 0.001)

        self.addCleanup(signal.signal, signal.SIGALRM, signal.signal(signal.SIGALRM, handler))
        under_way.set()
        signal.setitimer(signal.ITIMER_REAL, 0.001)
        try:
            found = [zakdomp.find(image, 300, 300) for _ in range(100)]
        finally:
            under_way.clear()
            signal.setitimer(signal.ITIMER_REAL, 0)
        self.assertGreater(len(calls), 0)
        self.assertEqual(found, 100 * [due])


if __name__ == "__main__":
    unittest.main()
