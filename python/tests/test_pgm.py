"""Photographs, against a second reading of the header: python3 -m unittest test_pgm"""
import contextlib
import ctypes
import io
import os
import random
import re
import shutil
import struct
import subprocess
import tempfile
import unittest

import zakdomp
from common import PLAIN, whole_case

SPACE = rb"[ \t\n\v\f\r]"
COMMENT = re.compile(rb"#[^\r\n]*[\r\n]?")
SIDES = re.compile(rb"%b+([0-9]+)%b+([0-9]+)" % (SPACE, SPACE))
MAXVAL = re.compile(rb"%b+([0-9]+)%b" % (SPACE, SPACE))


def read(upload):
    """The number of the refusal, or the place of the pixels and both sides: the comments are removed first, then the
    fields are matched."""
    behind = upload[2:]
    comments = {place for comment in COMMENT.finditer(behind) for place in range(*comment.span())}
    places = [place for place in range(len(behind)) if place not in comments]
    bare = bytes(behind[place] for place in places)
    sides = SIDES.match(bare)
    if upload[:2] != b"P5" or not sides:
        return 12
    width, height = map(int, sides.groups())
    if max(width, height) > 4096:
        return 1
    maxval = MAXVAL.match(bare, sides.end())
    at = 2 + places[maxval.end() - 1] + 1 if maxval else 0
    if not maxval or len(upload) - at < width * height:
        return 12
    return (at, width, height) if int(maxval[1]) == 255 else 13


def told(upload):
    """The same from the library."""
    try:
        photo = zakdomp.read_pgm(upload)
    except zakdomp.Refusal as refusal:
        return refusal.number
    assert photo.pixels == upload[photo.at:photo.at + photo.width * photo.height]
    return photo[:3]


# what is read of an upload
CASES = {
    b"P5 1 1 255\nA": (11, 1, 1),
    b"P51 1 255\nA": 12,
    b"P5#c\n1 1 255\nA": 12,
    b"P5 #c\n1 1 255\nA": (14, 1, 1),
    b"P5 1#c\n1 1 255\n" + bytes(11): (15, 11, 1),
    b"P5 1 1 255#c\nA": 12,
    b"P5 1 1 255#c\n\nA": (14, 1, 1),
    b"P5 1 1 255\n#": (11, 1, 1),
    b"P5 1 1 255\r\nA": (11, 1, 1),
    b"P5 0001 01 0255\nA": (16, 1, 1),
    b"P5\v1\f1\t255\vA": (11, 1, 1),
    b"P5 4097 1": 1,
    b"P5 1 4097#": 1,
    b"P5 409#\n7 1": 1,
    b"P5 480 480#c\n255\n": 1,
    b"P5 4097 ": 12,
    b"P5 4097 x": 12,
    b"P5 18446744073709551617 1 255\nA": 1,
    b"P5 1 1 18446744073709551871\nA": 13,
    b"P5 2 1 65535\nA": 12,
    b"P5 2 1 65535\nAB": 13,
    b"P5 1 1 0\n": 12,
    b"P5 1 1 0\nA": 13,
    b"P5 1 1 256\nA": 13,
    b"P5 0 0 255": 12,
    b"P5 0 0 255\n": (11, 0, 0),
    b"P5 0 4096 255\n": (14, 0, 4096),
    b"P5 1 1 256x": 12,
    b"P5 +1 1 255\nA": 12,
    b"P5\0 1 1 255\nA": 12,
    b"P5 4096 4096 255\n": 12,
    b"P2 1 1 255\nA": 12,
    b"#c\nP5 1 1 255\nA": 12,
    b"P": 12,
    b"": 12,
}


class Uploads:
    """Random uploads: any bytes of an alphabet, and headers with their parts in order, some of them damaged."""

    def __init__(self, seed):
        self.random = random.Random(seed)

    def any(self):
        r = self.random
        start = r.choice((b"P5", b"P5", b"P5 ", b"P5 1 1", b""))
        return start + bytes(r.choices(b"P5 019#\r\n\tx", k=r.randrange(13)))

    def space(self):
        r = self.random
        return b"".join(r.choice((b" ", b"\t", b"\n", b"\v", b"\f", b"\r", b"#c\n", b"# \r"))
                        for _ in range(r.randint(1, 3)))

    def number(self, value):
        digits = str(value).zfill(self.random.choice((1, 1, 1, 3, 30))).encode()
        at = self.random.randrange(len(digits) + 1)
        return digits[:at] + self.random.choice((b"", b"", b"", b"#\n", b"#1 2\r")) + digits[at:]

    def header(self):
        r = self.random
        sides = [r.choice((0, 1, 2, 3, r.randrange(6), r.choice((4096, 4097, 65536, 65537, 1 << 64))))
                 for _ in range(2)]
        maxval = r.choice((255, 255, 255, 254, 256, 0, 65535, 65536, (1 << 64) + 255, (1 << 16) + 255))
        fields = b"".join(self.space() + self.number(value) for value in (*sides, maxval))
        upload = bytearray(b"P5" + fields + self.space() + bytes(r.choices(b" \n#1A", k=r.randrange(24))))
        if r.random() < 0.3:
            at = r.randrange(len(upload))
            upload[at:at + r.randrange(3)] = bytes(r.choices(b"P5 019#\r\n\tx", k=r.randrange(3)))
        return bytes(upload)


class Reading(unittest.TestCase):
    def test_each_case(self):
        for upload, due in CASES.items():
            with self.subTest(upload):
                self.assertEqual(told(upload), due)
                self.assertEqual(read(upload), due)

    def test_random_headers_against_the_second_reading(self):
        uploads = Uploads(1)
        outcomes = set()
        for _ in range(100_000):
            for upload in (uploads.any(), uploads.header()):
                due = read(upload)
                outcomes.add(due if isinstance(due, int) else 0)
                self.assertEqual(told(upload), due, upload)
        self.assertEqual(outcomes, {0, 1, 12, 13})

    def test_the_pixels_are_a_part_of_the_upload(self):
        photo = zakdomp.read_pgm(b"P5 2 2 255 ABCDbehind")
        self.assertEqual((photo.at, photo.width, photo.height, bytes(photo.pixels)), (11, 2, 2, b"ABCD"))
        self.assertEqual(photo.pixels.obj, b"P5 2 2 255 ABCDbehind")


# headers of 11 by 11 as programs write them
WRITTEN = (
    b"P5\n11 11\n255\n",
    b"P5\n# Created by GIMP version 2.10.34 PNM plug-in\n11 11\n255\n",
    b"P5\n#a comment by ImageMagick\n11 11\n255\n",
    b"P5 11 11 255 ",
    b"P5\r\n11 11\r\n255\n",
)


class Finding(unittest.TestCase):
    def refused(self, number, upload, **named):
        with self.assertRaises(zakdomp.Refusal) as caught:
            zakdomp.find_corners_pgm(upload, **named)
        self.assertEqual(caught.exception.number, number)
        return str(caught.exception)

    def test_the_whole_case(self):
        for header in WRITTEN:
            for upload in (header + whole_case(), bytearray(header + whole_case() + b"#\nP5")):
                self.assertEqual(zakdomp.find_corners_pgm(upload, **PLAIN), [(5.0, 5.0, 2032.0, 0)])

    def test_as_of_the_pixels(self):
        image = random.Random(2).randbytes(300 * 200)
        for named in (dict(window=1, least_neighbours=0, merge_radius=0),
                      dict(threshold=30, levels=3, minimum_side=20)):
            self.assertEqual(zakdomp.find_corners_pgm(b"P5 300 200 255\n" + image, **named),
                             zakdomp.find_corners(image, 300, 200, **named))

    def test_refusals(self):
        upload = WRITTEN[0] + whole_case()
        self.assertEqual(self.refused(12, upload[:-1], ring=6), "the photograph is no whole binary PGM (number 12)")
        self.assertEqual(self.refused(13, upload.replace(b"255", b"254", 1), ring=6),
                         "the maxval of the photograph is not 255 (number 13)")
        self.refused(1, b"P5 4097 1", ring=6)
        self.refused(3, upload, ring=6)
        self.refused(5, upload, merge_radius=5000.0)
        self.refused(10, upload, most=0, **PLAIN)
        with self.assertRaises(TypeError):
            zakdomp.find_corners_pgm(upload, radius=3)


class CommandLine(unittest.TestCase):
    def run_on(self, upload, *arguments):
        """The exit status, and what is written to standard output and standard error."""
        with tempfile.TemporaryDirectory() as folder:
            photo = os.path.join(folder, "photo.pgm")
            with open(photo, "wb") as file:
                file.write(upload)
            out, err = io.StringIO(), io.StringIO()
            with contextlib.redirect_stdout(out), contextlib.redirect_stderr(err):
                status = zakdomp.main([photo, *arguments])
            return status, out.getvalue(), err.getvalue().replace(photo, "photo.pgm")

    def test_the_listing(self):
        plain = [word for name, value in PLAIN.items() for word in ("--" + name.replace("_", "-"), str(value))]
        listing = "corners 1\n1280 1280 40a00000 40a00000 44fe0000 0\n"
        self.assertEqual(self.run_on(WRITTEN[0] + whole_case(), *plain), (0, listing, ""))
        self.assertEqual(self.run_on(WRITTEN[0] + whole_case(), "--threshold", "2032", *plain), (0, "corners 0\n", ""))

    def test_most(self):
        plain = [word for name, value in PLAIN.items() for word in ("--" + name.replace("_", "-"), str(value))]
        self.assertEqual(self.run_on(WRITTEN[0] + whole_case(), "--most", "1", *plain)[0], 0)
        status, out, err = self.run_on(WRITTEN[0] + whole_case(), "--most", "0", *plain)
        self.assertEqual((status, out, "(number 10)" in err), (1, "", True), err)

    def test_as_the_program_prints_it(self):
        side, longest = 96, 40_972
        image = random.Random(3).randbytes(side * side)
        named = zakdomp.Params(threshold=20.0, least_neighbours=0)
        body = struct.pack("<BfBBBfBHB", *named)
        records = b"".join(b"\x03" + image[at:at + 32] for at in range(0, len(image), 32))
        stream = struct.pack("<BHHB", 1, side, side, 2) + body + records + b"\x04"
        corners, printed = zakdomp._library.zakdomp_corners, ctypes.create_string_buffer(longest)
        corners.argtypes, corners.restype = [ctypes.c_void_p, ctypes.c_size_t, ctypes.c_void_p], ctypes.c_size_t
        length = corners(stream, len(stream), printed)
        text = printed.raw[:length].decode("ascii")
        self.assertGreater(text.count("\n"), 10)
        words = [word for name, value in named._asdict().items()
                 for word in ("--" + name.replace("_", "-"), str(value))]
        self.assertEqual(self.run_on(b"P5 96 96 255 " + image, *words), (0, text, ""))

    def test_refusals(self):
        self.assertEqual(self.run_on(b"P2 1 1 255\n0"),
                         (1, "", "zakdomp: photo.pgm: the photograph is no whole binary PGM (number 12)\n"))
        self.assertEqual(self.run_on(b"P5 0 0 255\n", "--ring", "-1")[0], 1)
        status, out, err = self.run_on(WRITTEN[0] + whole_case(), "--ring", "6")
        self.assertEqual((status, out), (1, ""))
        self.assertIn("(number 3)", err)

    def test_no_such_file(self):
        with contextlib.redirect_stderr(io.StringIO()) as err:
            self.assertEqual(zakdomp.main(["no/such/file"]), 1)
        self.assertEqual(err.getvalue(), "zakdomp: no/such/file: No such file or directory\n")


class Others(unittest.TestCase):
    """Files of the programs that write such photographs, where the machine has them."""

    def check(self, says, ask, *command):
        """Reads what a command writes, 32 by 5 pixels, where the program is here and says that it is the one."""
        asked = b""
        if shutil.which(ask[0]):
            asked = subprocess.run(ask, stdout=subprocess.PIPE, stderr=subprocess.STDOUT, check=False).stdout
        if says not in asked:
            self.skipTest(f"no such {command[0]} on this machine")
        upload = subprocess.run(command, check=True, capture_output=True).stdout
        self.assertEqual(told(upload)[1:], (32, 5))
        self.assertEqual(told(upload), read(upload))

    def test_netpbm(self):
        self.check(b"Netpbm", ["pgmramp", "--version"], "pgmramp", "-lr", "32", "5")

    def test_imagemagick(self):
        self.check(b"Version: ImageMagick", ["convert", "-version"], "convert", "-size", "32x5", "gradient:", "-set",
                   "comment", "a board", "-depth", "8", "pgm:-")


if __name__ == "__main__":
    unittest.main()
