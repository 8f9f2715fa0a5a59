"""The frame stream that is written, against a second implementation and the streams of the sample:
python3 -m unittest test_stream"""
import math
import os
import random
import struct
import subprocess
import sys
import unittest

import zakdomp
from common import TOP

NAMES = ("ring", "threshold_bits", "window", "least_neighbours", "centroid_radius", "merge_bits", "levels",
         "minimum_side", "search_radius")
PARAMETERS = struct.Struct("<BIBBBIBHB")
PLAIN = dict(zip(NAMES, (5, 0, 0, 0, 0, 0x40400000, 1, 1, 0)))
NANS = (0x7fc00000, 0x7fc00001, 0x7f800001, 0xffc12345, 0xffffffff)


def outside(bits):
    """Whether the merge radius of these bits is finite, above 0 and not within 1/64 to 4096."""
    radius, = struct.unpack("<f", struct.pack("<I", bits))
    return math.isfinite(radius) and radius > 0 and not 1 / 64 <= radius <= 4096


def refusal(pixels, width, height, p):
    """The number of the refusal, 0 for none."""
    if max(width, height) > 96:
        return 1
    if len(pixels) != width * height:
        return 2
    if p["ring"] not in (5, 10) or max(p["window"], p["centroid_radius"]) > 16:
        return 3
    if max(p["least_neighbours"], p["levels"], p["search_radius"]) > 255 or p["minimum_side"] > 65_535:
        return 3
    return 5 if outside(p["merge_bits"]) else 0


def written(pixels, width, height, p):
    """The stream of what is not refused."""
    records = [b"\x01" + struct.pack("<HH", width, height), b"\x02" + PARAMETERS.pack(*(p[name] for name in NAMES))]
    records += [b"\x03" + pixels[i:i + 32].ljust(32, b"\0") for i in range(0, len(pixels), 32)]
    return b"".join(records) + b"\x04"


def read(stream):
    """The values of a stream that is not refused, and how long it is up to its kind 4 byte; none of another."""
    if len(stream) < 22 or stream[0] != 1 or stream[5] != 2:
        return None
    width, height = struct.unpack_from("<HH", stream, 1)
    p = dict(zip(NAMES, PARAMETERS.unpack_from(stream, 6)))
    count = -(-width * height // 32)
    end = 22 + 33 * count
    if len(stream) <= end or stream[end] != 4 or any(stream[22 + 33 * i] != 3 for i in range(count)):
        return None
    bodies = b"".join(stream[23 + 33 * i:55 + 33 * i] for i in range(count))
    pixels, padding = bodies[:width * height], bodies[width * height:]
    if any(padding) or refusal(pixels, width, height, p):
        return None
    return pixels, width, height, p, end + 1


def bodies(name):
    """The bodies of the records of a file of the sample (oracle/SAMPLE.md)."""
    with open(os.path.join(TOP, "crates", "replay", "data", name), "rb") as file:
        data = file.read()
    at = 0
    while data[at]:
        length, = struct.unpack_from("<I", data, at + 1)
        yield data[at + 5:at + 5 + length]
        at += 5 + length


def first_bytes(body, at=0):
    length, = struct.unpack_from("<I", body, at)
    return body[at + 4:at + 4 + length]


class Values:
    """Random sides, parameters and pixels, about the ends of what is taken."""

    def __init__(self, seed):
        self.random = random.Random(seed)

    def bits(self):
        r = self.random
        radius = struct.unpack("<I", struct.pack("<f", r.choice((0.0, 1 / 64, 3.0, 4096.0, math.inf, -1.0))))[0]
        return r.choice((radius, r.choice(NANS), r.randrange(1 << 32)))

    def taken(self):
        r = self.random
        width, height = r.choice(((r.randrange(97), r.randrange(97)), (r.randrange(9), r.randrange(9)),
                                  (32, r.randrange(4)), (96, 96), (0, 5)))
        small = (0, 16, r.randrange(17))
        p = dict(zip(NAMES, (r.choice((5, 10)), self.bits(), r.choice(small), r.choice((0, 255, r.randrange(256))),
                             r.choice(small),
                             self.bits(), r.choice((0, 1, 255)), r.choice((0, 65_535, r.randrange(65_536))),
                             r.randrange(256))))
        while outside(p["merge_bits"]):
            p["merge_bits"] = self.bits()
        return r.randbytes(width * height), width, height, p

    def any(self):
        r = self.random
        pixels, width, height, p = self.taken()
        wrong = {"ring": (0, 6, 261), "window": (17, 272), "least_neighbours": (256, 1 << 31),
                 "centroid_radius": (17, 256), "levels": (256,),
                 "minimum_side": (65_536, 1 << 63), "search_radius": (256, 511),
                 "merge_bits": (0x459c4000, 0x3c7fffff, 1)}
        for name in r.sample(sorted(wrong), r.randrange(3)):
            p[name] = r.choice(wrong[name])
        if r.randrange(4) == 0:
            width = r.choice((97, 65_537, 1 << 63, width))
        if r.randrange(4) == 0:
            pixels += b"\0"
        return pixels, width, height, p


class Writing(unittest.TestCase):
    def refused(self, number, pixels, width, height, p):
        with self.assertRaises(zakdomp.Refusal) as caught:
            zakdomp.write_stream(pixels, width, height, **p)
        self.assertEqual(caught.exception.number, number)

    def test_one_pixel_bit_for_bit(self):
        p = dict(zip(NAMES, (5, 0x7fc00001, 0, 0, 0, 0xffc12345, 255, 65_535, 255)))
        stream = bytes.fromhex("0101000100" "02050100c07f0000004523c1ffffffffff" "0309" + 31 * "00" + "04")
        self.assertEqual(len(stream), 56)
        self.assertEqual(zakdomp.write_stream(b"\x09", 1, 1, **p), stream)
        self.assertEqual(len(zakdomp.write_stream(b"", 0, 7, **p)), 23)

    def test_floats_as_floats(self):
        named = dict(threshold=30, merge_radius=3)
        self.assertEqual(zakdomp.write_stream(b"\x09", 1, 1, **named)[7:11], struct.pack("<f", 30))
        self.assertEqual(zakdomp.write_stream(b"\x09", 1, 1, **named)[14:18], struct.pack("<f", 3))
        self.assertEqual(zakdomp.write_stream(b"\x09", 1, 1, threshold=math.inf)[7:11], struct.pack("<f", math.inf))

    def test_refusals_in_their_order(self):
        wide = dict(PLAIN, merge_bits=0x459c4000)
        self.refused(1, bytes(97), 97, 1, dict(wide, ring=6))
        self.refused(2, bytes(2), 1, 1, dict(wide, ring=6))
        self.refused(3, bytes(1), 1, 1, dict(wide, ring=6))
        self.refused(3, bytes(1), 1, 1, dict(wide, least_neighbours=256))
        self.refused(5, bytes(1), 1, 1, wide)
        for named in (dict(threshold_bits=1 << 32), dict(levels=-1), dict(minimum_side=1 << 64)):
            with self.assertRaises(ValueError):
                zakdomp.write_stream(bytes(1), 1, 1, **named)

    def test_values_against_the_second_implementation(self):
        values = Values(11)
        for _ in range(3_000):
            pixels, width, height, p = values.taken()
            stream = zakdomp.write_stream(pixels, width, height, **p)
            self.assertEqual(stream, written(pixels, width, height, p), (width, height, p))
            self.assertEqual(read(stream + values.random.randbytes(3)), (pixels, width, height, p, len(stream)))

    def test_refusals_against_the_second_implementation(self):
        values = Values(12)
        seen = set()
        for _ in range(6_000):
            pixels, width, height, p = values.any()
            number = refusal(pixels, width, height, p)
            seen.add(number)
            if number:
                self.refused(number, pixels, width, height, p)
            else:
                self.assertEqual(zakdomp.write_stream(pixels, width, height, **p), written(pixels, width, height, p))
        self.assertEqual(seen, {0, 1, 2, 3, 5})

    def test_streams_of_the_sample_read_by_the_original(self):
        count = 0
        for body in bodies("streams.bin"):
            stream = first_bytes(body)
            number, width, height, *values = struct.unpack_from("<12I", body, 4 + len(stream))
            if number:
                continue
            pixels = first_bytes(body, 4 + len(stream) + 48)
            again = zakdomp.write_stream(pixels, width, height, **dict(zip(NAMES, values)))
            self.assertEqual((again, again[-1]), (stream[:len(again)], 4))
            count += 1
        self.assertGreater(count, 100)

    def test_streams_of_the_sample_read_by_the_second_implementation(self):
        count = 0
        for stream in map(first_bytes, bodies("frames.bin")):
            values = read(stream)
            if values:
                pixels, width, height, p, length = values
                self.assertEqual(zakdomp.write_stream(pixels, width, height, **p), stream[:length])
                count += 1
        self.assertGreater(count, 2_000)

    def test_the_examples(self):
        examples = os.path.join(TOP, "examples")
        for name in ("board", "whole"):
            with open(os.path.join(examples, name + ".stream"), "rb") as file:
                stream = file.read()
            pixels, width, height, p, length = read(stream)
            self.assertEqual(zakdomp.write_stream(pixels, width, height, **p), stream[:length])
            if name == "board":
                board = subprocess.run([sys.executable, os.path.join(examples, name)], stdout=subprocess.PIPE,
                                       check=True).stdout
                self.assertEqual(board, stream)


if __name__ == "__main__":
    unittest.main()
