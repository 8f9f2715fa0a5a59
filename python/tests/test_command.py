"""`zakdomp find`, corner files and pictures: python3 -m unittest test_command"""
import base64
import contextlib
import io
import json
import os
import random
import re
import struct
import subprocess
import sys
import tempfile
import unittest
import xml.etree.ElementTree
import zlib
from unittest import mock

import zakdomp
from common import HERE, SIDE, board, boxes, pgm, whole_case
from zakdomp_command import choices, files, formats, marks, png
from zakdomp_command.main import main

EXAMPLES = os.path.join(HERE, "..", "examples")
MANY = "there are more corners than places for them: --most bounds the corners before merging, and the seeds; "
PLAIN = "--window 0 --least-neighbours 0 --centroid-radius 0 --search-radius 0".split()
COMPARED = re.compile(r"zakdomp: .*: (computed (only: .*|\d+ corners?, exact choice .*)|exact choice only: .*|"
                      r"\d+ photographs? with another list by the exact choice|"
                      r"\d+ lines? more, of earlier batches: .*)\n")


def noise(side, seed, values=range(256)):
    return pgm(random.Random(seed).choices(values, k=side * side), side, side)


def example(name):
    with open(os.path.join(EXAMPLES, name), "rb") as file:
        return file.read()


def beside(said):
    """What is said on standard error beside how the two choices compare, which test_choices.py looks at, and beside the
    lines of earlier batches, at which test_ledger.py looks."""
    return COMPARED.sub("", said)


class Command(unittest.TestCase):
    """Runs the command in this process, on files of a folder of its own."""

    def setUp(self):
        folder = tempfile.TemporaryDirectory()
        self.addCleanup(folder.cleanup)
        self.folder = folder.name

    def path(self, name):
        return os.path.join(self.folder, name)

    def put(self, name, content):
        with open(self.path(name), "wb") as file:
            file.write(content)
        return self.path(name)

    def content(self, name):
        with open(self.path(name), "rb") as file:
            return file.read()

    def run_command(self, *arguments, given=b""):
        """The status, the bytes on standard output and the text on standard error."""
        output, said = io.TextIOWrapper(io.BytesIO(), "utf-8"), io.StringIO()
        asked = mock.patch("sys.stdin", io.TextIOWrapper(io.BytesIO(given)))
        with contextlib.redirect_stdout(output), contextlib.redirect_stderr(said), asked:
            try:
                status = main([str(argument) for argument in arguments])
            except SystemExit as end:
                status = end.code
            output.flush()
        return status, output.buffer.getvalue(), said.getvalue()

    def done(self, *arguments, given=b""):
        status, output, said = self.run_command(*arguments, given=given)
        self.assertEqual((status, beside(said)), (0, ""))
        return output

    def fails(self, status, words, *arguments, given=b""):
        """The command ends with a status and one line of words, and prints nothing."""
        ended, output, said = self.run_command(*arguments, given=given)
        self.assertEqual((ended, output), (status, b""))
        self.assertEqual(said.count("\n"), 1)
        self.assertIn(words, said)


class Finding(Command):
    def test_the_listing_is_that_of_the_program(self):
        whole = self.put("whole.pgm", pgm(whole_case(), SIDE, SIDE))
        self.assertEqual(self.done("find", whole, *PLAIN), example("whole.txt"))
        stream = example("board.stream")
        pixels = b"".join(stream[23 + 33 * block:55 + 33 * block] for block in range(288))
        photo = self.put("board.pgm", pgm(pixels, 96, 96))
        self.assertEqual(self.done("find", photo, *"--threshold 100 --levels 2 --minimum-side 32".split()),
                         example("board.txt"))

    def test_standard_input(self):
        upload = pgm(whole_case(), SIDE, SIDE)
        self.assertEqual(self.done("find", "-", *PLAIN, given=upload), example("whole.txt"))
        environment = {**os.environ, "PYTHONPATH": HERE}
        ran = subprocess.run([sys.executable, "-B", "-m", "zakdomp_command", "find", "-", *PLAIN], input=upload,
                             capture_output=True, env=environment, check=False)
        self.assertEqual((ran.returncode, ran.stdout), (0, example("whole.txt")))
        self.assertEqual(ran.stderr, b"zakdomp: -: computed 1 corner, exact choice 1 corner: the same list\n")

    def test_the_defaults_are_the_library_s(self):
        upload = noise(64, 1)
        self.assertEqual(self.done("find", "-", given=upload).decode(),
                         zakdomp.listing(zakdomp.find_corners_pgm(upload)))

    def test_every_parameter_is_an_option(self):
        upload = noise(64, 2)
        for name, value in dict(ring=10, threshold=900.5, window=1, least_neighbours=5, centroid_radius=1,
                                merge_radius=9.5, levels=2, minimum_side=40,
                                search_radius=12).items():
            base = dict(levels=2, window=1, least_neighbours=0) if name in ("minimum_side", "search_radius") else {}
            options = [word for key, each in {**base, name: value}.items()
                       for word in ("--" + key.replace("_", "-"), each)]
            due = zakdomp.listing(zakdomp.find_corners_pgm(upload, **{**base, name: value}))
            self.assertEqual(self.done("find", "-", *options, given=upload).decode(), due)
            self.assertNotEqual(due, zakdomp.listing(zakdomp.find_corners_pgm(upload, **base)), name)

    def test_most_bounds_the_corners_before_merging(self):
        upload = noise(64, 2)
        apart, merged = (zakdomp.find_corners_pgm(upload, merge_radius=radius) for radius in (0, 9))
        self.assertGreater(len(apart), len(merged))
        for options in ((), ("--exact",)):
            due = self.done("find", "-", "--merge-radius", 9, *options, given=upload)
            fits = self.done("find", "-", "--merge-radius", 9, "--most", len(apart), *options, given=upload)
            self.assertEqual((fits, len(formats.read(fits).corners)), (due, len(merged)))
            for most in (len(apart) - 1, 0):
                self.fails(1, f"refused 10: {MANY}", "find", "-", "--merge-radius", 9, "--most", most, *options,
                           given=upload)
        self.assertEqual(self.done("find", "-", "--most", 0, given=pgm(bytes(400), 20, 20)), b"corners 0\n")

    def test_most_bounds_the_seeds(self):
        self.assertEqual(self.done("find", "-", "--levels", 3, "--most", 36, given=boxes(4)), b"corners 0\n")
        self.fails(1, f"refused 10: {MANY}", "find", "-", "--levels", 3, "--most", 35, given=boxes(4))

    def test_not_enough_memory(self):
        with mock.patch.object(zakdomp, "find_pgm", side_effect=MemoryError):
            self.fails(2, "zakdomp: -: not enough memory", "find", "-", "--most", 1 << 60, given=board())

    def test_refusals_say_number_and_words(self):
        self.fails(1, "refused 12: the photograph is no whole binary PGM", "find", "-", given=b"P6 1 1 255\nabc")
        self.fails(1, "refused 13: ", "find", "-", given=b"P5 1 1 15\na")
        self.fails(1, "refused 1: ", "find", "-", given=b"P5 4097 1 255\n")
        self.fails(1, "refused 3: ", "find", "-", "--ring", 6, given=board())
        self.fails(1, "refused 5: ", "find", "-", "--merge-radius", 5000, given=board())

    def in_a_shell(self, line):
        """The status and standard error of a line of a shell, in which $ZAKDOMP is the command."""
        command = f"{sys.executable} -B -m zakdomp_command"
        environment = {**os.environ, "PYTHONPATH": HERE, "ZAKDOMP": command, "PHOTO": self.put("a.pgm", noise(300, 1))}
        ran = subprocess.run(["bash", "-c", line], capture_output=True, env=environment, text=True, check=False)
        return ran.returncode, ran.stderr

    def test_standard_input_and_output_that_fail(self):
        self.assertEqual(self.in_a_shell("$ZAKDOMP find - <&-"), (2, "zakdomp: standard input: Bad file descriptor\n"))
        self.assertEqual(self.in_a_shell("$ZAKDOMP find $PHOTO >&-"),
                         (2, "zakdomp: standard output: Bad file descriptor\n"))
        self.assertEqual(self.in_a_shell("$ZAKDOMP find $PHOTO >/dev/full"),
                         (2, "zakdomp: standard output: No space left on device\n"))
        status, said = self.in_a_shell("$ZAKDOMP find $PHOTO | head -n 1")
        self.assertEqual((status, beside(said)), (0, ""))
        closed = "cmp <($ZAKDOMP find $PHOTO 2>&-) <($ZAKDOMP find $PHOTO 2>/dev/null)"
        self.assertEqual(self.in_a_shell(closed), (0, ""), "a closed standard error puts nothing on standard output")

    def test_what_is_no_usage_and_no_file(self):
        self.fails(2, "No such file", "find", self.path("none.pgm"))
        self.fails(2, "Is a directory", "find", self.folder)
        self.fails(2, f"zakdomp: {self.path('none/a.png')}: No such file", "find", "-", "--png",
                   self.path("none/a.png"), given=board())
        self.fails(2, "levels is not within", "find", "-", "--levels", -1, given=board())
        for most in (-1, 1 << 64):
            self.fails(2, f"most is not within 0 to 2^64 - 1: {most}", "find", "-", "--most", most, given=b"GIF89a")
        self.fails(2, "cannot be drawn", "find", "-", "--png", self.path("a.png"), given=b"P5 0 7 255\n")
        for arguments in ((), ("find",), ("found",), ("find", "-", "--ring", "x"), ("find", "-", "--format", "xml"),
                          ("find", "-", "--most", "x"), ("find", "-", "--most", "1.5"), ("find", "-", "--most")):
            self.assertEqual(self.run_command(*arguments, given=board())[:2], (2, b""))
        self.assertEqual(os.listdir(self.folder), [])


    def test_nothing_takes_the_place_of_what_is_read(self):
        photo, picture = self.put("a.pgm", board()), self.path("a.png")
        os.symlink(photo, self.path("link"))
        for options in (("--png", photo), ("--svg", self.path("link")),
                        ("--png", picture, "--svg", os.path.join(self.folder, ".", "a.png"))):
            self.fails(2, "would be written over", "find", photo, *options)
        self.fails(2, "would be written over", "stream", photo, "--out", photo)
        self.assertEqual((self.content("a.pgm"), sorted(os.listdir(self.folder))), (board(), ["a.pgm", "link"]))
        self.done("find", photo, "--png", os.devnull, "--svg", os.devnull)

    def test_a_name_takes_one_line(self):
        self.fails(2, "two\\x0alines: No such file", "find", self.path("two\nlines"))


class Formats(Command):
    def test_csv(self):
        upload = board()
        lines = self.done("find", "-", "--format", "csv", given=upload).decode().splitlines()
        corners = zakdomp.find_corners_pgm(upload)
        self.assertEqual(lines[0], ",".join(zakdomp.Corner._fields))
        self.assertEqual(len(lines), 1 + len(corners))

    def test_json(self):
        upload = noise(40, 3, (0, 255))
        said = json.loads(self.done("find", "-", "--format", "json", "--window", 1, "--threshold", "nan", given=upload))
        frame = zakdomp.find_pgm(upload, window=1)
        self.assertEqual((said["width"], said["height"], said["ties"], len(said["corners"])),
                         (40, 40, frame.ties, len(frame.corners)))
        self.assertEqual(said["parameters"], {**zakdomp.Params()._asdict(), "window": 1, "threshold": "nan"})
        self.assertEqual(list(said["corners"][0]), list(zakdomp.Corner._fields))

    def test_json_says_a_bound_that_is_not_the_default(self):
        for most, due in ((zakdomp.MOST, {}), (500, {"most": 500}), ((1 << 64) - 1, {"most": (1 << 64) - 1})):
            said = json.loads(self.done("find", "-", "--format", "json", "--most", most, given=board()))
            self.assertEqual(said["parameters"], {**zakdomp.Params()._asdict(), **due})

    def test_every_format_is_read_back_bit_for_bit(self):
        corners = zakdomp.find_corners_pgm(noise(160, 4))
        self.assertGreater(len(corners), 50)
        for some in (corners, []):
            for kind in formats.SUFFIXES:
                text = formats.written(kind, some, {"ties": 3})
                self.assertEqual(formats.read(text.encode()), (kind, some, {"ties": 3} if kind == "json" else {}))

    def test_the_shortest_digits(self):
        numbers = random.Random(5)
        for _ in range(2000):
            value = struct.unpack("<f", struct.pack("<f", numbers.uniform(0, 4096) * 10.0 ** numbers.randint(-9, 6)))[0]
            self.assertEqual(struct.unpack("<f", struct.pack("<f", formats.shortest(value)))[0], value)
        self.assertEqual(formats.shortest(struct.unpack("<f", struct.pack("<f", 0.1))[0]), 0.1)

    def test_what_is_no_corner_file(self):
        for content in (b"", b"corners 1\n", b"corners 1\n1 2 3\n", b"corners x\n", b"\xff", b"x,y\n1,2\n", b"{}", b"{",
                        b'{"corners": [{"x": 1}]}', b'{"corners": [1]}',
                        (",".join(formats.FIELDS) + "\n" + ",".join(["1e99"] * len(formats.FIELDS))).encode()):
            with self.assertRaisesRegex(ValueError, "^no corner file: "):
                formats.read(content)

    def test_numbers_that_no_corner_has(self):
        head, one = ",".join(formats.FIELDS) + "\n", '{"corners": [{"x": 1, "y": 1, "strength": 1, "neighbours": %s}]}'
        self.assertEqual(formats.read((head + "1,1,1,4294967295\n").encode()).corners[0].neighbours, (1 << 32) - 1)
        self.assertEqual(formats.read((one % 7).encode()).corners[0].neighbours, 7)
        for content in (head + "1,1,1,3.5\n", head + "1,1,1,-1\n", head + "1,1,1,4294967296\n", one % "1.5",
                        one % "true", one % "null",
                        '{"corners":' + "[" * 100_000):
            with self.assertRaisesRegex(ValueError, "^no corner file: "):
                formats.read(content.encode())


def decoded(content):
    """The sides, kind of colour, palette and rows of a PNG file, whose sums are compared."""
    assert content[:8] == b"\x89PNG\r\n\x1a\n"
    chunks, place = {}, 8
    while place < len(content):
        length, name = struct.unpack(">I4s", content[place:place + 8])
        body = content[place + 8:place + 8 + length]
        assert struct.unpack(">I", content[place + 8 + length:place + 12 + length])[0] == zlib.crc32(name + body)
        chunks[name] = body
        place += 12 + length
    width, height, depth, kind, *rest = struct.unpack(">IIBBBBB", chunks[b"IHDR"])
    data = zlib.decompress(chunks[b"IDAT"])
    assert (depth, rest, len(data)) == (8, [0, 0, 0], (width + 1) * height) and list(chunks)[-1] == b"IEND"
    return width, height, kind, chunks.get(b"PLTE"), [data[row * (width + 1) + 1:(row + 1) * (width + 1)]
                                                      for row in range(height)]


def tied_peaks(photo, window, border):
    """Whether each peak of a photograph's map at threshold 0 has an equal cell in its window, in row order."""
    cells, side = zakdomp.response(photo.pixels, photo.width, photo.height).cells, photo.width
    tied = []
    for y in range(border, side - border):
        for x in range(border, side - border):
            about = [cells[v * side + u] for v in range(y - window, y + window + 1)
                     for u in range(x - window, x + window + 1) if (u, v) != (x, y)]
            if cells[y * side + x] > 0 and max(about) <= cells[y * side + x]:
                tied.append(cells[y * side + x] in about)
    return tied


def drawn(photo, corners, parameters):
    """The marks of a list that is the same by both choices."""
    frame = zakdomp.Frame(corners, 0)
    return marks.drawing(choices.Found(photo, False, frame, choices.compared(frame, frame)), parameters).marks


class Pictures(Command):
    def drawn(self, upload, *options):
        self.done("find", "-", "--png", self.path("a.png"), "--svg", self.path("a.svg"), *options, given=upload)
        self.assertEqual(sorted(os.listdir(self.folder)), ["a.png", "a.svg"])
        return decoded(self.content("a.png")), xml.etree.ElementTree.fromstring(self.content("a.svg"))

    def test_marks_lie_about_the_corners(self):
        upload = board(640, 480, 80)
        (width, height, kind, palette, rows), _ = self.drawn(upload, "--threshold", 100)
        self.assertEqual((width, height, kind, len(palette)), (640, 480, 3, 768))
        corners = zakdomp.find_corners_pgm(upload, threshold=100)
        self.assertEqual(len(corners), 35)
        coloured = [(x, y) for y, row in enumerate(rows) for x, cell in enumerate(row) if cell > png.GREYS]
        near = {min(range(35), key=lambda c: abs(corners[c].x - x) + abs(corners[c].y - y)) for x, y in coloured}
        self.assertEqual(len(near), 35)
        self.assertTrue(all(min(max(abs(c.x - x), abs(c.y - y)) for c in corners) < 12 for x, y in coloured))
        self.assertTrue(all(rows[round(c.y)][round(c.x)] < png.GREYS for c in corners),
                        "the photograph is seen inside a mark")

    def test_a_small_photograph_is_enlarged(self):
        (width, height, _, _, _), picture = self.drawn(board(96, 60))
        self.assertEqual((width, height), (480, 300))
        self.assertEqual((picture.get("width"), picture.get("viewBox")), ("480", "0 0 96 60"))

    def test_the_svg_holds_the_photograph_and_a_shape_for_each_corner(self):
        upload = noise(100, 6)
        corners = zakdomp.find_corners_pgm(upload)
        _, picture = self.drawn(upload)
        space = "{http://www.w3.org/2000/svg}"
        image = picture.find(space + "image").get("href").partition("base64,")[2]
        width, height, kind, _, rows = decoded(base64.b64decode(image))
        self.assertEqual((width, height, kind, b"".join(rows)), (100, 100, 0, upload[-10_000:]))
        shapes = picture.findall(f"{space}g/{space}g")
        self.assertEqual(len(shapes), len(corners))
        circles = [circle for shape in shapes for circle in shape.findall(space + "circle")]
        self.assertLessEqual({(circle.get("cx"), circle.get("cy")) for circle in circles},
                             {(f"{c.x:.3f}", f"{c.y:.3f}") for c in corners})

    def test_strength_is_size_and_colour(self):
        corners = zakdomp.find_corners_pgm(noise(100, 7))
        photo = zakdomp.read_pgm(noise(100, 7))
        made = drawn(photo, corners, zakdomp.Params()._asdict())
        self.assertEqual([mark.corner for mark in made], sorted(corners, key=lambda corner: corner.strength))
        for one, other in zip(made, made[1:]):
            self.assertLessEqual((one.radius, one.step), (other.radius, other.step))
        self.assertEqual(made[-1].step, marks.STEPS - 1)
        self.assertLess(made[0].step, marks.STEPS // 2)

    def test_ties_are_squares(self):
        total = 0
        for seed in range(8):
            upload = noise(40, seed, (0, 255))
            photo = zakdomp.read_pgm(upload)
            for window, radius in ((1, 0), (1, 1), (2, 2)):
                chosen = zakdomp.Params(window=window, least_neighbours=0, centroid_radius=radius,
                                        merge_radius=0)._asdict()
                corners = zakdomp.find_corners_pgm(upload, **chosen)
                made = {mark.corner: mark.tied for mark in drawn(photo, corners, chosen)}
                due = tied_peaks(photo, window, 5 + window + radius)
                self.assertEqual([made[corner] for corner in corners], due)
                total += sum(due)
        self.assertGreater(total, 20)
        _, picture = self.drawn(upload, "--window", 2, "--least-neighbours", 0, "--merge-radius", 0)
        squares = picture.findall(".//{http://www.w3.org/2000/svg}rect")
        self.assertEqual(len(squares), 2 * sum(due))

    def test_the_picture_of_the_readme(self):
        made = subprocess.run([sys.executable, os.path.join(EXAMPLES, "photograph")], capture_output=True,
                              check=True).stdout
        picture, _ = self.drawn(made, "--threshold", 100)
        with open(os.path.join(HERE, "..", "docs", "board.png"), "rb") as file:
            self.assertEqual(picture, decoded(file.read()))
        self.assertEqual(len(zakdomp.find_corners_pgm(made, threshold=100)), 8 * 6)

    def test_marks_at_the_edge_and_none_at_all(self):
        (_, _, _, _, rows), _ = self.drawn(pgm(whole_case(), SIDE, SIDE), *PLAIN)
        self.assertTrue(any(cell > png.GREYS for row in rows for cell in row))
        (_, _, _, _, rows), _ = self.drawn(pgm(bytes(600 * 3), 600, 3))
        self.assertFalse(any(cell >= png.GREYS for row in rows for cell in row))

    def test_a_large_picture_has_large_marks(self):
        photo = zakdomp.Photograph(0, 4096, 4096, memoryview(bytes(1)))
        small = photo._replace(width=640, height=480)
        apart = [zakdomp.find_corners_pgm(pgm(whole_case(), SIDE, SIDE), window=0, least_neighbours=0,
                                          centroid_radius=0)[0]]
        self.assertGreater(marks._largest(photo, apart), 40)
        self.assertEqual(marks._largest(small, apart), 8)
        dense = [apart[0]._replace(x=20.0 * (i % 100), y=20.0 * (i // 100)) for i in range(10_000)]
        self.assertEqual(marks._largest(photo, dense), 6)


class Files(Command):
    def test_a_file_appears_whole_or_not_at_all(self):
        name = self.put("a", b"older")
        with mock.patch("os.fsync", side_effect=OSError(28, "No space left on device")), self.assertRaises(OSError):
            files.place(name, b"newer")
        self.assertEqual((self.content("a"), os.listdir(self.folder)), (b"older", ["a"]))
        files.place(name, b"newer")
        self.assertEqual((self.content("a"), os.listdir(self.folder)), (b"newer", ["a"]))
        self.assertEqual(os.stat(name).st_mode & 0o777, 0o666 & ~files._mask())

    def test_a_link_and_what_is_no_file_stay_what_they_are(self):
        self.put("a", b"older")
        os.symlink("a", self.path("link"))
        files.place(self.path("link"), b"newer")
        self.assertTrue(os.path.islink(self.path("link")))
        self.assertEqual(self.content("a"), b"newer")
        os.mkfifo(self.path("pipe"))
        handle = os.open(self.path("pipe"), os.O_RDONLY | os.O_NONBLOCK)
        self.addCleanup(os.close, handle)
        files.place(self.path("pipe"), b"through")
        self.assertEqual(os.read(handle, 99), b"through")
        with self.assertRaisesRegex(OSError, "Is a directory"):
            files.place(self.folder, b"")
        self.assertEqual(sorted(os.listdir(self.folder)), ["a", "link", "pipe"])

    def test_parts_of_a_killed_run_are_removed(self):
        self.put(".zakdomp-x.part", b"half")
        self.put("kept.part", b"")
        files.remove_parts(self.folder)
        self.assertEqual(os.listdir(self.folder), ["kept.part"])


if __name__ == "__main__":
    unittest.main()
