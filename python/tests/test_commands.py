"""`zakdomp stream`, `retained` and `merge`: python3 -m unittest test_commands"""
import csv
import io
import json
import math
import time
import unittest
from unittest import mock

import zakdomp
from common import SIDE, whole_case
from test_command import PLAIN, Command, board, example, noise, pgm
from zakdomp_command import formats


class Streams(Command):
    def test_the_stream_of_the_whole_case(self):
        photo = self.put("whole.pgm", pgm(whole_case(), SIDE, SIDE))
        self.assertEqual(self.done("stream", photo, *PLAIN), example("whole.stream"))
        self.assertEqual(self.done("stream", photo, *PLAIN, "--out", self.path("s")), b"")
        self.assertEqual(self.content("s"), example("whole.stream"))

    def test_what_has_no_stream(self):
        self.fails(1, "refused 1: ", "stream", "-", given=board(97, 4))
        self.fails(1, "refused 3: ", "stream", "-", "--ring", 7, given=board(9, 4))
        self.fails(2, "No such file", "stream", self.path("none"))
        status, output, said = self.run_command("stream", "-", "--most", 9, given=board(9, 4))
        self.assertEqual((status, output, "unrecognized arguments: --most" in said), (2, b"", True), said)


class Retained(Command):
    def test_a_photograph_for_90_days(self):
        for at, due in (("2026-08-17T23:59:59", b"N not yet\n"), ("2026-08-18", b"H held\n"),
                        ("2026-11-15T23:59:59+00:00", b"H held\n"),
                        ("2026-11-16", b"G gone\n"), ("@1794787200", b"G gone\n"),
                        ("2026-11-16T01:00:00+02:00", b"H held\n")):
            self.assertEqual(self.done("retained", "photograph", "2026-08-18", "--at", at), due, at)

    def test_kinds_and_now(self):
        self.assertEqual(self.done("retained", "file", "@0", "--at", f"@{1 << 40}"), b"H held\n")
        self.assertEqual(self.done("retained", "token", "@100", "--at", "@604899"), b"H held\n")
        self.assertEqual(self.done("retained", "token", "@100", "--at", "@604900"), b"G gone\n")
        self.assertEqual(self.done("retained", "token", f"@{int(time.time()) - 9}"), b"H held\n")
        self.assertEqual(self.done("retained", "token", f"@{int(time.time()) + 999}"), b"N not yet\n")

    def test_a_time_that_can_be_read_in_two_ways_is_refused(self):
        """20261115 is a day of 2026 and a second of 1970, by which a photograph would be gone."""
        for text, words in (("20261115", "write @20261115 or a date as 2026-11-15"), ("0", "write @0"),
                            ("\u0661", "can be"),
                            ("2026-W46-1", "is no date"), ("2026-11", "is no date"), ("20261115T00", "is no date"),
                            ("2026-02-30", "is no date"), ("@", "is no date"), ("@1e9", "is no date"),
                            ("@-1", "is no date")):
            for arguments in ((text,), ("2026-08-18", "--at", text)):
                status, output, said = self.run_command("retained", "photograph", *arguments)
                self.assertEqual((status, output, words in said), (2, b"", True), said)

    def test_a_stream_of_items(self):
        items = zakdomp_items(50, (1, 3), (2, 0), (3, 60))
        self.assertEqual(self.done("retained", "--stream", "-", given=items), b"H\nH\nN\n")
        status, output, said = self.run_command("retained", "--stream", self.put("items", items + b"\x07"))
        self.assertEqual((status, output), (1, b"H\nH\nN\nrefused 6\n"))
        self.assertIn("refused 6: there is no such kind of item", said)
        self.assertEqual(self.run_command("retained", "--stream", "-"),
                         (1, b"refused 7\n", "zakdomp: refused 7: the stream is cut short\n"))

    def test_usage(self):
        self.fails(1, "refused 20: ", "retained", "file", f"@{(1 << 40) + 1}", "--at", "@5")
        self.fails(2, "KIND and START", "retained")
        self.fails(2, "KIND and START", "retained", "file")
        self.fails(2, "KIND and START", "retained", "file", "@3", "--stream", "-")
        for arguments, words in ((("photo", "@3"), "'photo' is no kind: file, photograph, token are"),
                                 (("file", "now"), "'now' is no date as "),
                                 (("file", "1969-12-31"), "'1969-12-31' is before 1970"), (("file", -1), "")):
            status, _, said = self.run_command("retained", *arguments)
            self.assertEqual((status, words in said), (2, True), said)


def zakdomp_items(at, *records):
    """A stream of items: the time asked about, then the kind and the start of each."""
    return at.to_bytes(8, "little") + b"".join(bytes([kind]) + start.to_bytes(8, "little") for kind, start in records)


def kept(corners, radius):
    """A stand-in for merging: each corner that is farther than the radius from all that were kept before it."""
    if not 1 / 64 <= radius <= 4096 and radius > 0:
        raise zakdomp.Refusal(5)
    left = []
    for corner in corners:
        if all(math.hypot(corner.x - other.x, corner.y - other.y) > radius for other in left):
            left.append(corner)
    return left


class Merging(Command):
    """The command around a merge; the library's own in `LibraryMerging`."""
    merged = merge_naive = staticmethod(kept)

    def setUp(self):
        super().setUp()
        for name in ("merged", "merge_naive"):
            patch = mock.patch.object(zakdomp, name, getattr(self, name), create=True)
            patch.start()
            self.addCleanup(patch.stop)
        self.corners = zakdomp.find_corners_pgm(noise(120, 8), merge_radius=0)
        self.file = self.put("a.corners", zakdomp.listing(self.corners).encode())

    def test_one_radius_gives_a_corner_file(self):
        for options, merge in (((), self.merged), (("--naive",), self.merge_naive)):
            due = list(merge(self.corners, 10.0))
            self.assertLess(len(due), len(self.corners))
            self.assertEqual(self.done("merge", self.file, "--radius", 10, *options), zakdomp.listing(due).encode())
        self.assertEqual(formats.read(self.done("merge", self.file, "--radius", 10, "--format", "json")).corners, due)
        self.assertEqual(self.content("a.corners"), zakdomp.listing(self.corners).encode())

    def test_several_radii(self):
        due = [(radius, list(self.merged(self.corners, radius))) for radius in (0.0, 5.0, 20.0)]
        arguments = ("merge", self.file, "--radius", "0,5,20")
        self.assertEqual(self.done(*arguments).decode(),
                         "".join(f"radius {radius:g}\n{zakdomp.listing(corners)}" for radius, corners in due))
        rows = list(csv.DictReader(io.StringIO(self.done(*arguments, "--format", "csv").decode())))
        self.assertEqual([sum(row["radius"] == f"{radius:g}" for row in rows) for radius, _ in due],
                         [len(corners) for _, corners in due])
        said = json.loads(self.done(*arguments, "--format", "json"))
        self.assertEqual([(each["radius"], len(each["corners"])) for each in said],
                         [(radius, len(corners)) for radius, corners in due])

    def test_refusals_and_usage(self):
        self.fails(1, "refused 5: ", "merge", self.file, "--radius", "3,5000")
        self.fails(2, "no corner file", "merge", "-", "--radius", "3", given=b"x")
        for radii in ("a,b", "3,", ""):
            status, _, said = self.run_command("merge", self.file, "--radius", radii)
            self.assertEqual((status, f"'{radii}' is no number" in said), (2, True), said)


@unittest.skipUnless(hasattr(zakdomp, "merged") and hasattr(zakdomp, "merge_naive"),
                     "this library has no merged and merge_naive")
class LibraryMerging(Merging):
    merged, merge_naive = (staticmethod(getattr(zakdomp, name, kept)) for name in ("merged", "merge_naive"))


class Help(Command):
    def test_each_command_has_an_example(self):
        for name in ("find", "batch", "invoice", "report", "stream", "retained", "merge", "strike"):
            status, text, _ = self.run_command(name, "--help")
            self.assertEqual(status, 0)
            self.assertIn(f"example: zakdomp {name} ", text.decode())
            self.assertIn(name.encode(), self.run_command("--help")[1])
        self.assertEqual(self.run_command("--version")[1], f"zakdomp {zakdomp.__version__}\n".encode())

    def test_what_the_library_has_not(self):
        file = self.put("a", b"corners 0\n")
        with mock.patch.object(zakdomp, "merged", None, create=True):
            del zakdomp.merged
            self.fails(2, "this version of the library", "merge", file, "--radius", 3)
            zakdomp.merged = None


if __name__ == "__main__":
    unittest.main()
