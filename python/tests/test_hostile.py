"""Uploads of all kinds: none of them ends a batch. python3 -m unittest test_hostile"""
import os
import unittest
from unittest import mock

import zakdomp
from common import boxes
from test_batch import Batch, by_digest, tree
from test_command import MANY, board, noise
from zakdomp_command import uploads


class Hostile(Batch):
    def words(self):
        return {line["name"]: line["words"] for line in self.lines()}

    def test_links(self):
        self.fill(2)
        os.symlink("loop", self.path("in/loop"))
        os.symlink("two", self.path("in/one"))
        os.symlink("one", self.path("in/two"))
        os.symlink("000.pgm", self.path("in/link"))
        os.symlink("/dev/zero", self.path("in/zero"))
        os.symlink("x" * 4000, self.path("in/long"))
        for jobs in (1, 2):
            said = self.batch("--jobs", jobs)
            self.assertTrue(said.startswith(b"8 uploads: 3 found, 0 refused, 5 not read"), said)
        self.assertEqual({name: words for name, words in self.words().items() if words}, {
            **dict.fromkeys(("loop", "one", "two"), "cannot be read: Too many levels of symbolic links"),
            "long": "cannot be read: File name too long", "zero": "cannot be read: not a regular file"})

    def test_a_link_into_a_forbidden_folder(self):
        """`is_dir` raises for it; the superuser, who is forbidden nothing, sees a stand-in."""
        self.fill(2)
        real = os.scandir

        class Forbidden:
            name, path = "forbidden", self.path("in/forbidden")

            def is_dir(self):
                raise PermissionError(13, "Permission denied")

        os.symlink("gone/a", self.path("in/forbidden"))
        listed = lambda folder: [Forbidden() if entry.name == "forbidden" else entry for entry in real(folder)]
        with mock.patch("os.scandir", listed):
            self.batch("--jobs", 1)
        self.assertEqual(set(self.words()), {"000.pgm", "001.pgm", "forbidden"})

    def test_a_sparse_file_of_a_terabyte(self):
        for name, head in (("zeros", b""), ("noise.pgm", noise(60, 3)), ("comment.pgm", b"P5 #")):
            self.put("in/" + name, head)
            os.truncate(self.path("in/" + name), 1 << 40)
        self.put("in/same.pgm", noise(60, 3))
        self.batch("--jobs", 2)
        words = self.words()
        self.assertEqual((words["noise.pgm"], words["same.pgm"]), ("", ""))
        self.assertIn("nothing but zeros", words["zeros"])
        self.assertIn(zakdomp.REFUSALS[12], words["comment.pgm"])
        self.assertEqual(self.content("out/corners/noise.pgm.corners"), self.content("out/corners/same.pgm.corners"))

    def test_a_terabyte_for_find_and_stream(self):
        self.put("a.pgm", noise(60, 3))
        due = [self.done(name, self.path("a.pgm")) for name in ("find", "stream")]
        os.truncate(self.path("a.pgm"), 1 << 40)
        self.assertEqual([self.done(name, self.path("a.pgm")) for name in ("find", "stream")], due)
        self.fails(1, "nothing but zeros", "find", "/dev/zero")

    def test_the_largest_photograph_is_read_whole(self):
        self.assertGreaterEqual(uploads.LONGEST, 4096 * 4096 + (1 << 20))
        order = uploads.Order(self.path("in"), "listing", {})
        upload = b"P5 4096 4096 255\n" + bytes(4096 * 4096)
        self.put("in/a", upload)
        self.assertEqual(uploads.read(order, "a").content, upload)

    def test_what_cannot_be_read_at_the_moment(self):
        """Files of the system may have nothing to say when they are asked, as /proc/kmsg, and memory may be short."""
        self.fill(3)
        real = uploads._content
        answers = {"000.pgm": mock.Mock(read=lambda most: None),
                   "001.pgm": mock.Mock(read=mock.Mock(side_effect=MemoryError))}

        def content(file):
            return real(answers.get(os.path.basename(os.readlink(f"/proc/self/fd/{file.fileno()}")), file))

        with mock.patch.object(uploads, "_content", content):
            self.batch("--jobs", 1)
        self.assertEqual([*self.words().values()], ["cannot be read: Resource temporarily unavailable",
                                                    "cannot be read: Cannot allocate memory", ""])

    def test_no_device_is_opened(self):
        """That alone can start something."""
        self.fill(1)
        os.symlink("/dev/null", self.path("in/device"))
        real, opened = os.open, []
        with mock.patch("os.open", lambda path, *more, **named: opened.append(path) or real(path, *more, **named)):
            self.batch("--jobs", 1)
        self.assertEqual(self.words()["device"], "cannot be read: not a regular file")
        self.assertIn(self.path("in/000.pgm"), map(os.path.realpath, opened))
        self.assertNotIn(self.path("in/device"), opened)

    def test_more_seeds_than_most(self):
        """The bound keeps one upload from holding a job with a box for each of its seeds; the others are as without
        it."""
        self.put("in/boxes.pgm", boxes(6))
        self.put("in/board.pgm", board(192, 192, 64))
        self.put("in/x.jpg", b"\xff\xd8\xff")
        columns = ("name", "corners", "number", "words", "corner_file", "corner_file_sha256")
        lines = {}
        for out, options in (("free", ()), ("fits", ("--most", 100)), ("out", ("--most", 99))):
            self.batch("--levels", 3, "--jobs", 1, *options, out=out)
            lines[out] = {line["name"]: [line[column] for column in columns] for line in self.lines(out)}
        self.assertEqual(lines["fits"], lines["free"])
        self.assertEqual([line[1] for line in lines["free"].values()], ["4", "0", ""])
        refused = lines["out"].pop("boxes.pgm")
        del lines["free"]["boxes.pgm"]
        self.assertEqual(lines["out"], lines["free"])
        self.assertEqual((refused[1:3], refused[4:]), (["", "10"], ["", ""]))
        self.assertTrue(refused[3].startswith(MANY), refused)
        self.assertEqual(os.listdir(self.path("out/corners")), ["board.pgm.corners"])
        self.batch("--levels", 3, "--jobs", 2, "--most", 99, out="two")
        self.assertEqual(tree(self.path("two")), tree(self.path("out")))

    def test_no_place_at_all(self):
        self.put("in/board.pgm", board())
        self.put("in/grey.pgm", b"P5 20 20 255\n" + bytes(400))
        self.assertTrue(self.batch("--jobs", 1, "--most", 0).startswith(b"2 uploads: 1 found, 1 refused, 0 not read"))
        self.assertEqual([(line["number"], line["corners"]) for line in self.lines()], [("10", ""), ("", "0")])

    def test_not_enough_memory_for_one(self):
        self.fill(3)
        real = zakdomp.find_pgm

        def short(upload, **parameters):
            if upload == noise(100, 1):
                raise MemoryError
            return real(upload, **parameters)

        with mock.patch.object(zakdomp, "find_pgm", short):
            self.batch("--jobs", 1)
        self.assertEqual([bool(words) for words in self.words().values()], [False, True, False])
        self.assertIn("not enough memory", self.words()["001.pgm"])

    def test_an_upload_that_changes_while_it_is_read(self):
        self.fill(3)
        real = os.fstat
        seen = []

        def growing(handle):
            state = real(handle)
            name = os.readlink(f"/proc/self/fd/{handle}")
            if name.endswith("001.pgm"):
                seen.append(name)
                with open(name, "ab") as file:
                    file.write(b"more")
            return state

        with mock.patch("os.fstat", growing):
            self.batch("--jobs", 1)
        self.assertGreater(len(seen), 1)
        self.assertIn("changed while it was read: start the batch again", self.words()["001.pgm"])
        self.batch("--jobs", 1)
        self.assertEqual(set(self.words().values()), {""})

    def test_a_name_too_long_for_a_corner_file(self):
        self.put("in/" + "n" * 255, board())
        self.put("in/" + "m" * 255, b"no photograph")
        self.batch("--jobs", 1)
        self.assertEqual(self.words()["n" * 255], "")
        self.assertEqual(self.content(f"out/corners/{by_digest('n' * 255, board())}.corners"),
                         zakdomp.listing(zakdomp.find_corners_pgm(board())).encode())


class Parameters(Batch):
    def test_they_are_tried_before_the_batch(self):
        self.fill(2)
        for options, words in ((("--ring", 7), "the parameters are refused 3: the ring is not 5 or 10"),
                               (("--merge-radius", 4097), "the parameters are refused 5: "),
                               (("--levels", 1 << 32), "levels is not within"),
                               (("--most", -1), "most is not within 0 to 2^64 - 1: -1"),
                               (("--most", 1 << 64), "most is not within"),
                               (("--search-radius", 256), "refused 3")):
            self.fails(2, words, "batch", self.path("in"), "--out", self.path("out"), *options)
        self.assertFalse(os.path.exists(self.path("out")))

    def test_what_single_precision_does_not_hold(self):
        for option in ("--merge-radius", "--threshold"):
            for value, words in (("1e39", "'1e39' is too large"), ("-1e39", "is too large"), ("1e-50", "is too small"),
                                 ("many", "'many' is no number")):
                status, output, said = self.run_command("find", "-", f"{option}={value}", given=board())
                self.assertEqual((status, output, words in said), (2, b"", True), said)
        status, _, said = self.run_command("merge", "-", "--radius", "3,1e39", given=b"corners 0\n")
        self.assertEqual((status, "is too large" in said), (2, True), said)

    def test_what_is_recorded_is_what_was_used(self):
        for given, due in (("0.1", "0.1"), ("16777217", "16777216.0"), ("100.00000001", "100.0"), ("3", "3.0")):
            said = self.done("find", "-", "--threshold", given, "--format", "json", given=board())
            self.assertIn(f'"threshold": {due},'.encode(), said)


if __name__ == "__main__":
    unittest.main()
