"""The ledger of a batch, its invoice, strikes and what may be deleted: python3 -m unittest test_ledger"""
import csv
import hashlib
import io
import os
import sqlite3
import subprocess
import sys
import time
import unittest
from unittest import mock

import zakdomp
from test_batch import Batch, by_digest, tree
from test_command import HERE, beside, board, noise
from zakdomp_command import formats, ledger, uploads
from zakdomp_command.ledger import Ledger
from zakdomp_command.names import name_of

DAY = 86_400
# of a run by the defaults, as it was written before there was --most
OLDER = ('{"ring": 5, "threshold": 0.0, "window": 2, "least_neighbours": 2, "centroid_radius": 2, "merge_radius": 3.0, '
         '"levels": 1, "minimum_side": 1, "search_radius": 3}')


class Kept(Batch):
    def rows(self, query, out="out"):
        with sqlite3.connect(self.path(f"{out}/ledger.sqlite")) as connection:
            found = connection.execute(query).fetchall()
        connection.close()
        return found

    def held_together(self, out="out"):
        """Every count on an invoice is that of the corner file it names, with that digest, and each file that of an
        upload with that digest."""
        for name in sorted(os.listdir(self.path(out))):
            if not name.startswith("invoice"):
                continue
            for line in csv.DictReader(io.StringIO(self.content(f"{out}/{name}").decode("utf-8"))):
                if line["corners"] and line["name"]:
                    content = self.content(os.path.join(out, name_of(line["corner_file"])))
                    self.assertEqual(hashlib.sha256(content).hexdigest(), line["corner_file_sha256"])
                    self.assertEqual(len(formats.read(content).corners), int(line["corners"]))


class Runs(Kept):
    def test_what_the_ledger_says(self):
        self.put("in/board.pgm", board())
        self.put("in/x.jpg", b"\xff\xd8\xff")
        os.symlink("none", self.path("in/dangling"))
        before = int(time.time())
        self.batch("--threshold", 30, "--jobs", 1)
        said = self.rows("SELECT run, version, format, whole FROM runs")
        self.assertEqual(said, [(1, zakdomp.__version__, "listing", 1)])
        digest = hashlib.sha256(board()).hexdigest()
        (found, seen), = self.rows(f"SELECT name, seen FROM uploads WHERE sha256 = '{digest}'")
        self.assertEqual((found, before <= seen <= time.time()), (b"board.pgm", True))
        counts = "SELECT count(*), count(number), sum(sha256 = '') FROM outcomes NATURAL JOIN uploads"
        self.assertEqual(self.rows(counts), [(3, 1, 1)])
        self.held_together()

    def test_the_invoice_says_what_was_counted(self):
        self.put("in/board.pgm", board())
        self.batch("--threshold", 0.1, "--jobs", 1)
        line, = self.lines()
        self.assertEqual((line["sha256"], line["size"]), (hashlib.sha256(board()).hexdigest(), str(len(board()))))
        self.assertEqual((line["run"], line["version"]), ("1", zakdomp.__version__))
        self.assertTrue(line["parameters"].startswith("ring 5, threshold 0.1, window 2, "))
        self.assertEqual(line["corner_file"], "corners/board.pgm.corners")
        self.assertRegex(line["date"], r"^20\d\d-\d\d-\d\d$")
        self.held_together()

    def test_the_same_bytes_again(self):
        self.fill(3)
        self.put("in/=1", b"x")
        self.batch("--jobs", 1)
        due = self.content("out/invoice.csv")
        os.unlink(self.path("out/invoice.csv"))
        with mock.patch.object(ledger, "now", lambda: 99):
            self.assertEqual(self.done("invoice", self.path("out")).decode(), self.path("out/invoice.csv") + "\n")
            self.assertEqual(self.content("out/invoice.csv"), due)
            self.batch("--jobs", 2)
        self.assertEqual(self.content("out/invoice.csv"), due)

    def test_other_parameters_are_another_run(self):
        self.fill(3)
        self.batch("--jobs", 1)
        first = tree(self.path("out"))
        said = self.batch("--jobs", 1, "--threshold", 500).decode()
        self.assertIn(self.path("out/invoice-2.csv"), said)
        self.batch("--jobs", 1, "--format", "csv")
        both = tree(self.path("out"))
        self.assertLessEqual(first.items(), both.items(), "what the first run left is as it was")
        self.assertEqual(len(both), 12)
        self.held_together()
        said = self.done("invoice", self.path("out"), "--run", 1).decode()
        self.assertEqual(said, self.path("out/invoice.csv") + "\n")
        self.assertEqual(tree(self.path("out")), both)
        self.batch("--jobs", 1, "--threshold", 500)
        self.assertEqual(tree(self.path("out")), both)

    def test_another_bound_is_another_run(self):
        self.fill(2)
        self.put("in/grey.pgm", b"P5 20 20 255\n" + bytes(400))
        self.batch("--jobs", 1)
        first = tree(self.path("out"))
        with mock.patch.object(uploads, "find", side_effect=AssertionError):
            self.assertIn(b"/invoice.csv", self.batch("--jobs", 1, "--most", zakdomp.MOST))
        self.assertEqual(tree(self.path("out")), first, "the default is the same run, whether it is said or not")
        said = self.batch("--jobs", 1, "--most", 2)
        self.assertTrue(said.startswith(b"3 uploads: 1 found, 2 refused") and b"/invoice-2.csv" in said, said)
        both = tree(self.path("out"))
        self.assertLessEqual(first.items(), both.items(), "what the first run left is as it was")
        with mock.patch.object(uploads, "find", side_effect=AssertionError):
            self.batch("--jobs", 1, "--most", 2)
        self.assertEqual(tree(self.path("out")), both)
        self.assertIn(b"/invoice-3.csv", self.batch("--jobs", 1, "--most", 3))
        ends = {name: self.content(f"out/{name}").rsplit(b", ", 1)[1].strip()
                for name in ("invoice.csv", "invoice-2.csv", "invoice-3.csv")}
        self.assertEqual(ends, {"invoice.csv": b'search_radius 3"', "invoice-2.csv": b'most 2"',
                                "invoice-3.csv": b'most 3"'})
        self.held_together()

    def test_a_ledger_from_before_the_bound_goes_on(self):
        """Its run is one by the default: no batch makes another of it, and its invoice says what it said."""
        self.fill(1)
        os.mkdir(self.path("out"))
        with sqlite3.connect(self.path("out/ledger.sqlite")) as connection:
            connection.executescript(f"{ledger.TABLES}; PRAGMA user_version = 1")
            connection.execute("INSERT INTO runs VALUES (1, ?, ?, 'listing', 100, 1)", (zakdomp.__version__, OLDER))
            connection.execute("INSERT INTO uploads VALUES (1, ?, 3, ?, 100, ?)", (b"gone.jpg", "ab" * 32, b"/gone"))
            connection.execute("INSERT INTO outcomes VALUES (1, 1, 100, NULL, NULL, NULL, NULL, 12, 'older words', "
                               "NULL, '', '', '', ?, '')", (b"",))
        connection.close()
        self.done("invoice", self.path("out"))
        before, = self.lines()
        for options in ((), ("--most", zakdomp.MOST)):
            self.assertIn(self.path("out/invoice.csv").encode(), self.batch("--jobs", 1, *options))
            self.assertEqual(self.rows("SELECT run, parameters FROM runs ORDER BY run"), [(1, OLDER)])
            counted, kept = self.lines()
            self.assertEqual((counted["name"], kept), ("000.pgm", before))
            self.assertEqual((counted["run"], counted["parameters"]), ("1", before["parameters"]))
        self.assertIn(b"/invoice-2.csv", self.batch("--jobs", 1, "--most", 5000))
        self.assertEqual(self.rows("SELECT run, parameters FROM runs ORDER BY run"),
                         [(1, OLDER), (2, OLDER.replace("}", ', "most": 5000}'))])
        self.held_together()

    def test_another_version_is_another_run(self):
        self.fill(2)
        self.batch("--jobs", 1)
        with mock.patch.object(zakdomp, "__version__", "9.9.9"):
            self.assertIn(b"invoice-2.csv", self.batch("--jobs", 1))
        self.assertIn(b'"9.9.9"', self.content("out/invoice-2.csv"))

    def test_the_same_bytes_are_not_computed_again(self):
        self.fill(4)
        self.put("in/x.jpg", b"no photograph")
        self.batch("--jobs", 1)
        for name in ("000.pgm", "x.jpg"):
            os.rename(self.path("in/" + name), self.path("in/moved " + name))
        with mock.patch.object(uploads, "find", side_effect=AssertionError):
            self.batch("--jobs", 1)
        lines = {line["name"]: line for line in self.lines()}
        self.assertEqual(len(lines), 7, "what was moved away keeps its line")
        self.assertEqual(lines["000.pgm"]["corners"], lines["moved 000.pgm"]["corners"])
        self.assertEqual(lines["x.jpg"]["words"], lines["moved x.jpg"]["words"])
        self.held_together()

    def test_corner_files_are_kept_for_good(self):
        self.fill(2)
        self.batch("--jobs", 1)
        before = self.content("out/corners/000.pgm.corners")
        self.put("in/000.pgm", board())
        self.put("out/corners/001.pgm.corners", b"corners 0\n")
        status, _, said = self.run_command("batch", self.path("in"), "--out", self.path("out"), "--jobs", 1)
        self.assertEqual((status, beside(said)), (0, f"zakdomp: {self.path('out/corners')}: 1 file not of this run\n"))
        self.assertEqual(self.content("out/corners/000.pgm.corners"), before)
        self.assertEqual(self.content("out/corners/001.pgm.corners"), b"corners 0\n")
        lines = [(line["name"], line["corner_file"]) for line in self.lines()]
        changed, restored = (f"corners/{by_digest(name, content)}.corners"
                             for name, content in (("000.pgm", board()), ("001.pgm", noise(100, 1))))
        self.assertEqual(lines, [("000.pgm", "corners/000.pgm.corners"), ("000.pgm", changed), ("001.pgm", restored)])
        self.held_together()
        os.unlink(self.path("out/corners/000.pgm.corners"))
        status, _, said = self.run_command("batch", self.path("in"), "--out", self.path("out"), "--jobs", 1)
        self.assertIn("1 corner file changed or deleted, without an upload to find it again", said)
        self.assertEqual(os.listdir(self.path("out/corners")).count("000.pgm.corners"), 0, "it is another upload's")

    def test_the_summary_is_of_this_batch(self):
        """Of an upload that comes back as it was before, and with a clock that goes back; and lines of earlier batches
        are told, for the invoice's total has them too."""
        junk = b"no photograph"
        for clock, content, found in ((100, board(), 1), (200, junk, 0), (300, board(), 1), (50, noise(60, 1), 1)):
            self.put("in/a.pgm", content)
            with mock.patch.object(ledger, "now", lambda: clock):
                status, said, told = self.run_command("batch", self.path("in"), "--out", self.path("out"), "--jobs", 1)
            self.assertEqual((status, said.split(b";")[0]),
                             (0, b"1 upload: %d found, %d refused, 0 not read" % (found, 1 - found)))
        words = "2 lines more, of earlier batches: the total has all of them"
        self.assertEqual(told, f"zakdomp: {self.path('out/invoice.csv')}: {words}\n")
        self.assertEqual(len(self.lines()), 3)

    def test_what_could_not_be_read_is_tried_again(self):
        self.fill(1)
        os.symlink(self.path("late"), self.path("in/late.pgm"))
        self.batch("--jobs", 1)
        self.put("late", board())
        self.batch("--jobs", 1)
        self.assertEqual([(line["name"], line["words"]) for line in self.lines()], [("000.pgm", ""), ("late.pgm", "")])

    def test_what_a_killed_batch_left_behind(self):
        self.put("in/" + "n" * 255, board())
        self.batch("--jobs", 1)
        due = tree(self.path("out"))
        for place in ("out", "out/corners", "out/corners/by-digest"):
            self.put(place + "/.zakdomp-x.part", b"half")
        self.batch("--jobs", 1)
        self.assertEqual(tree(self.path("out")), due)

    def test_usage(self):
        self.fails(2, "there is no ledger", "invoice", self.path("in"))
        self.batch("--jobs", 1)
        for number in (7, 0, -1):
            self.fails(2, f"has no run {number}: it has runs 1", "invoice", self.path("out"), f"--run={number}")
        self.put("out/ledger.sqlite", b"this is no database, and longer than a header of one" * 20)
        for arguments in (("invoice", self.path("out")), ("batch", self.path("in"), "--out", self.path("out"))):
            self.fails(2, "ledger.sqlite: the ledger cannot be read or written", *arguments)
        self.put("out/ledger.sqlite", b"")
        self.fails(2, "ledger.sqlite: no ledger of this version", "invoice", self.path("out"))
        due = self.content("out/invoice.csv")
        self.fails(2, "invoice.csv: this invoice is of no ledger", "batch", self.path("in"), "--out", self.path("out"))
        self.assertEqual(self.content("out/invoice.csv"), due)

    def test_a_ledger_that_cannot_be_written_names_its_file(self):
        self.fill(1)
        self.batch("--jobs", 1)
        with mock.patch.object(ledger, "NOTE", "INSERT INTO nothing VALUES (1)"):
            self.fails(2, f"zakdomp: {self.path('out/ledger.sqlite')}: the ledger cannot be read or written", "batch",
                       self.path("in"), "--out", self.path("out"), "--jobs", 1)


class Together(Kept):
    def test_three_batches_in_one_folder(self):
        """They take turns, of the same run or of others, or say that another is at work: no line names a count that its
        corner file does not have."""
        self.fill(24, 60)
        options = (("--threshold", "0"), ("--threshold", "900"), ("--threshold", "0"))
        with mock.patch.dict(os.environ, {"PYTHONPATH": HERE}):
            command = [sys.executable, "-B", "-m", "zakdomp_command", "batch", self.path("in"), "--jobs", "1"]
            runs = [subprocess.Popen([*command, "--out", self.path("out"), *each], stdout=subprocess.DEVNULL,
                                     stderr=subprocess.PIPE) for each in options]
        for said, status in [(run.communicate()[1], run.returncode) for run in runs]:
            self.assertTrue((status, said) == (0, b"") or b"another batch is at work" in said, said)
        self.held_together()
        for each in options:
            self.batch("--jobs", 1, *each)
        self.held_together()
        for name in ("invoice.csv", "invoice-2.csv"):
            self.assertEqual(len(self.content(f"out/{name}").splitlines()), 26)

    def test_a_reader_while_a_batch_writes(self):
        self.fill(3)
        self.batch("--jobs", 1)
        due = self.content("out/invoice.csv")
        with ledger.held(self.path("out")):
            self.done("invoice", self.path("out"))
            self.assertEqual(self.content("out/invoice.csv"), due)


class Striking(Kept):
    def setUp(self):
        super().setUp()
        self.put("in/a.pgm", noise(120, 9))
        self.put("in/b.pgm", noise(120, 9))
        self.batch("--jobs", 1)
        self.file = self.path("out/corners/a.pgm.corners")
        self.corners = formats.read(self.content(self.file)).corners

    def counts(self):
        columns = ("corners", "struck", "corners_left")
        return {line["name"]: tuple(int(line[column]) for column in columns) for line in self.lines()}

    def left(self):
        return formats.read(self.done("strike", self.file)).corners

    def test_shown_and_struck(self):
        kept = self.content(self.file)
        shown = self.done("strike", self.file, 2).decode()
        self.assertIn(f"corner 2: x {formats.shortest(self.corners[2].x):g}, ", shown)
        self.assertIn("change 0: zakdomp strike ", shown)
        self.assertEqual(self.left(), self.corners)
        self.assertIn("struck corner 2: ", self.done("strike", self.file, 2, "--confirm", 0).decode())
        self.assertEqual(self.left(), self.corners[:2] + self.corners[3:])
        self.fails(1, "refused 16: ", "strike", self.file, 2, "--confirm", 0)
        self.assertIn("change 1: ", self.done("strike", self.file, 0).decode())
        self.done("strike", self.file, 0, "--confirm", 1)
        self.assertEqual(self.left(), [self.corners[1], *self.corners[3:]])
        self.assertEqual(self.content(self.file), kept, "the corner file is kept")
        self.assertEqual(self.rows("SELECT change, place FROM strikes ORDER BY change"), [(0, 2), (1, 0)])

    def test_a_second_batch_undoes_no_strike(self):
        self.done("strike", self.file, 2, "--confirm", 0)
        count = len(self.corners)
        due = {"a.pgm": (count, 1, count - 1), "b.pgm": (count, 0, count)}
        self.assertEqual(self.counts(), due)
        self.batch("--jobs", 1)
        self.assertEqual(self.counts(), due)
        self.fails(1, "refused 16: ", "strike", self.file, 2, "--confirm", 0)
        self.assertEqual(sorted(os.listdir(self.path("out"))), ["corners", "invoice.csv", "ledger.sqlite"])

    def test_two_at_once(self):
        """Both were shown the corner; one strikes it, and the other is refused by the change number."""
        real = Ledger.strikes

        def late(self_, run):
            found = real(self_, run)
            Ledger.strikes = real
            self.done("strike", self.file, 1, "--confirm", 0)
            return found

        with mock.patch.object(Ledger, "strikes", late):
            self.fails(1, "refused 16: ", "strike", self.file, 1, "--confirm", 0)
        self.assertEqual(self.left(), self.corners[:1] + self.corners[2:])

    def test_two_long_names_with_the_same_bytes(self):
        """Each has a list of its own."""
        long = ["m" * 255, "n" * 255]
        for name in long:
            self.put("in/" + name, noise(120, 9))
        self.batch("--jobs", 1)
        self.done("strike", self.path(f"out/corners/{by_digest(long[1], noise(120, 9))}.corners"), 2, "--confirm", 0)
        count = len(self.corners)
        self.assertEqual([self.counts()[name] for name in long], [(count, 0, count), (count, 1, count - 1)])

    def test_refusals_strike_nothing(self):
        count = len(self.corners)
        self.fails(1, "refused 17: ", "strike", self.file, count)
        self.fails(1, "refused 17: ", "strike", self.file, count, "--confirm", 0)
        self.fails(1, "refused 16: ", "strike", self.file, 0, "--confirm", 1)
        self.assertEqual(self.left(), self.corners)

    def test_every_format(self):
        for kind, suffix in formats.SUFFIXES.items():
            self.batch("--jobs", 1, "--format", kind, out=kind)
            file = self.path(f"{kind}/corners/a.pgm{suffix}")
            self.done("strike", file, 2, "--confirm", 0)
            left = formats.read(self.done("strike", file))
            self.assertEqual((left.kind, left.corners), (kind, self.corners[:2] + self.corners[3:]))

    def test_usage(self):
        self.fails(2, "No such file", "strike", self.path("none"), 0)
        self.fails(2, "no corner file", "strike", self.put("x", b"x"), 0)
        self.fails(2, "there is no ledger above it", "strike", self.put("y", b"corners 0\n"), 0)
        self.fails(2, "has no such corner file", "strike", self.put("out/y", b"corners 0\n"), 0)
        self.fails(2, "there is no ledger above it", "strike", "-", 0, given=b"corners 0\n")
        self.fails(2, "needs the place", "strike", self.file, "--confirm", 0)
        self.put("out/corners/a.pgm.corners", b"corners 0\n")
        self.fails(2, "it was changed since the batch made it", "strike", self.file, 0)


class Retained(Kept):
    def test_uploads_that_may_be_deleted(self):
        start = 20_000 * DAY + 5
        with mock.patch.object(ledger, "now", lambda: start):
            for name in ("a\nb.pgm", "old.pgm", "twice.pgm", "=1 "):
                os.utime(self.put("in/" + name, noise(40, len(name))))
            with mock.patch.object(uploads, "Upload", lambda content, size, put: uploads_upload(content, size, 0)):
                self.batch("--jobs", 1)
                self.put("in/twice.pgm", board())
                ledger.now = lambda: start + 40 * DAY
                self.batch("--jobs", 1)
        at = f"@{start + 89 * DAY}"
        self.assertEqual(self.done("retained", self.path("out"), "--at", at), b"")
        at = f"@{20_090 * DAY}"
        self.assertEqual(self.done("retained", self.path("out"), "--at", at), b"\\x3d1\\x20\na\\x0ab.pgm\nold.pgm\n")
        at = f"@{20_200 * DAY}"
        due = b"\\x3d1\\x20\na\\x0ab.pgm\nold.pgm\ntwice.pgm\n"
        self.assertEqual(self.done("retained", self.path("out"), "--at", at), due)
        self.assertEqual(len(os.listdir(self.path("in"))), 4, "nothing is deleted")
        now = self.done("retained", self.path("out"), "--at", f"@{int(time.time())}")
        self.assertEqual(self.done("retained", self.path("out")), now)
        self.fails(2, "there is no ledger", "retained", self.path("in"))

    def test_what_is_put_there_again_is_held_from_then(self):
        """It was deleted after ninety days, and comes once more: it is not gone on its first day."""
        self.put("in/a.pgm", board())
        with mock.patch.object(ledger, "now", lambda: 1_000 * DAY), mock.patch.object(
                uploads, "Upload", lambda content, size, put: uploads_upload(content, size, 0)):
            self.batch("--jobs", 1)
        self.assertEqual(self.done("retained", self.path("out")), b"a.pgm\n")
        self.batch("--jobs", 1)
        self.assertEqual(self.done("retained", self.path("out")), b"")


    def test_a_clock_that_was_wrong(self):
        """No upload was received before it was put there: a batch in 1971 makes none gone today."""
        self.put("in/a.pgm", board())
        with mock.patch.object(ledger, "now", lambda: 365 * DAY):
            self.batch("--jobs", 1)
        self.assertEqual(self.done("retained", self.path("out")), b"")
        at = f"@{int(time.time()) + 91 * DAY}"
        self.assertEqual(self.done("retained", self.path("out"), "--at", at), b"a.pgm\n")


uploads_upload = uploads.Upload

if __name__ == "__main__":
    unittest.main()
