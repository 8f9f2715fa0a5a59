"""`zakdomp batch`: python3 -m unittest test_batch"""
import csv
import hashlib
import io
import os
import pty
import re
import shutil
import signal
import subprocess
import sys
import time
import unittest
from unittest import mock

import zakdomp
from test_command import HERE, Command, board, noise
from zakdomp_command import batch, corner_files, formats, ledger, runners, uploads
from zakdomp_command.names import name_of

LIMIT = 120  # seconds; what is waited for takes less than one on a machine that has time
HELD = """import os, sys, time
from zakdomp_command import cluster, main, uploads
last, gate, read = sys.argv[1], sys.argv[2], uploads.read

def held(order, name):
    while name > last and not os.path.exists(gate):
        time.sleep(0.01)
    return read(order, name)

uploads.read = cluster.read = held
cluster.PATIENCE = 20
cluster.WORKERS = 60
sys.exit(main.main(sys.argv[3:]))
"""
REFUSED = {"a.jpg": b"\xff\xd8\xff", "empty": b"", "large.pgm": b"P5 5000 1 255\n", "maxval.pgm": b"P5 1 1 15\na",
           "short.pgm": board()[:-1]}


def tree(folder):
    """The names and digests of all files below a folder, but not of its ledger, which knows the hour; an invoice's day
    is left out."""
    found = {}
    for place, _, names in os.walk(folder):
        for name in set(names) - {ledger.NAME}:
            with open(os.path.join(place, name), "rb") as file:
                content = re.sub(rb'"20\d\d-\d\d-\d\d"', b'"DAY"', file.read())
            found[os.path.relpath(os.path.join(place, name), folder)] = hashlib.sha256(content).hexdigest()
    return found


def by_digest(name, content):
    """Where the corner file of an upload is that has none under its own name, without what it ends in."""
    return f"by-digest/{hashlib.sha256(content).hexdigest()}-{hashlib.sha256(os.fsencode(name)).hexdigest()[:16]}"


class Batch(Command):
    variables: dict[str, str] = {}

    def setUp(self):
        super().setUp()
        os.mkdir(self.path("in"))

    def fill(self, count, side=100):
        for seed in range(count):
            self.put(f"in/{seed:03}.pgm", noise(side, seed))

    def lines(self, out="out"):
        """The lines of the uploads, and not that of the total."""
        *lines, total = csv.DictReader(io.StringIO(self.content(f"{out}/invoice.csv").decode("utf-8")))
        self.assertEqual((total["name"], total["corners"]), ("", str(sum(int(line["corners"] or 0) for line in lines))))
        return lines

    def batch(self, *options, out="out"):
        return self.done("batch", self.path("in"), "--out", self.path(out), *options)

    def started(self, *options, last=None, interrupt=signal.default_int_handler, **named):
        """The same in a process of its own, which ends with the test. Uploads after `last` are held until the file
        `gate` is there. A process that is started with SIGINT ignored, as by a shell in the background, stays so: here
        it has the default, or ignores it."""
        start = ["-m", "zakdomp_command"] if last is None else ["-c", HELD, last, self.path("gate")]
        command = [sys.executable, "-B", *start, "batch", self.path("in"), "--out", self.path("out"), *options]
        before = signal.signal(signal.SIGINT, interrupt)
        try:
            run = subprocess.Popen(command, env={**os.environ, **self.variables, "PYTHONPATH": HERE},
                                   stdout=subprocess.DEVNULL, **named)
        finally:
            signal.signal(signal.SIGINT, before)
        self.addCleanup(run.wait)
        self.addCleanup(run.kill)
        return run

    def corners(self):
        """How many corner files are there."""
        folder = self.path("out/corners")
        return len([name for name in os.listdir(folder) if not name.startswith(".")]) if os.path.isdir(folder) else 0

    def waited(self, question):
        """The answer to a question, once there is one."""
        end = time.monotonic() + LIMIT
        while time.monotonic() < end:
            if answer := question():
                return answer
            time.sleep(0.005)
        self.fail(f"not within {LIMIT} seconds")


class Invoices(Batch):
    def test_a_line_for_each_upload(self):
        self.fill(3)
        self.put("in/board.pgm", board())
        for name, content in REFUSED.items():
            self.put("in/" + name, content)
        said = self.batch("--threshold", 30, "--jobs", 1).decode()
        self.assertEqual(said, f"9 uploads: 4 found, 5 refused, 0 not read; {self.path('out/invoice.csv')}\n")
        lines = {line["name"]: line for line in self.lines()}
        self.assertEqual(sorted(lines), sorted(os.listdir(self.path("in"))))
        self.assertEqual(len(self.content("out/invoice.csv").splitlines()), 11)
        frame = zakdomp.find_pgm(board(), threshold=30)
        count = str(len(frame.corners))
        self.assertEqual(list(lines["board.pgm"].values())[:11],
                         ["board.pgm", "160", "120", count, str(frame.ties), "", "", count, "yes", "", ""])
        due = {"a.jpg": "12", "empty": "12", "large.pgm": "1", "maxval.pgm": "13", "short.pgm": "12"}
        self.assertEqual({name: lines[name]["number"] for name in REFUSED}, due)
        self.assertIn(zakdomp.REFUSALS[13], lines["maxval.pgm"]["words"])

    def test_corner_files(self):
        self.fill(2)
        self.put("in/x.jpg", b"no photograph")
        for kind, suffix in formats.SUFFIXES.items():
            self.batch("--format", kind, "--jobs", 1, out=kind)
            self.assertEqual(sorted(os.listdir(self.path(kind))), ["corners", "invoice.csv", "ledger.sqlite"])
            self.assertEqual(sorted(os.listdir(self.path(kind + "/corners"))), ["000.pgm" + suffix, "001.pgm" + suffix])
            due = self.done("find", self.path("in/001.pgm"), "--format", kind)
            self.assertEqual(self.content(f"{kind}/corners/001.pgm{suffix}"), due)

    def test_jobs_give_the_same_bytes(self):
        self.fill(12)
        self.put("in/x.jpg", b"no photograph")
        self.batch("--jobs", 1, out="one")
        self.batch("--jobs", 2, out="two")
        self.assertEqual(tree(self.path("one")), tree(self.path("two")))
        self.assertEqual(len(tree(self.path("one"))), 13)

    def test_names_of_all_kinds(self):
        names = ["a,b.pgm", 'quote".pgm', "two\nlines.pgm", "back\\slash", "invoice.csv",
                 os.fsdecode(b"latin-\xe9.pgm"), "ünï.pgm", " ", "-", "n" * 250,
                 "=1+1"]
        for name in names:
            self.put("in/" + name, board())
        self.batch("--jobs", 2)
        content = self.content("out/invoice.csv")
        self.assertEqual(content.count(b"\n"), 2 + len(names))
        self.assertIn(b'"latin-\\xe9.pgm",', content)
        lines = {name_of(line["name"]): line for line in self.lines()}
        self.assertEqual(set(lines), set(names))
        self.assertEqual(lines["n" * 250]["words"], "")
        self.assertEqual(len(os.listdir(self.path("out/corners"))), len(names))
        self.assertEqual(os.listdir(self.path("out/corners/by-digest")),
                         [os.path.basename(by_digest("n" * 250, board())) + ".corners"])

    def test_what_cannot_be_read_has_a_line(self):
        self.fill(1)
        os.mkfifo(self.path("in/pipe"))
        os.symlink(self.path("none"), self.path("in/dangling"))
        os.mkdir(self.path("in/sub"))
        status, _, said = self.run_command("batch", self.path("in"), "--out", self.path("in/sub/out"), "--jobs", 1)
        self.assertEqual((status, said), (0, f"zakdomp: {self.path('in')}: 1 subfolder not looked into\n"))
        words = {line["name"]: line["words"] for line in self.lines("in/sub/out")}
        self.assertEqual(words, {"000.pgm": "", "pipe": "cannot be read: not a regular file",
                                 "dangling": "cannot be read: No such file or directory"})

    def test_files_that_are_not_of_the_run_are_kept_and_told(self):
        self.fill(3)
        os.makedirs(self.path("out/corners"))
        self.put("out/corners/other.corners", b"corners 0\n")
        status, _, said = self.run_command("batch", self.path("in"), "--out", self.path("out"), "--jobs", 1)
        self.assertEqual((status, said), (0, f"zakdomp: {self.path('out/corners')}: 1 file not of this run\n"))
        self.assertEqual(len(os.listdir(self.path("out/corners"))), 4)

    def test_an_empty_folder(self):
        self.batch()
        self.assertEqual(self.lines(), [])
        self.assertEqual(self.content("out/invoice.csv").count(b"\n"), 2)

    def test_usage(self):
        self.fails(2, "No such file", "batch", self.path("none"), "--out", self.path("out"))
        self.fails(2, "Not a directory", "batch", self.put("file", b""), "--out", self.path("out"))
        self.fails(2, "own folder", "batch", self.path("in"), "--out", self.path("in"))
        self.assertEqual(sorted(os.listdir(self.folder)), ["file", "in"])
        self.assertEqual(os.listdir(self.path("in")), [])
        for options, words in (((), "--out"), (("--out",), "--out"), (("--out", ""), "no folder is named"),
                               (("--out", "x", "--jobs", "0"), "'0' is no whole number from 1"),
                               (("--out", "x", "--jobs", "two"), "'two' is no whole")):
            status, _, said = self.run_command("batch", self.path("in"), *options)
            self.assertEqual((status, words in said), (2, True), said)

    def test_where_nothing_can_be_put(self):
        self.fill(1)
        self.fails(2, "file: File exists", "batch", self.path("in"), "--out", self.put("file", b""))
        os.makedirs(self.path("out"))
        self.put("out/invoice.csv", b"of an older batch\n")
        self.fails(2, "invoice.csv: this invoice is of no ledger: move it away", "batch", self.path("in"), "--out",
                   self.path("out"))
        self.assertEqual(os.listdir(self.path("out")), ["invoice.csv"])
        os.unlink(self.path("out/invoice.csv"))
        self.batch("--jobs", 1)
        os.unlink(self.path("out/invoice.csv"))
        os.makedirs(self.path("out/invoice.csv"))
        self.fails(2, "invoice.csv: Is a directory", "batch", self.path("in"), "--out", self.path("out"))
        self.fails(2, "own folder", "batch", self.path("out/corners"), "--out", self.path("out"))
        with mock.patch("os.makedirs", side_effect=PermissionError(13, "Permission denied", "locked")):
            self.fails(2, "zakdomp: locked: Permission denied", "batch", self.path("in"), "--out", self.path("locked"))

    def test_an_upload_that_disappears(self):
        """It was there when the folder was listed, and has its line."""
        self.fill(4)
        real = uploads.read

        def vanishing(order, name):
            if name == "002.pgm":
                os.unlink(self.path("in/002.pgm"))
            return real(order, name)

        with mock.patch.object(uploads, "read", vanishing):
            said = self.batch("--jobs", 1).decode()
        self.assertTrue(said.startswith("4 uploads: 3 found, 0 refused, 1 not read; "))
        self.assertEqual([line["words"] for line in self.lines()],
                         ["", "", "cannot be read: No such file or directory", ""])

    def test_a_folder_that_disappears(self):
        """Its uploads were there when it was listed, and have their lines; the batch is done."""
        self.fill(2)
        os.mkdir(self.path("in/sub"))
        real = uploads.read

        def vanishing(order, name):
            shutil.rmtree(self.path("in"), ignore_errors=True)
            return real(order, name)

        with mock.patch.object(uploads, "read", vanishing):
            status, said, told = self.run_command("batch", self.path("in"), "--out", self.path("out"), "--jobs", 1)
        self.assertEqual((status, said.split(b";")[0]), (0, b"2 uploads: 0 found, 0 refused, 2 not read"))
        self.assertEqual(told, f"zakdomp: {self.path('in')}: 1 subfolder not looked into\n")

    def test_names_that_differ_in_little(self):
        for name in ("a.pgm", "a.PGM", "a", "a.pgm.corners", "A.pgm"):
            self.put("in/" + name, board())
        self.batch("--jobs", 1)
        self.assertEqual(len(self.lines()), 5)
        self.assertEqual(set(os.listdir(self.path("out/corners"))),
                         {name + ".corners" for name in os.listdir(self.path("in"))})


class Resuming(Batch):
    def killed(self, jobs, after):
        """A run that is killed when so many corner files are there."""
        run = self.started("--jobs", str(jobs), last="029.pgm")
        self.waited(lambda: self.corners() >= after)
        run.send_signal(signal.SIGKILL)
        self.assertEqual(run.wait(), -signal.SIGKILL)
        with ledger.held(self.path("out")):  # its processes hold it until they end
            pass

    def test_a_killed_run_goes_on_and_ends_with_the_same_bytes(self):
        self.fill(40, 300)
        self.put("in/x.jpg", b"no photograph")
        self.batch("--jobs", 1, out="whole")
        due = tree(self.path("whole"))
        for jobs in (1, 2):
            self.killed(jobs, 10)
            left = {name: digest for name, digest in tree(self.path("out")).items() if name.endswith(".corners")}
            self.assertLessEqual(left.items(), due.items(), "each file that is there is whole")
            self.assertTrue(10 <= len(left) < 40 and not os.path.exists(self.path("out/invoice.csv")))
            times = {name: os.stat(self.path("out/" + name)).st_mtime_ns for name in left}
            self.fails(2, "run 1 is not whole: start its batch again", "invoice", self.path("out"))
            self.batch("--jobs", jobs)
            self.assertEqual(tree(self.path("out")), due)
            self.assertEqual([name for name in left if os.stat(self.path("out/" + name)).st_mtime_ns != times[name]],
                             [])
            os.rename(self.path("out"), self.path(f"out{jobs}"))

    def halted(self, *options):
        """A run in which the disk is full at the fifth corner file."""
        placed, real = [], corner_files.files.place

        def full(name, content):
            if len(placed) >= 4:
                raise OSError(28, "No space left on device")
            placed.append(name)
            real(name, content)

        with mock.patch.object(corner_files.files, "place", full):
            self.fails(2, "No space left", "batch", self.path("in"), "--out", self.path("out"), "--jobs", 1, *options)
        self.assertEqual(sorted(os.listdir(self.path("out"))), ["corners", "ledger.sqlite"])

    def computed(self, *options):
        """The uploads that the next run computes."""
        names, real = [], uploads.find
        with mock.patch.object(uploads, "find", side_effect=lambda order, name, upload: names.append(name) or
                               real(order, name, upload)):
            self.batch("--jobs", 1, *options)
        return names

    def test_a_full_disk_puts_no_file_elsewhere(self):
        """Not even where it has a place again a moment later: each file is under its upload's name."""
        self.fill(2)
        real, asked = corner_files.files.place, []

        def full_once(name, content):
            asked.append(name)
            if len(asked) == 1:
                raise OSError(28, "No space left on device", name)
            real(name, content)

        with mock.patch.object(corner_files.files, "place", full_once):
            self.fails(2, "000.pgm.corners: No space left", "batch", self.path("in"), "--out", self.path("out"),
                       "--jobs", 1)
        self.batch("--jobs", 1)
        self.assertEqual(sorted(os.listdir(self.path("out/corners"))), ["000.pgm.corners", "001.pgm.corners"])

    def test_only_what_is_left_is_done(self):
        self.fill(7)
        self.halted()
        self.assertEqual(self.computed(), ["004.pgm", "005.pgm", "006.pgm"])
        self.assertEqual(sorted(os.listdir(self.path("out"))), ["corners", "invoice.csv", "ledger.sqlite"])
        self.assertEqual(self.computed(), [])

    def test_what_changed_is_done_again(self):
        self.fill(7)
        self.halted()
        self.put("in/000.pgm", board())
        os.unlink(self.path("out/corners/002.pgm.corners"))
        self.assertEqual(self.computed(), ["000.pgm", "002.pgm", "004.pgm", "005.pgm", "006.pgm"])
        self.assertEqual([line["name"] for line in self.lines()][:3], ["000.pgm", "000.pgm", "001.pgm"])

    def test_one_batch_at_a_time(self):
        self.fill(2)
        os.makedirs(self.path("out"))
        with mock.patch("zakdomp_command.ledger.PATIENCE", 0.1), ledger.held(self.path("out")):
            self.fails(2, "another batch is at work", "batch", self.path("in"), "--out", self.path("out"))


class Processes(Batch):
    def test_a_process_that_dies_loses_nothing(self):
        self.fill(8)
        self.batch("--jobs", 1, out="due")
        order = uploads.Order(self.path("in"), "listing", zakdomp.Params()._asdict())
        names = batch.listed(self.path("in"))
        mine, real = os.getpid(), uploads.read

        def dies_once(order, name):
            if name == "003.pgm" and os.getpid() != mine and not os.path.exists(self.path("died")):
                self.put("died", b"")
                os.kill(os.getpid(), signal.SIGKILL)
            return real(order, name)

        with mock.patch.object(uploads, "read", dies_once):
            outcomes = sorted(runners.processes(2)(order, names))
        self.assertTrue(os.path.exists(self.path("died")))
        self.assertEqual(outcomes, sorted(runners.alone(order, names)))

    def test_an_upload_on_which_processes_always_die(self):
        self.fill(3)
        mine = os.getpid()

        def dies(_order, _name):
            os.kill(os.getpid(), signal.SIGKILL if os.getpid() != mine else 0)

        with mock.patch.object(uploads, "read", dies):
            self.batch("--jobs", 2)
        self.assertEqual([line["words"] for line in self.lines()],
                         3 * ["cannot be read: the process that worked on it died 4 times"])

    def test_one_upload_on_which_processes_die_keeps_no_other_from_its_line(self):
        self.fill(8)
        mine, real = os.getpid(), uploads.read

        def dies(order, name):
            if name == "003.pgm" and os.getpid() != mine:
                os.kill(os.getpid(), signal.SIGKILL)
            return real(order, name)

        with mock.patch.object(uploads, "read", dies):
            said = self.batch("--jobs", 2)
        self.assertTrue(said.startswith(b"8 uploads: 7 found, 0 refused, 1 not read"))

    def test_an_interrupt(self):
        self.fill(30)
        for jobs in ("1", "2"):
            run = self.started("--jobs", jobs, last="019.pgm", stderr=subprocess.PIPE)
            self.waited(lambda: self.corners() >= 10)
            run.send_signal(signal.SIGINT)
            self.put("gate", b"")
            self.assertEqual((run.communicate(timeout=LIMIT)[1].decode(), run.returncode),
                             (f"zakdomp: {self.path('in')}: stopped\n", 130))
            self.assertFalse(os.path.exists(self.path("out/invoice.csv")))
            self.batch()
            self.assertEqual(len(self.lines()), 30)
            os.unlink(self.path("gate"))
            os.rename(self.path("out"), self.path("out" + jobs))

    def test_an_interrupt_that_is_ignored(self):
        """A run that was started with SIGINT ignored, in the background or by nohup, goes on."""
        self.fill(30)
        run = self.started("--jobs", "2", last="019.pgm", interrupt=signal.SIG_IGN, stderr=subprocess.PIPE)
        self.waited(lambda: self.corners() >= 10)
        run.send_signal(signal.SIGINT)
        self.put("gate", b"")
        self.assertEqual((run.communicate(timeout=LIMIT)[1], run.returncode), (b"", 0))
        self.assertEqual(len(self.lines()), 30)

    def test_processes_end_with_a_killed_run(self):
        self.fill(30)
        run = self.started("--jobs", "2", last="009.pgm")
        self.waited(lambda: self.corners() >= 5)
        self.waited(lambda: len(_living(run.pid)) == 2)
        begun = _living(run.pid)
        run.kill()
        run.wait()
        self.waited(lambda: not begun & _living())

    def test_no_more_processes_than_uploads(self):
        self.fill(2)
        with mock.patch.object(runners, "ProcessPoolExecutor", wraps=runners.ProcessPoolExecutor) as pool:
            self.batch("--jobs", 1_000_000)
        self.assertEqual([call.args[0] for call in pool.call_args_list], [2])

    def test_groups(self):
        for count in (0, 1, 7, 40, 1000):
            names = [str(number) for number in range(count)]
            groups = list(runners._groups(names, 2))
            self.assertEqual([name for group in groups for name in group], names)
            self.assertTrue(all(1 <= len(group) <= runners.GROUP for group in groups))


def _living(parent=None):
    """The processes that are there and no zombies, of all or of one parent."""
    found = set()
    for process in filter(str.isdecimal, os.listdir("/proc")):
        try:
            with open(f"/proc/{process}/stat", encoding="utf-8", errors="replace") as file:
                state, above, *_ = file.read().rpartition(")")[2].split()
        except OSError:
            continue
        if state != "Z" and parent in (None, int(above)):
            found.add(process)
    return found


class Progress(Batch):
    def test_a_bar_on_a_terminal(self):
        self.fill(5)
        try:
            master, slave = pty.openpty()
        except OSError:
            self.skipTest("no terminals on this machine")
        run = self.started("--jobs", "1", stderr=slave)
        os.close(slave)
        shown = b""
        while True:
            try:
                part = os.read(master, 4096)
            except OSError:
                break
            if not part:
                break
            shown += part
        os.close(master)
        self.assertEqual(run.wait(), 0)
        self.assertIn(b"[" + b"#" * 30 + b"] 5 of 5", shown)
        self.assertTrue(shown.endswith(b"\r\x1b[K"))

    def test_none_in_a_log(self):
        self.fill(5)
        run = self.started("--jobs", "1", stderr=subprocess.PIPE)
        self.assertEqual((run.communicate(timeout=LIMIT)[1], run.returncode), (b"", 0))


if __name__ == "__main__":
    unittest.main()
