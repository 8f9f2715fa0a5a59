"""`zakdomp batch --scheduler`: a scheduler and two workers as processes of this machine:
python3 -m unittest test_cluster"""
import importlib.util
import json
import os
import signal
import subprocess
import sys
import time
import unittest
from concurrent.futures import CancelledError
from unittest import mock

import zakdomp
from test_batch import LIMIT, Batch, tree
from test_command import HERE, noise
from zakdomp_command import cluster, uploads

HAS = importlib.util.find_spec("distributed") is not None
ASK = f"""import sys, time, distributed
client, end = distributed.Client(sys.argv[1], timeout={LIMIT}), time.monotonic() + {LIMIT}
while not eval(sys.argv[2]) and time.monotonic() < end:
    time.sleep(0.02)
assert eval(sys.argv[2])
"""


class Missing(Batch):
    def test_without_the_package(self):
        with mock.patch.dict(sys.modules, {"distributed": None}):
            self.fails(2, "needs the Python package distributed", "batch", self.path("in"), "--out", self.path("out"),
                       "--scheduler", "tcp://127.0.0.1:1")


class Killed(Exception):
    pass


class Tasks(Batch):
    """How a task ends, by stand-ins for the client and the task."""

    def ended(self, problem=None, status="running", gathered=None):
        order = uploads.Order(self.path("in"), "listing", zakdomp.Params()._asdict())
        client = mock.Mock(status=status, gather=mock.Mock(side_effect=[gathered]))
        return cluster._ended(client, Killed, order, mock.Mock(zakdomp_name="000.pgm", exception=lambda: problem))

    def test_an_upload_on_which_workers_die_is_done_here(self):
        self.fill(1)
        for outcome in (self.ended(Killed()), self.ended(gathered=Killed())):
            self.assertEqual((outcome.name, outcome.width, outcome.words), ("000.pgm", 100, ""))
            self.assertTrue(outcome.text.startswith("corners "))
            self.assertEqual(os.listdir(self.folder), ["in"], "what is done here is written by the batch alone")
        os.unlink(self.path("in/000.pgm"))
        self.assertEqual(self.ended(Killed()).words, "cannot be read: No such file or directory")

    def test_what_a_worker_says(self):
        for problem in (ModuleNotFoundError("no zakdomp here"), OSError("no zakdomp here")):
            with self.assertRaisesRegex(OSError, f"a worker failed: {type(problem).__name__}: no zakdomp here"):
                self.ended(problem)

    def test_a_scheduler_that_is_gone(self):
        for named in ({"status": "connecting"}, {"gathered": ConnectionError()}, {"gathered": CancelledError()},
                      {"gathered": TimeoutError()}):
            with self.assertRaisesRegex(OSError, "the scheduler is gone"):
                self.ended(**named)


@unittest.skipUnless(HAS, "no distributed on this machine")
class Cluster(Batch):
    def setUp(self):
        super().setUp()
        os.mkdir(self.path("cluster"))
        self.variables = {"DASK_CONFIG": self.path("cluster"), "DASK_DISTRIBUTED__SCHEDULER__ALLOWED_FAILURES": "3"}
        self.file, self.scheduler, self.address, self.workers = self.path("cluster/scheduler.json"), None, None, []

    def begin(self, workers):
        """A scheduler and some workers."""
        if os.path.exists(self.file):
            os.unlink(self.file)
        self.scheduler = self.process("scheduler", "--host", "127.0.0.1", "--port", "0", "--no-dashboard",
                                      "--scheduler-file", self.file)
        self.address = self.waited(self.said)
        self.workers = [self.worker() for _ in range(workers)]

    def process(self, kind, *options):
        """A process of the cluster, which ends with the test."""
        command = [sys.executable, "-B", "-m", f"distributed.cli.dask_{kind}", *options]
        with open(self.path(f"cluster/{kind}.log"), "ab") as log:
            run = subprocess.Popen(command, stdout=log, stderr=log, cwd=self.path("cluster"),
                                   env={**os.environ, **self.variables, "PYTHONPATH": HERE})
        self.addCleanup(run.wait)
        self.addCleanup(run.kill)
        return run

    def worker(self):
        return self.process("worker", self.address, "--host", "127.0.0.1", "--nthreads", "1", "--no-nanny",
                            "--no-dashboard", "--local-directory",
                            self.path("cluster"))

    def said(self):
        """The address of the scheduler, once it says it."""
        try:
            with open(self.file, encoding="utf-8") as file:
                return json.load(file)["address"]
        except (OSError, ValueError):
            return None

    def ask(self, question):
        """Waits until a client of the scheduler says that it is so."""
        subprocess.run([sys.executable, "-B", "-c", ASK, self.address, question], env={**os.environ, **self.variables},
                       check=True)

    def begun(self, last):
        return self.started("--scheduler", self.address, last=last, stderr=subprocess.PIPE)

    def ends(self, run, status=0, said=""):
        self.assertEqual((run.communicate(timeout=LIMIT)[1].decode(), run.returncode), (said, status))

    def due(self):
        self.batch("--jobs", 1, out="due")
        return tree(self.path("due"))

    def test_a_worker_that_dies_loses_nothing(self):
        """It is stopped before the batch begins, so that it has tasks in hand when it is killed."""
        self.begin(workers=2)
        self.fill(20)
        self.put("in/tipped.pgm", noise(48, 114, (0, 1)))
        self.put("in/x.jpg", b"no photograph")
        os.symlink(self.path("none"), self.path("in/dangling"))
        self.ask("len(client.nthreads()) == 2")
        self.workers[0].send_signal(signal.SIGSTOP)
        run = self.begun(last="y")
        self.waited(lambda: self.corners() >= 1)
        self.workers[0].kill()
        remark = "1 photograph with another list by the exact choice"
        self.ends(run, said=f"zakdomp: {self.path('out/invoice.csv')}: {remark}\n")
        self.assertEqual(tree(self.path("out")), self.due())
        self.assertEqual(sum(line["same_list"] == "no" for line in self.lines()), 1)

    def test_a_worker_that_dies_with_what_it_found(self):
        """It is killed when it has found and the batch, which is held, has not yet asked for it; then comes a new
        one."""
        self.begin(workers=1)
        self.fill(20)
        run = self.begun(last="001.pgm")
        self.ask("sum(map(len, client.has_what().values())) == 2")
        self.workers[0].kill()
        self.ask("not client.nthreads()")
        self.put("gate", b"")
        self.worker()
        self.ends(run)
        self.assertEqual(tree(self.path("out")), self.due())

    def lost(self, end):
        """A batch whose scheduler dies ends with a line and status 2, and leaves whole files."""
        self.begin(workers=1)
        self.fill(30)
        self.put("in/x.jpg", b"no photograph")
        due = self.due()
        run = self.begun(last="019.pgm")
        self.waited(lambda: self.corners() >= 5)
        end()
        self.ends(run, 2, f"zakdomp: {self.path('in')}: the scheduler is gone: start the batch again to go on\n")
        self.assertEqual(sorted(os.listdir(self.path("out"))), ["corners", "ledger.sqlite"])
        left = {name: digest for name, digest in tree(self.path("out")).items() if name.startswith("corners/")}
        self.assertLessEqual(left.items(), due.items())
        self.assertTrue(5 <= len(left) < 30)
        return due

    def test_a_scheduler_that_dies_while_workers_work(self):
        """They are stopped, so that tasks are under way; the next run works without a scheduler."""
        def end():
            self.workers[0].send_signal(signal.SIGSTOP)
            self.put("gate", b"")
            self.scheduler.kill()

        due = self.lost(end)
        self.batch("--jobs", 1)
        self.assertEqual(tree(self.path("out")), due)

    def test_a_scheduler_that_ends_while_the_batch_reads(self):
        """It ends of itself, by a signal; the next run works on another cluster."""
        def end():
            self.scheduler.terminate()
            self.scheduler.wait()
            self.put("gate", b"")

        due = self.lost(end)
        self.begin(workers=1)
        self.ends(self.begun(last="y"))
        self.assertEqual(tree(self.path("out")), due)

    def test_a_cluster_without_workers(self):
        """It says so within seconds, and leaves no line: nothing is known of any upload."""
        self.begin(workers=0)
        self.fill(2)
        begun = time.monotonic()
        run = self.started("--scheduler", self.address, stderr=subprocess.PIPE)
        said = run.communicate(timeout=LIMIT)[1].decode()
        self.assertEqual((said, run.returncode), (f"zakdomp: {self.path('in')}: the scheduler at {self.address} has no "
                                                  "workers: start some, and then the batch again\n", 2))
        self.assertLess(time.monotonic() - begun, 60)
        self.assertFalse(os.path.exists(self.path("out/invoice.csv")))

    def test_a_cluster_that_lost_its_workers(self):
        """A stand-in for its client: the wait ends with a line, and not never."""
        threads = iter([{"a": 1}, {}, {}, {}])
        client = mock.Mock(status="running", nthreads=lambda: next(threads, {}))
        told = self.assertRaisesRegex(OSError, "at x has no workers: start some")
        with mock.patch.object(cluster, "OFTEN", 0.01), told:
            cluster._manned(client, "x", lambda: False, 0.2)
        cluster._manned(client, "x", lambda: True, 0)

    def test_what_is_no_scheduler(self):
        run = self.started("--scheduler", "here", stderr=subprocess.PIPE)
        self.assertRegex(run.communicate(timeout=LIMIT)[1].decode(),
                         r"^zakdomp: [^\n]*: no scheduler at here: [^\n]+\n$")
        self.assertEqual(run.returncode, 2)


if __name__ == "__main__":
    unittest.main()
