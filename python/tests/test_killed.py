"""Random folders of hostile uploads, killed at random instants and started again: python3 -m unittest test_killed

`python3 test_killed.py 1000 5000` does so many rounds, from a seed on, says how far it is, and the seed of one that
fails."""
import csv
import hashlib
import io
import os
import random
import signal
import sqlite3
import subprocess
import sys
import tempfile
import time
import unittest

import zakdomp
from test_batch import tree
from test_command import HERE, board, noise
from test_names import HOSTILE
from zakdomp_command import formats, names

ROUNDS = 6
# the batch kills itself before so many writes, of files and of all that is said to the ledger, which hears so few at a
# time
KILLED = """import os, signal, sqlite3, sys
from zakdomp_command import batch, main
left, kill, batch.FEW = int(sys.argv[1]), os.kill, int(sys.argv[2])

def counted(real):
    def call(*given, **named):
        global left
        left -= 1
        if left == 0:
            kill(os.getpid(), signal.SIGKILL)
        return real(*given, **named)
    return call

class Counted(sqlite3.Connection):
    execute = counted(sqlite3.Connection.execute)

connect = sqlite3.connect
sqlite3.connect = lambda *given, **named: connect(*given, factory=Counted, **named)
os.fsync, os.replace, os.unlink = counted(os.fsync), counted(os.replace), counted(os.unlink)
sys.exit(main.main(sys.argv[3:]))
"""


def upload(chosen):
    """The bytes of an upload."""
    photo = noise(chosen.randint(1, 60), chosen.randint(0, 9), chosen.choice((range(256), (0, 1), (7,))))
    return chosen.choice((
        photo, photo, photo, board(), photo[:-1], photo + b"more", b"", b"\xff\xd8\xffx", b"P2 1 1 255 7",
        b"P5 5000 1 255\n", b"P5 1 1 65535\nab", b"P5 #" + bytes(9999), b"P5 0 9 255\n",
        chosen.randbytes(chosen.randint(1, 99))))


def fill(folder, chosen):
    """Puts uploads of all kinds into a folder, some with the bytes of others."""
    contents = [upload(chosen) for _ in range(chosen.randint(1, 9))]
    for number, name in enumerate(chosen.sample(HOSTILE + ("n" * 255, "a.pgm", "A.pgm"), chosen.randint(0, 25))):
        behind = chosen.choice(("", str(number)))[:255 - len(os.fsencode(name))]
        path = os.path.join(folder, name + behind)
        kind = chosen.randrange(12)
        if kind == 0:
            os.symlink(chosen.choice(("loop", name, "/dev/zero", "/none/x", ".")), path)
        elif kind == 1:
            os.mkfifo(path)
        elif kind == 2:
            os.mkdir(path)
        else:
            with open(path, "wb") as file:
                file.write(chosen.choice(contents))
            if kind == 3:
                os.truncate(path, 1 << 40)


def begun(chosen, command):
    """Runs a batch that is killed at some instant, by the clock or at one of its writes, if it does not end before."""
    environment = {**os.environ, "PYTHONPATH": HERE}
    if chosen.random() < 0.7:
        after = chosen.randint(1, 60 + 12 * len(os.listdir(command[1])))
        run = [sys.executable, "-B", "-c", KILLED, str(after), str(chosen.randint(1, 4)), *command]
        subprocess.run(run, env=environment, stdout=subprocess.DEVNULL, stderr=subprocess.DEVNULL, check=False)
        return
    with subprocess.Popen([sys.executable, "-B", "-m", "zakdomp_command", *command], env=environment,
                          stdout=subprocess.DEVNULL, stderr=subprocess.DEVNULL) as run:
        time.sleep(0.1 + 0.3 * chosen.random())
        run.send_signal(signal.SIGKILL)


class Killed(unittest.TestCase):
    def content(self, *path):
        with open(os.path.join(*path), "rb") as file:
            return file.read()

    def whole(self, folder, out, options):
        """One line for each upload, every count that of its corner file, every corner file that of its upload."""
        lines = list(csv.DictReader(io.StringIO(self.content(out, "invoice.csv").decode("utf-8"))))[:-1]
        due = sorted(entry.name for entry in os.scandir(folder) if entry.is_symlink() or not entry.is_dir())
        due = [name for name in due if not os.path.isdir(os.path.join(folder, name))]
        self.assertEqual(sorted(names.name_of(line["name"]) for line in lines), due)
        for line in lines:
            if not line["corners"]:
                self.assertEqual((bool(line["words"]), line["corner_file"]), (True, ""))
                continue
            content = self.content(out, names.name_of(line["corner_file"]))
            with open(os.path.join(folder, names.name_of(line["name"])), "rb") as file:
                given = file.read(1 << 20)
            self.assertEqual(content.decode(), zakdomp.listing(zakdomp.find_corners_pgm(given, threshold=options)))
            self.assertEqual(line["corner_file_sha256"], hashlib.sha256(content).hexdigest())
            self.assertEqual(line["sha256"], self.digest(folder, line))
            self.assertEqual(int(line["corners"]), len(formats.read(content).corners))

    def digest(self, folder, line):
        with open(os.path.join(folder, names.name_of(line["name"])), "rb") as file:
            return hashlib.sha256(file.read(4096 * 4096 + (1 << 20))).hexdigest()

    def round(self, seed):
        chosen = random.Random(seed)
        with tempfile.TemporaryDirectory() as place:
            folder, out, fresh = (os.path.join(place, name) for name in ("in", "out", "fresh"))
            os.mkdir(folder)
            fill(folder, chosen)
            threshold = chosen.choice((0, 5.5, 300))
            command = ["batch", folder, "--jobs", str(chosen.randint(1, 2)), "--threshold", str(threshold), "--out"]
            for _ in range(chosen.randint(1, 4)):
                begun(chosen, [*command, out])
            for each in (out, fresh):
                run = [sys.executable, "-B", "-m", "zakdomp_command", *command, each]
                ended = subprocess.run(run, env={**os.environ, "PYTHONPATH": HERE}, capture_output=True, check=False)
                self.assertEqual(ended.returncode, 0, ended.stderr)
            self.whole(folder, out, threshold)
            self.assertEqual(tree(out), tree(fresh))
            connection = sqlite3.connect(os.path.join(out, "ledger.sqlite"))
            self.assertEqual(connection.execute("PRAGMA integrity_check").fetchall(), [("ok",)])
            connection.close()

    def test_rounds(self):
        for seed in range(ROUNDS):
            with self.subTest(seed=seed):
                self.round(seed)


def main(rounds, first):
    """Rounds by hand."""
    case = Killed()
    for seed in range(first, first + rounds):
        try:
            case.round(seed)
        except BaseException:
            print(f"seed {seed}", flush=True)
            raise
        if (seed - first) % 50 == 49:
            print(f"{seed - first + 1} rounds", flush=True)
    print(f"{rounds} rounds from seed {first}")


if __name__ == "__main__":
    if sys.argv[1:]:
        main(*map(int, sys.argv[1:]))
    else:
        unittest.main()
