"""The lines of README.md and python/README.md that say how to begin, and `./run PHOTO.pgm`, as a newcomer tries them:
python3 -m unittest test_newcomer

Nothing is proved here: in a copy of the repository a stand-in for `rt` hands over what the repository has made."""
import importlib.util
import os
import re
import shutil
import subprocess
import sys
import tempfile
import unittest

import zakdomp
from common import TOP, board

MADE = os.path.join(TOP, "target")
LIBRARY = os.path.abspath(os.environ.get("ZAKDOMP_LIBRARY") or os.path.join(MADE, "bindings", "libzakdomp.so"))
CORNERS = os.path.join(TOP, "crates", "corners", "out", "corners")
HAS_MADE = all(map(os.path.exists, (CORNERS, os.path.join(MADE, "zakdomp", "libzakdomp.a"))))
HAS_TOOLS = all(map(shutil.which, ("ld", "ar", "bash")))
RT = """#!/bin/sh
name=${{PWD##*/}} && mkdir -p out
case "$1 $name" in
"run corners") cp "{corners}" out && touch out/corners.stamp ;;
"lib capi_frame") cp "{made}/zakdomp/libzakdomp.a" out/libcapi_frame.a ;;
"lib "*) ar rc "out/lib$name.a" ;;
*) exit 9 ;;
esac
"""


class Newcomer(unittest.TestCase):
    def setUp(self):
        self.folder = self.enterContext(tempfile.TemporaryDirectory())

    def path(self, *names):
        return os.path.join(self.folder, *names)

    def copy(self):
        """The repository without what is made of it, and with a stand-in for `rt`."""
        for name in ("examples", "python", "tools"):
            shutil.copytree(os.path.join(TOP, name), self.path(name), ignore=shutil.ignore_patterns("__pycache__"))
        for name in ("run", "NOTICE", "README.md", "CHANGELOG.md", "crates.txt"):
            shutil.copy(os.path.join(TOP, name), self.path(name))
        os.makedirs(self.path("bin"))
        with open(self.path("crates.txt"), encoding="utf-8") as file:
            for name in re.findall(r"^(\w+)[ :]", file.read(), re.MULTILINE):
                os.makedirs(self.path("crates", name))
        for name in ("gcc", "cc"):  # no C compiler is on the machine
            os.symlink("/bin/false", self.path("bin", name))
        with open(self.path("bin", "rt"), "w", encoding="utf-8") as file:
            file.write(RT.format(made=MADE, corners=CORNERS))
        os.chmod(self.path("bin", "rt"), 0o755)

    def ran(self, *command, path=None, **named):
        """A command in the folder, on a machine where nothing of the repository is to be found but by its own doing."""
        path = path or f"{self.path('bin')}:/usr/bin:/bin"
        clean = {"PATH": path, "HOME": self.folder, "PYTHONDONTWRITEBYTECODE": "1", "PIP_NO_INDEX": "1",
                 "PIP_DISABLE_PIP_VERSION_CHECK": "1", "LC_ALL": "C.UTF-8"}
        return subprocess.run(command, cwd=self.folder, capture_output=True, env={**clean, **named}, check=False)

    def block(self, *names):
        """The indented lines of a file, named first, that have some text, named last."""
        with open(self.path(*names[:-1]), encoding="utf-8") as file:
            blocks = re.findall(r"(?:^    .*\n)+", file.read(), re.MULTILINE)
        return next(lines for lines in blocks if names[-1] in lines)

    def names(self):
        return sorted(name for name in os.listdir(self.folder) if name.endswith(".png"))


@unittest.skipUnless(HAS_MADE and HAS_TOOLS, "the library and the program corners are not made, or there is no ld")
class FirstLines(Newcomer):
    @unittest.skipUnless(importlib.util.find_spec("ensurepip"), "no python3-venv on this machine")
    def test_in_their_order(self):
        self.copy()
        lines = self.block("README.md", "./run board.pgm ") + self.block("python", "README.md", "pip install ./python ")
        run = self.ran("bash", "-e", "-c", "./run\n" + lines)
        said = run.stderr.decode()
        self.assertEqual(run.returncode, 0, said)
        self.assertIn("the library is not there yet: it is now proved and compiled", said)
        with open(self.path("examples", "board.txt"), encoding="utf-8") as file:
            self.assertTrue(run.stdout.decode().startswith(file.read()))
        with open(self.path("board.pgm"), "rb") as file:
            due = zakdomp.listing(zakdomp.find_corners_pgm(file.read(), threshold=300))
        self.assertEqual(run.stdout.decode().count(due), 2)
        self.assertEqual(self.names(), ["board-corners.png", "marked.png"])
        self.assertTrue(os.path.exists(self.path("november", "invoice.csv")))
        again = self.ran("./run", "board.pgm")
        self.assertEqual((again.returncode, again.stdout.decode()), (0, due))
        self.assertNotIn("proved and compiled", again.stderr.decode())
        shutil.rmtree(self.path("target", "zakdomp"))
        self.assertNotIn("proved and compiled", self.ran("./run", "board.pgm").stderr.decode())

    def test_no_library_and_no_toolchain(self):
        self.copy()
        for name in ("bash", "dirname", "realpath", "python3", "env"):
            os.symlink(shutil.which(name), self.path("bin", name))
        os.unlink(self.path("bin", "rt"))
        with open(self.path("photo.pgm"), "wb") as file:
            file.write(board())
        run = self.ran("./run", "photo.pgm", path=self.path("bin"))
        self.assertEqual((run.returncode, run.stdout), (2, b""))
        self.assertRegex(run.stderr.decode(), r"^shared: no rt on this machine, which .*\n$")

    @unittest.skipUnless(importlib.util.find_spec("pip"), "no pip on this machine")
    def test_the_wheel_without_the_library(self):
        """One line says what to do, and nothing is proved; where the static library is there it is linked."""
        self.copy()
        install = [sys.executable, "-m", "pip", "install", "--quiet", "--target", self.path("place"),
                   self.path("python")]
        run = self.ran(*install)
        said = [line.strip() for line in run.stderr.decode().splitlines() if "zakdomp:" in line]
        self.assertEqual((run.returncode, len(said)), (1, 1), run.stderr.decode())
        self.assertRegex(said[0], r"^zakdomp: there is no library yet: run .*/tools/shared, which proves and compiles")
        self.assertNotIn("Traceback", run.stderr.decode())
        self.assertFalse(os.path.exists(self.path("target")))
        os.makedirs(self.path("target", "zakdomp"))
        shutil.copy(os.path.join(MADE, "zakdomp", "libzakdomp.a"), self.path("target", "zakdomp"))
        self.assertEqual(self.ran(*install).returncode, 0)
        self.assertTrue(os.path.exists(self.path("place", "zakdomp", "libzakdomp.so")))

    def test_install_names_what_exists(self):
        self.copy()
        run = self.ran("tools/install", self.path("usr"))
        self.assertEqual(run.returncode, 2)
        with open(self.path("tools", "install"), encoding="utf-8") as file:
            said = run.stderr.decode() + "".join(line for line in file if line.startswith("#"))
        named = set(re.findall(r"(?:tools/|\./)\w+", said)) - {"tools/install"}
        self.assertIn("tools/library", named)
        for name in named:
            self.assertTrue(os.access(os.path.join(TOP, name), os.X_OK), name)
        self.assertEqual(set(re.findall(r"tools/linked (\w+)", said)), {"corners", "retained"})


@unittest.skipUnless(shutil.which("bash"), "no bash on this machine")
class OnePhotograph(Newcomer):
    def run_on(self, *words, library=LIBRARY):
        run = self.ran(os.path.join(TOP, "run"), *words, ZAKDOMP_LIBRARY=library)
        return run.returncode, run.stdout.decode(), run.stderr.decode()

    def put(self, name, content):
        with open(self.path(name), "wb") as file:
            file.write(content)

    def content(self, name):
        with open(self.path(name), "rb") as file:
            return file.read()

    def state(self, name):
        """What a file is and when it was written; to have been read changes none of it."""
        state = os.lstat(self.path(name))
        return state.st_mode, state.st_ino, state.st_size, state.st_mtime_ns

    def test_corners_and_a_picture(self):
        self.put("a b.PGM", board())
        status, said, told = self.run_on("a b.PGM")
        self.assertEqual((status, said), (0, zakdomp.listing(zakdomp.find_corners_pgm(board(), threshold=300))))
        self.assertIn("run: the picture is 'a b-corners.png'\n", told)
        first = self.content("a b-corners.png")
        self.assertEqual(first[:8], b"\x89PNG\r\n\x1a\n")
        self.assertEqual(self.run_on("a b.PGM", "--threshold", "2000", "--format", "csv")[0], 0)
        self.assertNotEqual(self.content("a b-corners.png"), first, "its own picture is drawn again")
        self.assertEqual(sorted(os.listdir(self.folder)), ["a b-corners.png", "a b.PGM"])

    def test_what_is_not_its_own_stays(self):
        self.put("a.pgm", board())
        self.put("other", b"kept")
        for make in (lambda: self.put("a-corners.png", b"kept"), lambda: self.put("a-corners.png", b""),
                     lambda: os.symlink(self.path("other"), self.path("a-corners.png")),
                     lambda: os.symlink(self.path("nowhere"), self.path("a-corners.png")),
                     lambda: os.mkfifo(self.path("a-corners.png"))):
            make()
            before = self.state("a-corners.png")
            status, said, told = self.run_on("a.pgm")
            self.assertEqual((status, said), (2, ""))
            self.assertRegex(told, r"^run: 'a-corners.png' is there and was not written by ./run: .*\n$")
            self.assertEqual(self.state("a-corners.png"), before)
            os.unlink(self.path("a-corners.png"))
        self.assertEqual(self.content("other"), b"kept")

    def test_no_photograph(self):
        self.put("empty.pgm", b"")
        self.put("text.pgm", b"kept")
        os.mkfifo(self.path("pipe.pgm"))
        for words in (["nowhere.pgm"], ["."], ["pipe.pgm"], ["--threshold", "3"], ["-"], [""], ["\n\x1b[31m"]):
            status, said, told = self.run_on(*words)
            self.assertEqual((status, said, told.count("\n")), (2, "", 1), words)
            self.assertNotIn("\x1b", told)
        for name in ("empty.pgm", "text.pgm"):
            self.assertEqual(self.run_on(name)[:2], (1, ""))
        self.assertEqual(self.names(), [])
        self.assertEqual(self.content("text.pgm"), b"kept")
        self.assertEqual(self.run_on("--help")[0], 0)

    def test_no_library_where_it_is_named(self):
        self.put("a.pgm", board())
        status, said, told = self.run_on("a.pgm", library="/nowhere/lib.so")
        self.assertEqual((status, said), (2, ""))
        self.assertRegex(told, r"^run: no library \(/nowhere/lib\.so: .*\n$")
        self.assertEqual(os.listdir(self.folder), ["a.pgm"])


if __name__ == "__main__":
    unittest.main()
