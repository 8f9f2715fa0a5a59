"""What is installed, used in an empty folder by a program of three lines each in C, Rust and Python:
python3 -m unittest test_install"""
import importlib.util
import os
import re
import shutil
import subprocess
import sys
import tempfile
import unittest
import zipfile

import wheel_backend
import zakdomp
from common import HERE, TOP, board
from zakdomp_command.main import _parser

C = """#include <stdio.h>
#include <zakdomp.h>
int main(void) {
    uint8_t letter;
    return zakdomp_holding(2, 0, 0, &letter) || printf("%c %s\\n", letter, ZAKDOMP_VERSION) < 0;
}
"""
RUST = """fn main() {
    let found = zakdomp::Finder::new().find(&[7; 400], 20, 20, &zakdomp::Params::default());
    println!("{:?}", found.map(|frame| frame.corners.len()));
}
"""
PYTHON = """import sys, zakdomp
corners = zakdomp.find_corners_pgm(sys.stdin.buffer.read(), threshold=30)
print(len(corners), zakdomp.__version__)
"""
ARRAYS = """import numpy, zakdomp_numpy
image = numpy.kron([[0, 1, 0, 1], [1, 0, 1, 0]] * 2, numpy.ones((30, 30))).astype("uint8") * 200
found = zakdomp_numpy.find(image, threshold=30)
assert found.corners.dtype.names[:3] == ("x", "y", "strength") and len(found.corners) == 9, found
assert (zakdomp_numpy.find_corners(image[::-1].T, threshold=30)["x"] > 20).all()
responses = zakdomp_numpy.response(image)
assert responses.shape == image.shape and responses.max() == found.corners["strength"].max()
assert len(zakdomp_numpy.find_corners(image[:0])) == 0
tipped = (7 * numpy.arange(169) ** 2 % 24).astype("uint8").reshape(13, 13)
bare = dict(window=1, least_neighbours=0, centroid_radius=0, merge_radius=0)
assert len(zakdomp_numpy.find_exact(tipped, **bare).corners) == 1
assert len(zakdomp_numpy.find_exact_corners(tipped, **bare)) == 1
assert len(zakdomp_numpy.find_corners(tipped, **bare)) == 0
print(len(zakdomp_numpy.find_corners(memoryview(image), threshold=30)))
"""
TYPED = """import zakdomp
corners: list[zakdomp.Corner] = zakdomp.find_corners(b"", width=0, height=0, threshold=30, most=7)
frame: zakdomp.Frame = zakdomp.find_exact_pgm(b"", ring=10)
ties: str = zakdomp.find(b"", 0, 0).ties
zakdomp.find(b"", 0, 0, treshold=30)
zakdomp.find(b"", "0", 0)
zakdomp.find_pgm(b"", threshold="30")
zakdomp.merged(corners, "3")
"""
WRONG = [4, 5, 6, 7, 8]
BUILT = all(os.path.exists(os.path.join(TOP, path)) for path in (
    "crates/corners/out/corners", "crates/retained/out/retained", "target/zakdomp/libzakdomp.a"))


HIDDEN = ("ZAKDOMP_LIBRARY", "PYTHONPATH", "ZAKDOMP_DIR", "PKG_CONFIG", "PKG_CONFIG_PATH", "PKG_CONFIG_LIBDIR")


def runs(*command):
    """Whether a program is on this machine and runs."""
    try:
        return subprocess.run(command, capture_output=True, check=False).returncode == 0
    except OSError:
        return False


def content(*path):
    with open(os.path.join(*path), "rb") as file:
        return file.read()


NOTICE = content(TOP, "NOTICE")


def clean(**named):
    """The environment without what would find the repository's own library and modules."""
    return {name: value for name, value in os.environ.items() if name not in HIDDEN} | named


class Folder(unittest.TestCase):
    def setUp(self):
        folder = tempfile.TemporaryDirectory()
        self.addCleanup(folder.cleanup)
        self.folder = folder.name

    def ran(self, *command, given=b"", **named):
        """What a command prints, run in the folder."""
        run = subprocess.run(command, input=given, capture_output=True, cwd=self.folder, env=clean(**named),
                             check=False)
        self.assertEqual(run.returncode, 0, run.stderr.decode())
        return run.stdout.decode()

    def put(self, name, text):
        os.makedirs(os.path.dirname(os.path.join(self.folder, name)), exist_ok=True)
        with open(os.path.join(self.folder, name), "w", encoding="utf-8") as file:
            file.write(text)


DUE = f"{len(zakdomp.find_corners_pgm(board(), threshold=30))} {zakdomp.__version__}\n"


@unittest.skipUnless(runs(sys.executable, "-m", "pip", "--version"), "no pip on this machine")
class Wheels(Folder):
    @classmethod
    def setUpClass(cls):
        cls.place = cls.enterClassContext(tempfile.TemporaryDirectory())
        library = os.environ.get("ZAKDOMP_LIBRARY") or os.path.join(TOP, "target", "bindings", "libzakdomp.so")
        command = [sys.executable, "-m", "pip", "install", "--quiet", "--no-index", "--no-compile",
                   "--disable-pip-version-check", "--no-cache-dir",
                   "--target", cls.place, HERE]
        subprocess.run(command, check=True, env=clean(ZAKDOMP_LIBRARY=os.path.abspath(library),
                                                      PYTHONDONTWRITEBYTECODE="1",
                                                          PIP_ROOT_USER_ACTION="ignore"))

    def test_three_lines_of_python(self):
        self.put("a.py", PYTHON)
        self.assertEqual(self.ran(sys.executable, "-B", "a.py", given=board(), PYTHONPATH=self.place), DUE)

    def test_the_notice(self):
        place = os.path.join(self.place, f"zakdomp-{zakdomp.__version__}.dist-info")
        self.assertEqual(content(place, "NOTICE"), NOTICE)
        self.assertIn(b"\nLicense-File: NOTICE\n", content(place, "METADATA"))

    def test_the_command(self):
        said = self.ran(os.path.join(self.place, "bin", "zakdomp"), "find", "-", "--threshold", "30", given=board(),
                        PYTHONPATH=self.place)
        self.assertEqual(said, zakdomp.listing(zakdomp.find_corners_pgm(board(), threshold=30)))

    @unittest.skipUnless(importlib.util.find_spec("numpy"), "no numpy on this machine")
    def test_arrays(self):
        self.put("a.py", ARRAYS)
        self.assertEqual(self.ran(sys.executable, "-B", "a.py", PYTHONPATH=self.place), "9\n")

    @unittest.skipUnless(runs("mypy", "--version"), "no mypy on this machine")
    def test_types(self):
        """What is installed is typed to its parameters: the first lines are right, and each of the last is an error."""
        self.put("a.py", TYPED)
        run = subprocess.run(["mypy", "--strict", "a.py"], capture_output=True, cwd=self.folder,
                             env=clean(MYPYPATH=self.place), check=False)
        said = run.stdout.decode()
        self.assertEqual(sorted({int(line) for line in re.findall(r"^a\.py:(\d+): error", said, re.MULTILINE)}), WRONG,
                         said)


class Contents(Folder):
    def test_the_manual_of_the_header(self):
        """docs/man/zakdomp.3 is what tools/manual writes, and has each function of the header and each helper."""
        header = os.path.join(TOP, "include", "zakdomp.h")
        written = subprocess.run([sys.executable, "-B", os.path.join(TOP, "tools", "manual"), header],
                                 capture_output=True, check=True)
        with open(os.path.join(TOP, "docs", "man", "zakdomp.3"), "rb") as file:
            page = file.read()
        self.assertEqual(written.stdout, page, "run: tools/manual include/zakdomp.h >docs/man/zakdomp.3")
        with open(header, encoding="utf-8") as file:
            due = re.findall(r"^(?:static inline )?\w+ \**(zakdomp_\w+)\(|^} (zakdomp_\w+);", file.read(), re.MULTILINE)
        self.assertGreater(len(due), 20)
        self.assertEqual({"".join(names) for names in due},
                         set(re.findall(r"^\.SH (zakdomp_\w+)", page.decode(), re.MULTILINE)))

    def test_the_same_bytes_give_the_same_wheel(self):
        name = wheel_backend.build_wheel(self.folder)
        with open(os.path.join(self.folder, name), "rb") as file:
            first = file.read()
        wheel_backend.build_wheel(self.folder)
        with open(os.path.join(self.folder, name), "rb") as file:
            self.assertEqual(file.read(), first)
        with zipfile.ZipFile(os.path.join(self.folder, name)) as wheel:
            self.assertIsNone(wheel.testzip())
            names = wheel.namelist()
        self.assertEqual(len(names), len(set(names)))
        due = {f"{module}/{name}" for module in ("zakdomp", "zakdomp_numpy") for name in ("__init__.py", "py.typed")}
        self.assertLessEqual({*due, "zakdomp/libzakdomp.so", "zakdomp_command/main.py"}, set(names))
        self.assertFalse([name for name in names if name.endswith(".pyi")], "types in files of their own go stale")

    @unittest.skipUnless(runs("mypy", "--version"), "no mypy on this machine")
    def test_the_types_of_the_repository(self):
        """`mypy` reads in pyproject.toml what is typed, and that it is strict."""
        cache = os.path.join(TOP, "target", "mypy")
        run = subprocess.run(["mypy", "--cache-dir", cache], capture_output=True, cwd=HERE, env=clean(), check=False)
        self.assertEqual(run.returncode, 0, run.stdout.decode())


@unittest.skipUnless(BUILT, "the programs and the static library are not built")
@unittest.skipUnless(runs("gcc", "--version"), "no gcc on this machine")
class Installed(Folder):
    @classmethod
    def setUpClass(cls):
        cls.prefix = os.path.join(cls.enterClassContext(tempfile.TemporaryDirectory()), "usr")
        subprocess.run([os.path.join(TOP, "tools", "install"), cls.prefix], check=True, stdout=subprocess.DEVNULL)
        cls.lib = os.path.join(cls.prefix, "lib")

    def test_three_lines_of_c_against_the_shared_library(self):
        self.put("a.c", C)
        self.ran("gcc", "-Wall", "-Werror", "a.c", "-o", "a", "-I", os.path.join(self.prefix, "include"), "-L",
                 self.lib, "-lzakdomp")
        self.assertEqual(self.ran("./a", LD_LIBRARY_PATH=self.lib), f"H {zakdomp.__version__}\n")
        with open(os.path.join(self.folder, "a"), "rb") as file:
            self.assertIn(b"libzakdomp.so." + zakdomp.__version__.rpartition(".")[0].encode() + b"\0", file.read())

    @unittest.skipUnless(runs("pkg-config", "--version"), "no pkg-config on this machine")
    def test_three_lines_of_c_by_pkg_config(self):
        self.put("a.c", C)
        words = self.ran("pkg-config", "--cflags", "--libs", "--static", "zakdomp",
                         PKG_CONFIG_PATH=os.path.join(self.lib, "pkgconfig")).split()
        self.ran("gcc", "-static", "a.c", "-o", "a", *words)
        self.assertEqual(self.ran("./a"), f"H {zakdomp.__version__}\n")
        self.assertEqual(self.ran("pkg-config", "--modversion", "zakdomp",
                                  PKG_CONFIG_PATH=os.path.join(self.lib, "pkgconfig")), zakdomp.__version__ + "\n")

    def rust(self, crate, **named):
        """Three lines of Rust over a crate, with the environment's words for it."""
        self.put("src/main.rs", RUST)
        self.put("Cargo.toml", '[package]\nname = "a"\nversion = "0.1.0"\nedition = "2021"\n'
                               f'[dependencies]\nzakdomp = {{ path = "{crate}" }}\n')
        said = self.ran("cargo", "run", "--quiet", "--offline", CARGO_TARGET_DIR=os.path.join(self.folder, "target"),
                        **named)
        self.assertEqual(said, "Ok(0)\n")

    @unittest.skipUnless(runs("cargo", "--version"), "no cargo on this machine")
    def test_three_lines_of_rust(self):
        self.rust(os.path.join(self.prefix, "share", "zakdomp", "rust"))

    @unittest.skipUnless(runs("cargo", "--version"), "no cargo on this machine")
    @unittest.skipUnless(runs("pkg-config", "--version"), "no pkg-config on this machine")
    def test_three_lines_of_rust_by_pkg_config(self):
        """A copy of the crate with no library beside it."""
        crate = os.path.join(self.folder, "crate")
        shutil.copytree(os.path.join(TOP, "rust"), crate, ignore=shutil.ignore_patterns("target"))
        self.rust(crate, PKG_CONFIG_PATH=os.path.join(self.lib, "pkgconfig"))

    def test_three_lines_of_python(self):
        self.put("a.py", PYTHON)
        self.assertEqual(self.ran(sys.executable, "-B", "a.py", given=board(),
                                  PYTHONPATH=os.path.join(self.lib, "zakdomp")), DUE)

    def test_the_programs(self):
        programs = os.path.join(self.prefix, "bin")
        photo = board(90, 90)
        stream = subprocess.run([os.path.join(programs, "zakdomp"), "stream", "-"], input=photo, capture_output=True,
                                env=clean(PYTHONDONTWRITEBYTECODE="1"), check=True).stdout
        self.assertEqual(self.ran(os.path.join(programs, "corners"), given=stream),
                         zakdomp.listing(zakdomp.find_corners_pgm(photo)))
        self.assertEqual(self.ran(os.path.join(programs, "retained"), given=bytes(17)[:8] + b"\1" + bytes(8)), "H\n")

    def test_the_notice(self):
        self.assertEqual(content(self.prefix, "share", "doc", "zakdomp", "NOTICE"), NOTICE)

    def test_nothing_names_the_repository(self):
        for place, _, names in os.walk(self.prefix):
            for name in names:
                with open(os.path.join(place, name), "rb") as file:
                    self.assertNotIn(TOP.encode() + b"/", file.read(), name)

    def test_the_manual(self):
        pages = {}
        for name in ("man1/corners.1", "man1/retained.1", "man1/zakdomp.1", "man3/zakdomp.3"):
            with open(os.path.join(self.prefix, "share", "man", name), encoding="utf-8") as file:
                pages[name] = file.read().replace("\\-", "-")
            if shutil.which("man"):
                page = os.path.join(self.prefix, "share", "man", name)
                said = subprocess.run(["man", "--warnings", "-l", page], capture_output=True, check=True,
                                      env=clean(MANWIDTH="80", LC_ALL="C.UTF-8"))
                self.assertEqual(said.stderr, b"")
                wide = [line for line in said.stdout.decode().splitlines() if len(line) > 80]
                self.assertFalse(wide and name == "man3/zakdomp.3", wide)
        commands = next(action.choices for action in _parser()._actions if isinstance(action.choices, dict))
        for name, parser in commands.items():
            self.assertIn(f".B zakdomp {name}\n", pages["man1/zakdomp.1"])
            for option in (word for action in parser._actions for word in action.option_strings
                           if word not in ("-h", "--help")):
                self.assertRegex(pages["man1/zakdomp.1"], rf"(?m)[ \n]{option}\b")

    def test_the_first_program(self):
        """That of include/README.md, over what is installed."""
        with open(os.path.join(TOP, "include", "README.md"), encoding="utf-8") as file:
            program = "".join(re.findall(r"^    (.*\n)", file.read(), re.MULTILINE))
        self.assertEqual(program.count("\n"), 10)
        self.put("a.c", program)
        self.ran("gcc", "-std=c99", "-Wall", "-Wextra", "-Werror", "a.c", "-o", "a", "-I",
                 os.path.join(self.prefix, "include"),
                 os.path.join(self.lib, "libzakdomp.a"))
        lines = [tuple(map(float, line.split())) for line in self.ran("./a", given=board()).splitlines()]
        due = [corner[:3] for corner in zakdomp.find_corners_pgm(board(), threshold=300)]
        self.assertGreater(len(due), 0)
        self.assertEqual(lines, [tuple(round(number, 6) for number in corner) for corner in due])
        self.assertEqual(subprocess.run(["./a"], cwd=self.folder, input=b"GIF89a", check=False).returncode, 1)

    def test_a_package(self):
        """DESTDIR is where the files are put, and not what they say."""
        subprocess.run([os.path.join(TOP, "tools", "install"), "/usr"], check=True, stdout=subprocess.DEVNULL,
                       env={**os.environ, "DESTDIR": self.folder})
        self.assertEqual(os.listdir(self.folder), ["usr"])
        with open(os.path.join(self.folder, "usr", "lib", "pkgconfig", "zakdomp.pc"), encoding="utf-8") as file:
            self.assertEqual(file.readline(), "prefix=/usr\n")

    def test_usage(self):
        self.assertEqual(subprocess.run([os.path.join(TOP, "tools", "install")], capture_output=True,
                                        check=False).returncode, 2)


if __name__ == "__main__":
    unittest.main()
