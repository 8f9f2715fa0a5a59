"""The page of a run: python3 -m unittest test_report"""
import base64
import html.parser
import os
import re
import shutil
import struct
import subprocess
import unittest
import zlib

import zakdomp
from test_batch import Batch
from test_command import MANY, board, noise, pgm
from zakdomp_command import marks

HOSTILE = {"<script>alert(1)<!--": b"x", '"onerror="alert(1)': board(), "<img src=x onerror=alert(1)>.pgm": board(),
           "a\u202eb&amp;": b"\xff\xd8\xff", "--><svg onload=alert(1)>": noise(30, 2), "';<style><b>": b""}
TAGS = set("html head meta title style body h1 h2 p table thead tbody tfoot tr th td a article figure figcaption svg "
           "image g circle polygon path rect".split())
ATTRIBUTES = set("lang charset name content http-equiv class id href xmlns width height viewbox style transform fill "
                 "stroke stroke-width cx cy r x y points d".split())


class Page(html.parser.HTMLParser):
    """What a page has: its elements, their attributes, and the text that is read."""

    def __init__(self, text):
        super().__init__()
        self.tags, self.attributes, self.links, self.text = set(), set(), set(), ""
        self.feed(text)
        self.close()

    def handle_starttag(self, tag, attrs):
        self.tags.add(tag)
        self.attributes |= {name for name, _ in attrs}
        self.links |= {value for name, value in attrs if name in ("href", "src")}

    def handle_data(self, data):
        self.text += data


class Reported(Batch):
    def report(self, *options, name="report.html"):
        said = self.done("report", self.path("out"), *options).decode()
        self.assertEqual(said, self.path("out/" + name) + "\n")
        return self.content("out/" + name).decode("utf-8")


class Reports(Reported):
    def test_what_it_says(self):
        self.put("in/board.pgm", board())
        self.put("in/other.pgm", noise(48, 114, (0, 1)))
        self.put("in/x.jpg", b"\xff\xd8\xff")
        os.symlink("loop", self.path("in/loop"))
        self.batch("--jobs", 1)
        self.done("strike", self.path("out/corners/board.pgm.corners"), 3, "--confirm", 0)
        text = self.report()
        page = Page(text)
        for words in ("4 uploads: 2 found, 1 refused, 1 not read", "35 corners, 1 struck, 34 left",
                      "ring 5, threshold 0.0",
                      "By the exact choice 35 corners: the same list", "Computed only: x 32.0, y 9.666667",
                      "Struck on 20",
                      "By the exact choice only: x 29.424242", "No profile: refused 12: ",
                      "it looks like a JPEG; convert ",
                      "cannot be read: Too many levels", "corner file corners/board.pgm.corners, SHA-256 "):
            self.assertIn(words, page.text)
        self.assertEqual((text.count("<svg "), text.count("<title>35 corners, 1 of them struck</title>")), (2, 1))
        self.assertEqual((text.count("<circle "), text.count("<path ")), (2 * (34 + 7), 2),
                         "each shape over a black one")
        self.assertEqual(text.count("<polygon "), 4)

    def test_a_bound_and_what_it_refused(self):
        self.put("in/board.pgm", board())
        for most, words in ((zakdomp.MOST, "search_radius 3."), (34, "search_radius 3, most 34.")):
            self.batch("--jobs", 1, "--most", most)
            text = Page(self.report(name="report.html" if most == zakdomp.MOST else "report-2.html")).text
            self.assertIn(words, text)
            self.assertEqual(f"No profile: refused 10: {MANY}" in text, most == 34)

    def test_hostile_names_stay_names(self):
        for name, content in HOSTILE.items():
            self.put("in/" + name, content)
        self.batch("--jobs", 1)
        page = Page(self.report())
        self.assertLessEqual(page.tags, TAGS)
        self.assertLessEqual(page.attributes, ATTRIBUTES)
        for name in HOSTILE:
            self.assertIn(name.replace("\u202e", "\\xe2\\x80\\xae"), page.text)
        for link in page.links:
            self.assertRegex(link, r"^(#u\d+|data:image/png;base64,[A-Za-z0-9+/=]+)$")

    def test_a_photograph_that_is_gone_or_another(self):
        for name in ("a.pgm", "b.pgm", "c.pgm"):
            self.put("in/" + name, board())
        self.batch("--jobs", 1)
        os.unlink(self.path("in/a.pgm"))
        self.put("in/b.pgm", noise(50, 1))
        text = self.report()
        self.assertEqual(text.count("The photograph is no longer where the batch saw it, or is another."), 2)
        images = re.findall(r"base64,([^\"]+)", text)
        self.assertEqual((len(images), images[0] == images[1], images[0] == images[2]), (3, True, False))

    def test_many_corners_and_large_photographs(self):
        self.put("in/a.pgm", noise(700, 3))
        self.put("in/none.pgm", b"P5 0 9 255\n")
        self.batch("--jobs", 1, "--least-neighbours", 0, "--merge-radius", 0)
        text = self.report()
        count = len(zakdomp.find_corners_pgm(noise(700, 3), least_neighbours=0, merge_radius=0))
        self.assertTrue(f"The 2000 strongest of {count} corners are drawn." in text)
        self.assertEqual(text.count("<circle "), 4000)
        png = base64.b64decode(re.search(r"base64,([^\"]+)", text)[1])
        self.assertEqual(struct.unpack(">II", png[16:24]), (350, 350))

    def test_a_smaller_drawing_has_its_marks_in_their_places(self):
        """A bright pixel stays under its mark."""
        corner = zakdomp.Corner(1501.0, 604.0, 5.0, 3)
        pixels = bytearray(2000 * 1000)
        pixels[604 * 2000 + 1501] = 255
        photo = zakdomp.read_pgm(pgm(pixels, 2000, 1000))
        less = marks.smaller(marks.marked(photo, [corner], {}, [False]), 700)
        self.assertEqual((less.photo.width, less.photo.height), (667, 333))
        place = less.photo.pixels.tobytes().index(255)
        self.assertEqual((less.marks[0].x, less.marks[0].y), (place % 667, place // 667))

    def test_a_corner_file_that_is_gone(self):
        for name in ("a.pgm", "b.pgm"):
            self.put("in/" + name, board())
        self.batch("--jobs", 1)
        os.unlink(self.path("out/corners/a.pgm.corners"))
        text = self.report()
        self.assertEqual((text.count("<circle "), text.count("The corner file is no longer as the batch made it")),
                         (70, 1))

    def test_crosses_are_seen_among_hundreds(self):
        """They are as large as diamonds, and over all other marks."""
        photo = zakdomp.read_pgm(board())
        corners = [zakdomp.Corner(float(x), 9.0, 5.0, 3) for x in range(40)]
        plain = marks.marked(photo, corners, {}, [False] * 40)
        drawn = marks.crossed(plain, {corners[7]})
        self.assertEqual([(mark.shape, mark.corner) for mark in drawn.marks[-1:]], [("cross", corners[7])])
        self.assertEqual([mark.shape for mark in drawn.marks[:-1]], 39 * ["circle"])
        self.assertGreater(drawn.marks[-1].radius, plain.marks[0].radius)

    def test_runs(self):
        self.fill(2)
        self.fails(2, "there is no ledger", "report", self.path("in"))
        self.batch("--jobs", 1)
        self.batch("--jobs", 1, "--threshold", 300)
        self.assertIn("threshold 300.0", self.report(name="report-2.html"))
        self.assertIn("threshold 0.0", self.report("--run", 1))
        self.fails(2, "has no run 3: it has runs 1, 2", "report", self.path("out"), "--run", 3)


# a page within a page, which measures it: the report itself has no script
FRAME = b"""<!DOCTYPE html><body><iframe id="f" src="report.html" width="320" height="800"></iframe>
<script>onload = () => document.body.append("wide " + f.contentDocument.documentElement.scrollWidth)</script>"""


@unittest.skipUnless(shutil.which("chromium"), "no chromium on this machine")
class Browser(Reported):
    """What Chromium shows of a page with hostile names: no script of theirs runs, and the page is no wider than a
    telephone."""

    def chromium(self, page, *options):
        command = ["chromium", "--headless", "--no-sandbox", "--disable-gpu", "--hide-scrollbars",
                   "--allow-file-access-from-files", f"--user-data-dir={self.path('profile')}", *options,
                   "file://" + self.path("out/" + page)]
        return subprocess.run(command, capture_output=True, timeout=120, check=True).stdout.decode("utf-8")

    def setUp(self):
        super().setUp()
        for name, content in {**HOSTILE, "m" * 255: board()}.items():
            self.put("in/" + name, content)
        self.batch("--jobs", 1)
        self.report()

    def test_it_is_shown(self):
        shown = Page(self.chromium("report.html", "--dump-dom"))
        self.assertEqual((shown.tags - TAGS, shown.attributes - ATTRIBUTES), (set(), set()))
        self.chromium("report.html", "--window-size=500,900", f"--screenshot={self.path('shot.png')}")
        self.assertGreater(len(zlib.compress(self.content("shot.png"))), 5_000, "it is not empty")

    def test_it_is_no_wider_than_a_telephone(self):
        self.put("out/frame.html", FRAME)
        self.assertEqual(re.findall(r"wide (\d+)", self.chromium("frame.html", "--dump-dom")), ["320"])


if __name__ == "__main__":
    unittest.main()
