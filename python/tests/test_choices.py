"""How the two choices of peaks compare, by `zakdomp find` and `zakdomp batch`: python3 -m unittest test_choices"""
import functools
import json
import os
import signal
import unittest
import xml.etree.ElementTree
from unittest import mock

import zakdomp
from test_batch import Batch, tree
from test_command import Command, board, decoded, noise, pgm
from test_exact import WIDE, tipped
from zakdomp_command import choices, cluster, formats, marks, uploads

BARE = "--window 1 --least-neighbours 0 --centroid-radius 0 --merge-radius 0".split()
TIPPED = pgm(tipped(), WIDE, WIDE)  # with BARE it has a corner by the exact choice, and none that is computed
OTHER = noise(48, 114, (0, 1))  # each choice has a corner that the other one lacks
ORDER = noise(48, 4, (0, 1))  # the same corners in another order: one merges with a peak that only the exact choice has
FOLDER = {"board.pgm": board(), "order.pgm": ORDER, "other.pgm": OTHER, "x.jpg": b"no photograph"}
REMARK = "2 photographs with another list by the exact choice\n"
SPACE = "{http://www.w3.org/2000/svg}"


def short_of_places():
    """The exact choice of a library that has no place for a corner."""
    return mock.patch.object(zakdomp, "find_exact_pgm", functools.partial(zakdomp.find_exact_pgm, most=0))


def both(upload, **named):
    return zakdomp.find_pgm(upload, **named), zakdomp.find_exact_pgm(upload, **named)


class Comparing(unittest.TestCase):
    one, other, third = (zakdomp.Corner(x, 2.0, 3.0, 4) for x in (0.0, 1.0, 2.0))

    def compared(self, computed, exact):
        return choices.compared(zakdomp.Frame(computed, 0), zakdomp.Frame(exact, 9))

    def test_the_same_list(self):
        self.assertEqual(self.compared([], []), (0, 0, True, [], []))
        self.assertEqual(self.compared([self.one, self.other], [self.one, self.other]), (2, 2, True, [], []))

    def test_corners_of_one_list(self):
        self.assertEqual(self.compared([self.one], [self.one, self.other]), (1, 2, False, [], [self.other]))
        self.assertEqual(self.compared([self.one, self.third], [self.third, self.other]),
                         (2, 2, False, [self.one], [self.other]))

    def test_another_order(self):
        found = self.compared([self.one, self.other], [self.other, self.one])
        self.assertEqual(found, (2, 2, False, [], []))
        self.assertEqual(choices.sentences(found),
                         ["computed 2 corners, exact choice 2 corners: the same corners in another order"])

    def test_a_corner_that_stands_twice(self):
        self.assertEqual(self.compared([self.one, self.one], [self.one]), (2, 1, False, [self.one], []))

    def test_every_field_bit_for_bit(self):
        next_to = 1 + 2 ** -22
        for name, value in (("x", -0.0), ("y", 2 * next_to), ("strength", 3 * next_to), ("neighbours", 5)):
            changed = self.one._replace(**{name: value})
            self.assertEqual(self.compared([self.one], [changed]), (1, 1, False, [self.one], [changed]), name)

    def test_a_refusal_of_one(self):
        frame, refusal = zakdomp.Frame([self.one], 0), zakdomp.Refusal(10)
        words = "refused 10 (there are more corners than places for them)"
        self.assertEqual(choices.compared(frame, refusal), (1, words, None, [], []))
        self.assertEqual(choices.compared(refusal, frame), (words, 1, None, [], []))
        said = choices.sentences(choices.compared(refusal, frame))
        self.assertEqual(said, [f"computed {words}, exact choice 1 corner: not compared"])


class Finding(Command):
    def said(self, upload, *options):
        """The lines on standard error of both ways to list: they are the same."""
        photo = self.put("a.pgm", upload)
        runs = [self.run_command("find", photo, *options, *more) for more in ((), ("--exact",))]
        self.assertEqual([run[0] for run in runs], [0, 0])
        self.assertEqual(runs[0][2], runs[1][2])
        lines = runs[0][2].splitlines()
        self.assertTrue(all(line.startswith(f"zakdomp: {photo}: ") for line in lines))
        return [line.removeprefix(f"zakdomp: {photo}: ") for line in lines]

    def test_what_is_said(self):
        self.assertEqual(self.said(board()), ["computed 35 corners, exact choice 35 corners: the same list"])
        self.assertEqual(self.said(TIPPED, *BARE),
                         ["computed 0 corners, exact choice 1 corner: not the same list",
                          "exact choice only: x 6.0, y 6.0, strength 5.5999985, neighbours 4"])
        self.assertEqual(self.said(OTHER),
                         ["computed 8 corners, exact choice 8 corners: not the same list",
                          "computed only: x 32.0, y 9.666667, strength 1.4000001, neighbours 2",
                          "exact choice only: x 29.424242, y 8.424242, strength 2.3999996, neighbours 3"])
        self.assertEqual(self.said(ORDER),
                         ["computed 13 corners, exact choice 13 corners: the same corners in another order"])

    def test_a_name_takes_one_line(self):
        photo = self.put("two\nlines.pgm", OTHER)
        self.assertEqual(self.run_command("find", photo)[2].count("\n"), 3)

    def test_the_lists(self):
        for upload, named in ((board(), {}), (OTHER, {}), (ORDER, {"levels": 2}), (OTHER, {"threshold": 1.0})):
            options = [word for name, value in named.items() for word in ("--" + name, value)]
            for frame, more in zip(both(upload, **named), ((), ("--exact",))):
                for kind in formats.SUFFIXES:
                    output = self.done("find", "-", "--format", kind, *options, *more, given=upload)
                    self.assertEqual(formats.read(output).corners, frame.corners)
                self.assertEqual(json.loads(output)["ties"], frame.ties)
                listing = self.done("find", "-", *options, *more, given=upload)
                self.assertEqual(listing.decode(), zakdomp.listing(frame.corners))

    def test_json_says_it(self):
        names = ("choice", "computed_corners", "exact_corners", "same_list", "computed_only", "exact_only")
        only = [{"x": 6.0, "y": 6.0, "strength": 5.5999985, "neighbours": 4}]
        for upload, options, due in ((TIPPED, BARE, ("computed", 0, 1, False, [], only)),
                                     (TIPPED, [*BARE, "--exact"], ("exact", 0, 1, False, [], only)),
                                     (board(), [], ("computed", 35, 35, True, [], []))):
            said = json.loads(self.done("find", "-", "--format", "json", *options, given=upload))
            self.assertEqual(tuple(said[name] for name in names), due)

    def test_the_exact_choice_refused(self):
        """Its refusal is said; the computed list is there all the same, and the exact one is not."""
        words = "refused 10 (there are more corners than places for them)"
        with short_of_places():
            status, output, said = self.run_command("find", "-", "--format", "json", given=board())
            self.fails(1, "refused 10: there are more", "find", "-", "--exact", given=board())
        self.assertEqual((status, said), (0, f"zakdomp: -: computed 35 corners, exact choice {words}: not compared\n"))
        found = json.loads(output)
        self.assertEqual((found["exact_corners"], found["same_list"], len(found["corners"])), (words, None, 35))

    def test_refusals_of_both(self):
        for options in ((), ("--exact",)):
            self.fails(1, "refused 12: ", "find", "-", *options, given=b"P6")
            self.fails(1, "refused 3: ", "find", "-", "--ring", 6, *options, given=board())


class Diamonds(Command):
    def drawn(self, upload, *options):
        self.done("find", "-", "--png", self.path("a.png"), "--svg", self.path("a.svg"), *options, given=upload)
        return decoded(self.content("a.png")), xml.etree.ElementTree.fromstring(self.content("a.svg"))

    def test_corners_of_one_list(self):
        (_, _, _, palette, rows), picture = self.drawn(OTHER)
        shown = {palette[3 * cell:3 * cell + 3] for row in rows for cell in row}
        self.assertLessEqual({bytes(colour) for colour in marks.ALONE.values()}, shown)
        shapes = [shape for shape in picture.iter(SPACE + "g") if shape.find(SPACE + "polygon") is not None]
        self.assertEqual([shape.findtext(SPACE + "title") for shape in shapes],
                         ["x 32.0, y 9.666667, strength 1.4000001, neighbours 2, tied, computed only",
                          "x 29.424242, y 8.424242, strength 2.3999996, neighbours 3, by the exact choice only"])
        self.assertEqual(picture.findtext(SPACE + "title"), "9 corners, 0 of them tie (squares), "
                         "1 computed only (white diamonds), 1 by the exact choice only (green diamonds)")
        self.assertEqual(self.drawn(OTHER, "--exact")[0][4], rows, "both lists have one picture")

    def test_a_diamond_lies_about_its_corner(self):
        (width, _, _, palette, rows), _ = self.drawn(TIPPED, *BARE)
        green, middle = palette.index(bytes(marks.ALONE["exact"])) // 3, width / WIDE * 6.5
        painted = [(x, y) for y, row in enumerate(rows) for x, cell in enumerate(row) if cell == green]
        distances = {round(abs(x + 0.5 - middle) + abs(y + 0.5 - middle)) for x, y in painted}
        radius = width / WIDE * 1.5 * marks.SMALLEST
        self.assertTrue(distances and all(abs(distance - radius) < 0.2 * radius for distance in distances))

    def test_none_where_the_lists_are_the_same(self):
        for upload in (board(), ORDER):
            (_, _, _, palette, _), picture = self.drawn(upload)
            self.assertEqual(list(picture.iter(SPACE + "polygon")), [])
            self.assertNotIn("diamonds", picture.findtext(SPACE + "title"))
            self.assertNotIn(bytes(marks.ALONE["exact"]), [palette[place:place + 3] for place in range(0, 768, 3)])


class Invoices(Batch):
    def fill_with(self, files):
        for name, content in files.items():
            self.put("in/" + name, content)

    def compared(self, out="out"):
        """What the lines of the invoice say of the exact choice."""
        names = ("corners", "exact_corners", "same_list", "computed_only", "exact_only")
        return {line["name"]: tuple(line[name] for name in names) for line in self.lines(out)}

    def test_every_line_says_it(self):
        self.fill_with(FOLDER)
        status, _, said = self.run_command("batch", self.path("in"), "--out", self.path("out"), "--jobs", 1)
        self.assertEqual((status, said), (0, f"zakdomp: {self.path('out/invoice.csv')}: {REMARK}"))
        self.assertEqual(self.compared(), {
            "board.pgm": ("35", "35", "yes", "", ""), "order.pgm": ("13", "13", "no", "", ""),
            "other.pgm": ("8", "8", "no", "32.0 9.666667 1.4000001 2", "29.424242 8.424242 2.3999996 3"),
            "x.jpg": ("", "", "", "", "")})
        corners = zakdomp.listing(zakdomp.find_corners_pgm(OTHER)).encode()
        self.assertEqual(self.content("out/corners/other.pgm.corners"), corners)

    def test_several_corners_in_a_cell(self):
        upload = noise(48, 1, (0, 1))
        self.put('in/a, "b"\n.pgm', upload)
        self.batch("--jobs", 1, "--merge-radius", 0)
        computed, exact = both(upload, merge_radius=0)
        only = [corner for corner in exact.corners if corner not in computed.corners]
        self.assertGreater(len(only), 1)
        said = self.compared()['a, "b"\\x0a.pgm'][-1].split("; ")
        self.assertEqual(choices.corners_of("; ".join(said)), only)

    def test_the_exact_choice_refused(self):
        self.fill_with(FOLDER)
        with short_of_places():
            status, _, said = self.run_command("batch", self.path("in"), "--out", self.path("out"), "--jobs", 1)
        remark = "3 photographs refused by the exact choice"
        self.assertEqual((status, said), (0, f"zakdomp: {self.path('out/invoice.csv')}: {remark}\n"))
        words = "refused 10 (there are more corners than places for them)"
        self.assertEqual(self.compared()["other.pgm"], ("8", words, "unknown", "", ""))

    def test_jobs_give_the_same_bytes(self):
        self.fill_with(FOLDER)
        for kind in formats.SUFFIXES:
            self.batch("--jobs", 1, "--format", kind, out="one" + kind)
            self.batch("--jobs", 2, "--format", kind, out="two" + kind)
            self.assertEqual(tree(self.path("one" + kind)), tree(self.path("two" + kind)))


class Resuming(Batch):
    def setUp(self):
        super().setUp()
        self.fill(3)
        self.put("in/order.pgm", ORDER)
        self.put("in/other.pgm", OTHER)
        self.batch("--jobs", 1, out="whole")

    def halted(self):
        """A run that stops at its last upload, when all others are in the ledger."""
        real = uploads.read

        def stops(order, name):
            if name == "other.pgm":
                raise KeyboardInterrupt
            return real(order, name)

        with mock.patch.object(uploads, "read", stops):
            self.assertEqual(self.run_command("batch", self.path("in"), "--out", self.path("out"), "--jobs", 1)[0], 130)

    def read(self):
        """The uploads that the next run computes; it ends with the bytes of a run that was not stopped."""
        with mock.patch.object(uploads, "find", wraps=uploads.find) as finding:
            self.batch("--jobs", 1)
        self.assertEqual(tree(self.path("out")), tree(self.path("whole")))
        return [call.args[1] for call in finding.call_args_list]

    def test_a_stopped_run_goes_on(self):
        self.halted()
        self.assertEqual(self.read(), ["other.pgm"])

    def test_a_killed_run_goes_on(self):
        """By a signal that leaves it no time, with later uploads held."""
        run = self.started("--jobs", "2", last="order.pgm")
        self.waited(lambda: self.corners() >= 4)
        run.send_signal(signal.SIGKILL)
        run.wait()
        self.assertFalse(os.path.exists(self.path("out/invoice.csv")))
        self.read()


class Workers(unittest.TestCase):
    def test_a_worker_of_before_the_exact_choice(self):
        """Each side compares what an outcome says, so that no column is empty for lack of an answer."""
        order, upload = uploads.Order("", "listing", zakdomp.Params()._asdict()), uploads.Upload(OTHER, len(OTHER), 2)
        for version in (zakdomp.__version__, uploads.VERSION.replace(" exact_corners", "")):
            with self.assertRaisesRegex(ValueError, "a worker has zakdomp "):
                cluster._find(version, order, "a", upload)
        outcome = cluster._find(uploads.VERSION, order, "a", upload)
        self.assertEqual((outcome.corners, outcome.exact_corners, outcome.same_list), (8, 8, "no"))


if __name__ == "__main__":
    unittest.main()
