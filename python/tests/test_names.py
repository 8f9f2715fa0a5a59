"""Names on an invoice, and words for what is no photograph: python3 -m unittest test_names"""
import os
import random
import time
import unittest

import zakdomp
from test_command import MANY, Command, board
from zakdomp_command import looks, names

HOSTILE = ("=1+1", "+1", "-1", "@SUM(A1)", "\t=1", "\r=1", "\n", " =1", "＝1", "a\u0085b", "a\u2028b", "a\u2029b",
           "a\u202eb", "\ufeffa", "a\u200bb", "\\x3d", "\\", "\\\\x41", " ", "  ", " a ", "a,b", 'a"b', "a;b",
           "<script>", "ünï", "写真",
           os.fsdecode(b"latin-\xe9"), os.fsdecode(b"\xff\xfe="), os.fsdecode(b"\xed\xa0\x80"), "\x7f", "\x1b[2J")


class Names(unittest.TestCase):
    def whole(self, name):
        """A cell is valid UTF-8, one line, no formula, and gives the name back."""
        cell = names.cell(name)
        cell.encode("utf-8")
        self.assertTrue(cell.isprintable() and len(cell.splitlines()) == 1, cell)
        self.assertNotIn(cell[0], "=+-@＝＋－＠ ")
        self.assertNotEqual(cell[-1], " ")
        self.assertEqual(names.name_of(cell), name)
        self.assertEqual(names.name_of(names.line(name)), name)

    def test_hostile_names(self):
        for name in HOSTILE:
            self.whole(name)
        self.assertEqual(names.cell("=1"), "\\x3d1")
        self.assertEqual(names.cell(" "), "\\x20")
        self.assertEqual(names.cell("two\nlines-ü"), "two\\x0alines-ü")
        self.assertEqual(names.cell("a\u202eb"), "a\\xe2\\x80\\xaeb")

    def test_any_bytes(self):
        chosen = random.Random(7)
        pieces = [bytes([byte]) for byte in range(1, 256) if byte != 47]
        pieces += 40 * [b"\\", b"x41", b"=", b" ", "ü".encode()]
        for _ in range(3000):
            self.whole(os.fsdecode(b"".join(chosen.choices(pieces, k=chosen.randint(1, 9)))))

    def test_what_is_no_cell(self):
        for text in ("\\x41", "a\nb", "\\x4", "\\q"):
            with self.assertRaises(ValueError):
                names.name_of(text)
        self.assertEqual(names.name_of("\\\\x4"), "\\x4")


class Words(Command):
    def test_what_an_upload_looks_like(self):
        photo = board()
        for upload, words in (
                (b"", "it is empty"), (b"\xff\xd8\xff\xe0abc", "it looks like a JPEG; convert PHOTO "),
                (b"\x89PNG\r\n\x1a\n", "a PNG; convert "), (b"P2\n1 1\n255\n7\n", "a plain PGM (P2); convert "),
                (b"P6 1 1 255\nabc", "a colour PPM (P6); convert "), (b"II*\0", "a TIFF"),
                (b"RIFFabcdWEBPVP8 ", "a WebP"), (b"\0\0\0\x18ftypheic", "a HEIC"),
                (photo[:-1], "it is cut short: its header says 160 x 120"),
                (b"P5 2 2 65535\nabc", "says 2 x 2 of 16 bits"), (b"P5 2", "no width, height and maxval follow"),
                (b"PK\x03\x04", "a ZIP archive"), (b"<html>", "HTML"), (b"hello", "no photograph at all"),
                (b"\0\0\0", "nothing but zeros"), (b"P5 #a\n2 #b\r 2 255 a", "says 2 x 2,")):
            with self.subTest(words), self.assertRaises(zakdomp.Refusal) as refused:
                zakdomp.read_pgm(upload)
            self.assertEqual(refused.exception.number, 12)
            said = looks.words(12, upload)
            self.assertTrue(said.startswith("the photograph is no whole binary PGM: ") and words in said, said)
            for command in ("find", "stream"):
                self.fails(1, words, command, "-", given=upload)

    def test_long_comments(self):
        """The words name the sides after comments, and take no longer for comments without an end."""
        for comment, words in ((b"#" + bytes(99_999) + b"\n", "says 2 x 2,"), (9_999 * b"#a\r", "says 2 x 2,"),
                               (400_000 * b"a#\n", "no width"),
                               ((1 << 21) * b"#", "no width, height and maxval follow in its first megabyte"),
                               ((1 << 21) * b" ", "no width, height and maxval follow in its first megabyte")):
            began = time.monotonic()
            self.assertIn(words, looks.words(12, b"P5 " + comment + b"2 2 255 a"))
            self.assertLess(time.monotonic() - began, 20)

    def test_other_refusals(self):
        self.fails(1, "its maxval is 65535, 16 bits a pixel; convert PHOTO ", "find", "-", given=b"P5 1 1 65535\nab")
        self.fails(1, "its maxval is 15; convert PHOTO ", "find", "-", given=b"P5 1 1 15\na")
        self.fails(1, "-resize 4096x4096 ", "find", "-", given=b"P5 4097 1 255\n")
        status, _, said = self.run_command("stream", "-", given=b"P5 4097 1 255\n")
        self.assertEqual((status, "-resize" in said), (1, False), said)
        self.assertEqual(looks.words(10, b""), f"{MANY}a higher --threshold leaves fewer")
        self.assertEqual(looks.words(5, b""), zakdomp.REFUSALS[5])


if __name__ == "__main__":
    unittest.main()
