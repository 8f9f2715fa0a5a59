"""bench/photographs on a few of the photographs of Debian's opencv-doc, where they are:
python3 -m unittest test_photographs"""
import importlib.machinery
import importlib.util
import os
import unittest
import warnings

from common import TOP

BENCH = os.path.join(TOP, "bench", "photographs")
PHOTOGRAPH = "/usr/share/doc/opencv-doc/examples/data/left01.jpg"


@unittest.skipUnless(importlib.util.find_spec("cv2") and importlib.util.find_spec("numpy"),
                     "no python3-opencv on this machine")
@unittest.skipUnless(os.path.exists(PHOTOGRAPH), "no photographs of opencv-doc on this machine")
class Photographs(unittest.TestCase):
    def test_three_boards(self):
        with warnings.catch_warnings():
            warnings.simplefilter("ignore")
            loader = importlib.machinery.SourceFileLoader("photographs", BENCH)
            bench = importlib.util.module_from_spec(importlib.util.spec_from_loader("photographs", loader))
            loader.exec_module(bench)
        for name in ("left01.jpg", "left05.jpg", "right09.jpg"):
            image = bench.cv2.imread(os.path.join(bench.FOLDER, name), bench.cv2.IMREAD_GRAYSCALE)
            for threshold in bench.THRESHOLDS:
                run = bench.run(image, bench.boards(image), threshold, 1)
                self.assertEqual(len(run.away), 54)
                self.assertLess(run.away.max(), 1.4)
            found = bench.choice(*bench.maps(image), 300, bench.BORDER)
            self.assertEqual(found.differ, 0)
            self.assertGreaterEqual(found.peaks, 54)


if __name__ == "__main__":
    unittest.main()
