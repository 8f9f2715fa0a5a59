"""Corners struck from a list in two steps, against a second implementation: python3 -m unittest test_editing"""
import random
import unittest

import zakdomp

LARGEST = (1 << 32) - 1


def corners(count):
    """Corners with four fields that tell them apart."""
    return [zakdomp.Corner(float(i), i + 0.5, -float(i), 1000 + i) for i in range(1, count + 1)]


class Model:
    """The rules by a Python list: what is shown and struck, or the number of the refusal."""

    def __init__(self, kept, change):
        self.kept, self.change = list(kept), change

    def show(self, place):
        return (self.kept[place], self.change) if place < len(self.kept) else 17

    def strike(self, place, change):
        for number, condition in ((16, change != self.change), (17, place >= len(self.kept)),
                                  (18, self.change == LARGEST)):
            if condition:
                return number
        del self.kept[place]
        self.change += 1
        return None


def answer(call, *arguments):
    try:
        told = call(*arguments)
        return told if told is None else tuple(told)
    except zakdomp.Refusal as refusal:
        return refusal.number


class Editing(unittest.TestCase):
    def test_shown_and_struck(self):
        first, second, third = corners(3)
        edited = zakdomp.EditedList([first, second, third])
        self.assertEqual(edited.show(1), zakdomp.Shown(second, 0))
        self.assertEqual((edited.corners, edited.change), ([first, second, third], 0))
        edited.strike(1, 0)
        self.assertEqual((edited.corners, len(edited), edited.change), ([first, third], 2, 1))
        self.assertEqual((answer(edited.strike, 1, 0), answer(edited.strike, 2, 1)), (16, 17))
        self.assertEqual((edited.corners, edited.change), ([first, third], 1))

    def test_refusals_in_their_order(self):
        edited = zakdomp.EditedList(corners(3), change=LARGEST)
        self.assertEqual([answer(edited.strike, *call) for call in ((0, LARGEST), (9, LARGEST), (9, 5))], [18, 17, 16])
        self.assertEqual((edited.corners, edited.change, edited.show(2).change), (corners(3), LARGEST, LARGEST))
        empty = zakdomp.EditedList([])
        self.assertEqual((answer(empty.strike, 0, 1), answer(empty.strike, 0, 0), answer(empty.show, 0)), (16, 17, 17))
        with self.assertRaisesRegex(zakdomp.Refusal, r"beyond the list \(number 17\)"):
            empty.show(0)

    def test_sequences(self):
        rng = random.Random(10)
        for _ in range(300):
            start = rng.choice((0, 5, LARGEST - 3))
            model = Model(corners(rng.randrange(10)), start)
            edited = zakdomp.EditedList(model.kept, change=start)
            for _ in range(30):
                place, change = rng.randrange(11), min(LARGEST, max(0, model.change + rng.choice((0, 0, 0, -1, 1))))
                self.assertEqual(answer(edited.show, place), model.show(place))
                self.assertEqual(answer(edited.strike, place, change), model.strike(place, change))
                self.assertEqual((edited.corners, edited.change), (model.kept, model.change))

    def test_numbers_that_do_not_fit(self):
        edited = zakdomp.EditedList(corners(1))
        for call in (lambda: edited.show(-1), lambda: edited.strike(0, 1 << 32),
                     lambda: zakdomp.EditedList([], change=-1),
                     lambda: zakdomp.EditedList([zakdomp.Corner(1.0, 1.0, 1.0, -1)])):
            with self.assertRaises(ValueError):
                call()


if __name__ == "__main__":
    unittest.main()
