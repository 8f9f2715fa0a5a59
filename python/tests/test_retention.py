"""What may be deleted, against a second implementation: python3 -m unittest test_retention"""
import random
import unittest

import zakdomp

LATE = 1 << 40
DAY = 86_400
WEEK = 604_800


def letter(kind, start, time):
    """The letter of an item, by the days or seconds in which it is held."""
    if time < start:
        return "N"
    if kind == 1:
        return "H"
    if kind == 2:
        return "H" if time // DAY in range(start // DAY, start // DAY + 90) else "G"
    return "H" if time in range(start, start + WEEK) else "G"


def fault(kind, body):
    """The number of a record's fault, 0 for none."""
    if kind not in (1, 2, 3):
        return 6
    if len(body) < 8:
        return 7
    return 20 if int.from_bytes(body, "little") > LATE else 0


def printed(stream):
    """What `retained` prints."""
    time = int.from_bytes(stream[:8], "little")
    if len(stream) < 8:
        return "refused 7\n"
    if time > LATE:
        return "refused 20\n"
    text = []
    for at in range(8, min(len(stream), 8 + 9 * 65_536), 9):
        kind, body = stream[at], stream[at + 1:at + 9]
        number = fault(kind, body)
        if number:
            return "".join(text) + f"refused {number}\n"
        text.append(letter(kind, int.from_bytes(body, "little"), time) + "\n")
    return "".join(text)


def record(kind, start):
    return bytes([kind]) + start.to_bytes(8, "little")


class Streams:
    """Random streams about the ends of what is held."""

    def __init__(self, seed):
        self.random = random.Random(seed)

    def second(self):
        r = self.random
        return r.choice((r.randrange(LATE + 1), r.randrange(200 * DAY), r.randrange(120) * DAY, LATE - r.randrange(3)))

    def start(self, time):
        r = self.random
        back = r.choice((0, WEEK, 89 * DAY, 90 * DAY, 91 * DAY, time % DAY, 90 * DAY + time % DAY,
                         r.randrange(100 * DAY)))
        return max(0, min(LATE, time - back + r.choice((-1, 0, 1))))

    def sound(self):
        time = self.second()
        items = [record(self.random.randint(1, 3), self.start(time)) for _ in range(self.random.randrange(24))]
        return time.to_bytes(8, "little") + b"".join(items)

    def damaged(self):
        r = self.random
        stream = bytearray(self.sound())
        for _ in range(r.randint(1, 3)):
            damage = r.randrange(4)
            at = r.randrange(len(stream)) if stream else 0
            if damage == 0:
                del stream[at:]
            elif damage == 1 and stream:
                stream[at] = r.randrange(256)
            elif damage == 2 and stream:
                del stream[at]
            else:
                stream[at:at] = r.randbytes(r.randint(1, 9))
        return bytes(stream)


class Retention(unittest.TestCase):
    def refused(self, number, *arguments):
        with self.assertRaises(zakdomp.Refusal) as caught:
            zakdomp.holding(*arguments)
        self.assertEqual(caught.exception.number, number)
        return str(caught.exception)

    def test_each_kind_at_its_ends(self):
        now = 90 * DAY
        for kind, start, time, told in (
                (1, 0, LATE, "H"), (1, now + 1, now, "N"), (2, 0, now - 1, "H"), (2, DAY - 1, now, "G"),
                (2, DAY, now, "H"),
                (2, now + 1, now, "N"), (3, now - WEEK + 1, now, "H"), (3, now - WEEK, now, "G"), (3, LATE, LATE, "H")):
            self.assertEqual(zakdomp.holding(kind, start, time), told)

    def test_refusals(self):
        for kind in (0, 4, 255):
            self.refused(6, kind, LATE + 1, LATE + 1)
        self.assertEqual(self.refused(20, 1, LATE + 1, 0), "a start or a time is above 2^40 (number 20)")
        self.refused(20, 3, 0, (1 << 64) - 1)
        for arguments in ((256, 0, 0), (1, -1, 0), (1, 0, 1 << 64)):
            with self.assertRaises(ValueError):
                zakdomp.holding(*arguments)

    def test_items_against_the_second_implementation(self):
        streams = Streams(13)
        for _ in range(20_000):
            kind, time = streams.random.randint(1, 3), streams.second()
            start = streams.start(time)
            self.assertEqual(zakdomp.holding(kind, start, time), letter(kind, start, time), (kind, start, time))

    def test_streams_against_the_second_implementation(self):
        streams = Streams(14)
        seen = set()
        for _ in range(3_000):
            for stream in (streams.sound(), streams.damaged()):
                text = printed(stream)
                self.assertEqual(zakdomp.holdings(stream), text, stream.hex())
                seen.update(text.split("\n"))
        self.assertEqual(seen, {"", "N", "H", "G", "refused 6", "refused 7", "refused 20"})

    def test_no_more_than_65536_records(self):
        most = bytes(8) + 65_536 * record(1, 0)
        for stream in (most, most + b"\x09", most + record(2, 0), most[:-1], most[:-9] + record(1, LATE + 1)):
            self.assertEqual(zakdomp.holdings(stream), printed(stream))
        self.assertEqual(len(zakdomp.holdings(most)), 2 * 65_536)


if __name__ == "__main__":
    unittest.main()
