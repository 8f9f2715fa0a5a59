"""`zakdomp retained`: whether an item is held, and which uploads of a ledger may be deleted (request 13)."""
import argparse
import datetime
import re
import time
from typing import Any

import zakdomp
from zakdomp_command import files, names
from zakdomp_command.ledger import Ledger

EXAMPLE = "example: zakdomp retained photograph 2026-08-18 --at 2026-11-16T00:00:00"
KINDS = {"file": 1, "photograph": 2, "token": 3}
WORDS = {"N": "not yet", "H": "held", "G": "gone"}
DESCRIPTION = """Prints N not yet, H held or G gone. A corner file is held always, a photograph for 90 days from the
day of its receipt, a token for 604,800 seconds. A time is a date, 2026-11-15 or 2026-11-15T18:30:00, in UTC where it
does not say, or seconds since 1970, @1794787200. With the folder of a ledger instead, the one argument, it prints the
names of the uploads that are gone by that rule, from the day on which a batch saw them first; it deletes nothing."""
DATE = re.compile(r"\d{4}-\d\d-\d\d([T ]\d\d:\d\d(:\d\d(\.\d{1,6})?)?(Z|[+-]\d\d:\d\d)?)?", re.ASCII)
SECONDS = re.compile(r"@\d{1,20}", re.ASCII)


def add(commands: Any) -> None:
    parser = commands.add_parser("retained", help="whether an item is held, or may be deleted", epilog=EXAMPLE,
                                 description=DESCRIPTION)
    parser.add_argument("kind", metavar="KIND|DIR", nargs="?",
                        help="file (a corner file), photograph or token; or else the folder of a ledger")
    parser.add_argument("start", metavar="START", nargs="?", type=_seconds, help="when it was received, or issued")
    parser.add_argument("--at", metavar="TIME", type=_seconds, help="the time asked about (default: now)")
    parser.add_argument("--stream", metavar="FILE",
                        help="prints instead what the program retained does for a stream of items; - is standard input")
    parser.set_defaults(run=run)


def run(options: argparse.Namespace) -> int:
    if options.stream is not None and options.kind is None and options.at is None:
        return _stream(options.stream)
    at = int(time.time()) if options.at is None else options.at
    if options.stream is None and options.start is None and options.kind is not None and options.kind not in KINDS:
        files.say("".join(f"{names.cell(name)}\n" for name in deletable(Ledger(options.kind), at)))
        return 0
    if options.stream is not None or options.start is None:
        raise ValueError("retained needs KIND and START, or the folder of a ledger, or else --stream FILE alone")
    if options.kind not in KINDS:
        raise ValueError(f"'{options.kind}' is no kind: {', '.join(KINDS)} are")
    letter = zakdomp.holding(KINDS[options.kind], options.start, at)
    files.say(f"{letter} {WORDS[letter]}\n")
    return 0


def deletable(ledger: Ledger, at: int) -> list[str]:
    """The names of which every upload is gone at a time: of two with one name the older does not take the newer
    along."""
    states: dict[str, set[str]] = {}
    for name, seen in ledger.uploads():
        states.setdefault(name, set()).add(zakdomp.holding(KINDS["photograph"], seen, at))
    return [name for name, found in states.items() if found == {"G"}]


def _stream(name: str) -> int:
    """The answers for a stream of items; a refusal, which ends them, is said a second time in words."""
    text = zakdomp.holdings(files.read(name))
    files.say(text)
    last = text.splitlines()[-1:] or [""]
    if last[0].startswith("refused "):
        raise zakdomp.Refusal(int(last[0].split()[1]))
    return 0


def _seconds(text: str) -> int:
    """A time as whole seconds since 1970. What can be read in two ways, as digits alone can, is none: an answer may
    delete a photograph."""
    if SECONDS.fullmatch(text):
        return int(text[1:])
    if text.isdecimal():
        raise argparse.ArgumentTypeError(f"'{text}' can be seconds or a date: write @{text} or a date as 2026-11-15")
    try:
        if not DATE.fullmatch(text):
            raise ValueError
        moment = datetime.datetime.fromisoformat(text)
    except ValueError as problem:
        raise argparse.ArgumentTypeError(f"'{text}' is no date as 2026-11-15 or 2026-11-15T18:30:00, and no seconds as "
                                         "@1794787200") from problem
    aware = moment if moment.tzinfo else moment.replace(tzinfo=datetime.timezone.utc)
    seconds = int(aware.timestamp() // 1)
    if seconds < 0:
        raise argparse.ArgumentTypeError(f"'{text}' is before 1970")
    return seconds
