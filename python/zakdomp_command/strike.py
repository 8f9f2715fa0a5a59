"""`zakdomp strike`: a corner of a list of the ledger, shown and then struck (request 10). The corner file stays as it
is; what was struck stands in the ledger, with its place and change number, and on the invoice."""
import argparse
import errno
import hashlib
import os
import shlex
from typing import Any, NamedTuple

import zakdomp
from zakdomp_command import files, formats, invoice
from zakdomp_command.ledger import NAME, Ledger, Line, Run, Strike, now
from zakdomp_command.names import several

FILE = "november/corners/board.pgm.corners"
EXAMPLE = f"example: zakdomp strike {FILE} 7, and then, if that is the one: zakdomp strike {FILE} 7 --confirm 0"
DESCRIPTION = """Shows the corner at a place of a list that a batch found, and the list's change number. With that
number it strikes the corner; each strike raises the number, so that no other corner than the one shown is struck.
Without a place it prints the corners that are left. The corner file itself stays as it is; the invoice has both
counts."""


class Kept(NamedTuple):
    """A list of the ledger: whose it is, its corner file, and the list as it stands after what was struck from it."""
    ledger: Ledger
    run: Run
    line: Line
    given: formats.CornerFile
    edited: zakdomp.EditedList


def add(commands: Any) -> None:
    parser = commands.add_parser("strike", help="shows a corner of a list, and strikes it", epilog=EXAMPLE,
                                 description=DESCRIPTION)
    parser.add_argument("file", metavar="FILE", help="a corner file that a batch made, where it made it")
    parser.add_argument("place", metavar="PLACE", type=int, nargs="?", help="the corner's place in the list, from 0")
    parser.add_argument("--confirm", metavar="CHANGE", type=int,
                        help="strikes the corner, if this is still the change number")
    parser.set_defaults(run=run)


def run(options: argparse.Namespace) -> int:
    kept = _kept(options.file)
    if options.place is None:
        if options.confirm is not None:
            raise ValueError("--confirm needs the place of a corner")
        files.say(formats.written(kept.given.kind, kept.edited.corners, kept.given.beside))
    elif options.confirm is None:
        _show(options.file, options.place, kept.edited.show(options.place))
    else:
        _strike(options, kept)
    return 0


def _show(name: str, place: int, shown: zakdomp.Shown) -> None:
    command = f"zakdomp strike {shlex.quote(name)} {place} --confirm {shown.change}"
    files.say(f"corner {place}: {_said(shown.corner)}\nchange {shown.change}: {command} strikes it\n")


def _strike(options: argparse.Namespace, kept: Kept) -> None:
    """Strikes a corner, in the ledger and then on the invoice, if the run has one."""
    edited = kept.edited
    before = edited.corners
    edited.strike(options.place, options.confirm)
    corner = before[options.place]
    kept.ledger.strike(kept.run, kept.line, Strike(options.confirm, options.place, corner, now()))
    if kept.ledger.run(kept.run.run).whole:
        invoice.export(kept.ledger, kept.run)
    left = f"change {edited.change}, {several(len(edited), 'corner')} left"
    files.say(f"struck corner {options.place}: {_said(corner)}; {left}\n")


def _said(corner: zakdomp.Corner) -> str:
    return ", ".join(f"{name} {value:g}" if isinstance(value, float) else f"{name} {value}"
                     for name, value in formats.plain(corner).items())


def _kept(name: str) -> Kept:
    """The list whose corner file is named, if a ledger has it, and the file is as it was made."""
    content = files.read(os.path.realpath(name) if name != "-" else name)
    given, digest = formats.read(content), hashlib.sha256(content).hexdigest()
    ledger, inside = _ledger(name)
    for run in ledger.runs():
        for line in ledger.lines(run):
            if line.outcome.file and os.path.join(run.corners, line.outcome.file) == inside:
                if line.outcome.file_sha256 != digest:
                    raise OSError(errno.EINVAL, "it was changed since the batch made it: the ledger has another", name)
                return Kept(ledger, run, line, given, _edited(ledger, run, line, given.corners))
    raise OSError(errno.ENOENT, f"{ledger.path} has no such corner file", name)


def _edited(ledger: Ledger, run: Run, line: Line, corners: list[zakdomp.Corner]) -> zakdomp.EditedList:
    """A list with all that was struck from it struck again."""
    edited = zakdomp.EditedList(corners)
    for strike in ledger.strikes(run).get(line.upload, []):
        edited.strike(strike.place, strike.change)
    return edited


def _ledger(name: str) -> tuple[Ledger, str]:
    """The ledger above a corner file, and the file's name from there."""
    path = os.path.realpath(name)
    folder = os.path.dirname(path)
    for _ in range(3):
        if os.path.exists(os.path.join(folder, NAME)):
            return Ledger(folder), os.path.relpath(path, folder)
        folder = os.path.dirname(folder)
    raise OSError(errno.ENOENT, "it is no corner file of a batch: there is no ledger above it", name)
