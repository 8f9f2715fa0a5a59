"""`zakdomp batch`: a folder of uploads, each to its corner file, its place in the ledger and its line of the
invoice."""
import argparse
import errno
import hashlib
import os
import re
import time
from collections.abc import Iterator
from typing import Any

import zakdomp
from zakdomp_command import corner_files, files, formats, invoice, parameters, uploads
from zakdomp_command.ledger import FIRST, Ledger, Line, Run, held
from zakdomp_command.names import several
from zakdomp_command.progress import Bar
from zakdomp_command.runners import Runner, alone, processes
from zakdomp_command.uploads import Order, Outcome

EXAMPLE = "example: zakdomp batch uploads --out november --threshold 300 --jobs 2"
DESCRIPTION = """Writes DIR/corners with a corner file for each photograph of a folder, and DIR/invoice.csv with a line
for each upload, whatever it is: name, sides, corners and ties, or the number and words of its refusal; how many
corners the exact choice has, whether both have the same list, and the corners that are in only one list; what was
struck; and digests, parameters and version. DIR/ledger.sqlite keeps all of it for good: a batch that was killed
continues where it stopped, and the same upload under the same parameters is not computed again. Other parameters,
another format or version are another run, with its own folder and invoice, DIR/corners-2 and DIR/invoice-2.csv.
Subfolders are not searched."""
PAUSE = 0.2
FEW = 16


def add(commands: Any) -> None:
    parser = commands.add_parser("batch", help="a folder of photographs, and its invoice", epilog=EXAMPLE,
                                 description=DESCRIPTION)
    parser.add_argument("folder", metavar="FOLDER", help="where the uploads are; each file in it is one")
    parser.add_argument("--out", metavar="DIR", required=True, type=_named,
                        help="where ledger, corner files and invoice are put")
    parser.add_argument("--jobs", type=_jobs, default=len(os.sched_getaffinity(0)), metavar="N",
                        help="so many processes (default: one a core)")
    parser.add_argument("--scheduler", metavar="ADDRESS", help="works on the Dask cluster of this scheduler instead")
    parser.add_argument("--format", choices=formats.SUFFIXES, default="listing", help="of the corner files")
    parameters.add(parser)
    parser.set_defaults(run=run)


def run(options: argparse.Namespace) -> int:
    folder, out, chosen = options.folder, options.out, parameters.tried(parameters.of(options))
    found, below = listed(folder), _subfolders(folder, out)
    _apart(folder, out)
    os.makedirs(out, exist_ok=True)
    ledger, order = Ledger(out), Order(os.path.realpath(folder), options.format, chosen)
    with held(out):
        files.remove_parts(out)
        asked = ledger.begin(zakdomp.__version__, chosen, options.format)
        outcomes = _work(ledger, asked, order, found, _runner(options))
        ledger.end(asked)
        place = invoice.export(ledger, asked)
    lines = ledger.lines(asked)
    files.say(f"{invoice.counted(outcomes)}; ".encode("ascii") + os.fsencode(place) + b"\n")
    _earlier(place, len(lines) - len(outcomes))
    _tipped(place, lines)
    _others(ledger, asked, lines)
    if below:
        files.tell(f"{several(below, 'subfolder')} not looked into", folder)
    return 0


def listed(folder: str) -> list[str]:
    """The names of a folder's files, in the order of their bytes."""
    return sorted((entry.name for entry in os.scandir(folder) if not _is_folder(entry)), key=os.fsencode)


def _subfolders(folder: str, out: str) -> int:
    """How many folders a folder has, but for the one that is written."""
    made = os.path.realpath(out)
    return sum(_is_folder(entry) and os.path.realpath(entry.path) != made for entry in os.scandir(folder))


def _is_folder(entry: "os.DirEntry[str]") -> bool:
    """Whether an entry is a folder, or a link to one. What cannot be looked at is an upload, and has its line."""
    try:
        return entry.is_dir()
    except OSError:
        return False


def _apart(folder: str, out: str) -> None:
    """Checks that what is written is no upload of the next batch, and replaces no invoice without a ledger that has
    it."""
    given, made = os.path.realpath(folder), os.path.realpath(out)
    inside = os.path.relpath(given, made).split(os.sep)[0]
    if re.fullmatch(r"\.|corners(-[0-9]+)?", inside):
        raise OSError(errno.EINVAL, "the uploads' own folder cannot take the corner files", out)
    older, path = os.path.join(out, FIRST), Ledger(out).path
    if os.path.lexists(older) and not (os.path.exists(path) and os.path.getsize(path)):
        raise OSError(errno.EEXIST, "this invoice is of no ledger: move it away, or give another --out", older)


def _runner(options: argparse.Namespace) -> Runner:
    if options.scheduler is not None:
        from zakdomp_command.cluster import cluster
        return cluster(options.scheduler)
    return alone if options.jobs == 1 else processes(options.jobs)


def _work(ledger: Ledger, asked: Run, order: Order, found: list[str], runner: Runner) -> list[Outcome]:
    """Takes what the run has already of the uploads, and does what is left; answers with all outcomes. Each corner file
    is on the disk before the ledger names it; a few outcomes at a time are noted."""
    corners = os.path.join(ledger.folder, asked.corners)
    corner_files.begin(corners)
    before = [line.outcome for line in ledger.lines(asked) if line.outcome.settled]
    owners = {outcome.file: outcome.sha256 for outcome in before}
    known = {outcome.name: outcome for outcome in _known(corners, order, found, before)}
    left = [name for name in found if name not in known]
    done: list[Outcome] = []
    noted = 0
    bar, last = Bar(len(found), len(known)), time.monotonic()
    try:
        done += [corner_files.settle(corners, order.kind, outcome, owners) for outcome in known.values()]
        for outcome in runner(order, left):
            done.append(corner_files.settle(corners, order.kind, outcome, owners))
            bar.step()
            if len(done) - noted >= FEW or time.monotonic() - last > PAUSE:
                last = time.monotonic()
                ledger.add(asked, order.folder, done[noted:])
                noted = len(done)
    finally:
        bar.end()
        ledger.add(asked, order.folder, done[noted:])
    return done


def _known(corners: str, order: Order, found: list[str], before: list[Outcome]) -> Iterator[Outcome]:
    """The outcomes of uploads that the run has; of those that it has under another name, with the text of the corner
    file. An upload is known by its bytes, so that each that may be is read."""
    had = {(outcome.size, outcome.sha256): outcome for outcome in before}
    own = {(outcome.name, outcome.size, outcome.sha256): outcome for outcome in before}
    sizes = {size for size, _ in had}
    for name in found:
        try:
            if os.stat(os.path.join(order.folder, name)).st_size not in sizes:
                continue
            upload = uploads.read(order, name)
        except OSError:
            continue
        key = (upload.size, hashlib.sha256(upload.content).hexdigest())
        for same in (own.get((name, *key)), had.get(key)):
            text = corner_files.text(corners, same) if same else None
            if same and (text is not None or same.number is not None):
                yield same._replace(put=upload.put) if same.name == name else same._replace(
                    name=name, put=upload.put, text=text, file="", file_sha256="")
                break


def _earlier(place: str, count: int) -> None:
    """Says how many lines of the invoice are of uploads that earlier batches saw and this one did not."""
    if count:
        files.tell(f"{several(count, 'line')} more, of earlier batches: the total has all of them", place)


def _tipped(place: str, lines: list[Line]) -> None:
    """Says of how many photographs the two choices have not the same list, or one of them none."""
    words = {"no": "with another list by the exact choice", "unknown": "refused by the exact choice"}
    for answer, said in words.items():
        count = sum(line.outcome.same_list == answer for line in lines)
        if count:
            files.tell(f"{several(count, 'photograph')} {said}", place)


def _others(ledger: Ledger, asked: Run, lines: list[Line]) -> None:
    """Says how many files among the corner files have no line; and how many corner files are no longer as they were, of
    uploads that are not there to find them again."""
    corners = os.path.join(ledger.folder, asked.corners)
    own = {corner_files.BY_DIGEST, *(line.outcome.file for line in lines)}
    other = sum(entry.name not in own for entry in os.scandir(corners))
    if other:
        files.tell(f"{several(other, 'file')} not of this run", corners)
    lost = sum(bool(line.outcome.file) and corner_files.text(corners, line.outcome) is None for line in lines)
    if lost:
        files.tell(f"{several(lost, 'corner file')} changed or deleted, without an upload to find it again", corners)


def _named(text: str) -> str:
    if not text:
        raise argparse.ArgumentTypeError("no folder is named")
    return text


def _jobs(text: str) -> int:
    if not text.isdecimal() or int(text) < 1:
        raise argparse.ArgumentTypeError(f"'{text}' is no whole number from 1")
    return int(text)
