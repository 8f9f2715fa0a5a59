"""`zakdomp invoice`: a run of the ledger as a table, with a line for each upload and one for the total."""
import argparse
import csv
import datetime
import io
import json
import os
from typing import Any

from zakdomp_command import files, names
from zakdomp_command.ledger import Ledger, Line, Run
from zakdomp_command.uploads import Outcome

EXAMPLE = "example: zakdomp invoice november --run 1"
DESCRIPTION = """Writes the invoice of a run of DIR's ledger again: DIR/invoice.csv of run 1, DIR/invoice-2.csv of run
2. The same ledger gives the same bytes. Each set of parameters, format and version is a run."""
COLUMNS = ("name", "width", "height", "corners", "ties", "number", "words", "exact_corners", "same_list",
           "computed_only", "exact_only", "struck", "corners_left", "size", "sha256", "corner_file",
           "corner_file_sha256", "date", "run", "version", "parameters")


def add(commands: Any) -> None:
    parser = commands.add_parser("invoice", help="the invoice of a run, once more", epilog=EXAMPLE,
                                 description=DESCRIPTION)
    add_run(parser)
    parser.set_defaults(run=run)


def add_run(parser: argparse.ArgumentParser) -> None:
    """Gives a parser what names a run of a ledger."""
    parser.add_argument("folder", metavar="DIR", help="where a batch has its ledger")
    parser.add_argument("--run", metavar="N", dest="number", type=int, help="which run (default: the last)")


def run(options: argparse.Namespace) -> int:
    ledger = Ledger(options.folder)
    wanted = whole(ledger.run(options.number))
    files.say(os.fsencode(export(ledger, wanted)) + b"\n")
    return 0


def whole(wanted: Run) -> Run:
    """A run that came to its end; of another some uploads would have no line."""
    if not wanted.whole:
        raise ValueError(f"run {wanted.run} is not whole: start its batch again to go on")
    return wanted


def export(ledger: Ledger, wanted: Run) -> str:
    """Writes the invoice of a run, and answers where. No strike comes between asking and writing."""
    place = os.path.join(ledger.folder, wanted.invoice)
    with ledger.alone():
        struck = {upload: len(strikes) for upload, strikes in ledger.strikes(wanted).items()}
        files.place(place, written(wanted, ledger.lines(wanted), struck))
    return place


def written(wanted: Run, lines: list[Line], struck: dict[int, int]) -> bytes:
    """The table. Every line says what was asked; that of the total has no name, as no upload has."""
    output = io.StringIO()
    writer = csv.DictWriter(output, COLUMNS, lineterminator="\n", quoting=csv.QUOTE_NONNUMERIC)
    writer.writeheader()
    asked = {"run": wanted.run, "version": wanted.version, "parameters": parameters(wanted)}
    for line in lines:
        writer.writerow({**_cells(wanted, line, struck.get(line.upload, 0)), **asked})
    writer.writerow({**_total(lines, sum(struck.values())), **asked})
    return output.getvalue().encode("utf-8")


def parameters(wanted: Run) -> str:
    """The parameters of a run in words."""
    return ", ".join(f"{name} {value}" for name, value in json.loads(wanted.parameters).items())


def day(at: int) -> str:
    return datetime.datetime.fromtimestamp(at, datetime.timezone.utc).date().isoformat()


def counted(outcomes: list[Outcome]) -> str:
    """How many uploads were found, refused and not read."""
    found = sum(outcome.corners is not None for outcome in outcomes)
    refused = sum(outcome.number is not None for outcome in outcomes)
    unread = len(outcomes) - found - refused
    return f"{names.several(len(outcomes), 'upload')}: {found} found, {refused} refused, {unread} not read"


def _cells(wanted: Run, line: Line, struck: int) -> dict[str, Any]:
    outcome = line.outcome
    cells = {column: getattr(outcome, column) for column in (*COLUMNS[1:11], "size", "sha256")}
    file = names.cell(f"{wanted.corners}/{outcome.file}") if outcome.file else ""
    left = {} if outcome.corners is None else {"struck": struck, "corners_left": outcome.corners - struck}
    return {"name": names.cell(outcome.name), **cells, **left, "corner_file": file,
            "corner_file_sha256": outcome.file_sha256, "date": day(line.at)}


def _total(lines: list[Line], struck: int) -> dict[str, Any]:
    corners = sum(line.outcome.corners or 0 for line in lines)
    words = f"total of {counted([line.outcome for line in lines])}"
    return {"name": "", "corners": corners, "words": words, "struck": struck, "corners_left": corners - struck}
