"""`zakdomp merge`: what a merge would leave of a corner file, for one radius or several (requests 6 and 12)."""
import argparse
import csv
import io
import json
from typing import Any

import zakdomp
from zakdomp_command import files, formats
from zakdomp_command.parameters import single

EXAMPLE = "example: zakdomp merge board.corners --radius 1,3,10"
DESCRIPTION = """Prints the corners that a merge would leave; the file stays as it is. Several radii give their lists
one after the other: a line 'radius R' before each listing, a first column in CSV, a list in JSON."""


def add(commands: Any) -> None:
    parser = commands.add_parser("merge", help="what merging would leave of a corner file", epilog=EXAMPLE,
                                 description=DESCRIPTION)
    parser.add_argument("file", metavar="FILE", help="a corner file in any format; - is standard input")
    parser.add_argument("--radius", metavar="R1,R2,..", required=True, type=_radii, help="1/64 to 4096; 0 merges none")
    parser.add_argument("--naive", action="store_true", help="compares each corner with those kept, without cells")
    parser.add_argument("--format", choices=formats.SUFFIXES, help="of the lists (default: that of the file)")
    parser.set_defaults(run=run)


def run(options: argparse.Namespace) -> int:
    name = "merge_naive" if options.naive else "merged"
    merge = getattr(zakdomp, name, None)
    if merge is None:
        raise ValueError(f"this version of the library has no {name}")
    given = formats.read(files.read(options.file))
    lists = [(radius, list(merge(given.corners, radius))) for radius in options.radius]
    kind = options.format or given.kind
    files.say(formats.written(kind, lists[0][1], given.beside) if len(lists) == 1 else _several(kind, lists))
    return 0


def _several(kind: str, lists: list[tuple[float, list[zakdomp.Corner]]]) -> str:
    """The lists of several radii as one text."""
    if kind == "listing":
        return "".join(f"radius {radius:.9g}\n{zakdomp.listing(corners)}" for radius, corners in lists)
    if kind == "json":
        said = [{"radius": radius, "corners": [formats.plain(corner) for corner in corners]}
                for radius, corners in lists]
        return json.dumps(said, indent=1) + "\n"
    output = io.StringIO()
    writer = csv.writer(output, lineterminator="\n")
    writer.writerow(("radius", *formats.FIELDS))
    for radius, corners in lists:
        writer.writerows((f"{radius:.9g}", *formats.plain(corner).values()) for corner in corners)
    return output.getvalue()


def _radii(text: str) -> list[float]:
    try:
        return [single(word) for word in text.split(",")]
    except argparse.ArgumentTypeError as problem:
        raise argparse.ArgumentTypeError(f"'{text}' is no number, and no numbers with commas between them: {problem}")
