"""`zakdomp find`: the corners of one photograph, printed and drawn."""
import argparse
from typing import Any

import zakdomp
from zakdomp_command import choices, files, formats, looks, parameters, uploads
from zakdomp_command.marks import drawing
from zakdomp_command.png import png
from zakdomp_command.svg import svg

EXAMPLE = "example: zakdomp find board.pgm --threshold 300 --format csv --png board.png"
DESCRIPTION = """Prints the corners of a photograph, and draws them over it: circles, large and yellow for strong
corners, small and blue for weak ones; squares if the peak ties with another cell of its window. Standard error says how
many corners are computed, how many the exact choice has, which uses responses without rounding, and whether both lists
are the same; if not, which corners are in only one list. A picture has these as diamonds: green for the exact choice,
white for the computed one."""


def add(commands: Any) -> None:
    parser = commands.add_parser("find", help="the corners of a photograph", epilog=EXAMPLE, description=DESCRIPTION)
    parser.add_argument("photo", metavar="PHOTO",
                        help="a binary PGM file (P5) with a maxval of 255; - is standard input")
    parser.add_argument("--format", choices=formats.SUFFIXES, default="listing",
                        help="of the list; listing is that of the program corners")
    parser.add_argument("--exact", action="store_true", help="lists and draws the corners of the exact choice")
    parser.add_argument("--svg", metavar="FILE", help="draws the corners over the photograph, as SVG")
    parser.add_argument("--png", metavar="FILE", help="the same as PNG")
    parameters.add(parser)
    parser.set_defaults(run=run)


def run(options: argparse.Namespace) -> int:
    files.apart(options.photo, options.svg, options.png)
    upload, chosen = files.read(options.photo, uploads.LONGEST), parameters.of(options)
    try:
        found = choices.find(upload, chosen, options.exact)
    except zakdomp.Refusal as refusal:
        raise looks.Worded(refusal.number, upload) from refusal
    _draw(options, found, chosen)
    files.say(choices.written(options.format, found, chosen))
    for sentence in choices.sentences(found.comparison):
        files.tell(sentence, options.photo)
    return 0


def _draw(options: argparse.Namespace, found: choices.Found, chosen: dict[str, Any]) -> None:
    """The pictures that are asked for."""
    wanted = [(name, make) for name, make in ((options.svg, svg), (options.png, png)) if name]
    if wanted and not len(found.photo.pixels):
        raise ValueError("a photograph without a pixel cannot be drawn")
    if wanted:
        picture = drawing(found, chosen)
        for name, make in wanted:
            files.place(name, make(picture))
