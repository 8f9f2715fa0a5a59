"""`zakdomp stream`: the frame stream of a small photograph (request 11)."""
import argparse
import sys
from typing import Any

import zakdomp
from zakdomp_command import files, looks, parameters, uploads

EXAMPLE = "example: zakdomp stream small.pgm --threshold 300 | corners"
DESCRIPTION = "Writes the frame stream of a photograph of at most 96 by 96 pixels and of the parameters."


def add(commands: Any) -> None:
    parser = commands.add_parser("stream", help="the frame stream of a photograph, which the program corners reads",
                                 epilog=EXAMPLE, description=DESCRIPTION)
    parser.add_argument("photo", metavar="PHOTO",
                        help="a binary PGM file (P5) with a maxval of 255; - is standard input")
    parser.add_argument("--out", metavar="FILE", help="where it is put, and not on standard output")
    parameters.add(parser, bounded=False)
    parser.set_defaults(run=run)


def run(options: argparse.Namespace) -> int:
    if not options.out and sys.stdout and sys.stdout.isatty():
        raise ValueError("a stream is no text for a terminal: give --out FILE, or a pipe")
    files.apart(options.photo, options.out)
    photo = _photograph(files.read(options.photo, uploads.LONGEST))
    stream = zakdomp.write_stream(photo.pixels, photo.width, photo.height, **parameters.of(options))
    if options.out:
        files.place(options.out, stream)
    else:
        files.say(stream)
    return 0


def _photograph(upload: bytes) -> zakdomp.Photograph:
    """An upload as a photograph. What is none is told with words for it; of one that is too large the number's words
    are enough."""
    try:
        return zakdomp.read_pgm(upload)
    except zakdomp.Refusal as refusal:
        if refusal.number == 1:
            raise
        raise looks.Worded(refusal.number, upload) from refusal
