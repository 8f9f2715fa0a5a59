"""The command line: its subcommands, and what is said where one ends without an answer."""
import argparse
import os
import sys

import zakdomp
from zakdomp_command import batch, files, find, invoice, looks, merge, report, retained, stream, strike

REFUSED, FAILED, INTERRUPTED = 1, 2, 130
SUBCOMMANDS = (find, batch, invoice, report, strike, retained, merge, stream)
STATUS = """Exit status: 0 done, 1 refused (number and words on standard error), 2 usage, a file that cannot be read or
written, no scheduler, or not enough memory."""


def main(arguments: list[str] | None = None) -> int:
    """Runs a subcommand, and returns the exit status."""
    options = _parser().parse_args(arguments)
    try:
        status: int = options.run(options)
        return status
    except zakdomp.Refusal as refusal:
        return _said(options, f"refused {refusal.number}: {_words(refusal)}", REFUSED)
    except KeyboardInterrupt:
        return _said(options, "stopped", INTERRUPTED)
    except BrokenPipeError:
        os.dup2(os.open(os.devnull, os.O_WRONLY), sys.stdout.fileno())
        return FAILED
    except OSError as problem:
        return _said(options, str(problem.strerror or problem), FAILED, problem.filename)
    except ValueError as problem:
        return _said(options, str(problem), FAILED)
    except MemoryError:  # a large --most can ask for more than there is
        return _said(options, "not enough memory", FAILED)


def _words(refusal: zakdomp.Refusal) -> str:
    """What a refusal says: the words of its upload, or of its number."""
    if isinstance(refusal, looks.Worded):
        return refusal.words
    return str(zakdomp.REFUSALS.get(refusal.number, "refused"))


def _parser() -> argparse.ArgumentParser:
    parser = argparse.ArgumentParser(prog="zakdomp", epilog=STATUS,
                                     description="The corners of chessboards in photographs, by a proved library.")
    parser.add_argument("--version", action="version", version=f"zakdomp {zakdomp.__version__}")
    commands = parser.add_subparsers(metavar="COMMAND", required=True)
    for subcommand in SUBCOMMANDS:
        subcommand.add(commands)
    return parser


def _input(options: argparse.Namespace) -> str | None:
    """The name of the file that the subcommand reads."""
    names = (getattr(options, name, None) for name in ("photo", "folder", "file"))
    return next((name for name in names if name is not None), None)


def _said(options: argparse.Namespace, problem: str, status: int, name: str | None = None) -> int:
    """Says a problem with a file, that which is read if no other is named, in one line."""
    files.tell(problem, name or _input(options))
    return status
