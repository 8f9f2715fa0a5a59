"""The parameters of the finder as options, with the library's names and defaults."""
import argparse
from collections.abc import Callable
from typing import Any

import zakdomp
from zakdomp_command import formats

# a photograph of one pixel
DOT = b"P5 1 1 255\n\0"
HELP = {
    "ring": "5 or 10, the radius of the ring of samples",
    "threshold": "no corner has a response at or below it",
    "window": "0 to 16, no cell this near to a corner has a larger response",
    "least_neighbours": "at least so many cells of the window have a response above 0",
    "centroid_radius": "0 to 16, a corner is the centre of mass of the cells this near",
    "merge_radius": "corners this near are merged, 1/64 to 4096; 0 merges none",
    "levels": "1 searches the photograph itself, more search half-size levels first",
    "minimum_side": "no level has a side below it",
    "search_radius": "0 to 255, how far around a seed to search, in pixels of its level",
    "most": "more seeds than so many, or more corners before merging, are refused: it bounds the time of a hostile "
            "photograph",
}


def add(parser: argparse.ArgumentParser, bounded: bool = True) -> None:
    """Gives a parser an option for each parameter, and for the bound on seeds and corners where they are found."""
    group = parser.add_argument_group("parameters of the finder")
    bounds = {"most": zakdomp.MOST} if bounded else {}
    for name, default in {**zakdomp.Params._field_defaults, **bounds}.items():
        words = HELP.get(name, "a parameter of the library")
        group.add_argument("--" + name.replace("_", "-"), type=_kind(default), default=default, metavar="N",
                           help=f"{words} (default {default})")


def of(options: argparse.Namespace) -> dict[str, Any]:
    """The parameters that the options say, by the names of the library. `most` is left out where it is the default: a
    run of a ledger from before there was the option goes on so, and its corner files and invoice keep their bytes."""
    said = {name: getattr(options, name) for name in zakdomp.Params._fields}
    most = getattr(options, "most", zakdomp.MOST)
    return said if most == zakdomp.MOST else {**said, "most": most}


def tried(parameters: dict[str, Any]) -> dict[str, Any]:
    """The parameters, if the library takes them: else they would be refused with every photograph."""
    try:
        zakdomp.find_pgm(DOT, **parameters)
    except zakdomp.Refusal as refusal:
        words = zakdomp.REFUSALS.get(refusal.number, "refused")
        raise ValueError(f"the parameters are refused {refusal.number}: {words}") from refusal
    return parameters


def _kind(default: float) -> Callable[[str], float]:
    if isinstance(default, int):
        return int
    return single


def single(text: str) -> float:
    """A number as it is used, in single precision. What that does not hold is no number of an option."""
    try:
        value = float(text)
        used = formats.shortest(formats.single(value))
    except ValueError as problem:
        raise argparse.ArgumentTypeError(f"'{text}' is no number") from problem
    except OverflowError as problem:
        raise argparse.ArgumentTypeError(f"'{text}' is too large: 3.4028234e38 is the largest number") from problem
    if value and not used:
        raise argparse.ArgumentTypeError(f"'{text}' is too small: give 0, or 1e-45 or more")
    return used
