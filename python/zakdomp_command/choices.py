"""The two choices of peaks, by computed responses and by exact ones: what they find in a photograph, how their lists
compare, and how that is said to people, in an invoice and in JSON."""
import struct
from collections import Counter
from typing import Any, NamedTuple

import zakdomp
from zakdomp_command import formats
from zakdomp_command.names import several

Answer = zakdomp.Frame | zakdomp.Refusal


class Comparison(NamedTuple):
    """How many corners each choice has, or words that it is refused; whether the lists are the same, in one order and
    each field bit for bit, None where one is refused; and the corners that stand in one list only, in its order."""
    computed: int | str
    exact: int | str
    same: bool | None
    computed_only: list[zakdomp.Corner]
    exact_only: list[zakdomp.Corner]


class Found(NamedTuple):
    """A photograph, whether the list is that of the exact choice, what that choice found, and how both compare."""
    photo: zakdomp.Photograph
    exact: bool
    frame: zakdomp.Frame
    comparison: Comparison


def find(upload: bytes, parameters: dict[str, Any], exact: bool = False) -> Found:
    """What both choices find in an upload. A refusal of the one that is listed is raised. The other may be refused all
    the same, where it has more corners than there are places."""
    frame = _search(exact, upload, parameters)
    other: Answer
    try:
        other = _search(not exact, upload, parameters)
    except zakdomp.Refusal as refusal:
        other = refusal
    comparison = compared(other, frame) if exact else compared(frame, other)
    return Found(zakdomp.read_pgm(upload), exact, frame, comparison)


def compared(computed: Answer, exact: Answer) -> Comparison:
    """How the answers of the two choices compare."""
    counts = _count(computed), _count(exact)
    if isinstance(computed, zakdomp.Refusal) or isinstance(exact, zakdomp.Refusal):
        return Comparison(*counts, None, [], [])
    if [*map(_bits, computed.corners)] == [*map(_bits, exact.corners)]:
        return Comparison(*counts, True, [], [])
    return Comparison(*counts, False, _only(computed.corners, exact.corners), _only(exact.corners, computed.corners))


def written(kind: str, found: Found, parameters: dict[str, Any]) -> str:
    """The corner file of the list that was asked for. JSON says how both choices compare."""
    photo, frame, comparison = found.photo, found.frame, found.comparison
    beside = {
        **formats.about(photo.width, photo.height, frame.ties, parameters),
        "choice": "exact" if found.exact else "computed",
        "computed_corners": comparison.computed,
        "exact_corners": comparison.exact,
        "same_list": comparison.same,
        "computed_only": [formats.plain(corner) for corner in comparison.computed_only],
        "exact_only": [formats.plain(corner) for corner in comparison.exact_only],
    }
    return formats.written(kind, frame.corners, beside)


def sentences(comparison: Comparison) -> list[str]:
    """What is said to people: how many corners each choice has, whether both have one list, and what one alone has."""
    counts = f"computed {_said(comparison.computed)}, exact choice {_said(comparison.exact)}"
    computed_only = [f"computed only: {formats.words(corner)}" for corner in comparison.computed_only]
    exact_only = [f"exact choice only: {formats.words(corner)}" for corner in comparison.exact_only]
    return [f"{counts}: {_verdict(comparison)}", *computed_only, *exact_only]


def cells(comparison: Comparison) -> dict[str, int | str]:
    """What the invoice says, by its columns."""
    return {
        "exact_corners": comparison.exact,
        "same_list": {True: "yes", False: "no", None: "unknown"}[comparison.same],
        "computed_only": _cell(comparison.computed_only),
        "exact_only": _cell(comparison.exact_only),
    }


def corners_of(cell: str) -> list[zakdomp.Corner]:
    """The corners of a cell of the invoice."""
    return [formats.corner_of(corner.split(" ")) for corner in cell.split("; ") if corner]


def _search(exact: bool, upload: bytes, parameters: dict[str, Any]) -> zakdomp.Frame:
    return zakdomp.find_exact_pgm(upload, **parameters) if exact else zakdomp.find_pgm(upload, **parameters)


def _bits(corner: zakdomp.Corner) -> bytes:
    return struct.pack("<3fI", *corner)


def _only(corners: list[zakdomp.Corner], others: list[zakdomp.Corner]) -> list[zakdomp.Corner]:
    """The corners that others lack. One that is found about two seeds stands in a list twice, and counts so."""
    left, only = Counter(map(_bits, others)), []
    for corner in corners:
        left[_bits(corner)] -= 1
        if left[_bits(corner)] < 0:
            only.append(corner)
    return only


def _count(answer: Answer) -> int | str:
    if isinstance(answer, zakdomp.Frame):
        return len(answer.corners)
    return f"refused {answer.number} ({zakdomp.REFUSALS.get(answer.number, 'refused')})"


def _said(count: int | str) -> str:
    return count if isinstance(count, str) else several(count, "corner")


def _verdict(comparison: Comparison) -> str:
    """A merge can give the same corners in another order, where a peak that one choice alone has was merged away."""
    if comparison.same is None:
        return "not compared"
    other = comparison.computed_only or comparison.exact_only
    return "the same list" if comparison.same else "not the same list" if other else "the same corners in another order"


def _cell(corners: list[zakdomp.Corner]) -> str:
    """Corners as a cell of the invoice: the four numbers of each."""
    return "; ".join(" ".join(str(value) for value in formats.plain(corner).values()) for corner in corners)
