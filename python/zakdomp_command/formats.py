"""Corner files: a list of corners as the listing of the program `corners`, as CSV or as JSON, written and read back."""
import csv
import io
import json
import math
import struct
from typing import Any, NamedTuple

import zakdomp

SUFFIXES = {"listing": ".corners", "csv": ".csv", "json": ".json"}
FIELDS: tuple[str, ...] = zakdomp.Corner._fields
WHOLE = [kind in (int, "int") for kind in zakdomp.Corner.__annotations__.values()]


class CornerFile(NamedTuple):
    """A list of corners, the format it was read from, and what a JSON file says beside the corners."""
    kind: str
    corners: list[zakdomp.Corner]
    beside: dict[str, Any]


def shortest(value: float) -> float:
    """The number with the fewest decimal digits that is the same float of single precision."""
    texts = (f"{value:.{digits}g}" for digits in range(6, 10))
    return next((float(text) for text in texts if single(float(text)) == value), value)


def written(kind: str, corners: list[zakdomp.Corner], beside: dict[str, Any]) -> str:
    """The text of a corner file. `beside` is said in JSON alone."""
    if kind == "listing":
        return str(zakdomp.listing(corners))
    return _csv(corners) if kind == "csv" else _json(corners, beside)


def about(width: int, height: int, ties: int, parameters: dict[str, Any]) -> dict[str, Any]:
    """What a JSON file says beside the corners."""
    return {"width": width, "height": height, "ties": ties, "parameters": said(parameters)}


def said(parameters: dict[str, Any]) -> dict[str, Any]:
    """Parameters for JSON, which has no number for NaN and the infinities, so they are words."""
    return {name: value if math.isfinite(value) else str(value) for name, value in parameters.items()}


def read(content: bytes) -> CornerFile:
    """A corner file of any of the three formats. Raises ValueError where it is none."""
    try:
        text = content.decode("utf-8")
        if text.startswith("corners "):
            return CornerFile("listing", _read_listing(text), {})
        return _read_json(text) if text.lstrip().startswith("{") else CornerFile("csv", _read_csv(text), {})
    except KeyError as problem:
        raise ValueError(f"no corner file: a corner has no {problem}") from problem
    except (ValueError, TypeError, OverflowError, RecursionError, struct.error, csv.Error) as problem:
        raise ValueError(f"no corner file: {problem}") from problem


def plain(corner: zakdomp.Corner) -> dict[str, float]:
    """The fields of a corner by name, floats in their shortest form."""
    return {name: value if isinstance(value, int) else shortest(value) for name, value in zip(FIELDS, corner)}


def words(corner: zakdomp.Corner) -> str:
    """A corner for people."""
    return ", ".join(f"{name} {value}" for name, value in plain(corner).items())


def single(value: float) -> float:
    """A number as single precision holds it. Raises OverflowError where it is too large."""
    return float(struct.unpack("<f", struct.pack("<f", value))[0])


def _csv(corners: list[zakdomp.Corner]) -> str:
    output = io.StringIO()
    writer = csv.writer(output, lineterminator="\n")
    writer.writerow(FIELDS)
    writer.writerows(plain(corner).values() for corner in corners)
    return output.getvalue()


def _json(corners: list[zakdomp.Corner], beside: dict[str, Any]) -> str:
    """One corner a line, so that two files can be compared by lines."""
    lines = [json.dumps(plain(corner)) for corner in corners]
    head = json.dumps({**beside, "corners": []})
    return head[:-2] + "".join(f"{',' if place else ''}\n{line}" for place, line in enumerate(lines)) + "\n]}\n"


def corner_of(values: list[Any]) -> zakdomp.Corner:
    """A corner of the values of its fields, as numbers of the library's types."""
    if len(values) != len(FIELDS):
        raise ValueError(f"a corner has {len(FIELDS)} fields, not {len(values)}")
    numbers: Any = (_whole(value) if whole else single(float(value)) for value, whole in zip(values, WHOLE))
    return zakdomp.Corner(*numbers)


def _whole(value: Any) -> int:
    """A whole number of 32 bits, from a number or from its digits."""
    if not str(value).isdecimal() or int(value) >= 1 << 32:
        raise ValueError(f"{value} is no whole number below 2^32")
    return int(value)


def _read_listing(text: str) -> list[zakdomp.Corner]:
    """The bits of a line's floats, followed by its whole numbers; the 256ths before them say nothing that the bits do
    not."""
    first, *lines = text.splitlines()
    if first != f"corners {len(lines)}":
        raise ValueError(f"the listing says '{first}' and has {len(lines)} lines")
    return [_listed(line.split(" ")[2:]) for line in lines]


def _listed(words: list[str]) -> zakdomp.Corner:
    if len(words) != len(FIELDS):
        raise ValueError(f"a corner has {len(FIELDS)} fields, not {len(words)}")
    values = (word if whole else struct.unpack(">f", bytes.fromhex(word))[0] for word, whole in zip(words, WHOLE))
    return corner_of([*values])


def _read_csv(text: str) -> list[zakdomp.Corner]:
    rows = csv.reader(io.StringIO(text))
    if tuple(next(rows, ())) != FIELDS:
        raise ValueError(f"no listing, no JSON, and no CSV that begins with '{','.join(FIELDS)}'")
    return [corner_of(row) for row in rows]


def _read_json(text: str) -> CornerFile:
    beside = json.loads(text)
    items = beside.pop("corners", None)
    if not isinstance(items, list):
        raise ValueError("the JSON has no list 'corners'")
    return CornerFile("json", [corner_of([item[name] for name in FIELDS]) for item in items], beside)
