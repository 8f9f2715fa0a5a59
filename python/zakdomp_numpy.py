"""The finder for numpy: an image as a two-dimensional array, and corners as a structured array.

    corners = zakdomp_numpy.find_corners(image, threshold=300)
    corners["x"], corners["strength"].max()

`image` is anything that numpy makes a two-dimensional array of bytes from, rows first, in any layout. The parameters
are the fields of `zakdomp.Params`, and what the library refuses is raised as `zakdomp.Refusal`. What this module gives
goes into the functions of `zakdomp`: corners as a list, maps as cells."""
from collections.abc import Callable
from typing import Any, NamedTuple

import numpy
import numpy.typing

import zakdomp

CORNER = numpy.dtype([(name, "<u4" if kind is int else "<f4") for name, kind in zakdomp.Corner.__annotations__.items()])


class Frame(NamedTuple):
    """The corners of an image as an array of `CORNER`, and its ties."""
    corners: numpy.typing.NDArray[Any]
    ties: int


def find(image: numpy.typing.ArrayLike, **named: Any) -> Frame:
    """The corners of an image, and how many ties its peaks have."""
    return _frame(zakdomp.find, image, named)


def find_corners(image: numpy.typing.ArrayLike, **named: Any) -> numpy.typing.NDArray[Any]:
    """The corners alone."""
    return find(image, **named).corners


def find_exact(image: numpy.typing.ArrayLike, **named: Any) -> Frame:
    """The same by the exact choice, as `zakdomp.find_exact`."""
    return _frame(zakdomp.find_exact, image, named)


def find_exact_corners(image: numpy.typing.ArrayLike, **named: Any) -> numpy.typing.NDArray[Any]:
    """The corners of the exact choice alone."""
    return find_exact(image, **named).corners


def response(image: numpy.typing.ArrayLike, **named: Any) -> numpy.typing.NDArray[numpy.float32]:
    """The response map of an image, or of a box of it, rows first."""
    pixels = _pixels(image)
    height, width = pixels.shape
    box = zakdomp.response(pixels.tobytes(), width, height, **named)
    return numpy.array(box.cells, numpy.float32).reshape(box.height, box.width)


def _frame(search: Callable[..., zakdomp.Frame], image: numpy.typing.ArrayLike, named: dict[str, Any]) -> Frame:
    pixels = _pixels(image)
    height, width = pixels.shape
    frame = search(pixels.tobytes(), width, height, **named)
    return Frame(numpy.array([tuple(corner) for corner in frame.corners], CORNER), frame.ties)


def _pixels(image: numpy.typing.ArrayLike) -> numpy.typing.NDArray[numpy.uint8]:
    pixels = numpy.asarray(image)
    if pixels.ndim != 2 or pixels.dtype != numpy.uint8:
        raise TypeError(f"not a grey image: {pixels.ndim} dimensions of {pixels.dtype}, and not 2 of uint8")
    return pixels
