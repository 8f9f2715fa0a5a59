"""The corners of a chessboard in a grey image, by the proved library libzakdomp.so.

    find_corners(pixels, width, height, threshold=300) ->  [Corner(x, y, strength, neighbours), ..]
    find(pixels, width, height, threshold=300)         ->  Frame(corners, ties), and so `find_pgm` of a photograph
    find_corners_pgm(upload, threshold=300)            ->  the same of a photograph, the bytes of a binary PGM file
    find_exact(pixels, width, height, threshold=300)   ->  the Frame of the exact choice; `find_exact_pgm`,
                                                           `find_exact_corners` and `find_exact_corners_pgm` are to it
                                                           as those without `exact` are to `find`
    read_pgm(upload)                                   ->  Photograph(at, width, height, pixels)
    response(pixels, width, height, ring=5)            ->  ResponseMap(width, height, cells)
    retouch(pixels, cells, width, height, x, y, value) ->  how many cells of the map were computed again
    has_peaks(cells, width, height, wanted)            ->  Enough(enough, rows): whether a map has so many peaks
    response_limits(low, high, width, height)          ->  ResponseLimits(lows, highs): each response's fifths
    sure_peak(lows, highs, width, height, x, y)        ->  whether a place is a peak of every image between the limits
    EditedList(corners)                                ->  a list to strike corners from: `show(place)`, and then
                                                           `strike(place, change)`
    merged(corners, radius)                            ->  the corners that merging would leave, to try several radii
    merge_naive(corners, radius)                       ->  the corners that are left when merged by distance alone
    write_stream(pixels, width, height, threshold=300) ->  the bytes that the program `corners` reads
    holding(kind, start, time), holdings(stream)       ->  "N" not yet, "H" held or "G" gone, for an item and for each
                                                           of a stream

`pixels` is anything with a buffer of bytes, in row order; an array of two dimensions is of height by width. Numbers
and arrays of numpy go in where Python's own do. What the library refuses is raised as `Refusal`. What is no such
buffer or no number is a TypeError, and a number that the library's type does not hold a ValueError. Calls may run in
several threads: each keeps its buffers for its next call.

The library is looked for in the file that the environment variable ZAKDOMP_LIBRARY names, beside this file, and where
`tools/shared` of the repository makes it.

    python3 zakdomp.py photo.pgm --threshold 300

prints the corners of a photograph as the program `corners` does; a refusal is a line on standard error, and the exit
status 1.
"""
import argparse
import array
import contextlib
import ctypes
import inspect
import math
import numbers
import operator
import os
import struct
import sys
import threading
from collections.abc import Callable, Iterable, Iterator, Sequence
from typing import TYPE_CHECKING, Any, NamedTuple, ParamSpec, SupportsFloat, SupportsIndex, TypeAlias, TypeVar

if TYPE_CHECKING:
    from _typeshed import ReadableBuffer as Buffer, WriteableBuffer
else:
    Buffer = WriteableBuffer = Any

__version__ = "0.2.0"

REFUSALS = {
    1: "a side is above 4096, or above 96 in a stream",
    2: "the number of pixels or of cells is not width times height",
    3: "the ring is not 5 or 10, a window, centroid or search radius is out of range, or a value too wide for a stream",
    4: "a coordinate is out of range",
    5: "the merge radius is not within 1/64 to 4096",
    6: "there is no such kind of item",
    7: "the stream is cut short",
    8: "the map buffer is too short",
    9: "the level buffer is too short",
    10: "there are more corners than places for them",
    12: "the photograph is no whole binary PGM",
    13: "the maxval of the photograph is not 255",
    14: "the place is outside the image",
    15: "a pixel's low value is above its high one",
    16: "the change number differs from the list's",
    17: "the place is beyond the list",
    18: "the list's change number is the largest there is",
    19: "the stream buffer is too short",
    20: "a start or a time is above 2^40",
}
LARGEST_SIDE = 4096
LIST_SHORT = 10
LONGEST_STREAM = 9_527
LONGEST_HOLDINGS = 131_081
MOST = 1 << 22

Whole: TypeAlias = SupportsIndex
Number: TypeAlias = SupportsFloat | SupportsIndex
Word: TypeAlias = Any  # of a foreign call: an address, a length or a number
P = ParamSpec("P")
R = TypeVar("R")


class Refusal(ValueError):
    """Why there is no answer: `number` is that of include/zakdomp.h."""

    def __init__(self, number: int) -> None:
        super().__init__(f"{REFUSALS.get(number, 'refused')} (number {number})")
        self.number = number

    def __reduce__(self) -> tuple[type["Refusal"], tuple[int]]:
        return Refusal, (self.number,)  # from another process it comes back with its number


class Corner(NamedTuple):
    """A corner, in pixels, the response at its peak, and how many other cells of the peak's window are above 0."""
    x: float
    y: float
    strength: float
    neighbours: int


class Shown(NamedTuple):
    """A corner of an edited list, and the list's change number, by which it can be struck."""
    corner: Corner
    change: int


class Frame(NamedTuple):
    """The corners of an image, and how many cells of the peaks' windows equalled the peak, over all peaks before
    merging, seeds not counted."""
    corners: list[Corner]
    ties: int


class Params(NamedTuple):
    """What is looked for: the parameters of include/zakdomp.h, in their order."""
    ring: int = 5
    threshold: float = 0.0
    window: int = 2
    least_neighbours: int = 2
    centroid_radius: int = 2
    merge_radius: float = 3.0
    levels: int = 1
    minimum_side: int = 1
    search_radius: int = 3


class Photograph(NamedTuple):
    """An uploaded photograph: where its pixels begin in the upload, its sides, and the pixels."""
    at: int
    width: int
    height: int
    pixels: memoryview


class ResponseMap(NamedTuple):
    """The responses of a box of an image, in row order."""
    width: int
    height: int
    cells: list[float]


class ResponseLimits(NamedTuple):
    """A low and a high number of fifths for each cell, in row order."""
    lows: list[int]
    highs: list[int]


class Enough(NamedTuple):
    """Whether a map has the peaks that are wanted, and how many rows inside the border were looked at."""
    enough: bool
    rows: int


# ---- the library

def _opened() -> ctypes.CDLL:
    """The shared library, or an ImportError that says where it comes from."""
    here = os.path.dirname(os.path.abspath(__file__))
    name = "libzakdomp.so"
    places = [os.path.join(here, name), os.path.join(here, "..", "target", "bindings", name)]
    path = os.environ.get("ZAKDOMP_LIBRARY") or next((place for place in places if os.path.exists(place)), name)
    try:
        return ctypes.CDLL(path)
    except OSError as problem:
        raise ImportError(f"no library ({problem}): tools/shared of the repository makes {name}, "
                          "and ZAKDOMP_LIBRARY may name it") from None


def _load() -> ctypes.CDLL:
    library = _opened()
    size, u8, u32, u64, f32 = ctypes.c_size_t, ctypes.c_uint8, ctypes.c_uint32, ctypes.c_uint64, ctypes.c_float
    piece, out, letter = [ctypes.c_void_p, size], ctypes.POINTER(size), ctypes.POINTER(u8)
    sides, image = [size, size], piece + [size, size]
    params = [u32, f32, u32, u32, u32, f32, u32, size, u32]
    found = params + 10 * piece + [out, ctypes.POINTER(u64)]
    arguments: dict[str, list[Any]] = {
        "find_corners": image + found,
        "find_exact_corners": image + found,
        "find_corners_pgm": piece + found,
        "find_exact_corners_pgm": piece + found,
        "pgm": piece + 3 * [out],
        "response": image + [u32, *sides, *sides] + piece + [out, out],
        "retouch": image + [u32] + piece + [*sides, u8, out],
        "response_limits": 2 * piece + sides + [u32] + 2 * piece,
        "sure_peak": 2 * piece + sides + 5 * [u32] + [*sides, letter],
        "has_peaks": image + params[:5] + [size, letter, out],
        "merge_by_table": 4 * piece + [size, f32] + piece + [out],
        "merge_naive": 4 * piece + [size, f32, out],
        "show_corner": 4 * piece + [size, u32, size] + 3 * [ctypes.POINTER(f32)] + 2 * [ctypes.POINTER(u32)],
        "strike_corner": 4 * piece + [out, ctypes.POINTER(u32), size, u32],
        "write_stream": image + 7 * [u32] + [size, u32] + piece + [out],
        "holding": [u8, u64, u64, letter],
        "level_bytes": [size, size, u32, size],
        "holdings": piece + [ctypes.c_void_p],
    }
    for name, types in arguments.items():
        function = getattr(library, "zakdomp_" + name)
        function.argtypes = types
        function.restype = size if name in ("level_bytes", "holdings") else u8
    return library


_library = _load()


def _call(function: Callable[..., int], *words: Word) -> None:
    """Calls a function that answers with the number of a refusal."""
    number = function(*words)
    if number:
        raise Refusal(number)


# ---- what is given: nothing reaches the library that ctypes would cut off, narrow or read as something else

def _whole(name: str, value: Whole, bits: int) -> int:
    """A whole number that the library's type holds."""
    try:
        whole = operator.index(value)
    except TypeError:
        raise TypeError(f"{name} is not a whole number: {value!r}") from None
    if not 0 <= whole < 1 << bits:
        raise ValueError(f"{name} is not within 0 to 2^{bits} - 1: {whole}")
    return whole


def _sides(width: Whole, height: Whole) -> tuple[int, int]:
    return _whole("width", width, 64), _whole("height", height, 64)


def _single(name: str, value: Number) -> float:
    """The nearest number of single precision. None is taken for one that is neither: for an infinity, or for 0."""
    if not isinstance(value, numbers.Real):
        raise TypeError(f"{name} is not a number: {value!r}")
    try:
        given = float(value)
    except OverflowError:
        given = math.inf
    single = ctypes.c_float(given).value
    if (math.isinf(single), single == 0) != (value in (math.inf, -math.inf), value == 0):
        raise ValueError(f"{name} is beyond single precision: {value}")
    return single


ITEMS = {"B": "bytes", "f": "numbers of single precision (float32)", "i": "whole numbers of 32 bits (int32)"}
CODES = {"B": "Bc", "f": "f", "i": "il"}  # as a buffer may say it


def _view(name: str, given: Any, kind: str, sides: tuple[int, int] | None) -> memoryview:
    """The memory of a buffer with items of a kind: in one row, or in as many rows and columns as the sides say."""
    try:
        view = memoryview(given)
    except (TypeError, ValueError, BufferError):
        raise TypeError(f"{name} is no buffer of {ITEMS[kind]}: {type(given).__name__}") from None
    if view.format.lstrip("@=<") not in tuple(CODES[kind]) or view.itemsize != array.array(kind).itemsize:
        raise TypeError(f"{name} has items of type {view.format!r}, and not {ITEMS[kind]}")
    if view.ndim != 1 and (sides is None or view.shape != sides[::-1]):
        found = " x ".join(map(str, view.shape or ())) or "no dimension"
        due = "one row" if sides is None else f"height x width, {sides[1]} x {sides[0]}"
        raise ValueError(f"{name} is an array of {found}, and not of {due}")
    return view


def _given(name: str, pixels: Buffer, sides: tuple[int, int] | None = None) -> tuple[bytes, list[Word]]:
    """Bytes as pointer and length; whoever holds them keeps them alive. They are copied where they could change."""
    held = pixels if isinstance(pixels, bytes) else _view(name, pixels, "B", sides).tobytes()
    return held, [ctypes.c_char_p(held), len(held)]


def _numbers(name: str, cells: Any, kind: str, sides: tuple[int, int]) -> tuple["array.array[Any]", list[int]]:
    """A map of floats ("f") or of whole numbers ("i"), a buffer or a list, as pointer and length."""
    if isinstance(cells, (list, tuple)):
        try:
            held = array.array(kind, cells)
        except TypeError as problem:
            raise TypeError(f"{name} has an item that is no number of this kind: {problem}") from None
        except OverflowError:
            raise ValueError(f"{name} has a number that is not within -2^31 to 2^31 - 1") from None
        if kind == "f" and sum(map(math.isinf, held)) != sum(map(math.isinf, cells)):
            raise ValueError(f"{name} has a number that is beyond single precision")
    else:
        held = array.array(kind, _view(name, cells, kind, sides).tobytes())
    length = len(held)
    held = held or array.array(kind, [0])  # an empty one has no address
    return held, [held.buffer_info()[0], length]


def _changed(name: str, buffer: WriteableBuffer, kind: str, sides: tuple[int, int]) -> tuple["ctypes.Array[Any]", int]:
    """A buffer of bytes ("B") or floats ("f") that the library changes in place, and its length in elements."""
    view = _view(name, buffer, kind, sides)
    if view.readonly or not view.c_contiguous:
        why = "read-only" if view.readonly else "not in one piece"
        raise TypeError(f"{name} cannot be changed in place: it is {why}")
    element: Any = ctypes.c_uint8 if kind == "B" else ctypes.c_float
    length = view.nbytes // view.itemsize
    return ((element * length).from_buffer(view) if length else (element * 1)()), length


def _apart(first: "ctypes.Array[Any]", second: "ctypes.Array[Any]") -> bool:
    """Whether two buffers have no byte in common."""
    starts = ctypes.addressof(first), ctypes.addressof(second)
    return starts[0] + ctypes.sizeof(first) <= starts[1] or starts[1] + ctypes.sizeof(second) <= starts[0]


def _fields(corner: Iterable[Any]) -> Corner:
    """A corner of single precision, of a `Corner`, of any four numbers or of a row of zakdomp_numpy's arrays."""
    try:
        x, y, strength, neighbours = corner
    except (TypeError, ValueError):
        raise TypeError(f"not a corner, which is x, y, strength and neighbours: {corner!r}") from None
    return Corner(_single("x", x), _single("y", y), _single("strength", strength), _whole("neighbours", neighbours, 32))


# ---- buffers

class _List:
    """The four slices of a list of corners."""

    def __init__(self, places: int) -> None:
        kinds: list[Any] = [ctypes.c_float, ctypes.c_float, ctypes.c_float, ctypes.c_uint32]
        self._slices: list[ctypes.Array[Any]] = [(kind * max(places, 1))() for kind in kinds]
        self.places = places

    @classmethod
    def of(cls, corners: Iterable[Iterable[Any]]) -> "_List":
        """A list with just the places of some corners, which are in it."""
        rows = [_fields(corner) for corner in corners]
        made = cls(len(rows))
        for values, column in zip(made._slices, zip(*rows)):
            values[:len(rows)] = list(column)
        return made

    def words(self, places: int | None = None) -> list[Word]:
        """All places, or the first so many, as four pointers and lengths."""
        length = self.places if places is None else places
        return [word for values in self._slices for word in (ctypes.addressof(values), length)]

    def corners(self, count: int) -> list[Corner]:
        """The first corners."""
        return list(map(Corner._make, zip(*(values[:count] for values in self._slices))))


class _Buffers:
    """The buffers of the frame pass: a larger one is made only where an image needs more than any before it."""

    def __init__(self) -> None:
        self._map = (ctypes.c_float * 1)()
        self._levels = (ctypes.c_uint8 * 1)()
        self._seeds = _List(0)
        self.corners = _List(0)

    def words(self, cells: int, level_bytes: int, seeds: int, corners: int) -> list[Word]:
        """Map, levels, seeds and corners of just these lengths: the library clears a list in its whole length."""
        if len(self._map) < cells:
            self._map = (ctypes.c_float * cells)()
        if len(self._levels) < level_bytes:
            self._levels = (ctypes.c_uint8 * level_bytes)()
        if self._seeds.places < seeds:
            self._seeds = _List(seeds)
        if self.corners.places < corners:
            self.corners = _List(corners)
        return [ctypes.addressof(self._map), cells, ctypes.addressof(self._levels), level_bytes,
                *self._seeds.words(seeds), *self.corners.words(corners)]


class _Kept(threading.local):
    """The buffers of a thread that no call is using."""

    def __init__(self) -> None:
        self.sets: list[_Buffers] = []


_kept = _Kept()


@contextlib.contextmanager
def _buffers() -> Iterator[_Buffers]:
    """Buffers that are no other call's: a signal's handler may call while its own thread is reading what it found."""
    buffers = _kept.sets.pop() if _kept.sets else _Buffers()
    try:
        yield buffers
    finally:
        _kept.sets[:] = [buffers]


# ---- the corners of images and photographs

class _Asked(NamedTuple):
    """What a frame pass is asked: the image or the upload, its sides, and what is looked for."""
    held: bytes
    words: list[Word]
    sides: tuple[int, int]
    params: Params
    most: int


def _asked_of_image(pixels: Buffer, width: Whole, height: Whole, *, most: Whole = MOST, ring: Whole = 5,
                    threshold: Number = 0.0, window: Whole = 2, least_neighbours: Whole = 2, centroid_radius: Whole = 2,
                    merge_radius: Number = 3.0, levels: Whole = 1, minimum_side: Whole = 1, search_radius: Whole = 3,
                    ) -> _Asked:
    sides = _sides(width, height)
    held, words = _given("pixels", pixels, sides)
    params = _params(ring, threshold, window, least_neighbours, centroid_radius, merge_radius, levels, minimum_side,
                     search_radius)
    return _Asked(held, [*words, *sides], sides, params, _whole("most", most, 64))


def _asked_of_upload(upload: Buffer, *, most: Whole = MOST, ring: Whole = 5, threshold: Number = 0.0, window: Whole = 2,
                     least_neighbours: Whole = 2, centroid_radius: Whole = 2, merge_radius: Number = 3.0,
                     levels: Whole = 1, minimum_side: Whole = 1, search_radius: Whole = 3) -> _Asked:
    params = _params(ring, threshold, window, least_neighbours, centroid_radius, merge_radius, levels, minimum_side,
                     search_radius)
    places = _whole("most", most, 64)
    held, words = _given("upload", upload)
    photo = read_pgm(held)
    return _Asked(held, words, (photo.width, photo.height), params, places)


def _params(*values: Any) -> Params:
    """The parameters, in their order, as numbers that the library's types hold."""
    def checked(name: str, value: Any) -> float:
        if isinstance(Params._field_defaults[name], float):
            return _single(name, value)
        return _whole(name, value, 64 if name == "minimum_side" else 32)

    return Params(*map(checked, Params._fields, values))  # type: ignore[arg-type]


def _search(function: Callable[..., int], asked: _Asked) -> Frame:
    """What a function of the library finds. There is a place for a peak in each square of window + 1 cells, which is
    enough for any image on one level where no peak has its equal in its window. Else it is asked again with more."""
    width, height = asked.sides if max(asked.sides) <= LARGEST_SIDE else (0, 0)
    params, most = asked.params, asked.most
    level_bytes = _library.zakdomp_level_bytes(width, height, params.levels, params.minimum_side)
    step = params.window + 1
    places = min((width // step + 1) * (height // step + 1), most)
    count, ties = ctypes.c_size_t(0), ctypes.c_uint64(0)
    with _buffers() as buffers:
        while True:
            words = buffers.words(width * height, level_bytes, places if params.levels > 1 else 0, places)
            number = function(*asked.words, *params, *words, ctypes.byref(count), ctypes.byref(ties))
            if number != LIST_SHORT or places == most:
                break
            places = min(4 * places, most)
        if number:
            raise Refusal(number)
        return Frame(buffers.corners.corners(count.value), ties.value)


def _called_as(shape: Callable[P, _Asked]) -> Callable[[Callable[..., R]], Callable[P, R]]:
    """A function that is called as `shape` is, for `help` as for mypy: the parameters are written once."""
    def called(function: Callable[..., R]) -> Callable[P, R]:
        answer = inspect.signature(function).return_annotation
        setattr(function, "__signature__", inspect.signature(shape).replace(return_annotation=answer))
        return function

    return called


@_called_as(_asked_of_image)
def find(*given: Any, **named: Any) -> Frame:
    """The corners of an image, at most `most` of them before merging and from at most `most` seeds, and its ties. The
    number of seeds bounds the time, because a box is searched around each. The parameters are those of
    `Params`."""
    return _search(_library.zakdomp_find_corners, _asked_of_image(*given, **named))


@_called_as(_asked_of_image)
def find_corners(*given: Any, **named: Any) -> list[Corner]:
    """The corners alone, as `find` finds them."""
    return find(*given, **named).corners


@_called_as(_asked_of_upload)
def find_pgm(*given: Any, **named: Any) -> Frame:
    """The corners of an uploaded photograph, a binary PGM (P5) with a maxval of 255, and its ties."""
    return _search(_library.zakdomp_find_corners_pgm, _asked_of_upload(*given, **named))


@_called_as(_asked_of_upload)
def find_corners_pgm(*given: Any, **named: Any) -> list[Corner]:
    """The corners alone, as `find_pgm` finds them."""
    return find_pgm(*given, **named).corners


@_called_as(_asked_of_image)
def find_exact(*given: Any, **named: Any) -> Frame:
    """What `find` answers by the exact choice: peaks are chosen by responses without rounding. If the two lists are the
    same, choosing by rounded responses has made no difference. One of the two may have more than `most` corners and the
    other not. Ties are counted by floats: a peak that has a larger float in its window counts 0."""
    return _search(_library.zakdomp_find_exact_corners, _asked_of_image(*given, **named))


@_called_as(_asked_of_image)
def find_exact_corners(*given: Any, **named: Any) -> list[Corner]:
    """The corners alone, as `find_exact` finds them."""
    return find_exact(*given, **named).corners


@_called_as(_asked_of_upload)
def find_exact_pgm(*given: Any, **named: Any) -> Frame:
    """The corners of an uploaded photograph by the exact choice, as `find_exact` has them of its pixels, and its
    ties."""
    return _search(_library.zakdomp_find_exact_corners_pgm, _asked_of_upload(*given, **named))


@_called_as(_asked_of_upload)
def find_exact_corners_pgm(*given: Any, **named: Any) -> list[Corner]:
    """The corners alone, as `find_exact_pgm` finds them."""
    return find_exact_pgm(*given, **named).corners


def read_pgm(upload: Buffer) -> Photograph:
    """Where the pixels of an uploaded photograph begin, its sides, and the pixels as a part of the upload."""
    held, words = _given("upload", upload)
    at, width, height = (ctypes.c_size_t(0) for _ in range(3))
    _call(_library.zakdomp_pgm, *words, ctypes.byref(at), ctypes.byref(width), ctypes.byref(height))
    end = at.value + width.value * height.value
    return Photograph(at.value, width.value, height.value, memoryview(held)[at.value:end])


# ---- response maps

def response(pixels: Buffer, width: Whole, height: Whole, *, ring: Whole = 5, x0: Whole = 0, y0: Whole = 0,
             x1: Whole = LARGEST_SIDE, y1: Whole = LARGEST_SIDE) -> ResponseMap:
    """The responses of the columns x0 up to, not including, x1 of the rows y0 up to y1, clipped to the image, in row
    order."""
    wide, high = sides = _sides(width, height)
    radius = _whole("ring", ring, 32)
    box = [_whole(name, value, 64) for name, value in (("x0", x0), ("y0", y0), ("x1", x1), ("y1", y1))]
    held, words = _given("pixels", pixels, sides)
    columns, rows = max(min(box[2], wide) - box[0], 0), max(min(box[3], high) - box[1], 0)
    places = columns * rows if max(sides) <= LARGEST_SIDE else 0
    cells = (ctypes.c_float * max(places, 1))()
    w, h = ctypes.c_size_t(0), ctypes.c_size_t(0)
    _call(_library.zakdomp_response, *words, *sides, radius, *box, ctypes.addressof(cells), places, ctypes.byref(w),
          ctypes.byref(h))
    return ResponseMap(w.value, h.value, cells[:w.value * h.value])


def retouch(pixels: WriteableBuffer, cells: WriteableBuffer, width: Whole, height: Whole, x: Whole, y: Whole,
            value: Whole, *, ring: Whole = 5) -> int:
    """Changes the pixel of column x and row y to `value` and, of the image's map, those cells whose samples contain it
    and that are not within a ring radius of the edge. Returns how many they are, at most 21. `pixels` is a bytearray
    and `cells` an array of floats, typecode "f", or both are arrays of numpy: they are changed in place, and stay as
    they were where the call is refused."""
    sides = _sides(width, height)
    radius, grey = _whole("ring", ring, 32), _whole("value", value, 8)
    place = _whole("x", x, 64), _whole("y", y, 64)
    image, image_length = _changed("pixels", pixels, "B", sides)
    responses, map_length = _changed("cells", cells, "f", sides)
    if not _apart(image, responses):
        raise ValueError("pixels and cells overlap")
    redone = ctypes.c_size_t(0)
    _call(_library.zakdomp_retouch, ctypes.addressof(image), image_length, *sides, radius, ctypes.addressof(responses),
          map_length, *place, grey, ctypes.byref(redone))
    return redone.value


def response_limits(low: Buffer, high: Buffer, width: Whole, height: Whole, *, ring: Whole = 5) -> ResponseLimits:
    """What the response of each cell can be where each pixel is known to lie from its value in `low` up to its value in
    `high`: a low and a high number of fifths. Five times the exact response of every image between the two lies from
    the one up to the other."""
    sides = _sides(width, height)
    radius = _whole("ring", ring, 32)
    low_held, low_words = _given("low", low, sides)
    high_held, high_words = _given("high", high, sides)
    cells = sides[0] * sides[1] if max(sides) <= LARGEST_SIDE else 0
    lows, highs = (ctypes.c_int32 * max(cells, 1))(), (ctypes.c_int32 * max(cells, 1))()
    _call(_library.zakdomp_response_limits, *low_words, *high_words, *sides, radius, ctypes.addressof(lows), cells,
          ctypes.addressof(highs), cells)
    return ResponseLimits(lows[:cells], highs[:cells])


def sure_peak(lows: Sequence[int] | Buffer, highs: Sequence[int] | Buffer, width: Whole, height: Whole, x: Whole,
              y: Whole, *, ring: Whole = 5, threshold: Whole = 0, window: Whole = 2, least_neighbours: Whole = 2,
              centroid_radius: Whole = 2) -> bool:
    """Whether the place of column x and row y is a sure peak of two maps of limits: with those of `response_limits` by
    the same ring it is then a peak, by exact values, of every image between the two. The threshold is a whole
    response."""
    sides = _sides(width, height)
    place = _whole("x", x, 64), _whole("y", y, 64)
    params = [_whole(name, value, 32) for name, value in (
        ("ring", ring), ("threshold", threshold), ("window", window), ("least_neighbours", least_neighbours),
        ("centroid_radius", centroid_radius))]
    held_lows, low_words = _numbers("lows", lows, "i", sides)
    held_highs, high_words = _numbers("highs", highs, "i", sides)
    sure = ctypes.c_uint8(0)
    _call(_library.zakdomp_sure_peak, *low_words, *high_words, *sides, *params, *place, ctypes.byref(sure))
    return sure.value == 1


def has_peaks(cells: Sequence[float] | Buffer, width: Whole, height: Whole, wanted: Whole, *, ring: Whole = 5,
              threshold: Number = 0.0, window: Whole = 2, least_neighbours: Whole = 2, centroid_radius: Whole = 2,
              ) -> Enough:
    """Whether a response map of width by height cells, in row order, has at least `wanted` peaks, and how many rows
    inside the border were looked at to know it."""
    sides = _sides(width, height)
    params = _params(ring, threshold, window, least_neighbours, centroid_radius)[:5]
    number = _whole("wanted", wanted, 64)
    held, words = _numbers("cells", cells, "f", sides)
    enough, rows = ctypes.c_uint8(0), ctypes.c_size_t(0)
    _call(_library.zakdomp_has_peaks, *words, *sides, *params, number, ctypes.byref(enough), ctypes.byref(rows))
    return Enough(enough.value == 1, rows.value)


# ---- lists of corners

def merged(corners: Iterable[Iterable[Any]], radius: Number) -> list[Corner]:
    """What merging corners by a radius would leave of them, in a new list; they are merged as a frame's corners are
    (include/zakdomp.h). A radius that is 0, negative or not finite leaves all. The time grows with their number, in
    whatever order they come; it takes a table of four floats for each."""
    given, kept = _List.of(corners), ctypes.c_size_t(0)
    slots = 4 * given.places + 4
    table = (ctypes.c_float * slots)()
    _call(_library.zakdomp_merge_by_table, *given.words(), given.places, _single("radius", radius),
          ctypes.addressof(table), slots, ctypes.byref(kept))
    return given.corners(kept.value)


def merge_naive(corners: Iterable[Iterable[Any]], radius: Number) -> list[Corner]:
    """What is left of corners that are merged by distance alone. Each in turn looks among those kept for the first at
    most `radius` away, takes its place if it is strictly stronger, and is dropped if not; where there is none it is
    kept after the others. A radius of 0, a negative one and one that is not finite keep all. No frame is merged so:
    the two merges leave the same where the coordinates are multiples of 1/64 and the radius is a power of two from 1/64
    to 4096."""
    given, kept = _List.of(corners), ctypes.c_size_t(0)
    _call(_library.zakdomp_merge_naive, *given.words(), given.places, _single("radius", radius),
          ctypes.byref(kept))
    return given.corners(kept.value)


class EditedList:
    """A list of corners from which false ones are struck in two steps: a corner is shown, and then struck by its place
    and the change number that was shown with it. Each strike raises that number, and nothing else does: a strike that
    was not refused has removed the very corner shown. A list that was put away goes on with its change number."""

    def __init__(self, corners: Iterable[Iterable[Any]], change: Whole = 0) -> None:
        self._change = ctypes.c_uint32(_whole("change", change, 32))
        self._list = _List.of(corners)
        self._count = ctypes.c_size_t(self._list.places)

    def __len__(self) -> int:
        return self._count.value

    @property
    def change(self) -> int:
        """The list's change number."""
        return self._change.value

    @property
    def corners(self) -> list[Corner]:
        """The corners that are left, in their order."""
        return self._list.corners(len(self))

    def show(self, place: Whole) -> Shown:
        """The corner at a place, which counts from 0, and the list's change number."""
        floats, counts = [ctypes.c_float(0) for _ in range(3)], [ctypes.c_uint32(0) for _ in range(2)]
        _call(_library.zakdomp_show_corner, *self._list.words(), self._count, self._change,
              _whole("place", place, 64), *map(ctypes.byref, floats), *map(ctypes.byref, counts))
        neighbours, change = (count.value for count in counts)
        return Shown(Corner._make([*(number.value for number in floats), neighbours]), change)

    def strike(self, place: Whole, change: Whole) -> None:
        """Strikes the corner at a place, if `change` is the list's change number: later corners move up. A refusal
        leaves the list as it was."""
        _call(_library.zakdomp_strike_corner, *self._list.words(), ctypes.byref(self._count),
              ctypes.byref(self._change), _whole("place", place, 64), _whole("change", change, 32))


# ---- streams and texts

def _bits(value: float) -> int:
    """The bits of a float of single precision."""
    return int.from_bytes(bytes(ctypes.c_float(value)), "little")


def write_stream(pixels: Buffer, width: Whole, height: Whole, *, ring: Whole = 5, threshold: Number = 0.0,
                 window: Whole = 2, least_neighbours: Whole = 2, centroid_radius: Whole = 2,
                 merge_radius: Number = 3.0, levels: Whole = 1, minimum_side: Whole = 1, search_radius: Whole = 3,
                 threshold_bits: Whole | None = None, merge_bits: Whole | None = None) -> bytes:
    """The frame stream of an image of at most 96 by 96 pixels: the one stream that the program `corners` reads as these
    sides, parameters and pixels. The bits of threshold and merge radius may be given instead of the two: a Python float
    need not keep a NaN's pattern."""
    sides = _sides(width, height)
    held, words = _given("pixels", pixels, sides)
    params = _params(ring, threshold, window, least_neighbours, centroid_radius, merge_radius, levels, minimum_side,
                     search_radius)
    bits = [_bits(number) if given is None else _whole(name, given, 32) for name, given, number in (
        ("threshold_bits", threshold_bits, params.threshold), ("merge_bits", merge_bits, params.merge_radius))]
    stream, length = ctypes.create_string_buffer(LONGEST_STREAM), ctypes.c_size_t(0)
    _call(_library.zakdomp_write_stream, *words, *sides, *params._replace(threshold=bits[0], merge_radius=bits[1]),
          ctypes.addressof(stream), LONGEST_STREAM, ctypes.byref(length))
    return stream.raw[:length.value]


def holding(kind: Whole, start: Whole, time: Whole) -> str:
    """Whether an item of a kind (1 a corner file, 2 a photograph, 3 a token), received or issued at the second `start`,
    is held at the second `time`: "N" not yet, "H" held or "G" gone."""
    letter = ctypes.c_uint8(0)
    _call(_library.zakdomp_holding, _whole("kind", kind, 8), _whole("start", start, 64), _whole("time", time, 64),
          ctypes.byref(letter))
    return chr(letter.value)


def holdings(stream: Buffer) -> str:
    """What the program `retained` prints for a stream of items: a letter and a newline for each, and a refusal where
    one is faulty."""
    held, words = _given("stream", stream)
    output = ctypes.create_string_buffer(LONGEST_HOLDINGS)
    length = _library.zakdomp_holdings(*words, ctypes.addressof(output))
    return output.raw[:length].decode("ascii")


def _units(x: float) -> int:
    """A coordinate of single precision to the nearest 256th of a pixel, a half up; negatives and NaN give 0, and what
    is too large the largest number (RULES 21.1). The sum is exact as long as there is a half to be rounded."""
    scaled = ctypes.c_float(256 * x).value
    if not scaled > 0:
        return 0
    return int(scaled + 0.5) if scaled < 1 << 64 else (1 << 64) - 1


def _digits(x: float) -> str:
    """The bits of a float in hexadecimal: there is one NaN (RULES 1.2)."""
    return "7fc00000" if math.isnan(x) else struct.pack(">f", x).hex()


def listing(corners: Iterable[Iterable[Any]]) -> str:
    """The text of a corner list, as the program `corners` prints it: x and y to the nearest 256th of a pixel, a half
    up, the bits of each float, and the neighbours."""
    rows = [_fields(corner) for corner in corners]
    lines = (f"{_units(x)} {_units(y)} {_digits(x)} {_digits(y)} {_digits(strength)} {neighbours}\n"
             for x, y, strength, neighbours in rows)
    return f"corners {len(rows)}\n" + "".join(lines)


def main(arguments: Sequence[str]) -> int:
    """The corners of a photograph, from the shell."""
    parser = argparse.ArgumentParser(prog="zakdomp", description="Prints the corners of a photograph.")
    parser.add_argument("photo", help="a binary PGM file (P5) with a maxval of 255")
    for name, default in {**Params._field_defaults, "most": MOST}.items():
        parser.add_argument("--" + name.replace("_", "-"), type=type(default), default=default, metavar="N",
                            help=f"{default} if not given")
    given = vars(parser.parse_args(arguments))
    photo = given.pop("photo")
    try:
        with open(photo, "rb") as file:
            upload = file.read()
        text = listing(find_corners_pgm(upload, **given))
    except (OSError, ValueError) as problem:
        print(f"zakdomp: {photo}: {getattr(problem, 'strerror', None) or problem}", file=sys.stderr)
        return 1
    sys.stdout.write(text)
    return 0


if __name__ == "__main__":
    sys.exit(main(sys.argv[1:]))
