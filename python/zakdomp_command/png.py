"""PNG files by the standard library alone: a grey photograph, and one with marks over it in colours of a palette."""
import math
import struct
import zlib
from collections.abc import Iterator
from typing import NamedTuple

from zakdomp_command.marks import ALONE, STEPS, Drawing, Mark, colour

GREYS = 256 - STEPS - 1
GREY, PALETTE = 0, 3


class Canvas(NamedTuple):
    """Places of the palette, in row order, and which of them is black: it follows the greys and comes before the
    colours."""
    width: int
    height: int
    cells: bytearray
    black: int


def png(drawing: Drawing) -> bytes:
    """The photograph in greys, with its marks. Two greys less are there where diamonds need their colours."""
    canvas = _photograph(drawing)
    for mark in drawing.marks:
        _draw(canvas, mark, drawing)
    greys = [(grey, grey, grey) for grey in (round(255 * place / (canvas.black - 1)) for place in range(canvas.black))]
    palette = greys + [(0, 0, 0)] + [colour(step) for step in range(255 - canvas.black)]
    return _file(canvas.width, canvas.height, PALETTE, canvas.cells, bytes(part for entry in palette for part in entry))


def grey_png(width: int, height: int, pixels: bytes) -> bytes:
    """A photograph as it is."""
    return _file(width, height, GREY, pixels)


def _photograph(drawing: Drawing) -> Canvas:
    photo, times = drawing.photo, drawing.enlarged
    greys = GREYS - len(ALONE) * any(mark.alone for mark in drawing.marks)
    cells = bytes(photo.pixels).translate(bytes(round(grey * (greys - 1) / 255) for grey in range(256)))
    if times > 1:
        rows = (cells[start:start + photo.width] for start in range(0, len(cells), photo.width))
        cells = b"".join(times * bytes(cell for cell in row for _ in range(times)) for row in rows)
    return Canvas(times * photo.width, times * photo.height, bytearray(cells), greys)


def _draw(canvas: Canvas, mark: Mark, drawing: Drawing) -> None:
    """A mark in its colour between two thin black lines, so that it stands out on white, black and grey."""
    times = drawing.enlarged
    x, y, radius, line = (times * value for value in (mark.x + 0.5, mark.y + 0.5, mark.radius, drawing.line))
    line = max(line, 1.5)
    edge = max(line / 2, 1.0)
    slant = math.sqrt(2) if mark.shape == "diamond" else 1.0
    for width, cell in ((line + 2 * edge, canvas.black), (line, canvas.black + 1 + mark.step)):
        outer, inner = radius + slant * width / 2, max(radius - slant * width / 2, 0.0)
        for row in range(max(math.ceil(y - outer - 0.5), 0), min(math.floor(y + outer - 0.5), canvas.height - 1) + 1):
            for start, end in _spans(x, abs(row + 0.5 - y), outer, inner, mark.shape):
                _fill(canvas, row, start, end, cell)


def _spans(x: float, away: float, outer: float, inner: float, shape: str) -> Iterator[tuple[float, float]]:
    """The parts of a row, so far away from the centre, that lie between the inner and the outer shape."""
    far, near = _half(away, outer, shape), _half(away, inner, shape)
    if near <= 0:
        yield x - far, x + far
    else:
        yield x - far, x - near
        yield x + near, x + far


def _half(away: float, radius: float, shape: str) -> float:
    """Half of the length of a row within a circle, a square or a diamond."""
    if away >= radius:
        return 0.0
    if shape == "diamond":
        return radius - away
    return radius if shape == "square" else math.sqrt(radius * radius - away * away)


def _fill(canvas: Canvas, row: int, start: float, end: float, cell: int) -> None:
    """Fills the cells of a row whose middle lies within a part of it."""
    first, last = max(math.ceil(start - 0.5), 0), min(math.ceil(end - 0.5), canvas.width)
    if first < last:
        place = row * canvas.width
        canvas.cells[place + first:place + last] = bytes([cell]) * (last - first)


def _file(width: int, height: int, kind: int, cells: bytes | bytearray, palette: bytes = b"") -> bytes:
    """Eight bits a cell, no interlace, and a 0 before each row, which is as it is."""
    rows = b"".join(b"\0" + cells[start:start + width] for start in range(0, width * height, width))
    header = _chunk(b"IHDR", struct.pack(">IIBBBBB", width, height, 8, kind, 0, 0, 0))
    colours = _chunk(b"PLTE", palette) if palette else b""
    return b"\x89PNG\r\n\x1a\n" + header + colours + _chunk(b"IDAT", zlib.compress(rows, 6)) + _chunk(b"IEND", b"")


def _chunk(name: bytes, content: bytes) -> bytes:
    return struct.pack(">I", len(content)) + name + content + struct.pack(">I", zlib.crc32(name + content))
