"""What is drawn of corners over a photograph: a circle about each, large and yellow where it is strong, small and blue
where it is weak, and a square instead where its peak ties with a cell beside it. A corner that only one of the two
choices of peaks has is a large diamond, green where the exact choice has it and white where the computed one does. One
that was struck is a cross."""
import math
from typing import Any, NamedTuple

import zakdomp
from zakdomp_command.choices import Found

STEPS = 31
WEAK, MIDDLE, STRONG = (64, 160, 255), (255, 64, 160), (255, 232, 32)
ALONE = {"computed": (255, 255, 255), "exact": (32, 255, 96)}
SMALLEST = 2.5
SAMPLE = 400
Cell = tuple[int, int]


class Mark(NamedTuple):
    """A place in pixels, the mark's radius, its step of colour from 0, weak, whether a cell ties with the corner's
    peak, which choice alone has the corner, if only one has, and whether it was struck."""
    x: float
    y: float
    radius: float
    step: int
    tied: bool
    corner: zakdomp.Corner
    alone: str = ""
    struck: bool = False

    @property
    def shape(self) -> str:
        return "cross" if self.struck else "diamond" if self.alone else "square" if self.tied else "circle"


class Drawing(NamedTuple):
    """A photograph enlarged by a whole number, the marks over it, weakest first and diamonds last, and the width of
    their lines."""
    photo: zakdomp.Photograph
    enlarged: int
    marks: list[Mark]
    line: float


def drawing(found: Found, parameters: dict[str, Any]) -> Drawing:
    """The marks of the corners that are listed of a photograph and of those that the other choice alone has, sized for
    the photograph and for how near the corners are to each other."""
    photo, comparison = found.photo, found.comparison
    corners = found.frame.corners + (comparison.computed_only if found.exact else comparison.exact_only)
    alone = dict.fromkeys(comparison.computed_only, "computed") | dict.fromkeys(comparison.exact_only, "exact")
    pixels = bytes(photo.pixels)
    return marked(photo, corners, alone, [_tied(pixels, photo, corner, parameters) for corner in corners])


def marked(photo: zakdomp.Photograph, corners: list[zakdomp.Corner], alone: dict[zakdomp.Corner, str],
           tied: list[bool]) -> Drawing:
    """The marks of corners, of which some may stand in one list alone or be tied."""
    enlarged = max(1, -(-480 // max(photo.width, photo.height)))
    largest = _largest(photo, corners)
    top = max((corner.strength for corner in corners), default=1.0)
    marks = [_diamond(photo, corner, ties, alone[corner]) if corner in alone else _mark(corner, top, largest, ties)
             for corner, ties in zip(corners, tied)]
    return Drawing(photo, enlarged, sorted(marks, key=lambda mark: (mark.alone, mark.corner.strength)), largest / 4)


def crossed(drawing: Drawing, struck: set[zakdomp.Corner]) -> Drawing:
    """A drawing with a cross on each corner that was struck, as large as a diamond and over the other marks."""
    others = [mark for mark in drawing.marks if mark.corner not in struck]
    radius = _lone(drawing.photo)
    crosses = [mark._replace(struck=True, radius=radius) for mark in drawing.marks if mark.corner in struck]
    return drawing._replace(marks=others + crosses)


def smaller(drawing: Drawing, side: int) -> Drawing:
    """A drawing with no more than so many pixels a side: each so-and-so-many-th of the photograph's, in row order."""
    photo = drawing.photo
    step = -(-max(photo.width, photo.height) // side)
    first = step // 2
    rows = [bytes(photo.pixels[row * photo.width + first:(row + 1) * photo.width:step])
            for row in range(first, photo.height, step)]
    if step == 1 or not rows or not rows[0]:
        return drawing
    less = zakdomp.Photograph(0, len(rows[0]), len(rows), memoryview(b"".join(rows)))
    marks = [mark._replace(x=(mark.x - first) / step, y=(mark.y - first) / step, radius=mark.radius / step)
             for mark in drawing.marks]
    return Drawing(less, 1, marks, drawing.line / step)


def colour(step: int) -> tuple[int, int, int]:
    """The colour of a step: from blue over red to yellow, followed by those of the diamonds."""
    if step >= STEPS:
        return list(ALONE.values())[step - STEPS]
    share = 2 * step / (STEPS - 1)
    low, high, part = (WEAK, MIDDLE, share) if share <= 1 else (MIDDLE, STRONG, share - 1)
    red, green, blue = (round(a + (b - a) * part) for a, b in zip(low, high))
    return red, green, blue


def _mark(corner: zakdomp.Corner, top: float, largest: float, tied: bool) -> Mark:
    share = math.sqrt(max(corner.strength, 0.0) / top) if top > 0 else 0.0
    return Mark(corner.x, corner.y, largest * (0.4 + 0.6 * share), round(share * (STEPS - 1)), tied, corner)


def _diamond(photo: zakdomp.Photograph, corner: zakdomp.Corner, tied: bool, alone: str) -> Mark:
    return Mark(corner.x, corner.y, _lone(photo), STEPS + list(ALONE).index(alone), tied, corner, alone)


def _lone(photo: zakdomp.Photograph) -> float:
    """The radius of a mark that is to be seen among hundreds: large however dense the corners are."""
    return 1.5 * max(_part(photo), SMALLEST)


def _part(photo: zakdomp.Photograph) -> float:
    return max(photo.width, photo.height) / 80


def _largest(photo: zakdomp.Photograph, corners: list[zakdomp.Corner]) -> float:
    """The radius of the strongest corner's mark: a part of the picture, less where the corners are dense."""
    return max(min(_part(photo), 0.3 * _spacing(corners)), SMALLEST)


def _spacing(corners: list[zakdomp.Corner]) -> float:
    """The median distance from a corner to the nearest other, over a sample of them."""
    ordered = sorted(corners)
    every = max(len(ordered) // SAMPLE, 1)
    distances = sorted(_nearest(ordered, place) for place in range(0, len(ordered), every))
    return distances[len(distances) // 2] if distances else math.inf


def _nearest(ordered: list[zakdomp.Corner], place: int) -> float:
    """The distance of a corner to the nearest other, among corners ordered by their columns."""
    x, y, *_ = ordered[place]
    best = math.inf
    for others in (range(place + 1, len(ordered)), range(place - 1, -1, -1)):
        for other in others:
            if abs(ordered[other].x - x) >= best:
                break
            best = min(best, math.hypot(ordered[other].x - x, ordered[other].y - y))
    return best


def _tied(pixels: bytes, photo: zakdomp.Photograph, corner: zakdomp.Corner, parameters: dict[str, Any]) -> bool:
    """Whether another cell of the window of a corner's peak has the peak's response."""
    reach = 1 + parameters["centroid_radius"] + max(parameters["window"], parameters["centroid_radius"])
    x0, y0 = max(round(corner.x) - reach, 0), max(round(corner.y) - reach, 0)
    box = zakdomp.response(pixels, photo.width, photo.height, ring=parameters["ring"], x0=x0, y0=y0,
                           x1=round(corner.x) + reach + 1, y1=round(corner.y) + reach + 1)
    cells = {(x0 + place % box.width, y0 + place // box.width): cell for place, cell in enumerate(box.cells)}
    level = [cell for cell, value in cells.items() if value == corner.strength]
    above = [cell for cell, value in cells.items() if value > corner.strength]
    tops = [cell for cell in level if not any(_near(cell, other, parameters["window"]) for other in above)]
    peak = min(tops, key=lambda cell: _distance(cells, cell, corner, parameters["centroid_radius"]), default=None)
    return peak is not None and any(cell != peak and _near(cell, peak, parameters["window"]) for cell in level)


def _near(one: Cell, other: Cell, radius: int) -> bool:
    return max(abs(one[0] - other[0]), abs(one[1] - other[1])) <= radius


def _distance(cells: dict[Cell, float], peak: Cell, corner: zakdomp.Corner, radius: int) -> float:
    """How far a corner is from where a peak would move it: to the centre of mass about the peak, or not at all."""
    about = [(cell, max(value, 0.0)) for cell, value in cells.items() if _near(cell, peak, radius)]
    mass = sum(value for _, value in about) or 1.0
    x, y = (sum(cell[axis] * value for cell, value in about) / mass for axis in (0, 1))
    return min(math.hypot(x - corner.x, y - corner.y), math.hypot(peak[0] - corner.x, peak[1] - corner.y))
