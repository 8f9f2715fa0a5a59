"""SVG files: the photograph inside, and the marks as shapes that name their corner where one points at them."""
import base64

from zakdomp_command.formats import words
from zakdomp_command.marks import Drawing, Mark, colour
from zakdomp_command.png import grey_png

ONLY = {"computed": "computed only", "exact": "by the exact choice only"}
PAINTS = {"computed": "white", "exact": "green"}
STRUCK = "#ff2020"


def svg(drawing: Drawing) -> bytes:
    """The picture as one file, whose title says what the marks are."""
    return titled(drawing, _legend(drawing.marks))


def titled(drawing: Drawing, title: str) -> bytes:
    """The picture with a title. A pixel of the photograph is a unit, and its middle half a unit from its edges."""
    photo = drawing.photo
    width, height = drawing.enlarged * photo.width, drawing.enlarged * photo.height
    image = base64.b64encode(grey_png(photo.width, photo.height, bytes(photo.pixels))).decode("ascii")
    lines = [
        f'<svg xmlns="http://www.w3.org/2000/svg" width="{width}" height="{height}" '
        f'viewBox="0 0 {photo.width} {photo.height}">',
        f"<title>{title}</title>",
        f'<image width="{photo.width}" height="{photo.height}" style="image-rendering:pixelated" '
        f'href="data:image/png;base64,{image}"/>',
        '<g transform="translate(0.5 0.5)" fill="none">',
        *(_shape(mark, drawing.line) for mark in drawing.marks),
        "</g>",
        "</svg>",
    ]
    return "\n".join(lines).encode("ascii") + b"\n"


def _legend(marks: list[Mark]) -> str:
    """What the marks are."""
    legend = [f"{len(marks)} corners, {sum(mark.shape == 'square' for mark in marks)} of them tie (squares)"]
    for choice, said in ONLY.items():
        count = sum(mark.alone == choice for mark in marks)
        legend += [f"{count} {said} ({PAINTS[choice]} diamonds)"] if count else []
    return ", ".join(legend)


def _shape(mark: Mark, line: float) -> str:
    """A mark in its colour over a wider black one."""
    strokes = [("#000", 2 * line), (STRUCK if mark.struck else "#%02x%02x%02x" % colour(mark.step), line)]
    drawn = "".join(f'<{_outline(mark)} stroke="{paint}" stroke-width="{width:.3f}"/>' for paint, width in strokes)
    said = f", {ONLY[mark.alone]}" if mark.alone else ""
    said += ", struck" if mark.struck else ""
    return f"<g><title>{words(mark.corner)}{', tied' if mark.tied else ''}{said}</title>{drawn}</g>"


def _outline(mark: Mark) -> str:
    """The element of a mark, and where it lies."""
    x, y, radius = mark.x, mark.y, mark.radius
    if mark.shape == "diamond":
        corners = ((x, y - radius), (x + radius, y), (x, y + radius), (x - radius, y))
        return f'polygon points="{" ".join(f"{across:.3f},{down:.3f}" for across, down in corners)}"'
    if mark.shape == "cross":
        slants = (f"M{x - radius:.3f},{y + up:.3f}L{x + radius:.3f},{y - up:.3f}" for up in (radius, -radius))
        return f'path d="{"".join(slants)}"'
    if mark.shape == "square":
        return f'rect x="{x - radius:.3f}" y="{y - radius:.3f}" width="{2 * radius:.3f}" height="{2 * radius:.3f}"'
    return f'circle cx="{x:.3f}" cy="{y:.3f}" r="{radius:.3f}"'
