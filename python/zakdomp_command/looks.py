"""Words for an upload that is refused: what it looks like if it is no photograph the library reads, and what helps."""
import re

import zakdomp

CONVERT = "convert PHOTO -colorspace Gray -depth 8 PHOTO.pgm"
SMALLER = "convert PHOTO -colorspace Gray -depth 8 -resize 4096x4096 PHOTO.pgm"
BEGINNINGS = (
    (rb"\xff\xd8\xff", "a JPEG"), (rb"\x89PNG\r\n\x1a\n", "a PNG"), (rb"GIF8[79]a", "a GIF"),
    (rb"II\*\0|MM\0\*", "a TIFF or a camera's raw file"), (rb"BM", "a BMP"), (rb"RIFF....WEBP", "a WebP"),
    (rb"....ftyp(heic|heix|hevc|mif1|msf1)", "a HEIC"), (rb"....ftypavif", "an AVIF"), (rb"%PDF-", "a PDF"),
    (rb"P1\s", "a plain bitmap (P1)"), (rb"P2[\s#]", "a plain PGM (P2)"), (rb"P3[\s#]", "a plain colour PPM (P3)"),
    (rb"P4\s", "a bitmap (P4)"), (rb"P6[\s#]", "a colour PPM (P6)"), (rb"P7\s", "a PAM (P7)"),
)
FOREIGN = ((rb"PK\x03\x04", "a ZIP archive"), (rb"\x1f\x8b", "a file compressed by gzip"),
           (rb"....ftyp", "a film"), (rb"(?i)\s*<(!doctype|html|\?xml|svg)", "a page or a drawing in HTML or XML"))
LINE_END = re.compile(rb"[\r\n]")
HEADER = re.compile(rb"P5\s+(\d+)\s+(\d+)\s+(\d+)\s")
# no longer header is looked for, comments and all
HEAD = 1 << 20


class Worded(zakdomp.Refusal):
    """A refusal of an upload, with words for that upload."""

    def __init__(self, number: int, upload: bytes) -> None:
        super().__init__(number)
        self.words = words(number, upload)


def words(number: int, upload: bytes) -> str:
    """What is said of an upload that is refused by a number."""
    general = str(zakdomp.REFUSALS.get(number, "refused"))
    special = {1: _large, 10: _many, 12: _no_photograph, 13: _depth}.get(number)
    return f"{general}: {special(upload)}" if special else general


def _no_photograph(upload: bytes) -> str:
    """For number 12."""
    if not upload:
        return "it is empty"
    for beginnings, hint in ((BEGINNINGS, f"; {CONVERT} makes one of it"), (FOREIGN, "")):
        for beginning, kind in beginnings:
            if re.match(beginning, upload, re.DOTALL):
                return f"it looks like {kind}{hint}"
    if not upload.startswith(b"P5"):
        return "it looks like no photograph at all" if upload.strip(b"\0") else "it is nothing but zeros"
    said = _header(upload)
    if not said:
        where = " in its first megabyte" if len(upload) > HEAD else ""
        return f"it begins with P5, and no width, height and maxval follow{where}"
    bits = " of 16 bits" if said[2] > 255 else ""
    return f"it is cut short: its header says {said[0]} x {said[1]}{bits}, and fewer pixels follow; send it again"


def _depth(upload: bytes) -> str:
    """For number 13."""
    said = _header(upload)
    maxval = f"its maxval is {said[2]}{', 16 bits a pixel' if 255 < said[2] < 65536 else ''}; " if said else ""
    return f"{maxval}{CONVERT} makes one of 8 bits of it"


def _large(_: bytes) -> str:
    """For number 1."""
    return f"{SMALLER} makes it smaller"


def _many(_: bytes) -> str:
    """For number 10."""
    return "--most bounds the corners before merging, and the seeds; a higher --threshold leaves fewer"


def _header(upload: bytes) -> tuple[int, int, int] | None:
    """Width, height and maxval, if the beginning of an upload has them."""
    found = HEADER.match(_bare(upload[:HEAD]))
    if not found or any(len(number) > 20 for number in found.groups()):
        return None
    width, height, maxval = map(int, found.groups())
    return width, height, maxval


def _bare(head: bytes) -> bytes:
    """The beginning of an upload without comments, each of which is looked through once."""
    kept, at = [], 0
    while (mark := head.find(b"#", at)) >= 0:
        kept.append(head[at:mark])
        end = LINE_END.search(head, mark)
        at = end.end() if end else len(head)
    return b"".join([*kept, head[at:]])
