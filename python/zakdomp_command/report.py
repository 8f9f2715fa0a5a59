"""`zakdomp report`: a run of the ledger as one page, with a picture of each photograph and its corners. It needs no
server, network or script, and what is not of this program stands in it as text alone."""
import argparse
import hashlib
import os
from collections.abc import Iterator
from html import escape
from typing import Any, NamedTuple

import zakdomp
from zakdomp_command import choices, corner_files, files, formats, invoice, names, uploads
from zakdomp_command.ledger import Ledger, Line, Run, Strike
from zakdomp_command.marks import Drawing, crossed, marked, smaller
from zakdomp_command.svg import titled

EXAMPLE = "example: zakdomp report november"
DESCRIPTION = """Writes a page of a run of DIR's ledger, DIR/report.html of run 1 and DIR/report-2.html of run 2: the
invoice with a picture of each photograph and its corners, what was struck, where the exact choice differs, and the
words of each refusal. It is one file that any browser shows and prints. A photograph that is no longer where the batch
saw it is left grey."""
SIDE = 640
MOST = 2_000
GREY = 160
STYLE = """
:root { color-scheme: light }
body { font: 16px/1.45 system-ui, sans-serif; margin: 0 auto; max-width: 60rem; padding: 1rem; color: #1a1a1a;
  background: #fff; overflow-wrap: anywhere }
h1 { font-size: 1.6rem; margin: 0 0 .5rem } h2 { font-size: 1.1rem; margin: 0 0 .25rem }
p { margin: .25rem 0 } .small { font-size: .85rem; color: #555 } a { color: #0b4f9e }
table { border-collapse: collapse; width: 100%; margin: 1rem 0; font-variant-numeric: tabular-nums }
th, td { text-align: left; vertical-align: top; padding: .3rem .5rem; border-bottom: 1px solid #ccc }
.count { text-align: right; overflow-wrap: normal } tfoot td { font-weight: bold; border-bottom: 3px double #1a1a1a }
article { border-top: 2px solid #1a1a1a; margin-top: 1.5rem; padding-top: .75rem; break-inside: avoid }
figure { margin: .75rem 0 0 } figure svg { display: block; max-width: 100%; height: auto }
td:first-child { min-width: 10rem } .wide { width: 45% }
.none, .differs { border-left: 4px solid #b00020; padding-left: .6rem }
.differs { border-color: #b36b00 }
@media (max-width: 40rem) { body { padding: .6rem } .wide { display: none } th, td { padding: .3rem .25rem }
  td:first-child { min-width: 6rem } }
@media print { body { max-width: none; font-size: 11pt } figure svg { max-height: 16cm }
  a { color: inherit; text-decoration: none } thead { display: table-header-group } }
"""
HEAD = f"""<!DOCTYPE html>
<html lang="en">
<head>
<meta charset="utf-8">
<meta name="viewport" content="width=device-width, initial-scale=1">
<meta http-equiv="Content-Security-Policy"
 content="default-src 'none'; img-src data:; style-src 'unsafe-inline'">
<title>Invoice</title>
<style>{STYLE}</style>
</head>
<body>
"""
LEGEND = """<p class="small">Circles are corners, large and yellow where strong, small and blue where weak; a red cross
was struck; a large diamond stands in one list only, green in that of the exact choice, white in the computed
one.</p>"""


class Entry(NamedTuple):
    """A line of the run, what was struck from its list, and the corners that were found."""
    line: Line
    strikes: list[Strike]
    corners: list[zakdomp.Corner]

    @property
    def left(self) -> int | None:
        count = self.line.outcome.corners
        return None if count is None else count - len(self.strikes)


def add(commands: Any) -> None:
    parser = commands.add_parser("report", help="a page with the pictures of a run", epilog=EXAMPLE,
                                 description=DESCRIPTION)
    invoice.add_run(parser)
    parser.set_defaults(run=run)


def run(options: argparse.Namespace) -> int:
    ledger = Ledger(options.folder)
    wanted = invoice.whole(ledger.run(options.number))
    place = os.path.join(ledger.folder, wanted.report)
    files.place(place, "".join(page(ledger, wanted)).encode("utf-8"))
    files.say(os.fsencode(place) + b"\n")
    return 0


def page(ledger: Ledger, wanted: Run) -> Iterator[str]:
    """The page in parts: what was asked, a table, and a piece for each upload."""
    strikes, corners = ledger.strikes(wanted), os.path.join(ledger.folder, wanted.corners)
    lines = ledger.lines(wanted)
    counts = [Entry(line, strikes.get(line.upload, []), []) for line in lines]
    yield HEAD
    yield from _heading(wanted, lines)
    yield from _table(counts)
    yield LEGEND + "\n"
    for number, entry in enumerate(counts):
        text = corner_files.text(corners, entry.line.outcome)
        found = formats.read(text.encode("ascii")).corners if text is not None else []
        yield from _piece(number, entry._replace(corners=found), wanted)
    yield "</body>\n</html>\n"


def _heading(wanted: Run, lines: list[Line]) -> Iterator[str]:
    days = sorted({invoice.day(line.at) for line in lines} or {invoice.day(wanted.began)})
    counted = days[0] if len(days) == 1 else f"{days[0]} to {days[-1]}"
    yield f"<h1>Invoice</h1>\n<p>{escape(invoice.counted([line.outcome for line in lines]))}.</p>\n"
    yield f'<p class="small">Run {wanted.run}, counted {counted} (UTC), by zakdomp {escape(wanted.version)}: '
    yield f"{escape(invoice.parameters(wanted))}.</p>\n"


def _table(entries: list[Entry]) -> Iterator[str]:
    yield '<table>\n<thead><tr><th>upload</th><th class="count">corners</th><th class="count">struck</th>'
    yield '<th class="count">left</th><th class="wide">remarks</th></tr></thead>\n<tbody>\n'
    for number, entry in enumerate(entries):
        struck = len(entry.strikes) if entry.left is not None else ""
        cells = (_shown(entry.line.outcome.corners), struck, _shown(entry.left))
        counts = "".join(f'<td class="count">{cell}</td>' for cell in cells)
        yield f'<tr><td><a href="#u{number}">{_name(entry)}</a></td>{counts}'
        yield f'<td class="wide">{_remark(entry)}</td></tr>\n'
    totals = (sum(entry.line.outcome.corners or 0 for entry in entries), sum(len(entry.strikes) for entry in entries),
              sum(entry.left or 0 for entry in entries))
    counts = "".join(f'<td class="count">{total}</td>' for total in totals)
    yield f'</tbody>\n<tfoot><tr><td>total</td>{counts}<td class="wide"></td></tr></tfoot>\n</table>\n'


def _piece(number: int, entry: Entry, wanted: Run) -> Iterator[str]:
    """An upload: its counts and picture, or why it has none."""
    outcome = entry.line.outcome
    yield f'<article id="u{number}">\n<h2>{_name(entry)}</h2>\n'
    if outcome.corners is None:
        yield f'<p class="none">No profile: {_refusal(entry)}</p>\n'
    else:
        struck = f", {len(entry.strikes)} struck, {entry.left} left" if entry.strikes else ""
        yield f"<p>{outcome.width} x {outcome.height} pixels: "
        yield f"{names.several(outcome.corners, 'corner')}{struck}. {_choice(entry)}</p>\n"
        for strike in entry.strikes:
            yield f"<p>Struck on {invoice.day(strike.at)}: {escape(formats.words(strike.corner))}.</p>\n"
        yield from _differences(entry)
        yield from _figure(entry)
    digests = [f"SHA-256 {outcome.sha256}"] if outcome.sha256 else []
    file = escape(names.line(f"{wanted.corners}/{outcome.file}"))
    digests += [f"corner file {file}, SHA-256 {outcome.file_sha256}"] if outcome.file else []
    yield f'<p class="small">{"; ".join(digests)}</p>\n</article>\n'


def _differences(entry: Entry) -> Iterator[str]:
    """Where the exact choice differs."""
    outcome = entry.line.outcome
    for cell, words in ((outcome.computed_only, "Computed only"), (outcome.exact_only, "By the exact choice only")):
        for corner in choices.corners_of(cell)[:MOST]:
            yield f'<p class="differs">{words}: {escape(formats.words(corner))}.</p>\n'


def _figure(entry: Entry) -> Iterator[str]:
    photo = _photograph(entry.line)
    if not len(photo.pixels):
        return
    title = f"{names.several(len(entry.corners), 'corner')}, {len(entry.strikes)} of them struck"
    yield "<figure>\n" + titled(smaller(_drawing(entry, photo), SIDE), title).decode("ascii")
    caption = [] if photo.at else ["The photograph is no longer where the batch saw it, or is another."]
    if len(entry.corners) != entry.line.outcome.corners:
        caption.append("The corner file is no longer as the batch made it: its corners are not drawn.")
    if len(entry.corners) > MOST:
        caption.append(f"The {MOST} strongest of {len(entry.corners)} corners are drawn.")
    yield f'<figcaption class="small">{" ".join(caption)}</figcaption>\n</figure>\n'


def _photograph(line: Line) -> zakdomp.Photograph:
    """The photograph that was counted, if it is still there; else a grey one of its sides, with no place of pixels."""
    outcome = line.outcome
    try:
        upload = uploads.read(uploads.Order(line.folder, "", {}), outcome.name)
        if hashlib.sha256(upload.content).hexdigest() == outcome.sha256:
            return zakdomp.read_pgm(upload.content)
    except OSError:
        pass
    width, height = outcome.width or 0, outcome.height or 0
    return zakdomp.Photograph(0, width, height, memoryview(bytes([GREY]) * (width * height)))


def _drawing(entry: Entry, photo: zakdomp.Photograph) -> Drawing:
    """The corners of an upload over its photograph, those of the other choice too, and crosses on what was struck."""
    outcome = entry.line.outcome
    computed, exact = (choices.corners_of(cell)[:MOST] for cell in (outcome.computed_only, outcome.exact_only))
    struck = {strike.corner for strike in entry.strikes}
    strongest = sorted(entry.corners, key=lambda corner: (corner not in struck, -corner.strength))[:MOST]
    corners = list(dict.fromkeys(strongest + computed + exact))
    alone = dict.fromkeys(computed, "computed") | dict.fromkeys(exact, "exact")
    return crossed(marked(photo, corners, alone, [False] * len(corners)), struck)


def _name(entry: Entry) -> str:
    return escape(names.line(entry.line.outcome.name))


def _refusal(entry: Entry) -> str:
    outcome = entry.line.outcome
    number = f"refused {outcome.number}: " if outcome.number is not None else ""
    return escape(f"{number}{names.line(outcome.words)}.")


def _remark(entry: Entry) -> str:
    return _refusal(entry) if entry.line.outcome.corners is None else _choice(entry)


def _choice(entry: Entry) -> str:
    """How the exact choice compares, in words."""
    outcome = entry.line.outcome
    words = {"yes": "the same list", "no": "another list"}.get(outcome.same_list, "not compared")
    count = outcome.exact_corners
    said = names.several(count, "corner") if isinstance(count, int) else str(count)
    return escape(f"By the exact choice {said}: {words}.")


def _shown(count: int | None) -> str:
    return "" if count is None else str(count)
