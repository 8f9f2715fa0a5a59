"""The ledger of an output folder, one SQLite database: which uploads were seen, what was asked of them in which run,
what became of each, and which corners were struck. A connection lives as long as one reading or one transaction, so
that any number of readers find it whole, strikes come between the uploads of a batch, and no process is begun with one
in hand."""
import errno
import fcntl
import json
import os
import sqlite3
import time
import urllib.parse
from collections.abc import Iterator
from contextlib import closing, contextmanager
from typing import Any, NamedTuple

import zakdomp
from zakdomp_command import formats
from zakdomp_command.uploads import Outcome

NAME = "ledger.sqlite"
FIRST = "invoice.csv"
FORM = 1
PATIENCE = 5.0
BUSY = 60.0
CHANGED = 16
TABLES = """
CREATE TABLE runs (run INTEGER PRIMARY KEY, version TEXT NOT NULL, parameters TEXT NOT NULL, format TEXT NOT NULL,
    began INTEGER NOT NULL, whole INTEGER NOT NULL, UNIQUE (version, parameters, format));
CREATE TABLE uploads (upload INTEGER PRIMARY KEY, name BLOB NOT NULL, size INTEGER NOT NULL, sha256 TEXT NOT NULL,
    seen INTEGER NOT NULL, folder BLOB NOT NULL, UNIQUE (name, size, sha256));
CREATE TABLE outcomes (run INTEGER NOT NULL REFERENCES runs, upload INTEGER NOT NULL REFERENCES uploads,
    at INTEGER NOT NULL, width INTEGER, height INTEGER, corners INTEGER, ties INTEGER, number INTEGER,
    words TEXT NOT NULL, exact_corners, same_list TEXT NOT NULL, computed_only TEXT NOT NULL, exact_only TEXT NOT NULL,
    file BLOB NOT NULL, file_sha256 TEXT NOT NULL, PRIMARY KEY (run, upload));
CREATE TABLE strikes (run INTEGER NOT NULL, upload INTEGER NOT NULL, change INTEGER NOT NULL, place INTEGER NOT NULL,
    x REAL NOT NULL, y REAL NOT NULL, strength REAL NOT NULL, neighbours INTEGER NOT NULL, at INTEGER NOT NULL,
    PRIMARY KEY (run, upload, change), FOREIGN KEY (run, upload) REFERENCES outcomes);
"""
SAID = ("width", "height", "corners", "ties", "number", "words", "exact_corners", "same_list", "computed_only",
        "exact_only", "file_sha256")
LINES = f"""SELECT upload, name, size, sha256, seen, folder, at, file, {', '.join(SAID)}
    FROM outcomes NATURAL JOIN uploads WHERE run = ? ORDER BY name, upload"""
NOTE = f"""INSERT INTO outcomes (run, upload, at, file, {', '.join(SAID)})
    VALUES (?, ?, ?, ?{', ?' * len(SAID)})
    ON CONFLICT (run, upload) DO UPDATE SET file = excluded.file WHERE file_sha256 = excluded.file_sha256"""
UNREAD = "DELETE FROM outcomes WHERE run = ? AND upload IN (SELECT upload FROM uploads WHERE name = ? AND sha256 = '')"
STRIKES = """SELECT upload, change, place, at, x, y, strength, neighbours FROM strikes WHERE run = ?
    ORDER BY upload, change"""


class Run(NamedTuple):
    """What was asked: by which version, with which parameters as JSON, for which format; when it began first, and
    whether its last batch came to its end."""
    run: int
    version: str
    parameters: str
    format: str
    began: int
    whole: bool

    @property
    def corners(self) -> str:
        """The folder of its corner files."""
        return "corners" if self.run == 1 else f"corners-{self.run}"

    @property
    def invoice(self) -> str:
        return FIRST if self.run == 1 else f"invoice-{self.run}.csv"

    @property
    def report(self) -> str:
        return "report.html" if self.run == 1 else f"report-{self.run}.html"


class Line(NamedTuple):
    """An upload of a run, when it was seen and where last, and what became of it. Its digest is empty where it could
    not be read."""
    upload: int
    seen: int
    folder: str
    at: int
    outcome: Outcome


class Strike(NamedTuple):
    """A corner that was struck: the list's change number and the place by which it was, the corner, and when."""
    change: int
    place: int
    corner: zakdomp.Corner
    at: int


class Ledger:
    """The ledger of a folder. `begin` makes it where it is not there."""

    def __init__(self, folder: str) -> None:
        self.folder = folder
        self.path = os.path.join(folder, NAME)

    def begin(self, version: str, parameters: dict[str, Any], kind: str) -> Run:
        """The run of a version, parameters and a format, which is not whole until `end`."""
        asked = (version, json.dumps(formats.said(parameters)), kind)
        with self._transaction(new=True) as ledger:
            ledger.execute("INSERT OR IGNORE INTO runs (version, parameters, format, began, whole) "
                           "VALUES (?, ?, ?, ?, 0)", (*asked, now()))
            ledger.execute("UPDATE runs SET whole = 0 WHERE (version, parameters, format) = (?, ?, ?)", asked)
            row = ledger.execute("SELECT * FROM runs WHERE (version, parameters, format) = (?, ?, ?)", asked).fetchone()
            return Run(*row)

    def end(self, run: Run) -> None:
        """Notes that a batch of a run came to its end."""
        with self._transaction() as ledger:
            ledger.execute("UPDATE runs SET whole = 1 WHERE run = ?", (run.run,))

    def add(self, run: Run, folder: str, outcomes: list[Outcome]) -> None:
        """Notes outcomes of uploads of a folder, in one transaction. What is there is never changed, but that a corner
        file that was lost may be found elsewhere; and a line of an upload that could not be read is no more when it
        was."""
        with self._transaction() as ledger:
            for outcome in outcomes:
                upload = _upload(ledger, folder, outcome)
                values = (run.run, upload, now(), os.fsencode(outcome.file), *(getattr(outcome, name) for name in SAID))
                ledger.execute(UNREAD, (run.run, os.fsencode(outcome.name)))
                ledger.execute(NOTE, values)

    def runs(self) -> list[Run]:
        with self._reading() as ledger:
            return [Run(*row) for row in ledger.execute("SELECT * FROM runs ORDER BY run")]

    def run(self, number: int | None) -> Run:
        """The run of a number, or the last."""
        runs = {run.run: run for run in self.runs()}
        if not runs or number is not None and number not in runs:
            has = f"{number}: it has runs {', '.join(map(str, runs))}" if runs else "yet"
            raise ValueError(f"{NAME} has no run {has}")
        return runs[max(runs) if number is None else number]

    def lines(self, run: Run) -> list[Line]:
        """A line for each upload of a run, in the order of their names' bytes."""
        with self._reading() as ledger:
            return [_line(row) for row in ledger.execute(LINES, (run.run,))]

    def uploads(self) -> list[tuple[str, int]]:
        """The name of each upload of any run, and when it was seen."""
        with self._reading() as ledger:
            rows = ledger.execute("SELECT name, seen FROM uploads ORDER BY name, upload")
            return [(os.fsdecode(name), seen) for name, seen in rows]

    def strikes(self, run: Run) -> dict[int, list[Strike]]:
        """What was struck from the lists of a run, by their uploads, in the order of its change numbers."""
        found: dict[int, list[Strike]] = {}
        with self._reading() as ledger:
            for upload, change, place, at, *corner in ledger.execute(STRIKES, (run.run,)):
                found.setdefault(upload, []).append(Strike(change, place, zakdomp.Corner(*corner), at))
        return found

    def strike(self, run: Run, line: Line, strike: Strike) -> None:
        """Notes a strike. A change number is used once: one that another process has noted meanwhile is refused."""
        with self._transaction() as ledger:
            values = (run.run, line.upload, strike.change, strike.place, *strike.corner, strike.at)
            noted = ledger.execute("INSERT OR IGNORE INTO strikes VALUES (?, ?, ?, ?, ?, ?, ?, ?, ?)", values).rowcount
        if not noted:
            raise zakdomp.Refusal(CHANGED)

    @contextmanager
    def alone(self) -> Iterator[None]:
        """For whatever asks and then writes what depends on the answer: no other writes between."""
        with self._transaction():
            yield

    @contextmanager
    def _reading(self) -> Iterator[sqlite3.Connection]:
        with self._told(), closing(self._connected("rw")) as connection:
            yield connection

    @contextmanager
    def _transaction(self, new: bool = False) -> Iterator[sqlite3.Connection]:
        """All of it or nothing; it is on the disk when this ends."""
        with self._told(), closing(self._connected("rwc" if new else "rw")) as connection:
            connection.execute("BEGIN IMMEDIATE")
            if new and not connection.execute("PRAGMA user_version").fetchone()[0]:
                for statement in TABLES.split(";"):
                    connection.execute(statement)
                connection.execute(f"PRAGMA user_version = {FORM}")
            yield connection
            connection.execute("COMMIT")

    def _connected(self, mode: str) -> sqlite3.Connection:
        if mode == "rw" and not os.path.exists(self.path):
            raise OSError(errno.ENOENT, "there is no ledger: zakdomp batch makes one", self.path)
        address = f"file:{urllib.parse.quote(os.path.abspath(os.fsencode(self.path)))}?mode={mode}"
        connection = sqlite3.connect(address, timeout=BUSY, isolation_level=None, uri=True)
        try:
            connection.execute("PRAGMA synchronous = EXTRA")
            connection.execute("PRAGMA foreign_keys = ON")
            form = connection.execute("PRAGMA user_version").fetchone()[0]
            if form not in ((FORM, 0) if mode == "rwc" else (FORM,)):
                words = f"no ledger of this version of zakdomp (form {form}, not {FORM})"
                raise OSError(errno.EINVAL, words, self.path)
        except BaseException:
            connection.close()
            raise
        return connection

    @contextmanager
    def _told(self) -> Iterator[None]:
        try:
            yield
        except sqlite3.Error as problem:
            raise OSError(errno.EIO, f"the ledger cannot be read or written: {problem}", self.path) from problem


@contextmanager
def held(folder: str) -> Iterator[None]:
    """One batch at a time in a folder. Processes of a killed run end within a second, so it is waited for."""
    handle, end = os.open(folder, os.O_RDONLY), time.monotonic() + PATIENCE
    try:
        while True:
            try:
                fcntl.flock(handle, fcntl.LOCK_EX | fcntl.LOCK_NB)
                break
            except BlockingIOError as problem:
                if time.monotonic() > end:
                    raise OSError(problem.errno, "another batch is at work on this folder", folder) from problem
                time.sleep(0.05)
        yield
    finally:
        os.close(handle)


def now() -> int:
    return int(time.time())


def _upload(ledger: sqlite3.Connection, folder: str, outcome: Outcome) -> int:
    """The number of an upload, which is noted if it is new. One that was put there again since it was seen is seen
    again: it is held from that day on. None is seen before it was put there, whatever this machine's clock says."""
    asked = (os.fsencode(outcome.name), *((outcome.size, outcome.sha256) if outcome.settled else (0, "")))
    seen = max(now(), outcome.put)
    ledger.execute("INSERT INTO uploads (name, size, sha256, seen, folder) VALUES (?, ?, ?, ?, ?) ON CONFLICT (name, "
                   "size, sha256) DO UPDATE SET folder = excluded.folder", (*asked, seen, os.fsencode(folder)))
    ledger.execute("UPDATE uploads SET seen = ? WHERE (name, size, sha256) = (?, ?, ?) AND seen < ?",
                   (seen, *asked, outcome.put))
    row = ledger.execute("SELECT upload FROM uploads WHERE (name, size, sha256) = (?, ?, ?)", asked).fetchone()
    return int(row[0])


def _line(row: tuple[Any, ...]) -> Line:
    upload, name, size, sha256, seen, folder, at, file, *said = row
    outcome = Outcome(os.fsdecode(name), size=size, sha256=sha256, file=os.fsdecode(file), **dict(zip(SAID, said)))
    return Line(upload, seen, os.fsdecode(folder), at, outcome)
