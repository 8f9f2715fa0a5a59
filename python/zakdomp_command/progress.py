"""How far a batch is: a bar on a terminal, and nothing in a log."""
import sys
import time

WIDTH = 30
PAUSE = 0.1


class Bar:
    """A line on standard error that is written over, if that is a terminal."""

    def __init__(self, total: int, done: int) -> None:
        self._total, self._done = total, done
        self._shown = sys.stderr is not None and sys.stderr.isatty()
        self._last = 0.0
        self._draw()

    def step(self) -> None:
        self._done += 1
        if self._done == self._total or time.monotonic() - self._last > PAUSE:
            self._draw()

    def end(self) -> None:
        """Leaves the line empty."""
        if self._shown:
            sys.stderr.write("\r\x1b[K")
            sys.stderr.flush()

    def _draw(self) -> None:
        if not self._shown:
            return
        filled = WIDTH * self._done // max(self._total, 1)
        sys.stderr.write(f"\r[{'#' * filled}{'.' * (WIDTH - filled)}] {self._done} of {self._total}")
        sys.stderr.flush()
        self._last = time.monotonic()
