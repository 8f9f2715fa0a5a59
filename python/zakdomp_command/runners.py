"""Ways to work through the uploads of a batch: one after the other, or by processes of this machine. Each yields
outcomes as they come."""
import multiprocessing
import os
import signal
import threading
import time
from collections.abc import Callable, Iterator
from concurrent.futures import FIRST_COMPLETED, Future, ProcessPoolExecutor, wait
from concurrent.futures.process import BrokenProcessPool
from functools import partial
from itertools import islice

from zakdomp_command.uploads import Order, Outcome, unread, work

AHEAD = 3
GROUP = 4
DEATHS = 3

Runner = Callable[[Order, list[str]], Iterator[Outcome]]


def alone(order: Order, names: list[str]) -> Iterator[Outcome]:
    """One upload after the other, in this process."""
    return (work(order, name) for name in names)


def processes(jobs: int) -> Runner:
    """Some processes of this machine."""
    return partial(_surviving, jobs)


def _surviving(jobs: int, order: Order, names: list[str]) -> Iterator[Outcome]:
    """Where a process dies, the uploads that are not done are given to new ones. When that has happened some times and
    none of them was done, those that were under way get a process each, and one whose process dies has its line."""
    left = dict.fromkeys(names)
    deaths = 0
    while left:
        try:
            for outcome in _pool(jobs, order, list(left)):
                del left[outcome.name]
                deaths = 0
                yield outcome
        except BrokenProcessPool:
            deaths += 1
            if deaths == DEATHS:
                for name in list(left)[:AHEAD * GROUP * jobs]:
                    del left[name]
                    yield _single(order, name)
                deaths = 0


def _single(order: Order, name: str) -> Outcome:
    """An upload in a process of its own."""
    try:
        return next(_pool(1, order, [name]))
    except BrokenProcessPool:
        return unread(name, OSError(0, f"the process that worked on it died {DEATHS + 1} times"))


def _pool(jobs: int, order: Order, names: list[str]) -> Iterator[Outcome]:
    """Some groups of uploads are under way for each process, so that none of them waits. There are no more processes
    than uploads."""
    jobs = min(jobs, len(names))
    context = multiprocessing.get_context("fork")
    executor = ProcessPoolExecutor(jobs, context, _begin, (os.getpid(),))
    waiting = _groups(names, jobs)
    try:
        first = islice(waiting, AHEAD * jobs)
        running: set[Future[list[Outcome]]] = {executor.submit(_work, order, group) for group in first}
        while running:
            ended, running = wait(running, return_when=FIRST_COMPLETED)
            running |= {executor.submit(_work, order, group) for group in islice(waiting, len(ended))}
            for future in ended:
                yield from future.result()
    finally:
        executor.shutdown(cancel_futures=True)


def _groups(names: list[str], jobs: int) -> Iterator[list[str]]:
    """The uploads in groups: small photographs take no longer than to hand them over one by one. Few uploads are handed
    over so."""
    size = max(1, min(GROUP, len(names) // (16 * jobs)))
    return (names[start:start + size] for start in range(0, len(names), size))


def _work(order: Order, group: list[str]) -> list[Outcome]:
    return [work(order, name) for name in group]


def _begin(parent: int) -> None:
    """A process that works for a batch leaves an interrupt to its parent, and ends when that is gone."""
    signal.signal(signal.SIGINT, signal.SIG_IGN)
    threading.Thread(target=_watch, args=(parent,), daemon=True).start()


def _watch(parent: int) -> None:
    while os.getppid() == parent:
        time.sleep(0.2)
    os._exit(1)
