"""The uploads of a batch on a Dask cluster. This process reads them; the workers, which need this package and no
files, find. What a worker that dies had in hand the scheduler gives to another; without its scheduler a batch ends,
and the next run goes on."""
import logging
import time
import warnings
from collections.abc import Callable, Iterator
from concurrent.futures import CancelledError
from contextlib import contextmanager
from functools import partial
from itertools import islice
from typing import Any

from zakdomp_command.runners import AHEAD, Runner
from zakdomp_command.uploads import VERSION, Order, Outcome, Upload, find, read, unread, work

PATIENCE = 30
# a cluster has so long to have a worker, when a batch begins and when it lost all, and is asked so often
WORKERS, LOST, OFTEN = 5.0, 60.0, 1.0
PAUSE = 0.005
GONE = "the scheduler is gone: start the batch again to go on"


def cluster(address: str) -> Runner:
    """The workers of a scheduler."""
    try:
        import distributed
    except ImportError as problem:
        words = "--scheduler needs the Python package distributed (python3-distributed of Debian)"
        raise ValueError(words) from problem
    logging.disable()  # a lost connection is told in one line, by `_asking`
    return partial(_run, distributed, address)


def _run(distributed: Any, address: str, order: Order, names: list[str]) -> Iterator[Outcome]:
    """Yields outcomes as they come. Some uploads for each thread of the cluster are under way at a time."""
    waiting = iter(names)
    warnings.filterwarnings("ignore", "(?s).*[Ll]arge (object|graph)")
    with _client(distributed, address) as client:
        _manned(client, address, lambda: not names or _threads(client) > 0, WORKERS)
        running = distributed.as_completed(loop=client.loop)
        while True:
            for name in islice(waiting, max(_places(client) - running.count(), 0)):
                task = _begun(client, order, name)
                if isinstance(task, Outcome):
                    yield task
                else:
                    running.add(task)
            if not running.count():
                return
            _manned(client, address, running.has_ready, LOST)
            yield _ended(client, distributed.KilledWorker, order, next(running))


def _client(distributed: Any, address: str) -> Any:
    try:
        distributed.comm.resolve_address(address)  # what is no address is told at once
        return distributed.Client(address, timeout=PATIENCE, set_as_default=False)
    except (OSError, ValueError, OverflowError) as problem:
        raise OSError(0, f"no scheduler at {address}: {problem}") from problem


def _manned(client: Any, address: str, ready: Callable[[], bool], patience: float) -> None:
    """Waits until it is ready. A cluster that has no worker for so long, where a batch would wait for ever, is told."""
    asked = manned = time.monotonic()
    while not ready():
        time.sleep(PAUSE)
        if time.monotonic() - asked > OFTEN:
            asked = time.monotonic()
            manned = asked if _threads(client) else manned
        if time.monotonic() - manned > patience:
            raise OSError(0, f"the scheduler at {address} has no workers: start some, and then the batch again")


@contextmanager
def _asking(client: Any) -> Iterator[None]:
    """For what is asked of the cluster: a client that lost its scheduler seeks it again, but what was under way there
    is lost."""
    try:
        if client.status != "running":
            raise OSError(client.status)
        yield
    except (OSError, CancelledError) as problem:
        raise OSError(0, GONE) from problem


def _threads(client: Any) -> int:
    with _asking(client):
        return sum(client.nthreads().values())


def _places(client: Any) -> int:
    """How many uploads may be under way."""
    return AHEAD * max(_threads(client), 1)


def _begun(client: Any, order: Order, name: str) -> Any:
    """The task of an upload, or its outcome where it cannot be read."""
    try:
        upload = read(order, name)
    except OSError as problem:
        return unread(name, problem)
    with _asking(client):
        task = client.submit(_find, VERSION, order, name, upload, pure=False)
    task.zakdomp_name = name
    return task


def _ended(client: Any, killed: type[Exception], order: Order, task: Any) -> Outcome:
    """The outcome of a task. Where the worker that had it died, it is waited for again; an upload on which worker after
    worker died is done here."""
    outcome: Outcome | None = None
    with _asking(client):
        problem = task.exception()
        try:
            outcome = None if problem else client.gather(task)
        except killed as death:
            problem = death
    if isinstance(problem, killed):
        return work(order, task.zakdomp_name)
    if outcome is None:
        raise OSError(0, f"a worker failed: {type(problem).__name__}: {problem}")
    return outcome


def _find(version: str, order: Order, name: str, upload: Upload) -> Outcome:
    """What a worker does; its library is to be that of the batch."""
    if VERSION != version:
        raise ValueError(f"a worker has zakdomp {VERSION}, and not {version}")
    return find(order, name, upload)
