"""The corner files of a run. They are kept for good: none takes the place of other bytes."""
import errno
import hashlib
import os

from zakdomp_command import files, formats
from zakdomp_command.uploads import Outcome

# for uploads whose own name has no file, or one with other bytes
BY_DIGEST = "by-digest"
# what a disk says of any name: then no other is tried
DISK = {errno.ENOSPC, errno.EDQUOT, errno.EROFS, errno.EIO, errno.ENOMEM, errno.EMFILE, errno.ENFILE}


def begin(folder: str) -> None:
    """Makes the folder of a run, or removes from it what a killed batch left behind: files that were not yet whole."""
    os.makedirs(folder, exist_ok=True)
    for place in (folder, os.path.join(folder, BY_DIGEST)):
        if os.path.isdir(place):
            files.remove_parts(place)


def settle(folder: str, kind: str, outcome: Outcome, owners: dict[str, str]) -> Outcome:
    """Puts the corner file of an outcome in its place, under its upload's name if it can have it: `owners` are the
    files of the run and the digests of their uploads, of which it becomes one. What is then left of the text is its
    digest."""
    if outcome.text is None:
        return outcome
    content, suffix = outcome.text.encode("ascii"), formats.SUFFIXES[kind]
    own, other = outcome.name + suffix, by_digest(outcome.name, outcome.sha256) + suffix
    free = owners.get(own, outcome.sha256) == outcome.sha256
    file = own if free and _named(os.path.join(folder, own), content) else other
    if file == other:
        os.makedirs(os.path.join(folder, BY_DIGEST), exist_ok=True)
        files.settled(folder)
        if not _placed(os.path.join(folder, other), content):
            raise OSError(errno.EEXIST, "this is not the corner file that was put here: move it away",
                          os.path.join(folder, other))
    owners[file] = outcome.sha256
    return outcome._replace(text=None, file=file, file_sha256=hashlib.sha256(content).hexdigest())


def by_digest(name: str, sha256: str) -> str:
    """Where the corner file of an upload is whose own name has none. It is no other's, so that each list is struck
    alone: uploads with the same bytes have it under the digests of their names."""
    return os.path.join(BY_DIGEST, f"{sha256}-{hashlib.sha256(os.fsencode(name)).hexdigest()[:16]}")


def text(folder: str, outcome: Outcome) -> str | None:
    """The corner file of an outcome, if it has one and that is still as it was."""
    if not outcome.file:
        return None
    try:
        content = files.read(os.path.join(folder, outcome.file))
    except OSError:
        return None
    return content.decode("ascii") if hashlib.sha256(content).hexdigest() == outcome.file_sha256 else None


def _named(path: str, content: bytes) -> bool:
    """Whether a file has these bytes under its upload's name, which the machine may not take."""
    try:
        return _placed(path, content)
    except OSError as problem:
        if problem.errno in DISK:
            raise
        return False


def _placed(path: str, content: bytes) -> bool:
    """Whether a file has these bytes: it is made where nothing is."""
    if not os.path.lexists(path):
        files.place(path, content)
        return True
    return os.path.isfile(path) and files.read(path) == content
