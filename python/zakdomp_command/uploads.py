"""One upload of a batch: from its bytes to what is said of it. This runs in any process, on any machine of a cluster,
and writes nothing."""
import errno
import hashlib
import os
import stat
from typing import Any, BinaryIO, NamedTuple

import zakdomp
from zakdomp_command import choices, looks

# no more is read of an upload: the pixels of the largest photograph, and a header with comments of a megabyte
LONGEST = zakdomp.LARGEST_SIDE ** 2 + looks.HEAD


class Order(NamedTuple):
    """What a batch asks of each upload: where it lies, the format of its corner file, and the finder's parameters."""
    folder: str
    kind: str
    parameters: dict[str, Any]


class Outcome(NamedTuple):
    """What became of an upload: its sides, corners and ties, and how the exact choice compares, in the invoice's words;
    or the number and words of its refusal; or words alone, where it could not be read. `text` is the corner file until
    it is placed in `file`, and `file_sha256` its digest then. `size` is that of the upload, `sha256` the digest of what
    was read of it, and `put` the second in which it was put where it lies."""
    name: str
    width: int | None = None
    height: int | None = None
    corners: int | None = None
    ties: int | None = None
    number: int | None = None
    words: str = ""
    exact_corners: int | str | None = None
    same_list: str = ""
    computed_only: str = ""
    exact_only: str = ""
    size: int = 0
    sha256: str = ""
    put: int = 0
    file: str = ""
    file_sha256: str = ""
    text: str | None = None

    @property
    def settled(self) -> bool:
        """Whether the library answered; else the next batch tries again."""
        return self.corners is not None or self.number is not None


class Upload(NamedTuple):
    """The bytes of an upload, as many as a photograph can have, its size, and when it was put where it lies."""
    content: bytes
    size: int
    put: int


# a worker is to be of this version and to say as much of each upload
VERSION = f"{zakdomp.__version__} ({' '.join(Outcome._fields)})"


def read(order: Order, name: str) -> Upload:
    """Reads an upload. One that changes meanwhile is still being written. A device is not even opened: that alone can
    start something."""
    path = os.path.join(order.folder, name)
    _regular(os.stat(path))
    handle = os.open(path, os.O_RDONLY | os.O_NONBLOCK | os.O_NOCTTY)
    with open(handle, "rb") as file:
        before = os.fstat(handle)
        _regular(before)
        content = _content(file)
        after = os.fstat(handle)
        changed = (before.st_size, before.st_mtime_ns) != (after.st_size, after.st_mtime_ns)
        if changed or len(content) != min(after.st_size, LONGEST):
            raise OSError(errno.EBUSY, "it changed while it was read: start the batch again when it is whole")
        return Upload(content, after.st_size, int(after.st_ctime))


def _regular(state: os.stat_result) -> None:
    if not stat.S_ISREG(state.st_mode):
        raise OSError(errno.EINVAL, "not a regular file")


def _content(file: BinaryIO) -> bytes:
    """As many bytes of a file as a photograph can have. Some files of the system have none at the moment."""
    try:
        content: bytes | None = file.read(LONGEST)
    except MemoryError as problem:
        raise OSError(errno.ENOMEM, os.strerror(errno.ENOMEM)) from problem
    if content is None:
        raise OSError(errno.EAGAIN, os.strerror(errno.EAGAIN))
    return content


def unread(name: str, problem: OSError) -> Outcome:
    """The outcome of an upload about which the machine, and not the library, says that there is none."""
    return Outcome(name, words=f"cannot be read: {problem.strerror}")


def find(order: Order, name: str, upload: Upload) -> Outcome:
    """What the library finds in an upload, with the text of its corner file."""
    digest = hashlib.sha256(upload.content).hexdigest()
    return _found(order, name, upload.content)._replace(size=upload.size, put=upload.put, sha256=digest)


def work(order: Order, name: str) -> Outcome:
    """Reads an upload, and finds its corners."""
    try:
        upload = read(order, name)
    except OSError as problem:
        return unread(name, problem)
    return find(order, name, upload)


def _found(order: Order, name: str, content: bytes) -> Outcome:
    try:
        found = choices.find(content, order.parameters)
    except zakdomp.Refusal as refusal:
        return Outcome(name, number=refusal.number, words=looks.words(refusal.number, content))
    except MemoryError:
        return Outcome(name, words="not enough memory for it: start the batch again with fewer --jobs")
    text = choices.written(order.kind, found, order.parameters)
    said: dict[str, Any] = choices.cells(found.comparison)
    photo, frame = found.photo, found.frame
    return Outcome(name, photo.width, photo.height, len(frame.corners), frame.ties, **said, text=text)
