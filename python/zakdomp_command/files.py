"""Files that are read whole, and files that appear whole or not at all."""
import errno
import os
import sys
import tempfile

from zakdomp_command.names import line


def read(name: str, most: int = -1) -> bytes:
    """The bytes of a file, or so many of them; `-` is standard input."""
    if name == "-":
        if sys.stdin is None:
            raise OSError(errno.EBADF, os.strerror(errno.EBADF), "standard input")
        return sys.stdin.buffer.read(most)
    with open(name, "rb") as file:
        return file.read(most)


def say(content: str | bytes) -> None:
    """Writes text or bytes to standard output, whole."""
    try:
        if sys.stdout is None:
            raise OSError(errno.EBADF, os.strerror(errno.EBADF))
        sys.stdout.flush()
        sys.stdout.buffer.write(content.encode("utf-8", "surrogateescape") if isinstance(content, str) else content)
        sys.stdout.flush()
    except BrokenPipeError:
        raise
    except OSError as problem:
        raise OSError(problem.errno, problem.strerror, "standard output") from problem


def tell(words: str, name: str | None) -> None:
    """Says a line on standard error, of a file if one is named. Where standard error is closed nothing is said, for
    `print` would then take standard output."""
    if sys.stderr is not None:
        print(f"zakdomp: {line(name) + ': ' if name else ''}{line(words)}", file=sys.stderr)


def apart(given: str, *made: str | None) -> None:
    """Checks that no file that is made takes the place of the one that is read, or of another that is made."""
    names = [name for name in made if name and (os.path.isfile(name) or not os.path.exists(name))]
    names += [given] * (given != "-")
    if len({os.path.realpath(name) for name in names}) < len(names):
        raise ValueError("two of the files that are named are one: it would be written over")


def place(name: str, content: bytes) -> None:
    """Makes a file, or puts it in the place of an older one: whoever looks finds the older bytes or all of the new
    ones. What is no file, a pipe or a device, is written to, and stays what it is; so does a link to a file."""
    try:
        if os.path.exists(name) and not os.path.isfile(name):
            with open(name, "wb") as other:
                other.write(content)
        else:
            _place(os.path.realpath(name), content)
    except OSError as problem:
        raise OSError(problem.errno, problem.strerror, name) from problem


def _place(name: str, content: bytes) -> None:
    handle, part = tempfile.mkstemp(prefix=".zakdomp-", suffix=".part", dir=os.path.dirname(name))
    try:
        with open(handle, "wb") as file:
            file.write(content)
            file.flush()
            os.fchmod(handle, 0o666 & ~_mask())
            os.fsync(handle)
        os.replace(part, name)
    except BaseException:
        os.unlink(part)
        raise
    settled(os.path.dirname(name))


def settled(folder: str) -> None:
    """Waits until the names of a folder are on the disk, where its file system can be asked."""
    handle = os.open(folder, os.O_RDONLY)
    try:
        os.fsync(handle)
    except OSError as problem:
        if problem.errno != errno.EINVAL:
            raise
    finally:
        os.close(handle)


def remove_parts(folder: str) -> None:
    """Removes what `place` left behind in a folder where it was killed."""
    for entry in os.scandir(folder):
        if entry.name.startswith(".zakdomp-") and entry.name.endswith(".part"):
            os.unlink(entry.path)


def _mask() -> int:
    """The bits of a mode that new files do not get."""
    mask = os.umask(0o077)
    os.umask(mask)
    return mask
