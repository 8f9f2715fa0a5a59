"""Names of files as text that harms no reader: one line, no control or direction characters, no formula of a
spreadsheet, always valid UTF-8; and the same name back from it. A backslash is written \\\\. Each byte of what is not
shown as it is, \\x and two digits: what is no UTF-8 or not printable, and at the ends of a cell also a space, and at
its beginning what makes it a formula."""
import os
import re

FORMULA = "=+-@＝＋－＠"
WRITTEN = re.compile(r"\\(\\|x[0-9a-f]{2})")


def line(text: str) -> str:
    """A text or a name on one line, and no other's."""
    return "".join(_shown(character) for character in text)


def several(count: int, noun: str) -> str:
    """So many of something, in words."""
    return f"{count} {noun}{'' if count == 1 else 's'}"


def cell(name: str) -> str:
    """A name as a cell of a table."""
    inner = name.strip(" ")
    before = len(name) - len(name.lstrip(" ")) if inner else len(name)
    after = len(name) - before - len(inner)
    first = _bytes(inner[0]) if inner and inner[0] in FORMULA and not before else line(inner[:1])
    return before * "\\x20" + first + line(inner[1:]) + after * "\\x20"


def name_of(text: str) -> str:
    """The name that `cell` or `line` wrote so. Raises ValueError where neither writes this."""
    name = os.fsdecode(_undone(text))
    if text not in (cell(name), line(name)):
        raise ValueError(f"no name of an invoice: {line(text)}")
    return name


def _shown(character: str) -> str:
    if character == "\\":
        return "\\\\"
    return character if character.isprintable() else _bytes(character)


def _bytes(character: str) -> str:
    return "".join(f"\\x{byte:02x}" for byte in character.encode("utf-8", "surrogateescape"))


def _undone(text: str) -> bytes:
    """The bytes of a name: those that are written as digits, and the UTF-8 of all else."""
    content, at = b"", 0
    for found in WRITTEN.finditer(text):
        content += text[at:found.start()].encode("utf-8", "surrogateescape")
        content += b"\\" if found[1] == "\\" else bytes.fromhex(found[1][1:])
        at = found.end()
    return content + text[at:].encode("utf-8", "surrogateescape")
