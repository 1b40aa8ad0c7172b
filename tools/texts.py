"""Scripts as files have them: read whole, and without the mark that some editors put at the head of a file."""

from __future__ import annotations

import sys
from collections.abc import Callable

MARK = b"\xef\xbb\xbf"
WIDE_MARKS = (b"\xff\xfe", b"\xfe\xff")
MARK_TOLD = "a byte order mark stood at the head of %s: it is left out"
WIDE_TOLD = "%s is written in UTF-16, two bytes a sign: save it as UTF-8"


def without_mark(data: bytes) -> tuple[bytes, bool]:
    """A script's bytes without the mark, and whether there was one."""
    return (data[len(MARK):], True) if data.startswith(MARK) else (data, False)


def of_mark(data: bytes, name: str, say: Callable[[str], None]) -> bytes:
    """A script's bytes without the mark; tells of it, and of a file of wide signs, which no line of can be read."""
    script, had_mark = without_mark(data)
    if had_mark:
        say(MARK_TOLD % name)
    if data.startswith(WIDE_MARKS):
        say(WIDE_TOLD % name)
    return script


def read_script(path: str, say: Callable[[str], None]) -> bytes:
    """The bytes of the script at a path, or on standard input where the path is `-`."""
    if path == "-":
        return of_mark(sys.stdin.buffer.read(), "standard input", say)
    with open(path, "rb") as file:
        return of_mark(file.read(), path, say)
