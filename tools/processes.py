"""The processes of this machine, as far as its /proc tells."""

from __future__ import annotations

import os
from collections.abc import Iterable, Iterator

TICK = os.sysconf("SC_CLK_TCK") if hasattr(os, "sysconf") else 100


def folder_of(number: int) -> str:
    """The folder of a process, or none where it has ended and its parent hasn't asked for its status yet."""
    try:
        return os.readlink("/proc/%d/cwd" % number)
    except OSError:
        return ""


class Process:
    """A process: its number, its parent's, its words, its folder, and its seconds of processor time: its own, and with those of its
    ended children."""

    def __init__(self, number: int) -> None:
        with open("/proc/%d/stat" % number) as file:
            stat = file.read().rpartition(")")[2].split()
        with open("/proc/%d/cmdline" % number, "rb") as file:
            self.words = file.read().decode(errors="replace").split("\0")
        self.folder = folder_of(number)
        self.number, self.parent = number, int(stat[1])
        times = [int(ticks) / TICK for ticks in stat[11:15]]
        self.own, self.whole = sum(times[:2]), sum(times)


def processes() -> Iterator[Process]:
    """All processes that can be seen."""
    for number in os.listdir("/proc") if os.path.isdir("/proc") else []:
        try:
            if number.isdigit():
                yield Process(int(number))
        except (OSError, ValueError):
            continue  # it has ended, or is another user's


def below(root: int) -> list[Process]:
    """The process of a number and all that came of it, as they are now."""
    seen = list(processes())
    numbers, before = {root}, 0
    while len(numbers) > before:
        before = len(numbers)
        numbers |= {process.number for process in seen if process.parent in numbers}
    return [process for process in seen if process.number in numbers]


def spent(found: Iterable[Process]) -> float:
    """The seconds of processor time of these processes and of their ended children."""
    return sum(process.whole for process in found)
