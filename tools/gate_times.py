"""Runs a command, passes on what it prints, and says at the end what the prover's steps took of processor time.

usage: tools/gate_times COMMAND [WORD ..]
       tools/gate_times --page [RECORD ..]

A step is the proof of a crate, the proof of its tests, what its must-fail edits stand on, or one of these edits, which is told by the
text that it makes. The five dearest steps are said, each edit that took more than 30 seconds, and each crate that took more than a
tenth more than docs/GATE.md tells of it; all steps are listed in build/gate_times.txt (GATE_TIMES_ALL=1 says them all), and where no
step is missing in build/gate_times_whole.txt too. The times are read off the prover's processes once a second, so they are good to a
second or two a process. It ends with the command's status.

--page writes the table of docs/GATE.md from the record of the last whole run, or from the given ones where a run was made in pieces.
"""

from __future__ import annotations

import collections
import os
import subprocess
import sys
import time
from collections.abc import Mapping

from gate_record import DEAR_EDIT, EDIT, GROUND, PROOF, TESTS, Step, grown, lacking, part_of, taken_in, told_by
from pages import put_part
from processes import Process, below
from programs import TOP
from telling import give_up

MOST = 5
PAGE = os.path.join(TOP, "docs", "GATE.md")
LIST = os.path.join(TOP, "build", "gate_times.txt")
WHOLE = os.path.join(TOP, "build", "gate_times_whole.txt")


def text_of(path: str) -> str:
    with open(path, encoding="utf-8", errors="replace") as file:
        return file.read()


def edited(edit: str, crate: str) -> dict[str, str]:
    """The files that an edit changes, by their path in the crate, as they are with it."""
    path, old = "", None
    texts: dict[str, str] = {}
    for line in text_of(edit).split("\n"):
        if line.startswith("file: "):
            path = line[6:].strip()
            texts.setdefault(path, text_of(os.path.join(crate, path)))
        elif line.startswith("old: "):
            old = line[5:]
        elif line.startswith("new:") and path and old:
            texts[path] = texts[path].replace(old, line[4:][line[4:5] == " ":])
    return texts


class Edits:
    """The must-fail edits of the crates, by the texts that they make."""

    def __init__(self) -> None:
        self.of: dict[str, list[tuple[str, dict[str, str]]]] = {}
        self.names: dict[int, str | None] = {}

    def made_by(self, name: str) -> list[tuple[str, dict[str, str]]]:
        if name not in self.of:
            crate = os.path.join(TOP, "crates", name)
            folder = os.path.join(crate, "must-fail")
            edits = sorted(file for file in (os.listdir(folder) if os.path.isdir(folder) else []) if file.endswith(".edit"))
            self.of[name] = [(file[:-5], edited(os.path.join(folder, file), crate)) for file in edits]
        return self.of[name]

    def name(self, number: int, crate: str, folder: str) -> str | None:
        """Which edit of a crate a process tries in a folder, which is a copy of the crate with it; none where nothing is changed."""
        if number not in self.names:
            try:
                self.names[number] = next((edit for edit, texts in self.made_by(crate) if all(
                    text == text_of(os.path.join(folder, path)) for path, text in texts.items())), None)
            except OSError:
                return None  # the copy is already gone
        return self.names[number]


def step_of(process: Process, edits: Edits) -> Step | None:
    """The crate, the kind of step and the edit's name that a process of the prover works at, or None."""
    words = process.words
    if os.path.basename(words[0]) != "rattle" or "--crate-name" not in words:
        return None
    crate = words[words.index("--crate-name") + 1]
    if os.path.basename(process.folder).startswith("rt-edit-"):
        name = edits.name(process.number, crate, process.folder)
        return (crate, EDIT, name) if name else (crate, GROUND, "")
    return crate, TESTS if "--test" in words else PROOF, ""


def watched(words: list[str]) -> tuple[int, dict[Step, float]]:
    """Runs a command. Returns its status, and of each step the seconds of each of its processes."""
    seconds: dict[Step, dict[int, float]] = collections.defaultdict(dict)
    running, edits = subprocess.Popen(words), Edits()
    while running.poll() is None:
        for process in below(running.pid):
            step = step_of(process, edits)
            if step:
                seconds[step][process.number] = process.own
        time.sleep(1)
    return running.returncode, {step: sum(numbers.values()) for step, numbers in seconds.items()}


def line_of(step: Step, seconds: float) -> str:
    crate, kind, name = step
    return "times: %5.0f s  %s: %s" % (seconds, crate, kind + (" " + name if name else ""))


def report(taken: Mapping[Step, float], clock: float) -> tuple[list[str], list[str]]:
    """The lines that are said, and all lines."""
    kinds: dict[str, float] = collections.defaultdict(float)
    for (_, kind, _), seconds in taken.items():
        kinds[kind] += seconds
    sums = ", ".join("%s %.0f s" % pair for pair in sorted(kinds.items(), key=lambda pair: -pair[1])) or "none"
    whole = "times: %.0f s on the clock; processor time of the prover %s" % (clock, sums)
    steps = sorted(taken.items(), key=lambda pair: -pair[1])
    dear = [line_of(*pair) + ", more than the %d s of an edit" % DEAR_EDIT for pair in steps if pair[0][1] == EDIT and pair[1] > DEAR_EDIT]
    every = [line_of(*pair) for pair in steps]
    return [whole] + every[:MOST] + dear, [whole] + every


def keep(path: str, lines: list[str]) -> None:
    os.makedirs(os.path.dirname(path), exist_ok=True)
    with open(path, "w") as file:
        file.write("\n".join(lines) + "\n")


def write_page(records: list[str]) -> int:
    """Writes docs/GATE.md's table from records that are the whole gate together."""
    missing = [path for path in records if not os.path.isfile(path)]
    if missing:
        give_up("there is no record %s: it is left by a run of the whole gate from nothing" % missing[0])
    taken = taken_in("\n".join(text_of(path) for path in records))
    steps = lacking(taken)
    if steps:
        give_up("no whole run: %d steps are missing, the first of them %s: %s %s" % (len(steps), *steps[0]))
    put_part("GATE.md", "minutes", "tools/gate_times", part_of(taken))
    return 0


def main() -> int:
    if sys.argv[1:2] == ["--page"]:
        return write_page(sys.argv[2:] or [WHOLE])
    if len(sys.argv) < 2 or sys.argv[1] in ("-h", "--help"):
        print(__doc__)
        return 2 if len(sys.argv) < 2 else 0
    begun = time.time()
    status, taken = watched(sys.argv[1:])
    said, every = report(taken, time.time() - begun)
    keep(LIST, every)
    if not lacking(taken):
        keep(WHOLE, every)
    print("\n".join((every if "GATE_TIMES_ALL" in os.environ else said) + grown(taken, told_by(text_of(PAGE)))), flush=True)
    return status
