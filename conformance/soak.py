"""Runs the program and a reference on random scripts, and keeps those on which they differ, made small.

usage: conformance/soak N [COMMAND] [--program PATH] [--seed S] [--found FOLDER]
       conformance/soak --scripts FOLDER [COMMAND] [--program PATH] [--found FOLDER]

COMMAND is the reference, as one argument; it reads a script on standard input. Without one the program is compared with itself: the
system that `show` prints at a script's end, put into a new session, has the same levels and pictures as the edited one; and each
session ends by itself, with status 0 or 1 and nothing on standard error. Without --program a program is taken that is newer than its
sources. The scripts of a seed are always the same: those of conformance/scripts.py, in which every command stands. With --scripts
those of a folder are run instead, files NAME.lsys, beside which NAME.words may have the words of the command line as a shell reads
them. At the end it tells how many replies of each kind there were.
"""

from __future__ import annotations

import collections
import os
import shlex
import subprocess
from collections.abc import Callable, Iterator
from concurrent.futures import ThreadPoolExecutor
from typing import Any

from programs import program_of
from replies import Lines, commands_of, reply_from
from scripts import script
from telling import Words

# The name of a script, the words of its command line, and the script.
Job = tuple[str, list[str], bytes]
# What is asked at the end of a session: the levels by their strings, one for each level that there may be, and the picture, also by some
# of its turtle's places.
PLACES = [0, 1, 2, 3, 5, 8, 13, 21, 34, 55, 89, 144, 233, 377, 610, 987]
QUESTIONS = b"\n".join([b"string"] + [b"string %d" % level for level in range(65)] + [b"segments", b"svg", b"bounds"]
                       + [b"at %d" % place for place in PLACES] + [b"show"]) + b"\n"


def run(command: list[str], text: bytes) -> tuple[int, bytes]:
    done = subprocess.run(command, input=text, stdout=subprocess.PIPE, stderr=subprocess.DEVNULL)
    return done.returncode, done.stdout


def smaller(differ: Callable[[bytes], bool], text: bytes) -> bytes:
    """Drops runs of lines, long ones first, until no line can be dropped."""
    lines = text.split(b"\n")
    count = len(lines)
    while count:
        before, at = len(lines), 0
        while at < len(lines):
            fewer = lines[:at] + lines[at + count:]
            if differ(b"\n".join(fewer)):
                lines = fewer
            else:
                at += count
        if count > 1 or len(lines) == before:
            count //= 2
    return b"\n".join(lines)


def kind_of(line: str) -> str:
    """What a reply is counted under."""
    words = line.split(" ")
    if words[0] == "refused":
        return " ".join(word for word in words if not word.isdigit())
    return words[0] if words[0] in ("ok", "segments", "<svg") else "other lines"


def random_scripts(seed: int, count: int) -> Iterator[Job]:
    for number in range(count):
        yield "%d-%d" % (seed, number), [], script(seed, number)


def scripts_of(folder: str) -> Iterator[Job]:
    for name in sorted(os.listdir(folder)):
        if name.endswith(".lsys"):
            base = os.path.join(folder, name[:-5])
            words = shlex.split(open(base + ".words").read()) if os.path.exists(base + ".words") else []
            with open(base + ".lsys", "rb") as file:
                yield name[:-5], words, file.read()


def replies_in(written: bytes) -> list[bytes]:
    """The replies that were written, each whole."""
    replies, lines = [], iter(written.splitlines(True))
    told = Lines(lambda: next(lines, b""))
    while told.peek():
        replies.append(b"".join(reply_from(told)))
    return replies


def alone(program: list[str], words: list[str], text: bytes) -> tuple[tuple[int, bytes], bool]:
    """The program's answer, and whether a new session that is made of what `show` prints answers the last questions otherwise, or the
    run didn't end as it should."""
    lines = b"\n".join(line for _, line in commands_of(text))
    edited = subprocess.run(program + words, input=lines + b"\nshow\n" + QUESTIONS, capture_output=True)
    replies = replies_in(edited.stdout)
    count = QUESTIONS.count(b"\n")
    system, last = replies[-count - 1], replies[-count:]
    made = subprocess.run(program + words, input=system + QUESTIONS, capture_output=True)
    is_well = edited.returncode in (0, 1) and not edited.stderr and made.returncode in (0, 1) and not made.stderr
    return (edited.returncode, b"".join(replies[:-count - 1])), not is_well or replies_in(made.stdout)[-count:] != last


def words_of_tool() -> Any:
    parser = Words(__doc__)
    parser.add_argument("count", nargs="?")
    parser.add_argument("reference", nargs="?")
    parser.add_argument("--scripts")
    parser.add_argument("--program")
    parser.add_argument("--seed", type=int, default=1)
    parser.add_argument("--found", default="soak-found")
    parser.add_argument("--jobs", type=int, default=2)
    options = parser.parse_args()
    if options.scripts:
        options.count, options.reference = None, options.count
    elif options.count and not options.count.isdigit():
        parser.error("a number of scripts is wanted, and not %s" % options.count)
    options.count = int(options.count or 0)
    return options


def keep(folder: str, name: str, text: bytes) -> None:
    os.makedirs(folder, exist_ok=True)
    with open(os.path.join(folder, name + ".lsys"), "wb") as file:
        file.write(text)


def main() -> int:
    options = words_of_tool()
    program = [program_of(options.program)]

    def answers(words: list[str], text: bytes) -> tuple[tuple[int, bytes], bool]:
        if options.reference is None:
            return alone(program, words, text)
        answer = run(program + words, text)
        return answer, answer != run(shlex.split(options.reference) + words, text)

    def compare(job: Job) -> tuple[bool, tuple[int, bytes]]:
        name, words, text = job
        answer, differs = answers(words, text)
        if differs:
            keep(options.found, name, smaller(lambda text: answers(words, text)[1], text))
            print("%s differs %s" % (name, " ".join(words)), flush=True)
        return differs, answer

    jobs = scripts_of(options.scripts) if options.scripts else random_scripts(options.seed, options.count)
    kinds: collections.Counter[str] = collections.Counter()
    statuses: collections.Counter[int] = collections.Counter()
    scripts = found = 0
    with ThreadPoolExecutor(options.jobs) as pool:
        for differs, (status, written) in pool.map(compare, jobs):
            scripts, found = scripts + 1, found + differs
            statuses[status] += 1
            kinds.update(map(kind_of, written.decode("latin-1").splitlines()))
    for kind, count in sorted(kinds.items()):
        print("%8d %s" % (count, kind))
    print("statuses: %s" % ", ".join("%s %d times" % pair for pair in sorted(statuses.items())))
    print("%d scripts, %d differ" % (scripts, found))
    return 1 if found else 0
