"""Runs a script by a program that is newer than all sources, and says by which one. Pictures go into files.

usage: tools/run SCRIPT [--out FOLDER] [--program PATH] [--limit N] [--sample N]
       tools/run - [..]        the script is read from standard input

A script is lines. Edits change one L-system: axiom STRING, production LABEL: PATTERN => STRING, hom LABEL: PATTERN => STRING, drop LABEL,
depth N, lattice square, hexagonal or cubic, seed N, ignore NAMES, schedule TABLES, undo, redo. Queries show it: string [N], svg,
segments, show, bounds, at N, growth N. `quit` ends it, and a line that begins with ; is a comment. For example

    axiom F-F-F-F
    production f: F => F-F+F+FF-F-F+F
    depth 3
    svg

A picture that `svg` prints goes into a file NAME-1.svg and so on beside the script (of the examples that came with the tools, into
build/pictures of a checkout or pictures of the folder that one is in), or into FOLDER. The other replies go to standard output as the
program writes them. What this tool says goes to standard error: each refusal with the number of its line, what was wrong, the line and a
caret under the column; the refusal itself isn't written twice where both go to one place. --limit N is how many symbols all levels may
have together, 1 to 1,000,000. The status is the program's: 0 where no line was refused, and 1 where one was. Without --program it takes
the program that `make` or the gate has built; else it builds one without proofs, in 3 to 7 minutes of one processor, and keeps it in
build/ for the next time.
"""

from __future__ import annotations

import os
import re
import subprocess
import sys
import tempfile
from collections.abc import Iterable, Iterator
from typing import IO, Any

from hints import LIMIT, as_told, hint
from programs import TOP, is_checkout, program_of, shown
from replies import Lines, commands_of, refusal, reply_from
from telling import Words, give_up, read_no_further, say
from texts import read_script

EXAMPLES = os.path.join(TOP, "examples")
NO_LINES = "line %d: no lines, and so no picture is written: only names that begin with F draw"
# A letter that draws in other tools.
ELSEWHERE = re.compile(rb"[^A-Za-z_]G")


def folder_for(script: str, out: str | None) -> str:
    """Where the pictures of a script go."""
    if out or script == "-":
        return out or "."
    folder = os.path.dirname(os.path.realpath(script))
    if folder != EXAMPLES:
        return os.path.dirname(script) or "."
    return os.path.join(TOP, "build", "pictures") if is_checkout() else "pictures"


def goes_to_one_place() -> bool:
    """Whether standard output and standard error are the same terminal, pipe or file."""
    try:
        out, error = os.fstat(1), os.fstat(2)
        return (out.st_dev, out.st_ino) == (error.st_dev, error.st_ino)
    except OSError:
        return False


class Run:
    """A run of a script: where its pictures go and how many there are, the edits that were taken, and what is told of its refusals."""

    def __init__(self, script: bytes, options: Any, words: list[str]) -> None:
        self.commands, self.words = commands_of(script), words
        self.taken: list[bytes] = []
        self.folder = folder_for(options.script, options.out)
        self.name = "script" if options.script == "-" else os.path.splitext(os.path.basename(options.script))[0]
        self.limit, self.count, self.is_told_once = limit_of(options), 0, goes_to_one_place()

    def write_picture(self, number: int, lines: Iterator[bytes]) -> None:
        """Writes a picture into a file, but none without lines."""
        head = []
        for line in lines:
            head.append(line)
            if line.startswith(b"<line "):
                break
        else:
            is_elsewhere = any(ELSEWHERE.search(line) for line in self.taken)
            return say(NO_LINES % number + ("; G is a letter like others here" if is_elsewhere else ""))
        self.count += 1
        path = os.path.join(self.folder, "%s-%d.svg" % (self.name, self.count))
        try:
            os.makedirs(self.folder, exist_ok=True)
            with open(path, "wb") as file:
                file.writelines(head)
                file.writelines(lines)
        except OSError as error:
            for _ in lines:
                pass  # the program goes on
            return say("no picture can be written to %s: %s; --out FOLDER puts it elsewhere" % (path, error.strerror))
        return say("a picture: %s" % shown(path))

    def pass_on(self, replies: IO[bytes]) -> None:
        """Puts pictures into files, writes the other replies as they come, and tells of each refusal."""
        written = Lines(replies.readline)
        for first in iter(written.peek, b""):
            number, line = next(self.commands, (0, b""))
            lines = reply_from(written)
            if first.startswith(b"<svg "):
                self.write_picture(number, lines)
                continue
            is_told = first.startswith(b"refused ") and number
            if is_told and self.is_told_once:
                next(lines)
            write(lines)
            if is_told:
                self.tell(number, line, first)
            elif first.startswith(b"ok "):
                self.taken.append(line)

    def tell(self, number: int, line: bytes, reply: bytes) -> None:
        """Tells of a refusal, with what helps and the line that was meant."""
        found = hint(line, reply.decode("latin-1").rstrip("\n"), self.taken, self.limit, words=self.words)
        say(refusal(number, line, reply, meaning=as_told(found)))


def write(lines: Iterable[bytes]) -> None:
    """Passes lines on. Where the reader has gone, the pictures are still drawn."""
    try:
        for line in lines:
            sys.stdout.buffer.write(line)
        sys.stdout.buffer.flush()
    except BrokenPipeError:
        read_no_further()


def limit_of(options: Any) -> int:
    """The limit that holds, where its words are right."""
    return int(options.limit) if options.limit and options.limit.isdigit() else LIMIT


def words_of_tool() -> Any:
    parser = Words(__doc__)
    parser.add_argument("script", nargs="?")
    for name in ("--out", "--program", "--limit", "--sample"):
        parser.add_argument(name)
    options = parser.parse_args()
    if options.script is None and options.sample is None:
        print(__doc__, file=sys.stderr)
        sys.exit(2)
    options.script = options.script or "-"
    return options


def read(path: str) -> bytes:
    try:
        return read_script(path, say)
    except OSError as error:
        return give_up("no script at %s: %s" % (path, error.strerror), 2)


def main() -> int:
    options = words_of_tool()
    # What a sample answers is no answer to a script's lines.
    script = b"" if options.sample is not None else read(options.script)
    program = program_of(options.program)
    words = [word for name in ("limit", "sample") if getattr(options, name) is not None for word in ("--" + name, getattr(options, name))]
    run = Run(script, options, [program] + words)
    with tempfile.TemporaryFile() as source:
        source.write(script)
        source.seek(0)
        running = subprocess.Popen([program] + words, stdin=source, stdout=subprocess.PIPE)
        assert running.stdout
        try:
            run.pass_on(running.stdout)
        finally:
            running.stdout.close()
            status = running.wait()
    return status if status >= 0 else 128 - status
