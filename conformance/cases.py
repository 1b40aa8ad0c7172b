"""Runs the program on every case of a folder and compares what it writes with what is stored.

usage: conformance/run [--program PATH] [FOLDER ..]

A case is a script NAME.lsys with the expected standard output NAME.out. Beside them NAME.words has the words of the command
line, one a line, and NAME.status the expected exit status, where it isn't 0. Standard error has the usage line where the
status is 2, and else nothing. Cases stand in a folder or in those in it: conformance/cases has one for each theme. Without folders these
and the scripts of examples are run, and the ends of a run that no script can hold. Without --program a proved program is taken that is
there and newer than its sources: bin/lsys, or the one that the gate left in crates/lsys/out. Else an unproved one is built.
"""

from __future__ import annotations

import difflib
import os
import subprocess
from collections.abc import Iterator, Sequence

from programs import TOP, program_of, shown
from scripts_in import scripts_in
from telling import Words

USAGE = b"lsys: usage: lsys [--limit N] [--sample N]\n"
LONGEST_SCRIPT = 16777216


def read(path: str) -> bytes:
    with open(path, "rb") as file:
        return file.read()


class Case:
    """What is run, and what is expected of it: the bytes written, and the status."""

    def __init__(self, name: str, script: bytes, words: Sequence[str] = (), out: bytes = b"", status: int = 0) -> None:
        self.name, self.script, self.words, self.out, self.status = name, script, list(words), out, status

    def differences(self, program: str) -> Iterator[str]:
        """Runs the case, and tells in words how it differs from what is expected."""
        done = subprocess.run([program] + self.words, input=self.script, capture_output=True)
        if done.returncode != self.status:
            yield "status %d, expected %d" % (done.returncode, self.status)
        if done.stderr != (USAGE if self.status == 2 else b""):
            yield "on standard error %r" % done.stderr[:200]
        if done.stdout != self.out:
            lines = [text.decode("latin-1").splitlines() for text in (self.out, done.stdout)]
            yield from list(difflib.unified_diff(lines[0], lines[1], "expected", "written", lineterm=""))[:20]


class EndCase(Case):
    """A run whose standard input or standard output fails."""

    def __init__(self, name: str, status: int, script: str = os.devnull, sink: str = os.devnull, words: Sequence[str] = ()) -> None:
        Case.__init__(self, name, b"", words, status=status)
        self.source, self.sink = script, sink

    def differences(self, program: str) -> Iterator[str]:
        source = os.open(self.source, os.O_RDONLY)
        with open(self.sink, "wb") as sink:
            status = subprocess.run([program] + self.words, stdin=source, stdout=sink).returncode
        os.close(source)
        if status != self.status:
            yield "status %d, expected %d" % (status, self.status)


def cases_in(folder: str) -> Iterator[Case]:
    for path in scripts_in(folder):
        base = path[:-len(".lsys")]
        words = read(base + ".words").decode().split("\n")[:-1] if os.path.exists(base + ".words") else []
        status = int(read(base + ".status")) if os.path.exists(base + ".status") else 0
        yield Case(shown(base), read(path), words, read(base + ".out"), status)


def ends() -> Iterator[Case]:
    """Runs that end by what is outside of the script."""
    yield Case("the longest script", b"\n" * LONGEST_SCRIPT)
    yield Case("a script of one byte more", b"\n" * (LONGEST_SCRIPT + 1), status=6)
    yield Case("the longest script in one line", b"a" * LONGEST_SCRIPT, out=b"refused syntax long\n", status=1)
    yield Case("a line of one byte more than a script has", b"a" * (LONGEST_SCRIPT + 1), status=6)
    yield EndCase("a source that can't be read", 3, script=TOP)
    yield EndCase("a sample, which reads no source", 0, script=TOP, words=["--limit=200000", "--sample=0"])
    if os.path.exists("/dev/full"):
        yield EndCase("a sink that takes nothing", 4, script=os.path.join(TOP, "examples", "algae.lsys"), sink="/dev/full")


def main() -> int:
    parser = Words(__doc__)
    parser.add_argument("--program")
    parser.add_argument("folders", nargs="*")
    options = parser.parse_args()
    folders = options.folders or [os.path.join(TOP, "conformance", "cases"), os.path.join(TOP, "examples")]
    cases = [case for folder in folders for case in cases_in(folder)]
    if not options.folders:
        cases += ends()
    program = program_of(options.program)
    print("conformance: %d cases, by %s" % (len(cases), shown(program)), flush=True)
    failed = 0
    for case in cases:
        found = list(case.differences(program))
        if found:
            failed += 1
            print("FAILED %s: %s" % (case.name, found[0]))
            for line in found[1:]:
                print("    " + line[:160])
    print("%d passed, %d failed" % (len(cases) - failed, failed))
    return 1 if failed else 0
