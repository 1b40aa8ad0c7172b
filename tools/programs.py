"""The programs that this checkout has built, and whether they are newer than all that they were made from. Where there are tools and
no sources, as where they are installed, the program that came with them."""

from __future__ import annotations

import filecmp
import os
import shutil
import subprocess
import sys
import tempfile
import time
from collections.abc import Iterator, Sequence

sys.dont_write_bytecode = True
from building import NO_TOOLCHAIN, build_without_proofs
from telling import give_up, say

TOP = os.path.dirname(os.path.dirname(os.path.realpath(__file__)))
# `make` keeps the proved program in bin/; the gate leaves it in the crate's own folder.
PROVED = [os.path.join(TOP, "bin", "lsys"), os.path.join(TOP, "crates", "lsys", "out", "lsys")]
UNPROVED = os.path.join(TOP, "build", "lsys-unproved")
# Of an unproved build, as README.md and `make help` tell it.
UNPROVED_COST = "3 to 7 minutes"


def is_checkout() -> bool:
    """Whether the sources are here."""
    return os.path.exists(os.path.join(TOP, "crates.txt"))


def crates_of_the_program() -> list[str]:
    """The names of the crate `lsys` and of those that it stands on, lowest first."""
    needs = {}
    with open(os.path.join(TOP, "crates.txt")) as file:
        for line in file:
            name, colon, below = line.partition("#")[0].partition(":")
            if colon:
                needs[name.split()[0]] = below.split()
    order = []

    def visit(name: str) -> None:
        for below in needs.get(name, []):
            visit(below)
        if name in needs and name not in order:
            order.append(name)

    visit("lsys")
    return order


def sources() -> Iterator[str]:
    """All files, and all folders of files, that decide what the program does and what is claimed of it."""
    yield os.path.join(TOP, "crates.txt")
    for name in crates_of_the_program():
        for part in ("src", "specs"):
            for folder, _, files in os.walk(os.path.join(TOP, "crates", name, part)):
                yield folder
                yield from (os.path.join(folder, file) for file in files)


def is_fresh(program: str) -> bool:
    """Whether the program is there and nothing that it was made from has changed since."""
    if not os.access(program, os.X_OK):
        return False
    made = os.path.getmtime(program)
    return all(os.path.getmtime(source) <= made for source in sources())


def fresh_proved() -> str | None:
    """The path of a proved program that is fresh, or None."""
    return next((program for program in PROVED if is_fresh(program)), None)


def shown(path: str) -> str:
    """A path as one types it in the folder that one is in."""
    near = os.path.relpath(path)
    return path if near.startswith("../..") else near


def build_unproved() -> None:
    """Builds the program without proofs and keeps it. Says what it costs, stage by stage."""
    if not shutil.which("rt"):
        give_up(NO_TOOLCHAIN, 127)
    say("no built program is newer than the sources: building one without proofs, some %s of one processor .." % UNPROVED_COST)
    os.makedirs(os.path.dirname(UNPROVED), exist_ok=True)
    begun = time.time()
    with tempfile.TemporaryDirectory(prefix="unproved-", dir=os.path.dirname(UNPROVED)) as folder:
        kept, is_fast = build_without_proofs(os.path.join(TOP, "crates", "lsys"), folder)
        # An edit made while it was being built makes it stale.
        os.utime(kept, (begun, begun))
        os.replace(kept, UNPROVED)
    if not is_fast:
        say("this toolchain gave a slow program, some hundred times slower than the proved one, which make builds")


def is_proved(program: str) -> bool:
    """Whether this is the program that `make` or the gate has proved, of these very sources."""
    proved = fresh_proved() if is_checkout() else None
    return proved is not None and filecmp.cmp(program, proved, shallow=False)


def ready_program() -> str:
    """The program that came with these tools, where no sources did: in bin/ beside them, or in bin/ of where they are installed; or one
    in PATH."""
    beside = [PROVED[0], os.path.join(os.path.dirname(os.path.dirname(TOP)), "bin", "lsys")]
    program = next((path for path in beside if os.access(path, os.X_OK)), None) or shutil.which("lsys")
    return program or give_up("there is no program: neither %s nor lsys in PATH" % beside[0])


def fresh_program() -> str:
    """The path of a program that is newer than all sources: a proved one where there is one, and else an unproved one, which is
    built where that is needed. Says which one it is."""
    if not is_checkout():
        return ready_program()
    program = fresh_proved()
    if program:
        say("by the proved program %s" % shown(program))
        return program
    if not is_fresh(UNPROVED):
        build_unproved()
    say("by the unproved build %s (make proves the program, and builds bin/lsys)" % shown(UNPROVED))
    return UNPROVED


def checked(program: str, words: Sequence[str] = ()) -> str:
    """The path of a program that a person named, with these words. Ends this process where it doesn't answer as `lsys` does."""
    named = os.path.abspath(program)
    try:
        ran = subprocess.run([named] + list(words), input=b"depth 0\n", capture_output=True, timeout=60)
    except (OSError, subprocess.TimeoutExpired) as error:
        give_up("no program can be run at %s: %s" % (program, getattr(error, "strerror", None) or "it doesn't end"))
    if ran.stdout != b"ok 0/0\n":
        said = (ran.stderr or b"it doesn't answer as lsys does").decode(errors="replace").strip().split("\n")[0]
        give_up("%s: %s" % (" ".join([program] + list(words)), said))
    return named


def program_of(named: str | None, words: Sequence[str] = ()) -> str:
    """The program that a person named or else a fresh one; both have to take these words."""
    return checked(named or fresh_program(), words) if named or words else fresh_program()
