"""Builds the program `lsys` without proofs, and makes it fast.

`rt try` links a program that the address sanitizer watches and that nothing optimizes, some hundred times slower than the proved one. On
its way it writes the same code for LLVM, with the toolchain's own checks of every index, sum, cast and divisor in it. The
toolchain's compiler makes a second program of that code, optimized, the checks kept and the sanitizer left out. Where that doesn't go
as expected, or the two programs don't answer alike, the slow one is taken.
"""

from __future__ import annotations

import os
import signal
import subprocess
import sys
import threading
import time

sys.dont_write_bytecode = True
from processes import below, spent
from telling import Passing, give_up, say

NO_TOOLCHAIN = "there is no rt in PATH, which builds the program: README.md, 'Building it', tells what it is, and of the program ready built"
# The clang call that makes machine code of the file module.bc, without optimization: these words are taken out, and one is added.
UNWATCHED = ("-O0", "-fsanitize=address")
OPTIMIZED = "-O1"
# What is done, one after another.
STAGES = ["the sources are being read", "a slow program is being linked", "the same code is being made fast"]
SMALL_SCRIPT = b"""axiom A(3)[+F]%B
production p: A(x) < B : x > 2 => [A(x-1)]B
production q: A(x) @ 2 => A(x*2-1)F
production r: A(x) @ 1 => FA(x^2/0)
hom h: B => F(2)-!(3)F
seed 7
depth 5
string
segments
svg
show
axiom $
"""


# What `rt try` gives the slow program, so that it works for a second of one processor before `rt try` removes it: however much else the
# machine does, its file is seen. Where that takes too long, the program is there all the same.
LONG_SCRIPT = b"axiom A\nproduction a: A => AA\ndepth 9\n"
TOO_LONG = "checked: no-answer: the program did not end within the time limit"


class Stages:
    """Tells each stage of a build as it ends, with the seconds of one processor that it took, and meanwhile the seconds that have passed."""

    def __init__(self) -> None:
        self.told = self.begun = spent(below(os.getpid()))
        self.passing = Passing(STAGES[0])

    def __enter__(self) -> Stages:
        self.passing.__enter__()
        return self

    def __exit__(self, *_: object) -> None:
        self.passing.__exit__()

    def tell(self, what: str) -> None:
        now = spent(below(os.getpid()))
        self.passing.clear()
        say("  %2d s of one processor: %s" % (round(now - self.told), what))
        self.told = now
        self.passing.what = STAGES[min(STAGES.index(self.passing.what) + 1, len(STAGES) - 1)]

    def all(self) -> float:
        return spent(below(os.getpid())) - self.begun


class Keeper(threading.Thread):
    """While `rt try` works in a folder, keeps by links what it writes there and would remove: the code for LLVM, what is linked, and
    the program; and the words by which it calls the compiler and the linker."""

    def __init__(self, work: str, kept: str, stages: Stages) -> None:
        threading.Thread.__init__(self, daemon=True)
        self.work, self.kept, self.stages = work, kept, stages
        self.ended, self.has_code, self.has_program = threading.Event(), False, False
        self.seen: set[str] = set()
        self.calls: dict[str, list[str]] = {}

    def run(self) -> None:
        while not self.ended.is_set():
            for folder, _, files in os.walk(self.work):
                for name in files:
                    self.keep(folder, name)
            if self.seen:
                self.note_calls()
            time.sleep(0.01)

    def keep(self, folder: str, name: str) -> None:
        path = os.path.join(folder, name)
        if path in self.seen or not (name in ("program", "module.bc") or name.startswith("input-")):
            return
        try:
            os.replace(self.link(path), self.at(name))
        except OSError:
            return  # it is already gone
        self.seen.add(path)
        if name == "module.bc" and not self.has_code:
            self.has_code = True
            self.stages.tell("the sources are read, and code is made of them")
        elif name == "program" and not self.has_program:
            self.has_program = True
            self.stages.tell("a slow program is linked")

    def link(self, path: str) -> str:
        link = os.path.join(self.kept, "new")
        os.link(path, link)
        return link

    def at(self, name: str) -> str:
        return os.path.join(self.kept, name)

    def note_calls(self) -> None:
        """The compiler is called twice, the second time for the program."""
        for process in below(os.getpid()):
            tool = os.path.basename(process.words[0])
            if tool in ("clang", "ld.lld") and process.folder.startswith(self.work):
                self.calls[tool] = process.words[:-1]


def run_in(folder: str, words: list[str]) -> bool:
    """Runs a command, and says whether it ended well."""
    return subprocess.run(words, cwd=folder, stdin=subprocess.DEVNULL, stdout=subprocess.DEVNULL, stderr=subprocess.DEVNULL).returncode == 0


def fast_link(words: list[str]) -> list[str]:
    """The words of the linker for another program's name, and without those that add the sanitizer's library: it is the one that is
    linked whole."""
    first, last = words.index("--whole-archive"), words.index("--no-whole-archive")
    words = words[:first] + words[last + 1:]
    words[words.index("-o") + 1] = "fast"
    return words


def answer(program: str) -> tuple[int, bytes]:
    ran = subprocess.run([program], input=SMALL_SCRIPT, stdout=subprocess.PIPE, stderr=subprocess.DEVNULL)
    return ran.returncode, ran.stdout


def make_fast(keeper: Keeper) -> str | None:
    """Makes the fast program of what was kept, and returns its path, or None where the toolchain isn't as expected."""
    try:
        compiler, linker = keeper.calls["clang"], fast_link(keeper.calls["ld.lld"])
        if not run_in(keeper.kept, [word for word in compiler if word not in UNWATCHED] + [OPTIMIZED]):
            return None
        os.replace(keeper.at("module.o"), keeper.at("input-0"))
        if not run_in(keeper.kept, linker) or answer(keeper.at("fast")) != answer(keeper.at("program")):
            return None
        keeper.stages.tell("the same code is made fast")
        return keeper.at("fast")
    except (KeyError, ValueError, OSError):
        return None


def try_crate(crate: str, work: str) -> tuple[int, str]:
    """Runs `rt try` in a crate's folder, all it starts in a group of their own, of which none outlives this call."""
    running = subprocess.Popen(["rt", "try"], cwd=crate, env={**os.environ, "TMPDIR": work}, stdin=subprocess.PIPE, stdout=subprocess.PIPE,
                               stderr=subprocess.STDOUT, start_new_session=True)
    try:
        said, _ = running.communicate(LONG_SCRIPT)
        return running.returncode, said.decode(errors="replace")
    finally:
        try:
            os.killpg(running.pid, signal.SIGKILL)
        except OSError:
            pass  # all have ended
        running.wait()


def build_without_proofs(crate: str, folder: str) -> tuple[str, bool]:
    """Builds the program of a crate's folder inside another folder, and returns its path and whether it is a fast one. Ends this
    process where the toolchain can't build it."""
    work, kept = os.path.join(folder, "work"), os.path.join(folder, "kept")
    os.mkdir(work)
    os.mkdir(kept)
    with Stages() as stages:
        keeper = Keeper(work, kept, stages)
        keeper.start()
        try:
            status, said = try_crate(crate, work)
        finally:
            keeper.ended.set()
            keeper.join()
        program = keeper.at("program")
        if status and TOO_LONG not in said or not os.path.exists(program):
            sys.stderr.write(said)
            give_up("no program was built: rt try ended with status %d, and said what stands above" % status, status or 1)
        fast = make_fast(keeper)
        return fast or program, bool(fast)
