"""The tests for people and between commits, `make test`: no proof, some minutes. A line for each with its time.

usage: tools/check [--jobs N] [NAME ..]

It builds the fast program without proofs where that is needed, and then runs the tests of each crate that has some, unproved, and the
checks of conformance/ that need nothing installed, with 300 random scripts among them, and conformance/look, which needs a browser and
says so where there is none. Besides, it runs the unit tests of the tools, tools/house, and tools/lint, which leaves out what isn't installed
of ruff, mypy, shellcheck and node, and says so. NAMEs take those whose name holds one of them, as `tools` or `unit`, which need no program.
What a failing one says is shown. Unproved tests run unoptimized: one that takes more than 20 seconds so is counted as too slow, and is
left to the gate, `make gate`, which proves everything.
"""

from __future__ import annotations

import os
import re
import shutil
import subprocess
import sys
import time
from collections.abc import Iterator
from concurrent.futures import ThreadPoolExecutor, as_completed
from typing import NamedTuple

from building import NO_TOOLCHAIN
from programs import TOP, fresh_program
from telling import Passing, Words, give_up

CHECKS = ["run", "curves", "manual", "export", "first_hour", "hands", "terminal", "hints", "soak 300", "look"]
SECONDS = 20
# Seconds between two lines where none has ended.
SELDOM = 30
RESULT = re.compile(r"^test result: \w+\. (\d+) passed; (\d+) failed", re.M)
TOO_SLOW = "checked: no-answer: the program did not end within the time limit"


class Job(NamedTuple):
    """A test: its name, its words, and the folder in which it runs."""
    name: str
    words: list[str]
    folder: str = TOP


def crates_with_tests() -> Iterator[str]:
    for name in sorted(os.listdir(os.path.join(TOP, "crates"))):
        for folder, _, files in os.walk(os.path.join(TOP, "crates", name, "src")):
            if any("#[test]" in text_of(os.path.join(folder, file)) for file in files):
                yield name
                break


def text_of(path: str) -> str:
    with open(path, encoding="utf-8", errors="replace") as file:
        return file.read()


def crate_jobs() -> list[Job]:
    """The tests of the crates, those that take longest first."""
    words = ["rt", "try", "--test", "--seconds", str(SECONDS)]
    jobs = [Job("tests of " + name, words, os.path.join(TOP, "crates", name)) for name in crates_with_tests()]
    return sorted(jobs, key=lambda job: "program" not in job.name)


def program_jobs() -> list[Job]:
    """The checks of the program, which is named after their words."""
    return [Job("conformance/" + check, [os.path.join(TOP, "conformance", check.split()[0]), *check.split()[1:], "--program"]) for check in CHECKS]


def tool_jobs() -> list[Job]:
    """The checks of the repository itself, which need no toolchain."""
    unit = Job("unit tests of tools", [sys.executable, "-B", "-m", "unittest", "discover", "-q", "-s", "tools/tests", "-t", "tools"])
    return [unit] + [Job("tools/" + tool, [os.path.join(TOP, "tools", tool)]) for tool in ("unused", "proved", "house", "lint")]


def chosen_jobs(names: list[str]) -> list[Job]:
    """The jobs of these names, or all. The program is built where one of them needs it."""
    crates, checks, tools = ([job for job in jobs if not names or any(name in job.name for name in names)]
                             for jobs in (crate_jobs(), program_jobs(), tool_jobs()))
    if (crates or checks) and not shutil.which("rt"):
        give_up(NO_TOOLCHAIN, 127)
    program = fresh_program() if checks else ""
    return crates + [job._replace(words=[*job.words, program]) for job in checks] + tools


def result_of_tests(said: str) -> tuple[bool, str]:
    """Whether all tests passed but those that were too slow, and that in words."""
    found = RESULT.search(said)
    if not found:
        return False, said
    passed, failed = map(int, found.groups())
    slow = said.count(TOO_SLOW)
    return failed == slow, "%d tests passed%s" % (passed, ", %d too slow" % slow if slow else "") if failed == slow else said


def run(name: str, words: list[str], folder: str) -> tuple[str, bool, float, str]:
    """The name of a job, whether all is well, its seconds, and what it says."""
    begun = time.time()
    ran = subprocess.run(words, cwd=folder, stdin=subprocess.DEVNULL, stdout=subprocess.PIPE, stderr=subprocess.STDOUT, text=True, errors="replace")
    if words[0] == "rt":
        is_well, said = result_of_tests(ran.stdout)
    else:
        is_well = ran.returncode == 0
        said = (ran.stdout.strip().split("\n") if is_well else ["", ran.stdout])[-1]
    return name, is_well, time.time() - begun, said


def main() -> int:
    parser = Words(__doc__)
    parser.add_argument("names", nargs="*")
    parser.add_argument("--jobs", type=int, default=max(1, (os.cpu_count() or 1) // 2))
    options = parser.parse_args()
    jobs, failed = chosen_jobs(options.names), 0
    left, begun = {job.name for job in jobs}, time.time()
    with Passing("%d to do" % len(left), SELDOM) as passing, ThreadPoolExecutor(options.jobs) as pool:
        for done in as_completed([pool.submit(run, *job) for job in jobs]):
            name, is_well, seconds, said = done.result()
            failed += not is_well
            left.discard(name)
            passing.what = "%d to do: %s" % (len(left), ", ".join(sorted(left)[:2])[:50])
            passing.clear()
            print("%-30s %-6s %4d s  %s" % (name, "ok" if is_well else "FAILED", seconds, said if is_well else "\n" + said), flush=True)
    print("%d passed, %d failed, in %d s" % (len(jobs) - failed, failed, time.time() - begun))
    return 1 if failed else 0
