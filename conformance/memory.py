"""Makes allocations of the program fail, one by one, and compares what it answers.

usage: conformance/faults [--program PATH] [--every N] [SCRIPT ..]
       conformance/faults --limits [--program PATH] [SCRIPT ..]
       conformance/faults --edits N [--program PATH]

Each allocation of a run fails alone, and then from there on: of each script all of them, or with --every each N-th. A line that is
answered by `refused memory` changes nothing: so all other replies must be those of a run of the script without the lines that were
refused so. Where there was no memory to begin, nothing is written and the status is 5. Without scripts it takes those below.

With --limits each script, and two that need much memory, are run in address spaces of 6 to 64 MB, and their replies are compared so.
With --edits one session answers N edits, accepted and refused ones, and it is told how much of its memory is resident along the way.
It is no part of the gate; where allocations fail one by one it needs a C compiler.
"""

from __future__ import annotations

import os
import resource
import subprocess
import tempfile
from collections.abc import Iterator
from concurrent.futures import ThreadPoolExecutor
from typing import NamedTuple, Optional

from programs import program_of
from replies import Lines, commands_of, reply_from
from telling import Words, give_up

# Counts the calls that take memory; the call FAULT_AT fails, and with FAULT_ON all after it. At the end it tells how many there were.
SHIM = r"""
#define _GNU_SOURCE
#include <dlfcn.h>
#include <stdio.h>
#include <stdlib.h>
static long calls, at; static int on, ready;
static void *(*real_malloc)(size_t); static void *(*real_realloc)(void *, size_t); static int (*real_aligned)(void **, size_t, size_t);
static void begin(void) {
    if (ready) return;
    ready = 1;
    real_malloc = dlsym(RTLD_NEXT, "malloc"); real_realloc = dlsym(RTLD_NEXT, "realloc"); real_aligned = dlsym(RTLD_NEXT, "posix_memalign");
    const char *text = getenv("FAULT_AT"); at = text ? atol(text) : 0; on = getenv("FAULT_ON") != NULL;
}
static int fails(void) { begin(); ++calls; return at && (calls == at || (on && calls > at)); }
void *malloc(size_t n) { return fails() ? NULL : real_malloc(n); }
void *realloc(void *p, size_t n) { return fails() ? NULL : real_realloc(p, n); }
int posix_memalign(void **p, size_t a, size_t n) { return fails() ? 12 : real_aligned(p, a, n); }
__attribute__((destructor)) static void tell(void) {
    const char *path = getenv("FAULT_COUNT");
    if (path) { long counted = calls; at = 0; FILE *file = fopen(path, "w"); if (file) { fprintf(file, "%ld", counted); fclose(file); } }
}
"""

SCRIPTS = {
    "contexts": b"axiom B[A]CAB\nproduction a: B < A > [C] => AB\nproduction b: B > C => C\nproduction c: C => B[A]\ndepth 4\nstring\n"
                b"ignore B\nstring\naxiom B[A]CABC\nproduction b: B > C => CB\nstring 3\nundo\nstring\nshow\n",
    "weights": b"seed 7\naxiom A(3)A(2)\nproduction a: A(x) : x > 0 @ 2 => A(x - 1)B(x)\nproduction b: A(x) @ 1 => B(x)A(x)\n"
               b"production c: B(x) => B(x + 1)\ndepth 5\nstring\nseed 8\nstring\nproduction c: B(x) => B(x * 2)\nstring\nundo\nredo\nstring\n",
    "cuts": b"axiom A[A]A\nproduction a: A => A[B]%A\nproduction b: B => BA\ndepth 3\nstring\nproduction a: A => A[B]A\nstring\nundo\nstring\n"
            b"depth 5\nproduction b: B => B%\nstring\n",
    "tables": b"production t_1 a: A => AB\nproduction t_1 b: B => A\nproduction main a: A => BA\naxiom A\nschedule main t_1\ndepth 6\nstring\n"
              b"schedule t_1 main\nstring\ndepth 3\nstring\ndepth 7\nstring\nproduction t_1 b: B => AA\nstring\n",
    "pictures": b"axiom F\nproduction f: F => F[+F]F[-F]F\ndepth 2\nsegments\nbounds\nat 3\nhom h: F => f+F\nsvg\nat 3\nbounds\nlattice "
                b"hexagonal\nsegments\n"
                b"at 4\ngrowth\ndepth 3\nsegments\nlattice cubic\nat 5\nundo\nbounds\nhom h: F => F(9223372036854775807)\nsegments\nbounds\nshow\n",
    "names": b"version 2\nlineage names\naxiom ABAB\nproduction a: A < B => BA\nproduction b: A > B => A\ndepth 4\nstring\naxiom CABAB\nstring\n"
             b"axiom ABCAB\nstring\nlineage places\nstring\nundo\nstring\nignoring main: C\nstring\n",
}


# They grow until no memory is left, and go on.
LARGE = {
    "large levels": b"axiom A\nproduction a: A => AB\nproduction b: B => A\ndepth 20\ndepth 24\nstring 6\ndepth 23\nproduction b: B => BA\ndepth 16\n"
                    b"string 4\nproduction b: B => A\nstring 5\nundo\nstring 3\n",
    "large pictures": b"axiom F(1)\nproduction f: F(x) : x < 9 => F(x + 1)[+F(x)]F(x)\ndepth 8\nsegments\ndepth 9\ndepth 7\nstring 2\n"
                      b"hom h: F(x) => F(x)+F\nsegments\ndepth 3\nsvg\n",
}


class Harm(NamedTuple):
    """What is done to a run: from which library calls fail, the allocation that does, whether all after it do, the file that counts them,
    and how many megabytes there are."""
    shim: Optional[str] = None
    at: int = 0
    on: bool = False
    counting: Optional[str] = None
    megabytes: int = 0

    def environment(self) -> dict[str, str]:
        words = {"LD_PRELOAD": self.shim, "FAULT_AT": str(self.at) if self.at else None, "FAULT_ON": "1" if self.on else None,
                 "FAULT_COUNT": self.counting}
        return {**os.environ, **{name: word for name, word in words.items() if word}}

    def confine(self) -> None:
        if self.megabytes:
            resource.setrlimit(resource.RLIMIT_AS, (self.megabytes << 20, self.megabytes << 20))


UNHARMED = Harm()


def run(program: str, script: bytes, harm: Harm = UNHARMED) -> tuple[int, bytes]:
    """The status of a run, and what it writes."""
    done = subprocess.run([program], input=script, capture_output=True, env=harm.environment(), preexec_fn=harm.confine)
    return done.returncode, done.stdout


def replies_to(script: bytes, written: bytes) -> Iterator[tuple[int, bytes]]:
    """The commands of a script with their replies."""
    lines = Lines(iter(written.splitlines(True) + [b""] * 3).__next__)
    for number, _ in commands_of(script):
        yield number, b"".join(reply_from(lines))


def fault_of(program: str, script: bytes, harm: Harm) -> tuple[str | None, bool]:
    """What is wrong in a run that is harmed so; and whether any line was refused for want of memory. (None, ..) where nothing is."""
    status, written = run(program, script, harm)
    if not written and status == 5:
        return None, True
    answered = list(replies_to(script, written))
    refused = {number for number, reply in answered if reply == b"refused memory\n"}
    left = b"\n".join(line for number, line in enumerate(script.split(b"\n"), 1) if number not in refused)
    _, expected = run(program, left)
    told = b"".join(reply for number, reply in answered if number not in refused)
    if told != expected or (status == 5) != bool(refused) or written.count(b"\n") and not answered:
        return "status %d, lines %s refused" % (status, sorted(refused)), True
    return None, bool(refused)


def tried(program: str, shim: str, name: str, script: bytes, every: int, folder: str) -> int:
    """Tries all allocations of a script, and says how many there were. Answers how many went wrong."""
    count = os.path.join(folder, name)
    run(program, script, Harm(shim, counting=count))
    with open(count) as file:
        calls = int(file.read())
    trials = [(at, on) for at in range(1, calls + 1, every) for on in (False, True)]
    with ThreadPoolExecutor(os.cpu_count()) as pool:
        found = list(pool.map(lambda trial: fault_of(program, script, Harm(shim, *trial)), trials))
    wrong = [(trial, fault) for trial, (fault, _) in zip(trials, found) if fault]
    for (at, on), fault in wrong[:5]:
        print("%s: allocation %d%s: %s" % (name, at, " and all after it" if on else "", fault))
    print("%s: %d allocations, %d runs, %d with a refusal for want of memory, %d wrong"
          % (name, calls, len(trials), sum(lacks for _, lacks in found), len(wrong)), flush=True)
    return len(wrong)


def confined(program: str, name: str, script: bytes) -> int:
    """Runs a script in small address spaces. Answers how many runs went wrong."""
    sizes = range(6, 65, 2)
    with ThreadPoolExecutor(os.cpu_count()) as pool:
        found = list(pool.map(lambda size: fault_of(program, script, Harm(megabytes=size)), sizes))
    for size, (fault, _) in zip(sizes, found):
        if fault:
            print("%s: in %d MB: %s" % (name, size, fault))
    wrong = sum(fault is not None for fault, _ in found)
    print("%s: %d sizes, %d with a refusal for want of memory, %d wrong" % (name, len(sizes), sum(lacks for _, lacks in found), wrong), flush=True)
    return wrong


# Edits that are accepted and edits that are refused, for a fault and by themselves, over and over. A script has at most 16 MB, so they are short.
ROUND = (b"depth 3\n", b"depth 5\n", b"undo\n", b"redo\n", b"seed 1\n", b"depth 9\n", b"axiom\n", b"undo\n")
OPENING = (b"axiom A(6)CA(5)[A(4)]\nproduction a: A(x) : x > 0 => A(x - 1)B\nproduction z: A(x) : x <= 0 => A(1 / x)\nproduction c: C < B => BC\n"
           b"production d: B => BB\n")


def resident(pid: int) -> int:
    with open("/proc/%d/status" % pid) as file:
        return next(int(line.split()[1]) for line in file if line.startswith("VmRSS:"))


def watched(program: str, edits: int) -> int:
    """Runs so many edits in one session, and says how much memory is resident along the way."""
    session = subprocess.Popen([program], stdin=subprocess.PIPE, stdout=subprocess.PIPE)
    assert session.stdin and session.stdout
    session.stdin.write(OPENING)
    told = [0, 0, 0]
    for _ in range(OPENING.count(b"\n")):
        session.stdin.flush()
        session.stdout.readline()
    rounds = edits // len(ROUND)
    marks = {rounds * part // 10 for part in range(1, 11)} | {min(100, rounds)}
    first = last = 0
    for count in range(1, rounds + 1):
        session.stdin.write(b"".join(ROUND))
        session.stdin.flush()
        for _ in ROUND:
            reply = session.stdout.readline()
            if not reply:
                give_up("the session ended after %d edits" % ((count - 1) * len(ROUND)), 1)
            told[0 if reply.startswith(b"ok") else 1 if reply.startswith(b"refused") else 2] += 1
        if count in marks:
            last = resident(session.pid)
            first = first or last
            print("%d edits: %d KB resident" % (count * len(ROUND), last), flush=True)
    session.stdin.close()
    session.stdout.read()
    status = session.wait()
    print("%d accepted, %d refused, %d others; status %d" % (*told, status))
    return 0 if status == 1 and last <= first + 64 else 1


def main() -> int:
    words = Words(__doc__)
    words.add_argument("scripts", nargs="*")
    words.add_argument("--program")
    words.add_argument("--every", type=int, default=1)
    words.add_argument("--limits", action="store_true")
    words.add_argument("--edits", type=int)
    options = words.parse_args()
    program, every, scripts = program_of(options.program), options.every, SCRIPTS
    if options.scripts:
        scripts = {path: open(path, "rb").read() for path in options.scripts}
    if options.edits:
        return watched(program, options.edits)
    if options.limits:
        return 1 if sum(confined(program, name, script) for name, script in {**scripts, **LARGE}.items()) else 0
    with tempfile.TemporaryDirectory() as folder:
        shim, source = os.path.join(folder, "shim.so"), os.path.join(folder, "shim.c")
        with open(source, "w") as file:
            file.write(SHIM)
        if subprocess.run(["cc", "-shared", "-fPIC", "-O1", "-o", shim, source, "-ldl"]).returncode:
            give_up("no C compiler", 127)
        wrong = sum(tried(program, shim, os.path.basename(name), script, every, folder) for name, script in scripts.items())
    return 1 if wrong else 0
