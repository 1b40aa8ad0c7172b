"""Proves the program and the crates below it, lowest first, and builds bin/lsys. A line for each crate tells how far it is.

usage: tools/prove

What the toolchain says is kept in build/prove.log, and shown where a proof fails; the status is then the toolchain's.
"""

from __future__ import annotations

import os
import re
import shutil
import subprocess
import sys
import time

from building import NO_TOOLCHAIN
from programs import PROVED, TOP, crates_of_the_program, shown
from telling import Passing, give_up

VERDICT = re.compile(r"^logic=proved functions=(\d+)", re.M)
# Seconds between two lines of a crate that takes long.
SELDOM = 30
LOG = os.path.join(TOP, "build", "prove.log")


def prove(crate: str) -> tuple[int, str]:
    """Proves and builds one crate, and returns the toolchain's status and what it said."""
    is_program = os.path.exists(os.path.join(TOP, "crates", crate, "src", "main.rt"))
    ran = subprocess.run(["rt", "run" if is_program else "lib"], cwd=os.path.join(TOP, "crates", crate), stdin=subprocess.DEVNULL,
                         stdout=subprocess.PIPE, stderr=subprocess.STDOUT, text=True, errors="replace")
    return ran.returncode, ran.stdout


def keep_program(begun: float) -> None:
    """Puts the program into bin/. An edit that was made while the proofs ran makes it stale."""
    bin_program, made = PROVED
    os.makedirs(os.path.dirname(bin_program), exist_ok=True)
    shutil.copyfile(made, bin_program + ".new")
    os.chmod(bin_program + ".new", 0o755)
    os.utime(bin_program + ".new", (begun, begun))
    os.replace(bin_program + ".new", bin_program)
    print("%s is built, in %d s." % (shown(bin_program), time.time() - begun))


def main() -> int:
    if sys.argv[1:]:
        print(__doc__)
        return 0 if set(sys.argv[1:]) & {"-h", "--help"} else 2
    if not shutil.which("rt"):
        give_up(NO_TOOLCHAIN, 127)
    crates = crates_of_the_program()
    print("Proving %d crates, one after another: by estimate an hour from nothing, and after a change what stands on it." % len(crates), flush=True)
    os.makedirs(os.path.dirname(LOG), exist_ok=True)
    begun = time.time()
    with open(LOG, "w") as log:
        for number, crate in enumerate(crates, 1):
            step = time.time()
            with Passing("%s, %d of %d, is being proved" % (crate, number, len(crates)), SELDOM):
                status, said = prove(crate)
            print("%2d of %d  %-12s " % (number, len(crates), crate), end="", flush=True)
            log.write(said)
            if status:
                print("NOT PROVED")
                sys.stderr.write("".join(line for line in said.splitlines(True) if not line.startswith("statements ")))
                print("The toolchain's words stand above, and all of them in %s." % shown(LOG), file=sys.stderr)
                return status
            functions = VERDICT.search(said)
            print("proved, %3s functions, %4d s" % (functions.group(1), time.time() - step) if functions else "is proved already", flush=True)
    keep_program(begun)
    return 0
