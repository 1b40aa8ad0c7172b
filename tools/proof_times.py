"""Tells which parts of a crate's proof take longest: its lemma files, and of each function its parts.

usage: tools/proof_times CRATE [--test] [--only PATH ..] [--most N]

The crate is checked once more in one process, over the libraries that `rt ci` left in the crates' folders out/; so first run that, in a
checkout whose crates below haven't changed since. What is checked goes to a folder of its own, module by module, and each module's time
is the time since the one before. The N longest are listed (40 unless --most says another number), with the crate's own path: `PATH.Lts`
is what the borrow checker makes of the function PATH, and grows with the values that wait to be dropped at each way out of it;
`PATH.Proof` and `PATH.Answers` are what was proved by search and by hand. --test checks the crate's tests, and --only a function,
a type or a module alone. On a busy machine all times are longer. `tools/goal_times` tells the goals apart.
"""

from __future__ import annotations

import tempfile

from checking import checked, modules, seconds
from telling import Words


def main() -> int:
    words = Words(__doc__)
    words.add_argument("crate")
    words.add_argument("--test", action="store_true")
    words.add_argument("--only", action="append", default=[])
    words.add_argument("--most", type=int, default=40)
    said = words.parse_args()
    with tempfile.TemporaryDirectory(prefix="proof-times-") as folder:
        status, told = checked(said.crate, folder, said.test, said.only)
        taken = seconds(modules(folder))
    print(told.split("\n")[-1])
    for name, time in sorted(taken.items(), key=lambda part: -part[1])[:said.most]:
        print("%7.1f s  %s" % (time, name.replace("Rattle-" + said.crate + "-", "")))
    return status
