"""Checks docs/LANGUAGE.md and docs/lsys.1: their scripts answer what stands there, and both explain everything that there is.

usage: conformance/manual [--program PATH]

In docs/LANGUAGE.md a block of code that is marked lsys is a script, and a block marked replies after it is what the program
writes. Each command of the lists below has a section there with such a script, and each refusal and kind of fault a row in a
table and a script that is answered so; each option and exit status is named. In docs/lsys.1 all of them are entries. The picture
docs/gallery.svg of the README is what tools/gallery draws. And the syntax files of editors/ have the words of the language, which are
read off its definition.
"""

from __future__ import annotations

import os
import re
import subprocess
import tempfile
from collections.abc import Iterator

from programs import TOP, program_of
from telling import Words

COMMANDS = ["axiom", "production", "drop", "ignore", "schedule", "seed", "depth", "lattice square", "lattice hexagonal", "lattice cubic", "hom",
            "version",
            "ignoring", "consider", "common", "lineage names", "lineage places", "string", "segments", "svg", "show", "bounds", "at", "growth",
            "undo", "redo", "quit"]
REFUSALS = ["syntax long", "syntax byte C", "syntax token C", "syntax deep C", "version C", "name C", "duplicate C", "mixed C", "label C", "table C",
            "level C", "many C",
            "fault KIND level T module N", "limit level T", "fault KIND image N", "image", "far N", "place C", "undo", "redo", "growth", "letters",
            "overflow",
            "memory"]
# Refusals that no short script has.
NOT_SHOWN = ["syntax long", "memory"]
FAULTS = ["overflow", "divide-by-zero", "negative-power", "negative-weight", "weight-total", "too-far"]
OPTIONS = ["--limit N", "--limit=N", "--sample N", "--sample=N"]
STATUSES = ["0", "1", "2", "3", "4", "5", "6"]
# A script, and the replies where these are the next block of code.
SCRIPT = re.compile(r"^```lsys\n((?:(?!```)[^\n]*\n)*)```\n(?:(?:(?!```)[^\n]*\n)*```replies\n((?:(?!```)[^\n]*\n)*)```\n)?", re.M)


def read(name: str) -> str:
    with open(os.path.join(TOP, "docs", name)) as file:
        return file.read()


def missing_in_language(text: str, written: str) -> Iterator[str]:
    """What docs/LANGUAGE.md doesn't explain, given all that its scripts write."""
    sections = dict(re.findall(r"^### (\w+)\n((?:(?!#).*\n)*)", text, re.M))
    rows = re.findall(r"^\| (?:\[)?(.*?)\|", text, re.M)
    for command in COMMANDS:
        scripts = "".join(script for script, _ in SCRIPT.findall(sections.get(command.split()[0], "")))
        if not any("`" + command in row for row in rows) or not re.search("^%s$" % command.split()[0],
                                                                          re.sub(r"^(\w+) .*", r"\1", scripts, flags=re.M), re.M):
            yield "command " + command
    for refusal in REFUSALS:
        pattern = re.sub(r"\b[CTN]\b", r"\\d+", refusal).replace("KIND", "[a-z-]+")
        if "`refused %s` " % refusal not in rows or (refusal not in NOT_SHOWN and not re.search("^refused %s$" % pattern, written, re.M)):
            yield "reply refused " + refusal
    for fault in FAULTS:
        if "`%s` " % fault not in rows or "refused fault %s " % fault not in written:
            yield "fault " + fault
    yield from ("option " + option for option in OPTIONS if "`%s`" % option not in text)
    yield from ("exit status " + status for status in STATUSES if status + " " not in rows)


def missing_in_page(text: str) -> Iterator[str]:
    """What docs/lsys.1 doesn't explain."""
    plain = re.sub(r"\\f[BIR]", "", text).replace("\\-", "-")
    entries = [re.sub(r"^\.B ", "", entry) for entry in re.findall(r"^\.TP\n(.*)", plain, re.M)]
    heads = [head for entry in entries for head in entry.split(", ")]
    yield from ("command " + command for command in COMMANDS if not any(re.match(re.escape(command) + r"(?!\w)", head) for head in heads))
    yield from ("reply " + reply for reply in ["ok M/T"] + ["refused " + refusal for refusal in REFUSALS] if reply not in entries)
    yield from ("fault " + fault for fault in FAULTS if not re.search(r"^\.(B|BR) %s( |$)" % fault, plain, re.M))
    yield from ("option " + option for option in OPTIONS if option not in heads)
    yield from ("exit status " + status for status in STATUSES if status not in entries)


def words_of_language() -> tuple[set[str], set[str]]:
    """The words that begin a command, and those that only stand after one, by the definitions of commands and of a desk's lines."""
    text, desk = read("../crates/lsys_syntax/specs/Commands.antt"), read("../crates/lsys_history/specs/Desks.antt")
    asked = re.findall(r"bytes_eq text \(codes \"(\w+)\"\)", desk)
    settings = set(re.findall(r"^(?:lattice|numbering)_word \S+ = codes \"(\w+)\"", text, re.M))
    return set(re.findall(r"codes \"(\w+)\"", text)) - settings | set(asked), settings


def differing_words() -> list[str]:
    """Where the syntax files' words aren't the language's. Their lists are alternatives between bars, which begin with these words."""
    found = []
    commands, settings = words_of_language()
    for name, lists in (("editors/vim/syntax/lsys.vim", {"axiom": commands, "square": settings}),
                        ("editors/vscode/lsys.tmLanguage", {"axiom": commands, "square": settings}),
                        ("tools/inkscape/lsys_inkscape.py", {"axiom": commands})):
        # A list that takes several lines of Python is one text.
        text = re.sub(r"\"\n\s*\"", "", read("../" + name).replace("\\|", "|"))
        for first, words in lists.items():
            listed = set(re.findall(r"\b%s\|[a-z|]+" % first, text)[0].split("|"))
            if listed != words:
                found.append("%s: these words are missing or too many: %s" % (name, ", ".join(sorted(listed ^ words))))
    scripts = re.findall(r"^export const (?:EDITS|QUERIES|STEPS) = \[([^\]]*)\];", read("../tools/web/language.js"), re.M)
    listed = set(re.findall(r"\w+", " ".join(scripts))) | {"quit"}
    if listed != commands:
        found.append("tools/web/language.js: these words are missing or too many: %s" % ", ".join(sorted(listed ^ commands)))
    return found


def differing_sheet(program: str) -> list[str]:
    with tempfile.TemporaryDirectory() as folder:
        sheet = os.path.join(folder, "sheet.svg")
        subprocess.run([os.path.join(TOP, "tools", "gallery"), "--program", program, "--sheet", sheet])
        with open(sheet) as file:
            return [] if file.read() == read("gallery.svg") else ["docs/gallery.svg isn't what tools/gallery --sheet draws"]


def answer_to(program: str, script: str) -> str:
    return subprocess.run([program], input=script, stdout=subprocess.PIPE, stderr=subprocess.DEVNULL, text=True).stdout


def main() -> int:
    parser = Words(__doc__)
    parser.add_argument("--program")
    options = parser.parse_args()
    program = program_of(options.program)
    language, page = read("LANGUAGE.md"), read("lsys.1")
    written, shown, differing = "", 0, 0
    for script, replies in SCRIPT.findall(language):
        answer = answer_to(program, script)
        written, shown = written + answer, shown + bool(replies)
        if replies and answer != replies:
            differing += 1
            print("docs/LANGUAGE.md: this script answers otherwise\n%s.. namely\n%s" % (script, answer[:600]))
    missing = ["docs/LANGUAGE.md doesn't explain " + what for what in missing_in_language(language, written)]
    missing += ["docs/lsys.1 doesn't explain " + what for what in missing_in_page(page)]
    missing += differing_words() + differing_sheet(program)
    for line in missing:
        print(line)
    names = sum(map(len, [COMMANDS, REFUSALS, FAULTS, OPTIONS, STATUSES]))
    print("%d scripts of docs/LANGUAGE.md with their replies, %d differ; of %d things to explain in each of two texts %d are missing" % (
        shown, differing, names, len(missing)))
    return 1 if differing or missing else 0
