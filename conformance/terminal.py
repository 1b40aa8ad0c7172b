"""Runs tools/run and tools/repl as a person does on a terminal, and as a script does.

usage: conformance/terminal [--program PATH]

Of tools/run: standard input, the program's status, where pictures go, scripts that draw nothing, refusals that are told once, limits, and
marks at the head of a file. Of tools/repl, on a terminal of its own: how it begins and ends, what Tab completes and the arrows recall, and
its own lines.
"""

from __future__ import annotations

import os
import pty
import re
import select
import subprocess
import tempfile
import time
from typing import Any

from patience import PATIENCE
from programs import TOP, program_of
from telling import Words

RUN, REPL, EXPORT = (os.path.join(TOP, "tools", name) for name in ("run", "repl", "export"))
FIGURE = b"axiom F\nproduction f: F => F+F\ndepth 2\nsvg\n"
REFUSED = b"axiom F\nsegments x\ndepth 1\n"
LARGE = b"axiom A\nproduction a: A => AA\ndepth 16\n"
NOTHING = b"axiom AB\nproduction a: A => AB\ndepth 3\nsvg\n"
MARK = b"\xef\xbb\xbf"


class Trial:
    """A folder with scripts, and how many of the tries weren't as they should be."""

    def __init__(self, program: str, folder: str) -> None:
        self.program, self.folder, self.tried, self.failed = program, folder, 0, 0

    def expect(self, what: str, is_right: object, seen: object) -> None:
        self.tried += 1
        if not is_right or "Traceback" in str(seen):
            self.failed += 1
            print("%s: NO, it shows %s" % (what, str(seen)[:1200]))

    def script(self, name: str, data: bytes) -> str:
        path = os.path.join(self.folder, name)
        os.makedirs(os.path.dirname(path), exist_ok=True)
        with open(path, "wb") as file:
            file.write(data)
        return path

    def run(self, words: list[str], data: bytes = b"", together: bool = False, tool: str = RUN, cwd: str | None = None) -> tuple[int, str, str]:
        """A tool's status, what it writes and what it says."""
        ran = subprocess.run([tool, *words, "--program", self.program], input=data, stdout=subprocess.PIPE, cwd=cwd or self.folder, timeout=600,
                             stderr=subprocess.STDOUT if together else subprocess.PIPE)
        return ran.returncode, ran.stdout.decode("latin-1"), (ran.stderr or b"").decode("latin-1")


def pictures_of(folder: str) -> list[str]:
    return sorted(name for name in os.listdir(folder) if name.endswith(".svg"))


def pictures(trial: Trial) -> None:
    """Where they go, and that none is empty."""
    path, elsewhere = trial.script("drawn/figure.lsys", FIGURE), os.path.join(trial.folder, "elsewhere")
    os.mkdir(elsewhere)
    kept = os.path.join(TOP, "build", "pictures")
    before = os.listdir(kept) if os.path.isdir(kept) else []
    seen = trial.run([path], cwd=elsewhere)
    beside = pictures_of(os.path.dirname(path))
    trial.expect("a picture goes beside the script",
                 seen[0] == 0 and beside == ["figure-1.svg"] and os.listdir(elsewhere) == [] and "a picture:" in seen[2], (seen, beside))
    trial.expect("and not into the checkout", before == (os.listdir(kept) if os.path.isdir(kept) else []), before)
    seen = trial.run([path, "--out", "out/of/it"], cwd=elsewhere)
    trial.expect("or into the folder of --out", pictures_of(os.path.join(elsewhere, "out", "of", "it")) == ["figure-1.svg"], seen)
    seen = trial.run(["-", "--out", "given"], FIGURE + b"depth 1\nsvg\n")
    trial.expect("standard input is a script too", seen[0] == 0
                 and pictures_of(os.path.join(trial.folder, "given")) == ["script-1.svg", "script-2.svg"], seen)
    seen = trial.run([trial.script("none/nothing.lsys", NOTHING)])
    told = "; line 4: no lines, and so no picture is written: only names that begin with F draw\n"
    trial.expect("a script that draws nothing says so, and leaves no picture",
                 seen[0] == 0 and told in seen[2] and os.listdir(os.path.join(trial.folder, "none")) == ["nothing.lsys"], seen)
    seen = trial.run(["-"], b"axiom G+G\nsvg\n")
    trial.expect("of a letter that draws in other tools it is told", "; G is a letter like others here\n" in seen[2], seen)
    trial.script("file", b"")
    seen = trial.run([path, "--out", "file"])
    trial.expect("a folder that is none", seen[0] == 0 and "--out FOLDER" in seen[2], seen)


def refusals(trial: Trial) -> None:
    """They are told once, with the line and a caret, and the status is the program's."""
    path = trial.script("refused.lsys", REFUSED)
    status, wrote, said = seen = trial.run([path])
    caret = "\n    segments x\n             ^\n"
    trial.expect("a refusal has its line, its words and a caret", "; line 2: refused syntax token 10: " in said and caret in said, seen)
    trial.expect("and what is written is what the program writes", wrote == "ok 0/0\nrefused syntax token 10\nok 0/0\n", seen)
    seen = trial.run([path], together=True)
    trial.expect("where both go to one place it is told once", seen[1].count("refused") == 1 and caret in seen[1] and seen[1].count("ok 0/0") == 2,
                 seen)
    terminal = Terminal([RUN, path, "--program", trial.program])
    terminal.wait_for("ok 0/0\r\n.*ok 0/0\r\n")
    status = terminal.end()
    trial.expect("and on a terminal", terminal.text.count("refused") == 1 and "             ^" in terminal.text and status == 1, terminal.text)
    status, _, said = seen = trial.run([trial.script("meant.lsys", b"axiom F\ndepht 2\n"), "refused.obj"], tool=EXPORT)
    trial.expect("export tells the same, and that nothing is written",
                 status == 1 and "refused syntax token 1: did you mean `depth`?: depth 2\n" in said and "refused.obj is not written" in said, seen)
    tries: list[tuple[str, bytes, list[str]]] = [
        ("refused", REFUSED, []), ("figure", FIGURE, []), ("long", b"\n" * 16777217, []), ("wrong", FIGURE, ["--limit", "0"]),
        ("quit", b"quit\n$\n", []), ("limit", LARGE, ["--limit=7"]), ("sample", b"", ["--sample", "0"])]
    for name, data, words in tries:
        own = subprocess.run([trial.program, *words], input=data, stdout=subprocess.DEVNULL, stderr=subprocess.DEVNULL).returncode
        seen = trial.run(["-", *words], data)
        trial.expect("the status of %s is the program's" % name, seen[0] == own, (own, seen[0], seen[2]))


def limits(trial: Trial) -> None:
    """A refusal by the limit tells which one, and what raises it."""
    status, _, said = seen = trial.run(["-"], LARGE)
    trial.expect("a refusal by the limit tells it", "levels 0 to 16 have together more than 100,000 symbols" in said
                 and "`--limit N` raises it, N from 1 to 1,000,000" in said, seen)
    status, _, said = seen = trial.run(["-", "--limit", "31"], LARGE)
    trial.expect("also another one", "levels 0 to 5 have together more than 31 symbols" in said and "`--limit N` raises it" in said, seen)
    seen = trial.run(["-", "--limit", "1000000"], LARGE)
    trial.expect("and it is raised so", seen[:2] == (0, "ok 0/0\nok 0/0\nok 65535/65535\n"), seen)
    status, _, said = seen = trial.run(["-", "--limit", "1000000"], LARGE + b"depth 20\n")
    trial.expect("of the greatest one no greater one is told", "the greatest one" in said and "raises" not in said, seen)


def marks(trial: Trial) -> None:
    """A mark at the head of a file, and signs of two bytes."""
    path = trial.script("marked.lsys", MARK + FIGURE)
    tries: list[tuple[list[str], str]] = [([path], RUN), ([path, "marked.obj"], EXPORT), ([path], REPL)]
    for words, tool in tries:
        seen = trial.run(words, tool=tool)
        trial.expect("%s leaves a byte order mark out, and says so" % os.path.basename(tool),
                     seen[0] == 0 and "byte order mark" in seen[2] and "refused" not in seen[1] + seen[2], seen)
    seen = trial.run(["-"], "axiom F\n".encode("utf-16"))
    trial.expect("a file of two bytes a sign is told", "save it as UTF-8" in seen[2], seen)
    seen = trial.run(["-", "out.svg"], FIGURE, tool=EXPORT)
    trial.expect("export reads standard input", seen[0] == 0, seen)


class Terminal:
    """A tool on a terminal of its own, or with one of its ends elsewhere."""

    def __init__(self, words: list[str], cwd: str | None = None, **ends: Any) -> None:
        self.hand, other = pty.openpty()
        self.text = ""
        kept = {name: value for name, value in os.environ.items() if name not in ("COLUMNS", "LINES")}
        self.running = subprocess.Popen(words, cwd=cwd, env={**kept, "TERM": "dumb", "HOME": cwd or "/nonexistent"}, close_fds=True,
                                        start_new_session=True, stdin=other, stdout=ends.get("stdout", other), stderr=other)
        os.close(other)

    def read(self, seconds: float) -> bool:
        if not select.select([self.hand], [], [], seconds)[0]:
            return False
        try:
            part = os.read(self.hand, 65536)
        except OSError:
            return False
        self.text += part.decode("latin-1")
        return bool(part)

    def wait_for(self, pattern: str, seconds: float = PATIENCE) -> str:
        """Reads until what was written since the last such call holds a pattern; gives that text, or all that there was."""
        until, begun = time.time() + seconds, len(getattr(self, "seen", ""))
        while not re.search(pattern, self.text[begun:], re.S) and time.time() < until:
            if not self.read(0.2) and self.running.poll() is not None:
                break
        self.seen = self.text
        return self.text[begun:]

    def type(self, text: str, pattern: str = "lsys> $") -> str:
        os.write(self.hand, text.encode())
        return self.wait_for(pattern)

    def end(self) -> int:
        until = time.time() + PATIENCE
        while self.running.poll() is None and time.time() < until:
            self.read(0.2)
        while self.read(0.1):
            pass
        try:
            return self.running.wait(PATIENCE)
        finally:
            os.close(self.hand)


def session(trial: Trial) -> None:
    """A session on a terminal: one line at its begin, answers, completion, history, its own lines, and its end."""
    words = [REPL, "--program", trial.program]
    terminal = Terminal(words, trial.folder)
    begun = terminal.wait_for("lsys> $")
    hints = [line for line in begun.splitlines() if line.startswith("; ")]
    trial.expect("it says in one line how to begin and how to end",
                 len(hints) == 1 and "Tab" in hints[0] and "quit" in hints[0] and "Ctrl-D" in hints[0], begun)
    expected = [("a line is answered", "axiom F\n", "ok 0/0\r\n"),
                ("Tab completes a command", "prod\t grow: F => FF\n", "production.*grow: F => FF.*ok 0/0"),
                ("a refusal is told", "dept 2\n", r"refused syntax token 1\r\n; .*\r\n    dept 2\r\n    \^"),
                ("Tab completes a setting", "lattice cu\t\n", "cubic.*ok 0/0"),
                ("a derivation", "depth 3\n", "ok 7/7"), ("an arrow recalls the line before", "\x1b[A\n", "depth 3.*ok 0/7"),
                ("Tab completes a name", "axiom F_bud\n", "ok 0/0"), ("in another line", "production next: F_b\t => F\n", "F_bud => F.*ok 4/4"),
                ("undo takes it back", "undo\n", "ok "), ("and the name", "undo\n", "ok "),
                ("Tab completes a label", "drop gr\t\n", "grow.*ok 0/0"), ("undo goes back", "undo\n", "ok 7/7"),
                ("a limit is told", "depth 40\n", ":limit N` raises it"),
                ("and raised", ":limit 1000000\n", "edits were taken"), (":picture writes one", ":picture fig.svg\n", "a picture: "),
                (":save saves", ":save kept.lsys\n", "saved"),
                (":open begins anew", ":open kept.lsys\n", "edits were taken"), ("what isn't there", ":open nothing.lsys\n", "No such file"),
                (":help lists", ":help\n", ":picture.*:save.*:open.*:limit.*:quit"), ("string", "string\n", "FFFFFFFF")]
    for what, typed, pattern in expected:
        seen = terminal.type(typed)
        trial.expect(what, re.search(pattern, seen, re.S), seen)
    with open(os.path.join(trial.folder, "kept.lsys"), "rb") as file:
        data = file.read()
    answered = subprocess.run([trial.program], input=data + b"string\n", stdout=subprocess.PIPE)
    trial.expect("what was saved leads to the same", answered.returncode == 0 and answered.stdout.endswith(b"\nFFFFFFFF\n"), data)
    trial.expect("the picture is there", os.path.getsize(os.path.join(trial.folder, "fig.svg")) > 200, "")
    os.write(terminal.hand, b"\x04")
    trial.expect("Ctrl-D ends it", terminal.end() == 0, terminal.text[-200:])
    for typed in ("quit\n", ":quit\n"):
        terminal = Terminal(words, trial.folder)
        terminal.wait_for("lsys> $")
        os.write(terminal.hand, typed.encode())
        trial.expect("%s ends it" % typed.strip(), terminal.end() == 0, terminal.text)


def ends(trial: Trial) -> None:
    """A session whose ends aren't both terminals says nothing of its own."""
    words = [REPL, "--program", trial.program]
    seen = trial.run([], b"axiom F\nstring\nquit\nstring\n", tool=REPL)
    trial.expect("from a pipe there are replies alone", seen[1] == "ok 0/0\nF\n" and "Tab" not in seen[2] and "lsys>" not in seen[1], seen)
    with tempfile.TemporaryFile() as sink:
        terminal = Terminal(words, trial.folder, stdout=sink)
        os.write(terminal.hand, b"axiom F\nstring\n\x04")
        status = terminal.end()
        sink.seek(0)
        wrote = sink.read()
    trial.expect("into a file, too", status == 0 and wrote == b"ok 0/0\nF\n" and "Tab" not in terminal.text, (status, wrote, terminal.text))
    seen = trial.run(["--limit", "0"], tool=REPL)
    trial.expect("a limit of 0", seen[0] == 2 and "from 1 to 1,000,000" in seen[2], seen)
    seen = trial.run(["nothing.lsys"], tool=REPL)
    trial.expect("a script that isn't there", seen[0] == 2 and "no script at" in seen[2], seen)
    for tool in (RUN, REPL):
        seen = trial.run(["--help"], tool=tool)
        trial.expect("%s --help is long" % os.path.basename(tool), seen[0] == 0 and len(seen[1].splitlines()) > 12 and "svg" in seen[1].lower(), seen)


def has_terminals() -> bool:
    """Whether this machine gives terminals to programs."""
    try:
        for end in pty.openpty():
            os.close(end)
        return True
    except OSError:
        return False


def main() -> int:
    parser = Words(__doc__)
    parser.add_argument("--program")
    program = os.path.abspath(program_of(parser.parse_args().program))
    if not has_terminals():
        print("on a terminal: skipped, this machine gives none")
        return 0
    with tempfile.TemporaryDirectory() as folder:
        trial = Trial(program, os.path.realpath(folder))
        for part in (pictures, refusals, limits, marks, session, ends):
            part(trial)
    print("on a terminal: %d tries, %d not as they should be" % (trial.tried, trial.failed))
    return 1 if trial.failed else 0
