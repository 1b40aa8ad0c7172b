"""Provokes what fails in the first hour on a bare machine, and checks that a line says it, that the status isn't 0, and that nothing is left.

usage: conformance/first_hour [--program PATH]

Tried are: no toolchain, one that fails, one of another kind that gives a slow program, and a build that is stopped; no python3, a port
in use and one out of range, a wrong program, a script that isn't there, one with blanks and quotes in its path, a closed tab, a reader
that goes, --help of each tool, refused lines; the packed program, unpacked into an empty folder and run with a PATH that has no
toolchain, one that isn't proved, and what is installed; and what the repository tells whoever opens it. Whatever happens, no traceback
is shown.
"""

from __future__ import annotations

import os
import re
import resource
import shutil
import signal
import socket
import subprocess
import sys
import tarfile
import tempfile
import time
from typing import Any

from asking import Looking
from patience import is_within, waited
from processes import Process, processes
from programs import TOP, program_of
from telling import Words

SCRIPT = "axiom A\nproduction a: A => AA\nsegments x\n\n; a comment\n  depth 30\naxiom %s$%s\nstring\nquit\naxiom $\n" % ("A" * 300, "A" * 300)
TOLD = [r"; line 3: refused syntax token 10: .+\n    segments x\n             \^\n", r"; line 6: refused limit level 16: .+\n      depth 30\n",
        r"; line 7: refused syntax byte 307: .+\n    \.\. %s\$%s \.\.\n%s\^\n" % ("A" * 50, "A" * 49, " " * 57)]
REPLIES = "ok 0/0\nok 0/0\nrefused syntax token 10\nrefused limit level 16\nrefused syntax byte 307\nA\n"
TOOLS = ["run", "repl", "look", "gallery", "prove", "gate_times", "export", "check", "dist", "unused", "line_machine", "proved", "house",
         "lint", "goal_times", "proof_times"]
CHECKS = ["run", "curves", "manual", "pictures", "look", "soak", "export", "first_hour", "hands", "terminal", "hints", "costs", "definitions"]
FILES = ["Makefile", "crates.txt", "VERSION", "README.md", "CHANGELOG.md", "LICENSE-APACHE", "LICENSE-MIT"]
COMMANDS = ["lsys", "lsys-run", "lsys-repl", "lsys-look", "lsys-export"]


class Trial:
    """A bare checkout in a folder, and how many of the tries weren't as they should be."""

    def __init__(self, program: str, folder: str) -> None:
        self.program, self.folder, self.failed, self.tried = program, folder, 0, 0
        self.top = os.path.join(folder, "checkout")
        for name in ("tools", "examples", "docs", "editors"):
            shutil.copytree(os.path.join(TOP, name), os.path.join(self.top, name))
        for name in FILES:
            shutil.copy(os.path.join(TOP, name), self.top)
        if os.path.isdir(os.path.join(TOP, ".ci")):
            shutil.copytree(os.path.join(TOP, ".ci"), os.path.join(self.top, ".ci"))
        os.makedirs(os.path.join(self.top, "crates", "lsys", "src"))

    def path_with(self, *names: str) -> str:
        """A PATH that has these commands and no other."""
        bare = tempfile.mkdtemp(dir=self.folder)
        for name in names:
            there = sys.executable if name == "python3" else shutil.which(name) or name
            os.symlink(os.path.realpath(there), os.path.join(bare, name))
        return bare

    def run(self, words: list[str], path: str | None = None, **how: Any) -> tuple[int, str, str, float]:
        """Runs a command at the top of the checkout: its status, what it writes and what it says, and its seconds."""
        begun = time.time()
        # A make that runs this has no part in the makes that are tried.
        kept = {name: value for name, value in os.environ.items() if not name.startswith("MAKE")}
        env = {**kept, "PYTHONDONTWRITEBYTECODE": "1", **({"PATH": path} if path else {}), **how.pop("env", {})}
        ran = subprocess.run(words, cwd=how.pop("cwd", self.top), env=env, stdin=subprocess.DEVNULL, capture_output=True,
                             text=True, timeout=600, **how)
        return ran.returncode, ran.stdout, ran.stderr, time.time() - begun

    def expect(self, what: str, is_right: object, seen: object) -> None:
        self.tried += 1
        if not is_right or "Traceback" in str(seen):
            self.failed += 1
            print("%s: NO, it shows %s" % (what, str(seen)[:1500]))

    def refuses(self, what: str, words: list[str], line: str, path: str | None = None, **how: Any) -> None:
        """A command has to say one line with this in it, besides what make adds, and to fail."""
        status, _, said, seconds = seen = self.run(words, path, **how)
        lines = [text for text in said.splitlines() if not text.startswith("make")]
        self.expect(what, status != 0 and len(lines) == 1 and line in lines[0] and is_within(seconds, 20), seen)


def what_is_missing(trial: Trial) -> None:
    bare, tools = trial.path_with("sh", "bash", "find", "make", "python3", "env", "cat", "dirname"), os.path.join(trial.top, "tools")
    for what in ("run", "look", "repl", "test", "check", "gate", "prove", "gallery", "dist", "install", "bin/lsys"):
        trial.refuses("make %s without rt" % what, ["make", what], "there is no rt in PATH", bare)
    trial.refuses("tools/run without rt", [os.path.join(tools, "run"), "examples/algae.lsys"], "README.md", bare)
    left = waited(lambda: [process.number for process in processes() if process.folder.startswith(trial.folder)], lambda left: not left, 20)
    trial.expect("nothing is left running", not left, left)
    without_python = trial.path_with("sh", "find", "make", "cat")
    for what in ("run", "look", "repl", "test", "check", "gallery", "dist", "install", "bin/lsys"):
        trial.refuses("make %s without python3" % what, [shutil.which("make") or "make", what], "there is no python3 in PATH", without_python)


def strange_toolchains(trial: Trial) -> None:
    """A `rt` that fails, one that links a program and is called otherwise than this kit's, and one that is stopped at its work."""
    kinds = {"failing": "echo no such crate; exit 3", "working": "mkdir $TMPDIR/x && cp '%s' $TMPDIR/x/program && sleep 1" % trial.program,
             "slow": "sleep 300"}
    for kind, what in kinds.items():
        os.makedirs(os.path.join(trial.folder, kind))
        with open(os.path.join(trial.folder, kind, "rt"), "w") as file:
            file.write("#!/bin/sh\n%s\n" % what)
        os.chmod(os.path.join(trial.folder, kind, "rt"), 0o755)
    path = {kind: os.path.join(trial.folder, kind) + ":" + os.environ["PATH"] for kind in kinds}
    run = [os.path.join(trial.top, "tools", "run"), "examples/algae.lsys"]
    status, _, said, _ = seen = trial.run(run, path["failing"])
    trial.expect("a toolchain that fails", status == 3 and "no such crate\n; no program was built" in said, seen)
    status, wrote, said, _ = seen = trial.run(run, path["working"])
    trial.expect("a slow program", status == 0 and wrote.startswith("ok 0/0\n") and "gave a slow program" in said and "s of one processor" in said,
                 seen)
    shutil.rmtree(os.path.join(trial.top, "build"))
    silence(trial, run, path["slow"])
    for number, status in ((signal.SIGTERM, 143), (signal.SIGINT, 130)):
        stopped_build(trial, run, path["slow"], number, status)


def silence(trial: Trial, words: list[str], path: str) -> None:
    """A build that takes long tells the seconds as they pass."""
    running = subprocess.Popen(words, cwd=trial.top, env={**os.environ, "PATH": path}, stderr=subprocess.PIPE, text=True)
    assert running.stderr
    said = [running.stderr.readline() for _ in range(2)]
    running.send_signal(signal.SIGTERM)
    running.communicate()
    trial.expect("no minute of a build is silent", re.match(r";   [1-9]\d+ s so far: the sources are being read", said[1]), said)


def stopped_build(trial: Trial, words: list[str], path: str, number: int, status: int) -> None:
    # Who started this check may ignore Ctrl-C, as a shell does for what runs in the background.
    def heeds() -> None:
        signal.signal(signal.SIGINT, signal.SIG_DFL)

    def below() -> list[Process]:
        return [process for process in processes() if process.folder.startswith(trial.folder)]

    def has_sleep(found: list[Process]) -> bool:
        return any(process.words[0] == "sleep" for process in found)

    def is_empty(found: list[Process]) -> bool:
        return not found

    running = subprocess.Popen(words, cwd=trial.top, env={**os.environ, "PATH": path}, stderr=subprocess.PIPE, text=True, preexec_fn=heeds)
    assert running.stderr
    said = running.stderr.readline()
    waited(below, has_sleep)
    running.send_signal(number)
    said += running.communicate()[1]
    left = [process.words for process in waited(below, is_empty, 5)] + os.listdir(os.path.join(trial.top, "build"))
    trial.expect("a build that is stopped", running.returncode == status and not left, (running.returncode, said, left))


def wrong_words(trial: Trial) -> None:
    look, run, export = ([os.path.join(trial.top, "tools", name)] for name in ("look", "run", "export"))
    script = ["examples/algae.lsys"]
    with socket.socket() as taken:
        taken.bind(("127.0.0.1", 0))
        taken.listen()
        port = str(taken.getsockname()[1])
        trial.refuses("a port in use", look + script + ["--program", trial.program, "--port", port], "port %s can't be had" % port)
    for port in ("65536", "-1", "http"):
        trial.refuses("port %s" % port, look + script + ["--program", trial.program, "--port=" + port], "a port is a number from 0 to 65535")
    for program in ("nothing", "examples", "README.md", shutil.which("true") or "true", shutil.which("cat") or "cat"):
        for tool in (look + script, export + script + ["x.svg"]):
            trial.refuses("--program %s" % program, tool + ["--program", program], program)
    trial.refuses("a limit of 0", look + script + ["--program", trial.program, "--limit", "0"], "usage: lsys [--limit N]")
    trial.refuses("an unknown word", look + script + ["--prot", "1"], "--help says more")
    for name in ("nowhere/nothing.lsys", "examples"):
        trial.refuses("look at %s" % name, look + [name], "no script at %s" % name)
        trial.refuses("run %s" % name, run + [name], "no script at %s" % name)
        trial.refuses("make run SCRIPT=%s" % name, ["make", "run", "SCRIPT=" + name], "no script at %s" % name)
    for folder, names in (("tools", TOOLS), ("conformance", CHECKS)):
        for name in names:
            status, wrote, said, _ = seen = trial.run([os.path.join(TOP, folder, name), "--help"])
            trial.expect("%s/%s --help" % (folder, name), status == 0 and "usage: %s/%s" % (folder, name) in wrote and not said, seen)


def no_browser(trial: Trial) -> None:
    """Where there is no driver of a browser, the page's trials say so, and install none."""
    status, _, said, seconds = seen = trial.run([os.path.join(TOP, "conformance", "look")], trial.path_with("env", "python3"))
    trial.expect("conformance/look without a browser",
                 status == 0 and "there is no chromedriver" in said and is_within(seconds, 5)
                 and "apt-get\"" not in text_of("conformance/browser.py"), seen)


def scripts(trial: Trial) -> None:
    """Of a checkout whose program is there: paths, refusals, and a reader that goes."""
    os.makedirs(os.path.join(trial.top, "bin"))
    shutil.copyfile(trial.program, os.path.join(trial.top, "bin", "lsys"))
    os.chmod(os.path.join(trial.top, "bin", "lsys"), 0o755)
    name = "my 'first' \"script\" $HOME.lsys"
    with open(os.path.join(trial.top, name), "w") as file:
        file.write(SCRIPT)
    status, wrote, said, _ = seen = trial.run([os.path.join(trial.top, "tools", "run"), name])
    trial.expect("a path with blanks and quotes", status == 1 and wrote == REPLIES, seen)
    trial.expect("each refusal has its line", all(re.search(text, said) for text in TOLD), seen)
    status, wrote, _, _ = seen = trial.run(["make", "run"], env={"SCRIPT": name})
    trial.expect("also by make, which fails where a line is refused", status == 2 and wrote == REPLIES, seen)
    status, _, said, _ = seen = trial.run(["sh", "-c", "make run SCRIPT=examples/plant_b.lsys | head -1"])
    trial.expect("a reader that goes", status == 0 and said.endswith("plant_b-1.svg\n"), seen)
    status, _, said, _ = seen = trial.run(["sh", "-c", "tools/export examples/plant_b.lsys nowhere/plant.svg"])
    trial.expect("a file that can't be written", status == 1 and said.count("\n") == 2, seen)


def closed_tab(trial: Trial) -> None:
    looking = Looking([os.path.join(trial.top, "tools", "look"), "examples/plant_b.lsys"], trial.top)
    for request in (b"GET /state?turn=99 HTTP/1.1\r\nHost: 127.0.0.1:%d\r\n\r\n", b"GET / HTTP/1.1\r\nHost: 127.0.0.1:%d\r\n\r\n",
                    b"POST /change HTTP/1.1\r\nHost: 127.0.0.1:%d\r\nX-Token: none\r\nContent-Length: 9\r\n\r\nsvg"):
        tab = socket.create_connection(("127.0.0.1", looking.port))
        tab.sendall(request % looking.port)
        time.sleep(0.1)
        # The other side is told at once that nobody reads.
        tab.setsockopt(socket.SOL_SOCKET, socket.SO_LINGER, b"\1\0\0\0\0\0\0\0")
        tab.close()
    page = looking.get("/export/svg")
    status, said = looking.end()
    trial.expect("a closed tab", status == 0 and "<svg" in page and "failed" not in said and said.count("\n") <= 3, (status, said, page[:100]))


def seconds_of_children() -> float:
    used = resource.getrusage(resource.RUSAGE_CHILDREN)
    return used.ru_utime + used.ru_stime


def unpacked(trial: Trial, program: str, kind: str) -> tuple[str, str]:
    """The folder that a package of a program is unpacked into, by tools/dist, and what that printed."""
    room = os.path.join(trial.folder, kind)
    status, wrote, _, _ = seen = trial.run([os.path.join(trial.top, "tools", "dist"), "--program", program, "--into", room])
    trial.expect("tools/dist of %s program" % kind, status == 0, seen)
    with tarfile.open(next(os.path.join(room, name) for name in os.listdir(room) if name.endswith(".tar.gz"))) as file:
        safely: dict[str, Any] = {"filter": "data"} if hasattr(tarfile, "data_filter") else {}
        file.extractall(os.path.join(room, "there"), **safely)
    return os.path.join(room, "there", os.listdir(os.path.join(room, "there"))[0]), wrote


def packed(trial: Trial) -> None:
    """The program for people without the toolchain."""
    top, wrote = unpacked(trial, os.path.join(trial.top, "bin", "lsys"), "a proved")
    trial.expect("a proved program has a plain version", "unproved" not in wrote + top, wrote)
    bare = trial.path_with("sh", "python3", "env")
    before = seconds_of_children()
    status, _, said, _ = seen = trial.run([os.path.join(top, "run"), "examples/plant_b.lsys"], bare, cwd=top)
    taken = seconds_of_children() - before
    is_there = os.path.exists(os.path.join(top, "pictures", "plant_b-1.svg"))
    trial.expect("the first picture of the packed program within a second of one processor", status == 0 and taken < 1 and is_there, (seen, taken))
    looking = Looking([os.path.join(top, "look"), "examples/plant_b.lsys"], top, bare)
    page, shown = looking.get("/"), looking.get("/export/svg")
    ended = looking.end()
    trial.expect("look of the packed program", ended[0] == 0 and "<html" in page and "<svg" in shown, (ended, page[:99], shown[:99]))
    trial.expect("its page names version and licences", "lsys %s, free under Apache-2.0 or MIT" % text_of("VERSION").strip() in page, page[-600:])
    status, _, said, _ = seen = trial.run([os.path.join(top, "export"), "examples/plant_b.lsys", "plant.obj"], bare, cwd=top)
    trial.expect("export of the packed program", status == 0 and os.path.getsize(os.path.join(top, "plant.obj")) > 1000, seen)
    status, _, said, _ = seen = trial.run([os.path.join(top, "repl"), "examples/algae.lsys"], bare, cwd=top)
    trial.expect("repl of the packed program", status == 0 and "edits were taken" in said, seen)
    for name in ("run", "repl", "look", "export"):
        trial.refuses("%s of the packed program without python3" % name, [os.path.join(top, name)], "there is no python3 in PATH: %s needs" % name,
                      trial.path_with("sh", "env"), cwd=top)
    links = re.findall(r"(?:href|src)=\"([^#\"][^\"]*)\"", open(os.path.join(top, "gallery", "index.html")).read())
    gone = [link for link in links if not os.path.exists(os.path.join(top, "gallery", link))]
    trial.expect("the links of the gallery page", len(links) > 100 and not gone, gone[:5])
    missing = [name for name in ("LICENSE-APACHE", "LICENSE-MIT", "CHANGELOG.md", "README.md", "docs/LANGUAGE.md")
               if not os.path.exists(os.path.join(top, name))]
    trial.expect("the licences and the changes are packed", not missing, missing)


def files_below(folder: str) -> list[str]:
    return sorted(os.path.relpath(os.path.join(at, name), folder) for at, _, names in os.walk(folder) for name in names)


def not_proved(trial: Trial) -> None:
    """A package of another program than the one that is proved."""
    other = os.path.join(trial.folder, "another")
    with open(trial.program, "rb") as file, open(other, "wb") as copy:
        copy.write(file.read() + b"\0")
    os.chmod(other, 0o755)
    top, wrote = unpacked(trial, other, "an unproved")
    marked = text_of("VERSION").strip() + "+unproved"
    trial.expect("the version of an unproved program is marked", marked in wrote and open(os.path.join(top, "VERSION")).read() == marked + "\n",
                 wrote)
    claims = [name for name in files_below(top) if name.endswith((".md", ".1", ".html", ".txt", ".lsys")) and has_claim(os.path.join(top, name))]
    trial.expect("no text of its package says proved", not claims and os.path.getsize(os.path.join(top, "README.md")) > 3000, claims)
    helps = [trial.run([os.path.join(top, name), "--help"], cwd=top)[1] for name in ("run", "repl", "look", "export")]
    trial.expect("nor do its tools", not any(re.search("(?<!un)proved", said) for said in helps), helps)
    deb = next((name for name in os.listdir(os.path.join(trial.folder, "an unproved")) if name.endswith(".deb")), None)
    if deb:
        _, control, _, _ = trial.run(["dpkg-deb", "--field", os.path.join(trial.folder, "an unproved", deb)])
        trial.expect("nor does the .deb", "Version: %s\n" % marked in control and not re.search("(?<!un)proved", control), control)


def has_claim(path: str) -> bool:
    with open(path, encoding="utf-8") as file:
        return bool(re.search("(?<!un)proved", file.read(), re.I))


def installed(trial: Trial) -> None:
    """`make install` brings what the package brings, and that works where it is put."""
    root = os.path.join(trial.folder, "root")
    seen = trial.run(["make", "install", "PREFIX=/usr", "DESTDIR=" + root, "INKSCAPE_EXTENSIONS=/usr/share/inkscape/extensions"])
    bin_folder = os.path.join(root, "usr", "bin")
    trial.expect("make install", seen[0] == 0 and sorted(os.listdir(bin_folder)) == sorted(COMMANDS), seen)
    debs = [name for name in os.listdir(os.path.join(trial.folder, "a proved")) if name.endswith(".deb")]
    if debs:
        trial.run(["dpkg-deb", "--extract", os.path.join(trial.folder, "a proved", debs[0]), os.path.join(trial.folder, "deb")])
        package, here = files_below(os.path.join(trial.folder, "deb")), files_below(root)
        trial.expect("it has what the .deb has", package == here and len(here) > 100, sorted(set(package) ^ set(here))[:9])
        with open(os.path.join(trial.folder, "deb", "usr", "share", "doc", "lsys", "copyright"), encoding="utf-8") as file:
            told = file.read()
        trial.expect("the .deb has its copyright, and both licences",
                     "Apache-2.0" in told and "MIT" in told
                     and {"usr/share/doc/lsys/LICENSE-MIT", "usr/share/doc/lsys/LICENSE-APACHE"} <= set(package), told)
    parts = ["usr/share/man/man1/lsys.1.gz", "usr/share/inkscape/extensions/lsys/lsys.inx", "usr/share/doc/lsys/editors/vim/syntax/lsys.vim"]
    missing = [part for part in parts if not os.path.exists(os.path.join(root, part))]
    trial.expect("the manual page, the extension and the syntax files are installed", not missing, missing)
    status, _, said, _ = seen = trial.run([os.path.join(bin_folder, "lsys-run"), "-", "--out", root], trial.path_with("sh", "python3", "env"))
    trial.expect("lsys-run works where it is installed", status == 0, seen)
    trial.refuses("a wrong word to lsys-run", [os.path.join(bin_folder, "lsys-run"), "--prot", "1"], "bin/lsys-run --help says more")
    trial.refuses("lsys-run without python3", [os.path.join(bin_folder, "lsys-run"), "-"], "there is no python3 in PATH: lsys-run needs",
                  trial.path_with("sh", "env"))
    again = trial.run(["make", "install", "PREFIX=/usr", "DESTDIR=" + root, "INKSCAPE_EXTENSIONS=/usr/share/inkscape/extensions"])
    trial.expect("make install once more", again[0] == 0, again)


def text_of(name: str) -> str:
    with open(os.path.join(TOP, name), encoding="utf-8") as file:
        return file.read()


def told_first(trial: Trial) -> None:
    """What whoever opens the repository reads first, and what `make` calls by which name."""
    readme, version = text_of("README.md"), text_of("VERSION").strip()
    head = readme[:readme.index("\n## ")]
    order = [head.find(part) for part in ("L-systems", "![", "make run SCRIPT=", "make test", "Python 3.9")]
    trial.expect("README begins with what it is, the picture, two commands and what they need", -1 not in order and order == sorted(order), order)
    trial.expect("it names the licences", "LICENSE-APACHE" in readme and "LICENSE-MIT" in readme, head)
    trial.expect("it tells where a package is to be had",
                 re.search(r"^\*\*Ready built, it comes from `make dist` .*10 seconds.*an hour\.\*\*$", readme, re.M)
                 and "without the toolchain only the tools run" in readme, readme[:2000])
    trial.expect("it tells the seconds that were measured",
                 "158 and 166 seconds of one processor (Xeon, 2.5 GHz)" in readme and "2 minutes" not in readme, readme)
    trial.expect("the newest changes are of this version", re.findall(r"^## (\S+)", text_of("CHANGELOG.md"), re.M)[0] == version, version)
    trial.expect("there are licences and a style for editors",
                 "Apache License" in text_of("LICENSE-APACHE") and "Permission is hereby" in text_of("LICENSE-MIT")
                 and "root = true" in text_of(".editorconfig"), "")
    trial.expect("CONTRIBUTING says what HANDLES is", "file `HANDLES`" in text_of("CONTRIBUTING.md"), "")
    there, told = os.listdir(os.path.join(TOP, "conformance")), text_of("conformance/README.md")
    untold = [name for name in there if name not in ("README.md", "__pycache__") and not re.search(r"(`|conformance/)%s\b" % re.escape(name), told)]
    trial.expect("conformance/README lists all that is there", not untold, untold)
    if not os.path.isdir(os.path.join(TOP, ".ci")):
        return
    called = {name: trial.run(["make", "-n", name], cwd=TOP)[1] for name in ("test", "check", "gate", "prove")}
    trial.expect("make test is the tests, and check is another name of it",
                 all("tools/check" in called[name] and ".ci/run" not in called[name] for name in ("test", "check")), called)
    trial.expect("make gate is the gate, and prove is another name of it", all(called[name].strip() == ".ci/run" for name in ("gate", "prove")),
                 called)
    trial.expect("the gate runs the checks that the tests run",
                 all("conformance/" + name in text_of(".ci/run") or re.search(r"for check in .*\b%s\b" % name, text_of(".ci/run"))
                                                                  for name in ("run", "curves", "manual", "export", "first_hour", "hands",
                                                                               "terminal", "hints")), "")


def main() -> int:
    parser = Words(__doc__)
    parser.add_argument("--program")
    program = program_of(parser.parse_args().program)
    if not shutil.which("make"):
        print("the first hour: skipped, there is no make here")
        return 0
    with tempfile.TemporaryDirectory() as folder:
        trial = Trial(os.path.abspath(program), os.path.realpath(folder))
        for part in (told_first, what_is_missing, strange_toolchains, wrong_words, no_browser, scripts, closed_tab, packed, not_proved, installed):
            part(trial)
    print("the first hour: %d tries, %d not as they should be" % (trial.tried, trial.failed))
    return 1 if trial.failed else 0
