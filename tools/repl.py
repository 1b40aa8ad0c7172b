"""A session with the program on a terminal: each line is answered as it is typed. A line may be recalled by the arrows and completed by Tab.

usage: tools/repl [SCRIPT] [--program PATH] [--limit N]

The lines of SCRIPT come first, where one is named. A line of the language is answered by the program, and of one that is refused it is told
where and why. These lines are the session's own:

    :picture [FILE]   writes the picture as SVG into FILE, picture.svg where none is named
    :save FILE        writes the edits that were taken into FILE
    :open FILE        begins anew with the lines of FILE
    :limit N          begins anew with N symbols that all levels may have together, 1 to 1,000,000
    :help             this list
    :quit             ends it, as `quit` and Ctrl-D do

Where input or output is no terminal it answers lines without a prompt. Without --program a program is taken that is newer than its sources.
"""

from __future__ import annotations

import glob
import os
import re
import sys
from collections.abc import Iterable, Iterator

from hints import LIMIT, MOST_LIMIT, as_told, hint
from known import Known
from mending import WORDS
from programs import program_of, shown
from replies import caret_below, column_of, commands_of, is_command
from session import Ended, Program, is_query
from telling import Words, give_up, say
from texts import read_script

USAGE = __doc__ or ""
COMMANDS = WORDS
OWN = [":picture", ":save", ":open", ":limit", ":help", ":quit"]
BEGIN = "a line begins with its command, as in  axiom F-F-F-F ; Tab completes it, :help lists more, and quit or Ctrl-D ends"
SETTINGS = {"lattice": ["square", "hexagonal", "cubic"], "lineage": ["places", "names"]}
NAME = re.compile(r"[A-Za-z](?:_[A-Za-z0-9]{1,6})?")


class Conversation:
    """The program, the edits that it took, and what is told of the others."""

    def __init__(self, program: str, limit: int) -> None:
        self.path, self.limit = program, limit
        self.program = self.started()
        self.taken: list[bytes] = []

    def started(self) -> Program:
        return Program([self.path, "--limit", str(self.limit)])

    def begin(self) -> None:
        """Starts the program anew, which knows nothing then."""
        self.program.close()
        self.program, self.taken = self.started(), []

    def answer(self, line: bytes) -> tuple[str, str]:
        """What is written to a line of the language, and what is told besides."""
        reply = self.program.ask(line)
        if not reply.startswith("refused "):
            if not is_query(line):
                self.taken.append(line)
            return reply, ""
        shown_line = caret_below(line, column_of(reply.encode("latin-1")))
        told = as_told(hint(line, reply, self.taken, self.limit, "session", [self.path, "--limit", str(self.limit)]))
        return reply, "\n".join([told] + ["    " + text for text in shown_line])

    def take(self, script: bytes) -> None:
        """Answers the lines of a script, and tells what was refused."""
        self.begin()
        for number, line in commands_of(script):
            reply, told = self.answer(line)
            if told:
                say("line %d: %s: %s" % (number, reply.rstrip("\n"), told))
        say("1 edit was taken" if len(self.taken) == 1 else "%d edits were taken" % len(self.taken))

    def words(self) -> dict[str, set[str]]:
        """The labels, tables and names of the edits that were taken."""
        known, texts = Known(self.taken), [line.decode("latin-1") for line in self.taken]
        names = {name for text in texts for name in NAME.findall(text.partition(":")[2] or text.partition(" ")[2])}
        return {"labels": set(known.rules), "tables": set(known.tables()), "names": names}


class Terminal:
    """What a person types, and the session's own lines."""

    def __init__(self, conversation: Conversation) -> None:
        self.conversation = conversation
        self.is_here = sys.stdin.isatty() and sys.stdout.isatty()

    def lines(self) -> Iterator[bytes]:
        """The lines that are typed, to the end of the input."""
        if not self.is_here:
            for line in sys.stdin.buffer:
                yield line.rstrip(b"\n").rstrip(b"\r")
            return
        self.read_with_history()
        while True:
            try:
                yield input("lsys> ").encode("utf-8", "surrogateescape")
            except KeyboardInterrupt:
                print()
            except EOFError:
                return print()

    def read_with_history(self) -> None:
        try:
            import readline
        except ImportError:
            return say("this Python has no readline: no line is recalled or completed")
        readline.set_completer_delims(" \t:=><[]()+-&^|!%@,")
        readline.set_completer(lambda text, number: (self.completions(readline.get_line_buffer()[:readline.get_endidx()], text) + [None])[number])
        readline.parse_and_bind("tab: complete")
        return say(BEGIN)

    def completions(self, line: str, text: str) -> list[str]:
        """The words that may stand where a word begins with `text`, at the end of a line."""
        before = line[:len(line) - len(text)]
        return [word + " " * (word in COMMANDS) for word in sorted(self.words_after(before))
                if word.startswith(text)] if text or before else COMMANDS

    def words_after(self, before: str) -> Iterable[str]:
        words, known = before.split(), self.conversation.words()
        if before.strip() == ":":
            return [word[1:] for word in OWN]
        if not words:
            return COMMANDS
        if words[0] in (":open", ":save", ":picture"):
            return glob.glob("*.lsys") + glob.glob("*/")
        if words[0] in SETTINGS:
            return SETTINGS[words[0]]
        if words[0] == "drop":
            return known["labels"]
        if words[0] in ("schedule", "ignoring", "consider", "common"):
            return known["tables"] - {"main"} if ":" not in before else known["names"]
        return (known["labels"] | known["tables"]) - {"main"} if words[0] in ("production", "hom") and ":" not in before else known["names"]

    def run(self) -> None:
        for line in self.lines():
            if line.strip() in (b"quit", b":quit"):
                return
            if line.startswith(b":"):
                self.own(line.decode("utf-8", "replace").split(None, 1))
            elif is_command(line):
                self.answer(line)

    def answer(self, line: bytes) -> None:
        try:
            reply, told = self.conversation.answer(line)
        except Ended:
            self.conversation.begin()
            return say("the program ended at this line: it was started again, without edits")
        sys.stdout.buffer.write(reply.encode("latin-1"))
        sys.stdout.buffer.flush()
        return say(told) if told else None

    def own(self, words: list[str]) -> None:
        word, rest = words[0], words[1].strip() if words[1:] else ""
        try:
            if word == ":picture":
                self.picture(rest or "picture.svg")
            elif word == ":save" and rest:
                with open(rest, "wb") as file:
                    file.writelines(line + b"\n" for line in self.conversation.taken)
                say("%d edits are saved in %s" % (len(self.conversation.taken), rest))
            elif word == ":open" and rest:
                self.conversation.take(read_script(rest, say))
            elif word == ":limit" and rest.isdigit() and 1 <= int(rest) <= MOST_LIMIT:
                self.conversation.limit = int(rest)
                self.conversation.take(b"\n".join(self.conversation.taken))
            else:
                print(USAGE[USAGE.index("    :picture"):USAGE.index("Where input")].rstrip())
        except OSError as error:
            say("%s: %s" % (rest, error.strerror))

    def picture(self, path: str) -> None:
        reply, told = self.conversation.answer(b"svg")
        if told:
            return say("no picture: %s" % told)
        if "\n<line " not in reply:
            return say("no lines, and so no picture is written: only names that begin with F draw")
        with open(path, "w") as file:
            file.write(reply)
        return say("a picture: %s" % shown(os.path.abspath(path)))


def main() -> int:
    parser = Words(__doc__)
    parser.add_argument("script", nargs="?")
    parser.add_argument("--program")
    parser.add_argument("--limit", default=str(LIMIT))
    options = parser.parse_args()
    if not re.fullmatch("[0-9]{1,7}", options.limit) or not 1 <= int(options.limit) <= MOST_LIMIT:
        parser.error("a limit is a whole number from 1 to {:,}".format(MOST_LIMIT))
    try:
        script = read_script(options.script, say) if options.script else None
    except OSError as error:
        give_up("no script at %s: %s" % (options.script, error.strerror), 2)
    conversation = Conversation(program_of(options.program), int(options.limit))
    if script is not None:
        conversation.take(script)
    try:
        Terminal(conversation).run()
    finally:
        conversation.program.close()
    return 0
