"""What a tool says itself: a line on standard error. A machine that lacks something, a wrong word and a reader that has gone are told
so, and never by a traceback."""

from __future__ import annotations

import argparse
import os
import signal
import sys
import threading
import time
from collections.abc import Callable
from typing import Any, NoReturn

# Seconds between two lines of what takes long.
PACE = 10


def say(text: str) -> None:
    print("; " + text, file=sys.stderr, flush=True)


class Passing:
    """Tells while something is done what it is and how many seconds have passed, so that no minute is silent: on a terminal in one
    line that is written anew, and else by a line from time to time. `what` may be changed meanwhile."""

    def __init__(self, what: str, pace: float = PACE) -> None:
        self.what, self.begun, self.ended = what, time.time(), threading.Event()
        self.is_terminal = sys.stderr.isatty()
        self.pace = 1 if self.is_terminal else pace
        self.teller = threading.Thread(target=self.tell, daemon=True)

    def __enter__(self) -> Passing:
        self.teller.start()
        return self

    def tell(self) -> None:
        while not self.ended.wait(self.pace):
            text = ";   %d s so far: %s" % (time.time() - self.begun, self.what)
            print(("\r%-99s" if self.is_terminal else "%s\n") % text, end="", file=sys.stderr, flush=True)

    def clear(self) -> None:
        """Makes room for another line."""
        if self.is_terminal:
            print("\r%-99s\r" % "", end="", file=sys.stderr, flush=True)

    def __exit__(self, *_: object) -> None:
        self.ended.set()
        self.teller.join()
        self.clear()


def give_up(text: str, status: int = 1) -> NoReturn:
    """Ends the process with a line that says why."""
    say(text)
    sys.exit(status)


class Words(argparse.ArgumentParser):
    """The words of a tool. Its usage is the tool's own description, and a wrong word is told in a line."""

    def __init__(self, description: str | None) -> None:
        description = description or ""
        argparse.ArgumentParser.__init__(self, usage=description.replace("%", "%%"), add_help=False)
        self.description_of_tool = description
        self.add_argument("-h", "--help", action="store_true")

    def parse_args(self, *words: Any) -> Any:  # type: ignore[override]
        if {"-h", "--help"} & set(sys.argv[1:]):
            print(self.description_of_tool)
            sys.exit(0)
        return argparse.ArgumentParser.parse_args(self, *words)

    def error(self, message: str) -> NoReturn:
        # A package's command tells by which name it was called.
        called = os.environ.get("LSYS_CALLED", sys.argv[0])
        give_up("%s (%s --help says more)" % (message, os.path.relpath(called)), 2)


def port(text: str) -> int:
    """A number of a port, as the words of a tool give it."""
    if not text.isdigit() or int(text) > 65535:
        raise argparse.ArgumentTypeError("a port is a number from 0 to 65535, and 0 takes a free one; not %s" % text)
    return int(text)


def read_no_further(*_: object) -> None:
    """Lets what would still go to standard output vanish, since nobody reads it."""
    os.dup2(os.open(os.devnull, os.O_WRONLY), 1)


def as_status(main: Callable[[], int]) -> int:
    """Runs a tool, and gives the status of its end."""
    try:
        return main()
    except BrokenPipeError:
        return 0
    except KeyboardInterrupt:
        say("stopped")
        return 130
    except OSError as error:
        say("%s%s" % (error.strerror or error, ": " + str(error.filename) if error.filename else ""))
        return 1


def run_tool(main: Callable[[], int]) -> NoReturn:
    """Runs a tool and ends its process."""
    # What a tool started is ended in order at this signal too.
    signal.signal(signal.SIGTERM, lambda *_: sys.exit(143))
    status = as_status(main)
    try:
        sys.stdout.flush()
    except OSError:
        read_no_further()
    sys.exit(status)
