"""Opens a script in a browser, to be edited there beside its picture and its replies; without SCRIPT, a gallery to begin from.

usage: tools/look [SCRIPT|FILE.html|LINK] [--port N] [--program PATH] [--limit N] [--no-browser] [--plain]

It keeps one program running, and all that the page shows are the program's replies: a change of the script sends its changed lines as
edits where that is enough, so that `ok M/T` tells how little was worked out anew, and else begins the program anew. Saving writes
SCRIPT, which is made then where there is none yet, and what another program saves there is taken over. An HTML file that the page wrote,
and a link that holds a script, are opened for their script, and stay as they are. The page is served at 127.0.0.1 alone, to browsers of the
person that began it: the address that is printed opens it once, and then the browser that opened it has a cookie. It is opened in a browser
where there is one, but for --no-browser. The text field is CodeMirror where that is installed
(libjs-codemirror), and else, or with --plain, a plain one. Export gives the files that tools/export writes, turned as the picture is.
N symbols, 1 to 1,000,000, may all levels have together. Ctrl-C ends it.
"""

from __future__ import annotations

import os
import shutil
import signal
import subprocess
import threading
from typing import Any

from desk import LONGEST_SCRIPT, Desk, Gallery, as_bytes
from film import script_in, script_of_link
from guard import Guard
from programs import program_of
from serving import Answer, Server
from session import Session
from telling import Words, give_up, port, say
from watching import Watching


def server_at(number: int) -> Server:
    """A server at a port of this machine alone."""
    try:
        return Server(("127.0.0.1", number), Answer)
    except OSError as error:
        return give_up("port %d can't be had (%s): take another one by --port N, or none for a free one" % (number, error.strerror))


def words_of_tool() -> Any:
    parser = Words(__doc__)
    parser.add_argument("script", nargs="?")
    parser.add_argument("--port", type=port, default=0)
    parser.add_argument("--program")
    parser.add_argument("--limit")
    parser.add_argument("--no-browser", action="store_true")
    parser.add_argument("--plain", action="store_true")
    options = parser.parse_args()
    options.held = held_by(options.script) if options.script else None
    if options.script and options.held is None:
        look_at(options.script)
    return options


def held_by(named: str) -> tuple[str, str] | None:
    """The script that a link or an HTML file of the page holds, with a name for it, or None where a script is named."""
    if "#script=" in named:
        script = script_of_link(named)
        return ("from a link", script) if script is not None else give_up("this link holds no script", 2)
    if not named.lower().endswith((".html", ".htm")) or not os.path.exists(named):
        return None
    with open(named, encoding="utf-8", errors="surrogateescape") as file:
        script = script_in(file.read())
    if script is None:
        give_up("%s holds no script of this page's" % named, 2)
    return os.path.splitext(os.path.basename(named))[0] + ".lsys", script


def look_at(script: str) -> None:
    """Ends this process where a script can't be read, or where there is none and none can be made."""
    try:
        open(script, "rb").close()
    except FileNotFoundError as error:
        folder = os.path.dirname(os.path.abspath(script))
        if not os.path.isdir(folder):
            give_up("no script at %s: %s" % (script, error.strerror), 2)
        if not os.access(folder, os.W_OK):
            give_up("there is no script at %s, and none can be made in that folder" % script, 2)
        return say("there is no %s yet: it is made when the script is saved" % script)
    except OSError as error:
        give_up("no script at %s: %s" % (script, error.strerror), 2)
    if os.path.getsize(script) > LONGEST_SCRIPT:
        give_up("%s has more than 16,777,216 bytes, which is the most that a script may have" % script, 2)


def open_browser(address: str) -> None:
    """Opens the page where there is a browser with a screen."""
    opener = shutil.which("xdg-open")
    if opener and (os.environ.get("DISPLAY") or os.environ.get("WAYLAND_DISPLAY")):
        subprocess.Popen([opener, address], stdin=subprocess.DEVNULL, stdout=subprocess.DEVNULL, stderr=subprocess.DEVNULL, start_new_session=True)


def main() -> int:
    options = words_of_tool()
    server = server_at(options.port)
    limit = ["--limit", options.limit] if options.limit else []
    words = [program_of(options.program, limit)] + limit
    session = Session(words)
    desk = Desk(session, os.path.abspath(options.script) if options.script and not options.held else None, begins=False)
    if options.held:
        desk.script.open(as_bytes(options.held[1]), options.held[0])
    guard = Guard(server.server_port)
    Answer.desk, Answer.gallery, Answer.guard, Answer.is_plain = desk, Gallery(words), guard, options.plain
    Answer.watching = Watching(desk)
    ended = threading.Event()

    def end(*_: object) -> None:
        # A derivation that still runs is not waited for.
        ended.set()
        desk.stopping = True
        threading.Timer(1, session.interrupt).start()

    for number in (signal.SIGINT, signal.SIGTERM):
        signal.signal(number, end)
    # A script that takes long is begun while its page comes.
    threading.Thread(target=desk.begin, daemon=True).start()
    threading.Thread(target=server.serve_forever, daemon=True).start()
    shown = "the script of " + options.held[0] if options.held else options.script or "a gallery to begin from"
    say("%s shows %s; Ctrl-C ends it" % (guard.address(), shown))
    if not options.no_browser:
        open_browser(guard.address())
    while not ended.is_set():
        desk.look_around()
        ended.wait(0.2)
    Answer.watching.stop()
    if not desk.stop():
        say("the script was not saved; a page that is still open has its text")
    server.shutdown()
    server.server_close()
    return 0
