"""What the page of `tools/look` is answered. Each request has an answer, and none can end a thread of the server's otherwise."""

from __future__ import annotations

import http.server
import json
import os
import re
import socket
import sys
import time
import urllib.parse
from collections.abc import Callable, Iterable
from typing import Any

import formats
from desk import LONGEST_SCRIPT, Desk, Gallery, Wrong
from guard import Guard
from programs import TOP
from telling import say
from watching import Watching

WEB = os.path.join(os.path.dirname(os.path.realpath(__file__)), "web")
CODEMIRROR = "/usr/share/javascript/codemirror"
KINDS = {".html": "text/html; charset=utf-8", ".css": "text/css", ".js": "text/javascript; charset=utf-8", ".svg": "image/svg+xml",
         ".json": "application/json", ".md": "text/markdown; charset=utf-8"}
EXPORTS = {"segments": "text/plain", **{kind: media for kind, (_, media) in formats.KINDS.items()}}
# A page takes nothing from elsewhere, and is shown in no other one.
POLICY = ("default-src 'none'; script-src 'self'; style-src 'self'; img-src 'self' data: blob:; connect-src 'self'; base-uri 'none'; "
          "frame-ancestors 'none'; form-action 'none'")
# A script as JSON, in which a byte may be written by six signs.
LONGEST_REQUEST = 6 * LONGEST_SCRIPT + 1000
LONGEST_WAIT = 20
# Seconds for which a line or a part of a body is waited for, of others than the person's own browsers, and for a whole body.
PATIENCE, PATIENCE_WITH_OTHERS, LONGEST_BODY = 10, 2, 60
MOST_CONNECTIONS = 600
# What whoever may not ask is told, whatever it was, also a person who opens the address once more.
NOT_HERE = "Only the browser in which tools/look was opened is answered here. The address for another one is in the terminal where tools/look runs."
# What scripts of the page ask for: these requests have its token. Its own files, which the browser asks for, can have the cookie alone.
DATA = ("state", "busy", "language", "gallery", "picture", "level", "export", *Watching.PLACES)


class Answer(http.server.BaseHTTPRequestHandler):
    """The page, what it shows, and what it changes. Only a page of this server is answered."""
    protocol_version = "HTTP/1.1"
    # What tools/look puts here before it serves.
    desk: Desk
    gallery: Gallery
    guard: Guard
    watching: Watching
    is_plain = False

    def setup(self) -> None:
        self.is_other = not self.guard.is_own(self.client_address)
        self.timeout = PATIENCE_WITH_OTHERS if self.is_other else PATIENCE  # type: ignore[misc]
        super().setup()

    def version_string(self) -> str:
        return "lsys"

    def is_from_here(self) -> bool:
        here = ["%s:%d" % (name, self.guard.port) for name in ("127.0.0.1", "localhost")]
        host, origin = self.headers.get("Host", ""), self.headers.get("Origin")
        is_own = self.headers.get("Sec-Fetch-Site", "same-origin") in ("same-origin", "none")
        # A link from elsewhere may open the page itself, which changes nothing.
        is_visit = self.command == "GET" and self.path.partition("?")[0] == "/" and self.headers.get("Sec-Fetch-Mode") == "navigate"
        return not self.is_other and host in here and origin in (None, "http://" + host) and (is_own or is_visit)

    def send(self, status: int, kind: str, body: bytes, more: Iterable[tuple[str, str]] = ()) -> None:
        self.send_response(status)
        self.send_header("Content-Type", kind)
        self.send_header("Content-Length", str(len(body)))
        self.send_header("Cache-Control", "no-store")
        self.send_header("X-Content-Type-Options", "nosniff")
        self.send_header("Content-Security-Policy", POLICY)
        self.send_header("Referrer-Policy", "no-referrer")
        for name, value in more:
            self.send_header(name, value)
        if self.close_connection:
            self.send_header("Connection", "close")
        self.end_headers()
        if self.command != "HEAD":
            self.wfile.write(body)

    def send_data(self, value: object) -> None:
        self.send(200, KINDS[".json"], json.dumps(value).encode())

    def send_wrong(self, status: int, word: str) -> None:
        self.send(status, KINDS[".json"], json.dumps({"wrong": word}).encode())

    def refuse(self) -> None:
        """The same to all who may not ask, whatever they asked for."""
        self.close_connection = True
        self.send(403, "text/plain; charset=utf-8", (NOT_HERE + "\n").encode())

    do_PUT = do_DELETE = do_PATCH = do_OPTIONS = do_TRACE = do_CONNECT = refuse

    def send_file(self, folder: str, name: str) -> None:
        """A file of a folder, but none outside of it."""
        path = os.path.realpath(os.path.join(folder, name))
        inside = path.startswith(os.path.realpath(folder) + os.sep) or os.path.realpath(folder) == os.path.dirname(path)
        kind = KINDS.get(os.path.splitext(path)[1])
        if not inside or not kind or not os.path.isfile(path):
            return self.send_wrong(404, "there is no such file")
        with open(path, "rb") as file:
            return self.send(200, kind, file.read())

    def send_page(self, more: Iterable[tuple[str, str]] = ()) -> None:
        """The page, with the token for its requests and the text field that there is."""
        with open(os.path.join(WEB, "look.html"), encoding="utf-8") as file:
            page = file.read()
        has_field = not self.is_plain and os.path.exists(os.path.join(CODEMIRROR, "lib", "codemirror.js"))
        field = ("<link rel=\"stylesheet\" href=\"/codemirror/lib/codemirror.css\">\n<script src=\"/codemirror/lib/codemirror.js\"></script>"
                 if has_field else "")
        page = page.replace("{token}", self.guard.token).replace("{field}", field).replace("{version}", version())
        self.send(200, KINDS[".html"], page.encode(), more)

    def opens(self) -> bool:
        """Whether this request opens the page by the key, which is spent then; a browser that was let in already needs none."""
        address = urllib.parse.urlsplit(self.path)
        if self.command != "GET" or address.path != "/" or not address.query.startswith("key=") or not self.guard.takes(address.query[4:]):
            return False
        say("opened; in another browser once more: %s" % self.guard.address())
        return True

    def answered(self, answer: Callable[[], None]) -> None:
        """Answers a request, whatever becomes of it."""
        try:
            return answer()
        except Wrong as wrong:
            return self.send_wrong(wrong.status, str(wrong))
        except (ConnectionError, BrokenPipeError):
            raise
        except (TimeoutError, socket.timeout):
            self.close_connection = True
            return self.send_wrong(408, "the request doesn't end")
        except (ValueError, KeyError, TypeError, AttributeError, OverflowError, RecursionError) as error:
            return self.send_wrong(400, "this request has no sense: %s" % type(error).__name__)
        except Exception as error:
            say("an answer to the page failed: %r" % error)
            return self.send_wrong(500, "tools/look failed here, and goes on: %s" % type(error).__name__)

    def do_GET(self) -> None:
        self.answered(self.get_asked)

    do_HEAD = do_GET

    def get_asked(self) -> None:
        if not self.is_from_here():
            return self.refuse()
        if not self.guard.has_cookie(self.headers.get("Cookie")):
            return self.send_page([("Set-Cookie", self.guard.cookie_line())]) if self.opens() else self.refuse()
        address = urllib.parse.urlsplit(self.path)
        place, _, name = address.path[1:].partition("/")
        if place in DATA and not self.guard.has_token(self.headers.get("X-Token")):
            return self.refuse()
        self.asked = dict(urllib.parse.parse_qsl(address.query))
        return self.get(place, name)

    def number(self, name: str) -> int | None:
        """A number of the request, or None where it has none of this name."""
        return int(self.asked[name]) if self.asked.get(name) else None

    def get(self, place: str, name: str) -> None:
        if place == "":
            self.send_page()
        elif place == "web":
            self.send_file(WEB, name)
        elif place == "codemirror" and not self.is_plain:
            self.send_file(CODEMIRROR, name)
        elif place == "state":
            self.send_data(self.desk.after(self.number("turn") or 0, self.number("text"), LONGEST_WAIT))
        elif place == "busy":
            self.send_data(self.desk.busy())
        elif place == "language":
            self.send_file(os.path.join(TOP, "docs"), "LANGUAGE.md")
        elif place == "gallery":
            self.send_data(self.gallery.entries())
        elif place == "example":
            picture = self.gallery.picture(os.path.splitext(name)[0])
            self.send(200 if picture else 404, KINDS[".svg"], (picture or "").encode())
        elif place == "picture":
            self.send_picture()
        elif place == "level":
            self.send_data(self.desk.level(self.number("text"), self.number("level") or 0))
        elif place == "export" and name in EXPORTS:
            self.send_export(name)
        elif place in Watching.PLACES:
            self.watching.get(self, place, name)
        else:
            self.send_wrong(404, "there is nothing here")

    def send_picture(self) -> None:
        """The segments as the program lists them, after a line that says of which lattice and level they are."""
        reply, lattice, level = self.desk.picture(self.number("text"), self.number("level"), self.number("line"), self.number("most") or 0)
        self.send(200, "text/plain; charset=utf-8", ("%s %d\n" % (lattice, level)).encode() + reply)

    def send_export(self, kind: str) -> None:
        name = "%s.%s" % (os.path.splitext(self.desk.script.name)[0] or "picture", "txt" if kind == "segments" else kind)
        as_file = "attachment; filename=\"%s\"" % re.sub(r"[^\w.-]", "_", name, flags=re.A)
        data, told = self.desk.export(kind, self.number("level"), self.number("line"), self.asked)
        self.send(200, EXPORTS[kind], data, [("Content-Disposition", as_file), *([("X-Told", told)] if told else [])])

    def do_POST(self) -> None:
        self.answered(self.post_asked)

    def post_asked(self) -> None:
        if not self.is_from_here() or not self.guard.has_cookie(self.headers.get("Cookie")) or not self.guard.has_token(self.headers.get("X-Token")):
            return self.refuse()
        length = self.headers.get("Content-Length", "")
        if not re.fullmatch("[0-9]{1,12}", length) or int(length) > LONGEST_REQUEST:
            self.close_connection = True
            return self.send_wrong(413, "this request is too long, or tells no length")
        desk = self.desk
        deeds = {"/change": desk.change, "/open": desk.open, "/save": desk.save, "/settle": desk.settle, "/ask": desk.ask, "/limit": desk.set_limit,
                 "/cancel": lambda asked: desk.cancel()}
        deeds.update({path: lambda asked: self.watching.post(self.path, asked) for path in Watching.DEEDS})
        asked = json.loads(self.body(int(length)))
        if self.path not in deeds or not isinstance(asked, dict):
            return self.send_wrong(404, "there is nothing here")
        return self.send_data(deeds[self.path](asked))

    def body(self, length: int) -> bytes:
        """A request's body, which is waited for some seconds, and not for longer the more slowly it comes."""
        parts, until = [], time.monotonic() + LONGEST_BODY
        while length:
            part = self.rfile.read1(min(length, 1 << 16))  # type: ignore[attr-defined]
            if not part:
                raise ConnectionError
            if time.monotonic() > until:
                raise socket.timeout
            parts.append(part)
            length -= len(part)
        return b"".join(parts)

    def log_message(self, *words: object) -> None:
        pass


def version() -> str:
    with open(os.path.join(os.path.dirname(os.path.dirname(WEB)), "VERSION")) as file:
        return file.read().strip()


class Server(http.server.ThreadingHTTPServer):
    """A thread for each connection, of which there are only so many."""
    daemon_threads = True
    request_queue_size = 256

    def __init__(self, *words: Any) -> None:
        self.open: set[Any] = set()
        super().__init__(*words)

    def verify_request(self, request: Any, address: Any) -> bool:
        return len(self.open) < MOST_CONNECTIONS

    def process_request(self, request: Any, address: Any) -> None:
        self.open.add(address)
        super().process_request(request, address)

    def process_request_thread(self, request: Any, address: Any) -> None:
        try:
            super().process_request_thread(request, address)
        finally:
            self.open.discard(address)

    def handle_error(self, request: Any, address: Any) -> None:
        # A tab that was closed doesn't wait for its answer.
        if not isinstance(sys.exc_info()[1], (ConnectionError, TimeoutError, socket.timeout)):
            say("an answer to the page failed: %r" % sys.exc_info()[1])
