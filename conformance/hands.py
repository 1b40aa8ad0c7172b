"""Asks the server of tools/look as others of the same machine do, and as a broken program does, without a browser.

usage: conformance/hands [--program PATH]

As the user nobody (where this process may become it), without the cookie and without the token each route is answered 403 with the same
words, even where the key, the cookie or the token are known, and the script's file is as it was. Requests that nest too deep, have no
sense or no end, and 200 idle connections are answered or dropped, and the page goes on. A script that isn't there is made when it is
saved, in its folder and nowhere else; a byte order mark is left out, and the limit is set within its bounds. What takes long is told and
can be stopped.
"""

from __future__ import annotations

import json
import os
import re
import socket
import tempfile
import threading
import time
from collections.abc import Callable, Mapping, Sequence
from typing import Any

from asking import Client, Looking
from patience import is_within, waited
from programs import TOP, program_of
from telling import Words

SCRIPT = b"axiom F-F-F-F\nproduction f: F => F-F+F+FF-F-F+F\ndepth 2\nsvg\n"
NOBODY = 65534
BASE = {"text": 1, "base": 1, "first": 0, "removed": 1, "lines": ["axiom F"], "name": "koch_island", "script": "axiom F", "take": True,
        "line": "show", "limit": 5}
GETS = ["/", "/?key=x", "/?", "/web/main.js", "/web/look.css", "/codemirror/lib/codemirror.js", "/state?turn=0", "/busy", "/language", "/gallery",
        "/example/koch_island.svg",
        "/picture?text=1&most=9", "/level?text=1&level=0", "/export/svg", "/export/segments", "/export/obj", "/export/dxf", "/export/png",
        "/export/pdf", "/export/glb", "/module?text=1&segment=0",
        "/sheet?sheet=1&cell=0", "/film/svg?text=1", "/film/html?text=1", "/nothing"]
DATA = ("/state", "/busy", "/language", "/gallery", "/picture", "/level", "/export", "/module", "/sheet", "/film")
POSTS = ["/change", "/open", "/save", "/settle", "/ask", "/limit", "/cancel", "/sheet", "/differ", "/gif", "/nothing"]
OTHERS = ["HEAD", "PUT", "DELETE", "OPTIONS", "PATCH"]
IDLE = 200


class Hands:
    """How many of the tries weren't as they should be."""

    def __init__(self, program: str, folder: str) -> None:
        self.program, self.folder, self.tried, self.failed = program, folder, 0, 0

    def expect(self, what: str, is_right: object, seen: object) -> None:
        self.tried += 1
        if not is_right:
            self.failed += 1
            print("%s: NO, it shows %s" % (what, str(seen)[:900]))

    def look(self, name: str = "island.lsys", data: bytes | None = SCRIPT, enters: bool = True) -> tuple[Looking, str]:
        """tools/look with a script in a folder of its own; the script's path."""
        room = tempfile.mkdtemp(dir=self.folder)
        path = os.path.join(room, name)
        if data is not None:
            with open(path, "wb") as file:
                file.write(data)
        return Looking([os.path.join(TOP, "tools", "look"), name, "--program", self.program, "--no-browser"], room, enters=enters), path


def read(path: str) -> bytes:
    with open(path, "rb") as file:
        return file.read()


def all_routes(client: Client, headers: Mapping[str, str | None] | None = None) -> dict[str, Any]:
    """What each route answers, with these headers: its status and its words."""
    body = json.dumps(BASE).encode()
    asked = [("GET", path, None) for path in GETS] + [("POST", path, body) for path in POSTS] + [(method, "/state", None) for method in OTHERS]
    found = {}
    for method, path, sent in asked:
        try:
            status, answered, words = client.ask(method, path, headers, sent)
            found["%s %s" % (method, path)] = [status, words.decode(errors="replace"), dict(answered)]
        except OSError as error:
            found["%s %s" % (method, path)] = [0, str(error), {}]
    return found


def as_nobody(deed: Callable[[], Any]) -> Any:
    """What a deed gives that another user of the machine does, by JSON."""
    out, into = os.pipe()
    child = os.fork()
    if child == 0:
        try:
            os.setgroups([])
            os.setgid(NOBODY)
            os.setuid(NOBODY)
            os.write(into, json.dumps(deed()).encode())
        except Exception as error:
            os.write(into, json.dumps("%r" % error).encode())
        finally:
            os._exit(0)
    os.close(into)
    with open(out, "rb") as pipe:
        told = pipe.read()
    os.waitpid(child, 0)
    return json.loads(told or b"{}")


def is_shut(found: dict[str, Any], words: str | None = None) -> bool:
    """Whether all routes are answered 403, with the same words and nothing of the script, the server's language or a cookie."""
    bodies = {body for request, (_, body, _) in found.items() if not request.startswith("HEAD")}
    heads = str([headers for _, _, headers in found.values()])
    are_shut = bool(found) and all(status == 403 for status, _, _ in found.values())
    return are_shut and len(bodies) == 1 and "Python" not in heads and "Set-Cookie" not in heads


def can_be_nobody() -> bool:
    """Whether this process may become another user."""
    return os.geteuid() == 0 and as_nobody(os.getuid) == NOBODY


def others(hands: Hands) -> None:
    """Another user of the machine, who knows more and more."""
    looking, path = hands.look(enters=False)
    client = looking.client
    # What Python takes from its own files while it asks is taken here, where that may be read.
    client.ask("GET", "/")
    if can_be_nobody():
        found = as_nobody(lambda: all_routes(client))
        hands.expect("nobody gets 403 on each route", is_shut(found), found)
        found = as_nobody(lambda: client.ask("GET", client.key)[0])
        hands.expect("nobody gets 403 with the key", found == 403, found)
    hands.expect("and the key still opens the page for its owner", client.enter() == 200 and client.token, client.set_cookie)
    if can_be_nobody():
        found = as_nobody(lambda: all_routes(client))
        hands.expect("nobody gets 403 with the cookie and the token", is_shut(found), found)
    else:
        print("another user of the machine: skipped, this process may not become one")
    hands.expect("the file is as it was", read(path) == SCRIPT, read(path))
    looking.end()


def without_secrets(hands: Hands) -> None:
    """The person's own processes, without the one or the other."""
    looking, path = hands.look(enters=False)
    stranger, client = Client("http://127.0.0.1:%d/" % looking.port), looking.client
    hands.expect("without cookie and token each route gives 403", is_shut(all_routes(stranger)), all_routes(stranger))
    head = client.ask("HEAD", client.key)[0]
    hands.expect("a look at the head spends no key", head == 403 and client.enter() == 200, head)
    hands.expect("the cookie is for this server's requests alone",
                 re.search("^lsys_%d=.*; HttpOnly; SameSite=Strict$" % looking.port, client.set_cookie), client.set_cookie)
    again = stranger.ask("GET", client.key)[0]
    hands.expect("the key opens it once", again == 403, again)
    found = all_routes(client, {"Cookie": None})
    hands.expect("with the token and no cookie each route gives 403", is_shut(found), found)
    found = all_routes(client, {"Cookie": (client.own["Cookie"] or "")[:-1] + "!"})
    hands.expect("with the token and another cookie each route gives 403", is_shut(found), found)
    found = all_routes(client, {"X-Token": None})
    shut = {request: told for request, told in found.items() if request.startswith("POST") or request.split()[1].startswith(DATA)}
    hands.expect("with the cookie and no token what is data gives 403", is_shut(shut) and len(shut) > 15, shut)
    open_ones = {request: told[0] for request, told in found.items() if request in ("GET /", "GET /web/main.js", "GET /example/koch_island.svg")}
    hands.expect("and the page's own files come", set(open_ones.values()) == {200} and len(open_ones) == 3, open_ones)
    hands.expect("the file is as it was", read(path) == SCRIPT, read(path))
    status, said = looking.end()
    keys = re.findall(r"\?key=(\S+)", said)
    hands.expect("the terminal has the address for another browser",
                 status == 0 and len(keys) == 2 and keys[0] != keys[1] and "Traceback" not in said, said)


def broken_requests(hands: Hands) -> None:
    """Requests without sense."""
    looking, path = hands.look()
    client = looking.client
    deep = b"[" * 100000
    wanted: list[tuple[str, str, dict[str, str | None], bytes | None, int]] = [
              ("a list that nests too deep", "/change", {}, deep, 400), ("an object that nests too deep", "/ask", {}, b"{\"line\":" * 50000, 400),
              ("no JSON", "/change", {}, b"\xff\xfe", 400), ("a list for an object", "/change", {}, b"[]", 404), ("null", "/save", {}, b"null", 404),
              ("a number for a text", "/ask", {}, b"{\"line\": 5}", 400),
              ("a text for a number", "/change", {}, json.dumps({**BASE, "first": "0"}).encode(), 400),
              ("a number past all bounds", "/change", {}, json.dumps({**BASE, "first": 10 ** 400}).encode(), 400),
              ("a frame that is no picture", "/gif", {}, b"{\"frames\": [\"AAAA\"], \"pace\": 9}", 400),
              ("a film without frames", "/gif", {}, b"{\"frames\": [], \"pace\": 9}", 400),
              ("texts that are numbers", "/differ", {}, b"{\"first\": [1], \"second\": [2]}", 400),
              ("a sheet of nothing", "/sheet", {}, b"{\"text\": 1}", 400),
              ("a length that is none", "/change", {"Content-Length": "\xb2"}, None, 413),
              ("a length below 0", "/change", {"Content-Length": "-1"}, None, 413),
              ("no length", "/change", {}, None, 413), ("a length past all bounds", "/change", {"Content-Length": "9" * 12}, None, 413),
              ("pieces without a length", "/change", {"Transfer-Encoding": "chunked"}, None, 413)]
    for what, place, headers, body, status in wanted:
        got = client.ask("POST", place, headers, body)
        hands.expect("%s gets %d" % (what, status), got[0] == status, got)
    for asked in ("/module?text=1", "/module?segment=x", "/sheet?sheet=9&cell=0", "/sheet", "/film/webm", "/film/svg?pace=x", "/film/svg?text=9"):
        got = client.ask("GET", asked)
        hands.expect("%s is answered" % asked[:30], got[0] in (400, 404, 409), got)
    for asked in ("/state?turn=x", "/level?text=1&level=" + "9" * 5000, "/web/%00", "/export/svg?level=1.5", "/export/svg?turn=x",
                  "/export/png?size=1e99", "/export/png?ground=url(x)", "/picture"):
        got = client.ask("GET", asked)
        hands.expect("%s is answered" % asked[:30], got[0] in (400, 404, 409), got)
    state = json.loads(client.ask("GET", "/state?turn=0")[2])
    hands.expect("and the page goes on", state["running"] and read(path) == SCRIPT, state)
    status, said = looking.end()
    hands.expect("nothing of it ended a thread", status == 0 and "Traceback" not in said and "failed" not in said, said)


def threads_of(looking: Looking) -> int:
    with open("/proc/%d/status" % looking.running.pid) as file:
        return int(re.findall(r"Threads:\s+(\d+)", file.read())[0])


def opened(port: int, sent: bytes = b"") -> socket.socket:
    made = socket.create_connection(("127.0.0.1", port), timeout=40)
    made.sendall(sent)
    return made


def waits(connections: Sequence[socket.socket]) -> tuple[float, bytes]:
    """The seconds until the last of these connections is closed, and what the first one read."""
    begun, first = time.time(), b""
    for number, connection in enumerate(connections):
        try:
            while True:
                part = connection.recv(65536)
                if not part:
                    break
                first += part if number == 0 else b""
        except ConnectionError:
            pass
        connection.close()
    return time.time() - begun, first


def without_end(hands: Hands) -> None:
    """Requests that don't end, and connections on which nothing is asked."""
    looking, _ = hands.look()
    client = looking.client
    # Of the connection that was closed last the thread may still end.
    before = waited(lambda: threads_of(looking), lambda count: count <= 4, 2)
    front = "POST /change HTTP/1.1\r\nHost: 127.0.0.1:%d\r\nCookie: %s\r\nX-Token: %s\r\n" % (looking.port, client.own["Cookie"], client.token)
    body = opened(looking.port, (front + "Content-Length: 1000\r\n\r\n{").encode())
    head = opened(looking.port, front.encode())
    idle = [opened(looking.port) for _ in range(IDLE)]
    begun = time.time()
    state = client.ask("GET", "/state?turn=0")
    hands.expect("beside %d idle connections the page is answered before they are let go" % IDLE,
                 state[0] == 200 and is_within(time.time() - begun, 8), (state[0], time.time() - begun))
    seconds, told = waits([body])
    hands.expect("a body without end is answered", told.startswith(b"HTTP/1.1 408 ") and is_within(seconds, 15), (seconds, told))
    seconds, _ = waits([head] + idle)
    hands.expect("idle connections are let go", is_within(seconds, 15), seconds)
    after = waited(lambda: threads_of(looking), lambda count: count <= before + 1)
    hands.expect("and their threads end", after <= before + 1, (before, after))
    if can_be_nobody():
        seconds = as_nobody(lambda: waits([opened(looking.port) for _ in range(IDLE)])[0])
        hands.expect("nobody's idle connections go soon", seconds and is_within(seconds, 9), seconds)
    hands.expect("and the page goes on", client.ask("GET", "/state?turn=0")[0] == 200, "")
    status, said = looking.end()
    hands.expect("nothing of it ended a thread otherwise", status == 0 and "Traceback" not in said and "failed" not in said, said)


def files(hands: Hands) -> None:
    """A new script, names of files, a mark at the head of a file, and the limit."""
    looking, path = hands.look("new.lsys", None)

    def post(place: str, **words: Any) -> Any:
        return looking.client.ask("POST", place, {}, json.dumps(words).encode())

    state = json.loads(looking.client.ask("GET", "/state?turn=0")[2])
    hands.expect("a script that isn't there is begun",
                 state["name"] == "new.lsys" and not os.path.exists(path) and not state["saved"] and "no new.lsys yet" in looking.said, state)
    state = json.loads(post("/change", base=state["text"], first=0, removed=1, lines=["axiom F", ""])[2])
    post("/save", text=state["text"])
    hands.expect("and made when it is saved", os.path.exists(path) and read(path) == b"axiom F\n", path)
    for name in ("../x", "/tmp/lsys-x", "a/b", "..", ".hidden", "x\0y", os.path.join("..", "..", "x.lsys")):
        got = post("/save", text=state["text"], name=name)
        hands.expect("a save as %r gets 400" % name, got[0] == 400, got)
    elsewhere = os.path.join(tempfile.mkdtemp(dir=hands.folder), "theirs.lsys")
    os.symlink(elsewhere, os.path.join(os.path.dirname(path), "link.lsys"))
    got = post("/save", text=state["text"], name="link", replace=True)
    hands.expect("nor does a link lead a save elsewhere", got[0] == 400 and not os.path.exists(elsewhere), got)
    os.unlink(os.path.join(os.path.dirname(path), "link.lsys"))
    left = sorted(os.listdir(os.path.dirname(path)))
    hands.expect("no save leaves the folder", left == ["new.lsys"] and not os.path.exists("/tmp/lsys-x"), left)
    for limit in (0, 1000001, -5, "7", True, 1.5, None):
        got = post("/limit", limit=limit)
        hands.expect("a limit of %r gets 400" % (limit,), got[0] == 400, got)
    post("/change", base=state["text"], first=0, removed=2, lines=["axiom F", "production f: F => FF", "depth 5"])
    few, many = json.loads(post("/limit", limit=50)[2]), json.loads(post("/limit", limit=1000000)[2])
    hands.expect("the limit is another one", few["limit"] == 50 and few["replies"][-1][1] == "refused limit level 5"
                 and many["replies"][-1][1] == "ok 31/31", (few, many))
    looking.end()
    looking, path = hands.look(data=b"\xef\xbb\xbf" + SCRIPT)
    state = json.loads(looking.client.ask("GET", "/state?turn=0")[2])
    hands.expect("a byte order mark is left out, and said",
                 state["script"].startswith("axiom") and not state["refused"] and "byte order mark" in state["notice"][1], state)
    looking.end()


def stopped(hands: Hands) -> None:
    """A script that takes long from its begin: its page comes, what is worked at is told, and it can be stopped."""
    script = b"axiom A(1)\nproduction a: A(x) < A(y) : x+y*x-y > x*y*x => A(x)A(y)\nproduction b: A(x) => A(x+1)A(x)\ndepth 18\n"
    looking, _ = hands.look(data=script)
    looking.client.ask("POST", "/limit", {}, b"{\"limit\": 1000000}")
    asked = threading.Thread(target=looking.client.ask, args=("POST", "/limit", {}, b"{\"limit\": 999999}"))
    asked.start()

    def busy_at() -> Any:
        return json.loads(looking.client.ask("GET", "/busy")[2])

    def is_at_it(busy: Any) -> bool:
        return bool(busy["line"] == "depth 18")

    busy: Any = waited(busy_at, is_at_it)
    hands.expect("what is worked at is told at once", busy["line"] == "depth 18", busy)
    begun = time.time()
    looking.client.ask("POST", "/cancel", {}, b"{}")
    asked.join()
    state, seconds = json.loads(looking.client.ask("GET", "/state?turn=0")[2]), time.time() - begun
    hands.expect("and stopped within a second", state["stopped"] == [3, "depth 18"] and len(state["replies"]) == 3 and is_within(seconds, 1),
                 (state["stopped"], state["replies"], seconds))
    status, said = looking.end()
    hands.expect("and ends in order", status == 0 and "Traceback" not in said, said)


def main() -> int:
    parser = Words(__doc__)
    parser.add_argument("--program")
    program = os.path.abspath(program_of(parser.parse_args().program))
    with tempfile.TemporaryDirectory() as folder:
        hands = Hands(program, folder)
        for part in (others, without_secrets, broken_requests, without_end, files, stopped):
            part(hands)
    print("whose hands: %d tries, %d not as they should be" % (hands.tried, hands.failed))
    return 1 if hands.failed else 0
