"""A client of `tools/look`: it opens the page by its address, and asks with the cookie and the token that it gets, or without them."""

from __future__ import annotations

import http.client
import os
import re
import signal
import subprocess
from collections.abc import Mapping

from patience import PATIENCE

COOKIE = re.compile(r"^([^=;]+=[^;]+);")
TOKEN = re.compile(r"<meta name=\"token\" content=\"([^\"]+)\"")


class Client:
    """Asks the server of an address, as a browser that has opened it does."""

    def __init__(self, address: str) -> None:
        self.port, self.key = int(re.findall(r":(\d+)/", address)[0]), address[address.index("/", 8):]
        self.own: dict[str, str | None] = {}
        self.token, self.set_cookie = "", ""

    def enter(self) -> int:
        """Opens the page, and keeps what it is answered with."""
        status, headers, page = self.ask("GET", self.key)
        self.set_cookie = headers.get("Set-Cookie") or ""
        cookie, token = COOKIE.match(self.set_cookie), TOKEN.search(page.decode())
        self.own = {"Cookie": cookie.group(1)} if cookie else {}
        self.token = token.group(1) if token else ""
        if self.token:
            self.own["X-Token"] = self.token
        return status

    def ask(self, method: str, path: str, headers: Mapping[str, str | None] | None = None,
            body: bytes | None = None) -> tuple[int, http.client.HTTPMessage, bytes]:
        """The status of an answer, its headers, and its body. A header that is None isn't sent."""
        connection = http.client.HTTPConnection("127.0.0.1", self.port, timeout=300)
        try:
            connection.putrequest(method, path, skip_host=True)
            sent: dict[str, str | None] = {"Host": "127.0.0.1:%d" % self.port, **self.own, **(headers or {})}
            for name, value in sent.items():
                if value is not None:
                    connection.putheader(name, value)
            if body is not None:
                connection.putheader("Content-Length", str(len(body)))
            connection.endheaders(body)
            answer = connection.getresponse()
            return answer.status, answer.headers, answer.read()
        finally:
            connection.close()


class Looking:
    """A running `tools/look`, what it says, and a client that has opened its page."""

    def __init__(self, words: list[str], cwd: str | None, path: str | None = None, enters: bool = True) -> None:
        self.running = subprocess.Popen(words, cwd=cwd, env={**os.environ, **({"PATH": path} if path else {})}, stdin=subprocess.DEVNULL,
                                        stderr=subprocess.PIPE, text=True)
        assert self.running.stderr
        self.said, self.told = "", self.running.stderr
        while "http://" not in self.said and self.running.poll() is None:
            self.said += self.told.readline()
        self.client = Client(re.findall(r"http://\S+", self.said + "http://127.0.0.1:0/")[0])
        self.port = self.client.port
        if enters:
            self.client.enter()

    def get(self, path: str) -> str:
        """The text that is answered, or what went wrong."""
        try:
            return self.client.ask("GET", path)[2].decode()
        except OSError as error:
            return str(error)

    def end(self) -> tuple[int, str]:
        """Its status, and all that it said."""
        self.running.send_signal(signal.SIGINT)
        said = self.said + self.told.read()
        return self.running.wait(PATIENCE), said
