"""Who may ask the page's server: browsers of the person that began it. Others of the same machine reach its port too, so what is asked has
to come from a process of that person, with a cookie, and, but for the page's own files, with a token besides."""

from __future__ import annotations

import hmac
import http.cookies
import os
import secrets
import socket
import struct
import threading
from collections.abc import Sequence
from typing import Any

TABLES = {"/proc/net/tcp": "", "/proc/net/tcp6": "0000000000000000FFFF0000"}


def place_of(address: str, port: int) -> str:
    """A place of IPv4 as the tables of the system write it."""
    return "%08X:%04X" % (struct.unpack("=I", socket.inet_aton(address))[0], port)


def user_of(client: Sequence[Any], server: Sequence[Any]) -> int | None:
    """The number of the user whose process holds the client's end of a connection within this machine, or None where no table tells it."""
    for table, front in TABLES.items():
        ends = [front + place_of(*client[:2]), front + place_of(*server[:2])]
        try:
            with open(table) as file:
                found = next((line.split()[7] for line in file if line.split()[1:3] == ends), None)
        except (OSError, IndexError):
            continue
        if found is not None:
            return int(found)
    return None


def own_users() -> set[int]:
    """The person's own number, also under sudo, and root's, who reads every secret anyway and passes connections on."""
    return {os.getuid(), 0} | {int(number) for number in [os.environ.get("SUDO_UID", "")] if number.isdigit()}


class Guard:
    """The secrets of one server: a key that opens the page once, the cookie that it is answered with, and the token of the page's requests."""

    def __init__(self, port: int) -> None:
        self.port, self.lock, self.users = port, threading.Lock(), own_users()
        self.cookie, self.token, self.key = (secrets.token_urlsafe(24) for _ in range(3))

    def address(self) -> str:
        """Where the page is opened, once."""
        return "http://127.0.0.1:%d/?key=%s" % (self.port, self.key)

    def name(self) -> str:
        """A cookie goes to all ports of a machine, so each server has its own."""
        return "lsys_%d" % self.port

    def cookie_line(self) -> str:
        return "%s=%s; Path=/; HttpOnly; SameSite=Strict" % (self.name(), self.cookie)

    def is_own(self, client: Sequence[Any]) -> bool:
        user = user_of(client, ("127.0.0.1", self.port))
        return user is None or user in self.users

    def takes(self, key: str) -> bool:
        """Whether this is the key. It is another one from then on."""
        with self.lock:
            if not hmac.compare_digest(key.encode(), self.key.encode()):
                return False
            self.key = secrets.token_urlsafe(24)
            return True

    def has_cookie(self, line: str | None) -> bool:
        try:
            cookies: Any = http.cookies.SimpleCookie(line or "")
            found = cookies.get(self.name())
        except http.cookies.CookieError:
            return False
        return found is not None and hmac.compare_digest(found.value.encode(), self.cookie.encode())

    def has_token(self, word: str | None) -> bool:
        return hmac.compare_digest((word or "").encode(), self.token.encode())
