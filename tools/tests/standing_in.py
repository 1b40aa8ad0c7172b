"""A program that stands in for `lsys`, and what a test wants of the machine."""

from __future__ import annotations

import os
import sys
import tempfile
import unittest

# Answers each line by what a table has for it, or by `ok 0/0`.
ANSWERING = """
import sys
answers = {answers!r}
for line in sys.stdin.buffer:
    sys.stdout.buffer.write(answers.get(line.rstrip(b"\\n"), b"ok 0/0\\n"))
    sys.stdout.buffer.flush()
"""


class WithFolder(unittest.TestCase):
    """A test that has a folder of its own."""

    def setUp(self) -> None:
        room = tempfile.TemporaryDirectory(prefix="lsys-test-")
        self.addCleanup(room.cleanup)
        self.folder = room.name

    def put(self, name: str, data: bytes) -> str:
        """Writes a file of the folder, and gives its path."""
        path = os.path.join(self.folder, name)
        with open(path, "wb") as file:
            file.write(data)
        return path

    def answering(self, answers: dict[bytes, bytes]) -> list[str]:
        """The words of a program that answers so."""
        return [sys.executable, "-B", self.put("stand_in.py", ANSWERING.format(answers=answers).encode())]

    def program(self, answers: dict[bytes, bytes]) -> str:
        """The path of a program that answers so."""
        words = " ".join("'%s'" % word for word in self.answering(answers))
        path = self.put("stand_in", ("#!/bin/sh\nexec %s\n" % words).encode())
        os.chmod(path, 0o755)
        return path
