"""Runs of a program to which memory is refused (refuse.c)."""

import os
import shutil
import subprocess
import sys
import tempfile
from dataclasses import dataclass

HERE = os.path.dirname(os.path.abspath(__file__))
SECONDS = 120


@dataclass
class Ran:
    """What came of a run: its status is None where its time was over, and below 0 where a signal ended it. How many growths there were, and how many were refused."""

    out: bytes
    error: bytes
    status: object
    growths: int
    refused: int


class Refuser:
    """The library, built in a room of its own that is there until `close`."""

    def __init__(self):
        self.room = tempfile.mkdtemp()
        self.library = os.path.join(self.room, "refuse.so")
        subprocess.run(["gcc", "-O2", "-shared", "-fPIC", "-o", self.library, os.path.join(HERE, "refuse.c")], check=True)

    def close(self):
        shutil.rmtree(self.room, ignore_errors=True)

    def run(self, words, given, folder=None, at=(), later=None):
        """Runs a program on an input. The growths with the numbers `at` are refused, and those from `later` on."""
        with tempfile.NamedTemporaryFile(dir=self.room) as counts:
            counts.write(bytes(16))
            counts.flush()
            env = {**os.environ, "LD_PRELOAD": self.library, "REFUSE_FILE": counts.name, "REFUSE_AT": ",".join(map(str, at))}
            if later is not None:
                env["REFUSE_FROM"] = str(later)
            out, error, status = b"", b"", None
            with subprocess.Popen(words, cwd=folder, stdin=subprocess.PIPE, stdout=subprocess.PIPE, stderr=subprocess.PIPE, env=env) as child:
                try:
                    out, error = child.communicate(given, timeout=SECONDS)
                    status = child.returncode
                except subprocess.TimeoutExpired:
                    child.kill()
                    child.communicate()
            with open(counts.name, "rb") as file:
                growths, refused = (int.from_bytes(file.read(8), sys.byteorder) for _ in range(2))
            return Ran(out, error, status, growths, refused)


def whole(refuser, words, given, folder=None):
    """A run to which nothing is refused. Its growths have to be seen, or nothing can be refused either."""
    ran = refuser.run(words, given, folder)
    if ran.growths == 0:
        sys.exit(f"{words[0]} doesn't allocate by the C library's malloc, or is linked with it statically: nothing can be refused")
    return ran
