"""The program under test: how it is asked, and what it told."""

import os
import subprocess
import tempfile
import threading
import tty
from contextlib import contextmanager

HERE = os.path.dirname(os.path.abspath(__file__))


class Wrong(Exception):
    """The program did otherwise than it should have."""


class Told:
    """What a program wrote, and how it ended."""

    def __init__(self, status, out, err):
        self.status, self.out, self.err = status, out, err

    def __eq__(self, other):
        return (self.status, self.out, self.err) == (other.status, other.out, other.err)

    def __repr__(self):
        return f"status {self.status}, output {shortened(self.out)}, errors {shortened(self.err)}"


def shortened(text):
    return repr(text) if len(text) <= 400 else f"{text[:200]!r} .. {text[-200:]!r} ({len(text)} bytes)"


def ask(program, words=(), given=b"", **more):
    """What a program tells with these words, where its standard input has these bytes."""
    done = subprocess.run([program, *words], input=given, capture_output=True, timeout=120, check=False, **more)
    return Told(done.returncode, done.stdout, done.stderr)


def read_screen(screen, told):
    """Reads what comes to a terminal, up to a byte of zero."""
    while not told.endswith(b"\0"):
        told += os.read(screen, 65536)


def ask_at_terminal(program, words=(), given=b"", has_output=False):
    """What a program tells where its standard error is a terminal, and its standard output too if that is said."""
    screen, line = os.openpty()
    tty.setraw(line)  # what is written comes out as it is
    told = bytearray()
    reader = threading.Thread(target=read_screen, args=(screen, told))
    reader.start()
    try:
        done = subprocess.run([program, *words], input=given, stdout=line if has_output else subprocess.PIPE, stderr=line, timeout=120,
                              check=False)
    finally:
        os.write(line, b"\0")
        reader.join()
        os.close(line)
        os.close(screen)
    return Told(done.returncode, done.stdout or b"", bytes(told[:-1]))


def expect(what, wanted, told):
    if told != wanted:
        raise Wrong(f"{what}\n  wanted {wanted!r}\n  but    {told!r}")


@contextmanager
def file_of(data):
    """A file with these bytes, for as long as it is used."""
    with tempfile.NamedTemporaryFile() as file:
        file.write(data)
        file.flush()
        yield file.name
