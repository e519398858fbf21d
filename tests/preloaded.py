"""A small library that makes calls of the program fail (faults.c): built by gcc, and put before the C library."""

import os
import shutil
import subprocess
import tempfile
from contextlib import contextmanager

from program import HERE, Wrong, ask

NOT_TRIED = "not tried: there is no gcc to build the library that makes calls fail"


def can_be_built():
    return shutil.which("gcc") is not None


class Faults:
    """The library, and where it tells that it made a call fail."""

    def __init__(self, folder):
        self.library, self.made = f"{folder}/faults.so", f"{folder}/made"
        subprocess.run(["gcc", "-O1", "-shared", "-fPIC", "-o", self.library, f"{HERE}/faults.c"], check=True)

    def ask(self, program, words, given, **faults):
        """What is told with these faults, and whether one of them was met."""
        env = {"LD_PRELOAD": self.library, "MADE": self.made, **{name: str(number) for name, number in faults.items()}}
        told = ask(program, words, given, env=env)
        was_met = os.path.exists(self.made)
        if was_met:
            os.unlink(self.made)
        return told, was_met


@contextmanager
def built():
    with tempfile.TemporaryDirectory() as folder:
        yield Faults(folder)


class Case:
    """What is asked, the right output, the lengths of its fronts that are whole answers, and the right status and errors."""

    def __init__(self, name, words, given, right, fronts, status=0, err=b""):
        self.name, self.words, self.given, self.right, self.fronts = name, words, given, right, fronts
        self.status, self.err = status, err

    def is_right(self, told):
        return (told.status, told.out, told.err) == (self.status, self.right, self.err)

    def is_front(self, told, status, err):
        return self.right.startswith(told.out) and (told.status, told.err) == (status, err)

    def is_whole_front(self, told, status, err):
        return self.is_front(told, status, err) and len(told.out) in self.fronts


def lines_of(text):
    """Where its lines end, and where it begins."""
    return {0, *(at + 1 for at, byte in enumerate(text) if byte == 10)}


def sweep(faults, program, case, name, is_good):
    """Lets the first call of a kind fail, then the second, and so on, until there is none; returns what was told each time."""
    tries = []
    while True:
        told, was_met = faults.ask(program, case.words, case.given, **{name: len(tries) + 1})
        if not (is_good(told) if was_met else case.is_right(told)):
            raise Wrong(f"{case.name}, with {name}={len(tries) + 1}: {told!r}")
        if not was_met:
            if not tries:
                raise Wrong(f"{case.name}: {name} made no call fail")
            return tries
        tries.append(told)
