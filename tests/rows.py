"""Worked rows: a file of tests/rows for each mechanism, which the program and the plain console answer as it is written.

A line that begins with `> ` is what has to be answered to the lines before it; all other lines are asked. A first line
such as `# At the site of small.toml: ..` names the scenario whose site is served.
"""

import glob
import os
import re
import tomllib

import console
import machine
from program import HERE, Told, Wrong, ask, expect


class Row:
    """What is asked, line by line, and the answer to each line."""

    def __init__(self, path):
        self.name = os.path.basename(path)
        self.lines, self.answers = [], []
        with open(path, "rb") as file:
            for line in file.read().splitlines(keepends=True):
                if line.startswith(b"> "):
                    self.answers[-1] += line[2:]
                else:
                    self.lines.append(line)
                    self.answers.append(b"")
        site = re.match(rb"# At the site of (\w+\.toml)", self.lines[0])
        self.words = ["console"] + ([f"{HERE}/rows/{site[1].decode()}"] if site else [])
        self.site = console.FIRST_SITE
        if site:
            with open(self.words[1], "rb") as file:
                machine = dict(zip(console.SITE_KEYS, console.DEFAULTS)) | tomllib.load(file)["machine"]
            self.site = [machine[key] for key in console.SITE_KEYS]

    @property
    def asked(self):
        return b"".join(self.lines)

    @property
    def answered(self):
        return b"".join(self.answers)

    def fronts(self):
        """The lengths at which whole answers end."""
        ends, length = {0}, 0
        for answer in self.answers:
            length += len(answer)
            ends.add(length)
        return ends


def all_rows():
    return [Row(path) for path in sorted(glob.glob(f"{HERE}/rows/*.row"))]


def check(program, _is_long):
    rows = all_rows()
    for row in rows:
        plain = console.answers(console.Console(row.site), row.asked)
        if plain != row.answers:
            raise Wrong(f"{row.name}: the plain console answers otherwise, {plain!r}")
        expect(row.name, Told(0, row.answered, b""), ask(program, row.words, row.asked))
        crlf = ask(program, row.words, row.asked.replace(b"\n", b"\r\n"))
        expect(f"{row.name}, with carriage returns", Told(0, row.answered, b""), crlf)
    told = [line for row in rows for line in row.answered.splitlines()]
    missing = [number for number in machine.NAMES if not any(line.startswith(b"no %d " % number) for line in told)]
    if missing:
        raise Wrong(f"no row is refused with {missing}")
    return f"{len(rows)} rows of {sum(len(row.lines) for row in rows)} lines answered as written"
