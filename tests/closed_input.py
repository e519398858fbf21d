"""A console at the site of a file, whose standard input is closed: that file is not taken for its input."""

from ends import READ_FAULT, closed
from program import expect, file_of
from words import SCENARIO


def check(program, _is_long):
    with file_of(SCENARIO) as scenario:
        for asked in (["console", scenario], ["console", scenario, "--echo"], ["record", scenario], ["record"], ["console"], []):
            expect(f"{asked} with no input", READ_FAULT, closed(program, asked, "<&-"))
    return "a console with no input tells it, also where a file has its site"
