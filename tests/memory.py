"""Refused memory: the program again and again, each time with the next growth of memory refused, until none is left.

It then tells `no memory` and ends with status 3, and what it wrote are whole answers, the first of those that are right.
A growth that it can do without, such as room to sort in or for kept keys of pages, changes nothing.
"""

import random
from contextlib import ExitStack, contextmanager

import console
import preloaded
import reader
import reports
import rows
import streams
import words
from console import Console
from preloaded import Case, lines_of, sweep
from program import Told, Wrong, file_of

WANTS = b"no memory\n"


def sweep_run(faults, program, name):
    """The same for a run, whose session is another each time: it is written whole, or nothing but the fault is told."""
    tries = []
    while True:
        told, was_met = faults.ask(program, ["run", name], b"", REFUSE=len(tries) + 1)
        is_done = (told.status, told.err) == (0, words.ENDS) and is_session(told.out)
        if not (is_done or was_met and told == Told(3, b"", WANTS)):
            raise Wrong(f"run, with growth {len(tries) + 1} refused: {told!r}")
        if not was_met:
            if not tries:
                raise Wrong("run: no growth was refused")
            return tries
        tries.append(told)


def is_session(text):
    """Whether a text is a whole session, with the replies of the plain console."""
    return reader.told_of_session(text) is None and console.told_of_check(reader.session_of(text))[1] == 0


@contextmanager
def long_pages(seed):
    """A drawn stream of long pages, served at its site."""
    site, *lines = streams.contents(random.Random(seed), 400, 6)
    asked = console.bytes_of(lines)
    answers = console.answers(Console(site), asked)
    fronts = {sum(map(len, answers[:count])) for count in range(len(answers) + 1)}
    with file_of(console.scenario_of(site)) as name:
        yield Case(f"long pages {seed}", ["console", name], asked, b"".join(answers), fronts)


def sweep_case(faults, program, case):
    return sweep(faults, program, case, "REFUSE",
                 lambda told: case.is_right(told) or case.is_whole_front(told, 3, WANTS))


@contextmanager
def cases_of_files():
    """Sessions and scenarios, good ones and such that are refused."""
    texts = {"lives": reports.LIVES, "session": words.SESSION, "old": words.OLD_SESSION, "short": words.SHORT, "scenario": words.SCENARIO,
             "other": words.changed(words.SHORT, b"3/20", b"3/21"), "cut": words.changed(words.SHORT, b"end 2\n", b""),
             "strange": words.changed(words.SCENARIO, b"slots = 3", b"slots = 3\ncolour = 1"), "no_toml": words.NO_TOML[0]}
    with ExitStack() as stack:
        names = {key: stack.enter_context(file_of(text)) for key, text in texts.items()}
        yield names["scenario"], [
            Case("check", ["check", names["session"]], b"", b"same 3\n", {0}),
            Case("check of another", ["check", names["other"]], b"", b"differs 1\n", {0}, 1),
            Case("diff", ["diff", names["session"]], b"", b"same 3\n", {0}),
            Case("diff of another", ["diff", names["other"]], b"", words.DIFFERENCES[0][1], {0}, 1),
            Case("diff of a cut one", ["diff", names["cut"]], b"", b"", {0}, 1, b"bad line 7\n"),
            Case("check of a cut one", ["check", names["cut"]], b"", b"", {0}, 1, b"bad line 7\n"),
            Case("migration", ["migrate", names["old"]], b"", words.in_version_2(words.OLD_SESSION), {0}),
            Case("migration of another", ["migrate", names["other"]], b"", b"differs 1\n", {0}, 1),
            Case("report", ["report", names["lives"], "--at", "new"], b"", reports.REPORT, {0}),
            Case("table of losses", ["report", names["lives"], "--csv", "losses"], b"", reports.LOSSES, {0}),
            Case("table of changes", ["report", names["lives"], "--csv", "changes", "--at", "8"], b"", reports.CHANGES, {0}),
            Case("table of steps", ["report", names["lives"], "--csv", "steps", "--at", "8"], b"", reports.STEPS, {0}),
            Case("why", ["why", names["lives"], "0", "2", "--at", "8"], b"", reports.WHY, {0}),
            Case("report of another", ["report", names["other"]], b"", b"", {0}, 1, b"differs 1\n"),
            Case("report of no node", ["report", names["lives"], "--at", "older"], b"", b"", {0}, 1, b"no 23 NoSuchName\n"),
            Case("why of no page", ["why", names["lives"], "0", "3"], b"", b"", {0}, 1, b"no 7 OutOfRange\n"),
            Case("replay", ["replay", names["session"]], b"", words.REPLAYED, lines_of(words.REPLAYED)),
            Case("replay of a short one", ["replay", names["short"]], b"", words.SHORT_REPLAYED, lines_of(words.SHORT_REPLAYED)),
            Case("console FILE", ["console", names["scenario"]], b"", b"", {0}),
            Case("console of a strange one", ["console", names["strange"]], b"", b"", {0}, 1, b"bad key machine.colour\n"),
            Case("console of no TOML", ["console", names["no_toml"]], b"", b"", {0}, 1, b"bad toml\n")]


def check(program, is_long):
    if not preloaded.can_be_built():
        return preloaded.NOT_TRIED
    cases = [Case(row.name, row.words, row.asked, row.answered, row.fronts()) for row in rows.all_rows()]
    tries, without = [], 0
    with preloaded.built() as faults, cases_of_files() as (scenario, of_files):
        for case in cases + of_files:
            tried = sweep_case(faults, program, case)
            tries += tried
            without += sum(map(case.is_right, tried))
        if without * 20 > len(tries):
            raise Wrong(f"{without} of {len(tries)} refused growths changed nothing")
        for seed in range(10 if is_long else 1):
            with long_pages(seed) as case:
                tries += sweep_case(faults, program, case)
        for _ in range(20 if is_long else 1):
            tries += sweep_run(faults, program, scenario)
    told = sum(one.status == 3 for one in tries)
    return f"{len(tries)} growths refused in turn: {told} told, {len(tries) - told} done without"
