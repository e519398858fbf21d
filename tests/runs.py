"""Runs of drawn scenarios: what each worker called is what it had to, and every reply is the plain console's.

The order in which the workers called is the run's own; what each of them calls next follows from its trace, from the words
that are drawn for it and from the replies that it got.
"""

import itertools
import random
import re

import console
import reader
from pcg import Pcg64
from program import Told, Wrong, ask, expect, file_of

SEED, COUNT = 20021211, 60
CROWDED = 256  # as many guests as there may be


def drawn_trace(draw, pages, page):
    lines = []
    for _ in range(draw.choice([0, 5, 40, 60])):
        at, number = draw.randrange(page), draw.randrange(pages)
        lines.append(draw.choice([f"read {number} {at} 1", f"write {number} {at} {draw.randrange(3):02x}",
                                  f"write {number} {at} {draw.randrange(3):02x}", "ask", f"lend {number}", f"takeback {number}"]))
    return lines


def drawn_tax(draw):
    """A tax of a machine's own, mostly none."""
    return draw.choice([[], [], [0], [draw.randrange(100)]])


class Scenario:
    """A drawn scenario of either version: its site, its machines with their traces, and its text."""

    def __init__(self, draw, count=None):
        page, pages = draw.choice([16, 256, 4096]), draw.choice([4, 9, 9, 9, 300])
        count = draw.choice([0, 1, 2, 5]) if count is None else count
        least = draw.choice([1, pages - 2])
        self.site = [max(8, count * (draw.choice([least, least, least + 1, pages]) + 1)), page, count * pages, 75, 6, 4, 2, 1, 2**24]
        self.turns, self.sample, self.length = draw.choice([1, 60, 200]), draw.choice([1, 7, 100]), draw.choice([1, 5, 1000])
        self.version = draw.choice([1, 2, 2]) if count <= 32 else 2
        numbers = sorted(draw.sample(range(256 if self.version == 2 else 32), count))
        self.machines = {number: ([least, pages, 1, draw.choice([1, 1000]), draw.choice([0, pages - least]),
                                   *(drawn_tax(draw) if self.version == 2 else [])], drawn_trace(draw, pages, page))
                         for number in numbers}
        self.seed = draw.getrandbits(63)

    def text(self):
        parts = [console.scenario_of(self.site, self.version).decode(), "[run]\n",
                 f"seed = {self.seed}\nturns = {self.turns}\nsample = {self.sample}\nlength = {self.length}\n"]
        for number, (numbers, trace) in self.machines.items():
            keys = zip(("min", "max", "overhead", "shares", "balloon", "tau"), numbers)
            lines = ", ".join(f'"{line}"' for line in trace)
            parts += [f"[[vm]]\nid = {number}\n", *(f"{key} = {one}\n" for key, one in keys), f"trace = [{lines}]\n"]
        return "".join(parts).encode()

    def opening(self):
        return ([f"admit {number} {' '.join(map(str, numbers))}" for number, (numbers, _) in self.machines.items()]
                + [f"start {number}" for number in self.machines])


def with_number(line, number):
    word, *rest = line.split(" ")
    return " ".join([word, str(number), *rest])


def guest(number, trace, words):
    """Gives what a guest calls next; is sent the reply to each call."""
    for line in trace:
        call = with_number(line, number)
        reply = yield call
        while call.startswith(("read", "write")) and re.match("no [89] ", reply[0]):
            page = call.split(" ")[2]
            advice = (yield f"advise {number} {page}")[0]
            if advice.startswith("swapout"):
                yield f"{advice} {words.word()}"
            elif advice == "rebalance":
                yield "rebalance"
            elif advice == "replace":
                yield f"replace {number} {page} {words.word()}"
            reply = yield call


def sharer(machines, words):
    while machines:
        number = list(machines)[words.word() % len(machines)]
        yield f"scan {number} {words.word() % machines[number][0][1]}"


def swapper(machines, words):
    while machines:
        yield f"swapout {list(machines)[words.word() % len(machines)]} {words.word()}"


def policy(scenario, words):
    while True:
        yield "rebalance"
        for number in scenario.machines:
            yield f"sample {number} {scenario.length} {' '.join(str(words.word()) for _ in range(scenario.sample))}"


def workers(scenario):
    """The workers in their order, each with its own words."""
    words = (Pcg64(scenario.seed + place) for place in itertools.count())
    named = [(f"guest {number}", guest(number, trace, next(words))) for number, (_, trace) in scenario.machines.items()]
    return named + [("sharer", sharer(scenario.machines, next(words))), ("swapper", swapper(scenario.machines, next(words))),
                    ("policy", policy(scenario, next(words)))]


def told_of_worker(name, worker, lines, turns):
    """The end that is told of a worker which called and was answered so."""
    wanted = next(worker, None)
    for call, reply in lines:
        if call != wanted:
            raise Wrong(f"{name} called {call!r} in the place of {wanted}")
        try:
            wanted = worker.send(reply)
        except StopIteration:
            wanted = None
    is_done = wanted is None and name.startswith("guest")
    if len(lines) > turns or wanted is not None and len(lines) < turns:
        raise Wrong(f"{name} made {len(lines)} calls of {turns}")
    return f"{name} {'done' if is_done else 'turns'}\n"


def check_run(program, scenario):
    """Compares a run with the plain console and with what its workers had to call; returns how many calls it made."""
    with file_of(scenario.text()) as file:
        told = ask(program, ["run", file])
    session = reader.session_of(told.out)
    if console.told_of_check(session)[1] != 0 or session.site != scenario.site:
        raise Wrong(f"a run of {scenario.text()!r} has other replies: {told!r}")
    opening = scenario.opening()
    if [(caller, call) for caller, call, _ in session.calls[:len(opening)]] != [(0, call) for call in opening]:
        raise Wrong(f"a run of {scenario.text()!r} opens in another way: {told!r}")
    ends = ""
    for at, (name, worker) in enumerate(workers(scenario)):
        lines = [(call, reply) for caller, call, reply in session.calls[len(opening):] if caller == at]
        ends += told_of_worker(name, worker, lines, scenario.turns)
    expect("the ends of a run", Told(0, told.out, ends.encode()), told)
    with file_of(told.out) as file:
        expect("check of a run", Told(0, b"same %d\n" % len(session.calls), b""), ask(program, ["check", file]))
        expect("replay of a run", Told(0, console.told_of_replay(session), b""), ask(program, ["replay", file]))
        expect("migration of a run", Told(0, told.out, b""), ask(program, ["migrate", file]))
    return len(session.calls)


def check(program, is_long):
    times = 10 if is_long else 1
    scenarios = [Scenario(random.Random(f"{SEED} {number}")) for number in range(COUNT * times)]
    scenarios += [Scenario(random.Random(f"{SEED} crowded {number}"), CROWDED) for number in range(times)]
    calls = [check_run(program, scenario) for scenario in scenarios]
    return f"{len(calls)} runs of {sum(calls)} calls are what their workers had to call, and answered as by the plain console"
