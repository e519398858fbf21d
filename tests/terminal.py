"""What is told where standard error is a terminal: why a line is no command, which machine a run refused, and how to get help.

Each explanation is compared with a plain one. What goes to standard output is the same as elsewhere, and what is told into a
pipe has nothing of it.
"""

import os
import random
import subprocess
import tty

import changes
import console
import explaining
import recording
from program import Told, Wrong, ask, ask_at_terminal, expect, file_of

SEED, COUNT, LINES_AT_ONCE = 20021215, 10, 100
ADVICE = b"esxplan help lists the words\n"
# Words that are wrong, or whose file is, and a good one.
ADVISED = [(["serve"], 2, b"wrong words\n" + ADVICE), (["console", "--echo", "--echo"], 2, b"wrong words\n" + ADVICE),
           (["check", "/"], 1, b"read fault\n"), (["record", "/"], 1, b"read fault\n"), (["record"], 0, b"")]


def machine(number, least, most, overhead):
    return (f"[[vm]]\nid = {number}\nmin = {least}\nmax = {most}\noverhead = {overhead}\nshares = 1\nballoon = 0\n").encode()


def scenario(frames, slots, nodes, *machines):
    return (f"version = 2\n[machine]\nframes = {frames}\npage = 16\nslots = {slots}\nnodes = {nodes}\n".encode()
            + b"".join(machine(*one) for one in machines))


# Scenarios whose opening is refused, what is told of it, and what is told behind that at a terminal. Machines come in the order
# of their numbers. Frames are looked at before slots, and nodes before both.
REFUSED = [
    (scenario(8, 9, 99, (0, 8, 8, 1)), b"no 4 NoMemoryReserve", b" vm 0: 9 of 8"),
    (scenario(8, 9, 99, (255, 1, 1, 8)), b"no 4 NoMemoryReserve", b" vm 255: 9 of 8"),
    (scenario(8, 0, 99, (7, 1, 2, 1)), b"no 5 NoSwapReserve", b" vm 7: 1 of 0"),
    (scenario(8, 0, 99, (7, 8, 9, 1)), b"no 4 NoMemoryReserve", b" vm 7: 9 of 8"),
    (scenario(20, 8, 99, (9, 1, 5, 1), (3, 2, 6, 1), (4, 2, 3, 2)), b"no 5 NoSwapReserve", b" vm 9: 9 of 8"),
    (scenario(20, 8, 99, (4, 9, 9, 2), (3, 9, 9, 1), (9, 1, 99, 1)), b"no 4 NoMemoryReserve", b" vm 4: 21 of 20"),
    (scenario(9, 2000, 99, (200, 1, 1241, 1), (4, 1, 1001, 1)), b"no 5 NoSwapReserve", b" vm 200: 2240 of 2000"),
    (scenario(8, 2**20, 99, *((number, 2**16, 2**16, 2**20) for number in (1, 2))), b"no 4 NoMemoryReserve", b" vm 1: 1114112 of 8"),
    (scenario(20, 8, 1, (5, 1, 1, 1), (6, 1, 1, 1)), b"no 25 Full", b" vm 6: 2 of 1"),
    (scenario(20, 8, 2, (5, 1, 1, 1), (6, 1, 1, 1)), b"no 25 Full", b" vm 5: 3 of 2"),
    (scenario(20, 8, 3, (5, 1, 1, 1), (6, 1, 1, 1)), b"no 25 Full", b" vm 6: 4 of 3"),
    (scenario(20, 8, 4, (6, 1, 1, 2), (5, 1, 1, 1)), b"no 25 Full", b" vm 6: 5 of 4"),
]


def check_advice(program):
    """A person at a terminal is told what helps behind wrong words, and behind nothing else."""
    for asked, status, wanted in ADVISED:
        told = ask_at_terminal(program, asked)
        expect(f"{asked} at a terminal", (status, wanted), (told.status, told.err))
    told = ask_at_terminal(program, ["help"])
    expect("help at a terminal", Told(0, ask(program, ["help"]).out, b""), told)


def check_refused(program):
    """A refused opening is told with its machine at a terminal, and without it elsewhere."""
    for text, reason, machine_told in REFUSED:
        with file_of(text) as name:
            expect(f"a run of {text!r}", Told(1, b"", reason + b"\n"), ask(program, ["run", name]))
            expect(f"a run of {text!r} at a terminal", Told(1, b"", reason + machine_told + b"\n"),
                   ask_at_terminal(program, ["run", name]))


def explanations(served):
    """What is told at a terminal of each line, by its number from 1 on: nothing of one that is a command or gets no answer."""
    return [explaining.told(at, line) for at, line in enumerate(served.lines, 1)]


def check_lines(program, served, name):
    """What a console, an echoing one and a recording tell at a terminal, and that their output is the same as elsewhere."""
    told_of_lines = explanations(served)
    if any((told == b"") == answer.startswith(b"? ") for told, answer in zip(told_of_lines, served.answers)):
        raise Wrong(f"{served.name}: the plain reader and the plain explanations differ")
    told = b"".join(told_of_lines)
    for asked, right in ((["console", recording.FILE], served.answers), (recording.ECHOING[0], served.echoed)):
        expect(f"{asked} at a terminal, {served.name}", Told(0, b"".join(right), told),
               ask_at_terminal(program, recording.with_file(asked, name), served.given))
    recorded = ask_at_terminal(program, recording.with_file(["record", recording.FILE], name), served.given)
    expect(f"record at a terminal, {served.name}", served.recorded().out, recorded.out)
    expect(f"record at a terminal, {served.name}", sorted((told + b"".join(served.questions)).splitlines()),
           sorted(recorded.err.splitlines()))


def check_order(program, served, asked, is_recorded):
    """At a terminal that shows both, each explanation comes before its answer, where lines are asked one by one."""
    screen, line = os.openpty()
    tty.setraw(line)
    told = bytearray()
    child = subprocess.Popen([program, *asked], stdin=subprocess.PIPE, stdout=subprocess.DEVNULL if is_recorded else line, stderr=line,
                             bufsize=0)
    try:
        wanted = b""
        for one, answer, explained in zip(served.given.splitlines(keepends=True), served.answers, explanations(served), strict=True):
            child.stdin.write(one)
            wanted += explained + (b"" if is_recorded and not answer.startswith(b"? ") else answer)
            while len(told) < len(wanted):
                told += os.read(screen, 65536)
            expect(f"{asked}, line by line", wanted, bytes(told))
        child.stdin.close()
        child.wait()
    finally:
        child.kill()
        os.close(line)
        os.close(screen)


def drawn(times):
    """Batches of lines of which most are changed, and lines that are as long as they may be, or longer."""
    for number in range(COUNT * times):
        draw = random.Random(f"{SEED} {number}")
        lines = [changes.command(draw).encode() for _ in range(LINES_AT_ONCE)]
        lines = [changes.made_other(draw, line) if draw.random() < 0.8 else line for line in lines]
        lines += [draw.choice(recording.BETWEEN) for _ in range(5)]
        draw.shuffle(lines)
        yield recording.Served(f"lines {number}", console.FIRST_SITE, b"\n".join(lines) + draw.choice([b"\n", b""]))


def check(program, is_long):
    check_advice(program)
    check_refused(program)
    for line, wanted in explaining.WRITTEN:
        expect(f"the plain explanation of {line!r}", wanted, explaining.told(7, line))
    written = recording.Served("written lines", console.FIRST_SITE, b"\n".join(line for line, _ in explaining.WRITTEN) + b"\n")
    check_lines(program, written, None)
    for served, name in recording.served_rows():
        check_lines(program, served, name)
    count = 0
    for served in drawn(10 if is_long else 1):
        check_lines(program, served, None)
        count += len(served.questions)
    for asked, is_recorded in ((["console"], False), (["record"], True)):
        check_order(program, written, asked, is_recorded)
    return f"{len(REFUSED)} refused openings told with their machines, and {count} drawn lines explained as a plain reader explains them"
