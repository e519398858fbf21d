"""Recordings and echoes: `record` prints the session of its commands, and `console --echo` each command before its answer.

Worked rows, drawn streams and lines that are none are recorded and echoed, and compared with a plain console (console.py):
what is recorded is what `session` prints at the end of a console, standard error has the answers to the lines that are no
command and nothing else, and what is echoed stands before the answers of a console. The input ends anywhere, comes in pieces
or line by line, or fails; the output takes nothing more, or not all; and memory is refused.
"""

import os
import random
import select
import subprocess
from contextlib import ExitStack

import changes
import console
import ends
import preloaded
import reader
import rows
import streams
import wide
import words
from console import Console
from ends import READ_FAULT, WRITE_FAULT, closed
from memory import WANTS
from preloaded import Case, sweep
from program import Told, Wrong, ask, expect, file_of

SEED = 20021214
COUNTS = {"contents": 3, "shorts": 2, "paging": 1, "replacing": 1, "samples": 2, "targets": 2, "prunes": 2, "mixed": 4}
LINES_AT_ONCE = 200
FILE = "FILE"  # what stands for the scenario's file in words

# Lines that are drawn between those of streams: such that get no answer, words of the console alone, lines that are none, and
# lines at both sides of the longest.
BETWEEN = [b"", b"# a note", b"#", b"\r", b"session", b"order", b"pageout 0 0", b"pageout 0", b"sum", b"sum\r", b"sum\r\r", b"nothing",
           b"sum ", b"? line 3", b"> sum", b"\xff\xfe", "é".encode(), b"\0", b"x" * 16384, b"x" * 16385, b"x" * 16384 + b"\r",
           b"#" * 20000, words.LONG_LINE, words.LONGER_LINE]
# The flag in each place behind the word, once. Behind two dashes it is a file's name.
ECHOING = [["console", "--echo", FILE], ["console", FILE, "--echo"]]


class Served:
    """Lines that are asked at a site, and what has to be told of them."""

    def __init__(self, name, site, given):
        plain = Console(site)
        self.name, self.site, self.given, self.plain = name, site, given, plain
        self.lines = reader.lines_of(given)
        self.answers = console.answers(plain, given)
        self.session = console.bytes_of(plain.session())
        self.questions = [answer for answer in self.answers if answer.startswith(b"? ")]
        self.echoed = [echo(line) + answer for line, answer in zip(self.lines, self.answers, strict=True)]

    def recorded(self):
        return Told(0, self.session, b"".join(self.questions))

    def told_with_echo(self):
        return Told(0, b"".join(self.echoed), b"")


def echo(line):
    """What is written before the answer to a line, which has lost a carriage return before its line feed."""
    is_told = reader.what_line_is(line) != "nothing" and len(line) <= reader.LONGEST_LINE
    return b"> " + line + b"\n" if is_told else b""


def fronts(pieces):
    """The texts that whole pieces make, from none of them to all."""
    return [b"".join(pieces[:count]) for count in range(len(pieces) + 1)]


def with_file(asked, name):
    """Words with a scenario's file in its place; without it where there is none."""
    return [name if word == FILE else word for word in asked if word != FILE or name]


def check_served(program, draw, served, name):
    """Compares a recording and echoes of some lines, at once and in pieces, at the site of a scenario's file if one is named."""
    record = with_file(["record", FILE], name)
    expect(f"record of {served.name}", served.recorded(), ask(program, record, served.given))
    expect(f"record of {served.name}, in pieces", served.recorded(), wide.asked_in_pieces(draw, program, record, served.given))
    for asked in ECHOING:
        told = ask(program, with_file(asked, name), served.given)
        if told.out != b"".join(served.echoed):
            raise Wrong(f"{asked}, {served.name}: {console.first_other(served.lines, served.echoed, told.out)}")
        expect(f"{asked}, {served.name}", served.told_with_echo(), told)
    told = wide.asked_in_pieces(draw, program, with_file(ECHOING[0], name), served.given)
    expect(f"echo of {served.name}, in pieces", served.told_with_echo(), told)


def check_beside_console(program, served, name):
    """A recording is what the program's console prints as its session at the end, and an echo leaves its answers as they are."""
    if served.given[-1:] not in (b"", b"\n"):
        served = Served(served.name, served.site, served.given + b"\n")
    told = ask(program, with_file(["console", FILE], name), served.given + b"session\n")
    recorded = ask(program, with_file(["record", FILE], name), served.given)
    if told.out != b"".join(served.answers) + recorded.out or told.status or recorded.status:
        raise Wrong(f"the session of {served.name}\n  recorded {recorded!r}\n  told     {told!r}")
    with file_of(recorded.out) as file:
        same = b"same %d\n" % len(served.plain.log)
        expect(f"check of the recording of {served.name}", Told(0, same, b""), ask(program, ["check", file]))


def with_lines_between(draw, lines):
    """These lines with others among them."""
    lines = [line.encode() for line in lines]
    for _ in range(draw.choice([3, 10])):
        lines.insert(draw.randrange(len(lines) + 1), draw.choice(BETWEEN))
    return b"\n".join(lines) + draw.choice([b"\n", b"", b"\r\n", b"\r"])


def drawn(times):
    """Streams of each kind with other lines among theirs, and batches of lines of which about half are changed."""
    for kind, count in COUNTS.items():
        for number in range(count * times):
            draw = random.Random(f"{SEED} {kind} {number}")
            site, *lines = getattr(streams, kind)(draw)
            yield draw, Served(f"{kind} {number}", site, with_lines_between(draw, lines))
    for number in range(6 * times):
        draw = random.Random(f"{SEED} lines {number}")
        pair = draw.choice(changes.PAIRS)
        lines = [changes.command(draw, pair).encode() for _ in range(LINES_AT_ONCE)]
        lines = [changes.made_other(draw, line) if draw.random() < 0.5 else line for line in lines]
        yield draw, Served(f"lines {number}", console.FIRST_SITE, b"\n".join(changes.opening(*pair) + lines))


def served_rows():
    """The worked rows, each with the scenario's file if it names one."""
    return [(Served(row.name, row.site, row.asked), row.words[1] if row.words[1:] else None) for row in rows.all_rows()]


def row_named(name):
    return next((served, file) for served, file in served_rows() if served.name == name)


# Ends.


def read_piece(child, pipe, wanted, what):
    """Waits until so many bytes came out of a child, and compares them."""
    got = b""
    while len(got) < len(wanted):
        piece = os.read(pipe.fileno(), 65536)
        if not piece:
            raise Wrong(f"{what}: {got!r} came, and then no more")
        got += piece
    if got != wanted:
        raise Wrong(f"{what}: {got!r} came, and not {wanted!r}")


def check_person(program, served, name):
    """Each line is asked when what is told of the one before it is there. Of a recording no session is told before the end."""
    asked = served.given.splitlines(keepends=True)
    for words_asked, is_recorded in ((["record", FILE], True), (ECHOING[0], False)):
        child = subprocess.Popen([program, *with_file(words_asked, name)], stdin=subprocess.PIPE, stdout=subprocess.PIPE,
                                 stderr=subprocess.PIPE, bufsize=0)
        try:
            for line, answer, echoed in zip(asked, served.answers, served.echoed, strict=True):
                child.stdin.write(line)
                what = f"{words_asked}, {served.name}, {line!r}"
                if not is_recorded:
                    read_piece(child, child.stdout, echoed, what)
                elif answer.startswith(b"? "):
                    read_piece(child, child.stderr, answer, what)
            if select.select([child.stdout, child.stderr], [], [], 0)[0]:
                raise Wrong(f"{words_asked}, {served.name}: more is told before the end")
            child.stdin.close()
            rest = child.stdout.read(), child.stderr.read(), child.wait()
            expect(f"the end of {words_asked}, {served.name}", Told(0, served.session if is_recorded else b"", b""),
                   Told(rest[2], rest[0], rest[1]))
        finally:
            child.kill()


def check_cut(program, served, name, step):
    """The input ends after so many bytes: what was asked by then is recorded and echoed, a last line without its feed too."""
    for end in range(0, len(served.given) + 1, step):
        cut = Served(f"{served.name}, cut at {end}", served.site, served.given[:end])
        expect(f"record of {cut.name}", cut.recorded(), ask(program, with_file(["record", FILE], name), cut.given))
        expect(f"echo of {cut.name}", cut.told_with_echo(), ask(program, with_file(ECHOING[1], name), cut.given))


def check_outputs(program, served, name, step):
    """Disks of each size, and a full one. No line is told on standard error here."""
    if served.questions:
        raise Wrong(f"{served.name} has lines that are no command")
    for asked, right in ((["record", FILE], served.session), (ECHOING[0], b"".join(served.echoed))):
        asked = with_file(asked, name)
        ends.check_small_disk(program, asked, served.given, right, range(0, len(right) + 2, step))
        ends.check_full(program, asked, served.given)


def check_questions_that_are_lost(program):
    """Where the lines that are no command cannot be told, that is a fault of writing, and nothing of the session is told."""
    with open("/dev/full", "wb") as full:
        for given, status, out in ((b"sum\nnothing\nsum\n", 1, b""), (b"sum\n", 0, Served("", console.FIRST_SITE, b"sum\n").session)):
            done = subprocess.run([program, "record"], input=given, stdout=subprocess.PIPE, stderr=full, check=False)
            expect(f"record of {given!r}, with a full standard error", Told(status, out, b""), Told(done.returncode, done.stdout, b""))


def check_closed(program):
    """Standard streams that are closed when the program begins, and such that cannot be read."""
    one = Served("sum", console.FIRST_SITE, b"sum\n")
    for asked, right in ((["record"], one.session), (["console", "--echo"], b"".join(one.echoed))):
        expect(f"{asked} with no output", WRITE_FAULT, closed(program, asked, ">&-", one.given))
        expect(f"{asked} with nowhere to tell faults", Told(0, right, b""), closed(program, asked, "2>&-", one.given))
        with ExitStack() as stack:
            folder = os.open("/", os.O_RDONLY)
            stack.callback(os.close, folder)
            done = subprocess.run([program, *asked], stdin=folder, capture_output=True, check=False)
            expect(f"{asked}, of a folder", READ_FAULT, Told(done.returncode, done.stdout, done.stderr))


# Calls that fail, and memory that is refused.


class Recording(Case):
    """A recording: what is told of it if it ends early is a whole front of its lines that are no command."""

    def __init__(self, served, name):
        super().__init__(f"record of {served.name}", with_file(["record", FILE], name), served.given, served.session, {0}, 0,
                         b"".join(served.questions))
        self.told_early = fronts(served.questions)

    def is_early(self, told, status, err):
        return (told.status, told.out) == (status, b"") and told.err in [front + err for front in self.told_early]

    def is_cut(self, told):
        return self.right.startswith(told.out) and (told.status, told.err) == (1, self.err + WRITE_FAULT.err)


def echo_case(served, name):
    lengths = {len(front) for front in fronts(served.echoed)}
    return Case(f"echo of {served.name}", with_file(ECHOING[0], name), served.given, b"".join(served.echoed), lengths)


def sweep_recording(faults, program, case):
    """Each read of the input and each write of the session fails in turn, and each growth of memory; returns how many."""
    moved, _ = faults.ask(program, case.words, case.given, ONE_BYTE=1)
    expect(f"{case.name}, one byte at a time", Told(0, case.right, case.err), moved)
    tries = sweep(faults, program, case, "FAIL_READ", lambda told: case.is_early(told, 1, READ_FAULT.err))
    for name in ("STOP_READ", "STOP_WRITE"):
        tries += sweep(faults, program, case, name, case.is_right)
    for name in ("FAIL_WRITE", "TAKE_NONE"):
        tries += sweep(faults, program, case, name, case.is_cut)
    tries += sweep(faults, program, case, "REFUSE", lambda told: case.is_right(told) or case.is_early(told, 3, WANTS))
    return len(tries)


def sweep_echo(faults, program, case):
    tries = sweep(faults, program, case, "REFUSE", lambda told: case.is_right(told) or case.is_whole_front(told, 3, WANTS))
    return ends.check_calls(faults, program, case) + len(tries)


def check_moved_bytes(faults, program, served, name, step):
    """Each read of a byte and each write of one fails in turn; returns how many."""
    recording, echoing, count = Recording(served, name), echo_case(served, name), 0
    for number in range(1, len(served.given) + 2, step):
        read = Served("", served.site, served.given[:served.given.rfind(b"\n", 0, number - 1) + 1])
        for case, wanted in ((recording, Told(1, b"", b"".join(read.questions) + READ_FAULT.err)),
                             (echoing, Told(1, b"".join(read.echoed), READ_FAULT.err))):
            told, was_met = faults.ask(program, case.words, case.given, ONE_BYTE=1, FAIL_READ=number)
            expect(f"{case.name}, with the read of byte {number} failed: {was_met}", wanted, told)
            count += 1
    for case in (recording, echoing):
        for number in range(1, len(case.right) + 1, step):
            told, was_met = faults.ask(program, case.words, case.given, ONE_BYTE=1, FAIL_WRITE=number)
            expect(f"{case.name}, with the write of byte {number} failed: {was_met}",
                   Told(1, case.right[:number - 1], case.err + WRITE_FAULT.err), told)
            count += 1
    return count


def check_faults(program, is_long):
    """What is told of calls that fail, where the library that makes them fail can be built."""
    if not preloaded.can_be_built():
        return preloaded.NOT_TRIED
    tried = [(served, name) for served, name in served_rows()
             if is_long or served.name in ("lines.row", "order.row", "pageout.row", "whatif.row", "sharing.row", "telling.row")]
    count = 0
    with preloaded.built() as faults:
        for served, name in tried:
            count += sweep_recording(faults, program, Recording(served, name)) + sweep_echo(faults, program, echo_case(served, name))
        served, name = row_named("telling.row")
        count += check_moved_bytes(faults, program, served, name, 1 if is_long else 3)
        with file_of(words.SCENARIO) as scenario:
            case = Recording(Served("nothing", [9, 32, 3, 75, 6, 4, 2, 1, 2**24], b""), scenario)
            count += ends.check_file(faults, program, case, True)
            tries = sweep(faults, program, case, "REFUSE", lambda told: case.is_right(told) or case.is_early(told, 3, WANTS))
            count += len(tries)
    return f"{count} calls failed or were refused memory in turn"


def check(program, is_long):
    served_all = served_rows()
    for served, name in served_all:
        draw = random.Random(f"{SEED} {served.name}")
        check_served(program, draw, served, name)
        check_beside_console(program, served, name)
        check_person(program, served, name)
        crlf = Served(f"{served.name}, with carriage returns", served.site, served.given.replace(b"\n", b"\r\n"))
        check_served(program, draw, crlf, name)
    count = 0
    for draw, served in drawn(10 if is_long else 1):
        with file_of(console.scenario_of(served.site)) as name:
            check_served(program, draw, served, name)
            check_beside_console(program, served, name)
        count += len(served.lines)
    for name in ("telling.row", "sharing.row"):
        check_cut(program, *row_named(name), 1 if is_long else 7)
    check_outputs(program, *row_named("sharing.row"), 1 if is_long else 11)
    check_questions_that_are_lost(program)
    check_closed(program)
    return (f"{len(served_all)} rows and {count} drawn lines are recorded as a console's session and echoed before its answers; "
            f"{check_faults(program, is_long)}")
