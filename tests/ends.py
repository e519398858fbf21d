"""Ends that fail: closed pipes, full disks, input that comes in pieces, and standard streams that are closed.

What is written to an end that fails are whole answers but for the last, and the program tells `write fault` and ends with
status 1. An input or a FILE that cannot be read is told as `read fault`, after the answers to the lines that were read
whole. A call that is interrupted is made again.
"""

import os
import resource
import signal
import subprocess
import tempfile
from contextlib import ExitStack

import console
import preloaded
import reader
import reports
import rows
import words
from console import Console
from preloaded import Case, sweep
from program import Told, Wrong, ask, expect, file_of

WRITE_FAULT = Told(1, b"", b"write fault\n")
READ_FAULT = Told(1, b"", b"read fault\n")


def chosen(is_long):
    """The rows that are tried at each byte."""
    return [row for row in rows.all_rows() if is_long or row.name == "sharing.row"]


def check_calls(faults, program, case):
    """A read or a write fails or is interrupted, or a write takes nothing, at each place; returns how many there were."""
    moved, _ = faults.ask(program, case.words, case.given, ONE_BYTE=1)
    expect(f"{case.name}, one byte at a time", Told(0, case.right, b""), moved)
    tries = sweep(faults, program, case, "FAIL_READ", lambda told: case.is_whole_front(told, 1, READ_FAULT.err))
    for name in ("STOP_READ", "STOP_WRITE"):
        tries += sweep(faults, program, case, name, case.is_right)
    for name in ("FAIL_WRITE", "TAKE_NONE"):
        tries += sweep(faults, program, case, name, lambda told: case.is_front(told, 1, WRITE_FAULT.err))
    return len(tries)


def check_moved_bytes(faults, program, row):
    """The same where each call moves one byte."""
    for number in range(1, len(row.asked) + 2):
        told, was_met = faults.ask(program, row.words, row.asked, ONE_BYTE=1, FAIL_READ=number)
        at = row.asked.rfind(b"\n", 0, number - 1) + 1
        front = b"".join(row.answers[:row.asked.count(b"\n", 0, at)])
        if not was_met or told != Told(1, front, READ_FAULT.err):
            raise Wrong(f"{row.name}, with the read of byte {number} failed: {told!r}")
    for number in range(1, len(row.answered) + 1):
        for name in ("FAIL_WRITE", "TAKE_NONE"):
            told, was_met = faults.ask(program, row.words, row.asked, **{"ONE_BYTE": 1, name: number})
            if not was_met or told != Told(1, row.answered[:number - 1], WRITE_FAULT.err):
                raise Wrong(f"{row.name}, with {name}={number}, byte by byte: {told!r}")


def check_file(faults, program, case, is_byte_by_byte):
    """Each read of FILE fails, or is interrupted; returns how many there were."""
    tries = sweep(faults, program, case, "FAIL_FILE", lambda told: told == READ_FAULT)
    tries += sweep(faults, program, case, "STOP_READ", case.is_right)
    if is_byte_by_byte:
        with open(case.words[1], "rb") as file:
            size = len(file.read())
        for number in range(1, size + 2):
            told, was_met = faults.ask(program, case.words, case.given, ONE_BYTE=1, FAIL_FILE=number)
            if not was_met or told != READ_FAULT:
                raise Wrong(f"{case.name}, with the read of byte {number} of FILE failed: {told!r}")
        tries += range(size + 1)
    return len(tries)


def is_front_of_session(text):
    """Whether a text is how a session with the plain console's replies begins."""
    lines = text.split(b"\n")
    plain = Console(reader.site_of(words.RUN_SITE))
    for line in lines[2:-1]:
        caller, _, call = line.decode().partition(" ")
        if caller not in ("=", "end"):
            plain.call(call, int(caller))
    whole = console.bytes_of(plain.session())
    before_end = whole[:whole.rindex(b"end ")]
    return before_end.startswith(text) or text.startswith(before_end) and b"\n" not in text[len(before_end):]


def report_of(name):
    """What the plain report tells of the written session in a file."""
    return reports.told(reader.session_of(words.SESSION), ["report", name]).out


def check_run_calls(faults, program, scenario, step):
    """The reads of a run's FILE fail, or its writes do, byte by byte; returns how many calls failed."""
    for name, number, more in [("FAIL_FILE", 1, {}), ("FAIL_FILE", 2, {}), ("FAIL_FILE", 100, {"ONE_BYTE": 1})]:
        told, _ = faults.ask(program, ["run", scenario], b"", **{name: number, **more})
        expect(f"run, with {name}={number}", READ_FAULT, told)
    count = 3
    for name in ("FAIL_WRITE", "TAKE_NONE"):
        for number in range(1, 4000, step):
            told, was_met = faults.ask(program, ["run", scenario], b"", **{name: number, "ONE_BYTE": 1})
            is_good = (told.status, told.err, len(told.out)) == (1, words.ENDS + WRITE_FAULT.err, number - 1)
            if not was_met or not is_good or not is_front_of_session(told.out):
                raise Wrong(f"run, with {name}={number}, byte by byte: {told!r}")
            count += 1
    return count


def check_person(program, row):
    """Each line is asked when the answer to the one before it is there."""
    child = subprocess.Popen([program, *row.words], stdin=subprocess.PIPE, stdout=subprocess.PIPE, bufsize=0)
    try:
        for line, answer in zip(row.lines, row.answers):
            child.stdin.write(line)
            got = b""
            while len(got) < len(answer):
                piece = os.read(child.stdout.fileno(), 65536)
                if not piece:
                    raise Wrong(f"{row.name}: {line!r} was answered {got!r}, and then no more")
                got += piece
            if got != answer:
                raise Wrong(f"{row.name}: {line!r} was answered {got!r}, and not {answer!r}")
        child.stdin.close()
        if child.stdout.read() or child.wait() != 0:
            raise Wrong(f"{row.name}: another end")
    finally:
        child.kill()


def check_cut(program, row, step):
    """The input ends after so many bytes: what was asked by then is answered, a last line without its feed too."""
    front, at = b"", 0
    for line, answer in zip(row.lines, row.answers):
        for end in range(0, len(line) - 1, step):
            told = ask(program, row.words, row.asked[:at + end])
            if told.status or told.err or not told.out.startswith(front):
                raise Wrong(f"{row.name}, cut at {at + end}: {told!r}")
        at, front = at + len(line), front + answer
        expect(f"{row.name}, without the feed of line at {at}", Told(0, front, b""), ask(program, row.words, row.asked[:at - 1]))


def limit_files(size):
    """Files get no longer than this; a write past it fails, and ends no process."""
    signal.signal(signal.SIGXFSZ, signal.SIG_IGN)
    resource.setrlimit(resource.RLIMIT_FSIZE, (size, size))


def check_small_disk(program, asked, given, right, rooms, status=0):
    """A disk takes so many bytes, and then no more."""
    for room in rooms:
        with tempfile.TemporaryFile() as disk:
            done = subprocess.run([program, *asked], input=given, stdout=disk, stderr=subprocess.PIPE, check=False,
                                  preexec_fn=lambda size=room: limit_files(size))
            disk.seek(0)
            wanted = Told(status, right, b"") if room >= len(right) else Told(1, right[:room], b"write fault\n")
            expect(f"{asked} onto a disk of {room} bytes", wanted, Told(done.returncode, disk.read(), done.stderr))


def check_full(program, asked, given):
    """The full device takes nothing."""
    with open("/dev/full", "wb") as full:
        done = subprocess.run([program, *asked], input=given, stdout=full, stderr=subprocess.PIPE, check=False)
    expect(f"{asked} onto a full device", WRITE_FAULT, Told(done.returncode, b"", done.stderr))


def check_nobody_reads(program, row):
    """Whoever reads the answers goes away after so many bytes."""
    for size in (0, 1, 20):
        child = subprocess.Popen([program, *row.words], stdin=subprocess.PIPE, stdout=subprocess.PIPE,
                                 stderr=subprocess.PIPE, bufsize=0)
        try:
            child.stdin.write(row.asked)
            got = b""
            while len(got) < size:
                got += os.read(child.stdout.fileno(), size - len(got))
            child.stdout.close()
            try:
                child.stdin.write(row.asked)
                child.stdin.close()
            except BrokenPipeError:
                pass
            told = Told(child.wait(), got, child.stderr.read())
            expect(f"{row.name}, to a reader of {size} bytes", Told(1, row.answered[:size], b"write fault\n"), told)
        finally:
            child.kill()


def check_no_input(program):
    """What is no input: a folder, and a file that is open for writing alone."""
    with ExitStack() as stack, file_of(b"") as name:
        folder = os.open("/", os.O_RDONLY)
        stack.callback(os.close, folder)
        done = subprocess.run([program], stdin=folder, capture_output=True, check=False)
        expect("a folder as input", READ_FAULT, Told(done.returncode, done.stdout, done.stderr))
        with open(name, "wb") as file:
            done = subprocess.run([program], stdin=file, capture_output=True, check=False)
        expect("a file that cannot be read as input", READ_FAULT, Told(done.returncode, done.stdout, done.stderr))


def closed(program, asked, shell, given=b""):
    done = subprocess.run(["sh", "-c", f'exec "$@" {shell}', "sh", program, *asked], input=given, capture_output=True,
                          check=False)
    return Told(done.returncode, done.stdout, done.stderr)


def check_closed(program, session):
    """Standard streams that are closed when the program begins."""
    for asked in ([], ["check", session], ["diff", session], ["replay", session], ["migrate", session], ["report", session],
                  ["why", session, "200"], ["help"]):
        expect(f"{asked} with no output", WRITE_FAULT, closed(program, asked, ">&-", b"sum\n"))
        told = closed(program, asked, "2>&-", b"sum\n")
        expect(f"{asked} with nowhere to tell faults", ask(program, asked, b"sum\n"), told)
    expect("no input", READ_FAULT, closed(program, [], "<&-"))
    expect("wrong words with nowhere to tell it", Told(2, b"", b""), closed(program, ["serve"], "2>&-"))
    expect("check with no input", Told(0, b"same 3\n", b""), closed(program, ["check", session], "<&-"))


def check_run_ends(program, scenario):
    """A run onto a small disk, a full device and closed streams."""
    told = Told(1, b"", words.ENDS + WRITE_FAULT.err)
    with open("/dev/full", "wb") as full:
        done = subprocess.run([program, "run", scenario], stdout=full, stderr=subprocess.PIPE, check=False)
        expect("run onto a full device", told, Told(done.returncode, b"", done.stderr))
        done = subprocess.run([program, "run", scenario], stdout=subprocess.PIPE, stderr=full, check=False)
    for name, one in (("a full device", Told(done.returncode, done.stdout, b"")),
                      ("nowhere", closed(program, ["run", scenario], "2>&-")),
                      ("standard error, with no input", closed(program, ["run", scenario], "<&-"))):
        if one.status != 0 or console.told_of_check(reader.session_of(one.out))[1] != 0:
            raise Wrong(f"a run that tells its ends to {name}: {one!r}")
    expect("run with no output", told, closed(program, ["run", scenario], ">&-"))
    for room in (0, 1, 300, 1000):
        with tempfile.TemporaryFile() as disk:
            done = subprocess.run([program, "run", scenario], stdout=disk, stderr=subprocess.PIPE, check=False,
                                  preexec_fn=lambda size=room: limit_files(size))
            disk.seek(0)
            out = disk.read()
        if (done.returncode, done.stderr, len(out)) != (1, told.err, room) or not is_front_of_session(out):
            raise Wrong(f"run onto a disk of {room} bytes: {Told(done.returncode, out, done.stderr)!r}")


def check_failing_calls(program, tried, step):
    """Calls that fail, where the library that makes them fail can be built; returns what is told of it."""
    if not preloaded.can_be_built():
        return preloaded.NOT_TRIED
    with preloaded.built() as faults:
        cases = [Case(row.name, row.words, row.asked, row.answered, row.fronts()) for row in rows.all_rows()]
        count = sum(check_calls(faults, program, case) for case in cases)
        for row in tried:
            check_moved_bytes(faults, program, row)
            count += len(row.asked) + 1 + 2 * len(row.answered)
        with file_of(words.SESSION) as session, file_of(words.SCENARIO) as scenario:
            for case in (Case("check FILE", ["check", session], b"", b"same 3\n", {0}),
                         Case("diff FILE", ["diff", session], b"", b"same 3\n", {0}),
                         Case("replay FILE", ["replay", session], b"", words.REPLAYED, {0}),
                         Case("migrate FILE", ["migrate", session], b"", words.SESSION, {0}),
                         Case("report FILE", ["report", session], b"", report_of(session), {0}),
                         Case("console FILE", ["console", scenario], b"", b"", {0})):
                count += check_file(faults, program, case, case.name == "check FILE" or step == 1)
            count += check_run_calls(faults, program, scenario, 60 * step)
    return f"{count} calls failed in turn"


def check(program, is_long):
    tried = chosen(is_long)
    for row in rows.all_rows():
        check_person(program, row)
    other, difference = words.DIFFERENCES[0]
    with (file_of(words.SESSION) as session, file_of(words.SCENARIO) as scenario, file_of(other) as differs,
          file_of(reports.LIVES) as lives):
        for row in tried:
            check_cut(program, row, 1 if is_long else 5)
            check_nobody_reads(program, row)
            check_small_disk(program, row.words, row.asked, row.answered, range(0, len(row.answered) + 2, 1 if is_long else 7))
            check_full(program, row.words, row.asked)
        check_small_disk(program, ["replay", session], b"", words.REPLAYED, range(len(words.REPLAYED) + 2))
        check_small_disk(program, ["migrate", session], b"", words.SESSION, range(len(words.SESSION) + 2))
        check_small_disk(program, ["check", session], b"", b"same 3\n", range(9))
        check_small_disk(program, ["diff", differs], b"", difference, range(len(difference) + 2), 1)
        for asked, right in ((["report", lives, "--at", "new"], reports.REPORT),
                             (["why", lives, "0", "2", "--at", "8"], reports.WHY),
                             (["report", lives, "--csv", "changes", "--at", "8"], reports.CHANGES),
                             (["report", lives, "--csv", "steps", "--at", "8"], reports.STEPS)):
            check_small_disk(program, asked, b"", right, range(0, len(right) + 2, 1 if is_long else 29))
        check_small_disk(program, ["help"], b"", ask(program, ["help"]).out, range(0, 2500, 99))
        check_full(program, ["replay", session], b"")
        check_full(program, ["migrate", session], b"")
        check_full(program, ["check", session], b"")
        check_full(program, ["diff", differs], b"")
        check_full(program, ["report", session], b"")
        check_full(program, ["why", lives, "0", "--at", "8"], b"")
        check_full(program, ["help"], b"")
        check_no_input(program)
        check_closed(program, session)
        check_run_ends(program, scenario)
    names = ", ".join(row.name for row in tried)
    return f"ends that fail at each byte of {names}; {check_failing_calls(program, tried, 1 if is_long else 5)}"
