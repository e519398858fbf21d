"""Drawn streams (streams.py) are answered byte for byte as the plain console answers them (console.py).

Then, of each: the session that it tells is the plain console's, `check` says that it is the same, `migrate` prints it as it
is, and `replay` prints the same replies and the table; the sums add up to all frames; and cut in other places the stream is
answered alike.
"""

import itertools
import random
import re
import subprocess
import tempfile
import threading
from concurrent.futures import ProcessPoolExecutor

import console
import reader
import streams
from console import Console
from program import Told, Wrong, ask, expect, file_of

SEED = 20021212
PARTS = 4
COUNTS = {"contents": 120, "shorts": 60, "leaving": 24, "paging": 12, "replacing": 16, "samples": 40, "targets": 40, "prunes": 40,
          "digits": 6, "mixed": 80}
SUM = re.compile(rb"overhead (\d+) private (\d+) shared (\d+) free (\d+) (?:high|soft|hard|low)\n")


def asked_in_pieces(draw, program, asked, given):
    """What is told where the input comes in pieces of any length."""
    ends = sorted(draw.randrange(len(given) + 1) for _ in range(8))
    with tempfile.TemporaryFile() as out, tempfile.TemporaryFile() as err:
        child = subprocess.Popen([program, *asked], stdin=subprocess.PIPE, stdout=out, stderr=err, bufsize=0)
        timer = threading.Timer(120, child.kill)
        timer.start()
        try:
            for start, end in zip([0, *ends], [*ends, len(given)]):
                child.stdin.write(given[start:end])
            child.stdin.close()
            status = child.wait()
        finally:
            timer.cancel()
            child.kill()
        out.seek(0)
        err.seek(0)
        return Told(status, out.read(), err.read())


def asked_of(site, lines):
    """The stream with its table, all undone, all redone, the table again and the session; and what is answered."""
    plain = Console(site)
    asked, wanted = console.bytes_of([*lines, "table"]), console.answers(plain, console.bytes_of([*lines, "table"]))
    more = console.bytes_of([f"undo {plain.depth}", "sum", f"redo {plain.depth}", "order", "table", "session"])
    ends = console.answers(plain, more)
    if ends[-2] != wanted[-1]:
        raise Wrong("the plain console does not come back to its table")
    return asked + more, wanted + ends


def try_stream(draw, program, name, site, lines):
    """Compares all that is told of a stream; returns how many lines it has."""
    given, wanted = asked_of(site, lines)
    with file_of(console.scenario_of(site)) as scenario:
        told = ask(program, ["console", scenario], given)
        if told.out != b"".join(wanted):
            raise Wrong(f"{name} at {site}: {console.first_other(reader.lines_of(given), wanted, told.out)}")
        expect(f"{name} at {site}", Told(0, told.out, b""), told)
        expect(f"{name} at {site}, in pieces", told, asked_in_pieces(draw, program, ["console", scenario], given))
    for numbers in SUM.findall(told.out):
        if sum(map(int, numbers)) != site[0]:
            raise Wrong(f"{name}: {numbers} are not {site[0]} frames")
    try_session(program, name, reader.session_of(wanted[-1]), wanted[-1])
    return len(wanted)


def try_session(program, name, session, text):
    """Checks, replays and migrates a session that was printed."""
    with file_of(text) as file:
        expect(f"{name}, check", Told(0, b"same %d\n" % len(session.calls), b""), ask(program, ["check", file]))
        expect(f"{name}, replay", Told(0, console.told_of_replay(session), b""), ask(program, ["replay", file]))
        expect(f"{name}, migration", Told(0, text, b""), ask(program, ["migrate", file]))


def drawn(seed, times):
    """Each stream, with a name that tells how to draw it again."""
    for kind, count in COUNTS.items():
        for number in range(count * times):
            name = f"{kind} {number}"
            draw = random.Random(f"{seed} {name}")
            yield draw, name, getattr(streams, kind)(draw)
    for page in range(16, 4097, 16):
        draw = random.Random(f"{seed} {page}")
        yield draw, f"pages of {page} bytes", streams.each_size(draw, page)
    draw = random.Random(seed)
    yield draw, "many contents", streams.many_contents(draw, 17000)
    yield draw, "long prunes", streams.long_prunes(draw, 1500)
    yield draw, "much in use", streams.much_in_use(draw)
    yield draw, "verbs", streams.verbs(draw, reader.EVENTS, {**reader.OTHERS, **reader.CONSOLE_WORDS})


def try_all(program, is_long, part):
    """The lines of each stream of a part of them."""
    counts = []
    for draw, name, stream in itertools.islice(drawn(SEED, 10 if is_long else 1), part, None, PARTS):
        site, *lines = stream
        counts.append(try_stream(draw, program, name, site, lines))
    return counts


def check(program, is_long):
    with ProcessPoolExecutor(PARTS) as pool:
        parts = [pool.submit(try_all, program, is_long, part) for part in range(PARTS)]
        counts = [count for part in parts for count in part.result()]
    return f"{len(counts)} streams of {sum(counts)} lines are answered as the plain console answers them"
