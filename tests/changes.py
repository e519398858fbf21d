"""Random changes of command lines, sessions, scenarios and the program's words, from a fixed seed.

Each is answered as a plain reader of their definitions (reader.py) and a plain console (console.py) answer. Sessions and
scenarios are changed until they differ from what they were.
"""

import random
import re
import tempfile

import console
import reader
import story
import words
from console import Console
from program import Told, Wrong, ask, expect, file_of

SEED = 20021209
COUNTS = {"lines": 6000, "sessions": 2000, "scenarios": 1700, "words": 400}
LINES_AT_ONCE = 200
EDGES = ["0", "1", "2", "3", "00", "01", "31", "32", "63", "64", "99", "100", "255", "256", "511", "512", "4096", "65536",
         "65537", "1048576", "1048577", "4294967295", "4294967296", "18446744073709551615", "18446744073709551616", "9" * 40,
         "-1", "+1", "1.0", "1e3", "0x1", "1_0", "", "x", "true", '"1"', "9223372036854775807", "9223372036854775808"]
PIECES = [b" ", b"  ", b"\n", b"\n\n", b"\r\n", b"\r", b"\t", b"#", b"= ", b"=", b"0", b"9", b"-", b".", b"[", b"]", b'"',
          b"'", b";", b"; ", b",", b"\0", b"\x7f", b"\xff", "é".encode(), b"a", b"Z", b"_", b"end 1", b"end", b"esx session 1",
          b"esx session 2", b"session", b"[[vm]]\n", b"[run]\n", b"id = 1\n", b"tau = 3\n", b"x.y = 1\n", b"version = 1\n"]
PAIRS = [(0, 1), (0, 200), (31, 32), (254, 255)]  # the two machines that are opened


def number(draw, most):
    return draw.choice(EDGES) if draw.random() < 0.03 else str(draw.randrange(most))


def machine(draw, pair):
    return draw.choice(EDGES) if draw.random() < 0.03 else str(draw.choice(pair))


def event(draw, pair):
    """An event, mostly of one of two machines and with pages 0 to 6."""
    word = draw.choice(list(reader.EVENTS))
    vm, page = machine(draw, pair), number(draw, 7)
    if word == "admit":
        least = draw.choice([1, 1, 2, 3])
        own_tax = draw.choice(["", "", f" {number(draw, 102)}"])
        return (f"admit {vm} {least} {least + draw.choice([0, 2, 4])} {number(draw, 4)} {number(draw, 2000)} {number(draw, 3)}"
                f"{own_tax}")
    if word == "vmtax":
        return f"vmtax {vm} {number(draw, 102)}"
    if word == "read":
        return f"read {vm} {page} {number(draw, 16)} {number(draw, 18)}"
    if word == "write":
        byte = draw.choice(["00", "2a", "ff", "a"])
        return f"write {vm} {page} {number(draw, 16)} {byte * draw.choice([1, 1, 2, 4])}"
    if word == "sample":
        drawn = draw.choice([0, 1, 2, 5, 100, 101, 200, 201])
        return " ".join(["sample", vm, number(draw, 4)] + [number(draw, 50) for _ in range(drawn)])
    return " ".join([word] + [vm if kind == reader.VM else page for kind in reader.EVENTS[word]])


def command(draw, pair=PAIRS[0]):
    word = draw.choice(["event"] * 12 + list(reader.OTHERS) + ["whatif", *reader.CONSOLE_WORDS, "#", ""])
    if word == "event":
        return event(draw, pair)
    if word == "whatif":
        return "whatif " + "; ".join(event(draw, pair) for _ in range(draw.choice([1, 2, 3, 64, 65])))
    fields = {"name": draw.choice(["base", "a-1", "x_9", "z" * 32, "z" * 33, "Top"]), reader.VM: machine(draw, pair),
              reader.NUMBER: number(draw, 6)}
    kinds = {**reader.OTHERS, **reader.CONSOLE_WORDS}.get(word, [])
    return " ".join([word] + [fields[kind] for kind in kinds])


def changed(draw, data):
    """Some bytes with one change in them."""
    way = draw.randrange(6)
    at = draw.randrange(len(data) + 1)
    if way == 0:
        return data[:at] + draw.choice(PIECES) + data[at:]
    if way == 1:
        return data[:at] + data[at + draw.choice([1, 1, 1, 2, 5]):]
    if way == 2:
        return data[:at] + bytes([draw.randrange(256)]) + data[at + 1:]
    if way == 3:
        found = list(re.finditer(rb"[0-9]+", data))
        if found:
            one = draw.choice(found)
            return data[:one.start()] + draw.choice(EDGES).encode() + data[one.end():]
        return data
    lines = data.split(b"\n")
    one, other = draw.randrange(len(lines)), draw.randrange(len(lines))
    if way == 4:
        lines.insert(one, lines[other])
    else:
        del lines[one]
    return b"\n".join(lines)


def changes(draw, data, most):
    for _ in range(draw.randint(0, most)):
        data = changed(draw, data)
    return data


def made_other(draw, data):
    """These bytes with one to three changes, so that they are other bytes."""
    other = data
    while other == data:
        other = changes(draw, changed(draw, data), draw.choice([0, 0, 2]))
    return other


def opening(one, other):
    return [b"admit %d 2 6 1 1000 2" % one, b"start %d" % one, b"admit %d 1 3 1 500 0" % other, b"start %d" % other]


def told_calls(calls):
    lines = [f"{caller} {text}\n" + "".join(f"= {reply}\n" for reply in replies) for caller, text, replies in calls]
    return "".join(lines + [f"end {len(calls)}\n"]).encode()


def check_lines(program, draw, count):
    """Batches of lines, each with `session` at its end; gives the sessions, which are checked too."""
    for _ in range(0, count, LINES_AT_ONCE):
        pair = draw.choice(PAIRS)
        drawn = [command(draw, pair).encode() for _ in range(LINES_AT_ONCE)]
        pieces = [made_other(draw, line) if draw.random() < 0.5 else line for line in drawn]
        asked = b"\n".join(opening(*pair) + pieces + [b"session"]) + b"\n"
        wanted = console.answers(Console(console.FIRST_SITE), asked)
        told = ask(program, [], asked)
        if told != Told(0, b"".join(wanted), b""):
            raise Wrong(f"lines: {console.first_other(reader.lines_of(asked), wanted, told.out)}\n  {told!r}")
        session = reader.session_of(wanted[-1])
        with file_of(wanted[-1]) as name:
            expect("check of its session", Told(0, b"same %d\n" % len(session.calls), b""), ask(program, ["check", name]))
        yield session


def short_sessions(draw, sessions):
    """Sessions of the first few calls of those that were told, and the same as texts of version 1, which some of them are."""
    told = [words.EMPTY[:-len(b"end 0\n")] + told_calls(session.calls[:draw.randint(4, 20)]) for session in sessions]
    return ([words.SESSION, words.OLD_SESSION, words.EMPTY] + told
            + [text.replace(b"session 2", b"session 1", 1) for text in told])


def check_sessions(program, draw, count, sessions):
    """How many of the changed ones were sessions, and how many of these are the same still."""
    bases, good, same = short_sessions(draw, sessions), 0, 0
    for _ in range(count):
        text = made_other(draw, draw.choice(bases))
        refused = reader.told_of_session(text)
        if refused is None:
            session = reader.session_of(text)
            out, status = console.told_of_check(session)
            wanted, replayed = Told(status, out, b""), Told(0, console.told_of_replay(session), b"")
            reported = Told(1, b"", out) if status else Told(0, story.told_of_question(session, "report", [], {}), b"")
            compared = Told(status, console.told_of_diff(session)[0], b"")
            migrated = Told(status, console.told_of_migration(session)[0], b"")
            good, same = good + 1, same + (status == 0)
        else:
            wanted = compared = replayed = migrated = reported = Told(1, b"", refused.encode() + b"\n")
        with file_of(text) as name:
            expect(f"check of {text!r}", wanted, ask(program, ["check", name]))
            expect(f"diff of {text!r}", compared, ask(program, ["diff", name]))
            expect(f"replay of {text!r}", replayed, ask(program, ["replay", name]))
            expect(f"migration of {text!r}", migrated, ask(program, ["migrate", name]))
            expect(f"report of {text!r}", reported, ask(program, ["report", name]))
    return good, same


def check_scenarios(program, draw, count):
    """How many of the changed ones were scenarios."""
    two = words.SCENARIO + words.SCENARIO[words.SCENARIO.index(b"[[vm]]"):].replace(b"id = 200", b"id = 0")
    bases, good = [words.SCENARIO, words.OLD_SCENARIO, two, console.scenario_of([20, 16, 8, 75, 6, 4, 2, 1, 5])], 0
    for _ in range(count):
        text = made_other(draw, draw.choice(bases))
        wanted, frames = reader.told_of_scenario(text)
        with file_of(text) as name:
            told = ask(program, ["console", name], b"sum\n")
        if wanted is None:
            out = b"overhead 0 private 0 shared 0 free %d high\n" % frames
            expect(f"console at {text!r}", Told(0, out, b""), told)
            good += 1
        else:
            expect(f"console at {text!r}", Told(1, b"", wanted.encode() + b"\n"), told)
    return good


def asked_of_session(draw, name):
    """Words that ask about a session, some of which are wrong."""
    drawn = [draw.choice([name, name, f"{name}.none"]), *draw.choice([[], ["0"], ["200", "7"], [draw.choice(EDGES)]])]
    for _ in range(draw.choice([0, 1, 1, 2])):
        value = draw.choice([*reader.TABLES, "frames", "base", "Top", "0", draw.choice(EDGES)])
        at = draw.randrange(len(drawn) + 1)
        drawn[at:at] = draw.choice([["--at", value], ["--at", value], ["--csv", value], ["--csv"], ["--to", value]])
    return [draw.choice(["report", "why"]), *drawn]


def check_words(program, draw, count):
    """The program's words, with a file that is no scenario and no session, and one that is not there."""
    with file_of(b"\n") as name, tempfile.TemporaryDirectory() as nowhere:
        for _ in range(count):
            drawn = [draw.choice(["console", "console", "record", "run", "check", "diff", "replay", "migrate", "report", "why", "help",
                                  name, name, f"{name}.none", "", "Run", "sum", "0", reader.ECHO, reader.ECHO])
                     for _ in range(draw.choice([0, 1, 1, 2, 2, 2, 3]))]
            if draw.random() < 0.4:
                drawn = asked_of_session(draw, name)
            found = reader.file_of_words(drawn)
            if found is None:
                wanted = Told(2, b"", b"wrong words\n")
            elif found == ("console", None):
                wanted = Told(0, b"> where\n" * (reader.ECHO in drawn) + b"at 0 depth 0 jumps 0\n", b"")
            elif found == ("record", None):
                wanted = Told(0, words.changed(words.EMPTY, b"end 0", b"0 where\n= at 0 depth 0 jumps 0\nend 1"), b"")
            elif found == ("help", None):
                told = ask(program, drawn, b"where\n", cwd=nowhere)
                expect(f"words {drawn}", (0, b"", True), (told.status, told.err, told.out.startswith(b"console ")))
                continue
            elif found[1] != name:
                wanted = Told(1, b"", b"read fault\n")
            else:
                is_scenario = found[0] in ("console", "record", "run")
                wanted = Told(1, b"", b"bad key version\n" if is_scenario else b"bad line 1\n")
            expect(f"words {drawn}", wanted, ask(program, drawn, b"where\n", cwd=nowhere))


def check(program, is_long):
    draw = random.Random(SEED)
    counts = {name: count * (10 if is_long else 1) for name, count in COUNTS.items()}
    sessions = list(check_lines(program, draw, counts["lines"]))
    calls = sum(len(session.calls) for session in sessions)
    good_sessions, same = check_sessions(program, draw, counts["sessions"], sessions)
    good_scenarios = check_scenarios(program, draw, counts["scenarios"])
    check_words(program, draw, counts["words"])
    if not (good_sessions > same and same and good_scenarios):
        raise Wrong("no changed session or scenario was one still")
    return (f"{counts['lines']} lines ({calls} calls with those that open sites), {counts['sessions']} sessions "
            f"({good_sessions} good, {same} the same still), {counts['scenarios']} scenarios ({good_scenarios} good), "
            f"{counts['words']} times words")
