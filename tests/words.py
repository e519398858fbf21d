"""The program's words and files: what is told of each that is refused, and the status."""

import os
import re
import tempfile

import console
import reader
from program import HERE, Told, Wrong, ask, expect, file_of

WRONG_WORDS = Told(2, b"", b"wrong words\n")

SESSION = b"""esx session 2
frames 9 page 32 slots 3 tau 10 levels 8 8 3 3 nodes 12
5 admit 200 3 4 2 40 1 60
= ok memory 5/9 swap 1/3
0 start 200
= ok frame 0 overhead 1/2 starting
511 vmtax 200 100
= no 3 BadSpec
end 3
"""
REPLAYED = b"""ok memory 5/9 swap 1/3
ok frame 0 overhead 1/2 starting
no 3 BadSpec
 vm state        min     max  target    here    lent     out  shares  active
200 starting       3       4       4       0       0       0      40   65536
overhead 1 private 0 shared 0 free 8 high
"""
# A text of version 1, with the greatest numbers that it may have.
OLD_SESSION = b"""esx session 1
frames 9 page 32 slots 3 tau 10 levels 8 8 3 3 nodes 12
5 admit 31 3 4 2 40 1
= ok memory 5/9 swap 1/3
0 whatif start 31; stop 31
= whatif 2/2
= before overhead 0 private 0 shared 0 free 9 high
= 1 ok frame 0 overhead 1/2 starting
= 2 ok
= after overhead 1 private 0 shared 0 free 8 high
63 where
= at 1 depth 1 jumps 0
end 3
"""
OLD_REPLAYED = b"""ok memory 5/9 swap 1/3
whatif 2/2
before overhead 0 private 0 shared 0 free 9 high
1 ok frame 0 overhead 1/2 starting
2 ok
after overhead 1 private 0 shared 0 free 8 high
at 1 depth 1 jumps 0
 vm state        min     max  target    here    lent     out  shares  active
 31 starting       3       4       4       0       0       0      40   65536
overhead 0 private 0 shared 0 free 9 high
"""
# Words that ask nothing of a session: `a` is not looked for.
WRONG_QUESTIONS = [words.split(" ") for words in (
    "report", "report --at 0", "report a b", "report a 0", "report a --at", "report a --csv", "report a --csv change",
    "report a --csv Losses", "report a --csv losses,site", "report a --csv step", "report a --csv 0", "report a --csv ",
    "report a --at 0 --at 0", "report a --csv site --csv site", "report --at 0 a --at 1", "report a --at 01", "report a --at 4294967296", "report a --at +1",
    "report a --at 1a", "report a --at Top", "report a --at _a", "report a --at a.b", "report a --at " + "z" * 33, "report a --at ",
    "report a --at --csv site", "report a --csv --at 0", "report a --to 0", "report a -a 0", "report --help", "Report a", "reports a",
    "why", "why a", "why 0", "why a --at 0", "why a 0 1 2", "why a x", "why a 00", "why a 01", "why a +1", "why a 4294967296",
    "why a 0 x", "why a 0 01", "why a 0 4294967296", "why a 0 ", "why a  0", "why a 0 --csv losses", "why a 0 --at",
    "why a 0 --at 0 --at 0", "why a 0 --at 01", "why a 0 --at Top", "why a 0 0 --at 4294967296", "why --help", "Why a 0",
    "check a --at 0", "replay a --csv site", "console --at 0", "console a --at 0", "--at 0 report a", "--csv site report a")]
RUN_SITE = "frames 9 page 32 slots 3 tau 75 levels 6 4 2 1 nodes 16777216"
ENDS = b"guest 200 done\nsharer turns\nswapper turns\npolicy turns\n"
SHORT = b"""esx session 2
frames 20 page 16 slots 8 tau 75 levels 6 4 2 1 nodes 16777216
0 admit 0 2 6 1 1000 0
= ok memory 3/20 swap 4/8
0 start 0
= ok frame 0 overhead 1/1 running
end 2
"""
SHORT_REPLAYED = b"""ok memory 3/20 swap 4/8
ok frame 0 overhead 1/1 running
 vm state        min     max  target    here    lent     out  shares  active
  0 running        2       6       6       0       0       0    1000   65536
overhead 1 private 0 shared 0 free 19 high
"""
EMPTY = b"esx session 2\nframes 20 page 16 slots 8 tau 75 levels 6 4 2 1 nodes 16777216\nend 0\n"


def changed(text, old, new):
    assert text.count(old) == 1, old
    return text.replace(old, new)


# What `diff` tells of sessions in which a call has another reply: the reply that stands there may have more lines, or fewer.
DIFFERENCES = [
    (changed(SHORT, b"3/20", b"3/21"),
     b"differs 1\ncall: 0 admit 0 2 6 1 1000 0\ntold: ok memory 3/21 swap 4/8\nmade: ok memory 3/20 swap 4/8\n"),
    (changed(SESSION, b"BadSpec\n", b"BadSpec\n= \n"),
     b"differs 3\ncall: 511 vmtax 200 100\ntold: no 3 BadSpec\ntold: \nmade: no 3 BadSpec\n"),
    (changed(OLD_SESSION, b"= 1 ok frame 0 overhead 1/2 starting\n= 2 ok\n= after overhead 1 private 0 shared 0 free 8 high\n", b""),
     b"differs 2\ncall: 0 whatif start 31; stop 31\ntold: whatif 2/2\ntold: before overhead 0 private 0 shared 0 free 9 high\n"
     b"made: whatif 2/2\nmade: before overhead 0 private 0 shared 0 free 9 high\nmade: 1 ok frame 0 overhead 1/2 starting\n"
     b"made: 2 ok\nmade: after overhead 1 private 0 shared 0 free 8 high\n"),
    (changed(SHORT, b"3/20", b"3/\x1b2\t1")[:-1],
     b"differs 1\ncall: 0 admit 0 2 6 1 1000 0\ntold: ok memory 3/\x1b2\t1 swap 4/8\nmade: ok memory 3/20 swap 4/8\n"),
    (changed(SHORT, b"3/20", b"3/21").replace(b"\n", b"\r\n"),
     b"differs 1\ncall: 0 admit 0 2 6 1 1000 0\ntold: ok memory 3/21 swap 4/8\nmade: ok memory 3/20 swap 4/8\n"),
]


def in_version_2(text):
    """A session in whole lines whose first says version 2."""
    return b"\n".join([b"esx session 2", *text.replace(b"\r\n", b"\n").removesuffix(b"\n").split(b"\n")[1:], b""])


# What `check` tells of a session: its status, and what it prints.
CHECKED = [
    (SESSION, 0, b"same 3\n"),
    (SESSION[:-1], 0, b"same 3\n"),
    (SESSION.replace(b"\n", b"\r\n"), 0, b"same 3\n"),
    (OLD_SESSION, 0, b"same 3\n"),
    (SHORT, 0, b"same 2\n"),
    (changed(SHORT, b"session 2", b"session 1"), 0, b"same 2\n"),
    (SHORT[:-1], 0, b"same 2\n"),
    (changed(SHORT, b"3/20", b"3/21"), 1, b"differs 1\n"),
    (SESSION.replace(b"= no 3", b"= no 1").replace(b"5/9", b"5/8"), 1, b"differs 1\n"),
    (EMPTY, 0, b"same 0\n"),
    (changed(EMPTY, b"session 2", b"session 1"), 0, b"same 0\n"),
    (changed(SESSION, b"5/9", b"5/8"), 1, b"differs 1\n"),
    (changed(SESSION, b"1/2 starting", b"2/2 running"), 1, b"differs 2\n"),
    (changed(SESSION, b"= no 3", b"= "), 1, b"differs 3\n"),
    (changed(SESSION, b"BadSpec\n", b"BadSpec\n= \n"), 1, b"differs 3\n"),
    (changed(SESSION, b"200 100", b"200 99"), 1, b"differs 3\n"),
    (changed(SESSION, b"5 admit 200", b"256 admit 255"), 1, b"differs 2\n"),
    (changed(OLD_SESSION, b"5 admit 31", b"5 admit 30"), 1, b"differs 2\n"),
    (changed(OLD_SESSION, b"session 1", b"session 2"), 0, b"same 3\n"),
]

# The line from which on a text is no session.
BAD_LINES = [
    (changed(SHORT, b"end 2\n", b""), 7),
    (changed(SHORT, b"end 2", b"end 3"), 7),
    (changed(SHORT, b"end 2", b"end 02"), 7),
    (changed(changed(SHORT, b"3/20", b"3/21"), b"end 2", b"end 3"), 7),
    (SHORT + b"\n", 8),
    (b"", 1),
    (b"\n" + SESSION, 1),
    (changed(SESSION, b"session 2", b"session 3"), 1),
    (changed(SESSION, b"session 2", b"session 0"), 1),
    (changed(SESSION, b"session 2", b"session 2 "), 1),
    (changed(SESSION, b"session 2", b"session 02"), 1),
    (changed(SESSION, b"session 2", b"session 1"), 3),
    (changed(SESSION, b"frames 9", b"frames 7"), 2),
    (changed(SESSION, b"frames 9", b"frames 09"), 2),
    (changed(SESSION, b"page 32", b"page 40"), 2),
    (changed(SESSION, b"tau 10", b"tau 100"), 2),
    (changed(SESSION, b"levels 8 8 3 3", b"levels 8 8 3 4"), 2),
    (changed(SESSION, b"nodes 12", b"nodes 0"), 2),
    (changed(SESSION, b"5 admit", b"= ok\n5 admit"), 3),
    (changed(SESSION, b"5 admit", b"05 admit"), 3),
    (changed(SESSION, b"5 admit", b"512 admit"), 3),
    (changed(SESSION, b"5 admit", b"5  admit"), 3),
    (changed(SESSION, b"admit 200", b"admit 256"), 3),
    (changed(SESSION, b"1 60", b"1 60 60"), 3),
    (changed(SESSION, b"1 60", b"1 060"), 3),
    (changed(SESSION, b"40 1 60", b"40"), 3),
    (changed(OLD_SESSION, b"5 admit 31", b"64 admit 31"), 3),
    (changed(OLD_SESSION, b"5 admit 31", b"5 admit 32"), 3),
    (changed(OLD_SESSION, b"40 1", b"40 1 60"), 3),
    (changed(OLD_SESSION, b"whatif start 31", b"whatif start 32"), 5),
    (changed(OLD_SESSION, b"stop 31", b"vmtax 31 5"), 5),
    (changed(OLD_SESSION, b"stop 31", b"admit 7 1 1 1 1 0 5"), 5),
    (changed(OLD_SESSION, b"where", b"vmtax 31 5"), 11),
    (changed(OLD_SESSION, b"where", b"page 32 0"), 11),
    (changed(OLD_SESSION, b"63 where", b"64 where"), 11),
    (changed(SESSION, b"= ok memory", b"=ok memory"), 4),
    (changed(SESSION, b"= ok memory", b"0 start 200\n= ok memory"), 4),
    (changed(SESSION, b"0 start", b"0 session"), 5),
    (changed(SESSION, b"frame 0", b"frame \xc2\xb7"), 6),
    (changed(SESSION, b"511 vmtax", b"# vmtax"), 7),
    (changed(SESSION, b"511 vmtax", b"512 vmtax"), 7),
    (changed(SESSION, b"vmtax 200", b"vmtax 256"), 7),
    (changed(SESSION, b"vmtax 200 100", b"vmtax 200 100 1"), 7),
    (changed(SESSION, b"end 3", b"end 03"), 9),
    (changed(SESSION, b"end 3", b"end 4"), 9),
    (changed(SESSION, b"end 3\n", b""), 9),
    (SESSION + b"\n", 10),
    (SESSION + b"end 3\n", 10),
    (SESSION[:-1] + b"\r", 9),
]

SCENARIO = b"""version = 2
[machine]
frames = 9
page = 32
slots = 3
[run]
turns = 20
[[vm]]
id = 200
min = 3
max = 4
overhead = 2
shares = 40
balloon = 1
tau = 60
trace = ["write 3 30 beef", "read 3 0 32", "ask", "lend 2", "takeback 2"]
"""
OLD_SCENARIO = SCENARIO.replace(b"version = 2", b"version = 1").replace(b"tau = 60\n", b"").replace(b"id = 200", b"id = 31")


def machines(first, last):
    """Tables of small machines with these numbers."""
    return b"".join(b"[[vm]]\nid = %d\nmin = 1\nmax = 1\noverhead = 1\nshares = 1\nballoon = 0\n" % number
                    for number in range(first, last + 1))


# The key that is named where one piece of the scenario is another.
BAD_KEYS = [
    (b"version = 2", b"version = 3", b"version"),
    (b"version = 2", b"version = 0", b"version"),
    (b"version = 2", b"version = 2.0", b"version"),
    (b"version = 2", b'version = "2"', b"version"),
    (b"version = 2\n", b"", b"version"),
    (b"version = 2", b"version = 1", b"vm.0.id"),
    (b"[machine]\n", b"[machines]\n", b"machine.frames"),
    (b"frames = 9", b"frames = 7", b"machine.frames"),
    (b"frames = 9", b"frames = 1048577", b"machine.frames"),
    (b"frames = 9", b"frames = 2097152", b"machine.frames"),
    (b"frames = 9", b"frames = -9", b"machine.frames"),
    (b"frames = 9", b'frames = "9"', b"machine.frames"),
    (b"page = 32", b"page = 4112", b"machine.page"),
    (b"page = 32", b"page = 8", b"machine.page"),
    (b"page = 32", b"page = 31", b"machine.page"),
    (b"slots = 3", b"slots = 1048577", b"machine.slots"),
    (b"slots = 3", b"slots = 3\ntau = 100", b"machine.tau"),
    (b"slots = 3", b"slots = 3\nhigh = 51", b"machine.high"),
    (b"slots = 3", b"slots = 3\nhigh = 0", b"machine.high"),
    (b"slots = 3", b"slots = 3\nhigh = 3", b"machine.soft"),
    (b"slots = 3", b"slots = 3\nsoft = 7", b"machine.soft"),
    (b"slots = 3", b"slots = 3\nhard = 5", b"machine.hard"),
    (b"slots = 3", b"slots = 3\nlow = 3", b"machine.low"),
    (b"slots = 3", b"slots = 3\nnodes = 16777217", b"machine.nodes"),
    (b"slots = 3", b"slots = 3\ncolour = 1", b"machine.colour"),
    (b"[run]\n", b"[run]\nseed = -1\n", b"run.seed"),
    (b"turns = 20", b"turns = 1000001", b"run.turns"),
    (b"turns = 20", b"sample = 101", b"run.sample"),
    (b"turns = 20", b"length = 0", b"run.length"),
    (b"[run]\nturns = 20\n", b"", None),
    (b"[run]\nturns = 20\n", b"[[run]]\nturns = 20\n", b"run"),
    (b"[[vm]]", b"[vm]", b"vm"),
    (b"[[vm]]", b"[[vm]]\n[[vm]]", b"vm.0.id"),
    (b"[[vm]]", b"[[vms]]", b"vms"),
    (b"id = 200", b"id = 255", None),
    (b"id = 200", b"id = 256", b"vm.0.id"),
    (b"id = 200", b"id = -1", b"vm.0.id"),
    (b"min = 3", b"min = 0", b"vm.0.min"),
    (b"min = 3", b"min = 5", b"vm.0.max"),
    (b"max = 4", b"max = 65537", b"vm.0.max"),
    (b"overhead = 2", b"overhead = 0", b"vm.0.overhead"),
    (b"shares = 40", b"shares = 1048577", b"vm.0.shares"),
    (b"balloon = 1", b"balloon = 2", b"vm.0.balloon"),
    (b"tau = 60\n", b"", None),
    (b"tau = 60", b"tau = 0", None),
    (b"tau = 60", b"tau = 99", None),
    (b"tau = 60", b"tau = 100", b"vm.0.tau"),
    (b"tau = 60", b"tau = -1", b"vm.0.tau"),
    (b"tau = 60", b'tau = "60"', b"vm.0.tau"),
    (b"tau = 60", b"tau = 60.0", b"vm.0.tau"),
    (b"tau = 60", b"tax = 60", b"vm.0.tax"),
    (b"balloon = 1\ntau = 60", b"balloon = 2\ntau = 100", b"vm.0.balloon"),
    (b'tau = 60\ntrace = ["', b'tau = 100\ntrace = ["x", "', b"vm.0.tau"),
    (b'"ask"', b'"ask 7"', b"vm.0.trace"),
    (b'"ask"', b'"lend 4"', b"vm.0.trace"),
    (b'"ask"', b'"read 0 0 33"', b"vm.0.trace"),
    (b'"ask"', b'"read 0 0 0"', b"vm.0.trace"),
    (b'"ask"', b'"write 0 32 00"', b"vm.0.trace"),
    (b'"ask"', b'"scan 0"', b"vm.0.trace"),
    (b'"ask"', b"7", b"vm.0.trace"),
    (b"[[vm]]", machines(0, 199) + machines(201, 255) + b"[[vm]]", None),
    (b"[[vm]]", machines(0, 199) + machines(201, 255) + b"[[vm]]\n[[vm]]", b"vm"),
]

# The same in a text of version 1, in which a machine's tax is a key like any other that is unknown: it is named after all
# others that are bad, in the order of paths.
OLD_BAD_KEYS = [
    (b"version = 1", b"version = 2", None),
    (b"id = 31", b"id = 32", b"vm.0.id"),
    (b"balloon = 1", b"balloon = 1\ntau = 3", b"vm.0.tau"),
    (b"balloon = 1", b"balloon = 1\ntau = 100", b"vm.0.tau"),
    (b'balloon = 1\ntrace = ["', b'balloon = 1\ntau = 3\ntrace = ["x", "', b"vm.0.trace"),
    (b"balloon = 1", b"balloon = 1\ntau = 3\nshape = 1\nzoo = 1", b"vm.0.shape"),
    (b"balloon = 1", b"balloon = 1\ntau = 3\n[[vm]]", b"vm.1.id"),
    (b"[[vm]]", machines(0, 30) + b"[[vm]]", None),
    (b"[[vm]]", machines(0, 30) + b"[[vm]]\n[[vm]]", b"vm"),
]
NO_TOML = [b"frames = \n", b"version = 2\nversion = 2\n", b"[machine\n", b"version: 2\n", b"a = 'b\n"]

# As long as a line may be, and a command also if a digit is put into it.
LONG_LINE = b"whatif write 0 0 0 %s; write 0 0 10 %s" % (b"ab" * 4096, b"cd" * 4079)
LONGER_LINE = LONG_LINE.replace(b" 10 ", b" 100 ")


def refuses(program, words, status, told):
    expect(" ".join(words), Told(status, b"", told), ask(program, words))


def check_words(program, folder):
    for words in (["serve"], ["run"], ["check"], ["diff"], ["replay"], ["migrate"], ["--help"], ["-h"], ["--version"],
                  ["console", "a", "b"], ["check", "a", "b"], ["diff", "a", "b"], ["migrate", "a", "b"], ["help", "a"], ["help", "help"],
                  ["help", "check"], ["help", "--help"], ["sum"], ["Console"], ["Help"], [""], ["--", "--help"], ["--", "help"],
                  ["record", "a", "b"], ["record", "--echo"], ["record", "a", "--echo"], ["Record"], ["record", "--help"],
                  ["console", "--echo", "--echo"], ["console", "--echo", "a", "--echo"], ["console", "--echo", "a", "b"],
                  ["console", "--echo="], ["console", "--echo=true"], ["console", "--Echo"], ["console", "-echo"], ["console", "--ech"],
                  ["--echo"], ["--echo", "console"], ["run", "a", "--echo"], ["check", "--echo", "a"], ["help", "--echo"],
                  *WRONG_QUESTIONS):
        expect(" ".join(words), WRONG_WORDS, ask(program, words))
        if reader.file_of_words(words) is not None:
            raise Wrong(f"the plain reader takes {words}")
    for words in (["console"], ["console", "--echo"], ["record"], ["run"], ["check"], ["diff"], ["replay"], ["migrate"], ["report"],
                  ["why"]):
        more = ["0"] if words == ["why"] else []
        refuses(program, [*words, f"{folder}/none", *more], 1, b"read fault\n")
        refuses(program, [*words, folder, *more], 1, b"read fault\n")
    nobody = Told(0, b"overhead 0 private 0 shared 0 free 20 high\n", b"")
    for words in ([], ["console"], ["--"], ["console", "--"]):
        expect(f"sum, with {words}", nobody, ask(program, words, b"sum\n"))
    for words in (["console", "--", "--echo"], ["record", "--", "--echo"]):  # behind two dashes it is a file's name
        expect(f"{words}", Told(1, b"", b"read fault\n"), ask(program, words, b"sum\n", cwd=folder))


def entries_of_help(lines):
    """Each word that help tells, with its lines: the first begins with it, and the others with a blank."""
    entries = []
    for line in lines:
        if line.startswith(" "):
            entries[-1][1].append(line)
        else:
            entries.append((line.split()[0], [line]))
    return entries


def check_example(word, line, written):
    """An example of a word, of files that are there or that an earlier example writes."""
    found, file = reader.file_of_words(re.sub(" [<>][^ ]*", "", line).split()[1:]) or (None, None)
    read, top = {file, *re.findall("<([^ ]+)", line)} - {None}, os.path.dirname(HERE)
    if found != word or not all(one in written or os.path.exists(f"{top}/{one}") for one in read):
        raise Wrong(f"help says {line!r} of {word}")
    written |= {*re.findall(">([^ ]+)", line)}


def check_help(program):
    """Help has some lines for each word, and examples among them; it names each option and each table."""
    told = ask(program, ["help"])
    expect("help", Told(0, told.out, b""), told)
    lines, written = told.out.decode("ascii").splitlines(), set()
    if max(map(len, lines)) > 100:
        raise Wrong(f"help has a line of {max(map(len, lines))} columns")
    entries = entries_of_help(lines)
    for word, lines_of_it in entries:
        examples = [line for line in lines_of_it if line.split()[0] == "esxplan"]
        if not examples:
            raise Wrong(f"help has no example of {word}")
        for line in examples:
            check_example(word, line, written)
    missing = {reader.ECHO, "--at", "--csv", *reader.TABLES} - {*re.split("[^a-z-]+", told.out.decode())}
    if missing or {word for word, _ in entries} != {*reader.TAKE_NONE, *reader.TAKE_ONE, *reader.OPTIONS}:
        raise Wrong(f"help has other words, and lacks {sorted(missing)}: {told!r}")


def check_sessions(program):
    for text, status, out in CHECKED:
        with file_of(text) as name:
            expect(f"check of {text!r}", Told(status, out, b""), ask(program, ["check", name]))
            compared = console.told_of_diff(reader.session_of(text))[0]
            expect(f"diff of {text!r}", Told(status, compared, b""), ask(program, ["diff", name]))
            printed = in_version_2(text) if status == 0 else out
            expect(f"migration of {text!r}", Told(status, printed, b""), ask(program, ["migrate", name]))
    for text, out in DIFFERENCES:
        with file_of(text) as name:
            expect(f"diff of {text!r}", Told(1, out, b""), ask(program, ["diff", name]))
    for text, line in BAD_LINES:
        with file_of(text) as name:
            for words in (["check", name], ["diff", name], ["replay", name], ["migrate", name], ["report", name], ["why", name, "0"]):
                refuses(program, words, 1, b"bad line %d\n" % line)
    for text in (SESSION, OLD_SESSION, SHORT):
        for end in range(len(text) - 1):
            with file_of(text[:end]) as name:
                refuses(program, ["check", name], 1, f"{reader.told_of_session(text[:end])}\n".encode())
    for text, replayed in ((SESSION, REPLAYED), (OLD_SESSION, OLD_REPLAYED), (SHORT, SHORT_REPLAYED)):
        with file_of(text) as name:
            expect("replay", Told(0, replayed, b""), ask(program, ["replay", name]))


def check_keys(program, scenario, bad_keys):
    for old, new, key in bad_keys:
        with file_of(changed(scenario, old, new)) as name:
            if key is None:
                expect(f"{new!r} for {old!r}", Told(0, b"", b""), ask(program, ["console", name]))
                continue
            for word in ("console", "record", "run"):
                refuses(program, [word, name], 1, b"bad key %s\n" % key)


def check_scenarios(program):
    check_keys(program, SCENARIO, BAD_KEYS)
    check_keys(program, OLD_SCENARIO, OLD_BAD_KEYS)
    for text in NO_TOML:
        with file_of(text) as name:
            refuses(program, ["console", name], 1, b"bad toml\n")
            refuses(program, ["record", name], 1, b"bad toml\n")
    with file_of(b"esx \xff\n") as name:
        for words in (["console", name], ["console", name, "--echo"], ["record", name], ["run", name], ["check", name], ["diff", name],
                      ["replay", name], ["migrate", name], ["report", name], ["why", name, "0"]):
            refuses(program, words, 1, b"bad text\n")
    with file_of(changed(SCENARIO, b"min = 3", b"min = 8").replace(b"max = 4", b"max = 9")) as name:
        refuses(program, ["run", name], 1, b"no 4 NoMemoryReserve\n")
    with file_of(changed(SCENARIO, b"slots = 3", b"slots = 0")) as name:
        refuses(program, ["run", name], 1, b"no 5 NoSwapReserve\n")


def check_run(program, scenario, ends, admission):
    """A run: how its workers end, and that its session is of version 2, admits the machine so, and is the same again."""
    with file_of(scenario) as name:
        told = ask(program, ["run", name])
    expect("run", Told(0, told.out, ends), told)
    lines = told.out.splitlines()
    if lines[:3] != [b"esx session 2", RUN_SITE.encode(), admission]:
        raise Wrong(f"a run begins with {lines[:3]}")
    with file_of(told.out) as name:
        expect("check of a run", Told(0, b"same %s\n" % lines[-1].split()[1], b""), ask(program, ["check", name]))
        expect("migration of a run", Told(0, told.out, b""), ask(program, ["migrate", name]))


def check_long_lines(program):
    assert (len(LONG_LINE), len(LONGER_LINE)) == (16384, 16385)
    lines = [LONG_LINE, b"#" * 20000, LONGER_LINE, b"x" * 70000, b"where"]
    none = b"overhead 0 private 0 shared 0 free 20 high\n"
    answer = b"whatif 0/2\nbefore " + none + b"1 no 1 NoVm\nafter " + none
    answers = answer + b"? line 3\n? line 4\nat 0 depth 0 jumps 0\n"
    expect("long lines", Told(0, answers, b""), ask(program, [], b"\n".join(lines)))


def check(program, _is_long):
    with tempfile.TemporaryDirectory() as folder:
        check_words(program, folder)
    check_help(program)
    check_sessions(program)
    check_scenarios(program)
    check_run(program, SCENARIO, ENDS, b"0 admit 200 3 4 2 40 1 60")
    check_run(program, OLD_SCENARIO, ENDS.replace(b"guest 200", b"guest 31"), b"0 admit 31 3 4 2 40 1")
    check_long_lines(program)
    scenarios = len(BAD_KEYS) + len(OLD_BAD_KEYS) + len(NO_TOML)
    return f"{len(CHECKED) + len(BAD_LINES)} sessions and {scenarios} scenarios told as written"
