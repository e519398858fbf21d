"""Reports of sessions: `report`, its tables, and `why`, of written and of drawn sessions, at their ends and at other nodes.

Each is compared with a plain report (story.py) byte for byte. The drawn sessions meet every way in which a page is lost, comes
back and moves; they have branches, pruned nodes, new lives, balloons, taxes of machines' own, and accesses that are refused.
"""

import random
from collections import Counter
from concurrent.futures import ProcessPoolExecutor

import console
import reader
import story
import words
from console import Console
from machine import LEVELS, Refused
from program import Told, Wrong, ask, expect, file_of

SEED, COUNT, PARTS = 20021213, 150, 3

# A session whose end is at node 3, below which all was pruned. Machine 0 had three pages in its first life and two in its next.
LIVES = b"""esx session 2
frames 20 page 16 slots 8 tau 75 levels 6 4 2 1 nodes 16777216
0 admit 0 1 3 1 5 0
= ok memory 2/20 swap 2/8
0 start 0
= ok frame 0 overhead 1/1 running
511 read 0 2 0 1
= ok 00
0 mark old
= ok mark old at 3
0 stop 0
= ok
0 drop 0 2
= ok
0 gone 0
= ok gone
0 admit 0 1 2 1 5 0
= ok memory 2/20 swap 1/8
0 start 0
= ok frame 0 overhead 1/1 running
0 mark new
= ok mark new at 8
0 read 0 2 0 1
= no 7 OutOfRange
0 goto 3
= at 3 depth 3 jumps 1
0 prune 4
= ok pruned 5
0 visit new
= no 21 NoSuchNode
end 14
"""
REPORT = b"""esx report 1
frames 20 page 16 slots 8 levels 4 3 2 1 margin 1
path events 8 of 8 made, to node 8; calls 14, refused on the path 2, elsewhere 0

site
  level       events   part  entered
  high             8 100.0%
  soft             0   0.0%        0
  hard             0   0.0%        0
  low              0   0.0%        0
  free least 18 at 3, now 19
  pages in frames most 1 at 3, now 0 in 0 frames
  saved by sharing most 0 at 0, mean 0.000, now 0
  slots most 0 at 0, now 0; rebalanced 0 times, 0 pages revoked

guests
 vm life  accesses   first  popped  swapin    lost balloon    swap replace    drop    back   soon  waits  shared    cow   held  short  above   most   here target
  0    1         1       1       0       0       1       0       0       0       1       0      0      0       0      0      0      0   0.0%      1      0      -
  0    2         0       0       0       0       0       0       0       0       0       0      0      0       0      0      0      0   0.0%      0      0      2
  each row: first + popped + swapin - lost = here

losses by level and mechanism
  level  balloon    swap replace    drop
  high        0       0       0       1
  soft        0       0       0       0
  hard        0       0       0       0
  low         0       0       0       0

losses 1
   event     node  by  vm   page how     level    free   here target      set  shares  act      ratio  rank next     nratio     back as       after waits
       5        5   0   0      2 drop    high       18      1      3        0       5  100      5.000     -    -          -        - -            -     0
end
"""
WHY = b"""esx why 1
losses 1
Event 5 (caller 0: drop 0 2): guest 0 lost page 2: given back by the stopping guest.
  It did not come back on this path.
"""
LOSSES = (b"event,node,call,by,vm,life,page,how,level,free,here,target,set,need,revoked,from_vm,shares,active,tax,ratio,above,rank,"
          b"next,next_ratio,slot,back,as,after,waits\n")

CHANGES = (b"event,node,call,by,vm,page,how,from,from_at,to,to_at\n"
           b"3,3,3,511,0,2,first,untouched,,here,1\n"
           b"5,5,6,0,0,2,drop,here,1,untouched,\n")
STEPS = b"""event,node,by,vm,overhead,private,shared,free,level,here,target,active,shared_pages,lent,out
0,0,,,0,0,0,20,high,,,,,,
1,1,0,0,0,0,0,20,high,0,3,65536,0,0,0
2,2,0,,1,0,0,19,high,,,,,,
3,3,511,0,1,1,0,18,high,1,3,65536,0,0,0
5,5,0,0,1,0,0,19,high,0,3,65536,0,0,0
6,6,0,0,0,0,0,20,high,,,,,,
7,7,0,0,0,0,0,20,high,0,2,65536,0,0,0
8,8,0,,1,0,0,19,high,,,,,,
"""

# What is asked of it, with `FILE` in the place of the file, and what is told.
ASKED = [
    ("report FILE --at 8", REPORT),
    ("report --at new FILE", REPORT),
    ("report FILE --csv losses", LOSSES),
    ("report --csv losses FILE --at 4", LOSSES),
    ("report FILE --at 8 --csv losses", LOSSES + b"5,5,6,0,0,1,2,drop,high,18,1,3,0,,,,5,65536,75,5.000,0,,,,,,,,0\n"),
    ("report FILE --csv changes --at new", CHANGES),
    ("report FILE --at old --csv changes", CHANGES[:CHANGES.index(b"5,5")]),
    ("report --csv changes --at 0 FILE", CHANGES[:CHANGES.index(b"3,3")]),
    ("report --at 8 FILE --csv steps", STEPS),
    ("report FILE --csv steps", STEPS[:STEPS.index(b"5,5")]),
    ("report --csv steps FILE --at 4", STEPS[:STEPS.index(b"5,5")]),
    ("report --csv steps FILE --at 0", STEPS[:STEPS.index(b"1,1")]),
    ("why FILE 0 --at 8", WHY),
    ("why FILE --at new 0 2", WHY),
    ("why --at 5 FILE 0 2", WHY),
    ("why FILE 0", b"esx why 1\nlosses 0\n"),
    ("why FILE 0 1 --at new", b"esx why 1\nlosses 0\n"),
    ("why FILE 0 2 --at old", b"esx why 1\nlosses 0\n"),
]
REFUSED = [
    ("report FILE --at 9", "no 21 NoSuchNode"),
    ("report FILE --at 4294967295 --csv site", "no 21 NoSuchNode"),
    ("report FILE --at older", "no 23 NoSuchName"),
    ("report --csv guests --at ol FILE", "no 23 NoSuchName"),
    ("report --csv changes FILE --at 9", "no 21 NoSuchNode"),
    ("report FILE --at older --csv steps", "no 23 NoSuchName"),
    ("why FILE 0 --at 9", "no 21 NoSuchNode"),
    ("why FILE 200 9 --at older", "no 23 NoSuchName"),
    ("why FILE 1", "no 1 NoVm"),
    ("why FILE 0 --at 0", "no 1 NoVm"),
    ("why FILE 256", "no 1 NoVm"),
    ("why FILE 4294967295 4294967295", "no 1 NoVm"),
    ("why FILE 1 3 --at new", "no 1 NoVm"),
    ("why FILE 0 3", "no 7 OutOfRange"),
    ("why FILE 0 4294967295 --at new", "no 7 OutOfRange"),
    ("why --at 1 FILE 0 3", "no 7 OutOfRange"),
]


def words_with(text, name):
    return [name if word == "FILE" else word for word in text.split(" ")]


def told(session, asked):
    """What is told of a session in a file by these words, as the plain report has it."""
    out, status = console.told_of_check(session)
    return Told(1, b"", out) if status else told_of_true(session, asked, {})


def told_of_true(session, asked, stories):
    """The same of a session whose replies are right, with the stories of it that are known."""
    _, more, options = reader.question_of_words(asked[0], asked[1:])
    at = options.get("--at")
    try:
        if at not in stories:
            stories[at] = story.Story(session, at)
        return Told(0, story.told_of_story(stories[at], asked[0], more, options), b"")
    except Refused as refused:
        return Told(1, b"", f"{refused}\n".encode())


def check_written(program):
    old = LIVES.replace(b"511 read", b"63 read").replace(b"session 2", b"session 1")
    for text, by in ((LIVES, b"511"), (LIVES[:-1], b"511"), (LIVES.replace(b"\n", b"\r\n"), b"511"), (old, b"63")):
        session = reader.session_of(text)
        with file_of(text) as name:
            rows = [(asked, Told(0, out.replace(b",511,", b",%s," % by), b"")) for asked, out in ASKED]
            rows += [(asked, Told(1, b"", f"{reason}\n".encode())) for asked, reason in REFUSED]
            for asked, wanted in rows:
                expect(f"{asked} of {text!r}", wanted, ask(program, words_with(asked, name)))
                expect(f"the plain report, {asked}", wanted, told(session, words_with(asked, name)))


def check_sessions(program):
    """Sessions that are the same, which have a report, and others, of which the first difference is told and nothing else."""
    for text, status, out in words.CHECKED:
        session = reader.session_of(text)
        with file_of(text) as name:
            for asked in ("report FILE", *(f"report FILE --csv {table}" for table in reader.TABLES),
                          "why FILE 200", "why FILE 0 9 --at nowhere", "report FILE --at 99"):
                wanted = told(session, words_with(asked, name))
                if status and wanted != Told(1, b"", out):
                    raise Wrong(f"the plain report of {text!r}, {asked}: {wanted!r}")
                expect(f"{asked} of {text!r}", wanted, ask(program, words_with(asked, name)))


def check_long(program):
    """A session of more than 2^26 bytes, which is too long for `check`, is checked and reported."""
    call = f"0 sample 0 1{200 * f' {2**64 - 1}'}\n= no 1 NoVm\n".encode()
    count = 2**26 // len(call) + 1
    front = words.EMPTY.removesuffix(b"end 0\n")
    site = story.told_of_question(reader.session_of(words.EMPTY), "report", [], {"--csv": "site"})
    for old, new in ((b"calls,0", b"calls,%d"), (b"refused_on_path,0", b"refused_on_path,%d"),
                     (b"\npages_here", b"\nrefused_1,%d\npages_here")):
        site = words.changed(site, old, new % count)
    with file_of(front + count * call + b"end %d\n" % count) as name:
        expect("check of a long session", Told(1, b"", b"read fault\n"), ask(program, ["check", name]))
        expect("report of a long session", Told(0, site, b""), ask(program, ["report", name, "--csv", "site"]))
    with file_of(front + (count - 1) * call + words.changed(call, b"no 1 ", b"no 2 ") + b"end %d\n" % count) as name:
        expect("report of a long session that differs", Told(1, b"", b"differs %d\n" % count), ask(program, ["report", name]))


class Maker:
    """A drawn session of three machines at a small site, with some sense of what stands."""

    def __init__(self, draw):
        self.draw = draw
        frames, pages = draw.choice([9, 10, 12, 14, 16]), draw.choice([4, 5, 7])
        levels = draw.choice([(6, 4, 2, 1), (50, 40, 20, 10), (50, 50, 50, 50)])
        self.console = Console([frames, 16, 3 * pages, draw.choice([0, 75, 99]), *levels, 2**24])
        self.numbers, self.pages, self.names = sorted(draw.sample([0, 1, 31, 200, 255], 3)), pages, 0
        least = max(1, (frames - 3) // 3 - draw.choice([0, 0, 1, 2]))
        self.specs = {}
        for number in self.numbers:
            balloon = max(0, min(pages - least, draw.choice([0, 1, 2, 3])))
            own_tax = draw.choice([[], [], [0], [40], [99]])
            self.specs[number] = least, pages, 1, draw.choice([500, 1000, 1000, 3000]), balloon, *own_tax
            self.admit(number)

    def call(self, text):
        return self.console.call(text, self.draw.choice([0, 0, 0, 7, 511]))[0]

    def admit(self, number):
        self.call(" ".join(map(str, ["admit", number, *self.specs[number]])))
        self.call(f"start {number}")

    def access(self, number, page):
        """A read or a write, and mostly what is advised where it has to wait."""
        command = self.draw.choice(["read {} {} 0 1", "read {} {} 0 1", "write {} {} 0 2a"]).format(number, page)
        for _ in range(self.draw.choice([1, 2, 5])):
            if not self.call(command).startswith(("no 8", "no 9")) or self.draw.random() < 0.2:
                return
            word, *more = self.call(f"advise {number} {page}").split(" ")
            if word == "swapout":
                self.call(f"swapout {more[0]} {self.draw.randrange(9)}")
            elif word in ("rebalance", "replace"):
                self.call(word if word == "rebalance" else f"replace {number} {page} {self.draw.randrange(9)}")

    def balloon(self, number):
        word, *more = self.call(f"ask {number}").split(" ")
        if word == "ok" and int(more[1]) > int(more[3]):
            for _ in range(int(more[1])):
                self.call(f"lend {number} {self.draw.randrange(self.pages)}")

    def leave(self, number):
        """The machine goes with all of its pages, and mostly comes again."""
        self.call(f"stop {number}")
        for page in range(self.pages):
            self.call(f"drop {number} {page}")
        self.call(f"gone {number}")
        if self.draw.random() < 0.8:
            self.admit(number)

    def idle(self, number):
        for _ in range(3):
            self.call(f"sample {number} 1 {self.draw.randrange(1, 9)} 3")
            self.call(f"read {number} 0 0 1")

    def move(self):
        draw, made = self.draw, self.console.made
        self.names += 1
        self.call(draw.choice([f"undo {draw.randrange(6)}", "redo 1", f"goto {draw.randrange(made + 1)}", f"mark m{self.names}",
                               f"mark m{self.names}", f"visit m{draw.randrange(1, 9)}", f"prune {draw.randrange(made + 2)}"]))

    def act(self):
        draw, number = self.draw, self.draw.choice(self.numbers)
        page, chance = draw.randrange(self.pages), draw.random()
        if chance < 0.55:
            self.access(number, page)
        elif chance < 0.65:
            self.balloon(number)
        elif chance < 0.95:
            self.call(draw.choice([f"scan {number} {page}", f"swapout {number} {draw.randrange(9)}",
                                   f"swapout {number} {draw.randrange(9)}", "rebalance", f"replace {number} {page} {draw.randrange(9)}",
                                   f"takeback {number} {page}", f"shares {number} {draw.randrange(1, 3000)}",
                                   f"vmtax {number} {draw.randrange(102)}", f"tax {draw.randrange(102)}", "sum", "table",
                                   f"whatif read {number} {page} 0 1; swapout {number} 0", f"read {number} {self.pages} 0 1"]))
        elif chance < 0.97:
            self.idle(number)
        elif chance < 0.975:
            self.leave(number)
        else:
            self.move()

    def session(self):
        for _ in range(self.draw.choice([60, 150, 400])):
            self.act()
        return console.bytes_of(self.console.session())


def questions(draw, session):
    """The report, each of its tables, and why, at the end of the session and at a drawn node or name."""
    made = sum(text.split(" ")[0] in reader.EVENTS and not reply[0].startswith("no ") for _, text, reply in session.calls)
    names = [text.split(" ")[1] for _, text, reply in session.calls if reply[0].startswith("ok mark ")]
    for at in ("", f" --at {draw.choice([str(draw.randrange(made + 1)), *names])}"):
        yield f"report FILE{at}"
        yield from (f"report FILE --csv {table}{at}" for table in reader.TABLES)
        yield f"why FILE {draw.choice([0, 1, 31, 200, 255])}{at}"
        yield f"why FILE {draw.choice([0, 1, 31, 200, 255])} {draw.randrange(8)}{at}"


def try_drawn(program, number):
    """Compares what is told of a drawn session; counts what its report met."""
    draw = random.Random(f"{SEED} {number}")
    text = Maker(draw).session()
    session, stories = reader.session_of(text), {}
    with file_of(text) as name:
        for asked in questions(draw, session):
            wanted = told_of_true(session, words_with(asked, name), stories)
            expect(f"{asked} of drawn session {number}", wanted, ask(program, words_with(asked, name)))
    return met_in(stories[None])


def met_in(path):
    """How often each thing is met that a report may tell, so that none is forgotten."""
    met = Counter({"losses": len(path.losses)})
    for loss in path.losses:
        met.update([f"level {LEVELS[loss.site.level]}", f"back by {loss.gained}"])
        met.update(name for name, is_so in (
            ("waited for", loss.waits), ("of a later life", loss.life > 1), ("against the order", loss.rank and loss.rank > 1),
            ("with another next", loss.rank == 1 and loss.next is not None),
            ("alone above its target", loss.rank == 1 and loss.next is None), ("own tax", loss.has_own_tax),
            ("target of the admission", not loss.set), ("target of a level high", loss.set and loss.need is None),
            ("target of a level below", loss.need is not None),
            ("lent without rank", loss.how == "balloon" and not loss.rank)) if is_so)
    for guest in path.guests():
        met.update(name for name in story.COUNTED if guest.count[name])
    met.update(change.how for change in path.changes())
    return met


ALL_MET = {"level high", "level soft", "level hard", "level low", "back by first", "back by pop", "back by swapin", "back by None",
           "waited for", "of a later life", "against the order", "with another next", "alone above its target", "own tax",
           "target of the admission", "target of a level high", "target of a level below", "lent without rank", "lend", "takeback",
           "dropout", *story.COUNTED}


def try_part(program, count, part):
    met = Counter()
    for number in range(part, count, PARTS):
        met.update(try_drawn(program, number))
    return met


def check(program, is_long):
    check_written(program)
    check_sessions(program)
    check_long(program)
    count, met = COUNT * (10 if is_long else 1), Counter()
    with ProcessPoolExecutor(PARTS) as pool:
        for part in [pool.submit(try_part, program, count, part) for part in range(PARTS)]:
            met.update(part.result())
    if ALL_MET - set(met):
        raise Wrong(f"no drawn session has met {sorted(ALL_MET - set(met))}")
    return (f"{len(ASKED) + len(REFUSED)} questions answered as written; {count} drawn sessions with {met['losses']} losses reported "
            "as the plain report has them")
