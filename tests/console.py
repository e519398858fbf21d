"""A plain console: what is answered to each line, by the plain machine (machine.py) and a tree of its events.

What stands at a node is what comes of its path's events, made again from the nearest node whose site is kept.
"""

import reader
from machine import Refused, Site

FAR, MOST_PAGES = 32, 100_000  # how far apart sites are kept, and how many pages all of them have


def size_of(site):
    return sum(len(vm.pages) for vm in site.vms.values())


class Node:
    """An event that was accepted."""

    def __init__(self, parent, event, depth):
        self.parent, self.event, self.depth, self.last = parent, event, depth, None


class Console:
    """A site, the tree of its events, and the calls that were answered."""

    def __init__(self, numbers):
        self.numbers, self.log = numbers, []
        self.site = Site(*numbers)
        self.nodes, self.made, self.at, self.jumps, self.named = {0: Node(None, None, 0)}, 0, 0, 0, {}
        self.kept = {0: self.site.copy()}

    def call(self, text, caller=0):
        """The reply lines of a call."""
        word, _, rest = text.partition(" ")
        try:
            reply = self.event(text) if word in reader.EVENTS else getattr(self, word)(*rest.split(" ") if rest else [])
        except Refused as refused:
            reply = str(refused)
        reply = [reply] if isinstance(reply, str) else reply
        self.log.append((caller, text, reply))
        return reply

    def event(self, text):
        if self.made == self.numbers[-1]:
            raise Refused(25)
        answer = self.site.event(text)
        self.made += 1
        self.nodes[self.made] = Node(self.at, text, self.nodes[self.at].depth + 1)
        self.nodes[self.at].last = self.made
        self.at = self.made
        return answer

    # Moves.

    def path(self, node):
        """From the opening to a node."""
        up = [node]
        while self.nodes[up[-1]].parent is not None:
            up.append(self.nodes[up[-1]].parent)
        return up[::-1]

    def site_at(self, node):
        behind = []
        while node not in self.kept:
            behind.append(node)
            node = self.nodes[node].parent
        site = self.kept[node].copy()
        for at, one in enumerate(reversed(behind), 1):
            site.event(self.nodes[one].event)
            if at % (FAR + size_of(site)) == 0:
                self.keep(one, site)
        return site

    def keep(self, node, site):
        self.kept[node] = site.copy()
        if len(self.kept) * (1 + size_of(site)) > MOST_PAGES:
            del self.kept[[one for one in self.kept if one][0]]

    def move(self, node):
        path, stands = self.path(node), set(self.path(self.at))
        for parent, child in zip(path, path[1:]):
            if child not in stands:
                self.nodes[parent].last = child
        if node != self.at:
            self.site = self.site_at(node)
        self.at, self.jumps = node, self.jumps + 1
        return self.where()

    def undo(self, count):
        path = self.path(self.at)
        if int(count) >= len(path):
            raise Refused(19)
        return self.move(path[-1 - int(count)])

    def redo(self, count):
        node = self.at
        for _ in range(int(count)):
            node = self.nodes[node].last
            if node not in self.nodes:
                raise Refused(20)
        return self.move(node)

    def goto(self, node):
        if int(node) not in self.nodes:
            raise Refused(21)
        return self.move(int(node))

    def visit(self, name):
        if name not in self.named:
            raise Refused(23)
        return self.goto(self.named[name])

    def mark(self, name):
        if name in self.named:
            raise Refused(22)
        self.named[name] = self.at
        return f"ok mark {name} at {self.at}"

    def prune(self, node):
        node = int(node)
        if node not in self.nodes:
            raise Refused(21)
        if node in self.path(self.at):
            raise Refused(24)
        gone = {node}
        for one in sorted(self.nodes):
            if self.nodes[one].parent in gone:
                gone.add(one)
        for one in gone:
            del self.nodes[one]
            self.kept.pop(one, None)
        return f"ok pruned {len(gone)}"

    def whatif(self, *words):
        events = " ".join(words).split("; ")
        site, replies = self.site.copy(), []
        for event in events:
            try:
                replies.append(site.event(event))
            except Refused as refused:
                replies.append(str(refused))
                break
        accepted = sum(not reply.startswith("no ") for reply in replies)
        return ([f"whatif {accepted}/{len(events)}", f"before {self.site.sum()}"]
                + [f"{at} {reply}" for at, reply in enumerate(replies, 1)] + [f"after {site.sum()}"])

    # Questions.

    @property
    def depth(self):
        return self.nodes[self.at].depth

    def where(self):
        return f"at {self.at} depth {self.depth} jumps {self.jumps}"

    def marks(self):
        return [f"marks {len(self.named)}"] + [f"{name} {node}" for name, node in self.named.items()]

    def sum(self):
        return self.site.sum()

    def table(self):
        return self.site.table()

    def vm(self, number):
        return self.site.told_of_vm(int(number))

    def page(self, number, page):
        return self.site.told_of_page(int(number), int(page))

    def advise(self, number, page):
        return self.site.advise(int(number), int(page))

    def order(self):
        return self.site.order()

    def pageout(self, number, page):
        try:
            word = self.site.word_of(int(number), int(page))
        except Refused as refused:
            return [str(refused)]
        return self.call(f"swapout {number} {word}")

    def session(self):
        frames, page, slots, tau, *levels, nodes = self.numbers
        lines = ["esx session 2", f"frames {frames} page {page} slots {slots} tau {tau} levels "
                 f"{' '.join(map(str, levels))} nodes {nodes}"]
        for caller, text, reply in self.log:
            lines += [f"{caller} {text}"] + [f"= {line}" for line in reply]
        return lines + [f"end {len(self.log)}"]


SITE_KEYS = ("frames", "page", "slots", "tau", "high", "soft", "hard", "low", "nodes")
DEFAULTS = [None, None, None, 75, 6, 4, 2, 1, 2**24]
FIRST_SITE = [20, 16, 8, 75, 6, 4, 2, 1, 2**24]


def scenario_of(site, version=2):
    return (f"version = {version}\n[machine]\n" + "".join(f"{name} = {one}\n" for name, one in zip(SITE_KEYS, site))).encode()


def bytes_of(lines):
    return "".join(f"{line}\n" for line in lines).encode()


def answers(console, data):
    """What a console answers to each of these lines."""
    told = []
    for at, line in enumerate(reader.lines_of(data), 1):
        what = reader.what_line_is(line)
        if what == "call":
            told.append(bytes_of(console.call(line.decode())))
        elif what == "word":
            word, *fields = line.decode().split(" ")
            told.append(bytes_of(getattr(console, word)(*fields)))
        else:
            told.append(b"? line %d\n" % at if what == "none" else b"")
    return told


def replies_of(session):
    """A console at which the calls of a session were made, and the first call whose reply is another, none if all are the same."""
    console, differs = Console(session.site), None
    for at, (caller, text, reply) in enumerate(session.calls, 1):
        if console.call(text, caller) != reply and differs is None:
            differs = at
    return console, differs


def told_of_check(session):
    differs = replies_of(session)[1]
    return (b"differs %d\n" % differs, 1) if differs else (b"same %d\n" % len(session.calls), 0)


def told_of_diff(session):
    """What a check tells, and behind a difference the call and both of its replies."""
    console, differs = replies_of(session)
    if differs is None:
        return b"same %d\n" % len(session.calls), 0
    caller, call, told = session.calls[differs - 1]
    made = console.log[differs - 1][2]
    lines = [f"differs {differs}", f"call: {caller} {call}"]
    return bytes_of(lines + [f"told: {line}" for line in told] + [f"made: {line}" for line in made]), 1


def told_of_migration(session):
    console, differs = replies_of(session)
    return (b"differs %d\n" % differs, 1) if differs else (bytes_of(console.session()), 0)


def told_of_replay(session):
    console = replies_of(session)[0]
    return b"".join(bytes_of(reply) for _, _, reply in console.log) + bytes_of(console.table())


def first_other(lines, wanted, out):
    """Where an output begins to be another than the answers to these lines."""
    for at, (line, answer) in enumerate(zip(lines, wanted), 1):
        if not out.startswith(answer):
            return f"line {at}, {line[:200]!r}\n  wanted {answer[:300]!r}\n  but    {out[:300]!r}"
        out = out[len(answer):]
    return f"more is told: {out[:300]!r}"
