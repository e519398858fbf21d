"""Drawn streams of commands, a function for each mechanism: the site's nine numbers, and the lines.

They are made so that long pages, long lists of pages, many marks, many machines and large trees are met, since the program
has other ways for these than for few and short ones.
"""

import functools

from changes import PAIRS, command
from machine import short
from program import Wrong

LARGE = [240, 256, 272, 368, 384, 400, 1008, 1024, 2032, 4096]


def site(frames, page, slots, tau=75, levels=(6, 4, 2, 1), nodes=2**24):
    return [frames, page, slots, tau, *levels, nodes]


def opened(machines, numbers=range(256)):
    """The lines that admit and start machines with these numbers: their least and most pages, overhead, shares, balloon, and
    own tax where they have one."""
    for number, (least, most, overhead, *rest) in zip(numbers, machines):
        yield " ".join(map(str, ["admit", number, least, most, overhead, *rest]))
        yield from [f"start {number}"] * overhead


def own_tax(draw):
    """A tax of a machine's own, mostly none."""
    return draw.choice([[], [], [], [0], [75], [draw.randrange(100)], [99]])


def word(draw):
    """A word of any length."""
    return draw.choice([draw.randrange(10), draw.randrange(2000), draw.getrandbits(64), 2**64 - 1 - draw.randrange(3),
                        10**draw.randrange(20) - draw.randrange(2)])


def moves(draw, lowest, question):
    """Back and forth again with a question between, or back alone, which begins a branch. No node below `lowest` is left."""
    count, name = draw.choice([1, 1, 2, 3, 8, 15]), f"m{draw.randrange(10**9)}"
    return draw.choice([[f"undo {count}", question, f"redo {count}", question], [f"undo {count}", question, f"redo {count}"],
                        [f"undo {draw.choice([1, 1, 2, 3])}", "where"], [f"undo {count}", f"redo {count + 1}", "redo 1"],
                        [f"mark {name}", f"goto {lowest + draw.randrange(60)}", question, f"visit {name}", question]])


# Contents.

@functools.cache
def of_one_short(page):
    """The first two numbers, from 0 on, such that pages of so many bytes that begin with one of them, in eight bytes, and are
    zero behind have keys of one short."""
    seen = {}
    for number in range(2**22):
        found = short(number.to_bytes(8, "big") + bytes(page - 8))
        if found in seen:
            return seen[found], number
        seen[found] = number
    raise Wrong(f"no two of so many pages of {page} bytes have one short")


class Shorts:
    """Two contents of one short, zeros, and a content of another short."""

    def __init__(self, draw, page):
        self.draw, self.numbers, self.places = draw, [*of_one_short(page), 0, 1], [5, 6, 7]

    def whole(self):
        """A write that makes a page one of them, since its other bytes are zero."""
        return f"0 {self.draw.choice(self.numbers).to_bytes(8, 'big').hex()}"

    part = whole


class Contents:
    """Few contents of pages of one size: a base, and others that differ from it in one byte, at the front, in the middle, at
    the end or anywhere."""

    def __init__(self, draw, page):
        self.draw, self.page = draw, page
        self.base = draw.choice([bytes(page), draw.randbytes(page), draw.randbytes(16) * (page // 16)])
        self.places = [0, 1, page // 2, page - 1, page - 2, draw.randrange(page), 16 * draw.randrange(page // 16)]

    def whole(self):
        """A write of a whole page."""
        data = bytearray(self.base)
        if self.draw.random() < 0.6:
            data[self.draw.choice(self.places)] ^= self.draw.choice([1, 128])
        return f"0 {data.hex()}"

    def part(self):
        """A write of one byte, most often one that makes a page that is like another."""
        place = self.draw.choice(self.places)
        byte = self.base[place] ^ self.draw.choice([0, 0, 1, 128])
        return f"{place} {byte:02x}"


def content_event(draw, few, vms, pages):
    vm, page, chance = draw.choice(vms), draw.randrange(pages), draw.random()
    if chance < 0.05:
        return f"write {vm} {page} {few.whole()}"
    if chance < 0.28:
        return f"write {vm} {page} {few.part()}"
    if chance < 0.65:
        return f"scan {vm} {page}"
    if chance < 0.75:
        return f"read {vm} {page} {draw.choice(few.places)} 1"
    if chance < 0.90:
        return f"swapout {vm} {word(draw)}"
    return draw.choice(["rebalance", "rebalance", f"lend {vm} {page}", f"takeback {vm} {page}", f"ask {vm}",
                        f"replace {vm} {page} {word(draw)}", f"shares {vm} {draw.randrange(1, 3000)}"])


def contents(draw, page=None, pages=None, kind=Contents):
    """Pages of few, equal and nearly equal contents: written, scanned, scanned again, paged out and brought back."""
    page, machines, pages = page or draw.choice(LARGE), draw.choice([1, 2, 3]), pages or draw.choice([6, 12, 20])
    few, most, vms = kind(draw, page), machines * pages, sorted(draw.sample([0, 1, 31, 32, 255], machines))
    lowest = 2 * machines + most
    yield site(max(8, most + machines + draw.choice([0, 1, most // 4, most])), page, most, draw.choice([0, 75, 99]),
               draw.choice([(6, 4, 2, 1), (50, 40, 20, 5), (50, 50, 50, 1)]))
    yield from opened([(1, pages, 1, 1000, draw.choice([0, 0, pages // 2]))] * machines, vms)
    yield from [f"write {vm} {number} {few.part()}" for vm in vms for number in range(pages)]
    for _ in range(draw.choice([60, 150])):
        chance = draw.random()
        where = f"{draw.choice(vms)} {draw.randrange(pages)}"
        if chance < 0.8:
            yield content_event(draw, few, vms, pages)
        elif chance < 0.86:
            yield from moves(draw, lowest, draw.choice([f"page {where}", "table"]))
        elif chance < 0.94:
            yield draw.choice([f"page {where}", f"pageout {where}"])
        else:
            tried = [content_event(draw, few, vms, pages) for _ in range(draw.choice([1, 3]))]
            yield "whatif " + "; ".join(tried)
    yield from [f"read {vm} {number} 0 {page}" for vm in vms for number in range(pages)]


def shorts(draw):
    """The same with contents of which two have one short, so that scans meet hints of pages with other bytes."""
    yield from contents(draw, draw.choice([16, 16, 272, 400, 4096]), draw.choice([3, 6]), Shorts)


def each_size(draw, page):
    """At a page of this size: pages that differ in one byte share nothing, and equal ones do, also after they were out."""
    few = Contents(draw, page)
    places = sorted({*few.places, *(draw.randrange(page) for _ in range(4))})
    yield site(len(places) + 10, page, 40, 75, (50, 49, 48, 1))
    yield from opened([(1, len(places) + 1, 1, 1000, 0), (1, len(places) + 2, 1, 1000, 0)])
    for vm in (0, 1):
        for number, place in enumerate(places):
            yield f"write {vm} {number} 0 {few.base.hex()}"
            yield f"write {vm} {number} {place} {few.base[place] ^ 1:02x}"
            yield f"scan {vm} {number}"
        yield f"write {vm} {len(places)} 0 {few.base.hex()}"
        yield f"scan {vm} {len(places)}"
    yield from ("sum", "undo 9", "table", "redo 9", "rebalance", "table")
    yield from [f"scan {vm} {number}" for vm in (0, 1) for number in range(len(places) + 1)]
    yield from (*[f"swapout {draw.randrange(2)} {word(draw)}" for _ in range(20)], "table")
    for number, place in enumerate(places):
        yield from (f"read 0 {number} {place} 1", f"write 1 {number} {place} {few.base[place]:02x}", "rebalance",
                    f"swapout 0 {word(draw)}", f"scan 0 {number}", f"scan 1 {number}")
    yield from [f"scan {vm} {number}" for vm in (1, 0) for number in range(len(places) + 1)]
    yield "sum"


def leaving(draw):
    """Pages that leave beside others that stand under keys: few or many of them, alike, unlike, and alike or unlike again after
    a write, an undo or a return."""
    page, pages, listed = draw.choice([256, 272, 400, 4096]), draw.choice([8, 30, 120]), draw.choice([0.02, 0.1, 0.3])
    few = Contents(draw, page)
    yield site(2 * pages + 4, page, 2 * pages, 75, (50, 50, 50, 1))
    yield from opened([(1, pages, 1, 1000, 0)] * 2)
    for vm in (0, 1):
        yield from [f"write {vm} {number} {draw.choice([few.whole(), f'{page - 4} {draw.getrandbits(32):08x}'])}"
                    for number in range(pages)]
    yield "rebalance"
    for _ in range(draw.choice([100, 400])):
        vm, number, chance = draw.randrange(2), draw.randrange(pages), draw.random()
        if chance < 0.5:
            yield f"swapout {vm} {word(draw)}"
        elif chance < 0.5 + listed:
            yield f"scan {vm} {number}"
        elif chance < 0.9:
            yield draw.choice([f"write {vm} {number} {few.part()}", f"read {vm} {number} 0 1", f"write {vm} {number} {few.whole()}"])
        else:
            yield from moves(draw, 4 + pages, draw.choice([f"page {vm} {number}", "table", "sum"]))
    yield from [f"read {vm} {number} 0 {page}" for vm in (0, 1) for number in range(pages)]


def many_contents(draw, count):
    """More contents than the program notes, each on one page, and then some of them again."""
    page = draw.choice([384, 400])
    yield site(count + 4000, page, 0)
    most = (count + 2000) // 2
    yield from opened([(most, most, 1, 1000, 0)] * 2)
    for number in range(count):
        vm, at = number % 2, number // 2
        yield f"write {vm} {at} {page - 4} {number:08x}"
        yield f"scan {vm} {at}"
        if draw.random() < 0.1:
            yield f"write {draw.randrange(2)} {most - 1 - draw.randrange(900)} {page - 4} {draw.randrange(number + 1):08x}"
            yield f"scan {draw.randrange(2)} {most - 1 - draw.randrange(900)}"
    yield "sum"


# Machines with many pages.

def paging(draw):
    """Machines with many pages, of which some are out: drawn pages by words of any length, and their return."""
    machines, pages, page = draw.choice([1, 2]), draw.choice([255, 257, 300, 513, 1100]), draw.choice([16, 240, 4096])
    there = draw.choice([pages // 2, pages - 3, pages - 40])
    yield site(machines * (there + 1) + draw.choice([0, 2]), page, machines * pages, 75, (50, 40, 30, draw.choice([1, 20])))
    yield from opened([(1, pages, 1, 1000, 0)] * machines)
    for vm in range(machines):
        yield from [f"write {vm} {number} {page - 2} {number % 7:04x}" for number in draw.sample(range(pages), there)]
    yield "rebalance"
    for _ in range(300):
        vm, number, chance = draw.randrange(machines), draw.randrange(pages), draw.random()
        if chance < 0.4:
            yield draw.choice([f"swapout {vm} {word(draw)}", f"swapout {vm} {word(draw)}", f"pageout {vm} {number}"])
        elif chance < 0.8:
            yield draw.choice([f"read {vm} {number} {page - 2} 2", f"write {vm} {number} {page - 2} {number % 7:04x}"])
        elif chance < 0.87:
            yield draw.choice([f"scan {vm} {number}", f"page {vm} {number}", f"advise {vm} {number}"])
        elif chance < 0.94:
            yield draw.choice([f"shares {vm} {draw.randrange(1, 2**20)}", "rebalance", "rebalance", "sum"])
        else:
            yield from moves(draw, 2 * machines + there // 2, draw.choice([f"page {vm} {number}", "table"]))


def replacing(draw):
    """All frames are promised and in use, so that a page takes the frame of another one of its machine."""
    least, page = draw.choice([3, 17, 255, 300]), draw.choice([16, 256, 1024])
    pages = least + draw.choice([1, 20, 400])
    yield site(max(8, 2 * least + 2), page, 2 * (pages - least))
    yield from opened([(least, pages, 1, 1000, draw.choice([0, pages - least]))] * 2)
    for vm in (0, 1):
        yield from [f"write {vm} {number} {page // 2} {number % 5:02x}" for number in draw.sample(range(pages), least)]
    yield from ("rebalance", *[f"lend {draw.randrange(2)} {draw.randrange(pages)}" for _ in range(3)])
    for _ in range(150):
        vm, number, chance = draw.randrange(2), draw.randrange(pages), draw.random()
        if chance < 0.6:
            yield f"replace {vm} {number} {word(draw)}"
        elif chance < 0.78:
            yield draw.choice([f"read {vm} {number} {page // 2} 1", f"write {vm} {number} {page // 2} {number % 5:02x}"])
        elif chance < 0.92:
            yield draw.choice([f"advise {vm} {number}", f"page {vm} {number}", f"scan {vm} {number}", f"lend {vm} {number}",
                               f"ask {vm}", f"swapout {vm} {word(draw)}", "table"])
        else:
            yield from moves(draw, 4 + least, f"page {vm} {number}")


def samples(draw):
    """Sample periods of up to 100 marks, equal ones and such that are 1,024 pages apart, over accesses, moves and closes."""
    pages = draw.choice([6, 40, 1030, 3000])
    yield site(2 * 400 + 4, 16, 2 * pages, 75, (50, 40, 30, 1))
    yield from opened([(1, pages, 1, 1000, draw.choice([0, pages - 1]))] * 2)
    yield from [f"read {number % 2} {number % pages} 0 1" for number in range(16)]
    marks = [draw.randrange(pages) for _ in range(8)]
    for _ in range(220):
        vm, chance = draw.choice([0, 0, 0, 1]), draw.random()
        number = (draw.choice(marks) + draw.choice([0, 0, 0, 1, 1024, 2048])) % pages
        if chance < 0.14:
            count = draw.choice([1, 2, 30, 99, 100, 100, 101])
            marks = [draw.randrange(pages) for _ in range(draw.choice([1, 8, 100]))]
            words = [draw.choice(marks) + pages * draw.choice([0, 0, 1, 2**40 // pages]) for _ in range(count)]
            yield f"sample {vm} {draw.choice([1, 2, 3, 5, 12, 40, 2**20])} {' '.join(map(str, words))}"
        elif chance < 0.70:
            yield draw.choice([f"read {vm} {number} 0 1", f"write {vm} {number} 3 2a"])
            yield f"vm {vm}"
        elif chance < 0.82:
            yield from moves(draw, 12, f"vm {vm}")
        elif chance < 0.88:
            yield "whatif " + "; ".join(f"read {vm} {draw.choice(marks)} 0 1" for _ in range(draw.choice([1, 2, 6])))
        elif chance < 0.92:
            yield from draw.choice([[f"stop {vm}", f"vm {vm}", "undo 1", f"vm {vm}"], [f"lend {vm} {number}", f"ask {vm}"]])
        else:
            yield draw.choice(["rebalance", "table", f"swapout {vm} {word(draw)}", f"tax {draw.choice([0, 50, 99])}", "where"])


# Much in use.

def much_in_use(draw):
    """So many long pages in frames that accesses are looked at ahead: first touches, then runs of accesses to all pages, to the
    same few and to none, with other lines between them."""
    size, page = 1200, 4096
    yield site(size + 60, page, size)
    yield from opened([(1, size, 1, 1000, 0)])

    def access(number):
        at = draw.randrange(page - 8)
        return draw.choice([f"read 0 {number} {at} 8", f"write 0 {number} {at} {draw.getrandbits(64):016x}"])

    yield from map(access, range(size))
    for _ in range(60):
        numbers, number = draw.choice([range(size), range(size), range(4), [size]]), draw.randrange(size)
        yield from [access(draw.choice(numbers)) for _ in range(draw.choice([1, 2, 15, 16, 17, 48]))]
        yield draw.choice([f"scan 0 {number}", "undo 3", "redo 2", "where", f"page 0 {number}", f"read 9 {number} 0 1",
                           f"read 0 {number} 4095 1", f"read 0 {number} 4096 1", f"write 0 {number} 0 {'ab' * page}"])


# Many machines.

def targets(draw):
    """Up to 256 machines under pressure, with shares far apart and taxes of their own, some at their least and some idle."""
    count = draw.choice([1, 2, 5, 8, 12, 20, 32, 33, 64, draw.choice([150, 256])])
    vms = sorted(draw.sample(range(256), count))
    pages = [draw.choice([1, 3, 10, 1500 // count, 3000 // count]) for _ in range(count)]
    frames = max(8, sum(pages) + count)
    shares = draw.choice([lambda: 1000, lambda: draw.choice([1, 2**20]), lambda: draw.randrange(1, 2**20 + 1),
                          lambda: 2**draw.randrange(21)])
    machines = [(draw.choice([1, 1, max(1, size // 2), size]), size, 1, shares(), 0, *own_tax(draw)) for size in pages]
    yield site(frames, 16, frames, draw.choice([0, 1, 75, 99]), draw.choice([(50, 50, 50, 50), (50, 40, 20, 10), (20, 10, 5, 1)]))
    yield from opened(machines, vms)
    for vm, size in zip(vms, pages):
        yield from [f"read {vm} {number} 0 1" for number in range(size - draw.choice([0, 0, 1, size // 3]))]
        yield from [f"sample {vm} 1 {size - 1}", f"read {vm} 0 0 1"] * draw.choice([0, 1, 3])
    for _ in range(12):
        for _ in range(draw.choice([0, 1, 4, 8])):
            at = draw.randrange(count)
            vm, page, tau = vms[at], draw.randrange(pages[at]), draw.choice([0, 10, 75, 98, 99, 100, draw.randrange(100)])
            yield draw.choice([f"shares {vm} {shares()}", f"tax {tau}", f"vmtax {vm} {tau}", f"vmtax {vm} {tau}",
                               f"swapout {vm} {word(draw)}", f"sample {vm} 1 {page} {draw.randrange(pages[at])}",
                               f"advise {vm} {page}", f"read {vm} {page} 0 1", f"read {vm} {page} 0 1"])
        yield from ("rebalance", "table")
    yield from ("undo 9", "table", "redo 9", "table")


# Trees.

def grown(draw, nodes, first):
    """A tree of so many nodes: a chain, tips at one node, a comb, or any; `first` is about the number that is made next."""
    shape = draw.choice(["chain", "tips", "drawn", "comb"])
    for made in range(nodes):
        yield f"write 0 {draw.randrange(4)} 0 {made & 255:02x}"
        if shape == "tips" or shape == "comb" and made % 2:
            yield "undo 1"
        elif shape == "drawn" and made % 3 == 0:
            yield f"goto {first + draw.randrange(made + 1)}"


def last_pruned(draw, made):
    """A node with two children, of which the last is pruned: there is nothing to redo until the cursor goes down again."""
    yield from (f"write 0 0 0 {draw.randrange(256):02x}", "undo 1", "write 0 0 0 99", "undo 1", f"prune {made + 2}", "redo 1",
                f"goto {made + 1}", "undo 1", "redo 1")


def prunes(draw):
    """Prunes of leaves, chains, tips and branches of drawn trees, some of which are refused, with moves between."""
    yield site(16, 16, 8, nodes=draw.choice([2**24, 2**24, 400]))
    yield from opened([(4, 4, 1, 1000, 0)])
    made = 2
    for _ in range(draw.choice([1, 2, 4])):
        yield from ("goto 2", f"mark n{draw.randrange(9)}")
        size = draw.choice([3, 40, 150, 400])
        yield from grown(draw, size, made + 1)
        made += size
        yield draw.choice(["goto 2", f"goto {made}", f"goto {draw.randrange(3, made + 1)}"])
        for _ in range(draw.choice([1, 4, 30])):
            node = draw.choice([made - draw.randrange(6), draw.randrange(made + 3), draw.randrange(max(2, made - size), made + 1)])
            yield f"prune {node}"
            yield draw.choice([f"goto {node}", "where", "where", f"redo {draw.randrange(4)}", f"visit n{draw.randrange(9)}"])
        yield from ("goto 2", *last_pruned(draw, made))
        made += 2
    yield from [f"goto {draw.randrange(made)}" for _ in range(60)]
    yield from ("goto 2", *["redo 1"] * 20, "read 0 0 0 16", "marks", "where")


def long_prunes(draw, most):
    """Branches of few and of many nodes, with few and with many nodes made after them."""
    yield site(16, 16, 8)
    yield from opened([(4, 4, 1, 1000, 0)])
    made, roots = 2, []
    for size in (1, 2, 15, 16, 17, 18, 60, most, 40, 100, 3, most, 16, 1, 200):
        roots.append(made + 1)
        yield from ("goto 2", *grown(draw, size, made + 1))
        made += size
    for _ in range(150):
        node = draw.choice([draw.randrange(3, made + 1), made - draw.randrange(40), roots[0] + draw.randrange(60)])
        yield from (f"goto {draw.choice([2, 2, draw.randrange(3, made + 1)])}", f"prune {node}", f"goto {node}")
    yield from [f"goto {draw.randrange(made + 1)}" for _ in range(150)]
    yield from ("goto 2", *[f"prune {root}" for root in roots])


# Numbers and verbs.

ODD = "/:;aAfg-+. x_"


def spoilt(draw, digits):
    """A number with leading zeros, another sign in it, or one more or less."""
    at = draw.randrange(len(digits) + 1)
    return draw.choice([digits, digits, "0" + digits, digits[:at] + draw.choice(ODD) + digits[at:],
                        digits[:at] + draw.choice(ODD) + digits[at + 1:], str(int(digits) + 1)])


def digits(draw):
    """Numbers of 1 to 21 digits, as words and as others: what they are shows in the page that they draw."""
    there = 997
    yield site(there + 2, 16, there, 75, (50, 50, 50, 50))
    yield from opened([(1, there, 1, 1000, 0)])
    yield from [f"read 0 {number} 0 1" for number in range(there)]
    for _ in range(20):
        marks = [draw.getrandbits(64) for _ in range(100)]
        yield from (f"sample 0 1 {' '.join(map(str, marks))}", f"read 0 {draw.choice(marks) % there} 0 1", "vm 0", "undo 2")
    yield "rebalance"
    edges = [0, 2**32 - 1, 2**32, 2**63, 2**64 - 1, 2**64, 2**64 + 1, 10**19, 10**20 - 1, 10**16, 10**16 - 1, 10**8, 99999999]
    for _ in range(250):
        length = draw.randint(1, 21)
        drawn = draw.choice([str(draw.choice(edges)), "".join(draw.choice("0123456789") for _ in range(length)),
                             str(draw.randrange(10**(length - 1), 10**length)), draw.choice("123456789") * length,
                             str(draw.getrandbits(64))])
        text = spoilt(draw, drawn) if draw.random() < 0.4 else drawn
        yield draw.choice([f"whatif swapout 0 {text}", f"whatif swapout 0 {text}", f"whatif sample 0 {text} 1",
                           f"page 0 {text}", f"redo {text}", f"read 0 {text} 0 1", f"read 0 0 {text} 1", f"prune {text}",
                           f"whatif swapout 0 {text}; swapout 0 {drawn}", f"vm {text}",
                           "whatif sample 0 1 " + " ".join(draw.choice([text, drawn, str(draw.getrandbits(64))])
                                                           for _ in range(draw.choice([1, 7, 100, 200, 201])))])


def verbs(draw, events, others):
    """Commands whose first word has another letter, one more or one less, and some that are as they should be."""
    fields = {"machine": "0", "number": "3", "word": "5", "bytes": "2a", "words": "1 2", "name": "a", "own tax": "50"}
    yield site(20, 16, 8)
    yield from opened([(4, 4, 1, 1000, 0)])
    for verb, kinds in {**events, **others, "whatif": ["event"]}.items():
        rest = " ".join(fields.get(kind, "read 0 0 0 1") for kind in kinds)
        for at in range(len(verb)):
            for other in (verb[:at] + verb[at + 1:], verb[:at] + draw.choice("aeiorstz") + verb[at:],
                          verb[:at] + draw.choice("aeiorstz") + verb[at + 1:], verb[:at] + verb[at].upper() + verb[at + 1:]):
                yield f"{other} {rest}".rstrip()
        yield from (f"{verb} {rest}".rstrip(), f"{verb}  {rest}", f"{verb} ", f"{verb}", f"{verb}\t{rest}", f" {verb} {rest}")


# All of it.

def mixed(draw):
    """Any commands, at any site."""
    low = draw.choice([1, 1, 5])
    yield site(draw.choice([8, 8, 12, 20, 60, 400]), draw.choice([16, 32, 256, 4096]), draw.choice([0, 8, 20, 900]),
               draw.choice([0, 75, 99]), (draw.choice([6, 50]), low + 1, low, low), draw.choice([2**24, 2**24, 10, 60]))
    least, more, pair = draw.choice([1, 1, 2]), draw.choice([3, 5]), draw.choice(PAIRS)
    yield from opened([(least, least + more, 1, 1000, draw.choice([0, more]), *own_tax(draw))] * draw.choice([1, 1, 2]), pair)
    yield from [f"write {draw.choice(pair)} {draw.randrange(6)} 0 {draw.choice(['2a', 'ff'])}" for _ in range(5)]
    yield from [command(draw, pair) for _ in range(draw.choice([40, 200]))]
