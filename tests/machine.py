"""A plain machine: what each event answers and leaves, as the README and docs/ define it.

It shares nothing with the program. It goes by page: a page's place tells where it is and what bytes it has. It is written
to be read, and not to be fast.
"""

import hashlib
import heapq
from collections import namedtuple

NAMES = {1: "NoVm", 2: "VmThere", 3: "BadSpec", 4: "NoMemoryReserve", 5: "NoSwapReserve", 6: "NotRunning", 7: "OutOfRange",
         8: "Held", 9: "Short", 10: "OverGoal", 11: "NotLent", 12: "LentAlready", 13: "NotNow", 14: "AtTarget",
         15: "NotResident", 16: "BadWords", 17: "NotNeeded", 18: "PagesLeft", 19: "NothingToUndo", 20: "NothingToRedo",
         21: "NoSuchNode", 22: "NameTaken", 23: "NoSuchName", 24: "OnPath", 25: "Full", 27: "SampleOpen"}
LEVELS = ["high", "soft", "hard", "low"]
HIGH, SOFT, LOW = 0, 1, 3
HEADER = " vm state        min     max  target    here    lent     out  shares  active"

Here = namedtuple("Here", "data frame is_shared")
Out = namedtuple("Out", "data slot")
Lent = namedtuple("Lent", "epoch")
Period = namedtuple("Period", "length done entries touched")


class Refused(Exception):
    """An event or a call is refused, and changes nothing."""

    def __init__(self, number, more=""):
        super().__init__(f"no {number} {NAMES[number]}{more}")


def key(data):
    return hashlib.sha256(data).digest()[:8]


def short(data):
    """The upper half of the key, under which hints stand."""
    return key(data)[:4]


class Vm:
    """A virtual machine. A page that has no place is untouched. Its tax is none where it pays the site's."""

    def __init__(self, least, most, needed, shares, balloon, tau=None):
        self.least, self.most, self.needed, self.shares, self.balloon, self.tau = least, most, needed, shares, balloon, tau
        self.state, self.target, self.epoch, self.is_due = "starting", most, 0, False
        self.overhead, self.slow, self.fast, self.period, self.pages = [], 65536, 65536, None, {}

    def copy(self):
        other = Vm(self.least, self.most, self.needed, self.shares, self.balloon)
        other.__dict__.update(self.__dict__)
        other.overhead, other.pages = list(self.overhead), dict(self.pages)
        return other

    def here(self):
        return sorted(page for page, place in self.pages.items() if type(place) is Here)

    def count(self, kind):
        return sum(type(place) is kind for place in self.pages.values())

    def is_lent(self, page):
        return self.pages.get(page) == Lent(self.epoch)

    def lent(self):
        return sum(place == Lent(self.epoch) for place in self.pages.values())

    def goal(self):
        return min(self.balloon, self.most - self.target)

    def is_above_target(self):
        return self.count(Here) > self.target

    def touched(self):
        return sum(page in self.period.touched for page in self.period.entries) if self.period else 0

    def share_touched(self):
        return self.touched() * 65536 // len(self.period.entries)

    def active(self):
        return max(self.slow, self.fast, (self.fast + self.share_touched()) // 2 if self.period else self.fast)

    def counts_access(self, page):
        if self.period is None:
            return
        length, done, entries, touched = self.period
        self.period = Period(length, done + 1, entries, touched | ({page} & set(entries)))
        if done + 1 == length:
            share = self.share_touched()
            self.slow, self.fast, self.period = (self.slow * 7 + share) // 8, (self.fast + share) // 2, None


class Claim:
    """A machine's claim to so many pages. The least loses a page first: the one that has the fewest shares for what its pages
    cost, where idle ones cost more by the tax, and of equal ones that of the lower number. The tax is taken off the shares too,
    so that it cancels where all pages are used: what a machine is taxed tells on its idle pages alone."""

    def __init__(self, site, number, pages):
        vm = site.vms[number]
        tau = site.tau if vm.tau is None else vm.tau
        self.number, self.left, self.cost = number, vm.shares * (100 - tau), pages * (6553600 - tau * vm.active())

    def __lt__(self, other):
        left, right = self.left * other.cost, other.left * self.cost
        return left < right or left == right and self.number < other.number


class Site:
    """All of a machine that runs virtual machines."""

    def __init__(self, frames, page, slots, tau, high, soft, hard, low, _nodes):
        self.frames, self.page, self.slots, self.tau, self.level = frames, page, slots, tau, HIGH
        self.least_free = [max(frames * part // 100, rank) for part, rank in ((high, 4), (soft, 3), (hard, 2), (low, 1))]
        self.margin = max(1, frames // 200)
        self.vms = {}
        self.free, self.free_slots = list(range(frames)), list(range(slots))  # heaps
        self.at = {}                                                         # the pages that are in a frame
        self.shared, self.hints, self.hint_of = {}, {}, {}                   # by key, by short, by page

    def copy(self):
        other = object.__new__(Site)
        other.__dict__.update(self.__dict__)
        for name in ("free", "free_slots", "shared", "hints", "hint_of"):
            setattr(other, name, getattr(self, name).copy())
        other.at = {frame: set(pages) for frame, pages in self.at.items()}
        other.vms = {number: vm.copy() for number, vm in self.vms.items()}
        return other

    def event(self, text):
        """The answer to an event; one that is refused changes nothing."""
        word, *fields = text.split(" ")
        numbers = fields if word == "write" else [int(field) for field in fields]
        answer = getattr(self, word)(*numbers)
        self.step_level()
        return answer

    def step_level(self):
        free = len(self.free)
        deeper = [level for level in range(self.level + 1, LOW + 1) if free < self.least_free[level]]
        if deeper:
            self.level = deeper[-1]
        elif self.level > HIGH and free >= self.least_free[self.level - 1] + self.margin:
            self.level -= 1

    # Pages and frames.

    def place(self, page):
        return self.vms[page[0]].pages[page[1]]

    def put(self, page, place):
        self.vms[page[0]].pages[page[1]] = place
        if type(place) is Here:
            self.at.setdefault(place.frame, set()).add(page)

    def leave(self, page):
        """A page becomes untouched, and its frame or slot free where nobody else is in it."""
        place = self.vms[page[0]].pages.pop(page[1], None)
        if type(place) is Out:
            heapq.heappush(self.free_slots, place.slot)
        elif type(place) is Here:
            self.unhint(page)
            self.at[place.frame].remove(page)
            if not self.at[place.frame]:
                del self.at[place.frame]
                heapq.heappush(self.free, place.frame)
                if place.is_shared:
                    del self.shared[key(place.data)]

    def bring(self, page, data):
        self.put(page, Here(data, heapq.heappop(self.free), False))

    def hint(self, page):
        under = short(self.place(page).data)
        self.unhint(page)
        self.hints[under], self.hint_of[page] = page, under

    def unhint(self, page):
        under = self.hint_of.pop(page, None)
        if under is not None:
            del self.hints[under]

    # Machines.

    def vm(self, number):
        if number not in self.vms:
            raise Refused(1)
        return self.vms[number]

    def running(self, number):
        vm = self.vm(number)
        if vm.state != "running":
            raise Refused(6)
        return vm

    def running_with(self, number, page):
        vm = self.running(number)
        if page >= vm.most:
            raise Refused(7)
        return vm

    def admit(self, number, least, most, overhead, shares, balloon, tau=None):
        if number in self.vms:
            raise Refused(2)
        if not (1 <= least <= most <= 2**16 and 1 <= overhead <= 2**20 and 1 <= shares <= 2**20 and balloon <= most - least
                and (tau is None or tau <= 99)):
            raise Refused(3)
        memory = least + overhead + sum(vm.least + vm.needed for vm in self.vms.values())
        swap = most - least + sum(vm.most - vm.least for vm in self.vms.values())
        if memory > self.frames:
            raise Refused(4)
        if swap > self.slots:
            raise Refused(5)
        self.vms[number] = Vm(least, most, overhead, shares, balloon, tau)
        return f"ok memory {memory}/{self.frames} swap {swap}/{self.slots}"

    def start(self, number):
        vm = self.vm(number)
        if vm.state != "starting":
            raise Refused(6 if vm.state == "stopping" else 17)
        if not self.free:
            raise Refused(9)
        vm.overhead.append(heapq.heappop(self.free))
        if len(vm.overhead) == vm.needed:
            vm.state = "running"
        return f"ok frame {vm.overhead[-1]} overhead {len(vm.overhead)}/{vm.needed} {vm.state}"

    def stop(self, number):
        vm = self.vm(number)
        if vm.state == "stopping":
            raise Refused(6)
        vm.state, vm.period = "stopping", None
        return "ok"

    def drop(self, number, page):
        vm = self.vm(number)
        if vm.state != "stopping":
            raise Refused(17)
        if page >= vm.most:
            raise Refused(7)
        if type(vm.pages.get(page)) not in (Here, Out):
            raise Refused(17)
        self.leave((number, page))
        return "ok"

    def gone(self, number):
        vm = self.vm(number)
        if vm.state != "stopping":
            raise Refused(17)
        if vm.count(Here) + vm.count(Out):
            raise Refused(18)
        if vm.overhead:
            heapq.heappush(self.free, vm.overhead.pop())
        if vm.overhead:
            return f"ok overhead {len(vm.overhead)}"
        del self.vms[number]
        return "ok gone"

    def shares(self, number, shares):
        vm = self.vm(number)
        if not 1 <= shares <= 2**20:
            raise Refused(3)
        vm.shares = shares
        return "ok"

    def tax(self, tau):
        if tau > 99:
            raise Refused(3)
        self.tau = tau
        return "ok"

    def vmtax(self, number, tau):
        vm = self.vm(number)
        if tau > 99:
            raise Refused(3)
        vm.tau = tau
        return "ok"

    # Accesses.

    def needs_frame(self, vm, page, is_write):
        place = vm.pages.get(page)
        return type(place) is not Here or is_write and place.is_shared and len(self.at[place.frame]) > 1

    def is_held(self, vm):
        return self.level == LOW and vm.is_above_target()

    def access(self, number, page, at, length, is_write):
        """Brings a page in, to a frame of its own where it is written."""
        vm = self.running(number)
        if page >= vm.most or length == 0 or at + length > self.page:
            raise Refused(7)
        if self.is_held(vm):
            raise Refused(8)
        if self.needs_frame(vm, page, is_write) and not self.free:
            raise Refused(9)
        place = vm.pages.get(page)
        if type(place) is not Here:
            vm.is_due |= vm.is_lent(page)
            self.leave((number, page))
            self.bring((number, page), place.data if type(place) is Out else bytes(self.page))
        elif is_write and place.is_shared:
            if self.needs_frame(vm, page, True):
                self.leave((number, page))
                self.bring((number, page), place.data)
            else:
                del self.shared[key(place.data)]
                self.put((number, page), place._replace(is_shared=False))
        vm.counts_access(page)

    def read(self, number, page, at, length):
        self.access(number, page, at, length, False)
        return f"ok {self.place((number, page)).data[at:at + length].hex()}"

    def write(self, *fields):
        (number, page, at), data = map(int, fields[:3]), bytes.fromhex(fields[3])
        self.access(number, page, at, len(data), True)
        old = self.place((number, page))
        self.put((number, page), old._replace(data=old.data[:at] + data + old.data[at + len(data):]))
        return "ok"

    # Balloons.

    def is_reset(self, vm):
        """Whether a reset is due, which is made then."""
        if not vm.is_due:
            return False
        vm.epoch, vm.is_due = vm.epoch + 1, False
        return True

    def ask(self, number):
        vm = self.running(number)
        if self.is_reset(vm):
            return f"reset epoch {vm.epoch}"
        return f"ok goal {vm.goal()} lent {vm.lent()} epoch {vm.epoch}"

    def lend(self, number, page):
        vm = self.running_with(number, page)
        if self.is_reset(vm):
            return f"reset epoch {vm.epoch}"
        if vm.is_lent(page):
            raise Refused(12)
        if vm.lent() >= vm.goal():
            raise Refused(10)
        self.leave((number, page))
        vm.pages[page] = Lent(vm.epoch)
        return f"ok lent {vm.lent()} goal {vm.goal()}"

    def takeback(self, number, page):
        vm = self.running_with(number, page)
        if self.is_reset(vm):
            return f"reset epoch {vm.epoch}"
        if not vm.is_lent(page):
            raise Refused(11)
        del vm.pages[page]
        return f"ok lent {vm.lent()}"

    # Samples and targets.

    def sample(self, number, length, *words):
        vm = self.running(number)
        if not (1 <= len(words) <= 100 and 1 <= length <= 2**20):
            raise Refused(16)
        if vm.period:
            raise Refused(27)
        vm.period = Period(length, 0, [word % vm.most for word in words], frozenset())
        return f"ok period {length} pages {len(words)}"

    def rebalance(self):
        if self.level == HIGH:
            for vm in self.vms.values():
                vm.target = vm.most
            return "ok need 0 revoked 0"
        need = max(0, self.least_free[HIGH] + self.margin - len(self.free))
        pages = {number: max(vm.count(Here), vm.least) for number, vm in self.vms.items()}
        revoked = min(need, sum(pages[number] - vm.least for number, vm in self.vms.items()))
        self.revoke(pages, revoked)
        for number, vm in self.vms.items():
            vm.target = pages[number]
        return f"ok need {need} revoked {revoked}"

    def revoke(self, pages, count):
        """Takes one page after another from whoever is the first to lose one."""
        claims = [Claim(self, number, pages[number]) for number, vm in self.vms.items() if pages[number] > vm.least]
        heapq.heapify(claims)
        for _ in range(count):
            number = heapq.heappop(claims).number
            pages[number] -= 1
            if pages[number] > self.vms[number].least:
                heapq.heappush(claims, Claim(self, number, pages[number]))

    # Sharing and paging.

    def look(self, page):
        """What a scan of a page that is here comes to, and the other page that it found."""
        place = self.place(page)
        if place.is_shared:
            return "already", None
        if key(place.data) in self.shared:
            other = min(self.at[self.shared[key(place.data)]])
            return "shared" if self.place(other).data == place.data else "clash", other
        other = self.hints.get(short(place.data), page)
        if other == page:
            return "hinted", None
        if short(self.place(other).data) != short(place.data):
            return "stale", other
        return "shared" if self.place(other).data == place.data else "clash", other

    def share(self, page, other):
        """A page goes to the frame of another one with the same bytes."""
        theirs = self.place(other)
        if not theirs.is_shared:
            self.unhint(other)
            theirs = theirs._replace(is_shared=True)
            self.put(other, theirs)
            self.shared[key(theirs.data)] = theirs.frame
        self.leave(page)
        self.put(page, theirs)
        return theirs.frame

    def scan(self, number, page):
        vm = self.running_with(number, page)
        if type(vm.pages.get(page)) is not Here:
            raise Refused(15)
        told, other = self.look((number, page))
        if told == "shared":
            frame = self.share((number, page), other)
            return f"ok shared frame {frame} count {len(self.at[frame])}"
        if told == "stale":
            self.unhint(other)
        if told in ("stale", "hinted"):
            self.hint((number, page))
        return f"ok {told}"

    def word_of(self, number, page):
        """The least word by which `swapout` draws a page: its place among those of the machine in frames."""
        here = self.vm(number).here()
        if page not in here:
            raise Refused(15)
        return here.index(page)

    def swapout(self, number, word):
        vm = self.vm(number)
        if self.level == HIGH or self.level == SOFT and vm.state == "running" and vm.lent() < vm.balloon:
            raise Refused(13, f" {LEVELS[self.level]}")
        if not vm.is_above_target():
            raise Refused(14)
        page = vm.here()[word % vm.count(Here)]
        told, other = self.look((number, page))
        if told == "shared":
            return f"ok shared {page} frame {self.share((number, page), other)}"
        place = self.place((number, page))
        self.leave((number, page))
        self.put((number, page), Out(place.data, heapq.heappop(self.free_slots)))
        return f"ok out {page} slot {vm.pages[page].slot}"

    def replace(self, number, page, word):
        vm = self.running_with(number, page)
        wanted = vm.pages.get(page)
        if type(wanted) is Here or self.free or any(other.count(Here) > other.least for other in self.vms.values()):
            raise Refused(17)
        victim = vm.here()[word % vm.count(Here)]
        old = vm.pages[victim]
        vm.is_due |= vm.is_lent(page)
        self.leave((number, page))
        self.leave((number, victim))
        self.put((number, victim), Out(old.data, wanted.slot if type(wanted) is Out else self.free_slots[0]))
        self.free_slots.remove(vm.pages[victim].slot)
        heapq.heapify(self.free_slots)
        self.free.remove(old.frame)
        self.put((number, page), Here(wanted.data if type(wanted) is Out else bytes(self.page), old.frame, False))
        return f"ok out {victim} slot {vm.pages[victim].slot} frame {old.frame}"

    # Questions.

    def sum(self):
        shared = len(self.shared)
        return (f"overhead {sum(len(vm.overhead) for vm in self.vms.values())} private {len(self.at) - shared} "
                f"shared {shared} free {len(self.free)} {LEVELS[self.level]}")

    def table(self):
        lines = [HEADER]
        for number, vm in sorted(self.vms.items()):
            numbers = [vm.least, vm.most, vm.target, vm.count(Here), vm.lent(), vm.count(Out), vm.shares, vm.active()]
            lines.append(f"{number:3} {vm.state:8}" + "".join(f"{one:8}" for one in numbers))
        return lines + [self.sum()]

    def told_of_vm(self, number):
        vm = self.vm(number)
        length, done, entries, _ = vm.period or Period(0, 0, [], None)
        return (f"slow {vm.slow} fast {vm.fast} active {vm.active()} period {done}/{length} "
                f"touched {vm.touched()}/{len(entries)}")

    def told_of_page(self, number, page):
        vm = self.vm(number)
        if page >= vm.most:
            raise Refused(7)
        place = vm.pages.get(page)
        if type(place) is Out:
            return f"out slot {place.slot}"
        if vm.is_lent(page):
            return "lent"
        if type(place) is not Here:
            return "untouched"
        if place.is_shared:
            return f"here frame {place.frame} shared {len(self.at[place.frame])}"
        return f"here frame {place.frame} private{' hint' * ((number, page) in self.hint_of)}"

    def order(self):
        """The machines above their targets, in the order of their taxed ratios."""
        above = sorted(Claim(self, one, vm.count(Here)) for one, vm in self.vms.items() if vm.is_above_target())
        return [f"order {len(above)}"] + [self.told_in_order(claim) for claim in above]

    def told_in_order(self, claim):
        vm, ratio = self.vms[claim.number], 1000 * 65536 * claim.left // claim.cost
        tax = self.tau if vm.tau is None else f"{vm.tau} own"
        return (f"{claim.number} here {vm.count(Here)} target {vm.target} active {vm.active()} tax {tax} "
                f"ratio {ratio // 1000}.{ratio % 1000:03}")

    def advise(self, number, page):
        vm = self.running_with(number, page)
        if not self.is_held(vm) and (self.free or not self.needs_frame(vm, page, True)):
            return "go"
        above = [Claim(self, one, other.count(Here)) for one, other in self.vms.items() if other.is_above_target()]
        if above:
            return f"swapout {min(above).number}"
        return "rebalance" if any(other.count(Here) > other.least for other in self.vms.values()) else "replace"
