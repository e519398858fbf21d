"""A plain report: what the path to a node of a session lost, when, why, and what came of it, as the README defines it.

It shares nothing with the program. It makes the events of the path at a plain machine (machine.py), keeps what stands after
each, and finds each loss by looking where all pages are before and after. It is written to be read, and not to be fast.
"""

from collections import Counter, namedtuple

import reader
from console import Console
from machine import HIGH, LEVELS, Claim, Here, Lent, Out, Refused, Site

LOST = {"lend": "balloon", "swapout": "swap", "replace": "replace", "drop": "drop"}
GAINED = {type(None): "first", Lent: "pop", Out: "swapin"}
SPOTS = {type(None): ("untouched", None), Here: ("here", "frame"), Out: ("out", "slot"), Lent: ("lent", "epoch")}
SOON = 1000

Moment = namedtuple("Moment", "call caller node word fields text answer")


def place(site, page):
    """Where a page is; none where it is untouched, also after a loan that ended."""
    vm = site.vms.get(page[0])
    found = vm and vm.pages.get(page[1])
    return None if type(found) is Lent and found.epoch != vm.epoch else found


def pages_here(site):
    return {(number, page) for number, vm in site.vms.items() for page in vm.here()}


def frames_used(site):
    return len(site.at)


def slots_used(site):
    return site.slots - len(site.free_slots)


def moved(before, after):
    """How the place of a page changed that stays in frames, none where it did not."""
    if before.frame != after.frame:
        return "share" if after.is_shared else "cow"
    if before.is_shared != after.is_shared:
        return "host" if after.is_shared else "own"
    return None


def spot(found):
    """The kind of a place, and the frame, the slot or the epoch that tells it from others of its kind."""
    kind, at = SPOTS[type(found)]
    return kind, at and getattr(found, at)


def places(site):
    """Where each page is that is not untouched."""
    found = {(number, page): place(site, (number, page)) for number, vm in site.vms.items() for page in vm.pages}
    return {page: one for page, one in found.items() if one is not None}


def order(site):
    """The machines above their targets, the first to lose a page first."""
    return [claim.number for claim in sorted(Claim(site, number, vm.count(Here)) for number, vm in site.vms.items()
                                             if vm.is_above_target())]


def ratio(site, number):
    """Shares for a page in thousandths, an idle page counting by the tax, cut off."""
    claim = Claim(site, number, site.vms[number].count(Here))
    return 1000 * 65536 * claim.left // claim.cost


class Loss:
    """A page that left its frame, what stood before, and what came of it."""

    def __init__(self, story, event, page):
        self.event, self.moment, (self.vm, self.page) = event, story.moments[event - 1], page
        self.site = story.sites[event - 1]
        self.machine, self.life = self.site.vms[self.vm], story.lives[event][self.vm]
        self.how = LOST[self.moment.word]
        found = place(story.sites[event], page)
        self.slot = found.slot if type(found) is Out else None
        self.here, self.ratio = self.machine.count(Here), ratio(self.site, self.vm)
        self.has_own_tax = self.machine.tau is not None
        self.tax = self.machine.tau if self.has_own_tax else self.site.tau
        above = order(self.site)
        self.above, self.rank = len(above), above.index(self.vm) + 1 if self.vm in above else None
        self.next = next((number for number in above if number != self.vm), None)
        self.next_ratio = None if self.next is None else ratio(self.site, self.next)
        self.set_target(story)
        self.follow(story)

    def set_target(self, story):
        """The rebalance that set the target, and what it was for."""
        self.set = max((at for at in range(1, self.event) if story.moments[at - 1].word == "rebalance"
                        and story.lives[at][self.vm] == self.life), default=0)
        self.need = self.revoked = self.from_vm = None
        before = story.sites[self.set - 1]
        if self.set and before.level != HIGH:
            _, _, need, _, revoked = story.moments[self.set - 1].answer.split()
            vm = before.vms[self.vm]
            self.need, self.revoked = int(need), int(revoked)
            self.from_vm = max(vm.count(Here), vm.least) - story.sites[self.set].vms[self.vm].target

    def follow(self, story):
        """Whether the page came back in this life, and what was refused meanwhile."""
        self.back = self.gained = None
        end = len(story.sites)
        for at in range(self.event + 1, len(story.sites)):
            is_back = (self.vm, self.page) in story.here[at]
            if is_back or self.vm not in story.sites[at].vms:
                end, self.back = at, at if is_back else None
                break
        if self.back:
            self.gained = GAINED[type(place(story.sites[self.back - 1], (self.vm, self.page)))]
        self.waits = sum(is_wait(met, self.vm, self.page) for at in range(self.event, end) for met in story.met[at])

    @property
    def after(self):
        return self.back and self.back - self.event


def is_wait(met, vm, page=None):
    """Whether a call was a read or a write of a machine, or of its page, that was refused `Held` or `Short`."""
    text, number = met
    word, *fields = text.split(" ")
    return word in ("read", "write") and number in (8, 9) and int(fields[0]) == vm and page in (None, int(fields[1]))


class Story:
    """The path to a node of a session, moment by moment."""

    def __init__(self, session, at=None):
        console, makers, refused = Console(session.site), {}, []
        for call, (caller, text, _) in enumerate(session.calls, 1):
            stood = console.at
            reply = console.call(text, caller)
            word, *fields = text.split(" ")
            if reply[0].startswith("no "):
                refused.append((stood, (text, int(reply[0].split(" ")[1]))))
            elif word in reader.EVENTS:
                makers[console.made] = stood, Moment(call, caller, console.made, word, fields, text, reply[0])
        self.calls, self.made, self.node = len(session.calls), console.made, node_meant(console, at)
        self.moments, node = [], self.node
        while node:
            node, moment = makers[node]
            self.moments.insert(0, moment)
        nodes = [0] + [moment.node for moment in self.moments]
        self.met = [[met for stood, met in refused if stood == node] for node in nodes]
        self.elsewhere = len(refused) - sum(map(len, self.met))
        self.replay(Site(*session.site))

    def replay(self, site):
        self.sites, self.lives, self.most = [site], [Counter()], {}
        for moment in self.moments:
            site, lives = self.sites[-1].copy(), self.lives[-1].copy()
            site.event(moment.text)
            if moment.word == "admit":
                number, most = int(moment.fields[0]), int(moment.fields[2])
                lives[number] += 1
                self.most[number] = max(most, self.most.get(number, 0))
            self.sites.append(site)
            self.lives.append(lives)
        self.here = [pages_here(site) for site in self.sites]
        self.losses = [Loss(self, event, page) for event in range(1, len(self.sites))
                       for page in sorted(self.here[event - 1] - self.here[event])]

    def losses_of(self, vm, page=None):
        if vm not in self.most:
            raise Refused(1)
        if page is not None and page >= self.most[vm]:
            raise Refused(7)
        return [loss for loss in self.losses if loss.vm == vm and page in (None, loss.page)]

    def changes(self):
        return [change for event in range(1, len(self.sites)) for change in changes_of(self, event)]

    def guests(self):
        return [Guest(self, vm, life) for vm in sorted(self.most) for life in range(1, self.lives[-1][vm] + 1)]


class Change:
    """A page whose place is another after an event, and how it came there."""

    def __init__(self, story, event, page, before, after):
        self.event, self.moment, (self.vm, self.page) = event, story.moments[event - 1], page
        self.before, self.after = spot(before), spot(after)
        self.how = how_changed(self.moment.word, before, after)


def how_changed(word, before, after):
    """How a page's place changed in an event with this first word."""
    if type(before) is Here:
        return moved(before, after) if type(after) is Here else LOST[word]
    if type(after) is Here:
        return GAINED[type(before)]
    return "lend" if type(after) is Lent else "dropout" if type(before) is Out else "takeback"


def ends_by_itself(moment, before, after):
    """Whether a loan is over because the balloon began anew or its machine went: that is no change of its page."""
    return type(before) is Lent and after is None and (moment.word, moment.answer[:2]) != ("takeback", "ok")


def changes_of(story, event):
    """The pages whose places differ before and after an event: the page that makes room before the one that comes, and the one
    whose frame is shared before the one that comes to it."""
    before, after = places(story.sites[event - 1]), places(story.sites[event])
    found = []
    for page in sorted({*before, *after}):
        one, other = before.get(page), after.get(page)
        is_other = spot(one) != spot(other) or type(one) is Here and one.is_shared != other.is_shared
        if is_other and not ends_by_itself(story.moments[event - 1], one, other):
            found.append(Change(story, event, page, one, other))
    return sorted(found, key=lambda change: change.how not in ("replace", "host"))


def node_meant(console, at):
    if at is None:
        return console.at
    if at.isdigit():
        if int(at) > console.made:
            raise Refused(21)
        return int(at)
    if at not in console.named:
        raise Refused(23)
    return console.named[at]


class Guest:
    """A life of a machine, and what its events come to."""

    def __init__(self, story, vm, life):
        self.vm, self.life = vm, life
        self.count = Counter()
        stood = [at for at, site in enumerate(story.sites) if vm in site.vms and story.lives[at][vm] == life]
        for at in stood:
            self.count["held"] += sum(is_wait(met, vm) and met[1] == 8 for met in story.met[at])
            self.count["short"] += sum(is_wait(met, vm) and met[1] == 9 for met in story.met[at])
        for at in range(1, len(story.sites)):
            if story.lives[at][vm] == life:
                self.count.update(self.of_event(story, at))
        self.losses = [loss for loss in story.losses if (loss.vm, loss.life) == (vm, life)]
        self.count.update(loss.how for loss in self.losses)
        machines = [story.sites[at].vms[vm] for at in stood]
        pages = [machine.count(Here) for machine in machines]
        self.events, self.sum_here, self.most = len(stood), sum(pages), max(pages)
        self.above = sum(machine.is_above_target() for machine in machines)
        self.below = sum(count < machine.target for count, machine in zip(pages, machines))
        is_over = stood[-1] != len(story.sites) - 1
        self.here, self.target = (0, None) if is_over else (pages[-1], machines[-1].target)

    def of_event(self, story, at):
        """What an event did for this machine, but for losses."""
        moment, before, after = story.moments[at - 1], story.sites[at - 1], story.sites[at]
        if moment.word in ("read", "write") and int(moment.fields[0]) == self.vm:
            yield moment.word
        for page in story.here[at]:
            if page[0] == self.vm and page not in story.here[at - 1]:
                yield GAINED[type(place(before, page))]
            elif page[0] == self.vm:
                yield moved(place(before, page), place(after, page))

    @property
    def lost(self):
        return len(self.losses)

    @property
    def back(self):
        return sum(loss.back is not None for loss in self.losses)

    @property
    def soon(self):
        return sum(loss.back is not None and loss.after <= SOON for loss in self.losses)

    @property
    def waits(self):
        return sum(loss.waits for loss in self.losses)


# The site.


def first(values, best):
    """The least or the most of some values, and where it comes first."""
    found = best(values)
    return found, values.index(found)


class Sums:
    """What the events of a path come to for the site."""

    def __init__(self, story):
        sites, later = story.sites, story.sites[1:]
        levels = [site.level for site in sites]
        saved = [len(here) - frames_used(site) for here, site in zip(story.here, sites)]
        self.events = [sum(site.level == level for site in later) for level in range(4)]
        self.entered = [sum(now == level != then for then, now in zip(levels, levels[1:])) for level in range(4)]
        self.least_free = first([len(site.free) for site in sites], min)
        self.most_pages = first([len(here) for here in story.here], max)
        self.most_saved = first(saved, max)
        self.most_slots = first([slots_used(site) for site in sites], max)
        self.mean_saved = 1000 * sum(saved[1:]) // max(len(later), 1)
        rebalances = [moment for moment in story.moments if moment.word == "rebalance"]
        self.rebalances, self.revoked = len(rebalances), sum(int(moment.answer.split(" ")[-1]) for moment in rebalances)
        self.refused = Counter(number for met in story.met for _, number in met)
        end = sites[-1]
        shared = [place(end, page).is_shared for page in story.here[-1]]
        self.shared_frames = sum(place(end, next(iter(pages))).is_shared for pages in end.at.values())
        self.sharing = sum(shared) - self.shared_frames
        self.saved, self.slots = saved[-1], slots_used(end)


# Tables of values.


def thousandths(value):
    return None if value is None else f"{value // 1000}.{value % 1000:03}"


def csv_of(names, rows):
    lines = [names] + [",".join("" if value is None else str(value) for value in row) for row in rows]
    return "".join(f"{line}\n" for line in lines).encode()


def losses_csv(story):
    return csv_of(
        "event,node,call,by,vm,life,page,how,level,free,here,target,set,need,revoked,from_vm,shares,active,tax,ratio,above,rank,"
        "next,next_ratio,slot,back,as,after,waits",
        [[loss.event, loss.moment.node, loss.moment.call, loss.moment.caller, loss.vm, loss.life, loss.page, loss.how,
          LEVELS[loss.site.level], len(loss.site.free), loss.here, loss.machine.target, loss.set, loss.need, loss.revoked,
          loss.from_vm, loss.machine.shares, loss.machine.active(), loss.tax, thousandths(loss.ratio), loss.above, loss.rank,
          loss.next, thousandths(loss.next_ratio), loss.slot, loss.back, loss.gained, loss.after, loss.waits]
         for loss in story.losses])


def changes_csv(story):
    return csv_of(
        "event,node,call,by,vm,page,how,from,from_at,to,to_at",
        [[change.event, change.moment.node, change.moment.call, change.moment.caller, change.vm, change.page, change.how,
          *change.before, *change.after] for change in story.changes()])


COUNTED = ["read", "write", "first", "pop", "swapin", "balloon", "swap", "replace", "drop", "share", "host", "cow", "own"]


def guests_csv(story):
    return csv_of(
        "vm,life,reads,writes,first,pop,swapin,balloon,swap,replace,drop,share,host,cow,own,back,soon,waits,held,short,above,"
        "below,events,sum_here,most,here,target",
        [[guest.vm, guest.life, *(guest.count[name] for name in COUNTED), guest.back, guest.soon, guest.waits,
          guest.count["held"], guest.count["short"], guest.above, guest.below, guest.events, guest.sum_here, guest.most,
          guest.here, guest.target] for guest in story.guests()])


def site_csv(story):
    sums = Sums(story)
    rows = [("events", len(story.moments)), ("events_made", story.made), ("node", story.node), ("calls", story.calls),
            ("refused_on_path", sums.refused.total()), ("refused_elsewhere", story.elsewhere)]
    rows += [(f"{name}_events", count) for name, count in zip(LEVELS, sums.events)]
    rows += [(f"{name}_entered", count) for name, count in list(zip(LEVELS, sums.entered))[1:]]
    for name in ("least_free", "most_pages_here", "most_saved"):
        found, event = getattr(sums, name.removesuffix("_here"))
        rows += [(name, found), (f"{name}_event", event)]
    rows += [("mean_saved", thousandths(sums.mean_saved)), ("most_slots", sums.most_slots[0]),
             ("most_slots_event", sums.most_slots[1]), ("rebalances", sums.rebalances), ("revoked", sums.revoked)]
    rows += [(f"refused_{number}", count) for number, count in sorted(sums.refused.items())]
    rows += [("pages_here", len(story.here[-1])), ("pages_shared", sums.shared_frames), ("pages_sharing", sums.sharing)]
    return csv_of("name,value", rows)


def figures_of_site(site):
    """Its overhead, private, shared and free frames, and its level."""
    _, overhead, _, private, _, shared, _, free, level = site.sum().split()
    return overhead, private, shared, free, level


def figures_of_guest(vm):
    """Its pages in frames, target and active share, its pages in shared frames, and those that are lent and in slots."""
    shared = sum(type(found) is Here and found.is_shared for found in vm.pages.values())
    return vm.count(Here), vm.target, vm.active(), shared, vm.lent(), vm.count(Out)


NO_FIGURES = [None] * 6


def steps(story):
    """What stands at the opening, and after each event that changed any of it: a row for each guest of which it did."""
    then, guests_then = None, {}
    for event, site in enumerate(story.sites):
        moment = story.moments[event - 1] if event else None
        now, guests = figures_of_site(site), {number: figures_of_guest(vm) for number, vm in site.vms.items()}
        changed = [number for number in sorted({*guests, *guests_then}) if guests.get(number) != guests_then.get(number)]
        if not changed and now != then:
            changed = [None]
        for number in changed:
            yield [event, moment.node if moment else 0, moment and moment.caller, number, *now, *guests.get(number, NO_FIGURES)]
        then, guests_then = now, guests


def steps_csv(story):
    return csv_of("event,node,by,vm,overhead,private,shared,free,level,here,target,active,shared_pages,lent,out", steps(story))


# The text.


GUEST = [("vm", 3), ("life", 4), ("accesses", 9), ("first", 7), ("popped", 7), ("swapin", 7), ("lost", 7), ("balloon", 7),
         ("swap", 7), ("replace", 7), ("drop", 7), ("back", 7), ("soon", 6), ("waits", 6), ("shared", 7), ("cow", 6), ("held", 6),
         ("short", 6), ("above", 6), ("most", 6), ("here", 6), ("target", 6)]
# A column of words has a width below 0.
LOSS = [("event", 8), ("node", 8), ("by", 3), ("vm", 3), ("page", 6), ("how", -7), ("level", -5), ("free", 7), ("here", 6),
        ("target", 6), ("set", 8), ("shares", 7), ("act", 4), ("ratio", 10), ("rank", 5), ("next", 4), ("nratio", 10), ("back", 8),
        ("as", -6), ("after", 7), ("waits", 5)]


def line_of(columns, values):
    fields = ["-" if value is None else str(value) for value in values]
    return " ".join(field.ljust(-width) if width < 0 else field.rjust(width)
                    for field, (_, width) in zip(fields, columns, strict=True)).rstrip()


def heading(columns):
    return line_of(columns, [name for name, _ in columns])


def part(count, whole):
    tenths = 1000 * count // whole if whole else None
    return "-" if tenths is None else f"{tenths // 10}.{tenths % 10}%"


def site_lines(story, sums):
    site, events = story.sites[0], len(story.moments)
    least = " ".join(map(str, site.least_free))
    yield "esx report 1"
    yield f"frames {site.frames} page {site.page} slots {site.slots} levels {least} margin {site.margin}"
    yield (f"path events {events} of {story.made} made, to node {story.node}; calls {story.calls}, "
           f"refused on the path {sums.refused.total()}, elsewhere {story.elsewhere}")
    yield from ("", "site", "  level       events   part  entered")
    for level, name in enumerate(LEVELS):
        entered = sums.entered[level] if level else ""
        yield f"  {name:5} {sums.events[level]:12} {part(sums.events[level], events):>6} {entered:>8}".rstrip()
    end = story.sites[-1]
    yield "  free least %d at %d" % sums.least_free + f", now {len(end.free)}"
    yield "  pages in frames most %d at %d" % sums.most_pages + f", now {len(story.here[-1])} in {frames_used(end)} frames"
    yield "  saved by sharing most %d at %d" % sums.most_saved + f", mean {thousandths(sums.mean_saved)}, now {sums.saved}"
    yield ("  slots most %d at %d" % sums.most_slots
           + f", now {sums.slots}; rebalanced {sums.rebalances} times, {sums.revoked} pages revoked")


def guest_line(guest):
    count = guest.count
    return line_of(GUEST, [
        guest.vm, guest.life, count["read"] + count["write"], count["first"], count["pop"], count["swapin"], guest.lost,
        count["balloon"], count["swap"], count["replace"], count["drop"], guest.back, guest.soon, guest.waits, count["share"],
        count["cow"], count["held"], count["short"], part(guest.above, guest.events), guest.most, guest.here, guest.target])


def loss_line(loss):
    rank = loss.rank and f"{loss.rank}/{loss.above}"
    return line_of(LOSS, [
        loss.event, loss.moment.node, loss.moment.caller, loss.vm, loss.page, loss.how, LEVELS[loss.site.level],
        len(loss.site.free), loss.here, loss.machine.target, loss.set, loss.machine.shares, loss.machine.active() * 100 // 65536,
        thousandths(loss.ratio), rank, loss.next, thousandths(loss.next_ratio), loss.back, loss.gained, loss.after, loss.waits])


def report_lines(story):
    yield from site_lines(story, Sums(story))
    yield from ("", "guests", heading(GUEST), *map(guest_line, story.guests()))
    yield "  each row: first + popped + swapin - lost = here"
    yield from ("", "losses by level and mechanism", "  level  balloon    swap replace    drop")
    for level, name in enumerate(LEVELS):
        hows = Counter(loss.how for loss in story.losses if loss.site.level == level)
        yield f"  {name:5}" + "".join(f" {hows[how]:7}" for how in LOST.values())
    yield from ("", f"losses {len(story.losses)}", heading(LOSS), *map(loss_line, story.losses), "end")


# The sentences.


MECHANISM = {"balloon": "its balloon lent it; its bytes are given up", "swap": "paged out by the host, to slot {}",
             "replace": "it made room for another page of its own guest, to slot {}", "drop": "given back by the stopping guest"}
RETURN = {"swapin": "read from its slot", "pop": "the guest touched it, the balloon popped, and it is zeros",
          "first": "the guest touched it anew, and it is zeros"}


def since(loss):
    if not loss.set:
        return "since its admission"
    if loss.need is None:
        return f"since event {loss.set}, at level high"
    wanted = "1 frame was" if loss.need == 1 else f"{loss.need} frames were"
    return f"since event {loss.set}, where {wanted} wanted and {loss.from_vm} of the {loss.revoked} revoked came from it"


def reason(loss):
    other = f"guest {loss.next} at {thousandths(loss.next_ratio)}"
    if loss.rank == 1:
        more = "no other guest is above its target" if loss.next is None else f"{other} is next"
        return f": the least of {loss.above} above target; {more}"
    if loss.rank:
        return f": number {loss.rank} of {loss.above} above target, although {other} comes first"
    if loss.how == "replace":
        return ": no frame is free and no guest has more than its minimum, so it gives one of its own"
    return f"; the balloon is to hold {loss.machine.goal()} pages and held {loss.machine.lent()}"


def sentences(loss):
    site, machine = loss.site, loss.machine
    yield (f"Event {loss.event} (caller {loss.moment.caller}: {loss.moment.text[:40]}): guest {loss.vm} lost page {loss.page}: "
           f"{MECHANISM[loss.how].format(loss.slot)}.")
    if loss.how != "drop":
        returns = site.least_free[HIGH] + site.margin
        yield f"  Memory: level {LEVELS[site.level]}, {len(site.free)} of {site.frames} frames free (level high returns at {returns})."
        yield f"  The guest: {loss.here} pages in frames, target {machine.target} {since(loss)}."
        yield (f"  Its ratio was {thousandths(loss.ratio)} shares a page ({machine.shares} shares, "
               f"{machine.active() * 100 // 65536}% active, {'own tax' if loss.has_own_tax else 'tax'} {loss.tax}%){reason(loss)}.")
    waits = f", after {loss.waits} refused access{'' if loss.waits == 1 else 'es'}" if loss.waits else ""
    if loss.back:
        yield f"  It came back at event {loss.back} ({loss.after} later{waits}): {RETURN[loss.gained]}."
    else:
        yield f"  It did not come back on this path{waits}."


def why_lines(losses):
    yield from ("esx why 1", f"losses {len(losses)}")
    for loss in losses:
        yield from sentences(loss)


# What is told.


def bytes_of(lines):
    return "".join(f"{line}\n" for line in lines).encode()


def told_of_question(session, word, asked, options):
    """What `report` or `why` writes of a session whose replies are right; one that asks of what is not there is refused."""
    return told_of_story(Story(session, options.get("--at")), word, asked, options)


def told_of_story(story, word, asked, options):
    if word == "why":
        return bytes_of(why_lines(story.losses_of(*map(int, asked))))
    tables = {"losses": losses_csv, "changes": changes_csv, "guests": guests_csv, "site": site_csv, "steps": steps_csv}
    table = options.get("--csv")
    return tables[table](story) if table else bytes_of(report_lines(story))
