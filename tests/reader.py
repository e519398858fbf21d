"""A plain reader of commands, sessions, scenarios and the program's words, as the README defines them.

It shares nothing with the program: it says of a line whether it is a command, of a session from which line on it is none,
and of a scenario what is told of it. It is written to be read beside the README, and not to be fast.
"""

import re
import tomllib
from collections import namedtuple

NUMBER, WORD, VM, OWN_TAX = "number", "word", "machine", "own tax"

# What texts of each version may have: machines and callers below a number, and taxes of single machines, or none.
Version = namedtuple("Version", "machines callers has_own_taxes")
OLD, NEW = Version(32, 64, False), Version(256, 512, True)

# What follows the first word of each event. An own tax may be left out.
EVENTS = {
    "admit": [VM, NUMBER, NUMBER, NUMBER, NUMBER, NUMBER, OWN_TAX],
    "start": [VM],
    "read": [VM, NUMBER, NUMBER, NUMBER],
    "write": [VM, NUMBER, NUMBER, "bytes"],
    "ask": [VM],
    "lend": [VM, NUMBER],
    "takeback": [VM, NUMBER],
    "sample": [VM, NUMBER, "words"],
    "rebalance": [],
    "scan": [VM, NUMBER],
    "swapout": [VM, WORD],
    "replace": [VM, NUMBER, WORD],
    "shares": [VM, NUMBER],
    "tax": [NUMBER],
    "vmtax": [VM, NUMBER],
    "stop": [VM],
    "drop": [VM, NUMBER],
    "gone": [VM],
}
OTHERS = {
    "undo": [NUMBER],
    "redo": [NUMBER],
    "goto": [NUMBER],
    "visit": ["name"],
    "mark": ["name"],
    "prune": [NUMBER],
    "sum": [],
    "table": [],
    "where": [],
    "marks": [],
    "vm": [VM],
    "page": [VM, NUMBER],
    "advise": [VM, NUMBER],
}
LONGEST_LINE = 16384


def number(field, most):
    """The number that a field is, none if it is none up to `most`."""
    if not re.fullmatch(r"0|[1-9][0-9]*", field) or int(field) > most:
        return None
    return int(field)


def is_field(kind, field, version):
    if kind in (NUMBER, OWN_TAX):
        return number(field, 2**32 - 1) is not None
    if kind == WORD:
        return number(field, 2**64 - 1) is not None
    if kind == VM:
        return number(field, version.machines - 1) is not None
    if kind == "bytes":
        return re.fullmatch(r"([0-9a-f]{2}){1,4096}", field) is not None
    return re.fullmatch(r"[a-z][a-z0-9_-]{0,31}", field) is not None


def is_made_of(kinds, fields, version):
    if kinds[-1:] == ["words"]:
        kinds, words = kinds[:-1], fields[len(kinds) - 1:]
        return (is_made_of(kinds, fields[:len(kinds)], version) and len(words) <= 200
                and all(is_field(WORD, word, version) for word in words))
    if kinds[-1:] == [OWN_TAX] and len(fields) < len(kinds):
        kinds = kinds[:-1]
    return len(fields) == len(kinds) and all(is_field(kind, field, version) for kind, field in zip(kinds, fields))


def is_event(text, version=NEW):
    word, *fields = text.split(" ")
    if not version.has_own_taxes and (word == "vmtax" or word == "admit" and len(fields) > 6):
        return False
    return word in EVENTS and is_made_of(EVENTS[word], fields, version)


def is_call(text, version=NEW):
    """Whether a text is a command other than `session`, in a text of this version. At the console all are of the new one."""
    word, *fields = text.split(" ")
    if word == "whatif":
        events = text[len("whatif "):].split("; ")
        return len(text) > len("whatif ") and len(events) <= 64 and all(is_event(event, version) for event in events)
    return is_event(text, version) or word in OTHERS and is_made_of(OTHERS[word], fields, version)


CONSOLE_WORDS = {"session": [], "order": [], "pageout": [VM, NUMBER]}  # they are no calls, and no session has them


def is_console_word(text):
    word, *fields = text.split(" ")
    return word in CONSOLE_WORDS and is_made_of(CONSOLE_WORDS[word], fields, NEW)


def lines_of(data):
    """The lines of some bytes. A carriage return before a line feed is dropped; at the end of the input it is kept."""
    *whole, last = data.split(b"\n")
    return [line[:-1] if line.endswith(b"\r") else line for line in whole] + ([last] if last else [])


def text_of(line):
    """A line of plain bytes as a text; none if it has other bytes."""
    return line.decode("ascii") if line.isascii() else None


def what_line_is(line):
    """Whether a line at the console is `nothing`, a `call`, one with a `word` of the console alone, or `none`."""
    if line == b"" or line.startswith(b"#"):
        return "nothing"
    text = text_of(line)
    if text is None or len(line) > LONGEST_LINE:
        return "none"
    if is_console_word(text):
        return "word"
    return "call" if is_call(text) else "none"


SITE = re.compile(r"frames (\S+) page (\S+) slots (\S+) tau (\S+) levels (\S+) (\S+) (\S+) (\S+) nodes (\S+)")


def site_of(text):
    """The nine numbers of a site's line; none if it is none, or its numbers make no site."""
    found = SITE.fullmatch(text or "")
    numbers = [number(field, 2**32 - 1) for field in found.groups()] if found else [None]
    if None in numbers:
        return None
    frames, page, slots, tau, high, soft, hard, low, nodes = numbers
    is_good = (8 <= frames <= 2**20 and 16 <= page <= 4096 and page % 16 == 0 and slots <= 2**20 and tau <= 99
               and 1 <= low <= hard <= soft <= high <= 50 and 1 <= nodes <= 2**24)
    return numbers if is_good else None


class Session:
    """A session: its site, and its calls, each with its caller and its reply lines."""

    def __init__(self, site):
        self.site, self.calls = site, []


class BadLine(Exception):
    """From this line on a text is no session."""


HEADS = {"esx session 1": OLD, "esx session 2": NEW}


def session_of(data):
    """The session that some bytes are. Its first line tells the version, and so what its calls may be."""
    lines = [text_of(line) for line in lines_of(data)]
    version = HEADS.get(lines[0]) if lines else None
    if version is None:
        raise BadLine(1)
    session = Session(site_of(lines[1] if len(lines) > 1 else None))
    if session.site is None:
        raise BadLine(2)
    for at, line in enumerate(lines[2:], 3):
        has_replies = not session.calls or session.calls[-1][2] != []
        if line is None:
            raise BadLine(at)
        if line.startswith("= ") and session.calls:
            session.calls[-1][2].append(line[2:])
        elif line == f"end {len(session.calls)}" and has_replies:
            if at != len(lines):
                raise BadLine(at + 1)
            return session
        else:
            caller, _, call = line.partition(" ")
            if not has_replies or number(caller, version.callers - 1) is None or not is_call(call, version):
                raise BadLine(at)
            session.calls.append((int(caller), call, []))
    raise BadLine(len(lines) + 1)


def told_of_session(data):
    """What `check` tells of bytes that are no session; none if they are one."""
    try:
        data.decode()
    except UnicodeDecodeError:
        return "bad text"
    try:
        session_of(data)
    except BadLine as bad:
        return f"bad line {bad}"
    return None


class BadKey(Exception):
    """The first key of a scenario that is bad."""


def integer(table, key, path, least, most, default=None):
    found = table.get(key, default)
    if type(found) is not int or not least <= found <= most:  # a truth value is none
        raise BadKey(f"{path}{key}")
    return found


def is_trace_line(line, pages, page):
    """Whether it is a command of a machine with so many pages of so many bytes, without its number."""
    word, *fields = line.split(" ") if isinstance(line, str) and line.isascii() else [""]
    if word not in ("read", "write", "ask", "lend", "takeback") or not is_made_of(EVENTS[word][1:], fields, NEW):
        return False
    if word == "ask":
        return True
    if word in ("lend", "takeback"):
        return int(fields[0]) < pages
    length = int(fields[2]) if word == "read" else len(fields[2]) // 2
    return int(fields[0]) < pages and length >= 1 and int(fields[1]) + length <= page


def read_machine(machine):
    integer(machine, "frames", "machine.", 8, 2**20)
    page = integer(machine, "page", "machine.", 16, 4096)
    if page % 16:
        raise BadKey("machine.page")
    integer(machine, "slots", "machine.", 0, 2**20)
    integer(machine, "tau", "machine.", 0, 99, 75)
    most = 50
    for level, default in (("high", 6), ("soft", 4), ("hard", 2), ("low", 1)):
        most = integer(machine, level, "machine.", 1, most, default)
    integer(machine, "nodes", "machine.", 1, 2**24, 2**24)
    return page


def read_run(run):
    if not isinstance(run, dict):
        raise BadKey("run")
    for key, least, most in (("seed", 0, 2**63 - 1), ("turns", 1, 10**6), ("sample", 1, 100), ("length", 1, 2**20)):
        integer(run, key, "run.", least, most, 1)


def read_vm(vm, path, taken, page, version):
    number_of_it = integer(vm, "id", path, 0, version.machines - 1)
    if number_of_it in taken:
        raise BadKey(f"{path}id")
    taken.add(number_of_it)
    least = integer(vm, "min", path, 1, 2**16)
    pages = integer(vm, "max", path, least, 2**16)
    integer(vm, "overhead", path, 1, 2**20)
    integer(vm, "shares", path, 1, 2**20)
    integer(vm, "balloon", path, 0, pages - least)
    if version.has_own_taxes:
        integer(vm, "tau", path, 0, 99, 0)
    trace = vm.get("trace", [])
    if not isinstance(trace, list) or len(trace) > 2**16 or not all(is_trace_line(line, pages, page) for line in trace):
        raise BadKey(f"{path}trace")


MACHINE = {"frames", "page", "slots", "tau", "high", "soft", "hard", "low", "nodes"}
RUN = {"seed", "turns", "sample", "length"}
MACHINE_OF_SITE = {"id", "min", "max", "overhead", "shares", "balloon", "trace"}


def unknown_keys(table, vms, version):
    known = MACHINE_OF_SITE | ({"tau"} if version.has_own_taxes else set())
    paths = [key for key in table if key not in ("version", "machine", "run", "vm")]
    paths += [f"machine.{key}" for key in table["machine"] if key not in MACHINE]
    paths += [f"run.{key}" for key in table.get("run", {}) if key not in RUN]
    for place, vm in enumerate(vms):
        paths += [f"vm.{place}.{key}" for key in vm if key not in known]
    return sorted(paths, key=str.encode)


def has_wide_number(value):
    """Whether a number in it is none of 64 bits: then it is not TOML."""
    if isinstance(value, dict):
        return any(has_wide_number(inner) for inner in value.values())
    if isinstance(value, list):
        return any(has_wide_number(inner) for inner in value)
    return type(value) is int and not -2**63 <= value < 2**63


def read_scenario(table):
    version = OLD if integer(table, "version", "", 1, 2) == 1 else NEW
    machine = table.get("machine")
    if not isinstance(machine, dict):
        raise BadKey("machine.frames")
    page = read_machine(machine)
    read_run(table.get("run", {}))
    vms = table.get("vm", [])
    if not isinstance(vms, list) or len(vms) > version.machines or not all(isinstance(vm, dict) for vm in vms):
        raise BadKey("vm")
    taken = set()
    for place, vm in enumerate(vms):
        read_vm(vm, f"vm.{place}.", taken, page, version)
    for path in unknown_keys(table, vms, version):
        raise BadKey(path)
    return machine["frames"]


def table_of(text):
    """The table that a text is. Two escapes of TOML 1.1 are written as those of TOML 1.0, which alone is known here."""
    try:
        return tomllib.loads(text)
    except tomllib.TOMLDecodeError:
        return tomllib.loads(re.sub(r"\\x([0-9A-Fa-f]{2})", r"\\u00\1", text.replace("\\e", "\\u001b")))


def told_of_scenario(data):
    """What `console` tells of bytes that are no scenario, and the frames of one that is."""
    try:
        table = table_of(data.decode())
    except tomllib.TOMLDecodeError:
        return "bad toml", None
    except UnicodeDecodeError:
        return "bad text", None
    if has_wide_number(table):
        return "bad toml", None
    try:
        return None, read_scenario(table)
    except BadKey as key:
        return f"bad key {key}", None


TAKE_NONE = ("console", "record", "help")
TAKE_ONE = ("console", "record", "run", "check", "diff", "replay", "migrate")
ECHO = "--echo"  # behind `console`, once, before or behind its file
OPTIONS = {"report": ["--at", "--csv"], "why": ["--at"]}  # of the words that ask about a session, each with a word behind it
TABLES = ["losses", "changes", "guests", "site", "steps"]


def is_option(name, field):
    """Whether a field may stand behind an option: the number or the name of a node, or a table."""
    return field in TABLES if name == "--csv" else is_field(NUMBER, field, NEW) or is_field("name", field, NEW)


def question_of_words(word, words):
    """The file that is asked about, what is asked of it and the options, as fields behind their names; none if the words are wrong."""
    left, options, words = [], {}, list(words)
    while words:
        field = words.pop(0)
        if not field.startswith("-"):
            left.append(field)
        elif field in OPTIONS[word] and field not in options and words and is_option(field, words[0]):
            options[field] = words.pop(0)
        else:
            return None
    file, *asked = left or [None]
    is_good = file is not None and len(asked) in ((1, 2) if word == "why" else (0,))
    return (file, asked, options) if is_good and all(is_field(NUMBER, one, NEW) for one in asked) else None


def file_of_words(words):
    """The command and the file, if any, that the program's words name; none if they are wrong."""
    if not words:
        return "console", None
    word, *more = words
    if word in OPTIONS:
        asked = question_of_words(word, more)
        return asked and (word, asked[0])
    if word == "console" and ECHO in more:
        more.remove(ECHO)
    is_plain = not any(one.startswith("-") for one in more)
    if is_plain and (not more and word in TAKE_NONE or len(more) == 1 and word in TAKE_ONE):
        return word, more[0] if more else None
    return None
