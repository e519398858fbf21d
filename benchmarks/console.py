#!/usr/bin/env python3
"""Feeds the console a million lines of `sum` and of `page`, and long lines, and prints lines per second
and peak memory. Words: the number of lines (1000000 where none is given)."""

import os
import subprocess
import sys
import tempfile
import time

TOP = os.path.dirname(os.path.dirname(os.path.abspath(__file__)))
PROGRAM = os.path.join(TOP, "esxplan")
OPENING = b"admit 0 2 6 1 1000 0\nstart 0\nread 0 0 0 1\n"


def peak_of(pid):
    _, status, usage = os.wait4(pid, 0)
    return os.waitstatus_to_exitcode(status), usage.ru_maxrss


def run(name, lines, line):
    with tempfile.NamedTemporaryFile() as source:
        source.write(OPENING)
        block = line * 1000
        for _ in range(lines // 1000):
            source.write(block)
        source.flush()
        source.seek(0)
        started = time.monotonic()
        child = subprocess.Popen([PROGRAM], stdin=source, stdout=subprocess.DEVNULL)
        status, peak = peak_of(child.pid)
        spent = time.monotonic() - started
    print(f"{name}: {lines} lines, {lines / spent:,.0f} lines per second, {peak / 1024:.0f} MiB at most, status {status}")


def run_long(length):
    """One line of so many bytes, then `sum`."""
    started = time.monotonic()
    child = subprocess.Popen([PROGRAM], stdin=subprocess.PIPE, stdout=subprocess.DEVNULL)
    block = b"x" * 1048576
    for _ in range(length // len(block)):
        child.stdin.write(block)
    child.stdin.write(b"\nsum\n")
    child.stdin.close()
    status, peak = peak_of(child.pid)
    print(f"line of {length} bytes: {time.monotonic() - started:.2f} s, {peak / 1024:.0f} MiB at most, status {status}")


def main():
    lines = int(sys.argv[1]) if len(sys.argv) > 1 else 1000000
    subprocess.run([PROGRAM], stdin=subprocess.DEVNULL, check=True)
    run("sum", lines, b"sum\n")
    run("page", lines, b"page 0 0\n")
    run("read", lines, b"read 0 0 0 4\n")
    run_long(1 << 24)
    run_long(1 << 30)


if __name__ == "__main__":
    main()
