#!/usr/bin/env bash
# Measures the tables at the largest site: what a call costs, against a random access of a plain array in
# the same run, and the peak memory. Needs `rt` and python3.
set -euo pipefail
cd "$(dirname "$0")/../crates/bench_tables"
rt run -- 1 0 > out.log 2>&1 || { cat out.log; exit 1; }
rm -f out.log
python3 - <<'EOF'
import os
import time

FRAMES = 1 << 20
PAGES = 1 << 16
RUNS = 5


def spawn(work, size, count):
    return os.posix_spawn(
        "out/bench_tables",
        ["bench_tables", str(size), str(count), work],
        {},
        file_actions=[(os.POSIX_SPAWN_OPEN, 1, "/dev/null", os.O_WRONLY, 0)],
    )


def seconds(work, size, count):
    """The shortest of several runs."""
    shortest = float("inf")
    for _ in range(RUNS):
        start = time.perf_counter()
        _, status = os.waitpid(spawn(work, size, count), 0)
        shortest = min(shortest, time.perf_counter() - start)
        if status != 0:
            raise SystemExit(f"{work}: status {status}")
    return shortest


def peak(work, size, count):
    """The most kilobytes that were in memory, read while the program runs."""
    child, most = spawn(work, size, count), 0
    while os.waitpid(child, os.WNOHANG)[0] == 0:
        with open(f"/proc/{child}/status") as status:
            lines = [line.split() for line in status]
        most = max([most] + [int(line[1]) for line in lines if line[0] == "VmHWM:"])
    return most


cost = {}
print(f"{'work':10} {'rows':>8} {'calls':>9} {'calls/s':>12} {'ns/call':>8} {'peak KB':>8} {'bytes/row':>9}")
for work, size, count in [
    ("array", FRAMES, 1 << 22),
    ("take", FRAMES, FRAMES),
    ("swap", FRAMES, 1 << 22),
    ("resident", PAGES, 10**6),
]:
    spent = max(seconds(work, size, count) - seconds(work, size, 0), 1e-9)
    cost[work] = spent / count
    memory = peak(work, size, count)
    print(
        f"{work:10} {size:8} {count:9} {count / spent:12.0f} {1e9 * spent / count:8.1f} {memory:8}"
        f" {1024 * memory / size:9.1f}"
    )
print(f"a take_least costs {cost['take'] / cost['array']:.2f} random accesses of a plain array")
print(f"a swap_row or take_least at random costs {cost['swap'] / cost['array']:.2f}")
EOF
