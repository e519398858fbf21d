#!/bin/sh
# Times a desk: calls per second of 1, 2, 4 and 8 threads at one desk, with peeks per second beside them, and of a
# console alone. Words: calls of each thread. Needs `rt`.
set -e
cd "$(dirname "$0")/../crates/bench_desk"
rt run -- 1000 > out.log 2>&1 || { cat out.log; exit 1; }
rm -f out.log
out/bench_desk "${1:-200000}" > /dev/null
