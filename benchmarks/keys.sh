#!/bin/sh
# Times the table of keys and the listings of frames beside the standard library's hash map, and `key` beside a plain
# digest: operations per second, and the peak memory of each part. Words: room, hints, operations, pages. Needs `rt` and
# /usr/bin/time.
set -e
cd "$(dirname "$0")/../crates/bench_keys"
rt run -- all 64 40 100 3 > /dev/null 2>&1
set -- "${1:-1048576}" "${2:-524288}" "${3:-1000000}" "${4:-20000}"
for part in table listings map pages; do
    /usr/bin/time -f "$part: %M KiB at most" out/bench_keys "$part" "$@"
done
