#!/usr/bin/env bash
# Times the targets of 32 machines where 2^20 pages are needed, as the machine finds them and page by page.
set -euo pipefail
cd "$(dirname "$0")/../crates/bench_targets"
rt run -- chunks 32 0 1 > /dev/null
for way in "chunks 32 1024 1000" "chunks 32 32768 1000" "chunks 32 1048576 1000" "chunks 8 262144 1000" "pages 32 1048576 1"; do
    echo "== $way (machines, pages needed, times)"
    # shellcheck disable=SC2086
    TIMEFORMAT='%R seconds'
    time ./out/bench_targets $way
done
