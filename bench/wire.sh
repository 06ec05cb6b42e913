#!/bin/sh
# Times reading and writing a fragment of 1,432 bytes and a page of 256 updates, and a stream of
# such fragments that comes in single bytes. Each figure is of the best of five runs.
# Usage: bench/wire.sh, anywhere in the repository.
set -eu
top=$(cd "$(dirname "$0")/.." && pwd)
bench=$top/crates/wire_bench/out/wire_bench
[ -x "$bench" ] || "$top/check/prove" wire_bench

# the fastest run of a job that is done so many times
best() {
    rate=0
    for _ in 1 2 3 4 5; do
        found=$("$bench" "$1" "$2" 2>&1 >/dev/null)
        found=${found% MB/s}
        [ "$found" -le "$rate" ] || rate=$found
    done
    echo "$1: $rate MB/s"
}

best decode 200000
best encode 200000
best read_page 5000
best write_page 5000
best bytes 200
