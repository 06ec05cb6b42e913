#!/bin/sh
# Times a table of shared maps: how long a call of each kind takes, beside so many entries whose keys
# come in no order and in order. Each line is of one run.
# Usage: bench/maps.sh [ENTRIES ..], anywhere in the repository.
set -eu
cd "$(dirname "$0")/../crates/map_bench"
rt run -- 1000 >/dev/null 2>&1 || { echo "map_bench isn't built: rt run says why" >&2; exit 1; }
for entries in ${*:-1000 20000 100000}; do
    out/map_bench "$entries"
done
