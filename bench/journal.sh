#!/bin/sh
# Times commits to a journal on disks in memory, and its load: COUNT commands (100000) of LENGTH bytes
# (40). Each time is processor time, the least of five runs, less that of the same commands with no
# journal, or of the commits alone; memory is the largest that a run had, likewise less. Memory is
# beside the length of the slot.
# Usage: bench/journal.sh [COUNT [LENGTH]], anywhere in the repository.
set -eu
top=$(cd "$(dirname "$0")/.." && pwd)
count=${1:-100000}
length=${2:-40}
(cd "$top/crates/slot_probe" && rt run -- take 0 0 >/dev/null)
program=$top/crates/slot_probe/out/slot_probe

# hundredths of a second and kilobytes of a run of so many commands, the least of five
least() {
    for _ in 1 2 3 4 5; do
        /usr/bin/time -f '%U %S %M' "$program" "$1" "$2" "$length" 2>&1 >/dev/null
    done | awk '{ t = ($1 + $2) * 100; if (NR == 1 || t < best) best = t; if (NR == 1 || $3 < small) small = $3 }
        END { printf "%.0f %d", best, small }'
}

# what so many commands add to a run
added() {
    set -- $(least "$1" "$count") $(least "$1" 0)
    echo $(($1 - $3)) $(($2 - $4))
}

set -- $(added take) $(added commit) $(added load)
end=$("$program" commit "$count" "$length" | awk '{ print $6 }')
awk -v tt="$1" -v tm="$2" -v ct="$3" -v cm="$4" -v lt="$5" -v lm="$6" -v end="$end" -v n="$count" 'BEGIN {
    printf "%d commands, a slot of %d bytes\n", n, end
    printf "commit  %.2f s  %.2f times the slot\n", (ct - tt) / 100, (cm - tm) * 1024 / end
    printf "load    %.2f s  %.2f times the slot\n", (lt - ct) / 100, (lm - cm) * 1024 / end
}'
