#!/bin/sh
# Times the built program on three members that change, remove, consume and pull: of 80 lines 54 are
# `change`, 9 `remove`, 9 `consume` and 8 `pull`, over 97 paths. Each time is the least of five runs,
# with the start of the process in it; the memory is the most that the process held.
# Usage: bench/busy-members.sh, anywhere in the repository.
set -eu
. "$(dirname "$0")/common.sh"

# three members and this many lines, then what each member holds: one member changes six files,
# removes the last of them and consumes that, then the next member does; every tenth line is a pull
# from the next member by one of the others
busy() {
    printf 'member a primary\nmember b plain\nmember c plain\n'
    awk -v lines="$1" 'BEGIN {
        split("a b c", m, " ")
        for (i = 0; i < lines; i++) {
            if (i % 10 == 9) {
                print "pull " m[(group + 2 * (int(i / 10) % 2)) % 3 + 1] " " m[(group + 1) % 3 + 1]
                continue
            }
            own = m[group % 3 + 1]
            if (step < 6) { file = "f" (group * 7 + step * 13) % 97; print "change " own " " file " " i }
            else if (step == 6) print "remove " own " " file
            else print "consume " own " " i
            if (++step == 8) { step = 0; group++ }
        }
    }'
    printf 'count a\ncount b\ncount c\n'
}

# the least time of five runs in microseconds, and the most memory in KiB
measured() {
    python3 - "$dfsr" "$1" "$work/out" <<'EOF'
import resource, subprocess, sys, time
program, script, out = sys.argv[1:]
times = []
for _ in range(5):
    with open(script) as given, open(out, "w") as taken:
        start = time.monotonic()
        subprocess.run([program, "script"], stdin=given, stdout=taken, check=True)
        times.append(time.monotonic() - start)
memory = resource.getrusage(resource.RUSAGE_CHILDREN).ru_maxrss
print(f"{min(times) * 1000:.0f} ms, {memory} KiB")
EOF
}

for lines in 5000 10000 20000 40000; do
    busy $lines >"$work/script"
    echo "$lines lines: $(measured "$work/script")"
    tail -n 1 "$work/out"
done
