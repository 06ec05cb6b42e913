#!/bin/sh
# Times the built program on scripts of `show` lines, of `change` lines over 97 paths, the largest
# that a script may be and smaller ones, these with a bad row at their end, one of paths of 64
# components, and of three members that change and pull. Each time is the least of five runs, with the
# start of the process in it.
# Usage: bench/four-lines.sh, anywhere in the repository.
set -eu
. "$(dirname "$0")/common.sh"

# one member, and this many `show` lines
shows() {
    echo 'member a primary'
    yes 'show a' | head -n "$1"
}

# one member, and this many `change` lines over 97 paths
changes() {
    echo 'member a primary'
    seq 0 "$(($1 - 1))" | awk '{ print "change a f" $1 % 97 " " $1 }'
}

# three members, this many `change` lines over 97 paths, one member after the other, and a pull every
# 50 lines, from each of the others in turn
pulls() {
    printf 'member a primary\nmember b plain\nmember c plain\n'
    seq 0 "$(($1 - 1))" | awk 'BEGIN { split("a b c", m, " ") } {
        print "change " m[$1 % 3 + 1] " f" $1 % 97 " " $1
        if ($1 % 50 == 49) {
            n = int($1 / 50)
            print "pull " m[n % 3 + 1] " " m[(n + 1 + int(n / 3) % 2) % 3 + 1]
        }
    }'
}

# one member, and this many `change` lines at a path of 64 components, which are read and not done
deep() {
    echo 'member a primary'
    yes "change a $(printf 'c/%.0s' $(seq 63))c 1" | head -n "$1"
}

# as many of the first lines as the largest script has room for
largest() {
    head -c 16777212 | sed '$d'
}

timed() {
    for _ in 1 2 3 4 5; do
        start=$(date +%s%N)
        "$dfsr" script <"$1" >"$work/out" || true
        end=$(date +%s%N)
        echo $(((end - start) / 1000))
    done | sort -n | head -n 1
}

for lines in 37448 74897 149794; do
    shows $lines >"$work/script"
    echo "$(wc -c <"$work/script") bytes, $lines show lines: $(timed "$work/script") microseconds"
done

for lines in 5000 10000 20000 56076; do
    changes $lines >"$work/script"
    echo "$(wc -c <"$work/script") bytes, $lines change lines: $(timed "$work/script") microseconds"
done

for kind in shows changes; do
    $kind 2400000 | largest >"$work/script"
    echo "$(wc -c <"$work/script") bytes, the most $kind: $(timed "$work/script") microseconds"
    echo show >>"$work/script"
    echo "$(wc -c <"$work/script") bytes, the most $kind and a bad row: $(timed "$work/script") microseconds"
    tail -n 1 "$work/out"
done

deep 130000 | largest >"$work/script"
echo "$(wc -c <"$work/script") bytes, paths of 64 components: $(timed "$work/script") microseconds"
tail -n 1 "$work/out"

for lines in 5000 10000 20000; do
    pulls $lines >"$work/script"
    echo "$(wc -c <"$work/script") bytes, $lines change lines and a pull every 50: $(timed "$work/script") microseconds"
done
