#!/bin/sh
# Times pulls by lines of the built program. First one member makes so many directories and files in
# turn, and another pulls them at once. Then one makes 10 files, again and again, beside so many
# records that another has, which pulls after each 10 or once at the end: what a pull of 10 takes is
# the difference by their number. Each time is the least of five runs, in processor time, with the
# start of the process in it.
# Usage: bench/pulls.sh, anywhere in the repository.
set -eu
. "$(dirname "$0")/common.sh"

rounds=400

# a member makes so many directories and files in turn, and consumes them
in_turn() {
    printf 'member a primary\nmember b plain\n'
    awk -v count="$1" 'BEGIN {
        for (k = 0; k < count; k++) {
            print "mkdir a d" k
            print "put a f" k " x"
        }
        for (k = 0; k < 2 * count; k++) print "consume a " k + 1
    }'
}

# a member with so many records, which another one has, makes 10 files in each round; the line stands
# behind each round
grown() {
    printf 'member a primary\nmember b plain\n'
    awk -v count="$1" -v rounds="$rounds" -v line="$2" 'BEGIN {
        for (k = 0; k < count; k++) print "change a d" k " " k + 1
        print "pull b a"
        for (r = 0; r < rounds; r++) {
            for (k = 0; k < 10; k++) print "change a n" r "x" k " " count + 10 * r + k + 1
            print line
        }
        print "pull b a"
        print "count b"
    }'
}

for count in 1000 4000 16000 32750; do
    in_turn $count >"$work/script"
    alone=$(measured "$work/script")
    echo 'pull b a' >>"$work/script"
    pulled=$(measured "$work/script")
    echo "$count directories and files in turn: $((pulled / 1000)) ms, the pull $(((pulled - alone) / 1000)) ms"
    tail -n 1 "$work/out"
done
for count in 1000 10000 100000; do
    grown $count 'pull b a' >"$work/script"
    each=$(measured "$work/script")
    grown $count '' >"$work/script"
    once=$(measured "$work/script")
    echo "10 new files beside $count records: a pull takes $(((each - once) / rounds)) us"
    tail -n 1 "$work/out"
done
