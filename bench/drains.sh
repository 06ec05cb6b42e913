#!/bin/sh
# Times drains by lines of the built program. First a member drains that has pulled so many
# directories and files, nine in ten of them files. Then in a folder of so many one file is renamed,
# again and again, and the other member pulls, and drains after each rename or once at the end: what
# a drain of one rename takes is the difference by their number. Each time is the least of five runs,
# in processor time.
# Usage: bench/drains.sh, anywhere in the repository.
set -eu
. "$(dirname "$0")/common.sh"

rounds=200

# a member makes so many directories and files, nine files in each directory, and another pulls them
made() {
    printf 'member a primary\nmember b plain\n'
    awk -v count="$1" 'BEGIN {
        for (k = 0; k < count; k++) {
            d = int(k / 10)
            if (k % 10 == 0) print "mkdir a d" d
            else print "put a d" d "/f" k " text " k
        }
        for (k = 0; k < count; k++) print "consume a " k + 1
    }'
    echo 'pull b a'
}

# then one file gets another name in each round; the line stands behind each round
renamed() {
    made "$1"
    echo 'drain b'
    awk -v count="$1" -v rounds="$rounds" -v line="$2" 'BEGIN {
        name = "f1"
        for (r = 0; r < rounds; r++) {
            print "move a d0/" name " d0/r" r
            name = "r" r
            print "consume a " count + r + 1
            print "pull b a"
            print line
        }
        print "drain b"
    }'
}

for count in 100 1000 10000 20000; do
    made $count >"$work/script"
    alone=$(measured "$work/script")
    echo 'drain b' >>"$work/script"
    drained=$(measured "$work/script")
    echo "$count directories and files: $(tail -n 1 "$work/out"), the drain $(((drained - alone) / 1000)) ms"
done
for count in 200 2000 20000; do
    renamed $count 'drain b' >"$work/script"
    each=$(measured "$work/script")
    renamed $count '' >"$work/script"
    once=$(measured "$work/script")
    echo "one rename beside $count: a drain takes $(((each - once) / rounds)) us"
done
