#!/bin/sh
# Times five kinds of scripts by the built program, in processor time with the start of the process
# in it: the least and the most of five runs, in milliseconds, beside what the script moves.
#   small   many changes of 100 files by three members that pull from one another
#   files   many files of two members, a few of which a third pulls again and again
#   gaps    directories and files in turn, so that a round's vector has as many intervals as it lacks
#   folder  a folder of 300 files, 20 times under other names
#   large   files of up to 1 MiB, written, pulled twice and overwritten
# Usage: bench/kinds.sh, anywhere in the repository.
set -eu
. "$(dirname "$0")/common.sh"

python3 - "$dfsr" "$work" <<'PYTHON'
import random
import resource
import subprocess
import sys

PROGRAM, WORK = sys.argv[1:]
MEMBERS = ["member a primary", "member b plain", "member c plain"]


def small():
    chance = random.Random(1)
    yield from MEMBERS
    for moment in range(1, 24000):
        yield f"change {chance.choice('abc')} f{chance.randrange(100)} {moment}"
        if moment % 3 == 0:
            yield "pull " + " ".join(chance.sample("abc", 2))
    yield from ("pull " + pair for pair in ("a b", "a c", "b a", "c a", "b c"))
    yield from ("show a", "show b", "show c")


def files():
    yield from MEMBERS
    for moment in range(1, 20000):
        yield f"change {'ab'[moment // 20 % 2]} n{moment} {moment}"
        if moment % 20 == 0:
            yield f"pull c {'ba'[moment // 20 % 2]}"
        if moment % 200 == 0:
            yield from ("pull a b", "pull b a")
    yield "show c"


def gaps():
    yield from MEMBERS
    for turn in range(2):
        for number in range(4000):
            yield f"mkdir a r{turn}d{number}"
            yield f"put a r{turn}f{number} x"
            yield from [f"consume a {4000 * turn + number + 1}"] * 2
        yield from ("pull b a", "pull c b")
    yield from ("count b", "count c")


def folder():
    yield from MEMBERS[:2]
    moment = 0
    for turn in range(1, 21):
        yield f"mkdir a top{turn}"
        yield from (f"mkdir a top{turn}/d{number}" for number in range(1, 41))
        for number in range(1, 301):
            is_long = number % 100 == 0 and turn % 10 == 1
            yield f"fill a top{turn}/d{number % 40 + 1}/f{number} {921600 if is_long else 100 * number % 3000}"
        yield from (f"consume a {moment + number}" for number in range(1, 342))
        moment += 341
        yield "pull b a"
        yield from (f"move a top{turn} new{turn}", f"consume a {moment + 1}", "pull b a", "count b")
    yield from ("tree a", "tree b")


def large():
    yield from MEMBERS
    for turn in range(4):
        for number in range(20):
            yield f"fill a big{number} {1048576 - 1000 * number - 7 * turn}"
            yield f"consume a {20 * turn + number + 1}"
        yield from ("pull b a", "pull c b")
    yield from ("sums a", "count c")


def processor_time(script):
    before = resource.getrusage(resource.RUSAGE_CHILDREN)
    with open(script) as given:
        subprocess.run([PROGRAM, "script"], stdin=given, stdout=subprocess.DEVNULL, check=True)
    after = resource.getrusage(resource.RUSAGE_CHILDREN)
    return after.ru_utime + after.ru_stime - before.ru_utime - before.ru_stime


for kind in (small, files, gaps, folder, large):
    lines = list(kind())
    script = f"{WORK}/{kind.__name__}"
    with open(script, "w") as out:
        out.write("".join(line + "\n" for line in lines))
    times = [processor_time(script) for _ in range(5)]
    print(f"{kind.__name__}: {len(lines)} lines, {1000 * min(times):.0f} to {1000 * max(times):.0f} ms")
PYTHON
