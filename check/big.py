#!/usr/bin/env python3
"""Compares `dfsr big SEED N` with the last three lines of `dfsr script` over the script that SEED makes.

Usage: check/big.py [COUNT [FIRST]], COUNT seeds (20) from FIRST (0) on, each with several numbers of groups, and
then the largest seed. Stops at the first that differs. The program is built first where it has to be.
"""
import pathlib
import subprocess
import sys

TOP = pathlib.Path(__file__).resolve().parent.parent
PROGRAM = TOP / "crates/dfsr/out/dfsr"
MEMBERS = "abc"
FILES = 97
ROUND = ["pull a b", "pull a c", "pull b a", "pull b c", "pull c a", "pull c b", "drain a", "drain b", "drain c"]


def groups(seed, count):
    """The lines of the groups."""
    number = seed
    for group in range(1, count + 1):
        number = (6364136223846793005 * number + 1442695040888963407) % 2**64
        drawn = number >> 32
        member, other = MEMBERS[drawn % 3], MEMBERS[(drawn + 1) % 3]
        path = f"f{drawn // 3 % FILES}"
        way = drawn // (3 * FILES) % 4
        if way == 2:
            yield from (f"remove {member} {path}", f"consume {member} {group}")
        elif way == 3:
            yield f"pull {member} {other}"
        else:
            yield f"change {member} {path} {group}"


def script(seed, count):
    """The whole script."""
    members = ["member a primary", "member b plain", "member c plain"]
    counts = [f"count {member}" for member in MEMBERS]
    return "\n".join([*members, *groups(seed, count), *3 * ROUND, *counts, ""]).encode()


def agrees(seed, count):
    """Whether both end with 0 and print the same three lines."""
    read = subprocess.run([PROGRAM, "script"], input=script(seed, count), capture_output=True)
    made = subprocess.run([PROGRAM, "big", str(seed), str(count)], stdin=subprocess.DEVNULL, capture_output=True)
    last = b"".join(read.stdout.splitlines(keepends=True)[-3:])
    return (read.returncode, made.returncode, made.stdout) == (0, 0, last)


def main():
    words = sys.argv[1:]
    count, first = (int(word) for word in (words + ["20", "0"][len(words) :]))
    subprocess.run([TOP / "dfsr", "--version"], check=True, stdout=subprocess.DEVNULL)
    for seed in [*range(first, first + count), 2**64 - 1]:
        for size in (1, 2, 10, 100, 2000):
            if not agrees(seed, size):
                sys.exit(f"seed {seed} with {size} groups differs")
    print(f"{count} seeds, from {first} on, and the largest: both write the same")


main()
