#!/usr/bin/env python3
"""Compares what slot_probe finds of slots that were made wrong with a plain reader of their bytes.

Usage: check/slots.py [COUNT [SEED]], COUNT pairs of slots (10000) from the seed SEED (0) on. The program
is proved and built first where it has to be. The reader is written from docs/FORMATS.md; the commands are
byte strings, each spelled by a zero, its length in four bytes and itself. A pair that differs is printed.
"""
import hashlib
import pathlib
import random
import struct
import subprocess
import sys

TOP = pathlib.Path(__file__).resolve().parent.parent
CRATE = TOP / "crates/slot_probe"
MAGIC = b"FRSJRN01"
FIRST_GATE = 25


def is_marked(slot):
    return len(slot) >= 26 and slot[0] == 1


def is_valid(slot):
    return is_marked(slot) and slot[1:9] == MAGIC


def number(data):
    return int.from_bytes(data, "little")


def taken(a, b):
    """The slot that a load takes, as its name and bytes, or None where neither is valid."""
    if not is_valid(a):
        return ("b", b) if is_valid(b) else None
    if not is_valid(b):
        return "a", a
    first, second = number(a[9:17]), number(b[9:17])
    if second == (first + 1) % 2**64:
        return "b", b
    if first == (second + 1) % 2**64:
        return "a", a
    return ("b", b) if second > first else ("a", a)


def record_at(slot, gate):
    """The payload behind an opened gate, or None where no whole record with a next gate is there."""
    length = slot[gate + 1 : gate + 5]
    if len(length) < 4:
        return None
    end = gate + 5 + number(length)
    return slot[gate + 5 : end] if end < len(slot) else None


def string_of(payload):
    """The string that a payload spells, or None."""
    if payload is None or len(payload) < 5 or payload[0] != 0:
        return None
    return payload[5:] if number(payload[1:5]) == len(payload) - 5 else None


def found(a, b):
    """The row that slot_probe has to write."""
    for name, slot in (("a", a), ("b", b)):
        if is_marked(slot) and not is_valid(slot):
            return f"damaged {name} 1"
    pick = taken(a, b)
    if pick is None:
        return f"state 0 0 {hashlib.sha1(b'').hexdigest()}"
    name, slot = pick
    gate, saved, strings = FIRST_GATE, 0, []
    first = record_at(slot, gate) if slot[gate] == 1 else None
    if first is not None and len(first) == 9 and first[0] == 0xFF:
        gate, saved = gate + 14, number(first[1:])
    while slot[gate] == 1:
        payload = record_at(slot, gate)
        string = string_of(payload)
        if string is None:
            return f"damaged {name} {gate}"
        strings.append(string)
        gate += 5 + len(payload)
    if saved > len(strings):
        return f"damaged {name} {FIRST_GATE}"
    serial = (number(slot[17:25]) + len(strings) - saved) % 2**64
    digest = hashlib.sha1(b"".join(struct.pack("<Q", len(string)) + string for string in strings))
    return f"state {len(strings)} {serial} {digest.hexdigest()}"


class Maker:
    """Makes pairs of slots: as a journal leaves them, and then wrong."""

    def __init__(self, seed):
        self.random = random.Random(seed)

    def payload(self):
        string = self.random.randbytes(self.random.choice([0, 1, 2, 8, 9, 40, 300]))
        return b"\0" + struct.pack("<I", len(string)) + string

    def slot(self, generation):
        count = self.random.choice([0, 1, 2, 3, 8])
        payloads = [self.payload() for _ in range(count)]
        if self.random.random() < 0.4:
            saved = self.random.choice([0, count, count, max(count - 1, 0), count + 1, 2**64 - 1])
            payloads.insert(0, b"\xff" + struct.pack("<Q", saved))
        serial = self.random.choice([0, 5, 2**64 - 1])
        slot = b"\1" + MAGIC + struct.pack("<QQ", generation, serial)
        for payload in payloads:
            slot += b"\1" + struct.pack("<I", len(payload)) + payload
        return slot + bytes([self.random.choice([0, 0, 0, 2, 255])])

    def flipped(self, slot):
        if not slot:
            return slot
        changed = bytearray(slot)
        at = self.random.randrange(min(len(slot), self.random.choice([26, 60, len(slot)])))
        changed[at] ^= 1 << self.random.randrange(8)
        return bytes(changed)

    def cut(self, slot):
        return slot[: self.random.randrange(len(slot) + 1)]

    def longer(self, slot):
        return slot + self.random.randbytes(self.random.randint(1, 40))

    def opened(self, slot):
        """The last gate is opened, with a record behind it that is spelled wrong or cut short."""
        payload = self.random.choice([self.payload(), b"\xff" + bytes(8), b"", b"\0\1\0\0\0"])
        length = len(payload) + self.random.choice([0, 0, 1, -1, 2**31])
        return slot[:-1] + b"\1" + struct.pack("<I", max(length, 0)) + payload + self.random.choice([b"", b"\0", b"\1"])

    def same(self, slot):
        return slot

    def pair(self):
        generation = self.random.choice([1, 2, 2**64 - 1])
        others = [generation, (generation + 1) % 2**64, (generation - 1) % 2**64, 7]
        slots = [self.slot(generation), self.random.choice([b"", b"\0", self.slot(self.random.choice(others))])]
        wrong = [self.flipped, self.cut, self.longer, self.opened, self.same]
        for _ in range(self.random.choice([1, 1, 2, 3])):
            at = self.random.randrange(2)
            slots[at] = self.random.choice(wrong)(slots[at])
        if self.random.random() < 0.5:
            slots.reverse()
        return slots


def main():
    count, seed = (int(word) for word in (sys.argv[1:] + ["10000", "0"][len(sys.argv) - 1 :]))
    subprocess.run(["rt", "run", "--", "take", "0", "0"], cwd=CRATE, check=True, stdout=subprocess.DEVNULL)
    pairs = [Maker(at).pair() for at in range(seed, seed + count)]
    rows = "".join(f"{a.hex() or '-'} {b.hex() or '-'}\n" for a, b in pairs)
    ended = subprocess.run([CRATE / "out/slot_probe", "slots"], input=rows.encode(), capture_output=True)
    answers = ended.stdout.decode().splitlines()
    wanted = [found(a, b) for a, b in pairs]
    for at, (pair, want) in enumerate(zip(pairs, wanted)):
        answer = answers[at] if at < len(answers) else None
        if answer != want:
            print(f"seed {seed + at}: the reader finds {want}, the program {answer}: {pair[0].hex()} {pair[1].hex()}")
            sys.exit(1)
    if ended.returncode != 0 or len(answers) != count:
        print(f"the program ended with {ended.returncode} after {len(answers)} rows")
        sys.exit(1)
    damaged = sum(want.startswith("damaged") for want in wanted)
    print(f"{count} pairs of slots, from seed {seed} on, {damaged} of them damaged: the program finds what the reader finds")


main()
