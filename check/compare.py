#!/usr/bin/env python3
"""Runs random scripts through the model and through dfsr, and stops at the first that differs.

Usage: check/compare.py [--install | --full] [COUNT [FIRST]], COUNT scripts (2000) from the seed FIRST (0) on;
with --install ones whose members install too; with --full ones whose vectors come to have as many intervals as
they may, of which each takes a while (5). The program is built first where it has to be. A script that differs
is kept, and its name is printed.
"""
import pathlib
import random
import subprocess
import sys
import tempfile

from model import MOST_INTERVALS, run

TOP = pathlib.Path(__file__).resolve().parent.parent
PROGRAM = TOP / "crates/dfsr/out/dfsr"
COMPONENTS = ["a", "A", "b", "B", "c", "z", "Z", "a!", "~", "ab", "aB", "x" * 255, "!"]
TEXTS = ["", "hi", " two  words ", "x" * 30, "\u00e9\u4e2d", "\r", "\0"]
LENGTHS = [0, 1, 250, 251, 252, 1_048_576, 1_048_577, 4_294_967_295]
KINDS = "put fill mkdir mkdir move move remove remove consume consume consume change change".split()
KINDS += "pull pull pull show tree sums count member comment".split()
FLAWS = ["  ", " ", "\t", "\r", "0", "+", "-", "/", "\\", "#", "\u00e9", "x" * 256, "a/" * 64, "2305843009213693952"]


class Writer:
    """Writes a random script: a few members, few names, so that paths often meet."""

    kinds = KINDS

    def __init__(self, seed):
        self.random = random.Random(seed)
        self.names = ["a", "b", "c", "dd", "e", "zz"][: self.random.randint(1, 6)]
        self.depths = self.random.choice([[1], [1, 1, 2], [1, 2, 2, 3], [1, 2, 3, 4]])
        self.components = self.random.choice([COMPONENTS, COMPONENTS[:3], COMPONENTS[3:7]])
        self.latest = self.random.choice([5, 100, 2**61 - 1])
        self.members = 0

    def path(self):
        depth = self.random.choice(self.depths)
        return "/".join(self.random.choice(self.components) for _ in range(depth))

    def member(self, name):
        self.members += 1
        return f"member {name} {self.random.choice(['primary', 'plain'])}"

    def row(self):
        pick, kind = self.random.choice, self.random.choice(self.kinds)
        name, moment = pick(self.names), self.random.randint(0, self.latest)
        if kind == "put":
            return f"put {name} {self.path()} {pick(TEXTS)}"
        if kind == "fill":
            return f"fill {name} {self.path()} {pick(LENGTHS) if self.random.random() < 0.1 else 7}"
        if kind in ("mkdir", "remove"):
            return f"{kind} {name} {self.path()}"
        if kind == "move":
            path = self.path()
            return f"move {name} {path} {path if self.random.random() < 0.1 else self.path()}"
        if kind == "consume":
            return f"consume {name} {moment}"
        if kind == "change":
            return f"change {name} {self.path()} {moment}"
        if kind == "pull":
            return f"pull {name} {pick(self.names)}"
        if kind == "member":
            few = self.members < 9 and self.random.random() < 0.15
            return self.member(name) if few else f"count {name}"
        if kind == "comment":
            return pick(["", "# nothing"])
        return f"{kind} {name}"

    def ending(self):
        return [f"{kind} {name}" for name in self.names for kind in ("show", "tree", "sums", "count")]

    def script(self):
        members = [self.member(name) for name in self.names if self.random.random() < 0.85]
        rows = members + [self.row() for _ in range(self.random.randint(1, 120))] + self.ending()
        text = "\n".join(rows) + self.random.choice(["", "\n"])
        if self.random.random() < 0.1:
            at = self.random.randrange(len(text) + 1)
            text = text[:at] + self.random.choice(FLAWS) + text[at + self.random.randint(0, 2) :]
        script = text.encode()
        return script + b"\xff" if self.random.random() < 0.01 else script


class InstallWriter(Writer):
    """Writes a random script whose members install too, few of them, so that they often hold the same files; in
    the end they often settle, and then show the same records and the same tree."""

    kinds = KINDS + "install install install drain drain pull pull pull".split()

    def __init__(self, seed):
        super().__init__(seed)
        self.names = ["a", "b", "c"][: self.random.randint(2, 3)]
        self.depths = self.random.choice([[1], [1, 1, 2], [1, 1, 2, 3]])

    def row(self):
        row = super().row()
        word, name = (row.split(" ") + [""])[:2]
        if word in ("put", "fill", "mkdir", "move", "remove") and self.random.random() < 0.85:
            return f"{row}\nconsume {name} {self.random.randint(0, self.latest)}"
        if word == "install":
            pull = f"pull {name} {self.random.choice(self.names)}"
            return "\n".join([pull] + [row] * self.random.randint(1, 8))
        return row

    def settling(self):
        changes = [f"change {name} settled {self.latest}" for name in self.names]
        pulls = [f"pull {name} {other}" for name in self.names for other in self.names if name != other]
        drains = [f"drain {name}" for name in self.names]
        return changes + 2 * (2 * pulls + drains)

    def ending(self):
        return (self.settling() if self.random.random() < 0.7 else []) + super().ending()


class FullWriter:
    """Writes a script of directories and files in turn: who pulls them covers the directories first, each
    with a gap behind it, about as many as a vector may have intervals."""

    def __init__(self, seed):
        self.random = random.Random(seed)

    def script(self):
        rows = ["member a primary", "member b plain"]
        for number in range(MOST_INTERVALS + self.random.randint(-3, 12)):
            rows.append(f"mkdir a d{number}")
            if self.random.random() > 0.00003:
                rows.append(f"put a f{number} {number}")
        rows += ["change a last 100", "count a", "pull b a", "count b"]
        for _ in range(self.random.randint(1, 12)):
            name = self.random.choice("aab")
            rows.append(self.random.choice([f"change b x{self.random.randint(0, 3)} 7", f"consume {name} 9", "pull b a", f"mkdir {name} more", "pull a b", f"put {name} f9 new"]))
            rows.append("count b")
        return "\n".join(rows).encode()


WRITERS = {"--install": InstallWriter, "--full": FullWriter}


def differs(seed, writer):
    """Whether the model and the program differ; the script is kept then."""
    script = writer(seed).script()
    status, text = run(script)
    ended = subprocess.run([PROGRAM, "script"], input=script, capture_output=True)
    if (ended.returncode, ended.stdout) == (status, text.encode()):
        return False
    with tempfile.NamedTemporaryFile(delete=False, suffix=".script") as kept:
        kept.write(script)
    print(f"seed {seed}: the model ends with {status}, the program with {ended.returncode}: {kept.name}")
    return True


def main():
    words = sys.argv[1:]
    writer = WRITERS.get(words[0], Writer) if words else Writer
    words = words[writer is not Writer :]
    usual = "5" if writer is FullWriter else "2000"
    count, first = (int(word) for word in (words + [usual, "0"][len(words) :]))
    subprocess.run([TOP / "dfsr", "--version"], check=True, stdout=subprocess.DEVNULL)
    if any(differs(seed, writer) for seed in range(first, first + count)):
        sys.exit(1)
    print(f"{count} scripts, from seed {first} on: the program writes what the model writes")


main()
