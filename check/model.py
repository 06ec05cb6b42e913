"""A plain model of the script language, written apart from the contracts, to compare dfsr with.

It is written for being read, not for speed: sets, dictionaries and whole lists.
"""
import collections
import functools
import hashlib
import re
import struct

ROOT = ("root",)
LIMBO = None
LARGEST_SCRIPT, MOST_MEMBERS, LARGEST_FILE = 16_777_216, 8, 1_048_576
MOST_INTERVALS = 65_536

MEMBER = "[a-z]{1,8}"
COMPONENT = r"[!-.0-\[\]-~]{1,255}"
PATH = f"{COMPONENT}(?:/{COMPONENT}){{0,63}}"
NUMBER = "(?:0|[1-9][0-9]*)"
LINE = re.compile(
    f"member {MEMBER} (?:primary|plain)|put {MEMBER} {PATH} .*|fill {MEMBER} {PATH} {NUMBER}"
    f"|(?:mkdir|remove) {MEMBER} {PATH}|move {MEMBER} {PATH} {PATH}|consume {MEMBER} {NUMBER}"
    f"|change {MEMBER} {PATH} {NUMBER}|pull {MEMBER} {MEMBER}"
    f"|(?:install|drain|show|tree|sums|count) {MEMBER}",
    re.DOTALL,
)
LIMITS = {"fill": 2**32, "consume": 2**61, "change": 2**61}


class Refuse(Exception):
    """A line is refused; the text is what it prints."""


def is_line(row):
    """Whether the row is a line of the language."""
    if not LINE.fullmatch(row):
        return False
    word = row.split(" ", 1)[0]
    return word not in LIMITS or int(row.rsplit(" ", 1)[1]) < LIMITS[word]


def rows_of(script):
    """The rows of a script, each as text, or None where it isn't UTF-8."""
    rows = script.split(b"\n")
    for row in rows[:-1] if rows[-1] == b"" else rows:
        try:
            yield row.decode("utf-8")
        except UnicodeDecodeError:
            yield None


def fold(name):
    """The name with A to Z as a to z."""
    return "".join(chr(ord(c) + 32) if "A" <= c <= "Z" else c for c in name)


@functools.cache
def sum_of(data):
    """The SHA-1, in hexadecimal digits, of the marshalled form of a local file with these contents."""
    head = struct.pack("<4sIIIQIIIQ", b"FRSM", 1, 1, 0, 4, 0x20, 2, 0, len(data))
    return hashlib.sha1(head + data).hexdigest()


class Obj:
    """A file or directory of a volume, at a place or in limbo. Its UID is its member's number and the USN at
    which it was made, or the one that the installer gave it."""

    def __init__(self, fid, uid, kind, data):
        self.fid, self.uid, self.kind, self.data = fid, uid, kind, data
        self.parent, self.name, self.last = LIMBO, "", 0


# A record of the journal: which object, what was done, and whether the installer did it.
Note = collections.namedtuple("Note", "fid uid op local")


class Volume:
    """A member's files and directories, and the journal of what was done to them."""

    def __init__(self, number):
        self.number = number
        self.objects, self.journal, self.fid, self.usn = {}, {}, 1, 9
        self.children, self.by_uid = {}, {}

    def child(self, parent, name):
        return self.children.get((parent, fold(name)))

    def directory(self, parts):
        at = 0
        for part in parts:
            o = self.child(at, part)
            if o is None:
                raise Refuse("refused 5 nopath")
            if o.kind == "f":
                raise Refuse("refused 6 notdir")
            at = o.fid
        return at

    def at(self, path):
        parts = path.split("/")
        parent = self.directory(parts[:-1])
        return parent, self.child(parent, parts[-1]), parts[-1]

    def log(self, o, op, local=True):
        u = self.usn
        self.journal[u] = Note(o.fid, o.uid, op, local)
        if local:
            o.last = u
        self.usn += 1
        return u

    def add(self, uid, kind, data):
        o = self.objects[self.fid] = self.by_uid[uid] = Obj(self.fid, uid, kind, data)
        self.fid += 1
        return o

    def drop(self, o):
        del self.objects[o.fid], self.by_uid[o.uid]

    def enter(self, o, parent, name):
        o.parent, o.name = parent, name
        self.children[parent, fold(name)] = o

    def leave(self, o):
        del self.children[o.parent, fold(o.name)]
        o.parent, o.name = LIMBO, ""

    def has_beneath(self, o):
        return any(x.parent == o.fid for x in self.objects.values())

    def put(self, path, data):
        if len(data) > LARGEST_FILE:
            raise Refuse(f"refused 10 toolarge {len(data)}")
        parent, o, name = self.at(path)
        if o is not None and o.kind == "d":
            raise Refuse("refused 8 taken")
        if o is None:
            return self.new(parent, name, "f", data)
        o.data = data
        return self.log(o, "put")

    def new(self, parent, name, kind, data):
        o = self.add((self.number, self.usn), kind, data)
        self.enter(o, parent, name)
        return self.log(o, "new")

    def mkdir(self, path):
        parent, o, name = self.at(path)
        if o is not None:
            raise Refuse("refused 8 taken")
        return self.new(parent, name, "d", b"")

    def beneath(self, fid, top):
        while fid not in (0, LIMBO):
            if fid == top:
                return True
            fid = self.objects[fid].parent
        return False

    def move(self, path, to):
        _, o, _ = self.at(path)
        if o is None:
            raise Refuse("refused 5 nopath")
        parent, there, name = self.at(to)
        if o.kind == "d" and self.beneath(parent, o.fid):
            raise Refuse("refused 9 loop")
        if there is not None and there is not o:
            raise Refuse("refused 8 taken")
        self.leave(o)
        self.enter(o, parent, name)
        return self.log(o, "move")

    def remove(self, path):
        _, o, _ = self.at(path)
        if o is None:
            raise Refuse("refused 5 nopath")
        if self.has_beneath(o):
            raise Refuse("refused 7 notempty")
        self.leave(o)
        self.drop(o)
        return self.log(o, "remove")

    # What the installer does.

    def park(self, o):
        self.leave(o)
        self.log(o, "park", local=False)

    def erase(self, o):
        assert o.parent is LIMBO and not self.has_beneath(o)
        self.drop(o)
        self.log(o, "erase", local=False)

    def make(self, uid, kind, data):
        self.log(self.add(uid, kind, data), "make", local=False)

    def rewrite(self, o, data):
        o.data = data
        self.log(o, "rewrite", local=False)

    def place(self, o, parent, name):
        assert not self.beneath(parent, o.fid) and self.child(parent, name) is None
        self.enter(o, parent, name)
        self.log(o, "place", local=False)

    # What is reached from the root.

    def path(self, o):
        """The names from the root down to an object, or None where it isn't reached from there."""
        parts = [o.name]
        while o.parent not in (0, LIMBO):
            o = self.objects[o.parent]
            parts.append(o.name)
        return None if o.parent is LIMBO else parts[::-1]

    def tree(self):
        found = ((self.path(o), o) for o in self.objects.values())
        return sorted(((path, o) for path, o in found if path), key=lambda p: p[0])


class Member:
    """A volume, the records of files, the contents that are staged for them, the versions that are covered, and
    how far the journal is consumed."""

    def __init__(self, number, primary):
        self.number, self.primary = number, primary
        self.volume, self.records, self.staged, self.known = Volume(number), {}, {}, set()
        self.consumed, self.initial = 9, True
        self.intervals = 0

    def cover(self, versions):
        """Covers these versions too, where the vector has few enough intervals then."""
        new = {v for v in versions if v not in self.known}
        self.known.update(new)
        # (an interval begins where the version before it isn't covered)
        intervals = self.intervals
        for db, v in new:
            intervals += (db, v - 1) not in self.known
            intervals -= (db, v + 1) in self.known and (db, v + 1) not in new
        if intervals > MOST_INTERVALS:
            self.known.difference_update(new)
            raise Refuse(f"refused 20 vectorfull {intervals}")
        self.intervals = intervals

    def consume(self, moment):
        """What the next journal record makes: `update` or `skip` and its USN, or None where there is none."""
        n = self.consumed
        if n == self.volume.usn:
            return None
        fid, uid, op, local = self.volume.journal[n]
        held = self.records.get(uid)
        base = (2 if self.primary else 1) if self.initial else 3
        made = None
        if local and op == "remove":
            if held and held["present"]:
                made = dict(held, present=False)
        elif local:
            o = self.volume.objects.get(fid)
            if o is not None and o.last <= n:
                made = dict(uid=uid, present=True, kind=o.kind, parent=self.parent_of(o), name=o.name)
                made["sum"] = sum_of(o.data) if o.kind == "f" else None
        if made:
            made["gvsn"] = (self.number, n)
            made["clock"] = max(moment, held["clock"] + 1) if held else moment
            made["created"] = held["created"] if held else moment
            made["fence"] = max(base, held["fence"]) if held else base
        self.cover([(self.number, n)])
        if made:
            self.records[uid] = made
            self.staged.pop(uid, None)
        self.consumed += 1
        return ("update" if made else "skip", n)

    def pending(self):
        """The local journal records that aren't consumed, as their USNs and UIDs."""
        notes = ((n, self.volume.journal[n]) for n in range(self.consumed, self.volume.usn))
        return [(n, note.uid) for n, note in notes if note.local]

    def parent_of(self, o):
        return ROOT if o.parent == 0 else self.volume.objects[o.parent].uid

    def contents(self, u):
        """The contents that the record of a present file speaks of, staged or in its object."""
        uid = u["uid"]
        data = self.staged[uid] if uid in self.staged else self.volume.by_uid[uid].data
        assert sum_of(data) == u["sum"]
        return data

    def shown(self):
        """The records that are shown: each has the greatest key of its parent and name, and its parent is the
        root or a shown directory."""
        best = {}
        for u in sorted((u for u in self.records.values() if u["present"]), key=key):
            best[u["parent"], fold(u["name"])] = u
        shown, directories, more = {}, {ROOT}, True
        while more:
            more = [u for u in best.values() if u["parent"] in directories and u["uid"] not in shown]
            shown.update((u["uid"], u) for u in more)
            directories.update(u["uid"] for u in more if u["kind"] == "d")
        return shown

    def next_step(self):
        """The word of the installer's next step and the UID of its object, or the version of the journal record
        that it skips; None where the member is drained."""
        shown, objects = self.shown(), self.volume.by_uid
        sums = {uid: sum_of(o.data) for uid, o in objects.items()}
        held = [u for uid, u in self.records.items() if uid in objects]
        files = [u for u in held if u["present"] and u["kind"] == "f"]

        def stands(o):
            u = shown.get(o.uid)
            return u is not None and (u["parent"], u["name"]) == (self.parent_of(o), o.name)

        candidates = {
            "park": [uid for uid, o in objects.items() if o.parent is not LIMBO and not stands(o)],
            "erase": [u["uid"] for u in held if not u["present"]],
            "make": [uid for uid in shown if uid not in objects],
            "rewrite": [u["uid"] for u in files if u["sum"] != sums[u["uid"]]],
            "place": [uid for uid, o in objects.items() if o.parent is LIMBO and uid in shown],
            "unstage": [uid for uid, data in self.staged.items() if sum_of(data) == sums.get(uid)],
            "skip": [(self.number, n) for n in range(self.consumed, self.volume.usn)],
        }
        return next(((word, min(found)) for word, found in candidates.items() if found), None)

    def install(self):
        """Takes the installer's next step, and gives it; None where there is none."""
        if pending := self.pending():
            raise Refuse(f"refused 12 notyet {pending[0][0]}")
        step = self.next_step()
        if step is None:
            return None
        (word, uid), v = step, self.volume
        o, u = v.by_uid.get(uid), self.records.get(uid)
        if word == "park":
            v.park(o)
        elif word == "erase":
            v.erase(o)
        elif word == "make":
            v.make(uid, u["kind"], self.staged[uid] if u["kind"] == "f" else b"")
        elif word == "rewrite":
            v.rewrite(o, self.staged[uid])
        elif word == "place":
            v.place(o, 0 if u["parent"] == ROOT else v.by_uid[u["parent"]].fid, u["name"])
        elif word == "unstage":
            del self.staged[uid]
        else:
            self.consume(0)
        return step


def key(u):
    return (u["fence"], u["clock"], u["created"], u["gvsn"])


class World:
    """The members, and what lines do to them."""

    def __init__(self):
        self.members, self.lines = {}, 0

    def name_of(self, number):
        return next(n for n, m in self.members.items() if m.number == number)

    def word(self, v):
        return f"{self.name_of(v[0])}:{v[1]}"

    def intervals(self, known):
        out = []
        for db, v in sorted(known):
            if out and out[-1][0] == db and out[-1][2] == v:
                out[-1][2] = v + 1
            else:
                out.append([db, v, v + 1])
        return out

    def better(self, m, u):
        held = m.records.get(u["uid"])
        return held is None or key(u) > key(held)

    def take(self, m, n, u):
        m.cover([u["gvsn"]])
        m.records[u["uid"]] = dict(u)
        m.staged.pop(u["uid"], None)
        if u["present"] and u["kind"] == "f":
            m.staged[u["uid"]] = n.contents(u)

    def pull(self, m, n):
        sent = set(n.known)
        page = sorted((u for u in n.records.values() if u["gvsn"] not in m.known), key=lambda u: u["gvsn"])
        count, listed = 0, []
        for u in page:
            if self.better(m, u):
                if u["present"] and u["kind"] == "f":
                    listed.append(u)
                else:
                    self.take(m, n, u)
                    count += 1
        for u in listed:
            if not self.better(m, u):
                continue
            if pending := [usn for usn, uid in n.pending() if uid == u["uid"]]:
                raise Refuse(f"refused 12 notyet {pending[-1]}")
            self.take(m, n, n.records[u["uid"]])
            count += 1
        m.cover(sent)
        m.initial = False
        return count

    def line(self, row):
        """Does a line, and gives the lines that it prints."""
        words = row.split(" ")
        cmd = words[0]
        if cmd == "member":
            self.lines += 1
            if words[1] in self.members:
                raise Refuse(f"refused 2 exists {words[1]}")
            self.members[words[1]] = Member(self.lines, words[2] == "primary")
            return ["ok"]
        for name in words[1:3] if cmd == "pull" else words[1:2]:
            if name not in self.members:
                raise Refuse(f"refused 1 unknown {name}")
        m = self.members[words[1]]
        v = m.volume
        if cmd == "put":
            return [f"usn {v.put(words[2], row.split(' ', 3)[3].encode())}"]
        if cmd == "fill":
            length = int(words[3])
            if length > LARGEST_FILE:
                raise Refuse(f"refused 10 toolarge {length}")
            return [f"usn {v.put(words[2], bytes(at % 251 for at in range(length)))}"]
        if cmd == "mkdir":
            return [f"usn {v.mkdir(words[2])}"]
        if cmd == "move":
            return [f"usn {v.move(words[2], words[3])}"]
        if cmd == "remove":
            return [f"usn {v.remove(words[2])}"]
        if cmd == "consume":
            return [self.said(words[1], m.consume(int(words[2])))]
        if cmd == "change":
            v.put(words[2], b"")
            last = None
            while (done := m.consume(int(words[3]))) is not None:
                last = done
            return [self.said(words[1], last)]
        if cmd == "pull":
            if words[1] == words[2]:
                raise Refuse("refused 18 self")
            return [f"pulled {self.pull(m, self.members[words[2]])}"]
        if cmd == "install":
            step = m.install()
            return ["drained" if step is None else f"{step[0]} {self.word(step[1])}"]
        if cmd == "drain":
            count = 0
            while m.install() is not None:
                count += 1
            return [f"drained {count}"]
        if cmd == "show":
            spans = [f"{self.name_of(d)}:{a}..{b}" for d, a, b in self.intervals(m.known)]
            rows = ["vector " + (" ".join(spans) or "empty")]
            for uid in sorted(m.records):
                u = m.records[uid]
                parent = "root" if u["parent"] == ROOT else self.word(u["parent"])
                state = "live" if u["present"] else "gone"
                rows.append(f"{self.word(uid)} {self.word(u['gvsn'])} {u['kind']} {state} {parent} {u['name']} {u['fence']} {u['clock']} {u['created']}")
            return rows
        if cmd == "tree":
            return [("d " + "/".join(p)) if o.kind == "d" else f"f {'/'.join(p)} {len(o.data)}" for p, o in v.tree()] or ["tree empty"]
        if cmd == "sums":
            files = [(path, o) for path, o in v.tree() if o.kind == "f"]
            return [f"{sum_of(o.data)} {'/'.join(path)}" for path, o in files] or ["sums empty"]
        if cmd == "count":
            live = sum(u["present"] for u in m.records.values())
            files = sum(o.kind == "f" for _, o in v.tree())
            return [f"records {len(m.records)} live {live} files {files} intervals {len(self.intervals(m.known))}"]
        raise AssertionError(row)

    def said(self, name, done):
        return "nothing" if done is None else f"{done[0]} {name}:{done[1]}"


def run(script):
    """The status of a script, and what is written."""
    if len(script) > LARGEST_SCRIPT:
        return 8, ""
    lines = []
    for number, row in enumerate(rows_of(script), 1):
        if row is None or not (row == "" or row.startswith("#") or is_line(row)):
            return 3, f"bad line {number}\n"
        if row and not row.startswith("#"):
            lines.append(row)
    if sum(row.startswith("member ") for row in lines) > MOST_MEMBERS:
        return 8, ""
    world, out = World(), []
    for row in lines:
        try:
            out += world.line(row)
        except Refuse as why:
            out.append(str(why))
    return 0, "".join(line + "\n" for line in out)
