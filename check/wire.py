#!/usr/bin/env python3
"""Makes bytes of the protocol, right ones and wrong ones, asks frswire what they are, and compares its
answers with those of the tables of docs/FORMATS.md, written here apart from the crates. Stops at the
first that differs.

Usage: check/wire.py [COUNT [SEED]], at least COUNT rows (100000) from the seed SEED (0) on. The program
is built first where it has to be.
"""
import hashlib
import pathlib
import random
import resource
import struct
import subprocess
import sys

TOP = pathlib.Path(__file__).resolve().parent.parent
PROGRAM = TOP / "crates/frswire/out/frswire"
LONGEST_ROW = 1 << 24
KINDS = {0: "Request", 2: "Response", 3: "Fault", 11: "Bind", 12: "BindAck", 13: "BindNak", 17: "Shutdown", 18: "CoCancel", 19: "Orphaned"}
NUMBERS = {name: number for number, name in KINDS.items()}


def digits(data):
    return data.hex() if data else "-"


# ---- items, each at a place that is a multiple of its size


class Bad(Exception):
    """Bytes are refused: a name, and the place where one is told."""

    def __init__(self, name, at=None):
        super().__init__(name, at)
        self.name, self.at = name, at

    def text(self):
        return f"bad {self.name}" if self.at is None else f"bad {self.name} {self.at}"


class Reader:
    def __init__(self, data, at=0, short="Short"):
        self.data, self.at, self.short = data, at, short

    def take(self, count, align=1):
        begin = self.at + -self.at % align
        if begin + count > len(self.data):
            raise Bad(self.short, begin)
        self.at = begin + count
        return self.data[begin : begin + count]

    def pad(self, align):
        """Padding alone, which is refused where it begins."""
        self.take(-self.at % align)

    def number(self, size, align=None):
        return int.from_bytes(self.take(size, align or size), "little")

    def guid(self):
        return self.take(16, 4)


class Writer:
    def __init__(self):
        self.data = bytearray()

    def put(self, data, align=1):
        self.data += bytes(-len(self.data) % align) + data

    def number(self, value, size, align=None):
        self.put(value.to_bytes(size, "little"), align or size)


# ---- PDUs


def syntax(r):
    return r.guid(), r.number(4)


def put_syntax(w, value):
    w.put(value[0], 4)
    w.number(value[1], 4)


def read_body(kind, flags, data):
    r = Reader(data, 16, "Body")
    if kind == 0:
        if flags & 0x80:
            raise Bad("Body", 3)
        return r.number(4), r.number(2), r.number(2), r.take(len(data) - r.at)
    if kind == 2:
        hint, context = r.number(4), r.number(2)
        r.take(1), r.take(1)
        return hint, context, r.take(len(data) - r.at)
    if kind == 3:
        r.take(4)
        context = r.number(2)
        r.take(1), r.take(1)
        status = r.number(4)
        r.take(4)
        return context, status
    if kind == 11:
        xmit, recv, group, count = r.number(2), r.number(2), r.number(4), r.number(1)
        r.take(3)
        elements = []
        for _ in range(count):
            name, many = r.number(2), r.number(1)
            r.take(1)
            interface = syntax(r)
            elements.append((name, interface, [syntax(r) for _ in range(many)]))
        if r.at < len(data):
            raise Bad("Body", r.at)
        return xmit, recv, group, elements
    if kind == 12:
        xmit, recv, group = r.number(2), r.number(2), r.number(4)
        r.take(r.number(2))
        count = r.number(1, 4)
        r.take(3)
        return xmit, recv, group, [(r.number(2), r.number(2), syntax(r)) for _ in range(count)]
    if kind == 13:
        return (r.number(2),)
    return ()


def read_pdu(data):
    """The PDU at the front: its size, kind, call, flags and body; or none where it isn't there in full."""
    if len(data) < 16:
        return None
    major, minor, kind, flags, order, other = data[:6]
    size, auth, call = struct.unpack_from("<HHI", data, 8)
    if major != 5 or minor > 1:
        raise Bad("Version")
    if kind not in KINDS:
        raise Bad("Kind")
    if (order, other) != (0x10, 0):
        raise Bad("Drep")
    if not 16 <= size <= 5840:
        raise Bad("Length")
    if auth:
        raise Bad("Auth")
    if len(data) < size:
        return None
    return size, kind, call, flags, read_body(kind, flags, data[:size])


def write_pdu(kind, call, flags, body):
    w = Writer()
    w.put(bytes([5, 0, kind, flags, 0x10, 0, 0, 0]))
    w.put(struct.pack("<HHI", 0, 0, call))
    if kind == 0:
        w.put(struct.pack("<IHH", *body[:3]) + body[3])
    elif kind == 2:
        w.put(struct.pack("<IHBB", body[0], body[1], 0, 0) + body[2])
    elif kind == 3:
        w.put(struct.pack("<IHBBII", 0, body[0], 0, 0, body[1], 0))
    elif kind == 11:
        w.put(struct.pack("<HHIB3x", *body[:3], len(body[3])))
        for name, interface, transfers in body[3]:
            w.put(struct.pack("<HBB", name, len(transfers), 0))
            for each in [interface, *transfers]:
                put_syntax(w, each)
    elif kind == 12:
        w.put(struct.pack("<HHIH", *body[:3], 0))
        w.put(struct.pack("<B3x", len(body[3])), 4)
        for result, reason, transfer in body[3]:
            w.put(struct.pack("<HH", result, reason))
            put_syntax(w, transfer)
    elif kind == 13:
        w.put(struct.pack("<HBBB", body[0], 1, 5, 0))
    struct.pack_into("<H", w.data, 8, len(w.data))
    return bytes(w.data)


def pdu_answer(data):
    try:
        found = read_pdu(data)
    except Bad as bad:
        return bad.text()
    if found is None:
        return "more"
    size, kind, call, flags, body = found
    return f"pdu {size} {KINDS[kind]} {digits(write_pdu(kind, call, flags, body))}"


# ---- streams


class Assembler:
    def __init__(self):
        self.begun = None

    def feed(self, kind, call, flags, body):
        """The call that is complete with this fragment, if one is."""
        shared = (call, body[1], body[2] if kind == 0 else 0)
        begun, self.begun = self.begun, None
        if (flags & 1 == 0) if begun is None else (flags & 1 or begun[0] != shared):
            raise Bad("FragOrder")
        stub = (begun[1] if begun else b"") + body[-1]
        if len(stub) > 8_388_608:
            raise Bad("FragTooLong", len(stub))
        if flags & 2:
            return shared, stub
        self.begun = shared, stub
        return None


def feed_answer(pieces):
    rest, parts, assembler = b"".join(pieces), [], Assembler()
    try:
        while (found := read_pdu(rest)) is not None:
            size, kind, call, flags, body = found
            parts.append(f"pdu {size} {KINDS[kind]}")
            rest = rest[size:]
            if kind in (0, 2):
                whole = assembler.feed(kind, call, flags, body)
                if whole:
                    parts.append("whole {} {} {} {}".format(*whole[0], digits(whole[1])))
        parts.append(f"rest {len(rest)}")
    except Bad as bad:
        parts.append(bad.text())
    return "; ".join(parts)


# ---- stubs: each field is a kind, and what more it takes

NAMES = {0, 0x2F, 0x5C}
UPDATE = ["flag", "flag", "u32", "u64", "u64", "u64", "guid", ("raw", 20), ("raw", 16)] + ["guid", "u64"] * 3 + ["name", "u32"]
REQUESTS = {
    0: ["guid", "guid"],
    1: ["guid", "guid", "u32", "u32"],
    2: ["guid", "guid"],
    3: ["guid", "guid", "u32", "u32", ("below", 3), "counted"],
    4: ["u32", "guid", "guid", ("below", 1), ("below", 2), "u64"],
    5: ["guid"],
    8: ["handle", "u32"],
    12: ["handle"],
    13: ["guid", "update", "u32", "u32", "u32"],
}
REPLIES = {
    0: ["u32"],
    1: ["u32", "u32", "u32"],
    2: ["u32"],
    3: ["updates", "u32", ("among", (0, 2, 3)), "guid", "u64", "u32"],
    4: ["u32"],
    5: ["u32", ("below", 2), "u64", "u32", "vector", "u32"],
    8: ["bytes", "u32", ("below", 2), "u32"],
    12: ["handle", "u32"],
    13: ["update", "handle", "bytes", "u32", "u32", "u64", "u32"],
}


def place(r, size):
    return r.at + -r.at % size


def read_among(r, values):
    at = place(r, 4)
    value = r.number(4)
    if value not in values:
        raise Bad("Value", at)
    return value


def read_count(r, limit):
    at = place(r, 4)
    count = r.number(4)
    if count > limit:
        raise Bad("Count", at)
    return count


def read_varying(r, limit):
    """The count behind a maximum, and behind an offset that is 0."""
    maximum = read_count(r, limit)
    at = place(r, 4)
    offset, count = struct.unpack("<II", r.take(8, 4))
    if offset or count > maximum:
        raise Bad("Count", at)
    return maximum, count


def read_name(r):
    at = place(r, 4)
    offset, count = struct.unpack("<II", r.take(8, 4))
    if 2 * count > len(r.data) - r.at:
        raise Bad("Short", at)
    units = struct.unpack(f"<{count}H", r.take(2 * count))
    if offset or count > 256:
        raise Bad("Count", at)
    if 0 not in units or units.index(0) != count - 1:
        raise Bad("Terminator", at)
    if count < 2 or NAMES & set(units[:-1]):
        raise Bad("Value", at)
    return units[:-1]


def read_interval(r):
    r.pad(8)
    return r.guid(), r.number(8), r.number(8)


def read_field(r, field):
    kind, more = field if isinstance(field, tuple) else (field, None)
    if kind in ("u32", "u64"):
        return r.number(4 if kind == "u32" else 8)
    if kind == "guid":
        return r.guid()
    if kind == "handle":
        return r.take(20, 4)
    if kind == "raw":
        return r.take(more)
    if kind in ("flag", "below", "among"):
        return read_among(r, more if kind == "among" else range(2 if kind == "flag" else more))
    if kind == "name":
        return read_name(r)
    if kind == "update":
        r.pad(8)
        return [read_field(r, each) for each in UPDATE]
    if kind == "counted":
        said = r.number(4)
        at = place(r, 4)
        if read_count(r, 131_072) != said:
            raise Bad("Value", at)
        return [read_interval(r) for _ in range(said)]
    if kind == "vector":
        return [read_interval(r) for _ in range(read_count(r, 65_536))] if r.number(4) else None
    maximum, count = read_varying(r, 256 if kind == "updates" else 32_768)
    return maximum, (r.take(count) if kind == "bytes" else [read_field(r, "update") for _ in range(count)])


def put_interval(w, value):
    w.put(b"", 8)
    w.put(value[0], 4)
    w.number(value[1], 8)
    w.number(value[2], 8)


def put_field(w, field, value):
    kind = field[0] if isinstance(field, tuple) else field
    if kind in ("guid", "handle"):
        w.put(value, 4)
    elif kind == "raw":
        w.put(value)
    elif kind == "u64":
        w.number(value, 8)
    elif kind in ("u32", "flag", "below", "among"):
        w.number(value, 4)
    elif kind == "name":
        w.put(struct.pack(f"<II{len(value)}HH", 0, len(value) + 1, *value, 0), 4)
    elif kind == "update":
        w.put(b"", 8)
        for each, part in zip(UPDATE, value):
            put_field(w, each, part)
    elif kind == "counted" or (kind == "vector" and value is not None):
        w.number(len(value) if kind == "counted" else 0x20000, 4)
        w.number(len(value), 4)
        for each in value:
            put_interval(w, each)
    elif kind == "vector":
        w.number(0, 4)
    else:
        w.put(struct.pack("<III", value[0], 0, len(value[1])), 4)
        if kind == "bytes":
            w.put(value[1])
        else:
            for each in value[1]:
                put_field(w, "update", each)


def write_stub(fields, values):
    w = Writer()
    for field, value in zip(fields, values):
        put_field(w, field, value)
    return bytes(w.data)


def stub_answer(table, opnum, data):
    if opnum not in table:
        return "bad Opnum"
    r = Reader(data)
    try:
        values = [read_field(r, field) for field in table[opnum]]
        if r.at < len(data):
            raise Bad("Rest", r.at)
    except Bad as bad:
        return bad.text()
    return f"stub {digits(write_stub(table[opnum], values))}"


# ---- marshalled forms

FIXED = [(0, b"FRSM"), (4, struct.pack("<I", 1)), (8, struct.pack("<I", 1)), (12, bytes(4)), (16, struct.pack("<Q", 4)), (24, None), (28, struct.pack("<I", 2)), (32, bytes(4)), (36, None)]


def form_answer(data):
    for at, want in FIXED:
        size = len(want) if want else (4 if at == 24 else 8)
        found = data[at : at + size]
        if len(found) < size or (want and found != want) or (at == 24 and found[0] & 0x10):
            return f"bad {at}"
    length = struct.unpack_from("<Q", data, 36)[0]
    if len(data) - 44 < length:
        return "bad 44"
    if len(data) - 44 > length:
        return f"bad {44 + length}"
    return "file {} 44 {}".format(struct.unpack_from("<I", data, 24)[0], hashlib.sha1(data).hexdigest())


def write_form(attributes, contents):
    return b"FRSM" + struct.pack("<IIIQIIIQ", 1, 1, 0, 4, attributes, 2, 0, len(contents)) + contents


# ---- making them


class Maker:
    def __init__(self, seed):
        self.random = random.Random(seed)

    def bytes(self, most):
        return self.random.randbytes(self.random.randint(0, most))

    def number(self, size):
        pick = self.random
        return pick.choice([0, 1, (1 << 8 * size) - 1, pick.getrandbits(8 * size)])

    def syntax(self):
        return self.random.randbytes(16), self.number(4)

    def body(self, kind):
        pick, number = self.random, self.number
        few = lambda: range(pick.choice([0, 1, 1, 2, 3]))
        if kind == 0:
            return number(4), number(2), number(2), self.bytes(40)
        if kind == 2:
            return number(4), number(2), self.bytes(40)
        if kind == 3:
            return number(2), number(4)
        if kind == 11:
            elements = [(number(2), self.syntax(), [self.syntax() for _ in few()]) for _ in few()]
            return number(2), number(2), number(4), elements
        if kind == 12:
            return number(2), number(2), number(4), [(number(2), number(2), self.syntax()) for _ in few()]
        if kind == 13:
            return (number(2),)
        return ()

    def pdu(self, kind=None):
        kind = self.random.choice(list(KINDS)) if kind is None else kind
        flags = self.random.choice([0, 1, 2, 3, 3, 3, 0x7F, self.number(1)])
        if kind == 0:
            flags &= 0x7F
        return write_pdu(kind, self.number(4), flags, self.body(kind))

    def call(self, response, shared=None):
        """The fragments of a call or of an answer."""
        kind = 2 if response else 0
        call, context, opnum = shared or (self.number(4), self.number(2), self.number(2))
        count = self.random.choice([1, 1, 2, 3, 5])
        parts = []
        for index in range(count):
            flags = (index == 0) + 2 * (index == count - 1) + self.random.choice([0, 0, 0, 0x10])
            stub = self.bytes(30)
            body = (0, context, stub) if response else (0, context, opnum, stub)
            parts.append(write_pdu(kind, call, flags, body))
        return parts

    def value(self, field):
        """A value of a stub's field."""
        kind, more = field if isinstance(field, tuple) else (field, None)
        pick = self.random
        if kind in ("u32", "u64"):
            return self.number(4 if kind == "u32" else 8)
        if kind in ("guid", "handle", "raw"):
            return pick.randbytes({"guid": 16, "handle": 20}.get(kind, more))
        if kind in ("flag", "below", "among"):
            return pick.choice(more) if kind == "among" else pick.randrange(2 if kind == "flag" else more)
        if kind == "name":
            return [pick.choice([0x41, 0x2E, 1, 0xD800, 0xFFFF]) for _ in range(pick.choice([1, 1, 2, 5, 255]))]
        if kind == "update":
            return [self.value(each) for each in UPDATE]
        if kind == "vector" and pick.random() < 0.3:
            return None
        if kind in ("counted", "vector"):
            return [(pick.randbytes(16), self.number(8), self.number(8)) for _ in range(pick.choice([0, 1, 2]))]
        count = pick.choice([0, 1, 2])
        maximum = pick.choice([count, count + 1, 256 if kind == "updates" else 32_768])
        return maximum, (pick.randbytes(count * 3 % 5 % (maximum + 1)) if kind == "bytes" else [self.value("update") for _ in range(count)])

    def stub(self, table, opnum):
        return write_stub(table[opnum], [self.value(field) for field in table[opnum]])

    def stubs(self):
        """Stubs of each method, right ones and wrong ones."""
        for word, table in (("request", REQUESTS), ("reply", REPLIES)):
            for opnum in table:
                good = self.stub(table, opnum)
                for data in [good, *self.wrong(good)]:
                    yield f"{word} {opnum} {digits(data)}", stub_answer(table, opnum, data)
                for at in range(0, len(good), 4):
                    for count in (0, 1, 2, 255, 256, 257, 32_768, 32_769, 65_536, 65_537, 131_072, 131_073, 0xFFFFFFFF):
                        data = good[:at] + struct.pack("<I", count) + good[at + 4 :]
                        yield f"{word} {opnum} {digits(data)}", stub_answer(table, opnum, data)
            for opnum in (6, 7, 9, 10, 11, 14, 15, 16, 255, 256, 65_535):
                yield f"{word} {opnum} {digits(self.bytes(40))}", "bad Opnum"

    # ---- wrong ones

    def changed(self, data, at, value):
        data = bytearray(data)
        data[at] = value & 0xFF
        return bytes(data)

    def wrong(self, data):
        """Each byte off by one, or set to the most; each cut; bytes behind."""
        for at in range(len(data)):
            yield self.changed(data, at, data[at] + 1)
            yield self.changed(data, at, data[at] - 1)
            yield self.changed(data, at, self.random.choice([0xFF, 0x80, data[at] ^ 1 << self.random.randint(0, 7)]))
            yield data[:at]
        for count in (1, 3, 8):
            yield data + self.random.randbytes(count)

    def wrong_length(self, data):
        """Each length in the header, with all the bytes there and with as many as it says."""
        for size in [*range(len(data) + 9), 5839, 5840, 5841, 0xFFFF]:
            said = data[:8] + struct.pack("<H", size) + data[10:]
            yield said
            yield (said + self.random.randbytes(64))[: max(size, 10)] if size < 6000 else said + bytes(16)

    def with_address(self):
        """A bind_ack with a secondary address, and padding that isn't zero."""
        address = self.bytes(12)
        head = struct.pack("<HHIH", 1432, 1432, 1, len(address)) + address
        pad = self.random.randbytes(-(16 + len(head)) % 4)
        results = [struct.pack("<HH", 0, 0) + self.random.randbytes(20) for _ in range(2)]
        body = head + pad + bytes([2]) + self.random.randbytes(3) + b"".join(results) + self.bytes(5)
        return struct.pack("<BBBBBBHHHI", 5, 1, 12, 3, 0x10, 0, 0x5AA5, 16 + len(body), 0, 7) + body

    def cut(self, data):
        """A stream in pieces: bytes, a few cuts, or whole."""
        way = self.random.random()
        if way < 0.2:
            return [data[at : at + 1] for at in range(len(data))] or [b""]
        places = sorted(self.random.randint(0, len(data)) for _ in range(self.random.choice([0, 1, 2, 5])))
        return [data[a:b] for a, b in zip([0, *places], [*places, len(data)])]

    def stream(self):
        """Calls and other PDUs, in order or not."""
        pick, parts = self.random, []
        for _ in range(pick.choice([1, 2, 3])):
            parts += self.call(pick.random() < 0.5)
            if pick.random() < 0.3:
                parts.insert(pick.randint(0, len(parts)), self.pdu())
        way = pick.random()
        if way < 0.15 and len(parts) > 1:
            a, b = pick.sample(range(len(parts)), 2)
            parts[a], parts[b] = parts[b], parts[a]
        elif way < 0.3:
            del parts[pick.randrange(len(parts))]
        elif way < 0.4:
            parts.insert(pick.randint(0, len(parts)), pick.choice(parts))
        data = b"".join(parts)
        if way > 0.9 and data:
            data = self.changed(data, pick.randrange(len(data)), pick.getrandbits(8))
        elif way > 0.8:
            data = data[: pick.randint(0, len(data))]
        return data

    def rows(self):
        """Rows and their answers, without end."""
        pick = self.random
        while True:
            for kind in KINDS:
                good = self.pdu(kind)
                for data in [good, *self.wrong(good)]:
                    yield f"pdu {digits(data)}", pdu_answer(data)
                for data in self.wrong_length(good):
                    yield f"pdu {digits(data)}", pdu_answer(data)
            for _ in range(20):
                data = self.with_address()
                yield f"pdu {digits(data)}", pdu_answer(data)
            for _ in range(600):
                data = self.stream()
                pieces = self.cut(data)
                yield "feed " + " ".join(map(digits, pieces)), feed_answer(pieces)
            short = b"".join(self.call(False))
            for at in range(len(short) + 1):
                pieces = [short[:at], short[at:]]
                yield "feed " + " ".join(map(digits, pieces)), feed_answer(pieces)
            yield from self.stubs()
            good = write_form(pick.choice([0x20, 0, 0x10, 0x30, self.number(4)]), self.bytes(20))
            for data in [good, *self.wrong(good)]:
                yield f"form {digits(data)}", form_answer(data)


def spelled(pick, row):
    """The row, its digits in lower case, upper case or both."""
    kind, _, words = row.partition(" ")
    way = pick.random()
    if way < 0.8:
        return row
    return kind + " " + (words.upper() if way < 0.9 else "".join(pick.choice([c, c.upper()]) for c in words))


# ---- comparing


def run(text):
    done = subprocess.run([PROGRAM], input=text, stdout=subprocess.PIPE, check=False)
    return done.returncode, done.stdout


def expect(text, status, written, why):
    found = run(text)
    if found != (status, written):
        sys.exit(f"{why}: status {found[0]} and {found[1][:200]!r}, not {status} and {written[:200]!r}")


def bad_rows():
    rows = ["", "pdu", "pdu ", "pdu  -", "pdu 0", "pdu 0g", "pdu -0", "pdu --", "pdu - ", "pdu -\r", " pdu -", "Pdu -", "pdu\t-", "pdu 00 00", "form", "form - -", "feed", "feed ", "feed - ", "feed  -", "feed 0", "feed 00  00", "feed 00 0", "frob -", "pdus -", "request -", "request 0", "request  -", "request 00 -", "request 01 -", "request +1 -", "request -1 -", "request 65536 -", "request 99999999999999999999 -", "request 0x1 -", "request 1 2 -", "request 0 0", "request 0 - -", "reply -", "reply 65536 -", "reply 3  -", "\xe9", "pdu \xe9\xe9", "#", "# pdu"]
    for row in rows:
        text = row.encode("latin-1") + b"\n"
        expect(text, 3, b"bad line 1\n", f"row {row!r}")
        expect(b"pdu -\nform -\n" + text + b"pdu -\n", 3, b"more\nbad 0\nbad line 3\n", f"third row {row!r}")
    expect(b"", 0, b"", "no rows")
    expect(b"pdu -", 3, b"bad line 1\n", "a row without a line feed")
    expect(b"pdu -\npdu -", 3, b"more\nbad line 2\n", "a last row without a line feed")
    longest = b"pdu " + b"0" * (LONGEST_ROW - 4)
    expect(longest + b"\n", 0, b"bad Version\n", "the longest row")
    expect(b"pdu -\n" + longest + b"0\n", 8, b"more\n", "a row that is too long")
    expect(longest + b"00", 8, b"", "a row that is too long, without a line feed")
    for words in (["x"], ["--help", "x"], ["--Help"], [""]):
        done = subprocess.run([PROGRAM, *words], input=b"pdu -\n", stdout=subprocess.PIPE, stderr=subprocess.DEVNULL, check=False)
        if (done.returncode, done.stdout) != (2, b""):
            sys.exit(f"words {words}: status {done.returncode}")


def claims():
    """Rows whose numbers claim up to 2^64 bytes, within 32 MiB of memory."""
    rows = []
    hint = write_pdu(0, 1, 1, (0xFFFFFFFF, 0, 3, b"x"))
    rows.append((f"feed {digits(hint)}", feed_answer([hint])))
    for length in (1 << 31, 1 << 32, 1 << 62, (1 << 63) - 44, (1 << 64) - 1):
        form = b"FRSM" + struct.pack("<IIIQIIIQ", 1, 1, 0, 4, 0x20, 2, 0, length) + b"x"
        rows.append((f"form {digits(form)}", form_answer(form)))
    for word, table in (("request", REQUESTS), ("reply", REPLIES)):
        for opnum in table:
            stub = Maker(opnum).stub(table, opnum)
            for at in range(0, len(stub), 4):
                for count in (131_072, 0x7FFFFFFF, 0xFFFFFFFF):
                    data = stub[:at] + struct.pack("<I", count) + stub[at + 4 :]
                    rows.append((f"{word} {opnum} {digits(data)}", stub_answer(table, opnum, data)))
    for part in range(0, len(rows), 200):
        some = rows[part : part + 200]
        text = "".join(row + "\n" for row, _ in some).encode()
        limit = lambda: resource.setrlimit(resource.RLIMIT_AS, (32 << 20, 32 << 20))
        done = subprocess.run([PROGRAM], input=text, stdout=subprocess.PIPE, preexec_fn=limit, check=False)
        if (done.returncode, done.stdout.decode().split("\n")[:-1]) != (0, [answer for _, answer in some]):
            sys.exit(f"status {done.returncode} of rows with large counts")


def main(words):
    count = int(words[0]) if words else 100_000
    maker = Maker(int(words[1]) if len(words) > 1 else 0)
    subprocess.run([TOP / "frswire", "--version"], stdout=subprocess.DEVNULL, check=True)
    bad_rows()
    claims()
    rows, answers = [], []
    for row, answer in maker.rows():
        rows.append(spelled(maker.random, row))
        answers.append(answer)
        if len(rows) >= count:
            break
    status, written = run("".join(row + "\n" for row in rows).encode())
    found = written.decode().split("\n")
    for row, answer, said in zip(rows, answers, found):
        if answer != said:
            sys.exit(f"{row}\nsays  {said}\nwants {answer}")
    if status or len(found) != len(rows) + 1 or found[-1]:
        sys.exit(f"status {status}, and {len(found) - 1} answers of {len(rows)} rows")
    kinds = {}
    for answer in answers:
        kind = " ".join(answer.split("; ")[-1].split()[:2 if answer.startswith("bad") else 1])
        kinds[kind] = kinds.get(kind, 0) + 1
    print(f"{len(rows)} rows agree")


if __name__ == "__main__":
    main(sys.argv[1:])
