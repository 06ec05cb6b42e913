#!/usr/bin/python3
"""Lets impacket pack stubs of the calls, and asks frswire what they are: each
has to be decoded. Stops at the first that isn't. Arrays of intervals and of updates are left out: impacket
doesn't align the structures in an array to their longest member, which C706 asks for.

Usage: check/impacket_stubs.py [COUNT [SEED]], COUNT stubs of each call (200) from the seed SEED (0) on.
It runs in the Python that has impacket. The program is built first where it has to be.
"""
import random
import subprocess
import sys
from pathlib import Path

from impacket.dcerpc.v5.dtypes import DWORD, GUID, ULONGLONG
from impacket.dcerpc.v5.ndr import NDRCALL, NDRSTRUCT, NDRUniConformantVaryingArray, NDRUniFixedArray, NDRUniVaryingArray

TOP = Path(__file__).resolve().parent.parent


class Octets20(NDRUniFixedArray):
    def getDataLen(self, data, offset=0):
        return 20


class Octets16(NDRUniFixedArray):
    def getDataLen(self, data, offset=0):
        return 16


class Units(NDRUniVaryingArray):
    item = "<H"


class Update(NDRSTRUCT):
    structure = (("present", DWORD), ("conflict", DWORD), ("attributes", DWORD), ("fence", ULONGLONG), ("clock", ULONGLONG), ("created", ULONGLONG), ("content", GUID), ("hash", Octets20), ("similarity", Octets16), ("uid", GUID), ("uidVersion", ULONGLONG), ("gvsn", GUID), ("gvsnVersion", ULONGLONG), ("parent", GUID), ("parentVersion", ULONGLONG), ("name", Units), ("flags", DWORD))


class Handle(NDRSTRUCT):
    structure = (("attributes", DWORD), ("id", GUID))

    def getAlignment(self):
        return 4


class Octets(NDRUniConformantVaryingArray):
    item = "c"


def call(name, *fields):
    return type(name, (NDRCALL,), {"structure": fields})


REQUESTS = {
    0: call("CheckConnectivity", ("replica", GUID), ("connection", GUID)),
    1: call("EstablishConnection", ("replica", GUID), ("connection", GUID), ("version", DWORD), ("flags", DWORD)),
    2: call("EstablishSession", ("connection", GUID), ("content", GUID)),
    4: call("RequestVersionVector", ("sequence", DWORD), ("connection", GUID), ("content", GUID), ("request", DWORD), ("change", DWORD), ("generation", ULONGLONG)),
    5: call("AsyncPoll", ("connection", GUID)),
    8: call("RawGetFileData", ("handle", Handle), ("size", DWORD)),
    12: call("RdcClose", ("handle", Handle)),
    13: call("InitializeFileTransferAsync", ("connection", GUID), ("update", Update), ("rdc", DWORD), ("policy", DWORD), ("size", DWORD)),
}
REPLIES = {
    0: call("CheckConnectivityResponse", ("rc", DWORD)),
    1: call("EstablishConnectionResponse", ("version", DWORD), ("flags", DWORD), ("rc", DWORD)),
    8: call("RawGetFileDataResponse", ("data", Octets), ("read", DWORD), ("end", DWORD), ("rc", DWORD)),
    12: call("RdcCloseResponse", ("handle", Handle), ("rc", DWORD)),
    13: call("InitializeFileTransferAsyncResponse", ("update", Update), ("handle", Handle), ("data", Octets), ("read", DWORD), ("last", DWORD), ("detail", ULONGLONG), ("rc", DWORD)),
}
BELOW = {"request": 1, "change": 2, "end": 2, "present": 2, "conflict": 2}


class Maker:
    def __init__(self, seed):
        self.random = random.Random(seed)

    def fill(self, message, name, kind):
        pick = self.random
        if kind is DWORD:
            message[name] = pick.randrange(BELOW.get(name, 1 << 32))
        elif kind is ULONGLONG:
            message[name] = pick.getrandbits(64)
        elif kind in (Handle, Update):
            for part, field in kind.structure:
                self.fill(message[name], part, field)
        elif kind is Octets:
            message[name] = [bytes([byte]) for byte in pick.randbytes(pick.randint(1, 20))]
        elif kind is Units:
            message[name] = [pick.randint(0x61, 0x7A) for _ in range(pick.randint(1, 30))] + [0]
        else:
            message[name] = pick.randbytes(20 if kind is Octets20 else 16)

    def stub(self, kind):
        message = kind()
        for name, field in kind.structure:
            self.fill(message, name, field)
        return message.getData()


def main(words):
    count = int(words[0]) if words else 200
    maker = Maker(int(words[1]) if len(words) > 1 else 0)
    subprocess.run([TOP / "frswire", "--version"], stdout=subprocess.DEVNULL, check=True)
    rows = [(f"{word} {opnum}", maker.stub(kind)) for word, table in (("request", REQUESTS), ("reply", REPLIES)) for opnum, kind in table.items() for _ in range(count)]
    text = "".join(f"{row} {data.hex()}\n" for row, data in rows).encode()
    done = subprocess.run([TOP / "crates/frswire/out/frswire"], input=text, stdout=subprocess.PIPE, check=True)
    for (row, data), said in zip(rows, done.stdout.decode().splitlines(), strict=True):
        if not said.startswith("stub "):
            sys.exit(f"{row} {data.hex()}: {said}")
    print(f"{len(rows)} stubs of impacket are decoded")


if __name__ == "__main__":
    main(sys.argv[1:])
