#!/usr/bin/env python3
"""Lets tshark take apart PDUs that frswire wrote, and stops at the first that it finds malformed or
reads otherwise.

Usage: check/tshark.py [COUNT [SEED]], COUNT PDUs of each kind (50) from the seed SEED (0) on. tshark has
to be there. The program is built first where it has to be.
"""
import pathlib
import struct
import subprocess
import sys
import tempfile

from wire import KINDS, TOP, Maker, digits, read_pdu


def packet(data, serial):
    """A TCP segment from port 135, with its IPv4 and Ethernet headers."""
    tcp = struct.pack(">HHIIBBHHH", 135, 50_000 + serial % 10_000, 1, 1, 0x50, 0x18, 0xFFFF, 0, 0) + data
    ip = struct.pack(">BBHHHBBH4s4s", 0x45, 0, 20 + len(tcp), serial & 0xFFFF, 0, 64, 6, 0, b"\x0a\0\0\1", b"\x0a\0\0\2")
    return b"\2\0\0\0\0\1\2\0\0\0\0\2\x08\0" + ip + tcp


def pcap(pdus):
    out = struct.pack("<IHHiIII", 0xA1B2C3D4, 2, 4, 0, 0, 65_535, 1)
    for serial, data in enumerate(pdus):
        whole = packet(data, serial)
        out += struct.pack("<IIII", serial, 0, len(whole), len(whole)) + whole
    return out


def written(pdus):
    """The PDUs as frswire writes them."""
    rows = "".join(f"pdu {digits(data)}\n" for data in pdus).encode()
    done = subprocess.run([TOP / "crates/frswire/out/frswire"], input=rows, stdout=subprocess.PIPE, check=True)
    return [bytes.fromhex(row.split()[3]) for row in done.stdout.decode().splitlines()]


def main(words):
    count = int(words[0]) if words else 50
    maker = Maker(int(words[1]) if len(words) > 1 else 0)
    subprocess.run([TOP / "frswire", "--version"], stdout=subprocess.DEVNULL, check=True)
    pdus = written([maker.pdu(kind) for kind in KINDS for _ in range(count)])
    with tempfile.TemporaryDirectory() as folder:
        path = pathlib.Path(folder) / "pdus.pcap"
        path.write_bytes(pcap(pdus))
        fields = ["frame.number", "dcerpc.pkt_type", "dcerpc.cn_frag_len", "dcerpc.cn_call_id", "_ws.malformed", "_ws.expert.message"]
        words = ["tshark", "-r", path, "-d", "tcp.port==135,dcerpc", "-o", "tcp.desegment_tcp_streams:FALSE", "-o", "dcerpc.desegment_dcerpc:FALSE", "-o", "dcerpc.reassemble_dcerpc:FALSE", "-T", "fields", "-E", "separator=|"]
        done = subprocess.run([*words, *(x for field in fields for x in ("-e", field))], stdout=subprocess.PIPE, stderr=subprocess.DEVNULL, check=True)
    rows = done.stdout.decode().splitlines()
    if len(rows) != len(pdus):
        sys.exit(f"{len(rows)} frames of {len(pdus)}")
    for data, row in zip(pdus, rows):
        number, kind, size, call, malformed, message = row.split("|", 5)
        found = read_pdu(data)
        if malformed or "alformed" in message:
            sys.exit(f"frame {number} is malformed: {KINDS[found[1]]} {digits(data)}: {message}")
        if (kind, size, call) != (str(found[1]), str(found[0]), str(found[2])):
            sys.exit(f"frame {number}: kind {kind}, size {size}, call {call} of {digits(data)}")
    print(f"{len(pdus)} PDUs are taken apart by tshark")


if __name__ == "__main__":
    main(sys.argv[1:])
