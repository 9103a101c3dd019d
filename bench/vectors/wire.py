#!/usr/bin/env python3
"""Records of RFC 5531 as packets, for tshark to read: of the kinds that the tests of wire look at.

    python3.11 bench/vectors/wire.py FILE &&
        tshark -V -o rpc.dissect_unknown_programs:TRUE -r FILE

Calls go to port 2049, and answers come from it. Nothing here was taken from the crate: the headers
are packed by Python's xdrlib in the order of rpc_msg's fields. xdrlib is in Python up to 3.12.
"""
import struct
import sys
import warnings

warnings.simplefilter("ignore", DeprecationWarning)
import xdrlib  # noqa: E402

NFS, LBFS, BACK = 100003, 0x20004C42, 0x20004C43


def handle(number):
    return b"LB01" + struct.pack(">IQ", 0, number)


def call(xid, rpcvers, prog, vers, proc, pack=lambda p: None):
    """call_body, with AUTH_NONE twice"""
    p = xdrlib.Packer()
    for word in (xid, 0, rpcvers, prog, vers, proc, 0, 0, 0, 0):
        p.pack_uint(word)
    pack(p)
    return p.get_buffer()


def accepted(xid, stat, pack=lambda p: None):
    """accepted_reply, with AUTH_NONE"""
    p = xdrlib.Packer()
    for word in (xid, 1, 0, 0, 0, stat):
        p.pack_uint(word)
    pack(p)
    return p.get_buffer()


def denied(xid, stat, *words):
    """rejected_reply"""
    p = xdrlib.Packer()
    for word in (xid, 1, 1, stat) + words:
        p.pack_uint(word)
    return p.get_buffer()


def file(number):
    return lambda p: p.pack_opaque(handle(number))


def lookup(p):
    p.pack_opaque(handle(1))
    p.pack_string(b"a")


def versions(low, high):
    def pack(p):
        p.pack_uint(low)
        p.pack_uint(high)

    return pack


def no_hashes(p):
    """a GETHASH of an empty file: version 1, a term of a minute"""
    p.pack_enum(0)
    p.pack_uhyper(1)
    p.pack_uint(60000)
    p.pack_uhyper(0)
    p.pack_array([], lambda pair: None)
    p.pack_bool(True)


# pairs of a call and its answer
EXCHANGES = [
    (call(7, 2, LBFS, 1, 0), accepted(7, 0)),
    (call(9, 2, NFS, 3, 3, lookup)[:-1] + b"\1", accepted(9, 4)),
    (call(1, 2, BACK, 1, 1, file(2)), accepted(1, 0)),
    (call(2, 2, LBFS, 1, 2, lambda p: (file(1)(p), p.pack_uhyper(0), p.pack_uint(9))), accepted(2, 0, no_hashes)),
    (call(3, 2, 5, 9, 99), accepted(3, 1)),
    (call(4, 2, NFS, 2, 99), accepted(4, 2, versions(3, 3))),
    (call(5, 2, LBFS, 9, 99), accepted(5, 2, versions(1, 1))),
    (call(6, 2, NFS, 3, 7), accepted(6, 3)),
    (call(8, 2, NFS, 3, 6), accepted(8, 4)),
    (call(10, 2, NFS, 3, 0), accepted(10, 5)),
    (call(11, 3, NFS, 3, 0), denied(11, 0, 2, 2)),
    (call(12, 2, NFS, 3, 0), denied(12, 1, 2)),
]


def packet(seq, ack, from_client, payload):
    ports = (1023, 2049) if from_client else (2049, 1023)
    hosts = (b"\x7f\0\0\1", b"\x7f\0\0\2") if from_client else (b"\x7f\0\0\2", b"\x7f\0\0\1")
    tcp = struct.pack(">HHIIBBHHH", *ports, seq, ack, 5 << 4, 0x18, 65535, 0, 0) + payload
    ip = struct.pack(">BBHHHBBH", 0x45, 0, 20 + len(tcp), 0, 0x4000, 64, 6, 0) + hosts[0] + hosts[1]
    return b"\2\0\0\0\0\1\2\0\0\0\0\2\x08\0" + ip + tcp


def main(path):
    up, down, packets = 1, 1, []
    for record, answer in EXCHANGES:
        record = struct.pack(">I", 0x80000000 | len(record)) + record
        packets.append(packet(up, down, True, record))
        up += len(record)
        answer = struct.pack(">I", 0x80000000 | len(answer)) + answer
        packets.append(packet(down, up, False, answer))
        down += len(answer)
    with open(path, "wb") as f:
        f.write(struct.pack("<IHHiIII", 0xA1B2C3D4, 2, 4, 0, 0, 65535, 1))
        for n, p in enumerate(packets):
            f.write(struct.pack("<IIII", n, 0, len(p), len(p)) + p)


if len(sys.argv) != 2:
    sys.exit(__doc__)
main(sys.argv[1])
