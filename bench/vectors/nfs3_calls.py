#!/usr/bin/env python3
"""Calls and answers of NFS version 3, packed by Python's xdrlib by the structs of RFC 1813.

    python3.11 bench/vectors/nfs3_calls.py rows
    python3.11 bench/vectors/nfs3_calls.py pcap FILE && tshark -V -r FILE
    python3.11 bench/vectors/nfs3_calls.py hex | bench/vectors/nfs3_again

The first writes rows of crates/trials/data/nfs, in words of four bytes in hexadecimal, and behind ` =>`
what is to be printed of them (crates/trials/stdout): what was packed, in order. The second writes the same messages behind RPC headers as packets of a connection to port 2049, so that
tshark's NFS dissector can say what it reads in them. The third writes them in hexadecimal, for the
code that rpcgen makes of RFC 1813's XDR (`README.md` says how to build it). Nothing here was taken
from the crate: each function packs one struct of RFC 1813, named in its first line, in the order of
its fields. xdrlib is in Python up to 3.12.
"""
import struct
import sys
import warnings

warnings.simplefilter("ignore", DeprecationWarning)
import xdrlib  # noqa: E402


# ---- RFC 1813, sections 2.5 and 2.6


def handle(p, number):
    """nfs_fh3, here 16 bytes"""
    p.pack_opaque(b"LB01" + bytes(4) + struct.pack(">Q", number))


def time(p, t):
    """nfstime3"""
    p.pack_uint(t[0])
    p.pack_uint(t[1])


def attr(p, a):
    """fattr3"""
    p.pack_enum(a["type"])
    p.pack_uint(a["mode"])
    p.pack_uint(a["nlink"])
    p.pack_uint(a["uid"])
    p.pack_uint(a["gid"])
    p.pack_uhyper(a["size"])
    p.pack_uhyper(a["used"])
    p.pack_uint(a["rdev"][0])
    p.pack_uint(a["rdev"][1])
    p.pack_uhyper(a["fsid"])
    p.pack_uhyper(a["fileid"])
    time(p, a["atime"])
    time(p, a["mtime"])
    time(p, a["ctime"])


def optional(p, pack, x):
    """post_op_attr, pre_op_attr, post_op_fh3, set_mode3, ..: a bool, and where it is true the item"""
    p.pack_bool(x is not None)
    if x is not None:
        pack(p, x)


def uint(p, x):
    p.pack_uint(x)


def size(p, x):
    p.pack_uhyper(x)


def before(p, b):
    """wcc_attr"""
    p.pack_uhyper(b["size"])
    time(p, b["mtime"])
    time(p, b["ctime"])


def wcc(p, w):
    """wcc_data"""
    optional(p, before, w[0])
    optional(p, attr, w[1])


def set_time(p, t):
    """set_atime and set_mtime: DONT_CHANGE 0, SET_TO_SERVER_TIME 1, SET_TO_CLIENT_TIME 2"""
    if t == "keep":
        p.pack_enum(0)
    elif t == "server":
        p.pack_enum(1)
    else:
        p.pack_enum(2)
        time(p, t)


def set_attr(p, s):
    """sattr3"""
    optional(p, uint, s["mode"])
    optional(p, uint, s["uid"])
    optional(p, uint, s["gid"])
    optional(p, size, s["size"])
    set_time(p, s["atime"])
    set_time(p, s["mtime"])


def place(p, d):
    """diropargs3"""
    handle(p, d[0])
    p.pack_string(d[1])


# ---- RFC 1813, sections 3.3.1 to 3.3.19: arguments


def access_args(p, number, bits):
    handle(p, number)
    p.pack_uint(bits)


def read_args(p, number, offset, count):
    handle(p, number)
    p.pack_uhyper(offset)
    p.pack_uint(count)


def create_args(p, where, mode, how):
    place(p, where)
    p.pack_enum(mode)
    if mode == 2:
        p.pack_fopaque(8, how)
    else:
        set_attr(p, how)


def mkdir_args(p, where, attributes):
    place(p, where)
    set_attr(p, attributes)


def rename_args(p, source, target):
    place(p, source)
    place(p, target)


def readdir_args(p, number, cookie, verf, count):
    handle(p, number)
    p.pack_uhyper(cookie)
    p.pack_fopaque(8, verf)
    p.pack_uint(count)


# ---- RFC 1813, sections 3.3.1 to 3.3.19: results, behind their status


def lookup_ok(p, number, obj, directory):
    handle(p, number)
    optional(p, attr, obj)
    optional(p, attr, directory)


def access_ok(p, obj, bits):
    optional(p, attr, obj)
    p.pack_uint(bits)


def read_ok(p, obj, count, eof, data):
    optional(p, attr, obj)
    p.pack_uint(count)
    p.pack_bool(eof)
    p.pack_opaque(data)


def made_ok(p, obj, attributes, dir_wcc):
    optional(p, handle, obj)
    optional(p, attr, attributes)
    wcc(p, dir_wcc)


def moved(p, from_wcc, to_wcc):
    wcc(p, from_wcc)
    wcc(p, to_wcc)


def readdir_ok(p, directory, verf, entries, eof):
    optional(p, attr, directory)
    p.pack_fopaque(8, verf)
    for fileid, name, cookie in entries:
        p.pack_bool(True)
        p.pack_uhyper(fileid)
        p.pack_string(name)
        p.pack_uhyper(cookie)
    p.pack_bool(False)
    p.pack_bool(eof)


def fsinfo_ok(p, obj, sizes, maxfilesize, delta, properties):
    optional(p, attr, obj)
    for n in sizes:
        p.pack_uint(n)
    p.pack_uhyper(maxfilesize)
    time(p, delta)
    p.pack_uint(properties)


def status(p, number, pack, *fields):
    p.pack_enum(number)
    pack(p, *fields)


def nothing(p):
    pass


# ---- the messages

FILE = dict(type=1, mode=0o644, nlink=1, uid=1001, gid=1002, size=0x100000002, used=4096, rdev=(3, 4),
            fsid=0x4C424653, fileid=77, atime=(5, 6), mtime=(7, 8), ctime=(9, 10))
DIR = dict(type=2, mode=0o755, nlink=2, uid=11, gid=12, size=13, used=14, rdev=(15, 16), fsid=17,
           fileid=18, atime=(19, 20), mtime=(21, 22), ctime=(23, 24))
BEFORE = dict(size=31, mtime=(32, 33), ctime=(34, 35))
SOME = dict(mode=0o600, uid=41, gid=None, size=0x100000003, atime=(42, 43), mtime="server")
NONE = dict(mode=None, uid=None, gid=None, size=None, atime="keep", mtime="keep")
OTHERS = dict(mode=None, uid=None, gid=44, size=None, atime="server", mtime=(45, 46))
VERF = bytes.fromhex("0123456789abcdef")
ABSENT = (None, None)

OK, NOENT, IO, ACCES, EXIST, NOTDIR, STALE, NOTEMPTY, BAD_COOKIE = 0, 2, 5, 13, 17, 20, 70, 66, 10003

# name, number of the procedure, arguments, answers (each a list of a name, a packer and its fields)
MESSAGES = [
    ("GETATTR", 1, [("GETATTR", handle, 1)],
     [("GETATTR_OK", status, OK, attr, FILE), ("GETATTR_FAILED", status, STALE, nothing)]),
    ("LOOKUP", 3, [("LOOKUP", place, (1, b"a"))],
     [("LOOKUP_OK", status, OK, lookup_ok, 77, FILE, DIR),
      ("LOOKUP_BARE", status, OK, lookup_ok, 77, None, None),
      ("LOOKUP_FAILED", status, NOENT, lambda p: optional(p, attr, DIR))]),
    ("ACCESS", 4, [("ACCESS", access_args, 77, 0x3F)],
     [("ACCESS_OK", status, OK, access_ok, FILE, 0x15),
      ("ACCESS_FAILED", status, STALE, lambda p: optional(p, attr, None))]),
    ("READ", 6, [("READ", read_args, 77, 0x0102030405060708, 65536)],
     [("READ_OK", status, OK, read_ok, FILE, 5, True, b"hello"),
      ("READ_FAILED", status, IO, lambda p: optional(p, attr, FILE))]),
    ("CREATE", 8,
     [("CREATE_UNCHECKED", create_args, (1, b"abc"), 0, SOME),
      ("CREATE_GUARDED", create_args, (1, b"abcd"), 1, NONE),
      ("CREATE_EXCLUSIVE", create_args, (1, b"abcde"), 2, VERF)],
     [("CREATE_OK", status, OK, made_ok, 77, FILE, (BEFORE, DIR)),
      ("CREATE_BARE", status, OK, made_ok, None, None, ABSENT),
      ("CREATE_FAILED", status, EXIST, lambda p: wcc(p, (BEFORE, None)))]),
    ("MKDIR", 9, [("MKDIR", mkdir_args, (18, b"new"), OTHERS)],
     [("MKDIR_OK", status, OK, made_ok, 19, DIR, (None, DIR)),
      ("MKDIR_FAILED", status, NOTDIR, lambda p: wcc(p, ABSENT))]),
    ("REMOVE", 12, [("REMOVE", place, (18, b"gone"))],
     [("REMOVE_OK", status, OK, wcc, (BEFORE, DIR)),
      ("REMOVE_FAILED", status, ACCES, lambda p: wcc(p, (None, DIR)))]),
    ("RMDIR", 13, [("RMDIR", place, (18, b""))],
     [("RMDIR_OK", status, OK, wcc, (BEFORE, None)),
      ("RMDIR_FAILED", status, NOTEMPTY, lambda p: wcc(p, ABSENT))]),
    ("RENAME", 14, [("RENAME", rename_args, (18, b"from"), (19, b"target"))],
     [("RENAME_OK", status, OK, moved, (BEFORE, DIR), (None, None)),
      ("RENAME_FAILED", status, EXIST, moved, ABSENT, (BEFORE, None))]),
    ("READDIR", 16, [("READDIR", readdir_args, 18, 3, VERF, 65536)],
     [("READDIR_OK", status, OK, readdir_ok, DIR, VERF, [(77, b"a", 4), (78, b"bcdef", 5)], True),
      ("READDIR_BARE", status, OK, readdir_ok, None, bytes(8), [], False),
      ("READDIR_FAILED", status, BAD_COOKIE, lambda p: optional(p, attr, DIR))]),
    ("FSINFO", 19, [("FSINFO", handle, 1)],
     [("FSINFO_OK", status, OK, fsinfo_ok, DIR, (1, 2, 3, 4, 5, 6, 7), 0x800000009, (10, 11), 27),
      ("FSINFO_FAILED", status, STALE, lambda p: optional(p, attr, None))]),
]


def packed(message):
    p = xdrlib.Packer()
    message[1](p, *message[2:])
    return p.get_buffer()


# ---- the rows of crates/trials/data/nfs, each with what is to be printed


class Told(xdrlib.Packer):
    """A packer that also tells what it packs, in order."""

    def __init__(self):
        super().__init__()
        self.told = []

    def pack_uint(self, x):
        self.told.append(str(int(x)))
        super().pack_uint(x)

    pack_enum = pack_uint

    def pack_uhyper(self, x):
        self.told.append(str(int(x)))
        for half in divmod(x, 2**32):
            xdrlib.Packer.pack_uint(self, half)

    def pack_bool(self, x):
        self.told.append("true" if x else "false")
        xdrlib.Packer.pack_uint(self, 1 if x else 0)

    def pack_fopaque(self, n, text):
        """Eight bytes are a verifier, which is printed as a number."""
        self.told.append(str(int.from_bytes(text, "big")) if n == 8 else told_bytes(text))
        super().pack_fopaque(n, text)

    def pack_opaque(self, text):
        self.told.append(told_bytes(text))
        xdrlib.Packer.pack_uint(self, len(text))
        xdrlib.Packer.pack_fopaque(self, len(text), text)

    pack_string = pack_opaque


def told_bytes(text):
    """in hexadecimal; a handle of this file system by its number; eight and more equal bytes as a run"""
    if len(text) == 16 and text[:8] == b"LB01" + bytes(4):
        return "#%d" % int.from_bytes(text[8:], "big")
    told, at = "x", 0
    while at < len(text):
        end = at
        while end < len(text) and text[end] == text[at]:
            end += 1
        told += "[%d*%02x]" % (end - at, text[at]) if end - at >= 8 else text[at:end].hex()
        at = end
    return told


def words(text):
    return " ".join(text[k:k + 4].hex() for k in range(0, len(text), 4))


def row(kind, procedure, message):
    p = Told()
    message[1](p, *message[2:])
    told = "".join(" " + part for part in p.told)
    return "0 %s nfs %d : %s =>%s; same" % (kind, procedure, words(p.get_buffer()), told)


def write_rows():
    for _, procedure, calls, answers in MESSAGES:
        for message in calls:
            print(row("args", procedure, message))
        for message in answers:
            print(row("results", procedure, message))


# ---- the same in hexadecimal, behind the name of their type


def write_hex():
    for name, _, calls, answers in MESSAGES:
        for kind, messages in (("args", calls), ("res", answers)):
            for message in messages:
                print(name + "3" + kind, packed(message).hex())


# ---- the same as packets


def packet(seq, ack, from_client, payload):
    ports = (1023, 2049) if from_client else (2049, 1023)
    hosts = (b"\x7f\0\0\1", b"\x7f\0\0\2") if from_client else (b"\x7f\0\0\2", b"\x7f\0\0\1")
    tcp = struct.pack(">HHIIBBHHH", *ports, seq, ack, 5 << 4, 0x18, 65535, 0, 0) + payload
    ip = struct.pack(">BBHHHBBH", 0x45, 0, 20 + len(tcp), 0, 0x4000, 64, 6, 0) + hosts[0] + hosts[1]
    return b"\2\0\0\0\0\1\2\0\0\0\0\2\x08\0" + ip + tcp


def write_pcap(path):
    up, down, xid, packets = 1, 1, 0, []
    for _, procedure, calls, answers in MESSAGES:
        last = max(len(calls), len(answers))
        for k in range(last):
            xid += 1
            call = calls[min(k, len(calls) - 1)]
            record = struct.pack(">10I", xid, 0, 2, 100003, 3, procedure, 0, 0, 0, 0) + packed(call)
            record = struct.pack(">I", 0x80000000 | len(record)) + record
            packets.append(packet(up, down, True, record))
            up += len(record)
            answer = answers[min(k, len(answers) - 1)]
            record = struct.pack(">6I", xid, 1, 0, 0, 0, 0) + packed(answer)
            record = struct.pack(">I", 0x80000000 | len(record)) + record
            packets.append(packet(down, up, False, record))
            down += len(record)
    with open(path, "wb") as f:
        f.write(struct.pack("<IHHiIII", 0xA1B2C3D4, 2, 4, 0, 0, 65535, 1))
        for n, p in enumerate(packets):
            f.write(struct.pack("<IIII", n, 0, len(p), len(p)) + p)


def main():
    if sys.argv[1:] == ["rows"]:
        write_rows()
    elif sys.argv[1:] == ["hex"]:
        write_hex()
    elif len(sys.argv) == 3 and sys.argv[1] == "pcap":
        write_pcap(sys.argv[2])
    else:
        sys.exit(__doc__)


if __name__ == "__main__":
    main()
