#!/usr/bin/env python3
"""Worked examples of `show`: streams packed by Python's xdrlib, and the lines that are wanted.

    python3.11 bench/vectors/show_rows.py examples

Each record is packed by the structs of RFC 5531 (sections 9 and 11) and its call's arguments by
those of RFC 1813 or of LBFS; its line stands beside it, written by hand. Nothing here was taken from
what `show` writes. xdrlib is in Python up to 3.12.
"""
import sys
import warnings
from pathlib import Path

warnings.simplefilter("ignore", DeprecationWarning)
import xdrlib  # noqa: E402

NFS, LBFS, BACK = 100003, 0x20004C42, 0x20004C43

AUTH_NONE = (0, b"")


def words(*numbers):
    p = xdrlib.Packer()
    for number in numbers:
        p.pack_uint(number)
    return p.get_buffer()


def opaque(text):
    p = xdrlib.Packer()
    p.pack_opaque(text)
    return p.get_buffer()


def handle(number):
    return opaque(b"LB01" + bytes(4) + number.to_bytes(8, "big"))


def auth(item):
    return words(item[0]) + opaque(item[1])


def call(xid, program, version, procedure, args=b"", rpcvers=2, cred=AUTH_NONE, verf=AUTH_NONE):
    """a CALL of rpc_msg (RFC 5531, section 9)"""
    return words(xid, 0, rpcvers, program, version, procedure) + auth(cred) + auth(verf) + args


def accepted(xid, stat, behind=b"", verf=AUTH_NONE):
    """a REPLY that is MSG_ACCEPTED"""
    return words(xid, 1, 0) + auth(verf) + words(stat) + behind


def denied(xid, stat, behind=b""):
    """a REPLY that is MSG_DENIED"""
    return words(xid, 1, 1, stat) + behind


def fragment(text, last=True):
    return words((0x80000000 if last else 0) | len(text)) + text


EXCHANGE = [
    (call(7, LBFS, 1, 0), "call 7 lbfs NULL 0"),
    (accepted(7, 0), "answer 7 SUCCESS 0"),
    # the fill behind the name is not zero
    (call(9, NFS, 3, 3, handle(1) + words(1) + b"a\0\0\1"), "unfit 9 GARBAGE_ARGS"),
    (accepted(9, 4), "answer 9 GARBAGE_ARGS 0"),
]

RECALL = [
    (call(1, BACK, 1, 1, handle(2)), "call 1 back RECALL 20"),
    # GETHASH of an empty file: version 1, a term of a minute, size 0, no chunks, eof
    (accepted(1, 0, words(0, 0, 1, 60000, 0, 0, 0, 1)), "answer 1 SUCCESS 32"),
]

UNFIT = [
    (call(1, NFS, 3, 0, rpcvers=3), "unfit 1 RPC_MISMATCH"),
    # nothing behind the version of RPC is looked at
    (words(2, 0, 1), "unfit 2 RPC_MISMATCH"),
    (call(3, NFS, 2, 0), "unfit 3 PROG_MISMATCH"),
    (call(4, LBFS, 9, 0), "unfit 4 PROG_MISMATCH"),
    (call(5, BACK, 0, 9), "unfit 5 PROG_MISMATCH"),
    # the mount program
    (call(6, 100005, 3, 0), "unfit 6 PROG_UNAVAIL"),
    # WRITE of NFS
    (call(7, NFS, 3, 7), "unfit 7 PROC_UNAVAIL"),
    (call(8, LBFS, 1, 7), "unfit 8 PROC_UNAVAIL"),
    (call(9, BACK, 1, 2), "unfit 9 PROC_UNAVAIL"),
    # GETATTR with a word behind its handle
    (call(10, NFS, 3, 1, handle(1) + words(0)), "unfit 10 GARBAGE_ARGS"),
    # CREATE, UNCHECKED, whose first bool is 2
    (call(11, NFS, 3, 8, handle(1) + opaque(b"a") + words(0, 2, 0, 0, 0, 0, 0)), "unfit 11 GARBAGE_ARGS"),
    # GETHASH of nothing
    (call(12, LBFS, 1, 2), "unfit 12 GARBAGE_ARGS"),
    # other authentication is read, and not looked at
    (call(13, NFS, 3, 1, handle(1), cred=(1, bytes(400)), verf=(6, b"abc")), "call 13 nfs GETATTR 20"),
]

OTHERS = [
    # no xid, no type, another type
    (b"", "bad 0"),
    (words(1), "bad 4"),
    (words(1, 2), "bad 4"),
    # a call that ends in its program, and one whose credential has 401 bytes
    (words(2, 0, 2, NFS)[:14], "bad 12"),
    (call(3, NFS, 3, 0, cred=(0, bytes(401))), "bad 28"),
    # a verifier whose fill is not zero
    (words(4, 0, 2, NFS, 3, 0, 0, 0, 0, 1) + b"x\0\0\1", "bad 36"),
    # neither accepted nor denied
    (words(5, 1, 2), "bad 8"),
    (accepted(6, 6), "bad 20"),
    (denied(7, 2), "bad 12"),
    # answers that nothing waits for, and that are not looked at
    (accepted(8, 0, words(1, 2, 3)), "answer 8 SUCCESS 12"),
    (accepted(9, 1), "answer 9 PROG_UNAVAIL 0"),
    (accepted(10, 2, words(3, 3)), "answer 10 PROG_MISMATCH 8"),
    (accepted(11, 3), "answer 11 PROC_UNAVAIL 0"),
    (accepted(12, 5, verf=(1, b"abcd")), "answer 12 SYSTEM_ERR 0"),
    (denied(13, 0, words(2, 2)), "answer 13 RPC_MISMATCH 8"),
    (denied(14, 1, words(5)), "answer 14 AUTH_ERROR 4"),
]


def stream(rows):
    return b"".join(fragment(record) for record, _ in rows)


def lines(rows):
    return [line for _, line in rows]


def examples():
    """what each is named, its bytes, and its lines"""
    yield "exchange", stream(EXCHANGE) + words(0x80000004) + b"\0", lines(EXCHANGE) + ["rest 5"]
    yield "recall", stream(RECALL), lines(RECALL)
    yield "unfit", stream(UNFIT), lines(UNFIT)
    yield "others", stream(OTHERS), lines(OTHERS)
    yield "empty", b"", []
    # a record in three fragments, and then a header that promises a byte too many
    null = EXCHANGE[0][0]
    parts = fragment(null[:4], False) + fragment(null[4:8], False) + fragment(null[8:])
    yield "limit", parts + words(0x80000000 | 131073) + stream(EXCHANGE), ["call 7 lbfs NULL 0", "limit"]


def main(folder):
    for name, text, wanted in examples():
        start = Path(folder) / f"show-{name}"
        start.with_suffix(".bin").write_bytes(text)
        start.with_suffix(".out").write_text("".join(line + "\n" for line in wanted))
        start.with_suffix(".cmd").write_text("show\n")


if len(sys.argv) == 2:
    main(sys.argv[1])
else:
    sys.exit(__doc__)
