#!/usr/bin/env python3
"""Worked rows of sessions that are no client's: records packed by RFC 5531, RFC 4506 and RFC 1813.

    bench/vectors/raw_rows.py >examples/raw.rows && bench/vectors/replays.py --mend examples/raw.rows

What is wanted of each is written by `replays.py`, which knows the protocol apart from the program, and was looked over by hand.
"""
import hashlib

from raw_traces import BACK, LBFS, NFS, answered, called, handle, no_attributes, number, opaque, record


def lbfs(xid, procedure, arguments=b""):
    return record(called(xid, LBFS, procedure, arguments))


def nfs(xid, procedure, arguments=b""):
    return record(called(xid, NFS, procedure, arguments))


def lease(xid, file):
    return lbfs(xid, 1, handle(file))


def make(xid, fd, file):
    return lbfs(xid, 3, number(fd) + handle(file))


def send(xid, fd, at, bytes_):
    return lbfs(xid, 4, number(fd) + number(at, 8) + opaque(bytes_))


def name(xid, fd, at, bytes_):
    return lbfs(xid, 5, number(fd) + number(at, 8) + number(len(bytes_)) + hashlib.sha1(bytes_).digest())


def commit(xid, fd, file, size):
    return lbfs(xid, 6, number(fd) + handle(file) + number(size, 8))


def stores(xid, fd, file, bytes_):
    return make(xid, fd, file) + send(xid + 1, fd, 0, bytes_) + commit(xid + 2, fd, file, len(bytes_))


def raw(session, bytes_):
    return f"raw {session} {bytes_.hex()}"


def header(clients=1, term=60000, drift=100):
    return ["lbfs-trace 1", f"term {term}", f"drift {drift}", f"clients {clients}"]


def alone(*lines):
    """A raw session of its own beside one file."""
    return header() + ["file a t:a", "rawjoin 0", *lines]


# behind each record of these the session empties its file, if it stands
RECORDS = [
    ("RPC of version 3 is refused", record(called(5, NFS, 0, rpc=3))),
    ("NFS of version 2 is refused", record(called(5, NFS, 0, version=2))),
    ("LBFS of version 9 is refused", record(called(5, LBFS, 0, version=9))),
    ("the server has no callback program", record(called(5, BACK, 0))),
    ("a procedure that NFS has and the server hasn't", nfs(5, 2)),
    ("a procedure that LBFS hasn't", lbfs(5, 7)),
    ("arguments that end early", lbfs(5, 1)),
    ("an auth body of 400 bytes is read over", record(called(5, LBFS, 0, cred=bytes(400)))),
    ("an auth body of 401 bytes closes the session", record(called(5, LBFS, 0, cred=bytes(401)))),
    ("a record of two bytes closes it", record(b"\0\0")),
    ("so does what is neither a call nor an answer", record(number(5) + number(2))),
    ("1,024 headers of length 0 are a start of a record", number(0) * 1024),
    ("1,025 close the session", number(0) * 1025),
    ("a header that promises a byte too many closes it", number(0x80020001)),
    ("an answer that nothing asked for changes nothing", record(answered(5))),
    ("nor does one that is none", record(number(5) + number(1) + number(9))),
]


def rows():
    yield "a session that is no client's empties a file, and an open gets that", header() + [
        "file a t:a", "join 1 0 0", "rawjoin 0", raw(2, make(1, 1, 2) + commit(2, 1, 2, 0)), "up 2 all 0", "settle 0", "do 1 0 open #2", "pass 1 3 0 0"]
    yield "a header that promises too much closes its session in one step, and what comes then vanishes", header() + [
        "rawjoin 0", "raw 1 80020001", "up 1 all 0", "raw 1 00", "up 1 all 0"]
    for what, bytes_ in RECORDS:
        if bytes_ == number(0) * 1024:
            behind = number(1 << 31 | 0)
            yield what + ", and one more fragment would be too many", alone(raw(1, bytes_), "up 1 all 0", raw(1, behind), "up 1 all 0", raw(1, make(6, 1, 2) + commit(7, 1, 2, 0)), "up 1 all 0", "settle 0")
        else:
            yield what, alone(raw(1, bytes_), "up 1 all 0", raw(1, make(6, 1, 2) + commit(7, 1, 2, 0)), "up 1 all 0", "settle 0")
    yield "a second COMMITTMP while one waits is refused, and its temporary file is gone", alone(
        raw(1, make(1, 1, 2) + send(2, 1, 0, b"b") + make(3, 2, 2) + send(4, 2, 0, b"c") + commit(5, 1, 2, 1) + commit(6, 2, 2, 1)), "up 1 all 0", "settle 0",
        raw(1, commit(7, 2, 2, 1)), "up 1 all 0", "settle 0")
    silent = header(1, 1000) + ["file a t:a", "file b t:b", "rawjoin 0", "join 1 0 0", raw(1, lease(1, 2) + lease(2, 3)), "up 1 all 0"]
    close = ["do 1 0 open #2", "pass 2 3 0 0", "do 1 0 write #2 0 t:c", "do 1 0 close #2", "pass 2 9 0 0"]
    yield "a lease on every file, and silence: a close waits until it ends", silent + close + ["settle 999", "settle 1000", "pass 2 1 1000 1000"]
    yield "a session closes itself: its leases stay until they end", silent + close + [raw(1, record(b"")), "up 1 all 0", "settle 999", "settle 1000", "pass 2 1 1000 1000"]
    yield "a RECALL is answered at once, and what was had is used on: the close is made, and then a commit of what was had", silent + close + [
        raw(1, record(answered(1))), "up 1 all 0", "settle 0", "pass 2 1 0 0",
        raw(1, nfs(3, 6, handle(2) + number(0, 8) + number(9)) + stores(4, 1, 2, b"a")), "up 1 all 0", "settle 0", "pass 2 2 0 0", "settle 0"]
    yield "a RECALL that is refused keeps the lease, and its answer can't come twice", silent + close + [
        raw(1, record(answered(1, 5)) + record(answered(1))), "up 1 all 0", "settle 999", "settle 1000", "pass 2 1 1000 1000"]
    yield "an answer to a RECALL that is none closes its session, and the lease stays", silent + close + [
        raw(1, record(answered(1, 6)) + record(answered(1))), "up 1 all 0", "settle 999", "settle 1000", "pass 2 1 1000 1000"]
    other = header(1, 1000) + ["file a t:a", "rawjoin 0", "rawjoin 0", "join 1 0 0"]
    yield "an answer to another session's RECALL gives nothing up", other + [raw(1, lease(1, 2)), "up 1 all 0"] + [line.replace("pass 2", "pass 3") for line in close] + [
        raw(2, record(answered(1))), "up 2 all 0", "settle 999", "settle 1000", "pass 3 1 1000 1000"]
    yield "a temporary file is its session's alone: another's COMMITTMP of it is refused", other + [
        raw(1, make(1, 1, 2) + send(2, 1, 0, b"b")), "up 1 all 0", raw(2, commit(1, 1, 2, 1)), "up 2 all 0", "settle 0", raw(1, commit(3, 1, 2, 1)), "up 1 all 0", "settle 0"]
    yield "so is a client's, whose close goes on", header() + [
        "file a t:a", "join 1 0 0", "rawjoin 0", "do 1 0 open #2", "pass 1 3 0 0", "do 1 0 write #2 0 t:bcd", "do 1 0 close #2", "pass 1 1 0 0",
        raw(2, b"".join(commit(fd, fd, 2, 3) for fd in range(1, 9))), "up 2 all 0", "pass 1 9 0 0", "settle 0", "pass 1 1 0 0"]
    yield "a close of a file that a session removed meanwhile", header() + [
        "file a t:a", "join 1 0 0", "rawjoin 0", "do 1 0 open #2", "pass 1 3 0 0", "do 1 0 write #2 0 t:b",
        raw(2, nfs(1, 12, handle(1) + opaque(b"a"))), "up 2 all 0", "settle 0", "pass 1 2 0 0", "settle 0", "do 1 0 close #2", "pass 1 9 0 0"]
    yield "files that a session makes, one over which it renames, and one that it removes; directories are no files", header() + [
        "join 1 0 0", "rawjoin 0",
        raw(2, nfs(1, 8, handle(1) + opaque(b"x") + number(1) + no_attributes()) + nfs(2, 8, handle(1) + opaque(b"y") + number(0) + no_attributes())
            + nfs(3, 9, handle(1) + opaque(b"d") + no_attributes()) + nfs(4, 8, handle(1) + opaque(b"y") + number(0) + no_attributes())
            + nfs(5, 8, handle(1) + opaque(b"y") + number(1) + no_attributes()) + nfs(6, 14, (handle(1) + opaque(b"x")) + handle(1) + opaque(b"y"))
            + nfs(7, 12, handle(1) + opaque(b"x"))),
        "up 2 all 0", "settle 0", "settle 0", raw(2, nfs(8, 12, handle(1) + opaque(b"y"))), "up 2 all 0", "settle 0", "do 1 0 list /", "pass 1 3 0 0"]
    yield "a digest that the server knows: a session stores what a client stored, and names it alone", header() + [
        "file a t:a", "file b -", "join 1 0 0", "rawjoin 0", "do 1 0 open #2", "pass 1 3 0 0",
        raw(2, make(1, 7, 3) + name(2, 7, 0, b"a") + name(3, 7, 1, b"z") + commit(4, 7, 3, 1)), "up 2 all 0", "settle 0", "do 1 0 open #3", "pass 1 3 0 0"]
    body = called(1, LBFS, 3, number(1) + handle(2))
    sizes = [1 if k % 16 == 0 and k // 16 < len(body) else 0 for k in range(1023)]
    many = record(body, sizes) + commit(2, 1, 2, 0)
    yield "a record of 1,024 fragments, byte by byte", alone(raw(1, many), f"{len(many)}* up 1 1 0", "settle 0")
    yield "what stands behind a record that closes its session, in one delivery, vanishes", alone(
        raw(1, make(1, 1, 2) + record(b"") + commit(2, 1, 2, 0)), "up 1 all 0", "settle 0", "hang 1 0")
    yield "a session that hangs leaves nothing that waits", alone(raw(1, stores(1, 1, 2, b"b")), "up 1 all 0", "hang 1 0", raw(1, stores(4, 1, 2, b"b")), "up 1 all 0", "settle 0")
    yield "a summary has no session's changes but in the journal", ["words replay --summary"] + alone(raw(1, stores(1, 1, 2, b"b")), "up 1 all 0", "settle 0")


REFUSED = [
    ("bytes are a raw session's alone", header() + ["join 1 0 0", "raw 1 00"], "refused line 6 grammar"),
    ("of a session that isn't there", header() + ["rawjoin 0", "raw 2 00"], "refused line 6 grammar"),
    ("no bytes", header() + ["rawjoin 0", "raw 1 "], "refused line 6 grammar"),
    ("half a byte", header() + ["rawjoin 0", "raw 1 000"], "refused line 6 grammar"),
    ("upper case", header() + ["rawjoin 0", "raw 1 0A"], "refused line 6 grammar"),
    ("nothing comes down a session that is no client's", header() + ["rawjoin 0", "down 1 all 0"], "refused line 6 grammar"),
    ("nor is anything passed on it", header() + ["rawjoin 0", "pass 1 1 0 0"], "refused line 6 grammar"),
    ("a reading of the server's that falls", header() + ["settle 5", "rawjoin 4"], "refused line 6 clock server from 5 to 4"),
    ("one session more than may stand", header() + ["64* rawjoin 0", "rawjoin 0"], "refused line 69 limit sessions"),
    ("a raw session counts among a client's", header() + ["64* rawjoin 0", "join 1 0 0"], "refused line 69 limit sessions"),
]


def main():
    print("# Sessions that are no client's, and send any bytes; and that the promise holds beside them.")
    for what, lines in rows():
        print(f"\n== {what}")
        for line in lines:
            print(line if line.startswith("words ") else f"in {line}")
        print("out -\nout -")
    for what, lines, told in REFUSED:
        print(f"\n== refused: {what}")
        print("\n".join(f"in {line}" for line in lines))
        print(f"out {told}\nstatus 5")


main()
