#!/usr/bin/env python3
"""Two examples of `show`, from packets of programs that are not ours.

    python3 bench/vectors/show_nfs.py FILE examples

FILE holds packets that bench/vectors/capture_nfs.sh captured. The script joins what clients sent to
port 2049 (show-nfs-calls.bin) and what the server sent back (show-nfs-answers.bin), connection by
connection, as the bytes stand in the packets. The lines that are wanted (.out) it writes from what
tshark's dissectors of RPC and NFS read in the same packets, and never from what `show` writes.
"""
import subprocess
import sys
from pathlib import Path

# the procedures of NFS version 3 that are served here (RFC 1813, section 3.3)
NFS = {0: "NULL", 1: "GETATTR", 3: "LOOKUP", 4: "ACCESS", 6: "READ", 8: "CREATE", 9: "MKDIR"}
NFS |= {12: "REMOVE", 13: "RMDIR", 14: "RENAME", 16: "READDIR", 19: "FSINFO"}

# accept_stat (RFC 5531, section 9)
STATS = ["SUCCESS", "PROG_UNAVAIL", "PROG_MISMATCH", "PROC_UNAVAIL", "GARBAGE_ARGS", "SYSTEM_ERR"]

FIELDS = ["tcp.stream", "tcp.dstport", "tcp.payload", "rpc.xid", "rpc.msgtyp", "rpc.program"]
FIELDS += ["rpc.programversion", "rpc.procedure", "rpc.fraglen", "rpc.auth.length", "rpc.state_accept"]


def packets(path):
    """what tshark reads in each packet to or from port 2049 that carries bytes"""
    command = ["tshark", "-r", path, "-d", "tcp.port==2049,rpc", "-T", "fields"]
    command += ["-Y", "tcp.port == 2049 && tcp.len > 0"]
    for field in FIELDS:
        command += ["-e", field]
    text = subprocess.run(command, check=True, capture_output=True, text=True).stdout
    lines = [dict(zip(FIELDS, line.split("\t"))) for line in text.splitlines()]
    return sorted(lines, key=lambda line: int(line["tcp.stream"]))


def numbers(line, field):
    return [int(number, 0) for number in line[field].split(",")]


def auths(line):
    """the bytes of the authentication items, each a flavor, a length and a body with its fill"""
    return sum(8 + (length + 3) // 4 * 4 for length in numbers(line, "rpc.auth.length"))


def call(line):
    xid, program, version, procedure, length = (
        numbers(line, field)[0]
        for field in ["rpc.xid", "rpc.program", "rpc.programversion", "rpc.procedure", "rpc.fraglen"]
    )
    assert program == 100003
    if version != 3:
        return f"unfit {xid} PROG_MISMATCH"
    if procedure not in NFS:
        return f"unfit {xid} PROC_UNAVAIL"
    return f"call {xid} nfs {NFS[procedure]} {length - 24 - auths(line)}"


def answer(line):
    xid, length, stat = (numbers(line, f)[0] for f in ["rpc.xid", "rpc.fraglen", "rpc.state_accept"])
    return f"answer {xid} {STATS[stat]} {length - 16 - auths(line)}"


def main(path, folder):
    calls = [line for line in packets(path) if line["tcp.dstport"] == "2049"]
    answers = [line for line in packets(path) if line["tcp.dstport"] != "2049"]
    for name, lines, text in [("calls", calls, call), ("answers", answers, answer)]:
        start = Path(folder) / f"show-nfs-{name}"
        start.with_suffix(".bin").write_bytes(b"".join(bytes.fromhex(l["tcp.payload"]) for l in lines))
        start.with_suffix(".out").write_text("".join(text(line) + "\n" for line in lines))
        start.with_suffix(".cmd").write_text("show\n")


if len(sys.argv) == 3:
    main(*sys.argv[1:])
else:
    sys.exit(__doc__)
