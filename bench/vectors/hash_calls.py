#!/usr/bin/env python3
"""Calls and answers of LBFS and of its callback program, packed by Python's xdrlib.

    python3.11 bench/vectors/hash_calls.py

Writes rows of crates/trials/data/lbfs, in words of four bytes in hexadecimal, and behind ` =>` what is to
be printed of them (crates/trials/stdout): what was packed, in order. Nothing here was taken from the
crate. xdrlib is in Python up to 3.12.
"""
import hashlib
import warnings

warnings.simplefilter("ignore", DeprecationWarning)
from nfs3_calls import Told, words  # noqa: E402

# the handle of file 2
FILE = b"LB01" + bytes(4) + (2).to_bytes(8, "big")

# every status but OK, by its number
STATUSES = [1, 2, 5, 13, 17, 20, 21, 22, 27, 28, 63, 66, 70]
STATUSES += [10001, 10003, 10004, 10005, 10006, 10008, 20001, 20002, 20003, 20004]


# the root's handle
ROOT = b"LB01" + bytes(4) + (1).to_bytes(8, "big")


def sha1(text):
    return hashlib.sha1(text).digest()


def sha256(text):
    return hashlib.sha256(text).digest()


class Packer(Told):
    """A packer whose calls can be chained."""

    def u32(self, *values):
        for value in values:
            self.pack_uint(value)
        return self

    def u64(self, *values):
        for value in values:
            self.pack_uhyper(value)
        return self

    def opaque(self, value):
        self.pack_opaque(value)
        return self

    def digest(self, value):
        self.pack_fopaque(len(value), value)
        return self

    def flag(self, value):
        self.pack_bool(value)
        return self

    def pairs(self, pairs):
        self.pack_array(pairs, lambda pair: self.digest(pair[0]).u32(pair[1]))
        return self

    def fattr3(self):
        """A file of 5 bytes (RFC 1813, section 2.6), its numbers all different where they can be."""
        self.u32(1, 420, 1, 1001, 1002).u64(5, 6).u32(3, 4).u64(0x4C424653, 2)
        return self.u32(7, 8, 9, 10, 11, 12)


def packed():
    """The rows: what they are, and the packer that holds their bytes."""
    xdr = Packer

    yield "args lbfs 0", xdr()
    yield "results lbfs 0", xdr()
    yield "args lbfs 1", xdr().opaque(FILE)
    yield "results lbfs 1", xdr().u32(0).fattr3().u64(7).u32(60000)
    yield "args lbfs 2", xdr().opaque(FILE).u64(4096).u32(4294967295)
    pairs = [(sha1(b"abc"), 2048), (sha1(b""), 2050)]
    yield "results lbfs 2", xdr().u32(0).u64(7).u32(0).u64(4098).pairs(pairs).flag(True)
    yield "results lbfs 2", xdr().u32(0).u64(1).u32(60000).u64(0).pairs([]).flag(True)
    yield "args lbfs 3", xdr().u32(3).opaque(FILE)
    yield "results lbfs 3", xdr().u32(0)
    yield "args lbfs 4", xdr().u32(3).u64(2**32 + 5).opaque(b"hello")
    yield "args lbfs 4", xdr().u32(3).u64(0).opaque(b"")
    yield "results lbfs 4", xdr().u32(0)
    yield "args lbfs 5", xdr().u32(3).u64(2048).u32(2050).digest(sha1(b"abc"))
    yield "results lbfs 5", xdr().u32(0)
    yield "args lbfs 6", xdr().u32(3).opaque(FILE).u64(4098)
    yield "results lbfs 6", xdr().u32(0).u64(8).u32(59900)
    yield "args back 1", xdr().opaque(FILE)
    for procedure in range(1, 7):
        for status in STATUSES:
            yield f"results lbfs {procedure}", xdr().u32(status)


def packed_later():
    """Rows of later versions: a base from 2 on, SHA-256 from 3 on, LOOKLEASE from 4 on."""
    xdr = Packer

    yield "args lbfs2 6", xdr().u32(3).opaque(FILE).u64(4098).u64(7)
    for version in range(1, 5):
        yield f"results {'lbfs' + str(version) if version > 1 else 'lbfs'} 6", xdr().u32(20005)
    yield "args lbfs2 5", xdr().u32(3).u64(2048).u32(2050).digest(sha1(b"abc"))
    yield "args lbfs3 5", xdr().u32(3).u64(2048).u32(2050).digest(sha256(b"abc"))
    pairs = [(sha256(b"abc"), 2048), (sha256(b""), 2050)]
    yield "results lbfs3 2", xdr().u32(0).u64(7).u32(0).u64(4098).pairs(pairs).flag(True)
    yield "args lbfs4 7", xdr().opaque(ROOT).opaque(b"ab")
    yield "results lbfs4 7", xdr().u32(0).u64(9).u32(60000).flag(True).opaque(FILE).u32(1)
    yield "results lbfs4 7", xdr().u32(0).u64(9).u32(0).flag(False)
    for status in STATUSES + [20005]:
        yield "results lbfs4 7", xdr().u32(status)


def main():
    for what, packer in [*packed(), *packed_later()]:
        told = "".join(" " + part for part in packer.told)
        text = packer.get_buffer()
        print(f"0 {what} : {words(text)}".rstrip() + f" =>{told}; same")


main()
