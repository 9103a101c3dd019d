"""Random traces with sessions that are no client's, for replays.py: those of bench/random-traces, and these between them."""
import hashlib

NFS, LBFS, BACK = 100003, 0x20004C42, 0x20004C43


def number(value, size=4):
    return value.to_bytes(size, "big")


def opaque(bytes_):
    return number(len(bytes_)) + bytes_ + bytes(-len(bytes_) % 4)


def handle(id):
    return opaque(b"LB01\0\0\0\0" + number(id, 8))


def called(xid, program, procedure, arguments=b"", version=None, rpc=2, cred=b""):
    version = {NFS: 3}.get(program, 1) if version is None else version
    head = (xid, 0, rpc, program, version, procedure)
    return b"".join(map(number, head)) + number(0) + opaque(cred) + bytes(8) + arguments


def answered(xid, stat=0, rest=b""):
    return number(xid) + number(1) + bytes(12) + number(stat) + rest


def record(body, sizes=()):
    """The bytes of a record: fragments of these sizes, and one of what is left."""
    out = b""
    for size in sizes:
        out, body = out + number(min(size, len(body))) + body[:size], body[size:]
    return out + number(1 << 31 | len(body)) + body


def no_attributes():
    return bytes(24)


class Calls:
    """Calls of every kind, mostly well-formed and on what is there."""

    def __init__(self, chance, names, ids, contents):
        self.random, self.names, self.ids, self.contents, self.xid, self.made = chance, names, ids, contents, 0, []

    def id(self):
        return self.random.choice((0, 1, 2**63)) if self.random.random() < 0.05 else self.random.choice(self.ids)

    def file(self):
        return b"\0\0\0\1x\0\0\0" if self.random.random() < 0.03 else handle(self.id())

    def dirop(self):
        odd = (b"", b".", b"..", b"a/b", b"a\0", b"n" * 256)
        name = self.random.choice(odd) if self.random.random() < 0.1 else self.random.choice(self.names).encode()
        return handle(1 if self.random.random() < 0.7 else self.id()) + opaque(name)

    def nfs(self):
        pick = self.random.choice
        arguments = {
            0: lambda: b"",
            1: self.file,
            3: self.dirop,
            4: lambda: self.file() + number(63),
            6: lambda: self.file() + number(pick((0, 1, 2**63)), 8) + number(pick((0, 9, 65536))),
            8: lambda: self.dirop() + (number(2) + bytes(8) if self.random.random() < 0.1 else number(pick((0, 1))) + no_attributes()),
            9: lambda: self.dirop() + no_attributes(),
            12: self.dirop,
            13: self.dirop,
            14: lambda: self.dirop() + self.dirop(),
            16: lambda: self.file() + number(pick((0, 1)), 8) + bytes(8) + number(65536),
            19: self.file,
        }
        procedure = self.random.choices(tuple(arguments), (1, 1, 1, 1, 1, 6, 2, 4, 2, 5, 1, 1))[0]
        return NFS, procedure, arguments[procedure]()

    def lbfs(self):
        """One call, or the calls of a close one after the other."""
        pick = self.random.choice
        kind = self.random.choices(("null", "lease", "hash", "make", "tmp", "cond", "commit", "stores"), (1, 6, 6, 1, 1, 1, 1, 9))[0]
        fd = self.random.randint(1, 3)
        if kind == "stores":
            return self.stores(fd)
        piece = pick(self.contents)[:65536]
        arguments = {
            "null": lambda: b"",
            "lease": self.file,
            "hash": lambda: self.file() + number(pick((0, 0, 1, 4096)), 8) + number(pick((2**32 - 1, 2**32 - 1, 0, 1))),
            "make": lambda: number(fd) + self.file(),
            "tmp": lambda: number(fd) + number(pick((0, 0, len(piece), 2**64 - 1, 1 << 26)), 8) + opaque(piece),
            "cond": lambda: number(fd) + number(pick((0, 0, len(piece))), 8) + number(pick((len(piece), 0, 65537))) + self.digest(piece),
            "commit": lambda: number(fd) + self.file() + number(pick((0, 0, len(piece), 1 << 60)), 8),
        }
        procedure = ("null", "lease", "hash", "make", "tmp", "cond", "commit").index(kind)
        return [(LBFS, procedure, arguments[kind]())]

    def digest(self, piece):
        return hashlib.sha1(piece).digest()

    def stores(self, fd):
        piece = self.random.choice(self.contents)[:65536]
        target, out = self.file(), [(LBFS, 3, number(fd) + self.file())]
        if piece and self.random.random() < 0.3:
            out.append((LBFS, 5, number(fd) + number(0, 8) + number(len(piece)) + self.digest(piece)))
        if piece:
            out.append((LBFS, 4, number(fd) + number(0, 8) + opaque(piece)))
        return out + [(LBFS, 6, number(fd) + target + number(len(piece) if self.random.random() < 0.9 else 1, 8))]

    def refused(self):
        """An answer that refuses what was asked for: another version of RPC, or an authentication."""
        return number(self.random.randint(1, 3)) + number(1) + number(1) + self.random.choice((number(0) + number(2) + number(2), number(1) + number(5)))

    def changed(self, bytes_):
        """The same with another bit."""
        at = self.random.randrange(len(bytes_))
        return bytes_[:at] + bytes((bytes_[at] ^ 1 << self.random.randrange(8),)) + bytes_[at + 1 :]

    def bodies(self):
        kind = self.random.random()
        if kind < 0.02:
            return [self.refused()]
        if kind < 0.12:
            return [answered(self.random.randint(1, 3), self.random.choices((0, 1, 5, 6), (20, 1, 1, 0.3))[0])]
        if kind < 0.2:
            self.xid += 1
            odd = ({"rpc": 3}, {"version": 2}, {"version": 9}, {"cred": bytes(401)}, {"cred": bytes(400)}, {})
            return [called(self.xid, self.random.choice((NFS, LBFS, BACK, 7)), self.random.choice((0, 2, 7, 9)), b"", **self.random.choices(odd, (4, 4, 4, 0.3, 4, 4))[0])]
        calls = [self.nfs()] if kind < 0.55 else self.lbfs()
        out = []
        for program, procedure, arguments in calls:
            self.xid += self.random.random() < 0.97
            out.append(called(self.xid, program, procedure, arguments + (b"\0\0\0\1" if self.random.random() < 0.02 else b"")))
        return out

    def bytes(self):
        """What a session sends at once: records in fragments, and now and then noise, alone, behind a right header or as a bit of a call."""
        noise = self.random.random()
        if noise < 0.02:
            some = self.random.randbytes(self.random.randint(1, 400))
            return some if noise < 0.01 else record(some)
        sizes = lambda: [self.random.choice((0, 1, 4, 40)) for _ in range(self.random.choice((0, 0, 0, 1, 5)))]
        out = b"".join(record(body, sizes()) for body in self.bodies())
        return self.changed(out) if noise < 0.05 else out


def with_raw(maker):
    """Makes such traces from those of another maker."""

    class RawMaker(maker):
        def __init__(self, seed):
            super().__init__(seed)
            files = [line.split(" ") for line in self.lines if line.startswith("file ")]
            opened = sum(line.split(" ")[0] in ("dir", "file") for line in self.lines)
            names = [line[1].split("/")[-1] for line in files] + ["d0", "n0", "n1"]
            contents = [maker.read(self, line[2]) for line in files] + [b"", b"q", b"raw" * 900]
            self.calls = Calls(self.random, names, 4 * list(range(2, opened + 2)) + list(range(2, opened + 6)), contents)
            self.raw = []

        def event(self):
            pick = self.random.random()
            if pick < 0.02 and self.room() or not self.raw:
                return "rawjoin", None, None, self.now()
            if pick < 0.15:
                return f"raw {self.random.choice(self.raw)} {self.calls.bytes().hex()}", None, None, None
            if pick < 0.28:
                return f"up {self.random.choice(self.raw)} {self.amount()}", None, None, self.now()
            while True:
                event = super().event()
                words = event[0].split(" ")
                if words[0] in ("down", "pass") and int(words[1]) in self.raw:
                    continue
                if words[0] == "hang" and int(words[1]) in self.raw and self.random.random() < 0.5:
                    continue
                return event

        def adds(self, line, client, at, server):
            word = line.split(" ")[0]
            if word == "raw":
                self.lines.append(line)
                return
            before = len(self.lines)
            super().adds(line, client, at, server)
            if word == "rawjoin" and len(self.lines) > before:
                self.owners.append(None)
                self.raw.append(len(self.owners))

        def settles(self):
            """Everything is delivered but what would come to nobody, and every change made."""
            before = len(self.lines)
            super().settles()
            lines = self.lines[before:]
            del self.lines[before:]
            for line in lines:
                words = line.split(" ")
                if words[0] == "pass" and int(words[1]) in self.raw:
                    line = f"up {words[1]} all {words[3]}"
                self.lines.append(line)

    return RawMaker
