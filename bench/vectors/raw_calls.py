"""Sessions of a replay in replays.py that are no client's: bytes of any kind as records and calls (RFC 5531, RFC 4506, RFC 1813), and what the server makes of each."""

RECORD_MOST, FRAGMENTS_MOST, AUTH_MOST, HANDLE_MOST, CHUNK_MOST = 131072, 1024, 400, 64, 65536
NFS, LBFS = 100003, 0x20004C42
VERSIONS = {NFS: 3, LBFS: 1}
NFS_CALLS = {0: "null", 1: "getattr", 3: "lookup", 4: "access", 6: "read", 8: "create", 9: "mkdir", 12: "remove", 13: "rmdir", 14: "rename", 16: "readdir", 19: "fsinfo"}
LBFS_CALLS = {0: "null", 1: "lease", 2: "hash", 3: "make", 4: "tmp", 5: "cond", 6: "commit"}
CALLS = {NFS: NFS_CALLS, LBFS: LBFS_CALLS}
OK, NO_ENTRY, ACCESS, EXISTS, NOT_DIRECTORY, DIRECTORY, INVALID, TOO_BIG, NO_SPACE = 0, 2, 13, 17, 20, 21, 22, 27, 28
NAME_TOO_LONG, NOT_EMPTY, STALE, BAD_HANDLE, NOT_SUPPORTED, JUKEBOX = 63, 66, 70, 10001, 10004, 10008
UNKNOWN, FD_IN_USE, BAD_FD, TOO_MANY = 20001, 20002, 20003, 20004
FILE_MOST, TREE_MOST, PAIRS, TEMPS = 1 << 26, 1 << 30, 1024, 16


class Short(Exception):
    """What is read isn't there, or isn't in the grammar."""


class Reader:
    """The items of XDR, one after the other."""

    def __init__(self, bytes_):
        self.bytes, self.at = bytes_, 0

    def fixed(self, count):
        end, filled = self.at + count, self.at + (count + 3 & ~3)
        if filled > len(self.bytes) or any(self.bytes[end:filled]):
            raise Short
        taken, self.at = self.bytes[self.at : end], filled
        return taken

    def number(self, size=4):
        return int.from_bytes(self.fixed(size), "big")

    def opaque(self, most=RECORD_MOST):
        count = self.number()
        if count > most:
            raise Short
        return self.fixed(count)

    def one_of(self, *values):
        value = self.number()
        if value not in values:
            raise Short
        return value

    def handle(self):
        return self.opaque(HANDLE_MOST)

    def named(self):
        return self.handle(), self.opaque()

    def attributes(self):
        """What a new node is to have, which changes nothing here."""
        for size in (4, 4, 4, 8):
            if self.one_of(0, 1):
                self.number(size)
        for _ in range(2):
            if self.one_of(0, 1, 2) == 2:
                self.number(8)

    def made(self):
        """The mode of a CREATE, and what belongs to it."""
        mode = self.one_of(0, 1, 2)
        if mode == 2:
            self.fixed(8)
        else:
            self.attributes()
        return mode

    def end(self):
        if self.at < len(self.bytes):
            raise Short


ARGUMENTS = {
    "null": lambda r: (),
    "getattr": lambda r: (r.handle(),),
    "lookup": lambda r: r.named(),
    "access": lambda r: (r.handle(), r.number()),
    "read": lambda r: (r.handle(), r.number(8), r.number()),
    "create": lambda r: r.named() + (r.made(),),
    "mkdir": lambda r: r.named() + (r.attributes(),),
    "remove": lambda r: r.named(),
    "rmdir": lambda r: r.named(),
    "rename": lambda r: r.named() + r.named(),
    "readdir": lambda r: (r.handle(), r.number(8), r.fixed(8), r.number()),
    "fsinfo": lambda r: (r.handle(),),
    "lease": lambda r: (r.handle(),),
    "hash": lambda r: (r.handle(), r.number(8), r.number()),
    "make": lambda r: (r.number(), r.handle()),
    "tmp": lambda r: (r.number(), r.number(8), r.opaque(CHUNK_MOST)),
    "cond": lambda r: (r.number(), r.number(8), r.number(), r.fixed(20).hex()),
    "commit": lambda r: (r.number(), r.handle(), r.number(8)),
}


def authentic(reader):
    reader.number()
    reader.opaque(AUTH_MOST)


def call(reader):
    """A call's kind and arguments, or the words by which it is refused. None where the connection is to be closed."""
    try:
        if reader.number() != 2:
            return "RPC_MISMATCH 2 2", ()
        program, version, procedure = reader.number(), reader.number(), reader.number()
        authentic(reader)
        authentic(reader)
    except Short:
        return None
    if program not in CALLS:
        return "PROG_UNAVAIL", ()
    if version != VERSIONS[program]:
        return f"PROG_MISMATCH {VERSIONS[program]} {VERSIONS[program]}", ()
    if procedure not in CALLS[program]:
        return "PROC_UNAVAIL", ()
    kind = CALLS[program][procedure]
    try:
        arguments = ARGUMENTS[kind](reader)
        reader.end()
    except Short:
        return "GARBAGE_ARGS", ()
    return kind, arguments


def done(reader):
    """Whether an answer says that a RECALL was done. None where it is outside the grammar."""
    try:
        if reader.one_of(0, 1):
            for _ in range(1 if reader.one_of(0, 1) else 2):
                reader.number()
            stat = None
        else:
            authentic(reader)
            stat = reader.one_of(0, 1, 2, 3, 4, 5)
            for _ in range(2 if stat == 2 else 0):
                reader.number()
        reader.end()
    except Short:
        return None
    return stat == 0


class Records:
    """Bytes, in whatever pieces, as the records that their fragments are."""

    def __init__(self):
        self.rest, self.body, self.headers, self.left, self.is_last = b"", b"", 0, None, False

    def feed(self, bytes_):
        """The records that these complete, and whether what comes next can be no record any more."""
        records, at, bytes_ = [], 0, self.rest + bytes_
        while True:
            if self.left is None:
                if len(bytes_) < at + 4:
                    break
                header = int.from_bytes(bytes_[at : at + 4], "big")
                at, self.headers, self.is_last, self.left = at + 4, self.headers + 1, header >> 31 == 1, header & 0x7FFFFFFF
                if self.headers > FRAGMENTS_MOST or len(self.body) + self.left > RECORD_MOST:
                    return records, True
            taken = bytes_[at : at + self.left]
            at, self.body, self.left = at + len(taken), self.body + taken, self.left - len(taken)
            if self.left:
                break
            self.left = None
            if self.is_last:
                records.append(self.body)
                self.body, self.headers = b"", 0
        self.rest = bytes_[at:]
        return records, False


def id_of(handle):
    """The id that a handle has, or None where it is none of ours."""
    return int.from_bytes(handle[8:], "big") if len(handle) == 16 and handle[:8] == b"LB01\0\0\0\0" else None


def name_fault(name):
    return NAME_TOO_LONG if len(name) > 255 else ACCESS if not name or b"/" in name or b"\0" in name else OK


class RawSession:
    """A session that is no client's. What is sent to it vanishes, as to a client that left."""

    def __init__(self):
        self.owner, self.cut, self.hung = None, True, False
        self.up, self.records, self.begun, self.told = bytearray(), Records(), None, []


class Raw:
    """What such sessions do in a world."""

    def raw_joins(self):
        self.step += 1
        self.sessions.append(RawSession())

    def raw_sends(self, number, bytes_):
        session = self.sessions[number - 1]
        if not session.hung:
            session.up += bytes_

    def take_raw(self, number, amount, now):
        session = self.sessions[number - 1]
        piece = bytes(session.up[:amount])
        del session.up[: len(piece)]
        records, spoilt = session.records.feed(piece)
        for record in records:
            if not session.hung:
                self.take_record(number, session, record, now)
        if spoilt and not session.hung:
            self.closes(number, session)

    def closes(self, number, session):
        session.told.append("closed")
        self.hang(number)

    def take_record(self, number, session, record, now):
        reader = Reader(record)
        try:
            xid, is_answer = reader.number(), reader.one_of(0, 1)
        except Short:
            return self.closes(number, session)
        if is_answer:
            return self.take_answer(number, session, xid, reader, now)
        called = call(reader)
        if called is None:
            return self.closes(number, session)
        self.step += 1
        self.moment = max(self.moment, now)
        kind, arguments = called
        answer = kind if kind.isupper() or " " in kind else getattr(self, "raw_" + kind)(number, xid, *arguments)
        session.told.append(answer)

    def take_answer(self, number, session, xid, reader, now):
        if xid not in self.asked.get(number, set()):
            session.told.append(None)
            self.step += 1
            return
        was_done = done(reader)
        if was_done is None:
            return self.closes(number, session)
        session.told.append(None)
        self.step += 1
        self.moment = max(self.moment, now)
        if was_done:
            self.given_up(number, xid)
        else:
            self.asked[number].discard(xid)

    # ---- handles and names

    def node(self, handle):
        """(fault, id) of a handle."""
        id = id_of(handle)
        return (BAD_HANDLE, 0) if id is None else (OK, id) if id in self.tree.places else (STALE, 0)

    def of_file(self, handle):
        fault, id = self.node(handle)
        return (fault, id) if fault else (DIRECTORY, 0) if id in self.tree.directories else (OK, id)

    def spots(self, *named):
        """(fault, places): each a directory's id, a name, and the node of that name, or None."""
        faults = [self.node(handle) for handle, _ in named]
        for kind in (BAD_HANDLE, STALE):
            if any(fault == kind for fault, _ in faults):
                return kind, []
        if any(id not in self.tree.directories for _, id in faults):
            return NOT_DIRECTORY, []
        for _, name in named:
            if name_fault(name):
                return name_fault(name), []
        ids = [id for _, id in faults]
        texts = [name.decode("latin-1") for _, name in named]
        return OK, [(id, text, self.tree.named(id, text)) for id, text in zip(ids, texts)]

    def is_waiting(self, number):
        return any(w[0] == number for w in self.waiting)

    def waits(self, number, xid, kind, change):
        self.sessions[number - 1].begun = self.step
        self.comes(number, xid, kind, change)
        return "waits"

    # ---- calls of NFS

    def raw_null(self, number, xid):
        return OK

    def raw_getattr(self, number, xid, handle):
        return self.node(handle)[0]

    raw_fsinfo = raw_getattr

    def raw_access(self, number, xid, handle, bits):
        return self.node(handle)[0]

    def raw_lookup(self, number, xid, handle, name):
        fault, spots = self.spots((handle, name))
        return fault or (OK if spots[0][1] in (".", "..") or spots[0][2] is not None else NO_ENTRY)

    def raw_read(self, number, xid, handle, offset, count):
        fault, id = self.node(handle)
        return fault or (INVALID if id in self.tree.directories else OK)

    def raw_readdir(self, number, xid, handle, cookie, verifier, count):
        fault, id = self.node(handle)
        return fault or ("lists" if id in self.tree.directories else NOT_DIRECTORY)

    def raw_create(self, number, xid, handle, name, mode):
        fault, spots = self.spots((handle, name))
        if fault or mode == 2:
            return fault or NOT_SUPPORTED
        dir, text, node = spots[0]
        if text in (".", ".."):
            return INVALID
        if node is not None:
            return EXISTS if mode == 1 or node in self.tree.directories else OK
        self.sessions[number - 1].begun = self.step
        self.changed(number, "Make", self.tree.makes(dir, text, True))
        return OK

    def raw_mkdir(self, number, xid, handle, name, attributes):
        fault, spots = self.spots((handle, name))
        if fault:
            return fault
        dir, text, node = spots[0]
        if node is not None or text in (".", ".."):
            return EXISTS
        self.tree.makes(dir, text, False)
        return OK

    def raw_remove(self, number, xid, handle, name):
        fault, spots = self.spots((handle, name))
        if fault:
            return fault
        dir, text, node = spots[0]
        if text in (".", ".."):
            return INVALID
        if node is None or node in self.tree.directories:
            return NO_ENTRY if node is None else DIRECTORY
        return JUKEBOX if self.is_waiting(number) else self.waits(number, xid, "remove", (node, dir, text))

    def raw_rmdir(self, number, xid, handle, name):
        fault, spots = self.spots((handle, name))
        if fault:
            return fault
        dir, text, node = spots[0]
        if text in (".", ".."):
            return INVALID if text == "." else EXISTS
        if node is None or node not in self.tree.directories or self.tree.entries(node):
            return NO_ENTRY if node is None else NOT_DIRECTORY if node not in self.tree.directories else NOT_EMPTY
        self.tree.goes(node)
        self.tree.touched(dir)
        return OK

    def raw_rename(self, number, xid, handle, name, to_handle, to_name):
        fault, spots = self.spots((handle, name), (to_handle, to_name))
        if fault:
            return fault
        (dir, text, node), (to, to_text, over) = spots
        if {text, to_text} & {".", ".."}:
            return INVALID
        if node is None or node == over:
            return NO_ENTRY if node is None else OK
        fault = self.tree.rename_fault(node, over, to)
        if fault:
            return fault
        if over in self.tree.files:
            return JUKEBOX if self.is_waiting(number) else self.waits(number, xid, "rename", (over, dir, text, to, to_text, node))
        self.tree.moves(node, dir, to, to_text, over)
        return OK

    # ---- calls of LBFS

    def raw_lease(self, number, xid, handle):
        fault, id = self.of_file(handle)
        if not fault:
            self.grant(number, id)
        return fault

    def raw_hash(self, number, xid, handle, offset, count):
        fault, id = self.of_file(handle)
        if not fault:
            met = [c for c in self.chunks_of(id) if count and c[0] < offset + count and offset < c[0] + c[1]]
            self.index.enter(id, met[:PAIRS])
            self.grant(number, id)
        return fault

    def raw_make(self, number, xid, fd, handle):
        fault, _ = self.of_file(handle)
        if fault or (number, fd) in self.temps:
            return fault or FD_IN_USE
        if sum(holder == number for holder, _ in self.temps) >= TEMPS:
            return TOO_MANY
        self.temps[number, fd] = {}
        return OK

    def piece_fault(self, number, fd, offset, count):
        if (number, fd) not in self.temps:
            return BAD_FD
        if not count or offset + count > 2**64 - 1:
            return INVALID
        if offset + count > FILE_MOST:
            return TOO_BIG
        pieces = self.temps[number, fd].items()
        return INVALID if any(at < offset + count and offset < at + len(piece) for at, piece in pieces) else OK

    def raw_tmp(self, number, xid, fd, offset, bytes_):
        fault = self.piece_fault(number, fd, offset, len(bytes_))
        if not fault:
            self.temps[number, fd][offset] = bytes_
        return fault

    def raw_cond(self, number, xid, fd, offset, count, name):
        if not 1 <= count <= CHUNK_MOST:
            return INVALID
        fault = self.piece_fault(number, fd, offset, count)
        if fault:
            return fault
        bytes_ = self.known(count, name)
        if bytes_ is None:
            return UNKNOWN
        self.temps[number, fd][offset] = bytes_
        return OK

    def raw_commit(self, number, xid, fd, handle, size):
        if (number, fd) not in self.temps:
            return BAD_FD
        pieces = self.temps.pop((number, fd))
        fault, id = self.of_file(handle)
        if fault or size > FILE_MOST:
            return fault or TOO_BIG
        whole = b""
        for at in sorted(pieces):
            if at != len(whole):
                return INVALID
            whole += pieces[at]
        if len(whole) != size:
            return INVALID
        if self.is_waiting(number):
            return JUKEBOX
        waiting = sum(len(w[3][1]) for w in self.waiting if w[2] == "commit")
        if sum(map(len, self.files.values())) + waiting + size > TREE_MOST:
            return NO_SPACE
        return self.waits(number, xid, "commit", (id, whole))
