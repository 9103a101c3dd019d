"""A client of a served folder, over a socket, apart from the program: it packs calls and takes answers
apart as RFC 5531 and RFC 1813 lay them out, and those of LBFS as `crates/hash_calls` says. `serving` uses it.
"""
import select
import socket
import struct
import time

NFS, LBFS, BACK = (100003, 3), (0x20004C42, 1), (0x20004C43, 1)
GETATTR, LOOKUP, READ, CREATE, MKDIR, REMOVE, RMDIR, RENAME, READDIR = 1, 3, 6, 8, 9, 12, 13, 14, 16
GETLEASE, MKTMPFILE, TMPWRITE, CONDWRITE, COMMITTMP = 1, 3, 4, 5, 6
RECALL = 1
OK, GARBAGE_ARGS = 0, 4
# the xid of a farewell, which no RECALL has
FAREWELL = 0
ROOT = 1
PIECE = 65536
PATIENCE = 60


def u32(*numbers):
    return struct.pack(f">{len(numbers)}I", *numbers)


def u64(*numbers):
    return struct.pack(f">{len(numbers)}Q", *numbers)


def opaque(given):
    return u32(len(given)) + given + bytes(-len(given) % 4)


def handle(number):
    return opaque(b"LB01" + u32(0) + u64(number))


def record(body):
    """A record of one fragment."""
    return u32(0x80000000 | len(body)) + body


def call(xid, program, procedure, arguments=b""):
    """A call with no authentication."""
    return record(u32(xid, 0, 2, *program, procedure, 0, 0, 0, 0) + arguments)


def answer(xid, stat=OK, result=b""):
    """An answer to a call that was accepted."""
    return record(u32(xid, 1, 0, 0, 0, stat) + result)


class Refused(Exception):
    """An answer whose status isn't OK."""

    def __init__(self, status):
        super().__init__(f"status {status}")
        self.status = status


class Ended(Exception):
    """The connection is gone."""


class Reader:
    """The items of an answer, one after the other."""

    def __init__(self, given):
        self.given, self.at = given, 0

    def take(self, size):
        part = self.given[self.at : self.at + size]
        if len(part) != size:
            raise ValueError("an answer ends early")
        self.at += size
        return part

    def u32(self):
        return struct.unpack(">I", self.take(4))[0]

    def u64(self):
        return struct.unpack(">Q", self.take(8))[0]

    def opaque(self):
        size = self.u32()
        given = self.take(size)
        self.take(-size % 4)
        return given

    def attributes(self):
        """The attributes of a node, where they are present."""
        return self.take(84) if self.u32() else None


class Peer:
    """A client's end of a connection."""

    def __init__(self, port, patience=PATIENCE, gives_up=True):
        """With `gives_up` it answers each RECALL, as soon as it takes it while it waits for an answer."""
        self.xid = 0
        self.fd = 0
        # what it was asked for: the xids of RECALLs, each with its file
        self.recalled, self.gives_up = [], gives_up
        self.socket = connected(port, patience)
        self.socket.setsockopt(socket.IPPROTO_TCP, socket.TCP_NODELAY, 1)
        self.socket.settimeout(patience)

    def close(self):
        self.socket.close()

    def send(self, given):
        try:
            self.socket.sendall(given)
        except OSError as error:
            raise Ended(str(error)) from error

    def bytes(self, size):
        """So many bytes that come; `Ended` where fewer do."""
        parts = b""
        while len(parts) < size:
            try:
                part = self.socket.recv(size - len(parts))
            except socket.timeout:
                raise
            except OSError as error:
                raise Ended(str(error)) from error
            if not part:
                raise Ended("the end of what comes")
            parts += part
        return parts

    def record(self):
        """The next record, of one fragment as this server makes them."""
        head = struct.unpack(">I", self.bytes(4))[0]
        if not head & 0x80000000:
            raise ValueError("a record in several fragments")
        return self.bytes(head & 0x7FFFFFFF)

    def answer(self):
        """The xid, the stat and the result of the next answer. RECALLs that come before it are heard."""
        while True:
            got = Reader(self.record())
            xid, kind = got.u32(), got.u32()
            if kind == 0:
                self.hear(xid, got)
                continue
            if [kind] + [got.u32() for _ in range(3)] != [1, 0, 0, 0]:
                raise ValueError("no answer to a call that was accepted")
            return xid, got.u32(), got.given[got.at :]

    def hear(self, xid, got):
        """The server called: it asks for a lease."""
        if [got.u32() for _ in range(4)] != [2, *BACK, RECALL]:
            raise ValueError("a call that no server makes")
        got.take(16)
        self.recalled.append((xid, node_of(got.opaque())))
        if self.gives_up:
            self.send(answer(xid))

    def await_recall(self):
        """Waits for a RECALL, where nothing else is to come; its xid and the file whose lease is asked for."""
        got = Reader(self.record())
        xid = got.u32()
        if got.u32() != 0:
            raise ValueError("an answer, where a RECALL is to come")
        self.hear(xid, got)
        return self.recalled[-1]

    def begin(self, program, procedure, arguments=b""):
        """Makes a call, and awaits no answer."""
        self.xid += 1
        self.send(call(self.xid, program, procedure, arguments))

    def finish(self):
        """The result of the answer to the call that was made last."""
        xid, stat, result = self.answer()
        if (xid, stat) != (self.xid, OK):
            raise ValueError(f"call {self.xid} was answered by {xid} with stat {stat}")
        return Reader(result)

    def finish_done(self):
        """The same where the result begins with a status; what follows it."""
        got = self.finish()
        status = got.u32()
        if status != OK:
            raise Refused(status)
        return got

    def ask(self, program, procedure, arguments=b""):
        """Makes a call, and gives the result of its answer."""
        self.begin(program, procedure, arguments)
        return self.finish()

    def done(self, program, procedure, arguments=b""):
        """The same of a call whose result begins with a status; what follows it."""
        self.begin(program, procedure, arguments)
        return self.finish_done()

    def has_more(self):
        """Whether something came that wasn't taken yet."""
        return bool(select.select([self.socket], [], [], 0)[0])

    def is_ended(self):
        """Whether nothing more comes: the server has shut the connection."""
        try:
            self.bytes(1)
        except Ended:
            return True
        except socket.timeout:
            return False
        return False

    # ---- calls of NFS

    def attributes(self, node):
        return self.done(NFS, GETATTR, handle(node)).take(84)

    def look_up(self, directory, name):
        """The node of a name."""
        return node_of(self.done(NFS, LOOKUP, handle(directory) + opaque(name)).opaque())

    def create(self, directory, name):
        """A file of that name, made where there is none."""
        return self.made(CREATE, handle(directory) + opaque(name) + u32(0) + bytes(24))

    def make_directory(self, directory, name):
        return self.made(MKDIR, handle(directory) + opaque(name) + bytes(24))

    def made(self, procedure, arguments):
        got = self.done(NFS, procedure, arguments)
        got.u32()
        return node_of(got.opaque())

    def remove(self, directory, name):
        self.done(NFS, REMOVE, handle(directory) + opaque(name))

    def remove_directory(self, directory, name):
        self.done(NFS, RMDIR, handle(directory) + opaque(name))

    def rename(self, directory, name, to, to_directory=None):
        to_directory = directory if to_directory is None else to_directory
        self.done(NFS, RENAME, handle(directory) + opaque(name) + handle(to_directory) + opaque(to))

    def names(self, directory):
        """The names of a directory, in order."""
        names, cookie, verifier, at_end = [], 0, bytes(8), False
        while not at_end:
            got = self.done(NFS, READDIR, handle(directory) + u64(cookie) + verifier + u32(PIECE))
            got.attributes()
            verifier = got.take(8)
            while got.u32():
                got.u64()
                names.append(got.opaque())
                cookie = got.u64()
            at_end = bool(got.u32())
        return names

    def content(self, file):
        parts, at_end = bytearray(), False
        while not at_end:
            got = self.done(NFS, READ, handle(file) + u64(len(parts)) + u32(PIECE))
            got.attributes()
            got.u32()
            at_end = bool(got.u32())
            parts += got.opaque()
        return bytes(parts)

    # ---- calls of LBFS

    def null(self):
        self.ask(LBFS, 0)

    def version(self, file):
        got = self.done(LBFS, GETLEASE, handle(file))
        got.take(84)
        return got.u64()

    def store(self, file, content):
        """Stores a content, and gives the version that it has then."""
        self.begin_commit(file, content)
        return self.committed()

    def begin_commit(self, file, content):
        """Fills a temporary file, and asks for it to be committed. The answer isn't awaited."""
        self.fd += 1
        self.done(LBFS, MKTMPFILE, u32(self.fd) + handle(file))
        for at in range(0, len(content), PIECE):
            self.done(LBFS, TMPWRITE, u32(self.fd) + u64(at) + opaque(content[at : at + PIECE]))
        self.begin(LBFS, COMMITTMP, u32(self.fd) + handle(file) + u64(len(content)))

    def committed(self):
        """The version that the answer tells to what `begin_commit` asked for."""
        return self.finish_done().u64()


def node_of(given):
    return struct.unpack(">Q", given[8:])[0]


def connected(port, patience):
    """A connection to a port, as soon as somebody listens there."""
    last = time.monotonic() + patience
    while True:
        try:
            return socket.create_connection(("127.0.0.1", port), timeout=patience)
        except ConnectionRefusedError:
            if time.monotonic() > last:
                raise
            time.sleep(0.002)
