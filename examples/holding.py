"""A relay that knows how far a close has come, and can hold back what would lead it on. `mounting` uses it."""
import socket
import struct
import threading

from peer import COMMITTMP, LBFS, MKTMPFILE, PATIENCE, TMPWRITE

# at what a close is held: before its first write, before its COMMITTMP, or before the answer to that
WRITE, COMMIT, ANSWER = "write", "commit", "answer"


def records(stream):
    """The records that come on a stream, each with its head; each of one fragment, as both ends make them."""
    given = b""
    while True:
        part = stream.recv(65536)
        if not part:
            return
        given += part
        while len(given) >= 4:
            size = 4 + (struct.unpack(">I", given[:4])[0] & 0x7FFFFFFF)
            if len(given) < size:
                break
            yield given[:size]
            given = given[size:]


def word(record, at):
    """A word of a record, counted from 0 behind its head."""
    return struct.unpack(">I", record[4 + 4 * at : 8 + 4 * at])[0]


def procedure(call, of=LBFS):
    """The procedure of LBFS, or of this program, that a call is of, or nothing."""
    return word(call, 5) if (word(call, 3), word(call, 4)) == of else None


def hung_up(stream):
    try:
        stream.shutdown(socket.SHUT_RDWR)
    except OSError:
        pass


class Holding:
    """A relay for one mount. `held_at` is where it holds the mount's close, or nothing.

    `reached` is set once the close is held there, and `answered` once the server's answer to its COMMITTMP is
    there, whether it is passed on or not."""

    def __init__(self, to, held_at=None):
        self.to, self.held_at = to, held_at
        self.reached, self.answered = threading.Event(), threading.Event()
        self.has_begun = self.is_told = False
        self.commit = None
        self.listener = socket.create_server(("127.0.0.1", 0))
        self.port = self.listener.getsockname()[1]
        self.thread = threading.Thread(target=self.run, daemon=True)

    def __enter__(self):
        self.thread.start()
        return self

    def __exit__(self, *_):
        hung_up(self.listener)
        self.listener.close()
        self.thread.join(PATIENCE)

    def is_in_a_close(self):
        """Whether the mount has begun a close and wasn't told of its end."""
        return self.has_begun and not self.is_told

    def run(self):
        try:
            mount, _ = self.listener.accept()
        except OSError:
            return
        with mount, socket.create_connection(("127.0.0.1", self.to)) as server:
            for it in (mount, server):
                it.setsockopt(socket.IPPROTO_TCP, socket.TCP_NODELAY, 1)
            down = threading.Thread(target=self.pass_answers, args=(server, mount), daemon=True)
            down.start()
            self.pass_calls(mount, server)
            down.join(PATIENCE)

    def pass_calls(self, mount, server):
        try:
            for call in records(mount):
                self.note(call)
                if self.reached.is_set() and self.held_at != ANSWER:
                    continue
                server.sendall(call)
                if procedure(call) == COMMITTMP and self.held_at == ANSWER:
                    self.reached.set()
        except OSError:
            pass
        hung_up(server)

    def note(self, call):
        """How far this call leads the close, and whether it is held back."""
        of = procedure(call)
        if of == MKTMPFILE:
            self.has_begun = True
        if of == COMMITTMP:
            self.commit = word(call, 0)
        if (of, self.held_at) in ((TMPWRITE, WRITE), (COMMITTMP, COMMIT)):
            self.reached.set()

    def pass_answers(self, server, mount):
        try:
            for answer in records(server):
                # (a call of the server, a RECALL, has xids of its own)
                is_of_commit = self.commit is not None and word(answer, 0) == self.commit and word(answer, 1) == 1
                if is_of_commit:
                    self.answered.set()
                    if self.held_at == ANSWER:
                        continue
                mount.sendall(answer)
                self.is_told = self.is_told or is_of_commit
        except OSError:
            pass
        hung_up(mount)
