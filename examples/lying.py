"""Servers that lie, and lines that are slow, for `shelling`: relays before a served folder."""
import socket
import threading
import time

from holding import hung_up, procedure, records, word
from peer import LBFS, LOOKUP, NFS, READDIR, ROOT, Peer, Reader, opaque, record, u32, u64
from runs import Folder, Server


class Relay:
    """A relay before a server, each of whose connections two threads pass on."""

    def __init__(self, to):
        self.to = to
        self.listener = socket.create_server(("127.0.0.1", 0))
        self.port = self.listener.getsockname()[1]

    def __enter__(self):
        threading.Thread(target=self.run, daemon=True).start()
        return self

    def __exit__(self, *_):
        hung_up(self.listener)
        self.listener.close()

    def run(self):
        while True:
            try:
                client, _ = self.listener.accept()
            except OSError:
                return
            try:
                server = socket.create_connection(("127.0.0.1", self.to))
            except OSError:
                client.close()
                continue
            for it in (client, server):
                it.setsockopt(socket.IPPROTO_TCP, socket.TCP_NODELAY, 1)
            state = {}
            for source, sink, turn in ((client, server, self.up), (server, client, self.down)):
                threading.Thread(target=self.pump, args=(source, sink, turn, state), daemon=True).start()

    def pump(self, source, sink, turn, state):
        try:
            for it in records(source):
                sink.sendall(turn(it, state))
        except OSError:
            pass
        hung_up(sink)
        hung_up(source)

    def up(self, call, state):
        return call

    def down(self, answer, state):
        return answer


class Forsaken(Relay):
    """A relay whose server is killed before the call with this number is passed on, counted from 1 among those of this
    procedure of LBFS, or of this program, or among all. It takes connections still, and closes each at once, as `ssh -L` does."""

    def __init__(self, server, number, of=None, program=LBFS):
        super().__init__(server.port)
        self.server, self.left, self.of, self.program = server, number, of, program
        self.lock = threading.Lock()

    def up(self, call, state):
        if self.of in (None, procedure(call, self.program)):
            with self.lock:
                self.left -= 1
                if self.left == 0:
                    self.server.kill()
        return call


class Slow(Relay):
    """A relay that holds each record for so many seconds, both ways."""

    def __init__(self, to, seconds):
        super().__init__(to)
        self.seconds = seconds

    def up(self, call, state):
        time.sleep(self.seconds)
        return call

    def down(self, answer, state):
        time.sleep(self.seconds)
        return answer


class Liar(Relay):
    """A server whose root has these names, whatever they are, each with this content: in what it says of a true
    folder each name is put in the place of another."""

    def __init__(self, names, content):
        self.folder = Folder()
        path = self.folder.__enter__()
        self.server = Server(path)
        super().__init__(self.server.port)
        self.names = {}
        with_peer = Peer(self.server.port)
        for at, name in enumerate(names):
            real = b"name-%04d" % at
            self.names[real] = name
            with_peer.store(with_peer.create(ROOT, real), content)
        with_peer.close()

    def __exit__(self, *words):
        super().__exit__(*words)
        self.server.kill()
        self.folder.__exit__(*words)

    def up(self, call, state):
        if (word(call, 3), word(call, 4)) != NFS:
            return call
        if word(call, 5) == READDIR:
            state[word(call, 0)] = True
        if word(call, 5) != LOOKUP:
            return call
        got = Reader(call[44:])
        handle, name = got.opaque(), got.opaque()
        real = next((real for real, told in self.names.items() if told == name), name)
        return record(call[4:44] + opaque(handle) + opaque(real))

    def down(self, answer, state):
        if not state.pop(word(answer, 0), False):
            return answer
        got = Reader(answer[4:])
        front = got.take(24)
        status = got.u32()
        if status:
            return answer
        present = got.u32()
        told = front + u32(status, present) + (got.take(84) if present else b"") + got.take(8)
        while got.u32():
            told += u32(1) + u64(got.u64())
            name = got.opaque()
            told += opaque(self.names.get(name, name)) + u64(got.u64())
        return record(told + u32(0, got.u32()))


class Misnumbers(Liar):
    """A server that tells of each name in a listing an id that nothing has."""

    def down(self, answer, state):
        if not state.pop(word(answer, 0), False):
            return answer
        got = Reader(answer[4:])
        front = got.take(24)
        status = got.u32()
        if status:
            return answer
        present = got.u32()
        told = front + u32(status, present) + (got.take(84) if present else b"") + got.take(8)
        while got.u32():
            told += u32(1) + u64(got.u64() + 1_000_000)
            name = got.opaque()
            told += opaque(self.names.get(name, name)) + u64(got.u64())
        return record(told + u32(0, got.u32()))
