"""A relay that counts what goes over it, and can hold records back or cut its links. `leasing` uses it."""
import socket
import threading

from holding import hung_up, records, word
from peer import PATIENCE, answer

CALL, ANSWER = 0, 1
UP, DOWN = "up", "down"


def is_recall(way, record):
    """Whether a record is the server's call to its client: it makes no other."""
    return way == DOWN and word(record, 1) == CALL


def is_given_up(way, record):
    """Whether a record is a client's answer, to a RECALL that is."""
    return way == UP and word(record, 1) == ANSWER and word(record, 0) != 0


def is_farewell(way, record):
    return way == UP and word(record, 1) == ANSWER and word(record, 0) == 0


class Passing:
    """Passes connections on to a port. `holds` says which records aren't passed on until `release`; of each kind of record
    that is counted there is one number, by the functions above; `sees`, where there is one, is called with each. One that `lies` answers RECALLs itself, so that a mount goes
    on by its notes, which is what must not be."""

    def __init__(self, to, holds=lambda way, record: False, lies=False):
        self.to, self.holds, self.lies, self.held, self.links = to, holds, lies, [], []
        self.sees = None
        self.bytes = {UP: 0, DOWN: 0}
        self.counts = {is_recall: 0, is_given_up: 0, is_farewell: 0}
        # of each record that went up, in order, whether it answers a RECALL
        self.ups = []
        self.changed = threading.Condition()
        # records that two threads give to one stream go out one after the other
        self.giving = threading.Lock()
        self.listener = socket.create_server(("127.0.0.1", 0))
        self.port = self.listener.getsockname()[1]

    def __enter__(self):
        threading.Thread(target=self.run, daemon=True).start()
        return self

    def __exit__(self, *_):
        hung_up(self.listener)
        self.listener.close()
        self.cut()

    def run(self):
        while True:
            try:
                client, _ = self.listener.accept()
            except OSError:
                return
            try:
                server = socket.create_connection(("127.0.0.1", self.to))
            except OSError:
                client.close()
                continue
            for it in (client, server):
                it.setsockopt(socket.IPPROTO_TCP, socket.TCP_NODELAY, 1)
            with self.changed:
                self.links.append((client, server))
            for way, source, sink in ((UP, client, server), (DOWN, server, client)):
                threading.Thread(target=self.pass_on, args=(way, source, sink), daemon=True).start()

    def pass_on(self, way, source, sink):
        try:
            for record in records(source):
                if self.lies and is_recall(way, record):
                    self.give(source, answer(word(record, 0)))
                elif self.takes(way, record, sink):
                    self.give(sink, record)
        except OSError:
            pass
        hung_up(source)
        hung_up(sink)

    def give(self, sink, record):
        if not self.lies:
            return sink.sendall(record)
        with self.giving:
            return sink.sendall(record)

    def takes(self, way, record, sink):
        """Counts a record, and says whether it is passed on now."""
        with self.changed:
            self.bytes[way] += len(record)
            if way == UP:
                self.ups.append(is_given_up(way, record))
            if self.sees:
                self.sees(way, record)
            for kind in self.counts:
                self.counts[kind] += kind(way, record)
            held = self.holds(way, record)
            if held:
                self.held.append((sink, record))
            self.changed.notify_all()
        return not held

    def wait(self, of):
        """Waits until this is true of what was counted or held."""
        with self.changed:
            if not self.changed.wait_for(of, PATIENCE):
                raise AssertionError("what is waited for doesn't come")

    def moved(self):
        """How many bytes went both ways so far."""
        with self.changed:
            return self.bytes[UP] + self.bytes[DOWN]

    def release(self):
        """Passes on what is held back, and holds no more."""
        with self.changed:
            held, self.held = self.held, []
            self.holds = lambda way, record: False
        for sink, record in held:
            try:
                self.give(sink, record)
            except OSError:
                pass

    def cut(self):
        """Both ends of each link see it lost."""
        with self.changed:
            links, self.links = self.links, []
        for pair in links:
            for it in pair:
                hung_up(it)
                it.close()
