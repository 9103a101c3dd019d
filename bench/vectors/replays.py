#!/usr/bin/env python3
"""Replays traces apart from the program, by what each line does, and looks over the examples:

    bench/vectors/replays.py [--without-indexes] [--mend] FILE ..
    bench/vectors/replays.py [--without-indexes] [--names] [--raw] --random SECONDS PROGRAM [SEED]

FILE is NAME.trace (with NAME.out) or NAME.rows. Each history is compared with the one that is wanted;
--mend writes what came here in its place. With --random the traces of bench/random-traces are replayed
here and by the program, from the seed on, 1 where not said otherwise, for so many seconds; with --names
they have directories and commands on names too (name_traces.py), with --raw sessions that are no client's
(raw_traces.py). What is refused, and words other than 'replay' and 'replay --summary', are left alone.
Messages of clients have their sizes but not their bytes;
of the clocks what leases need is looked at, and
the clock rule isn't. The status is 1 where a history differs.
"""
import hashlib
import importlib.machinery
import importlib.util
import re
import subprocess
import sys
import time
from collections import OrderedDict, deque

sys.path.insert(0, __file__.rsplit("/", 1)[0])
from generated_rows import chunk_end, random_bytes
from name_traces import with_names
from names import FAILURE, Served, Tree, Walks
from raw_calls import Raw
from raw_traces import with_raw

CALLS, TRIES, PAIRS, FILE_MOST, TREE_MOST = 16, 4, 1024, 1 << 26, 1 << 30
INDEXES = "--without-indexes" not in sys.argv
KNOWN = {}
DIFFER = []


def digest(content):
    return hashlib.sha1(content).hexdigest()


def chunks(content):
    """(start, length, digest) of each chunk."""
    key = digest(content)
    if key not in KNOWN:
        out, start = [], 0
        while start < len(content):
            end = chunk_end(content, start)
            out.append((start, end - start, digest(content[start:end])))
            start = end
        KNOWN[key] = out
    return KNOWN[key]


def content(word):
    if word == "-":
        return b""
    out = b""
    for part in word.split("+"):
        kind, rest = part.split(":", 1)
        if kind == "t":
            out += rest.encode()
        elif kind == "x":
            out += bytes.fromhex(rest)
        elif kind == "z":
            out += bytes(int(rest))
        elif kind == "m":
            out += (bytes(2047) + b"\x78") * int(rest)
        else:
            seed, count = rest.split(":")
            out += random_bytes(int(seed), int(count))
    return out


def length(word):
    """How long a content is, which may be more than any memory has."""
    if word == "-":
        return 0
    sizes = {"t": len, "x": lambda r: len(r) // 2, "z": int, "m": lambda r: 2048 * int(r), "r": lambda r: int(r.split(":")[1])}
    return sum(sizes[part[0]](part[2:]) for part in word.split("+"))


class Index:
    """Places by the first eight bytes of a digest, the most recent last."""

    def __init__(self):
        self.pairs = OrderedDict()

    def put(self, key, place):
        if INDEXES:
            self.pairs.pop(key, None)
            self.pairs[key] = place
            if len(self.pairs) > 65536:
                self.pairs.popitem(False)

    def enter(self, file, listed):
        for start, length, name in listed:
            self.put(name[:16], (file, start, length))

    def find(self, name):
        if name[:16] in self.pairs:
            self.pairs.move_to_end(name[:16])
        return self.pairs.get(name[:16])


def cached_items(file):
    """The whole items that begin the bytes of a cache file: a length in four bytes, so many bytes, and zeros up to four."""
    items = []
    while True:
        length = int.from_bytes(file[:4], "big")
        end = 4 + (length + 3) // 4 * 4
        if not 1 <= length <= 65536 or len(file) < end or any(file[4 + length : end]):
            return items
        items.append(file[4 : 4 + length])
        file = file[end:]


def held(files, place, length, name):
    """The bytes at a place, where they are there and have the length and the digest."""
    if place is None or place[2] != length or place[0] not in files:
        return None
    bytes_ = files[place[0]][place[1] : place[1] + length]
    return bytes_ if len(bytes_) == length and digest(bytes_) == name else None


def whole_words(count):
    return count + 3 & ~3


class Session:
    def __init__(self, owner):
        self.owner, self.cut, self.hung = owner, False, False
        self.up, self.down, self.came = deque(), deque(), {"up": 0, "down": 0}
        self.taken, self.closing = {}, None


class Op:
    def __init__(self, client, word, file, begin):
        self.client, self.word, self.file, self.begin = client, word, file, begin
        self.end = self.point = None
        self.out, self.counts = "Running", [0, 0, 0, 0]

    def text(self, number):
        a, t, r, d = self.counts
        told = [("-" if v is None else v) for v in (self.end, self.point)]
        return f"op {number} client {self.client} {self.word} file {self.file} begin {self.begin} end {told[0]} point {told[1]} {self.out} cond {a} tmp {t} read {r} data {d}"


class Client:
    def __init__(self, number):
        self.number, self.session, self.linked = number, None, False
        self.opened, self.op, self.kept, self.index = {}, None, {}, Index()
        self.xid, self.calls = 0, {}
        # its reading, that at which the call went out that may bring a lease, and its notes: (version, until)
        self.now, self.sent, self.notes = 0, 0, {}

    def is_fresh(self, file):
        version, until = self.notes.get(file, (0, 0))
        return version > 0 and file in self.kept and self.kept[file][0] == version and self.now < until


class World(Served, Walks, Raw):
    def __init__(self):
        self.step, self.tree, self.ops = 0, Tree(), []
        self.files, self.versions = self.tree.files, self.tree.versions
        self.sessions, self.clients, self.waiting, self.temps = [], [], [], {}
        self.index, self.raws, self.is_raw = Index(), [], False
        # the last moment used, the leases by session and file, each [ends, xid of its RECALL], the last xid of a session
        self.term, self.drift, self.moment, self.leases, self.drawn, self.asked = 0, 0, 0, {}, {}, {}

    # ---- the wire

    def ask(self, client, kind, size, *rest):
        client.xid += 1
        client.calls[client.xid] = (kind, client.op, client.stage) + rest
        if kind in ("lease", "hash", "commit"):
            client.sent = client.now
        if kind == "commit":
            client.notes.pop(rest[0], None)
        session = self.sessions[client.session - 1]
        if not session.hung:
            session.up.append((44 + size, client.xid, kind, rest))

    def say(self, number, xid, size, *rest):
        session = self.sessions[number - 1]
        if not session.cut:
            session.down.append((28 + size, xid, rest))

    def take(self, number, way, amount, now):
        session = self.sessions[number - 1]
        if session.owner is None:
            return self.take_raw(number, amount, now)
        queue, came = getattr(session, way), session.came
        left = sum(m[0] for m in queue) - came[way] if amount is None else amount
        messages = []
        while queue and left >= queue[0][0] - came[way]:
            left, came[way] = left - (queue[0][0] - came[way]), 0
            messages.append(queue.popleft())
        if queue:
            came[way] += left
        for message in messages:
            if way == "up":
                self.step += 1
                self.serve(number, now, *message[1:])
            elif self.clients[session.owner - 1].session == number and not session.cut:
                self.step += 1
                client = self.clients[session.owner - 1]
                client.now = now
                if message[2][0] == "recall":
                    self.recalled(client, message[1], message[2][1])
                else:
                    self.hear(client, message[1], *message[2])

    # ---- leases

    def term_for(self, file):
        return 0 if any(w[3][0] == file for w in self.waiting) else self.term

    def grant(self, number, file):
        term = self.term_for(file)
        if term:
            self.leases = {k: v for k, v in self.leases.items() if v[0] > self.moment}
            self.leases[number, file] = [self.moment + term, None]
        return term

    def comes(self, number, xid, kind, change):
        """A change waits, and the leases that hold it up are asked for, on sessions that stand."""
        self.waiting.append((number, xid, kind, change))
        own = number if kind == "commit" else 0
        for (holder, file), lease in self.leases.items():
            if file == change[0] and holder != own and lease[0] > self.moment and lease[1] is None and not self.sessions[holder - 1].hung:
                self.drawn[holder] = lease[1] = self.drawn.get(holder, 0) + 1
                self.asked.setdefault(holder, set()).add(lease[1])
                if not self.sessions[holder - 1].cut:
                    self.sessions[holder - 1].down.append((64, lease[1], ("recall", file)))

    def given_up(self, number, xid):
        if xid in self.asked.get(number, set()):
            self.asked[number].discard(xid)
            self.leases = {k: v for k, v in self.leases.items() if k[0] != number or v[1] != xid}

    def known(self, count, name):
        """The bytes of this length and digest that the server's index leads to, if it does."""
        return held(self.files, self.index.find(name), count, name)

    def chunks_of(self, file):
        return chunks(self.files[file])

    def ready(self, moment):
        heads = set()
        for at, (number, _, kind, change) in enumerate(self.waiting):
            if change[0] not in heads:
                heads.add(change[0])
                own = number if kind == "commit" else 0
                if not any(file == change[0] and holder != own and lease[0] > moment for (holder, file), lease in self.leases.items()):
                    return at
        return None

    def recalled(self, client, xid, file):
        client.notes.pop(file, None)
        session = self.sessions[client.session - 1]
        if not session.hung:
            session.up.append((28, xid, "reply", ()))

    # ---- the server

    def serve(self, number, now, xid, kind, rest):
        session = self.sessions[number - 1]
        if kind == "reply":
            if xid in self.asked.get(number, set()):
                self.moment = max(self.moment, now)
            return self.given_up(number, xid)
        self.moment = max(self.moment, now)
        session.taken[xid] = self.step
        if kind in FAILURE:
            return self.serve_name(number, xid, kind, rest)
        if kind in ("lease", "hash", "read", "make", "commit"):
            file = rest[0]
            if kind == "commit" and file not in self.files:
                self.temps.pop((number, rest[1]))
            if file in self.tree.directories:
                return self.say(number, xid, 8 if kind == "read" else 4, "failed", 21)
            if file not in self.files:
                return self.say(number, xid, 8 if kind == "read" else 4, "failed", 70)
        if kind == "lease":
            self.say(number, xid, 100, "done", self.versions[file], self.grant(number, file))
        elif kind == "hash":
            listed = self.chunks_of(file)
            told = [c for c in listed if c[0] >= rest[1]][:PAIRS]
            self.index.enter(file, told)
            term = self.grant(number, file)
            eof = not told or told[-1] == listed[-1]
            self.say(number, xid, 32 + 24 * len(told), "done", self.versions[file], len(self.files[file]), told, eof, term)
        elif kind == "read":
            bytes_ = self.files[file][rest[1] : rest[1] + rest[2]]
            self.say(number, xid, 104 + whole_words(len(bytes_)), "done", bytes_, self.versions[file])
        elif kind == "make":
            self.temps[number, rest[1]] = {}
            self.say(number, xid, 4, "done")
        elif kind == "cond":
            fd, offset, length, name = rest
            bytes_ = self.known(length, name)
            if bytes_ is not None:
                self.temps[number, fd][offset] = bytes_
            self.say(number, xid, 4, "done" if bytes_ is not None else "unknown")
        elif kind == "tmp":
            self.temps[number, rest[0]][rest[1]] = rest[2]
            self.say(number, xid, 4, "done")
        else:
            pieces = self.temps.pop((number, rest[1]))
            whole = b"".join(pieces[k] for k in sorted(pieces))
            self.comes(number, xid, "commit", (rest[0], whole))

    def settle(self, now):
        self.step += 1
        at = self.ready(max(self.moment, now))
        if at is None:
            return
        self.moment = max(self.moment, now)
        number, xid, kind, change = self.waiting.pop(at)
        if kind != "commit":
            return self.settle_name(number, xid, kind, *change)
        file, whole = change
        if file not in self.files:
            return self.say(number, xid, 4, "failed", 70)
        self.tree.changes += 1
        self.files[file], self.versions[file] = whole, self.versions[file] + 1
        self.index.enter(file, chunks(whole))
        self.changed(number, "Commit", file, whole)
        self.say(number, xid, 16, "done", self.versions[file], len(whole), self.grant(number, file))

    def hang(self, number):
        session = self.sessions[number - 1]
        if session.hung:
            return
        self.step += 1
        session.hung = True
        session.up.clear()
        self.temps = {k: v for k, v in self.temps.items() if k[0] != number}
        self.waiting = [w for w in self.waiting if w[0] != number]
        self.asked.pop(number, None)
        self.drawn.pop(number, None)

    # ---- a client

    def end(self, client, out, xid=None):
        op, client.op = client.op, None
        op.end, op.out = self.step, out
        if xid is not None:
            op.point = self.sessions[client.session - 1].taken[xid]

    def ask_hashes(self, client, offset=0):
        if offset == 0:
            client.listed, client.slots, client.first = [], {}, client.xid + 1
        self.ask(client, "hash", 32, client.op.file, offset)

    def hear(self, client, xid, *said):
        call = client.calls.pop(xid)
        kind, op, stage, rest = call[0], call[1], call[2], call[3:]
        if op is not client.op or stage != client.stage:
            return
        if said[0] == "failed":
            return self.end(client, f"Refused {said[1]}", xid if said[1] == 70 and op.word == "open" else None)
        sent, file = client.sent, op.file
        getattr(self, "took_" + kind)(client, xid, rest, said)
        if kind in ("lease", "hash", "commit"):
            term = said[-1]
            if term > self.drift:
                client.notes[file] = (said[1], sent + term - self.drift)

    def took_lease(self, client, xid, rest, said):
        if client.op.word == "rewrite":
            client.opened[client.op.file] = b""
            return self.end(client, "Done")
        version, bytes_ = client.kept.get(client.op.file, (None, None))
        if version == said[1]:
            client.opened[client.op.file] = bytes_
            return self.end(client, f"Opened {len(bytes_)} {digest(bytes_)}", xid)
        client.tries = 1
        self.ask_hashes(client)

    def retry(self, client, version):
        if client.tries == TRIES:
            return self.end(client, f"Changed {client.version} {version}")
        client.tries += 1
        client.stage += 1
        self.ask_hashes(client)

    def took_hash(self, client, xid, rest, said):
        _, version, size, told, eof, _ = said
        if rest[1] and version != client.version:
            return self.retry(client, version)
        client.version, client.listed = version, client.listed + told
        if not eof:
            return self.ask_hashes(client, client.listed[-1][0] + client.listed[-1][1])
        client.next, client.under = 0, 0
        self.reads(client)

    def reads(self, client):
        files = {file: bytes_ for file, (_, bytes_) in client.kept.items()}
        while client.next < len(client.listed) and client.under < CALLS:
            place, (start, length, name) = client.next, client.listed[client.next]
            client.next += 1
            bytes_ = held(files, client.index.find(name), length, name)
            if bytes_ is not None:
                client.slots[place] = bytes_
            else:
                client.under += 1
                client.op.counts[2] += 1
                self.ask(client, "read", 32, client.op.file, start, length, place)
        if len(client.slots) == len(client.listed):
            whole = b"".join(client.slots[k] for k in range(len(client.listed)))
            client.opened[client.op.file] = whole
            if INDEXES:
                client.kept[client.op.file] = (client.version, whole)
                client.index.enter(client.op.file, client.listed)
            self.end(client, f"Opened {len(whole)} {digest(whole)}", client.first)

    def took_read(self, client, xid, rest, said):
        _, bytes_, version = said
        client.op.counts[3] += len(bytes_)
        start, length, name = client.listed[rest[3]]
        if len(bytes_) != length or digest(bytes_) != name:
            assert version != client.version
            return self.retry(client, version)
        client.under -= 1
        client.slots[rest[3]] = bytes_
        self.reads(client)

    def took_make(self, client, xid, rest, said):
        client.queue = deque(("cond",) + c for c in chunks(client.value))
        client.under = 0
        self.stores(client)

    def stores(self, client):
        while client.queue and client.under < CALLS:
            kind, start, length, name = client.queue.popleft()
            client.under += 1
            if kind == "cond":
                client.op.counts[0] += 1
                self.ask(client, "cond", 36, client.fd, start, length, name)
            else:
                client.op.counts[1] += 1
                client.op.counts[3] += length
                self.ask(client, "tmp", 16 + whole_words(length), client.fd, start, client.value[start : start + length])
        if not client.queue and not client.under:
            self.ask(client, "commit", 32, client.op.file, client.fd)

    def took_cond(self, client, xid, rest, said):
        client.under -= 1
        if said[0] == "unknown":
            client.queue.appendleft(("tmp",) + rest[1:])
        self.stores(client)

    def took_tmp(self, client, xid, rest, said):
        client.under -= 1
        self.stores(client)

    def took_commit(self, client, xid, rest, said):
        if INDEXES:
            client.kept[client.op.file] = (said[1], client.value)
        client.opened.pop(client.op.file)
        self.end(client, f"Closed {said[1]} {said[2]} {digest(client.value)}")

    def cut(self, client):
        self.step += 1
        if not client.linked:
            return
        client.linked = False
        session = self.sessions[client.session - 1]
        session.cut = True
        session.down.clear()
        client.calls.clear()
        if client.op:
            self.end(client, "Lost")

    def command(self, client, word, args):
        self.step += 1
        file = int(args[0][1:]) if args[0].startswith("#") else 0
        op = Op(client.number, word, file, self.step)
        self.ops.append(op)
        mine = client.opened.get(file)
        if client.op:
            op.out = "Busy"
        elif not args[0].startswith("#"):
            if client.linked:
                client.op, client.stage = op, len(self.ops) * 8
                if word in ("make", "remove", "rename"):
                    self.sessions[client.session - 1].closing = op
                return self.walk(client, word, args)
            op.out = "NoLink"
        elif word in ("open", "rewrite"):
            if mine is not None:
                op.out = "AlreadyOpen"
            elif client.is_fresh(file):
                client.op, client.stage = op, len(self.ops) * 8
                return self.open_file(client)
            elif not client.linked:
                op.out = "NoLink"
            else:
                client.op, client.stage = op, len(self.ops) * 8
                return self.open_file(client)
        elif mine is None:
            op.out = "NotOpen"
        elif word == "close":
            if client.linked:
                client.op, client.stage, client.value = op, len(self.ops) * 8, mine
                client.fd = len(self.ops)
                self.sessions[client.session - 1].closing = op
                self.ask(client, "make", 24, file, client.fd)
                return
            op.out = "NoLink"
        elif word == "abandon":
            client.opened.pop(file)
            op.out = "Done"
        elif word == "read":
            piece = mine[int(args[1]) : int(args[1]) + int(args[2])]
            op.out = f"Piece {len(piece)} {digest(piece)}"
        else:
            op.out = self.change(client, file, mine, word, args)
        op.end = self.step

    def open_file(self, client):
        client.tries = 1
        if client.is_fresh(client.op.file):
            return self.at_once(client)
        if client.op.word == "rewrite" or client.op.file in client.kept:
            self.ask(client, "lease", 20, client.op.file)
        else:
            self.ask_hashes(client)

    def at_once(self, client):
        op, bytes_ = client.op, client.kept[client.op.file][1]
        client.opened[op.file] = bytes_ if op.word == "open" else b""
        if op.word == "open":
            op.point = self.step
        self.end(client, f"Opened {len(bytes_)} {digest(bytes_)}" if op.word == "open" else "Done")

    def change(self, client, file, mine, word, args):
        at = int(args[1])
        if word == "trunc":
            if at > FILE_MOST:
                return f"TooBig {at}"
            client.opened[file] = mine[:at] + bytes(max(0, at - len(mine)))
            return "Done"
        count = length(args[2])
        if not count:
            return "Done"
        if max(at + count, len(mine)) > FILE_MOST:
            return f"TooBig {max(at + count, len(mine))}"
        more = content(args[2])
        client.opened[file] = mine[:at] + bytes(max(0, at - len(mine))) + more + mine[at + len(more) :]
        return "Done"

    # ---- lines

    def is_still(self, number):
        session = self.sessions[number - 1]
        return not session.up and not session.down

    def line(self, words):
        kind = words[0]
        if kind in ("term", "drift"):
            setattr(self, kind, int(words[1]))
        elif kind == "clients":
            self.clients = [Client(n + 1) for n in range(int(words[1]))]
        elif kind in ("dir", "file"):
            self.tree.opens(words[1], content(words[2]) if kind == "file" else None)
        elif kind == "join":
            client = self.clients[int(words[1]) - 1]
            self.step += 2
            self.sessions.append(Session(client.number))
            client.session, client.linked, client.calls, client.xid = len(self.sessions), True, {}, 0
            client.now = int(words[2])
        elif kind == "rawjoin":
            self.is_raw = True
            self.raw_joins()
        elif kind == "raw":
            self.raw_sends(int(words[1]), bytes.fromhex(words[2]))
        elif kind == "do":
            self.clients[int(words[1]) - 1].now = int(words[2])
            self.command(self.clients[int(words[1]) - 1], words[3], words[4:])
        elif kind in ("up", "down"):
            self.take(int(words[1]), kind, None if words[2] == "all" else int(words[2]), int(words[3]))
        elif kind == "pass":
            for _ in range(int(words[2])):
                if self.is_still(int(words[1])):
                    break
                self.take(int(words[1]), "up", None, int(words[3]))
                self.take(int(words[1]), "down", None, int(words[4]))
        elif kind == "settle":
            self.settle(int(words[1]))
        elif kind == "cut":
            self.cut(self.clients[int(words[1]) - 1])
        elif kind == "hang":
            self.hang(int(words[1]))
        elif kind == "forge":
            whose = self.index if words[1] == "server" else self.clients[int(words[1]) - 1].index
            whose.put(words[2], tuple(int(w) for w in words[3:6]))
        elif kind == "clear":
            (self.index if words[1] == "server" else self.clients[int(words[1]) - 1].index).pairs.clear()
        elif kind == "evict":
            self.clients[int(words[1]) - 1].kept.pop(int(words[2]), None)
        elif kind == "warm":
            client, items, at = self.clients[int(words[1]) - 1], cached_items(content(words[2])), 0
            client.kept[0] = (0, b"".join(items))
            for item in items:
                client.index.enter(0, [(at, len(item), hashlib.sha1(item).hexdigest())])
                at += len(item)

    def history(self):
        counts = f"ops {len(self.ops)}" + (f" raw {len(self.raws)}" if self.is_raw else "")
        return ["lbfs-history 1"] + [op.text(k + 1) for k, op in enumerate(self.ops)] + self.raws + [f"end {counts} steps {self.step}"]

    def summary(self):
        kinds = [op.out.split(" ")[0] for op in self.ops]
        opened, closed, running = (kinds.count(k) for k in ("Opened", "Closed", "Running"))
        other = sum(kinds.count(k) for k in ("Done", "Piece", "Names", "Seen"))
        refused = len(kinds) - opened - closed - other - running
        totals = [sum(op.counts[k] for op in self.ops) for k in range(4)]
        return [
            f"ops {len(self.ops)} opened {opened} closed {closed} other {other} refused {refused} running {running}",
            "cond {} tmp {} read {} data {}".format(*totals),
            f"journal {self.tree.changes - self.tree.opened}",
        ]


def replay(lines, is_summary=False):
    world = World()
    for line in lines:
        if line and not line.startswith("#"):
            world.line(line.split(" "))
    return world.summary() if is_summary else world.history()


def compare(name, lines, wanted, is_summary=False):
    """The history that came, or None where it could not be told."""
    try:
        came = replay(lines, is_summary)
    except Exception as fault:  # told, so that nobody takes it for a match
        print(f"{name}: not replayed: {fault!r}")
        DIFFER.append(name)
        return None
    if came != wanted:
        DIFFER.append(name)
        print(f"{name}: another history")
        for a, b in zip(wanted, came):
            if a != b:
                print(f"   wanted {a}\n   came   {b}")
    return came


def rows(path, mend):
    """The rows of a table; those of 'replay' with status 0 and no bytes in hexadecimal are looked at."""
    text = open(path).read().split("\n")
    parts, part = [], []
    for line in text:
        if line.startswith("== "):
            parts.append(part)
            part = []
        part.append(line)
    parts.append(part)
    front, seen = parts[0], 0

    def expand(lines, word):
        out = []
        for l in lines:
            m = re.match(rf"{word} (?:(\d+)\* )?(.*)$", l)
            if m:
                out += [m.group(2)] * int(m.group(1) or 1)
        return out

    for k in range(1, len(parts)):
        both = [l for l in front + parts[k] if l != "words replay --summary"]
        is_summary = len(both) < len(front + parts[k])
        if any(re.match(r"(words|status|hex|end|source|sink) ", l) for l in both) or any("\\" in l for l in both if l.startswith("in ")):
            continue
        lines, wanted = expand(both, "in"), expand(both, "out")
        if len(wanted) < 2:
            continue
        seen += 1
        came = compare(f"{path} {parts[k][0]}", lines, wanted, is_summary)
        if mend and came is not None and came != wanted:
            own = came[len(expand(front, "out")) :]
            keep = [l for l in parts[k] if not l.startswith("out ")]
            at = max(i for i, l in enumerate(keep) if l.startswith("in ")) + 1
            parts[k] = keep[:at] + ["out " + l for l in own] + keep[at:]
    if mend:
        open(path, "w").write("\n".join(line for part in parts for line in part))
    print(f"{path}: {seen} rows looked at")


def random_ones(seconds, program, seed):
    """Random traces, replayed here and by the program."""
    path = __file__.rsplit("/", 2)[0] + "/random-traces"
    loader = importlib.machinery.SourceFileLoader("random_traces", path)
    makers = importlib.util.module_from_spec(importlib.util.spec_from_loader("random_traces", loader))
    loader.exec_module(makers)
    maker = with_names(makers.Maker) if "--names" in sys.argv else makers.Maker
    maker = with_raw(maker) if "--raw" in sys.argv else maker
    until, first, same, refused, steps = time.time() + seconds, seed, 0, 0, 0
    while time.time() < until:
        lines = maker(seed).trace().lines
        ran = subprocess.run([program, "replay"], input=("\n".join(lines) + "\n").encode(), capture_output=True, check=False)
        wanted = ran.stdout.decode().split("\n")[:-1]
        if ran.returncode:
            refused += 1
        elif compare(f"seed {seed}", lines, wanted) == wanted:
            same, steps = same + 1, steps + int(wanted[-1].split(" ")[-1])
        seed += 1
    print(f"{steps} steps in {same} traces that came the same, {len(DIFFER)} that differ, {refused} refused")


def main():
    mend = "--mend" in sys.argv
    if "--random" in sys.argv:
        at = sys.argv.index("--random")
        random_ones(float(sys.argv[at + 1]), sys.argv[at + 2], int(sys.argv[at + 3]) if at + 3 < len(sys.argv) else 1)
        sys.exit(1 if DIFFER else 0)
    for path in [a for a in sys.argv[1:] if not a.startswith("--")]:
        if path.endswith(".rows"):
            rows(path, mend)
        else:
            out = path[: -len("trace")] + "out"
            wanted = open(out).read().split("\n")[:-1]
            came = compare(path, open(path).read().split("\n"), wanted)
            if mend and came is not None and came != wanted:
                open(out, "w").write("\n".join(came) + "\n")
    sys.exit(1 if DIFFER else 0)


if __name__ == "__main__":
    main()
