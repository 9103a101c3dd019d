"""Files and directories of a replay in replays.py, the calls on names that its server does, and the commands on names of its clients."""

import hashlib

STALE, NO_ENTRY, NOT_DIRECTORY, DIRECTORY, EXISTS, INVALID, NOT_EMPTY, JUKEBOX, BAD_COOKIE = 70, 2, 20, 21, 17, 22, 66, 10008, 10003
ATTRIBUTES, WCC = 88, 116
# what a failure answer has behind its status
FAILURE = {"getattr": 0, "lookup": 4, "readdir": 4, "create": 8, "mkdir": 8, "remove": 8, "rmdir": 8, "rename": 16}


def opaque(text):
    """The bytes of a name or a path's part in a message."""
    return 4 + (len(text) + 3 & ~3)


class Tree:
    """The nodes by their ids. Contents and versions of files stand where the server keeps them."""

    def __init__(self):
        self.files, self.versions = {}, {1: 0}
        self.places, self.directories = {1: (0, "")}, {1}
        self.next, self.changes, self.opened = 2, 0, 0

    def named(self, dir, name):
        return next((k for k, place in self.places.items() if place == (dir, name)), None)

    def entries(self, dir):
        return sorted((name.encode(), k) for k, (parent, name) in self.places.items() if parent == dir)

    def opens(self, path, bytes_):
        """A file, or a directory where there are no bytes, that is there from the start."""
        *names, name = path.split("/")
        dir = 1
        for each in names:
            dir = self.named(dir, each)
        assert dir in self.directories and self.named(dir, name) is None
        node, self.next = self.next, self.next + 1
        self.places[node] = (dir, name)
        if bytes_ is None:
            self.directories.add(node)
            self.versions[node] = self.changes
            return
        if not self.changes:
            self.changes = self.opened = 1
            self.versions.update((d, 1) for d in self.directories)
        self.files[node], self.versions[node] = bytes_, 1

    def attributes(self, node):
        if node in self.directories:
            return (node, 2, self.versions[node], len(self.entries(node)))
        return (node, 1, self.versions[node], len(self.files[node]))

    def fault(self, dir):
        """Why an id is refused where a directory is wanted."""
        return STALE if dir not in self.places else NOT_DIRECTORY if dir not in self.directories else None

    def touched(self, *dirs, count=1):
        self.changes += count
        self.versions.update((d, self.changes) for d in dirs)

    def makes(self, dir, name, is_file):
        node, self.next = self.next, self.next + 1
        self.places[node] = (dir, name)
        self.touched(dir)
        if is_file:
            self.files[node], self.versions[node] = b"", 1
        else:
            self.directories.add(node)
            self.versions[node] = self.changes
        return node

    def goes(self, node):
        self.places.pop(node)
        self.directories.discard(node)
        self.files.pop(node, None)

    def is_within(self, top, node):
        while node != top and node:
            node = self.places[node][0]
        return node == top

    def rename_fault(self, node, over, to):
        if node in self.directories and self.is_within(node, to):
            return INVALID
        if over is None:
            return None
        if node in self.directories:
            return None if over in self.directories and not self.entries(over) else EXISTS
        return EXISTS if over in self.directories else None

    def moves(self, node, dir, to, name, over):
        if over is not None:
            self.goes(over)
        self.places[node] = (to, name)
        self.touched(dir, to, count=1 if over is None else 2)


class Served:
    """What the server does of calls on names. A change of a file is told to the last operation of its session that may make one, or is that session's own."""

    def changed(self, number, kind, file, bytes_=b""):
        session = self.sessions[number - 1]
        if session.owner is None:
            told = f"version {self.versions[file]} {len(bytes_)} {hashlib.sha1(bytes_).hexdigest()}"
            self.raws.append(f"raw session {number} {kind} file {file} begin {session.begun} point {self.step} {told}")
            return
        session.closing.point, session.closing.file = self.step, file

    def fail(self, number, xid, kind, status):
        self.say(number, xid, 4 + FAILURE[kind], "failed", status)

    def serve_name(self, number, xid, kind, rest):
        tree = self.tree
        dirs = (rest[0], rest[2]) if kind == "rename" else (rest[0],)
        if kind == "getattr":
            return self.say(number, xid, 4 + 84, "done", tree.attributes(rest[0]))
        faults = [tree.fault(d) for d in dirs]
        for fault in (STALE, NOT_DIRECTORY):
            if fault in faults:
                return self.fail(number, xid, kind, fault)
        if kind == "readdir":
            return self.lists(number, xid, *rest)
        getattr(self, "serve_" + kind)(number, xid, tree.named(*rest[:2]), *rest)

    def lists(self, number, xid, dir, cookie, verifier):
        entries, room, page = self.tree.entries(dir), 65536 - 104, []
        if cookie and verifier != self.tree.versions[dir] or cookie > len(entries):
            return self.fail(number, xid, "readdir", BAD_COOKIE)
        for name, _ in entries[cookie:]:
            room -= 20 + opaque(name)
            if room < 0:
                break
            page.append(name)
        size = 108 + sum(20 + opaque(name) for name in page)
        self.say(number, xid, size, "done", page, self.tree.versions[dir], cookie + len(page) == len(entries))

    def serve_lookup(self, number, xid, node, dir, name):
        if node is None:
            return self.fail(number, xid, "lookup", NO_ENTRY)
        self.say(number, xid, 4 + 20 + 2 * ATTRIBUTES, "done", self.tree.attributes(node))

    def serve_create(self, number, xid, node, dir, name):
        if node is not None:
            return self.fail(number, xid, "create", EXISTS)
        self.changed(number, "Make", self.tree.makes(dir, name, True))
        self.say(number, xid, 4 + 24 + ATTRIBUTES + WCC, "done")

    def serve_mkdir(self, number, xid, node, dir, name):
        if node is not None:
            return self.fail(number, xid, "mkdir", EXISTS)
        self.tree.makes(dir, name, False)
        self.say(number, xid, 4 + 24 + ATTRIBUTES + WCC, "done")

    def serve_remove(self, number, xid, node, dir, name):
        if node is None or node in self.tree.directories:
            return self.fail(number, xid, "remove", NO_ENTRY if node is None else DIRECTORY)
        self.comes(number, xid, "remove", (node, dir, name))

    def serve_rmdir(self, number, xid, node, dir, name):
        tree = self.tree
        if node is None or node not in tree.directories or tree.entries(node):
            return self.fail(number, xid, "rmdir", NO_ENTRY if node is None else NOT_DIRECTORY if node not in tree.directories else NOT_EMPTY)
        tree.goes(node)
        tree.touched(dir)
        self.say(number, xid, 4 + WCC, "done")

    def serve_rename(self, number, xid, node, dir, name, to, to_name):
        tree, over = self.tree, self.tree.named(to, to_name)
        fault = NO_ENTRY if node is None else None if node == over else tree.rename_fault(node, over, to)
        if fault:
            return self.fail(number, xid, "rename", fault)
        if node != over:
            if over in tree.files:
                return self.comes(number, xid, "rename", (over, dir, name, to, to_name, node))
            tree.moves(node, dir, to, to_name, over)
        self.say(number, xid, 4 + 2 * WCC, "done")

    def settle_name(self, number, xid, kind, file, dir, name, *rest):
        tree = self.tree
        if file not in tree.places:
            return self.fail(number, xid, kind, STALE)
        if kind == "remove":
            if tree.named(dir, name) != file:
                return self.fail(number, xid, kind, JUKEBOX)
            tree.goes(file)
            tree.touched(dir)
        else:
            to, to_name, node = rest
            if tree.named(dir, name) != node or tree.named(to, to_name) != file:
                return self.fail(number, xid, kind, JUKEBOX)
            tree.moves(node, dir, to, to_name, file)
        self.versions[file] += 1
        self.changed(number, "Remove", file)
        self.say(number, xid, 4 + (WCC if kind == "remove" else 2 * WCC), "done")


class Walks:
    """A client's command on names: its look-ups, from the root on, and the call behind them."""

    def walk(self, client, word, args):
        client.paths = [[] if arg == "/" else arg.split("/") for arg in args]
        client.left = [[] if word == "list" or not p else p[:-1] for p in client.paths]
        if word == "list":
            client.left = [client.paths[0]]
        client.reached, client.dir, client.page = [], 1, (0, 0, [])
        self.walk_on(client)

    def walk_on(self, client):
        word = client.op.word
        while client.left and not client.left[0]:
            client.left = client.left[1:]
            client.reached.append(client.dir)
            client.dir = 1
        if client.left:
            return self.ask_name(client, "lookup", client.dir, client.left[0][0])
        dir = client.reached[0]
        names = [path[-1] if path else "" for path in client.paths]
        if word == "list":
            return self.ask(client, "readdir", 20 + 20, dir, *client.page[:2])
        if word == "look" and not client.paths[0]:
            return self.ask(client, "getattr", 20, 1)
        if word == "rename":
            size = 40 + opaque(names[0]) + opaque(names[1])
            return self.ask(client, "rename", size, dir, names[0], client.reached[1], names[1])
        kinds = {"open": "lookup", "rewrite": "lookup", "look": "lookup", "make": "create", "mkdir": "mkdir", "remove": "remove", "rmdir": "rmdir"}
        self.ask_name(client, kinds[word], dir, names[0])

    def ask_name(self, client, kind, dir, name):
        self.ask(client, kind, 20 + opaque(name) + {"create": 28, "mkdir": 24}.get(kind, 0), dir, name)

    def took_lookup(self, client, xid, rest, said):
        if client.left:
            client.dir, client.left[0] = said[1][0], client.left[0][1:]
            return self.walk_on(client)
        client.op.file = said[1][0]
        if client.op.word == "look":
            return self.took_getattr(client, xid, rest, said)
        if client.op.file in client.opened:
            return self.end(client, "AlreadyOpen")
        self.open_file(client)

    def took_getattr(self, client, xid, rest, said):
        self.end(client, "Seen " + " ".join(str(n) for n in said[1]))

    def took_readdir(self, client, xid, rest, said):
        cookie, _, names = client.page
        client.page = (cookie + len(said[1]), said[2], names + said[1])
        if not said[3]:
            return self.walk_on(client)
        self.end(client, " ".join([f"Names {len(client.page[2])}"] + [name.hex() for name in client.page[2]]))

    def took_done(self, client, xid, rest, said):
        self.end(client, "Done")

    took_create = took_mkdir = took_remove = took_rmdir = took_rename = took_done
