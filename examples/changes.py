"""Random changes of a served tree, beside a model of it. `storing` uses it."""
import hashlib

import peer
from peer import Refused

DIRECTORY = "directory"
IO = 5
FILES, DIRECTORIES = 14, 3
# a content of at most so many bytes goes in the place of a longer one though no room is left
FEW = 120 << 10


def shown(content):
    """What a model has of a content."""
    return f"{len(content)} {hashlib.sha1(content).hexdigest()}"


class Tree:
    """A tree of files, and of directories with files, as a session knows it: paths, each with what stands there."""

    def __init__(self, chance, at=peer.ROOT):
        self.chance, self.at = chance, at
        self.nodes, self.has, self.sizes = {}, {}, {}

    def snapshot(self):
        return dict(self.has)

    def files(self):
        return [path for path, it in self.has.items() if it != DIRECTORY]

    def directories(self):
        return [path for path, it in self.has.items() if it == DIRECTORY]

    def is_empty(self, directory):
        return not any(path.startswith(directory + b"/") for path in self.has)

    def parent(self, path):
        """The directory of a path, and its name there."""
        front, _, name = path.rpartition(b"/")
        return (self.nodes[front] if front else self.at), name

    def any_path(self):
        """The path of a file that may be there or not."""
        front = self.chance.choice([b"", *(it + b"/" for it in self.directories())])
        return front + b"f%d" % self.chance.randrange(FILES)

    def pick(self, sizes, fewer=False):
        """A random change, that its tree may have: its kind, its path, and what more it needs."""
        files = self.files()
        kinds = ["make"] * 3 + ["store"] * 6 + ["remove"] * (6 if fewer else 2) + ["rename"] * 2 + ["mkdir", "rmdir"]
        while True:
            kind = self.chance.choice(kinds)
            if kind == "make":
                path = self.any_path()
                if path not in self.has:
                    return kind, path, None
            elif kind == "mkdir":
                path = b"d%d" % self.chance.randrange(DIRECTORIES)
                if path not in self.has:
                    return kind, path, None
            elif kind == "rmdir":
                empty = [it for it in self.directories() if self.is_empty(it)]
                if empty:
                    return kind, self.chance.choice(empty), None
            elif files and kind == "rename":
                path, to = self.chance.choice(files), self.any_path()
                if path != to:
                    return kind, path, to
            elif files and kind == "remove":
                return kind, self.chance.choice(files), None
            elif files:
                return kind, self.chance.choice(files), self.chance.randbytes(self.chance.choice(sizes))

    def ask(self, it, change):
        """Asks a session for a change; the node that was made."""
        kind, path, more = change
        parent, name = self.parent(path)
        if kind == "make":
            return it.create(parent, name)
        if kind == "mkdir":
            return it.make_directory(parent, name)
        if kind == "store":
            it.store(self.nodes[path], more)
        elif kind == "remove":
            it.remove(parent, name)
        elif kind == "rmdir":
            it.remove_directory(parent, name)
        else:
            to_parent, to_name = self.parent(more)
            it.rename(parent, name, to_name, to_parent)
        return None

    def note(self, change, node):
        """Takes a change that was made."""
        kind, path, more = change
        if kind in ("make", "mkdir"):
            self.nodes[path] = node
            self.has[path] = shown(b"") if kind == "make" else DIRECTORY
            self.sizes[path] = 0
        elif kind == "store":
            self.has[path] = shown(more)
            self.sizes[path] = len(more)
        else:
            held = self.has.pop(path), self.nodes.pop(path), self.sizes.pop(path)
            if kind == "rename":
                self.has[more], self.nodes[more], self.sizes[more] = held

    def needs_no_room(self, change):
        """Whether a change needs no room: it takes something away, or stores few bytes in place of more."""
        kind, path, more = change
        return kind in ("remove", "rmdir") or kind == "store" and len(more) <= min(FEW, self.sizes[path])

    def make(self, it, change):
        """Makes a change, or is told that the store can't keep it; whether it was made."""
        try:
            node = self.ask(it, change)
        except Refused as refused:
            if refused.status != IO:
                raise AssertionError(f"{change[:2]} is refused by {refused.status}") from refused
            return False
        self.note(change, node)
        return True


def tree_at(it, directory=peer.ROOT, front=b""):
    """All that a session finds in a directory."""
    found = {}
    for name in it.names(directory):
        node = it.look_up(directory, name)
        path = front + name
        if is_directory(it, node):
            found[path] = DIRECTORY
            found.update(tree_at(it, node, path + b"/"))
        else:
            found[path] = shown(it.content(node))
    return found


def is_directory(it, node):
    return it.attributes(node)[:4] == peer.u32(2)
