"""Sessions that change a tree under `strace`, and the folders that a cut of power may leave of it. `storing` uses it."""
import os
import random
import shutil
import socket
import subprocess
import tempfile
from concurrent.futures import ThreadPoolExecutor

import peer
import power
import runs
from beside import Beside
from changes import Tree
from disks import memory
from records import tree_in
from runs import Server, Skipped, same

# so many points after one another are looked at by one process, which sees the folders that come again
RUN = 8


def check(folder):
    """What `lbfs check` says of a folder, and its status."""
    words = [runs.PROGRAM, "check", "--store", folder]
    ran = subprocess.run(words, stdout=subprocess.PIPE, stderr=subprocess.PIPE, timeout=peer.PATIENCE)
    return (ran.stdout + ran.stderr).decode(), ran.returncode


def is_whole(folder, tree=None):
    """What `check` says of a folder is that it is whole, and, where a tree is told, what that has."""
    said, status = check(folder)
    if status != 0 or not said.startswith("whole "):
        raise AssertionError(f"check says '{said.strip()[:300]}', with status {status}")
    if tree:
        size = sum(tree.sizes.values())
        same(said, f"whole files {len(tree.files())} directories {len(tree.directories())} bytes {size}\n", "what check says")


class Session:
    """A session that makes random changes in a directory of its own, one after the other."""

    def __init__(self, server, number):
        self.peer, self.name = server.session(), b"own%d" % number
        node = self.peer.make_directory(peer.ROOT, self.name)
        self.tree = Tree(random.Random(100 + number), node)
        # the xid of each change's answer, and the tree behind it
        self.xids, self.trees = [], [self.tree.snapshot()]
        self.first = self.peer.xid

    def step(self, sizes):
        self.make(self.tree.pick(sizes))

    def make(self, change):
        if not self.tree.make(self.peer, change):
            raise AssertionError(f"{change[:2]} is refused")
        self.xids.append(self.peer.xid)
        self.trees.append(self.tree.snapshot())

    def told(self, xids):
        """How many changes were told, where these xids were answered; none where its directory wasn't."""
        if self.first not in xids:
            return None
        return next((at for at, xid in enumerate(self.xids) if xid not in xids), len(self.xids))

    def allows(self, tree, xids):
        """Whether a tree has what was told, and at most all of the next change."""
        own = {path[len(self.name) + 1 :]: it for path, it in tree.items() if path.startswith(self.name + b"/")}
        told = self.told(xids)
        if told is None:
            return own == {}
        return self.name in tree and own in self.trees[told : told + 2]


def take_turns(sessions, changes):
    """Sessions change a tree one after the other, whichever comes."""
    sizes = [0, 900, 5000, 33_000, 50_000, 70_000]
    chance = random.Random(15)
    for _ in range(changes):
        chance.choice(sessions).step(sizes)


def at_once(sessions, changes):
    """Sessions change a tree beside each other."""

    def change(it):
        for _ in range(changes // len(sessions)):
            it.step([0, 900, 5000])

    with ThreadPoolExecutor(len(sessions)) as pool:
        list(pool.map(change, sessions))


def write_over(sessions, changes):
    """Sessions store contents that find room in the log alone, over and over."""
    for it in sessions:
        it.make(("make", b"f0", None))
    for at in range(changes):
        it = sessions[at % len(sessions)]
        it.make(("store", b"f0", it.tree.chance.randbytes(30_000)))


def traced(folder, trace, change, changes, slow=0):
    """Runs a server under `strace` while three sessions change its tree."""
    with Server(folder, sessions=3, under=power.under(trace, slow)) as server:
        sessions = [Session(server, number) for number in range(3)]
        change(sessions, changes)
        for it in sessions:
            it.peer.close()
        same(server.ended()[1], 0, "the status of the traced server")
    return sessions


def put_folder(at, files):
    shutil.rmtree(at, ignore_errors=True)
    os.mkdir(at)
    for name, given in files.items():
        with open(os.path.join(os.fsencode(at), name), "wb") as it:
            it.write(given)


def serves(at):
    """A server of a folder loads it, answers, and ends in order."""
    with Server(at, sessions=1) as server:
        if server.process.poll() is None:
            it = server.session()
            it.null()
            it.close()
        said = server.ended()
        if said[1] != 0:
            raise AssertionError(f"a server of it writes '{said[0].strip()}' and says {server.said()[:3]}")


class Starts:
    """Starts of servers that load a folder, and then end in order, since their port is in use. It leaves what a server with
    sessions leaves, but for the term, and is quicker by far."""

    def __enter__(self):
        self.listener = socket.create_server(("127.0.0.1", 0))
        self.port = self.listener.getsockname()[1]
        return self

    def __exit__(self, *_):
        self.listener.close()

    def loads(self, at):
        words = [runs.PROGRAM, "serve", "--port", str(self.port), "--term", "1", "--sessions", "1", "--store", at]
        ran = subprocess.run(words, stdin=subprocess.DEVNULL, capture_output=True, timeout=peer.PATIENCE)
        said = ran.stderr.decode()
        if ran.returncode != 7 or "can't listen there" not in said:
            raise AssertionError(f"a start ends with status {ran.returncode}, and says '{said.strip()[:300]}'")


class Cuts:
    """Folders that a cut of power may leave at the points of a trace."""

    def __enter__(self):
        if not power.can_trace():
            raise Skipped("strace can't be had")
        self.top = tempfile.mkdtemp(prefix="lbfs-examples-", dir=memory())
        self.trace, self.left, self.seen = f"{self.top}/trace", f"{self.top}/left", {}
        self.starts = Starts().__enter__()
        return self

    def __exit__(self, kind, *_):
        self.starts.__exit__()
        if kind is AssertionError and "KEEP" in os.environ:
            shutil.copytree(self.top, os.environ["KEEP"], dirs_exist_ok=True)
        shutil.rmtree(self.top, ignore_errors=True)

    def store(self):
        os.mkdir(f"{self.top}/store")
        return f"{self.top}/store"

    def tree(self, files, is_fixed):
        """The tree that a server of these files loads and leaves, each looked at once whatever is there of the reserve. What is
        left in a fixed way is served too."""
        key = hash(tuple(sorted(it for it in files.items() if not it[0].startswith(b"reserve"))))
        found, was_served = self.seen.get(key, (None, False))
        if found is None or is_fixed and not was_served:
            put_folder(self.left, files)
            is_whole(self.left)
            (serves if is_fixed else self.starts.loads)(self.left)
            # a start that can't listen looks at no term
            found = tree_in(self.left, () if is_fixed else (".term~",))
            self.seen[key] = found, is_fixed
        return found

    def part(self, number, parts, points, judge, samples, seed):
        """Looks at a part of the points; how many folders there were."""
        count, self.left = 0, f"{self.left}{number}"
        for at, trace in enumerate(points):
            if at // RUN % parts != number:
                continue
            told = trace.told()
            for is_fixed, all_of in zip((True, False), power.folders(trace, samples, random.Random(f"{seed} {at}"))):
                for files in all_of:
                    # the server's term is there as a whole or not at all, and once anything was told it is there
                    if files.get(b".term", b"" if any(told) else b"1\n") != b"1\n":
                        raise AssertionError(f"a cut leaves the term {files.get(b'.term')}")
                    judge(told, self.tree(files, is_fixed))
                    count += 1
        return count

    def look(self, folder, judge, samples, seed, least, **how):
        """At each point of the trace `judge` is asked of each folder, by what was told by then and by the tree that it loads as.
        There are those of the fixed ways, and so many of any part of what wasn't flushed."""
        all_of, parts = power.events(self.trace), len(os.sched_getaffinity(0))

        def work(number):
            return lambda: self.part(number, parts, power.steps(all_of, folder, **how), judge, samples, seed)

        with Beside([work(number) for number in range(parts)]) as works:
            count = sum(works.all())
        if count < least:
            raise AssertionError(f"{count} folders were looked at, and {least} at least were wanted")


def keeps(sessions):
    """Of a tree: it has what each session was told, and no half of what it asked for next."""

    def judge(told, tree):
        xids = told + [set()] * (len(sessions) - len(told))
        if not all(it.allows(tree, of) for it, of in zip(sessions, xids)):
            raise AssertionError(f"a cut after {[it.told(of) for it, of in zip(sessions, xids)]} changes leaves {sorted(tree)[:12]}")

    return judge
