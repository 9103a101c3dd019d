"""Two mounts that edit files at random under leases, while others stop them, cut their links and kill them. `leasing` uses it,
and `bench/leased` at length.
"""
import os
import random
import signal
import threading
import time

import passing
import peer
import told
from runs import Folder, Mount, Server, same

FILES = (2, 3, 4)
# how long a lease lasts, in milliseconds
TERM = 400
# who disturbs waits for so many operations at most, and then for so many seconds
BETWEEN, PAUSE = 12, 0.02
# so many operations come together at least, however slow a machine is
LEAST = 60


class Gone(Exception):
    """The mount was killed."""


class Editor(threading.Thread):
    """Gives a mount commands at random until it is told to stop; where the mount is killed it begins another."""

    def __init__(self, name, server, history, chance, lies):
        super().__init__(daemon=True)
        self.server, self.history, self.chance, self.tag = server, history, chance, name
        self.relay = passing.Passing(server.port, lies=lies)
        self.host, self.open, self.made, self.lasts = Folder(), {}, 0, True
        self.failed = self.mount = None
        self.counts = {"at once": 0, "opened": 0, "closed": 0, "lost": 0, "killed": 0}

    def __enter__(self):
        self.folder = self.host.__enter__()
        self.relay.__enter__()
        self.mounted()
        self.start()
        return self

    def stop(self):
        """It begins nothing more."""
        self.lasts = False
        self.resume()

    def __exit__(self, *_):
        self.stop()
        self.join(peer.PATIENCE)
        self.mount.kill()
        self.relay.__exit__()
        self.host.__exit__()

    def mounted(self):
        self.mount, self.open = Mount(self.relay.port, self.folder), {}

    def resume(self):
        self.signal(signal.SIGCONT)

    def signal(self, number):
        try:
            os.kill(self.mount.process.pid, number)
        except ProcessLookupError:
            pass

    def run(self):
        try:
            while self.lasts:
                try:
                    self.act()
                except Gone:
                    self.counts["killed"] += 1
                    self.mount.kill()
                    self.mounted()
        except Exception as error:  # whatever it is, it fails the test
            self.failed = error

    def say(self, line):
        """The words that are written for a line."""
        try:
            self.mount.give(line)
        except (BrokenPipeError, ValueError) as error:
            raise Gone from error
        written = self.mount.line()
        if written is None:
            raise Gone
        if written in ("NoLink", "Lost"):
            self.join_again(written)
        return written.split()

    def join_again(self, written):
        self.counts["lost"] += written == "Lost"
        try:
            self.mount.give("join")
        except (BrokenPipeError, ValueError) as error:
            raise Gone from error
        if self.mount.line() not in ("Done", "NoLink", "Lost"):
            raise Gone

    def act(self):
        file = self.chance.choice(FILES)
        if file in self.open:
            self.chance.choice((self.close, self.close, self.abandon))(file)
        else:
            self.chance.choice((self.opens, self.opens, self.opens, self.get, self.put))(file)

    def op(self, word, file, line, value=None):
        """One operation of the history; its words."""
        op = self.history.begun(word, file, value)
        before = self.relay.bytes[passing.UP]
        words = self.say(line)
        is_at_once = self.relay.bytes[passing.UP] == before
        if words[0] == "Opened" or word == told.CLOSE and words[0] == "Closed":
            of = words[1:] if words[0] == "Opened" else words[2:]
            self.history.ended(op, words[0], " ".join(of), int(words[1]) if words[0] == "Closed" else None)
            self.counts[words[0].lower()] += 1
            self.counts["at once"] += is_at_once and words[0] == "Opened"
        else:
            self.history.ended(op, words[0])
        return words

    def opens(self, file):
        if self.op(told.OPEN, file, f"open #{file}")[0] == "Opened":
            self.open[file] = True

    def get(self, file):
        words = self.op(told.OPEN, file, f"get #{file} k")
        if words[0] == "Opened":
            with open(f"{self.folder}/k", "rb") as it:
                same(told.shown(it.read()), " ".join(words[1:]), "the file that was got")

    def unique(self):
        """A text that nobody stored so far."""
        self.made += 1
        return f"{self.tag}-{self.made}-"

    def put(self, file):
        content = self.unique().encode() + self.chance.randbytes(self.chance.randrange(40_000))
        with open(f"{self.folder}/h", "wb") as it:
            it.write(content)
        if self.op(told.CLOSE, file, f"put h #{file}", told.shown(content))[0] != "Closed":
            self.abandon(file)

    def close(self, file):
        """Writes at the front of the file, which makes its content one of its own, and closes it."""
        front = self.unique()
        if self.say(f"write #{file} 0 t:{front}")[0] != "Done":
            return
        words = self.say(f"trunc #{file} {len(front) + self.chance.randrange(20_000)}")
        whole = self.say(f"read #{file} 0 65536")
        same((words[0], whole[0]), ("Done", "Piece"), "how an edit ended")
        if self.op(told.CLOSE, file, f"close #{file}", " ".join(whole[1:]))[0] == "Closed":
            del self.open[file]

    def abandon(self, file):
        self.open.pop(file, None)
        self.say(f"abandon #{file}")


def disturb(editors, chance, seconds, deeds, term):
    """Stops mounts and lets them go on, cuts their links, and kills them: for so many seconds, and until enough came of it."""
    done = {"stopped": 0, "cut": 0, "killed": 0, "left alone": 0}
    began, few = time.monotonic(), lambda: came_of(editors) < LEAST
    while all(it.is_alive() for it in editors):
        passed = time.monotonic() - began
        if passed > seconds and (not few() or passed > peer.PATIENCE):
            break
        it, deed = chance.choice(editors), chance.choice(deeds)
        if deed == "stopped":
            it.signal(signal.SIGSTOP)
            time.sleep(chance.uniform(0, 2 * term / 1000))
            it.resume()
        elif deed == "cut":
            it.relay.cut()
        elif deed == "killed":
            it.signal(signal.SIGKILL)
        done[deed] += 1
        wanted, until = came_of(editors) + chance.randrange(1, BETWEEN), time.monotonic() + peer.PATIENCE
        while came_of(editors) < wanted and time.monotonic() < until and all(it.is_alive() for it in editors):
            time.sleep(0.002)
        time.sleep(chance.uniform(0, PAUSE))
    return done


def came_of(editors):
    """How many opens and closes succeeded so far."""
    return sum(it.counts["opened"] + it.counts["closed"] for it in editors)


def edited(seconds, seed, kills, term=TERM, say=None):
    """The history of two mounts' edits over so many seconds, with its points."""
    history, a, b, done = disturbed(seconds, seed, ["stopped", "cut", "killed"][: 2 + kills], term)
    history.place()
    counts = {word: a.counts[word] + b.counts[word] for word in a.counts}
    recalls = a.relay.counts[passing.is_recall] + b.relay.counts[passing.is_recall]
    if say:
        say(f"{len(history.ops)} operations; {counts}; {recalls} RECALLs; {done}")
    if not (counts["at once"] and counts["closed"] and recalls and done["cut"]):
        raise AssertionError(f"little came together: {counts}, {recalls} RECALLs, {done}")
    return history


def disturbed(seconds, seed, deeds, term, lies=False):
    """The history of such edits without its points, the editors, and how often each of the deeds was done."""
    chance = random.Random(seed)
    history = told.History({file: told.shown(b"") for file in FILES})
    with Folder() as folder, Server(folder, term=term) as server:
        maker = server.session()
        for file in FILES:
            same(maker.create(peer.ROOT, b"f%d" % file), file, "the id of a file")
        editors = [Editor(name, server, history, random.Random(f"{seed} {name}"), lies) for name in "ab"]
        with editors[0] as a, editors[1] as b:
            done = disturb(editors, chance, seconds, deeds, term)
            # (all have ended before the first is killed: its lease would hold up the others)
            for it in editors:
                it.stop()
            for it in editors:
                it.join(peer.PATIENCE)
        for it in (a, b):
            if it.failed or it.is_alive():
                raise AssertionError(f"a mount didn't go on: {it.failed or 'no answer'}") from it.failed
        look_at_the_end(maker, history)
    return history, a, b, done


def look_at_the_end(maker, history):
    """What each file is at the end, and in which version."""
    for file in FILES:
        op = history.begun(told.OPEN, file)
        history.ended(op, "Opened", told.shown(maker.content(file)))
        history.last[file] = maker.version(file)
