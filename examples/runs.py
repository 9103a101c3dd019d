"""Runs of the program on loopback: a server of a folder, a mount, and the tests of `serving` and `mounting`."""
import argparse
import os
import queue
import select
import shutil
import signal
import socket
import subprocess
import tempfile
import threading
import time
import traceback

from beside import Beside
from peer import PATIENCE, Peer

TOP = os.path.dirname(os.path.dirname(os.path.abspath(__file__)))
PROGRAM = None


def free_port():
    """A port that is free now."""
    with socket.socket() as it:
        it.bind(("127.0.0.1", 0))
        return it.getsockname()[1]


def held_port():
    """A socket on a port that is free, and that is told to nobody else until the socket is closed. A server may listen there all
    the same, since both say that an address may be used again."""
    held = socket.socket()
    held.setsockopt(socket.SOL_SOCKET, socket.SO_REUSEADDR, 1)
    held.bind(("127.0.0.1", 0))
    return held


def listens(port):
    """Whether a port of this host is listened on. The kernel is asked: a connection would be a session."""
    with open("/proc/net/tcp") as it:
        rows = [line.split() for line in it]
    return any(row[1].endswith(f":{port:04X}") and row[3] == "0A" for row in rows[1:])


def quiet_line(folder, term):
    """What a server says once it listens, of a store in which anything was ever changed."""
    return f"lbfs: {folder}: for the first {term} ms, puts, removals of files and renames over them wait (leases of the run before)"


def heed_signals():
    """What a program is started with: it ends by the signals of a terminal, though they be ignored here, as they are in
    the background of a shell, and under nohup."""
    for number in (signal.SIGINT, signal.SIGQUIT, signal.SIGHUP):
        signal.signal(number, signal.SIG_DFL)


class Run:
    """A run of the program, which is killed at the end where it hasn't ended."""

    def __init__(self, words, under=(), **how):
        """With `under` it is run by that command."""
        self.errors = tempfile.TemporaryFile()
        self.process = subprocess.Popen(
            [*under, PROGRAM, *map(str, words)],
            stdout=subprocess.PIPE,
            stderr=self.errors,
            start_new_session=True,
            preexec_fn=heed_signals,
            **how,
        )

    def __enter__(self):
        return self

    def __exit__(self, *_):
        self.kill()

    def kill(self):
        if self.process.poll() is None:
            os.killpg(self.process.pid, signal.SIGKILL)
        self.process.wait()

    def worked(self):
        """Processor seconds that it has had."""
        with open(f"/proc/{self.process.pid}/stat") as it:
            fields = it.read().rpartition(")")[2].split()
        return (int(fields[11]) + int(fields[12])) / os.sysconf("SC_CLK_TCK")

    def read_bytes(self):
        """How many bytes it has read, of files and streams."""
        with open(f"/proc/{self.process.pid}/io") as it:
            return next(int(line.split()[1]) for line in it if line.startswith("rchar:"))

    def told(self, word):
        """What the kernel tells of it by this word."""
        with open(f"/proc/{self.process.pid}/status") as it:
            return next(int(line.split()[1]) for line in it if line.startswith(f"{word}:"))

    def said(self):
        """The lines that it wrote on standard error so far."""
        return os.pread(self.errors.fileno(), 1 << 20, 0).decode().splitlines()

    def says(self, lines):
        """What it wrote there once it has so many lines, or has ended; a server's port is had before it says so."""
        until = time.monotonic() + PATIENCE
        while len(self.said()) < lines and self.process.poll() is None and time.monotonic() < until:
            time.sleep(0.005)
        return self.said()


class Server(Run):
    """A server of a folder, for so many sessions, which listens or has ended. A lease lasts one millisecond where nothing
    else is said, so that no test waits for one that ended with its session."""

    def __init__(self, folder, sessions=1_000_000, port=None, under=(), more=(), term=1):
        with held_port() as held:
            self.port = port or held.getsockname()[1]
            words = ["serve", "--port", self.port, "--term", term, "--sessions", sessions, "--store", folder, *more]
            self.under = under
            super().__init__(words, under, stdin=subprocess.DEVNULL)
            until = time.monotonic() + PATIENCE
            while not listens(self.port) and self.process.poll() is None and time.monotonic() < until:
                time.sleep(0.005)

    def kill(self):
        """One that another command runs goes a moment behind that one, and holds its store until then."""
        super().kill()
        until = time.monotonic() + PATIENCE
        while self.under and listens(self.port) and time.monotonic() < until:
            time.sleep(0.005)

    def session(self, **how):
        return Peer(self.port, **how)

    def memory(self):
        """How many bytes of memory it holds."""
        return 1024 * self.told("VmRSS")

    def threads(self):
        return self.told("Threads")

    def sockets(self):
        """How many sockets it has open; beside them it has files of its store."""
        found, folder = 0, f"/proc/{self.process.pid}/fd"
        for it in os.listdir(folder):
            try:
                found += os.readlink(f"{folder}/{it}").startswith("socket:")
            except FileNotFoundError:
                pass
        return found

    def sleeps(self):
        """How often each of its threads went to sleep."""
        found, folder = {}, f"/proc/{self.process.pid}/task"
        for thread in os.listdir(folder):
            with open(f"{folder}/{thread}/status") as it:
                found[thread] = next(line.split()[1] for line in it if line.startswith("voluntary_ctxt_switches"))
        return found

    def ended(self):
        """What it wrote, once it has ended of itself, and its status."""
        written, _ = self.process.communicate(timeout=PATIENCE)
        return written.decode(), self.process.returncode


class Mount(Run):
    """A mount in a folder, which is given its lines one by one."""

    def __init__(self, port, folder, *options, under=()):
        words = ["mount", "--port", port, "--drift", 100, *options]
        super().__init__(words, under, stdin=subprocess.PIPE, cwd=folder)
        self.lines = queue.Queue()
        threading.Thread(target=self.read, daemon=True).start()

    def read(self):
        for line in self.process.stdout:
            self.lines.put(line.decode().rstrip("\n"))
        self.lines.put(None)

    def give(self, line):
        self.process.stdin.write(f"{line}\n".encode())
        self.process.stdin.flush()

    def line(self):
        """The next line that it writes."""
        return self.lines.get(timeout=PATIENCE)

    def say(self, line):
        """The line that is written for a line, before the next is given."""
        self.give(line)
        return self.line()

    def ended(self):
        """What more it wrote, once its input has ended, and its status."""
        self.process.stdin.close()
        rest = list(iter(lambda: self.lines.get(timeout=PATIENCE), None))
        return rest, self.process.wait(PATIENCE)


class Relay:
    """A relay before a server, which counts what goes over it."""

    def __init__(self, to):
        self.port = free_port()
        words = [f"{TOP}/examples/relay", str(self.port), str(to)]
        self.process = subprocess.Popen(words, stdin=subprocess.DEVNULL, stdout=subprocess.PIPE, stderr=subprocess.PIPE)

    def __enter__(self):
        self.line_of(self.process.stderr)
        return self

    def __exit__(self, *_):
        self.process.kill()
        self.process.wait()

    @staticmethod
    def line_of(stream):
        """The next line; the first on standard error says that the relay listens."""
        if not select.select([stream], [], [], PATIENCE)[0]:
            raise AssertionError("the relay says nothing")
        return stream.readline()

    def counts(self):
        """How many bytes went up and down the connection that ended next."""
        words = self.line_of(self.process.stdout).split()
        return int(words[1]), int(words[3])


class Folder:
    """An empty folder, which is gone at the end."""

    def __enter__(self):
        self.path = tempfile.mkdtemp(prefix="lbfs-examples-")
        return self.path

    def __exit__(self, *_):
        shutil.rmtree(self.path, ignore_errors=True)


def served(test):
    """A test that is given a server of an empty folder."""

    def run():
        with Folder() as folder, Server(folder) as server:
            test(server)

    run.__name__ = test.__name__
    return run


class Skipped(Exception):
    """What a test needs can't be had on this machine."""


def same(got, wanted, what):
    if got != wanted:
        raise AssertionError(f"{what}: {str(got)[:200]}, and {str(wanted)[:200]} was wanted")


def has_loopback():
    try:
        free_port()
        return True
    except OSError:
        return False


def reason_to_skip():
    if not PROGRAM:
        return "no program is built for the sources as they are"
    if not has_loopback():
        return "this machine has no loopback"
    return None


def outcome(test):
    """What came of a test: `passed`, `failed` with its traceback, or `skipped` with the reason."""
    try:
        test()
    except Skipped as reason:
        return "skipped", str(reason)
    except Exception:  # whatever it is, the others are looked at too
        return "failed", traceback.format_exc()
    return "passed", ""


def outcomes(tests, beside):
    """The tests, each with what came of it: first those one after the other, and then those that ran beside them from the
    beginning, each in a process of its own."""
    with Beside([lambda test=test: outcome(test) for test in beside]) as works:
        for test in tests:
            yield test, outcome(test)
        yield from zip(beside, works.all())


def main(name, about, tests, options=(), beside=()):
    """Runs the tests that the words ask for, and answers the status."""
    global PROGRAM
    words = argparse.ArgumentParser(description=about, formatter_class=argparse.RawDescriptionHelpFormatter)
    words.add_argument("--program")
    words.add_argument("words", nargs="*")
    for option, take in options:
        words.add_argument(option, type=take)
    given = words.parse_args()
    found = subprocess.run([f"{TOP}/release/program"], stdout=subprocess.PIPE).stdout.decode().strip()
    PROGRAM = os.path.abspath(given.program or found) if given.program or found else None
    counts = {"passed": 0, "failed": 0, "skipped": 0}
    skipped = reason_to_skip()
    if skipped:
        print(f"examples/{name}: skipped, since {skipped}")

    def asked(of):
        return [it for it in of if not skipped and (not given.words or any(word in it.__name__ for word in given.words))]

    for test, (kind, why) in outcomes(asked(tests), asked(beside)):
        counts[kind] += 1
        if kind == "skipped":
            print(f"examples/{name}: skipped {test.__name__}, since {why}")
        elif kind == "failed":
            print(f"{test.__name__}:\n{why}")
    print(f"{counts['passed']} passed, {counts['failed']} failed")
    return 1 if counts["failed"] else 0
