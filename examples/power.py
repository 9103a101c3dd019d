"""What a run of a server did to its folder, by `strace`, and what a cut of power at any point of it may leave: of
the writes and the names that were not flushed by then any part. `storing` uses it."""
import os
import re
import struct
import subprocess

CALLS = "openat,open,creat,close,dup,dup2,dup3,fcntl,lseek,write,writev,pwrite64,pwritev,ftruncate,fallocate"
CALLS += ",link,linkat,rename,renameat,renameat2,unlink,unlinkat,fsync,fdatasync,syncfs,sendto,sendmsg,accept,accept4,mkdir"
LINE = re.compile(r"^(\d+) +(.*)$")
RESUMED = re.compile(r"^<\.\.\. (\w+) resumed>(.*)$")
CALL = re.compile(r"^(\w+)\((.*)\) += (-?\d+|\?)", re.S)
STRING = re.compile(r'"((?:\\x[0-9a-f]{2})*)"(\.\.\.)?')
SECTOR = 512
FLUSHES = ("fsync", "fdatasync")
SENDS = ("write", "writev", "sendto", "sendmsg")


def under(path, slow=0):
    """The command under which a server is run, so that its calls come into a file; each flush of a file takes so many
    microseconds more."""
    more = ["-e", f"inject=fdatasync:delay_exit={slow}"] if slow else []
    return ["strace", "-f", "-qq", "-xx", "-s", "100000000", "-e", f"trace={CALLS}", "-e", "signal=none", *more, "-o", path]


def can_trace():
    try:
        ran = subprocess.run(["strace", "-qq", "-o", "/dev/null", "true"], capture_output=True, check=False)
    except OSError:
        return False
    return ran.returncode == 0


def unescaped(text):
    return bytes.fromhex(text.replace("\\x", ""))


def strings(text):
    """The strings among a call's arguments."""
    return [unescaped(it[1]) for it in STRING.finditer(text)]


def calls(path):
    """The calls of a trace: the line at which each began and ended, its name, its arguments, and what it answered."""
    begun = {}
    with open(path, encoding="ascii") as lines:
        for at, line in enumerate(lines):
            thread, text = LINE.match(line.rstrip("\n")).groups()
            first = at
            if text.endswith("<unfinished ...>"):
                begun[thread] = at, text[: -len("<unfinished ...>")].rstrip()
                continue
            again = RESUMED.match(text)
            if again:
                first, front = begun.pop(thread)
                text = front + again[2].lstrip()
            call = CALL.match(text)
            if call and call[3] != "?":
                yield first, at, call[1], call[2], int(call[3])


def reads(path, front):
    """Of each file whose path begins so, by the rest of it, what a trace that has paths (`-y`) reads: how many bytes, and by
    how many threads; and how many threads read them all."""
    with open(path, encoding="ascii") as lines:
        threads = [LINE.match(line)[1] for line in lines]
    came, readers = {}, {}
    for first, _last, call, words, count in calls(path):
        found = re.match(rf"\d+<{re.escape(front)}(\w+)>", words)
        if call == "read" and found:
            came[found[1]] = came.get(found[1], 0) + count
            readers.setdefault(found[1], set()).add(threads[first])
    return {name: (came[name], len(readers[name])) for name in came}, len(set().union(*readers.values()))


class Call:
    """A call of a trace: its name, its words with what stands in quotes apart, and what it answered."""

    def __init__(self, name, text, answer):
        self.name, self.strings, self.answer = name, strings(text), answer
        self.words = STRING.sub('""', text)
        front = re.match(r"\d+", text)
        self.fd = int(front[0]) if front else None

    def numbers(self):
        return [int(it) for it in re.findall(r"(?:^|, )(-?\d+)(?=,|$)", self.words)]

    def given(self):
        """What it wrote."""
        return b"".join(self.strings)[: self.answer]


class Inode:
    """A file's bytes: those that are on the disk, and what was done to them since."""

    def __init__(self):
        self.sure, self.pending, self.flushed = b"", [], 0

    def do(self, step):
        self.pending.append(step)

    def done(self):
        """How many steps there were."""
        return self.flushed + len(self.pending)

    def flush(self, done):
        """The first steps, as many as these, are on the disk."""
        count = max(0, done - self.flushed)
        held = bytearray(self.sure)
        for step in self.pending[:count]:
            apply(held, step, range(0, 0), whole=True)
        self.sure, self.pending, self.flushed = bytes(held), self.pending[count:], self.flushed + count


def apply(held, step, sectors, whole=False):
    """Carries out a write or a cut; of a write those sectors alone, unless it is whole."""
    kind, at, given = step
    if kind == "cut":
        del held[at:]
        held.extend(bytes(at - len(held)))
        return
    for sector in [None] if whole else sectors:
        low, high = (at, at + len(given)) if whole else (max(at, sector * SECTOR), min(at + len(given), (sector + 1) * SECTOR))
        if len(held) < high:
            held.extend(bytes(high - len(held)))
        held[low:high] = given[low - at : high - at]


class Trace:
    """A folder, as a trace leads it on, call by call. Of the files that are there before nothing is flushed."""

    def __init__(self, folder, before):
        self.folder = os.fsencode(folder)
        self.open, self.names, self.sure_names, self.pending_names = {}, {}, {}, []
        self.flushed_names = 0
        for name, given in before.items():
            self.set_name(("set", name, Inode()))
            self.names[name].do(("write", 0, given))
        # of a descriptor of a connection its number, and what was sent on each
        self.connections, self.sent = {}, []

    # ---- descriptors

    def name_of(self, path):
        """The name of a file of the folder, or nothing."""
        front, _, name = path.rpartition(b"/")
        return name if front == self.folder else None

    def opened(self, call):
        path, fd = call.strings[0], call.answer
        name = self.name_of(path)
        if path.rstrip(b"/") == self.folder:
            self.open[fd] = "folder"
        elif name is None:
            self.open.pop(fd, None)
        else:
            if name not in self.names:
                self.set_name(("set", name, Inode()))
            inode = self.names[name]
            if "O_TRUNC" in call.words:
                inode.do(("cut", 0, b""))
            # what the reserve has is no matter, and much
            self.open[fd] = "reserve" if name.startswith(b"reserve") else [inode, 0]

    def set_name(self, step):
        self.pending_names.append(step)
        rename(self.names, step)

    # ---- steps

    def take(self, call):
        """A call that was done. Whether it changed what a cut may leave."""
        fd, name, answer = call.fd, call.name, call.answer
        if name in ("openat", "open", "creat"):
            if answer >= 0:
                self.opened(call)
                return "O_CREAT" in call.words
        elif answer < 0:
            return False
        elif name == "close":
            self.open.pop(fd, None)
            self.connections.pop(fd, None)
        elif name in ("dup", "dup2", "dup3") or name == "fcntl" and "F_DUPFD" in call.words:
            for held in (self.open, self.connections):
                if fd in held:
                    held[answer] = held[fd]
        elif name in ("accept", "accept4"):
            self.connections[answer] = len(self.sent)
            self.sent.append(bytearray())
        elif name in ("rename", "renameat", "renameat2"):
            old, new = (self.name_of(it) for it in call.strings[:2])
            self.set_name(("move", old, new, self.names[old]))
            return True
        elif name in ("link", "linkat"):
            old, new = (self.name_of(it) for it in call.strings[:2])
            self.set_name(("set", new, self.names[old]))
            return True
        elif name in ("unlink", "unlinkat"):
            gone = self.name_of(call.strings[0])
            if gone is not None:
                self.set_name(("drop", gone))
                return True
        elif isinstance(self.open.get(fd), list):
            return self.on_file(self.open[fd], call)
        return False

    @staticmethod
    def on_file(held, call):
        inode = held[0]
        if call.name in ("write", "writev"):
            inode.do(("write", held[1], call.given()))
            held[1] += call.answer
        elif call.name in ("pwrite64", "pwritev"):
            inode.do(("write", call.numbers()[-1], call.given()))
        elif call.name == "ftruncate":
            inode.do(("cut", call.numbers()[-1], b""))
        elif call.name == "lseek":
            held[1] = call.answer
            return False
        else:
            return False
        return True

    def flushed(self, fd, marks):
        """A flush that went through; of what was done before it began all is on the disk."""
        held = self.open.get(fd)
        if held == "folder":
            count = max(0, marks[0] - self.flushed_names)
            for step in self.pending_names[:count]:
                rename(self.sure_names, step)
            self.pending_names, self.flushed_names = self.pending_names[count:], self.flushed_names + count
        elif isinstance(held, list):
            held[0].flush(marks[1])

    def marks(self, fd):
        """How much was done by now, for a flush that begins."""
        held = self.open.get(fd)
        return self.flushed_names + len(self.pending_names), held[0].done() if isinstance(held, list) else 0

    def sends(self, call):
        """Something is sent on a connection: an answer counts as told as soon as it begins to leave."""
        if call.fd in self.connections:
            self.sent[self.connections[call.fd]].extend(b"".join(call.strings))

    def told(self):
        """Of each connection the xids that were answered."""
        return [set(answered(bytes(given))) for given in self.sent]


def rename(names, step):
    """Carries out a step on names."""
    if step[0] == "set":
        names[step[1]] = step[2]
    elif step[0] == "move":
        if names.get(step[1]) is step[3]:
            del names[step[1]]
        names[step[2]] = step[3]
    else:
        names.pop(step[1], None)


def left(trace, chance, way):
    """What a cut leaves now: of what wasn't flushed nothing, all, or any part."""
    share = {"nothing": 0, "all": 1, "names": 0, "bytes": 1, "cuts": 0}.get(way, 0.5)
    names = dict(trace.sure_names)
    for step in trace.pending_names:
        if chance.random() < {"names": 1, "bytes": 0}.get(way, share):
            rename(names, step)
    return {name: bytes_left(inode, chance, share, way == "cuts") for name, inode in names.items()}


def bytes_left(inode, chance, share, is_cut):
    """What is left of a file's bytes; where it is cut each shortening is done, whatever else is."""
    if not inode.pending:
        return inode.sure
    held = bytearray(inode.sure)
    for step in inode.pending:
        if is_cut and step[0] == "cut" or chance.random() < share:
            torn = 0 < share < 1 and step[0] == "write" and chance.random() < 0.5
            low, high = step[1] // SECTOR, (step[1] + len(step[2]) + SECTOR - 1) // SECTOR
            apply(held, step, [it for it in range(low, high) if chance.random() < 0.5], whole=not torn)
    return bytes(held)


WAYS = ["nothing", "all", "names", "bytes"]


def answered(given):
    """The xids of the answers in what was sent on a connection."""
    at = 0
    while at + 8 <= len(given):
        head, xid = struct.unpack(">II", given[at : at + 8])
        yield xid
        at += 4 + (head & 0x7FFFFFFF)


def events(path):
    """The beginnings and the ends of a trace's calls, in order."""
    all_of = []
    for first, last, name, text, answer in calls(path):
        call = Call(name, text, answer)
        all_of += [(first, 0, call), (last, 1, call)]
    return sorted(all_of, key=lambda it: it[:2])


def is_shortened(trace):
    """Whether a cut may leave the log shorter than it was, or as it was."""
    return b"log" in trace.names and any(step[0] == "cut" for step in trace.names[b"log"].pending)


def steps(all_of, folder, before=None, wanted=lambda trace: True):
    """A trace, by its events, at each point at which something changed, and which is wanted."""
    trace, begun = Trace(folder, before or {}), {}
    for _, is_end, call in all_of:
        if not is_end and call.name in FLUSHES:
            begun.setdefault((call.name, call.fd), []).append(trace.marks(call.fd))
        elif not is_end and call.name in SENDS:
            trace.sends(call)
        elif is_end and call.name in FLUSHES:
            marks = begun[call.name, call.fd].pop(0)
            if call.answer == 0:
                trace.flushed(call.fd, marks)
        elif is_end and trace.take(call) and wanted(trace):
            yield trace


def folders(trace, samples, chance):
    """What a cut may leave now: in each of the fixed ways, and then so many folders of any part."""
    fixed = [*WAYS, *(["cuts"] if is_shortened(trace) else [])]
    return [left(trace, chance, way) for way in fixed], [left(trace, chance, "any") for _ in range(samples)]
