"""What clients were told, put together as a history: operations with their begins and ends, to which points are found.
`leasing` uses it, and `bench/leased` at length.

The rules are those of `crates/register_model/specs/Register.antt`; they are written here anew, for whoever has no program
that is made of them (`bench/legal --histories`).
"""
import bisect
import collections
import hashlib
import random
import threading

OPEN, CLOSE = "open", "close"
# between two ticks there is room for so many points of each file
ROOM = 1 << 20
# how many closes of which nobody was told are tried in all
TRIED_MOST = 100_000
NOBODY = "-"


def shown(content):
    """A content as outcomes tell it."""
    return f"{len(content)} {hashlib.sha1(content).hexdigest()}"


class Op:
    """An operation on a file. `value` is the content that an open got, or a close stores; `version` what a close was told."""

    def __init__(self, word, file, begin, value=None):
        self.word, self.file, self.begin, self.value = word, file, begin, value
        self.end = self.point = self.version = None
        self.outcome = "Running"

    def is_lost(self):
        return self.outcome == "Lost"

    def is_untold(self):
        return self.outcome in ("Lost", "Running")

    def is_done(self):
        return self.outcome == {OPEN: "Opened", CLOSE: "Closed"}[self.word]

    def reaches(self, point):
        """Whether it may have a point that lies behind its begin: a lost one may have it after its end."""
        return self.end is None or self.is_lost() or point <= self.end

    def line(self):
        """The line that `bench/legal --histories` reads."""
        end, point = (NOBODY if it is None else it for it in (self.end, self.point))
        return f"{self.word} {self.file} {self.begin} {end} {point} {self.outcome} {one_word(self.value)}"


def one_word(value):
    return NOBODY if value is None else value.replace(" ", "_")


class History:
    """Operations, as they begin and end. Moments are ticks, which no two have in common."""

    def __init__(self, files):
        """`files` are the files that are there at first, with their contents as they are shown."""
        self.files, self.last = dict(files), {}
        self.step = len(self.files) + 1
        self.ops, self.ticks, self.lock = [], 0, threading.Lock()

    def tick(self):
        self.ticks += 1
        return self.ticks * ROOM * self.step

    def begun(self, word, file, value=None):
        with self.lock:
            op = Op(word, file, self.tick(), value)
            self.ops.append(op)
            return op

    def ended(self, op, outcome, value=None, version=None):
        with self.lock:
            op.end, op.outcome, op.version = self.tick(), outcome, version
            if value is not None:
                op.value = value

    def place(self):
        """Gives each operation its point, or says why none can be had. `last` has the version that each file had at the end."""
        for at, (file, first) in enumerate(self.files.items(), 1):
            Places([op for op in self.ops if op.file == file], first, self.last[file], at, self.step).find()

    def lines(self):
        return [f"file {file} {one_word(content)}" for file, content in self.files.items()] + [op.line() for op in self.ops]


class Places:
    """Finds the points of the operations on one file: of the closes by their versions, and of each open behind the close whose
    content it got. Each has the first point that it may have, so where one of these is too late no other would do. A close
    that nobody was told of was made in a version that nobody was told, or never: each that fits is tried whose content an open
    got, and of the others the one that began first, since whatever fits later fits in the place of another one too."""

    def __init__(self, ops, first, last, at, step):
        self.first, self.last, self.at, self.step = first, last, at, step
        self.told = {op.version: op for op in ops if op.word == CLOSE and op.is_done()}
        self.lost = [op for op in ops if op.word == CLOSE and op.is_untold()]
        self.opens, self.tried = {}, 0
        for op in ops:
            if op.word == OPEN and op.is_done():
                self.opens.setdefault(op.value, []).append(op)

    def behind(self, moment):
        """The first point of this file behind a moment."""
        return moment // self.step * self.step + self.step + self.at

    def find(self):
        known = {self.first} | {op.value for op in [*self.told.values(), *self.lost]}
        for value in self.opens.keys() - known:
            raise AssertionError(f"an open got '{value}', which nobody stored")
        after = self.opened(self.first, 0)
        if after is None or not self.search(2, after, set()):
            raise AssertionError("there is no order: an open got what its file wasn't while it ran, or closes cross")

    def opened(self, value, point):
        """Where the opens of a content have their points, that is the file's from this point on; the last of them. None where
        one of them had ended by then."""
        last = point
        for op in self.opens.get(value, ()):
            op.point = self.behind(max(point, op.begin))
            if not op.reaches(op.point):
                return None
            last = max(last, op.point)
        return last

    def made(self, op, after):
        """Gives a close its point behind another one; the last point that is there then, or None."""
        op.point = self.behind(max(after, op.begin))
        return self.opened(op.value, op.point) if op.reaches(op.point) else None

    def is_past(self, value, point):
        """Whether an open of a content has ended before it can have a point behind this one."""
        return any(not op.reaches(self.behind(max(point, op.begin))) for op in self.opens[value])

    def search(self, version, after, used):
        while version <= self.last and version in self.told:
            after = self.made(self.told[version], after)
            if after is None:
                return False
            version += 1
        left = [op for op in self.lost if op not in used]
        if version > self.last:
            for op in left:
                op.point = None
            return not any(op.value in self.opens for op in left)
        got = [op for op in left if op.value in self.opens]
        if any(self.is_past(op.value, after) for op in got):
            return False
        others = [op for op in left if op.value not in self.opens]
        for op in got + sorted(others, key=lambda op: op.begin)[:1]:
            self.tried += 1
            if self.tried > TRIED_MOST:
                raise AssertionError("no order was found, though many were tried")
            next_after = self.made(op, after)
            if next_after is not None and self.search(version + 1, next_after, used | {op}):
                return True
        return False


# ---- the six facts


def faults(history):
    """What of a history isn't legal."""
    changes, points = {}, collections.Counter(op.point for op in history.ops)
    for op in history.ops:
        if op.word == CLOSE and op.point is not None:
            changes.setdefault(op.file, []).append((op.point, op.value))
            if points[op.point] > 1:
                yield f"another operation has the point {op.point} of a change"
    for file in changes.values():
        file.sort()
    for op in history.ops:
        if op.point is not None and not (op.begin <= op.point and op.reaches(op.point)):
            yield f"the point {op.point} isn't within its operation"
        if op.word == OPEN and op.is_done() and (op.point is None or value_at(history, changes, op) != op.value):
            yield f"an open got '{op.value}', which its file wasn't at its point {op.point}"
        if op.word == CLOSE and op.is_done() and op.point is None:
            yield "a close that succeeded has no point"
        if op.word == CLOSE and not op.is_done() and not op.is_untold() and op.point is not None:
            yield "a close that was refused has a point"


def value_at(history, changes, op):
    """What the file of an open was at its point."""
    made = changes.get(op.file, [])
    at = bisect.bisect_left(made, (op.point,))
    return made[at - 1][1] if at else history.files[op.file]


def spoilt(history, seed):
    """Spoils a placed history in one of several ways, and says how; what is answered too mends it again."""
    chance = random.Random(seed)
    word, way = (CLOSE, OPEN)[seed % 2], seed // 2 % 3
    op = chance.choice([op for op in history.ops if op.word == word and op.is_done()])
    kept = op.point, op.value, op.outcome

    def mend():
        op.point, op.value, op.outcome = kept

    if way == 0:
        op.point = None
    elif way == 1:
        op.point = op.begin - 1
    elif word == OPEN:
        op.value = shown(b"what nobody stored")
    else:
        op.outcome = "Refused"
    return f"in way {way} by a point, a content or an outcome of its operation {word}", mend
