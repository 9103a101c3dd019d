#!/usr/bin/env python3
"""Legality of histories by scans of the whole history, as its six facts read (`specs/Register.antt` of register_model).

    bench/vectors/histories.py               `legal` or `not legal` of each row `with` and `rounds` of crates/trials/data/histories
    bench/vectors/histories.py random COUNT  which of COUNT histories, counted from 1, are legal: those of the row `many`

Nothing here was taken from the crate but the sequence of numbers that the small histories are made from.
"""
import os
import sys

CHANGES = {"close", "make", "remove", "rename"}


class Op:
    """WORD FILE BEGIN END POINT OUTCOME VALUE, with - where there is none."""

    def __init__(self, line):
        self.word, file, begin, end, point, self.outcome, value = line.split(" ")
        self.file, self.begin = int(file), int(begin)
        self.end = None if end == "-" else int(end)
        self.point = None if point == "-" else int(point)
        self.value = "" if value == "-" else value

    def left(self):
        """What it leaves of its file, where it is a change that was made."""
        return {"close": self.value, "make": ""}.get(self.word)

    def changes(self):
        return self.word in CHANGES

    def succeeded(self):
        """It ended as a change that was made; a rename over no file has the id 0, and changed none."""
        if self.word == "rename" and self.file == 0:
            return False
        return self.outcome == ("Closed" if self.word == "close" else "Done") and self.changes()


def value_at(files, ops, file, moment):
    """What the file is at the moment, by the latest change before it; None where it is absent."""
    value, latest = files.get(file), -1
    for op in ops:
        if op.changes() and op.file == file and op.point is not None and latest < op.point < moment:
            latest, value = op.point, op.left()
    return value


def is_within(op):
    if op.point is None:
        return True
    is_late = op.outcome != "Lost" and op.end is not None and op.end < op.point
    return op.begin <= op.point and not is_late


def is_right(files, ops, op):
    """It keeps the facts that speak of it alone: within, opens, absences, successes and failures."""
    before = None if op.point is None else value_at(files, ops, op.file, op.point)
    has_point = op.point is not None
    right = is_within(op)
    if op.word == "open" and op.outcome == "Opened":
        right = right and has_point and before == op.value
    if op.word == "open" and op.outcome == "70":
        right = right and has_point and before is None
    if op.succeeded():
        right = right and has_point
    if op.changes() and has_point:
        right = right and (before is None) == (op.word == "make")
        right = right and (op.succeeded() or op.outcome in ("Lost", "Running"))
    return right


def is_legal(files, ops):
    """The fact of each, and that no other operation has the point of a change."""
    points = {}
    for op in ops:
        if op.point is not None:
            points.setdefault(op.point, []).append(op.changes())
    is_apart = all(len(those) == 1 or not any(those) for those in points.values())
    return is_apart and all(is_right(files, ops, op) for op in ops)


class Numbers:
    """A fixed sequence of numbers."""

    def __init__(self):
        self.state = 1

    def below(self, bound):
        self.state = (self.state * 6364136223846793005 + 1442695040888963407) % 2**64
        return (self.state >> 33) % bound

    def moment(self):
        return "---01234567"[self.below(11)]

    def op(self):
        """An operation on file 2 or 3, whose begin, end and point are any."""
        word = ["close", "make", "remove", "rename", "open"][self.below(5)]
        file, begin = self.below(2) + 2, self.below(4)
        end, point = self.moment(), self.moment()
        outcome = ["Opened", "Closed", "70", "Lost", "Running", "Done"][self.below(6)]
        return Op(f"{word} {file} {begin} {end} {point} {outcome} {'ab'[self.below(2)]}")


def rounds(count, last):
    """File 2 is closed and opened again, so many times; the last open got the content."""
    for at in range(1, count + 1):
        yield Op(f"close 2 {2 * at - 1} {2 * at - 1} {2 * at - 1} Closed b")
        yield Op(f"open 2 {2 * at} {2 * at} {2 * at} Opened {last if at == count else 'b'}")


def write_rows(path):
    files, ops = {}, []
    for line in open(path, encoding="utf-8").read().splitlines():
        kind, _, rest = line.partition(" ")
        words = rest.split(" ")
        if kind == "file":
            files[int(words[0])] = words[1]
        elif kind == "op":
            ops.append(rest)
        elif kind == "anew":
            ops = []
        elif kind in ("with", "rounds"):
            if kind == "with":
                number, _, instead = rest.partition(" ")
                looked_at = [Op(instead if at + 1 == int(number) else op) for at, op in enumerate(ops)]
            else:
                looked_at = list(rounds(int(words[0]), words[1]))
            print(f"{line} => {'legal' if is_legal(files, looked_at) else 'not legal'}")


def main():
    data = os.path.join(os.path.dirname(__file__), "../../crates/trials/data/histories")
    if sys.argv[1:2] == ["random"]:
        numbers, legal = Numbers(), []
        for at in range(1, int(sys.argv[2]) + 1):
            ops = [numbers.op() for _ in range(numbers.below(4) + 1)]
            if is_legal({2: "a", 4: "d"}, ops):
                legal.append(at)
        print(*legal)
    else:
        write_rows(data)


main()
