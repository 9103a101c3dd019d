#!/usr/bin/env python3
"""The rows of a generated trace that ends early, examples/prefixes.rows, made apart from the program:

    bench/vectors/prefix_rows.py > examples/prefixes.rows

Each trace is the first lines of one that is made from a seed (generated_rows.py), and its history is worked out by
replays.py.
"""
from generated_rows import row, trace
from replays import replay

HEADER = 4


def main():
    print("# Each beginning of whole lines of a generated trace, from its header's four lines on: what had come of it by then.\n# Made by bench/vectors/prefix_rows.py, apart from the program.")
    lines = list(trace(31, 1))
    for count in range(HEADER, len(lines) + 1):
        row(f"the first {count} of {len(lines)} lines", "replay", replay(lines[:count]), 0, lines[:count])


if __name__ == "__main__":
    main()
