"""The tree that a folder's records' files say, read apart from the program: as `crates/folder_store` lays them out."""
import os
import struct

from changes import DIRECTORY, shown

KINDS = {1: "file", 2: DIRECTORY}


def read(path):
    with open(path, "rb") as it:
        return it.read()


def tree_in(folder, others=()):
    """What each path of a folder that isn't served has. Beside its records there may be these others."""
    nodes, contents, made = {}, {}, set()
    for name in os.listdir(folder):
        given = read(f"{folder}/{name}")
        if name == "head":
            struct.unpack(">QQ", given)
        elif name[0] == "n" and name[1:].isdigit():
            parent, kind = struct.unpack(">QI", given[:12])
            nodes[int(name[1:])] = parent, KINDS[kind], given[12:]
        elif name[0] == "c" and name[1:].isdigit():
            contents[int(name[1:])] = given[8:]
        elif name[0] == "m" and name[1:].isdigit():
            made.add(int(name[1:]))
        elif name != ".term" and name not in others:
            raise AssertionError(f"{name} is left in a folder that was served")

    if any(contents.get(of) != b"" for of in made):
        raise AssertionError(f"{made} are as they were made, and {contents.keys()} are there")

    def path_of(node):
        parent, _, name = nodes[node]
        return name if parent == 1 else path_of(parent) + b"/" + name

    return {path_of(node): DIRECTORY if kind == DIRECTORY else shown(contents[node]) for node, (_, kind, _) in nodes.items()}
