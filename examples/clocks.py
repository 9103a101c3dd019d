"""What stands before a run, by `shim.c`: clocks that are moved while it goes on (`leasing`), and writes that take a part
(`mounting`)."""
import os
import shutil
import struct
import subprocess
import tempfile

from runs import TOP, Skipped


class Shim:
    """What stands before a program that is run by `under`."""

    def __enter__(self):
        compiler = shutil.which("cc")
        if not compiler:
            raise Skipped("cc can't be had")
        self.folder = tempfile.mkdtemp(prefix="lbfs-clocks-")
        self.library = f"{self.folder}/shim.so"
        subprocess.run([compiler, "-shared", "-fPIC", "-O1", "-o", self.library, f"{TOP}/examples/shim.c"], check=True)
        self.under = ("env", f"LD_PRELOAD={self.library}", *self.told())
        return self

    def __exit__(self, *_):
        shutil.rmtree(self.folder, ignore_errors=True)


class Clocks(Shim):
    """The clocks of a program."""

    def told(self):
        self.file = f"{self.folder}/clocks"
        self.move()
        return [f"LBFS_CLOCKS={self.file}"]

    def move(self, monotonic=0, wall=0):
        """From now on the clocks are so many milliseconds from where they would stand."""
        at = os.open(self.file, os.O_CREAT | os.O_WRONLY)
        os.pwrite(at, struct.pack("=qq", monotonic, wall), 0)
        os.close(at)


class Parts(Shim):
    """Writes of a program, each of which takes at most so many bytes."""

    def __init__(self, part):
        self.part = part

    def told(self):
        return [f"LBFS_PART={self.part}"]
