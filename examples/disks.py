"""File systems of two mebibytes, or of fewer, where this machine lets one be made. `storing` uses them."""
import errno
import os
import shutil
import subprocess
import tempfile

from runs import Skipped

SIZE = 2 << 20


def memory():
    """A folder of the machine's memory, where there is one."""
    return "/dev/shm" if os.access("/dev/shm", os.W_OK) else None


class Disk:
    """A folder that is all of a small file system: one in memory (tmpfs), or ext4 in a file of the memory."""

    def __init__(self, kind, size=SIZE):
        self.kind, self.size, self.top = kind, size, None

    def __enter__(self):
        self.top = tempfile.mkdtemp(prefix="lbfs-examples-", dir=memory())
        os.mkdir(f"{self.top}/disk")
        try:
            self.make()
        except (OSError, subprocess.CalledProcessError) as why:
            shutil.rmtree(self.top, ignore_errors=True)
            raise Skipped(f"no file system of its own can be made here ({self.kind}: {why})") from why
        folder = f"{self.top}/disk/store"
        os.mkdir(folder)
        return folder

    def make(self):
        words = ["mount", "-t", "tmpfs", "-o", f"size={self.size}", "tmpfs"]
        if self.kind == "ext4":
            with open(f"{self.top}/image", "wb") as image:
                image.truncate(self.size)
            run(["mkfs.ext4", "-q", "-b", "1024", f"{self.top}/image"])
            words = ["mount", "-o", "loop", f"{self.top}/image"]
        run([*words, f"{self.top}/disk"])

    def __exit__(self, *_):
        subprocess.run(["umount", "-l", f"{self.top}/disk"], check=False)
        shutil.rmtree(self.top, ignore_errors=True)


def run(words):
    subprocess.run(words, check=True, stdout=subprocess.DEVNULL, stderr=subprocess.DEVNULL)


def pieces_of(path):
    """What a file has: its length, how much room it takes, and its bytes but for what was never written of it."""
    pieces, at = [], 0
    with open(path, "rb") as it:
        told = os.fstat(it.fileno())
        while at < told.st_size:
            try:
                at = os.lseek(it.fileno(), at, os.SEEK_DATA)
            except OSError:
                break
            end = os.lseek(it.fileno(), at, os.SEEK_HOLE)
            pieces.append((at, os.pread(it.fileno(), end - at, at)))
            at = end
    return told.st_size, told.st_blocks, pieces


def copy_folder(folder, to):
    """Makes a folder of files have those of another, and answers whether there was room. It writes those alone that differ, once
    all of these are gone."""
    wanted = {name: pieces_of(f"{folder}/{name}") for name in os.listdir(folder)}
    for name in os.listdir(to):
        if wanted.get(name) == pieces_of(f"{to}/{name}"):
            del wanted[name]
        else:
            os.remove(f"{to}/{name}")
    try:
        for name, (size, _, pieces) in wanted.items():
            with open(f"{to}/{name}", "wb") as it:
                for at, given in pieces:
                    it.seek(at)
                    it.write(given)
                it.truncate(size)
    except OSError as error:
        if error.errno != errno.ENOSPC:
            raise
        return False
    return True
