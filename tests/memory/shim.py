"""The library that refuses memory (refuse.c), and the word that its control file gives it."""
import mmap
import os
import shutil
import struct
import subprocess
import sys

HERE = os.path.dirname(os.path.abspath(__file__))
WORDS = struct.Struct("<4Q")  # from, most, calls, refused: as refuse.c has them
ALL = 2**64 - 1
WAYS = {"from it on": ALL, "it alone": 1}  # how many calls are refused, by the name of the way


def build(folder, name="refuse"):
    """Compiles a library of this folder into another one, and returns its path."""
    if not shutil.which("gcc"):
        sys.exit(f"memory: gcc isn't there, and tests/memory/{name}.c has to be compiled")
    made = os.path.join(folder, f"{name}.so")
    subprocess.run(["gcc", "-shared", "-fPIC", "-O2", "-Wall", "-o", made, os.path.join(HERE, f"{name}.c")], check=True)
    return made


def without_random(program, folder):
    """What the program says and writes, and its status, if the system gives it no random bytes."""
    words = [program, "vod", "http://origin.example/i.m3u8"]
    ran = subprocess.run(words, env={"LD_PRELOAD": build(folder, "no_random")}, input=b"", capture_output=True, timeout=60)
    return ran.stderr, ran.stdout, ran.returncode


class Control:
    """What a program with the library preloaded is told, and what it tells, by a file that both have mapped."""

    def __init__(self, library, path):
        with open(path, "wb") as it:
            it.write(bytes(WORDS.size))
        with open(path, "r+b") as it:
            self.words = mmap.mmap(it.fileno(), WORDS.size)
        self.environment = {"LD_PRELOAD": library, "REFUSE_CONTROL": path}

    def refuse(self, first, most):
        """From now on calls are counted, and the first-th and those after it, at most so many, are refused."""
        self.words[:] = WORDS.pack(0, most, 0, 0)
        self.words[:8] = struct.pack("<Q", first)

    def stop(self):
        """Refuses no more; how many calls were refused."""
        self.words[:8] = bytes(8)
        return self.told()[1]

    def told(self):
        """How many calls came since the last word, and how many of them were refused."""
        return WORDS.unpack(self.words[:])[2:]
