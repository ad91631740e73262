"""Programs that are started for a while: within a time and a memory, below others in the machine's order, and ended with whoever started them."""
from __future__ import annotations

import os
import shutil
import subprocess
import threading
from typing import IO

from .words import Fault

MEMORY = 4 << 30  # bytes of addresses
LARGEST = 4 << 30  # bytes of a file that is written
MOST_SAID = 65_536  # bytes that are kept of what one says on standard error


def find(name: str) -> str:
    """The path of the program `name`; raises Fault if it isn't installed."""
    found = shutil.which(name)
    if found is None:
        package = {"ffmpeg": "ffmpeg", "ffprobe": "ffmpeg"}.get(name, "util-linux")
        raise Fault(f"{name} isn't installed (Debian: apt-get install {package})")
    return found


def bounded(words: list[str], seconds: float) -> list[str]:
    """The program of `words`, within `seconds` of the processor for each of 8 processors, and MEMORY; it ends if the thread ends that starts it."""
    return [find("setpriv"), "--pdeathsig", "KILL", "--", find("nice"), "-n", "10", find("prlimit"), f"--as={MEMORY}", f"--fsize={LARGEST}",
            f"--cpu={int(seconds * 8) + 1}", "--core=0", "--", find(words[0]), *words[1:]]


def drained(stream: IO[bytes], most: int, into: list[bytes]) -> None:
    """Reads the `stream` to its end; its first `most` bytes go `into` a list."""
    left = most
    while data := stream.read1(65_536):  # type: ignore[attr-defined]
        into.append(data[:left])
        left -= len(into[-1])


class Children:
    """The programs that run now."""

    def __init__(self) -> None:
        self.running: set[subprocess.Popen[bytes]] = set()
        self.lock, self.is_over = threading.Lock(), False

    def run(self, words: list[str], seconds: float, most: int = 1 << 20) -> tuple[int, bytes, str]:
        """Runs the program of `words` for at most `seconds`: its status, the first `most` bytes of its output, and the last line that it said on standard
        error. Raises Fault if it can't be started, or takes longer."""
        it = self.begin(bounded(words, seconds))
        out: list[bytes] = []
        said: list[bytes] = []
        assert it.stdout is not None and it.stderr is not None
        readers = [threading.Thread(target=drained, args=args, daemon=True) for args in ((it.stdout, most, out), (it.stderr, MOST_SAID, said))]
        try:
            for one in readers:
                one.start()
            it.wait(seconds)
        except subprocess.TimeoutExpired:
            raise Fault(f"{words[0]} took over {seconds:g} s") from None
        finally:
            self.end_one(it)
            for one in readers:
                one.join()
        lines = [line for line in b"".join(said).decode("utf-8", "replace").splitlines() if line.strip()]
        return it.returncode, b"".join(out), lines[-1][:200] if lines else ""

    def begin(self, words: list[str]) -> subprocess.Popen[bytes]:
        """Starts the program of `words` in a group of its own; raises Fault."""
        with self.lock:
            if self.is_over:
                raise Fault("the program ends")
            try:
                it = subprocess.Popen(words, stdin=subprocess.DEVNULL, stdout=subprocess.PIPE, stderr=subprocess.PIPE, start_new_session=True,
                                      env={"PATH": os.environ.get("PATH", ""), "LANG": "C.UTF-8"})
            except OSError as fault:
                raise Fault(f"{words[0]}: {fault.strerror}") from None
            self.running.add(it)
        return it

    def end_one(self, it: subprocess.Popen[bytes]) -> None:
        """Ends `it`, if it runs yet."""
        it.kill()
        it.wait()
        with self.lock:
            self.running.discard(it)

    def end(self) -> None:
        """Ends all, and starts no more."""
        with self.lock:
            self.is_over, its = True, list(self.running)
        for it in its:
            it.kill()
