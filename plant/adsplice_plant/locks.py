"""One feed for a channel at a time: who feeds it holds a lock (flock(2)) on a file of the folder `keep`, and loses it with its process."""
from __future__ import annotations

import contextlib
import fcntl
import os
from collections.abc import Iterable
from pathlib import Path

from .whole_files import KEPT_MODE

MOST = 20  # digits of a process's number


class Taken(Exception):
    """Another feed has the lock; its text says which one, as far as that is known."""


class Lock:
    """The lock on the file `path`, which stays there and holds the number of the process that had it last."""

    def __init__(self, path: Path) -> None:
        """It isn't taken yet."""
        self.path, self.handle = path, -1

    def take(self) -> None:
        """Takes it; raises Taken, or OSError if the file can't be written."""
        self.path.parent.mkdir(parents=True, exist_ok=True)
        handle = os.open(self.path, os.O_RDWR | os.O_CREAT | os.O_CLOEXEC, KEPT_MODE)
        try:
            fcntl.flock(handle, fcntl.LOCK_EX | fcntl.LOCK_NB)
        except BlockingIOError:
            number = os.pread(handle, MOST, 0)
            os.close(handle)
            owner = f"another feed, process {number.decode()}," if number.isdigit() else "another feed"
            raise Taken(f"{owner} feeds {self.path.stem}") from None
        except OSError:
            os.close(handle)
            raise
        self.handle = handle
        with contextlib.suppress(OSError):  # (on a full disk nobody learns the number)
            os.ftruncate(handle, 0)
            os.pwrite(handle, str(os.getpid()).encode(), 0)

    def release(self) -> None:
        """Lets it go."""
        os.close(self.handle)
        self.handle = -1


def take_all(paths: Iterable[Path]) -> list[Lock]:
    """Takes the locks on all of `paths`, or none of them: two feeds that wait for each other would feed nothing. Answers them, which are held
    for as long as the process goes on; raises Taken or OSError."""
    found: list[Lock] = []
    try:
        for it in paths:
            lock = Lock(it)
            lock.take()
            found.append(lock)
    except (Taken, OSError):
        for lock in found:
            lock.release()
        raise
    return found
