"""Decisions that come by the door: each is judged by the rules and becomes a file of the channel's folder of decisions.

It is on disk before it is answered, so it outlives adsplice, the feed and the machine's power. From there on it goes the way of all
decision files.
"""
from __future__ import annotations

import itertools
import os
import string
import threading
from collections.abc import Mapping
from contextlib import suppress
from pathlib import Path
from typing import Protocol

from . import judge, words
from .bounded_files import opened, write
from .decisions import MAX_BYTES, over_bound
from .folders import MOST_ENTRIES, MOST_FILES, ROOM
from .serving import Refused
from .settings import Settings

LONGEST_NAME = 100  # letters of a file's name without its ending
LONG, MOST_LONG = 262_144, 4  # bytes of a file that takes the judge seconds, and how many of these are let in at a time
WAIT = 2.0  # seconds for a channel that is busy
LETTERS = frozenset(string.ascii_letters + string.digits + "._-")
USAGE = f"a path is /decisions/CHANNEL/NAME.json, and a name has letters, digits, '.', '_' and '-', begins with none of '.' and '-', and has at most {LONGEST_NAME}"


class Turns(Protocol):
    """A lock on a channel, which is held while its feed takes an event."""

    def acquire(self, *, timeout: float) -> bool:
        """Takes it, within `timeout` seconds; whether it could."""

    def release(self) -> None:
        """Lets it go."""


class Channel(Protocol):
    """What the door needs of a channel that is fed."""

    @property
    def settings(self) -> Settings:
        """Its settings."""

    @property
    def together(self) -> Turns:
        """What is held by who changes its decisions."""

    def tell(self, who: str, status: int, fault: str, text: str) -> None:
        """Prints a line of `who`, unless it is in the same state as before."""

    def is_given(self, name: str) -> bool:
        """Whether adsplice has the decision file `name`, or is about to be given it."""


# ---- on disk

def keep(folder: Path, name: str, body: bytes) -> bool:
    """Keeps `body` in the file `name` of `folder`, on disk before this returns; whether it took the place of another one. Raises OSError,
    and then leaves what was there."""
    with opened(folder) as handle:
        try:
            os.stat(name, dir_fd=handle, follow_symlinks=False)
            is_there = True
        except FileNotFoundError:
            is_there = False
        write(name, body, handle, is_synced=True)
    return is_there


def sync(folder: Path) -> None:
    """Has the disk keep what was renamed in `folder` or taken away from it."""
    handle = os.open(folder, os.O_RDONLY | os.O_DIRECTORY)
    try:
        os.fsync(handle)
    finally:
        os.close(handle)


def lack_of_room(folder: Path, name: str, size: int) -> str:
    """Why `folder` has no room for a decision file `name` of so many bytes (`size`); empty if it has. Raises OSError."""
    with os.scandir(folder) as found:
        others = [it for it in itertools.islice(found, MOST_ENTRIES) if it.name.endswith(".json") and it.name != name]
    if len(others) >= MOST_FILES:
        return f"the channel has {MOST_FILES} decision files"
    if len(others) * MAX_BYTES + size <= ROOM:  # (they can't have more bytes)
        return ""
    held = 0
    for it in others:
        with suppress(FileNotFoundError):
            held += it.stat(follow_symlinks=False).st_size
    return f"the channel's decision files have {held} bytes, and may have {ROOM}" if held + size > ROOM else ""


# ---- requests

class Admission:
    """What the door does with the decisions of `feeds`, the channels by their names."""

    def __init__(self, feeds: Mapping[str, Channel]) -> None:
        self.feeds = feeds
        self.judging, self.judging_long, self.writing = threading.Lock(), threading.Lock(), threading.Lock()  # (one after the other: a channel's turn is not to wait for many)
        self.room = threading.BoundedSemaphore(MOST_LONG)

    def place(self, path: str) -> tuple[Channel, Path, str]:
        """The channel, its folder and the file's name that the `path` of a request means; raises Refused. Nothing is decoded in it."""
        parts = path.split("/")
        if len(parts) != 4 or parts[:2] != ["", "decisions"] or not is_name(parts[3]):
            raise Refused(404 if len(parts) != 4 or parts[:2] != ["", "decisions"] else 400, USAGE)
        channel = self.feeds.get(parts[2])
        if channel is None or channel.settings.decisions is None:
            raise Refused(404, f"the feed has no channel {words.plain(parts[2][:40])} with a folder of decisions")
        return channel, channel.settings.decisions, parts[3]

    def put(self, path: str, body: bytes) -> tuple[int, str]:
        """Keeps the decision `body` under `path`; the status and the line to answer. Raises Refused."""
        channel, folder, name = self.place(path)
        if why := over_bound(body):
            raise Refused(413, f"the file {why}")
        wrong = self.judged(body)
        if wrong is not None:
            channel.tell("door", 422, wrong.fault, f"{name} isn't taken: {words.plain(wrong.line())}")
            raise Refused(422, f"{words.plain(wrong.line())} ({wrong.fault})")
        try:
            with self.writing:
                if lack := lack_of_room(folder, name, len(body)):
                    raise Refused(503, lack)
                is_there = keep(folder, name, body)
        except OSError as fault:
            channel.tell("door", 503, "Unkept", f"{folder / name}: {fault.strerror}; isn't taken")
            raise Refused(503, f"it can't be kept: {fault.strerror}") from None
        channel.tell("door", 201, "", f"decisions come by the door; {name} is kept")
        return (200, "kept in place of the one before") if is_there else (201, "kept")

    def judged(self, body: bytes) -> judge.Wrong | None:
        """What is wrong with the decision `body`; raises Refused if too many long ones wait for that. Short ones don't wait for long ones."""
        if len(body) <= LONG:
            with self.judging:
                return judge.judge(body)
        if not self.room.acquire(blocking=False):
            raise Refused(503, f"{MOST_LONG} files of more than {LONG} bytes are being judged; ask again")
        try:
            with self.judging_long:
                return judge.judge(body)
        finally:
            self.room.release()

    def delete(self, path: str) -> tuple[int, str]:
        """Takes the decision away that waits under `path`; the status and the line to answer. Raises Refused."""
        channel, folder, name = self.place(path)
        if not channel.together.acquire(timeout=WAIT):
            raise Refused(503, "the channel waits for adsplice; ask again")
        try:
            if channel.is_given(name):
                raise Refused(409, 'adsplice has it already; PUT {"withdraw":"ID"} takes the pod of a break away that has not begun')
            os.unlink(folder / name)
            sync(folder)
        except FileNotFoundError:
            raise Refused(404, "there is no such decision file") from None
        except OSError as fault:
            raise Refused(503, f"it can't be taken away: {fault.strerror}") from None
        finally:
            channel.together.release()
        return 204, ""


def is_name(name: str) -> bool:
    """Whether a decision file may have the `name`."""
    stem = name.removesuffix(".json")
    return stem != name and 0 < len(stem) <= LONGEST_NAME and LETTERS.issuperset(stem) and stem[0] not in ".-"
