"""The decision files and the fallback of a channel, as the folder has them: each look answers what has changed.

Whatever somebody puts there is looked at first: a link isn't followed, nothing but a regular file is read, and their number and their bytes
are bounded. What isn't taken is told, and keeps no other file away.
"""
from __future__ import annotations

import itertools
import os
import stat
import time
from collections.abc import Callable, Mapping
from pathlib import Path

from .bounded_files import Unread, clean, made, opened, read, stamp_of
from .decisions import DAY, DONE, MAX_BYTES, MOST_ADS, over_bound, said_by
from .events import FallbackRead, FolderRead, SlateRead, Stamp
from .judge import judge

MOST_FILES = 4096  # decision files of a channel
MOST_ENTRIES = 16_384  # of a folder that are looked at
ROOM = 256 << 20  # bytes of a channel's decision files together
MOST_TOLD = 100  # names of what isn't taken
MOST_DONE = 16_384  # files that are over
CLEANED = 600.0  # seconds between two times that old files are taken away

Say = Callable[[str, int, str, str], None]  # who, status, fault, text: told unless the state of who is as it was
Files = dict[str, tuple[Stamp, bytes]]


class DecisionFolder:
    """The decision files in the folder `path` of a `channel`; `say` tells what isn't taken. Those that are over are kept for `keep_days` days."""

    def __init__(self, channel: str, path: Path, keep_days: float, say: Say) -> None:
        self.channel, self.path, self.keep_days, self.say = channel, path, keep_days, say
        self.files: Files = {}  # as they were told last
        self.is_told = False  # whether they were
        self.over: dict[str, Stamp] = {}  # those that are over, and couldn't be moved away
        self.passed: dict[str, str] = {}  # what isn't taken, and why
        self.unread: dict[str, tuple[Stamp, str]] = {}  # those of which the bytes were looked at and aren't taken, and why
        self.cleaned = float("-inf")

    def forget(self) -> None:
        """All is told again, as if it had changed."""
        self.is_told = False

    def look(self) -> FolderRead | None:
        """What the folder has, if that changed since it was told. While it can't be read, all stays as it is."""
        self.passed = {}
        try:
            with opened(self.path) as folder:
                found = self.taken(self.listed(folder), folder)
        except OSError as fault:
            found = None
            self.pass_over("", f"the folder {self.path} can't be read: {fault.strerror}")
        for name, why in itertools.islice(self.passed.items(), MOST_TOLD):
            self.say(f"decisions/{name}", 0, "Passed", f"it {why}; passes over it" if name else f"{why}; goes on without it")
        if found is None or (self.is_told and found == self.files):
            return None
        self.files, self.is_told = found, True
        return FolderRead(self.channel, dict(found))

    def listed(self, folder: int) -> dict[str, Stamp]:
        """The names of the decision files in the open `folder` with their stamps, the oldest first; raises OSError."""
        found: dict[str, Stamp] = {}
        with os.scandir(folder) as entries:
            for it in itertools.islice(entries, MOST_ENTRIES):
                if not it.name.startswith(".") and (it.name.endswith(".json") or not it.is_dir(follow_symlinks=False)):
                    self.judge(it.name, folder, found)
            if next(entries, None) is not None:
                self.pass_over("", f"the folder {self.path} has over {MOST_ENTRIES} entries, of which no more are looked at")
        for name in self.files:
            if name not in found and name not in self.passed:
                self.judge(name, folder, found)  # (a file that is replaced meanwhile may be missed)
        return dict(sorted(found.items(), key=lambda it: (it[1][0], it[0])))  # (so that the oldest have room first)

    def judge(self, name: str, folder: int, found: dict[str, Stamp]) -> None:
        """Adds the file `name` of the open `folder` to those that were `found`, if it may be one."""
        try:
            seen = os.stat(name, dir_fd=folder, follow_symlinks=False)
        except OSError:
            return
        if stat.S_ISLNK(seen.st_mode):
            self.pass_over(name, "is a link, which isn't followed")
        elif not name.endswith(".json") or not stat.S_ISREG(seen.st_mode):
            self.pass_over(name, "isn't a file whose name ends in .json")
        else:
            found[name] = stamp_of(seen)

    def taken(self, listed: Mapping[str, Stamp], folder: int) -> Files:
        """The files that are taken of those that are `listed` in the open `folder`, the oldest first: within the bounds, and first those that were
        taken before."""
        self.over = {name: it for name, it in self.over.items() if listed.get(name) == it}
        self.unread = {name: it for name, it in self.unread.items() if listed.get(name) == it[0]}
        found = {name: it for name, it in self.files.items() if name in listed or name in self.passed}  # (one stays until another can be taken)
        room = ROOM - sum(len(body) for _, body in found.values())
        for name, seen in listed.items():
            if name in self.over or (name in found and found[name][0] == seen):
                continue
            if name in self.unread:
                self.pass_over(name, self.unread[name][1])
                continue
            if seen[1] > room or (len(found) >= MOST_FILES and name not in found):
                self.pass_over(name, f"is beyond the {MOST_FILES} files or the {ROOM} bytes that the folder's files may have")
                continue
            try:
                stamp, body = read(name, folder, most=MAX_BYTES)
                if why := over_bound(body):
                    self.unread[name] = seen, why
                    raise Unread(why)
                found[name] = stamp, body
                room -= seen[1]
            except Unread as fault:
                self.pass_over(name, str(fault))
            except OSError as fault:
                self.pass_over(name, f"can't be read: {fault.strerror}")
        return dict(sorted(found.items(), key=lambda it: (it[1][0][0], it[0])))

    def pass_over(self, name: str, why: str) -> None:
        """What the folder has under `name` isn't taken; `why` says why."""
        self.passed[name] = why

    def finish(self, name: str) -> None:
        """Moves the file `name`, which is over, to `done`, and takes away what has been there too long. One that was written anew since, or
        that can't be moved, stays where it is."""
        known = self.files.pop(name, None)
        try:
            with opened(self.path) as folder, made(DONE, folder) as done:
                if known is not None and stamp_of(os.stat(name, dir_fd=folder, follow_symlinks=False)) != known[0]:
                    return
                os.replace(name, name, src_dir_fd=folder, dst_dir_fd=done)
                os.utime(name, dir_fd=done, follow_symlinks=False)
                if time.monotonic() - self.cleaned > CLEANED:
                    self.cleaned = time.monotonic()
                    clean(done, self.keep_days * DAY, MOST_DONE)
        except FileNotFoundError:
            return
        except OSError as fault:
            if known is not None:
                self.over[name] = known[0]  # (it stays where it is, and isn't given again)
            self.say(f"decisions/{DONE}", 0, "Unkept", f"{self.path / DONE}: {fault.strerror}; files that are over stay in the folder")


class AdsFile:
    """The file `path` of a `channel` with ads for breaks that need some, written as a fallback is; `say` tells why there is none, of `who` it is. A
    link that a person named is followed."""

    who = ""

    def __init__(self, channel: str, path: Path, say: Say) -> None:
        self.channel, self.path, self.say = channel, path, say
        self.stamp: Stamp | None = None  # of the file that was read
        self.is_told = False  # whether what it has was told

    def forget(self) -> None:
        """It is told again, as if it had changed."""
        self.is_told = False

    def has_changed(self) -> bool:
        """Whether it changed since it was told."""
        try:
            stamp = stamp_of(os.stat(self.path))
        except OSError as fault:
            stamp = None
            if not self.is_told:
                self.say(self.who, 0, "", f"{self.path}: {fault.strerror}; goes on without it")
        if self.is_told and stamp == self.stamp:
            return False
        self.stamp, self.is_told = stamp, True
        return True

    def body(self) -> bytes | None:
        """The file's bytes; none if it isn't there, can't be read, or is no fallback, which is told."""
        if self.stamp is None:
            return None
        try:
            self.stamp, body = read(self.path, most=MOST_ADS)
            if lack := over_bound(body):
                raise Unread(lack)
        except OSError as fault:
            self.say(self.who, 0, "", f"{self.path}: {fault.strerror}; goes on without it")
            return None
        except Unread as why:
            self.say(self.who, 0, "Other", f"{self.path}: it {why}; goes on without it")
            return None
        if (kind := said_by(body)[0]) and kind != "fallback":
            self.say(self.who, 0, "Other", f"{self.path}: it has `{kind}` and no `fallback`; goes on without it")
            return None
        return body


class Fallback(AdsFile):
    """The fallback file, whose ads fill breaks that nobody decided."""

    who = "fallback"

    def look(self) -> FallbackRead | None:
        """What the file has, if that changed since it was told."""
        return FallbackRead(self.channel, self.body()) if self.has_changed() else None


class Slate(AdsFile):
    """The slate's file, whose segments fill pods up that are shorter than their breaks."""

    who = "slate"

    def look(self) -> SlateRead | None:
        """What the file has, if that changed since it was told. One that adsplice wouldn't take is told, and isn't taken."""
        if not self.has_changed():
            return None
        body = self.body()
        if body is not None and (wrong := judge(body)) is not None:
            self.say(self.who, 0, wrong.fault, f"{self.path}: {wrong.line()}; goes on without it")
            body = None
        return SlateRead(self.channel, body)
