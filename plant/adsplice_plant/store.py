"""Where a programme's log is kept: a feed that is started anew goes on from it, and viewers' numbers with it (RFC 8216, 6.2.1).

In a folder it is the file PROGRAMME.log, of JSON lines. The first line is a whole state. Each line after it has what changed since the line
before. So a line is as long as what is new, and a feed that is killed loses none that was written.
"""
from __future__ import annotations

import json
from collections.abc import Iterator
from dataclasses import replace
from pathlib import Path
from typing import NamedTuple, Protocol

from . import earlier
from .earlier import FAULTS, why_of
from .entries import Known, after, blank, difference, known_of, nothing_of, state_of
from .events import Tell
from .journal import append
from .packing import Said
from .state import State
from .whole_files import write_aside

FORMAT = 3  # of the log; those before it are of an earlier feed's files
MOST_LINES = 256  # after a whole state, after which a new file begins
MOST_BYTES = 4_194_304  # of them
TAIL = 65_536  # bytes at a file's end in which the newest count of repairs is looked for
ENCODER = json.JSONEncoder(separators=(",", ":"), check_circular=False)


class Loaded(NamedTuple):
    """The `state` that an earlier feed left, and what is to be `told` of how it was read."""

    state: State
    told: tuple[Tell, ...] = ()


class Store(Protocol):
    """What keeps a programme's log."""

    def load(self, fresh: State) -> Loaded:
        """The state that an earlier feed left, over the state `fresh`, of which nothing is known but today's settings: renditions that these don't
        have are left out, and new ones are as they are in it."""

    def write(self, state: State) -> None:
        """The `state` is kept once this returns. Raises OSError if it can't be; the next one is kept as a whole then."""


class FolderStore:
    """The log of the programme `name`, in a `folder`. This process alone writes it (locks)."""

    def __init__(self, folder: Path, name: str) -> None:
        """Nothing is known of what the file has: the first state is written as a whole."""
        self.folder, self.path = folder, folder / f"{name}.log"
        self.name = str(self.path)
        self.written: Known | None = None  # the state that the file has
        self.file = (0, 0)  # its inode and its size, as they were left
        self.lines = self.since = 0  # lines after the first one, and their bytes

    def load(self, fresh: State) -> Loaded:
        """As in Store. Files of an earlier feed (earlier) are read if there is no log yet."""
        try:
            body = self.path.read_bytes()
        except FileNotFoundError:
            state, told = earlier.taken_over(self.folder, fresh)
            return Loaded(state, tuple(told))
        except OSError as fault:
            return Loaded(fresh, (self.broken(f"{fault.strerror}; goes on without it"),))
        try:
            known, why = read(body, fresh)
            return Loaded(state_of(known), (self.broken(f"{why}; goes on from the line before it"),) if why else ())
        except FAULTS as fault:
            return Loaded(fresh, (self.broken(f"{why_of(fault)}; goes on without it"),))

    def broken(self, text: str) -> Tell:
        """Tells that the log doesn't read, by a `text` that says why and what follows."""
        return Tell("", "numbers", 0, "Broken", f"{self.path}: {text}")

    def write(self, state: State) -> None:
        """As in Store."""
        before, self.written = self.written, None
        known = known_of(state, before)
        has_room = self.lines < MOST_LINES and self.since < MOST_BYTES
        if before is None or not has_room or before.state.renditions.keys() != state.renditions.keys() or not self.add(difference(before, known)):
            self.begin(known)
        self.written = known

    def add(self, said: Said) -> bool:
        """A line is added that says what is `said`; whether the file was there as it was left."""
        data = line_of({"line": self.lines + 1, **said})
        try:
            if not append(self.name, data, left=self.file):
                return False
        except FileNotFoundError:
            return False
        self.file = self.file[0], self.file[1] + len(data)
        self.lines, self.since = self.lines + 1, self.since + len(data)
        return True

    def begin(self, known: Known) -> None:
        """A new file begins with what is `known`."""
        self.folder.mkdir(parents=True, exist_ok=True)
        write_aside(self.path, whole(known))
        found = self.path.stat()
        self.file, self.lines, self.since = (found.st_ino, found.st_size), 0, 0


# ---- lines

def line_of(said: Said) -> bytes:
    """The line that says what is `said`."""
    return ENCODER.encode(said).encode() + b"\n"


def whole(known: Known) -> bytes:
    """The state that is `known` as a line by itself."""
    return line_of({"format": FORMAT, "name": known.state.name, "line": 0, **difference(nothing_of(known.state), known)})


def read(body: bytes, fresh: State) -> tuple[Known, str]:
    """The state that the log `body` says, over the `fresh` one, and why a line of it doesn't read: then the state is that of the line before it. A
    line that was left unfinished is none. Raises one of FAULTS if the first line doesn't read, or is of another programme or format."""
    first, *rest = body.split(b"\n")
    said = json.loads(first)
    if said["format"] != FORMAT:
        raise ValueError(f"format {said['format']}{', of a newer feed' if said['format'] > FORMAT else ''}")
    if said["name"] != fresh.name or not rest:
        raise ValueError(f"it is of the programme {said['name']}" if rest else "its first line is unfinished")
    start = {name: replace(it, stands=blank(it)) for name, it in fresh.renditions.items()}
    known = after(Known(replace(fresh, renditions=start), {}), said)
    for number, line in enumerate(rest[:-1], 1):
        try:
            said = json.loads(line)
            if said["line"] != number:
                raise ValueError(f"it says that it is line {said['line']}")
            known = after(known, said)
        except FAULTS as fault:
            return known, f"line {number} after the first: {why_of(fault)}"
    return known, ""


# ---- for the monitor

def repairs_kept(folder: Path, channel: str) -> dict[str, int]:
    """How many lists of the `channel` had each kind of repair, by its programme's log in the `folder`; none if that isn't there or doesn't read."""
    logs = [it for it in (folder / f"{channel}.log", folder / f"{channel.rpartition('-')[0]}.log") if it.exists()]
    for path in sorted(logs, key=written_at, reverse=True):  # (a channel may have become a rendition)
        try:
            for line in newest_first(path):
                said = json.loads(line).get("renditions", {}).get(channel, {}).get("stands", {})
                if "repairs" in said:
                    return {str(kind): int(count) for kind, count in said["repairs"].items()}
        except (OSError, *FAULTS):
            continue
    return {}


def written_at(path: Path) -> int:
    """When the file `path` was written last, in nanoseconds from 1970; 0 if it isn't there."""
    try:
        return path.stat().st_mtime_ns
    except OSError:
        return 0


def newest_first(path: Path) -> Iterator[bytes]:
    """The lines of the log `path` that have counts of repairs, the newest first: of its end, and then of all of it."""
    with open(path, "rb") as it:
        size = it.seek(0, 2)
        for begin in (size - TAIL, 0) if size > TAIL else (0,):
            it.seek(begin)
            lines = it.read().split(b"\n")[:-1]
            yield from (line for line in reversed(lines[1 if begin else 0:]) if b'"repairs"' in line)
