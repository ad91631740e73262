"""What a feed keeps of a channel, a JSON line for each event: for the monitor and the explainer.

An event has `at` (the time of day, UTC), `what` (`channel`, `delete`, `decisions`, `origin` for the four requests, `read`
for a playlist that couldn't be read from its origin, `hole` for a time of which no list could be kept, `late` for a decision whose
break had begun, `note` for why no rendition has the decision of the breaks in `body`, `ask` for a question about a break and what became of it, `absent` for a
decision that isn't given since an ad of it isn't there, `apart` for renditions whose numbers come apart
(1) or are equal again (0), `place` for the origin that is read, `restart` for a feed that began anew), `status`, `fault` (the
answer's first line, or why there is none), and `body`, what was sent. In place of a list's `body` there may be its `edit`: what
it takes over from the list before it in the file, and what is new (edits.py). A file begins with the channel's body, its open
decisions (events with `again`: they were sent before) and a whole list, so that it can be given again by itself.

NAME.events is the newest file; NAME.events.1, .2 .. are those before it. The file NAME.beat has the time of the feed's last step.
"""
import errno
import json
import os
from collections.abc import Callable, Iterator
from dataclasses import dataclass, replace
from pathlib import Path

from .edits import Piece, edit_of, edited, lines_of
from .whole_files import KEPT_MODE
from .words import now_text

MAX_BYTES = 4 << 20  # of a file, after which a new one is begun
ROOM = 32 << 20  # bytes of all files of a channel
FILES = 16  # at most
BEAT = ".beat"  # the end of the name of the file whose time is that of a feed's last step
LOST = ("origin", "read")  # events that a hole is of: there are many of them
MOST_UNKEPT = 256  # others that wait until they can be kept
WHOLE = 8  # times a list's length, after so much of differences it is kept as a whole again


@dataclass(frozen=True)
class Event:
    """An event of a channel, as the module says. The body of a list that was read has its `lines`; bytes that aren't UTF-8 are
    lone surrogates in both."""

    at: str
    what: str
    status: int
    fault: str
    body: str = ""
    again: bool = False
    lines: list[str] | None = None

    def text(self) -> str:
        """The body as a whole."""
        return self.body if self.lines is None else "".join(self.lines)

    def sent(self) -> bytes:
        """The bytes that were sent."""
        return self.text().encode("utf-8", "surrogateescape")


def text_of(body: bytes) -> str:
    """The bytes `body` as an event has them."""
    return body.decode("utf-8", "surrogateescape")


def line_of(event: Event, before: str | None) -> str:
    """The line of `event`; a list is told by its difference from the list `before`, if there is one."""
    said: dict[str, object] = {"at": event.at, "what": event.what, "status": event.status, "fault": event.fault}
    if event.what == "origin" and before is not None:
        said["edit"] = edit_of(before, event.body)
    else:
        said["body"] = event.body
    return json.dumps(said | ({"again": True} if event.again else {})) + "\n"


class Reader:
    """Reads the lines of a file in their order, and puts each list together by those before it."""

    def __init__(self) -> None:
        """No list was read yet."""
        self.lines: list[str] | None = None

    def event(self, line: str) -> Event | None:
        """The event of the line `line`; none if it isn't one, as when a machine fell while it was written."""
        try:
            found = json.loads(line)
            event = Event(str(found["at"]), str(found["what"]), int(found["status"]), str(found["fault"]), str(found.get("body", "")), bool(found.get("again")))
            return replace(event, body="", lines=self.list_of(event, found.get("edit"))) if event.what == "origin" else event
        except (ValueError, KeyError, TypeError, AttributeError, RecursionError):
            return None

    def list_of(self, event: Event, edit: list[Piece] | None) -> list[str]:
        """The lines of the list of `event`, by its `edit` if it isn't kept as a whole."""
        self.lines = lines_of(event.body) if edit is None else edited(self.lines or [], edit)
        return self.lines


class Journal:
    """The events of one channel in the file `path`, and those before them in the same path with `.1`, `.2` .."""

    def __init__(self, path: Path, opening: Callable[[], list[Event]]) -> None:
        """`opening`: what a new file begins with."""
        self.path, self.opening = path, opening
        path.parent.mkdir(parents=True, exist_ok=True)
        self.end = "\n" if is_torn(path) else ""  # of a line that was left unfinished
        self.list: str | None = None  # the newest one in this file that this journal wrote
        self.since = 0  # bytes that were written since the last whole list
        self.hole: Event | None = None  # since when nothing could be kept
        self.unkept: list[Event] = []  # what is to be kept of that time: all but lists

    def add(self, what: str, status: int, fault: str, body: bytes = b"") -> None:
        """Keeps that the request of `what` with `body` was answered by `status` and `fault`. Raises OSError if it can't be kept;
        what is lost is told by the next event that can."""
        event = Event(now_text(), what, status, fault, text_of(body))
        try:
            self.put(event)
        except OSError as lack:
            self.hole = self.hole or Event(event.at, "hole", 0, lack.strerror or "")
            self.list = None
            size = len(event.body) + sum(len(it.body) for it in self.unkept)
            if what not in LOST and len(self.unkept) < MOST_UNKEPT and size <= MAX_BYTES:
                self.unkept.append(event)
            raise

    def put(self, event: Event) -> None:
        """Writes `event`, and before it what belongs there: the begin of a new file, and the hole that is over."""
        size = self.path.stat().st_size if self.path.exists() else 0
        if size > MAX_BYTES:
            self.begin_file()
            size = 0
        if not size or (event.what == "origin" and self.since > WHOLE * len(event.body)):
            self.list, self.since = None, 0
        opening = [] if size else [replace(it, again=True) for it in self.opening()]
        told = [*opening, *self.unkept, *([self.hole] if self.hole else []), event]
        data = (self.end + "".join(line_of(it, self.list) for it in told)).encode()
        append(self.path, data)
        self.end, self.since = "", self.since + len(data)
        self.unkept = []
        self.hole, self.list = None, event.body if event.what == "origin" else self.list

    def begin_file(self) -> None:
        """Puts the file aside, and takes away the oldest ones that have no room."""
        for number in range(FILES, 0, -1):
            older = Path(f"{self.path}.{number - 1}") if number > 1 else self.path
            if older.exists():
                os.replace(older, f"{self.path}.{number}")
        room = ROOM - MAX_BYTES
        for it in reversed(files(self.path)):
            room -= it.stat().st_size
            if room < 0:
                it.unlink()


def append(path: Path | str, data: bytes, is_synced: bool = False, left: tuple[int, int] | None = None) -> bool:
    """Adds `data` to the file `path`: all of it, or nothing, by which the file's time stays, too. It is on disk after that if `is_synced`. If the
    file has to be there as it was `left`, by its inode and its size, nothing is added to another one: whether it was."""
    handle = os.open(path, os.O_WRONLY | os.O_APPEND | (0 if left else os.O_CREAT), KEPT_MODE)
    try:
        before = os.fstat(handle)
        if left not in (None, (before.st_ino, before.st_size)):
            return False
        if os.write(handle, data) < len(data):
            os.ftruncate(handle, before.st_size)
            os.utime(handle, ns=(before.st_atime_ns, before.st_mtime_ns))
            raise OSError(errno.ENOSPC, os.strerror(errno.ENOSPC))
        if is_synced:
            os.fsync(handle)
        return True
    finally:
        os.close(handle)


def is_torn(path: Path) -> bool:
    """Whether the file `path` ends within a line, as when a machine fell while it was written."""
    if not path.exists() or not path.stat().st_size:
        return False
    with open(path, "rb") as it:
        it.seek(-1, os.SEEK_END)
        return it.read() != b"\n"


def files(path: Path) -> list[Path]:
    """The files of the journal `path`, the oldest first."""
    return [it for it in (*(Path(f"{path}.{number}") for number in range(FILES, 0, -1)), path) if it.exists()]


def events(path: Path) -> Iterator[Event]:
    """The events of the journal `path` in their order; what a file's begin says again of the file before it is left out."""
    for place, file in enumerate(files(path)):
        reader = Reader()
        with open(file, encoding="utf-8", errors="replace", newline="\n") as lines:
            for line in lines:
                event = reader.event(line)
                if event is not None and not (event.again and place):
                    yield event
