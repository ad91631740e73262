"""What a programme's feed tells people, and what it keeps for the monitor and the explainer: each state is told once."""
from __future__ import annotations

import threading
import time
import traceback
from collections.abc import Callable
from pathlib import Path

from . import repairs
from .events import Note, Repaired, Tell
from .journal import Event, Journal
from .settings import Settings
from .whole_files import write_aside
from .words import now_text

QUIET = 60.0  # seconds for which a quiet word isn't told again
MOST_LINES, MINUTE = 2000, 60.0  # lines of a programme within so many seconds: names and signs of others are in them
MOST_STATES = 10_000  # of which it is known what was told last
UNTOLD = ("list", "numbers", "journal")  # of which it isn't told that all is well at first

MANY = "Many"
HERE = str(Path(__file__).parent)

Say = Callable[[str], None]


class Telling:
    """The lines of the programme `name`, which `say` prints; those that were told before are left out. Several threads may tell at a time.
    `now`: the seconds of a clock that never goes back."""

    def __init__(self, name: str, say: Say, now: Callable[[], float] = time.monotonic) -> None:
        self.name, self.say, self.now, self.lock = name, say, now, threading.RLock()
        self.states: dict[tuple[str, str], tuple[str, ...]] = {}  # by the channel and who: what was told last
        self.words: dict[tuple[str, str], str] = {}  # the newest quiet word, told or not
        self.told_at: dict[tuple[str, str, str], float] = {}  # when a quiet word was told
        self.repaired: set[tuple[str, str]] = set()  # the repairs that were told of each channel
        self.minute, self.lines, self.left_out = now(), 0, 0  # since when lines are counted, how many were printed, and how many weren't

    def tell(self, channel: str, who: str, status: int, fault: str, text: str) -> None:
        """Prints a line of `who`, unless it is in the same state as before; that is the status and the fault of a `channel`, and the text as
        well if it is of the programme (empty). A state without a `text` is kept, and not printed."""
        state = (str(status or "-"), fault, *(() if channel else (text,)))
        with self.lock:
            is_first = (channel, who) not in self.states
            if self.states.get((channel, who)) == state:
                return
            self.states.pop((channel, who), None)
            self.states[channel, who] = state  # (it is the newest one)
            if len(self.states) > MOST_STATES:
                del self.states[next(iter(self.states))]
        if text and not (is_first and who in UNTOLD and not fault):
            self.line(channel, who, status, fault, text)

    def line(self, channel: str, who: str, status: int, fault: str, text: str) -> None:
        """Prints a line, whatever was told before; of very many within a minute the last ones are counted."""
        with self.lock:
            if (now := self.now()) - self.minute >= MINUTE:
                left_out, self.minute, self.lines, self.left_out = self.left_out, now, 0, 0
                if left_out:
                    self.say(f"{now_text()} {self.name} lines - {MANY}: {left_out} lines weren't printed, since there were over {MOST_LINES} within a minute")
            self.lines += 1
            if self.lines > MOST_LINES:
                self.left_out += 1
                return
        self.say(f"{now_text()} {channel or self.name} {who} {status or '-'} {fault or '-'}: {text}")

    def forget(self, channel: str, who: str) -> None:
        """What `who` is told next is printed in any case."""
        with self.lock:
            self.states.pop((channel, who), None)

    def told(self, it: Tell) -> None:
        """Prints the line of an action."""
        if it.is_quiet and not self.is_due(it):
            return
        self.tell(it.channel, it.who, it.status, it.fault, it.text)
        if it.is_again:
            self.forget(it.channel, it.who)

    def is_due(self, it: Tell) -> bool:
        """Whether the word of a quiet line has changed, and wasn't told within a minute."""
        place, now = (it.channel, it.who), self.now()
        with self.lock:
            if self.words.get(place, "") == it.fault:
                return False
            self.words[place] = it.fault
            if now - self.told_at.get((*place, it.fault), -QUIET) < QUIET:
                return False
            self.told_at[(*place, it.fault)] = now
        return True

    def repair(self, it: Repaired) -> None:
        """Prints the line of a repair, each kind once, and some each time that it is another case."""
        kind = f"{it.kind}{it.detail}" if it.kind in repairs.TOLD_EACH else it.kind
        with self.lock:
            if (it.channel, kind) in self.repaired:
                return
            if len(self.repaired) < MOST_STATES:
                self.repaired.add((it.channel, kind))
        self.line(it.channel, "list", 0, "Repaired", repairs.told(it.kind, it.detail))


class Noting:
    """What is kept of the channel that `settings` tell of, in its journal if it has one. `opening`: what a new file begins with.
    Several threads may note at a time."""

    def __init__(self, settings: Settings, telling: Telling, opening: Callable[[], list[Event]]) -> None:
        self.settings, self.telling, self.lock = settings, telling, threading.Lock()
        self.journal = Journal(settings.keep / f"{settings.name}.events", opening) if settings.keep else None
        self.unnoted: Note | None = None  # a list that was taken, and is kept with the next event

    def note(self, it: Note, waits: bool = False) -> None:
        """Keeps an event; one that `waits` is kept with the next one: between both a break seems to be gone."""
        with self.lock:
            before, self.unnoted = self.unnoted, it if waits else None
            for one in (before, None if waits else it):
                if one is not None:
                    self.add(one)

    def add(self, it: Note) -> None:
        """Writes an event, and tells if that isn't possible."""
        if self.journal is None:
            return
        try:
            self.journal.add(it.what, it.status, it.line, it.body)
            self.telling.tell(it.channel, "journal", 0, "", f"{self.journal.path}: events are kept again")
        except OSError as fault:
            self.telling.tell(it.channel, "journal", 0, "Unkept", f"{self.journal.path}: {fault.strerror}; goes on without it")

    def made(self, status: int) -> None:
        """The channel was made (201): keeps how. It is there already (409): tells if it was made otherwise than the settings say now."""
        if self.settings.keep is None or status not in (201, 409):
            return
        path, body, name = self.settings.keep / f"{self.settings.name}.made", self.settings.body(), self.settings.name
        try:
            if status == 201:
                write_aside(path, body)
            elif (made := made_before(path)) not in (None, body):
                self.telling.tell(name, "settings", status, "Other", f"the channel was made with {said(made)}, and the settings say {body.decode()}; "
                                                                     "it stays as it was made until a person deletes it")
        except OSError as fault:
            self.telling.tell(name, "settings", 0, "Unkept", f"{path}: {fault.strerror}; a change of base or tolerance won't be told")


def made_before(path: Path) -> bytes | None:
    """The body by which a channel was made, as the file `path` has it; none if there is no such file."""
    try:
        return path.read_bytes()
    except FileNotFoundError:
        return None


def said(made: bytes | None) -> str:
    """What is shown of the body `made`."""
    return (made or b"")[:500].decode("utf-8", "replace")


def place_of(fault: Exception) -> str:
    """Where in the plant the `fault` came."""
    places = [it for it in traceback.extract_tb(fault.__traceback__) if it.filename.startswith(HERE)]
    return f"{Path(places[-1].filename).name}:{places[-1].lineno}" if places else "an unknown place"
