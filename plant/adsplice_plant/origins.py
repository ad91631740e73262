"""Two origins of one list: the second is read while the first fails or stands still.

Which of them is read, all renditions of a programme choose together. The one that isn't read is looked at in a thread of its own
while that matters, so that a channel never waits for it.
"""
from __future__ import annotations

import threading
import time
from collections.abc import Callable
from dataclasses import dataclass, field

from . import playlist
from .handover import Handover, absolute, has_same
from .origin import Origin, Read, ads_of, read_whole
from .settings import Settings

FIRST, SECOND = 0, 1
NAMES = ("first", "second")
STILL = 3  # target durations without a new list, after which an origin stands still, and that a choice stays at least
USUAL = 2.0  # seconds of a target duration that isn't known
WELL = 60.0  # seconds for which the first origin has to be well before it is read again

VOD = b"#EXT-X-PLAYLIST-TYPE:VOD"

Say = Callable[[int, str], None]  # the place of the origin that is read from now on, and what is told


class Place:
    """One of the two origins of the channel that `settings` tell of, and how it has been. `base` is its URL, by which its references
    are resolved; none if that is the channel's. `now`: the seconds of a clock that never goes back."""

    def __init__(self, origin: Origin, base: str, settings: Settings, now: Callable[[], float] = time.monotonic) -> None:
        self.origin, self.base, self.settings, self.now = origin, base, settings, now
        self.lock = threading.Lock()  # held while it is looked at
        self.body: bytes | None = None  # its newest list
        self.target = USUAL
        self.why = ""  # what was wrong at the last look
        self.lists = 0  # different ones that were seen in a row of looks
        self.is_ended = False  # whether the list ended for good
        self.looked = self.changed = now()  # when the last look began, and when the list changed last
        self.failed: float | None = None  # since when it can't be read
        self.well: float | None = None  # since when it is read and doesn't stand still

    def look(self) -> Read:
        """Reads its list, if that changed."""
        with self.lock:
            begun = self.now()
            if begun - self.looked > STILL * self.target:
                self.lists, self.well, self.failed, self.changed = 0, None, None, begun
            self.looked = begun
            found = read_whole(self.origin, self.settings.unended, self.settings.line, self.base or self.settings.base, ads_of(self.settings.fallback))
            self.why = found.why
            if found.why:
                self.failed, self.well = begun if self.failed is None else self.failed, None
                return found
            self.failed = None
            if found.body is not None and (body := absolute(found.body, self.base) if self.base else found.body) != self.body:
                self.body, self.changed, self.lists = body, self.now(), self.lists + 1
                listed = playlist.read(body)
                self.target = float(listed.target or USUAL)
                self.is_ended = listed.is_ended and (not self.settings.endless or VOD in body)
            self.well = None if self.is_still() else begun if self.well is None else self.well
            return found

    def is_still(self) -> bool:
        """Whether its list doesn't change, and didn't end."""
        return not self.is_ended and self.now() - self.changed > STILL * self.target

    def trouble(self) -> str:
        """Why another origin is to be read; empty if none is to be: it failed for a target duration, or stands still."""
        if self.failed is not None and self.now() - self.failed >= self.target:
            return f"fails ({self.why})"
        return f"stands still for {self.now() - self.changed:.1f} s" if self.is_still() else ""

    def patience(self) -> float:
        """The seconds to the next look at the latest: once it has failed for a target duration, and from then on half of one."""
        left = 0.0 if self.failed is None else self.target - (self.now() - self.failed)
        return left if left > 0 else self.target / 2

    def is_alive(self, shown: bytes | None) -> bool:
        """Whether its list goes on: it was seen to change, or it ends later than the list `shown`, or none was shown."""
        if self.failed is not None or self.body is None or self.is_still():
            return False
        if shown is None or self.lists > 1:
            return True
        mine, theirs = playlist.read(self.body).end(), playlist.read(shown).end()
        return mine is not None and theirs is not None and mine > theirs


@dataclass
class Choice:
    """Which origin is read (`place`), why (`text`), since when, and who reads it: the renditions of a programme choose together."""

    place: int = FIRST
    text: str = ""
    since: float = float("-inf")
    members: list[TwoOrigins] = field(default_factory=list)


class TwoOrigins:
    """The origins at the two `places`, of which one is read. `say` is called at each change. The first is read again once it has been
    well for so many seconds (`well`)."""

    def __init__(self, places: tuple[Place, Place], say: Say, now: Callable[[], float] = time.monotonic, well: float = WELL) -> None:
        self.places, self.say, self.now, self.well = places, say, now, well
        self.choice = Choice(members=[self])
        self.place = FIRST  # the one that was read last
        self.shown: bytes | None = None  # the newest list that was taken
        self.given: bytes | None = None  # that list as its origin has it
        self.handover: Handover | None = None
        self.since = now()  # when the place changed
        self.looking: threading.Thread | None = None
        self.has_failed = False  # whether the last look at the chosen one left it in trouble: a look may take as long as a request

    def join(self, choice: Choice) -> None:
        """Chooses with the others of `choice`."""
        self.choice = choice
        choice.members.append(self)

    def read(self) -> Read:
        """The newest list of the origin that is chosen, if it is new."""
        found = Read()
        if not (self.has_failed and self.choose()):
            found = self.places[self.choice.place].look()
            found = Read() if self.choose() else found
        if self.place != self.choice.place:
            self.change()
        it = self.places[self.place]
        if it.body is None or it.body is self.given:
            return found if found.body is None else Read(status=found.status, moved=found.moved)
        body = it.body if self.handover is None else self.handover.take(it.body, self.now() - self.since < STILL * it.target)
        if body is None:
            return Read(status=found.status)
        self.given, self.shown = it.body, body
        return Read(body, found.status, moved=found.moved)

    def patience(self) -> float:
        """The seconds to the next look at the latest, while the origin that is read fails."""
        return self.places[self.place].patience()

    def forget(self) -> None:
        """The list is read again, though it hasn't changed."""
        self.given = None
        self.places[self.place].origin.forget()

    def choose(self) -> bool:
        """Chooses the other origin if that is to be read from now on; whether it did."""
        place = self.choice.place
        current, other = self.places[place], self.places[SECOND - place]
        trouble, text = current.trouble(), ""
        self.has_failed = bool(trouble) and current.failed is not None
        if self.now() - self.choice.since >= STILL * current.target and not (self.looking and self.looking.is_alive()):
            if trouble and other.is_alive(self.shown):
                text = f"the {NAMES[place]} origin {trouble}; reads the {NAMES[SECOND - place]} one"
            elif place == SECOND and all(it.is_first_well() for it in self.choice.members):
                text = f"the first origin has been well for {self.well:g} s; reads it again"
        if not text and (place == SECOND or trouble or current.failed is not None):
            self.look_at(other)  # (which is judged at a later turn)
        if not text:
            return False
        self.choice.place, self.choice.text, self.choice.since = SECOND - place, text, self.now()
        return True

    def is_first_well(self) -> bool:
        """Whether the first origin has been well for long enough."""
        well = self.places[FIRST].well
        return well is not None and self.now() - well >= self.well and not self.places[FIRST].trouble()

    def look_at(self, other: Place) -> None:
        """Looks at the `other` origin at half its target duration, in a thread of its own."""
        if (self.looking is None or not self.looking.is_alive()) and (other.body is None or self.now() - other.looked >= other.target / 2):
            self.looking = threading.Thread(target=other.look, daemon=True)
            self.looking.start()

    def change(self) -> None:
        """Another origin was chosen: what it lists goes on after what was shown, unless it has the same segments."""
        self.place, self.since, self.given = self.choice.place, self.now(), None
        body = self.places[self.place].body
        is_same = self.shown is None or (body is not None and has_same(self.shown, body))
        self.handover = None if is_same or self.shown is None else Handover(playlist.read(self.shown).end())
        self.say(self.place, self.choice.text)
