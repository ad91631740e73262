"""The origin of a channel, read in a thread of its own: each list becomes an event of its programme."""
from __future__ import annotations

import re
import threading
import time
from collections.abc import Callable

from .events import Event, ListRead, Note, OriginChanged
from .location import Location, Url
from .origin import CUT_OFF, Origin, Read, WebOrigin, ads_of, origin_of, read_whole
from .origins import NAMES, Choice, Place, TwoOrigins
from .pauses import Pauses
from .settings import Settings
from .telling import Noting, Telling
from .web import Client
from .words import without_user

OFTEN = 0.25  # seconds between two looks at a file, and the least between two at a URL
SOON = 1.0  # seconds to the next look if the target duration isn't known
LEAST = 0.05  # seconds between two looks
MOST = 10.0  # seconds between two looks or trials, whatever the target duration is
TARGET = re.compile(rb"^#EXT-X-TARGETDURATION:\s*([0-9]{1,5})", re.M)
DURATION = re.compile(rb"^#EXTINF:\s*([0-9]{1,5}(?:\.[0-9]{1,9})?)", re.M)
NEWEST, NEWEST_BYTES = 4, 4096  # segments, and bytes of a list, by which it is seen how soon the next list may come
EARLY = 0.95  # of a segment's duration after which the next list is looked for: so it is found soon after it came


def interval(target: int | None, is_web: bool, pace: float | None = None, in_vain: int = 1) -> float:
    """The seconds from one look at an origin to the next. A file is looked at each OFTEN seconds. A URL is, after a list that is new, once its segments' `pace`
    in seconds is nearly over, if that is known. After so many looks `in_vain` it is in growing pauses of half the `target` duration at most.
    (Players wait for a target duration, RFC 8216, 6.3.4. The feed stands between them and the packager, and is to be ahead of them.)"""
    pause = min(MOST, max(OFTEN, target / 2)) if target else SOON
    if not is_web:
        return min(pause, OFTEN)
    if pace is None:
        return pause
    return float(min(pause, OFTEN * 2 ** min(in_vain - 1, 9)) if in_vain else min(MOST, max(OFTEN, EARLY * pace)))


def pace_in(body: bytes) -> float | None:
    """The seconds of the shortest of the newest segments in the list `body`; none if it states none. The very last one may grow yet: it counts if it is the only
    one."""
    newest = [float(it) for it in DURATION.findall(body[-NEWEST_BYTES:])[-NEWEST:]]
    return min(newest[:-1] or newest, default=None)


def longest(target: int | None) -> float:
    """The seconds that a pause before another trial may grow to: a `target` duration."""
    return min(MOST, max(1.0, target or SOON))


def target_in(body: bytes) -> int | None:
    """The target duration that the list `body` states in seconds; none if it states none."""
    found = TARGET.search(body)
    return int(found[1]) if found else None


class Reading:
    """Reads the list of the channel that `settings` tell of, as its `choice` of two origins says. `post` takes its events. `target` answers
    the channel's target duration in seconds, if that is known. `new_client` makes a client for each origin."""

    def __init__(self, settings: Settings, new_client: Callable[[], Client], choice: Choice | None, longest_pause: float, telling: Telling, noting: Noting,
                 post: Callable[[Event], None], target: Callable[[], int | None]) -> None:
        self.settings, self.telling, self.noting, self.post, self.target = settings, telling, noting, post, target
        self.missing = Pauses(0.5, longest_pause)
        self.stated: int | None = None  # the target duration that the newest list states
        self.newest, self.in_vain = b"", 0  # that list, and how many looks since then have brought no other one
        self.is_well = True
        self.is_again = threading.Event()  # set if the list is to be read anew at once, though it hasn't changed
        self.has_ended = False
        self.may_read = threading.Event()  # (on one of several machines the others' lists count while they lead)
        self.may_read.set()
        self.origin: Origin = origin_of(settings.origin, new_client())
        if settings.second:
            second = origin_of(settings.second, new_client())
            self.origin = two = TwoOrigins((Place(self.origin, "", settings), Place(second, settings.second_base, settings)), self.other)
            if choice is not None:
                two.join(choice)

    def place(self) -> int | None:
        """The place of the origin that is read, counted from 1; none if there is one alone."""
        return self.origin.place + 1 if isinstance(self.origin, TwoOrigins) else None

    def other(self, place: int, text: str) -> None:
        """The origin at `place` is read from now on: tells why (`text`)."""
        name = self.settings.name
        self.post(OriginChanged(name))
        self.noting.note(Note(name, "place", place + 1, text))
        self.telling.tell(name, "origins", 0, NAMES[place].capitalize(), text)

    def move(self, place: Location) -> None:
        """The list is read at another `place` from now on, of the same kind as before."""
        if isinstance(place, Url) and isinstance(self.origin, WebOrigin):
            self.origin.url = place.text
            self.again()

    def again(self) -> None:
        """The list is read anew at once, though it hasn't changed."""
        self.is_again.set()

    def end(self) -> None:
        """Nothing is read any more."""
        self.has_ended = True
        self.is_again.set()
        self.may_read.set()

    def run(self, failed: Callable[[Exception], None]) -> None:
        """Reads until it is ended. `failed` is called with each fault that nobody foresaw, after which it is read again."""
        while not self.has_ended:
            if not self.may_read.wait(SOON):
                continue
            try:
                pause = self.turn()
            except Exception as fault:  # noqa: BLE001  (another list may be without it)
                failed(fault)
                pause = min(self.missing.next(), MOST)
            if self.is_again.wait(pause):
                self.is_again.clear()
                self.origin.forget()

    def turn(self) -> float:
        """One look; answers the seconds to the next one."""
        begun = time.monotonic()
        found = read_whole(self.origin, self.settings.unended, self.settings.line, self.settings.base, ads_of(self.settings.fallback))
        if self.has_ended or not self.may_read.is_set():
            return 0.0
        self.take(found)
        target = self.target() or self.stated
        if found.why:
            patience = self.origin.patience() if isinstance(self.origin, TwoOrigins) else MOST
            return min(self.missing.next(), longest(target), patience)
        self.missing.reset()
        return max(LEAST, interval(target, self.settings.is_web(), pace_in(self.newest), self.in_vain) - (time.monotonic() - begun))

    def take(self, found: Read) -> None:
        """Tells and posts what was `found`."""
        name = self.settings.name
        if found.moved:
            self.telling.tell(name, "redirect", found.status, "", f"the origin leads to {without_user(found.moved)}; references stay relative to "
                                                                  f"{self.settings.base} (--base)")
        if found.why:
            self.noting.note(Note(name, "read", found.status, found.why))
            self.telling.tell(name, "origin", found.status, "CutOff" if found.why == CUT_OFF else "", f"{found.why}; reads it again with growing pauses")
        elif not self.is_well:
            self.telling.tell(name, "origin", 200, "", "the playlist is read again")
        self.is_well = not found.why
        self.in_vain = self.in_vain + 1 if found.body in (None, self.newest) else 0
        if found.body is not None:
            self.newest = found.body
            self.stated = target_in(found.body) or self.stated
            self.post(ListRead(name, found.body, time.monotonic()))
