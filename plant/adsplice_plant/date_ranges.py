"""Date ranges (RFC 8216, 4.3.2.7): what a packager's say of breaks, and what adsplice makes of them by itself."""
from __future__ import annotations

import re
from dataclasses import dataclass
from functools import lru_cache

from adsplice_rules.splice import insert_said, ticks_nanos

from . import packaged, signals, splice
from .breaks import Break, Breaks, Order, Placed, Timeline
from .packaged import DATE_RANGE, PackagedList
from .signals import SPLICES, Signal
from .splice import Kind, Message, Unread
from .values import changed

STATED = ("END-DATE", "DURATION")  # attributes that say where a break ends
REMEMBERED = 2048  # date ranges that were read
OTHER = re.compile(r'(?:CLASS|X-[A-Z0-9-]+)=(?:"[^"]*"|[^\s",]+)')  # an attribute that says something to players


@dataclass(frozen=True)
class DateRange:
    """An EXT-X-DATERANGE: its `line`, its `id` and attributes; the `place` of the segment before which it stands, which is past the
    last one after it; and its `order` among all lines."""

    line: str
    id: str
    said: dict[str, str]
    place: int
    order: Order

    def start(self) -> int | None:
        """Its START-DATE; none if it has none that reads."""
        return packaged.instant_of(self.said.get("START-DATE", ""))

    def length(self, start: int | None) -> int | None:
        """How long it lasts if it begins at `start`, by END-DATE or DURATION; none if neither says."""
        end = packaged.instant_of(self.said.get("END-DATE", ""))
        if end is not None and start is not None and end > start:
            return end - start
        return signals.duration_of(self.said.get("DURATION", ""))

    def is_splice(self) -> bool:
        """Whether it holds a splice section."""
        return any(it in self.said for it in SPLICES)

    def is_translated(self) -> bool:
        """Whether it signals a break's begin or end, so that the break's own date range stands in its place."""
        return "SCTE35-OUT" in self.said or "SCTE35-IN" in self.said or any(it.kind != Kind.OTHER for it in self.commands())

    def commands(self) -> list[Message]:
        """The messages of its SCTE35-CMD; none if it has none that reads."""
        try:
            return splice.read(self.said["SCTE35-CMD"]).messages if "SCTE35-CMD" in self.said else []
        except Unread:
            return []

    def others(self) -> str:
        """Its attributes that say something to players: CLASS and those that begin with X-, as they came."""
        found = {it.partition("=")[0]: it for it in signals.pieces_of(self.line.partition(":")[2]) if OTHER.fullmatch(it)}
        return "".join(f",{it}" for it in found.values())


class RangeReader:
    """What the date range `it` says: on the instants of `line`, of which the segment at the place `fresh` is the first new one.
    `start`: when the break of its ID begins; none if it has an ID of its own. What doesn't read is told to `breaks`."""

    def __init__(self, it: DateRange, line: Timeline, fresh: int, start: int | None, breaks: Breaks) -> None:
        self.it, self.line, self.fresh, self.start, self.breaks = it, line, fresh, start, breaks

    def instant(self, place: int) -> int:
        """When the segment at a `place` begins; past the last one the list's end."""
        return self.line.begins[place] if place < len(self.line.begins) else self.line.end

    def placed(self, signal: Signal, at: int, is_own_end: bool = False) -> Placed:
        """The `signal` at the instant `at`."""
        place = min(max(self.it.place, self.fresh), len(self.line.segments) - 1)
        number = self.line.segments[place].number
        is_in_step = self.instant(self.fresh) >= self.line.aligned(at)
        is_stated = is_own_end and self.start is not None and self.it.length(self.start) is not None
        return Placed(signal, at, number, self.it.order, self.it.id, is_own_end, self.it.others(), is_in_step, is_stated)

    def here(self) -> int:
        """The instant of the segment before which it stands. One in the head of a list stands nowhere: then it is the planned end of
        its break if that is among the new segments, and else the first one of them."""
        if self.it.place:
            return self.instant(self.it.place)
        own, first = self.breaks.named(self.it.id), self.instant(self.fresh)
        end = own.end() if own is not None else None
        return end if end is not None and first < end <= self.line.end else first

    def signals(self, name: str) -> list[Placed]:
        """The signals of the section in its attribute `name`."""
        try:
            messages = splice.read(self.it.said[name]).messages
        except Unread as fault:
            self.breaks.tell("signals", "Unread", f"{name} of the date range {self.it.id[:100]!r}: a section that doesn't read: {fault}")
            return []
        if name == "SCTE35-IN":
            return [self.placed(Signal(it), self.end(), True) for it in messages if it.kind == Kind.END]
        found = []
        for it in messages:
            at = self.instant(max(self.fresh, self.it.place)) if it.kind == Kind.CANCEL else self.it.start()
            at = self.here() if at is None else at
            planned = self.it.length(self.it.start()) or signals.duration_of(self.it.said.get("PLANNED-DURATION", ""))
            found.append(self.placed(Signal(it, planned if it.kind == Kind.BEGIN else None), at))
        return found

    def end(self) -> int:
        """Where its SCTE35-IN ends the break: where its own attributes say, or else where it stands."""
        start = self.it.start()
        if self.start is None:
            return self.here() if start is None else start
        if (length := self.it.length(self.start)) is not None:
            return self.start + length
        return self.here() if start is None or abs(start - self.start) <= self.line.half(start) else start

    def stated(self) -> list[Placed]:
        """Where it ends its break by attributes that came later than its section."""
        length = None if self.start is None else self.it.length(self.start)
        if self.start is None or length is None:
            return []
        return [self.placed(Signal(Message(Kind.END, None, 0), is_cue=True), self.start + length, True)]


def ranges_of(found: PackagedList) -> list[DateRange]:
    """The date ranges of the list `found`."""
    return [changed(read_range(line), place=place, order=(place, at)) for place, at, line in found.own_ranges()]


@lru_cache(REMEMBERED)
def read_range(line: str) -> DateRange:
    """The date range of the EXT-X-DATERANGE `line`, as one in a list's head. Lists say the same again and again: what was read is remembered."""
    said = packaged.attributes_of(line.partition(":")[2])
    return DateRange(line, said.get("ID", ""), said, 0, (0, 0))


# ---- what adsplice makes of a date range by itself

def is_leaving(said: dict[str, str]) -> bool:
    """Whether the attributes `said` signal a break to adsplice."""
    insert = insert_said(said.get("SCTE35-OUT"))
    return insert is not None and insert.out_of_network is True and packaged.instant_of(said.get("START-DATE", "")) is not None


def is_same(one: Break, said: dict[str, str], tolerance: int) -> bool:
    """Whether the attributes `said` begin and end the break `one` where it begins and ends, by the rules of adsplice (CONFORMANCE,
    4.3.2.7), within `tolerance`."""
    start, back = packaged.instant_of(said.get("START-DATE", "")), insert_said(said.get("SCTE35-IN"))
    if start is None or abs(start - one.start) > tolerance:
        return False
    end, owed = packaged.instant_of(said.get("END-DATE", "")), one.end()
    if end is None and (length := packaged.duration_of(said.get("DURATION", ""))) is not None:
        end = start + length
    if end is None and back is not None and back.out_of_network is False:
        return one.until is not None and one.is_in_step
    if end is None and (length := packaged.duration_of(said.get("PLANNED-DURATION", ""))) is not None:
        end = start + length
    if end is None and (out := insert_said(said.get("SCTE35-OUT"))) is not None and out.ticks is not None:
        end = start + ticks_nanos(out.ticks)
    return end is owed if end is None or owed is None else abs(end - owed) <= tolerance
