"""The other renditions of a programme, as one of them sees them: one clock, and equal numbers at equal instants (RFC 8216, 6.2.4)."""
from __future__ import annotations

from dataclasses import replace
from typing import NamedTuple

from . import packaged, playlist
from .breaks import Numbering
from .packaged import InitSection, Key, PackagedSegment
from .urls import joined_or_same

AWAY = 3  # segments by which a packager that was away may have been so longer than it is seen
STALE = 1800 * playlist.SECOND  # after which nothing is taken for what a packager left out
CLOSE = 3  # segments by which a rendition may be ahead of another one that has its instants
FAR = 10  # segments after a list's end at which it may come next
NEAR = 30  # segments by which the ends of two lists may be apart that are of one clock
MOST_BORROWED = 100  # segments that a rendition takes from another one at a time
MEDIA_SEQUENCE = b"#EXT-X-MEDIA-SEQUENCE:"
MOST_MEASURED = 8  # newest segments by which it is seen how long a rendition's are


class Sibling(NamedTuple):
    """A rendition: the `base` of its references, the `segments` that it has listed, the oldest first, also those of a list that comes with that of the
    one that sees it; whether a list of it that doesn't go on is held back (`is_held`), and for now (`waits`); and whether it `lends` segments, being of the same
    kind: pictures have no use for sound alone. `is_alike`: its segments are as long, so that its media numbers are those of the one that sees it."""

    base: str
    segments: list[PackagedSegment]
    is_held: bool = False
    waits: bool = False
    lends: bool = True
    is_alike: bool = True

    def places_at(self, instant: int) -> list[tuple[bool, int, int, PackagedSegment]]:
        """How its segments lie to the `instant`: whether one is far away, how far they are apart, and how many segments come between if it is the last
        one."""
        found = []
        for place, it in enumerate(reversed(self.segments)):
            if it.begins is not None:
                more = max(0, (instant - it.begins + it.duration // 2) // it.duration) if not place and it.duration else 0
                by = abs(instant - it.begins)
                found.append((by > it.duration and not 0 < more <= FAR, by, more, it))
        return found

    def has(self, other: PackagedSegment) -> bool:
        """Whether it has a segment with the media number of the `other` rendition's that begins when that does, or nearly."""
        return any(it.number == other.number and abs((it.begins or 0) - (other.begins or 0)) <= other.duration // 2 for it in self.segments)


class Reach(NamedTuple):
    """How far a list goes: the `instant` at which it ends, if it states one; the media `number` after its last segment; and how long that segment
    is (`last`), in nanoseconds."""

    instant: int | None
    number: int
    last: int

    def is_near(self, other: Reach) -> bool:
        """Whether both state instants, by one clock."""
        return self.instant is not None and other.instant is not None and abs(self.instant - other.instant) <= NEAR * max(self.last, other.last)

    def covers(self, other: Reach) -> bool:
        """Whether this list goes as far as the `other`, which may be cut at other times: by instants if both are stated, else by numbers."""
        if self.instant is not None and other.instant is not None:
            return self.instant + other.last // 2 > other.instant
        return self.number >= other.number


def reach_of(body: bytes) -> Reach:
    """How far the list `body` goes. It is read from the last instant on that it states, or else from its last segment on."""
    instant = body.rfind(b"#EXT-X-PROGRAM-DATE-TIME:")
    tail = playlist.read(body[max(0, instant if instant >= 0 else body.rfind(b"#EXTINF:")):])
    return Reach(tail.end(), number_after(body), tail.segments[-1].duration if tail.segments else 0)


def number_after(body: bytes) -> int:
    """The media number after the last segment of the list `body`, by its packager."""
    place = body.find(MEDIA_SEQUENCE)
    first = body[place + len(MEDIA_SEQUENCE):body.find(b"\n", place)].strip() if place >= 0 else b""
    return (int(first) if first.isdigit() and len(first) <= 20 else 0) + body.count(b"#EXTINF:")


class Siblings:
    """The other renditions that were `found`, those first that were there first."""

    def __init__(self, found: list[Sibling]) -> None:
        self.found = found

    def begins(self) -> dict[int, int]:
        """The instants at which segments begin, by their media numbers; of two renditions' the one's that was there first."""
        found: dict[int, int] = {}
        for one in self.found:
            found = {it.number: it.begins for it in one.segments if it.begins is not None and one.is_alike} | found
        return found

    def place_at(self, instant: int | None) -> tuple[int | None, int] | None:
        """Another rendition's media number and discontinuity number at `instant`, by the segment that begins nearest to it. Past its last segment the
        next ones are as long as that; none if it is far away. One whose segments are as long is asked first; of another one the media number says nothing
        (none)."""
        known = [(not one.is_alike, *placed) for one in self.found for placed in (one.places_at(instant) if instant is not None else [])]
        if not known:
            return None
        is_other, _, _, more, it = min(known, key=lambda one: one[:3])
        return (None if is_other else it.number + more, it.discontinuity) if more <= FAR else None

    def clock_at(self, states: int, least: int) -> int | None:
        """How far the packager's clock is ahead of the programme's where it `states` this instant, as another rendition has it at the segment that states the
        nearest one, of two the newer one; none if none has come there. By the programme's clock that is after the instant `least`."""
        for one in self.found:
            near = [(abs(it.stated - states), it.ahead()) for it in reversed(one.segments[-NEAR:]) if it.stated is not None and it.begins is not None
                    and abs(it.stated - states) <= CLOSE * it.duration and states - it.ahead() >= least]
            if near:
                return min(near, key=lambda it: it[0])[1]
        return None

    def apart_from(self, segments: list[PackagedSegment]) -> int:
        """How far the `segments` of a rendition's first list are ahead of another rendition's, if they end so far from those that the two have other clocks: by the
        media number that both have; if that says nothing, both end now. Else 0."""
        for one in self.found:
            if not one.segments or None in (one.segments[-1].begins, segments[-1].begins):
                continue
            by, most = end_of(segments) - end_of(one.segments), FAR * max(one.segments[-1].duration, segments[-1].duration)
            known = {it.number: it.begins for it in one.segments if it.begins is not None} if one.is_alike else {}
            numbered = next((it.begins - known[it.own] for it in reversed(segments) if it.begins is not None and it.own in known), None)
            return 0 if abs(by) <= most else numbered if numbered is not None and abs(numbered - by) <= most else by
        return 0

    def one_waits(self) -> bool:
        """Whether the list of a rendition doesn't go on, and is held back for now. One that begins again together with it has what it has shown."""
        return any(it.waits for it in self.found)

    def is_awaited(self, instant: int | None, duration: int) -> bool:
        """Whether a rendition that goes on hasn't come to the segment that begins at `instant`, of `duration` nanoseconds."""
        ends = [(it.begins or 0) + it.duration + (0 if one.is_alike else max(0, it.duration - duration))
                for one in self.found if not one.is_held for it in one.segments[-1:] if it.begins is not None]
        return instant is not None and any(end < instant - duration // 2 for end in ends)

    def between(self, last: PackagedSegment, end: int) -> list[PackagedSegment]:
        """The segments of one of them whose middles lie in the time from the end of a rendition's `last` segment to before `end`: of the one that has most
        of them. Their references hold for another rendition, too. None if they are more than MOST_BORROWED. (The last one may have been given before it was
        whole: it counts as long as theirs are by now.)"""
        began = last.begins or 0
        found = [[it for it in one.segments if it.begins is not None and began + max(last.duration, it.lasts()) <= middle_of(it) < end] for one in self.found]
        return self.most(found, began + last.duration)

    def has_between(self, last: PackagedSegment, end: int, clock: int) -> bool:
        """Whether one of them has a segment in the time from the end of a rendition's `last` segment to `end`, or most of it, which its packager stated by the same
        `clock`."""
        start = (last.begins or 0) + last.duration
        return any(it.begins is not None and it.stated is not None and abs(it.ahead() - clock) <= packaged.NEAR
                   and 2 * (min(end, it.begins + it.duration) - max(start, it.begins)) > it.duration for one in self.found for it in one.segments)

    def after(self, last: PackagedSegment, count: int, first: int) -> list[PackagedSegment]:
        """The `count` segments of one of them after the one that is the `last` one of a rendition, by their media numbers; none if none has them all by
        its packager's numbers, too, or if they end more than a segment from the instant `first`."""
        found = [[it for it in one.segments if last.number <= it.number <= last.number + count] if one.has(last) else [] for one in self.found]
        lent = [those[1:] if len(those) == count + 1 and those[-1].own - those[0].own == count and is_before(those[-1], first) else [] for those in found]
        return self.most(lent, (last.begins or 0) + last.duration)

    def most(self, found: list[list[PackagedSegment]], start: int) -> list[PackagedSegment]:
        """Of the segments that were `found` of each rendition those of the one that lends most of them, of several the one whose first begins nearest to the
        instant `start`; none if they are more than MOST_BORROWED."""
        lent = [(segments, one.base) for segments, one in zip(found, self.found) if one.lends and segments]
        there, base = max(lent, key=lambda it: (len(it[0]), -abs((it[0][0].begins or 0) - start)), default=([], ""))
        return [moved(it, base) for it in there] if len(there) <= MOST_BORROWED else []


def pace_of(segments: list[PackagedSegment]) -> int:
    """How long the newest of the `segments` are in the mean, in nanoseconds; 0 if there are none. The very last one may grow yet: it says so if it is
    the only one."""
    newest = segments[-1 - MOST_MEASURED:-1] or segments
    return sum(it.lasts() for it in newest) // len(newest) if newest else 0


def is_alike(pace: int, other: int) -> bool:
    """Whether renditions whose segments have these mean durations are cut alike: neither's are half as long again as the other's. One of which
    nothing is known (0) is taken for such."""
    return not pace or not other or 2 * max(pace, other) < 3 * min(pace, other)


def numbering_of(mine: list[PackagedSegment], theirs: list[PackagedSegment]) -> Numbering:
    """Which of `their` media numbers the segments that are `mine` have, of which the lists have come about as far: by the newest one that
    begins within half a segment of one of theirs, by the same clock; if there is none, by the ends of the lists."""
    pace, other = max(1, pace_of(theirs)), max(1, pace_of(mine))
    for it in reversed(mine[-NEAR:]):
        for one in reversed(theirs[-NEAR:]):
            if it.begins is not None and one.begins is not None and abs(it.begins - one.begins) <= pace // 2:
                return Numbering(it.number, one.number, other, pace)
    return Numbering(mine[-1].number, theirs[-1].number, other, pace) if mine and theirs else Numbering()


def end_of(segments: list[PackagedSegment]) -> int:
    """The instant at which the last one of the `segments` ends."""
    return (segments[-1].begins or 0) + segments[-1].duration


def middle_of(it: PackagedSegment) -> int:
    """The instant in the middle of the segment `it`, whose begin is known."""
    return (it.begins or 0) + it.duration // 2


def is_before(it: PackagedSegment, first: int) -> bool:
    """Whether the segment `it` ends within one like it of the instant `first`, by where it is put or by what its packager states."""
    return any(abs(at + it.duration - first) <= it.duration for at in (it.begins, it.stated) if at is not None)


def moved(it: PackagedSegment, base: str) -> PackagedSegment:
    """A copy of the segment `it` whose references, which were relative to `base`, are absolute."""
    section = it.section and InitSection(absolute(it.section.text, base), tuple(moved_key(key, base) for key in it.section.keys))
    return replace(it, uri=joined_or_same(base, it.uri), keys=tuple(moved_key(key, base) for key in it.keys), section=section,
                   tags=[line for line in it.tags if line.startswith(packaged.EXTINF)], discontinuities=0, stated=it.begins)


def moved_key(key: Key, base: str) -> Key:
    """The `key` with an absolute URI."""
    return Key(key.format, absolute(key.text, base), key.has_iv)


def absolute(text: str, base: str) -> str:
    """The attribute list `text` with an absolute URI."""
    uri = packaged.attributes_of(text).get("URI")
    return text if uri is None else text.replace(f'URI="{uri}"', f'URI="{joined_or_same(base, uri)}"', 1)
