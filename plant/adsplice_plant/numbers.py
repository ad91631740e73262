"""The numbers that viewers have of a channel, so that a channel that is made anew goes on with them (RFC 8216, 6.2.1).

What adsplice writes has other numbers than what it is given once a pod took more or fewer segments than the run that it replaced.
A new process of adsplice begins with the numbers that it is given. So the feed remembers which numbers each segment would have
to be given now. It reckons them by what it has given (`reckoning`). While it doesn't know that, it reads them off the written playlist.
"""
from __future__ import annotations

import re
from bisect import bisect_left
from collections.abc import Iterable
from dataclasses import dataclass, field, replace
from itertools import chain

from . import packaged, spelling
from .growing import Growing
from .packaged import PackagedSegment
from .reckoning import Moment, Numbers, Reckoned, Store, known_after, reckoned


MEDIA, STEPS = (re.compile(rb"\n#EXT-X-%s-SEQUENCE:([0-9]{1,20})\n" % name) for name in (b"MEDIA", b"DISCONTINUITY"))


@dataclass(frozen=True)
class Item:
    """A segment of a written playlist: its numbers, and the instant that it states; a pod's segments state none."""

    number: int
    discontinuity: int
    instant: int | None


def items_of(body: bytes) -> list[Item]:
    """The segments of the written playlist `body`; none if it isn't one."""
    try:
        found = packaged.read(spelling.lines_of(body, set()))
    except spelling.Unread:
        return []
    items, discontinuity = [], found.discontinuity_sequence
    for it in found.segments:
        discontinuity += it.discontinuities
        items.append(Item(it.own, discontinuity, it.stated))
    return items


def end_of(body: bytes) -> Numbers | None:
    """The numbers of the last segment of the playlist `body`, which adsplice wrote: each tag stands in a line of its own, as it spells it. None
    if it has no segment."""
    count = body.count(b"\n#EXTINF:")
    media, steps = (int(found[1]) if (found := tag.search(body)) else 0 for tag in (MEDIA, STEPS))
    return (media + count - 1, steps + body.count(b"#EXT-X-DISCONTINUITY\n")) if count else None


@dataclass
class Viewed:
    """What viewers have: for the feed's media number of a segment, the numbers with which a new channel has to begin there to go on
    (`begins`); the numbers of the last segment written (`end`); whether the newest segment given `is_replaced` by a pod's; and each
    date range's line by its ID, with the last media number at which it was listed (`ranges`). `reckoned`: what adsplice has by what it was
    given; none if that isn't known."""

    begins: Growing[Numbers] = field(default_factory=Growing)
    end: Numbers | None = None
    is_replaced: bool = False
    ranges: dict[str, tuple[str, int]] = field(default_factory=dict)
    reckoned: Reckoned | None = None

    def copy(self) -> Viewed:
        """The same, as a value of its own."""
        return replace(self, ranges=dict(self.ranges))

    def see(self, items: list[Item], segments: list[PackagedSegment]) -> None:
        """Takes in the written `items` after the list of `segments` was given."""
        self.reckoned, begins = None, dict(self.begins)
        places: dict[int, list[int]] = {}
        for place, item in enumerate(items):
            if item.instant is not None:
                places.setdefault(item.instant, []).append(place)
        later, was_replaced = 0, bool(begins)  # (a run that begins with the very first list begins at its first segment)
        for it in segments:
            found = later if it.begins is None else next((one for one in places.get(it.begins + it.shift, []) if one >= later), len(items))
            if found < len(items):
                begins[it.number] = items[found].number, items[found].discontinuity
                later, was_replaced = found + 1, False
                continue
            if not was_replaced and later < len(items):
                begins[it.number] = items[later].number, items[later].discontinuity - 1
            elif it is not segments[0]:
                begins.pop(it.number, None)
            was_replaced = True
        self.begins, self.is_replaced = Growing(sorted(begins.items())), was_replaced
        self.end = (items[-1].number, items[-1].discontinuity) if items else self.end

    def reckon(self, segments: list[PackagedSegment], lines: list[str], store: Store, tolerance: int, target: int) -> bool:
        """Reckons what adsplice has after the list of `segments` with the EXT-X-DATERANGE `lines`, if that was known before; whether it was.
        `store`, `tolerance` and `target` as in Moment."""
        before = self.reckoned
        if before is None:
            return False
        new = segments if before.newest is None else segments[len(segments) - max(0, segments[-1].number - before.newest):]
        moment = Moment(known_after(before, lines), store, tolerance, target, segments[0].section is not None)
        self.reckoned, begins = reckoned(before, new, moment)
        self.begins = self.begins.with_more(begins)
        self.end, self.is_replaced = self.reckoned.end(), self.reckoned.run is not None
        return True

    def learn(self, segments: list[PackagedSegment], lines: list[str]) -> None:
        """Learns from what was seen what adsplice has, after the list of `segments` with the EXT-X-DATERANGE `lines`; nothing if a break is
        open, of which it isn't known how much of its pod is written."""
        newest = segments[-1]
        if not self.is_replaced and (numbers := self.begins.get(newest.number)) is not None:
            self.reckoned = Reckoned(newest.number, newest.discontinuity, *numbers, breaks=known_after(Reckoned(), lines))

    def note(self, lines: Iterable[str], newest: int) -> None:
        """Remembers the EXT-X-DATERANGE `lines` of the list whose newest segment has the media number `newest`."""
        for line in lines:
            if name := packaged.id_in(line):
                self.ranges.pop(name, None)
                self.ranges[name] = line, newest

    def forget(self, before: int) -> None:
        """Forgets what is of segments that come `before` this media number."""
        self.begins = self.begins.since(before)
        self.ranges = {name: it for name, it in self.ranges.items() if it[1] >= before}

    def renumber(self, media: int) -> None:
        """The feed's media numbers grow by `media`."""
        self.begins = Growing((number + media, it) for number, it in self.begins.items())
        self.ranges = {name: (line, number + media) for name, (line, number) in self.ranges.items()}


def run_before(viewed: Viewed, history: list[PackagedSegment], number: int) -> int:
    """The media number of the first segment of the run right before that of the `number` in the `history`, if that is replaced by a pod: the rest of the
    pod is written with the segment after the run, which viewers don't have yet. Else the `number`."""
    place = bisect_left(history, number, key=lambda it: it.number)
    before = next((n for n in range(min(place, len(history)) - 1, -1, -1) if history[n].number in viewed.begins), None)
    if before is None or number not in viewed.begins:
        return number
    is_run = before < place - 1 or viewed.begins[number][0] > viewed.begins[history[before].number][0] + 1
    return history[before].number if is_run else number


def first_needed(viewed: Viewed, history: list[PackagedSegment], first: int) -> int | None:
    """The place in `history`, the segments that were listed, of the one with which a new channel has to begin so that it writes what
    viewers have from the segment of media number `first` on; none if nothing is known of it."""
    place = min(bisect_left(history, first, key=lambda it: it.number), len(history) - 1)
    nearest = chain(range(place, -1, -1), range(place + 1, len(history)))
    return next((n for n in nearest if history[n].number in viewed.begins), None)
