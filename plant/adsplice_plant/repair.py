"""A packager's lists, put right: what RFC 8216 says in place of what the packager wrote, with numbers that go on.

A Repairer has the state of one channel. It takes each list in turn and answers what is to be pushed, or why nothing is. A list in
which nothing is wrong stays as it came, byte for byte. What was listed before is written again as it was.
"""
from __future__ import annotations

from bisect import bisect_left
from collections.abc import Iterator
from dataclasses import dataclass, field, replace

from . import clocks, growth, packaged, repairs, spelling, variables
from .growth import Accepted
from .packaged import PackagedList, PackagedSegment, Shift
from .playlist import SECOND
from .siblings import AWAY, STALE, Siblings, middle_of
from .spelling import Kinds, Unread
from .succession import LAG, Place, begins_alike, is_named, is_same, lags, place_of

NEWEST_VERSION = 7  # of a playlist that RFC 8216 describes
TYPES = ("EVENT", "VOD")
UNTAKEN = {"EXT-X-SKIP"}  # without what it refers to, a list says something else
OTHER_LISTS = {"EXT-X-I-FRAMES-ONLY", "EXT-X-STREAM-INF", "EXT-X-MEDIA", "EXT-X-I-FRAME-STREAM-INF"}
NOTED = {  # what the reader noted, and the repair
    "EXT-X-PROGRAM-DATE-TIME": "instants", packaged.MISPLACED: "sequence tags", "EXT-X-SESSION-KEY": "session tags", "EXT-X-SESSION-DATA": "session tags"}
MOST_LOOKED_AT = 8  # listed segments, to see how exactly their instants are stated
MOST_PAST = 1_000  # segments that left the list and are remembered
LESS, MORE = 10, 12  # a newest segment grows whose duration is so much more in the next list: of `MORE` to `LESS`
LEAST = 3  # target durations that a list lasts at least, if it did before (RFC 8216, 6.2.2)


@dataclass(frozen=True)
class Choices:
    """What a person chose: the `target` duration in seconds, if any; whether the channel `is_endless`; whether the feed `adds_times`. `query`: that
    of the list's URL."""

    target: int | None = None
    is_endless: bool = True
    adds_times: bool = True
    query: str = ""


@dataclass
class Head:
    """What stays the same throughout a channel (RFC 8216, 6.2.1): its version, target duration and type."""

    version: int | None
    target: int
    kind: str | None


@dataclass(frozen=True)
class Lead:
    """What stays listed in front of the list of a packager that began again. Segments from the media number `first` on were taken from
    another rendition: they stay until the list has `count` segments. What was listed before stays until the list lasts `least` nanoseconds."""

    first: int
    count: int
    least: int

    def before(self, earlier: list[PackagedSegment], segments: list[PackagedSegment]) -> list[PackagedSegment]:
        """Those of the segments that were listed `earlier` which stay in front of `segments`."""
        place, lasts = len(earlier), lasting(segments)
        while place and (lasts < self.least or (earlier[place - 1].number >= self.first and len(segments) + len(earlier) - place < self.count)):
            place -= 1
            lasts += earlier[place].duration
        return [without_ranges(it) for it in earlier[place:]]

    def is_over(self, segments: list[PackagedSegment]) -> bool:
        """Whether nothing stays in front of `segments`."""
        return len(segments) >= self.count and lasting(segments) >= self.least


@dataclass
class Repaired:
    """A list to be pushed: as data (`found`), and as it came, if nothing was wrong (`came`). `kinds` are the repairs with what is told
    of each. It is none of these if `why` says why nothing is pushed; `waits` if the same list may be taken later. `steps` are the
    discontinuities that were added for other renditions; `front` segments stay in front of the packager's own, by the `lead`. The next
    list may go on from what is `accepted`, if this one is. `growing`: the newest segment that the packager listed, if it isn't given yet. `joins`: the numbers that viewers have in other renditions at its first
    segment, if it is the first list of one that comes later than the others."""

    found: PackagedList | None = None
    head: Head | None = None
    came: bytes | None = None
    kinds: dict[str, str] = field(default_factory=dict)
    why: str = ""
    waits: bool = False
    steps: int = 0
    lead: Lead | None = None
    front: int = 0
    accepted: Accepted | None = None
    growing: PackagedSegment | None = None
    joins: tuple[int, int] | None = None

    def body(self) -> bytes:
        """The text to push."""
        if self.came is not None and (self.found is None or self.found.signals is None):
            return self.came
        assert self.found is not None
        return packaged.write(self.found)


class Repairer:
    """The state of one channel: what was accepted last, and what is waited for. `choices` are a person's; `siblings` are the other
    renditions, if it is one of a programme."""

    def __init__(self, choices: Choices, siblings: Siblings | None = None) -> None:
        self.choices, self.siblings = choices, siblings
        self.head: Head | None = None
        self.last: list[PackagedSegment] = []  # of the list that was accepted last
        self.past: list[PackagedSegment] = []  # those that left it, the oldest first
        self.adds = False  # whether the instants of the last list were added
        self.grows = False  # whether the packager lists its newest segment before that is whole
        self.growing: PackagedSegment | None = None  # that of the last list, which wasn't given
        self.held_since: float | None = None  # when the first list that didn't go on was seen
        self.owed = 0  # discontinuities that the next new segment has for other renditions
        self.lead: Lead | None = None  # what stays in front of the packager's list, since it began again
        self.front = 0  # segments of the last list that the packager's own hadn't
        self.longest, self.longest_end = 0, 0  # segments of the longest list of late, and the number of its last one if the last list is shorter
        self.accepted: Accepted | None = None  # the last list, if the next one may go on from its text
        self.stated: dict[str, clocks.Stated] = {}  # what the date ranges of the last list state
        self.clock = 0  # how far the packager's clock is ahead of the programme's at the newest segment
        self.is_guessed = False  # whether that isn't known to the millisecond
        self.shifts: tuple[Shift, ...] = (Shift(),)  # the programme's
        self.waited = float("inf")  # seconds after which this list came after the last one
        self.is_part = False  # whether this list is the beginning of what its packager lists
        self.new = 0  # nanoseconds of what this list has after the last one

    # ---- a list

    def take(self, body: bytes, now: float, clock: int) -> Repaired:
        """What is to be pushed of the list `body`. `now`: seconds of a clock that never goes back; `clock`: the time of day in
        nanoseconds from 1970. Nothing is kept of it before it is accepted, except how long lists have been held back."""
        if (grown := self.grow(body)) is not None:
            return grown
        kinds: Kinds = set()
        try:
            found = packaged.read(variables.replaced(spelling.lines_of(body, kinds), self.choices.query, kinds))
        except variables.Untaken as fault:
            return Repaired(why=repairs.NOT_ALL.format(fault))
        except Unread as fault:
            return Repaired(came=None if self.last else body, why=str(fault))
        if untaken := found.others & UNTAKEN:
            return Repaired(why=repairs.NEEDS.format(min(untaken)))
        if not body.lstrip(b"\xef\xbb\xbf").startswith(b"#EXTM3U") or found.others & OTHER_LISTS:
            return Repaired(came=body)
        return self.follow(found, body, dict.fromkeys(kinds, ""), now, clock)

    def follow(self, found: PackagedList, body: bytes, kinds: dict[str, str], now: float, clock: int) -> Repaired:
        """What is to be pushed of the list `found`, whose text `body` had repairs of `kinds`; the rest as in `take`."""
        kinds |= {kind: "" for name, kind in NOTED.items() if name in found.others}
        said = growth.head_of(found)
        counted = (found.discontinuity_sequence, [it.discontinuities for it in found.segments])
        growing = self.drop(found, kinds)
        if not found.segments:
            return Repaired(why=repairs.EMPTY)
        self.drop_other_sections(found, kinds)
        is_timed = any(it.stated is not None for it in found.segments)
        is_untimed = not is_timed and self.choices.adds_times and found.kind != "VOD"
        intern(self.last, found.segments)
        has_instants = is_timed and not self.adds
        own = self.last[self.front:]
        place = place_of(own, found.segments, has_instants, self.held_since is not None) if own else None
        if place is not None and place.offset >= len(own) and self.leaves_out(own[-1], found.segments[0], found.segments[0].stated):
            place = None
        self.new = lasting(found.segments if place is None else found.segments[max(0, len(own) - place.offset):])
        if self.last and len({it.section is None for it in (self.last[-1], *found.segments)}) > 1:
            return Repaired(why=repairs.SECTIONS)
        lead, front = self.lead, 0
        if place is not None:
            lead, front = self.go_on(found, place, kinds)
        elif (held := self.held(found, has_instants, now, clock if is_untimed else None)) is not None:
            return held
        elif self.last:
            lead, front = self.begin_again(found, kinds)
        steps = self.add_steps(found, kinds)
        self.set_times(found.segments)
        self.is_part = self.is_part or growing is not None and not clocks.is_one_clock(found.segments, growing)
        self.set_clock(found, kinds)
        if is_untimed:
            kinds["times"] = ""
            self.agree(found.segments)
            self.add_times(found.segments, clock)
        head = self.set_head(found, kinds)
        self.tell_numbers(found, counted, kinds)
        accepted = None if steps or lead or front else growth.accepted_of(body, said, found, counted[1], kinds)
        return Repaired(found, head, None if kinds else body, kinds, steps=steps, lead=lead, front=front, accepted=accepted, growing=growing)

    def drop(self, found: PackagedList, kinds: dict[str, str]) -> PackagedSegment | None:
        """Takes out of the list `found` what isn't pushed: gaps, a segment's second entry, and a newest segment that grows, which it answers."""
        drop_gaps(found, kinds)
        drop_twice(found, kinds)
        if not self.grows or found.is_ended or len(found.segments) < 2:
            return None
        kinds["growing"] = ""
        return found.segments.pop()

    def drop_other_sections(self, found: PackagedList, kinds: dict[str, str]) -> None:
        """Leaves out the segments in front of the list `found` which have an initialisation section where those that are given have none, or the other way
        round, as a slate has before a programme begins: adsplice takes no list of both (RFC 8216, 4.3.2.5; docs/CONFORMANCE.md)."""
        is_bare = (self.last or found.segments)[-1].section is None
        place = next((place for place, it in enumerate(found.segments) if (it.section is None) == is_bare), 0)
        if place:
            kinds["other sections"] = ""
            found.segments = from_place(found.segments, place)

    def grow(self, body: bytes) -> Repaired | None:
        """What is to be pushed of the list `body` if its text goes on from the last one's; none if it has to be read as a whole."""
        before, head = self.accepted, self.head
        if before is None or head is None or self.owed or self.lead or self.held_since is not None:
            return None
        fresh = growth.fresh_of(before, body)
        if fresh is None or any(rounded(it.duration) > head.target for it in fresh.new):
            return None
        kinds: dict[str, str] = {}
        self.new = lasting(fresh.new)
        if fresh.new:
            count_on(self.last[-1], fresh.new)
            front = growth.kept_by(before, fresh) if any(it.stated is None for it in fresh.new) else self.last[-1:]
            self.set_times(front + fresh.new)
            if "times" in before.repairs:
                self.agree(fresh.new)
        if any(it.begins is None for it in fresh.new):
            return None
        found = growth.grown(before, fresh)
        self.set_clock(found, kinds, fresh.new)
        kinds |= growth.repairs_after(before, fresh, found)
        return Repaired(found, head, None if kinds else body, kinds, accepted=Accepted(body, before.head, kinds, found))

    def held(self, found: PackagedList, has_instants: bool, now: float, clock: int | None) -> Repaired | None:
        """Why the list `found`, which is the first one or doesn't go on from the last one, isn't taken now; none if it is. The rest as in `hold`."""
        if self.last:
            return self.hold(found, has_instants, now, clock)
        self.begin(found)
        return self.wait_for_others(found.segments[0], now, max(1, found.target or 1))

    def hold(self, found: PackagedList, has_instants: bool, now: float, clock: int | None) -> Repaired | None:
        """Why the list `found`, which doesn't go on, isn't taken now; none if it is to be taken as one that began again, and its
        instants are known then. `clock`: the time of day, if instants are added; the rest as in `take`."""
        patience = self.head.target if self.head else 0
        self.clock = self.clock_of(found) if has_instants else self.clock
        if lags(self.past, self.last, found.segments, has_instants, max(1, patience)):
            return Repaired(why=repairs.LAGS)
        self.held_since = now if self.held_since is None else self.held_since
        self.set_times(found.segments, True)
        if now - self.held_since < patience + LAG and not self.unseen(found.segments):
            return Repaired(why=repairs.LAGS)
        if now - self.held_since < patience and not self.is_later(found.segments):
            return Repaired(why=repairs.HELD.format(patience), waits=True)
        if clock is not None:
            self.add_times(found.segments, clock)
        return self.wait_for_others(found.segments[0], now, patience)

    def wait_for_others(self, first: PackagedSegment, now: float, patience: int) -> Repaired | None:
        """Why a list that begins (again) with the segment `first` isn't taken now, but waits for other renditions as long as twice the `patience`; none if it
        waits for none. What they have shown before it says which numbers it has."""
        self.held_since = now if self.held_since is None else self.held_since
        if self.siblings and now - self.held_since < 2 * patience and (self.siblings.one_waits() or self.siblings.is_awaited(first.begins, first.duration)):
            return Repaired(why=repairs.HELD.format(2 * patience), waits=True)
        return None

    def unseen(self, segments: list[PackagedSegment]) -> list[PackagedSegment]:
        """The listed `segments`, which don't go on, without those in front that viewers have seen: by the programme's clock they lie before the end of
        the last list. So it is with two packagers behind one address."""
        last = self.last[-1]
        if self.adds or last.begins is None:
            return segments
        end = last.begins + last.duration
        return from_place(segments, next((n for n, it in enumerate(segments) if it.begins is None or middle_of(it) >= end), len(segments)))

    def leaves_out(self, before: PackagedSegment, it: PackagedSegment, states: int | None) -> bool:
        """Whether another rendition has a segment between the one `before` and the next one `it` by the packager's numbers, of which the list `states` an instant
        whole segments later, while the clock stayed as it was: another packager behind the address counts from others."""
        if self.siblings is None or self.adds or before.begins is None or states is None or it.own != before.own + 1:
            return False
        end = states - self.clock
        apart = (end - before.begins - before.duration + packaged.NEAR) % max(1, it.duration)
        return apart <= 2 * packaged.NEAR and self.siblings.has_between(before, end, self.clock)

    def is_later(self, segments: list[PackagedSegment]) -> bool:
        """Whether the listed `segments` go on from the last list after some that nobody read: by the packager's numbers, and by the instants that
        it states."""
        first, last = segments[0], self.last[-1]
        if first.own <= last.own or first.stated is None or None in (first.begins, last.begins) or self.adds:
            return False
        return abs((first.begins or 0) - (last.begins or 0) - last.duration - missed_by(last, segments)) <= max(it.duration for it in segments) // 2

    def accept(self, repaired: Repaired) -> None:
        """The list `repaired` was pushed and taken: the next one follows it."""
        if (found := repaired.found) is None:
            return
        self.head, self.adds, self.held_since = repaired.head, "times" in repaired.kinds, None
        self.owed, self.lead, self.front = max(0, self.owed - repaired.steps), repaired.lead, repaired.front
        self.accepted, self.growing = repaired.accepted, repaired.growing
        first = found.segments[0].number
        gone = bisect_left(self.last, first, key=lambda it: it.number)
        past = self.past + self.last[:gone] if gone else self.past[:bisect_left(self.past, first, key=lambda it: it.number)]
        self.past = past[-MOST_PAST:]
        self.note_length(found.segments)
        self.last = found.segments

    def note_length(self, segments: list[PackagedSegment]) -> None:
        """The next list has the `segments`: is it the longest of late? A longer one counts until what it alone had isn't there any more."""
        count, end = len(segments), self.longest_end or (self.last[-1].number if self.last else 0)
        is_longest = count >= self.longest or segments[-1].number > end + 2 * count + 1
        self.longest, self.longest_end = (count, 0) if is_longest else (self.longest, end)

    def earliest(self) -> int:
        """The media number of the first segment that may still be there: after it left the list it stays for as long as itself and the longest list that had it
        (RFC 8216, 6.2.2)."""
        return self.last[-1].number - len(self.last) - max(self.longest, len(self.last)) - 1

    # ---- numbers (RFC 8216, 4.3.3.2, 4.3.3.3, 6.2.1, 6.2.2)

    def begin(self, found: PackagedList) -> None:
        """The first list has the packager's numbers; or those that other renditions have at the instant that it states first."""
        discontinuity = found.discontinuity_sequence
        for place, it in enumerate(found.segments):
            discontinuity += it.discontinuities
            it.number, it.discontinuity = found.segments[0].own + place, discontinuity
        self.set_times(found.segments, True)
        if self.siblings is not None and (by := self.siblings.apart_from(found.segments)):
            self.clock, self.is_guessed = self.clock + by, True
            for it in found.segments:
                it.begins = None if it.begins is None else it.begins - by
        first = found.segments[0]
        theirs = self.siblings.place_at(first.begins) if self.siblings is not None else None
        if theirs is not None:
            media, steps = 0 if theirs[0] is None else theirs[0] - first.number, theirs[1] - first.discontinuity
            for it in found.segments:
                it.number, it.discontinuity = it.number + media, it.discontinuity + steps

    def begin_again(self, found: PackagedList, kinds: dict[str, str]) -> tuple[Lead | None, int]:
        """A list without a segment of the last one goes on after it, with a discontinuity. In a programme of several renditions it goes on
        where the last one ended: what the others have shown meanwhile is taken from one of them. Answers what is to stay in front of
        the lists after it, and how many segments do in front of this one."""
        last, first = self.last[-1], found.segments[0]
        kinds["began again"] = repairs.BEGAN_AGAIN.format(first.own, last.own, last.number + 1)
        taken = self.taken_meanwhile(found, self.siblings) if self.siblings is not None else []
        found.segments = found.segments if self.siblings is not None else self.unseen(found.segments) or found.segments
        found.segments[0].discontinuities = max(1, found.segments[0].discontinuities)
        if taken:
            kinds["other renditions"] = ""
            taken[0].discontinuities = 1
        taken = self.cut_short(taken + found.segments) + taken
        new = taken + found.segments
        count_on(last, new)
        least = LEAST * (self.head.target if self.head else 0) * SECOND
        lead = Lead(new[0].number, len(self.last) if taken else 0, min(least, lasting(self.last)))
        stays = lead.before(self.last, new)
        if stays:
            kinds["few segments"] = ""
        stays += taken
        is_over = lead.is_over(found.segments)
        found.segments = stays + found.segments
        return None if is_over else lead, len(stays)

    def cut_short(self, new: list[PackagedSegment]) -> list[PackagedSegment]:
        """The newest segment that was listed before the packager began again, if it grew and none of the `new` ones is it: it stays as long as it was."""
        it = self.growing
        is_there = it is None or any(is_named(it, one) or None not in (it.stated, one.begins) and abs((it.stated or 0) - (one.begins or 0)) < one.duration // 2 for one in new)
        return [] if it is None or is_there else [replace(it)]

    def taken_meanwhile(self, found: PackagedList, siblings: Siblings) -> list[PackagedSegment]:
        """What other renditions have shown between the last list and `found`, which began again. Of that list what lies before the end of the
        last one is left out, since viewers have seen it."""
        last = self.last[-1]
        if last.begins is None:
            return []
        first, missed = found.segments[0].begins, found.segments[0].own - last.own - 1
        if first is not None and missed > 0 and (taken := siblings.after(last, missed, first)):
            return taken
        end = last.begins + last.duration
        place = next((n for n, it in enumerate(found.segments) if it.begins is None or middle_of(it) >= end), len(found.segments) - 1)
        found.segments = from_place(found.segments, place)
        first = found.segments[0].begins
        return ahead_of(found.segments, last, siblings.between(last, first) if first is not None else [])

    def go_on(self, found: PackagedList, place: Place, kinds: dict[str, str]) -> tuple[Lead | None, int]:
        """The list `found` goes on at `place`: what was listed stays what it was, and what is new is counted on. Answers the same as
        `begin_again`."""
        if place.offset < 0:
            kinds["older segments"] = ""
            found.segments = from_place(found.segments, -place.offset)
        if place.way == "segments":
            kinds["numbers"] = ""
        first = self.front + max(0, place.offset)
        kept = self.last[first: first + len(found.segments)]
        for it, old in zip(found.segments, kept):
            self.grows = self.grows or old is self.last[-1] and it.duration * LESS > old.said * MORE
            keep(it, old, kinds)
        count_on(kept[-1] if kept else self.last[-1], found.segments[len(kept):])
        if self.lead is None or self.lead.is_over(found.segments):
            return None, 0
        stays = self.lead.before(self.last[:first], found.segments)
        for it in stays:
            kinds["other renditions" if self.lead.count and it.number >= self.lead.first else "few segments"] = ""
        found.segments = stays + found.segments
        return self.lead, len(stays)

    def add_steps(self, found: PackagedList, kinds: dict[str, str]) -> int:
        """Adds the discontinuities that are owed for other renditions to the first new segment of `found`; answers how many."""
        new = [it for it in found.segments if self.last and it.number > self.last[-1].number]
        if not self.owed or not new:
            return 0
        kinds["other renditions"] = ""
        new[0].discontinuities += self.owed
        count_on(next((it for it in (*self.last, *found.segments) if it.number == new[0].number - 1), self.last[-1]), new)
        return self.owed

    def tell_numbers(self, found: PackagedList, counted: tuple[int, list[int]], kinds: dict[str, str]) -> None:
        """Adds to `kinds` in what the numbers of `found` aren't the packager's, whose discontinuities were `counted`."""
        if any(it.number != it.own for it in found.segments):
            kinds["own numbers"] = ""
            if any(it.effective_keys() != it.keys for it in found.segments):
                kinds["keys"] = ""
        elif len(counted[1]) == len(found.segments):
            said = counted[0]
            for it, count in zip(found.segments, counted[1]):
                said += count
                if it.discontinuity != said:
                    kinds["discontinuity sequence"] = ""
                    break

    # ---- instants (4.3.2.6)

    def set_times(self, segments: list[PackagedSegment], begins_again: bool = False) -> None:
        """Gives each new one of the listed `segments` its instant by the programme's clock: the stated one, else where the segment before it ends, unless
        the list `begins_again`; else counted back from the first one that is known."""
        before = None if begins_again else self.before(segments[0])
        said: int | None = None  # where the segment before ends by what the list states
        for it in segments:
            states = it.stated if it.stated is not None else None if said is None else said + it.gap
            if it.begins is None:
                it.begins = self.begin_of(it, before, states)
                it.shift = self.shift_of(it, before or (self.last[-1] if self.last else None))
                if self.clock and it.begins is not None and it.stated is None:
                    it.stated = it.begins + self.clock
            said = None if states is None else states + it.said
            before = it if it.begins is not None and packaged.is_instant(it.begins) else None
            it.begins = it.begins if before is not None else None
        for earlier, it in zip(segments[-2::-1], segments[:0:-1]):
            if earlier.begins is None and it.begins is not None:
                earlier.begins, earlier.shift = it.begins - it.gap - earlier.duration, it.shift

    def shift_of(self, it: PackagedSegment, before: PackagedSegment | None) -> int:
        """How much later viewers have the instant of the new segment `it`, which comes after the one `before`."""
        found = packaged.later(self.shifts, None if it.begins is None else it.begins + it.duration // 2)
        return found if found is not None else self.shifts[0].by if before is None else before.shift

    def set_clock(self, found: PackagedList, kinds: dict[str, str], new: list[PackagedSegment] | None = None) -> None:
        """Puts the date ranges of the list `found` on the programme's clock. It is another list then if viewers don't have the packager's instants. `new`: those
        of its segments that the list hasn't from one whose clock was the programme's."""
        segments = found.segments if new is None or self.accepted is None or self.accepted.found.has_clock else new
        found.shifts, found.has_clock = self.shifts, any(abs(it.ahead()) > packaged.NEAR for it in segments)
        self.stated = clocks.put_right(found, self.stated, self.is_part)
        if any(it.is_set() for it in segments):
            kinds["clock"] = ""

    def begin_of(self, it: PackagedSegment, before: PackagedSegment | None, states: int | None) -> int | None:
        """When the new segment `it` begins after the one `before`, if the list `states` an instant of it: then. If that isn't where the segment before ends, the
        packager may have set its clock; or before, if that is guessed."""
        if before is None or before.begins is None:
            return None if states is None else states - self.clock
        end = before.begins + before.said + it.gap
        if states is None:
            return end
        if abs(states - self.clock - end) > packaged.NEAR or self.is_guessed:
            self.clock = self.clock_at(states, before, it)
        is_exact = it.stated is not None or abs(states - self.clock - end) > max(SECOND, before.duration)  # (how long segments are isn't always said to the millisecond)
        return max(states - self.clock, before.begins + 1) if is_exact else end

    def clock_at(self, states: int, before: PackagedSegment, it: PackagedSegment) -> int:
        """How far the packager's clock is ahead of the programme's at the segment `it`, which follows the one `before` and of which the list `states` an instant
        far from where that ends. It was set if the packager leaves nothing out, and its instants were exact so far. Else it is as another rendition has it that
        has come there; or as it was, if the packager can have been away so long (other renditions say so once they come there, if it may have been set); or it was
        set, and the segments between are those that its numbers leave out."""
        end, longest = (before.begins or 0) + before.said + it.gap, max(SECOND, before.duration)
        by, missed, most = states - self.clock - end, (it.own - before.own - 1) * it.duration, self.waited * SECOND - self.new + AWAY * it.duration
        is_next = missed == 0 and (not it.discontinuities or not 0 < by <= most) and not self.leaves_out(before, it, states)
        if is_next and not self.is_guessed and self.is_exact():
            return self.clock + by
        theirs = self.siblings.clock_at(states, end - before.duration // 2) if self.siblings is not None else None
        if theirs is not None and (self.is_guessed or abs(by) > longest or abs(states - theirs - end) <= packaged.NEAR):
            self.is_guessed = False
            return theirs
        if abs(by) <= longest or missed > 0 and abs(by - missed) <= longest:
            self.is_guessed = self.is_guessed or self.siblings is not None and missed == 0 and by > packaged.NEAR and self.is_exact()
            return self.clock
        if 0 < missed <= max(most, self.new) and missed < STALE:
            return self.clock + by - missed
        is_away = 0 < by <= most and (it.discontinuities > 0 or missed != 0)
        return self.clock if is_away else self.clock + by - (self.away(it) if missed else 0)

    def clock_seen(self, segments: list[PackagedSegment]) -> int | None:
        """How far the packager's clock is ahead at the first of the `segments`, if they begin when those do that were listed, as another packager's of the same
        programme: by the first one that states the instant of one of these, counted back from there. None if they don't."""
        history, lasts = [*self.past, *self.last][-2 * max(len(self.last), len(segments)):], 0
        known = {it.stated // packaged.NEAR: it for it in history if it.stated is not None}
        for it in segments if begins_alike(history, segments) else []:
            near = None if it.stated is None else next((one for by in (0, -1, 1) if (one := known.get(it.stated // packaged.NEAR + by)) is not None), None)
            if near is not None and segments[0].stated is not None and it.stated is not None:
                return segments[0].stated - it.stated + near.ahead() + lasts
            lasts += it.duration + it.gap
        return None

    def is_counted(self, last: PackagedSegment, segments: list[PackagedSegment]) -> bool:
        """Whether the packager's numbers say that as many segments come after the segment `last`, up to the newest of the listed `segments`, as there was
        time for since that was read; of a part of a list, no more."""
        rest = self.waited * SECOND - missed_by(last, segments) - self.new
        return abs(rest) <= last.duration or self.is_part and rest > 0

    def away(self, it: PackagedSegment) -> int:
        """How long a packager was away that began again with the segment `it`, and set its clock: as long as no list came but for what
        this one lists, in whole segments."""
        if self.waited == float("inf") or not it.duration:
            return 0
        return max(0, round(self.waited * SECOND) - self.new + it.duration // 2) // it.duration * it.duration

    def is_exact(self) -> bool:
        """Whether the newest segments that were listed begin where those before them end, or later after a discontinuity, as of a packager that was away: then one whose
        instants are others has set its clock."""
        newest = [*self.past[-MOST_LOOKED_AT:], *self.last][-MOST_LOOKED_AT:]
        late = [((it.begins or 0) - (before.begins or 0) - before.said - it.gap, it.discontinuities > 0) for before, it in zip(newest, newest[1:])]
        return len(newest) > 2 and all(abs(by) <= packaged.NEAR or is_away and by > 0 for by, is_away in late)

    def set_within(self, last: PackagedSegment, found: PackagedList) -> int:
        """By how much, if by less than a segment, the packager has set its clock between the segment `last` and the list `found`, which doesn't go on; 0 if it hasn't, or
        if nothing says so."""
        longest = found.segments[-1].duration - packaged.NEAR
        return next((by for by in self.steps_said(last, found) if packaged.NEAR < abs(by) < longest), 0)

    def steps_said(self, last: PackagedSegment, found: PackagedList) -> Iterator[int]:
        """What says by how much the packager has set its clock between the segment `last` and the list `found`: its numbers, if they go on and all segments are as long;
        its date ranges, if those that it had listed begin so much later."""
        first = found.segments[0]
        missed = (first.own - last.own - 1) * first.duration
        is_regular = all(abs(it.duration - first.duration) <= packaged.NEAR for it in self.last[-MOST_LOOKED_AT:]) and self.is_exact()
        if missed > 0 and first.stated is not None and not first.discontinuities and is_regular and self.is_counted(last, found.segments):
            yield first.stated - self.clock - (last.begins or 0) - last.said - missed
        yield clocks.moved_by(found, self.stated)

    def clock_of(self, found: PackagedList) -> int:
        """How far the packager's clock is ahead of the programme's at the first segment of the list `found`, which doesn't go on from the last one."""
        segments = found.segments
        first = next((it for it in segments if it.stated is not None), None)
        if first is None or first.stated is None:
            return self.clock
        if not self.last or self.last[-1].begins is None:
            return self.clock
        last, newest = self.last[-1], segments[-1]
        end = (last.begins or 0) + last.duration
        until = first.stated + lasting(segments) - self.clock
        has_one_clock = newest.stated is not None and abs(newest.stated + newest.duration - first.stated - lasting(segments)) <= packaged.NEAR
        if has_one_clock and (by := self.set_within(last, found)):
            return self.clock + by
        theirs = self.siblings.clock_at(newest.stated, end) if self.siblings is not None and newest.stated is not None else None
        if theirs is not None and has_one_clock:
            return theirs
        if first.own > last.own and self.is_counted(last, segments):
            return self.clock_at(first.stated, last, first)
        seen, begins = self.clock_seen(segments), first.stated - self.clock
        history = [it for it in (*self.past, *self.last) if abs(it.ahead() - self.clock) <= packaged.NEAR]
        is_seen = until >= end - newest.duration or begins_alike(history, segments)
        if (seen is None or begins >= end - packaged.NEAR) and begins <= end + max(SECOND, last.duration) and is_seen:
            return self.clock  # (it goes on, or some of it was seen)
        return self.clock_at(first.stated, last, first) if seen is None else seen

    def before(self, first: PackagedSegment) -> PackagedSegment | None:
        """The segment before the `first` one of a list, if that is the last one of the last list."""
        return self.last[-1] if self.last and self.last[-1].begins is not None and first.number == self.last[-1].number + 1 else None

    def agree(self, segments: list[PackagedSegment]) -> None:
        """Gives the new ones of `segments`, which state no instant, those of the other renditions: a programme has one clock."""
        newest = self.last[-1].number if self.last else -1
        begins = self.siblings.begins() if self.siblings is not None else {}
        ended: int | None = None  # of the segment before, if it has another rendition's instant
        for it in segments if self.siblings is not None else []:
            known = begins.get(it.number) if it.number > newest else None
            if known is not None:
                it.begins = known
            elif ended is not None and not it.discontinuities:
                it.begins = ended + it.gap
            is_theirs = known is not None or (ended is not None and not it.discontinuities)
            ended = it.begins + it.duration if it.begins is not None and is_theirs else None
        for before, it in zip(segments[-2::-1], segments[:0:-1]):
            if before.begins is None and it.begins is not None:
                before.begins = it.begins - it.gap - before.duration

    def add_times(self, segments: list[PackagedSegment], clock: int) -> None:
        """Gives `segments`, which state no instant, theirs if it isn't known: the last one ends at the time of day `clock`, and the
        first one doesn't begin before the last list's end."""
        if segments[-1].begins is not None:
            return
        begins = clock // 1_000_000 * 1_000_000 - sum(it.duration + it.gap for it in segments)
        if self.last and self.last[-1].begins is not None:
            begins = max(begins, self.last[-1].begins + self.last[-1].duration)
        for it in segments:
            it.begins = begins + it.gap
            begins = it.begins + it.duration

    # ---- the head (4.3.1.2, 4.3.3)

    def set_head(self, found: PackagedList, kinds: dict[str, str]) -> Head:
        """Gives `found` the version, the target duration and the type of the first list; answers them."""
        longest = max(rounded(it.duration) for it in found.segments)
        target = max(longest, found.target or 1)
        kind = found.kind if found.kind in TYPES else None
        version = None if found.version is None else min(found.version, NEWEST_VERSION)
        head = self.head or Head(version, self.choices.target or target, kind)
        if longest > head.target:
            kinds["long segment"] = f"{longest} s is longer than the target duration of {head.target} s: set target = {longest}"
        if found.version != head.version:
            kinds["version"] = f"{found.version or 1} is written as {head.version or 1}"
        if found.target != head.target:
            kinds["target"] = str(head.target)
        if found.kind != head.kind:
            kinds["type"] = f"{found.kind or 'none'} is written as {head.kind or 'none'}"
        if found.is_ended and self.choices.is_endless and head.kind != "VOD":
            kinds["end"] = ""
            found.is_ended = False
        found.version, found.target, found.kind = head.version, head.target, head.kind
        return head


def rounded(duration: int) -> int:
    """The whole seconds nearest to `duration` nanoseconds, a half up (RFC 8216, 4.3.3.1)."""
    return (duration + SECOND // 2) // SECOND


def lasting(segments: list[PackagedSegment]) -> int:
    """The nanoseconds that `segments` last."""
    return sum(it.duration for it in segments)


def missed_by(last: PackagedSegment, segments: list[PackagedSegment]) -> int:
    """The nanoseconds that those between the segment `last` and the listed `segments` last, by the packager's numbers."""
    return (segments[0].own - last.own - 1) * lasting(segments) // len(segments)


def ahead_of(segments: list[PackagedSegment], last: PackagedSegment, taken: list[PackagedSegment]) -> list[PackagedSegment]:
    """Those of the segments `taken` from another rendition, after the segment `last`, that come before the listed `segments` by the packager's numbers; all
    if its numbers don't go on. If its clock went on meanwhile, the first of them come before `last`."""
    if segments[0].own <= last.own or not taken:
        return taken
    missed = segments[0].own - last.own - 1
    is_next = abs((taken[0].begins or 0) - (last.begins or 0) - last.duration) <= taken[0].duration
    return taken[:missed] if is_next or (segments[0].begins or 0) < (last.begins or 0) else taken[max(0, len(taken) - missed):]


def from_place(segments: list[PackagedSegment], place: int) -> list[PackagedSegment]:
    """The listed `segments` from the `place` on. Date ranges that stand before those in front hold for the whole list: they stand before the first one."""
    ranges, found = [line for it in segments[:place] for line in it.tags if line.startswith(packaged.DATE_RANGE)], segments[place:]
    return [replace(found[0], tags=[*ranges, *found[0].tags]), *found[1:]] if ranges and found else found


def without_ranges(it: PackagedSegment) -> PackagedSegment:
    """The segment `it` without date ranges: those of the newest list hold."""
    is_bare = not any(line.startswith(packaged.DATE_RANGE) for line in it.tags)
    return it if is_bare else replace(it, tags=[line for line in it.tags if not line.startswith(packaged.DATE_RANGE)])


def count_on(before: PackagedSegment, segments: list[PackagedSegment]) -> None:
    """Gives `segments` the numbers that follow those of the segment `before` them."""
    number, discontinuity = before.number, before.discontinuity
    for it in segments:
        number, discontinuity = number + 1, discontinuity + it.discontinuities
        it.number, it.discontinuity = number, discontinuity


def keep(it: PackagedSegment, old: PackagedSegment, kinds: dict[str, str]) -> None:
    """Makes the listed segment `it` what it was when it was listed last (`old`), and adds to `kinds` in what it was another."""
    if it.uri != old.uri:
        kinds["queries" if it.uri.partition("?")[0] == old.uri.partition("?")[0] else "changed segments"] = ""
    if not is_same(replace(it, uri=old.uri), old):
        kinds["changed segments"] = ""
    if it.duration != old.duration:
        it.tags = [old.title() if line.startswith(packaged.EXTINF) else line for line in it.tags]
    it.uri, it.byte_range, it.duration, it.keys, it.section = old.uri, old.byte_range, old.duration, old.keys, old.section
    it.stated = old.stated if it.stated is None else it.stated
    it.own = old.own if any(key.takes_number() for key in old.keys) else it.own
    it.number, it.discontinuity, it.discontinuities, it.begins, it.shift = old.number, old.discontinuity, old.discontinuities, old.begins, old.shift


def drop_gaps(found: PackagedList, kinds: dict[str, str]) -> None:
    """Leaves out the segments of `found` that aren't there (EXT-X-GAP). What else their lines say goes over to the next segment,
    which follows a discontinuity."""
    if not any(it.is_gap for it in found.segments):
        return
    kinds["gaps"] = ""
    segments: list[PackagedSegment] = []
    tags: list[str] = []
    length, steps, count = 0, 0, 0
    for it in found.segments:
        others = [line for line in it.tags if not line.startswith((packaged.EXTINF, "#EXT-X-BITRATE"))]
        if it.is_gap:
            length, steps, count, tags = length + it.duration, steps + it.discontinuities, count + 1, tags + others
            continue
        if count:
            it.gap, it.gaps, it.tags, it.discontinuities = length, count, tags + it.tags, max(1, steps + it.discontinuities)
        segments.append(it)
        length, steps, count, tags = 0, 0, 0, []
    found.segments, found.tail_tags = segments, tags + found.tail_tags


def drop_twice(found: PackagedList, kinds: dict[str, str]) -> None:
    """Leaves out the newest segment of `found` if it is the one before it again, at the same instant."""
    if len(found.segments) > 1 and growth.is_twice(found.segments[-2], found.segments[-1]):
        kinds["listed twice"] = ""
        found.segments.pop()


def intern(last: list[PackagedSegment], new: list[PackagedSegment]) -> None:
    """Gives the segments `new` the very keys and sections of `last` if they are equal, so that long ones are compared once."""
    keys = {it.keys: it.keys for it in last}
    sections = {it.section: it.section for it in last}
    seen: dict[int, object] = {}
    for it in new:
        if id(it.keys) not in seen:
            seen[id(it.keys)] = keys.setdefault(it.keys, it.keys)
        it.keys = seen[id(it.keys)]  # type: ignore[assignment]
        it.section = sections.setdefault(it.section, it.section)
