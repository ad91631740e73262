"""The breaks that a packager has signalled, and what each further signal makes of them."""
from __future__ import annotations

from bisect import bisect_left, insort
from collections import deque
from collections.abc import Collection
from dataclasses import dataclass
from typing import Any, NamedTuple

from . import splice
from .packaged import Instants, PackagedSegment
from .playlist import SECOND, instant_text, seconds_text
from .signals import LONGEST, Signal
from .splice import Kind, Message
from .values import changed

AUTO = frozenset(it for it in splice.SPANS if it not in splice.PROMOS)  # the types that begin a break if the settings name none
TOLERANCE = SECOND // 10  # adsplice's own
STALE = 1800 * SECOND  # after which a break without a duration that nothing ended is over
MOST = 256  # breaks known at a time: adsplice decides no more
MOST_ALIKE = 8  # segments that are compared, to see whether they are cut regularly
SHOWN = 100  # letters of an ID that are told
Order = tuple[int, int]  # of a tag: the place of the segment before which it stands, and its place among the tags there


@dataclass
class Break:
    """A signalled break: its `id`; its `start`, the instant of a segment once that is listed (`is_settled`); how long it was
    `planned` to last; the instant `until` which it lasts if a signal said so, which is a segment's once that is listed
    (`is_ended`). What began it: its `name` by the standard, the segmentation `type` (none for a splice_insert and for a tag), the
    `event` and the `upid`, and which of how many breaks it is (`part`, `parts`; 0 if that isn't said). `number`: of its first segment. `latest`: the
    instant of the newest signal that spoke of it. `is_in_step`: its SCTE35-IN came before any segment after it. `others`: further attributes of its tag. `is_told`: its end was
    told. `slack` and `end_slack`: how far from its start and its end it may begin and end in truth, if only a rendition with longer segments than others
    has shown that."""

    id: str
    start: int
    number: int
    name: str
    type: int | None = None
    event: int = 0
    upid: str = ""
    planned: int | None = None
    until: int | None = None
    is_settled: bool = True
    is_ended: bool = False
    is_in_step: bool = False
    latest: int = 0
    others: str = ""
    is_told: bool = False
    part: int = 0
    parts: int = 0
    slack: int = 0
    end_slack: int = 0

    def end(self) -> int | None:
        """Where it ends as far as that is known, by a signal or else by its planned duration."""
        return self.until if self.until is not None else self.start + self.planned if self.planned is not None else None

    def is_over(self, instant: int) -> bool:
        """Whether it is over at the `instant`."""
        end = self.end()
        return instant >= (end if end is not None else max(self.start, self.latest) + STALE)

    def is_past_plan(self, instant: int) -> bool:
        """Whether its planned end is before the `instant`; not if it has none."""
        return self.planned is not None and instant > self.start + self.planned

    def is_extended(self) -> bool:
        """Whether it lasts longer than it was planned to."""
        return self.until is not None and self.is_past_plan(self.until)

    def ended_about(self, instant: int, half: int) -> bool:
        """Whether it ended about the `instant`, which is known to `half` a segment, as a rendition with longer segments has shown: these say less of it."""
        return self.is_ended and self.end_slack > 0 and self.until is not None and self.start + half < instant and abs(self.until - instant) <= self.end_slack + half

    def extend(self, until: int, least: int) -> None:
        """It lasts `until` then, if that is later than its end by more than `least` and no signal has ended it before that was planned."""
        end = self.end()
        if end is not None and until > end + least and (self.until is None or self.is_extended()):
            self.until = until


@dataclass(frozen=True)
class Placed:
    """A `signal` with its place: the instant `at`, the `number` of the segment before which it stands, and its `order` among the
    list's lines. `id` is that of its date range. `is_own_end`: it ends the break of that ID, whatever began it; `is_stated`: at an instant
    that the date range states. `others`: further attributes of its tag. `is_in_step`: no new segment is listed before it."""

    signal: Signal
    at: int
    number: int
    order: Order
    id: str = ""
    is_own_end: bool = False
    others: str = ""
    is_in_step: bool = False
    is_stated: bool = False

    def key(self, line: Timeline) -> tuple[int, int, int, Order]:
        """The order in which signals count on `line`: by instants, ends before begins, an outer span before those within it, and a bare
        tag after the sections, which say what it is."""
        message = self.signal.message
        rank = splice.SPANS.index(message.type) if message.kind == Kind.BEGIN and message.type in splice.SPANS else -1
        rank = len(splice.SPANS) if message.kind == Kind.BEGIN and self.signal.is_bare() else rank
        return line.aligned(self.at), message.kind, rank, self.order


@dataclass(frozen=True)
class Line:
    """Something to tell: of `who`, with a `word` in place of a fault."""

    who: str
    word: str
    text: str


class Numbering(NamedTuple):
    """The media numbers of a rendition beside those of its programme: its own number `own` is the programme's `theirs`, and `many` of the programme's
    segments are as long as `few` of its own."""

    own: int = 0
    theirs: int = 0
    many: int = 1
    few: int = 1

    def of(self, number: int) -> int:
        """The programme's media number of the rendition's `number`."""
        return self.theirs + (number - self.own) * self.many // self.few


class Timeline:
    """The `instants` of a list's `segments`. With `aligns` what lies within half a segment of a segment's begin is put there. `numbering`: which media
    numbers its segments have in a programme's other renditions."""

    def __init__(self, segments: list[PackagedSegment], instants: Instants, aligns: bool = True, numbering: Numbering | None = None) -> None:
        self.segments, self.aligns, self.numbering = segments, aligns, numbering or Numbering()
        self.begins, self.low = instants
        self.end = self.begins[-1] + segments[-1].duration
        self.first = min(self.begins[self.low], *self.begins[:self.low]) if self.low else self.begins[0]

    def end_after(self, start: int, end: int) -> int:
        """The instant `end` at which a break ends that begins with the segment at `start`: with the next segment at the earliest."""
        first = next((it for it in self.segments if it.begins is not None and abs(it.begins - start) <= TOLERANCE), None)
        return end if first is None else max(end, start + first.duration)

    def lasts(self, start: int, at: int, planned: int) -> int:
        """How long a break lasts that begins with the segment at `start`, and is stated to last `planned` from the instant `at` on: up to the segment that is
        nearest to that end, if it is listed."""
        found = self.aligned(at + planned, True) - start if self.is_reached(at + planned, True) else planned
        return found if found > 0 else planned

    def is_shortest(self) -> bool:
        """Whether no rendition of the programme has shorter segments."""
        return self.numbering.many == self.numbering.few

    def half(self, instant: int) -> int:
        """Half the duration of the segment in which the `instant` is, or of the one nearest to it. The newest one may be in progress: it counts as long as
        those before it, at the least."""
        place = min(max(bisect_left(self.begins, instant + 1, self.low) - 1, self.low), len(self.segments) - 1)
        first = place if place + 1 < len(self.segments) else max(self.low, place - 2)
        return max(it.lasts() for it in self.segments[first:place + 1]) // 2

    def nearest(self, instant: int, is_end: bool = False) -> PackagedSegment | None:
        """The listed segment that begins within half a segment of the `instant`; none if there is none, or if the end of the list, where the next segment
        will begin, is nearer. Of two that are as near a break begins with the later one, which may be still to come. It ends (`is_end`) with the earlier one,
        and with that it begins, too, in segments that are longer than those of other renditions."""
        place = bisect_left(self.begins, instant, self.low)
        near, later = [place for place in (place - 1, place) if self.low <= place < len(self.begins)], self.is_shortest() and not is_end
        found = min(near, key=lambda it: (abs(self.begins[it] - instant), -it if later else it))
        by, last = abs(self.begins[found] - instant), abs(self.end - instant)
        return self.segments[found] if by <= self.half(instant) and (by < last or by == last and not later) else None

    def aligned(self, instant: int, is_end: bool = False) -> int:
        """The begin of the listed segment that is nearest to the `instant`; that itself if none is. `is_end` as in `nearest`."""
        found = self.nearest(instant, is_end) if self.aligns else None
        return instant if found is None or found.begins is None else found.begins

    def begin_from(self, own: int, instant: int, fresh: int) -> int:
        """Where a break begins whose nearest segment to the `instant` begins at `own`: with the segment after that if it is as near, and the first new one, which
        is at the place `fresh`, or will come after the list. Viewers have the one before it without a pod."""
        coming = self.begins[fresh] if fresh < len(self.begins) else self.end
        is_later = fresh > 0 and self.begins[fresh - 1] == own and coming - instant <= instant - own + TOLERANCE
        return coming if is_later else own

    def is_reached(self, instant: int, is_end: bool = False) -> bool:
        """Whether a segment is listed that begins at the `instant` or after it, or within half a segment before it. `is_end` as in `nearest`."""
        return self.begins[-1] >= instant or self.nearest(instant, is_end) is self.segments[-1]

    def will_have(self, instant: int) -> bool:
        """Whether the `instant` is after the listed segments."""
        return instant >= self.end - TOLERANCE

    def place_of(self, instant: int) -> int:
        """The segment to come that begins nearest to the `instant`, counted from the list's end, if they go on as the last one is."""
        duration = max(1, self.segments[-1].duration)
        return (instant - self.end + duration // 2) // duration

    def usual(self) -> int:
        """The mean duration of the newest segments; 0 if they differ in their durations."""
        durations = [it.duration for it in self.segments[-MOST_ALIKE:]]
        return sum(durations) // len(durations) if max(durations) - min(durations) <= TOLERANCE // 2 else 0

    def expected(self, instant: int) -> int:
        """When the segment begins that is nearest to the `instant` after the listed ones, if these go on as they are; the instant itself if that
        isn't known, or if it is within TOLERANCE."""
        duration = self.usual() if self.aligns and self.will_have(instant) else 0
        found = self.end + (instant - self.end + duration // 2) // duration * duration if duration else instant
        return found if abs(found - instant) > TOLERANCE else instant

    def will_begin(self, instant: int) -> bool:
        """Whether a segment begins at the `instant` after the listed ones, if these go on as they are: it isn't known of segments
        that differ in their durations."""
        duration = self.segments[-1].duration if self.usual() else 0
        if not duration:
            return False
        rest = (instant - self.end) % duration
        return self.will_have(instant) and min(rest, duration - rest) <= TOLERANCE


def shown(text: str) -> str:
    """The ID `text` as a word of a line: its first letters, without spaces and what isn't printable."""
    return "".join(it if it.isprintable() and it != " " else "_" for it in text[:SHOWN]) + ("…" if len(text) > SHOWN else "")


class Breaks:
    """The known breaks in the order of their starts. `types` are the segmentation types that begin one; with `is_narrowed` a tag
    beside a section of another type begins none, either."""

    def __init__(self, types: frozenset[int] = AUTO, is_narrowed: bool = False) -> None:
        self.types, self.is_narrowed = types, is_narrowed
        self.known: list[Break] = []
        self.cancelled: set[str] = set()  # IDs of breaks that were cancelled before they began
        self.told: list[Line] = []
        self.recent: deque[Line] = deque(maxlen=MOST)  # that were told: each rendition of a programme says the same
        self.is_first = True  # no list was looked at before
        self.shift = 0  # how much later viewers have instants, which are told

    def copy(self) -> Breaks:
        """The same breaks, of which nothing is told yet."""
        found = changed(self)
        found.known, found.cancelled, found.told, found.recent = [changed(it) for it in self.known], set(self.cancelled), [], self.recent.copy()
        return found

    def tell(self, who: str, word: str, text: str) -> None:
        """Tells a line, once."""
        line = Line(who, word, text)
        if line not in self.recent:
            self.recent.append(line)
            self.told.append(line)

    def ignore(self, it: Placed, why: str) -> None:
        """Tells that the signal `it` is ignored, and `why`."""
        message = it.signal.message
        event = f" (event {message.event})" if message.event else ""
        self.tell("signals", "Ignored", f"segment {it.number}: {message.name()}{event} {why}")

    def too_many(self) -> None:
        """Tells that there are more breaks, or signals, than are looked at."""
        self.tell("signals", "TooMany", f"there are more signals than are looked at, or more than {MOST} breaks that aren't over; the rest is ignored")

    def latest(self, instant: int) -> Break | None:
        """The break that begins last of those that have begun at the `instant`."""
        return next((it for it in reversed(self.known) if it.start <= instant), None)

    def named(self, name: str) -> Break | None:
        """The break of the ID `name`."""
        return next((it for it in self.known if it.id == name), None)

    # ---- begins

    def begin(self, it: Placed, line: Timeline) -> Break | None:
        """The signal `it` begins a break; that, if it isn't one that is known, or within one."""
        message = it.signal.message
        if message.type is not None and message.type not in self.types and (self.is_narrowed or not it.signal.is_cue):
            self.ignore(it, "begins no break by the settings")
            return None
        start, half = line.aligned(it.at) if line.is_shortest() else it.at, line.half(it.at)
        if self.is_shown_again(it, start, line):
            return None
        before = self.latest(start + half)
        planned = self.duration_of(it)
        is_known = self.named(it.id) is not None or not it.id and self.named(self.name_of(it, line.nearest(start), line)) is not None
        if is_known or it.id in self.cancelled or planned is not None and start + planned <= line.first:
            return None  # (it is known, or was over before this list)
        if before is not None and not self.is_next(before, it, start, line) and self.is_spoken_of(before, it, start, half, planned):
            return None
        if len(self.known) == MOST:
            self.too_many()
            return None
        if before is not None and not before.is_over(start + half):
            before.until = start
        return self.add(it, line, start, planned if planned is None else line.lasts(start, it.at, planned))

    def is_shown_again(self, it: Placed, start: int, line: Timeline) -> bool:
        """Whether the signal `it`, at `start`, is that of a break which a rendition with longer segments has shown already. That begins there then: longer
        segments say less of it."""
        message = it.signal.message
        near = [one for one in self.known if one.slack and abs(one.start - start) <= one.slack + line.half(start)
                and message.type == one.type and (0 in (message.event, one.event) or message.event == one.event) and it.id in ("", one.id)]
        if not near or not line.is_shortest():
            return False
        one = min(near, key=lambda one: abs(one.start - start))
        one.number, one.start, one.latest, one.slack = line.numbering.of(it.number), start, max(one.latest, start), 0
        self.known.sort(key=lambda it: it.start)
        return True

    def duration_of(self, it: Placed) -> int | None:
        """How long the break of the signal `it` is planned to last: by its tag, or else by its section."""
        planned = it.signal.planned or it.signal.message.duration
        if planned is not None and planned > LONGEST:
            self.ignore(it, f"says that it lasts {seconds_text(planned)} s, over a day: taken as no duration")
            return None
        return planned

    @staticmethod
    def is_next(before: Break, it: Placed, start: int, line: Timeline) -> bool:
        """Whether the signal `it` announces a break of an event of its own that begins at `start`, in another segment to come than the
        announced break `before`: two that touch may be stated less than half a segment apart."""
        event = it.signal.message.event
        is_own = it.signal.message.type == before.type and event and before.event and event != before.event
        return bool(is_own) and (line.will_have(before.start) or not before.is_settled) and line.place_of(start) != line.place_of(line.aligned(before.start))

    def is_spoken_of(self, before: Break, it: Placed, start: int, half: int, planned: int | None) -> bool:
        """Whether the signal `it`, at `start`, says once more that the break `before` begins or is open, or is of a span within it.
        Then that break isn't over: with the same event, or without one, it is the same; with another type it is an inner one."""
        message = it.signal.message
        is_same = message.type == before.type and message.event in (0, before.event) or it.signal.is_cue and message.event == 0
        if start - before.start <= half:
            before.planned = planned if before.planned is None and before.until is None and is_same else before.planned
        elif before.is_over(start + half):
            return False
        elif is_same and before.end() is None and start - before.latest > 5 * half:
            return False  # (nothing spoke of it for two segments, so nothing says that it goes on)
        elif not is_same and message.type == before.type:
            return False
        if is_same:
            before.latest = max(before.latest, start)
            if message.event and planned is not None and not before.is_past_plan(start - half):
                before.extend(before.start + planned, half)
        else:
            self.ignore(it, f"is within the break {shown(before.id)}")
        return True

    def add(self, it: Placed, line: Timeline, start: int, planned: int | None) -> Break:
        """A new break by the signal `it`, which begins at `start` and is `planned` so."""
        message, found = it.signal.message, line.nearest(start)
        is_section = message.type is not None or message.event
        name = message.name() if is_section or not it.signal.is_cue else "a tag without a section"
        number = line.numbering.of(found.number if found else it.number)
        new = Break(it.id or self.name_of(it, found, line), start, number, name, message.type, message.event, message.upid, planned,
                    is_settled=line.is_shortest() and found is not None or start < line.first or not line.aligns, latest=start, others=it.others, part=message.part, parts=message.parts, slack=0 if line.is_shortest() or it.id else line.half(start))
        insort(self.known, new, key=lambda one: one.start)
        length = "without a duration" if planned is None else f"planned for {seconds_text(planned)} s"
        self.tell(f"breaks/{shown(new.id)}", "Begins", f"at {instant_text(start + self.shift)}, {length} ({name})")
        return new

    @staticmethod
    def name_of(it: Placed, first: PackagedSegment | None, line: Timeline) -> str:
        """The ID of a break that the signal `it` begins without one: by its event, and by the media number of its `first` segment on `line`."""
        return f"{it.signal.message.event or 'cue'}-{line.numbering.of(first.number if first else it.number)}"

    def move(self, one: Break, start: int, line: Timeline, fresh: int) -> bool:
        """The break `one` is said to begin at `start` now. It does, unless it has begun on `line` before
        the place `fresh`, or in segments that have left it, or would have begun by then. Whether it does."""
        half, begins = line.half(one.start), line.begins[line.low:fresh]
        if not begins or one.start < begins[0] - half or any(abs(it - one.start) <= half for it in begins) or start < line.begins[-1] - half:
            return False
        found, by = line.nearest(start), line.aligned(start) - one.start
        one.is_settled = found is not None or not line.aligns
        one.number = line.numbering.of(found.number) if found else one.number
        one.start, one.latest, one.until, one.is_ended = one.start + by, one.latest + by, None, False
        self.known.sort(key=lambda it: it.start)
        if by:
            self.tell(f"breaks/{shown(one.id)}", "Moved", f"to {instant_text(one.start + self.shift)}: the packager states another START-DATE before it has begun")
        return True

    def goes_on(self, it: Placed, line: Timeline, has_begun: bool) -> Break | None:
        """The signal `it` says that a break goes on. If the feed began within it, it becomes known, as one that began before; but
        not if a signal of the same list said more of it (`has_begun`)."""
        half, elapsed, planned = line.half(it.at), it.signal.elapsed or 0, self.duration_of(it)
        before = self.latest(it.at + half)
        if before is not None and not before.is_over(it.at - half):
            before.latest = max(before.latest, it.at)
            before.planned = planned if before.end() is None else before.planned
            if planned is not None and not before.is_past_plan(it.at - half):
                before.extend(before.start + planned, half)
            return None
        if has_begun or not self.is_first or not elapsed or planned is not None and elapsed >= planned - half:
            return None
        return self.begin(Placed(it.signal, it.at - elapsed, it.number - (elapsed + half) // max(2 * half, 1), it.order), line)

    # ---- ends

    def finish(self, it: Placed, line: Timeline) -> None:
        """The signal `it` ends a break: the one of its own ID; by a tag that says so the newest open one; by a section one of
        its type, and of its event if both have one."""
        message, at, half = it.signal.message, line.aligned(it.at, True), line.half(it.at)
        own = self.named(it.id) if it.is_own_end else None
        if it.is_own_end and own is None and it.signal.is_cue:
            return
        if own is not None and it.is_stated and not own.is_told:
            own.extend(it.at, half)
        for one in [own] if own else reversed(self.known):
            is_its = one.type == message.type and (0 in (one.event, message.event) or one.event == message.event)
            if line.is_shortest() and one.ended_about(at, half) and (own or it.signal.is_cue or is_its):
                one.until, one.end_slack = at, 0
                return
            least = half + (one.slack if line.is_shortest() else 0)  # (what a rendition with longer segments has shown may begin later)
            if one.is_ended or at - one.start <= least or one.is_over(at - half):
                continue
            if own or it.signal.is_cue or is_its:
                end = one.end()
                one.until = at if end is None else min(at, end)
                one.is_in_step = it.is_in_step
                return

    def cancel(self, it: Placed, of: list[Break]) -> None:
        """The signal `it` cancels the breaks of its event among `of`: one that hasn't begun is forgotten, one that has ends."""
        message = it.signal.message
        for one in [one for one in of if message.event and one.event == message.event]:
            if one.start >= it.at - TOLERANCE:
                self.known.remove(one)
                self.cancelled.add(one.id)
                self.tell(f"breaks/{shown(one.id)}", "Cancelled", f"before it began ({message.name()}, event {message.event})")
            elif not one.is_over(it.at) and not one.is_ended:
                one.until = it.at
                self.tell(f"breaks/{shown(one.id)}", "Cancelled", f"within ({message.name()}, event {message.event})")

    # ---- what a list shows of them

    def settle(self, line: Timeline) -> None:
        """Puts starts and ends that the list `line` reaches on its segments, and tells of the ends. A planned end is put on a segment before it, too, if that is
        the nearest and follows a discontinuity. Segments that are longer than those of other renditions say too little of that."""
        for one in self.known:
            if not one.is_settled and line.is_shortest() and line.is_reached(one.start):
                found = line.nearest(one.start)
                one.number = found.number if found else one.number
                one.start, one.is_settled = line.aligned(one.start), True
            if one.until is not None and not one.is_ended and line.is_reached(one.until, True):
                one.end_slack = 0 if line.is_shortest() else line.half(one.until)
                one.until, one.is_ended = line.aligned(one.until, True) if line.is_shortest() else one.until, True
            end = one.end()
            near = line.nearest(end, True) if end is not None and one.until is None and line.aligns and line.is_shortest() else None
            if near is not None and near.discontinuities and one.start + TOLERANCE < (near.begins or 0) < (end or 0) - TOLERANCE:
                one.until, one.is_ended, end = near.begins, True, near.begins
            if end is not None and not one.is_told and line.is_reached(end, True):
                one.is_told = True
                self.tell(f"breaks/{shown(one.id)}", "Ends", f"at {instant_text(end + self.shift)}, after {seconds_text(end - one.start)} s ({one.name})")
        self.known.sort(key=lambda it: it.start)

    def forget(self, first: int, moved: Collection[str]) -> None:
        """Forgets the breaks that were over at the instant `first`, since which segments are listed. Those of the IDs `moved` stay while a list has
        them: it states another START-DATE than what was written."""
        self.known = [it for it in self.known if not it.is_over(first) or it.id in moved]

    def kept(self) -> list[dict[str, Any]]:
        """The breaks as JSON."""
        return [dict(vars(it)) for it in self.known]
