"""The translator: signals of every style become date ranges that adsplice knows, one for each break.

It has the state of one channel, or of all renditions of a programme: which breaks are known, and which signals were looked at.
A list that it was given before changes nothing."""
from __future__ import annotations

from dataclasses import dataclass, field, fields
from typing import Any, NamedTuple

from . import packaged, signals, splice
from .breaks import AUTO, STALE, TOLERANCE, Break, Breaks, Line, Numbering, Order, Placed, Timeline
from .date_ranges import STATED, DateRange, RangeReader, is_leaving, is_same, ranges_of
from .packaged import DATE_RANGE, PackagedList, PackagedSegment
from .playlist import instant_text, seconds_text
from .signals import SPLICES
from .splice import Kind
from .values import changed

MOST_LINES = 16  # told of one list
MOST_STYLES = 32  # that are told as not translated
MOST_SIGNALS = 1024  # date ranges with sections, and signals of other tags, of one list that are looked at


@dataclass
class Translated:
    """What a list became: the EXT-X-DATERANGE lines in place of its own (`ranges`; none if it may pass as it is), what to tell,
    and the breaks that became known."""

    ranges: list[str] | None = None
    told: list[Line] = field(default_factory=list)
    known: list[Break] = field(default_factory=list)


class Mark(NamedTuple):
    """The newest segment of a list that was looked at: by its URI and instant it is found again, whatever number it has then. `before`: when the
    newest one of the list before began; a break that wasn't over then may be open yet. `own`: its number by the packager; `duration`: its nanoseconds."""

    number: int
    uri: str
    begins: int
    before: int | None = None
    own: int = 0
    duration: int = 0

    def segment(self) -> PackagedSegment:
        """As much of the segment as is known."""
        return PackagedSegment(self.uri, self.own, self.duration, number=self.number, begins=self.begins)

    def since(self, first: int) -> int:
        """The instant since which breaks may be open, if the list's segments begin from the instant `first` on."""
        return first if self.before is None else min(first, self.before)


class Translator:
    """Translates lists. `types`: the segmentation types that begin a break, if they are named. With `aligns` starts are put on
    the begin of a segment that is near. `tolerance`: the channel's, in nanoseconds."""

    def __init__(self, types: frozenset[int] | None = None, aligns: bool = True, tolerance: int = TOLERANCE) -> None:
        self.breaks, self.aligns, self.tolerance = Breaks(AUTO if types is None else types, types is not None), aligns, tolerance
        self.done: dict[str, Mark] = {}  # of each rendition
        self.firsts: dict[str, int] = {}  # the instant of the first one
        self.seen: dict[str, dict[str, set[str]]] = {}  # of each rendition's listed date ranges the attributes that were looked at
        self.stated: dict[str, dict[str, int]] = {}  # of each rendition's listed date ranges the START-DATE
        self.cuts: dict[str, dict[str, list[int | None]]] = {}  # where each rendition's list has begun and ended breaks
        self.styles: set[str] = set()  # that were told as not translated

    def copy(self) -> Translator:
        """The same state, as a value of its own."""
        found = changed(self)
        found.breaks, found.done, found.styles = self.breaks.copy(), dict(self.done), set(self.styles)
        found.firsts = dict(self.firsts)
        found.seen = {name: {id_: set(said) for id_, said in it.items()} for name, it in self.seen.items()}
        found.stated = {name: dict(it) for name, it in self.stated.items()}
        found.cuts = {name: {id_: [*cut] for id_, cut in it.items()} for name, it in self.cuts.items()}
        return found

    # ---- what a list says

    def take(self, found: PackagedList, rendition: str = "", numbering: Numbering | None = None) -> Translated:
        """Looks at the list `found` of a `rendition`, whose media numbers have this `numbering` in its programme; answers what it becomes."""
        if not found.segments:
            return Translated()
        ranges, fresh = ranges_of(found), self.first_new(found, rendition)
        instants = found.instants()
        self.look_for_styles(found, ranges, fresh, instants is None)
        if instants is None:
            return Translated(None, self.tellings())
        line, before = Timeline(found.segments, instants, self.aligns, numbering), {it.id for it in self.breaks.known}
        self.restate(ranges, line, fresh, rendition)
        self.count(self.of_segments(found, fresh) + self.of_ranges(ranges, line, fresh, rendition), line)
        self.breaks.settle(line)
        newest, last = found.segments[-1], self.done.get(rendition)
        if fresh < len(found.segments):
            self.done[rendition] = Mark(newest.number, newest.uri, line.begins[-1], None if last is None else last.begins, newest.own, newest.duration)
        self.firsts[rendition] = self.done[rendition].since(line.first)
        self.breaks.is_first = False
        near = [first for first in self.firsts.values() if first >= line.first - STALE]  # (a rendition that stands still for long holds nothing)
        self.breaks.forget(min(near, default=line.first), {it.id for it in self.breaks.known if any(self.is_moved(it, name) for name in self.stated)})
        self.cut(line, rendition, fresh)
        listed = [it for it in self.breaks.known if self.is_listed(it, line, rendition)]
        is_known = self.passes(ranges, listed, line, rendition)
        others = [it.line for it in ranges if not it.is_translated() and self.breaks.named(it.id) is None]
        own = found.date_ranges() if found.is_put_right else None
        lines = own if is_known else others + [self.written(it, line, rendition) for it in listed]
        return Translated(lines, self.tellings(), [it for it in self.breaks.known if it.id not in before])

    def restate(self, ranges: list[DateRange], line: Timeline, fresh: int, rendition: str) -> None:
        """A packager states another START-DATE of a break: one that hasn't begun in a segment before the place `fresh` begins then. The rest as in
        `of_ranges`."""
        before = self.stated.get(rendition, {})
        self.stated[rendition] = {it.id: start for it in ranges if it.is_splice() and (start := it.start()) is not None}
        moved = {name: start for name, start in self.stated[rendition].items() if abs(start - before.get(name, start)) > self.tolerance}
        for name, start in moved.items():
            one = self.breaks.named(name)
            if one is None or abs(one.start - start) <= (line.half(start) if one.is_settled else self.tolerance):
                continue
            if not self.breaks.move(one, start, line, fresh):
                continue
            for cuts in self.cuts.values():
                cuts.pop(name, None)

    def first_new(self, found: PackagedList, rendition: str) -> int:
        """The place of the first segment of the list `found` that the `rendition` hasn't listed before; past the last one if none is."""
        done = self.done.get(rendition)
        if done is None:
            return 0
        for place in range(len(found.segments) - 1, -1, -1):
            it = found.segments[place]
            if it.begins == done.begins and it.uri == done.uri:
                return place + 1
        return next((place for place, it in enumerate(found.segments) if it.number > done.number), len(found.segments))

    def count(self, placed: list[Placed], line: Timeline) -> None:
        """Takes in the signals that are `placed` on `line`: a cancellation first of all for the breaks that were known, and at the
        end for those that came before it in the same list."""
        begun: dict[str, Order] = {}
        cancels = [it for it in placed if it.signal.message.kind == Kind.CANCEL]
        for it in cancels:
            self.breaks.cancel(it, list(self.breaks.known))
        for it in sorted(placed, key=lambda one: one.key(line)):
            if it.signal.message.kind == Kind.OTHER:
                self.breaks.ignore(it, "is of no break")
            elif it.signal.message.kind == Kind.END:
                self.breaks.finish(it, line)
            elif it.signal.message.kind == Kind.BEGIN:
                goes_on = it.signal.elapsed is not None
                new = self.breaks.goes_on(it, line, bool(begun)) if goes_on else self.breaks.begin(it, line)
                begun |= {new.id: it.order} if new else {"": (-1, 0)} if not goes_on else {}
        for it in cancels:
            self.breaks.cancel(it, [one for one in self.breaks.known if begun.get(one.id, it.order) < it.order])

    def of_segments(self, found: PackagedList, fresh: int) -> list[Placed]:
        """The signals of the tags before the segments from the place `fresh` on, which weren't listed before."""
        placed = list[Placed]()
        for place, it in enumerate(found.segments[fresh:], fresh):
            if len(placed) >= MOST_SIGNALS:
                self.breaks.too_many()
                break
            said = signals.of_segment(it.tags)
            for text in said.unread:
                self.breaks.tell("signals", "Unread", f"segment {it.number}: {text}")
            placed += [Placed(one, it.begins or 0, it.number, (place, len(it.tags))) for one in said.signals]
        return placed

    def of_ranges(self, ranges: list[DateRange], line: Timeline, fresh: int, rendition: str) -> list[Placed]:
        """The signals of those attributes of the date ranges `ranges` that weren't looked at before, in a list of `rendition` whose
        first new segment is at the place `fresh`."""
        starts: dict[str, int] = {it.id: it.start for it in self.breaks.known}
        owners = set(starts) | {it.id for it in ranges if "SCTE35-OUT" in it.said or "SCTE35-CMD" in it.said}
        listed = {it.id for it in ranges}
        seen = self.seen[rendition] = {name: said for name, said in self.seen.get(rendition, {}).items() if name in listed}
        self.breaks.cancelled &= {name for it in self.seen.values() for name in it}
        placed = list[Placed]()
        for it in ranges:
            if (start := it.start()) is not None:
                starts.setdefault(it.id, line.aligned(start))
            new = {name for name in (*SPLICES, *STATED) if name in it.said} - seen.get(it.id, set())
            if not new or not it.is_splice() and it.id not in owners:
                continue
            if it.id not in seen and len(seen) >= MOST_SIGNALS:
                self.breaks.too_many()
                break
            seen.setdefault(it.id, set()).update(new)
            reader = RangeReader(it, line, fresh, starts.get(it.id) if it.id in owners else None, self.breaks)
            placed += [one for name in SPLICES if name in new for one in reader.signals(name)]
            placed += reader.stated() if not new & set(SPLICES) else []
        return placed

    def look_for_styles(self, found: PackagedList, ranges: list[DateRange], fresh: int, is_untimed: bool) -> None:
        """Tells, once for each, of the styles of the list `found` that aren't translated, and of signals without instants (`is_untimed`).
        `fresh`: the place of its first new segment."""
        names = {signals.style_of(line) for it in found.segments[fresh:] for line in it.tags if not line.startswith(DATE_RANGE)} - {""}
        if is_untimed and (names or any(it.is_splice() for it in ranges)):
            self.breaks.tell("signals", "NoTimes", "no segment has an instant, so no break of this playlist is entered")
        for it in sorted(names - self.styles):
            if not signals.is_translated(it) and len(self.styles) < MOST_STYLES:
                self.styles.add(it)
                self.breaks.tell("signals", "Untranslated", f"the playlist signals by {it}, a style that isn't translated: it begins no break")

    def tellings(self) -> list[Line]:
        """What is to be told since the last time; one line in place of many."""
        told, self.breaks.told = self.breaks.told, []
        if len(told) <= MOST_LINES:
            return told
        one = next((it for it in told if it.word == "TooMany"), told[0])
        return [Line(one.who, one.word, f"{one.text}; {len(told) - 1} more that this playlist says isn't told")]

    # ---- what is written

    def is_listed(self, one: Break, line: Timeline, rendition: str) -> bool:
        """Whether the break `one` is written in the list of `line` of the `rendition`: a segment of it is listed, or is to come. One without an end is
        written as long as its first segment is listed; one that may yet be put on a segment isn't written before that is listed, also if
        another rendition has come to it."""
        end, start, first = one.end(), self.cuts[rendition][one.id][0], self.firsts[rendition]
        if line.aligns and start is None and not line.is_reached(one.start) and not line.will_begin(one.start):
            return False
        return end > first if end is not None else (one.start if start is None else start) >= first - TOLERANCE

    def cut(self, line: Timeline, rendition: str, fresh: int) -> None:
        """Takes in where the breaks begin and end in the `rendition`, whose list is that of `line`, once it has come there: at its own nearest
        segment, if it is cut elsewhere than the rendition that showed the signal. That stays, since it is written then. Of breaks that follow one another
        the later one begins where the one before it has ended, at the earliest. `fresh`: the place of the list's first new segment."""
        cuts = self.cuts.get(rendition, {})
        self.cuts[rendition] = {it.id: cuts.get(it.id, [None, None]) for it in self.breaks.known}
        before: Break | None = None
        for it in self.breaks.known:
            found = self.cuts[rendition][it.id]
            for place, instant in enumerate((it.start, it.until)):
                if instant is not None and found[place] is None and line.is_reached(instant, bool(place)):
                    own = line.aligned(instant, bool(place))
                    own = own if place else line.begin_from(own, instant, fresh)
                    found[place] = own if abs(own - instant) > self.tolerance else instant
                    found[place] = self.in_order(line, rendition, it, before, place)
            before = it

    def in_order(self, line: Timeline, rendition: str, one: Break, before: Break | None, place: int) -> int | None:
        """Where the break `one` begins (`place` 0) or ends (1) in the `rendition`, whose segments may be longer than those of other renditions: it has a
        segment at least, and begins no earlier than the break `before` it ended, if it follows that."""
        start, until = self.cuts[rendition][one.id]
        if line.is_shortest():
            return (start, until)[place]
        if place:
            return until if start is None or until is None else line.end_after(start, until)
        ended = None if before is None else before.end()
        own = None if before is None or ended is None or one.start < ended - self.tolerance else self.cuts[rendition][before.id][1]
        return start if own is None or start is None else max(start, own)

    def is_cut_elsewhere(self, one: Break, rendition: str) -> bool:
        """Whether the break `one` begins or ends elsewhere in the `rendition` than where its signal was shown."""
        start, until = self.cuts[rendition][one.id]
        return start not in (None, one.start) or until not in (None, one.until)

    def is_moved(self, one: Break, rendition: str) -> bool:
        """Whether the break `one` has another START-DATE in the `rendition` than its packager states."""
        stated = self.stated.get(rendition, {}).get(one.id)
        return stated is not None and abs(self.start_in(one, rendition) - stated) > self.tolerance

    def passes(self, ranges: list[DateRange], listed: list[Break], line: Timeline, rendition: str) -> bool:
        """Whether adsplice by itself makes of the date ranges `ranges` just the breaks that are `listed` in the `rendition`. It keeps the first
        value of each attribute, so one of a break that was cancelled, or isn't written yet, may not pass."""
        said: dict[str, dict[str, str]] = {}
        for it in ranges:
            said[it.id] = it.said | said.get(it.id, {})
        if said.keys() & (self.breaks.cancelled | {it.id for it in self.breaks.known if it not in listed and (not it.is_settled or self.is_moved(it, rendition))}):
            return False
        if any(self.is_cut_elsewhere(it, rendition) for it in listed):
            return False
        earliest = line.first - TOLERANCE
        begun = {name for name, it in said.items() if is_leaving(it) and (packaged.instant_of(it["START-DATE"]) or 0) >= earliest}
        is_known = begun <= {it.id for it in listed} and all(it.id in said for it in listed)
        return is_known and all(is_leaving(said[it.id]) and is_same(it, said[it.id], self.tolerance) for it in listed)

    def written(self, one: Break, line: Timeline, rendition: str) -> str:
        """The EXT-X-DATERANGE of the break `one` in the list of `line` of the `rendition`."""
        end = one.end()
        planned = None if end is None else one.planned if one.planned is not None else end - one.start
        start, until = self.cuts[rendition][one.id]
        start = start if start is not None else one.start
        text = f'ID="{one.id}",START-DATE="{instant_text(start)}"' + one.others
        if one.until is not None and self.is_ended(one, line):
            until = until if until is not None else line.expected(one.until)
            text += f',END-DATE="{instant_text(until)}"'
        elif planned is not None and (later := self.next_start(one, rendition)) is not None and start < later < start + planned - self.tolerance:
            text += f',END-DATE="{instant_text(later)}"'  # (the segments aren't cut where the plan says)
        text += f",PLANNED-DURATION={seconds_text(planned)}" if planned is not None else ""
        return f"{DATE_RANGE}{text},SCTE35-OUT={splice.insert_text((one.event or one.number) % 2**32, planned)}"

    @staticmethod
    def is_ended(one: Break, line: Timeline) -> bool:
        """Whether the list of `line` says where the break `one` ends: once it has come there, or to the planned end of one that is extended."""
        is_at_end = one.until is not None and one.is_ended and line.is_reached(one.until, True)
        return is_at_end or one.is_extended() and line.is_reached(one.start + (one.planned or 0))

    def start_in(self, one: Break, rendition: str) -> int:
        """The instant at which the break `one` begins in the `rendition`, as far as that is known."""
        start = self.cuts.get(rendition, {}).get(one.id, [None, None])[0]
        return one.start if start is None else start

    def next_start(self, one: Break, rendition: str) -> int | None:
        """The instant of the segment of the `rendition` with which the break after `one` begins; none if none has begun there."""
        starts = (self.cuts[rendition][it.id][0] for it in self.breaks.known if it.start > one.start)
        return next((it for it in starts if it is not None), None)

    # ---- what is kept

    def kept(self) -> dict[str, Any]:
        """The state as JSON."""
        return {"breaks": self.breaks.kept(), "done": dict(self.done), "firsts": dict(self.firsts),
                "cancelled": sorted(self.breaks.cancelled), "styles": sorted(self.styles),
                "stated": {name: dict(it) for name, it in self.stated.items()},
                "cuts": {name: {id_: [*cut] for id_, cut in it.items()} for name, it in self.cuts.items()},
                "seen": {name: {id_: sorted(said) for id_, said in it.items()} for name, it in self.seen.items()}}

    def resume(self, kept: dict[str, Any]) -> None:
        """Goes on from the state that `kept` answered; raises if that isn't one (KeyError, TypeError, ValueError)."""
        members = {it.name for it in fields(Break)}
        self.breaks.known = [Break(**{name: value for name, value in it.items() if name in members}) for it in kept["breaks"]]  # (an older feed kept more)
        self.done = {name: Mark(*it) for name, it in kept["done"].items()}
        self.seen = {name: {id_: set(said) for id_, said in it.items()} for name, it in kept["seen"].items()}
        self.stated = {name: {id_: int(start) for id_, start in it.items()} for name, it in kept.get("stated", {}).items()}
        self.cuts = {name: {id_: [*cut] for id_, cut in it.items()} for name, it in kept.get("cuts", {}).items()}
        self.firsts = {name: int(first) for name, first in kept.get("firsts", {}).items()}
        self.breaks.cancelled, self.styles, self.breaks.is_first = set(kept["cancelled"]), set(kept["styles"]), not self.done
