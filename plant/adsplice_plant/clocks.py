"""A packager's clock and its programme's (RFC 8216, 4.3.2.6).

The programme's clock never jumps: where a packager sets its own, the segments after that begin where those before end. Viewers' clock follows the
packager's while no break is open or to come: so each break begins and ends by one clock.
"""
from __future__ import annotations

from collections.abc import Sequence
from typing import Any, NamedTuple

from .date_ranges import read_range
from .packaged import NEAR, PackagedList, PackagedSegment, Shift, instant_of, range_with
from .siblings import end_of
from .signals import duration_of
from .translator import Translator


MOST_SHIFTS = 64  # that are remembered, for renditions that stand still


class Stated(NamedTuple):
    """What a date range of a packager states: its START-DATE, as it `said` that and as it is by the programme's clock (`start`); the same of its END-DATE
    (`said_end`, `end`), none if it states none; and others that the newest list states (`pending`, `pending_end`): by a clock that no segment has yet, or
    since the break was moved or extended."""

    said: int
    start: int
    said_end: int | None = None
    end: int | None = None
    pending: int | None = None
    pending_end: int | None = None


class Span(NamedTuple):
    """Listed segments that have one clock of their packager: from the instant `first` to `end` by that, which is `ahead` of the programme's."""

    first: int
    end: int
    ahead: int


def spans_of(segments: list[PackagedSegment]) -> list[Span]:
    """The spans of the listed `segments`, the newest first."""
    found: list[Span] = []
    for it in segments:
        if it.stated is None:
            continue
        if found and abs(it.ahead() - found[-1].ahead) <= NEAR:
            found[-1] = found[-1]._replace(end=it.stated + it.duration)
        else:
            found.append(Span(it.stated, it.stated + it.duration, it.ahead()))
    return found[::-1]


def by_programme(said: int, spans: list[Span]) -> int:
    """The instant `said` by a packager's clock as it is by the programme's: by the newest of the `spans` that has it; else by the newest that has begun by then, or
    the oldest one."""
    there = [it for it in spans if it.first <= said + NEAR]
    found = next((it for it in there if said <= it.end + NEAR), there[0] if there else spans[-1] if spans else Span(0, 0, 0))
    return said - found.ahead


def put_right(found: PackagedList, known: dict[str, Stated], is_part: bool = False) -> dict[str, Stated]:
    """Puts the date ranges of the list `found` on the programme's clock; `known` is what those of the list before stated. Answers what these state. If the list
    `is_part` of what its packager lists, an END-DATE after it may be by another clock."""
    until = end_stated(found.segments) if is_part else None
    spans, stated, rows = spans_of(found.segments) if found.has_clock else [], dict[str, Stated](), []
    for place, at, line in found.own_ranges():
        it = read_range(line)
        start, end = it.start(), instant_of(it.said.get("END-DATE", ""))
        if it.id and start is not None:
            planned = duration_of(it.said.get("PLANNED-DURATION", ""))
            one = stated[it.id] = placed(stated.get(it.id, known.get(it.id)), start, end, spans, planned, until, found.segments)
            if (one.start, one.end) != (start, end):
                line = range_with(line, {"START-DATE": one.start, "END-DATE": one.end})
            line = line if one.end is not None else line.replace(f',END-DATE="{it.said.get("END-DATE")}"', "", 1)
        rows.append((place, at, line))
    if rows != found.own_ranges():
        found.own, found.signals, found.is_put_right = rows, [line for _, _, line in rows], True
    return stated


def moved_by(found: PackagedList, known: dict[str, Stated]) -> int:
    """By how much the START-DATEs of the list `found` are later than what is `known` that they were in the list before; 0 if that isn't the same of all."""
    moved = {start - known[it.id].said for line in found.date_ranges() if (it := read_range(line)).id in known and (start := it.start()) is not None}
    return moved.pop() if len(moved) == 1 else 0


def is_come(known: Stated, start: int, segments: Sequence[PackagedSegment]) -> bool:
    """Whether the instant `start` that a date range states, as it did before, is where one of the newest listed `segments` begins or ends, though by the clock
    that was known then (`known`) none begins there: it was stated by a clock that the packager had just set."""
    timed = [it for it in segments if it.stated is not None]
    edges = [edge for it in timed if abs(it.ahead() - timed[-1].ahead()) <= NEAR for edge in ((it.stated or 0), (it.stated or 0) + it.duration)]
    return known.said == start and any(abs(it - start) <= NEAR for it in edges) and all(abs((it.begins or 0) - known.start) > NEAR for it in segments)


def end_stated(segments: list[PackagedSegment]) -> int | None:
    """The instant at which the `segments` end by their packager's clock; none if the last one states none."""
    return segments[-1].stated + segments[-1].duration if segments and segments[-1].stated is not None else None


def is_one_clock(segments: list[PackagedSegment], growing: PackagedSegment) -> bool:
    """Whether the segment that is `growing` after the listed `segments` begins where they end by their packager's clock, as far as it is stated."""
    end = end_stated(segments)
    return end is None or growing.stated is None or abs(growing.stated - end) <= NEAR


def placed(known: Stated | None, start: int, end: int | None, spans: list[Span], planned: int | None = None, until: int | None = None,
           segments: Sequence[PackagedSegment] = ()) -> Stated:
    """What a date range states that begins at `start` and ends at `end` (none if it doesn't say) and is `planned` to last so long, of which that is `known`
    which it stated in the list before. What can't be so, or moves or extends the break, counts once two lists state it; an end after `until` doesn't yet."""
    begins = by_programme(start, spans)
    if known is None or abs(begins - known.start) <= NEAR or known.pending == start or is_come(known, start, segments):
        one = Stated(start, begins)
    else:
        one = Stated(known.said, known.start, pending=None if known.said == start else start)
    if end is None:
        return one
    if known is not None and known.said_end == end:
        return one._replace(said_end=end, end=known.end)
    ends = by_programme(end, spans)
    is_sure = one.start < ends and (planned is None or ends <= one.start + planned + NEAR)
    if (until is None or end <= until + NEAR) and (is_sure or known is not None and known.pending_end == end):
        return one._replace(said_end=end, end=ends)
    return one._replace(said_end=None if known is None else known.said_end, end=None if known is None else known.end, pending_end=end)


def stated_of(said: dict[str, list[Any]]) -> dict[str, Stated]:
    """What date ranges state, as it was kept."""
    return {str(name): Stated(*(None if it is None else int(it) for it in one)) for name, one in said.items()}  # type: ignore[arg-type]


def shifts_begun(shifts: tuple[Shift, ...], newest: list[PackagedSegment]) -> tuple[Shift, ...]:
    """Those of the `shifts` by which a segment was given: the `newest` ones are those of all renditions. Whether the last one is to be may be asked again,
    since a break may have become known that begins before it."""
    has_begun = any((it.begins or 0) + it.duration // 2 >= shifts[-1].since for it in newest)
    return shifts if has_begun or len(shifts) == 1 else shifts[:-1]


def shifts_after(shifts: tuple[Shift, ...], listed: list[list[PackagedSegment]], clocks: list[int], translator: Translator, lasting: list[int]) -> tuple[Shift, ...]:
    """How viewers' clock goes on after the `shifts`: nearer to the packager's from the end of the `listed` segments of all renditions on, if that was set by all
    of their `clocks`, and no break that the `translator` knows is open or to come then. It goes on at once, and back by half a segment with each new one: so
    no two segments have one instant. `lasting`: the nanoseconds of the newest segments of all renditions."""
    now, since, longest = shifts[-1], max(map(end_of, listed)), max(lasting)
    by = clocks[0] - now.by
    if abs(by) <= NEAR or max(clocks) - min(clocks) > NEAR or since < now.since + longest - NEAR:
        return shifts
    newest = min(it[-1].begins or 0 for it in listed) - longest  # (a segment that ends a break is to have the break's clock)
    if any((end := it.end()) is None or end > newest for it in translator.breaks.known):
        return shifts
    return (*shifts, Shift(since, now.by + max(by, -min(lasting) // 2)))[-MOST_SHIFTS:]
