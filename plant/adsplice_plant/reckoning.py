"""The numbers that adsplice writes, reckoned from what it was given (docs/CONFORMANCE.md; RFC 8216, 4.3.3.2 and 4.3.3.3).

A break's run of segments is replaced by its pod, and nothing else changes a number. So whoever knows the lists and the pods knows what
adsplice wrote, and needn't read it back. What a break says, and which segments it has, the rules say (adsplice_rules).
"""
from __future__ import annotations

from collections.abc import Iterable, Mapping, Sequence
from dataclasses import dataclass, replace
from functools import lru_cache
from typing import Any, NamedTuple

from adsplice_rules import breaks as rules
from adsplice_rules.breaks import Break
from adsplice_rules.decisions import Pod, decisions_of
from adsplice_rules.reading import date_range_of
from adsplice_rules.times import rounded_seconds
from adsplice_rules.values import Fault

from .packaged import DATE_RANGE, PackagedSegment

REMEMBERED = 1024  # date ranges that were read, and pods
Numbers = tuple[int, int]  # a Media Sequence Number and a Discontinuity Sequence Number


@dataclass(frozen=True)
class Shape:
    """A pod, as far as numbers go: the nanoseconds of its segments, ad by ad, and which of its ads have an initialisation section."""

    ads: tuple[tuple[int, ...], ...]
    has_sections: tuple[bool, ...]

    @staticmethod
    def of(pod: Pod) -> Shape:
        """The shape of `pod`."""
        return Shape(tuple(tuple(one.nanos for one in ad.segments) for ad in pod.ads), tuple(ad.init_section is not None for ad in pod.ads))

    def total(self) -> int:
        """The nanoseconds that it lasts."""
        return sum(sum(ad) for ad in self.ads)

    def size(self) -> int:
        """How many segments it has."""
        return sum(len(ad) for ad in self.ads)

    def fits(self, target: int, has_section: bool) -> bool:
        """Whether a programme takes it that has this `target` duration, and an initialisation section or none (4.3.3.1)."""
        return all(it == has_section for it in self.has_sections) and all(rounded_seconds(one) <= target for ad in self.ads for one in ad)

    def written(self, lasted: int) -> Numbers:
        """How many segments, and how many ads of it, are written once its break has `lasted` so many nanoseconds."""
        media, length = 0, 0
        for place, ad in enumerate(self.ads, 1):
            for one in ad:
                media, length = media + 1, length + one
                if length >= lasted:
                    return media, place
        return media, len(self.ads)


@dataclass(frozen=True)
class Run:
    """The run of the break `id` that the newest segment belongs to: it is replaced by a pod of this `shape`, and has `lasted` so long."""

    id: str
    shape: Shape
    lasted: int


@lru_cache(REMEMBERED)
def shape_of(ads: str) -> Shape | None:
    """The shape of the pod whose `ads` are JSON, as a decision file has them; none if they don't read, which adsplice would refuse."""
    try:
        pod = decisions_of(f'{{"fallback":{{"ads":{ads}}}}}'.encode()).fallback
    except Fault:
        return None
    return None if pod is None else Shape.of(pod)


@dataclass(frozen=True)
class Store:
    """The ads that adsplice holds, as JSON, by the IDs of their breaks (`pods`), and those of its `fallback`."""

    pods: Mapping[str, str]
    fallback: str | None

    def shape(self, name: str) -> Shape | None:
        """The shape of the pod of the break `name`: its own, or else the fallback."""
        ads = self.pods.get(name, self.fallback)
        return None if ads is None else shape_of(ads)


class Sums(NamedTuple):
    """Of the runs that are over: the nanoseconds of the programme that were `replaced`, those of the pods that were `shown` in their place, and how many
    of these pods were `decided`, and not the fallback."""

    replaced: int = 0
    shown: int = 0
    decided: int = 0

    def after(self, run: Run, is_decided: bool) -> Sums:
        """The same once the `run` is over, too, whose pod `is_decided`."""
        return Sums(self.replaced + run.lasted, self.shown + run.shape.total(), self.decided + is_decided)


@dataclass(frozen=True)
class Reckoned:
    """What adsplice has after the lists that it was given: the newest segment's media number (`newest`; none before the first list) and
    discontinuity number (`given`), as they were given; the numbers of the last segment that was written before the open run; that
    `run`; the known `breaks`, each with the first value of its attributes; the one that was `entered` last; whether one began or ended
    in the newest list, or passed without a pod (`is_marked`); and the `sums` of the runs that are over."""

    newest: int | None = None
    given: int = 0
    media: int = 0
    discontinuity: int = 0
    run: Run | None = None
    breaks: tuple[Break, ...] = ()
    entered: str | None = None
    is_marked: bool = False
    sums: Sums = Sums()

    def end(self) -> Numbers:
        """The numbers of the last segment that was written."""
        media, ads = (0, 0) if self.run is None else self.run.shape.written(self.run.lasted)
        return self.media + media, self.discontinuity + ads

    def kept(self) -> list[Any]:
        """It as JSON, without its breaks, each of which is kept by itself."""
        run = None if self.run is None else [self.run.id, self.run.shape.ads, self.run.shape.has_sections, self.run.lasted]
        return [self.newest, self.given, self.media, self.discontinuity, run, self.entered]

    @staticmethod
    def read(said: Sequence[Any], breaks: Iterable[Sequence[Any]]) -> Reckoned:
        """What `said` and `breaks` keep as JSON; raises TypeError, ValueError or IndexError if they keep none."""
        newest, given, media, discontinuity, run, entered = said
        known = tuple(Break(str(name), start, end, duration, planned, out, back) for name, start, end, duration, planned, out, back in breaks)
        shape = None if run is None else Shape(tuple(tuple(int(one) for one in ad) for ad in run[1]), tuple(bool(it) for it in run[2]))
        found = None if shape is None else Run(str(run[0]), shape, int(run[3]))
        return Reckoned(newest, int(given), int(media), int(discontinuity), found, known, entered)


def kept_break(one: Break) -> list[Any]:
    """The break `one` as JSON."""
    return [one.id, one.start, one.end, one.duration, one.planned, one.out, one.back]


@dataclass(frozen=True)
class Moment:
    """What decides at a list: the `breaks` that are known, what adsplice holds (`store`), the `tolerance` in nanoseconds, the `target` duration
    in seconds, and whether segments have an initialisation section."""

    breaks: tuple[Break, ...]
    store: Store
    tolerance: int
    target: int
    has_section: bool

    def goes_on(self, run: Run | None, instant: int | None) -> bool:
        """Whether a segment that begins at the `instant` belongs to the `run` of the segment before it."""
        one = next((it for it in self.breaks if run is not None and it.id == run.id), None)
        if run is None or one is None or instant is None:
            return False
        end = rules.end_of(one, run.shape.total())
        return isinstance(end, int) and instant + self.tolerance < end

    def entered(self, instant: int | None, last: str | None) -> Run | None:
        """The run of the first break that a segment enters which begins at the `instant`; `last` is the one that was entered last."""
        near = [it for it in self.breaks if instant is not None and it.start is not None and abs(instant - it.start) <= self.tolerance]
        for one in near:
            shape = self.store.shape(one.id)
            if shape is None or one.id == last or not rules.is_leaving(one) or not shape.fits(self.target, self.has_section):
                continue
            end = rules.end_of(one, shape.total())
            if instant is not None and not (isinstance(end, int) and instant + self.tolerance >= end):
                return Run(one.id, shape, 0)
        return None

    def begins(self, instant: int | None) -> bool:
        """Whether a signalled break begins at the `instant`."""
        return any(instant is not None and it.start is not None and abs(instant - it.start) <= self.tolerance and rules.is_leaving(it) for it in self.breaks)


@lru_cache(REMEMBERED)
def break_of(line: str) -> Break | None:
    """What the EXT-X-DATERANGE `line` says of a break; none if it doesn't read, which adsplice would refuse."""
    try:
        it = date_range_of(line.removeprefix(DATE_RANGE))
    except Fault:
        return None
    return Break(it.id, it.start, it.end, it.duration, it.planned, it.out, it.back)


def merged(old: Break, new: Break) -> Break:
    """What two tags say of a break, the `old` one first: the first value of each attribute counts (4.3.2.7)."""
    names = ("start", "end", "duration", "planned", "out", "back")
    lacks = {name: value for name in names if getattr(old, name) is None and (value := getattr(new, name)) is not None}
    return replace(old, **lacks) if lacks else old


def known_after(before: Reckoned, lines: Iterable[str]) -> tuple[Break, ...]:
    """The breaks that are known once a list has the EXT-X-DATERANGE `lines`, in the order in which they became known."""
    tags: dict[str, Break] = {}
    for it in (it for line in lines if (it := break_of(line)) is not None):
        tags[it.id] = merged(tags[it.id], it) if it.id in tags else it
    carried = before.run.id if before.run is not None else None
    known = {it.id: merged(it, tags[it.id]) if it.id in tags else it for it in before.breaks if it.id in tags or it.id == carried}
    return tuple({**known, **{name: it for name, it in tags.items() if name not in known}}.values())


def reckoned(before: Reckoned, new: Sequence[PackagedSegment], moment: Moment) -> tuple[Reckoned, dict[int, Numbers]]:
    """What adsplice has after a list whose segments `new` it wasn't given before; and for each of these that is written, or begins a run, the
    numbers with which a new channel has to begin there to go on, by its media number."""
    run, entered, is_marked, sums = before.run, before.entered, False, before.sums
    media, discontinuity, given = before.media, before.discontinuity, before.given
    begins: dict[int, Numbers] = {}
    if before.newest is None and new:
        media, discontinuity, given = new[0].number - 1, new[0].discontinuity, new[0].discontinuity
    for it in new:
        mark = run if moment.goes_on(run, it.begins) else moment.entered(it.begins, entered)
        if run is not None and mark is not run:  # (it is over, and its pod is written as a whole)
            media, discontinuity, is_marked = media + run.shape.size(), discontinuity + len(run.shape.ads), True
            sums = sums.after(run, run.id in moment.store.pods)
        is_marked = is_marked or mark is not run or moment.begins(it.begins)
        if mark is None:
            media, discontinuity = media + 1, discontinuity + (it.discontinuity - given if run is None else 1)
            begins[it.number] = media, discontinuity
        elif mark is not run:
            entered, begins[it.number] = mark.id, (media + 1, discontinuity)
        run, given = None if mark is None else replace(mark, lasted=mark.lasted + it.duration), it.discontinuity
    newest = new[-1].number if new else before.newest
    return Reckoned(newest, given, media, discontinuity, run, moment.breaks, entered, is_marked, sums), begins
