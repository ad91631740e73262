"""What the viewers of a rendition have, and whether that is the programme: looked at with each list that a controller wrote."""
from __future__ import annotations

from bisect import bisect_left, bisect_right
from collections.abc import Iterable, Mapping, Sequence
from dataclasses import dataclass, field
from typing import NamedTuple

from .controller import Written
from .packager import BASE, Cut, Packager, plain
from .plan import FALLBACK, Plan, Span

ADS = "http://ads.example/"
TOLERANCE = 100  # milliseconds
NEAR = 60  # milliseconds by which cuts and instants may be apart
MOST_AWAY = 120_000  # milliseconds that a packager is away


class Breach(NamedTuple):
    """A promise that was broken: of a `kind`, at the moment `at`, in the rendition `who`, with a `text`."""

    kind: str
    at: float
    who: str
    text: str


class Pod(NamedTuple):
    """The pod that viewers had: of the break `name` or FALLBACK, in a `version`, in the break `place` of the programme (-1: in none)."""

    name: str
    version: str
    place: int
    at: float


def cut_of(uri: str) -> int:
    """Which cut of the programme a segment is, whosever it is."""
    return int(uri.rpartition("/")[2][:-3])


def name_of(uri: str) -> str:
    """The last part of the path of a `uri`."""
    return uri.partition("?")[0].rpartition("/")[2]


@dataclass
class Ads:
    """All pods that were ever decided, by rendition, break and version: their URIs, and how long they last in milliseconds."""

    uris: dict[tuple[str, str, str], list[str]] = field(default_factory=dict)
    lasts: dict[tuple[str, str, str], int] = field(default_factory=dict)


@dataclass
class Viewers:
    """The viewers of the rendition of a `packager`; `others` are all packagers by their renditions. `read` are the segments that the feed read
    in lists of each, by their URIs. `ledger`: what they have by media numbers."""

    plan: Plan
    packager: Packager
    others: Mapping[str, Packager]
    ads: Ads
    read: Mapping[str, dict[str, float]]
    ledger: dict[int, Written] = field(default_factory=dict)
    last: int = -1
    reached: int | None = None  # the millisecond of the programme up to which they have it
    seen: dict[str, int] = field(default_factory=dict)  # the media number of each segment of the programme
    times: dict[int, float] = field(default_factory=dict)  # when each cut of the programme was new to them
    left: list[str] = field(default_factory=list)  # of the pod that is shown now
    pods: list[Pod] = field(default_factory=list)
    since: list[Pod] = field(default_factory=list)  # pods since the newest segment of the programme
    breaches: list[Breach] = field(default_factory=list)
    now: float = 0.0

    def breach(self, kind: str, text: str) -> None:
        """A promise of a `kind` was broken."""
        self.breaches.append(Breach(kind, self.now, self.packager.name, text))

    def see(self, items: Iterable[Written], now: float, is_ahead: bool = False) -> None:
        """They load the written `items` at the moment `now`. A list that comes ahead of another one (`is_ahead`) may be shorter than the last one: the
        next one comes at once."""
        self.now, number = now, -1
        for it in items:
            number = it.number
            had = self.ledger.get(number)
            if had is None:
                self.ledger[number] = it
                self.take(number, it.uri)
            elif had.uri != it.uri:
                self.breach("two contents", f"number {number} was {had.uri}, and is {it.uri}")
            elif had.discontinuity != it.discontinuity:
                self.breach("two discontinuity numbers", f"number {number} ({it.uri}) had {had.discontinuity}, and has {it.discontinuity}")
            elif had != it:
                self.breach("two keys or sections", f"number {number} ({it.uri}) had {had.keys} {had.section}, and has {it.keys} {it.section}")
        if 0 <= number < self.last and not is_ahead:
            self.breach("goes back", f"from {self.last} to {number}")
        self.last = max(self.last, number)

    def take(self, number: int, uri: str) -> None:
        """The segment `uri` is new to them."""
        if self.last >= 0 and number < self.last - len(self.ledger):
            self.breach("goes back", f"number {number} is new, and before those that they have")
        if self.ledger and number - 1 not in self.ledger and len(self.ledger) > 1:
            self.left, self.since = [], []
            if (begin := self.begin_after_gone(uri)) is None:
                self.breach("leaves numbers out", f"{self.last + 1} to {number - 1}")
            else:
                self.reached = max(self.reached or begin, begin)
        if uri.startswith(ADS):
            self.take_ad(uri)
        else:
            self.take_programme(number, uri)

    def begin_after_gone(self, uri: str) -> int | None:
        """The millisecond of the programme at which the segment `uri` begins, if all before it left the packager's list longer ago than that lasts: they
        may not be there any more (RFC 8216, 6.2.2). Else none. A fallback is of the last break that has begun by then."""
        if not self.packager.cuts:
            return None
        until, name = 2 * self.packager.cuts[0].begin - self.packager.cuts[-1].end + NEAR, uri.removeprefix(ADS).split("/")[1]
        begins = [it.start for it in self.plan.breaks if name in (it.name, FALLBACK)] if uri.startswith(ADS) else [it.begin for it in [self.found(uri)] if it is not None]
        return max((it for it in begins if it <= until), default=None)

    def found(self, uri: str) -> Cut | None:
        """What the programme's segment with this `uri` is, whosever it is; none if it is nobody's."""
        path = plain(uri, uri.split("/")[3])
        return next((it.truth[path] for it in (self.packager, *self.others.values()) if path in it.truth), None)

    def numbers(self) -> dict[int, tuple[int, int]]:
        """The media number and the discontinuity number of each cut of the programme, whosever segment that was."""
        times = self.plan.times(self.packager.name)
        return {times * cut_of(path): (number, self.ledger[number].discontinuity) for path, number in self.seen.items()}

    def began_after(self, moment: float) -> bool:
        """Whether they had nothing of the programme up to a `moment`."""
        return min(self.times.values(), default=self.now) > moment

    # ---- pods

    def take_ad(self, uri: str) -> None:
        """A segment of a pod comes next."""
        if self.left and self.left[0] == uri:
            self.left.pop(0)
            return
        if self.left:
            self.breach("pod in part", f"{uri} in place of {self.left[0]}")
        rendition, name, version, _ = uri.removeprefix(ADS).split("/")
        known = self.ads.uris.get((rendition, name, version), [])
        if rendition != self.packager.name:
            self.breach("pod of another rendition", uri)
        if not known or known[0] != uri:
            self.breach("pod in part", f"begins with {uri}" + (", again" if any(it.name == name for it in self.since) else ""))
        self.left = known[known.index(uri) + 1:] if uri in known else []
        place = self.place_of_pod(name)
        one = Pod(name, version, place, self.now)
        if name != FALLBACK and (place < 0 or self.plan.breaks[place].name != name):
            self.breach("pod at another place", f"{uri} after {self.reached}, where {self.plan.breaks[place].name if place >= 0 else 'no break'} begins")
        elif place < 0:
            self.breach("pod where no break begins", f"{uri} after {self.reached}")
        if any(it.place == place >= 0 for it in self.pods):
            self.breach("pod doubled", f"{uri} in the break {self.plan.breaks[place].name}, which had one")
        self.pods.append(one)
        self.since.append(one)

    def place_of_pod(self, name: str) -> int:
        """The break of the programme that a pod fills which comes now, and is decided for the break `name`; -1 if none begins here."""
        last = self.since[-1].place if self.since else -1
        if last < 0 and self.reached is None:
            return self.at_first()
        after = self.plan.breaks[last].end if last >= 0 else self.reached or 0
        next_ones = [self.next_begin(after, one) for one in self.lenders()]
        alike = [at for at, one in zip(next_ones, self.lenders()) if one.length == self.packager.length]
        planned = self.plan.breaks[last].planned if last >= 0 else after
        near = [(it.name != name, order, abs(it.start - at), place) for order, at in enumerate((min(alike), *next_ones, after, planned)) for place, it in enumerate(self.plan.breaks)
                if abs(it.start - at) <= self.half_at(it.start) + NEAR and place != last]
        return min(near)[-1] if near else -1

    def lenders(self) -> list[Packager]:
        """The packagers whose segments they may have: the rendition's own first."""
        return [self.packager, *(it for it in self.others.values() if it is not self.packager and not self.plan.kinds)]

    def next_begin(self, after: int, packager: Packager) -> int:
        """When the first segment of the `packager` begins that the feed read and that comes `after` a moment; that moment if there is none. (What lies before
        that is nobody's.)"""
        return next((it.begin for it in self.between(after, after + MOST_AWAY, packager) if self.was_read(it, packager)), after)

    def half_at(self, start: int) -> int:
        """How far from its `start` a break may begin: half a segment, of the longest ones of all renditions if none of the own ones near it was read, since
        the others say where it begins."""
        half = self.packager.length // 2
        is_read = any(self.was_read(it) for it in self.packager.all if abs(it.begin - start) <= half)
        return half if is_read else max(it.length for it in self.others.values()) // 2

    def was_read(self, it: Cut, packager: Packager | None = None) -> bool:
        """Whether the feed read a segment of the `packager` in a list; of the rendition's own if none is named."""
        name = (packager or self.packager).name
        return f"{BASE}/{name}/{it.uri}" in self.read[name]

    def at_first(self) -> int:
        """The break within which the first segment is that the feed has read."""
        first = next((it.begin for it in self.packager.all if self.was_read(it)), 0)
        return next((place for place, it in enumerate(self.plan.breaks) if it.planned > first), -1)

    # ---- the programme

    def take_programme(self, number: int, uri: str) -> None:
        """A segment of the programme comes next."""
        if self.left:
            self.breach("pod in part", f"{len(self.left)} segments of it are missing before {uri}")
        self.left = []
        path, found = plain(uri, uri.split("/")[3]), self.found(uri)
        if found is None:
            self.breach("segment of nobody", uri)
            return
        self.look_for_keys(self.ledger[number], found)
        if path in self.seen:
            self.breach("doubled", uri)
        elif self.reached is not None and (found.begin + found.end) // 2 < self.reached:
            self.breach("out of order", f"{uri} begins at {found.begin}, and they had the programme up to {self.reached}")
        elif self.reached is not None:
            self.look_for_lost(self.reached, found.begin, uri)
        self.seen[path] = number
        self.times.setdefault(cut_of(path), self.now)
        self.reached, self.since = max(found.end, self.reached or 0), []

    def look_for_keys(self, it: Written, found: Cut) -> None:
        """The segment `it` has the key and the initialisation section of the cut that was `found`, however they are spelled."""
        keys = [(name_of(one.uri), one.iv) for one in it.keys]
        if keys != ([(found.key, found.iv)] if found.key else []):
            self.breach("wrong key", f"{it.uri} has {keys} in place of {found.key} {found.iv}")
        if (name_of(it.section.uri) if it.section is not None else "") != found.section:
            self.breach("wrong section", f"{it.uri} has {it.section} in place of {found.section}")

    def look_for_lost(self, begin: int, end: int, uri: str) -> None:
        """They have the programme up to `begin`, and then from `end` on, with the segment `uri`."""
        lost = [it for it in self.between(begin, end) if self.was_read(it) and not self.is_replaced(it.begin)]
        if lost:
            self.breach("lost", f"{', '.join(it.uri for it in lost[:3])} ({len(lost)} segments from {lost[0].begin}) before {uri}")

    def between(self, begin: int, end: int, packager: Packager | None = None) -> Sequence[Cut]:
        """The segments of the `packager` whose middles are in that time; the rendition's own if none is named."""
        cuts = (packager or self.packager).all
        low, high = bisect_left(cuts, begin, key=lambda it: (it.begin + it.end) // 2), bisect_right(cuts, end, key=lambda it: (it.begin + it.end) // 2)
        return cuts[low:high]

    def is_replaced(self, begin: int) -> bool:
        """Whether a pod that they had since the last segment stands for the one that begins there."""
        for pod in self.since:
            if pod.place >= 0:
                one = self.plan.breaks[pod.place]
                if one.start - self.packager.length // 2 - NEAR <= begin < self.end_of(one, pod) + self.packager.length // 2 - self.plan.target // 2 - TOLERANCE + NEAR:
                    return True
        return False

    def end_of(self, one: Span, pod: Pod) -> int:
        """The last moment at which the break `one` with this `pod` may end."""
        lasts = self.ads.lasts.get((self.packager.name, pod.name, pod.version), 0)
        return max(one.end, one.planned, one.start + lasts if self.plan.style == "endless cues" else 0)
