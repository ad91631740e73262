"""Which ads fill a break: by what the ad server gave, what is ready, and how long the break lasts. Values in, values out."""
from __future__ import annotations

from collections.abc import Callable
from dataclasses import dataclass, field, replace
from typing import Any

from .ad_server import Found, Lack
from .conditioning import SECTION
from .making import Made
from .playlist import SECOND, seconds_text
from .vast import Ad

MOST_SEGMENTS = 500  # of a pod: adsplice takes no more


@dataclass(frozen=True)
class Ready:
    """An ad that is made for the ladder: its `id`, the durations of its pieces in nanoseconds, the `uri` of a piece with {} for the rendition and
    {n} for its number, and the URI of its initialisation section, if it has one (`map`). `overs` says by how many nanoseconds its sound has become longer
    than its pictures at the end of each piece; nothing if that isn't known. So many nanoseconds `late` is its sound within it, joined end to end. Its `others`
    are the other makings of it, which have other overs."""

    id: str
    pieces: tuple[int, ...]
    uri: str
    map: str = ""
    overs: tuple[int, ...] = ()
    others: tuple[Ready, ...] = ()
    late: int = 0

    def over(self) -> int:
        """By how many nanoseconds its sound lasts longer than its pictures."""
        return self.overs[-1] if self.overs else 0

    def length(self) -> int:
        """How long it lasts, in nanoseconds."""
        return sum(self.pieces)

    def front(self, room: int) -> Ready:
        """Its first pieces, as many as don't last longer than `room`."""
        count, left = 0, room
        while count < len(self.pieces) and self.pieces[count] <= left:
            left -= self.pieces[count]
            count += 1
        return self.begin(count)

    def begin(self, count: int) -> Ready:
        """Its first pieces, `count` of them."""
        return self if count == len(self.pieces) else Ready(self.id, self.pieces[:count], self.uri, self.map, self.overs[:count], late=self.late)

    def said(self) -> dict[str, Any]:
        """It as a decision file has it."""
        segments = [{"uri": self.uri.replace("{n}", str(n)), "duration": seconds_text(it)} for n, it in enumerate(self.pieces)]
        return {"id": self.id, **({"map": {"uri": self.map}} if self.map else {}), "segments": segments}


def ready_of(name: str, made: Made, at: str, rendition: str, has_section: bool) -> Ready:
    """The ad called `name` that is `made`, and published `at` a URL, for the `rendition`, which `has_section` if it has an initialisation section: its nearest
    making, with the others."""
    places = {folder: "/".join(filter(None, (at, folder, rendition))) for folder in made.makings}
    first, *others = [Ready(name, made.pieces, f"{place}/s{{n}}.{made.ending}", f"{place}/{SECTION}" if has_section else "", made.makings[folder], late=made.lates.get(folder, 0))
                      for folder, place in places.items()]
    return replace(first, others=tuple(others))


@dataclass
class Pod:
    """What fills a break: its ads as they are `ready`, the `ads` of the ad server that they are of (none for the slate), and what is lacking."""

    ready: list[Ready] = field(default_factory=list)
    ads: list[Ad | None] = field(default_factory=list)
    lacks: list[Lack] = field(default_factory=list)

    def length(self) -> int:
        """How long it lasts, in nanoseconds."""
        return sum(it.length() for it in self.ready)

    def count(self) -> int:
        """How many segments it has."""
        return sum(len(it.pieces) for it in self.ready)

    def decision(self, name: str) -> dict[str, Any]:
        """The decision file by which it fills the break `name`."""
        return {"breaks": [{"id": name, "ads": [it.said() for it in self.ready]}]}


class Filling:
    """A pod that grows: of a break of `planned` nanoseconds (none if nobody knows). `ready_of` answers how an ad is ready, or why it isn't."""

    def __init__(self, planned: int | None, ready_of: Callable[[Ad], Ready | str]) -> None:
        self.planned, self.ready_of, self.pod = planned, ready_of, Pod()

    def left(self) -> int | None:
        """The nanoseconds that nothing fills yet; none if the break has no length."""
        return None if self.planned is None else self.planned - self.pod.length()

    def takes(self, ad: Ad) -> bool:
        """Adds the `ad` if it is ready and fits; whether it does."""
        found = self.ready_of(ad)
        if isinstance(found, str):
            self.pod.lacks.append(Lack("NotReady", f"ad {ad.id}: {found}"))
            return False
        left = self.left()
        if left is not None and found.length() > left:
            text = f"ad {ad.id}: it lasts {seconds_text(found.length())} s, and {seconds_text(left)} s of the break are left"
            self.pod.lacks.append(Lack("DoesNotFit", text))
            return False
        if self.pod.count() + len(found.pieces) > MOST_SEGMENTS:
            self.pod.lacks.append(Lack("DoesNotFit", f"ad {ad.id}: a pod has {MOST_SEGMENTS} segments at most"))
            return False
        self.pod.ready.append(found)
        self.pod.ads.append(ad)
        return True


def fill(found: Found, planned: int | None, ready_of: Callable[[Ad], Ready | str], slate: Ready | None = None) -> Pod:
    """What fills a break of `planned` nanoseconds (none if nobody knows) of what was `found`: the pod's ads in their order, with a stand-alone ad
    in place of one that can't be shown. Without a pod the stand-alone ads fill it in their order. `ready_of` answers how an ad is ready, or why
    it isn't. The `slate` fills up what is left, unless there is no ad at all."""
    it, buffet = Filling(planned, ready_of), list(found.buffet)
    for slot in found.slots:
        if not sum([it.takes(ad) for ad in slot.ads]) and slot.substitutes:
            while buffet and not it.takes(buffet.pop(0)):
                pass
    if not found.slots:
        for ad in buffet:
            it.takes(ad)
    left = it.left()
    if it.pod.ready and slate is not None and left is not None and left > 0:
        fill_up(it.pod, left, slate)
    return it.pod


def balanced(pod: Pod, by: int, end: int = 0) -> tuple[Pod, int]:
    """The `pod` with that making of each ad by which sound stays nearest to pictures, within it and after it, and by how many nanoseconds sound comes later
    than pictures after the pod. It would come later by `by` where the pod begins, in players that join each stream end to end. Where the pod ends, the
    programme's sound is expected to be cut later than its pictures by so much (`end`)."""
    found = []
    for place, it in enumerate(pod.ready, 1):
        aim = by - (end if place == len(pod.ready) else 0)
        one = min((it, *it.others), key=lambda that: (max(abs(by + that.late), abs(aim + that.over())), abs(aim + that.over())))
        found.append(one)
        by += one.over()
    return Pod(found, pod.ads, pod.lacks), by


def fill_up(pod: Pod, left: int, slate: Ready) -> None:
    """Adds the `slate` to the `pod` as often as it goes into `left` nanoseconds, and its first pieces at last."""
    while pod.count() < MOST_SEGMENTS:
        front = slate.front(left)
        if len(front.pieces) > MOST_SEGMENTS - pod.count():
            front = front.begin(MOST_SEGMENTS - pod.count())
        if not front.pieces:
            return
        pod.ready.append(front)
        pod.ads.append(None)
        left -= front.length()


def planned_of(seconds: object) -> int | None:
    """The length that a question says (`seconds`), in nanoseconds; none if it is no number above 0."""
    is_number = isinstance(seconds, (int, float)) and not isinstance(seconds, bool)
    return int(round(seconds * SECOND)) if is_number and 0 < seconds <= 86_400 else None  # type: ignore[operator]
