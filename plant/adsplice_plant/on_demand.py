"""adsplice-pod --vmap: breaks in a programme on demand, by a VMAP document or by offsets. Its list gets signals, and the decision file pods.

adsplice puts a pod in place of segments. So that no segment of the programme goes, a stand-in is listed where a break is: a segment of a fifth of a
second that there isn't, whose place the pod takes. It begins just before the segment after it, which so keeps its time.
"""
from __future__ import annotations

import json
import time
import urllib.parse
from collections.abc import Callable
from concurrent.futures import ThreadPoolExecutor
from dataclasses import dataclass, replace
from pathlib import Path

from adsplice_rules.channel import Channel, decide, refreshed, words, written
from adsplice_rules.uris import base_of
from adsplice_rules.values import Fault as Refused
from adsplice_rules.values import NotModelled

from . import ad_server, filling, macros, making, packaged, playlist, spelling, splice, vast, vmap
from .ad_server import Found
from .conditioning import SECTION
from .filling import Ready
from .outside import Outside
from .packaged import PackagedList, PackagedSegment
from .playlist import SECOND, seconds_text
from .words import Fault

STAND_IN = SECOND // 5  # how long a stand-in lasts: above the tolerance of a channel
SHORTEST = 2 * STAND_IN  # nanoseconds that a segment lasts after which a stand-in may be
NEAR = SECOND // 2  # how far from its offset a break is without a word about it
FIRST = 946_684_800 * SECOND  # when a programme begins that states no time: 2000-01-01T00:00:00Z
URI = "http://adsplice.invalid/stand-in-{n}"  # of no host that there is (RFC 2606)
ASKED = 10.0  # seconds for an ad server


@dataclass(frozen=True)
class Place:
    """A break: its `name`, where it is (`offset`, in nanoseconds from the programme's begin; none at its end), and its ads."""

    name: str
    offset: int | None
    ads: tuple[Ready, ...]

    def length(self) -> int:
        """How long its ads last, in nanoseconds."""
        return sum(it.length() for it in self.ads)


# ---- the ads

def ready_in(folder: Path, at: str, rendition: str, name: str) -> Ready | str:
    """The ad called `name` that adsplice-condition made in a folder of `folder`, which is published `at` a URL, for the `rendition`; or why there is
    none."""
    own = urllib.parse.quote(name, safe="")
    made = making.read(folder / own) if own not in ("", ".", "..") else None
    if made is None:
        return f"there is no {folder / own / making.FACTS}: adsplice-condition makes it"
    if not (folder / own / rendition).is_dir():
        return f"it isn't made for the rendition {rendition}"
    has_section = made.has_map and (folder / own / rendition / SECTION).is_file()
    return filling.ready_of(name, made, f"{at}/{urllib.parse.quote(own, safe='')}", rendition, has_section)


def balanced(cuts: dict[int, Place]) -> dict[int, Place]:
    """The breaks of `cuts` with that making of each ad by which sound stays nearest to pictures over all of them."""
    found, by = {}, 0
    for at in sorted(cuts):
        pod, by = filling.balanced(filling.Pod(list(cuts[at].ads)), by)
        found[at] = replace(cuts[at], ads=tuple(pod.ready))
    return found


def of_vmap(body: bytes, length: int, ready_of: Callable[[str], Ready | str], place: str = "") -> tuple[list[Place], list[str]]:
    """The breaks of the VMAP document `body` in a programme of `length` nanoseconds, whose ad servers are asked. If it came from a URL (`place`), they are
    at public addresses, or at that URL's. `ready_of` answers an ad by its ID, or why there is none. And a sentence for all that is lacking. Raises NoXml."""
    found = vmap.read(body, length)
    places, faults = [], list(found.faults)
    with ThreadPoolExecutor(ad_server.AT_ONCE) as pool:
        for it in found.breaks:
            search = searching(it, pool, place)
            got = search.run() if it.document is None else replaced(search.resolved(it.document, 0, True), search)
            pod = filling.fill(got, None, lambda ad: ready_of(ad.id))
            faults += [f"AdBreak {it.id}: {lack.text}" for lack in got.lacks + pod.lacks]
            faults += [f"AdBreak {it.id}: {text}" for text in (it.document.faults if it.document else ())]
            places.append(Place(it.id, it.offset, tuple(pod.ready)))
    return places, faults


def searching(it: vmap.AdBreak, pool: ThreadPoolExecutor, place: str) -> ad_server.Search:
    """What looks for the ads of the break `it`, with the threads of `pool`. `place`: as above."""
    outside = Outside(place or it.tag or "http://vmap.invalid/")
    position = "3" if it.offset is None else "2" if it.offset else "1"
    return ad_server.Search(outside.client(ASKED), pool, outside, macros.of_break(None, position), time.monotonic() + ASKED, it.tag)


def replaced(found: Found, search: ad_server.Search) -> Found:
    """What was `found` with what was lacking in the `search`."""
    found.lacks = search.lacks
    return found


def of_words(said: list[str], ready_of: Callable[[str], Ready | str]) -> tuple[list[Place], list[str]]:
    """The breaks that the words `said` name, each as OFFSET=ID,ID..; and a sentence for each ad that there isn't. `ready_of` answers
    an ad by its ID, or why there is none. Raises Fault."""
    places, faults = [], []
    for number, text in enumerate(said, 1):
        offset, sign, ids = text.partition("=")
        if not sign or not ids:
            raise Fault(f"a break is OFFSET=ID,ID.., and not {text[:60]!r}")
        ads = []
        for name in ids.split(","):
            found = ready_of(name.strip())
            if isinstance(found, str):
                faults.append(f"break {offset}: ad {name.strip()}: {found}")
            else:
                ads.append(found)
        places.append(Place(f"break-{number}", offset_of(offset), tuple(ads)))
    return places, faults


def offset_of(text: str) -> int | None:
    """The offset `text`: seconds, HH:MM:SS, or start; none for end. Raises Fault."""
    if text not in ("start", "end") and ":" not in text:
        found = playlist.read_duration(text)
        if found is None:
            raise Fault(f"an offset is a number of seconds, HH:MM:SS, start or end, and not {text[:40]!r}")
        return found
    try:
        return vmap.offset_of(text, 0)
    except vast.Unusable as fault:
        raise Fault(str(fault)) from None


# ---- the programme

def programme_of(body: bytes) -> PackagedList:
    """The list `body` of a programme on demand; raises Fault if it isn't one that is whole."""
    try:
        found = packaged.read(spelling.lines_of(body, set()))
    except spelling.Unread as fault:
        raise Fault(str(fault)) from None
    if not found.segments or found.target is None:
        raise Fault("it is no media playlist of a programme")
    if not found.is_ended:
        raise Fault("it has no EXT-X-ENDLIST, so it isn't one of a programme on demand")
    if found.others - {"EXT-X-PROGRAM-DATE-TIME"}:
        raise Fault(f"it has {', '.join(sorted(found.others))}, which isn't read here")
    begin_all(found.segments)
    for n, it in enumerate(found.segments):
        before = found.segments[n - 1].discontinuity if n else found.discontinuity_sequence
        it.number, it.discontinuity = it.own, before + it.discontinuities
    return found


def begin_all(segments: list[PackagedSegment]) -> None:
    """Gives each of `segments` the instant at which it begins: as it is stated, or else by those before and after it."""
    first = next((n for n, it in enumerate(segments) if it.stated is not None), None)
    at = FIRST if first is None else (segments[first].stated or 0) - sum(it.duration for it in segments[:first])
    for it in segments:
        it.begins = it.stated if it.stated is not None else at
        at = it.begins + it.duration


def length_of(found: PackagedList) -> int:
    """How long the programme `found` lasts, in nanoseconds."""
    return sum(it.duration for it in found.segments)


def cuts_of(found: PackagedList, places: list[Place]) -> tuple[dict[int, Place], list[str]]:
    """Before which segment of `found` each of the `places` is (past the last one at the end): where a segment begins, nearest to its offset. Those at one
    place are one break. And a sentence for each that isn't at its offset."""
    begins = [0]
    for one in found.segments:
        begins.append(begins[-1] + one.duration)
    allowed = [n for n in range(len(begins)) if not n or found.segments[n - 1].duration >= SHORTEST]
    cuts: dict[int, Place] = {}
    faults = []
    for it in places:
        at = allowed[-1] if it.offset is None else min(allowed, key=lambda n: (abs(begins[n] - (it.offset or 0)), n))
        if it.offset is not None and abs(begins[at] - it.offset) > NEAR:
            faults.append(f"break {it.name}: it is put at {seconds_text(begins[at])} s, where a segment begins, and not at {seconds_text(it.offset)} s")
        cuts[at] = replace(cuts[at], ads=cuts[at].ads + it.ads) if at in cuts else it
    return cuts, faults


def stand_in(segments: list[PackagedSegment], at: int, n: int) -> PackagedSegment:
    """The stand-in number `n`, which comes before the segment of `segments` at the place `at`, or after the last one."""
    like = segments[min(at, len(segments) - 1)]
    is_last = at == len(segments)
    begins = (like.begins or 0) + like.duration if is_last else (like.begins or 0) - STAND_IN
    return PackagedSegment(URI.format(n=n), like.own, STAND_IN, None, like.keys, like.section, None, 0, [f"#EXTINF:{seconds_text(STAND_IN)},"], begins=begins, said=STAND_IN)


def with_breaks(found: PackagedList, cuts: dict[int, Place]) -> tuple[bytes, bytes]:
    """The list `found` with a stand-in and a signal for each of `cuts`, and the decision file of their pods."""
    segments: list[PackagedSegment] = []
    ranges: list[str] = []
    for at in range(len(found.segments) + 1):
        if at in cuts:
            it = stand_in(found.segments, at, len(ranges) + 1)
            segments.append(it)
            ranges.append(f'#EXT-X-DATERANGE:ID="{cuts[at].name}",START-DATE="{playlist.instant_text(it.begins or 0)}",DURATION={seconds_text(STAND_IN)},'
                          f"SCTE35-OUT={splice.insert_text(len(ranges) + 1, STAND_IN)}")
        segments += found.segments[at:at + 1]
    discontinuity = found.discontinuity_sequence
    for n, one in enumerate(segments):
        discontinuity += one.discontinuities
        one.number, one.discontinuity = found.first + n, discontinuity
    listed = replace(found, segments=segments, version=max(found.version or 1, 6 if any(it.section for it in segments) else 4), pieces=None, marked=None)
    decisions = {"breaks": [{"id": it.name, "ads": [ad.said() for ad in it.ads]} for it in cuts.values()]}
    return packaged.write(listed, [*found.date_ranges(), *ranges]), (json.dumps(decisions, indent=1) + "\n").encode()


def check(base: str, listed: bytes, decisions: bytes, names: list[str]) -> str:
    """Why adsplice wouldn't fill each of the breaks `names` of the list `listed` under `base` by the decision file `decisions`, by the rules; empty if it
    would. Nobody may see a stand-in."""
    try:
        channel = refreshed(decide(Channel(base_of(base)), decisions), listed)
    except Refused as fault:
        return f"adsplice would refuse it: {fault}"
    except NotModelled:
        return ""
    told = dict(words(channel))
    if (empty := next((it for it in names if told.get(it) != "Filled"), None)) is not None:
        return f"break {empty}: it would stay empty ({told.get(empty, 'its ID is in the playlist already')})"
    return "a stand-in would stay" if URI.partition("{")[0] in (written(channel) or "") else ""

