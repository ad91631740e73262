"""Pods that are shorter than their breaks are filled up by whole segments of a slate; of a longer one it is told.

A break's length may become known after its decision was given. Then it is decided once more, before it begins.
"""
from __future__ import annotations

import json
from collections.abc import Mapping
from typing import Any

from .breaks import Break
from .decided import BREAKS, begun_of, decide
from .edges import measured
from .pods import decision_of, said_in
from .siblings import is_alike
from .state import Telling
from .translator import Translator
from .turn import Turn

SLATE = "slate"  # the ID of the ad that fills a pod up, and who tells of it
NEAR = 0.1  # seconds that a pod may be longer than its break
MOST_SEGMENTS = 1000  # of a slate that fill a pod up

Segments = list[dict[str, Any]]


def seconds_of(segments: Segments) -> float:
    """The seconds that the `segments` last."""
    return sum(float(it["duration"]) for it in segments)


def segments_of(ads: str) -> Segments:
    """The segments of a pod's `ads`."""
    return [one for ad in json.loads(ads) for one in ad["segments"]]


def slate_in(body: bytes | None) -> Segments:
    """The segments of the slate file `body`, which is written as a fallback is; none if it has none that last."""
    fallback = said_in(body or b"").get("fallback")
    try:
        found = [one for ad in fallback["ads"] for one in ad["segments"]] if isinstance(fallback, dict) else []
        return found if found and all(float(it["duration"]) > 0 for it in found) else []
    except (ValueError, TypeError, KeyError):
        return []


def count_for(slate: Segments, seconds: float) -> int:
    """How many segments of the `slate`, in turns, last for at most so many `seconds`."""
    count = 0
    while count < MOST_SEGMENTS and (seconds := seconds - float(slate[count % len(slate)]["duration"])) >= -NEAR:
        count += 1
    return count


def fill(turn: Turn, translator: Translator) -> None:
    """Fills the pods up of the breaks that the `translator` knows, that are decided, and that haven't begun; tells of longer ones."""
    if all(it.slate is None for _, it in turn.renditions()):
        return
    for one in translator.breaks.known:
        pods = {channel: it.stands.pods.held[one.id] for channel, it in turn.renditions() if one.id in it.stands.pods.held}
        end = one.end()
        if end is not None and len(pods) == len(turn.state.renditions) and not begun_of(turn, [one.id]):
            fill_break(turn, one, (end - one.start) / 10**9, pods)


def fill_break(turn: Turn, one: Break, length: float, pods: Mapping[str, str]) -> None:
    """Fills up the `pods` of the break, by channels, which lasts for `length` seconds; tells if they are longer."""
    first, ads = next(iter(pods.items()))
    lasts = seconds_of(segments_of(ads))
    if lasts > length + NEAR:
        turn.tell_decision(f"{SLATE}/{one.id}", 0, "Longer", f"the pod lasts {lasts:g} s, and the break {length:g} s: what is after it begins later")
        return
    slates = slates_of(turn)
    if not all(slates.values()) or any(SLATE in (it.get("id") for it in json.loads(text)) for text in pods.values()):
        return
    counts = {channel: count_of(turn, channel, first, slates, length - lasts) for channel in pods}
    if not all(counts.values()):
        return
    bodies = {channel: decision_of(one.id, with_slate(text, slates[channel], counts[channel])) for channel, text in pods.items()}
    more = f"{counts[first]} segment{'s' if counts[first] > 1 else ''} of the slate"
    decide(turn, bodies, BREAKS, (one.id,), tells=Telling(f"{SLATE}/{one.id}", "", f"the pod lasts {lasts:g} s of {length:g} s; fills it up by {more}", True))


def slates_of(turn: Turn) -> dict[str, Segments]:
    """The segments of the slate of each channel; subtitles without one have the empty piece for each segment of another one's."""
    found = {channel: slate_in(it.slate) for channel, it in turn.renditions()}
    other: Segments = next((it for it in found.values() if it), [])
    empty = {channel: it.settings.empty_subtitles for channel, it in turn.renditions() if it.settings.empty_subtitles and not found[channel]}
    return found | {channel: [{"uri": uri, "duration": it["duration"]} for it in other] for channel, uri in empty.items()}


def count_of(turn: Turn, channel: str, first: str, slates: Mapping[str, Segments], seconds: float) -> int:
    """How many segments of its slate the `channel` has for so many `seconds`: as many as the `first` one, if its own are as long."""
    paces = [measured(turn.state.renditions[it]) for it in (channel, first)]
    return count_for(slates[first if is_alike(*paces) else channel], seconds)


def with_slate(ads: str, slate: Segments, count: int) -> str:
    """The `ads` of a pod, and an ad of `count` segments of the `slate` after them."""
    return json.dumps([*json.loads(ads), {"id": SLATE, "segments": [slate[place % len(slate)] for place in range(count)]}])
