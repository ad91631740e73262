"""Whether the decision files of a programme's renditions fit one another: the same breaks, with ads of the same lengths.

Renditions whose segments are as long have ads of as many segments, so that their media numbers stay equal. In others an ad lasts as long.
"""
from __future__ import annotations

import functools
import json
from collections.abc import Mapping
from typing import NamedTuple

from adsplice_rules.decisions import decisions_of
from adsplice_rules.values import Fault

from .playlist import SECOND, seconds_text
from .siblings import is_alike

TEXTS = (".vtt", ".webvtt")  # endings of subtitles' files
MOST_APART = 0.03  # seconds between the lengths of a break's pods that aren't told: whole frames of sound are no nearer to pictures than half a frame
Pod = tuple[tuple[float, ...], ...]  # the seconds of the segments of each ad


class Shape(NamedTuple):
    """What a decision file says but for its URIs: the break that it withdraws (`withdraw`), and the pods of its breaks by their IDs; the fallback's ID is
    empty."""

    withdraw: str
    pods: Mapping[str, Pod]


def shape_of(body: bytes) -> Shape | None:
    """The shape of the decision file `body`; none if adsplice won't take it, which it says itself."""
    try:
        said = json.loads(body)
        pods = said.get("breaks") or ([{"id": "", **said["fallback"]}] if said.get("fallback") else [])
        found = {it["id"]: tuple(tuple(float(one["duration"]) for one in ad["segments"]) for ad in it["ads"]) for it in pods}
        return Shape(str(said.get("withdraw", "")), found)
    except (ValueError, TypeError, KeyError, AttributeError, RecursionError):
        return None


def are_near(one: float, other: float, piece: float) -> bool:
    """Whether two lengths in seconds differ by no more than half a `piece`."""
    return abs(one - other) * 2 <= piece


def is_as_cut(one: Pod, other: Pod) -> bool:
    """Whether two pods have ads of as many segments, each as long to half of itself."""
    return [len(it) for it in one] == [len(it) for it in other] and all(
        are_near(mine, theirs, min(mine, theirs)) for ad, of in zip(one, other) for mine, theirs in zip(ad, of))


def is_as_long(one: Pod, other: Pod) -> bool:
    """Whether two pods have as many ads, each as long to half of a segment."""
    return len(one) == len(other) and all(are_near(sum(ad), sum(of), max(ad + of, default=0.0)) for ad, of in zip(one, other))


def fit(one: Shape | None, other: Shape | None, is_alike: bool) -> bool:
    """Whether two renditions' files fit one another, of renditions whose segments are as long (`is_alike`) or not. One that says nothing fits all."""
    if one is None or other is None:
        return True
    equal = is_as_cut if is_alike else is_as_long
    return one.withdraw == other.withdraw and one.pods.keys() == other.pods.keys() and all(equal(pod, other.pods[name]) for name, pod in one.pods.items())


@functools.lru_cache(256)
def misfit(body: bytes, target: int, has_sections: bool) -> str:
    """Why a list of the `target` duration, in seconds, wouldn't be filled by the decision file `body`, in words: no segment of it, rounded, is longer, and each ad
    has an initialisation section if the list's segments have some (`has_sections`), and none else. Empty if it would; what the rules refuse they say."""
    try:
        said = decisions_of(body)
    except Fault:
        return ""
    pods = [pod for _, pod in said.breaks or ()] + ([said.fallback] if said.fallback is not None else [])
    if any((ad.init_section is not None) != has_sections for pod in pods for ad in pod.ads):
        return f"an ad has {'no' if has_sections else 'an'} initialisation section, and its playlist has {'one' if has_sections else 'none'}"
    return "" if all(pod.fits(target, has_sections) for pod in pods) else f"a segment is over its target duration of {target} s"


# ---- the files of a ladder's renditions, beside one another

def differences(bodies: Mapping[str, bytes]) -> list[str]:
    """How those of the decision files `bodies` of a ladder's renditions, by their names, don't fit the first one: a sentence for each. The files are right."""
    first, *others = ((name, shape_of(body), sections_in(body)) for name, body in bodies.items())
    found = []
    for name, shape, sections in others:
        alike = is_alike(pace_in(first[1]), pace_in(shape))
        if not fit(first[1], shape, alike):
            found.append(f"{name}: it hasn't the breaks of {first[0]}, with ads {'and segments ' if alike else ''}as long")
        elif None not in (sections, first[2]) and sections != first[2]:
            found.append(f"{name}: its ads have {'' if sections else 'no '}initialisation sections, and those of {first[0]} have {'none' if sections else 'some'}")
    return found


def lengths_apart(bodies: Mapping[str, bytes]) -> list[str]:
    """Which pods of the decision files `bodies` of a ladder's renditions, by their names, last longer or shorter than those of the first one, though they fit: a
    sentence for each. The files are right."""
    found = list[str]()
    known = [(name, it.pods) for name, body in bodies.items() if (it := shape_of(body)) is not None]
    first, pods = known[0] if known else ("", {})
    for name, one, pod in [(name, one, pod) for name, its in known[1:] for one, pod in its.items()]:
        by = sum(sum(ad) for ad in pod) - sum(sum(ad) for ad in pods.get(one, pod))
        if abs(by) > MOST_APART:
            found.append(f"{name}: {f'the pod of {one}' if one else 'the fallback'} lasts {seconds_text(round(abs(by) * SECOND))} s {'longer' if by > 0 else 'less'} than that of {first}: "
                         "players that join streams end to end are out of step by so much more after each such break")
    return found


def pace_in(shape: Shape | None) -> int:
    """How long the longest segment of a `shape` is, in nanoseconds; 0 if there is none."""
    return round(max((one for pod in shape.pods.values() for ad in pod for one in ad), default=0.0) * SECOND) if shape is not None else 0


def sections_in(body: bytes) -> bool | None:
    """Whether an ad of the decision file `body` has an initialisation section; none if its ads are subtitles, which may have none beside others that have, or if it
    has no ads."""
    said = decisions_of(body)
    ads = [ad for pod in [*(it for _, it in said.breaks or ()), *([said.fallback] if said.fallback is not None else [])] for ad in pod.ads]
    if all(one.uri.partition("?")[0].endswith(TEXTS) for ad in ads for one in ad.segments):
        return None
    return any(ad.init_section is not None for ad in ads)
