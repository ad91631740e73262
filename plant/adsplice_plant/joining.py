"""A rendition that comes later than the others of its programme: it begins with the numbers that their viewers have (RFC 8216, 6.2.4).

Where a pod is shown in the others, the packager's segments have no numbers. So its first list begins after the last pod, and after the last
discontinuity that it hasn't.
"""
from __future__ import annotations

from . import apart
from .packaged import PackagedSegment
from .reckoning import Numbers
from .repair import Repaired
from .siblings import is_alike, pace_of
from .state import Standing
from .turn import Turn

There = dict[int, Numbers]  # the numbers that viewers have in another rendition, by the media numbers of the one that joins


def viewed_there(turn: Turn, channel: str, repaired: Repaired) -> There | None:
    """What viewers have in the other renditions at the segments of the list `repaired`, the first one of the `channel`: of one that is cut alike, or else
    the discontinuity numbers alone of another one. None if no other has a list yet."""
    segments = repaired.found.segments if repaired.found is not None else []
    pace = pace_of(segments)
    others = [it.stands for name, it in turn.renditions() if name != channel and it.stands.repairer.last and it.stands.viewed.begins]
    if not segments or not others:
        return None
    other = max(others, key=lambda it: is_alike(pace, pace_of(it.repairer.last)))
    if other.viewed.is_replaced:
        return {}
    if is_alike(pace, pace_of(other.repairer.last)):
        return {it.number: numbers for it in segments if (numbers := numbers_at(other, it)) is not None}
    found = [(it.number, apart.beginning_at(other, it)) for it in segments]
    return {number: (number, numbers[1]) for number, numbers in found if numbers is not None}


def numbers_at(other: Standing, it: PackagedSegment) -> Numbers | None:
    """The numbers that viewers have in the `other` rendition of the segment `it`, also if it hasn't come there; none if a pod stands for it."""
    last = other.repairer.last[-1]
    if it.number <= last.number or last.number not in other.viewed.begins:
        return other.viewed.begins.get(it.number)
    media, discontinuity = other.viewed.begins[last.number]
    return media + it.number - last.number, discontinuity + it.discontinuity - last.discontinuity


def join(repaired: Repaired, there: There) -> None:
    """The list `repaired` begins with the first of its segments from which on all are numbered as in the others, whose viewers have the numbers that are
    `there`; nothing of it is given if there is none."""
    assert repaired.found is not None
    segments = repaired.found.segments
    ahead = {it.number: (numbers[0] - it.number, numbers[1] - it.discontinuity) for it in segments if (numbers := there.get(it.number)) is not None}
    last = ahead.get(segments[-1].number)
    place = next((place for place in range(len(segments), 0, -1) if last is None or ahead.get(segments[place - 1].number) != last), 0)
    if place == len(segments):
        repaired.found, repaired.came, repaired.waits, repaired.why = None, None, True, "a break is shown in the other renditions; it is taken after that"
        return
    if place:
        repaired.found.segments, repaired.came, repaired.accepted = segments[place:], None, None
    repaired.joins = there[repaired.found.segments[0].number]
