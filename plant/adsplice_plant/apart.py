"""The numbers of a programme's renditions beside one another: equal at equal segments, or it is told (RFC 8216, 6.2.4).

Renditions whose segments are as long have equal media numbers, too. Others have equal discontinuity numbers at equal instants.
"""
from __future__ import annotations

from bisect import bisect_left, bisect_right
from collections.abc import Mapping

from .breaks import Numbering
from .packaged import PackagedList, PackagedSegment
from .ranges import starts_in
from .reckoning import Numbers
from .siblings import is_alike, numbering_of, pace_of
from .state import Standing
from .turn import Turn
from .values import changed

Found = Mapping[str, tuple[int | None, int]]  # by channels: the media number, if it is one that others have, and the discontinuity number


def numberings_of(turn: Turn, lists: Mapping[str, PackagedList]) -> dict[str, Numbering]:
    """The numberings of those channels of the programme whose segments aren't as long as those of the first one of the shortest. Their newest `lists` are
    looked at beside what was listed before."""
    if len(turn.state.renditions) == 1:
        return {}
    listed = {channel: lists[channel].segments if channel in lists else it.stands.repairer.last for channel, it in turn.renditions()}
    paces = {channel: pace for channel, it in listed.items() if (pace := pace_of(it))}
    shortest = next((channel for channel, it in paces.items() if is_alike(it, min(paces.values()))), "")
    return {channel: numbering_of(listed[channel], listed[shortest]) for channel, it in paces.items() if not is_alike(it, paces[shortest])}


def compare(turn: Turn) -> None:
    """Compares the numbers that viewers have of the newest segment that all renditions have. If they come apart, it is told, and the
    discontinuities that a rendition lacks are added where no break may begin: within one they might be replaced."""
    lists = {channel: it.stands for channel, it in turn.renditions()}
    if len(lists) < 2 or any(not it.repairer.last or it.viewed.is_replaced for it in lists.values()):
        return
    first = max(lists, key=lambda channel: (pace_of(lists[channel].repairer.last), channel == next(iter(lists))))
    alike = [it for it in lists if is_alike(pace_of(lists[first].repairer.last), pace_of(lists[it].repairer.last))]
    if (found := newest_of(turn.state.equal_after, lists, first, alike)) is None:
        return
    usual = usual_of(found)
    odd = {channel: it for channel, it in found.items() if it[1] != usual[1] or it[0] not in (None, usual[0])}
    for channel in odd.keys() ^ turn.state.is_apart:
        turn.note([channel], "apart", int(channel in odd), "")
    if not odd:
        if turn.state.is_apart:
            turn.tell("", "ladder", 0, "-", "the renditions' numbers are equal", is_again=True)
        turn.set(is_apart=frozenset())
        return
    tell_apart(turn, odd, usual)
    turn.set(is_apart=frozenset(odd))
    most = max(discontinuity for _, discontinuity in found.values())
    if any(it[1] < most for it in found.values()) and not any(may_enter(it, turn.state.translator.tolerance) for it in lists.values()):
        for channel, it in lists.items():
            turn.put_standing(channel, repairer=changed(it.repairer, owed=most - found[channel][1]))
        turn.set(equal_after=max(lists[channel].repairer.last[-1].number for channel in alike) + 1)


def newest_of(after: int, lists: Mapping[str, Standing], first: str, alike: list[str]) -> Found | None:
    """The numbers that viewers have of the newest segment of the channel `first` past the media number `after` which all `lists` have: by media
    numbers in those that are cut `alike`, as far as these have one clock there; in the others by the instant at which it begins, unless a discontinuity
    near it isn't there in all of them. None if there is none."""
    for one in sorted((it for it in lists[first].repairer.last if it.number > after), key=lambda it: -it.number):
        if len(alike) < len(lists) and {step_near(it, one) for it in lists.values()} not in ({None}, {True}):
            continue
        found: dict[str, tuple[int | None, int]] = {}
        for channel, it in lists.items():
            there = numbered(it, one) if channel in alike else None
            if (there := there or beginning_at(it, one)) is not None:
                found[channel] = there[0] if channel in alike else None, there[1]
        if len(found) == len(lists):
            return found
    return None


def step_near(stands: Standing, other: PackagedSegment) -> bool | None:
    """Whether the discontinuity that is listed within half of the `other` rendition's segment of where that begins stands there: that of the other
    rendition may stand elsewhere. None if there is none."""
    listed, at, half = stands.repairer.last, other.begins or 0, other.duration // 2
    low, high = bisect_left(listed, at - half, key=lambda it: it.begins or 0), bisect_right(listed, at + half, key=lambda it: it.begins or 0)
    steps = [it for it in listed[low:high] if it.discontinuities]
    return all(abs((it.begins or 0) - at) < it.duration // 2 for it in steps) if steps else None


def numbered(stands: Standing, other: PackagedSegment) -> Numbers | None:
    """The numbers that viewers have of the segment with the media number of the `other` rendition's; none if there is none, or if it begins elsewhere: a
    rendition that was away counts on from its own last segment."""
    one = next((it for it in stands.repairer.last if it.number == other.number), None)
    if one is None or (None not in (one.begins, other.begins) and 2 * abs((one.begins or 0) - (other.begins or 0)) > max(one.duration, other.duration)):
        return None
    return stands.viewed.begins.get(one.number)


def beginning_at(stands: Standing, other: PackagedSegment) -> Numbers | None:
    """The numbers that viewers have of the segment that begins when the `other` rendition's does, or within half of itself; none if there is none."""
    listed = stands.repairer.last
    if other.begins is None or any(it.begins is None for it in listed):
        return None
    place = bisect_left(listed, other.begins, key=lambda it: it.begins or 0)
    near = [it for it in listed[max(0, place - 1):place + 1] if abs((it.begins or 0) - other.begins) <= it.duration // 2]
    found = min(near, key=lambda it: abs((it.begins or 0) - (other.begins or 0)), default=None)
    return None if found is None else stands.viewed.begins.get(found.number)


def usual_of(found: Found) -> tuple[int | None, int]:
    """The numbers that most channels have, of those that were `found`."""
    steps = [it[1] for it in found.values()]
    most = max(steps, key=steps.count)
    numbers = [it[0] for it in found.values() if it[0] is not None and it[1] == most]
    return max(numbers, key=numbers.count) if numbers else None, most


def tell_apart(turn: Turn, odd: Found, usual: tuple[int | None, int]) -> None:
    """Tells which renditions are `odd`, with their numbers, beside the `usual` ones: once until all are equal again. Media numbers stay apart: a
    channel that is made anew goes on with those that its viewers have."""
    if turn.state.is_apart:
        return
    text = "; ".join(f"{name} ends with {said_of(it)}" for name, it in odd.items())
    does = "media numbers stay so" if any(it[0] not in (None, usual[0]) for it in odd.values()) else "the discontinuities are added as soon as no break may begin"
    turn.tell("", "ladder", 0, "Apart", f"the renditions' numbers come apart: {text}, and the others with {said_of(usual, False)}; {does}", is_again=True)


def said_of(it: tuple[int | None, int], is_long: bool = True) -> str:
    """The numbers `it` in words; if not `is_long`, by themselves."""
    if it[0] is None:
        return f"discontinuity number {it[1]}"
    return f"media number {it[0]} and discontinuity number {it[1]}" if is_long else f"{it[0]} and {it[1]}"


def may_enter(stands: Standing, tolerance: int) -> bool:
    """Whether a break may begin with the next segment: one is listed whose start is within `tolerance` of the newest segment's end, or somewhat
    after it. A break that began before isn't entered any more."""
    last = stands.repairer.last[-1]
    end = (last.begins or 0) + last.duration
    starts = starts_in([line for line, number in stands.viewed.ranges.values() if number >= last.number])
    return any(-tolerance <= it - end <= tolerance + last.duration for it in starts.values())
