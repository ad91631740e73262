"""How a packager's list follows the one before it (RFC 8216, 6.2.1 and 6.2.2): where it goes on, if it does.

A segment is known by what it is: its URI, byte range, duration, keys and initialisation section, and by the instant that it
states. Where a list goes on is told by the packager's numbers if these are true, else by what the segments are, else (a token
that changes) by their paths. Where the numbers are true, a segment's name is enough: its host, its folder, its keys and its section may
be spelled otherwise in each list.
"""
from __future__ import annotations

from bisect import bisect_left
from collections.abc import Callable, Sequence
from dataclasses import dataclass

from .packaged import PackagedSegment
from .playlist import SECOND

MOST_PLACES = 16  # that are tried for a list that doesn't go on by its numbers
LAG = 15.0  # seconds by which a list without instants may end earlier and still only lag, or LAG_TARGETS target durations
LAG_TARGETS = 3
NEAR = SECOND // 10  # by which packagers' clocks may differ that cut a programme alike

Segments = Sequence[PackagedSegment]
Way = Callable[[PackagedSegment, PackagedSegment], bool]


@dataclass(frozen=True)
class Place:
    """Where a list goes on: its segment i is the one at `offset` + i of the last list. `way`: how that was found: `numbers`,
    `segments`, `names`, `queries`, or `newest`, if the newest segment alone is what it was."""

    offset: int
    way: str


def is_same(one: PackagedSegment, other: PackagedSegment) -> bool:
    """Whether they are one segment, but for the instants that they state."""
    return one.uri == other.uri and is_alike(one, other)


def is_alike(one: PackagedSegment, other: PackagedSegment) -> bool:
    """The same, but for the queries of their URIs."""
    return (path_of(one) == path_of(other) and one.byte_range == other.byte_range and one.duration == other.duration and one.keys == other.keys
            and one.section == other.section and (one.own == other.own or not any(it.takes_number() for it in one.keys)))


def path_of(it: PackagedSegment) -> str:
    """The URI of `it` without its query."""
    return it.uri.partition("?")[0]


def name_of(it: PackagedSegment) -> str:
    """The last part of the path of `it`."""
    return path_of(it).rpartition("/")[2]


def is_named(one: PackagedSegment, other: PackagedSegment) -> bool:
    """Whether they have one name and one range."""
    return name_of(one) == name_of(other) and one.byte_range == other.byte_range


def is_as_long(one: PackagedSegment, other: PackagedSegment) -> bool:
    """Whether `one` has the duration that the packager stated last of `other`. If it states the instant of that, a packager may have
    corrected the duration."""
    return one.said == other.said or one.stated is not None and other.begins is not None and is_in_time(one, other)


def is_numbered(one: PackagedSegment, other: PackagedSegment) -> bool:
    """Whether they have one number of the packager's, one name, one range and one duration."""
    return one.own == other.own and is_named(one, other) and is_as_long(one, other)


def is_known(one: PackagedSegment, other: PackagedSegment) -> bool:
    """Whether they have one name, one range and one duration, and `one` states the instant of the other: another packager behind the same address may
    count from other numbers."""
    return one.stated is not None and is_named(one, other) and is_as_long(one, other) and is_in_time(one, other)


def is_in_time(one: PackagedSegment, other: PackagedSegment) -> bool:
    """Whether the instant that `one` states is within a second of that of `other`, which was listed before: of the one that it
    stated last, or else began at. So it is if either is none."""
    begins = said_of(other)
    return one.stated is None or begins is None or abs(one.stated - begins) < SECOND


def said_of(it: PackagedSegment) -> int | None:
    """When the segment `it`, which was listed before, begins by its packager's clock."""
    return it.begins if it.stated is None else it.stated


def overlap(offset: int, last: Segments, new: Segments) -> range:
    """The places in `new` of the segments that are at `offset` + place in `last`."""
    return range(max(0, -offset), min(len(new), len(last) - offset))


def goes_on(offset: int, last: Segments, new: Segments, way: Way) -> bool:
    """Whether `new` goes on at `offset`: it ends no earlier than `last`, and by `way` they have the same segments where they overlap."""
    return len(new) + offset >= len(last) and all(way(new[it], last[it + offset]) for it in overlap(offset, last, new))


def in_time(way: Way, has_instants: bool) -> Way:
    """The `way`, and with `has_instants` that the segments' instants agree."""
    return (lambda one, other: way(one, other) and is_in_time(one, other)) if has_instants else way


def place_of(last: Segments, new: Segments, has_instants: bool, is_held: bool) -> Place | None:
    """Where the list of segments `new` goes on after that of `last`; none if it doesn't. `has_instants`: the packager states
    instants. `is_held`: the list before wasn't taken, since it didn't go on; then one whose instants are others doesn't either."""
    offset = offset_by_numbers(last, new)
    exact = in_time(is_same, has_instants)
    if offset is not None and goes_on(offset, last, new, exact):
        return Place(offset, "numbers")
    places = [len(last) - 1 - it for it in range(len(new) - 1, -1, -1) if exact(new[it], last[-1])][:MOST_PLACES]
    for it in places:
        if goes_on(it, last, new, exact):
            return Place(it, "segments")
    if offset is not None and not is_held and len(overlap(offset, last, new)) > 1 and goes_on(offset, last, new, is_same):
        return Place(offset, "numbers")  # (a packager that set its clock)
    if offset is not None and (has_instants or not is_held) and goes_on_by_names(offset, last, new, has_instants):
        return Place(offset, "names")
    return place_by_known(last, new) or place_by_paths(last, new, has_instants, offset, is_held) or place_by_newest(last, new, places)


def offset_by_numbers(last: Segments, new: Segments) -> int | None:
    """Where `new` goes on after `last` by the packager's numbers; none if these leave a hole, or have nothing in common."""
    if new[0].own - new[0].gaps <= last[-1].own + 1 <= new[0].own:
        return None if begins_alike(last, new) else len(last)
    if new[0].own >= last[0].own:
        return next((place for place, it in enumerate(last) if it.own == new[0].own), None)
    return next((-place for place, it in enumerate(new) if it.own == last[0].own), None)


def begins_alike(last: Segments, new: Segments) -> bool:
    """Whether a segment of `new` begins when one of `last` does: another packager has cut the same programme."""
    begins, stated = sorted(begin for it in last if (begin := said_of(it)) is not None), [it.stated for it in new if it.stated is not None]
    places = [max(0, bisect_left(begins, it) - 1) for it in stated]
    return any(abs(begin - it) <= NEAR for it, place in zip(stated, places) for begin in begins[place:place + 2])


def goes_on_by_names(offset: int, last: Segments, new: Segments, has_instants: bool) -> bool:
    """Whether `new` goes on at `offset`, where its numbers say, by the names of what both list; the newest one of `last` may have been
    listed before it was whole. Without instants one name says too little, and so do names that are equal."""
    shared = overlap(offset, last, new)
    names = {(name_of(new[it]), new[it].byte_range) for it in shared}
    if not shared or not has_instants and not 2 <= len(shared) == len(names):
        return False
    newest = new[len(last) - 1 - offset] if 0 <= len(last) - 1 - offset < len(new) else None
    named = in_time(lambda one, other: is_named(one, other) and (one is newest or is_as_long(one, other)), has_instants)
    return goes_on(offset, last, new, named)


def place_by_known(last: Segments, new: Segments) -> Place | None:
    """Where `new` goes on after `last` by names and instants, whatever its numbers are."""
    places = [len(last) - 1 - it for it in range(len(new) - 1, -1, -1) if is_known(new[it], last[-1])][:MOST_PLACES]
    return next((Place(it, "segments") for it in places if goes_on(it, last, new, is_known)), None)


def place_by_paths(last: Segments, new: Segments, has_instants: bool, offset: int | None, is_held: bool) -> Place | None:
    """Where `new` goes on after `last` if the queries of URIs don't count, or the newest segment of `last` was listed before it was
    whole. `offset`: where its numbers say, if they say a place; the rest as in `place_of`."""
    alike = in_time(is_alike, has_instants)
    if offset is not None and goes_on(offset, last[:-1], new, in_time(is_same, has_instants)) and len(new) + offset >= len(last):
        pair = new[len(last) - 1 - offset] if 0 <= len(last) - 1 - offset < len(new) else None
        if pair is not None and pair.uri == last[-1].uri and is_in_time(pair, last[-1]) and len(overlap(offset, last, new)) > 1:
            return Place(offset, "newest")
    if not any("?" in it.uri for it in new) or len({(path_of(it), it.byte_range) for it in new}) < len(new):
        return None
    way = is_alike if not is_held and offset is not None and len(overlap(offset, last, new)) > 1 else alike
    if offset is not None and overlap(offset, last, new) and goes_on(offset, last, new, way):
        return Place(offset, "queries")
    places = [len(last) - 1 - it for it in range(len(new) - 1, -1, -1) if alike(new[it], last[-1])][:MOST_PLACES]
    return next((Place(it, "queries") for it in places if overlap(it, last, new) and goes_on(it, last, new, alike)), None)


def place_by_newest(last: Segments, new: Segments, places: list[int]) -> Place | None:
    """Where `new` goes on if the newest segment of `last` is in it at the first of `places`, others aren't what they were, and what
    comes after it is new."""
    if not places:
        return None
    known = {(it.uri, it.byte_range) for it in last}
    later = new[len(last) - places[0]:]
    return None if any((it.uri, it.byte_range) in known for it in later) else Place(places[0], "newest")


def lags(past: Segments, last: Segments, new: Segments, has_instants: bool, target: int) -> bool:
    """Whether `new` is an older list: its segments were listed in order, in `last` or in the `past` before it, and its last one isn't the
    newest. If it reaches into `last`, what it has from before needn't have been listed: lists may have been lost. Without instants it may
    also be of a packager that began again with the same URIs: then it lags if it ends at most LAG seconds, or LAG_TARGETS target
    durations (`target`, in seconds), earlier."""
    known = is_alike if any("?" in it.uri for it in new) else is_same
    has_names = has_instants or len(new) >= len(last)  # (a run that begins again with the same names and numbers has few segments at first)
    same = in_time(lambda one, other: known(one, other) or has_names and is_numbered(one, other) or has_instants and is_known(one, other), has_instants)
    history = [*past, *last]
    places = [it for it in range(len(history) - 2, -1, -1) if same(new[-1], history[it])][:MOST_PLACES]
    for end in places:
        count = min(len(new), end + 1 - (len(past) if end >= len(past) else 0))
        if all(same(new[len(new) - 1 - it], history[end - it]) for it in range(count)):
            behind = sum(it.duration for it in history[end + 1:])
            is_stated = has_instants and any(it.stated is not None for it in new)
            return is_stated or behind <= max(LAG, LAG_TARGETS * target) * SECOND
    return False
