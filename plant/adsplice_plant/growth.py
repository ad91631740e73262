"""A list whose text goes on from the last one's (RFC 8216, 6.2.1): what is new of it is read, and the rest is known.

A packager's next list is the last one without some segments at its front, and with some more at its end. That is seen by comparing
bytes, which takes a few microseconds; to read a list takes as many for each of its segments. Whatever isn't plainly so is read as a whole.
"""
from __future__ import annotations

from collections.abc import Mapping
from dataclasses import dataclass, replace
from typing import NamedTuple

from . import packaged, spelling
from .edits import ALIKE
from .packaged import PackagedList, PackagedSegment, Reader
from .playlist import SECOND
from .spelling import Unread

EXTINF = b"\n#EXTINF:"
CARRIED = {"clock", "times", "version", "target", "type", "own numbers", "keys", "discontinuity sequence"}  # repairs that are of a whole list
OF_HEAD = {"version", "target", "type", "times"}  # those of them that stay while the head does


class Parts(NamedTuple):
    """The text of a list that goes on: its `front`, up to the end of its first segment, and what is `fresh` after the last one's end.
    The first one is that of the last list after which `dropped` stood."""

    front: bytes
    fresh: bytes
    dropped: int


class Fresh(NamedTuple):
    """What a list that goes on says: the segments that `dropped` out, the `first` one that is left as it is told now, the `new` ones, and
    by how much its discontinuity numbers are `ahead` of the feed's."""

    dropped: int
    first: PackagedSegment
    new: list[PackagedSegment]
    ahead: int


@dataclass(frozen=True)
class Accepted:
    """The list that was accepted last, as the next one may go on from it: its text (`body`), what its `head` says that stays, its
    `repairs`, and what it lists (`found`)."""

    body: bytes
    head: tuple[object, ...]
    repairs: Mapping[str, str]
    found: PackagedList


def head_of(said: PackagedList) -> tuple[object, ...]:
    """What the head of a list says, as it was `said`, that stays the same from one list to the next."""
    return said.version, said.target, said.kind, said.is_independent


def accepted_of(body: bytes, head: tuple[object, ...], found: PackagedList, counted: list[int], repairs: Mapping[str, str]) -> Accepted | None:
    """What the next list may go on from, after the list `body` with this `head`, whose segments had so many discontinuities (`counted`). It
    became `found`, with these `repairs`. None if the next one has to be read as a whole."""
    first, last = found.segments[0], found.segments[-1]
    is_plain = ends_with_uri(body) and b"\r" not in body and not (found.is_ended or found.others or found.tail_tags or found.tail_discontinuities)
    is_kept = repairs.keys() <= CARRIED and ("own numbers" in repairs or counted == [it.discontinuities for it in found.segments])
    is_counted = last.own - first.own == len(found.segments) - 1 and last.begins is not None and not any(it.gaps for it in found.segments)
    return Accepted(body, head, repairs, found) if is_plain and is_kept and is_counted else None


def ends_with_uri(body: bytes) -> bool:
    """Whether the last line of the list `body` is a segment's: tags after it are of the next one."""
    return body.endswith(b"\n") and body[body.rfind(b"\n", 0, -1) + 1:][:1] != b"#"


def parts_of(old: bytes, new: bytes) -> Parts | None:
    """The parts of the list `new`, which has all but a front of the list `old`, and more after it; none if it hasn't. Each is compared
    once."""
    first = new.find(EXTINF) + 1
    uri = new.find(b"\n", first) + 1
    while uri and new[uri:uri + 1] == b"#":
        uri = new.find(b"\n", uri) + 1
    past = new.find(b"\n", uri) + 1
    at = new.rfind(old[-ALIKE:], past)
    if not 0 < first < uri < past or at < 0 or len(old) < ALIKE or not ends_with_uri(new) or b"\r" in new:
        return None
    end = at + ALIKE
    begin = len(old) - (end - past)
    is_same_uri = begin > 0 and old.startswith(b"\n" + new[uri:past], begin - (past - uri) - 1)
    return Parts(new[:past], new[end:], old.count(EXTINF, 0, begin - 1) - 1) if is_same_uri and new.startswith(old[begin:], past) else None


def fresh_of(before: Accepted, body: bytes) -> Fresh | None:
    """What the list `body` says if it goes on from the one `before`; none if it has to be read as a whole."""
    parts = parts_of(before.body, body)
    if parts is None:
        return None
    kinds: spelling.Kinds = set()
    try:
        head = packaged.read(spelling.lines_of(parts.front, kinds))
        new = read_after(before.found.segments[-1], parts.fresh, kinds)
    except Unread:
        return None
    if new is None or kinds or len(head.segments) != 1 or head.others or head.is_ended or head_of(head) != before.head:
        return None
    first, dropped = head.segments[0], head.segments[0].own - before.found.segments[0].own
    if parts.dropped != dropped or len(before.found.segments) - dropped + len(new) > packaged.MOST_SEGMENTS:
        return None
    same = before.found.segments[dropped]
    if not is_told_again(first, same) or not is_timed_alike(first, new, "times" in before.repairs):
        return None
    return Fresh(dropped, first, new, head.discontinuity_sequence + first.discontinuities - same.discontinuity)


def read_after(newest: PackagedSegment, text: bytes, kinds: spelling.Kinds) -> list[PackagedSegment] | None:
    """The segments that the `text` after the segment `newest` says; none if it says more than segments. Raises Unread."""
    reader = Reader()
    reader.keys, reader.section = newest.keys, newest.section
    reader.found.segments.append(newest)
    reader.take(spelling.lines_of(text, kinds) if text else [])
    new = reader.found.segments[1:]
    said = reader.end()
    is_plain = not (said.others or said.is_ended or said.tail_tags or said.tail_discontinuities or reader.seen)
    is_alike = all((it.section is None) == (newest.section is None) and not it.is_gap for it in new)
    is_alike = is_alike and not (new and is_twice(new[-2] if len(new) > 1 else newest, new[-1]))
    for place, it in enumerate(new):
        it.own = newest.own + 1 + place
    return new if is_plain and is_alike else None


def is_twice(one: PackagedSegment, other: PackagedSegment) -> bool:
    """Whether the segment `other`, which is listed after `one`, is that again: at the same instant, since a slate may come again and again."""
    return one.uri == other.uri and one.byte_range == other.byte_range and one.stated is not None and one.stated == other.stated


def is_told_again(first: PackagedSegment, same: PackagedSegment) -> bool:
    """Whether the `first` segment of a list is the segment `same` of the last one, word for word."""
    stated = same.begins if same.stated is None else same.stated
    is_in_time = first.stated is None or stated is not None and abs(first.stated - stated) < SECOND
    told = first.uri, first.duration, first.byte_range, first.keys, first.section
    return is_in_time and not first.is_gap and told == (same.uri, same.duration, same.byte_range, same.keys, same.section)


def is_timed_alike(first: PackagedSegment, new: list[PackagedSegment], is_untimed: bool) -> bool:
    """Whether the list is seen to state instants, or to state none, as the one before it (`is_untimed`), by its `first` segment and the
    `new` ones."""
    states = first.stated is not None or any(it.stated is not None for it in new)
    return states != is_untimed


def grown(before: Accepted, fresh: Fresh) -> PackagedList:
    """The list that goes on from the one `before` by what is `fresh`."""
    old, kept = before.found, kept_by(before, fresh)
    found = PackagedList(old.version, old.target, kind=old.kind, is_independent=old.is_independent, segments=kept + fresh.new)
    if old.pieces is not None:
        found.pieces = old.pieces[fresh.dropped:] + [packaged.piece_of(one, it) for one, it in zip([kept[-1], *fresh.new], fresh.new)]
    if (instants := old.instants()) is not None:
        found.timed = instants.after(fresh.dropped, [it.begins for it in fresh.new if it.begins is not None])
    old.own_ranges()
    marked = [place - fresh.dropped for place in old.marked or () if place > fresh.dropped]
    found.marked = [0, *marked, *(place for place, it in enumerate(fresh.new, len(kept)) if any(line.startswith(packaged.DATE_RANGE) for line in it.tags))]
    return found


def kept_by(before: Accepted, fresh: Fresh) -> list[PackagedSegment]:
    """The segments of the list `before` that are still listed, the first one with the lines that stand before it now."""
    same = before.found.segments[fresh.dropped]
    kept = before.found.segments[fresh.dropped:]
    kept[0] = replace(same, tags=fresh.first.tags, stated=same.stated if fresh.first.stated is None else fresh.first.stated)
    return kept


def repairs_after(before: Accepted, fresh: Fresh, found: PackagedList) -> dict[str, str]:
    """The repairs of the list `found` that went on from the one `before`: those of its head, and what its numbers have now."""
    repairs = {kind: text for kind, text in before.repairs.items() if kind in OF_HEAD}
    first = found.segments[0]
    if first.number != first.own:
        repairs["own numbers"] = ""
        if any(it.effective_keys() != it.keys for it in found.segments):
            repairs["keys"] = ""
    elif fresh.ahead:
        repairs["discontinuity sequence"] = ""
    return repairs
