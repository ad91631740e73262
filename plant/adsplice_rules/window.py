"""The window: the part of the stitched list that a written playlist shows (RFC 8216, 6.2.2)."""
from __future__ import annotations

from .breaks import Shown, last_entered
from .numbers import Item
from .stitched import run_pieces, runs_of, stitched
from .values import Playlist


def place_of(number: int, history: list[Shown]) -> int:
    """How many items of the stitched list come before that of the segment of this number, which is the first of its pod if
    the segment is marked."""
    place = 0
    for run in runs_of(history):
        if run[-1].segment.number >= number:
            break
        place += len(run_pieces(run, False))
    return place


def start_after(last: Playlist | None, start: int, before: list[Shown], playlist: Playlist, history: list[Shown]) -> int:
    """The place at which the window starts: where the one before did, if the first segment that the origin shows is the same;
    else at the item of that segment, but no later than one past the last item written before."""
    first = playlist.segments[0].number
    if last is None:
        return place_of(first, history)
    if first == last.segments[0].number:
        return start
    return min(place_of(first, history), len(stitched(before, last.ended)))


def breaks_in_use(history: list[Shown], window: list[Item]) -> list[str]:
    """The breaks of which a segment of the pod is written, and the one that was entered last."""
    last = last_entered(history)
    written = [item.piece.mark.id for item in window if item.piece.mark]
    return list(dict.fromkeys(written + ([last] if last is not None else [])))


def grows(before: list[Item], after: list[Item]) -> bool:
    """RFC 8216, 6.2.1: an item that was written before and is written again is the same, with the same numbers, and no item
    between two windows is left out."""
    said = {item.media: (item.piece.segment.uri, item.discontinuity) for item in before}
    return before[0].media <= after[0].media <= before[-1].media + 1 and all(
        said.get(item.media, (item.piece.segment.uri, item.discontinuity)) == (item.piece.segment.uri, item.discontinuity)
        for item in after)
