"""The numbers of the stitched list (RFC 8216, 4.3.2.3, 4.3.3.2 and 4.3.3.3)."""
from __future__ import annotations

from dataclasses import dataclass

from .breaks import Shown
from .stitched import Piece
from .values import PAST


@dataclass(frozen=True)
class Item:
    """A segment of the stitched list with its Media Sequence Number, its Discontinuity Sequence Number, and how many
    EXT-X-DISCONTINUITY stand before it."""

    piece: Piece
    media: int
    discontinuity: int
    steps: int


def steps_between(before: Piece, piece: Piece) -> int:
    """4.3.2.3: one before each ad, one where the programme comes back after a pod, and between two of the programme's segments
    as many as the origin has."""
    if piece.mark is not None:
        return 1 if piece.first_of_ad else 0
    return 1 if before.mark else piece.segment.discontinuity - before.segment.discontinuity


def first_item(first: Shown, piece: Piece) -> Item:
    """The very first item has the numbers of the origin's first segment, with one discontinuity more if a pod stands first."""
    one = first.segment
    if first.mark is None:
        return Item(piece, one.number, one.discontinuity, one.steps)
    return Item(piece, one.number, one.discontinuity + 1, 1)


def numbered(history: list[Shown], pieces: list[Piece]) -> list[Item]:
    """4.3.3.2, 4.3.3.3: media numbers count on from the first, and discontinuity numbers add their steps."""
    items = [first_item(history[0], pieces[0])]
    for piece in pieces[1:]:
        steps = steps_between(items[-1].piece, piece)
        items.append(Item(piece, items[-1].media + 1, items[-1].discontinuity + steps, steps))
    return items


def fits(item: Item) -> bool:
    """4.2: a playlist can state the numbers."""
    return item.media < PAST and item.discontinuity < PAST
