"""Finds the numbers that adsplice holds of a channel, if the feed doesn't know them: it was started anew without what it kept, or
somebody else has pushed lists. The channel isn't deleted for that.

adsplice takes a list of other segments only if it begins right after the last one (RFC 8216, 6.2.1). By its refusals it says on
which side of that a list is: N6 if it begins later, N5, N7 or N8 if it begins earlier.
"""
from __future__ import annotations

from collections.abc import Callable

from . import faults, numbers, packaged, spelling
from .packaged import MOST_NUMBER, PackagedList
from .web import Answer

MOST_TRIALS = 160  # of numbers: twice 64 for a number of 64 bits, and some for the discontinuity number
MOST_STEP = 900  # between two discontinuity numbers that are tried: adsplice takes one of up to 1,000 above its last one
TOO_LATE, TOO_EARLY = {"N6"}, {"N5", "N7", "N8"}


def renumbered(found: PackagedList, number: int, discontinuity: int) -> bytes:
    """The list `found` as text, with numbers from `number` on and after the discontinuity number `discontinuity`."""
    for place, it in enumerate(found.segments):
        discontinuity += it.discontinuities
        it.number, it.discontinuity = number + place, discontinuity
    return packaged.write(found)


def find(found: PackagedList, written: bytes, push: Callable[[bytes], Answer]) -> Answer | None:
    """Pushes the list `found` with the numbers by which it goes on after what adsplice holds, whose written playlist is `written`;
    `push` pushes a text. Answers what the last trial was answered: 204 if the numbers of `found` are those. None if the written
    playlist doesn't read, so that nothing was tried."""
    items = numbers.items_of(written)
    try:
        said = packaged.read(spelling.lines_of(written, set()))
    except spelling.Unread:
        return None
    if not items or said.target is None:
        return None
    found.target, found.kind, found.is_ended = said.target, said.kind, False
    found.segments[0].discontinuities = max(1, found.segments[0].discontinuities)
    return search(found, items[-1].number + 1, items[-1].discontinuity, [said.version, found.version, 6, 5, 4, 3, 2, None], push)


def search(found: PackagedList, number: int, discontinuity: int, versions: list[int | None], push: Callable[[bytes], Answer]) -> Answer | None:
    """Tries numbers from `number` on, with `discontinuity`, and the `versions` in turn; the rest as in `find`."""
    low, high, step, answer = 0, MOST_NUMBER, 1, None
    found.version = versions.pop(0)
    for _ in range(MOST_TRIALS):
        answer = push(renumbered(found, number, discontinuity))
        code = faults.code_of(answer.line())
        if code == "N1" and versions:
            found.version = versions.pop(0)
            continue
        if code not in TOO_LATE | TOO_EARLY:
            break
        low, high = (low, number - 1) if code in TOO_LATE else (number if code == "N8" else number + 1, high)
        if low >= high and code == "N8":
            discontinuity -= MOST_STEP  # (the number is right)
        elif low > high or discontinuity < 0:
            break
        else:
            number = next_number(number, low, high, step)
            step *= 2
    return answer


def next_number(number: int, low: int, high: int, step: int) -> int:
    """The number to try after `number`, of those from `low` to `high`: `step` away while one side isn't known, then the middle."""
    if high == MOST_NUMBER:
        return min(number + step, high)
    if low == 0 and number - step > 0 and number > high:
        return max(high - step + 1, 0)
    return (low + high + 1) // 2

