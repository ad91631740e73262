"""What a player's frames tell, against the plan of a channel's breaks: how long it stood still, what it left out or showed twice."""
from __future__ import annotations

from collections.abc import Sequence
from typing import Protocol

import media

Frame = tuple[str, int, float]  # the kind of picture, the number of its frame, and when it was shown, in seconds


class Owed(Protocol):
    """A plan of breaks."""

    def owed(self, segment: int) -> tuple[str, int]:
        """What a viewer is owed in the place of a `segment`: (kind, its first frame's number)."""


def place_of(frame: Frame, plan: Owed, near: int) -> int:
    """The place of a frame in the programme's time, counted in frames: the one nearest to a place."""
    kind, number = frame[:2]
    if kind == "programme":
        return number
    first, within = number - number % media.FRAMES, number % media.FRAMES
    middle = near // media.FRAMES
    places = [n * media.FRAMES + within for n in range(max(0, middle - 40), middle + 40) if plan.owed(n) == (kind, first)]
    return min(places, key=lambda it: abs(it - near - 1), default=near + 1)


def places_of(frames: Sequence[Frame], plan: Owed) -> list[int]:
    """The place of each frame in the programme's time, counted in frames."""
    place = next((it[1] - before - 1 for before, it in enumerate(frames) if it[0] == "programme"), 0)
    places: list[int] = []
    for frame in frames:
        place = place_of(frame, plan, place)
        places.append(place)
    return places


def between(frames: Sequence[Frame], places: Sequence[int], begin: float, end: float) -> tuple[float, float, float]:
    """What was shown from one moment to another: the longest time that a picture stood still, and the seconds that were shown
    twice and left out. A picture that stands still when the time is over counts, too."""
    late = [n for n in range(1, len(frames)) if begin <= frames[n][2] <= end]
    again = sum(max(0, places[n - 1] + 1 - places[n]) for n in late) / media.RATE
    left = sum(max(0, places[n] - places[n - 1] - 1) for n in late) / media.RATE
    still = max((frames[n][2] - frames[n - 1][2] for n in late), default=0.0)
    last = frames[late[-1]][2] if late else begin
    return max(still, end - last), again, left
