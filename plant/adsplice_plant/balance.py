"""By how much a channel's sound has become longer than its pictures at all its breaks: players that join each stream end to end are off by so much.

Where a break begins, sound may be cut up to a frame beside the pictures, which the question says. Where it ends, too, which is known afterwards. The makings
of a pod's ads bring what is off by then within three quarters of a frame, in the ads and at their end. So after the break it is off by at most a frame and
three quarters. In its ads it is off by a frame at most, and by as much as after it if the question doesn't say where sound is cut.
"""
from __future__ import annotations

import json
from dataclasses import asdict, dataclass
from pathlib import Path
from typing import NamedTuple

from .filling import Pod, balanced
from .playlist import SECOND
from .whole_files import write_aside

LONG = 60 * SECOND  # after its end a break's run is over in all playlists, also if the next break is asked for before it begins


class Last(NamedTuple):
    """The pod that was given last: by how many nanoseconds its sound was longer (`over`), the instant at which its break ends, in nanoseconds from 1970,
    and how many pods were shown before of those that were decided (`number`)."""

    over: int
    end: int
    number: int


@dataclass
class Balance:
    """By how many nanoseconds a channel's sound has become longer than its pictures at all breaks together (`over`). `cut_before`: by how many pods had
    taken more of the sound, and shown less, as the last question said that counts; `cut_last`: the same of the last question. `last`: the pod that was
    given last."""

    over: int = 0
    cut_before: int | None = None
    cut_last: int | None = None
    last: Last | None = None

    def cut(self, now: int | None, most: int) -> None:
        """Pods have taken more of the sound than of the pictures by `now`, and shown less by their files; none if that isn't known. A step of over `most`
        counts for nothing: a rendition lags behind within a break. If the next question is near it, it begins to count from there: the feed has begun anew."""
        if now is None:
            return
        if self.cut_before is not None and abs(now - self.cut_before) <= most:
            self.over -= now - self.cut_before
            self.cut_before = now
        elif self.cut_before is None or self.cut_last is not None and abs(now - self.cut_last) <= most:
            self.cut_before = now
        self.cut_last = now

    def give(self, pod: Pod, start: int, count: int | None, cut: int | None, frame: int) -> Pod:
        """The `pod` for a break that begins at `start` with those makings by which sound stays nearest to pictures. A `count` of pods that were decided were
        shown before it, and sound is `cut` so much later than pictures, if that is known. Where the break ends, half as much is expected: it may be a frame
        more or less. If it is over 5/4 of a `frame` of the sound (a list's instants are rounded), it is cut so where the break ends, too. If no more were
        shown than when the last pod was given, whose break is long over, nobody has seen that one: it doesn't count."""
        if self.last is not None and self.last.number == count and start - self.last.end >= LONG:
            self.over -= self.last.over
        begin = cut if cut is not None and 4 * abs(cut) <= 5 * frame else 0
        by = self.over + begin
        found, over = balanced(pod, by, begin // 2)
        self.last = Last(over - by, start + pod.length(), count) if count is not None else None
        self.over += over - by
        return found


def read(path: Path) -> Balance:
    """The balance that was kept in the file `path`; an even one if there is none that reads."""
    try:
        said = json.loads(path.read_bytes())
        before, newest = (None if said[name] is None else int(said[name]) for name in ("cut_before", "cut_last"))
        over, end, number = said["last"] or (0, 0, 0)
        return Balance(int(said["over"]), before, newest, Last(int(over), int(end), int(number)) if said["last"] else None)
    except (OSError, ValueError, TypeError, KeyError, RecursionError):
        return Balance()


def keep(path: Path, it: Balance) -> None:
    """Keeps the balance `it` in the file `path`. Raises OSError."""
    path.parent.mkdir(parents=True, exist_ok=True)
    write_aside(path, json.dumps(asdict(it)).encode() + b"\n")
