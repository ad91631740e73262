"""What a monitor has to know of breaks that aren't over, on disk: so that one that is started anew goes on with them."""
from __future__ import annotations

import json
from dataclasses import dataclass, field
from pathlib import Path
from typing import Any

from . import records
from .kept import Pod
from .playlist import DateRange

Channel = tuple[dict[str, "Seen"], int, int | None, str, list[dict[str, object]]]  # breaks, first and last media number, when, lines


@dataclass
class Seen:
    """What was seen of a break: its date range, the last word of `why`, and the pod in its place: `own` or not, the number of
    its first segment in the written list, when it began there, and the numbers of its segments that were shown."""

    range: DateRange
    word: str = ""
    pod: Pod | None = None
    is_own: bool = False
    first: int | None = None
    begins: int | None = None
    shown: set[int] = field(default_factory=set)
    counted: int = -1  # the media number up to which the list was looked through for them
    is_told: bool = False  # whether it was counted among those that have begun
    is_over: bool = False  # whether its line was written, since the last segment of its pod was listed

    def packed(self) -> list[Any]:
        """It as JSON takes it."""
        pod = None if self.pod is None else self.pod.segments
        ads = None if self.pod is None else self.pod.ads
        return [self.range.attributes, self.word, pod, self.is_own, self.first, self.begins, sorted(self.shown), self.counted, self.is_told, self.is_over, ads]


def seen_of(name: str, said: list[Any]) -> Seen:
    """What was seen of the break `name`, as packed() has `said` it."""
    attributes, word, pod, is_own, first, begins, shown, counted, is_told, *more = said
    is_over, ads = more if more else (False, ())  # (a monitor before this one knew neither)
    segments = None if pod is None else Pod([(str(uri), int(duration)) for uri, duration in pod], tuple((str(id_), int(count)) for id_, count in ads or ()))
    range_ = DateRange(name, {str(one): str(value) for one, value in attributes.items()})
    return Seen(range_, str(word), segments, bool(is_own), None if first is None else int(first), None if begins is None else int(begins),
                {int(it) for it in shown}, int(counted), bool(is_told), bool(is_over))


def pack(breaks: dict[str, Seen], first: int, last: int | None, seen_at: str, waiting: list[dict[str, object]]) -> dict[str, Any]:
    """What is kept of a channel: its `breaks`, the `first` and the `last` media number that were seen, when (`seen_at`), and the lines
    that are `waiting`."""
    return {"breaks": {name: it.packed() for name, it in breaks.items()}, "first": first, "last": last, "at": seen_at, "waiting": waiting}


def load(said: object) -> Channel | None:
    """What an earlier monitor has `said` of a channel by pack(); none if it doesn't read."""
    if not isinstance(said, dict):
        return None
    try:
        breaks = {str(name): seen_of(str(name), it) for name, it in said["breaks"].items()}
        last, waiting = said["last"], [dict(it) for it in said["waiting"]]
        return breaks, int(said["first"]), None if last is None else int(last), str(said["at"]), waiting
    except (ValueError, KeyError, TypeError, AttributeError):
        return None


def read(path: Path) -> dict[str, Any]:
    """What an earlier monitor has said in the file `path`, by the names of channels; nothing if that doesn't read."""
    try:
        found = json.loads(records.read(path))
    except (OSError, ValueError, RecursionError):
        return {}
    return found if isinstance(found, dict) else {}
