"""Follows what a feed keeps of a channel: refused requests by status and fault, pods that were taken, breaks that were listed."""
import json
from collections import Counter
from dataclasses import dataclass, field
from datetime import datetime
from pathlib import Path
from typing import Any

from . import faults, playlist
from .decisions import OVER, said_by
from .edits import Piece, places_after
from .journal import Event, Reader
from .playlist import DateRange

EVENTS = ".events"
REQUESTS = ("channel", "origin", "decisions")
RANGE = "#EXT-X-DATERANGE:"
MOST_PODS = 1024
LONGEST_ID = 200  # characters of an ad's ID
LATE = ("decisions", "-", "Late")  # the key of a decision that came late, beside those that were refused


@dataclass(frozen=True)
class Pod:
    """The segments of a pod that was taken, each as its URI and its duration in nanoseconds; and its ads, each as its ID (empty if it has none) and
    how many of the segments are its own."""

    segments: list[tuple[str, int]]
    ads: tuple[tuple[str, int], ...] = ()

    def length(self) -> int:
        """How long it lasts, in nanoseconds."""
        return sum(duration for _, duration in self.segments)


def pod_of(ads: list[Any]) -> Pod:
    """The pod of the member `ads` of a decision file that was taken."""
    return Pod([(str(it["uri"]), playlist.read_duration(str(it["duration"])) or 0) for ad in ads for it in ad["segments"]],
               tuple((id_of(ad), len(ad["segments"])) for ad in ads))


def id_of(ad: dict[str, Any]) -> str:
    """The ID of the `ad` of a decision file, which adsplice passes over; empty if it has none that is a text."""
    found = ad.get("id")
    return found[:LONGEST_ID] if isinstance(found, str) else ""


def seconds_of(at: str) -> float:
    """The time `at` of an event in seconds from 1970; 0 if it doesn't read."""
    try:
        return datetime.fromisoformat(at).timestamp()
    except ValueError:
        return 0.0


def ids_in(body: str) -> list[str]:
    """The IDs in the `body` of a note; none if it doesn't read."""
    try:
        found = json.loads(body)
    except (ValueError, RecursionError):
        return []
    return [it for it in found if isinstance(it, str)] if isinstance(found, list) else []


class RangeReader(Reader):
    """Reads the lines of a file in their order, and of each list the lines of its date ranges alone."""

    def __init__(self) -> None:
        """No list was read yet."""
        super().__init__()
        self.places: dict[int, str] = {}

    def list_of(self, event: Event, edit: list[Piece] | None) -> list[str]:
        """The lines of the date ranges of the list of `event`, by its `edit` if it isn't kept as a whole."""
        self.places, _ = places_after([event.body] if edit is None else edit, self.places, RANGE)
        return list(self.places.values())


@dataclass
class Kept:
    """What the events of the file `path` say so far."""

    path: Path
    answers: Counter[tuple[str, str, str]] = field(default_factory=Counter)  # by request, status and fault's name
    refused: dict[tuple[str, str, str], float] = field(default_factory=dict)  # when a decision was refused last, or came late
    origin: int = 0  # which of two is read, 1 or 2; 0 if there is one alone
    unread: int = 0  # times that the origin couldn't be read
    holes: int = 0  # times that events couldn't be kept
    hole: str = ""  # since when events can't be kept; empty if they can
    gaps: list[tuple[str, str]] = field(default_factory=list)  # the times of which nothing was kept, until somebody takes them
    late: int = 0  # decisions that came after their break had begun
    absent: int = 0  # decisions that weren't given, since an ad of theirs wasn't there
    asked: Counter[str] = field(default_factory=Counter)  # questions by what became of them
    is_apart: bool = False  # whether the rendition's numbers aren't those of the programme's others
    restarts: int = 0  # times that the channel's feed began anew after a fault that nobody foresaw
    pods: dict[str, Pod] = field(default_factory=dict)
    fallback: Pod | None = None
    reasons: dict[str, str] = field(default_factory=dict)  # why a break has no pod of its own, by its ID, if the feed knows
    ranges: dict[str, DateRange] = field(default_factory=dict)  # those of the newest list that was taken
    left: set[str] = field(default_factory=set)  # that were listed no more, perhaps for one list alone, until somebody takes them
    lines: list[str] = field(default_factory=list)  # of that list's date ranges
    known: dict[str, DateRange] = field(default_factory=dict)  # by their lines
    reader: RangeReader = field(default_factory=RangeReader)
    newest: list[str] | None = None  # the same, until they are looked at
    place: int = 0
    file: int = 0  # the inode of what was read

    def follow(self) -> None:
        """Reads what came since the last time; if the feed began a new file, the rest of the one before it first."""
        try:
            found = self.path.stat()
        except OSError:
            return
        if self.file and found.st_ino != self.file:
            self.read(Path(f"{self.path}.1"))
            self.place = 0
        self.file = found.st_ino
        if found.st_size != self.place:
            self.read(self.path)
        if self.newest is not None:
            lines, self.newest = self.newest, None
            self.known = {line: it for line in lines for it in ([self.known[line]] if line in self.known else playlist.ranges_of([line]))}
            self.ranges = {it.id: it for it in self.known.values()}

    def written_at(self, end: str) -> float | None:
        """When the feed kept its last event (`end`, of the file's name, is EVENTS), or made its last step (BEAT), in seconds since 1970; none if
        there is no such file."""
        try:
            return self.path.with_suffix(end).stat().st_mtime
        except OSError:
            return None

    def read(self, path: Path) -> None:
        """Reads the whole lines of `path` from the place on where it was left."""
        try:
            with open(path, "rb") as it:
                it.seek(self.place)
                data = it.read()
        except OSError:
            return
        whole = data[: data.rfind(b"\n") + 1]
        self.place += len(whole)
        for line in whole.decode("utf-8", "replace").split("\n"):
            if (event := self.reader.event(line)) is not None:
                self.take(event)

    def take(self, event: Event) -> None:
        """Takes in one event."""
        if self.hole and event.what != "hole" and not event.again:
            self.gaps, self.hole = [*self.gaps, (self.hole, event.at)], ""
        if event.what in REQUESTS:
            self.take_answer(event)
        elif event.what == "hole":
            self.holes, self.hole = self.holes + 1, event.at
        elif event.what == "late":
            self.late, self.refused[LATE] = self.late + 1, seconds_of(event.at)
            self.give_reason(ids_in(event.body), "its decision came too late")
        elif event.what == "ask":
            self.asked[event.fault] += not event.again
        elif event.what == "note":
            self.give_reason(ids_in(event.body), event.fault)
        elif event.what == "apart":
            self.is_apart = event.status == 1
        elif event.what == "place":
            self.origin = event.status
        self.absent += event.what == "absent" and not event.again
        self.unread += event.what == "read"
        self.restarts += event.what == "restart"

    def take_answer(self, event: Event) -> None:
        """Takes in a request and its answer."""
        key = event.what, str(event.status), faults.name_of(event.fault)
        if not event.again:
            self.answers[key] += 1
        if event.what == "decisions" and event.status in (409, 422) and faults.code_of(event.fault) != "J9":
            self.give_reason(said_by(event.body.encode("utf-8", "replace"))[1], f"its decision was refused: {key[2]}")
            self.refused[key] = seconds_of(event.at)  # (J9 alone may be of a pod that an earlier feed gave: `late` tells of the others)
        if event.status not in (201, 204):
            return
        if event.what == "origin":
            self.take_list(event.lines or [])
        elif event.what == "decisions":
            self.decide(json.loads(event.body), event.fault)

    def take_list(self, lines: list[str]) -> None:
        """Takes in the `lines` of the date ranges of a list that was taken: those that are listed no more have left."""
        if gone := [line for line in self.lines if line not in lines]:
            listed = {it.id for it in playlist.ranges_of(lines)}
            self.left = self.left if len(self.left) < MOST_PODS else self.left & listed
            self.left |= {it.id for it in playlist.ranges_of(gone)} - listed
        self.newest = self.lines = lines

    def decide(self, said: dict[str, Any], why: str = "") -> None:
        """Takes in the decision file `said`, which adsplice took; `why` the feed gave it, if it was of its own accord."""
        for it in said.get("breaks", []):
            self.pods.pop(it["id"], None)
            self.reasons.pop(it["id"], None)
            self.pods[it["id"]] = pod_of(it["ads"])
        while len(self.pods) > MOST_PODS:
            self.pods.pop(next(iter(self.pods)))
        if "withdraw" in said:
            self.pods.pop(said["withdraw"], None)
            self.give_reason([said["withdraw"]] if why != OVER else [], "its pod was withdrawn")
        if "fallback" in said:
            self.fallback = pod_of(said["fallback"]["ads"]) if said["fallback"] else None

    def give_reason(self, ids: list[str], why: str) -> None:
        """The breaks `ids` have no pod of their own; `why` says why."""
        for it in ids:
            self.reasons.pop(it, None)
            self.reasons[it] = why
        while len(self.reasons) > MOST_PODS:
            self.reasons.pop(next(iter(self.reasons)))
