"""The as-run log: a JSON line for each break that is over, with what viewers were shown in its place. It is over once the last segment of its pod was
listed; without a pod, once it has left the lists."""
import json
import threading
import time
from bisect import bisect_left
from collections import Counter
from dataclasses import dataclass, field
from datetime import datetime, timezone
from pathlib import Path
from typing import Any

from . import playlist, unfinished
from .journal import append, is_torn
from .kept import Kept, Pod, seconds_of
from .playlist import Listed, instant_text
from .records import Record
from .unfinished import Seen
from .words import now_text, time_text

NEAR = 10 * playlist.SECOND  # how far a pod may begin from its break: the greatest tolerance
MOST = 5000  # places at which a pod may begin that are looked at
REMEMBERED_BYTES = 1 << 20  # of a file that were written before: none of these lines is written again
RECENT = 60.0  # seconds before an earlier monitor's last look, of which only the file says which gaps it has told
UNWRITTEN = 1000  # lines that wait until they can be written
BEAT = 5.0  # seconds between two signs that a monitor runs
SETTLED = 2  # target durations after a break's begin, after which it is filled or stays empty
OLD = 120  # seconds after its begin, after which a break isn't news
USUAL = "Usual"  # in place of the word of a fallback where nobody decides
PODS = {"own": ("Filled",), "fallback": ("Filled", USUAL), "none": ("NotDecided", "DoesNotFit", "Waiting", "NotSignalled", "NoStart")}
SECONDS = ("own", "fallback")  # pods of which the seconds that were shown are counted
SOLD = "sold"
KEYS = [(pod, why) for pod, words in PODS.items() for why in words]


def key_of(line: dict[str, Any]) -> tuple[str, str, str] | None:
    """By what the `line` is known that is there once: a break's channel, ID and start, or a gap's channel, begin and end."""
    if "id" in line:
        return str(line.get("channel")), str(line["id"]), str(line.get("start"))
    gap = line.get("gap")
    return (str(line.get("channel")), str(gap.get("from")), str(gap.get("to"))) if isinstance(gap, dict) else None


class Log:
    """The file `path`, to which lines are added; each break and each gap once. A line is whole or not there."""

    def __init__(self, path: Path) -> None:
        """Takes in the newest lines, of which none is written again."""
        self.path, self.lock, self.written = path, threading.Lock(), set[tuple[str, str, str]]()
        self.seen = path.with_name(f"{path.name}.seen")
        self.record, self.state = Record(self.seen), unfinished.read(self.seen)
        self.end = "\n" if is_torn(path) else ""  # of a line that was left unfinished
        self.written |= {key for said in lines_of(path, REMEMBERED_BYTES) if (key := key_of(said)) is not None}

    def add(self, line: dict[str, object]) -> bool:
        """Adds `line`, unless it is there already; whether it was added. Raises OSError if it can't be written."""
        key = key_of(line)
        with self.lock:
            if key in self.written:
                return False
            append(self.path, (self.end + json.dumps(line, ensure_ascii=False) + "\n").encode("utf-8", "replace"), True)
            self.end = ""
            if key is not None:
                self.written.add(key)
        return True

    def begin(self) -> None:
        """A monitor begins: what there was since one ran last isn't recorded, which is a line. Raises OSError."""
        if self.seen.exists() and time.time() - self.seen.stat().st_mtime > 2 * BEAT:
            before = time_text(datetime.fromtimestamp(self.seen.stat().st_mtime, timezone.utc))
            self.add({"at": now_text(), "gap": {"from": before, "to": now_text()}, "why": "no monitor ran"})
        self.beat(self.state)

    def beat(self, state: dict[str, object]) -> None:
        """A monitor runs: keeps when it did, and the `state` of each channel's breaks that aren't over, by which a later one goes on.
        Raises OSError."""
        self.record.write(json.dumps(state), {})


def lines_of(path: Path, most: int) -> list[dict[str, Any]]:
    """The lines of the as-run log `path`, of its last `most` bytes, without those that aren't whole."""
    if not path.exists():
        return []
    with open(path, "rb") as it:
        it.seek(max(0, path.stat().st_size - most))
        data = it.read(most)
    found = []
    for line in data.decode("utf-8", "replace").split("\n"):
        try:
            said = json.loads(line)
        except (ValueError, RecursionError):
            continue
        if isinstance(said, dict):
            found.append(said)
    return found


@dataclass
class AsRun:
    """What is seen of the breaks of `channel`, and written to `log` once they are over. `last` is the newest media
    number that was seen, and `seen_at` when; `waiting` are lines that can't be written yet, of which `lost` ones had no room since
    `lost_since`; `counts` are lines by the pod (own, fallback or none) and the word of why, and `begun` are breaks that have begun, likewise.
    `lengths` are nanoseconds of pods that were shown, and of those that were decided (SOLD).
    `is_decided`: whether somebody decides its breaks; if not, a fallback has the word USUAL there."""

    channel: str
    log: Log
    breaks: dict[str, Seen] = field(default_factory=dict)
    first: int = 0
    last: int | None = None
    seen_at: str = ""
    waiting: list[dict[str, object]] = field(default_factory=list)
    lost: int = 0
    lost_since: str = ""
    known_until: float = 0.0  # gaps that ended before it, in seconds since 1970, an earlier monitor has told
    counts: Counter[tuple[str, str]] = field(default_factory=Counter)
    begun: Counter[tuple[str, str]] = field(default_factory=Counter)
    is_decided: bool = True
    lengths: Counter[str] = field(default_factory=Counter)

    def __post_init__(self) -> None:
        """Goes on from where an earlier monitor ended."""
        self.resume(self.log.state.get(self.channel))

    def resume(self, said: object) -> None:
        """Goes on from what an earlier monitor has `said` of the channel."""
        if (found := unfinished.load(said)) is not None:
            self.breaks, self.first, self.last, self.seen_at, self.waiting = found
            self.known_until = seconds_of(self.seen_at) - RECENT

    def state(self) -> object:
        """What a later monitor has to know of the channel."""
        return unfinished.pack(self.breaks, self.first, self.last, self.seen_at, self.waiting)

    def look(self, listed: Listed, words: dict[str, str], kept: Kept) -> None:
        """Takes in the written list `listed`, the words of `why` and what the feed kept, and writes what is over. Raises OSError if
        the log can't be written: then its lines wait for the next look."""
        if listed.first < self.first:  # (the channel was made anew: its numbers begin again, and what was shown was shown)
            self.last = None
            for it in self.breaks.values():
                it.first, it.counted = None, -1
        now = now_text()
        for since, until in kept.gaps:
            if not 0 < seconds_of(until) < self.known_until:
                self.put({"at": now, "channel": self.channel, "gap": {"from": since, "to": until}, "why": "the feed could keep nothing"})
        kept.gaps = []
        if self.last is not None and listed.first > self.last + 1:
            self.put({"at": now, "channel": self.channel, "gap": {"from": self.seen_at, "to": now}, "why": f"segments {self.last + 1} to {listed.first - 1} weren't seen"})
        self.first, self.last, self.seen_at = listed.first, listed.first + len(listed.segments) - 1, now
        for name, found in kept.ranges.items():
            if name in kept.left and name in self.breaks and self.breaks[name].first is None:
                del self.breaks[name]  # (adsplice keeps what a date range says for as long as it is listed)
            self.breaks.setdefault(name, Seen(found))
        kept.left = set()
        for name, it in self.breaks.items():
            if name in words and (it.word != "Filled" or words[name] == "Filled"):
                it.word = words[name]
            if it.word == "Filled":
                self.place(name, it, listed, kept)
                self.count(it, listed)
            if name in words:  # (else its channel is being made anew, and has no list yet: its word is one from before)
                self.tell_begun(it, listed)
        for name, it in list(self.breaks.items()):
            has_left = self.has_left(name, it, listed, words, kept)
            if not it.is_over and (has_left or self.is_listed_whole(it)):
                self.over(name, it, kept)
            if has_left:
                del self.breaks[name]
        self.write()

    def put(self, line: dict[str, object]) -> None:
        """The `line` is to be written; one that has no room is lost, which will be a line."""
        if len(self.waiting) < UNWRITTEN:
            self.waiting.append(line)
            return
        self.lost_since = self.lost_since or now_text()
        self.lost += 1

    def write(self) -> None:
        """Writes the lines that wait; raises OSError if that can't be."""
        while self.waiting:
            line = self.waiting[0]
            if self.log.add(line) and "id" in line:
                pod = str(line["pod"] or "none")
                self.counts[self.key(pod, str(line["why"]))] += 1
                for key, value in ((pod, line.get("seconds")), (SOLD, line.get("sold"))):
                    self.lengths[key] += nanoseconds(value)
            self.waiting.pop(0)
        if self.lost:
            self.log.add({"at": now_text(), "channel": self.channel, "gap": {"from": self.lost_since, "to": now_text()}, "why": f"{self.lost} lines couldn't be written"})
            self.lost, self.lost_since = 0, ""

    def place(self, name: str, seen: Seen, listed: Listed, kept: Kept) -> None:
        """Finds where in `listed` the pod of the break `name` begins: the pod's URIs, nearest to its START-DATE."""
        if seen.first is not None:
            return
        start = seen.range.start()
        is_own = name in kept.pods if seen.pod is None else seen.is_own
        pod = seen.pod or kept.pods.get(name, kept.fallback)
        if pod is None or start is None:
            return
        taken = self.claims(seen)
        found = [(abs(begins - start), first, begins) for begins, first in starts_of(listed, pod, start) if not any(low <= first < past for low, past in taken)]
        if found:
            _, seen.first, begins = min(found)
            seen.pod, seen.is_own, seen.begins = pod, is_own, begins if seen.begins is None else seen.begins

    def claims(self, seen: Seen) -> list[tuple[int, int]]:
        """The numbers of the segments that other breaks than `seen` have: of each the first, and the one after the last."""
        return [(it.first, it.first + len(it.pod.segments)) for it in self.breaks.values() if it is not seen and it.first is not None and it.pod is not None]

    @staticmethod
    def count(seen: Seen, listed: Listed) -> None:
        """Counts the segments of the pod of `seen` that `listed` has."""
        if seen.first is None or seen.pod is None:
            return
        for it in listed.segments[max(0, max(seen.first, seen.counted + 1) - listed.first):]:
            seen.counted, place = it.number, it.number - seen.first
            if 0 <= place < len(seen.pod.segments) and seen.pod.segments[place][0] == it.uri:
                seen.shown.add(place)

    def key(self, pod: str, why: str) -> tuple[str, str]:
        """The labels of a figure of a break with this `pod`, whose word is `why`."""
        return pod, why if self.is_decided or pod != "fallback" else USUAL

    def tell_begun(self, seen: Seen, listed: Listed) -> None:
        """Counts the break `seen` once it has begun in `listed` for SETTLED target durations: by then it is filled or stays empty. One that
        began long before a monitor saw it isn't counted: an earlier one did that."""
        start, end = seen.range.start(), listed.end()
        if seen.is_told or start is None or end is None or end - start < SETTLED * (listed.target or 1) * playlist.SECOND:
            return
        if seen.word == "Filled" and seen.pod is None:
            return
        seen.is_told = True
        if end - start < OLD * playlist.SECOND:
            pod = "none" if seen.word != "Filled" else "own" if seen.is_own else "fallback"
            self.begun[self.key(pod, seen.word)] += 1

    @staticmethod
    def has_left(name: str, seen: Seen, listed: Listed, words: dict[str, str], kept: Kept) -> bool:
        """Whether the break `name` is in no list any more: neither the origin's nor the written one."""
        if name in kept.ranges:
            return False
        if seen.first is None or seen.pod is None:
            return name not in words or words[name] != "Filled"
        return listed.first >= seen.first + len(seen.pod.segments)

    def is_listed_whole(self, seen: Seen) -> bool:
        """Whether the last segment of the pod of `seen` was listed: no more will be shown of it."""
        return seen.first is not None and seen.pod is not None and self.last is not None and self.last >= seen.first + len(seen.pod.segments) - 1

    def over(self, name: str, seen: Seen, kept: Kept) -> None:
        """The break `name` is over: its line is to be written. A pod that no list had, since the channel was made anew as soon as
        the break began, is the one that `kept` has for it."""
        seen.is_over = True
        if seen.pod is None and seen.word == "Filled":
            seen.pod, seen.is_own = kept.pods.get(name, kept.fallback), name in kept.pods
        start = seen.range.start()
        begins = seen.begins if seen.begins is not None else start
        pod = None if seen.word != "Filled" or seen.pod is None else "own" if seen.is_own else "fallback"
        segments = seen.pod.segments if seen.pod else []
        sold = seen.pod if seen.is_own else kept.pods.get(name)
        line: dict[str, object] = {
            "at": now_text(), "channel": self.channel, "id": name, "start": "" if start is None else instant_text(start),
            "begin": "" if begins is None else instant_text(begins), "pod": pod, "why": seen.word,
            "shown": len(seen.shown), "of": len(segments), "seconds": seconds(sum(segments[place][1] for place in seen.shown)),
            "sold": seconds(sold.length() if sold else 0), "ads": ads_of(seen.pod, seen.shown) if pod and seen.pod else [],
            "segments": [segments[place][0] for place in sorted(seen.shown)]}
        self.put(line | ({"reason": kept.reasons[name]} if pod != "own" and name in kept.reasons else {}))


def ads_of(pod: Pod, shown: set[int]) -> list[dict[str, object]]:
    """What was shown of each ad of the `pod`, of whose segments those at the places `shown` were: its ID (none if it has none), how many segments, how
    many seconds, and whether that is all of it."""
    found: list[dict[str, object]] = []
    first = 0
    for name, count in pod.ads:
        places = [place for place in range(first, first + count) if place in shown]
        length = sum(pod.segments[place][1] for place in places)
        found.append({"id": name or None, "shown": len(places), "of": count, "seconds": seconds(length), "whole": len(places) == count})
        first += count
    return found


def seconds(length: int) -> float:
    """The `length` of nanoseconds in seconds, to milliseconds."""
    return round(length / playlist.SECOND, 3)


def nanoseconds(said: object) -> int:
    """The seconds that a line has `said`, in nanoseconds; 0 if it says none."""
    return round(said * playlist.SECOND) if isinstance(said, (int, float)) and not isinstance(said, bool) else 0


def starts_of(listed: Listed, pod: Pod, start: int) -> list[tuple[int, int]]:
    """Where `pod` would begin near the instant `start`, if a segment of the written list `listed` were one of it: each as the
    instant and the number of its first segment. A pod of which each segment is the same has MOST of them at most."""
    places: dict[str, list[tuple[int, int]]] = {}  # by URI: how long after the pod's begin, and which segment of it
    before = 0
    for place, (uri, duration) in enumerate(pod.segments):
        places.setdefault(uri, []).append((before, place))
        before += duration
    found: list[tuple[int, int]] = []
    for segment in listed.segments:
        if segment.uri in places and not segment.is_stated and segment.begins is not None:
            near = places[segment.uri]
            low, past = (bisect_left(near, (segment.begins - start + by, -1)) for by in (-NEAR, NEAR + 1))
            found += [(segment.begins - after, segment.number - place) for after, place in near[low:past] if segment.number >= place]
        if len(found) > MOST:
            break
    return found
