"""What was sold and what was shown: the decision files of a channel beside its as-run log."""
from __future__ import annotations

import glob
import json
import re
from collections import Counter
from collections.abc import Iterator, Sequence
from dataclasses import dataclass, field
from pathlib import Path
from typing import Any, NamedTuple

from . import judge
from .as_run import lines_of
from .decisions import DONE, said_by
from .journal import events
from .kept import Pod, pod_of
from .playlist import seconds_text
from .words import Fault, plain

MOST = 64 << 20  # bytes of a log, from its end, that are read
HOWS = ("whole", "part", "not")
ROTATED = re.compile(r"[.-][0-9]{1,14}")  # the end of the name of a log that was rotated
REFUSED = (409, 422)  # statuses of adsplice's refusals


class Gap(NamedTuple):
    """A time `since` an instant `until` another one, both as texts that sort as they come, of which a log has nothing, and `why`."""

    since: str
    until: str
    why: str


@dataclass
class Sold:
    """A break of which a decision file has a pod: the `file`'s name, the pod, and why the file is refused (empty if it isn't)."""

    file: str
    pod: Pod
    refused: str = ""

    def uris(self) -> list[str]:
        """The URIs of the pod's segments."""
        return [uri for uri, _ in self.pod.segments]


@dataclass
class Shown:
    """What was shown of a break that was sold: `whole`, in `part` or `not` (`how`), the sentence for it, and the places of the pod's segments that
    were shown."""

    how: str
    text: str
    sold: Sold
    places: frozenset[int] = frozenset()

    def length(self) -> int:
        """How long what was shown of it lasts, in nanoseconds."""
        return sum(self.sold.pod.segments[place][1] for place in self.places)


@dataclass
class Ad:
    """What was sold and shown of an ad: how often, in nanoseconds, and how often it was shown whole and in part."""

    count: int = 0
    sold: int = 0
    shown: int = 0
    whole: int = 0
    part: int = 0


@dataclass
class Tally:
    """Of all breaks: how often each was shown how, nanoseconds that were sold and shown, and each ad by its ID."""

    hows: Counter[str] = field(default_factory=Counter)
    sold: int = 0
    shown: int = 0
    ads: dict[str, Ad] = field(default_factory=dict)

    def add(self, it: Shown) -> None:
        """Counts the break of which `it` was shown."""
        self.hows[it.how] += 1
        self.sold += it.sold.pod.length()
        self.shown += it.length()
        first = 0
        for name, count in it.sold.pod.ads:
            its = range(first, first + count)
            first += count
            if not name:
                continue
            ad, seen = self.ads.setdefault(name, Ad()), [place for place in its if place in it.places]
            ad.count += 1
            ad.sold += sum(it.sold.pod.segments[place][1] for place in its)
            ad.shown += sum(it.sold.pod.segments[place][1] for place in seen)
            ad.whole += len(seen) == count
            ad.part += 0 < len(seen) < count

    def lines(self) -> list[str]:
        """A line for each ad by its ID."""
        return [f"ad {name}: sold {it.count} times, {seconds_text(it.sold)} s; shown whole {it.whole} times, in part {it.part} times, {seconds_text(it.shown)} s"
                for name, it in sorted(self.ads.items())]


def sold_in(folder: Path, refusals: dict[bytes, str]) -> dict[str, list[Sold]]:
    """The breaks of the decision files in `folder`, and of those that a feed has moved to its folder `done`: of an ID each file that has it, the newest
    one last. `refusals`: why adsplice refused a file, by its bytes. Raises Fault."""
    if not folder.is_dir():
        raise Fault(f"{folder}: there is no such folder of decision files")
    found: dict[str, list[Sold]] = {}
    files = [it for it in (*folder.glob("*.json"), *(folder / DONE).glob("*.json")) if it.is_file()]
    for file in sorted(files, key=lambda it: it.stat().st_mtime_ns):
        try:
            body = file.read_bytes()
        except OSError as fault:
            raise Fault(f"{file}: {fault.strerror}") from None
        kind, ids = said_by(body)
        if kind == "withdraw":
            found.pop(ids[0], None)
        elif kind == "breaks":
            refused = refusal_of(body, refusals)
            for id_, it in zip(ids, json.loads(body)["breaks"]):
                found.setdefault(id_, []).append(Sold(file.name, pod_in(it), refused))
    return found


def refusal_of(body: bytes, refusals: dict[bytes, str]) -> str:
    """Why the decision file `body` is refused: by the rules, or as adsplice did by the `refusals`; empty if it isn't."""
    wrong = judge.judge(body)
    return f"{wrong.line()} ({wrong.fault})" if wrong is not None else refusals.get(body, "")


def refusals_in(kept: Path | None, channels: list[str]) -> dict[bytes, str]:
    """Why adsplice refused each decision of the `channels` that the feed kept in the folder `kept`, by its bytes; none if there is no such folder."""
    found: dict[bytes, str] = {}
    for name in channels if kept is not None else ():
        assert kept is not None
        for event in events(kept / f"{name}.events"):
            if event.what == "decisions" and event.status in REFUSED:
                found[event.sent()] = event.fault
            elif event.what == "decisions":
                found.pop(event.sent(), None)
    return found


def pod_in(said: Any) -> Pod:
    """The pod of `said`, a break of a decision file; one without segments if it doesn't read."""
    try:
        return pod_of(said["ads"])
    except (KeyError, TypeError, AttributeError):
        return Pod([])


def places_shown(sold: Sold, line: dict[str, Any]) -> frozenset[int]:
    """The places of the segments of what was `sold` that a `line` of the log has. A URI that the pod has twice counts as often as it was shown."""
    there = Counter(it for it in line.get("segments", []) if isinstance(it, str))
    found = set()
    for place, uri in enumerate(sold.uris()):
        if there[uri]:
            there[uri] -= 1
            found.add(place)
    return frozenset(found)


def verdict(sold: Sold, line: dict[str, Any] | None) -> Shown:
    """What was shown of a break that was `sold` by a `line` of the log; there may be none."""
    if line is None:
        return Shown("not", "not shown, or not over yet: the log has no line of it", sold)
    places, count = places_shown(sold, line), len(sold.pod.segments)
    when = f"at {line.get('begin') or line.get('start')}"
    if line.get("pod") == "own" and count and len(places) == count:
        return Shown("whole", f"shown whole {when} ({count} of {count} segments)", sold, places)
    if line.get("pod") == "own" and places:
        return Shown("part", f"shown in part {when} ({len(places)} of {count} segments)", sold, places)
    instead = "the fallback was in its place" if line.get("pod") == "fallback" else "another pod was in its place" if line.get("pod") == "own" else "nothing was in its place"
    return Shown("not", f"not shown {when}: {instead} ({line.get('reason') or line.get('why') or 'why is unknown'})", sold)


def best_of(files: list[Sold], lines: list[dict[str, Any]]) -> Shown:
    """What was shown of a break by that of its `files` of which most was, and by that of its `lines`; of several such ones by the newest
    one that isn't refused."""
    found = [verdict(sold, line) for sold in reversed(files) for line in lines[::-1]] or [verdict(files[-1], None)]
    return min(found, key=lambda it: (HOWS.index(it.how), bool(it.sold.refused)))


def files_of(log: Path) -> list[Path]:
    """The as-run log `log` behind those that were rotated beside it (`.1`, `-20261201`), the oldest first."""
    rotated = [it for it in log.parent.glob(f"{glob.escape(log.name)}[.-]*") if ROTATED.fullmatch(it.name[len(log.name):]) and it.is_file()]
    return [*sorted(rotated, key=lambda it: it.stat().st_mtime_ns), log]


def refused_lines(name: str, files: list[Sold]) -> Iterator[str]:
    """A line for each of the `files` of the break `name` that is refused."""
    for it in files:
        if it.refused:
            yield f"{name} ({it.file}): refused: {it.refused}"


def in_all(gaps: list[list[Gap]]) -> list[Gap]:
    """The times that are among the `gaps` of each log: what another machine recorded isn't missing."""
    found = gaps[0] if gaps else []
    for others in gaps[1:]:
        found = [Gap(max(one.since, it.since), min(one.until, it.until), one.why) for one in found for it in others
                 if max(one.since, it.since) < min(one.until, it.until)]
    return found


def gaps_of(lines: list[dict[str, Any]]) -> list[Gap]:
    """The times that a log says aren't recorded, by its `lines`."""
    return [Gap(str(it["gap"].get("from")), str(it["gap"].get("to")), str(it.get("why"))) for it in lines if isinstance(it.get("gap"), dict)]


def report(folder: Path, logs: Sequence[Path], channels: list[str], kept: Path | None = None) -> tuple[list[str], bool]:
    """A line for each break of the decision files in `folder`, by the as-run `logs`, one of each machine, of the `channels` alone if some are named; one for
    each file that is refused, by the rules or by what the feed `kept`; one for each ad with an ID, and for each time that no log has recorded. And whether all
    was shown whole. A break that several logs have counts once. Raises Fault."""
    for it in logs:
        if not it.exists():
            raise Fault(f"{it}: there is no such as-run log")
    all_lines = [[it for file in files_of(log) for it in lines_of(file, MOST) if not channels or it.get("channel", channels[0]) in channels] for log in logs]
    by_name: dict[str, list[dict[str, Any]]] = {}
    for line in (line for lines in all_lines for line in lines):
        if isinstance(line.get("id"), str):
            by_name.setdefault(line["id"], []).append(line)
    found, tally = [], Tally()
    for name, files in sold_in(folder, refusals_in(kept, channels)).items():
        shown = best_of(files, by_name.get(name, []))
        tally.add(shown)
        found.append(f"{name} ({shown.sold.file}): {shown.text}")
        found += refused_lines(name, files)
    found += tally.lines()
    found += [f"from {it.since} to {it.until} not recorded: {it.why}" for it in in_all([gaps_of(it) for it in all_lines])]
    counts = tally.hows
    found.append(f"{counts.total()} sold: {counts['whole']} shown whole, {counts['part']} in part, {counts['not']} not; {seconds_text(tally.sold)} s sold, "
                 f"{seconds_text(tally.shown)} s shown")
    return [plain(it) for it in found], counts["part"] + counts["not"] == 0
