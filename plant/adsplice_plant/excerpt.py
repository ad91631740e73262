"""What of a journal explains a break: the few lists around its begin, out of those of days.

The rules take milliseconds for a list, and a day has 43,200 of them. So a break is explained by the lists from shortly before
its date range came, or before its first segment was listed, to the list that has both. Where these are is found by reckoning:
by the date ranges, times and durations in what is new in each list. What is then said comes from the rules alone. What was
stated before the first of these lists, and never again, they don't know.
"""
from __future__ import annotations

import json
from collections.abc import Iterator
from dataclasses import dataclass, replace
from pathlib import Path
from typing import Any

from adsplice_rules.lines import rest_of
from adsplice_rules.reading import date_range_of
from adsplice_rules.times import duration_of, instant_of
from adsplice_rules.values import DateRange
from adsplice_rules.values import Fault as RulesFault

from . import journal
from .edits import edited, lines_of, places_after
from .history import NOTES, TAKEN, Given, Run, Step
from .words import Fault

LINES = 18_000  # that the rules are given for a break, in all its lists together
LEAST, BEFORE, AFTER = 4, 20, 1  # lists: at least; before what matters, and after it
OVERLAP = 8  # lines of a list, for each of which a list may be left out: what follows still lists what came before
FAR = 2000  # lists before the date range came, in which its first segment is looked for
UNREACHED = (0, 404, 502, 503, 504)  # statuses of what never came to the channel
NAMES = {"origin": "the playlist of", "decisions": "the decision of", "channel": "the channel of", "delete": "its end at", "hole": "the time from", "note": "the note of", "late": "the late decision of"}
RANGE = "#EXT-X-DATERANGE:"


@dataclass
class Kept:
    """An event of a journal as it was kept (`said`), and for a list how many lines it has, and its date ranges."""

    said: dict[str, Any]
    count: int = 0
    ranges: tuple[str, ...] = ()

    def is_list(self) -> bool:
        """Whether it is a list that was taken."""
        return self.said["what"] == "origin" and self.said["status"] in TAKEN

    def pieces(self) -> list[Any]:
        """What makes the list: of the one before it, and new."""
        return list(self.said["edit"] if "edit" in self.said else [self.said.get("body", "")])

    def has(self, name: str) -> bool:
        """Whether the list has the break `name`."""
        return any(f'ID="{name}"' in line for line in self.ranges)


def range_in(line: str) -> DateRange | None:
    """The date range in `line`, if it reads."""
    try:
        return date_range_of(rest_of(line).rstrip("\r\n"))
    except RulesFault:
        return None


def event_in(line: bytes) -> Kept | None:
    """The event in a line of a journal; none if it is none."""
    try:
        said = json.loads(line)
        is_event = isinstance(said, dict) and isinstance(said["status"], int) and all(isinstance(said[it], str) for it in ("at", "what", "fault"))
    except (ValueError, KeyError, RecursionError):
        return None
    return Kept(said) if is_event else None


def lines_of_file(path: Path) -> list[bytes]:
    """The lines of a file of a journal."""
    return path.read_bytes().split(b"\n")


def end_after(end: int | None, pieces: list[Any]) -> int | None:
    """Until when a list lasts which ends with the last of `pieces`, and lasted until `end` without it."""
    text = pieces[-1] if pieces and isinstance(pieces[-1], str) else ""
    last = text.rfind("#EXT-X-PROGRAM-DATE-TIME:")
    for line in lines_of(text[max(0, last):]):
        if line.startswith("#EXT-X-PROGRAM-DATE-TIME:"):
            end = instant_of(rest_of(line).rstrip("\r\n"))
        elif line.startswith("#EXTINF:") and end is not None:
            end += duration_of(rest_of(line).partition(",")[0].rstrip("\r\n")) or 0
    return end


def look(events: list[Kept]) -> None:
    """Finds for each list of `events`, from one whole list on, what Kept says of it."""
    ranges: dict[int, str] = {}  # of the list before: the places of its date ranges, with their lines
    for it in [it for it in events if it.said["what"] == "origin"]:
        ranges, it.count = places_after(it.pieces(), ranges, RANGE)
        it.ranges = tuple(ranges.values())


def put_together(events: list[Kept], first: int, past: int) -> Iterator[tuple[int, list[str]]]:
    """The lines of each list of `events` from the place `first` to before `past`, put together from the last whole one on."""
    whole = next((n for n in range(first, -1, -1) if events[n].said["what"] == "origin" and "edit" not in events[n].said), first)
    lines: list[str] = []
    for place in range(whole, past):
        said = events[place].said
        if said["what"] == "origin":
            try:
                lines = edited(lines, said["edit"]) if "edit" in said else lines_of(said.get("body", ""))
            except (ValueError, TypeError):
                continue
            if place >= first:
                yield place, lines


class Book:
    """The journal `path`: the events of each of its files, which are read once they are asked for."""

    def __init__(self, path: Path) -> None:
        """Nothing was read yet."""
        self.files = journal.files(path)
        self.read: dict[Path, list[Kept]] = {}

    def events(self, file: Path) -> list[Kept]:
        """The events of one of its files."""
        if file not in self.read:
            self.read[file] = [it for line in lines_of_file(file) if (it := event_in(line)) is not None]
            look(self.read[file])
        return self.read[file]

    def newest(self) -> str:
        """When its newest event was; empty if it has none."""
        lines = (line for file in reversed(self.files) for line in reversed(lines_of_file(file)))
        return next((it.said["at"] for line in lines if (it := event_in(line)) is not None), "")

    def between(self, since: str, until: str) -> Iterator[tuple[list[Kept], int]]:
        """Each event from the time `since` to `until`, as its place among the events of its file."""
        for file, after in zip(self.files, [*self.files[1:], None]):
            if after is not None and (found := self.events(after)) and found[0].said["at"] < since:
                continue
            events = self.events(file)
            yield from ((events, n) for n, it in enumerate(events) if since <= it.said["at"] <= until and not it.said.get("again"))

    def breaks(self, since: str, until: str) -> list[str]:
        """The IDs of the breaks that a list had in this time, in the order in which they came."""
        lines = dict.fromkeys(line for events, n in self.between(since, until) for line in events[n].ranges)
        return list(dict.fromkeys(it.id for line in lines if (it := range_in(line)) is not None))

    def refused(self, since: str, until: str) -> list[Step]:
        """The lists and decision files that were refused in this time, without the rules' answers."""
        found = []
        for events, n in self.between(since, until):
            said = events[n].said
            if said["what"] in ("origin", "decisions") and said["status"] not in (*TAKEN, *UNREACHED):
                body = "".join(next((lines for _, lines in put_together(events, n, n + 1)), [])) if said["what"] == "origin" else said.get("body", "")
                found.append(Step(given_of(said, body), said["status"], said["fault"]))
        return found


class Excerpt:
    """The events of `book` that explain the break `name`, as it was listed last at the time `until` (a text in UTC, as events
    have it) or before. Raises Fault if no list has it."""

    def __init__(self, book: Book, name: str, until: str) -> None:
        self.name = name
        self.events: list[Kept] = []
        needle = json.dumps(f'ID="{name}"')[1:-1].encode()
        for file in reversed(book.files):
            if not self.events and needle not in file.read_bytes():
                continue
            found = [it for it in book.events(file) if self.events or it.said["at"] <= until]
            lists = [it for it in found if it.is_list()]
            if not self.events and not any(it.has(name) for it in lists):
                continue
            self.events = found + [it for it in self.events if not it.said.get("again")]
            if lists and not lists[0].has(name):
                break
        if not self.events:
            raise Fault(f"no kept playlist of {until} or before has the break {name}")

    def chosen(self) -> tuple[list[int], int]:
        """The places of the lists that the rules are given, and of the last event that had the break: the lists around the one
        with which it came (`came`), those around the one that first lists a segment at its begin (`begun`), and as many between
        these as the rules take in a second or so. A list of many segments may follow one that is older."""
        lists = [n for n, it in enumerate(self.events) if it.is_list()]
        last = max(n for n, it in enumerate(lists) if self.events[it].has(self.name))
        came = last
        while came > 0 and self.events[lists[came - 1]].has(self.name):
            came -= 1
        begun = self.reaching(lists, max(0, came - FAR), last, self.start(self.events[lists[came]]))
        size = max(1, self.events[lists[begun]].count)
        most, (low, high) = max(LEAST, LINES // size), sorted((came, begun))
        past = min(high + AFTER, last) + 1
        if past - low <= most:
            return lists[max(0, low - BEFORE, past - most):past], lists[last]
        if high - low < size // OVERLAP:
            return [lists[low], *lists[high - 1:past]], lists[last]
        return lists[max(0, (low if low == begun else high) - BEFORE):past], lists[last]

    def reaching(self, lists: list[int], far: int, last: int, start: int | None) -> int:
        """Which one of `lists`, the places of all, from `far` on is the first that lasts beyond the instant `start`; `last` if none is."""
        end = end_after(None, ["".join(next((lines for _, lines in put_together(self.events, lists[far], lists[far] + 1)), []))])
        for n in range(far, len(lists) if start is not None else far):
            end = end_after(end, self.events[lists[n]].pieces()) if n > far else end
            if end is not None and start is not None and end > start:
                return n
        return last

    def start(self, kept: Kept) -> int | None:
        """The START-DATE of the break by the list `kept`, if that states one."""
        found = [it for line in kept.ranges if (it := range_in(line)) is not None and it.id == self.name]
        return next((it.start for it in found if it.start is not None), None)

    def given(self) -> Iterator[tuple[Given, bool]]:
        """What the rules are given in order, each with whether it only says what came before: how the channel was made, and the
        decisions that it holds."""
        chosen, last = self.chosen()
        first = chosen[0]
        held = [it.said for it in self.events[:first] if it.said["status"] in TAKEN and it.said["what"] in ("channel", "decisions")]
        made = max((n for n, said in enumerate(held) if said["what"] == "channel"), default=len(held))
        for said in held[made:]:
            yield given_of(said, said.get("body", "")), True
        for said in self.told_before(first):
            yield replace(given_of(said, said.get("body", "")), is_past=True), True
        past, is_at = max(chosen[-1], last) + 1, False  # whether the rules have the list that the channel has
        lists = dict(put_together(self.events, first, min(len(self.events), past + AFTER)))
        for place in range(first, min(len(self.events), past + AFTER)):
            said = self.events[place].said
            is_reached = said["status"] not in UNREACHED or said["what"] in ("hole", *NOTES)
            is_at = place in chosen if self.events[place].is_list() else is_at
            if said["what"] == "origin" and place in lists and is_at and is_reached:
                yield given_of(said, "".join(lists[place])), False
            elif said["what"] in NAMES and said["what"] != "origin" and is_reached and (place <= chosen[-1] or said["what"] in ("decisions", *NOTES)) and place < past:
                yield given_of(said, said.get("body", "")), bool(said.get("again"))

    def told_before(self, first: int) -> Iterator[dict[str, Any]]:
        """The events before the place `first` that say why the break has no pod: refused decisions, withdrawals, and notes of the feed."""
        needle = json.dumps(self.name)
        for it in self.events[:first]:
            said, body = it.said, it.said.get("body", "")
            is_refused = said["what"] == "decisions" and said["status"] not in (*TAKEN, *UNREACHED)
            if needle in body and (said["what"] in NOTES or is_refused or (said["what"] == "decisions" and '"withdraw"' in body)):
                yield said

    def run(self) -> Run:
        """The run of the rules over these events."""
        run = Run()
        for given, is_before in self.given():
            if is_before:
                run.hold(given)
            else:
                run.take(given)
        if not run.edge.channels:
            raise Fault(f"what is kept of the break {self.name} doesn't say how its channel was made")
        return run


def given_of(said: dict[str, Any], body: str) -> Given:
    """What the event `said` with the `body` gave to the channel."""
    fault = "" if said["status"] in TAKEN else said["fault"]
    return Given(said["what"], f"{NAMES[said['what']]} {said['at']}", body.encode("utf-8", "surrogateescape"), said["status"], fault, said["at"])
