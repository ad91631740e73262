"""What check_day measures: the lists that viewers read, the alarms of Prometheus, the players, and the as-run log."""
from __future__ import annotations

import difflib
import json
import re
import threading
import time
import urllib.parse
from collections import defaultdict
from collections.abc import Iterable
from dataclasses import dataclass, field
from typing import Any

import configured_lists
import viewers
from day_plant import CHANNELS, PROGRAMMES, Day, channels_of
from stories import Frame, between, places_of
from tools import request

LATE = 8.0  # seconds that a list's end may be behind real time: four target durations
LOOK = 0.4  # seconds between two looks
WRITES = 5.0  # seconds in which the monitor writes a line once a pod has left the list
NAMES = {"chromium": "Chromium", "gst-launch-1.0": "GStreamer"}  # of players
Segment = tuple[str, int]  # a segment's file, and its discontinuity number


def segments_of(text: str) -> dict[int, Segment]:
    """A written list's segments by media number; of its URIs what comes after the rendition's folder."""
    said = {name: int(value) for name, value in re.findall(r"^#EXT-X-(MEDIA|DISCONTINUITY)-SEQUENCE:(\d+)$", text, re.M)}
    number, discontinuity, found = said.get("MEDIA", 0), said.get("DISCONTINUITY", 0), dict[int, Segment]()
    for line in text.splitlines():
        discontinuity += line == "#EXT-X-DISCONTINUITY"
        if line and not line.startswith("#"):
            found[number] = line.rpartition("/")[2], discontinuity
            number += 1
    return found


def are_apart(lists: list[dict[int, Segment]]) -> bool:
    """Whether renditions have other segments or discontinuity numbers at one media number, or no number in common."""
    first, *others = lists
    return any(not first.keys() & it.keys() or any(first[n] != it[n] for n in first.keys() & it.keys()) for it in others if it and first)


@dataclass
class Look:
    """What was seen of a programme at a moment: the words of what was wrong with it, and the seconds that its end was behind."""

    when: float
    programme: str
    wrong: list[str]
    behind: float


@dataclass
class Lists(threading.Thread):
    """Reads all lists, as viewers do. `written` has each segment of each channel by its number; `odd` are numbers that had another
    segment before."""

    day: Day
    looks: list[Look] = field(default_factory=list)
    written: dict[str, dict[int, Segment]] = field(default_factory=lambda: defaultdict(dict))
    odd: list[str] = field(default_factory=list)
    clocks: dict[str, float] = field(default_factory=dict)
    going: bool = True

    def __post_init__(self) -> None:
        super().__init__(daemon=True)

    def __hash__(self) -> int:
        return id(self)

    def run(self) -> None:
        """Looks until it is told to end."""
        while self.going:
            for programme in PROGRAMMES:
                self.looks.append(self.look(programme))
            time.sleep(LOOK)

    def look(self, programme: str) -> Look:
        """Looks at a programme's lists once."""
        wrong, lists, behind = [], [], 0.0
        for name in channels_of(programme):
            status, _, text = request("GET", self.day.plant.playlist(name))
            if status != 200:
                wrong.append(str(status or "no answer"))
                continue
            lists.append(segments_of(text))
            self.keep(name, lists[-1])
            end = configured_lists.end_of(text)
            behind = max(behind, time.time() - end + self.day.relays[name].clock if end else 0.0)
        if behind > LATE:
            wrong.append("late")
        if len(lists) > 1 and are_apart(lists):
            wrong.append("apart")
        return Look(time.monotonic(), programme, wrong, behind)

    def keep(self, name: str, found: dict[int, Segment]) -> None:
        """Keeps the segments of a written list."""
        known = self.written[name]
        self.odd += [f"{name}: number {n} is {it}, and was {known[n]}" for n, it in found.items() if known.get(n, it) != it]
        known |= found

    def healed(self, programmes: Iterable[str], begin: float, end: float, word: str = "") -> float:
        """The moment from which on the lists were right, of those from `begin` to `end`; with a `word`, from which on they weren't so."""
        bad = [it.when for it in self.looks if it.programme in programmes and begin <= it.when < end and (word in it.wrong if word else it.wrong)]
        return max(bad, default=begin)

    def words(self, programmes: Iterable[str], begin: float, end: float) -> list[str]:
        """What was wrong with lists in that time."""
        return sorted({word for it in self.looks if it.programme in programmes and begin <= it.when < end for word in it.wrong})


@dataclass
class Alarm:
    """An alarm that rang: its name, the channel or process that it names, and from when to when."""

    name: str
    label: str
    begin: float
    end: float


class Alarms(threading.Thread):
    """Asks Prometheus each second which alarms ring."""

    def __init__(self, port: int) -> None:
        super().__init__(daemon=True)
        self.url, self.going, self.rang = f"http://127.0.0.1:{port}/api/v1/alerts", True, list[Alarm]()

    def run(self) -> None:
        """Asks until it is told to end."""
        open_ones: dict[tuple[str, str], Alarm] = {}
        while self.going:
            now, status, text = time.monotonic(), *request("GET", self.url)[::2]
            alerts: list[dict[str, Any]] = json.loads(text)["data"]["alerts"] if status == 200 else []
            ringing = {(it["labels"]["alertname"], it["labels"].get("channel") or it["labels"].get("process", "")) for it in alerts if it["state"] == "firing"}
            for key in ringing:
                if key not in open_ones:
                    open_ones[key] = Alarm(*key, now, now)
                    self.rang.append(open_ones[key])
                open_ones[key].end = now
            open_ones = {key: it for key, it in open_ones.items() if key in ringing}
            time.sleep(1)


@dataclass
class Story:
    """What a player showed in a time: the longest time that its picture stood still, and the seconds left out and shown twice."""

    still: float
    left: float
    again: float

    def is_noticed(self, player: str) -> bool:
        """Whether somebody sees it with this player: ffmpeg and mpv show a segment as soon as it is listed, and wait for the next."""
        usual = 4.5 if player.startswith(("ffmpeg", "mpv")) else 0.5
        return self.still > usual or self.left >= 0.3 or self.again >= 0.3

    def text(self) -> str:
        """It in a few words."""
        return f"{self.still:.1f} s still" + (f", {self.left:.1f} s lost" if self.left >= 0.3 else "") + (f", {self.again:.1f} s twice" if self.again >= 0.3 else "")


class Audience:
    """Players; one that has ended is started again when it is asked for, as a person would."""

    KINDS = (("chromium", "news"), ("mpv", "news-1"), ("ffmpeg", "sport-1"), ("gst-launch-1.0", "film-1"), ("ffmpeg", "film-2"))
    STANDS = 15.0  # seconds without a frame after which a player is started anew

    def __init__(self, day: Day) -> None:
        self.day = day
        self.running: dict[tuple[str, str], tuple[viewers.Pipe | viewers.Page, float]] = {}
        self.past: dict[tuple[str, str], list[list[Frame]]] = defaultdict(list)
        self.revive()

    def revive(self) -> list[str]:
        """Starts those that aren't running, or stand still; answers which these were."""
        found = []
        for key in self.KINDS:
            if not viewers.is_there(key[0]):
                continue
            if key in self.running and (why := self.trouble(*self.running[key])):
                self.keep(key)
                found.append(f"{key[0]} on {key[1]} {why}")
            if key not in self.running:
                self.running[key] = self.start(*key)
        return found

    def start(self, kind: str, name: str) -> tuple[viewers.Pipe | viewers.Page, float]:
        """Starts a player of a kind; answers it with the moment of its begin."""
        if kind == "chromium":
            return viewers.Page(kind, self.day.plant.page(name, is_ladder=True)), time.monotonic()
        it = viewers.KINDS[kind](kind, self.day.plant.playlist(name))
        return it, it.began

    def trouble(self, player: viewers.Pipe | viewers.Page, began: float) -> str | None:
        """Whether a player that was started then has ended, or stands still."""
        if isinstance(player, viewers.Page):
            still = (player.browser.value("seen.length ? performance.now() - seen[seen.length - 1][2] : 0") or 0) / 1000
            return "stood still" if still > self.STANDS else None
        if player.process.poll() is not None:
            return "ended"
        still = time.monotonic() - began - (player.frames[-1][2] if player.frames else 0)
        return "stood still" if still > self.STANDS else None

    def keep(self, key: tuple[str, str]) -> None:
        """Ends a player, and keeps its frames with their moments."""
        player, began = self.running.pop(key)
        self.past[key].append([(kind, number, when + began) for kind, number, when in player.end()])

    def end(self) -> None:
        """Ends all."""
        for key in list(self.running):
            self.keep(key)

    def stories(self, programmes: Iterable[str], begin: float, end: float) -> dict[str, Story]:
        """What each player of the programmes showed in a time, by its name and channel."""
        found = {}
        for (kind, name), parts in self.past.items():
            plan = self.day.plans[name.partition("-")[0]]
            shown = [between(it, places_of(it, plan), begin, min(end, it[-1][2])) for it in parts if it and it[0][2] < end - 1 and it[-1][2] > begin]
            if name.partition("-")[0] in programmes and shown:
                found[f"{NAMES.get(kind, kind)} on {name}"] = Story(max(it[0] for it in shown), sum(it[2] for it in shown), sum(it[1] for it in shown))
        return found


# ---- the as-run log

def pods_of(written: dict[int, Segment]) -> list[list[str]]:
    """The pods in a channel's written segments, in order, without those that the first and the last list may have in part. (The files
    of a programme's segments begin with `p`.)"""
    pods: list[list[str]] = []
    was_ad = True
    for _, (file, _) in sorted(written.items()):
        is_ad = not file.startswith("p-")
        if is_ad and not was_ad:
            pods.append([])
        if is_ad and pods:
            pods[-1].append(file)
        was_ad = is_ad
    return pods[:-1] if was_ad else pods


def told_of(path: str, channel: str) -> tuple[list[list[str]], int]:
    """The pods of a channel in the as-run log, in the order of their begins, and how many gaps it tells of."""
    with open(path, encoding="utf-8") as it:
        lines = [json.loads(line) for line in it]
    own = [it for it in lines if it.get("channel") == channel and it.get("pod")]
    gaps = sum("gap" in it and it.get("channel", channel) == channel for it in lines)
    return [[urllib.parse.urlsplit(uri).path.rpartition("/")[2] for uri in it["segments"]] for it in sorted(own, key=lambda it: str(it["at"]))], gaps


def lost_breaks(day: Day) -> list[str]:
    """The breaks that had a decision in time, and weren't filled by it, by the as-run log: a sentence each."""
    with open(day.as_run, encoding="utf-8") as it:
        lines = [said for said in map(json.loads, it) if "id" in said and said["pod"] != "own"]
    return [f"{it['channel']} {it['id']}: {it['pod'] or 'nothing'} was shown ({it['why']})" for it in lines
            if int(it["id"].rpartition("-")[2]) not in day.plans[it["channel"].partition("-")[0]].undecided]


def unrecorded(day: Day, lists: Lists) -> dict[str, str]:
    """For each channel in which pods and as-run log differ: how many pods are missing, and how many were told that weren't written.
    Pods that are still in the list aren't due yet, and the monitor has some seconds for those that left it."""
    found, listed = {}, {name: pods_of({0: ("p-", 0), **segments_of(request("GET", day.plant.playlist(name))[2])}) for name in CHANNELS}
    time.sleep(WRITES)
    for name in CHANNELS:
        pods, (told, gaps) = pods_of(lists.written[name]), told_of(day.as_run, name)
        same = sum(it.size for it in difflib.SequenceMatcher(None, [str(it) for it in pods], [str(it) for it in told], False).get_matching_blocks())
        due = len(pods) - len(listed[name])
        if same < due or len(told) > same + 1:
            found[name] = f"{due - same} of {due} pods are missing, {len(told) - same} lines are of others, {gaps} gaps are told"
    return found
