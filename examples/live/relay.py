"""The relays of the first channel: between the packager and adsplice-feed, they signal breaks; a `Relay` decides them, too.

In a real plant the encoder turns the cue of the programme (SCTE 35) into signals, and an ad server chooses the advertisements.
Here a loop does it by the clock of the segments: it writes the signalled list to a file, which adsplice-feed reads and gives to
adsplice. A `Relay` writes date ranges ten seconds ahead, and the decisions into the feed's folder. A `Signaller` writes tags
where a break begins and ends, as most packagers do: adsplice-feed translates them, and asks the ad server.
"""
from __future__ import annotations

import json
import os
import re
import subprocess
import threading
import time
from collections.abc import Iterable
from datetime import datetime, timedelta, timezone

import media
from configured_lists import first_number
from tools import ROOT, Process, Processes, write_aside

# A splice_info_section with a splice_insert that leaves the network (ANSI/SCTE 35, 9.6 and 9.7.3)
OUT = "0xFC302000000000000000FFF00F05000000017FFFFE002932E00001" + "0" * 16
# Two with a time_signal each: Provider Placement Opportunity Start and End (9.7.4 and 10.3.3), in base64
START, END = "/DAjAAAAAAAAAP/wAQZ/ABECD0NVRUkAAAABf78AADQBAUfYX1Y=", "/DAjAAAAAAAAAP/wAQZ/ABECD0NVRUkAAAABf78AADUBAUYA89E="


class Plan:
    """When breaks are: one of `length` seconds begins every `every` seconds, and every second one is left to the fallback.

    Pods are as long as their breaks, and cut like the programme, or into pieces of 1 s."""

    def __init__(self, every: int, length: int, first: int | None = None, cut: int = media.SECONDS) -> None:
        if every % media.SECONDS or length % media.SECONDS or not 0 < length < every:
            raise ValueError(f"a break is shorter than the time between two, and both are multiples of {media.SECONDS} s")
        self.every, self.length = every // media.SECONDS, length // media.SECONDS
        self.first = self.every if first is None else first // media.SECONDS
        self.cut = cut
        self.own = media.pod_kinds(("ad a", "ad b"), self.length)
        self.fallback = media.pod_kinds(("fallback",), self.length)

    def break_of(self, segment: int) -> tuple[int, int] | None:
        """The break in which a segment of the programme is, and the segment's place in it; or none."""
        turn, place = divmod(segment - self.first, self.every)
        return (turn, place) if turn >= 0 and place < self.length else None

    def begin(self, turn: int) -> int:
        """The segment at which a break begins."""
        return self.first + turn * self.every

    def is_decided(self, turn: int) -> bool:
        """Whether a break gets a pod of its own."""
        return turn % 2 == 0

    def owed(self, segment: int) -> tuple[str, int]:
        """What a viewer is owed in a segment's place: (kind, its first frame's number). Pods are cut like the programme."""
        found = self.break_of(segment)
        if found is None:
            return "programme", segment * media.FRAMES
        turn, place = found
        return media.pod_frames(self.own if self.is_decided(turn) else self.fallback)[place]


def read_instant(text: str) -> datetime:
    """An instant as ffmpeg writes it."""
    return datetime.strptime(text, "%Y-%m-%dT%H:%M:%S.%f%z")


def listen(lines: Iterable[str], faults: list[str]) -> None:
    """Reads a feed's lines; those of what was refused, or wasn't answered, and of renditions that came apart are told and kept
    in `faults`, each once in a row."""
    for line in lines:
        _, name, who, rest = line.rstrip("\n").split(" ", 3)
        said, _, text = rest.partition(": ")
        is_refused = said[0] in "45" and not text.startswith("the channel is there")
        if not is_refused and not (who == "adsplice" and said[0] == "-") and not said.endswith("Apart"):
            continue
        if said not in faults[-1:]:
            faults.append(said)
            print(f"{name}: {who}: {rest}", flush=True)


class Relay:
    """Reads the packager's playlist, and writes it with the date ranges of the plan's breaks for a channel's feed, which it starts."""

    def __init__(self, name: str, plan: Plan, playlist: str, operator: str, site: str, room: str, rendition: int = 1) -> None:
        self.name, self.plan, self.playlist, self.operator = name, plan, playlist, operator
        self.base, self.ads = f"{site}/media/programme/{rendition}/index.m3u8", f"{site}/media/ads/{rendition}"
        self.signalled_list, self.decisions = f"{room}/{name}/index.m3u8", f"{room}/{name}/decisions"
        self.fallback, self.kept = f"{room}/{name}/fallback.json", f"{room}/kept"
        self.sent: str | None = None
        self.decided, self.going = -1, True
        self.faults: list[str] = []
        self.thread = threading.Thread(target=self.run, daemon=True)
        self.feed: Process | None = None
        os.makedirs(self.decisions)
        ads = media.pod(plan.fallback, self.ads, plan.cut)
        write_aside(self.fallback, json.dumps({"fallback": {"ads": ads}}))

    def feed_words(self) -> list[str]:
        """The words of the channel's feed."""
        return [f"{ROOT}/plant/adsplice-feed", "--channel", self.name, "--at", self.operator, "--origin", self.signalled_list,
                "--base", self.base, "--decisions", self.decisions, "--fallback", self.fallback, "--keep", self.kept]

    def decide(self, turn: int) -> None:
        """Writes the decision on a break for the feed, once."""
        if turn <= self.decided:
            return
        if self.plan.is_decided(turn):
            ads = media.pod(self.plan.own, self.ads, self.plan.cut)
            write_aside(f"{self.decisions}/break-{turn}.json", json.dumps({"breaks": [{"id": f"break-{turn}", "ads": ads}]}))
        self.decided = turn

    def date_range(self, turn: int, first: int, begins: datetime) -> str:
        """The signal of a break: the first segment's number and instant say when it begins."""
        start = begins + timedelta(seconds=(self.plan.begin(turn) - first) * media.SECONDS)
        text = start.astimezone(timezone.utc).strftime("%Y-%m-%dT%H:%M:%S.%f")[:-3] + "Z"
        return f'#EXT-X-DATERANGE:ID="break-{turn}",START-DATE="{text}",DURATION={self.plan.length * media.SECONDS},SCTE35-OUT={OUT}'

    def signalled(self, text: str) -> str:
        """The packager's playlist with a date range for each break that is in it, or begins within the next 10 seconds."""
        first = first_number(text)
        stated = re.search(r"^#EXT-X-PROGRAM-DATE-TIME:(.+)$", text, re.M)
        assert stated is not None
        begins = read_instant(stated[1])
        after = first + text.count("#EXTINF:")
        turns = [turn for turn in range(after // self.plan.every + 2)
                 if self.plan.begin(turn) + self.plan.length > first and self.plan.begin(turn) < after + 10 // media.SECONDS]
        for turn in turns:
            self.decide(turn)
        lines = [self.date_range(turn, first, begins) for turn in turns]
        return text.replace("#EXTM3U\n", "\n".join(["#EXTM3U", *lines, ""]), 1)

    def turn(self) -> None:
        """Writes the list anew if the packager's has changed: first the decisions that it needs, then the list itself."""
        try:
            with open(self.playlist, encoding="utf-8") as it:
                text = it.read()
        except FileNotFoundError:
            return
        if text != self.sent:
            write_aside(self.signalled_list, self.signalled(text))
            self.sent = text

    def run(self) -> None:
        """Until it is told to end."""
        while self.going:
            self.turn()
            time.sleep(0.1)

    def start_feed(self, processes: Processes) -> None:
        """Starts the feed as one of `processes`; one that was there is no more."""
        self.feed = processes.start(self.feed_words(), stdout=subprocess.PIPE, stderr=None, text=True)
        threading.Thread(target=listen, args=(self.feed.stdout, self.faults), daemon=True).start()

    def start(self, processes: Processes) -> Relay:
        """Starts, with its feed as one of `processes`."""
        self.start_feed(processes)
        self.thread.start()
        return self


class Signaller(Relay):
    """A relay that signals by tags, and decides nothing."""

    def tags(self, segment: int) -> list[str]:
        """The tags before a segment of the programme."""
        turn, place = divmod(segment - self.plan.first, self.plan.every)
        if turn >= 0 and place == 0:
            return [f"#EXT-OATCLS-SCTE35:{START}", f"#EXT-X-CUE-OUT:{self.plan.length * media.SECONDS}"]
        return [f"#EXT-OATCLS-SCTE35:{END}", "#EXT-X-CUE-IN"] if turn >= 0 and place == self.plan.length else []

    def signalled(self, text: str) -> str:
        """The packager's playlist with the tags before their segments."""
        number, lines = first_number(text), list[str]()
        for line in text.split("\n"):
            if line.startswith("#EXTINF:"):
                lines += self.tags(number)
                number += 1
            lines.append(line)
        return "\n".join(lines)
