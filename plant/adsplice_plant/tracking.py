"""What ads have called (IAB VAST, Impression and Tracking): it is kept with each answer, and on request it is called once for each ad that was
shown whole.

The as-run log says what was shown. That a URL is about to be called is on disk before it is: it is called once or, if the machine falls just then,
not at all.
"""
from __future__ import annotations

import glob
import json
import os
import threading
import time
from collections.abc import Callable
from datetime import datetime, timezone
from pathlib import Path
from typing import Any

from . import macros, playlist
from .asking import file_name
from .filling import Pod
from .journal import append
from .outside import Outside
from .playlist import SECOND, seconds_text
from .whole_files import write_aside
from .words import shown

CALL = 10.0  # seconds for a call
LOOK = 2.0  # seconds between two looks at the log
MOST_READ = 4 << 20  # bytes of the log that are read at a time
LONGEST = 1 << 20  # bytes of an answer that was kept
NEAR = 10 * SECOND  # how far the break's start in the log may be from the question's
KEPT = 30 * 86_400.0  # seconds for which answers are kept
MOST_SENT = 20_000  # ads of which it is known that they were called for

Count = Callable[[str], None]


def keep(folder: Path, name: str, start: int | None, pod: Pod) -> None:
    """Keeps in the `folder` what the `pod` is that fills the break `name`, which begins at `start`. Raises OSError."""
    ads = [{"id": ready.id, "seconds": seconds_text(ready.length())}
           | ({} if ad is None else {"impressions": ad.tracked.impressions, "errors": ad.tracked.errors, "events": ad.tracked.events, "file": ad.files[0].url})
           for ready, ad in zip(pod.ready, pod.ads)]
    folder.mkdir(parents=True, exist_ok=True)
    said = {"id": name, "start": None if start is None else playlist.instant_text(start), "at": time.time(), "ads": ads}
    write_aside(folder / f"{file_name(name)}.json", json.dumps(said).encode() + b"\n")


def kept(folder: Path, name: str) -> dict[str, Any] | None:
    """What was kept in the `folder` of the answer for the break `name`; none if nothing was that reads."""
    try:
        with open(folder / f"{file_name(name)}.json", "rb") as it:
            said = json.loads(it.read(LONGEST))
        return said if isinstance(said, dict) and isinstance(said.get("ads"), list) else None
    except (OSError, ValueError, RecursionError):
        return None


def clean(folder: Path) -> None:
    """Takes away answers of the `folder` that are older than KEPT."""
    try:
        with os.scandir(folder) as found:
            old = [it.path for it in found if time.time() - it.stat(follow_symlinks=False).st_mtime > KEPT]
    except OSError:
        return
    for path in old:
        Path(path).unlink(missing_ok=True)


def calls_of(line: dict[str, Any], said: dict[str, Any]) -> list[tuple[int, list[tuple[str, str]]]]:
    """What is to be called by the `line` of the as-run log for the break whose answer `said` its ads: for each ad that was shown whole its place, and
    the names and URLs in their order. Nothing if the pod was another one."""
    ads, answered = line.get("ads"), said["ads"]
    if line.get("pod") != "own" or not isinstance(ads, list) or len(ads) != len(answered) or not all(isinstance(it, dict) for it in [*ads, *answered]):
        return []
    if [it.get("id") for it in ads] != [it.get("id") for it in answered]:
        return []
    begins = [playlist.read_instant(str(it.get("start") or "")) for it in (line, said)]
    if None not in begins and abs((begins[0] or 0) - (begins[1] or 0)) > NEAR:
        return []
    found = []
    for place, (seen, ad) in enumerate(zip(ads, answered)):
        urls = [("impression", str(it)) for it in ad.get("impressions", [])] + [(str(event), str(url)) for event, url in ad.get("events", [])]
        if seen.get("whole") is True and urls:
            found.append((place, urls))
    return found


class Tracker:
    """Calls what ads of `channel` have called, by the as-run log `log` and the `answers` that were kept, for the channels of which `is_its` says that
    they are its renditions. Of what was called it keeps a record in the file `sent`. `outside` says where calls may lead.
    `tell` prints a line, and `count` counts a call by its event and whether it was done."""

    def __init__(self, channel: str, log: Path, answers: Path, sent: Path, outside: Outside, is_its: Callable[[str], bool],
                 tell: Callable[[str, str, str, str], None], count: Count) -> None:
        self.channel, self.log, self.answers, self.sent, self.outside, self.client = channel, log, answers, sent, outside, outside.client(CALL)
        self.is_its, self.tell, self.count = is_its, tell, count
        self.is_new = False  # whether there is no record yet
        self.done, self.place, self.file = self.read_sent()

    def read_sent(self) -> tuple[dict[str, None], int, int]:
        """The ads that were called for, and up to where the log was read: its place, and the file's number. Without a record the log is read from its
        end on: what was shown before nobody asked to be called. A record that has grown long is written anew. Raises OSError if it can't be."""
        found: dict[str, None] = {}
        place, file = -1, 0
        try:
            lines = self.sent.read_bytes().split(b"\n")
        except OSError:
            lines = []
        for line in lines:
            try:
                said = json.loads(line)
                if "key" in said:
                    found[str(said["key"])] = None
                else:
                    place, file = int(said["place"]), int(said["file"])
            except (ValueError, TypeError, KeyError, RecursionError):
                continue
        if len(lines) > 2 * MOST_SENT:
            found = dict(list(found.items())[-MOST_SENT:])
            write_aside(self.sent, b"".join(json.dumps(it).encode() + b"\n" for it in [*({"key": key} for key in found), {"place": place, "file": file}]))
        if place < 0:
            self.is_new = True
            try:
                status = self.log.stat()
                place, file = status.st_size, status.st_ino
            except OSError:
                place, file = 0, 0
        return found, place, file

    def lines(self) -> list[dict[str, Any]]:
        """The whole lines that the log has since the last look; if another file is there, the rest of the one before it comes first."""
        found = []
        try:
            status = self.log.stat()
        except OSError:
            return []
        if self.file and status.st_ino != self.file:
            rotated = (it for it in self.log.parent.glob(f"{glob.escape(self.log.name)}[.-]*") if it.is_file() and it.stat().st_ino == self.file)
            found += [line for it in rotated for line in self.part(it)]
            self.place = 0
        if status.st_size < self.place:
            self.place = 0
        self.file = status.st_ino
        return found + self.part(self.log)

    def part(self, path: Path) -> list[dict[str, Any]]:
        """The whole lines of the file `path` from the place on, which goes on behind them."""
        with open(path, "rb") as it:
            it.seek(self.place)
            data = it.read(MOST_READ)
        whole = data[: data.rfind(b"\n") + 1]
        self.place += len(whole)
        found = []
        for line in whole.split(b"\n"):
            try:
                said = json.loads(line)
            except (ValueError, RecursionError):
                continue
            if isinstance(said, dict):
                found.append(said)
        return found

    def look(self) -> None:
        """Calls for the ads of which the log says since the last look that they were shown whole. Raises OSError if the record can't be written."""
        before = self.place, self.file
        if self.is_new:
            self.record({"place": self.place, "file": self.file})
            self.is_new = False
        try:
            for line in self.lines():
                if isinstance(line.get("id"), str) and self.is_its(str(line.get("channel"))) and (said := kept(self.answers, line["id"])) is not None:
                    for place, urls in calls_of(line, said):
                        self.call(f"{line['id']} {said.get('start')} {said.get('at')} {place}", line, place, urls)
            if (self.place, self.file) != before:
                self.record({"place": self.place, "file": self.file})
        except OSError:
            self.place, self.file = before  # (the same lines are looked at again: what was called for isn't called again)
            raise

    def record(self, said: dict[str, Any]) -> None:
        """Adds a line with the members `said` to the record. Raises OSError."""
        self.sent.parent.mkdir(parents=True, exist_ok=True)
        append(self.sent, json.dumps(said).encode() + b"\n", True)

    def call(self, key: str, line: dict[str, Any], place: int, urls: list[tuple[str, str]]) -> None:
        """Calls the `urls` of the ad at the `place` of the pod that the `line` is of, unless that was done under this `key`."""
        if key in self.done:
            return
        self.record({"key": key})
        self.done[key] = None
        while len(self.done) > MOST_SENT:
            self.done.pop(next(iter(self.done)))
        name = line["ads"][place]["id"]
        for event, url in urls:
            status, why = self.get(url, place + 1)
            self.count(f"{event} {'done' if why == '' else 'failed'}")
            if why:
                self.tell(f"vast/{line['id']}", str(status or "-"), "Untracked", f"ad {name}: {event} {shown(url)}: {why}; it isn't called again")

    def get(self, url: str, number: int) -> tuple[int, str]:
        """Calls the `url` of the ad `number` of its pod: the status of the answer, and what is wrong with it."""
        if why := self.outside.strays(url):
            return 0, why
        values = {**macros.of_each_request(datetime.now(timezone.utc)), "ADCOUNT": str(number), "PODSEQUENCE": str(number), "SERVERSIDE": "1"}
        answer = self.client.ask("GET", macros.filled(url, values))
        return answer.status, "" if 200 <= answer.status < 400 else answer.why or f"it is answered {answer.status}"

    def run(self, ending: threading.Event) -> None:
        """Looks at the log until `ending` is set."""
        told = ""
        while not ending.wait(LOOK):
            try:
                self.look()
                why = ""
            except OSError as fault:
                why = f"{fault.filename or self.sent}: {fault.strerror}"
            except Exception as fault:  # noqa: BLE001  (the next look goes on)
                why = f"{type(fault).__name__}: {str(fault)[:200]}"
            if why and why != told:
                self.tell("tracking", "-", "Untracked", why)
            told = why
