"""What an ad server gave for a break, kept until the break is over: it is asked once, also if the question comes again or the program is started anew.

Each is a file in a folder of its own, which is there as a whole or not at all. One that doesn't read costs a request more, and nothing else.
"""
from __future__ import annotations

import contextlib
import json
import threading
from dataclasses import dataclass
from pathlib import Path
from typing import Any, NamedTuple

from .ad_server import Found, Slot
from .asking import file_name
from .playlist import SECOND
from .vast import Ad, MediaFile, Tracked
from .whole_files import write_aside

LASTS = 600 * SECOND  # nanoseconds for which it is kept at the least: a question that comes again does so before its break
AFTER = 60 * SECOND  # nanoseconds for which it is kept after its break has begun
LONGEST = 86_400 * SECOND  # for which it is kept at the most
MOST = 256  # of a channel; the oldest goes first
MOST_BYTES = 4 << 20  # of a file


@dataclass(frozen=True)
class Given:
    """What was `found` at the instant `at` for the question `key`. `start`: when its break begins, if that is known. `is_ahead`: it was asked for before
    the question came. `body` is the answer that was given by it; none if there was none. Instants are nanoseconds from 1970."""

    key: str
    start: int | None
    at: int
    found: Found
    is_ahead: bool = False
    body: str = ""


class Kept(NamedTuple):
    """What was given as it is on disk, its `text`; the rest as in Given. (A thousand ads as values would be looked through for garbage while a list waits.)"""

    start: int | None
    at: int
    is_ahead: bool
    text: bytes

    def is_over(self, now: int) -> bool:
        """Whether it is of no use any more at the instant `now`."""
        return now > min(max(self.at + LASTS, (self.start or 0) + AFTER), self.at + LONGEST)

    def given(self) -> Given:
        """It as a value; raises what `given_of` does."""
        return given_of(json.loads(self.text))


def said_of(it: Given) -> dict[str, Any]:
    """What was given, `it`, as JSON has it; what was lacking is left out."""
    slots = [{"ads": [said_of_ad(ad) for ad in slot.ads], "substitutes": slot.substitutes} for slot in it.found.slots]
    return {"key": it.key, "start": it.start, "at": it.at, "ahead": it.is_ahead, "body": it.body, "slots": slots, "buffet": [said_of_ad(ad) for ad in it.found.buffet]}


def said_of_ad(ad: Ad) -> dict[str, Any]:
    """The `ad` as JSON has it. (dataclasses.asdict takes ten times as long, and a list waits for the answer.)"""
    files = [{"url": it.url, "type": it.type, "bitrate": it.bitrate, "is_mezzanine": it.is_mezzanine} for it in ad.files]
    tracked = {"impressions": ad.tracked.impressions, "errors": ad.tracked.errors, "events": ad.tracked.events}
    return {"id": ad.id, "sequence": ad.sequence, "length": ad.length, "files": files, "tracked": tracked}


def given_of(said: Any) -> Given:
    """What was given that JSON has `said`; raises ValueError, TypeError, KeyError or AttributeError if it says none."""
    start = None if said["start"] is None else int(said["start"])
    found = Found([Slot(tuple(ad_of(ad) for ad in one["ads"]), bool(one["substitutes"])) for one in said["slots"]], [ad_of(ad) for ad in said["buffet"]])
    return Given(str(said["key"]), start, int(said["at"]), found, bool(said["ahead"]), str(said["body"]))


def ad_of(said: Any) -> Ad:
    """The ad that JSON has `said`; raises what `given_of` does."""
    tracked = said["tracked"]
    calls = Tracked(texts_of(tracked["impressions"]), texts_of(tracked["errors"]), tuple((str(name), str(url)) for name, url in tracked["events"]))
    files = tuple(MediaFile(str(it["url"]), str(it["type"]), int(it["bitrate"]), bool(it["is_mezzanine"])) for it in said["files"])
    if not files:
        raise ValueError("an ad has no file")
    return Ad(str(said["id"]), None if said["sequence"] is None else int(said["sequence"]), int(said["length"]), files, calls)


def texts_of(said: Any) -> tuple[str, ...]:
    """The texts that JSON has `said` as a list."""
    return tuple(str(it) for it in said)


def remove(path: Path) -> None:
    """Takes the file `path` away, if it can be: one that stays is over by its time."""
    with contextlib.suppress(OSError):
        path.unlink()


class GivenAds:
    """What was given for the breaks of a channel, of which each is a file in the `folder`."""

    def __init__(self, folder: Path) -> None:
        self.folder, self.lock = folder, threading.Lock()
        self.known: dict[str, Kept] = {}  # by their questions, the oldest first

    def begin(self, now: int) -> None:
        """Takes in what an earlier program kept that isn't over at the instant `now`."""
        found: list[tuple[str, Kept]] = []
        for path in list(self.folder.glob("*.json")) if self.folder.is_dir() else []:
            try:
                with open(path, "rb") as it:
                    text = it.read(MOST_BYTES)
                one = given_of(json.loads(text))
            except (OSError, ValueError, TypeError, KeyError, AttributeError, RecursionError):
                remove(path)
                continue
            kept = Kept(one.start, one.at, one.is_ahead, text)
            if kept.is_over(now) or one.at > now:
                remove(path)
            else:
                found.append((one.key, kept))
        with self.lock:
            self.known = dict(sorted(found, key=lambda it: it[1].at))
        self.forget(now)

    def of(self, key: str) -> Given | None:
        """What was given for the question `key`; none if nothing was."""
        with self.lock:
            found = self.known.get(key)
        return None if found is None else found.given()

    def ahead(self) -> dict[str, Kept]:
        """What was asked for before its question came, by what it is known, the oldest first."""
        with self.lock:
            return {key: it for key, it in self.known.items() if it.is_ahead}

    def put(self, it: Given) -> None:
        """Keeps `it`, in place of what was given before for its question. Raises OSError if it can't be written: then the program alone knows it."""
        text = json.dumps(said_of(it)).encode() + b"\n"
        with self.lock:
            self.known.pop(it.key, None)
            self.known[it.key] = Kept(it.start, it.at, it.is_ahead, text)
        self.folder.mkdir(parents=True, exist_ok=True)
        write_aside(self.path(it.key), text)

    def take(self, key: str) -> Given | None:
        """Takes out what was given for `key`, which is used once; none if it isn't there any more."""
        with self.lock:
            found = self.known.pop(key, None)
        if found is None:
            return None
        remove(self.path(key))
        return found.given()

    def forget(self, now: int) -> None:
        """Forgets what is over at the instant `now`, and the oldest if there are too many."""
        with self.lock:
            its = list(self.known.items())
        for place, (key, it) in enumerate(its):
            if it.is_over(now) or len(its) - place > MOST:
                self.take(key)

    def path(self, key: str) -> Path:
        """The file of what was given for the question `key`."""
        return self.folder / f"{file_name(key)}.json"
