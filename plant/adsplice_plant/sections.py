"""A section of the settings that is fed: a channel, or the renditions of a programme, from its begin to its end."""
from __future__ import annotations

import random
import threading
import time
from collections.abc import Callable, Mapping
from pathlib import Path
from typing import NamedTuple

from . import settings as told
from .fed import Fed, Limits
from .locks import Lock, Taken, take_all
from .location import Location
from .machines import Machines
from .masters import Feeds, Programme, known_at
from .renditions import FileNames, Kept
from .settings import Settings
from .shared_names import SharedNames
from .shell import Feeding, store_of
from .telling import Say
from .web import Client
from .words import Fault, now_text

AGAIN = 1.0  # seconds from one trial to the next of a lock that another feed has


class Difference(NamedTuple):
    """What new settings mean for what is fed, by the sections' names: those that begin, those that are others than before, those that end, and
    those that go on."""

    begins: list[str]
    changes: list[str]
    ends: list[str]
    stays: list[str]

    def text(self) -> str:
        """What is told of it."""
        said = [f"{does} {', '.join(names)}" for does, names in (("begins", self.begins), ("changes", self.changes), ("ends", self.ends)) if names]
        return "; ".join([*said, f"{len(self.stays)} of its sections go on as they were"])


def difference(fed: Mapping[str, list[Settings]], wanted: Mapping[str, list[Settings]], wrong: set[str]) -> Difference:
    """What the sections that are `wanted` mean for those that are `fed`; one that is `wrong` goes on as it was."""
    return Difference([it for it in wanted if it not in fed], [it for it in wanted if it in fed and fed[it] != wanted[it]],
                      [it for it in fed if it not in wanted and it not in wrong], [it for it in fed if it in wrong or wanted.get(it) == fed[it]])


def lock_of(it: Settings) -> Path | None:
    """The file of the lock of the channel `it`; one without `keep` has none."""
    return it.keep / f"{it.name}.lock" if it.keep is not None else None


class Section:
    """What is fed by `settings`: one channel, the renditions of a programme, or those that its master playlist names. `say` prints a line, and
    `known` are the channels that are fed, by their names. `stores`: answers the machines of a store."""

    def __init__(self, settings: list[Settings], limits: Limits, say: Say, known: dict[str, Fed], stores: Callable[[Settings], Machines | None]) -> None:
        self.settings, self.limits, self.say, self.known, self.stores = settings, limits, say, known, stores
        self.name = settings[0].programme or settings[0].name
        self.ending, self.guard = threading.Event(), threading.Lock()
        self.threads: list[threading.Thread] = []
        self.locks: list[Lock] = []
        self.feeding: Feeding | None = None

    def start(self, spread: float) -> None:
        """Begins to feed it: a programme with a master playlist once that is read, and one that another feed has once that is over. Its first turn
        comes within `spread` seconds. Raises Fault."""
        first = self.settings[0]
        if first.master is None:
            self.feed(self.settings, spread)
            return
        feeds = Feeds(lambda channels: self.feed(channels, 0), self.change, self.move)
        kept: Kept = (own := FileNames(known_at(first)))
        if (machines := self.stores(first)) is not None:
            kept = SharedNames(machines.keys, self.name, own)
        master = Programme(first, Client(self.limits.timeout, first.redirects, first.reach()), self.say, feeds, kept)
        self.go(master.run, self.ending, self.limits.longest_pause)

    def go(self, does: Callable[..., None], *what: object) -> None:
        """Has a thread do what it `does` with `what`."""
        one = threading.Thread(target=does, args=what, name=self.name, daemon=True)
        one.start()
        self.threads.append(one)  # (who watches them takes one that doesn't run for one that has ended)

    def feed(self, channels: list[Settings], spread: float) -> None:
        """Feeds the `channels`, or waits for the feed that has one of them. Raises Fault."""
        if text := self.begin(channels, spread):
            self.tell("lock", "Taken", f"{text}; this one doesn't, and tries again each second")
            self.go(self.wait_for, channels)

    def begin(self, channels: list[Settings], spread: float) -> str:
        """Feeds the `channels` unless another feed has one of them; who has it then. Raises Fault, and has no lock then."""
        with self.guard:
            if self.ending.is_set() or self.feeding is not None:
                return ""
            if text := self.lock(channels):
                return text
            try:
                for it in channels:
                    told.make_folder(it)
                self.feeding = Feeding(channels, self.limits, self.say, store_of(channels), machines=self.stores(channels[0]))
            except (Fault, OSError) as fault:
                self.release()
                raise fault if isinstance(fault, Fault) else Fault(f"channel {channels[0].name}: {fault.filename}: {fault.strerror}") from None
            self.known.update(self.feeding.channels)
            self.feeding.start(random.uniform(0, max(0.0, spread)))
        return ""

    # ---- other renditions

    def change(self, channels: list[Settings]) -> None:
        """Feeds the `channels` of a programme in place of those that it had: those that are in both go on from where they stand. Raises Fault if another
        feed has a new one, if a folder can't be made, or if several machines have the programme; then all is as it was."""
        with self.guard:
            old, held = self.feeding, {it.path for it in self.locks}
            if self.ending.is_set() or old is None:
                raise Fault("it isn't fed")
            if channels[0].store is not None:
                raise Fault("several machines have the programme: start their feeds anew to feed other renditions")
            for it in channels:
                told.make_folder(it)
            try:
                new = take_all(path for path in map(lock_of, channels) if path is not None and path not in held)
            except (Taken, OSError) as fault:
                raise Fault(str(fault)) from None
            old.end()
            old.join(time.monotonic() + 2 * self.limits.timeout)
            self.feeding = Feeding(channels, self.limits, self.say, store_of(channels), known=old.state)
            wanted = {lock_of(it) for it in channels}
            for lock in [lock for lock in self.locks if lock.path not in wanted]:
                self.locks.remove(lock)
                lock.release()
            self.locks += new
            for name in old.channels.keys() - self.feeding.channels.keys():
                self.known.pop(name, None)
            self.known.update(self.feeding.channels)
            self.feeding.start()

    def move(self, channel: str, place: Location) -> None:
        """Has the list of the `channel` read at another `place` from now on."""
        with self.guard:
            if self.feeding is not None:
                self.feeding.channels[channel].reading.move(place)

    # ---- locks

    def lock(self, channels: list[Settings]) -> str:
        """Takes the locks of the `channels`; who has one of them if another feed does. One without `keep` has no lock, and where the disk refuses it
        is told that there is none."""
        try:
            self.locks = take_all(path for path in map(lock_of, channels) if path is not None)
        except Taken as fault:
            return str(fault)
        except OSError as fault:
            self.tell("lock", "Unkept", f"{fault.filename}: {fault.strerror}; nothing keeps another feed from it")
        return ""

    def release(self) -> None:
        """Lets its locks go."""
        while self.locks:
            self.locks.pop().release()

    def wait_for(self, channels: list[Settings]) -> None:
        """Feeds the `channels` once no other feed has one of them."""
        why = ""
        while not self.ending.wait(AGAIN):
            try:
                if not self.begin(channels, 0):
                    self.tell("lock", "-", "the other feed has let it go; feeds it")
                    break
            except Fault as fault:
                if why != str(fault):
                    why = str(fault)
                    self.tell("settings", "Wrong", f"{why}; goes on without it")
        self.threads.remove(threading.current_thread())

    def tell(self, who: str, word: str, text: str) -> None:
        """Prints a line of `who`, with a `word` and a `text`."""
        self.say(f"{now_text()} {self.name} {who} - {word}: {text}")

    def ended(self) -> str:
        """The name of a thread that has ended of itself; empty if none has."""
        if self.ending.is_set():
            return ""
        own = next((it.name for it in list(self.threads) if not it.is_alive() and it in self.threads), "")
        return own or (self.feeding.ended() if self.feeding is not None else "")

    # ---- its end

    def end(self) -> None:
        """Has it end once its step is done."""
        self.ending.set()
        with self.guard:
            if self.feeding is not None:
                self.feeding.end()

    def has_ended(self, until: float) -> bool:
        """Waits until it has ended, or the moment `until` has come; whether it has. Another feed may have its channels then."""
        for it in list(self.threads):
            it.join(max(0.0, until - time.monotonic()))
        if any(it.is_alive() for it in list(self.threads)) or (self.feeding is not None and not self.feeding.join(until)):
            return False
        for name, fed in (self.feeding.channels if self.feeding is not None else {}).items():
            if self.known.get(name) is fed:
                del self.known[name]
        self.release()
        return True
