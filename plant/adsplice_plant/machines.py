"""This process among the feeds of the machines that have one store: the threads and the clock around its member (members)."""
from __future__ import annotations

import json
import secrets
import threading
import time
from collections.abc import Callable
from contextlib import suppress
from pathlib import Path

from .etcd import Compacted, Etcd, Refused
from .members import FORMAT_KEY, LATE, Member
from .replica import Replica
from .shared_log import ROOT, Foreign
from .state import State
from .store_settings import StoreAt
from .telling import place_of
from .whole_files import KEPT_MODE, write_aside
from .words import now_text, plain

OFTEN = 0.1  # seconds between two looks of the member
PAUSE = 0.2  # seconds until the store is tried again
LEAST_SILENCE = 2.5  # seconds without a change after which another member of the store is watched: each feed changes its key each second
LAST = 1.0  # seconds for the end of the lease
SAID = ".machine"  # the end of the name of the file that says how this machine is
READY = ".ready"  # the end of the name of the file whose time says when this machine last had what the others have

Say = Callable[[str], None]


class Machines:
    """The feeds of the store that is `at`, as the process on the `machine` sees them. `say` prints a line. `keep`: the folder in which files show
    how this machine is; there may be none."""

    def __init__(self, at: StoreAt, machine: str, say: Say, keep: Path | None = None) -> None:
        self.at, self.machine, self.say = at, machine, say
        self.keep = keep
        self.shown_at = float("-inf")  # when that was shown last
        self.keys = Etcd(at.addresses, at.user, at.password, at.limit())
        self.watched = Etcd(at.addresses, at.user, at.password, at.limit())  # (what changes leads waits for no watch)
        leases = Etcd(at.addresses, at.user, at.password, at.lease_limit())
        self.replicas: dict[str, Replica] = {}
        self.hashes: dict[str, str] = {}
        self.member = Member(f"{machine}/{secrets.token_hex(4)}", leases, at.lease, self.replicas, self.hashes)
        self.lock, self.ending = threading.RLock(), threading.Event()
        self.has_begun = False
        self.why = ""  # what is wrong, as it was told last
        self.threads = [threading.Thread(target=it, name="store", daemon=True) for it in (self.watch, self.go_on)]

    def start(self) -> None:
        """Begins."""
        for it in self.threads:
            it.start()

    def replica(self, name: str, fresh: State, channels: list[str], text: str) -> Replica:
        """The programme `name` on this machine, whose settings have the hash `text`; the rest as in Replica."""
        found = Replica(self.keys, name, self.machine, fresh, channels, lambda: secrets.token_hex(8), me=self.member.me)
        with self.lock:
            self.replicas[name], self.hashes[name] = found, text
            if name not in self.member.leads:
                self.member.free_at[name] = time.monotonic()
        return found

    def leave(self, name: str) -> None:
        """The programme `name` isn't fed here any more."""
        with self.lock:
            self.replicas.pop(name, None)
            self.hashes.pop(name, None)
            self.member.free_at.pop(name, None)
            if not self.ending.is_set():
                self.quietly(lambda: self.member.leave(name))

    def end(self) -> None:
        """The lease ends, and so do its leads: other machines needn't wait for that."""
        self.ending.set()
        if self.lock.acquire(timeout=LAST):
            try:
                self.quietly(self.member.end)
            finally:
                self.lock.release()

    def quietly(self, do: Callable[[], None]) -> None:
        """Does something; that it can't be done is told."""
        try:
            do()
        except OSError as fault:
            self.tell("Away", str(fault))

    # ---- its threads

    def go_on(self) -> None:
        """Has the lease last, takes leads and gives them to others, again and again."""
        while not self.ending.wait(OFTEN):
            try:
                with self.lock:
                    if self.has_begun:
                        self.member.tick(time.monotonic())
                        self.well()
            except OSError as fault:
                self.wrong(fault)
                self.ending.wait(PAUSE)
            except Exception as fault:  # noqa: BLE001  (without this thread its machine would lead nothing any more)
                self.failed(fault)
                self.ending.wait(PAUSE)
            self.show(time.monotonic())

    def watch(self) -> None:
        """Takes in what the store changes, again and again."""
        revision: int | None = None
        while not self.ending.is_set():
            try:
                if revision is None or self.was_put_back(revision):
                    revision = self.begin()
                for _, changes in self.watched.watch(ROOT, revision, max(LEAST_SILENCE, self.at.lease)):
                    if self.ending.is_set():
                        return
                    others = [it for it in changes if not self.member.hand_on(it)]
                    if others:
                        with self.lock:
                            self.member.see(others, time.monotonic())
                    revision = max([revision, *(it.pair.revision + 1 for it in changes)])
                    if self.watched.may_return():
                        break
            except Compacted:
                revision = None
            except OSError as fault:
                revision = None if isinstance(fault, (Foreign, Refused)) else revision
                self.wrong(fault)
            except Exception as fault:  # noqa: BLE001  (without this thread its machine would stand still)
                revision = None
                self.failed(fault)
            self.ending.wait(PAUSE)

    def was_put_back(self, revision: int) -> bool:
        """Whether the store hasn't come to what was seen before the `revision`: it was restored from what it had earlier. (Nothing of it would be seen until
        it comes there.) Raises OSError."""
        return self.watched.read(FORMAT_KEY)[0] + 1 < revision

    def begin(self) -> int:
        """Begins, or begins anew: answers the revision from which on changes are to be seen. Raises OSError."""
        with self.lock:
            self.has_begun = False
            found = self.member.begin(time.monotonic())
            self.has_begun = True
        for it in list(self.replicas.values()):
            it.read_anew()
        return found + 1

    def show(self, now: float) -> None:
        """Shows each second how this machine is, `now`: for its monitor, and, if its controllers have what the log has, for who leads viewers to it."""
        if self.keep is None or now - self.shown_at < 1.0:
            return
        self.shown_at = now
        with self.lock:
            said = self.said(now)
        with suppress(OSError):  # (then viewers go to another machine, and the monitor tells that the file is old)
            write_aside(self.keep / f"{self.machine}{SAID}", json.dumps(said).encode())
            if said["up"] and said["programmes"] and not said["behind"] and not said["ill"]:
                (self.keep / f"{self.machine}{READY}").touch(KEPT_MODE)

    def said(self, now: float) -> dict[str, int]:
        """How this machine is, `now`: whether the store is `up`, how many programmes it has and leads, how many are `behind`, and how many have controllers
        that don't answer (`ill`), how often a channel `differed`, and how often one programme's lead moved."""
        its = list(self.replicas.values())
        return {"up": int(self.has_begun and not self.why), "programmes": len(its), "leads": sum(bool(it.leads) for it in its), "behind": sum(it.behind() >= LATE for it in its),
                "ill": sum(not it.is_well() for it in its), "differed": sum(it.differed for it in its), "moves": self.member.most_moves(now)}

    # ---- telling

    def wrong(self, fault: OSError) -> None:
        """Tells that the store doesn't do what it is asked, by a `fault`."""
        self.tell("Foreign" if isinstance(fault, Foreign) else "Refused" if isinstance(fault, Refused) else "Away", str(fault))

    def failed(self, fault: Exception) -> None:
        """Tells that nobody foresaw a `fault`."""
        self.tell(f"{type(fault).__name__} {place_of(fault)}", str(fault)[:200])

    def tell(self, word: str, text: str) -> None:
        """Prints a line once for as long as it is so."""
        if word != self.why:
            self.why = word
            self.say(f"{now_text()} feed store - {word}: {plain(text)}; nothing is given until it goes again, and viewers keep the last playlists")

    def well(self) -> None:
        """The store does what it is asked."""
        if self.why:
            self.why = ""
            self.say(f"{now_text()} feed store - -: {self.at.text()} answers again")
