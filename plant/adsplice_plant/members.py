"""The feeds that have a store in common: which of them are there, and which one leads each programme.

A feed is there for as long as its lease lasts. The lead of a programme is a key that goes with the lease of the feed that won it; the revision at
which it was won is what the feed's writes are compared with (shared_log). Who is asked first to lead follows from the names alone, so that
programmes are spread over the machines, and a machine that comes back is given its own.
"""
from __future__ import annotations

import functools
import hashlib
import json
import time
from collections import deque
from collections.abc import Callable, Iterable, Mapping
from contextlib import suppress
from dataclasses import dataclass, field
from typing import Protocol

from .etcd import Delete, Done, Is, Pair, Put, Refused, Seen, after_prefix
from .shared_files import FILES
from .shared_log import ROOT, Foreign, Keys, lead_key, log_prefix

FORMAT = b"adsplice 1"  # of all keys
FORMAT_KEY = f"{ROOT}format"
FEEDS = f"{ROOT}feeds/"
LEADS = lead_key("")
LOGS = log_prefix("")[:-1]
AFTER = 0.3  # seconds that each machine waits for those that come before it
SETTLED = 12.0  # seconds that a feed has been there before it is given programmes
BETWEEN = 0.5  # seconds between two looks whether a programme is to be given to another feed
AGAIN = 0.5  # seconds from one trial to lead to the next
MOVES = 600.0  # seconds within which changes of a lead are counted
LATE = 5.0  # seconds that a line waits until a replica counts as behind
DRAWN = 65_536  # numbers that machines drew, which are remembered
BEAT = 1.0  # seconds between two signs of a feed, by which the others see that what they watch is of now


class LeaseKeys(Keys, Protocol):
    """A store of keys that has leases (etcd)."""

    def grant(self, seconds: int) -> int:
        """A new lease of so many `seconds`."""

    def keep_alive(self, lease: int) -> bool:
        """The `lease` lasts anew from now on; whether there is such a lease."""

    def revoke(self, lease: int) -> None:
        """The `lease` ends, and the keys that go with it."""


class Programme(Protocol):
    """A programme that this process feeds, as its member sees it. Its calls return at once."""

    def lead(self, token: int) -> None:
        """It leads from now on: the lead was won at the revision `token`."""

    def follow(self) -> None:
        """It leads no more."""

    def token(self) -> int:
        """The revision at which it won the lead; 0 if it doesn't lead."""

    def take(self, pair: Pair) -> None:
        """The log has another line."""

    def take_file(self, pair: Pair, is_gone: bool) -> None:
        """A decision file of one of its channels came, or went."""

    def has(self, channel: str) -> bool:
        """Whether the `channel` is one of its."""

    def is_well(self) -> bool:
        """Whether its own controllers answer."""

    def behind(self) -> float:
        """How many seconds ago a line came that its controllers haven't; 0 if they have all."""


@dataclass
class Feed:
    """A feed of a machine: its `lease`, since when it is known (`since`), its programmes with the hash of their settings, those of them whose
    controllers don't answer there (`ill`) or lack lines (`behind`), and its `clock`: seconds from 1970."""

    lease: int
    since: float
    programmes: Mapping[str, str] = field(default_factory=dict)
    ill: frozenset[str] = frozenset()
    behind: frozenset[str] = frozenset()
    clock: float = 0.0


@dataclass
class Lead:
    """Who leads a programme: the feed `owner`, which won it at the `revision`."""

    owner: str
    revision: int


def machine_of(feed: str) -> str:
    """The machine of a `feed`, whose name is MACHINE/ID."""
    return feed.partition("/")[0]


def ranked(programme: str, feeds: Iterable[str]) -> list[str]:
    """The `feeds` in the order in which they are to lead the `programme`: each machine draws a number for it, and the least one comes first. If a machine
    goes, no other programme than its own is led by another one."""
    return sorted(feeds, key=lambda it: (drawn(machine_of(it), programme), it))


@functools.lru_cache(DRAWN)
def drawn(machine: str, programme: str) -> bytes:
    """The number that the `machine` draws for the `programme`."""
    return hashlib.sha256(f"{machine}/{programme}".encode()).digest()


def feed_of(pair: Pair, now: float) -> Feed | None:
    """The feed that a `pair` tells, which is known since `now`; none if it tells none of this version."""
    try:
        said = json.loads(pair.value)
        return Feed(pair.lease, now, {str(name): str(it) for name, it in said["programmes"].items()}, frozenset(str(it) for it in said["ill"]),
                    frozenset(str(it) for it in said["behind"]), float(said["clock"]))
    except (ValueError, KeyError, TypeError, AttributeError, RecursionError):
        return None


class Member:
    """The feed `me` (MACHINE/ID) among those that have the store `keys` in common. Its lease lasts for so many `seconds`. `programmes`: those that it
    feeds, by their names, and `hashes` those of their settings. One thread at a time calls it; `now` is of a clock that never goes back;
    `clock` answers seconds from 1970."""

    def __init__(self, me: str, keys: LeaseKeys, seconds: int, programmes: Mapping[str, Programme], hashes: Mapping[str, str],
                 clock: Callable[[], float] = time.time) -> None:
        self.clock = clock
        self.me, self.keys, self.seconds, self.programmes, self.hashes = me, keys, seconds, programmes, hashes
        self.lease = 0
        self.alive_at = float("-inf")  # when the lease was known to last
        self.beat_at = self.handed_at = float("-inf")
        self.feeds: dict[str, Feed] = {}
        self.leads: dict[str, Lead] = {}
        self.free_at: dict[str, float] = {}  # since when nobody leads a programme, or when it is tried again
        self.said = ""  # what its own key says
        self.owners: dict[str, str] = {}  # who led each programme last
        self.moves: dict[str, deque[float]] = {}  # when each one's lead went to another feed

    # ---- its begin and its end

    def begin(self, now: float) -> int:
        """Takes a lease, and reads who is there. Answers the revision after which changes are to be seen. Raises OSError; Foreign if the keys aren't those of
        a feed of this version."""
        self.drop_all()
        self.look_at_format()
        self.lease, self.alive_at = self.keys.grant(self.seconds), now
        self.say(now)
        revision, pairs = self.keys.read(FEEDS, after_prefix(FEEDS))
        self.feeds = {it.key[len(FEEDS):]: found for it in pairs if (found := feed_of(it, now)) is not None}
        revision, pairs = self.keys.read(LEADS, after_prefix(LEADS))
        self.leads = {it.key[len(LEADS):]: Lead(it.value.decode("utf-8", "replace"), it.revision) for it in pairs}
        self.free_at = {name: now for name in self.programmes if name not in self.leads}
        return revision

    def look_at_format(self) -> None:
        """Raises Foreign if the keys are of another version, or of somebody else; says of which one they are if they say nothing. Raises OSError."""
        self.keys.change([Is(FORMAT_KEY, 0)], [Put(FORMAT_KEY, FORMAT)])
        found = self.keys.read(FORMAT_KEY)[1]
        if not found or found[0].value != FORMAT:
            said = found[0].value[:40].decode("utf-8", "replace") if found else "nothing"
            raise Foreign(f"{FORMAT_KEY} says {said!r}, and this feed's keys are of {FORMAT.decode()!r}")

    def end(self) -> None:
        """Its lease ends, and so do its leads: others needn't wait for that. Raises OSError."""
        lease, self.lease = self.lease, 0
        if lease:
            self.keys.revoke(lease)

    def drop_all(self) -> None:
        """It leads nothing any more."""
        for it in self.programmes.values():
            if it.token():
                it.follow()

    # ---- time

    def tick(self, now: float) -> None:
        """What time brings about: its lease is to last, leads are taken, and given to others. Raises OSError; then it is called again."""
        self.stay(now)
        self.say(now)
        for name, since in sorted(self.free_at.items(), key=lambda it: it[1]):
            if now >= since + AFTER * self.place(name):
                self.try_to_lead(name, now)
        self.settle()
        if now - self.handed_at >= BETWEEN:
            self.handed_at = now
            self.hand_over()

    def stay(self, now: float) -> None:
        """Its lease lasts anew, a few times before it would end. If it has ended, so have its leads, and it takes another one."""
        if now - self.alive_at < self.seconds / 4:
            return
        if self.lease and self.keys.keep_alive(self.lease):
            self.alive_at = now
            return
        self.drop_all()
        self.said = ""
        self.lease, self.alive_at = self.keys.grant(self.seconds), now

    def say(self, now: float) -> None:
        """Shows that it is there, each BEAT, and when what it says has changed."""
        ill = sorted(name for name, it in self.programmes.items() if not it.is_well())
        behind = sorted(name for name, it in self.programmes.items() if it.behind() >= LATE)
        said = json.dumps({"programmes": dict(self.hashes), "ill": ill, "behind": behind})
        if said != self.said or now - self.beat_at >= BEAT:
            self.keys.change([], [Put(FEEDS + self.me, f'{said[:-1]}, "clock": {self.clock():.3f}}}'.encode(), self.lease)])
            self.said, self.beat_at = said, now

    def leave(self, name: str) -> None:
        """This feed doesn't feed the programme `name` any more: another one may lead it at once. Raises OSError."""
        lead = self.leads.get(name)
        if lead is not None and lead.owner == self.me:
            self.keys.change([Is(lead_key(name), lead.revision)], [Delete(lead_key(name))])

    # ---- leading

    def candidates(self, name: str) -> list[str]:
        """The feeds that may lead the programme `name`, in the order in which they are to: those whose controllers answer come first."""
        there = [it for it, feed in self.feeds.items() if name in feed.programmes or it == self.me]
        found = ranked(name, {*there, self.me})
        return sorted(found, key=lambda it: name in self.feeds[it].ill if it in self.feeds else not self.programmes[name].is_well())

    def place(self, name: str) -> int:
        """How many feeds come before this one where the programme `name` is to be led."""
        return self.candidates(name).index(self.me)

    def try_to_lead(self, name: str, now: float) -> None:
        """Takes the lead of the programme `name`, if nobody has it."""
        self.free_at[name] = now + AGAIN
        found = self.keys.change([Is(lead_key(name), 0)], [Put(lead_key(name), self.me.encode(), self.lease)])
        if found.is_so:
            self.won(name, self.me, found)

    def won(self, name: str, owner: str, done: Done) -> None:
        """The feed `owner` has the lead of the programme `name`, by what was `done`."""
        self.leads[name] = Lead(owner, done.revision)
        self.free_at.pop(name, None)

    def settle(self) -> None:
        """Each programme leads if this feed has its lead, and no other one does."""
        for name, it in self.programmes.items():
            lead = self.leads.get(name)
            token = lead.revision if lead is not None and lead.owner == self.me else 0
            if token and it.token() != token:
                it.lead(token)
            elif not token and it.token():
                it.follow()

    def hand_over(self) -> None:
        """Gives one programme to the feed that is to lead it, if that has been there for a while. (If the answer is lost, the store says who leads.)"""
        for name, it in self.programmes.items():
            lead = self.leads.get(name)
            first = self.candidates(name)[0] if lead is not None and lead.owner == self.me else self.me
            if first == self.me or self.handed_at - self.feeds[first].since < SETTLED:
                continue
            with suppress(Refused):  # (its lease may just have ended)
                done = self.keys.change([Is(lead_key(name), it.token())], [Put(lead_key(name), first.encode(), self.feeds[first].lease)])
                if done.is_so:
                    self.won(name, first, done)
                    self.settle()
            return

    # ---- what is seen

    def see(self, changes: Iterable[Seen], now: float) -> None:
        """Takes in `changes` of the store, in their order."""
        for it in changes:
            key = it.pair.key
            if key.startswith(FEEDS):
                self.see_feed(key[len(FEEDS):], it, now)
            elif key.startswith(LEADS):
                self.see_lead(key[len(LEADS):], it, now)
            else:
                self.hand_on(it)
        self.settle()

    def hand_on(self, it: Seen) -> bool:
        """Hands a change on to the programme that it is of; whether it is of one. (Any thread may.)"""
        key = it.pair.key
        if key.startswith(LOGS):
            one = self.programmes.get(key[len(LOGS):].partition("/")[0])
            if one is not None and not it.is_gone:
                one.take(it.pair)
            return True
        if key.startswith(FILES):
            for one in [one for one in list(self.programmes.values()) if one.has(key[len(FILES):].partition("/")[0])]:
                one.take_file(it.pair, it.is_gone)
            return True
        return False

    def see_feed(self, feed: str, it: Seen, now: float) -> None:
        """A feed is there, or has gone."""
        found, known = None if it.is_gone else feed_of(it.pair, now), self.feeds.get(feed)
        if found is None:
            self.feeds.pop(feed, None)
            return
        found.since = known.since if known is not None and known.lease == found.lease else now
        self.feeds[feed] = found

    def most_moves(self, now: float) -> int:
        """How often the lead of one programme went to another feed within MOVES seconds: that of the one whose lead moved most."""
        return max((sum(now - at < MOVES for at in it) for it in self.moves.values()), default=0)

    def see_lead(self, name: str, it: Seen, now: float) -> None:
        """A programme has a leader, or has none. (What this feed did is seen again, perhaps after what it did since.)"""
        known = self.leads.get(name)
        if known is not None and known.revision > it.pair.revision:
            return
        if not it.is_gone:
            self.leads[name] = Lead(it.pair.value.decode("utf-8", "replace"), it.pair.revision)
            self.free_at.pop(name, None)
            if self.owners.setdefault(name, self.leads[name].owner) != self.leads[name].owner:
                self.owners[name] = self.leads[name].owner
                self.moves.setdefault(name, deque(maxlen=32)).append(now)
        else:
            self.leads.pop(name, None)
            if name in self.programmes:
                self.free_at.setdefault(name, now)
