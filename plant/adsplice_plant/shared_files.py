"""Decision files of several machines, as their store has them: each machine's folder is a way in, and the feed that leads takes all of them."""
from __future__ import annotations

import json
from dataclasses import dataclass
from typing import Protocol

from .etcd import Pair
from .events import FolderRead, Stamp
from .folders import DecisionFolder, Files
from .shared_log import ROOT, Foreign, packed, unpacked

MOST, ROOM = 1024, 32 << 20  # decision files of a channel in the store, and their bytes
FILES, OVER, ASKED = f"{ROOT}files/", f"{ROOT}over/", f"{ROOT}asked/"


def files_prefix(channel: str) -> str:
    """How the keys of the decision files of the `channel` begin."""
    return f"{FILES}{channel}/"


def file_key(channel: str, name: str) -> str:
    """The key of the decision file `name` of the `channel`."""
    return files_prefix(channel) + name


def over_key(channel: str, name: str) -> str:
    """The key that says that the decision file `name` of the `channel` is over."""
    return f"{OVER}{channel}/{name}"


def asked_key(programme: str, id_: str, start: int) -> str:
    """The key that says that the break `id_` of the `programme` was asked for, which begins at the instant `start`. (An ID may have any letters, and come
    again.)"""
    return f"{ASKED}{programme}/{start}/{id_}"


def name_of(key: str) -> str:
    """The name of the decision file that has the `key`."""
    return key.rpartition("/")[2]


@dataclass(frozen=True)
class Shared:
    """A decision file of a `machine`, with its `stamp` there and its `body`."""

    machine: str
    stamp: Stamp
    body: bytes

    def head(self) -> bytes:
        """Whose it is, as a line without an end."""
        return json.dumps([self.machine, *self.stamp]).encode()

    def value(self) -> bytes:
        """It as a value; raises OSError if it is too large."""
        return packed(b"{" + self.head() + b"\n" + self.body)


def shared_of(pair: Pair) -> Shared:
    """The decision file that a `pair` has; raises Foreign if it has none."""
    head, _, body = unpacked(pair.value)[1:].partition(b"\n")
    try:
        machine, at, size, inode = json.loads(head)
        return Shared(str(machine), (int(at), int(size), int(inode)), body)
    except (ValueError, TypeError, RecursionError):
        raise Foreign(f"{pair.key} is no decision file of a feed of this version") from None


class Store(Protocol):
    """The decision files of all machines (replica.Replica)."""

    machine: str
    files: dict[str, dict[str, Shared]]

    def put_file(self, channel: str, name: str, it: Shared) -> None:
        """The `channel` has the decision file `name`, on all machines."""

    def remove_file(self, channel: str, name: str) -> None:
        """This machine's decision file `name` of the `channel` was removed."""

    def is_over(self, channel: str, name: str, it: Shared) -> bool:
        """Whether the decision file `name` of the `channel` is over."""

    def finish_file(self, channel: str, name: str) -> None:
        """The decision file `name` of the `channel` is over."""


class SharedFolder:
    """The decision folder of a channel (`own`) on this machine, as one of several: what it has is put into the `store`."""

    def __init__(self, own: DecisionFolder, store: Store) -> None:
        self.own, self.store, self.channel = own, store, own.channel
        self.files: Files = {}  # that this machine's folder has
        self.put: dict[str, Stamp] = {}  # those that are in the store, or were
        self.gone: set[str] = set()  # those that were, and aren't over
        self.to_finish: set[str] = set()  # those of any machine that are over, and are still in the store

    def forget(self) -> None:
        """What the store has is read anew: it may have been put back to what it had earlier."""
        self.put.clear()
        self.gone.clear()

    def finish(self, name: str) -> None:
        """The file `name`, of whichever machine, is over: the next look takes it out of the store."""
        self.to_finish.add(name)

    def look(self) -> None:
        """Puts what is new in this machine's folder into the store, and takes out what was removed. What is over is moved away. Raises OSError; then the
        next look does what is left."""
        found = self.own.look()
        if found is not None:
            self.files = dict(found.files)
        for name in list(self.to_finish):
            self.store.finish_file(self.channel, name)
            self.to_finish.discard(name)
        its = [name for name, it in self.store.files[self.channel].items() if it.machine == self.store.machine] if self.own.is_told else []
        for name in its:
            if name not in self.files:
                self.store.remove_file(self.channel, name)
        self.put = {name: it for name, it in self.put.items() if name in self.files}
        for name, (stamp, body) in list(self.files.items()):
            self.put_in(name, Shared(self.store.machine, stamp, body))

    def put_in(self, name: str, it: Shared) -> None:
        """The file `name` of this machine is `it`: puts it into the store, unless it is or was there, or is over. Raises OSError."""
        known = self.store.files[self.channel].get(name)
        if known is not None and known.head() == it.head():
            self.put[name] = it.stamp
            self.gone.discard(name)
        elif self.put.get(name) != it.stamp:
            self.gone.discard(name)
            if self.store.is_over(self.channel, name, it):
                self.move_away(name)
            elif why := self.too_much(name, it):
                self.own.say(f"decisions/{name}", 0, "Passed", f"it {why}; passes over it")
                self.put[name] = it.stamp
            else:
                self.store.put_file(self.channel, name, it)
                self.put[name] = it.stamp
        elif known is None and name not in self.gone:
            self.gone.add(name)
            if self.store.is_over(self.channel, name, it):
                self.move_away(name)

    def too_much(self, name: str, it: Shared) -> str:
        """Why the file `name` is more than the store is to have; empty if it isn't."""
        others = [one for key, one in self.store.files[self.channel].items() if key != name]
        try:
            size = len(it.value())
        except OSError:
            return "is larger than the store takes"
        if len(others) >= MOST or sum(len(one.body) for one in others) + size > ROOM:
            return f"is beyond the {MOST} files or the {ROOM} bytes that the store has of a channel"
        return ""

    def move_away(self, name: str) -> None:
        """The file `name` is over."""
        self.own.finish(name)
        self.files.pop(name, None)
        self.put.pop(name, None)
        self.gone.discard(name)

    def read(self) -> FolderRead:
        """What all machines have of the channel."""
        files = self.store.files[self.channel]
        return FolderRead(self.channel, {name: (it.stamp, it.body) for name, it in sorted(files.items(), key=lambda one: (one[1].stamp[0], one[0]))})
