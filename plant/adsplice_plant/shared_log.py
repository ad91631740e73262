"""A programme's log in a store of several machines: what is given is written there before any controller gets something of it.

Each line has a key of its own, whose number rises by one. The first line is a whole state, and each one after it has what changed, as in a file
(store). The feed that leads the programme writes a line if the programme's lead is still the one that it won, the line before is there, and no
line has the number yet: in one transaction. So of two feeds that believe they lead, one alone writes.
"""
from __future__ import annotations

import json
import zlib
from collections.abc import Iterator
from dataclasses import replace
from typing import Protocol

from . import store
from .earlier import FAULTS, why_of
from .entries import Known, after, difference, known_of, state_of
from .etcd import Away, Change, Delete, Done, Is, Pair, Put, Refused, after_prefix
from .packing import Said
from .state import Controller, State

ROOT = "/adsplice/"
MOST_LINES = 64  # after a whole state, after which the next line is one
MOST_SINCE = 1 << 20  # bytes of them
KEPT_LINES = 64  # that stay at least for a machine that was away
MOST_VALUE = 1_400_000  # bytes of a line: etcd takes requests of 1.5 MB
MOST_TEXT = 64 << 20  # bytes of a line as text
PLAIN = 400  # bytes up to which a line isn't packed


class Outrun(Exception):
    """The store has something else than the feed knows: it drops what it knows, and reads the store."""


class Foreign(OSError):
    """A key has something that isn't of a feed of this version."""


class Keys(Protocol):
    """A store of keys (etcd)."""

    def read(self, key: str, end: str = "") -> tuple[int, list[Pair]]:
        """The revision of the store, and the pairs of the `key`, or of all from it on up to before `end`. Raises Away or Refused."""

    def change(self, compared_with: list[Is], changes: list[Change]) -> Done:
        """Makes the `changes` if all that is `compared_with` is so. Raises Away (it may have been made) or Refused."""


def lead_key(name: str) -> str:
    """The key that says who leads the programme `name`."""
    return f"{ROOT}lead/{name}"


def log_prefix(name: str) -> str:
    """How the keys of the log of the programme `name` begin."""
    return f"{ROOT}log/{name}/"


def line_key(name: str, number: int) -> str:
    """The key of a line of the log of the programme `name`."""
    return f"{log_prefix(name)}{number:016x}"


def number_of(key: str) -> int:
    """The number of the line that has the `key`; raises Foreign if it is none."""
    text = key.rpartition("/")[2]
    if len(text) != 16 or any(it not in "0123456789abcdef" for it in text):
        raise Foreign(f"the key {key} is none of a log")
    return int(text, 16)


# ---- lines

def packed(line: bytes) -> bytes:
    """The `line` as a value; raises Refused if it is too large for the store."""
    body = line if len(line) <= PLAIN else zlib.compress(line, 1)
    if len(body) > MOST_VALUE:
        raise Refused(f"what is to be kept has {len(body)} bytes, and the store takes {MOST_VALUE}")
    return body


def unpacked(value: bytes) -> bytes:
    """The line of a `value`; raises Foreign if it is none."""
    if value[:1] == b"{":
        return value
    one = zlib.decompressobj()
    try:
        body = one.decompress(value, MOST_TEXT)
    except zlib.error as fault:
        raise Foreign(f"it isn't a line of a log ({fault})") from None
    if not one.eof or one.unconsumed_tail:
        raise Foreign(f"it is cut off, or over {MOST_TEXT} bytes")
    return body


def is_whole(line: bytes) -> bool:
    """Whether the `line` is a whole state."""
    return line.startswith(b'{"format":')


def bare(state: State) -> State:
    """The `state` without what a machine's own controllers acknowledged."""
    return replace(state, renditions={name: replace(it, controller=Controller()) for name, it in state.renditions.items()})


# ---- the log

class SharedLog:
    """The log of the programme `name` in the store `keys`. `fresh`: its state while nothing is known but today's settings."""

    def __init__(self, keys: Keys, name: str, fresh: State) -> None:
        self.keys, self.name, self.fresh = keys, name, fresh
        self.token = 0  # the revision at which the lead was won that is to be the one
        self.number = 0  # of the newest line
        self.known: Known | None = None  # the state after it; none if the next line is to be a whole one
        self.lines = self.since = 0  # lines after the newest whole one, and their bytes
        self.wholes: list[int] = []  # the numbers of lines that are whole states
        self.unsure = b""  # what was to be written, of which it isn't known whether it was

    # ---- reading

    def load(self, life: str = "", since: int | None = None) -> tuple[State | None, list[Pair]]:
        """A state of the log, and the lines after it: the newest one, and none. If controllers have what the log of a `life` gave them up to the entry
        `since`, it is the first state after that, if the log still has it. No state if there is no log. Raises Away, Refused or Foreign."""
        self.known, self.number, self.unsure = None, 0, b""
        prefix = log_prefix(self.name)
        pairs = self.keys.read(prefix, after_prefix(prefix))[1]
        self.wholes = [number_of(it.key) for it in pairs if is_whole(unpacked(it.value))]
        if pairs and not self.wholes:
            raise Foreign(f"{pairs[0].key} and the keys after it have no whole state")
        if since is not None:
            for place, it in enumerate(pairs, 1):
                self.take_first(it)
                if self.known is not None and self.known.state.entry > since and place > 1:
                    break
            if self.known is not None and self.known.state.life == life and self.is_next(since):
                return state_of(self.known), [it for it in pairs if number_of(it.key) > self.number]
        self.known, self.number = None, 0
        for it in pairs:
            if self.wholes and number_of(it.key) >= self.wholes[-1]:
                self.take_first(it)
        return (self.state() if pairs else None), []

    def is_next(self, since: int) -> bool:
        """Whether the state that is known is the first one for controllers which have the entry `since`: it has no list after another one that they lack."""
        assert self.known is not None
        return all(it.stands.after <= since or it.stands.entry <= since for it in self.known.state.renditions.values())

    def take_first(self, pair: Pair) -> None:
        """Takes in a line that was read; raises Foreign if it isn't the next one."""
        try:
            self.take(pair)
        except Outrun as fault:
            raise Foreign(str(fault)) from None

    def take(self, pair: Pair) -> bool:
        """Takes in the next line. Whether it is one: a line that is taken in already is none. Raises Outrun if lines before it are missing, and Foreign if
        it doesn't read."""
        if self.has(pair):
            return False
        number = number_of(pair.key)
        line = unpacked(pair.value)
        try:
            if is_whole(line):
                self.known, why = store.read(line if line.endswith(b"\n") else line + b"\n", self.fresh)
                if why:
                    raise ValueError(why)
                self.lines = self.since = 0
                self.wholes = [*(it for it in self.wholes if it != number), number][-MOST_LINES:]
            elif self.known is None or number != self.number + 1:
                raise Outrun(f"the lines before {pair.key} are missing")
            else:
                self.known = self.next_known(self.known, line)
        except FAULTS as fault:
            raise Foreign(f"{pair.key}: {why_of(fault)}") from None
        self.number = number
        return True

    def has(self, pair: Pair) -> bool:
        """Whether a line is taken in; raises Foreign if it is none."""
        return number_of(pair.key) <= self.number

    def next_known(self, known: Known, line: bytes) -> Known:
        """The state after the one that is `known`, by its next `line`; raises one of FAULTS if that isn't it."""
        said = json.loads(line)
        if said["line"] != self.lines + 1:
            raise ValueError(f"it says that it is line {said['line']}, after {self.lines}")
        self.lines, self.since = self.lines + 1, self.since + len(line)
        return after(known, said)

    def state(self) -> State:
        """The state after the newest line that was taken in."""
        assert self.known is not None
        return state_of(self.known)

    # ---- writing

    def lead(self, token: int) -> None:
        """The lead was won at the revision `token`: the next line is a whole one."""
        self.token, self.known = token, None

    def write(self, state: State) -> None:
        """The `state`, but for what this machine's controllers acknowledged, is in the store once this returns. Raises Outrun if another feed leads, or if
        an earlier state that wasn't known to be written was; Away or Refused if it can't be written."""
        if self.unsure:
            self.resolve()
        before, known = self.known, known_of(bare(state), self.known)
        is_new = before is None or self.lines >= MOST_LINES or self.since >= MOST_SINCE or before.state.renditions.keys() != state.renditions.keys()
        if is_new or before is None:
            self.put(packed(store.whole(known)), is_first=True)
            self.lines = self.since = 0
        else:
            said = difference(before, known)
            if is_nothing(said, before):
                return
            body = packed(store.line_of({"line": self.lines + 1, **said}))
            self.put(body)
            self.lines, self.since = self.lines + 1, self.since + len(body)
        self.known = known

    def put(self, value: bytes, is_first: bool = False) -> None:
        """Writes the next line; if it `is_first`, a whole state, lines go that nobody needs who was away for a while. If the answer is lost, the store is read: what is to be written is there, or isn't."""
        key, lead = line_key(self.name, self.number + 1), lead_key(self.name)
        compared_with = [Is(lead, self.token), Is(key, 0), *([Is(line_key(self.name, self.number))] if self.number else [])]
        first = max((it for it in self.wholes if it <= self.number - KEPT_LINES), default=0) if is_first else 0
        changes: list[Change] = [Put(key, value), *([Delete(log_prefix(self.name), line_key(self.name, first))] if first else [])]
        self.unsure = value
        try:
            is_done = self.keys.change(compared_with, changes).is_so or self.is_there(key, value)
        except Away:
            is_done = self.is_there(key, value)
            if not is_done:
                raise
        except Refused:
            self.unsure = b""
            raise
        self.unsure = b""
        if not is_done:
            raise Outrun("another feed leads it, or the store has another line")
        self.number += 1
        if is_first:
            self.wholes = [*(it for it in self.wholes if it >= first), self.number]

    def is_there(self, key: str, value: bytes) -> bool:
        """Whether the `key` has the `value`. Raises Away or Refused."""
        return any(it.value == value for it in self.keys.read(key)[1])

    def resolve(self) -> None:
        """What was to be written last has been given up. If it was written all the same, raises Outrun: the store has more than the feed knows."""
        if self.keys.read(line_key(self.name, self.number + 1))[1]:
            raise Outrun("what wasn't known to be written is written")


def is_nothing(said: Said, before: Known) -> bool:
    """Whether what was `said` changes nothing of the state `before`."""
    return said == {"n": before.state.entry}


def programmes_in(pairs: list[Pair]) -> Iterator[tuple[str, str]]:
    """The programmes that are led by the `pairs`, each with who leads it."""
    prefix = lead_key("")
    return ((it.key[len(prefix):], it.value.decode("utf-8", "replace")) for it in pairs if it.key.startswith(prefix))
