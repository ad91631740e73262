"""What happens to a programme (events), and what its feed is to do about it (actions): values, without a clock, a file or a socket.

A channel alone is a programme of one rendition. Actions are done in their order, and the feed may end between any two of them. What an
action brings about comes back as an event.
"""
from __future__ import annotations

from collections.abc import Mapping
from enum import Enum
from typing import TYPE_CHECKING, NamedTuple

from .breaks import Break
from .packaged import PackagedList
from .reckoning import Sums

if TYPE_CHECKING:
    from .presence import Named
    from .state import State

Stamp = tuple[int, int, int]  # of a file: when it was written (in nanoseconds), its size, and its inode


class What(Enum):
    """What a controller is asked: its method, and the end of its path."""

    MAKE = "make", "PUT", ""
    LOOK = "look", "GET", "live.m3u8"  # whether the channel has a list
    DECIDE = "decide", "PUT", "decisions"
    PUSH = "push", "PUT", "origin"
    CHECK = "check", "GET", "live.m3u8"  # whether the written playlist has the numbers that were reckoned

    FIND = "find", "PUT", "origin"  # the numbers by which a list goes on
    DROP = "drop", "DELETE", ""  # the channel is to be made anew

    def __init__(self, _: str, method: str, path: str) -> None:
        self.method, self.path = method, path


class Request(NamedTuple):
    """A request to the controller of a channel: `what` with a `body`. `entry`: the number of the log's entry that it is of. `is_own`: it withdraws
    a break of the feed's own accord, of which a refusal is no fault, `why`, if there is more to say."""

    what: What
    body: bytes = b""
    entry: int = 0
    is_ahead: bool = False  # of a list that comes ahead of the entry's own
    is_own: bool = False
    why: str = ""


# ---- events

class ListRead(NamedTuple):
    """The list of a `channel` was read at its origin: its text is the `body`. `at`: the moment of that, by the clock that never goes back; none if it was now."""

    channel: str
    body: bytes
    at: float | None = None


class OriginChanged(NamedTuple):
    """Another origin of a `channel` is read from now on: its list is taken at once, though it may not go on."""

    channel: str


class FolderRead(NamedTuple):
    """The decision files of a `channel` are `files`, by their names: each with its stamp and its bytes."""

    channel: str
    files: Mapping[str, tuple[Stamp, bytes]]


class FallbackRead(NamedTuple):
    """The fallback file of a `channel` has the bytes `body`; none if there is no such file, or it isn't one."""

    channel: str
    body: bytes | None


class SlateRead(NamedTuple):
    """The slate's file of a `channel` has the bytes `body`; none if there is no such file, or it isn't one."""

    channel: str
    body: bytes | None


class Answered(NamedTuple):
    """The controller of a `channel` answered a `request` by a `status` and a first `line`; 0 if it didn't, since `why`. `body`: of the answer to
    CHECK."""

    channel: str
    request: Request
    status: int
    line: str = ""
    why: str = ""
    body: bytes = b""


class Found(NamedTuple):
    """The numbers were found by which the newest list of a `channel` goes on after what its controller has: `found` has them, and was taken; none if
    they weren't found."""

    channel: str
    found: PackagedList | None


class AskedInVain(NamedTuple):
    """No decision of the break `id` comes any more: its question was answered without one, or given up."""

    id: str


class Looked(NamedTuple):
    """The ads of the decision file `name`, which had these `stamps`, were looked at: those URIs that are `absent` aren't there, each as its ad, the URI
    and why. `was_there`: the look goes on, and all of them were there when they were looked at earlier."""

    name: str
    stamps: Mapping[str, Stamp]
    absent: tuple[tuple[str, str, str], ...] = ()
    was_there: bool = False


class Ticked(NamedTuple):
    """Time has passed."""


class Began(NamedTuple):
    """The feed has begun, with the state that an earlier one left: requests that it had sent aren't answered any more. The decision files of the
    channels are those of the `folders`, as in FolderRead, and their fallback files have the bytes `fallbacks`; others aren't known yet."""

    folders: Mapping[str, Mapping[str, tuple[Stamp, bytes]]] = {}
    fallbacks: Mapping[str, bytes | None] = {}


class Given(NamedTuple):
    """The feed that leads the programme has given what is new in the `state`, by the log that several machines have. `is_behind`: it has given more since."""

    state: State
    is_behind: bool = False


Event = ListRead | OriginChanged | FolderRead | FallbackRead | SlateRead | Answered | Found | AskedInVain | Looked | Ticked | Began | Given


# ---- actions

class Store(NamedTuple):
    """The `state` is to be kept, before anything that comes after it is done."""

    state: State


class Send(NamedTuple):
    """The controller of a `channel` is to be sent a `request`; its answer is an event."""

    channel: str
    request: Request


class Ask(NamedTuple):
    """The decisions of the breaks `known` are to be asked for, once each. `target`: the target duration in seconds; `end`: the instant at
    which the newest list ends; `pieces`: how long the segments of each channel are as a rule, in nanoseconds, by the channels' names; `bare`: the
    channels whose segments have no initialisation section; `sums`: those of each channel's breaks that are over, where that is known;
    `cuts`: of each break, by its ID, how many nanoseconds after its start each channel is cut, where that is known."""

    known: tuple[Break, ...]
    target: int
    end: int
    pieces: Mapping[str, int] = {}
    bare: frozenset[str] = frozenset()
    sums: Mapping[str, Sums] = {}
    cuts: Mapping[str, Mapping[str, int]] = {}


class Look(NamedTuple):
    """It is to be looked whether what the decision file `name` of these `stamps` has `named` is there: each a URI and its ad. The answer is an event."""

    name: str
    stamps: Mapping[str, Stamp]
    named: tuple[Named, ...]


class Find(NamedTuple):
    """It isn't known which numbers the controller of a `channel` has: those are to be found by which the list `found` goes on (finding)."""

    channel: str
    found: PackagedList


class Finish(NamedTuple):
    """The decision file `name` of a `channel` is over."""

    channel: str
    name: str


class Tell(NamedTuple):
    """A line for people: of a `channel`, or of the programme if that is empty; `who` it is of, a `status` (0 if there is none), a `fault`'s
    name or another word, and a `text`. What is as it was told last isn't told again: `is_again` has it told the next time; `is_quiet`: it isn't
    told once more within a minute."""

    channel: str
    who: str
    status: int
    fault: str
    text: str
    is_again: bool = False
    is_quiet: bool = False


class Repaired(NamedTuple):
    """The list of a `channel` had a repair of a `kind`, with a `detail`: each is told once."""

    channel: str
    kind: str
    detail: str


class Note(NamedTuple):
    """An event for the monitor and the explainer: `what`, with a `status`, a `line` and a `body` (journal)."""

    channel: str
    what: str
    status: int
    line: str
    body: bytes = b""


Action = Store | Send | Ask | Look | Find | Finish | Tell | Repaired | Note
