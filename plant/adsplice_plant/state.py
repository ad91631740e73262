"""Where a programme stands: all that its feed knows, as a value. The feed writes it to the log before it gives anything of it.

A programme's log is a list of entries. An entry has what every controller of the programme is given (a decision, or each rendition's
list), and the state is what stands after the newest one. So whoever has the state can go on: a feed that is started anew, and a
controller that has nothing.
"""
from __future__ import annotations

from collections.abc import Mapping
from dataclasses import dataclass, field, replace
from enum import Enum
from typing import NamedTuple

from . import urls
from .events import Request, Stamp
from .location import Url
from .numbers import Viewed
from .packaged import Shift
from .pods import Pods
from .repair import Choices, Repairer
from .settings import Settings
from .siblings import Reach
from .translator import Translator


class Way(Enum):
    """How far a controller is on the way to what the programme's log has."""

    UNKNOWN = "unknown"  # whether it has the channel isn't known
    OTHER = "other"  # it has the channel with a list that isn't known, or not that of the log: it is to be deleted
    MADE = "made"  # it has the channel; whether that has a list isn't known
    THERE = "there"  # it has the channel, and what it acknowledged


@dataclass(frozen=True)
class Controller:
    """What the controller of a rendition has. `decided` and `listed`: the numbers of the newest entries of which it acknowledged the decision and
    the list; `took`: the media number of that list's newest segment, -1 if it has no list; `reached`: that of the channel that it had
    before this one. Its media and discontinuity numbers are ahead of
    the log's by `ahead`. `first`: what a channel without a list is given before its first one, so that breaks begin as they did for viewers.
    `anew`: the number of the newest entry when it was made; of the decisions up to there it is given those that still say something.
    `led`: the number of the newest entry of which it has what comes ahead of the list. `sent`: the request that it hasn't answered; `trials`:
    how often it didn't, in a row; `retry_at`: when it is tried again; `unfit`: how many lists in a row it refused since they don't go on after the
    last one; `is_unseen`: whether its written playlist is to be looked at. Of a log that several machines have: the number of the newest entry whose list it
    `refused`, and when it was deleted last since it wasn't as the log says (`dropped_at`)."""

    way: Way = Way.UNKNOWN
    decided: int = 0
    listed: int = 0
    took: int = -1
    reached: int = -1
    ahead: tuple[int, int] = (0, 0)
    first: tuple[bytes, ...] = ()
    anew: int = 0
    led: int = 0
    sent: Request | None = None
    trials: int = 0
    retry_at: float = 0.0
    unfit: int = 0
    is_unseen: bool = False
    refused: int = 0
    dropped_at: float = float("-inf")


@dataclass(frozen=True)
class Standing:
    """Where the lists of a rendition stand after the entry `entry`: the `repairer` with what it accepted, what viewers have (`viewed`), the
    `text` of the list, what comes `ahead` of it, and what its breaks began with (`pods`). Nothing in it is changed: the next one has copies."""

    repairer: Repairer
    viewed: Viewed = field(default_factory=Viewed)
    entry: int = 0
    text: bytes = b""
    ahead: bytes = b""
    pods: Pods = field(default_factory=Pods)
    repairs: Mapping[str, int] = field(default_factory=dict)  # how many lists had each kind of repair
    after: int = 0


@dataclass(frozen=True)
class Rendition:
    """A rendition, whose channel the `settings` tell of: where its lists stand (`stands`), and where they stood `before` its newest one was
    given, until that is answered. `came`: the newest list that was read; how far that goes in a ladder (`reach`), and the moment at which a list came
    so far first (`came_at`), when it was read (`read_at`), and when the one was read that was given last with new segments (`given_at`), and the moment since then at which another rendition's came farther first
    (`behind_since`); `older`: those before it that it doesn't go on from; `is_new`: whether one of them is still to be taken in. `seen_at`: when the written playlist was looked at last."""

    settings: Settings
    stands: Standing
    before: Standing | None = None
    came: bytes | None = None
    older: tuple[bytes, ...] = ()
    reach: Reach | None = None
    came_at: float = float("-inf")
    read_at: float = float("-inf")
    given_at: float = float("-inf")
    behind_since: float = float("-inf")
    is_new: bool = False
    controller: Controller = Controller()
    fallback: bytes | None = None  # the fallback file's bytes
    slate: bytes | None = None  # the slate file's bytes, which fill pods up
    listed: frozenset[str] | None = None  # the IDs of the date ranges of its newest list
    seen_at: float = float("-inf")
    is_blocked: bool = False  # whether its newest list has other initialisation sections than the channel: only a new channel takes it
    is_other: bool = False  # whether the next list is another origin's


class FileState(Enum):
    """What became of a decision file."""

    NEW = "new"  # it waits
    GIVEN = "given"
    REFUSED = "refused"  # it stays so until it is written anew
    DONE = "done"  # it is over, and its file is to be moved away


@dataclass(frozen=True)
class File:
    """The decision that the renditions have in files of one name: each channel's stamp and bytes, its `kind` (breaks, withdraw, fallback; empty
    if it doesn't say) and the IDs of its breaks. `listed` are those of them that were seen in a list, and `late` those that had begun when they
    were decided. `since`: when the first rendition had it; `entry`: of the log, by which it was given. `looked_at`: when a look at its ads was begun, if
    one was; `is_there`: whether they are there by that; `was_there`: whether they were by an earlier one."""

    stamps: Mapping[str, Stamp]
    bodies: Mapping[str, bytes]
    kind: str
    ids: tuple[str, ...]
    state: FileState = FileState.NEW
    listed: frozenset[str] = frozenset()
    late: frozenset[str] = frozenset()
    since: float = 0.0
    entry: int = 0
    looked_at: float | None = None
    is_there: bool = False
    was_there: bool = False


class Telling(NamedTuple):
    """What is told once all controllers took a decision: `who` it is of, a `fault`'s name or another word, and a `text`. `is_again`: as in Tell."""

    who: str
    fault: str
    text: str
    is_again: bool = False


@dataclass(frozen=True)
class Decided:
    """A decision of the log: entry `entry` gave each channel its one of the `bodies`, of the file `file`, if it is of one. `is_own`: nobody asked
    for it. `tells`: what is told then."""

    entry: int
    bodies: Mapping[str, bytes]
    kind: str
    ids: tuple[str, ...]
    file: str = ""
    is_own: bool = False
    tells: Telling | None = None


@dataclass(frozen=True)
class Removed:
    """A decision file that was removed after it was given: the breaks `ids` that are withdrawn, those that have `begun` and keep their pods, the
    `bodies` of the channels, and the text that says `where` it was removed. `is_given`: the log has the withdrawals."""

    ids: tuple[str, ...]
    begun: tuple[str, ...]
    bodies: Mapping[str, bytes]
    where: str
    is_given: bool = False


@dataclass(frozen=True)
class State:
    """A programme of the `renditions`, by their channels' names, after `entry` entries of its log. `translator`: what is known of its signals;
    `decisions`: those that a controller without the channel is given, in their order; `files`: of the folders, by their names; `asked`: until
    when lists wait for the decision of a break that was asked for, by its ID; `over`: decided breaks that left the lists, the oldest first;
    `fallback`: the fallback files' bytes that were given last; `shifts`: how much later viewers have instants than the programme, the newest last. Lists wait until the moment `waits_until` for decisions that were asked for.
    Of those that brought nothing new time alone makes nothing before the moment `rests_until`."""

    name: str
    renditions: Mapping[str, Rendition]
    translator: Translator
    entry: int = 0
    decisions: tuple[Decided, ...] = ()
    files: Mapping[str, File] = field(default_factory=dict)
    asked: Mapping[str, float] = field(default_factory=dict)
    over: tuple[str, ...] = ()
    fallback: Mapping[str, bytes] = field(default_factory=dict)
    waits_until: float = 0.0
    rests_until: float = 0.0
    shifts: tuple[Shift, ...] = (Shift(),)
    removed: Mapping[str, Removed] = field(default_factory=dict)  # files whose withdrawals aren't all answered, by their names
    longest_pause: float = 5.0  # seconds until a controller that doesn't answer is tried again
    in_step_since: float | None = None  # since when the first lists wait for one another
    equal_after: int = -1  # the media number up to which discontinuities were added so that the renditions' numbers are equal
    is_apart: frozenset[str] = frozenset()  # the channels whose numbers aren't those of the others
    life: str = ""  # of a log that several machines have: another one is another log. Empty for a log of one machine
    is_behind: bool = False  # whether that log has more: a channel without a list waits for it

    def shift(self) -> int:
        """How much later viewers have what is to come."""
        return self.shifts[-1].by


def query_of(settings: Settings) -> str:
    """The query of the URL of the channel's list; empty if it has none, or is a file."""
    parts = urls.parts_of(settings.origin.text) if isinstance(settings.origin, Url) else None
    return parts.query if parts is not None else ""


def begin(settings: list[Settings], tolerance: int, longest_pause: float = 5.0) -> State:
    """The state of a programme of the channels that `settings` tell of, of which nothing is known. `tolerance`: theirs, in nanoseconds;
    `longest_pause`: the seconds after which a controller that doesn't answer is tried again at the latest."""
    first = settings[0]
    choices = {it.name: Choices(it.target, it.endless, it.times, query_of(it)) for it in settings}
    renditions = {it.name: Rendition(it, Standing(Repairer(choices[it.name]))) for it in settings}
    return State(first.programme or first.name, renditions, Translator(first.types, first.nearest, tolerance), longest_pause=longest_pause)


def with_renditions(known: State, fresh: State) -> State:
    """The state `known` with the renditions and settings of the `fresh` one: those that it has go on, and of others nothing is known."""
    renditions = {name: replace(known.renditions[name], settings=it.settings) if name in known.renditions else it for name, it in fresh.renditions.items()}
    return replace(known, renditions=renditions, longest_pause=fresh.longest_pause, is_apart=known.is_apart & renditions.keys())
