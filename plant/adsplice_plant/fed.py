"""A channel of a programme that is fed: its files, its origin, its controller, and what is kept and told of it."""
from __future__ import annotations

from collections.abc import Callable
from contextlib import suppress
from dataclasses import dataclass
from threading import RLock

from .decided import BREAKS, FALLBACK
from .events import Answered, Event, Found, Note
from .folders import DecisionFolder, Fallback, Slate
from .journal import BEAT
from .journal import Event as Kept
from .origins import Choice
from .reading import Reading
from .sending import Sending
from .settings import Settings
from .shared_files import SharedFolder
from .shared_files import Store as FilesStore
from .state import FileState, State
from .telling import Noting, Telling
from .web import Client
from .whole_files import KEPT_MODE
from .words import now_text

BETWEEN = 1.0  # seconds between two signs that the feed goes on
OWN = 1.5  # seconds at most of a request to a controller of this machine's own
BEHIND = ".behind"  # the end of the name of the file that is there while viewers are to be given another machine's list of the channel
PATIENCE = 0.5  # seconds for which a channel may lack what its log has until that file is there


@dataclass(frozen=True)
class Limits:
    """Of a feed: the seconds of a request with its answer (`timeout`), the longest pause between two trials in seconds, and the days for which
    decision files that are over are kept."""

    timeout: float = 5.0
    longest_pause: float = 5.0
    keep_days: float = 7.0


@dataclass(frozen=True)
class Around:
    """What the channels of a programme have in common: its `limits`, the origin that they read (`choice`; none for a channel by itself), who tells
    its lines, the lock that is held while an event is taken (`together`), its `state`, who takes its events (`post`) and its controllers' answers
    (`answered`), and who shows that it goes on (`beat`)."""

    limits: Limits
    choice: Choice | None
    telling: Telling
    together: RLock
    state: Callable[[], State]
    post: Callable[[Event], None]
    answered: Callable[[Answered | Found], None]
    beat: Callable[[], None]


class Fed:
    """The channel that `settings` tell of; `around`: its programme."""

    def __init__(self, settings: Settings, around: Around) -> None:
        self.settings, self.around, self.name = settings, around, settings.name
        limits = around.limits
        self.together = around.together
        self.noting = Noting(settings, around.telling, self.opening)
        self.beat_at = settings.keep / f"{self.name}{BEAT}" if settings.keep else None
        self.beaten = float("-inf")  # when it was shown last that the feed goes on
        self.reading = Reading(settings, self.client, around.choice, limits.longest_pause, around.telling, self.noting, around.post, self.target)
        is_own = settings.store is not None  # (of one of several machines, which all wait for the one that leads)
        self.sending = Sending(settings, Client(min(limits.timeout, OWN) if is_own else limits.timeout), self.noting, around.answered, around.beat)
        self.folder = DecisionFolder(self.name, settings.decisions, limits.keep_days, self.tell) if settings.decisions else None
        self.fallback = Fallback(self.name, settings.fallback, self.tell) if settings.fallback else None
        self.slate = Slate(self.name, settings.slate, self.tell) if settings.slate else None
        self.shared: SharedFolder | None = None  # its decision folder as one of several machines
        self.behind_at = settings.keep / f"{self.name}{BEHIND}" if settings.keep else None
        self.lacks_since: float | None = None
        self.is_behind: bool | None = None  # whether that file is there; none if that isn't known

    def client(self) -> Client:
        """A client for its origin, with connections of its own."""
        return Client(self.around.limits.timeout, self.settings.redirects, self.settings.reach())

    def tell(self, who: str, status: int, fault: str, text: str) -> None:
        """Prints a line of `who`, unless it is in the same state as before."""
        self.around.telling.tell(self.name, who, status, fault, text)

    def begin(self) -> None:
        """Tells what is to be known of it at first."""
        for text in self.settings.idle:
            self.tell(f"settings/{text}", 0, "Idle", text)
        if (path := self.settings.fallback) is not None and not path.is_file():
            self.tell("fallback", 0, "", f"there is no file {path}; goes on without it until it is there")
        if (place := self.reading.place()) is not None:
            self.noting.note(Note(self.name, "place", place, ""))

    def target(self) -> int | None:
        """The target duration in seconds; none if it isn't known."""
        head = self.around.state().renditions[self.name].stands.repairer.head
        return head.target if head is not None else None

    def is_given(self, name: str) -> bool:
        """Whether adsplice has the decision file `name`, or is about to be given it."""
        found = self.around.state().files.get(name)
        return found is not None and found.state is FileState.GIVEN and self.name in found.stamps

    def look(self) -> list[Event]:
        """What has changed of its fallback and its decision files."""
        found = (self.fallback.look() if self.fallback else None, self.slate.look() if self.slate else None, self.folder.look() if self.folder else None)
        return [it for it in found if it is not None]

    def share(self, store: FilesStore) -> None:
        """Its decision files are those of all machines, which the `store` has."""
        if self.folder is not None:
            self.shared = SharedFolder(self.folder, store)

    def finish(self, name: str) -> None:
        """The decision file `name` is over."""
        if self.shared is not None:
            self.shared.finish(name)
        elif self.folder is not None:
            self.folder.finish(name)

    def forget(self) -> None:
        """All that is known of it is an event again; nobody waits for the answers to what was sent."""
        self.sending.forget()
        self.reading.again()
        for it in (self.folder if self.shared is None else self.shared, self.fallback, self.slate):
            if it is not None:
                it.forget()

    def beat(self, now: float) -> None:
        """Shows that the feed goes on, `now`: a file has the time of its last step as its own, once in a second at the most."""
        if self.beat_at is not None and now - self.beaten >= BETWEEN:
            self.beaten = now
            with suppress(OSError):  # (the monitor then tells that the feed hangs)
                self.beat_at.touch(KEPT_MODE)

    def show_lack(self, lacks: bool, now: float) -> None:
        """Shows whether its list is older than those of other machines: it has lacked what its log has for a while by `now`, if it `lacks` that, or its
        controller doesn't answer. nginx then reads another machine's list (docs/REPLICAS.md)."""
        self.lacks_since = (now if self.lacks_since is None else self.lacks_since) if lacks else None
        is_away = self.around.state().renditions[self.name].controller.trials > 0
        self.show_behind(self.lacks_since is not None and (is_away or now - self.lacks_since >= PATIENCE))

    def show_behind(self, is_behind: bool) -> None:
        """The file that shows that its list is older than others' is there if it `is_behind`."""
        if self.behind_at is None or is_behind == self.is_behind:
            return
        with suppress(OSError):  # (it is tried again; meanwhile nginx reads as before)
            if is_behind:
                self.behind_at.touch(KEPT_MODE)
            else:
                self.behind_at.unlink(missing_ok=True)
            self.is_behind = is_behind

    def opening(self) -> list[Kept]:
        """What a new file of kept events begins with: the channel, and the decisions that it holds."""
        state = self.around.state()
        found, place = [Kept(now_text(), "channel", 201, "", self.settings.body().decode())], self.reading.place()
        if place is not None:
            found.append(Kept(now_text(), "place", place, ""))
        if self.name in state.is_apart:
            found.append(Kept(now_text(), "apart", 1, ""))
        return found + [Kept(now_text(), "decisions", 204, "", it.decode("utf-8", "replace")) for it in held(state, self.name)]


def held(state: State, channel: str) -> list[bytes]:
    """The decisions that the controller of a `channel` holds, each once: the newest fallback, those on breaks, and those that breaks began with."""
    pods = state.renditions[channel].stands.pods
    fallbacks = [it.bodies[channel] for it in state.decisions if it.kind == FALLBACK and channel in it.bodies]
    breaks = [it.bodies[channel] for it in state.decisions if it.kind == BREAKS and channel in it.bodies and any(name in pods.held for name in it.ids)]
    return list(dict.fromkeys([*(fallbacks[-1:] if pods.fallback is not None else ()), *breaks, *pods.again()]))
