"""What a step has of a programme's state so far, and what is to be done about it."""
from __future__ import annotations

from collections.abc import Iterable
from typing import Any

from .events import Action, Note, Send, Store, Tell
from .numbers import first_needed
from .packaged import PackagedSegment
from .settings import OTHERS
from .state import Controller, Rendition, Standing, State
from .values import changed

TARGET = 1  # seconds of a target duration that isn't known
MOST = 10.0  # seconds between two trials, whatever the target duration is


class Turn:
    """A step at the moment `at`, by the time of day `clock`: the `state` so far, and the `actions` in their order. `is_kept`: what was changed
    of the state is no more than what a later feed needn't know."""

    def __init__(self, state: State, at: float, clock: int) -> None:
        self.state, self.at, self.clock = state, at, clock
        self.actions: list[Action] = []
        self.is_kept = True

    # ---- the state

    def set(self, **members: Any) -> None:
        """The state has these `members` from now on."""
        self.state = changed(self.state, **members)

    def put(self, channel: str, **members: Any) -> Rendition:
        """The rendition of the `channel` has these `members` from now on; answers it."""
        found = changed(self.state.renditions[channel], **members)
        self.set(renditions={**self.state.renditions, channel: found})
        return found

    def put_standing(self, channel: str, **members: Any) -> Standing:
        """The lists of the `channel` stand with these `members` from now on; answers how."""
        return self.put(channel, stands=changed(self.state.renditions[channel].stands, **members)).stands

    def put_controller(self, channel: str, **members: Any) -> Controller:
        """The controller of the `channel` has these `members` from now on; answers it."""
        return self.put(channel, controller=changed(self.state.renditions[channel].controller, **members)).controller

    def renditions(self) -> list[tuple[str, Rendition]]:
        """The renditions with their channels' names."""
        return list(self.state.renditions.items())

    def is_ladder(self) -> bool:
        """Whether the programme has renditions, and isn't a channel by itself."""
        return bool(next(iter(self.state.renditions.values())).settings.programme)

    def fills_others(self) -> bool:
        """Whether a break that a rendition can't begin is filled in the others."""
        return next(iter(self.state.renditions.values())).settings.fill == OTHERS

    def target(self) -> float:
        """The greatest target duration of its lists, in seconds."""
        heads = [it.stands.repairer.head for it in self.state.renditions.values()]
        return min(MOST, float(max((head.target for head in heads if head is not None), default=TARGET)))

    def next_entry(self) -> int:
        """The number of the next entry, which is written from now on: it is to be kept before what comes after it is done."""
        self.set(entry=self.state.entry + 1)
        self.is_kept = False
        return self.state.entry

    def keep(self) -> None:
        """What was changed is kept before what comes after it is done, and before it is told."""
        if not self.is_kept:
            place = next((n for n in range(len(self.actions), 0, -1) if isinstance(self.actions[n - 1], (Send, Store))), 0)
            self.actions.insert(place, Store(self.state))
            self.is_kept = True

    # ---- telling

    def tell(self, channel: str, who: str, status: int, fault: str, text: str, is_again: bool = False, is_quiet: bool = False) -> None:
        """Tells people a line of the `channel`; the rest as in Tell."""
        self.actions.append(Tell(channel, who, status, fault, text, is_again, is_quiet))

    def tell_decision(self, who: str, status: int, fault: str, text: str, is_again: bool = False) -> None:
        """Tells people a line of a decision file or of the fallback (`who`): of the channel by itself, or of the ladder, which has no status."""
        if self.is_ladder():
            self.tell("", who, 0, fault, text, is_again)
        else:
            self.tell(next(iter(self.state.renditions)), who, status, fault, text, is_again)

    def note(self, channels: Iterable[str], what: str, status: int, line: str, body: bytes = b"") -> None:
        """Notes an event of `channels` for the monitor and the explainer."""
        self.actions += [Note(it, what, status, line, body) for it in channels]


def history_of(stands: Standing) -> list[PackagedSegment]:
    """The segments that were listed, as far as they are remembered, the oldest first."""
    return stands.repairer.past + stands.repairer.last


def window_of(stands: Standing) -> set[str]:
    """The IDs of the breaks that the first list of a new channel may have: of segments from the one on that is needed for it, if the channel before it
    lacks as many as are listed."""
    if not stands.repairer.last:
        return set()
    history = history_of(stands)
    needed = first_needed(stands.viewed, history, stands.repairer.earliest())
    return {name for name, (_, number) in stands.viewed.ranges.items() if needed is None or number >= history[needed].number}
