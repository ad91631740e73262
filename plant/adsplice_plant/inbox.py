"""The events that wait for a programme."""
from __future__ import annotations

import threading
from collections import deque

from .events import Event, FallbackRead, FolderRead, ListRead, SlateRead

NEWEST = (ListRead, FolderRead, FallbackRead, SlateRead)  # of these the newest one of a channel counts


class Inbox:
    """Events in the order in which they are to be taken; several threads may post some."""

    def __init__(self) -> None:
        """Nothing has happened."""
        self.events: deque[Event] = deque()
        self.changed = threading.Condition()
        self.is_woken = False

    def post(self, event: Event) -> None:
        """Adds an `event` after the others, in place of an older one of its kind."""
        with self.changed:
            for it in self.same(event):
                self.events.remove(it)
            self.events.append(event)
            self.changed.notify()

    def post_first(self, event: Event) -> None:
        """Adds an `event` before the others, unless there is a newer one of its kind."""
        with self.changed:
            if not self.same(event):
                self.events.appendleft(event)
            self.changed.notify()

    def same(self, event: Event) -> list[Event]:
        """The events of its kind and its channel that wait, if the newest of these counts."""
        return [it for it in self.events if type(it) is type(event) and it[:1] == event[:1]] if isinstance(event, NEWEST) else []

    def first(self) -> Event | None:
        """The event that is next; none if there is none."""
        with self.changed:
            return self.events[0] if self.events else None

    def take(self) -> Event | None:
        """Takes that event."""
        with self.changed:
            return self.events.popleft() if self.events else None

    def clear(self) -> None:
        """No event waits any more."""
        with self.changed:
            self.events.clear()

    def wake(self) -> None:
        """Ends a wait."""
        with self.changed:
            self.is_woken = True
            self.changed.notify()

    def wait(self, seconds: float, is_resting: bool = False) -> None:
        """Waits until there is an event, or somebody wakes it, for so many `seconds` at most. While it `is_resting`, no event ends that."""
        with self.changed:
            if not self.is_woken and (is_resting or not self.events):
                self.changed.wait_for(lambda: self.is_woken or (not is_resting and bool(self.events)), seconds)
            self.is_woken = False
