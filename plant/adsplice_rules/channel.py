"""What a channel owes after the decisions and refreshes that it was given: the whole history is kept, and looked back over."""
from __future__ import annotations

from dataclasses import dataclass, field, replace

from .breaks import Accepted, Moment, Shown, known, next_mark, why
from .decisions import Store, decided, decisions_of, kept_in_use
from .numbers import Item, fits, numbered
from .reading import read
from .stitched import stitched
from .succession import succession_fault
from .text import text_of
from .times import begins_at
from .uris import Url
from .values import Fault, Playlist
from .window import breaks_in_use, start_after

TOLERANCE = 100_000_000  # 0.1 s, unless a channel was made with another one
MOST_TOLERANCE = 10_000_000_000


@dataclass(frozen=True)
class Channel:
    """All that was told to a channel: the accepted refreshes, the segments ever shown (each with the place of the refresh that
    first showed it in `shown_by`), what held at each refresh, the store, and the place at which the window starts."""

    base: Url
    tolerance: int = TOLERANCE
    accepted: list[Accepted] = field(default_factory=list)
    history: list[Shown] = field(default_factory=list)
    shown_by: list[int] = field(default_factory=list)
    moments: list[Moment] = field(default_factory=list)
    store: Store = Store()
    start: int = 0

    def last(self) -> Playlist | None:
        """The last accepted playlist."""
        return self.accepted[-1].playlist if self.accepted else None

    def items(self) -> list[Item]:
        """The stitched list of all that was ever shown, with its numbers."""
        return numbered(self.history, stitched(self.history, self.accepted[-1].playlist.ended))

    def window(self) -> list[Item]:
        """The written part of it."""
        return self.items()[self.start:]

    def in_use(self) -> list[str]:
        """The breaks in use."""
        return breaks_in_use(self.history, self.window())


def shown_after(moment: Moment, history: list[Shown], playlist: Playlist) -> list[Shown]:
    """The history after a refresh: each segment that is listed for the first time, with its instant and its mark."""
    after = list(history)
    is_timed = any(segment.time is not None for segment in playlist.segments)
    for place, segment in enumerate(playlist.segments):
        if not after or segment.number > after[-1].segment.number:
            before = after[-1] if after else None
            ended = before.instant + before.segment.nanos if before is not None and before.instant is not None else None
            instant = begins_at(ended, segment, list(playlist.segments[place + 1:]) if is_timed else [])
            after.append(Shown(segment, instant, next_mark(moment, after, instant)))
    return after


def refreshed(channel: Channel, given: bytes) -> Channel:
    """The channel after a refresh. Refused are, in this order, bytes that don't read, a playlist that may not follow the last
    accepted one, and one by which a written number would pass 2^64 - 1 (N10)."""
    playlist, last = read(channel.base, given), channel.last()
    if last is not None and (fault := succession_fault(last, playlist)):
        raise fault
    newest = channel.history[-1].mark if channel.history else None
    accepted = [*channel.accepted, Accepted(playlist, newest.id if newest else None)]
    moment = Moment(channel.tolerance, playlist.target, playlist.has_init_sections(), known(accepted), channel.store)
    history = shown_after(moment, channel.history, playlist)
    fresh = len(history) - len(channel.history)
    after = replace(channel, accepted=accepted, history=history, shown_by=channel.shown_by + [len(channel.accepted)] * fresh,
                    moments=[*channel.moments, moment],
                    start=start_after(last, channel.start, channel.history, playlist, history))
    if not all(fits(item) for item in after.items()):
        raise Fault("N10")
    return replace(after, store=kept_in_use(channel.store, after.in_use()))


def decide(channel: Channel, given: bytes) -> Channel:
    """The channel after a decision file, or J1 to J11."""
    return replace(channel, store=decided(channel.store, decisions_of(given)))


def written(channel: Channel) -> str | None:
    """The text that is owed; none before the first accepted refresh."""
    last = channel.last()
    return None if last is None else text_of(last, channel.window(), channel.in_use())


def words(channel: Channel) -> list[tuple[str, str]]:
    """Each known break, and why it is filled or not, by what is known since the last refresh and by the store as it is now."""
    if not channel.moments:
        return []
    moment = replace(channel.moments[-1], store=channel.store)
    used = [one.id for one in channel.store.entries if one.used]
    return [(one.id, why(moment, one.id, used)) for one in moment.breaks]
