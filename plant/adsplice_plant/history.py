"""What a channel was given, in order, what adsplice answered to each, and what it owes by the rules (adsplice_rules)."""
from __future__ import annotations

from collections.abc import Callable, Iterator
from dataclasses import dataclass, field, replace

from adsplice_rules.channel import Channel
from adsplice_rules.edge import Edge, Reply, Request
from adsplice_rules.lines import lines_of, rest_of
from adsplice_rules.reading import date_range_of
from adsplice_rules.values import DateRange, Fault

NAME = "explained"
TAKEN = (201, 204)
NOTES = ("note", "late")  # events of the feed by which a break has no pod of its own
PATHS = {"channel": "", "delete": "", "origin": "/origin", "decisions": "/decisions"}


@dataclass(frozen=True)
class Given:
    """Something that a channel is given: `what` is `channel`, `delete`, `decisions`, `origin`, `hole` for a time of which
    nothing is known, or `note` for why (`fault`) the feed gave no rendition a decision of the breaks in `body`; `name` says where it is
    from. `status` and `fault` are what adsplice answered, and `at` when (a text in UTC), if that is known. What `is_past` came before
    all that the rules are given, and is only told."""

    what: str
    name: str
    body: bytes
    status: int = 0
    fault: str = ""
    at: str = ""
    is_past: bool = False

    def text(self) -> str:
        """The body, with `\\xE9` in place of a byte that isn't UTF-8."""
        return self.body.decode("utf-8", "backslashreplace")

    def ranges(self) -> Iterator[tuple[int, DateRange]]:
        """Each EXT-X-DATERANGE that reads (RFC 8216, 4.3.2.7), with the number of its line, also of a list that doesn't."""
        for number, line in enumerate(lines_of(self.text()), 1):
            if line.startswith("#EXT-X-DATERANGE:"):
                try:
                    yield number, date_range_of(rest_of(line))
                except Fault:
                    continue


@dataclass(frozen=True)
class Step:
    """`given`, and what it is owed by the rules: the `status` and the `fault`."""

    given: Given
    status: int
    fault: str

    def is_taken(self) -> bool:
        """Whether adsplice took what was given."""
        return self.given.status in TAKEN

    def differs(self) -> bool:
        """Whether adsplice answered otherwise than the rules."""
        return (self.given.status, self.given.fault) != (self.status, self.fault)


@dataclass
class Life:
    """A channel from the request that made it to its end: what the rules know of it (`channel`), the steps of its taken `lists`
    (each at the place of its refresh there) and of its taken `decisions`."""

    channel: Channel
    lists: list[Step] = field(default_factory=list)
    decisions: list[Step] = field(default_factory=list)

    def shown_by(self, place: int) -> Step:
        """The step of the list that first showed the segment at `place` of the history."""
        return self.lists[self.channel.shown_by[place]]


Ask = Callable[[Given], tuple[int, str]]


class Run:
    """The run of a channel by the rules. It goes on as adsplice answered: what the rules answer otherwise is a difference."""

    def __init__(self) -> None:
        """Nothing was given yet."""
        self.edge = Edge()
        self.steps: list[Step] = []
        self.unlike: list[str] = []  # sentences on what adsplice writes otherwise than the rules
        self.lives: list[Life] = []
        self.known: dict[str, tuple[Life, Channel]] = {}  # each break's channel as it was when the break was known last

    def take(self, given: Given, ask: Ask | None = None) -> Step:
        """Gives the rules `given`; `ask` says what adsplice answers to it, if `given` itself doesn't."""
        if ask is not None:
            status, fault = ask(given)
            given = replace(given, status=status, fault=fault)
        before = self.edge.channels.get(NAME)
        if given.what == "channel" and given.status == 201:
            self.edge.channels.pop(NAME, None)
        reply = self.answer(given) if given.what in PATHS else Reply(0)
        if before is None and (given.what, given.status, reply.status) == ("channel", 409, 201):
            reply = Reply(409, given.fault)  # (it was made before what is known of it)
        step = Step(given, reply.status, "" if reply.status in TAKEN else reply.body.strip())
        self.steps.append(step)
        if step.is_taken() and reply.status not in TAKEN and before is not None:
            self.go_on(given, before)
        elif reply.status in TAKEN and not step.is_taken() and before is not None:
            self.edge.channels[NAME] = before
        self.note(step)
        return step

    def hold(self, given: Given) -> None:
        """The channel was made by `given`, or holds this decision, before anything else is known of it; or `given` is only told."""
        if given.is_past:
            self.steps.append(Step(given, given.status, given.fault))
            return
        if given.what == "channel":
            self.edge.channels.pop(NAME, None)
        self.answer(given)

    def answer(self, given: Given) -> Reply:
        """What the rules answer to `given`."""
        method = "DELETE" if given.what == "delete" else "PUT"
        return self.edge.answer(Request(method, f"/channels/{NAME}{PATHS[given.what]}", given.body))

    def go_on(self, given: Given, before: Channel) -> None:
        """adsplice took `given`, and by the rules the channel `before` doesn't: what came in between isn't known. A list begins
        the channel anew, with its decisions."""
        if given.what == "origin":
            self.edge.channels[NAME] = Channel(before.base, before.tolerance, store=before.store)
            self.answer(given)
            self.lives.append(Life(self.edge.channels[NAME]))

    def note(self, step: Step) -> None:
        """Notes what `step` made of the channel, and each break that is known no longer with the channel as it was before."""
        channel = self.edge.channels.get(NAME)
        if channel is None:
            return
        if not self.lives or (step.given.what == "channel" and step.given.status == 201):
            self.lives.append(Life(channel))
        life = self.lives[-1]
        if step.is_taken() and step.given.what == "origin" and len(channel.accepted) > len(life.lists):
            life.lists.append(step)
        if step.is_taken() and step.given.what == "decisions":
            life.decisions.append(step)
        for one in channel.moments[-1].breaks if channel.moments else []:
            self.known[one.id] = life, channel
        life.channel = channel

    def filled(self) -> dict[str, tuple[Life, int]]:
        """Each break that was ever filled, with the place of the first segment that entered it last."""
        found: dict[str, tuple[Life, int]] = {}
        for life in self.lives:
            for place, shown in enumerate(life.channel.history):
                before = life.channel.history[place - 1].mark if place else None
                if shown.mark and not (before and before.id == shown.mark.id):
                    found[shown.mark.id] = life, place
        return found

    def listed(self) -> dict[str, tuple[int, DateRange]]:
        """Each ID of a date range that reads, with the newest of its tags and that one's line."""
        found: dict[str, tuple[int, DateRange]] = {}
        for step in self.steps:
            if step.given.what == "origin":
                found |= {one.id: (number, one) for number, one in step.given.ranges()}
        return found
