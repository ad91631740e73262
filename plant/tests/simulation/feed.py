"""The feed of a simulated day: `programme.step` between a store that outlives it and a world. It does as the shell: events one by one, actions in
their order, and it may end between any two of them."""
from __future__ import annotations

import pickle
from collections.abc import Callable
from pathlib import Path
from typing import Any, Protocol

from adsplice_plant import programme, store
from adsplice_plant.entries import Known, difference, known_of
from adsplice_plant.events import (Answered, Ask, AskedInVain, Began, FallbackRead, Find, Finish, FolderRead, Found, ListRead, Note, Repaired, Request, Send, Store, Tell, Ticked, What)
from adsplice_plant.inbox import Inbox
from adsplice_plant.location import Url
from adsplice_plant.settings import Settings
from adsplice_plant.state import State, begin, with_renditions
from adsplice_plant.values import changed

from .packager import BASE
from .plan import Plan

RETRY = 1.0  # seconds between two trials to write the store
OFTEN = 2000  # steps at one moment, after which the feed spins
SECOND = 10**9


class World(Protocol):
    """What a feed needs of the world around it."""

    now: float

    def clock(self) -> int: ...

    def later(self, seconds: float, do: Callable[..., None], *args: Any) -> None: ...

    def breach(self, kind: str, who: str, text: str) -> None: ...

    def say(self, text: str) -> None: ...

    def send(self, channel: str, request: Request) -> None: ...

    def ask(self, known: tuple[Any, ...]) -> None: ...

    def find(self, channel: str, found: Any) -> None: ...

    def finish(self, channel: str, name: str) -> None: ...

    def told(self, it: Tell) -> None: ...

    def begun(self) -> None: ...

    def taken(self, event: ListRead) -> None: ...

    def untaken(self, event: ListRead) -> None: ...

    def kept(self) -> None: ...

    def ended(self) -> None: ...


def said_of(it: Tell, status: int, line: str) -> bool:
    """Whether a told line is of a refusal by a `status` with the fault's text `line`."""
    code, _, name = line.partition(" ")
    return it.status == status or bool(line) and (code in it.fault or code in it.text or name.partition(" ")[0] in it.fault)


def settings_of(plan: Plan) -> list[Settings]:
    """The settings of the channels of a `plan`."""
    folder, programme_name = Path("/nowhere"), "p" if len(plan.names) > 1 else ""
    found = []
    for name in plan.names:
        url = f"{BASE}/{name}/index.m3u8"
        found.append(Settings(plan.channel(name), Url(url), "http://controller.example", url, decisions=folder / name, fallback=folder / f"{name}.json" if plan.has_fallback else None,
                              keep=folder / "keep", programme=programme_name, group=name if plan.kinds else "", fill=plan.fill, ask="folder" if plan.asks else "", hold=1.0))
    return found


class Log:
    """The log of a programme, as FolderStore has it in a file: its text alone outlives a feed."""

    def __init__(self) -> None:
        self.text, self.lines, self.since = b"", 0, 0
        self.known: Known | None = None

    def write(self, state: State) -> None:
        """Keeps a state."""
        known = known_of(state, self.known)
        if self.known is None or self.lines >= store.MOST_LINES or self.known.state.renditions.keys() != state.renditions.keys():
            self.text, self.lines = store.whole(known), 0
        else:
            self.lines += 1
            self.text += store.line_of({"line": self.lines, **difference(self.known, known)})
        self.known = known

    def load(self, fresh: State) -> State:
        """The state that the text says, over a `fresh` one."""
        self.known = None
        if not self.text:
            return fresh
        known, why = store.read(self.text, fresh)
        if why:
            raise ValueError(why)
        return store.state_of(known)


class Copies:
    """A log that keeps a copy of the state, in place of its text: quicker, and without what may be wrong in that."""

    def __init__(self) -> None:
        self.state: State | None = None

    def write(self, state: State) -> None:
        """As in Log."""
        self.state = state

    def load(self, fresh: State) -> State:
        """As in Log."""
        return fresh if self.state is None else pickle.loads(pickle.dumps(self.state))


class Feed:
    """The feed of a `plan` in a `world`. `log`: what it keeps; `entry`: the number of the newest entry there."""

    def __init__(self, plan: Plan, world: World, log: Log | Copies) -> None:
        self.plan, self.world, self.log = plan, world, log
        self.settings = [it for it in settings_of(plan) if it.rendition() not in dict(plan.later)]
        self.state: State = begin(self.settings, SECOND // 10)
        self.entry = 0
        self.is_up, self.life = False, 0
        self.ends_after: int | None = None  # actions of the next step that has some, after which it ends
        self.away = 0.0
        self.refuses_until = 0.0  # until when the log can't be written
        self.rests_until = 0.0  # until when it does nothing, since that is so
        self.inbox = Inbox()
        self.sent: dict[str, Request] = {}
        self.tick_at: float | None = None
        self.steps, self.spins, self.spun_at = 0, 0, -1.0
        self.is_busy = False

    # ---- its life

    def start(self) -> None:
        """It begins, with what its log has."""
        self.is_up, self.life = True, self.life + 1
        self.inbox = Inbox()
        self.sent.clear()
        self.tick_at, self.rests_until = None, 0.0
        self.state = self.log.load(begin(self.settings, SECOND // 10))
        self.world.say("feed begins")
        self.give(Began())
        self.world.begun()

    def end(self) -> None:
        """It is killed."""
        self.world.say("feed ends")
        self.is_up, self.ends_after = False, None
        self.world.ended()
        self.world.later(self.away, self.start)

    def join(self, name: str) -> None:
        """The rendition `name` is one of the programme's from now on."""
        self.world.say(f"{name} joins")
        known = {it.rendition() for it in self.settings} | {name}
        self.settings = [it for it in settings_of(self.plan) if it.rendition() in known]
        self.life, self.inbox = self.life + 1, Inbox()
        self.sent.clear()
        self.tick_at = None
        self.state = with_renditions(self.state, begin(self.settings, SECOND // 10))
        self.give(Began())
        self.world.begun()

    # ---- events

    def give(self, event: Any) -> None:
        """Takes an event in, as soon as the store has what came before."""
        if not self.is_up or getattr(event, "channel", self.settings[0].name) not in self.state.renditions:
            return
        self.inbox.post(event)
        if not self.is_busy:
            self.go_on()

    def answered(self, life: int, event: Answered | Found) -> None:
        """A request of the feed's `life` was answered."""
        if life == self.life and self.is_up:
            self.sent.pop(event.channel, None)
            self.give(event)

    def go_on(self) -> None:
        """Takes the events that have come, one by one, unless it rests."""
        self.is_busy = True
        while self.is_up and self.world.now >= self.rests_until and (event := self.inbox.take()) is not None:
            self.step(event)
        self.is_busy = False
        if self.is_up and self.world.now >= self.rests_until:
            self.wake()

    def step(self, event: Any) -> None:
        """One step, and what is to be done. If the log can't be written, nothing after that is done, and the event is taken again after a while."""
        self.steps += 1
        self.spins = self.spins + 1 if self.spun_at == self.world.now else 0
        self.spun_at = self.world.now
        if self.spins > OFTEN:
            raise RuntimeError(f"the feed spins at {self.world.now}: {event}")
        kept = before = self.state
        self.state, actions = programme.step(kept, event, self.world.now, self.world.clock())
        if isinstance(event, Answered) and event.status >= 400:
            self.look_for_refusal(event, before, actions)
        elif isinstance(event, ListRead):
            self.world.taken(event)
        for it in actions:
            if self.ends_after is not None:
                if self.ends_after <= 0:
                    self.end()
                    return
                self.ends_after -= 1
            if isinstance(it, Store):
                if self.world.now < self.refuses_until:
                    self.rest(kept, event)
                    return
                kept = it.state
            self.do(it)

    def rest(self, kept: State, event: Any) -> None:
        """The log can't be written: all is as it was `kept`, and the event is taken again after a while."""
        self.state, self.rests_until, life = kept, self.world.now + RETRY, self.life
        if isinstance(event, ListRead):
            self.world.untaken(event)
        self.inbox.post_first(event)
        self.world.later(RETRY, lambda: self.go_on() if self.life == life and self.is_up and not self.is_busy else None)

    def look_for_refusal(self, event: Answered, before: State, actions: list[Any]) -> None:
        """What a controller refused is told: of a decision once, and not that there is nothing to withdraw, or that a break has begun with the pod that is
        given once more."""
        line, request = event.line, event.request
        if event.status not in (409, 413, 422) or not request.what.path or any(isinstance(it, Tell) and said_of(it, event.status, line) for it in actions):
            return
        decision = next((it for it in before.decisions if it.entry == request.entry), None)
        entered = before.renditions[event.channel].stands.pods.entered
        if request.what is What.DECIDE and (decision is None or line.startswith("J11") or set(decision.ids) <= entered.keys()):
            return
        if not any(isinstance(it, Find) for it in actions):
            self.world.breach("refusal untold", event.channel, f"{request.what.name} of the entry {request.entry}: {event.status} {line}")

    def wake(self) -> None:
        """Has time tick when the state needs it."""
        at = programme.wake(self.state, self.world.now)
        if at is None or (self.tick_at is not None and self.world.now < self.tick_at <= at):
            return
        at = max(at, self.world.now + 0.001)
        self.tick_at, life = at, self.life

        def tick() -> None:
            if self.life == life and self.tick_at == at:
                self.tick_at = None
                self.give(Ticked())
        self.world.later(at - self.world.now, tick)

    # ---- actions

    def do(self, it: Any) -> None:
        """Does an action."""
        if isinstance(it, Store):
            self.store(it.state)
        elif isinstance(it, Send):
            self.send(it)
        elif isinstance(it, Ask):
            ahead = max(one.stands.repairer.clock for one in self.state.renditions.values())
            self.world.ask(tuple(changed(one, start=one.start - self.state.shift() + ahead) for one in it.known))  # (by the packager's clock)
        elif isinstance(it, Find):
            self.world.find(it.channel, it.found)
        elif isinstance(it, Finish):
            self.world.finish(it.channel, it.name)
        elif isinstance(it, Tell):
            self.world.told(it)
        elif not isinstance(it, Note | Repaired):
            self.world.say(f"unknown action {type(it).__name__}")

    def store(self, state: State) -> None:
        """Keeps a state."""
        if state.entry < self.entry:
            self.world.breach("entries go back", "", f"after {self.entry} comes {state.entry}")
        self.log.write(state)
        self.entry = state.entry
        self.world.kept(state)

    def send(self, it: Send) -> None:
        """Sends a request."""
        if it.request.entry > self.entry:
            self.world.breach("given before it is stored", it.channel, f"{it.request.what} of the entry {it.request.entry}, and the store has {self.entry}")
        if it.channel in self.sent:
            self.world.breach("two requests at a time", it.channel, f"{it.request.what} beside {self.sent[it.channel].what}")
        self.sent[it.channel] = it.request
        self.world.send(it.channel, it.request)


__all__ = ["Answered", "AskedInVain", "FallbackRead", "Feed", "FolderRead", "Found", "ListRead"]
