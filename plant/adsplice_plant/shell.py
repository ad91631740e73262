"""The feed of one programme: the clocks, threads, sockets and files around its function (programme.step).

One thread takes the programme's events one after the other, and does what the function answers, in its order. Each channel's origin is read
in a thread of its own, and the controllers of several renditions are asked in a thread each.
"""
from __future__ import annotations

import json
import threading
import time
from collections import deque
from collections.abc import Callable

from . import following, playlist, programme, state
from .asking import Asker
from .breaks import TOLERANCE
from .decided import begun_of
from .events import Action, Answered, Ask, AskedInVain, Began, Event, FallbackRead, Find, Finish, FolderRead, Found, ListRead, Look, Note, Repaired, Send, SlateRead, Tell, Ticked
from .events import Store as Keep
from .fed import BETWEEN, Around, Fed, Limits
from .inbox import Inbox
from .location import Url
from .looking import Looker
from .machines import Machines
from .origins import Choice
from .pauses import Pauses
from .reach import Reach
from .reading import MOST, OFTEN
from .replica import Replica
from .settings import FOLDER, Settings, hash_of
from .shared_log import Outrun
from .state import FileState, State
from .store import FolderStore, Store
from .telling import Say, Telling, place_of
from .turn import Turn
from .web import Client

LOOKS = 0.02  # seconds between two looks at the files while lists wait for an answer
SELDOM = 1.0  # seconds between two looks at the files of one of several machines
LEAST = 0.005  # seconds from one turn to the next if nothing happens
WELL = 10.0  # seconds without a fault after which the next one is a first one
FILES = (FolderRead, FallbackRead, SlateRead)  # the events of a look at the files
MOST_QUESTIONS = 256
DIFFERS = "Differs"  # the word of a channel that isn't as the log says

Step = Callable[[State, Event, float, int], tuple[State, list[Action]]]
Wake = Callable[[State, float], float | None]


class Unkept(Exception):
    """The state couldn't be kept, since its text."""


class Feeding:
    """The feed of one programme, whose `channels` are its renditions, or one channel by itself, within `limits`. `say` prints a line. `step`:
    what is to be done at an event; `wake`: when time alone brings something about. `store`: where the state is kept; none keeps it in memory
    alone. `known`: where the programme stands, if it was fed before with other renditions. `machines`: on one of several, those of their store."""

    def __init__(self, channels: list[Settings], limits: Limits, say: Say, store: Store | None = None, step: Step = programme.step, wake: Wake = programme.wake,
                 known: State | None = None, machines: Machines | None = None) -> None:
        first = channels[0]
        self.settings, self.limits, self.store, self.step, self.wake, self.machines = channels, limits, store, step, wake, machines
        self.name = first.programme or first.name
        self.telling, self.inbox, self.ending, self.together = Telling(self.name, say), Inbox(), threading.Event(), threading.RLock()
        self.threads: list[threading.Thread] = []
        choice = Choice() if len(channels) > 1 else None
        around = Around(limits, choice, self.telling, self.together, lambda: self.state, self.inbox.post, self.answered, self.beat)
        self.channels = {it.name: Fed(it, around) for it in channels}
        self.state = self.loaded(None) if known is None else state.with_renditions(known, self.fresh())
        self.replica = self.replica_of(machines) if machines is not None else None
        self.asker = self.asker_of(first) if first.ask else None
        self.looker = self.looker_of(first) if first.verify else None
        self.away, self.unkept = Pauses(0.5, limits.longest_pause), Pauses(0.5, limits.longest_pause)
        self.due: float | None = None  # when time alone brings something about
        self.has_begun = self.role_has_begun = False
        self.rests_until = float("-inf")  # no event is taken before, since a fault
        self.failed_at = self.looked_at = float("-inf")
        self.questions: deque[str] = deque(maxlen=MOST_QUESTIONS)  # breaks about which they are over, which other machines are to know

    def fresh(self) -> State:
        """The state of which nothing is known but the settings."""
        first = self.settings[0]
        tolerance = playlist.read_duration(first.tolerance) if first.tolerance else TOLERANCE
        return state.begin(self.settings, tolerance or 0, self.limits.longest_pause)

    def replica_of(self, machines: Machines) -> Replica:
        """The programme as one of several `machines`: it follows until it has the lead."""
        found = machines.replica(self.name, self.fresh(), list(self.channels), hash_of(self.settings))
        found.woken = self.inbox.wake
        for it in self.channels.values():
            it.reading.may_read.clear()
            it.share(found)
        return found

    def loaded(self, known: State | None) -> State:
        """The state that is kept; the one that is `known`, if it isn't or doesn't read."""
        fresh = self.fresh()
        if self.store is None:
            return known or fresh
        found = self.store.load(fresh)
        for it in found.told:
            self.telling.told(it)
        return found.state if known is None or not found.told else known

    def asker_of(self, first: Settings) -> Asker:
        """Who asks for decisions, by the settings of the `first` channel."""
        subtitles_first = sorted(self.settings, key=lambda it: not it.empty_subtitles)  # (the others wait for no file of theirs)
        folders = {it.rendition(): it.decisions for it in subtitles_first if it.decisions is not None}
        return Asker(self.name, first.ask, first.hold, Client(self.limits.timeout, reach=Reach(frozenset({Url(first.ask).host()}))), folders, self.tell_asked, self.is_decided,
                     self.look_soon, self.asked_in_vain, {it.rendition(): it.traits for it in self.settings}, self.note_asked, self.is_begun)

    def looker_of(self, first: Settings) -> Looker:
        """Who looks whether ads are there, by the settings of the `first` channel: at public addresses, those of `networks`, and those of the hosts that a
        person named as origins and to be asked."""
        named = frozenset().union(*(it.named for it in self.settings)) | ({Url(first.ask).host()} if first.ask not in ("", FOLDER) else set())
        networks = first.networks if first.networks is not None or named else ()
        return Looker(Client(self.limits.timeout, True, Reach(named or frozenset({"-"}), networks)))

    def note_asked(self, name: str, word: str, why: str) -> None:
        """Keeps for the monitor and the explainer what became of the question about the break `name` (`word`), and `why` it has no decision by that."""
        body = json.dumps([name]).encode()
        for it in self.channels.values():
            it.noting.note(Note(it.name, "ask", 0, word, body))
            if why:
                it.noting.note(Note(it.name, "note", 0, why, body))

    def tell_asked(self, who: str, status: str, word: str, text: str) -> None:
        """Prints a line of `who` of the programme, whatever was told before."""
        self.telling.line("", who, int(status) if status.isdigit() else 0, "" if word == "-" else word, text)

    def is_decided(self, name: str) -> bool:
        """Whether every rendition, but for subtitles, has a decision file on the break `name` that wasn't refused."""
        files = [it for it in self.state.files.values() if name in it.ids and it.state in (FileState.NEW, FileState.GIVEN)]
        return all(any(channel in it.stamps for it in files) for channel, fed in self.channels.items() if not fed.settings.empty_subtitles)

    def is_begun(self, name: str) -> bool:
        """Whether the break `name` has begun in a list that was given."""
        return bool(begun_of(Turn(self.state, 0.0, 0), [name]))

    # ---- its threads

    def start(self, delay: float = 0.0) -> None:
        """Begins after `delay` seconds, so that programmes don't come at once."""
        self.go(self.name, self.run, delay)

    def go(self, name: str, does: Callable[..., None], *what: object) -> None:
        """Has a thread of the `name` do what it `does` with `what`."""
        one = threading.Thread(target=does, args=what, name=name, daemon=True)
        one.start()
        self.threads.append(one)

    def end(self) -> None:
        """Has it end once its step is done."""
        self.ending.set()
        self.inbox.wake()
        if self.asker is not None:
            self.asker.end()
        if self.looker is not None:
            self.looker.end()
        if self.machines is not None:
            self.machines.leave(self.name)
        for it in self.channels.values():
            it.reading.end()
            it.sending.end()

    def join(self, until: float) -> bool:
        """Waits until its threads have ended, or the moment `until` has come; whether they have."""
        for it in list(self.threads):
            it.join(max(0.0, until - time.monotonic()))
        return not any(it.is_alive() for it in self.threads)

    def ended(self) -> str:
        """The name of a thread that has ended of itself; empty if none has."""
        found = next((it.name for it in list(self.threads) if not it.is_alive()), "")
        return "" if self.ending.is_set() else found  # (another thread may end it meanwhile)

    def run(self, delay: float) -> None:
        """Feeds the programme until it is ended."""
        self.ending.wait(delay)
        while not self.ending.is_set():
            try:
                if not self.has_begun:
                    self.begin()
                self.turn()
            except Unkept as fault:
                self.telling.tell(self.name, "log", 0, "Unkept", f"{fault}; gives nothing until it can be kept; viewers keep the last playlist")
                pause = self.unkept.next()
                self.rests_until = time.monotonic() + (pause if self.replica is None else min(pause, SELDOM))
            except Exception as fault:  # noqa: BLE001  (a programme's fault isn't to end the others)
                self.begin_anew(fault)
            self.inbox.wait(self.pause(), time.monotonic() < self.rests_until)
        for it in self.channels.values():
            it.show_behind(self.replica is not None)

    def begin(self) -> None:
        """The first event is that it begins, and the next ones what its files are. The origins are read from now on."""
        if not isinstance(self.inbox.first(), Began):
            self.inbox.post_first(Began())
        for it in self.channels.values():
            it.begin()
            it.show_behind(self.replica is not None)
        if self.replica is None:
            self.look()
        self.has_begun = True
        for it in self.channels.values():
            if len(self.channels) > 1:
                it.sending.has_thread = True
                self.go(it.name, it.sending.run, self.failed)
            self.go(it.name, it.reading.run, self.failed)

    # ---- turns

    def turn(self) -> None:
        """Takes one event, if there is one; before a list what has changed of the files."""
        with self.together:
            self.beat()
            now = time.monotonic()
            if now < self.rests_until:
                return
            if self.replica is not None:
                self.take_role(self.replica)
            event = self.inbox.first()
            if now >= self.looks_at() or (isinstance(event, ListRead) and now - self.looked_at >= LOOKS):
                self.look()
            while isinstance(self.inbox.first(), FILES) and (event := self.inbox.take()) is not None:
                self.take(event)  # (all of a look at once: a file isn't taken away between it and its event)
            event = self.inbox.take()
            if event is None and self.due is not None and now >= self.due:
                event = Ticked()
            if event is not None:  # (an event without members is an empty tuple)
                self.take(event)
            self.show_lacks()
            if self.away.count and now - self.failed_at > WELL:
                self.away.reset()
                self.telling.forget(self.name, "feed")

    def look(self) -> None:
        """Looks at the files: what has changed of them is next, as part of the begin if that is next. (On a busy machine there may be another look before
        the begin is taken, by which nothing has changed any more.)"""
        self.looked_at = time.monotonic()
        channels = sorted(self.channels.values(), key=lambda it: not it.settings.empty_subtitles)
        found = [one for it in channels for one in it.look()] if self.replica is None else self.look_on_all(self.replica)
        if isinstance(begin := self.inbox.first(), Began):
            self.inbox.take()
            slates = [it for it in found if isinstance(it, SlateRead)]
            found = [Began({**begin.folders, **{it.channel: it.files for it in found if isinstance(it, FolderRead)}},
                           {**begin.fallbacks, **{it.channel: it.body for it in found if isinstance(it, FallbackRead)}}), *slates]
        for one in reversed(found):
            self.inbox.post_first(one)

    def looks_at(self) -> float:
        """When the files are to be looked at again; never if there are none."""
        if not any(it.folder or it.fallback or it.slate for it in self.channels.values()):
            return float("inf")
        if self.replica is not None and self.replica.leads and self.replica.changed:
            return float("-inf")  # (another machine's file has come)
        return self.looked_at + (LOOKS if time.monotonic() < self.state.waits_until else SELDOM if self.replica is not None else OFTEN)

    def look_soon(self, answered: str) -> None:
        """The files are looked at at once: the question about a break is `answered`."""
        self.question_over(answered)
        self.looked_at = float("-inf")
        self.inbox.wake()

    def asked_in_vain(self, name: str) -> None:
        """No decision of the break `name` comes any more."""
        self.question_over(name)
        self.inbox.post(AskedInVain(name))

    def question_over(self, name: str) -> None:
        """The question about the break `name` is over: other machines are to know, once they have the answer."""
        if self.replica is not None:
            self.questions.append(name)

    def pause(self) -> float:
        """The seconds until the next turn, if nothing happens."""
        now = time.monotonic()
        if now >= self.rests_until and self.replica is not None and self.replica.is_next(self.state):
            return LEAST
        until = [self.rests_until] if now < self.rests_until else [it for it in (self.looks_at(), self.due) if it is not None]
        rests = self.replica is None or self.replica.won == self.replica.leads  # (what the others give wakes it)
        return min(BETWEEN if rests else BETWEEN / 2, max(LEAST, min(until) - now))

    def take(self, event: Event) -> None:
        """Takes an `event`, and does what is to be done. If a state can't be kept, raises Unkept: nothing after it is done, and the event is
        taken again."""
        kept, at = self.state, time.monotonic()
        leads = self.replica is None or bool(self.replica.leads)  # (its member may end that at any moment: what was made as by the leader goes to the store all the same)
        self.state, actions = (self.step if leads else following.step)(kept, event, at, time.time_ns())
        self.due = (self.wake if leads else following.wake)(self.state, at)
        for it in actions:
            if not isinstance(it, Keep):
                self.do(it)
                continue
            try:
                self.keep(it.state, leads)
            except Unkept:
                self.state = kept
                self.inbox.post_first(event)
                raise
            except Outrun as fault:
                self.state = kept
                self.telling.line(self.name, "lead", 0, "Outrun", f"{fault}; drops what it knows, and goes on from the log")
                return
            kept = it.state

    def keep(self, it: State, leads: bool) -> None:
        """Keeps the state `it`: in the store of all machines if it was made as by the one that `leads`, and here. Raises Unkept, or Outrun if another one
        leads."""
        if self.replica is not None and leads:
            try:
                self.replica.write(it)
            except OSError as fault:
                raise Unkept(str(fault)) from fault
        if self.store is None:
            return
        try:
            self.store.write(it)
        except OSError as fault:
            if self.replica is None:
                raise Unkept(f"{self.settings[0].keep}/{self.name}.log: {fault.strerror or fault}") from fault
            self.telling.tell(self.name, "kept", 0, "Unkept", f"{self.settings[0].keep}/{self.name}.log: {fault.strerror or fault}; goes on, for the store has it")
            return
        if self.unkept.count:
            self.unkept.reset()
            self.telling.tell(self.name, "log", 0, "", "it is kept again")

    def do(self, it: Action) -> None:
        """Does what is to be done, but for the state."""
        if isinstance(it, Send):
            self.channels[it.channel].sending.send(it.request)
        elif isinstance(it, Find):
            self.channels[it.channel].sending.send(it.found)
        elif isinstance(it, Ask) and self.asker is not None:
            self.asker.ask(self.to_be_asked(it))
        elif isinstance(it, Look) and self.looker is not None:
            self.looker.begin(it, self.inbox.post)
        elif isinstance(it, Finish):
            self.channels[it.channel].finish(it.name)
        elif isinstance(it, Tell):
            self.telling.told(it)
            if self.replica is not None and it.fault == DIFFERS:
                self.replica.differed += 1
        elif isinstance(it, Repaired):
            self.telling.repair(it)
        elif isinstance(it, Note):
            self.channels[it.channel].noting.note(it)

    def answered(self, event: Answered | Found) -> None:
        """A controller answered."""
        self.inbox.post(event)

    def beat(self) -> None:
        """Shows that the feed goes on."""
        now = time.monotonic()
        for it in self.channels.values():
            it.beat(now)

    # ---- on one of several machines

    def show_lacks(self) -> None:
        """Shows of which channels other machines have newer lists."""
        if self.replica is not None:
            for name, it in self.channels.items():
                it.show_lack(self.replica.lacks(self.state, name), time.monotonic())

    def take_role(self, replica: Replica) -> None:
        """Takes up what the log of all machines has, and who leads by it."""
        if replica.is_due:
            self.drop_what_it_knows(replica)
        if self.inbox.first() is None and not replica.leads:
            given = replica.next() if following.has_all(self.state) else None
            if given is not None:
                self.inbox.post(given)
            elif replica.may_lead(self.state):
                self.begin_to_lead(replica)
        replica.look_after(self.state)

    def drop_what_it_knows(self, replica: Replica) -> None:
        """The log is read: the programme goes on from what that has. Raises Unkept."""
        try:
            found = replica.load(self.state)
        except OSError as fault:
            raise Unkept(f"the store can't be read: {fault}") from None
        self.go_on_from(replica, found)

    def begin_to_lead(self, replica: Replica) -> None:
        """It leads from now on. (If it doesn't wait for its own controllers, the newest state is to be read.)"""
        found = replica.newest(self.state)
        if not replica.is_due:
            replica.begin_to_lead(replica.won)
            self.go_on_from(replica, following.led(found))

    def go_on_from(self, replica: Replica, found: State) -> None:
        """The programme goes on from the state that was `found`, in the role that it has now. Only the machine that leads reads the origins."""
        self.inbox.clear()
        for it in self.channels.values():
            it.forget()
            (it.reading.may_read.set if replica.leads else it.reading.may_read.clear)()
        self.state, self.due = found, None
        self.inbox.post_first(Began())
        self.role_has_begun = False
        if replica.leads:
            self.telling.line(self.name, "lead", 0, "Leads", f"this machine ({replica.machine}) leads {self.name}")
            for name, file in found.files.items():
                for channel in file.stamps if file.state is FileState.DONE else ():
                    self.channels[channel].finish(name)
            self.look()

    def look_on_all(self, replica: Replica) -> list[Event]:
        """What this machine's folders have goes into the store. What has changed of the files of all machines, if this one leads. Raises Unkept."""
        is_first, self.role_has_begun = not self.role_has_begun, True
        try:
            for it in self.channels.values():
                if it.shared is not None:
                    it.shared.look()
            while self.questions:  # (the answers are in the store by now)
                replica.finish_question(self.questions[0])
                self.questions.popleft()
            changed = replica.see_files()
        except OSError as fault:
            self.role_has_begun = not is_first
            raise Unkept(f"the store doesn't take or have decision files: {fault}") from None
        if not replica.leads:
            return []
        found: list[Event] = [it.shared.read() for it in self.channels.values() if it.shared is not None and (is_first or it.name in changed)]
        looks = [one.look() for it in self.channels.values() for one in (it.fallback, it.slate) if one is not None]
        return found + [it for it in looks if it is not None]

    def to_be_asked(self, it: Ask) -> Ask:
        """What is still to be asked for of `it`: on several machines each break is asked for once."""
        if self.replica is None:
            return it
        found = []
        for one in it.known:
            try:
                may_ask = self.replica.may_ask(one.id, one.start)
            except OSError:
                may_ask = False
            if may_ask:
                found.append(one)
            else:
                self.inbox.post(AskedInVain(one.id))
        return it._replace(known=tuple(found))

    # ---- faults

    def failed(self, fault: Exception) -> None:
        """Nobody foresaw this `fault`: tells it once with its place, and keeps it."""
        name = f"{type(fault).__name__} {place_of(fault)}"
        for it in self.channels.values():
            it.noting.note(Note(it.name, "restart", 0, name))
        self.telling.tell(self.name, "feed", 0, name, f"{str(fault)[:200]}; begins anew with growing pauses")
        self.failed_at = time.monotonic()

    def begin_anew(self, fault: Exception) -> None:
        """The programme begins anew after a pause from the state that is kept, since a `fault` that nobody foresaw. The event is lost: lists and
        files are read again."""
        self.rests_until = time.monotonic() + min(MOST, self.away.next())
        self.failed(fault)
        for it in self.channels.values():
            it.forget()
        if self.replica is not None:
            self.replica.fall_back()
            return
        self.state = self.loaded(self.state)
        self.inbox.post_first(Began())


def store_of(channels: list[Settings]) -> Store | None:
    """Where the state of the programme of these `channels` is kept; none if nothing is to be kept."""
    first = channels[0]
    return FolderStore(first.keep, first.programme or first.name) if first.keep is not None else None
