"""A simulated day of a programme on several machines, which have a store in common: each machine has a feed and controllers of its own.

The feeds are the functions of the plant (`programme.step` for the one that leads, `following.step` for the others, `members` for who leads) around a
store that is a dictionary (keys). What viewers of each machine have is looked at, what viewers have who go from machine to machine, that no number has
two contents on two machines, and that two lists that end with the same number are the same bytes.
"""
from __future__ import annotations

import random
from collections.abc import Callable
from dataclasses import replace
from typing import Any

from adsplice_plant import following, programme
from adsplice_plant.etcd import Compacted
from adsplice_plant.events import Answered, Began, FallbackRead, Find, FolderRead, ListRead, Request, Send, Store, Ticked
from adsplice_plant.inbox import Inbox
from adsplice_plant.members import Member
from adsplice_plant.replica import Replica
from adsplice_plant.shared_log import ROOT, Outrun
from adsplice_plant.state import State, begin
from adsplice_rules.edge import Request as Asked
from keys import At, Keys

from .controller import Controller, Written
from .feed import RETRY, SECOND, Copies, Feed, Log
from .plan import ALL, Fault, Plan, draw
from .viewers import Breach, Viewers
from .world import LATENCY, LIMIT, Process, World

MACHINES = 3
LEASE = 2
OFTEN = 0.1  # seconds between two looks of a member
SEEN_AFTER = (0.001, 0.03)  # seconds after which a machine sees a change
NAME = "p"
GROUP: dict[str, tuple[tuple[float, ...], tuple[int, ...]]] = {  # faults of machines: sizes, and numbers
    "machine lost": ((3.0, 10.0, 30.0), (0,)),
    "cable drawn": ((1.0, 6.0, 20.0), (0,)),
    "feed stopped": ((1.0, 5.0, 12.0), (0, 1, 2, 3, 4)),
    "answers of the store lost": ((0.0,), (1, 2, 4)),
    "changes of the store late": ((0.0,), (1, 2)),
    "store compacted": ((0.0, 3.0), (0,)),
    "store away": ((2.0, 8.0), (0,)),
    "machine sees late": ((1.0, 4.0), (0,)),
}
LEADER = "leader"


class Site:
    """A machine, as its feed sees the world: the machine at a `place` of the `world`."""

    def __init__(self, world: GroupWorld, place: int) -> None:
        self.world, self.place, self.plan = world, place, world.plan
        one = Process(world.make())
        self.processes = {name: Process(world.make()) if self.plan.processes else one for name in self.plan.names}
        self.lose: dict[str, list[tuple[str, float]]] = {name: [] for name in self.plan.names}
        self.viewers, self.all_viewers = self.new_viewers(), list[Viewers]()
        self.all_viewers += self.viewers.values()
        self.sees_late_until, self.sees_late = 0.0, 0.0
        self.unkept: list[tuple[str, str]] = []
        self.node = Node(self.plan, self)

    def new_viewers(self) -> dict[str, Viewers]:
        """Viewers of the renditions who have seen nothing."""
        return {name: Viewers(self.plan, it, self.world.packagers, self.world.ads, self.world.read) for name, it in self.world.packagers.items()}

    def come(self, name: str, viewers: Viewers) -> None:
        """Viewers of a rendition come from another machine."""
        self.viewers[name] = viewers
        self.all_viewers.append(viewers)

    @property
    def now(self) -> float:
        """The moment."""
        return self.world.now

    def clock(self) -> int:
        """As in World."""
        return self.world.clock()

    def later(self, seconds: float, do: Callable[..., None], *args: Any) -> None:
        """As in World."""
        self.world.later(seconds, do, *args)

    def breach(self, kind: str, who: str, text: str) -> None:
        """As in World."""
        self.world.breach(kind, f"m{self.place} {who}", text)

    def say(self, text: str) -> None:
        """As in World."""
        self.world.say(f"m{self.place} {text}")

    def told(self, it: Any) -> None:
        """As in World."""
        if it.who == "replica":
            self.world.tally[f"replicas that {it.fault}"] += 1
            self.say(f"{it.fault.upper()} {it.channel}: {it.text}")
        self.world.told(it)

    def ask(self, known: tuple[Any, ...]) -> None:
        """As in World."""
        self.world.ask(known)

    def finish(self, channel: str, name: str) -> None:
        """As in World."""
        self.world.finish(channel, name)

    def begun(self) -> None:
        """As in World."""
        self.world.begun()

    def taken(self, event: ListRead) -> None:
        """As in World, of this machine."""
        self.world.unkept = self.unkept
        self.world.taken(event)

    def untaken(self, event: ListRead) -> None:
        """As in World, of this machine."""
        self.world.unkept = self.unkept
        self.world.untaken(event)
        self.unkept = self.world.unkept

    def kept(self, state: State) -> None:
        """As in World, of this machine."""
        self.world.unkept = self.unkept
        self.world.kept(state)
        self.unkept = self.world.unkept

    def ended(self) -> None:
        """As in World, of this machine."""
        self.world.unkept = self.unkept
        self.world.ended()

    def find(self, channel: str, found: Any) -> None:
        """With a store in common nothing is found by trial."""
        self.breach("found by trial", channel, "")

    # ---- controllers

    def send(self, channel: str, request: Request) -> None:
        """The feed sends a request to a controller of this machine."""
        name, era = self.world.renditions[channel], self.node.era
        it = self.processes[name]
        self.world.tally["requests"] += 1
        lost, after = self.lose[name].pop(0) if self.lose[name] else ("", 0.0)
        if it.away_until > self.now:
            self.reply(era, channel, request, 0.005, 0, "", "connection refused")
        elif lost == "request":
            self.reply(era, channel, request, after + LATENCY, 0, "", "no answer")
        else:
            until = max(self.now + LATENCY / 2 + (it.slow if self.now < it.slow_until else 0.0), it.busy_until)
            it.busy_until = until
            self.world.at(until, self.arrive, it, it.life, era, channel, request, lost, after, self.now)

    def arrive(self, it: Process, process: int, era: int, channel: str, request: Any, lost: str, after: float, since: float) -> None:
        """A request comes to its controller, and has its effect."""
        if it.life != process:
            self.reply(era, channel, request, 0.005, 0, "", "connection reset")
            return
        path = f"/channels/{channel}" + (f"/{request.what.path}" if request.what.path else "")
        reply = it.controller.answer(Asked(request.what.method, path, request.body))
        self.say(f"{channel} {request.what.name} {request.entry} -> {reply.status} {reply.body.strip() if reply.status >= 400 else ''}{' (lost)' if lost else ''}")
        if request.what.path == "origin" and request.what.method == "PUT":
            self.world.tally["lists"] += 1
            if reply.status == 204:
                self.world.seen(self, channel, it.controller, request.is_ahead)
            else:
                self.world.tally[f"list refused {reply.body[:3]}"] += 1
        if lost or self.now - since > LIMIT:
            self.reply(era, channel, request, after if lost else 0.0, 0, "", "no answer")
            return
        line, body = (reply.body.partition("\n")[0], b"") if reply.status != 200 else ("", reply.body.encode())
        self.reply(era, channel, request, LATENCY / 2, reply.status, line, "", body)

    def reply(self, era: int, channel: str, request: Any, seconds: float, status: int, line: str, why: str, body: bytes = b"") -> None:
        """A controller's answer, or that there is none, comes to the feed."""
        self.later(seconds, self.node.of_era, era, Answered(channel, request, status, line, why, body))


class Node(Feed):
    """The feed of a machine (`site`): it leads the programme, or follows it."""

    def __init__(self, plan: Plan, site: Site) -> None:
        super().__init__(plan, site, Log() if site.world.has_text else Copies())
        self.site = site
        self.keys = At(site.world.keys, site.later)
        self.replica = self.new_replica()
        self.member: Member | None = None
        self.revision: int | None = None  # from which on it watches
        self.era = 0
        self.stopped_until = 0.0
        self.stops_after: tuple[int, float] | None = None  # actions, after which it is stopped for so many seconds
        self.left: list[Any] = []  # actions that are still to be done
        self.has_led = False  # whether they are of a step as by the one that leads

    def new_replica(self) -> Replica:
        """What it has of the log."""
        found = Replica(self.keys, NAME, f"m{self.site.place}", begin(self.settings, SECOND // 10), [it.name for it in self.settings], self.new_life, lambda: self.site.now)
        found.woken = lambda: self.site.later(0.0, self.go_on)
        return found

    def new_life(self) -> str:
        """A name for a log."""
        return f"{self.site.place} {self.site.now}"

    # ---- its life

    def start(self) -> None:
        """It begins: it follows, with what its own log has."""
        self.is_up, self.life, self.era = True, self.life + 1, self.era + 1
        self.inbox, self.left, self.revision, self.replica = Inbox(), [], None, self.new_replica()
        self.sent.clear()
        self.tick_at, self.rests_until, self.stopped_until, self.stops_after = None, 0.0, 0.0, None
        self.state = self.log.load(begin(self.settings, SECOND // 10))
        self.member = Member(f"m{self.site.place}/{self.life}", self.keys, LEASE, {NAME: self.replica}, {NAME: ""})
        self.say("feed begins")
        self.look(self.life)

    def say(self, text: str) -> None:
        """Keeps a line of what happened."""
        self.site.say(text)

    def end(self) -> None:
        """It is killed."""
        self.say("feed ends")
        self.is_up, self.ends_after, self.era = False, None, self.era + 1
        self.site.ended()
        self.site.later(self.away, self.start)

    def is_stopped(self) -> bool:
        """Whether nothing of it goes on."""
        return not self.is_up or self.site.now < self.stopped_until

    def leads(self) -> bool:
        """Whether it believes that it leads."""
        return bool(self.replica.leads)

    def stop(self, seconds: float) -> None:
        """It is stopped, and goes on after so many seconds."""
        self.say(f"feed is stopped for {seconds} s")
        self.site.ended()  # (what it has read and not kept is nobody's while it stands still)
        self.stopped_until = self.site.now + seconds
        self.site.later(seconds + 0.0001, lambda life: self.go_on() if life == self.life else None, self.life)

    def look(self, life: int) -> None:
        """Its member looks what is to be done, again and again."""
        if life != self.life or not self.is_up:
            return
        self.site.later(OFTEN, self.look, life)
        if self.is_stopped() or self.member is None:
            return
        try:
            if self.revision is None:
                self.revision = self.member.begin(self.site.now) + 1
                self.replica.is_due = True
            self.pull()
            self.member.tick(self.site.now)
        except Compacted:
            self.say("what is to be watched is compacted")
            self.revision = None
        except OSError as fault:
            self.say(f"store: {fault}")
        self.go_on()

    def pull(self) -> None:
        """Takes in what the store has changed. Raises Compacted."""
        if self.is_stopped() or self.revision is None or self.keys.is_cut_off or self.member is None:
            return
        for revision, it in self.site.world.keys.seen(ROOT, self.revision):
            self.member.see([it], self.site.now)
            self.revision = revision + 1

    def pull_soon(self) -> None:
        """The store has changed something: it is seen after a while."""
        site = self.site
        late = site.sees_late if site.now < site.sees_late_until else 0.0
        site.later(late + site.world.dice("seen", site.place, site.world.keys.revision).uniform(*SEEN_AFTER), self.pull_quietly, self.life)

    def pull_quietly(self, life: int) -> None:
        """Takes in what is seen; what is compacted is seen by the next look."""
        if life == self.life and self.is_up:
            try:
                self.pull()
            except Compacted:
                return
            self.go_on()

    def load(self) -> None:
        """Reads the store, and goes on from what that has."""
        self.site.ended()
        try:
            self.state = self.replica.load(self.state)
        except OSError as fault:
            self.say(f"unread: {fault}")
            return
        self.entry = max(self.entry, self.state.entry)
        self.begin_anew()

    def begin_anew(self) -> None:
        """It begins in another role, or from another state."""
        self.era += 1
        self.inbox, self.left = Inbox(), []
        self.sent.clear()
        self.inbox.post(Began())
        if self.leads():
            self.say(f"leads by {self.replica.won}")
            self.site.world.tally["leads"] += 1
            self.site.later(0.0, self.site.begun)

    def begin_to_lead(self) -> None:
        """It leads from now on."""
        found = self.replica.newest(self.state)
        if not self.replica.is_due:
            self.replica.begin_to_lead(self.replica.won)
            self.state = following.led(found)
            self.entry = max(self.entry, found.entry)
            self.begin_anew()

    # ---- events

    def of_era(self, era: int, event: Answered) -> None:
        """A request of the feed's `era` was answered."""
        if era == self.era and self.is_up:
            self.sent.pop(event.channel, None)
            self.give(event)

    def give(self, event: Any) -> None:
        """Takes an event in; what is of the origins and the folders is for the one that leads."""
        if not self.is_up or (isinstance(event, ListRead | FolderRead | FallbackRead) and not self.leads()):
            return
        self.inbox.post(event)
        if not self.is_busy:
            self.go_on()

    def go_on(self) -> None:
        """Does what is left of a step, takes the events that have come, and what was given."""
        if self.is_busy or self.is_stopped():
            return
        self.is_busy = True
        left, self.left = self.left, []
        self.perform(left)
        while not self.is_stopped() and not self.left and self.site.now >= self.rests_until:
            if self.replica.is_due:
                if self.revision is None:
                    break
                self.load()
                if self.replica.is_due:
                    break
            event = self.inbox.take()
            if event is None and not self.leads() and following.has_all(self.state) and (found := self.replica.next()) is not None:
                event = found
            if event is not None:
                self.step(event)
            elif self.replica.may_lead(self.state):
                self.begin_to_lead()
            elif not self.replica.is_due:
                break
        self.is_busy = False
        self.replica.look_after(self.state)
        if not self.is_stopped() and self.site.now >= self.rests_until:
            self.wake()

    def step(self, event: Any) -> None:
        """One step of its role, and what is to be done."""
        self.steps += 1
        before = self.state
        self.has_led = self.leads()  # (its member may end that before the step's actions are done)
        does = programme.step if self.has_led else following.step
        self.state, actions = does(before, event, self.site.now, self.site.clock())
        if isinstance(event, ListRead) and self.has_led:
            self.site.taken(event)
        self.kept, self.event = before, event
        self.perform(actions)

    def perform(self, actions: list[Any]) -> None:
        """Does the `actions`, unless it ends or is stopped within them."""
        for place, it in enumerate(actions):
            if self.stops_after is not None:
                count, seconds = self.stops_after
                self.stops_after = (count - 1, seconds) if count > 0 else None
                if count <= 0:
                    self.left = actions[place:]
                    self.stop(seconds)
                    return
            if self.ends_after is not None:
                if self.ends_after <= 0:
                    self.end()
                    return
                self.ends_after -= 1
            if isinstance(it, Store):
                if not self.keep(it.state):
                    return
                self.kept = it.state
            elif isinstance(it, Find):
                self.site.breach("found by trial", it.channel, "")
            else:
                self.do(it)

    def keep(self, state: State) -> bool:
        """Keeps a state: in the store if it leads, and for itself. Whether it could."""
        if self.has_led:
            try:
                self.replica.write(state)
            except Outrun as fault:
                self.say(f"outrun: {fault}")
                self.site.world.tally["outrun"] += 1
                self.state = self.kept
                self.site.ended()
                return False
            except OSError as fault:
                self.say(f"unkept: {fault}")
                self.state, self.rests_until = self.kept, self.site.now + RETRY
                self.site.ended()
                self.inbox.post_first(self.event)
                return False
            self.site.world.written(self, state)
            self.site.kept(state)
        self.log.write(state)
        self.entry = state.entry
        return True

    def send(self, it: Send) -> None:
        """Sends a request."""
        if it.request.entry > self.entry:
            self.site.breach("given before it is stored", it.channel, f"{it.request.what} of the entry {it.request.entry}, and the log has {self.entry}")
        self.sent[it.channel] = it.request
        self.site.send(it.channel, it.request)

    def wake(self) -> None:
        """Has time tick when the state needs it."""
        at = (programme.wake if self.leads() else following.wake)(self.state, self.site.now)
        if at is None or (self.tick_at is not None and self.site.now < self.tick_at <= at):
            return
        at = max(at, self.site.now + 0.001)
        self.tick_at, era = at, self.era

        def tick() -> None:
            if self.era == era and self.tick_at == at:
                self.tick_at = None
                self.give(Ticked())
        self.site.later(at - self.site.now, tick)


class Front:
    """All feeds, as the world sees them: what it gives comes to those that believe they lead."""

    def __init__(self, world: GroupWorld) -> None:
        self.world, self.steps = world, 0

    @property
    def is_up(self) -> bool:
        """Whether anybody reads."""
        return bool(self.leading())

    @property
    def life(self) -> int:
        """How many feeds began."""
        return sum(it.node.life + it.node.era for it in self.world.sites)

    def leading(self) -> list[Node]:
        """The feeds that believe they lead, and go on."""
        return [it.node for it in self.world.sites if it.node.leads() and not it.node.is_stopped()]

    def give(self, event: Any) -> None:
        """Gives an event. (Decisions come by the store: a machine that is cut off from that has none.)"""
        for it in self.leading():
            if not (it.keys.is_cut_off and isinstance(event, FolderRead)):
                it.give(event)

    def start(self) -> None:
        """All begin."""
        for it in self.world.sites:
            it.node.start()


class GroupWorld(World):
    """The world of a `plan` with several machines; the rest as in World."""

    def __init__(self, plan: Plan, make: Callable[[], Any] = Controller, is_loud: bool = False, has_text: bool = True) -> None:
        super().__init__(plan, make, is_loud, has_text)
        self.has_text = has_text
        self.keys = Keys(lambda: self.now)
        self.sites = [Site(self, place) for place in range(MACHINES)]
        self.feed = Front(self)  # type: ignore[assignment]
        for it in self.sites:
            self.keys.watchers.append(it.node.pull_soon)
        self.ledger: dict[tuple[str, int], tuple[str, int, int]] = {}
        self.texts: dict[tuple[str, int, int], tuple[int, str]] = {}
        self.given: dict[str, dict[int, bytes]] = {}
        self.every(1.0, self.keys.expire)

    def every(self, seconds: float, do: Callable[[], None]) -> None:
        """Does something again and again."""
        def again() -> None:
            do()
            self.later(seconds, again)
        self.later(seconds, again)

    # ---- what is seen

    def written(self, node: Node, state: State) -> None:
        """The store has a state, by a feed that leads: its entries are one sequence."""
        for channel, it in state.renditions.items():
            known = self.given.setdefault(f"{channel} {state.life}", {})
            was = known.setdefault(it.stands.entry, it.stands.text)
            if was != it.stands.text and it.stands.entry and not it.controller.anew:
                self.tally["texts that changed"] += 1

    def seen(self, site: Site, channel: str, controller: Any, is_ahead: bool) -> None:
        """A controller of a machine wrote a list."""
        name, items = self.renditions[channel], list(controller.items(channel))
        if name in site.viewers:
            site.viewers[name].see(items, self.now, is_ahead)
        elif items and items[-1][0] >= self.viewers[name].last and not is_ahead:
            site.come(name, copy_of(self.viewers[name]))
        for number, uri, discontinuity, *_ in items:
            had = self.ledger.setdefault((name, number), (uri, discontinuity, site.place))
            if had[:2] != (uri, discontinuity):
                self.breach("replicas contradict", f"{name} m{site.place}", f"number {number} is {had[:2]} on m{had[2]}, and {(uri, discontinuity)}")
        if items and items[-1][0] >= self.viewers[name].last:
            self.viewers[name].see(items, self.now, is_ahead)
        it = controller.channels.get(channel) if hasattr(controller, "channels") else None
        if it is not None and items and not is_ahead:
            self.compare(site, name, it.text() or "", items)

    def compare(self, site: Site, name: str, text: str, items: list[Written]) -> None:
        """Compares the lists of two machines that begin and end with the same numbers."""
        key = name, items[0][0], items[-1][0]
        had = self.texts.setdefault(key, (site.place, text))
        if had[0] != site.place:
            self.tally["replicas equal" if had[1] == text else "replicas of other bytes"] += 1
            if had[1] != text and self.is_loud:
                lines = [it for it in text.splitlines() if it not in had[1].splitlines()], [it for it in had[1].splitlines() if it not in text.splitlines()]
                self.say(f"m{site.place} {name} other bytes than m{had[0]}: {lines}")

    def judge(self) -> list[Breach]:
        """What was broken, also for the viewers of each machine."""
        found = [*super().judge(), *(replace_who(one, site.place) for site in self.sites for it in site.all_viewers for one in it.breaches)]
        return sorted(found, key=lambda it: it.at)

    # ---- faults

    def site_of(self, fault: Fault) -> Site:
        """The machine of a fault."""
        leading = [it for it in self.sites if it.node.leads()]
        dice = self.dice("machine", fault.at, fault.kind)
        return dice.choice(leading) if leading and (fault.who == LEADER or dice.random() < 0.4) else dice.choice(self.sites)

    def fault_machine_lost(self, fault: Fault, names: tuple[str, ...]) -> None:
        """A machine is lost with all that it has but its disk, and comes back."""
        it = self.site_of(fault)
        self.kill(it, fault.size, self.plan.names)
        it.viewers.clear()  # (its viewers go to another one)
        it.node.away = fault.size
        if it.node.is_up:
            it.node.end()

    def kill(self, site: Site, seconds: float, names: tuple[str, ...]) -> None:
        """Processes of controllers of a machine are killed, and away for so many seconds."""
        for it in {id(it): it for it in (site.processes[name] for name in names)}.values():
            it.controller, it.life, it.away_until, it.busy_until = self.make(), it.life + 1, self.now + seconds, 0.0

    def fault_cable_drawn(self, fault: Fault, names: tuple[str, ...]) -> None:
        """A machine is cut off from the store."""
        self.cut([self.site_of(fault)], fault.size)

    def cut(self, sites: list[Site], seconds: float) -> None:
        """Machines are cut off from the store for so many seconds."""
        for it in sites:
            it.node.keys.is_cut_off = True

        def back() -> None:
            for it in sites:
                it.node.keys.is_cut_off = False
            for name in self.plan.names:
                self.folder_read(name)
        self.later(seconds, back)

    def fault_store_away(self, fault: Fault, names: tuple[str, ...]) -> None:
        """The store has no majority."""
        self.cut(self.sites, fault.size)

    def fault_store_refuses(self, fault: Fault, names: tuple[str, ...]) -> None:
        """The store is full for a while."""
        self.keys.is_full = True

        def has_room() -> None:
            self.keys.is_full = False
        self.later(fault.size, has_room)

    def fault_feed_stopped(self, fault: Fault, names: tuple[str, ...]) -> None:
        """A feed is stopped between two actions, and goes on later."""
        it = self.site_of(fault).node
        if it.is_up:
            it.stops_after = fault.number, fault.size

    def fault_answers_of_the_store_lost(self, fault: Fault, names: tuple[str, ...]) -> None:
        """Changes are made, or aren't, without an answer."""
        dice = self.dice("lost", fault.at)
        self.site_of(fault).node.keys.loses += [dice.choice(("answer", "answer", "request", "")) for _ in range(fault.number)]

    def fault_changes_of_the_store_late(self, fault: Fault, names: tuple[str, ...]) -> None:
        """Changes are made seconds after nobody waits for them any more."""
        self.site_of(fault).node.keys.loses += ["late"] * fault.number

    def fault_store_compacted(self, fault: Fault, names: tuple[str, ...]) -> None:
        """The store forgets what was; a machine may be cut off meanwhile."""
        if fault.size:
            self.cut([self.site_of(fault)], fault.size)
        self.later(fault.size / 2, self.keys.compact)

    def fault_machine_sees_late(self, fault: Fault, names: tuple[str, ...]) -> None:
        """What a machine watches comes late for a while."""
        it = self.site_of(fault)
        it.sees_late, it.sees_late_until = fault.size, self.now + 4 * fault.size

    def fault_controller_killed(self, fault: Fault, names: tuple[str, ...]) -> None:
        """Processes of controllers of one machine, or of all, are killed."""
        its = self.sites if self.dice("all", fault.at).random() < 0.2 else [self.site_of(fault)]
        for it in its:
            self.kill(it, fault.size, names)

    def fault_controller_slow(self, fault: Fault, names: tuple[str, ...]) -> None:
        """Controllers of a machine take longer for a while."""
        it = self.site_of(fault)
        for name in names:
            it.processes[name].slow, it.processes[name].slow_until = fault.size, self.now + fault.number

    def fault_request_lost(self, fault: Fault, names: tuple[str, ...]) -> None:
        """The next requests of a machine don't arrive."""
        for name in names:
            self.site_of(fault).lose[name] += [("request", fault.size)] * (fault.number + 1)

    def fault_answer_lost(self, fault: Fault, names: tuple[str, ...]) -> None:
        """The next requests of a machine have their effect, but aren't answered."""
        for name in names:
            self.site_of(fault).lose[name] += [("answer", fault.size)] * (fault.number + 1)

    def fault_feed_ended(self, fault: Fault, names: tuple[str, ...]) -> None:
        """A feed ends after some actions, and begins anew."""
        it = self.site_of(fault).node
        if it.is_up:
            it.ends_after, it.away = fault.number, fault.size


def copy_of(it: Viewers) -> Viewers:
    """Viewers who have seen what `it` has."""
    return replace(it, ledger=dict(it.ledger), seen=dict(it.seen), times=dict(it.times), left=list(it.left), pods=list(it.pods), since=list(it.since), breaches=[])


def replace_who(it: Breach, place: int) -> Breach:
    """The breach `it` as one of the viewers of a machine."""
    return it._replace(who=f"m{place} {it.who}")


def draw_group(seed: int, each: float = 20.0) -> Plan:
    """The plan of a `seed`, with faults of machines and of their store beside some of the others."""
    plan, dice = draw(seed, each), random.Random(f"group {seed}")
    kinds = [it for it in GROUP if dice.random() < 0.6] or ["machine lost"]
    found, at = [], 4.0 + dice.expovariate(1 / each)
    while at < plan.length - 15:
        kind = dice.choice(kinds)
        sizes, numbers = GROUP[kind]
        found.append(Fault(round(at, 2), kind, dice.choice((ALL, LEADER)), dice.choice(sizes), dice.choice(numbers)))
        at += dice.expovariate(1 / each)
    others = [it for it in plan.faults if dice.random() < 0.5]
    return replace(plan, faults=tuple(sorted([*found, *others])))
