"""The world of a simulated day: a clock that goes by events, packagers, controllers, viewers, who decides, and the faults of a plan."""
from __future__ import annotations

import heapq
import json
import random
from collections import Counter, deque
from collections.abc import Callable
from dataclasses import dataclass, field
from typing import Any

from adsplice_plant import finding
from adsplice_plant.settings import OTHERS
from adsplice_plant.state import State
from adsplice_plant.web import Answer
from adsplice_rules.edge import Edge
from adsplice_rules.edge import Request as Asked

from .controller import Controller, Written, written
from .feed import Answered, AskedInVain, Copies, FallbackRead, Feed, FolderRead, Found, ListRead, Log
from .packager import BASE, EPOCH, Packager, plain
from .plan import ALL, FALLBACK, SPELLINGS, Fault, Plan, Span
from .viewers import ADS, Ads, Breach, Viewers, cut_of

LIMIT = 5.0  # seconds after which a request is given up
LATENCY = 0.012  # seconds to a controller and back
QUIET = 60.0  # seconds after a day in which renditions whose numbers are apart at its end may come together
MOST_OFTEN = 0.25  # seconds between two looks at an origin, at the least
REFUSING = ("J3", "J4", "J1", "apart", "initialisation sections", "over the target")  # how a wrong decision is wrong; the last two are by hand


class RulesController:
    """A controller by the rules: slow, and without a doubt."""

    def __init__(self) -> None:
        self.edge = Edge()
        self.answer = self.edge.answer

    def items(self, name: str) -> list[Written]:
        """As in Controller."""
        it = self.edge.channels.get(name)
        return [] if it is None or not it.accepted else [written(one) for one in it.window()]

    def held(self, name: str, id_: str) -> bool:
        """As in Controller."""
        it = self.edge.channels.get(name)
        return it is not None and it.store.entry(id_) is not None


@dataclass
class Process:
    """A process of controllers: `life` counts how often it was started; `slow` by so many seconds until a moment."""

    controller: Any
    life: int = 0
    away_until: float = 0.0
    slow: float = 0.0
    slow_until: float = 0.0
    busy_until: float = 0.0


@dataclass
class Folder:
    """The decision files of a rendition, by their names: each with its stamp and its bytes."""

    files: dict[str, tuple[tuple[int, int, int], bytes]] = field(default_factory=dict)


@dataclass
class Late:
    """Lists that are read `until` a moment are those from `by` seconds before; each second one if that `is_by_turns`."""

    by: float
    until: float
    is_by_turns: bool = False
    reads: int = 0


class World:
    """The world of a `plan`. `make`: makes a controller; `is_loud`: what happens is kept in a `log`; `has_text`: the feed's log is kept as text."""

    def __init__(self, plan: Plan, make: Callable[[], Any] = Controller, is_loud: bool = False, has_text: bool = True) -> None:
        self.plan, self.make, self.is_loud = plan, make, is_loud
        self.now, self.count = 0.0, 0
        self.queue: list[tuple[float, int, Callable[..., None], tuple[Any, ...]]] = []
        self.packagers = {name: Packager(plan, name) for name in plan.names}
        self.twins = {name: Packager(plan, name, it) for name, it in self.packagers.items()} if plan.twin is not None else {}
        self.looks: Counter[str] = Counter()
        self.answers: dict[str, Packager] = {**self.packagers}  # who of two packagers answered last
        self.renditions = {plan.channel(name): name for name in plan.names}
        one = Process(make())
        self.processes = {name: Process(make()) if plan.processes else one for name in plan.names}
        self.ads = Ads()
        self.read: dict[str, dict[str, float]] = {name: {} for name in plan.names}  # segments in lists that the feed read, and when
        self.unkept: list[tuple[str, str]] = []
        self.viewers = {name: Viewers(plan, it, self.packagers, self.ads, self.read) for name, it in self.packagers.items()}
        self.folders = {name: Folder() for name in plan.names}
        self.fallbacks: dict[str, bytes | None] = dict.fromkeys(plan.names)
        self.fallback_version, self.stamp = 0, 0
        self.breaches: list[Breach] = []
        self.log: list[str] = []
        self.lines: dict[tuple[str, str], tuple[int, str]] = {}  # what was told last
        self.tally: Counter[str] = Counter()
        self.jump = 0.0  # of this machine's clock
        self.unread_until: dict[str, float] = {}
        self.late: dict[str, Late] = {}
        self.cut_off: dict[str, int] = {}
        self.was_sent: dict[str, bytes] = {}
        self.lose: dict[str, list[tuple[str, float]]] = {name: [] for name in plan.names}
        self.spoil: deque[Fault] = deque()  # what happens to the decisions that come next
        self.decided: dict[str, str] = {}  # the ID of a break of the programme's, by its name
        self.asked: dict[str, str] = {}
        self.vain: set[str] = set()  # the IDs of breaks that were answered without ads
        self.feed = Feed(plan, self, Log() if has_text else Copies())

    # ---- time

    def clock(self) -> int:
        """The time of day in nanoseconds from 1970."""
        return EPOCH * 10**6 + round((self.now + self.jump) * 10**9)

    def at(self, when: float, do: Callable[..., None], *args: Any) -> None:
        """Does something at a moment."""
        self.count += 1
        heapq.heappush(self.queue, (max(when, self.now), self.count, do, args))

    def later(self, seconds: float, do: Callable[..., None], *args: Any) -> None:
        """Does something so many seconds from now."""
        self.at(self.now + seconds, do, *args)

    def dice(self, *what: object) -> random.Random:
        """Dice for `what`, which nothing else changes."""
        return random.Random(" ".join(map(str, (self.plan.seed, *what))))

    # ---- telling

    def say(self, text: str) -> None:
        """Keeps a line of what happened."""
        if self.is_loud:
            self.log.append(f"{self.now:8.3f} {text}")

    def breach(self, kind: str, who: str, text: str) -> None:
        """A promise of a `kind` was broken."""
        self.breaches.append(Breach(kind, self.now, who, text))
        self.say(f"BREACH {kind} {who}: {text}")

    def told(self, it: Any) -> None:
        """The feed tells a line, unless it is as it was told last."""
        if (it.who, it.fault) == ("written", "Others"):
            self.breach("reckons other numbers", it.channel, it.text)
        key, said = (it.channel, it.who), (it.status, it.fault)
        if self.lines.get(key) == said and not it.is_again:
            return
        self.lines[key] = said if not it.is_again else (0, "")
        self.tally["lines"] += 1
        self.say(f"tells {it.channel or 'p'} {it.who} {it.status or '-'} {it.fault or '-'}: {it.text}")

    # ---- the day

    def run(self) -> list[Breach]:
        """Plays the day; answers the promises that were broken."""
        for name in self.plan.names:
            self.change_fallback(name, 0)
            self.at(self.dice("reader", name).uniform(0.01, 0.9), self.look, name)
        for it in self.plan.breaks if not self.plan.asks else ():
            self.at((it.start - it.ahead) / 1000, self.decide, it.name, it.name)
        for fault in self.plan.faults:
            self.at(fault.at, self.happen, fault)
        for name, when in self.plan.later:
            self.at(when, self.feed.join, name)
        self.feed.start()
        self.go_on(self.plan.length)
        if not self.breaches and self.apart():
            self.go_on(self.plan.length + QUIET)
        return self.judge()

    def go_on(self, until: float) -> None:
        """Has all happen that happens up to a moment."""
        while self.queue and self.queue[0][0] <= until:
            self.now, _, do, args = heapq.heappop(self.queue)
            do(*args)

    def judge(self) -> list[Breach]:
        """What was broken, with what is seen at the end alone."""
        found = [*self.breaches, *(one for it in self.viewers.values() for one in it.breaches)]
        for it in self.viewers.values():
            if not it.ledger:
                found.append(Breach("nothing shown", self.now, it.packager.name, ""))
        return sorted([*found, *self.unequal(), *self.apart()], key=lambda it: it.at)

    def apart(self) -> list[Breach]:
        """Whether the renditions' numbers of the newest cut that all have aren't equal."""
        known = {name: it.numbers() for name, it in self.viewers.items()}
        common = set.intersection(*(set(it) for it in known.values()))
        last = {name: it[max(common)] for name, it in known.items()} if common else {}
        alike = [{last[name][0] for name in last if (name in self.plan.long) == is_long} for is_long in (False, True)]
        kinds = ["media numbers apart"] if any(len(it) > 1 for it in alike) else []
        kinds += ["discontinuity numbers apart"] if len({it[1] for it in last.values()}) > 1 else []
        if kinds and kinds[0].startswith("media") and (self.plan.fill == OTHERS or any(self.lacks_cut(it) for it in self.viewers.values())):
            kinds.pop(0)  # (nobody had what lacks there, so that its numbers are fewer; or a pod of another count filled a break there alone)
        return [Breach(kinds[0], self.now, "", f"of the cut {max(common)}: {[*last.values()]}")] if kinds else []

    def lacks_cut(self, viewers: Viewers) -> bool:
        """Whether a rendition lacks a cut that the feed never read in its lists, and in those of no other rendition until its viewers came past it."""
        own, shown = {cut_of(uri) for uri in viewers.read[viewers.packager.name]}, viewers.times
        lost = {cut_of(it.uri) for one in self.packagers.values() for it in one.all if cut_of(it.uri) > min(shown, default=0)} - own - shown.keys()
        for cut in lost:
            past = min((at for number, at in shown.items() if number > cut), default=None)
            read = [at for known in ([viewers.read[viewers.packager.name]] if self.plan.kinds else self.read.values()) for uri, at in known.items() if cut_of(uri) == cut]
            if past is not None and all(at > past for at in read):
                return True
        return False

    def unequal(self) -> list[Breach]:
        """The breaks that aren't filled alike in all renditions."""
        found: list[Breach] = []
        for place, one in enumerate(self.plan.breaks):
            if any(it.reached is None or it.reached < one.planned + 3 * self.plan.target for it in self.viewers.values()) or not self.came_in_time(one):
                continue
            pods = {name: next(((pod.name, pod.version) for pod in it.pods if pod.place == place), None) for name, it in self.viewers.items()}
            if self.plan.fill == OTHERS:
                pods = {name: it for name, it in pods.items() if it is not None} or pods
            shown = min((pod.at for it in self.viewers.values() for pod in it.pods if pod.place == place), default=self.now)
            pods = {name: it for name, it in pods.items() if it is not None or not self.viewers[name].began_after(shown)}  # (one that comes first within a break begins after it)
            self.tally["breaks"] += 1
            self.tally["filled"] += any(pods.values())
            self.tally["own pods"] += any(it and it[0] != FALLBACK for it in pods.values())
            if len({it[0] if it and it[0] == FALLBACK else it for it in pods.values()}) > 1:
                kind = "filled in a part" if None in pods.values() else "filled unequally"
                at = max((pod.at for it in self.viewers.values() for pod in it.pods if pod.place == place), default=0.0)
                found.append(Breach(kind, at, "", f"{one.name} at {one.start}: {pods}"))
        return found

    def came_in_time(self, one: Span) -> bool:
        """Whether the feed read the begin of a break in all renditions within 2 target durations. One that came later than the others begins after a break
        that they show."""
        begins: list[float] = []
        if any(when * 1000 >= one.start for _, when in self.plan.later):
            return False
        for name, it in self.packagers.items():
            near = next((cut for cut in it.all if -it.length // 2 < cut.begin - one.start <= it.length // 2), None)
            if near is None or (at := self.read[name].get(f"{BASE}/{name}/{near.uri}")) is None:
                return False
            begins.append(at)
        return max(begins) - min(begins) <= 1.5 * self.plan.target * max(map(self.plan.times, self.plan.names)) / 1000

    # ---- origins

    def look(self, name: str) -> None:
        """The feed's reader looks at the origin of a rendition."""
        self.later(max(MOST_OFTEN, min(10.0, self.plan.target / 2000)), self.look, name)
        self.read_once(name)

    def read_once(self, name: str) -> None:
        """The list of a rendition is read, if it can be."""
        if not self.feed.is_up or self.now < self.unread_until.get(name, 0.0):
            return
        it, now = self.who_answers(name), round(self.now * 1000)
        late = self.late.get(name)
        if late is not None:
            late.reads += 1
        is_late = late is not None and self.now < late.until and (late.reads % 2 == 0 or not late.is_by_turns)
        body = it.older(now, round(late.by * 1000)) if late is not None and is_late else it.listed(now)
        if body is None:
            return
        if cut := self.cut_off.pop(name, 0):
            lines = body.split(b"#EXT-X-PROGRAM-DATE-TIME")
            body = b"#EXT-X-PROGRAM-DATE-TIME".join(lines[:max(2, len(lines) - cut)])
        if self.was_sent.get(name) == body:
            return
        self.was_sent[name] = body
        self.feed.give(ListRead(self.plan.channel(name), body, self.now))

    def who_answers(self, name: str) -> Packager:
        """The packager of a rendition that answers now: of two behind one address often another one than before, as long as the day lasts."""
        if self.plan.twin is not None and self.now <= self.plan.length:
            self.looks[name] += 1
            if self.dice("who answers", name, self.looks[name]).random() >= self.plan.twin.stays:
                self.answers[name] = self.packagers[name] if self.answers[name] is self.twins[name] else self.twins[name]
        return self.answers[name]

    def taken(self, event: ListRead) -> None:
        """The feed takes a list in: remembers which segments it has read."""
        name = self.renditions[event.channel]
        known = self.read[name]
        for line in event.body.decode().splitlines():
            if line and line[0] != "#" and (uri := plain(line, name)) not in known:
                known[uri] = self.now
                self.unkept.append((name, uri))

    def untaken(self, event: ListRead) -> None:
        """The feed couldn't keep what it made of a list: what it has just read in that is forgotten."""
        known = self.read[self.renditions[event.channel]]
        for uri in [uri for uri, at in known.items() if at == self.now]:
            del known[uri]
        self.unkept = [(name, uri) for name, uri in self.unkept if uri in self.read[name]]

    def kept(self, state: State) -> None:
        """The store has the `state`: what its lists have of what was read so far stays read, whatever happens to the feed."""
        if self.unkept:
            there = {name: {plain(it.uri, name) for it in state.renditions[channel].stands.repairer.last}
                     for name in self.plan.names if (channel := self.plan.channel(name)) in state.renditions}
            self.unkept = [(name, uri) for name, uri in self.unkept if uri not in there.get(name, ())]

    def ended(self) -> None:
        """The feed ended: what it read since it kept something is forgotten."""
        for name, uri in self.unkept:
            self.read[name].pop(uri, None)
        self.unkept.clear()

    def begun(self) -> None:
        """A feed has begun: it reads all."""
        self.was_sent.clear()
        for name in self.plan.names:
            if self.plan.has_fallback:
                self.feed.give(FallbackRead(self.plan.channel(name), self.fallbacks[name]))
        for name in self.plan.names:
            self.folder_read(name)
        for name in self.plan.names:
            self.later(self.dice("begun", self.feed.life, name).uniform(0.0, 0.3), self.read_once, name)

    # ---- controllers

    def send(self, channel: str, request: Any) -> None:
        """The feed sends a request to a controller."""
        name, life = self.renditions[channel], self.feed.life
        it = self.processes[name]
        self.tally["requests"] += 1
        lost, after = self.lose[name].pop(0) if self.lose[name] and self.is_lost(name, request) else ("", 0.0)
        if it.away_until > self.now:
            self.reply(life, channel, request, 0.005, 0, "", "connection refused")
            return
        up = LATENCY / 2 + (it.slow if self.now < it.slow_until else 0.0)
        if lost == "request":
            self.reply(life, channel, request, after + LATENCY, 0, "", "no answer")
            return
        until = max(self.now + up, it.busy_until)
        it.busy_until = until
        self.at(until, self.arrive, it, it.life, life, channel, request, lost, after, self.now)

    def is_lost(self, name: str, request: Any) -> bool:
        """Whether the next loss of a rendition is of this kind of request."""
        return True

    def arrive(self, it: Process, process: int, life: int, channel: str, request: Any, lost: str, after: float, since: float) -> None:
        """A request comes to its controller, and has its effect."""
        if it.life != process:
            self.reply(life, channel, request, 0.005, 0, "", "connection reset")
            return
        path = f"/channels/{channel}" + (f"/{request.what.path}" if request.what.path else "")
        reply = it.controller.answer(Asked(request.what.method, path, request.body))
        self.say(f"{channel} {request.what.name} {request.entry} -> {reply.status} {reply.body.strip() if reply.status >= 400 else ''}{' (lost)' if lost else ''}")
        if request.what.path == "origin" and request.what.method == "PUT":
            self.tally["lists"] += 1
            if reply.status == 204:
                self.viewers[self.renditions[channel]].see(it.controller.items(channel), self.now, request.is_ahead)
            else:
                self.tally[f"list refused {reply.body[:3]}"] += 1
        took = self.now - since
        if lost or took > LIMIT:
            self.reply(life, channel, request, after if lost else 0.0, 0, "", "no answer")
            return
        self.reply(life, channel, request, LATENCY / 2, reply.status, reply.body.partition("\n")[0] if reply.status != 200 else "", "", reply.body.encode() if reply.status == 200 else b"")

    def reply(self, life: int, channel: str, request: Any, seconds: float, status: int, line: str, why: str, body: bytes = b"") -> None:
        """A controller's answer, or that there is none, comes to the feed."""
        self.later(seconds, self.feed.answered, life, Answered(channel, request, status, line, why, body))

    def find(self, channel: str, found: Any) -> None:
        """The feed doesn't know the numbers that a controller has: they are found by trial, all at once here."""
        name, life = self.renditions[channel], self.feed.life
        it = self.processes[name]
        if it.away_until > self.now:
            self.later(0.005, self.feed.answered, life, Found(channel, None))
            return

        def push(text: bytes) -> Answer:
            reply = it.controller.answer(Asked("PUT", f"/channels/{channel}/origin", text))
            return Answer(reply.status, reply.body.encode())
        written = it.controller.answer(Asked("GET", f"/channels/{channel}/live.m3u8", b""))
        answer = finding.find(found, written.body.encode(), push) if written.status == 200 else None
        is_found = answer is not None and answer.status == 204
        self.say(f"{channel} FIND -> {is_found}")
        self.tally["found by trial"] += 1
        self.viewers[name].see(it.controller.items(channel), self.now)
        self.later(0.05, self.feed.answered, life, Found(channel, found if is_found else None))

    # ---- decisions

    def ask(self, known: tuple[Any, ...]) -> None:
        """The feed asks for the decisions of breaks."""
        for one in known:
            if one.id not in self.asked:
                name = self.name_of(one)
                self.asked[one.id] = name
                self.say(f"asked for {one.id} ({name})")
                self.later(self.dice("answer", one.id).uniform(0.02, 0.4), self.decide, name or "none", one.id)
            elif one.id in self.vain:  # (it was answered so, and isn't asked again)
                self.later(0.01, self.in_vain, one.id)

    def in_vain(self, id_: str) -> None:
        """There are no ads for the break that the feed knows as `id_`."""
        self.vain.add(id_)
        self.feed.give(AskedInVain(id_))

    def name_of(self, one: Any) -> str:
        """Which break of the programme a break of the feed's is."""
        for it in self.plan.breaks:
            if one.id == it.name:
                return it.name
        at = one.start // 10**6 - EPOCH
        clocks = {cut.clock for it in self.packagers.values() for cut in it.all} | {0}
        near = [it for clock in clocks for it in self.plan.breaks if abs(it.start + clock - at) <= self.plan.target // 2]
        return min(near, key=lambda it: abs(it.start - 1000 * self.now)).name if near else ""

    def decide(self, name: str, id_: str, version: int = 0) -> None:
        """The break `name`, which the feed knows as `id_`, is decided."""
        if not name or name == "none":
            self.in_vain(id_)
            return
        spoil = self.spoil.popleft() if self.spoil and not version else None
        kind, size = (spoil.kind, spoil.size) if spoil else ("", 0.0)
        if kind == "decision late":
            self.later(size, self.decide, name, id_, 1)
            return
        if kind == "no decision":
            self.in_vain(id_)
            return
        bodies = {it: self.pod(it, name, id_, version, spoil.number if spoil and kind == "decision wrong" else -1) for it in self.plan.names}
        self.say(f"decides {id_} ({name}) {kind} {size or ''}")
        file = f"{id_}.json"
        for place, it in enumerate(self.plan.names):
            wait = size * place / max(1, len(self.plan.names) - 1) if kind == "decisions apart" else self.dice("file", id_, version, it).choice((0.0, 0.0, 0.03))
            self.later(wait, self.put_file, it, file, bodies[it])
        if kind == "decision removed":
            for it in self.plan.names:
                self.later(size + self.dice("removed", id_, it).choice((0.0, 0.2)), self.put_file, it, file, None)
        elif kind == "decision changed":
            self.later(size, self.decide, name, id_, version + 1)
        elif kind == "decision withdrawn":
            for it in self.plan.names:
                self.later(size, self.put_file, it, f"w-{file}", json.dumps({"withdraw": id_}).encode())

    def pod(self, rendition: str, name: str, id_: str, version: int, wrong: int = -1) -> bytes:
        """A decision file of the break `name`: the same lengths in each rendition."""
        dice = self.dice("pod", name, version)
        one = next((it for it in self.plan.breaks if it.name == name), None)
        total = one.planned - one.start if one else 2 * self.plan.target
        total = round(total * dice.choice((1, 1, 1, 0.6, 1.3)))
        if wrong == 3 and rendition == self.plan.names[-1]:
            total += self.plan.target * 2
        ads, left = [], total
        each = dice.choice((self.plan.target, self.plan.target, self.plan.target // 2))
        while left > 100:
            lengths = []
            for _ in range(dice.randint(1, 4)):
                if left > 100:
                    lengths.append(min(each, left))
                    left -= lengths[-1]
            ads.append(lengths)
        if wrong == 5 and rendition == self.plan.names[0]:
            ads = [[sum(ad[place:place + 2]) for place in range(0, len(ad), 2)] for ad in ads]
        said = json.dumps({"breaks": [{"id": id_, "ads": self.ads_of(rendition, name, str(version), ads)}]}).encode()
        if wrong == 4 and rendition == self.plan.names[-1]:
            said = said.replace(b'{"segments"', b'{"map": {"uri": "http://ads.example/init.mp4"}, "segments"')
        is_wrong = wrong in (0, 1, 2) and (wrong != 1 or rendition == self.plan.names[-1])
        return {0: said.replace(b"http://", b"ftp://"), 1: said.replace(b'"duration": "', b'"duration": "x'), 2: said[:-3]}[wrong] if is_wrong else said

    def ads_of(self, rendition: str, name: str, version: str, lengths: list[list[int]]) -> list[dict[str, Any]]:
        """The ads of a pod whose segments have these lengths in milliseconds; in a rendition with longer ones those of two and two together."""
        times = self.plan.times(rendition)
        lengths = [[sum(ad[place:place + times]) for place in range(0, len(ad), times)] for ad in lengths]
        section = {"map": {"uri": f"{ADS}{rendition}/{name}/{version}/init.mp4"}} if self.plan.maps else {}
        found = [{**section, "segments": [{"uri": f"{ADS}{rendition}/{name}/{version}/{place}-{number}.ts", "duration": str(one / 1000)} for number, one in enumerate(ad)]}
                 for place, ad in enumerate(lengths)]
        key = rendition, name, version
        self.ads.uris[key] = [one["uri"] for ad in found for one in ad["segments"]]
        self.ads.lasts[key] = sum(map(sum, lengths))
        return found

    def put_file(self, rendition: str, name: str, body: bytes | None) -> None:
        """A file of the folder of a rendition is written, or removed."""
        files = self.folders[rendition].files
        if body is None:
            if name not in files:
                return
            del files[name]
        else:
            self.stamp += 1
            files[name] = (EPOCH * 10**6 + round(self.now * 10**9) + self.stamp, len(body), self.stamp), body
        self.say(f"{rendition}: {name} {'removed' if body is None else 'written'}")
        self.folder_read(rendition)

    def folder_read(self, rendition: str) -> None:
        """The feed reads the folder of a rendition."""
        self.feed.give(FolderRead(self.plan.channel(rendition), dict(self.folders[rendition].files)))

    def finish(self, channel: str, name: str) -> None:
        """The feed moves a file away."""
        if self.folders[self.renditions[channel]].files.pop(name, None) is not None:
            self.later(0.2, self.folder_read, self.renditions[channel])

    def change_fallback(self, rendition: str, version: int) -> None:
        """The fallback file of a rendition is written, in a `version`, or removed if that is -1."""
        if not self.plan.has_fallback:
            return
        dice, half = self.dice("fallback", version), self.plan.target // 2
        lengths = [[dice.choice((self.plan.target, half)) for _ in range(dice.randint(1, 3))] for _ in range(dice.randint(1, 2))]
        self.fallbacks[rendition] = None if version < 0 else json.dumps({"fallback": {"ads": self.ads_of(rendition, FALLBACK, str(version), lengths)}}).encode()
        self.say(f"{rendition}: fallback {version}")
        self.feed.give(FallbackRead(self.plan.channel(rendition), self.fallbacks[rendition]))

    # ---- faults

    def happen(self, fault: Fault) -> None:
        """A fault happens."""
        self.say(f"FAULT {fault}")
        self.tally["faults"] += 1
        names = self.plan.names if fault.who == ALL or fault.who not in self.plan.names else (fault.who,)
        if fault.kind.startswith(("decision", "no decision")):
            self.spoil.append(fault)
            return
        getattr(self, "fault_" + fault.kind.replace(" ", "_").replace("'", ""))(fault, names)

    def fault_begins_again(self, fault: Fault, names: tuple[str, ...]) -> None:
        """Packagers begin again."""
        for name in names:
            self.packagers[name].go_on(round(self.now * 1000))
            self.packagers[name].begin_again(round(self.now * 1000), fault.size)

    def fault_loses_segments(self, fault: Fault, names: tuple[str, ...]) -> None:
        """Packagers lose the segments that begin within so many seconds, and go on with a discontinuity."""
        for name in names:
            self.packagers[name].go_on(round(self.now * 1000))
            self.packagers[name].away_until, self.packagers[name].lost = round((self.now + fault.size) * 1000), 0

    def fault_lags(self, fault: Fault, names: tuple[str, ...]) -> None:
        """Packagers list segments late for a while."""
        for name in names:
            self.packagers[name].lag, self.packagers[name].lag_until = round(fault.size * 1000), round((self.now + fault.number) * 1000)

    def fault_stands_still(self, fault: Fault, names: tuple[str, ...]) -> None:
        """The list of one packager stands still."""
        self.packagers[names[-1]].still_until = round((self.now + fault.size) * 1000)

    def fault_list_cut_off(self, fault: Fault, names: tuple[str, ...]) -> None:
        """The next list that is read lacks its last segments."""
        self.cut_off |= dict.fromkeys(names, fault.number)

    def fault_list_late(self, fault: Fault, names: tuple[str, ...]) -> None:
        """A cache answers older lists for a while."""
        for name in names:
            self.late[name] = Late(fault.size, self.now + fault.number)

    def fault_caches_by_turns(self, fault: Fault, names: tuple[str, ...]) -> None:
        """Two caches answer by turns, one of which has older lists."""
        for name in names:
            self.late[name] = Late(fault.size, self.now + fault.number, True)

    def fault_spelled_otherwise(self, fault: Fault, names: tuple[str, ...]) -> None:
        """Lists are spelled otherwise from now on."""
        for name in names:
            self.packagers[name].spelled = SPELLINGS[fault.number]

    def fault_signals_late(self, fault: Fault, names: tuple[str, ...]) -> None:
        """The date range of the next break comes late into lists."""
        now = self.now * 1000
        one = next((it for it in self.plan.breaks if it.start > now), None)
        for name in names if one is not None else ():
            self.packagers[name].hidden[one.name] = one.announces + round(fault.size * 1000)

    def fault_unread(self, fault: Fault, names: tuple[str, ...]) -> None:
        """Lists aren't read for a while."""
        self.unread_until |= dict.fromkeys(names, self.now + fault.size)

    def fault_request_lost(self, fault: Fault, names: tuple[str, ...]) -> None:
        """The next requests don't arrive."""
        for name in names:
            self.lose[name] += [("request", fault.size)] * (fault.number + 1)

    def fault_answer_lost(self, fault: Fault, names: tuple[str, ...]) -> None:
        """The next requests have their effect, but aren't answered."""
        for name in names:
            self.lose[name] += [("answer", fault.size)] * (fault.number + 1)

    def fault_controller_slow(self, fault: Fault, names: tuple[str, ...]) -> None:
        """Controllers take longer for a while."""
        for name in names:
            self.processes[name].slow, self.processes[name].slow_until = fault.size, self.now + fault.number

    def fault_controller_killed(self, fault: Fault, names: tuple[str, ...]) -> None:
        """Processes of controllers are killed, and away for a while."""
        for it in {id(it): it for it in (self.processes[name] for name in names)}.values():
            it.controller, it.life, it.away_until, it.busy_until = self.make(), it.life + 1, self.now + fault.size, 0.0

    def fault_feed_ended(self, fault: Fault, names: tuple[str, ...]) -> None:
        """The feed ends after some actions, and begins anew."""
        if self.feed.is_up:
            self.feed.ends_after, self.feed.away = fault.number, fault.size

    def fault_packagers_clock(self, fault: Fault, names: tuple[str, ...]) -> None:
        """The clock of all packagers is set."""
        for it in (*self.packagers.values(), *self.twins.values()):
            it.go_on(round(self.now * 1000))
            it.clock += round(fault.size * 1000)

    def fault_machines_clock(self, fault: Fault, names: tuple[str, ...]) -> None:
        """The clock of this machine is set."""
        self.jump += fault.size

    def fault_fallback_changed(self, fault: Fault, names: tuple[str, ...]) -> None:
        """The fallback changes in all renditions, one by one."""
        self.fallback_version += 1
        for place, name in enumerate(self.plan.names):
            self.later(fault.size * place, self.change_fallback, name, self.fallback_version)

    def fault_fallback_removed(self, fault: Fault, names: tuple[str, ...]) -> None:
        """The fallback is removed, and comes again after a while if there is a `size`."""
        for name in self.plan.names:
            self.change_fallback(name, -1)
            if fault.size:
                self.later(fault.size, self.change_fallback, name, self.fallback_version)

    def fault_store_refuses(self, fault: Fault, names: tuple[str, ...]) -> None:
        """The store can't be written for a while."""
        self.feed.refuses_until = self.now + fault.size
