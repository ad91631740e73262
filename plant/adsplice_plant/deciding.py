"""Answers the feed's questions by a VAST ad server: what it gives and is made already fills the break, and the rest is made for the next one."""
from __future__ import annotations

import functools
import json
import threading
import time
from collections import Counter
from collections.abc import Callable, Mapping
from concurrent.futures import Future, ThreadPoolExecutor
from dataclasses import dataclass, field
from pathlib import Path

from . import ad_server, balance, filling, macros, playlist, tracking
from .ad_server import Asking, Found, Lack
from .ad_store import UNMADE, UNREAD, Store, Wanted
from .balance import Balance
from .decide_settings import Section, schedule_in
from .filling import Pod, Ready
from .given_ads import Given, GivenAds
from .ladders import ALONE, Ladder
from .playlist import SECOND, seconds_text
from .vast import Ad
from .words import Fault, shown

NEAR = 10 * SECOND  # how far the start of a question may be from that of the schedule
AHEAD = 60.0  # seconds before a break of the schedule that its ads are asked for, if nothing else is said
PREFETCH = 10.0  # seconds that the ad server has if nobody waits
FILM = 30.0  # seconds for a piece of a file
WITHIN = "2"  # BREAKPOSITION of a break within the programme
SLATE = "slate"  # the ID of what fills up
PREFETCHED = "ahead"  # how the key begins of what is asked for ahead
BUCKETS = (0.05, 0.1, 0.25, 0.5, 1.0, 2.5)
MOST_LACKS = 20  # lines for one break
CLEANED = 3600.0  # seconds between two times that old answers are taken away

Tell = Callable[[str, str, str, str], None]  # who, status, word, text


@dataclass(frozen=True)
class Question:
    """A question of the feed: the `channel`, the break's `id`, its `start` in nanoseconds from 1970 (none if it isn't said), how long it is `planned`
    in nanoseconds, the longest segment (`target`, in seconds), the names of the renditions; and of each one, as far as that is said, how many nanoseconds
    pods have `replaced`, how many they have `shown`, how many of them were decided (`counts`), and how many nanoseconds after its start it is cut (`cuts`)."""

    channel: str
    id: str
    start: int | None
    planned: int | None
    target: int
    renditions: tuple[str, ...]
    replaced: Mapping[str, int] = field(default_factory=dict)
    shown: Mapping[str, int] = field(default_factory=dict)
    counts: Mapping[str, int] = field(default_factory=dict)
    cuts: Mapping[str, int] = field(default_factory=dict)

    def key(self) -> str:
        """By what it is known if it comes again."""
        return f"{self.id} {self.start} {self.planned} {self.target} {' '.join(self.renditions)}"


def question_of(body: bytes) -> Question:
    """The question that the `body` asks; raises ValueError if it asks none."""
    try:
        said = json.loads(body)
        channel, id_, target = said["channel"], said["id"], said.get("target") or 0
        renditions = said.get("renditions") or []
        is_right = isinstance(channel, str) and isinstance(id_, str) and 0 < len(id_.encode()) <= 255 and isinstance(target, int)
        if not is_right or not isinstance(renditions, list) or not all(isinstance(it, str) for it in renditions):
            raise ValueError("a member has another type")
        start = playlist.read_instant(str(said.get("start") or ""))
        return Question(channel, id_, start, filling.planned_of(said.get("planned")), target, tuple(renditions), *(said_of(said.get("ladder"), it) for it in ("replaced", "shown", "decided", "cut")))
    except (ValueError, KeyError, TypeError, AttributeError, RecursionError) as fault:
        raise ValueError(f"it isn't a question of adsplice-feed: {type(fault).__name__} {str(fault)[:80]}") from None


def said_of(ladder: object, member: str) -> dict[str, int]:
    """What a question's `ladder` says of each rendition by this `member`, in thousand millionths of it, as nanoseconds are of seconds; of a rendition of
    which it says none nothing."""
    rows = [it for it in ladder if isinstance(it, dict)] if isinstance(ladder, list) else []
    said = [(it.get("name"), it.get(member)) for it in rows]
    return {name: round(it * SECOND) for name, it in said if isinstance(name, str) and isinstance(it, (int, float)) and abs(it) < 1e9}


@dataclass
class Counts:
    """What is counted of a channel: answers by their status, what was lacking by its word, how long answers took, and nanoseconds that were sold, by
    ads and by the slate."""

    answers: Counter[str] = field(default_factory=Counter)
    lacks: Counter[str] = field(default_factory=Counter)
    took: Counter[float] = field(default_factory=Counter)
    seconds: float = 0.0
    sold: Counter[str] = field(default_factory=Counter)
    tracked: Counter[str] = field(default_factory=Counter)


class Channel:
    """One channel's questions: by its `section`, and the `store` of ads that are made. `tell` prints a line. `answers` is the folder in which
    answers are kept, `given` the one of what the ad server gave, and `balance` the file of how its sound stands. The ad server is asked by `client` while a list waits, and by `patient` before; `films`
    fetches the ads' files."""

    def __init__(self, section: Section, store: Store, tell: Tell, answers: Path, given: Path, balance: Path) -> None:
        self.section, self.store, self.tell, self.outside = section, store, tell, section.outside()
        self.client, self.patient, self.films = (self.outside.client(it) for it in (section.timeout, PREFETCH, FILM))
        self.pool = ThreadPoolExecutor(ad_server.AT_ONCE, f"{section.name}-wrapper")
        self.ladder: Ladder | None = None
        self.answers, self.counts, self.lock = answers, Counts(), threading.Lock()
        self.given = GivenAds(given)
        self.open: dict[str, Future[tuple[int, bytes]]] = {}  # the questions that aren't answered yet
        self.asked_for: set[int] = set()  # breaks of the schedule that were asked for
        self.asked_at = 0  # when it was asked last without a schedule, in nanoseconds from 1970
        self.breaks: list[tuple[int, int | None]] = []  # of the schedule
        self.read: tuple[int, int] | None = None  # the time and the size of the file that has them
        self.cleaned = -1e9  # when old answers were taken away
        self.kept_balance, self.balance = balance, Balance()  # (by the lock)

    def begin(self, now: int) -> None:
        """Takes in what an earlier program kept that isn't over at the instant `now`, in nanoseconds from 1970."""
        self.given.begin(now)
        self.balance = balance.read(self.kept_balance)
        ahead = self.given.ahead().values()
        self.asked_for = {it.start for it in ahead if it.start is not None}
        self.asked_at = max((it.at for it in ahead if it.start is None), default=0)

    # ---- answers

    def answer(self, question: Question) -> tuple[int, bytes]:
        """The status and the body of the answer to the `question`. One that comes again while it is open waits for the same answer."""
        key, mine = question.key(), Future[tuple[int, bytes]]()
        with self.lock:
            going = self.open.setdefault(key, mine)
        if going is not mine:
            return going.result()
        try:
            mine.set_result(self.again(question) or self.first_answer(question))
        except BaseException as fault:
            mine.set_exception(fault)
            raise
        finally:
            with self.lock:
                self.open.pop(key)
        return mine.result()

    def again(self, question: Question) -> tuple[int, bytes] | None:
        """The answer that the `question` has got before; none if it hasn't got a pod."""
        before = self.given.of(question.key()) if question.start is not None else None
        if before is None or not before.body:
            return None
        with self.lock:
            self.counts.answers["200"] += 1
        self.tell(f"vast/{question.id}", "200", "Again", "the question came before, and gets the same answer")
        return 200, before.body.encode()

    def first_answer(self, question: Question) -> tuple[int, bytes]:
        """The status and the body of the answer to the `question`, which has got no pod before."""
        begun = time.monotonic()
        found = Found()
        try:
            found = self.found(question)
            pod = self.pod(question, found)
        except Exception as fault:  # noqa: BLE001  (the feed gets an answer in any case)
            pod = Pod(lacks=[Lack("Wrong", f"{type(fault).__name__}: {str(fault)[:200]}")])
        status = 200 if pod.ready else 204
        body = json.dumps(pod.decision(question.id)) if pod.ready else ""
        self.remember(question, found, body)
        took = time.monotonic() - begun
        self.count(pod, status, took)
        for it in pod.lacks[:MOST_LACKS]:
            self.tell(f"vast/{question.id}", str(status), it.word, it.text)
        if not pod.ready:
            self.tell(f"vast/{question.id}", "204", "-", f"no ads, after {took:.2f} s")
            return 204, b""
        ads = sum(it.length() for it, ad in zip(pod.ready, pod.ads) if ad is not None)
        slate = f", and {seconds_text(pod.length() - ads)} s of the slate" if ads < pod.length() else ""
        self.tell(f"vast/{question.id}", "200", "-", f"{', '.join(it.id for it in pod.ready if it.id != SLATE)}: {seconds_text(ads)} s{slate}, after {took:.2f} s")
        self.keep(question, pod)
        return 200, body.encode()

    def found(self, question: Question) -> Found:
        """What the ad server gives for the break of the `question`, or has given for it before; nothing if no ad can be made for it."""
        if why := self.lacks_ladder(question):
            return Found(lacks=[Lack("NoLadder", why)])
        before = self.given.of(question.key()) if question.start is not None else None
        ahead = None if before else self.take_ahead(question.start)
        if (given := before or ahead) is not None:
            return given.found
        return self.search(self.client, question.planned or self.section.length, time.monotonic() + self.section.timeout)

    def lacks_ladder(self, question: Question) -> str:
        """Why no ad can be made for the renditions of the `question`; empty if some can."""
        if self.ladder is None:
            return "it isn't known yet what the channel's ladder is like"
        missing = [it for it in question.renditions or (ALONE,) if it not in self.ladder.renditions]
        return f"the ladder has no rendition {missing[0]}; it has {', '.join(self.ladder.renditions)}"[:200] if missing else ""

    def pod(self, question: Question, found: Found) -> Pod:
        """What fills the break of the `question`, by what was `found` for it."""
        ladder, planned, is_alone = self.ladder, question.planned or self.section.length, not question.renditions
        if ladder is None:
            return Pod(lacks=found.lacks)
        pod = filling.fill(found, planned, functools.partial(self.ready, ladder=ladder, is_alone=is_alone), self.slate(ladder, is_alone))
        with self.lock:
            if question.start is None:  # (a question by hand is of no break, and its pod isn't shown)
                pod, _ = filling.balanced(pod, self.balance.over)
            else:
                taken, cut = ladder.cut_apart(question.replaced), ladder.cut_apart(question.cuts)
                self.balance.cut(taken - (ladder.cut_apart(question.shown) or 0) if taken is not None else None, ladder.piece // 2)
                pod = self.balance.give(pod, question.start, ladder.of_pictures(question.counts), cut + ladder.shift if cut is not None else None, ladder.frame())
        return Pod(pod.ready, pod.ads, found.lacks + pod.lacks)

    def search(self, client: Asking, planned: int | None, until: float) -> Found:
        """What the ad server gives for a break of `planned` nanoseconds, asked by `client` up to the moment `until`."""
        values = {**macros.of_break(planned, WITHIN), **self.section.macros}
        return ad_server.Search(client, self.pool, self.outside, values, until).run()

    def ready(self, ad: Ad, ladder: Ladder, is_alone: bool) -> Ready | str:
        """The `ad` as it is made for `ladder`, or why it isn't: its best file that can be made counts. `is_alone`: for a channel by itself."""
        why = ""
        for file in ad.files:
            found = self.store.ready(Wanted(ladder, ad.id, file.url, ad.length, self.section.loudness, self.films), is_alone, self.outside.strays)
            if not isinstance(found, str):
                return found
            why = why or f"MediaFile {shown(file.url)}: {found}"
            if not found.startswith((UNREAD, UNMADE)):
                break
        return why

    def slate(self, ladder: Ladder, is_alone: bool) -> Ready | None:
        """The slate as it is made for `ladder`; none if there is none yet. `is_alone`: for a channel by itself."""
        if self.section.slate is None:
            return None
        found = self.store.ready(Wanted(ladder, SLATE, str(self.section.slate), None, self.section.loudness), is_alone)
        return None if isinstance(found, str) else found

    def count(self, pod: Pod, status: int, took: float) -> None:
        """Counts an answer of this `status` with the `pod`, which `took` so many seconds."""
        with self.lock:
            self.counts.answers[str(status)] += 1
            self.counts.seconds += took
            self.counts.took[next((it for it in BUCKETS if took <= it), float("inf"))] += 1
            for it in pod.lacks:
                self.counts.lacks[it.word] += 1
            for ready, ad in zip(pod.ready, pod.ads):
                self.counts.sold["ads" if ad is not None else SLATE] += ready.length()

    def keep(self, question: Question, pod: Pod) -> None:
        """Keeps what the `pod` for the `question` is, with what its ads call, and how sound stands to pictures."""
        try:
            tracking.keep(self.answers, question.id, question.start, pod)
            balance.keep(self.kept_balance, self.balance)
        except OSError as fault:
            self.tell(f"vast/{question.id}", "200", "Unkept", f"what its ads call, or how sound stands to pictures, isn't kept: {fault.strerror}")

    def remember(self, question: Question, found: Found, body: str) -> None:
        """Keeps what was `found` for the `question`, and the `body` of its answer, if it had a pod: should it come again, the ad server isn't asked again. A
        question without a start is asked by hand, and one without ads may have some the next time."""
        if question.start is not None and found.ads():
            self.note(Given(question.key(), question.start, time.time_ns(), Found(found.slots, found.buffet), False, body), f"vast/{question.id}")

    def note(self, it: Given, who: str) -> None:
        """Keeps what was given, `it`, of which a line of `who` tells if it can't be written."""
        try:
            self.given.put(it)
        except OSError as fault:
            self.tell(who, "-", "Unkept", f"what the ad server gave isn't kept: {fault.strerror}; after a new start it is asked again")

    # ---- before the break

    def take_ahead(self, start: int | None) -> Given | None:
        """What was given ahead for the break that begins at `start`, the newest one; none if nothing was. It is taken once."""
        if start is None:
            return None
        near = [key for key, it in self.given.ahead().items() if it.start is None or abs(it.start - start) <= NEAR]
        found = next((it for key in reversed(near) if (it := self.given.take(key)) is not None), None)
        if found is not None and found.start is None:
            self.asked_at = 0  # (the next one is asked for at once)
        return found

    def prefetch(self, planned: int | None, start: int | None) -> None:
        """Asks for the ads of a break that will begin at `start`, of `planned` nanoseconds, and has them made."""
        found = self.search(self.patient, planned, time.monotonic() + PREFETCH)
        for it in found.lacks[:MOST_LACKS]:
            with self.lock:
                self.counts.lacks[it.word] += 1
            self.tell("prefetch", "-", it.word, it.text)
        ladder = self.ladder
        if ladder is not None:
            for ad in found.ads():
                self.ready(ad, ladder, not self.has_names(ladder))
        if found.ads():
            self.note(Given(PREFETCHED if start is None else f"{PREFETCHED} {start}", start, time.time_ns(), Found(found.slots, found.buffet), True), "prefetch")

    @staticmethod
    def has_names(ladder: Ladder) -> bool:
        """Whether the renditions of `ladder` have names of their own."""
        return set(ladder.renditions) != {ALONE}

    def look_ahead(self, now: int) -> None:
        """Asks for the ads of each break that will begin soon after `now`, in nanoseconds from 1970, and forgets what came to nothing."""
        section, age = self.section, int(2 * (self.section.prefetch or AHEAD) * SECOND)
        self.given.forget(now)
        for key, it in self.given.ahead().items():
            if now - it.at > age if it.start is None else it.start + NEAR <= now:
                self.given.take(key)
        if section.schedule is not None:
            ahead = int((section.prefetch or AHEAD) * SECOND)
            coming = [(start, planned) for start, planned in self.schedule(section.schedule) if now - NEAR < start <= now + ahead and start not in self.asked_for]
            self.asked_for = {it for it in self.asked_for if it > now - NEAR} | {start for start, _ in coming}
            for start, planned in coming:
                self.prefetch(planned or section.length, start)
        elif section.prefetch is not None and not 0 <= now - self.asked_at < int(section.prefetch * SECOND):
            self.asked_at = now
            self.prefetch(section.length, None)

    def schedule(self, path: Path) -> list[tuple[int, int | None]]:
        """The breaks in the file `path`, which is read if it has changed; raises Fault."""
        try:
            found = path.stat()
        except OSError as fault:
            raise Fault(f"{path}: {fault.strerror}") from None
        if (found.st_mtime_ns, found.st_size) != self.read:
            self.breaks, self.read = schedule_in(path), (found.st_mtime_ns, found.st_size)
        return self.breaks

    def clean(self) -> None:
        """Takes old answers away, once in an hour."""
        if time.monotonic() - self.cleaned > CLEANED:
            self.cleaned = time.monotonic()
            tracking.clean(self.answers)

    def run(self, ending: threading.Event) -> None:
        """Looks ahead each second until `ending` is set."""
        told = ""
        while not ending.wait(1):
            try:
                self.clean()
                self.look_ahead(time.time_ns())
                if self.ladder is not None:
                    self.slate(self.ladder, not self.has_names(self.ladder))
                why = ""
            except Fault as fault:
                why = str(fault)
            except Exception as fault:  # noqa: BLE001  (the next look goes on)
                why = f"{type(fault).__name__}: {str(fault)[:200]}"
            if why and why != told:
                self.tell("prefetch", "-", "Wrong", why)
            told = why
