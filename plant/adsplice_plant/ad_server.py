"""Asks a VAST ad server for the ads of a break, and follows its wrappers: within a time, a depth and a number of requests."""
from __future__ import annotations

import threading
import time
from collections.abc import Callable, Mapping
from concurrent.futures import Future, ThreadPoolExecutor
from concurrent.futures import TimeoutError as TooLate
from dataclasses import dataclass, field
from datetime import datetime, timezone
from typing import Protocol

from . import macros, vast
from .bounded_xml import NoXml
from .outside import Outside
from .vast import Ad, Document, Wrapper
from .web import Answer
from .words import shown

DEEPEST = 5  # wrappers, one in the other (IAB VAST 4.2, 3.4.1)
MOST_REQUESTS = 32  # for a break
AT_ONCE = 8  # wrappers of a channel that are followed at a time
FIELDS = {"Accept": "application/xml, text/xml"}


class Asking(Protocol):
    """Who asks: web.Client."""

    def ask(self, method: str, url: str, body: bytes | None = None, fields: Mapping[str, str] | None = None) -> Answer:
        """The answer to a request."""


@dataclass(frozen=True)
class Lack:
    """Why an ad, or an answer, isn't there: a `word` for figures, and the sentence `text`, which names the ad and the element."""

    word: str
    text: str


@dataclass(frozen=True)
class Slot:
    """A place in the pod: the ads for it in their order, and whether a stand-alone ad may stand in for them (`substitutes`)."""

    ads: tuple[Ad, ...]
    substitutes: bool = True


@dataclass
class Found:
    """What an ad server gave for a break: the pod's places in order, the stand-alone ads (`buffet`), and what was lacking."""

    slots: list[Slot] = field(default_factory=list)
    buffet: list[Ad] = field(default_factory=list)
    lacks: list[Lack] = field(default_factory=list)

    def ads(self) -> list[Ad]:
        """All ads, those of the pod first."""
        return [it for slot in self.slots for it in slot.ads] + self.buffet


class Search:
    """One search for the ads of a break: at the first URL of `outside`, or at the URL `at` to which that led, by `client`, until the moment `until` of the
    monotonic clock. `values` are those of macros. The threads of `pool` follow its wrappers."""

    def __init__(self, client: Asking, pool: ThreadPoolExecutor, outside: Outside, values: Mapping[str, str], until: float, at: str = "") -> None:
        self.client, self.pool, self.outside, self.values, self.until, self.at = client, pool, outside, values, until, at or outside.first
        self.lacks: list[Lack] = []
        self.requests, self.lock = 0, threading.Lock()

    def lack(self, word: str, text: str) -> None:
        """Something is lacking, as the `word` for figures and the sentence `text` say."""
        with self.lock:
            self.lacks.append(Lack(word, text))

    def run(self) -> Found:
        """All that is found within the time."""
        if self.at != self.outside.first and (why := self.outside.strays(self.at)):
            return Found(lacks=[Lack("Wrong", f"AdTagURI {shown(self.at)} isn't asked: {why}")])
        document = self.document(self.at, f"the ad server at {shown(self.at)}")
        if document is None:
            return Found(lacks=self.lacks)
        found = self.resolved(document, 0, True)
        found.lacks = self.lacks
        if not found.ads() and not self.lacks:
            self.lack("NoAds", "the ad server has no ads")
        return found

    # ---- documents

    def document(self, url: str, who: str) -> Document | None:
        """The document at `url`, which is `who` in a sentence; none if there is none that is right."""
        with self.lock:
            self.requests += 1
            is_over = self.requests > MOST_REQUESTS
        if is_over:
            self.lack("Wrapper", f"{who} isn't asked: a break has {MOST_REQUESTS} requests at most")
            return None
        if time.monotonic() > self.until:
            self.lack("Late", f"{who} isn't asked: the time is over")
            return None
        at = macros.filled(url, {**self.values, **macros.of_each_request(datetime.now(timezone.utc))})
        answer = self.client.ask("GET", at, None, FIELDS)
        return self.read(answer, who)

    def read(self, answer: Answer, who: str) -> Document | None:
        """The document in the `answer` of `who`; none if there is none."""
        if answer.status == 204 or (answer.status == 200 and not answer.body.strip()):
            return Document()
        if answer.status != 200:
            is_late = not answer.status and "within" in answer.why
            self.lack("Late" if is_late else "Unanswered", f"{who}: {answer.why or f'it answers {answer.status}'}")
            return None
        try:
            document = vast.read(answer.body)
        except NoXml as fault:
            self.lack("Wrong", f"{who}: {fault}")
            return None
        for it in document.faults:
            self.lack("Wrong", it)
        return document

    # ---- wrappers

    def resolved(self, document: Document, depth: int, follows: bool) -> Found:
        """The ads of the `document`, which came by so many wrappers (`depth`). `follows`: whether its own wrappers are followed."""
        found, pod, others = Found(), document.pod(), document.stand_alone()
        gets = [self.begin(it, depth, follows) for it in [*pod, *others]]
        ads = [get() for get in gets]
        for it, its in zip(pod, ads):
            found.slots.append(Slot(tuple(its), not isinstance(it, Wrapper) or it.falls_back))
        found.buffet = [ad for its in ads[len(pod):] for ad in its]
        return found

    def begin(self, it: Ad | Wrapper, depth: int, follows: bool) -> Callable[[], list[Ad]]:
        """Begins to look for the ads of `it`, which came by so many wrappers (`depth`), of which the last one says whether it `follows` more; what
        answers them once it is called."""
        if isinstance(it, Ad):
            ad = it
            return lambda: [ad]
        wrapper = it
        if why := self.stops(wrapper, depth, follows):
            self.lack("Wrapper", f"ad {wrapper.id}: {why}")
            return list
        if depth:  # (below, the thread of the first wrapper goes on: a pool whose threads wait for its own would stand still)
            return lambda: self.of_wrapper(wrapper, depth)
        going: Future[list[Ad]] = self.pool.submit(self.of_wrapper, wrapper, depth)
        return lambda: self.awaited(going, wrapper)

    def stops(self, wrapper: Wrapper, depth: int, follows: bool) -> str:
        """Why the `wrapper`, which came by so many others (`depth`), isn't followed; empty if it is. `follows`: whether the one before says so."""
        if not follows:
            return "VASTAdTagURI isn't asked: the wrapper before says that no more are followed"
        if depth >= DEEPEST:
            return f"VASTAdTagURI isn't asked: it would be the wrapper number {depth + 1} in a row, and {DEEPEST} are followed"
        if why := self.outside.strays(wrapper.tag):
            return f"VASTAdTagURI {shown(wrapper.tag)} isn't asked: {why}"
        return ""

    def awaited(self, going: Future[list[Ad]], wrapper: Wrapper) -> list[Ad]:
        """The ads of the `wrapper` that is followed (`going`), if they come in time."""
        try:
            return going.result(max(0.0, self.until - time.monotonic()))
        except TooLate:
            going.cancel()
            self.lack("Late", f"ad {wrapper.id}: VASTAdTagURI {shown(wrapper.tag)} has not answered in time")
            return []

    def of_wrapper(self, wrapper: Wrapper, depth: int) -> list[Ad]:
        """The ads to which the `wrapper` leads, the one after so many others (`depth`)."""
        document = self.document(wrapper.tag, f"ad {wrapper.id}: VASTAdTagURI {shown(wrapper.tag)}")
        if document is None:
            return []
        within = self.resolved(document, depth + 1, wrapper.follows)
        ads = within.ads() if wrapper.several else (within.buffet or within.ads())[:1]
        if not ads:
            self.lack("NoAds", f"ad {wrapper.id}: VASTAdTagURI {shown(wrapper.tag)} has no ads")
        return [vast.wrapped(it, wrapper) for it in ads]
