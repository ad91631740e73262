"""Asks whether what a decision names is there: by HEAD, and by the first byte where that is refused. Number, time and addresses are bounded."""
from __future__ import annotations

import threading
import time
from collections.abc import Callable, Iterable
from concurrent.futures import ThreadPoolExecutor

from .events import Look, Looked
from .presence import Named
from .web import Answer, Client

AT_ONCE = 8  # requests of a look at a time
LOOKS = 2  # looks at a time
SECONDS = 5.0  # for a look
FRESH = 300.0  # seconds for which what was there isn't asked for again
EARLIER = 86_400.0  # seconds for which what was there is taken for there if there is no answer
MOST_KNOWN = 10_000  # URIs of which it is known that they were there
FIRST_BYTE = {"Range": "bytes=0-0"}
THERE = (200, 206)

Absent = tuple[str, str, str]  # the ad, the URI, and why it isn't there


class Looker:
    """Looks whether URIs are there, by requests of `client`, each look within `seconds`."""

    def __init__(self, client: Client, seconds: float = SECONDS) -> None:
        self.client, self.seconds = client, seconds
        self.lock, self.room, self.ending = threading.Lock(), threading.BoundedSemaphore(LOOKS), threading.Event()
        self.known: dict[str, float] = {}  # when each was there last

    def end(self) -> None:
        """No more is asked."""
        self.ending.set()

    def begin(self, it: Look, post: Callable[[Looked], None]) -> None:
        """Does the look `it` in a thread of its own; what was seen is `post`ed in any case, and before that whether all was there earlier."""
        if not self.unknown(it.named, FRESH):
            post(Looked(it.name, it.stamps))
            return
        if not self.unknown(it.named, EARLIER):
            post(Looked(it.name, it.stamps, was_there=True))

        def run() -> None:
            absent = tuple((one.ad, one.uri, "it couldn't be looked at") for one in it.named[:1])
            try:
                with self.room:
                    absent = tuple(self.absent_of(it.named))
            finally:
                if not self.ending.is_set():
                    post(Looked(it.name, it.stamps, absent))

        threading.Thread(target=run, daemon=True).start()

    def unknown(self, named: Iterable[Named], seconds: float) -> list[Named]:
        """Those of the URIs that are `named` that weren't there within so many `seconds`, as far as that was looked at."""
        now = time.monotonic()
        with self.lock:
            return [it for it in named if now - self.known.get(it.uri, -seconds) >= seconds]

    def absent_of(self, named: Iterable[Named]) -> list[Absent]:
        """Those of the URIs that are `named` that aren't there, in their order. One that was there earlier is taken for there if there is no answer."""
        until = time.monotonic() + self.seconds
        new = self.unknown(named, FRESH)
        if not new:
            return []
        with ThreadPoolExecutor(min(AT_ONCE, len(new)), "look") as pool:
            answers = list(pool.map(lambda it: self.answer(it.uri, until), new))
        earlier = {it.uri for it in new} - {it.uri for it in self.unknown(new, EARLIER)}
        with self.lock:
            for it, answer in zip(new, answers):
                if answer.status:
                    self.known.pop(it.uri, None)
                if answer.status in THERE:
                    self.known[it.uri] = time.monotonic()
            while len(self.known) > MOST_KNOWN:
                del self.known[next(iter(self.known))]
        return [(it.ad, it.uri, answer.why or f"status {answer.status}") for it, answer in zip(new, answers)
                if answer.status not in THERE and (answer.status or it.uri not in earlier)]

    def answer(self, uri: str, until: float) -> Answer:
        """The answer to the question whether there is what the `uri` names, before the moment `until`."""
        answer = self.ask("HEAD", uri, until)
        return self.ask("GET", uri, until) if answer.status and answer.status not in THERE else answer  # (HEAD may be refused, and isn't redirected)

    def ask(self, method: str, uri: str, until: float) -> Answer:
        """The answer's head to a request of `method` for the `uri`, of the first byte if it is GET, before the moment `until`."""
        left = until - time.monotonic()
        if left <= 0 or self.ending.is_set():
            return Answer(0, why=f"no answer within {self.seconds:g} s")
        return self.client.ask(method, uri, fields=FIRST_BYTE if method == "GET" else {}, limit=min(left, self.client.limit), is_head_enough=True)
