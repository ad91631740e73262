"""The requests of a channel to its controller, one at a time: in the thread that sends them, or in one of their own."""
from __future__ import annotations

import queue
from collections.abc import Callable

from . import finding, packaged
from .events import Answered, Found, Note, Request, What
from .packaged import PackagedList
from .settings import Settings
from .telling import Noting
from .web import Answer, Client

JUDGED = {409, 413, 422}  # statuses by which adsplice refuses what it was given
KEPT = {What.MAKE: "channel", What.DECIDE: "decisions", What.PUSH: "origin"}  # what is kept for the monitor and the explainer

Wanted = Request | PackagedList  # what is to be sent, or the list whose numbers are to be found


class Sending:
    """Sends requests of the channel that `settings` tell of by its `client`. Each outcome is kept by `noting`, and `answered` is called with the
    answer. `beat` shows that the feed goes on."""

    def __init__(self, settings: Settings, client: Client, noting: Noting, answered: Callable[[Answered | Found], None], beat: Callable[[], None]) -> None:
        self.settings, self.client, self.noting, self.answered, self.beat = settings, client, noting, answered, beat
        self.url = f"{settings.at}/channels/{settings.name}"
        self.waiting: queue.SimpleQueue[tuple[int, Wanted] | None] = queue.SimpleQueue()
        self.era = 0  # how often all that was sent before was forgotten
        self.has_thread = self.has_ended = False

    def send(self, it: Wanted) -> None:
        """Sends a request, or finds the numbers of a list: at once, and returns once that is answered, unless there is a thread for it."""
        if self.has_thread:
            self.waiting.put((self.era, it))
        else:
            self.answered(self.outcome(it))

    def forget(self) -> None:
        """Nobody waits any more for the answers to what was sent."""
        self.era += 1

    def end(self) -> None:
        """Nothing is sent any more."""
        self.has_ended = True
        self.waiting.put(None)

    def run(self, failed: Callable[[Exception], None]) -> None:
        """Sends what is to be sent until it is ended. `failed` is called with each fault that nobody foresaw."""
        while (found := self.waiting.get()) is not None and not self.has_ended:
            era, it = found
            if era != self.era:
                continue
            try:
                answer = self.outcome(it)
            except Exception as fault:  # noqa: BLE001  (another request may be without it)
                failed(fault)
                answer = Answered(self.settings.name, it, 0, why=type(fault).__name__) if isinstance(it, Request) else Found(self.settings.name, None)
            if era == self.era:
                self.answered(answer)

    def outcome(self, it: Wanted) -> Answered | Found:
        """What came of a request, or of the list whose numbers are to be found."""
        return self.asked(it) if isinstance(it, Request) else self.found(it)

    def asked(self, request: Request) -> Answered:
        """The answer to a `request`, once its outcome is kept."""
        what = request.what
        answer = self.client.ask(what.method, f"{self.url}/{what.path}" if what.path else self.url, request.body if what.method == "PUT" else None)
        self.beat()
        if what is What.MAKE:
            self.noting.made(answer.status)
        if what in KEPT and not is_in_vain(request, answer):
            waits = what is What.PUSH and request.is_ahead and answer.status == 204
            self.noting.note(Note(self.settings.name, KEPT[what], answer.status, answer.why or request.why or answer.line(), request.body), waits)
        return Answered(self.settings.name, request, answer.status, answer.line(), answer.why, answer.body if what in (What.LOOK, What.CHECK) else b"")

    def found(self, it: PackagedList) -> Found:
        """Finds the numbers by which the list `it` goes on after what the controller has, and gives it so."""
        written = self.client.ask("GET", f"{self.url}/live.m3u8")
        answer = finding.find(it, written.body, lambda text: self.client.ask("PUT", f"{self.url}/origin", text)) if written.status == 200 else None
        self.beat()
        if answer is None or answer.status != 204:
            return Found(self.settings.name, None)
        self.noting.note(Note(self.settings.name, "origin", answer.status, answer.line(), packaged.write(it)))
        return Found(self.settings.name, it)


def is_in_vain(request: Request, answer: Answer) -> bool:
    """Whether the `request` withdraws a break of the feed's own accord that had no decision of its own any more, or has begun, by the
    `answer`: that is no fault."""
    return request.is_own and answer.status in JUDGED
