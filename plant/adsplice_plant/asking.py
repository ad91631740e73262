"""Asks for the decision of a break that became known: of an ad decision server, or of whoever watches the folder of decisions.

The question is a file, `asked/NAME.json` in the folder of decisions, so that each break is asked for once, also if the feed is
started anew. One that was open when the feed ended is asked again by the next one. An answer becomes a decision file in that folder, as if
somebody had written it there."""
from __future__ import annotations

import hashlib
import json
import threading
import time
import urllib.parse
from collections.abc import Callable, Mapping
from dataclasses import dataclass, field
from pathlib import Path
from typing import Any

from . import judge, playlist
from .bounded_files import Unread, clean, made, opened, read, write
from .breaks import Break, shown
from .decisions import DAY, over_bound
from .events import Ask
from .pauses import Pauses
from .reckoning import Sums
from .settings import FOLDER, PLACE
from .traits import Traits
from .web import Answer, Client

MOST_OPEN = 16  # questions at a time
MOST_BEGUN, MINUTE = 32, 60.0  # questions that are begun within so many seconds: an origin can't flood the ad server, the folder and the lines
MOST_KEPT = 4096  # old questions in a folder
AT_ONCE = 4  # of these that are sent at a time
AGAIN = {0, 408, 425, 429}  # statuses, and all from 500 on, after which a server is asked again
ASKED = "asked"  # the folder in the folder
LONGEST = 65_536  # bytes of a question
CLEANED = 600.0  # seconds between two times that old questions are taken away
LASTS = 60.0  # seconds after its list waits no longer, for which an answer waits until it can be written
ENDS = "the feed ends"  # why nothing is written
ANSWERED = "answered"  # the member of a kept question by which it isn't asked again
LONGEST_NAME = 100  # letters of a file's name that are an ID's
FIELDS = {"Content-Type": "application/json", "Accept": "application/json"}

Tell = Callable[[str, str, str, str], None]  # who, status, word, text


@dataclass
class Question:
    """A question about the break `id`, which begins at `start`: what it has `said`, the moment at which it was `asked`, until when it is asked
    again (`until`), since its list waits no longer, the renditions whose segments have no initialisation section (`bare`), whether it is in the folders
    (`is_kept`), and whether it is `done` (answered, or given up)."""

    id: str
    start: int
    said: dict[str, Any]
    asked: float
    until: float
    bare: frozenset[str] = frozenset()
    is_kept: bool = False
    done: threading.Event = field(default_factory=threading.Event)

    def body(self) -> bytes:
        """What is sent."""
        return json.dumps(self.said).encode()

    def is_of(self, one: Break) -> bool:
        """Whether it is about the break `one`. (An ID may come again.)"""
        return self.id == one.id and abs(self.start - one.start) < playlist.SECOND


def file_name(name: str) -> str:
    """The name of a break's file, without its ending: the ID `name`, percent-encoded; of a long one its hash."""
    text = urllib.parse.quote(name, safe="").replace(".", "%2E") if name.startswith(".") else urllib.parse.quote(name, safe="")
    return text if len(text) <= LONGEST_NAME else hashlib.sha256(name.encode()).hexdigest()


def question_of(channel: str, renditions: list[str], target: int, one: Break, ladder: list[dict[str, Any]]) -> dict[str, Any]:
    """What is asked for the break `one` of a `channel` with these `renditions` and this `target` duration, which are as `ladder` says
    (docs/DECISION_FILES.md)."""
    end = one.end()
    seconds = None if end is None else (end - one.start) / playlist.SECOND
    return {"channel": channel, "id": one.id, "start": playlist.instant_text(one.start), "planned": seconds, "event": one.event, "type": one.type,
            "name": one.name, "upid": one.upid, "number": one.part or None, "of": one.parts or None, "target": target, "renditions": renditions, "ladder": ladder}


def rendition_of(name: str, traits: Traits, piece: int, sums: Sums | None, cut: int | None) -> dict[str, Any]:
    """What a question says of the rendition called `name`: its `traits`, how long a `piece` is, the `sums` of its breaks that are over, and how long after the
    break's start it is `cut`, in nanoseconds; null what isn't known."""
    seconds = {"segment": piece or None, "replaced": sums and sums.replaced, "shown": sums and sums.shown, "cut": cut}
    return {"name": name, "kind": traits.kind or None, "codecs": traits.codecs or None, "size": traits.size or None,
            **{key: it / playlist.SECOND if it is not None else None for key, it in seconds.items()}, "decided": sums and sums.decided}


def decision_of(body: bytes, name: str) -> tuple[dict[str, Any] | None, str]:
    """The decision file for the break `name` alone that the answer `body` gives; or none, and why not. Further breaks are told."""
    if why := over_bound(body):
        return None, f"it {why}"
    if (wrong := judge.judge(body)) is not None:
        return None, f"{wrong.line()} ({wrong.fault})"
    found = json.loads(body)
    breaks = found.get("breaks")
    if breaks is None:
        return None, "it has no `breaks`"
    its = [it for it in breaks if it["id"] == name]
    others = ", ".join(shown(it["id"]) for it in breaks[:3] if it["id"] != name)
    if not its:
        return None, f"it decides {others or 'no break'}, and not this one"
    return {"breaks": its}, f"; it decides {others} too, which isn't taken" if others else ""


def with_rendition(value: Any, name: str) -> Any:
    """The decision `value` with the rendition's name in place of {} in each URI."""
    if isinstance(value, list):
        return [with_rendition(it, name) for it in value]
    if isinstance(value, dict):
        return {key: it.replace(PLACE, name) if key == "uri" and isinstance(it, str) else with_rendition(it, name) for key, it in value.items()}
    return value


def without_sections(decision: dict[str, Any]) -> dict[str, Any]:
    """The `decision` without its ads' initialisation sections."""
    return {"breaks": [it | {"ads": [{key: value for key, value in ad.items() if key != "map"} for ad in it["ads"]]} for it in decision["breaks"]]}


class Asker:
    """Asks for the breaks of the channel or programme `name`: at the URL `ask`, or by the folders alone, which are those of its renditions (one
    without a name for a channel by itself). A list waits for `hold` seconds at most. `tell`: prints a line. `is_decided`: whether there is a
    decision on a break in each folder. `answered` is called with the ID of a break once its answer is in the folders, and `given_up` if none
    comes any more. `traits`: those of the renditions, by their names. `note` is called with the ID of a break, what became of its question (one of
    ANSWERS), and why it has no decision by that. `has_begun`: whether a break has begun in a rendition, so that its answer is late."""

    def __init__(self, name: str, ask: str, hold: float, client: Client, folders: Mapping[str, Path], tell: Tell, is_decided: Callable[[str], bool],
                 answered: Callable[[str], None], given_up: Callable[[str], None], traits: Mapping[str, Traits] | None = None,
                 note: Callable[[str, str, str], None] = lambda *_: None, has_begun: Callable[[str], bool] = lambda _: False) -> None:
        self.name, self.ask_at, self.hold, self.client, self.folders, self.tell = name, ask, hold, client, folders, tell
        self.is_decided, self.answered, self.given_up, self.traits, self.note = is_decided, answered, given_up, traits or {}, note
        self.has_begun = has_begun
        self.open: list[Question] = []
        self.begun: list[float] = []  # when those of the last minute were begun
        self.told_at = float("-inf")  # when it was told last that there are too many
        self.turns = threading.BoundedSemaphore(AT_ONCE)
        self.cleaned: dict[str, float] = {}  # when old questions were taken away from each folder
        self.ending, self.lock = threading.Event(), threading.Lock()

    def renditions(self) -> list[str]:
        """The names of the programme's renditions; none for a channel by itself."""
        return [it for it in self.folders if it]

    def ladder(self, it: Ask, one: Break) -> list[dict[str, Any]]:
        """What a question about the break `one` says of each rendition, as `it` has that of their channels."""
        channels, cuts = {name: f"{self.name}-{name}" if name else self.name for name in self.folders}, it.cuts.get(one.id, {})
        return [rendition_of(name, self.traits.get(name, Traits()), it.pieces.get(channel, 0), it.sums.get(channel), cuts.get(channel)) for name, channel in channels.items()]

    def longest(self, target: int | None) -> float:
        """The seconds that a list of this `target` duration may wait: below half of it."""
        return min(self.hold, 0.45 * (target or 1))

    def end(self) -> None:
        """The feed ends: nothing is written once this returns. A question that is open is asked again by the next feed."""
        with self.lock:
            self.ending.set()

    # ---- asking

    def ask(self, it: Ask) -> None:
        """Asks for those breaks whose questions aren't open or answered, and that nobody decided. The others are given up."""
        now = time.monotonic()
        self.open = [one for one in self.open if not one.done.is_set() and (self.ask_at != FOLDER or now < one.until)]
        why = ""
        for one in [one for one in it.known if not self.is_decided(one.id) and not any(other.is_of(one) for other in self.open)]:
            before = self.asked_before(one)
            if before is not None and ANSWERED in before:
                self.given_up(one.id)
            elif before is not None and self.ask_at == FOLDER:
                continue  # (it is there yet, and whoever watches the folder may be about to answer)
            elif why := why or self.too_many(now):
                self.leave_out(one, why, now)
            else:
                self.begin(one, it, now, before is not None)

    def too_many(self, now: float) -> str:
        """Why no question is begun at the moment `now`; empty if one may be."""
        self.begun = [it for it in self.begun if now - it < MINUTE]
        if len(self.open) >= MOST_OPEN:
            return f"{MOST_OPEN} questions are open"
        return f"{MOST_BEGUN} breaks were asked for within a minute" if len(self.begun) >= MOST_BEGUN else ""

    def leave_out(self, one: Break, why: str, now: float) -> None:
        """The break `one` isn't asked for at the moment `now`, since `why`; that is told once a minute."""
        if now - self.told_at >= MINUTE:
            self.told_at = now
            self.tell("ask", "-", "TooMany", f"{why}; {shown(one.id)} isn't asked for")
        self.note(one.id, "TooMany", f"it wasn't asked for: {why}")
        self.given_up(one.id)

    def begin(self, one: Break, it: Ask, now: float, is_again: bool) -> None:
        """Asks for the break `one`. `is_again`: the feed ended while its question was open."""
        lead = max(0.0, (one.start - it.end) / playlist.SECOND)
        said = question_of(self.name, self.renditions(), it.target or 0, one, self.ladder(it, one))
        bare = frozenset(name for name in self.folders if name and f"{self.name}-{name}" in it.bare)
        question = Question(one.id, one.start, said, now, now + max(self.longest(it.target), lead), bare)
        self.open.append(question)
        self.begun.append(now)
        if is_again:
            self.tell(f"ask/{shown(question.id)}", "-", "Again", "the feed ended before it was answered; asks again")
        why = self.keep(question)
        if self.ask_at == FOLDER and not why:
            self.tell_asked(question)
            return
        if why:
            self.tell(f"ask/{shown(question.id)}", "-", "Unkept", f"{why}; {'tries again' if self.ask_at == FOLDER else 'asks all the same'}")
        threading.Thread(target=self.leave if self.ask_at == FOLDER else self.run, args=(question,), daemon=True).start()

    def tell_asked(self, question: Question) -> None:
        """Tells whoever watches the folder that the `question` is there."""
        self.tell(f"ask/{shown(question.id)}", "-", "Asked", f"{ASKED}/{file_name(question.id)}.json is there; its decision is expected in the folder")

    def leave(self, question: Question) -> None:
        """Leaves the `question` in the folder as soon as it can be written, for who watches that; gives it up once its list waits no longer."""
        pauses = Pauses(0.1, 1.0)
        while not self.ending.wait(pauses.next()) and time.monotonic() < question.until:
            if not self.keep_unless_over(question):
                self.tell_asked(question)
                return
        question.done.set()
        if not self.ending.is_set():
            self.note(question.id, "Unkept", "its question couldn't be written")
            self.given_up(question.id)

    def asked_before(self, one: Break) -> dict[str, Any] | None:
        """What was asked before for the break `one`, with the same start; none if nothing was. With a member ANSWERED it was answered, or given up."""
        for path in self.folders.values():
            try:
                with opened(path) as folder, opened(ASKED, folder) as asked:
                    kept = json.loads(read(f"{file_name(one.id)}.json", asked, most=LONGEST)[1])
                if abs((playlist.read_instant(kept["start"]) or 0) - one.start) < playlist.SECOND:
                    return dict(kept)
            except (OSError, Unread, ValueError, KeyError, TypeError, RecursionError):
                continue
        return None

    def keep_unless_over(self, question: Question) -> str:
        """As keep(), unless the feed ends."""
        with self.lock:
            return ENDS if self.ending.is_set() else self.keep(question)

    def keep(self, question: Question) -> str:
        """Writes the `question` into the folders, and takes old ones away now and then; why it couldn't, empty if it could."""
        for name, path in self.folders.items():
            try:
                with opened(path) as folder, made(ASKED, folder) as asked:
                    if time.monotonic() - self.cleaned.get(name, -CLEANED) >= CLEANED:
                        self.cleaned[name] = time.monotonic()
                        clean(asked, DAY, MOST_KEPT)
                    write(f"{file_name(question.id)}.json", question.body(), asked)
            except OSError as fault:
                return f"{path / ASKED}: {fault.strerror}"
        question.is_kept = True
        return ""

    # ---- answers

    def run(self, question: Question) -> None:
        """Asks the server until it answers, or until the `question` is to be given up."""
        is_answered = False
        try:
            with self.turns:
                answer = self.answer_to(question)
            is_answered = self.take(question, answer)
            self.close(question, answer.status)
        finally:
            question.done.set()
            if not self.ending.is_set():
                (self.answered if is_answered else self.given_up)(question.id)

    def answer_to(self, question: Question) -> Answer:
        """The server's answer to the `question`: the first one that isn't to be asked for again, or the last one before its list waits no longer."""
        pauses = Pauses(0.1, 1.0)
        while True:
            answer = self.client.ask("POST", self.ask_at, question.body(), FIELDS)
            pause = pauses.next()
            if answer.status not in AGAIN and answer.status < 500 or time.monotonic() + pause > question.until or self.ending.wait(pause):
                return answer

    def take(self, question: Question, answer: Answer) -> bool:
        """Takes in the server's `answer` to the `question`; whether it is a decision, which is in the folders then."""
        if self.ending.is_set():
            return False
        took = time.monotonic() - question.asked
        who, status = f"ask/{shown(question.id)}", str(answer.status or "-")
        if answer.status == 204:
            self.tell(who, status, "-", f"no ads, after {took:.2f} s")
            self.note(question.id, "NoAds", "the ad server has no ads for it")
            return False
        if answer.status != 200:
            why = answer.why or f"the ad server answers {answer.status}"
            self.tell(who, status, "Unanswered", f"{why}, after {took:.2f} s; isn't asked again")
            self.note(question.id, "Unanswered", f"the ad server has given no answer ({why})")
            return False
        decision, text = decision_of(answer.body, question.id)
        if decision is None:
            self.tell(who, status, "Wrong", f"the answer isn't taken: {text}")
            self.note(question.id, "Wrong", f"the ad server's answer isn't taken: {text}")
            return False
        why, is_late = self.put(question, decision)
        if why:
            self.tell(who, status, "Unkept", f"{why}; the answer is lost")
            self.note(question.id, "Unkept", f"its decision couldn't be written ({why})")
            return False
        self.tell(who, status, "Late" if is_late else "-", f"answered after {took:.2f} s{text}")
        self.note(question.id, "Late" if is_late else "Answered", "")
        return True

    def put(self, question: Question, decision: dict[str, Any]) -> tuple[str, bool]:
        """Writes the `decision` that answers the `question` into the folders, as soon as there is room for it; why it couldn't be within LASTS, empty if
        it could, and whether its break had begun before."""
        pauses, is_told, is_late = Pauses(0.2, 2.0), False, self.has_begun(question.id)
        while why := self.write(question, decision):
            if not is_told:
                self.tell(f"ask/{shown(question.id)}", "200", "Unkept", f"{why}; the answer waits until it can be written")
            is_told, pause = True, pauses.next()
            if time.monotonic() + pause > question.until + LASTS or self.ending.wait(pause):
                break
            is_late = self.has_begun(question.id)
        return why, is_late

    def write(self, question: Question, decision: dict[str, Any]) -> str:
        """Writes the `decision` that answers the `question` into the folders; why it couldn't, empty if it could."""
        with self.lock:
            if self.ending.is_set():
                return ENDS
            for name, path in self.folders.items():
                try:
                    with opened(path) as folder:
                        write(f"{file_name(question.id)}.json", json.dumps(self.of_rendition(decision, name, question)).encode(), folder)
                except OSError as fault:
                    return f"{path}: {fault.strerror}"
        return ""

    def of_rendition(self, decision: dict[str, Any], name: str, question: Question) -> dict[str, Any]:
        """The `decision` that answers the `question` as the rendition called `name` gets it. In a ladder in which some renditions have initialisation sections
        and some haven't, as WebVTT beside fragmented MP4, the latter get none."""
        if not name:
            return decision
        found: dict[str, Any] = with_rendition(decision, name)
        return without_sections(found) if name in question.bare and len(question.bare) < len(self.folders) else found

    def close(self, question: Question, status: int) -> None:
        """The `question` was answered by this `status` (0: not at all), or given up: that is written beside it, so that it isn't asked again by a later feed."""
        question.said[ANSWERED] = status
        was_kept = question.is_kept
        if (why := self.keep_unless_over(question)) and was_kept and why != ENDS:
            self.tell(f"ask/{shown(question.id)}", str(status or "-"), "Unkept", f"{why}; after a new start it is asked for again")
