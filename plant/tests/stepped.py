"""A programme of one channel whose feed is its function alone, with adsplice by the rules: each may be killed at any moment."""
import json
import sys

from tools import PLANT

sys.path.insert(0, PLANT)
from adsplice_plant import programme, state  # noqa: E402
from adsplice_plant.events import Answered, Began, FallbackRead, FolderRead, ListRead, Send, Store, Tell, Ticked, What  # noqa: E402
from adsplice_plant.settings import Settings  # noqa: E402
from adsplice_rules.channel import Channel, decide, refreshed, written  # noqa: E402
from adsplice_rules.values import Fault  # noqa: E402

TOLERANCE = 10**8


class Stepped:
    """The feed of the channel that `settings` tell of, by its function, and adsplice's channel with the base `base`. `clock`: the time of day at
    second 0. `killed` is what is killed at the next moment of a name: `sent` (before the answer to a list), `between` (after it)."""

    def __init__(self, settings: Settings, base, clock):
        self.settings, self.base, self.clock, self.seconds = settings, base, clock, 0.0
        self.channel, self.pushed, self.told, self.kills, self.faults = None, [], [], {}, []
        self.decided, self.order, self.is_away = [], [], False
        self.newest, self.files, self.fallback, self.stamp = None, {}, None, 0
        self.kept = state.begin([settings], TOLERANCE)
        self.begin()

    @property
    def stands(self):
        """Where its lists stand."""
        return self.state.renditions[self.settings.name].stands

    def begin(self):
        """The feed begins from what was kept, and looks at what is there."""
        self.state = self.kept
        self.run(Began())
        self.look()
        if self.newest is not None:
            self.run(ListRead(self.settings.name, self.newest))

    def look(self):
        """The feed looks at the decision files and the fallback."""
        self.run(FolderRead(self.settings.name, dict(self.files)))
        self.run(FallbackRead(self.settings.name, self.fallback))

    def decide(self, name, body):
        """The folder has the file `name` of the bytes `body`; none: it is removed."""
        self.stamp += 1
        self.files.pop(name, None)
        if body is not None:
            self.files[name] = (self.stamp, len(body), self.stamp), body
        self.look()

    def read(self, body):
        """The packager's list is `body`."""
        self.newest = body
        self.run(ListRead(self.settings.name, body))

    def kill(self, what):
        """Kills `feed`, `adsplice` or `both`."""
        if what in ("adsplice", "both"):
            self.channel = None
        if what in ("feed", "both"):
            self.begin()

    def wait(self, seconds):
        """Time passes."""
        until = self.seconds + seconds
        while self.seconds < until:
            self.seconds = min(until, self.seconds + 0.25)
            self.run(Ticked())

    def run(self, event):
        """The event happens, and what it brings about."""
        events = [event]
        while events:
            self.state, actions = programme.step(self.state, events.pop(0), self.seconds, self.clock + int(self.seconds * 10**9))
            for it in actions:
                if isinstance(it, Store):
                    self.kept = it.state
                elif isinstance(it, Tell):
                    self.told.append(it)
                elif isinstance(it, Send):
                    status, line, body = self.answer(it.request)
                    if it.request.what is What.PUSH and (what := self.kills.pop("sent", None)):
                        self.kill(what)
                        if what != "adsplice":
                            return
                        status, line = 0, ""
                    events.append(Answered(it.channel, it.request, status, line, "" if status else "no answer", body))
                    if it.request.what is What.PUSH and status == 204 and (what := self.kills.pop("between", None)):
                        self.kill(what)
                        if what != "adsplice":
                            return

    def answer(self, request):
        """What adsplice answers: a status, the first line and the body."""
        if self.is_away:
            return 0, "", b""
        if request.what is What.MAKE:
            is_new, self.channel = self.channel is None, self.channel or Channel(self.base)
            return (201, "", b"") if is_new else (409, "channel exists", b"")
        text = written(self.channel) if self.channel is not None else None
        if request.what in (What.LOOK, What.CHECK):
            return (200, "", text.encode()) if text is not None else (404, "not found", b"")
        if self.channel is None:
            return 404, "not found", b""
        try:
            self.channel = decide(self.channel, request.body) if request.what is What.DECIDE else refreshed(self.channel, request.body)
        except Fault as fault:
            self.faults.append(str(fault))
            return 409 if str(fault)[0] in "NJ" and str(fault).split()[0] in ("J9", "J10", "J11") or str(fault)[0] == "N" else 422, str(fault), b""
        self.order.append(request.what.path)
        if request.what is What.DECIDE:
            self.decided.append(request.body)
        if request.what is What.PUSH:
            self.pushed.append(request.body)
            self.shown(written(self.channel))
        return 204, "", b""

    def shown(self, text):
        """Viewers have the written playlist `text` from now on."""


def decision(name, ads):
    """A decision file of the break `name` with `ads`."""
    return json.dumps({"breaks": [{"id": name, "ads": ads}]}).encode()
