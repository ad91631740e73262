"""A door for decisions at the feed: PUT and DELETE /decisions/CHANNEL/NAME.json over HTTP, on loopback or a Unix socket. `admission` says what is done with
requests."""
from __future__ import annotations

from collections.abc import Mapping

from . import serving
from .admission import Admission, Channel
from .decisions import MAX_BYTES
from .serving import Limits, line

LIMITS = Limits(connections=32, seconds=10.0, body=MAX_BYTES, held=64 << 20)


class Handler(serving.Handler):
    """A request at the door."""

    server: Server
    allowed, thing = "PUT, DELETE", "a decision file"

    def do_PUT(self) -> None:  # noqa: N802  (the name is http.server's)
        """Answers a PUT."""
        self.answer(lambda: line(*self.server.admission.put(self.path, self.body())))

    def do_DELETE(self) -> None:  # noqa: N802
        """Answers a DELETE."""
        self.answer(lambda: line(*self.server.admission.delete(self.whole(self.path))))

    def body(self) -> bytes:
        """The request's body; raises Refused. (A wrong path is answered before a long body is read.)"""
        self.server.admission.place(self.path)
        return super().body()


class Server(serving.Server):
    """The door at `address` for the `admission` of decisions."""

    def __init__(self, address: str, admission: Admission) -> None:
        self.admission = admission
        super().__init__(address, Handler, "adsplice-feed", LIMITS)


def open_door(address: str, feeds: Mapping[str, Channel]) -> Server:
    """The door at `address` for the channels `feeds`, open until it is closed. Raises Fault if it can't be opened."""
    return serving.opened("--door", address, lambda: Server(address, Admission(feeds)))
