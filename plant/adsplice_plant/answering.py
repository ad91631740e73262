"""adsplice-decide over HTTP, on loopback: POST /decide for questions, and GET /metrics for figures."""
from __future__ import annotations

import argparse
from collections.abc import Callable

from . import serving
from .serving import Limits, Reply, line

JSON, METRICS = "application/json", "text/plain; version=0.0.4; charset=utf-8"
LIMITS = Limits(connections=64, seconds=15.0, body=65_536, held=64 * 65_536)


def address_of(text: str) -> str:
    """The address `text`, ADDRESS:PORT on loopback; raises if it is another one."""
    if text.startswith("/"):
        raise argparse.ArgumentTypeError(f"{text!r} isn't an address of loopback with a port, such as 127.0.0.1:9083")
    return serving.address_of(text)


class Handler(serving.Handler):
    """A question, or a request for figures."""

    server: Server
    allowed, thing = "POST, GET", "a question"

    def do_POST(self) -> None:  # noqa: N802  (the name is http.server's)
        """Answers a question."""
        self.answer(lambda: self.server.decide(self.body()) if self.path.partition("?")[0] == "/decide" else line(404, "not found: POST /decide"))

    def do_GET(self) -> None:  # noqa: N802
        """Answers the figures."""
        self.answer(lambda: (200, self.whole(self.server.figures)(), METRICS) if self.path == "/metrics" else line(404, "not found: GET /metrics"))


class Server(serving.Server):
    """A server at `address` that answers questions by `decide`, and figures by `figures`."""

    def __init__(self, address: str, decide: Callable[[bytes], Reply], figures: Callable[[], bytes]) -> None:
        self.decide, self.figures = decide, figures
        super().__init__(address, Handler, "adsplice-decide", LIMITS)


def listening(address: str, decide: Callable[[bytes], Reply], figures: Callable[[], bytes]) -> Server:
    """A server at `address` that answers from now on by `decide` and `figures`; raises Fault if it can't be opened."""
    return serving.opened("--listen", address, lambda: Server(address, decide, figures))
