"""Cases of each family by seed and number, with what the model owes for them."""
from __future__ import annotations

import base64
import json
from dataclasses import dataclass
from random import Random
from typing import Any

from adsplice_rules.channel import Channel, decide, refreshed, written
from adsplice_rules.edge import Edge
from adsplice_rules.uris import base_of
from adsplice_rules.values import Fault, NotModelled
from adsplice_rules.window import grows

from . import breaks, channels, playlists, requests

FAMILIES = ("playlists", "breaks", "channels", "requests")


class NoLongerOneList(Exception):
    """Two windows that the model owes are not of one growing list."""


@dataclass(frozen=True)
class Run:
    """A run of `adsplice vod`, with what it writes, or its fault; `numbers` are the first number and the count of what is written,
    and how many segments the origin shows."""

    name: str
    base: str
    given: bytes
    decisions: bytes | None
    text: str
    fault: str
    numbers: tuple[int, int, int]


@dataclass(frozen=True)
class Connections:
    """Connections to a fresh server, one after the other, each with what is sent back, if anything is."""

    name: str
    asked: list[tuple[bytes, bytes | None]]


def owed_run(name: str, base: str, given: bytes, decisions: bytes | None) -> Run:
    """A run, with what the model owes."""
    try:
        channel = Channel(base_of(base))
        channel = channel if decisions is None else decide(channel, decisions)
        channel = refreshed(channel, given)
    except Fault as refusal:
        return Run(name, base, given, decisions, "", str(refusal), (0, 0, 0))
    window = channel.window()
    return Run(name, base, given, decisions, written(channel) or "", "", (window[0].media, len(window), len(channel.history)))


def owed_connections(name: str, asked: list[bytes]) -> Connections:
    """Connections, with what the model owes; each channel's windows have to be of one growing list."""
    edge = Edge()
    found = []
    for given in asked:
        before = dict(edge.channels)
        found.append((given, edge.serve(given)))
        for key, channel in edge.channels.items():
            old = before.get(key)
            if old is not None and old.accepted and channel is not old and not grows(old.window(), channel.window()):
                raise NoLongerOneList(name)
    return Connections(name, found)


def case_of(family: str, seed: int, number: int) -> Run | Connections | None:
    """The case of this number; None if the model says nothing of it."""
    rng, name = Random(f"{seed}/{family}/{number}"), f"{family}-{seed}-{number}"
    try:
        if family in ("playlists", "breaks"):
            return owed_run(name, *(playlists.case(rng) if family == "playlists" else breaks.case(rng)))
        return owed_connections(name, channels.case(rng) if family == "channels" else requests.case(rng))
    except NotModelled:
        return None


def coded(given: bytes) -> str:
    """Bytes as text."""
    return base64.b64encode(given).decode()


def json_line(case: Run | Connections) -> str:
    """A case as a line of tests/vectors."""
    if isinstance(case, Connections):
        made: dict[str, Any] = {"name": case.name, "connections": [
            {"request": coded(given), "reply": None if reply is None else coded(reply)} for given, reply in case.asked]}
        return json.dumps(made | {"stderr": "".join("E4 Ended\n" for _, reply in case.asked if reply is None), "status": 0})
    words = ["vod", case.base] + ([] if case.decisions is None else ["DECISIONS"])
    made = {"name": case.name, "args": words, "stdin": coded(case.given), "stdout": coded(case.text.encode()),
            "stderr": f"{case.fault}\n" if case.fault else "", "status": 1 if case.fault else 0}
    return json.dumps(made | ({} if case.decisions is None else {"decisions": coded(case.decisions)}))


def outcomes(case: Run | Connections) -> list[str]:
    """What a case shows: its fault code, or its statuses with their codes."""
    if isinstance(case, Run):
        return [case.fault.split(" ")[0] or "written"]
    found = []
    for _, reply in case.asked:
        head, _, body = (reply or b"- E4").partition(b"\r\n\r\n")
        status, code = head.split(b" ")[1].decode(), body.split(b" ")[0].decode().strip()
        found.append(f"{status} {code}" if status in ("409", "422") else status)
    return found
