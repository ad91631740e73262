"""adsplice-feed --check: whether what the channels need is there. Nothing is made, changed, pushed or asked of an ad server.

What adsplice would answer is said by the rules (adsplice_rules), which are given the channel, its fallback and its origin's list.
"""
from __future__ import annotations

import os
import socket
import ssl
import time
from collections.abc import Iterator
from concurrent.futures import ThreadPoolExecutor
from dataclasses import dataclass
from pathlib import Path

from adsplice_rules.edge import Edge, Reply, Request
from adsplice_rules.values import NotModelled

from . import judge, masters, playlist, status, urls, words
from .decisions import MOST_ADS, said_by
from .handover import absolute
from .location import Location
from .origin import ads_of, origin_of, read_whole
from .repair import Choices, Repairer
from .settings import FOLDER, Settings, hash_of
from .web import Client
from .words import FAULT, Fault

AT_ONCE = 8  # channels that are looked at at a time
CONNECT = 3.0  # seconds at most for a connection to an ad server
THERE = {200, 404}  # statuses of a channel's `why`: it is there, or isn't yet


@dataclass(frozen=True)
class Fact:
    """Of one thing that the feed needs (`what`, a setting's name), whether it `is_right`, and a `text` that says how it is."""

    what: str
    is_right: bool
    text: str

    def line(self, channel: str) -> str:
        """What is printed of it for the `channel`."""
        return words.plain(f"{channel} {self.what} {'right' if self.is_right else 'wrong'}: {self.text}")


class Check:
    """What is so of the channel that `settings` tell of. A request may take `timeout` seconds."""

    def __init__(self, settings: Settings, timeout: float) -> None:
        self.settings, self.timeout, self.edge = settings, timeout, Edge()

    def facts(self) -> Iterator[Fact]:
        """All facts, in the order in which the feed needs them."""
        yield self.adsplice()
        yield from self.channel()
        yield from self.folders()
        if self.settings.fallback is not None:
            yield self.ads("fallback", self.settings.fallback)
        if self.settings.slate is not None:
            yield self.ads("slate", self.settings.slate)
        for place, base in ((self.settings.origin, ""), (self.settings.second, self.settings.second_base)):
            if place is not None:
                yield self.origin(place, base)
        if self.settings.ask:
            yield self.ask(self.settings.ask)

    # ---- adsplice

    def adsplice(self) -> Fact:
        """Whether adsplice answers at its address; the channel doesn't have to be there."""
        at = self.settings.at
        answer = Client(self.timeout).ask("GET", f"{at}/channels/{self.settings.name}/why")
        if not answer.status:
            return Fact("at", False, f"{at}: {answer.why}")
        if answer.status not in THERE or answer.body.lstrip().startswith(b"<"):
            return Fact("at", False, f"{at} answers {answer.status}, and not as adsplice does: is it its address for PUT?")
        return Fact("at", True, f"adsplice answers at {at}; the channel {'is there' if answer.status == 200 else 'is not there yet'}")

    def give(self, what: str, body: bytes) -> Reply | None:
        """What adsplice would answer to a PUT of `body` to the channel's `what` (nothing, `decisions` or `origin`); none if the rules
        don't say."""
        path = f"/channels/{self.settings.name}"
        try:
            return self.edge.answer(Request("PUT", f"{path}/{what}" if what else path, body))
        except NotModelled:
            return None

    def channel(self) -> Iterator[Fact]:
        """A fact if adsplice wouldn't make the channel by its base and its tolerance."""
        reply = self.give("", self.settings.body())
        if reply is not None and reply.status != 201:
            self.give("", b'{"base":"http://origin.example/"}')  # (so that what it is given can be judged)
            yield Fact("base", False, f"adsplice would refuse {self.settings.body().decode()}: {reply.body.strip()}")

    # ---- folders and files

    def folders(self) -> Iterator[Fact]:
        """Whether the folders of decisions and of what is kept can be written, and the journal in the latter."""
        if self.settings.decisions is not None:
            yield folder("decisions", self.settings.decisions)
        if self.settings.keep is not None:
            yield folder("keep", self.settings.keep)
            yield journal(self.settings.keep / f"{self.settings.name}.events")

    def ads(self, what: str, path: Path) -> Fact:
        """Whether the file `path` of the fallback or of the slate (`what`) is there, can be read, and is right."""
        if not path.is_file():
            return Fact("settings", False, f"channel {self.settings.name}: {what}: there is no file {path}")
        try:
            with open(path, "rb") as it:
                body = it.read(MOST_ADS + 1)
        except OSError as fault:
            return Fact(what, False, f"{path}: {fault.strerror}")
        if len(body) > MOST_ADS:
            return Fact(what, False, f"{path}: it has more than {MOST_ADS} bytes")
        if (wrong := judge.judge(body)) is not None:
            return Fact(what, False, f"{path}: {wrong.line()} ({wrong.fault})")
        if said_by(body)[0] != "fallback":
            return Fact(what, False, f"{path}: it decides breaks, and is to have the member `fallback`")
        if what == "fallback":
            self.give("decisions", body)
        return Fact(what, True, f"{path} is right")

    # ---- the origin

    def origin(self, place: Location, base: str) -> Fact:
        """Whether the origin at `place` answers a list that adsplice would take. `base`: by which its references
        are resolved, if that isn't the channel's."""
        it = self.settings
        found = read_whole(origin_of(place, Client(self.timeout, it.redirects, it.reach())), it.unended, it.line, base or it.base, ads_of(it.fallback))
        if found.body is None:
            return Fact("origin", False, found.why if str(place) in found.why else f"{place}: {found.why or f'it answers {found.status}'}")
        if it.master is not None:
            try:
                count = len(masters.channels_of(masters.read(found.body, it.base), it))
                return Fact("origin", True, f"{place} answers a master playlist of {count} renditions")
            except (Fault, ValueError) as fault:
                return Fact("origin", False, f"{place}: {fault}")
        body = absolute(found.body, base) if base else found.body
        if it.repair:
            repaired = Repairer(Choices(it.target, it.endless, it.times)).take(body, time.monotonic(), time.time_ns())
            if repaired.found is None and repaired.came is None:
                return Fact("origin", False, f"{place}: {repaired.why}")
            body = repaired.body()
        channels = dict(self.edge.channels)
        reply = self.give("origin", body)
        self.edge.channels = channels  # (a second origin's list doesn't have to follow the first one's)
        if reply is not None and reply.status != 204:
            return Fact("origin", False, f"{place}: adsplice would refuse the list: {reply.body.strip()}")
        listed = playlist.read(body)
        return Fact("origin", True, f"{place} answers a playlist of {len(listed.segments)} segments, with a target duration of {listed.target} s")

    # ---- the ad server

    def ask(self, url: str) -> Fact:
        """Whether the ad server of `url` takes a connection; nothing is asked."""
        if url == FOLDER:
            return Fact("ask", True, "who watches the folder of decisions is asked by files in `asked`")
        parts = urls.parts_of(url)
        if parts is None:
            return Fact("ask", False, words.NO_URL)
        host, is_secret = parts.host, parts.scheme == "https"
        try:
            with socket.create_connection((host, parts.port or (443 if is_secret else 80)), min(CONNECT, self.timeout)) as it:
                if is_secret:
                    ssl.create_default_context().wrap_socket(it, server_hostname=host).close()
        except (OSError, UnicodeError) as fault:
            return Fact("ask", False, f"{words.shown(url)}: {getattr(fault, 'strerror', None) or fault}")
        return Fact("ask", True, f"{words.shown(url)} takes a connection")


def folder(what: str, path: Path) -> Fact:
    """Whether this process can write into the folder `path` of the setting `what`, or make it."""
    there = next((it for it in (path, *path.absolute().parents) if os.path.lexists(it)), path)
    if not there.is_dir():
        return Fact(what, False, f"{there} isn't a folder")
    if not os.access(there, os.R_OK | os.W_OK | os.X_OK):
        return Fact(what, False, f"{there} can't be written by user {os.getuid()}")
    if not os.statvfs(there).f_bavail:
        return Fact(what, False, f"{there}: no space is left on its device")
    return Fact(what, True, f"{path} can be written" if there == path else f"{path} isn't there yet, and can be made")


def journal(path: Path) -> Fact:
    """Whether this process can write the journal `path`."""
    if not os.path.lexists(path):
        return Fact("journal", True, f"{path} isn't there yet")
    if not path.is_file() or not os.access(path, os.R_OK | os.W_OK):
        return Fact("journal", False, f"{path} can't be written by user {os.getuid()}")
    return Fact("journal", True, f"{path} can be written")


def hashes_of(channels: list[Settings]) -> dict[str, str]:
    """The hashes of the settings of the programmes that the `channels` are of, by their names."""
    found: dict[str, list[Settings]] = {}
    for it in channels:
        found.setdefault(it.programme or it.name, []).append(it)
    return {name: hash_of(its) for name, its in found.items()}


def run(channels: list[Settings], faults: list[tuple[str, str]], timeout: float) -> int:
    """Prints the facts of all `channels`, a line each, and the `faults` of sections that don't read, each as its name and a text. A request may
    take `timeout` seconds. Answers the exit status."""
    is_well = not faults
    for name, text in faults:
        words.write_out(f"{Fact('settings', False, text).line(name)}\n")
    for at in dict.fromkeys(it.store for it in channels if it.store is not None):
        hashes = hashes_of([it for it in channels if it.store == at])
        for what, is_right, text in status.facts(status.read(at), hashes):
            is_well = is_well and is_right
            words.write_out(f"{Fact(what, is_right, text).line('feed')}\n")
    with ThreadPoolExecutor(AT_ONCE) as pool:
        for it, facts in zip(channels, pool.map(lambda one: list(Check(one, timeout).facts()), channels)):
            is_well = is_well and all(fact.is_right for fact in facts)
            words.write_out("".join(f"{fact.line(it.name)}\n" for fact in facts))
    return 0 if is_well else FAULT
