"""Which channels a monitor watches: those of its words, or those that the feed's config file has now.

A programme whose origin is a master playlist has its channels by the master playlist that the feed writes for viewers. So they may come, and go,
while the monitor runs.
"""
from __future__ import annotations

import argparse
import threading
from collections.abc import Callable
from pathlib import Path
from typing import NamedTuple

from . import config_file
from .as_run import AsRun, Log
from .kept import Kept
from .masters import written_names
from .watch import Watch
from .web import Client
from .words import Fault

TIMEOUT = 5  # seconds for a request of a channel with its answer


class Wanted(NamedTuple):
    """A channel that is to be watched: its `name`, adsplice's address `at`, the folder of what the feed keeps (`kept`; there may be none), and whether
    somebody decides its breaks (`is_decided`)."""

    name: str
    at: str
    kept: Path | None
    is_decided: bool


class Watched:
    """The channels that the words `said` name, each with its Watch (`watches`, by names). `programmes`: how many channels each programme with a
    master playlist has. `tell`: prints what is wrong with a section of the config file, of its name."""

    def __init__(self, said: argparse.Namespace, tell: Callable[[str, str], None]) -> None:
        """Those that are there now; raises Fault."""
        self.said, self.tell, self.lock = said, tell, threading.Lock()
        self.log = Log(said.as_run[0]) if said.as_run else None
        self.programmes: dict[str, int] = {}
        self.watches: dict[str, Watch] = {}
        wanted = self.wanted()
        if missing := set(said.channel) - {it.name for it in wanted}:
            raise Fault(f"{said.config}: there is no channel {min(missing)}")
        self.take(wanted)

    def wanted(self) -> list[Wanted]:
        """The channels that are to be watched now; raises Fault if the config file can't be read."""
        said = self.said
        if said.config is None:
            return [Wanted(it, said.at, said.kept, True) for it in said.channel]
        found, programmes = dict[str, Wanted](), dict[str, int]()
        for it in config_file.read_right(said.config, self.tell):
            names = written_names(it) if it.master else [it.name]
            if it.master:
                programmes[it.name] = len(names)
            for name in names:
                found[name] = Wanted(name, said.at or it.at, said.kept or it.keep, bool(it.decisions or it.texts.get("decisions")))
        self.programmes = programmes
        return [found[it] for it in said.channel or found if it in found]

    def take(self, wanted: list[Wanted]) -> list[Watch]:
        """Watches the `wanted` channels from now on, and no others; answers the new ones."""
        names = {it.name for it in wanted}
        new = {it.name: self.watch(it) for it in wanted if it.name not in self.watches}
        with self.lock:
            for name in self.watches.keys() - names:
                self.watches.pop(name).is_gone = True
            self.watches |= new
        return [*new.values()]

    def all(self) -> list[Watch]:
        """The channels that are watched now."""
        with self.lock:
            return [*self.watches.values()]

    def watch(self, it: Wanted) -> Watch:
        """What watches the channel `it`."""
        said, kept = self.said, Kept(it.kept / f"{it.name}.events") if it.kept else None
        return Watch(it.name, f"{said.viewers or it.at}/channels/{it.name}/live.m3u8", f"{it.at}/channels/{it.name}/why", Client(TIMEOUT), kept,
                     AsRun(it.name, self.log, is_decided=it.is_decided) if self.log and kept else None, said.late, said.still)
