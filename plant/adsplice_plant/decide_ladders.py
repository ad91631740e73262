"""What the ladders of adsplice-decide's channels are like: by a file, or by a look at the lists that the feed reads."""
from __future__ import annotations

import json
import threading
from collections.abc import Callable, Mapping
from dataclasses import replace
from pathlib import Path

from . import config_file, ladders, masters, probing
from .children import Children
from .condition import ladder_in
from .decide_settings import Section, Shop
from .ladders import ALONE, Ladder
from .pauses import Pauses
from .settings import Settings
from .web import Client
from .whole_files import write_aside
from .words import Fault

AGAIN = 600.0  # seconds between two looks at a channel's lists
ASKED = 10.0  # seconds for a list
FIRST, LONGEST = 1.0, 60.0  # seconds between two looks while its lists can't be read


def channels_of(name: str, feed: Path, prober: probing.Prober) -> dict[str, Settings]:
    """The renditions of the channel `name` by the settings of adsplice-feed in the file `feed`, by their names. `prober` reads a master
    playlist. Raises Fault."""
    faults: list[str] = []
    for it in config_file.read_right(feed, lambda section, text: faults.append(text)):
        if it.name == name and it.master is not None:
            return {one.rendition(): one for one in masters.channels_of(masters.read(prober.body(str(it.origin)), it.base), it)}
        if it.name == name:
            return {ALONE: it}
        if it.programme == name:
            return {one.rendition(): one for one in config_file.read_right(feed, lambda *_: None) if one.programme == name}
    raise Fault(f"{feed} has no channel {name}{': ' + faults[0] if faults else ''}")


def seen_by(name: str, feed: Path, prober: probing.Prober) -> Ladder:
    """The ladder of the channel `name`, by the lists that adsplice-feed reads by its settings in the file `feed`. `prober` looks at them. Raises
    Fault."""
    found = channels_of(name, feed, prober)
    return prober.ladder({rendition: str(it.origin) for rendition, it in found.items()}, {rendition: it.base for rendition, it in found.items()})


class Watch:
    """Looks at the ladder of the channel of `section` now and then. `changed` is called once one was seen, with whether it is another one than before; what was seen is
    kept in a folder of the `shop`, so that a program that is started anew knows it at once. ffprobe runs as one of `children`. `tell` is called with what
    keeps it from that, or with an empty text."""

    def __init__(self, section: Section, shop: Shop, children: Children, changed: Callable[[bool], None], tell: Callable[[str], None]) -> None:
        self.section, self.shop, self.changed, self.tell = section, shop, changed, tell
        self.prober = probing.Prober(children, Client(ASKED, True), True)
        self.path = shop.keep / "ladders" / f"{section.name}.json"
        self.ladder: Ladder | None = None

    def begin(self) -> None:
        """Takes the ladder of the section's file, or what was kept; raises Fault if there is a file that says none."""
        if self.section.ladder is not None:
            self.take(ladder_in(self.section.ladder))
            return
        if self.shop.feed is None:
            raise Fault(f"channel {self.section.name}: ladder, or feed in [DEFAULT], has to say what its renditions are like")
        try:
            self.take(ladder_in(self.path))
        except Fault:
            return

    def take(self, found: Ladder) -> None:
        """The ladder is `found`; the channel is told whether that is another one than before."""
        before = self.ladder if self.ladder is not None and self.ladder.is_like(found) else None
        self.ladder = found if before is None else replace(before, shift=found.shift)
        self.changed(before is None)

    def look(self, feed: Path) -> None:
        """Looks at the lists that the feed's settings in the file `feed` name; raises Fault, or OSError if what was seen can't be kept."""
        found = seen_by(self.section.name, feed, self.prober)
        if self.ladder is None or not self.ladder.is_like(found):
            self.path.parent.mkdir(parents=True, exist_ok=True)
            write_aside(self.path, json.dumps(ladders.file_of(found)).encode() + b"\n")
        self.take(found)

    def run(self, ending: threading.Event) -> None:
        """Looks until `ending` is set."""
        feed = self.shop.feed
        pauses = Pauses(FIRST, LONGEST)
        while feed is not None and self.section.ladder is None and not ending.is_set():
            try:
                self.look(feed)
                self.tell("")
                pauses.reset()
                pause = AGAIN
            except (Fault, OSError, ValueError) as fault:
                self.tell(str(fault))
                pause = pauses.next()
            except Exception as fault:  # noqa: BLE001  (the next look goes on)
                self.tell(f"{type(fault).__name__}: {str(fault)[:200]}")
                pause = pauses.next()
            ending.wait(pause)


def text_of(it: Ladder) -> str:
    """What a line says of the ladder `it`."""
    def one(name: str, what: Mapping[str, object] | ladders.Rendition) -> str:
        assert isinstance(what, ladders.Rendition)
        seen = f" {what.picture.width}x{what.picture.height}" if what.picture else " sound" if what.sound else " subtitles"
        return f"{name}{seen}"
    return f"{len(it.renditions)} renditions ({', '.join(one(name, what) for name, what in it.renditions.items())}), segments of {it.piece / 10**9:g} s"[:300]
