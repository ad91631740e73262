"""adsplice-decide --check: whether what it needs is there. Nothing is made, changed, or asked of an ad server."""
from __future__ import annotations

import shutil
import socket
import ssl
from collections.abc import Iterator
from pathlib import Path

from . import children, config_file, probing, urls, words
from .check import CONNECT, Fact, folder
from .decide_ladders import seen_by, text_of
from .condition import ladder_in
from .decide_settings import Section, Settings, Shop, schedule_in
from .web import Client
from .words import FAULT, Fault

PROGRAMS = ("ffmpeg", "ffprobe", "nice", "prlimit", "setpriv")
ALL = "all"  # what stands in place of a channel in a fact of all


def of_shop(shop: Shop) -> Iterator[Fact]:
    """What is so of that which all channels share (`shop`)."""
    yield folder("store", shop.store)
    yield folder("keep", shop.keep)
    there = next((it for it in (shop.store, *shop.store.absolute().parents) if it.is_dir()), Path("/"))
    free = shutil.disk_usage(there).free
    yield Fact("room", free >= min(shop.room, 10**9), f"{free} bytes are free for ads, which may take {shop.room}")
    for name in PROGRAMS:
        try:
            yield Fact("programs", True, f"{children.find(name)} is there")
        except Fault as fault:
            yield Fact("programs", False, str(fault))


def of_section(section: Section, shop: Shop) -> Iterator[Fact]:
    """What is so of the channel of `section`, one of the `shop`."""
    yield takes_connection("vast", section.vast)
    yield of_ladder(section, shop)
    if shop.feed is not None:
        yield of_feed(section, shop.feed)
    if section.slate is not None:
        is_there = section.slate.is_file()
        yield Fact("slate", is_there, f"{section.slate} is there" if is_there else f"there is no file {section.slate}")
    if section.schedule is not None:
        try:
            yield Fact("schedule", True, f"{section.schedule} has {len(schedule_in(section.schedule))} breaks")
        except Fault as fault:
            yield Fact("schedule", False, str(fault))
    if section.tracking:
        yield Fact("tracking", True, f"what ads call is called by this machine, once for each that {section.as_run} says was shown whole")


def takes_connection(what: str, url: str) -> Fact:
    """Whether the server of the `url`, the setting `what`, takes a connection; nothing is asked."""
    parts = urls.parts_of(url)
    if parts is None:
        return Fact(what, False, words.NO_URL)
    host, is_secret = parts.host, parts.scheme == "https"
    shown = f"{parts.scheme}://{host}"
    try:
        with socket.create_connection((host, parts.port or (443 if is_secret else 80)), CONNECT) as it:
            if is_secret:
                ssl.create_default_context().wrap_socket(it, server_hostname=host).close()
    except (OSError, UnicodeError) as fault:
        return Fact(what, False, f"{shown}: {getattr(fault, 'strerror', None) or fault}")
    return Fact(what, True, f"{shown} takes a connection")


def of_ladder(section: Section, shop: Shop) -> Fact:
    """Whether it can be said what the ladder of `section`, a channel of the `shop`, is like."""
    its = children.Children()
    try:
        if section.ladder is not None:
            return Fact("ladder", True, text_of(ladder_in(section.ladder)))
        if shop.feed is None:
            raise Fault("ladder, or feed in [DEFAULT], has to say what its renditions are like")
        prober = probing.Prober(its, Client(10, True), True)
        return Fact("ladder", True, text_of(seen_by(section.name, shop.feed, prober)))
    except (Fault, OSError, ValueError) as fault:
        return Fact("ladder", False, str(fault))
    finally:
        its.end()


def of_feed(section: Section, feed: Path) -> Fact:
    """Whether adsplice-feed asks for the breaks of `section`, by its settings in the file `feed`, and waits for longer than the ad server may take."""
    try:
        its = [it for it in config_file.read_right(feed, lambda *_: None) if section.name in (it.name, it.programme)]
    except Fault as fault:
        return Fact("feed", False, str(fault))
    if not its:
        return Fact("feed", False, f"{feed} has no channel {section.name}")
    ask = its[0].ask or its[0].texts.get("ask")
    if not ask or not ask.startswith("http"):
        return Fact("feed", False, f"{feed}: channel {section.name} has no `ask`: the feed asks nobody")
    if its[0].hold <= section.timeout:
        return Fact("feed", False, f"{feed}: channel {section.name}: hold = {its[0].hold:g} isn't above timeout = {section.timeout:g}: answers would be late")
    return Fact("feed", True, f"{feed}: the feed asks {words.shown(ask)}, and waits for {its[0].hold:g} s")


def run(found: Settings) -> int:
    """Prints what is so by the settings that were `found`, a line for each fact; answers the exit status."""
    is_well = True
    for name, facts in ((ALL, of_shop(found.shop)), *((it.name, of_section(it, found.shop)) for it in found.sections)):
        for fact in facts:
            is_well = is_well and fact.is_right
            words.write_out(f"{fact.line(name)}\n")
    return 0 if is_well else FAULT
