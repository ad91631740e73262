"""What adsplice-decide is told of its channels, by a file of sections as feed.ini is one."""
from __future__ import annotations

import argparse
import configparser
import math
from collections.abc import Mapping
from dataclasses import dataclass, field
from pathlib import Path

from . import words
from .outside import Outside
from .playlist import SECOND, read_duration, read_instant
from .reach import Network, networks_of
from .words import Fault

OF_ALL = ("store", "keep", "at", "feed", "processes", "threads", "days", "room", "largest", "patience")  # which [DEFAULT] alone has
OF_EACH = ("vast", "macros", "ladder", "slate", "timeout", "length", "prefetch", "schedule", "loudness", "redirects", "networks", "tracking", "as-run")
UNITS = {"": 1, "k": 10**3, "m": 10**6, "g": 10**9, "t": 10**12}
MOST_LINES = 10_000  # of a schedule
LONGEST = 3600  # seconds of a break


@dataclass(frozen=True)
class Shop:
    """What all channels share: the folder `store` of ads that are made, which is published `at` a URL; the folder `keep` of what the program keeps;
    the file `feed` of adsplice-feed's channels, if there is one. Ads are made by so many `processes` at a time with so many `threads` each, within
    `patience` seconds; a file of an ad has at most `largest` bytes. All ads take at most `room` bytes, and go `days` after their last use."""

    store: Path
    keep: Path
    at: str
    feed: Path | None = None
    processes: int = 1
    threads: int = 1
    days: float = 30.0
    room: int = 50 * 10**9
    largest: int = 2 * 10**9
    patience: float = 900.0


@dataclass(frozen=True)
class Section:
    """A channel, or a ladder's programme: its `name`, the URL `vast` of its ad server with macros, of which `macros` has more values; the file `ladder`
    that says what it is like, if its lists aren't looked at; the file `slate` that fills up. The ad server has `timeout` seconds. A break whose signal
    says no length lasts `length` nanoseconds, if that is named. Ads are asked for `prefetch` seconds before the breaks of the file `schedule`, or
    without one once in `prefetch` seconds. `loudness` is in LUFS. `redirects`: whether other hosts than the ad server's are asked, at public
    addresses and in the `networks`, if some are named. `tracking`: whether
    what an ad calls is called for each that the file `as_run` says was shown whole."""

    name: str
    vast: str
    macros: Mapping[str, str] = field(default_factory=dict)
    ladder: Path | None = None
    slate: Path | None = None
    timeout: float = 0.7
    length: int | None = None
    prefetch: float | None = None
    schedule: Path | None = None
    loudness: float | None = None
    redirects: bool = True
    networks: tuple[Network, ...] | None = None
    tracking: bool = False
    as_run: Path | None = None

    def outside(self) -> Outside:
        """Where its requests may lead."""
        return Outside(self.vast, self.redirects, self.networks)


@dataclass(frozen=True)
class Settings:
    """All that the file says."""

    shop: Shop
    sections: list[Section]


def read(path: Path) -> Settings:
    """What the file `path` says; raises Fault."""
    found = configparser.ConfigParser(interpolation=None)
    try:
        with open(path, encoding="utf-8") as it:
            found.read_file(it)
    except (OSError, UnicodeDecodeError, configparser.Error) as fault:
        text = fault.strerror if isinstance(fault, OSError) else " ".join(str(fault).split())
        raise Fault(f"{path}: {text}") from None
    try:
        shop = shop_of(found.defaults())
        sections = [section_of(name, {key: it for key, it in found[name].items() if key not in OF_ALL or it != found.defaults().get(key)})
                    for name in found.sections()]
    except Fault as fault:
        raise Fault(f"{path}: {fault}") from None
    if not sections:
        raise Fault(f"{path}: it has no channel: a section such as [news]")
    return Settings(shop, sections)


def shop_of(said: Mapping[str, str]) -> Shop:
    """What [DEFAULT] has `said` for all channels; raises Fault."""
    if unknown := set(said) - {*OF_ALL, *OF_EACH}:
        raise Fault(f"[DEFAULT]: there is no setting {min(unknown)}; there are {', '.join((*OF_ALL, *OF_EACH))}")
    for name in ("store", "keep", "at"):
        if not said.get(name, "").strip():
            raise Fault(f"[DEFAULT]: {name} is missing")
    try:
        at = words.web_address(said["at"].strip())
    except argparse.ArgumentTypeError as fault:
        raise Fault(f"[DEFAULT]: at: {fault}") from None
    if not at.isascii() or not at.isprintable() or set(at) & {'"', " ", "{", "}"}:
        raise Fault(f"[DEFAULT]: at: {at!r} has to be printable ASCII, without blanks, quotes and braces")
    feed = said.get("feed", "").strip()
    return Shop(Path(said["store"].strip()), Path(said["keep"].strip()), at, Path(feed) if feed else None, count(said, "processes", 1, 64), count(said, "threads", 1, 64),
                amount(said, "days", 30.0, 0.01, 3650), size(said, "room", 50 * 10**9), size(said, "largest", 2 * 10**9), amount(said, "patience", 900.0, 1, 86_400))


def section_of(name: str, said: Mapping[str, str]) -> Section:
    """The channel `name` of which its section has `said`; raises Fault."""
    try:
        words.channel_name(name)
        if moved := sorted(set(said) & set(OF_ALL)):
            raise Fault(f"{moved[0]} is for all channels, and belongs into [DEFAULT]")
        if unknown := set(said) - set(OF_EACH):
            raise Fault(f"there is no setting {min(unknown)}; there are {', '.join(OF_EACH)}")
        vast = said.get("vast", "").strip()
        words.web_address(vast)
        length, loudness = said.get("length", "").strip(), said.get("loudness", "").strip()
        found = Section(
            name, vast, macros_of(said.get("macros", "")), path_of(said, "ladder"), path_of(said, "slate"), amount(said, "timeout", 0.7, 0.05, 10),
            nanoseconds(length) if length else None, amount(said, "prefetch", 0, 1, 86_400) if said.get("prefetch", "").strip() else None,
            path_of(said, "schedule"), amount(said, "loudness", 0, -70, -5) if loudness else None, is_yes(said, "redirects", True),
            networks_in(said), is_yes(said, "tracking", False), path_of(said, "as-run"))
        if found.tracking and found.as_run is None:
            raise Fault("tracking needs as-run, the log of adsplice-monitor by which an ad was shown")
        return found
    except (argparse.ArgumentTypeError, Fault) as fault:
        raise Fault(f"channel {name}: {fault}") from None


def networks_in(said: Mapping[str, str]) -> tuple[Network, ...] | None:
    """The networks that the setting of this name has `said`; none if it isn't there. Raises Fault."""
    try:
        return networks_of(said.get("networks", "")) or None
    except ValueError as fault:
        raise Fault(f"networks are such as 10.0.0.0/8 192.168.7.3, and {fault}") from None


def path_of(said: Mapping[str, str], name: str) -> Path | None:
    """The path that the setting `name` has `said`; none if there is none."""
    text = said.get(name, "").strip()
    return Path(text) if text else None


def count(said: Mapping[str, str], name: str, usual: int, most: int) -> int:
    """The whole number that the setting `name` has `said`, from 1 to `most`; `usual` if it isn't there. Raises Fault."""
    text = said.get(name, "").strip()
    if not text:
        return usual
    if not (text.isascii() and text.isdigit() and len(text) < 9 and 1 <= int(text) <= most):
        raise Fault(f"{name} is a whole number from 1 to {most}, and not {text[:40]}")
    return int(text)


def amount(said: Mapping[str, str], name: str, usual: float, least: float, most: float) -> float:
    """The number that the setting `name` has `said`, from `least` to `most`; `usual` if it isn't there. Raises Fault."""
    text = said.get(name, "").strip()
    try:
        found = float(text) if text else usual
    except ValueError:
        found = math.nan
    if text and not least <= found <= most:
        raise Fault(f"{name} is a number from {least:g} to {most:g}, and not {text[:40]}")
    return found


def size(said: Mapping[str, str], name: str, usual: int) -> int:
    """The number of bytes that the setting `name` has `said`, as 50G; `usual` if it isn't there. Raises Fault."""
    text = said.get(name, "").strip().lower()
    number = text.rstrip("kmgt")
    if text and not (number.isascii() and number.isdigit() and len(number) <= 15 and int(number) and text[len(number):] in UNITS):
        raise Fault(f"{name} is a number of bytes, as 50G or 500M, and not {text[:40]}")
    return int(number) * UNITS[text[len(number):]] if text else usual


def is_yes(said: Mapping[str, str], name: str, usual: bool) -> bool:
    """Whether the setting `name` has `said` yes; what is `usual` if it isn't there. Raises Fault."""
    text = said.get(name, "").strip().lower()
    if text not in ("", "yes", "no"):
        raise Fault(f"{name} is yes or no, and not {text[:40]}")
    return text == "yes" if text else usual


def nanoseconds(text: str) -> int:
    """The length `text` of a break, in nanoseconds; raises Fault."""
    found = read_duration(text)
    if not found or found > LONGEST * SECOND:
        raise Fault(f"a break's length is a number of seconds above 0, of at most {LONGEST}, and not {text[:40]}")
    return found


def macros_of(text: str) -> dict[str, str]:
    """The macros that the lines of `text` name, each as NAME=VALUE; raises Fault."""
    found = {}
    for line in filter(None, (it.strip() for it in text.splitlines())):
        name, sign, value = line.partition("=")
        if not sign or not name.strip("[] ").replace("_", "").isalpha() or not value.isprintable():
            raise Fault(f"macros has a line NAME=VALUE for each, and not {line[:40]!r}")
        found[name.strip("[] ").upper()] = value.strip()
    return found


def schedule_in(path: Path) -> list[tuple[int, int | None]]:
    """The breaks in the file `path`, a line each: when one begins (in UTC, or with an offset), and how many seconds it lasts if that is known. Both in
    nanoseconds, by their begins. An empty line, or one that begins with #, says nothing. Raises Fault."""
    try:
        lines = path.read_text(encoding="utf-8").splitlines()
    except (OSError, UnicodeDecodeError) as fault:
        raise Fault(f"{path}: {getattr(fault, 'strerror', None) or 'it is no UTF-8'}") from None
    if len(lines) > MOST_LINES:
        raise Fault(f"{path}: it has over {MOST_LINES} lines")
    found = []
    for number, line in enumerate(lines, 1):
        parts = line.split()
        if not parts or parts[0].startswith("#"):
            continue
        begin = read_instant(parts[0])
        if begin is None or len(parts) > 2:
            raise Fault(f"{path}: line {number}: a line is an instant as 2026-11-30T12:00:00Z, and the seconds that the break lasts")
        try:
            found.append((begin, nanoseconds(parts[1]) if len(parts) == 2 else None))
        except Fault as fault:
            raise Fault(f"{path}: line {number}: {fault}") from None
    return sorted(found, key=lambda it: it[0])
