"""How the machines of a store are: who leads what, and which one is behind (adsplice-feed --status), and what of it is wrong (--check)."""
from __future__ import annotations

import time
from collections.abc import Callable, Iterator
from typing import NamedTuple

from .etcd import Etcd, after_prefix
from .members import FEEDS, FORMAT, FORMAT_KEY, LEADS, Feed, feed_of, machine_of
from .store_settings import StoreAt

APART = 3.0  # seconds by which the clock of another machine may seem to be another one: what it says of it is up to a second old


class Group(NamedTuple):
    """The `feeds` that are there, who leads each programme (`leads`), why the members of the store that don't serve don't (`away`, by their addresses),
    and why the rest isn't known, if that is so."""

    feeds: dict[str, Feed]
    leads: dict[str, str]
    away: dict[str, str]
    why: str = ""


def read(at: StoreAt) -> Group:
    """The machines of the store that is `at`."""
    keys = Etcd(at.addresses, at.user, at.password, at.limit())
    away = {address: why for place, address in enumerate(at.addresses) if (why := keys.is_healthy(place))}
    try:
        said = keys.read(FORMAT_KEY)[1]
        if said and said[0].value != FORMAT:
            return Group({}, {}, away, f"{FORMAT_KEY} says {said[0].value[:40]!r}: its keys are of another version, or of somebody else")
        feeds = {it.key[len(FEEDS):]: found for it in keys.read(FEEDS, after_prefix(FEEDS))[1] if (found := feed_of(it, 0.0)) is not None}
        leads = {it.key[len(LEADS):]: it.value.decode("utf-8", "replace") for it in keys.read(LEADS, after_prefix(LEADS))[1]}
    except OSError as fault:
        return Group({}, {}, away, str(fault))
    return Group(feeds, leads, away)


def status(group: Group, names: list[str]) -> tuple[list[str], bool]:
    """A line for the store, for each machine and for each programme of those `names`; and whether all is well."""
    lines = [f"store: {address} doesn't serve: {why}" for address, why in group.away.items()]
    if group.why:
        return [*lines, f"store: {group.why}"], False
    is_well = not lines
    lines = lines or ["store: all members serve"]
    for name, it in sorted(group.feeds.items()):
        led = sum(owner == name for owner in group.leads.values())
        wrong = [f"behind in {', '.join(sorted(it.behind))}"] if it.behind else []
        wrong += [f"no controller answers for {', '.join(sorted(it.ill))}"] if it.ill else []
        is_well = is_well and not wrong
        lines.append(f"{machine_of(name)}: {len(it.programmes)} programmes, leads {led}; {'; '.join(wrong) or 'has all'}")
    for name in names:
        owner = group.leads.get(name)
        is_well = is_well and owner is not None
        lines.append(f"{name}: {f'led by {machine_of(owner)}' if owner is not None else 'nobody leads it'}")
    return lines, is_well


def facts(group: Group, hashes: dict[str, str], clock: Callable[[], float] = time.time) -> Iterator[tuple[str, bool, str]]:
    """What --check tells of a store: each time what it is of, whether that is right, and a text. `hashes`: of the settings of this machine's programmes."""
    for address, why in group.away.items():
        yield "store", False, f"{address} doesn't serve: {why}"
    if group.why:
        yield "store", False, group.why
        return
    if not group.away:
        yield "store", True, "all members serve, and have a majority"
    for name, it in sorted(group.feeds.items()):
        apart = it.clock - clock()
        if abs(apart) > APART:
            yield "clock", False, f"the clock of {machine_of(name)} is {abs(apart):.0f} s {'ahead of' if apart > 0 else 'behind'} this one's"
        others = sorted(one for one in it.programmes.keys() & hashes.keys() if it.programmes[one] != hashes[one])
        lacks = sorted(hashes.keys() - it.programmes.keys())
        if others:
            yield "settings", False, f"{machine_of(name)} has other settings of {', '.join(others[:8])}"
        if lacks:
            yield "settings", False, f"{machine_of(name)} lacks {', '.join(lacks[:8])}"
        if not others and not lacks and abs(apart) <= APART:
            yield "machine", True, f"{machine_of(name)} is there, with the same settings"
