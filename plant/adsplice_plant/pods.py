"""The pods with which a channel's breaks began: one that is made anew is given them again, so that no media number has another segment.

What is to be given now may be something else: the fallback has changed, or a decision file was written anew or removed. A break whose
start had passed when it was listed, or decided, stays as it is in a new channel, too: that isn't told of it in its first list.
"""
from __future__ import annotations

import json
from collections.abc import Collection, Mapping
from dataclasses import dataclass, field
from typing import Any

Ads = str  # those of a pod, as JSON


@dataclass
class Pods:
    """The ads that a controller holds by the programme's log: of the `fallback`, if there is one, and of decided breaks by their IDs (`held`). Of the
    breaks of the window: the ads with which each began (`entered`), and those that began with none (`missed`)."""

    fallback: Ads | None = None
    held: dict[str, Ads] = field(default_factory=dict)
    entered: dict[str, Ads] = field(default_factory=dict)
    missed: set[str] = field(default_factory=set)

    def copy(self) -> Pods:
        """The same, as a value of its own."""
        return Pods(self.fallback, dict(self.held), dict(self.entered), set(self.missed))

    # ---- decisions

    def given(self, body: bytes) -> None:
        """The log gives the decision file `body`."""
        said = said_in(body)
        if "fallback" in said:
            self.fallback = ads_of(said["fallback"])
        self.held |= decided_in(body)
        if "withdraw" in said:
            self.held.pop(str(said["withdraw"]), None)

    def at_hand(self, name: str) -> Ads | None:
        """The ads with which the break `name` begins if a list enters it now; none if it isn't decided, and there is no fallback."""
        return self.held.get(name, self.fallback)

    def again(self) -> list[bytes]:
        """The decision files by which a new channel has for the breaks of the window what they began with, as far as it hasn't."""
        return [decision_of(name, ads) for name, ads in self.entered.items() if self.at_hand(name) != ads]

    # ---- lists

    def enter(self, starts: Mapping[str, int], known: Collection[str], fresh: list[int], first: int, tolerance: int) -> None:
        """A list is about to be pushed whose breaks have these `starts`, whose segments begin from the instant `first` on, and the new ones at the instants
        `fresh`. Those of `known` were listed before. A break begins with a segment within the `tolerance` of its start (docs/operating/channel.md,
        tolerance). One that starts before the list is nobody's."""
        for name, start in starts.items():
            if name in self.entered:
                continue
            if any(abs(it - start) <= tolerance for it in fresh):
                self.missed.discard(name)
                if (ads := self.at_hand(name)) is not None:
                    self.entered[name] = ads
                else:
                    self.missed.add(name)
            elif name not in known and fresh and first - tolerance <= start < fresh[-1]:
                self.missed.add(name)

    def of(self, names: Collection[str]) -> Pods:
        """The same with no more than the breaks `names`, beside those that are held for breaks to come."""
        entered = {name: ads for name, ads in self.entered.items() if name in names}
        held = {name: ads for name, ads in self.held.items() if name in names or name not in self.entered}
        return Pods(self.fallback, held, entered, self.missed & set(names))

    # ---- on disk

    def kept(self, names: Collection[str]) -> dict[str, Any]:
        """What a feed keeps on disk of the breaks `names`."""
        it = self.of(names)
        return {"fallback": it.fallback, "held": it.held, "entered": it.entered, "missed": sorted(it.missed)}


def pods_of(said: Any) -> Pods:
    """What a feed kept, as `kept` answers it; an earlier feed kept nothing (none). Raises ValueError or TypeError if it doesn't read."""
    if said is None:
        return Pods()
    held, entered = ({str(name): checked(ads) for name, ads in said[member].items()} for member in ("held", "entered"))
    return Pods(None if said["fallback"] is None else checked(said["fallback"]), held, entered, {str(name) for name in said["missed"]})


def checked(ads: str) -> Ads:
    """The `ads` if they are a JSON list; raises ValueError if they aren't."""
    if not isinstance(json.loads(ads), list):
        raise ValueError("its ads are no list")
    return ads


def said_in(body: bytes) -> dict[str, Any]:
    """What the decision file `body` says; nothing if it doesn't read."""
    try:
        found = json.loads(body)
    except (ValueError, RecursionError):
        return {}
    return found if isinstance(found, dict) else {}


def ads_of(said: Any) -> Ads | None:
    """The ads of a break or of the fallback that a decision file `said`; none if it has none."""
    found = said.get("ads") if isinstance(said, dict) else None
    return json.dumps(found) if isinstance(found, list) else None


def decided_in(body: bytes) -> dict[str, Ads]:
    """The ads of each break that the decision file `body` decides, by its ID."""
    breaks = said_in(body).get("breaks")
    found = {it.get("id"): ads_of(it) for it in breaks if isinstance(it, dict)} if isinstance(breaks, list) else {}
    return {name: ads for name, ads in found.items() if isinstance(name, str) and ads is not None}


def decision_of(name: str, ads: Ads) -> bytes:
    """The decision file by which the break `name` has the `ads`."""
    return f'{{"breaks":[{{"id":{json.dumps(name)},"ads":{ads}}}]}}'.encode()
