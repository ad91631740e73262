"""Whether the ads of a decision are there, before it is given (`verify`): which URIs are asked for, and what follows from the answers.

The shell asks (looking), and its answer is an event. A decision of which something isn't there is given to no rendition, and the fallback
stands in for it.
"""
from __future__ import annotations

import json
from collections.abc import Iterable, Mapping
from dataclasses import replace
from typing import Any, NamedTuple

from .breaks import Break
from .events import Look, Looked
from .state import File, FileState
from .turn import Turn
from .words import shown

SHARE = 0.45  # of a target duration: no list waits longer
LEAST = 0.25  # seconds that a list waits for a look at the least, though the answer of the ad server took all of its time
MOST = 256  # URIs of a decision that are asked for
TOLD = 3  # of those that aren't there
WEB = ("http://", "https://")


class Named(NamedTuple):
    """A `uri` that a decision names, of its `ad`: that one's ID, or its place."""

    uri: str
    ad: str


def named_in(body: bytes) -> tuple[list[Named], list[Named]]:
    """What the decision file `body` names, as far as that reads: the initialisation section, the first and the last segment of each ad, and the
    segments between these."""
    ends: list[Named] = []
    between: list[Named] = []
    try:
        said = json.loads(body)
        pods = said.get("breaks") or [said.get("fallback") or {}]
        for place, ad in enumerate(ad for pod in pods for ad in pod.get("ads", [])):
            name = str(ad.get("id") or f"ad {place}")
            uris = [str(it["uri"]) for it in ad["segments"]]
            section = ad.get("map")
            ends += [Named(it, name) for it in (*([str(section["uri"])] if section else []), *uris[:1], *uris[-1:])]
            between += [Named(it, name) for it in uris[1:-1]]
    except (ValueError, TypeError, KeyError, AttributeError, RecursionError):
        return [], []
    return ends, between


def chosen(bodies: Iterable[bytes], most: int = MOST) -> tuple[Named, ...]:
    """What the decision files `bodies` name that is asked for, each URI of the web once. If there are more than `most`, these are the ends of each ad
    first."""
    found = [named_in(it) for it in bodies]
    every = [it for part in (0, 1) for one in found for it in one[part] if it.uri.startswith(WEB)]
    return tuple({it.uri: it for it in reversed(every)}[uri] for uri in list(dict.fromkeys(it.uri for it in every))[:most])


# ---- files that wait

def is_verified(turn: Turn) -> bool:
    """Whether the programme's decisions are looked at before they are given."""
    return next(iter(turn.state.renditions.values())).settings.verify


def waits(turn: Turn, name: str, it: File) -> bool:
    """Has the ads of the decision file `it` of the `name` looked at, if that wasn't done; whether the file waits for that."""
    if it.is_there or not is_verified(turn):
        return False
    if it.looked_at is None:
        named = chosen(body for channel, body in it.bodies.items() if channel in it.stamps)  # (an empty piece of subtitles isn't an ad's)
        if not named:
            return False
        turn.set(files={**turn.state.files, name: replace(it, looked_at=turn.at)})
        turn.actions.append(Look(name, it.stamps, named))
    return True


def awaited(turn: Turn, known: Iterable[Break], end: int) -> dict[str, float]:
    """The moments until which lists that end at the instant `end` wait for looks at decision files, by their names: at the ads of those of the `known` breaks that
    begin before it."""
    first = next(iter(turn.state.renditions.values())).settings
    begun = {it.id for it in known if it.start < end}
    found = {}
    for name, it in turn.state.files.items():
        if it.state is FileState.NEW and it.looked_at is not None and not it.is_there and not begun.isdisjoint(it.ids):
            asked = [turn.state.asked[id_] for id_ in it.ids if id_ in turn.state.asked]
            found[name] = max(it.looked_at + LEAST, *asked) if asked else it.looked_at + min(first.hold, SHARE * turn.target())
    return found


def keep_earlier(turn: Turn, known: Iterable[Break], end: int) -> None:
    """Ads that were there earlier are taken for there once lists wait no longer for their look; the rest as in `awaited`."""
    for name, until in awaited(turn, known, end).items() if is_verified(turn) else ():
        it = turn.state.files[name]
        if it.was_there and turn.at >= until:
            turn.set(files={**turn.state.files, name: replace(it, is_there=True)})


def take(turn: Turn, event: Looked) -> None:
    """The ads of a decision file were looked at. One that was written anew since is looked at again."""
    it = turn.state.files.get(event.name)
    if it is None or it.looked_at is None or dict(it.stamps) != dict(event.stamps):
        turn.set(waits_until=0.0)
    elif event.was_there:
        turn.set(files={**turn.state.files, event.name: replace(it, was_there=True)})
    elif it.state is FileState.GIVEN and it.was_there and event.absent:
        turn.tell_decision(f"decisions/{event.name}", 0, "Absent", f"{told(event.absent)}; its breaks have it, since it was there before", is_again=True)
    elif it.state is FileState.NEW:
        end_look(turn, event, it)


def end_look(turn: Turn, event: Looked, it: File) -> None:
    """The look at the ads of the decision file `it`, which waits for it, has ended by the `event`."""
    turn.set(waits_until=0.0)
    if event.absent:
        refuse(turn, event.name, it, event.absent)
    else:
        turn.set(files={**turn.state.files, event.name: replace(it, is_there=True)})


def refuse(turn: Turn, name: str, it: File, absent: Iterable[tuple[str, str, str]]) -> None:
    """The decision file `it` of the `name` isn't given, since what is `absent` isn't there; nobody waits for its breaks any more."""
    turn.set(files={**turn.state.files, name: replace(it, state=FileState.REFUSED)},
             asked={id_: turn.at if id_ in it.ids else until for id_, until in turn.state.asked.items()})
    turn.is_kept = False  # (a later feed has to know)
    text = told(absent)
    body = json.dumps(list(it.ids)).encode()
    turn.note(turn.state.renditions, "absent", 0, text, body)
    turn.note(turn.state.renditions, "note", 0, text, body)
    turn.tell_decision(f"decisions/{name}", 0, "Absent", f"{text}; isn't given until it is written anew", is_again=True)


def told(absent: Iterable[tuple[str, str, str]]) -> str:
    """What is told of the URIs that are `absent`: each as its ad, the URI and why."""
    its = list(absent)
    more = f"; and {len(its) - TOLD} more" if len(its) > TOLD else ""
    return "; ".join(f"{ad[:60]}: {shown(uri)} isn't there: {why}" for ad, uri, why in its[:TOLD]) + more


def begin_again(turn: Turn) -> None:
    """The feed has begun: no look goes on."""
    files: Mapping[str, Any] = {name: replace(it, looked_at=None) if it.looked_at is not None and not it.is_there else it for name, it in turn.state.files.items()}
    turn.set(files=files)
