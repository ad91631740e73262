"""The turned equations that no table refuses, each with the reason why it may stand."""
from __future__ import annotations

import re
from typing import Iterable, NamedTuple

KINDS = ("same", "law", "contract", "open")


PLACES = " (each place)"  # after an equation: it stands for all places in which it can be turned so


class Reason(NamedTuple):
    """Why no table refuses a turned equation: its kind, and what is said of it."""

    kind: str
    said: str


def reasons_in(text: str) -> tuple[dict[str, Reason], list[str]]:
    """The reasons of a file by the equations that they stand for; and what is wrong with its lines."""
    found: dict[str, Reason] = {}
    wrong, reason = [], None
    for number, line in enumerate(text.split("\n"), 1):
        kind, _, said = line.partition(": ")
        if not line or line.startswith("#"):
            continue
        if line.startswith("    ") and reason:
            if line.strip() in found:
                wrong.append(f"line {number} stands twice: {line.strip()}")
            found[line.strip()] = reason
        elif kind in KINDS and said:
            reason = Reason(kind, said)
        else:
            wrong.append(f"line {number} isn't read: {line}")
    return found, wrong


def spread(reasons: dict[str, Reason], labels: Iterable[str]) -> dict[str, Reason]:
    """The reasons, with one for each place where one stands for all of them."""
    places: dict[str, list[str]] = {}
    for label in labels:
        places.setdefault(re.sub(r" \(place \d+\)$", "", label), []).append(label)
    found = {}
    for label, reason in reasons.items():
        those = places.get(label.removesuffix(PLACES)) if label.endswith(PLACES) else None
        found.update({one: reason for one in those or [label]})
    return found


def counted(reasons: Iterable[Reason]) -> str:
    """How many there are of each kind."""
    kinds = [it.kind for it in reasons]
    return ", ".join(f"{kinds.count(it)} {it}" for it in KINDS)
