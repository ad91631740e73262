"""A choice of vectors that together reach all that all of them reach: each step from line to line of the model, and each outcome."""
from __future__ import annotations

import json
import sys
from pathlib import Path
from types import FrameType
from typing import Any

from adsplice_rules.values import NotModelled

from . import RULES
from .cases import outcomes
from .stored import agrees, owed_by_model, vectors

MODEL = str(RULES)
Feature = tuple[str, int, int]


class Steps:
    """The steps from line to line of the model that were taken since it was made."""

    def __init__(self) -> None:
        """None so far."""
        self.taken: set[Feature] = set()
        self.before: dict[int, int] = {}

    def __call__(self, frame: FrameType, event: str, _: Any) -> Any:
        """Notes a step within a function of the model."""
        if not frame.f_code.co_filename.startswith(MODEL):
            return None
        self.taken.add((frame.f_code.co_filename[len(MODEL):], self.before.get(id(frame), 0), frame.f_lineno))
        self.before[id(frame)] = frame.f_lineno
        if event == "return":
            self.before.pop(id(frame), None)
        return self


def reached(vector: dict[str, Any]) -> set[Feature]:
    """All that a vector reaches; nothing if the model says nothing of it."""
    steps = Steps()
    sys.settrace(steps)
    try:
        case = owed_by_model(vector)
    except NotModelled:
        return set()
    finally:
        sys.settrace(None)
    return steps.taken | {(one, 0, 0) for one in outcomes(case)}


def kept(files: list[Path]) -> list[dict[str, Any]]:
    """The vectors to keep: again and again the one that reaches most that is new, for its size."""
    found = [(vector, reached(vector), len(json.dumps(vector))) for vector in vectors(files) if agrees(vector)]
    chosen: list[dict[str, Any]] = []
    covered: set[Feature] = set()
    while found:
        found = [(vector, features, size) for vector, features, size in found if features - covered]
        if found:
            vector, features, _ = max(found, key=lambda one: len(one[1] - covered) / (one[2] + 500))
            chosen.append(vector)
            covered |= features
    return chosen
