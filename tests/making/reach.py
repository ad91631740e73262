"""Which rows of the table of rules, and which outcomes, cases reach."""
from __future__ import annotations

import re
import sys
from collections import Counter
from pathlib import Path
from types import FrameType
from typing import Any

from . import RULES
from .cases import FAMILIES, Connections, Run, case_of, outcomes

TOP = Path(__file__).resolve().parent.parent.parent
FOLLOWED = 200  # cases of a family whose calls are noted, which takes ten times as long
MODEL = str(RULES)
RUNS = ["written", "C1", *(f"P{n}" for n in range(1, 25)), *(f"J{n}" for n in (*range(1, 8), 10, 11)), "N10"]
SHOWN = [*RUNS, "200", "201", "204", "400", "404", "405", "411", "413", "503", "E4", "409 channel",
         *(f"409 N{n}" for n in range(1, 11)), *(f"409 J{n}" for n in (9, 10, 11)), "422 C1", "422 C2",
         *(f"422 J{n}" for n in range(1, 8))]


class Called:
    """The functions of the model that were called since it was made, by file and name."""

    def __init__(self) -> None:
        """None so far."""
        self.names: set[str] = set()

    def __call__(self, frame: FrameType, event: str, _: Any) -> None:
        """Notes a call."""
        code = frame.f_code
        if event == "call" and code.co_filename.startswith(MODEL):
            self.names.add(f"plant/adsplice_rules/{Path(code.co_filename).name}: {code.co_name}")


def rows() -> list[tuple[str, str]]:
    """Each row of the table of rules with the function of the model that it names."""
    page = (TOP / "docs" / "ARCHITECTURE.md").read_text(encoding="utf-8")
    part = page.partition("\n## Rules\n")[2].partition("\n## ")[0]
    found = re.findall(r"(?m)^\| ([^|]+) \| ([^|]+) \|.*`(plant/adsplice_rules/[^`]+)` \|$", part)
    return [(f"{section}: {rule}", place) for section, rule, place in found]


def called_by(family: str, seed: int, number: int) -> tuple[Run | Connections | None, set[str]]:
    """A case, and the functions of the model that were called to make it."""
    called = Called()
    sys.setprofile(called)
    try:
        case = case_of(family, seed, number)
    finally:
        sys.setprofile(None)
    return case, called.names


def print_rows(seed: int, count: int) -> int:
    """Prints how many of so many cases of each family reach each outcome, and how many of the first 200 each row; the exit
    status."""
    places: Counter[str] = Counter()
    seen: Counter[str] = Counter()
    for family in FAMILIES:
        for number in range(count):
            case, names = called_by(family, seed, number) if number < FOLLOWED else (case_of(family, seed, number), set())
            places.update(names)
            seen.update(set(outcomes(case)) if case else ())
    lines = [(places[place], rule) for rule, place in rows()] + [(seen[one], one) for one in SHOWN]
    for number, what in lines:
        print(f"{number:8} {what}")
    missed = [what for number, what in lines if number == 0]
    print(f"rows: {len(lines) - len(missed)} passed, {len(missed)} failed")
    return 1 if missed else 0
