"""Whether each line of the threat model in docs/operating/security.md names what tries it, and that is there. tests/rules calls `lacking`.

A name in backticks in a row's last cell is a test, a function of plant/tests/of_*.py, or the path of a script.
"""
from __future__ import annotations

import glob
import os
import re

PAGE, TITLE = "docs/operating/security.md", "## The threat model"
ACTORS = ("origin", "ad server", "viewer", "local user", "network")  # each has a row at least


def rows_in(text: str) -> list[list[str]]:
    """The cells of the rows of the table below TITLE in the page `text`."""
    part = text.partition(f"\n{TITLE}\n")[2].partition("\n## ")[0]
    rows = [[cell.strip() for cell in line.strip("| ").split(" | ")] for line in part.split("\n") if line.startswith("| ")]
    return rows[1:]


def tests_at(top: str) -> set[str]:
    """The names of the plant's tests in the repository at `top`."""
    found: set[str] = set()
    for path in glob.glob(os.path.join(top, "plant/tests/of_*.py")):
        with open(path, encoding="utf-8") as it:
            found |= set(re.findall(r"^def (test_\w+)\(", it.read(), re.MULTILINE))
    return found


def faults_of(rows: list[list[str]], tests: set[str], top: str) -> list[str]:
    """A line for each row of `rows` that names nothing, and for each name that is none of the `tests`, nor a file below `top`."""
    faults = [f"{PAGE}: {TITLE}: no row is of the {it}" for it in ACTORS if not any(row[0].lower() == it for row in rows)]
    for row in rows:
        names = re.findall(r"`([^`]+)`", row[-1])
        faults += [] if names else [f"{PAGE}: nothing tries: {' | '.join(row[:2])[:80]}"]
        faults += [f"{PAGE}: there is no {it}" for it in names if it not in tests and not os.path.isfile(os.path.join(top, it))]
    return faults


def lacking(top: str) -> tuple[int, list[str]]:
    """How many rows the threat model of the repository at `top` has, and a line for each fault."""
    with open(os.path.join(top, PAGE), encoding="utf-8") as it:
        rows = rows_in(it.read())
    return len(rows), faults_of(rows, tests_at(top), top)
