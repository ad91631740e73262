"""How many there are at least of what the test tries (tests/least_counts.txt): a part that counts fewer fails.

Else a test passes that has nothing to try. The file has a line for each count: its kind, a name, and a number.

  vectors FILE           the lines of a file of stored vectors
  rows CRATE/TABLE       the rows of a table of worked values
  wrong CRATE            the wrong bodies of a crate
  cases PART             what a part of ./test counts, passed and failed. Some parts draw cases, or leave out what needs a
                         program that isn't installed. Of these the file states nine tenths of what was counted (DRAWN)

tests/rules holds the first three kinds against what is there: the file states neither more nor fewer. tests/least_counts
--write writes it anew.
"""
from __future__ import annotations

import glob
import os
import re

TOP = os.path.dirname(os.path.dirname(os.path.abspath(__file__)))
FILE = "tests/least_counts.txt"
STORED = ("tests/vectors/*.jsonl", "tests/sections/*.jsonl", "tests/refused_decisions.jsonl")
DRAWN = ("gate", "rules", "wrong", "definitions", "edits", "model", "memory", "plant", "live")
UNITS = {"vectors": "lines", "rows": "rows", "wrong": "wrong bodies", "cases": "cases"}
Counts = dict[str, int]


def read(top: str = TOP) -> dict[str, Counts]:
    """The stated counts, by their kinds and names. Fails if a line isn't one, or is there twice."""
    found: dict[str, Counts] = {kind: {} for kind in UNITS}
    with open(os.path.join(top, FILE), encoding="utf-8") as lines:
        for line in lines:
            if line.strip() and not line.startswith("#"):
                kind, name, number = line.split()
                if name in found[kind]:
                    raise ValueError(f"{FILE} states {kind} {name} twice")
                found[kind][name] = int(number)
    return found


def sentence(kind: str, name: str, there: int, stated: int) -> str:
    """What is said of a count that is too small."""
    return f"{name}: {there} {UNITS[kind]} are there, and {FILE} states {stated} at least"


def lacking(kind: str, there: Counts, names: set[str] | None = None, top: str = TOP) -> list[str]:
    """A sentence for each count of a kind that is smaller than the stated one; of these names, if any are given. What is
    counted and isn't stated at all is told too: nobody would see it go."""
    stated = read(top)[kind]
    few = [sentence(kind, name, there.get(name, 0), number) for name, number in stated.items() if (names is None or name in names) and there.get(name, 0) < number]
    return few + [f"{name}: {FILE} doesn't state how many {UNITS[kind]} it has" for name in there if name not in stated and (names is None or name in names)]


def behind(kind: str, there: Counts, top: str = TOP) -> list[str]:
    """The same, and a sentence for each count that is larger than the stated one."""
    stated = read(top)[kind]
    more = [f"{name}: {number} {UNITS[kind]} are there, and {FILE} states {stated[name]}: tests/least_counts --write writes it"
            for name, number in there.items() if number > stated.get(name, number)]
    return lacking(kind, there, top=top) + more


# ---- what is there

def vectors(top: str = TOP) -> Counts:
    """The lines of each file of stored vectors, by its path."""
    found = {}
    for path in sorted(one for pattern in STORED for one in glob.glob(os.path.join(top, pattern))):
        with open(path, "rb") as lines:
            found[os.path.relpath(path, top)] = sum(1 for line in lines if line.strip())
    return found


def wrong(top: str = TOP) -> Counts:
    """The wrong bodies of each crate, by its name."""
    found: Counts = {}
    for path in sorted(glob.glob(os.path.join(top, "crates/*/wrong/*.edit"))):
        crate = path.split(os.sep)[-3]
        found[crate] = found.get(crate, 0) + 1
    return found


def rows(top: str = TOP) -> Counts:
    """The rows of each table of worked values, by its crate, file and name. A row is a line's pair within the table's list, as
    the reader of definitions takes it apart."""
    from definitions.edits import EXAMPLES, theorem
    from definitions.computing import Machine, Names
    from definitions.trying import IS_TABLE
    from words import kit_folder
    repository, found = theorem.Repository(top), {}
    machine = Machine(Names(theorem, top, kit_folder()))
    for it in repository.definitions:
        if it.key[0] in EXAMPLES and IS_TABLE.search(it.text):
            found[table_name(it.key)] = row_count(machine.definition(it.key).equations[0].body)
    return dict(sorted(found.items()))


def row_count(body: object) -> int:
    """The rows of a table's equation, as it was read."""
    node, count = body, 0
    while node.kind == "binary" and node.parts[0] == "→":  # type: ignore[attr-defined]
        node = node.parts[2]  # type: ignore[attr-defined]
    node = node.parts[1][-1]  # type: ignore[attr-defined]
    while node.kind == "binary":
        node, count = node.parts[2], count + 1
    return count


def table_name(key: tuple[str, str, str]) -> str:
    """How a table is named in the file."""
    return f"{key[0]}/{key[1]}.{key[2]}"


def stated_of(part: str, counted: int) -> int:
    """What the file states of a part that counted so many."""
    return counted * 9 // 10 if part in DRAWN else counted


def cases(top: str = TOP) -> Counts:
    """What each part of the last ./test counted, as far as its log (out/PART.log) is there, as the file states it."""
    found = {}
    for path in sorted(glob.glob(os.path.join(top, "out/*.log"))):
        part = os.path.basename(path)[: -len(".log")]
        with open(path, encoding="utf-8", errors="replace") as it:
            said = re.search(r"(\d+) passed, (\d+) failed$", it.read().rstrip("\n").rpartition("\n")[2])
        if said and not int(said[2]):
            found[part] = stated_of(part, int(said[1]))
    return found
