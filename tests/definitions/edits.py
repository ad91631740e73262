"""Changed definitions of crates/*/wrong_definitions, and what of the definitions leads from a table to them."""
from __future__ import annotations

import importlib.machinery
import importlib.util
import os
import re
import sys
from collections import defaultdict
from types import ModuleType
from typing import Iterable, NamedTuple

ROOT = os.path.dirname(os.path.dirname(os.path.dirname(os.path.abspath(__file__))))
EXAMPLES = ("worked_examples", "served_examples")  # the crates of tables

Key = tuple[str, str, str]  # a definition: its crate, its module and its name


class Edit(NamedTuple):
    """A changed definition: its crate, what is said of it, the module and name of its table, its file, and the old and new texts."""

    crate: str
    name: str
    by: tuple[str, ...]
    file: str
    pairs: list[list[str]]


class Trial(NamedTuple):
    """A table with copies of definitions: the trial's name, the table's key, and the copies' texts by their keys."""

    name: str
    table: Key
    texts: dict[Key, str]


def load(name: str, path: str) -> ModuleType:
    """A script without an ending as a module."""
    loader = importlib.machinery.SourceFileLoader(name, path)
    sys.modules[name] = made = importlib.util.module_from_spec(importlib.util.spec_from_loader(name, loader))
    loader.exec_module(made)
    return made


theorem = load("theorem", f"{ROOT}/tests/theorem")


def text_of(path: str) -> str:
    with open(path, encoding="utf-8") as it:
        return it.read()


def write(path: str, text: str) -> None:
    os.makedirs(os.path.dirname(path), exist_ok=True)
    with open(path, "w", encoding="utf-8") as it:
        it.write(text)


# ---- reading edits

def edits_of(crate: str, text: str) -> list[Edit]:
    """The edits of a crate's file, in their order."""
    by: tuple[str, ...] = ()
    file, found = "", []
    for line in filter(None, (it.rstrip() for it in text.split("\n"))):
        key, _, value = line.partition(": ")
        if key == "by":
            by = tuple(value.split("."))
        elif key == "file":
            file = value
        elif key == "old":
            found[-1].pairs.append([value, ""])
        elif key == "new":
            found[-1].pairs[-1][1] = value
        elif not line.startswith("#"):
            found.append(Edit(crate, line, by, file, []))
    return found


def edits_in(names: list[str]) -> list[Edit]:
    """The edits of the crates of these names, or of each crate."""
    crates = re.findall(r"^(\w+)(?: \w+)*:", text_of(f"{ROOT}/crates.txt"), re.MULTILINE)
    files = {it: f"{ROOT}/crates/{it}/wrong_definitions" for it in crates if not names or it in names}
    return [edit for crate, file in files.items() if os.path.exists(file) for edit in edits_of(crate, text_of(file))]


# ---- what leads where

class Definitions:
    """The repository's definitions, what each of them names, and what leads from one to another."""

    def __init__(self, root: str = ROOT) -> None:
        self.repository = theorem.Repository(root)
        self.by_key = {it.key: it for it in self.repository.definitions}
        self.of_module = defaultdict(list)
        for it in self.repository.definitions:
            self.of_module[it.key[:2]].append(it)
        self.known = {}

    def named(self, key: Key) -> set[Key]:
        if key not in self.known:
            it = self.by_key[key]
            self.known[key] = {one.key for one in self.repository.named(it.file, it.text, key[:2])} - {key}
        return self.known[key]

    def below(self, table: Key) -> set[Key]:
        """All definitions that a table rests on, itself among them."""
        found, waiting = {table}, [table]
        while waiting:
            for key in self.named(waiting.pop()) - found:
                found.add(key)
                waiting.append(key)
        return found

    def leading(self, table: Key, changed: Iterable[Key]) -> set[Key]:
        """Those among them that rest on a changed one."""
        below = self.below(table)
        above = defaultdict(set)
        for key in below:
            for other in self.named(key):
                above[other].add(key)
        found, waiting = set(), [it for it in changed if it in below]
        while waiting:
            key = waiting.pop()
            if key not in found:
                found.add(key)
                waiting += above[key] & below
        return found

    def is_type(self, key: Key) -> bool:
        return bool(re.match(r"(?:pub )?(?:data|record) ", self.head(key)))

    def head(self, key: Key) -> str:
        return next(it for it in self.by_key[key].text.split("\n") if not it.startswith(("--", "infix")))

    def gives_value(self, key: Key) -> bool:
        """Whether it is a function to values, and no type or proposition."""
        return not self.is_type(key) and not re.search(r"\bType\b", re.sub(r"\{[^}]*\}", "", self.head(key)))

    def under_no_table(self, keys: Iterable[Key]) -> list[Key]:
        """Those of these definitions that give values and on which no table rests."""
        tables = [key for key in self.by_key if key[0] in EXAMPLES]
        below = set().union(*(self.below(it) for it in tables))
        return sorted(key for key in keys if key not in below and self.gives_value(key))

    def table_of(self, by: tuple[str, ...]) -> Key | None:
        """The key of a table, by its module and name."""
        return next((it for it in ((crate, *by) for crate in EXAMPLES) if len(by) == 2 and it in self.by_key), None)


def changed_by(definitions: Definitions, edit: Edit) -> tuple[dict[Key, str], str | None]:
    """The changed definitions of an edit with their new texts, or why it doesn't apply."""
    module = edit.file[len("specs/") : -len(".antt")].replace("/", ".")
    here, texts = definitions.of_module.get((edit.crate, module), []), {}
    for old, new in edit.pairs:
        having = [it for it in here if old in texts.get(it.key, it.text)]
        if len(having) != 1 or texts.get(having[0].key, having[0].text).count(old) != 1:
            return {}, f"`{old}` doesn't stand once in a definition of {edit.file}"
        texts[having[0].key] = texts.get(having[0].key, having[0].text).replace(old, new)
    return texts, None if texts else "it changes nothing"


def trial_of(definitions: Definitions, name: str, edit: Edit) -> tuple[Trial | None, str | None]:
    """The trial of an edit, or why there is none."""
    texts, why = changed_by(definitions, edit)
    table = definitions.table_of(edit.by)
    if why or table is None:
        return None, why or f"there is no table {'.'.join(edit.by)}"
    if any(definitions.is_type(key) for key in texts):
        return None, "it changes a type"
    leading = definitions.leading(table, texts)
    if set(texts) - leading:
        return None, f"{'.'.join(edit.by)} doesn't rest on it"
    copied = {key: texts.get(key, definitions.by_key[key].text) for key in leading if not definitions.is_type(key)}
    return Trial(name, table, copied), None


def control_of(definitions: Definitions, name: str, trials: list[Trial]) -> Trial:
    """The trial of a table over unchanged copies of all that its edits' trials copy."""
    return Trial(name, trials[0].table, {key: definitions.by_key[key].text for trial in trials for key in trial.texts})
