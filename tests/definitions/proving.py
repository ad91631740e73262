"""Tries changed definitions by the prover: it computes a table over copies of what leads from it to them."""
from __future__ import annotations

import argparse
import os
import re
import shutil
import subprocess
import sys
import tempfile
from collections import defaultdict
from contextlib import contextmanager
from typing import Any, Iterator

from .edits import EXAMPLES, ROOT, Definitions, Key, Trial, load, text_of, write

USE = re.compile(r"^(?:pub )?use Rattle\.(\w+)\.specs\.([\w.]+?)(?:\.\{([^}]*)\}| as (\w+))?$", re.MULTILINE)
# what the prover says of two sides that it has computed, and that aren't the same
MISMATCH = re.compile(r"`holds`: (?:(?:computed as far as they go|as printed), the two types |expected type `[^`]+`,?\s+but this has type )")
# words of the standard library that an edit may use if its file doesn't import them
PLAIN_WORDS = (
    *("true", "false", "not", "length", "nat_le", "nat_lt", "int_le", "int_lt", "is_some", "is_none", "take", "drop", "reverse"),
    *("Some", "None", "min", "max", "[]", "◌∷◌", "◌==◌", "◌||◌", "◌&&◌", "◌+ℤ◌", "◌-ℤ◌"),
)
LIST_WORDS = ("list_any", "list_all", "before_first", "after_first")
WORD = re.compile(r"[^\W\d][\w']*")

# a function whose proof file imports each trial, so that a check of this function alone reads them all
READER = """//! Trials.
#![tactic(auto)]

ghost use Rattle.std.specs.Prelude.{◌≡◌, true};

/// Reads all trials.
pub fn reads_all()
    ensures { true ≡ true }
{}
"""


# ---- writing trials

def is_sign_in(name: str, body: str) -> bool:
    """Whether a body has an operator of this name."""
    parts = [it for it in name.split("◌") if it]
    return not WORD.fullmatch(name) and (all(it in body for it in parts) or name == "◌>>=◌" and " do\n" in body)


class Copies:
    """The files of a trial: its copies, each in a module with the name of its own one, and how others name them."""

    def __init__(self, definitions: Definitions, crate: str, trial: Trial) -> None:
        self.definitions, self.crate, self.trial = definitions, crate, trial
        self.modules = defaultdict(list)
        for key in trial.texts:
            self.modules[key[:2]].append(key)

    def place(self, module: tuple[str, str]) -> str:
        return f"{module[0]}_{module[1].replace('.', '_')}"

    def path(self, module: tuple[str, str]) -> str:
        return f"Rattle.{self.crate}.specs.{self.trial.name}.{self.place(module)}"

    def copied(self, crate: str, module: str, name: str) -> Key | None:
        """The key of what this name leads to, if that is copied."""
        it = self.definitions.repository.found((crate, module, name))
        return it.key if it and it.key in self.trial.texts else None

    def split(self, crate: str, module: str, names: str, body: str) -> list[str]:
        """Imports of those names that a body has: of copies, and of the others as they are."""
        lines, kept, words = defaultdict(list), [], set(WORD.findall(body))
        for entry in filter(None, (it.strip() for it in names.split(","))):
            used = entry.split(" as ")[-1]
            if used not in words and not is_sign_in(used, body):
                continue
            key = self.copied(crate, module, entry.partition(" as ")[0])
            if key:
                lines[key[:2]].append(entry)
            else:
                kept.append(entry)
        found = [f"use {self.path(it)}.{{{', '.join(ones)}}}" for it, ones in lines.items()]
        return found + ([f"use Rattle.{crate}.specs.{module}.{{{', '.join(kept)}}}"] if kept else [])

    def imports(self, text: str, body: str) -> tuple[list[str], str]:
        """The imports of a file, with those of copies; and the body, in which a copy has no module's name before it."""
        lines, own = [], []
        for crate, module, names, alias in USE.findall(text):
            if names:
                lines += self.split(crate, module, names, body)
                continue
            short = alias or module.split(".")[-1]
            lines += [f"use Rattle.{crate}.specs.{module}" + (f" as {alias}" if alias else "")] if f"{short}." in body else []
            for name in sorted(set(re.findall(rf"\b{short}\.({WORD.pattern})", body))):
                key = self.copied(crate, module, name)
                if key:
                    own.append(f"use {self.path(key[:2])}.{{{name} as {short}_{name}}}")
                    body = re.sub(rf"\b{short}\.{name}(?![\w'])", f"{short}_{name}", body)
        return lines + own, body

    def beside(self, module: tuple[str, str], body: str) -> list[str]:
        """The import of what the copies of a module name of it that isn't copied."""
        words, names = set(WORD.findall(re.sub(r"(?m)^ *--.*$", " ", body))), []
        for it in self.definitions.of_module[module]:
            if it.key not in self.trial.texts:
                names += [one for one in it.names if one in words or is_sign_in(one, body)]
        return [f"use Rattle.{module[0]}.specs.{module[1]}.{{{', '.join(names)}}}"] if names else []

    def file(self, module: tuple[str, str]) -> str:
        """The text of a module of copies."""
        keys = sorted(self.modules[module], key=lambda it: self.definitions.by_key[it].line)
        body = "\n\n".join(self.trial.texts[it] for it in keys)
        text = text_of(self.definitions.by_key[keys[0]].file)
        lines, body = self.imports(text, body)
        known = {it.strip() for _, _, names, _ in USE.findall(text) for it in names.split(",")}
        known |= {name for it in self.definitions.of_module[module] for name in it.names}
        words = set(WORD.findall(body))
        more = [it for it in PLAIN_WORDS if it not in known and (it in words or is_sign_in(it, body))]
        lines += [f"use Rattle.std.specs.Prelude.{{{', '.join(more)}}}"] if more else []
        more = [it for it in LIST_WORDS if it not in known and it in words]
        lines += [f"use Rattle.std.specs.List.{{{', '.join(more)}}}"] if more else []
        return "\n".join(lines + self.beside(module, body)) + "\n\n" + body + "\n"

    def proof(self) -> str:
        """The table holds: both sides are the same, if this is unfolded that the tables' own proofs unfold, and each copy of it."""
        folded = [it for it in self.trial.texts if self.definitions.head(it).startswith("unfoldable ")]
        copies = [f"use {self.path(it[:2])}.{{{it[2]} as copy_{at}}}" for at, it in enumerate(folded)]
        unfolded = " ".join(["on_literals", *(f"copy_{at}" for at in range(len(folded)))])
        table = self.trial.table
        value = "λ it. refl" if re.search(r"(?m)^\w+ = \(\w+ : ", self.trial.texts[table]) else "refl"
        head = ["use Rattle.std.proofs.Common.{refl}", f"use Rattle.{self.crate}.proofs.OnLiterals.{{on_literals}}", *copies, f"use {self.path(table[:2])}.{{{table[2]}}}"]
        return "\n".join(head) + f"\n\npub holds : {table[2]}\nunfolding {unfolded}\nholds = {value}\n"

    def write(self, room: str) -> None:
        name = self.trial.name
        for module in self.modules:
            write(f"{room}/specs/{name}/{self.place(module)}.antt", self.file(module))
        write(f"{room}/specs/{name}.antt", "".join(f"pub mod {self.place(it)}\n" for it in sorted(self.modules)))
        write(f"{room}/proofs/{name}.antt", self.proof())


def write_trials(definitions: Definitions, crate: str, trials: list[Trial], room: str) -> None:
    """A crate of trials, with the tables' own specs beside them."""
    folder = f"{ROOT}/crates/{crate}"
    shutil.copytree(f"{folder}/specs", f"{room}/specs")
    write(f"{room}/proofs/OnLiterals.antt", text_of(f"{folder}/proofs/OnLiterals.antt"))
    for trial in trials:
        Copies(definitions, crate, trial).write(room)
    declared = "".join(f"pub mod {it.name}\n" for it in trials)
    write(f"{room}/specs/Lib.antt", text_of(f"{folder}/specs/Lib.antt") + declared)
    write(f"{room}/proofs/Lib.antt", "pub mod OnLiterals\n" + declared)
    write(f"{room}/src/lib.rt", READER)
    goal = f"use Rattle.{crate}.proofs.reads_all.Goals as goal\n\npub returns : goal.returns\nreturns c = refl\n"
    imports = "".join(f"use Rattle.{crate}.proofs.{it.name}\n" for it in trials)
    write(f"{room}/proofs/reads_all/Answers.antt", "use Rattle.std.proofs.Common.{refl}\n" + imports + goal)


# ---- checking

def load_rt() -> Any:
    """The toolchain's command as a module: it knows how a crate is checked."""
    path = os.path.realpath(shutil.which("rt") or sys.exit("wrong definitions: the command rt isn't there"))
    return load("rt", path).rtlib


def words_for(lib: Any, crate: Any) -> list[str]:
    """The words of a check of a crate: over what is built below it, and over the sources of what isn't."""
    lacking = [it for it in crate.below() if not it.is_built()]
    words, names = crate.words(["--jobs", "1"], keeps=False), {it.name for it in lacking}
    for name in sorted({"core", *(one for it in lacking for one in it.of_kit)} - set(crate.of_kit)) if lacking else []:
        words += ["--extern", f"{name}={lib.KIT}/rlibs/{name}.rlib"]
    for it in crate.below():
        if it.name in names:
            at = next((at for at, word in enumerate(words) if word == f"{it.name}={it.rlib}"), None)
            if at:
                del words[at - 1 : at + 1]
            uses = dict.fromkeys(["core", *it.of_kit, *(one.name for one in it.deps)])
            words += ["--lib", f"{it.name}:{','.join(uses)}={it.folder}/src/lib.rt"]
        elif it not in crate.deps:  # (a copy of a definition names what its own crate uses)
            words += ["--extern", f"{it.name}={it.rlib}"]
    return words


def verdicts_of(told: str, trials: list[Trial]) -> dict[str, bool | str]:
    """Of each trial: whether its table holds, or why that isn't known."""
    found = {}
    for trial in trials:
        unread = re.search(rf"^(?:note: )?\./specs/{trial.name}[/.]\S+: error: .*(?:\n  .*)?", told, re.MULTILINE)
        said = re.search(rf"^(?:note: )?\./proofs/{trial.name}\.antt:\S+: (.*)(?:\n  .*)?", told, re.MULTILINE)
        if unread or said and not MISMATCH.search(said[0]):
            found[trial.name] = (unread or said)[0][:200]
        else:
            found[trial.name] = said is None
    return found


class Check:
    """A check of trials of one crate's tables, which runs beside what the script does until its verdicts are asked for."""

    def __init__(self, definitions: Definitions, crate: str, trials: list[Trial], words: argparse.Namespace) -> None:
        self.crate, self.trials, self.words = crate, trials, words
        self.room = tempfile.TemporaryDirectory(prefix="wrong-definitions-")
        write_trials(definitions, crate, trials, self.room.name)
        lib = load_rt()
        one = next(it for it in lib.crates_below(ROOT) if it.name == crate)
        one.out = open(os.devnull, "w")
        more = ["--incremental", os.path.abspath(words.incremental)] if words.incremental else []
        command = [lib.RATTLE, "check", *words_for(lib, one), "--only", "reads_all", *more]
        with open(f"{self.room.name}/told", "w", encoding="utf-8") as printed:
            self.child = subprocess.Popen(command, cwd=self.room.name, stdin=subprocess.DEVNULL, stdout=printed, stderr=subprocess.STDOUT)

    def verdicts(self) -> dict[str, bool | str]:
        """The verdicts on the trials."""
        self.child.wait()
        with open(f"{self.room.name}/told", encoding="utf-8", errors="replace") as it:
            told = it.read()
        if self.words.keep:
            shutil.copytree(self.room.name, f"{self.words.keep}/{self.crate}", dirs_exist_ok=True)
            write(f"{self.words.keep}/{self.crate}.log", told)
        if not re.search(r"^only=", told, re.MULTILINE):
            sys.exit("wrong definitions: the check came to no verdict: " + told.rstrip()[-300:])
        return verdicts_of(told, self.trials)

    def end(self) -> None:
        """Ends the check if it runs, and takes away its files."""
        self.child.kill()
        self.child.wait()
        self.room.cleanup()


@contextmanager
def checks_of(definitions: Definitions, trials: list[Trial], words: argparse.Namespace) -> Iterator[list[Check]]:
    """The checks of these trials, one for each crate of tables; they end with this context."""
    checks: list[Check] = []
    try:
        for crate in EXAMPLES:
            if here := [it for it in trials if it.table[0] == crate]:
                checks.append(Check(definitions, crate, here, words))
        yield checks
    finally:
        for it in checks:
            it.end()
