"""Which wrong bodies a run tries, and what STATUS.md says of those that were refused.

A run tries all wrong bodies of each crate whose own files (FOLDERS) aren't those that STATUS.md notes. Of each other crate that
stands on at most MOST_BELOW others it tries one share of SHARES. Share 2 has the second of its edits by their names, the seventh,
and so on. STATUS.md names the share that is next, so that each wrong body of these crates is tried within SHARES runs. Those of higher crates take too long
for each run: `--share N` or `--all` tries them. No clock and no history is asked: a clone may be shallow.

A crate's files are noted as a sum over their paths and the names that git gives to their contents. A share's column has the
commit over which that share was last tried, and refused whole.
"""
from __future__ import annotations

import hashlib
import os
import re
import subprocess
from collections.abc import Iterable
from typing import NamedTuple

import least

TOP = least.TOP
PAGE = f"{TOP}/STATUS.md"
LEFT = f"{TOP}/out/refused"  # what a run of tests/wrong_bodies refused: words for tests/status
FOLDERS = ("src", "specs", "proofs", "wrong")
SHARES = 5
MOST_BELOW = 3  # crates on which one stands whose share each run tries
NONE = "none noted"
NEXT = "Next share"


class Row(NamedTuple):
    """What STATUS.md says of a crate: the sum of its files, and for each share the commit over which it was last refused."""

    files: str
    commits: tuple[str, ...]


class Status(NamedTuple):
    """What STATUS.md says: the last commit that passed whole, the share that is next, and each crate's row."""

    commit: str | None
    share: int
    rows: dict[str, Row]


NO_ROW = Row(NONE, (NONE,) * SHARES)


# ---- the page

def read(text: str) -> Status:
    """What the text of STATUS.md says."""
    commit = re.search(r"^\| Commit \| `(\w+)` \|$", text, re.MULTILINE)
    share = re.search(rf"^\| {NEXT} \| (\d+) \|$", text, re.MULTILINE)
    rows = {}
    for name, files, *commits in re.findall(r"^\| `(\w+)` \| [\d,]+ \| `?([\w ]+?)`?" + r" \| `?([\w ]+?)`?" * SHARES + r" \|$", text, re.MULTILINE):
        rows[name] = Row(files, tuple(commits))
    return Status(commit[1] if commit else None, (int(share[1]) - 1) % SHARES + 1 if share else 1, rows)


def coded(word: str) -> str:
    return word if word == NONE else f"`{word}`"


def table(status: Status, counts: least.Counts) -> str:
    """The tables of STATUS.md: the share that is next, and a row for each crate with wrong bodies."""
    head = "| Crate | Wrong bodies | Its files | " + " | ".join(f"Share {it}" for it in range(1, SHARES + 1)) + " |\n" + "|---" * (3 + SHARES) + "|\n"
    rows = ((name, count, status.rows.get(name, NO_ROW)) for name, count in sorted(counts.items()))
    lines = "".join(f"| `{name}` | {count:,} | {' | '.join(map(coded, (row.files, *row.commits)))} |\n" for name, count, row in rows)
    return f"| | |\n|---|---|\n| {NEXT} | {status.share} |\n\n{head}{lines}"


# ---- the files of a crate

def sum_of(files: Iterable[tuple[str, str]]) -> str:
    """A sum over paths and the names of their contents."""
    return hashlib.sha256("".join(f"{path} {name}\n" for path, name in sorted(files)).encode()).hexdigest()[:12]


def name_of(path: str) -> str:
    """The name that git gives to a file's content."""
    with open(path, "rb") as it:
        content = it.read()
    return hashlib.sha1(b"blob %d\0" % len(content) + content).hexdigest()


def files_here(crate: str, top: str = TOP) -> str:
    """The sum of a crate's files as they are."""
    walks = (os.walk(f"{top}/crates/{crate}/{folder}") for folder in FOLDERS)
    paths = [os.path.join(folder, it) for walk in walks for folder, _, names in walk for it in names]
    return sum_of((os.path.relpath(it, top), name_of(it)) for it in paths)


def git(*words: str, top: str = TOP) -> str | None:
    """What git says, or nothing if it fails or isn't there."""
    try:
        ran = subprocess.run(["git", *words], cwd=top, capture_output=True, text=True)
    except OSError:
        return None
    return ran.stdout if ran.returncode == 0 else None


def files_at(commit: str, crate: str, top: str = TOP) -> str:
    """The sum of a crate's files at a commit of this clone."""
    listed = git("ls-tree", "-rz", commit, "--", *(f"crates/{crate}/{it}" for it in FOLDERS), top=top)
    entries = [it.partition("\t") for it in (listed or "").split("\0") if it]
    return sum_of((path, said.split()[2]) for said, _, path in entries)


def lack(commit: str | None, top: str = TOP) -> str | None:
    """What is wrong of the commit that STATUS.md names: a clone with its whole history has it."""
    if commit is None:
        return "STATUS.md names no commit that passed whole: tests/status names one"
    if git("rev-parse", "--quiet", "--verify", f"{commit}^{{commit}}", top=top) is not None or git("rev-parse", "--is-shallow-repository", top=top) != "false\n":
        return None
    return f"STATUS.md names the commit {commit}, which this clone lacks though it has its whole history: tests/status with the words of a run that passed names another"


# ---- what a run tries

def share_of(names: list[str], share: int) -> list[str]:
    """A share, from 1, of edits."""
    return sorted(names)[share - 1 :: SHARES]


def changed(status: Status, crates: Iterable[str], top: str = TOP) -> set[str]:
    """The crates whose files aren't those that are noted."""
    return {it for it in crates if status.rows.get(it, NO_ROW).files != files_here(it, top)}


# ---- what a run has shown

def words_for(refused: dict[str, int | None]) -> list[str]:
    """Words for tests/status: a crate of which all were refused, or CRATE/SHARE."""
    return [it if share is None else f"{it}/{share}" for it, share in sorted(refused.items())]


def after(status: Status, commit: str, words: list[str], crates: Iterable[str], top: str = TOP) -> Status:
    """What is to be said after a run over a commit that passed whole, by these words. A crate that changed is noted with its
    files only if all its wrong bodies were refused: else the next run tries them."""
    refused: dict[str, set[int]] = {}
    for word in words:
        name, _, share = word.partition("/")
        refused[name] = {int(share)} if share else set(range(1, SHARES + 1))
    rows = {}
    for name in crates:
        before, shares, files = status.rows.get(name, NO_ROW), refused.get(name, set()), files_at(commit, name, top)
        is_noted = len(shares) == SHARES or before.files == files
        rows[name] = Row(files if is_noted else before.files, tuple(commit if at in shares else it for at, it in enumerate(before.commits, 1)))
    tried = next((int(word.partition("/")[2]) for word in words if "/" in word), None)
    return Status(commit, tried % SHARES + 1 if tried else status.share, rows)
