"""The renditions of a master playlist, known by their URIs: in whatever order they come, a rendition keeps its name.

A name stays with a URI without its query, since that may be a token. One that is gone keeps its name for when it comes back.
"""
from __future__ import annotations

import json
from collections.abc import Callable, Iterable, Mapping, Sequence
from pathlib import Path
from typing import Protocol

from . import bounded_files
from .bounded_files import Unread
from .settings import MOST_CHANNELS
from .whole_files import write_aside
from .words import Fault

MOST_KEPT = 4 * MOST_CHANNELS  # URIs whose names are remembered
LONGEST = 1_048_576  # bytes of the file that has them

Names = Mapping[str, str]  # by the URIs of renditions: their names, the newest last
Naming = Callable[[Names], Names]  # of the names that are known makes those of the newest master playlist, too; raises Fault


class Kept(Protocol):
    """Where the names of a programme's renditions are kept."""

    def agree(self, name: Naming) -> Names:
        """The names that count from now on: those that were kept, and those that `name` adds. Raises Fault or OSError."""


class FileNames:
    """The names of a programme's renditions that the file `path` has, or nothing but this process if there is none."""

    def __init__(self, path: Path | None) -> None:
        self.path, self.names = path, load(path)

    def agree(self, name: Naming) -> Names:
        """As in Kept."""
        names = name(self.names)
        if names != self.names:
            self.names = names
            save(self.path, names)
        return names


def keys_of(uris: Sequence[str]) -> list[str]:
    """By what each of the `uris` is known: without its query, or as a whole if others are the same without theirs."""
    plain = [it.partition("?")[0] for it in uris]
    counts = {it: 0 for it in plain}
    for it in plain:
        counts[it] += 1
    return [short if counts[short] == 1 else whole for short, whole in zip(plain, uris)]


def named(known: Names, uris: Sequence[str], names: Sequence[str]) -> Names:
    """The names of the `uris` of a master playlist, and of those that were `known` before. A new one has the first of the `names` that none has, or
    that the oldest one that is gone had; raises Fault if there is none."""
    keys = keys_of(uris)
    found = {key: name for key, name in known.items() if key in keys and name in names}
    gone = {key: name for key, name in known.items() if key not in found and name in names}
    free = [it for it in names if it not in found.values() and it not in gone.values()]
    for key in keys:
        if key in found:
            continue
        if key in gone:
            found[key] = gone.pop(key)
        elif free:
            found[key] = free.pop(0)
        elif gone:
            found[key] = gone.pop(next(iter(gone)))
        else:
            raise Fault(f"it has more than {len(names)} renditions, and {len(names)} names")
    kept = {**gone, **{key: found[key] for key in keys}}
    return dict(list(kept.items())[-MOST_KEPT:])


def load(path: Path | None) -> Names:
    """The names that the file `path` has; none if it isn't there or doesn't read, or if there is no `path`."""
    if path is None:
        return {}
    try:
        said = json.loads(bounded_files.read(path, most=LONGEST)[1])
        return {str(key): str(name) for key, name in said["renditions"]}
    except (OSError, Unread, ValueError, KeyError, TypeError, RecursionError):
        return {}


def save(path: Path | None, names: Names) -> None:
    """Writes the `names` to the file `path`, if there is one. Raises OSError."""
    if path is not None:
        path.parent.mkdir(parents=True, exist_ok=True)
        write_aside(path, json.dumps({"renditions": list(names.items())}).encode())


def told(news: Iterable[str], gone: Iterable[str]) -> str:
    """What is told of channels that are new and of those that are gone."""
    said = [f"{', '.join(names)} {'is' if len(names) == 1 else 'are'} {what}" for names, what in ((list(news), "new"), (list(gone), "gone")) if names]
    return "; ".join(said)
