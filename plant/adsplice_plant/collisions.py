"""Settings that read by themselves and harm each other: two channels of one name, two that write one file, a folder within another one."""
from __future__ import annotations

from pathlib import Path

from .location import LocalFile
from .settings import MOST_CHANNELS, PLACE, Settings
from .words import Fault

DECISIONS, KEEP = "the folder of decisions", "the folder `keep`"


def resolved(path: Path) -> Path:
    """The `path` without links; raises Fault if a link leads to itself."""
    try:
        return path.resolve()
    except (OSError, RuntimeError) as fault:
        raise Fault(f"{path}: {fault}") from None


def renditions_of(it: Settings) -> list[str]:
    """The names that the renditions of a master playlist may have by the settings `it`; one empty one if it isn't one."""
    if it.master is None:
        return [""]
    return it.names or [str(number) for number in range(1, MOST_CHANNELS + 1)]


def names_of(it: Settings) -> list[str]:
    """The names of the channels of the settings `it`."""
    return [f"{it.name}-{one}" if one else it.name for one in renditions_of(it)]


def folders_of(it: Settings) -> list[Path]:
    """The folders of decisions of the settings `it`."""
    if it.master is None:
        return [it.decisions] if it.decisions is not None else []
    text = it.texts.get("decisions") or ""
    return [Path(text.replace(PLACE, one)) for one in renditions_of(it)] if text else []


class Claims:
    """What the channels of the file `path` have for themselves: names, files and folders, each with who has it."""

    def __init__(self, path: Path | None) -> None:
        self.where = f"{path}: " if path is not None else ""
        self.names: dict[str, str] = {}
        self.written: dict[Path, str] = {}  # files that the feed writes
        self.read: dict[Path, str] = {}  # and reads
        self.folders: dict[Path, str] = {}
        self.above: dict[Path, Path] = {}  # each folder that one of these lies in, with that one

    def add(self, channels: list[Settings]) -> None:
        """Adds those of `channels`; raises Fault if one harms another one, and has none of them then."""
        held = {name: dict(it) for name, it in vars(self).items() if isinstance(it, dict)}
        try:
            for one in channels:
                self.add_names(one)
                self.add_files(one)
                self.add_folders(one)
        except Fault as fault:
            vars(self).update(held)
            raise Fault(f"{self.where}{fault}") from None

    def add_names(self, it: Settings) -> None:
        """Adds the names of the channels of `it`; raises Fault."""
        by = f"of the master playlist of {it.name}" if it.master is not None else "of a section"
        for name in names_of(it):
            if (other := self.names.get(name)) is not None:
                raise Fault(f"two channels have the name {name}" + (f": {other} and {by}" if it.master or "master" in other else ""))
            self.names[name] = by

    def add_files(self, it: Settings) -> None:
        """Adds the files of `it`; raises Fault."""
        reads = [one.path for one in (it.origin, it.second) if isinstance(one, LocalFile)] + [one for one in (it.fallback, it.slate) if one is not None]
        for path in map(resolved, reads):
            if path in self.written:
                raise Fault(f"{it.name} reads the file {path}, which {self.written[path]} writes as its master playlist")
            self.read[path] = it.name
        if it.master is not None:
            path = resolved(it.master)
            if (other := self.written.get(path) or self.read.get(path)) is not None:
                raise Fault(f"{it.name} writes its master playlist to {path}, which {other} has, too")
            self.written[path] = it.name

    def add_folders(self, it: Settings) -> None:
        """Adds the folders of `it`; raises Fault."""
        folders = [(resolved(one), f"{DECISIONS} of {name}") for one, name in zip(folders_of(it), names_of(it))]
        for path, what in [*folders, *([(resolved(it.keep), KEEP)] if it.keep is not None else [])]:
            if (other := self.folders.get(path)) is not None and (what, other) != (KEEP, KEEP):
                raise Fault(f"two channels have {DECISIONS} {path}" if KEEP not in (what, other) else f"{what} is {other}, too: {path}")
            if (outer := next((one for one in path.parents if one in self.folders), None)) is not None and (what, self.folders[outer]) != (KEEP, KEEP):
                raise Fault(f"{what} lies in {self.folders[outer]}: {path}")
            if (inner := self.above.get(path)) is not None and (what, self.folders[inner]) != (KEEP, KEEP):
                raise Fault(f"{self.folders[inner]} lies in {what}: {inner}")
            self.folders[path] = what
            for one in path.parents:
                if one not in self.above or self.folders[self.above[one]] == KEEP:  # (a folder `keep` may lie in another one)
                    self.above[one] = path
