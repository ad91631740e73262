"""Makes an ad for a ladder out of its file, as a folder that is there as a whole or not at all."""
from __future__ import annotations

import itertools
import json
import os
import shutil
import tempfile
from collections.abc import Mapping
from dataclasses import dataclass, field
from pathlib import Path
from typing import Any

from . import conditioning, playlist, probing
from .children import Children
from .conditioning import LIST, PIECE, SECTION, Cut, folder_of
from .ladders import FMP4, SOUND, TEXT, Ladder, Rendition
from .playlist import SECOND, seconds_text
from .whole_files import write_aside
from .words import Fault

ASIDE = ".making-"  # what the name of a folder begins with in which an ad is made
FACTS = "ad.json"
EMPTY_TEXT = "WEBVTT\n"


@dataclass(frozen=True)
class Choices:
    """How ads are made: their `loudness` in LUFS, if it is to be made equal, within how many `seconds`, and with how many `threads` for each coder."""

    loudness: float | None = None
    seconds: float = 600.0
    threads: int = 1


@dataclass(frozen=True)
class Made:
    """An ad that was made: its `id`, the durations of its pieces in nanoseconds, the ending of their names, whether there is an initialisation
    section, and its `makings` by their folders (conditioning.folder_of), the nearest one first. Of each it says by how many nanoseconds the sound that is
    apart from pictures has become longer than these at the end of each piece; nothing if there is no such sound. Joined end to end sound is so many nanoseconds
    late within each making (`lates`)."""

    id: str
    pieces: tuple[int, ...] = field(default_factory=tuple)
    ending: str = "ts"
    has_map: bool = False
    makings: Mapping[str, tuple[int, ...]] = field(default_factory=lambda: {"": ()})
    lates: Mapping[str, int] = field(default_factory=dict)

    def said(self) -> dict[str, Any]:
        """It as JSON has it."""
        makings = {name: [it / SECOND for it in its] for name, its in self.makings.items()}
        return {"id": self.id, "seconds": seconds_text(sum(self.pieces)), "pieces": [seconds_text(it) for it in self.pieces], "ending": self.ending, "map": self.has_map, "makings": makings,
                "lates": {name: it / SECOND for name, it in self.lates.items()}}


def read(folder: Path) -> Made | None:
    """The ad in the `folder`; none if there is none."""
    try:
        said = json.loads((folder / FACTS).read_bytes())
        pieces = tuple(playlist.read_duration(str(it)) or 0 for it in said["pieces"])
        makings = {str(name): tuple(round(float(it) * SECOND) for it in its) for name, its in said["makings"].items()}
        lates = {str(name): round(float(it) * SECOND) for name, it in said.get("lates", {}).items()}
        is_whole = pieces and all(pieces) and "" in makings and all(len(its) in (0, len(pieces)) for its in makings.values())
        return Made(str(said["id"]), pieces, str(said["ending"]), bool(said["map"]), makings, lates) if is_whole else None
    except (OSError, ValueError, KeyError, TypeError, AttributeError, OverflowError):
        return None


def make(children: Children, source: Path, ladder: Ladder, to: Path, name: str, choices: Choices, stated: int | None = None) -> Made:
    """Makes the file `source` into the folder `to`: the ad called `name` for `ladder`, which lasts as long as is `stated` in nanoseconds if the file
    is near that. ffmpeg runs as one of `children`, by the `choices`. Answers what was made. Raises Fault, and leaves nothing then; OSError if the
    folder can't be written."""
    found = probing.source_of(children, source)
    if not found.has_picture and any(it.picture for it in ladder.renditions.values()):
        raise Fault("it has no pictures")
    cut = conditioning.cut_of(conditioning.length_of(found.length, stated), ladder.piece, ladder.rate())
    if len(cut.ends) > 500:
        raise Fault(f"it would have {len(cut.ends)} pieces, and a pod has 500 at most")
    makings = conditioning.makings_of(cut.length(), ladder)
    to.parent.mkdir(parents=True, exist_ok=True)
    aside = Path(tempfile.mkdtemp(prefix=ASIDE, dir=to.parent))
    try:
        aside.chmod(0o755)
        for rendition, more in [(rendition, more) for more in makings for rendition, it in ladder.renditions.items() if not more or it.is_sound()]:
            (aside / folder_of(more) / rendition).mkdir(parents=True)
        status, _, said = children.run(["ffmpeg", *conditioning.arguments(source, found.has_sound, ladder, cut, aside, choices.loudness, choices.threads)], choices.seconds)
        if status:
            raise Fault(f"ffmpeg ended with status {status}: {said.replace(str(source), 'its file').replace(str(aside), 'its folder') or 'it says nothing'}")
        overs = {folder_of(more): finish_making(aside, ladder, cut, more) for more in makings}
        made = Made(name, cut.pieces(), conditioning.ending_of(ladder), ladder.has_map(), overs, {folder_of(more): more * ladder.frame() for more in makings})
        write_aside(aside / FACTS, json.dumps(made.said()).encode() + b"\n")
        put(aside, to)
    finally:
        shutil.rmtree(aside, ignore_errors=True)
    return made


def finish_making(aside: Path, ladder: Ladder, cut: Cut, more: int) -> tuple[int, ...]:
    """Finishes the making with so many frames `more` of the ad in the folder `aside`, for `ladder` by the `cut`: what has no sound of its own is the same as
    in the first making. Answers by how many nanoseconds sound that is apart is longer than pictures at the end of each piece. Raises Fault."""
    overs: tuple[int, ...] = ()
    for name, it in ladder.renditions.items():
        folder = aside / folder_of(more) / name
        if more and not it.is_sound():
            shutil.copytree(aside / name, folder, copy_function=name_also)
            continue
        ends = finish(folder, it, cut, conditioning.ending_of(ladder), name, more)
        if it.sound is not None and it.sound is ladder.sound_apart():
            overs = (*(heard - seen for heard, seen in zip(ends[:-1], cut.ends)), conditioning.over_of(cut.length(), it.sound, more))
    return overs


def put(aside: Path, to: Path) -> None:
    """The folder `aside` becomes the folder `to`, in place of an earlier one."""
    if to.exists():
        old = Path(tempfile.mkdtemp(prefix=ASIDE, dir=to.parent))
        try:
            os.replace(to, old)
        finally:
            shutil.rmtree(old, ignore_errors=True)
    os.replace(aside, to)


def name_also(source: str | Path, to: str | Path) -> None:
    """Gives the file `source` the name `to`, too; it becomes a copy on a disk whose files have one name each. Raises OSError."""
    try:
        os.link(source, to)
    except OSError:
        shutil.copyfile(source, to)


def finish(folder: Path, it: Rendition, cut: Cut, ending: str, name: str, more: int) -> tuple[int, ...]:
    """Holds what was made for the rendition `it`, called `name`, in the `folder` against the `cut`, and writes its list, which says how long sound apart is.
    Its pieces' names have this `ending`, and its sound so many frames `more` than come nearest. Answers where its pieces end, in nanoseconds. Raises Fault."""
    ends = cut.ends
    if it.container == TEXT:
        for n in range(len(cut.ends)):
            (folder / f"{PIECE.format(n=n)}.vtt").write_text(EMPTY_TEXT, encoding="ascii")
            name_also(folder / f"{PIECE.format(n=n)}.vtt", folder / f"{PIECE.format(n=n)}.{ending}")  # (one answer names the pieces of all renditions)
    else:
        ends = hold(folder, it, cut, ending, name, more)
    (folder / LIST).write_text(conditioning.list_of(Cut(ends) if it.is_sound() else cut, "vtt" if it.container == TEXT else ending, it.container == FMP4), encoding="ascii")
    return ends


def hold(folder: Path, it: Rendition, cut: Cut, ending: str, name: str, more: int) -> tuple[int, ...]:
    """Where the pieces of the rendition `it`, called `name`, in the `folder` end, in nanoseconds; raises Fault if they aren't those of the `cut`: each ends
    within a picture, or a frame of sound and so many `more`, of where it is to. Their names have this `ending`."""
    listed = playlist.read((folder / LIST).read_bytes()).segments
    if [one.uri for one in listed] != [f"{PIECE.format(n=n)}.{ending}" for n in range(len(cut.ends))]:
        raise Fault(f"rendition {name}: ffmpeg made {len(listed)} pieces, and not {len(cut.ends)}")
    if it.container == FMP4 and not (folder / SECTION).is_file():
        raise Fault(f"rendition {name}: ffmpeg made no initialisation section")
    frame = int(SECOND / it.picture.rate) if it.picture else SECOND * SOUND[it.sound.codec] // it.sound.rate if it.sound else SECOND
    ends = tuple(itertools.accumulate(one.duration for one in listed))
    for n, (found, end) in enumerate(zip(ends, cut.ends)):
        if abs(found - end) > frame * (1 + abs(more)) + SECOND // 100:
            raise Fault(f"rendition {name}: piece {n} ends after {seconds_text(found)} s, and has to end after {seconds_text(end)} s")
    return ends


def sweep(folder: Path) -> None:
    """Takes away what was left in the `folder` by one who was killed while an ad was made."""
    for it in folder.glob(f"{ASIDE}*"):
        shutil.rmtree(it, ignore_errors=True)
