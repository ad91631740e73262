"""An advertisement's own playlist, read by adsplice, as members of a decision file."""
import re
from dataclasses import dataclass, field
from pathlib import Path
from typing import Any

from . import faults, playlist
from .program import run_vod
from .words import Fault

# What an EXT-X-KEY says that a decision file has no member for.
KEY_MEMBERS = {"METHOD", "URI", "IV", "KEYFORMAT"}
SHORTEST = playlist.SECOND // 10  # nanoseconds of an ad's last segment


@dataclass
class Part:
    """Segments that play one after the other under one key and one initialisation section: an ad of a decision file."""

    key: dict[str, str] | None
    init_section: dict[str, Any] | None
    segments: list[dict[str, Any]] = field(default_factory=list)
    begins_by: str = ""  # what it was cut off from the part before it by: `discontinuity`, `key` or `map`

    def member(self) -> dict[str, Any]:
        """The ad as a decision file has it."""
        found: dict[str, Any] = {}
        if self.init_section is not None:
            found["map"] = self.init_section
        if self.key is not None:
            found["key"] = self.key
        return found | {"segments": self.segments}


def range_member(text: str) -> dict[str, int]:
    """The members of a byte range that adsplice wrote as `text`, `n@o`; none of an empty one."""
    length, _, offset = text.partition("@")
    return {"offset": int(offset), "length": int(length)} if text else {}


class AdReader:
    """Reads what adsplice wrote of an ad's playlist: each URI whole, each range with its offset, each key with its IV. `name`
    is what the ad is called in a fault."""

    def __init__(self, name: str) -> None:
        self.name = name
        self.parts: list[Part] = []
        self.keys: dict[str, dict[str, str]] = {}
        self.init_section: dict[str, Any] | None = None
        self.init_section_keys: dict[str, dict[str, str]] = {}
        self.duration, self.range, self.is_cut = "", "", False
        self.dropped: set[str] = set()

    def read(self, text: str) -> list[Part]:
        """The parts of the playlist `text`; raises Fault if a decision file can't say what it says."""
        for line in text.splitlines():
            name, _, rest = line.partition(":")
            if name == "#EXT-X-KEY":
                self.key(playlist.attributes_of(rest))
            elif name == "#EXT-X-MAP":
                said = playlist.attributes_of(rest)
                self.init_section = {"uri": said["URI"]} | range_member(said.get("BYTERANGE", ""))
                self.init_section_keys = dict(self.keys)
            elif name == "#EXTINF":
                self.duration = rest.partition(",")[0]
            elif name == "#EXT-X-BYTERANGE":
                self.range = rest
            elif line == "#EXT-X-DISCONTINUITY":
                self.is_cut = True
            elif line and not line.startswith("#"):
                self.segment(line)
        return self.parts

    def key(self, said: dict[str, str]) -> None:
        """Takes in an EXT-X-KEY of the attributes `said`."""
        if said["METHOD"] == "NONE":
            self.keys = {}
            return
        form = said.get("KEYFORMAT", "identity")
        key = {"method": said["METHOD"], "uri": said["URI"], "iv": said.get("IV", "")}
        self.keys[form] = key | ({"format": form} if form != "identity" else {})
        self.dropped |= set(said) - KEY_MEMBERS

    def segment(self, uri: str) -> None:
        """Adds the segment `uri` to the last part, or to a new one if key, map or EXT-X-DISCONTINUITY say so."""
        number = sum(len(it.segments) for it in self.parts)
        if len(self.keys) > 1:
            raise Fault(f"{self.name}: segment {number} is under keys of {len(self.keys)} formats ({', '.join(self.keys)}); a decision file has one")
        key = next(iter(self.keys.values()), None)
        if key is not None and not key["iv"]:
            raise Fault(f"{self.name}: segment {number}: its key of the format {key.get('format')} states no IV, which a decision file needs")
        if self.init_section is not None and self.init_section_keys != self.keys:
            raise Fault(f"{self.name}: segment {number} and its initialisation section are under different keys; a decision file has one for both")
        last = self.parts[-1] if self.parts else None
        by = "discontinuity" if self.is_cut else "key" if last and last.key != key else "map" if last and last.init_section != self.init_section else ""
        if last is None or by:
            self.parts.append(Part(key, self.init_section, begins_by=by if last else ""))
        self.parts[-1].segments.append({"uri": uri, "duration": self.duration} | range_member(self.range))
        self.range, self.is_cut = "", False


@dataclass
class Advertisement:
    """An ad's playlist: its `name`, its parts, and what is to be told of it."""

    name: str
    parts: list[Part]
    warnings: list[str]

    def duration(self) -> int:
        """How long it lasts, in nanoseconds."""
        return sum(playlist.read_duration(str(it["duration"])) or 0 for part in self.parts for it in part.segments)


def read_ad(program: str, name: str, base: str, body: bytes) -> Advertisement:
    """The ad of the playlist `body`, which is published under `base`, read by `program`; raises Fault with what is wrong."""
    text, fault = run_vod(program, base, body)
    if fault:
        raise Fault(f"{name}: {fault}: {faults.meaning(0, fault)}")
    reader = AdReader(name)
    parts = reader.read(text.decode())
    check_last(name, [it for part in parts for it in part.segments])
    warnings = []
    if not re.search(rb"^#EXT-X-ENDLIST\r?$", body, re.M):
        warnings.append(f"{name}: its playlist has no EXT-X-ENDLIST: is the ad whole?")
    if reader.dropped:
        warnings.append(f"{name}: {', '.join(sorted(reader.dropped))} of EXT-X-KEY is left out; a decision file has no member for it")
    changes = [it.begins_by for it in parts]
    if "key" in changes:
        warnings.append(f"{name}: it has {changes.count('key') + 1} keys or IVs, and is made {len(parts)} ads with a discontinuity between them; "
                        "encrypt it with one key and a stated IV")
    if "map" in changes:
        warnings.append(f"{name}: it has several initialisation sections, and is made {len(parts)} ads")
    return Advertisement(name, parts, warnings)


def check_last(name: str, segments: list[dict[str, Any]]) -> None:
    """Raises Fault if the last one of the `segments` of the ad `name` is a rest that is no more than a few pictures, or frames of sound: other renditions have
    none, and then the numbers come apart."""
    last = playlist.read_duration(str(segments[-1]["duration"])) if len(segments) > 1 else None
    if last is not None and last < SHORTEST:
        raise Fault(f"{name}: its last segment ({len(segments) - 1}) lasts {playlist.seconds_text(last)} s, under a tenth of a second: cut the ad anew so that the one "
                    "before has it, as adsplice-condition does")


def local_base(at: str, path: str) -> str:
    """The URL of the playlist at `path`, which is published under `at`: a path from a root keeps its file's name alone."""
    name = Path(path).name if Path(path).is_absolute() else Path(path).as_posix()
    return f"{at}/{name}"
