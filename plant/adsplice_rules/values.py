"""What a playlist says, and the faults by which one is refused."""
from __future__ import annotations

from collections.abc import Iterable
from dataclasses import dataclass
from typing import TypeVar

Value = TypeVar("Value")
PAST = 2**64  # the first number that is too large for a playlist (RFC 8216, 4.2)
SECOND = 10**9  # durations and instants are whole nanoseconds

NAMES = {
    "P1": "NotUtf8", "P2": "TooLong", "P3": "NoHeader", "P4": "Control", "P5": "BadVersion", "P6": "Version", "P7": "Repeated",
    "P8": "Misplaced", "P9": "BadValue", "P10": "BadDuration", "P11": "BadAttributes", "P12": "MissingAttribute",
    "P13": "BadRange", "P14": "RangeNoStart", "P15": "BadTime", "P16": "BadUri", "P17": "NoDuration", "P18": "NoTarget",
    "P19": "MasterPlaylist", "P20": "IFramesOnly", "P21": "NoSegments", "P22": "MixedMaps", "P23": "MapWithoutIv",
    "P24": "TooMany", "N1": "VersionChanged", "N2": "TargetChanged", "N3": "TypeChanged", "N4": "MapsChanged", "N5": "Back",
    "N6": "Gap", "N7": "Shrunk", "N8": "Changed", "N9": "Ended", "N10": "NumberRange", "J1": "NotJson", "J2": "Shape",
    "J3": "BadUri", "J4": "BadDuration", "J5": "BadKey", "J6": "EmptyPod", "J7": "TooMany", "J9": "Used", "J10": "Full",
    "J11": "Unknown", "C1": "BadBase", "C2": "BadTolerance", "E4": "Ended", "S1": "NotHex", "S2": "TooShort", "S3": "TableId",
    "S4": "Length", "S5": "Protocol", "S6": "Encrypted", "S7": "CommandLength",
}


class Fault(Exception):
    """A refusal; as text its code, its name and its place (docs/operating/faults.md)."""

    def __init__(self, code: str, place: str = "", member: str = "") -> None:
        """Makes the fault of this code; `place` is what is printed after its name, such as ` line 4`, and `member` the one of a
        decision file that is wrong there, such as `key.iv`."""
        super().__init__(f"{code} {NAMES[code]}{place}")
        self.code, self.place, self.member = code, place, member


def or_fault(value: Value | None, code: str, place: str = "") -> Value:
    """The value, or the fault of this code if there is none."""
    if value is None:
        raise Fault(code, place)
    return value


def first_of(values: Iterable[Value | None]) -> Value | None:
    """The first that there is, if any."""
    return next((value for value in values if value is not None), None)


class NotModelled(Exception):
    """An input that this model says nothing of."""


Range = tuple[int, int]  # of bytes: the length and the offset (RFC 8216, 4.3.2.2)


@dataclass(frozen=True)
class Key:
    """RFC 8216, 4.3.2.4; `other` is the text of its other attributes, with a comma before each."""

    format: str
    method: str
    uri: str
    iv: int | None
    other: str


Keys = tuple[Key, ...]  # one for each format, in the order of the formats' bytes


@dataclass(frozen=True)
class InitSection:
    """An initialisation section (RFC 8216, 4.3.2.5), with the keys under which it is read."""

    uri: str
    range: Range | None
    keys: Keys


@dataclass(frozen=True)
class Segment:
    """A media segment (RFC 8216, 3 and 4.3.2). `steps` is how many EXT-X-DISCONTINUITY stand before it, `nanos` its duration."""

    number: int
    discontinuity: int
    steps: int
    uri: str
    range: Range | None
    keys: Keys
    init_section: InitSection | None
    nanos: int
    title: str
    time: int | None


@dataclass(frozen=True)
class DateRange:
    """RFC 8216, 4.3.2.7; `out` and `back` are SCTE35-OUT and SCTE35-IN, `text` all that stands after the tag's colon."""

    id: str
    start: int | None
    end: int | None
    duration: int | None
    planned: int | None
    out: str | None
    back: str | None
    text: str


@dataclass(frozen=True)
class Playlist:
    """A media playlist (RFC 8216, 4.3); `kind` is EVENT, VOD or nothing."""

    version: int
    target: int
    kind: str | None
    independent: bool
    ended: bool
    ranges: tuple[DateRange, ...]
    segments: tuple[Segment, ...]

    def has_init_sections(self) -> bool:
        """Whether its segments have initialisation sections: all have, or none (docs/CONFORMANCE.md, 4.3.2.5)."""
        return self.segments[0].init_section is not None
