"""Media playlists (RFC 8216) read leniently: what the programs of the plant need to know of a list that adsplice judges. Its parts
are read by the rules (adsplice_rules)."""
from collections.abc import Iterator
from dataclasses import dataclass, field

from adsplice_rules import attributes, times
from adsplice_rules.values import SECOND as SECOND  # (nanoseconds, in which instants and durations are)
from adsplice_rules.values import Fault

MOST = 10_000  # segments, and date ranges, that are read of a list: adsplice takes no more segments
read_duration, read_instant, instant_text = times.duration_of, times.instant_of, times.instant_text


@dataclass(frozen=True)
class Segment:
    """A listed segment: its Media Sequence Number, URI, duration and instant in nanoseconds, and whether it states the instant."""

    number: int
    uri: str
    duration: int
    begins: int | None
    is_stated: bool


@dataclass(frozen=True)
class DateRange:
    """An EXT-X-DATERANGE: its ID, and its attributes without quotes."""

    id: str
    attributes: dict[str, str]

    def start(self) -> int | None:
        """START-DATE in nanoseconds from 1970; none if it is missing or doesn't read."""
        return read_instant(self.attributes.get("START-DATE", ""))


@dataclass
class Listed:
    """What a media playlist lists: its target duration in seconds, first media number, segments and date ranges."""

    target: int | None = None
    first: int = 0
    is_ended: bool = False
    segments: list[Segment] = field(default_factory=list)
    ranges: list[DateRange] = field(default_factory=list)

    def ids(self) -> set[str]:
        """The IDs of its date ranges."""
        return {it.id for it in self.ranges}

    def end(self) -> int | None:
        """The instant at which its last segment ends: the last known one and the durations from there on."""
        after = 0
        for it in reversed(self.segments):
            after += it.duration
            if it.is_stated and it.begins is not None:
                return it.begins + after
        return None


def seconds_text(duration: int) -> str:
    """The duration of `duration` nanoseconds in seconds, as `2`, `0.35` or `-12.5`."""
    return f"{'-' if duration < 0 else ''}{times.duration_text(abs(duration))}"


def attributes_of(text: str) -> dict[str, str]:
    """The attributes of the list `text` without their quotes; none if it doesn't read (RFC 8216, 4.2)."""
    try:
        return {it.name: it.value for it in attributes.attributes_of(text)}
    except Fault:
        return {}


def lines_in(text: str) -> Iterator[str]:
    """The lines of `text`, one after the other: each ends with LF or CR LF (RFC 8216, 4.1)."""
    begin = 0
    while begin < len(text):
        end = text.find("\n", begin)
        end = len(text) if end < 0 else end
        yield text[begin:end].removesuffix("\r")
        begin = end + 1


def is_whole(body: bytes) -> bool:
    """Whether the list `body` isn't cut off within a line: its last line has an end, or is the tag after which none comes."""
    return body.endswith(b"\n") or body.endswith(b"#EXT-X-ENDLIST")


def ranges_of(lines: list[str]) -> list[DateRange]:
    """The date ranges of the list with these `lines`, as far as they read."""
    front = "#EXT-X-DATERANGE:"
    found = [attributes_of(line[len(front):].rstrip("\r\n")) for line in lines if line.startswith(front)][:MOST]
    return [DateRange(it["ID"], it) for it in found if "ID" in it]


def read(body: bytes) -> Listed:
    """What the list `body` lists. What doesn't read is passed over: adsplice says what is wrong with it."""
    found, reader = Listed(), Reader()
    for line in lines_in(body.decode("utf-8", "replace")):
        reader.line(found, line)
        if max(len(found.segments), len(found.ranges)) >= MOST:
            break
    fill_back(found.segments)
    return found


class Reader:
    """The state of reading a list, from line to line."""

    def __init__(self) -> None:
        self.duration: int | None = None
        self.stated: int | None = None
        self.next: int | None = None

    def line(self, found: Listed, line: str) -> None:
        """Takes in the line `line` to what was `found` so far."""
        name, _, rest = line.partition(":")
        if name == "#EXTINF":
            self.duration = read_duration(rest.partition(",")[0])
        elif name == "#EXT-X-PROGRAM-DATE-TIME":
            self.stated = read_instant(rest)
        elif name == "#EXT-X-TARGETDURATION":
            found.target = attributes.decimal_of(rest)
        elif name == "#EXT-X-MEDIA-SEQUENCE":
            found.first = attributes.decimal_of(rest) or 0
        elif line == "#EXT-X-ENDLIST":
            found.is_ended = True
        elif name == "#EXT-X-DATERANGE":
            found.ranges += ranges_of([line])
        elif line.strip() and not line.startswith("#"):
            self.segment(found, line)

    def segment(self, found: Listed, uri: str) -> None:
        """Adds the segment of the URI line `uri` to what was `found`."""
        begins = self.stated if self.stated is not None else self.next
        duration = self.duration or 0
        found.segments.append(Segment(found.first + len(found.segments), uri, duration, begins, self.stated is not None))
        self.next = None if begins is None else begins + duration
        self.duration = self.stated = None


def fill_back(segments: list[Segment]) -> None:
    """Gives those of `segments` that come before the first stated instant theirs, by their durations."""
    first = next((n for n, it in enumerate(segments) if it.is_stated), 0)
    for n in range(first - 1, -1, -1):
        after, it = segments[n + 1], segments[n]
        begins = None if after.begins is None else after.begins - it.duration
        segments[n] = Segment(it.number, it.uri, it.duration, begins, False)
