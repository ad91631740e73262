"""A packager's media playlist as data (RFC 8216, 4.3): each line as it came, what it says, and the list written again.

The reader takes each list that adsplice could take, and some that it wouldn't: it judges nothing. It goes through the lines once.
The writer states keys and initialisation sections where they change, and every instant that is known.
"""
from __future__ import annotations

from collections.abc import Callable, Iterable, Mapping
from dataclasses import dataclass, field
from functools import lru_cache
from typing import NamedTuple

from . import playlist
from .spelling import Unread
from .spelling import attributes_of as attributes_of

REMEMBERED = 4096  # dates, times and durations that were read: those of a break stand in each list
MOST_SEGMENTS = 10_000  # of a list that adsplice takes
EARLIEST, LATEST = -2_208_988_800 * playlist.SECOND, 7_258_118_400 * playlist.SECOND  # instants from 1900 on, before 2200
MOST_NUMBER = 2**64 - 1  # of a decimal-integer (RFC 8216, 4.2)
IDENTITY = "identity"  # the KEYFORMAT of a key that names none (4.3.2.4)
DATE_RANGE, EXTINF = "#EXT-X-DATERANGE:", "#EXTINF:"
NEAR = playlist.SECOND // 10  # by which two statements of one instant may differ
INSTANTS = ("START-DATE", "END-DATE")  # attributes of a date range (4.3.2.7)


class Key(NamedTuple):
    """A key in force (RFC 8216, 4.3.2.4): its KEYFORMAT, the attributes of its tag, and whether these state its IV."""

    format: str
    text: str
    has_iv: bool

    def takes_number(self) -> bool:
        """Whether its IV is the segment's Media Sequence Number (5.2)."""
        return self.format == IDENTITY and not self.has_iv


Keys = tuple[Key, ...]


class InitSection(NamedTuple):
    """An initialisation section in force (RFC 8216, 4.3.2.5): the attributes of its tag, and the keys in force at its line."""

    text: str
    keys: Keys


class Shift(NamedTuple):
    """How much later viewers have instants than the programme's clock has them: `by` nanoseconds from the instant `since` on."""

    since: int = EARLIEST
    by: int = 0


@dataclass(slots=True)
class PackagedSegment:
    """A listed segment.

    As the packager has it: its `uri`, its media number `own`, its `duration` in nanoseconds, which is `said` otherwise if a later list
    corrects it, its `byte_range` (length and offset;
    no offset if nothing says it), the `keys` and the `section` in force, the instant `stated` by its EXT-X-PROGRAM-DATE-TIME (in
    nanoseconds from 1970), how many EXT-X-DISCONTINUITY stand right before it (`discontinuities`), and its other lines (`tags`),
    of which EXTINF is one; whether it isn't there (`is_gap`), and how many such segments come right before it (`gaps`), of how many
    nanoseconds (`gap`).

    As the feed has it: its Media Sequence Number `number`, its Discontinuity Sequence Number `discontinuity`, and the instant
    `begins` at which it begins by the programme's clock, if that is known. Viewers have it `shift` nanoseconds later."""

    uri: str
    own: int
    duration: int = 0
    byte_range: tuple[int, int | None] | None = None
    keys: Keys = ()
    section: InitSection | None = None
    stated: int | None = None
    discontinuities: int = 0
    tags: list[str] = field(default_factory=list)
    is_gap: bool = False
    gap: int = 0
    gaps: int = 0
    number: int = 0
    discontinuity: int = 0
    begins: int | None = None
    said: int = 0
    shift: int = 0

    def written(self) -> int | None:
        """The instant at which it begins as viewers have it; none if it isn't known."""
        return None if self.begins is None else self.begins + self.shift

    def lasts(self) -> int:
        """The nanoseconds that it lasts at most: one list may say less while it is the newest one."""
        return max(self.duration, self.said)

    def ahead(self) -> int:
        """How far its packager's clock was ahead of the programme's; 0 if it states no instant."""
        return 0 if self.stated is None or self.begins is None else self.stated - self.begins

    def is_set(self) -> bool:
        """Whether viewers have another instant of it than the packager states."""
        return self.stated is not None and self.begins is not None and abs(self.stated - self.begins - self.shift) > NEAR

    def effective_keys(self) -> Keys:
        """Its keys. If the feed's number is another than the packager's, the packager's is the IV of a key that has the number as
        IV (RFC 8216, 5.2)."""
        if self.number == self.own or not any(it.takes_number() for it in self.keys):
            return self.keys
        return tuple(Key(it.format, f"{it.text},IV=0x{self.own:032X}", True) if it.takes_number() else it for it in self.keys)

    def title(self) -> str:
        """Its EXTINF line, the last one, which counts; none if it has none."""
        return next((it for it in reversed(self.tags) if it.startswith(EXTINF)), "")


class Instants(NamedTuple):
    """When the segments of a list begin (`begins`), and the place since which the clock didn't go back (`low`)."""

    begins: list[int]
    low: int

    def after(self, dropped: int, new: list[int]) -> Instants:
        """Those of the list that lost the segments that `dropped` out at its front, and has others at its end, which begin at the instants `new`."""
        begins = self.begins[dropped:] + new
        return Instants(begins, steady_from(begins, max(0, self.low - dropped), max(1, len(begins) - len(new))))


def steady_from(begins: list[int], low: int, first: int) -> int:
    """The place since which the instants `begins` don't go back, if that is `low` of those before the place `first`."""
    return next((n for n in range(len(begins) - 1, first - 1, -1) if begins[n] < begins[n - 1]), low)


@dataclass(slots=True)
class PackagedList:
    """A media playlist: the values of its tags (RFC 8216, 4.3.3), none for those that it hasn't, its `segments`, and the
    lines after the last one: `tail_tags` and `tail_discontinuities`. `others` are the names of tags
    that change what the list means, and of instants that don't read. `signals`: the EXT-X-DATERANGE lines in place of its own; none if
    it keeps those. `marked`: the places of the segments before which its own stand, once these were looked for; `pieces`: the text
    of each segment, once it was written; `timed`: when the segments begin, and `own`: its own EXT-X-DATERANGE lines, once that was asked for, or as they
    are by the programme's clock. `has_clock`: whether its packager has another one; `is_put_right`: whether they are others then. `shifts`: how much later viewers have what
    comes after it."""

    version: int | None = None
    target: int | None = None
    first: int = 0
    discontinuity_sequence: int = 0
    kind: str | None = None
    is_independent: bool = False
    is_ended: bool = False
    segments: list[PackagedSegment] = field(default_factory=list)
    tail_tags: list[str] = field(default_factory=list)
    tail_discontinuities: int = 0
    others: set[str] = field(default_factory=set)
    signals: list[str] | None = None
    marked: list[int] | None = None
    pieces: list[bytes] | None = None
    timed: Instants | None = None
    own: list[tuple[int, int, str]] | None = None
    has_clock: bool = False
    is_put_right: bool = False
    shifts: tuple[Shift, ...] = ()

    def own_ranges(self) -> list[tuple[int, int, str]]:
        """The packager's EXT-X-DATERANGE lines: the place of the segment before which each stands (past the last one after it), its
        place among the tags there, and the line."""
        if self.marked is None:
            self.marked = [place for place, it in enumerate(self.segments) if any(line.startswith(DATE_RANGE) for line in it.tags)]
        if self.own is None:
            tags = [(place, self.segments[place].tags) for place in self.marked] + [(len(self.segments), self.tail_tags)]
            self.own = [(place, at, line) for place, lines in tags for at, line in enumerate(lines) if line.startswith(DATE_RANGE)]
        return self.own

    def instants(self) -> Instants | None:
        """When its segments begin; none if that isn't known of each."""
        if self.timed is None:
            begins = [it.begins for it in self.segments if it.begins is not None]
            self.timed = Instants(begins, steady_from(begins, 0, 1)) if len(begins) == len(self.segments) else None
        return self.timed

    def date_ranges(self) -> list[str]:
        """Its EXT-X-DATERANGE lines, those after the last segment, too."""
        return [line for _, _, line in self.own_ranges()] if self.signals is None else self.signals


@lru_cache(REMEMBERED)
def id_in(line: str) -> str:
    """The ID of the EXT-X-DATERANGE `line`; empty if it has none."""
    return attributes_of(line.partition(":")[2]).get("ID", "")


def decimal_of(text: str) -> int | None:
    """The decimal-integer `text` (RFC 8216, 4.2); none if it isn't one."""
    if not (text.isascii() and text.isdigit() and len(text) <= 20):
        return None
    return number if (number := int(text)) <= MOST_NUMBER else None


@lru_cache(REMEMBERED)
def instant_of(text: str) -> int | None:
    """The nanoseconds from 1970 of the date and time `text`; none if it isn't one of the years 1900 to 2199."""
    found = playlist.read_instant(text) if len(text) <= 40 else None
    return found if found is not None and is_instant(found) else None


def is_instant(instant: int) -> bool:
    """Whether `instant`, in nanoseconds from 1970, is one that adsplice takes: of the years 1900 to 2199."""
    return EARLIEST <= instant < LATEST


@lru_cache(REMEMBERED)
def duration_of(text: str) -> int | None:
    """The nanoseconds of an EXTINF's value `text`, up to its first comma (RFC 8216, 4.3.2.1); none if it isn't one."""
    seconds = text.partition(",")[0]
    return playlist.read_duration(seconds) if len(seconds) <= 40 and seconds.isascii() else None


class Reader:
    """The state of reading a list, from line to line: what was `found`, and what waits for the next segment's URI."""

    def __init__(self) -> None:
        self.found = PackagedList()
        self.next = PackagedSegment("", 0)
        self.seen: set[str] = set()  # tags of the whole list
        self.keys: Keys = ()
        self.section: InitSection | None = None

    def is_placed(self, name: str) -> bool:
        """Whether the tag `name` of the whole list is its first of that name; notes if it isn't, or comes too late (RFC 8216, 4.3.3)."""
        is_late = name.endswith("-SEQUENCE") and bool(self.found.segments or (name == "#EXT-X-DISCONTINUITY-SEQUENCE" and self.next.discontinuities))
        is_first = name not in self.seen
        self.seen.add(name)
        if is_late or not is_first:
            self.found.others.add(MISPLACED)
        return is_first

    def version(self, line: str, rest: str) -> None:
        """EXT-X-VERSION (RFC 8216, 4.3.1.2)."""
        self.found.version = decimal_of(rest)

    def target(self, line: str, rest: str) -> None:
        """EXT-X-TARGETDURATION (4.3.3.1)."""
        self.found.target = decimal_of(rest)

    def first(self, line: str, rest: str) -> None:
        """EXT-X-MEDIA-SEQUENCE (4.3.3.2)."""
        self.found.first = decimal_of(rest) or 0

    def discontinuity_sequence(self, line: str, rest: str) -> None:
        """EXT-X-DISCONTINUITY-SEQUENCE (4.3.3.3)."""
        self.found.discontinuity_sequence = decimal_of(rest) or 0

    def kind(self, line: str, rest: str) -> None:
        """EXT-X-PLAYLIST-TYPE (4.3.3.5)."""
        self.found.kind = rest

    def independent(self, line: str, rest: str) -> None:
        """EXT-X-INDEPENDENT-SEGMENTS (4.3.5.1)."""
        self.found.is_independent = True

    def ended(self, line: str, rest: str) -> None:
        """EXT-X-ENDLIST (4.3.3.4)."""
        self.found.is_ended = True

    def other(self, line: str, rest: str) -> None:
        """A tag of which its name alone matters here."""
        self.found.others.add(line.partition(":")[0][1:])

    def discontinuity(self, line: str, rest: str) -> None:
        """EXT-X-DISCONTINUITY (4.3.2.3)."""
        self.next.discontinuities += 1

    def time(self, line: str, rest: str) -> None:
        """EXT-X-PROGRAM-DATE-TIME (4.3.2.6)."""
        self.next.stated = instant_of(rest)
        if self.next.stated is None:
            self.found.others.add("EXT-X-PROGRAM-DATE-TIME")

    def duration(self, line: str, rest: str) -> None:
        """EXTINF (4.3.2.1)."""
        self.next.duration = self.next.said = duration_of(rest) or 0
        self.next.tags.append(line)

    def gap(self, line: str, rest: str) -> None:
        """EXT-X-GAP (of later drafts): the segment isn't there."""
        self.next.is_gap = True

    def byte_range(self, line: str, rest: str) -> None:
        """EXT-X-BYTERANGE (4.3.2.2)."""
        length, at, offset = rest.partition("@")
        size = decimal_of(length)
        self.next.byte_range = None if size is None else (size, decimal_of(offset) if at else None)

    def key(self, line: str, rest: str) -> None:
        """EXT-X-KEY (4.3.2.4): METHOD=NONE ends the keys of every format (docs/CONFORMANCE.md)."""
        said = attributes_of(rest)
        name = said.get("KEYFORMAT", IDENTITY)
        if said.get("METHOD") == "NONE":
            self.keys = ()
        elif (key := Key(name, rest, "IV" in said)) not in self.keys:
            self.keys = (*(it for it in self.keys if it.format != name), key)[-17:]  # (one more than adsplice takes, which it tells)

    def init_section(self, line: str, rest: str) -> None:
        """EXT-X-MAP (4.3.2.5)."""
        self.section = InitSection(rest, self.keys)

    def segment(self, uri: str) -> None:
        """The line `uri`, with all that was said for it."""
        segments, it = self.found.segments, self.next
        if len(segments) == MOST_SEGMENTS:
            raise Unread(f"it has more than {MOST_SEGMENTS} segments")
        it.uri, it.own, it.keys, it.section = uri, len(segments), self.keys, self.section
        if it.byte_range is not None and it.byte_range[1] is None and segments:
            before = segments[-1].byte_range
            if before is not None and before[1] is not None and segments[-1].uri == uri:
                it.byte_range = it.byte_range[0], before[0] + before[1]
        segments.append(it)
        self.next = PackagedSegment("", 0)

    def take(self, lines: Iterable[str]) -> None:
        """Takes in the `lines` of a list, without their ends, blank lines and comments; raises Unread if there are too many segments."""
        for line in lines:
            if line[0] != "#":
                self.segment(line)
                continue
            name, _, rest = line.partition(":")
            if (tag := TAGS.get(name)) is None:
                self.next.tags.append(line)
            elif name not in WHOLE or self.is_placed(name):
                tag(self, line, rest)

    def end(self) -> PackagedList:
        """What was found, once all lines were read. EXT-X-MEDIA-SEQUENCE counts wherever it stood."""
        found = self.found
        found.tail_tags, found.tail_discontinuities = self.next.tags, self.next.discontinuities
        for it in found.segments:
            it.own += found.first
        return found


WHOLE = {"#EXT-X-VERSION", "#EXT-X-TARGETDURATION", "#EXT-X-MEDIA-SEQUENCE", "#EXT-X-DISCONTINUITY-SEQUENCE", "#EXT-X-PLAYLIST-TYPE", "#EXT-X-ENDLIST"}
MISPLACED = "misplaced"  # among the `others` of a list: a tag of the whole list that is repeated, or comes too late


def nothing(reader: Reader, line: str, rest: str) -> None:
    """A tag that says nothing more."""


TAGS: dict[str, Callable[[Reader, str, str], None]] = {
    "#EXTM3U": nothing, "#EXT-X-VERSION": Reader.version, "#EXT-X-TARGETDURATION": Reader.target, "#EXT-X-MEDIA-SEQUENCE": Reader.first,
    "#EXT-X-DISCONTINUITY-SEQUENCE": Reader.discontinuity_sequence, "#EXT-X-PLAYLIST-TYPE": Reader.kind,
    "#EXT-X-INDEPENDENT-SEGMENTS": Reader.independent, "#EXT-X-ENDLIST": Reader.ended, "#EXT-X-DISCONTINUITY": Reader.discontinuity,
    "#EXT-X-PROGRAM-DATE-TIME": Reader.time, "#EXTINF": Reader.duration, "#EXT-X-BYTERANGE": Reader.byte_range, "#EXT-X-KEY": Reader.key,
    "#EXT-X-MAP": Reader.init_section, "#EXT-X-GAP": Reader.gap,
} | {f"#{name}": Reader.other for name in (
    "EXT-X-SKIP", "EXT-X-DEFINE", "EXT-X-I-FRAMES-ONLY", "EXT-X-STREAM-INF", "EXT-X-MEDIA", "EXT-X-I-FRAME-STREAM-INF",
    "EXT-X-SESSION-DATA", "EXT-X-SESSION-KEY")}


def read(lines: Iterable[str]) -> PackagedList:
    """What the `lines` of a list say; the rest as in Reader.take."""
    reader = Reader()
    reader.take(lines)
    return reader.end()


# ---- writing

def as_listed(found: PackagedList) -> PackagedList:
    """The list `found` with the packager's own numbers and instants, for a feed that doesn't put lists right (RFC 8216, 4.3.2.6)."""
    discontinuity, begins = found.discontinuity_sequence, None
    for it in found.segments:
        discontinuity += it.discontinuities
        it.number, it.discontinuity = it.own, discontinuity
        it.begins = begins = it.stated if it.stated is not None else begins
        begins = None if begins is None else begins + it.duration
    for it, later in zip(reversed(found.segments[:-1]), reversed(found.segments)):
        if it.begins is None and later.begins is not None:
            it.begins = later.begins - it.duration
    return found


def write(found: PackagedList, ranges: list[str] | None = None) -> bytes:
    """The list `found` as text, with the feed's numbers and instants. Its date ranges stand in its head; `ranges` are EXT-X-DATERANGE
    lines in place of them."""
    first = found.segments[0]
    lines = ["#EXTM3U"] + ([f"#EXT-X-VERSION:{found.version}"] if found.version is not None else [])
    lines += [f"#EXT-X-TARGETDURATION:{found.target}", f"#EXT-X-MEDIA-SEQUENCE:{first.number}",
              f"#EXT-X-DISCONTINUITY-SEQUENCE:{first.discontinuity - first.discontinuities}"]
    lines += [f"#EXT-X-PLAYLIST-TYPE:{found.kind}"] if found.kind else []
    lines += ["#EXT-X-INDEPENDENT-SEGMENTS"] if found.is_independent else []
    lines += written_ranges(found, found.date_ranges() if ranges is None else ranges)
    head = "".join(f"{line}\n" for line in lines).encode()
    if found.pieces is None:
        found.pieces = [piece_of(before, it) for before, it in zip((None, *found.segments), found.segments)]
    return b"".join([head, piece_of(None, first), *found.pieces[1:], b"#EXT-X-ENDLIST\n" if found.is_ended else b""])


def written_ranges(found: PackagedList, lines: list[str]) -> list[str]:
    """The EXT-X-DATERANGE `lines` of the list `found`, by the clock that viewers have."""
    if not any(it.by for it in found.shifts[-1:]) and not any(it.shift for it in found.segments):
        return lines
    return [moved_range(found, line) for line in lines]


def shift_at(found: PackagedList, instant: int | None) -> int:
    """How much later viewers of the list `found` have the `instant`: as the newest segment that begins by then, or nearly. Of what left the list the shifts say it,
    as far as they are remembered."""
    last = found.segments[-1]
    if instant is None or last.begins is None or instant >= last.begins + last.duration - NEAR:
        by = later(found.shifts, None if instant is None else instant + last.duration // 2)
        return last.shift if by is None else by
    begun = next((it for it in reversed(found.segments) if it.begins is not None and it.begins <= instant + NEAR), None)
    if begun is not None:
        return begun.shift
    by = later(found.shifts, instant + last.duration // 2)
    return found.segments[0].shift if by is None else by


def later(shifts: tuple[Shift, ...], instant: int | None) -> int | None:
    """How much later viewers have the segment in the middle of which the `instant` is, by these `shifts`; or what is to come, if it isn't known. None if it was
    before them. (Renditions are cut at other times. So of segments that begin at about one time all have one shift.)"""
    return next((it.by for it in reversed(shifts) if instant is None or it.since <= instant), None)


def moved_range(found: PackagedList, line: str) -> str:
    """The EXT-X-DATERANGE `line` of the list `found`, by the clock that viewers have: that may be another one where the break ends than where it begins."""
    said = attributes_of(line.partition(":")[2])
    instants = {name: instant for name in INSTANTS if (instant := instant_of(said.get(name, ""))) is not None}
    start, duration = instants.get("START-DATE"), duration_of(said.get("DURATION", ""))
    if start is not None and duration is not None and (by := shift_at(found, start + duration) - shift_at(found, start)):
        line = line.replace(f',DURATION={said["DURATION"]}', f",DURATION={playlist.seconds_text(duration + by)}")
    return range_with(line, {name: instant + shift_at(found, instant) for name, instant in instants.items()})


def range_with(line: str, instants: Mapping[str, int | None]) -> str:
    """The EXT-X-DATERANGE `line` with these `instants` in place of those that it states, by the names of their attributes."""
    said = attributes_of(line.partition(":")[2])
    for name, instant in instants.items():
        if instant is not None and name in said and instant_of(said[name]) != instant:
            line = line.replace(f'{name}="{said[name]}"', f'{name}="{playlist.instant_text(instant)}"', 1)
    return line


def piece_of(before: PackagedSegment | None, it: PackagedSegment) -> bytes:
    """The text of the segment `it` in a list in which it follows the segment `before`; none if it is the first one. Keys and
    initialisation sections are stated where they change."""
    lines = ["#EXT-X-DISCONTINUITY"] * it.discontinuities
    keys, section = (before.effective_keys(), before.section) if before is not None else ((), None)
    if it.section is not None and it.section != section:
        lines += [*changed_keys(keys, it.section.keys), f"#EXT-X-MAP:{it.section.text}"]
        keys = it.section.keys
    if (effective := it.effective_keys()) != keys:
        lines += changed_keys(keys, effective)
    return "".join(f"{line}\n" for line in [*lines, *media_lines(it)]).encode()


def changed_keys(old: Keys, new: Keys) -> list[str]:
    """The tags that lead from the keys `old` to `new` (RFC 8216, 4.3.2.4): those that are new, or, if a format ends, none and then all."""
    is_ended = {it.format for it in old} - {it.format for it in new}
    none = ["#EXT-X-KEY:METHOD=NONE"] if is_ended else []
    return none + [f"#EXT-X-KEY:{it.text}" for it in new if is_ended or it not in old]


def media_lines(it: PackagedSegment) -> list[str]:
    """The lines of the segment `it` from its tags to its URI, without date ranges."""
    lines = [line for line in it.tags if not line.startswith(DATE_RANGE)]
    if it.byte_range is not None:
        length, offset = it.byte_range
        lines.append(f"#EXT-X-BYTERANGE:{length}" + ("" if offset is None else f"@{offset}"))
    if (begins := it.written()) is not None:
        lines.append(f"#EXT-X-PROGRAM-DATE-TIME:{playlist.instant_text(begins)}")
    return [*lines, it.uri]
