"""What bytes denote under a base, or their first fault (RFC 8216, 4.3)."""
from __future__ import annotations

from collections.abc import Callable
from typing import Any

from .attributes import Attribute, attributes_of, byte_range_of, decimal_of, named, required
from .keys import MOST_FORMATS, effective_keys, key_of, keys_after, lacks_iv, map_of
from .lines import has_control, kind_of, lines_of, name_of, rest_of
from .times import duration_of, instant_of
from .uris import Url, resolved
from .values import PAST, DateRange, Fault, InitSection, Playlist, Range, Segment, or_fault

MOST_BYTES = 4_194_304  # limits of the reader (CONFORMANCE, 7)
MOST_SEGMENTS = 10_000

# What the lines so far say: for each kind of line, each line's number with what it says there.
Said = dict[str, list[tuple[int, Any]]]


def all_said(said: Said, kind: str) -> list[Any]:
    """What each line of this kind says, in order."""
    return [value for _, value in said.get(kind, [])]


def last_said(said: Said, kind: str, default: Any = None) -> Any:
    """What the last line of this kind says."""
    return said[kind][-1][1] if said.get(kind) else default


def since_media(said: Said, kind: str) -> list[Any]:
    """4.3.2: what the lines of this kind say since the last URI: they apply to the next segment alone."""
    last_uri = said["URI"][-1][0] if said.get("URI") else 0
    found = []
    for line, value in reversed(said.get(kind, [])):
        if line < last_uri:
            break
        found.append(value)
    return found[::-1]


def own(said: Said, kind: str, default: Any = None) -> Any:
    """4.3.2: the last of them, which counts (CONFORMANCE, 4.3.2.1)."""
    return (since_media(said, kind) or [default])[-1]


# ---- numbers (4.3.3.2, 4.3.3.3)

def media_sequence_at(said: Said) -> int:
    """4.3.3.2: the Media Sequence Number of the next segment: EXT-X-MEDIA-SEQUENCE, 0 without, and one more for each before."""
    first: int = last_said(said, "EXT-X-MEDIA-SEQUENCE", 0)
    return first + len(said.get("URI", []))


def discontinuity_at(said: Said) -> int:
    """4.3.3.3: its Discontinuity Sequence Number: one more for each EXT-X-DISCONTINUITY before (4.3.2.3)."""
    first: int = last_said(said, "EXT-X-DISCONTINUITY-SEQUENCE", 0)
    return first + len(said.get("EXT-X-DISCONTINUITY", []))


def steps_at(said: Said) -> int:
    """4.3.2.3: how many EXT-X-DISCONTINUITY stand between the segment before and the next one."""
    return len(since_media(said, "EXT-X-DISCONTINUITY"))


# ---- what each line says

def number_said(rest: str) -> int:
    """4.2: a decimal-integer; P9 else."""
    return or_fault(decimal_of(rest), "P9")


def version_of(rest: str) -> int:
    """4.3.1.2, 7: a decimal (P5) of 1 to 7 (P6)."""
    number = or_fault(decimal_of(rest), "P5")
    if not 1 <= number <= 7:
        raise Fault("P6")
    return number


def playlist_type_of(rest: str) -> str:
    """4.3.3.5: EVENT or VOD; P9 else."""
    if rest not in ("EVENT", "VOD"):
        raise Fault("P9")
    return rest


def length_said(text: str) -> int:
    """4.3.2.1: a duration; P10 else."""
    return or_fault(duration_of(text), "P10")


def duration_said(rest: str) -> tuple[int, str]:
    """4.3.2.1: EXTINF has a duration up to the first comma, which may be missing (CONFORMANCE), and a title."""
    duration, _, title = rest.partition(",")
    return length_said(duration), title


def time_said(text: str) -> int:
    """4.3.2.6: a date and time; P15 else."""
    return or_fault(instant_of(text), "P15")


def date_range_of(rest: str) -> DateRange:
    """4.3.2.7: ID has to be there in quotes; START-DATE, END-DATE, DURATION and PLANNED-DURATION are judged in this order,
    quoted or not; SCTE35-OUT, SCTE35-IN and all others are carried (CONFORMANCE)."""
    found = attributes_of(rest)
    name = required(found, "ID", quoted=True)

    def said(attribute: str, read: Any) -> Any:
        one: Attribute | None = named(found, attribute)
        return None if one is None else read(one.value)

    return DateRange(name, said("START-DATE", time_said), said("END-DATE", time_said), said("DURATION", length_said),
                     said("PLANNED-DURATION", length_said), said("SCTE35-OUT", str), said("SCTE35-IN", str), rest)


def discontinuity_said(said: Said) -> None:
    """4.3.2.3: P9 if the number would pass 2^64 - 1."""
    if discontinuity_at(said) + 1 >= PAST:
        raise Fault("P9")


def key_said(said: Said, base: Url, rest: str) -> Any:
    """4.3.2.4: P24 if keys of more than 16 formats would be in force (CONFORMANCE)."""
    key = key_of(base, rest)
    if len(keys_after([*all_said(said, "EXT-X-KEY"), key])) > MOST_FORMATS:
        raise Fault("P24")
    return key


def init_section_said(said: Said, base: Url, rest: str) -> InitSection:
    """4.3.2.5: the initialisation section, with the keys in force at its own line; P23 if one of them lacks its IV."""
    uri, part = map_of(base, rest)
    keys = keys_after(all_said(said, "EXT-X-KEY"))
    if lacks_iv(keys):
        raise Fault("P23")
    return InitSection(uri, part, keys)


def placed(said: Said, name: str) -> None:
    """4.3.3: tags of the whole playlist come once (P7), EXT-X-MEDIA-SEQUENCE before the first URI line,
    EXT-X-DISCONTINUITY-SEQUENCE also before any EXT-X-DISCONTINUITY (P8)."""
    if said.get(name):
        raise Fault("P7")
    if name.endswith("-SEQUENCE") and said.get("URI"):
        raise Fault("P8")
    if name == "EXT-X-DISCONTINUITY-SEQUENCE" and said.get("EXT-X-DISCONTINUITY"):
        raise Fault("P8")


WHOLE: dict[str, Callable[[str], Any]] = {
    "EXT-X-VERSION": version_of, "EXT-X-TARGETDURATION": number_said, "EXT-X-MEDIA-SEQUENCE": number_said,
    "EXT-X-DISCONTINUITY-SEQUENCE": number_said, "EXT-X-PLAYLIST-TYPE": playlist_type_of, "EXT-X-ENDLIST": str}
ALONE: dict[str, Callable[[str], Any]] = {
    "EXTINF": duration_said, "EXT-X-BYTERANGE": byte_range_of, "EXT-X-PROGRAM-DATE-TIME": time_said,
    "EXT-X-DATERANGE": date_range_of, "EXT-X-INDEPENDENT-SEGMENTS": str}


def said_by_tag(said: Said, base: Url, name: str, rest: str) -> Any:
    """4.3: what a tag says after the lines before it, or its first fault."""
    if name == "master":
        raise Fault("P19")
    if name == "EXT-X-I-FRAMES-ONLY":
        raise Fault("P20")
    if name in WHOLE:
        placed(said, name)
        return WHOLE[name](rest)
    if name == "EXT-X-DISCONTINUITY":
        return discontinuity_said(said)
    if name == "EXT-X-KEY":
        return key_said(said, base, rest)
    if name == "EXT-X-MAP":
        return init_section_said(said, base, rest)
    return ALONE[name](rest)


def byte_range_at(said: Said, uri: str) -> Range | None:
    """4.3.2.2: the bytes of the next segment: without an offset they follow those of the segment before, which has to have a
    range of the same resource (P14); P13 if they would end past 2^64 - 1."""
    stated = own(said, "EXT-X-BYTERANGE")
    if stated is None:
        return None
    length, offset = stated
    if offset is None:
        before: Segment | None = last_said(said, "URI")
        if before is None or before.range is None or before.uri != uri:
            raise Fault("P14")
        offset = before.range[0] + before.range[1]
    if length + offset >= PAST:
        raise Fault("P13")
    return length, offset


def segment_at(said: Said, base: Url, reference: str) -> Segment:
    """4.3.2: the segment of a URI line, looking back from it. Faults in the order P24, P17, P9, P16, P14, P13."""
    if len(said.get("URI", [])) + 1 > MOST_SEGMENTS:
        raise Fault("P24")
    duration: tuple[int, str] = or_fault(own(said, "EXTINF"), "P17")
    number = media_sequence_at(said)
    if number >= PAST:
        raise Fault("P9")
    uri = resolved(base, reference)
    return Segment(number, discontinuity_at(said), steps_at(said), uri, byte_range_at(said, uri),
                   effective_keys(keys_after(all_said(said, "EXT-X-KEY")), number), last_said(said, "EXT-X-MAP"),
                   duration[0], duration[1], own(said, "EXT-X-PROGRAM-DATE-TIME"))


def add_line(said: Said, base: Url, number: int, line: str) -> None:
    """4.1: what one line says is added. A control character is P4 before all else."""
    if has_control(line):
        raise Fault("P4")
    kind = kind_of(line)
    if kind == "URI":
        said.setdefault("URI", []).append((number, segment_at(said, base, line)))
    elif kind == "tag" and name_of(line) != "unknown":
        value = said_by_tag(said, base, name_of(line), rest_of(line))
        said.setdefault(name_of(line), []).append((number, value))


# ---- the whole text

def whole_fault(said: Said) -> str | None:
    """The fault of the text as a whole: P18 without EXT-X-TARGETDURATION (4.3.3.1), P21 without a segment, P22 if some
    segments have an initialisation section and some have none (CONFORMANCE, 4.3.2.5)."""
    if not said.get("EXT-X-TARGETDURATION"):
        return "P18"
    if not said.get("URI"):
        return "P21"
    return "P22" if len({segment.init_section is None for segment in all_said(said, "URI")}) == 2 else None


def first_line_is_right(lines: list[str]) -> bool:
    """4.3.1.1: the first line is #EXTM3U."""
    return lines[:1] == ["#EXTM3U"]


def read(base: Url, given: bytes) -> Playlist:
    """The playlist that bytes denote under a base. The first fault in the order P1, P2, P3, then of the first faulty line, then
    P18, P21, P22."""
    try:
        text = given.decode()
    except UnicodeDecodeError:
        raise Fault("P1") from None
    if len(given) > MOST_BYTES:
        raise Fault("P2")
    lines = lines_of(text)
    if not first_line_is_right(lines):
        raise Fault("P3", " line 1")
    said: Said = {}
    for number, line in enumerate(lines[1:], 2):
        try:
            add_line(said, base, number, line)
        except Fault as fault:
            raise Fault(fault.code, f" line {number}") from None
    of_whole = whole_fault(said)
    if of_whole:
        raise Fault(of_whole)
    return Playlist(last_said(said, "EXT-X-VERSION", 1), last_said(said, "EXT-X-TARGETDURATION"),
                    last_said(said, "EXT-X-PLAYLIST-TYPE"), "EXT-X-INDEPENDENT-SEGMENTS" in said, "EXT-X-ENDLIST" in said,
                    tuple(all_said(said, "EXT-X-DATERANGE")), tuple(all_said(said, "URI")))
