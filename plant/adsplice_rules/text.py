"""The written text of a playlist (RFC 8216, 4.3)."""
from __future__ import annotations

from .keys import init_section_text, transition
from .numbers import Item
from .times import duration_text, instant_text
from .values import DateRange, InitSection, Keys, Playlist, Segment

LEAST_VERSION = 6  # what the written tags need (7)


def media_lines(segment: Segment) -> list[str]:
    """4.3.2.1, 4.3.2.2: EXTINF, the bytes with their offset, and the URI."""
    part = [f"#EXT-X-BYTERANGE:{segment.range[0]}@{segment.range[1]}"] if segment.range else []
    return [f"#EXTINF:{duration_text(segment.nanos)},{segment.title}", *part, segment.uri]


def changed_init_section(current: InitSection | None, segment: Segment) -> InitSection | None:
    """4.3.2.5: the initialisation section of a segment, if it is another than the one in force."""
    return segment.init_section if segment.init_section != current else None


def segment_lines(keys: Keys, init_section: InitSection | None, item: Item) -> list[str]:
    """4.3.2: the lines of a segment if these keys and this initialisation section are in force: its discontinuities, a changed one under
    its own keys, changed keys, its time, and what it is."""
    segment, lines = item.piece.segment, ["#EXT-X-DISCONTINUITY"] * item.steps
    changed = changed_init_section(init_section, segment)
    if changed is not None:
        lines += [*transition(keys, changed.keys), init_section_text(changed)]
        keys = changed.keys
    lines += transition(keys, segment.keys)
    if item.piece.instant is not None:
        lines.append(f"#EXT-X-PROGRAM-DATE-TIME:{instant_text(item.piece.instant)}")
    return lines + media_lines(segment)


def stated_discontinuity_sequence(window: list[Item]) -> int:
    """4.3.3.3: EXT-X-DISCONTINUITY-SEQUENCE is the first item's number before its own discontinuities."""
    return window[0].discontinuity - window[0].steps


def date_ranges_left(playlist: Playlist, window: list[Item], in_use: list[str]) -> list[DateRange]:
    """CONFORMANCE, 4.3.2.7 and 6.2.2: the origin's date ranges but those of breaks in use; none if no written segment states
    a time."""
    if all(item.piece.instant is None for item in window):
        return []
    return [one for one in playlist.ranges if one.id not in in_use]


def header_lines(playlist: Playlist, window: list[Item]) -> list[str]:
    """4.3.1, 4.3.3, 4.3.5: the tags of the whole playlist."""
    kind = [f"#EXT-X-PLAYLIST-TYPE:{playlist.kind}"] if playlist.kind else []
    return ["#EXTM3U", f"#EXT-X-VERSION:{max(playlist.version, LEAST_VERSION)}", f"#EXT-X-TARGETDURATION:{playlist.target}",
            f"#EXT-X-MEDIA-SEQUENCE:{window[0].media}", f"#EXT-X-DISCONTINUITY-SEQUENCE:{stated_discontinuity_sequence(window)}", *kind,
            *(["#EXT-X-INDEPENDENT-SEGMENTS"] if playlist.independent else [])]


def text_of(playlist: Playlist, window: list[Item], in_use: list[str]) -> str:
    """The owed text: header, date ranges, segments, end. Each line ends with a line feed."""
    lines = header_lines(playlist, window)
    lines += [f"#EXT-X-DATERANGE:{one.text}" for one in date_ranges_left(playlist, window, in_use)]
    keys: Keys = ()
    init_section: InitSection | None = None
    for item in window:
        lines += segment_lines(keys, init_section, item)
        keys, init_section = item.piece.segment.keys, item.piece.segment.init_section or init_section
    return "".join(f"{line}\n" for line in [*lines, *(["#EXT-X-ENDLIST"] if playlist.ended else [])])
