"""Lists of a second origin as the feed takes them: with absolute references, and without what the first origin has shown already."""
from __future__ import annotations

from dataclasses import dataclass

from . import playlist
from .playlist import SECOND
from .urls import joined_or_same

LEAST = 3  # segments that are taken if nobody states times: a live list has three target durations (RFC 8216, 6.2.2)
REFERENCES = (':URI="', ',URI="')
OF_LIST = ("#EXTM3U", "#EXT-X-VERSION", "#EXT-X-TARGETDURATION", "#EXT-X-MEDIA-SEQUENCE", "#EXT-X-DISCONTINUITY-SEQUENCE", "#EXT-X-PLAYLIST-TYPE",
           "#EXT-X-I-FRAMES-ONLY", "#EXT-X-INDEPENDENT-SEGMENTS", "#EXT-X-START", "#EXT-X-ENDLIST", "#EXT-X-DEFINE", "#EXT-X-SKIP")  # tags of the whole list
IN_FORCE = ("#EXT-X-KEY", "#EXT-X-MAP", "#EXT-X-DATERANGE")  # tags that hold for later segments, too
STEP = "#EXT-X-DISCONTINUITY"


def text_of(body: bytes) -> str:
    """The list `body` as text, of which each byte comes back."""
    return body.decode("utf-8", "surrogateescape")


def bytes_of(text: str) -> bytes:
    """The bytes of the `text` of a list."""
    return text.encode("utf-8", "surrogateescape")


def absolute(body: bytes, base: str) -> bytes:
    """The list `body` with its references as URLs by the URL `base` of its origin."""
    lines = []
    for line in text_of(body).split("\n"):
        bare = line.strip(" \t\r")
        if bare and not bare.startswith("#"):
            line = line.replace(bare, joined_or_same(base, bare), 1)
        elif bare.startswith("#EXT-X-"):
            begin = next((at + len(it) for it in REFERENCES if (at := line.find(it)) >= 0), -1)
            end = line.find('"', begin) if begin >= 0 else -1
            line = line[:begin] + joined_or_same(base, line[begin:end]) + line[end:] if end >= 0 else line
        lines.append(line)
    return bytes_of("\n".join(lines))


def has_same(one: bytes, other: bytes) -> bool:
    """Whether the lists `one` and `other` have a segment's URI in common."""
    return bool({it.uri for it in playlist.read(one).segments} & {it.uri for it in playlist.read(other).segments})


@dataclass
class Handover:
    """Where the list of another origin begins that goes on after one which ended at the instant `end` (none, if none is stated): at
    the segment of the URI `first`, once it is found."""

    end: int | None
    first: str = ""
    is_over: bool = False  # that segment was listed, and has left the list

    def begin(self, listed: playlist.Listed, may_wait: bool) -> int | None:
        """The place in `listed` of the first segment that is taken: the one of which more than half is after the end, or, if times
        don't tell, one of the newest. None if there is none yet and the feed `may_wait` for it."""
        segments = listed.segments
        if self.end is not None and listed.end() is not None:
            near = (listed.target or 10) * SECOND * LEAST
            if (listed.end() or 0) > self.end:
                return next((n for n, it in enumerate(segments) if it.begins is not None and it.begins + it.duration // 2 >= self.end), len(segments) - 1)
            if may_wait and self.end - (listed.end() or 0) <= near:
                return None
        return max(0, len(segments) - LEAST)

    def take(self, body: bytes, may_wait: bool = True) -> bytes | None:
        """What is taken of the list `body`; none if there is nothing yet and the feed `may_wait`."""
        listed = playlist.read(body)
        if self.is_over or not listed.segments:
            return body
        if not self.first:
            place = self.begin(listed, may_wait)
            if place is None:
                return None
            self.first = listed.segments[place].uri
        found = next((n for n, it in enumerate(listed.segments) if it.uri == self.first), None)
        if found is None:
            self.is_over = True
            return body
        return from_segment(body, found, listed.segments[found].begins)


def from_segment(body: bytes, place: int, begins: int | None) -> bytes:
    """The list `body` from its segment at `place` on, which begins at the instant `begins`, with a discontinuity before it. The numbers
    are counted on (RFC 8216, 4.3.3.2 and 4.3.3.3), and keys, initialisation sections and date ranges that hold for it stay."""
    head: list[str] = []
    rest: list[str] = []  # of the segment that is looked at
    lines = text_of(body).split("\n")
    passed, steps = 0, 0
    for n, line in enumerate(lines):
        bare = line.strip(" \t\r")
        if bare and not bare.startswith("#"):
            if passed == place:
                rest += lines[n:]
                break
            steps += sum(it.strip(" \t\r") == STEP for it in rest)
            head += [it for it in rest if it.lstrip(" \t").startswith(IN_FORCE)]
            passed, rest = passed + 1, []
        elif bare.startswith("#EXT") and not bare.startswith(OF_LIST):
            rest.append(line)
        else:
            head.append(line)
    own = rest[: len(rest) - len(lines) + n]  # the tags of that segment
    if place and begins is not None and not any("PROGRAM-DATE-TIME" in it for it in own):
        rest.insert(0, f"#EXT-X-PROGRAM-DATE-TIME:{playlist.instant_text(begins)}")
    if STEP not in [it.strip(" \t\r") for it in own]:
        rest.insert(0, STEP)
    return bytes_of("\n".join([*counted(head, place, steps), *rest]))


def counted(head: list[str], segments: int, steps: int) -> list[str]:
    """The lines `head` of a list with its numbers after so many `segments` and so many discontinuities (`steps`) have left it."""
    found, owed = [], {"#EXT-X-MEDIA-SEQUENCE": segments, "#EXT-X-DISCONTINUITY-SEQUENCE": steps}
    for line in head:
        name, _, value = line.strip(" \t\r").partition(":")
        if name in owed and value.isascii() and value.isdigit() and len(value) <= 20:
            line = f"{name}:{int(value) + owed.pop(name)}"
        found.append(line)
    place = next((n for n, it in enumerate(found) if not it.strip(" \t\r").startswith(("#EXTM3U", "\ufeff", "#EXT-X-VERSION"))), len(found))
    return found[:place] + [f"{name}:{count}" for name, count in owed.items() if count] + found[place:]
