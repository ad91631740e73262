"""Lines and tags (RFC 8216, 4.1 and 4.3)."""
from __future__ import annotations

import re

CONTROL = re.compile("[\x00-\x1f\x7f-\x9f]")
FLAGS = {"EXT-X-DISCONTINUITY", "EXT-X-ENDLIST", "EXT-X-INDEPENDENT-SEGMENTS", "EXT-X-I-FRAMES-ONLY"}
VALUED = {"EXTINF", "EXT-X-BYTERANGE", "EXT-X-KEY", "EXT-X-MAP", "EXT-X-PROGRAM-DATE-TIME", "EXT-X-DATERANGE", "EXT-X-VERSION",
          "EXT-X-TARGETDURATION", "EXT-X-MEDIA-SEQUENCE", "EXT-X-DISCONTINUITY-SEQUENCE", "EXT-X-PLAYLIST-TYPE"}
MASTER = {"EXT-X-MEDIA", "EXT-X-STREAM-INF", "EXT-X-I-FRAME-STREAM-INF", "EXT-X-SESSION-DATA", "EXT-X-SESSION-KEY"}


def lines_of(text: str) -> list[str]:
    """4.1: a line ends with LF or CR LF, and the last one may lack its end."""
    pieces = text.split("\n")
    whole = [piece.removesuffix("\r") for piece in pieces[:-1]]
    return whole + [pieces[-1]] if pieces[-1] else whole


def has_control(text: str) -> bool:
    """4.1: no character of U+0000 to U+001F or U+007F to U+009F may be there."""
    return CONTROL.search(text) is not None


def kind_of(line: str) -> str:
    """4.1: a line is blank (of spaces alone, CONFORMANCE), a tag if it begins with #EXT, else a comment or a URI."""
    if not line.strip(" "):
        return "blank"
    if line.startswith("#EXT"):
        return "tag"
    return "comment" if line.startswith("#") else "URI"


def name_of(line: str) -> str:
    """4.3: the name of a tag's line, as it is known here; `unknown` for others, which 6.3.1 passes over. A tag that takes no
    value is unknown if a colon follows it (CONFORMANCE, 6.3.1)."""
    name, colon, _ = line[1:].partition(":")
    if name in MASTER:
        return "master"
    known = name in VALUED or (name in FLAGS and not colon)
    return name if known else "unknown"


def rest_of(line: str) -> str:
    """4.3: what follows the first colon of a tag's line."""
    return line.partition(":")[2]
