"""How the lines of a packager's list are spelled (RFC 8216, 4.1 and 4.2): what is put right without a look at what they mean."""
from __future__ import annotations

import re
from collections.abc import Callable
from math import ceil, isfinite

CONTROL = re.compile("[\x00-\x09\x0b-\x1f\x7f-\x9f]")  # all but the line feed
MOST_LINES = 60_000  # that say something, of a list that is read
MOST_PARTS = 256  # of an attribute list that is put right: adsplice takes no more than 64 attributes
MOST_ATTRIBUTES = 64  # of a tag that adsplice takes
Kinds = set[str]  # of repairs (repairs.py)


class Unread(Exception):
    """A list that isn't read here; its text says why."""


def lines_of(body: bytes, kinds: Kinds) -> list[str]:
    """The lines of the list `body` without their ends, each put right; blank lines and comments are left out. What was put right
    is added to `kinds`. Raises Unread if there are too many of them."""
    text = text_of(body, kinds)
    if not text.endswith("\n"):
        kinds.add("last line")
    lines = [it for it in text.replace("\r\n", "\n").split("\n") if it and (it[0] != "#" or it.startswith("#EXT"))]
    if len(lines) > MOST_LINES:
        raise Unread(f"it has more than {MOST_LINES} lines")
    if CONTROL.search("\n".join(lines)):
        lines = [without_controls(it, kinds) if CONTROL.search(it) else it for it in lines]
    if any(it[0] == " " or it[-1] == " " for it in lines if it):
        lines = [stripped(it, kinds) for it in lines]
    return [spelled(it, kinds) if it[0] == "#" else it for it in lines if it]


def attributes_of(text: str) -> dict[str, str]:
    """The attributes of the list `text` (RFC 8216, 4.2), the first of each name, without their quotes. After MOST_ATTRIBUTES of
    them the rest isn't read."""
    found: dict[str, str] = {}
    place = 0
    for _ in range(MOST_ATTRIBUTES):
        if (equals := text.find("=", place)) < 0:
            break
        if text[equals + 1: equals + 2] == '"':
            end = text.find('"', equals + 2)
            end = len(text) if end < 0 else end
            value, comma = text[equals + 2: end], text.find(",", end)
        else:
            comma = text.find(",", equals)
            value = text[equals + 1: len(text) if comma < 0 else comma]
        found.setdefault(text[place: equals].strip(), value)
        if comma < 0:
            break
        place = comma + 1
    return found


def text_of(body: bytes, kinds: Kinds) -> str:
    """The text of `body` without a byte order mark. What isn't UTF-8 becomes U+FFFD in tags, and is percent-encoded in URIs."""
    if body.startswith(b"\xef\xbb\xbf"):
        kinds.add("byte order mark")
        body = body[3:]
    try:
        return body.decode()
    except UnicodeDecodeError:
        kinds.add("bytes")
    lines = body.split(b"\n")
    return "\n".join(it.decode("utf-8", "replace") if it.startswith(b"#") else percent_encoded(it) for it in lines)


def percent_encoded(line: bytes) -> str:
    """The URI `line` with each byte that isn't ASCII percent-encoded (RFC 3986, 2.1)."""
    return "".join(chr(it) if it < 128 else f"%{it:02X}" for it in line)


def without_controls(line: str, kinds: Kinds) -> str:
    """The tag `line` with a space in place of each control character; a URI stays as it is, except at its ends."""
    if line[0] == "#":
        kinds.add("control characters")
        return CONTROL.sub(" ", line)
    without = line.strip("\t\r\v\f ")
    if without != line:
        kinds.add("spaces")
    return without


def stripped(line: str, kinds: Kinds) -> str:
    """The `line` without spaces at its ends. A title keeps those at its end."""
    found = line.lstrip(" ") if line.startswith("#EXTINF") else line.strip(" ")
    if found != line:
        kinds.add("spaces")
    return found


def spelled(line: str, kinds: Kinds) -> str:
    """The tag `line` with its value put right."""
    name, colon, rest = line.partition(":")
    if not colon or (put_right := VALUES.get(name)) is None:
        return line
    found = put_right(rest, kinds)
    return line if found == rest else f"{name}:{found}"


def number(rest: str, kinds: Kinds) -> str:
    """A decimal-integer without spaces around it."""
    if rest != rest.strip():
        kinds.add("spaces")
    return rest.strip()


def target(rest: str, kinds: Kinds) -> str:
    """A target duration as a whole number of seconds, rounded up (4.3.3.1)."""
    found = number(rest, kinds)
    seconds = float_of(found)
    if "." not in found or seconds is None:
        return found
    kinds.add("target duration")
    return str(ceil(seconds))


def extinf(rest: str, kinds: Kinds) -> str:
    """A duration as a decimal without spaces around it and without an exponent (4.3.2.1); the title stays. What stands between the two, as in
    the lists of set-top boxes, is left out."""
    duration, comma, title = rest.partition(",")
    found = duration.strip()
    if found != duration:
        kinds.add("spaces")
    if " " in found and (word := found.partition(" ")[0]) and float_of(word) is not None:
        pieces = rest.split('"')  # (a comma within quotes is none)
        place = next((n for n in range(0, len(pieces), 2) if "," in pieces[n]), len(pieces) - 1)
        _, comma, title = '"'.join(pieces[place:]).partition(",")
        kinds.add("durations")
        found = word
    if ("e" in found or "E" in found) and (seconds := float_of(found)) is not None:
        kinds.add("durations")
        found = f"{seconds:.9f}".rstrip("0").rstrip(".")
    return f"{found}{comma}{title}"


def float_of(text: str) -> float | None:
    """The seconds of the number `text`, of at most 40 signs; none if it isn't one from 0 to 999,999."""
    try:
        found = float(text) if len(text) <= 40 and "_" not in text else -1.0
    except ValueError:
        return None
    return found if isfinite(found) and 0 <= found < 1_000_000 else None


def attributes(rest: str, kinds: Kinds) -> str:
    """An attribute list without spaces around its names and values, and without a comma after the last of them (4.2)."""
    if (" " not in rest and rest[-1:] != ",") or rest.count(",") + rest.count("=") + rest.count('"') > MOST_PARTS:
        return rest
    pieces = rest.split('"')
    for place in range(0, len(pieces), 2):  # (what is between quotes stays)
        pieces[place] = ",".join("=".join(it.strip(" ") for it in part.split("=")) for part in pieces[place].split(","))
    found = '"'.join(pieces).rstrip(",")
    if found != rest:
        kinds.add("attribute lists")
    return found


def time(rest: str, kinds: Kinds) -> str:
    """A date and time without spaces around it, with a T between the two (4.3.2.6)."""
    found = rest.strip().replace(" ", "T", 1)
    if found != rest:
        kinds.add("dates")
    return found


VALUES: dict[str, Callable[[str, Kinds], str]] = {
    "#EXT-X-VERSION": number, "#EXT-X-TARGETDURATION": target, "#EXT-X-MEDIA-SEQUENCE": number, "#EXT-X-DISCONTINUITY-SEQUENCE": number,
    "#EXT-X-PLAYLIST-TYPE": number, "#EXTINF": extinf, "#EXT-X-BYTERANGE": number, "#EXT-X-PROGRAM-DATE-TIME": time,
    "#EXT-X-KEY": attributes, "#EXT-X-MAP": attributes, "#EXT-X-DATERANGE": attributes,
}
