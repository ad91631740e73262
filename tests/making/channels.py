"""Channels: refreshes that follow one another, or may not; decisions that come early, late or twice; and what is read between."""
from __future__ import annotations

import json
from collections.abc import Callable
from random import Random

from adsplice_rules.attributes import decimal_of

from .breaks import decision_file, of_many_breaks, withdrawal
from .common import BASES, Origin, is_lucky, json_text, pod_ads, text_of
from .playlists import FAULTY, GOOD

Lines = list[str]


def request(method: str, target: str, body: bytes | None = None) -> bytes:
    """The bytes of a request."""
    length = "" if body is None else f"Content-Length: {len(body)}\r\n"
    return f"{method} {target} HTTP/1.1\r\nHost: h\r\n{length}\r\n".encode() + (body or b"")


class Packager:
    """A packager whose window moves on, with what a refresh may do wrong."""

    def __init__(self, rng: Random) -> None:
        """Draws an origin with its first breaks, and how wide the window is."""
        self.rng, self.origin = rng, Origin(rng, is_lucky(rng, 0.6))
        self.width = rng.choice((1, 2, 3, 3, 3, 5, 8))
        self.origin.grow(self.width + 1)
        self.first, self.last, self.ended, self.has_jumped = 0, self.width - 1, False, False
        self.ahead()

    def ahead(self) -> None:
        """Breaks are announced for segments to come, and say more later on."""
        rng, origin = self.rng, self.origin
        if is_lucky(rng, 0.45):
            origin.grow(4)
            origin.add_break(rng.randrange(self.last, len(origin.pieces)), rng.choice((1, 2, 3, 5)))
        if origin.breaks and is_lucky(rng, 0.12):
            origin.ranges.append(origin.more_said(rng.choice(origin.breaks)[0]))
        if origin.ranges and is_lucky(rng, 0.12):
            origin.ranges.pop(rng.randrange(len(origin.ranges)))

    def move(self) -> None:
        """The window goes on, by one segment for the most part; at times the whole window is new."""
        rng = self.rng
        if self.ended:
            return
        shown, step = self.last, rng.choice((1, 1, 1, 1, 0, 0, 2, self.width)) if self.width > 1 else 1
        if shown in self.origin.last_places and is_lucky(rng, 0.35):
            step = self.width
        if self.has_jumped and is_lucky(rng, 0.4):
            step = 0
        self.last += step
        self.first = max(self.first, self.last - self.width + rng.choice((1, 1, 1, 0)))
        self.origin.grow(max(0, self.last + 2 - len(self.origin.pieces)))
        self.has_jumped = self.first > shown  # no segment is common with the last playlist
        if self.has_jumped and is_lucky(rng, 0.15):
            self.origin.discontinuity += rng.choice((1, 1, 1000, 1000, 1001))
        self.ended = is_lucky(rng, 0.04)

    def lines(self) -> Lines:
        """The playlist now."""
        return self.origin.window(self.first, self.last, self.ended)


def renumbered(lines: Lines, name: str, change: int) -> Lines:
    """The lines with another number at a tag of the header, which may be left out if it is 0."""
    at = next((n for n, line in enumerate(lines) if line.startswith(f"#{name}:")), None)
    number = decimal_of(lines[at].partition(":")[2]) if at is not None else 0
    front = lines[:at] if at is not None else lines[:1]
    return [*front, f"#{name}:{max(0, (number or 0) + change)}", *lines[at + 1 if at is not None else 1:]]


def without_first_discontinuity(lines: Lines) -> Lines:
    """The first EXT-X-DISCONTINUITY is gone, and its number isn't raised."""
    at = next((n for n, line in enumerate(lines) if line == "#EXT-X-DISCONTINUITY"), None)
    return lines if at is None else lines[:at] + lines[at + 1:]


def changed_segment(rng: Random, lines: Lines) -> Lines:
    """A listed segment with another URI, duration, title or time, or with a key or a range that it hadn't."""
    places = [n for n, line in enumerate(lines) if line.startswith("#EXTINF")]
    at = rng.choice(places)
    return rng.choice((
        [*lines[:at], "#EXTINF:1.25,", *lines[at + 1:]],
        [*lines[:at], lines[at] + " other", *lines[at + 1:]],
        [*lines[:at + 1], "other.ts", *lines[at + 2:]],
        [*lines[:at], '#EXT-X-KEY:METHOD=AES-128,URI="other"', *lines[at:]],
        [*lines[:at], "#EXT-X-BYTERANGE:3@3", *lines[at:]],
        [*lines[:at], '#EXT-X-MAP:URI="other.mp4"', *lines[at:]],
        [*lines[:at], "#EXT-X-PROGRAM-DATE-TIME:2024-05-01T11:00:00Z", *lines[at:]],
        [*lines[:at], "#EXT-X-DISCONTINUITY", *lines[at:]],
    ))


WRONG: tuple[Callable[[Random, Lines], Lines], ...] = (
    lambda rng, lines: renumbered(lines, "EXT-X-VERSION", rng.choice((1, -1))),
    lambda rng, lines: renumbered(lines, "EXT-X-TARGETDURATION", 1),
    lambda rng, lines: [lines[0], "#EXT-X-PLAYLIST-TYPE:EVENT", *(line for line in lines[1:] if "PLAYLIST-TYPE" not in line)],
    lambda rng, lines: [line for line in lines if "X-MAP" not in line] if any("X-MAP" in line for line in lines)
    else [lines[0], '#EXT-X-MAP:URI="m.mp4"', *lines[1:]],
    lambda rng, lines: renumbered(lines, "EXT-X-MEDIA-SEQUENCE", rng.choice((-1, 1, 2, 5, 9))),
    lambda rng, lines: renumbered(lines, "EXT-X-DISCONTINUITY-SEQUENCE", rng.choice((1, -1, 999, 1000, 1001, 1002))),
    lambda rng, lines: lines[:-2] if not lines[-1].startswith("#") else lines[:-3] + lines[-1:],
    changed_segment, changed_segment,
    lambda rng, lines: lines[:-1] if lines[-1] == "#EXT-X-ENDLIST" else [*lines, "#EXT-X-ENDLIST"],
    lambda rng, lines: without_first_discontinuity(lines),
)


def origin_body(packager: Packager) -> bytes:
    """A refresh, which may have something wrong about it."""
    rng, lines = packager.rng, packager.lines()
    if is_lucky(rng, 0.09):
        lines = rng.choice(WRONG)(rng, lines)
    elif is_lucky(rng, 0.05):
        lines = rng.choice(rng.choice((GOOD, FAULTY)))(rng, lines)
    return text_of(lines or ["#EXTM3U"], rng)


def decisions_body(packager: Packager) -> bytes:
    """A decision file: for the breaks announced, for one of them, to withdraw one, or of any other kind."""
    rng, origin = packager.rng, packager.origin
    if origin.breaks and is_lucky(rng, 0.15):
        return withdrawal(rng.choice(origin.breaks)[0])
    if origin.breaks and is_lucky(rng, 0.5):
        name, length = origin.breaks[-1]
        return json_text(rng, {"breaks": [{"id": name, "ads": pod_ads(rng, origin.has_init_sections, origin.target, length)}]})
    if is_lucky(rng, 0.02):
        file: dict[str, object] = {}
        of_many_breaks(rng, file)
        return json_text(rng, file)
    return decision_file(rng, origin)


def channel_body(rng: Random) -> bytes:
    """The body that makes a channel."""
    body: dict[str, object] = {"base": rng.choice(BASES)}
    if is_lucky(rng, 0.15):
        body["tolerance"] = rng.choice(("0.1", "0", "10", "0.0999", "1"))
    return json.dumps(body, ensure_ascii=is_lucky(rng, 0.5)).encode()


def case(rng: Random) -> list[bytes]:
    """The requests to one channel, from its making on."""
    packager = Packager(rng)
    asked = [request("PUT", "/channels/a", channel_body(rng))]
    for _ in range(rng.choice((4, 6, 8, 12))):
        if is_lucky(rng, 0.5):
            asked.append(request("PUT", "/channels/a/decisions", decisions_body(packager)))
        asked.append(request("PUT", "/channels/a/origin", origin_body(packager)))
        asked.append(request("GET", "/channels/a/live.m3u8"))
        asked += [request("GET", "/channels/a/why")] if is_lucky(rng, 0.5) else []
        packager.move()
        packager.ahead()
    return asked
