"""Runs with a decision file: breaks that are filled, and those that aren't, files with each fault, and files at each limit."""
from __future__ import annotations

import json
from collections.abc import Callable
from random import Random
from typing import Any

from adsplice_rules.decisions import MOST_DECIDED, MOST_POD_SEGMENTS

from .common import BASES, Origin, is_lucky, json_text, pod_ads, text_of
from .playlists import FAULTY, GOOD

BAD_URIS = ("ftp://x/", "http://", "https:/x", "http://a b", "http://é/", 'http://a"', "HTTP://x/", "", "http://\u007f", "http:// ")
GOOD_URIS = ("http://x", "https://x.example/~%41?#@!'", "http://" + "y" * 60)
BAD_DURATIONS = ("", ".", "1000000", "-1", "1e1", "ten")
NO_NUMBERS = (1.0, -1, "5", None, 2**64, True, 1e0)
WRONG: tuple[Any, ...] = (None, 7, "x", [], {}, True, ["x"], {"uri": 1}, {"ads": []}, {"segments": []})
BAD_IDS = ("", 'a"b', "a\tb", "a\u0085b", "é" * 128, "x" * 256)
LONG_IDS = ("x" * 255, "é" * 127 + "y")
SPOILED = (b"", b"{", b"[]", b"null", b'"x"', b"\xff", b"\xef\xbb\xbf{}", b'{"breaks":[]} x', b'{"breaks":[],}', b"{'breaks':[]}",
           b'{"withdraw":"\\ud800"}', b'{"a":1e999,"breaks":[]}', b'{"a":NaN,"breaks":[]}', b'{"a":01,"breaks":[]}',
           b'{"a":"\x01","breaks":[]}', b'{"a":' + b"1" * 400 + b',"breaks":[]}', b'{"a":-1e400,"breaks":[]}', b'{"a":"\\x","breaks":[]}',
           b'{"a":1.7976931348623159e308,"breaks":[]}')
ODD = (b'{"breaks":[]}', b'{"breaks":7,"breaks":[]}', b'{"withdraw":"q"}', b'{"withdraw":7}', b'{"withdraw":""}', b'{"fallback":null}',
       b'{"fallback":{"ads":[]}}', b'{"fallback":{"ads":7}}', b'{"fallback":7}', b'{"fallback":null,"withdraw":"b1"}',
       b'{"breaks":[],"fallback":null}', b'{"a":-0,"b":1.5e3,"breaks":[ ] }', b'{"a":"\\ud83d\\ude00","breaks":[]}', b'{"breaks":null}',
       b'{"breaks":{}}', b'{"br\\u0065aks":[]}', b"{}", b'{"a":1.7976931348623157e308,"breaks":[]}')


def nested(depth: int) -> bytes:
    """A file with an unknown member that makes it nest so many levels."""
    return b'{"a":' + b"[" * (depth - 1) + b"]" * (depth - 1) + b',"breaks":[]}'


def walk(value: Any) -> list[tuple[Any, Any]]:
    """Each place in a JSON value: what holds it, and under which name or number."""
    found: list[tuple[Any, Any]] = []
    for name, member in list(value.items()) if isinstance(value, dict) else list(enumerate(value)) if isinstance(value, list) else []:
        found += [(value, name), *walk(member)]
    return found


def put_wrong(rng: Random, file: dict[str, Any]) -> None:
    """One value in the file becomes a wrong or an odd one."""
    holder, name = rng.choice(walk(file))
    choices = {"uri": (*BAD_URIS, *GOOD_URIS), "duration": BAD_DURATIONS, "offset": NO_NUMBERS, "length": (*NO_NUMBERS, 2**64 - 1),
               "id": (*BAD_IDS, *LONG_IDS, "b1"), "method": ("NONE", "", "aes", "A B", "AES-256"), "format": ("", 'a"', "\x01", None, "f"),
               "iv": ("1", "0x", "0x" + "0" * 33, "0xg", "0X" + "F" * 32)}
    if is_lucky(rng, 0.3) and isinstance(holder, dict):
        del holder[name]
    else:
        holder[name] = rng.choice(choices.get(name, WRONG) if is_lucky(rng, 0.7) else WRONG)


def of_many_segments(rng: Random, file: dict[str, Any]) -> None:
    """A break of as many segments as it may have, or of one more, in one ad or in two."""
    if isinstance(file.get("breaks"), list) and file["breaks"]:
        one = {"uri": "http://a", "duration": "1"}
        count = rng.choice((MOST_POD_SEGMENTS, MOST_POD_SEGMENTS + 1))
        cut = rng.choice((count, 250))
        ads = [{"segments": [one] * size} for size in (cut, count - cut) if size]
        file["breaks"][0] = {"id": "b1", "ads": ads}


def of_many_breaks(rng: Random, file: dict[str, Any]) -> None:
    """A file of as many breaks as are decided at most, or of one more."""
    ads = [{"segments": [{"uri": "http://a", "duration": "1"}]}]
    file.clear()
    file["breaks"] = [{"id": f"n{n}", "ads": ads} for n in range(rng.choice((MOST_DECIDED, MOST_DECIDED + 1)))]


def file_for(rng: Random, origin: Origin) -> dict[str, Any]:
    """A decision file for the breaks of an origin, or a fallback."""
    if is_lucky(rng, 0.25):
        length = rng.choice([length for _, length in origin.breaks] or [10**10])
        return {"fallback": {"ads": pod_ads(rng, origin.has_init_sections, origin.target, length)}}
    breaks = origin.breaks + ([("q", 10**10)] if is_lucky(rng, 0.2) else [])
    made = [{"id": name, "ads": pod_ads(rng, origin.has_init_sections, origin.target, length)} for name, length in breaks if not is_lucky(rng, 0.1)]
    return {"breaks": made} | ({"unknown": [1, {"x": None}]} if is_lucky(rng, 0.1) else {})


ABOUT: tuple[tuple[float, Callable[[Random, dict[str, Any]], None]], ...] = (
    (0.2, put_wrong), (0.01, of_many_segments), (0.01, of_many_breaks))


def decision_file(rng: Random, origin: Origin) -> bytes:
    """The bytes of a decision file, good or not."""
    if is_lucky(rng, 0.06):
        return rng.choice((*SPOILED, *ODD, nested(127), nested(128), nested(3)))
    file = file_for(rng, origin)
    for share, change in ABOUT:
        if is_lucky(rng, share):
            change(rng, file)
    return json_text(rng, file)


def origin_with_breaks(rng: Random) -> Origin:
    """An origin of several segments and some breaks."""
    origin = Origin(rng, is_lucky(rng, 0.7))
    origin.grow(rng.choice((3, 5, 8, 12)))
    for _ in range(rng.choice((1, 1, 2, 3))):
        origin.add_break(rng.randrange(len(origin.pieces)), rng.choice((1, 2, 3, 4)))
    if is_lucky(rng, 0.15):
        origin.ranges.append(origin.more_said(rng.choice(origin.breaks)[0]))
    return origin


def case(rng: Random) -> tuple[str, bytes, bytes]:
    """A run: its base, its input, and its decision file."""
    origin = origin_with_breaks(rng)
    lines = origin.window(0, len(origin.pieces) - 1, is_lucky(rng, 0.6))
    if is_lucky(rng, 0.15):
        lines = rng.choice(GOOD)(rng, lines)
    if is_lucky(rng, 0.05):
        lines = rng.choice(FAULTY)(rng, lines)
    base = rng.choice(("ftp://h/", "")) if is_lucky(rng, 0.01) else rng.choice(BASES)
    return base, text_of(lines, rng), decision_file(rng, origin)


def withdrawal(name: str) -> bytes:
    """A decision file that takes a pod back."""
    return json.dumps({"withdraw": name}, ensure_ascii=False).encode()
