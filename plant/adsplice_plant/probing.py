"""What ffprobe says: of an ad's file, and of the segments of a ladder."""
from __future__ import annotations

import json
import os
import tempfile
import urllib.parse
from collections.abc import Mapping
from dataclasses import dataclass, replace
from fractions import Fraction
from pathlib import Path
from typing import Any

from . import download, ladders, packaged, playlist, urls
from .ad_server import Asking
from .children import Children
from .conditioning import FORMATS, READS
from .ladders import FMP4, LARGEST, TEXT, TS, Ladder, Rendition
from .outside import Outside
from .playlist import SECOND, Listed
from .words import Fault

SECONDS = 20.0  # for a look at a file
MEDIA, VARIANT, KEY = "#EXT-X-MEDIA:", "#EXT-X-STREAM-INF:", "#EXT-X-KEY:"
KEY_BYTES = 16
TEXTS = (".vtt", ".webvtt")


@dataclass(frozen=True)
class Source:
    """An ad's file: how long it lasts in nanoseconds, and whether it has pictures and sound."""

    length: int
    has_picture: bool
    has_sound: bool


@dataclass(frozen=True)
class Key:
    """What decrypts a segment under AES-128 (RFC 8216, 4.3.2.4): the `key` and the initialization vector (`vector`), of 16 bytes each."""

    key: bytes
    vector: bytes

    def reads(self) -> list[str]:
        """The words by which ffprobe reads a file under it. (Other users of the machine see them for a moment; each viewer has the key, too.)"""
        return ["-protocol_whitelist", "file,crypto", "-format_whitelist", FORMATS, "-decryption_key", self.key.hex(), "-decryption_iv", self.vector.hex()]


def looked_at(children: Children, path: Path, seconds: float = SECONDS, key: Key | None = None) -> dict[str, Any]:
    """What ffprobe, one of `children`, says of the file at `path` within `seconds`, which is under the `key` if there is one; raises Fault."""
    words = [*READS, str(path)] if key is None else [*key.reads(), f"crypto:{path}"]
    status, out, said = children.run(["ffprobe", "-v", "error", *words[:-1], "-of", "json", "-show_streams", "-show_format", words[-1]], seconds)
    try:
        found = json.loads(out)
    except ValueError:
        found = None
    if status or not isinstance(found, dict) or not isinstance(found.get("streams"), list):
        raise Fault(f"ffprobe can't read the file: {said.replace(str(path), 'it') or f'status {status}'}")
    return found


def source_of(children: Children, path: Path) -> Source:
    """What the ad's file at `path` has, by ffprobe as one of `children`; raises Fault if no ad can be made of it."""
    found = looked_at(children, path)
    streams = [it for it in found["streams"] if isinstance(it, dict)]
    picture = next((it for it in streams if it.get("codec_type") == "video"), None)
    sound = next((it for it in streams if it.get("codec_type") == "audio"), None)
    if picture is not None and max(number(picture.get("width")), number(picture.get("height"))) > LARGEST:
        raise Fault(f"its pictures have a side of over {LARGEST} points")
    lengths = [number(it.get("duration")) for it in (picture, sound, found.get("format")) if isinstance(it, dict)]
    length = next((it for it in lengths if it > 0), 0)
    if not 0 < length <= 3600:
        raise Fault("it doesn't say how long it lasts, or lasts over an hour")
    if picture is None and sound is None:
        raise Fault("it has neither pictures nor sound")
    return Source(int(length * SECOND), picture is not None, sound is not None)


def number(text: Any) -> Fraction:
    """The number that ffprobe gives as `text`; 0 if it gives none."""
    try:
        return Fraction(str(text))
    except (ValueError, ZeroDivisionError):
        return Fraction(0)


# ---- ladders

class Prober:
    """Looks at the renditions of a ladder: `client` asks for their lists and a segment of each, and ffprobe runs as one of `children`. `redirects`
    says whether a list may name segments of other hosts."""

    def __init__(self, children: Children, client: Asking, redirects: bool) -> None:
        self.children, self.client, self.redirects = children, client, redirects

    def body(self, place: str) -> bytes:
        """The bytes of the list at `place`, a URL or a file; raises Fault."""
        if not place.startswith(("http://", "https://")):
            try:
                return Path(place).read_bytes()
            except OSError as fault:
                raise Fault(f"{place}: {fault.strerror}") from None
        answer = self.client.ask("GET", place)
        if answer.status != 200:
            raise Fault(f"{place}: {answer.why or f'it answers {answer.status}'}")
        return answer.body

    def ladder(self, places: Mapping[str, str], bases: Mapping[str, str]) -> Ladder:
        """The ladder whose renditions have their lists at `places`, by their names, of which `bases` has the URLs of some under which they are published.
        Raises Fault with the rendition that can't be looked at."""
        found: dict[str, Rendition] = {}
        pieces: dict[str, int] = {}
        leads: dict[str, int] = {}
        for name, place in places.items():
            try:
                body = self.body(place)
                if b"\n#EXT-X-STREAM-INF" in body:
                    raise Fault(f"{place} is a master playlist; name its renditions, or let it be the one place")
                listed = playlist.read(body)
                pieces[name] = ladders.piece_of(listed)
                found[name], begins = self.rendition(bases.get(name, place), body.decode("utf-8", "replace"), listed)
                if begins is not None and listed.segments[-1].begins is not None:
                    leads[name] = begins - listed.segments[-1].begins
            except Fault as fault:
                raise Fault(f"rendition {name}: {fault}") from None
        seen = [pieces[name] for name, it in found.items() if it.picture] or list(pieces.values())
        it = Ladder(seen[0], found)
        return ladders.checked(replace(it, shift=ladders.shift_of(it.cut_apart(leads))))

    def rendition(self, place: str, text: str, listed: Listed) -> tuple[Rendition, int | None]:
        """What the rendition is like whose list, by the file or the URL `place`, is `text`, and says `listed`; and at how many nanoseconds its newest segment begins by its
        timestamps, if they say that. Raises Fault."""
        newest = listed.segments[-1]
        parts = urls.parts_of(newest.uri)
        if parts is not None and parts.path.lower().endswith(TEXTS):
            return Rendition(TEXT), None
        section = [line for line in text.splitlines() if line.startswith(ladders.TAG)]
        key = self.key(place, text, newest.number, bool(section))
        data = b""
        if section:
            said = packaged.attributes_of(section[-1].partition(":")[2])
            begin, count = range_of(said.get("BYTERANGE", ""))
            data = self.part(place, said.get("URI", ""), begin, count)[0]
        begin, length = last_range(text)
        segment, size = self.part(place, newest.uri, begin, min(length or download.PIECE, download.PIECE))
        bits = int(Fraction((length or size) * 8 * SECOND, max(newest.duration, 1)))
        streams = self.streams(data + segment, key)
        begins = next((it.get("start_time") for kind in ("video", "audio") for it in streams if it.get("codec_type") == kind), None)
        return ladders.probed(streams, FMP4 if section else TS, bits), round(number(begins) * SECOND) if begins is not None else None

    def key(self, place: str, text: str, number: int, has_section: bool) -> Key | None:
        """What decrypts the newest segment of the list `text` at `place`, which has the media `number`; none if it is clear. `has_section`: it has an
        initialisation section. Raises Fault if that can't be had."""
        said = keys_of(text)
        if not said:
            return None
        one = said[-1]
        if any(it.get("METHOD") != "AES-128" or it.get("KEYFORMAT", "identity") != "identity" for it in said) or has_section:
            raise Fault(f"its segments are under {one.get('METHOD', '')[:20]}{' with an initialisation section' if has_section else ''}, so ffprobe can't read them: "
                        "write its profile by hand")
        key, _ = self.part(place, one.get("URI", ""), 0, KEY_BYTES)
        vector = one.get("IV", "")[2:].rjust(2 * KEY_BYTES, "0") if "IV" in one else f"{number:032x}"
        if len(key) != KEY_BYTES or len(vector) != 2 * KEY_BYTES or not set(vector) <= set("0123456789abcdefABCDEF"):
            raise Fault("its key, or the IV, hasn't 16 bytes")
        return Key(key, bytes.fromhex(vector))

    def part(self, place: str, uri: str, begin: int, count: int) -> tuple[bytes, int]:
        """So many bytes (`count`) of what the `uri` in the list at `place` names, from `begin` on, and how many bytes that has; raises Fault."""
        if place.startswith(("http://", "https://")):
            url = urls.joined(place, uri)
            if url is None:
                raise Fault(f"a segment isn't read, {uri[:100]!r}: it isn't a URL")
            if why := Outside(place, self.redirects).strays(url):
                raise Fault(f"a segment isn't read, {uri[:100]!r}: {why}")
            return download.front(self.client, url, begin, count)
        path = Path(place).parent / os.path.normpath(urllib.parse.unquote(uri.partition("?")[0]))
        try:
            with open(path, "rb") as it:
                it.seek(begin)
                return it.read(count), path.stat().st_size
        except OSError as fault:
            raise Fault(f"{path}: {fault.strerror}") from None

    def streams(self, data: bytes, key: Key | None) -> list[dict[str, Any]]:
        """What ffprobe says of the streams in the bytes `data`, which are under the `key` if there is one; raises Fault."""
        with tempfile.NamedTemporaryFile(prefix="adsplice-") as it:
            it.write(data if key is None else data[:len(data) // KEY_BYTES * KEY_BYTES])
            it.flush()
            return [one for one in looked_at(self.children, Path(it.name), key=key)["streams"] if isinstance(one, dict)]


def keys_of(text: str) -> list[dict[str, str]]:
    """What the EXT-X-KEY tags say that are in force for the last segment of the list `text`; nothing if it is clear."""
    found: list[dict[str, str]] = []
    for line in text.splitlines():
        if line.startswith(KEY):
            said = packaged.attributes_of(line.partition(":")[2])
            found = [] if said.get("METHOD") == "NONE" else [*(it for it in found if it.get("KEYFORMAT") != said.get("KEYFORMAT")), said]
    return found


def range_of(text: str) -> tuple[int, int]:
    """Where the byte range `text` begins, and how many bytes it has: PIECE, if it says none."""
    count, _, begin = text.partition("@")
    return int(begin) if begin.isdigit() else 0, min(int(count), download.PIECE) if count.isdigit() else download.PIECE


def last_range(text: str) -> tuple[int, int]:
    """Where the last segment of the list `text` begins in its file, and how many bytes it has; 0 if it is all of it."""
    begin, count, end = 0, 0, 0
    for line in text.splitlines():
        if line.startswith("#EXT-X-BYTERANGE:"):
            said, _, at = line.partition(":")[2].partition("@")
            begin = int(at) if at.isdigit() else end
            count = int(said) if said.isdigit() else 0
            end = begin + count
    return begin, count


def renditions_of(master: bytes, place: str, names: list[str]) -> dict[str, str]:
    """Where the renditions of the master playlist `master` at `place` have their lists, by `names`, or by 1, 2 .. if there are none: variants and
    groups in the order in which it names them. Raises Fault if there are other names."""
    uris: list[str] = []
    is_variant = False
    for line in master.decode("utf-8", "replace").splitlines():
        said = packaged.attributes_of(line.partition(":")[2]) if line.startswith(MEDIA) else {}
        uri = said.get("URI", "") if said.get("TYPE") in ("AUDIO", "VIDEO", "SUBTITLES") else line if is_variant and line and line[0] != "#" else ""
        if uri and uri not in uris:
            uris.append(uri)
        is_variant = line.startswith(VARIANT) or (is_variant and line[:1] == "#")
    if not uris:
        raise Fault(f"{place} names no rendition")
    if names and len(names) != len(uris):
        raise Fault(f"{len(names)} names are given, and {place} has {len(uris)} renditions: {' '.join(uris)[:300]}")
    whole = (urls.joined_or_same(place, it) if place.startswith(("http://", "https://")) else str(Path(place).parent / it) for it in uris)
    return dict(zip(names or [str(n) for n in range(1, len(uris) + 1)], whole))


def is_master(body: bytes) -> bool:
    """Whether the list `body` is a master playlist."""
    return VARIANT.encode() in body

