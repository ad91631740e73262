"""What a rendition is like, as far as its master playlist says so (RFC 8216, 4.3.4), and how long its segments are: for who decides its breaks."""
from __future__ import annotations

import re
from collections import Counter
from collections.abc import Iterable, Sequence
from typing import NamedTuple

from .packaged import PackagedSegment, attributes_of

VARIANT, MEDIA = "#EXT-X-STREAM-INF:", "#EXT-X-MEDIA:"
AUDIO, VIDEO = "AUDIO", "VIDEO"
SIZE = re.compile(r"[0-9]{1,5}x[0-9]{1,5}")
CODECS = re.compile(r"[\x21-\x7e]{1,200}")
SOUND = ("mp4a", "ac-3", "ec-3", "ac-4", "opus", "flac", "alac", "mhm1", "mhm2", "dtsc", "dtse", "dtsx")  # what codecs of sound begin with (RFC 6381, 3.3)


class Traits(NamedTuple):
    """Of a rendition: its `kind` (AUDIO, VIDEO, SUBTITLES), its `codecs`, and the `size` of its pictures, as 1920x1080; each is empty if it isn't
    known."""

    kind: str = ""
    codecs: str = ""
    size: str = ""


def is_sound(codec: str) -> bool:
    """Whether the `codec` is one of sound."""
    return codec.lower().startswith(SOUND)


def of_variant(said: dict[str, str]) -> Traits:
    """What the variant is like of which EXT-X-STREAM-INF has `said` so (4.3.4.2). One whose codecs are all of sound has no pictures."""
    codecs = said.get("CODECS", "").replace(" ", "")
    codecs = codecs if CODECS.fullmatch(codecs) else ""
    size = said.get("RESOLUTION", "")
    size = size if SIZE.fullmatch(size) else ""
    kind = VIDEO if size or any(not is_sound(it) for it in codecs.split(",") if it) else AUDIO if codecs else ""
    return Traits(kind, codecs, size)


def traits_of(lines: Iterable[tuple[str, str]]) -> dict[str, Traits]:
    """What each rendition is like, by its URI. `lines`: those of the master playlist, each with the rendition's URI that is in it, if there is one. The
    codecs of a group of sound are those of sound in the variants that name it."""
    found: dict[str, Traits] = {}
    groups: dict[str, list[str]] = {}  # the URIs of each group of sound
    sounds: dict[str, str] = {}  # its codecs
    variant: dict[str, str] | None = None
    for line, uri in lines:
        if line.startswith(VARIANT):
            variant = attributes_of(line.partition(":")[2])
            codecs = ",".join(it for it in of_variant(variant).codecs.split(",") if is_sound(it))
            if codecs:
                sounds.setdefault(variant.get("AUDIO", ""), codecs)
        elif line.startswith(MEDIA) and uri:
            said = attributes_of(line.partition(":")[2])
            found.setdefault(uri, Traits(said.get("TYPE", "")))
            if said.get("TYPE") == AUDIO:
                groups.setdefault(said.get("GROUP-ID", ""), []).append(uri)
        elif line[:1] != "#" and uri and variant is not None:
            found.setdefault(uri, of_variant(variant))
            variant = None
    for group, uris in groups.items():
        for uri in uris:
            found[uri] = found[uri]._replace(codecs=found[uri].codecs or sounds.get(group, ""))
    return found


def cut_near(segments: Sequence[PackagedSegment], instant: int) -> int | None:
    """How many nanoseconds after the `instant` that one of the `segments` begins that is nearest to it, or the one that will come after them; none if that
    is more than half a segment, or isn't known."""
    begins = [it.begins for it in segments if it.begins is not None]
    if segments and segments[-1].begins is not None:
        begins.append(segments[-1].begins + segments[-1].duration)
    found = min((it - instant for it in begins), key=abs, default=None)
    return found if found is not None and 2 * abs(found) <= usual_length(segments) else None


def usual_length(segments: Iterable[PackagedSegment]) -> int:
    """How long the `segments` are as a rule, in nanoseconds; 0 if there are none. Of lengths that are as frequent it is the longest."""
    counts = Counter(it.duration for it in segments)
    return max(counts, key=lambda it: (counts[it], it), default=0)
