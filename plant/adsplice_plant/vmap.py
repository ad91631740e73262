"""What a VMAP document says (IAB VMAP 1.0): the breaks of a programme on demand, each with where its ads come from."""
from __future__ import annotations

import re
from dataclasses import dataclass

from . import bounded_xml, vast
from .bounded_xml import Element, NoXml
from .playlist import SECOND

MOST_BREAKS = 64
OFFSET = re.compile(r"([0-9]{2}):([0-5][0-9]):([0-5][0-9])(?:\.([0-9]{1,3}))?")
SHARE = re.compile(r"([0-9]{1,3})(?:\.[0-9]+)?%")


@dataclass(frozen=True)
class AdBreak:
    """A break: its `id`, where it is (`offset`, in nanoseconds; none at the end), and its ads: a VAST document, or the URL of one (`tag`)."""

    id: str
    offset: int | None
    document: vast.Document | None
    tag: str


@dataclass(frozen=True)
class Breaks:
    """The breaks of a programme in the order of their offsets, and a sentence for each that is left out (`faults`)."""

    breaks: tuple[AdBreak, ...]
    faults: tuple[str, ...]


def read(body: bytes, length: int) -> Breaks:
    """What the VMAP document `body` says of a programme of `length` nanoseconds; raises NoXml if it isn't one."""
    root = bounded_xml.read(body)
    if root.name != "VMAP":
        raise NoXml(f"its first element is {root.name[:40]}, and not VMAP")
    if not root.attributes.get("version", "1.0").startswith("1"):
        raise NoXml(f"it is VMAP {root.attributes['version'][:20]}; 1.0 is read")
    found: list[AdBreak] = []
    faults: list[str] = []
    names: set[str] = set()
    for place, it in enumerate(root.each("AdBreak"), 1):
        name = unused(vast.clean_id(it.attributes.get("breakId", "")).replace('"', "") or f"break-{place}", names)
        try:
            if place > MOST_BREAKS:
                raise vast.Unusable(f"a programme has at most {MOST_BREAKS} breaks")
            found.append(break_of(it, name, length))
        except (vast.Unusable, NoXml) as fault:
            faults.append(f"AdBreak {name}: {fault}")
    return Breaks(tuple(sorted(found, key=lambda it: length + 1 if it.offset is None else it.offset)), tuple(faults))


def unused(name: str, names: set[str]) -> str:
    """The `name`, or another one if it is among `names`, to which it is added."""
    found = name if name not in names else next(it for n in range(2, MOST_BREAKS + len(names) + 3) if (it := f"{name}-{n}") not in names)
    names.add(found)
    return found


def break_of(it: Element, name: str, length: int) -> AdBreak:
    """The break of the AdBreak element `it`, which is called `name`, in a programme of `length` nanoseconds; raises Unusable or NoXml."""
    kinds = {kind.strip() for kind in it.attributes.get("breakType", "linear").split(",")}
    if "linear" not in kinds:
        raise vast.Unusable(f"breakType is {', '.join(sorted(kinds))[:60]}; linear breaks are filled")
    offset = offset_of(it.attributes.get("timeOffset", "").strip(), length)
    source = it.child("AdSource")
    if source is None:
        raise vast.Unusable("AdSource is missing")
    for kind in ("VASTAdData", "VASTData"):
        if (data := source.child(kind)) is not None and (root := data.child("VAST")) is not None:
            return AdBreak(name, offset, vast.document_of(root), "")
    tag = source.child("AdTagURI")
    if tag is None or not (url := vast.url_of(tag)):
        raise vast.Unusable("AdSource has neither VASTAdData nor an AdTagURI that is a URL")
    return AdBreak(name, offset, None, url)


def offset_of(text: str, length: int) -> int | None:
    """The timeOffset `text` in a programme of `length` nanoseconds; none for its end. Raises Unusable."""
    if text in ("start", "end"):
        return 0 if text == "start" else None
    if (said := OFFSET.fullmatch(text)) is not None:
        hours, minutes, seconds, parts = said.groups()
        return ((int(hours) * 60 + int(minutes)) * 60 + int(seconds)) * SECOND + int((parts or "0").ljust(3, "0")) * (SECOND // 1000)
    if SHARE.fullmatch(text) and (share := float(text[:-1])) <= 100:
        return int(length * share / 100)
    raise vast.Unusable(f"timeOffset {text[:40]!r} isn't start, end, HH:MM:SS or a percentage")
