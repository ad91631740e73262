"""What a VAST document says (IAB VAST 2.0 to 4.2): its ads and its wrappers, as values. What is wrong with an ad leaves that one out."""
from __future__ import annotations

import hashlib
import re
from collections.abc import Iterator
from dataclasses import dataclass, replace

from . import bounded_xml
from .bounded_xml import Element, NoXml
from .playlist import SECOND

VERSIONS = ("2", "3", "4")
MOST_ADS = 64  # of a document
MOST_URLS = 64  # of each kind that an ad has
LONGEST_URL = 8192
LONGEST_ID = 100
LONGEST_AD = 3600 * SECOND
DURATION = re.compile(r"([0-9]{2}):([0-5][0-9]):([0-5][0-9])(?:\.([0-9]{1,3}))?")
EVENTS = ("start", "firstQuartile", "midpoint", "thirdQuartile", "complete")  # of an ad that is shown whole
UNNAMED = ("", "unknown")  # texts of UniversalAdId that name nothing


class Unusable(Exception):
    """An ad that can't be shown: the text says which element is why."""


@dataclass(frozen=True)
class MediaFile:
    """A file of an ad: its `url` and `type`, its rate in kbit/s (0 if it isn't said), and whether it is the mezzanine."""

    url: str
    type: str
    bitrate: int = 0
    is_mezzanine: bool = False


@dataclass(frozen=True)
class Tracked:
    """The URLs that are to be called for an ad: `impressions`, `errors`, and `events`, each with its name."""

    impressions: tuple[str, ...] = ()
    errors: tuple[str, ...] = ()
    events: tuple[tuple[str, str], ...] = ()

    def and_of(self, other: Tracked) -> Tracked:
        """These and those of `other`, of each kind MOST_URLS at most."""
        return Tracked((self.impressions + other.impressions)[:MOST_URLS], (self.errors + other.errors)[:MOST_URLS], (self.events + other.events)[:MOST_URLS])


@dataclass(frozen=True)
class Ad:
    """An ad with a linear creative: the `id` by which it is known, its place in the pod (`sequence`; none for a stand-alone ad), how long it lasts
    in nanoseconds, its `files`, the best one first, and what is to be called for it."""

    id: str
    sequence: int | None
    length: int
    files: tuple[MediaFile, ...]
    tracked: Tracked = Tracked()


@dataclass(frozen=True)
class Wrapper:
    """A reference to another document, at the URL `tag`: its `id` and `sequence`, whether wrappers in that are followed (`follows`), whether that may
    have `several` ads, whether a stand-alone ad stands in if that has none (`falls_back`), and what is to be called for each of its ads."""

    id: str
    sequence: int | None
    tag: str
    follows: bool = True
    several: bool = False
    falls_back: bool = True
    tracked: Tracked = Tracked()


@dataclass(frozen=True)
class Document:
    """A VAST document: its ads and wrappers in their order, the URLs to be called if it has none (`errors`), and a sentence for each ad that is
    left out (`faults`)."""

    ads: tuple[Ad | Wrapper, ...] = ()
    errors: tuple[str, ...] = ()
    faults: tuple[str, ...] = ()

    def pod(self) -> list[Ad | Wrapper]:
        """Those that have a place in the pod, by their sequence."""
        return sorted((it for it in self.ads if it.sequence is not None), key=lambda it: it.sequence or 0)

    def stand_alone(self) -> list[Ad | Wrapper]:
        """Those that have none."""
        return [it for it in self.ads if it.sequence is None]


def read(body: bytes) -> Document:
    """What the VAST document `body` says; raises NoXml if it isn't one."""
    return document_of(bounded_xml.read(body))


def document_of(root: Element) -> Document:
    """What the VAST element `root` says; raises NoXml if it is none of a version that is read."""
    if root.name != "VAST":
        raise NoXml(f"its first element is {root.name[:40]}, and not VAST")
    version = root.attributes.get("version", "")
    if version and version.partition(".")[0] not in VERSIONS:
        raise NoXml(f"it is VAST {version[:20]}; 2.0 to 4.2 are read")
    ads: list[Ad | Wrapper] = []
    faults: list[str] = []
    for place, it in enumerate(root.each("Ad"), 1):
        if place > MOST_ADS:
            faults.append(f"it has over {MOST_ADS} ads; the others are left out")
            break
        try:
            ads.append(ad_of(it, place))
        except Unusable as fault:
            faults.append(f"ad {name_of(it, place)}: {fault}")
    return Document(tuple(ads), urls_of(root.each("Error")), tuple(faults))


def name_of(it: Element, place: int) -> str:
    """What the ad `it`, the one of the `place`, is called if something is wrong with it."""
    return (clean_id(it.attributes.get("id", "")) or f"number {place}")[:LONGEST_ID]


def clean_id(text: str) -> str:
    """The ID `text` without blanks and what can't be printed, LONGEST_ID characters at most."""
    return "".join(it for it in text.strip() if it.isprintable())[:LONGEST_ID]


def ad_of(it: Element, place: int) -> Ad | Wrapper:
    """The ad or the wrapper that the Ad element `it` says, which is the one of the `place`; raises Unusable."""
    sequence = number_of(it.attributes.get("sequence", ""))
    if (inline := it.child("InLine")) is not None:
        return inline_of(inline, name_of(it, place), sequence)
    if (wrapper := it.child("Wrapper")) is not None:
        return wrapper_of(wrapper, name_of(it, place), sequence)
    raise Unusable("it has neither InLine nor Wrapper")


def number_of(text: str) -> int | None:
    """The whole number `text` from 0 on; none if it isn't one."""
    text = text.strip()
    return int(text) if text.isascii() and text.isdigit() and len(text) <= 9 else None


def is_yes(it: Element, name: str, usual: bool) -> bool:
    """Whether the attribute `name` of `it` is true (or 1), or what is `usual` if it says neither."""
    said = it.attributes.get(name, "").strip().lower()
    return said in ("true", "1") if said in ("true", "1", "false", "0") else usual


def url_of(it: Element) -> str:
    """The URL in the element `it`; empty if it has none that is asked by HTTP."""
    found = it.text()
    is_right = found.lower().startswith(("http://", "https://")) and len(found) <= LONGEST_URL and found.isprintable() and " " not in found
    return found if is_right else ""


def urls_of(elements: Iterator[Element]) -> tuple[str, ...]:
    """The URLs in `elements`, MOST_URLS at most."""
    return tuple(url for it in elements if (url := url_of(it)))[:MOST_URLS]


def tracked_of(it: Element) -> Tracked:
    """What the InLine or Wrapper element `it` has called."""
    events = [(name, url) for one in it.each("Creatives", "Creative", "Linear", "TrackingEvents", "Tracking")
              if (name := one.attributes.get("event", "")) in EVENTS and (url := url_of(one))]
    return Tracked(urls_of(it.each("Impression")), urls_of(it.each("Error")), tuple(events[:MOST_URLS]))


def wrapper_of(it: Element, name: str, sequence: int | None) -> Wrapper:
    """The wrapper of the Wrapper element `it`, by its `name` and `sequence`; raises Unusable."""
    tag = it.child("VASTAdTagURI")
    if tag is None or not (url := url_of(tag)):
        raise Unusable("VASTAdTagURI is missing, or isn't a URL that begins with http:// or https://")
    return Wrapper(name, sequence, url, is_yes(it, "followAdditionalWrappers", True), is_yes(it, "allowMultipleAds", False),
                   is_yes(it, "fallbackOnNoAd", True), tracked_of(it))


def inline_of(it: Element, name: str, sequence: int | None) -> Ad:
    """The ad of the InLine element `it`, by its `name` and `sequence`: its first linear creative. Raises Unusable."""
    creative = next((one for one in it.each("Creatives", "Creative") if one.child("Linear") is not None), None)
    linear = None if creative is None else creative.child("Linear")
    if creative is None or linear is None:
        raise Unusable("it has no Linear: ads beside the picture aren't shown")
    length = length_of(linear)
    files = files_of(linear)
    return Ad(id_of(creative, name, files[0]), sequence, length, files, tracked_of(it))


def length_of(linear: Element) -> int:
    """The Duration of the element `linear` in nanoseconds; raises Unusable."""
    found = linear.child("Duration")
    if found is None:
        raise Unusable("Duration is missing")
    said = DURATION.fullmatch(found.text())
    if said is None:
        raise Unusable(f"Duration {found.text()[:40]!r} isn't HH:MM:SS or HH:MM:SS.mmm")
    hours, minutes, seconds, parts = said.groups()
    length = ((int(hours) * 60 + int(minutes)) * 60 + int(seconds)) * SECOND + int((parts or "0").ljust(3, "0")) * (SECOND // 1000)
    if not 0 < length <= LONGEST_AD:
        raise Unusable(f"Duration {found.text()} isn't above 0, of at most an hour")
    return length


def files_of(linear: Element) -> tuple[MediaFile, ...]:
    """The files of the element `linear` that can be made into segments, the best one first: the mezzanine, and then the progressive ones by their
    rate. Raises Unusable if there is none."""
    found, others = [], []
    for it in [*linear.each("MediaFiles", "Mezzanine"), *linear.each("MediaFiles", "MediaFile")]:
        kind, is_mezzanine = it.attributes.get("type", "").strip().lower(), it.name == "Mezzanine"
        if it.attributes.get("apiFramework") or not kind.startswith("video/") or it.attributes.get("delivery", "progressive").strip().lower() == "streaming":
            others.append(it.attributes.get("apiFramework") or kind or "no type")
        elif url := url_of(it):
            found.append(MediaFile(url, kind, number_of(it.attributes.get("bitrate", "")) or 0, is_mezzanine))
        else:
            others.append(f"{kind} without a URL")
    if not found:
        raise Unusable(f"MediaFiles has no progressive video{': ' + ', '.join(dict.fromkeys(others))[:100] if others else ''}")
    return tuple(sorted(found[:MOST_URLS], key=lambda it: (not it.is_mezzanine, -it.bitrate)))


def id_of(creative: Element, name: str, file: MediaFile) -> str:
    """By what the ad of the element `creative` is known: UniversalAdId, or else the creative's own ID; a hash of the `file` if the ad has a number for
    a `name`."""
    for it in creative.each("UniversalAdId"):
        for text in (it.text(), it.attributes.get("idValue", "")):
            if (found := clean_id(text)).lower() not in UNNAMED:
                return found
    for key in ("adId", "AdID", "adID", "id"):
        if found := clean_id(creative.attributes.get(key, "")):
            return found
    return name if not name.startswith("number ") else hashlib.sha256(file.url.encode()).hexdigest()[:16]


def wrapped(ad: Ad, wrapper: Wrapper) -> Ad:
    """The `ad` that came by the `wrapper`: in the wrapper's place, and with what that has called."""
    return replace(ad, sequence=wrapper.sequence, tracked=wrapper.tracked.and_of(ad.tracked))
