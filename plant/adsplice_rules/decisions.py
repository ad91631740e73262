"""Decision files (docs/operating/faults.md and docs/decisions.schema.json) and the store of decided breaks."""
from __future__ import annotations

import json
import re
from dataclasses import dataclass, replace
from typing import Any

from .attributes import decimal_of, hexadecimal_of, is_name
from .lines import has_control
from .times import duration_of, rounded_seconds
from .values import PAST, Fault, InitSection, Key, Keys, Range

MOST_DECIDED = 256
MOST_POD_SEGMENTS = 500
DEEPEST = 127  # nested arrays and objects of a JSON text


# ---- JSON (RFC 8259)

class Numeral(str):
    """A JSON number, as it stands."""


def numeral(text: str) -> Numeral:
    """A number; one that is too large for a double is refused, as `serde_json` does it."""
    if abs(float(text)) == float("inf"):
        raise ValueError
    return Numeral(text)


class Members(list[tuple[str, Any]]):
    """The members of a JSON object in their order, each of them, also those whose name comes again."""


def plain(value: Any, depth: int) -> Any:
    """A JSON value whose objects have the last member of each name; a text with half a surrogate pair, or more than 127 levels,
    is refused."""
    if isinstance(value, str):
        value.encode()
        return value
    if not isinstance(value, list):
        return value
    if depth == DEEPEST:
        raise ValueError
    if isinstance(value, Members):
        return {plain(name, depth + 1): plain(member, depth + 1) for name, member in value}
    return [plain(one, depth + 1) for one in value]


def json_of(given: bytes) -> Any:
    """RFC 8259: the value of a JSON text; J1 if there is none."""
    def refuse(_: str) -> Any:
        raise ValueError
    try:
        return plain(json.loads(given.decode(), parse_int=numeral, parse_float=numeral, parse_constant=refuse,
                                object_pairs_hook=Members), 0)
    except (ValueError, RecursionError):
        raise Fault("J1") from None


def member(value: Any, name: str) -> Any:
    """The member of this name; `...` if there is none, which is not null."""
    return value.get(name, ...) if isinstance(value, dict) else ...


def is_text(value: Any) -> bool:
    """Whether a JSON value is a string."""
    return isinstance(value, str) and not isinstance(value, Numeral)


# ---- pods

@dataclass(frozen=True)
class PodSegment:
    """A segment of an advertisement."""

    uri: str
    range: Range | None
    nanos: int


@dataclass(frozen=True)
class Ad:
    """An advertisement: its segments have one initialisation section and one set of keys."""

    init_section: InitSection | None
    keys: Keys
    segments: tuple[PodSegment, ...]


@dataclass(frozen=True)
class Pod:
    """Advertisements that follow one another and fill a break."""

    ads: tuple[Ad, ...]

    def total(self) -> int:
        """How many nanoseconds it lasts."""
        return sum(one.nanos for ad in self.ads for one in ad.segments)

    def fits(self, target: int, with_init_sections: bool) -> bool:
        """Each ad has an initialisation section exactly if the programme has one, and no segment, rounded to seconds, is
        longer than the target duration (RFC 8216, 4.3.3.1)."""
        return all((ad.init_section is not None) == with_init_sections and all(rounded_seconds(one.nanos) <= target for one in ad.segments)
                   for ad in self.ads)


# ---- what a file says. A place is the break, the ad and the segment, so far as something stands in them.

Place = tuple[int | None, ...]


def check(test: bool, code: str, place: Place, at: str) -> None:
    """The fault of the member `at` at a place, which has the numbers of a break, an ad and a segment, unless the test holds."""
    if not test:
        words = zip((" break ", " ad ", " segment "), place)
        raise Fault(code, "".join(f"{word}{number}" for word, number in words if number is not None), at)


def text_at(value: Any, name: str, code: str, place: Place, of: str = "") -> str:
    """A member that has to be a text; `of` is `map.` or `key.` for one of these."""
    check(is_text(member(value, name)), code, place, of + name)
    return str(value[name])


def uri_checked(uri: str, place: Place, of: str = "") -> str:
    """J3 unless it is an absolute http or https URL of printable ASCII without quotes."""
    check(re.fullmatch(r"https?://[!#-~]+", uri) is not None, "J3", place, f"{of}uri")
    return uri


def range_said(value: Any, place: Place, of: str) -> Range | None:
    """J2 unless both or neither of `offset` and `length` are there, whole numbers whose sum is below 2^64."""
    said = member(value, "length"), member(value, "offset")
    if said == (..., ...):
        return None
    length, offset = (decimal_of(one) if isinstance(one, Numeral) else None for one in said)
    check(length is not None and offset is not None and length + offset < PAST, "J2", place, f"{of}range")
    return length or 0, offset or 0


def part_said(value: Any, place: Place, of: str = "") -> tuple[str, Range | None]:
    """A resource and its bytes: the text J2, the URI J3, the bytes J2."""
    return uri_checked(text_at(value, "uri", "J2", place, of), place, of), range_said(value, place, of)


def quotable(text: str) -> bool:
    """Whether a text can stand between quotes and isn't empty (RFC 8216, 4.2)."""
    return text != "" and '"' not in text and not has_control(text)


def key_said(value: Any, place: Place) -> Keys:
    """An ad's key, if it has one: not an object J2; METHOD, its URI's type, IV and format J5; its URI J3."""
    if value is ...:
        return ()
    check(isinstance(value, dict), "J2", place, "key.uri")
    method = text_at(value, "method", "J5", place, "key.")
    check(is_name(method) and method != "NONE", "J5", place, "key.method")
    uri = uri_checked(text_at(value, "uri", "J5", place, "key."), place, "key.")
    iv = hexadecimal_of(text_at(value, "iv", "J5", place, "key."))
    check(iv is not None, "J5", place, "key.iv")
    name = text_at(value, "format", "J5", place, "key.") if "format" in value else "identity"
    check(quotable(name), "J5", place, "key.format")
    return (Key(name, method, uri, iv, ""),)


def segments_said(value: Any, before: int, place: Place) -> tuple[PodSegment, ...]:
    """An ad's segments, after so many of its break: not a list J2, none J6, the 501st J7; each one's texts J2, URI J3, bytes J2,
    duration J4."""
    listed = member(value, "segments")
    check(isinstance(listed, list), "J2", place, "segments")
    check(listed != [], "J6", place, "segments")
    found: list[PodSegment] = []
    for number, one in enumerate(listed):
        here = (*place, number)
        check(before + number < MOST_POD_SEGMENTS, "J7", here, "")
        text_at(one, "uri", "J2", here)
        duration = text_at(one, "duration", "J2", here)
        uri, part = part_said(one, here)
        check(duration_of(duration) is not None, "J4", here, "duration")
        found.append(PodSegment(uri, part, duration_of(duration) or 0))
    return tuple(found)


def pod_said(ads: list[Any], place: Place) -> Pod:
    """The ads of a break, or of the fallback: none J6; of each its `map`, its `key`, its `segments`."""
    check(ads != [], "J6", place, "ads")
    found: list[Ad] = []
    for number, value in enumerate(ads):
        here = (*place, number)
        part = part_said(value["map"], here, "map.") if member(value, "map") is not ... else None
        keys = key_said(member(value, "key"), here)
        segments = segments_said(value, sum(len(ad.segments) for ad in found), here)
        found.append(Ad(InitSection(part[0], part[1], keys) if part else None, keys, segments))
    return Pod(tuple(found))


def is_id(text: str) -> bool:
    """The ID of a break in a decision file: 1 to 255 bytes that can stand between quotes."""
    return quotable(text) and len(text.encode()) <= 255


def break_said(value: Any, number: int, before: set[str]) -> tuple[str, Pod]:
    """A break: its ID J2, `ads` not a list J2, an ID that came before J2, then its ads."""
    name, ads = text_at(value, "id", "J2", (number,)), member(value, "ads")
    check(is_id(name) and name not in before, "J2", (number,), "id")
    check(isinstance(ads, list), "J2", (number,), "ads")
    return name, pod_said(ads, (number,))


@dataclass(frozen=True)
class Decisions:
    """What a decision file says: pods for breaks, the break to withdraw, or the fallback, which may be none."""

    breaks: tuple[tuple[str, Pod], ...] | None = None
    withdraw: str | None = None
    fallback: Pod | None = None


def decisions_of(given: bytes) -> Decisions:
    """What the bytes of a decision file say, or the first fault: J1, then J2 unless it is an object with exactly one of `breaks`,
    `withdraw` and `fallback`, then what stands in that."""
    value = json_of(given)
    breaks, withdraw, fallback = (member(value, name) for name in ("breaks", "withdraw", "fallback"))
    check([breaks, withdraw, fallback].count(...) == 2, "J2", (), "")
    if isinstance(breaks, list):
        found: list[tuple[str, Pod]] = []
        before: set[str] = set()
        for number, one in enumerate(breaks):
            found.append(break_said(one, number, before))
            before.add(found[-1][0])
        return Decisions(breaks=tuple(found))
    if is_text(withdraw) and is_id(withdraw):
        return Decisions(withdraw=str(withdraw))
    if fallback is None:
        return Decisions()
    check(isinstance(member(fallback, "ads"), list), "J2", (), "fallback")
    return Decisions(fallback=pod_said(fallback["ads"], (None,)))


# ---- the store

@dataclass(frozen=True)
class Entry:
    """A break with a pod: whether it is used, and whether the pod is a copy of the fallback that the break was entered with."""

    id: str
    pod: Pod
    used: bool = False
    copied: bool = False


@dataclass(frozen=True)
class Store:
    """The pods of decided breaks, in the order in which they got them, and the fallback."""

    entries: tuple[Entry, ...] = ()
    fallback: Pod | None = None

    def entry(self, name: str) -> Entry | None:
        """The break of this ID, if it has a pod of its own."""
        return next((one for one in self.entries if one.id == name), None)


def pod_for(store: Store, name: str) -> Pod | None:
    """The pod that a break is filled with: its own, else the fallback."""
    entry = store.entry(name)
    return entry.pod if entry else store.fallback


def decided(store: Store, said: Decisions) -> Store:
    """The store after decisions. J9 if one of the breaks is used, then J10 if decisions would have named more than 256; a
    withdrawal of a break without a pod of its own is J11."""
    if said.withdraw is not None:
        entry = store.entry(said.withdraw)
        if entry is None or entry.used:
            raise Fault("J9" if entry else "J11")
        return replace(store, entries=tuple(one for one in store.entries if one.id != said.withdraw))
    if said.breaks is None:
        return replace(store, fallback=said.fallback)
    pods = dict(said.breaks)
    if any(one.used and one.id in pods for one in store.entries):
        raise Fault("J9")
    if len({one.id for one in store.entries if not one.copied} | set(pods)) > MOST_DECIDED:
        raise Fault("J10")
    put = tuple(Entry(one.id, pods.pop(one.id)) if one.id in pods else one for one in store.entries)
    return replace(store, entries=put + tuple(Entry(name, pod) for name, pod in pods.items()))


def kept_in_use(store: Store, in_use: list[str]) -> Store:
    """After a refresh: a break in use without a pod of its own keeps a copy of the fallback, a used one that is in use no longer
    loses its pod, and these are the used ones."""
    entries = list(store.entries)
    for name in in_use:
        if store.fallback and name not in [one.id for one in entries]:
            entries.append(Entry(name, store.fallback, True, True))
    return replace(store, entries=tuple(replace(one, used=one.id in in_use) for one in entries
                                        if not one.used or one.id in in_use))
