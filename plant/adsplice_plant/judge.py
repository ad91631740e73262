"""Says of a decision file which member is wrong, in words. Whether one is, and which is the first, the rules say (adsplice_rules)."""
from __future__ import annotations

import json
import re
from dataclasses import dataclass
from typing import Any

from adsplice_rules.decisions import MOST_DECIDED, MOST_POD_SEGMENTS, Numeral, Store, decided, decisions_of, json_of
from adsplice_rules.lines import has_control
from adsplice_rules.values import Fault

MEMBERS = {"file": {"breaks", "withdraw", "fallback"}, "break": {"id", "ads"}, "fallback": {"ads"}, "ad": {"id", "map", "key", "segments"},
           "map": {"uri", "offset", "length"}, "key": {"method", "uri", "iv", "format"}, "segment": {"uri", "duration", "offset", "length"}}
OWNERS = {"file": "the file", "ad": "an ad"}
# What each kind of thing has to be, if it is no object at all.
OBJECTS = {"file": "the file has to be an object with one member: `breaks`, `withdraw` or `fallback`",
           "break": "a break has to be an object with `id` and `ads`", "fallback": "`fallback` has to be an object with `ads`, or null",
           "ad": "an ad has to be an object with `segments`", "segment": "a segment has to be an object with `uri` and `duration`",
           "map": "`map` has to be an object with `uri`; leave it out if the ad has none",
           "key": "`key` has to be an object with `method`, `uri` and `iv`; leave it out if the ad is in clear"}
# What is wrong with a member that is there and has the right type.
WRONG = {"duration": "has to be a decimal of seconds below 1,000,000, as \"6.006\"",
         "iv": "doesn't read: it has to be a string of 0x and 1 to 32 hexadecimal digits",
         "method": "has to be a word of A to Z, 0 to 9 and '-', as \"AES-128\"; an ad in clear has no `key`",
         "format": "has to be a string that isn't empty, without quotes and control characters"}
EXAMPLES = {"uri": "http://ads.example/a0.ts", "duration": "2", "id": "b1", "withdraw": "b1", "iv": "0x1", "method": "AES-128", "format": "identity"}


@dataclass(frozen=True)
class Wrong:
    """The first thing that is wrong: its `fault` as adsplice prints it, the `place` in words, and `text`, which names the member."""

    fault: str
    place: str
    text: str

    def line(self) -> str:
        """Place and text as one sentence."""
        return f"{self.place}: {self.text}" if self.place else self.text


def judge(body: bytes) -> Wrong | None:
    """The first thing that is wrong with the decision file `body`; none if it is right."""
    try:
        decided(Store(), decisions_of(body))
    except Fault as fault:
        if fault.code == "J11":  # (a withdrawal, for which there is no pod here)
            return None
        return Wrong(str(fault), *(of_text(body) if fault.code == "J1" else of_member(json_of(body), fault)))
    return None


def of_text(body: bytes) -> tuple[str, str]:
    """The place and the text of what makes `body` no JSON."""
    try:
        json.loads(body.decode("utf-8"))
    except UnicodeDecodeError:
        return "", "the file isn't UTF-8"
    except json.JSONDecodeError as fault:
        return f"line {fault.lineno}, column {fault.colno}", f"the file isn't JSON: {fault.msg}"
    except (ValueError, RecursionError):
        pass
    return "", "the file isn't JSON"


def of_member(value: Any, fault: Fault) -> tuple[str, str]:
    """The place and the text of the `fault` of a file with the JSON value `value`."""
    if fault.code == "J10":
        return f"break {MOST_DECIDED}", f"a channel has at most {MOST_DECIDED} decided breaks"
    owner, kind, places = value, "file", [] if not isinstance(value, dict) or "fallback" not in value else ["fallback"]
    if isinstance(value, dict) and places and fault.place + fault.member:
        owner, kind = value["fallback"], "fallback"
    for name, number in re.findall("(break|ad|segment) ([0-9]+)", fault.place):
        owner, kind = owner[{"break": "breaks", "ad": "ads", "segment": "segments"}[name]][int(number)], name
        places.append(f"{name} {number}")
    of, _, name = fault.member.rpartition(".")
    if of:
        owner, kind = owner[of], of
        places += [of] if isinstance(owner, dict) else []
    is_whole = kind == "fallback" and not isinstance(owner, dict)
    return "" if is_whole else ", ".join(places), text_of(owner, kind, name, fault.code)


def text_of(owner: Any, kind: str, name: str, code: str) -> str:
    """What is wrong with the member `name` of `owner`, which is of the `kind`, by the fault's `code`."""
    if not isinstance(owner, dict):
        return OBJECTS[kind]
    if code == "J7":
        return f"a pod has at most {MOST_POD_SEGMENTS} segments in all its ads"
    if kind == "file":
        return of_file(owner)
    if name == "range":
        return of_range(owner)
    name = "ads" if name == "fallback" else name
    if name not in owner:
        return f"`{name}` is missing" + (f": {WRONG['iv'].partition(': ')[2]}" if name == "iv" else "")
    value = owner[name]
    if name in ("ads", "segments"):
        whole = "a pod has at least one ad" if name == "ads" else "an ad has at least one segment"
        return f"`{name}` is empty: {whole}" if value == [] else f"`{name}` has to be a list"
    if not isinstance(value, str) or isinstance(value, Numeral):
        return f"`{name}` has to be a string, as \"{example_of(name, value)}\""
    return of_id(value, name) if name == "id" else of_uri(value) if name == "uri" else f"`{name}` {shown(value)} {WRONG[name]}"


def of_file(owner: dict[str, Any]) -> str:
    """What is wrong with the members of the file `owner`."""
    there = sorted(set(owner) & MEMBERS["file"])
    if len(there) != 1:
        has = " and ".join(f"`{it}`" for it in there) or "none"
        return f"the file has to have one member of `breaks`, `withdraw` and `fallback`, and has {has}"
    if there == ["breaks"]:
        return "`breaks` has to be a list, as [{\"id\":\"b1\",\"ads\":[..]}]"
    value = owner["withdraw"]
    return of_id(value, "withdraw") if isinstance(value, str) and not isinstance(value, Numeral) else "`withdraw` has to be a string, as \"b1\""


def of_id(value: str, name: str) -> str:
    """What is wrong with the ID `value`, the member `name`."""
    if not 0 < len(value.encode()) <= 255:
        return f"`{name}` has to have 1 to 255 bytes"
    if '"' in value or has_control(value):
        return f"`{name}` may hold no quote and no control character"
    return f"the `{name}` {shown(value)} came before in this file"


def of_uri(value: str) -> str:
    """What is wrong with the URI `value`."""
    if not value.startswith(("http://", "https://")):
        return f"`uri` {shown(value)} has to begin with http:// or https:// (small letters)"
    return f"`uri` {shown(value)} may hold printable ASCII without spaces and quotes: others are written as %20"


def of_range(owner: dict[str, Any]) -> str:
    """What is wrong with the `offset` and the `length` of `owner`."""
    for name, other in (("offset", "length"), ("length", "offset")):
        if name in owner and other not in owner:
            return f"`{name}` needs `{other}` beside it"
    wrong = next((name for name in ("offset", "length") if not isinstance(owner[name], Numeral) or not re.fullmatch("[0-9]{1,20}", owner[name])
                  or int(owner[name]) >= 1 << 64), None)
    if wrong is None:
        return "`offset` and `length` have to have a sum below 2^64"
    return f"`{wrong}` has to be a whole number of bytes without quotes, sign, point and exponent, as 1024"


def example_of(name: str, value: Any) -> str:
    """How the member `name` may be written that has the wrong `value`: a number in quotes if it is one of seconds."""
    return str(value) if name == "duration" and isinstance(value, Numeral) and re.fullmatch(r"[0-9]{1,6}(\.[0-9]{1,9})?", value) else EXAMPLES[name]


def shown(value: str) -> str:
    """A text as it stands in a file, cut short."""
    text = json.dumps(value, ensure_ascii=False)
    return text if len(text) <= 40 else text[:37] + ".."


def strange_members(body: bytes) -> list[str]:
    """A sentence for each member of the right file `body` that adsplice doesn't know, and so ignores: it may be misspelt."""
    found: list[str] = []

    def look(it: Any, kind: str, place: str) -> None:
        if isinstance(it, dict):
            at = f"{place}: " if place else ""
            found.extend(f"{at}`{name}` is no member of {OWNERS.get(kind, f'a {kind}')}, and is ignored" for name in it if name not in MEMBERS[kind])

    read = json.loads(body)
    look(read, "file", "")
    fallback = read.get("fallback")
    pods = [(it, "break", f"break {n}") for n, it in enumerate(read.get("breaks") or [])] + ([(fallback, "fallback", "fallback")] if fallback else [])
    for pod, kind, place in pods:
        look(pod, kind, place)
        for n, ad in enumerate(pod["ads"]):
            of = f"{place}, ad {n}"
            look(ad, "ad", of)
            look(ad.get("map"), "map", f"{of}, map")
            look(ad.get("key"), "key", f"{of}, key")
            for m, segment in enumerate(ad["segments"]):
                look(segment, "segment", f"{of}, segment {m}")
    return found
