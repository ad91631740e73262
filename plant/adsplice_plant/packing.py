"""Where the lists of a rendition stand, as text: what changed from one Standing to the next, as JSON takes it, and the next one by that.

What is said of a new list has the size of what is new in it. Objects that a Standing shares with the one before are unchanged, since nothing
in one is ever changed. The date ranges among a segment's tags aren't kept: those of the newest list hold.
"""
from __future__ import annotations

from collections.abc import Callable, Mapping
from dataclasses import fields, replace
from itertools import compress
from operator import attrgetter, is_not
from typing import Any

from .clocks import stated_of
from .edits import common_end
from .growing import Growing
from .numbers import Viewed
from .packaged import DATE_RANGE, InitSection, Key, Keys, PackagedSegment
from .pods import Pods, checked
from .reckoning import Numbers, Reckoned, Sums, kept_break
from .repair import Head, Lead, Repairer
from .state import Standing

Said = dict[str, Any]
PLAIN = ("adds", "grows", "owed", "front", "longest", "longest_end", "clock", "is_guessed")  # members of a Repairer that JSON takes as they are
RARE = ("discontinuities", "gap", "gaps", "is_gap", "shift")  # members of a segment that are 0 as a rule
MEMBERS = attrgetter(*(it.name for it in fields(PackagedSegment) if it.name != "tags"))  # all the others of a segment
PODS = ("held", "entered")  # members of Pods: ads by the IDs of breaks


# ---- bytes, and what has names

def text_of(body: bytes) -> str:
    """The `body` as a text that JSON takes, whatever bytes it has."""
    return body.decode("utf-8", "surrogateescape")


def bytes_of(text: str) -> bytes:
    """The bytes of which `text_of` made the `text`."""
    return text.encode("utf-8", "surrogateescape")


def edit_of(old: bytes, new: bytes) -> list[Any]:
    """What makes the text `new` of the text `old`: what is new before a part of `old`, from which byte of `old` on that part goes, to which, and
    what is new after it; or `new` alone."""
    common = common_end(old, new)
    if common is None:
        return [text_of(new)]
    return [text_of(new[:common.begin]), common.old, len(old), text_of(new[common.end:])]


def edited(old: bytes, said: list[Any]) -> bytes:
    """The text that the edit `said` makes of the text `old`; raises ValueError if it isn't one of its."""
    if len(said) == 1:
        return bytes_of(said[0])
    front, first, past, end = said
    if not 0 <= first <= past == len(old):
        raise ValueError(f"an edit takes the bytes {first} to {past} of {len(old)}")
    return bytes_of(front) + old[first:past] + bytes_of(end)


def changes(old: Mapping[str, Any], now: Mapping[str, Any], pack: Callable[[Any, Any], Any]) -> Said:
    """What changed from the mapping `old` to `now`: the names that are `gone`, and what is `put` at its end, as `pack` makes it of the value before
    (none if there was none) and the one now; and the `order`, if it is another by that. Nothing if nothing changed."""
    if now is old:
        return {}
    put = {name: pack(old.get(name), it) for name, it in now.items() if name not in old or old[name] is not it and old[name] != it}
    gone = [name for name in old if name not in now]
    order = [name for name in old if name in now and name not in put] + list(put)
    is_other = order != list(now)
    return ({"gone": gone} if gone else {}) | ({"put": put} if put else {}) | ({"order": list(now)} if is_other else {})


def changed(old: Mapping[str, Any], said: Said, unpack: Callable[[Any, Any], Any]) -> dict[str, Any]:
    """The mapping that the changes `said` make of `old`; `unpack` makes a value of the one before (none if there was none) and what was said."""
    put = {str(name): unpack(old.get(name), it) for name, it in said.get("put", {}).items()}
    gone = {*said.get("gone", ()), *put}
    found = {name: it for name, it in old.items() if name not in gone} | put
    return {name: found[name] for name in said["order"]} if "order" in said else found


# ---- segments

def keys_said(keys: Keys) -> list[list[Any]]:
    """The `keys` as JSON takes them."""
    return [[*it] for it in keys]


def keys_of(said: list[Any]) -> Keys:
    """The keys that were `said`."""
    return tuple(Key(str(format_), str(text), bool(has_iv)) for format_, text, has_iv in said)


def row_of(it: PackagedSegment, before: PackagedSegment | None) -> list[Any]:
    """The segment `it` as JSON takes it: its URI, own number, duration, begin and tags, and then what isn't as it is as a rule. Its numbers, keys
    and section are said if they don't follow from those of the segment `before`; none if it is the first one."""
    rest: Said = {}
    if it.discontinuities or it.gaps or it.gap or it.is_gap or it.shift:
        rest |= {name: value for name in RARE if (value := getattr(it, name))}
    if before is None or it.number != before.number + 1 or it.discontinuity != before.discontinuity + it.discontinuities:
        rest["numbers"] = [it.number, it.discontinuity]
    if it.keys != (before.keys if before is not None else ()):
        rest["keys"] = keys_said(it.keys)
    if it.section != (before.section if before is not None else None):
        rest["section"] = None if it.section is None else [it.section.text, keys_said(it.section.keys)]
    if it.byte_range is not None:
        rest["byte_range"] = it.byte_range
    if it.stated != it.begins:
        rest["stated"] = it.stated
    if it.said != it.duration:
        rest["said"] = it.said
    row = [it.uri, it.own, it.duration, it.begins, tags_of(it)]
    return [*row, rest] if rest else row


def tags_of(it: PackagedSegment) -> list[str]:
    """The tags of the segment `it` but for date ranges."""
    return [line for line in it.tags if not line.startswith(DATE_RANGE)]


def segment_of(row: list[Any], before: PackagedSegment | None) -> PackagedSegment:
    """The segment that the `row` says, which follows the segment `before`; raises ValueError or TypeError if it says none."""
    uri, own, duration, begins, tags, *more = row
    rest = more[0] if more else {}
    begins = None if begins is None else int(begins)
    it = PackagedSegment(str(uri), int(own), int(duration), begins=begins, tags=[str(line) for line in tags])
    for name in RARE:
        setattr(it, name, rest.get(name, getattr(it, name)))
    it.stated, it.said = rest.get("stated", begins), int(rest.get("said", it.duration))
    it.keys, it.section = (before.keys, before.section) if before is not None else ((), None)
    if "keys" in rest:
        it.keys = keys_of(rest["keys"])
    if "section" in rest:
        it.section = rest["section"] and InitSection(str(rest["section"][0]), keys_of(rest["section"][1]))
    if (length := rest.get("byte_range")) is not None:
        it.byte_range = int(length[0]), None if length[1] is None else int(length[1])
    follows = (before.number + 1, before.discontinuity + it.discontinuities) if before is not None else None
    number, discontinuity = rest["numbers"] if follows is None else rest.get("numbers", follows)
    it.number, it.discontinuity = int(number), int(discontinuity)
    return it


def of_segments(old: Repairer, now: Repairer) -> Said:
    """What changed of the segments that were listed: how many `drop` out at the front, which are told `again`, each with its place after that,
    which are to `add` at the end, and how many are `listed` now. Those that left the list are looked at by a comparison of references."""
    if now.last is old.last and now.past is old.past:
        return {}
    before, after, left = old.past + old.last, now.past + now.last, len(now.past)
    count = after[-1].number - before[-1].number if before and after else -1
    kept = len(after) - count  # of `after` the first ones, which were there before
    drop = len(before) - kept
    if count < 0 or not left <= kept or drop < 0 or now.past != before[drop:drop + left]:
        return {"drop": len(before), "add": rows_of(after, 0), "listed": len(now.last)}
    again = [[n, row] for n in places_of_others(before[drop:], after, left, kept, now.front) if (row := row_again(before, after, drop, n, n < left + now.front))]
    said: Said = {"drop": drop} if drop else {}
    if again:
        said["again"] = again
    if count:
        said["add"] = rows_of(after, kept)
    if len(now.last) != len(old.last):
        said["listed"] = len(now.last)
    return said


def places_of_others(before: list[PackagedSegment], after: list[PackagedSegment], left: int, kept: int, front: int) -> list[int]:
    """The places, from `left` on and before `kept`, at which `after` may have another segment than `before`: those at which it has another object,
    and the first ones that stay in `front`, which another list may have given instants. A list that goes on has all but the first one."""
    if not front and kept > left and after[kept - 1] is before[-1] and after[left + 1:kept] == before[left + 1:]:
        return [left]
    others = compress(range(left, kept), map(is_not, after[left:kept], before[left:]))
    return sorted({*range(left, min(left + front, kept)), *others})


def rows_of(segments: list[PackagedSegment], first: int) -> list[list[Any]]:
    """The rows of the `segments` from the place `first` on."""
    return [row_of(it, segments[n - 1] if n else None) for n, it in enumerate(segments[first:], first)]


def row_again(before: list[PackagedSegment], after: list[PackagedSegment], drop: int, n: int, is_sure: bool) -> list[Any] | None:
    """The row of the segment at the place `n` of `after`, if it is another than in `before`, from which so many `drop` out; also if it is not, if
    that `is_sure`."""
    it, was = after[n], before[n + drop]
    is_same = not is_sure and MEMBERS(it) == MEMBERS(was) and tags_of(it) == tags_of(was)
    return None if is_same else row_of(it, after[n - 1] if n else None)


def segments_after(past: list[PackagedSegment], last: list[PackagedSegment], said: Said) -> tuple[list[PackagedSegment], list[PackagedSegment]]:
    """Those that left the list, and those that are listed, by what was `said` after the ones `past` and `last`. Raises ValueError or IndexError
    if it isn't said of these."""
    segments = (past + last)[int(said.get("drop", 0)):]
    for n, row in said.get("again", ()):
        segments[n] = segment_of(row, segments[n - 1] if n else None)
    for row in said.get("add", ()):
        segments.append(segment_of(row, segments[-1] if segments else None))
    listed = int(said.get("listed", len(last)))
    if not 0 <= listed <= len(segments):
        raise ValueError(f"it lists {listed} of {len(segments)} segments")
    return segments[:len(segments) - listed], segments[len(segments) - listed:]


# ---- what viewers have

def begins_said(old: Growing[Numbers], now: Growing[Numbers]) -> Said:
    """What changed of the numbers that viewers have: those `from` a media number on stay (none if none do), and those of the `add` come after
    them. Nothing if nothing changed."""
    if now is old or not old and not now:
        return {}
    is_grown = now.grows_from(old) and bool(old) and old.end > now.first
    add = [[number, *it] for number, it in now.pairs(old.end if is_grown else now.first)]
    return {"from": now.oldest() if is_grown else None, "add": add}


def begins_after(old: Growing[Numbers], said: Said) -> Growing[Numbers]:
    """The numbers that viewers have after the ones of `old`, by what was `said`."""
    new = {int(number): (int(media), int(steps)) for number, media, steps in said["add"]}
    return (old.since(int(said["from"])) if said["from"] is not None else Growing()).with_more(new)


def range_said(old: tuple[str, int] | None, now: tuple[str, int]) -> list[Any]:
    """A date range: the last media number at which it was listed, and its line if that has changed."""
    return [now[1]] if old is not None and old[0] == now[0] else [now[1], now[0]]


def range_of(old: tuple[str, int] | None, said: list[Any]) -> tuple[str, int]:
    """The date range that was `said`, after the one before (`old`)."""
    return str(said[1] if len(said) > 1 else old and old[0]), int(said[0])


def reckoned_said(old: Reckoned | None, now: Reckoned | None) -> Said | None:
    """What adsplice has by what it was given: its numbers, and what was replaced, the shape of its run's pod and the breaks if they are others than in
    `old`."""
    if now is None:
        return None
    newest, given, media, steps, _, entered = now.kept()
    said: Said = {"at": [newest, given, media, steps, entered, now.is_marked]}
    if now.sums != (old.sums if old is not None else Sums()):
        said["sums"] = now.sums
    if now.run is not None:
        said["run"] = [now.run.id, now.run.lasted]
        if old is None or old.run is None or old.run.shape != now.run.shape:
            said["shape"] = [now.run.shape.ads, now.run.shape.has_sections]
    if now.breaks != (old.breaks if old is not None else ()):
        said["breaks"] = [kept_break(it) for it in now.breaks]
    return said


def reckoned_of(old: Reckoned | None, said: Said | None) -> Reckoned | None:
    """What adsplice has by what was `said` after `old`; raises ValueError, TypeError or IndexError if that isn't said."""
    if said is None:
        return None
    newest, given, media, steps, entered, is_marked = said["at"]
    before = [old.run.shape.ads, old.run.shape.has_sections] if old is not None and old.run is not None else [(), ()]
    shape = said.get("shape", before)
    run = [said["run"][0], *shape, said["run"][1]] if "run" in said else None
    breaks = said["breaks"] if "breaks" in said else [kept_break(it) for it in old.breaks] if old is not None else []
    earlier = {"sums": [said["replaced"], 0, 0]} if "replaced" in said else {}  # (an earlier feed kept no more)
    replaced, shown, decided = (said | earlier).get("sums", old.sums if old is not None else Sums())
    return replace(Reckoned.read([newest, given, media, steps, run, entered], breaks), is_marked=bool(is_marked), sums=Sums(int(replaced), int(shown), int(decided)))


def of_viewed(old: Viewed, now: Viewed) -> Said:
    """What changed of what viewers have."""
    if now is old:
        return {}
    said: Said = {}
    if begins := begins_said(old.begins, now.begins):
        said["begins"] = begins
    if ranges := changes(old.ranges, now.ranges, range_said):
        said["ranges"] = ranges
    if (now.end, now.is_replaced) != (old.end, old.is_replaced):
        said["end"] = [now.end, now.is_replaced]
    if now.reckoned is not old.reckoned:
        said["reckoned"] = reckoned_said(old.reckoned, now.reckoned)
    return said


def viewed_after(old: Viewed, said: Said) -> Viewed:
    """What viewers have after `old` by what was `said`."""
    now = replace(old, ranges=changed(old.ranges, said.get("ranges", {}), range_of))
    if "begins" in said:
        now.begins = begins_after(old.begins, said["begins"])
    if "end" in said:
        end, is_replaced = said["end"]
        now.end, now.is_replaced = None if end is None else (int(end[0]), int(end[1])), bool(is_replaced)
    now.reckoned = reckoned_of(old.reckoned, said["reckoned"]) if "reckoned" in said else old.reckoned
    return now


# ---- what breaks began with

def of_pods(old: Pods, now: Pods) -> Said:
    """What changed of what breaks began with, and what adsplice holds."""
    if now is old or now == old:
        return {}
    found = {name: changes(getattr(old, name), getattr(now, name), lambda _, ads: ads) for name in PODS}
    said: Said = {name: it for name, it in found.items() if it}
    said |= {"missed": sorted(now.missed)} if now.missed != old.missed else {}
    return said | ({"fallback": now.fallback} if now.fallback != old.fallback else {})


def pods_after(old: Pods, said: Said) -> Pods:
    """What breaks began with after `old`, by what was `said`."""
    held, entered = (changed(getattr(old, name), said.get(name, {}), lambda _, ads: checked(ads)) for name in PODS)
    fallback = said.get("fallback", old.fallback)
    missed = {str(name) for name in said["missed"]} if "missed" in said else set(old.missed)
    return Pods(None if fallback is None else checked(fallback), held, entered, missed)


# ---- where lists stand

def of_standing(old: Standing, now: Standing) -> Said:
    """What changed from the Standing `old` to `now`."""
    said: Said = {} if now.repairer is old.repairer else of_repairer(old.repairer, now.repairer)
    if viewed := of_viewed(old.viewed, now.viewed):
        said["viewed"] = viewed
    if pods := of_pods(old.pods, now.pods):
        said["pods"] = pods
    if now.text != old.text:
        said["text"] = edit_of(old.text, now.text)
    if now.ahead != old.ahead:
        said["ahead"] = edit_of(old.ahead, now.ahead)
    if now.repairs != old.repairs:
        said["repairs"] = dict(now.repairs)
    if now.entry != old.entry or now.after != old.after:
        said["entry"] = [now.entry, now.after]
    return said


def of_repairer(old: Repairer, now: Repairer) -> Said:
    """What changed of the state of the lists that are put right."""
    said: Said = {}
    for name in PLAIN:
        if getattr(now, name) != getattr(old, name):
            said[name] = getattr(now, name)
    if now.head is not old.head and now.head != old.head:
        said["head"] = now.head and [now.head.version, now.head.target, now.head.kind]
    if now.lead is not old.lead and now.lead != old.lead:
        said["lead"] = now.lead and [now.lead.first, now.lead.count, now.lead.least]
    if now.growing is not old.growing and now.growing != old.growing:
        said["growing"] = now.growing and row_of(now.growing, None)
    if now.stated != old.stated:
        said["stated"] = now.stated
    if segments := of_segments(old, now):
        said["segments"] = segments
    return said


def standing_after(old: Standing, said: Said) -> Standing:
    """The Standing after `old` by what was `said`; raises ValueError, TypeError, KeyError, IndexError or AttributeError if that isn't said. (What didn't
    change stays the same value, in which the next difference needn't look.)"""
    if not said:
        return old
    was, one = old.repairer, Repairer(old.repairer.choices, old.repairer.siblings)
    for name in PLAIN:
        kind = type(getattr(one, name))
        setattr(one, name, kind(said.get(name, getattr(was, name))))
    head, lead = said.get("head"), said.get("lead")
    one.head = was.head if "head" not in said else head and Head(head[0], int(head[1]), head[2])
    one.lead = was.lead if "lead" not in said else lead and Lead(int(lead[0]), int(lead[1]), int(lead[2]))
    one.growing = was.growing if "growing" not in said else said["growing"] and segment_of(said["growing"], None)
    one.stated = stated_of(said["stated"]) if "stated" in said else was.stated
    one.past, one.last = segments_after(was.past, was.last, said.get("segments", {}))
    text, ahead = (edited(before, said[name]) if name in said else before for name, before in (("text", old.text), ("ahead", old.ahead)))
    repairs = {str(kind): int(count) for kind, count in said["repairs"].items()} if "repairs" in said else old.repairs
    entry, earlier = said.get("entry", (old.entry, old.after))
    viewed = viewed_after(old.viewed, said["viewed"]) if "viewed" in said else old.viewed
    pods = pods_after(old.pods, said["pods"]) if "pods" in said else old.pods
    return Standing(one, viewed, int(entry), text, ahead, pods, repairs, int(earlier))
