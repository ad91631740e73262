"""What feeds before this one kept on disk: NAME.numbers of each channel, and NAME.signals. They are read once, and become a State.

A file of numbers of the format NEWER has a JSON object in its first line, and in each line after it the members that changed; one of the
format OLDER is a Record. A channel that was made anew had its own media numbers (`moved`). Here they are the controller's.
"""
from __future__ import annotations

import json
import re
from collections import Counter
from dataclasses import replace
from pathlib import Path
from typing import Any, NamedTuple

from . import packaged, records, spelling
from .edits import edited, lines_of
from .entries import Known, state_of
from .events import Stamp, Tell
from .growing import Growing
from .numbers import Viewed
from .packaged import Key, PackagedSegment
from .pods import Pods, decision_of, pods_of
from .reckoning import Reckoned
from .repair import Choices, Head, Repairer
from .state import Controller, Decided, File, FileState, Rendition, Standing, State

NEWER, OLDER = 2, 1  # formats of a file of numbers
BREAKS = "breaks"  # the kind of a decision file of breaks
FAULTS = (ValueError, KeyError, TypeError, AttributeError, IndexError, RecursionError, OverflowError, spelling.Unread)  # of a file that isn't whole


class Earlier(NamedTuple):
    """Where a channel stood: the `repairer` with what it accepted, what viewers had, the `text` of the list that was pushed, how many lists had
    each kind of repair, what was known of decision `files` (stamp, whether it was given, late breaks, kind, breaks, whether it was refused), the
    decided breaks that left the list (`over`), what breaks began with, and by how much its media numbers were `moved`."""

    repairer: Repairer
    viewed: Viewed
    text: bytes
    repairs: Counter[str]
    files: dict[str, list[Any]]
    over: list[str]
    pods: Pods
    moved: int


# ---- a file of numbers

def read_book(body: bytes) -> dict[str, Any]:
    """What the lines of the file `body` say together; a line that was left unfinished is passed over. Raises ValueError if it isn't one."""
    first, *rest = body.split(b"\n")
    said: dict[str, Any] = json.loads(first)
    lines = lines_of(said["text"])
    for line in rest[:-1]:
        new = json.loads(line)
        lines = edited(lines, new.pop("edit", [[0, len(lines)]] if lines else []))
        for name in ("add", "own", "begins", "bare"):
            said[name] = said.get(name, [] if name != "add" else "") + new.pop(name, [] if name != "add" else "")
        said |= new
    return said | {"text": "".join(lines)}


def unpack(said: dict[str, Any], choices: Choices) -> Earlier:
    """Where a channel stood by what a file `said`, with the `choices` of now; raises one of FAULTS if that isn't whole."""
    front = f"#EXTM3U\n#EXT-X-MEDIA-SEQUENCE:{said['number']}\n#EXT-X-DISCONTINUITY-SEQUENCE:{said['discontinuity']}\n"
    history = history_of(f"{front}{said['add']}".encode(), [int(it) for it in said["own"]], set(said.get("bare", [])))
    repairer = Repairer(choices)
    version, target, kind = said["head"]
    repairer.head, repairer.adds = Head(version, int(target), kind), bool(said["adds"])
    repairer.past = [it for it in history if said["first"] <= it.number < said["listed"]]
    repairer.last = [it for it in history if it.number >= said["listed"]]
    begins = {int(number): (int(media), int(step)) for number, media, step in said.get("begins", [])}
    viewed = Viewed(Growing(sorted(begins.items())), None, bool(said["is_replaced"]))
    viewed.end = (int(said["end"][0]), int(said["end"][1])) if said["end"] else None
    viewed.reckoned = None if said["reckoned"] is None else Reckoned.read(said["reckoned"], said["breaks"])
    names = [packaged.attributes_of(str(line).partition(":")[2]).get("ID", "") for line, _ in said["ranges"]]
    viewed.ranges = {name: (str(line), int(number)) for name, (line, number) in zip(names, said["ranges"])}
    counts = Counter({str(name): int(count) for name, count in said["repairs"].items()})
    if not repairer.last:
        raise ValueError("it has no segment")
    over = [str(name) for name in said.get("over", [])]
    return Earlier(repairer, viewed, said["text"].encode(), counts, files_of(said), over, pods_of(said.get("pods")), int(said["moved"]))


def converted(said: dict[str, Any]) -> dict[str, Any]:
    """What a file of the format OLDER `said`, as one of the format NEWER says it; raises one of FAULTS if that isn't whole."""
    found = packaged.read(spelling.lines_of(said["history"].encode(), set()))
    lines = [line for line in lines_of(said["history"]) if line.partition(":")[0].strip() not in packaged.WHOLE | {"#EXTM3U"}]
    files = {name: [*it, *said.get("said", {}).get(name, ["", [], False])] for name, it in said["files"].items()}
    return {**said, "number": found.first, "discontinuity": found.discontinuity_sequence, "first": found.first, "files": files,
            "add": "".join(lines), "moved": said.get("moved", 0), "reckoned": None, "breaks": []}


def files_of(said: dict[str, Any]) -> dict[str, list[Any]]:
    """What was known of decision files by what was `said`, as in Earlier."""
    found: dict[str, list[Any]] = {}
    for name, (stamp, given, late, kind, ids, refused) in said["files"].items():
        found[str(name)] = [[int(one) for one in stamp], bool(given), [str(one) for one in late], str(kind), [str(one) for one in ids], bool(refused)]
    return found


def history_of(text: bytes, own: list[int], bare: set[str]) -> list[PackagedSegment]:
    """The segments of the kept list `text` with the packager's numbers `own`; `bare` are the keys that had no IV of their own."""
    found = packaged.read(spelling.lines_of(text, set()))
    discontinuity = found.discontinuity_sequence
    if len(found.segments) != len(own):
        raise ValueError("its numbers aren't as many as its segments")
    for it, number in zip(found.segments, own):
        discontinuity += it.discontinuities
        it.number, it.own, it.discontinuity, it.begins = it.own, number, discontinuity, it.stated
        iv = f",IV=0x{number:032X}"
        it.keys = tuple(Key(key.format, key.text[:-len(iv)], False) if key.text.endswith(iv) and key.text[:-len(iv)] in bare else key for key in it.keys)
    return found.segments


def load(path: Path, choices: Choices) -> Earlier | None:
    """Where the channel stood by the file of numbers `path`; none if there is none. Raises ValueError if it doesn't read."""
    try:
        body = path.read_bytes()
    except FileNotFoundError:
        return None
    except OSError as fault:
        raise ValueError(fault.strerror) from None
    try:
        said = json.loads(body.partition(b"\n")[0])
        if said["format"] not in (NEWER, OLDER):
            raise ValueError(f"format {said['format']}")
        return unpack(converted(json.loads(records.read(path))) if said["format"] == OLDER else read_book(body), choices)
    except FAULTS as fault:
        raise ValueError(why_of(fault)) from None


def why_of(fault: BaseException) -> str:
    """Why something doesn't read, by the `fault` that was raised, one of FAULTS."""
    return str(fault) if type(fault) is ValueError else f"{type(fault).__name__}: {fault}"


# ---- a State of it

def taken_over(folder: Path, fresh: State) -> tuple[State, list[Tell]]:
    """The state that an earlier feed left in the `folder`, over the `fresh` one, and what is to be told of that. Its files stay as they are."""
    told: list[Tell] = []
    found: dict[str, Earlier] = {}
    for name, one in fresh.renditions.items():
        path = folder / f"{name}.numbers"
        try:
            it = load(path, one.stands.repairer.choices) if one.settings.repair else None
        except ValueError as fault:
            told.append(Tell(name, "numbers", 0, "Broken", f"{path}: {fault}; goes on without it"))
            continue
        if it is not None:
            found[name] = it
            told.append(Tell(name, "numbers", 0, "Converted", f"{path}: an earlier feed wrote it; it is read, and from now on {fresh.name}.log has the numbers"))
    signals = signals_of(folder / f"{fresh.name}.signals", fresh, told)
    if not found and not signals:
        return fresh, told
    try:
        return state_of(known_by(fresh, found, signals)), told
    except FAULTS as fault:
        return fresh, [Tell("", "numbers", 0, "Broken", f"{folder}: {why_of(fault)}; goes on without it")]


def signals_of(path: Path, fresh: State, told: list[Tell]) -> dict[str, Any]:
    """What an earlier feed knew of signals, by the file `path`; nothing if it doesn't read, which is `told`."""
    if not any(it.settings.signals for it in fresh.renditions.values()):
        return {}
    try:
        said: dict[str, Any] = json.loads(path.read_bytes())
        state_of(Known(fresh, said))  # (raises one of FAULTS)
        if not all(isinstance(it[0], int) for it in said["done"].values()):
            raise ValueError("a number of it is none")
    except FileNotFoundError:
        return {}
    except OSError as fault:
        told.append(Tell("", "signals", 0, "Broken", f"{path}: {fault.strerror}; begins anew"))
        return {}
    except FAULTS:
        told.append(Tell("", "signals", 0, "Broken", f"{path} isn't what a feed has written; begins anew"))
        return {}
    told.append(Tell("", "signals", 0, "Converted", f"{path}: an earlier feed wrote it; it is read, and from now on {fresh.name}.log has the signals"))
    return said


def known_by(fresh: State, found: dict[str, Earlier], signals: dict[str, Any]) -> Known:
    """The state over the `fresh` one by what was `found` of its channels, and what was known of `signals`. The log's numbers are those of the
    channels that are the most ahead of the programme's, so that none is below 0; the others' controllers are behind these."""
    most = max((it.moved for it in found.values()), default=0)
    theirs = {one.number: one.discontinuity for it in found.values() if it.moved == most for one in it.repairer.past + it.repairer.last}
    renditions, signals = dict(fresh.renditions), dict(signals)
    if signals:
        signals["done"] = dict(signals["done"])
    for name, it in found.items():
        media = it.moved - most
        renditions[name] = rendition_by(fresh.renditions[name], it, (media, steps_ahead(it, theirs, media) if media else 0))
        if signals:
            go_on(signals["done"], renditions[name], media)
    entry = 1 if found else 0
    over = tuple(dict.fromkeys(name for it in found.values() for name in it.over))
    files = files_by({name: it.files for name, it in found.items()}, renditions)
    return Known(replace(fresh, renditions=renditions, entry=entry, decisions=decided_by(found), files=files, over=over), signals)


def steps_ahead(it: Earlier, theirs: dict[int, int], media: int) -> int:
    """By how much the discontinuity numbers of `it`, whose media numbers are ahead by `media`, are greater than `theirs`, which have those of
    the log: by the newest segment that is in both; and so that none is below 0."""
    history = it.repairer.past + it.repairer.last
    ahead = next((one.discontinuity - theirs[one.number - media] for one in reversed(history) if one.number - media in theirs), 0)
    return min(ahead, history[0].discontinuity - history[0].discontinuities)


def renumbered(text: bytes, ahead: tuple[int, int]) -> bytes:
    """The list `text` with media and discontinuity sequence numbers that are less by those that it is `ahead`; a tag that isn't there says 0."""
    for name, by in zip((b"MEDIA", b"DISCONTINUITY"), ahead):
        tag = b"\n#EXT-X-%s-SEQUENCE:" % name
        front, found, rest = text.partition(tag)
        number = re.match(rb"[0-9]{1,20}", rest) if found else None
        if by and number:
            text = front + tag + b"%d" % (int(number[0]) - by) + rest[number.end():]
        elif by and not found:
            first, end, rest = text.partition(b"\n")
            text = first + tag + b"%d" % -by + end + rest
    return text


def rendition_by(fresh: Rendition, it: Earlier, ahead: tuple[int, int]) -> Rendition:
    """The rendition over the `fresh` one by what was found (`it`), whose numbers are `ahead` of the log's. Its controller holds the decisions,
    unless it turns out to be a new one. Whether it took the newest list isn't known."""
    media, steps = ahead
    repairer, viewed = it.repairer, it.viewed
    repairer.siblings = fresh.stands.repairer.siblings
    for one in repairer.past + repairer.last:
        one.number, one.discontinuity = one.number - media, one.discontinuity - steps
    viewed.renumber(-media)
    if viewed.reckoned is not None and viewed.reckoned.newest is not None:
        viewed.reckoned = replace(viewed.reckoned, newest=viewed.reckoned.newest - media, given=viewed.reckoned.given - steps)
    newest = repairer.last[-1].number
    stands = Standing(repairer, viewed, 1, renumbered(it.text, ahead), pods=it.pods, repairs=dict(it.repairs))
    listed = frozenset(name for name, (_, number) in viewed.ranges.items() if number == newest)
    return replace(fresh, stands=stands, controller=Controller(decided=1, took=newest, ahead=ahead), listed=listed)


def go_on(done: dict[str, Any], it: Rendition, ahead: int) -> None:
    """The rendition `it` has listed segments up to its newest, whose signals were looked at: `done` says so, too, in the log's numbers. Those of
    an earlier feed were `ahead` of these."""
    name, newest = it.settings.rendition(), it.stands.repairer.last[-1]
    if (mark := done.get(name)) is not None:
        is_newer = newest.begins is not None and newest.number > mark[0] - ahead
        done[name] = [newest.number, newest.uri, newest.begins] if is_newer else [mark[0] - ahead, *mark[1:]]


def decided_by(found: dict[str, Earlier]) -> tuple[Decided, ...]:
    """The decisions that a controller without the channel is given, as far as an earlier feed kept them: those of breaks that have begun, and
    the fallback."""
    names = dict.fromkeys(name for it in found.values() for name in it.pods.held)
    decided = [Decided(1, {key: decision_of(name, it.pods.held[name]) for key, it in found.items() if name in it.pods.held}, BREAKS, (name,)) for name in names]
    fallback = {key: b'{"fallback":{"ads":%b}}' % it.pods.fallback.encode() for key, it in found.items() if it.pods.fallback is not None}
    return (*([Decided(1, fallback, "fallback", ())] if fallback else []), *decided)


def files_by(found: dict[str, dict[str, list[Any]]], renditions: dict[str, Rendition]) -> dict[str, File]:
    """The decision files, by what was `found` for each channel. One of breaks that haven't begun, and that is still there, is given once more
    for these, as its bytes weren't kept."""
    files: dict[str, File] = {}
    for name in dict.fromkeys(name for it in found.values() for name in it):
        said = {key: it[name] for key, it in found.items() if name in it}
        stamps: dict[str, Stamp] = {key: (it[0][0], it[0][1], it[0][2]) for key, it in said.items()}
        kind, ids = next(iter(said.values()))[3:5]
        late = {one for it in said.values() for one in it[2]}
        begun = set(ids).intersection(*({*it.entered, *it.missed} for it in (renditions[key].stands.pods for key in said))) | late
        is_there = any(folder is not None and (folder / name).exists() for folder in (renditions[key].settings.decisions for key in said))
        is_again = kind == BREAKS and is_there and not begun.issuperset(ids)
        is_given = all(it[1] for it in said.values()) and not is_again
        state = FileState.REFUSED if any(it[5] for it in said.values()) else FileState.GIVEN if is_given else FileState.NEW
        files[name] = File(stamps, {}, kind, tuple(dict.fromkeys(ids)), state, late=frozenset(begun if is_again else late), entry=1 if is_given else 0)
    return files
