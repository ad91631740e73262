"""Decision files on their way into a programme's log: given to all of its renditions, or to none (docs/DECISION_FILES.md).

A file has one name in the folder of each rendition. It waits until all have it, and is given as one entry. What has begun stays as it is.
"""
from __future__ import annotations

import json
from collections.abc import Collection, Mapping
from dataclasses import replace

from adsplice_rules.decisions import decisions_of
from adsplice_rules.values import Fault

from . import faults, playlist, presence
from .decisions import LASTING, MOST_OVER, NO_FALLBACK, OVER, ROOM, said_by, withdrawal
from .edges import measured
from .events import Finish, Stamp
from .packaged import attributes_of, instant_of
from .playlist import SECOND
from .pods import decision_of
from .shapes import fit, misfit, shape_of
from .siblings import is_alike
from .state import Decided, File, FileState, Removed, Rendition, Telling, Way
from .subtitles import without_words
from .turn import Turn, window_of

LATE = 2.0  # seconds after which a file that isn't there in all renditions is told
AGAIN = 0.5  # seconds until decisions are given again for which a controller had no room
MOST_AT_ONCE = 16  # decisions that no listed break needs, given in one turn
MOST_DECISIONS = 1024  # of the log that are kept for a controller that comes back
BREAKS, FALLBACK, WITHDRAW = "breaks", "fallback", "withdraw"  # the kinds of decision files
HEAD, SECTION = 4096, b"#EXT-X-MAP:"  # bytes of a list in which its target duration is looked for; the tag of an initialisation section
NOTHING = b'{"breaks":[]}'  # a decision file that says nothing
J9, J10, J11 = "J9", "J10", "J11"  # faults: a break is in use, there is no room, there is nothing to withdraw


# ---- folders

def take_folders(turn: Turn, folders: Mapping[str, Mapping[str, tuple[Stamp, bytes]]]) -> None:
    """The decision files of the channels are those of the `folders`, by the channels' names. What was given and is removed is taken back from all
    renditions."""
    for name, it in list(turn.state.files.items()):
        if gone := [channel for channel, found in folders.items() if channel in it.stamps and name not in found]:
            take_away(turn, gone, name, it)
    for channel, found in folders.items():
        for name, (stamp, body) in found.items():
            take_file(turn, channel, name, stamp, body)


def put_file(turn: Turn, name: str, it: File | None) -> None:
    """The file `name` is `it` from now on; none if there is no such file any more."""
    others = {key: value for key, value in turn.state.files.items() if key != name}
    old = turn.state.files.get(name)
    if old is not None and it is not None and (old.late, old.state) != (it.late, it.state):
        turn.is_kept = False  # (a later feed has to know)
    turn.set(files=others if it is None else {**others, name: it} if name not in turn.state.files else {**turn.state.files, name: it})


def take_file(turn: Turn, channel: str, name: str, stamp: Stamp, body: bytes) -> None:
    """The `channel` has the file `name` with this `stamp` and `body`."""
    old = turn.state.files.get(name)
    if old is not None and old.stamps.get(channel) == stamp:
        if channel not in old.bodies:  # (an earlier feed has looked at it)
            put_file(turn, name, replace(old, bodies={**old.bodies, channel: body}))
        return
    if old is not None and channel in old.stamps and old.bodies.get(channel) == body and old.state is FileState.GIVEN:
        put_file(turn, name, replace(old, stamps={**old.stamps, channel: stamp}))  # (the same again)
        return
    if old is not None and comes_after(turn, channel, old, said_by(body)[1]):
        put_file(turn, name, replace(old, stamps={**old.stamps, channel: stamp}, bodies={**old.bodies, channel: body}))
        return
    is_going = old is not None and old.state in (FileState.NEW, FileState.GIVEN)
    stamps, bodies = ({**old.stamps, channel: stamp}, {**old.bodies, channel: body}) if old is not None else ({channel: stamp}, {channel: body})
    kind, ids = said_by(body)
    late = old.late if old is not None and is_going and channel not in old.stamps else frozenset[str]()
    put_file(turn, name, None)  # (a changed one comes last)
    put_file(turn, name, File(stamps, bodies, kind, tuple(dict.fromkeys(ids)), late=late, since=turn.at))


def comes_after(turn: Turn, channel: str, old: File, ids: Collection[str]) -> bool:
    """Whether the `channel` is one of subtitles that gets its own part of the file `old` once that was given without it, and its breaks `ids` have begun."""
    needs_none = bool(turn.state.renditions[channel].settings.empty_subtitles) and channel not in old.stamps
    return needs_none and old.state is FileState.GIVEN and set(ids) == set(old.ids) == set(begun_of(turn, old.ids)) - old.late


def take_away(turn: Turn, channels: list[str], name: str, it: File) -> None:
    """The file `name` was removed from the folders of the `channels`: what it decides is taken back from all renditions."""
    stamps, bodies = ({key: value for key, value in said.items() if key not in channels} for said in (it.stamps, it.bodies))
    if it.state is FileState.GIVEN and it.kind in LASTING:
        take_back(turn, channels, name, it)
        it = replace(it, state=FileState.NEW, since=turn.at)
    put_file(turn, name, replace(it, stamps=stamps, bodies=bodies) if stamps else None)


def take_back(turn: Turn, channels: list[str], name: str, it: File) -> None:
    """Takes back the decision of the file `it`, which was removed from the `channels`. A break that has begun keeps its pod."""
    where = f"the file was removed from {', '.join(channels)}" if turn.is_ladder() else "the file was removed"
    if it.kind == FALLBACK:
        bodies = {key: one.fallback or NO_FALLBACK for key, one in turn.renditions()}
        everywhere = " in all renditions" if turn.is_ladder() else ""
        decide(turn, bodies, FALLBACK, (), tells=Telling(f"decisions/{name}", "Removed", f"{where}; takes its fallback back{everywhere}", True))
        return
    others = {id_ for key, other in turn.state.files.items() if key != name and other.state is FileState.GIVEN for id_ in other.ids}
    ids = [id_ for id_ in it.ids if id_ not in others]
    begun = begun_of(turn, ids)
    withdrawn = tuple(id_ for id_ in ids if id_ not in begun)
    turn.set(removed={**turn.state.removed, name: Removed(withdrawn, tuple(begun), it.bodies, where)})
    turn.is_kept = False


def withdraw_removed(turn: Turn, listed: Collection[str], is_all: bool) -> None:
    """Withdraws the breaks of files that were removed, and that a list with the breaks `listed` may enter; if `is_all`, some others, too."""
    given = 0
    for name, it in list(turn.state.removed.items()):
        if it.is_given or not (is_all and given < MOST_AT_ONCE or any(id_ in listed for id_ in it.ids) or not it.ids):
            continue
        given += 1
        begun = begun_of(turn, it.ids)
        ids = tuple(id_ for id_ in it.ids if id_ not in begun)
        turn.set(removed={**turn.state.removed, name: replace(it, ids=ids, begun=(*it.begun, *begun), is_given=True)})
        for id_ in ids:
            withdraw(turn, id_, name)
        tell_removed(turn, name)


def tell_removed(turn: Turn, name: str) -> None:
    """Tells what became of the decision of the file `name`, which was removed, once all its withdrawals are answered."""
    awaited = [it.controller for _, it in turn.renditions() if not it.controller.trials or not turn.is_ladder()]
    if any(it.file == name and it.is_own and any(one.decided < it.entry for one in awaited) for it in turn.state.decisions):
        return
    it = turn.state.removed[name]
    turn.set(removed={key: one for key, one in turn.state.removed.items() if key != name})
    turn.is_kept = False
    everywhere = " in all renditions" if turn.is_ladder() else ""
    turn.tell_decision(f"decisions/{name}", 204, "Removed", f"{it.where}; {taken_back_text(it.ids, it.begun)}{everywhere}", is_again=True)


def taken_back_text(withdrawn: Collection[str], begun: Collection[str]) -> str:
    """What is told of a decision that was taken back: the breaks that are `withdrawn`, and those that have `begun` and keep their pods."""
    said = [f"withdraws {', '.join(withdrawn)}"] if withdrawn else []
    said += [f"{', '.join(begun)} has begun, and keeps its pod"] if begun else []
    return "; ".join(said) or "other files decide its breaks"


# ---- what has begun

def starts_of(it: Rendition) -> dict[str, int]:
    """When each break that the newest list of the rendition says begins, in nanoseconds from 1970."""
    last = it.stands.repairer.last
    newest = last[-1].number if last else 0
    said = [attributes_of(line.partition(":")[2]) for line, number in it.stands.viewed.ranges.values() if number >= newest]
    found = [(one.get("ID"), instant_of(one.get("START-DATE", ""))) for one in said]
    return {name: start for name, start in found if name and start is not None}


def begun_of(turn: Turn, ids: Collection[str]) -> list[str]:
    """Those of the breaks `ids` that have begun in a list which the log gives to a rendition: they stay as they are in all. If breaks are filled in the
    others that a rendition can't begin, one that is empty there hasn't begun before it is so in all."""
    if not ids:
        return []
    found = [empty_of(turn, it, ids) for _, it in turn.renditions()]
    begun = set[str]().union(*(it.stands.pods.entered.keys() & set(ids) for _, it in turn.renditions()))
    begun |= set.intersection(*found) if turn.fills_others() else set.union(*found)
    return [name for name in dict.fromkeys(ids) if name in begun]


def empty_of(turn: Turn, it: Rendition, ids: Collection[str]) -> set[str]:
    """Those of the breaks `ids` that have begun in the rendition, or would have, also if that was without a pod."""
    pods, last = it.stands.pods, it.stands.repairer.last
    begun = {name for name in ids if name in pods.entered or name in pods.missed}
    if last and not begun.issuperset(ids):
        reached = (last[-1].begins or 0) + turn.state.translator.tolerance
        begun |= {name for name, start in starts_of(it).items() if name in ids and start <= reached}
    return begun


# ---- entries

def decide(turn: Turn, bodies: Mapping[str, bytes], kind: str, ids: tuple[str, ...], file: str = "", is_own: bool = False, tells: Telling | None = None) -> int:
    """The log's next entry gives each channel its one of the `bodies`, a decision of this `kind` on the breaks `ids`; the rest as in Decided.
    Answers its number."""
    entry = turn.next_entry()
    kept = [it for it in turn.state.decisions if not is_superseded(turn, it, kind, ids)]
    turn.set(decisions=(*kept[-MOST_DECISIONS:], Decided(entry, bodies, kind, ids, file, is_own, tells)))
    for channel, it in turn.renditions():
        pods = it.stands.pods.copy()
        pods.given(bodies.get(channel, NOTHING))
        turn.put_standing(channel, pods=pods)
    return entry


def body_of(it: Decided, channel: str) -> bytes:
    """What the decision `it` gives the `channel`: nothing, if that became a rendition after it."""
    return it.bodies.get(channel, NO_FALLBACK if it.kind == FALLBACK else NOTHING)


def is_superseded(turn: Turn, it: Decided, kind: str, ids: Collection[str]) -> bool:
    """Whether nobody needs the decision `it` once there is one of this `kind` on the breaks `ids`: all controllers acknowledged it."""
    is_older = it.kind == kind == FALLBACK or it.kind != FALLBACK and kind != FALLBACK and set(it.ids) <= set(ids)
    return is_older and all(one.controller.decided >= it.entry for _, one in turn.renditions())


def withdraw(turn: Turn, name: str, file: str = "", tells: Telling | None = None) -> None:
    """The log's next entry withdraws the break `name` from all channels, of the feed's own accord; the rest as in Decided."""
    decide(turn, dict.fromkeys(turn.state.renditions, withdrawal(name)), WITHDRAW, (name,), file, True, tells)


def forget(turn: Turn, entry: int) -> None:
    """The decision of the `entry` isn't given to anybody any more."""
    turn.set(decisions=tuple(it for it in turn.state.decisions if it.entry != entry))


# ---- files that wait

def needed(it: File, listed: Collection[str]) -> bool:
    """Whether a list with the breaks that are `listed` needs the file `it`: it decides one of them, or isn't of breaks."""
    return it.kind != BREAKS or any(name in listed for name in it.ids)


def give_files(turn: Turn, listed: Collection[str], is_all: bool) -> None:
    """Gives the files that wait and that a list with the breaks `listed` needs; if `is_all`, others, too, as far as there is room for them."""
    withdraw_removed(turn, listed, is_all)
    held = sum(len(it.ids) for it in turn.state.files.values() if it.state is FileState.GIVEN and it.kind == BREAKS)
    held += sum(len(it.ids) for it in turn.state.removed.values())
    waiting = [(name, it) for name, it in turn.state.files.items() if it.state is FileState.NEW and it.since <= turn.at]
    for name, it in waiting:
        if needed(it, listed):
            give_file(turn, name, it)
    has_list = any(it.stands.entry for _, it in turn.renditions())
    given = 0 if has_list else sum(it.state is FileState.GIVEN for it in turn.state.files.values())
    for name, it in waiting if is_all else []:
        if not needed(it, listed) and given < MOST_AT_ONCE and held + len(it.ids) <= ROOM:
            given, held = given + 1, held + len(it.ids)
            give_file(turn, name, it)


def give_file(turn: Turn, name: str, it: File) -> None:
    """Gives the file `it` of the `name` to all renditions, without the breaks that have begun; to none if one hasn't got it."""
    late = [id_ for id_ in begun_of(turn, it.ids) if id_ not in it.late] if it.kind == BREAKS else []
    it = replace(it, bodies=with_subtitles(turn, {channel: body for channel, body in it.bodies.items() if channel in it.stamps}))
    if absent := [channel for channel in turn.state.renditions if channel not in it.bodies]:
        wait_for_rest(turn, name, it, absent, late)
        return
    if it.looked_at is not None and not it.is_there:
        return
    if is_turned_down(turn, name, it):
        return
    if presence.waits(turn, name, it):
        return
    if late:
        it = replace(it, late=it.late | set(late))
        come_late(turn, name, it, late)
    rest = [id_ for id_ in it.ids if id_ not in it.late]
    if it.kind == BREAKS and it.ids and not rest:
        finish(turn, name, it) if turn.is_ladder() else put_file(turn, name, replace(it, state=FileState.GIVEN))
        return
    bodies = {channel: without(body, it.late) if it.late else body for channel, body in it.bodies.items()}
    text = f"decides {', '.join(rest)}" if it.kind == BREAKS else f"withdraws {', '.join(rest)}" if it.kind == WITHDRAW else "sets the fallback"
    everywhere = " in all renditions" if turn.is_ladder() else ""
    entry = decide(turn, bodies, it.kind, tuple(rest), name, tells=None if it.late and not turn.is_ladder() else Telling(f"decisions/{name}", "", f"{text}{everywhere}"))
    put_file(turn, name, replace(it, state=FileState.GIVEN, entry=entry))
    for other, one in list(turn.state.files.items()):
        is_older = it.kind == one.kind == FALLBACK or it.kind != FALLBACK and one.kind == BREAKS and bool(one.ids) and set(one.ids) <= set(it.ids)
        if other != name and one.state is FileState.GIVEN and is_older:
            finish(turn, other, one)
    turn.set(over=tuple(id_ for id_ in turn.state.over if id_ not in it.ids))
    if it.kind == WITHDRAW:
        finish(turn, name, turn.state.files[name])


def is_turned_down(turn: Turn, name: str, it: File) -> bool:
    """Whether the file `it` of the `name`, which all renditions have, can't be given: the renditions' files differ, a list wouldn't take one, it withdraws
    a break that has begun, or it is wrong by the rules. What becomes of it is noted and told."""
    if unfit := unfit_of(turn, it.bodies):
        refuse(turn, name, it, "Unequal", f"the renditions' files don't have the same breaks, with ads and segments of the same lengths: {unfit}")
    elif untaken := untaken_of(turn, it.bodies):
        refuse(turn, name, it, "Unequal", untaken)
    elif it.kind == WITHDRAW and (begun := begun_of(turn, it.ids)):
        turn.tell_decision(f"decisions/{name}", 409, "J9 Used", f"{', '.join(begun)} has begun, and keeps its pod")
        finish(turn, name, it)
    elif wrong := note_wrong(turn, it.bodies):
        refused_file(turn, wrong[0], Decided(0, it.bodies, it.kind, it.ids, name), 422, wrong[1])
    else:
        return False
    return True


def with_subtitles(turn: Turn, bodies: Mapping[str, bytes]) -> dict[str, bytes]:
    """The decision files `bodies` of today's renditions, with those of subtitles that have none: they are made of a rendition's that isn't one of subtitles. Subtitles with
    initialisation sections need their own."""
    found = {channel: bodies[channel] for channel in turn.state.renditions if channel in bodies}
    first = next((body for channel, body in found.items() if not turn.state.renditions[channel].settings.empty_subtitles), None)
    for channel, it in turn.renditions() if first is not None else []:
        head, last = it.stands.repairer.head, it.stands.repairer.last
        if channel not in found and it.settings.empty_subtitles and not (last and last[-1].section is not None):
            found[channel] = without_words(first or b"", it.settings.empty_subtitles, head.target if head is not None else max(1, measured(it) // SECOND))
    return found


def wait_for_rest(turn: Turn, name: str, it: File, absent: list[str], late: list[str]) -> None:
    """The file `it` isn't there in the renditions that are `absent`: tells if that lasts, and gives it up once all its breaks have begun (`late`)."""
    if turn.at - it.since <= LATE:
        return
    if it.ids and set(it.ids) <= set(late) | it.late:
        turn.note(turn.state.renditions, "late", 0, ", ".join(late), json.dumps(late).encode())
        turn.tell_decision(f"decisions/{name}", 0, "Late", f"{', '.join(late)} has begun, and {', '.join(absent)} has no such file; no rendition is given it")
        finish(turn, name, it)
    else:
        turn.tell_decision(f"decisions/{name}", 0, "Waits", f"{', '.join(absent)} has no such file; it is given once all renditions have it")


def come_late(turn: Turn, name: str, it: File, late: list[str]) -> None:
    """The breaks `late` of the file `it` have begun: they stay as they are."""
    turn.note(turn.state.renditions, "late", 0, ", ".join(late), json.dumps(late).encode())
    rest = [id_ for id_ in it.ids if id_ not in it.late]
    has_begun = "has begun in a rendition, and stays in all as it is" if turn.is_ladder() else "has begun, and stays as it is"
    tail = f"; decides {', '.join(rest)}" if rest and not turn.is_ladder() else ""
    turn.tell_decision(f"decisions/{name}", 204, "Late", f"{', '.join(late)} {has_begun}{tail}")


def refuse(turn: Turn, name: str, it: File, fault: str, text: str) -> None:
    """Leaves the file `it` until it is written anew, and tells the `fault` and a `text`."""
    put_file(turn, name, replace(it, state=FileState.REFUSED))
    turn.note(turn.state.renditions, "note", 0, text, json.dumps(list(it.ids)).encode())
    turn.tell_decision(f"decisions/{name}", 0, fault, f"{text}; no rendition has it until its files are written anew")


def finish(turn: Turn, name: str, it: File) -> None:
    """The file `it` is over: it is moved away."""
    put_file(turn, name, replace(it, state=FileState.DONE))
    turn.actions += [Finish(channel, name) for channel in it.stamps if channel in turn.state.renditions]


def retire(turn: Turn, listed: Collection[str]) -> None:
    """Moves the files away whose breaks have all been listed and aren't any more: `listed` are. One whose breaks haven't come stays."""
    for name, it in list(turn.state.files.items()):
        if it.kind != BREAKS or it.state not in (FileState.NEW, FileState.GIVEN) or not it.ids:
            continue
        seen = it.listed | set(listed) & set(it.ids)
        if seen == it.listed and set(listed) & set(it.ids):
            continue
        if seen >= set(it.ids) and not set(listed) & set(it.ids):
            if it.state is FileState.GIVEN:
                turn.set(over=tuple(dict.fromkeys((*turn.state.over, *it.ids))))
            finish(turn, name, it)
            turn.tell_decision(f"decisions/{name}", 0, "", f"{', '.join(it.ids)} is no longer listed; moves the file to done", is_again=True)
        elif seen != it.listed:
            put_file(turn, name, replace(it, listed=seen))


def make_room(turn: Turn) -> None:
    """Withdraws what was decided, left the list, and never began: a controller would hold it for good."""
    past = turn.state.over[:max(0, len(turn.state.over) - MOST_OVER)]
    for name in past:
        if any(name in it.stands.pods.held for _, it in turn.renditions()) and not begun_of(turn, [name]):
            withdraw(turn, name, tells=Telling(f"breaks/{name}", "Over", "it was decided, left the playlist and never began; takes its pod back", True))
    if past:
        turn.set(over=turn.state.over[len(past):])


def forget_past(turn: Turn) -> None:
    """Decisions of breaks that have left the window aren't needed by a new channel any more."""
    acknowledged = min((it.controller.decided for _, it in turn.renditions()), default=0)
    if all(it.kind == FALLBACK or it.entry > acknowledged for it in turn.state.decisions):
        return
    needed = {name for _, it in turn.renditions() for name in (*it.stands.pods.held, *window_of(it.stands))}
    turn.set(decisions=tuple(it for it in turn.state.decisions if it.kind == FALLBACK or it.entry > acknowledged or not needed.isdisjoint(it.ids)))


# ---- answers

def taken(turn: Turn, it: Decided) -> None:
    """A controller took the decision `it`: what it tells is told once all that are there have it."""
    awaited = [one.controller for _, one in turn.renditions() if one.controller.way is Way.THERE or not one.controller.trials]
    if it.file in turn.state.removed and it.is_own:
        tell_removed(turn, it.file)
    elif it.tells is not None and all(one.decided >= it.entry for one in awaited):
        turn.tell_decision(it.tells.who, 204, it.tells.fault, it.tells.text, it.tells.is_again)


def refused(turn: Turn, channel: str, it: Decided, status: int, line: str) -> None:
    """The controller of the `channel` refused the decision `it` by a `status` and a `line`: no rendition has it."""
    code, file = faults.code_of(line), turn.state.files.get(it.file)
    if it.kind == WITHDRAW:
        if code == J9:
            keep_pod(turn, channel, it)
            if it.file and not it.is_own:
                turn.tell_decision(f"decisions/{it.file}", status, line, f"{of_rendition(turn, channel)}{', '.join(it.ids)} has begun, and keeps its pod")
                return
        elif it.file and not it.is_own:
            turn.tell_decision(f"decisions/{it.file}", status, faults.name_of(line), f"{of_rendition(turn, channel)}{faults.meaning(status, line)} ({', '.join(it.ids)})")
            return
        taken(turn, it)
        return
    if code == J9 and set(it.ids) <= turn.state.renditions[channel].stands.pods.entered.keys():
        return  # (it is given what it has once more)
    forget(turn, it.entry)
    if it.kind == FALLBACK and not it.file:
        refused_fallback(turn, channel, status, line)
    elif code == J9 and len(it.ids) > 1:
        for name in it.ids:  # (one break that has begun doesn't keep the others out)
            others = set(it.ids) - {name}
            decide(turn, {key: without(body, others) for key, body in it.bodies.items()}, it.kind, (name,), it.file)  # (what is told, `in_use` tells)
    elif code == J9:
        in_use(turn, channel, it)
    elif code == J10:
        take_from_others(turn, it)
        if file is not None:
            put_file(turn, it.file, replace(file, state=FileState.NEW, since=turn.at + AGAIN))
        turn.tell_decision(f"decisions/{it.file}", status, "J10" if turn.is_ladder() else faults.name_of(line), f"{of_rendition(turn, channel)}{faults.meaning(status, line)}; tries it again")
    else:
        take_from_others(turn, it)
        refused_file(turn, channel, it, status, line)


def of_rendition(turn: Turn, channel: str) -> str:
    """The beginning of a text of the `channel` in a line of its ladder."""
    return f"{channel}: " if turn.is_ladder() else ""


def take_from_others(turn: Turn, it: Decided) -> None:
    """The decision `it` was refused by one controller: those that took it lose it, and it counts for none."""
    if turn.is_ladder() and it.kind == FALLBACK:
        decide(turn, dict.fromkeys(turn.state.renditions, NO_FALLBACK), FALLBACK, ())
    elif turn.is_ladder():
        for name in it.ids:
            withdraw(turn, name)
    else:
        for channel, one in turn.renditions():
            pods = one.stands.pods.copy()
            for name in it.ids:
                pods.held.pop(name, None)
            turn.put_standing(channel, pods=pods)


def refused_file(turn: Turn, channel: str, it: Decided, status: int, line: str) -> None:
    """The file of the decision `it` isn't one that a controller takes: it is left until it is written anew."""
    file = turn.state.files.get(it.file)
    if file is None:
        return
    if turn.is_ladder():
        refuse(turn, it.file, file, faults.name_of(line), f"{channel}: {faults.meaning(status, line)} ({line})")
    else:
        put_file(turn, it.file, replace(file, state=FileState.REFUSED))
        path = next(iter(turn.state.renditions.values())).settings.decisions
        turn.tell_decision(f"decisions/{it.file}", status, line, f"{faults.meaning(status, line)}; leaves it, and takes it once it is written anew "
                                                                 f"(adsplice-pod --check {path}/{it.file})")


def in_use(turn: Turn, channel: str, it: Decided) -> None:
    """The break of the decision `it` has begun with another pod in the controller of the `channel`, which the log doesn't know: it keeps that."""
    if turn.is_ladder():
        take_from_others(turn, it)
    put_use(turn, channel, it.ids)
    file = turn.state.files.get(it.file)
    turn.note(turn.state.renditions, "late", 0, ", ".join(it.ids), json.dumps(list(it.ids)).encode())
    if file is None:
        return
    file = replace(file, late=file.late | set(it.ids))
    put_file(turn, it.file, file)
    rest = [name for name in file.ids if name not in file.late]
    where = f" in {channel}" if turn.is_ladder() else ""
    tail = "; no rendition is given another one" if turn.is_ladder() else f"; decides {', '.join(rest)}" if rest else ""
    turn.tell_decision(f"decisions/{it.file}", 409, "J9" if turn.is_ladder() else "J9 Used", f"{', '.join(it.ids)} has begun{where}, and keeps its pod{tail}")


def keep_pod(turn: Turn, channel: str, it: Decided) -> None:
    """The break that `it` withdraws has begun in the controller of the `channel`: it keeps its pod, and so it does in the other renditions."""
    put_use(turn, channel, it.ids)
    if (removed := turn.state.removed.get(it.file)) is None:
        return
    ids = tuple(name for name in removed.ids if name not in it.ids)
    turn.set(removed={**turn.state.removed, it.file: replace(removed, ids=ids, begun=tuple(dict.fromkeys((*removed.begun, *it.ids))))})
    if turn.is_ladder() and turn.state.renditions.keys() <= removed.bodies.keys():
        others = {name for body in removed.bodies.values() for name in said_by(body)[1]} - set(it.ids)
        decide(turn, {key: without(body, others) for key, body in removed.bodies.items()}, BREAKS, it.ids)


def put_use(turn: Turn, channel: str, ids: Collection[str]) -> None:
    """The breaks `ids` have begun in the controller of the `channel` with pods that the log doesn't know: so aren't its numbers."""
    stands = turn.state.renditions[channel].stands
    pods, viewed = stands.pods.copy(), stands.viewed.copy()
    for name in ids:
        pods.held.pop(name, None)
    viewed.reckoned = None
    turn.put_standing(channel, pods=pods, viewed=viewed)


# ---- the fallback

def give_fallback(turn: Turn) -> None:
    """Gives the fallback files if they have changed; in a ladder none is given until all renditions have one."""
    found = with_subtitles(turn, {channel: it.fallback for channel, it in turn.renditions() if it.fallback is not None})
    lacking = [channel for channel, it in turn.renditions() if it.settings.fallback is not None and channel not in found]
    wanted: dict[str, bytes] = {}
    if not lacking:
        wanted = dict(found) if len(found) == len(turn.state.renditions) else {}
    elif turn.is_ladder() and len(lacking) < len(turn.state.renditions):
        turn.tell("", "fallback", 0, "Missing", f"{', '.join(lacking)} has no fallback file; no rendition has a fallback until all have one")
        wanted = dict.fromkeys(turn.state.renditions, NO_FALLBACK)
    if untaken := untaken_of(turn, wanted):  # (it may have been given before the lists were known)
        turn.tell("", "fallback", 0, "Unequal", f"{untaken}; no rendition has a fallback until that is mended")
        wanted = dict.fromkeys(turn.state.renditions, NO_FALLBACK)
    if not wanted or wanted == turn.state.fallback:
        return
    if unfit := unfit_of(turn, wanted):  # (files are written one by one: the last ones stay meanwhile)
        turn.tell("", "fallback", 0, "Unequal", f"the renditions' fallback files don't have ads and segments of the same lengths: {unfit}; goes on with those before")
        return
    is_changed = bool(turn.state.fallback) or any(it.stands.entry for _, it in turn.renditions())
    turn.set(fallback=wanted)
    if (wrong := note_wrong(turn, wanted)) and turn.is_ladder():
        refused_fallback(turn, wrong[0], 422, wrong[1])
        return
    if wrong:
        turn.tell(wrong[0], "fallback", 422, wrong[1], f"{faults.meaning(422, wrong[1])}; goes on without it")
        return
    is_told = is_changed and not turn.is_ladder()
    keep_for_late(turn)
    decide(turn, wanted, FALLBACK, (), tells=Telling("fallback", "", "the file has changed: sets it anew", True) if is_told else None)


def keep_for_late(turn: Turn) -> None:
    """A break that the fallback fills in a rendition, and to which another one hasn't come, is decided so for that one, before the fallback changes."""
    for one in turn.state.translator.breaks.known if turn.is_ladder() else ():
        stands = {channel: it.stands.pods for channel, it in turn.renditions()}
        late = {channel: it.fallback for channel, it in stands.items() if one.id not in it.entered and one.id not in it.held and one.id not in it.missed}
        if late and None not in late.values() and any(one.id in it.entered and one.id not in it.held for it in stands.values()):
            bodies = {channel: decision_of(one.id, late[channel] or "[]") if channel in late else NOTHING for channel in stands}
            decide(turn, bodies, BREAKS, (one.id,), FALLBACK, True)


def refused_fallback(turn: Turn, channel: str, status: int, line: str) -> None:
    """The controller of the `channel` refused its fallback file: no rendition has one until the file is mended."""
    if turn.is_ladder():
        turn.tell("", "fallback", 0, faults.name_of(line), f"{channel}: {faults.meaning(status, line)} ({line}); no rendition has a fallback until its file is mended")
        decide(turn, dict.fromkeys(turn.state.renditions, NO_FALLBACK), FALLBACK, ())
        return
    turn.tell(channel, "fallback", status, line, f"{faults.meaning(status, line)}; goes on without it")
    pods = turn.state.renditions[channel].stands.pods.copy()
    pods.fallback = None
    turn.put_standing(channel, pods=pods)


# ---- bodies

def wrong_of(bodies: Mapping[str, bytes]) -> tuple[str, str] | None:
    """The first channel of the decision files `bodies` whose controller would refuse its one, with the fault's text; none if each takes its
    own. What one of them refuses, none may begin a break with, and lists come right after decisions."""
    for channel, body in bodies.items():
        try:
            decisions_of(body)
        except Fault as fault:
            return channel, str(fault)
    return None


def note_wrong(turn: Turn, bodies: Mapping[str, bytes]) -> tuple[str, str] | None:
    """As wrong_of; it is noted as if the controller had refused it, for the monitor and the explainer."""
    wrong = wrong_of(bodies)
    if wrong:
        turn.note([wrong[0]], "decisions", 422, wrong[1], bodies[wrong[0]])
    return wrong


def without(body: bytes, ids: Collection[str]) -> bytes:
    """The decision file `body` without the breaks `ids`."""
    return json.dumps({"breaks": [it for it in json.loads(body)["breaks"] if it["id"] not in ids]}).encode()


def unfit_of(turn: Turn, bodies: Mapping[str, bytes]) -> str:
    """Which of the decision files `bodies` of a programme's channels doesn't fit the first one (shapes), in words; empty if all fit."""
    found = [(channel, shape_of(body), measured(turn.state.renditions[channel])) for channel, body in bodies.items()] if turn.is_ladder() else []
    known = [it for it in found if it[1] is not None]
    for channel, shape, pace in known:
        first, other, its = next(it for it in known if is_alike(pace, it[2]))
        if not fit(other, shape, True):
            return f"{channel}'s aren't those of {first}"
        if not fit(known[0][1], shape, is_alike(known[0][2], pace)):
            return f"{channel}'s aren't as long as those of {known[0][0]}"
    return ""


def untaken_of(turn: Turn, bodies: Mapping[str, bytes]) -> str:
    """Which channels wouldn't be filled by their ones of the decision files `bodies`, though others would, and why; empty if all would, or none."""
    whys: dict[str, str] = {}
    for channel, it in turn.renditions() if turn.is_ladder() else ():
        head, last, came = it.stands.repairer.head, it.stands.repairer.last, it.came or b""
        target = head.target if head is not None else playlist.read(came[:HEAD]).target
        if channel in bodies and target is not None:
            whys[channel] = misfit(bodies[channel], target, last[-1].section is not None if last else SECTION in came)
    found = {channel: why for channel, why in whys.items() if why}
    return "; ".join(f"{channel} wouldn't be filled: {why}" for channel, why in found.items()) if len(found) < len(whys) else ""
