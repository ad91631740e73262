"""An entry of a programme's log, as text: what changed from one State to the next, as JSON takes it, and the next one by that.

`difference` and `after` are each other's inverse, but for what ends with the process: what was read and not given, requests on their way, and
moments of the clock that never goes back. A whole state is what changed from one of which nothing is known.
"""
from __future__ import annotations

from collections.abc import Iterable, Mapping
from dataclasses import dataclass, replace
from typing import Any

from .packing import Said, bytes_of, changed, changes, of_standing, standing_after, text_of
from .packaged import Shift
from .repair import Choices, Repairer
from .state import Controller, Decided, File, FileState, Removed, Rendition, Standing, State, Way
from .translator import Translator

NOTHING = Standing(Repairer(Choices()))  # where a rendition stands of which nothing is known
OF_RENDITIONS = ("done", "firsts", "lows", "seen", "stated", "cuts")  # members of what a Translator keeps, by the renditions' names
NUMBERS = ("decided", "listed", "took", "reached", "anew", "led", "unfit", "refused")  # members of a Controller
WAITS = float("-inf")  # until when lists wait for the decision of a break that an earlier feed asked for: no more


@dataclass(frozen=True)
class Known:
    """A `state`, and what its Translator keeps (`signals`)."""

    state: State
    signals: Mapping[str, Any]


def known_of(state: State, before: Known | None = None) -> Known:
    """The `state` as one that is known; `before` is one whose Translator may be the same."""
    is_same = before is not None and before.state.translator is state.translator
    return Known(state, before.signals if before is not None and is_same else state.translator.kept())


def nothing_of(state: State) -> Known:
    """A state of the same renditions as `state`, of which nothing is known."""
    renditions = {name: Rendition(it.settings, NOTHING) for name, it in state.renditions.items()}
    return Known(State(state.name, renditions, Translator()), {})


# ---- what changed

def difference(old: Known, now: Known) -> Said:
    """What changed from the state `old` to `now`, which has the same renditions."""
    was, it = old.state, now.state
    said: Said = {"n": it.entry}
    renditions = {name: of_rendition(was.renditions[name], one) for name, one in it.renditions.items() if one is not was.renditions[name]}
    if any(renditions.values()):
        said["renditions"] = {name: one for name, one in renditions.items() if one}
    if files := changes(was.files, it.files, file_said):
        said["files"] = files
    if decisions := of_decisions(was.decisions, it.decisions):
        said["decisions"] = decisions
    if now.signals is not old.signals and now.signals != old.signals:
        said["signals"] = {name: value for name, value in now.signals.items() if name not in old.signals or value != old.signals[name]}
    if it.asked is not was.asked and it.asked.keys() != was.asked.keys():
        said["asked"] = [*it.asked]
    if it.fallback is not was.fallback and it.fallback != was.fallback:
        said["fallback"] = texts_of(it.fallback)
    if it.over != was.over:
        said["over"] = it.over
    if it.removed is not was.removed and it.removed != was.removed:
        said["removed"] = {name: [one.ids, one.begun, texts_of(one.bodies), one.where, one.is_given] for name, one in it.removed.items()}
    if it.equal_after != was.equal_after:
        said["equal_after"] = it.equal_after
    if it.shifts != was.shifts:
        said["shifts"] = it.shifts
    if it.is_apart != was.is_apart:
        said["apart"] = sorted(it.is_apart)
    if it.life != was.life:
        said["life"] = it.life
    return said


def of_rendition(old: Rendition, now: Rendition) -> Said:
    """What changed of a rendition. Its `before` is said by what changed since it stood on the line before: nothing, as a rule. So is where it
    stands now, or by what changed since the `before` of that line, if that holds again, or since its own."""
    said: Said = of_controller(old.controller, now.controller)
    if now.before is not old.before:
        said["before"] = None if now.before is None else {} if now.before is old.stands else of_standing(old.stands, now.before)
    if now.stands is not old.stands:
        base, name = old.stands, ""
        if old.before is not None and now.stands.repairer is old.before.repairer:
            base, name = old.before, "was before"
        elif now.before is not None and old.stands is NOTHING:
            base, name = now.before, "before"
        said["stands"] = of_standing(base, now.stands) | ({"since": name, "repairs": dict(now.stands.repairs)} if name else {})
    if now.fallback != old.fallback:
        said["fallback"] = now.fallback if now.fallback is None else text_of(now.fallback)
    if now.is_blocked != old.is_blocked:
        said["is_blocked"] = now.is_blocked
    if now.listed != old.listed:
        said["listed"] = now.listed if now.listed is None else sorted(now.listed)
    return said


def of_controller(old: Controller, now: Controller) -> Said:
    """What changed of what a controller acknowledged, as the member `controller`."""
    if now is old:
        return {}
    said: Said = {}
    for name in NUMBERS:
        if getattr(now, name) != getattr(old, name):
            said[name] = getattr(now, name)
    if now.way is not old.way:
        said["way"] = now.way.value
    if now.ahead != old.ahead:
        said["ahead"] = now.ahead
    if now.first != old.first:
        said["first"] = [text_of(it) for it in now.first]
    return {"controller": said} if said else {}


def texts_of(bodies: Mapping[str, bytes]) -> dict[str, str]:
    """The `bodies` as texts."""
    return {name: text_of(it) for name, it in bodies.items()}


def file_said(old: File | None, now: File) -> Said:
    """What changed of a decision file, of which a new one has its bodies."""
    was = {} if old is None else file_members(old)
    return {name: it for name, it in file_members(now).items() if name not in was or it != was[name]}


def file_members(it: File) -> Said:
    """A decision file as JSON takes it."""
    bodies = it.bodies if it.state == FileState.NEW else {}
    return {"stamps": dict(it.stamps), "bodies": texts_of(bodies), "kind": it.kind, "ids": it.ids, "state": it.state.value,
            "listed": sorted(it.listed), "late": sorted(it.late), "entry": it.entry}


def of_decisions(old: tuple[Decided, ...], now: tuple[Decided, ...]) -> list[Any]:
    """The decisions `now`, each as its place among the `old` ones, or as it is if it is new; nothing if they are the same."""
    if now is old or now == old:
        return []
    places = {id(it): place for place, it in enumerate(old)}
    said = [places[id(it)] if id(it) in places else [it.entry, texts_of(it.bodies), it.kind, it.ids, it.file, it.is_own] for it in now]
    return said or [None]


# ---- the next state

def after(old: Known, said: Said) -> Known:
    """The state after `old`, by what was `said`. What is said of a rendition that `old` hasn't is passed over. Raises ValueError, TypeError,
    KeyError, IndexError or AttributeError if it isn't what `difference` answered."""
    was = old.state
    renditions = {name: rendition_after(it, said["renditions"][name]) if name in said.get("renditions", {}) else it for name, it in was.renditions.items()}
    files = changed(was.files, said["files"], file_of) if "files" in said else was.files
    decisions = decisions_of(was.decisions, said["decisions"]) if "decisions" in said else was.decisions
    asked = {str(name): WAITS for name in said["asked"]} if "asked" in said else was.asked
    over = tuple(str(name) for name in said["over"]) if "over" in said else was.over
    removed = {str(name): removed_of(*one) for name, one in said["removed"].items()} if "removed" in said else was.removed
    fallback = {str(name): bytes_of(text) for name, text in said["fallback"].items()} if "fallback" in said else was.fallback
    apart = frozenset(str(name) for name in said["apart"]) if "apart" in said else was.is_apart
    shifts = tuple(Shift(int(since), int(by)) for since, by in said["shifts"]) if "shifts" in said else was.shifts
    now = replace(was, renditions=renditions, entry=int(said["n"]), decisions=decisions, files=files, asked=asked, over=over, removed=removed, fallback=fallback,
                  equal_after=int(said.get("equal_after", was.equal_after)), is_apart=apart, life=str(said.get("life", was.life)), shifts=shifts)
    return Known(now, {**old.signals, **said.get("signals", {})})


def rendition_after(old: Rendition, said: Said) -> Rendition:
    """The rendition after `old`, by what was `said`."""
    before, stands = old.before, old.stands
    if "before" in said:
        before = None if said["before"] is None else standing_after(old.stands, said["before"])
    if "stands" in said:
        base = {"": old.stands, "was before": old.before, "before": before}[said["stands"].get("since", "")]
        if base is None:
            raise ValueError("it stands after what isn't said")
        stands = standing_after(base, said["stands"])
    fallback, listed = said.get("fallback", old.fallback), said.get("listed", old.listed)
    return replace(old, stands=stands, before=before, controller=controller_of(old.controller, said["controller"]) if "controller" in said else old.controller,
                   fallback=bytes_of(fallback) if isinstance(fallback, str) else fallback, is_blocked=bool(said.get("is_blocked", old.is_blocked)),
                   listed=None if listed is None else frozenset(str(name) for name in listed))


def blank(it: Rendition) -> Standing:
    """Where the rendition `it` stands while nothing is known of it."""
    return Standing(Repairer(it.stands.repairer.choices, it.stands.repairer.siblings))


def controller_of(old: Controller, said: Said) -> Controller:
    """The controller after `old`, by what was `said`."""
    numbers = {name: int(said[name]) for name in NUMBERS if name in said}
    media, steps = said.get("ahead", old.ahead)
    first = tuple(bytes_of(it) for it in said["first"]) if "first" in said else old.first
    return replace(old, **numbers, way=Way(said.get("way", old.way)), ahead=(int(media), int(steps)), first=first)


def file_of(old: File | None, said: Said) -> File:
    """The decision file that was `said` after `old`."""
    it = (file_members(old) if old is not None else {}) | said
    stamps = {str(name): (int(at), int(size), int(inode)) for name, (at, size, inode) in it["stamps"].items()}
    bodies = {str(name): bytes_of(text) for name, text in it["bodies"].items()}
    return File(stamps, bodies, str(it["kind"]), tuple(str(name) for name in it["ids"]), FileState(it["state"]),
                frozenset(str(name) for name in it["listed"]), frozenset(str(name) for name in it["late"]), entry=int(it["entry"]))


def decisions_of(old: tuple[Decided, ...], said: list[Any]) -> tuple[Decided, ...]:
    """The decisions after the `old` ones, by what was `said`."""
    return tuple(old[it] if isinstance(it, int) else decided_of(*it) for it in said if it is not None)


def removed_of(ids: Iterable[str], begun: Iterable[str], bodies: Mapping[str, str], where: str, is_given: bool) -> Removed:
    """A decision file that was removed."""
    return Removed(tuple(str(name) for name in ids), tuple(str(name) for name in begun), {str(name): bytes_of(it) for name, it in bodies.items()}, str(where), bool(is_given))


def decided_of(entry: int, bodies: Mapping[str, str], kind: str, ids: Iterable[str], file: str, is_own: bool) -> Decided:
    """A decision of the log."""
    return Decided(int(entry), {str(name): bytes_of(it) for name, it in bodies.items()}, str(kind), tuple(str(name) for name in ids), str(file), bool(is_own))


def state_of(known: Known) -> State:
    """The state that is `known`, with its Translator, without what is of renditions that it hasn't."""
    it, names = known.state, known.state.renditions.keys()
    own = {one.settings.rendition() for one in it.renditions.values()}
    kept = {name: {one: said for one, said in value.items() if one in own} if name in OF_RENDITIONS else value for name, value in known.signals.items()}
    translator = it.translator.copy()
    if kept:
        translator.resume(kept)
    decisions = tuple(replace(one, bodies={name: body for name, body in one.bodies.items() if name in names}) for one in it.decisions)
    files = {name: replace(one, stamps={key: stamp for key, stamp in one.stamps.items() if key in names},
                           bodies={key: body for key, body in one.bodies.items() if key in names}) for name, one in it.files.items()}
    return replace(it, translator=translator, decisions=decisions, files=files, is_apart=it.is_apart & names)
