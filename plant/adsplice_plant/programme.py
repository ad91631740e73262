"""The feed of a programme as a function: a state and an event make the next state, and what is to be done.

All renditions of a programme are read, put right and translated together, and given as one entry of its log. That is kept before any
controller gets something of it. No clock, file or socket is known here (shell).
"""
from __future__ import annotations

from collections import Counter
from collections.abc import Collection, Mapping
from dataclasses import dataclass, replace
from itertools import accumulate

from . import apart, controllers, decided, joining, packaged, presence, ranges, repairs, slates, spelling
from .edges import by_last, edge_of, note_behind, patience_ends, up_to
from .breaks import Break, Line, shown
from .clocks import shifts_after, shifts_begun
from .events import Action, Answered, Ask, AskedInVain, Began, Event, FallbackRead, FolderRead, Found, ListRead, Looked, OriginChanged, SlateRead, Tell, Ticked
from .events import Repaired as RepairTold
from .packaged import PackagedList, PackagedSegment, Shift
from .playlist import SECOND
from .reckoning import Numbers, Reckoned, Store
from .repair import Repaired, Repairer, count_on
from .replay import as_elsewhere, as_it_runs
from .siblings import Reach, Sibling, Siblings, is_alike, number_after, pace_of, reach_of
from .state import FileState, Rendition, Standing, State, Way
from .traits import cut_near, usual_length
from .translator import Translator
from .turn import Turn, history_of, window_of
from .values import changed

STEP = 3.0  # target durations that the first lists of renditions have to come into step
MOST_OLDER = 4  # lists that wait to be taken in before the newest one
MOST_REMEMBERED = 120  # segments that left a list, for other renditions
SHARE = 0.45  # of a target duration: no list waits longer for a decision
HEAD = 4096  # bytes of a list in which its target duration is looked for
HELD = 0.5  # seconds between two looks while a list is held back
OFTEN = 0.25  # the same while a decision file waits
WORDS = {repairs.LAGS: "Lags", repairs.EMPTY: "Empty", "": ""}


def step(state: State, event: Event, at: float, clock: int) -> tuple[State, list[Action]]:
    """The state after the `event`, and what is to be done in this order. `at`: seconds of a clock that never goes back; `clock`: the time of day
    in nanoseconds from 1970."""
    turn = Turn(state, at, clock)
    take(turn, event)
    give(turn)
    controllers.send(turn)
    return turn.state, turn.actions


def wake(state: State, at: float) -> float | None:
    """The moment from `at` on at which time alone brings something about; none if nothing waits for it."""
    found = [it.controller.retry_at for it in state.renditions.values() if it.controller.sent is None and it.controller.retry_at > at]
    if any(it.is_new for it in state.renditions.values()):
        found.append(state.waits_until if at < state.waits_until else looks_again(state, at))
    if any(it.state is FileState.NEW for it in state.files.values()):
        found.append(at + OFTEN)
    return min(found, default=None)


def looks_again(state: State, at: float) -> float:
    """The moment after `at` at which a list that is new is looked at again: one that waits for other renditions once nobody waits for one of them."""
    its, target = state.renditions.values(), Turn(state, at, 0).target()
    if len(its) == 1 or any(it.is_new and (it.older or not it.stands.entry or it.stands.repairer.held_since is not None) for it in its):
        return at + HELD
    return min((end for it in its if (end := patience_ends(it, target)) > at), default=at + HELD)


def target_of(state: State, channel: str) -> int | None:
    """The target duration of the newest list of the `channel`, in seconds; none if it isn't known."""
    head = state.renditions[channel].stands.repairer.head
    return head.target if head is not None else None


# ---- events

def take(turn: Turn, event: Event) -> None:
    """Takes in the `event`."""
    if turn.state.rests_until and not isinstance(event, Ticked):
        turn.set(rests_until=0.0)
    if isinstance(event, ListRead):
        take_list(turn, event)
    elif isinstance(event, OriginChanged):
        turn.put(event.channel, is_other=True)
    elif isinstance(event, FolderRead):
        decided.take_folders(turn, {event.channel: event.files})
        turn.set(waits_until=0.0)
    elif isinstance(event, FallbackRead):
        turn.put(event.channel, fallback=event.body)
    elif isinstance(event, SlateRead):
        turn.put(event.channel, slate=event.body)
    elif isinstance(event, Answered):
        controllers.answered(turn, event)
    elif isinstance(event, Found):
        controllers.found(turn, event)
    elif isinstance(event, AskedInVain):
        turn.set(asked={**turn.state.asked, event.id: turn.at}, waits_until=0.0)
    elif isinstance(event, Looked):
        presence.take(turn, event)
    elif isinstance(event, Began):
        begin_again(turn)
        decided.take_folders(turn, event.folders)
        for channel, body in event.fallbacks.items():
            turn.put(channel, fallback=body)


def take_list(turn: Turn, event: ListRead) -> None:
    """The list of a channel was read."""
    it = turn.state.renditions[event.channel]
    if it.came == event.body or it.is_new and it.came is not None and is_older(event.body, it.came):
        return
    reach = reach_of(event.body) if len(turn.state.renditions) > 1 else Reach(None, number_after(event.body), 0)
    came_at = it.came_at if reach == it.reach else turn.at
    since = max(one.came_at for _, one in turn.renditions())
    turn.put(event.channel, came=event.body, reach=reach, came_at=came_at, read_at=turn.at if event.at is None else event.at, is_new=True, older=older_than(it, event.body))
    if came_at == turn.at:
        note_behind(turn, event.channel, reach, since)
    turn.set(waits_until=0.0)


def older_than(it: Rendition, body: bytes) -> tuple[bytes, ...]:
    """The lists of the rendition that are to be taken in before the newest one, which has the `body`: those that have what left that. None if it goes on
    from the last one that was taken in."""
    if not it.stands.repairer.last:
        return ()  # (viewers begin with the newest list)
    if not it.is_new or it.came is None:
        return it.older
    if has_newest(it, body):
        return ()
    is_left = not has_path(body, newest_of(it.older[-1]) if it.older else oldest_of(it.came))
    return (*it.older, it.came)[-MOST_OLDER:] if is_left else it.older


def is_older(body: bytes, came: bytes) -> bool:
    """Whether the list `body` is an older one than that which `came` and still waits, as a cache may have it: that has its newest segment, and a newer one."""
    mine, newest = newest_of(body), newest_of(came)
    return bool(mine) and mine != newest and has_path(came, mine) and not has_path(body, newest)


def has_newest(it: Rendition, body: bytes) -> bool:
    """Whether the list `body` has the newest segment of the rendition `it`."""
    return has_path(body, it.stands.repairer.last[-1].uri.partition("?")[0].encode())


def next_of(it: Rendition) -> bytes:
    """The list of the rendition that is to be taken in next; nothing if none came."""
    return it.older[0] if it.older else it.came or b""


def goes_on(it: Rendition) -> bool:
    """Whether the next list of the rendition goes on from the last one that was taken in."""
    return it.stands.repairer.held_since is None and (not it.stands.repairer.last or it.came is None or has_newest(it, next_of(it)))


def begins_at(turn: Turn, it: Rendition) -> int:
    """The instant at which the rendition's next list begins that doesn't go on; 0 if it goes on. Its first list counts as half a target duration later: renditions
    are cut at other times."""
    if not it.stands.repairer.last:
        return first_instant(next_of(it)) + int(turn.target() * SECOND / 2)
    return 0 if goes_on(it) else first_instant(next_of(it))


def has_path(body: bytes, path: bytes) -> bool:
    """Whether the list `body` has a segment of this `path`, or one alone of its last part: hosts and folders may be spelled otherwise in each list."""
    return body.rfind(path) >= 0 or body.count(b"/" + path.rpartition(b"/")[2]) == 1


def newest_of(body: bytes) -> bytes:
    """The path of the last URI of the list `body`."""
    return next((line.partition(b"?")[0] for line in reversed(body.splitlines()) if line.strip() and not line.startswith(b"#")), b"")


def oldest_of(body: bytes) -> bytes:
    """The path of the first URI of the list `body`."""
    return next((line.partition(b"?")[0] for line in body.splitlines() if line.strip() and not line.startswith(b"#")), b"")


def begin_again(turn: Turn) -> None:
    """The feed has begun: whether the controllers are there isn't known. Nobody waits any more for what an earlier feed waited for."""
    for channel, _ in turn.renditions():
        controllers.may_have_taken(turn, channel)
        turn.put_controller(channel, way=Way.UNKNOWN, sent=None, trials=0, retry_at=0.0, is_unseen=False)
        turn.put(channel, came_at=turn.at, given_at=float("-inf"))
    begun = decided.begun_of(turn, turn.state.asked)  # (the others are asked for again, unless they were answered)
    turn.set(asked=dict.fromkeys(begun, turn.at), waits_until=0.0, in_step_since=None)
    presence.begin_again(turn)


# ---- a turn

def give(turn: Turn) -> None:
    """Gives what is new: the fallback, lists with the decisions that they need, and other decisions."""
    if turn.at < turn.state.waits_until:
        return
    decided.give_fallback(turn)
    take_lists(turn)
    listed = listed_ids(turn)
    give_files(turn, listed)
    if all(it.listed is not None for _, it in turn.renditions()):
        decided.retire(turn, frozenset[str]().union(*(it.listed or () for _, it in turn.renditions())))
        decided.make_room(turn)
        decided.forget_past(turn)


def give_files(turn: Turn, listed: Collection[str]) -> None:
    """Gives the decision files that lists with the breaks `listed` need, and others once the controllers have what was given."""
    there = [it.controller for _, it in turn.renditions() if it.controller.way is Way.THERE and not it.controller.trials]
    newest = max((it.entry for it in turn.state.decisions), default=0)
    has_list = all(it.came is not None or it.stands.entry for _, it in turn.renditions())
    decided.give_files(turn, listed, has_list and all(it.decided >= newest for it in there))


def listed_ids(turn: Turn) -> set[str]:
    """The IDs of the date ranges that the next lists may have: those of the newest lists, also of those that weren't taken in, and those that
    viewers have."""
    found: set[str] = set()
    for _, it in turn.renditions():
        found |= (it.listed or frozenset()) | it.stands.viewed.ranges.keys()
        if it.is_new and it.came is not None:
            found |= ranges.ids_in(ranges.ranges_in(it.came))
    return found


@dataclass
class Taken:
    """A list of a channel that was put right: by the `repairer` it became `repaired`; its text was the `body`. `is_part`: more of it is to come."""

    repairer: Repairer
    repaired: Repaired
    body: bytes
    is_part: bool

    def found(self) -> PackagedList:
        """What it lists; nothing if that isn't known."""
        return self.repaired.found or PackagedList()


def take_lists(turn: Turn) -> None:
    """Takes in the lists that are new: puts them right, translates them, and gives them as one entry, once the decisions are there that they
    wait for."""
    due = [channel for channel, it in turn.renditions() if it.is_new and not controllers.is_busy(it)]
    if not due or turn.at < turn.state.rests_until or not may_begin(turn):
        return
    follow_clock(turn)
    if not any(it.stands.entry for _, it in turn.renditions()):
        due.sort(key=lambda channel: first_instant(next_of(turn.state.renditions[channel])))
    else:  # (of those that begin again together each has what the others have that begin before it; one that comes later than the others, what all have then)
        due.sort(key=lambda channel: begins_at(turn, turn.state.renditions[channel]))
    found: dict[str, Taken] = {}
    older = {channel: turn.state.renditions[channel].older for channel in due}
    coming = coming_together(turn, due)
    for channel in due:
        if (taken := put_right(turn, channel, found, coming)) is not None:
            found[channel] = taken
    if not found:
        return
    translator = turn.state.translator.copy()
    translator.breaks.shift = turn.state.shift()
    busy = {channel: righted(turn, channel, found) for channel, it in turn.renditions() if it.is_new and channel not in due}
    told = translate(turn, translator, found, busy) if turn.state.renditions[due[0]].settings.signals else []
    keep_clock(turn, translator, found)
    learn(turn, found)
    pass_over(turn, translator, found)
    listed = listed_ids(turn) | {name for it in found.values() for name in ranges.ids_in(it.found().date_ranges())}
    presence.keep_earlier(turn, translator.breaks.known, max(end_of(it.found()) for it in found.values()))
    decided.give_files(turn, listed, False)
    if waits(turn, translator, found):
        for channel in found:
            turn.put(channel, is_new=True, older=older[channel])
        return
    place = len(turn.actions)
    if not any(it.stands.entry for _, it in turn.renditions()):
        decided.give_files(turn, listed, True)
    slates.fill(turn, translator)
    enter(turn, translator, found)
    if turn.state.translator is translator:  # (else the same lists say it again)
        turn.actions[place:place] = [Tell("", line.who, 0, line.word, line.text, is_again=True) for line in told]


def coming_together(turn: Turn, due: list[str]) -> frozenset[str]:
    """Those of the channels `due` whose lists come in this step if none of them waits for another one of them. Lists that are held back would wait for one another
    in vain."""
    coming = frozenset(due)
    if len(due) == 1 or all(turn.state.renditions[channel].stands.repairer.held_since is None for channel in due):
        return frozenset()
    while coming:
        found: dict[str, Taken] = {}
        for channel in due:
            if channel in coming and (taken := righted(turn, channel, found, coming)).repaired.found is not None:
                found[channel] = taken
        if found.keys() == coming:
            break
        coming = frozenset(found)
    return coming


def follow_clock(turn: Turn) -> None:
    """Viewers' clock follows the packager's, if that was set and nothing speaks against it."""
    turn.set(shifts=followed(turn, turn.state.shifts, turn.state.translator))


def followed(turn: Turn, shifts: tuple[Shift, ...], translator: Translator) -> tuple[Shift, ...]:
    """How viewers' clock goes on after the `shifts` beside the breaks that the `translator` knows. Renditions that nobody waits for follow once they go on."""
    target = turn.target()
    those = [it.stands.repairer for _, it in turn.renditions() if it.stands.repairer.last and it.stands.repairer.last[-1].begins is not None and turn.at < patience_ends(it, target)]
    lasting = [it.stands.repairer.last[-1].duration for _, it in turn.renditions() if it.stands.repairer.last]
    return shifts_after(shifts, [it.last for it in those], [it.clock for it in those], translator, lasting) if those else shifts


def keep_clock(turn: Turn, translator: Translator, found: dict[str, Taken]) -> None:
    """Viewers' clock doesn't make its last step, if no segment has it yet and a break has just become known that it lies in or before: the `translator` knows it
    by the lists that were `found`."""
    shifts = turn.state.shifts
    if len(shifts) == 1:
        return
    lists = {channel: it.stands.repairer.last for channel, it in turn.renditions()} | {channel: it.found().segments for channel, it in found.items()}
    begun = shifts_begun(shifts, [it[-1] for it in lists.values() if it])
    if begun == shifts or followed(turn, begun, turn.state.translator) != shifts or followed(turn, begun, translator) == shifts:
        return
    turn.set(shifts=begun)
    for it in found.values():
        it.found().shifts = begun


def may_begin(turn: Turn) -> bool:
    """Whether lists may be given. The first ones wait for all channels, and in a ladder for lists in step."""
    if any(it.stands.entry for _, it in turn.renditions()):
        return True
    if any(it.controller.way is not Way.THERE for _, it in turn.renditions()):
        return False
    if len(turn.state.renditions) == 1:
        return True
    since = turn.state.in_step_since if turn.state.in_step_since is not None else turn.at
    turn.set(in_step_since=since)
    if is_in_step(turn):
        return True
    targets = [read(it.came[:HEAD]).target or 1 for _, it in turn.renditions() if it.came is not None]
    if turn.at - since < STEP * max(targets, default=1) * (2 if are_apart(turn) else 1):
        return False
    turn.tell("", "ladder", 0, "Unequal", "the renditions' playlists don't begin and end with the same media numbers; gives them all the same")
    return True


def are_apart(turn: Turn) -> bool:
    """Whether a rendition's newest list begins after another's has ended: its packager has begun again, and the other's will."""
    listed = [it for one in turn.state.renditions.values() if one.came is not None and (it := segments_of(one.came)) and it[0].stated and it[-1].stated]
    return bool(listed) and max(it[0].stated or 0 for it in listed) >= min((it[-1].stated or 0) + it[-1].duration for it in listed)


def is_in_step(turn: Turn) -> bool:
    """Whether all renditions' newest lists have as many segments, and the same first media number or the same first instant. Those of renditions
    whose segments aren't as long begin at instants that are less than a segment apart. (How long segments are, the newest one doesn't say: it may grow.)"""
    listed = [segments_of(it.came) if it.came is not None else [] for _, it in turn.renditions()]
    if any(len(it) < 2 for it in listed):
        return False
    begins = [it[0].stated or 0 for it in listed]
    paces = [pace_of(it) for it in listed]
    if not is_alike(min(paces), max(paces)):
        return not all(begins) or max(begins) - min(begins) < max(paces)
    if len({len(it) for it in listed}) > 1:
        return False
    return len({it[0].own for it in listed}) == 1 or (all(begins) and max(begins) - min(begins) < SECOND // 2)


def segments_of(body: bytes) -> list[PackagedSegment]:
    """The segments of the list `body` as it came; none if it isn't read."""
    return read(body).segments


def first_instant(body: bytes) -> int:
    """The first instant of the list `body`, in nanoseconds from 1970; 0 if it states none. If its packager's clock goes back within it, that is by the clock after
    that, which other lists have from their begin on. The list that begins first has its packager's numbers, and the others follow it."""
    segments = segments_of(body)
    lasts = accumulate((it.duration for it in segments), initial=0)
    return min((it.stated - before for it, before in zip(segments, lasts) if it.stated is not None), default=0)


def put_right(turn: Turn, channel: str, found: dict[str, Taken], coming: Collection[str]) -> Taken | None:
    """The list of the `channel` that is to be taken in now, put right up to the edge; none if nothing of it is to be given. `found`: those of
    other renditions that come with it; nor does it wait for those that are `coming`."""
    it = turn.state.renditions[channel]
    if not it.settings.repair:
        turn.put(channel, is_new=False)
        return righted(turn, channel, found)
    taken = righted(turn, channel, found, coming)
    repaired = taken.repaired
    tell_why(turn, channel, repaired)
    older = it.older if repaired.waits else it.older[1:]
    turn.put(channel, is_new=repaired.waits or bool(it.older) or taken.is_part, older=older, is_blocked=repaired.why == repairs.SECTIONS)
    if taken.repairer.held_since != it.stands.repairer.held_since:
        turn.put_standing(channel, repairer=changed(it.stands.repairer, held_since=taken.repairer.held_since))
    if repaired.why == repairs.SECTIONS and it.stands.text:
        turn.put_controller(channel, listed=it.stands.entry - 1)  # (it is pushed again, so that it is seen if a person deletes the channel)
    if repaired.found is None and repaired.came is None:
        return None
    tell_repairs(turn, channel, repaired)
    return taken


def righted(turn: Turn, channel: str, found: dict[str, Taken], coming: Collection[str] = ()) -> Taken:
    """What the list of the `channel` that is to be taken in next becomes; nothing is changed by that. The rest as in `put_right`."""
    it = turn.state.renditions[channel]
    body = next_of(it)
    if not it.settings.repair:
        return Taken(it.stands.repairer, Repaired(packaged.as_listed(read(body)), came=body), body, False)
    edge = edge_of(turn, channel) if len(turn.state.renditions) > 1 and not it.older else None
    text = up_to(body, by_last(it, it.reach or reach_of(body)), edge) if edge is not None else body
    repairer = changed(it.stands.repairer)
    repairer.siblings = siblings_of(turn, channel, found, coming) if len(turn.state.renditions) > 1 else None
    repairer.shifts, repairer.waited, repairer.is_part = turn.state.shifts, it.read_at - it.given_at, text is not body
    if it.is_other:
        repairer.held_since = float("-inf")
    repaired = repairer.take(text, turn.at, turn.clock)
    if not repairer.last and it.stands.viewed.end is not None:
        go_on_after(repaired, it.stands.viewed.end)
    elif not repairer.last and (there := joining.viewed_there(turn, channel, repaired)) is not None:
        joining.join(repaired, there)
    repairer.siblings = None
    return Taken(repairer, repaired, text, text is not body)


def go_on_after(repaired: Repaired, end: Numbers) -> None:
    """The list `repaired` is the first one of a new channel, since it has other initialisation sections than what viewers have: it goes on right after
    that, whose last segment has the numbers `end`, with a discontinuity."""
    if repaired.found is not None:
        repaired.found.segments[0].discontinuities = max(1, repaired.found.segments[0].discontinuities)
        count_on(PackagedSegment("", 0, number=end[0], discontinuity=end[1]), repaired.found.segments)
        repaired.came = repaired.accepted = None


def siblings_of(turn: Turn, channel: str, found: dict[str, Taken], coming: Collection[str]) -> Siblings:
    """The other renditions, as the one of the `channel` sees them; of those that have no list yet the first ones, which were `found`. It waits for none of those
    that are `coming`."""
    mine = turn.state.renditions[channel]
    pace = pace_of(mine.stands.repairer.last or segments_of(mine.came or b""))
    siblings = []
    for name, it in turn.renditions():
        if name == channel:
            continue
        listed, new = it.stands.repairer.past[-MOST_REMEMBERED:] + it.stands.repairer.last, found[name].found().segments if name in found else []
        is_like = is_alike(pace, pace_of(listed or new))
        held_since, growing = it.stands.repairer.held_since, it.stands.repairer.growing
        if held_since is not None and growing is not None and growing.stated is not None and listed and name not in found:  # (it stays as long as it was)
            listed.append(replace(growing, begins=growing.stated - it.stands.repairer.clock, number=listed[-1].number + 1, discontinuity=listed[-1].discontinuity))
        listed += [one for one in new if not listed or one.number > listed[-1].number]
        waits = held_since is not None and name not in found and name not in coming and turn.at - held_since < (target_of(turn.state, name) or 0)
        siblings.append(Sibling(it.settings.base, listed, held_since is not None or name in coming, waits, is_like and it.settings.group == mine.settings.group, is_like))
    return Siblings(siblings)


def tell_why(turn: Turn, channel: str, repaired: Repaired) -> None:
    """Tells why nothing is given of a list, or that lists are given again."""
    word = WORDS.get(repaired.why, "Held" if repaired.waits else "Untaken")
    turn.tell(channel, "list", 0, word, repaired.why or "the playlists go on", is_quiet=True)


def tell_repairs(turn: Turn, channel: str, repaired: Repaired) -> None:
    """Counts the repairs of a list, and tells them."""
    if repaired.kinds:
        turn.put_standing(channel, repairs=dict(Counter(turn.state.renditions[channel].stands.repairs) + Counter(dict.fromkeys(repaired.kinds, 1))))
    turn.actions += [RepairTold(channel, kind, detail) for kind, detail in repaired.kinds.items()]


# ---- signals

def translate(turn: Turn, translator: Translator, found: dict[str, Taken], busy: dict[str, Taken]) -> list[Line]:
    """Puts date ranges that adsplice knows in place of the signals of the lists that were `found`. What any of them signals is the
    programme's: all are looked at before the first one is written, also those of `busy` renditions, which are given later. Answers what is
    to be told."""
    lists = {channel: it.found() for channel, it in found.items() if it.found().segments}
    others = [(channel, it.found()) for channel, it in busy.items() if it.found().segments]
    told: list[Line] = []
    numberings = apart.numberings_of(turn, {**lists, **dict(others)})
    lists = {channel: lists[channel] for channel in sorted(lists, key=lambda it: it in numberings)}  # (the shortest segments say first where a break begins)
    others.sort(key=lambda it: it[0] in numberings)
    if len(lists) + len(others) > 1:
        for channel, it in (*others, *lists.items()):
            rendition = turn.state.renditions[channel]
            told += translator.take(it, rendition.settings.rendition(), numberings.get(channel)).told
    for channel, it in lists.items():
        said = translator.take(it, turn.state.renditions[channel].settings.rendition(), numberings.get(channel))
        told, it.signals = told + said.told, said.ranges
    return told


def learn(turn: Turn, found: dict[str, Taken]) -> None:
    """Learns which breaks the lists that were `found` have."""
    for channel, it in found.items():
        turn.put(channel, listed=frozenset(ranges.ids_in(it.found().date_ranges())))


def pass_over(turn: Turn, translator: Translator, found: dict[str, Taken]) -> None:
    """A break that one rendition of several can't begin begins in none, or in the others if that is set: it has passed the start without it, since the
    others haven't come there, or it was away; or it has no segment near: `found` are its new lists."""
    if len(turn.state.renditions) == 1 or not translator.breaks.known:
        return
    lists = {channel: it.stands for channel, it in turn.renditions() if it.stands.repairer.last}
    reached = {channel: passed(it, found[channel].found() if channel in found else PackagedList()) for channel, it in lists.items()}
    for one in translator.breaks.known:
        is_open = {channel for channel, it in lists.items() if one.id in it.pods.entered}
        starts = {channel: translator.start_in(one, turn.state.renditions[channel].settings.rendition()) for channel in lists}
        past = {channel for channel in lists if reached[channel] > starts[channel] and (not is_open or began_before(lists[channel], one))} - is_open
        bare = {channel for channel in lists if channel in found and lacks_cut(turn, translator, one, channel, found[channel])} - past - is_open
        if past or bare:
            leave_out(turn, one, past, bare, turn.fills_others() or bool(is_open))


def began_before(stands: Standing, one: Break) -> bool:
    """Whether a rendition whose lists stand so was there before the break `one` began: one that came later has nothing to begin."""
    return (history_of(stands)[0].begins or 0) <= one.start


def lacks_cut(turn: Turn, translator: Translator, one: Break, channel: str, it: Taken) -> bool:
    """Whether the new segments of the list `it` of the `channel` go past the start of the break `one`, and none begins near it. The list may have lost
    that segment."""
    rendition = turn.state.renditions[channel]
    start = translator.start_in(one, rendition.settings.rendition())
    begins = [it.begins for it in it.found().segments if it.number > rendition.stands.repairer.last[-1].number and it.begins is not None]
    is_past = bool(begins) and begins[-1] > start + translator.tolerance
    return is_past and all(abs(it - start) > translator.tolerance for it in begins)


def leave_out(turn: Turn, one: Break, past: set[str], bare: set[str], fills_others: bool) -> None:
    """The break `one` begins neither in the channels that have gone `past` its start nor in the `bare` ones, which have no segment near it; nor in the others,
    unless these are filled (`fills_others`). It is told which ones they are, if it could begin in another one."""
    out = past | bare if fills_others else turn.state.renditions.keys()
    new = [channel for channel, it in turn.renditions() if channel in out and one.id not in it.stands.pods.missed]
    for channel in new:
        pods = turn.state.renditions[channel].stands.pods.copy()
        pods.missed.add(one.id)
        turn.put_standing(channel, pods=pods)
    if new and past | bare != turn.state.renditions.keys():
        why = [f"{', '.join(sorted(its))} {text}" for its, text in ((past, "had passed its start without a pod"), (bare, "has no segment near its start")) if its]
        where = "begins in the other renditions alone" if fills_others else "begins in no rendition"
        turn.tell("", f"breaks/{shown(one.id)}", 0, "Passed", f"{'; '.join(why)}: {where}", is_again=True)


def passed(stands: Standing, found: PackagedList) -> int:
    """The instant before which a rendition whose lists stand so has passed all breaks, once its list `found` has come."""
    last = stands.repairer.last[-1]
    begins = min([last.begins or 0] + [it.begins for it in found.segments[-1:] if it.begins is not None])
    return begins + last.duration // 2


def waits(turn: Turn, translator: Translator, found: dict[str, Taken]) -> bool:
    """Asks for the decisions of the breaks that became known. Whether the lists that were `found` wait for one, or for a look at its ads."""
    first = next(iter(turn.state.renditions.values())).settings
    end = max((end_of(it.found()) for it in found.values()), default=0)
    known = translator.breaks.known
    awaited = [it for it in presence.awaited(turn, known, end).values() if it > turn.at] if first.verify else []
    if first.ask:
        ask(turn, translator, found, end)
        awaited += [turn.state.asked[it.id] for it in known if it.start < end and turn.at < turn.state.asked.get(it.id, 0.0)
                    and not is_decided(turn, it.id) and not decided.begun_of(turn, [it.id])]
    if awaited:
        turn.set(waits_until=max(awaited))
    return bool(awaited)


def ask(turn: Turn, translator: Translator, found: dict[str, Taken], end: int) -> None:
    """Asks for the decisions of the breaks that became known by the lists that were `found`, which end at the instant `end`."""
    first, breaks = next(iter(turn.state.renditions.values())).settings, translator.breaks.known
    target = max((it.found().target or 0 for it in found.values()), default=0) or round(turn.target())
    new = [it for it in breaks if it.id not in turn.state.asked and not is_decided(turn, it.id)]
    asked = {name: until for name, until in turn.state.asked.items() if any(it.id == name for it in breaks)}
    turn.set(asked=asked | {it.id: turn.at + min(first.hold, SHARE * target) for it in new})
    if new:
        listed = {name: found[name].found().segments if name in found else it.stands.repairer.last for name, it in turn.renditions()}
        bare = frozenset(name for name, segments in listed.items() if segments and segments[-1].section is None)
        sums = {name: reckoned.sums for name, it in turn.renditions() if (reckoned := it.stands.viewed.reckoned) is not None}
        cuts = {one.id: {name: cut for name, it in listed.items() if (cut := cut_near(it, one.start)) is not None} for one in new}
        shift = turn.state.shift()  # (by the clock that viewers have)
        known = tuple(changed(it, start=it.start + shift, until=None if it.until is None else it.until + shift) for it in new)
        turn.actions.append(Ask(known, target, end + shift, {name: usual_length(it) for name, it in listed.items()}, bare, sums, cuts))


def is_decided(turn: Turn, name: str) -> bool:
    """Whether there is a decision on the break `name` in all renditions; those of subtitles need none of their own."""
    files = [it for it in turn.state.files.values() if name in it.ids and it.state in (FileState.NEW, FileState.GIVEN)]
    needed = {channel for channel, it in turn.renditions() if not it.settings.empty_subtitles}
    return any(it.stamps.keys() >= needed for it in files) or all(name in it.stands.pods.held for _, it in turn.renditions())


def end_of(found: PackagedList) -> int:
    """The instant at which the list `found` ends."""
    return (found.segments[-1].begins or 0) + found.segments[-1].duration if found.segments else 0


# ---- an entry

def enter(turn: Turn, translator: Translator, found: dict[str, Taken]) -> None:
    """The lists that were `found` are the log's next entry, as far as they are new."""
    texts = {channel: text_of(turn, channel, it, translator) for channel, it in found.items()}
    new = {channel: it for channel, it in found.items() if texts[channel] != turn.state.renditions[channel].stands.text and not is_front_alone(turn, channel, it)}
    for channel, it in found.items():
        if it.is_part or channel not in new:
            turn.put(channel, is_other=False)
        if channel not in new and it.repaired.growing is not None:  # (it stays as long as it is, if the packager begins again)
            turn.put_standing(channel, repairer=changed(turn.state.renditions[channel].stands.repairer, growing=it.repaired.growing))
    if not new:
        turn.set(rests_until=looks_again(turn.state, turn.at))
        return
    entry = turn.next_entry()
    turn.set(translator=translator)
    before = entered(turn)
    for channel, it in new.items():
        stand(turn, channel, it, texts[channel], entry)
    tell_behind(turn, translator, before)
    apart.compare(turn)


def entered(turn: Turn) -> frozenset[str]:
    """The IDs of the breaks that have begun with a pod in a rendition."""
    return frozenset[str]().union(*(it.stands.pods.entered for _, it in turn.renditions()))


def tell_behind(turn: Turn, translator: Translator, before: frozenset[str]) -> None:
    """Tells which renditions are behind that nobody waits for, if a break begins without them. `before`: the breaks that had begun before this step."""
    for one in translator.breaks.known:
        begun = [channel for channel, it in turn.renditions() if one.id in it.stands.pods.entered]
        late = [channel for channel, it in turn.renditions() if channel not in begun and one.id not in it.stands.pods.missed and turn.at >= patience_ends(it, turn.target())]
        if begun and late and one.id not in before:
            turn.tell("", f"breaks/{shown(one.id)}", 0, "Behind", f"{', '.join(late)} has had no new segment for two target durations: it begins in the other renditions, and there once "
                      "its playlist goes on", is_again=True)


def is_front_alone(turn: Turn, channel: str, it: Taken) -> bool:
    """Whether the list `it`, of which more is to come, has no segment yet that the `channel` hasn't: it has lost some at its front alone."""
    last, segments = turn.state.renditions[channel].stands.repairer.last, it.found().segments
    return it.is_part and bool(last) and bool(segments) and segments[-1].number == last[-1].number


def text_of(turn: Turn, channel: str, it: Taken, translator: Translator) -> bytes:
    """The text of the list `it`. In a ladder it says nothing of breaks that are passed over, and of others that they end where they ended in a
    rendition that has come farther."""
    found, rendition = it.repaired.found, turn.state.renditions[channel]
    if found is not None and len(turn.state.renditions) > 1:
        others, pace = [one.stands for name, one in turn.renditions() if name != channel], pace_of(rendition.stands.repairer.last)
        others.sort(key=lambda it: not is_alike(pace, pace_of(it.repairer.last)))
        lines = [as_elsewhere(rendition.stands, others, line, found.segments) for line in found.date_ranges() if packaged.id_in(line) not in rendition.stands.pods.missed]
        if lines != found.date_ranges():
            found.signals = lines
    if found is not None and found.segments:
        lines = [as_it_runs(rendition.stands, line, found.segments) for line in found.date_ranges()]
        if lines != found.date_ranges():
            found.signals = lines
    if it.repaired.head is None and found is not None:
        return it.body if found.signals is None else packaged.write(found)
    return it.repaired.body()


def stand(turn: Turn, channel: str, it: Taken, text: bytes, entry: int) -> None:
    """The list `it`, whose text is `text`, is that of the `entry`: so stands the `channel` then."""
    rendition = turn.state.renditions[channel]
    before = rendition.stands
    found = it.repaired.found
    if found is None or it.repaired.head is None:  # (it isn't put right: adsplice judges it)
        viewed = before.viewed.copy()
        viewed.note(it.found().date_ranges(), it.found().segments[-1].number if it.found().segments else 0)
        stands = replace(before, viewed=viewed, text=text, ahead=b"", entry=entry, after=before.entry)
    else:
        it.repairer.accept(it.repaired)
        stands = standing(before, it, text, entry, turn.state.translator)
    is_longer = not before.repairer.last or stands.repairer.last[-1].number > before.repairer.last[-1].number
    turn.put(channel, stands=stands, before=before if rendition.controller.trials == 0 else None, is_other=False, given_at=rendition.read_at if is_longer else rendition.given_at)


def standing(before: Standing, it: Taken, text: bytes, entry: int, translator: Translator) -> Standing:
    """Where a channel that stood as `before` stands with the list `it`, whose text is `text`, as the `entry`. What the breaks began with that the
    `translator` knows stays known: another rendition may still come to them."""
    repairer, viewed, tolerance = it.repairer, before.viewed.copy(), translator.tolerance
    lines = it.found().date_ranges()
    last, listed = before.repairer.last, repairer.last
    if it.repaired.joins is not None:
        viewed.reckoned = Reckoned(listed[0].number - 1, listed[0].discontinuity, it.repaired.joins[0] - 1, it.repaired.joins[1])
    viewed.note(lines, listed[-1].number)
    viewed.forget((repairer.past or listed)[0].number)
    new = listed[max(0, len(listed) - (listed[-1].number - last[-1].number)):] if last and listed[-1].number >= last[-1].number else listed
    listed_before = [line for line, number in before.viewed.ranges.values() if last and number >= last[-1].number]
    moved = ranges.moved_in(listed_before, lines, tolerance)
    ahead = ranges.without(before.text, moved) if moved else b""
    stands = Standing(repairer, viewed, entry, text, ahead, before.pods, before.repairs, before.entry)
    pods = before.pods.of(window_of(stands) | ranges.ids_in(lines) | {one.id for one in translator.breaks.known}).copy()
    first = next((one.begins for one in listed if one.begins is not None), 0)
    pods.enter(ranges.starts_in(lines), before.viewed.ranges.keys(), [one.begins for one in new if one.begins is not None], first, tolerance)
    target = repairer.head.target if repairer.head is not None else 0
    if ahead and last:  # (adsplice forgets what that list doesn't have)
        viewed.reckon(last, [line for line in listed_before if packaged.id_in(line) not in moved], Store(pods.held, pods.fallback), tolerance, target)
    viewed.reckon(listed, lines, Store(pods.held, pods.fallback), tolerance, target)
    return changed(stands, pods=pods)


# ---- lists

def read(body: bytes) -> PackagedList:
    """What the list `body` says as it came; nothing if it isn't read."""
    try:
        return packaged.read(spelling.lines_of(body, set()))
    except spelling.Unread:
        return PackagedList()
