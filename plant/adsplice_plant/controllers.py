"""What a programme's controllers are sent, and what their answers say: one way for one that is new, killed, slow or found as it is.

A controller acknowledges entries of the log. What it is sent next follows from the state and from what it acknowledged: first the channel,
then the decisions up to its next list, and that list, which has all that it lacks. Nothing depends on how it came to lack them.
"""
from __future__ import annotations

import re
from collections.abc import Collection, Iterable
from dataclasses import replace

from . import apart, clocks, decided, faults, numbers, packaged, ranges, replay, spelling
from .breaks import TOLERANCE, Numbering
from .decisions import NO_FALLBACK, OVER
from .events import Answered, Find, Found, Request, Send, What
from .numbers import Viewed
from .packaged import PackagedList, PackagedSegment, Shift
from .reckoning import Numbers, Reckoned, Store
from .repair import Head, Repaired, Repairer
from .state import Controller, Decided, Rendition, Standing, Way
from .translator import Translator
from .turn import MOST, Turn, history_of
from .values import changed

JUDGED = (409, 413, 422)  # statuses by which adsplice refuses what it was given; after others the same is tried again with pauses
NO_PUT = (403, 404, 405)  # statuses by which no adsplice answers the making of a channel
FIRST_PAUSE = 0.5  # seconds
UNFIT = 2  # refusals in a row of lists that don't go on after the last one, after which its numbers are to be found
LOOK = 60.0  # seconds between two looks at the written playlist while no break begins or ends
BETWEEN_DROPS = 120.0  # seconds between two times that a machine's channel is made anew since it isn't as the others'
STAYS = "if that stays, only a new channel takes it, which a person makes by a DELETE of this one"
SEQUENCES = tuple(re.compile(rb"^#EXT-X-%s-SEQUENCE:(\d+)$" % name, re.M) for name in (b"MEDIA", b"DISCONTINUITY"))
EXTINF, END = b"\n#EXTINF:", b"#EXT-X-ENDLIST"
LISTED = "the playlist is taken"


# ---- requests

def send(turn: Turn) -> None:
    """Sends each controller what comes next, once the state is kept."""
    for channel in list(turn.state.renditions):
        it = turn.state.renditions[channel]
        if it.controller.sent is None and turn.at >= it.controller.retry_at:
            request = next_request(turn, channel)
            if request is not None:
                turn.put_controller(channel, sent=request)
                turn.keep()
                turn.actions.append(Send(channel, request))
    turn.keep()


def next_request(turn: Turn, channel: str) -> Request | None:
    """What the controller of the `channel` is to be sent next; none if it has all."""
    it = turn.state.renditions[channel]
    if turn.state.life and has_missed(it):
        drop(turn, channel, "the channel has missed playlists", True)
        it = turn.state.renditions[channel]
    if it.controller.way is Way.UNKNOWN:
        return Request(What.MAKE, it.settings.body())
    if it.controller.way is Way.MADE:
        return Request(What.LOOK)
    if it.controller.way is Way.OTHER:
        return Request(What.DROP)
    if turn.state.is_behind and it.controller.took < 0:
        return None
    if it.controller.is_unseen:
        return Request(What.CHECK)
    has_list = it.stands.entry > it.controller.listed
    decision = next_decision(turn, channel)
    last = max(it.stands.entry, it.controller.anew if it.controller.took < 0 else 0)
    if decision is not None and (not has_list or decision.entry <= last):
        return Request(What.DECIDE, decided.body_of(decision, channel), decision.entry, is_own=decision.is_own, why=OVER if decision.is_own and not decision.file else "")
    if not has_list:
        return None
    if (it.controller.took < 0 or it.controller.listed < it.stands.after) and (body := next(iter(first_of(it)), None)) is not None:
        return Request(What.DECIDE, body, is_own=True)
    return push(turn, channel)


def has_missed(it: Rendition) -> bool:
    """Whether a channel with a list lacks the one before the newest one. It can't be as those of other machines by the newest one alone: what a list says
    of breaks counts with those before it."""
    return it.controller.way is Way.THERE and it.controller.took >= 0 and it.stands.entry > it.controller.listed and it.controller.listed < it.stands.after


def first_of(it: Rendition) -> list[bytes]:
    """The decisions that a channel which lacks lists still needs before the next one, so that its breaks begin as they do by the log."""
    return [body for body in it.stands.pods.again() if body not in it.controller.first]


def next_decision(turn: Turn, channel: str) -> Decided | None:
    """The next decision of the log that the controller of the `channel` hasn't acknowledged; none if it has all."""
    it = turn.state.renditions[channel]
    for one in turn.state.decisions:
        if one.entry > it.controller.decided and not is_idle(turn, channel, one):
            return one
    return None


def is_idle(turn: Turn, channel: str, one: Decided) -> bool:
    """Whether the decision `one` says nothing to a channel without a list: its breaks are passed, or to one that was made after it a later one takes its
    place, or takes it back."""
    it = turn.state.renditions[channel]
    is_made = one.entry <= it.controller.anew
    if one.kind == decided.FALLBACK:
        is_last = not any(later.kind == decided.FALLBACK and later.entry > one.entry for later in turn.state.decisions)
        return is_made and (not is_last or decided.body_of(one, channel) == NO_FALLBACK)
    if one.kind == decided.WITHDRAW:
        return is_made
    return (is_made or it.controller.took < 0) and bool(one.ids) and not any(name in it.stands.pods.held for name in one.ids)


# ---- lists

def push(turn: Turn, channel: str) -> Request:
    """The list that the controller of the `channel` lacks."""
    it = turn.state.renditions[channel]
    stands, controller = it.stands, it.controller
    if not it.settings.repair or not stands.repairer.last:
        return Request(What.PUSH, stands.text, stands.entry)
    if controller.took < 0:
        return Request(What.PUSH, first_list(turn, channel), stands.entry)
    if controller.listed >= stands.after and stands.ahead and controller.led < stands.entry:
        return Request(What.PUSH, shifted(stands, stands.ahead, controller.ahead), stands.entry, True)
    if controller.listed >= stands.after:
        return Request(What.PUSH, shifted(stands, stands.text, controller.ahead), stands.entry)
    history = history_of(stands)
    least = min(controller.took + 1, stands.repairer.last[0].number)
    place = next((place for place, one in enumerate(history) if one.number >= least), 0)
    since = min(controller.took + 1, stands.repairer.last[-1].number)
    new = next((n for n, one in enumerate(history) if one.number > controller.took), len(history))
    if controller.led < stands.entry and (announced := announced_after(stands, history, new)):
        until = next((n for n in range(new, len(history)) if is_begin(history[n], announced.values())), len(history))
        if until:  # (at the least it has the segment again that the controller took last)
            return Request(What.PUSH, listed_from(stands, turn.state.shifts, min(place, until - 1), controller.ahead, until, since, announced), stands.entry, True)
    return Request(What.PUSH, listed_from(stands, turn.state.shifts, place, controller.ahead, since=since), stands.entry)


def announced_after(stands: Standing, history: list[PackagedSegment], new: int) -> dict[str, int]:
    """The starts of the breaks, by their IDs, that the newest list has and that begin with the segment at the place `new` of the `history` or later. A
    controller that lacks lists may have another START-DATE of them, which it keeps until a list comes without them (RFC 8216, 4.3.2.7)."""
    newest, begun = stands.repairer.last[-1].number, history[:new]
    starts = ranges.starts_in([line for line, number in stands.viewed.ranges.values() if number >= newest])
    return {name: start for name, start in starts.items() if not any(is_begin(it, [start]) for it in begun)
            and (not begun or start > (begun[-1].begins or 0) or any(is_begin(it, [start]) for it in history[new:]))}


def is_begin(it: PackagedSegment, starts: Iterable[int]) -> bool:
    """Whether the segment `it` begins at one of the `starts`."""
    return it.begins is not None and any(abs(it.begins - start) <= TOLERANCE for start in starts)


def first_list(turn: Turn, channel: str) -> bytes:
    """The first list of a channel that was made anew: it begins where its numbers are known that viewers have, and goes on with them."""
    stands, controller = turn.state.renditions[channel].stands, turn.state.renditions[channel].controller
    history = history_of(stands)
    place = numbers.first_needed(stands.viewed, history, least_of(stands, controller.reached))
    if place is None:
        turn.put_controller(channel, ahead=(0, 0))
        turn.put_standing(channel, viewed=reckoned_anew(turn, stands))
        return stands.text
    first = history[place]
    media, steps = stands.viewed.begins[first.number]
    ahead = media - first.number, steps - first.discontinuity
    if ahead != controller.ahead:
        turn.put_controller(channel, ahead=ahead)
        turn.is_kept = False
    is_whole = first is stands.repairer.last[0] and not stands.pods.missed and all(replay.as_it_ran(stands, line) == line for line, _ in stands.viewed.ranges.values())
    return shifted(stands, stands.text, ahead) if is_whole and ahead == (0, 0) else listed_from(stands, turn.state.shifts, place, ahead)


def least_of(stands: Standing, reached: int) -> int:
    """The media number with which a new channel begins, of which the one before had `reached` a number: what viewers don't have yet is listed, too, as far
    as it may be there."""
    first = stands.repairer.last[0].number
    if reached < 0:
        return first
    number = max(min(first, reached + 1), stands.repairer.earliest())
    return numbers.run_before(stands.viewed, history_of(stands), number) if number == reached + 1 else number


def reckoned_anew(turn: Turn, stands: Standing) -> Viewed:
    """What viewers have of a new channel whose first list is that of `stands`, if nothing is known of what they had."""
    viewed, last = Viewed(reckoned=Reckoned(), ranges=dict(stands.viewed.ranges)), stands.repairer.last
    lines = [line for line, number in viewed.ranges.values() if number >= last[-1].number]
    target = stands.repairer.head.target if stands.repairer.head else 0
    viewed.reckon(last, lines, Store(stands.pods.held, stands.pods.fallback), turn.state.translator.tolerance, target)
    return viewed


def listed_from(stands: Standing, shifts: tuple[Shift, ...], place: int, ahead: Numbers, until: int | None = None, since: int = 0, without: Collection[str] = ()) -> bytes:
    """The list of the segments from the `place` in the history on, with numbers that are `ahead`; up to before the place `until`, if one is named. It says
    of breaks what was listed since the media number `since`: nothing of those `without` which it is, and of those that were missed and would have a pod
    now; and of others where they ended for viewers by then. What is no longer listed and hasn't begun, adsplice has forgotten. `shifts`: how much
    later viewers have instants."""
    segments, head = history_of(stands)[place:until], stands.repairer.head
    assert head is not None
    missed, newest = {name for name in stands.pods.missed if stands.pods.at_hand(name) is not None}, stands.repairer.last[-1]
    said = [line for name, (line, number) in stands.viewed.ranges.items() if number >= max(since, segments[0].number) and name not in missed
            and not (number < newest.number and (is_to_come(line, newest) or replay.is_past(stands, line, place)))]
    lines = [replay.as_it_ran(stands, line) if until is None or without else replay.as_it_began(line) for line in said if packaged.id_in(line) not in without]
    found = PackagedList(head.version, head.target, kind=head.kind, segments=moved(segments, ahead), shifts=shifts)
    front = stands.text[:max(0, stands.text.find(EXTINF))]
    found.is_independent, found.is_ended = b"#EXT-X-INDEPENDENT-SEGMENTS" in front, stands.text.rstrip().endswith(END)
    return packaged.write(found, lines)


def is_to_come(line: str, newest: PackagedSegment) -> bool:
    """Whether the break of the EXT-X-DATERANGE `line` begins after the `newest` segment."""
    found = ranges.start_in(line)
    return found is not None and newest.begins is not None and found[1] >= newest.begins + newest.duration // 2


def moved(segments: list[PackagedSegment], ahead: Numbers) -> list[PackagedSegment]:
    """The `segments` with numbers that are `ahead`. The first one has no more discontinuities before it than its number counts (RFC 8216, 4.3.3.3)."""
    found = segments if ahead == (0, 0) else [replace(it, number=it.number + ahead[0], discontinuity=it.discontinuity + ahead[1]) for it in segments]
    first = found[0]
    return found if first.discontinuities <= first.discontinuity else [replace(first, discontinuities=max(0, first.discontinuity)), *found[1:]]


def shifted(stands: Standing, text: bytes, ahead: Numbers) -> bytes:
    """The `text` of the newest list with numbers that are `ahead`. (A key whose IV is the media number states it then: RFC 8216, 5.2.)"""
    if ahead == (0, 0):
        return text
    text, first = text.replace(b"\r\n", b"\n"), stands.repairer.last[0]
    if first.discontinuity + ahead[1] < first.discontinuities or any(key.takes_number() for it in stands.repairer.last for key in it.keys):
        listed = packaged.as_listed(packaged.read(spelling.lines_of(text, set())))
        listed.segments = moved(listed.segments, ahead)
        return packaged.write(listed)
    front, rest = text[:text.find(EXTINF)], text[text.find(EXTINF):]
    for tag, by, name in zip(SEQUENCES, ahead, (b"MEDIA", b"DISCONTINUITY")):
        found = tag.search(front)
        line = b"#EXT-X-%s-SEQUENCE:%d" % (name, (int(found[1]) if found else 0) + by)
        if found:
            front = front[:found.start()] + line + front[found.end():]
        elif by:
            begin, _, end = front.partition(b"\n")
            front = begin + b"\n" + line + b"\n" + end if name == b"MEDIA" else SEQUENCES[0].sub(rb"\g<0>\n" + line, front, count=1)
    return front + rest


# ---- answers

def answered(turn: Turn, event: Answered) -> None:
    """Takes in an answer of a controller."""
    it = turn.state.renditions.get(event.channel)
    if it is None or it.controller.sent is not event.request and it.controller.sent != event.request:
        return
    turn.put_controller(event.channel, sent=None)
    what = event.request.what
    if what is What.MAKE:
        made(turn, event)
    elif what is What.LOOK:
        looked(turn, event)
    elif what is What.CHECK:
        checked(turn, event)
    elif what is What.DROP:
        dropped(turn, event)
    elif event.status == 204:
        turn.put_controller(event.channel, trials=0)
        acknowledged(turn, event)
    elif event.status in JUDGED:
        turn.put_controller(event.channel, trials=0)
        refused(turn, event)
    else:
        unanswered(turn, event)


def unanswered(turn: Turn, event: Answered) -> None:
    """The controller did nothing that is known: it is away, or was started anew (404)."""
    if event.status == 404:
        turn.put_controller(event.channel, way=Way.UNKNOWN, trials=0)
        failed(turn, event, "makes it, and gives it fallback, decisions and playlist")
    else:
        wait(turn, event.channel)
        failed(turn, event, "tries again with growing pauses")
        if event.request.what is What.PUSH:
            may_have_taken(turn, event.channel)
        if event.request.entry and (one := decision_of(turn, event.request.entry)) is not None:
            decided.taken(turn, one)  # (what is told needn't wait for it)


def may_have_taken(turn: Turn, channel: str) -> None:
    """The controller of the `channel` may have the last list, whose answer nobody knows. If that is its first one, it had what comes before that, at the least:
    the next list goes on from it, too."""
    it = turn.state.renditions[channel]
    if it.stands.repairer.last and it.controller.took < 0 and it.controller.reached < 0 and not turn.state.life:
        turn.put_controller(channel, reached=it.stands.repairer.last[0].number - 1)


def wait(turn: Turn, channel: str) -> None:
    """The controller of the `channel` is tried again after a pause, which grows up to a target duration."""
    trials = turn.state.renditions[channel].controller.trials
    pause = min(FIRST_PAUSE * 2 ** min(trials, 8), turn.state.longest_pause, max(1.0, min(MOST, turn.target())))
    turn.put_controller(channel, trials=trials + 1, retry_at=turn.at + pause)


def failed(turn: Turn, event: Answered, does: str) -> None:
    """Tells that adsplice, or a server in front of it, didn't do what it was asked, and what the feed `does`."""
    what = event.why or faults.meaning(event.status, event.line)
    turn.tell(event.channel, "adsplice", event.status, faults.name_of(event.line), f"{what}; {does}")


def made(turn: Turn, event: Answered) -> None:
    """The making of a channel was answered."""
    channel = event.channel
    if event.status == 201:
        turn.put_controller(channel, trials=0)
        begin_anew(turn, channel, turn.state.entry)
        turn.tell(channel, "adsplice", 201, "", "makes the channel")
    elif event.status == 409:
        turn.put_controller(channel, way=Way.MADE, trials=0)
    else:
        wait(turn, channel)
        does = f"makes {channel} with the other renditions as soon as it can" if turn.is_ladder() else "makes the channel as soon as it can"
        if event.status in NO_PUT:
            at = turn.state.renditions[channel].settings.at
            turn.tell(channel, "adsplice", event.status, "", f"{at} takes no PUT of a channel: perhaps it is the viewers' address, and `at` is to be adsplice's for PUT; {does}")
        else:
            failed(turn, event, does)


def looked(turn: Turn, event: Answered) -> None:
    """It was asked whether a channel that is there has a list."""
    if event.status == 0 or event.status >= 500:
        wait(turn, event.channel)
        failed(turn, event, "looks again whether the channel has a playlist as soon as it can")
        return
    it = turn.put_controller(event.channel, trials=0)
    if event.status != 404 and turn.state.life and it.took < 0 and not it.led:
        drop(turn, event.channel, "the channel is there, with a playlist of which this machine doesn't know what it is", True)
        return
    turn.tell(event.channel, "adsplice", 409, "", "the channel is there already; goes on with it")
    if event.status == 404:
        begin_anew(turn, event.channel, 0)
    else:
        go_on(turn, event.channel, event.body)


def drop(turn: Turn, channel: str, why: str, is_missed: bool = False) -> None:
    """The channel of this machine isn't as those of the others, since `why`, or has missed something (`is_missed`): it is made anew, and filled. (Viewers
    read that of another machine meanwhile.)"""
    word = "Missed" if is_missed else "Differs"
    turn.put_controller(channel, way=Way.OTHER, unfit=0, is_unseen=False, dropped_at=turn.at)
    turn.tell(channel, "replica", 0, word, f"{why}; deletes it here, makes it anew and fills it as the log says", is_again=True)


def dropped(turn: Turn, event: Answered) -> None:
    """The channel was deleted, or couldn't be."""
    if event.status in (200, 204, 404):
        turn.put_controller(event.channel, way=Way.UNKNOWN, trials=0)
    else:
        wait(turn, event.channel)
        failed(turn, event, "tries again with growing pauses to delete the channel")


def may_drop(turn: Turn, it: Controller) -> bool:
    """Whether a channel that isn't as it is to be may be made anew: it wasn't a short while ago."""
    return bool(turn.state.life) and turn.at - it.dropped_at >= BETWEEN_DROPS


def go_on(turn: Turn, channel: str, written: bytes) -> None:
    """The channel has the list `written`, of which the log may know nothing: then its numbers are to be seen, and what it took follows from it."""
    controller = turn.put_controller(channel, way=Way.THERE)
    if controller.took < 0 and not controller.led:
        it = turn.state.renditions[channel]
        viewed = it.stands.viewed.copy()
        viewed.reckoned = None
        turn.put_standing(channel, viewed=viewed)
        turn.put_controller(channel, took=newest_in(written, history_of(it.stands)))


def newest_in(written: bytes, history: list[PackagedSegment]) -> int:
    """The media number of the newest segment of the `history` that the playlist `written` has, by its instant. That of the newest of all if it has none:
    then nothing tells what its controller lacks."""
    instants = {it.instant for it in numbers.items_of(written) if it.instant is not None}
    return max((it.number for it in history if it.written() in instants), default=history[-1].number if history else 0)


def begin_anew(turn: Turn, channel: str, anew: int) -> None:
    """The channel has no list: it is given all that is open, and begins where viewers' list stood. `anew`: the number of the newest entry if it was made just
    now; 0 if it was there, and may have what the log has taken back since."""
    it = turn.state.renditions[channel]
    reached = max(it.controller.took, it.controller.reached)
    turn.put(channel, controller=Controller(Way.THERE, reached=reached, anew=anew, dropped_at=it.controller.dropped_at), before=None)
    stands = it.stands
    if it.is_blocked:
        last = stands.repairer.last[-1]
        end = stands.viewed.end or (last.number, last.discontinuity)
        stands = Standing(Repairer(stands.repairer.choices), Viewed(end=end, reckoned=Reckoned()), pods=stands.pods, repairs=stands.repairs)
        turn.put(channel, is_blocked=False, is_new=it.came is not None)
    elif not stands.repairer.last:
        viewed = stands.viewed.copy()
        viewed.reckoned = Reckoned()
        stands = replace(stands, viewed=viewed)
    elif it.settings.target is not None and stands.repairer.head is not None:
        head = replace(stands.repairer.head, target=it.settings.target)  # (a new channel may have another one)
        stands = replace(stands, repairer=changed(stands.repairer, head=head))
    translator = turn.state.translator.copy()
    for one in translator.breaks.known:
        one.is_in_step = False  # (it is shown all of a list's segments at once)
    turn.put(channel, stands=told_at_once(it, stands, translator, turn.state.shifts, apart.numberings_of(turn, {}).get(channel)))
    turn.set(translator=translator)


def told_at_once(it: Rendition, stands: Standing, translator: Translator, shifts: tuple[Shift, ...], numbering: Numbering | None) -> Standing:
    """What stands of the rendition `it`, with the date ranges by which its breaks end where they do in a channel that is shown all segments at once. `shifts` as
    in `listed_from`, and `numbering` as of a Timeline."""
    head, text = stands.repairer.head, stands.text
    if not it.settings.signals or not it.settings.repair or head is None or not stands.repairer.last:
        return stands
    front = text[:max(0, text.find(EXTINF))]
    found = PackagedList(head.version, head.target, kind=head.kind, segments=stands.repairer.last, shifts=shifts)
    found.is_independent, found.is_ended = b"#EXT-X-INDEPENDENT-SEGMENTS" in front, text.rstrip().endswith(END)
    found.has_clock = any(abs(one.ahead()) > packaged.NEAR for one in found.segments)
    clocks.put_right(found, stands.repairer.stated)
    said, told = translator.take(found, it.settings.rendition(), numbering), ranges.ids_in(ranges.ranges_in(text))
    if said.ranges is None:
        return stands
    lines = [replay.as_it_runs(stands, line, stands.repairer.last) for line in said.ranges if packaged.id_in(line) in told]
    viewed = stands.viewed.copy()
    viewed.note(lines, stands.repairer.last[-1].number)
    return replace(stands, viewed=viewed, text=packaged.write(found, lines))


def acknowledged(turn: Turn, event: Answered) -> None:
    """The controller took a decision or a list."""
    channel, request = event.channel, event.request
    it = turn.state.renditions[channel]
    if request.what is What.DECIDE and not request.entry:
        turn.put_controller(channel, first=(*it.controller.first, request.body))
    elif request.what is What.DECIDE:
        turn.put_controller(channel, decided=request.entry)
        if (one := decision_of(turn, request.entry)) is not None:
            decided.taken(turn, one)
    elif request.is_ahead:
        turn.put_controller(channel, led=request.entry)
    else:
        listed(turn, channel, request.entry)
        turn.tell(channel, "adsplice", 204, "", LISTED)


def listed(turn: Turn, channel: str, entry: int) -> None:
    """The controller of the `channel` has the list of the `entry`, as the programme's log needs to know."""
    has_list(turn, channel, entry)
    if turn.state.is_apart:
        apart.compare(turn)


def has_list(turn: Turn, channel: str, entry: int) -> None:
    """The controller of the `channel` has the list of the `entry`."""
    it = turn.state.renditions[channel]
    last = it.stands.repairer.last
    took = last[-1].number if last else 0
    if entry == it.stands.entry:
        turn.put(channel, before=None)
    reckoned = it.stands.viewed.reckoned
    is_unseen = it.settings.repair and bool(last) and (reckoned is None or reckoned.is_marked or turn.at - it.seen_at >= LOOK)
    turn.put_controller(channel, listed=max(entry, it.controller.listed), took=took, first=(), unfit=0, is_unseen=is_unseen)


def decision_of(turn: Turn, entry: int) -> Decided | None:
    """The decision of the `entry`; none if nobody needs it any more."""
    return next((it for it in turn.state.decisions if it.entry == entry), None)


def refused(turn: Turn, event: Answered) -> None:
    """The controller refused a decision or a list."""
    channel, request = event.channel, event.request
    if request.what is What.DECIDE and not request.entry:
        turn.put_controller(channel, first=(*turn.state.renditions[channel].controller.first, request.body))
    elif request.what is What.DECIDE:
        turn.put_controller(channel, decided=request.entry)
        if (one := decision_of(turn, request.entry)) is not None:
            decided.refused(turn, channel, one, event.status, event.line)
    elif request.is_ahead:
        turn.put_controller(channel, led=request.entry)  # (it has more than it acknowledged)
        turn.tell(channel, "adsplice", event.status, event.line, f"{faults.meaning(event.status, event.line)}; gives it the newest list")
    else:
        list_refused(turn, event)


def list_refused(turn: Turn, event: Answered) -> None:
    """The controller refused a list: the next one follows the one before it. If two in a row don't go on after its last one, it has other
    numbers than the log: those are found."""
    channel, line = event.channel, event.line
    it = turn.state.renditions[channel]
    if it.before is not None and event.request.entry == it.stands.entry:
        entry = turn.next_entry()
        pods = it.stands.pods.copy()
        pods.entered, pods.missed = dict(it.before.pods.entered), set(it.before.pods.missed)
        after = it.before.after if turn.state.life else entry  # (other machines' controllers have the list before, too)
        turn.put(channel, stands=replace(it.before, entry=entry, after=after, pods=pods, repairs=it.stands.repairs), before=None)
    is_unfit = faults.follows_badly(line)
    controller = turn.put_controller(channel, listed=turn.state.renditions[channel].stands.entry, unfit=it.controller.unfit + 1 if is_unfit else 0)
    if controller.unfit >= UNFIT and may_drop(turn, controller):
        drop(turn, channel, f"adsplice refuses two playlists in a row ({line})")
        return
    if controller.unfit >= UNFIT and not turn.state.life and it.settings.repair and it.came is not None and faults.code_of(line) not in ("N4", "N9"):
        repairer = Repairer(it.stands.repairer.choices)
        repairer.clock, repairer.shifts = it.stands.repairer.clock, turn.state.shifts
        afresh = repairer.take(it.came, turn.at, turn.clock).found
        if afresh is not None:
            turn.put_controller(channel, sent=Request(What.FIND), unfit=0)
            turn.actions.append(Find(channel, afresh))
            return
    tell_refused(turn, channel, event.status, line, is_unfit)


def tell_refused(turn: Turn, channel: str, status: int, line: str, is_unfit: bool) -> None:
    """Tells that the list of the `channel` was refused; `is_unfit`: since it doesn't go on after the last one."""
    what = faults.meaning(status, line) + (f" ({line})" if is_unfit else "")
    turn.tell(channel, "adsplice", status, line, f"{what}; waits for the next playlist" + (f"; {STAYS}" if is_unfit else ""))


def found(turn: Turn, event: Found) -> None:
    """The numbers of a controller were found, or weren't."""
    channel, list_ = event.channel, event.found
    it = turn.state.renditions.get(channel)
    if it is None or it.controller.sent is None or it.controller.sent.what is not What.FIND:
        return
    turn.put_controller(channel, sent=None)
    if list_ is None:
        turn.tell(channel, "adsplice", 409, "Unfound", f"the numbers of its playlist aren't known; waits for the next playlist; {STAYS}")
        return
    entry = turn.next_entry()
    repairer = Repairer(it.stands.repairer.choices)
    repairer.clock = it.stands.repairer.clock
    repairer.accept(Repaired(list_, Head(list_.version, list_.target or 1, list_.kind)))
    viewed = Viewed()
    viewed.note(list_.date_ranges(), list_.segments[-1].number)
    pods = it.stands.pods.of(viewed.ranges)
    turn.put(channel, stands=Standing(repairer, viewed, entry, packaged.write(list_), b"", pods, it.stands.repairs, after=entry), before=None, is_new=False)
    turn.put_controller(channel, ahead=(0, 0))
    listed(turn, channel, entry)
    turn.tell(channel, "numbers", 0, "Found", f"adsplice holds other numbers than the feed knew: goes on at {list_.segments[0].number} with one discontinuity")


def checked(turn: Turn, event: Answered) -> None:
    """The written playlist was looked at: if it has other numbers than were reckoned, these hold."""
    channel = event.channel
    it = turn.put(channel, seen_at=turn.at)
    turn.put_controller(channel, is_unseen=False)
    if event.status == 404:
        unanswered(turn, event)
        return
    end, last, viewed = numbers.end_of(event.body) if event.status == 200 else None, it.stands.repairer.last, it.stands.viewed.copy()
    if end is None or not last or it.controller.listed < it.stands.entry:
        return
    if viewed.reckoned is not None and (viewed.reckoned.end() == end or it.stands.text.rstrip().endswith(END)):
        turn.tell(channel, "written", 0, "", "")
        return
    if viewed.reckoned is not None and may_drop(turn, it.controller):
        drop(turn, channel, f"adsplice's playlist ends with media number {end[0]} and discontinuity number {end[1]}, and not as the log says")
        return
    if viewed.reckoned is not None:
        turn.tell(channel, "written", 0, "Others", f"adsplice's playlist ends with media number {end[0]} and discontinuity number {end[1]}, and not with "
                                                   "what it was given here: perhaps somebody else gave it a decision; goes by what it wrote")
    viewed.see(numbers.items_of(event.body), last)
    viewed.learn(last, [line for line, number in viewed.ranges.values() if number >= last[-1].number])
    turn.put_standing(channel, viewed=viewed)
    apart.compare(turn)


def is_long_away(it: Rendition) -> bool:
    """Whether nobody waits for the controller of the rendition."""
    return it.controller.trials > 0


def is_busy(it: Rendition) -> bool:
    """Whether the controller of the rendition is about to take a list: the next one waits for that."""
    return not is_long_away(it) and (it.controller.way is not Way.THERE or it.stands.entry > it.controller.listed)


