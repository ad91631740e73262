"""A machine that follows a programme which another machine leads: its own controllers are given each entry of the log, in order.

It is a programme whose entries come from the log that the machines have in common, and not from lists that were read. What a controller is sent
next follows from the state and from what it acknowledged, as for the machine that leads (controllers). What is known of this machine's own
controllers is kept with each state of the log. Nothing that they answer changes that log.
"""
from __future__ import annotations

import json
from dataclasses import replace

from . import controllers, faults, numbers
from .controllers import END, JUDGED, UNFIT
from .events import Action, Answered, Began, Event, Given, Request, What
from .state import Controller, State, Way
from .turn import Turn

PATIENCE = 3  # trials in a row of a request, after which the others on this machine don't wait for its controller


def step(state: State, event: Event, at: float, clock: int) -> tuple[State, list[Action]]:
    """The state after the `event`, and what is to be done; the rest as in programme.step. Of the events those count that tell what was given, what a
    controller answered, that time has passed, and that it begins."""
    turn = Turn(state, at, clock)
    if isinstance(event, Given):
        adopt(turn, event.state, event.is_behind)
    elif isinstance(event, Answered):
        answered(turn, event)
    elif isinstance(event, Began):
        begin_again(turn)
    controllers.send(turn)
    return turn.state, turn.actions


def wake(state: State, at: float) -> float | None:
    """The moment from `at` on at which time alone brings something about; none if nothing waits for it."""
    return min((it.controller.retry_at for it in state.renditions.values() if it.controller.sent is None and it.controller.retry_at > at), default=None)


def has_all(state: State) -> bool:
    """Whether this machine's controllers have what the `state` says, but for those that haven't answered for long: the next one may come."""
    return all(it.controller.sent is None and not it.controller.trials or it.controller.trials >= PATIENCE for it in state.renditions.values())


def since(state: State) -> int | None:
    """The entry up to which all of this machine's controllers with a list have what the `state` of their log gave them; none if none has a list."""
    return min((it.controller.listed for it in state.renditions.values() if it.controller.took >= 0 and it.controller.way is not Way.OTHER), default=None)


def begin_again(turn: Turn) -> None:
    """It begins: whether the controllers are there isn't known, nor are requests answered that were sent before."""
    for channel, _ in turn.renditions():
        turn.put_controller(channel, way=Way.UNKNOWN, sent=None, trials=0, retry_at=0.0, is_unseen=False)


def with_controllers(state: State, own: State) -> State:
    """The `state` of the log with what this machine's `own` controllers acknowledged. Of another log they acknowledged nothing."""
    known = own.renditions if own.life == state.life else {}
    renditions = {name: replace(it, controller=known[name].controller, seen_at=known[name].seen_at) if name in known else replace(it, controller=Controller())
                  for name, it in state.renditions.items()}
    return replace(state, renditions=renditions, longest_pause=own.longest_pause)


def led(state: State) -> State:
    """The `state` of a machine that begins to lead: the log has no more. What its controllers refused while another one led is given once more, so that it
    is known what becomes of it."""
    state = replace(state, is_behind=False)
    for name, it in state.renditions.items():
        if it.controller.refused and it.controller.refused == it.stands.entry and it.before is not None:
            again = replace(it.controller, listed=it.stands.after, refused=0)
            state = replace(state, renditions={**state.renditions, name: replace(it, controller=again)})
    return state


# ---- what is given

def adopt(turn: Turn, state: State, is_behind: bool) -> None:
    """The log has the `state`: it is this machine's, with what its own controllers acknowledged. A channel without a list is filled from the newest one; it
    waits while the log has more (`is_behind`)."""
    old = turn.state if state.entry >= turn.state.entry else replace(turn.state, life="")  # (a log that was put back is another one)
    new = replace(with_controllers(state, old), is_behind=is_behind)
    turn.state, turn.is_kept = new, False
    for channel, it in turn.renditions():
        if not is_behind and it.controller.way is Way.THERE and it.controller.took < 0:
            anew = new.entry if it.controller.anew and old.is_behind else it.controller.anew  # (while the log had more, it was given nothing)
            controllers.begin_anew(turn, channel, anew)
    for name, file in new.files.items():
        was = old.files.get(name)
        late = [it for it in file.ids if it in file.late and (was is None or it not in was.late)]
        if late and old.entry:
            turn.note(new.renditions, "late", 0, ", ".join(late), json.dumps(late).encode())
    for channel in new.is_apart ^ old.is_apart if old.entry else ():
        turn.note([channel], "apart", int(channel in new.is_apart), "")


# ---- answers

def answered(turn: Turn, event: Answered) -> None:
    """Takes in an answer of one of its controllers."""
    it = turn.state.renditions.get(event.channel)
    if it is None or it.controller.sent is not event.request and it.controller.sent != event.request:
        return
    what = event.request.what
    if what is What.CHECK:
        turn.put_controller(event.channel, sent=None)
        checked(turn, event)
    elif what not in (What.DECIDE, What.PUSH) or event.status != 204 and event.status not in JUDGED:
        other_answered(turn, event)
    else:
        turn.put_controller(event.channel, sent=None, trials=0)
        taken(turn, event)


def other_answered(turn: Turn, event: Answered) -> None:
    """The making of a channel was answered, or a look at it; or it isn't there, or didn't answer: as for the machine that leads."""
    without = event._replace(request=replace_entry(event.request))
    turn.put_controller(event.channel, sent=without.request)
    controllers.answered(turn, without)


def replace_entry(request: Request) -> Request:
    """The `request` as one of no entry: what is told of a decision is told by the machine that leads."""
    return request._replace(entry=0) if request.what is What.DECIDE else request


def taken(turn: Turn, event: Answered) -> None:
    """A controller took a decision or a list, or refused it: it has it, or will never have it."""
    channel, request = event.channel, event.request
    it = turn.state.renditions[channel]
    if request.what is What.DECIDE and not request.entry:
        turn.put_controller(channel, first=(*it.controller.first, request.body))
    elif request.what is What.DECIDE:
        turn.put_controller(channel, decided=request.entry)
    elif request.is_ahead:
        turn.put_controller(channel, led=request.entry)
    elif event.status == 204:
        controllers.has_list(turn, channel, request.entry)
        turn.tell(channel, "adsplice", 204, "", controllers.LISTED)
    else:
        refused(turn, event)


def refused(turn: Turn, event: Answered) -> None:
    """A controller refused a list. The machine that leads learns it from its own, and gives the one before it again. If it goes on to give others,
    this channel isn't as the log says."""
    channel, line = event.channel, event.line
    it = turn.state.renditions[channel].controller
    controller = turn.put_controller(channel, listed=event.request.entry, refused=event.request.entry, unfit=it.unfit + 1)
    if controller.unfit >= UNFIT and controllers.may_drop(turn, controller):
        controllers.drop(turn, channel, f"adsplice refuses two playlists in a row ({line})")
    else:
        turn.tell(channel, "adsplice", event.status, line, f"{faults.meaning(event.status, line)}; waits for the next playlist")


def checked(turn: Turn, event: Answered) -> None:
    """The written playlist was looked at: if it has other numbers than were reckoned, the channel is made anew."""
    channel = event.channel
    it = turn.put(channel, seen_at=turn.at)
    turn.put_controller(channel, is_unseen=False)
    if event.status == 404:
        controllers.unanswered(turn, event)
        return
    end, reckoned = numbers.end_of(event.body) if event.status == 200 else None, it.stands.viewed.reckoned
    if end is None or reckoned is None or it.controller.listed < it.stands.entry or it.stands.text.rstrip().endswith(END) or reckoned.end() == end:
        return
    if controllers.may_drop(turn, it.controller):
        controllers.drop(turn, channel, f"adsplice's playlist ends with media number {end[0]} and discontinuity number {end[1]}, and not as the log says")
