"""Which rule decided for each segment, in words, and what each `Waiting` waits for."""
from __future__ import annotations

from .breaks import Break, Moment, is_leaving, last_entered, obstacle
from .channel import Channel, words
from .times import duration_text, instant_text

SAID = {
    "no instant": "this segment has no time (EXT-X-PROGRAM-DATE-TIME)",
    "no start": "the break had no START-DATE",
    "not signalled": "its SCTE35-OUT held no splice_insert that leaves the network",
    "not decided": "no decision had given it a pod, and there was no fallback",
    "does not fit": "its pod didn't fit (target duration, or initialisation sections)",
    "entered last": "it had been entered last, and no break is entered twice in a row",
    "not near": "this segment doesn't begin within the tolerance of its START-DATE",
    "past its end": "it had ended, or ends within the tolerance",
}


def segment_reason(channel: Channel, place: int) -> list[str]:
    """Lines for the segment at this place of the history: its break and why, or what kept each break known then from it."""
    shown, before = channel.history[place], channel.history[:place]
    name, moment = f"segment {shown.segment.number}", channel.moments[channel.shown_by[place]]
    mark = before[-1].mark if before else None
    if shown.mark is not None:
        goes_on = mark is not None and mark.id == shown.mark.id
        rule = "begins before its end" if goes_on else "begins within the tolerance of its START-DATE"
        return [f"{name}: {'stays in' if goes_on else 'enters'} {shown.mark.id}: it {rule}"]
    kept = [(one.id, obstacle(moment, one, last_entered(before), shown.instant)) for one in moment.breaks]
    left = [f"  {mark.id} ends before it, or within the tolerance after it begins"] if mark else []
    return [f"{name}: in no break", *left, *(f"  not in {known}: {SAID[said or 'not near']}" for known, said in kept)]


def apart(nanos: int) -> str:
    """How far two instants are apart, in seconds."""
    return f"{duration_text(abs(nanos))} s {'before' if nanos < 0 else 'after'}"


def waits_for(channel: Channel, one: Break) -> str:
    """The cause of `Waiting`: the break is still to come; no segment began near its start; it was decided or signalled too
    late; or the segment there belonged to another break, or this one was over or had been entered already."""
    assert one.start is not None
    timed = [(n, shown.instant) for n, shown in enumerate(channel.history) if shown.instant is not None]
    if not timed:
        return "no segment has a time (EXT-X-PROGRAM-DATE-TIME), so no break is entered."
    near = [n for n, instant in timed if abs(instant - one.start) <= channel.tolerance]
    newest = timed[-1][1] + channel.history[timed[-1][0]].segment.nanos
    if not near and one.start >= newest - channel.tolerance:
        return f"it is still to come: it starts {apart(one.start - newest)} the end of the newest segment."
    if not near:
        _, place, instant = min((abs(instant - one.start), n, instant) for n, instant in timed)
        return (f"no segment began within the tolerance of its START-DATE: segment {channel.history[place].segment.number} is "
                f"the nearest, at {instant_text(instant)}, {apart(instant - one.start)} it.")
    return " ".join(missed(channel, one, place) for place in near)


def missed(channel: Channel, one: Break, place: int) -> str:
    """Why the segment at this place, which began near the break's start, isn't in it now, or is."""
    shown = channel.history[place]
    number, moment = shown.segment.number, channel.moments[channel.shown_by[place]]
    if shown.mark and shown.mark.id == one.id:
        return f"it was filled from segment {number} on, and its pod has left the playlist."
    if shown.mark:
        return f"segment {number}, which began there, belongs to the break {shown.mark.id}."
    then = next((known for known in moment.breaks if known.id == one.id), None)
    said = obstacle(moment, then, last_entered(channel.history[:place]), shown.instant) if then else None
    if then is None:
        return f"it came too late: when segment {number} was first shown, the playlist didn't have it."
    late = said in ("not decided", "not signalled", "no start", "does not fit")
    return f"{'it came too late: ' if late else ''}when segment {number} was first shown, {SAID[said or 'not near']}."


def reasons(channel: Channel) -> list[str]:
    """Lines for each segment ever shown, and then for each known break the word of `why`, with the cause of `Waiting`."""
    lines = [line for place in range(len(channel.history)) for line in segment_reason(channel, place)]
    for name, word in words(channel):
        one = next(known for known in channel.moments[-1].breaks if known.id == name)
        lines.append(f"break {name}: {word}" + (f": {waits_for(channel, one)}" if word == "Waiting" else ""))
    return lines
