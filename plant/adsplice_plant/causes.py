"""Why each break is filled or empty, in words with numbers, by what the rules (adsplice_rules) found for what a channel was given."""
from __future__ import annotations

import difflib
import re
from datetime import datetime

from adsplice_rules.breaks import Break, Mark, Moment, end_of, ends_of, last_entered, obstacle
from adsplice_rules.channel import Channel, words
from adsplice_rules.decisions import Pod, pod_for
from adsplice_rules.times import duration_text, instant_text, rounded_seconds

from . import faults, judge, splice
from .decisions import said_by
from .history import NOTES, Life, Run, Step
from .kept import ids_in
from .playlist import seconds_text
from .seen import strange_in

NEARS = 3  # segments near a break's begin that are told at most


def of_segments(count: int) -> str:
    """So many segments in words."""
    return f"{count} segment{'s' * (count != 1)}"


class Explainer:
    """Explains the breaks of the `run` of a channel."""

    def __init__(self, run: Run) -> None:
        self.run, self.listed, self.filled_at = run, run.listed(), run.filled()

    # ---- what was refused, and what goes unseen

    def differences(self) -> list[str]:
        """A sentence for each answer of adsplice that isn't the one of the rules, and for each time of which nothing is known."""
        found = []
        for step in self.run.steps:
            name, said, owed = step.given.name, answer_text(step.given.status, step.given.fault), answer_text(step.status, step.fault)
            if step.given.what in NOTES:
                continue
            if step.given.what == "hole":
                found.append(f"{name}: nothing is kept from there on ({step.given.fault})")
            elif step.differs() and step.is_taken() and step.fault.startswith("N"):
                found.append(f"{name} was taken, and by the rules it doesn't follow what is known ({step.fault}): something before it isn't kept, or it is a fault of adsplice")
            elif step.differs():
                found.append(f"{name}: adsplice answers {said}, and the rules {owed}: that is a fault of adsplice, which its makers want to be told")
        return found + self.run.unlike

    def unseen(self) -> list[str]:
        """What adsplice takes without a word, and what is most likely a mistake: a sentence for each kind."""
        found: dict[str, str] = {}
        for step in self.run.steps:
            if step.given.what == "origin":
                for kind, text in strange_in(step.given):
                    found.setdefault(kind, f"{step.given.name}: {text}")
            elif step.is_taken() and step.given.what == "decisions":
                for text in judge.strange_members(step.given.body):
                    found.setdefault(text, f"{step.given.name}: {text}")
        return list(found.values())

    # ---- breaks

    def ids(self) -> list[str]:
        """The IDs of all breaks that a list has, in order."""
        return list(self.listed)

    def unlisted(self) -> list[str]:
        """A sentence for each decided ID that no list has."""
        decided = [id_ for step in self.taken_decisions() for id_ in said_by(step.given.body)[1]]
        found = []
        for it in dict.fromkeys(decided):
            if it not in self.listed:
                like = self.like(it, [name for name in self.listed if name not in decided] or list(self.listed))
                found.append(f"{it}: no playlist has this ID, for which a pod was decided" + (f"; listed is {like}, which is like it" if like else ""))
        return found

    def taken_decisions(self) -> list[Step]:
        """The steps of the decision files that were taken."""
        return [it for it in self.run.steps if it.given.what == "decisions" and it.is_taken()]

    @staticmethod
    def like(name: str, others: list[str]) -> str | None:
        """The one of `others` that is most like the ID `name`, letters' case and signs aside; none if none is."""
        plain = {re.sub(r"[^a-z0-9]", "", it.casefold()): it for it in others}
        close = difflib.get_close_matches(re.sub(r"[^a-z0-9]", "", name.casefold())[:255], list(plain)[-1000:], 1, 0.75)
        return plain[close[0]] if close else None

    def word(self, name: str) -> str:
        """The word of `why` for the break `name`: `Filled` if it ever was, else the last one; empty if it was never known."""
        if name in self.filled_at:
            return "Filled"
        return dict(words(self.run.known[name][1]))[name] if name in self.run.known else ""

    def explain(self, name: str) -> str:
        """Why the break `name` is filled or not: a sentence with its numbers."""
        word = self.word(name)
        if word == "":
            return f"{name}: no playlist that has it was taken"
        if word == "Filled":
            life, place = self.filled_at[name]
            return f"{name}: {filled(name, life, place)}" + self.why_fallback(name, life, place)
        life, channel = self.run.known[name]
        one = next(it for it in channel.moments[-1].breaks if it.id == name)
        ways = {"NoStart": self.no_start, "NotSignalled": self.not_signalled, "NotDecided": self.not_decided,
                "DoesNotFit": self.does_not_fit, "Waiting": self.waiting}
        return f"{name}: {ways[word](one, life, channel)} ({word})"

    def named(self, name: str) -> list[tuple[str, Step]]:
        """The steps of the decision files that name the break `name`, each with its kind."""
        return [(kind, it) for it in self.run.steps if it.given.what == "decisions" for kind, ids in (said_by(it.given.body),) if name in ids]

    def noted(self, name: str) -> str:
        """Why the feed gave no rendition the decision of the break `name`; empty if it kept nothing of that."""
        found = [it.given for it in self.run.steps if it.given.what in NOTES and name in ids_in(it.given.text())]
        return "" if not found else "it came too late" if found[-1].what == "late" else found[-1].fault

    def why_fallback(self, name: str, life: Life, place: int) -> str:
        """If the fallback fills the break `name`, whose first segment is at `place` of the history: why no pod of its own does."""
        channel, first = life.channel, life.shown_by(place)
        own = channel.moments[channel.shown_by[place]].store.entry(name)
        if own is not None and not own.copied:
            return ""
        named, at = self.named(name), self.run.steps.index(first)
        after = [it for kind, it in named if kind == "breaks" and self.run.steps.index(it) > at]
        before = [(kind, it) for kind, it in named if self.run.steps.index(it) < at]
        taken = [kind for kind, it in before if it.is_taken()]
        noted = self.noted(name)
        if taken and taken[-1] == "withdraw":
            return "; its own pod was withdrawn" + (f" from all renditions, since {noted}" if noted else "")
        refused = next((it for kind, it in reversed(before) if kind == "breaks" and not it.is_taken()), None)
        if refused is not None:
            return f"; {refused.given.name}, which names it, is refused ({refused.given.fault})"
        if after:
            return f"; {after[0].given.name} came{late_by(first, after[0])} after {first.given.name}, which was the first to list {segment_text(channel, place)}"
        return f"; no rendition has its decision, since {noted}" if noted else "; no decision file gives it a pod"

    def no_start(self, one: Break, _life: Life, _channel: Channel) -> str:
        """The break `one` has no START-DATE."""
        return f"its EXT-X-DATERANGE has no START-DATE (line {self.listed[one.id][0]})"

    def not_signalled(self, one: Break, _life: Life, _channel: Channel) -> str:
        """What the section of the break `one` is."""
        if one.out is not None:
            return f"its SCTE35-OUT is {splice.told(one.out)}"
        text = self.listed[one.id][1].text
        other = re.search(r"(?:^|,)SCTE35-CMD=([^,]+)", text)
        what = ("SCTE35-CMD", other[1]) if other else ("SCTE35-IN", one.back) if one.back is not None else None
        return "its EXT-X-DATERANGE has no SCTE35-OUT" + (f" but {what[0]} ({splice.told(what[1])})" if what else "")

    def not_decided(self, one: Break, life: Life, _channel: Channel) -> str:
        """Who decided what in the place of the break `one`."""
        named = self.named(one.id)
        taken = [kind for kind, it in named if it.is_taken()]
        noted = self.noted(one.id)
        if taken and taken[-1] == "withdraw":
            return "its pod was withdrawn" + (f" from all renditions, since {noted}" if noted else "") + ", and there is no fallback"
        refused = next((it for kind, it in named if kind == "breaks" and not it.is_taken()), None)
        if refused is not None:
            return f"the decision file that names it is refused ({refused.given.fault}), and there is no fallback"
        if noted:
            return f"no rendition has its decision, since {noted}, and there is no fallback"
        decided = [id_ for it in self.taken_decisions() for id_ in said_by(it.given.body)[1]]
        like = self.like(one.id, [it for it in decided if it not in self.listed])
        return "no decision file gives it a pod, and there is no fallback" + (f"; decided is {like}, which is like it" if like else "")

    def does_not_fit(self, one: Break, _life: Life, channel: Channel) -> str:
        """What of its pod doesn't fit the break `one`, as all is now."""
        pod = pod_for(channel.store, one.id)
        assert pod is not None
        return misfit(pod, channel.moments[-1])

    # ---- a break with which all is well

    def waiting(self, one: Break, life: Life, channel: Channel) -> str:
        """All is well with the break `one` itself: which segment would have entered it, and what it misses."""
        assert one.start is not None
        timed = [(place, shown.instant) for place, shown in enumerate(channel.history) if shown.instant is not None]
        if not timed:
            is_stated = any(segment.time is not None for it in channel.accepted for segment in it.playlist.segments)
            return "no segment has a time: " + ("each EXT-X-PROGRAM-DATE-TIME came after its segment" if is_stated else "the playlist states no EXT-X-PROGRAM-DATE-TIME")
        near = [place for place, instant in timed if abs(instant - one.start) <= channel.tolerance]
        if near:
            told = [self.missed(one, life, channel, place) for place in near[:NEARS]]
            return "; and ".join(told) + (f"; and {len(near) - NEARS} more begin near it" if len(near) > NEARS else "")
        newest = timed[-1][1] + channel.history[timed[-1][0]].segment.nanos
        if one.start >= newest - channel.tolerance:
            side = "after" if one.start >= newest else "before"
            return f"it begins {seconds_text(abs(one.start - newest))} s {side} the end of the newest segment: it is still to come, or its clock is another one"
        first = min(instant for _, instant in timed)
        if one.start < first:
            return (f"it began {seconds_text(first - one.start)} s before the first segment that the channel was given ({instant_text(first)}): "
                    "the break ran before the channel was made, or its clock is another one")
        _, place, instant = min((abs(instant - one.start), place, instant) for place, instant in timed)
        return (f"{segment_text(channel, place)}, is nearest to its START-DATE ({instant_text(one.start)}) and misses it by "
                f"{seconds_text(abs(instant - one.start))} s, which is over the tolerance of {seconds_text(channel.tolerance)} s")

    def missed(self, one: Break, life: Life, channel: Channel, place: int) -> str:
        """The segment at `place`, which begins within the tolerance of the break `one`, and didn't enter it."""
        shown, moment, of = channel.history[place], channel.moments[channel.shown_by[place]], segment_text(channel, place)
        first = f"that one was listed first by {life.shown_by(place).given.name}"
        if shown.mark is not None:
            return inside(shown.mark, channel, place)
        then = next((it for it in moment.breaks if it.id == one.id), None)
        if then is None:
            return f"its EXT-X-DATERANGE came after {of}, near its START-DATE: {first}"
        kept = obstacle(moment, then, last_entered(channel.history[:place]), shown.instant)
        pod = pod_for(moment.store, one.id)
        if kept == "not decided":
            return self.late(one, life, channel, place)
        if kept in ("no start", "not signalled"):
            what = "START-DATE" if kept == "no start" else "SCTE35-OUT"
            return f"its {what} came after {of}, near its START-DATE: {first}"
        if kept == "does not fit" and pod is not None:
            return f"when {of}, was listed first, {misfit(pod, moment)}"
        if kept == "past its end" and pod is not None:
            by, end = ends_of(then, pod.total())[0]
            length = int(end) - (then.start or 0)
            lasts = f"lasts {seconds_text(length)} s" if length >= 0 else f"ends {seconds_text(-length)} s before it begins"
            return f"it {lasts} (by {by}), so that {of}, isn't {seconds_text(channel.tolerance)} s (the tolerance) before its end"
        return f"{of}, begins within the tolerance of its START-DATE, and didn't enter it: it is the break that was entered last"

    def late(self, one: Break, life: Life, channel: Channel, place: int) -> str:
        """The break `one` had no pod yet when the segment at `place` was shown."""
        which = "decision" if channel.store.entry(one.id) is not None else "fallback"
        after = self.run.steps[self.run.steps.index(life.shown_by(place)):]
        kinds = [(it, *said_by(it.given.body)) for it in after if it.given.what == "decisions" and it.is_taken()]
        late = next((it for it, kind, ids in kinds if kind == "fallback" and which == kind or kind == "breaks" and which == "decision" and one.id in ids), None)
        told = f", and the {which} is {late.given.name}" if late else ""
        return f"the {which} came after {segment_text(channel, place)}, near its START-DATE: that one was listed first by {life.shown_by(place).given.name}{told}"


def late_by(first: Step, then: Step) -> str:
    """How many seconds the step `then` came after the step `first`, if that is known."""
    if not first.given.at or not then.given.at:
        return ""
    by = datetime.fromisoformat(then.given.at) - datetime.fromisoformat(first.given.at)
    return f" {by.total_seconds():g} s"


def answer_text(status: int, fault: str) -> str:
    """An answer in words."""
    return f"{status} {fault}".strip()


def refusals(steps: list[Step]) -> list[str]:
    """A sentence for each list and each decision file of `steps` that was refused; those that follow one another by one fault
    have one."""
    found: list[tuple[str, Step, int]] = []
    for step in steps:
        if step.given.what in ("origin", "decisions") and not step.is_taken():
            kind = faults.name_of(step.given.fault) if step.given.what == "origin" else f"{step.given.fault} {step.given.body!r}"
            if found and found[-1][0] == kind:
                found[-1] = (kind, found[-1][1], found[-1][2] + 1)
            else:
                found.append((kind, step, 1))
    return [refusal(step) + (f" (and so are {count - 1} more after it)" if count > 1 else "") for _, step, count in found]


def refusal(step: Step) -> str:
    """Why the list or decision file of `step` was refused."""
    given, fault = step.given, step.given.fault or f"status {step.given.status}"
    if given.what == "decisions":
        wrong = judge.judge(given.body)
        if wrong is not None and wrong.fault == fault:
            return f"{given.name} is refused: {wrong.line()} ({fault})"
    place = re.search(r" line ([0-9]{1,9})$", fault)
    lines = given.text().split("\n") if place and given.what == "origin" else []
    line = lines[int(place[1]) - 1] if place and 0 < int(place[1]) <= len(lines) else ""
    return f"{given.name} is refused: {faults.meaning(given.status, fault)} ({fault})" + (f": {line[:100]}" if line else "")


def segment_text(channel: Channel, place: int) -> str:
    """The segment at `place` of the history of `channel`, in words; a URI under the base as it was listed."""
    shown = channel.history[place]
    folder = channel.base.text().rpartition("/")[0] + "/"
    return f"segment {shown.segment.number} ({shown.segment.uri.removeprefix(folder)}), which begins at {instant_text(shown.instant or 0)}"


def misfit(pod: Pod, moment: Moment) -> str:
    """Which segment of `pod` is too long at `moment`, or which ad has an initialisation section if the programme has none."""
    for number, ad in enumerate(pod.ads):
        for place, it in enumerate(ad.segments):
            if rounded_seconds(it.nanos) > moment.target:
                return (f"ad {number}, segment {place} of its pod lasts {duration_text(it.nanos)} s, which is {rounded_seconds(it.nanos)} s rounded, "
                        f"over the target duration of {moment.target} s")
    number = next(number for number, ad in enumerate(pod.ads) if (ad.init_section is not None) != moment.with_init_sections)
    has, programme = ("no", "one") if moment.with_init_sections else ("an", "none")
    return f"ad {number} of its pod has {has} initialisation section (map), and the programme has {programme}"


def inside(mark: Mark, channel: Channel, place: int) -> str:
    """The segment at `place` of the history of `channel` belongs to the break of `mark`: until when that lasts."""
    moment = channel.moments[channel.shown_by[place]]
    other, before = next(it for it in moment.breaks if it.id == mark.id), channel.history[place - 1].mark if place else None
    if before is None or before.id != mark.id:
        return f"{segment_text(channel, place)}, entered the break {mark.id}, which begins at {instant_text(other.start or 0)}"
    end = end_of(other, mark.pod.total())
    return f"{segment_text(channel, place)}, is inside the break {mark.id}, which lasts until {instant_text(int(end or 0))}"


def filled(name: str, life: Life, place: int) -> str:
    """By which pod the break `name` is filled, whose first segment is at `place` of the history of `life`, and how long that is."""
    channel = life.channel
    mark, moment = channel.history[place].mark, channel.moments[channel.shown_by[place]]
    assert mark is not None
    own = moment.store.entry(name)
    count, total = sum(len(ad.segments) for ad in mark.pod.ads), mark.pod.total()
    one = next(it for it in moment.breaks if it.id == name)
    by, end = ends_of(one, total)[0]
    length = end - (one.start or 0) if isinstance(end, int) else total
    differs = f", and lasts {seconds_text(length)} s itself (by {by})" if abs(length - total) > channel.tolerance else ""
    return f"it is filled by {'its own pod' if own and not own.copied else 'the fallback'} ({of_segments(count)}, {seconds_text(total)} s){differs}"
