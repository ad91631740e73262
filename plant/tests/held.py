"""Sentences of adsplice-explain, read back and held against the rules: against `--why`, and the numbers against the channel."""
import json
import re
import sys
from decimal import Decimal
from random import Random

from tools import PLANT

sys.path[:0] = [PLANT]
sys.path.append(f"{PLANT}/../tests")
from adsplice_plant.causes import Explainer  # noqa: E402
from adsplice_plant.history import NAME, PATHS, TAKEN, Given, Run  # noqa: E402
from adsplice_rules.breaks import end_of, is_leaving  # noqa: E402
from adsplice_rules.channel import words  # noqa: E402
from adsplice_rules.decisions import pod_for  # noqa: E402
from adsplice_rules.edge import Edge, Refused, Request, Unfinished, request_of, route_of  # noqa: E402
from adsplice_rules.times import instant_of, rounded_seconds  # noqa: E402
from adsplice_rules.values import NotModelled  # noqa: E402
from adsplice_rules.why import SAID, reasons  # noqa: E402
from making import breaks, channels, playlists, requests  # noqa: E402

FAMILIES = {"playlists": playlists.case, "breaks": breaks.case, "channels": channels.case, "requests": requests.case}
SEGMENT = r"segment (?P<number>\d+) \((?P<uri>.*)\), which begins at (?P<instant>\S+?)"
BY = r"that one was listed first by (?P<list>\w+)"
# How each sentence of a break that waits reads, by its cause.
WAITING = {
    "no times": re.compile(r"no segment has a time: .*"),
    "to come": re.compile(r"it begins (?P<span>[\d.]+) s (?P<side>after|before) the end of the newest segment: it is still to come, or its clock is another one"),
    "before": re.compile(r"it began (?P<span>[\d.]+) s before the first segment that the channel was given \((?P<instant>\S+)\): .*"),
    "nearest": re.compile(SEGMENT + r", is nearest to its START-DATE \((?P<start>\S+)\) and misses it by (?P<span>[\d.]+) s, which is over the tolerance of (?P<tolerance>[\d.]+) s"),
    "inside": re.compile(SEGMENT + r", is inside the break (?P<other>.*), which lasts until (?P<end>\S+)"),
    "entered": re.compile(SEGMENT + r", entered the break (?P<other>.*), which begins at (?P<begin>\S+)"),
    "no range": re.compile(r"its EXT-X-DATERANGE came after " + SEGMENT + r", near its START-DATE: " + BY),
    "no start": re.compile(r"its START-DATE came after " + SEGMENT + r", near its START-DATE: " + BY),
    "not signalled": re.compile(r"its SCTE35-OUT came after " + SEGMENT + r", near its START-DATE: " + BY),
    "not decided": re.compile(r"the (?P<which>decision|fallback) came after " + SEGMENT + r", near its START-DATE: " + BY + r", and the (?P=which) is (?P<late>\w+)"),
    "does not fit": re.compile(r"when " + SEGMENT + r", was listed first, ad \d+.*"),
    "past its end": re.compile(r"it (?P<how>lasts|ends) (?P<span>[\d.]+) s(?: before it begins)? \(by (?P<by>[\w -]+)\), so that " + SEGMENT
                               + r", isn't (?P<tolerance>[\d.]+) s \(the tolerance\) before its end"),
}


def given_by(family, seed, number):
    """What each channel of a case is given, by its name."""
    made = FAMILIES[family](Random(f"{seed}/{family}/{number}"))
    if family in ("playlists", "breaks"):
        base, text, decisions = made
        body = b'{"base":"%s"}' % base.encode()
        return {"a": [Given("channel", "g0", body), *([Given("decisions", "g1", decisions)] if decisions is not None else []), Given("origin", "g2", text)]}
    found = {}
    for place, given in enumerate(made):
        try:
            request = request_of(given)
        except (Refused, Unfinished):
            continue
        what = {("PUT", ""): "channel", ("DELETE", ""): "delete", ("PUT", "/origin"): "origin", ("PUT", "/decisions"): "decisions"}
        route = route_of(request.target)
        if route is not None and (request.method, route[1]) in what:
            found.setdefault(route[0], []).append(Given(what[request.method, route[1]], f"g{place}", request.body))
    return found


def run_of(given):
    """The run of what was given, answered by the rules."""
    run, edge = Run(), Edge()

    def ask(it):
        reply = edge.answer(Request("DELETE" if it.what == "delete" else "PUT", f"/channels/{NAME}{PATHS[it.what]}", it.body))
        return reply.status, "" if reply.status in TAKEN else reply.body.strip()

    for it in given:
        run.take(it, ask)
    return run


def nanos_of(text):
    """The nanoseconds of a decimal of seconds."""
    return int(Decimal(text) * 10**9)


def kind_for(body, name):
    """Whether a decision file decides a break (`breaks`), withdraws its pod (`withdraw`), or doesn't name it."""
    try:
        said = json.loads(body)
        is_decided = any(it.get("id") == name for it in said.get("breaks", []) if isinstance(it, dict))
        return "withdraw" if said.get("withdraw") == name else "breaks" if is_decided else ""
    except (ValueError, AttributeError, TypeError):
        return ""


class Held:
    """The sentences of one run; `counts` by cause."""

    def __init__(self, run, counts):
        self.run, self.counts, self.explainer = run, counts, Explainer(run)

    def faults(self):
        """What is false in the sentences."""
        found = self.explainer.differences()
        for name in self.explainer.ids():
            said = self.explainer.explain(name)
            try:
                self.hold(name, said.removeprefix(f"{name}: "))
            except (AssertionError, AttributeError, KeyError, StopIteration, ValueError, TypeError) as fault:
                found.append(f"{said!r}: {type(fault).__name__} {fault}")
        return found

    def hold(self, name, said):
        """Raises unless what is `said` of a break is true."""
        marked = [(life, place) for life in self.run.lives for place, it in enumerate(life.channel.history) if it.mark and it.mark.id == name]
        if marked:
            self.counts["Filled"] += 1
            return self.filled(name, said, marked)
        if name not in self.run.known:
            self.counts["unknown"] += 1
            assert said == "no playlist that has it was taken" and all(name not in dict(words(life.channel)) for life in self.run.lives)
            return None
        life, channel = self.run.known[name]
        word = dict(words(channel))[name]
        assert said.endswith(f" ({word})"), word
        one = next(it for it in channel.moments[-1].breaks if it.id == name)
        self.counts[word] += 1
        ways = {"NoStart": self.no_start, "NotSignalled": self.not_signalled, "NotDecided": self.not_decided, "DoesNotFit": self.does_not_fit, "Waiting": self.waiting}
        return ways[word](said.removesuffix(f" ({word})"), one, life, channel)

    def filled(self, name, said, marked):
        found = re.fullmatch(r"it is filled by (its own pod|the fallback) \((\d+) segments?, ([\d.]+) s\)(?:, and lasts (-?[\d.]+) s itself \(by ([\w -]+)\))?(?:; (.*))?", said)
        life, first = next(it for n, it in enumerate(marked) if all(self.is_run(it, other) for other in marked[n:]))
        channel = life.channel
        mark, moment = channel.history[first].mark, channel.moments[channel.shown_by[first]]
        own = moment.store.entry(name)
        assert found[1] == ("its own pod" if own and not own.copied else "the fallback")
        assert int(found[2]) == sum(len(ad.segments) for ad in mark.pod.ads) and nanos_of(found[3]) == mark.pod.total()
        assert bool(found[6]) == (found[1] == "the fallback")
        if found[6]:
            self.fallback(name, found[6], life, first)
        one = next(it for it in moment.breaks if it.id == name)
        end = end_of(one, mark.pod.total())
        if found[4]:
            assert one.start + (nanos_of(found[4].lstrip("-")) * (-1 if found[4].startswith("-") else 1)) == end
            assert abs(end - one.start - mark.pod.total()) > channel.tolerance
        else:
            assert not isinstance(end, int) or abs(end - one.start - mark.pod.total()) <= channel.tolerance

    def fallback(self, name, said, life, first):
        """Why the fallback fills a break."""
        self.counts["fallback"] += 1
        step = life.lists[life.channel.shown_by[first]]
        place = self.run.steps.index(step)
        named = [(n, it, kind) for n, it in enumerate(self.run.steps) if it.given.what == "decisions" and (kind := kind_for(it.given.body, name))]
        if found := re.fullmatch(r"(\w+), which names it, is refused \((.*)\)", said):
            assert any(n < place and it.given.name == found[1] and it.given.fault == found[2] and not it.is_taken() for n, it, _ in named)
        elif found := re.fullmatch(r"(\w+) came after (\w+), which was the first to list " + SEGMENT, said):
            assert found[2] == step.given.name and int(found["number"]) == life.channel.history[first].segment.number
            assert any(n > place and it.given.name == found[1] and kind == "breaks" for n, it, kind in named)
        elif said == "its own pod was withdrawn":
            assert [kind for n, it, kind in named if n < place and it.is_taken()][-1] == "withdraw"
        else:
            assert said == "no decision file gives it a pod" and not any(kind == "breaks" and not it.is_taken() for n, it, kind in named)

    @staticmethod
    def is_run(one, other):
        """Whether two marked places are of one run."""
        return one[0] is other[0] and all(one[0].channel.history[n].mark and one[0].channel.history[n].mark.id == one[0].channel.history[one[1]].mark.id
                                          for n in range(one[1], other[1] + 1))

    def no_start(self, said, one, life, channel):
        found = re.fullmatch(r"its EXT-X-DATERANGE has no START-DATE \(line (\d+)\)", said)
        assert one.start is None
        lists = [it.given.text().split("\n") for it in self.run.steps if it.given.what == "origin"]
        assert any(int(found[1]) <= len(it) and it[int(found[1]) - 1].startswith("#EXT-X-DATERANGE:") and f'ID="{one.id}"' in it[int(found[1]) - 1] for it in lists)

    def not_signalled(self, said, one, life, channel):
        assert not is_leaving(one) and one.start is not None
        assert said.startswith("its SCTE35-OUT is ") == (one.out is not None)
        assert not said.startswith("its SCTE35-OUT is a splice_insert that leaves")

    def not_decided(self, said, one, life, channel):
        assert pod_for(channel.store, one.id) is None and "no fallback" in said
        named = [(it.is_taken(), kind) for it in self.run.steps if it.given.what == "decisions" and (kind := kind_for(it.given.body, one.id))]
        taken = [kind for is_taken, kind in named if is_taken]
        assert said.startswith("its pod was withdrawn") == (taken[-1:] == ["withdraw"])
        assert "is refused" not in said or (False, "breaks") in named
        assert not said.startswith("no decision file") or all(is_taken or kind != "breaks" for is_taken, kind in named)

    def does_not_fit(self, said, one, life, channel):
        self.misfit(said, pod_for(channel.store, one.id), channel.moments[-1])

    @staticmethod
    def misfit(said, pod, moment):
        long = re.fullmatch(r"ad (\d+), segment (\d+) of its pod lasts ([\d.]+) s, which is (\d+) s rounded, over the target duration of (\d+) s", said)
        if long:
            segment = pod.ads[int(long[1])].segments[int(long[2])]
            assert nanos_of(long[3]) == segment.nanos and int(long[4]) == rounded_seconds(segment.nanos) > int(long[5]) == moment.target
            return
        found = re.fullmatch(r"ad (\d+) of its pod has (an|no) initialisation section \(map\), and the programme has (one|none)", said)
        assert (found[2] == "an", found[3] == "one") == (pod.ads[int(found[1])].init_section is not None, moment.with_init_sections) and (found[2] == "an") != (found[3] == "one")

    def waiting(self, said, one, life, channel):
        why = next(it for it in reasons(channel) if it.startswith(f"break {one.id}: Waiting: ")).removeprefix(f"break {one.id}: Waiting: ")
        timed = [it.instant for it in channel.history if it.instant is not None]
        parts = said.split("; and ")
        if "more begin near it" in parts[-1]:
            parts.pop()
        for part in parts:
            cause, found = next((cause, it) for cause, pattern in WAITING.items() if (it := pattern.fullmatch(part)))
            self.counts[cause] += 1
            if cause == "no times":
                assert why.startswith("no segment has a time") and not timed
            elif cause == "to come":
                assert f"it starts {found['span']} s {found['side']} the end of the newest segment." in why, why
            elif cause == "before":
                assert "is the nearest" in why and instant_of(found["instant"]) == min(timed)
                assert min(timed) - one.start == nanos_of(found["span"]) > channel.tolerance
            elif cause == "nearest":
                owed = f"segment {found['number']} is the nearest, at {found['instant']}, {found['span']} s "
                assert owed in why and nanos_of(found["span"]) > channel.tolerance == nanos_of(found["tolerance"]), why
                assert instant_of(found["start"]) == one.start
            else:
                self.near(cause, found, why, one, channel)

    def near(self, cause, found, why, one, channel):
        """A segment that begins near the break's start."""
        place = next(n for n, it in enumerate(channel.history) if it.segment.number == int(found["number"]))
        shown, moment = channel.history[place], channel.moments[channel.shown_by[place]]
        assert shown.instant == instant_of(found["instant"]) and abs(shown.instant - one.start) <= channel.tolerance
        assert shown.segment.uri.endswith(found["uri"])
        number = found["number"]
        if "list" in found.groupdict():
            lists = [it for it in self.run.steps if it.given.what == "origin" and it.is_taken()]
            first = self.run.known[one.id][0].lists[channel.shown_by[place]]
            assert first.given.name == found["list"] and first in lists
        if cause in ("inside", "entered"):
            assert f"segment {number}, which began there, belongs to the break {found['other']}." in why, why
            other = next(it for it in moment.breaks if it.id == found["other"])
            is_first = place == 0 or channel.history[place - 1].mark is None or channel.history[place - 1].mark.id != other.id
            assert is_first == (cause == "entered")
            if cause == "inside":
                assert end_of(other, shown.mark.pod.total()) == instant_of(found["end"]) > shown.instant + channel.tolerance
            else:
                assert other.start == instant_of(found["begin"])
            return
        if cause == "no range":
            assert f"when segment {number} was first shown, the playlist didn't have it." in why, why
            return
        assert f"when segment {number} was first shown, {SAID[cause]}" in why, why
        if cause == "not decided":
            late = next(it for it in self.run.steps if it.given.name == found["late"])
            assert late.is_taken() and self.run.steps.index(late) > next(n for n, it in enumerate(self.run.steps) if it.given.name == found["list"])
            assert '"fallback"' in late.given.text() if found["which"] == "fallback" else kind_for(late.given.body, one.id) == "breaks"
        if cause == "past its end":
            then = next(it for it in moment.breaks if it.id == one.id)
            end = end_of(then, pod_for(moment.store, one.id).total())
            assert end - then.start == nanos_of(found["span"]) * (1 if found["how"] == "lasts" else -1)
            assert shown.instant + channel.tolerance >= end


def differences(family, seed, numbers, counts):
    """What is false in the sentences of these cases of a family; `counts` how many sentences there are by their causes."""
    found = []
    for number in numbers:
        try:
            for name, given in given_by(family, seed, number).items():
                found += [f"{family}-{seed}-{number} {name}: {it}" for it in Held(run_of(given), counts).faults()]
        except NotModelled:
            continue
    return found


def main(arguments):
    """Holds COUNT cases of each family: SEED COUNT."""
    from collections import Counter
    seed, count = arguments
    bad = 0
    for family in FAMILIES:
        counts = Counter()
        found = differences(family, seed, range(int(count)), counts)
        bad += len(found)
        print(family, dict(counts), f"{len(found)} false", *found[:10], sep="\n  ", flush=True)
    return 1 if bad else 0


if __name__ == "__main__":
    sys.exit(main(sys.argv[1:]))
