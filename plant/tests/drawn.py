#!/usr/bin/env python3
"""Draws sequences of lists with signals, and holds what the feed makes of them against what the signals mean.

  plant/tests/drawn.py SEED COUNT

Each case has segments of one length or of different ones, up to four breaks that may touch, a style with its choices (durations,
ends, announcements, dates beside their segments), and lists that bring one to three segments. Some feeds start again before each
list. By adsplice's rules exactly the breaks' segments have to be replaced. Left out is what says too little: an SCTE35-IN without a
date that stands in front of all segments, and one event's number for breaks that are announced while another is open. Prints each
case that went wrong; the last line is 'drawn: N right, M wrong', and the status is 1 if any went wrong.
"""
import argparse
import random
import sys
from dataclasses import dataclass, field

from of_signals import Run
from sections import digits, letters, segmentation, splice_insert, time_signal
from tools import instant

COUNT = 44  # segments of a case
FAMILIES = ("cue", "oatcls", "scte35", "splicepoint", "splice-out", "date-range", "date-range", "date-range")
TYPES = (None, 0x22, 0x30, 0x34, 0x36)


@dataclass
class Case:
    """A drawn case: the begins of its segments in milliseconds, its breaks, tags before segments, and date ranges: each with its text,
    the segment before which it stands (or that of the list that brings it, in front of all), and its break's end."""

    source: random.Random
    begins: list = field(default_factory=lambda: [0])
    breaks: list = field(default_factory=list)
    tags: dict = field(default_factory=dict)
    ranges: list = field(default_factory=list)
    target: int = 2

    def draw(self):
        """Draws all of it."""
        pick = self.source.choice
        length = pick((2000, 6000, 1920, None))
        self.target = 3 if length is None else -(-length // 1000)
        while len(self.begins) <= COUNT:
            self.begins.append(self.begins[-1] + (length or self.source.randrange(1500, 2500)))
        place = self.source.randrange(9, 13)
        while place < COUNT - 10 and len(self.breaks) < 4:
            self.breaks.append((place, place + self.source.randrange(1, 6)))
            place = self.breaks[-1][1] + pick((0, 1, 2, 3, 5))
        self.family, self.type, self.cue = pick(FAMILIES), pick(TYPES), pick(("plain", "named", "none", "zero"))
        self.has_end, self.goes_on, self.is_early, self.has_duration = (self.source.random() < it for it in (0.7, 0.5, 0.3, 0.5))
        self.way, self.end, self.is_own = pick(("OUT", "CMD")), pick(("place", "DURATION", "END-DATE", "none")), self.source.random() < 0.5
        self.is_beside, self.is_base64, self.ahead = self.source.random() < 0.4, self.source.random() < 0.2, pick((0, 0, 0, 2, 3))
        self.has_one_event = self.source.random() < 0.3 and not (self.family == "date-range" and (self.ahead or self.is_early))
        for turn, one in enumerate(self.breaks):
            (self.date_range if self.family == "date-range" else self.tagged)(turn, *one)
        self.listed_count, self.has_each_time = pick((6, 8, 12)), self.source.random() < 0.5
        return self

    def seconds(self, begin, end):
        """The seconds between the begins of two segments."""
        return (self.begins[end] - self.begins[begin]) / 1000

    def section(self, turn, is_out, seconds=None):
        """A section of the case's type that begins or ends a break."""
        event = 1001 if self.has_one_event else 1001 + turn
        if self.type is None:
            return splice_insert(event, is_out, seconds)
        return time_signal(segmentation(event, self.type + (not is_out), seconds))

    def tag(self, place, *texts):
        """Puts tags before a segment."""
        self.tags.setdefault(place, []).extend(texts)

    def tagged(self, turn, begin, end):
        """The tags of a break from one segment to another."""
        is_cued, has_duration = self.cue != "none", self.has_duration or self.family == "scte35"
        is_planned = {"cue": self.cue in ("plain", "named"), "oatcls": is_cued or has_duration}.get(self.family, has_duration) or self.family == "splice-out"
        has_end = self.family != "splice-out" and (self.has_end or not is_planned)
        seconds = self.seconds(begin, end) + (self.source.choice((0, 3, 10)) if self.is_early and has_end and is_planned else 0)
        out, back = letters(self.section(turn, True, seconds if has_duration else None)), letters(self.section(turn, False))
        passed = [(place, self.seconds(begin, place)) for place in range(begin + 1, end)] if self.goes_on else []
        cue = {"plain": f":{seconds:.3f}", "named": f":DURATION={seconds:.3f}", "none": "", "zero": ":0"}[self.cue]
        if self.family == "cue":
            begins, goes_on, ends = [f"#EXT-X-CUE-OUT{cue}"], f"#EXT-X-CUE-OUT-CONT:{{:.3f}}/{seconds:.3f}" if is_planned else "#EXT-X-CUE-OUT-CONT", ["#EXT-X-CUE-IN"]
        elif self.family == "oatcls":
            begins = [f"#EXT-OATCLS-SCTE35:{out}"] + [f"#EXT-X-CUE-OUT:{seconds:.3f}"] * is_cued
            goes_on = f"#EXT-X-CUE-OUT-CONT:ElapsedTime={{:.3f}},Duration={seconds:.3f},SCTE35={out}" if is_cued else "#EXT-X-ASSET:CAID=0x1"
            ends = [f"#EXT-OATCLS-SCTE35:{back}"] + ["#EXT-X-CUE-IN"] * is_cued
        elif self.family == "scte35":
            begins = [f'#EXT-X-SCTE35:CUE="{out}"' + f",DURATION={seconds:.3f},CUE-OUT=YES" * is_cued]
            goes_on = f'#EXT-X-SCTE35:CUE="{out}",DURATION={seconds:.3f},ELAPSED={{:.3f}},CUE-OUT=CONT'
            ends = [f'#EXT-X-SCTE35:CUE="{back}"' + ",CUE-IN=YES" * is_cued]
        elif self.family == "splicepoint":
            begins, goes_on, ends = [f"#EXT-X-SPLICEPOINT-SCTE35:{out}"], "#EXT-X-ASSET:CAID=0x1", [f"#EXT-X-SPLICEPOINT-SCTE35:{back}"]
        else:
            begins = [f'#EXT-X-CUE:TYPE="SpliceOut",ID="{1001 + turn}",TIME=1.0,DURATION={seconds:.3f}']
            goes_on, ends = begins[0] + ",ELAPSED={:.3f}", []
        self.tag(begin, *begins)
        for place, elapsed in passed:
            self.tag(place, goes_on.format(elapsed))
        self.tag(end, *(ends if has_end else []))

    def near(self, place):
        """An instant at a segment's begin, or beside it by less than half a segment."""
        begins = self.begins[place - 1:place + 2]
        half = min(b - a for a, b in zip(begins, begins[1:])) / 2
        return instant((self.begins[place] + (int(self.source.uniform(-0.9, 0.9) * half) if self.is_beside else 0)) / 1000)

    def date_range(self, turn, begin, end):
        """The date ranges of a break from one segment to another."""
        is_planned = self.source.random() < 0.6 or self.end == "none" and not self.has_duration
        seconds = self.seconds(begin, end) + (self.source.choice((0, 3, 10)) if self.is_early and self.end != "none" else 0)
        spelled = (lambda data: f'"{letters(data)}"') if self.is_base64 else digits
        out, start = spelled(self.section(turn, True, seconds if self.has_duration else None)), self.near(begin)
        text = f'ID="b{turn}",START-DATE="{start}"' + f",PLANNED-DURATION={seconds:.3f}" * is_planned + f",SCTE35-{self.way}={out}"
        self.ranges.append((text, begin, begin - self.ahead if self.ahead else None, end))
        back, ended = spelled(self.section(turn, False)), self.near(end)
        if self.end != "none" and (self.is_own or self.way == "CMD"):
            self.ranges.append((f'ID="b{turn}-in",START-DATE="{ended}",SCTE35-{"IN" if self.way == "OUT" else "CMD"}={back}', end, None, end))
        elif self.end != "none":
            said = {"place": "", "DURATION": f",DURATION={self.seconds(begin, end):.3f}", "END-DATE": f',END-DATE="{ended}"'}[self.end]
            self.ranges.append((f'ID="b{turn}"' + f',START-DATE="{start}"' * (self.source.random() < 0.5) + f"{said},SCTE35-IN={back}", end, None, end))

    def listed(self, newest):
        """The list whose newest segment has this number."""
        first = max(0, newest + 1 - self.listed_count)
        lines = ["#EXTM3U", "#EXT-X-VERSION:6", f"#EXT-X-TARGETDURATION:{self.target}", f"#EXT-X-MEDIA-SEQUENCE:{first}"]
        for number in range(first, newest + 1):
            for text, place, shown, end in self.ranges:
                stands = first if shown is not None else max(place, first)
                if stands == number and (place if shown is None else shown) <= newest and first <= end:
                    lines.append(f"#EXT-X-DATERANGE:{text}")
            lines += self.tags.get(number, [])
            lines += [f"#EXT-X-PROGRAM-DATE-TIME:{instant(self.begins[number] / 1000)}"] * (self.has_each_time or number == first)
            lines += [f"#EXTINF:{(self.begins[number + 1] - self.begins[number]) / 1000:.3f},", f"s{number}.ts"]
        return "\n".join([*lines, ""])

    def lists(self):
        """Lists that bring one segment or several."""
        newest, found = self.source.randrange(2, 5), []
        while newest < COUNT:
            found.append(self.listed(newest))
            newest += self.source.choice((1, 1, 1, 2, 3))
        return found


def wrong_with(seed, number):
    """What is wrong with a case; none if it is right."""
    case = Case(random.Random(f"{seed} {number}")).draw()
    run = Run(case.lists(), 60, case.source.random() < 0.3)
    owed = [number for begin, end in case.breaks for number in range(begin, end)]
    if run.numbers() == owed and len(run.ids()) == len(case.breaks):
        return None
    choices = {name: value for name, value in vars(case).items() if name not in ("source", "begins", "tags", "ranges")}
    return f"case {number} of seed {seed}: {choices}: {run.numbers()} by {run.ids()}"


def main(words):
    """Draws the cases."""
    it = argparse.ArgumentParser(description=__doc__, formatter_class=argparse.RawDescriptionHelpFormatter)
    it.add_argument("seed", type=int)
    it.add_argument("count", type=int)
    said = it.parse_args(words)
    wrong = [it for it in (wrong_with(said.seed, number) for number in range(said.count)) if it]
    print("\n".join([*wrong, f"drawn: {said.count - len(wrong)} right, {len(wrong)} wrong"]))
    return 1 if wrong else 0


if __name__ == "__main__":
    sys.exit(main(sys.argv[1:]))
