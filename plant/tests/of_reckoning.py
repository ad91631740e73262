"""Tests of the numbers that the feed reckons: they are those that the rules write, whatever breaks, pods and marks come."""
import json
import random
import sys

from of_lists import BASE
from tools import OUT, PLANT, apart, instant

sys.path.insert(0, PLANT)
from adsplice_plant import packaged, spelling  # noqa: E402
from adsplice_plant.pods import Pods  # noqa: E402
from adsplice_plant.packaged import as_listed  # noqa: E402
from adsplice_plant.reckoning import Moment, Reckoned, Store, kept_break, known_after, reckoned  # noqa: E402
from adsplice_rules.channel import Channel, decide, refreshed  # noqa: E402
from adsplice_rules.values import Fault  # noqa: E402

NEEDS = ()


def pod(dice, name):
    """A decision file of the break `name`, or of the fallback if that is empty: ads of segments of several lengths."""
    ads = [{"segments": [{"uri": f"http://a.example/{name}{ad}-{n}.ts", "duration": dice.choice(("2", "1", "1.5", "0.5", "3"))} for n in range(dice.randint(1, 4))]}
           for ad in range(dice.randint(1, 3))]
    said = {"breaks": [{"id": name, "ads": ads}]} if name else {"fallback": {"ads": ads}}
    return json.dumps(said).encode()


class Programme:
    """Segments of 2 s, some after discontinuities, and breaks that are announced late or early, end by one attribute or another, and touch."""

    def __init__(self, dice):
        self.dice, self.breaks, at = dice, [], 3
        while at < 60:
            length = dice.choice((2, 4, 6, 10, 3, 0.05))
            self.breaks.append((f"b{len(self.breaks)}", at * 2 + dice.choice((0, 0, 0.05, 0.3)), length, dice.choice(("DURATION", "PLANNED-DURATION", "", "END-DATE")), dice.randint(-1, 3)))
            at += int(length // 2) + dice.choice((0, 0, 1, 4, 9))
        self.steps = {n for n in range(70) if dice.random() < 0.1}

    def line(self, name, start, length, how, shown):
        """The date range of a break."""
        ends = f',{how}="{instant(start + length)}"' if how == "END-DATE" else f",{how}={length}" if how else ""
        return f'#EXT-X-DATERANGE:ID="{name}",START-DATE="{instant(start)}"{ends},SCTE35-OUT={OUT}'

    def listed(self, first, last):
        """The list of the segments `first` to `last`."""
        lines = ["#EXTM3U", "#EXT-X-TARGETDURATION:2", f"#EXT-X-MEDIA-SEQUENCE:{first}", f"#EXT-X-DISCONTINUITY-SEQUENCE:{len([it for it in self.steps if it < first])}"]
        lines += [self.line(*it) for it in self.breaks if it[1] + it[2] > first * 2 and it[1] < (last + 1 + it[4]) * 2]
        for n in range(first, last + 1):
            lines += ["#EXT-X-DISCONTINUITY"] * (n in self.steps) + [f"#EXT-X-PROGRAM-DATE-TIME:{instant(n * 2)}", "#EXTINF:2,", f"s{n}.ts"]
        return "\n".join([*lines, ""]).encode()


def follow(dice, case):
    """Follows a programme through decisions and playlists, by the rules and by what is reckoned; answers how many segments of pods were written."""
    programme, window, channel, pods, it = Programme(dice), dice.choice((3, 5, 8)), Channel(BASE), Pods(), Reckoned()
    for newest in range(window, 50):
        for name in [one[0] for one in programme.breaks if dice.random() < 0.2] + [""] * (dice.random() < 0.1):
            body = dice.choice((pod(dice, name), pod(dice, name), b'{"fallback":null}' if not name else json.dumps({"withdraw": name}).encode()))
            try:
                channel = decide(channel, body)
            except Fault:
                continue  # (a break that is used, or has no pod)
            pods.given(body)
        if dice.random() < 0.2 and it.newest is not None and newest - it.newest < window:
            continue  # (a list that nobody read)
        text = programme.listed(newest - window + 1, newest)
        channel, found = refreshed(channel, text), as_listed(packaged.read(spelling.lines_of(text, set())))
        new = [one for one in found.segments if it.newest is None or one.number > it.newest]
        it = Reckoned.read(*json.loads(json.dumps([it.kept(), [kept_break(one) for one in it.breaks]])))
        moment = Moment(known_after(it, found.date_ranges()), Store(pods.held, pods.fallback), channel.tolerance, 2, False)
        it, begins = reckoned(it, new, moment)
        items, places = channel.items(), {}
        for one in items:
            places.setdefault((one.piece.mark.id if one.piece.mark else one.piece.segment.number), one)
        assert it.end() == (items[-1].media, items[-1].discontinuity), (case, newest, it)
        assert (it.run and it.run.id) == (channel.history[-1].mark and channel.history[-1].mark.id), (case, newest, it)
        for number, owed in begins.items():
            shown = next(one for one in channel.history if one.segment.number == number)
            one = places[shown.mark.id if shown.mark else number]
            assert owed == (one.media, one.discontinuity - bool(shown.mark)), (case, newest, number, owed, one)
        pods.held = {name: ads for name, ads in pods.held.items() if channel.store.entry(name)}
    return sum(one.piece.mark is not None for one in channel.items())


@apart
def test_reckoned_numbers_are_those_of_the_rules(room):
    written = 0
    for case in range(30):
        written += follow(random.Random(case), case)
    assert written > 100, written
