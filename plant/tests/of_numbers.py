"""Tests of the numbers that viewers have: whatever is killed, and in the renditions of a programme; held against the rules."""
import json
import os
import random
import sys
import time
from pathlib import Path

from of_lists import BASE, CLOCK, URL, Rules
from stepped import Stepped, decision
from tools import OUT, PLANT, apart, instant, listed

sys.path.insert(0, PLANT)
from adsplice_plant import numbers, records  # noqa: E402
from adsplice_plant.repair import Choices, Repairer  # noqa: E402
from adsplice_plant.settings import Settings  # noqa: E402
from adsplice_plant.siblings import Sibling, Siblings  # noqa: E402
from adsplice_rules.channel import written  # noqa: E402

NEEDS = ()


class Plant(Stepped):
    """A feed of one channel, and adsplice by the rules, each of which may be killed; and what viewers saw."""

    def __init__(self, pod):
        self.numbers, self.at_number, self.first, self.last, self.is_new = {}, {}, 0, 0, True
        super().__init__(Settings("news", "x", "http://h", URL), BASE, CLOCK)
        self.fallback = pod
        self.look()

    def kill(self, what):
        """As in Stepped. The first list of a new channel may begin earlier than the last one."""
        self.is_new = self.is_new or what != "feed"
        super().kill(what)

    def shown(self, text):
        """What a viewer sees agrees with all that was seen."""
        uris = [line for line in text.split("\n") if line and line[0] != "#"]
        items = numbers.items_of(text.encode())
        for it, uri in zip(items, uris, strict=True):
            if "/s" in uri:
                assert self.numbers.setdefault(uri, it) == it, (uri, self.numbers[uri], it)
            assert self.at_number.setdefault(it.number, (uri, it.discontinuity)) == (uri, it.discontinuity), (it, self.at_number[it.number], uri)
        assert items[-1].number >= self.last and (items[0].number >= self.first or self.is_new), (items[0], items[-1], self.first, self.last)
        self.first, self.last, self.is_new = items[0].number, items[-1].number, False

    def turn(self, text, kills):
        """The packager's list is `text`; `kills` says what is killed `before` it is pushed, `sent` when it is, `between` the push and the look at
        what was written, or `after`."""
        self.kill(kills.get("before"))
        self.kills = {name: what for name, what in kills.items() if name in ("sent", "between")}
        self.read(text)
        self.wait(1.0)
        self.kill(kills.get("after"))
        self.wait(1.0)


def with_breaks(first, last, breaks):
    """A list of the segments `first` to `last` of 2 s, with a date range for each of `breaks` (first segment, segments) that is near."""
    ranges = [f'#EXT-X-DATERANGE:ID="b{begin}",START-DATE="{instant(2 * begin)}",PLANNED-DURATION={2 * count},SCTE35-OUT={OUT}'
              for begin, count in breaks if first < begin + count and last >= begin - 1]
    head = ["#EXTM3U", "#EXT-X-VERSION:3", "#EXT-X-TARGETDURATION:2", f"#EXT-X-MEDIA-SEQUENCE:{first}", *ranges, f"#EXT-X-PROGRAM-DATE-TIME:{instant(2 * first)}"]
    return "\n".join([*head, *(f"#EXTINF:2,\ns{it}.ts" for it in range(first, last + 1)), ""]).encode()


def pod_of(count, seconds):
    """A fallback of `count` segments of so many seconds."""
    return json.dumps({"fallback": {"ads": [{"segments": [{"uri": f"http://a.example/a{it}.ts", "duration": seconds} for it in range(count)]}]}}).encode()


@apart
def test_numbers_go_on_whatever_is_killed(room):
    dice = random.Random(7)
    for case in range(40):
        breaks = dice.choice(([(12, 5), (24, 5)], [(12, 5), (17, 5), (28, 6)], [(14, 16)]))
        window, pod = dice.choice((3, 6, 10)), pod_of(*dice.choice(((5, "2"), (10, "1"), (3, "2"), (2, "1"))))
        at = {dice.randrange(window, 38): (dice.choice(("before", "sent", "between", "after")), dice.choice(("adsplice", "both", "feed"))) for _ in range(2)}
        plant = Plant(pod)
        for newest in range(window - 1, 40):
            plant.seconds = 2.0 * newest
            try:
                plant.turn(with_breaks(max(0, newest - window + 1), newest, breaks), dict([at[newest]]) if newest in at else {})
            except AssertionError as fault:
                raise AssertionError((case, breaks, window, pod[:60], at, newest, fault)) from None
        assert plant.last > 20, (case, plant.told)


def test_pods_are_kept_for_the_breaks_of_the_window_alone(room):
    plant, breaks, found = Plant(pod_of(5, "2")), [(12, 5), (24, 5)], {}
    ads = json.loads(pod_of(5, "2"))["fallback"]["ads"]
    for name in ("b24", "b90"):
        plant.decide(f"{name}.json", decision(name, ads))
    for newest in range(5, 50):
        plant.seconds = 2.0 * newest
        plant.turn(with_breaks(newest - 5, newest, breaks), {})
        pods = plant.stands.pods
        found[newest] = sorted(pods.entered), sorted(pods.missed), sorted(pods.held)
    assert found[11] == ([], [], ["b24", "b90"]) and found[12] == (["b12"], [], ["b24", "b90"]) == found[16], (found[11], found[12], found[16])
    assert found[23] == (["b12"], [], ["b24", "b90"]), "(b12 was listed last beside segment 21, which is listed still)"
    assert found[34] == (["b12", "b24"], [], ["b24", "b90"]), "(it left the list of 6 with segment 27, and stays for 7 more: RFC 8216, 6.2.2)"
    assert found[35] == (["b24"], [], ["b24", "b90"]) and found[47] == ([], [], ["b90"]) == found[49], (found[35], found[47])
    assert [it.ids for it in plant.state.decisions] == [(), ("b90",)], plant.state.decisions


def test_a_refused_list_enters_no_break(room):
    plant, ads = Plant(pod_of(1, "2")), json.loads(pod_of(5, "2"))["fallback"]["ads"]
    for newest in (10, 11):
        plant.turn(with_breaks(newest - 5, newest, [(12, 5)]), {})
    plant.decide("b12.json", decision("b12", ads))
    plant.turn(with_breaks(7, 12, [(12, 5)]).replace(b"s12.ts", b"s12 .ts\x01"), {})
    assert not plant.stands.pods.entered and not plant.stands.pods.missed and plant.faults, (plant.stands.pods, plant.faults)
    plant.turn(with_breaks(7, 12, [(12, 5)]), {})
    assert json.loads(plant.stands.pods.entered["b12"]) == ads and plant.at_number[12][0].endswith("/a0.ts")


def test_a_list_that_lags_for_eight_seconds_leaves_the_numbers(room):
    for window, behind in ((8, 4), (12, 9), (30, 4)):
        plant, pushed = Plant(None), []
        for newest in range(30, 60):
            plant.seconds += 2.0
            last = newest - behind if 40 <= newest < 44 else newest
            count = len(plant.pushed)
            plant.read(with_breaks(last - window + 1, last, []))
            pushed += [newest] * (len(plant.pushed) - count)
        text = written(plant.channel)
        assert pushed == [*range(30, 40), *range(44, 60)] and not plant.faults, (window, behind, pushed)
        assert numbers.items_of(text.encode())[-1].number == 59 and "DISCONTINUITY\n" not in text, text


def test_a_text_is_kept_by_what_changed_in_it(room):
    path = Path(room.path, "news.numbers")
    record, texts = records.Record(path), []
    for n in range(400):
        texts.append(json.dumps({"text": "".join(f"#EXTINF:2,\ns{it}, {it}.ts\n" for it in range(n, n + 50)), "own": list(range(n, n + 50)), "repairs": {"times": n}}))
        record.write(texts[-1], {"repairs": {"times": n}})
        assert records.read(path) == texts[-1].encode() and records.newest(path)["repairs"] == {"times": n}
    assert path.stat().st_size < 4 * len(texts[-1])
    with open(path, "ab") as it:
        it.write(b'{"edit": [[0,')  # (a machine fell while it was written)
    assert records.read(path) == texts[-1].encode()
    with open(path, "ab") as it:
        it.write(b' 9999]]}\n')
    try:
        records.read(path)
        raise AssertionError("it was read")
    except ValueError:
        pass
    os.remove(path)
    record.write(texts[0], {})
    assert records.read(path) == texts[0].encode()
    path.write_bytes(texts[1].encode())  # (as an earlier feed wrote it)
    assert records.read(path) == texts[1].encode() and records.newest(path)["repairs"] == {"times": 1}


# ---- renditions of a programme

def siblings_of(one, them):
    """Those of `them` that aren't `one`, as its repairer sees them."""
    return Siblings([Sibling(f"http://origin.example/{it.name}/i.m3u8", it.repairer.past + it.repairer.last, it.repairer.held_since is not None) for it in them if it is not one])


class Rendition:
    """A packager of segments of 2 s that may be away and begin again, with the repairer of its lists, as one of `all_of_them`."""

    def __init__(self, name, all_of_them, is_timed):
        self.name, self.is_timed, self.begun = name, is_timed, 0
        self.repairer, self.rules = Repairer(Choices()), Rules()
        self.them = all_of_them

    def listed(self, first, last):
        """Its list of the segments `first` to `last`, numbered from where it began."""
        lines = ["#EXTM3U", "#EXT-X-VERSION:3", "#EXT-X-TARGETDURATION:2", f"#EXT-X-MEDIA-SEQUENCE:{first - self.begun}"]
        for it in range(first, last + 1):
            lines += [f"#EXT-X-PROGRAM-DATE-TIME:{instant(2 * it)}"] if self.is_timed else []
            lines += ["#EXTINF:2,", f"{self.name}{self.begun}-{it}.ts"]
        return ("\n".join(lines) + "\n").encode()

    def turn(self, newest, window):
        """Looks at its list when the segment `newest` is there; answers what is pushed, if anything is."""
        for look in (0, 0.7, 1.4):
            text = self.listed(max(self.begun, newest - window + 1), newest)
            self.repairer.siblings = siblings_of(self, self.them)
            found = self.repairer.take(text, 2 * newest + look, CLOCK + int((2 * newest + look) * 10**9))
            if found.found is not None:
                said = self.rules.push(found.body())
                self.repairer.accept(found)
                return said
        return None


AWAY = ({"b": (20, 23)}, {"b": (20, 21)}, {"a": (20, 23), "b": (20, 23), "c": (20, 23)}, {"a": (20, 24), "b": (21, 24), "c": (20, 24)}, {"b": (20, 23), "a": (40, 42)})


@apart
def test_renditions_have_equal_numbers_at_equal_instants(room):
    for is_timed in (True, False):
        for window in (3, 6):
            for away in AWAY:
                them = []
                them += [Rendition(name, them, is_timed) for name in "abc"]
                numbers_of = {}
                for newest in range(5, 60):
                    for it in them:
                        gone, back = away.get(it.name, (99, 99))
                        if gone <= newest < back:
                            it.begun = back
                        elif (said := it.turn(newest, window)) is not None:
                            for one in said.segments:
                                place = int(one.uri.rpartition("-")[2].partition(".")[0])
                                assert numbers_of.setdefault(place, one.number) == one.number, (is_timed, window, away, newest, it.name, place)
                assert len({it.rules.last.segments[-1].number for it in them}) == 1


def test_what_is_taken_from_another_rendition_has_absolute_references(room):
    them = []
    them += [Rendition(name, them, True) for name in "ab"]
    for newest in range(5, 27):
        them[0].turn(newest, 4)
        if 20 <= newest < 23:
            them[1].begun = 23
        else:
            said = them[1].turn(newest, 4)
    uris = [it.uri.removeprefix("http://origin.example/ch/") for it in said.segments]
    assert uris == ["b23-23.ts", "b23-24.ts", "b23-25.ts", "b23-26.ts"], uris
    taken = [it.uri for it in them[1].repairer.past[-3:]]
    assert taken == [f"http://origin.example/a/a0-{it}.ts" for it in (20, 21, 22)], taken


# ---- packagers that begin again

class Drawn:
    """A packager whose segment `n` of 2 s begins `shift` s after 2n, and that begins again at times. Its list may come late, and the feed
    reads it each second; `read` are the URIs that it read, `pushed` the URI of each media number."""

    def __init__(self, name, shift, window, them):
        self.name, self.shift, self.window, self.made, self.run, self.late, self.away = name, shift, window, [], 0, 0, 0
        self.repairer, self.rules, self.read, self.pushed, self.shortest = Repairer(Choices()), Rules(), set(), {}, 99
        self.them = them
        self.own = []  # (n, URI) of this run's segments

    def begin_again(self, away):
        """It loses its list, and makes no segment for `away` of them."""
        self.own, self.run, self.away = [], self.run + 1, away

    def make(self, n):
        """It makes the segment `n`, unless it is away."""
        if self.away:
            self.away -= 1
        else:
            self.own.append((n, f"{self.name}{self.run}-{n}.ts"))

    def look(self, seconds):
        """The feed reads its list, which has come as far as it is late, and pushes it if it is to be pushed."""
        listed = self.own[:max(0, len(self.own) - self.late)]
        lines = ["#EXTM3U", "#EXT-X-VERSION:3", "#EXT-X-TARGETDURATION:2", f"#EXT-X-MEDIA-SEQUENCE:{max(0, len(listed) - self.window)}"]
        for n, uri in listed[-self.window:]:
            lines += [f"#EXT-X-PROGRAM-DATE-TIME:{instant(2 * n + self.shift)}", "#EXTINF:2,", uri]
        self.read |= {uri for _, uri in listed[-self.window:]}
        self.repairer.siblings = siblings_of(self, self.them)
        found = self.repairer.take(("\n".join(lines) + "\n").encode(), seconds, CLOCK + int(seconds * 10**9))
        if found.found is not None:
            said = self.rules.push(found.body())
            self.repairer.accept(found)
            self.shortest = min(self.shortest, len(said.segments)) if self.run else self.shortest
            for it in said.segments:
                uri = it.uri.rpartition("/")[2]
                assert self.pushed.setdefault(it.number, uri) == uri, (it.number, uri, self.pushed[it.number])

    def faults(self):
        """What its viewers lost, or had twice."""
        shown = [self.pushed[number] for number in sorted(self.pushed)]
        times = [2 * int(it.rpartition("-")[2].partition(".")[0]) + (0.7 if it[0] == "b" else 0) for it in shown]
        lost = [it for it in self.read - set(shown) if 2 * int(it.rpartition("-")[2].partition(".")[0]) < times[-1] - 1]
        return lost, [two for one, two in zip(times, times[1:]) if two - one < 1]


def drawn(seed, names):
    """Packagers that begin again, drawn by `seed`, once they are over."""
    dice, them = random.Random(seed), []
    window = dice.choice((6, 8, 12))
    them += [Drawn(name, 0.7 if name == "b" else 0, window, them) for name in names]
    again = -9
    for n in range(70):
        if 15 < n < 60 and n - again > 6 and dice.random() < 0.09:  # (not while the list before is held back)
            away, again = dice.choice((0, 1, 3)), n
            for it in them if dice.random() < 0.5 else [dice.choice(them)]:
                it.begin_again(away)
        for it in them:
            it.late = dice.choice((0, 0, 0, 1)) if it.own and len(it.own) > 1 else 0
            it.make(n)
        for look in (0, 1):
            for it in [it for it in them if len(it.own) > it.late]:
                it.look(2.0 * n + look)
    return them


@apart
def test_packagers_that_begin_again_lose_and_double_nothing(room):
    for seed in range(16):
        for names in ("a", "ab", "acd"):
            for it in drawn(seed, names):
                lost, doubled = it.faults()
                assert not doubled and not lost, (seed, names, it.name, lost, doubled)
                assert it.shortest >= 3, (seed, names, it.name, it.shortest)


def test_what_was_listed_stays_until_a_list_that_began_again_lasts_three_target_durations(room):
    repairer, rules = Repairer(Choices()), Rules()

    def pushed(text, seconds):
        """The URIs that are pushed of the list `text`, with `|` for a discontinuity, once it was looked at twice."""
        for look in (0, 2):
            found = repairer.take(text.encode(), seconds + look, CLOCK)
        rules.push(found.body())
        repairer.accept(found)
        return [it for line in found.body().decode().split("\n") for it in ([line] if line.endswith(".ts") else ["|"] if line == "#EXT-X-DISCONTINUITY" else [])]
    assert pushed(listed(10, 15), 0) == [f"s{n}.ts" for n in range(10, 16)]
    assert pushed(listed(0, 0, name="t"), 10) == ["s14.ts", "s15.ts", "|", "t0.ts"]
    assert pushed(listed(0, 1, name="t"), 12) == ["s15.ts", "|", "t0.ts", "t1.ts"]
    assert pushed(listed(0, 2, name="t"), 14) == ["|", "t0.ts", "t1.ts", "t2.ts"]
    assert pushed(listed(1, 3, name="t"), 16) == ["t1.ts", "t2.ts", "t3.ts"]
    assert (rules.last.segments[0].number, rules.last.segments[0].discontinuity) == (17, 1)


def test_a_long_list_that_begins_again_is_taken_in_time(room):
    them = []
    them += [Drawn(name, 0, 3000, them) for name in "ac"]
    for it in them:
        it.own = [(n, f"{it.name}0-{n}.ts") for n in range(3000)]
        it.look(6000.0)
    them[0].own = [(n, f"a1-{n}.ts") for n in range(1, 3001)]  # (the same instants, and a newer one)
    begun = time.process_time()
    for look in (1, 4):
        them[0].look(6000.0 + look)
    assert them[0].repairer.last[-1].uri == "a1-3000.ts" and time.process_time() - begun < 3, time.process_time() - begun


def test_two_packagers_by_turns_are_told_once(room):
    plant = Plant(None)
    for turn in range(40):
        plant.seconds = float(turn)
        newest = 10 + turn // 2
        text = with_breaks(newest - 5, newest, [])
        plant.read(text if turn % 2 == 0 else text.replace(b"\ns", b"\nother-"))
    words = {it.fault for it in plant.told if it.who == "list"}
    assert words == {"Lags", ""} and all(it.is_quiet for it in plant.told if it.who == "list"), words
    items = numbers.items_of(written(plant.channel).encode())
    assert (items[-1].number, items[-1].discontinuity) == (29, 0), items[-1]
