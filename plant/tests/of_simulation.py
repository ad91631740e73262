"""Tests of the feed by days of a programme that are played by a clock of their own (simulated.py), and of what plays them."""
import json
import os
import random
import re
import sys
from dataclasses import replace

from of_reckoning import Programme, pod
from tools import PLANT, apart

sys.path.insert(0, PLANT)
import simulated  # noqa: E402
from adsplice_rules.edge import Edge, Request  # noqa: E402
from adsplice_rules.values import InitSection, Key  # noqa: E402
from simulation import families  # noqa: E402
from simulation.controller import Controller, Written  # noqa: E402
from simulation.named import ALONE, CALM, LONG, NAMED, UNDECIDED, of  # noqa: E402
from simulation.packager import BASE, Packager  # noqa: E402
from simulation.plan import ALL, Fault, draw  # noqa: E402
from simulation.viewers import Ads, Viewers  # noqa: E402
from simulation.world import RulesController, World  # noqa: E402

NEEDS = ()
DRAWN = (*range(1, 25), *range(3_000_001, 3_000_009))  # seeds of days; of the latter each rendition is of a kind of its own
FAILED = os.path.join(os.path.dirname(os.path.abspath(__file__)), "failed_seeds")


class Both:
    """A controller twice: the fast one, and the one of the rules. Both have to answer each request alike, and to write the same list."""

    def __init__(self):
        self.fast, self.rules, self.answers = Controller(), Edge(), {}

    def answer(self, request):
        """What both answer."""
        found, owed = self.fast.answer(request), self.rules.answer(request)
        assert (found.status, found.body) == (owed.status, owed.body), (request, found, owed)
        key = found.status, found.body.partition(" ")[0] if found.status in (409, 422) else ""
        self.answers[key] = self.answers.get(key, 0) + 1
        if request.target.endswith("/origin") and found.status == 204:
            self.answer(Request("GET", request.target.replace("/origin", "/live.m3u8"), b""))
        return found

    def items(self, name):
        """What viewers have."""
        return self.fast.items(name)


def drawn_lists(dice, both):
    """Lists and decisions of a drawn programme, some of which don't follow the last ones."""
    programme, window = Programme(dice), dice.choice((3, 5, 8))
    both.answer(Request("PUT", "/channels/v", b'{"base":"http://o.example/v/index.m3u8"}'))
    newest = window
    while newest < 50:
        for name in [one[0] for one in programme.breaks if dice.random() < 0.2] + [""] * (dice.random() < 0.1):
            bodies = pod(dice, name), pod(dice, name), b'{"fallback":null}' if not name else json.dumps({"withdraw": name}).encode()
            both.answer(Request("PUT", "/channels/v/decisions", dice.choice(bodies)))
        first, last = newest - window + 1, newest
        if dice.random() < 0.1:
            first, last = first + dice.choice((-2, 0, 1, 2)), last + dice.choice((-1, 0, 1, window + 1))
        body = programme.listed(first, last)
        if dice.random() < 0.05:
            body = dice.choice((body.replace(b"s%d.ts" % (newest - 1), b"x.ts"), body.replace(b"#EXTINF:2", b"#EXTINF:3"), body.replace(b"EXTINF:", b"EXTINF:x"), body[:40]))
        for _ in range(dice.choice((1, 1, 2))):
            both.answer(Request("PUT", "/channels/v/origin", body))
        newest += dice.choice((0, 1, 1, 1, 2, 3))


@apart
def test_a_simulated_controller_answers_as_the_rules(room):
    answers = {}
    for case in range(12):
        both = Both()
        drawn_lists(random.Random(case), both)
        answers |= both.answers
    assert answers.keys() >= {(201, ""), (204, ""), (200, ""), (409, "J9"), (409, "J11"), (409, "N6"), (409, "N8"), (422, "P10")}, answers
    made = []
    for plan in (draw(3), draw(4), draw(8), families.draw(4_000_001, 20.0), families.draw(5_500_000, 20.0), families.draw(7_000_002, 20.0)):
        world = World(replace(plan, length=min(plan.length, 120.0)), lambda: made.append(Both()) or made[-1])
        world.run()
    assert sum(it.answers.get((200, ""), 0) for it in made) > 100, [it.answers for it in made]


def test_a_day_is_the_same_each_time(room):
    plan = replace(draw(1088), length=150.0)
    first, second = simulated.play(plan, True), simulated.play(plan, True)
    assert first.log == second.log and len(first.log) > 100, (len(first.log), len(second.log))
    assert [it.kind for it in first.found] == [it.kind for it in second.found], (first.found, second.found)


@apart
def test_named_days_break_no_promise(room):
    broken = {name: [str(it) for it in found[:2]] for name, plan in NAMED.items() if (found := simulated.play(plan).found)}
    assert not broken, "\n".join(f"{name}: {found}" for name, found in broken.items())


@apart
def test_days_that_once_broke_a_promise_break_none(room):
    with open(FAILED, encoding="utf-8") as it:
        days = [line.split() for line in it if not line.startswith("#")]
    assert days
    broken = {}
    for seed, each, *group in days:
        simulated.WAYS["is_group"] = bool(group)  # (several machines)
        if found := simulated.play(simulated.drawn(int(seed), float(each))).found:
            broken[seed] = [str(it) for it in found[:2]]
    simulated.WAYS["is_group"] = False
    assert not broken, broken


@apart
def test_days_of_each_family_break_no_promise(room):
    """A channel by itself, and a ladder."""
    assert [it.text for it in families.FAMILIES] == [line.split(maxsplit=1)[1] for line in families.told().splitlines()]
    seeds = [families.FIRST + place * families.SIZE + first + number for place in range(len(families.FAMILIES)) for first, count in ((0, 5), (families.LADDERS, 2)) for number in range(count)]
    broken = {seed: [str(it) for it in found[:2]] for seed in seeds if (found := simulated.play(families.draw(seed, 20.0)).found)}
    assert not broken, f"plant/tests/simulated.py --shrink SEED: {broken}"


@apart
def test_drawn_days_break_no_promise(room):
    broken = {seed: [str(it) for it in found[:2]] for seed in DRAWN if (found := simulated.play(draw(seed)).found)}
    assert not broken, f"plant/tests/simulated.py --shrink SEED: {broken}"


def test_breaks_of_a_calm_day_are_filled(room):
    world = simulated.play(CALM)
    assert not world.found and (world.tally["breaks"], world.tally["own pods"]) == (3, 3), (world.found, world.tally)
    world = simulated.play(of(*UNDECIDED))
    assert not world.found and (world.tally["filled"], world.tally["own pods"]) == (3, 0), (world.found, world.tally)


def shown(plan):
    """The breaks that each rendition's viewers had filled, what was broken, and what the feed said of renditions that can't begin one."""
    world = simulated.play(plan, True)
    passed = [re.sub(r".*breaks/\S+ - Passed: ", "", line) for line in world.log if " Passed: " in line]
    return {name: " ".join(pod.name for pod in it.pods) for name, it in world.viewers.items()}, [str(it) for it in world.found], passed


THREE = replace(CALM, names=("v", "a", "w"), style="cues", asks=True, kinds=True)


def test_a_break_that_a_rendition_has_passed_is_filled_in_none_or_in_all_others(room):
    """The pictures signal, and their lists come late: sound has gone past the start by then."""
    late = of(Fault(28.0, "unread", "v", 7.0), Fault(28.0, "unread", "w", 7.0), plan=replace(THREE, speakers=("v", "w")))
    none, others = shown(late), shown(replace(late, fill="others"))
    assert none == ({"v": "b1 b2", "a": "b1 b2", "w": "b1 b2"}, [], ["p-a had passed its start without a pod: begins in no rendition"]), none
    assert others == ({"v": "b0 b1 b2", "a": "b1 b2", "w": "b0 b1 b2"}, [], ["p-a had passed its start without a pod: begins in the other renditions alone"]), others


def test_a_break_is_filled_in_the_renditions_that_have_not_passed_it(room):
    """The picture alone signals, and stands still: it comes after the others."""
    late = of(Fault(29.0, "stands still", "v", 6.0), plan=replace(THREE, speakers=("v",)))
    none, others = shown(late), shown(replace(late, fill="others"))
    assert none[:2] == ({"v": "b1 b2", "a": "b1 b2", "w": "b1 b2"}, []) and others[:2] == ({"v": "b0 b1 b2", "a": "b1 b2", "w": "b1 b2"}, []), (none, others)


def test_a_break_is_filled_though_the_origin_did_not_answer_before_it(room):
    """The picture alone signals. Whichever list is read first then waits for the others', though these are as old."""
    for seed in range(4):
        for seconds in (5.0, 9.0):
            found = shown(of(Fault(28.0, "unread", ALL, seconds), plan=replace(THREE, seed=seed, speakers=("v",), kinds=False)))
            assert found == ({"v": "b0 b1 b2", "a": "b0 b1 b2", "w": "b0 b1 b2"}, [], []), (seed, seconds, found)


def test_a_rendition_that_is_behind_at_a_breaks_begin_is_named(room):
    """It has the break, too, once its playlist goes on."""
    world = simulated.play(of(Fault(29.0, "stands still", "a", 9.0), plan=replace(CALM, names=("v", "a"))), True)
    told = [line.partition(" tells ")[2] for line in world.log if " Behind: " in line]
    assert not world.found and len(told) == 1 and told[0].startswith("p breaks/b0 - Behind: p-a has had no new segment for two target durations: it begins in the other renditions"), (world.found, told)
    assert {name: [pod.name for pod in it.pods] for name, it in world.viewers.items()} == dict.fromkeys("va", ["b0", "b1", "b2"]), world.viewers["a"].pods
    assert not any(" Behind: " in line for line in simulated.play(CALM, True).log)


def test_a_rendition_that_lost_the_begin_of_a_break_is_named(room):
    """Sound lost its first segment of the break. The others had begun by then: nobody waits for two target durations."""
    lost = of(Fault(29.5, "loses segments", "a", 2.0), plan=replace(THREE, style="ranges", asks=False))
    for fill in ("all", "others"):
        pods, _, passed = shown(replace(lost, fill=fill))
        assert pods == {"v": "b0 b1 b2", "a": "b1 b2", "w": "b0 b1 b2"} and passed == ["p-a has no segment near its start: begins in the other renditions alone"], (fill, pods, passed)


def test_a_decision_that_one_list_does_not_take_is_given_to_none(room):
    """Its ads have initialisation sections in one rendition, and the lists have none; or segments over the target duration."""
    for number, plan in ((4, CALM), (5, replace(LONG, breaks=LONG.breaks))):
        plan = of(Fault(0.1, "decision wrong", ALL, 0.0, number), plan=plan)
        world = World(plan, RulesController, True)
        found = world.run()
        assert not found and (world.tally["filled"], world.tally["own pods"]) == (3, 2), (number, found, world.tally)
        assert any("decisions/b0.json - Unequal: " in line and "wouldn't be filled" in line for line in world.log), [line for line in world.log if "decisions/" in line]


def test_discontinuity_numbers_come_together_after_sound_was_away(room):
    """No other rendition has segments for it, so it counts media numbers on from its own last one. They are compared at equal instants (RFC 8216, 6.2.4)."""
    for at, away in ((26.0, 22.0), (60.0, 9.0), (20.0, 40.0)):
        world = simulated.play(of(Fault(at, "begins again", "a", away), plan=replace(THREE, style="ranges", asks=False)), True)
        known = [it.numbers() for it in world.viewers.values()]
        newest = max(set.intersection(*map(set, known)))
        assert len({it[newest][1] for it in known}) == 1 and any("ladder - Apart: " in line for line in world.log), (at, away, [it[newest] for it in known])


def test_breaks_are_filled_beside_pictures_in_longer_segments(room):
    """A break begins amid a segment of the picture: the sound's shorter ones say where."""
    for long in ("v", "a"):
        world = simulated.play(replace(CALM, long=(long,)))
        assert not world.found and world.tally["own pods"] == 3, (long, world.found, world.tally)


def test_a_picture_is_given_at_its_own_pace_beside_sound_in_longer_segments(room):
    world = simulated.play(LONG, True)
    lists = {name: sum(f" p-{name} PUSH" in line for line in world.log) for name in LONG.names}
    assert not world.found and lists["v"] >= 1.9 * lists["a"], (world.found, lists)


def test_faults_are_left_out_one_by_one(room):
    """A day whose viewers see numbers twice as soon as one fault happens, whatever the others are."""
    others = tuple(Fault(10.0 + place, "list cut off", "v", 0.0, 1) for place in range(6))
    plan = of(*others[:4], Fault(50.0, "controller killed", "v", 1.0), *others[4:], plan=ALONE)
    whole = World.fault_controller_killed

    def spoil(world, fault, names):
        whole(world, fault, names)
        world.viewers["v"].see([Written(20, "http://ads.example/v/x/0/0-0.ts", 0)], world.now)
    World.fault_controller_killed = spoil
    try:
        assert [it.kind for it in simulated.shrunk(plan, "two contents").faults] == ["controller killed"]
    finally:
        World.fault_controller_killed = whole


def seen(*lists, now=60_000):
    """The kinds of breaches for viewers who see these lists of (number, URI, discontinuity number); the packager has cut until `now`."""
    packager, ads = Packager(CALM, "v"), Ads({("v", "b0", "0"): ["http://ads.example/v/b0/0/0-0.ts", "http://ads.example/v/b0/0/0-1.ts"]}, {("v", "b0", "0"): 12_000})
    packager.go_on(now)
    viewers = Viewers(CALM, packager, {"v": packager}, ads, {"v": {uri: 0.0 for uri in packager.truth}})
    for one in lists:
        viewers.see([Written(*it) for it in one], 1.0)
    return [it.kind for it in viewers.breaches]


def programme(first, last, number=None):
    """Those segments of the programme whose cuts have the numbers `first` to `last`, with media numbers from `number` on."""
    return [((first if number is None else number) + place, f"{BASE}/v/0/{cut}.ts", 0) for place, cut in enumerate(range(first, last + 1))]


def test_viewers_see_wrong_keys_and_sections(room):
    plan = replace(CALM, keys="stated", maps="once")
    packager, key, section = Packager(plan, "v"), Key("identity", "AES-128", "http://k.example/k0-0?t=3", 9, ""), InitSection(f"{BASE}/v/init0.mp4", None, ())
    packager.go_on(60_000)

    def seen_with(*items):
        viewers = Viewers(plan, packager, {"v": packager}, Ads(), {"v": dict.fromkeys(packager.truth, 0.0)})
        for keys, init_section in items:
            viewers.see([Written(3, f"{BASE}/v/0/3.ts", 0, keys, init_section)], 1.0)
        return [it.kind for it in viewers.breaches]
    assert seen_with(((key,), section), ((key,), section)) == []
    assert seen_with(((), section)) == seen_with(((replace(key, iv=3),), section)) == seen_with(((replace(key, uri="http://k.example/k0-1"),), section)) == ["wrong key"]
    assert seen_with(((key,), None)) == seen_with(((key,), replace(section, uri=f"{BASE}/v/init1.mp4"))) == ["wrong section"]
    assert seen_with(((key,), section), ((replace(key, uri="http://k.example/k0-0?t=4"),), section)) == ["two keys or sections"]


def test_viewers_see_what_is_wrong(room):
    pods = [(16, "http://ads.example/v/b0/0/0-0.ts", 1), (17, "http://ads.example/v/b0/0/0-1.ts", 1)]  # in the break from 30 s to 42 s
    after = [(18 + place, f"{BASE}/v/0/{cut}.ts", 2) for place, cut in enumerate((22, 23))]
    assert seen(programme(3, 8), programme(5, 10)) == []
    assert seen(programme(10, 15) + pods + after) == []
    assert seen(programme(3, 8), programme(5, 7)) == ["goes back"]
    assert seen(programme(3, 8), programme(6, 9, 5)) == ["two contents"] * 4 + ["goes back"] * 0
    assert seen(programme(3, 8), [(5, f"{BASE}/v/0/5.ts", 1)] + programme(6, 8)) == ["two discontinuity numbers"]
    assert seen(programme(3, 8), programme(11, 12), now=26_500) == ["leaves numbers out", "lost"]
    assert seen(programme(3, 8), programme(11, 12)) == []  # (those between left the list longer ago than it lasts)
    assert seen(programme(3, 8) + programme(10, 11, 9)) == ["lost"]
    assert seen(programme(3, 8) + programme(8, 9, 9)) == ["doubled"]
    assert seen(programme(5, 8) + programme(4, 4, 9)) == ["out of order"]
    assert seen(programme(10, 15) + pods[:1] + [(17, *after[0][1:])]) == ["pod in part"]
    assert seen(programme(10, 15) + [(16, *pods[1][1:])] + [(17, *after[0][1:])]) == ["pod in part"]
    assert seen(programme(10, 15) + pods + [(18, f"{BASE}/v/0/23.ts", 2)]) == ["lost"]
    assert "pod at another place" in seen(programme(3, 8) + [(9 + place, *it[1:]) for place, it in enumerate(pods)])
