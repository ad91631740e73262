"""Tests of who leads a programme of several machines, around a store that is a dictionary."""
import sys

from tools import PLANT

sys.path.insert(0, PLANT)
from adsplice_plant.etcd import Away  # noqa: E402
from adsplice_plant.members import Member, ranked  # noqa: E402
from keys import At, Clock, Keys  # noqa: E402

NEEDS = ("httpx",)


class Led:
    """A programme as its member sees it."""

    def __init__(self):
        self.won, self.ill = 0, False
        self.lines = []

    def token(self):
        return self.won

    def lead(self, token):
        self.won = token

    def follow(self):
        self.won = 0

    def take(self, pair):
        self.lines.append(pair)

    def take_file(self, pair, is_gone):
        pass

    def behind(self):
        return 0.0

    def has(self, channel):
        return False

    def is_well(self):
        return not self.ill


class Members:
    """The feeds of some machines, each with all programmes of some names, around a store that is a dictionary."""

    def __init__(self, machines, names):
        self.clock = Clock()
        self.keys, self.names = Keys(self.clock), names
        self.at, self.members, self.seen = {}, {}, {}
        for it in machines:
            self.begin(it)

    def begin(self, machine):
        """The feed of a machine begins."""
        self.at[machine] = At(self.keys)
        programmes = {it: Led() for it in self.names}
        self.members[machine] = Member(f"{machine}/{self.keys.revision}", self.at[machine], 2, programmes, dict.fromkeys(self.names, ""))
        self.seen[machine] = self.members[machine].begin(self.clock.now) + 1

    def wait(self, seconds, *without):
        """Time passes for all but some machines."""
        end = self.clock.now + seconds
        while self.clock.now < end:
            self.clock.now += 0.1
            self.keys.expire()
            for name, it in self.members.items():
                if name in without:
                    continue
                for revision, one in self.keys.seen("/adsplice/", self.seen[name]):
                    it.see([one], self.clock.now)
                    self.seen[name] = revision + 1
                try:
                    it.tick(self.clock.now)
                except Away:
                    pass

    def leads(self, machine):
        """The programmes that a machine leads, by itself."""
        return {name for name, it in self.members[machine].programmes.items() if it.won}


NAMES = [f"p{it}" for it in range(12)]


def test_each_programme_is_led_by_one_machine(room):
    it = Members(("m1", "m2", "m3"), NAMES)
    it.wait(3)
    its = [it.leads(one) for one in ("m1", "m2", "m3")]
    assert sum(map(len, its)) == len(NAMES) and set.union(*its) == set(NAMES), its
    assert all(its), "the programmes are spread"


def test_a_machine_that_is_lost_is_led_by_others_and_gets_its_own_back(room):
    it = Members(("m1", "m2", "m3"), NAMES)
    it.wait(30)
    before = {one: it.leads(one) for one in it.members}
    it.wait(4, "m2")
    others = it.leads("m1"), it.leads("m3")
    assert others[0] | others[1] == set(NAMES) and not others[0] & others[1] and before["m1"] <= others[0] and before["m3"] <= others[1]
    del it.members["m2"]
    it.begin("m2")
    it.wait(10)
    assert not it.leads("m2"), "it has to be there for a while"
    it.wait(10)
    assert it.leads("m2") == before["m2"], (it.leads("m2"), before["m2"])
    assert all(set(NAMES) == it.leads("m1") | it.leads("m2") | it.leads("m3") for _ in (0,))


def test_programmes_come_back_one_by_one(room):
    it = Members(("m1", "m2"), NAMES)
    it.wait(30)
    own = it.leads("m2")
    it.wait(4, "m2")
    del it.members["m2"]
    it.begin("m2")
    it.wait(12)
    counts = []
    for _ in range(2 * len(own) + 4):
        it.wait(0.5)
        counts.append(len(it.leads("m2")))
    assert counts[-1] == len(own) and max(b - a for a, b in zip(counts, counts[1:])) <= 2, counts


def test_a_machine_that_is_cut_off_loses_its_leads(room):
    it = Members(("m1", "m2"), NAMES)
    it.wait(5)
    it.at["m1"].is_cut_off = True
    it.wait(4)
    assert it.leads("m2") == set(NAMES)
    it.at["m1"].is_cut_off = False
    it.wait(0.5)
    assert not it.leads("m1"), "it learns that it leads nothing"


def test_a_machine_whose_controllers_dont_answer_gives_its_programmes_away(room):
    it = Members(("m1", "m2"), NAMES)
    it.wait(30)
    own = it.leads("m1")
    for name in own:
        it.members["m1"].programmes[name].ill = True
    it.wait(2 + len(own))
    assert not it.leads("m1") and it.leads("m2") == set(NAMES)


def test_leads_follow_from_names_alone(room):
    feeds = ["m1/a", "m2/b", "m3/c"]
    assert all(ranked(name, feeds) == ranked(name, feeds[::-1]) for name in NAMES)
    assert {ranked(f"p{it}", feeds)[0] for it in range(40)} == set(feeds)
    for name in NAMES:
        first, *rest = ranked(name, feeds)
        assert ranked(name, [it for it in feeds if it != first]) == rest


def test_a_lead_that_moves_to_and_fro_is_counted(room):
    it = Members(("m1", "m2"), ["p0"])
    it.wait(20)
    own = next(one for one in ("m1", "m2") if it.leads(one))
    for _ in range(3):
        it.members[own].programmes["p0"].ill = True
        it.wait(3)
        it.members[own].programmes["p0"].ill = False
        it.wait(3)
    assert it.members["m1"].most_moves(it.clock.now) == it.members["m2"].most_moves(it.clock.now) == 6
    it.wait(700)
    assert it.members["m1"].most_moves(it.clock.now) == 0
