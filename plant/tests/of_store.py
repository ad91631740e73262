"""Tests of a programme's log in a folder: what a feed that is started anew goes on with."""
import copy
import dataclasses
import errno
import json
import os
import random
import subprocess
import sys
import time
from collections.abc import Mapping
from pathlib import Path

import recorded
from of_lists import BASE, CLOCK, SPELLED, URL, Packager, spelled
from of_numbers import pod_of, with_breaks
from tools import PLANT, PYTHON, apart, decided, instant

sys.path.insert(0, PLANT)
from adsplice_plant import events, journal, packaged, store  # noqa: E402
from adsplice_plant.breaks import TOLERANCE, Break  # noqa: E402
from adsplice_plant.entries import difference, known_of  # noqa: E402
from adsplice_plant.events import Answered, Began, FolderRead, ListRead, Request, Send, Ticked, What  # noqa: E402
from adsplice_plant.growing import Growing  # noqa: E402
from adsplice_plant.numbers import Item, Viewed  # noqa: E402
from adsplice_plant.programme import step  # noqa: E402
from adsplice_plant.ranges import ids_in, ranges_in, starts_in  # noqa: E402
from adsplice_plant.playlist import SECOND  # noqa: E402
from adsplice_plant.pods import Pods  # noqa: E402
from adsplice_plant.reckoning import Reckoned, Run, Shape, Store, Sums  # noqa: E402
from adsplice_plant.packing import edit_of, edited  # noqa: E402
from adsplice_plant.clocks import Stated  # noqa: E402
from adsplice_plant.packaged import Shift  # noqa: E402
from adsplice_plant.repair import Choices, Head, Lead, Repairer  # noqa: E402
from adsplice_plant.settings import Settings  # noqa: E402
from adsplice_plant.siblings import Sibling, Siblings  # noqa: E402
from adsplice_plant.state import Controller, Decided, File, FileState, Removed, Standing, Way, begin  # noqa: E402
from adsplice_plant.store import FolderStore, line_of, repairs_kept  # noqa: E402
from adsplice_plant.translator import Mark, Translator  # noqa: E402
from adsplice_rules import breaks as rules  # noqa: E402
from adsplice_rules.channel import Channel, decide, refreshed, written  # noqa: E402

NEEDS = ()
ENDS = {  # what ends with a process, by the class whose member it is
    "State": {"in_step_since", "waits_until", "rests_until", "longest_pause", "is_behind"}, "Rendition": {"settings", "came", "reach", "older", "came_at", "read_at", "given_at", "behind_since", "is_new", "seen_at", "is_other", "slate"},
    "Controller": {"sent", "trials", "retry_at", "is_unseen", "dropped_at"},
    "Repairer": {"siblings", "accepted", "held_since", "shifts", "waited", "new", "is_part"}, "File": {"since", "looked_at", "is_there", "was_there"}, "Breaks": {"told", "recent", "shift"}, "Decided": {"tells"}}


# ---- states, as a feed makes them

def settings_of(*names, programme="news"):
    """The settings of a programme's renditions `names`; of a channel by itself without any."""
    channels = [f"{programme}-{name}" for name in names] or [programme]
    return [Settings(it, "x", "http://h", URL, programme=programme if names else "") for it in channels]


def fresh(*names, programme="news"):
    """A state of which nothing is known."""
    return begin(settings_of(*names, programme=programme), TOLERANCE)


def taken(state, channel, body, seconds, is_refused=False):
    """The state after a channel's list `body` was given `seconds` after the test's begin; the same one if nothing is given of it."""
    rendition = state.renditions[channel]
    stands = rendition.stands
    repairer = copy.copy(stands.repairer)
    found = repairer.take(body, seconds, CLOCK + int(seconds * 10**9))
    if found.found is None:
        return dataclasses.replace(state, renditions={**state.renditions, channel: dataclasses.replace(rendition, stands=dataclasses.replace(stands, repairer=repairer))})
    translator = copy.deepcopy(state.translator)
    said = translator.take(found.found, rendition.settings.rendition())
    found.found.signals = said.ranges
    text, last = found.body(), stands.repairer.last
    repairer.accept(found)
    viewed = dataclasses.replace(stands.viewed, ranges=dict(stands.viewed.ranges), reckoned=stands.viewed.reckoned or Reckoned())
    viewed.note(found.found.date_ranges(), found.found.segments[-1].number)
    viewed.forget((repairer.past or repairer.last)[0].number)
    pods = copy.deepcopy(stands.pods)
    new = [it.begins for it in repairer.last if it.begins is not None and (not last or it.number > last[-1].number)]
    pods.enter(starts_in(ranges_in(text)), stands.viewed.ranges.keys(), new, min((it.begins for it in repairer.last if it.begins is not None), default=0), TOLERANCE)
    viewed.reckon(repairer.last, ranges_in(text), Store(pods.held, pods.fallback), TOLERANCE, repairer.head.target)
    repairs = dict(stands.repairs)
    for kind in found.kinds:
        repairs[kind] = repairs.get(kind, 0) + 1
    entry = state.entry + 1
    after = dataclasses.replace(stands, repairer=repairer, viewed=viewed, entry=entry, text=text, pods=pods, repairs=repairs, after=stands.entry)
    controller = dataclasses.replace(rendition.controller, way=Way.THERE, listed=entry - 1, took=last[-1].number if last else -1, sent=Request(What.PUSH, text, entry))
    rendition = dataclasses.replace(rendition, stands=after, before=stands, came=body, controller=controller, listed=frozenset(ids_in(ranges_in(text))))
    return dataclasses.replace(state, renditions={**state.renditions, channel: rendition}, translator=translator, entry=entry)


def gave(state, body, name=""):
    """The state after the decision `body` was given to all renditions, of the file `name`."""
    renditions = {}
    for channel, it in state.renditions.items():
        pods = copy.deepcopy(it.stands.pods)
        pods.given(body)
        renditions[channel] = dataclasses.replace(it, stands=dataclasses.replace(it.stands, pods=pods))
    entry = state.entry + 1
    one = Decided(entry, dict.fromkeys(state.renditions, body), "breaks", tuple(it["id"] for it in json.loads(body).get("breaks", [])), name)
    return dataclasses.replace(state, renditions=renditions, entry=entry, decisions=(*state.decisions, one))


def plain(value):
    """All that `value` has, in its order, without what ends with a process, and without the date ranges of listed segments."""
    kind = type(value).__name__
    if isinstance(value, Mapping):
        return [(name, plain(it)) for name, it in value.items()]
    if isinstance(value, (set, frozenset)):
        return sorted(value)
    if isinstance(value, (list, tuple)) and not hasattr(value, "_fields"):
        return [plain(it) for it in value]
    if kind == "PackagedSegment":
        value = dataclasses.replace(value, tags=[line for line in value.tags if not line.startswith(packaged.DATE_RANGE)])
        return [getattr(value, it.name) for it in dataclasses.fields(value)]
    if hasattr(value, "_asdict"):
        return [plain(it) for it in value]
    if not hasattr(value, "__dict__") or kind in ("Way", "FileState"):
        return value
    members = {name: it for name, it in vars(value).items() if name not in ENDS.get(kind, ())}
    members |= {"asked": list(members["asked"])} if kind == "State" else {}
    members |= {"bodies": {}} if kind == "File" and value.state != FileState.NEW else {}
    return kind, [(name, plain(it)) for name, it in members.items()]


def is_kept(folder, state, *names, programme="news"):
    """The log in the `folder` has the `state`, whole."""
    found = FolderStore(folder, state.name).load(fresh(*names, programme=programme))
    assert not found.told, found.told
    assert plain(found.state) == plain(state), difference(known_of(found.state), known_of(state))
    return found.state


# ---- round trips

class Kept:
    """A feed of a programme of `names` whose log is in the `folder`. Its store is another one at times, as of a feed that is started anew."""

    def __init__(self, folder, *names, dice=None):
        self.folder, self.names, self.dice, self.state = Path(folder), names, dice, fresh(*names)
        self.store = FolderStore(self.folder, "news")

    def look(self, channel, body, seconds):
        """A channel's list is read: whether it was given."""
        before = self.state.entry
        self.state = taken(self.state, channel, body, seconds)
        self.write()
        return self.state.entry > before

    def write(self):
        """The state is kept, and is what a feed that is started now goes on with. At times one is."""
        self.store.write(self.state)
        found = is_kept(self.folder, self.state, *self.names)
        if self.dice is not None and self.dice.random() < 0.1:
            self.state, self.store = found, FolderStore(self.folder, "news")


@apart
def test_what_recorded_packagers_listed_comes_back(room):
    for name in recorded.names():
        kept = Kept(f"{room.path}/{name}", dice=random.Random(name))
        for seconds, body in list(recorded.states(name))[:60]:
            kept.look("news", body, seconds)
        assert kept.state.entry > 2, name


@apart
def test_what_drawn_packagers_listed_comes_back(room):
    dice, events = random.Random(3), ("", "", "", "", "marked", "again", "gap", "burst")
    for case in range(30):
        kept = Kept(f"{room.path}/{case}", dice=dice)
        packager = Packager(dice.choice((3, 6)), "true", dice.choice(("each", "first", "none")), "new", dice.random() < 0.3, False, dice.choice(("", "number", "stated", "rotated")),
                            dice.random() < 0.3, dice.random() < 0.3, dice.random() < 0.5, dice.random() < 0.5, dice.random() < 0.5)
        packager.make()
        for turn in range(25):
            event = dice.choice(events)
            for _ in range(3 if event == "burst" else 1):
                packager.again() if event == "again" else packager.make(event == "gap", event == "marked")
            body, _ = packager.listed(len(packager.made), turn)
            any(kept.look("news", body, 6 * turn + look) for look in (0, 1, 2, 3.1))


@apart
def test_what_is_spelled_otherwise_in_each_list_comes_back(room):
    for place, said in enumerate(SPELLED.values()):
        for times in ("each", "first", ""):
            kept = Kept(f"{room.path}/{place}{times}")
            for turn, last in enumerate(range(5, 16)):
                kept.look("news", spelled(last - 5, last, turn, times, **said), 2.0 * turn)


def test_breaks_and_pods_come_back(room):
    kept, breaks = Kept(room.path, "a", "b", dice=random.Random(5)), [(12, 5), (17, 5), (28, 6), (60, 4)]
    kept.state = gave(kept.state, pod_of(5, "2"))
    kept.write()
    for newest in range(5, 90):
        if newest in (10, 24, 58):
            kept.state = gave(kept.state, decided((f"b{ {10: 17, 24: 28, 58: 60}[newest]}", 3)).encode(), "one.json")
            kept.write()
        for name in "ab":
            assert kept.look(f"news-{name}", with_breaks(newest - 5, newest, breaks), 2.0 * newest)
    viewed = kept.state.renditions["news-a"].stands.viewed
    assert viewed.reckoned.end() == viewed.end == (83, 7) == viewed.begins[89], (viewed.end, viewed.begins)


def test_numbers_that_are_seen_come_back(room):
    kept = Kept(room.path)
    for newest in range(5, 30):
        kept.look("news", with_breaks(newest - 5, newest, []), 2.0 * newest)
        if newest in (12, 20):
            one = kept.state.renditions["news"]
            viewed = one.stands.viewed.copy()
            viewed.see([Item(it.number + newest, 0, it.begins) for it in one.stands.repairer.last[1:]], one.stands.repairer.last)
            viewed.learn(one.stands.repairer.last, [])
            kept.state = dataclasses.replace(kept.state, renditions={"news": dataclasses.replace(one, stands=dataclasses.replace(one.stands, viewed=viewed))})
            kept.write()
    one = kept.state.renditions["news"]
    for before in (12, 30):
        viewed = one.stands.viewed.copy()
        viewed.forget(before)  # (and nothing is new)
        kept.state = dataclasses.replace(kept.state, renditions={"news": dataclasses.replace(one, stands=dataclasses.replace(one.stands, viewed=viewed))})
        kept.write()
    assert one.stands.viewed.begins[29] == (49, 0) and not viewed.begins  # (20 more than were given)


def with_siblings(state, bases):
    """The `state` with its renditions' repairers as siblings."""
    renditions = {}
    for channel, it in state.renditions.items():
        repairer = copy.copy(it.stands.repairer)
        repairer.siblings = Siblings([Sibling(bases[name], one.stands.repairer.past + one.stands.repairer.last) for name, one in state.renditions.items() if name != channel])
        renditions[channel] = dataclasses.replace(it, stands=dataclasses.replace(it.stands, repairer=repairer))
    return dataclasses.replace(state, renditions=renditions)


def test_what_stays_in_front_of_a_list_comes_back(room):
    kept, leads = Kept(room.path, "a", "b"), 0
    bases = {f"news-{name}": f"http://origin.example/{name}/i.m3u8" for name in "ab"}
    for newest in range(5, 40):
        kept.state = with_siblings(kept.state, bases)
        kept.look("news-a", with_breaks(newest - 5, newest, []), 2.0 * newest)
        if not 20 <= newest < 24:
            begun = 24 if newest >= 24 else 0
            body = with_breaks(max(begun, newest - 5), newest, []).replace(b"\ns", b"\nt" if begun else b"\ns")
            any(kept.look("news-b", body, 2.0 * newest + look) for look in (0, 0.7, 1.4))
        one = kept.state.renditions["news-b"].stands.repairer
        leads += one.lead is not None and one.front > 0
    assert leads > 2 and kept.state.renditions["news-b"].stands.repairer.lead is None


def members(state):
    """The `state` with what lists don't make: files, decisions, questions, breaks that are over, a controller's answers."""
    channels = list(state.renditions)
    stamps, bodies = {it: (2**62 + 1, 7, n) for n, it in enumerate(channels)}, {it: b'{"breaks":[]}\xff\xe4\n' for it in channels}
    files = {"one.json": File(stamps, bodies, "breaks", ("b1", "b\ud800"), since=5.0), "two.json": File(stamps, bodies, "", (), FileState.REFUSED, entry=3),
             "three.json": File(stamps, bodies, "breaks", ("b2",), FileState.GIVEN, frozenset({"b2"}), frozenset({"b2"}), entry=4)}
    decisions = (Decided(2, bodies, "breaks", ("b1",), "one.json", True), Decided(4, {channels[0]: b"{}"}, "fallback", ()))
    renditions = {name: dataclasses.replace(it, fallback=b"\x00\xff", is_blocked=True, controller=Controller(Way.MADE, 4, 3, 99, reached=98, ahead=(7, -2), first=(b"{}", b"\xc3"), anew=1, led=2, unfit=2, refused=5)) for name, it in state.renditions.items()}
    removed = {"four.json": Removed(("b3",), ("b4",), bodies, "the file was removed", True)}
    return dataclasses.replace(state, renditions=renditions, files=files, decisions=decisions, removed=removed, asked={"b1": 8.0, "b9": 9.0}, over=("b0", "b00"), equal_after=12,
                               fallback={channels[0]: b"{}\xff"}, is_apart=frozenset(channels[:1]), in_step_since=3.0)


def test_members_that_lists_do_not_make_come_back(room):
    kept = Kept(room.path, "a", "b")
    kept.look("news-a", with_breaks(0, 5, []), 10)
    before = kept.state
    kept.state = members(kept.state)
    kept.write()
    found = is_kept(kept.folder, kept.state, "a", "b")
    assert list(found.asked.values()) == [float("-inf")] * 2 and found.files["one.json"].bodies["news-b"].endswith(b"\xff\xe4\n") and not found.files["two.json"].bodies
    one = kept.state.files["one.json"]
    files = {"two.json": kept.state.files["two.json"], "one.json": dataclasses.replace(one, state=FileState.GIVEN, entry=9), "zero.json": one}
    for change in ({"files": dict(reversed(kept.state.files.items()))}, {"files": files}, {"decisions": kept.state.decisions[::-1]}, {"decisions": kept.state.decisions[1:]}, {"decisions": ()}, {"asked": {}}, {"over": ()}, {"removed": {}},
                   {"files": {}}, {"equal_after": -1, "is_apart": frozenset(), "fallback": {}}, {"renditions": before.renditions}):
        kept.state = dataclasses.replace(kept.state, **change)
        kept.write()


def crowded():
    """A state in which no member has the value with which it begins."""
    one = members(fresh("a", "b"))
    key = packaged.Key("identity", 'METHOD=AES-128,URI="k"', False)
    segments = [packaged.PackagedSegment(f"{n}.ts", n, 2 * SECOND, (7, 8), (key,), packaged.InitSection('URI="i"', (key,)), 5 * n, 2, ["#EXTINF:2,", "#EXT-X-BITRATE:9"], True, 3, 4,
                                         n + 100, 2 * n, 6 * n, 9, 3) for n in (6, 7, 8)]
    repairer = Repairer(Choices(), Siblings([]))
    repairer.head, repairer.past, repairer.last, repairer.adds, repairer.owed, repairer.lead, repairer.front = Head(3, 2, "EVENT"), segments[:1], segments[1:], True, 2, Lead(107, 2, 9), 1
    repairer.longest, repairer.longest_end = 3, 107
    repairer.grows, repairer.growing, repairer.clock, repairer.is_guessed, repairer.stated = True, segments[0], 7, True, {"b1": Stated(1, 2, 3, 4, 5, 6)}
    reckoned = Reckoned(108, 16, 90, 5, Run("b1", Shape(((7, 8), (9,)), (True, False)), 5), (rules.Break("b1", 1, 2, 3, 4, "0x1", "0x2"),), "b1", True, Sums(7, 8, 9))
    viewed = Viewed(Growing([(107, (90, 5)), (108, (91, 5))]), (91, 5), True, {"b1": ("#EXT-X-DATERANGE:ID=b1", 108)}, reckoned)
    stands = Standing(repairer, viewed, 8, b"#EXTM3U\n", b"ahead\n", Pods("[]", {"b1": "[1]"}, {"b1": "[2]"}, {"b2"}), {"times": 3}, 7)
    renditions = {name: dataclasses.replace(it, stands=stands, before=dataclasses.replace(stands, entry=7), listed=frozenset({"b1"})) for name, it in one.renditions.items()}
    translator = copy.copy(one.translator)
    translator.done, translator.firsts, translator.seen, translator.stated, translator.cuts, translator.styles = (
        {"a": Mark(8, "8.ts", 48, 46, 9, 2)}, {"a": 6}, {"a": {"b1": {"SCTE35-OUT"}}}, {"a": {"b1": 6}}, {"a": {"b1": [6, None]}}, {"EXT-X-AD"})
    translator.breaks = copy.copy(one.translator.breaks)
    breaks = translator.breaks
    breaks.known, breaks.cancelled, breaks.is_first = [Break("b1", 6, 7, "a splice", 52, 9, "upid", 3, 9, False, True, True, 8, ",X=1", True, 1, 2, 3, 4)], {"b3"}, False
    return dataclasses.replace(one, renditions=renditions, translator=translator, entry=9, life="one", shifts=(Shift(1, 2), Shift(3, 4)))


def crowded_alone():
    """The same of a channel by itself."""
    one, alone = crowded(), fresh()
    rendition = dataclasses.replace(one.renditions["news-a"], settings=alone.renditions["news"].settings)
    return dataclasses.replace(alone, renditions={"news": rendition}, entry=9)


BEGINS = {  # with what a member begins that has no default of its class
    "Repairer": vars(Repairer(Choices())), "Translator": vars(Translator()), "Breaks": vars(Translator().breaks)}
CHOSEN = {"Repairer": {"choices"}, "Translator": {"aligns", "tolerance"}, "Breaks": {"types", "is_narrowed"}}  # by the settings of today


def look(value, names, tried):
    """Adds to `names` each member of `value` with its class, and to `tried` those that haven't the value with which they begin."""
    if isinstance(value, Mapping):
        value = list(value.values())
    if isinstance(value, (list, tuple)) and not hasattr(value, "_fields"):
        for it in value:
            look(it, names, tried)
        return
    kind = type(value).__name__
    begins = BEGINS.get(kind) or {it.name: it.default for it in (dataclasses.fields(value) if dataclasses.is_dataclass(value) else ())}
    for name in begins.keys() - ENDS.get(kind, set()) - CHOSEN.get(kind, set()):
        it = getattr(value, name)
        names.add((kind, name))
        tried |= {(kind, name)} if it != begins[name] and (it or it == 0) else set()
        look(it, names, tried)


def test_each_member_comes_back(room):
    names, tried, state = set(), set(), crowded()
    look(state, names, tried)
    assert names == tried and len(names) > 100, ("a member that is new is kept, or ends with the process (ENDS)", names - tried)
    FolderStore(Path(room.path), "news").write(state)
    is_kept(Path(room.path), state, "a", "b")


def test_what_stays_in_front_comes_back_with_the_instants_that_a_later_list_gave_it(room):
    kept = Kept(room.path)
    kept.state = crowded_alone()
    kept.write()
    one = kept.state.renditions["news"]
    repairer = copy.copy(one.stands.repairer)
    repairer.past, repairer.last = list(repairer.past), list(repairer.last)
    repairer.last[0].begins, repairer.last[1].begins, repairer.front = 77, 79, 2  # (Repairer.set_times, in the very objects that were listed before)
    kept.state = dataclasses.replace(kept.state, renditions={"news": dataclasses.replace(one, before=None, stands=dataclasses.replace(one.stands, repairer=repairer, after=3))})
    kept.write()
    first = repairer.past[0]
    for past in ([dataclasses.replace(first, begins=5)], [dataclasses.replace(first, number=first.number - 1), first], []):  # (whatever became of those that left the list)
        repairer, one = copy.copy(repairer), kept.state.renditions["news"]
        repairer.past = past
        kept.state = dataclasses.replace(kept.state, renditions={"news": dataclasses.replace(one, stands=dataclasses.replace(one.stands, repairer=repairer))})
        kept.write()


def test_where_a_list_stood_before_it_comes_back(room):
    kept = Kept(room.path)
    for newest in range(5, 12):
        kept.look("news", with_breaks(newest - 5, newest, [(8, 2)]), 2.0 * newest)
    one = kept.state.renditions["news"]
    assert one.before.repairer.last[-1].number == 10
    back = dataclasses.replace(one.before, repairs=one.stands.repairs, pods=dataclasses.replace(one.stands.pods, entered=one.before.pods.entered))
    for rendition in (dataclasses.replace(one, stands=back, before=None), one, dataclasses.replace(one, before=None)):
        kept.state = dataclasses.replace(kept.state, renditions={"news": rendition})
        kept.write()
        kept.store = FolderStore(kept.folder, "news")  # (a whole state, too)
        kept.write()
    size = kept.store.path.stat().st_size
    kept.look("news", with_breaks(7, 12, [(8, 2)]), 24.0)
    refused = kept.state.renditions["news"]
    kept.state = dataclasses.replace(kept.state, renditions={"news": dataclasses.replace(refused, stands=refused.before, before=None)})
    kept.write()
    assert kept.store.path.stat().st_size - size < 2000, "a list that is refused is kept by what changed, too"


def test_the_next_lists_are_given_as_if_no_feed_had_ended(room):
    lists = [(2.0 * newest, with_breaks(newest - 5, newest, [(12, 5), (24, 5)]).replace(b"#EXTINF", b"#EXT-X-KEY:METHOD=AES-128,URI=\"k\"\n#EXTINF", 1)) for newest in range(5, 40)]
    lists = [(at, body.replace(instant(at - 10).encode(), instant(at - 10 + 300).encode()) if at > 60 else body) for at, body in lists]  # (its clock is put right)
    for ended in range(3, 34, 5):
        store_, one, other = FolderStore(Path(room.path), "news"), fresh(), None
        for place, (seconds, body) in enumerate(lists):
            one = taken(one, "news", body, seconds)
            if place <= ended:
                store_.write(one)
                other = one
            if place == ended:
                other = FolderStore(Path(room.path), "news").load(fresh()).state
            if place > ended:
                other = taken(other, "news", body, seconds)
                assert other.renditions["news"].stands.text == one.renditions["news"].stands.text, (ended, place)
        assert plain(other.translator) == plain(one.translator) and one.entry == other.entry == len(lists)


def test_texts_come_back_by_what_changed(room):
    dice, letters = random.Random(4), ("a", "\n", "#EXTINF:2,\n", "\u00e9", "\U0001f600", "s1.ts\n", "\ufeff")
    old = b""
    for _ in range(600):
        lines = old.split(b"\n")
        new = b"\n".join(lines[dice.randrange(len(lines)):]) + "".join(dice.choices(letters, k=dice.randrange(60))).encode()
        new = dice.choice((new, new[dice.randrange(9):], b"#EXTM3U\n" + new, new + bytes(dice.choices(range(256), k=9)) + b"\n"))
        said = json.loads(json.dumps(edit_of(old, new)))
        assert edited(old, said) == new and (len(said) == 1 or len(said[0]) + len(said[3]) < len(new)), (old, new, said)
        old = new[-4000:]
    for said in (["a", 3, 2, "b"], ["a", 0, 9, "b"], ["a", -1, 3, ""], ["\u0100\ud800"], ["a", 1]):
        try:
            edited(b"abc", said)
            raise AssertionError(said)
        except ValueError:
            pass


# ---- the programme's steps

class Feed:
    """A feed of a programme of `names` whose log is in the `folder`, over controllers that take all. It may be killed before any action."""

    def __init__(self, folder, *names):
        self.folder, self.names, self.seconds, self.left = Path(folder), names, 0.0, None
        self.channels, self.given = dict.fromkeys(fresh(*names).renditions), []
        self.begin()

    def begin(self):
        """The feed is started (anew)."""
        self.store = FolderStore(self.folder, "news")
        found = self.store.load(fresh(*self.names))
        assert not found.told, found.told
        self.state = found.state
        return self.happens(Began())

    def happens(self, event):
        """Something happens, and all that follows from it at once. Whether the feed lives on."""
        self.state, actions = step(self.state, event, self.seconds, CLOCK + int(self.seconds * 10**9))
        for it in actions:
            if self.left == 0:
                self.left = None
                return False
            self.left = None if self.left is None else self.left - 1
            if isinstance(it, events.Store):
                self.store.write(it.state)
                is_kept(self.folder, it.state, *self.names)
            elif isinstance(it, Send):
                status, body = self.answer(it.channel, it.request)
                if not self.happens(Answered(it.channel, it.request, status, body=body)):
                    return False
        return True

    def answer(self, channel, request):
        """The status and the body by which the controller of a `channel` answers."""
        channel_ = self.channels[channel]
        if request.what is What.MAKE:
            self.channels[channel] = channel_ or Channel(BASE)
            return 409 if channel_ else 201, b""
        if request.what in (What.LOOK, What.CHECK):
            text = written(channel_)
            return (404, b"") if text is None else (200, text.encode())
        self.channels[channel] = (refreshed if request.what is What.PUSH else decide)(channel_, request.body)  # (raises Fault if it is refused)
        self.given.append((channel, request.what, request.body))
        return 204, b""


def followed(folder, names, kills):
    """A feed that is killed before so many (`kills`) further actions, each time when it was started anew: what its controllers were given."""
    feed, kills = Feed(folder, *names), list(kills)
    for newest in range(5, 40):
        feed.seconds = 2.0 * newest
        body = with_breaks(newest - 5, newest, [(12, 5), (24, 5), (31, 3)])
        files = {"one.json": ((7, 7, 7), decided(("b12", 3), ("b31", 3)).encode())} if newest > 8 else {}
        for channel in feed.channels:
            for event in (FolderRead(channel, files), ListRead(channel, body), Ticked()):
                if feed.left is None and kills:
                    feed.left = kills.pop(0)
                while not feed.happens(event):
                    while not feed.begin():
                        pass
    return feed


@apart
def test_steps_go_on_after_each_action_before_which_a_feed_is_killed(room):
    for names in ((), ("a", "b")):
        whole = followed(f"{room.path}/{len(names)}", names, ())
        owed = {channel: [body for name, what, body in whole.given if name == channel and what is What.PUSH][-1] for channel in whole.channels}
        dice = random.Random(6)
        for case in range(5):
            feed = followed(f"{room.path}/{len(names)}-{case}", names, [dice.randrange(9) for _ in range(30)])
            for channel, text in owed.items():
                given = [(what, body) for name, what, body in feed.given if name == channel]
                assert [body for what, body in given if what is What.PUSH][-1] == text, (names, case, channel)
                assert len({body for what, body in given if what is What.DECIDE}) == 1, given
                ends = [it.state.renditions[channel].stands.viewed.end for it in (feed, whole)]
                assert ends == [(37, 4)] * 2, (names, case, channel, ends)


# ---- settings that change

def test_renditions_that_the_settings_do_not_have_are_left_out(room):
    kept = Kept(room.path, "a", "b")
    for newest in range(5, 12):
        for name in "ab":
            kept.look(f"news-{name}", with_breaks(newest - 5, newest, [(8, 2)]), 2.0 * newest)
    kept.state = members(kept.state)
    kept.write()
    found = FolderStore(kept.folder, "news").load(fresh("b", "c"))
    assert not found.told and list(found.state.renditions) == ["news-b", "news-c"]
    assert plain(found.state.renditions["news-b"]) == plain(kept.state.renditions["news-b"]) and plain(found.state.renditions["news-c"]) == plain(fresh("c").renditions["news-c"])
    assert found.state.decisions[0].bodies.keys() == {"news-b"} == found.state.files["one.json"].stamps.keys() and not found.state.is_apart
    assert found.state.translator.done.keys() == {"b"} == found.state.translator.firsts.keys() and found.state.translator.breaks.known
    store_ = FolderStore(kept.folder, "news")
    store_.write(kept.state)
    store_.write(found.state)  # (the settings change while the feed goes on)
    is_kept(kept.folder, found.state, "b", "c")


# ---- the file

def several(folder, count=6):
    """A log of a whole state and `count` lines after it; the store, and each state."""
    store_, states = FolderStore(Path(folder), "news"), [fresh()]
    for newest in range(5, 6 + count):
        states.append(taken(states[-1], "news", with_breaks(newest - 5, newest, [(8, 3)]), 2.0 * newest))
        store_.write(states[-1])
    return store_, states[1:]


def test_a_line_that_was_left_unfinished_is_no_entry(room):
    store_, states = several(room.path)
    lines = store_.path.read_bytes().splitlines(keepends=True)
    assert [json.loads(it)["line"] for it in lines] == list(range(7)) and json.loads(lines[0])["format"] == store.FORMAT
    for count in range(1, 7):
        for cut in (1, 2, len(lines[count]) // 2, len(lines[count]) - 1):
            store_.path.write_bytes(b"".join(lines[:count]) + lines[count][:-cut])
            is_kept(Path(room.path), states[count - 1])
    store_.path.write_bytes(b"".join(lines[:-1]) + lines[-1][:-9])
    again = FolderStore(Path(room.path), "news")
    again.write(states[-1])
    assert store_.path.read_bytes().count(b"\n") == 1
    is_kept(Path(room.path), states[-1])


def test_a_broken_log_is_told_in_one_line(room):
    store_, states = several(room.path)
    whole, path = store_.path.read_bytes(), store_.path
    lines = whole.splitlines(keepends=True)
    said = json.loads(lines[0])

    def told(body):
        """What is told of the log `body`, and the state that is gone on with."""
        path.write_bytes(body)
        found = FolderStore(Path(room.path), "news").load(fresh())
        assert len(found.told) == 1 and found.told[0][:4] == ("", "numbers", 0, "Broken"), found.told
        return found.told[0].text, found.state
    for body, why in ((b"", "JSONDecodeError: Expecting value: line 1 column 1 (char 0)"), (b"{}\n", "KeyError: 'format'"), (lines[0][:-1], "its first line is unfinished"),
                      (json.dumps(said | {"format": 9}).encode() + b"\n", "format 9, of a newer feed"), (json.dumps(said | {"format": 2}).encode() + b"\n", "format 2"),
                      (json.dumps(said | {"name": "other"}).encode() + b"\n", "it is of the programme other"), (b"[" * 100_000 + b"\n", "RecursionError")):
        text, state = told(body)
        assert text.startswith(f"{path}: {why}") and text.endswith("; goes on without it") and "\n" not in text and plain(state) == plain(fresh()), (text, why)
    text, state = told(b"".join([*lines[:3], b"\x00" * 40 + b"\n", *lines[4:]]))
    assert text.startswith(f"{path}: line 3 after the first: ") and text.endswith("; goes on from the line before it") and plain(state) == plain(states[2]), text
    text, state = told(b"".join([*lines[:3], *lines[4:]]))
    assert text == f"{path}: line 3 after the first: it says that it is line 4; goes on from the line before it" and plain(state) == plain(states[2]), text
    path.unlink()
    path.mkdir()
    assert FolderStore(Path(room.path), "news").load(fresh()).told[0].text == f"{path}: Is a directory; goes on without it"
    path.rmdir()
    dice = random.Random(2)
    for _ in range(400):  # (what still reads can be gone on with)
        place = dice.randrange(len(whole))
        path.write_bytes(dice.choice((whole[:place], whole[:place] + b"9" + whole[place + 1:], whole[:place] + b"\xff\x00" + whole[place + 2:], whole[:place] + whole[place + 9:])))
        found = FolderStore(Path(room.path), "news").load(fresh())
        assert all(it[:4] == ("", "numbers", 0, "Broken") for it in found.told), found.told
        FolderStore(Path(room.path), "news").write(taken(found.state, "news", with_breaks(9, 14, []), 100.0))


def test_a_state_that_could_not_be_kept_is_kept_as_a_whole_by_the_next(room):
    store_, states = several(room.path, 2)
    states += [taken(states[-1], "news", with_breaks(newest - 5, newest, [(8, 3)]), 2.0 * newest) for newest in (9, 10)]
    write, append, aside = os.write, store.append, store.write_aside

    def full(*_, **__):
        raise OSError(errno.ENOSPC, os.strerror(errno.ENOSPC))
    try:
        journal.os.write = lambda handle, data: write(handle, data[:9])  # (a disk that has room for nine bytes more)
        fails(store_, states[-2], errno.ENOSPC)
        is_kept(Path(room.path), states[2])
        journal.os.write = write
        store.append = full
        store_.write(states[-1])
        assert store_.path.read_bytes().count(b"\n") == 1
        is_kept(Path(room.path), states[-1])
        fails(store_, states[-2], errno.ENOSPC)
        store_.path.unlink()
        store.write_aside = full  # (nor can a whole state be kept)
        fails(store_, states[-2], errno.ENOSPC)
        assert not store_.path.exists()
        store.write_aside = aside
        store_.write(states[-1])
        is_kept(Path(room.path), states[-1])
    finally:
        journal.os.write, store.append, store.write_aside = write, append, aside
    away = FolderStore(Path(f"{room.path}/no file/kept"), "news")
    Path(room.path, "no file").write_bytes(b"")
    fails(away, states[-1], errno.ENOTDIR)
    os.unlink(f"{room.path}/no file")
    away.write(states[-1])
    is_kept(away.folder, states[-1])


def fails(store_, state, code):
    """To write the `state` fails by the system's `code`."""
    try:
        store_.write(state)
    except OSError as fault:
        assert fault.errno == code, fault
        return
    raise AssertionError("it was written")


KILLED = """import sys
sys.path.insert(0, sys.argv[1])
from of_store import *
store.MOST_LINES, folder = 5, Path(sys.argv[2])
store_ = FolderStore(folder, "news")
state = store_.load(fresh()).state
for newest in range(state.entry + 6, 10_000):
    state = taken(state, "news", with_breaks(newest - 5, newest, [(newest // 9 * 9, 3)]), 2.0 * newest)
    store_.write(state)
    os.write(1, b"%d\\n" % state.entry)
"""


def test_a_feed_that_is_killed_loses_nothing_that_was_written(room):
    dice, entry = random.Random(1), 0
    for _ in range(8):
        with subprocess.Popen([PYTHON, "-B", "-c", KILLED, f"{PLANT}/tests", room.path], stdout=subprocess.PIPE) as feed:
            first = int(feed.stdout.readline())
            assert first == entry + 1, (first, entry)
            time.sleep(dice.random() / 20)
            feed.kill()
            entry = int((b"%d\n" % first + feed.stdout.read()).splitlines()[-1])
        found = FolderStore(Path(room.path), "news").load(fresh())
        assert found.state.entry in (entry, entry + 1) and not found.told, (entry, found.state.entry, found.told)
        entry = found.state.entry
    assert entry > 16, entry


def test_a_log_that_somebody_takes_away_or_changes_begins_anew(room):
    store_, states = several(room.path, 3)
    for change in (lambda: os.unlink(store_.path), lambda: store_.path.write_bytes(b""), lambda: os.replace(store_.path, f"{room.path}/aside"),
                   lambda: store_.path.write_bytes(store_.path.read_bytes())):
        change()
        states.append(taken(states[-1], "news", with_breaks(len(states) + 3, len(states) + 8, []), 2.0 * len(states)))
        store_.write(states[-1])
        is_kept(Path(room.path), states[-1])
    assert store_.path.read_bytes().count(b"\n") == 2, "the same bytes in the same file are gone on with"


def test_the_log_stays_bounded(room):
    store_, state, most, wholes = FolderStore(Path(room.path), "news"), fresh(), 0, 0
    for newest in range(5, 800):
        state = taken(state, "news", with_breaks(newest - 5, newest, [(20 * (newest // 20), 5)]), 2.0 * newest)
        store_.write(state)
        lines = store_.lines
        most, wholes = max(most, store_.path.stat().st_size), wholes + (lines == 0)
        assert lines <= store.MOST_LINES
    is_kept(Path(room.path), state)
    assert most < 600_000 and wholes == 795 // (store.MOST_LINES + 1) + 1, (most, wholes)
    before = store_.since
    store_.write(state)
    assert store_.since - before < 30, "of what hasn't changed nothing is said"
    state, longest = gave(state, decided(*((f"c{n}", 40) for n in range(250))).encode()), 0
    for n in range(12):
        state, before = gave(state, state.decisions[-1].bodies["news"].replace(b"c", b"%d" % n)), store_.since
        store_.write(state)
        wholes += store_.lines == 0
        longest = max(longest, store_.since - before)
        assert store_.since < store.MOST_BYTES + longest
    assert 300_000 < longest < store.MOST_BYTES and wholes > 4, (longest, wholes)


# ---- for the monitor

def test_counts_of_repairs_are_read_from_the_log(room):
    folder, state = Path(room.path), fresh("a", "b")
    store_ = FolderStore(folder, "news")
    assert repairs_kept(folder, "news-a") == {} == repairs_kept(Path(f"{room.path}/none"), "news")
    for newest in range(5, 30):
        state = taken(state, "news-a", with_breaks(newest - 5, newest, []), 2.0 * newest)
        state = taken(state, "news-b", spelled(newest - 5, newest, newest, "") if newest < 20 else with_breaks(newest - 5, newest, []), 2.0 * newest)
        store_.write(state)
        assert repairs_kept(folder, "news-b") == state.renditions["news-b"].stands.repairs and repairs_kept(folder, "news-a") == {}
    assert repairs_kept(folder, "news-b")["times"] == 15 and repairs_kept(folder, "news") == {} == repairs_kept(folder, "news-c")
    big = gave(state, decided(*((f"c{n}", 40) for n in range(20))).encode())
    store_.write(big)
    assert len(line_of(difference(known_of(state), known_of(big)))) > store.TAIL and repairs_kept(folder, "news-b")["times"] == 15
    alone = taken(fresh(programme="news-b"), "news-b", spelled(0, 5, 1, "").replace(b"#EXTM3U", b"\xef\xbb\xbf#EXTM3U"), 9.0)
    FolderStore(folder, "news-b").write(alone)
    os.utime(folder / "news.log", (1, 1))
    assert repairs_kept(folder, "news-b") == {"byte order mark": 1, "times": 1}
    for body in (b"", b"{", b"[]\n", b'{"renditions":{"news-b":{"stands":{"repairs":{"times":"x"}}}}}\n', b'"repairs"\n'):
        (folder / "news-b.log").write_bytes(body)
        assert repairs_kept(folder, "news-b") == state.renditions["news-b"].stands.repairs, body


# ---- what it costs

def measured(segments, writes=200):
    """The processor seconds of a write of a rendition whose lists have so many `segments`, of which one is new: the median; and bytes of a line."""
    folder = Path("/dev/shm" if os.access("/dev/shm", os.W_OK) else "/tmp", f"of_store-{os.getpid()}")
    store_, state, took = FolderStore(folder, "news"), fresh(), []
    try:
        for newest in range(segments, segments + writes):
            state = taken(state, "news", with_breaks(newest - segments + 1, newest, [(segments + 50, 5)]), 2.0 * newest)
            begun = time.process_time_ns()
            store_.write(state)
            took.append((time.process_time_ns() - begun) / 1e9)
        return sorted(took[1:])[len(took) // 2], store_.since / store_.lines
    finally:
        store_.path.unlink(missing_ok=True)
        folder.rmdir()


@apart
def test_what_a_write_costs(room):
    found = {segments: measured(segments) for segments in (30, 1800)}
    print(found)
    assert found[30][0] < 0.0005 and found[1800][0] < 0.0015 and found[1800][0] < 5 * found[30][0], found  # (other tests run beside this one)
    assert found[30][1] < 1000 and found[1800][1] < 1200, found
