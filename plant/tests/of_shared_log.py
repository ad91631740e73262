"""Tests of the log that several machines have in common, in a store that is a dictionary, and of what each machine has of it (replica)."""
import dataclasses
import os
import re
import sys
import threading
import zlib
from pathlib import Path

from of_lists import BASE, CLOCK, URL
from stepped import TOLERANCE, Stepped
from tools import PLANT, decided, listed

sys.path.insert(0, PLANT)
from adsplice_plant import following, masters, renditions, shared_log  # noqa: E402
from adsplice_plant.etcd import Away, Delete, Pair, Put  # noqa: E402
from adsplice_plant.events import Began  # noqa: E402
from adsplice_plant.folders import DecisionFolder  # noqa: E402
from adsplice_plant.location import Url  # noqa: E402
from adsplice_plant.members import FEEDS  # noqa: E402
from adsplice_plant.replica import Replica  # noqa: E402
from adsplice_plant.settings import Settings, ladder_of  # noqa: E402
from adsplice_plant.shared_files import SharedFolder  # noqa: E402
from adsplice_plant.shared_log import Foreign, Outrun, SharedLog, lead_key, line_key, log_prefix  # noqa: E402
from adsplice_plant.shared_names import SharedNames, names_key  # noqa: E402
from adsplice_plant.state import Controller, begin  # noqa: E402
from adsplice_plant.web import Client  # noqa: E402
from keys import At, Clock, Keys  # noqa: E402

NEEDS = ("httpx",)
MASTER = "http://o.example/film.m3u8"


def stood(seconds):
    """The state of a programme that has given lists for so many seconds, and the steps to it."""
    it = Stepped(settings(), BASE, CLOCK)
    found = []
    for last in range(5, 5 + seconds):
        it.read(listed(last - 5, last).encode())
        found.append(it.kept)
    return found


def settings():
    """The settings of a channel."""
    return Settings("news", Url(URL), "http://h", URL)


def opened(keys, who="m0/a"):
    """The log of a programme whose lead `who` has, and the revision at which it was won."""
    token = keys.change([], [Put(lead_key("news"), who.encode())]).revision
    log = SharedLog(At(keys), "news", begin([settings()], TOLERANCE))
    log.load()
    log.lead(token)
    return log, token


def test_a_log_says_what_was_written(room):
    keys = Keys(Clock())
    log, _ = opened(keys)
    states = stood(100)
    for it in states:
        log.write(it)
    other = SharedLog(At(keys), "news", begin([settings()], TOLERANCE))
    found, rest = other.load()
    owed = states[-1].renditions["news"].stands
    assert found.renditions["news"].stands.text == owed.text and found.entry == states[-1].entry and not rest
    assert found.renditions["news"].controller == Controller(), "what a machine's own controllers acknowledged isn't in it"
    lines = [it for it in keys.pairs if it.startswith(log_prefix("news"))]
    assert shared_log.KEPT_LINES <= len(lines) <= shared_log.KEPT_LINES + shared_log.MOST_LINES + 2, len(lines)
    assert max(len(keys.pairs[it].value) for it in lines[-20:]) < 20_000


def test_a_machine_that_was_away_goes_on_in_order(room):
    keys = Keys(Clock())
    log, _ = opened(keys)
    states = stood(40)
    for it in states:
        log.write(it)
    since = states[30].entry
    other = SharedLog(At(keys), "news", begin([settings()], TOLERANCE))
    found, rest = other.load(states[0].life, since)
    given = [found.entry]
    for it in rest:
        assert other.take(it)
        given.append(other.state().entry)
    assert given == [it.entry for it in states[31:]], given
    assert other.load("another life", since)[0].entry == states[-1].entry, "what it knows is of another log"
    assert other.load(states[0].life, 10**6)[0].entry == states[-1].entry
    for it in stood(240)[40:]:
        log.write(it)
    found, rest = other.load(states[0].life, 1)
    assert not rest, "the log has forgotten what comes next"


def test_of_two_that_believe_they_lead_one_writes(room):
    keys = Keys(Clock())
    states = stood(6)
    old, _ = opened(keys)
    old.write(states[0])
    new, _ = opened(keys, "m1/b")
    before = keys.revision
    for it in (states[1], states[2]):
        try:
            old.write(it)
            raise AssertionError("another one leads")
        except Outrun:
            pass
    assert keys.revision == before, "nothing is changed"
    new.write(states[3])
    assert SharedLog(At(keys), "news", begin([settings()], TOLERANCE)).load()[0].entry == states[3].entry


def test_answers_of_the_store_are_lost(room):
    states = stood(8)
    for loses, is_written in (("answer", True), ("request", False)):
        keys = Keys(Clock())
        log, _ = opened(keys)
        log.write(states[0])
        log.keys.loses = [loses]
        try:
            log.write(states[1])
            assert is_written
        except Away:
            assert not is_written
        log.write(states[2])
        found, _ = SharedLog(At(keys), "news", begin([settings()], TOLERANCE)).load()
        assert found.entry == states[2].entry and log.number == (3 if is_written else 2)


def test_a_change_that_is_made_late_is_seen(room):
    keys, late = Keys(Clock()), []
    states = stood(8)
    log, _ = opened(keys)
    log.write(states[0])
    log.keys.later = lambda _, do, *what: late.append((do, what))
    log.keys.loses = ["late"]
    try:
        log.write(states[1])
        raise AssertionError("no answer came")
    except Away:
        pass
    for do, what in late:
        do(*what)
    try:
        log.write(states[2])
        raise AssertionError("the store has a line that its writer has given up")
    except Outrun:
        pass
    assert log.load()[0].entry == states[1].entry


def test_keys_of_any_bytes(room):
    from adsplice_plant.etcd import coded, pair_of
    for key in ("/adsplice/files/news/\udcff.json", "/adsplice/files/news/ü.json"):
        assert pair_of({"key": coded(key), "value": coded(b"x")}) == Pair(key, b"x")


def test_lines_that_are_no_lines(room):
    for value, why in ((b"x", "cut off"), (b"{}", "no whole state"), (b'{"format":4,"name":"news","line":0}', "of a newer feed"),
                       (b'{"format":3,"name":"other","line":0,"n":1}', "of the programme other"), (b"\x78\x9c", "isn't a line|cut off"),
                       (zlib.compress(b"{" + b" " * (65 << 20)), "over"), (b'{"line":1,"n":2}', "no whole state")):
        keys = Keys(Clock())
        keys.change([], [Put(line_key("news", 5), value)])
        try:
            SharedLog(At(keys), "news", begin([settings()], TOLERANCE)).load()
            raise AssertionError(value[:40])
        except Foreign as fault:
            assert re.search(why, str(fault)), (value[:40], str(fault))
    keys = Keys(Clock())
    keys.change([], [Put(log_prefix("news") + "else", b"{}")])
    try:
        SharedLog(At(keys), "news", begin([settings()], TOLERANCE)).load()
        raise AssertionError("a key of somebody else")
    except Foreign:
        pass


def replica(keys, clock, machine="m0"):
    """A programme on one machine, which has read the store."""
    found = Replica(At(keys), "news", machine, begin([settings()], TOLERANCE), ["news"], lambda: f"life {clock.now}", clock)
    return found


def test_a_store_that_was_put_back_goes_on_from_what_a_machine_knows(room):
    clock = Clock()
    keys, states = Keys(clock), stood(12)
    one = replica(keys, clock)
    keys.change([], [Put(lead_key("news"), b"m0/a")])
    one.lead(keys.revision)
    first = one.load(states[3])
    assert first.life == "life 0.0" and first.entry == states[3].entry, "a new store begins with what the machine knows"
    one.write(first)
    backup = dict(keys.pairs)
    for it in states[4:]:
        one.write(dataclasses.replace(it, life=first.life))
    newest = dataclasses.replace(states[-1], life=first.life)
    keys.pairs = dict(backup)
    clock.now = 5.0
    again = replica(keys, clock)
    keys.change([], [Put(lead_key("news"), b"m0/b")])
    again.lead(keys.revision)
    found = again.load(newest)
    assert (found.entry, found.life) == (newest.entry, "life 5.0"), "what viewers have isn't given again under other numbers"
    again.write(found)
    late = replica(keys, clock, "m1")
    keys.pairs, there = dict(backup), keys.pairs
    assert late.load(newest) is newest, "a machine that doesn't lead waits for the one that does"
    keys.pairs = there
    other = late.load(newest)
    assert other.life == "life 5.0" and other.renditions["news"].controller == Controller(), "the controllers of another machine are looked at anew"


def test_a_replica_that_has_not_read_the_log_is_behind(room):
    clock = Clock()
    it = replica(Keys(clock), clock)
    assert it.behind() == float("inf"), "viewers aren't to come before it has what the others have"
    it.load(stood(1)[0])
    assert it.behind() == 0.0
    it.follow()
    assert it.behind() == 0.0
    clock.now += 6.0
    assert it.behind() == 6.0
    it.load(stood(1)[0])
    it.take(Pair(line_key("news", 1), b"{}"))
    clock.now += 3.0
    assert it.behind() == 3.0


def test_a_line_that_comes_while_the_log_is_read_is_taken_once(room):
    clock = Clock()
    keys, states = Keys(clock), [dataclasses.replace(it, life="x") for it in stood(8)]
    log, _ = opened(keys)
    for it in states:
        log.write(it)
    one = replica(keys, clock)
    own = following.step(one.load(states[3]), Began(), 0.0, 0)[0]
    one.take(keys.pairs[line_key("news", len(states))])  # (the watch tells it, too)
    assert own.is_behind and own.entry < states[-1].entry
    while (given := one.next()) is not None:
        own = following.step(own, given, 0.0, 0)[0]
    assert own.entry == states[-1].entry and not own.is_behind, "a channel without a list is filled"
    assert not following.led(dataclasses.replace(own, is_behind=True)).is_behind, "the machine that leads lacks nothing"


def test_how_long_a_machine_is_behind_is_known_while_lines_come(room):
    clock = Clock()
    it = replica(Keys(clock), clock)
    it.load(stood(1)[0])
    is_over = threading.Event()

    def come_and_go():
        while not is_over.is_set():
            it.take(Pair(line_key("news", 1), b"{}"))
            it.lines.popleft()

    others = [threading.Thread(target=come_and_go) for _ in range(2)]
    interval = sys.getswitchinterval()
    sys.setswitchinterval(1e-6)
    try:
        for one in others:
            one.start()
        for _ in range(200_000):
            it.behind()
    finally:
        is_over.set()
        for one in others:
            one.join()
        sys.setswitchinterval(interval)


def sharing(room):
    """A store, two machines, and the folders of decisions that they share."""
    clock = Clock()
    keys = Keys(clock)
    machines, folders = [replica(keys, clock, name) for name in ("m1", "m2")], []
    for name, it in zip(("m1", "m2"), machines):
        os.makedirs(f"{room.path}/{name}")
        folders.append(SharedFolder(DecisionFolder("news", Path(room.path) / name, 7, lambda *_: None), it))
    return keys, *machines, folders


def test_decision_files_of_all_machines(room):
    keys, one, two, folders = sharing(room)
    room.write("m2/b1.json", decided(("b1", 1)))
    two.read_files()
    folders[1].look()
    one.read_files()
    assert [*folders[0].read().files] == ["b1.json"] and folders[0].read().files["b1.json"][1] == decided(("b1", 1)).encode()
    keys.change([], [Put(lead_key("news"), b"m1/a")])
    one.leads = keys.revision
    folders[0].finish("b1.json")
    folders[0].look()
    assert not folders[0].read().files
    two.read_files()
    folders[1].look()
    assert os.path.exists(f"{room.path}/m2/done/b1.json") and not os.path.exists(f"{room.path}/m2/b1.json"), "where it was written it is moved away"
    room.write("m2/b2.json", decided(("b2", 1)))
    folders[1].look()
    os.unlink(f"{room.path}/m2/b2.json")
    folders[1].look()
    one.read_files()
    assert not folders[0].read().files, "one that is removed is taken out"


def test_a_store_that_was_put_back_has_the_decision_files_of_the_folder(room):
    keys, one, two, folders = sharing(room)
    path = room.write("m2/b3.json", decided(("b3", 1)))
    folders[1].look()
    backup = dict(keys.pairs)
    room.write("m2/b0.json", decided(("b0", 1)))
    folders[1].look()
    os.unlink(path)
    keys.pairs = backup
    two.read_files()
    folders[1].forget()
    folders[1].look()
    one.read_files()
    assert [*folders[0].read().files] == ["b0.json"]


def test_a_decision_file_that_is_too_large_for_the_store_is_told(room):
    _, one, _, folders = sharing(room)
    said = []
    folders[1].own.say = lambda *what: said.append(what)
    with open(f"{room.path}/m2/b4.json", "wb") as it:
        it.write(b'{"breaks":[{"id":"b4","ads":[]}],"x":"' + os.urandom(1_600_000).hex().encode() + b'"}')
    folders[1].look()
    one.read_files()
    assert not folders[0].read().files and [it[2] for it in said] == ["Passed"] and "larger than the store takes" in said[0][3], said
    room.write("m2/b5.json", decided(("b5", 1)))
    folders[1].look()
    one.read_files()
    assert [*folders[0].read().files] == ["b5.json"], "it keeps no other file away"


def test_a_question_is_asked_by_one_machine_and_again_once_that_is_gone(room):
    clock = Clock()
    keys = Keys(clock)
    one, two = replica(keys, clock, "m1"), replica(keys, clock, "m2")
    for it in (one, two):
        keys.change([], [Put(FEEDS + it.me, b"")])
    assert one.may_ask("b3", 5) and not two.may_ask("b3", 5) and two.may_ask("b3", 6)
    assert one.may_ask("b3", 5), "the machine that asked has the lead again"
    keys.change([], [Delete(FEEDS + one.me)])
    assert two.may_ask("b3", 5) and not one.may_ask("b3", 5), "it was open when the machine that asked went"
    two.finish_question("b3")
    keys.change([], [Delete(FEEDS + two.me)])
    assert not one.may_ask("b3", 5) and not two.may_ask("b3", 5), "it is over"
    two.finish_question("b9")


class Naming:
    """A machine that names the renditions of a programme, by the store that it reaches (`at`). `kept`: the names that it has in a file."""

    def __init__(self, keys, folder, kept=None):
        self.at, self.begun, self.folder = At(keys), [], folder
        path = folder / "film.renditions"
        renditions.save(path, kept or {})
        programme = ladder_of("film", {"origin": MASTER, "at": "http://127.0.0.1:1", "master": f"{folder}/viewers.m3u8", "viewers": "http://v"})[0]
        feeds = masters.Feeds(lambda channels: self.begun.append({it.name: it.base.partition("?")[0] for it in channels}), None, lambda *_: None)
        self.programme = masters.Programme(programme, Client(1), lambda _: None, feeds, SharedNames(self.at, "film", renditions.FileNames(path)))

    def take(self, *uris):
        """Takes in a master playlist of renditions at these URIs; answers what is written for viewers."""
        text = "#EXTM3U\n" + "".join(f"#EXT-X-STREAM-INF:BANDWIDTH={place + 1}\n{uri}\n" for place, uri in enumerate(uris))
        self.programme.take(masters.read(text.encode(), MASTER), 0.0)
        return [it for it in (self.folder / "viewers.m3u8").read_text().splitlines() if it.startswith("http")]


def machines_of(room, keys, *kept):
    """Machines that have these names in their files."""
    found = []
    for place, names in enumerate(kept):
        folder = Path(room.path) / f"{len(os.listdir(room.path))}-m{place}"
        folder.mkdir()
        found.append(Naming(keys, folder, names))
    return found


def test_all_machines_take_the_names_of_renditions_that_one_gave(room):
    keys = Keys(Clock())
    one, two, late = machines_of(room, keys, None, {"x.m3u8": "7"}, None)
    shown = one.take("v.m3u8?t=1", "a.m3u8", "s.m3u8")
    assert sorted(two.take("s.m3u8", "v.m3u8?t=2", "a.m3u8")) == sorted(shown) and two.begun == one.begun, "the order of a machine's first read says nothing"
    assert late.take("a.m3u8", "n.m3u8", "v.m3u8") == ["http://v/channels/film-2/live.m3u8", "http://v/channels/film-4/live.m3u8", "http://v/channels/film-1/live.m3u8"], "a new one is named by the first that reads it"
    assert renditions.load(two.folder / "film.renditions") == {"v.m3u8": "1", "a.m3u8": "2", "s.m3u8": "3"}, "the file has what the store has"


def test_names_that_a_machine_kept_before_it_had_a_store_stay(room):
    keys = Keys(Clock())
    one, two = machines_of(room, keys, {"v.m3u8": "2", "a.m3u8": "1"}, {"v.m3u8": "1", "a.m3u8": "2"})
    assert one.take("v.m3u8", "a.m3u8") == two.take("v.m3u8", "a.m3u8") == ["http://v/channels/film-2/live.m3u8", "http://v/channels/film-1/live.m3u8"]


def test_machines_that_name_renditions_at_once_agree(room):
    for lost in ("", "answer", "request"):
        keys = Keys(Clock())
        one, two = machines_of(room, keys, None, None)
        change, one.at.loses = one.at.change, [lost]

        def change_second(compared_with, changes):
            """The other machine comes between what was read and what is written."""
            one.at.change = change
            two.take("a.m3u8", "v.m3u8")
            return change(compared_with, changes)
        one.at.change = change_second
        try:
            shown = one.take("v.m3u8", "a.m3u8")
        except Away:
            shown = one.take("v.m3u8", "a.m3u8")  # (the next look)
        assert shown == two.take("v.m3u8", "a.m3u8") and one.begun == two.begun, lost


def test_nothing_is_named_while_the_store_is_away_or_is_not_ours(room):
    keys = Keys(Clock())
    (one,) = machines_of(room, keys, None)
    one.at.is_cut_off = True
    for fault in (Away, Foreign):
        try:
            one.take("v.m3u8", "a.m3u8")
            raise AssertionError("it named renditions")
        except fault:
            assert not one.begun
        one.at.is_cut_off = False
        keys.change([], [Put(names_key("film"), b"{[")])
