"""Tests of what feeds before this one kept: their files become a state, with which no number is contradicted."""
import dataclasses
import sys
from pathlib import Path

from of_lists import Rules
from of_numbers import with_breaks
from of_store import fresh, is_kept, settings_of, taken
from tools import PLANT

sys.path.insert(0, PLANT)
from adsplice_plant import earlier  # noqa: E402
from adsplice_plant.breaks import TOLERANCE  # noqa: E402
from adsplice_plant.repair import Choices  # noqa: E402
from adsplice_plant.state import Controller, FileState, begin  # noqa: E402
from adsplice_plant.store import FolderStore  # noqa: E402

NEEDS = ()


def earlier_files(folder, *names):
    """Puts files of earlier feeds into the `folder`."""
    for name in names:
        Path(folder, name).write_bytes(Path(PLANT, "tests", "earlier", name).read_bytes())


def ahead_of(text, ahead):
    """The list `text` with numbers that are greater by `ahead`, as its controller is given it."""
    return earlier.renumbered(text, (-ahead[0], -ahead[1]))


def numbers_of(repairer, ahead=(0, 0)):
    """The numbers of a repairer's segments with what they are ahead, by the URIs."""
    return {it.uri: (it.number + ahead[0], it.discontinuity + ahead[1]) for it in repairer.past + repairer.last}


def test_files_of_an_earlier_feed_become_a_state(room):
    # (adsplice was started anew after a's first break, whose pod had two segments fewer: the media numbers of a are two less since then)
    names = ("news-a.numbers", "news-b.numbers", "news.signals")
    earlier_files(room.path, *names)
    found = FolderStore(Path(room.path), "news").load(fresh("a", "b"))
    said = "an earlier feed wrote it; it is read, and from now on news.log has the"
    assert [(it.channel, it.who, it.fault, it.text) for it in found.told] == [(channel, who, "Converted", f"{room.path}/{name}: {said} {who}")
                                                                              for channel, who, name in zip(("news-a", "news-b", ""), ("numbers", "numbers", "signals"), names)]
    state, texts = found.state, {}
    assert state.entry == 1 and state.over == ("b3",) and [it.ids for it in state.decisions] == [(), ("b26",)]
    for channel, it in state.renditions.items():
        was = earlier.load(Path(room.path, f"{channel}.numbers"), it.stands.repairer.choices)
        assert it.controller == Controller(decided=1, took=31, ahead=(-2, 2) if channel == "news-a" else (0, 0)), it.controller
        assert numbers_of(it.stands.repairer, it.controller.ahead) == numbers_of(was.repairer), "its controller goes on with the numbers that it was given"
        assert ahead_of(it.stands.text, it.controller.ahead) == was.text and b"SEQUENCE:26\n" in it.stands.text
        assert {number + it.controller.ahead[0]: one for number, one in it.stands.viewed.begins.items()} == was.viewed.begins and it.stands.viewed.end == (28, 4)
        assert it.stands.viewed.reckoned.newest == 31 and it.listed == {"b26"} and it.stands.pods == was.pods
        texts[channel] = was.text
    assert len({tuple(numbers_of(it.stands.repairer).items()) for it in state.renditions.values()}) == 1, "the log's numbers are equal at equal instants"
    assert {name: it[:3] for name, it in state.translator.done.items()} == {"a": (31, "s31.ts", state.renditions["news-a"].stands.repairer.last[-1].begins), "b": (31, "s31.ts", state.renditions["news-b"].stands.repairer.last[-1].begins)}
    assert {name: it.state.value for name, it in state.files.items()} == {"b24.json": "given", "bad.json": "refused", "b99.json": "given"}, "that of b99 is taken back if it isn't there"
    for channel in state.renditions:
        rules = Rules()
        rules.push(texts[channel])
        for newest in (32, 33, 36):
            state = taken(state, channel, with_breaks(newest - 5, newest, [(26, 5), (33, 4)]), 2.0 * newest)
            it = state.renditions[channel]
            rules.push(ahead_of(it.stands.text, it.controller.ahead))
        assert it.stands.viewed.end == (32, 5) and rules.last.segments[-1].number == (34 if channel == "news-a" else 36), (it.stands.viewed.end, rules.last.segments[-1])
    FolderStore(Path(room.path), "news").write(state)
    is_kept(Path(room.path), state, "a", "b")
    assert all(Path(room.path, name).read_bytes() == Path(PLANT, "tests", "earlier", name).read_bytes() for name in names), "an older feed may be put back"


def test_discontinuity_numbers_of_the_log_are_not_below_0(room):
    it = earlier.load(Path(PLANT, "tests", "earlier", "news-a.numbers"), Choices())  # (its segments 24 to 31 have the discontinuity number 2)
    assert [earlier.steps_ahead(it, theirs, -2) for theirs in ({}, {31: 0}, {31: 2, 30: 9}, {31: 1}, {31: -5}, {9: 1})] == [0, 2, 0, 1, 2, 0]


def test_numbers_of_a_text_are_put_back(room):
    for text, ahead, owed in ((b"#EXTM3U\n#EXT-X-MEDIA-SEQUENCE:9\ns.ts\n", (7, 0), b"#EXTM3U\n#EXT-X-MEDIA-SEQUENCE:2\ns.ts\n"),
                              (b"#EXTM3U\ns.ts\n", (-7, -1), b"#EXTM3U\n#EXT-X-DISCONTINUITY-SEQUENCE:1\n#EXT-X-MEDIA-SEQUENCE:7\ns.ts\n"),
                              (b"#EXTM3U\n#EXT-X-DISCONTINUITY-SEQUENCE:12\n#EXT-X-MEDIA-SEQUENCE:x\n", (3, -30), b"#EXTM3U\n#EXT-X-DISCONTINUITY-SEQUENCE:42\n#EXT-X-MEDIA-SEQUENCE:x\n")):
        assert earlier.renumbered(text, ahead) == owed, (text, earlier.renumbered(text, ahead))


def test_a_decision_file_of_an_earlier_feed_is_given_again_if_its_break_has_not_begun(room):
    earlier_files(room.path, "news-a.numbers")
    for name in ("b24.json", "b99.json", "bad.json"):
        Path(room.path, name).write_bytes(b"")
    state = begin([dataclasses.replace(settings_of("a")[0], decisions=Path(room.path))], TOLERANCE)
    found = FolderStore(Path(room.path), "news").load(state).state
    assert {name: it.state.value for name, it in found.files.items()} == {"b24.json": "given", "bad.json": "refused", "b99.json": "new"}


def test_an_older_file_of_numbers_becomes_a_state(room):
    # (its viewers had a pod of three segments for the five from s12 on, so s23 has the media number 21, and two discontinuities came before it)
    Path(room.path, "news.numbers").write_bytes(Path(PLANT, "tests", "older.numbers").read_bytes())
    found = FolderStore(Path(room.path), "news").load(fresh())
    assert [(it.who, it.fault) for it in found.told] == [("numbers", "Converted")], found.told
    one = found.state.renditions["news"]
    assert numbers_of(one.stands.repairer) == {f"s{n}.ts": (n, 0) for n in range(18, 24)} and one.controller.ahead == (0, 0) and one.stands.viewed.reckoned is None
    assert one.stands.viewed.begins == {18: (16, 2), 19: (17, 2), 20: (18, 2), 21: (19, 2), 22: (20, 2)} and one.stands.pods.fallback is None and not one.listed
    body = with_breaks(19, 24, []).replace(b"#EXT-X-PROGRAM", b'#EXT-X-KEY:METHOD=AES-128,URI="http://k.example/1"\n#EXT-X-PROGRAM', 1)
    assert taken(found.state, "news", body, 50.0).renditions["news"].stands.text == body, "a key without IV has the segment's number"
    FolderStore(Path(room.path), "news").write(found.state)
    is_kept(Path(room.path), found.state)


def test_broken_files_of_an_earlier_feed_are_told_and_passed_over(room):
    numbers, signals = Path(room.path, "news-a.numbers"), Path(room.path, "news.signals")
    for path, who in ((numbers, "numbers"), (signals, "signals")):
        earlier_files(room.path, "news-a.numbers", "news-b.numbers", "news.signals")
        whole = path.read_bytes()
        for place in range(0, len(whole), 41):
            for body in (whole[:place], whole[:place] + b"9" + whole[place + 1:], whole[:place] + b"\xff\x00" + whole[place + 2:]):
                path.write_bytes(body)
                found = FolderStore(Path(room.path), "news").load(fresh("a", "b"))
                told = [it for it in found.told if it.fault != "Converted"]
                assert all((it.who, it.fault) == (who, "Broken") and it.text.startswith(str(path)) for it in told) and len(told) + sum(it.fault == "Converted" for it in found.told) == 3, found.told
                state = taken(found.state, "news-a", with_breaks(27, 32, []), 64.0)
                FolderStore(Path(f"{room.path}/kept"), "news").write(taken(state, "news-b", with_breaks(27, 32, []), 64.0))
        path.write_bytes(b"{}")
        found = FolderStore(Path(room.path), "news").load(fresh("a", "b"))
        assert [it.text.startswith(str(path)) and "\n" not in it.text for it in found.told if it.fault == "Broken"] == [True], found.told
        assert found.state.renditions["news-b"].stands.repairer.last and bool(found.state.renditions["news-a"].stands.repairer.last) == (who == "signals")


def test_settings_that_keep_no_numbers_or_signals_read_none(room):
    earlier_files(room.path, "news-a.numbers", "news.signals")
    found = FolderStore(Path(room.path), "news").load(begin([dataclasses.replace(settings_of("a")[0], repair=False, signals=False)], TOLERANCE))
    assert not found.told and found.state.entry == 0 and FolderStore(Path(f"{room.path}/none"), "news").load(fresh()).told == ()
