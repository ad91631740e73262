"""Tests of what a feed does at its start: one that another feed has a channel of, and sections that are wrong beside right ones."""
import os
import re
import signal
import sys
import time
from pathlib import Path

from tools import FALLBACK, PLANT, FakeController, decided, listed, until

sys.path.insert(0, PLANT)

NEEDS = ("httpx",)
BASE = "base = http://origin.example/ch/index.m3u8\n"


def section(room, name, text=None, **said):
    """A section of the channel `name` whose origin is a file; with the list `text` that is written anew."""
    path = f"{room.path}/{name}.m3u8"
    if text is not None:
        room.write(f"{name}.m3u8", text)
    return f"[{name}]\norigin = {path}\n" + "".join(f"{key} = {value}\n" for key, value in said.items())


def fed(room, name, controller, *sections):
    """A feed by the file `name` with these sections, which keeps in the room's folder."""
    default = f"[DEFAULT]\nat = {controller.url}\nkeep = {room.path}/kept\n{BASE}"
    return room.feed("--config", room.write(name, default + "".join(sections)), "--timeout", "2", "--longest-pause", "1")


def asked_of(controller, name):
    """How many requests came for the channel `name`."""
    with controller.lock:
        return sum(path.split("/")[2] == name for _, path, _ in controller.asked)


# ---- a second feed

def test_a_channel_that_another_feed_has_is_fed_once_that_is_over(room):
    first, second = room.server(FakeController()), room.server(FakeController())
    news = section(room, "news", listed(30, 35))
    one = fed(room, "one.ini", first, news)
    one.sees("news adsplice 204 -: the playlist is taken")
    other = fed(room, "other.ini", second, news, section(room, "sport", listed(0, 5)))
    other.sees(f"news lock - Taken: another feed, process {one.process.pid}, feeds news; this one doesn't, and tries again each second")
    other.sees("sport adsplice 204 -: the playlist is taken")
    section(room, "news", listed(0, 5, name="t"))  # (its packager begins again, which the first feed alone sees)
    until(lambda: b"t5.ts" in first.puts("origin")[-1], 20, "the first feed's list")
    time.sleep(1.5)
    assert asked_of(second, "news") == 0 and sum(" lock - Taken" in line for line in other.lines) == 1, other.lines
    one.end(signal.SIGKILL)
    other.sees("news lock - -: the other feed has let it go; feeds it")
    other.sees("news adsplice 204 -: the playlist is taken")
    until(lambda: any(b"t5.ts" in it for it in second.puts("origin")), 20, "the second feed's list")
    text = next(it.decode() for it in second.puts("origin") if b"t5.ts" in it)
    numbers = int(re.search(r"MEDIA-SEQUENCE:(\d+)", text)[1]) + text.count("#EXTINF") - 1
    assert numbers == 41 and "\n#EXT-X-DISCONTINUITY\n" in text, text  # (it goes on where the first feed was, and not where that was at its start)
    assert other.process.poll() is None and other.end(signal.SIGTERM) == 0


def test_a_programme_of_which_another_feed_has_one_channel_waits_whole(room):
    from adsplice_plant.locks import take_all
    first, second = room.server(FakeController()), room.server(FakeController())
    for name in ("news-1", "news-2", "news-3"):
        room.write(f"{name}.m3u8", listed(0, 5))
    one = fed(room, "one.ini", first, section(room, "news-2"))
    one.sees("news-2 adsplice 204 -: the playlist is taken")
    other = fed(room, "other.ini", second, f"[news]\nrenditions = 1 2 3\norigin = {room.path}/news-{{}}.m3u8\n")
    other.sees(f"news lock - Taken: another feed, process {one.process.pid}, feeds news-2; ")
    time.sleep(1.5)
    assert not second.asked
    for it in take_all([Path(room.path, "kept", "news-1.lock")]):  # (it holds none meanwhile)
        it.release()
    assert one.end(signal.SIGTERM) == 0
    for name in ("news-1", "news-2", "news-3"):
        other.sees(f"{name} adsplice 204 -: the playlist is taken")


def test_a_lock_that_cannot_be_written_keeps_nobody_from_feeding(room):
    controller = room.server(FakeController())
    os.makedirs(f"{room.path}/kept/news.lock")  # (a folder where the file is to be)
    feed = fed(room, "feed.ini", controller, section(room, "news", listed(0, 5)))
    feed.sees("news lock - Unkept: .*/kept/news.lock: Is a directory; nothing keeps another feed from it")
    feed.sees("news adsplice 204 -: the playlist is taken")


# ---- sections that are wrong, and a fallback that is gone

def test_wrong_sections_are_told_and_the_others_are_fed(room):
    controller = room.server(FakeController())
    room.write("file", "where a folder is to be")
    twin = {"decisions": f"{room.path}/decisions"}
    wrong = {
        "a": ("[a]\norigin =\n", "channel a: names no origin"),
        "b": (section(room, "b", target="x"), "channel b: target is a whole number of seconds, and not x"),
        "c": (section(room, "c", falback="x"), "channel c: there is no setting falback"),
        "d": (section(room, "d", decisions=f"{room.path}/file/d"), "channel d: decisions: .*/file/d: Not a directory"),
        "e": (section(room, "e", keep=f"{room.path}/kept3"), "channel e: .*/kept3: File exists"),
        "film": (f"[film]\nrenditions = 1 2\norigin = {room.path}/{{}}.m3u8\ndecisions = {room.path}/file{{}}\n", "channel film-.: decisions: .*file1: File exists"),
        "f": (section(room, "f", decisions=f"{room.path}/../{os.path.basename(room.path)}/decisions"), "two channels have the folder of decisions .*/decisions"),
        "news": (f"[news]\nrenditions = 1 2\norigin = {room.path}/{{}}.m3u8\n", "two channels have the name news-1")}
    for name in ("file1", "kept3"):
        room.write(name, "where a folder is to be")
    right = [section(room, "sport", listed(0, 5), **twin), section(room, "news-1", listed(0, 5)), section(room, "g", listed(0, 5), fallback=f"{room.path}/none.json")]
    feed = fed(room, "feed.ini", controller, *right, *(text for text, _ in wrong.values()))
    for name in ("sport", "news-1", "g"):
        feed.sees(f"{name} adsplice 204 -: the playlist is taken")
    feed.sees(f"g fallback - -: there is no file {room.path}/none.json; goes on without it until it is there")
    for name, (_, owed) in wrong.items():
        feed.sees(f"Z {name} settings - Wrong: .*{owed}.*; goes on without it$")
    assert sum(" Wrong: " in line for line in feed.lines) == len(wrong) and feed.process.poll() is None, feed.lines
    assert not {path.split("/")[2] for _, path, _ in controller.asked} & {"a", "b", "c", "d", "e", "f", "film-1", "film-2", "news-2"}
    status, out, _ = room.run("adsplice-feed", "--check", "--config", f"{room.path}/feed.ini", "--timeout", "2")
    assert status == 1 and all(f"{name} settings wrong: " in out for name in ("a", "b", "c", "f", "news", "g")), out


def test_a_feed_of_wrong_sections_alone_ends(room):
    for text, owed in ((section(room, "b", target="x"), "channel b: target is a whole number"), ("[a]\norigin =\n" + section(room, "b", target="x"), "channel a: names no origin"),
                       (section(room, "d", decisions=f"{room.path}/feed.ini/d"), "channel d: decisions: .*Not a directory"),
                       (section(room, "e", keep=f"{room.path}/feed.ini"), "channel e: .*/feed.ini: File exists")):
        path = room.write("feed.ini", f"[DEFAULT]\nat = http://127.0.0.1:9\n{BASE}{text}")
        status, out, err = room.run("adsplice-feed", "--config", path)
        assert (status, err.count("\n")) == (1, 1) and re.search(owed, err) and "Wrong" not in out, (text, status, out, err)


def test_a_fallback_that_comes_after_the_start_is_given(room):
    controller = room.server(FakeController())
    feed = fed(room, "feed.ini", controller, section(room, "news", listed(0, 5), fallback=f"{room.path}/f.json"))
    feed.sees("news fallback - -: there is no file .*/f.json; goes on without it until it is there")
    after = feed.sees("news adsplice 204 -: the playlist is taken")
    assert not controller.puts("decisions")
    room.write("f.json", FALLBACK)
    feed.sees("news fallback 204 -: ", 10, after)
    assert controller.puts("decisions") == [FALLBACK.encode()] and sum(" fallback - -" in line for line in feed.lines) == 1, feed.lines


def test_a_programme_of_which_one_fallback_is_gone_has_none_until_it_is_there(room):
    controller = room.server(FakeController())
    for name in ("1", "2"):
        room.write(f"{name}.m3u8", listed(0, 5))
    room.write("f-1.json", FALLBACK)
    feed = fed(room, "feed.ini", controller, f"[news]\nrenditions = 1 2\norigin = {room.path}/{{}}.m3u8\nfallback = {room.path}/f-{{}}.json\n")
    feed.sees("news fallback - Missing: news-2 has no fallback file; no rendition has a fallback until all have one")
    for name in ("1", "2"):
        feed.sees(f"news-{name} adsplice 204 -: the playlist is taken")
    assert set(controller.puts("decisions")) <= {b'{"fallback":null}'}, controller.puts("decisions")
    room.write("f-2.json", FALLBACK)
    until(lambda: controller.puts("decisions")[-2:] == [FALLBACK.encode()] * 2, 10, "the fallback of both")


def test_the_monitor_goes_on_without_a_wrong_section(room):
    controller = room.server(FakeController())
    path = room.write("feed.ini", f"[DEFAULT]\nat = {controller.url}\n{BASE}{section(room, 'b', target='x')}{section(room, 'sport')}")
    status, out, err = room.run("adsplice-monitor", "--config", path, "--once")
    assert status == 2 and 'adsplice_channel_up{channel="sport"} 0.0' in out and '"b"' not in out, out
    assert " b: channel b: target is a whole number of seconds, and not x; goes on without it\n" in err and err.count("\n") == 1, err


test_the_monitor_goes_on_without_a_wrong_section.needs = ("httpx", "prometheus_client")


def test_settings_that_harm_each_other_are_refused_in_a_line_each(room):
    film = f"[film]\norigin = {room.path}/m.m3u8\nmaster = {room.path}/film.m3u8\n"
    named, d = film + "renditions = hd sd\n", f"{room.path}/d"
    one, two = (section(room, name, decisions="{}") for name in ("a", "b"))
    os.makedirs(d)
    os.symlink(d, f"{room.path}/link")
    for text, owed in (
            (film + section(room, "film-1"), "two channels have the name film-1: of the master playlist of film and of a section"),
            (section(room, "film-64") + film, "two channels have the name film-64: of a section and of the master playlist of film"),
            (named + section(room, "film-sd"), "two channels have the name film-sd"), (named + section(room, "film-1"), ""), (film + section(room, "film-65"), ""),
            (film + film.replace("[film]", "[other]"), "other writes its master playlist to .*/film.m3u8, which film has, too"),
            (film + section(room, "a", fallback=f"{room.path}/film.m3u8"), "a reads the file .*/film.m3u8, which film writes"),
            (film.replace("film.m3u8", "m.m3u8"), "film writes its master playlist to .*/m.m3u8, which film has, too"),
            (one.format(d) + two.format(d), "two channels have the folder of decisions .*/d"), (one.format(d) + two.format(f"{room.path}/link"), "two channels have the folder of decisions .*/d"),
            (one.format(d) + two.format(f"{d}/done"), "the folder of decisions of b lies in the folder of decisions of a: .*/d/done"),
            (one.format(f"{d}/asked/x") + two.format(d), "the folder of decisions of a lies in the folder of decisions of b: .*/d/asked/x"),
            (one.format(f"{room.path}/kept"), "the folder `keep` is the folder of decisions of a, too: .*/kept"), (one.format(f"{room.path}/kept/d"), "the folder of decisions of a lies in the folder `keep`: .*/kept/d"),
            (section(room, "a", decisions=d, keep=f"{d}/done"), "the folder `keep` lies in the folder of decisions of a: .*/d/done"),
            (film + f"decisions = {room.path}/film-{{}}\n" + one.format(f"{room.path}/film-3"), "two channels have the folder of decisions .*/film-3"),
            (one.format(f"{d}/a") + two.format(f"{d}/b"), ""), (one.format(f"{d}/a") + section(room, "b", keep=d + "/kept"), ""),
            (section(room, "a", tolerance="abc"), "tolerance is a number of seconds of at most 10, and not abc"), (section(room, "a", tolerance="11"), "at most 10, and not 11"),
            (section(room, "a", tolerance="0.25"), ""), ("[a]\norigin = http://h/\u00a0/etc/passwd\n", "channel a: origin has a sign that isn't printed")):
        path = room.write("feed.ini", f"[DEFAULT]\nat = http://127.0.0.1:9\nkeep = {room.path}/kept\n{BASE}{text}")
        faults = read_faults(path)
        assert [bool(re.search(owed, it)) for it in faults] == [True] * bool(owed), (text, owed, faults)


def read_faults(path):
    """What is wrong with the sections of a file."""
    from adsplice_plant.config_file import read_file
    from adsplice_plant.words import Fault
    found = []
    try:
        read_file(Path(path), found)
    except Fault as fault:
        return [str(fault)]
    return [text for _, text in found]


def test_files_are_known_at_the_begin_however_often_they_were_looked_at_before(room):
    from adsplice_plant.events import Began
    from adsplice_plant.fed import Limits
    from adsplice_plant.settings import settings_of
    from adsplice_plant.shell import Feeding
    room.write("d/b1.json", decided(("b1", 1)))
    said = {"origin": f"{room.path}/i.m3u8", "base": "http://h/i.m3u8", "at": "http://127.0.0.1:9", "decisions": f"{room.path}/d", "fallback": room.write("f.json", FALLBACK)}
    feeding = Feeding([settings_of("news", said)], Limits(), lambda line: None)
    feeding.inbox.post_first(Began())
    feeding.look()
    feeding.look()  # (as on a machine that was busy for a quarter of a second)
    begin = feeding.inbox.first()
    assert list(begin.folders["news"]) == ["b1.json"] and begin.fallbacks["news"] == FALLBACK.encode(), begin
    room.write("d/b2.json", decided(("b2", 1)))
    feeding.look()
    assert sorted(feeding.inbox.first().folders["news"]) == ["b1.json", "b2.json"] and feeding.inbox.first().fallbacks["news"] == FALLBACK.encode()
