"""Tests of settings that are read anew while the feed goes on, and of a disk that doesn't keep its state."""
import os
import re
import signal
import sys
import time
from pathlib import Path

from of_starts import BASE, asked_of, section
from tools import PLANT, FakeController, decided, listed, until

sys.path.insert(0, PLANT)

NEEDS = ("httpx",)
READ = "feed settings - -: .*feed.ini is read: "


class Fed:
    """A feed by a file of sections, which are written anew; it keeps in the room's folder."""

    def __init__(self, room, *sections):
        self.room, self.controller = room, room.server(FakeController())
        self.path = self.write(*sections)
        self.feed = room.feed("--config", self.path, "--timeout", "2", "--longest-pause", "1")

    def write(self, *sections):
        """The file has these sections from now on; its path."""
        return self.room.write("feed.ini", f"[DEFAULT]\nat = {self.controller.url}\nkeep = {self.room.path}/kept\n{BASE}{''.join(sections)}")

    def read(self, *sections):
        """The feed reads the file anew, once it has these sections; the place after the line that says what that meant."""
        after = len(self.feed.lines)
        self.write(*sections)
        self.feed.process.send_signal(signal.SIGHUP)
        return self.feed.sees(READ, 20, after)

    def takes(self, name, after=0):
        """Waits until the list of the channel is taken."""
        return self.feed.sees(f" {name} adsplice 204 -: the playlist is taken", 20, after)

    def said(self, place):
        """What the line before the `place` says after the file's name."""
        return re.search(f"{READ}(.*)", self.feed.lines[place - 1])[1]


def test_sections_begin_change_and_end_while_the_others_go_on(room):
    a, b, c = (section(room, name, listed(0, 5)) for name in "abc")
    it = Fed(room, a, b)
    for name in "ab":
        it.takes(name)
    before = len(it.feed.lines)
    place = it.read(a, section(room, "b", decisions=f"{room.path}/b"), c)
    assert it.said(place) == "begins c; changes b; 1 of its sections go on as they were", it.feed.lines
    for name in "bc":
        it.takes(name, before)
    assert asked_of(it.controller, "a") == 3, it.controller.asked  # (it is made, given its list, and looked at: once)
    room.write("b/one.json", decided(("b1", 1)))
    it.feed.sees(" b decisions/one.json 204 -: decides b1")
    place = it.read(a, c)
    assert it.said(place) == "ends b; 2 of its sections go on as they were", it.feed.lines
    asked = asked_of(it.controller, "b")
    for name in "abc":
        section(room, name, listed(1, 6))
    until(lambda: sum(b"s6.ts" in one for one in it.controller.puts("origin")) == 2, 10, "the next lists")
    assert asked_of(it.controller, "b") == asked and asked_of(it.controller, "a") >= 4
    assert it.feed.end(signal.SIGTERM) == 0


def test_numbers_of_a_channel_go_on_when_its_section_changes(room):
    it = Fed(room, section(room, "news", listed(30, 35)))
    it.takes("news")
    section(room, "news", listed(0, 5, name="t"))  # (its packager begins again)
    until(lambda: b"t5.ts" in it.controller.puts("origin")[-1], 20, "the new list")
    place = it.read(section(room, "news", decisions=f"{room.path}/d"))
    assert "changes news" in it.said(place)
    section(room, "news", listed(1, 6, name="t"))
    text = until(lambda: next((one.decode() for one in it.controller.puts("origin") if b"t6.ts" in one), None), 20, "the next list")
    assert int(re.search(r"MEDIA-SEQUENCE:(\d+)", text)[1]) + text.count("#EXTINF") - 1 == 42, text
    assert not any("Held" in line for line in it.feed.lines[place:]), it.feed.lines


def test_a_file_or_a_section_that_is_wrong_changes_nothing(room):
    a, b = (section(room, name, listed(0, 5)) for name in "ab")
    it = Fed(room, a, b)
    for name in "ab":
        it.takes(name)
    after = len(it.feed.lines)
    room.write("feed.ini", "no section")
    it.feed.process.send_signal(signal.SIGHUP)
    it.feed.sees("feed settings - Wrong: .*feed.ini: File contains no section headers.*; goes on as it was", 20, after)
    os.remove(it.path)
    it.feed.process.send_signal(signal.SIGHUP)
    it.feed.sees("feed settings - Wrong: .*feed.ini: No such file or directory; goes on as it was", 20, after)
    room.write("file", "where a folder is to be")
    place = it.read(section(room, "a", target="x"), section(room, "b", decisions=f"{room.path}/file/b"), section(room, "c", target="x"))
    for name, text in (("a", "target is a whole number .*; goes on as it was"), ("b", "decisions: .*Not a directory; goes on as it was"), ("c", "target is .*; goes on without it")):
        it.feed.sees(f" {name} settings - Wrong: .*{text}$", 20, after)
    assert it.said(place) == "2 of its sections go on as they were"
    for name in "ab":
        section(room, name, listed(1, 6))
    until(lambda: sum(b"s6.ts" in one for one in it.controller.puts("origin")) == 2, 10, "the next lists")


def test_a_section_begins_that_has_the_folder_of_one_that_goes_on_though_it_is_wrong(room):
    folder = f"{room.path}/d"
    it = Fed(room, section(room, "a", listed(0, 5), decisions=folder))
    it.takes("a")
    it.read(section(room, "a", target="x", decisions=folder), section(room, "b", listed(0, 5), decisions=folder))
    it.feed.sees(" b settings - Wrong: .*two channels have the folder of decisions .*; goes on without it")
    assert asked_of(it.controller, "b") == 0


def test_a_state_that_cannot_be_kept_gives_nothing_until_it_can(room):
    it = Fed(room, section(room, "news", listed(0, 5), decisions=f"{room.path}/d"))
    it.takes("news")
    os.rename(f"{room.path}/kept/news.log", f"{room.path}/kept/aside")
    os.makedirs(f"{room.path}/kept/news.log/in-the-way")
    for newest in (6, 7):
        section(room, "news", listed(newest - 5, newest))
        time.sleep(0.5)
    room.write("d/one.json", decided(("b1", 1)))
    after = it.feed.sees(" news log - Unkept: .*; gives nothing until it can be kept; viewers keep the last playlist")
    time.sleep(2)
    assert len(it.controller.puts("origin")) == 1 and not it.controller.puts("decisions"), it.controller.asked
    assert sum(" log - Unkept" in line for line in it.feed.lines) == 1 and time.time() - os.stat(f"{room.path}/kept/news.beat").st_mtime < 3
    os.rmdir(f"{room.path}/kept/news.log/in-the-way")
    os.rmdir(f"{room.path}/kept/news.log")
    it.feed.sees(" news log - -: it is kept again", 20, after)
    until(lambda: b"s7.ts" in it.controller.puts("origin")[-1], 10, "the newest list")
    it.feed.sees(" news decisions/one.json 204 -: decides b1")
    assert Path(room.path, "kept", "news.log").is_file()
    assert it.feed.end(signal.SIGTERM) == 0


def test_a_fault_of_the_programme_is_told_and_it_begins_anew(room):
    from adsplice_plant import programme
    from adsplice_plant.events import ListRead
    from adsplice_plant.fed import Limits
    from adsplice_plant.kept import Kept
    from adsplice_plant.settings import settings_of
    from adsplice_plant.shell import Feeding, store_of
    controller, lines, faults = room.server(FakeController()), [], [ZeroDivisionError("a fault"), ZeroDivisionError("a fault"), MemoryError()]
    said = settings_of("news", {"origin": room.write("i.m3u8", listed(0, 5)), "at": controller.url, "base": "http://h/i.m3u8", "keep": room.path})

    def step(state, event, at, clock):
        if faults and isinstance(event, ListRead):
            raise faults.pop(0)
        return programme.step(state, event, at, clock)

    it = Feeding([said], Limits(2, 0.2, 7), lines.append, store_of([said]), step)
    it.start()
    until(lambda: controller.puts("origin"), 20)
    it.end()
    assert it.join(time.monotonic() + 5)
    told = [line for line in lines if " feed - " in line]
    assert len(told) == 2 and re.search(r"news feed - ZeroDivisionError shell\.py:\d+: a fault; begins anew with growing pauses", told[0]) and "MemoryError" in told[1], told
    kept = Kept(Path(room.path, "news.events"))
    kept.follow()
    assert kept.restarts == 3
