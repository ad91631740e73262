"""Tests of channels that are made anew while the feed goes on, or is killed, too: no media number gets another segment."""
import os
import signal

from of_ladder import Ladder, asked, at_newest
from tools import RulesController, Viewers, decided, listed, until

NEEDS = ("httpx",)
START, PAST = 10, 15  # the segments of the break: START is its first one
CASES = ("fallback", "late", "written", "removed", "meanwhile", "undecided")


def fallback(name):
    """A fallback as long as the break."""
    return decided((name, PAST - START)).replace('{"breaks":[{"id":"%s",' % name, '{"fallback":{')[:-2] + "}"


class Plant:
    """A channel and a ladder of two renditions for each case, in one feed and at one controller, and what their viewers have."""

    def __init__(self, room):
        self.room, self.controller = room, room.server(RulesController())
        self.folders = [(case, folder) for case in CASES for folder in (case, f"{case}2-a", f"{case}2-b")]
        self.viewers = {folder: Viewers() for _, folder in self.folders}
        for case, folder in self.folders:
            os.makedirs(f"{room.path}/{folder}/decisions")
            if case not in ("late", "undecided"):
                self.write(folder, "f.json", fallback("old"))
            if case not in ("fallback", "undecided"):
                self.write(folder, "decisions/b1.json", decided(("b1", PAST - START)))
        self.push(6)
        self.config = room.write("feed.ini", self.sections())
        self.feed = room.feed("--config", self.config)

    def write(self, folder, name, text):
        """Writes a file of a channel."""
        self.room.write(f"{folder}/{name}", text)

    def sections(self):
        """The feed's file. A fallback file has to be there at first."""
        found = [f"[DEFAULT]\nat = {self.controller.url}\nkeep = {self.room.path}/kept\n"]
        for case in CASES:
            for name, folder, more in ((case, case, ""), (f"{case}2", f"{case}2-{{}}", "renditions = a b\n")):
                at = f"{self.room.path}/{folder}"
                found.append(f"[{name}]\n{more}origin = {at}/index.m3u8\nbase = http://origin.example/{folder}/index.m3u8\ndecisions = {at}/decisions\n")
                found.append(f"fallback = {at}/f.json\n" if case not in ("late", "undecided") else "")
        return "".join(found)

    def push(self, newest):
        """Writes each channel's list up to the segment `newest`. The date range of the case `late` comes one list after its break's start."""
        for case, folder in self.folders:
            is_listed = newest < PAST + 8 and (case != "late" or newest > START)
            self.write(folder, "index.m3u8", listed(max(0, newest - 7), newest, [("b1", 2 * START, 2 * (PAST - START))] if is_listed else ()))

    def go_on(self, *numbers):
        """Each channel takes the lists up to `numbers`, and its viewers load what is written."""
        for newest in numbers:
            self.push(newest)
            for _, folder in self.folders:
                until(lambda folder=folder, newest=newest: self.newest(folder).endswith(f"/s{newest}.ts"), 60, f"segment {newest} of {folder}")
                self.viewers[folder].see(self.controller.shown(folder))

    def newest(self, folder):
        """The URI of the newest segment that adsplice was given."""
        with self.controller.one_by_one:
            channel = self.controller.edge.channels.get(folder)
        return str(channel.last().segments[-1].uri) if channel and channel.last() else ""

    def fallback(self, folder):
        """What adsplice has for a fallback."""
        with self.controller.one_by_one:
            return repr(self.controller.edge.channels[folder].store.fallback)

    def change(self, cases):
        """What is to be given changes, once the break has begun."""
        for case, folder in [it for it in self.folders if it[0] in cases]:
            if case == "fallback":
                self.write(folder, "f.json", fallback("new"))
            elif case == "removed":
                os.remove(f"{self.room.path}/{folder}/decisions/b1.json")
            else:
                self.write(folder, "decisions/b1.json", decided(("b1", PAST - START)).replace("b1-", "other-"))

    def is_right(self):
        """Each number of the break has what the first list of it had: the fallback of then, the pod of then, or the programme."""
        for case, folder in self.folders:
            name = {"fallback": "old", "late": "", "undecided": ""}.get(case, "b1")
            had, base = self.viewers[folder].had, f"http://origin.example/{folder}"
            for place, number in enumerate(range(START, PAST)):
                assert had[number] == ((f"http://ads.example/{name}-{place}.ts", 1) if name else (f"{base}/s{number}.ts", 0)), (folder, number, had[number])
            assert had[PAST + 3] == (f"{base}/s{PAST + 3}.ts", 2 if name else 0), (folder, had[PAST + 3])


def restarted(room, kills_feed):
    """What is to be given changes within a break, and adsplice is killed; so is the feed, if `kills_feed`."""
    plant = Plant(room)
    plant.go_on(6, 9, 10, 11, 12)
    plant.change(("fallback", "written", "removed"))
    until(lambda: all("/new-0.ts" in plant.fallback(folder) for case, folder in plant.folders if case == "fallback"), 20, "the new fallback")
    plant.go_on(13, 14, 15, 16)
    plant.controller.kill()
    if kills_feed:
        plant.feed.end(signal.SIGKILL)
    plant.change(("meanwhile", "undecided"))
    if kills_feed:
        plant.feed = room.feed("--config", plant.config)
    plant.go_on(17, 18, 19)
    plant.is_right()
    return plant


def test_a_channel_that_is_made_anew_shows_what_its_breaks_began_with(room):
    plant = restarted(room, False)
    assert not any("Unkept" in line or "Broken" in line for line in plant.feed.lines)
    for case in ("meanwhile", "undecided"):
        plant.feed.sees(f"{case} decisions/b1.json 204 Late: b1 has begun, and stays as it is", 1)
        plant.feed.sees(f"{case}2 decisions/b1.json - Late: b1 has begun in a rendition, and stays in all as it is", 1)


def test_a_channel_that_is_made_anew_by_a_new_feed_shows_what_its_breaks_began_with(room):
    restarted(room, True)


def test_ladder_one_that_is_made_anew_has_the_pod_with_which_its_break_began_in_the_others(room):
    controller, breaks = room.server(RulesController()), [("b1", 2 * START, 2 * (PAST - START))]
    ladder = Ladder(room, controller.url, listed(0, 6, breaks), "--keep", f"{room.path}/kept")
    ladder.taken()
    ladder.decide("one", decided(("b1", 2)))
    ladder.feed.sees("news decisions/one.json - -: decides b1 in all renditions")
    ladder.push(listed(3, 11, breaks), ("1", "3"))
    until(lambda: all("b1-1.ts" in controller.shown(f"news-{name}") for name in "13"), 20, "the break in the others")
    for name in "123":
        os.remove(f"{room.path}/{name}/decisions/one.json")
    ladder.feed.sees("Removed: the file was removed from .*; b1 has begun, and keeps its pod in all renditions")
    with controller.one_by_one:
        del controller.edge.channels["news-2"]
    for newest in (11, 14, 16, 18):
        ladder.push(listed(newest - 8, newest, breaks))
        until(lambda newest=newest: all(f"s{newest}.ts" in asked(controller, name, "origin")[-1] for name in "123"), 20, "the lists")
    until(lambda: all("s18.ts" in controller.shown(f"news-{name}") for name in "123"), 20, "the newest segment")
    assert at_newest(controller) == [(15, 2)] * 3 and "b1-1.ts" in controller.shown("news-2"), (at_newest(controller), controller.shown("news-2"))
