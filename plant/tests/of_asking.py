"""Tests of asking for decisions: with an ad server that is good, slow, dead or wrong, and through a folder."""
import json
import os
import re
import signal
import sys
import threading
import time
from pathlib import Path

from styles import named
from tools import FALLBACK, PLANT, FakeController, FakeServer, Room, decided, free_port, get, instant, until

sys.path.insert(0, PLANT)
from adsplice_plant import journal  # noqa: E402
NEEDS = ("httpx",)
SECOND = 10**9
STYLE = named("dr-time-signal-34")
MODULES = {}


def needs(*names):
    """Says what a test needs."""
    def mark(test):
        test.needs = names
        return test
    return mark


def modules():
    """The modules that need httpx."""
    if not MODULES:
        from adsplice_plant import asking, breaks, events, fed, location, settings, shell
        MODULES.update(asking=asking, breaks=breaks, events=events, fed=fed, location=location, settings=settings, shell=shell)
    return MODULES


class Decider(FakeServer):
    """An ad decision server: answers each question by `answer_to(question)`, (status, text), after `pause` seconds."""

    def __init__(self, answer_to=None, pause=0.0, port=0):
        self.answer_to = answer_to or (lambda question: (200, decided((question["id"], 5))))
        self.pause, self.questions = pause, []
        super().__init__(port)

    @property
    def url(self):
        return f"http://127.0.0.1:{self.port}/decide"

    def answer(self, method, path, body, fields):
        assert (method, fields.get("Content-Type")) == ("POST", "application/json")
        question = json.loads(body)
        self.questions.append(question)
        time.sleep(self.pause)
        status, text = self.answer_to(question)
        return status, {}, text if isinstance(text, bytes) else text.encode()


class Live:
    """The feed of a programme of these `channels` in this process, whose lists are given to it by hand."""

    def __init__(self, room, channels, timeout=2.0):
        self.channels, self.timeout, self.told, self.feed = channels, timeout, [], None
        self.begin()
        room.server(self)

    def begin(self):
        """The feed begins; one that ran ends before."""
        self.close()
        it = modules()
        self.feed = it["shell"].Feeding(self.channels, it["fed"].Limits(self.timeout, 1.0, 7.0), self.told.append, it["shell"].store_of(self.channels))
        self.feed.start()

    def close(self):
        """The feed ends."""
        if self.feed is not None:
            self.feed.end()
            assert self.feed.join(time.monotonic() + 20)

    def read(self, text, channel):
        """The list of the `channel` is `text`."""
        self.feed.inbox.post(modules()["events"].ListRead(channel, text.encode()))

    def has_given(self, text, channels):
        """Whether the list `text` of the `channels` was given."""
        found = [it for name, it in self.feed.state.renditions.items() if name in channels]
        return all(it.came == text.encode() and not it.is_new and it.controller.sent is None and it.controller.listed == it.stands.entry for it in found)

    def give(self, text, *channels):
        """Gives the list `text` to the `channels`; answers the seconds until their controllers have it."""
        begun = time.monotonic()
        for it in channels:
            self.read(text, it)
        until(lambda: self.has_given(text, channels), 30, "the end of the turn")
        return time.monotonic() - begun


class Asking(Live):
    """The feed of one channel that asks, of a ladder if `renditions` are named, and what was told of it. Its folder is the room's."""

    def __init__(self, room, ask, hold=0.4, renditions=("",), timeout=2.0, keep=None):
        self.controller, names = room.server(FakeController()), {it: f"news-{it}" if it else "news" for it in renditions}
        for it in renditions:
            os.makedirs(f"{room.path}/{it}", exist_ok=True)
        super().__init__(room, [modules()["settings"].Settings(name, modules()["location"].LocalFile(Path(room.path, "none.m3u8")), self.controller.url, "http://origin.example/i.m3u8", keep=keep,
                                                                decisions=Path(room.path) / it, programme="news" if it else "", ask=ask, hold=hold) for it, name in names.items()], timeout)

    def give(self, newest, style=STYLE):
        """Gives the list up to this segment; answers the seconds that it took."""
        return super().give(style.listed(newest), *(it.name for it in self.channels))

    def ask(self, *known):
        """Asks for the breaks that are `known`."""
        self.feed.asker.ask(modules()["events"].Ask(known, 2, 0))

    def sees(self, word):
        """Waits for a line that has `word`."""
        return until(lambda: next((it for it in self.told if word in it), None), 40, f"{word} in {self.told}")

    def lines(self):
        """What was told of questions, without the times of day."""
        return [it.split(" ", 1)[1] for it in self.told if " ask/" in it or " ask " in it]


def test_a_break_is_asked_for_once_and_its_list_waits_for_the_answer(room):
    server = room.server(Decider(pause=0.2))
    it = Asking(room, server.url, hold=0.9)
    it.give(11)
    assert not server.questions
    assert 0.2 <= it.give(12)
    until(lambda: os.path.exists(f"{room.path}/1001.json"), 20, "the answer")
    assert server.questions == [{"channel": "news", "id": "1001", "start": instant(24), "planned": 10, "event": 1001, "type": 0x34,
                                 "name": "Provider Placement Opportunity Start", "upid": "000000002CA0A18A", "number": 1, "of": 1, "target": 2, "renditions": [],
                                 "ladder": [{"name": "", "kind": None, "codecs": None, "size": None, "segment": 2, "replaced": 0, "shown": 0, "decided": 0, "cut": 0}]}]
    with open(f"{room.path}/1001.json", encoding="utf-8") as file:
        assert file.read() == json.dumps(json.loads(decided(("1001", 5))))
    for newest in range(13, 20):
        it.give(newest)
    it.close()
    again = Asking(room, server.url)
    again.give(14)
    assert len(server.questions) == 1
    assert [line[:32] for line in it.lines()] == ["news ask/1001 200 -: answered af"] and not again.lines(), it.lines()


def test_a_break_that_was_decided_before_is_not_asked_for(room):
    server = room.server(Decider())
    room.write("any.json", decided(("1001", 5)))
    it = Asking(room, server.url)
    it.give(12)
    assert not server.questions and not it.lines()


def test_a_slow_server_is_waited_for_as_long_as_a_list_may_wait(room):
    server = room.server(Decider(pause=4.0))
    it = Asking(room, server.url, hold=0.9, timeout=20.0)
    assert 0.9 <= it.give(12) < 3.5
    assert it.give(13) < 0.9 and not os.path.exists(f"{room.path}/1001.json")
    it.sees("ask/1001 200 Late: answered after ")
    it.sees("decisions/1001.json 204 ")
    assert os.path.exists(f"{room.path}/1001.json") and len(server.questions) == 1


def test_an_answer_is_late_only_once_its_break_has_begun(room):
    """The break is signalled with the segment before it, so the list that begins it comes later than the question's list would have waited."""
    from dataclasses import replace
    early = replace(STYLE, ranges=tuple(replace(one, shown=11) for one in STYLE.ranges))
    it = Asking(room, room.server(Decider(pause=1.0)).url, hold=0.3, keep=Path(room.path) / "kept")
    it.give(11, early)
    it.sees("ask/1001 200 ")
    it.give(12, early)
    assert b"1001-0.ts" in it.controller.puts("decisions")[-1] and not [line for line in it.told if "Late" in line], it.told


def test_a_list_waits_for_less_than_half_its_target_duration(room):
    it = Asking(room, room.server(Decider(pause=8)).url, hold=60, timeout=10)
    assert 0.8 <= it.give(12) < 7


def test_an_announced_break_holds_no_list(room):
    server = room.server(Decider(pause=1.5))
    it = Asking(room, server.url, hold=0.9, timeout=20.0)
    style = named("dr-announced")
    assert it.give(9, style=style) < 0.9 and until(lambda: server.questions, 10)
    assert it.give(10, style=style) < 0.9
    it.sees(": answered after ")


def test_what_a_server_may_do_wrong_is_one_line_each(room):
    good = decided(("1001", 5))
    cases = {
        "204": ((204, ""), "204 -: no ads, after 0."),
        "404": ((404, "no"), "404 Unanswered: the ad server answers 404, after 0."),
        "302": ((302, ""), "302 Unanswered"),
        "empty": ((200, ""), "200 Wrong: the answer isn't taken: line 1, column 1: the file isn't JSON"),
        "html": ((200, "<html>"), "200 Wrong: the answer isn't taken: line 1, column 1: the file isn't JSON"),
        "deep": ((200, "[" * 100_000), "200 Wrong: the answer isn't taken: the file isn't JSON"),
        "other": ((200, decided(("b9", 5))), "200 Wrong: the answer isn't taken: it decides b9, and not this one"),
        "none": ((200, '{"breaks":[]}'), "200 Wrong: the answer isn't taken: it decides no break, and not this one"),
        "fallback": ((200, '{"fallback":null}'), "200 Wrong: the answer isn't taken: it has no `breaks`"),
        "number": ((200, good.replace('"2"', "2")), "200 Wrong: the answer isn't taken: break 0, ad 0, segment 0: `duration` has to be a string"),
        "twice": ((200, decided(("1001", 5), ("1001", 4))), "200 Wrong: the answer isn't taken: break 1: the `id` \"1001\" came before in this file"),
        "more": ((200, decided(("1001", 5), ("b9", 4))), "200 -: answered after 0."),
        "large": ((200, b"[" + b"1," * 50_000_000 + b"1]"), "- Unanswered: an answer of more than 4194304 bytes"),
    }
    for name, (said, owed) in cases.items():
        with Room(None) as place:
            server = place.server(Decider(lambda question, said=said: said))
            it = Asking(place, server.url, timeout=5.0)
            it.give(12)
            it.sees("ask/1001")
            assert len(it.lines()) == 1 and owed in it.lines()[0], (name, it.lines())
            assert os.path.exists(f"{place.path}/1001.json") == (name == "more"), name
            it.give(13)


def test_a_dead_server_is_tried_again_while_a_list_may_wait(room):
    port = free_port()
    it = Asking(room, f"http://127.0.0.1:{port}/decide", hold=0.8)
    threading.Timer(0.3, lambda: room.server(Decider(port=port))).start()
    assert 0.3 <= it.give(12)
    it.sees("ask/1001 200 -: answered")
    it.close()
    dead = Asking(room, f"http://127.0.0.1:{free_port()}/decide", hold=0.3)
    dead.give(12, style=named("cue-elemental"))
    dead.sees("ask/cue-12 - Unanswered: Connection refused")
    assert len(dead.lines()) == 1


def test_a_server_that_fails_at_first_is_asked_again(room):
    said = [(503, ""), (500, ""), (200, decided(("1001", 5)))]
    server = room.server(Decider(lambda question: said.pop(0)))
    it = Asking(room, server.url, hold=0.9)
    it.give(12)
    assert len(server.questions) == 3 and len(it.lines()) == 1, it.lines()


def test_whoever_watches_the_folder_answers_there(room):
    it = Asking(room, "folder", hold=0.8)

    def watch():
        path = f"{room.path}/asked/1001.json"
        until(lambda: os.path.exists(path), 20)
        with open(path, encoding="utf-8") as file:
            room.write("whatever.json", decided((json.load(file)["id"], 5)))

    threading.Thread(target=watch, daemon=True).start()
    it.give(11)
    it.give(12)
    until(lambda: it.feed.is_decided("1001"), 20, "its decision")
    assert it.lines() == ["news ask/1001 - Asked: asked/1001.json is there; its decision is expected in the folder"]
    it.close()
    silent = Asking(room, "folder", hold=0.9)
    assert 0.9 <= silent.give(12, style=named("cue-elemental")) and silent.give(13, style=named("cue-elemental")) < 0.9


def test_a_programme_is_asked_for_once_and_each_rendition_gets_its_own_uris(room):
    server = room.server(Decider(lambda question: (200, decided((question["id"], 5)).replace("ads.example/", "ads.example/{}/"))))
    it = Asking(room, server.url, renditions=("1080", "720"))
    it.give(12)
    assert len(server.questions) == 1 and server.questions[0]["renditions"] == ["1080", "720"]
    for name in ("1080", "720"):
        with open(f"{room.path}/{name}/1001.json", encoding="utf-8") as file:
            assert f"http://ads.example/{name}/1001-0.ts" in file.read()


MASTER = """#EXTM3U
#EXT-X-MEDIA:TYPE=AUDIO,GROUP-ID="a",NAME="English",URI="en/index.m3u8"
#EXT-X-MEDIA:TYPE=SUBTITLES,GROUP-ID="t",NAME="English",URI="subs/index.m3u8"
#EXT-X-MEDIA:TYPE=AUDIO,GROUP-ID="lone",NAME="Czech",URI="cs/index.m3u8"
#EXT-X-STREAM-INF:BANDWIDTH=5000000,CODECS="avc1.640028,mp4a.40.2",RESOLUTION=1920x1080,AUDIO="a",SUBTITLES="t"
# a comment
hd/index.m3u8
#EXT-X-STREAM-INF:BANDWIDTH=800000,CODECS="hvc1.1.6.L93.B0, ac-3",AUDIO="a"
sd/index.m3u8
#EXT-X-STREAM-INF:BANDWIDTH=64000,CODECS="mp4a.40.5",AUDIO="a"
radio/index.m3u8
#EXT-X-STREAM-INF:BANDWIDTH=900000,RESOLUTION=wide
unknown/index.m3u8
"""


def test_what_a_rendition_is_like_is_known_by_its_master_playlist(room):
    from adsplice_plant.traits import Traits, traits_of
    lines, is_variant = [], False
    for line in MASTER.splitlines():
        uri = re.search('URI="([^"]*)"', line)
        lines.append((line, uri[1] if uri else line if line[0] != "#" else ""))
    assert traits_of(lines) == {
        "en/index.m3u8": Traits("AUDIO", "mp4a.40.2"), "subs/index.m3u8": Traits("SUBTITLES"), "cs/index.m3u8": Traits("AUDIO"),
        "hd/index.m3u8": Traits("VIDEO", "avc1.640028,mp4a.40.2", "1920x1080"), "sd/index.m3u8": Traits("VIDEO", "hvc1.1.6.L93.B0,ac-3"),
        "radio/index.m3u8": Traits("AUDIO", "mp4a.40.5"), "unknown/index.m3u8": Traits()}, traits_of(lines)
    from adsplice_plant import masters
    found = masters.read(MASTER.encode(), "http://origin.example/master.m3u8")
    assert traits_of(found.lines)["hd/index.m3u8"] == Traits("VIDEO", "avc1.640028,mp4a.40.2", "1920x1080")


def test_the_length_of_segments_is_the_usual_one(room):
    from adsplice_plant.packaged import PackagedSegment
    from adsplice_plant.traits import usual_length
    assert [usual_length(PackagedSegment("", 0, duration=it) for it in lengths) for lengths in ((), (4, 2, 4, 2, 4), (3, 5), (2,))] == [0, 4, 5, 2]


def test_a_question_has_what_each_rendition_is_like(room):
    from dataclasses import replace
    from adsplice_plant.traits import Traits
    server = room.server(Decider(lambda question: (204, "")))
    it = Asking(room, server.url, renditions=("hd", "en"))
    it.channels = [replace(it.channels[0], traits=Traits("VIDEO", "avc1.640028", "1920x1080")), replace(it.channels[1], traits=Traits("AUDIO", "mp4a.40.2"))]
    it.begin()
    it.give(12)
    assert server.questions[0]["ladder"] == [{"name": "hd", "kind": "VIDEO", "codecs": "avc1.640028", "size": "1920x1080", "segment": 2, "replaced": 0, "shown": 0, "decided": 0, "cut": 0},
                                             {"name": "en", "kind": "AUDIO", "codecs": "mp4a.40.2", "size": None, "segment": 2, "replaced": 0, "shown": 0, "decided": 0, "cut": 0}]


def long_sound(now):
    """The lists of pictures of 2 s and of sound of 4 s in whole frames at a second of the programme, with breaks of 12 s each 20 s from 12 s on."""
    frames, cues = [0, 188], {**{at: "#EXT-X-CUE-OUT:12\n" for at in (12, 32, 52)}, **{at: "#EXT-X-CUE-IN\n" for at in (24, 44, 64)}}
    cuts = {"v": [(2 * n, 2) for n in range(50)], "a": [((375 * (n // 2) + frames[n % 2]) * 1024 / 48_000, (187 if n % 2 else 188) * 1024 / 48_000) for n in range(25)]}
    found = {}
    for name, its in cuts.items():
        there = [(n, *it) for n, it in enumerate(its) if now - 20 <= it[0] and sum(it) <= now + 0.1]
        lines = [f"{cues.get(at, '') if name == 'v' else ''}#EXT-X-PROGRAM-DATE-TIME:{instant(at)}\n#EXTINF:{lasts:.6f},\n{name}{n}.ts" for n, at, lasts in there]
        found[name] = "\n".join(["#EXTM3U", "#EXT-X-VERSION:6", "#EXT-X-TARGETDURATION:4", f"#EXT-X-MEDIA-SEQUENCE:{there[0][0]}", *lines, ""])
    return found


def test_a_question_says_how_much_of_each_rendition_pods_have_replaced_and_where_it_is_cut(room):
    from adsplice_plant.events import AskedInVain, Began, FallbackRead, ListRead
    from of_slate import Steps
    it = Steps("v", "a", ask="http://127.0.0.1:1/decide", fallback="/nowhere/{}.json", slate=None)
    it.take(Began())
    ads = {name: [{"segments": [{"uri": f"http://ads.example/{n}.ts", "duration": lasts} for n in range(6)]}] for name, lasts in (("v", "2"), ("a", "2.001"))}
    for name in ("v", "a"):
        it.take(FallbackRead(f"news-{name}", json.dumps({"fallback": {"ads": ads[name]}}).encode()))
    for now in range(8, 76, 2):
        for name, text in long_sound(now).items():
            it.take(ListRead(f"news-{name}", text.encode()))
        names = [one.id for asked in it.asked for one in asked.known]
        for one in names[:1]:
            it.take(AskedInVain(one))
        for one in names[1:]:  # (the later ones have pods of their own)
            it.decide(json.dumps({"breaks": [{"id": one, "ads": ads["v"]}]}))
    assert [[one.sums[f"news-{name}"].replaced for name in ("v", "a")] for one in it.asked] == [[0, 0], [12 * 10**9, 11_989_333 * 10**3], [24 * 10**9, 24 * 10**9]], [one.sums for one in it.asked]
    # the fallback's sound is 6 ms longer, and the later pods are decided
    assert [[[one.sums[f"news-{name}"].shown // 10**6, one.sums[f"news-{name}"].decided] for name in ("v", "a")] for one in it.asked] == [[[0, 0], [0, 0]], [[12_000, 0], [12_006, 0]], [[24_000, 1], [24_006, 1]]]
    # sound has come to 12.010667, 32 and 52.010667 s by then
    for asked, owed in zip(it.asked, (10_666_667, 0, 10_666_667), strict=True):
        found = asked.cuts[asked.known[0].id]
        assert found["news-v"] == 0 and abs(found["news-a"] - owed) <= 1_000_000, found


def test_where_a_rendition_is_cut_near_an_instant(room):
    """The list's end counts, for a segment will begin there; what is over half a segment away doesn't."""
    from adsplice_plant.packaged import PackagedSegment
    from adsplice_plant.traits import cut_near
    its = [PackagedSegment("", n, 400, begins=400 * n + 7) for n in range(3)]
    for instant, owed in ((0, 7), (400, 7), (410, -3), (206, -199), (208, 199), (1200, 7), (1207, 0), (1407, -200), (1408, None), (-193, 200), (-194, None)):
        assert cut_near(its, instant) == owed, (instant, cut_near(its, instant))
    assert cut_near([], 5) is cut_near([PackagedSegment("", 0, 400)], 5) is None


def test_subtitles_beside_fragmented_mp4_get_no_initialisation_section(room):
    answer = json.loads(decided(("1001", 5)).replace("ads.example/", "ads.example/{}/"))
    answer["breaks"][0]["ads"][0]["map"] = {"uri": "http://ads.example/{}/init.mp4"}
    server = room.server(Decider(lambda question: (200, json.dumps(answer))))
    it = Asking(room, server.url, renditions=("v", "sub"))
    for newest in (11, 12):
        with_map = STYLE.listed(newest).replace("#EXT-X-MEDIA-SEQUENCE", '#EXT-X-MAP:URI="init.mp4"\n#EXT-X-MEDIA-SEQUENCE')
        it.read(with_map, "news-v")
        it.read(STYLE.listed(newest).replace(".ts", ".vtt"), "news-sub")
        until(lambda text=with_map: it.has_given(text, ["news-v"]), 30, "the list")
    found = {name: json.loads(Path(room.path, name, "1001.json").read_text())["breaks"][0]["ads"][0] for name in ("v", "sub")}
    assert found["v"]["map"] == {"uri": "http://ads.example/v/init.mp4"} and "map" not in found["sub"], found
    assert found["sub"]["segments"][0]["uri"] == "http://ads.example/sub/1001-0.ts"
    texts = {name: [body for method, path, body in it.controller.asked if path == f"/channels/news-{name}/decisions"] for name in ("v", "sub")}
    assert b'"map"' in texts["v"][-1] and b'"map"' not in texts["sub"][-1]


# ---- questions that were open when the feed ended, and full disks

def asked_in(room, name="1001"):
    """The question that is kept."""
    with open(f"{room.path}/asked/{name}.json", encoding="utf-8") as file:
        return json.load(file)


def test_a_question_that_was_open_when_the_feed_ended_is_asked_again_and_answered_once(room):
    server = room.server(Decider(lambda question: (200, decided((question["id"], 5)).replace("ads.example", f"ads{len(server.questions)}.example")), pause=2))
    it = Asking(room, server.url, hold=0.9, timeout=20.0, keep=Path(room.path) / "kept")
    it.give(11)
    it.read(STYLE.listed(12), "news")
    until(lambda: server.questions, 10, "the question")
    it.close()
    assert "answered" not in asked_in(room)
    server.pause = 0.1
    again = Asking(room, server.url, hold=0.9, keep=Path(room.path) / "kept")
    again.give(12)
    until(lambda: os.path.exists(f"{room.path}/1001.json"), 10, "the answer")
    time.sleep(2.2)  # (the first answer has come by then, to nobody)
    with open(f"{room.path}/1001.json", encoding="utf-8") as file:
        assert "ads2.example" in file.read()
    until(lambda: asked_in(room).get("answered") == 200, 20, "the end of the question")
    assert len(server.questions) == 2 and not it.lines()
    assert [line.partition(": ")[0] for line in again.lines()] == ["news ask/1001 - Again", "news ask/1001 200 -"], again.lines()
    again.close()
    third = Asking(room, server.url, keep=Path(room.path) / "kept")
    third.give(13)
    assert len(server.questions) == 2 and not third.lines()


def test_a_question_that_was_answered_without_ads_is_not_asked_again(room):
    server = room.server(Decider(lambda question: (204, "")))
    for number in range(3):
        it = Asking(room, server.url, hold=0.9, keep=Path(room.path) / "kept")
        it.give(12)
        until(lambda: asked_in(room).get("answered") == 204, 20, "the end of the question")
        it.close()
    assert len(server.questions) == 1 and asked_in(room)["answered"] == 204


def test_an_open_question_is_not_asked_again_once_its_break_has_begun(room):
    server = room.server(Decider(pause=1.5))
    it = Asking(room, server.url, hold=0.1, timeout=20.0, keep=Path(room.path) / "kept")
    it.give(12)
    it.close()
    again = Asking(room, server.url, hold=0.1, keep=Path(room.path) / "kept")
    again.give(13)
    time.sleep(0.3)
    assert len(server.questions) == 1 and not again.lines(), again.lines()


def test_who_watches_the_folder_is_waited_for_after_a_new_start(room):
    it = Asking(room, "folder", hold=0.9, keep=Path(room.path) / "kept")
    it.read(STYLE.listed(12), "news")
    until(lambda: os.path.exists(f"{room.path}/asked/1001.json"), 10, "the question")
    it.close()
    again = Asking(room, "folder", hold=0.9, keep=Path(room.path) / "kept")
    again.read(STYLE.listed(12), "news")
    time.sleep(0.3)
    room.write("whatever.json", decided(("1001", 5)))
    until(lambda: again.feed.is_decided("1001") and again.has_given(STYLE.listed(12), ["news"]), 10, "its decision")
    assert not again.lines() and b"1001-0.ts" in again.controller.puts("decisions")[-1]


def test_many_questions_in_the_folder_are_not_too_many_after_a_new_start(room):
    it = Asking(room, "folder", hold=0.1)
    known = [modules()["breaks"].Break(f"b{n}", n * SECOND, n, "splice_insert") for n in range(20)]
    it.ask(*known[:10])
    it.feed.asker.open.clear()
    it.ask(*known[10:])
    it.close()
    again = Asking(room, "folder", hold=0.1)
    again.ask(*known)
    assert not again.lines() and not again.feed.asker.open and len(os.listdir(f"{room.path}/asked")) == 20, again.lines()


def test_a_folder_that_can_not_be_written_loses_no_question(room):
    server = room.server(Decider())
    it = Asking(room, server.url, hold=0.4)
    os.rmdir(room.path)
    it.give(12)
    it.sees("ask/1001 200 Unkept")
    assert len(server.questions) == 1 and [line.partition(": ")[0] for line in it.lines()] == ["news ask/1001 - Unkept", "news ask/1001 200 Unkept"], it.lines()
    os.mkdir(room.path)
    it.sees("ask/1001 200 Late: answered after")
    until(lambda: os.path.exists(f"{room.path}/asked/1001.json") and asked_in(room).get("answered") == 200, 20, "the end of the question")
    assert os.path.exists(f"{room.path}/1001.json") and len(server.questions) == 1


def test_a_question_for_a_folder_waits_until_it_can_be_written(room):
    it = Asking(room, "folder", hold=0.9)
    Path(room.path, "asked").touch()
    it.read(STYLE.listed(12), "news")
    it.sees("ask/1001 - Unkept")
    os.remove(f"{room.path}/asked")
    it.sees("ask/1001 - Asked")
    assert asked_in(room)["id"] == "1001"


def test_a_full_disk_loses_no_question(room):
    import resource
    server, controller = room.server(Decider()), room.server(FakeController())
    room.write("a.m3u8", STYLE.listed(11))
    feed = room.feed("--channel", "news", "--origin", f"{room.path}/a.m3u8", "--at", controller.url, "--base", "http://origin.example/i.m3u8",
                     "--decisions", f"{room.path}/d", "--ask", server.url, "--hold", "0.9")
    feed.sees(" news adsplice 204 -: the playlist is taken")
    hard = resource.prlimit(feed.process.pid, resource.RLIMIT_FSIZE)[1]
    resource.prlimit(feed.process.pid, resource.RLIMIT_FSIZE, (0, hard))  # (a write gets EFBIG, as it gets ENOSPC on a full disk)
    room.write("a.m3u8", STYLE.listed(12))
    feed.sees("ask/1001 - Unkept: .*/d/asked: File too large; asks all the same")
    feed.sees("ask/1001 200 Unkept: .*/d: File too large; the answer waits until it can be written")
    resource.prlimit(feed.process.pid, resource.RLIMIT_FSIZE, (hard, hard))
    feed.sees("ask/1001 200 (-|Late): answered after")
    assert len(server.questions) == 1 and os.path.exists(f"{room.path}/d/1001.json") and not [name for name in os.listdir(f"{room.path}/d") if name.endswith(".new")]
    assert feed.end(signal.SIGTERM) == 0


def test_what_became_of_a_question_is_kept_for_monitor_and_explainer(room):
    from adsplice_plant.kept import Kept
    good = decided(("1001", 5))
    cases = (((200, good), 0, "Answered", None), ((204, ""), 0, "NoAds", "the ad server has no ads for it"), ((404, ""), 0, "Unanswered", "the ad server has given no answer (the ad server answers 404)"),
             ((200, "<html>"), 0, "Wrong", "the ad server's answer isn't taken: line 1, column 1: the file isn't JSON"), ((200, good), 0.8, "Late", "its decision came too late"))
    for said, pause, word, why in cases:
        with Room(None) as place:
            server = place.server(Decider(lambda question, said=said: said, pause=pause))
            it = Asking(place, server.url, hold=0.5, timeout=5.0, keep=Path(place.path) / "kept")
            it.give(12)
            it.sees("ask/1001")
            it.give(13)
            it.close()
            kept = Kept(Path(place.path) / "kept" / "news.events")
            kept.follow()
            assert dict(kept.asked) == {word: 1} and (kept.reasons.get("1001") or "").startswith(why or "") and (why is None) == ("1001" not in kept.reasons), (word, kept.asked, kept.reasons)
            explained = place.run("adsplice-explain", "--kept", f"{place.path}/kept/news.events", "--break", "1001")[1]
            assert why is None or f"since {why.replace('its decision', 'it')}" in explained, (word, explained)


def test_a_break_that_is_one_too_many_has_its_reason(room):
    from adsplice_plant.kept import Kept
    it = Asking(room, "folder", hold=60, keep=Path(room.path) / "kept")
    it.ask(*(modules()["breaks"].Break(f"b{n}", n * SECOND, n, "splice_insert") for n in range(18)))
    it.close()
    kept = Kept(Path(room.path) / "kept" / "news.events")
    kept.follow()
    assert dict(kept.asked) == {"TooMany": 2} and kept.reasons == dict.fromkeys(("b16", "b17"), "it wasn't asked for: 16 questions are open"), (kept.asked, kept.reasons)


def test_ids_become_names_of_files(room):
    name = modules()["asking"].file_name
    assert [name(it) for it in ("break-17", "../a b", ".a.b", "é")] == ["break-17", "..%2Fa%20b".replace("..", "%2E%2E"), "%2Ea%2Eb", "%C3%A9"]
    assert len(name("x" * 255)) == 64


def test_an_id_that_comes_again_is_asked_for_again(room):
    server, later = room.server(Decider()), modules()["breaks"].Break("1001", 24 * SECOND, 12, "splice_insert")
    it = Asking(room, server.url)
    it.give(12)
    os.remove(f"{room.path}/1001.json")
    until(lambda: not it.feed.is_decided("1001"), 5, "the look at the folder")
    it.ask(later)
    until(lambda: len(server.questions) == 2, 2, "the second question")


def test_many_breaks_are_asked_for_in_bounds(room):
    server = room.server(Decider(pause=0.05))
    it = Asking(room, server.url, hold=0.5)
    assert it.feed.asker.client.reach.named == {"127.0.0.1"}, "where the ad server's name leads is judged"
    known = [modules()["breaks"].Break(f"b{n}", n * SECOND, n, "splice_insert") for n in range(1000)]
    it.ask(*known)
    until(lambda: len(server.questions) == 16, 5, "sixteen questions")
    assert "news ask - TooMany: 16 questions are open; b16 isn't asked for" in it.lines()


def test_ever_new_breaks_are_asked_for_in_bounds_of_a_minute(room):
    it, number = Asking(room, "folder", hold=0.1), 0
    asker = it.feed.asker
    for _ in range(6):
        it.ask(*(modules()["breaks"].Break(f"b{number + n}", 0, n, "splice_insert") for n in range(16)))
        number += 16
        time.sleep(0.15)  # (the questions before are over)
    assert len(os.listdir(f"{room.path}/asked")) == 32, "questions within a minute"
    assert [line for line in it.lines() if "TooMany" in line] == ["news ask - TooMany: 32 breaks were asked for within a minute; b32 isn't asked for"], it.lines()
    asker.begun = [moment - 60 for moment in asker.begun]
    it.ask(modules()["breaks"].Break("late", 0, 1, "splice_insert"))
    assert len(os.listdir(f"{room.path}/asked")) == 33


def test_old_questions_cost_next_to_nothing(room):
    it, seen, real, mine = Asking(room, "folder", hold=0.1), [], os.scandir, threading.get_ident()
    os.makedirs(f"{room.path}/asked")
    for n in range(5000):
        Path(room.path, "asked", f"old{n}.json").touch()
    os.utime(f"{room.path}/asked/old7.json", (1, 1))
    try:
        os.scandir = lambda *place: (threading.get_ident() == mine and seen.append(place)) or real(*place)  # (others are tried beside it)
        begun = time.thread_time()
        it.ask(*(modules()["breaks"].Break(f"b{n}", n * SECOND, n, "splice_insert") for n in range(16)))
        assert time.thread_time() - begun < 0.5
    finally:
        os.scandir = real
    names = os.listdir(f"{room.path}/asked")
    assert len(seen) == 1 and len(names) == 4096 + 16 and "old7.json" not in names, (len(seen), len(names))


def test_what_is_kept_on_disk_goes_on(room):
    keep = Path(room.path) / "kept"
    os.makedirs(keep)
    style, it = named("cue-without-duration"), Asking(room, "", keep=keep)
    for newest in range(2, 31, 3):
        it.give(newest, style)
        text = it.controller.puts("origin")[-1].decode()
        begun = [line.partition(",END")[0].partition(",SCTE")[0] for line in text.split("\n") if line.startswith("#EXT-X-DATERANGE")]
        assert begun == [f'#EXT-X-DATERANGE:ID="cue-12",START-DATE="{instant(24)}"'] * (12 <= newest < 24), (newest, begun)
        it.begin()
    assert sum("Begins" in line for line in it.told) == 1, it.told


# ---- through the feed

class Fed(Live):
    """The feed of one channel to adsplice or a fake of it at `at`, whose lists are those of a style."""

    def __init__(self, room, at, style, **settings):
        self.style, self.dropped = style, ""  # what the tags begin with that the packager doesn't write
        settings = {"decisions": Path(room.path) / "decisions", "keep": Path(room.path) / "kept", **settings}
        for folder in (settings["decisions"], settings["keep"]):
            folder.mkdir(exist_ok=True)
        super().__init__(room, [modules()["settings"].Settings("news", modules()["location"].LocalFile(Path(room.path, "none.m3u8")), at, "http://origin.example/ch/index.m3u8", **settings)], 5.0)
        self.lines = self.told

    def turn(self, newest):
        """The packager's list goes up to this segment; answers the seconds until adsplice has it."""
        lines = self.style.listed(newest).split("\n")
        return self.give("\n".join(it for it in lines if not self.dropped or not it.startswith(self.dropped)), "news")


def test_lists_that_adsplice_knows_pass_byte_for_byte(room):
    controller = room.server(FakeController())
    for name, is_same in (("dr-insert-planned-in", True), ("dr-program-start", True), ("dr-announced", True), ("cue-elemental", False), ("dr-cmd-insert", False)):
        with Room(None) as place:
            fed = Fed(place, controller.url, named(name))
            controller.channels.clear()
            del controller.asked[:]
            for newest in range(8, 21):
                fed.turn(newest)
            texts = [fed.style.listed(newest).encode() for newest in range(8, 21)]
            assert (controller.puts("origin") == texts) == is_same, name
            assert all(it.count(b"SCTE35-OUT") <= 1 for it in controller.puts("origin"))


def test_a_signal_is_told_and_may_be_left_as_it_is(room):
    controller = room.server(FakeController())
    fed = Fed(room, controller.url, named("cue-elemental"))
    for newest in range(10, 20):
        fed.turn(newest)
    assert [it.split(" ", 1)[1] for it in fed.lines if "breaks/" in it] == [
        f"news breaks/cue-12 - Begins: at {instant(24)}, planned for 10 s (a tag without a section)",
        f"news breaks/cue-12 - Ends: at {instant(34)}, after 10 s (a tag without a section)"]
    with Room(None) as place:
        fed = Fed(place, controller.url, named("cue-elemental"), signals=False)
        fed.turn(14)
        assert controller.puts("origin")[-1] == fed.style.listed(14).encode() and not any("breaks/" in it for it in fed.lines)


def test_a_feed_that_does_not_repair_translates_too(room):
    controller = room.server(FakeController())
    fed = Fed(room, controller.url, named("cue-elemental"), repair=False)
    fed.turn(11)
    fed.turn(12)
    texts = controller.puts("origin")
    assert texts[0] == fed.style.listed(11).encode() and b'#EXT-X-DATERANGE:ID="cue-12"' in texts[1]


def shown_by(at):
    """The segments of the written playlist: their URIs' last parts."""
    return [line.rsplit("/", 1)[1] for line in get(f"{at}/live.m3u8")[1].splitlines() if line and not line.startswith("#")]


@needs("httpx", "program")
def test_a_decision_answered_in_time_fills_its_own_break(room):
    server, port = room.server(Decider(pause=0.2)), free_port()
    room.adsplice(port)
    at = f"http://127.0.0.1:{port}/channels/news"
    fed = Fed(room, f"http://127.0.0.1:{port}", named("cue-enhanced-time-signal"), ask=server.url, fallback=Path(room.write("f.json", FALLBACK)))
    took = {newest: fed.turn(newest) for newest in range(9, 20)}
    assert shown_by(at) == [*(f"1001-12-{n}.ts" for n in range(5)), "s17.ts", "s18.ts", "s19.ts"]
    assert 0.2 <= took[12] < 1.0, took


@needs("httpx", "program")
def test_lists_without_times_are_filled_by_the_times_that_the_feed_adds(room):
    server, port = room.server(Decider()), free_port()
    room.adsplice(port)
    fed = Fed(room, f"http://127.0.0.1:{port}", named("cue-elemental"), ask=server.url)
    fed.dropped = "#EXT-X-PROGRAM-DATE-TIME"
    for newest in range(9, 20):
        fed.turn(newest)
    assert shown_by(f"http://127.0.0.1:{port}/channels/news") == [*(f"cue-12-{n}.ts" for n in range(5)), "s17.ts", "s18.ts", "s19.ts"]


@needs("httpx", "program")
def test_a_feed_started_again_goes_on_with_the_same_breaks(room):
    server, port = room.server(Decider()), free_port()
    room.adsplice(port)
    fed = Fed(room, f"http://127.0.0.1:{port}", named("cue-without-duration"), ask=server.url)
    for newest in range(9, 23):
        fed.begin()
        fed.turn(newest)
    seen = [it.text() for it in journal.events(Path(f"{room.path}/kept/news.events")) if it.what == "origin"]
    ids = {name for text in seen for name in re.findall('DATERANGE:ID="([^"]*)"', text)}
    assert ids == {"cue-12"} and len(server.questions) == 1 and sum("Begins" in it for it in fed.lines) == 1, (ids, fed.lines)
    assert get(f"http://127.0.0.1:{port}/channels/news/why")[1] == "cue-12\tFilled\n"


@needs("httpx", "program")
def test_an_adsplice_started_again_fills_the_break_as_it_was(room):
    server, port = room.server(Decider()), free_port()
    first = room.adsplice(port)
    fed = Fed(room, f"http://127.0.0.1:{port}", named("dr-in-comes-early"), ask=server.url)
    for newest in range(9, 19):
        fed.turn(newest)
    before = shown_by(f"http://127.0.0.1:{port}/channels/news")
    first.kill()
    first.wait()
    room.adsplice(port)
    fed.turn(19)
    after = shown_by(f"http://127.0.0.1:{port}/channels/news")
    place = before.index(after[0])
    assert after[:len(before) - place] == before[place:] and after[-1] == "s19.ts" and "1001-4.ts" in after, (before, after)


@needs("httpx", "program")
def test_an_answer_is_given_as_soon_as_it_comes(room):
    server, port = room.server(Decider(pause=0.9)), free_port()
    room.adsplice(port)
    fed = Fed(room, f"http://127.0.0.1:{port}", named("dr-announced-time-signal"), ask=server.url, hold=0.1)
    for newest in (8, 9):
        fed.turn(newest)
    until(lambda: any("decisions/1001.json 204" in it for it in fed.lines), 3, "the answer")
    assert any("ask/1001 200 -: answered after" in it for it in fed.lines), fed.lines
    for newest in range(10, 19):
        fed.turn(newest)
    assert "1001-4.ts" in shown_by(f"http://127.0.0.1:{port}/channels/news")


def test_other_channels_do_not_wait(room):
    server, controller = room.server(Decider(pause=3)), room.server(FakeController())
    room.write("a.m3u8", named("cue-elemental").listed(11))
    room.write("b.m3u8", named("cue-elemental").listed(11))
    at = f"at = {controller.url}\nbase = http://origin.example/i.m3u8\nhold = 0.9\n"
    sections = f"[DEFAULT]\n{at}[a]\norigin = {room.path}/a.m3u8\nask = {server.url}\ndecisions = {room.path}/d\n[b]\norigin = {room.path}/b.m3u8\n"
    feed = room.feed("--config", room.write("feed.ini", sections))
    for name in "ab":
        feed.sees(f" {name} adsplice 204 -: the playlist is taken")
    room.write("a.m3u8", named("cue-elemental").listed(12))
    until(lambda: server.questions, 5, "the question")
    room.write("b.m3u8", named("cue-elemental").listed(12))
    feed.sees(" b breaks/cue-12 - Begins", 0.7)
    assert feed.end(signal.SIGTERM) == 0


def test_wrong_settings_are_told(room):
    said = {"origin": "http://127.0.0.1/i.m3u8", "at": "http://127.0.0.1:1"}
    settings_of = modules()["settings"].settings_of
    for more, owed in (({"ask": "http://h/"}, "ask needs decisions"), ({"ask": "ftp://h", "decisions": room.path}, "isn't a URL"), ({"hold": "-1"}, "isn't a number of seconds"),
                       ({"signals": "0x10"}, "signals is auto, no, or types of 0x22, 0x30"), ({"signals": "yes"}, "and not yes"), ({"nearest": "half"}, "nearest is yes or no"),
                       ({"ask": "folder", "decisions": room.path, "signals": "no"}, "ask needs signals")):
        try:
            settings_of("news", said | more)
            raise AssertionError(more)
        except modules()["settings"].Fault as fault:
            assert owed in str(fault), (more, str(fault))
    found = settings_of("news", said | {"signals": "0x34, 54", "hold": "0", "ask": "folder", "decisions": room.path, "nearest": "no"})
    assert (found.types, found.hold, found.ask, found.nearest, found.signals) == (frozenset({0x34, 0x36}), 0.0, "folder", False, True)


@needs("httpx", "program")
def test_a_ladder_asks_once_and_fills_all_renditions_alike(room):
    server, port = room.server(Decider(lambda it: (200, decided((it["id"], 5)).replace("ads.example/", "ads.example/{}/")), pause=0.1)), free_port()
    room.adsplice(port)
    style = named("cue-enhanced-time-signal")

    def push(newest):
        for name in "12":
            room.write(f"{name}.m3u8", style.listed(newest))

    push(9)
    feed = room.feed("--channel", "news", "--renditions", "1 2", "--origin", f"{room.path}/{{}}.m3u8", "--at", f"http://127.0.0.1:{port}", "--ask", server.url,
                     "--base", "http://origin.example/{}/index.m3u8", "--decisions", f"{room.path}/d{{}}", "--keep", f"{room.path}/kept")
    for name in "12":
        feed.sees(f" news-{name} adsplice 204 -: the playlist is taken")
    at = [f"http://127.0.0.1:{port}/channels/news-{name}" for name in "12"]
    for newest in range(10, 20):
        push(newest)
        until(lambda newest=newest: all(shown_by(it)[-1:] == [f"s{newest}.ts"] if newest < 12 or newest > 16 else f"1001-12-{newest - 12}.ts" in shown_by(it) for it in at), 10)
    assert len(server.questions) == 1 and server.questions[0]["channel"] == "news" and server.questions[0]["renditions"] == ["1", "2"]
    lists = [get(f"{it}/live.m3u8")[1] for it in at]
    assert lists[0].replace("/1/", "/2/") == lists[1] and "ads.example/1/1001-12-4.ts" in lists[0]
    assert sum("breaks/1001-12 - Begins" in it for it in feed.lines) == 1 and not any("Apart" in it for it in feed.lines), feed.lines
