"""Tests of a ladder in adsplice-feed: decisions for all renditions or for none, channels that are made anew together, numbers."""
import json
import os
import re
import signal
import time
import urllib.request

from of_feed import by_clock, kept_log
from tools import FALLBACK, FakeController, FakeOrigin, RulesController, SlowController, Viewers, decided, free_port, get, instant, listed, put, until

NEEDS = ("httpx",)
NAMES = ("1", "2", "3")


def needs(*names):
    """Says what a test needs."""
    def mark(test):
        test.needs = names
        return test
    return mark


class Ladder:
    """Three renditions with files for lists, and their feed: of a fake controller, or at an address."""

    def __init__(self, room, at, text, *words):
        self.room = room
        self.push(text)
        for name in NAMES:
            os.makedirs(f"{room.path}/{name}/decisions", exist_ok=True)
        self.feed = room.feed("--channel", "news", "--renditions", " ".join(NAMES), "--origin", f"{room.path}/{{}}/index.m3u8", "--at", at,
                              "--base", "http://origin.example/{}/index.m3u8", "--decisions", f"{room.path}/{{}}/decisions", *words)

    def push(self, text, names=NAMES):
        """Writes a list for some renditions."""
        for name in names:
            self.room.write(f"{name}/index.m3u8", text)

    def decide(self, name, text, names=NAMES):
        """Writes a decision file for some renditions."""
        for it in names:
            self.room.write(f"{it}/decisions/{name}.json", text)

    def taken(self, after=0):
        """Waits until each rendition's list is taken; answers the last line's place."""
        return max(self.feed.sees(f"news-{name} adsplice 204 -: the playlist is taken", 20, after) for name in NAMES)


def asked(controller, name, what):
    """The bodies of the PUTs to a rendition's `what`, in order."""
    with controller.lock:
        return [body.decode() for method, path, body in controller.asked if (method, path) == ("PUT", f"/channels/news-{name}/{what}")]


def test_ladder_makes_a_channel_a_rendition(room):
    controller = room.server(FakeController())
    Ladder(room, controller.url, listed(0, 5)).taken()
    with controller.lock:
        found = [(path, json.loads(body)) for method, path, body in controller.asked if method == "PUT" and path.count("/") == 2]
    assert sorted(found) == [(f"/channels/news-{it}", {"base": f"http://origin.example/{it}/index.m3u8"}) for it in NAMES], found


def test_ladder_decision_comes_before_any_list_that_enters_its_break(room):
    controller = room.server(FakeController())
    ladder = Ladder(room, controller.url, listed(0, 5, [("b1", 14, 4)]))
    ladder.taken()
    ladder.decide("one", decided(("b1", 2)), NAMES[:2])
    ladder.feed.sees("news decisions/one.json - Waits: news-3 has no such file")
    assert not controller.puts("decisions")
    ladder.decide("one", decided(("b1", 2)), NAMES[2:])
    ladder.push(listed(0, 7, [("b1", 14, 4)]))
    ladder.feed.sees("news decisions/one.json - -: decides b1 in all renditions")
    until(lambda: len(controller.puts("origin")) == 6, 10, "the lists")
    with controller.lock:
        order = [path.split("/")[3] for method, path, body in controller.asked if method == "PUT" and path.count("/") > 2 and (b"s7.ts" in body or b"b1-0" in body)]
    assert order == ["decisions"] * 3 + ["origin"] * 3, order


def test_ladder_lists_wait_for_the_decisions_that_they_need_and_for_few_others(room):
    controller, ids = room.server(SlowController()), [f"b{n:02}" for n in range(40)]
    for it in ids:
        for name in NAMES:
            room.write(f"{name}/decisions/{it}.json", decided((it, 1)))
    Ladder(room, controller.url, listed(0, 5, [("b39", 14, 4)])).taken()
    with controller.lock:
        sent = [(path, body) for _, path, body in controller.asked if path.endswith(("/decisions", "/origin"))]
    before = [body for _, body in sent[:next(n for n, (path, _) in enumerate(sent) if path.endswith("/origin"))]]
    assert before[:3] == [decided(("b39", 1)).encode()] * 3 and len(before) < 60, len(before)
    until(lambda: [len(asked(controller, it, "decisions")) for it in NAMES] == [40] * 3, 60, "all decisions")


def test_ladder_decision_that_one_refuses_is_withdrawn_from_all(room):
    controller = room.server(FakeController())
    ladder = Ladder(room, controller.url, listed(0, 5, [("b1", 14, 4)]))
    ladder.taken()
    controller.refusals[("PUT", "news-2/decisions")] = [(422, "J3 BadUri break 0 ad 0 segment 0\n")]
    ladder.decide("one", decided(("b1", 2)))
    ladder.feed.sees("news decisions/one.json - J3 BadUri: news-2: .*no rendition has it until its files are written anew")
    until(lambda: [asked(controller, it, "decisions")[-1:] for it in NAMES] == [['{"withdraw": "b1"}']] * 3, 10, "the withdrawals")
    ladder.decide("one", decided(("b1", 1)))
    ladder.feed.sees("news decisions/one.json - -: decides b1 in all renditions")


def test_ladder_decision_that_is_late_in_one_is_given_to_none(room):
    controller = room.server(FakeController())
    breaks = [("b1", 14, 4)]
    ladder = Ladder(room, controller.url, listed(0, 5, breaks))
    ladder.taken()
    ladder.push(listed(0, 7, breaks), NAMES[:1])
    until(lambda: len(asked(controller, "1", "origin")) == 2, 10, "the list of news-1")
    ladder.decide("one", decided(("b1", 2), ("b2", 1)))
    ladder.feed.sees("news decisions/one.json - Late: b1 has begun in a rendition, and stays in all as it is")
    ladder.feed.sees("news decisions/one.json - -: decides b2 in all renditions")
    assert all([it["id"] for it in json.loads(asked(controller, name, "decisions")[0])["breaks"]] == ["b2"] for name in NAMES)


def test_ladder_file_that_one_never_gets_is_given_up_once_its_break_has_begun(room):
    controller = room.server(FakeController())
    breaks = [("b1", 14, 4)]
    ladder = Ladder(room, controller.url, listed(0, 5, breaks))
    ladder.taken()
    ladder.decide("one", decided(("b1", 2)), NAMES[:2])
    ladder.push(listed(0, 7, breaks))
    ladder.feed.sees("news decisions/one.json - Late: b1 has begun, and news-3 has no such file; no rendition is given it")
    until(lambda: os.listdir(f"{room.path}/1/decisions") == os.listdir(f"{room.path}/2/decisions") == ["done"], 5, "the files' move")
    assert not controller.puts("decisions")


def removed_from(ladder, controller, name, breaks, begun=()):
    """A decision of b1 is given to all renditions of `ladder`, the renditions `begun` enter it by the `controller`, and the file of the
    rendition `name` is removed; answers the line's place."""
    ladder.taken()
    ladder.decide("one", decided(("b1", 2)))
    ladder.feed.sees("news decisions/one.json - -: decides b1 in all renditions")
    if begun:
        ladder.push(listed(0, 7, breaks), begun)
        until(lambda: all(len(asked(controller, it, "origin")) == 2 for it in begun), 10, "their lists")
    os.remove(f"{ladder.room.path}/{name}/decisions/one.json")
    return ladder.feed.sees("news decisions/one.json - Removed: ")


def test_ladder_file_that_is_removed_from_one_is_withdrawn_from_all(room):
    controller, breaks = room.server(FakeController()), [("b1", 14, 4)]
    ladder = Ladder(room, controller.url, listed(0, 5, breaks))
    after = removed_from(ladder, controller, "2", breaks)
    ladder.feed.sees("Removed: the file was removed from news-2; withdraws b1 in all renditions")
    assert [asked(controller, it, "decisions") for it in NAMES] == [[decided(("b1", 2)), '{"withdraw": "b1"}']] * 3
    ladder.feed.sees("news decisions/one.json - Waits: news-2 has no such file", 10, after)
    ladder.decide("one", decided(("b1", 2)), ("2",))
    ladder.feed.sees("news decisions/one.json - -: decides b1 in all renditions", 10, after)


def test_ladder_file_that_is_removed_once_its_break_has_begun_in_one_stays_in_all(room):
    controller, breaks = room.server(FakeController()), [("b1", 14, 4)]
    ladder = Ladder(room, controller.url, listed(0, 5, breaks))
    after = removed_from(ladder, controller, "2", breaks, ("1",))
    ladder.feed.sees("Removed: the file was removed from news-2; b1 has begun, and keeps its pod in all renditions")
    ladder.push(listed(0, 7, breaks))
    until(lambda: len(controller.puts("origin")) == 6, 10, "the lists")
    assert [asked(controller, it, "decisions") for it in NAMES] == [[decided(("b1", 2))]] * 3
    assert not any("Late" in line or "Waits" in line for line in ladder.feed.lines[after:])


def test_ladder_removed_file_of_a_break_in_use_is_given_back_to_all(room):
    controller, breaks = room.server(FakeController()), [("b1", 14, 4)]
    ladder = Ladder(room, controller.url, listed(0, 5, breaks))
    controller.refusals[("PUT", "news-2/decisions")] = [(204, ""), (409, "J9 Used\n")]
    removed_from(ladder, controller, "2", breaks)
    ladder.feed.sees("Removed: the file was removed from news-2; b1 has begun, and keeps its pod in all renditions")
    pod = json.loads(decided(("b1", 2)))
    until(lambda: [[json.loads(it) for it in asked(controller, name, "decisions")] for name in NAMES] == [[pod, {"withdraw": "b1"}, pod]] * 3, 10, "the pods")


def test_ladder_removed_file_is_withdrawn_from_one_that_was_away_before_its_next_list(room):
    controller, breaks = room.server(RulesController()), [("b1", 40, 4)]
    ladder = Ladder(room, controller.url, listed(0, 5, breaks))
    ladder.taken()
    ladder.decide("one", decided(("b1", 2)))
    ladder.feed.sees("news decisions/one.json - -: decides b1 in all renditions")
    controller.away.add("news-2")
    for name in NAMES:
        os.remove(f"{room.path}/{name}/decisions/one.json")
    ladder.feed.sees("Removed: the file was removed from news-.*; withdraws b1 in all renditions")
    ladder.push(listed(1, 6, breaks))
    until(lambda: all(len(asked(controller, it, "origin")) == 2 for it in ("1", "3")), 10, "the others' lists")
    before = len(controller.asked)
    controller.away.clear()
    until(lambda: len(asked(controller, "2", "origin")) == 2, 10, "its list")
    with controller.lock:
        found = [(path, body) for method, path, body in controller.asked[before:] if path.startswith("/channels/news-2/") and method == "PUT"]
    assert found[0] == ("/channels/news-2/decisions", b'{"withdraw": "b1"}') and found[1][0] == "/channels/news-2/origin", found


def test_ladder_file_that_is_removed_while_the_feed_is_down_is_withdrawn_unless_its_break_has_begun(room):
    controller, breaks, kept = room.server(RulesController()), [("b1", 14, 4), ("b2", 40, 4)], ("--keep", f"{room.path}/kept")
    ladder = Ladder(room, controller.url, listed(0, 5, breaks), *kept)
    ladder.taken()
    ladder.decide("one", decided(("b1", 2)))
    ladder.decide("two", decided(("b2", 2)))
    ladder.feed.sees("news decisions/one.json - -: decides b1 in all renditions")
    ladder.feed.sees("news decisions/two.json - -: decides b2 in all renditions")
    ladder.push(listed(0, 7, breaks), ("1",))  # (b1 has begun in one rendition)
    until(lambda: "b1-0.ts" in controller.shown("news-1"), 10, "its break")
    until(lambda: "two.json" in kept_log(room), 20, "what a later feed has to know")
    ladder.feed.end(signal.SIGKILL)
    for name, file in (("2", "one"), ("3", "one"), ("1", "two"), ("2", "two"), ("3", "two")):
        os.remove(f"{room.path}/{name}/decisions/{file}.json")
    later = Ladder(room, controller.url, listed(0, 7, breaks), *kept)
    later.feed.sees("news decisions/one.json - Removed: the file was removed from news-2, news-3; b1 has begun, and keeps its pod in all renditions")
    later.feed.sees("news decisions/two.json - Removed: the file was removed from news-1, news-2, news-3; withdraws b2 in all renditions")
    until(lambda: all("b1-0.ts" in controller.shown(f"news-{it}") for it in NAMES), 10, "the others' lists")
    until(lambda: all([it.id for it in controller.edge.channels[f"news-{name}"].store.entries] == ["b1"] for name in NAMES), 10, "that they hold b1 alone")


def test_ladder_pods_of_unequal_cuts_are_given_to_none(room):
    controller = room.server(FakeController())
    ladder = Ladder(room, controller.url, listed(0, 5, [("b1", 14, 4)]))
    ladder.taken()
    ladder.decide("one", decided(("b1", 2)), NAMES[:2])
    ladder.decide("one", decided(("b1", 4), seconds="1"), NAMES[2:])
    ladder.feed.sees("news decisions/one.json - Unequal: ")
    assert not controller.puts("decisions")


def test_ladder_decision_of_which_one_way_is_cut_is_given_once_all_answer(room):
    controller = room.server(FakeController())
    ladder = Ladder(room, controller.url, listed(0, 5, [("b1", 60, 4)]))
    ladder.taken()
    controller.refusals[("PUT", "news-2/decisions")] = [(502, "")] * 30
    ladder.decide("one", decided(("b1", 2)))
    after = ladder.feed.sees("news-2 adsplice 502 -: ")
    ladder.push(listed(1, 6, [("b1", 60, 4)]))
    until(lambda: [len(asked(controller, it, "origin")) for it in "13"] == [2, 2], 10, "the others' lists")
    controller.refusals.clear()
    ladder.feed.sees("news decisions/one.json - -: decides b1 in all renditions", 20, after)
    until(lambda: len(asked(controller, "2", "origin")) == 2, 10, "its list")
    assert [set(asked(controller, it, "decisions")) for it in NAMES] == [{decided(("b1", 2))}] * 3


def test_ladder_an_ad_whose_sound_has_a_rest_is_given_to_none(room):
    """ffmpeg cuts the sound of an ad of 10 s into five pieces of 2 s, and a sixth one of a frame: numbers would come apart by one at each break."""
    from adsplice_plant.events import Began, FallbackRead, FolderRead
    from of_slate import Steps
    pods = {"v": ["2"] * 5, "a": ["2"] * 5 + ["0.021333"]}
    ads = {name: {"ads": [{"segments": [{"uri": f"http://ads.example/{name}{n}.ts", "duration": it} for n, it in enumerate(its)]}]} for name, its in pods.items()}
    it = Steps("v", "a", fallback="/nowhere/{}.json", slate=None)
    it.take(Began())
    for name, pod in ads.items():
        it.take(FallbackRead(f"news-{name}", json.dumps({"fallback": pod}).encode()))
        it.take(FolderRead(f"news-{name}", {"one.json": ((1, 1, 1), json.dumps({"breaks": [{"id": "b1", **pod}]}).encode())}))
    for newest in range(5, 14):
        it.list(listed(max(0, newest - 8), newest, [("b1", 14, 10)]))
    told = {line for line in it.lines if "Unequal" in line}
    assert len(told) == 2 and any("fallback Unequal: the renditions' fallback files don't have ads and segments of the same lengths: news-a's aren't those of news-v" in line for line in told), told
    assert any("decisions/one.json Unequal" in line for line in told) and not any("ads.example" in one.uri for name in ads for one in it.controller.items(f"news-{name}"))


def test_ladder_fallback_that_one_refuses_is_none_in_all(room):
    controller = room.server(FakeController())
    controller.refusals[("PUT", "news-2/decisions")] = [(422, "J3 BadUri ad 0 segment 0\n")]
    for name in NAMES:
        room.write(f"f-{name}.json", FALLBACK)
    ladder = Ladder(room, controller.url, listed(0, 5), "--fallback", f"{room.path}/f-{{}}.json")
    ladder.taken()
    ladder.feed.sees("news fallback - J3 BadUri: news-2: ")
    until(lambda: [asked(controller, it, "decisions")[-1] for it in NAMES] == ['{"fallback":null}'] * 3, 10, "that none has one")


def test_ladder_fallback_that_one_list_does_not_take_is_none_in_all(room):
    controller, mapped = room.server(RulesController()), FALLBACK.replace('{"segments"', '{"map": {"uri": "http://ads.example/init.mp4"}, "segments"')
    for name in NAMES:
        room.write(f"f-{name}.json", mapped if name == "2" else FALLBACK)
    ladder = Ladder(room, controller.url, listed(0, 5, [("b1", 14, 4)]), "--fallback", f"{room.path}/f-{{}}.json")
    ladder.taken()
    ladder.feed.sees("news fallback - Unequal: news-2 wouldn't be filled: an ad has an initialisation section, and its playlist has none; no rendition has a fallback until that is mended")
    assert [controller.edge.channels[f"news-{it}"].store.fallback for it in NAMES] == [None] * 3
    room.write("f-2.json", FALLBACK)
    until(lambda: all(controller.edge.channels[f"news-{it}"].store.fallback is not None for it in NAMES), 10, "the mended fallback")


def test_ladder_one_that_is_gone_is_made_anew_by_itself(room):
    controller = room.server(FakeController())
    ladder = Ladder(room, controller.url, listed(0, 5, [("b1", 14, 4)]))
    ladder.taken()
    ladder.decide("one", decided(("b1", 2)))
    after = ladder.feed.sees("decides b1 in all renditions")
    controller.channels.discard("news-2")
    ladder.push(listed(0, 6, [("b1", 14, 4)]))
    after = ladder.feed.sees("news-2 adsplice 201 -: makes the channel", 20, after)
    ladder.feed.sees("news-2 adsplice 204 -: the playlist is taken", 20, after)
    assert [controller.count("DELETE", f"/channels/news-{it}") for it in NAMES] == [0, 0, 0]
    assert [asked(controller, it, "decisions") for it in NAMES] == [[decided(("b1", 2))] * count for count in (1, 2, 1)]


def test_ladder_one_whose_packager_begins_again_leaves_the_others(room):
    controller = room.server(FakeController())
    ladder = Ladder(room, controller.url, listed(10, 15))
    after = ladder.taken()
    ladder.push(listed(0, 5, name="t"), NAMES[1:2])
    ladder.feed.sees("news-2 list - Repaired: .* goes on at 16 with one discontinuity", 20, after)
    until(lambda: "t5.ts" in asked(controller, "2", "origin")[-1], 5, "the list of news-2")
    assert [len(asked(controller, it, "origin")) for it in NAMES] == [1, 2, 1]
    assert not any(controller.count("DELETE", f"/channels/news-{it}") for it in NAMES)


def test_ladder_waits_for_lists_in_step(room):
    controller = room.server(FakeController())
    ladder = Ladder(room, controller.url, listed(1, 6))
    ladder.push(listed(0, 5), NAMES[1:])
    ladder.push(listed(1, 6))
    ladder.taken()
    assert controller.puts("origin") == [listed(1, 6).encode()] * 3


def test_ladder_by_a_config_file(room):
    controller, origin = room.server(FakeController()), room.server(FakeOrigin(listed(0, 5)))
    sections = f"[DEFAULT]\nat = {controller.url}\n[news]\nrenditions = a b\norigin = {origin.url.replace('index', '{}')}\n"
    feed = room.feed("--config", room.write("feed.ini", sections))
    for name in "ab":
        feed.sees(f"news-{name} adsplice 204 -: the playlist is taken")
    assert origin.count("GET", "/a.m3u8") and origin.count("GET", "/b.m3u8")


def test_ladder_wrong_words(room):
    for text, fault in (("renditions = a b\norigin = http://h/x.m3u8\n", "origin needs {}"), ("renditions = a a\norigin = http://h/{}.m3u8\n", "a name of its own"),
                        ("renditions = a-1 b\norigin = http://h/{}.m3u8\n", "without '-'"),
                        (f"renditions = a b\norigin = http://h/{{}}.m3u8\ndecisions = {room.path}\n", "decisions needs {}"),
                        ("renditions = a b\norigin = http://h/{}.m3u8\nfill = none\n", "fill is all or others, and not none")):
        status, out, err = room.run("adsplice-feed", "--config", room.write("feed.ini", f"[news]\nat = http://127.0.0.1:1\n{text}"))
        assert status == 1 and fault in err and err.count("\n") == 1, (text, err)


def numbers(port):
    """Each rendition's written list without its URIs."""
    texts = [get(f"http://127.0.0.1:{port}/channels/news-{name}/live.m3u8")[1] for name in NAMES]
    return ["\n".join(it for it in text.splitlines() if it.startswith("#")) for text in texts]


def with_cues(first, last, cues):
    """A list of segments `first` to `last` of 2 s; before those of `cues` stands a tag each."""
    lines = [f"{cues.get(it, '')}#EXT-X-PROGRAM-DATE-TIME:{instant(2 * it)}\n#EXTINF:2,\ns{it}.ts" for it in range(first, last + 1)]
    return "\n".join(["#EXTM3U", "#EXT-X-VERSION:3", "#EXT-X-TARGETDURATION:2", f"#EXT-X-MEDIA-SEQUENCE:{first}", *lines, ""])


def test_ladder_lists_without_signals_wait_for_those_that_have_them(room):
    controller, cues = room.server(RulesController()), {8: "#EXT-X-CUE-OUT:4\n", 10: "#EXT-X-CUE-IN\n", 14: "#EXT-X-CUE-OUT:4\n", 16: "#EXT-X-CUE-IN\n"}
    for name in NAMES:
        room.write(f"f-{name}.json", json.dumps({"fallback": {"ads": [{"segments": [{"uri": f"http://ads.example/a{it}.ts", "duration": "2"} for it in range(2)]}]}}))
    ladder = Ladder(room, controller.url, with_cues(0, 5, {}), "--fallback", f"{room.path}/f-{{}}.json")
    ladder.taken()
    for newest in range(6, 19):
        for name in ("2", "3", "1"):  # (sound and subtitles come first, and the picture's list, which alone has the tags, half a second later)
            time.sleep(0.5 if name == "1" else 0)
            ladder.push(with_cues(max(0, newest - 6), newest, cues if name == "1" else {}), (name,))
        owed = {8: "a0.ts", 9: "a1.ts", 14: "a0.ts", 15: "a1.ts"}.get(newest, f"s{newest}.ts")
        until(lambda owed=owed: all(controller.shown(f"news-{name}").rstrip("\n").endswith(f"/{owed}") for name in NAMES), 20, f"{owed} in all renditions")
    assert len({re.sub(r"origin.example/.", "", controller.shown(f"news-{name}")) for name in NAMES}) == 1


def test_ladder_list_without_signals_waits_for_a_target_duration_at_most(room):
    controller = room.server(RulesController())
    ladder = Ladder(room, controller.url, with_cues(0, 5, {2: "#EXT-X-CUE-OUT:2\n"}))
    ladder.push(with_cues(0, 5, {}), NAMES[1:])
    ladder.taken()
    begun = time.monotonic()
    ladder.push(with_cues(1, 6, {}), NAMES[1:2])  # (the picture's packager stands still)
    until(lambda: "s6.ts" in controller.shown("news-2"), 20, "the list of news-2")
    assert 1.5 < time.monotonic() - begun < 10, time.monotonic() - begun


@needs("httpx", "program")
def test_ladder_has_equal_numbers_after_one_rendition_was_deleted(room):
    port = free_port()
    room.adsplice(port)
    breaks = [("b1", 8, 4)]
    ladder = Ladder(room, f"http://127.0.0.1:{port}", listed(0, 3, breaks))
    ladder.decide("one", decided(("b1", 2)))
    ladder.taken()
    ladder.push(listed(0, 7, breaks))
    until(lambda: all("b1" not in it and it.count("DISCONTINUITY\n") for it in numbers(port)), 10, "the break")
    urllib.request.urlopen(urllib.request.Request(f"http://127.0.0.1:{port}/channels/news-2", method="DELETE")).close()
    after = len(ladder.feed.lines)
    ladder.push(listed(1, 8, breaks))
    ladder.feed.sees("news-2 adsplice 204 -: the playlist is taken", 20, after)
    found = until(lambda: (lambda it: it if len(set(it)) == 1 and it[0] else None)(numbers(port)), 10, "equal lists")
    assert found[0].count("#EXTINF") == 8 and found[0].count("#EXT-X-DISCONTINUITY\n") == 2, found[0]


@needs("httpx", "program")
def test_ladder_tells_where_numbers_come_apart(room):
    port = free_port()
    room.adsplice(port)
    breaks = [("b1", 8, 4)]
    ladder = Ladder(room, f"http://127.0.0.1:{port}", listed(0, 3, breaks))
    ladder.taken()
    assert get(f"http://127.0.0.1:{port}/channels/news-1/why")[0] == 200
    by_hand = urllib.request.Request(f"http://127.0.0.1:{port}/channels/news-1/decisions", decided(("b1", 2)).encode(), method="PUT")
    urllib.request.urlopen(by_hand).close()  # (a decision that somebody gives to one rendition alone)
    ladder.push(listed(0, 7, breaks))
    after = ladder.feed.sees("news ladder - Apart: the renditions' numbers come apart: news-1 ends with media number 7 and discontinuity number 2, and the others with 7 and 0")
    for newest in range(8, 18):
        ladder.push(listed(newest - 7, newest, breaks if newest < 12 else ()))
        until(lambda newest=newest: all(f"s{newest}.ts" in get(f"http://127.0.0.1:{port}/channels/news-{name}/live.m3u8")[1] for name in NAMES), 10, "the lists")
    ladder.feed.sees("news ladder - -: the renditions' numbers are equal", 10, after)


def at_newest(controller):
    """The numbers of each rendition's newest segment: Media Sequence Number and Discontinuity Sequence Number (RFC 8216, 6.2.1)."""
    found = []
    for name in NAMES:
        text = controller.shown(f"news-{name}")
        media, steps = (int((re.search(rf"#EXT-X-{it}-SEQUENCE:(\d+)", text) or (0, 0))[1]) for it in ("MEDIA", "DISCONTINUITY"))
        found.append((media + text.count("#EXTINF") - 1, steps + text.count("#EXT-X-DISCONTINUITY\n")))
    return found


def push_on(ladder, controller, numbers, breaks, names=NAMES):
    """Writes lists of eight segments that end with each of `numbers`, for the renditions `names`, one after the other."""
    for newest in numbers:
        ladder.push(listed(max(0, newest - 7), newest, breaks), names)
        until(lambda newest=newest: all(f"s{newest}.ts" in controller.shown(f"news-{name}") for name in names), 60, f"segment {newest}")


def test_ladder_of_which_one_process_is_back_before_the_others_has_the_numbers_of_before(room):
    controller, viewers, breaks = room.server(RulesController()), {name: Viewers() for name in NAMES}, [("b1", 8, 4)]
    ladder = Ladder(room, controller.url, listed(0, 3, breaks), "--longest-pause", "1")
    ladder.decide("one", decided(("b1", 2)))
    ladder.taken()

    def go_on(numbers, names=NAMES):
        for newest in numbers:
            push_on(ladder, controller, [newest], breaks if newest < 13 else (), names)
            for name in names:
                viewers[name].see(controller.shown(f"news-{name}"))
    go_on(range(6, 17))  # (the break has left the list, and with it two discontinuities)
    after = len(ladder.feed.lines)
    controller.kill()
    controller.away = {"news-2", "news-3"}
    ladder.push(listed(10, 17))
    ladder.feed.sees("news-2 adsplice 502 -: ", 10, after)
    until(lambda: "s17.ts" in controller.shown("news-1"), 10, "the list of the first one that is back")
    controller.away = set()
    go_on(range(18, 21))
    assert at_newest(controller) == [(20, 2)] * 3, at_newest(controller)


def test_ladder_that_came_apart_comes_together_though_a_break_is_always_listed(room):
    controller = room.server(RulesController())
    breaks = [("b1", 8, 4), ("b2", 900, 4)]  # (b2 is announced a quarter of an hour ahead, and b1 stays listed)
    ladder = Ladder(room, controller.url, listed(0, 3, breaks), "--keep", f"{room.path}/kept")
    ladder.taken()
    assert put(f"{controller.url}/channels/news-1/decisions", decided(("b1", 2)).encode()) == 204  # (that somebody gives to one rendition alone)
    push_on(ladder, controller, [7], breaks)
    after = ladder.feed.sees("news ladder - Apart: .* news-1 ends with media number 7 and discontinuity number 2, and the others with 7 and 0; the discontinuities are added")
    push_on(ladder, controller, range(8, 13), breaks)
    ladder.feed.sees("news ladder - -: the renditions' numbers are equal", 10, after)
    assert at_newest(controller) == [(12, 2)] * 3 and sum(" Apart: " in line for line in ladder.feed.lines) == 1, (at_newest(controller), ladder.feed.lines)
    with open(f"{room.path}/kept/news-1.events", encoding="utf-8") as it:
        assert [said["status"] for said in map(json.loads, it) if said["what"] == "apart"] == [1, 0]


def test_ladder_whose_media_numbers_came_apart_keeps_what_viewers_have(room):
    controller, breaks = room.server(RulesController()), [("b1", 8, 4)]
    ladder = Ladder(room, controller.url, listed(0, 3, breaks))
    ladder.taken()
    assert put(f"{controller.url}/channels/news-1/decisions", decided(("b1", 4), seconds="1").encode()) == 204  # (4 segments for 2, in one alone)
    push_on(ladder, controller, [7], breaks)
    after = ladder.feed.sees("news ladder - Apart: .*; media numbers stay so")
    push_on(ladder, controller, range(8, 15), ())
    assert [media for media, _ in at_newest(controller)] == [16, 14, 14], at_newest(controller)
    assert sum(" Apart: " in line for line in ladder.feed.lines) == 1, "a state is told once"
    with controller.one_by_one:
        del controller.edge.channels["news-2"], controller.edge.channels["news-3"]
    push_on(ladder, controller, range(15, 18), ())
    ladder.feed.sees("news-3 adsplice 201 -: makes the channel", 20, after)
    assert [media for media, _ in at_newest(controller)] == [19, 17, 17] and sum(" Apart: " in line for line in ladder.feed.lines) == 1, at_newest(controller)


def test_ladder_one_that_is_made_anew_after_a_pod_of_another_cut_is_not_apart(room):
    controller, breaks = room.server(RulesController()), [("b1", 8, 4)]
    ladder = Ladder(room, controller.url, listed(0, 3, breaks), "--keep", f"{room.path}/kept")
    ladder.taken()
    ladder.decide("one", decided(("b1", 4), seconds="1"))
    ladder.feed.sees("news decisions/one.json - -: decides b1 in all renditions")
    push_on(ladder, controller, range(7, 18), breaks)
    with controller.one_by_one:
        del controller.edge.channels["news-2"]  # (whose list begins with greater numbers than the feed's from now on)
    push_on(ladder, controller, range(18, 20), [("b2", 60, 4)])
    push_on(ladder, controller, range(20, 31), (), ("1", "3"))
    ladder.push(listed(30, 30, name="t").replace("SEQUENCE:30", "SEQUENCE:0"), ("2",))  # (its packager was away, and begins again)
    until(lambda: "t30.ts" in controller.shown("news-2"), 40, "the list of news-2")
    found = [media for media, _ in at_newest(controller)]
    assert found == [32] * 3 and not any("media numbers stay so" in line for line in ladder.feed.lines), (found, ladder.feed.lines)


def test_ladder_whose_way_to_one_is_cut_within_a_decision_has_equal_numbers(room):
    controller = room.server(RulesController())
    breaks = [("b1", 16, 4)]
    ladder = Ladder(room, controller.url, listed(0, 3, breaks), "--keep", f"{room.path}/kept")
    ladder.taken()
    controller.away = {"news-2"}
    ladder.decide("one", decided(("b1", 2)))
    ladder.push(listed(0, 4, breaks))
    ladder.feed.sees("news-2 adsplice 502 -: ")
    for newest in range(5, 10):  # (its packager goes on, and the break begins)
        ladder.push(listed(max(0, newest - 7), newest, breaks))
        until(lambda newest=newest: all("b1-0.ts" in controller.shown(f"news-{it}") or f"s{newest}.ts" in controller.shown(f"news-{it}") for it in "13"), 20, f"segment {newest}")
    controller.away = set()
    ladder.feed.sees("news decisions/one.json - -: decides b1 in all renditions", 15)
    push_on(ladder, controller, range(10, 13), breaks)
    assert at_newest(controller) == [(12, 2)] * 3 and not controller.count("DELETE", "/channels/news-2"), at_newest(controller)
    assert all("b1-0.ts" in controller.shown(f"news-{it}") for it in NAMES)


def test_ladder_whose_packagers_clock_goes_back_is_given_its_decisions(room):
    controller = room.server(FakeController())
    times = f"#EXT-X-PROGRAM-DATE-TIME:{instant(500)}"
    ladder = Ladder(room, controller.url, listed(0, 5).replace(f"#EXT-X-PROGRAM-DATE-TIME:{instant(0)}", times))
    ladder.taken()
    text = listed(0, 5, [("b1", 324, 4)]).replace(f"#EXT-X-PROGRAM-DATE-TIME:{instant(0)}", times)
    ladder.push(text + f"#EXT-X-DISCONTINUITY\n#EXT-X-PROGRAM-DATE-TIME:{instant(320)}\n#EXTINF:2,\ns6.ts\n")  # (three minutes back)
    until(lambda: all("s6.ts" in asked(controller, name, "origin")[-1] for name in NAMES), 10, "the lists")
    ladder.decide("one", decided(("b1", 2)))
    ladder.feed.sees("news decisions/one.json - -: decides b1 in all renditions")


def test_ladder_whose_packagers_clock_goes_back_within_a_break_has_equal_numbers(room):
    controller, breaks = room.server(RulesController()), [("b0", 12, 8), ("b1", 28, 4)]
    ladder = Ladder(room, controller.url, by_clock(0, 4, breaks, 0, True), "--keep", f"{room.path}/kept")
    ladder.taken()
    ladder.decide("one", decided(("b0", 4), ("b1", 2)))
    ladder.feed.sees("news decisions/one.json - -: decides b0, b1 in all renditions")
    owed = [f"b0-{n - 6}.ts" if 6 <= n < 10 else f"b1-{n - 14}.ts" if 14 <= n < 16 else f"s{n}.ts" for n in range(20)]
    for newest in range(5, 20):  # (one rendition's list comes later than the others')
        for names in (("1", "3"), ("2",)):
            ladder.push(by_clock(max(0, newest - 8), newest, breaks if newest < 18 else (), -180 if newest >= 8 else 0, True), names)
            until(lambda: all(controller.shown(f"news-{it}").rstrip("\n").endswith("/" + owed[newest]) for it in names), 60, f"{owed[newest]} in {names}")
    assert at_newest(controller) == [(19, 4)] * 3, at_newest(controller)


def test_ladder_whose_packagers_count_from_other_numbers_has_equal_ones(room):
    controller = room.server(FakeController())
    text = listed(10, 15)
    room.write("1/index.m3u8", text)
    for name in NAMES:
        room.write(f"{name}/index.m3u8", text.replace("SEQUENCE:10", "SEQUENCE:700") if name == "3" else text)
    feed = room.feed("--channel", "news", "--renditions", " ".join(NAMES), "--origin", f"{room.path}/{{}}/index.m3u8", "--at", controller.url,
                     "--base", "http://origin.example/{}/index.m3u8")
    for name in NAMES:
        feed.sees(f"news-{name} adsplice 204 -: the playlist is taken")
    firsts = [re.search(r"MEDIA-SEQUENCE:(\d+)", asked(controller, name, "origin")[0])[1] for name in NAMES]
    assert len(set(firsts)) == 1, firsts


@needs("httpx", "program")
def test_ladder_has_equal_numbers_after_one_packager_was_away(room):
    port = free_port()
    room.adsplice(port)
    ladder = Ladder(room, f"http://127.0.0.1:{port}", listed(20, 25))
    ladder.taken()

    def shown(name):
        """Where each segment stands in the written list of a rendition: its place in time with its media number."""
        text = get(f"http://127.0.0.1:{port}/channels/news-{name}/live.m3u8")[1]
        first = int(re.search(r"MEDIA-SEQUENCE:(\d+)", text)[1])
        return {int(it): first + place for place, it in enumerate(re.findall(r"^http.*/[st](\d+)\.ts$", text, re.M))}
    for newest in range(26, 29):
        ladder.push(listed(newest - 5, newest), ("1", "3"))
        until(lambda newest=newest: newest in shown("1") and newest in shown("3"), 10, "the others' lists")
    away = listed(28, 28, name="t").replace("SEQUENCE:28", "SEQUENCE:0")
    ladder.push(away, ("2",))
    until(lambda: 28 in shown("2"), 15, "the list of the one that was away")
    assert shown("2") == {26: 26, 27: 27, 28: 28}, shown("2")
    text = get(f"http://127.0.0.1:{port}/channels/news-2/live.m3u8")[1]
    assert "http://origin.example/1/s26.ts" in text and text.count("#EXT-X-DISCONTINUITY\n") == 2, text


def cued(first, last, begin, end, offset):
    """A list of segments `first` to `last` of 2 s that begin `offset` seconds late, with a break from segment `begin` to `end` by tags."""
    tags = {begin: f"#EXT-X-CUE-OUT:{2 * (end - begin)}\n", end: "#EXT-X-CUE-IN\n"}
    lines = [f"{tags.get(it, '')}#EXT-X-PROGRAM-DATE-TIME:{instant(2 * it + offset)}\n#EXTINF:2,\ns{it}.ts" for it in range(first, last + 1)]
    return "\n".join(["#EXTM3U", "#EXT-X-VERSION:3", "#EXT-X-TARGETDURATION:2", f"#EXT-X-MEDIA-SEQUENCE:{first}", *lines, ""])


def two_seconds(count):
    """A fallback of so many segments of 2 s."""
    return json.dumps({"fallback": {"ads": [{"segments": [{"uri": f"http://ads.example/a{it}.ts", "duration": "2"} for it in range(count)]}]}})


def test_ladder_whose_sound_is_cut_elsewhere_than_its_picture_has_its_ads_in_both(room):
    controller, offsets = room.server(RulesController()), {"near": 0.085, "far": 0.15, "half": -0.5, "most": 0.95}
    sections = "".join(f"[{it}]\nrenditions = v a\norigin = {room.path}/{it}-{{}}.m3u8\n" for it in offsets)
    fallback = room.write("f.json", two_seconds(3))

    def push(newest):
        for name, offset in offsets.items():
            room.write(f"{name}-v.m3u8", cued(max(0, newest - 7), newest, 8, 11, 0))
            room.write(f"{name}-a.m3u8", cued(max(0, newest - 7), newest, 8, 11, offset))

    push(4)
    feed = room.feed("--config", room.write("feed.ini", f"[DEFAULT]\nat = {controller.url}\nbase = http://h/i.m3u8\nfallback = {fallback}\n{sections}"))
    for newest in range(5, 15):
        owed = f"a{newest - 8}.ts" if 8 <= newest < 11 else f"s{newest}.ts"
        push(newest)
        for name in (f"{one}-{two}" for one in offsets for two in "va"):
            try:
                until(lambda name=name: controller.shown(name).rstrip("\n").endswith(f"/{owed}"), 60, f"{owed} in {name}")
            except AssertionError as fault:
                raise AssertionError("\n".join([str(fault), controller.shown(name), *feed.lines])) from None
    texts = {name: [controller.shown(f"{name}-{it}") for it in "va"] for name in offsets}
    for name, found in texts.items():
        assert re.findall("SEQUENCE:.*|^#EXT-X-DISC.*|/[as][0-9]+", found[0], re.M) == re.findall("SEQUENCE:.*|^#EXT-X-DISC.*|/[as][0-9]+", found[1], re.M), (name, found)


def test_ladder_break_near_which_sound_has_no_segment_is_filled_in_none_or_in_the_others(room):
    controller, fallback = room.server(RulesController()), room.write("f.json", two_seconds(3))
    sections = "".join(f"[{it}]\nrenditions = v a\norigin = {room.path}/{it}-{{}}.m3u8\n{more}" for it, more in (("none", ""), ("others", "fill = others\n")))

    def push(newest):
        text = cued(max(0, newest - 9), newest, 8, 11, 0)
        for name in ("none", "others"):
            room.write(f"{name}-v.m3u8", text)
            room.write(f"{name}-a.m3u8", re.sub(r"#EXT-X-CUE-OUT.*\n.*\n#EXTINF:2,\ns8.ts\n", "#EXT-X-DISCONTINUITY\n", text))

    push(6)
    feed = room.feed("--config", room.write("feed.ini", f"[DEFAULT]\nat = {controller.url}\nbase = http://h/i.m3u8\nfallback = {fallback}\n{sections}"))
    for name in ("none-v", "none-a", "others-v", "others-a"):
        feed.sees(f"{name} adsplice 204 -: the playlist is taken", 20)
    push(7)
    until(lambda: all("s7.ts" in controller.shown(it) for it in ("none-v", "none-a", "others-v", "others-a")), 20, "the list before the break")
    push(9)  # (the segment that begins the break is lost in the sound)
    feed.sees("none breaks/cue-8 - Passed: none-a has no segment near its start: begins in no rendition")
    feed.sees("others breaks/cue-8 - Passed: others-a has no segment near its start: begins in the other renditions alone")
    push(12)
    until(lambda: all("s12.ts" in controller.shown(it) for it in ("none-v", "none-a", "others-v", "others-a")), 20, "the list after the break")
    assert {it: "ads.example" in controller.shown(it) for it in ("none-v", "none-a", "others-v", "others-a")} == {"none-v": False, "none-a": False, "others-v": True, "others-a": False}


@needs("httpx", "program")
def test_ladder_whose_channels_are_all_new_begins_with_equal_numbers(room):
    port = free_port()
    room.adsplice(port)
    breaks = [("b1", 8, 4)]
    ladder = Ladder(room, f"http://127.0.0.1:{port}", listed(0, 3, breaks))
    ladder.taken()
    by_hand = urllib.request.Request(f"http://127.0.0.1:{port}/channels/news-1/decisions", decided(("b1", 4), seconds="1").encode(), method="PUT")
    urllib.request.urlopen(by_hand).close()  # (a pod of 4 segments for 2, which somebody gives to one rendition alone)
    ladder.push(listed(0, 7, breaks))
    after = ladder.feed.sees("news ladder - Apart: .* news-1 ends with media number 9 and discontinuity number 2, and the others with 7 and 0; media numbers stay so")
    for newest in range(8, 15):  # (until no break is listed)
        ladder.push(listed(newest - 7, newest, breaks if newest < 13 else ()))
        until(lambda newest=newest: all(f"s{newest}.ts" in get(f"http://127.0.0.1:{port}/channels/news-{name}/live.m3u8")[1] for name in NAMES), 10, "the lists")
    for name in NAMES:
        urllib.request.urlopen(urllib.request.Request(f"http://127.0.0.1:{port}/channels/news-{name}", method="DELETE")).close()
    ladder.push(listed(8, 15))
    ladder.feed.sees("news-3 adsplice 204 -: the playlist is taken", 20, after)
    until(lambda: [re.search(r"MEDIA-SEQUENCE:(\d+)", it)[1] for it in numbers(port)] == ["10", "8", "8"], 20, "the numbers that viewers have")
