"""Tests of adsplice-feed: against fake origins and controllers, and with the built program."""
import json
import os
import re
import signal
import subprocess
import sys
import time
import urllib.request
from pathlib import Path

from of_lists import BASE, CLOCK, URL
from stepped import Stepped
from tools import FALLBACK, PLANT, PYTHON, FakeController, FakeOrigin, RulesController, SlowController, Viewers, decided, free_port, get, instant, listed, put, until

sys.path.insert(0, PLANT)
from adsplice_plant.kept import Kept  # noqa: E402
from adsplice_plant.settings import Settings  # noqa: E402

NEEDS = ("httpx",)
PROGRAM = ("httpx", "program")


def needs(*names):
    """Says what a test needs."""
    def mark(test):
        test.needs = names
        return test
    return mark


def started(room, text, *words):
    """A fake origin of a list, a fake controller, and a feed between them that has given the list."""
    origin, controller = room.server(FakeOrigin(text)), room.server(FakeController())
    feed = room.feed("--channel", "news", "--origin", origin.url, "--at", controller.url, "--timeout", "1.5", "--longest-pause", "1", *words)
    feed.sees("news adsplice 204 -: the playlist is taken")
    return origin, controller, feed


def test_makes_the_channel_then_fallback_decisions_and_list(room):
    room.write("decisions/one.json", decided(("b1", 2)))
    fallback = room.write("fallback.json", FALLBACK)
    origin, controller, feed = started(room, listed(0, 5), "--decisions", f"{room.path}/decisions", "--fallback", fallback)
    asked = [(method, path) for method, path, _ in controller.asked[:4]]
    assert asked == [("PUT", "/channels/news"), ("PUT", "/channels/news/decisions"), ("PUT", "/channels/news/decisions"), ("PUT", "/channels/news/origin")], asked
    assert json.loads(controller.asked[0][2]) == {"base": origin.url}
    assert controller.asked[1][2] == FALLBACK.encode() and controller.asked[2][2] == decided(("b1", 2)).encode()
    feed.sees("news decisions/one.json 204 -: decides b1")


def test_pushes_a_list_once_and_asks_by_its_validator(room):
    origin, controller, feed = started(room, listed(0, 5))
    before = origin.count("GET", "/index.m3u8")
    time.sleep(2.5)
    assert 1 <= origin.count("GET", "/index.m3u8") - before <= 4, "the origin is asked once a second: half of the target duration"
    assert len(controller.puts("origin")) == 1
    origin.text = listed(1, 6)
    until(lambda: len(controller.puts("origin")) == 2, 5, "the new list")
    assert controller.puts("origin")[1] == origin.text.encode()


def test_cut_off_list_is_read_again(room):
    origin, controller, feed = started(room, listed(0, 5))
    origin.mode, origin.text = "cut", listed(1, 6)
    feed.sees("news origin 200 CutOff: the playlist is cut off within its last line")
    assert len(controller.puts("origin")) == 1
    origin.mode = ""
    until(lambda: len(controller.puts("origin")) == 2, 10, "the whole list")
    feed.sees("news origin 200 -: the playlist is read again")
    origin.mode, origin.text = "cut", listed(2, 7)
    feed.sees("news origin 200 CutOff", 20, len(feed.lines))
    assert all(it.endswith(b"\n") for it in controller.puts("origin"))


def test_answer_shorter_than_its_length_is_no_list(room):
    origin, controller, feed = started(room, listed(0, 5))
    origin.mode, origin.text = "short", listed(1, 6)
    feed.sees("news origin - -: .*closed connection")
    origin.mode = ""
    until(lambda: len(controller.puts("origin")) == 2, 10, "the whole list")


def test_origin_that_drips_is_given_up_in_time(room):
    origin, controller, feed = started(room, listed(0, 5))
    origin.mode, origin.text = "drip", listed(1, 6)
    begun = time.monotonic()
    feed.sees("news origin - -: no (whole )?answer within 1.5 s")
    assert time.monotonic() - begun < 10


def test_silent_origin_and_an_origin_of_errors(room):
    origin, controller, feed = started(room, listed(0, 5))
    origin.mode = "silent"
    after = feed.sees("news origin - -: no answer within 1.5 s")
    origin.mode, origin.status, origin.text = "", 503, listed(1, 6)
    after = feed.sees("news origin 503 -: the origin answers 503", 20, after)
    count = origin.count("GET", "/index.m3u8")
    time.sleep(3)
    assert origin.count("GET", "/index.m3u8") - count <= 5, "pauses grow"
    origin.status = 200
    feed.sees("news origin 200 -: the playlist is read again", 20, after)
    until(lambda: len(controller.puts("origin")) == 2, 5, "the new list")


def test_redirect_is_followed_and_told(room):
    origin, controller, feed = started(room, listed(0, 5))
    origin.mode, origin.text = "moved", listed(1, 6)
    feed.sees("news redirect 200 -: the origin leads to .*/other.m3u8")
    until(lambda: len(controller.puts("origin")) == 2, 5, "the new list")


def test_packager_that_begins_again_keeps_the_channel(room):
    origin, controller, feed = started(room, listed(30, 35))
    origin.text = listed(0, 5, name="t")
    after = feed.sees("news list - Held: the playlist has no segment of the last one; it is taken if it stays so for 2 s")
    after = feed.sees("news list - Repaired: .*media numbers from 0 on, after 35.*goes on at 36 with one discontinuity .RFC 8216, 6.2.1.", 20, after)
    until(lambda: len(controller.puts("origin")) == 2, 5, "the new list")
    text = controller.puts("origin")[1].decode()
    assert "#EXT-X-MEDIA-SEQUENCE:36\n#EXT-X-DISCONTINUITY-SEQUENCE:0\n#EXT-X-DISCONTINUITY\n#EXTINF:2,\n" in text and text.count("EXT-X-DISCONTINUITY\n") == 1, text
    assert controller.count("DELETE", "/channels/news") == 0


def test_list_that_lags_is_passed_over(room):
    origin, controller, feed = started(room, listed(10, 15))
    origin.text = listed(7, 12)
    feed.sees("news list - Lags: the playlist is older than the last one, and is passed over")
    time.sleep(2.5)
    assert len(controller.puts("origin")) == 1
    origin.text = listed(11, 16)
    feed.sees("news list - -: the playlists go on")
    until(lambda: len(controller.puts("origin")) == 2, 5, "the new list")
    assert controller.puts("origin")[1] == listed(11, 16).encode() and controller.count("DELETE", "/channels/news") == 0


def test_refused_list_leaves_the_channel(room):
    origin, controller, feed = started(room, listed(10, 15))
    controller.refusals[("PUT", "origin")] = [(409, "N4 MapsChanged\n")]
    origin.text = listed(11, 16)
    after = feed.sees("news adsplice 409 N4 MapsChanged: .*waits for the next playlist; if that stays, only a new channel takes it")
    origin.text = listed(12, 17)
    feed.sees("news adsplice 204 -: the playlist is taken", 20, after)
    assert controller.puts("origin")[-1] == listed(12, 17).encode() and controller.count("DELETE", "/channels/news") == 0


def test_lists_are_pushed_as_they_are_if_one_says_so(room):
    origin, controller, feed = started(room, listed(10, 15), "--repair", "no")
    for text in (listed(3, 8, name="t"), "\ufeff" + listed(4, 9, name="t")):
        origin.text = text
        until(lambda text=text: controller.puts("origin")[-1] == text.encode(), 5, "the list")
    assert not any(" news list " in line for line in feed.lines)


def test_list_that_does_not_read_is_not_sent_twice(room):
    origin, controller, feed = started(room, listed(0, 5))
    controller.refusals[("PUT", "origin")] = [(422, "P17 NoDuration line 7\n")]
    origin.text = listed(1, 6)
    feed.sees("news adsplice 422 P17 NoDuration line 7: a segment has no EXTINF; waits for the next playlist")
    time.sleep(2.5)
    assert len(controller.puts("origin")) == 2
    origin.text = listed(2, 7)
    feed.sees("news adsplice 204 -: the playlist is taken", 5)


def test_away_controller_is_tried_with_growing_pauses(room):
    origin, controller, feed = started(room, listed(0, 5))
    controller.refusals[("PUT", "origin")] = [(502, "<html>\n"), (504, "<html>\n"), (503, ""), None]
    origin.text = listed(1, 6)
    after = 0
    for status in (502, 504, 503, "-"):
        after = feed.sees(f"news adsplice {status} -: .*tries again with growing pauses", 20, after)
    feed.sees("news adsplice 204 -: the playlist is taken", 20, after)
    assert controller.puts("origin")[-1] == origin.text.encode()


def test_numbers_that_follow_from_somebody_elses_decision_are_told_and_hold(room):
    controller, origin = room.server(RulesController()), room.server(FakeOrigin(listed(0, 5, [("b1", 14, 4)])))
    feed = room.feed("--channel", "news", "--origin", origin.url, "--at", controller.url)
    feed.sees("news adsplice 204 -: the playlist is taken")
    assert put(f"{controller.url}/channels/news/decisions", decided(("b1", 4), seconds="1").encode()) == 204  # (4 segments for the break's 2)
    origin.text = listed(2, 7, [("b1", 14, 4)])
    # (of the pod as much is written as the break has lasted: two segments of 1 s, with the media numbers 7 and 8 after one discontinuity)
    feed.sees("news written - Others: adsplice's playlist ends with media number 8 and discontinuity number 1, ")


def test_404_makes_the_channel_with_what_is_open(room):
    room.write("decisions/one.json", decided(("b1", 2)))
    text = listed(0, 5, [("b1", 20, 4)])
    origin, controller, feed = started(room, text, "--decisions", f"{room.path}/decisions")
    controller.channels.clear()
    origin.text = listed(1, 6, [("b1", 20, 4)])
    after = feed.sees("news adsplice 404 -: the channel isn't there; makes it")
    after = feed.sees("news adsplice 201 -: makes the channel", 20, after)
    feed.sees("news adsplice 204 -: the playlist is taken", 20, after)
    assert [it.decode() for it in controller.puts("decisions")] == [decided(("b1", 2))] * 2
    until(lambda: controller.puts("origin")[-1] == origin.text.encode(), 20, "the newest list, after the one that a new channel begins with")


def test_decision_file_stays_while_its_break_is_listed(room):
    path = f"{room.path}/decisions"
    os.makedirs(path)
    origin, controller, feed = started(room, listed(0, 5, [("b1", 14, 4)]), "--decisions", path)
    room.write("decisions/one.json", decided(("b1", 2)))
    feed.sees("news decisions/one.json 204 -: decides b1")
    time.sleep(1.2)
    assert os.listdir(path) == ["one.json"]
    origin.text = listed(5, 10, [("b1", 14, 4)])
    until(lambda: len(controller.puts("origin")) == 2, 5, "the list within the break")
    assert os.listdir(path) == ["one.json"]
    origin.text = listed(10, 15)
    feed.sees("news decisions/one.json - -: b1 is no longer listed; moves the file to done")
    assert os.listdir(path) == ["done"] and os.listdir(f"{path}/done") == ["one.json"]


def test_decision_file_that_is_written_again_as_it_was_is_given_once(room):
    path = f"{room.path}/decisions"
    os.makedirs(path)
    origin, controller, feed = started(room, listed(0, 5, [("b1", 14, 4)]), "--decisions", path)
    room.write("decisions/one.json", decided(("b1", 2)))
    feed.sees("news decisions/one.json 204 -: decides b1")
    for _ in range(3):
        room.write("decisions/one.json", decided(("b1", 2)))
        time.sleep(0.6)
    room.write("decisions/one.json", decided(("b1", 1)))
    until(lambda: len(controller.puts("decisions")) == 2, 5, "the other decision")
    assert [it.decode() for it in controller.puts("decisions")] == [decided(("b1", 2)), decided(("b1", 1))]


def test_refused_decision_file_is_told_in_words_and_taken_once_mended(room):
    path = f"{room.path}/decisions"
    os.makedirs(path)
    origin, controller, feed = started(room, listed(0, 5), "--decisions", path, "--keep", f"{room.path}/kept")
    room.write("decisions/one.json", decided(("b1", 2)).replace('"2"', "2"))
    feed.sees("news decisions/one.json 422 J2 Shape break 0 ad 0 segment 0: a member is missing, or isn't of its type; leaves it")
    time.sleep(2.2)
    assert not controller.puts("decisions"), "what adsplice would refuse isn't given"
    with open(f"{room.path}/kept/news.events", encoding="utf-8") as it:
        assert [(one["status"], one["fault"]) for one in map(json.loads, it) if one["what"] == "decisions"] == [(422, "J2 Shape break 0 ad 0 segment 0")]
    room.write("decisions/one.json", decided(("b1", 2)))
    feed.sees("news decisions/one.json 204 -: decides b1")


def test_withdrawal_of_a_break_without_a_pod_is_told_as_refused(room):
    path = f"{room.path}/decisions"
    os.makedirs(path)
    origin, controller, feed = started(room, listed(0, 5), "--decisions", path)
    feed.sees("news adsplice 204 -: the playlist is taken")
    controller.refusals[("PUT", "decisions")] = [(409, "J11 Unknown\n")]
    room.write("decisions/one.json", json.dumps({"withdraw": "misspelt"}))
    feed.sees("news decisions/one.json 409 J11 Unknown: the withdrawn break has no pod of its own .misspelt.")
    assert not any("withdraws misspelt" in line for line in feed.lines), feed.lines
    until(lambda: os.listdir(f"{path}/done") == ["one.json"], 5, "the file in done")


def test_decision_file_outlives_a_front_that_refuses(room):
    path = f"{room.path}/decisions"
    os.makedirs(path)
    origin, controller, feed = started(room, listed(0, 5), "--decisions", path)
    controller.refusals[("PUT", "decisions")] = [(401, "<html>\n"), (429, "<html>\n"), (503, "")]
    room.write("decisions/one.json", decided(("b1", 2)))
    feed.sees("news adsplice 401 -: status 401; tries again with growing pauses")
    feed.sees("news decisions/one.json 204 -: decides b1")


def test_changed_fallback_is_given(room):
    fallback = room.write("fallback.json", FALLBACK)
    origin, controller, feed = started(room, listed(0, 5), "--fallback", fallback)
    room.write("fallback.json", FALLBACK.replace("f-0", "g-0"))
    feed.sees("news fallback 204 .*: the file has changed: sets it anew")
    assert [it.decode() for it in controller.puts("decisions")] == [FALLBACK, FALLBACK.replace("f-0", "g-0")]


def test_half_written_file_is_left_alone(room):
    path = f"{room.path}/decisions"
    os.makedirs(path)
    origin, controller, feed = started(room, listed(0, 5), "--decisions", path)
    for name in (".one.json", "one.json.tmp", "one.txt"):
        with open(f"{path}/{name}", "w", encoding="utf-8") as it:
            it.write('{"breaks":[')
    time.sleep(1.5)
    assert not controller.puts("decisions")


def test_file_of_which_one_break_has_begun_decides_the_rest(room):
    path = f"{room.path}/decisions"
    os.makedirs(path)
    origin, controller, feed = started(room, listed(0, 5), "--decisions", path)
    controller.refusals[("PUT", "decisions")] = [(409, "J9 Used\n"), (409, "J9 Used\n")]
    room.write("decisions/two.json", decided(("b1", 2), ("b2", 1)))
    feed.sees("news decisions/two.json 409 J9 Used: b1 has begun, and keeps its pod; decides b2")
    assert json.loads(controller.puts("decisions")[-1])["breaks"][0]["id"] == "b2"


def test_decision_that_came_too_late_stays_refused(room):
    path = f"{room.path}/decisions"
    os.makedirs(path)
    origin, controller, feed = started(room, listed(0, 5, [("b1", 4, 4)]), "--decisions", path)
    room.write("decisions/two.json", decided(("b1", 2), ("b2", 1)))
    after = feed.sees("news decisions/two.json 204 Late: b1 has begun, and stays as it is; decides b2")
    controller.channels.clear()
    origin.text = listed(1, 6, [("b1", 4, 4)])
    feed.sees("news adsplice 204 -: the playlist is taken", 20, after)
    assert [it["id"] for it in json.loads(controller.puts("decisions")[-1])["breaks"]] == ["b2"], controller.puts("decisions")[-1]


def test_decision_that_came_late_without_a_fallback_is_told_so(room):
    path = f"{room.path}/decisions"
    os.makedirs(path)
    controller = room.server(RulesController())
    origin = room.server(FakeOrigin(listed(0, 5, [("b1", 4, 4), ("b2", 40, 4)])))
    feed = room.feed("--channel", "news", "--origin", origin.url, "--at", controller.url, "--decisions", path, "--keep", f"{room.path}/kept")
    feed.sees("news adsplice 204 -: the playlist is taken")
    room.write("decisions/one.json", decided(("b1", 2), ("b2", 2)))
    after = feed.sees("news decisions/one.json 204 Late: b1 has begun, and stays as it is; decides b2")
    assert "b1-0.ts" not in controller.shown("news") and kept_of(room).late == 1
    controller.edge.channels.clear()  # (adsplice is started anew, and the break is still listed)
    origin.text = listed(1, 6, [("b1", 4, 4), ("b2", 40, 4)])
    feed.sees("news adsplice 204 -: the playlist is taken", 20, after)
    assert "b1-0.ts" not in controller.shown("news") and "s2.ts" in controller.shown("news"), controller.shown("news")


def kept_of(room):
    """What the feed of `news` has kept."""
    found = Kept(Path(room.path, "kept", "news.events"))
    found.follow()
    return found


def test_an_address_that_takes_no_put_is_told_as_such(room):
    controller = room.server(FakeController())
    controller.refusals[("PUT", "")] = [(404, "<html>")] * 100
    feed = room.feed("--channel", "news", "--origin", room.write("index.m3u8", listed(0, 5)), "--at", controller.url, "--base", "http://h/")
    feed.sees(f"news adsplice 404 -: {controller.url} takes no PUT of a channel: perhaps it is the viewers' address, and `at` is to be adsplice's for PUT; makes the channel as soon")


def test_decisions_of_breaks_that_are_not_listed_wait_for_room(room):
    path = f"{room.path}/decisions"
    os.makedirs(path)
    for it in range(210):
        room.write(f"decisions/b{it:03}.json", decided((f"b{it:03}", 1)))
    origin, controller, feed = started(room, listed(0, 5), "--decisions", path)
    until(lambda: len(controller.puts("decisions")) == 200, 60, "200 decisions")
    time.sleep(1.2)
    assert len(controller.puts("decisions")) == 200
    origin.text = listed(1, 6, [("b209", 40, 4)])
    until(lambda: len(controller.puts("decisions")) == 201, 5, "the decision of the break that is listed")
    assert b"b209-0" in controller.puts("decisions")[-1]


def by_steps(count=0):
    """A feed by its function with so many files of a break each, b0000, b0001 .."""
    it = Stepped(Settings("news", "x", "http://h", URL), BASE, CLOCK)
    it.files = {f"{n:04}.json": ((n + 1, 1, n), decided((f"b{n:04}", 1)).encode()) for n in range(count)}
    return it


def ids_given(it):
    """The breaks of the decisions that adsplice was sent, in their order."""
    return [json.loads(body)["breaks"][0]["id"] for body in it.decided if b"breaks" in body]


def test_two_thousand_decisions_are_given_once_each_as_there_is_room(room):
    it = by_steps(2000)
    it.look()
    for turn in range(30):  # (the newest files' breaks come first)
        it.seconds += 2.0
        it.read(listed(turn, turn + 5, [(f"b{n:04}", 8 * n, 4) for n in range(1500, 1500 + turn)]).encode())
    given = ids_given(it)
    assert len(given) == len(set(given)) == 200 + 29, len(given)  # (whatever a channel can't use yet isn't given)


def test_a_list_waits_for_the_decisions_that_it_needs_and_for_few_others(room):
    names = [f"b{n:02}" for n in range(60)]
    for it in names:
        room.write(f"decisions/{it}.json", decided((it, 1)))
    controller, path = room.server(SlowController()), room.write("index.m3u8", listed(0, 5, [("b59", 14, 4)]))
    feed = room.feed("--channel", "news", "--origin", path, "--at", controller.url, "--base", "http://h/i.m3u8", "--decisions", f"{room.path}/decisions")
    feed.sees("news adsplice 204 -: the playlist is taken")
    given = controller.puts("decisions")
    assert b'"b59"' in given[0] and len(given) <= 30, len(given)
    until(lambda: len(controller.puts("decisions")) == 60, 30, "all decisions")
    for it in names[:59]:
        os.remove(f"{room.path}/decisions/{it}.json")
    room.write("index.m3u8", text := listed(1, 6, [("b59", 14, 4)]))
    until(lambda: text.encode() in controller.puts("origin"), 30, "the next list")
    with controller.lock:
        before = [body for _, path, body in controller.asked if path.endswith(("/decisions", "/origin"))]
    withdrawn = sum(b"withdraw" in it for it in before[:before.index(text.encode())])
    assert withdrawn <= 40, withdrawn
    until(lambda: sum(b"withdraw" in it for it in controller.puts("decisions")) == 59, 30, "all that was removed is withdrawn")


def test_decisions_that_a_listed_break_needs_come_first(room):
    it = by_steps(40)
    it.read(listed(0, 5, [("b0039", 400, 4)]).encode())
    it.look()
    assert ids_given(it)[:17] == ["b0039", *(f"b{n:04}" for n in range(16))] and len(set(ids_given(it))) == len(ids_given(it)), ids_given(it)
    assert len(it.pushed) == 1 and it.order.index("origin") <= 17, it.order


def test_removed_files_have_their_room_until_they_are_taken_back(room):
    it = by_steps(250)
    it.read(listed(0, 5).encode())
    it.look()
    assert len(ids_given(it)) == 200
    it.is_away = True
    it.files = {name: file for name, file in it.files.items() if name >= "0200.json"}
    it.look()
    it.wait(2.0)
    assert len(ids_given(it)) == 200, "adsplice holds what was removed"
    it.is_away = False
    it.wait(8.0)
    assert len(ids_given(it)) == 250 and len(set(ids_given(it))) == 250


def test_removed_files_leave_room_for_other_decisions(room):
    controller, path = room.server(RulesController()), f"{room.path}/decisions"
    names = [f"later-{it:03}" for it in range(400)]
    for it in names:
        room.write(f"decisions/{it}.json", decided((it, 1)))
    feed = room.feed("--channel", "news", "--origin", room.write("index.m3u8", listed(0, 5)), "--at", controller.url, "--base", "http://h/i.m3u8", "--decisions", path)

    def told(word):
        return [line for line in feed.lines if f" {word} later-" in line]

    until(lambda: len(told("decides")) == 200, 90, "200 decisions")
    for it in names[:200]:
        os.remove(f"{path}/{it}.json")
    until(lambda: len(told("decides")) == 400, 30, "the 200 others")
    assert len(told("withdraws")) == 200 and "later-000.json 204 Removed: the file was removed; withdraws later-000" in told("withdraws")[0], told("withdraws")[:2]
    room.write("decisions/own.json", decided(("own", 2)))
    room.write("index.m3u8", listed(1, 6, [("own", 14, 4)]))
    feed.sees("news decisions/own.json 204 -: decides own")
    assert not any("J10" in line for line in feed.lines)


def test_removed_file_is_taken_back_before_the_list_that_enters_its_break(room):
    origin, controller, feed = started(room, listed(0, 5, [("b1", 14, 4), ("b2", 16, 4)]), "--decisions", f"{room.path}/decisions")
    room.write("decisions/two.json", decided(("b1", 1), ("b2", 1)))
    feed.sees("news decisions/two.json 204 -: decides b1, b2")
    origin.text = listed(0, 7, [("b1", 14, 4), ("b2", 16, 4)])
    until(lambda: len(controller.puts("origin")) == 2, 5, "the list that enters b1")
    os.remove(f"{room.path}/decisions/two.json")
    feed.sees("news decisions/two.json 204 Removed: the file was removed; withdraws b2; b1 has begun, and keeps its pod")
    assert controller.puts("decisions")[1:] == [b'{"withdraw": "b2"}']
    room.write("decisions/two.json", decided(("b2", 1)))
    feed.sees("news decisions/two.json 204 -: decides b2", 5)


def test_removed_fallback_file_is_taken_back(room):
    room.write("decisions/fallback.json", FALLBACK)
    origin, controller, feed = started(room, listed(0, 5), "--decisions", f"{room.path}/decisions")
    os.remove(f"{room.path}/decisions/fallback.json")
    feed.sees("news decisions/fallback.json 204 Removed: the file was removed; takes its fallback back")
    assert controller.puts("decisions") == [FALLBACK.encode(), b'{"fallback":null}']


def test_removed_file_that_adsplice_says_has_begun_keeps_its_pod(room):
    origin, controller, feed = started(room, listed(0, 5), "--decisions", f"{room.path}/decisions")
    room.write("decisions/one.json", decided(("b1", 1)))
    feed.sees("news decisions/one.json 204 -: decides b1")
    controller.refusals[("PUT", "decisions")] = [(503, ""), (409, "J9 Used\n")]
    os.remove(f"{room.path}/decisions/one.json")
    feed.sees("news decisions/one.json 204 Removed: the file was removed; b1 has begun, and keeps its pod")
    assert controller.puts("decisions")[1:] == [b'{"withdraw": "b1"}'] * 2


def test_feed_that_was_started_again_gives_no_decision_twice(room):
    path = f"{room.path}/decisions"
    os.makedirs(path)
    words = ("--decisions", path, "--keep", f"{room.path}/kept")
    origin, controller, feed = started(room, listed(0, 5, [("b1", 14, 4)]), *words)
    room.write("decisions/one.json", decided(("b1", 2)))
    feed.sees("news decisions/one.json 204 -: decides b1")
    origin.text = listed(1, 6, [("b1", 14, 4)])
    until(lambda: len(controller.puts("origin")) == 2, 5, "the second list")
    feed.end(signal.SIGKILL)
    room.feed("--channel", "news", "--origin", origin.url, "--at", controller.url, *words).sees("news adsplice 204 -: the playlist is taken")
    assert len(controller.puts("decisions")) == 1 and controller.puts("origin")[-1] == origin.text.encode()


def kept_log(room, name="news"):
    """The log of a programme; nothing before its first entry."""
    path = Path(room.path, "kept", f"{name}.log")
    return path.read_text(encoding="utf-8") if path.exists() else ""


def test_files_that_are_removed_while_the_feed_is_down_are_withdrawn_when_it_is_back(room):
    controller, path = room.server(RulesController()), f"{room.path}/decisions"
    words = ("--channel", "news", "--origin", room.write("index.m3u8", listed(0, 5, [("b1", 40, 4)])), "--at", controller.url, "--base", "http://h/i.m3u8",
             "--decisions", path, "--keep", f"{room.path}/kept")
    for name, text in (("one", decided(("b1", 2))), ("two", decided(("b2", 1), ("b3", 1))), ("three", decided(("b3", 1), ("b4", 1))), ("fallback", FALLBACK)):
        room.write(f"decisions/{name}.json", text)
    feed = room.feed(*words)
    for name in ("b1", "b2, b3", "b3, b4"):
        feed.sees(f"204 -: decides {name}")
    feed.sees("news adsplice 204 -: the playlist is taken")
    until(lambda: "three.json" in kept_log(room), 20, "what a later feed has to know")
    feed.end(signal.SIGKILL)
    for name in ("one", "two", "fallback"):
        os.remove(f"{path}/{name}.json")
    feed = room.feed(*words)
    feed.sees("news decisions/one.json 204 Removed: the file was removed; withdraws b1")
    feed.sees("news decisions/two.json 204 Removed: the file was removed; withdraws b2$")
    feed.sees("news decisions/fallback.json 204 Removed: the file was removed; takes its fallback back")
    store = controller.edge.channels["news"].store
    assert {it.id for it in store.entries} == {"b3", "b4"} and store.fallback is None, store
    feed.end(signal.SIGKILL)
    feed = room.feed(*words)
    feed.sees("news adsplice 409 -: the channel is there already")
    room.write("index.m3u8", listed(1, 6))
    until(lambda: "s6.ts" in controller.shown("news"), 10, "the next list")
    assert not any("Removed" in line for line in feed.lines), feed.lines


def test_file_that_was_refused_is_not_given_again_by_a_later_feed(room):
    words = ("--decisions", f"{room.path}/decisions", "--keep", f"{room.path}/kept")
    origin, controller, feed = started(room, listed(0, 5), *words)
    controller.refusals[("PUT", "decisions")] = [(422, "J2 Shape break 0\n")]
    room.write("decisions/one.json", decided(("b1", 2)))
    feed.sees("news decisions/one.json 422 J2 Shape")
    until(lambda: "one.json" in kept_log(room), 20, "what a later feed has to know")
    feed.end(signal.SIGKILL)
    feed = room.feed("--channel", "news", "--origin", origin.url, "--at", controller.url, *words)
    feed.sees("news adsplice 409 -: the channel is there already")
    time.sleep(0.5)
    assert len(controller.puts("decisions")) == 1
    room.write("decisions/one.json", decided(("b1", 1)))
    feed.sees("news decisions/one.json 204 -: decides b1")


def test_a_new_channel_is_not_asked_to_forget_what_it_never_held(room):
    path = f"{room.path}/decisions"
    words = ("--decisions", path, "--keep", f"{room.path}/kept")
    origin, controller, feed = started(room, listed(0, 5, [("b1", 40, 4)]), *words)
    room.write("decisions/one.json", decided(("b1", 2)))
    feed.sees("news decisions/one.json 204 -: decides b1")
    until(lambda: "one.json" in kept_log(room), 20, "what a later feed has to know")
    feed.end(signal.SIGKILL)
    os.remove(f"{path}/one.json")
    controller.channels.clear()
    feed = room.feed("--channel", "news", "--origin", origin.url, "--at", controller.url, *words)
    feed.sees("news adsplice 204 -: the playlist is taken")
    assert controller.puts("decisions") == [decided(("b1", 2)).encode()], controller.puts("decisions")


def test_breaks_that_never_began_leave_room_once_they_are_long_over(room):
    controller = room.server(RulesController())
    feed = room.feed("--channel", "news", "--origin", room.write("index.m3u8", listed(0, 5)), "--at", controller.url, "--base", "http://h/i.m3u8",
                     "--decisions", f"{room.path}/decisions", "--keep", f"{room.path}/kept", "--signals", "no")
    feed.sees("news adsplice 204 -: the playlist is taken")
    for turn in range(20):  # (each is taken out of the list before it begins)
        room.write(f"decisions/{turn}.json", decided((f"b{turn}", 1)))
        feed.sees(f"204 -: decides b{turn}$")
        room.write("index.m3u8", listed(turn, turn + 5, [(f"b{turn}", 2 * turn + 40, 4)]))
        until(lambda turn=turn: f's{turn + 5}.ts' in controller.shown("news"), 10, "the list")
    feed.sees("news breaks/b2 204 Over: it was decided, left the playlist and never began; takes its pod back")
    assert {it.id for it in controller.edge.channels["news"].store.entries} == {f"b{turn}" for turn in range(3, 20)}, controller.edge.channels["news"].store
    kept = Kept(Path(room.path, "kept", "news.events"))
    kept.follow()
    assert not kept.refused and not kept.reasons, (kept.refused, kept.reasons)


def by_clock(first, last, breaks, ahead, is_each):
    """A list of segments `first` to `last` whose clock, and that of its `breaks`, is `ahead` by so many seconds; `is_each`: each segment states
    its instant, and not the first one alone."""
    text = listed(first, last, [(name, start + ahead, length) for name, start, length in breaks])
    text = text.replace(f"#EXT-X-PROGRAM-DATE-TIME:{instant(2 * first)}\n", "")
    for number in range(first, last + 1 if is_each else first + 1):
        text = text.replace(f"#EXTINF:2,\ns{number}.ts", f"#EXT-X-PROGRAM-DATE-TIME:{instant(2 * number + ahead)}\n#EXTINF:2,\ns{number}.ts")
    return text


def test_a_clock_that_changes_moves_announced_breaks_and_the_end_of_one_that_has_begun(room):
    breaks = [("b0", 12, 8), ("b1", 28, 4)]
    owed = [f"b0-{n - 6}.ts" if 6 <= n < 10 else f"b1-{n - 14}.ts" if 14 <= n < 16 else f"s{n}.ts" for n in range(22)]
    cases = [(changes, ahead, is_each) for changes in (8, 11) for ahead in ((-180, 0), (0, -180), (0, 7)) for is_each in (True, False)]
    controller, feeds = room.server(RulesController()), []
    for place, (changes, ahead, is_each) in enumerate(cases):
        room.write(f"c{place}/b.json", decided(("b0", 4), ("b1", 2)))
        origin = room.write(f"c{place}.m3u8", by_clock(0, 4, breaks, ahead[0], is_each))
        feeds.append(f"[c{place}]\norigin = {origin}\ndecisions = {room.path}/c{place}\n")
    feed = room.feed("--config", room.write("feed.ini", f"[DEFAULT]\nat = {controller.url}\nbase = http://h/i.m3u8\nkeep = {room.path}/kept\n" + "".join(feeds)))
    for newest in range(5, 22):  # (the clock changes with segment 8, within b0, or with segment 11, between both)
        for place, (changes, ahead, is_each) in enumerate(cases):
            if newest == changes and is_each:  # (the list is stated anew before its next segment comes; it is looked at four times in a second)
                room.write(f"c{place}.m3u8", by_clock(max(0, newest - 9), newest - 1, breaks, ahead[1], is_each))
                time.sleep(0.5)
            room.write(f"c{place}.m3u8", by_clock(max(0, newest - 8), newest, breaks if newest < 18 else (), ahead[newest >= changes], is_each))
        for place, case in enumerate(cases):
            try:
                until(lambda place=place: controller.shown(f"c{place}").rstrip("\n").endswith("/" + owed[newest]), 60, f"{owed[newest]} of {case}")
            except AssertionError as fault:
                lines = [line for line in feed.lines if f" c{place} " in line]
                raise AssertionError("\n".join([str(fault), controller.shown(f"c{place}"), *lines])) from None
    assert not any(" adsplice 4" in line for line in feed.lines), feed.lines
    for place in range(6):  # (what has begun keeps its START-DATE, by which the as-run log finds it)
        bodies = b"".join(body for method, path, body in controller.asked if path == f"/channels/c{place}/origin")
        assert len(set(re.findall(rb'ID="b0",START-DATE="([^"]+)"', bodies))) == 1, cases[place]


def test_a_feed_shows_that_it_goes_on(room):
    origin, controller, feed = started(room, listed(0, 5), "--keep", f"{room.path}/kept")
    path, kept = Path(room.path, "kept", "news.beat"), kept_of(room)
    for _ in range(4):  # (its list doesn't change, and nothing is kept)
        before = path.stat().st_mtime
        until(lambda before=before: path.stat().st_mtime > before, 5, "a sign")
    feed.process.send_signal(signal.SIGSTOP)  # (it hangs)
    time.sleep(2.2)
    at = kept.written_at(".beat")
    feed.process.send_signal(signal.SIGCONT)
    assert 2 < time.time() - at < 10 and kept.written_at(".events") < at and kept.written_at(".nothing") is None
    origin.mode = "silent"  # (an origin that doesn't answer isn't a feed that hangs)
    before = time.time()
    until(lambda: path.stat().st_mtime > before + 2, 10, "a sign")


def test_a_new_file_of_events_begins_with_what_holds(room):
    from dataclasses import replace
    from adsplice_plant.decided import decide
    from adsplice_plant.fed import Limits
    from adsplice_plant.settings import ladder_of
    from adsplice_plant.shell import Feeding
    from adsplice_plant.turn import Turn
    words = {"origin": "http://a.example/i.m3u8 http://b.example/i.m3u8", "at": "http://h.example", "decisions": f"{room.path}/d", "keep": room.path}
    it = Feeding(ladder_of("news", words), Limits(), lambda line: None)
    turn = Turn(it.state, 0.0, 0)
    for body, kind, ids in ((decided(("b1", 1)), "breaks", ("b1",)), (decided(("b2", 1)), "breaks", ("b2",)), ('{"withdraw": "b2"}', "withdraw", ("b2",))):
        decide(turn, {"news": body.encode()}, kind, ids)
    it.state, it.channels["news"].reading.origin.place = replace(turn.state, is_apart=frozenset({"news"})), 1
    found = [(one.what, one.status, one.body) for one in it.channels["news"].opening()]
    assert found == [("channel", 201, '{"base": "http://a.example/i.m3u8"}'), ("place", 2, ""), ("apart", 1, ""), ("decisions", 204, decided(("b1", 1)))], found


def test_signals_end_it_at_once_with_status_0(room):
    for number in (signal.SIGTERM, signal.SIGINT, signal.SIGHUP):
        origin, controller, feed = started(room, listed(0, 5))
        begun = time.monotonic()
        assert feed.end(number) == 0
        assert time.monotonic() - begun < 3


def test_several_channels_by_a_file(room):
    origins, controller = [room.server(FakeOrigin(listed(0, 5, name=it))) for it in "ab"], room.server(FakeController())
    sections = "".join(f"[{name}]\norigin = {origin.url}\n" for name, origin in zip("ab", origins))
    feed = room.feed("--config", room.write("feed.ini", f"[DEFAULT]\nat = {controller.url}\nkeep = {room.path}/kept\n{sections}"))
    for name in "ab":
        feed.sees(f" {name} adsplice 204 -: the playlist is taken")
        path = f"{room.path}/kept/{name}.events"
        kept = until(lambda: (lambda found: found if len(found) > 2 else None)([json.loads(line) for line in open(path, encoding="utf-8")]))
        assert [it["what"] for it in kept] == ["channel", "channel", "origin"], kept
        assert kept[2]["body"] == listed(0, 5, name=name) and kept[2]["status"] == 204
    origins[0].mode = "silent"
    origins[1].text = listed(1, 6, name="b")
    until(lambda: listed(1, 6, name="b").encode() in controller.puts("origin"), 3, "b's list, though a's origin is silent")


def test_lines_have_levels_if_journald_reads_them(room):
    origin, controller = room.server(FakeOrigin(listed(0, 5))), room.server(FakeController())
    path = room.write("journal", "")
    with open(path, "w", encoding="utf-8") as it:
        found = os.fstat(it.fileno())
        feed = subprocess.Popen([PYTHON, f"{PLANT}/adsplice-feed", "--channel", "news", "--origin", origin.url, "--at", controller.url, "--longest-pause", "1"], stdin=subprocess.DEVNULL,
                                stdout=it, stderr=subprocess.DEVNULL, env={**os.environ, "JOURNAL_STREAM": f"{found.st_dev}:{found.st_ino}"})
    room.running.append(feed)
    for pattern in (r"^<6>\S+ news adsplice 201 -: ", r"^<6>\S+ news adsplice 204 -: ", r"^<4>\S+ news origin 503 -: "):
        until(lambda pattern=pattern: re.search(pattern, open(path, encoding="utf-8").read(), re.M), 20, pattern)
        origin.status = 503 if controller.puts("origin") else 200


def test_wrong_words_are_one_line_and_a_status(room):
    path = room.write("feed.ini", "[news]\norigin = http://127.0.0.1/\nat = http://127.0.0.1:1\nfalback = x\n")
    for words, status, text in (
            (["--config", path], 1, "there is no setting falback"), (["--config", f"{room.path}/no.ini"], 1, "No such file"),
            (["--channel", "News", "--origin", "a", "--at", "http://h"], 2, "isn't 1 to 32 of"), (["--channel", "news"], 2, "are needed"),
            (["--channel", "n", "--origin", "x.m3u8", "--at", "http://h"], 1, "needs base"), (["--channel", "n", "--origin", "http://h", "--at", "h"], 2, "isn't a URL"),
            (["--channel", "n", "--origin", "http://h/", "--at", "http://h", "--decisions", f"{path}/d"], 1, "Not a directory"),
            (["--channel", "n", "--origin", "http://h/", "--at", "http://h:99999"], 2, "its port")):
        found, out, err = room.run("adsplice-feed", *words)
        assert (found, out) == (status, "") and text in err and "Traceback" not in err, (words, found, err)
        assert status == 2 or err.count("\n") == 1, err


def test_numbers_go_on_though_the_answer_to_the_making_is_lost(room):
    controller, viewers, breaks = room.server(RulesController()), Viewers(), [("b1", 8, 4)]
    room.write("decisions/one.json", decided(("b1", 2)))
    playlist = room.write("index.m3u8", listed(0, 3, breaks))
    feed = room.feed("--channel", "news", "--origin", playlist, "--base", "http://origin.example/ch/index.m3u8", "--at", controller.url, "--decisions", f"{room.path}/decisions",
                     "--timeout", "1", "--longest-pause", "1")
    after = feed.sees("204 -: the playlist is taken")
    for newest in range(6, 20):
        if newest == 16:  # (the break has left the list, and with it two discontinuities)
            controller.kill()
            controller.lost = "/channels/news"
        room.write("index.m3u8", listed(max(0, newest - 7), newest, breaks if newest < 13 else ()))
        until(lambda newest=newest: f"s{newest}.ts" in controller.shown("news"), 20, f"segment {newest}")
        viewers.see(controller.shown("news"))
    assert feed.sees("news adsplice 409 -: the channel is there already", 5, after) and viewers.had[19] == ("http://origin.example/ch/s19.ts", 2), viewers.had[19]


@needs(*PROGRAM)
def test_goes_on_after_adsplice_was_killed(room):
    port = free_port()
    first = room.adsplice(port)
    os.makedirs(f"{room.path}/decisions")
    room.write("decisions/one.json", decided(("b1", 2)))
    playlist = room.write("index.m3u8", listed(0, 3, [("b1", 8, 4)]))
    feed = room.feed("--channel", "news", "--origin", playlist, "--base", "http://origin.example/ch/index.m3u8", "--at", f"http://127.0.0.1:{port}",
                     "--decisions", f"{room.path}/decisions", "--fallback", room.write("f.json", FALLBACK))
    feed.sees("204 -: the playlist is taken")
    room.write("index.m3u8", listed(0, 6, [("b1", 8, 4)]))
    before = until(lambda: (lambda it: it if "b1-1.ts" in it else None)(get(f"http://127.0.0.1:{port}/channels/news/live.m3u8")[1]))
    assert get(f"http://127.0.0.1:{port}/channels/news/why")[1] == "b1\tFilled\n"
    first.kill()
    first.wait()
    time.sleep(0.2)
    room.adsplice(port)
    room.write("index.m3u8", listed(0, 7, [("b1", 8, 4)]))
    after = until(lambda: (lambda it: it[1] if it[0] == 200 else None)(get(f"http://127.0.0.1:{port}/channels/news/live.m3u8")), 8, "the list")
    assert after.startswith(before.rstrip("\n")), (before, after)


@needs(*PROGRAM)
def test_goes_on_after_numbers_began_again(room):
    port = free_port()
    room.adsplice(port)
    playlist = room.write("index.m3u8", listed(50, 55))
    feed = room.feed("--channel", "news", "--origin", playlist, "--base", "http://origin.example/ch/index.m3u8", "--at", f"http://127.0.0.1:{port}")
    feed.sees("204 -: the playlist is taken")
    room.write("index.m3u8", listed(0, 5, name="t"))
    after = until(lambda: (lambda it: it if "/t5.ts" in it else None)(get(f"http://127.0.0.1:{port}/channels/news/live.m3u8")[1]), 6, "the new list")
    assert "#EXT-X-MEDIA-SEQUENCE:56\n" in after and after.count("#EXT-X-DISCONTINUITY\n") == 1, after
    assert not any(" 409 " in line for line in feed.lines), feed.lines


@needs(*PROGRAM)
def test_goes_on_without_what_it_kept(room):
    port = free_port()
    room.adsplice(port)
    playlist = room.write("index.m3u8", listed(50, 55))
    words = ("--channel", "news", "--origin", playlist, "--base", "http://origin.example/ch/index.m3u8", "--at", f"http://127.0.0.1:{port}")
    feed = room.feed(*words)
    feed.sees("204 -: the playlist is taken")
    room.write("index.m3u8", listed(0, 5, name="t"))
    feed.sees("goes on at 56 with one discontinuity")
    until(lambda: "/t5.ts" in get(f"http://127.0.0.1:{port}/channels/news/live.m3u8")[1], 10, "the list of which that is told")
    feed.end(signal.SIGKILL)
    room.write("index.m3u8", listed(1, 6, name="t"))
    feed = room.feed(*words)
    feed.sees("news adsplice 409 N5 Back")
    room.write("index.m3u8", listed(2, 7, name="t"))
    feed.sees("news numbers - Found: adsplice holds other numbers than the feed knew: goes on at 62 with one discontinuity")
    room.write("index.m3u8", listed(3, 8, name="t"))
    after = until(lambda: (lambda it: it if "/t8.ts" in it else None)(get(f"http://127.0.0.1:{port}/channels/news/live.m3u8")[1]), 6, "the next list")
    assert "#EXT-X-MEDIA-SEQUENCE:63\n" in after, after


@needs(*PROGRAM)
def test_packager_that_turns_to_other_sections_needs_a_new_channel(room):
    port = free_port()
    room.adsplice(port)
    playlist, at = room.write("index.m3u8", listed(50, 55)), f"http://127.0.0.1:{port}/channels/news"
    feed = room.feed("--channel", "news", "--origin", playlist, "--base", "http://origin.example/ch/index.m3u8", "--at", f"http://127.0.0.1:{port}")
    feed.sees("204 -: the playlist is taken")
    text = listed(0, 5, name="t").replace("#EXTINF", '#EXT-X-MAP:URI="i.mp4"\n#EXTINF', 1)
    room.write("index.m3u8", text)
    feed.sees("news list - Untaken: initialisation sections .EXT-X-MAP. came or went, .*a person makes a new channel by a DELETE")
    urllib.request.urlopen(urllib.request.Request(at, method="DELETE")).close()
    room.write("index.m3u8", text.replace("SEQUENCE:0", "SEQUENCE:1").replace("#EXTINF:2,\nt0.ts\n", "") + "#EXTINF:2,\nt6.ts\n")
    after = until(lambda: (lambda it: it if "/t6.ts" in it else None)(get(f"{at}/live.m3u8")[1]), 6, "the new list")
    media, left = (int(re.search(f"#EXT-X-{name}-SEQUENCE:([0-9]+)", after)[1]) if f"#EXT-X-{name}-SEQUENCE" in after else 0 for name in ("MEDIA", "DISCONTINUITY"))
    assert media in (56, 57) and left + after.count("#EXT-X-DISCONTINUITY\n") == 1, after  # (57 if the list before was pushed, too)
