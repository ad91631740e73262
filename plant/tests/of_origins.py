"""Tests of a second origin: when it is taken, what of its list, and when the first one is read again."""
import json
import sys
import time
from pathlib import Path

from tools import PLANT, FakeController, FakeOrigin, listed, until

sys.path.insert(0, PLANT)
from adsplice_plant import settings as told  # noqa: E402
from adsplice_plant.handover import Handover, absolute, from_segment  # noqa: E402
from adsplice_plant.kept import Kept  # noqa: E402
from adsplice_plant.location import Url  # noqa: E402
from adsplice_plant.origin import Read  # noqa: E402
from adsplice_plant.origins import Choice, Place, TwoOrigins  # noqa: E402
from adsplice_plant.playlist import read, read_instant  # noqa: E402
from adsplice_plant.reading import interval, pace_in  # noqa: E402
from adsplice_plant.words import Fault  # noqa: E402

NEEDS = ("httpx",)
BASE = 'http://b.example/ch/index.m3u8'


def test_an_origin_is_read_again_when_its_next_playlist_is_due(room):
    assert pace_in(b"#EXTM3U\n#EXTINF:9,\nz\n#EXTINF:6,\na\n#EXTINF:4.5,title\nb\n#EXTINF:5,\nc\n#EXTINF:1,\nd\n") == 4.5  # (the newest one may grow)
    assert pace_in(b"#EXTM3U\n#EXTINF:3,\na\n") == 3.0 and pace_in(b"#EXTM3U\n") is None and pace_in(b"#EXTINF:x,\na\n") is None
    assert interval(6, True, 4.0, 0) == 3.8 and interval(6, True, 60.0, 0) == 10.0 and interval(6, True, 0.1, 0) == 0.25
    assert [interval(6, True, 4.0, count) for count in (1, 2, 3, 4, 5, 40)] == [0.25, 0.5, 1.0, 2.0, 3.0, 3.0]
    assert interval(6, True) == 3.0 and interval(None, True) == 1.0 and interval(60, True) == 10.0 and interval(6, False, 4.0, 0) == 0.25


class Fake:
    """An origin that says what it is told to: `text`, or nothing new, or `why`."""

    def __init__(self, text=""):
        self.text, self.why, self.seen, self.asked = text, "", None, 0

    def read(self):
        self.asked += 1
        if self.why:
            return Read(status=503, why=self.why)
        if self.text == self.seen:
            return Read(status=304)
        self.seen = self.text
        return Read(self.text.encode(), 200)

    def forget(self):
        self.seen = None


class Two:
    """Two fake origins of lists of 2 s segments, a clock, and what was said."""

    def __init__(self, first, second, base="", choice=None):
        self.clock, self.said, self.fakes = 1000.0, [], (Fake(first), Fake(second))
        settings = told.settings_of("news", {"origin": "http://a.example/i.m3u8", "at": "http://127.0.0.1:1"})
        places = tuple(Place(it, where, settings, lambda: self.clock) for it, where in zip(self.fakes, ("", base)))
        self.origins = TwoOrigins(places, lambda *it: self.said.append(it), lambda: self.clock)
        if choice is not None:
            self.origins.join(choice)

    def turn(self, first=None, second=None):
        """A second passes, the lists are these from now on, and the origins are read."""
        self.clock += 1
        for it, text in zip(self.fakes, (first, second)):
            it.text = it.text if text is None else text
        found = self.origins.read()
        if self.origins.looking:
            self.origins.looking.join()
        return None if found.body is None else found.body.decode()


def uris(text):
    return [it.uri for it in read(text.encode()).segments]


def test_first_that_fails_for_a_target_duration(room):
    two = Two(listed(0, 5), listed(0, 5, name="t"))
    assert two.turn() == listed(0, 5) and two.fakes[1].asked == 0
    two.fakes[0].why = "the origin answers 503"
    two.clock += 1
    assert [two.turn(second=listed(n, n + 5, name="t")) for n in (0, 1)] == [None, None] and two.said == []
    found = [it for n in (2, 3, 4) if (it := two.turn(second=listed(n, n + 5, name="t")))]
    assert two.said == [(1, "the first origin fails (the origin answers 503); reads the second one")]
    assert uris(found[0])[0] == "t6.ts", "what the first origin showed (until s5) isn't shown again"
    assert found[0].index("#EXT-X-DISCONTINUITY\n") < found[0].index("t6.ts") and "#EXT-X-MEDIA-SEQUENCE:6\n" in found[0]


def test_second_is_taken_a_target_duration_after_the_first_failure(room):
    two = Two(listed(0, 5), listed(0, 5, name="t"))
    two.turn()
    two.fakes[0].why, begun = "the origin answers 503", two.clock + 1
    two.turn(second=listed(0, 6, name="t"))
    assert (two.origins.patience(), two.said) == (2, []), "a target duration after the first failure"
    two.turn(second=listed(1, 7, name="t"))
    assert (two.origins.patience(), two.said) == (1, [])
    two.turn()
    assert [it[0] for it in two.said] == [1] and two.clock == begun + 2


def test_feed_takes_the_second_a_target_duration_after_the_first_failure(room):
    first, second, controller = room.server(FakeOrigin(listed(0, 5))), room.server(FakeOrigin(listed(0, 9, name="t"))), room.server(FakeController())
    feed = room.feed("--channel", "news", "--origin", f"{first.url} {second.url}", "--at", controller.url)
    feed.sees("news adsplice 204 -: the playlist is taken")
    failed, first.status = time.time(), 503
    taken = read_instant(feed.lines[feed.sees("news origins - Second: the first origin fails") - 1].split(" ")[0]) / 1e9
    assert 1.9 < taken - failed < 5.5, taken - failed  # (it is looked at once in a second, and three target durations are 6 s)


def test_first_that_does_not_answer_is_waited_for_once(room):
    two = Two(listed(0, 5), listed(0, 9, name="t"))
    two.turn()

    def hang():
        two.clock += 5
        two.fakes[0].asked += 1
        return Read(why="no answer within 5 s")

    two.fakes[0].read, before = hang, two.fakes[0].asked
    two.turn()
    assert two.said == []
    two.turn()
    assert two.fakes[0].asked == before + 1 and two.said == [(1, "the first origin fails (no answer within 5 s); reads the second one")], two.said


def test_first_that_stands_still_for_three(room):
    two = Two(listed(0, 5), listed(0, 5))
    two.turn()
    for n in range(6):
        assert two.turn(second=listed(n // 2, 5 + n // 2)) is None and not two.said, n
    found = [it for n in range(6, 10) if (it := two.turn(second=listed(n // 2, 5 + n // 2)))]
    assert [it[0] for it in two.said] == [1] and "stands still for" in two.said[0][1]
    assert found[0] in (listed(3, 8), listed(4, 9)), "the same segments: its list as it is"


def test_second_that_stands_still_is_not_taken(room):
    text = listed(0, 5, name="t")
    two = Two(listed(10, 15), text)
    two.turn()
    two.fakes[0].why = "away"
    assert [two.turn() for _ in range(30)] == [None] * 30 and two.said == []
    assert two.fakes[1].asked > 10


def test_second_without_times_has_to_change(room):
    plain = [listed(n, n + 5, name="t").replace("#EXT-X-PROGRAM-DATE-TIME", "#X") for n in range(4)]
    two = Two(listed(10, 15), plain[0])
    two.turn()
    two.fakes[0].why = "away"
    assert [two.turn() for _ in range(5)] == [None] * 5
    found = [it for _ in range(3) if (it := two.turn(second=plain[1]))]
    assert uris(found[0]) == ["t4.ts", "t5.ts", "t6.ts"], "the newest three: nobody says what was shown"
    assert uris(two.turn(second=plain[2])) == ["t4.ts", "t5.ts", "t6.ts", "t7.ts"]


def test_back_once_the_first_has_been_well_for_a_minute(room):
    two = Two(listed(0, 5), listed(0, 5, name="t"))
    two.turn()
    two.fakes[0].why = "away"
    n = 6
    while not two.said:
        two.turn(second=listed(n, n + 5, name="t"))
        n += 1
    two.fakes[0].why, begun = "", two.clock
    while len(two.said) == 1 and two.clock < begun + 130:
        n += 1
        two.turn(listed(n, n + 5), listed(n, n + 5, name="t"))
        if two.clock == begun + 40:
            two.fakes[0].why = "away again"
            two.turn()
            two.fakes[0].why = ""
    assert two.said[1] == (0, "the first origin has been well for 60 s; reads it again") and 100 <= two.clock - begun <= 104, two.clock - begun


def test_first_is_read_again_at_once_if_the_second_fails(room):
    two = Two(listed(0, 5), listed(0, 5, name="t"))
    two.turn()
    two.fakes[0].why = "away"
    n = 6
    while not two.said:
        two.turn(second=listed(n, n + 5, name="t"))
        n += 1
    two.fakes[0].why, two.fakes[1].why = "", "away"
    for _ in range(9):
        n += 1
        two.turn(listed(n, n + 5))
    assert [it[0] for it in two.said] == [1, 0] and two.said[1][1].startswith("the second origin fails (away)"), two.said


def test_ended_list_does_not_stand_still(room):
    for end, owed in (("#EXT-X-PLAYLIST-TYPE:VOD\n", 0), ("", 1)):
        two = Two(listed(0, 5) + end + "#EXT-X-ENDLIST\n", listed(0, 5, name="t"))
        for n in range(20):
            two.turn(second=listed(n, n + 5, name="t"))
        assert len(two.said) == owed, end


def test_renditions_choose_together(room):
    choice = Choice()
    one, other = (Two(listed(0, 5), listed(0, 5, name="t"), choice=choice) for _ in range(2))
    one.turn()
    other.turn()
    one.fakes[0].why = "away"
    n = 6
    while not one.said and n < 40:
        one.turn(second=listed(n, n + 5, name="t"))
        other.turn(first=listed(n, n + 5), second=listed(n, n + 5, name="t"))
        n += 1
    other.turn()
    assert [it.said[-1][0] for it in (one, other)] == [1, 1] and choice.place == 1
    assert other.fakes[1].asked, "it reads its second origin, too"


def test_what_is_taken_of_another_list(room):
    shown = read_instant("2024-05-01T12:00:12Z")
    for text, owed in ((listed(0, 9), [f"s{n}.ts" for n in range(6, 10)]), (listed(6, 9), ["s6.ts", "s7.ts", "s8.ts", "s9.ts"]), (listed(0, 4), None),
                       (listed(0, 1), ["s0.ts", "s1.ts"]), (listed(3, 6).replace("12:00:06.000", "12:00:05.100"), ["s6.ts"]),
                       (listed(3, 6).replace("12:00:06.000", "12:00:06.900"), ["s6.ts"]), (listed(3, 6).replace("12:00:06.000", "12:00:07.100"), ["s5.ts", "s6.ts"])):
        found = Handover(shown).take(text.encode())
        assert (None if found is None else uris(found.decode())) == owed, (text, found)
    it = Handover(shown)
    assert [uris(it.take(listed(n, n + 5).encode()).decode())[0] for n in (3, 5, 6)] == ["s6.ts"] * 3
    assert it.take(listed(7, 12).encode()) == listed(7, 12).encode() and it.is_over


def test_from_a_segment_on(room):
    text = "".join(f"{it}\n" for it in (
        "#EXTM3U", "#EXT-X-VERSION:6", "#EXT-X-TARGETDURATION:2", "#EXT-X-MEDIA-SEQUENCE:7", '#EXT-X-DATERANGE:ID="b"', '#EXT-X-MAP:URI="i"', "#EXT-X-CUE-OUT:4",
        "#EXTINF:2,", "a.ts", '#EXT-X-KEY:METHOD=AES-128,URI="k"', "#EXT-X-DISCONTINUITY", "#EXT-X-GAP", "#EXTINF:2,", "b.ts", "#EXT-X-CUE-IN", "#EXTINF:2,", "c.ts", "#EXT-X-ENDLIST"))
    owed = ["#EXTM3U", "#EXT-X-VERSION:6", "#EXT-X-MEDIA-SEQUENCE:9", "#EXT-X-DISCONTINUITY-SEQUENCE:1", "#EXT-X-TARGETDURATION:2", '#EXT-X-DATERANGE:ID="b"', '#EXT-X-MAP:URI="i"',
            '#EXT-X-KEY:METHOD=AES-128,URI="k"', "#EXT-X-DISCONTINUITY", "#EXT-X-PROGRAM-DATE-TIME:2024-05-01T12:00:00.000Z", "#EXT-X-CUE-IN", "#EXTINF:2,", "c.ts", "#EXT-X-ENDLIST", ""]
    found = from_segment(text.encode(), 2, read_instant("2024-05-01T12:00:00Z")).decode().split("\n")
    assert sorted(found) == sorted(owed) and found[-7:] == owed[-7:] and found[0] == "#EXTM3U", found
    assert from_segment(b"#EXTM3U\r\n#EXTINF:2,\r\na.ts\r\n", 0, None) == b"#EXTM3U\r\n#EXT-X-DISCONTINUITY\n#EXTINF:2,\r\na.ts\r\n"


def test_references_by_the_second_origins_url(room):
    for line, owed in (("a.ts", "http://b.example/ch/a.ts"), ("/a.ts?x=1", "http://b.example/a.ts?x=1"), ("http://c/a.ts", "http://c/a.ts"), ("//[/a.ts", "//[/a.ts"),
                       ('#EXT-X-KEY:METHOD=AES-128,URI="k"', '#EXT-X-KEY:METHOD=AES-128,URI="http://b.example/ch/k"'), ('#EXT-X-MAP:URI="../i.mp4"', '#EXT-X-MAP:URI="http://b.example/i.mp4"'),
                       ('#EXT-X-MAP:URI="open', '#EXT-X-MAP:URI="open'), ('#EXT-X-DATERANGE:ID="a",X-ASSET-URI="u"', '#EXT-X-DATERANGE:ID="a",X-ASSET-URI="u"'), ("# a", "# a"), ("", ""),
                       ("\udcff.ts", "http://b.example/ch/\udcff.ts"), ("a.ts\r", "http://b.example/ch/a.ts\r")):
        assert absolute(f"#EXTM3U\n{line}\n".encode("utf-8", "surrogateescape"), BASE) == f"#EXTM3U\n{owed}\n".encode("utf-8", "surrogateescape"), line


def test_settings(room):
    said = {"origin": "http://a/i.m3u8  http://b/i.m3u8", "at": "http://h"}
    it = told.settings_of("news", said)
    assert (it.origin, it.second, it.base, it.second_base) == (Url("http://a/i.m3u8"), Url("http://b/i.m3u8"), "http://a/i.m3u8", "http://b/i.m3u8")
    assert told.settings_of("news", said | {"base": "http://cdn/i"}).second_base == "" and it.named == {"a", "b"}
    both = told.ladder_of("news", said | {"renditions": "1 2", "origin": "http://a/{}.m3u8 http://b/{}.m3u8"})
    assert [(it.origin, it.second) for it in both] == [(Url(f"http://a/{n}.m3u8"), Url(f"http://b/{n}.m3u8")) for n in (1, 2)]
    for more, text in (({"repair": "no"}, "a second origin needs repair"), ({"origin": "a b c", "base": "http://h"}, "origin is a URL or a file, or two"), ({"origin": " "}, "names no origin"), ({"origin": "http://a/\u00a0/etc/passwd"}, "a sign that isn't printed"),
                       ({"base": f"http://a/{'b' * 2048}"}, "base has at most 2048 bytes"), ({"networks": "10.0.0.1/8"}, "networks are such as 10.0.0.0/8 192.168.7.3"),
                       ({"origin": "http://a/ http://"}, "isn't a URL"), ({"origin": "http://a/{} http://b/", "renditions": "1 2"}, "origin needs {}")):
        try:
            told.ladder_of("news", said | more)
            raise AssertionError(more)
        except Fault as fault:
            assert text in str(fault), fault


def test_feed_goes_over_and_the_numbers_go_on(room):
    first, second, controller = room.server(FakeOrigin(listed(0, 5))), room.server(FakeOrigin(listed(100, 105, name="t"))), room.server(FakeController())
    feed = room.feed("--channel", "news", "--origin", f"{first.url} {second.url}", "--at", controller.url, "--timeout", "1.5", "--longest-pause", "1", "--keep", f"{room.path}/kept")
    feed.sees("news adsplice 204 -: the playlist is taken")
    first.status, second.text = 503, listed(0, 6, name="t").replace("SEQUENCE:0", "SEQUENCE:100")
    feed.sees("news origins - Second: the first origin fails .the origin answers 503.; reads the second one", 60)
    until(lambda: len(controller.puts("origin")) == 2, 30, "the second origin's list")
    text = controller.puts("origin")[1].decode()
    assert "#EXT-X-MEDIA-SEQUENCE:4\n" in text and text.count("#EXT-X-DISCONTINUITY\n") == 1, text
    assert uris(text) == ["s4.ts", "s5.ts", f"http://127.0.0.1:{second.port}/t6.ts"], text  # (three target durations)
    second.text = listed(3, 8, name="t").replace("SEQUENCE:3", "SEQUENCE:103")
    until(lambda: len(controller.puts("origin")) == 3, 10, "the next list")
    assert [it.rpartition("/")[2] for it in uris(controller.puts("origin")[2].decode())] == ["t6.ts", "t7.ts", "t8.ts"]
    assert not any(" Held: " in it for it in feed.lines) and sum(" origins " in it for it in feed.lines) == 1, feed.lines
    kept = Kept(Path(f"{room.path}/kept/news.events"))
    kept.follow()
    assert kept.origin == 2 and controller.count("DELETE", "/channels/news") == 0
    with open(kept.path, encoding="utf-8") as it:
        assert [one["status"] for line in it if (one := json.loads(line))["what"] == "place"] == [1, 1, 2]


def test_feed_that_begins_without_its_first_origin(room):
    second, controller = room.server(FakeOrigin(listed(0, 5, name="t"))), room.server(FakeController())
    feed = room.feed("--channel", "news", "--origin", f"{room.path}/none.m3u8 {second.url}", "--base", second.url, "--at", controller.url)
    feed.sees("news origins - Second: the first origin fails", 60)
    until(lambda: controller.puts("origin"), 30, "the second origin's list")
    assert controller.puts("origin")[0] == listed(0, 5, name="t").encode()


def test_figure_of_the_origin(room):
    from adsplice_plant.monitor import Figures, Processes
    from adsplice_plant.watch import Watch

    watches = [Watch(name, "", "", None, Kept(Path(name), origin=place)) for name, place in (("one", 0), ("first", 1), ("second", 2))]
    watched = type("Watched", (), {"all": lambda _: watches})()
    found = {(it.labels["channel"], it.labels["place"]): it.value for one in Figures(watched, Processes([])).pushes() if one.name == "adsplice_feed_origin" for it in one.samples}
    assert found == {("first", "first"): 1, ("first", "second"): 0, ("second", "first"): 0, ("second", "second"): 1}


test_figure_of_the_origin.needs = ("httpx", "prometheus_client")
