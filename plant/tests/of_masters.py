"""Tests of a master playlist as the origin: what is read of it, what viewers get, and a feed of its renditions."""
import json
import os
import signal
import sys
import threading
import time

from tools import PLANT, FakeController, RulesController, apart, listed, until

sys.path.insert(0, PLANT)
from adsplice_plant.words import Fault  # noqa: E402

NEEDS = ("httpx",)  # which the module `masters` imports, too
BASE = "http://origin.example/film/master.m3u8"
MASTER = """#EXTM3U
#EXT-X-VERSION:6
#EXT-X-INDEPENDENT-SEGMENTS
#EXT-X-SESSION-KEY:METHOD=SAMPLE-AES,URI="key"
#EXT-X-MEDIA:TYPE=AUDIO,GROUP-ID="a",NAME="English",LANGUAGE="en",DEFAULT=YES,AUTOSELECT=YES,URI="en/index.m3u8"
#EXT-X-MEDIA:TYPE=AUDIO,GROUP-ID="b",NAME="In the picture's file"
#EXT-X-MEDIA:TYPE=SUBTITLES,GROUP-ID="s",NAME="English",URI="subtitles/en.m3u8"
#EXT-X-STREAM-INF:BANDWIDTH=6000000,RESOLUTION=1920x1080,CODECS="avc1.640028,mp4a.40.2",AUDIO="a",SUBTITLES="s",X-OWN="1,2"
#EXT-X-OWN:anything
1080/index.m3u8?t=1
#EXT-X-STREAM-INF:BANDWIDTH=3000000,RESOLUTION=1280x720,CODECS="avc1.64001f,mp4a.40.2",AUDIO="a"
http://other.example/720/index.m3u8
#EXT-X-STREAM-INF:BANDWIDTH=5900000,RESOLUTION=1920x1080,CODECS="avc1.640028",AUDIO="b"
1080/index.m3u8?t=1
#EXT-X-I-FRAME-STREAM-INF:BANDWIDTH=100000,URI="1080/iframes.m3u8"
"""
WRITTEN = """#EXTM3U
#EXT-X-VERSION:6
#EXT-X-INDEPENDENT-SEGMENTS
#EXT-X-SESSION-KEY:METHOD=SAMPLE-AES,URI="http://origin.example/film/key"
#EXT-X-MEDIA:TYPE=AUDIO,GROUP-ID="a",NAME="English",LANGUAGE="en",DEFAULT=YES,AUTOSELECT=YES,URI="/en"
#EXT-X-MEDIA:TYPE=AUDIO,GROUP-ID="b",NAME="In the picture's file"
#EXT-X-MEDIA:TYPE=SUBTITLES,GROUP-ID="s",NAME="English",URI="http://origin.example/film/subtitles/en.m3u8"
#EXT-X-STREAM-INF:BANDWIDTH=6000000,RESOLUTION=1920x1080,CODECS="avc1.640028,mp4a.40.2",AUDIO="a",SUBTITLES="s",X-OWN="1,2"
#EXT-X-OWN:anything
/1080
#EXT-X-STREAM-INF:BANDWIDTH=3000000,RESOLUTION=1280x720,CODECS="avc1.64001f,mp4a.40.2",AUDIO="a"
/720
#EXT-X-STREAM-INF:BANDWIDTH=5900000,RESOLUTION=1920x1080,CODECS="avc1.640028",AUDIO="b"
/1080
"""


def test_a_master_playlist_keeps_all_but_i_frames(room):
    from adsplice_plant import masters
    found = masters.read(MASTER.encode(), BASE)
    assert found.uris == ["en/index.m3u8", "subtitles/en.m3u8", "1080/index.m3u8?t=1", "http://other.example/720/index.m3u8"], found.uris
    assert found.groups == {"en/index.m3u8": "AUDIO", "subtitles/en.m3u8": "SUBTITLES"} and found.left_out == {"EXT-X-I-FRAME-STREAM-INF"}
    owed = WRITTEN.replace("http://origin.example/film/subtitles/en.m3u8", "/words")
    assert masters.write(found, dict(zip(found.uris, ("/en", "/words", "/1080", "/720")))).decode() == owed
    assert not found.has_captions and not found.has_others
    captions = '#EXT-X-MEDIA:TYPE=CLOSED-CAPTIONS,GROUP-ID="c",NAME="English",INSTREAM-ID="CC1"\n'
    assert masters.read((MASTER + captions).encode(), BASE).has_captions


def test_subtitles_stay_at_the_origin_if_no_empty_piece_is_known(room):
    from adsplice_plant import masters
    from adsplice_plant.settings import ladder_of
    said = {"origin": BASE, "at": "http://127.0.0.1:1", "master": f"{room.path}/viewers.m3u8"}
    types = masters.types_of(ladder_of("film", said)[0])
    found = masters.read(MASTER.encode(), BASE, types)
    assert types == ("AUDIO", "VIDEO") and found.has_others and found.uris == ["en/index.m3u8", "1080/index.m3u8?t=1", "http://other.example/720/index.m3u8"]
    assert masters.write(found, dict(zip(found.uris, ("/en", "/1080", "/720")))).decode() == WRITTEN
    for more, uri in (({"viewers": "https://tv.example/x"}, "https://tv.example/x/empty.vtt"), ({"empty_subtitles": "http://ads.example/no.vtt"}, "http://ads.example/no.vtt")):
        programme = ladder_of("film", {**said, **more})[0]
        channels = masters.channels_of(masters.read(MASTER.replace("http://other.example/", "").encode(), BASE, masters.types_of(programme)), programme)
        assert [it.empty_subtitles for it in channels] == ["", uri, "", ""] and [it.group for it in channels] == ["AUDIO", "SUBTITLES", "", ""]


def test_what_is_no_master_playlist_is_told(room):
    from adsplice_plant import masters
    for body, text in ((listed(0, 5), "it names no rendition"), ("<html>", "it isn't a playlist"), ("", "it isn't a playlist"),
                       ("#EXTM3U\n" + "".join(f"#EXT-X-STREAM-INF:BANDWIDTH=1\n{it}.m3u8\n" for it in range(65)), "more than 64 renditions")):
        try:
            masters.read(body.encode(), BASE)
            raise AssertionError(body[:40])
        except Fault as fault:
            assert text in str(fault), fault


def test_renditions_of_a_master_playlist_are_channels(room):
    controller = room.server(FakeController())
    for name in ("en", "1080", "720"):
        room.write(f"{name}/index.m3u8", listed(0, 5, name=name))
    room.write("subtitles/en.m3u8", listed(0, 5, name="words"))
    words = ("--channel", "film", "--origin", f"{room.path}/master.m3u8", "--base", BASE, "--at", controller.url, "--master", f"{room.path}/viewers.m3u8",
             "--viewers", "http://viewers.example", "--decisions", f"{room.path}/{{}}/decisions", "--longest-pause", "1")
    feed = room.feed(*words)
    feed.sees("film master - Unread: .*No such file")
    room.write("master.m3u8", MASTER.replace("http://other.example/", ""))
    feed.sees("film master - -: 4 renditions are channels, film-1 to film-4; viewers load .*/viewers.m3u8; EXT-X-I-FRAME-STREAM-INF is left out")
    for it in (1, 2, 3, 4):
        feed.sees(f"film-{it} adsplice 204 -: the playlist is taken")
    with controller.lock:
        bases = sorted((path, json.loads(body)["base"]) for method, path, body in controller.asked if method == "PUT" and path.count("/") == 2)
    assert bases == [(f"/channels/film-{it}", f"http://origin.example/film/{uri}") for it, uri in enumerate(("en/index.m3u8", "subtitles/en.m3u8", "1080/index.m3u8?t=1", "720/index.m3u8"), 1)]
    with open(f"{room.path}/viewers.m3u8", encoding="utf-8") as it:
        text = it.read()
    assert text.count("http://viewers.example/channels/film-3/live.m3u8\n") == 2 and 'URI="http://viewers.example/channels/film-1/live.m3u8"' in text, text
    assert 'TYPE=SUBTITLES,GROUP-ID="s",NAME="English",URI="http://viewers.example/channels/film-2/live.m3u8"' in text, text
    room.write("720/index.m3u8", listed(1, 6, name="720"))
    until(lambda: any(b"7206.ts" in it for it in controller.puts("origin")), 5, "a list of film-4")


test_renditions_of_a_master_playlist_are_channels.needs = ("httpx",)


@apart  # (its channels tell lines)
def test_a_thread_is_watched_once_it_runs(room):
    from adsplice_plant import feed
    room.write("master.m3u8", MASTER.replace("http://other.example/", ""))
    said = feed.read_words(["--channel", "film", "--origin", f"{room.path}/master.m3u8", "--base", BASE, "--at", "http://127.0.0.1:1",
                            "--master", f"{room.path}/viewers.m3u8", "--hold", "1", "--timeout", "1"])
    feeds, faults = feed.Feeds(said), []
    feeds.start(feed.units_of(feed.channels_of(said, [])), faults)
    section = feeds.sections["film"]

    def watched():
        assert not feeds.ended() and not faults, (feeds.ended(), faults)
        return {it.name for it in section.threads + (section.feeding.threads if section.feeding else [])}

    until(lambda: watched() == {"film", "film-1", "film-2", "film-3"}, 10, "the programme's thread, and one for each rendition")
    section.feeding.threads.append(threading.Thread(name="film-2"))  # (one that doesn't run)
    assert feeds.ended() == "film-2"
    section.feeding.threads.pop()
    feeds.end(time.monotonic() + 5)
    assert not feeds.ending and not feeds.known and not feeds.ended()


test_a_thread_is_watched_once_it_runs.needs = ("httpx",)


# URIs of renditions that no list may name: by a master playlist at BASE, and by one that is a file; a part of what is told of each.
STRAYS = (
    ("v.m3u8 /etc/passwd", "has a space"), ("v.m3u8\u00a0/etc/passwd", "isn't printed"), ("v.m3u8\u2003/etc/passwd", "isn't printed"),
    ("http://127.0.0.1:23202/direct.m3u8", "of another host, port or scheme"), ("http://other.example/v.m3u8", "of another host, port or scheme"),
    ("//other.example/v.m3u8", "of another host, port or scheme"), ("http://origin.example:8080/v.m3u8", "of another host, port or scheme"),
    ("https://origin.example/v.m3u8", "of another host, port or scheme"), ("http://169.254.169.254/latest", "of another host, port or scheme"),
    ("file:///etc/passwd", "isn't a URL that begins with"), ("data:text/plain,x", "isn't a URL that begins with"),
    ("http://..[../v.m3u8", "isn't a URL"), ("//..[../v.m3u8", "isn't a URL"), ("http://[v1]/v.m3u8", "isn't"), ("http://a\u2100b/v.m3u8", "isn't"))
OF_FILES = (("/etc/passwd", "isn't in the master playlist's folder"), ("../v.m3u8", "isn't in the master playlist's folder"), ("a/../../v.m3u8", "isn't in the master playlist's folder"))


def named_by(uri, **settings):
    """The origin of the one rendition of a master playlist that names it by `uri`, and its second one; or why it isn't read."""
    from adsplice_plant import masters
    from adsplice_plant.settings import ladder_of
    programme = ladder_of("film", {"origin": BASE, "at": "http://127.0.0.1:1", "master": "/tmp/viewers.m3u8", **settings})[0]
    try:
        found = masters.channels_of(masters.read(f"#EXTM3U\n#EXT-X-STREAM-INF:BANDWIDTH=1\n{uri}\n".encode(), BASE), programme)[0]
    except Fault as fault:
        return str(fault)
    return str(found.origin), found.second or ""


def test_a_master_playlist_names_places_of_its_own_origin_alone(room):
    of_a_file = {"origin": f"{room.path}/master.m3u8", "base": BASE}
    for uri, owed in STRAYS:
        for said in (named_by(uri), named_by(uri, **of_a_file)):
            assert owed in said, (uri, said)
    for uri, owed in OF_FILES:
        assert owed in named_by(uri, **of_a_file), uri
    for uri, place in (("v.m3u8", "http://origin.example/film/v.m3u8"), ("/v.m3u8?a=1", "http://origin.example/v.m3u8?a=1"),
                       ("../v.m3u8", "http://origin.example/v.m3u8"), ("http://ORIGIN.example:80/v.m3u8", "http://ORIGIN.example:80/v.m3u8")):
        assert named_by(uri) == (place, ""), uri
    for uri, place in (("hd/v.m3u8?a=1", f"{room.path}/hd/v.m3u8"), ("./v.m3u8", f"{room.path}/v.m3u8"), ("http://origin.example/v.m3u8", "http://origin.example/v.m3u8")):
        assert named_by(uri, **of_a_file) == (place, ""), uri


def test_a_master_playlist_names_other_hosts_if_they_may_be_followed_and_never_this_machine(room):
    for uri in ("http://other.example/v.m3u8", "https://origin.example:8443/v.m3u8"):
        assert named_by(uri, redirects="yes") == (uri, ""), uri
    for host in ("127.0.0.1", "127.1", "2130706433", "0x7f000001", "0.0.0.0", "[::1]", "[::ffff:127.0.0.1]", "localhost"):
        said = named_by(f"http://{host}:8090/v.m3u8", redirects="yes")
        assert "an address of this machine: `networks` has it read" in said, (host, said)


def test_a_master_playlist_with_a_host_that_does_not_read_is_told(room):
    from adsplice_plant import masters
    from adsplice_plant.settings import ladder_of
    from adsplice_plant.web import Client
    for line in ('#EXT-X-SESSION-KEY:METHOD=SAMPLE-AES,URI="http://["\n#EXT-X-STREAM-INF:BANDWIDTH=1\nv.m3u8', "#EXT-X-STREAM-INF:BANDWIDTH=1\nhttp://["):
        said = {"origin": room.write("master.m3u8", f"#EXTM3U\n{line}\n"), "base": BASE, "at": "http://127.0.0.1:1", "master": f"{room.path}/viewers.m3u8"}
        lines, begun = [], []
        programme = masters.Programme(ladder_of("film", said)[0], Client(1), lines.append, masters.Feeds(begun.append, begun.append, lambda *_: None))
        assert not programme.look() and not begun and "film master - Refused: " in lines[0], lines


def test_names_of_a_master_playlist_s_renditions(room):
    from adsplice_plant import masters
    found = masters.read(MASTER.encode(), BASE)
    assert [*masters.names_of(found, [], {}).values()] == ["1", "2", "3", "4"]
    assert masters.names_of(found, ["en", "words", "hd", "sd"], {})["1080/index.m3u8"] == "hd"
    try:
        masters.names_of(found, ["en", "hd"], {})
        raise AssertionError("two names for four")
    except Fault as fault:
        assert "renditions names 2, and the master playlist has 4" in str(fault)
    status, _, err = room.run("adsplice-feed", "--channel", "film", "--origin", BASE, "--at", "http://127.0.0.1:1", "--master", f"{room.path}/no/viewers.m3u8")
    assert status == 1 and "there is no folder" in err and err.count("\n") == 1, err


test_names_of_a_master_playlist_s_renditions.needs = ("httpx",)


def test_a_long_master_playlist_takes_time_by_its_bytes(room):
    from adsplice_plant import masters
    one, many = b"#EXT-X-STREAM-INF:BANDWIDTH=1\n%s.m3u8\n", b"#EXT-X-SESSION-DATA:DATA-ID=\"a\",URI=\"s%d\"\n"
    for make, is_taken in ((lambda n: b"".join(one % b"%d" % it for it in range(n)), False), (lambda n: one % b"a" + b"".join(many % it for it in range(n)), None), (lambda n: one % b"a" + b"".join(many % it for it in range(n // 12)), True),
                           (lambda n: one % b"a" * n, True), (lambda n: one % (b"a" * 100) * (n // 3), True)):
        took = []
        for count in (3000, 12_000):
            begun = time.process_time()
            try:
                masters.read(b"#EXTM3U\n" + make(count), BASE)
                assert is_taken, count
            except Fault as fault:
                assert not is_taken and ("more than 64 renditions" if is_taken is False else "more than 1000 lines") in str(fault), fault
            took.append(time.process_time() - begun)
        assert took[1] < 7 * took[0] + 0.05 and took[1] < 1, took


def test_whoever_waits_at_the_written_master_playlist_holds_nobody_up(room):
    from adsplice_plant import masters
    from adsplice_plant.settings import ladder_of
    path = f"{room.path}/viewers.m3u8"
    one = ladder_of("film", {"origin": BASE, "at": "http://127.0.0.1:1", "master": path})[0]
    os.mkfifo(path)
    assert masters.written_names(one) == []  # (and returns)
    os.remove(path)
    room.write("viewers.m3u8", "#EXTM3U\n#EXT-X-STREAM-INF:BANDWIDTH=1\n/channels/film-1/live.m3u8\n#EXT-X-STREAM-INF:BANDWIDTH=2\n/channels/film-2/live.m3u8\n")
    assert masters.written_names(one) == ["film-1", "film-2"]


def test_a_fault_that_nobody_foresaw_ends_no_thread(room):
    from adsplice_plant import masters
    from adsplice_plant.settings import ladder_of
    from adsplice_plant.web import Client
    lines, ending, looks = [], threading.Event(), []
    one = masters.Programme(ladder_of("film", {"origin": BASE, "at": "http://127.0.0.1:1", "master": f"{room.path}/viewers.m3u8"})[0], Client(1), lines.append, None)

    def look():
        looks.append(1)
        if len(looks) == 3:
            ending.set()
        raise KeyError("nobody foresaw it")

    one.look = look
    one.run(ending, 0.1)
    assert len(looks) == 3 and len(lines) == 1 and "film master - Refused: KeyError: 'nobody foresaw it'; reads it again" in lines[0], lines


def test_renditions_keep_their_names_in_whatever_order_they_come(room):
    from adsplice_plant import renditions
    numbers = [str(it) for it in range(1, 6)]
    first = renditions.named({}, ["v/1.m3u8", "a.m3u8?t=1"], numbers)
    assert first == {"v/1.m3u8": "1", "a.m3u8": "2"}
    for uris, owed in (
            (["a.m3u8?t=2", "v/1.m3u8"], {"v/1.m3u8": "1", "a.m3u8": "2"}),  # another order, another token
            (["v/2.m3u8", "v/1.m3u8", "a.m3u8"], {"v/1.m3u8": "1", "a.m3u8": "2", "v/2.m3u8": "3"}),  # a new one
            (["v/1.m3u8", "v/2.m3u8"], {"v/1.m3u8": "1", "a.m3u8": "2", "v/2.m3u8": "3"})):  # a new one, and one that is gone keeps its name
        assert renditions.named(first, uris, numbers) == owed, (uris, renditions.named(first, uris, numbers))
    assert renditions.named({}, ["v.m3u8?q=1", "v.m3u8?q=2"], numbers) == {"v.m3u8?q=1": "1", "v.m3u8?q=2": "2"}  # told apart by their queries
    assert renditions.named(first, ["b", "c", "d", "e"], numbers) == {"a.m3u8": "2", "b": "3", "c": "4", "d": "5", "e": "1"}  # the oldest one's that is gone
    try:
        renditions.named({}, ["a", "b", "c"], ["en", "hd"])
        raise AssertionError("three of two names")
    except Fault as fault:
        assert "more than 2 renditions" in str(fault)


def test_names_of_renditions_are_kept(room):
    from pathlib import Path
    from adsplice_plant import renditions
    path = Path(room.path) / "kept" / "film.renditions"
    renditions.save(path, {"v.m3u8": "2", "a.m3u8": "1"})
    assert renditions.load(path) == {"v.m3u8": "2", "a.m3u8": "1"} and list(renditions.load(path)) == ["v.m3u8", "a.m3u8"]
    for text in ("", "[]", "{", '{"renditions": 3}', '{"renditions": [1]}', "[" * 100_000):
        path.write_text(text)
        assert renditions.load(path) == {}, text
    assert renditions.load(None) == {} and renditions.load(path.with_name("none")) == {}


def master_of(*names):
    """A master playlist of variants of these names."""
    return "#EXTM3U\n" + "".join(f"#EXT-X-STREAM-INF:BANDWIDTH={place + 1}\n{name}/index.m3u8\n" for place, name in enumerate(names))


def test_a_master_playlist_that_changes_each_time_changes_little(room):
    """What is fed goes on: others are fed once they stay, and once a minute at most. Names, lines and the file are bounded."""
    from adsplice_plant import masters
    from adsplice_plant.settings import ladder_of
    from adsplice_plant.web import Client
    for lasts, most in ((1, 0), (2, 0), (4, 10)):  # looks for which it stays as it is
        begun, changes, lines = [], [], []
        feeds = masters.Feeds(begun.append, changes.append, lambda *_: None)
        it = masters.Programme(ladder_of("film", {"origin": BASE, "at": "http://127.0.0.1:1", "master": f"{room.path}/viewers.m3u8"})[0], Client(1), lines.append, feeds)
        it.take(masters.read(master_of("hd", "sd").encode(), BASE), 0.0)
        for look in range(200):
            number = look // lasts
            it.take(masters.read(master_of("hd", f"r{number}", *(f"s{number}-{n}" for n in range(number % 60))).encode(), BASE), 3.0 * (look + 1))
        assert len(begun) == 1 and len(changes) <= most and (most == 0 or changes) and "film-1" in it.fed, (lasts, len(changes))
        assert len(it.names) <= 256 and max(map(len, lines)) < 1000, (len(it.names), max(map(len, lines)))


test_a_master_playlist_that_changes_each_time_changes_little.needs = ("httpx",)


def test_renditions_come_and_go_without_a_new_start(room):
    controller = room.server(FakeController())
    for name in ("hd", "sd", "low"):
        room.write(f"{name}/index.m3u8", listed(0, 5, name=name))
    room.write("master.m3u8", master_of("hd", "sd"))
    feed = room.feed("--channel", "film", "--origin", f"{room.path}/master.m3u8", "--base", BASE, "--at", controller.url, "--master", f"{room.path}/viewers.m3u8",
                     "--keep", f"{room.path}/kept", "--longest-pause", "1")
    feed.sees("film master - -: 2 renditions are channels, film-1 to film-2")
    feed.sees("film-2 adsplice 204 -: the playlist is taken")
    room.write("master.m3u8", master_of("low", "sd", "hd"))  # in another order, with a new one
    feed.sees("film master - Changed: film-3 is new; feeds them so once that stays for 5 s", 40)
    feed.sees("film master - Changes: film-3 is new; the others go on", 20)
    feed.sees("film-3 adsplice 204 -: the playlist is taken", 20)
    with open(f"{room.path}/viewers.m3u8", encoding="utf-8") as it:
        assert [line for line in it.read().splitlines() if line.startswith("/")] == [f"/channels/film-{it}/live.m3u8" for it in (3, 2, 1)]
    with controller.lock:
        made = [path for method, path, _ in controller.asked if method == "PUT" and path.count("/") == 2]
        first = {path.split("/")[2]: body for method, path, body in reversed(controller.asked) if path.endswith("/origin")}
    assert set(made) == {f"/channels/film-{it}" for it in (1, 2, 3)} and b"low0.ts" in first["film-3"] and b"hd0.ts" in first["film-1"], (made, first)
    room.write("hd/index.m3u8", listed(1, 6, name="hd"))
    until(lambda: any(b"hd6.ts" in it for it in controller.puts("origin")), 5, "a list of film-1")


def test_a_new_start_swaps_no_renditions_and_their_break_is_in_all(room):
    """The packager lists its variants in another order while the feed is down: each rendition goes on under its own URL, and the next break is in both."""
    controller = room.server(RulesController())
    breaks = [("b1", 12, 4), ("b2", 20, 4)]

    def push(newest):
        for name in ("hd", "sd"):
            room.write(f"{name}/index.m3u8", listed(max(0, newest - 7), newest, breaks, name=name))
    pod = [{"segments": [{"uri": f"http://ads.example/{{}}/{n}.ts", "duration": "2"} for n in range(2)]}]
    for number in (1, 2):
        os.makedirs(f"{room.path}/{number}")
        room.write(f"{number}/b.json", json.dumps({"breaks": [{"id": it[0], "ads": pod} for it in breaks]}).replace("{}", str(number)))
    words = ("--channel", "film", "--origin", f"{room.path}/master.m3u8", "--base", BASE, "--at", controller.url, "--master", f"{room.path}/viewers.m3u8", "--keep", f"{room.path}/kept",
             "--decisions", f"{room.path}/{{}}", "--longest-pause", "1")
    room.write("master.m3u8", master_of("hd", "sd"))
    push(5)
    feed = room.feed(*words)

    def shows(newest):
        push(newest)
        until(lambda: all(controller.shown(f"film-{it}").rstrip("\n").endswith(owed) for it, owed in ((1, f"hd{newest}.ts"), (2, f"sd{newest}.ts"))), 20, f"segment {newest} in both")
    shows(8)
    feed.end(signal.SIGTERM)
    room.write("master.m3u8", master_of("sd", "hd"))
    room.feed(*words).sees("film-2 adsplice 409 -: the channel is there already; goes on with it", 20)
    shows(13)
    texts = [controller.shown(f"film-{it}") for it in (1, 2)]
    assert "http://origin.example/film/hd/" in texts[0] and "/sd/" not in texts[0] and "/hd/" not in texts[1], texts
    assert [[line.rpartition("/")[2] for line in text.splitlines() if "ads.example" in line] for text in texts] == [["0.ts", "1.ts", "0.ts", "1.ts"]] * 2, texts
    with open(f"{room.path}/viewers.m3u8", encoding="utf-8") as it:
        assert [line for line in it.read().splitlines() if line.startswith("/")] == [f"/channels/film-{it}/live.m3u8" for it in (2, 1)]


test_renditions_come_and_go_without_a_new_start.needs = ("httpx",)
