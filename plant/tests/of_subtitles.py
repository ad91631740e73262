"""Tests of subtitles: their pods are made of the pictures' ones, without words (RFC 8216, 3.5 and 4.3.4.1)."""
import json
import sys

from tools import PLANT, RulesController, decided, listed, until

sys.path.insert(0, PLANT)

NEEDS = ("httpx",)
EMPTY = "http://viewers.example/empty.vtt"
BASE = "http://origin.example/film/master.m3u8"
MASTER = """#EXTM3U
#EXT-X-MEDIA:TYPE=SUBTITLES,GROUP-ID="s",NAME="English",URI="words.m3u8"
#EXT-X-STREAM-INF:BANDWIDTH=6000000,SUBTITLES="s"
hd.m3u8
#EXT-X-STREAM-INF:BANDWIDTH=3000000,SUBTITLES="s"
sd.m3u8
"""


def pieces(*lengths, uri=EMPTY):
    """An ad's segments at one `uri`."""
    return {"segments": [{"uri": uri, "duration": it} for it in lengths]}


def test_pods_without_words(room):
    from adsplice_plant.subtitles import without_words
    ad = {"id": "CAR0001H", "segments": [{"uri": "http://ads.example/1.ts", "duration": "4.004"}, {"uri": "http://ads.example/2.ts", "duration": 6.0, "key": {"method": "NONE"}}]}
    said = json.dumps({"breaks": [{"id": "b", "ads": [ad, pieces("2", uri="http://ads.example/3.ts")]}]}).encode()
    assert json.loads(without_words(said, EMPTY, 6)) == {"breaks": [{"id": "b", "ads": [{"id": "CAR0001H", **pieces("4.004", "6")}, pieces("2")]}]}
    # (10.004 s in pieces of at most 4 s: three, of which the last one has what is left)
    assert json.loads(without_words(said, EMPTY, 4))["breaks"][0]["ads"][0]["segments"] == pieces("3.335", "3.335", "3.334")["segments"]
    fallback = json.dumps({"fallback": {"ads": [ad]}}).encode()
    assert json.loads(without_words(fallback, EMPTY, 6)) == {"fallback": {"ads": [{"id": "CAR0001H", **pieces("4.004", "6")}]}}
    for other in (b'{"withdraw": "b"}', b'{"fallback": null}'):
        assert json.loads(without_words(other, EMPTY, 6)) == json.loads(other)
    for wrong in (b"{", b"[]", b'{"breaks": [{"id": "b", "ads": [{"segments": [{"uri": "u", "duration": "x"}]}]}]}', b'{"breaks": 3}', b"[" * 100_000):
        assert without_words(wrong, EMPTY, 6) == wrong, wrong[:40]


def text(said):
    """The decision file that was `said`, in one spelling."""
    return json.dumps(json.loads(said), sort_keys=True)


def test_subtitles_show_no_words_over_an_ad(room):
    controller = room.server(RulesController())
    breaks = [("break-1", 12, 6)]
    for name in ("words", "hd", "sd"):
        room.write(f"{name}.m3u8", listed(0, 5, name=name))
    room.write("master.m3u8", MASTER)
    feed = room.feed("--channel", "film", "--origin", f"{room.path}/master.m3u8", "--base", BASE, "--at", controller.url, "--master", f"{room.path}/viewers.m3u8",
                     "--viewers", "http://viewers.example", "--decisions", f"{room.path}/{{}}/decisions", "--longest-pause", "1")
    feed.sees("film master - -: 3 renditions are channels, film-1 to film-3")
    for place in (1, 2, 3):
        feed.sees(f"film-{place} adsplice 204 -: the playlist is taken")
    for place in (2, 3):  # (the pictures)
        room.write(f"{place}/decisions/break-1.json", decided(("break-1", 3)))
    feed.sees("film decisions/break-1.json - -: decides break-1 in all renditions")
    for name in ("words", "hd", "sd"):
        room.write(f"{name}.m3u8", listed(1, 9, breaks, name=name))

    def shown(place):
        """The segments that viewers have of a rendition, with their numbers."""
        with controller.lock:
            return [(it.media, it.discontinuity, it.piece.segment.uri) for it in controller.edge.channels[f"film-{place}"].window()]

    pods = {1: [EMPTY] * 3, 2: [f"http://ads.example/break-1-{it}.ts" for it in range(3)], 3: [f"http://ads.example/break-1-{it}.ts" for it in range(3)]}
    until(lambda: all([uri for _, _, uri in shown(place) if uri == EMPTY or "ads.example" in uri] == pods[place] for place in pods), 10, "the pod in each rendition")
    numbers = [[it[:2] for it in shown(place)] for place in pods]
    assert numbers[0] == numbers[1] == numbers[2], numbers


def test_subtitles_have_a_pod_of_their_own_if_somebody_decides_it(room):
    from adsplice_plant import programme
    from adsplice_plant.events import Began, FolderRead, ListRead
    from adsplice_plant.settings import ladder_of
    from adsplice_plant import masters, state
    found = ladder_of("film", {"origin": BASE, "at": "http://127.0.0.1:1", "master": f"{room.path}/viewers.m3u8", "viewers": "http://viewers.example", "decisions": f"{room.path}/{{}}"})[0]
    channels = masters.channels_of(masters.read(MASTER.encode(), BASE), found, {})
    own = json.dumps({"breaks": [{"id": "break-1", "ads": [pieces("2", "2", "2", uri="http://ads.example/words.vtt")]}]})
    for is_own in (False, True):
        it = state.begin(channels, 10**8)
        it, _ = programme.step(it, Began(), 0.0, 0)
        for name in ("film-1", "film-2", "film-3"):
            it, _ = programme.step(it, ListRead(name, listed(0, 5, name=name).encode()), 0.1, 0)
        for name in ("film-1", "film-2", "film-3") if is_own else ("film-2", "film-3"):
            body = own if name == "film-1" else decided(("break-1", 3))
            it, _ = programme.step(it, FolderRead(name, {"break-1.json": ((1, 1, 1), body.encode())}), 0.2, 0)
        given = {name: text(body) for name, body in it.decisions[-1].bodies.items()} if it.decisions else {}
        owed = own if is_own else json.dumps({"breaks": [{"id": "break-1", "ads": [pieces("2", "2", "2")]}]})
        assert given.get("film-1") == text(owed) and given.get("film-2") == text(decided(("break-1", 3))), given
        for name in ("film-2", "film-3"):  # (written anew, with a piece less)
            it, _ = programme.step(it, FolderRead(name, {"break-1.json": ((2, 2, 2), decided(("break-1", 2)).encode())}), 0.3, 0)
        given = {name: text(body) for name, body in it.decisions[-1].bodies.items()}
        assert is_own or given["film-1"] == text(json.dumps({"breaks": [{"id": "break-1", "ads": [pieces("2", "2")]}]})), given


def test_a_file_of_subtitles_that_is_seen_after_the_others_is_not_late(room):
    """The answer is written into one folder after the other, and a look comes between. The pictures' file is enough, so the break has begun once the subtitles' own is seen."""
    from dataclasses import replace
    from adsplice_plant import state
    from adsplice_plant.events import FolderRead
    from of_slate import Steps, settings_of
    it = Steps("s", "v", slate=None)
    words, pictures = settings_of("s", "v", slate=None)
    it.state = state.begin([replace(words, empty_subtitles=EMPTY), pictures], 10**8)
    it.begin()
    it.list(listed(0, 5))
    body = decided(("break-1", 3)).encode()
    it.take(FolderRead("news-v", {"break-1.json": ((1, 1, 1), body)}))
    it.list(listed(1, 9, [("break-1", 12, 6)]))
    entered = {name: one.stands.pods.entered for name, one in it.state.renditions.items()}
    assert all("break-1" in pods for pods in entered.values()), entered
    it.take(FolderRead("news-s", {"break-1.json": ((1, 1, 2), body)}))
    assert not [line for line in it.lines if "Late" in line], it.lines
    assert entered == {name: one.stands.pods.entered for name, one in it.state.renditions.items()}
