"""Tests of the slate: a pod that is shorter than its break is filled up by whole segments of it."""
import json
import sys
from pathlib import Path

from tools import PLANT, decided, listed

sys.path.insert(0, PLANT)

NEEDS = ()
SLATE = json.dumps({"fallback": {"ads": [{"segments": [{"uri": f"http://ads.example/slate-{it}.ts", "duration": "2"} for it in range(2)]}]}}).encode()


def settings_of(*names, **more):
    """The settings of a ladder of the renditions `names`, with `more` of them; of a channel by itself if there is one without a name."""
    from adsplice_plant.settings import ladder_of
    said = {"origin": "http://origin.example/{}/index.m3u8", "at": "http://127.0.0.1:1", "decisions": "/nowhere/{}", "slate": "/nowhere/slate.json", **more}
    return ladder_of("news", {**said, "renditions": " ".join(names)} if names != ("",) else {key: it.replace("{}", "a") for key, it in said.items()})


class Steps:
    """A programme of the renditions `names`, each event of which comes a tenth of a second after the last one; `more` are settings. It has the lines that
    were told, and the questions that were asked."""

    def __init__(self, *names, **more):
        from adsplice_plant import state
        from simulation.controller import Controller
        self.names, self.now, self.lines, self.asked, self.controller = names, 0.0, [], [], Controller()
        self.state = state.begin(settings_of(*names, **more), 10**8)

    def take(self, event):
        """Takes an event, and has a controller answer each request that follows."""
        from adsplice_plant import programme
        from adsplice_plant.events import Answered, Ask, Send, Tell
        from adsplice_rules.edge import Request
        events = [event]
        while events:
            self.now += 0.1
            self.state, actions = programme.step(self.state, events.pop(0), self.now, int(self.now * 10**9))
            self.lines += [f"{it.who} {it.fault or '-'}: {it.text}" for it in actions if isinstance(it, Tell)]
            self.asked += [it for it in actions if isinstance(it, Ask)]
            for it in (it for it in actions if isinstance(it, Send)):
                path = f"/channels/{it.channel}/{it.request.what.path}".rstrip("/")
                reply = self.controller.answer(Request(it.request.what.method, path, it.request.body))
                events.append(Answered(it.channel, it.request, reply.status, reply.body.partition("\n")[0], body=reply.body.encode()))

    def begin(self, **slates):
        """It begins, and has the slate; or that of `slates`, by the renditions' names."""
        from adsplice_plant.events import Began, SlateRead
        self.take(Began())
        for name, channel in zip(self.names, self.state.renditions):
            self.take(SlateRead(channel, slates.get(name, SLATE)))

    def list(self, text):
        """Each rendition's list is read."""
        from adsplice_plant.events import ListRead
        for channel in self.state.renditions:
            self.take(ListRead(channel, text.encode()))

    def decide(self, body):
        """Each rendition's folder has a decision file."""
        from adsplice_plant.events import FolderRead
        for channel in self.state.renditions:
            self.take(FolderRead(channel, {"b.json": ((1, 1, 1), body.encode())}))

    def pods(self, name):
        """The URIs of the pod that each rendition has of a break."""
        return [[one["uri"].rpartition("/")[2] for ad in json.loads(it.stands.pods.held.get(name, "[]")) for one in ad["segments"]] for it in self.state.renditions.values()]


def test_a_short_pod_is_filled_up_by_whole_segments(room):
    owed = ["break-1-0.ts", "break-1-1.ts", "slate-0.ts", "slate-1.ts", "slate-0.ts"]
    for names in (("",), ("hd", "sd")):
        for is_first in (True, False):  # (the decision comes before the break is known, or after)
            it = Steps(*names)
            it.begin()
            it.list(listed(0, 5))
            if is_first:
                it.decide(decided(("break-1", 2)))
            it.list(listed(0, 6, [("break-1", 20, 10.9)]))
            if not is_first:
                it.decide(decided(("break-1", 2)))
                it.list(listed(0, 7, [("break-1", 20, 10.9)]))
            assert it.pods("break-1") == [owed] * len(names), (names, is_first, it.pods("break-1"), it.lines)
            assert any("slate/break-1 -: the pod lasts 4 s of 10.9 s; fills it up by 3 segments of the slate" in one for one in it.lines), it.lines
            count = len(it.state.decisions)
            it.list(listed(1, 8, [("break-1", 20, 10.9)]))
            assert it.pods("break-1") == [owed] * len(names) and len(it.state.decisions) == count


def test_what_fits_is_left_and_what_is_longer_is_told(room):
    for length, owed, line in ((4, 2, None), (5.5, 2, None), (3.95, 2, None), (3, 2, "Longer: the pod lasts 4 s, and the break 3 s")):
        it = Steps("")
        it.begin()
        it.list(listed(0, 5))
        it.decide(decided(("break-1", 2)))
        it.list(listed(0, 6, [("break-1", 20, length)]))
        assert len(it.pods("break-1")[0]) == owed, (length, it.pods("break-1"))
        assert (line is None) == (not any(one.startswith("slate/") for one in it.lines)) and (line is None or any(line in one for one in it.lines)), (length, it.lines)


def test_renditions_without_a_slate_are_not_filled_up(room):
    it = Steps("hd", "sd")
    it.begin(sd=None)
    it.list(listed(0, 5))
    it.decide(decided(("break-1", 2)))
    it.list(listed(0, 6, [("break-1", 20, 10)]))
    assert [len(one) for one in it.pods("break-1")] == [2, 2]


def test_renditions_of_other_segments_are_filled_up_for_as_long(room):
    """Pictures in 2 s, sound in 4 s, each with a slate of its own: 16 s of a break of 20 s are left."""
    from adsplice_plant.events import FolderRead, ListRead
    it = Steps("v", "a")
    it.begin(a=SLATE.replace(b'"2"', b'"4"'))

    def lists(last, breaks=()):
        it.take(ListRead("news-v", listed(max(0, 2 * last - 7), 2 * last + 1, breaks).replace("TARGETDURATION:2", "TARGETDURATION:4").encode()))
        it.take(ListRead("news-a", listed(max(0, last - 3), last, breaks, target=4).encode()))
    lists(3)
    for channel, body in (("news-v", decided(("b1", 2))), ("news-a", decided(("b1", 1), seconds="4"))):
        it.take(FolderRead(channel, {"b.json": ((1, 1, 1), body.encode())}))
    lists(4, [("b1", 24, 20)])
    pods = it.pods("b1")
    assert [len(one) for one in pods] == [10, 5] and pods[0][2:4] == ["slate-0.ts", "slate-1.ts"] and pods[1][1:3] == ["slate-0.ts", "slate-1.ts"], (pods, it.lines)


def test_a_slate_file_is_read_as_a_fallback_is(room):
    from adsplice_plant.folders import Slate
    lines = []
    path = Path(room.path) / "slate.json"
    it = Slate("news", path, lambda *said: lines.append(said))
    assert it.look().body is None and "No such file" in lines[-1][3]
    path.write_bytes(SLATE)
    assert it.look().body == SLATE and it.look() is None
    for body, word in ((b'{"withdraw": "x"}', "Other"), (SLATE.replace(b"http:", b"ftp:"), "J3"), (b"{", "J1")):
        path.write_bytes(body + b" " * len(lines))
        assert it.look().body is None and word in lines[-1][2], (body, lines[-1])


def test_segments_that_fill_a_pod_up(room):
    from adsplice_plant.slates import count_for, slate_in
    slate = slate_in(SLATE)
    assert [count_for(slate, seconds) for seconds in (0, 1.8, 1.95, 2, 3.8, 4, 10)] == [0, 0, 1, 1, 1, 2, 5]
    uneven = [{"duration": "3"}, {"duration": "1"}]
    assert [count_for(uneven, seconds) for seconds in (1, 3, 4, 6.9, 7)] == [0, 1, 2, 3, 3]
    for wrong in (None, b"", b"[]", b'{"fallback": null}', b'{"fallback": {"ads": []}}', SLATE.replace(b'"2"', b'"0"'), SLATE.replace(b'"2"', b'"x"')):
        assert slate_in(wrong) == [], wrong
