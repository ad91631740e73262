"""Tests of the lists that a feed puts right: recorded and known ones, random packagers, hostile ones; held against the rules."""
import json
import os
import random
import re
import subprocess
import sys
import time
from dataclasses import dataclass, field
from pathlib import Path

import recorded
from tools import PLANT, apart, free_port, instant

sys.path.insert(0, PLANT)
from adsplice_plant import packaged, repairs  # noqa: E402
from adsplice_plant.repair import Choices, Repairer  # noqa: E402
from adsplice_rules.reading import read  # noqa: E402
from adsplice_rules.succession import succession_fault  # noqa: E402
from adsplice_rules.uris import base_of  # noqa: E402
from adsplice_rules.values import Fault, NotModelled  # noqa: E402

NEEDS = ()
URL = "http://origin.example/ch/index.m3u8"
BASE = base_of(URL)
CLOCK = 1_800_000_000 * 10**9  # the time of day at second 0 of a test
LOOK = 0.5  # seconds between two looks at a list that is held back
KNOWN = os.path.join(os.path.dirname(os.path.abspath(__file__)), "known")


class Rules:
    """Whether each list may be pushed after the one before it, by the rules."""

    def __init__(self):
        self.last = None

    def push(self, text):
        """What the list `text` says; raises Fault if it is refused."""
        found = read(BASE, text)
        fault = succession_fault(self.last, found) if self.last else None
        if fault:
            raise fault
        self.last = found
        return found


class Compared:
    """A Repairer beside one that reads each list as a whole: both answer the same."""

    grown = 0  # lists that were read as what is new in them, in all tests

    def __init__(self, choices):
        self.repairer, self.whole, self.other = Repairer(choices), Repairer(choices), None

    def take(self, body, now, clock):
        """What both make of a list."""
        self.whole.accepted = None
        Compared.grown += self.repairer.grow(body) is not None
        one, self.other = self.repairer.take(body, now, clock), self.whole.take(body, now, clock)
        assert self.said(one) == self.said(self.other), (body, self.said(one), self.said(self.other))
        return one

    @staticmethod
    def said(it):
        """All that is said of a list."""
        return it.why, it.waits, it.kinds, it.head, it.found and (it.body(), it.found.segments, it.found.date_ranges(), packaged.write(it.found))

    def accept(self, found):
        """The list is accepted."""
        self.repairer.accept(found)
        self.whole.accept(self.other)


def replay(states, push, choices=Choices()):
    """Pushes what is made of `states`, pairs of a second and a list, by `push`; answers how many were pushed, how many of these as
    they came, and the kinds of repairs with what was told of each."""
    repairer, pushed, same, kinds = Compared(choices), 0, 0, {}
    states = list(states)
    for place, (at, body) in enumerate(states):
        until = states[place + 1][0] if place + 1 < len(states) else at + 10
        while body.endswith(b"\n"):
            found = repairer.take(body, at, CLOCK + int(at * 10**9))
            if found.found is not None:
                push(found.body())
                repairer.accept(found)
                pushed, same = pushed + 1, same + (found.body() == body)
                kinds = found.kinds | kinds
            at += LOOK
            if not found.waits or at >= until:
                break
    return pushed, same, kinds


# What is put right in each recording.
RECORDED = {
    "ff-append": {"discontinuity sequence", "end"}, "ff-dash": {"end"}, "ff-dash-a": {"end"}, "ff-fmp4": {"end"},
    "ff-irr": {"target", "long segment", "end"}, "ff-plain": {"times", "end"}, "ff-rekey": {"end"}, "ff-restart": {"began again", "few segments", "own numbers"},
    "ff-segment": {"times", "target", "long segment", "end"}, "ff-single": {"numbers", "own numbers", "end"},
    "ff-variants-v0": {"end"}, "ff-variants-v1": {"end"}, "ff-variants-v2": {"end"},
    "gst-sink": {"times"}, "gst-sink2irr": {"times", "target", "long segment"}, "liq-ts": {"times"},
    "rtmp-event": {"spaces", "times", "discontinuity sequence"}, "rtmp-plain": {"times", "discontinuity sequence"},
    "vlc": {"times", "target", "end", "began again", "few segments", "own numbers"}}


@apart
def test_recorded_lists_are_taken_throughout(room):
    assert set(RECORDED) == set(recorded.names())
    for name, owed in RECORDED.items():
        pushed, same, kinds = replay(recorded.states(name), Rules().push)
        assert set(kinds) == owed, (name, kinds)
        assert pushed >= 97 and (same >= pushed - 1) == (owed == {"end"}), (name, pushed, same)


def test_recorded_lists_are_taken_by_the_program(room):
    from adsplice_plant.web import Client
    port, client = free_port(), Client(5)
    room.adsplice(port)
    for name in ("ff-irr", "ff-rekey", "ff-restart", "rtmp-event", "vlc"):
        at = f"http://127.0.0.1:{port}/channels/{name}"
        assert client.ask("PUT", at, json.dumps({"base": URL}).encode()).status == 201

        def push(text, at=at, name=name):
            answer = client.ask("PUT", f"{at}/origin", text)
            assert answer.status == 204, (name, answer.line(), text.decode())
        replay(recorded.states(name), push)
    client.close()


test_recorded_lists_are_taken_by_the_program.needs = ("program", "httpx")

# What is put right in each known list, and how adsplice answers (an empty word: it takes it; none: nothing is pushed).
TAKEN = {
    "akamai-msl-gap": {"gaps", "times", "version", "own numbers"}, "apple-bitrate": {"control characters"}, "apple-bitrate-notab": set(),
    "ateme-broadpeak": set(), "bitmovin": set(), "exponent-gst": {"durations", "times"}, "flussonic": set(), "flussonic-ll": {"times"},
    "gap-in-version-6": {"gaps", "times", "own numbers"},
    "harmonic-vos": set(), "medialive-hls": set(), "mediapackage-v1-cmaf": {"times"}, "mediapackage-v1-ts": set(), "mediapackage-v2-ll": {"version"},
    "nimble": set(), "shaka": {"times"}, "shaka-ts-event": {"times"}, "space-in-attributes": {"attribute lists", "times"},
    "target-decimal": {"target duration", "times"}, "title-tab": {"control characters", "times"}, "trailing-space": {"spaces", "times"},
    "usp-fmp4-drm": set(), "usp-ts": set(), "wowza-drm": {"times"}}
REFUSED = {"aes-fmp4-no-iv": "P23", "i-frame-elsewhere": "P20"}
UNPUSHED = {"empty-live": repairs.EMPTY}


def known(name):
    """The bytes of the known list `name`."""
    return Path(KNOWN, f"{name}.m3u8").read_bytes()


def test_known_lists(room):
    assert {it.removesuffix(".m3u8") for it in os.listdir(KNOWN)} == set(TAKEN) | set(REFUSED) | set(UNPUSHED)
    for name, owed in TAKEN.items():
        found = Repairer(Choices()).take(known(name), 0, CLOCK)
        assert set(found.kinds) == owed, (name, found.kinds)
        assert (found.body() == known(name)) == (not owed), name
        read(BASE, found.body())
    for name, owed in REFUSED.items():
        try:
            read(BASE, Repairer(Choices()).take(known(name), 0, CLOCK).body())
            raise AssertionError(name)
        except Fault as fault:
            assert fault.code == owed, (name, fault)
    for name, owed in UNPUSHED.items():
        found = Repairer(Choices()).take(known(name), 0, CLOCK)
        assert (found.found, found.came, found.why) == (None, None, owed), name


HEAD = "#EXTM3U\n#EXT-X-VERSION:3\n#EXT-X-TARGETDURATION:2\n"
TIMED = "#EXT-X-PROGRAM-DATE-TIME:2024-05-01T12:00:00.000Z\n"
ONE = f"{TIMED}#EXTINF:2,\ns0.ts\n"
# Lists with one fault each: the kind, the list, and a line that is written for it.
FAULTS = (
    ("byte order mark", b"\xef\xbb\xbf" + (HEAD + ONE).encode(), "#EXTM3U"),
    ("bytes", (HEAD + ONE.replace("2,", "2,caf\xe9")).encode("latin-1"), "#EXTINF:2,caf\ufffd"),
    ("bytes", (HEAD + ONE.replace("s0", "caf\xe9")).encode("latin-1"), "caf%E9.ts"),
    ("control characters", (HEAD + ONE.replace("2,", "2,a\tb")).encode(), "#EXTINF:2,a b"),
    ("spaces", (HEAD + ONE).replace("M3U", "M3U  ").encode(), "#EXTM3U"),
    ("spaces", (HEAD + ONE).replace("TION:2", "TION: 2 ").encode(), "#EXT-X-TARGETDURATION:2"),
    ("spaces", (HEAD + ONE).replace("INF:2", "INF: 2 ").encode(), "#EXTINF:2,"),
    ("spaces", (HEAD + ONE).replace("s0", "  s0").encode(), "s0.ts"),
    ("attribute lists", (HEAD + '#EXT-X-KEY:METHOD=AES-128, URI="k, 1" ,IV=0x1\n' + ONE).encode(), '#EXT-X-KEY:METHOD=AES-128,URI="k, 1",IV=0x1'),
    ("attribute lists", (HEAD + '#EXT-X-KEY:METHOD=AES-128,URI="k",\n' + ONE).encode(), '#EXT-X-KEY:METHOD=AES-128,URI="k"'),
    ("last line", (HEAD + ONE).encode()[:-1], "s0.ts"),
    ("target duration", (HEAD + ONE).replace("TION:2", "TION:1.001").encode(), "#EXT-X-TARGETDURATION:2"),
    ("durations", (HEAD + ONE).replace("INF:2", "INF:1.9e0").encode(), "#EXTINF:1.9,"),
    ("durations", (HEAD + ONE).replace("2,", '2 tvg-id="a,b" group="c",One, two').encode(), "#EXTINF:2,One, two"),
    ("variables", (HEAD + '#EXT-X-DEFINE:NAME="at",VALUE="b/c"\n' + ONE).replace("s0", "{$at}/s0").encode(), "b/c/s0.ts"),
    ("variables", (HEAD + '#EXT-X-DEFINE:NAME="k",VALUE="7"\n#EXT-X-KEY:METHOD=AES-128,URI="{$k}.key",IV=0x{$k}\n' + ONE).encode(), '#EXT-X-KEY:METHOD=AES-128,URI="7.key",IV=0x7'),
    ("session tags", (HEAD + '#EXT-X-SESSION-KEY:METHOD=AES-128,URI="k"\n' + ONE).encode(), "s0.ts"),
    ("listed twice", (HEAD + ONE + ONE).encode(), "s0.ts"),
    ("dates", (HEAD + ONE).replace("01T12", "01 12").encode(), TIMED[:-1]),
    ("instants", (HEAD + ONE + "#EXT-X-PROGRAM-DATE-TIME:noon\n#EXTINF:2,\ns1.ts\n").encode(), "#EXT-X-PROGRAM-DATE-TIME:2024-05-01T12:00:02.000Z"),
    ("version", (HEAD + ONE).replace("VERSION:3", "VERSION:9").encode(), "#EXT-X-VERSION:7"),
    ("target", (HEAD + ONE).replace("INF:2", "INF:2.5").encode(), "#EXT-X-TARGETDURATION:3"),
    ("type", (HEAD + "#EXT-X-PLAYLIST-TYPE:LIVE\n" + ONE).encode(), None),
    ("end", (HEAD + ONE + "#EXT-X-ENDLIST\n").encode(), None),
    ("times", (HEAD + "#EXTINF:2,\ns0.ts\n").encode(), "#EXT-X-PROGRAM-DATE-TIME:2027-01-15T07:59:58.000Z"),  # CLOCK less 2 s
    ("gaps", (HEAD + ONE + "#EXT-X-GAP\n#EXTINF:2,\ns1.ts\n#EXTINF:2,\ns2.ts\n").encode(), "#EXT-X-PROGRAM-DATE-TIME:2024-05-01T12:00:04.000Z"),
    ("sequence tags", (HEAD + ONE + "#EXT-X-MEDIA-SEQUENCE:7\n").encode(), "#EXT-X-MEDIA-SEQUENCE:7"),
)


def test_each_fault_is_put_right(room):
    for kind, text, line in FAULTS:
        found = Repairer(Choices()).take(text, 0, CLOCK)
        assert set(found.kinds) - {"own numbers"} == {kind}, (kind, found.kinds)
        lines = found.body().decode().split("\n")
        assert line is None or line in lines, (kind, lines)
        assert not {"#EXT-X-GAP", "#EXT-X-ENDLIST", "#EXT-X-PLAYLIST-TYPE:LIVE"} & set(lines), (kind, lines)
        read(BASE, found.body())
    assert {kind for kind, _, _ in FAULTS} <= set(repairs.KINDS)


def test_what_a_person_chose_holds(room):
    def take(choices, text):
        return Repairer(choices).take(text.encode(), 0, CLOCK)
    assert b"TARGETDURATION:8\n" in take(Choices(target=8), HEAD + ONE).body()
    assert take(Choices(is_endless=False), HEAD + ONE + "#EXT-X-ENDLIST\n").kinds == {}
    assert take(Choices(adds_times=False), HEAD + "#EXTINF:2,\ns0.ts\n").kinds == {}
    for tag in ("#EXT-X-SKIP:SKIPPED-SEGMENTS=3", '#EXT-X-DEFINE:IMPORT="a"', '#EXT-X-DEFINE:QUERYPARAM="b"', '#EXT-X-DEFINE:VALUE="b"'):
        found = take(Choices(query="a=1&a=2"), f"{HEAD}{tag}\n{ONE}")
        assert (found.found, found.came) == (None, None) and tag[1:].partition(":")[0] in found.why, found


def test_variables_have_the_texts_that_are_defined_before_them(room):
    def take(text, query=""):
        return Repairer(Choices(query=query)).take((HEAD + text).encode(), 0, CLOCK)
    define = '#EXT-X-DEFINE:QUERYPARAM="token"\n'
    found = take(define + ONE.replace("s0.ts", "s0.ts?t={$token}"), "a=b&token=x%2Fy&token=z")
    assert found.body().decode().splitlines()[-1] == "s0.ts?t=x/y" and set(found.kinds) == {"variables"}, found.body()
    assert b"#EXTINF:2,{$token}\n" in take(define + ONE.replace("2,", "2,{$token}"), "token=x").body(), "a title has no variables"
    assert b"\n{$a}.ts\n" in take(ONE.replace("s0", "{$a}")).body(), "a list without definitions has none"
    for text, why in ((ONE.replace("s0", "{$a}") + '#EXT-X-DEFINE:NAME="a",VALUE="b"\n', "isn't defined before it is used"),
                      ('#EXT-X-DEFINE:NAME="a",VALUE="b"\n' * 2 + ONE, "defines a twice"),
                      ('#EXT-X-DEFINE:NAME="a b",VALUE="b"\n' + ONE, "no name that reads")):
        assert why in take(text).why, (text, take(text).why)
    long = '#EXT-X-DEFINE:NAME="a",VALUE="' + "x" * 60_000 + '"\n'
    assert "letters" in take(long + "".join(f"{TIMED}#EXTINF:2,\n{n}{{$a}}.ts\n" for n in range(1000))).why, "a text that grows is bounded"


@apart
def test_hostile_lists_take_well_under_a_second(room):
    long = "k" * 4_000_000
    texts = {
        "empty lines": HEAD + "\n" * 4_100_000, "comments": HEAD + "#\n" * 2_000_000, "unknown tags": HEAD + "#EXT\n" * 800_000,
        "URIs": HEAD + "a\n" * 2_000_000, "lines of spaces": HEAD + " \n" * 2_000_000, "one line of spaces": HEAD + " " * 4_100_000,
        "attributes": HEAD + "#EXT-X-KEY:" + 'A="=,",' * 590_000 + "\n" + ONE,
        "names": HEAD + "#EXT-X-DATERANGE:" + "A" * 4_000_000 + "\n" + ONE, "digits": HEAD + f"#EXTINF:{'1' * 4_000_000},\na\n",
        "a key over all": f'{HEAD}#EXT-X-KEY:METHOD=AES-128,URI="{long}"\n' + "#EXTINF:2,\na\n" * 9_900, "equal segments": HEAD + "#EXTINF:2,\na\n" * 9_999}
    for name, text in texts.items():
        repairer = Repairer(Choices())
        begun = time.process_time()
        for body in (text.encode(), text.replace("TION:2", "TION:2\n#EXT-X-MEDIA-SEQUENCE:9", 1).encode()):
            repairer.accept(repairer.take(body, 0, CLOCK))
        assert time.process_time() - begun < 4, (name, time.process_time() - begun)


# What is put into a list that is spoiled: tags with values that are wrong, far off or out of place, and lines of other kinds.
SPOILING = (
    "#EXT-X-DISCONTINUITY", "#EXT-X-GAP", "#EXT-X-MEDIA-SEQUENCE:7", "#EXT-X-MEDIA-SEQUENCE:99999999999999999999", "#EXT-X-MEDIA-SEQUENCE:-3",
    "#EXTINF:", "#EXTINF:nan,", "#EXTINF:1e400,", "#EXTINF:3.5,x", "#EXT-X-BYTERANGE:10", "#EXT-X-BYTERANGE:@", "#EXT-X-KEY:METHOD=NONE",
    '#EXT-X-KEY:METHOD=AES-128,URI="k"', "#EXT-X-KEY:", "#EXT-X-MAP:", "#EXT-X-PROGRAM-DATE-TIME:x", "#EXT-X-PROGRAM-DATE-TIME:2199-12-31T23:59:59Z",
    "#EXT-X-ENDLIST", "#EXT-X-PLAYLIST-TYPE:VOD", "#EXT-X-TARGETDURATION:x", "#EXT-X-VERSION:9",
    '#EXT-X-DATERANGE:ID="a"', "s1.ts", "\ufeff", " ", "\t", "#", "#EXTM3U", "a b.ts", "\x00")


def spoiled(dice, body):
    """The list `body` with a few lines that are gone, doubled, changed in a sign, or cut off, or others put in."""
    lines = body.decode().split("\n")
    for _ in range(dice.choice((0, 0, 1, 1, 2, 4))):
        place = dice.randrange(len(lines) + 1)
        way = dice.randrange(5)
        if way < 2 or place == len(lines):
            lines.insert(place, dice.choice(SPOILING if way else lines or [""]))
        elif way == 2 and lines[place]:
            sign = dice.randrange(len(lines[place]))
            lines[place] = lines[place][:sign] + chr(dice.choice((0, 9, 32, 44, 34, 61, 48, 233, 0x2028))) + lines[place][sign + 1:]
        elif way == 3:
            del lines[place]
        else:
            lines = lines[:place] or [""]
    return "\n".join(lines).encode()


@apart
def test_no_spoiled_list_does_harm(room):
    dice, names = random.Random(5), recorded.names()
    for case in range(120):
        states, rules, repairer, at = list(recorded.states(dice.choice(names))), Rules(), Repairer(Choices()), 0.0
        first = dice.randrange(len(states))
        for turn in range(20):
            first = dice.randrange(len(states)) if dice.random() < 0.15 else first
            body = spoiled(dice, states[min(first + turn, len(states) - 1)][1])
            for at in (at + 2, at + 4, at + 8):
                found = repairer.take(body, at, CLOCK + int(at * 10**9))
                if not found.waits:
                    break
            if found.found is None and found.came is None:
                continue
            try:
                rules.push(found.body())
            except NotModelled:
                break
            except Fault as fault:
                assert fault.code[0] == "P", (case, turn, fault, found.body())
                continue
            repairer.accept(found)


# ---- random packagers

@dataclass
class Packager:
    """A packager with faults: how it names, numbers, times and encrypts its segments, and how many it lists."""

    window: int = 4
    numbers: str = "true"  # or `stands`, at 0
    times: str = "each"  # or `first`, `none`
    names: str = "new"  # after it began again: other URIs, or `again`
    token: bool = False  # in each URI, another in each list
    hosts: bool = False  # of each URI, another in each list
    key: str = ""  # or `number`, `stated`, `rotated`
    section: bool = False
    ranges: bool = False
    counts: bool = True  # EXT-X-DISCONTINUITY-SEQUENCE
    clean: bool = True  # or with spaces, a byte order mark, a version that changes
    steady: bool = True  # or with a target duration that is reckoned from what is listed
    run: int = 0
    made: list = field(default_factory=list)
    first: int = 0  # the place in `made` of the first segment of this run

    def make(self, is_gap=False, is_marked=False):
        """Makes a segment: what is true of it."""
        own = len(self.made) - self.first
        name = "one" if self.ranges else f"s{own}" if self.names == "again" else f"r{self.run}-{own}"
        seconds = 2 if self.steady else random.Random(len(self.made)).choice((1, 2, 3))
        begins = (self.made[-1]["begins"] + self.made[-1]["seconds"] if self.made else 0) + (7 if is_marked and self.made else 0)
        self.made.append({"own": own, "name": f"{name}.ts", "seconds": seconds, "begins": begins, "is_gap": is_gap, "is_marked": is_marked,
                          "range": (100, 100 * own) if self.ranges else None, "key": f"k{own // 3}" if self.key == "rotated" else "k", "run": self.run})

    def again(self):
        """It ends, and begins again at 0."""
        self.run, self.first = self.run + 1, len(self.made)
        self.make(is_marked=True)

    def listed(self, until, turn):
        """Its list when `until` segments were made, and what is true of the segments in it."""
        run = self.made[until - 1]["run"]
        segments = [it for it in self.made[max(0, until - self.window):until] if it["run"] == run]
        before = [it for it in self.made[:until] if it["run"] == run][:-len(segments)]
        target = max(it["seconds"] for it in (segments if not self.steady else self.made))
        lines = [("" if self.clean else "\ufeff") + "#EXTM3U", f"#EXT-X-VERSION:{6 if self.clean else 6 + turn % 2}",
                 f"#EXT-X-TARGETDURATION:{' ' * (not self.clean)}{target}",
                 f"#EXT-X-MEDIA-SEQUENCE:{segments[0]['own'] if self.numbers == 'true' else 0}"]
        lines += [f"#EXT-X-DISCONTINUITY-SEQUENCE:{sum(it['is_marked'] for it in before)}"] if self.counts else []
        key = None
        for place, it in enumerate(segments):
            lines += ["#EXT-X-DISCONTINUITY"] if it["is_marked"] else []
            if self.key and it["key"] != key:
                key = it["key"]
                lines.append(f'#EXT-X-KEY:METHOD=AES-128,URI="http://k.example/{key}"' + (",IV=0x7" if self.key == "stated" else ""))
            lines += ['#EXT-X-MAP:URI="i.mp4"'] if self.section and not place else []
            if self.times == "each" or (self.times == "first" and (not place or it["is_marked"] or segments[place - 1]["is_gap"])):
                lines.append(f"#EXT-X-PROGRAM-DATE-TIME:{instant(it['begins'])}")
            lines += ["#EXT-X-GAP"] if it["is_gap"] else []
            lines += [f"#EXTINF:{it['seconds']},"] + ([f"#EXT-X-BYTERANGE:{it['range'][0]}@{it['range'][1]}"] if self.ranges else [])
            lines.append((f"http://h{turn}.example/" if self.hosts else "") + it["name"] + (f"?t={turn}" if self.token else ""))
        return ("\n".join(lines) + "\n").encode(), segments


def follows(packager, events):
    """Follows a packager through `events`, each list of which is held against the rules and against what is true of it."""
    rules, repairer, given, at = Rules(), Compared(Choices()), {}, 0.0
    packager.make()
    for turn, event in enumerate(events):
        at += 2
        for _ in range(3 if event == "burst" else 1):
            packager.again() if event == "again" else packager.make(event == "gap", event == "marked")
        lag = 2 if event == "lag" and len(packager.made) - packager.first > packager.window + 3 else 0
        body, segments = packager.listed(len(packager.made) - lag, turn)
        for look in (0, 1, 2.1):
            found = repairer.take(body, at + look, CLOCK + int((at + look) * 10**9))
            if not found.waits:
                break
        at += look
        assert (found.why == repairs.LAGS) <= (lag > 0 or event == "again"), (event, found.why)
        if found.found is None:
            assert lag or found.why in (repairs.EMPTY, repairs.LAGS), found.why
            continue
        said = rules.push(found.body())
        repairer.accept(found)
        check(packager, [it for it in segments if not it["is_gap"]], said, given)
    return repairer.repairer


def check(packager, segments, said, given):
    """Holds what was written (`said`) against what is true of the packager's `segments`; `given` has each segment's number so far."""
    missing = segments[:max(0, len(segments) - len(said.segments))]
    assert all(any(made is it for n, made in enumerate(packager.made) if n in given) for it in missing), "none is left out, except some that had left the playlist"
    for it, one in zip(segments[::-1], said.segments[::-1]):
        place = next(n for n, made in enumerate(packager.made) if made is it)
        assert one.uri.rsplit("/", 1)[1].partition("?")[0] == it["name"] and one.nanos == it["seconds"] * 10**9, (one, it)
        assert one.range == it["range"] and (one.init_section is not None) == packager.section, (one, it)
        if packager.key:
            assert [(key.uri, key.iv) for key in one.keys] == [(f"http://k.example/{it['key']}", 7 if packager.key == "stated" else it["own"])], (one, it)
        assert given.setdefault(place, (one.number, one.discontinuity)) == (one.number, one.discontinuity), "a number stays"
    places = sorted(given)
    assert [given[it][0] for it in places] == sorted({number for number, _ in given.values()}), "each has a number of its own, in order"


def packagers():
    """Random packagers, and what happens to each."""
    from hypothesis import strategies as some
    kinds = some.builds(
        Packager, window=some.integers(3, 6), numbers=some.sampled_from(["true", "stands"]), times=some.sampled_from(["each", "first", "none"]),
        names=some.sampled_from(["new", "again"]), token=some.booleans(), hosts=some.booleans(), section=some.booleans(),
        key=some.sampled_from(["", "number", "stated", "rotated"]), ranges=some.booleans(), counts=some.booleans(), clean=some.booleans(),
        steady=some.booleans())
    return kinds, some.lists(some.sampled_from(["", "", "", "marked", "again", "gap", "burst", "lag"]), min_size=1, max_size=25)


@apart
def test_random_packagers(room):
    from hypothesis import HealthCheck, assume, given, settings
    kinds, events = packagers()

    @settings(max_examples=500, deadline=None, database=None, derandomize=True, suppress_health_check=list(HealthCheck))
    @given(kinds, events)
    def run(packager, happens):
        assume(packager.numbers == "true" or packager.key in ("", "stated"))  # (an IV that is the number says nothing then)
        assume(packager.names == "new" or packager.times == "each")  # (else nothing tells the segments of two runs apart)
        assume(not packager.section or packager.key in ("", "stated"))  # (adsplice takes no section under a key without IV)
        assume(not packager.ranges or "again" not in happens)  # (one file that is begun again has the same ranges)
        assume(not packager.hosts or packager.numbers == "true" and packager.times != "none")  # (one name says too little then)
        follows(packager, happens)
    run()


test_random_packagers.needs = ("hypothesis",)


# ---- what is spelled otherwise in each list

# What a packager spells otherwise in the list of a turn: the folder or the host of its segments (`before`), their query (`after`), and tags
# of its head; or it corrects the newest segment's duration in the next list.
SPELLED = {
    "folder": {"before": "{}/"}, "host": {"before": "http://{}.example/"}, "host and query": {"before": "http://{}.example/", "after": "?t={}"},
    "key": {"head": '#EXT-X-KEY:METHOD=AES-128,URI="k?t={}",IV=0x7'}, "key's folder": {"head": '#EXT-X-KEY:METHOD=AES-128,URI="{}/k"'},
    "section": {"head": '#EXT-X-MAP:URI="i.mp4?t={}"'}, "key, section and host": {
        "before": "http://{}.example/ch/", "head": '#EXT-X-KEY:METHOD=AES-128,URI="k?t={}",IV=0x7\n#EXT-X-MAP:URI="{}/i.mp4"'},
    "newest duration": {"newest": "2"}, "newest duration and host": {"newest": "2", "before": "http://{}.example/"}}


def spelled(first, last, turn, times, before="", after="", head="", newest="1.9", name="s"):
    """The list of segments of 1.9 s from `first` to `last`, as it is spelled in a `turn`. `times`: `each` segment states its instant, the
    `first` one, or none."""
    word = "abc"[turn % 3]
    lines = [HEAD + f"#EXT-X-MEDIA-SEQUENCE:{first}", *([head.replace("{}", word)] if head else [])]
    for number in range(first, last + 1):
        lines += [f"#EXT-X-PROGRAM-DATE-TIME:{instant(1.9 * number)}"] if times == "each" or times == "first" and number == first else []
        lines += [f"#EXTINF:{newest if number == last else '1.9'},", before.replace("{}", word) + f"{name}{number}.ts" + after.replace("{}", word)]
    return "\n".join([*lines, ""]).encode()


def test_a_listed_segment_that_is_spelled_otherwise_is_the_same(room):
    wrong = []
    for kind, said in SPELLED.items():
        for times in ("each", "first", ""):
            for step in (1, 2):
                rules, repairer, given = Rules(), Repairer(Choices()), {}
                for turn, last in enumerate(range(5, 40, step)):
                    found = repairer.take(spelled(last - 5, last, turn, times, **said), 2.0 * turn, CLOCK + turn * 2 * 10**9)
                    if found.found is None:
                        wrong.append((kind, times, step, turn, found.why))
                        break
                    written = rules.push(found.body())
                    repairer.accept(found)
                    for it in written.segments:  # (what is listed again is what it was, and nothing is listed twice)
                        same = (it.uri, it.nanos, [(key.uri, key.iv) for key in it.keys], it.init_section, it.range)
                        assert given.setdefault(it.number, same) == same, (kind, times, step, turn, it)
                    assert [it.number for it in written.segments] == list(range(last - 5, last + 1)) and not any(it.discontinuity for it in written.segments)
    assert not wrong, (len(wrong), wrong)


def test_a_newest_segment_that_grows_is_not_given_before_it_is_whole(room):
    rules, repairer, given = Rules(), Repairer(Choices()), []
    for turn in range(24):
        last, part = 5 + turn // 2, ("0.9", "1.4")[turn % 2]  # (each is listed twice as the newest one)
        found = repairer.take(spelled(last - 5, last, 0, "each", newest=part), turn, CLOCK)
        written = rules.push(found.body())
        repairer.accept(found)
        given.append({it.uri.rpartition("/")[2]: it.nanos for it in written.segments})
    lasts = {name: {it[name] for it in given if name in it} for name in {name for it in given for name in it}}
    assert all(len(it) == 1 for it in lasts.values()), "a segment stays what it was"
    assert [name for name, it in lasts.items() if it != {1_900_000_000}] == ["s5.ts"], "the first one alone was given too early"


def test_an_older_list_that_is_spelled_otherwise_lags(room):
    for kind, said in SPELLED.items():
        for times in ("each", ""):
            repairer = Repairer(Choices())
            for turn, last in enumerate(range(5, 20)):
                repairer.accept(repairer.take(spelled(last - 5, last, turn, times, **said), turn, CLOCK))
                found = repairer.take(spelled(last - 7, last - 2, turn + 1, times, **said), turn, CLOCK) if last > 8 else None
                assert found is None or found.why == repairs.LAGS, (kind, times, turn, found)


def test_names_do_not_make_another_run_of_a_packager_the_same(room):
    for times, say in (("each", True), ("", False)):  # (it begins again at once, in another folder, with the same names and numbers)
        repairer = Repairer(Choices())
        repairer.accept(repairer.take(spelled(0, 5, 0, times, "a/"), 0, CLOCK))
        for last in range(6):
            found = repairer.take(spelled(0, last, 1, times, "b/").replace(b"T12:00", b"T12:10"), 1 + 0.1 * last, CLOCK)
            assert found.found is None and found.waits, (times, last, found)
        found = repairer.take(spelled(0, 6, 1, times, "b/").replace(b"T12:00", b"T12:10"), 4, CLOCK)
        assert "began again" in found.kinds and found.found.segments[0].number == 6, (times, found.kinds)
    repairer = Repairer(Choices())  # (names that are all equal say nothing if no segment states its instant)
    repairer.accept(repairer.take(re.sub(rb"s\d+\.ts", b"s.ts", spelled(0, 5, 0, "", "{}/")), 0, CLOCK))
    assert repairer.take(re.sub(rb"s\d+\.ts", b"s.ts", spelled(1, 6, 1, "", "{}/")), 1, CLOCK).waits


def numbered(first, last, turn, folder="", ahead=0):
    """The list of segments from `first` to `last`, whose media numbers are `ahead` of theirs, in a `folder`."""
    return spelled(first, last, turn, "each", before=folder).replace(f"SEQUENCE:{first}\n".encode(), f"SEQUENCE:{first + ahead}\n".encode())


def test_two_packagers_behind_one_address_are_one_programme(room):
    """The other one counts from other numbers, and names its segments as the first does, or otherwise; it is a segment later."""
    for ahead in (0, 3, -4, 1000):
        for other in (b"s", b"o"):
            rules, repairer, given = Rules(), Repairer(Choices()), {}
            for turn in range(40):
                last, is_other = 8 + turn // 2, turn % 8 > 4
                body = numbered(last - 6, last - 1, turn, "b/", ahead).replace(b"b/s", b"b/" + other) if is_other else numbered(last - 5, last, turn)
                found = repairer.take(body, float(turn), CLOCK)
                if found.found is None:
                    continue
                for it in rules.push(found.body()).segments:
                    assert given.setdefault(it.number, it.time) == it.time, (ahead, other, turn, it)
                repairer.accept(found)
            times = [given[it] for it in sorted(given)]
            assert times == sorted(set(times)), (ahead, other, "each instant is given once, and in order")
            assert len(times) >= 24 and (other == b"o" or all(b - a < 2 * 10**9 for a, b in zip(times, times[1:]))), (ahead, other, len(times))


def test_date_ranges_hold_for_a_list_whose_first_segments_are_left_out(room):
    line = f'#EXT-X-DATERANGE:ID="b",START-DATE="{instant(0)}"\n'
    repairer = Repairer(Choices())
    repairer.accept(repairer.take(spelled(2, 7, 0, "each"), 0, CLOCK))
    found = repairer.take(spelled(0, 8, 1, "each").replace(b"#EXT-X-PROG", line.encode() + b"#EXT-X-PROG", 1), 1, CLOCK)  # (older segments came back)
    assert set(found.kinds) == {"older segments"} and found.found.date_ranges() == [line.strip()], found.found and found.found.date_ranges()


def test_tags_after_the_last_segment_are_of_the_next_one(room):
    key = '#EXT-X-KEY:METHOD=AES-128,URI="k{}",IV=0x1\n'
    one, two = (spelled(0, last, 0, "each").replace(b"#EXT-X-PROG", key.format(1).encode() + b"#EXT-X-PROG", 1) for last in (4, 5))
    for tail in (key.format(2), f"#EXT-X-PROGRAM-DATE-TIME:{instant(99)}\n"):
        repairer, whole = Compared(Choices()), one + tail.encode() + two[len(one):]
        for turn, body in enumerate((one, one + tail.encode(), whole)):
            found = repairer.take(body, float(turn), CLOCK)  # (it holds what is read as what is new against the whole list)
            repairer.accept(found)
        newest = found.found.segments[-1]
        assert (newest.keys[0].text.endswith('URI="k2",IV=0x1')) == ("KEY" in tail) and newest.uri == "s5.ts", (tail, newest)


def test_segments_without_a_section_before_a_programme_that_has_one_are_left_out(room):
    rules, repairer = Rules(), Repairer(Choices())
    for last in range(5, 20):
        text = spelled(last - 5, last, 0, "each")
        text = re.sub(rb"(#EXT-X-PROGRAM-DATE-TIME:[^\n]*\n#EXTINF:1.9,\ns4.ts)", rb'#EXT-X-MAP:URI="i.mp4"\n\1', text) if last < 9 else text.replace(b"#EXT-X-PROG", b'#EXT-X-MAP:URI="i.mp4"\n#EXT-X-PROG', 1)
        found = repairer.take(text, 2.0 * last, CLOCK)
        written = rules.push(found.body())
        repairer.accept(found)
        assert [it.number for it in written.segments] == list(range(max(4, last - 5), last + 1)) and ("other sections" in found.kinds) == (last < 9), (last, found.kinds)
        assert all(it.init_section is not None for it in written.segments)


def test_right_lists_pass_unchanged(room):
    for window in (3, 6):
        for times in ("each", "first"):
            for key in ("", "number", "rotated"):
                packager, repairer = Packager(window=window, times=times, key=key), Compared(Choices())
                packager.make()
                for turn in range(40):
                    packager.make(is_marked=turn % 7 == 3)
                    body, _ = packager.listed(len(packager.made), turn)
                    found = repairer.take(body, turn, CLOCK)
                    repairer.accept(found)
                    assert found.body() == body and not found.kinds, (window, times, key, turn, found.kinds)


def test_what_a_player_decrypts_is_what_the_packager_encrypted(room):
    def crypt(way, data, number):
        words = ["openssl", "enc", way, "-aes-128-cbc", "-K", "00112233445566778899aabbccddeeff", "-iv", f"{number:032x}"]
        return subprocess.run(words, input=data, capture_output=True, check=True).stdout
    dice, repairer, rules, media = random.Random(1), Repairer(Choices()), Rules(), {}
    for run, count in (("r", 9), ("t", 8)):  # the packager begins again at 0, with the same key
        for newest in range(2, count):
            for it in range(newest + 1):
                if f"{run}{it}.ts" not in media:
                    clear = b"\x47" + dice.randbytes(187 * 4)
                    media[f"{run}{it}.ts"] = clear, crypt("-e", clear, it)
            first = max(0, newest - 3)
            lines = [f"#EXTINF:2,\n{run}{it}.ts" for it in range(first, newest + 1)]
            head = [HEAD + f"#EXT-X-MEDIA-SEQUENCE:{first}", '#EXT-X-KEY:METHOD=AES-128,URI="k"']
            for look in (0, 2):
                found = repairer.take("\n".join([*head, *lines, ""]).encode(), 4 * newest + look, CLOCK)
                if found.found is not None:
                    break
            said = rules.push(found.body())
            repairer.accept(found)
            for it in said.segments:
                clear, sealed = media[it.uri.rpartition("/")[2]]
                assert crypt("-d", sealed, it.keys[0].iv) == clear, (it, newest)
    assert rules.last.segments[-1].number == 16 and rules.last.segments[-1].keys[0].iv == 7


test_what_a_player_decrypts_is_what_the_packager_encrypted.needs = ("openssl",)
