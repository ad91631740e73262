"""Tests of breaks in a programme on demand, by the rules and with the built program: no segment of it goes, and each pod is whole at its place."""
import json
import subprocess
import sys
from pathlib import Path

from of_vast import AdServer
from tools import PLANT, PYTHON
from vast_documents import ad_break, data, inline, tag, vast, vmap, wrapper

sys.path.insert(0, PLANT)
from adsplice_plant import making  # noqa: E402

NEEDS = ("httpx",)
SECOND = 10**9
BASE = "http://origin.example/film/index.m3u8"


def programme(count=30, seconds=2, head="", tail="#EXT-X-ENDLIST\n", of=lambda n: ""):
    """The list of a programme; `of` has the tags of a segment."""
    return f"#EXTM3U\n#EXT-X-VERSION:3\n#EXT-X-TARGETDURATION:{seconds}\n#EXT-X-PLAYLIST-TYPE:VOD\n{head}" + "".join(f"{of(n)}#EXTINF:{seconds},\nf{n}.ts\n" for n in range(count)) + tail


def made(room, **ads):
    """A folder of ads that were made: of so many pieces of 2 s each."""
    for name, count in ads.items():
        folder = Path(room.path) / "ads" / name
        (folder / "main").mkdir(parents=True)
        (folder / making.FACTS).write_text(json.dumps(making.Made(name, (2 * SECOND,) * count).said()))
    return f"{room.path}/ads"


def put_in(room, text, *more, ads, **others):
    """Runs adsplice-pod for a programme with this list."""
    path = room.write("index.m3u8", text)
    return room.run("adsplice-pod", *more, "--playlist", path, "--base", BASE, "--ads", ads, "--at", "http://ads.example/a", "--to", f"{room.path}/film", **others)


def shown(room, by=None):
    """The URIs that viewers get, without what is before their last slash; and the whole list."""
    words = [by] if by else [PYTHON, f"{PLANT}/adsplice_rules/run"]
    with open(f"{room.path}/film/index.m3u8", encoding="utf-8") as it:
        done = subprocess.run([*words, "vod", BASE, f"{room.path}/film/decisions.json"], stdin=it, capture_output=True, text=True, check=False)
    assert done.returncode == 0, done
    return [line.removeprefix("http://origin.example/film/").removeprefix("http://ads.example/a/") for line in done.stdout.splitlines() if line and line[0] != "#"], done.stdout


OWED = ["car/main/s0.ts", "soap/main/s0.ts", "soap/main/s1.ts", *(f"f{n}.ts" for n in range(10)), "car/main/s0.ts", *(f"f{n}.ts" for n in range(10, 30)), "soap/main/s0.ts", "soap/main/s1.ts"]


def test_breaks_before_within_and_after_a_programme(room):
    ads = made(room, car=1, soap=2)
    status, out, err = put_in(room, programme(), "--breaks", "0=car,soap", "20=car", "end=soap", ads=ads)
    assert (status, err) == (0, "") and out == "break-1: 6 s of car, soap\nbreak-2: 2 s of car\nbreak-3: 4 s of soap\n", (out, err)
    found, text = shown(room)
    assert found == OWED and "stand-in" not in text and text.count("#EXT-X-DISCONTINUITY\n") == 6, text  # (before each of four ads, and after two pods)


def test_the_same_with_the_program(room):
    ads = made(room, car=1, soap=2)
    assert put_in(room, programme(), "--breaks", "0=car,soap", "20=car", "end=soap", ads=ads)[0] == 0
    assert shown(room, room.program) == shown(room) and shown(room)[0] == OWED


test_the_same_with_the_program.needs = ("program", "httpx")


def test_breaks_by_a_vmap_document(room):
    ads = made(room, car=1, soap=2)
    server = room.server(AdServer({"/vast": vast(inline("soap", 4))}))
    document = vmap(ad_break("start", "pre", data(inline("car", 2, 1), inline("soap", 4, 2))), ad_break("00:00:20", "mid", data(inline("car", 2), inline("tea", 4))),
                    ad_break("00:00:30", "none", data(inline("tea", 4))), ad_break("end", "post", tag(f"{server.url}/vast?p=[BREAKPOSITION]")))
    status, out, err = put_in(room, programme(), "--vmap", room.write("breaks.xml", document), ads=ads)
    assert status == 0 and out == "pre: 6 s of car, soap\nmid: 2 s of car\npost: 4 s of soap\n", (out, err)
    assert err.splitlines() == [f"adsplice-pod: AdBreak mid: ad tea: there is no {ads}/tea/ad.json: adsplice-condition makes it", f"adsplice-pod: AdBreak none: ad tea: there is no {ads}/tea/ad.json: adsplice-condition makes it",
                                "adsplice-pod: break none: it has no ads, and is left out"], err
    assert server.asked[0][1] == "/vast?p=3" and shown(room)[0] == OWED
    assert json.loads(Path(f"{room.path}/film/decisions.json").read_text())["breaks"][0]["ads"][0]["id"] == "car"
    assert put_in(room, programme(), "--vmap", f"{room.path}/breaks.xml", "--strict", ads=ads)[0] == 1


def test_a_vmap_from_outside_leads_to_no_address_of_this_machine(room):
    """Its AdTagURI and the wrappers in it; those of a file a person wrote."""
    from adsplice_plant import on_demand
    asked = room.server(AdServer({"/vast": vast(inline("soap", 4))}))
    for at in (asked.url, asked.url.replace("127.0.0.1", "localhost"), "http://[::1]:1", "http://10.1.2.3"):
        for source in (tag(f"{at}/vast"), data(wrapper(f"{at}/vast", "w"))):
            places, faults = on_demand.of_vmap(vmap(ad_break("start", "pre", source)).encode(), 60 * SECOND, lambda name: f"{name} isn't made", "http://vmap.example/breaks.xml")
            assert not asked.asked and not places[0].ads and len(faults) == 1 and "isn't asked: " in faults[0] and faults[0].startswith("AdBreak pre: "), (at, faults)
    places, faults = on_demand.of_vmap(vmap(ad_break("start", "pre", tag(f"{asked.url}/vast"))).encode(), 60 * SECOND, lambda name: f"{name} isn't made", f"{asked.url}/breaks.xml")
    assert len(asked.asked) == 1 and "soap isn't made" in faults[0], faults


def test_a_break_within_a_segment_is_put_where_one_begins_and_told(room):
    ads = made(room, car=1)
    status, _, err = put_in(room, programme(seconds=6), "--breaks", "20=car", "00:00:30.2=car", ads=ads)
    assert status == 0 and err == "adsplice-pod: break break-1: it is put at 18 s, where a segment begins, and not at 20 s\n", err
    assert shown(room)[0][3] == "car/main/s0.ts" and shown(room)[0][6] == "car/main/s0.ts"


def test_two_breaks_at_one_place_are_one(room):
    ads = made(room, car=1, soap=2)
    assert put_in(room, programme(), "--breaks", "20=car", "20.3=soap", ads=ads)[1] == "break-1: 6 s of car, soap\n"
    assert shown(room)[0][10:13] == ["car/main/s0.ts", "soap/main/s0.ts", "soap/main/s1.ts"]


def test_keys_byte_ranges_and_times_of_the_programme_stay(room):
    ads = made(room, car=1)
    text = programme(6, head="#EXT-X-MEDIA-SEQUENCE:7\n", of=lambda n: ('#EXT-X-KEY:METHOD=AES-128,URI="k"\n#EXT-X-PROGRAM-DATE-TIME:2026-11-30T12:00:00.000Z\n' if not n else "") + f"#EXT-X-BYTERANGE:100{'@50' if not n else ''}\n")
    text = text.replace("f1.ts", "f0.ts").replace("f2.ts", "f0.ts").replace("f3.ts", "f0.ts").replace("f4.ts", "f0.ts").replace("f5.ts", "f0.ts")
    assert put_in(room, text, "--breaks", "4=car", ads=ads)[::2] == (0, "")
    found, written = shown(room)
    assert found == ["f0.ts"] * 2 + ["car/main/s0.ts"] + ["f0.ts"] * 4
    assert [line for line in written.splitlines() if "BYTERANGE" in line][2] == "#EXT-X-BYTERANGE:100@250", written
    assert "2026-11-30T12:00:04.000Z" in written  # (of the first segment after the pod, as it was)
    after = written.partition("s0.ts")[2]
    assert "IV=0x00000000000000000000000000000009" in after.replace("0X", "0x"), written  # (its number was 9, and is 10 now)


def test_fragmented_programmes_and_short_segments(room):
    folder = Path(made(room, car=1)) / "car"
    (folder / making.FACTS).write_text(json.dumps(making.Made("car", (2 * SECOND,), "m4s", True).said()))
    (folder / "main" / "init.mp4").write_bytes(b"x")
    text = programme(8, head='#EXT-X-MAP:URI="init.mp4"\n', of=lambda n: "").replace("VERSION:3", "VERSION:7").replace("#EXTINF:2,\nf3.ts", "#EXTINF:0.1,\nf3.ts")
    assert put_in(room, text, "--breaks", "0=car", "6.1=car", ads=str(folder.parent))[::2] == (0, "")
    found, written = shown(room)
    assert found[0] == "car/main/s0.m4s" and [it for it in found if it[0] == "f"] == [f"f{n}.ts" for n in range(8)] and found.index("car/main/s0.m4s", 1) == 4, found  # (before the short segment, and not after it)
    assert '#EXT-X-MAP:URI="http://ads.example/a/car/main/init.mp4"' in written


def test_a_long_programme_with_many_breaks(room):
    ads = made(room, car=1, soap=2)
    places = [f"{n * 300}=car,soap" for n in range(18)]
    assert put_in(room, programme(2700), "--breaks", *places, "end=car", ads=ads)[0] == 0
    found = shown(room)[0]
    assert [it for it in found if it[0] == "f"] == [f"f{n}.ts" for n in range(2700)] and len(found) == 2700 + 18 * 3 + 1
    assert [found.index(f"f{n * 150}.ts") for n in range(18)] == [n * 150 + 3 * (n + 1) for n in range(18)]


def test_the_makings_of_an_ad_are_put_in_by_turns(room):
    """10 s are 468.75 frames of sound: 469 are 5.333 ms over, and 468 are 16 ms under. From 0 on the nearest to 0 are +5.3, +10.7, -5.3, 0, and so on."""
    folder = Path(room.path) / "ads"
    (folder / "car" / "main").mkdir(parents=True)
    makings = {name: (0,) * 4 + (over,) for name, over in (("", 5_333_333), ("less-1", -16_000_000), ("more-1", 26_666_667))}
    (folder / "car" / making.FACTS).write_text(json.dumps(making.Made("car", (2 * SECOND,) * 5, makings=makings).said()))
    assert making.read(folder / "car").makings == makings
    status, _, err = put_in(room, programme(), "--breaks", *(f"{4 * n}=car" for n in range(1, 9)), ads=str(folder))
    found = [it.removesuffix("/main/s0.ts") for it in shown(room)[0] if it.endswith("main/s0.ts")]
    assert (status, err) == (0, "") and found == ["car", "car", "car/less-1", "car"] * 2, (found, err)


def test_what_cannot_be_put_in_is_one_line(room):
    ads = made(room, car=1)
    (Path(room.path) / "ads" / "big" / "main").mkdir(parents=True)
    (Path(room.path) / "ads" / "big" / making.FACTS).write_text(json.dumps(making.Made("big", (9 * SECOND,)).said()))
    for text, words, owed in ((programme(tail=""), ["0=car"], "it has no EXT-X-ENDLIST"), ("#EXTM3U\n", ["0=car"], "it is no media playlist of a programme"), (programme(), ["0"], "a break is OFFSET=ID,ID.."), (programme(), ["x=car"], "an offset is a number of seconds"),
                              (programme(), ["0=big"], "break break-1: it would stay empty (DoesNotFit)"), (programme().replace("f3.ts", "//"), ["0=car"], "adsplice would refuse it: P16"), (programme(), ["1:2=car"], "timeOffset '1:2'")):
        status, out, err = put_in(room, text, "--breaks", *words, ads=ads)
        assert (status, out) == (1, "") and owed in err and err.count("\n") == 1, (owed, status, err)
    assert put_in(room, programme(), "--breaks", "0=none", ads=ads)[2].count("\n") == 3
    for document, owed in (("<VAST/>", "and not VMAP"), ('<!DOCTYPE x><VMAP/>', "it has a DOCTYPE")):
        status, _, err = put_in(room, programme(), "--vmap", room.write("b.xml", document), ads=ads)
        assert status == 1 and owed in err and err.count("\n") == 1, err
    assert room.run("adsplice-pod", "--vmap", "x")[0] == 2
