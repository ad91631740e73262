"""Tests of adsplice-pod, with the built program."""
import json
import sys

from tools import PLANT, decided

sys.path.insert(0, PLANT)
from adsplice_plant.pod import verdict  # noqa: E402
from adsplice_rules.decisions import MOST_DECIDED, MOST_POD_SEGMENTS  # noqa: E402

NEEDS = ("program",)
AD = "#EXTM3U\n#EXT-X-TARGETDURATION:6\n#EXTINF:6,\na0.ts\n#EXTINF:5.5,\na1.ts\n#EXT-X-ENDLIST\n"
MAPPED = ('#EXTM3U\n#EXT-X-VERSION:7\n#EXT-X-TARGETDURATION:6\n#EXT-X-KEY:METHOD=AES-128,URI="k",IV=0xAB\n#EXT-X-MAP:URI="a.mp4",BYTERANGE="20"\n'
          "#EXTINF:6.006,\n#EXT-X-BYTERANGE:100@20\na.mp4\n#EXTINF:6.006,\n#EXT-X-BYTERANGE:50\na.mp4\n#EXT-X-ENDLIST\n")


def pod(room, *words, **more):
    """Runs adsplice-pod in the test's folder."""
    return room.run("adsplice-pod", *words, "--program", room.program, cwd=room.path, **more)


def segment(**members):
    """A decision file of one segment with these members in place of its own."""
    it = {"uri": "http://a/b.ts", "duration": "2"} | members
    return json.dumps({"breaks": [{"id": "b1", "ads": [{"segments": [{name: value for name, value in it.items() if value != "absent"}]}]}]})


def ad(**members):
    """A decision file of one ad with these members."""
    return json.dumps({"breaks": [{"id": "b1", "ads": [{"segments": [{"uri": "http://a/b.ts", "duration": "2"}]} | members]}]})


KEY = {"method": "AES-128", "uri": "http://a/k", "iv": "0x1"}
# Wrong files with the sentence that each is owed.
WRONG = [
    (segment(duration=2), 'break 0, ad 0, segment 0: `duration` has to be a string, as "2" (J2'),
    (segment(duration="absent"), "break 0, ad 0, segment 0: `duration` is missing (J2"),
    (segment(duration="2,5"), 'break 0, ad 0, segment 0: `duration` "2,5" has to be a decimal of seconds below 1,000,000, as "6.006" (J4'),
    (segment(duration="2 s"), "break 0, ad 0, segment 0: `duration`"), (segment(duration="1000000"), "break 0, ad 0, segment 0: `duration`"),
    (segment(uri=5), "break 0, ad 0, segment 0: `uri` has to be a string"), (segment(uri="absent"), "break 0, ad 0, segment 0: `uri` is missing (J2"),
    (segment(uri="a0.ts"), 'break 0, ad 0, segment 0: `uri` "a0.ts" has to begin with http:// or https:// (small letters) (J3'),
    (segment(uri="HTTP://a/b"), "break 0, ad 0, segment 0: `uri`"), (segment(uri="//a/b"), "break 0, ad 0, segment 0: `uri`"),
    (segment(uri="http://a/b c"), "break 0, ad 0, segment 0: `uri` \"http://a/b c\" may hold printable ASCII"), (segment(uri="http://a/ä"), "may hold printable ASCII"),
    (segment(uri="http://"), "break 0, ad 0, segment 0: `uri`"),
    (segment(offset=5), "break 0, ad 0, segment 0: `offset` needs `length` beside it (J2"), (segment(length=5), "`length` needs `offset`"),
    (segment(offset="5", length=5), "`offset` has to be a whole number of bytes"), (segment(offset=0, length=1.0), "`length` has to be a whole number"),
    (segment(offset=-1, length=1), "`offset` has to be"), (segment(offset=0, length=1).replace(": 0,", ": -0,"), "`offset` has to be"),
    (segment(offset=0, length=1 << 64), "`length` has to be"), (segment(offset=1, length=(1 << 64) - 1), "a sum below 2^64"),
    (segment(offset=None, length=None), "`offset` has to be"),
    (ad(map=None), "break 0, ad 0: `map` has to be an object with `uri`"), (ad(map="http://a/i"), "`map` has to be an object"),
    (ad(map={}), "break 0, ad 0, map: `uri` is missing"), (ad(map={"uri": "i.mp4"}), "break 0, ad 0, map: `uri`"),
    (ad(map={"uri": "http://a/i", "offset": 0}), "break 0, ad 0, map: `offset` needs `length`"),
    (ad(key=None), "break 0, ad 0: `key` has to be an object"), (ad(key=KEY | {"method": "NONE"}), 'break 0, ad 0, key: `method` "NONE" has to be'),
    (ad(key={"method": "AES-128", "uri": "http://a/k"}), "break 0, ad 0, key: `iv` is missing: it has to be a string of 0x"),
    (ad(key=KEY | {"iv": "12"}), 'break 0, ad 0, key: `iv` "12" doesn\'t read'), (ad(key=KEY | {"uri": "k"}), 'break 0, ad 0, key: `uri` "k" has to begin'),
    (ad(key={"method": "AES-128", "iv": "0x1"}), "break 0, ad 0, key: `uri` is missing"), (ad(key=KEY | {"format": ""}), 'break 0, ad 0, key: `format` "" has to be'),
    (ad(segments=[]), "break 0, ad 0: `segments` is empty"), (ad(segments={}), "break 0, ad 0: `segments` has to be a list"), (ad(segments=[5]), "break 0, ad 0, segment 0: a segment has to be"),
    (ad(segments=[{"uri": "http://a/b", "duration": "1"}] * (MOST_POD_SEGMENTS + 1)),
     f"break 0, ad 0, segment {MOST_POD_SEGMENTS}: a pod has at most {MOST_POD_SEGMENTS} segments"),
    ('{"breaks":[{"id":"b1","ads":[]}]}', "break 0: `ads` is empty"), ('{"breaks":[{"id":"b1"}]}', "break 0: `ads` is missing"),
    ('{"breaks":[{"ads":[]}]}', "break 0: `id` is missing"), ('{"breaks":[{"id":7,"ads":[]}]}', "break 0: `id` has to be a string"),
    ('{"breaks":[{"id":"","ads":[]}]}', "break 0: `id` has to have 1 to 255 bytes"), ('{"breaks":[{"id":"a\\"b","ads":[]}]}', "break 0: `id` may hold no quote"),
    (json.dumps({"breaks": [{"id": "ä" * 128, "ads": []}]}), "break 0: `id` has to have 1 to 255 bytes"),
    (json.dumps({"breaks": json.loads(decided(("b", 1)))["breaks"] * 2}), 'break 1: the `id` "b" came before in this file'),
    (json.dumps({"breaks": [json.loads(decided((f"b{n}", 1)))["breaks"][0] for n in range(MOST_DECIDED + 1)]}),
     f"break {MOST_DECIDED}: a channel has at most {MOST_DECIDED}"),
    ("[]", "the file has to be an object"), ("{}", "and has none"), ('{"breaks":[],"withdraw":"b"}', "and has `breaks` and `withdraw`"), ('{"breaks":{}}', "`breaks` has to be a list"),
    ('{"withdraw":5}', "`withdraw` has to be a string"), ('{"fallback":5}', "`fallback` has to be an object"), ('{"fallback":{"ads":[]}}', "fallback: `ads` is empty"),
    ('{"fallback":{"ads":[{"segments":[{"uri":"http://a/b","duration":2}]}]}}', 'fallback, ad 0, segment 0: `duration` has to be a string, as "2"'),
    ('{"breaks":[}', "line 1, column 12: the file isn't JSON"), ("", "the file isn't JSON"), ("\ufeff{}", "the file isn't JSON")]
RIGHT = [decided(("b1", 2), ("b2", 1)), '{"withdraw":"b1"}', '{"fallback":null}', '{"breaks":[]}', segment(offset=0, length=5), segment(duration=".5"),
         ad(map={"uri": "http://a/i", "offset": 0, "length": 20}), ad(key=KEY), ad(key=KEY | {"format": "com.example"}), segment(duration="007.")]


def test_wrong_files_are_told_by_the_member(room):
    found = []
    for text, owed in WRONG:
        said = verdict(text.encode())
        if owed not in said or "\n" in said:
            found.append((text[:100], owed, said))
    assert not found, found
    status, out, err = pod(room, "--check", room.write("d.json", WRONG[0][0]))
    assert (status, err) == (1, "") and out.startswith(f"{room.path}/d.json: {WRONG[0][1]}") and out.count("\n") == 1, (status, out, err)


def test_right_files_are_right(room):
    for text in RIGHT:
        assert verdict(text.encode()) == "", text
    assert pod(room, "--check", room.write("d.json", RIGHT[0])) == (0, f"{room.path}/d.json: right\n", "")
    status, out, _ = pod(room, "--check", room.write("d.json", segment(durration="2")))
    assert status == 0 and "break 0, ad 0, segment 0: `durration` is no member of a segment, and is ignored" in out


def test_pod_of_two_ads(room):
    room.write("one/index.m3u8", AD)
    room.write("two/index.m3u8", AD.replace("a0", "b0").replace("a1", "https://other.example/b1"))
    status, out, err = pod(room, "b1", "one/index.m3u8", "two/index.m3u8", "--at", "http://ads.example/pods/", "--target", "6", "--length", "23")
    assert (status, err) == (0, "")
    owed = {"breaks": [{"id": "b1", "ads": [
        {"segments": [{"uri": "http://ads.example/pods/one/a0.ts", "duration": "6"}, {"uri": "http://ads.example/pods/one/a1.ts", "duration": "5.5"}]},
        {"segments": [{"uri": "http://ads.example/pods/two/b0.ts", "duration": "6"}, {"uri": "https://other.example/b1.ts", "duration": "5.5"}]}]}]}
    assert json.loads(out) == owed, out


def test_ranges_key_and_map(room):
    room.write("index.m3u8", MAPPED)
    status, out, err = pod(room, "--fallback", "index.m3u8", "--at", "http://ads.example")
    assert (status, err) == (0, "")
    key = {"method": "AES-128", "uri": "http://ads.example/k", "iv": "0x000000000000000000000000000000AB"}
    assert json.loads(out) == {"fallback": {"ads": [{"map": {"uri": "http://ads.example/a.mp4", "offset": 0, "length": 20}, "key": key, "segments": [
        {"uri": "http://ads.example/a.mp4", "duration": "6.006", "offset": 20, "length": 100},
        {"uri": "http://ads.example/a.mp4", "duration": "6.006", "offset": 120, "length": 50}]}]}}, out


def test_warnings(room):
    room.write("plain.m3u8", AD.replace("5.5", "6.5").replace("#EXT-X-ENDLIST\n", ""))
    room.write("mapped.m3u8", MAPPED)
    room.write("keys.m3u8", AD.replace("#EXTINF:6", '#EXT-X-KEY:METHOD=AES-128,URI="k"\n#EXTINF:6', 1))
    status, out, err = pod(room, "b1", "plain.m3u8", "mapped.m3u8", "keys.m3u8", "--at", "http://h", "--target", "6", "--length", "30")
    for owed in ("plain.m3u8: its playlist has no EXT-X-ENDLIST", "plain.m3u8: segment 1 lasts 6.5 s, which is 7 s rounded, over the target of 6 s",
                 "mapped.m3u8 has an initialisation section (EXT-X-MAP) and plain.m3u8 has none", "the pod lasts 36.012 s and is 6.012 s longer than its break",
                 "keys.m3u8: it has 2 keys or IVs, and is made 2 ads"):
        assert owed in err, (owed, err)
    assert status == 0 and len(json.loads(out)["breaks"][0]["ads"]) == 4 and err.count("\n") == 5, err
    assert pod(room, "b1", "plain.m3u8", "--at", "http://h", "--strict")[:2] == (1, "")


def test_a_rest_at_an_ads_end_is_refused_by_name(room):
    """ffmpeg cuts the sound of an ad of 10 s into five pieces, and a sixth one of a frame."""
    for last, is_taken in (("0.021333", False), ("0.099999", False), ("0.1", True)):
        room.write("index.m3u8", AD.replace("5.5", last))
        status, out, err = pod(room, "b1", "index.m3u8", "--at", "http://h")
        if is_taken:
            assert (status, err) == (0, ""), (last, err)
        else:
            assert (status, out, err.count("\n")) == (1, "", 1) and f"index.m3u8: its last segment (1) lasts {last} s, under a tenth of a second" in err, (last, err)
    room.write("index.m3u8", AD.replace("#EXTINF:6,\na0.ts\n", "").replace("5.5", "0.04"))
    assert pod(room, "b1", "index.m3u8", "--at", "http://h")[0] == 0  # (an ad of one piece has no rest)


def test_the_files_of_a_ladder_are_held_against_one_another(room):
    def said(pieces, ending="ts", count=1, **more):
        ads = [{"segments": [{"uri": f"http://a/{n}.{ending}", "duration": it} for n, it in enumerate(pieces)]} | more] * count
        return json.dumps({"breaks": [{"id": "b1", "ads": ads}]})

    mapped = {"map": {"uri": "http://a/init.mp4"}}
    for one, other, owed in ((said(["2"] * 5), said(["2"] * 5), ""), (said(["2"] * 5), said(["2.02", "1.98", "2", "2", "2"]), ""), (said(["2"] * 6), said(["4"] * 3), ""),
                             (said(["2"] * 5), said(["2"] * 4), "b.json: it hasn't the breaks of {}a.json, with ads and segments as long"), (said(["2"] * 5), said(["2"] * 5 + ["0.0213"]), "with ads and segments as long"),
                             (said(["2"] * 6), said(["4"] * 5), "b.json: it hasn't the breaks of {}a.json, with ads as long"), (said(["2"] * 5), said(["2"] * 5, count=2), "it hasn't the breaks of"),
                             (said(["2"] * 5), said(["2"] * 5).replace("b1", "b2"), "it hasn't the breaks of"), (said(["2"] * 5, "m4s", **mapped), said(["2"] * 5), "b.json: its ads have no initialisation sections, and those of {}a.json have some"),
                             (said(["2"] * 5), said(["2"] * 5, "m4s", **mapped), "b.json: its ads have initialisation sections, and those of {}a.json have none"), (said(["2"] * 5, "m4s", **mapped), said(["2"] * 5, "vtt"), ""),
                             (said(["2"] * 5), '{"breaks":[{"id":"b1"}]}', "b.json: break 0: `ads` is missing")):
        files = [room.write(name, text) for name, text in (("a.json", one), ("b.json", other))]
        status, out, err = room.run("adsplice-pod", "--check", *files)
        where = f"{room.path}/"
        assert "out of step" not in out, (one, other, out)
        assert err == "" and (out == "".join(f"{it}: right\n" for it in files)) == (owed == "") == (status == 0) and owed.replace("{}", where) in out, (one, other, out, err)


    for pieces, owed in ((["2.0138"] * 5, "0.069 s longer"), (["1.98"] * 5, "0.1 s less"), (["2.004"] * 5, ""), (["2.006"] * 5, "")):
        for of in ("breaks", "fallback"):
            texts = [said(it) if of == "breaks" else json.dumps({"fallback": {"ads": json.loads(said(it))["breaks"][0]["ads"]}}) for it in (["2"] * 5, pieces)]
            files = [room.write(name, text) for name, text in zip(("a.json", "b.json"), texts)]
            status, out, err = room.run("adsplice-pod", "--check", *files)
            what = "the pod of b1" if of == "breaks" else "the fallback"
            line = f"{files[1]}: {what} lasts {owed} than that of {files[0]}: players that join streams end to end are out of step by so much more after each such break\n" if owed else ""
            assert (status, out, err) == (0, line + "".join(f"{it}: right\n" for it in files), ""), (pieces, of, out, err)


test_the_files_of_a_ladder_are_held_against_one_another.needs = ()


def test_faults_are_one_line(room):
    room.write("index.m3u8", AD)
    room.write("bad.m3u8", AD.replace("#EXTINF:6,\n", ""))
    room.write("formats.m3u8", AD.replace("#EXTINF:6", '#EXT-X-KEY:METHOD=AES-128,URI="k",IV=0x1\n#EXT-X-KEY:METHOD=SAMPLE-AES,URI="l",KEYFORMAT="x"\n#EXTINF:6', 1))
    for words, text in ((["b1", "bad.m3u8", "--at", "http://h"], "bad.m3u8: P17 NoDuration line 3: a segment has no EXTINF"), (["b1", "no.m3u8", "--at", "http://h"], "no.m3u8: No such file"),
                        (["b1", "index.m3u8"], "index.m3u8 is a file: --at says"), (["", "index.m3u8", "--at", "http://h"], "`id` has to have 1 to 255 bytes"),
                        (["b1", "formats.m3u8", "--at", "http://h"], "is under keys of 2 formats"), (["--check", "no.json"], "no.json: No such file")):
        status, out, err = pod(room, *words)
        assert (status, out, err.count("\n")) == (1, "", 1) and text in err, (words, status, err)
    assert pod(room, "b1")[0] == 2 and pod(room, "a", "--check", "b", "c")[0] == 2
    assert "isn't a program" in room.run("adsplice-pod", "b1", f"{room.path}/index.m3u8", "--at", "http://h", "--program", "/nowhere")[2]
