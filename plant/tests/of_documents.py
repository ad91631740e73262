"""Tests of what docs/operating and docs/DECISION_FILES.md say of faults, members and words, with the built program."""
import json
import os
import re
import sys

from tools import PLANT, decided, listed

sys.path.insert(0, PLANT)
from adsplice_plant import explain, faults  # noqa: E402
from adsplice_plant.history import Given  # noqa: E402
from adsplice_plant.pod import verdict  # noqa: E402
from adsplice_plant.program import run_vod  # noqa: E402

NEEDS = ("program",)
DOCS = f"{PLANT}/../docs"
HEAD = "#EXTM3U\n#EXT-X-TARGETDURATION:2\n"
ONE = "#EXTINF:2,\ns0.ts\n"
# What the column "Often" of the playlist's faults says, as playlists.
PLAYLISTS = {
    "P1": [f"{HEAD}#EXTINF:2,caf\xe9\ns0.ts\n"], "P2": [HEAD + ONE + "#" * 4_194_304],
    "P3": ["\ufeff" + HEAD + ONE, "<html></html>\n", (HEAD + ONE).replace("\n", ""), "\n" + HEAD + ONE, (HEAD + ONE).replace("\n", "\r")],
    "P4": [f"{HEAD}#EXTINF:2,a\tb\ns0.ts\n"], "P5": ["#EXTM3U\n#EXT-X-VERSION: 3\n"], "P6": ["#EXTM3U\n#EXT-X-VERSION:9\n"], "P7": [HEAD + ONE + HEAD + ONE],
    "P8": [f"{HEAD}{ONE}#EXT-X-MEDIA-SEQUENCE:4\n", f"{HEAD}#EXT-X-DISCONTINUITY\n#EXT-X-DISCONTINUITY-SEQUENCE:4\n{ONE}"],
    "P9": ["#EXTM3U\n#EXT-X-TARGETDURATION:6.006\n", "#EXTM3U\n#EXT-X-TARGETDURATION: 6\n", f"{HEAD}#EXT-X-PLAYLIST-TYPE:LIVE\n", f"{HEAD}#EXT-X-MEDIA-SEQUENCE:-1\n"],
    "P10": [f"{HEAD}#EXTINF:-1,\ns0.ts\n", f'{HEAD}#EXT-X-DATERANGE:ID="a",DURATION="PT30S"\n{ONE}'],
    "P11": [f'{HEAD}#EXT-X-KEY:METHOD=AES-128, URI="k"\n{ONE}', f"{HEAD}#EXT-X-KEY:METHOD=AES-128,URI=k\n{ONE}", f'{HEAD}#EXT-X-KEY:METHOD=AES-128,URI="k",IV=12\n{ONE}',
            f'{HEAD}#EXT-X-KEY:METHOD=AES-128,URI="k\n{ONE}', f'{HEAD}#EXT-X-KEY:METHOD=AES-128,URI="k",URI="l"\n{ONE}'],
    "P12": [f"{HEAD}#EXT-X-KEY:METHOD=AES-128\n{ONE}", f'{HEAD}#EXT-X-DATERANGE:START-DATE="2024-05-01T12:00:00Z"\n{ONE}'],
    "P13": [f"{HEAD}#EXT-X-BYTERANGE:100@\n{ONE}"], "P14": [f"{HEAD}#EXT-X-BYTERANGE:100\n{ONE}"],
    "P15": [f"{HEAD}#EXT-X-PROGRAM-DATE-TIME:2024-05-01 12:00:00Z\n{ONE}", f"{HEAD}#EXT-X-PROGRAM-DATE-TIME:2024-05-01T24:00:00Z\n{ONE}"],
    "P16": [f"{HEAD}#EXTINF:2,\n//\n", f"{HEAD}#EXTINF:2,\n//h:65536/a\n", f"{HEAD}#EXTINF:2,\n//[::1/a\n"], "P17": [f"{HEAD}#EXTINF:2,a\nb\ns0.ts\n"],
    "P18": ["#EXTM3U\n#EXT-X-VERSION:3\n"], "P19": ["#EXTM3U\n#EXT-X-STREAM-INF:BANDWIDTH=1\na.m3u8\n"], "P20": [f"{HEAD}#EXT-X-I-FRAMES-ONLY\n{ONE}"], "P21": [HEAD],
    "P22": [f'{HEAD}{ONE}#EXT-X-MAP:URI="i.mp4"\n{ONE}'], "P23": [f'{HEAD}#EXT-X-KEY:METHOD=AES-128,URI="k"\n#EXT-X-MAP:URI="i.mp4"\n{ONE}'], "P24": [HEAD + ONE * 10_001]}
LIST = listed(10, 15)
END = "#EXT-X-ENDLIST\n"
# Lists that may not follow LIST, or the first of the two.
FOLLOWING = {
    "N1": [LIST.replace("VERSION:3", "VERSION:4")], "N2": [LIST.replace("TARGETDURATION:2", "TARGETDURATION:3")],
    "N3": [(LIST.replace("#EXT-X-MEDIA", "#EXT-X-PLAYLIST-TYPE:EVENT\n#EXT-X-MEDIA"), LIST.replace("#EXT-X-MEDIA", "#EXT-X-PLAYLIST-TYPE:VOD\n#EXT-X-MEDIA") + END)],
    "N4": [LIST.replace("#EXTINF", '#EXT-X-MAP:URI="i.mp4"\n#EXTINF', 1)], "N5": [listed(0, 5), listed(9, 14)], "N6": [listed(17, 22)], "N7": [listed(10, 14)],
    "N8": [LIST.replace("s12", "t12"), (LIST[:-4], listed(10, 16)), LIST.replace("s12.ts", "s12.ts?token=2")], "N9": [(LIST + END, LIST)]}


def page(name):
    """The text of a page of docs."""
    with open(f"{DOCS}/{name}", encoding="utf-8") as it:
        return it.read()


def test_each_fault_has_its_row(room):
    text = page("operating/faults.md")
    for code in faults.MEANINGS:
        assert re.search(rf"^\| `{code} \w+", text, re.M) or code in ("C1", "C2") and f"`{code} " in text, code


def test_playlists_of_the_table_have_their_faults(room):
    assert set(PLAYLISTS) == {it for it in faults.MEANINGS if it[0] == "P"}
    found = []
    for code, texts in PLAYLISTS.items():
        for text in texts:
            fault = run_vod(room.program, explain.BASE, text.encode("latin-1" if code == "P1" else "utf-8"))[1]
            if faults.code_of(fault) != code:
                found.append((code, text[:80], fault))
    assert not found, found


def test_lists_of_the_table_may_not_follow(room):
    assert set(FOLLOWING) == {f"N{n}" for n in range(1, 10)}
    found = []
    for code, cases in FOLLOWING.items():
        for case in cases:
            first, second = case if isinstance(case, tuple) else (LIST, case)
            given = [Given("channel", "c", b'{"base":"http://h/i.m3u8"}'), Given("origin", "1", first.encode()), Given("origin", "2", second.encode())]
            _, one, two = (it.given for it in explain.run_beside(room.program, given).steps)
            if one.status != 204 or faults.code_of(two.fault) != code:
                found.append((code, second[:80], one.fault, two.fault))
    assert not found, found


def test_what_may_go_unseen_is_taken(room):
    base = b'{"base":"http://h/i.m3u8","tolerence":"1"}'
    lists = (LIST.replace("EXTINF:2,", "EXTINF:2,006,"), LIST.replace("EXTINF:2,", "EXTINF:9,"), LIST.replace("#EXTINF", "#EXT-X-CUE-OUT:4\n#EXTINF", 1))
    for text in lists:
        given = [Given("channel", "c", base), Given("origin", "1", text.encode()), Given("decisions", "2", decided(("other", 1)).encode())]
        steps = explain.run_beside(room.program, given).steps
        assert [it.given.status for it in steps] == [201, 204, 204], [it.given.fault for it in steps]


def test_members_of_the_tables(room):
    text = page("DECISION_FILES.md")
    files = [it for it in re.findall(r"`(\{.*?\})` \|$", text, re.M)]
    assert len(files) == 4 and not any(verdict(it.encode()) for it in files), files
    rows = re.findall(r"^\| ([\w, ]+) \| (`[\w`, ]+) \| .* \| `(.+)` \| `(.+)` (J\d) \|$", text, re.M)
    assert len(rows) == 11, rows
    for of, _, right, wrong, code in rows:
        said = [verdict(json.dumps(whole(of.split(",")[0], json.loads("{" + member + "}"))).encode()) for member in (right, wrong)]
        assert said[0] == "" and f"({code} " in said[1], (of, right, wrong, said)


def whole(of, members):
    """A decision file in which a break, an ad, a segment or a key has these members in place of its own."""
    segment = {"uri": "http://ads.example/a0.ts", "duration": "2"} | (members if of == "segment" else {})
    key = {"key": {"method": "AES-128", "uri": "http://ads.example/k", "iv": "0x1"} | members} if of == "key" else {}
    ad = {"segments": [segment]} | key | (members if of == "ad" else {})
    return {"breaks": [{"id": "b1", "ads": [ad]} | (members if of == "break" else {})]}


def test_words_of_the_pages_are_those_of_the_programs(room):
    text = "".join(page(it) for it in ("DECISION_FILES.md", "ADS.md", *(f"operating/{name}" for name in sorted(os.listdir(f"{DOCS}/operating")))))
    for name in ("feed", "pod", "explain", "monitor", "decide", "condition"):
        if name not in ("pod", "explain") and room.run(f"adsplice-{name}", "--help")[0]:
            continue  # (their packages aren't installed)
        there = set(re.findall(r"--[a-z-]+", room.run(f"adsplice-{name}", "--help")[1]))
        for command in re.findall(rf"adsplice-{name} ((?:[^\n`|&>]|\\\n)*)", text):
            named = set(re.findall(r"(?<![\w-])--[a-z][a-z-]*", command))
            assert named <= there, (name, command, named - there)


def test_counts_of_the_page(room):
    count = int(re.search(r"`plant/mistakes/` has (\d+) files", page("operating/faults.md"))[1])
    assert count == len(os.listdir(f"{PLANT}/mistakes"))
