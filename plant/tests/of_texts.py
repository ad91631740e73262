"""Tests of what the programs read: instants, durations, lists, pauses, and that a type checker passes."""
import os
import re
import subprocess
import sys

from tools import PLANT, listed

sys.path.insert(0, PLANT)
from adsplice_plant import faults, judge, packaged, playlist, siblings, splice, urls, words  # noqa: E402
from adsplice_plant.pauses import Pauses  # noqa: E402

NEEDS = ()


def test_instants(room):
    day = 1_714_564_800  # 2024-05-01T12:00:00Z: 19,844 days after 1970-01-01, and 12 hours
    assert 19_844 * 86_400 + 43_200 == day
    for text, owed in (("2024-05-01T12:00:00Z", day * 10**9), ("2024-05-01T14:00:10.25+02:00", (day + 10) * 10**9 + 250_000_000),
                       ("2024-05-01T12:00:00.000000001-0030", (day + 1800) * 10**9 + 1), ("2024-05-01T12:00:00", day * 10**9),
                       ("2024-02-30T00:00:00Z", None), ("2024-05-01 12:00:00Z", None), ("", None)):
        assert playlist.read_instant(text) == owed, text
    assert playlist.instant_text(day * 10**9 + 1) == "2024-05-01T12:00:00.000000001Z"
    assert playlist.instant_text(day * 10**9 + 250_000_000) == "2024-05-01T12:00:00.250Z"


def test_durations(room):
    for text, owed in (("2", 2 * 10**9), ("6.006", 6_006_000_000), (".5", 500_000_000), ("5.", 5 * 10**9), ("9.9766666666666", 9_976_666_666), (".", None), ("-1", None)):
        assert playlist.read_duration(text) == owed, text
    assert [playlist.seconds_text(it) for it in (2 * 10**9, -350_000_000, 0)] == ["2", "-0.35", "0"]


def test_a_list(room):
    found = playlist.read(listed(7, 9, [("b1", 18, 4)]).encode())
    assert (found.target, found.first, [it.uri for it in found.segments]) == (2, 7, ["s7.ts", "s8.ts", "s9.ts"])
    assert [playlist.instant_text(it.begins)[17:23] for it in found.segments] == ["14.000", "16.000", "18.000"]
    assert found.ids() == {"b1"} and playlist.instant_text(found.ranges[0].start())[17:19] == "18" and playlist.instant_text(found.end())[17:19] == "20"


def test_lines_end_with_lf_alone(room):
    text = listed(7, 9).replace("s8.ts", "s8\u2028\x85\x0c.ts").replace("\n", "\r\n")
    assert [it.uri for it in playlist.read(text.encode()).segments] == ["s7.ts", "s8\u2028\x85\x0c.ts", "s9.ts"]


def test_instants_before_the_first_stated_one(room):
    text = "#EXTM3U\n#EXT-X-TARGETDURATION:2\n#EXTINF:2,\na.ts\n#EXTINF:1.5,\nb.ts\n#EXT-X-PROGRAM-DATE-TIME:2024-05-01T12:00:10Z\n#EXTINF:2,\nc.ts\n"
    assert [playlist.instant_text(it.begins)[17:22] for it in playlist.read(text.encode()).segments] == ["06.50", "08.50", "10.00"]


def test_whole_lists(room):
    assert playlist.is_whole(b"#EXTM3U\ns1.ts\n") and playlist.is_whole(b"#EXTM3U\n#EXT-X-ENDLIST")
    assert not playlist.is_whole(b"#EXTM3U\ns1") and not playlist.is_whole(b"")


# Texts at which urllib raises: a bracket that isn't closed, one around no address, and a sign that becomes a slash (NFKC).
NO_URLS = ("http://..[..", "http://a]b/", "//..[../s.ts", "http://[v1]/", "http://[::1", "http://a\u2100b/")


def test_a_url_that_does_not_read_raises_nothing(room):
    for text in NO_URLS:
        try:
            words.web_address(text)
            raise AssertionError(text)
        except words.argparse.ArgumentTypeError as fault:
            assert "isn't a URL that begins with" in str(fault) and "\n" not in str(fault), text
        assert words.shown(text) == words.without_user(text) or words.shown(text) == text.partition("?")[0], text
        assert urls.joined_or_same("http://h/i.m3u8", text) in (text, urls.joined("http://h/i.m3u8", text)), text
        it = siblings.moved(packaged.PackagedSegment(text, 1), "http://h/i.m3u8")
        assert it.uri == urls.joined_or_same("http://h/i.m3u8", text), "a segment that another rendition has"
    assert urls.parts_of("http://..[..") is None and urls.host_of("http://..[..") == "" and urls.joined("http://..[..", "s.ts") is None
    assert words.shown("http://u:secret@..[..") == words.NO_URL, "nothing of a text that isn't a URL is printed"
    said = urls.parts_of("http://u:p@H.example:0x/a?b#c")
    assert said is not None and (said.host, said.port, said.is_port_wrong, said.user, said.password, said.query) == ("h.example", None, True, "u", "p", "b")


def test_no_other_module_takes_urls_apart(room):
    for name in sorted(os.listdir(f"{PLANT}/adsplice_plant")):
        if name.endswith(".py") and name != "urls.py":
            with open(f"{PLANT}/adsplice_plant/{name}", encoding="utf-8") as it:
                assert not re.search(r"url(?:split|join|parse|unsplit)\(", it.read()), name


def test_pauses_grow_to_their_most(room):
    pauses = Pauses(0.5, 4)
    owed = [0.5, 1, 2, 4, 4, 4]
    assert all(0.75 * most <= it <= 1.25 * most for it, most in zip([pauses.next() for _ in owed], owed))
    pauses.reset()
    assert pauses.next() <= 0.625


def test_each_printed_fault_has_a_meaning(room):
    codes = [f"P{n}" for n in range(1, 25)] + [f"N{n}" for n in range(1, 11)] + [f"J{n}" for n in (*range(1, 8), 9, 10, 11)] + ["C1", "C2"]
    assert set(codes) == set(faults.MEANINGS)
    assert faults.name_of("N8 Changed 17") == "N8 Changed" and faults.name_of("<html>") == ""
    assert faults.follows_badly("N9 Ended") and not faults.follows_badly("N10 NumberRange")


def test_sections_field_by_field(room):
    # 35 bytes: splice_insert, event 1, out of the network, program, immediate, break_duration 2,700,000 ticks of 90 kHz
    out = "0xFC302000000000000000FFF00F05000000017FFFFE002932E000010000000000000000"
    assert splice.told(out) == "a splice_insert that leaves the network (event 1, immediate, 30 s)"
    back = "0xFC301B00000000000000FFF00A05000000017F5F0001000000000000 0000".replace(" ", "")
    assert splice.told(back) == "a splice_insert that returns to the network (event 1, immediate)"
    assert splice.told("0xFC301600000000000000FFF00505" + "00000001FF" + "0000" + "00000000") == "a splice_insert that is cancelled (event 1)"
    assert splice.told(out[:-2]) == "a section that doesn't read: its section_length says 32 bytes after it, and there are 31"
    assert splice.told("0xFC301600000000000000FFF00506" + "FE00000000" + "0000" + "00000000") == "a section with a time_signal; adsplice takes splice_insert alone"
    assert splice.told("FC30") == "no hexadecimal text: it has to begin with 0x"
    assert splice.told("0xFC3") == "no hexadecimal text: its 3 digits are an odd number"


def test_levels_of_lines(room):
    for line, owed in (("adsplice 201 -: makes the channel", 6), ("adsplice 409 -: the channel is there already; goes on with it", 6), ("adsplice 404 -: the channel isn't there; makes it", 4),
                       ("adsplice - -: Connection refused; tries again with growing pauses", 4), ("origin 200 -: the playlist is read again", 6), ("origin 503 -: the origin answers 503", 4),
                       ("origin - -: no answer within 5 s", 4), ("origin 200 CutOff: the playlist is cut off", 4), ("list - Repaired: EXT-X-VERSION", 5), ("list - -: the playlists go on", 6),
                       ("decisions/a b.json 422 J2 Shape break 0: a member is missing", 4), ("decisions/one.json - -: b1 is no longer listed; moves the file to done", 6), ("ask/b1 - Asked: x", 6),
                       ("decisions/one.json 204 -: decides b1", 6), ("decisions/one.json 409 J9 Used: b1 has begun", 4), ("origins - Second: the first origin fails", 4), ("origins - First: x", 6), ("decisions/one.json 204 Removed: x", 6), ("decisions/one.json - Removed: x", 6),
                       ("feed - KeyError: 1; goes on with the next turn", 3), ("journal - Unkept: /kept/news.events: No space left on device; goes on without it", 4), ("journal - -: /kept/news.events: events are kept again", 6), ("ladder - Apart: x", 4), ("", 6), ("x", 6)):
        assert words.level_of(f"2026-11-27T04:10:00.512Z news {line}") == owed, line


def test_levels_for_journald_alone(room):
    path = room.write("journal", "")
    named = [sys.executable, f"{PLANT}/adsplice-pod", "--check", f"{room.path}/none.json"]
    for stream, owed in ((lambda it: f"{it.st_dev}:{it.st_ino}", "<3>adsplice-pod: "), (lambda it: f"{it.st_dev}:{it.st_ino + 1}", "adsplice-pod: "), (lambda it: "", "adsplice-pod: ")):
        with open(path, "w", encoding="utf-8") as it:
            subprocess.run(named, stderr=it, check=False, env={**os.environ, "JOURNAL_STREAM": stream(os.fstat(it.fileno()))})
        with open(path, encoding="utf-8") as it:
            text = it.read()
        assert text.startswith(owed) and text.count("\n") == 1, (owed, text)


def test_types(room):
    done = subprocess.run(["mypy", "--strict", "--cache-dir", f"{room.path}/types", "adsplice_plant", "adsplice_rules"], cwd=PLANT, capture_output=True, text=True, check=False)
    assert done.returncode == 0, done.stdout


test_types.needs = ("mypy", "httpx", "prometheus_client")


def test_wrong_members_are_found_in_order(room):
    wrong = judge.judge(b'{"breaks":[{"id":"b","ads":[{"segments":[{"uri":"//h/a","duration":2}]}]}]}')
    assert wrong.line() == 'break 0, ad 0, segment 0: `duration` has to be a string, as "2"' and wrong.fault == "J2 Shape break 0 ad 0 segment 0"
    assert re.search("uri", judge.judge(b'{"breaks":[{"id":"b","ads":[{"segments":[{"uri":"//h/a","duration":"2"}]}]}]}').text)
