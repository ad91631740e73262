"""Tests of making ads for a ladder: where they are cut, and by ffprobe what ffmpeg made of them."""
import json
import os
import shutil
import signal
import subprocess
import sys
import threading
import time
from fractions import Fraction
from pathlib import Path

from tools import PLANT, PYTHON, FakeServer, until

sys.path.insert(0, PLANT)
from adsplice_plant import conditioning, ladders  # noqa: E402
from adsplice_plant.words import Fault  # noqa: E402

NEEDS = ("ffmpeg", "httpx")
SECOND = 10**9
RENDITIONS = {"v0": {"container": "ts", "picture": {"codec": "h264", "profile": "high", "width": 96, "height": 54, "rate": "25", "bits": 100_000},
                     "sound": {"codec": "aac", "rate": 48_000, "channels": 2, "bits": 64_000}},
              "v1": {"container": "ts", "picture": {"codec": "h264", "profile": "baseline", "width": 64, "height": 36, "rate": "50", "bits": 80_000}},
              "en": {"container": "ts", "sound": {"codec": "aac", "rate": 48_000, "channels": 2, "bits": 64_000}}, "sub": {"container": "vtt"}}


def pure(test):
    """A test that needs nothing that isn't Python's own."""
    test.needs = ()
    return test


def ffmpeg(*more):
    """Runs ffmpeg with these words."""
    subprocess.run(["nice", "ffmpeg", "-nostdin", "-v", "error", "-y", *more], check=True, stdin=subprocess.DEVNULL)


def media(path, seconds, rate=30, sound=44_100, size="64x36", pictures=True, tone=880):
    """An ad's file with a test picture, and a tone."""
    inputs = (["-f", "lavfi", "-i", f"testsrc2=s={size}:r={rate}"] if pictures else []) + (["-f", "lavfi", "-i", f"sine=f={tone}:r={sound}"] if sound else [])
    codecs = (["-c:v", "libx264", "-preset", "ultrafast"] if pictures else []) + (["-c:a", "aac"] if sound else [])
    ffmpeg(*inputs, "-t", str(seconds), *codecs, path)
    return path


def ladder(room, renditions=None, piece="2"):
    """A file with a ladder."""
    return room.write("ladder.json", json.dumps({"piece": piece, "renditions": renditions or RENDITIONS}))


def condition(room, *words, **more):
    """Runs adsplice-condition."""
    return room.run("adsplice-condition", *words, **more)


def seen(path, section=None):
    """The packets of a piece by ffprobe, by the kind of their stream: each as its instant, how long it lasts, and its flags."""
    data = (Path(section).read_bytes() if section else b"") + Path(path).read_bytes()
    out = subprocess.run(["ffprobe", "-v", "error", "-of", "json", "-show_packets", "-show_streams", "-"], input=data, capture_output=True, check=True).stdout
    said = json.loads(out)
    kinds = {it["index"]: it for it in said["streams"]}
    found = {}
    for it in said["packets"]:
        found.setdefault(kinds[it["stream_index"]]["codec_type"], []).append((float(it["pts_time"]), float(it.get("duration_time", 0)), it["flags"]))
    return found, {it["codec_type"]: it for it in said["streams"]}


# ---- where an ad is cut

@pure
def test_cuts_by_hand(room):
    for length, piece, rate, owed in ((10, 2, "25", [2] * 5), (15, 2, "25", [2] * 7 + [1]), (15, 6, "25", [6, 6, 3]), (1, 2, "25", [1]), ("14.04", 2, "25", ["1.76"] * 7 + ["1.72"]),
                                      (15, "6.006", "30000/1001", ["6.006", "6.006", "2.969633333"]), ("7.53", 2, "25", [2, 2, 2, "1.52"]), ("0.01", 2, "25", ["0.04"]), (4, "1.92", "25", ["1.36", "1.32", "1.32"])):
        cut = conditioning.cut_of(int(Fraction(length) * SECOND), int(Fraction(piece) * SECOND), Fraction(rate))
        assert [it / SECOND for it in cut.pieces()] == [float(it) for it in owed], (length, piece, rate, cut.pieces())


@pure
def test_a_files_length_and_the_stated_one(room):
    assert [conditioning.length_of(it, 15 * SECOND) for it in (14_600_000_000, 15_040_000_000, 14_000_000_000, 15_600_000_000)] == [15 * SECOND, 15 * SECOND, 14 * SECOND, 15_600_000_000]
    assert conditioning.length_of(7, None) == 7


def aac_apart(rate=48_000):
    """A ladder of pictures, and of AAC of a rate apart."""
    return ladders.Ladder(2 * SECOND, {"v": ladders.rendition_of("v", RENDITIONS["v1"]), "a": ladders.Rendition("ts", None, ladders.Sound("aac", rate, 2, 64_000))})


@pure
def test_frames_and_makings_by_hand(room):
    for codec, rate, seconds, more, owed in (("aac", 48_000, 10, 0, 469), ("aac", 48_000, 10, -2, 467), ("aac", 44_100, 10, 0, 431), ("ac3", 48_000, 9, 0, 281)):  # (468.75, 430.66 and 281.25)
        sound = ladders.Sound(codec, rate, 2, 64_000)
        assert conditioning.frames_of(seconds * SECOND, sound, more) == owed, codec
    for seconds, owed in ((10, 469), (5, 235), (8, 375), (15, 704)):  # (468.75, 234.375, 375 and 703.125: within the pictures' segments no gap is left)
        assert conditioning.frames_over(seconds * SECOND, ladders.Sound("aac", 48_000, 2, 64_000)) == owed, seconds
    one = aac_apart()
    sound = one.sound_apart()
    # of 468.75 frames for 10 s, of 703.125 for 15 s, of 375 for 8 s, and of 187.5 for 4 s
    assert [conditioning.makings_of(it * SECOND, one) for it in (10, 15, 8, 4)] == [(0, -1, 1, -2, 2), (0, 1, -1, 2, -2), (0, -1, 1, -2, 2), (0, -1, 1, -2, 2)]
    assert [conditioning.over_of(10 * SECOND, sound, it) for it in (0, -1, 1, -2)] == [5_333_333, -16_000_000, 26_666_667, -37_333_333] and conditioning.over_of(8 * SECOND, sound) == 0
    assert [conditioning.folder_of(it) for it in (0, -2, 1)] == ["", "less-2", "more-1"]
    # sound among the pictures has their timestamps, and of sound alone nothing is to be beside
    v, en = (ladders.rendition_of("x", RENDITIONS[it]) for it in ("v0", "en"))
    assert [conditioning.makings_of(10 * SECOND, ladders.Ladder(2 * SECOND, it)) for it in ({"v": v}, {"main": en})] == [(0,)] * 2


def ready(length, one, name="ad"):
    """An ad of so many nanoseconds, in all its makings for a ladder."""
    from adsplice_plant.filling import ready_of
    from adsplice_plant.making import Made
    makings = {conditioning.folder_of(more): (conditioning.over_of(length, one.sound_apart(), more),) for more in conditioning.makings_of(length, one)}
    lates = {conditioning.folder_of(more): more * one.frame() for more in conditioning.makings_of(length, one)}
    return ready_of(name, Made(name, (length,), makings=makings, lates=lates), "http://ads.example", "{}", False)


LENGTHS = (10 * SECOND, 15 * SECOND, 20 * SECOND, 30 * SECOND, 7_520_000_000, 8 * SECOND, 3_920_000_000, 4 * SECOND, 9_960_000_000, 6_006_000_000)


@pure
def test_sound_stays_with_pictures_over_a_thousand_breaks(room):
    import random
    from adsplice_plant.filling import Pod, balanced
    rng, by, frame = random.Random(5), 0, 1024 * SECOND // 48_000
    ads = [ready(it, aac_apart()) for it in LENGTHS]
    for number in range(1000):
        its = [rng.choice(ads) for _ in range(rng.randrange(1, 4))] if number >= 500 else [ads[0]]
        before = by
        pod, by = balanced(Pod(list(its), [None] * len(its)), by)
        assert by - before == sum(it.over() for it in pod.ready) and [it.length() for it in pod.ready] == [it.length() for it in its]
        for it in pod.ready:
            assert max(abs(before + it.late), abs(before + it.over())) <= 3 * frame // 4 + 2, (number, before, it.late, it.over())  # (so much of rounding)
            before += it.over()
    from adsplice_plant.filling import Ready
    alone = Ready("alone", (10 * SECOND,), "u", "", (5_333_333,))
    assert balanced(Pod([alone], [None]), 0)[0].ready == [alone]


@pure
def test_sound_is_within_45_ms_in_ads_and_after_them(room):
    """Where a break begins and ends, sound is cut up to a frame beside the pictures, and these two cuts are up to a frame apart. If sound was off by 7/4 of a frame
    at most, it is so after the break, whatever the ad's length: 37.3 ms of 48 kHz, and 40.6 ms of 44.1 kHz. Within the ad it is off by a frame at most if the
    question says where sound is cut, and else by 7/4."""
    from adsplice_plant.filling import Pod, balanced
    for rate in (48_000, 44_100):
        frame, one = 1024 * SECOND // rate, aac_apart(rate)
        assert 7 * frame // 4 < 45_000_000
        for length in (*LENGTHS, *(n * SECOND // 25 for n in range(25, 1000, 7)), *(n * 1001 * SECOND // 30_000 for n in range(30, 900, 7))):
            ad = ready(length, one)
            for off in range(-7 * frame // 4, 7 * frame // 4 + 1, frame // 8):
                for cut in range(-frame, frame + 1, frame // 4):
                    for told, most in ((cut, frame), (0, 7 * frame // 4)):
                        pod, found = balanced(Pod([ad], [None]), off + told, told // 2)
                        within, after = off + cut + pod.ready[0].late, found - told + cut
                        assert abs(within) <= most + 2, (rate, length, off, cut, told, within)
                        for end in range(max(-frame, cut - frame), min(frame, cut + frame) + 1, frame // 4):
                            assert abs(after - end) <= 7 * frame // 4 + 2, (rate, length, off, cut, told, after, end)


def farthest(cuts, count=300, is_lost=False, lengths=(10 * SECOND, 10 * SECOND), rate=48_000, is_told=True):
    """How far sound comes from pictures within the ads of so many breaks, and after them. `cuts` says by how far sound is off where it is cut later than the
    pictures as each break begins and ends. Questions tell of the first if `is_told`, and of both once the next break comes. `is_lost`: each tenth question comes while the
    sound's run isn't over, and once the feed has begun anew."""
    from adsplice_plant.balance import Balance
    from adsplice_plant.filling import Pod
    one = aac_apart(rate)
    ads = [ready(it, one) for it in lengths]
    balance, off, within, after, taken = Balance(), 0, 0, 0, {"v": 500 * SECOND, "a": 480 * SECOND}
    for number in range(count):
        if is_lost and number == 100:
            taken = {"v": 0, "a": 0}
        late = 20 * SECOND if is_lost and number % 10 == 9 and number != 99 else 0
        begin, end = cuts(off)
        balance.cut(one.cut_apart({**taken, "a": taken["a"] - late}), one.piece // 2)
        pod = balance.give(Pod(list(ads), [None] * len(ads)), 300 * SECOND * number, number, one.cut_apart({"v": 0, "a": begin} if is_told else {}), one.frame())
        taken = {"v": taken["v"] + 20 * SECOND, "a": taken["a"] + 20 * SECOND + end - begin}
        off += begin
        for ad in pod.ready:
            within, off = max(within, abs(off + ad.late)), off + ad.over()
        off -= end
        after = max(after, abs(off))
    return within, after


def cut_in_frames(rng, frame):
    """What cuts may be like: always the same, any, as packagers cut that take the first frame, the last or the nearest one, and what brings sound furthest from pictures."""
    found = [lambda off, begin=begin, end=end: (begin * frame // 4, end * frame // 4) for begin in range(-4, 5) for end in range(-4, 5) if abs(begin - end) <= 4]
    for low, high in ((0, frame), (-frame, 0), (-frame // 2, frame // 2)):
        found.append(lambda off, low=low, high=high: (rng.randrange(low, high), rng.randrange(low, high)))
    return [*found, lambda off: (0, -frame if off > 0 else frame), lambda off: (frame, 0) if off > 0 else (-frame, 0), lambda off: (frame, frame) if off > 0 else (-frame, -frame)]


@pure
def test_sound_that_is_cut_elsewhere_than_pictures_stays_with_them(room):
    """Pods of one ad or of more stay within 45 ms over 300 breaks, in the ads and after them, and within a frame in the ads of questions that tell the cuts. A frame stays
    beside that of what the questions don't tell: two breaks, and two that a new start of the feed loses."""
    import random
    rng, one = random.Random(6), aac_apart()
    for rate in (48_000, 44_100):
        frame = 1024 * SECOND // rate
        for lengths in ((10 * SECOND, 10 * SECOND), (9_960_000_000, 10 * SECOND), (4 * SECOND,), (8 * SECOND,), (15 * SECOND,), (4 * SECOND, 6_006_000_000, 7_520_000_000)):
            for cuts in cut_in_frames(rng, frame):
                for is_told in (True, False):
                    within, after = farthest(cuts, 100, lengths=lengths, rate=rate, is_told=is_told)
                    assert after <= 7 * frame // 4 + 1000 < 45_000_000 and within <= (frame if is_told else 7 * frame // 4) + 1000, (rate, lengths, within, after, is_told)
    assert max(farthest(lambda off: (rng.randrange(-frame // 2, frame // 2), rng.randrange(-frame // 2, frame // 2)), is_lost=True, rate=44_100)) <= 5 * frame
    assert one.cut_apart({"v": 0}) is one.cut_apart({}) is ladders.Ladder(2 * SECOND, {"v": one.renditions["v"]}).cut_apart({"v": 5}) is None


@pure
def test_sound_that_is_cut_a_fraction_of_a_segment_away_is_cut_so_at_both_ends(room):
    """Sound whose segments begin 0.3 s after the pictures' is 0.3 s late in each break, and no making brings it nearer: after the breaks it is where it was."""
    within, after = farthest(lambda off: (300_000_000, 300_000_000))
    assert 270_000_000 < within < 330_000_000 and after <= 32_000_000, (within, after)


@pure
def test_a_pod_that_nobody_saw_does_not_count(room):
    """Each third answer comes too late, so its break stays empty, or the fallback fills it, whose sound is a frame longer: the number of decided pods stays as it is. Kept on disk,
    the balance is the same."""
    from adsplice_plant import balance
    from adsplice_plant.filling import Pod
    one, it, off, most, seen, taken, shown = aac_apart(), balance.Balance(), 0, 0, 0, {"v": 0, "a": 0}, {"v": 0, "a": 0}
    for number in range(300):
        balance.keep(Path(f"{room.path}/balance/film.json"), it)
        it = balance.read(Path(f"{room.path}/balance/film.json"))
        it.cut(one.cut_apart(taken) - one.cut_apart(shown), one.piece // 2)
        pod = it.give(Pod([ready(9_960_000_000, one), ready(10 * SECOND, one)], [None, None]), 300 * SECOND * number, seen, 0, one.frame())
        if number % 3 != 2 or number % 2:
            own = number % 3 != 2
            taken = {"v": taken["v"] + 20 * SECOND, "a": taken["a"] + 20 * SECOND + 10_666_667}
            shown = {"v": shown["v"] + 20 * SECOND, "a": shown["a"] + 20 * SECOND + (0 if own else one.frame())}
            off += (sum(ad.over() for ad in pod.ready) if own else one.frame()) - 10_666_667
            seen += own
        most = max(most, abs(off))
    assert most <= 7 * one.frame() // 4 + 1000, most
    for number, owed in ((10, 1), (100, 0)):  # (a break right after the last one is asked for while that one's run goes on; a minute after it the run is over)
        it = balance.Balance(5, last=balance.Last(5, 20 * SECOND, 7))
        it.give(Pod(), 20 * SECOND + number * SECOND, 7, None, 3)
        assert it.over == 5 * owed, (number, it)
    for text in ("", "[]", "{", '{"over": "x"}', '{"over": 1, "cut_before": [], "cut_last": 2, "last": 3}', "[" * 100_000):
        Path(f"{room.path}/balance/film.json").write_text(text)
        assert balance.read(Path(f"{room.path}/balance/film.json")) == balance.Balance() == balance.read(Path(f"{room.path}/none")), text


@pure
def test_a_slate_that_is_cut_off_counts_as_its_pieces_are(room):
    """Two pieces of 2 s of a slate have 188 frames of sound, a half frame more than pictures: the next ad makes that good."""
    from adsplice_plant.filling import Pod, Ready, balanced
    half, one = 512 * SECOND // 48_000, aac_apart()
    slate = Ready("slate", (2 * SECOND,) * 5, "u", "", (5_333_333, half, 16_000_000, 0, 5_333_333), (Ready("slate", (2 * SECOND,) * 5, "w", "", (0, 0, 0, 0, -16_000_000)),))
    front = slate.front(5 * SECOND)
    assert (front.pieces, front.over(), front.others) == ((2 * SECOND,) * 2, half, ()) and slate.front(11 * SECOND) is slate and slate.front(SECOND).over() == 0
    _, by = balanced(Pod([front, ready(8 * SECOND, one), front], [None] * 3), 0)
    _, later = balanced(Pod([ready(4 * SECOND, one)], [None]), by)
    assert (by, abs(later) <= half) == (2 * half, True), (by, later)


@pure
def test_wrong_ladders_are_told(room):
    def with_(**members):
        return {"piece": "2", "renditions": {"v0": {**RENDITIONS["v0"], **members}}}
    for said, owed in (({}, "a ladder has `piece` and `renditions`"), ([], "a ladder has"), ({"piece": "0", "renditions": RENDITIONS}, "a piece lasts 0 s"), ({"piece": "2", "renditions": {}}, "1 to 64 renditions"),
                       (with_(container="avi"), "its container is avi"), (with_(picture={**RENDITIONS["v0"]["picture"], "codec": "vp9"}), "no pictures of vp9"), (with_(picture={**RENDITIONS["v0"]["picture"], "rate": "1/0"}), "ZeroDivisionError"),
                       (with_(picture={**RENDITIONS["v0"]["picture"], "width": 99_999}), "pictures of 99999x54"), (with_(sound={**RENDITIONS["v0"]["sound"], "codec": "opus"}), "no sound of opus"),
                       ({"piece": "2", "renditions": {"../x": RENDITIONS["en"]}}, "a name is that of a folder"), ({"piece": "2", "renditions": {"sub": {"container": "vtt"}}}, "one has pictures or sound"),
                       ({"piece": "2", "renditions": {**RENDITIONS, "f": {**RENDITIONS["en"], "container": "fmp4"}}}, "some renditions are fragmented MP4, and v0, v1, en not")):
        try:
            ladders.ladder_of(said)
        except Fault as fault:
            assert owed in str(fault), (owed, str(fault))
            continue
        raise AssertionError(said)
    whole = ladders.ladder_of({"piece": "2", "renditions": RENDITIONS})
    assert ladders.said_of(whole) == {"piece": "2", "renditions": RENDITIONS} and len(whole.key()) == 16
    assert whole.key() != ladders.ladder_of({"piece": "4", "renditions": RENDITIONS}).key()


# ---- what ffmpeg makes

def pieces_of(folder, count, frames, rate, section=None):
    """Holds the pictures of each piece in a folder: so many, the first one a key frame and no other."""
    for n in range(count):
        found, streams = seen(f"{folder}/s{n}.{'m4s' if section else 'ts'}", section)
        video = found["video"]
        assert len(video) == frames[n] and [flags[0] for _, _, flags in video] == ["K"] + ["_"] * (frames[n] - 1), (folder, n, len(video))
        assert streams["video"]["r_frame_rate"] == rate or len(video) < 3, streams["video"]["r_frame_rate"]


def frames_of_sound(folder, count, section=None):
    """How many frames of sound the pieces in a folder have together."""
    return sum(len(seen(f"{folder}/s{n}.{'m4s' if section else 'ts'}", section)[0]["audio"]) for n in range(count))


def test_an_ad_for_a_ladder_of_mpeg_ts(room):
    status, out, err = condition(room, media(f"{room.path}/ad.mp4", 7.53), "--ladder", ladder(room), "--to", f"{room.path}/out/ad", "--id", "CAR0001H")
    assert (status, out, err) == (0, f"CAR0001H: 7.52 s in 4 pieces, in {room.path}/out/ad\n", "")
    made = f"{room.path}/out/ad"
    pieces_of(f"{made}/v0", 4, [50, 50, 50, 38], "25/1")
    pieces_of(f"{made}/v1", 4, [100, 100, 100, 76], "50/1")
    # 7.52 s of 48 kHz are 352.5 frames of 1,024 samples
    assert frames_of_sound(f"{made}/v0", 4) == 353 and frames_of_sound(f"{made}/en", 4) in (352, 353)
    for n, begin in enumerate((0, 2, 4, 6)):
        first = seen(f"{made}/en/s{n}.ts")[0]["audio"][0][0] - seen(f"{made}/en/s0.ts")[0]["audio"][0][0]
        assert abs(first - begin) <= 1024 / 48_000, (n, first)
        assert Path(f"{made}/sub/s{n}.vtt").read_text() == Path(f"{made}/sub/s{n}.ts").read_text() == "WEBVTT\n"
    lists = {it: Path(f"{made}/{it}/index.m3u8").read_text() for it in RENDITIONS}
    assert [line for line in lists["v0"].splitlines() if line.startswith("#EXTINF")] == ["#EXTINF:2,"] * 3 + ["#EXTINF:1.52,"]
    assert lists["v0"] == lists["v1"] == lists["sub"].replace(".vtt", ".ts")
    lasts = [float(line[8:-1]) for line in lists["en"].splitlines() if line.startswith("#EXTINF")]  # (whole frames, as many as there are)
    assert len(lasts) == 4 and abs(sum(lasts) - frames_of_sound(f"{made}/en", 4) * 1024 / 48_000) < 1e-4 and all(abs(it - owed) < 0.04 for it, owed in zip(lasts, (2, 2, 2, 1.52)))
    assert sorted(os.listdir(f"{room.path}/out")) == ["ad"] and json.loads(Path(f"{made}/ad.json").read_text())["pieces"] == ["2", "2", "2", "1.52"]


def test_an_ad_for_fragmented_mp4_at_rates_of_television(room):
    picture = {"codec": "h264", "profile": "main", "width": 96, "height": 54, "rate": "30000/1001", "bits": 100_000}
    sound = {"codec": "aac", "rate": 44_100, "channels": 1, "bits": 64_000}
    path = ladder(room, {"v": {"container": "fmp4", "picture": picture}, "a": {"container": "fmp4", "sound": sound}}, "2.002")
    status, out, _ = condition(room, media(f"{room.path}/ad.mp4", 6.1), "--ladder", path, "--to", f"{room.path}/ad", "--seconds", "6")
    assert status == 0 and "in 3 pieces" in out, out
    pieces_of(f"{room.path}/ad/v", 3, [60, 60, 59], "30000/1001", f"{room.path}/ad/v/init.mp4")  # (179 pictures are 5.973 s, and 180 over 6 s)
    assert abs(frames_of_sound(f"{room.path}/ad/a", 3, f"{room.path}/ad/a/init.mp4") - 179 * 1001 / 30_000 * 44_100 / 1024) <= 1
    assert '#EXT-X-MAP:URI="init.mp4"' in Path(f"{room.path}/ad/a/index.m3u8").read_text()


def test_hevc_and_ac3(room):
    picture = {"codec": "hevc", "profile": "main", "width": 96, "height": 54, "rate": "25", "bits": 100_000}
    path = ladder(room, {"v": {"container": "fmp4", "picture": picture}, "a": {"container": "fmp4", "sound": {"codec": "ac3", "rate": 48_000, "channels": 2, "bits": 96_000}}})
    assert condition(room, media(f"{room.path}/ad.mp4", 4), "--ladder", path, "--to", f"{room.path}/ad")[0] == 0
    pieces_of(f"{room.path}/ad/v", 2, [50, 50], "25/1", f"{room.path}/ad/v/init.mp4")
    assert seen(f"{room.path}/ad/v/s0.m4s", f"{room.path}/ad/v/init.mp4")[1]["video"]["codec_tag_string"] == "hvc1"
    assert frames_of_sound(f"{room.path}/ad/a", 2, f"{room.path}/ad/a/init.mp4") == 125  # (4 s of 48 kHz in frames of 1,536 samples)


def test_sound_apart_is_made_in_all_its_makings(room):
    """20 s are 937.5 frames of sound: the makings have 938, 937, 939, 936 and 940, and none begins an eleventh piece with what lasts on after the pictures."""
    renditions = {"v": RENDITIONS["v1"], "en": RENDITIONS["en"], "sub": RENDITIONS["sub"]}
    for container, section in (("ts", ""), ("fmp4", "init.mp4")):
        its = {name: {**it, "container": it["container"] if name == "sub" else container} for name, it in renditions.items()}
        to, ending = Path(f"{room.path}/{container}"), "m4s" if section else "ts"
        status, out, err = condition(room, media(f"{room.path}/ad.mp4", 20), "--ladder", ladder(room, its), "--to", to)
        assert (status, err) == (0, "") and "20 s in 10 pieces" in out, (out, err)
        made = json.loads((to / "ad.json").read_text())["makings"]
        assert sorted(it.name for it in to.iterdir() if it.is_dir()) == sorted([*renditions, *filter(None, made)]) and next(iter(made)) == "", made
        for name, frames in (("", 938), ("less-1", 937), ("more-1", 939), ("less-2", 936), ("more-2", 940)):
            assert frames_of_sound(to / name / "en", 10, to / name / "en" / section if section else None) == frames, (container, name)
            assert abs(made[name][-1] - (frames * 1024 / 48_000 - 20)) < 1e-6 and all(abs(it) < 0.08 for it in made[name]), (name, made)
            assert abs(json.loads((to / "ad.json").read_text())["lates"][name] - (frames - 938) * 1024 / 48_000) < 1e-6
            assert all(os.path.samefile(to / name / one, to / one) for one in (f"v/s9.{ending}", "sub/s0.vtt"))
            lasts = [float(line[8:-1]) for line in (to / name / "en" / "index.m3u8").read_text().splitlines() if line.startswith("#EXTINF")]
            assert len(lasts) == 10 and abs(sum(lasts) - frames * 1024 / 48_000) < 1e-4, (name, lasts)
        for name, frames in (("", 0), ("less-1", -1), ("more-1", 1), ("less-2", -2), ("more-2", 2)):  # (more frames are before the pictures by their timestamps)
            begins = [seen(to / name / one / f"s0.{ending}", to / name / one / section if section else None)[0][kind][0][0] for one, kind in (("v", "video"), ("en", "audio"))]
            assert abs(begins[0] - begins[1] - frames * 1024 / 48_000) < 0.001, (name, begins)


def test_an_ad_s_sound_is_where_its_pictures_are(room):
    """The coder's own frame stands in place of the first one of the ad: a tone that begins after 1 s is heard after 1 s. In a making with frames more or less it is
    heard so much later or earlier by a player that joins streams end to end."""
    path = f"{room.path}/ad.mp4"
    ffmpeg("-f", "lavfi", "-i", "testsrc2=s=64x36:r=25", "-f", "lavfi", "-i", "aevalsrc='if(gte(t,1),sin(2*PI*880*t),0)':s=48000", "-t", "4", "-c:v", "libx264", "-preset", "ultrafast", "-c:a", "pcm_s16le", "-f", "mov", path)
    assert condition(room, path, "--ladder", ladder(room, {"v": RENDITIONS["v1"], "en": RENDITIONS["en"]}), "--to", f"{room.path}/ad")[0] == 0
    for name, frames in (("", 0), ("less-2", -2), ("less-1", -1), ("more-1", 1), ("more-2", 2)):
        sound = subprocess.run(["ffmpeg", "-nostdin", "-v", "error", "-i", f"{room.path}/ad/{name}/en/s0.ts", "-ac", "1", "-f", "s16le", "-"], capture_output=True, check=True).stdout
        samples = memoryview(sound).cast("h")
        first = next(n for n, it in enumerate(samples) if abs(it) > 3000)
        assert abs(first - 48_000 - 1024 * frames) < 240, (name, first)  # (5 ms)


def test_an_ad_without_sound_is_silent_and_one_without_pictures_is_refused(room):
    assert condition(room, media(f"{room.path}/mute.mp4", 4, sound=0), "--ladder", ladder(room), "--to", f"{room.path}/ad")[0] == 0
    assert frames_of_sound(f"{room.path}/ad/v0", 2) in (187, 188) and frames_of_sound(f"{room.path}/ad/en", 2) in (187, 188)
    out = subprocess.run(["ffmpeg", "-nostdin", "-i", f"{room.path}/ad/en/s0.ts", "-af", "volumedetect", "-f", "null", "-"], capture_output=True, text=True, check=True).stderr
    assert "max_volume: -91.0 dB" in out, out[-400:]
    status, out, err = condition(room, media(f"{room.path}/radio.mp4", 4, pictures=False), "--ladder", ladder(room), "--to", f"{room.path}/radio")
    assert (status, out, err) == (1, "", f"adsplice-condition: {room.path}/radio.mp4: it has no pictures\n")
    alone = ladder(room, {"main": RENDITIONS["en"]})
    assert condition(room, f"{room.path}/radio.mp4", "--ladder", alone, "--to", f"{room.path}/radio")[0] == 0 and frames_of_sound(f"{room.path}/radio/main", 2) in (187, 188)


def test_loudness(room):
    assert condition(room, media(f"{room.path}/ad.mp4", 6, sound=48_000), "--ladder", ladder(room, {"en": RENDITIONS["en"]}), "--to", f"{room.path}/ad", "--loudness", "-30")[0] == 0
    joined = room.write("all.ts", "")
    Path(joined).write_bytes(b"".join(Path(f"{room.path}/ad/en/s{n}.ts").read_bytes() for n in range(3)))
    out = subprocess.run(["ffmpeg", "-nostdin", "-i", joined, "-af", "ebur128", "-f", "null", "-"], capture_output=True, text=True, check=True).stderr
    level = float(out.rpartition("I:")[2].split()[0])
    assert abs(level + 30) < 1.5, level


def test_a_ladder_is_profiled(room):
    for name, more in (("v0", ["-f", "lavfi", "-i", "testsrc2=s=96x54:r=25", "-f", "lavfi", "-i", "sine=r=48000"]), ("en", ["-f", "lavfi", "-i", "sine=r=44100"])):
        codecs = ["-c:v", "libx264", "-preset", "veryfast", "-g", "50", "-sc_threshold", "0"] if name == "v0" else []
        ffmpeg(*more, "-t", "7", *codecs, "-pix_fmt", "yuv420p", "-c:a", "aac", "-ac", "2", "-f", "hls", "-hls_time", "2", "-hls_list_size", "0", f"{room.path}/{name}.m3u8")
    ffmpeg("-f", "lavfi", "-i", "testsrc2=s=64x36:r=30000/1001", "-t", "7", "-c:v", "libx264", "-profile:v", "main", "-pix_fmt", "yuv420p", "-g", "60", "-sc_threshold", "0", "-f", "hls", "-hls_time", "2",
           "-hls_segment_type", "fmp4", "-hls_flags", "single_file", "-hls_list_size", "0", f"{room.path}/one.m3u8")
    room.write("sub.m3u8", "#EXTM3U\n#EXT-X-TARGETDURATION:2\n#EXTINF:2,\nt0.vtt\n")
    room.write("master.m3u8", '#EXTM3U\n#EXT-X-MEDIA:TYPE=AUDIO,GROUP-ID="a",NAME="e",URI="en.m3u8"\n#EXT-X-MEDIA:TYPE=SUBTITLES,GROUP-ID="s",NAME="e",URI="sub.m3u8"\n#EXT-X-STREAM-INF:BANDWIDTH=1,AUDIO="a"\nv0.m3u8\n')
    status, out, err = condition(room, "--profile", f"{room.path}/master.m3u8", "--names", "en,sub,v0")
    assert (status, err) == (0, ""), err
    said = json.loads(out)
    assert said["piece"] == "2" and list(said["renditions"]) == ["en", "sub", "v0"] and said["renditions"]["sub"] == {"container": "vtt"}, said
    assert {key: said["renditions"]["v0"]["picture"][key] for key in ("codec", "profile", "width", "height", "rate")} == {"codec": "h264", "profile": "high", "width": 96, "height": 54, "rate": "25"}, said
    assert (said["renditions"]["en"]["sound"]["rate"], said["renditions"]["en"]["sound"]["channels"]) == (44_100, 2) and said["renditions"]["en"]["container"] == "ts"
    room.server(files := Files(room.path))
    status, out, err = condition(room, "--profile", f"{files.url}/one.m3u8")
    one = json.loads(out)["renditions"]["main"]
    assert (status, one["container"], one["picture"]["rate"], one["picture"]["profile"]) == (0, "fmp4", "30000/1001", "main"), (err, one)
    assert "rendition v: " in condition(room, "--profile", f"v={room.path}/none.m3u8", "w=x")[2]


def test_a_ladder_has_how_much_later_sound_is_than_its_list_says(room):
    """A coder of AAC puts a frame of 1,024 samples before the sound, and both lists say that their first segment begins at one instant. So sound is that much earlier."""
    ffmpeg("-f", "lavfi", "-i", "testsrc2=s=96x54:r=25", "-f", "lavfi", "-i", "sine=r=48000", "-t", "9", "-c:v", "libx264", "-preset", "veryfast", "-g", "50", "-sc_threshold", "0", "-pix_fmt", "yuv420p", "-bf", "0", "-c:a", "aac",
           f"{room.path}/film.mp4")
    wraps = (1 << 33) / 90_000
    for container, offset, earlier in (("mpegts", 100, 1024 / 48_000), ("mpegts", wraps - 1.41, 1024 / 48_000), ("fmp4", 100, 1024 / 48_000)):
        for name in "va":
            ffmpeg("-i", f"{room.path}/film.mp4", "-map", f"0:{name}", "-c", "copy", "-output_ts_offset", f"{offset:.6f}", "-f", "hls", "-hls_time", "2", "-hls_list_size", "0", "-hls_segment_type", container,
                   "-hls_segment_options", "movflags=+frag_discont" if container == "fmp4" else "mpegts_copyts=0", "-hls_fmp4_init_filename", f"{name}.mp4", f"{room.path}/{name}.m3u8")
            for number, time in ((0, 0), (1, 2)):  # (the second instant is that of a packager that rounds)
                text = Path(f"{room.path}/{name}.m3u8").read_text()
                room.write(f"{name}{number}.m3u8", text.replace("#EXTINF", f"#EXT-X-PROGRAM-DATE-TIME:2026-12-01T12:00:0{time}.000Z\n#EXTINF", 1))
        status, out, err = condition(room, "--profile", f"v={room.path}/v0.m3u8", f"a={room.path}/a0.m3u8")
        assert status == 0 and abs(json.loads(out)["shift"] + earlier) < 0.0015, (container, offset, out, err)
        assert abs(ladders.ladder_of(json.loads(out)).shift / SECOND + earlier) < 0.0015
        none = condition(room, "--profile", f"v={room.path}/v0.m3u8", f"a={room.path}/a1.m3u8"), condition(room, "--profile", f"v={room.path}/v.m3u8", f"a={room.path}/a0.m3u8")
        assert [json.loads(it[1])["shift"] for it in none] == [0, 0], none  # (2 s are no coder's, and without instants nobody knows)
    same = [ladders.ladder_of({**json.loads(out), "shift": it}) for it in (0, -0.02)]
    assert same[0].key() == same[1].key() and same[0].is_like(same[1])


def encrypted(room, name, seconds=8, vector="00000000000000000000000000000005"):
    """A programme of segments of 2 s under AES-128, and its key: its list."""
    Path(f"{room.path}/{name}.key").write_bytes(bytes(range(16)))
    info = room.write(f"{name}.info", f"{name}.key\n{room.path}/{name}.key\n{vector}\n")
    ffmpeg("-f", "lavfi", "-i", "testsrc2=s=96x54:r=25", "-f", "lavfi", "-i", "sine=r=48000", "-t", str(seconds), "-c:v", "libx264", "-preset", "veryfast", "-pix_fmt", "yuv420p", "-bf", "0", "-g", "50",
           "-sc_threshold", "0", "-c:a", "aac", "-ac", "2", "-f", "hls", "-hls_time", "2", "-hls_list_size", "0", "-hls_key_info_file", info, f"{room.path}/{name}.m3u8")
    return Path(f"{room.path}/{name}.m3u8").read_text()


def test_a_ladder_under_a_key_is_profiled(room):
    text = encrypted(room, "e")
    plain = {"codec": "h264", "width": 96, "height": 54, "rate": "25"}
    # without an IV it is the media sequence number (RFC 8216, 5.2): that of the last segment is 3, and each but the last one may have another
    encrypted(room, "n", vector=f"{3:032x}")
    room.write("n.m3u8", Path(f"{room.path}/n.m3u8").read_text().replace(f",IV=0x{3:032x}", ""))
    room.write("off.m3u8", text.replace("#EXTINF", "#EXT-X-KEY:METHOD=NONE\n#EXTINF", 1))
    files = room.server(Files(room.path))
    for place in (f"{room.path}/e.m3u8", f"{files.url}/e.m3u8", f"{room.path}/n.m3u8"):
        status, out, err = condition(room, "--profile", place)
        assert status == 0, err
        assert {key: json.loads(out)["renditions"]["main"]["picture"][key] for key in plain} == plain, out
    assert condition(room, "--profile", f"{room.path}/off.m3u8")[0] == 1  # (it says that it is clear, and isn't)
    for more, owed in ((text.replace("METHOD=AES-128", "METHOD=SAMPLE-AES"), "its segments are under SAMPLE-AES, so ffprobe can't read them: write its profile by hand"),
                       (text.replace("IV=0x0", "IV=0xg"), "its key, or the IV, hasn't 16 bytes"), (text.replace("e.key", "none.key"), "No such file"),
                       (text.replace("#EXTINF", '#EXT-X-MAP:URI="i.mp4"\n#EXTINF', 1), "under AES-128 with an initialisation section"),
                       (text.replace("IV=", 'KEYFORMAT="com.example",IV='), "its segments are under AES-128")):
        status, _, err = condition(room, "--profile", room.write("w.m3u8", more))
        assert status == 1 and owed in err and err.count("\n") == 1, (owed, err)


def test_ads_of_a_ladder_under_a_key_are_clear_pieces(room):
    """RFC 8216, 4.3.2.4: a key counts up to the next EXT-X-KEY, so METHOD=NONE has to stand before the first piece of the ad, and the key after the last."""
    text = encrypted(room, "e")
    room.write("ladder.json", condition(room, "--profile", f"{room.path}/e.m3u8")[1])
    assert condition(room, media(f"{room.path}/ad.mp4", 4), "--ladder", f"{room.path}/ladder.json", "--to", f"{room.path}/ads/CAR0001H")[0] == 0
    files = room.server(Files(room.path))
    done = room.run("adsplice-pod", "--breaks", "4=CAR0001H", "--playlist", f"{room.path}/e.m3u8", "--base", f"{files.url}/e.m3u8", "--ads", f"{room.path}/ads", "--at", f"{files.url}/ads", "--to", f"{room.path}/film")
    assert done[0] == 0, done
    rules = subprocess.run([PYTHON, f"{PLANT}/adsplice_rules/run", "vod", f"{files.url}/e.m3u8", f"{room.path}/film/decisions.json"], input=Path(f"{room.path}/film/index.m3u8").read_bytes(), capture_output=True, check=True)
    written = room.write("written.m3u8", rules.stdout.decode())
    states, key, steps = [], "", 0
    for line in rules.stdout.decode().splitlines():
        if line.startswith("#EXT-X-KEY:"):
            key = line
        steps += line == "#EXT-X-DISCONTINUITY"
        if line and line[0] != "#":
            states.append((line.rpartition("/")[2], "METHOD=NONE" not in key, steps))
    assert states == [("e0.ts", True, 0), ("e1.ts", True, 0), ("s0.ts", False, 1), ("s1.ts", False, 1), ("e2.ts", True, 2), ("e3.ts", True, 2)], states
    seen_frames = subprocess.run(["ffprobe", "-v", "error", "-protocol_whitelist", "file,http,tcp,crypto", "-allowed_extensions", "ALL", "-count_frames", "-select_streams", "v", "-show_entries", "stream=nb_read_frames", "-of", "csv=p=0", written],
                                 capture_output=True, text=True, check=False)
    assert seen_frames.stdout.split()[:1] == ["300"], (seen_frames.stdout, seen_frames.stderr)  # (8 s of the programme and 4 s of the ad, 25 a second)


def test_an_ad_for_webvtt_beside_fragmented_mp4(room):
    renditions = {"v": {"container": "fmp4", "picture": {**RENDITIONS["v0"]["picture"]}}, "a": {"container": "fmp4", "sound": RENDITIONS["en"]["sound"]}, "sub": {"container": "vtt"}}
    assert condition(room, media(f"{room.path}/ad.mp4", 4), "--ladder", ladder(room, renditions), "--to", f"{room.path}/ad")[0] == 0
    assert Path(f"{room.path}/ad/v/init.mp4").exists() and not Path(f"{room.path}/ad/sub/init.mp4").exists()
    assert [Path(f"{room.path}/ad/sub/s{n}.{ending}").read_text() for n in (0, 1) for ending in ("vtt", "m4s")] == ["WEBVTT\n"] * 4
    assert "EXT-X-MAP" not in Path(f"{room.path}/ad/sub/index.m3u8").read_text()


class Files(FakeServer):
    """The files of a folder, by byte ranges; `status` in place of one, or `cut` for a body that ends early."""

    def __init__(self, path):
        self.path, self.status, self.has_ranges, self.slow = path, 0, True, 0.0
        super().__init__()

    @property
    def url(self):
        return f"http://127.0.0.1:{self.port}"

    def answer(self, method, path, body, fields):
        time.sleep(self.slow)
        file = os.path.join(self.path, path.partition("?")[0].lstrip("/"))
        if self.status or not os.path.isfile(file):
            return self.status or 404, {}, b""
        data = Path(file).read_bytes()
        tag = f'"{len(data)}-{os.stat(file).st_mtime_ns}"'
        if fields.get("If-None-Match") == tag:
            return 304, {"ETag": tag}, b""
        asked = fields.get("Range")
        if not asked or not self.has_ranges:
            return 200, {"ETag": tag}, data
        begin, end = (int(it or len(data)) for it in asked.removeprefix("bytes=").split("-"))
        part = data[begin:end + 1]
        return 206, {"ETag": tag, "Content-Range": f"bytes {begin}-{begin + len(part) - 1}/{len(data)}"}, part


def downloaded(room, files, name, most=1 << 30, seconds=5.0, limit=2.0):
    """What a download of a file gives, and the bytes that were written."""
    from adsplice_plant import download, web
    with open(f"{room.path}/got", "wb") as it:
        found = download.Download(web.Client(limit), f"{files.url}/{name}", it, most, seconds, lambda: False).run()
    return found, Path(f"{room.path}/got").read_bytes()


def test_files_come_in_pieces(room):
    import hashlib
    files = room.server(Files(room.path))
    for size in (1, 2 << 20, (2 << 20) + 1, 9_000_000):
        Path(f"{room.path}/a.mp4").write_bytes(os.urandom(size))
        found, got = downloaded(room, files, "a.mp4")
        assert got == Path(f"{room.path}/a.mp4").read_bytes() and (found.sum, found.size) == (hashlib.sha256(got).hexdigest(), size), size
    files.has_ranges = False
    for size, owed in ((3_000_000, ""), (9_000_000, "the server has to answer byte ranges"), (0, "the file is empty")):
        Path(f"{room.path}/a.mp4").write_bytes(b"x" * size)
        try:
            assert len(downloaded(room, files, "a.mp4")[1]) == size and not owed
        except Fault as fault:
            assert owed and owed in str(fault), fault


test_files_come_in_pieces.needs = ("httpx",)


def test_files_that_dont_come_are_told(room):
    files = room.server(Files(room.path))
    Path(f"{room.path}/a.mp4").write_bytes(b"x" * 9_000_000)
    for change, most, owed in (({"status": 404}, 1 << 30, "the server answers 404"), ({"status": 503}, 1 << 30, "the server answers 503"), ({}, 1 << 20, "the file has 9000000 bytes, over 1048576"),
                               ({"slow": 0.4}, 1 << 30, "the file didn't come within 0.5 s")):
        files.status, files.slow = change.get("status", 0), change.get("slow", 0.0)
        try:
            downloaded(room, files, "a.mp4", most, 0.5)
        except Fault as fault:
            assert owed in str(fault), fault
            continue
        raise AssertionError(owed)
    files.status, files.slow, answer = 0, 0.0, files.answer

    def changing(method, path, body, fields):
        said = answer(method, path, body, fields)
        return said if fields["Range"].startswith("bytes=0") else (206, {**said[1], "ETag": '"other"'}, said[2])
    files.answer = changing
    try:
        downloaded(room, files, "a.mp4")
        raise AssertionError
    except Fault as fault:
        assert "the file changed while it was fetched" in str(fault)


test_files_that_dont_come_are_told.needs = ("httpx",)


def test_hostile_files_are_refused_and_leave_nothing(room):
    os.mkdir(f"{room.path}/out")
    secret = room.write("secret.ts", "")
    ffmpeg("-f", "lavfi", "-i", "testsrc2=s=64x36:r=25", "-t", "2", "-c:v", "libx264", "-f", "mpegts", secret)
    whole = Path(media(f"{room.path}/good.mp4", 2)).read_bytes()
    bad = {"list.mp4": f"#EXTM3U\n#EXT-X-TARGETDURATION:2\n#EXTINF:2,\n{secret}\n#EXT-X-ENDLIST\n".encode(), "concat.mp4": f"ffconcat version 1.0\nfile '{secret}'\n".encode(), "empty.mp4": b"",
           "text.mp4": b"<html>" * 100, "cut.mp4": whole[:len(whole) // 3], "noise.mp4": os.urandom(100_000), "dash.mp4": b'<?xml version="1.0"?><MPD><Period/></MPD>'}
    for name, data in bad.items():
        Path(f"{room.path}/{name}").write_bytes(data)
        status, out, err = condition(room, f"{room.path}/{name}", "--ladder", ladder(room, {"main": RENDITIONS["v0"]}), "--to", f"{room.path}/out/ad")
        assert (status, out, err.count("\n")) == (1, "", 1) and name in err and "Traceback" not in err, (name, status, err)
        assert os.listdir(f"{room.path}/out") == [], name


def test_a_limit_and_a_signal_leave_nothing(room):
    path, to = media(f"{room.path}/ad.mp4", 60, size="640x360"), f"{room.path}/out/ad"
    words = [path, "--ladder", ladder(room), "--to", to]
    status, _, err = condition(room, *words, "--limit", "0.7")
    assert status == 1 and "took over 0.7 s" in err and os.listdir(f"{room.path}/out") == [], (status, err)
    for number in (signal.SIGTERM, signal.SIGINT):
        it = subprocess.Popen([PYTHON, f"{PLANT}/adsplice-condition", *words], stdin=subprocess.DEVNULL, stdout=subprocess.DEVNULL, stderr=subprocess.PIPE, text=True)
        room.running.append(it)
        until(lambda: list(Path(f"{room.path}/out").glob("*/v0/s*")), 30, "a piece")
        it.send_signal(number)
        assert it.wait(10) == 128 + number and os.listdir(f"{room.path}/out") == [], number
        it.stderr.close()
        assert not subprocess.run(["pgrep", "-f", f"ffmpeg.*{room.path}"], capture_output=True, check=False).stdout, "ffmpeg goes on"


def test_an_ad_takes_the_place_of_an_earlier_one_as_a_whole(room):
    to = f"{room.path}/out/ad"
    assert condition(room, media(f"{room.path}/a.mp4", 2), "--ladder", ladder(room, {"main": RENDITIONS["v1"]}), "--to", to)[0] == 0
    gone = []

    def watch():
        while not gone or gone[-1] is not None:
            try:
                gone.append(Path(f"{to}/ad.json").read_text())
            except OSError:
                gone.append("")
            time.sleep(0.0005)
    thread = threading.Thread(target=watch, daemon=True)
    thread.start()
    assert condition(room, media(f"{room.path}/b.mp4", 4), "--ladder", f"{room.path}/ladder.json", "--to", to)[0] == 0
    gone.append(None)
    thread.join(2)
    assert len(os.listdir(f"{to}/main")) == 3 and os.listdir(f"{room.path}/out") == ["ad"]
    assert all(it is None or it == "" or json.loads(it)["pieces"] for it in gone)


def test_wrong_words(room):
    for words, owed in (((), "a file is needed"), (("a.mp4",), "--ladder and --to are needed"), (("--profile", "x", "a.mp4", "--loudness", "3"), "isn't a number of LUFS")):
        status, _, err = condition(room, *words)
        assert status == 2 and owed in err, err
    room.write("no.json", "{")
    media(f"{room.path}/a.mp4", 1)
    for path, owed in ((f"{room.path}/no.json", "it isn't JSON"), (f"{room.path}/none.json", "No such file")):
        status, _, err = condition(room, f"{room.path}/a.mp4", "--ladder", path, "--to", f"{room.path}/ad")
        assert status == 1 and owed in err and err.count("\n") == 1, err
    shutil.rmtree(f"{room.path}/ad", ignore_errors=True)
