"""Tests of adsplice-monitor: with fake servers, what a feed kept, and the built program."""
import json
import os
import re
import shutil
import signal
import subprocess
import sys
import time
import urllib.request
from datetime import datetime, timedelta, timezone
from pathlib import Path

from tools import FALLBACK, OUT, PLANT, PYTHON, FakeServer, decided, free_port, get, instant, listed, until

sys.path.insert(0, PLANT)
from adsplice_plant.journal import Journal  # noqa: E402
from adsplice_plant.kept import Kept  # noqa: E402

NEEDS = ("httpx", "prometheus_client")
PROGRAM = (*NEEDS, "program")
SAMPLE = re.compile(r"^(\w+)(?:\{(.*)\})? (\S+)$")


class FakeChannels(FakeServer):
    """A controller whose channels have the lists `lists`."""

    def __init__(self):
        self.lists, self.why = {}, "b1\tFilled\nb2\tWaiting\nb3\tWaiting\n"
        super().__init__()

    def answer(self, method, path, body, fields):
        _, _, name, what = f"{path}///".split("/")[:4]
        if name not in self.lists:
            return 404, {}, b"not found\n"
        return 200, {}, (self.why if what == "why" else self.lists[name]).encode()


def fresh(behind, last=5):
    """A list whose end is so many seconds behind real time."""
    begin = datetime.now(timezone.utc) - timedelta(seconds=behind + 2 * (last + 1))
    return listed(0, last).replace("2024-05-01T12:00:00.000Z", begin.strftime("%Y-%m-%dT%H:%M:%S.%f")[:-3] + "Z")


def figures(text):
    """The samples of a text: (name, labels) to value."""
    return {(it[1], it[2] or ""): float(it[3]) for line in text.splitlines() if (it := SAMPLE.match(line))}


def test_once_tells_late_and_still_channels(room):
    server = room.server(FakeChannels())
    at = f"http://127.0.0.1:{server.port}"
    server.lists = {"news": fresh(1), "old": fresh(30)}
    status, out, err = room.run("adsplice-monitor", "--at", at, "--channel", "old", "--once", "--interval", "0.1")
    assert status == 2 and re.match(r"# CRITICAL: old is late: its end is 3\d\.\d s behind real time \(over 6 s\)\n", out), (status, out, err)
    server.lists["news"] = fresh(1)
    status, out, err = room.run("adsplice-monitor", "--at", at, "--channel", "news", "--late", "60", "--still", "0.6", "--once", "--interval", "0.1")
    assert status == 2 and re.match(r"# CRITICAL: news stands still for \d\.\d s \(over 0.6 s\)\n", out), (status, out, err)
    assert figures(out)[("adsplice_breaks", 'channel="news",why="Waiting"')] == 2
    status, out, err = room.run("adsplice-monitor", "--at", at, "--channel", "none", "--process", "http://127.0.0.1:1", "--once")
    assert status == 2 and out.startswith("# CRITICAL: none answers 404, and the process at http://127.0.0.1:1 doesn't answer\n"), out


def test_once_is_well_where_the_list_changes(room):
    server = room.server(FakeChannels())
    server.lists = {"news": fresh(1)}
    it = subprocess.Popen([PYTHON, f"{PLANT}/adsplice-monitor", "--at", f"http://127.0.0.1:{server.port}", "--channel", "news", "--once", "--interval", "0.1",
                           "--late", "60", "--still", "60", "--process", f"http://127.0.0.1:{server.port}"], stdout=subprocess.PIPE, text=True)
    room.running.append(it)
    until(lambda: server.count("GET", "/channels/news/live.m3u8") > 1)
    server.lists = {"news": fresh(0.5, 6)}
    out = it.communicate(timeout=10)[0]
    found = figures(out)
    assert it.returncode == 0 and out.startswith("# OK: 1 channels go on\n"), out
    assert found[("adsplice_up", f'process="127.0.0.1:{server.port}"')] == 1 and found[("adsplice_target_duration_seconds", 'channel="news"')] == 2
    assert 0.3 < found[("adsplice_end_behind_seconds", 'channel="news"')] < 6, out


def test_ended_list_is_neither_late_nor_still(room):
    server = room.server(FakeChannels())
    server.lists = {"news": listed(0, 5) + "#EXT-X-ENDLIST\n"}
    status, out, _ = room.run("adsplice-monitor", "--at", f"http://127.0.0.1:{server.port}", "--channel", "news", "--once")
    assert status == 0, out


def test_exporter_counts_what_the_feed_kept(room):
    server, port = room.server(FakeChannels()), free_port()
    server.lists = {"news": fresh(1)}
    os.makedirs(f"{room.path}/kept")
    journal = Journal(Path(room.path) / "kept" / "news.events", lambda: [])
    for status, fault in ((204, ""), (409, "N5 Back"), (409, "N5 Back"), (409, "N8 Changed 17"), (502, "<html>")):
        journal.add("origin", status, fault, b"#EXTM3U\n")
    journal.add("read", 0, "no answer")
    it = subprocess.Popen([PYTHON, f"{PLANT}/adsplice-monitor", "--at", f"http://127.0.0.1:{server.port}", "--channel", "news", "--interval", "0.1",
                           "--listen", f"127.0.0.1:{port}", "--kept", f"{room.path}/kept"], stderr=subprocess.PIPE, text=True)
    room.running.append(it)

    def count(status, fault):
        text = get(f"http://127.0.0.1:{port}/metrics")[1]
        return figures(text).get(("adsplice_feed_requests_total", f'channel="news",fault="{fault}",status="{status}",what="origin"'))

    until(lambda: count(409, "N5 Back") == 2, 10, "the count of N5")
    assert count(409, "N8 Changed") == 1 and count(502, "") == 1 and count(204, "") == 1
    journal.add("origin", 409, "N5 Back", b"")
    until(lambda: count(409, "N5 Back") == 3, 5, "the next one")
    it.send_signal(signal.SIGTERM)
    assert it.wait(5) == 0 and it.stderr.read() == ""


def test_a_date_range_without_a_signal_is_of_no_break_that_cannot_be_filled(room):
    server = room.server(FakeChannels())
    server.lists, server.why = {"news": fresh(1)}, "b1\tDoesNotFit\nb2\tNoStart\nb3\tNotDecided\nn1\tNotSignalled\nn2\tNoStart\n"
    os.makedirs(f"{room.path}/kept")
    lines = [f'#EXT-X-DATERANGE:ID="b2",SCTE35-OUT={OUT}', f'#EXT-X-DATERANGE:ID="n1",CLASS="talk",START-DATE="{instant(4)}"', '#EXT-X-DATERANGE:ID="n2",CLASS="talk"']
    text = listed(0, 5, [("b1", 4, 4), ("b3", 8, 4)]).replace("#EXTM3U\n", "\n".join(["#EXTM3U", *lines, ""]))
    Journal(Path(room.path) / "kept" / "news.events", lambda: []).add("origin", 204, "", text.encode())
    words = ("--at", f"http://127.0.0.1:{server.port}", "--channel", "news", "--once", "--interval", "0.1", "--still", "0.3")
    found = figures(room.run("adsplice-monitor", *words, "--kept", f"{room.path}/kept")[1])
    said = {word: found["adsplice_breaks_unfillable", f'channel="news",why="{word}"'] for word in ("DoesNotFit", "NoStart", "NotSignalled")}
    assert said == {"DoesNotFit": 1, "NoStart": 1, "NotSignalled": 0}, said
    assert found["adsplice_breaks", 'channel="news",why="NoStart"'] == 2 and found["adsplice_breaks", 'channel="news",why="NotSignalled"'] == 1, found
    assert "adsplice_breaks_unfillable{" not in room.run("adsplice-monitor", *words)[1]  # (nothing is known of date ranges)


def test_kept_events_are_followed_into_a_new_file(room):
    path = Path(room.path) / "news.events"
    journal, kept = Journal(path, lambda: []), Kept(path)
    journal.add("origin", 204, "", listed(0, 5, [("b1", 4, 4)]).encode())
    journal.add("decisions", 204, "", decided(("b1", 2)).encode())
    kept.follow()
    assert set(kept.ranges) == {"b1"} and [it[0] for it in kept.pods["b1"].segments] == ["http://ads.example/b1-0.ts", "http://ads.example/b1-1.ts"]
    journal.add("origin", 409, "N5 Back", b"")
    journal.size = 1 << 30
    journal.add("origin", 409, "N5 Back", b"")
    with open(path, "a", encoding="utf-8") as it:
        it.write('{"at":"2024')  # (half a line: the feed is writing it)
    kept.follow()
    kept.follow()
    assert kept.answers["origin", "409", "N5 Back"] == 2 and kept.answers["origin", "204", ""] == 1


def test_as_run_log(room):
    port, exporter = free_port(), free_port()
    room.adsplice(port)
    at = f"http://127.0.0.1:{port}"
    journal = Journal(Path(room.path) / "kept" / "news.events", lambda: [])

    def put(what, body):
        request = urllib.request.Request(f"{at}/channels/news/{what}".rstrip("/"), body.encode(), method="PUT")
        with urllib.request.urlopen(request, timeout=10) as reply:
            journal.add(what or "channel", reply.status, "", body.encode())

    put("", json.dumps({"base": "http://origin.example/ch/index.m3u8"}))
    put("decisions", FALLBACK)
    put("decisions", decided(("b1", 3)))
    breaks = [("b1", 8, 4), ("b2", 20, 2), ("b3", 27, 2)]  # b1 has a pod of 3 segments, b2 the fallback's one, b3 misses the segments by 1 s
    log = f"{room.path}/as-run.jsonl"
    it = subprocess.Popen([PYTHON, f"{PLANT}/adsplice-monitor", "--at", at, "--channel", "news", "--interval", "0.05", "--listen", f"127.0.0.1:{exporter}",
                           "--kept", f"{room.path}/kept", "--as-run", log])
    room.running.append(it)
    until(lambda: "adsplice_up" in get(f"http://127.0.0.1:{exporter}/metrics")[1])
    for last in range(5, 26):
        first = max(0, last - 5)
        put("origin", listed(first, last, [it for it in breaks if it[1] + it[2] > 2 * first]))
        time.sleep(0.2)
    found = until(lambda: (lambda lines: lines if len(lines) == 3 else None)([json.loads(line) for line in open(log, encoding="utf-8")]), 5, "three lines")
    said = {it["id"]: (it["begin"], it["pod"], it["why"], it["shown"], it["of"]) for it in found}
    assert said == {"b1": ("2024-05-01T12:00:08.000Z", "own", "Filled", 3, 3), "b2": ("2024-05-01T12:00:20.000Z", "fallback", "Filled", 1, 1),
                    "b3": ("2024-05-01T12:00:27.000Z", None, "Waiting", 0, 0)}, said


test_as_run_log.needs = PROGRAM


def test_as_run_log_of_a_channel_that_is_made_anew_within_a_break(room):
    from adsplice_plant import playlist
    from adsplice_plant.as_run import AsRun, Log
    from adsplice_plant.kept import pod_of
    path = Path(room.path) / "as-run.jsonl"
    run, kept = AsRun("news", Log(path)), Kept(Path("none"))
    kept.pods = {"b4": pod_of([{"segments": [{"uri": f"p{n}", "duration": "2"} for n in range(5)]}])}
    kept.fallback = pod_of([{"segments": [{"uri": f"f{n}", "duration": "2"} for n in range(5)]}])
    starts = {"b4": 20, "b5": 50}

    def look(first, numbers, words):
        kept.ranges = {it: playlist.DateRange(it, {"START-DATE": instant(starts[it]), "DURATION": "10"}) for it in words}
        parts = [f"#EXTINF:2,\n{it}\n" if isinstance(it, str) else f"#EXT-X-PROGRAM-DATE-TIME:{instant(2 * it)}\n#EXTINF:2,\ns{it}\n" for it in numbers]
        run.look(playlist.read(f"#EXTM3U\n#EXT-X-TARGETDURATION:2\n#EXT-X-MEDIA-SEQUENCE:{first}\n{''.join(parts)}".encode()), words, kept)

    look(5, [*range(5, 10), "p0", "p1"], {"b4": "Filled", "b5": "Waiting"})
    for last in range(12, 31):  # (its numbers begin again after two segments of the pod; b4 stays listed until b5 is over)
        look(0, [it if it < 25 else f"f{it - 25}" for it in range(12, last)], {"b4": "Waiting", "b5": "Filled" if last > 25 else "Waiting"})
    look(20, [40, 41], {})
    with open(path, encoding="utf-8") as it:
        assert [(said["id"], said["pod"], said["shown"], said["of"]) for said in map(json.loads, it) if "id" in said] == [("b5", "fallback", 5, 5), ("b4", "own", 2, 5)]


def as_run_line(name, pod="own", why="Filled", segments=(), of=3, **more):
    """A line of an as-run log."""
    return {"at": instant(60), "channel": "news", "id": name, "start": instant(20), "begin": instant(20), "pod": pod, "why": why, "shown": len(segments), "of": of,
            "segments": [f"http://ads.example/{name}-{n}.ts" for n in segments]} | more


def test_as_run_lines_wait_for_room_and_are_whole(room):
    # (in a process whose files may have no byte, for a while; the file's last line was left unfinished by another one)
    code = ("import json, resource, sys; sys.path.insert(0, sys.argv[1])\nfrom pathlib import Path\nfrom adsplice_plant.as_run import AsRun, Log, UNWRITTEN\n"
            "run = AsRun('news', Log(Path(sys.argv[2])))\n"
            "def line(n): return {'at': 'a', 'channel': 'news', 'id': f'b{n}', 'start': 's', 'pod': 'own', 'why': 'Filled'}\n"
            "resource.setrlimit(resource.RLIMIT_FSIZE, (0, -1))\n"
            "for n in range(UNWRITTEN + 2):\n    run.put(line(n))\n    if n < 3:\n        try:\n            run.write()\n            raise SystemExit('it was written')\n        except OSError: pass\n"
            "resource.setrlimit(resource.RLIMIT_FSIZE, (-1, -1))\nrun.write()\nrun.put(line(0)); run.write()\nprint(run.counts)\n")
    path = room.write("as-run.jsonl", json.dumps(as_run_line("a1")) + "\n" + '{"at": "2024')
    done = subprocess.run([PYTHON, "-c", code, PLANT, path], capture_output=True, text=True, timeout=60, check=False)
    assert (done.returncode, done.stdout) == (0, "Counter({('own', 'Filled'): 1000})\n"), done
    with open(path, encoding="utf-8") as it:
        lines = it.read().split("\n")
    said = [json.loads(line) for line in (lines[0], *lines[2:-1])]
    assert [it.get("id") for it in said] == ["a1", *(f"b{n}" for n in range(1000)), None] and said[-1]["why"] == "2 lines couldn't be written", said[-3:]


def test_what_is_not_recorded_is_a_line(room):
    from adsplice_plant import playlist
    from adsplice_plant.as_run import AsRun, Log
    path = Path(room.path) / "as-run.jsonl"
    log = Log(path)
    log.begin()
    run = AsRun("news", log)
    for first in (0, 3, 20, 21):
        run.look(playlist.read(listed(first, first + 5).encode()), {}, Kept(Path("none")))
    os.utime(f"{path}.seen", (time.time() - 100, time.time() - 100))
    Log(path).begin()
    Log(path).begin()
    with open(path, encoding="utf-8") as it:
        said = [json.loads(line) for line in it]
    assert [it["why"] for it in said] == ["segments 9 to 19 weren't seen", "no monitor ran"] and all(it["gap"]["from"] <= it["gap"]["to"] for it in said), said


def made_run(path):
    """A monitor's as-run log of `news`, in the file `path`, and what its feed kept: b4's pod, and the fallback."""
    from adsplice_plant.as_run import AsRun, Log
    from adsplice_plant.kept import pod_of
    run, kept = AsRun("news", Log(path)), Kept(Path("none"))
    kept.pods = {"b4": pod_of([{"segments": [{"uri": f"p{n}", "duration": "2"} for n in range(5)]}])}
    kept.fallback = pod_of([{"segments": [{"uri": f"f{n}", "duration": "2"} for n in range(5)]}])
    return run, kept


def shown_to(run, kept, first, numbers, words, starts, ranges=None):
    """Has `run` look at a list of `numbers`, the programme's segments or URIs of pods, from the media number `first` on. The origin's list
    has the date ranges of the IDs `ranges`, or else of those in `words`."""
    from adsplice_plant import playlist
    kept.ranges = {it: playlist.DateRange(it, {"START-DATE": instant(starts[it]), "DURATION": "10"}) for it in (words if ranges is None else ranges)}
    parts = [f"#EXTINF:2,\n{it}\n" if isinstance(it, str) else f"#EXT-X-PROGRAM-DATE-TIME:{instant(2 * it)}\n#EXTINF:2,\ns{it}\n" for it in numbers]
    run.look(playlist.read(f"#EXTM3U\n#EXT-X-TARGETDURATION:2\n#EXT-X-MEDIA-SEQUENCE:{first}\n{''.join(parts)}".encode()), words, kept)


def test_monitor_that_is_started_anew_goes_on_with_the_breaks_that_are_not_over(room):
    # (a window of four segments: the first two of the pod have left it when the second monitor begins)
    path, shown = Path(room.path) / "as-run.jsonl", [*range(6, 10), *(f"p{n}" for n in range(5)), *range(15, 20)]
    run, kept = made_run(path)
    for last in range(4, 8):
        shown_to(run, kept, last, shown[last - 4:last], {"b4": "Filled"}, {"b4": 20})
    run.log.beat({"news": run.state()})
    run, kept = made_run(path)
    for last in range(8, 14):
        shown_to(run, kept, last, shown[last - 4:last], {"b4": "Filled"} if last < 10 else {}, {"b4": 20})
    with open(path, encoding="utf-8") as it:
        lines = [json.loads(line) for line in it]
    assert [(it["id"], it["shown"], it["segments"]) for it in lines] == [("b4", 5, [f"p{n}" for n in range(5)])], lines
    assert run.begun == {}, run.begun  # (the first monitor had counted it)
    for text in ("", "{", "[]", '{"news": 1}', '{"news": {"breaks": {"b": []}, "first": 0, "last": 0, "at": "", "waiting": []}}', '{}\n{"edit": [[0, 9]]}\n'):
        Path(f"{path}.seen").write_text(text, encoding="utf-8")
        assert made_run(path)[0].breaks == {}, text


def test_breaks_are_counted_once_they_have_begun(room):
    run, kept = made_run(Path(room.path) / "as-run.jsonl")
    starts, words = {"b4": 20, "b5": 40, "b6": 60}, {"b4": "Filled", "b5": "Waiting", "b6": "NotDecided"}
    shown_to(run, kept, 6, [*range(6, 10), "p0"], words, starts)
    assert run.begun == {}
    shown_to(run, kept, 6, [*range(6, 10), "p0", "p1"], words, starts)
    assert run.begun == {("own", "Filled"): 1}, run.begun
    shown_to(run, kept, 10, [f"p{n}" for n in range(5)] + [*range(15, 20), "f0", "f1"], words | {"b5": "Filled"}, starts)
    assert run.begun == {("own", "Filled"): 1, ("fallback", "Filled"): 1}, run.begun
    run.is_decided = False
    shown_to(run, kept, 20, [f"f{n}" for n in range(5)] + [*range(25, 33)], words | {"b5": "Filled"}, starts)
    assert run.begun == {("own", "Filled"): 1, ("fallback", "Filled"): 1, ("none", "NotDecided"): 1}, run.begun
    assert run.key("fallback", "Filled") == ("fallback", "Usual")
    late, kept = made_run(Path(room.path) / "other.jsonl")
    shown_to(late, kept, 90, range(90, 95), {"b4": "NotDecided"}, {"b4": 20})  # (it began 170 s before a monitor saw it)
    assert late.begun == {}, late.begun


def test_a_break_is_not_counted_as_empty_while_its_channel_is_made_anew(room):
    run, kept = made_run(Path(room.path) / "as-run.jsonl")
    shown_to(run, kept, 6, range(6, 10), {"b4": "Waiting"}, {"b4": 20})
    shown_to(run, kept, 6, [*range(6, 10), "p0", "p1", "p2"], {}, {"b4": 20}, ["b4"])  # (nginx has the old list, and the new channel has none yet)
    assert run.begun == {}, run.begun
    shown_to(run, kept, 6, [*range(6, 10), "p0", "p1", "p2"], {"b4": "Filled"}, {"b4": 20})
    assert run.begun == {("own", "Filled"): 1}, run.begun


def test_as_run_line_says_why_a_break_has_no_pod_of_its_own(room):
    path = Path(room.path) / "kept" / "news.events"
    journal, kept = Journal(path, lambda: []), Kept(path)
    journal.add("decisions", 204, "", FALLBACK.encode())
    journal.add("late", 0, "b1", b'["b1"]')
    journal.add("note", 0, "news-2 doesn't answer", b'["b2", "b3"]')
    journal.add("decisions", 422, "J2 Shape break 0 ad 0 segment 0", decided(("b4", 1)).encode())
    journal.add("decisions", 204, "", decided(("b3", 1), ("b5", 1)).encode())
    journal.add("decisions", 204, "", b'{"withdraw":"b5"}')
    kept.follow()
    run, _ = made_run(Path(room.path) / "as-run.jsonl")
    starts = {f"b{n}": 20 + n for n in range(1, 7)}
    shown_to(run, kept, 6, range(6, 16), dict.fromkeys(starts, "NotDecided"), starts)
    shown_to(run, kept, 36, range(36, 46), {}, starts)
    with open(f"{room.path}/as-run.jsonl", encoding="utf-8") as it:
        said = {line["id"]: line.get("reason") for line in map(json.loads, it) if "id" in line}
    assert said == {"b1": "its decision came too late", "b2": "news-2 doesn't answer", "b3": None, "b4": "its decision was refused: J2 Shape",
                    "b5": "its pod was withdrawn", "b6": None}, said
    room.write("d/1.json", decided(("b1", 1)))
    out = room.run("adsplice-monitor", "--reconcile", f"{room.path}/d", "--as-run", f"{room.path}/as-run.jsonl", "--channel", "news")[1]
    assert f"b1 (1.json): not shown at {instant(21)}: nothing was in its place (its decision came too late)" in out.splitlines(), out


def test_a_fallback_where_nobody_decides_is_usual(room):
    from adsplice_plant import monitor, watched
    text = (f"[DEFAULT]\nat = http://127.0.0.1:1\nkeep = {room.path}/kept\n[plain]\norigin = /i.m3u8\nbase = http://h/\n[decided]\norigin = /i.m3u8\nbase = http://h/\ndecisions = {room.path}/d\n"
            f"[ladder]\nrenditions = 1 2\norigin = /{{}}.m3u8\nbase = http://h/\ndecisions = {room.path}/{{}}\n")
    watches = watched.Watched(monitor.read_words(["--config", room.write("feed.ini", text), "--as-run", f"{room.path}/as-run.jsonl"]), print).all()
    assert {it.name: it.as_run.is_decided for it in watches} == {"plain": False, "decided": True, "ladder-1": True, "ladder-2": True}


def test_channels_of_a_master_playlist_are_watched_as_they_come_and_go(room):
    from adsplice_plant import monitor, watched
    from adsplice_plant.words import Fault
    text = (f"[DEFAULT]\nat = http://127.0.0.1:1\nkeep = {room.path}/kept\n[film]\norigin = http://h/master.m3u8\nmaster = {room.path}/film.m3u8\n"
            f"[plain]\norigin = /i.m3u8\nbase = http://h/\n")
    path, told = room.write("feed.ini", text), []
    it = watched.Watched(monitor.read_words(["--config", path]), lambda *said: told.append(said))

    def master(*names):
        room.write("film.m3u8", "#EXTM3U\n" + "".join(f"#EXT-X-STREAM-INF:BANDWIDTH=1\n/channels/film-{name}/live.m3u8\n" for name in names))

    def look():
        new = [one.name for one in it.take(it.wanted())]
        return sorted(one.name for one in it.all()), new, it.programmes["film"]

    assert look() == (["plain"], [], 0)  # (the feed hasn't written it yet)
    master("1", "2")
    assert look() == (["film-1", "film-2", "plain"], ["film-1", "film-2"], 2)
    first = it.watches["film-1"]
    master("1", "3")
    gone = it.watches["film-2"]
    assert look() == (["film-1", "film-3", "plain"], ["film-3"], 2) and gone.is_gone and it.watches["film-1"] is first
    room.write("feed.ini", text + "[more]\norigin = /i.m3u8\nbase = http://h/\n[wrong]\norigin = /i.m3u8\n")
    assert look() == (["film-1", "film-3", "more", "plain"], ["more"], 2) and told[-1][0] == "wrong", told
    os.remove(path)
    try:
        it.wanted()
        raise AssertionError("a file that isn't there")
    except (Fault, OSError):
        assert len(it.all()) == 4


def test_a_programme_without_a_master_playlist_is_told(room):
    text = f"[film]\nat = http://127.0.0.1:1\norigin = http://h/master.m3u8\nmaster = {room.path}/film.m3u8\n"
    status, out, _ = room.run("adsplice-monitor", "--config", room.write("feed.ini", text), "--once")
    assert status == 2 and out.startswith("# CRITICAL: the programme film has no master playlist yet\n") and 'adsplice_programme_channels{programme="film"} 0.0' in out, out


def test_state_of_the_feed_has_figures(room):
    server = room.server(FakeChannels())
    server.lists = {"news-1": fresh(1) + "#EXT-X-ENDLIST\n", "news-2": fresh(1) + "#EXT-X-ENDLIST\n"}
    for name, apart in (("news-1", 0), ("news-2", 1)):
        journal = Journal(Path(room.path) / "kept" / f"{name}.events", lambda: [])
        journal.add("late", 0, "b1")
        journal.add("decisions", 409, "J9 Used", b"{}")
        journal.add("decisions", 422, "J2 Shape break 0", b"{}")
        journal.add("apart", apart, "")
        Path(room.path, "kept", f"{name}.beat").touch()
    out = room.run("adsplice-monitor", "--at", f"http://127.0.0.1:{server.port}", "--channel", "news-1", "--channel", "news-2", "--once", "--kept", f"{room.path}/kept",
                   "--as-run", f"{room.path}/as-run.jsonl")[1]
    found = figures(out)
    assert [found[("adsplice_feed_apart", f'channel="news-{it}"')] for it in (1, 2)] == [0, 1] and found[("adsplice_feed_late_decisions_total", 'channel="news-1"')] == 1, out
    times = {labels: time.time() - value for (name, labels), value in found.items() if name == "adsplice_feed_refused_timestamp_seconds" and "news-1" in labels}
    assert set(times) == {'channel="news-1",fault="Late",status="-",what="decisions"', 'channel="news-1",fault="J2 Shape",status="422",what="decisions"'}, times
    assert all(-1 < it < 30 for it in times.values()) and -1 < time.time() - found[("adsplice_feed_step_timestamp_seconds", 'channel="news-1"')] < 30, times
    assert found[("adsplice_build_info", 'commit="unknown",version="unknown"')] == 1, out  # (no build is installed beside it)
    assert found[("adsplice_breaks_begun_total", 'channel="news-1",pod="none",why="NotDecided"')] == 0 == found[("adsplice_as_run_total", 'channel="news-1",pod="own",why="Filled"')]


def test_time_of_which_the_feed_kept_nothing_is_a_gap(room):
    path = Path(room.path) / "news.events"
    hole = {"at": instant(3), "what": "hole", "status": 0, "fault": "No space left on device", "body": ""}
    path.write_text(json.dumps(hole) + "\n", encoding="utf-8")
    kept = Kept(path)
    kept.follow()
    run, _ = made_run(Path(room.path) / "as-run.jsonl")
    shown_to(run, kept, 0, range(5), {}, {})
    assert not os.path.exists(f"{room.path}/as-run.jsonl")
    with open(path, "a", encoding="utf-8") as it:
        it.write(json.dumps(hole | {"at": instant(60), "what": "read"}) + "\n")
    kept.follow()
    shown_to(run, kept, 0, range(5), {}, {})
    shown_to(run, kept, 0, range(5), {}, {})
    with open(f"{room.path}/as-run.jsonl", encoding="utf-8") as it:
        said = [json.loads(line) for line in it]
    assert [(it["gap"], it["why"]) for it in said] == [({"from": instant(3), "to": instant(60)}, "the feed could keep nothing")], said
    for state, is_there in ((None, True), (run.state(), True), (run.state(), False)):  # (a monitor that is started anew reads all that was kept)
        again, kept = made_run(Path(room.path) / ("as-run.jsonl" if is_there else "moved.jsonl"))[0], Kept(path)
        again.resume(state)
        kept.follow()
        shown_to(again, kept, 0, range(5), {}, {})
    with open(f"{room.path}/as-run.jsonl", encoding="utf-8") as it:
        assert [json.loads(line) for line in it] == said and not os.path.exists(f"{room.path}/moved.jsonl")


def test_once_judges_each_channel_when_it_was_looked_at(room):
    class Slow(FakeChannels):
        def answer(self, method, path, body, fields):
            if "/slow/" in path:
                time.sleep(2)
            elif not self.lists["news"]:
                self.lists["news"] = fresh(3)  # (as it is asked for first)
            return super().answer(method, path, body, fields)
    server = room.server(Slow())
    server.lists = {"news": "", "slow": fresh(1) + "#EXT-X-ENDLIST\n"}
    it = subprocess.Popen([PYTHON, f"{PLANT}/adsplice-monitor", "--at", f"http://127.0.0.1:{server.port}", "--channel", "news", "--channel", "slow", "--once", "--interval", "0.1"],
                          stdout=subprocess.PIPE, text=True)
    room.running.append(it)
    until(lambda: server.count("GET", "/channels/slow/why"))
    server.lists["news"] = fresh(0.5, 6)
    out = it.communicate(timeout=20)[0]
    assert it.returncode == 0 and out.startswith("# OK: 2 channels go on\n"), out  # (by its first list it would be 7 s late)
    assert figures(out)[("adsplice_end_behind_seconds", 'channel="news"')] < 3, out


def test_written_list_is_read_by_what_is_new_in_it(room):
    import random
    from adsplice_plant import playlist, written
    rng, seen, read = random.Random(7), written.Written(), []
    parts = [f"#EXT-X-PROGRAM-DATE-TIME:{instant(2 * n)}\n#EXTINF:2,\nhttp://origin.example/s{n}.ts\n" if n % 7 else f"#EXT-X-DISCONTINUITY\n#EXTINF:2,\nhttp://ads.example/{n % 14}.ts\n"
             for n in range(400)]
    first, past = 0, 10
    right = playlist.read
    playlist.read = lambda body: (read.append(len(body)), right(body))[1]
    try:
        for turn in range(300):
            head = f"#EXTM3U\n#EXT-X-TARGETDURATION:2\n#EXT-X-MEDIA-SEQUENCE:{first}\n" + (f'#EXT-X-DATERANGE:ID="b{turn}",START-DATE="{instant(turn)}"\n' if turn % 3 else "")
            body = (head + "".join(parts[first:past]) + ("#EXT-X-ENDLIST\n" if turn == 150 else "")).encode()
            assert seen.take(body) and not seen.take(body)
            assert seen.listed == right(body), turn
            if rng.random() < 0.05:
                first, past = rng.choice([(0, 10), (first + 2, past), (past, past + 5), (first, past - 1)])  # (begun anew, cut, jumped, shrunk)
            else:
                first, past = first + rng.randrange(3), past + rng.randrange(3)
            first = min(first, past - 3, 380)
            past = max(min(past, 400), first + 2)
    finally:
        playlist.read = right
    assert sum(it < 300 for it in read) > 150, read  # (heads alone)


def test_what_was_sold_is_held_against_what_was_shown(room):
    room.write("orders/1.json", decided(("b1", 3), ("b2", 3), ("b3", 3)))
    room.write("orders/done/2.json", decided(("b4", 3), ("b5", 3), ("b6", 3)))
    room.write("orders/done/3.json", '{"fallback":null}')
    lines = [as_run_line("b1", segments=(0, 1, 2)), as_run_line("b2", segments=(0, 1)), as_run_line("b3", pod="fallback"), as_run_line("b4", pod=None, why="NotDecided", of=0),
             as_run_line("b6", channel="sport", segments=(0, 1, 2)), {"at": instant(90), "gap": {"from": instant(30), "to": instant(90)}, "why": "no monitor ran"}]
    log = room.write("as-run.jsonl", "".join(json.dumps(it) + "\n" for it in lines) + '{"at"')
    status, out, err = room.run("adsplice-monitor", "--reconcile", f"{room.path}/orders", "--as-run", log, "--channel", "news")
    at = f"at {instant(20)}"
    assert (status, err) == (2, "") and sorted(out.splitlines()[:-2]) == sorted([
        f"b1 (1.json): shown whole {at} (3 of 3 segments)", f"b2 (1.json): shown in part {at} (2 of 3 segments)", f"b3 (1.json): not shown {at}: the fallback was in its place (Filled)",
        f"b4 (2.json): not shown {at}: nothing was in its place (NotDecided)", "b5 (2.json): not shown, or not over yet: the log has no line of it",
        "b6 (2.json): not shown, or not over yet: the log has no line of it"]), out
    assert out.splitlines()[-2:] == [f"from {instant(30)} to {instant(90)} not recorded: no monitor ran", "6 sold: 1 shown whole, 1 in part, 4 not; 36 s sold, 10 s shown"], out
    assert room.run("adsplice-monitor", "--reconcile", f"{room.path}/orders", "--as-run", log, "--channel", "sport")[1].count("shown whole at") == 1
    for words, status, text in ((("--reconcile", "nowhere", "--as-run", log), 1, "no such folder"), (("--reconcile", room.path), 2, "needs --as-run"), (("--reconcile", room.path, "--as-run", "no"), 1, "no such as-run log")):
        found, out, err = room.run("adsplice-monitor", *words)
        assert (found, out) == (status, "") and text in err, (words, found, err)


def test_a_break_counts_as_whole_by_any_of_its_files_and_refused_ones_are_named(room):
    room.write("orders/1.json", decided(("b1", 3), ("b2", 2)))
    room.write("orders/2.json", decided(("b1", 2)).replace("b1-", "other-").replace('"segments"', '"id":"LATE","segments"'))
    room.write("orders/done/3.json", decided(("b2", 2)).replace('"2"', "2"))
    room.write("orders/4.json", json.dumps({"breaks": [{"id": "b3", "ads": [{"id": "SLATE", "segments": [{"uri": "http://ads.example/s.ts", "duration": "1.5"}] * 3}]}]}))
    for n, name in enumerate(("1.json", "2.json", "done/3.json", "4.json")):
        os.utime(f"{room.path}/orders/{name}", (n + 1, n + 1))
    events = Journal(Path(room.path) / "news.events", lambda: [])
    with open(f"{room.path}/orders/2.json", "rb") as it:
        events.add("decisions", 409, "J9 Used b1", it.read())
    lines = [as_run_line("b1", segments=(0, 1, 2)), as_run_line("b2", segments=(0,), of=2), as_run_line("b3") | {"segments": ["http://ads.example/s.ts"] * 2, "shown": 2}]
    log = room.write("as-run.jsonl", "".join(json.dumps(it) + "\n" for it in lines))
    status, out, err = room.run("adsplice-monitor", "--reconcile", f"{room.path}/orders", "--as-run", log, "--channel", "news", "--kept", room.path)
    at = f"at {instant(20)}"
    assert (status, err) == (2, "") and out.splitlines() == [
        f"b1 (1.json): shown whole {at} (3 of 3 segments)", "b1 (2.json): refused: J9 Used b1", f"b2 (1.json): shown in part {at} (1 of 2 segments)",
        "b2 (3.json): refused: break 0, ad 0, segment 0: `duration` has to be a string, as \"2\" (J2 Shape break 0 ad 0 segment 0)", f"b3 (4.json): shown in part {at} (2 of 3 segments)",
        "ad SLATE: sold 1 times, 4.5 s; shown whole 0 times, in part 1 times, 3 s", "3 sold: 1 shown whole, 2 in part, 0 not; 14.5 s sold, 11 s shown"], out
    os.replace(log, f"{log}-20261201")  # (as logrotate does)
    room.write("as-run.jsonl", json.dumps(as_run_line("b2", segments=(0, 1), of=2)) + "\n")
    assert room.run("adsplice-monitor", "--reconcile", f"{room.path}/orders", "--as-run", log, "--channel", "news")[1].splitlines()[-1].startswith("3 sold: 2 shown whole, 1 in part")
    assert "b1 (2.json)" not in room.run("adsplice-monitor", "--reconcile", f"{room.path}/orders", "--as-run", log, "--channel", "news")[1]


LEFT_OUT = {"adsplice_programme_channels", "adsplice_ended", "adsplice_build_info"}  # figures that the dashboard hasn't: they are of no fault


def test_alerts_name_figures_that_there_are_and_the_dashboard_has_each(room):
    server = room.server(FakeChannels())
    server.lists = {"news": fresh(30)}
    os.makedirs(f"{room.path}/kept")
    out = room.run("adsplice-monitor", "--at", f"http://127.0.0.1:{server.port}", "--channel", "news", "--once", "--kept", f"{room.path}/kept",
                   "--process", f"http://127.0.0.1:{server.port}")[1]
    there = set(re.findall(r"^# TYPE (\w+)", out, re.M))
    for name in ("alerts.yml", "dashboard.json"):
        with open(f"{PLANT}/monitor/{name}", encoding="utf-8") as it:
            text = it.read()
        named = set(re.findall(r"\badsplice_\w+", text))
        assert named and named <= there, named - there
    drawn = set(re.findall(r"\badsplice_\w+", " ".join(it["expr"] for panel in json.loads(text)["panels"] for it in panel["targets"])))
    assert there - drawn == LEFT_OUT, there - drawn ^ LEFT_OUT
    for words in (["check", "rules", f"{PLANT}/monitor/alerts.yml"], ["test", "rules", f"{PLANT}/tests/alerts_test.yml"]) if shutil.which("promtool") else ():
        done = subprocess.run(["promtool", *words], capture_output=True, text=True, check=False)
        assert done.returncode == 0, done.stdout + done.stderr


def test_a_trouble_that_lasts_is_told_once_and_when_it_is_over(room):
    from adsplice_plant.monitor import Trouble
    trouble, said = Trouble("as-run.jsonl"), []
    trouble.say = said.append
    for text in ("", "No space left on device", "No space left on device", "", "", "No space left on device"):
        trouble.tell(text)
    assert [line.split(" ", 1)[1] for line in said] == ["as-run.jsonl: No space left on device", "as-run.jsonl: all is well again", "as-run.jsonl: No space left on device"], said


def test_wrong_words_are_one_line_and_a_status(room):
    for words, status, text in ((["--channel", "news"], 2, "are needed"), (["--channel", "n", "--at", "http://h", "--as-run", "x"], 2, "needs --kept"),
                                (["--channel", "n", "--at", "http://h", "--listen", "x"], 1, "--listen x"), (["--config", "no.ini"], 1, "No such file"),
                                (["--channel", "n", "--at", "http://h", "--listen", "127.0.0.1:99999"], 1, "--listen")):
        found, out, err = room.run("adsplice-monitor", *words)
        assert (found, out) == (status, "") and text in err and "Traceback" not in err, (words, found, err)
