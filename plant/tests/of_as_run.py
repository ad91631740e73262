"""Tests of the as-run log against what was written: by the rules, with a clock of its own, monitors that end and disks that are full."""
import json
import random
import re
import sys
from pathlib import Path

from tools import PLANT, apart, decided, listed

sys.path.insert(0, PLANT)
from adsplice_plant import as_run, playlist  # noqa: E402
from adsplice_plant.journal import Journal  # noqa: E402
from adsplice_plant.kept import Kept, Pod, pod_of  # noqa: E402
from adsplice_rules.channel import Channel, decide, refreshed, words, written  # noqa: E402
from adsplice_rules.uris import base_of  # noqa: E402

NEEDS = ()
STEPS = 60  # lists of 2 s


class Plant:
    """A channel by the rules, its feed's journal, and a monitor that may end; what was written as ads, by its media number."""

    def __init__(self, room, rng, name="news"):
        self.folder, self.rng, self.ads, self.name = Path(room.path), rng, {}, name
        self.journal = Journal(self.folder / f"{name}.events", lambda: [])
        self.channel = Channel(base_of("http://origin.example/ch/index.m3u8"))
        self.begin_monitor()

    def begin_monitor(self):
        """A monitor begins, after another one may have ended at any moment."""
        self.kept, self.run = Kept(self.folder / f"{self.name}.events"), as_run.AsRun(self.name, as_run.Log(self.folder / "as-run.jsonl"))

    def give(self, what, text):
        """The feed gives the channel a list or a decision."""
        self.channel = (decide if what == "decisions" else refreshed)(self.channel, text.encode())
        self.journal.add(what, 204, "", text.encode())

    def look(self):
        """The monitor looks at the list; whatever is written is noted for the comparison."""
        text = written(self.channel).encode()
        found = playlist.read(text)
        self.ads |= {it.number: it.uri for it in found.segments if "//ads." in it.uri}
        self.kept.follow()
        try:
            self.run.look(found, dict(words(self.channel)), self.kept)
        except OSError:
            pass  # (a disk that is full: the lines wait)

    def runs(self):
        """The URIs of each pod that was written, in order."""
        found, before = [], None
        for number, uri in sorted(self.ads.items()):
            if before is None or number != before + 1:
                found.append([])
            found[-1].append(uri)
            before = number
        return found


def test_as_run_log_has_each_written_segment_of_each_pod_once(room):
    for case in range(40):
        rng = random.Random(case)
        (Path(room.path) / str(case)).mkdir()
        plant = Plant(type("Folder", (), {"path": f"{room.path}/{case}"}), rng)
        window, breaks, at = rng.randrange(6, 14), [], 6
        while at < STEPS:
            length = rng.randrange(2, 5)
            breaks.append((f"b{len(breaks)}", 2 * at, 2 * length))
            at += length + rng.randrange(4, 12)
        fallback = json.loads(decided(("f", rng.randrange(1, 6))))["breaks"][0]["ads"]
        plant.give("decisions", json.dumps({"fallback": {"ads": fallback} if rng.random() < 0.7 else None}))
        full, right = range(0), as_run.append
        begun = max(window, 8)
        for newest in range(begun - 1, STEPS + 40):
            coming = [it for it in breaks if 2 * (newest - window + 1) < it[1] + it[2] and it[1] < 2 * newest + 20]
            for name, start, length in coming:
                if start in (2 * newest + 8, 2 * newest + 4) and rng.random() < 0.6:  # (the second one takes the first one's place)
                    text = decided((name, rng.choice((length // 2, length // 2, 1, 5))))
                    plant.give("decisions", text.replace(f"{name}-", f"{name}-{start - 2 * newest}-"))
                elif start == 2 * newest + 4 and rng.random() < 0.1:
                    plant.give("decisions", json.dumps({"fallback": {"ads": json.loads(decided((f"f{newest}", rng.randrange(1, 6))))["breaks"][0]["ads"]}}))
            plant.give("origin", listed(newest - window + 1, newest, coming))
            plant.look()
            if rng.random() < 0.05:
                full = range(newest, newest + rng.randrange(1, 12))
            as_run.append = refuse if newest in full else right
            try:
                if newest % 2 and newest not in full:
                    plant.run.log.beat({"news": plant.run.state()})
                    if rng.random() < 0.15:
                        plant.begin_monitor()  # (killed right after what it knows was kept)
            finally:
                as_run.append = right
        plant.look()
        with open(f"{room.path}/{case}/as-run.jsonl", encoding="utf-8") as it:
            lines = [json.loads(line) for line in it]
        shown = [line["segments"] for line in sorted(lines, key=lambda it: it.get("start", "")) if line.get("shown")]
        assert shown == plant.runs(), (case, shown, plant.runs(), lines)
        assert not any("gap" in line for line in lines) and len({line["id"] for line in lines}) == len(lines) == len(breaks), (case, len(breaks), lines)


def test_a_break_whose_start_date_changes_is_told_once_and_as_it_was_shown(room):
    plant = Plant(room, None)
    plant.give("decisions", decided(("b1", 2)))
    for newest in range(5, 22):
        if newest == 8:
            plant.give("origin", listed(2, 7))  # (without the break, so that adsplice takes its other START-DATE)
        plant.give("origin", listed(newest - 5, newest, [("b1", -160 if newest < 8 else 20, 4)] if newest < 17 else ()))
        plant.look()
    with open(f"{room.path}/as-run.jsonl", encoding="utf-8") as it:
        said = [(line["id"], line["pod"], line["shown"], line["of"]) for line in map(json.loads, it)]
    assert said == [("b1", "own", 2, 2)] and plant.run.begun == {("own", "Filled"): 1}, (said, plant.run.begun)


def test_a_break_that_has_begun_is_told_once_though_its_date_range_comes_again_with_another_start_date(room):
    plant = Plant(room, None)
    plant.give("decisions", decided(("b1", 2)))
    for newest in range(5, 26):
        if newest == 9:
            plant.give("origin", listed(3, 8))
        plant.give("origin", listed(newest - 5, newest, [("b1", 12 if newest < 9 else -160, 4)] if newest < 12 else ()))
        plant.look()
    with open(f"{room.path}/as-run.jsonl", encoding="utf-8") as it:
        said = [(line["id"], line["pod"], line["shown"], line["of"]) for line in map(json.loads, it)]
    assert said == [("b1", "own", 2, 2)] and plant.run.begun == {("own", "Filled"): 1}, (said, plant.run.begun)


def ads(*said, seconds="2"):
    """The ads of a pod: for each (ID, number of segments) one with URIs of the ID, which is left out if it begins with a hyphen."""
    return [({} if name[0] == "-" else {"id": name}) | {"segments": [{"uri": f"http://ads.example/{name}-{n}.ts", "duration": seconds} for n in range(count)]} for name, count in said]


def lines_in(room):
    """The lines of the as-run log."""
    with open(f"{room.path}/as-run.jsonl", encoding="utf-8") as it:
        return [json.loads(line) for line in it]


def test_a_line_is_written_once_the_last_segment_of_the_pod_was_listed(room):
    plant = Plant(room, None)
    plant.give("decisions", json.dumps({"breaks": [{"id": "b1", "ads": ads(("CAR", 1), ("-x", 2))}]}))
    for newest in range(5, 14):
        plant.give("origin", listed(newest - 5, newest, [("b1", 20, 6)]))
        plant.look()
        is_whole = newest >= 12  # (the segments 10 to 12 are those of the break, and the pod lasts as long)
        assert Path(f"{room.path}/as-run.jsonl").exists() == is_whole, newest
    plant.run.log.beat({"news": plant.run.state()})
    plant.begin_monitor()
    for newest in range(14, 24):
        plant.give("origin", listed(newest - 5, newest, [("b1", 20, 6)] if newest < 16 else ()))
        plant.look()
    assert not plant.run.breaks
    [line] = lines_in(room)
    assert (line["seconds"], line["sold"], line["shown"], line["of"]) == (6.0, 6.0, 3, 3), line
    assert line["ads"] == [{"id": "CAR", "shown": 1, "of": 1, "seconds": 2.0, "whole": True}, {"id": None, "shown": 2, "of": 2, "seconds": 4.0, "whole": True}], line["ads"]


def test_an_ad_of_which_a_part_was_seen_and_a_pod_that_was_sold_but_not_shown(room):
    plant = Plant(room, None)
    plant.give("decisions", json.dumps({"fallback": {"ads": ads(("house", 2))}}))
    plant.give("decisions", json.dumps({"breaks": [{"id": "b1", "ads": ads(("CAR", 1), ("SOAP", 3))}, {"id": "b2", "ads": ads(("BIG", 2), seconds="9")}]}))
    for newest in range(5, 40):
        plant.give("origin", listed(newest - 5, newest, [("b1", 20, 8), ("b2", 44, 4)] if newest < 30 else ()))
        if newest not in range(12, 19):  # (of SOAP the last two segments are in no list that it sees)
            plant.look()
    said = {line["id"]: line for line in lines_in(room) if "id" in line}
    assert [(it["id"], it["shown"], it["whole"]) for it in said["b1"]["ads"]] == [("CAR", 1, True), ("SOAP", 1, False)] and (said["b1"]["seconds"], said["b1"]["sold"]) == (4.0, 8.0), said["b1"]
    assert (said["b2"]["pod"], said["b2"]["seconds"], said["b2"]["sold"], said["b2"]["ads"]) == (None, 0.0, 18.0, []), said["b2"]  # (its segments are too long: nothing is in its place)
    assert {name: it / playlist.SECOND for name, it in plant.run.lengths.items()} == {"own": 4, "none": 0, "sold": 26}, plant.run.lengths


def test_each_rendition_has_a_line_with_what_it_showed_of_each_ad(room):
    from adsplice_plant import reconcile
    plants = [Plant(room, None, name) for name in ("news-1", "news-2")]
    pod = json.dumps({"breaks": [{"id": "b1", "ads": ads(("CAR", 1), ("SOAP", 3))}]})
    for plant in plants:
        plant.give("decisions", pod)
    for newest in range(5, 30):
        for plant in plants:
            plant.give("origin", listed(newest - 5, newest, [("b1", 20, 8)] if newest < 24 else ()))
            if plant is plants[0] or newest not in range(12, 19):
                plant.look()
    said = {line["channel"]: line for line in lines_in(room) if "id" in line}
    found = {name: ([(it["id"], it["shown"], it["seconds"], it["whole"]) for it in line["ads"]], line["seconds"], line["sold"]) for name, line in said.items()}
    assert found == {"news-1": ([("CAR", 1, 2.0, True), ("SOAP", 3, 6.0, True)], 8.0, 8.0), "news-2": ([("CAR", 1, 2.0, True), ("SOAP", 1, 2.0, False)], 4.0, 8.0)}, found
    room.write("orders/b1.json", pod)
    texts = {name: reconcile.report(Path(room.path) / "orders", [Path(room.path) / "as-run.jsonl"], [name])[0][-1] for name in said}
    assert texts == {"news-1": "1 sold: 1 shown whole, 0 in part, 0 not; 8 s sold, 8 s shown", "news-2": "1 sold: 0 shown whole, 1 in part, 0 not; 8 s sold, 4 s shown"}, texts


def test_what_a_monitor_before_this_one_kept_is_read(room):
    from adsplice_plant import unfinished
    now = unfinished.Seen(playlist.DateRange("b1", {"START-DATE": "x"}), "Filled", Pod([("u", 2)], (("CAR", 1),)), True, 7, 5, {0}, 8, True, True)
    assert unfinished.seen_of("b1", json.loads(json.dumps(now.packed()))) == now
    before = unfinished.seen_of("b1", json.loads(json.dumps(now.packed()[:9])))
    assert (before.pod.segments, before.pod.ads, before.is_over, before.shown) == ([("u", 2)], (), False, {0})


def day_of(rng, count):
    """A day with so many breaks: the decided ads of each, by its ID, and what is listed one after the other, each as its URI, how long it lasts and the
    break's ID; a programme's segment has none."""
    sold, items = {}, []
    for n in range(count):
        name = f"b{n:04}"
        sold[name] = [{"id": rng.choice(("CAR", "SOAP", "TEA", "BANK")), "segments": [{"uri": f"http://ads.example/{name}/{k}-{m}.ts", "duration": rng.choice(("2", "1.5", "6.006"))} for m in range(rng.randrange(1, 5))]}
                      for k in range(rng.randrange(1, 4))]
        items += [(f"s{len(items) + k}.ts", 2.0, None) for k in range(rng.randrange(9, 13))]
        items += [(it["uri"], float(it["duration"]), name) for one in sold[name] for it in one["segments"]]
    return sold, items + [(f"t{k}.ts", 2.0, None) for k in range(20)]


def begins_of(items):
    """The instant at which each of `items` begins, in seconds, and that at which each break's first segment does."""
    begins, starts, at = [], {}, 1_714_564_800.0
    for _, length, name in items:
        begins.append(at)
        if name is not None:
            starts.setdefault(name, at)
        at += length
    return begins, starts


def looks(rng, count, window=6):
    """The ends of the lists of `count` items at which a monitor looks; now and then it misses some."""
    skipped = set()
    for last in range(window, count + 1):
        if last % 97 == 0:
            skipped = set(range(last, last + rng.randrange(0, 12)))
        if last not in skipped:
            yield last


def watched_day(room, rng, sold, items, window=6):
    """The as-run log of a day, and the places of `items` that stood in a list at which the monitor looked."""
    kept = Kept(Path("none"))
    kept.pods = {name: pod_of(its) for name, its in sold.items()}
    run, seen = as_run.AsRun("news", as_run.Log(Path(room.path) / "as-run.jsonl")), set()
    begins, starts = begins_of(items)
    for last in looks(rng, len(items), window):
        low = last - window
        its = [playlist.Segment(n, items[n][0], round(items[n][1] * 10**9), round(begins[n] * 10**9), items[n][2] is None) for n in range(low, last)]
        names = {items[n][2] for n in range(low, min(last + 3, len(items)))} - {None}
        kept.ranges = {it: playlist.DateRange(it, {"START-DATE": playlist.instant_text(round(starts[it] * 10**9))}) for it in names}
        run.look(playlist.Listed(6, low, False, its), dict.fromkeys(names, "Filled"), kept)
        seen |= set(range(low, last))
    return run, seen


def owed_of(sold, items, seen):
    """What the day owes for each ad (how often it was sold, its seconds, those shown, how often it was shown whole), and how many breaks were
    shown whole, by the places that were `seen`."""
    owed, whole, places = {}, 0, {}
    for n, it in enumerate(items):
        places.setdefault(it[2], []).append(n)
    for name, its in sold.items():
        place, is_whole = 0, True
        for one in its:
            numbers = places[name][place:place + len(one["segments"])]
            place += len(numbers)
            shown = [n for n in numbers if n in seen]
            count, lasts, seconds, wholly = owed.get(one["id"], (0, 0.0, 0.0, 0))
            owed[one["id"]] = (count + 1, lasts + sum(items[n][1] for n in numbers), seconds + sum(items[n][1] for n in shown), wholly + (shown == numbers))
            is_whole = is_whole and shown == numbers
        whole += is_whole
    return owed, whole


def test_a_thousand_breaks_of_a_day_are_reconciled_to_the_second(room):
    from adsplice_plant import reconcile
    rng = random.Random(11)
    sold, items = day_of(rng, 1000)
    run, seen = watched_day(room, rng, sold, items)
    owed, whole = owed_of(sold, items, seen)
    for name, its in sold.items():
        room.write(f"orders/{name}.json", json.dumps({"breaks": [{"id": name, "ads": its}]}))
    lines, is_well = reconcile.report(Path(room.path) / "orders", [Path(room.path) / "as-run.jsonl"], ["news"])
    assert not is_well and whole < 1000
    said = {line.split()[1].rstrip(":"): line for line in lines if line.startswith("ad ")}
    for name, (count, lasts, shown, wholly) in owed.items():
        assert f"sold {count} times, " in said[name], (name, said[name])
        found = [float(it) for it in re.findall(r"([0-9.]+) s\b", said[name])]
        assert abs(found[0] - lasts) < 1e-6 and abs(found[1] - shown) < 1e-6 and f"shown whole {wholly} times" in said[name], (name, said[name], lasts, shown)
    assert lines[-1].startswith(f"1000 sold: {whole} shown whole, "), lines[-1]
    total = [float(it) for it in re.findall(r"([0-9.]+) s (?:sold|shown)", lines[-1])]
    assert abs(total[0] - sum(it[1] for it in owed.values())) < 1e-6 and abs(total[1] - sum(it[2] for it in owed.values())) < 1e-6, (lines[-1], owed)
    assert abs(run.lengths["own"] / 10**9 - sum(it[2] for it in owed.values())) < 1.0, run.lengths


def refuse(*_):
    """A full disk."""
    raise OSError(28, "No space left on device")


test_as_run_log_has_each_written_segment_of_each_pod_once = apart(test_as_run_log_has_each_written_segment_of_each_pod_once)


def line_of(channel, name, start, pod="own", shown=3, of=3, **more):
    """A line of an as-run log, of a pod of 2 s segments."""
    return {"channel": channel, "id": name, "start": start, "pod": pod, "shown": shown, "of": of, "seconds": 2 * shown, **more}


def test_what_each_rendition_showed_is_one_line_a_break(room):
    start, near, later = (f"2026-11-30T20:{it}Z" for it in ("00:00.000", "00:02.000", "40:00.000"))
    lines = [line_of("film-1", "b1", start), line_of("film-2", "b1", near), line_of("news", "b1", start),
             line_of("film-1", "b2", later), line_of("film-2", "b2", later, "none", 0, 0, why="NotDecided", reason="no decision file named it"),
             line_of("film-1", "b1", later), line_of("film-2", "b1", later, shown=2), line_of("film-1", "b3", later, "fallback"),
             {"channel": "film-1", "gap": {"from": start, "to": near}, "why": "x"}]
    room.write("as-run.jsonl", "".join(f"{json.dumps(it)}\n" for it in lines) + "[]\n{torn")
    status, out, _ = room.run("adsplice-monitor", "--breaks", "--as-run", f"{room.path}/as-run.jsonl")
    assert status == 2 and out.splitlines() == [
        f"film b1 at {start}: its pod whole, 6 s in film-1, film-2",
        f"news b1 at {start}: its pod whole, 6 s in news",
        f"film b2 at {later}: its pod whole, 6 s in film-1; nothing (no decision file named it) in film-2",
        f"film b1 at {later}: its pod whole, 6 s in film-1; its pod 2 of 3 segments, 4 s in film-2",
        f"film b3 at {later}: the fallback whole, 6 s in film-1; no line yet in film-2",
        "5 breaks: 2 the same in all renditions, 3 not"], out
    status, out, _ = room.run("adsplice-monitor", "--breaks", "--as-run", f"{room.path}/as-run.jsonl", "--channel", "news")
    assert status == 0 and out.splitlines()[-1] == "1 break: 1 the same in all renditions, 0 not", out
    assert room.run("adsplice-monitor", "--breaks", "--as-run", f"{room.path}/none.jsonl")[0] == 1
    assert room.run("adsplice-monitor", "--breaks")[0] == 2


test_what_each_rendition_showed_is_one_line_a_break.needs = ("httpx", "prometheus_client")


def test_channels_of_one_programme_have_one_front(room):
    from adsplice_plant.shown_breaks import programmes_of
    assert programmes_of(["film-1", "film-2", "news", "tv-east", "a-b-1", "a-b-2", "a-c"]) == {
        "film-1": "film", "film-2": "film", "news": "news", "tv-east": "tv-east", "a-b-1": "a-b", "a-b-2": "a-b", "a-c": "a-c"}
