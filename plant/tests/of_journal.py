"""Tests of what a feed keeps: differences of lists, files that are full, and what adsplice-explain makes of them."""
import json
import os
import random
import subprocess
import sys
from pathlib import Path

from tools import FALLBACK, OUT, PLANT, PYTHON, apart, decided, instant, listed

sys.path.insert(0, PLANT)
from adsplice_plant import journal  # noqa: E402
from adsplice_plant.causes import Explainer  # noqa: E402
from adsplice_plant.edits import common_end, edit_of, edit_of_lines, edited, lines_of  # noqa: E402
from adsplice_plant.excerpt import Book, Excerpt, given_of  # noqa: E402
from adsplice_plant.history import Run  # noqa: E402
from adsplice_plant.kept import Kept  # noqa: E402

NEEDS = ()
MADE = '{"base":"http://origin.example/index.m3u8"}'


def opening():
    return [journal.Event("2024-05-01T11:59:59.000Z", "channel", 201, "", MADE)]


def explain(room, *words):
    """Runs adsplice-explain in the test's folder."""
    return room.run("adsplice-explain", *words, cwd=room.path)


def at(seconds):
    """The time of an event that comes so many seconds after the begin of the lists."""
    return instant(seconds)


def event(seconds, what, status, body, fault=""):
    """The line of an event as old journals have it, with its whole body."""
    return json.dumps({"at": at(seconds), "what": what, "status": status, "fault": fault, "body": body}) + "\n"


def test_edits_make_the_new_text_of_the_old_one(room):
    rng = random.Random(20261127)
    for _ in range(2000):
        old, new = (lines_of("".join(rng.choice("abc\n\r") + rng.choice("\n\nx") for _ in range(rng.randrange(14)))) for _ in range(2))
        assert edited(old, json.loads(json.dumps(edit_of_lines(old, new)))) == new, (old, new)
    assert lines_of("a\u2028b\x85c\r\nd") == ["a\u2028b\x85c\r\n", "d"]
    first, second = (listed(n, n + 29) for n in (0, 1))
    assert len(json.dumps(edit_of(first, second))) < 200 and edited(lines_of(first), edit_of(first, second)) == lines_of(second)


def test_an_edit_finds_what_the_end_of_a_text_has_in_common_with_the_next_one(room):
    rng, kept = random.Random(20261129), 0
    for _ in range(1000):
        lines = [f"{rng.choice('abc') * rng.randrange(1, 40)}\n" for _ in range(rng.randrange(8, 60))]
        gone, changed = rng.randrange(4), rng.randrange(len(lines))
        front = [rng.choice(lines) for _ in range(rng.randrange(4))]
        fresh = [rng.choice(lines) for _ in range(rng.randrange(4))]
        rest = lines[gone:] if rng.random() < 0.8 else [*lines[gone:changed], "other\n", *lines[changed + 1:]]
        old, new = "".join(lines), "".join([*front, *rest, *fresh])[:None if rng.random() < 0.9 else -1]
        assert edited(lines_of(old), json.loads(json.dumps(edit_of(old, new)))) == lines_of(new), (old, new)
        kept += common_end(old, new) is not None
    assert kept > 500, kept


def test_a_hostile_text_is_compared_in_time(room):
    # (the processor seconds of a process of its own: at most four times as long for twice the text)
    code = ("import sys, time; sys.path.insert(0, sys.argv[1]); from adsplice_plant.edits import *\n"
            "def took(a, b):\n    begun = time.process_time(); edit_of(a, b); return time.process_time() - begun\n"
            "for make in (lambda n: ('a\\n' + 'b\\n' * n, 'a\\n' * n), lambda n: ('b\\n' * n, 'a\\n' + 'b\\n' * (n - 1)), lambda n: (''.join(f'{i}\\n' for i in range(n)), ''.join(f'{n - i}\\n' for i in range(n)))):\n"
            "    small, large = (min(took(*make(n)) for _ in range(3)) for n in (20_000, 40_000))\n    assert large < 4 * small + 0.05, (small, large)\n")
    done = subprocess.run([PYTHON, "-c", code, PLANT], capture_output=True, text=True, timeout=60, check=False)
    assert done.returncode == 0, done.stderr


def test_lists_are_kept_by_their_differences(room):
    path = Path(room.path, "news.events")
    it, lists = journal.Journal(path, opening), [listed(n, n + 29) for n in range(200)]
    for n, text in enumerate(lists):
        it.add("origin", 204, "", text.encode())
        if n == 100:
            it.add("decisions", 204, "", FALLBACK.encode())
    found = [event for event in journal.events(path) if event.what == "origin"]
    assert [event.text() for event in found] == lists and found[0].sent() == lists[0].encode()
    assert path.stat().st_size < 200 * 350, path.stat().st_size
    kept = Kept(path)
    kept.follow()
    assert kept.answers["origin", "204", ""] == 200 and kept.fallback is not None and not kept.ranges


def test_bytes_come_back_as_they_were(room):
    path, body = Path(room.path, "news.events"), b"#EXTM3U\n#caf\xe9\x1b[2J\xe2\x80\xa8\n" + "é\u2028".encode() + b"\x00\n"
    it = journal.Journal(path, opening)
    it.add("origin", 422, "P1 NotUtf8", body)
    it.add("origin", 422, "P1 NotUtf8", body + b"\xff")
    assert [event.sent() for event in journal.events(path) if event.what == "origin"] == [body, body + b"\xff"]


@apart  # (it changes what all journals of a process go by)
def test_files_have_their_room(room, monkey=(("MAX_BYTES", 20_000), ("ROOM", 100_000))):
    before = {name: getattr(journal, name) for name, _ in monkey}
    try:
        for name, value in monkey:
            setattr(journal, name, value)
        path = Path(room.path, "news.events")
        it, kept = journal.Journal(path, opening), Kept(path)
        for n in range(1500):
            it.add("origin", 204, "", listed(n, n + 9, [("b1", 2 * n, 4)]).encode())
            if n % 40 == 0:
                kept.follow()
                assert kept.ranges["b1"].start() is not None
        kept.follow()
        assert kept.answers["origin", "204", ""] == 1500, kept.answers
        sizes = [file.stat().st_size for file in journal.files(path)]
        assert 70_000 < sum(sizes) < 110_000 and len(sizes) >= 4, sizes
        found = list(journal.events(path))
        assert found[0].what == "channel" and found[0].again and not any(event.again for event in found[1:])
        assert found[-1].text() == listed(1499, 1508, [("b1", 2998, 4)])
    finally:
        for name, value in before.items():
            setattr(journal, name, value)


def test_a_full_disk_is_a_hole_and_spoils_no_line(room):
    # (in a process whose files may have 6,000 bytes, for a while)
    code = ("import resource, signal, sys; sys.path.insert(0, sys.argv[1]); sys.path.insert(0, sys.argv[1] + '/tests')\n"
            "from pathlib import Path; from adsplice_plant import journal; from tools import decided, listed\n"
            "signal.signal(signal.SIGXFSZ, signal.SIG_IGN)\n"
            "it, failed = journal.Journal(Path(sys.argv[2]), lambda: []), 0\n"
            "for n in range(40):\n"
            "    resource.setrlimit(resource.RLIMIT_FSIZE, (6000 if 10 <= n < 30 else -1, -1))\n"
            "    for what, text in (('decisions', decided((f'b{n}', 20))), ('origin', listed(n, n + 29))):\n"
            "        try:\n            it.add(what, 204, '', text.encode())\n"
            "        except OSError:\n            failed += what == 'origin'\n"
            "print(failed)\n")
    path = Path(room.path, "news.events")
    done = subprocess.run([PYTHON, "-c", code, PLANT, str(path)], capture_output=True, text=True, timeout=60, check=False)
    assert done.returncode == 0 and 0 < int(done.stdout) <= 20, done
    lines = [json.loads(line) for line in path.read_text(encoding="utf-8").splitlines()]
    holes = [n for n, line in enumerate(lines) if line["what"] == "hole"]
    assert len(holes) == 1 and lines[holes[0]]["fault"] in ("File too large", "No space left on device") and "body" in lines[holes[0] + 1]
    assert [it.text() for it in journal.events(path)][-1] == listed(39, 68)
    found = Kept(path)
    found.follow()
    assert list(found.pods) == [f"b{n}" for n in range(40)] and found.holes == 1, "a hole is of lists, and of no decision"


def test_a_line_that_has_no_room_leaves_the_file_and_its_time(room):
    # (in a process whose files may have 6,000 bytes: the first ten of the line have room)
    code = ("import resource, signal, sys; sys.path.insert(0, sys.argv[1])\nfrom pathlib import Path; from adsplice_plant.journal import append\n"
            "signal.signal(signal.SIGXFSZ, signal.SIG_IGN); resource.setrlimit(resource.RLIMIT_FSIZE, (6000, -1))\n"
            "try:\n    append(Path(sys.argv[2]), b'y' * 99 + b'\\n')\nexcept OSError:\n    print('refused')\n")
    path = Path(room.write("news.events", "x" * 5989 + "\n"))
    os.utime(path, (1, 1))
    done = subprocess.run([PYTHON, "-c", code, PLANT, str(path)], capture_output=True, text=True, timeout=60, check=False)
    assert done.stdout == "refused\n" and path.read_text() == "x" * 5989 + "\n" and path.stat().st_mtime == 1, done


def test_old_files_and_new_ones_are_explained(room):
    old = [("channel", 201, MADE, ""), ("origin", 204, listed(0, 5), ""), ("decisions", 204, decided(("b1", 2)), ""), ("origin", 502, listed(0, 6), "x"),
           ("origin", 204, listed(1, 7, [("b1", 12, 4)]), ""), ("read", 0, "", "no answer")]
    path = room.write("news.events", "".join(event(n, what, status, body, fault) for n, (what, status, body, fault) in enumerate(old)) + event(9, *old[0][:3])[:30])
    owed = "b1: it is filled by its own pod (2 segments, 4 s)\n"
    assert explain(room, "--kept", path) == (0, owed, "") and explain(room, "--kept", path, "--break", "b1") == (0, owed, "")
    it = journal.Journal(Path(path), opening)  # (a feed of today goes on in the same file)
    it.add("origin", 204, "", listed(2, 8, [("b1", 12, 4)]).encode())
    it.add("origin", 409, "N5 Back", listed(0, 6).encode())
    status, out, err = explain(room, "--kept", path)
    assert (status, err) == (3, "") and out.splitlines()[0].endswith("it begins at a smaller media number than before: a packager that lags, or began anew (N5 Back)"), out
    assert out.splitlines()[1] == owed.strip()
    assert explain(room, "--kept", path, "--break", "b2")[:2] == (1, "") and "has the break b2" in explain(room, "--kept", path, "--break", "b2")[2]


def test_how_late_a_decision_was_is_told(room):
    events = [event(0, "channel", 201, MADE), event(1, "decisions", 204, FALLBACK), event(10, "origin", 204, listed(0, 5, [("b1", 4, 4)])),
              event(10.4, "decisions", 409, decided(("b1", 2)), "J9 Used"), event(12, "origin", 204, listed(0, 6, [("b1", 4, 4)]))]
    out = explain(room, "--kept", room.write("news.events", "".join(events)), "--break", "b1")[1]
    assert out == (f"b1: it is filled by the fallback (1 segment, 2 s), and lasts 4 s itself (by DURATION); the decision of {at(10.4)} came 0.4 s after the playlist of {at(10)}, "
                   "which was the first to list segment 2 (s2.ts), which begins at 2024-05-01T12:00:04.000Z\n"), out


def test_why_no_rendition_has_a_decision_is_told(room):
    note = event(5, "note", 0, '["b1"]', "news-2 doesn't answer")
    made, fallback, pod, gone = (event(0, "channel", 201, MADE), event(1, "decisions", 204, FALLBACK), event(2, "decisions", 204, decided(("b1", 2))),
                                 event(4, "decisions", 204, '{"withdraw": "b1"}'))
    lists = [event(10 + 2 * n, "origin", 204, listed(n, n + 5, [("b1", 94, 4)] if n > 39 else [])) for n in range(46)]  # (b1 came long after its decision)
    filled = "b1: it is filled by the fallback (1 segment, 2 s), and lasts 4 s itself (by DURATION); "
    for n, (before, owed) in enumerate((([fallback, pod, gone, note], filled + "its own pod was withdrawn from all renditions, since news-2 doesn't answer"),
                                        ([fallback, event(3, "decisions", 502, decided(("b1", 2))), note], filled + "no rendition has its decision, since news-2 doesn't answer"),
                                        ([note], "b1: no rendition has its decision, since news-2 doesn't answer, and there is no fallback (NotDecided)"),
                                        ([fallback, event(3, "decisions", 422, decided(("b1", 2), seconds="x"), "J4 BadDuration break 0 ad 0 segment 0")],
                                         filled + f"the decision of {at(3)}, which names it, is refused (J4 BadDuration break 0 ad 0 segment 0)"))):
        path = room.write(f"{n}.events", "".join([made, *before, *lists]))
        assert explain(room, "--kept", path, "--break", "b1")[1] == f"{owed}\n", (explain(room, "--kept", path, "--break", "b1"), owed)


def test_a_time_says_which_of_two_breaks_of_one_id(room):
    events = [event(0, "channel", 201, MADE)]
    for n in range(200):
        ranges = [("b1", 40, 4)] if 10 <= n < 30 else [("b1", 341, 4)] if 150 <= n < 180 else []
        events.append(event(2 * n + 20, "origin", 204, listed(n, n + 9, ranges)))
    path = room.write("news.events", "".join(events))
    tail = "no decision file gives it a pod, and there is no fallback (NotDecided)\n"
    assert explain(room, "--kept", path, "--break", "b1", "--at", at(60)) == (3, f"b1: {tail}", "")
    room.write("news.events", path and "".join([*events[:5], event(29, "decisions", 204, decided(("b1", 2))), *events[5:]]))
    early, late = (explain(room, "--kept", path, "--break", "b1", "--at", at(seconds))[1] for seconds in (80, 390))
    assert early == "b1: it is filled by its own pod (2 segments, 4 s)\n" and late.startswith("b1: segment 170 (s170.ts), which begins at 2024-05-01T12:05:40.000Z, is nearest"), (early, late)
    status, _, err = explain(room, "--kept", path, "--break", "b1", "--at", at(10))
    assert status == 1 and "has the break b1" in err
    assert explain(room, "--kept", path, "--at", "yesterday")[0] == 2


def test_an_excerpt_says_what_the_whole_journal_says(room):
    # (b0 is decided late, b1 in time, b2 begins within b1, b3's date range comes late, b4 is announced 85 lists ahead)
    path, starts = Path(room.path, "news.events"), {"b0": 60, "b1": 120, "b2": 124, "b3": 200, "b4": 420}
    shown = {"b0": (15, 45), "b1": (48, 75), "b2": (48, 75), "b3": (104, 120), "b4": (115, 240)}
    it = journal.Journal(path, opening)
    for n in range(260):
        ranges = [(name, start, 8) for name, start in starts.items() if shown[name][0] <= n < shown[name][1]]
        it.add("origin", 204, "", listed(n, n + 9, ranges).encode())
        for name in {25: ("b0",), 49: ("b1", "b2", "b3"), 190: ("b4",)}.get(n, ()):
            it.add("decisions", 204, "", decided((name, 4)).encode())
    run = Run()
    for said in journal.events(path):
        run.take(given_of({"what": said.what, "at": said.at, "status": said.status, "fault": said.fault}, said.text()))
    whole = Explainer(run)
    assert not whole.differences()
    for name in starts:
        assert Explainer(Excerpt(Book(path), name, "9").run()).explain(name) == whole.explain(name), name
    assert [whole.word(name) for name in starts] == ["Waiting", "Filled", "Waiting", "Waiting", "Filled"], [whole.explain(name) for name in starts]


def test_a_hole_and_what_came_in_it_are_told_first(room):
    events = [event(0, "channel", 201, MADE), event(1, "decisions", 204, decided(("b1", 2))), event(2, "origin", 204, listed(0, 9, [("b1", 60, 4)])),
              event(3, "hole", 0, "", "No space left on device"), event(60, "origin", 204, listed(25, 34, [("b1", 60, 4)]))]
    out = explain(room, "--kept", room.write("news.events", "".join(events)), "--break", "b1")[1].splitlines()
    assert out == [f"the time from {at(3)}: nothing is kept from there on (No space left on device)",
                   f"the playlist of {at(60)} was taken, and by the rules it doesn't follow what is known (N6 Gap): something before it isn't kept, or it is a fault of adsplice",
                   "b1: it is filled by its own pod (2 segments, 4 s)"], out


def test_lists_after_a_full_disk_are_told_as_they_were_answered(room):
    events = [event(0, "channel", 201, MADE), event(1, "decisions", 204, decided(("b1", 2), ("b2", 2)))]
    for n in range(120):  # (nothing is kept of the lists 30 to 49; b1 begins in that time, and b2 later)
        body = listed(n, n + 9, [("b1", 100, 4)] * (20 <= n <= 53) + [("b2", 200, 4)] * (60 <= n <= 103))
        if n == 30:
            events.append(event(2 * n + 20, "hole", 0, "", "No space left on device"))
        if not 30 <= n < 50:
            events.append(event(2 * n + 20, "origin", 204, body))
    path = room.write("news.events", "".join(events))
    status, out, err = explain(room, "--kept", path)
    hole = f"the time from {at(80)}: nothing is kept from there on (No space left on device)"
    assert err == "" and "refused" not in out and "fault of adsplice, which" not in out, out
    assert hole in out.splitlines() and "b2: it is filled by its own pod (2 segments, 4 s)" in out.splitlines(), out
    assert "b1: it is filled by its own pod (2 segments, 4 s)" in out.splitlines(), out


def test_an_answer_that_is_not_the_rules_is_told_first(room):
    events = [event(0, "channel", 201, MADE), event(1, "origin", 204, listed(0, 9, [("b1", 4, 4)])), event(2, "origin", 409, listed(1, 10, [("b1", 4, 4)]), "N8 Changed 3")]
    out = explain(room, "--kept", room.write("news.events", "".join(events)), "--break", "b1")[1].splitlines()
    assert out[0] == f"the playlist of {at(2)}: adsplice answers 409 N8 Changed 3, and the rules 204: that is a fault of adsplice, which its makers want to be told", out


def test_nothing_of_an_origin_reaches_a_terminal_raw(room):
    body = listed(0, 5).replace("s3.ts", "s3.ts\x1b[31m\u2028s.ts")
    events = [event(0, "channel", 201, MADE), event(1, "origin", 422, body, "P4 Control line 9"), event(2, "origin", 422, listed(0, 5) + "#\udce9\n", "P1 NotUtf8"),
              event(3, "origin", 204, listed(0, 5).replace("#EXTINF", f'#EXT-X-DATERANGE:ID="x\u2028\u202ey",START-DATE="{at(4)}",SCTE35-OUT={OUT}\n#EXTINF', 1))]
    status, out, err = explain(room, "--kept", room.write("news.events", "".join(events)))
    assert status == 3 and "Traceback" not in err and out.replace("\n", "").isprintable(), (out, err)
    assert "(P4 Control line 9): s3.ts\\x1b[31m\\u2028s.ts" not in out and "\\u2028\\u202ey" in out and "P1 NotUtf8" in out, out


def test_a_journal_that_is_none_is_one_line(room):
    for name, text, owed in (("a.events", "", "it has no event"), ("b.events", "{}\n[]\nx\n", "it has no event"), ("c.events", event(0, "origin", 204, listed(0, 5, [("b1", 4, 4)])), "how its channel was made")):
        status, out, err = explain(room, "--kept", room.write(name, text))
        assert (status, out, err.count("\n")) == (1, "", 1) and owed in err, (name, status, out, err)
    os.remove(f"{room.path}/a.events")
    assert "there is no such file" in explain(room, "--kept", f"{room.path}/a.events")[2]
