"""Tests of adsplice-explain, with the built program: each file of mistakes has its sentence, and the rest of what it does."""
import json
import os
import signal
import subprocess
import sys
import time
from pathlib import Path

from tools import FALLBACK, PLANT, PYTHON, decided, listed, until

sys.path.insert(0, PLANT)
from adsplice_plant import explain as explained  # noqa: E402
from adsplice_plant.causes import Explainer  # noqa: E402

NEEDS = ("program",)
MISTAKES = f"{PLANT}/mistakes"
NO_END = "(its last line has no end)"


def parts_of(text):
    """The files of a mistake in their order, each with its name, and the sentence that is owed."""
    parts = text.split("\n--- ")[1:]
    files = []
    for part in parts:
        name, _, body = part.partition("\n")
        if name == NO_END:
            continue
        files.append((name, body))
    *files, (_, owed) = files
    ends = [NO_END in part for part in parts[1:]]
    return [(name, body + ("" if cut else "\n")) for (name, body), cut in zip(files, (it for it, part in zip(ends + [False], parts) if not part.startswith(NO_END)))], owed.rstrip("\n")


def explain(room, *words):
    """Runs adsplice-explain in the test's folder."""
    return room.run("adsplice-explain", *words, *(("--program", room.program) if room.program else ()), cwd=room.path)


def test_each_mistake_has_its_sentence(room):
    names, found = sorted(os.listdir(MISTAKES)), []
    assert len(names) >= 30
    for name in names:
        with open(f"{MISTAKES}/{name}", encoding="utf-8") as it:
            files, owed = parts_of(it.read())
        paths = [room.write(f"{name}.d/{file}", body) for file, body in files]
        given = explained.given_by_files([Path(it) for it in paths], explained.BASE, None)
        lines, is_well = explained.report(Explainer(explained.run_beside(room.program, given)), None)
        if is_well or owed not in lines:
            found.append(f"{name}: owed\n    {owed}\n  said\n    " + "\n    ".join(lines))
    assert not found, "\n".join(found)
    status, out, err = explain(room, *paths)
    assert (status, err) == (3, "") and out.splitlines() == lines, (status, out, err)


def test_filled_breaks_are_told_by_their_pods(room):
    room.write("d.json", decided(("b1", 2)))
    room.write("f.json", FALLBACK)
    room.write("i.m3u8", listed(0, 9, [("b1", 4, 4), ("b2", 12, 4)]))
    status, out, err = explain(room, "d.json", "f.json", "i.m3u8")
    assert (status, err) == (0, "") and out.splitlines() == [
        "b1: it is filled by its own pod (2 segments, 4 s)", "b2: it is filled by the fallback (1 segment, 2 s), and lasts 4 s itself (by DURATION); no decision file gives it a pod"], out
    assert explain(room, "d.json", "f.json", "i.m3u8", "--break", "b2")[:2] == (0, out.splitlines()[1] + "\n")
    assert explain(room, "d.json", "i.m3u8", "--break", "B2")[:2] == (3, "B2: no playlist has this ID; listed is b2, which is like it\n")


def test_why_the_fallback_played(room):
    room.write("f.json", FALLBACK)
    room.write("d.json", decided(("b1", 2)))
    room.write("w.json", '{"withdraw":"b1"}')
    room.write("wrong.json", decided(("b1", 2)).replace('"2"', "2"))
    room.write("one.m3u8", listed(0, 5, [("b1", 4, 4)]))
    room.write("two.m3u8", listed(0, 9, [("b1", 4, 4)]))
    filled = "b1: it is filled by the fallback (1 segment, 2 s), and lasts 4 s itself (by DURATION); "
    for files, owed in ((("f.json", "one.m3u8"), "no decision file gives it a pod"), (("f.json", "d.json", "w.json", "one.m3u8"), "its own pod was withdrawn"),
                        (("f.json", "wrong.json", "one.m3u8"), "wrong.json, which names it, is refused (J2 Shape break 0 ad 0 segment 0)"),
                        (("f.json", "one.m3u8", "d.json", "two.m3u8"),
                         "d.json came after one.m3u8, which was the first to list segment 2 (s2.ts), which begins at 2024-05-01T12:00:04.000Z")):
        assert filled + owed in explain(room, *files)[1].splitlines(), (files, explain(room, *files))


def test_tolerance_is_the_channels(room):
    room.write("d.json", decided(("b1", 2)))
    room.write("i.m3u8", listed(0, 9, [("b1", 4.35, 4)]))
    assert explain(room, "d.json", "i.m3u8")[0] == 3
    assert explain(room, "d.json", "i.m3u8", "--tolerance", "0.5")[0] == 0


def test_what_a_feed_kept(room):
    events = [("channel", 201, "", json.dumps({"base": "http://h/i.m3u8"})), ("origin", 204, "", listed(0, 5)), ("decisions", 204, "", decided(("b1", 2))),
              ("origin", 502, "", listed(0, 6)), ("origin", 204, "", listed(1, 7, [("b1", 12, 4)])), ("read", 0, "no answer", "")]
    lines = [json.dumps({"at": f"2024-05-01T12:00:0{n}Z", "what": what, "status": status, "fault": fault, "body": body})
             for n, (what, status, fault, body) in enumerate(events)]
    path = room.write("news.events", "\n".join(lines) + "\n" + lines[0][:30])
    assert explain(room, "--kept", path) == (0, "b1: it is filled by its own pod (2 segments, 4 s)\n", "")


def test_what_a_feed_kept_of_a_programme(room):
    def kept(name, breaks, *decisions):
        """The file of a rendition that has these breaks and decisions."""
        events = [("channel", 201, "", json.dumps({"base": "http://h/i.m3u8"})), ("origin", 204, "", listed(0, 5)), *(("decisions", 204, "", decided(it)) for it in decisions),
                  ("origin", 204, "", listed(1, 7, breaks)), ("origin", 204, "", listed(3, 9, breaks))]
        lines = [json.dumps({"at": f"2024-05-01T12:00:0{n}Z", "what": what, "status": status, "fault": fault, "body": body}) for n, (what, status, fault, body) in enumerate(events)]
        return room.write(f"{name}.events", "\n".join(lines) + "\n")

    breaks = [("b1", 12, 2), ("b2", 16, 2)]
    files = kept("film-1", breaks, ("b1", 1), ("b2", 1)), kept("film-2", breaks, ("b1", 1))
    status, out, err = explain(room, "--kept", *files)
    assert (status, err) == (3, "") and len(out.splitlines()) == 2, out
    assert out.startswith("b1: film-1, film-2: it is filled by its own pod (1 segment, 2 s)\nb2: film-1: it is filled by its own pod (1 segment, 2 s); film-2: no decision"), out
    status, out, _ = explain(room, "--kept", *files, "--break", "b1")
    assert (status, out) == (0, "b1: film-1, film-2: it is filled by its own pod (1 segment, 2 s)\n"), out


test_what_a_feed_kept_of_a_programme.needs = ()


def test_faults_are_one_line(room):
    for words, status, text in ((["no.m3u8"], 1, "no.m3u8: No such file"), (["--kept", "no.events"], 1, "there is no such file"),
                                ([room.write("i.m3u8", listed(0, 1)), "--base", "ftp://h/"], 1, "the channel can't be made: C1 BadBase"), ([], 2, "files are needed")):
        found, out, err = explain(room, *words)
        assert (found, out) == (status, "") and text in err and "Traceback" not in err, (words, found, out, err)


def test_a_signal_leaves_no_process_behind(room):
    slow = room.write("slow", '#!/bin/sh\nexec sleep 77.5\n')
    os.chmod(slow, 0o755)
    it = subprocess.Popen([PYTHON, f"{PLANT}/adsplice-explain", room.write("i.m3u8", listed(0, 1)), "--program", slow])
    room.running.append(it)

    def child():
        return subprocess.run(["pgrep", "-P", str(it.pid)], capture_output=True, text=True, check=False).stdout.split()

    children = until(child)
    time.sleep(0.2)
    it.send_signal(signal.SIGTERM)
    assert it.wait(5) == 143
    assert not os.path.exists(f"/proc/{children[0]}")
