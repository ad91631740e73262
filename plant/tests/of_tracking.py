"""Tests of what ads have called: once for each ad that the as-run log says was shown whole, and for no other one."""
import grp
import importlib
import json
import os
import pwd
import shutil
import subprocess
import sys
from pathlib import Path

from of_vast import AdServer
from tools import PLANT, instant
from vast_documents import EVENTS, inline, vast

sys.path.insert(0, PLANT)

NEEDS = ("httpx",)
SECOND = 10**9


def modules():
    """The modules that need httpx."""
    return tuple(importlib.import_module(f"adsplice_plant.{it}") for it in ("tracking", "filling", "vast", "outside"))


class Log:
    """An as-run log of the channels sport-v and sport-en, an answer for `b1` with two ads and the slate, and who calls for them."""

    def __init__(self, room):
        self.tracking, filling, documents, self.outside = modules()
        self.server, self.room, self.told, self.counts = room.server(AdServer()), room, [], []
        self.path, self.answers = Path(room.path) / "as-run.jsonl", Path(room.path) / "answers"
        document = documents.read(vast(inline("car", 4, at=self.server.url), inline("soap", 4, at=self.server.url)).encode())
        ready = [filling.Ready(it, (2 * SECOND,) * 2, "http://ads.example/{}/s{n}.ts") for it in ("car", "soap", "slate")]
        pod = filling.Pod(ready, [*document.ads, None])
        self.tracking.keep(self.answers, "b1", None, pod)
        self.path.write_text("")
        self.begin()

    def begin(self):
        """One that calls begins, after another one may have ended."""
        self.it = self.tracking.Tracker("sport", self.path, self.answers, Path(self.room.path) / "sent.jsonl", self.outside.Outside(f"{self.server.url}/vast"), lambda name: name in ("sport-v", "sport-en"),
                                        lambda *words: self.told.append(words), self.counts.append)

    def line(self, whole, channel="sport-v", name="b1", pod="own", ids=("car", "soap", "slate"), **more):
        """Adds a line to the log, of which the ads of which `whole` says so were shown whole."""
        ads = [{"id": it, "shown": 2 if one else 1, "of": 2, "seconds": 4.0, "whole": one} for it, one in zip(ids, whole)]
        with open(self.path, "a", encoding="utf-8") as it:
            it.write(json.dumps({"channel": channel, "id": name, "start": instant(20), "pod": pod, "why": "Filled", "ads": ads, **more}) + "\n")

    def called(self):
        """What was called, without its server."""
        with self.server.lock:
            found, self.server.asked = [path for _, path, _ in self.server.asked], []
        return found


def test_what_was_shown_whole_is_called_for_once(room):
    log = Log(room)
    log.line((True, False, True))
    log.it.look()
    assert log.called() == ["/impression?ad=car", *(f"/{it}?ad=car" for it in EVENTS)]
    log.line((True, True, True), "sport-en")  # (another rendition: of the car nothing is called again)
    log.it.look()
    log.it.look()
    assert log.called() == ["/impression?ad=soap", *(f"/{it}?ad=soap" for it in EVENTS)]
    log.begin()
    log.line((True, True, True), "sport-en")
    log.it.look()
    assert log.called() == []


def test_nothing_is_called_for_what_was_not_shown(room):
    log = Log(room)
    for words in (dict(pod="fallback"), dict(pod=None), dict(channel="sport-x"), dict(channel="sports-v"), dict(name="b2"), dict(ids=("car", "tea", "slate")), dict(ids=("car", "soap")), dict(ads="x"), dict(ads=[1, 2, 3])):
        log.line((True, True, True), **words)
    with open(log.path, "a", encoding="utf-8") as it:
        it.write('{"gap": {"from": "x"}}\nno json\n[]\n{"channel": "sport-v", "id": "b1", "pod": "own", "ads": [{"id": "car", "whole": true}')
    log.it.look()
    assert log.called() == [], log.told


def test_what_was_shown_before_anybody_asked_is_not_called_for(room):
    log = Log(room)
    log.line((True, True, True))
    log.begin()
    log.it.look()
    assert log.called() == []


def test_what_was_shown_while_nobody_looked_is_called_for_by_the_next_one(room):
    log = Log(room)
    log.line((True, True, True), name="b0")
    log.begin()
    log.it.look()
    log.line((True, False, False))
    log.begin()
    log.it.look()
    assert len(log.called()) == 6


def test_a_log_that_is_rotated_is_read_on(room):
    log = Log(room)
    log.it.look()
    log.line((True, False, False))
    os.replace(log.path, f"{log.path}-20261201")
    log.line((False, True, False))
    log.it.look()
    assert {it.partition("=")[2] for it in log.called()} == {"car", "soap"}
    log.begin()
    log.it.look()
    assert log.called() == []


def test_the_installed_configuration_rotates_the_log(room):
    program = shutil.which("logrotate", path="/usr/sbin:/usr/bin")
    if not program:
        return
    log = Log(room)
    log.line((True, False, False))
    text = Path(f"{PLANT}/systemd/as-run.logrotate").read_text(encoding="utf-8").replace("/var/lib/adsplice/as-run.jsonl", str(log.path))
    text = text.replace("adsplice adsplice", f"{pwd.getpwuid(os.getuid()).pw_name} {grp.getgrgid(os.getgid()).gr_name}")
    path = room.write("logrotate.conf", text)
    os.chmod(path, 0o644)
    done = subprocess.run([program, "-f", "-s", f"{room.path}/state", path], capture_output=True, text=True, check=False)
    assert done.returncode == 0 and not done.stderr, done
    assert log.path.exists() and not log.path.read_text() and len(list(log.path.parent.glob("as-run.jsonl-*"))) == 1
    log.it.look()
    assert len(log.called()) == 6  # (of the file before)
    reconcile = importlib.import_module("adsplice_plant.reconcile")
    assert [it.name[:12] for it in reconcile.files_of(log.path)] == ["as-run.jsonl"] * 2


def test_a_break_of_another_time_with_the_same_id_is_not_called_for(room):
    log = Log(room)
    path = next(log.answers.iterdir())
    said = json.loads(path.read_text())
    path.write_text(json.dumps({**said, "start": instant(3600)}))
    log.line((True, True, True))
    log.it.look()
    assert log.called() == []
    path.write_text(json.dumps({**said, "start": instant(22)}))
    log.line((True, False, False))
    log.it.look()
    assert len(log.called()) == 6


def test_a_call_that_fails_is_told_and_not_made_again(room):
    log = Log(room)
    log.line((True, False, False))
    log.it.look()
    assert len(log.called()) == 6 and [it[2] for it in log.told] == ["Untracked"] * 6 and "ad car: impression http://127.0.0.1" in log.told[0][3] and "it is answered 404" in log.told[0][3], log.told
    assert set(log.counts) == {f"{it} failed" for it in ("impression", *EVENTS)}
    log.server.pages = {f"/{it}": "x" for it in ("impression", *EVENTS)}
    log.line((False, True, False))
    log.it.look()
    assert len(log.called()) == 6 and len(log.told) == 6 and log.counts[6:] == [f"{it} done" for it in ("impression", *EVENTS)]


def test_no_call_leads_from_outside_to_this_machine(room):
    log = Log(room)
    log.it.outside = log.outside.Outside("http://ads.example/vast")
    log.line((True, False, False))
    log.it.look()
    assert log.called() == [] and "is an address of this machine" in log.told[0][3], log.told


def test_a_record_that_cannot_be_written_calls_nothing(room):
    log = Log(room)
    os.mkdir(f"{room.path}/sent.jsonl")
    log.line((True, True, True))
    try:
        log.it.look()
        raise AssertionError
    except OSError:
        assert log.called() == []
    os.rmdir(f"{room.path}/sent.jsonl")
    log.it.look()
    assert len(log.called()) == 12
