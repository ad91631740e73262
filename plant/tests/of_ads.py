"""Tests of the whole way from an ad server to the screen: each command of docs/ADS.md, and a feed with adsplice-decide whose list ffmpeg plays."""
import json
import os
import re
import signal
import subprocess
import sys
import time
from pathlib import Path

from of_conditioning import Files
from of_decide import Decide, ad, films
from of_vast import AdServer
from tools import PLANT, Feed, RulesController, free_port, listed, until
from vast_documents import vast

sys.path.insert(0, PLANT)

NEEDS = ("httpx", "prometheus_client", "ffmpeg")
ROOT = os.path.dirname(PLANT)
NOT_COMMANDS = ("ask = ",)  # lines of the page's part that a file has


def commands_of(page, heading):
    """The lines of code of a part of a page."""
    part = page.partition(f"## {heading}\n")[2].partition("\n## ")[0]
    return [line.strip() for line in part.split("\n") if line.startswith("    ") and not line.strip().startswith(NOT_COMMANDS)]


def test_each_command_of_the_page_word_by_word(room):
    page = Path(f"{ROOT}/docs/ADS.md").read_text(encoding="utf-8")
    ports = {str(it): str(free_port()) for it in (9083, 9085, 9086, 9087)}
    lines = []
    for line in commands_of(page, "In ten minutes"):
        text = re.sub(r"\broom\b", f"{room.path}/room", line)
        text = re.sub(r"\b908[3-7]\b", lambda found: ports[found[0]], text)
        text = text.replace("--make &", f"--make --port {ports['9085']} &").replace("decide.ini &", f"decide.ini --listen 127.0.0.1:{ports['9083']} &")
        lines.append(text)
        if text.endswith("--make &") or "--port" in text:
            lines.append(f"until curl -s http://127.0.0.1:{ports['9085']}/called >/dev/null; do sleep 0.2; done")
        if "--listen" in text:
            lines.append(f"until curl -s http://127.0.0.1:{ports['9083']}/metrics >/dev/null; do sleep 0.2; done")
    assert len(lines) >= 16, lines
    script = room.write("page.sh", "set -e\ntrap 'kill $(jobs -p) 2>/dev/null; wait' EXIT\n" + "\n".join(lines) + "\n")
    done = subprocess.run(["bash", script], cwd=ROOT, capture_output=True, text=True, timeout=240, check=False, stdin=subprocess.DEVNULL)
    assert done.returncode == 0, (done.stdout[-2000:], done.stderr[-2000:])
    assert "\n204\n" in done.stdout.replace("204\n", "\n204\n"), done.stdout
    assert f"{room.path}/room/decision.json: right" in done.stdout and "duration=20.0" in done.stdout, done.stdout[-1500:]
    ads = json.loads(Path(f"{room.path}/room/decision.json").read_text())["breaks"][0]["ads"]
    assert sorted((it["id"], len(it["segments"])) for it in ads) == [("CAR0001H", 2), ("SOAP0001H", 3)], ads


def test_commands_elsewhere_on_the_page_have_right_words(room):
    page = Path(f"{ROOT}/docs/ADS.md").read_text(encoding="utf-8")
    settings = page.partition("/etc/adsplice/decide.ini` has a section")[2].partition("\n\n")[2].partition("\n\n")[0]
    from adsplice_plant import decide_settings
    found = decide_settings.read(Path(room.write("decide.ini", "\n".join(line.strip() for line in settings.split("\n")) + "\n")))
    assert found.sections[0].name == "news" and found.shop.at == "http://ads.example/ads"
    rows = set(re.findall(r"`([a-z-]+)`", "\n".join(line.split(" | ")[0] for line in page.partition("| Setting | What it says")[2].partition("\n\n")[0].split("\n")[2:])))
    assert rows == set(decide_settings.OF_EACH), rows ^ set(decide_settings.OF_EACH)
    example = decide_settings.read(Path(room.write("d.ini", Path(f"{PLANT}/systemd/decide.ini").read_text(encoding="utf-8").replace("# [", "[").replace("# vast", "vast").replace("# macros", "macros")
                                                   .replace("# slate", "slate").replace("# loudness", "loudness").replace("# schedule", "schedule").replace("# prefetch", "prefetch"))))
    assert [it.name for it in example.sections] == ["news", "sport"] and example.sections[1].prefetch == 120.0


def test_each_command_of_the_pages_has_words_that_its_program_knows(room):
    """The commands that aren't run, since their files and hosts are examples, are read by the programs."""
    import importlib
    import shlex
    count = 0
    for page in ("ADS.md", "DECISION_FILES.md", "SIGNALS.md", "PACKAGERS.md", *(f"operating/{it}" for it in sorted(os.listdir(f"{ROOT}/docs/operating")))):
        for line in Path(f"{ROOT}/docs/{page}").read_text(encoding="utf-8").split("\n"):
            found = re.fullmatch(r" {4}(?:plant/|\S*/)?adsplice-(pod|condition|decide|monitor|explain) (.*)", line)
            if not found or line.endswith("\\"):
                continue
            words = shlex.split(re.split(r" [<>|&#]", found[2])[0], comments=True)
            module = importlib.import_module(f"adsplice_plant.{found[1]}")
            try:
                module.read_words(words)
            except SystemExit as fault:
                raise AssertionError((page, line)) from fault
            count += 1
    assert count > 15, count


class Origin(Files):
    """A programme that was made, whose live lists are given by hand: `/NAME/index.m3u8`."""

    def __init__(self, path):
        self.lists = {}
        super().__init__(path)

    def answer(self, method, path, body, fields):
        if path in self.lists:
            return 200, {}, self.lists[path].encode()
        return super().answer(method, path, body, fields)


def programme(room, count):
    """An origin of two renditions, `hi` and `lo`, of so many segments of 2 s."""
    for name, size in (("hi", "96x54"), ("lo", "64x36")):
        os.makedirs(f"{room.path}/origin/{name}")
        subprocess.run(["nice", "ffmpeg", "-nostdin", "-v", "error", "-f", "lavfi", "-i", f"testsrc2=s={size}:r=25", "-f", "lavfi", "-i", "sine=r=48000", "-t", str(2 * count), "-c:v", "libx264", "-preset", "veryfast",
                        "-pix_fmt", "yuv420p", "-bf", "0", "-g", "50", "-sc_threshold", "0", "-c:a", "aac", "-f", "hls", "-hls_time", "2", "-hls_list_size", "0", "-hls_segment_filename",
                        f"{room.path}/origin/{name}/s%d.ts", f"{room.path}/origin/{name}/made.m3u8"], check=True)
    return room.server(Origin(f"{room.path}/origin"))


def packets_of(room, text, name):
    """The packets of a list's pictures and sound, as ffmpeg plays it to its end."""
    path = room.write(name, text.rstrip("\n") + "\n#EXT-X-ENDLIST\n")
    done = subprocess.run(["ffprobe", "-v", "error", "-protocol_whitelist", "file,http,tcp", "-count_frames", "-show_entries", "stream=codec_type,nb_read_frames", "-of", "json", path], capture_output=True, text=True, check=False)
    said = [line for line in done.stderr.splitlines() if "Cannot reuse HTTP connection" not in line]
    assert not done.returncode and not said, (said, text)
    return {it["codec_type"]: int(it["nb_read_frames"]) for it in json.loads(done.stdout)["streams"]}


def test_from_vast_to_picture(room):
    origin, files = programme(room, 14), films(room, car=4)
    server = room.server(AdServer({"/vast": vast(ad(files, "car", 4))}))
    os.makedirs(f"{room.path}/ads")
    pods = room.server(Files(f"{room.path}/ads"))
    controller = room.server(RulesController())

    def publish(last):
        for name in ("hi", "lo"):
            origin.lists[f"/{name}/index.m3u8"] = listed(max(0, last - 7), last, [("b1", 16, 4)] if last >= 6 else ())
    publish(5)
    decide = Decide(room, f"[DEFAULT]\nstore = {room.path}/ads\nkeep = {room.path}/keep\nat = {pods.url}\nfeed = {room.path}/feed.ini\n[sport]\nvast = {server.url}/vast?d=[BREAKMAXDURATION]\n")
    room.write("feed.ini", f"[sport]\nrenditions = hi lo\norigin = {origin.url}/{{}}/index.m3u8\nat = {controller.url}\ndecisions = {room.path}/decisions-{{}}\nkeep = {room.path}/kept\n"
               f"ask = http://127.0.0.1:{decide.port}/decide\n")
    until(lambda: decide.pod("warm", 4.0, renditions=("hi", "lo")) == [("car", 2)], 60, "the ad")
    feed = Feed(room, ["--config", f"{room.path}/feed.ini"])
    until(lambda: all(controller.shown(f"sport-{it}") for it in ("hi", "lo")), 30, "a list")
    for last in range(6, 12):
        publish(last)
        time.sleep(1.2)
    until(lambda: all("s11.ts" in controller.shown(f"sport-{it}") for it in ("hi", "lo")), 30, "the newest segment")
    decide.sees("sport vast/b1 200 -: car: 4 s, after")
    for name in ("hi", "lo"):
        text = controller.shown(f"sport-{name}")
        uris = [line for line in text.splitlines() if line and line[0] != "#"]
        pod = [it for it in uris if it.startswith(pods.url)]
        assert [it.rpartition("/")[2] for it in pod] == ["s0.ts", "s1.ts"] and all(f"/{name}/" in it for it in pod), text
        assert [it.rpartition("/")[2] for it in uris if it not in pod] == [f"s{n}.ts" for n in range(4, 12) if n not in (8, 9)], text
        seen = packets_of(room, text, f"{name}.m3u8")
        assert seen["video"] == 50 * len(uris) and abs(seen["audio"] - len(uris) * 2 * 48_000 / 1024) <= len(uris), (name, seen, len(uris))
        kept = json.loads(next(Path(f"{room.path}/decisions-{name}").glob("*.json")).read_text())
        assert kept["breaks"][0]["ads"][0]["id"] == "car", kept
    assert feed.end(signal.SIGTERM) == 0
