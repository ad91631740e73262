"""Tests of the feed against hostile origins and ad servers, full disks, jumping clocks, and of readers against hostile texts."""
import json
import os
import re
import resource
import shutil
import signal
import socket
import ssl
import subprocess
import sys
import threading
import time
from pathlib import Path

import attacks
from attacks import Hostile
from tools import PLANT, PYTHON, FakeController, FakeOrigin, apart, decided, free_port, listed, until

sys.path.insert(0, PLANT)

NEEDS = ("httpx",)
LIMIT = 1.0
SLACK = 0.5  # seconds that a good channel may be late


def high_water(pid):
    """The most memory that a process has had, in MiB."""
    with open(f"/proc/{pid}/status", encoding="ascii") as it:
        return int(re.search(r"VmHWM:\s+(\d+)", it.read())[1]) // 1024


def slowness():
    """How many times longer than its own work a piece of work takes here now, since others work beside it; 1 on an idle machine."""
    wall, work = time.monotonic(), time.thread_time()
    while time.thread_time() - work < 0.05:
        pass
    return max(1.0, (time.monotonic() - wall) / 0.05)


def longest_gap(times):
    """The longest time between two of these moments that follow one another."""
    return max((after - before for before, after in zip(times, times[1:])), default=0)


def test_each_answer_is_bounded(room):
    # (in a process of its own: each attack within its time, and all within 120 MiB)
    hostile = room.server(Hostile())
    code = ("import sys, time, json; sys.path.insert(0, sys.argv[1])\nfrom adsplice_plant.web import Client\n"
            "found, client = {}, Client(float(sys.argv[3]))\n"
            "for kind in sys.argv[4:]:\n    begun = time.monotonic()\n    answer = client.ask('GET', f'http://127.0.0.1:{sys.argv[2]}/{kind}/i.m3u8')\n"
            "    found[kind] = (answer.status, answer.why, time.monotonic() - begun, len(answer.body))\n"
            "client.ask('GET', f'http://127.0.0.1:{sys.argv[2]}/good/i.m3u8')\n"
            "print(json.dumps([found, int(open('/proc/self/status').read().partition('VmHWM:')[2].split()[0]) // 1024]))\n")
    done = subprocess.run([PYTHON, "-c", code, PLANT, str(hostile.port), str(LIMIT), *attacks.KINDS], capture_output=True, text=True, timeout=120, check=False)
    assert done.returncode == 0, done.stderr
    found, memory = json.loads(done.stdout)
    assert memory < 120, memory
    slow = slowness()
    for kind, (status, why, took, size) in found.items():
        assert took < LIMIT + SLACK * slow and size <= 4_194_304, (kind, took, size)
        assert (status == 200) == (kind in attacks.LISTS) or kind in ("status", "redirect-round", "cookies"), (kind, status, why)
        assert why.isprintable() and (why or status), (kind, why)
    with hostile.lock:
        assert max(size for _, _, size in hostile.asked) < 400, "a cookie was sent"  # (each head as it was sent)


class Control:
    """A feed of one good channel and no attack: how late a channel is because of this machine alone."""

    def __init__(self, room):
        self.hostile, controller = room.server(Hostile()), room.server(FakeController())
        feed_of(room, self.hostile, controller.url, ())
        until(lambda: len(self.hostile.times("/good/")) > 3, 90)

    def gap(self, begun):
        """The longest time between two of its looks since then."""
        return max(0.5, longest_gap([it for it in self.hostile.times("/good/") if it > begun]))


def feed_of(room, hostile, at, kinds, good=1, **more):
    """Starts a feed of so many good channels and one for each kind of attack."""
    lines = ["[DEFAULT]", f"at = {at}", *(f"{name} = {value}" for name, value in more.items())]
    for n in range(good):
        lines += [f"[good-{n}]", f"origin = http://127.0.0.1:{hostile.port}/good/{n}.m3u8"]
    for kind in kinds:
        lines += [f"[x-{kind}]", f"origin = http://127.0.0.1:{hostile.port}/{kind}/i.m3u8"]
    return room.feed("--config", room.write(f"feed-{hostile.port}.ini", "\n".join(lines) + "\n"), "--timeout", "3")


def test_attacks_leave_the_other_channels_in_time(room):
    # (64 channels: all attacks at once, and 15 or so good ones; each good one is asked for twice a second)
    hostile, controller = room.server(Hostile()), room.server(FakeController())
    kinds = [it for it in attacks.KINDS if it not in ("letters", "line-feeds", "comments", "tags", "ranges", "one-range", "keys", "discontinuities", "capitals-4m")]
    control = Control(room)
    feed = feed_of(room, hostile, controller.url, kinds, 64 - len(kinds))
    until(lambda: len(hostile.times("/good/0.")) > 3, 90)
    begun, slow = time.monotonic(), slowness()
    time.sleep(6)
    slow = max(slow, slowness())
    for n in range(64 - len(kinds)):
        gap = longest_gap([it for it in hostile.times(f"/good/{n}.") if it > begun])
        assert gap < control.gap(begun) + SLACK * slow, (n, gap, control.gap(begun), slow)
    memory = high_water(feed.process.pid)
    assert memory < 256, memory
    assert controller.count("PUT", "/channels/good-0/origin") > 6
    assert not any("\x1b" in line for line in feed.lines)
    for kind, word in (("gzip", "content coding"), ("capitals", "line 3 has more than 16384 bytes"), ("long-id", "line 3: ID has more than 255 bytes"), ("redirect", "another host"),
                       ("slow-head", "no answer within 3 s"), ("pieces", "pieces of a few bytes|no whole answer")):
        feed.sees(f"x-{kind} .*{word}")
    asked = hostile.times("/target-12/")
    begun = time.monotonic()
    feed.process.send_signal(signal.SIGTERM)
    assert feed.process.wait(30) == 0 and time.monotonic() - begun < 2 * slow and asked
    assert not any("feed - " in line for line in feed.lines), [line for line in feed.lines if "feed - " in line]


def test_texts_that_are_large_leave_the_other_channel_in_time(room):
    hostile, controller, control = room.server(Hostile()), room.server(FakeController()), Control(room)
    for kind in ("letters", "line-feeds", "ranges", "keys"):
        feed = feed_of(room, hostile, controller.url, [kind])
        until(lambda kind=kind: hostile.times(f"/{kind}/"), 90)
        begun = time.monotonic()
        time.sleep(2.5)
        gap, memory, slow = longest_gap([it for it in hostile.times("/good/0.") if it > begun - 1]), high_water(feed.process.pid), slowness()
        assert gap < control.gap(begun - 1) + SLACK * slow and memory < 256, (kind, gap, memory, slow)
        begun = time.monotonic()
        feed.process.send_signal(signal.SIGTERM)
        assert feed.process.wait(30) == 0 and time.monotonic() - begun < 2 * slow, (kind, slow)


def test_a_target_duration_of_years_is_asked_again_within_seconds(room):
    from adsplice_plant import reading
    for target in (10**9, 10**12, 2**64 - 1):
        assert reading.interval(target, True) == 10 and reading.longest(target) == 10, target


def test_sigterm_is_heeded_in_each_state(room):
    hostile, origin = room.server(Hostile()), room.server(FakeOrigin(listed(0, 5)))
    for name, words in (("a silent origin", ("--origin", f"http://127.0.0.1:{hostile.port}/silent/i.m3u8", "--at", f"http://127.0.0.1:{free_port()}")),
                        ("a silent adsplice", ("--origin", origin.url, "--at", f"http://127.0.0.1:{hostile.port}/silent")),
                        ("an origin of pieces", ("--origin", f"http://127.0.0.1:{hostile.port}/endless/i.m3u8", "--at", f"http://127.0.0.1:{free_port()}"))):
        feed = room.feed("--channel", "news", *words, "--timeout", "8")
        time.sleep(1.5 * slowness())
        begun, slow = time.monotonic(), slowness()
        feed.process.send_signal(signal.SIGTERM)
        assert feed.process.wait(30) == 0 and time.monotonic() - begun < 2 * max(slow, slowness()), (name, slow)


def test_a_full_disk_costs_lines_and_nothing_else(room):
    # (files of the feed may have 200 bytes, and later as many as they want)
    origin, controller = room.server(FakeOrigin(listed(0, 5))), room.server(FakeController())
    with open(f"{room.path}/out", "wb") as out:
        it = subprocess.Popen([PYTHON, f"{PLANT}/adsplice-feed", "--channel", "news", "--origin", origin.url, "--at", controller.url, "--timeout", "1"], stdout=out,
                              stderr=subprocess.STDOUT, preexec_fn=lambda: resource.setrlimit(resource.RLIMIT_FSIZE, (200, resource.RLIM_INFINITY)))
    room.running.append(it)
    until(lambda: controller.puts("origin"), 20)
    for status in (503, 500, 404, 200):
        origin.status = status
        time.sleep(1.2)
    origin.text = listed(1, 6)
    until(lambda: len(controller.puts("origin")) > 1, 20)
    assert it.poll() is None and os.path.getsize(f"{room.path}/out") <= 200
    resource.prlimit(it.pid, resource.RLIMIT_FSIZE, (resource.RLIM_INFINITY, resource.RLIM_INFINITY))
    origin.status = 503
    text = until(lambda: (found := Path(room.path, "out").read_text(encoding="utf-8")).count("couldn't") and found, 20)
    assert re.search(r"\n\S+ \d+ lines couldn't be written\n", text), text


def test_what_a_user_may_not_read_or_write_is_told(room):
    # (as root the feed runs as nobody, with a copy of its sources, since root may read and write all)
    controller, folder, kept, plant = room.server(FakeController()), Path(room.path, "decisions"), Path(room.path, "kept"), Path(room.path, "plant")
    for name in ("adsplice_plant", "adsplice_rules"):
        shutil.copytree(f"{PLANT}/{name}", plant / name)
    shutil.copy(f"{PLANT}/adsplice-feed", plant)
    playlist = room.write("index.m3u8", listed(0, 5))
    room.write("decisions/b1.json", decided(("b1", 2)))
    room.write("decisions/b2.json", decided(("b2", 2)))
    os.chmod(folder / "b1.json", 0)
    for path, mode in ((Path(room.path), 0o755), (folder, 0o555), (kept, 0o555)):
        path.mkdir(exist_ok=True)
        os.chmod(path, mode)
    user = {"user": "nobody", "group": "nogroup", "extra_groups": []} if os.geteuid() == 0 else {}
    it = subprocess.Popen([PYTHON, plant / "adsplice-feed", "--channel", "news", "--origin", playlist, "--base", "http://origin.example/ch/index.m3u8",
                           "--at", controller.url, "--decisions", folder, "--keep", kept, "--timeout", "2"],
                          stdin=subprocess.DEVNULL, stdout=subprocess.PIPE, stderr=subprocess.STDOUT, text=True, **user)
    room.running.append(it)
    try:
        until(lambda: controller.asked, 20, "the making of the channel")
        time.sleep(1.5)
        assert not controller.puts("origin") and not controller.puts("decisions"), "nothing is given that can't be kept"
        os.chmod(kept, 0o777)
        until(lambda: controller.puts("origin") and controller.puts("decisions"), 20, "the list and the decision that may be read")
        room.write("index.m3u8", listed(1, 6))
        until(lambda: len(controller.puts("origin")) > 1, 20, "the next list")
        it.send_signal(signal.SIGTERM)
        assert it.wait(10) == 0
    finally:
        for path in (folder, kept):
            os.chmod(path, 0o755)
    said = it.stdout.read()
    for text in ("b1.json.*can't be read: Permission denied", "journal - Unkept: .*/news.events: Permission denied", "log - Unkept: .*kept/news.log: Permission denied"):
        assert len(re.findall(text, said)) == 1, (text, said)
    assert controller.puts("decisions") == [decided(("b2", 2)).encode()], controller.puts("decisions")


def test_a_journal_that_cannot_be_written_is_told_each_time_that_it_begins_and_ends(room):
    from adsplice_plant.events import Note
    from adsplice_plant.settings import settings_of
    from adsplice_plant.telling import Noting, Telling
    lines = []
    it = Noting(settings_of("news", {"origin": "http://h/i.m3u8", "at": "http://h", "keep": room.path}), Telling("news", lines.append), list)
    right = it.journal.put
    for is_full in (False, True, True, False, False, True):
        it.journal.put = refuse if is_full else right
        it.note(Note("news", "read", 0, "no answer"))
    told = [line.split(" ", 2)[2].replace(f"{room.path}/", "") for line in lines]
    full, well = "journal - Unkept: news.events: No space left on device; goes on without it", "journal - -: news.events: events are kept again"
    assert told == [full, well, full], told


def test_lines_of_ever_new_names_are_bounded(room):
    from adsplice_plant import telling
    lines, clock = [], [0.0]
    it = telling.Telling("news", lines.append, lambda: clock[0])
    for n in range(20_000):
        it.tell("news", f"decisions/{n}.json", 0, "Passed", "it is a link")
    assert len(lines) == 2000 and len(it.states) == 10_000 and ("news", "decisions/19999.json") in it.states, (len(lines), len(it.states))
    clock[0] = 60.0
    it.tell("news", "origin", 0, "", "no answer")
    assert len(lines) == 2002 and lines[2000].endswith("news lines - Many: 18000 lines weren't printed, since there were over 2000 within a minute"), lines[2000:]
    it.tell("news", "decisions/19999.json", 0, "Passed", "it is a link")
    assert len(lines) == 2002, "it was told"


def refuse(*_):
    """A full disk."""
    raise OSError(28, "No space left on device")


def test_what_is_passed_over_is_told(room):
    origin, controller = room.server(FakeOrigin(listed(0, 5))), room.server(FakeController())
    room.write("d/notes.txt", "x")
    room.write("d/.hidden", "x")
    os.symlink("/nowhere", f"{room.path}/d/gone.json")
    with open(f"{room.path}/d/long.json", "wb") as it:
        it.truncate(4_194_305)
    room.write("fallback.json", decided(("b1", 1)))
    origin.url.replace("http://", "http://user:secret@")
    words = ("--channel", "news", "--origin", origin.url.replace("http://", "http://user:secret@"), "--at", controller.url, "--decisions", f"{room.path}/d", "--keep", f"{room.path}/k",
             "--fallback", f"{room.path}/fallback.json", "--hold", "1")
    os.mkdir(f"{room.path}/k")
    feed = room.feed(*words)
    for word in ("decisions/notes.txt - Passed: it isn't a file whose name ends in .json", "decisions/gone.json - Passed", "decisions/long.json - Passed: it has 4194305 bytes, over 4194304",
                 "fallback - Other: .* it has `breaks` and no `fallback`", "Idle: `hold` has no effect without ask", "adsplice 204 -: the playlist is taken"):
        feed.sees(word)
    assert not any("hidden" in line or "secret" in line for line in feed.lines), feed.lines
    assert json.loads(next(body for method, path, body in controller.asked if path == "/channels/news"))["base"] == origin.url
    feed.end(signal.SIGTERM)
    feed = room.feed(*words, "--base", "http://other.example/i.m3u8")
    feed.sees("settings 409 Other: the channel was made with .*, and the settings say .*other.example")


def test_bounds_that_do_not_read_are_refused(room):
    one = "[DEFAULT]\nat = http://127.0.0.1:9\norigin = http://h/{}.m3u8\n[news-1080]\n"
    for text, owed in ((f"{one}line = 5\n", "line is a number of bytes of at least 256"), (f"{one}redirects = maybe\n", "redirects is yes or no")):
        status, out, err = room.run("adsplice-feed", "--config", room.write("feed.ini", text))
        assert (status, out, err.count("\n")) == (1, "", 1) and owed in err, (text, status, err)


def test_answers_of_a_hostile_ad_server_are_judged(room):
    from adsplice_plant.asking import decision_of
    for body in (b"[" * 100_000, b'{"breaks":' * 50_000, b"9" * 10_000, b'{"breaks":[' + b'{"id":"a","ads":[]},' * 50_000 + b"0]}", b'"\\ud800"', b"\xff" * 100, b"{}", b"null",
                 b'{"breaks":[{"id":"' + b"a" * 70_000 + b'","ads":[]}]}', decided(("other", 1)).encode(), b'{"breaks":[{"id":"b1","ads":[{"segments":[{"uri":"http://h/\x1b[31m","duration":"2"}]}]}]}'):
        begun = time.process_time()
        found, why = decision_of(body, "b1")
        assert found is None and why and time.process_time() - begun < 1.5, (body[:40], found, why)
    assert decision_of(b'{"breaks":[0' + b",0" * 250_001 + b"]}", "b1") == (None, "it has more than 250,000 commas")


def test_what_would_be_written_of_a_list_is_bounded(room):
    # (a base before each reference, or a key or a map before each segment: over 16,777,216 bytes a list isn't given)
    from adsplice_plant import origin
    head, one = b"#EXTM3U\n#EXT-X-TARGETDURATION:2\n", b"#EXTINF:2,\ns.ts\n"
    key, section = (b'#EXT-X-%s:METHOD=AES-128,URI="%s"\n' % (tag, b"k" * 16_000) for tag in (b"KEY", b"MAP"))
    begins, goes_on = b'#EXT-X-DATERANGE:ID="b",SCTE35-OUT=0xFC\n', b"#EXT-X-CUE-OUT-CONT:1/2\n"
    for body, base, ads, is_taken in (
            (one * 10_000, 100, 0, True), (one * 10_000, 2_000, 0, False), (one * 8_000, 2_000, 0, True), (key + one * 1_000, 100, 0, True), (key + one * 2_000, 100, 0, False),
            (section + one * 2_000, 100, 0, False), (one * 2_000 + key, 0, 0, False), (key * 30 + one * 30, 2_000, 0, True), (b"\n" * 90_000 + one, 2_000, 0, True),
            (begins * 60 + one, 100, 262_144, True), (begins * 70 + one, 100, 262_144, False), (begins * 300 + one, 100, 47_000, True), (begins * 10_000 + one, 100, 0, True),
            (b"#EXT-X-CUE-OUT:2\n" * 400 + one, 100, 47_000, False), (goes_on * 1_000 + one, 100, 47_000, True)):
        why = origin.over_bound(head + body, 16_384, base, ads)
        assert (why == "") == is_taken and (is_taken or why.startswith("what is written of it may have more than 16777216 bytes: ")), (len(body), base, ads, why)


test_what_would_be_written_of_a_list_is_bounded.needs = ("httpx",)


def test_a_list_that_would_be_written_long_is_told_and_not_given(room):
    controller, origin = room.server(FakeController()), room.server(FakeOrigin(listed(0, 5)))
    feed = room.feed("--channel", "news", "--origin", origin.url, "--at", controller.url, "--base", f"http://origin.example/{'b' * 2000}/i.m3u8")
    feed.sees("news adsplice 204 -: the playlist is taken")
    origin.text = listed(1, 9_000)
    feed.sees("news origin 200 -: what is written of it may have more than 16777216 bytes: 90[0-9]+ references under a base of 2029 bytes", 30)
    assert len(controller.puts("origin")) == 1


def test_a_fallback_that_is_long_is_told_and_not_given(room):
    controller, origin = room.server(FakeController()), room.server(FakeOrigin(listed(0, 5)))
    long = json.dumps({"fallback": {"ads": [{"segments": [{"uri": f"http://ads.example/{'a' * 8000}/{it}.ts", "duration": "2"} for it in range(40)]}]}})
    feed = room.feed("--channel", "news", "--origin", origin.url, "--at", controller.url, "--base", "http://origin.example/i.m3u8", "--fallback", room.write("fallback.json", long))
    feed.sees(r"news fallback - Other: .*fallback.json: it has 3\d+ bytes, over 262144; goes on without it")
    feed.sees("news adsplice 204 -: the playlist is taken")
    assert not [it for it in controller.puts("decisions") if b"8000" in it or len(it) > 1000]


def test_readers_take_time_by_their_bytes(room):
    # (each reader at two sizes of each hostile kind, in a process of its own)
    code = ("import itertools, sys, time; sys.path.insert(0, sys.argv[1])\n"
            "from adsplice_plant import asking, decisions, excerpt, judge, numbers, origin, packaged, playlist, seen, spelling\n"
            "from adsplice_plant.history import Given\n"
            "H, E = b'#EXTM3U\\n#EXT-X-TARGETDURATION:2\\n', b'\\n#EXTINF:2,\\ns0.ts\\n'\n"
            "KINDS = {'capitals': lambda n: H + b'#EXT-X-DATERANGE:' + b'A' * n + E, 'open quotes': lambda n: H + b'#EXT-X-DATERANGE:' + b'A=\"' * (n // 3) + E,\n"
            "         'commas': lambda n: H + b'#EXT-X-DATERANGE:' + b',' * n + E, 'pairs': lambda n: H + b'#EXT-X-KEY:' + b'A=1,' * (n // 4) + E, 'spaces': lambda n: H + b'#EXTINF:' + b' ' * n + E,\n"
            "         'digits': lambda n: H + b'#EXTINF:' + b'9' * n + E, 'lines': lambda n: H + b'\\n' * n, 'letters': lambda n: H + b'a\\n' * (n // 2), 'ranges': lambda n: H + b'#EXT-X-DATERANGE:ID=\"a\"\\n' * (n // 24) + E,\n"
            "         'keys': lambda n: H + b''.join(b'#EXT-X-KEY:METHOD=A,URI=\"k\",KEYFORMAT=\"%d\"\\n' % i for i in range(n // 40)) + E, 'times': lambda n: H + b'#EXT-X-PROGRAM-DATE-TIME:2024-05-01T12:00:00Z\\n' * (n // 46) + E}\n"
            "def packed(body):\n    try:\n        return packaged.read(spelling.lines_of(body, set()))\n    except spelling.Unread:\n        return None\n"
            "READERS = {'playlist': playlist.read, 'bounds': lambda body: origin.over_bound(body, 16384), 'packaged': packed, 'numbers': numbers.items_of,\n"
            "           'seen': lambda body: seen.strange_in(Given('origin', 'x', body)), 'ranges': lambda body: list(Given('origin', 'x', body).ranges()), 'said': decisions.said_by, 'judge': judge.judge}\n"
            "def took(read, body):\n    begun = time.process_time(); read(body); return time.process_time() - begun\n"
            "def grows(read, make):\n    small, large = (min(took(read, make(n)) for _ in range(2)) for n in (60_000, 240_000))\n"
            "    return f'{small:.3f} {large:.3f}' if large > 7 * small + 0.03 or large > 1 else ''\n"
            "for kind, make in KINDS.items():\n    for name, read in READERS.items():\n        looks = (grows(read, make) for _ in range(3))  # (a machine that is busy makes one look slow)\n"
            "        if len(found := list(itertools.takewhile(bool, looks))) == 3:\n            print(kind, name, *found)\n")
    done = subprocess.run([PYTHON, "-c", code, PLANT], capture_output=True, text=True, timeout=120, check=False)
    assert (done.returncode, done.stdout) == (0, ""), (done.stdout, done.stderr[-500:])


def test_answers_of_odd_servers(room):
    from adsplice_plant.web import Client
    head = b"HTTP/1.1 200 OK\r\n"
    for sent, status, body, why in (
            (head + b"Content-Length: 3\r\n\r\nabc", 200, b"abc", ""), (head + b"\r\nabc", 200, b"abc", ""), (b"HTTP/1.0 200 OK\r\n\r\nabc", 200, b"abc", ""),
            (head + b"Transfer-Encoding: chunked\r\n\r\n3\r\nabc\r\n1\r\nd\r\n0\r\n\r\n", 200, b"abcd", ""),
            (b"HTTP/1.1 100 Continue\r\n\r\n" + head + b"Content-Length: 1\r\n\r\na", 200, b"a", ""),
            (head + b"Content-Length: 9\r\n\r\nabc", 0, b"", "peer closed connection without sending complete message body"),
            (head + b"Transfer-Encoding: chunked\r\n\r\n9\r\nabc", 0, b"", "peer closed connection without sending complete message body"),
            (head + b"Content-Length: 3\r\nContent-Length: 5\r\n\r\nabcde", 0, b"", "Content-Length isn't one number"),
            (head + b"Content-Length: -3\r\n\r\nabc", 0, b"", "Content-Length isn't one number"),
            (head + b"Content-Encoding: gzip\r\nContent-Length: 1\r\n\r\na", 0, b"", "the answer has a content coding, which wasn't asked for"),
            (b"SSH-2.0-x\r\n", 0, b"", "the answer isn't one of HTTP"), (b"", 0, b"", "Server disconnected without sending a response.")):
        with socket.create_server(("127.0.0.1", 0)) as server:
            def serve(server=server, sent=sent):
                with server.accept()[0] as it:
                    it.recv(65_536)
                    it.sendall(sent)
            thread = threading.Thread(target=serve)
            thread.start()
            client = Client(5.0)
            found = client.ask("GET", f"http://127.0.0.1:{server.getsockname()[1]}/a?b")
            thread.join()
            client.close()
        assert (found.status, found.body, found.why) == (status, body, why), (sent, found)


def test_a_server_without_a_right_certificate_is_not_read(room):
    from adsplice_plant.web import Client
    if not shutil.which("openssl"):
        return
    subprocess.run(["openssl", "req", "-x509", "-newkey", "rsa:2048", "-nodes", "-keyout", f"{room.path}/key", "-out", f"{room.path}/certificate", "-days", "2",
                    "-subj", "/CN=localhost", "-addext", "subjectAltName=DNS:localhost,IP:127.0.0.1"], check=True, capture_output=True, timeout=60)
    context, got = ssl.SSLContext(ssl.PROTOCOL_TLS_SERVER), []
    context.load_cert_chain(f"{room.path}/certificate", f"{room.path}/key")
    with socket.create_server(("127.0.0.1", 0)) as server:
        def serve():
            with server.accept()[0] as it:
                try:
                    with context.wrap_socket(it, server_side=True) as one:
                        got.append(one.recv(65_536))
                except OSError:
                    pass  # (the client has ended it)
        thread = threading.Thread(target=serve)
        thread.start()
        found = Client(5.0).ask("GET", f"https://localhost:{server.getsockname()[1]}/i.m3u8")
        thread.join()
    assert found.status == 0 and "certificate" in found.why.lower() and not any(got), (found, got)


def test_a_connection_is_used_for_the_next_request_unless_its_server_has_ended_it(room):
    from adsplice_plant.web import Client
    asked, ended, answers = [], threading.Event(), [b"HTTP/1.1 204 No Content\r\n\r\n", b"HTTP/1.1 200 OK\r\nContent-Length: 2\r\n\r\nok"]
    with socket.create_server(("127.0.0.1", 0)) as server:
        def serve():
            for place in range(2):  # (the first connection has two requests, and then ends; the second one has one)
                with server.accept()[0] as it:
                    for answer in answers[place:]:
                        got = b""
                        while not got.endswith(b"\r\n\r\nbody" if got.startswith(b"PUT") else b"\r\n\r\n"):  # (head and body may come apart)
                            got += it.recv(65_536)
                        asked.append((place, got))
                        it.sendall(answer)
                ended.set()
        thread = threading.Thread(target=serve)
        thread.start()
        client, url = Client(5.0), f"http://127.0.0.1:{server.getsockname()[1]}"
        assert client.ask("PUT", f"{url}/one", b"body").status == 204 and client.ask("GET", f"{url}/two").body == b"ok"
        assert ended.wait(20)
        assert client.ask("GET", f"{url}/three").body == b"ok"
        thread.join()
        client.close()
    assert [(place, it.split(b" HTTP")[0]) for place, it in asked] == [(0, b"PUT /one"), (0, b"GET /two"), (1, b"GET /three")], asked


def test_readers_end_with_any_text(room):
    from hypothesis import given, settings
    from hypothesis import strategies as some

    from adsplice_plant import decisions, edits, excerpt, judge, journal, origin, playlist, words
    parts = some.sampled_from([b"#EXTM3U\n", b"#EXTINF:", b"2,\n", b"s.ts\n", b"#EXT-X-DATERANGE:", b'ID="', b'"', b",", b"=", b"START-DATE=", b"2024-05-01T12:00:00Z", b"\r\n", b"#EXT-X-KEY:",
                               b"METHOD=NONE", b"#EXT-X-TARGETDURATION:", b"9" * 25, "\u2028é".encode(), b"\x1b[", b"\xff", b"{", b"[", b'"breaks":', b'"id":"b1"', b"]", b"}"])
    texts = some.one_of(some.binary(max_size=200), some.lists(parts, max_size=40).map(b"".join))

    @settings(max_examples=300, deadline=None, database=None, derandomize=False)
    @given(texts, texts)
    def holds(one, other):
        playlist.read(one)
        decisions.said_by(one)
        judge.judge(one)
        excerpt.event_in(one)
        journal.Reader().event(one.decode("utf-8", "replace"))
        assert words.plain(one.decode("utf-8", "surrogateescape")).isprintable()
        old, new = journal.text_of(one), journal.text_of(other)
        made = "".join(edits.edited(edits.lines_of(old), json.loads(json.dumps(edits.edit_of(old, new)))))
        assert made == new and made.encode("utf-8", "surrogateescape") == other
        assert bool(origin.over_bound(one, 20)) == any(len(line) > 20 for line in one.split(b"\n"))

    holds()


test_readers_end_with_any_text.needs = ("httpx", "hypothesis")
