"""Tests of examples/live: by its nginx.conf what one viewer asks spoils nothing for others, nobody waits for a process that hangs, and
bodies and senders are bounded; hand_over's lines; the types of its modules."""
import contextlib
import http.client
import os
import shutil
import signal
import subprocess
import sys
import threading
import time
import urllib.request

from tools import PLANT, PYTHON, decided, free_port, get, listed, put, until

sys.path.insert(0, PLANT)

NEEDS = ("program", "nginx")
LIVE = f"{PLANT}/../examples/live"
CONF, FRONT = f"{LIVE}/nginx.conf", f"{LIVE}/nginx-front.conf"
NGINX = shutil.which("nginx") or "/usr/sbin/nginx"
TYPED = ("attackers", "browser", "configured_lists", "day_faults", "day_measures", "day_plant", "day_table", "lip_sync", "media", "plant", "relay", "replicas_lab", "stories", "tools", "viewers")
TYPED_SCRIPTS = ("check_attacks", "check_day", "check_ladder", "check_replicas", "hand_over", "measure_refreshes")


HANGS = 4.0  # seconds
AT_ONCE = 0.5  # seconds: much less than a process that hangs would take


def front(room, moved="", has_workers=False):
    """Starts two processes of adsplice and nginx before them, with the lines of the folder `moved`; answers the viewers' port and the operators'.
    With workers nginx ends if it is told so alone."""
    ports = [free_port() for _ in range(4)]
    for it in ports[:2]:
        room.adsplice(it)
    return by_nginx(room, CONF, *ports[2:], has_workers, (("127.0.0.1:8081", f"127.0.0.1:{ports[0]}"), ("127.0.0.1:8082", f"127.0.0.1:{ports[1]}"),
                                                          ("/etc/nginx/adsplice.d", moved or f"{room.path}/none")))


def front_of_machines(room):
    """Starts nginx as a front of three machines, of which each is one process of adsplice; answers the viewers' port and the operators'."""
    machines = [free_port() for _ in range(3)]
    for it in machines:
        room.adsplice(it)
    changed = ((f"10.0.0.{number}:8090 max_fails", f"127.0.0.1:{port} max_fails") for number, port in enumerate(machines, 1))
    return by_nginx(room, FRONT, free_port(), free_port(), False, changed)


def by_nginx(room, conf, viewers, operators, has_workers, changed):
    """Starts nginx by the file `conf` with two ports, in which each pair of `changed` texts is another; answers the two ports."""
    with open(conf, encoding="utf-8") as it:
        text = it.read()
    for old, new in (*changed, ("listen 8080", f"listen 127.0.0.1:{viewers}"), ("listen 127.0.0.1:8090", f"listen 127.0.0.1:{operators}"),
                     ("/var/log/nginx", room.path), ("/var/cache/adsplice", f"{room.path}/cache"), ("/etc/nginx/snippets/adsplice-viewers.conf", f"{LIVE}/nginx-viewers.conf")):
        assert old in text, old
        text = text.replace(old, new)
    rooms = "".join(f"{it}_temp_path {room.path}/{it};\n" for it in ("client_body", "proxy", "fastcgi", "scgi", "uwsgi"))
    path = room.write("nginx.conf", f"error_log {room.path}/error.log; pid {room.path}/nginx.pid; events {{}}\nhttp {{\n{rooms}{text}\n}}\n")
    os.chmod(room.path, 0o755)
    words = "daemon off;" if has_workers else "daemon off; master_process off;"
    room.running.append(subprocess.Popen([NGINX, "-p", room.path, "-c", path, "-g", words], stdout=subprocess.DEVNULL, stderr=subprocess.DEVNULL))
    until(lambda: get(f"http://127.0.0.1:{viewers}/")[0] == 404, 10, "nginx")
    return viewers, operators


def test_another_spelling_of_a_path_is_the_same_channel(room):
    spelled_otherwise(*front(room))


def test_another_spelling_of_a_path_is_the_same_channel_at_a_front_of_machines(room):
    spelled_otherwise(*front_of_machines(room))


def test_fields_of_one_viewer_hold_up_no_other(room):
    held_by_fields(*front(room))


def test_fields_of_one_viewer_hold_up_no_other_at_a_front_of_machines(room):
    held_by_fields(*front_of_machines(room))


def held_by_fields(viewers, operators):
    """A viewer who sends more fields than adsplice takes (64), and a body, gets the newest list, and so does who comes after."""
    url, seen = f"http://127.0.0.1:{operators}/channels/news", f"http://127.0.0.1:{viewers}/channels/news/live.m3u8"
    assert put(url, b'{"base":"http://h/i.m3u8"}') == 201 and put(f"{url}/origin", listed(0, 5).encode()) == 204
    harmful = urllib.request.Request(seen, b"a body", {f"X-Field-{number}": "1" for number in range(90)}, method="GET")
    with urllib.request.urlopen(harmful, timeout=10) as it:
        assert "s5.ts" in it.read().decode()  # (it is the first one, and waits for adsplice's answer)
    assert put(f"{url}/origin", listed(1, 6).encode()) == 204
    time.sleep(2.2)  # (the cache's second, which nginx counts in whole ones)
    urllib.request.urlopen(harmful, timeout=10).close()  # (whoever asks first is answered from the cache, and has it refreshed)
    time.sleep(0.5)
    assert "s6.ts" in get(seen)[1]


def spelled_otherwise(viewers, operators):
    """Another spelling of a channel's path is answered as the usual one, also before that is in the cache."""
    assert put(f"http://127.0.0.1:{operators}/channels/news", b'{"base":"http://h/i.m3u8"}') == 201
    assert put(f"http://127.0.0.1:{operators}/channels/news/origin", listed(0, 5).encode()) == 204
    for name in ("%6eews", "n%65ws", "news"):  # (the first one is answered before the good spelling is in the cache)
        status, text = get(f"http://127.0.0.1:{viewers}/channels/{name}/live.m3u8")
        assert status == 200 and "s5.ts" in text, (name, status)
    time.sleep(1.2)
    assert get(f"http://127.0.0.1:{viewers}/channels/%6eews/live.m3u8?x=1")[0] == 200 == get(f"http://127.0.0.1:{viewers}/channels/news/live.m3u8")[0]


class Viewer:
    """A viewer of `path` at `port`, with one connection that is kept; `waits` are the seconds of each answer, `ends` its last lines."""

    def __init__(self, port, path):
        self.connection, self.path, self.waits, self.ends = http.client.HTTPConnection("127.0.0.1", port, timeout=20), path, [], []

    def read(self):
        """Reads the list once; it has to be there."""
        begun = time.monotonic()
        self.connection.request("GET", self.path)
        answer = self.connection.getresponse()
        text = answer.read().decode()
        self.waits.append(time.monotonic() - begun)
        assert answer.status == 200, answer.status
        self.ends.append(text.split()[-1].rpartition("/")[2])


def watched(port, seconds):
    """What a viewer who comes anew each time, and one who keeps the connection and asks each second, get for so many seconds."""
    path, kept, anew = "/channels/news/live.m3u8", None, []
    kept, end, asked = Viewer(port, path), time.monotonic() + seconds, 0.0
    while time.monotonic() < end:
        anew.append(Viewer(port, path))
        anew[-1].read()
        anew[-1].connection.close()
        if time.monotonic() >= asked + 1:
            asked = time.monotonic()
            kept.read()
        time.sleep(0.1)
    return [wait for it in (kept, *anew) for wait in it.waits]


def test_nobody_waits_for_a_process_that_hangs(room):
    viewers, operators = front(room)
    url, seen = f"http://127.0.0.1:{operators}/channels/news", f"http://127.0.0.1:{viewers}/channels/news/live.m3u8"
    assert put(url, b'{"base":"http://h/i.m3u8"}') == 201 and put(f"{url}/origin", listed(0, 5).encode()) == 204
    assert "s5.ts" in get(seen)[1]
    processes = room.running[:2]
    for it in processes:
        it.send_signal(signal.SIGSTOP)
    try:
        time.sleep(1.2)  # (the cache's second)
        waits = watched(viewers, HANGS)
        assert len(waits) > 10 and max(waits) < AT_ONCE, waits
        begun = time.monotonic()
        assert get(f"http://127.0.0.1:{viewers}/channels/sport/live.m3u8")[0] == 504  # (there is no last list)
        assert time.monotonic() - begun < 3, time.monotonic() - begun
    finally:
        for it in processes:
            it.send_signal(signal.SIGCONT)
    until(lambda: put(f"{url}/origin", listed(1, 6).encode()) == 204, 10, "the next list")
    until(lambda: "s6.ts" in get(seen)[1], 3, "the next list through nginx")


def test_a_body_that_is_too_long_for_its_place_is_refused_by_nginx(room):
    viewers, operators = front(room)
    url = f"http://127.0.0.1:{operators}/channels/news"
    base = b'{"base":"http://h/%s.m3u8"}'
    assert put(url, base % (b"i" * 17_000)) == 413 and put(url, base % (b"i" * 15_000)) == 201
    text = listed(0, 5)
    assert put(f"{url}/origin", text.replace("#EXT-X-VERSION:3", "#" + 3_900_000 * "x").encode()) == 204
    assert put(f"{url}/origin", text.replace("#EXT-X-VERSION:3", "#" + 4_200_000 * "x").encode()) == 413
    assert put(f"{url}/decisions", b'{"fallback":null}' + 1_000_000 * b" ") == 204 and put(f"{url}/decisions", b'{"fallback":null}' + 1_100_000 * b" ") == 413
    assert put(f"{url}/why", 2_000 * b" ") == 413
    assert put(f"http://127.0.0.1:{viewers}/channels/news/live.m3u8", 2_000 * b" ") in (403, 413)


def test_this_machine_alone_may_send(room):
    _, operators = front(room)
    for source, status in (("127.0.0.1", 201), ("127.0.0.2", 403)):
        connection = http.client.HTTPConnection("127.0.0.1", operators, timeout=10, source_address=(source, 0))
        connection.request("PUT", f"/channels/news-{source[-1]}", b'{"base":"http://h/i.m3u8"}')
        assert connection.getresponse().status == status, source
        connection.close()


def test_lines_of_a_hand_over_name_the_process(room):
    spare = free_port()
    room.adsplice(spare)
    for kind in ("sent", "read"):
        room.write(f"moved/handed.{kind}", f"film 127.0.0.1:{spare};\n\\default 127.0.0.1:{spare};\n")
    viewers, operators = front(room, f"{room.path}/moved")
    for name in ("film", "film-720", "default", "news"):
        url = f"http://127.0.0.1:{operators}/channels/{name}"
        assert put(url, b'{"base":"http://h/i.m3u8"}') == 201 and put(f"{url}/origin", listed(0, 5).encode()) == 204
        assert get(f"http://127.0.0.1:{viewers}/channels/{name}/live.m3u8")[0] == 200 == get(f"{url}/why")[0]
        assert get(f"http://127.0.0.1:{spare}/channels/{name}/live.m3u8")[0] == (404 if name == "news" else 200), name


@contextlib.contextmanager
def handed_front(room):
    """A front whose lines hand_over writes: the viewers' port, the operators', and that of a third process."""
    os.makedirs(f"{room.path}/moved")
    spare, ports = free_port(), front(room, f"{room.path}/moved", True)
    nginx = room.running[-1]
    room.adsplice(spare)
    try:
        yield *ports, spare
    finally:
        nginx.terminate()
        nginx.wait(10)


def hand_over(room, *words):
    """Runs hand_over for the channel `news` with the test's nginx; answers its status and its lines."""
    reload = f"{NGINX} -p {room.path} -c {room.path}/nginx.conf -s reload"
    done = subprocess.run([PYTHON, f"{LIVE}/hand_over", *map(str, words), "news", "--folder", f"{room.path}/moved", "--reload", reload],
                          capture_output=True, text=True, check=False, stdin=subprocess.DEVNULL, timeout=60)
    return done.returncode, done.stdout + done.stderr


def home_of(room, name):
    """The port of that of the two first processes which has a channel."""
    ports = [int(it.args[2]) for it in room.running[:2]]
    return next(it for it in ports if get(f"http://127.0.0.1:{it}/channels/{name}/live.m3u8")[0] == 200)


def list_after(room, word, text):
    """Writes the list `text` half a second after nginx's line for what is sent has a word, or, without one, is gone."""
    def is_sent():
        path = f"{room.path}/moved/handed.sent"
        if not os.path.exists(path):
            return False
        with open(path, encoding="utf-8") as it:
            found = it.read()
        return word in found if word else not found

    until(is_sent, 20, "nginx's line")
    time.sleep(0.5)
    room.write("index.m3u8", text)


def ends_with(port, text):
    """Whether the channel's list at a port has a text."""
    return text in get(f"http://127.0.0.1:{port}/channels/news/live.m3u8")[1]


def test_a_hand_over_goes_on_with_the_numbers(room):
    origin = room.write("index.m3u8", listed(0, 5, [("b1", 6, 4)]))
    room.write("decisions/b1.json", decided(("b1", 4), seconds="1"))  # (four segments in the place of two: two numbers more)
    with handed_front(room) as (viewers, operators, spare):
        feed = room.feed("--channel", "news", "--origin", origin, "--base", "http://h/i.m3u8", "--at", f"http://127.0.0.1:{operators}", "--decisions", f"{room.path}/decisions")
        feed.sees("makes the channel")
        until(lambda: ends_with(viewers, "s5.ts"), 10, "the list")
        room.write("index.m3u8", listed(1, 7, [("b1", 6, 4)]))
        old = home_of(room, "news")
        until(lambda: ends_with(old, "s7.ts"), 10, "the next list")
        for newest, here, there, more in ((8, old, spare, ()), (9, spare, old, ("--home",))):
            threading.Thread(target=list_after, args=(room, "" if more else str(there), listed(newest - 6, newest, [("b1", 6, 4)]))).start()
            status, lines = hand_over(room, here, there, *more)
            assert status == 0 and f"news: at {there}, ends with media number {newest + 2} and discontinuity number 2" in lines, (lines, feed.lines)
            assert get(f"http://127.0.0.1:{here}/channels/news/live.m3u8")[0] == 404
            until(lambda newest=newest: ends_with(viewers, f"s{newest}.ts"), 5, "the list through nginx")
        with open(f"{room.path}/moved/handed.read", encoding="utf-8") as it:
            assert it.read() == ""


test_a_hand_over_goes_on_with_the_numbers.needs = ("program", "nginx", "httpx")


def test_a_hand_over_that_no_list_follows_is_taken_back(room):
    with handed_front(room) as (_, operators, spare):
        url = f"http://127.0.0.1:{operators}/channels/news"
        assert put(url, b'{"base":"http://h/i.m3u8"}') == 201 and put(f"{url}/origin", listed(0, 5).encode()) == 204
        old = home_of(room, "news")
        status, lines = hand_over(room, old, spare, "--seconds", 1)
        assert status == 1 and f"news: stays at {old}: no playlist came to {spare}" in lines, lines
        until(lambda: put(f"{url}/origin", listed(1, 6).encode()) == 204, 5, "the next list")
        assert ends_with(old, "s6.ts") and get(f"http://127.0.0.1:{spare}/channels/news/live.m3u8")[0] == 404
        assert hand_over(room, spare, old)[1].startswith("examples/live/hand_over: news: ")


test_a_hand_over_that_no_list_follows_is_taken_back.needs = ("program", "nginx", "httpx")


def test_a_body_waits_for_no_acknowledgement_of_its_head(room):
    from adsplice_plant.web import Client
    _, operators = front(room)
    client, url, waits = Client(5), f"http://127.0.0.1:{operators}/channels/news", []
    assert client.ask("PUT", url, b'{"base":"http://h/i.m3u8"}').status == 201
    for number in range(30):
        begun = time.monotonic()
        assert client.ask("PUT", f"{url}/origin", listed(number, number + 5).encode()).status == 204
        waits.append(time.monotonic() - begun)
    client.close()
    assert min(waits) < 0.03, sorted(waits)  # (an acknowledgement that is put off takes 0.04 s each time; a busy machine, most times)


test_a_body_waits_for_no_acknowledgement_of_its_head.needs = ("program", "nginx", "httpx")


def test_types_of_the_examples(room):
    words = ["mypy", "--strict", "--scripts-are-modules", "--cache-dir", f"{room.path}/types", *(f"{it}.py" for it in TYPED), *TYPED_SCRIPTS]
    done = subprocess.run(words, cwd=LIVE, env={**os.environ, "MYPYPATH": PLANT}, capture_output=True, text=True, check=False)
    assert done.returncode == 0, done.stdout


test_types_of_the_examples.needs = ("mypy", "httpx")
