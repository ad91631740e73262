"""Tests of the door for decisions: what is kept, what is refused, and what hostile clients can't do."""
import contextlib
import http.client
import json
import os
import signal
import socket
import stat
import sys
import threading
import time

from tools import PLANT, FakeController, FakeOrigin, decided, free_port, listed, until

sys.path.insert(0, PLANT)

NEEDS = ("httpx",)
ONE = decided(("b1", 2)).encode()


class Opened:
    """A feed with a door, between a fake origin and a fake controller."""

    def __init__(self, room, door=None):
        self.origin, self.controller = room.server(FakeOrigin(listed(0, 5))), room.server(FakeController())
        self.folder, self.port = f"{room.path}/decisions", free_port()
        self.feed = room.feed("--channel", "news", "--origin", self.origin.url, "--at", self.controller.url, "--decisions", self.folder, "--door", door or f"127.0.0.1:{self.port}")
        self.feed.sees("news adsplice 204 -: the playlist is taken", 60)

    def ask(self, method, path, body=None, fields=()):
        """The status, the text and the fields of a request."""
        it = http.client.HTTPConnection("127.0.0.1", self.port, timeout=15)
        it.request(method, path, body, dict(fields))
        reply = it.getresponse()
        return reply.status, reply.read().decode(), reply

    def raw(self, data, seconds=15):
        """What is answered to the bytes `data`."""
        with socket.create_connection(("127.0.0.1", self.port), seconds) as it:
            it.sendall(data)
            found = b""
            while piece := it.recv(65536):
                found += piece
            return found

    def files(self):
        return sorted(it for it in os.listdir(self.folder) if it != "done")


def test_decision_is_kept_and_given(room):
    it = Opened(room)
    status, text, reply = it.ask("PUT", "/decisions/news/one.json", ONE)
    assert (status, text, reply.getheader("Connection")) == (201, "kept\n", "close")
    with open(f"{it.folder}/one.json", "rb") as file:
        assert file.read() == ONE
    it.feed.sees("news decisions/one.json 204 -: decides b1")
    assert it.controller.puts("decisions") == [ONE]
    other = decided(("b1", 1)).encode()
    assert it.ask("PUT", "/decisions/news/one.json", other)[:2] == (200, "kept in place of the one before\n")
    until(lambda: it.controller.puts("decisions") == [ONE, other], 5, "the other decision")
    assert it.files() == ["one.json"] and sum(" door " in line for line in it.feed.lines) == 1


def test_what_waits_is_taken_away(room):
    it = Opened(room)
    it.controller.refusals[("PUT", "decisions")] = [(422, "J2 Shape\n")]
    assert it.ask("PUT", "/decisions/news/one.json", ONE)[0] == 201
    it.feed.sees("news decisions/one.json 422")
    assert it.ask("DELETE", "/decisions/news/one.json")[:2] == (204, "") and it.files() == []
    assert it.ask("DELETE", "/decisions/news/one.json")[:2] == (404, "there is no such decision file\n")
    assert it.ask("PUT", "/decisions/news/two.json", ONE)[0] == 201
    it.feed.sees("news decisions/two.json 204")
    status, text, _ = it.ask("DELETE", "/decisions/news/two.json")
    assert status == 409 and '{"withdraw":"ID"}' in text and it.files() == ["two.json"]


def test_what_is_refused_is_one_line_and_leaves_nothing(room):
    it = Opened(room)
    wrong = ONE.replace(b'"2"', b"2")
    for method, path, body, fields, status, text in (
            ("PUT", "/decisions/news/a.json", wrong, {}, 422, "break 0, ad 0, segment 0: `duration` has to be a string, as \"2\" (J2 Shape break 0 ad 0 segment 0)"),
            ("PUT", "/decisions/news/a.json", b"", {}, 422, "the file isn't JSON"), ("PUT", "/decisions/news/a.json", b"[" * 100_000, {}, 422, "J1"),
            ("PUT", "/decisions/news/a.json", b"[0" + b",0" * 300_000 + b"]", {}, 413, "more than 250,000 commas"),
            ("PUT", "/decisions/other/a.json", ONE, {}, 404, "no channel other"), ("PUT", "/", ONE, {}, 404, "a path is"), ("PUT", "/decisions/news", ONE, {}, 404, "a path is"),
            ("PUT", "/decisions/news/../a.json", ONE, {}, 404, "a path is"), ("PUT", "/decisions/../a.json", ONE, {}, 404, "no channel .."),
            ("PUT", "/decisions/news/..%2fa.json", ONE, {}, 400, "a path is"), ("PUT", "/decisions/news/%2e%2e.json", ONE, {}, 400, "a path is"),
            ("PUT", "/decisions/news%2f..%2f/a.json", ONE, {}, 404, "no channel"), ("PUT", "/decisions/news/.a.json", ONE, {}, 400, "a path is"), ("PUT", "/decisions/news/.json", ONE, {}, 400, "a path is"),
            ("PUT", "/decisions/news/a.txt", ONE, {}, 400, "a path is"), ("PUT", "/decisions/news/a.json?x=.json", ONE, {}, 400, "a path is"), ("PUT", f"/decisions/news/{'a' * 101}.json", ONE, {}, 400, "a path is"),
            ("PUT", "/decisions/news/-a.json", ONE, {}, 400, "a path is"),
            ("PUT", "/decisions/news/a.json", ONE, {"Origin": "http://evil.example"}, 403, "pages in a browser"), ("PUT", "/decisions/news/a.json", ONE, {"Content-Length": "x"}, 400, "isn't one number"),
            ("PUT", "/decisions/news/a.json", ONE, {"Content-Length": "4194305"}, 413, "at most 4194304 bytes"), ("PUT", "/decisions/news/a.json", ONE, {"Content-Length": "9" * 30}, 413, "at most"),
            ("PUT", "/decisions/news/a.json", iter([ONE]), {}, 411, "a body needs a Content-Length"), ("PUT", "/decisions/news/a.json", ONE, {"X": "y" * 17_000}, 431, "a head has at most"),
            ("DELETE", "/decisions/news/..%2f..%2fx.json", None, {}, 400, "a path is"), ("GET", "/decisions/news/a.json", None, {}, 405, "GET"), ("POST", "/decisions/news/a.json", ONE, {}, 405, "POST")):
        found, said, reply = it.ask(method, path, body, fields)
        assert found == status and text in said and said.count("\n") == 1 and len(said) < 500, (method, path, fields, found, said)
        assert status != 405 or reply.getheader("Allow") == "PUT, DELETE"
    assert it.files() == [] and sorted(os.listdir(room.path)) == ["decisions"]
    assert not it.controller.puts("decisions")


def test_longest_body(room):
    it = Opened(room)
    body = ONE + b" " * (4_194_304 - len(ONE))
    assert it.ask("PUT", "/decisions/news/a.json", body)[0] == 201 and os.stat(f"{it.folder}/a.json").st_size == 4_194_304
    assert it.ask("PUT", "/decisions/news/b.json", body + b" ")[0] == 413 and it.files() == ["a.json"]


def test_bytes_that_are_no_request(room):
    it = Opened(room)
    for data in (b"\x16\x03\x01\x02\x00\x01\x00\r\n\r\n", b"PUT\r\n\r\n", b"PUT /decisions/news/a.json HTTP/9.9\r\n\r\n", b"PUT /" + b"a" * 70_000 + b" HTTP/1.1\r\n\r\n",
                 b"PUT / HTTP/1.1\r\n" + b"A: b\r\n" * 200 + b"\r\n", b"PUT /decisions/news/a.json HTTP/1.1\r\nContent-Length: 1\r\nContent-Length: 2\r\n\r\n{}",
                 b"PUT /decisions/news/a.json HTTP/1.1\r\nContent-Length: 2\r\nTransfer-Encoding: chunked\r\n\r\n{}"):
        found = it.raw(data)
        assert b" 4" in found[:13] or b" 505 " in found[:14], (data[:40], found[:200])
    for data in (b"", b"PUT /decisions/news/a.json HTTP/1.1\r\nContent-Le", b"PUT /decisions/news/a.json HTTP/1.1\r\nContent-Length: 99\r\n\r\n{"):
        with socket.create_connection(("127.0.0.1", it.port)) as one:
            one.sendall(data)
    assert it.ask("PUT", "/decisions/news/a.json", ONE)[0] == 201 and it.files() == ["a.json"]


def test_slow_clients_cost_neither_door_nor_channel_more_than_their_time(room):
    it = Opened(room)
    head = b"PUT /decisions/news/a.json HTTP/1.1\r\nContent-Length: 4194304\r\n\r\n"
    slow = [socket.create_connection(("127.0.0.1", it.port)) for _ in range(40)]
    begun = time.monotonic()
    for n, one in enumerate(slow):
        try:
            one.sendall(head[: 20 + 2 * n])  # (half heads, and heads whose bodies don't come)
        except OSError:
            pass  # (one that made room)
    for n in range(30):
        assert it.ask("PUT", f"/decisions/news/b{n}.json", decided((f"b{n}", 2)).encode())[0] == 201, n
    for number in (1, 2, 3):
        it.origin.text = listed(number, number + 5)
        until(lambda text=it.origin.text: it.controller.puts("origin")[-1] == text.encode(), 3, "the next list")
    while time.monotonic() < begun + 6:
        for one in slow:
            try:
                one.sendall(b"x")
            except OSError:
                pass
        assert it.ask("PUT", "/decisions/news/b0.json", decided(("b0", 2)).encode())[0] == 200
        time.sleep(0.5)
    for one in slow:
        one.close()
    assert it.files() == sorted(f"b{n}.json" for n in range(30))


def test_a_head_has_less_time_than_a_body(room):
    it = Opened(room)
    for sent, least, most in ((b"", 2.9, 7), (b"PUT /decisions/news/a.json HTTP/1.1\r\nContent-Le", 2.9, 7),
                              (b"PUT /decisions/news/a.json HTTP/1.1\r\nContent-Length: 9\r\n\r\n{", 9.9, 15)):
        begun = time.monotonic()
        with socket.create_connection(("127.0.0.1", it.port), 20) as one:
            one.sendall(sent)
            while one.recv(65_536):
                pass
        assert least < time.monotonic() - begun < most, (sent, time.monotonic() - begun)


@contextlib.contextmanager
def few_seats():
    """The module of servers, three seats for 100 bytes, and the sockets of six connections."""
    from adsplice_plant import serving
    gives_way = serving.GIVES_WAY
    pairs = [socket.socketpair() for _ in range(6)]
    try:
        serving.GIVES_WAY = 0.2
        yield serving, serving.Seats(serving.Limits(3, 10.0, 100, 100)), [here for here, _ in pairs]
    finally:
        serving.GIVES_WAY = gives_way
        for one in pairs:
            for end in one:
                end.close()


def test_the_oldest_that_is_not_whole_makes_room(room):
    with few_seats() as (serving, seats, mine):
        assert all(seats.take(one) for one in mine[:3])
        seats.go_on(mine[0], serving.Stage.ANSWERED)
        leaver = threading.Thread(target=lambda: (mine[1].recv(1), seats.leave(mine[1])))
        leaver.start()
        assert seats.take(mine[3]) and list(seats.seats) == [mine[0], mine[2], mine[3]], "the oldest of those that aren't whole"
        leaver.join()
        seats.go_on(mine[2], serving.Stage.ANSWERED)
        seats.go_on(mine[3], serving.Stage.ANSWERED)
        assert not seats.take(mine[4]), "those that are being answered stay"
        seats.go_on(mine[0], serving.Stage.ENDED)
        threading.Thread(target=lambda: (mine[0].recv(1), seats.leave(mine[0]))).start()
        assert seats.take(mine[4]) and mine[0] not in seats.seats, "one that has its answer makes room"


def test_the_oldest_whose_body_is_not_whole_makes_room_for_bytes(room):
    with few_seats() as (serving, seats, mine):
        assert seats.take(mine[0]) and seats.take(mine[1])
        seats.hold(mine[0], 30)
        seats.go_on(mine[0], serving.Stage.ANSWERED)
        seats.hold(mine[1], 60)
        try:
            seats.hold(mine[1], 20)
            raise AssertionError("more than 100 bytes")
        except serving.Refused as refusal:
            assert refusal.status == 503
        seats.leave(mine[1])
        assert seats.take(mine[2]) and seats.take(mine[3])
        seats.hold(mine[2], 50)
        seats.hold(mine[3], 40)
        assert seats.seats[mine[2]].is_given_up and not seats.seats[mine[3]].is_given_up and not seats.seats[mine[0]].is_given_up
        try:
            seats.go_on(mine[2], serving.Stage.ANSWERED)
            raise AssertionError("it made room")
        except ConnectionAbortedError:
            pass


def test_long_files_do_not_hold_up_short_ones(room):
    from adsplice_plant import admission
    it, long, found = admission.Admission({}), ONE + b" " * 262_144, []
    with it.judging_long:
        threads = [threading.Thread(target=lambda: found.append(it.judged(long))) for _ in range(4)]
        for one in threads:
            one.start()
        until(lambda: it.room._value == 0, 10, "four long files")
        assert it.judged(ONE) is None and not found
        try:
            it.judged(long)
            raise AssertionError("a fifth long file")
        except admission.Refused as refusal:
            assert refusal.status == 503 and "4 files of more than 262144 bytes" in refusal.text
    for one in threads:
        one.join()
    assert found == [None] * 4 and it.judged(long) is None


def test_files_of_a_folder_are_bounded_in_number_and_bytes(room):
    from adsplice_plant import admission
    folder, bounds = admission.Path(room.path), (admission.MOST_FILES, admission.ROOM)
    try:
        admission.MOST_FILES, admission.ROOM = 3, 5_000_000
        for name, size in (("a.json", 4_000_000), ("b.json", 900_000)):
            with open(folder / name, "wb") as one:
                one.truncate(size)
        for name, size, owed in (("c.json", 100_000, ""), ("c.json", 100_001, "the channel's decision files have 4900000 bytes, and may have 5000000"), ("b.json", 1_000_000, ""),
                                 ("b.json", 1_000_001, "the channel's decision files have 4000000 bytes, and may have 5000000")):
            assert admission.lack_of_room(folder, name, size) == owed, (name, size)
        (folder / "c.json").touch()
        assert admission.lack_of_room(folder, "d.json", 1) == "the channel has 3 decision files" and admission.lack_of_room(folder, "c.json", 1) == ""
    finally:
        admission.MOST_FILES, admission.ROOM = bounds


def test_disk_that_refuses(room):
    it = Opened(room)
    os.makedirs(f"{it.folder}/.a.json.new")  # (a folder in the way of the file)
    status, text, _ = it.ask("PUT", "/decisions/news/a.json", ONE)
    assert (status, text) == (503, "it can't be kept: Is a directory\n")
    it.feed.sees("news door 503 Unkept: .*/a.json: Is a directory; isn't taken")
    os.rmdir(f"{it.folder}/.a.json.new")
    for make in (lambda path: os.symlink("/dev/full", path), os.mkfifo):
        make(f"{it.folder}/.a.json.new")
        assert it.ask("PUT", "/decisions/news/a.json", ONE)[0] in (200, 201), "it takes the place of a link or a pipe, which nobody opens"
    assert os.path.exists("/dev/full") and it.ask("PUT", "/decisions/news/b.json", ONE)[0] == 201 and it.files() == ["a.json", "b.json"]


def test_unix_socket(room):
    path = f"{room.path}/door"
    with socket.socket(socket.AF_UNIX) as left:
        left.bind(path)  # (as a feed that was killed leaves it)
    it = Opened(room, path)
    assert stat.S_IMODE(os.stat(path).st_mode) == 0o660
    with socket.socket(socket.AF_UNIX) as one:
        one.connect(path)
        one.sendall(b"PUT /decisions/news/a.json HTTP/1.1\r\nHost: feed\r\nContent-Length: %d\r\n\r\n" % len(ONE) + ONE)
        assert one.recv(100).startswith(b"HTTP/1.1 201 Created\r\n")
    status, _, err = room.run("adsplice-feed", "--channel", "n", "--origin", "http://h/", "--at", "http://h", "--door", path)
    assert status == 1 and err == f"adsplice-feed: --door {path}: another process listens there\n", err
    assert it.feed.end(signal.SIGTERM) == 0 and not os.path.exists(path)


def test_words_of_the_door(room):
    file, port = room.write("file", ""), free_port()
    taken = socket.create_server(("127.0.0.1", port))
    for door, status, text in (("0.0.0.0:9084", 2, "isn't an address of loopback"), ("[::]:1", 2, "isn't an address of loopback"), ("ads.example:1", 2, "isn't an address of loopback"),
                               ("9084", 2, "isn't an address of loopback"), ("127.0.0.1:99999", 2, "isn't an address of loopback"), ("/" + "a" * 101, 2, "at most 100 bytes"),
                               (file, 1, "something else is there"), (f"127.0.0.1:{port}", 1, "Address already in use"), (f"{room.path}/none/door", 1, "No such file")):
        found, out, err = room.run("adsplice-feed", "--channel", "n", "--origin", "http://h/", "--at", "http://h", "--door", door)
        assert (found, out) == (status, "") and text in err and "Traceback" not in err, (door, found, err)
    taken.close()


def test_kept_file_is_on_disk_before_it_is_answered(room):
    from adsplice_plant import admission  # (of the plant's own Python)

    os.makedirs(f"{room.path}/d")
    done, real = [], (os.fsync, os.replace)
    try:
        os.fsync = lambda handle: done.append("folder" if stat.S_ISDIR(os.fstat(handle).st_mode) else "file")
        os.replace = lambda *it, **named: (done.append("rename"), real[1](*it, **named))[1]
        assert admission.keep(admission.Path(f"{room.path}/d"), "a.json", b"{}") is False
    finally:
        os.fsync, os.replace = real
    assert done == ["file", "rename", "folder"] and json.load(open(f"{room.path}/d/a.json", encoding="utf-8")) == {}
