"""Tests of adsplice-feed --check: each thing that a channel needs, as it is right and as it is wrong."""
import os
import stat

from tools import FALLBACK, FakeController, FakeOrigin, FakeServer, decided, free_port, listed

NEEDS = ("httpx",)


class AdServer(FakeServer):
    """An ad server that counts what it is asked."""

    url = property(lambda self: f"http://127.0.0.1:{self.port}/decide")

    def answer(self, method, path, body, fields):
        return 204, {}, b""


class Stranger(FakeServer):
    """A server that isn't adsplice."""

    url = property(lambda self: f"http://127.0.0.1:{self.port}")

    def answer(self, method, path, body, fields):
        return 404, {}, b"<html>nothing here</html>"


def files(path):
    """All files and folders under `path` with their times and modes."""
    found = {}
    for folder, _, names in os.walk(path):
        for name in ("", *names):
            it = os.stat(os.path.join(folder, name))
            found[os.path.join(folder, name)] = (it.st_mtime_ns, it.st_size, stat.S_IMODE(it.st_mode))
    return found


def checked(room, **settings):
    """The status and the lines of --check for the channel news with these settings, the others being right."""
    origin, controller, ads = (room.server(it) for it in (FakeOrigin(listed(0, 5)), FakeController(), AdServer()))
    os.makedirs(f"{room.path}/decisions", exist_ok=True)
    os.makedirs(f"{room.path}/kept", exist_ok=True)
    said = {"origin": origin.url, "at": controller.url, "decisions": f"{room.path}/decisions", "keep": f"{room.path}/kept", "ask": ads.url,
            "fallback": room.write("fallback.json", FALLBACK)} | settings
    path = room.write("feed.ini", "[news]\n" + "".join(f"{name} = {value}\n" for name, value in said.items() if value))
    before = files(room.path)
    status, out, err = room.run("adsplice-feed", "--check", "--config", path, "--timeout", "2.5")
    assert err == "" and files(room.path) == before, (err, set(files(room.path).items()) ^ set(before.items()))
    assert not ads.asked and not [it for it in controller.asked if it[0] != "GET"], (ads.asked, controller.asked)
    assert origin.count("GET", "/index.m3u8") <= 1
    return status, out.splitlines()


def test_all_is_right(room):
    status, lines = checked(room)
    assert status == 0 and [it.split(":")[0] for it in lines] == [f"news {it} right" for it in ("at", "decisions", "keep", "journal", "fallback", "origin", "ask")], lines
    assert "a playlist of 6 segments, with a target duration of 2 s" in lines[5] and "is not there yet" in lines[0], lines


def test_second_origin(room):
    other = room.server(FakeOrigin(listed(90, 95, name="t", target=4)))
    origin = room.server(FakeOrigin(listed(0, 5)))
    status, lines = checked(room, origin=f"{origin.url} {other.url}")
    assert status == 0 and [it.partition(" answers")[0] for it in lines if "origin" in it] == [f"news origin right: {it.url}" for it in (origin, other)], lines
    other.status = 404
    status, lines = checked(room, origin=f"{origin.url} {other.url}")
    assert status == 1 and f"news origin wrong: {other.url}: the origin answers 404" in lines, lines


def test_folders_that_the_feed_will_make(room):
    status, lines = checked(room, decisions=f"{room.path}/new/decisions", keep=f"{room.path}/new/kept")
    assert status == 0 and lines[1].endswith("/new/decisions isn't there yet, and can be made"), lines


def test_each_fault_is_a_line(room):
    silent, error, master, short = (room.server(FakeOrigin(listed(0, 5))) for _ in range(4))
    silent.mode, error.status, master.text = "silent", 503, "#EXTM3U\n#EXT-X-STREAM-INF:BANDWIDTH=1\na.m3u8\n"
    short.mode = "short"
    wrong = room.write("wrong.json", FALLBACK.replace('"2"', "2"))
    breaks = room.write("breaks.json", decided(("b1", 1)))
    cut = room.write("cut.m3u8", listed(0, 5)[:-3])
    away = free_port()
    for settings, line in (
            ({"origin": f"http://127.0.0.1:{away}/i.m3u8"}, f"news origin wrong: http://127.0.0.1:{away}/i.m3u8: Connection refused"),
            ({"origin": silent.url}, f"news origin wrong: {silent.url}: no answer within 2.5 s"),
            ({"origin": error.url}, f"news origin wrong: {error.url}: the origin answers 503"),
            ({"origin": master.url}, f"news origin wrong: {master.url}: adsplice would refuse the list: P19 "),
            ({"origin": cut, "base": "http://h/i"}, f"news origin wrong: {cut}: the playlist is cut off within its last line"),
            ({"origin": f"{room.path}/no.m3u8", "base": "http://h/i"}, f"news origin wrong: {room.path}/no.m3u8: No such file"),
            ({"at": f"http://127.0.0.1:{away}"}, f"news at wrong: http://127.0.0.1:{away}: Connection refused"),
            ({"at": room.server(Stranger()).url}, "news at wrong: .* answers 404, and not as adsplice does"),
            ({"ask": f"http://127.0.0.1:{away}/"}, f"news ask wrong: http://127.0.0.1:{away}/: Connection refused"),
            ({"fallback": wrong}, f"news fallback wrong: {wrong}: fallback, ad 0, segment 0: `duration` has to be a string"),
            ({"fallback": breaks}, f"news fallback wrong: {breaks}: it decides breaks"),
            ({"fallback": f"{room.path}/none.json"}, "news settings wrong: channel news: fallback: there is no file"),
            ({"decisions": wrong, "ask": ""}, f"news decisions wrong: {wrong} isn't a folder"),
            ({"tolerance": "11"}, "news settings wrong: channel news: tolerance is a number of seconds of at most 10, and not 11"),
            ({"target": "x"}, "news settings wrong: channel news: target is a whole number")):
        status, lines = checked(room, **settings)
        found = [it for it in lines if " wrong: " in it]
        begin, _, rest = line.partition(".*")
        assert status == 1 and len(found) == 1 and found[0].startswith(begin) and rest in found[0], (settings, lines)


def test_other_sections_are_checked_beside_a_wrong_one(room):
    origin, controller = room.server(FakeOrigin(listed(0, 5))), room.server(FakeController())
    path = room.write("feed.ini", f"[DEFAULT]\nat = {controller.url}\n[a]\norigin =\n[b]\norigin = {origin.url}\n[c]\nrenditions = 1 2\norigin = {origin.url}?{{}}\n")
    status, out, _ = room.run("adsplice-feed", "--check", "--config", path)
    assert status == 1 and [it.split(":")[0] for it in out.splitlines()] == [
        "a settings wrong", *(f"{name} {what} right" for name in ("b", "c-1", "c-2") for what in ("at", "origin"))], out


def test_a_file_that_does_not_read(room):
    status, out, err = room.run("adsplice-feed", "--check", "--config", f"{room.path}/none.ini")
    assert (status, out) == (1, "") and err == f"adsplice-feed: {room.path}/none.ini: No such file or directory\n", err


def test_folders_that_cannot_be_written(room):
    if os.getuid() == 0:
        return  # (root writes everywhere)
    os.makedirs(f"{room.path}/closed", 0o500)
    status, lines = checked(room, decisions=f"{room.path}/closed", keep=f"{room.path}/closed/kept")
    assert status == 1 and [it.split(":")[0] for it in lines if " wrong: " in it] == ["news decisions wrong", "news keep wrong"], lines
