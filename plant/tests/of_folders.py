"""Tests of the folders of decisions: what is taken of them, and what hostile entries can't do."""
import json
import os
import socket
import sys
import threading
import time
from pathlib import Path

from tools import FALLBACK, PLANT, decided, until

sys.path.insert(0, PLANT)

NEEDS = ("httpx",)
ONE = decided(("b1", 1))


class Looked:
    """A folder of decisions, and what was told of it."""

    def __init__(self, room, **more):
        from adsplice_plant.folders import DecisionFolder
        self.room, self.told = room, []
        self.path = Path(room.path, "d")
        self.path.mkdir(exist_ok=True)
        self.folder = DecisionFolder("news", self.path, 7, lambda who, status, fault, text: self.told.append(f"{who} {status} {fault}: {text}"), **more)

    def look(self):
        """The names of the files that have changed something; none if nothing did."""
        found = self.folder.look()
        return None if found is None else list(found.files)

    def write(self, name, text=ONE):
        self.room.write(f"d/{name}", text)


def test_a_look_answers_what_has_changed(room):
    it = Looked(room)
    assert (it.look(), it.look()) == ([], None)
    it.write("b.json")
    assert (it.look(), it.look()) == (["b.json"], None)
    it.write("a.json")
    os.utime(it.path / "a.json", (1, 1))
    assert it.look() == ["a.json", "b.json"], "in the order in which they were written"
    it.write("b.json", decided(("b2", 1)))
    assert it.folder.look().files["b.json"][1] == decided(("b2", 1)).encode()
    it.folder.forget()
    assert it.look() == ["a.json", "b.json"]
    os.remove(it.path / "a.json")
    assert it.look() == ["b.json"] and not it.told


def test_a_folder_that_cannot_be_read_has_lost_nothing(room):
    it = Looked(room)
    it.write("one.json")
    assert it.look() == ["one.json"]
    it.path.rename(f"{room.path}/away")
    assert it.look() is None and it.told == [f"decisions/ 0 Passed: the folder {it.path} can't be read: No such file or directory; goes on without it"]
    Path(room.path, "away").rename(it.path)
    assert it.look() is None


def test_what_is_no_file_is_passed_over_and_stops_nothing(room):
    it = Looked(room)
    Path(room.path, "secret").write_text(ONE, encoding="utf-8")
    os.symlink(f"{room.path}/secret", it.path / "link.json")
    os.symlink("/dev/zero", it.path / "zero.json")
    os.symlink("loop.json", it.path / "loop.json")
    os.mkfifo(it.path / "fifo.json")
    os.mkdir(it.path / "folder.json")
    with socket.socket(socket.AF_UNIX) as one:
        one.bind(str(it.path / "socket.json"))
    it.write("notes.txt")
    for name in ("done", "asked", ".hidden.json"):
        os.mkdir(it.path / name)
    it.write("one.json")
    begun = time.monotonic()
    assert it.look() == ["one.json"] and time.monotonic() - begun < 1
    assert sorted(line.split(" ")[0] for line in it.told) == [f"decisions/{name}" for name in ("fifo.json", "folder.json", "link.json", "loop.json", "notes.txt", "socket.json", "zero.json")]
    assert "decisions/link.json 0 Passed: it is a link, which isn't followed; passes over it" in it.told
    os.remove(it.path / "one.json")
    os.symlink(f"{room.path}/secret", it.path / "one.json")
    assert it.look() is None, "what it had stays until there is another file, or none"


def test_files_are_bounded_in_their_number_and_their_bytes(room):
    from adsplice_plant import folders
    bounds = folders.MOST_FILES, folders.ROOM, folders.MOST_ENTRIES
    try:
        folders.MOST_FILES, folders.ROOM = 3, 10_000
        it = Looked(room)
        for n in range(5):
            it.write(f"{n}.json")
            os.utime(it.path / f"{n}.json", (n + 1, n + 1))
        assert it.look() == ["0.json", "1.json", "2.json"] and len(it.told) == 2 and "is beyond the 3 files or the 10000 bytes" in it.told[0]
        os.remove(it.path / "0.json")
        it.write("2.json", ONE + " " * 20_000)
        assert it.look() == ["1.json", "2.json", "3.json"], "what it had stays"
        assert len(it.folder.files["2.json"][1]) == len(ONE)
        folders.MOST_ENTRIES = 2
        assert it.look() is None and any("has over 2 entries" in line for line in it.told)
        with open(it.path / "long.json", "wb") as one:
            one.truncate(4_194_305)
    finally:
        folders.MOST_FILES, folders.ROOM, folders.MOST_ENTRIES = bounds
    it.look()
    assert any("long.json 0 Passed: it has 4194305 bytes, over 4194304" in line for line in it.told)


def test_a_file_that_would_cost_the_judge_much_is_looked_at_once(room):
    from adsplice_plant import folders
    it, seen, real, mine = Looked(room), [], folders.read, threading.get_ident()
    it.write("long.json", "[0" + ",0" * 250_001 + "]")
    it.write("one.json")
    try:
        folders.read = lambda name, *more, **named: (threading.get_ident() == mine and seen.append(name)) or real(name, *more, **named)  # (others are tried beside it)
        assert (it.look(), it.look(), it.look()) == (["one.json"], None, None) and sorted(seen) == ["long.json", "one.json"], seen
        assert it.told == ["decisions/long.json 0 Passed: it has more than 250,000 commas; passes over it"] * 3
        it.write("long.json")
        assert sorted(it.look()) == ["long.json", "one.json"]
    finally:
        folders.read = real


def test_pipes_that_are_swapped_in_hold_nobody_up(room):
    # (a file and a pipe are renamed to one name by turns, so that the look finds a file and opens a pipe now and then)
    it, begun, ending = Looked(room), time.monotonic(), threading.Event()

    def swap():
        n = 0
        while not ending.is_set():
            n += 1
            aside = it.path / f".{n}"
            os.mkfifo(aside) if n % 2 else aside.write_text(ONE, encoding="utf-8")
            os.replace(aside, it.path / "one.json")

    thread = threading.Thread(target=swap, daemon=True)
    thread.start()
    it.write("two.json")
    try:
        for _ in range(3000):
            it.folder.look()
            assert "two.json" in it.folder.files
    finally:
        ending.set()
        thread.join()
    assert time.monotonic() - begun < 60


def test_what_is_over_is_moved_unless_it_was_written_anew(room):
    it = Looked(room)
    for name in ("one.json", "two.json"):
        it.write(name)
    it.look()
    it.folder.finish("one.json")
    it.write("two.json", decided(("b2", 1)))
    it.folder.finish("two.json")
    assert it.look() == ["two.json"] and os.listdir(it.path / "done") == ["one.json"] and not it.told
    os.utime(it.path / "done" / "one.json", (1, 1))
    it.folder.cleaned = float("-inf")
    it.folder.finish("two.json")
    assert os.listdir(it.path / "done") == ["two.json"] and it.look() is None


def test_folders_that_are_links_are_refused(room):
    from adsplice_plant.asking import Asker
    from adsplice_plant.breaks import Break
    from adsplice_plant.events import Ask
    it, other = Looked(room), Path(room.path, "other")
    other.mkdir()
    for name in ("done", "asked"):
        os.symlink(other, it.path / name)
    it.write("one.json")
    it.look()
    it.folder.finish("one.json")
    assert not os.listdir(other) and it.look() is None and os.path.exists(it.path / "one.json")
    assert it.told[2] == f"decisions/done 0 Unkept: {it.path}/done: Not a directory; files that are over stay in the folder", it.told
    told, vain = [], []
    asker = Asker("news", "folder", 1.0, None, {"": it.path}, lambda *said: told.append(said), lambda name: False, None, vain.append)
    asker.ask(Ask((Break("b9", 10**9, 1, "splice_insert"),), 2, 0))
    until(lambda: vain == ["b9"], 5, "the end of its trials")
    assert not os.listdir(other) and [it[2] for it in told] == ["Unkept"], told


def test_a_fallback_is_read_when_it_changes(room):
    from adsplice_plant.folders import Fallback
    told, path = [], Path(room.path, "f.json")
    it = Fallback("news", path, lambda *said: told.append(said))
    assert (it.look().body, it.look()) == (None, None) and "No such file" in told.pop()[3]
    room.write("f.json", FALLBACK)
    assert (it.look().body, it.look()) == (FALLBACK.encode(), None) and not told
    room.write("f.json", ONE)
    assert it.look().body is None and "it has `breaks` and no `fallback`; goes on without it" in told.pop()[3]
    room.write("f.json", '{"fallback":[' + "," * 250_001 + "]}")
    assert it.look().body is None and "it has more than 250,000 commas; goes on without it" in told.pop()[3]
    room.write("f.json", '{"fallback":[' + " " * 262_144 + "]}")
    assert it.look().body is None and "it has 262159 bytes, over 262144; goes on without it" in told.pop()[3]
    os.remove(path)
    os.mkfifo(path)
    assert it.look().body is None and "it is no regular file" in told.pop()[3]
    os.remove(path)
    assert (it.look().body, it.look()) == (None, None) and not told


def test_questions_are_written_whoever_waits_with_links(room):
    from adsplice_plant.bounded_files import made, opened, write
    it, secret = Looked(room), Path(room.path, "secret")
    secret.write_text("mine", encoding="utf-8")
    os.symlink(secret, it.path / ".q.json.new")
    os.symlink(secret, it.path / "q.json")
    with opened(it.path) as folder, made("asked", folder) as asked:
        write("q.json", b"{}", folder)
        os.mkfifo(".r.json.new", dir_fd=asked)
        write("r.json", b"{}", asked)
    assert secret.read_text(encoding="utf-8") == "mine" and json.loads((it.path / "q.json").read_bytes()) == {}
    assert sorted(os.listdir(it.path / "asked")) == ["r.json"]
    until(lambda: it.look() == ["q.json"], 2)
