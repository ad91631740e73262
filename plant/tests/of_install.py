"""Tests of ./install, with a built program: what it copies, and what a package of it holds."""
import hashlib
import os
import re
import shutil
import subprocess

from tools import PLANT, PYTHON, decided

NEEDS = ("program",)
ROOT = os.path.dirname(PLANT)


def install(*words):
    """Runs ./install: its status, standard output and standard error."""
    it = subprocess.run([f"{ROOT}/install", *words], capture_output=True, text=True, check=False, stdin=subprocess.DEVNULL)
    return it.returncode, it.stdout, it.stderr


def test_program_and_plant_in_a_folder(room):
    to = f"{room.path}/a b"
    assert install("--program", room.program, to) == (0, f"{to}/adsplice\n", "")
    names = [f"{to}/adsplice-{it}" for it in ("feed", "pod", "explain", "monitor", "decide", "condition")]
    assert install("--plant", to) == (0, "\n".join(names) + "\n", "")
    with open(room.program, "rb") as it, open(f"{to}/adsplice.build", encoding="ascii") as build:
        said = dict(line.rstrip("\n").split(" ", 1) for line in build)
        assert said["sha256"] == hashlib.sha256(it.read()).hexdigest() and set(said) == {"version", "commit", "date", "sha256"}, said
    assert {"nginx.conf", "nginx-viewers.conf", "as-run.logrotate", "monitor", "adsplice_plant", "adsplice_rules"} <= set(os.listdir(to)) and "alerts.yml" in os.listdir(f"{to}/monitor")
    assert sorted(os.listdir(f"{to}/replicas")) == ["etcd", "front", "keepalived.conf", "nginx.conf", "ready"] and os.access(f"{to}/replicas/ready", os.X_OK)
    file = room.write("d.json", decided(("b1", 1)))
    done = subprocess.run([PYTHON, f"{to}/adsplice-pod", "--check", file], capture_output=True, text=True, check=False)
    assert (done.returncode, done.stdout) == (0, f"{file}: right\n"), done  # (by the program beside it)


def build_of(folder):
    """What the adsplice.build in `folder` says."""
    with open(f"{folder}/adsplice.build", encoding="ascii") as it:
        return dict(line.rstrip("\n").split(" ", 1) for line in it)


def test_build_is_the_programs_own(room):
    first, second, third = (f"{room.path}/{it}" for it in ("first", "second", "third"))
    assert install("--program", room.program, first)[0] == 0
    said = build_of(first) | {"version": "7.0.0", "commit": "abc123 changed"}  # (as whoever built it wrote it)
    with open(f"{first}/adsplice.build", "w", encoding="ascii") as it:
        it.write("".join(f"{name} {value}\n" for name, value in said.items()))
    assert install("--program", f"{first}/adsplice", second)[0] == 0
    assert (build_of(second)["version"], build_of(second)["commit"]) == ("7.0.0", "abc123 changed"), build_of(second)
    with open(f"{second}/adsplice", "ab") as it:
        it.write(b"\n")  # (another program, beside which the file stands)
    assert install("--program", f"{second}/adsplice", third)[0] == 0
    assert (build_of(third)["version"], build_of(third)["commit"]) == ("unknown", "unknown") and build_of(third)["sha256"] != build_of(second)["sha256"]


def test_package(room):
    if not shutil.which("dpkg-deb"):
        return
    status, path, err = install("--deb", "--program", room.program, f"{room.path}/deb")
    assert status == 0 and err == "" and path.rstrip().endswith(".deb"), (status, path, err)
    listed = subprocess.run(["dpkg-deb", "-c", path.rstrip()], capture_output=True, text=True, check=True).stdout
    for name in ("./usr/bin/adsplice ->", "./usr/bin/adsplice-feed ->", "./lib/systemd/system/adsplice@.service", "./lib/systemd/system/adsplice-feed.service",
                 "./usr/lib/adsplice/adsplice.build", "./usr/share/adsplice/nginx.conf", "./usr/share/adsplice/nginx-viewers.conf", "./usr/share/adsplice/replicas/ready", "./usr/share/doc/adsplice/REPLICAS.md", "./usr/bin/adsplice-decide ->", "./usr/bin/adsplice-condition ->", "./etc/adsplice/decide.ini", "./etc/logrotate.d/adsplice", "./lib/systemd/system/adsplice-decide.service", "./usr/share/man/man1/adsplice-decide.1.gz",
                 "./usr/share/doc/adsplice/ADS.md", "./usr/share/man/man1/adsplice.1.gz", "./etc/adsplice/feed.ini",
                 "./usr/share/doc/adsplice/DECISION_FILES.md", "./usr/share/doc/adsplice/operating/faults.md", "./usr/lib/adsplice/adsplice_plant/programme.py", "./usr/lib/adsplice/adsplice_rules/channel.py"):
        assert name in listed, name
    subprocess.run(["dpkg-deb", "-x", path.rstrip(), f"{room.path}/out"], check=True)
    pages = f"{room.path}/out/usr/share/doc/adsplice/operating"
    for page in os.listdir(pages):  # (what these pages name beside themselves is there; README and CHANGELOG of the repository are elsewhere)
        with open(f"{pages}/{page}", encoding="utf-8") as it:
            away = [link for link in re.findall(r"\]\(([^)#:]+)", it.read()) if not link.startswith("../../") and not os.path.exists(f"{pages}/{link}")]
        assert not away, (page, away)
    with open(f"{room.path}/out/lib/systemd/system/adsplice@.service", encoding="utf-8") as it:
        assert "ExecStart=/usr/lib/adsplice/adsplice live %i" in it.read()
    with open(f"{room.path}/out/lib/systemd/system/adsplice-monitor.service", encoding="utf-8") as it:
        assert "ExecStart=/usr/lib/adsplice/adsplice-monitor --config /etc/adsplice/feed.ini --viewers http://127.0.0.1:8080 " in it.read()


def test_package_has_no_fault_by_lintian(room):
    if not shutil.which("dpkg-deb") or not shutil.which("lintian"):
        return
    path = install("--deb", "--program", room.program, f"{room.path}/deb")[1].rstrip()
    said = subprocess.run(["lintian", "--tag-display-limit", "0", path], capture_output=True, text=True, check=False, env={**os.environ, "TMPDIR": room.path}).stdout
    assert not [line for line in said.split("\n") if line.startswith("E:") or "systemctl" in line], said


class Machine:
    """A machine in a folder of the test, on which the package's scripts run with Debian's own helpers; `systemctl` is a stand-in."""

    def __init__(self, room):
        self.room, self.root, self.units = room, f"{room.path}/root", ("adsplice-feed.service", "adsplice-monitor.service", "adsplice-decide.service", "adsplice.target")
        os.makedirs(f"{self.root}/lib/systemd/system")
        os.makedirs(f"{room.path}/run")
        for it in self.units:
            shutil.copy(f"{PLANT}/systemd/{it}", f"{self.root}/lib/systemd/system/{it}")
        self.running = set()
        for name in ("adduser", "install", "chown"):
            self.stand_in(name, f'echo {name} "$@" >>{room.path}/did')
        self.stand_in("systemctl", f"""for it; do last=$it; done
echo "$@" >>{room.path}/asked
case "$*" in
*is-enabled*) [ -L {self.root}/etc/systemd/system/multi-user.target.wants/$last ] && echo enabled || echo disabled ;;
*is-active*) grep -qx "$last" {room.path}/running ;;
esac""")

    def stand_in(self, name, text):
        """A program of the name `name` that does what `text` says."""
        os.makedirs(f"{self.room.path}/bin", exist_ok=True)
        path = self.room.write(f"bin/{name}", f"#!/bin/sh\n{text}\n")
        os.chmod(path, 0o755)

    def enable(self, unit, is_on=True):
        """What an admin does by `systemctl enable` and `disable`."""
        path = f"{self.root}/etc/systemd/system/multi-user.target.wants/{unit}"
        os.makedirs(os.path.dirname(path), exist_ok=True)
        if is_on:
            os.symlink(f"/lib/systemd/system/{unit}", path)
        else:
            os.unlink(path)

    def configure(self, before="", running=()):
        """Runs postinst over the version `before` while the units `running` run; answers which are enabled, and what systemctl was told to do."""
        with open(f"{PLANT}/debian/postinst", encoding="utf-8") as it:
            text = it.read().replace("/run/systemd/system", f"{self.room.path}/run").replace("/var/lib/adsplice", f"{self.room.path}/state").replace("/etc/adsplice", f"{self.room.path}/etc")
        os.makedirs(f"{self.room.path}/state/kept", exist_ok=True)
        self.room.write("running", "".join(f"{it}\n" for it in running))
        self.room.write("asked", "")
        done = subprocess.run(["sh", self.room.write("postinst", text), "configure", before], capture_output=True, text=True, check=False, env={
            "PATH": f"{self.room.path}/bin:/usr/bin:/bin", "DPKG_ROOT": self.root, "DPKG_MAINTSCRIPT_PACKAGE": "adsplice", "DPKG_MAINTSCRIPT_NAME": "postinst"})
        assert done.returncode == 0, done
        with open(f"{self.room.path}/asked", encoding="utf-8") as it:
            asked = [line.split() for line in it]
        enabled = {it for it in self.units if os.path.lexists(f"{self.root}/etc/systemd/system/multi-user.target.wants/{it}")}
        return enabled, [" ".join(it for it in line if not it.startswith("-")) for line in asked if {"start", "restart", "try-restart"} & set(line)]


def test_what_an_admin_disabled_or_stopped_stays_so_at_an_upgrade(room):
    if not shutil.which("deb-systemd-helper"):
        return
    machine = Machine(room)
    first = machine.configure()
    assert first == ({"adsplice.target"}, ["start adsplice.target"]), first
    tried = ["try-restart adsplice@8081.service", "try-restart adsplice@8082.service", "try-restart adsplice-feed.service adsplice-monitor.service adsplice-decide.service"]
    assert machine.configure("0.1") == ({"adsplice.target"}, tried)
    machine.enable("adsplice-feed.service")
    assert machine.configure("0.1") == ({"adsplice.target", "adsplice-feed.service"}, tried)  # (systemctl starts none that doesn't run by these)
    machine.enable("adsplice-feed.service", False)
    machine.enable("adsplice.target", False)
    assert machine.configure("0.1") == (set(), tried)
    assert machine.configure("0.2", ["adsplice@8081.service"]) == (set(), tried)


test_what_an_admin_disabled_or_stopped_stays_so_at_an_upgrade.needs = ()


def test_settings_and_what_is_kept_are_read_by_the_group_alone(room):
    if not shutil.which("deb-systemd-helper"):
        return
    machine = Machine(room)
    settings, deciding, kept = room.write("etc/feed.ini", ""), room.write("etc/decide.ini", ""), room.write("state/kept/news.events", "")
    for path in (settings, deciding, kept):
        os.chmod(path, 0o644)
    machine.configure()
    assert [os.stat(path).st_mode & 0o777 for path in (settings, deciding, kept)] == [0o640, 0o640, 0o640]
    with open(f"{room.path}/did", encoding="utf-8") as it:
        did = it.read()
    assert f"chown root:adsplice {settings}\n" in did and f"chown root:adsplice {deciding}\n" in did
    for path in (settings, deciding):
        os.chmod(path, 0o600)
    machine.configure("0.1")
    assert [os.stat(path).st_mode & 0o777 for path in (settings, deciding)] == [0o600, 0o600], "what an admin made of it stays"
    with open(f"{ROOT}/install", encoding="utf-8") as it:
        text = it.read()
    for name in ("feed", "decide"):
        assert f"install -o root -g adsplice -m 640 \"$here/plant/systemd/{name}.ini\" /etc/adsplice/{name}.ini" in text, name


test_settings_and_what_is_kept_are_read_by_the_group_alone.needs = ()


def test_purge_leaves_the_as_run_log_and_nothing_else(room):
    stays = ["as-run.jsonl", "as-run.jsonl-20261101", "as-run.jsonl.1"]
    for name in (*stays, "as-run.jsonl.seen", "kept/news.log", "decisions/news/b.json", "ads/CAR/ad.json", ".hidden"):
        room.write(f"state/{name}", "")
    with open(f"{PLANT}/debian/postrm", encoding="utf-8") as it:
        text = it.read().replace("/var/lib/adsplice", f"{room.path}/state").replace("/etc/", f"{room.path}/etc/").replace("/var/cache/adsplice", f"{room.path}/cache").replace("deluser", "true").replace("deb-systemd-helper", "true")
    script = room.write("postrm", text)
    done = subprocess.run(["sh", script, "purge"], capture_output=True, text=True, check=False)
    assert done.returncode == 0 and sorted(os.listdir(f"{room.path}/state")) == stays and "The as-run log stays" in done.stdout, (done, os.listdir(f"{room.path}/state"))
    for name in stays:
        os.remove(f"{room.path}/state/{name}")
    done = subprocess.run(["sh", script, "purge"], capture_output=True, text=True, check=False)
    assert done.returncode == 0 and not done.stdout and not os.path.exists(f"{room.path}/state"), done
    assert subprocess.run(["sh", script, "purge"], check=False).returncode == 0


test_purge_leaves_the_as_run_log_and_nothing_else.needs = ()


WRITES = """import os, sys
from pathlib import Path
sys.path.insert(0, sys.argv[1])
from adsplice_plant import journal, locks, whole_files
os.chdir(sys.argv[2])
os.umask(0o002)
journal.append("news.events", b"a")
locks.Lock(Path("news.lock")).take()
whole_files.write_aside(Path("news.log"), b"a")
for make in (lambda path: os.symlink("news.lock", path), os.mkfifo, os.mkdir):
    make(".film.m3u8.new")
    try:
        whole_files.write_aside(Path("film.m3u8"), b"a", whole_files.VIEWERS_MODE)  # (nobody waits for a pipe, or follows a link)
        sys.exit("it was written")
    except OSError:
        (os.rmdir if os.path.isdir(".film.m3u8.new") else os.unlink)(".film.m3u8.new")
os.umask(0o077)
whole_files.write_aside(Path("film.m3u8"), b"a", whole_files.VIEWERS_MODE)
"""


def test_files_that_the_feed_writes_are_read_by_the_group_alone(room):
    subprocess.run([PYTHON, "-B", "-c", WRITES, PLANT, room.path], check=True, timeout=60)  # (a process has one umask)
    modes = {name: os.stat(f"{room.path}/{name}").st_mode & 0o777 for name in ("news.events", "news.lock", "news.log", "film.m3u8")}
    assert modes == {"news.events": 0o640, "news.lock": 0o640, "news.log": 0o640, "film.m3u8": 0o644}, modes


test_files_that_the_feed_writes_are_read_by_the_group_alone.needs = ()


def test_units_are_bounded_and_closed(room):
    for path, exposure in ((f"{PLANT}/systemd/adsplice-feed.service", 13), (f"{PLANT}/systemd/adsplice-monitor.service", 13), (f"{PLANT}/systemd/adsplice-decide.service", 15), (f"{ROOT}/examples/live/adsplice@.service", 9)):
        with open(path, encoding="utf-8") as it:
            text = it.read()
        assert "\nMemoryMax=" in text and "\nTasksMax=" in text, path
        if shutil.which("systemd-analyze"):
            done = subprocess.run(["systemd-analyze", "security", "--offline=true", f"--threshold={exposure}", path], capture_output=True, text=True, check=False)
            assert done.returncode == 0, (path, [line for line in done.stdout.split("\n") if "\u2717" in line or "Overall" in line], done.stderr)


test_units_are_bounded_and_closed.needs = ()


def test_maintainer_scripts_read(room):
    for name in ("postinst", "prerm", "postrm"):
        assert subprocess.run(["sh", "-n", f"{PLANT}/debian/{name}"], check=False).returncode == 0, name


def test_wrong_words(room):
    for words, status, text in (([], 2, "usage: ./install"), (["--plant"], 2, "usage"), (["--nothing", "x"], 2, "usage"), (["a", "b"], 2, "usage"),
                                (["--program", "/nowhere", room.path], 1, "isn't a program")):
        found, out, err = install(*words)
        assert (found, out) == (status, "") and text in err and err.count("\n") == 1, (words, found, err)
