"""Tests of feeds on several machines with real etcd, if that is installed, and days of several machines."""
import dataclasses
import json
import os
import shutil
import signal
import subprocess
import sys
import time

from etcds import Built, Etcds, Group, needs
from of_lists import URL
from tools import FALLBACK, PLANT, FakeServer, RulesController, apart, decided, until

sys.path.insert(0, PLANT)
import simulated  # noqa: E402
from adsplice_plant.etcd import Delete, Put, Refused  # noqa: E402
from adsplice_plant.members import FORMAT_KEY  # noqa: E402
from adsplice_plant.shared_log import Outrun, SharedLog, lead_key, line_key  # noqa: E402
from simulation.named import CALM  # noqa: E402
from simulation.plan import Fault  # noqa: E402

NEEDS = ("httpx",)


@needs("httpx", "etcd")
def test_real_machines_write_the_same(room):
    etcds = Etcds(room, 1)
    group = Group(room, etcds.text())
    group.settled()
    group.step(4)
    group.settled()


@needs("httpx", "etcd")
def test_a_machine_that_leads_is_lost_and_comes_back(room):
    etcds = Etcds(room, 1)
    group = Group(room, etcds.text(), more="ask = folder\n")
    group.settled()
    first = group.leader()
    group.kill(first)
    group.controllers[first].kill()
    others = [it for it in range(3) if it != first]
    group.step(5)
    group.settled(*others)
    group.start(first)
    group.step(3)
    group.settled()


@needs("httpx", "etcd")
def test_a_machine_that_was_away_catches_up_at_once(room):
    etcds = Etcds(room, 1)
    group = Group(room, etcds.text(), 2)
    group.settled()
    follower = 1 - group.leader()
    group.step(3)
    group.kill(follower)
    group.step(24, 0.5)
    group.start(follower)
    group.feeds[follower].sees("goes on with it")
    begun = time.monotonic()
    group.settled(follower)
    assert time.monotonic() - begun < 4, "24 lists that it missed wait for nothing but its controller"


@needs("httpx", "etcd")
def test_a_machine_shows_that_a_channel_of_it_is_behind(room):
    etcds = Etcds(room, 1)
    group = Group(room, etcds.text(), 2)
    group.settled()
    flags = [f"{room.path}/m{place}/kept/news.behind" for place in range(2)]
    until(lambda: not any(map(os.path.exists, flags)), 5, "both machines without the file")
    for place in range(2):  # (one of them leads)
        group.controllers[place].away.add("news")
        group.step(4)
        assert os.path.exists(flags[place]) and not os.path.exists(flags[1 - place]), "its controller doesn't answer"
        group.controllers[place].away.clear()
        group.settled()
        until(lambda it=flags[place]: not os.path.exists(it), 5, f"no file {flags[place]}")
    group.kill(1, signal.SIGTERM)
    assert os.path.exists(flags[1]), "nobody gives it lists any more"
    group.kill(0)
    with open(f"{room.path}/m0/feed.ini", encoding="utf-8") as it:
        text = it.read()
    room.write("m0/feed.ini", text.replace(f"store = {group.store}\nmachine = m0\n", ""))
    open(flags[0], "wb").close()
    group.feeds[0] = room.feed("--config", f"{room.path}/m0/feed.ini")
    until(lambda: not os.path.exists(flags[0]), 10, "a machine by itself without the file")


@needs("httpx", "etcd")
def test_a_feed_that_ends_gives_its_leads_up_at_once(room):
    etcds = Etcds(room, 1)
    group = Group(room, etcds.text())
    group.settled()
    first = group.leader()
    others = [it for it in range(3) if it != first]
    begun = time.monotonic()
    assert group.feeds[first].end(signal.SIGTERM) == 0
    until(lambda: any(" lead - Leads" in line for it in others for line in group.feeds[it].lines), 10, "another one that leads")
    assert time.monotonic() - begun < 1.9, "nobody waits for the end of its lease, which lasts 2 s"
    group.step(2)
    group.settled(*others)
    etcds.kill(0)
    begun = time.monotonic()
    assert group.feeds[others[0]].end(signal.SIGINT) == 0 and time.monotonic() - begun < 8, "without a store it ends, too"


@needs("httpx", "etcd")
def test_a_machine_that_runs_already_comes_to_a_store(room):
    group = Group(room, "", 1, "fallback = FALLBACK\n".replace("FALLBACK", room.write("fallback.json", FALLBACK.replace('"2"', '"1"'))))
    group.settled()
    group.breaks = (("b1", 12, 4),)
    group.step(9)
    group.settled()
    assert "ads.example/f-0.ts" in group.controllers[0].shown("news")
    group.kill(0, signal.SIGTERM)
    etcds = Etcds(room, 1)
    group.store = etcds.text()
    group.start(0)
    group.feeds[0].sees(" lead - Leads")
    group.step(3)
    group.settled()
    group.controllers.append(room.server(RulesController()))
    group.feeds.append(None)
    group.start(1)
    group.step(4)
    group.settled()
    assert not any(" replica - " in line for it in group.feeds for line in it.lines), "nothing was made anew"


@needs("httpx", "etcd")
def test_a_section_that_is_new_or_gone(room):
    etcds = Etcds(room, 1)
    group = Group(room, etcds.text(), 2)
    group.settled()
    for place in range(2):
        path = f"{room.path}/m{place}/feed.ini"
        with open(path, encoding="utf-8") as it:
            text = it.read()
        room.write(f"m{place}/feed.ini", text + f"[sport]\norigin = {group.origin.url}\nbase = {URL}\n")
        group.feeds[place].process.send_signal(signal.SIGHUP)
    until(lambda: all(f"s{group.last}.ts" in it.shown("sport") for it in group.controllers), 20, "the new channel on both")
    assert group.controllers[0].shown("sport") == group.controllers[1].shown("sport")
    for place in range(2):
        with open(f"{room.path}/m{place}/feed.ini", encoding="utf-8") as it:
            text = it.read()
        room.write(f"m{place}/feed.ini", text.partition("[news]")[0] + "[sport]" + text.partition("[sport]")[2])
        group.feeds[place].process.send_signal(signal.SIGHUP)
        group.feeds[place].sees("ends news", 20)
    until(lambda: not etcds.keys().read(lead_key("news"))[1], 10, "nobody leads what nobody feeds")


@needs("httpx", "etcd")
def test_a_feed_that_was_stopped_writes_nothing(room):
    etcds = Etcds(room, 1)
    group = Group(room, etcds.text())
    group.settled()
    first = group.leader()
    group.feeds[first].process.send_signal(signal.SIGSTOP)
    group.step(6)
    group.settled(*(it for it in range(3) if it != first))
    group.feeds[first].process.send_signal(signal.SIGCONT)
    group.step(4)
    group.settled()


@needs("httpx", "etcd")
def test_a_decision_comes_by_the_folder_of_any_machine(room):
    etcds = Etcds(room, 1)
    group = Group(room, etcds.text())
    group.settled()
    group.breaks = (("b1", 14, 4),)
    follower = next(it for it in range(3) if it != group.leader())
    path = room.write(f"m{follower}/decisions/b1.json", decided(("b1", 4), seconds="1"))
    group.step(10)
    group.settled()
    assert all("ads.example/b1-3.ts" in it.shown("news") for it in group.controllers), group.controllers[0].shown("news")
    group.breaks = ()
    group.step(14, 0.6)
    group.settled()
    until(lambda: not os.path.exists(path), 10, "the file's way to done")
    assert os.path.exists(f"{room.path}/m{follower}/decisions/done/b1.json")


class AdServer(FakeServer):
    """An ad server that answers no question until it `is_there`."""

    is_there = False

    def answer(self, method, path, body, fields):
        return (200, {}, decided((json.loads(body)["id"], 4), seconds="1").encode()) if self.is_there else None


@needs("httpx", "etcd")
def test_a_question_that_is_open_when_a_machine_is_lost_is_asked_again(room):
    etcds, ads = Etcds(room, 1), room.server(AdServer())
    group = Group(room, etcds.text(), more=f"ask = http://127.0.0.1:{ads.port}/\n")
    group.settled()
    group.breaks = (("b1", 24, 4),)
    group.step(2)
    first = group.leader()
    until(lambda: ads.asked, 10, "the question")
    group.kill(first)
    ads.is_there, others = True, [it for it in range(3) if it != first]
    group.step(18)
    group.settled(*others)
    assert all("ads.example/b1-3.ts" in group.controllers[it].shown("news") for it in others), group.controllers[others[0]].shown("news")


@needs("httpx", "etcd")
def test_members_of_etcd_are_lost(room):
    etcds = Etcds(room, 3)
    group = Group(room, etcds.text())
    group.settled()
    etcds.kill(0)
    group.step(5)
    group.settled()
    etcds.kill(1)
    before = group.newest()
    group.step(5)
    assert all(int(it[1:-3]) <= int(old[1:-3]) + 1 for it, old in zip(group.newest(), before)), "without a majority nothing is given"
    etcds.start(0)
    group.step(4)
    group.settled(seconds=30)
    assert all("nothing is given until it goes again" in "\n".join(it.lines) for it in group.feeds)


@needs("httpx", "etcd")
def test_an_etcd_that_is_full(room):
    etcds = Etcds(room, 1, "--quota-backend-bytes", str(2 << 20))
    group = Group(room, etcds.text())
    group.settled()
    keys, place = etcds.keys(), 0
    try:
        while place < 200:
            keys.change([], [Put(f"/other/{place}", os.urandom(60_000))])
            place += 1
    except Refused as fault:
        assert "database space exceeded" in str(fault), fault
    before = group.newest()
    group.step(4)
    assert group.newest() == before, "nothing is given"
    assert any("database space exceeded" in line for line in group.feeds[group.leader()].lines), group.feeds[group.leader()].lines


@needs("httpx", "etcd")
def test_keys_of_somebody_else(room):
    etcds = Etcds(room, 1)
    keys = etcds.keys()
    keys.change([], [Put(FORMAT_KEY, b"adsplice 2")])
    group = Group(room, etcds.text(), 1)
    group.feeds[0].sees("feed store - Foreign: /adsplice/format says 'adsplice 2'")
    time.sleep(1)
    assert group.controllers[0].shown("news") == ""
    keys.change([], [Delete(FORMAT_KEY), Put(line_key("news", 1), b'{"format":99,"name":"news","line":0}')])
    group.feeds[0].sees("news log - Unkept: the store can't be read: /adsplice/log/news/0{15}1: format 99, of a newer feed")
    time.sleep(1)
    assert group.controllers[0].shown("news") == "" and len([it for it in group.feeds[0].lines if "newer feed" in it]) == 1, group.feeds[0].lines


@needs("httpx", "etcd")
def test_status_and_check_of_real_machines(room):
    etcds = Etcds(room, 3)
    group = Group(room, etcds.text(), 2)
    group.settled()
    words = ("--config", f"{room.path}/m0/feed.ini")
    code, out, _ = room.run("adsplice-feed", *words, "--status")
    assert code == 0 and "store: all members serve\n" in out and f"news: led by m{group.leader()}\n" in out and "m0: 1 programmes" in out and "m1: 1 programmes" in out, out
    code, out, _ = room.run("adsplice-feed", *words, "--check")
    assert "feed store right: all members serve, and have a majority\n" in out and "feed settings wrong: m1 has other settings of news" in out, out  # (each has folders of its own here)
    etcds.kill(2)
    code, out, _ = room.run("adsplice-feed", *words, "--status")
    assert code == 1 and f"store: {etcds.addresses()[2]} doesn't serve" in out and "news: led by" in out, out
    etcds.kill(1)
    code, out, _ = room.run("adsplice-feed", *words, "--status")
    assert code == 1 and out.count("doesn't serve") == 3, out
    assert os.path.exists(f"{room.path}/m0/kept/m0.ready") and os.path.exists(f"{room.path}/m0/kept/m0.machine")


@needs("httpx", "etcd")
def test_a_user_of_etcd(room):
    etcds = Etcds(room, 1)
    words = ["etcdctl", "--endpoints", etcds.addresses()[0]]
    more = {"env": {**os.environ, "ETCDCTL_API": "3"}, "capture_output": True, "text": True, "check": True}
    for it in (["user", "add", "root:secret"], ["user", "grant-role", "root", "root"], ["user", "add", "feed:pass"], ["role", "add", "feed"],
               ["role", "grant-permission", "feed", "--prefix=true", "readwrite", "/adsplice/"], ["user", "grant-role", "feed", "feed"], ["auth", "enable"]):
        subprocess.run([*words, *it], **more)
    try:
        etcds.keys().read("/adsplice/format")
        raise AssertionError("it needs a user")
    except Refused as fault:
        assert "user name is empty" in str(fault), fault
    group = Group(room, etcds.text().replace("etcd://", "etcd://feed:pass@"), 2)
    group.settled()
    group.step(3)
    group.settled()
    wrong = etcds.keys(user="feed", password="wrong")
    try:
        wrong.read("/adsplice/format")
        raise AssertionError("the password is wrong")
    except Refused as fault:
        assert "invalid user ID or password" in str(fault), fault


@needs("httpx", "etcd")
def test_a_member_of_etcd_is_replaced(room):
    etcds = Etcds(room, 3)
    group = Group(room, etcds.text(), 2)
    group.settled()
    etcds.kill(2)
    words = ["etcdctl", "--endpoints", etcds.addresses()[0]]
    more = {"env": {**os.environ, "ETCDCTL_API": "3"}, "capture_output": True, "text": True, "check": True}
    member = next(line.split(",")[0] for line in subprocess.run([*words, "member", "list"], **more).stdout.splitlines() if ", m2, " in line)
    for does in (["member", "remove", member], ["member", "add", "m2", "--peer-urls", f"http://127.0.0.1:{etcds.ports[2][1]}"]):
        until(lambda it=does: subprocess.run([*words, *it], **{**more, "check": False}).returncode == 0, 40, does[1])  # ("unhealthy cluster", for some seconds)
    shutil.rmtree(f"{room.path}/etcd2")
    etcds.words = ("--initial-cluster-state", "existing")
    etcds.start(2)
    until(lambda: etcds.is_well(2), 20, "the new member")
    group.step(3)
    group.settled()


@needs("httpx", "etcd", "program")
def test_processes_of_the_built_program_hang_and_are_killed(room):
    etcds = Etcds(room, 1)
    fallback = room.write("fallback.json", FALLBACK.replace('"2"', '"1"'))
    group = Group(room, etcds.text(), make=lambda: Built(room), more=f"fallback = {fallback}\n")
    group.breaks, group.has_all_lines = (("b1", 14, 4), ("b2", 30, 4)), False
    group.settled()
    group.step(2)
    for place in range(2):
        group.controllers[place].process.send_signal(signal.SIGSTOP)
        group.step(7)
        group.settled(*(it for it in range(3) if it != place))
        group.controllers[place].process.send_signal(signal.SIGCONT)
        group.step(2)
        group.settled()
    for it in group.controllers:
        it.kill()
    time.sleep(1)
    for it in group.controllers:
        it.start()
    group.step(6)
    group.settled()
    group.kill(group.leader())
    group.controllers[0].kill()
    group.controllers[0].start()
    group.step(5)
    group.settled(*(it for it in range(3) if group.feeds[it].process.poll() is None))


@needs("httpx", "etcd")
def test_an_etcd_that_is_restored_from_a_snapshot(room):
    etcds = Etcds(room, 1)
    group = Group(room, etcds.text(), 2)
    group.settled()
    group.step(2)
    assert etcds.control("snapshot", "save", f"{room.path}/snapshot")
    group.step(5)
    group.settled()
    etcds.kill(0)
    os.rename(f"{room.path}/etcd0", f"{room.path}/lost")
    at = f"http://127.0.0.1:{etcds.ports[0][1]}"
    assert etcds.control("snapshot", "restore", f"{room.path}/snapshot", "--data-dir", f"{room.path}/etcd0", "--name", "m0", "--initial-cluster", f"m0={at}", "--initial-advertise-peer-urls", at)
    etcds.start(0)
    until(lambda: etcds.is_well(0), 20, "etcd")
    group.step(4)
    group.settled(seconds=30)


@needs("httpx", "etcd")
def test_what_a_machine_watches_is_forgotten_meanwhile(room):
    etcds = Etcds(room, 1)
    group = Group(room, etcds.text(), 2)
    group.settled()
    follower = 1 - group.leader()
    group.feeds[follower].process.send_signal(signal.SIGSTOP)
    group.step(6)
    assert etcds.control("compact", str(etcds.keys().read("/adsplice/format")[0]))
    group.feeds[follower].process.send_signal(signal.SIGCONT)
    group.step(3)
    group.settled()


@needs("httpx", "etcd")
@apart
def test_an_etcd_under_tls(room):
    if not shutil.which("openssl"):
        return
    key, certificate = f"{room.path}/key.pem", f"{room.path}/certificate.pem"
    subprocess.run(["openssl", "req", "-x509", "-newkey", "rsa:2048", "-nodes", "-keyout", key, "-out", certificate, "-days", "2", "-subj", "/CN=etcd", "-addext", "subjectAltName=IP:127.0.0.1"],
                   check=True, capture_output=True)
    try:
        os.environ["SSL_CERT_FILE"] = certificate
        etcds = Etcds(room, 1, "--cert-file", certificate, "--key-file", key, scheme="https")
        group = Group(room, etcds.text(), 2)
        group.settled(seconds=60)
        group.step(3)
        group.settled(seconds=60)
    finally:
        del os.environ["SSL_CERT_FILE"]
    group.kill(0)
    group.start(0)
    group.feeds[0].sees("feed store - Away: https://127.0.0.1:[0-9]+: .*certificate verify failed")


# ---- days of several machines

@apart
def test_drawn_days_of_several_machines_break_no_promise(room):
    simulated.WAYS["is_group"] = True
    days = (1, 12.0), (2, 12.0), (3, 12.0), (4, 12.0), (5, 12.0), (309, 12.0), (429, 10.0)
    broken = {day: [str(it) for it in found[:2]] for day in days if (found := simulated.play(simulated.drawn(*day)).found)}
    assert not broken, f"plant/tests/simulated.py --group --shrink SEED --each SECONDS: {broken}"


@apart
def test_days_of_several_machines_see_what_is_wrong(room):
    """Without the fence a machine that is cut off, and believes that it leads, shows the fallback where the others show a decided pod."""
    simulated.WAYS["is_group"] = True
    plan = dataclasses.replace(CALM, faults=(Fault(20.0, "cable drawn", "leader", 16.0),))
    world = simulated.play(plan)
    assert not world.found and world.tally["own pods"] == 3, (world.found, world.tally)
    whole = SharedLog.write

    def write_or_not(self, state):
        try:
            whole(self, state)
        except (Outrun, OSError):
            self.unsure = b""

    SharedLog.write = write_or_not
    try:
        kinds = {it.kind for it in simulated.play(plan).found}
    finally:
        SharedLog.write = whole
    assert "replicas contradict" in kinds, kinds
