"""Tests of which addresses requests reach: by the socket's address, also after DNS and redirects, and of files that stand for lists."""
import ipaddress
import os
import socket
import sys
import time
from pathlib import Path

from tools import PLANT, FakeServer, listed

sys.path.insert(0, PLANT)
from adsplice_plant.reach import MACHINE, MULTICAST, PRIVATE, PUBLIC, RESERVED, LINK, Reach, address_in, kind_of, networks_of  # noqa: E402

NEEDS = ("httpx",)
KINDS = (  # (RFC 6890, and RFC 4291, 6052 and 3056 of addresses that have another one in them)
    (MACHINE, "127.0.0.1 127.255.255.254 0.0.0.0 ::1 :: ::ffff:127.0.0.1 ::127.0.0.1 64:ff9b::7f00:1 2002:7f00:1::"),
    (PRIVATE, "10.0.0.1 172.16.0.1 172.31.255.255 192.168.0.1 100.64.0.1 198.18.0.1 fc00::1 fd12::1 fec0::1 ::ffff:10.0.0.1 64:ff9b:1::1"),
    (LINK, "169.254.169.254 fe80::1 ::ffff:169.254.169.254 64:ff9b::a9fe:a9fe"), (MULTICAST, "224.0.0.1 239.1.1.1 ff02::1"), (RESERVED, "240.0.0.1 255.255.255.255"),
    (PUBLIC, "93.184.216.34 8.8.8.8 2606:4700::1111 ::ffff:8.8.8.8 64:ff9b::808:808"))
SPELLINGS = ("127.1", "2130706433", "0x7f000001", "0177.0.0.1", "0.0.0.0", "0", "[::1]", "[::ffff:127.0.0.1]", "127.0.0.1", "localhost", "a.localhost")


def refused(reach, host, address, *named):
    return reach.refusal(host, ipaddress.ip_address(address), named)


def test_kinds_of_addresses(room):
    for kind, texts in KINDS:
        for text in texts.split():
            assert kind_of(ipaddress.ip_address(text)) == kind, (text, kind)
    for text in SPELLINGS[:-2]:
        assert kind_of(address_in(text)) == MACHINE, text
    assert address_in("origin.example") is address_in("1.2.3.4.5") is None


def test_what_a_person_named_is_reached_and_what_it_leads_to_is_judged(room):
    for address in ("127.0.0.1", "10.0.0.5", "169.254.1.1", "93.184.216.34"):
        assert not refused(Reach(frozenset({address})), address, address), "an address that a person wrote"
        if address != "169.254.1.1":
            assert not refused(Reach(frozenset({"origin.example"})), "origin.example", address), address
    assert "origin.example leads to 169.254.169.254, a link-local address" in refused(Reach(frozenset({"origin.example"})), "origin.example", "169.254.169.254")
    for spelling in SPELLINGS:
        said = Reach(frozenset({"93.184.216.34"})).strays(spelling.strip("[]"))
        assert "an address of this machine: `networks` has it read" in said, (spelling, said)
    assert refused(Reach(frozenset({"10.0.0.5"})), "other.example", "10.0.0.6") and not refused(Reach(frozenset({"10.0.0.5"})), "other.example", "10.0.0.5")
    assert not refused(Reach(), "adsplice.example", "169.254.1.1", "adsplice.example") and refused(Reach(), "other.example", "10.0.0.5", "1.1.1.1")


def test_a_setting_that_is_no_url_is_one_line(room):
    from adsplice_plant.settings import settings_of
    from adsplice_plant.words import Fault
    right = {"origin": "http://origin.example/i.m3u8", "at": "http://127.0.0.1:1", "base": "http://origin.example/i.m3u8", "ask": "http://ads.example/decide"}
    for name in right:
        try:
            settings_of("news", {**right, "decisions": room.path, name: "http://..[.."})
            raise AssertionError(name)
        except Fault as fault:
            assert "isn't a URL that begins with http:// or https://" in str(fault) and "\n" not in str(fault), (name, fault)
    status, _, said = room.run("adsplice-feed", "--channel", "news", "--origin", "/i.m3u8", "--at", "http://..[..")
    assert status == 2 and "Traceback" not in said and "isn't a URL" in said, said
    path = room.write("feed.ini", "[news]\norigin = /i.m3u8\nbase = http://h/i.m3u8\nat = http://..[..\n")
    status, told, said = room.run("adsplice-feed", "--check", "--config", path)
    assert status == 1 and "Traceback" not in told + said and "isn't a URL" in told + said, told + said


def test_a_name_that_was_public_does_not_become_this_machine(room):
    reach = Reach(frozenset({"origin.example"}))
    assert not refused(reach, "origin.example", "93.184.216.34")
    for address, told in (("127.0.0.1", "127.0.0.1"), ("10.0.0.5", "10.0.0.5"), ("::1", "::1"), ("::ffff:127.0.0.1", "127.0.0.1")):
        assert refused(reach, "origin.example", address).startswith(f"origin.example leads to {told}, "), address
    reach = Reach(frozenset({"origin.example"}))
    assert not refused(reach, "origin.example", "10.0.0.5") and not refused(reach, "origin.example", "10.0.0.6") and refused(reach, "origin.example", "127.0.0.1")


def test_networks_that_a_person_states_are_reached(room):
    reach = Reach(frozenset({"origin.example"}), networks_of("10.0.0.0/8, fd00::/8 192.168.7.3"))
    for address, is_reached in (("10.1.2.3", True), ("::ffff:10.1.2.3", True), ("fd12::1", True), ("192.168.7.3", True), ("192.168.7.4", False), ("127.0.0.1", False), ("8.8.8.8", True)):
        for host in ("origin.example", "other.example"):
            assert (refused(reach, host, address) == "") == is_reached, (host, address)
    for text in ("10.0.0.1/8", "10", "::/129", "a"):
        try:
            networks_of(text)
            raise AssertionError(text)
        except ValueError:
            pass


class Leading(FakeServer):
    """A server that leads each path `/to/..` to the URL of its `leads`, and else answers a list; at an address of this machine."""

    def __init__(self, leads=""):
        self.leads = leads
        super().__init__()

    def answer(self, method, path, body, fields):
        if path.startswith("/to/"):
            return 302, {"Location": self.leads}, b""
        return 200, {}, listed(0, 5).encode()


class Names:
    """While it is open, names of the domain `example` have these addresses."""

    def __init__(self, **addresses):
        self.addresses, self.real = addresses, socket.getaddrinfo

    def __enter__(self):
        socket.getaddrinfo = self.found

    def __exit__(self, *_):
        socket.getaddrinfo = self.real

    def found(self, host, port, *more, **named):
        """As the system's."""
        name, _, domain = host.partition(".")
        return self.real(self.addresses.get(name, host) if domain == "example" else host, port, *more, **named)


def test_a_redirect_leads_to_the_same_scheme_host_and_port(room):
    from adsplice_plant.web import Client
    other = room.server(Leading())
    first = room.server(Leading(f"http://127.0.0.1:{other.port}/i.m3u8"))
    found = Client(2).ask("GET", f"http://127.0.0.1:{first.port}/to/i.m3u8")
    assert found.status == 0 and "another host, port or scheme" in found.why and not other.asked, found
    assert Client(2, True).ask("GET", f"http://127.0.0.1:{first.port}/to/i.m3u8").status == 200
    first.leads = "/i.m3u8"
    assert Client(2).ask("GET", f"http://127.0.0.1:{first.port}/to/i.m3u8").status == 200


def test_the_address_is_judged_to_which_the_socket_connects(room):
    from adsplice_plant.web import Client
    inner = room.server(Leading())
    first = room.server(Leading(f"http://inner.example:{inner.port}/i.m3u8"))
    url = f"http://origin.example:{first.port}/to/i.m3u8"
    with Names(origin="127.0.0.1", inner="127.0.0.2"):
        for networks, status, why in ((None, 0, "inner.example leads to 127.0.0.2, an address of this machine: `networks` has it read"),
                                      (networks_of("127.0.0.0/30"), 0, "Connection refused"), (networks_of("127.0.0.1"), 0, "and in none of `networks`")):
            found = Client(2, True, Reach(frozenset({"origin.example"}), networks)).ask("GET", url)
            assert found.status == status and why in found.why and not inner.asked, found
    with Names(origin="127.0.0.1", inner="127.0.0.1"):
        assert Client(2, True, Reach(frozenset({"origin.example"}))).ask("GET", url).status == 200, "the origin's own address"
    with Names(origin="93.184.216.34"):
        reach = Reach(frozenset({"origin.example"}))
        assert Client(0.2, False, reach).ask("GET", url).status == 0
    first.leads = "/i.m3u8"
    with Names(**{"xn--bcher-kva": "127.0.0.1"}):  # (its ASCII form, which a person may write)
        url_of_it = f"http://xn--bcher-kva.example:{first.port}/i.m3u8"
        assert Client(2, False, Reach(frozenset({"xn--bcher-kva.example"}))).ask("GET", url_of_it).status == 200
    asked = len(first.asked)
    with Names(origin="127.0.0.1"):
        found = Client(2, False, reach).ask("GET", url)
    assert "origin.example leads to 127.0.0.1, an address of this machine" in found.why and len(first.asked) == asked, found


def test_each_spelling_of_this_machine_is_refused(room):
    from adsplice_plant.web import Client
    inner, first = room.server(Leading()), room.server(Leading())
    with Names(origin="127.0.0.1", far="8.8.8.8"):
        for spelling in SPELLINGS[:-1]:  # (not each system knows names below localhost)
            first.leads = f"http://{spelling}:{inner.port}/i.m3u8"
            found = Client(2, True, Reach(frozenset({"far.example"}))).ask("GET", first.leads)
            assert found.status == 0 and "an address of this machine" in found.why, (spelling, found)
    assert not inner.asked


def test_a_file_that_is_no_list_s_holds_nobody_up(room):
    from adsplice_plant.location import LocalFile
    from adsplice_plant.origin import FileOrigin
    path, files = Path(room.path, "i.m3u8"), len(os.listdir("/proc/self/fd"))
    for make, owed in ((os.mkfifo, "it is no regular file"), (os.mkdir, "it is no regular file"), (lambda it: os.symlink(it, it), "it is a link, or no regular file"),
                       (lambda it: os.symlink("/dev/zero", it), "it is no regular file")):
        make(path)
        begun = time.monotonic()
        for _ in range(50):
            found = FileOrigin(LocalFile(path)).read()
        assert found.body is None and owed in found.why and time.monotonic() - begun < 1, (owed, found)
        (os.rmdir if path.is_dir() and not path.is_symlink() else os.unlink)(path)
    assert len(os.listdir("/proc/self/fd")) < files + 25, "each was closed again"
    with open(path, "wb") as it:
        it.truncate(4_194_305)
    assert "it has 4194305 bytes, over 4194304" in FileOrigin(LocalFile(path)).read().why


def test_a_rendition_s_file_is_below_its_master_playlist_and_no_link(room):
    from adsplice_plant.location import LocalFile
    from adsplice_plant.origin import FileOrigin
    folder, other = Path(room.path, "film"), Path(room.path, "other")
    for it in (folder / "hd", other):
        it.mkdir(parents=True)
    room.write("other/i.m3u8", listed(0, 5))
    os.symlink(other, folder / "sd")
    os.symlink(other / "i.m3u8", folder / "hd" / "link.m3u8")
    room.write("film/hd/i.m3u8", listed(1, 6))
    assert FileOrigin(LocalFile(folder / "hd" / "i.m3u8", folder)).read().body == listed(1, 6).encode()
    for place in ("sd/i.m3u8", "hd/link.m3u8"):
        found = FileOrigin(LocalFile(folder / place, folder)).read()
        assert found.body is None and found.why, place
    assert FileOrigin(LocalFile(folder / "sd" / "i.m3u8")).read().body, "a link that a person named is followed"
