"""Which addresses a request may connect to.

What a list names, where a redirect leads and what a name's DNS answers comes from outside. So the address is judged to which the socket
connects, and not the text of a host: `127.1`, `0x7f000001` and a name of somebody's domain can all be this machine.
"""
from __future__ import annotations

import ipaddress
import socket
from collections.abc import Callable, Iterable
from dataclasses import dataclass, field

Address = ipaddress.IPv4Address | ipaddress.IPv6Address
Network = ipaddress.IPv4Network | ipaddress.IPv6Network
Judge = Callable[[str], str]  # an address as a socket has it; why it isn't connected to, and empty if it may be

PUBLIC, MACHINE, PRIVATE = "a public address", "an address of this machine", "a private address"
LINK, MULTICAST, RESERVED = "a link-local address", "a multicast address", "a reserved address"
USUAL = (MACHINE, PRIVATE)  # that a name may have which a person wrote
HOLDS_IPV4 = tuple(ipaddress.IPv6Network(it) for it in ("64:ff9b::/96", "::/96"))  # whose last 32 bits are an IPv4 address (RFC 6052; RFC 4291, 2.5.5.1)
SITE = ipaddress.IPv6Network("64:ff9b:1::/48")  # of a site's own translation (RFC 8215)


def plain(address: Address) -> Address:
    """The IPv4 address that an IPv6 `address` has in it and leads to; else the address."""
    if isinstance(address, ipaddress.IPv4Address) or address in (ipaddress.IPv6Address("::"), ipaddress.IPv6Address("::1")):
        return address
    if any(address in it for it in HOLDS_IPV4):
        return ipaddress.IPv4Address(int(address) & 0xFFFFFFFF)
    return address.ipv4_mapped or address.sixtofour or address


def kind_of(address: Address) -> str:
    """What kind of address `address` is (RFC 6890)."""
    it = plain(address)
    for is_so, kind in ((it.is_loopback or it.is_unspecified, MACHINE), (it.is_link_local, LINK), (it.is_multicast, MULTICAST)):
        if is_so:
            return kind
    if isinstance(it, ipaddress.IPv6Address) and (it in SITE or it.is_site_local):
        return PRIVATE
    if it.is_global and not it.is_reserved:
        return PUBLIC
    return RESERVED if it.is_reserved else PRIVATE


def address_in(host: str) -> Address | None:
    """The address that the text `host` spells, in any of the ways that connect to it (`127.1`, `2130706433`, `[::1]`); none if it is a name."""
    try:
        return ipaddress.ip_address(host.strip("[]"))
    except ValueError:
        try:
            return ipaddress.ip_address(socket.inet_aton(host))
        except (OSError, UnicodeError, ValueError):
            return None


def is_of_this_machine(host: str) -> bool:
    """Whether `host` is an address of this machine in any spelling that connects to it, or its usual name."""
    found = address_in(host)
    return host == "localhost" or host.endswith(".localhost") if found is None else kind_of(found) == MACHINE


def networks_of(text: str) -> tuple[Network, ...]:
    """The networks in `text`, such as `10.0.0.0/8 192.168.7.3`; raises ValueError if one doesn't read."""
    return tuple(ipaddress.ip_network(it) for it in text.replace(",", " ").split())


def addresses_of(host: str) -> list[Address]:
    """The addresses of `host`, as the system finds them; none if it has none."""
    try:
        return [ipaddress.ip_address(to[0]) for *_, to in socket.getaddrinfo(host, None, type=socket.SOCK_STREAM)]
    except (OSError, UnicodeError, ValueError):
        return []


@dataclass(frozen=True)
class Reach:
    """What requests reach beside public addresses: the `networks` that a person stated; if none are stated, the addresses of the hosts that
    the person `named`. `kinds` has what kind of address each of these had first: a name that was public doesn't become this machine. Without
    names it is for a part of the plant itself: the host that is asked for is reached at any address."""

    named: frozenset[str] = frozenset()
    networks: tuple[Network, ...] | None = None
    kinds: dict[str, str] = field(default_factory=dict, compare=False)

    def refusal(self, host: str, address: Address, named: Iterable[str] = ()) -> str:
        """Why a request for `host` doesn't connect to its `address`; empty if it may. `named`: hosts that stand for those of this one, if it has
        none."""
        own, kind = self.named or frozenset(named), kind_of(address)
        if host in own and (not self.named or address_in(host) is not None):
            return ""  # (the person wrote this address)
        first = self.kinds.setdefault(host, kind) if host in own and kind in (PUBLIC, *USUAL) else kind
        if kind == PUBLIC:
            return ""
        told = f"{host[:100]} is {kind}" if address_in(host) is not None else f"{host[:100]} leads to {plain(address)}, {kind}"
        if self.networks is not None:
            return "" if any(plain(address) in it or address in it for it in self.networks) else f"{told}, and in none of `networks`"
        if host in own:
            return "" if kind in USUAL and first == kind else f"{told}: `networks` has it read"
        return "" if any(plain(address) == plain(it) for one in own for it in addresses_of(one)) else f"{told}: `networks` has it read"

    def judge(self, host: str, named: Iterable[str] = ()) -> Judge:
        """What judges the addresses of `host`. `named`: as above."""
        return lambda text: self.refusal(host, ipaddress.ip_address(text), named)

    def strays(self, host: str, named: Iterable[str] = ()) -> str:
        """Why `host` isn't asked, if its text is an address; empty if it may be, or is a name. `named`: as above."""
        found = address_in(host)
        if found is None:
            is_own = host in (self.named or frozenset(named))
            found = ipaddress.IPv4Address("127.0.0.1") if is_of_this_machine(host) and not is_own else None
        return "" if found is None else self.refusal(host, found, named)
