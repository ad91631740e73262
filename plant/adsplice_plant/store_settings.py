"""Where the store of several machines is, as a setting says it."""
from __future__ import annotations

import re
import socket
import urllib.parse
from dataclasses import dataclass

from . import urls
from .etcd import LIMIT, PORT
from .words import Fault

SCHEMES = {"etcd": "http", "etcds": "https"}  # and how they are asked
MOST = 9  # members
LEASE, LEASES = 2, (1, 60)  # seconds of a lease as a rule, and its bounds
MACHINE = re.compile(r"[A-Za-z0-9][A-Za-z0-9._-]{0,62}")


@dataclass(frozen=True)
class StoreAt:
    """The store whose members are at `addresses` (URLs without a path), for a `user` with a `password`, if they are named; a feed is there for as long as
    it shows that within `lease` seconds."""

    addresses: tuple[str, ...]
    user: str = ""
    password: str = ""
    lease: int = LEASE

    def limit(self) -> float:
        """The seconds of a request with its answer: below a lease."""
        return min(LIMIT, 0.75 * self.lease)

    def lease_limit(self) -> float:
        """The seconds of a request by which a lease lasts: if one member doesn't answer, another one can be asked before it ends."""
        return min(LIMIT, 0.4 * self.lease)

    def text(self) -> str:
        """It as it is shown: without the password."""
        return " ".join(self.addresses)


def store_of(text: str, lease: str = "") -> StoreAt:
    """The store that a setting's `text` says, such as etcd://10.0.0.1 10.0.0.2 10.0.0.3, with a `lease` as text; raises Fault."""
    parts = [it for it in re.split(r"[ \t\r\n]+", text) if it]
    scheme, colon, _ = parts[0].partition("://") if parts else ("", "", "")
    if not colon or scheme not in SCHEMES:
        raise Fault(f"store is etcd://HOST HOST HOST (etcds:// for TLS), and not {text[:100]}")
    if len(parts) > MOST:
        raise Fault(f"store names {len(parts)} members, and {MOST} are the most")
    said = [urls.parts_of(it if "://" in it else f"{scheme}://{it}") for it in parts]
    addresses = tuple(address_of(it, scheme) for it in said)
    if not (lease == "" or lease.isascii() and lease.isdigit() and len(lease) <= 2 and LEASES[0] <= int(lease) <= LEASES[1]):
        raise Fault(f"lease is a whole number of seconds from {LEASES[0]} to {LEASES[1]}, and not {lease[:100]}")
    user, password = (urllib.parse.unquote(it) for it in ((said[0].user, said[0].password) if said[0] is not None else ("", "")))
    return StoreAt(addresses, user, password, int(lease) if lease else LEASE)


def address_of(it: urls.Parts | None, scheme: str) -> str:
    """The URL of the member `it`, all of which have one `scheme`; None is one that doesn't read. Raises Fault."""
    if it is None or not it.host or it.scheme != scheme or it.path or it.query or it.fragment:
        raise Fault("store names hosts with their ports, or without, behind one etcd:// or etcds://")
    if it.is_port_wrong:
        raise Fault("store: a port is one from 0 to 65535")
    host = f"[{it.host}]" if ":" in it.host else it.host
    return f"{SCHEMES[scheme]}://{host}:{it.port or PORT}"


def machine_of(text: str) -> str:
    """The name of this machine: the setting's `text`, or the host's name; raises Fault."""
    found = text or socket.gethostname()
    if not MACHINE.fullmatch(found):
        raise Fault(f"machine is a name of letters, digits, '.', '_' and '-', and not {found[:100]}")
    return found
