"""The keys of an etcd, read and changed by its JSON gateway (etcd 3.4, POST /v3/.., keys and values in Base64).

The member of this machine is asked first: so the loss of another machine isn't waited for. A read goes to any member that answers. A change goes
to one: whether it was made isn't known if no answer comes, so it isn't sent again here.
Whatever a member answers is judged before it is used.
"""
from __future__ import annotations

import base64
import binascii
import http.client
import json
import socket
import threading
import time
from collections.abc import Callable, Iterator, Mapping
from functools import partial
from typing import Any, NamedTuple, TypeVar

from .urls import host_of
from .web import Client
from .words import plain

LIMIT = 1.5  # seconds of a request with its answer
MOST_LINE = 32 << 20  # bytes of a line of a watch
Value = TypeVar("Value")
FIELDS = {"Content-Type": "application/json"}
NO_TOKEN = (401, 403)  # statuses after which a token is asked for anew
PORT = 2379
PAGE = 64  # keys that are read at a time
RETURN = 30.0  # seconds after which this machine's member is asked first again, since it didn't answer


class Away(OSError):
    """No member answered, or the one that was asked didn't: what was to be changed may be changed."""


class Refused(OSError):
    """The store answers that it doesn't do what it was asked, and why: nothing is changed."""


class Compacted(Exception):
    """What is to be watched is forgotten: all is to be read anew."""


class Pair(NamedTuple):
    """A `key` with its `value`, at which `revision` of the store it was written last, and the `lease` with which it goes (0: none)."""

    key: str
    value: bytes
    revision: int = 0
    lease: int = 0


class Seen(NamedTuple):
    """A change that a watch tells: the `pair` as it is now. It `is_gone` if it was deleted, and has no value then."""

    pair: Pair
    is_gone: bool = False


class Is(NamedTuple):
    """What is so of a `key` if something is to be changed: its revision is this one (0: there is no such key), or, if none is named, it is there."""

    key: str
    revision: int | None = None


class Put(NamedTuple):
    """The `key` is to have the `value`, and to go with the `lease`, if that isn't 0."""

    key: str
    value: bytes
    lease: int = 0


class Delete(NamedTuple):
    """The `key` is to go; if `end` is named, all keys from it on, up to before that."""

    key: str
    end: str = ""


Change = Put | Delete


class Done(NamedTuple):
    """Whether all that was compared `is_so`, and the changes are made, and the `revision` of the store."""

    is_so: bool
    revision: int


def after_prefix(prefix: str) -> str:
    """The first key after all keys that begin with the `prefix`, which ends in ASCII."""
    return prefix[:-1] + chr(ord(prefix[-1]) + 1)


# ---- as JSON

def coded(it: str | bytes) -> str:
    """A key or a value in Base64. (A file's name in a key may have any bytes.)"""
    return base64.b64encode(it.encode("utf-8", "surrogateescape") if isinstance(it, str) else it).decode()


def compared(it: Is) -> dict[str, Any]:
    """What is so of a key, as the gateway takes it."""
    if it.revision is None:
        return {"key": coded(it.key), "target": "VERSION", "result": "GREATER", "version": "0"}
    if it.revision == 0:
        return {"key": coded(it.key), "target": "VERSION", "result": "EQUAL", "version": "0"}
    return {"key": coded(it.key), "target": "MOD", "result": "EQUAL", "mod_revision": str(it.revision)}


def changed(it: Change) -> dict[str, Any]:
    """A change, as the gateway takes it."""
    if isinstance(it, Put):
        return {"request_put": {"key": coded(it.key), "value": coded(it.value), "lease": str(it.lease)}}
    end = {"range_end": coded(it.end)} if it.end else {}
    return {"request_delete_range": {"key": coded(it.key), **end}}


def pair_of(said: Mapping[str, Any]) -> Pair:
    """The pair that the gateway `said`; raises ValueError, KeyError or TypeError if it said none."""
    key = base64.b64decode(said["key"], validate=True).decode("utf-8", "surrogateescape")
    return Pair(key, base64.b64decode(said.get("value", ""), validate=True), int(said.get("mod_revision", 0)), int(said.get("lease", 0)))


class Etcd:
    """The store whose members answer at `addresses` (URLs without a path). A `user` with a `password` is told to it, if there is one. Several threads may
    ask at a time."""

    def __init__(self, addresses: tuple[str, ...], user: str = "", password: str = "", limit: float = LIMIT) -> None:
        self.addresses, self.user, self.password = addresses, user, password
        self.client, self.lock = Client(limit), threading.Lock()
        self.own = place_here(addresses)
        self.first = self.own  # the member that answered last
        self.left_at = float("-inf")  # when that of this machine didn't answer
        self.token = ""

    # ---- members

    def may_return(self) -> bool:
        """Whether another member is asked first, and that of this machine may answer again."""
        return self.first != self.own and time.monotonic() - self.left_at >= RETURN

    def begin(self) -> int:
        """The place of the member that is asked first."""
        if self.may_return():
            self.first = self.own
        return self.first

    def leave(self, at: int) -> None:
        """The member at the place `at` didn't answer: the next one is asked first."""
        if at == self.own:
            self.left_at = time.monotonic()
        self.first = (at + 1) % len(self.addresses)

    # ---- requests

    def ask(self, path: str, said: Mapping[str, Any], is_read: bool = True) -> Mapping[str, Any]:
        """What is answered to what is `said` at a `path`. A read is tried at each member, a change at one. Raises Away or Refused."""
        begin, why = self.begin(), ""
        for place in range(len(self.addresses) if is_read else 1):
            at = (begin + place) % len(self.addresses)
            try:
                found = self.ask_at(at, path, said)
            except Away as fault:
                why = str(fault)
                self.leave(at)
                continue
            self.first = at
            return found
        raise Away(why)

    def ask_at(self, at: int, path: str, said: Mapping[str, Any]) -> Mapping[str, Any]:
        """What the member at the place `at` answers; a token that isn't taken any more is asked for anew, once."""
        for trial in range(2):
            fields = FIELDS | ({"Authorization": token} if (token := self.token_of(at)) else {})
            answer = self.client.ask("POST", self.addresses[at] + path, json.dumps(said).encode(), fields)
            if answer.status == 200:
                return mapping_of(answer.body)
            text = fault_of(answer.body)
            if token and not trial and (answer.status in NO_TOKEN or "invalid auth token" in text):
                self.token = ""
                continue
            break
        where = self.addresses[at]
        if not answer.status or answer.status >= 500 and not is_judged(text):
            raise Away(f"{where}: {answer.why or text or f'it answers {answer.status}'}")
        raise Refused(f"{where}: {text or f'it answers {answer.status}'}")

    def token_of(self, at: int) -> str:
        """The token of the user, if there is one; raises Away or Refused."""
        if self.user and not self.token:
            said = json.dumps({"name": self.user, "password": self.password}).encode()
            answer = self.client.ask("POST", f"{self.addresses[at]}/v3/auth/authenticate", said, FIELDS)
            if answer.status != 200:
                fault = Away if not answer.status or answer.status >= 500 else Refused
                raise fault(f"{self.addresses[at]}: {answer.why or fault_of(answer.body) or f'it answers {answer.status}'}")
            self.token = str(mapping_of(answer.body).get("token", ""))
        return self.token

    # ---- keys

    def read(self, key: str, end: str = "") -> tuple[int, list[Pair]]:
        """The revision of the store, and the pairs of the `key`, or of all from it on up to before `end`, in the order of their keys. Raises Away or
        Refused."""
        if not end:
            found = self.ask("/v3/kv/range", {"key": coded(key)})
            return judged(lambda: (revision_of(found), [pair_of(it) for it in found.get("kvs", [])]))
        pairs: list[Pair] = []
        revision, is_more = 0, True
        while is_more:  # (an answer has its bounds)
            said = {"key": coded(key if not pairs else pairs[-1].key + "\0"), "range_end": coded(end), "limit": str(PAGE), "revision": str(revision)}
            found = self.ask("/v3/kv/range", said)
            more, is_more, at = judged(partial(page_of, found))
            pairs, revision, is_more = pairs + more, revision or at, is_more and bool(more)
        return revision, pairs

    def change(self, compared_with: list[Is], changes: list[Change]) -> Done:
        """Makes the `changes` if all that is `compared_with` is so: all of them at once, or none. Raises Away or Refused."""
        said = {"compare": [compared(it) for it in compared_with], "success": [changed(it) for it in changes]}
        found = self.ask("/v3/kv/txn", said, False)
        return judged(lambda: Done(found.get("succeeded") is True, revision_of(found)))

    def watch(self, prefix: str, revision: int, silence: float) -> Iterator[tuple[int, list[Seen]]]:
        """All changes of keys that begin with the `prefix`, from a `revision` on, as they come: each time the store's revision and what was changed.
        Ends if nothing comes for `silence` seconds. Raises Away, Refused or Compacted."""
        at, said = self.begin(), {"create_request": {"key": coded(prefix), "range_end": coded(after_prefix(prefix)), "start_revision": str(revision)}}
        try:
            fields = FIELDS | ({"Authorization": token} if (token := self.token_of(at)) else {})
            for line in self.client.lines(f"{self.addresses[at]}/v3/watch", json.dumps(said).encode(), fields, silence, MOST_LINE):
                found = mapping_of(line).get("result")
                if not isinstance(found, dict):
                    self.token = ""
                    raise Refused(f"{self.addresses[at]}: {fault_of(line) or 'it refuses the watch'}")
                if found.get("canceled"):
                    raise Compacted(plain(str(found.get("cancel_reason") or "its past is compacted"))[:200])
                yield judged(partial(changes_of, found))
        except (OSError, http.client.HTTPException) as fault:
            self.leave(at)
            if isinstance(fault, (Away, Refused)):
                raise
            raise Away(f"{self.addresses[at]}: {plain(str(fault))[:200] or type(fault).__name__}") from None

    # ---- leases, and how it is

    def grant(self, seconds: int) -> int:
        """A new lease of so many `seconds`. Raises Away or Refused."""
        found = self.ask("/v3/lease/grant", {"TTL": str(seconds)})
        return judged(lambda: int(found["ID"]))

    def keep_alive(self, lease: int) -> bool:
        """The `lease` lasts anew from now on; whether there is such a lease. Raises Away or Refused."""
        found = self.ask("/v3/lease/keepalive", {"ID": str(lease)}, False)
        return judged(lambda: int(found["result"].get("TTL", 0)) > 0)

    def revoke(self, lease: int) -> None:
        """The `lease` ends, and the keys that go with it. Raises Away or Refused."""
        self.ask("/v3/lease/revoke", {"ID": str(lease)}, False)

    def is_healthy(self, at: int) -> str:
        """Why the member at the place `at` doesn't serve; empty if it does, with a majority of the others. (It reads a key by way of the member that
        leads, so it has to have one.)"""
        try:
            self.ask_at(at, "/v3/kv/range", {"key": coded("/adsplice/format")})
        except OSError as fault:
            return str(fault)
        return ""


# ---- members

def place_here(addresses: tuple[str, ...]) -> int:
    """The place of the first of the `addresses` that is one of this machine's own; 0 if none is."""
    return next((place for place, it in enumerate(addresses) if is_here(host_of(it))), 0)


def is_here(host: str) -> bool:
    """Whether the `host`, a name or an address, has an address of this machine: a socket can be bound to it."""
    try:
        for family, kind, protocol, _, address in socket.getaddrinfo(host, 0, type=socket.SOCK_DGRAM):
            with socket.socket(family, kind, protocol) as it:
                it.bind(address)
                return True
    except OSError:
        pass
    return False


# ---- answers

def mapping_of(body: bytes) -> Mapping[str, Any]:
    """The JSON object `body`; raises Away if it is none."""
    try:
        found = json.loads(body)
    except (ValueError, RecursionError):
        found = None
    if not isinstance(found, dict):
        raise Away("the answer is no JSON object: is it etcd's address?")
    return found


def judged(read: Callable[[], Value]) -> Value:
    """What `read` answers of an answer; raises Away if it isn't one of etcd's."""
    try:
        return read()
    except (ValueError, KeyError, TypeError, AttributeError, binascii.Error) as fault:
        raise Away(f"the answer isn't one of etcd's ({type(fault).__name__}: {plain(str(fault))[:100]})") from None


def revision_of(found: Mapping[str, Any]) -> int:
    """The revision of the store that an answer tells."""
    return int(found["header"].get("revision", 0))


def page_of(found: Mapping[str, Any]) -> tuple[list[Pair], bool, int]:
    """The pairs of an answer, whether there are more, and the revision of the store."""
    return [pair_of(it) for it in found.get("kvs", [])], found.get("more") is True, revision_of(found)


def changes_of(found: Mapping[str, Any]) -> tuple[int, list[Seen]]:
    """The revision of the store, and the changes that a watch tells."""
    return revision_of(found), [seen_of(it) for it in found.get("events", [])]


def seen_of(said: Mapping[str, Any]) -> Seen:
    """The change that a watch `said`."""
    return Seen(pair_of(said["kv"]), said.get("type") == "DELETE")


def fault_of(body: bytes) -> str:
    """What the gateway says of a fault; empty if it says nothing."""
    try:
        found = json.JSONDecoder().raw_decode(body[:4096].decode("utf-8", "replace"))[0]
        said = found.get("error") or found.get("message") or ""
        return plain(str(said.get("message", said) if isinstance(said, dict) else said))[:200]
    except (ValueError, AttributeError, RecursionError):
        return ""


def is_judged(text: str) -> bool:
    """Whether a fault's `text` says that the store did nothing, and would do so again: it is full, or the request too large."""
    return "database space exceeded" in text or "too large" in text or "permission denied" in text
