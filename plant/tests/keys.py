"""A store of keys as a dictionary with revisions: what etcd does, as far as feeds ask for it, with the faults that it may have."""
from __future__ import annotations

from collections.abc import Callable
from contextlib import suppress
from dataclasses import dataclass

from adsplice_plant.etcd import Away, Change, Compacted, Delete, Done, Is, Pair, Put, Refused, Seen


class Clock:
    """A clock that is set by hand."""

    def __init__(self):
        self.now = 0.0

    def __call__(self):
        return self.now


@dataclass
class Lease:
    """A lease of so many `seconds`, which was kept alive at a moment."""

    seconds: float
    kept_at: float


class Keys:
    """The store. `now`: answers the moment."""

    def __init__(self, now: Callable[[], float]) -> None:
        self.now, self.revision = now, 1
        self.pairs: dict[str, Pair] = {}
        self.history: list[tuple[int, Seen]] = []  # all changes, in their order
        self.compacted = 0  # the last revision that is forgotten
        self.leases: dict[int, Lease] = {}
        self.watchers: list[Callable[[], None]] = []
        self.is_full = False

    def note(self, seen: Seen) -> None:
        """Something was changed."""
        self.history.append((self.revision, seen))

    def told(self) -> None:
        """Who watches learns that something was changed."""
        for it in self.watchers:
            it()

    # ---- keys

    def read(self, key: str, end: str = "") -> tuple[int, list[Pair]]:
        """As in shared_log.Keys."""
        self.expire()
        return self.revision, [self.pairs[it] for it in sorted(self.pairs) if (key <= it < end if end else it == key)]

    def change(self, compared_with: list[Is], changes: list[Change]) -> Done:
        """As in shared_log.Keys."""
        self.expire()
        for it in compared_with:
            found = self.pairs.get(it.key)
            if (found is None) if it.revision is None else (found.revision if found is not None else 0) != it.revision:
                return Done(False, self.revision)
        if self.is_full and any(isinstance(it, Put) for it in changes):
            raise Refused("etcdserver: mvcc: database space exceeded")
        if any(isinstance(it, Put) and it.lease and it.lease not in self.leases for it in changes):
            raise Refused("etcdserver: requested lease not found")
        self.revision += 1
        for it in changes:
            if isinstance(it, Put):
                self.pairs[it.key] = Pair(it.key, it.value, self.revision, it.lease)
                self.note(Seen(self.pairs[it.key]))
            else:
                self.delete([one for one in self.pairs if (it.key <= one < it.end if it.end else one == it.key)])
        self.told()
        return Done(True, self.revision)

    def delete(self, keys: list[str]) -> None:
        """These keys go."""
        for it in keys:
            del self.pairs[it]
            self.note(Seen(Pair(it, b"", self.revision), True))

    def seen(self, prefix: str, revision: int) -> list[tuple[int, Seen]]:
        """The changes since a revision, and that one's. Raises Compacted."""
        if revision <= self.compacted:
            raise Compacted(f"revision {revision} is forgotten")
        return [it for it in self.history if it[0] >= revision and it[1].pair.key.startswith(prefix)]

    def compact(self) -> None:
        """All changes so far are forgotten."""
        self.compacted = self.revision
        self.history.clear()

    # ---- leases

    def expire(self) -> None:
        """Leases that are over end, and the keys that go with them."""
        over = {name for name, it in self.leases.items() if self.now() - it.kept_at > it.seconds}
        for name in over:
            self.revoke(name)

    def grant(self, seconds: int) -> int:
        """As in members.LeaseKeys."""
        self.expire()
        self.revision += 0
        name = 7000 + len(self.history) * 1000 + len(self.leases) + 1 + self.revision
        self.leases[name] = Lease(seconds, self.now())
        return name

    def keep_alive(self, lease: int) -> bool:
        """As in members.LeaseKeys."""
        self.expire()
        if lease not in self.leases:
            return False
        self.leases[lease].kept_at = self.now()
        return True

    def revoke(self, lease: int) -> None:
        """As in members.LeaseKeys."""
        if self.leases.pop(lease, None) is not None and (keys := [it.key for it in self.pairs.values() if it.lease == lease]):
            self.revision += 1
            self.delete(keys)
            self.told()


class At:
    """The store as one machine reaches it: it may be cut off, answers may be lost, and changes may be made late. `later`: does something after so
    many seconds, if changes can come late."""

    def __init__(self, keys: Keys, later: Callable[..., None] | None = None) -> None:
        self.keys, self.later = keys, later
        self.is_cut_off = False
        self.loses: list[str] = []  # what happens to the next changes: "answer", "request", "late", or nothing

    def reach(self) -> None:
        """Raises Away if it is cut off."""
        if self.is_cut_off:
            raise Away("no member answers")

    def read(self, key: str, end: str = "") -> tuple[int, list[Pair]]:
        """As in shared_log.Keys."""
        self.reach()
        return self.keys.read(key, end)

    def change(self, compared_with: list[Is], changes: list[Change]) -> Done:
        """As in shared_log.Keys."""
        self.reach()
        lost = self.loses.pop(0) if self.loses else ""
        if lost == "request":
            raise Away("no answer")
        if lost == "late" and self.later is not None:
            self.later(2.0, self.change_late, compared_with, changes)
            raise Away("no answer")
        done = self.keys.change(compared_with, changes)
        if lost == "answer":
            raise Away("no answer")
        return done

    def change_late(self, compared_with: list[Is], changes: list[Change]) -> None:
        """Changes are made that nobody waits for any more."""
        with suppress(Refused):
            self.keys.change(compared_with, changes)

    def grant(self, seconds: int) -> int:
        """As in members.LeaseKeys."""
        self.reach()
        return self.keys.grant(seconds)

    def keep_alive(self, lease: int) -> bool:
        """As in members.LeaseKeys."""
        self.reach()
        return self.keys.keep_alive(lease)

    def revoke(self, lease: int) -> None:
        """As in members.LeaseKeys."""
        self.reach()
        self.keys.revoke(lease)


__all__ = ["At", "Delete", "Keys"]
