"""The names of a programme's renditions on several machines: one machine names them, and all take its names.

Each machine reads the master playlist by itself, perhaps in another order. So the names are a key of the store, which is written if it is still what was
read. What a machine kept in a file before counts while the store has none. The file stays what the store says, for who reads it without the store.
"""
from __future__ import annotations

import json

from .etcd import Is, Put
from .renditions import FileNames, Names, Naming
from .shared_log import ROOT, Foreign, Keys, packed, unpacked

MOST_TRIALS = 8  # while other machines name renditions


class SharedNames:
    """The names of the renditions of the `programme` in the store `keys`; `own` are those that this machine has kept."""

    def __init__(self, keys: Keys, programme: str, own: FileNames) -> None:
        self.keys, self.key, self.own = keys, names_key(programme), own

    def agree(self, name: Naming) -> Names:
        """The names that all machines have, once those that lack are added, as `name` makes them of those that are known. Raises OSError, and then nothing
        is named."""
        for _ in range(MOST_TRIALS):
            there = self.keys.read(self.key)[1]
            known = names_in(there[0].value) if there else self.own.names
            names = name(known)
            revision = there[0].revision if there else 0
            if there and names == known or self.keys.change([Is(self.key, revision)], [Put(self.key, value_of(names))]).is_so:
                return self.own.agree(lambda _: names)
        raise Foreign("other machines name the renditions again and again")


def names_key(programme: str) -> str:
    """The key that has the names of the renditions of the `programme`."""
    return f"{ROOT}names/{programme}"


def value_of(names: Names) -> bytes:
    """The `names` as a value; raises Refused if they are too large for the store."""
    return packed(json.dumps({"renditions": list(names.items())}).encode())


def names_in(value: bytes) -> Names:
    """The names that a `value` has; raises Foreign if it has none."""
    try:
        return {str(key): str(name) for key, name in json.loads(unpacked(value))["renditions"]}
    except (ValueError, KeyError, TypeError, RecursionError):
        raise Foreign("the store has no names of renditions where a feed of this version has them") from None
