"""Values that nobody changes: the next one is made of the one before it."""
from __future__ import annotations

from typing import Any, TypeVar

Value = TypeVar("Value")


def changed(it: Value, **members: Any) -> Value:
    """The value `it` with these `members` (as dataclasses.replace, which sets each of the others, too, and takes ten times as long)."""
    found = object.__new__(type(it))
    found.__dict__.update(it.__dict__)
    found.__dict__.update(members)
    return found
