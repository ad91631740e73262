"""Mappings that grow at their end: the next one shares all with the one before, and costs what is new."""
from __future__ import annotations

from bisect import bisect_left
from collections.abc import Iterable, Iterator, Mapping
from typing import Generic, TypeVar

LEAST = 256  # numbers that were given up, before a mapping is copied without them
Value = TypeVar("Value")


class Growing(Mapping[int, Value], Generic[Value]):
    """A mapping of rising numbers, which is never changed. It has the `numbers` and `values_` from the place `first` to before the place `end`;
    others may have more of these two lists."""

    __slots__ = ("numbers", "values_", "first", "end")

    def __init__(self, items: Iterable[tuple[int, Value]] = ()) -> None:
        """A mapping of the `items`, the numbers of which rise."""
        pairs = list(items)
        self.numbers, self.values_ = [number for number, _ in pairs], [value for _, value in pairs]
        self.first, self.end = 0, len(pairs)

    def place_of(self, number: int) -> int:
        """The place of the `number`, or of the first one after it."""
        return bisect_left(self.numbers, number, self.first, self.end)

    def __getitem__(self, number: int) -> Value:
        place = self.place_of(number)
        if place < self.end and self.numbers[place] == number:
            return self.values_[place]
        raise KeyError(number)

    def __contains__(self, number: object) -> bool:
        return isinstance(number, int) and (place := self.place_of(number)) < self.end and self.numbers[place] == number

    def __iter__(self) -> Iterator[int]:
        return iter(self.numbers[self.first:self.end])

    def __len__(self) -> int:
        return self.end - self.first

    def oldest(self) -> int | None:
        """Its first number; none if it has none."""
        return self.numbers[self.first] if self.end > self.first else None

    def newest(self) -> int | None:
        """Its last number; none if it has none."""
        return self.numbers[self.end - 1] if self.end > self.first else None

    def part(self, first: int, end: int) -> Growing[Value]:
        """What it has from the place `first` to before the place `end`, over the same lists."""
        found: Growing[Value] = Growing.__new__(Growing)
        found.numbers, found.values_, found.first, found.end = self.numbers, self.values_, first, end
        return found

    def pairs(self, first: int) -> list[tuple[int, Value]]:
        """Its numbers from the place `first` on, with their values."""
        return list(zip(self.numbers[first:self.end], self.values_[first:self.end]))

    def with_more(self, more: Mapping[int, Value]) -> Growing[Value]:
        """It with the numbers of `more`, which rise, and of which one that it has counts anew."""
        if not more:
            return self
        newest = self.newest()
        if newest is not None and next(iter(more)) <= newest:
            return Growing(sorted(({**self} | {**more}).items()))
        found = self if self.end == len(self.numbers) else Growing(self.pairs(self.first))
        found.numbers.extend(more)
        found.values_.extend(more.values())
        return found.part(found.first, len(found.numbers))

    def since(self, number: int) -> Growing[Value]:
        """It without the numbers before `number`."""
        first = self.place_of(number)
        if first > LEAST and 2 * first > self.end:
            return Growing(self.pairs(first))
        return self if first == self.first else self.part(first, self.end)

    def grows_from(self, other: Growing[Value]) -> bool:
        """Whether it is the `other` with more at its end, or less at its front, over the same lists."""
        return self.numbers is other.numbers and self.first >= other.first and self.end >= other.end
