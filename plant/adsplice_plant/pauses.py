"""Pauses that grow: how long to wait before something that failed is tried again."""
import random


class Pauses:
    """Pauses that double from `first` to `most` seconds. Each is spread by a quarter to both sides, so that many who lost
    one server don't come back to it at one moment."""

    def __init__(self, first: float, most: float) -> None:
        self.first, self.most, self.count = first, most, 0

    def next(self) -> float:
        """The seconds to wait now; the next pause is twice as long, up to the longest one."""
        pause = min(self.most, self.first * 2 ** min(self.count, 30))
        self.count += 1
        return float(pause * random.uniform(0.75, 1.25))

    def reset(self) -> None:
        """After a success: the next pause is the first one."""
        self.count = 0
