"""Numbers drawn from a seed, the same on every machine; the ends of 64 bits."""

from __future__ import annotations

from typing import Sequence

from rules import U64_MAX

I64_MIN, I64_MAX = -2**63, 2**63 - 1
TOP_BIT = 2**63


class Chance:
    """SplitMix64: the state grows by 9E3779B97F4A7C15 a draw, and its bits are mixed by two multiplications."""

    def __init__(self, seed: int, index: int) -> None:
        self.state = ((seed << 32) + index) & U64_MAX
        self.state = self.draw()

    def draw(self) -> int:
        """The next 64 bits."""
        self.state = (self.state + 0x9E3779B97F4A7C15) & U64_MAX
        z = self.state
        z = ((z ^ (z >> 30)) * 0xBF58476D1CE4E5B9) & U64_MAX
        z = ((z ^ (z >> 27)) * 0x94D049BB133111EB) & U64_MAX
        return z ^ (z >> 31)

    def between(self, low: int, high: int) -> int:
        """A number from low to high; low if the range is empty."""
        return low + self.draw() % (high - low + 1) if low < high else low

    def scaled(self, low: int, high: int) -> int:
        """A number from low to high, every magnitude alike; low is at least 0."""
        bits = self.between(max(low, 1).bit_length(), max(high, 1).bit_length())
        return min(max(self.between(2**(bits - 1), 2**bits - 1), low), high)

    def pick(self, items: Sequence):
        """One of the items."""
        return items[self.draw() % len(items)]

    def one_in(self, count: int) -> bool:
        """True once in so many draws."""
        return self.draw() % count == 0
