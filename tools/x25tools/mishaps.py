"""What happens to the frames of one way of a bridge's line: chances by which they are lost and
damaged."""

from __future__ import annotations

from x25tools import x25lines
from x25tools.losses import Dice


class Mishaps:
    """Loses and damages the frames of one way, each with its probability; the same seed does the
    same to the same frames."""

    def __init__(self, lose: float, damage: float, seed: int) -> None:
        self._lose, self._damage, self._dice = lose, damage, Dice(seed)
        self.lost = self.damaged = 0

    def happen(self, octets: bytes) -> bytes | None:
        """What comes of a frame: its octets, others that its frame check sequence shows to be
        damaged, or None."""
        draw = self._dice.fraction()
        if draw < self._lose:
            self.lost += 1
            return None
        if draw < self._lose + self._damage and octets:
            self.damaged += 1
            return self._damaged(octets)
        return octets

    def _damaged(self, octets: bytes) -> bytes:
        damaged = bytearray(octets)
        while damaged == octets or x25lines.is_sealed(bytes(damaged)):
            damaged[self._dice.below(len(damaged))] ^= 1 << self._dice.below(8)
        return bytes(damaged)
