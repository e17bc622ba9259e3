"""What a capture has before what it answers, as one of two queues or two taps may: it waits until
that has come."""

from __future__ import annotations

from typing import Callable, Dict, Generic, Hashable, List, TypeVar

# A thing waits while so few more of its connection have come; then what it answers is taken for
# missing.
MOST_EARLY = 16

T = TypeVar("T")
F = TypeVar("F")


class Early(Generic[T, F]):
    """Reads things of connections, each by its key; one that is early, and those after it, wait.
    `is_early` says of a thing whether it answers what hasn't come, and `read` reads it."""

    def __init__(self, is_early: Callable[[T], bool], read: Callable[[T], List[F]]) -> None:
        self._is_early, self._read = is_early, read
        self._held: Dict[Hashable, List[T]] = {}

    def take(self, key: Hashable, thing: T) -> List[F]:
        """Takes the next thing of a connection; answers what is found in those that are read
        now."""
        if key not in self._held and not self._is_early(thing):
            return self._read(thing)
        held = self._held.setdefault(key, [])
        held.append(thing)
        found = self._read_what_is_not_early(held)
        while len(held) > MOST_EARLY:
            found += self._read(held.pop(0)) + self._read_what_is_not_early(held)
        if not held:
            del self._held[key]
        return found

    def give_up(self, key: Hashable) -> List[F]:
        """Reads what waits of a connection."""
        held, found = self._held.pop(key, []), []
        while held:
            found += self._read(held.pop(0)) + self._read_what_is_not_early(held)
        return found

    def end(self) -> List[F]:
        """Reads what waits of all connections."""
        return [found for key in list(self._held) for found in self.give_up(key)]

    def _read_what_is_not_early(self, held: List[T]) -> List[F]:
        found: List[F] = []
        while (
            place := next(
                (place for place, thing in enumerate(held) if not self._is_early(thing)), None
            )
        ) is not None:
            found += self._read(held.pop(place))
        return found
