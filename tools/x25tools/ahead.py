"""Has a process of its own make what is taken here, so that two processors work."""

from __future__ import annotations

import os
import pickle
from typing import Any, BinaryIO, Iterable, Iterator, TypeVar

from x25tools.x25lines import BadInput


T = TypeVar("T")


class End(Exception):
    """Stands after the last thing that was made."""


def ahead(things: Iterable[T]) -> Iterator[T]:
    """Yields what an iterable makes, which a process of its own goes over. What it raises is
    raised here, after what was made before."""
    reader, writer = os.pipe()
    child = os.fork()
    if child == 0:
        try:
            os.close(reader)
            with os.fdopen(writer, "wb") as out:
                _give(things, out)
        finally:
            # Nothing that waits in this process's copy of standard output is to be written twice,
            # and nobody above is to go on.
            os._exit(0)
    os.close(writer)
    try:
        with os.fdopen(reader, "rb") as given:
            while not isinstance(thing := _taken(given), End):
                if isinstance(thing, Exception):
                    raise thing
                yield thing
    finally:
        os.waitpid(child, 0)


def _taken(given: BinaryIO) -> Any:
    try:
        return pickle.load(given)
    except EOFError as error:
        raise BadInput("the process that reads the capture was stopped") from error


def _give(things: Iterable[Any], out: BinaryIO) -> None:
    """Writes each thing as soon as it is made, and what ends them."""
    try:
        for thing in things:
            pickle.dump(thing, out, pickle.HIGHEST_PROTOCOL)
            out.flush()
        pickle.dump(End(), out)
    except Exception as error:
        pickle.dump(error, out)
