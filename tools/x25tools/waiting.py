"""Waits for files, however many there are and whatever their numbers."""

from __future__ import annotations

import math
import resource
import select
from typing import Iterable

from x25tools import x25lines

# Files that a script has beside those of its line.
OTHERS = 64


def ready(readers: Iterable[int], writers: Iterable[int], patience: float | None) -> set[int]:
    """The files that can be read or written, or have ended, once there is one or so many seconds
    have passed."""
    wanted = dict.fromkeys(readers, select.POLLIN)
    for number in writers:
        wanted[number] = wanted.get(number, 0) | select.POLLOUT
    poll = select.poll()
    for number, events in wanted.items():
        poll.register(number, events)
    found = poll.poll(None if patience is None else math.ceil(1000 * patience))
    return {number for number, _ in found}


def make_room(count: int) -> None:
    """Has the system let this process open so many files beside its others, or says that it
    doesn't."""
    soft, hard = resource.getrlimit(resource.RLIMIT_NOFILE)
    needed = count + OTHERS
    if soft == resource.RLIM_INFINITY or soft >= needed:
        return
    most = needed if hard == resource.RLIM_INFINITY else min(needed, hard)
    resource.setrlimit(resource.RLIMIT_NOFILE, (most, hard))
    if most < needed:
        channels = max(0, most - OTHERS)
        x25lines.warn(f"the system allows {most} files: about {channels} circuits at once")
