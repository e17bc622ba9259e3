"""Words of a command line: ports, hosts, both, and numbers in a range."""

from __future__ import annotations

import argparse
import re
from typing import Callable, TypeVar

from x25tools.xot import XOT_PORT


N = TypeVar("N", int, float)


def port(text: str) -> int:
    """A word that is the number of a port; 0 lets the system choose one."""
    if not re.fullmatch("[0-9]{1,5}", text) or int(text) > 65_535:
        raise argparse.ArgumentTypeError(f"{text!r} is no port")
    return int(text)


def host(text: str) -> str:
    """A word that is a name or an address; one of IPv6 stands in brackets."""
    found = re.fullmatch(r"\[([0-9a-fA-F:.%\w]+)\]|([^:\[\]]+)", text)
    if not found:
        raise argparse.ArgumentTypeError(
            f"{text!r} is no name of a host and no address; one of IPv6 stands in brackets"
        )
    return found[1] or found[2]


def host_and_port(text: str) -> tuple[str, int]:
    """A word HOST:PORT, or PORT of this host."""
    name, _, number = text.rpartition(":")
    if not name and not re.fullmatch(r"[0-9]+", number):
        raise argparse.ArgumentTypeError(f"{text!r} is neither HOST:PORT nor a port of this host")
    return host(name) if name else "127.0.0.1", port(number)


def ports(text: str) -> tuple[int, str, int]:
    """A word LOCAL:REMOTE, two ports of this host, or LOCAL:HOST:REMOTE."""
    local, _, remote = text.partition(":")
    return (port(local), *host_and_port(remote))


def xot_host(text: str) -> tuple[str, int]:
    """A word HOST or HOST:PORT of XOT."""
    has_port = re.fullmatch(r".*:[0-9]*", text) and not text.endswith("]")
    return host_and_port(text) if has_port else (host(text), XOT_PORT)


def within(read: Callable[[str], N], least: float, most: float) -> Callable[[str], N]:
    """What reads a word that is a number in a range; `read` is `int` or `float`."""

    def number(text: str) -> N:
        try:
            value = read(text)
        except ValueError:
            value = None
        if value is None or not least <= value <= most:
            raise argparse.ArgumentTypeError(f"{text!r} is no number from {least} to {most}")
        return value

    return number
