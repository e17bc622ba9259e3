"""Connections over TCP in a loop around `waiting.ready`: the ends of one that are names and ports,
those that listen, what goes and comes."""

from __future__ import annotations

import contextlib
import errno
import os
import socket
from typing import Any, Container

from x25tools import x25lines
from x25tools.x25lines import BadInput

MOST_READ = 65_536
# An address of TCP: a host and a port, and of IPv6 two numbers more.
Address = Any


def addresses(
    host: str, port: int, kind: socket.SocketKind = socket.SOCK_STREAM
) -> list[tuple[socket.AddressFamily, Address]]:
    """The addresses of a host's port, each with its family."""
    try:
        return [(row[0], row[4]) for row in socket.getaddrinfo(host, port, type=kind)]
    except socket.gaierror as error:
        raise BadInput(f"{host}: {error.strerror}") from error


def written(address: Address) -> str:
    """An address and its port as they are written."""
    return f"[{address[0]}]:{address[1]}" if ":" in address[0] else f"{address[0]}:{address[1]}"


def server(host: str, port: int) -> socket.socket:
    """Listens at a port of a host, for connections over TCP, and says so."""
    family, address = addresses(host, port)[0]
    try:
        opened = socket.create_server(address[:2], family=family)
    except OSError as error:
        raise BadInput(f"{written(address)}: {error.strerror}") from error
    opened.setblocking(False)
    x25lines.warn(f"listening on {written(opened.getsockname())}")
    return opened


def accepted(opened: socket.socket) -> socket.socket | None:
    """The connection that comes next to a server, or None where it has gone already."""
    try:
        return opened.accept()[0]
    except OSError:
        return None


class Connection:
    """A connection over TCP, or one that is being made to an address (`is_open` says which): what
    waits to be written, and what came.

    Where nothing comes for `t3` seconds, the system asks whether the other end is still there; if
    not, the connection ends.
    """

    def __init__(self, opened: socket.socket, t3: float, address: Address | None = None) -> None:
        self._socket, self._left = opened, bytearray()
        # The number of its file, by which a loop knows it.
        self.number = opened.fileno()
        self.is_open, self.why = address is None, ""
        opened.setblocking(False)
        opened.setsockopt(socket.IPPROTO_TCP, socket.TCP_NODELAY, 1)
        if t3:
            self._keep_alive(max(1, round(t3)))
        self._error = opened.connect_ex(address) if address else 0

    def _keep_alive(self, seconds: int) -> None:
        self._socket.setsockopt(socket.SOL_SOCKET, socket.SO_KEEPALIVE, 1)
        values = {
            "TCP_KEEPIDLE": seconds,
            "TCP_KEEPINTVL": max(1, seconds // 3),
            "TCP_KEEPCNT": 3,
            "TCP_USER_TIMEOUT": 2000 * seconds,
        }
        for name, value in values.items():
            if hasattr(socket, name):
                self._socket.setsockopt(socket.IPPROTO_TCP, getattr(socket, name), value)

    @property
    def waits(self) -> int:
        """How many octets wait to be written."""
        return len(self._left)

    def wants_room(self) -> bool:
        """Whether it has something to do once there is room."""
        return bool(self._left) or not self.is_open

    def left(self) -> bytes:
        """The octets that wait to be written."""
        return bytes(self._left)

    def send(self, octets: bytes) -> None:
        """Has octets written, by and by."""
        self._left += octets

    def turn(self, ready: Container[int]) -> bytes | None:
        """Where its file is ready: writes, and answers the octets that came; None where the
        connection has ended, or wasn't made."""
        if self.number not in ready:
            return b""
        try:
            if not self.is_open:
                self._be_made()
            if self._left:
                with contextlib.suppress(BlockingIOError):
                    del self._left[: self._socket.send(self._left)]
            octets = self._socket.recv(MOST_READ)
        except BlockingIOError:
            return b""
        except OSError as error:
            self.why = error.strerror
            return None
        return octets or None

    def _be_made(self) -> None:
        error = self._socket.getsockopt(socket.SOL_SOCKET, socket.SO_ERROR)
        if self._error not in (0, errno.EINPROGRESS):
            error = self._error
        if error:
            raise OSError(error, os.strerror(error))
        self.is_open = True

    def other(self) -> str:
        """The address of the other end, as it is written."""
        try:
            return written(self._socket.getpeername())
        except OSError:
            return "one who has gone"

    def part(self, text: str) -> None:
        """Tells the other end why it is closed, as a comment of a trace, where there is room."""
        with contextlib.suppress(OSError):
            self._socket.send(f"# {text}\n".encode())
            self._socket.shutdown(socket.SHUT_WR)

    def close(self) -> None:
        """Closes it; what waits is lost."""
        self._socket.close()
        self.number = -1
