"""A host: for each call that comes over a bridge a command runs, whose input and output are the
call's data."""

from __future__ import annotations

import contextlib
import os
import selectors
import signal
import subprocess
import time
from typing import Dict, List, Optional, Tuple

from x25tools import x25lines

# Commands for the bridge, and data for a command, wait in so few octets; then no more are read.
MOST_UNSENT = 1 << 16
MOST_READ = 4096
# How long a command may run on after its call has ended, in seconds.
LAST = 5
# What a call of a PAD begins its user data with, and how many octets that is.
PAD, PROTOCOL = "01", 4
# The message of X.29 by which a PAD is asked to clear once it has shown all, and how long that may
# take, in seconds.
INVITATION, PATIENCE = b"\x01", 60


class Served:
    """A call and its command. `left` is what the command hasn't read."""

    def __init__(self, channel: int, command: str, told: Dict[str, str]) -> None:
        data = told["data"].replace("-", "")
        self.channel, self.is_of_pad = channel, data.startswith(PAD)
        octets = bytes.fromhex(data)[PROTOCOL if self.is_of_pad else 0 :]
        environment = {
            "X25_CALLING": told["calling"].replace("-", ""),
            "X25_CALLED": told["called"].replace("-", ""),
            "X25_DATA": octets.hex(),
            "X25_CHANNEL": str(channel),
        }
        self.process = subprocess.Popen(
            ["sh", "-c", command],
            stdin=subprocess.PIPE,
            stdout=subprocess.PIPE,
            env={**os.environ, **environment},
            start_new_session=True,
            # Where this script runs under nohup, the command is still told that its call ends.
            preexec_fn=lambda: signal.signal(signal.SIGHUP, signal.SIG_DFL),
        )
        assert self.process.stdin and self.process.stdout
        self.into, self.out = self.process.stdin, self.process.stdout
        os.set_blocking(self.into.fileno(), False)
        self.left = bytearray()
        self.is_held = self.is_closing = False
        # When the call is cleared, where the command's output has ended.
        self.until: Optional[float] = None

    def takes(self, octets: bytes) -> None:
        """The other end sends octets; those of a PAD end their lines by CR."""
        self.left += octets.replace(b"\r", b"\n") if self.is_of_pad else octets

    def makes(self, octets: bytes) -> bytes:
        """What the command writes, as it is sent."""
        return octets.replace(b"\n", b"\r\n") if self.is_of_pad else octets

    def feed(self) -> None:
        """Has the command read what waits for it; where it doesn't read any more that is lost."""
        try:
            del self.left[: os.write(self.into.fileno(), self.left)]
        except BlockingIOError:
            pass
        except OSError:
            self.left.clear()
            self.is_closing = True

    def signal(self, number: int) -> None:
        """Sends a signal to all that the command has begun."""
        with contextlib.suppress(OSError):
            os.killpg(self.process.pid, number)

    def close(self) -> None:
        """The call is over for the command."""
        for file in (self.into, self.out):
            with contextlib.suppress(OSError):
                file.close()


class Server:
    """Takes each call of a bridge, and runs a command for it."""

    def __init__(
        self, end: str, command: str, bridge: "subprocess.Popen[bytes]", quiet: float, woken: int
    ) -> None:
        assert bridge.stdin and bridge.stdout
        self._woken = woken
        self._end, self._command, self._bridge, self._quiet = end, command, bridge, quiet
        self._into, self._from = bridge.stdin.fileno(), bridge.stdout.fileno()
        os.set_blocking(self._into, False)
        self.asks, self._rest = bytearray(), b""
        self._calls: Dict[int, Served] = {}
        # Those whose call has ended, and until when they may run.
        self._ending: List[Tuple[float, Served]] = []

    def run(self) -> int:
        """Runs until the bridge ends; answers the status."""
        try:
            while self._turn():
                pass
        finally:
            for it in [*self._calls.values(), *(it for _, it in self._ending)]:
                it.signal(signal.SIGTERM)
                it.close()
        return 0 if self._bridge.wait() == 0 else 1

    def _turn(self) -> bool:
        """What comes next; answers False where the bridge has ended."""
        with selectors.DefaultSelector() as wanted:
            wanted.register(self._from, selectors.EVENT_READ, None)
            wanted.register(self._woken, selectors.EVENT_READ, None)
            if self.asks:
                wanted.register(self._into, selectors.EVENT_WRITE, None)
            for it in self._calls.values():
                if len(self.asks) < MOST_UNSENT and it.until is None:
                    wanted.register(it.out, selectors.EVENT_READ, it)
                if it.left or it.is_closing and not it.into.closed:
                    wanted.register(it.into, selectors.EVENT_WRITE, it)
            is_due = any(it.until is not None for it in self._calls.values())
            ready = wanted.select(0.5 if self._ending or is_due else None)
        for key, _ in ready:
            if key.data is not None and key.fileobj is key.data.out:
                self._send(key.data)
            elif key.data is not None:
                self._feed(key.data)
            elif key.fd == self._into:
                with contextlib.suppress(BlockingIOError, BrokenPipeError):
                    del self.asks[: os.write(self._into, self.asks)]
            elif key.fileobj == self._from and not self._hear():
                return False
        self._reap()
        for it in [it for it in self._calls.values() if it.until is not None]:
            if not self.asks and time.monotonic() >= (it.until or 0):
                self._ask(f"clear {it.channel}")
                self._end_of(it)
        return True

    def _ask(self, command: str) -> None:
        self.asks += f"{self._end} {command}\n".encode()

    def _send(self, it: Served) -> None:
        """Sends what a command writes; where that is over the call is cleared once all of it has
        gone: a PAD does that when it is asked to, another where nothing has come for a while."""
        if self._calls.get(it.channel) is not it:
            return
        octets = os.read(it.out.fileno(), MOST_READ)
        if octets:
            self._ask(f"send {it.channel} 0 {it.makes(octets).hex()}")
        elif it.is_of_pad:
            self._ask(f"send {it.channel} 1 {INVITATION.hex()}")
            it.until = time.monotonic() + PATIENCE
        else:
            it.until = time.monotonic() + self._quiet

    def _feed(self, it: Served) -> None:
        """Has a command read; where it has read most, more may come."""
        if it.left:
            it.feed()
        if it.is_closing and not it.left:
            with contextlib.suppress(OSError):
                it.into.close()
        if it.is_held and len(it.left) < MOST_UNSENT // 2 and it.channel in self._calls:
            it.is_held = False
            self._ask(f"ready {it.channel}")

    def _end_of(self, it: Served) -> None:
        """A call has ended: its command has its hang-up."""
        del self._calls[it.channel]
        it.signal(signal.SIGHUP)
        it.close()
        self._ending.append((time.monotonic() + LAST, it))

    def _reap(self) -> None:
        """Lets go of the commands that have ended, and ends those that haven't in time."""
        left = []
        for until, it in self._ending:
            if it.process.poll() is None:
                if time.monotonic() >= until:
                    it.signal(signal.SIGKILL)
                left.append((until, it))
        self._ending = left

    def _hear(self) -> bool:
        """Reads what the bridge tells; answers False where it has ended."""
        octets = os.read(self._from, 1 << 16)
        *lines, self._rest = (self._rest + octets).split(b"\n")
        for line in lines:
            self._heed(line.decode("utf-8", "replace"))
        return bool(octets)

    def _heed(self, line: str) -> None:
        """Takes a line of the bridge."""
        end, _, entry = line.partition(" ")
        event, *words = entry.split(" ")
        told = dict(word.split("=", 1) for word in words if "=" in word)
        channel = int(told.get("ch", 0))
        it = self._calls.get(channel)
        if end in ("!", "?"):
            # A comment says why.
            return
        if end != self._end:
            x25lines.warn(line.removeprefix("# "))
        elif event == "incoming":
            self._incoming(channel, told)
        elif event in ("restarted", "restartdone", "linkdown"):
            for served in list(self._calls.values()):
                self._end_of(served)
        elif it is None:
            return
        elif event == "message":
            self._message(it, told)
            if it.until is not None and not it.is_of_pad:
                it.until = time.monotonic() + self._quiet
        elif event in ("cleared", "cleardone", "collided"):
            self._end_of(it)

    def _incoming(self, channel: int, told: Dict[str, str]) -> None:
        if channel in self._calls:
            self._end_of(self._calls[channel])
        try:
            self._calls[channel] = Served(channel, self._command, told)
        except OSError as error:
            x25lines.warn(f"{self._command}: {error.strerror}; the call is cleared")
            self._ask(f"clear {channel}")
            return
        self._ask(f"accept {channel}")

    def _message(self, it: Served, told: Dict[str, str]) -> None:
        octets = bytes.fromhex(told["data"].replace("-", ""))
        if told["q"] == "0":
            it.takes(octets)
        elif octets[:1] == INVITATION:
            it.is_closing = True
        if len(it.left) > MOST_UNSENT and not it.is_held:
            it.is_held = True
            self._ask(f"notready {it.channel}")
