"""The user of a bridge: commands that come and are held, notices that are told, signals; and files
whose readers may be slow."""

from __future__ import annotations

import os
import re
import signal
import socket
import time
from collections import Counter, OrderedDict, deque
from typing import Callable, Container, Iterable, Protocol

from x25tools import waiting, x25lines
from x25tools.tcp import MOST_READ
from x25tools.wires import ROOM
from x25tools.x25lines import BadInput

# How many notices a `wait` may find that came before it, and how much of each.
MOST_NOTICES, MOST_OF_A_NOTICE = 10_000, 200
# A reader is slow while so many octets wait for it, and those after so many more are left out.
SLOW, FULL = 1 << 18, 1 << 25
# How long a reader is waited for at the end, and how long a `wait` lasts before that is told, in
# seconds.
PATIENCE, SILENCE = 2, 10
# A message of a channel; what waits while messages of a channel, or of any, stand aside. So many
# octets may stand aside.
MESSAGE = re.compile(rb"d(?:te|ce) send (\d+) ")
LATER = re.compile(
    rb"d(?:te|ce) (?:(?:(?:with \S+ \S+ (?:d )?)?clear|reset) (\d+)|restart|disconnect)(?: "
    rb"(?:cause|diag)=|$)"
)
MOST_ASIDE = 1 << 22


class Written(Protocol):
    """A file that is written by its number."""

    def fileno(self) -> int: ...


class Outlet:
    """Lines that a file is given, as there is room. Those for which a slow reader leaves none are
    left out, and told by their kinds."""

    def __init__(
        self, file: Written | None, kind_of: Callable[[str], str] = lambda line: "line"
    ) -> None:
        self._file, self._kind_of = file, kind_of
        self._left = bytearray()
        self._left_out: Counter[str] = Counter()

    def __len__(self) -> int:
        """How many octets wait."""
        return len(self._left)

    @property
    def number(self) -> int:
        """The number of the file."""
        assert self._file
        return self._file.fileno()

    def is_slow(self) -> bool:
        """Whether the reader is far behind."""
        return len(self._left) >= SLOW

    def put(self, line: str) -> None:
        """Has a line written, by and by, or left out."""
        if len(self._left) > FULL or (self._left_out and self.is_slow()):
            self._left_out[self._kind_of(line)] += 1
            return
        if self._left_out:
            kinds = ", ".join(
                f"{count:,} {kind}" for kind, count in sorted(self._left_out.items())
            )
            self._left += self.spelled(f"# left out, while nobody read: {kinds}").encode()
            self._left_out.clear()
        self._left += self.spelled(line).encode()

    def spelled(self, line: str) -> str:
        """What is written for a line."""
        return f"{line}\n"

    def flush(self) -> None:
        """Writes what there is room for, without waiting."""
        while self._left and waiting.ready([], [self.number], 0):
            try:
                del self._left[: os.write(self.number, self._left[:ROOM])]
            except BlockingIOError:
                pass
            except BrokenPipeError:
                raise
            except OSError as error:
                raise BadInput(
                    f"{getattr(self._file, 'name', self.number)}: {error.strerror}"
                ) from error

    def end(self) -> None:
        """Writes what is left, as long as the reader goes on."""
        while self._left and waiting.ready([], [self.number], PATIENCE):
            self.flush()


def kind(notice: str) -> str:
    """What a notice is about: the word after the end; of others the sign that they begin with."""
    first, _, rest = notice.partition(" ")
    return rest.split(" ")[0] if first in ("dte", "dce") else first


class Signals:
    """CTRL-C, SIGTERM and SIGHUP as something to read. The first is `number` once it is read; a
    second one ends the script at once. 0 is for `leave`.

    `at_first` is called when the first one comes, before a second one can.
    """

    def __init__(self) -> None:
        self.number: int | None = None
        self.at_first: Callable[[], None] | None = None
        self._reader, self._writer = socket.socketpair()

    def __enter__(self) -> Signals:
        self._writer.setblocking(False)
        signal.set_wakeup_fd(self._writer.fileno())
        for number in (signal.SIGINT, signal.SIGTERM):
            signal.signal(number, self._come)
        # `nohup` has it ignored.
        if signal.getsignal(signal.SIGHUP) != signal.SIG_IGN:
            signal.signal(signal.SIGHUP, self._come)
        return self

    def __exit__(self, *_: object) -> None:
        signal.set_wakeup_fd(-1)

    def _come(self, *_: object) -> None:
        if self.at_first:
            self.at_first()
        for each in (signal.SIGINT, signal.SIGTERM):
            signal.signal(each, signal.SIG_DFL)

    def leave(self) -> None:
        """The user wants to end."""
        self._writer.send(b"\0")

    def readers(self) -> list[int]:
        """The file that has something to read once one came, until it is read."""
        return [self._reader.fileno()] if self.number is None else []

    def read(self, ready: Container[int]) -> None:
        """Reads the first that came: what `_come` itself set could be missed by a wait that begins
        just then."""
        if self._reader.fileno() in ready:
            self.number = self._reader.recv(1)[0]


class Commands:
    """Lines that wait to be asked, in the order in which they came.

    A message for which its circuit has no room stands aside, and after it those of the same
    channel, so that it holds nothing else; but `clear`, `reset`, `restart` and `disconnect` let
    the messages go first, as long as one of the circuit is taken within `patience` seconds.
    """

    def __init__(self, patience: float) -> None:
        self._patience = patience
        # Those that wait in order, and how many octets these are.
        self._lines: deque[bytes] = deque()
        self.octets = 0
        # By channels: the messages that stand aside, and when one was taken last. The octets of
        # these.
        self._aside: dict[bytes, deque[bytes]] = {}
        self._last: dict[bytes, float] = {}
        self._beside = 0
        # How often there may have been room, and of these channels how often that was when their
        # circuit had none: the one that was asked longest ago is first.
        self._rooms = 0
        self._full: OrderedDict[bytes, int] = OrderedDict()
        # The channel whose message `next` answered.
        self._at: bytes | None = None

    def __len__(self) -> int:
        """How many lines wait in order."""
        return len(self._lines)

    def add(self, lines: Iterable[bytes]) -> None:
        """Lines came."""
        for line in lines:
            self._lines.append(line)
            self.octets += len(line) + 1

    def are_done(self) -> bool:
        """Whether none waits."""
        return not self._lines and not self._aside

    def first(self) -> bytes:
        """The first of those that wait in order, or nothing."""
        return self._lines[0] if self._lines else b""

    def drop_first(self) -> bytes:
        """The first of those that wait in order is done with; answers it."""
        line = self._lines.popleft()
        self.octets -= len(line) + 1
        return line

    def next(self) -> bytes | None:
        """The command whose time has come, or None; a `wait` holds those after it."""
        first = next(iter(self._full), None)
        self._at = first if first is not None and self._full[first] < self._rooms else None
        if self._at is not None:
            return self._aside[self._at][0]
        while self._lines and not self._lines[0].startswith(b"wait "):
            found = MESSAGE.match(self._lines[0])
            if found and found[1] in self._aside:
                if self._beside >= MOST_ASIDE:
                    return None
                self._put_aside(found[1])
            else:
                due = self.due()
                return self._lines[0] if due is None or time.monotonic() >= due else None
        return None

    def due(self) -> float | None:
        """When the first line goes before messages that stand aside; None where it lets none go
        first."""
        found = LATER.match(self.first())
        if not found or not self._last:
            return None
        last = max(self._last.values()) if found[1] is None else self._last.get(found[1])
        return None if last is None else last + self._patience

    def take(self) -> None:
        """The line that `next` answered was asked."""
        if self._at is None:
            self.drop_first()
            return
        self._beside -= len(self._aside[self._at].popleft())
        self._last[self._at] = time.monotonic()
        if not self._aside[self._at]:
            del self._aside[self._at], self._last[self._at], self._full[self._at]

    def have_no_room(self) -> None:
        """The message that `next` answered was refused, as its circuit has no room before
        `make_room`."""
        channel = self._at
        if channel is None:
            found = MESSAGE.match(self._lines[0])
            assert found
            channel = found[1]
            self._last[channel] = time.monotonic()
            self._put_aside(channel)
        self._full[channel] = self._rooms
        self._full.move_to_end(channel)

    def _put_aside(self, channel: bytes) -> None:
        line = self.drop_first()
        self._beside += len(line)
        self._aside.setdefault(channel, deque()).append(line)

    def make_room(self) -> None:
        """Something happened by which there may be room in any circuit."""
        self._rooms += 1


class User:
    """The user of an end. `commands` is the number of the file that they come by, or None;
    `notices` is an outlet; `patience` is theirs."""

    def __init__(
        self, commands: int | None, notices: Outlet, patience: float, is_at_terminal: bool = False
    ) -> None:
        self._file, self.notices, self._is_at_terminal = commands, notices, is_at_terminal
        self.commands = Commands(patience)
        self._open = b""
        # Notices since the one that was waited for last: those that the `wait` which is first has
        # looked at, and those after them.
        self._passed, self._heard = (deque[str](maxlen=MOST_NOTICES) for _ in range(2))
        self._is_ended = commands is None
        # Since when the `wait` waits that is first, and whether it was told that it does.
        self._since: float | None = None
        self._is_told = False

    def readers(self) -> list[int]:
        """The file to read from, where more commands may come and few wait in order."""
        return (
            []
            if self._file is None or self._is_ended or self.commands.octets >= MOST_READ
            else [self._file]
        )

    def read(self, ready: Container[int]) -> None:
        """Reads what has come. Of a line that is far too long a beginning is kept, which is too
        long for a command, too."""
        if self._file is None or self._is_ended or self._file not in ready:
            return
        octets = os.read(self._file, MOST_READ)
        *whole, rest = (self._open + octets).split(b"\n")
        self._open = rest[: x25lines.MOST_CHARACTERS + 1]
        if not octets:
            self._is_ended = True
            whole = [self._open] if self._open else []
        self.commands.add(line.removesuffix(b"\r") for line in whole)

    def command(self) -> str | None:
        """The command that is next, or None where there is none or its time hasn't come."""
        self.awaits()
        line = self.commands.next()
        return None if line is None else line.decode("latin-1")

    def awaits(self) -> tuple[str, float] | None:
        """What the first line waits for by `wait`, and since when; None where that has come, or it
        waits for nothing."""
        while (line := self.commands.first()).startswith(b"wait "):
            self._since = self._since or time.monotonic()
            text = line[5:].decode(errors="replace")
            if not self._has_come(text):
                return text, self._since
            self.end_wait()
        return None

    def _has_come(self, text: str) -> bool:
        """Whether a notice that begins so has come, after the one that was waited for before;
        those up to it are forgotten."""
        while self._heard:
            notice = self._heard.popleft()
            if notice.startswith(text):
                self._passed.clear()
                return True
            self._passed.append(notice)
        return False

    def end_wait(self) -> None:
        """The `wait` is over. The next one looks at what a vain one has looked at, too."""
        self._heard = deque([*self._passed, *self._heard], MOST_NOTICES)
        self._passed.clear()
        self.commands.drop_first()
        self._since, self._is_told = None, False

    def silence(self) -> float | None:
        """When it is told that a `wait` waits; None where that was told, or none does."""
        return self._since + SILENCE if self._since is not None and not self._is_told else None

    def tell_silence(self) -> None:
        """Tells that a `wait` waits, and what it holds."""
        held = self.held()
        self.note(
            f"{x25lines.shown(self.commands.first())} " + (f"holds {held}" if held else "waits")
        )
        self._is_told = True

    def held(self) -> str:
        """How many commands stand after the first one, in words."""
        count = len(self.commands) - 1
        return f"{count:,} command{'s' * (count != 1)} behind it" if count else ""

    def tell(self, notice: str) -> None:
        """Tells a notice."""
        self._heard.append(notice[:MOST_OF_A_NOTICE])
        self.notices.put(notice)

    def note(self, text: str) -> None:
        """Tells something in the bridge's own words, as a comment."""
        self.tell(f"# {text}")

    def warn(self, text: str) -> None:
        """Says what went wrong on standard error, or at a terminal as a notice."""
        if self._is_at_terminal:
            self.note(text)
        else:
            x25lines.warn(text)

    def has_done(self) -> bool:
        """Whether no command is left, and none will come."""
        return self._is_ended and self.commands.are_done()

    def has_asked(self) -> bool:
        """Whether no command is left, and none will come but for those that a user at a terminal
        may think of."""
        return self.commands.are_done() and (self._is_ended or self._is_at_terminal)
