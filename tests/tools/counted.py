"""Bridges in this process, each in a thread of its own, over counted time.

Time stands still while anything can be done. Where all wait in vain it goes on at once to the
first moment that one of them waits for. So nothing waits for a real clock, and a slow machine is
as good as a quick one.
"""

import contextlib
import math
import os
import select
import signal
import sys
import threading
import time
from unittest import mock

import support

from x25tools import bridge, users, waiting, x25lines

# How long nothing may happen, in real seconds, before time goes on, and before a test has failed.
STILL, HUNG = 0.004, 60
REAL = time.monotonic


class Clock:
    """The time of all who take part; each of them waits by `ready`."""

    def __init__(self):
        self._lock = threading.Lock()
        self._now, self._still = 1000.0, REAL()
        self._parties = {threading.current_thread()}
        # Who waits: for which files, and up to which moment.
        self._waiting = {}

    def monotonic(self):
        return self._now

    def join(self, thread):
        with self._lock:
            self._parties.add(thread)

    def leave(self):
        with self._lock:
            self._parties.discard(threading.current_thread())

    @contextlib.contextmanager
    def handed_in(self):
        """The scripts have this clock in place of the system's."""
        with mock.patch.object(time, "monotonic", self.monotonic), mock.patch.object(
            waiting, "ready", self.ready
        ):
            yield

    def ready(self, readers, writers, patience):
        """As `waiting.ready`, in this time."""
        files = [
            *((number, select.POLLIN) for number in readers),
            *((number, select.POLLOUT) for number in writers),
        ]
        until = math.inf if patience is None else self._now + math.ceil(1000 * patience) / 1000
        me, last = threading.current_thread(), REAL() + HUNG
        while True:
            with self._lock:
                found = polled(files)
                if found or self._now >= until:
                    self._waiting.pop(me, None)
                    self._still = REAL()
                    return found
                self._waiting[me] = files, until
                self._go_on()
            if REAL() > last:
                raise AssertionError("nothing has happened for long")
            wait(0.0004)

    def _go_on(self):
        """Time goes on where all have waited in vain for a while."""
        if (
            self._parties <= set(self._waiting)
            and not any(polled(files) for files, _ in self._waiting.values())
        ):
            moment = min(until for _, until in self._waiting.values())
            if REAL() - self._still > STILL and self._now < moment < math.inf:
                # A little more: a moment in milliseconds is none of binary fractions.
                self._now = moment + 1e-6
        else:
            self._still = REAL()

    def sleep(self, seconds):
        self.ready([], [], seconds)


wait = threading.Event().wait


def polled(files):
    """Those of some files that are ready at this moment."""
    poll = select.poll()
    for number, events in files:
        poll.register(number, events)
    return {number for number, _ in poll.poll(0)}


class Pipe:
    """The reading end of a pipe, whose reader waits in counted time."""

    def __init__(self, clock, number, is_own=True):
        self._clock, self.number, self._is_own = clock, number, is_own
        self._rest, self._is_over = b"", False

    def take(self):
        """Reads what is there."""
        octets = os.read(self.number, 1 << 16)
        self._rest += octets
        self._is_over = self._is_over or not octets

    def readline(self):
        while b"\n" not in self._rest and not self._is_over:
            self._clock.ready([self.number], [], None)
            self.take()
        line, feed, self._rest = self._rest.partition(b"\n")
        return (line + feed).decode()

    def read(self):
        return "".join(iter(self.readline, ""))

    def close(self):
        """Closes it, where nobody else does."""
        if self._is_own:
            with contextlib.suppress(OSError):
                os.close(self.number)


class Signals(users.Signals):
    """Signals that a test sends to a bridge of its own process."""

    def __enter__(self):
        OWN.running.signals = self
        return self

    def __exit__(self, *_):
        pass

    def come(self, number):
        self._writer.send(bytes([number]))


# What belongs to the bridge of a thread; what reads the words of one.
OWN, WORDS = threading.local(), bridge.words


def warn(text):
    os.write(OWN.running.said, f"bridge.py: {x25lines.named(str(text))}\n".encode())


class Running:
    """A bridge in a thread: `stdin`, `stdout`, `stderr` and `returncode` as of a process."""

    def __init__(self, clock, *words):
        self._clock, self.returncode, self.signals = clock, None, None
        commands, given = os.pipe()
        told, notices = os.pipe()
        said, self.said = os.pipe()
        self.stdin, self.stdout, self.stderr = (
            open(given, "w"), Pipe(clock, told), Pipe(clock, said)
        )
        self._mine = commands, notices
        with mock.patch.object(sys, "argv", ["bridge.py", *words]):
            self._options = WORDS()
        self._options.commands = self._options.commands or f"/dev/fd/{commands}"
        self._options.notices = self._options.notices or f"/dev/fd/{notices}"
        self._thread = threading.Thread(target=self._run, daemon=True)
        clock.join(self._thread)
        self._thread.start()

    def _run(self):
        OWN.running, OWN.options = self, self._options
        status = 1
        try:
            status = bridge.main()
        except x25lines.BadInput as error:
            warn(error)
            status = 2
        except OSError as error:
            warn(error.strerror)
        finally:
            for number in (*self._mine, self.said):
                os.close(number)
            self.returncode = status
            self._clock.leave()

    def send_signal(self, number):
        self.signals.come(number)

    def terminate(self):
        self.send_signal(signal.SIGTERM)

    def wait(self):
        self._thread.join(HUNG)
        return self.returncode


def communicate(clock, *pairs):
    """Gives bridges their commands, to their end; answers what each told and said."""
    left = {child: memoryview(text.encode()) for child, text in pairs}
    for child in left:
        os.set_blocking(child.stdin.fileno(), False)
    told = {child: [b"", b""] for child in left}
    pipes = {
        pipe.number: (child, place)
        for child in left
        for place, pipe in enumerate((child.stdout, child.stderr))
    }
    while pipes or left:
        writers = {child.stdin.fileno(): child for child in left}
        for number in clock.ready(list(pipes), list(writers), None):
            if number in writers:
                child = writers[number]
                with contextlib.suppress(BlockingIOError, BrokenPipeError):
                    left[child] = left[child][os.write(number, left[child][:4096]) :]
                if not left[child] or child.returncode is not None:
                    child.stdin.close()
                    del left[child]
            else:
                octets = os.read(number, 1 << 16)
                child, place = pipes[number]
                told[child][place] += octets
                if not octets:
                    del pipes[number]
    for child in told:
        child.wait()
    return [[octets.decode() for octets in told[child]] for child, _ in pairs]


class CountedCase(support.ToolCase):
    """A test whose bridges run in counted time."""

    def setUp(self):
        super().setUp()
        self.clock = Clock()
        patches = contextlib.ExitStack()
        self.addCleanup(patches.close)
        patches.enter_context(self.clock.handed_in())
        patches.enter_context(mock.patch.object(bridge, "Signals", Signals))
        patches.enter_context(mock.patch.object(bridge, "words", lambda: OWN.options))
        patches.enter_context(mock.patch.object(x25lines, "warn", warn))
        self.addCleanup(self.end_all)
        self.running = []

    def started(self, *words):
        """A bridge that begins with these words."""
        self.running.append(Running(self.clock, *words))
        return self.running[-1]

    def end_all(self):
        """Ends those that still run."""
        for child in self.running:
            if child.returncode is None:
                child.stdout.close()
                child.terminate()
        for child in self.running:
            last = REAL() + HUNG
            while child.returncode is None and REAL() < last:
                self.clock.sleep(1)
