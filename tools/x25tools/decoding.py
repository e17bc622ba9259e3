"""The program's `decode` as a child process that answers what it is asked, and where the program
is found."""

from __future__ import annotations

import argparse
import contextlib
import functools
import os
import re
import select
import shutil
import subprocess
from typing import IO, Any, Protocol, Sequence

from x25tools import x25lines
from x25tools.x25lines import BadInput

# The program that was built or installed together with the scripts, which stand in tools/ or
# lib/x25/; then the one of `make look`.
FOLDER = os.path.dirname(os.path.dirname(os.path.realpath(__file__)))
UNPROVED = "x25-unproved"
PLACES = [
    os.path.normpath(os.path.join(FOLDER, place))
    for place in ("../build/x25", "../../libexec/x25", f"../build/{UNPROVED}")
]
MISSING = (
    "frames in hexadecimal digits need the program x25: build it (make look, make x25) or name it "
    "(--x25)"
)
MISSING_STATION = (
    "a station needs the program x25: build it (make look, make x25) or name it (--x25)"
)
# The answer to a line that is none of a trace.
REFUSED = "? 60"
# The kinds of frames, in the order of a statistic: those of LAPB modulo 8, and those that `decode
# --wide` names.
FRAMES = (
    "I", "RR", "RNR", "REJ", "SABM", "DISC", "UA", "DM", "FRMR", "SREJ", "SABME", "SARM", "XID",
    "TEST", "UI", "fault",
)
# A line of `decode`.
TEXT_LINE = re.compile(rb"[<>] (?:%b) [ -~]*" % "|".join(FRAMES).encode())
# Data in such a line that isn't digits of octets: then it is none.
NO_DIGITS = re.compile(rb" data=(?!(?:-|(?:[0-9a-f]{2})+)(?: |$))")


# A program that is asked line by line.
Child = subprocess.Popen[bytes]


class Asked(Protocol):
    """What answers the frames in a text, each in a line."""

    def texts(self, asked: str, connections: Sequence[Any] = ...) -> list[str]: ...


def find_program() -> str | None:
    """The program that the variable X25 names, or `x25` of the PATH, or else the one that was
    built or installed with this file; None where there is none."""
    return (
        os.environ.get("X25")
        or shutil.which("x25")
        or next((place for place in PLACES if os.path.isfile(place)), None)
    )


@functools.lru_cache(maxsize=None)
def say_if_unproved(program: str) -> None:
    """Says on standard error that a program is unproved, where it is the one of `make look`: once
    of each that was built, which a file beside it keeps. Who names it by X25 isn't told."""
    if os.path.basename(program) != UNPROVED or os.environ.get("X25"):
        return
    said = f"{program}.said"
    with contextlib.suppress(OSError):
        if os.path.getmtime(said) >= os.path.getmtime(program):
            return
    x25lines.warn(f"{program} is unproved (make x25 proves it); this is said once")
    with contextlib.suppress(OSError), open(said, "w"):
        pass


def add_program(parser: argparse.ArgumentParser) -> None:
    """Adds the word that names the program to a parser of words."""
    parser.add_argument("--x25", default=find_program(), metavar="PROGRAM", help="the program")


def pipes(child: Child) -> tuple[IO[bytes], IO[bytes]]:
    """What is written to a program, and what it writes."""
    assert child.stdin and child.stdout
    return child.stdin, child.stdout


def last_lines(child: Child) -> list[str]:
    """What a program that is asked line by line writes once there is no line more."""
    given, made = pipes(child)
    os.set_blocking(given.fileno(), True)
    given.close()
    return made.read().decode("ascii", "replace").splitlines()


def let_end(child: Child) -> None:
    """Closes the pipes of a program that is asked line by line, which ends it, and waits for its
    end."""
    given, made = pipes(child)
    made.close()
    with contextlib.suppress(BrokenPipeError):
        given.close()
    child.wait()


class Decoder:
    """Gives frames to a task of the program, which answers each by a line: those that are there at
    once together, so that what comes live is answered before the next is there."""

    def __init__(
        self, program: str | None, words: Sequence[str] = ("--wide",), task: str = "decode"
    ) -> None:
        self._program = program
        self._words = words
        self._task = task
        self._child: Child | None = None

    def __enter__(self) -> Decoder:
        return self

    def __exit__(self, *_: object) -> None:
        if self._child is not None:
            let_end(self._child)

    def texts(self, asked: str, connections: Sequence[object] = ()) -> list[str]:
        """The answers to the lines of a trace in a text, each with what stands before the frame's
        digits, whatever the connection of each."""
        if not asked:
            return []
        if self._child is None:
            self._child = self._begun()
        count = len(connections) or asked.count("\n")
        texts = self._answers(self._child, asked.encode("latin-1"), count)
        if len(texts) != count or texts[0][:2] not in (asked[:2].partition("\n")[0], REFUSED[:2]):
            raise BadInput(f"{self._program} {self._task} didn't answer line by line")
        return texts

    @staticmethod
    def _answers(child: Child, asked: bytes, count: int) -> list[str]:
        """Writes what is asked and reads so many lines, each as there is room for it or as it is
        there: so neither pipe can fill."""
        writer, reader = (pipe.fileno() for pipe in pipes(child))
        texts: list[str] = []
        left, rest = memoryview(asked), ""
        while len(texts) < count:
            readable, writable, _ = select.select([reader], [writer] if left else [], [])
            try:
                left = left[os.write(writer, left) :] if writable else left
            except BrokenPipeError:
                left = left[:0]
            if readable:
                octets = os.read(reader, x25lines.PIECE)
                if not octets:
                    break
                *lines, rest = (rest + octets.decode("ascii", "replace")).split("\n")
                texts += lines
        return texts if not rest else [*texts, rest]

    def last_lines(self) -> list[str]:
        """What the task writes once there is no line more."""
        self._child = self._child or self._begun()
        return last_lines(self._child)

    def _begun(self) -> Child:
        if self._program is None:
            raise BadInput(MISSING)
        say_if_unproved(self._program)
        try:
            # In a session of its own CTRL-C doesn't end it before the one who asks it.
            child = subprocess.Popen(
                [self._program, self._task, *self._words],
                start_new_session=True,
                stdin=subprocess.PIPE,
                stdout=subprocess.PIPE,
            )
        except OSError as error:
            raise BadInput(f"{self._program}: {error.strerror}") from error
        # So that a write takes what there is room for.
        os.set_blocking(pipes(child)[0].fileno(), False)
        return child
