"""A terminal for tests: a script at a pseudo terminal, what is typed there, and what its screen
shows."""

import fcntl
import os
import pty
import re
import select
import struct
import sys
import termios
import time

import support

WIDTH, HEIGHT = 100, 24
SEQUENCE = re.compile(r"\x1b\[([?\d;]*)([A-Za-z@])|\x1b([78D=>])|([^\x1b])", re.DOTALL)
SECONDS = 30


class Display:
    """Rows of characters, as a VT100 and its kin have them; those that went off at the top are
    kept."""

    def __init__(self):
        self._gone, self._rows = [], [[] for _ in range(HEIGHT)]
        self._row = self._column = 0
        self._saved, self._open = (0, 0), ""

    def text(self):
        """The lines that were shown, but for empty ones after the last."""
        return "\n".join("".join(row).rstrip() for row in [*self._gone, *self._rows]).rstrip()

    def write(self, text):
        """Takes what a program writes."""
        text, at = self._open + text, 0
        while found := SEQUENCE.match(text, at):
            at = found.end()
            if found[2]:
                self._control(found[2], int(found[1]) if found[1].isdigit() else None)
            elif found[3]:
                self._escape(found[3])
            else:
                self._put(found[4])
        self._open = text[at:]

    def _escape(self, it):
        if it == "D":
            self._down()
        elif it == "7":
            self._saved = self._row, self._column
        elif it == "8":
            self._row, self._column = self._saved

    def _put(self, it):
        row = self._rows[self._row]
        if it == "\r":
            self._column = 0
        elif it == "\b":
            self._column = max(0, self._column - 1)
        elif it == "\n":
            self._down()
        elif it != "\a":
            row += " " * (self._column + 1 - len(row))
            row[self._column] = it
            self._column = min(self._column + 1, WIDTH - 1)

    def _down(self):
        if self._row == HEIGHT - 1:
            self._gone.append(self._rows.pop(0))
            self._rows.append([])
        else:
            self._row += 1

    def _control(self, it, number):
        row, count = self._rows[self._row], number or 1
        if it == "A":
            self._row = max(0, self._row - count)
        elif it == "B":
            self._row = min(HEIGHT - 1, self._row + count)
        elif it == "C":
            self._column = min(WIDTH - 1, self._column + count)
        elif it == "D":
            self._column = max(0, self._column - count)
        elif it == "K":
            del row[0 if number == 2 else self._column :]
        elif it == "L":
            for _ in range(count):
                self._rows.insert(self._row, [])
                self._rows.pop()
        elif it == "P":
            del row[self._column : self._column + count]
        elif it == "@":
            row[self._column : self._column] = " " * count


def script(name, *words):
    """The command of a script of tools/."""
    return [sys.executable, os.path.join(support.TOOLS, name), *words]


class Terminal:
    """A command at a pseudo terminal."""

    def __init__(self, command):
        self.child, self.file = pty.fork()
        if self.child == 0:
            os.environ.update(TERM="xterm", INPUTRC="/dev/null", LC_ALL="C.UTF-8")
            os.execvp(command[0], command)
        fcntl.ioctl(self.file, termios.TIOCSWINSZ, struct.pack("4H", HEIGHT, WIDTH, 0, 0))
        self.display, self.status = Display(), None

    def types(self, text):
        """Types something."""
        os.write(self.file, text.encode())

    def echoes(self):
        """Whether the terminal itself writes what is typed, as it does but for a program that
        edits lines."""
        return bool(termios.tcgetattr(self.file)[3] & termios.ECHO)

    def shows(self, text):
        """What the screen shows, once it has a text; an error where that doesn't come."""
        last = time.monotonic() + SECONDS
        while text not in self.display.text():
            if time.monotonic() > last or not self._read(last):
                raise AssertionError(f"{text!r} isn't shown:\n{self.display.text()}")
        return self.display.text()

    def _read(self, last):
        """Reads what comes; answers False at the end."""
        if select.select([self.file], [], [], max(0, last - time.monotonic()))[0]:
            try:
                self.display.write(os.read(self.file, 1 << 16).decode(errors="replace"))
            except OSError:
                return False
        return True

    def end(self):
        """Waits for the end of the script; answers its status, and what the screen shows."""
        last = time.monotonic() + SECONDS
        while time.monotonic() < last and self._read(last):
            pass
        if self.status is None:
            if time.monotonic() >= last:
                os.kill(self.child, 9)
            self.status = os.waitstatus_to_exitcode(os.waitpid(self.child, 0)[1])
        return self.status, self.display.text()

    def close(self):
        """Ends what still runs."""
        if self.status is None:
            os.kill(self.child, 9)
            os.waitpid(self.child, 0)
        os.close(self.file)
