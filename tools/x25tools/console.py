"""The console of a bridge: what its user types on a terminal, and how notices are shown there,
above the line that he types.

A line that is typed is one of a script without its end, with octets as hexadecimal digits or as
text in quotes. Notices are shown as they come, with what they say in words. Readline edits the
line, in a thread of its own, and hands it to the bridge by a pipe.
"""

from __future__ import annotations

import argparse
import contextlib
import difflib
import os
import re
import sys
import termios
import textwrap
import threading
from typing import Callable

from x25tools import tcp, wires, x25names
from x25tools.circuits import never_comes
from x25tools.messages import dumped
from x25tools.users import Outlet, kind

with contextlib.suppress(ImportError):
    import readline

# The fields of each command, of which those in brackets may be left out; and what it does.
COMMANDS = {
    "connect": ("", "has the link set up"),
    "disconnect": ("", "ends the link"),
    "relink": ("", "has the link set up anew"),
    "probe": ("", "polls the other end"),
    "call": (
        "CALLED CALLING [DATA] [S S W W]", "calls an address, from another: digits, or - for none"
    ),
    "accept": ("CHANNEL [S S W W]", "accepts the call that came on a channel"),
    "clear": ("CHANNEL [cause=N] [diag=N]", "refuses a call, or ends it"),
    "with": ("FAC DATA [d] COMMAND", "calls, accepts or clears with facilities, user data and D"),
    "send": ("CHANNEL Q [d] DATA", "sends a message; Q is 0 or 1, and d asks for confirmation"),
    "int": ("CHANNEL DATA", "sends an interrupt, of 1 to 32 octets"),
    "ready": ("CHANNEL", "takes messages again"),
    "notready": ("CHANNEL", "takes no messages for now"),
    "reset": ("CHANNEL [cause=N] [diag=N]", "empties the circuit, which stays"),
    "restart": ("[cause=N] [diag=N]", "clears all circuits"),
    "pull": ("", "hands down what waits in circuits"),
    "wait": ("TEXT", "holds what is typed after it until a notice begins so"),
    "status": ("", "shows the link, and the state of each circuit"),
    "help": ("[COMMAND]", "shows this; so does ?"),
    "quit": ("", "ends the link, and this program"),
}
NOTES = """\
DATA and FAC are hexadecimal digits, text in quotes, both, as "ab"0d0a, or - for none. S S W W are
packet sizes, 8 for 2 to the power of 8, and windows: of the called end's data, and the other's."""
TEXT = re.compile(r'"([^"]*)"')
DATA = re.compile(r"-|(?:[0-9a-fA-F]{2})+")
OPTIONAL = re.compile(r"\[.*?\]")
GIVEN = re.compile(r"(?:cause=\d+)?(?:(?:^| )diag=\d+)?")
OCTETS = re.compile(r"data=((?:[0-9a-f]{2})+)(?: |$)")
CHANNEL = re.compile(r" ch=(\d+)")
RUNS = re.compile(rb"([ !#-~]{3,})")
ENDS = ("dte", "dce")
# A message of more octets is shown row by row, and of more than these so many.
A_ROW, MOST_SHOWN = 16, 1024
# The width of a terminal that doesn't say its own.
WIDTH = 80
# What the events of entries mean.
MEANS = {
    "connect": "the link is to be set up",
    "relink": "the link is to be set up anew",
    "linkup": "the link is up",
    "restarted": "calls can be made",
    "restartdone": "all circuits are cleared",
    "call": "no answer yet",
    "incoming": "`accept {0}` takes the call, `clear {0}` refuses it",
    "connected": "the other end has accepted the call",
    "cleared": "the call is refused, or has ended",
    "cleardone": "the call has ended",
    "wasreset": "what was under way is lost",
    "resetdone": "what was under way is lost",
    "intdone": "the interrupt is confirmed",
    "confirmed": "the other end has taken what was sent with d",
    "collided": "both ends called",
    "fault": "the other end broke a rule",
}
# Why the link is down.
REASONS = {
    "retries": "nobody answers",
    "disc": "the other end has ended it",
    "dm": "the other end is down",
    "frmr-sent": "the other end sent what can't be mended",
    "frmr-got": "the other end has refused a frame",
    "reset": "the other end begins anew",
    "local": "it was ended here",
    "counts": "more was restarted, cleared or reset than can be counted",
}


class Unknown(Exception):
    """What was typed is no command; the text says why."""


def spelled(typed: str, end: str) -> str:
    """The line that something typed stands for."""
    if typed.count('"') % 2:
        raise Unknown("a quote isn't closed")
    words = TEXT.sub(
        lambda found: found[1].encode(errors="surrogateescape").hex() or "-", typed
    ).split()
    if words[0] == end and len(words) > 1:
        del words[0]
    if words[0] == "wait" and len(words) > 1:
        text = typed.split(None, 1)[1].strip()
        text = text if re.match("d[tc]e |[#!?] ", text) else f"{end} {text}"
        if why := never_comes(text, end):
            raise Unknown(f"that `wait` would hold for good: {why}")
        return f"wait {text}"
    return " ".join([end, *command(words)])


def command(words: list[str]) -> list[str]:
    """The words of a command, where it has the fields that it needs; text is digits in them."""
    name = words[0]
    if name not in COMMANDS:
        near = difflib.get_close_matches(name, COMMANDS, 1)
        raise Unknown(
            f"no command {name!r}: "
            + (f"did you mean `{near[0]}`?" if near else "`help` names all")
        )
    fields = COMMANDS[name][0]
    if name == "with":
        at = 4 if words[3:4] == ["d"] else 3
        if words[at : at + 1] not in (["call"], ["accept"], ["clear"]):
            raise Unknown(f"it is `with {fields}`, with call, accept or clear as COMMAND")
        return [name, *map(checked, words[1:3]), *words[3:at], *command(words[at:])]
    least, most = (len(text.split()) for text in (OPTIONAL.sub("", fields), fields))
    if (
        name == "send" and words[3:-1] not in ([], ["d"])
        or not least < len(words) <= most + 1
        or "cause=N" in fields and not GIVEN.fullmatch(" ".join(words[least + 1 :]))
    ):
        raise Unknown(f"it is `{name} {fields}`" if fields else f"`{name}` stands alone")
    for field, word in zip(fields.split(), words[1:]):
        if why := misfit(field, word):
            raise Unknown(f"{word!r} is {why}: it is `{name} {fields}`")
    if name == "call" and len(words) == least + 1:
        words.append("-")
    if "DATA" in fields:
        checked(words[3 if name == "call" else -1])
    return words


def misfit(field: str, word: str) -> str:
    """Why a word can't stand for a field; nothing where it can, or is looked at elsewhere."""
    if field in ("CALLED", "CALLING"):
        return "" if re.fullmatch("[0-9]+|-", word) else "no address, digits or - for none"
    if field == "CHANNEL":
        return "" if re.fullmatch("[0-9]+", word) else "no channel, a number"
    if field == "Q":
        return "" if word in ("0", "1") else "no Q, 0 or 1"
    return ""


def checked(word: str) -> str:
    """A word that is octets."""
    if not DATA.fullmatch(word):
        raise Unknown(f'{word!r} is no octets: these are hexadecimal digits in pairs, or "text"')
    return word


def helped(name: str = "") -> str:
    """What `help` says, of one command or of all."""
    rows = [
        f"  {it} {COMMANDS[it][0]}".ljust(40) + f" {COMMANDS[it][1]}"
        for it in ([name] if name in COMMANDS else COMMANDS)
    ]
    return "\n".join([*rows, NOTES])


def text_of(octets: bytes) -> str:
    """Octets as they may be typed, with text in quotes; nothing where they are hardly any text."""
    with contextlib.suppress(UnicodeDecodeError):
        text = octets.decode()
        if text.isprintable() and '"' not in text:
            return f'"{text}"' if text else ""
    parts = RUNS.split(octets)
    is_text = 2 * sum(map(len, parts[1::2])) >= len(octets)
    return "".join(
        f'"{part.decode()}"' if place % 2 else part.hex() for place, part in enumerate(parts)
    ) if is_text else ""


def shown(notice: str) -> list[str]:
    """The lines that a notice is shown by; none for a refusal, which the bridge's own words after
    it repeat."""
    first, _, entry = notice.partition(" ")
    if first not in ENDS:
        return [] if first in ("!", "?") else [notice]
    event, channel, data = entry.split(" ")[0], CHANNEL.search(entry), OCTETS.search(entry)
    octets = bytes.fromhex(data[1]) if data else b""
    means = (
        REASONS.get(entry.split(" ")[-1], "")
        if event == "linkdown"
        else MEANS.get(event, "").format(channel and channel[1])
    )
    rows = []
    if data and len(octets) > A_ROW:
        entry = f"{entry[: data.start()]}data: {len(octets):,} octets{entry[data.end(1) :]}"
        rows = [
            *dumped(octets[:MOST_SHOWN]).split("\n"),
            *([f"    and {len(octets) - MOST_SHOWN:,} more"] if len(octets) > MOST_SHOWN else []),
        ]
    words = "; ".join(
        filter(None, [x25names.words(notice), "" if rows else text_of(octets), means])
    )
    return [f"{entry}  ({words})" if words else entry, *rows]


def place(options: argparse.Namespace) -> str:
    """What the line is, in words."""
    if options.listen:
        return "waiting for a connection"
    if options.connect:
        return f"calling {tcp.written(options.connect)}"
    if options.udp:
        return f"on datagrams to {tcp.written(options.udp[1:])}"
    if options.ethernet:
        return f"on {options.ethernet}"
    return " and ".join(
        [f"calling {tcp.written(options.xot)}"] * bool(options.xot)
        + ["waiting for connections"] * bool(options.xot_listen)
    ) + " by XOT"


def greeting(options: argparse.Namespace) -> str:
    """Who is there, and what can be typed."""
    channels = f"{options.channels} channel{'s' * (options.channels != 1)}"
    return (
        f"This is the {options.end.upper()}, {place(options)}, with {channels}.\n`help` shows "
        "what can be typed, as `connect`; `quit` ends."
    )


class Screen(Outlet):
    """The terminal: lines come above the one that is typed."""

    def __init__(self) -> None:
        try:
            # A description of its own, so that it doesn't block, and what readline writes does.
            self._number = os.open(os.ttyname(1), os.O_WRONLY | os.O_NONBLOCK | os.O_NOCTTY)
        except OSError:
            # A terminal that has no name here, as that of a container.
            self._number = os.dup(1)
        super().__init__(None, kind)

    @property
    def number(self) -> int:
        return self._number

    def spelled(self, line: str) -> str:
        """What shows a line: makes room for each row above that of the cursor, writes it there,
        and goes back to the place where it was."""
        width = os.get_terminal_size(1).columns or WIDTH
        rows = [
            part
            for row in shown(line)
            for part in textwrap.wrap(row, width, subsequent_indent="    ")
        ]
        return "".join(f"\x1bD\x1b[A\x1b7\r\x1b[L{row}\x1b8\x1b[B" for row in rows)


class Console:
    """What is typed. `commands` is the number of a file that commands come by; `leave` is called
    where the user wants to end."""

    def __init__(self, options: argparse.Namespace, leave: Callable[[], None]) -> None:
        self._options, self._end, self._leave = options, options.end, leave
        self.commands, self._writer = os.pipe()
        self._terminal = termios.tcgetattr(0)

    def begin(self, wire: wires.Wire, said: Callable[[], list[str]]) -> None:
        """Greets the user, and has him type; of the wire it is told where a command waits for it,
        and `said` answers what is known of the link and its circuits."""
        self._wire, self._said = wire, said
        print(greeting(self._options))
        if "readline" in sys.modules:
            # Readline is to know of one row alone, above which notices come.
            for it in (
                "set horizontal-scroll-mode on", "set enable-bracketed-paste off", "tab: complete"
            ):
                readline.parse_and_bind(it)
            readline.set_completer_delims(" ")
            readline.set_completer(self._completion)
        threading.Thread(target=self._read, daemon=True).start()

    def _read(self) -> None:
        with contextlib.suppress(EOFError, OSError):
            while (typed := self._typed()) not in ("quit", "exit"):
                if typed:
                    self._take(typed)
        self._leave()

    def _typed(self) -> str:
        try:
            return input(f"{self._end}> ").strip()
        except UnicodeDecodeError:
            print("that isn't UTF-8")
            return ""

    def _take(self, typed: str) -> None:
        """Takes a line that was typed."""
        name, _, rest = typed.partition(" ")
        try:
            if name in ("help", "?"):
                print(helped(rest.strip()))
            elif typed == "status":
                print("\n".join(self._said()))
            else:
                os.write(
                    self._writer, f"{spelled(typed, self._end)}\n".encode(errors="surrogateescape")
                )
                if not self._wire.is_there:
                    print("that waits: the line isn't there yet")
        except Unknown as error:
            print(error)

    def _completion(self, text: str, number: int) -> str | None:
        """The completion of a word, by its number: of the first one, or after `help`, a command;
        after `wait` an event."""
        before = readline.get_line_buffer()[: readline.get_begidx()].split()
        words = {
            (): COMMANDS,
            ("help",): COMMANDS,
            ("?",): COMMANDS,
            ("wait",): sorted([*MEANS, "message", "interrupt", "linkdown"]),
        }
        found = [f"{word} " for word in words.get(tuple(before), ()) if word.startswith(text)]
        return found[number] if number < len(found) else None

    def close(self) -> None:
        """Leaves the terminal as it was."""
        termios.tcsetattr(0, termios.TCSADRAIN, self._terminal)
        print("\r\x1b[K", end="", flush=True)
