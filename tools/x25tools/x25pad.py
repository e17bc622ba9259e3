"""A terminal at a host of X.25: a PAD, which calls or is called over a bridge, and sends and shows
text.

    x25pad.py dte --xot router.example
    x25pad.py dce --listen 7000 --address 4567
    x25pad.py dce --xot-listen --channels 8 --stay --serve 'cat /etc/motd'
    printf '%s\\n' 123 'show version' | x25pad.py dte --xot router.example

The other words are those of bridge.py, which it runs: the line, --trace and so on. A DTE sets the
link up, but for XOT. There are commands of X.28, parameters of X.3 (profile 90, with a prompt, and
editing for a screen) and messages of X.29, and a CALL has the protocol identifier of these,
01000000. What is typed goes in packets of up to 128 octets.

At a terminal, what is typed where there is no call is a command: an address calls it, with text
after D or P as user data; HELP shows the others. CTRL-P (parameter 1) leads from the call to a
command, and QUIT ends. A call that comes is taken where its user data begins with 01, or is empty,
and no call is there.

Where input or output is no terminal, lines of the input are what would be typed, and wait while a
call isn't answered; with --answer they wait for a call that comes. The output is what the host
sends, with line feeds; all else goes to standard error. At the end of the input the call is
cleared once nothing has come for --quiet seconds, and the script ends.

With --serve a command runs by `sh -c` for each call that comes. Its input and output are the
call's data, with lines that end by CR for a PAD; the variables X25_CALLING, X25_CALLED and
X25_DATA have who calls, whom, and the user data in digits. Where its output ends a PAD is asked to
clear, and another call is cleared --quiet seconds after; where the call ends the command gets
SIGHUP. --channels says how many calls there may be at once.

Exit status: 0; 1 where a call wasn't taken, a command was none, or the line ended; 2 for bad
words; 143 after SIGTERM, 129 after SIGHUP.
"""

import argparse
import contextlib
import os
import re
import signal
import subprocess
import sys
import termios
import time
import tty
from typing import Callable, Dict, Iterable, Iterator, List, Optional, Tuple

from x25tools import decoding, facilities, serving, waiting, x25lines
from x25tools.places import within

# Of each parameter of X.3 the values that it takes, none where it is only read, and those that it
# has in the profiles 90 and 91.
PARAMETERS: Dict[int, Tuple[Iterable[int], Tuple[int, int]]] = {
    1: ((0, 1, *range(32, 127)), (1, 0)),  # the character that leads to commands; 1 for DLE
    2: ((0, 1), (1, 0)),  # echo
    3: (range(128), (126, 0)),  # what forwards
    4: (range(256), (0, 20)),  # the idle time that forwards, in 1/20 seconds
    6: ((0, 1, 5), (1, 0)),  # service signals; 5 with a prompt
    7: (range(32), (2, 2)),  # what a break does
    8: ((0, 1), (0, 0)),  # what comes is thrown away
    11: ((), (14, 14)),  # the speed
    13: (range(8), (0, 0)),  # LF after CR: 1 in what comes, 2 in what goes, 4 in the echo
    15: ((0, 1), (0, 0)),  # editing in the call
    16: (range(128), (127, 127)),  # takes a character back
    17: (range(128), (24, 24)),  # takes the line back
    18: (range(128), (18, 18)),  # shows the line
    19: ((2,), (2, 2)),  # editing is for a screen
    **dict.fromkeys((5, 9, 10, 12, 14, 20, 21, 22), ((0,), (0, 0))),
}
RECALL, ECHO, FORWARD, IDLE, SIGNALS, BREAK, DISCARD, FEED, EDITING, BACK, DELETE, SHOW = (
    1, 2, 3, 4, 6, 7, 8, 13, 15, 16, 17, 18
)
# What each bit of parameter 3 forwards after; 1 is for letters and digits, and 64 for the other
# control characters.
FORWARDS = {
    2: b"\r", 4: b"\x1b\x07\x05\x06", 8: b"\x7f\x18\x12", 16: b"\x03\x04", 32: b"\t\n\x0b\x0c"
}
# Messages of X.29, and those by which a terminal asks for parameters, of its own PAD or, after R,
# of the one at the other end.
INDICATION, INVITATION, SET, BREAK_CAME, READ, ERROR, SET_AND_READ = range(7)
ASKS = {"PAR?": READ, "SET": SET, "SET?": SET_AND_READ}
# What an indication says of a parameter that isn't there, a value that isn't, and a parameter that
# is only read, after the number and this bit.
NO_PARAMETER, NO_VALUE, ONLY_READ, INVALID = 1, 2, 4, 128
# Service signals by the causes of clears and resets.
CLEARED = {
    1: "OCC", 3: "INV", 5: "NC", 9: "DER", 11: "NA", 13: "NP", 17: "RPE", 19: "ERR", 21: "ROO",
    25: "RNA", 33: "ID", 41: "FNA", 57: "SA",
}
RESET = {1: "DER", 3: "RPE", 5: "ERR", 7: "NC", 9: "OPR", 15: "NOP", 17: "ID", 29: "DER"}
CR, LF, DLE, EOT = 13, 10, 16, 4
PACKET, MOST_UNSENT = 128, 1 << 16
# The octets of the protocol identifier before the user data of a call.
PROTOCOL = 4
# How long the end of a call is waited for at the end, in seconds.
LAST = 5
# What a call may ask for before its address: reverse charging, fast select, a closed user group by
# two or four digits.
REQUEST = r"(?:[RF]|G(?:\d\d){1,2})"
SELECTION = re.compile(
    rf"(?:({REQUEST}(?:,{REQUEST})*)-)?(\d{{1,15}})(?:[DP](.*)| +[DP](?: +(.*))?)?",
    re.ASCII | re.IGNORECASE,
)
# What is typed as at other terminals, and what does that here.
HINTS = {
    **dict.fromkeys(("EXIT", "BYE", "LOGOUT", "Q"), "QUIT ends"),
    **dict.fromkeys(("CLEAR", "DISCONNECT", "HANGUP", "CLOSE"), "CLR clears the call"),
    **dict.fromkeys(("CALL", "CONNECT", "DIAL", "C"), "an address alone calls, as 4567"),
    "STATUS": "STAT says whether there is a call",
}
CHARGED, FAST, GROUPS = 0x01, 0x80, {1: 0x03, 2: 0x47}
# How many octets of text a call has room for, and with fast select.
MOST_TEXT, MOST_FAST = 12, 124
HELP = """\
ADDRESS [D TEXT]    calls it               CLR         clears the call; ICLR asks for that
R,F,G01-ADDRESS     with reverse charging, fast select, in the closed user group 01
STAT                FREE or ENGAGED        INT, RESET  sends an interrupt, empties the circuit
PAR? [N,..]         shows parameters       SET, SET?   N:V,.. sets them, and shows them
PROF 90, PROF 91    sets all of them       BREAK       does what parameter 7 says
RPAR?, RSET, RSET?  those of a PAD at the other end    QUIT        ends"""


class Parameters(Dict[int, int]):
    """The values of the parameters of X.3 by their numbers; `initial` are those that profile 90
    doesn't have at first."""

    def __init__(self, initial: Dict[int, int]) -> None:
        super().__init__()
        self._initial = initial
        self.begin()

    def begin(self, profile: int = 90) -> None:
        """Sets all to a profile, and 90 as it is at first."""
        self.update({
            number: values[profile - 90] for number, (_, values) in sorted(PARAMETERS.items())
        })
        self.update(self._initial if profile == 90 else {})

    def are_given(self, number: int) -> bool:
        """Whether the user has said at first what a parameter is."""
        return number in self._initial

    def why_not(self, number: int, value: int) -> int:
        """Why a parameter doesn't take a value, or 0."""
        if number not in PARAMETERS:
            return NO_PARAMETER
        return (
            0
            if value in PARAMETERS[number][0]
            else NO_VALUE
            if PARAMETERS[number][0]
            else ONLY_READ
        )

    def answer(self, message: bytes) -> bytes:
        """What is answered to a message that sets or reads parameters: all of them where it names
        none."""
        code, pairs = message[0], list(zip(message[1::2], message[2::2]))
        if not len(message) % 2:
            return bytes([ERROR, 2, code])
        if code != READ and not pairs:
            self.begin()
        said: List[int] = []
        for number, value in pairs or self.items():
            why = (
                self.why_not(number, value)
                if pairs and code != READ
                else 0
                if number in self
                else NO_PARAMETER
            )
            if why:
                said += number | INVALID, why
            else:
                self[number] = value if code != READ else self[number]
                said += (number, self[number]) if code != SET else ()
        return bytes([INDICATION, *said]) if said or code != SET else b""


def spelled(name: str, text: str) -> bytes:
    """The message that asks for parameters, as 2:0,3:2, or 2,3; none where a text names none
    so."""
    code, octets = ASKS[name], bytearray()
    for part in text.split(",") if text else []:
        found = re.fullmatch(
            r" *(\d{1,3}) *" if code == READ else r" *(\d{1,3})[:=](\d{1,3}) *", part
        )
        if not found or int(found[1]) >= INVALID or int(found[found.re.groups]) > 255:
            return b""
        octets += bytes([int(found[1]), int(found[2]) if code != READ else 0])
    return bytes([code]) + octets if octets or code == READ else b""


def requested(text: str) -> bytes:
    """The facilities of what a call asks for, as R,G01; none of an empty text."""
    charging, groups = 0, b""
    for request in text.upper().split(","):
        number = bytes.fromhex(request[1:])
        charging |= {"R": CHARGED, "F": FAST}.get(request, 0)
        groups += bytes([GROUPS[len(number)]]) + number if number else b""
    return (bytes([facilities.CHARGING, charging]) if charging else b"") + groups


def shown(indication: bytes) -> str:
    """What an indication of parameters says."""
    return ",".join(
        f"{number % INVALID}:{'INV' if number & INVALID else value}"
        for number, value in zip(indication[1::2], indication[2::2])
    )


class Face:
    """What the user sees."""

    def __init__(self, is_terminal: bool) -> None:
        self.is_terminal, self._last = is_terminal, b"\n"

    def data(self, octets: bytes) -> None:
        """What the host sends."""
        last, self._last = self._last, octets[-1:] or self._last
        if not self.is_terminal:
            octets = (octets[1:] if last == b"\r" and octets[:1] == b"\n" else octets).replace(
                b"\r\n", b"\n"
            ).replace(b"\r", b"\n")
        self.write(octets)

    def write(self, octets: bytes) -> None:
        """Writes octets to the terminal, or the output."""
        while octets:
            octets = octets[os.write(1, octets) :]

    def echo(self, octets: bytes) -> None:
        """What is shown of what is typed."""
        if self.is_terminal:
            self.data(octets)

    def signal(self, text: str) -> None:
        """A service signal, in lines of its own."""
        if self.is_terminal:
            self.data(b"" if self._last == b"\n" else b"\r\n")
            self.data("".join(f"{line}\r\n" for line in text.splitlines()).encode())
        elif text:
            print(text, file=sys.stderr, flush=True)


class Pad:
    """The PAD. `asks` are commands for the bridge that weren't sent yet; `due` is when what was
    typed is forwarded."""

    def __init__(self, end: str, address: str, initial: Dict[int, int], face: Face) -> None:
        self.parameters, self._face = Parameters(initial), face
        self._end, self._address, self._channel = end, address, 0
        self.asks = bytearray()
        # `stage` is of the call: free, calling, open or clearing; `is_up` says whether calls can
        # be made.
        self.stage, self.is_up, self.status = "free", False, 0
        self.has_ended = self.was_called = self._is_recalled = False
        self._typed, self._why = bytearray(), ""
        self.due: Optional[float] = None

    # ---- what is typed

    def types(self, octet: int) -> None:
        """The user types a character."""
        values, is_command = self.parameters, self._is_recalled or self.stage != "open"
        if (
            not is_command
            and values[RECALL]
            and octet == (DLE if values[RECALL] == 1 else values[RECALL])
        ):
            self.forward()
            self._is_recalled = True
            self._signal("")
        elif is_command and octet == CR:
            line = self._typed.decode("utf-8", "replace").strip()
            self._typed.clear()
            self._command(line)
        elif is_command and octet == EOT and not self._typed:
            self.has_ended = True
        elif not (is_command or values[EDITING]) or not self._edits(octet):
            self._typed.append(octet)
            self._echo(b"\r\n" if octet == CR and values[FEED] & 4 else bytes([octet]))
            if not is_command:
                self._gather(octet)

    def _echo(self, octets: bytes) -> None:
        if self.parameters[ECHO]:
            self._face.echo(octets)

    def _edits(self, octet: int) -> bool:
        """Whether a character changes or shows what was typed."""
        values = self.parameters
        if octet and octet == values[SHOW]:
            self._echo(b"\r\n" + self._typed)
        elif octet and octet in (values[BACK], values[DELETE]):
            count = min(1, len(self._typed)) if octet == values[BACK] else len(self._typed)
            del self._typed[len(self._typed) - count :]
            self._echo(b"\b \b" * count)
        else:
            return False
        return True

    def _gather(self, octet: int) -> None:
        """A character of the call was typed: it is forwarded with those before it, or waits."""
        values = self.parameters
        if octet == CR and values[FEED] & 2:
            self._typed.append(LF)
        bit = 1 if bytes([octet]).isalnum() else next(
            (bit for bit, octets in FORWARDS.items() if octet in octets), 64 if octet < 32 else 0
        )
        if values[FORWARD] & bit or len(self._typed) >= PACKET:
            self.forward()
        elif values[IDLE] and not values[EDITING]:
            self.due = time.monotonic() + values[IDLE] / 20

    def forward(self) -> None:
        """Sends what was typed."""
        self.due = None
        if self._typed:
            self._ask(f"send {self._channel} 0 {self._typed.hex()}")
            self._typed.clear()

    # ---- commands

    def _command(self, line: str) -> None:
        """Does a command, and goes back to the call where there is one."""
        said = self._done(line)
        self.status = 1 if said.startswith("ERR") else self.status
        self._is_recalled = False
        self._signal(said)

    def _done(self, line: str) -> str:
        """Does a command; answers what is said to it."""
        if found := SELECTION.fullmatch(line):
            return self._call(requested(found[1] or ""), found[2], found[3] or found[4] or "")
        line = "HELP" if line == "?" else line
        found = re.match(r"[A-Za-z]+\??", line)
        name = found[0].upper() if found else ""
        rest = line[len(name) :].strip()
        message = spelled(name.removeprefix("R"), rest) if name.removeprefix("R") in ASKS else None
        of_the_call: Dict[str, Callable[[], None]] = {
            "CLR": self.clear,
            "ICLR": lambda: self._message(INVITATION),
            "INT": lambda: self._ask(f"int {self._channel} 00"),
            "RESET": lambda: self._ask(f"reset {self._channel}"),
            "BREAK": self._break,
        }
        if message == b"":
            return f"ERR  {rest!r} are no parameters, as 2,3 to show and 2:0,3:2 to set"
        if message and name in ASKS:
            said = shown(self.parameters.answer(message))
            return said and f"PAR {said}"
        if name == "PROF" and rest in ("90", "91"):
            self.parameters.begin(int(rest))
        elif (
            rest and not message
            or name not in ("", "HELP", "STAT", "QUIT", *of_the_call) and not message
        ):
            return f"ERR  {line!r} is no command: {HINTS.get(name, 'HELP shows them')}"
        elif (message or name in of_the_call) and not self.may_clear():
            return "ERR  there is no call"
        elif message:
            self._message(*message)
        elif name in of_the_call:
            of_the_call[name]()
        self.has_ended = name == "QUIT"
        return {"HELP": HELP, "STAT": "ENGAGED" if self.stage == "open" else "FREE"}.get(name, "")

    def _call(self, asked: bytes, called: str, text: str) -> str:
        if self.stage != "free" or not self.is_up:
            return "ERR  a call is there" if self.is_up else "ERR  the link isn't up"
        octets = text.encode()
        most = (
            MOST_FAST
            if asked[:1] == bytes([facilities.CHARGING]) and asked[1] & FAST
            else MOST_TEXT
        )
        if len(octets) > most:
            return (
                f"ERR  the text has {len(octets)} octets: {MOST_TEXT} at most, with fast select "
                f"{MOST_FAST}"
            )
        self.stage, self._channel = "calling", 0
        given = f"with {asked.hex()} - " if asked else ""
        self._ask(f"{given}call {called} {self._address} 01000000{octets.hex()}")
        return ""

    def may_clear(self) -> bool:
        """Whether there is a call to clear."""
        return self.stage in ("calling", "open") and self._channel > 0

    def clear(self, why: str = "CONF") -> None:
        """Clears the call; `why` is what is said once that is done."""
        self.forward()
        self.stage, self._why = "clearing", why
        self._ask(f"clear {self._channel}")

    def _break(self) -> None:
        """Does what parameter 7 says."""
        bits = self.parameters[BREAK]
        if bits & 1:
            self._ask(f"int {self._channel} 00")
        if bits & 2:
            self._ask(f"reset {self._channel}")
        if bits & 4:
            self._message(BREAK_CAME, *((DISCARD, 1) if bits & 16 else ()))
        if bits & 16:
            self.parameters[DISCARD] = 1

    def _ask(self, command: str) -> None:
        self.asks += f"{self._end} {command}\n".encode()

    def _message(self, *octets: int) -> None:
        """Sends a message of X.29."""
        self._ask(f"send {self._channel} 1 {bytes(octets).hex()}")

    # ---- what comes

    def heeds(self, line: str) -> None:
        """Takes a line of the bridge."""
        end, _, entry = line.partition(" ")
        event, *words = entry.split(" ")
        told = dict(word.split("=", 1) for word in words if "=" in word)
        channel = int(told.get("ch", 0))
        if end == "!" and self.stage == "calling" and not self._channel:
            self.stage, self.status = "free", 1
        elif end != self._end and end not in ("!", "?"):
            self._signal(line)
        elif event == "incoming":
            self._incoming(channel, told)
        elif event in ("restarted", "restartdone", "linkdown"):
            self._begin_anew(event, entry)
        elif event == "call":
            self._channel = channel
        elif event == "beside" and channel == self._channel:
            self._beside(
                bytes.fromhex(told["fac"].replace("-", "")),
                bytes.fromhex(told["data"].replace("-", "")),
            )
        elif channel == self._channel and self.stage != "free":
            self._of_this_call(event, told)

    def _of_this_call(self, event: str, told: Dict[str, str]) -> None:
        octets = bytes.fromhex(told.get("data", "").replace("-", ""))
        cause, codes = int(told.get("cause", 0)), f"C:{told.get('cause')} D:{told.get('diag')}"
        if event == "message" and told["q"] == "1":
            self._qualified(octets)
        elif event == "message" and not self.parameters[DISCARD]:
            self._face.data(
                octets.replace(b"\r", b"\r\n") if self.parameters[FEED] & 1 else octets
            )
        elif event == "interrupt":
            self._say("INT")
        elif event == "connected":
            self._become("open", "COM")
        elif event == "cleared":
            self.status = 1 if self.stage == "calling" else self.status
            self._become("free", f"CLR {CLEARED.get(cause, 'DTE')} {codes}")
        elif event == "cleardone":
            self._become("free", f"CLR {self._why or 'ERR'}")
        elif event in ("wasreset", "resetdone"):
            self._typed.clear()
            # The message that ends this may have been lost.
            self.parameters[DISCARD] = 0
            self._say(
                f"RESET {RESET.get(cause, 'DTE')} {codes}" if event == "wasreset" else "RESET"
            )
        elif event == "collided":
            self._become("free", "CLR OCC  both ends called")

    def _beside(self, asked: bytes, octets: bytes) -> None:
        """What came with a call, its acceptance or its clearing: facilities, which are shown in
        words, and text."""
        if asked:
            self._signal(f"# {facilities.words(asked)}")
        if octets and self.stage == "open":
            self._face.data(octets)
        elif octets:
            self._signal(f"# {octets.decode('utf-8', 'replace')!r}")

    def _incoming(self, channel: int, told: Dict[str, str]) -> None:
        if self.stage != "free" or not (told["data"] == "-" or told["data"].startswith("01")):
            self._ask(f"clear {channel}")
            self._signal(
                f"# a call of {told['calling']} with the user data {told['data']} is refused"
            )
            return
        self._channel, self.was_called = channel, True
        self._ask(f"accept {channel}")
        octets = bytes.fromhex(told["data"].replace("-", ""))
        if octets and not self.parameters.are_given(FEED):
            # The other end is a PAD too: without line feeds its lines and those from here would
            # stand upon each other.
            self.parameters[FEED] = 7
            self._message(SET, FEED, 4)
        self._become("open", f"{told['calling']} COM".removeprefix("- "))
        if octets[PROTOCOL:]:
            self._signal(f"# user data: {octets[PROTOCOL:].decode('utf-8', 'replace')!r}")

    def _become(self, stage: str, said: str) -> None:
        """The call is there, or isn't any more."""
        self.stage, self._why, self.due, self._is_recalled = stage, "", None, False
        if stage == "free" and not self.parameters.are_given(FEED):
            self.parameters[FEED] = 0
        self._typed.clear()
        self._say(said)

    def _begin_anew(self, event: str, entry: str) -> None:
        """No call is there any more, and none can be made while the link is down."""
        self.is_up = event != "linkdown"
        if self.stage != "free":
            self.status = 1
            self._become("free", "CLR DER")
        if not self.is_up and not self.has_ended:
            self.has_ended, self.status = self._end == "dte", 1
            self._signal(f"# {entry}")
        elif event == "restarted":
            self._signal("")

    def _qualified(self, octets: bytes) -> None:
        """A message of X.29 came."""
        code = octets[0] if octets else None
        if code is None:
            self._message(ERROR, 0)
        elif code in ASKS.values():
            answer = self.parameters.answer(octets)
            if answer:
                self._message(*answer)
        elif code == INDICATION:
            self._say(f"RPAR {shown(octets)}")
        elif code == INVITATION:
            self.clear("PAD")
        elif code == BREAK_CAME:
            self._say("BREAK")
            if octets[1:] == bytes([DISCARD, 1]):
                self._message(SET, DISCARD, 0)
        elif code == ERROR:
            self._signal(f"# the other end takes a message of X.29 for wrong: {octets.hex()}")
        else:
            self._message(ERROR, 1, code)

    def _say(self, text: str) -> None:
        if self.parameters[SIGNALS]:
            self._signal(text)

    def _signal(self, text: str) -> None:
        """Shows a text in lines of its own; then a command may be typed, or goes on."""
        self._face.signal(text)
        if self._is_recalled or self.stage == "free" and self.is_up and not self.has_ended:
            self._face.echo((b"*" if self.parameters[SIGNALS] == 5 else b"") + self._typed)


class Session:
    """The PAD between its user and the bridge."""

    def __init__(
        self,
        pad: Pad,
        face: Face,
        child: "subprocess.Popen[bytes]",
        options: argparse.Namespace,
        woken: int,
    ) -> None:
        assert child.stdin and child.stdout
        self._woken = woken
        self._pad, self._face, self._child, self._options = pad, face, child, options
        self._out, self._into = child.stdout.fileno(), child.stdin.fileno()
        os.set_blocking(self._into, False)
        # What was typed and not taken, what came of a line of the bridge, whether the input is at
        # its end, when something came last.
        self._typed, self._rest, self._is_over, self._last = (
            bytearray(), b"", False, time.monotonic()
        )

    def run(self) -> int:
        """Runs to the end; answers the status."""
        pad, until = self._pad, None
        while until is None or pad.asks or pad.stage != "free" and time.monotonic() < until:
            while self._typed and self._takes():
                pad.types(self._typed.pop(0))
            if pad.due is not None and time.monotonic() >= pad.due:
                pad.forward()
            if until is None and (pad.has_ended or self._has_done()):
                pad.has_ended, until = True, time.monotonic() + LAST
                if pad.may_clear():
                    pad.clear()
            elif not self._wait(until):
                return pad.status if pad.has_ended else self._ended()
        return pad.status

    def _ended(self) -> int:
        """The bridge has ended by itself; it said why, where no signal ended it."""
        status = self._child.wait()
        if status < 0:
            self._face.signal(f"# the bridge was ended: {signal.strsignal(-status)}")
        return 2 if status == 2 else 1

    def _takes(self) -> bool:
        """Whether what was typed is taken: of a file, what stands after a call waits until that is
        answered."""
        stages = ("open",) if self._options.answer else ("free", "open")
        return self._face.is_terminal or (self._pad.is_up and self._pad.stage in stages)

    def _has_done(self) -> bool:
        """Whether nothing is left to do after the end of the input."""
        if not self._is_over or self._typed or not self._pad.is_up:
            return False
        if self._pad.stage == "open":
            return time.monotonic() >= self._last + float(self._options.quiet)
        return self._pad.stage == "free" and (self._pad.was_called or not self._options.answer)

    def _wait(self, until: Optional[float]) -> bool:
        """Waits for what comes next, and takes it; answers False where the bridge has ended."""
        reads = (
            not self._is_over and len(self._typed) < PACKET and len(self._pad.asks) < MOST_UNSENT
        )
        times = [
            self._pad.due,
            until,
            self._last + self._options.quiet
            if self._is_over and self._pad.stage == "open"
            else None,
        ]
        patience = min(
            (max(0, at - time.monotonic()) for at in times if at is not None), default=None
        )
        waits = [self._out, self._woken] + [0] * reads
        came = waiting.ready(waits, [self._into] * bool(self._pad.asks), patience)
        if self._into in came:
            with contextlib.suppress(BrokenPipeError):
                del self._pad.asks[: os.write(self._into, self._pad.asks)]
        if 0 in came:
            self._read()
        octets = os.read(self._out, 1 << 16) if self._out in came else b""
        if octets:
            self._last = time.monotonic()
            *lines, self._rest = (self._rest + octets).split(b"\n")
            for line in lines:
                self._pad.heeds(line.decode("utf-8", "replace"))
                # A line that goes once nothing is left to do is no failure.
                self._pad.has_ended |= self._has_done()
        return bool(octets) or self._out not in came

    def _read(self) -> None:
        """Reads what was typed."""
        try:
            octets = os.read(0, PACKET)
        except OSError:
            octets = b""
        # What is typed last has its answer, though nothing came for long before it.
        self._is_over, self._last = not octets, time.monotonic()
        self._typed += (
            octets if self._face.is_terminal else octets.replace(b"\r", b"").replace(b"\n", b"\r")
        )
        # Where the terminal has gone, so has its user.
        self._pad.has_ended |= self._is_over and self._face.is_terminal


@contextlib.contextmanager
def raw_terminal() -> Iterator[None]:
    """Has each character that is typed come as it is, and leaves the terminal as it was."""
    settings = termios.tcgetattr(0)
    try:
        tty.setraw(0)
        yield
    finally:
        termios.tcsetattr(0, termios.TCSADRAIN, settings)


def parameters(text: str) -> Dict[int, int]:
    """A word N:V,.., parameters with values that they take."""
    message = spelled("SET", text)
    if not message or Parameters({}).answer(message):
        raise argparse.ArgumentTypeError(
            f"{text!r} are no parameters with values that they take, as 2:0,3:2"
        )
    return dict(zip(message[1::2], message[2::2]))


def words() -> Tuple[argparse.Namespace, List[str]]:
    """The words after the script's name, and those of them that the bridge gets."""
    usage = "%(prog)s [-h] dte|dce [--address DIGITS] [--set N:V,..] [--answer] [--serve COMMAND]"
    usage += " [--quiet SECONDS] [words of the bridge]"
    parser = x25lines.parser(__doc__, usage=usage, allow_abbrev=False)
    parser.add_argument("end", choices=["dte", "dce"], help="which end the station is")
    parser.add_argument(
        "--address", default="-", metavar="DIGITS", help="the address that calls come from (none)"
    )
    parser.add_argument(
        "--set", type=parameters, default={}, metavar="N:V,..", help="parameters at first"
    )
    parser.add_argument(
        "--answer", action="store_true", help="lines of the input wait for a call that comes"
    )
    parser.add_argument(
        "--quiet",
        type=within(float, 0, 86_400),
        default=2,
        metavar="SECONDS",
        help="how long nothing comes at the end (2)",
    )
    parser.add_argument(
        "--serve", metavar="COMMAND", help="run a command for each call that comes"
    )
    options, others = parser.parse_known_args()
    if {"--stdio", "--commands", "--notices"} & {word.partition("=")[0] for word in others}:
        parser.error("--stdio, --commands and --notices are for a bridge alone")
    return options, others


def bridged(end: str, others: List[str]) -> List[str]:
    """The command that runs the bridge."""
    script = os.path.join(decoding.FOLDER, "bridge.py")
    return [sys.executable, script, end, "--long", *others]


def heed_signals() -> int:
    """SIGTERM and SIGHUP end the script, with what is to be done at its end. Answers what can be
    read once one came, so that none is missed that comes just before the script waits."""
    woken, wakes = os.pipe()
    os.set_blocking(wakes, False)
    signal.set_wakeup_fd(wakes)
    for number in (signal.SIGTERM, signal.SIGHUP):
        if signal.getsignal(number) != signal.SIG_IGN:
            signal.signal(number, lambda came, _: sys.exit(128 + came))
    return woken


def serve(options: argparse.Namespace, others: List[str]) -> int:
    """Runs a command for each call, until the bridge ends."""
    command = bridged(options.end, others)
    woken = heed_signals()
    pipe, out = subprocess.PIPE, subprocess.STDOUT
    with subprocess.Popen(
        command, stdin=pipe, stdout=pipe, stderr=out, start_new_session=True
    ) as child:
        try:
            server = serving.Server(options.end, options.serve, child, options.quiet, woken)
            if options.end == "dte" and not any(word.startswith("--xot") for word in others):
                server.asks += b"dte connect\n"
            return server.run()
        finally:
            child.terminate()
            child.communicate()


def main() -> int:
    options, others = words()
    if options.serve is not None:
        return serve(options, others)
    face = Face(os.isatty(0) and os.isatty(1))
    pad = Pad(options.end, options.address, {SIGNALS: 5, **options.set}, face)
    if options.end == "dte" and not any(word.startswith("--xot") for word in others):
        pad.asks += b"dte connect\n"
    command = bridged(options.end, others)
    woken = heed_signals()
    # In a session of its own CTRL-C doesn't end it first.
    with subprocess.Popen(
        command,
        stdin=subprocess.PIPE,
        stdout=subprocess.PIPE,
        stderr=subprocess.STDOUT,
        start_new_session=True,
    ) as child:
        try:
            with raw_terminal() if face.is_terminal else contextlib.nullcontext():
                face.echo(b"HELP shows the commands.\r\n")
                return Session(pad, face, child, options, woken).run()
        finally:
            child.terminate()
            child.communicate()
