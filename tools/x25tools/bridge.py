"""Runs a station, `x25 station --clock`, and joins it to a line; its user writes commands and
reads notices.

    printf 'wait dce incoming\\ndce accept 1\\n' | bridge.py dce --listen 7000
    bridge.py dte --connect localhost:7000
    bridge.py dce --udp 5601:5600 --trace frames
    bridge.py dce --xot-listen --channels 8 --stay

Commands are lines of a script of this end (`dte call 123 4567 41`), and `wait TEXT`, which holds
those after it until a notice comes that begins so. Notices are the entries of the transcript, `!
N` for a command that is refused, `? 60` for one that is none, and lines that begin with `#`: the
bridge's own words, in UTF-8. At a terminal the bridge is a console, where `help` shows what can be
typed, and `quit` ends it.

The bridge ends when the commands have, nothing is left to do, and no frame went or came for
--quiet seconds. CTRL-C, SIGTERM and SIGHUP end it too: it sends DISC, and waits no longer than T1
for the answer. docs/BRIDGE.md says what becomes of a line that goes away, of slow readers and full
queues, and how to choose the timers.

Exit status: 0; 1 where a command was refused or was none, the line ended before all was done, or
nobody reads notices any more; 2 for bad words, or anything else that stops the bridge, which
standard error names; 130 after CTRL-C, 143 after SIGTERM and 129 after SIGHUP.
"""

from __future__ import annotations

import argparse
import contextlib
import os
import re
import sys
import time
from collections import Counter
from math import ceil
from typing import IO, TYPE_CHECKING, Union

from x25tools import decoding, piped, waiting, wires, x25lines, x25names, xot_wire
from x25tools.circuits import Circuits, never_comes
from x25tools.mishaps import Mishaps
from x25tools.places import host_and_port, ports, within, xot_host
from x25tools.users import SLOW, Outlet, Signals, User, Written, kind
from x25tools.x25lines import BadInput, FrameLine
from x25tools.xot import XOT_PORT

if TYPE_CHECKING:
    from x25tools import linked
    from x25tools.piped import Answer

    Station = Union[piped.Station, linked.Station]

# What a station answers where there is room again once something is acknowledged, where the link
# was ended for good, for a parameter out of range, and for a line that asks for nothing.
FULL, CIRCUIT_FULL, DEAD, OUT_OF_RANGE, NOTHING = "! 10", "! 31", "! 13", "! 34", "? 60"
# What the bridge answers a `wait` for what doesn't come.
IN_VAIN = "! 61"
# Commands wait while the line has so many octets unsent.
MOST_UNSENT = 1 << 20
# The bridge ends after a time without a frame, this many times T1.
QUIET_T1S = 5
MOST_CHANNELS = 4095
# The words of the station that are numbers and not times.
NUMBERS = ("k", "n2", "channels", "incoming", "outgoing", "message")
OTHER = {">": "<", "<": ">"}
CALL, UA, DM = 0x0B, 0x63, 0x0F
SABME, DISC, P_OR_F = 0x6F, 0x43, 0x10
# A call, and an acceptance, with the two packet sizes that they may say.
SIZED = re.compile(
    r"(?:with \S+ \S+ (?:d )?)?(?:call \S+ \S+ \S+|accept (?P<channel>\d+))(?: "
    r"(?P<called>\d{1,3}) (?P<calling>\d{1,3}) \d+ \d+)?"
)
SENDS = re.compile(r"\w+ send ")
TIMEOUT = re.compile(r"\w+ timeout (?P<timer>T\d+)(?: ch=(?P<channel>\d+))?")
# What it means that a timer of the packet layer has passed, by the last figure of its name.
OVERDUE = {
    "0": "the restart isn't confirmed",
    "1": "the call on channel {} isn't answered",
    "2": "the reset of channel {} isn't confirmed",
    "3": "the clearing of channel {} isn't confirmed",
    "5": "the data of channel {} isn't acknowledged",
    "6": "the interrupt of channel {} isn't confirmed",
}
# The options of these timers.
ANSWERS = {
    "t20": "a restart waits for its answer (180, at a DCE 60)",
    "t21": "a call waits for its answer (200, at a DCE 180)",
    "t22": "a reset waits for its answer (180, at a DCE 60)",
    "t23": "a clearing waits for its answer (180, at a DCE 60)",
    "t25": "a data packet waits for its acknowledgement (0)",
    "t26": "an interrupt waits for its confirmation (180, at a DCE 0)",
}
READY = re.compile(r"\w+ (?:not)?ready (\d+)")


def called_channel(octets: bytes) -> int | None:
    """The channel of a CALL in a frame, or None where it brings none."""
    is_call = (
        len(octets) >= 7 and not octets[1] & 1 and octets[4] == CALL and x25lines.is_sealed(octets)
    )
    return (octets[2] & 15) << 8 | octets[3] if is_call else None


def is_answer(octets: bytes) -> bool:
    """Whether a frame is UA or DM, the answers to DISC."""
    return x25lines.is_sealed(octets) and octets[1] & 0xEF in (UA, DM)


def as_disc(octets: bytes) -> bytes:
    """DISC in place of SABME; other octets as they are."""
    if len(octets) != 4 or octets[1] & ~P_OR_F != SABME or not x25lines.is_sealed(octets):
        return octets
    body = bytes([octets[0], DISC | octets[1] & P_OR_F])
    return body + x25lines.fcs(body)


class Bridge:
    """A station, its line and its user, and when its timers pass. `status` is what the script ends
    with."""

    def __init__(
        self,
        station: Station,
        wire: wires.Wire,
        user: User,
        options: argparse.Namespace,
        trace: Outlet | None,
        signals: Signals,
    ) -> None:
        self._station, self._wire, self._user, self._options, self._trace, self._signals = (
            station, wire, user, options, trace, signals
        )
        self._end = options.end
        self._direction = ">" if options.end == "dte" else "<"
        self._going, self._coming = (
            Mishaps(options.lose, options.damage, 2 * options.seed + way) for way in (0, 1)
        )
        self._quiet = quiet(options)
        self._outlets = [it for it in (user.notices, trace) if it is not None]
        self._circuits = Circuits()
        # When something is due of the station's timers, in milliseconds from when the bridge
        # began; whether an answer is due.
        self._began = time.monotonic()
        self._due: int | None = None
        self._is_idle = self._awaits = False
        self._is_full = False
        self._held: set[int] = set()
        self._unknown: set[int] = set()
        self._last_frame = time.monotonic()
        # Whether the link was ended here, and until when an answer to that, or to what T1 sent
        # again, may come.
        self._is_dead, self._answers = False, [0, 0]
        self._leaves = None
        self.status = 0
        self.counts: Counter[str] = Counter()

    def run(self) -> None:
        """Runs until all is done or the line ends."""
        self._heed(self._station.first)
        while not self._has_ended() and self._turn():
            if self._signals.number is not None and self._leaves is None:
                self._leave()

    def _turn(self) -> bool:
        """What comes next: frames, T1, or a command; answers False where the line has ended."""
        ready = self._ready()
        is_still = True
        try:
            for octets in self._wire.frames(ready):
                self._receive(octets)
                is_still = False
        except wires.Ended:
            return self._is_cut_off()
        if is_still and self._leaves is None:
            self._act()
        self._user.read(ready)
        self._signals.read(ready)
        for outlet in self._outlets:
            outlet.flush()
        return True

    def _ready(self) -> set[int]:
        """Waits until the bridge has something to do; answers the files that are ready. Nothing
        else waits: as the station is asked one line at a time, tasks of asyncio would all wait for
        it."""
        wire = self._wire
        if not wire.has_begun:
            self._last_frame = time.monotonic()
        # A `wait` whose notice has come is done with first: then more commands may be read.
        patience = self._patience()
        readers = [*self._signals.readers(), *wire.readers(), *self._user.readers()]
        writers = [*wire.writers(), *(outlet.number for outlet in self._outlets if outlet)]
        return waiting.ready(readers, writers, patience)

    def _patience(self) -> float | None:
        """How long nothing may happen before the bridge itself has to act, in seconds; None where
        it has nothing to do."""
        if (
            self._leaves is None
            and (self._command() is not None or self._has_caught_up() or self._in_vain())
        ):
            return 0
        now = time.monotonic()
        own = [self._leaves] if self._leaves is not None else [self._passes(), *self._waits()]
        times = [at for at in (self._wire.due, *own) if at is not None]
        if self._is_settling():
            times.append(max(self._answers))
        if self._is_at_rest():
            times.append(self._last_frame + self._quiet)
        return max(0, min(times) - now) if times else None

    def _act(self) -> None:
        """Where nothing came: what is due of the station's timers, or else a command."""
        now, passes = time.monotonic(), self._passes()
        if passes is not None and now >= passes:
            self._pass()
        elif self._has_caught_up():
            self._release()
        elif (command := self._command()) is not None:
            self._ask(command)
        elif why := self._in_vain():
            (text, _), held = self._user.awaits() or ("", 0), self._user.held()
            self._user.end_wait()
            self._refuse(IN_VAIN, "; ".join(filter(None, [why, held])), f"wait {text}")
        elif (silence := self._user.silence()) is not None and now >= silence:
            self._user.tell_silence()

    def said(self) -> list[str]:
        """What is known here of the line, the link and its circuits, a line each."""
        waiting, awaited = len(self._user.commands), self._user.awaits()
        said = [] if self._wire.is_there else ["the line isn't there"]
        said += self._circuits.said()
        said += [f"commands that wait: {waiting}"] if waiting else []
        return [*said, f"`wait` waits for {awaited[0]!r}"] if awaited else said

    def _command(self) -> str | None:
        """The command that may be asked now."""
        return None if self._is_held_up() else self._user.command()

    def _is_held_up(self) -> bool:
        """Whether no command may be asked now."""
        waits = self._is_full or self._user.notices.is_slow() or self._is_settling()
        return waits or not self._wire.is_there or self._wire.waits > MOST_UNSENT

    def _in_vain(self) -> str:
        """Why a `wait` is given up; nothing where none is."""
        text, since = self._user.awaits() or ("", 0)
        if not text:
            return ""
        if why := never_comes(text, self._end):
            return why
        is_over = self._options.wait is not None and time.monotonic() >= since + self._options.wait
        return (
            self._circuits.cannot_come(text)
            or (f"it hasn't come in {self._options.wait:g} seconds" if is_over else "")
        )

    def _waits(self) -> list[float | None]:
        """When a `wait` is given up, when it is told that it holds commands, and when a command
        goes before messages that stand aside."""
        awaited = self._user.awaits()
        passes = None if self._is_held_up() else self._user.commands.due()
        return [
            awaited[1] + self._options.wait
            if awaited and self._options.wait is not None
            else None,
            self._user.silence(),
            passes,
        ]

    def _is_settling(self) -> bool:
        """Whether an answer may still come though the link was ended: a new station would take it
        for one to its SABM."""
        return self._is_dead and time.monotonic() < max(self._answers)

    def _is_at_rest(self) -> bool:
        """Whether nothing is left to do here, if nothing comes any more."""
        is_still = (
            (self._is_idle or not self._circuits.is_up and self._due is None)
            and not self._wire.waits
            and not self._user.notices
        )
        return (
            not self._options.stay and self._wire.has_begun and self._user.has_done() and is_still
        )

    def _has_ended(self) -> bool:
        now = time.monotonic()
        if self._leaves is not None:
            return (
                now >= self._leaves
                or not (self._is_settling() or self._wire.waits or self._user.notices)
            )
        return self._is_at_rest() and now >= self._last_frame + self._quiet

    def _is_cut_off(self) -> bool:
        """The other end has gone: it is told where something was left to do."""
        if not (self._user.has_asked() and (self._is_idle or not self._circuits.is_up)):
            self._user.warn("the line has ended before all was done")
            self.status = 1
        return False

    def _leave(self) -> None:
        """Ends the link, and the bridge once that is answered, or T1 later."""
        self._leaves = time.monotonic() + self._options.t1
        self.status = 128 + self._signals.number if self._signals.number else self.status
        if self._circuits.is_up or self._due is not None:
            self._heed(self._asked(f"{self._end} disconnect"))

    def _receive(self, octets: bytes) -> None:
        """A frame came over the line."""
        self._last_frame = time.monotonic()
        self.counts["came"] += 1
        self._note(OTHER[self._direction], octets)
        befallen = self._befallen(octets, self._coming)
        if befallen is None:
            return
        octets = befallen
        self._make_room()
        heard = as_disc(octets) if self._is_down() else octets
        answer = self._asked(FrameLine(OTHER[self._direction], heard).text())
        if answer.refusal is not None:
            self._user.note(f"the station takes no frame of {len(octets):,} octets: it is lost")
        self._heed(answer)
        self._look_for_channel(octets)
        if is_answer(octets):
            self._answers[0] = 0

    def _is_down(self) -> bool:
        """Whether SABME is to be answered by DM, which is what DISC is answered by: then the other
        end goes on by SABM (2.4.4.1)."""
        return self._options.wide and not self._circuits.is_up and self._due is None

    def _look_for_channel(self, octets: bytes) -> None:
        """Tells of a call on a channel that the station doesn't have, once for each: nothing
        answers it."""
        channel = called_channel(octets)
        if (
            channel is not None
            and channel > self._options.channels
            and channel not in self._unknown
        ):
            self._unknown.add(channel)
            self._user.note(
                f"a call came on channel {channel}, and there are {self._options.channels}: "
                f"nothing answers it; --channels {channel} would have it"
            )

    def _make_room(self) -> None:
        """What was refused as too much waits is asked again: a frame came, or the user did
        something else than send."""
        self._is_full = False
        self._user.commands.make_room()

    def _now(self) -> int:
        """The time that the station is told, in milliseconds."""
        return int(1000 * (time.monotonic() - self._began))

    def _asked(self, event: str) -> Answer:
        """What the station answers to an event at this time, though before anything is due: that
        waits until all that came is read."""
        now = self._now()
        return self._station.ask(event, now if self._due is None else min(now, self._due - 1))

    def _passes(self) -> float | None:
        """When something is due of the station's timers; None where nothing is, or nothing is left
        to do but to see whether the line is there."""
        is_over = self._is_at_rest() and not self._awaits
        return None if self._due is None or is_over else self._began + self._due / 1000

    def _pass(self) -> None:
        """The station asks for what is due. Where the link goes down by it, no frame comes, so
        what waited for one is asked again."""
        self._make_room()
        answer = self._station.ask(f"@ {self._now()}")
        self._heed(answer)
        if answer.refusal is not None:
            self._user.note(
                f"what is asked as a timer passed is refused: {x25names.refusal(answer.refusal)}"
            )

    def _heed_timeout(self, timer: str, channel: str) -> None:
        """A timer of the station has passed."""
        if timer == "T1":
            self._answers[1] = time.monotonic() + self._options.t1
            self.counts["fired"] += 1
        elif timer != "T3":
            self._user.note(f"{timer} has passed: {OVERDUE[timer[-1]].format(channel)}")

    def _has_caught_up(self) -> bool:
        """Whether channels are held for the reader of notices, and he has read."""
        return bool(self._held) and len(self._user.notices) < SLOW // 2

    def _release(self) -> None:
        """What was held for the reader of notices comes again."""
        held, self._held = sorted(self._held & self._circuits.not_ready), set()
        for channel in held:
            self._heed(self._asked(f"{self._end} ready {channel}"))

    def _ask(self, command: str) -> None:
        """The user asks for something."""
        why = self._objection(command)
        if why:
            refusal = NOTHING if why.startswith("no command") else OUT_OF_RANGE
            self._user.commands.take()
            self._refuse(refusal, why, command)
            return
        answer = self._asked(command)
        if answer.refusal == DEAD:
            self._begin_anew()
            answer = self._asked(command)
        self._is_full = answer.refusal == FULL
        if answer.refusal == CIRCUIT_FULL:
            self._user.commands.have_no_room()
        elif not self._is_full:
            self._user.commands.take()
            if not SENDS.match(command):
                self._make_room()
            if answer.refusal is not None:
                self._refuse(answer.refusal, x25names.refusal(answer.refusal), command)
            elif found := READY.fullmatch(command):
                # What the user says himself of his being ready holds.
                self._held.discard(int(found[1]))
        self._heed(answer)

    def _objection(self, command: str) -> str:
        """Why the bridge itself refuses a command; nothing where it doesn't."""
        if len(command) > x25lines.MOST_CHARACTERS:
            return f"no command has more than {x25lines.MOST_CHARACTERS:,} characters"
        if not command.startswith(f"{self._end} "):
            return f"no command of this end: those begin with `{self._end} `"
        found = SIZED.fullmatch(command.partition(" ")[2])
        if found and self._wire.most_size < wires.MOST_SIZE:
            said = max(int(found["called"] or 0), int(found["calling"] or 0))
            if said > self._wire.most_size or not said and self._circuits.proposed.get(
                int(found["channel"] or 0), 0
            ) > self._wire.most_size:
                return (
                    f"packet sizes over {self._wire.most_size} ({1 << self._wire.most_size} "
                    "octets) don't fit the line"
                )
        return ""

    def _refuse(self, refusal: str, why: str, command: str) -> None:
        """Tells that a command was refused, and why."""
        self.status = 1
        self._user.tell(refusal)
        self._user.note(f"{refusal}, {why}: {x25lines.shown(command.encode('latin-1'))}")

    def _begin_anew(self) -> None:
        """A station that has ended its link is so for good: another one begins."""
        self._station.begin()
        self._circuits, self._held = Circuits(), set()
        self._is_dead = False
        self._heed(self._station.first)

    def _heed(self, answer: Answer) -> None:
        """Tells and sends what the station answers, and keeps when something is due, as its mark
        says."""
        slow = set()
        for notice in answer.notices:
            if found := TIMEOUT.fullmatch(notice):
                self._heed_timeout(found["timer"], found["channel"])
                continue
            event, channel = self._circuits.heed(notice)
            if event == "disconnect":
                self._is_dead, self._answers[0] = True, time.monotonic() + self._options.t1
            self._user.tell(notice)
            if event == "message" and channel is not None and self._user.notices.is_slow():
                slow.add(channel)
        for frame in answer.frames:
            self._send(frame.octets)
        self._due, self._is_idle, self._awaits = answer.due, answer.is_idle, answer.awaits
        for channel in slow - self._circuits.not_ready:
            self._hold(channel)

    def _hold(self, channel: int) -> None:
        """Has no more messages come by a channel, as the reader of notices is slow."""
        self._held.add(channel)
        self._user.note(f"notices wait to be read: channel {channel} is held")
        self._heed(self._asked(f"{self._end} notready {channel}"))

    def _send(self, octets: bytes) -> None:
        self._last_frame = time.monotonic()
        self.counts["sent"] += 1
        self._note(self._direction, octets)
        befallen = self._befallen(octets, self._going)
        if befallen is not None and (self._wire.has_fcs or x25lines.is_sealed(befallen)):
            self._wire.send(befallen)

    def _befallen(self, octets: bytes, mishaps: Mishaps) -> bytes | None:
        """What comes of a frame; with --heal nothing happens to it any more once no command is
        left."""
        return octets if self._options.heal and self._user.has_done() else mishaps.happen(octets)

    def _note(self, direction: str, octets: bytes) -> None:
        """Writes a frame to the trace, as the line has it."""
        if self._trace is not None:
            self._trace.put(FrameLine(direction, octets, time.time_ns()).text(timed=True))

    def stats(self) -> None:
        """Says on standard error what went and came."""
        lost, damaged = (
            f"{getattr(self._going, kind)} + {getattr(self._coming, kind)} {kind}"
            for kind in ("lost", "damaged")
        )
        x25lines.warn(
            f"frames: {self.counts['sent']} sent, {self.counts['came']} came; {lost}, {damaged}; "
            f"T1 fired {self.counts['fired']} times"
        )


def is_xot(options: argparse.Namespace) -> bool:
    """Whether the line is X.25 over TCP."""
    return bool(options.xot or options.xot_listen)


def add_station_words(parser: argparse.ArgumentParser) -> None:
    """Adds the words that the station gets."""
    parser.add_argument("end", choices=["dte", "dce"], help="which end the station is")
    parser.add_argument(
        "--k", type=within(int, 1, 7), metavar="N", help="the window of the link, 1 to 7 (7)"
    )
    parser.add_argument(
        "--n2",
        type=within(int, 1, 255),
        metavar="N",
        help="how often a command is sent again, 1 to 255 (10)",
    )
    parser.add_argument(
        "--channels",
        type=within(int, 1, MOST_CHANNELS),
        default=1,
        metavar="N",
        help="logical channels, 1 to 4095 (1)",
    )
    for name, kept in (
        ("incoming", "1 to N, on which a DTE doesn't call"),
        ("outgoing", "the N highest, on which a DCE doesn't call"),
    ):
        parser.add_argument(
            f"--{name}",
            type=within(int, 0, MOST_CHANNELS),
            metavar="N",
            help=f"one-way {name} channels: {kept} (0)",
        )
    parser.add_argument(
        "--message",
        type=within(int, 1, 65535),
        metavar="N",
        help="how many octets a message may have, 1 to 65535 (65535)",
    )
    parser.add_argument(
        "--long", action="store_true", help="a call may have up to 128 octets of user data"
    )
    parser.add_argument(
        "--no-wide",
        dest="wide",
        action="store_false",
        help="read packets only in the form that a station writes",
    )
    parser.add_argument(
        "--t1",
        type=within(float, 0.001, 86_400),
        default=1,
        metavar="SECONDS",
        help="how long T1 is (1)",
    )
    parser.add_argument(
        "--t3",
        type=within(float, 0, 86_400),
        default=60,
        metavar="SECONDS",
        help="how long nothing comes before the other end is asked; 0 for never (60)",
    )
    for name, what in ANSWERS.items():
        of_dce = "" if name in ("t25", "t26") else f", at a DCE T1{name[-1]}"
        parser.add_argument(
            f"--{name}",
            type=within(float, 0, 86_400),
            metavar="SECONDS",
            help=f"how long {what}{of_dce}; 0 for ever",
        )
    decoding.add_program(parser)


def station_words(options: argparse.Namespace) -> list[str]:
    """The words that the station gets after its end."""
    given = {name: getattr(options, name) for name in NUMBERS} | milliseconds(options)
    pairs = [(f"--{name}", str(number)) for name, number in given.items() if number is not None]
    flags = {
        "--long": options.long,
        "--say-sizes": is_xot(options),
        "--wide": options.wide,
        "--clock": True,
    }
    return [word for pair in pairs for word in pair] + [
        word for word, is_asked in flags.items() if is_asked
    ]


def milliseconds(options: argparse.Namespace) -> dict[str, int | None]:
    """The times of the station's timers; None is as the standard has it."""
    seconds = {name: getattr(options, name) for name in ("t1", "t3", *ANSWERS)}
    return {name: None if time is None else ceil(1000 * time) for name, time in seconds.items()}


def station_of(options: argparse.Namespace) -> Station:
    """The station that the words ask for: the program's, or that of a library."""
    if not options.library:
        return piped.Station(options.x25, options.end, station_words(options))
    from x25tools import linked

    given = {
        name: getattr(options, name) for name in NUMBERS if getattr(options, name) is not None
    }
    return linked.Station(
        options.library,
        options.end,
        milliseconds(options),
        long_data=options.long,
        say_sizes=is_xot(options),
        wide=options.wide,
        **given,
    )


def add_line_words(parser: argparse.ArgumentParser) -> None:
    """Adds the words that say what the line is."""
    line = parser.add_argument_group(
        "the line", "One of these. An address of IPv6 stands in brackets: [::1]:7000."
    )
    line.add_argument(
        "--listen",
        type=host_and_port,
        metavar="PORT",
        help="lines of a trace over a connection that another makes, to this host or to HOST:PORT",
    )
    line.add_argument(
        "--connect",
        type=host_and_port,
        metavar="HOST:PORT",
        help="lines of a trace over a connection to HOST",
    )
    line.add_argument(
        "--stdio",
        action="store_true",
        help="lines of a trace on standard input and output; commands come by --commands",
    )
    line.add_argument(
        "--ethernet",
        metavar="IFACE",
        help="lapbether on an interface: only root may; where it is down it is waited for",
    )
    line.add_argument(
        "--udp",
        type=ports,
        metavar="LOCAL:REMOTE",
        help="lapbether in datagrams between two ports, or LOCAL:HOST:REMOTE, as qemu has them",
    )
    line.add_argument(
        "--xot",
        type=xot_host,
        metavar="HOST[:PORT]",
        help="X.25 over TCP (XOT, RFC 1613): calls make connections to HOST",
    )
    line.add_argument(
        "--xot-listen",
        type=host_and_port,
        nargs="?",
        const=("127.0.0.1", XOT_PORT),
        metavar="PORT",
        help="XOT: others make connections, to this host or to HOST:PORT; also beside --xot",
    )
    line.add_argument(
        "--retry",
        action="store_true",
        help="with --connect: where there is no connection, make one again and again",
    )
    tried = parser.add_argument_group(
        "losses", "Each frame that goes or comes is lost or damaged with a probability."
    )
    chance = within(float, 0, 1)
    tried.add_argument("--lose", type=chance, default=0, metavar="P", help="lost (0)")
    tried.add_argument(
        "--damage",
        type=chance,
        default=0,
        metavar="P",
        help="damaged so that its frame check sequence shows it; where there is none, lost (0)",
    )
    tried.add_argument(
        "--heal",
        action="store_true",
        help="lose and damage nothing any more once no command is left",
    )
    tried.add_argument(
        "--seed",
        type=within(int, 0, 2**63),
        default=1,
        metavar="N",
        help="what these chances come from (1)",
    )


def words() -> argparse.Namespace:
    """The words after the script's name."""
    parser = x25lines.parser(__doc__)
    add_station_words(parser)
    add_line_words(parser)
    parser.add_argument(
        "--library", metavar="PATH", help="a libx25.so in this process, in place of the program"
    )
    parser.add_argument(
        "--quiet",
        type=within(float, 0, 86_400),
        metavar="SECONDS",
        help=f"how long nothing comes at the end ({QUIET_T1S} times T1)",
    )
    parser.add_argument(
        "--wait",
        type=within(float, 0, 86_400),
        metavar="SECONDS",
        help="how long a `wait` waits (as long as it may come)",
    )
    parser.add_argument("--stay", action="store_true", help="end only when the line does")
    parser.add_argument(
        "--commands", metavar="FILE", help="where commands come from (standard input)"
    )
    parser.add_argument("--notices", metavar="FILE", help="where notices go to (standard output)")
    parser.add_argument(
        "--trace",
        metavar="FILE",
        help=(
            "write the frames that the station sent and those that came, each with its time, "
            "before any is lost here"
        ),
    )
    parser.add_argument(
        "--stats", action="store_true", help="say at the end how many frames went and came"
    )
    options = parser.parse_args()
    lines = [
        options.listen,
        options.connect,
        options.stdio,
        options.ethernet,
        options.udp,
        is_xot(options),
    ]
    if sum(map(bool, lines)) != 1:
        parser.error(
            "name one line: --listen, --connect, --stdio, --ethernet, --udp, or --xot and "
            "--xot-listen"
        )
    if options.lose + options.damage > 1:
        parser.error("the two probabilities come to more than 1")
    if is_xot(options) and options.lose + options.damage > 0:
        parser.error("XOT loses and damages nothing")
    if (options.incoming or 0) + (options.outgoing or 0) > options.channels:
        parser.error("more channels are one-way than there are")
    if options.retry and not options.connect:
        parser.error("--retry is for --connect")
    return options


def joined(options: argparse.Namespace, note: wires.Note) -> wires.Wire:
    """The wire that the words ask for."""
    end, t3 = options.end, options.t3
    if options.listen:
        return wires.Listening(end, note, options.listen, t3, options.stay)
    if options.connect:
        return wires.Calling(end, note, options.connect, t3, options.retry)
    if options.udp:
        return wires.over_udp(end, note, *options.udp)
    if options.ethernet:
        return wires.Ethernet(note, options.ethernet)
    if options.stdio:
        return wires.Standard(end, note)
    waiting.make_room(options.channels)
    return xot_wire.Xot(end, note, options.xot, options.xot_listen, called_on(options), t3)


def called_on(options: argparse.Namespace) -> range:
    """The channels on which the other end calls."""
    if options.end == "dte":
        return range(1, options.channels - (options.outgoing or 0) + 1)
    return range((options.incoming or 0) + 1, options.channels + 1)


def quiet(options: argparse.Namespace) -> float:
    """How long nothing may come or go at the end, in seconds."""
    return float(options.quiet if options.quiet is not None else QUIET_T1S * options.t1)


def opened(path: str, mode: str) -> IO[bytes]:
    """Opens a file that the words name, without a buffer."""
    try:
        return open(path, mode, 0)
    except OSError as error:
        raise BadInput(f"{path}: {error.strerror}") from error


def user_of(options: argparse.Namespace, files: contextlib.ExitStack) -> User:
    """The user that the words ask for; files that are opened for it are closed with `files`."""
    commands = None if options.stdio else sys.stdin.fileno()
    notices: Written = sys.stderr if options.stdio else sys.stdout
    if options.commands:
        commands = files.enter_context(opened(options.commands, "rb")).fileno()
    if options.notices:
        notices = files.enter_context(opened(options.notices, "wb"))
    return User(commands, Outlet(notices, kind), quiet(options))


def has_console(options: argparse.Namespace) -> bool:
    """Whether the user sits at a terminal that can make room for a line, and the bridge isn't one
    of its jobs in the background."""
    if (
        options.stdio
        or options.commands
        or options.notices
        or os.environ.get("TERM", "dumb") == "dumb"
    ):
        return False
    return sys.stdin.isatty() and sys.stdout.isatty() and os.tcgetpgrp(0) == os.getpgrp()


def main() -> int:
    options = words()
    with contextlib.ExitStack() as files:
        signals = files.enter_context(Signals())
        console = None
        if has_console(options):
            from x25tools.console import Console, Screen

            console = Console(options, signals.leave)
            signals.at_first = console.close
            user = User(console.commands, Screen(), quiet(options), is_at_terminal=True)
        else:
            user = user_of(options, files)
        trace = Outlet(files.enter_context(opened(options.trace, "wb"))) if options.trace else None
        station = station_of(options)
        files.enter_context(station)
        wire = joined(options, user.note)
        files.callback(wire.close)
        bridge = Bridge(station, wire, user, options, trace, signals)
        if console:
            console.begin(wire, bridge.said)
        try:
            bridge.run()
        finally:
            for outlet in filter(None, (user.notices, trace)):
                outlet.end()
            if console:
                console.close()
            if options.stats:
                bridge.stats()
    return bridge.status
