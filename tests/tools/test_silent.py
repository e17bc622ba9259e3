"""Tests of two stations with clocks where some of what one answers doesn't come, and of a bridge
whose other end is silenced."""

import itertools
import os
import select
import socket
import subprocess
import sys
import time
import unittest
from concurrent.futures import ProcessPoolExecutor, ThreadPoolExecutor
from functools import partial

import support

import silent_runs
from silent_runs import ENDS, OTHER
from x25tools.piped import Station
from x25tools.x25lines import fcs

# Random runs of all, a second each with a program that isn't proved; and of those that are watched
# more closely.
RUNS, FEW = 240 // (1 if support.SHARE == 1 else 20), 4
# What leads to each state of a circuit, asked of the end that hears less, or of the other one; and
# what can be asked there.
IN_A_CALL = ("call", "clear {}", "restart", "relink")
OPEN = (*IN_A_CALL, "reset {}", "send {} 0 4142", "int {} 01")
STATES = {
    "down": ((), ("connect",)),
    "free": (("connect",), ("call", "restart", "relink")),
    "calling": (("connect", "call"), IN_A_CALL),
    "called": (("connect", "other call"), (*IN_A_CALL, "accept {}")),
    "open": (("connect", "call", "other accept {}"), OPEN),
    "open for the other": (("connect", "other call", "accept {}"), OPEN),
}


class NoT1(silent_runs.Run):
    TIMES = {**silent_runs.TIMES, "t1": 0}


class NoT3(silent_runs.Run):
    TIMES = {**silent_runs.TIMES, "t3": 0}


class AsksNothing(silent_runs.Run):
    TIMES = {**silent_runs.TIMES, "t20": 0, "t21": 0, "t22": 0, "t23": 0}


class Leaves(silent_runs.Run):
    """One kind of answer is left out from a state on, in which something is asked."""

    ACCEPTS = 0

    def __init__(self, program, deaf, kind, state, asked):
        super().__init__(program, 0)
        self.deaf, self.kinds, self.loss, self.begins = deaf, {kind}, 0, silent_runs.LASTS
        self.state, self.asked = state, asked

    def says(self, words):
        """Asks for something, which isn't refused."""
        command = words.removeprefix("other ")
        end = self.ends[OTHER[self.deaf] if words.startswith("other ") else self.deaf]
        # A DTE calls on the highest channel, a DCE on the lowest.
        caller = self.deaf if self.state in ("calling", "open") else OTHER[self.deaf]
        channel = silent_runs.CHANNELS if caller == "dte" else 1
        event = (
            silent_runs.CALLS[end.name]
            if command == "call"
            else f"{end.name} {command.format(channel)}"
        )
        if refusal := self.ask(end, event):
            raise silent_runs.Failed(f"{event}: {refusal}")

    def plays(self):
        for words in STATES[self.state][0]:
            self.says(words)
            self.lasts(self.now + 1500)
        self.begins = self.now
        self.says(self.asked)
        self.lasts(self.now + silent_runs.BOUND)
        return self.ends[self.deaf].told.awaited


def left(row):
    """What is awaited at the end of a row, or what failed."""
    try:
        return Leaves(support.PROGRAM, *row).play()
    except silent_runs.Failed as failed:
        return str(failed)


class NoT26(Leaves):
    TIMES = {**silent_runs.TIMES, "t26": 0}


class Heals(silent_runs.Run):
    """Frames alone are lost, and both users send: no one helps but the clocks. T25, which resets
    a call, is off."""

    TIMES = {**silent_runs.TIMES, "t25": 0}
    N2, ACCEPTS, MESSAGES = 30, 1, 20

    def plays(self):
        self.kinds, self.loss = set(), 0.25
        dte, dce = self.ends.values()
        for event in ("dte connect", silent_runs.CALLS["dte"]):
            self.ask(dte, event)
            self.lasts(self.now + 60_000)
        for number in range(self.MESSAGES):
            for end in (dte, dce):
                # The DTE calls on the highest channel.
                while self.ask(end, f"{end.name} send {silent_runs.CHANNELS} 0 {number:04x}"):
                    self.lasts(self.now + 1000)
        self.lasts(self.now + 120_000)
        return [
            [entry[-4:] for entry in end.entries if " message " in entry] for end in (dte, dce)
        ]


class Twins:
    """A station with a clock, and one without, whose user asks in the place of each time what is
    due then: both have to say the same."""

    LINES = {
        "T1": "t1 {0}", "T3": "{0} probe", "T20": "{0} relink", "T10": "{0} relink",
        "T23": "{0} restart", "T13": "{0} restart", "T25": "{0} reset {1} diag=146",
        "T26": "{0} reset {1}",
    }

    def __init__(self, timed, plain):
        self.timed, self.plain, self.passed = timed, plain, []

    def begin(self):
        self.timed.begin()
        self.plain.begin()

    def __exit__(self, *_):
        self.timed.__exit__()
        self.plain.__exit__()

    def ask(self, event, now=None):
        answer = self.timed.ask(event, now)
        passed = [notice for notice in answer.notices if " timeout " in notice]
        self.passed += passed
        is_time = event.startswith("@ ")
        said = [
            self.plain.ask(line) for line in (map(self.line_for, passed) if is_time else [event])
        ]
        told = [(one.notices, one.frames, one.refusal) for one in said]
        notices, frames, refusals = map(list, zip(*told)) if told else ([], [], [None])
        kept = [notice for notice in answer.notices if notice not in passed]
        is_idle = said[-1].is_idle if said else answer.is_idle
        if (kept, answer.frames, answer.refusal, answer.is_idle) != (
            sum(notices, []), sum(frames, []), refusals[-1], is_idle
        ):
            raise silent_runs.Failed(f"{event}: {answer}, and without a clock {said}")
        return answer

    def line_for(self, notice):
        """The line of a user for a timer that has passed."""
        end, _, timer, *channel = notice.split(" ")
        return self.LINES.get(timer, "{0} clear {1}").format(
            end, *(word.removeprefix("ch=") for word in channel)
        )


class Twofold(silent_runs.Run):
    """Each end is twins, and no answer of packets comes to one of them from some moment on."""

    def __init__(self, program, seed):
        super().__init__(program, seed)
        self.kinds = set(silent_runs.PACKETS)
        words = ["--channels", str(silent_runs.CHANNELS), "--n2", str(self.N2)]
        for end in self.ends.values():
            end.station = Twins(end.station, Station(program, end.name, words))


@support.needs_station
class SilentPeers(unittest.TestCase):
    def test_nothing_is_awaited_for_ever(self):
        with ProcessPoolExecutor() as pool:
            told = list(
                pool.map(partial(silent_runs.play, support.PROGRAM), range(RUNS), chunksize=4)
            )
        self.assertEqual([lines for lines, _ in told], [[]] * RUNS)
        self.assertTrue(all(frames for _, frames in told))

    def test_nothing_is_in_any_state_whatever_is_left_out(self):
        places = itertools.product(ENDS, silent_runs.KINDS, STATES)
        rows = [
            (deaf, kind, state, asked)
            for deaf, kind, state in places
            for asked in STATES[state][1]
        ]
        with ProcessPoolExecutor() as pool:
            for row, end in zip(rows, pool.map(left, rows, chunksize=8)):
                with self.subTest(row):
                    self.assertEqual(end, {})

    def test_a_clock_asks_what_a_user_would(self):
        passed = set()
        for seed in range(FEW):
            with self.subTest(seed):
                run = Twofold(support.PROGRAM, seed)
                run.play()
                passed.update(
                    notice.split(" ")[2]
                    for end in run.ends.values()
                    for notice in end.station.passed
                )
        self.assertLessEqual({"T1", "T3", "T20", "T21"}, passed)

    def test_it_is_where_a_timer_is_for_ever(self):
        for kind, why in (
            (NoT1, "awaits link|hears nothing since"),
            (NoT3, "hears nothing since"),
            (AsksNothing, "awaits (restart|call|reset|clear|fault) on channel"),
        ):
            with self.subTest(kind.__name__):
                with ProcessPoolExecutor() as pool:
                    told = pool.map(
                        partial(silent_runs.play, support.PROGRAM, kind=kind), range(4 * FEW)
                    )
                    self.assertRegex("\n".join(line for lines, _ in told for line in lines), why)

        with self.assertRaisesRegex(silent_runs.Failed, "awaits int on channel 3"):
            NoT26(
                support.PROGRAM, "dte", silent_runs.INTERRUPT_CONFIRMATION, "open", "int {} 01"
            ).play()

    def test_data_that_is_not_acknowledged_is_reset(self):
        run = Leaves(support.PROGRAM, "dte", silent_runs.RR, "open", "send {} 0 4142")
        run.play()
        entries = run.ends["dte"].entries
        place = entries.index("dte timeout T25 ch=3")
        self.assertEqual(
            entries[place + 1 : place + 3], ["dte reset ch=3 diag=146", "dte resetdone ch=3"]
        )

    def test_losses_heal(self):
        messages = [f"{number:04x}" for number in range(Heals.MESSAGES)]
        for seed in range(FEW):
            with self.subTest(seed):
                run = Heals(support.PROGRAM, seed)
                self.assertEqual(run.play(), [messages] * 2)
                self.assertTrue(
                    all(
                        any("timeout T1" in entry for entry in end.entries)
                        for end in run.ends.values()
                    )
                )


def sent(octets):
    """The line of a frame of the DCE."""
    return "< " + (octets + fcs(octets)).hex()


# The answers to SABM, RESTART and polls; what sets the link up, so that a DTE is at rest.
POLLED = sent(b"\x01\x31")
SET_UP = (
    "@ 0",
    "dte connect",
    sent(b"\x01\x73"),
    sent(b"\x03\x00\x10\x00\xfb\x07\x00"),
    sent(b"\x01\x21"),
)
NOISE = {
    "an octet": "< 03",
    "a damaged frame": "< 03010000",
    "another address": sent(b"\x07\x01"),
    "an answer to nothing": sent(b"\x01\x21"),
}


@support.needs_station
class OtherEnds(unittest.TestCase):
    """Beside a DTE whose other end is played, in counted time."""

    @staticmethod
    def set_up(station):
        # The clock begins with the first time that is said.
        return [station.ask(line) for line in ("@ 0", *SET_UP)][-1]

    def test_a_full_queue_has_an_end(self):
        with Station(support.PROGRAM, "dte", ["--clock", "--channels", "300"]) as station:
            self.set_up(station)
            answer = [station.ask("dte call 1 2 -") for _ in range(264)][-1]
            self.assertEqual(answer.refusal, "! 10")
            told = []
            # Each poll is answered, and no call is acknowledged.
            while not told and answer.due is not None:
                now = answer.due
                answer = station.ask(f"@ {now}")
                told = [notice for notice in answer.notices if " timeout T1" not in notice]
                if not told and any(frame.octets[1] & 0x13 == 0x11 for frame in answer.frames):
                    answer = station.ask(POLLED)
        self.assertEqual(
            (now, told[:3]),
            (200_000, ["dte timeout T21 ch=38", "dte relink", "dte linkdown local"]),
        )

    def test_no_noise_hides_a_dead_line(self):
        for kind, line in NOISE.items():
            with self.subTest(kind), Station(
                support.PROGRAM, "dte", ["--clock", "--t1", "1000", "--t3", "18000", "--n2", "3"]
            ) as station:
                answer, now, tick = self.set_up(station), 0, 17_000
                while "dte linkdown retries" not in answer.notices and now < 100_000:
                    now = min(answer.due, tick)
                    answer = station.ask(f"@ {now}")
                    if now == tick:
                        answer, tick = station.ask(line), tick + 17_000
                self.assertLessEqual(now, 18_000 + (3 + 1) * 1000)


# What leads a bridge to each state, asked of it or of the station at the other end, and what it
# tells then; `hush` keeps the other end's packets from it from then on.
RESTARTED = [("connect", "restarted")]
CALLED = [*RESTARTED, ("other call 1 2 -", "incoming"), ("accept 1", "accept")]
WAYS = {
    "down": [],
    "set up": [("hush", ""), ("connect", "linkup")],
    "free": RESTARTED,
    "calling": [*RESTARTED, ("hush", ""), ("call 1 2 -", "call")],
    "called": CALLED[:-1],
    "open": CALLED,
    "resetting": [*CALLED, ("hush", ""), ("reset 1", "reset")],
    "clearing": [*CALLED, ("hush", ""), ("clear 1", "clear")],
    "restarting": [*CALLED, ("hush", ""), ("restart", "restart")],
}
# What is asked there, so that an answer is awaited.
ASKS = {"down": "connect", "free": "restart", "called": "clear 1", "open": "clear 1"}
# How the other end is silenced: its packet layer alone, a cable that is cut, a connection that
# ends.
MANNERS = ("packets", "cable", "connection")
SECONDS = {"t1": 0.5, "t3": 1, "t20": 1, "t21": 1, "t22": 1, "t23": 1}
# Before the link is told down: the times of a call, a clearing and a restart, or T3 and four times
# T1; on a machine that does much else.
LONGEST = 5 * max(1 + 1 + 1, 1 + 4 * 0.5)


class Silenced:
    """A bridge, and the station at the other end of its line, which is silenced in some way."""

    def __init__(self, end):
        self.end, self.manner, self.told = end, None, []
        self.far = Station(support.PROGRAM, OTHER[end])
        self.server = socket.create_server(("127.0.0.1", 0))
        times = [word for name, time in SECONDS.items() for word in (f"--{name}", str(time))]
        line = ["--connect", f"127.0.0.1:{self.server.getsockname()[1]}", "--retry", "--stay"]
        command = [
            sys.executable,
            os.path.join(support.TOOLS, "bridge.py"),
            end,
            "--x25",
            support.PROGRAM,
            "--n2",
            "3",
            *times,
            *line,
        ]
        self.child = subprocess.Popen(command, stdin=subprocess.PIPE, stdout=subprocess.PIPE)
        self.line = self.server.accept()[0]
        self.rests = {self.line: b"", self.child.stdout: b""}

    def __enter__(self):
        self.far.begin()
        return self

    def __exit__(self, *_):
        self.child.kill()
        self.child.communicate()
        self.far.__exit__()
        self.line.close()
        self.server.close()

    def goes(self, state, manner):
        """Goes to a state, and is silenced there; answers True where the link is told down in
        time, else what came."""
        for words, event in WAYS[state]:
            if words == "hush":
                self.manner = "packets"
            elif not self.asks(words, event):
                return f"nothing came of {words}: {self.told}"
        self.manner = manner
        if manner == "connection":
            del self.rests[self.line]
            self.line.close()
            self.server.close()
        return self.asks(ASKS.get(state, ""), "linkdown") or f"the link isn't down: {self.told}"

    def asks(self, words, event):
        """Whether an event is told, as something is asked."""
        self.told.clear()
        last = time.monotonic() + LONGEST
        if words.startswith("other "):
            # It may await that its restart is confirmed.
            while (
                self.takes(f"{OTHER[self.end]} {words.removeprefix('other ')}")
                and self.turn(last - time.monotonic())
            ):
                pass
        elif words:
            self.child.stdin.write(f"{self.end} {words}\n".encode())
            self.child.stdin.flush()
        while event not in self.told and self.turn(last - time.monotonic()):
            pass
        return event in self.told

    def turn(self, seconds):
        """Takes what comes of the bridge; answers whether something came in time."""
        ready = select.select(list(self.rests), [], [], max(0, seconds))[0]
        for file in ready:
            octets = os.read(file.fileno(), 65536)
            if not octets:
                return False
            *lines, self.rests[file] = (self.rests[file] + octets).split(b"\n")
            for line in lines:
                if file is self.line:
                    self.takes(line.decode())
                else:
                    self.told.append(line.decode().split(" ")[1])
        return bool(ready)

    def takes(self, event):
        """Something happens to the other end, unless its cable is cut; what it sends goes to the
        bridge. Answers its refusal."""
        if self.manner == "cable":
            return None
        answer = self.far.ask(event)
        for frame in answer.frames:
            octets = frame.octets
            if self.manner == "packets" and len(octets) >= 7 and not octets[1] & 1:
                octets = silent_runs.without_packet(octets)
            self.line.sendall(frame._replace(octets=octets).text().encode() + b"\n")
        return answer.refusal


@support.needs_station
class SilencedBridges(unittest.TestCase):
    def test_the_link_is_told_down_in_each_state(self):
        """Or nothing is awaited any more: whatever the state, at either end, as the other end's
        packet layer or its line is silenced."""

        def goes(row):
            end, state, manner = row
            with Silenced(end) as silenced:
                return silenced.goes(state, manner)

        # Without a connection `connect` waits.
        rows = [
            row
            for row in itertools.product(ENDS, WAYS, MANNERS)
            if row[1:] != ("down", "connection")
        ]
        with ThreadPoolExecutor(16) as pool:
            for row, came in zip(rows, pool.map(goes, rows)):
                with self.subTest(row):
                    self.assertIs(came, True)


if __name__ == "__main__":
    unittest.main()
