"""Random runs of two stations, where what one answers doesn't come, at the packet layer or at all.

    silent_runs.py [--program PROGRAM] [--from SEED] [RUNS]

Either end is `x25 station --clock`, in time that is counted, not waited for. From some moment on
some kinds of answers of one end never come to the other: in frames of packets stands RR on a
channel that isn't there, and UA, supervisory frames or all frames are lost. The line loses frames
besides. In some runs noise comes from then on: single octets, damaged frames, frames of other
addresses. In some there is a flood: each frame comes up to five times, and the user of the other
end asks for a dozen things at once. Whatever comes or doesn't, at either end:

  - a channel awaits an answer no longer than the times of a call, a clearing and a restart add up
    to, or of an interrupt those of an interrupt, a reset, a clearing and a restart, unless the
    link comes up or goes down
  - while the link is set up, or is up and nothing but noise comes, it comes up or goes down within
    N2 + 1 times T1, and T3 before where it is up
  - at the mark of the station stands `due` where it awaits an answer, and only there, and no timer
    runs without end

At the end all answers come again: a call has to be connected and cleared within the same time.

Exit status: 0; 1 where a run fails, with its seed; 2 for bad words, or where there is no program.
"""

import heapq
import itertools
import random
import re
import sys

import runs
from peer_runs import Failed
from runs import (
    ACCEPTED, CLEAR, CLEAR_CONFIRMATION, INTERRUPT_CONFIRMATION, RESET_CONFIRMATION,
    RESTART_CONFIRMATION, RR,
)

from x25tools import piped  # where runs finds it
from x25tools.x25lines import BadInput, fcs, is_sealed

ENDS = ("dte", "dce")
OTHER = {"dte": "dce", "dce": "dte"}
DIRECTION = {"dte": ">", "dce": "<"}
# Kinds of answers: those of packets by their octet, where RR stands for RNR too, and of frames
# that bring none.
PACKETS = (
    ACCEPTED, CLEAR, CLEAR_CONFIRMATION, RESET_CONFIRMATION, RESTART_CONFIRMATION,
    INTERRUPT_CONFIRMATION, RR,
)
UA, SUPERVISORY, ALL = "UA", "supervisory frames", "all frames"
KINDS = (*PACKETS, UA, SUPERVISORY, ALL)
CALLS = {end: f"{end} call 12 34 -" for end in ENDS}
CHANNELS, N2 = 3, 4
# All times are in milliseconds.
LATENCY = 100
TIMES = {
    "t1": 1000, "t3": 7000, "t20": 20_000, "t21": 31_000, "t22": 24_000, "t23": 17_000,
    "t25": 9000, "t26": 13_000,
}
# How long a channel may await an answer, and that to an interrupt.
WAIT = TIMES["t21"] + TIMES["t23"] + TIMES["t20"]
INTERRUPT_WAIT = TIMES["t26"] + TIMES["t22"] + TIMES["t23"] + TIMES["t20"]
# That, and a link that is set up, or isn't; what is lost is sent again by T1.
BOUND = max(WAIT, INTERRUPT_WAIT) + 3 * (N2 + 1) * TIMES["t1"]
LASTS, LOSSES = 300_000, (0.02, 0.1)
NOISE, FLOOD = "noise", "a flood"
MANNERS = ("", "", NOISE, FLOOD)
# How long it is between two of noise, and how often a frame comes and what the other user asks for
# at once, in a flood.
PAUSE, COPIES, BURST = 2000, 5, 12
LONG = 80_000
# RR on a channel that the stations don't have.
NOTHING = bytes([0x10, 0xFF, 0x01])
# The event of an entry, and its channel.
NOTICE = re.compile(r"\w+ (\w+)(?: ch=(\d+))?")


class Told:
    """What the entries of an end tell: whether its link is up, and what it awaits, by channel; a
    restart by channel 0, the link by LINK."""

    LINK = -1

    def __init__(self):
        self.is_up, self.awaited, self._sets_up = False, {}, False

    def heed(self, event, channel):
        """Takes an entry; answers whether it is of a link that comes up or goes down."""
        if event == "relink":
            self._sets_up = True
        elif event in ("linkup", "linkdown"):
            self.is_up = event == "linkup"
            self.awaited = (
                {0: "restart"} if self.is_up else {self.LINK: "link"} if self._sets_up else {}
            )
            self._sets_up = False
            return True
        elif event == "connect":
            self.awaited = {self.LINK: "link"}
        elif event == "restart" or (event, channel) == ("fault", 0):
            # A confirmation of none is answered by a restart.
            self.awaited = {0: "restart"}
        elif event in ("restarted", "restartdone"):
            self.awaited = {}
        elif event in ("call", "clear", "reset", "fault", "int"):
            # After a fault the station clears or resets.
            self.awaited[channel] = event
        elif event in (
            "connected", "incoming", "cleared", "cleardone", "collided", "wasreset", "resetdone",
            "intdone",
        ):
            self.awaited.pop(channel, None)
        return False


class End:
    """A station, when something is due of its timers, since when it awaits what, and when octets
    came, or its link came up or went down."""

    def __init__(self, program, end, times, n2):
        self.name, self.told = end, Told()
        words = [word for name, time in times.items() for word in (f"--{name}", str(time))]
        self.station = piped.Station(
            program, end, ["--channels", str(CHANNELS), "--n2", str(n2), "--clock", *words]
        )
        self.setting_up = (n2 + 1) * TIMES["t1"]
        self.due, self.since, self.heard, self.entries = None, {}, 0, []

    def odd(self, now):
        """What lasts for too long; nothing where nothing does."""
        for channel, (since, first) in self.since.items():
            if now - since > (
                self.setting_up
                if channel == Told.LINK
                else INTERRUPT_WAIT
                if first == "int"
                else WAIT
            ):
                return (
                    f"{self.name} awaits {self.told.awaited[channel]} on channel {channel} since "
                    f"{since}"
                )
        is_silent = self.told.is_up and now - self.heard > TIMES["t3"] + self.setting_up
        return f"{self.name} hears nothing since {self.heard}" if is_silent else ""


def kind_of(octets):
    """The kind of a frame, if that may be left out."""
    if not is_sealed(octets) or len(octets) < 4:
        return None
    if len(octets) >= 7 and not octets[1] & 1:
        return RR if octets[4] & 0x1B == RR else octets[4]
    return UA if octets[1] & 0xEF == 0x63 else SUPERVISORY if octets[1] & 3 == 1 else None


def without_packet(octets):
    """A frame with another packet in place of its own, which the packet layer doesn't heed."""
    body = octets[:2] + NOTHING
    return body + fcs(body)


class Run:
    """Two ends and the line between them. From some moment on what `kinds` names doesn't come to
    the end that `deaf` names."""

    TIMES, N2, ACCEPTS = TIMES, N2, 0.9

    def __init__(self, program, seed):
        self.chance = random.Random(seed)
        self.now, self.count, self.frames = 0, itertools.count(), 0
        self.deaf = self.chance.choice(ENDS)
        self.kinds = set(self.chance.sample(KINDS, self.chance.choice([0, 1, 1, 2, len(PACKETS)])))
        self.begins = self.chance.choice([0, self.chance.randrange(LASTS)])
        self.loss = self.chance.choice(LOSSES)
        self.manner = self.chance.choice(MANNERS)
        self.ends = {end: End(program, end, self.TIMES, self.N2) for end in ENDS}
        self.line = []

    def ask(self, end, event):
        """Asks a station, after what is due; answers its refusal."""
        if end.due is not None and end.due <= self.now:
            self.heed(end, end.station.ask(f"@ {self.now}"), "the time")
        answer = end.station.ask(event, self.now)
        self.heed(end, answer, event)
        return answer.refusal

    def heed(self, end, answer, event):
        """The frames of an answer go on the line; what is awaited after it is kept."""
        is_anew = False
        for notice in answer.notices:
            end.entries.append(notice)
            found = NOTICE.match(notice)
            word, channel = found[1], int(found[2]) if found[2] else None
            is_anew = end.told.heed(word, channel) or is_anew
            if word == "incoming" and self.chance.random() < self.ACCEPTS:
                self.push(end, f"{end.name} accept {channel}")
        if is_anew:
            end.heard = self.now
        begun = {channel: (self.now, asked) for channel, asked in end.told.awaited.items()}
        end.since = (
            begun
            if is_anew
            else {channel: end.since.get(channel, first) for channel, first in begun.items()}
        )
        for frame in answer.frames:
            self.sends(end, frame.octets)
        end.due = answer.due
        if end.due is not None and end.due <= self.now:
            raise Failed(
                f"{end.name}: something is due at {end.due} still, after {event} at {self.now}"
            )
        if answer.is_idle and answer.awaits != bool(end.told.awaited):
            raise Failed(
                f"{end.name}: the mark says {'due' if answer.awaits else 'idle'}, and awaited is "
                f"{end.told.awaited}, after {event}"
            )

    def push(self, end, event, later=LATENCY, is_noise=False):
        heapq.heappush(self.line, (self.now + later, next(self.count), end.name, event, is_noise))

    def disturbs(self):
        """Noise that comes next to the end that hears less: nothing by which the other end
        sends."""
        damaged, foreign = (
            self.chance.randbytes(self.chance.choice([1, 3, 9])),
            bytes([self.chance.choice([0x00, 0x07, 0xFF]), 0x01]),
        )
        noise = (
            foreign + fcs(foreign)
            if is_sealed(damaged)
            else self.chance.choice([damaged, foreign + fcs(foreign)])
        )
        self.push(
            self.ends[self.deaf],
            f"{DIRECTION[OTHER[self.deaf]]} {noise.hex()}",
            int(self.chance.expovariate(1 / PAUSE)),
            True,
        )

    def sends(self, end, octets):
        """A frame goes to the other end, unless it is lost; what its packet layer doesn't hear is
        another packet there."""
        self.frames += 1
        if self.chance.random() < self.loss:
            return
        to = OTHER[end.name]
        if to == self.deaf and self.now >= self.begins:
            kind = kind_of(octets)
            if ALL in self.kinds or kind in self.kinds and kind not in PACKETS:
                return
            octets = without_packet(octets) if kind in self.kinds else octets
        floods = self.manner == FLOOD and to == self.deaf and self.now >= self.begins
        for _ in range(self.chance.randint(1, COPIES) if floods else 1):
            self.push(self.ends[to], f"{DIRECTION[end.name]} {octets.hex()}")

    def step(self, until):
        """What comes next: a frame, or a timer; answers False where nothing does before that."""
        dues = [(self.line[0][0], 0, None)] if self.line else []
        dues += [
            (end.due, place, end)
            for place, end in enumerate(self.ends.values(), 1)
            if end.due is not None
        ]
        when, _, end = min(dues, key=lambda due: due[:2], default=(until, 0, None))
        if when >= until:
            self.now = until
            return False
        self.now = when
        if end is None:
            _, _, name, event, is_noise = heapq.heappop(self.line)
            end = self.ends[name]
            if event[0] in "<>" and not is_noise:
                end.heard = self.now
            if is_noise and self.now >= self.begins:
                self.disturbs()
            self.ask(end, event)
        else:
            self.heed(end, end.station.ask(f"@ {self.now}"), "the time")
        for end in self.ends.values():
            if odd := end.odd(self.now):
                raise Failed(f"{odd}, at {self.now}")
        return True

    def lasts(self, until):
        """As long as a time, or as it takes."""
        for _ in range(200_000):
            if not self.step(until):
                return
        raise Failed(f"the timers run without end, at {self.now}")

    def command(self):
        """A command of either user, in a flood many of that of the other end."""
        if self.manner == FLOOD and self.now >= self.begins:
            for _ in range(BURST):
                self.commands(self.ends[OTHER[self.deaf]])
        self.commands(self.ends[self.chance.choice(ENDS)])

    def commands(self, end):
        channel = self.chance.randint(1, CHANNELS)
        words = [
            "clear {}", "clear {}", "reset {}", "reset {}", "send {} 0 414243", "int {} 01",
            "restart", "connect", "relink",
        ]
        event = self.chance.choice(
            [CALLS[end.name]] * 8 + [f"{end.name} {word}".format(channel) for word in words]
        )
        self.ask(end, event)

    def play(self):
        for end in self.ends.values():
            end.station.begin()
        try:
            return self.plays()
        finally:
            for end in self.ends.values():
                end.station.__exit__()

    def plays(self):
        self.ask(self.ends["dte"], "dte connect")
        if self.manner == NOISE:
            self.push(self.ends[self.deaf], f"{DIRECTION[OTHER[self.deaf]]} 00", self.begins, True)
        while self.now < LASTS:
            # Now and then no user asks anything, for longer than an answer may be awaited.
            self.lasts(
                self.now
                + (LONG if self.chance.random() < 0.05 else int(self.chance.expovariate(1 / 5000)))
            )
            self.command()
        self.loss, self.begins = 0, self.now + 1_000_000
        self.recovers(self.ends[self.deaf])

    def recovers(self, end):
        """A call, once all answers come: what is awaited has to end, and a call to be connected
        and cleared."""
        self.lasts(self.now + BOUND)
        if not end.told.is_up:
            self.ask(end, f"{end.name} connect")
            self.lasts(self.now + BOUND)
        self.ask(end, f"{end.name} restart")
        self.lasts(self.now + BOUND)
        end.entries.clear()
        refusal = self.ask(end, CALLS[end.name])
        self.lasts(self.now + 2000)
        channel = next(
            (entry.split("ch=")[1].split(" ")[0] for entry in end.entries if " call " in entry),
            None,
        )
        self.ask(end, f"{end.name} clear {channel}")
        self.lasts(self.now + 2000)
        events = [entry.split(" ")[1] for entry in end.entries]
        if "call" not in events or "cleardone" not in events and "cleared" not in events:
            raise Failed(f"{end.name} doesn't get on once answers come: {refusal}, {end.entries}")


def play(program, seed, kind=Run):
    """The lines that tell what failed, and how many frames the run has."""
    run = kind(program, seed)
    try:
        run.play()
    except (Failed, BadInput) as failed:
        kinds = ", ".join(
            f"{kind:02x}" if kind in PACKETS else kind for kind in KINDS if kind in run.kinds
        )
        return (
            [f"{failed} (deaf: {run.deaf}, of {kinds}, from {run.begins} on; {run.manner})"],
            run.frames,
        )
    return [], run.frames


def main():
    options = runs.options_of(runs.words(__doc__, 200))
    return runs.tell(options, lambda seed: play(options.program, seed))


if __name__ == "__main__":
    sys.exit(main())
