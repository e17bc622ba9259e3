#!/usr/bin/env python3
"""Plays `x25 station` against Linux's X.25, and writes the table of what came of it that
docs/INTEROP.md keeps.

    play.py FOLDER [--x25 PROGRAM] [--lose P ..] [--only WORD] [--show]

FOLDER is the one that build.sh made. The guest is the DTE, the station the DCE, joined by
tools/bridge.py over datagrams with frames of Ethernet. Each row is played once for each
probability that a frame is lost, each way, and once over XOT, for which the guest has a device of
tun and this host gateway.py; its cells are the seconds that it took. What is played is told on
standard error. Exit status: 0, or 1 where a row failed.
"""

import argparse
import itertools
import os
import re
import sys
import time

from gateway import Gateway
from kernel import Missing, Talker, boot

ROOT = os.path.dirname(os.path.dirname(os.path.abspath(__file__)))
PORTS = 5610, 5611
# Where the gateway and the bridge wait for connections of XOT; the column of it.
XOT_PORTS, XOT = (5612, 5613), "XOT"
# The kernel's T1 is of 5 seconds, and nothing changes that.
T1 = 1.5
SIZES = (1, 2, 100, 127, 128, 129, 255, 256, 257, 1000, 5000, 10_000)
CHANNELS = 4
# The facilities of the kernel's calls beside sizes and windows, each way that its sockets take:
# throughput class, reverse charging with fast select (neither alone), address extensions of the
# calling and of the called end.
REVERSE = "81"
OPTIONS = list(itertools.product(("0", "bb"), ("0", REVERSE), ("-", "12345"), ("-", "678")))
# Those of calls by the station: reverse charging and fast select alone, too.
GIVEN = list(
    itertools.product(("0", "bb"), ("0", "1", "80", REVERSE), (("-", "-"), ("12345", "678")))
)
# The addresses that the guest listens at: with nothing set, with the Q bit shown to its user, with
# these sizes and windows.
PLAIN, QUALIFIED, LARGE = 222, 333, 444
LISTENERS = (
    ("", PLAIN, ""),
    ("qbit 1", QUALIFIED, "qbit 0"),
    ("facilities 8 8 3 3", LARGE, "facilities 0 0 0 0"),
)


def pattern(length, seed):
    """The octets of a message that the guest sends."""
    return bytes((at * 7 + seed) & 255 for at in range(length)).hex()


class Joined:
    """The guest, and the bridge with its station."""

    def __init__(self, guest, options, lose):
        self.guest, self._options, self.lose = guest, options, lose
        self.patience = 900 if lose not in (0, XOT) else 120
        self.trace = os.path.join(options.folder, f"trace-{lose}")
        words = ["dce", "--t1", str(T1), "--n2", "60", "--channels", str(CHANNELS), "--long"]
        words += ["--trace", self.trace, "--stats", "--stay", "--x25", options.x25]
        if lose == XOT:
            words += ["--xot", f"127.0.0.1:{XOT_PORTS[0]}", "--xot-listen", str(XOT_PORTS[1])]
            self.gateway = Gateway(PORTS[1], PORTS[0], *XOT_PORTS)
        else:
            words += [
                "--udp", f"{PORTS[1]}:{PORTS[0]}", "--lose", str(lose), "--seed", str(options.seed)
            ]
        self.ours = Talker(
            "station",
            [sys.executable, "-u", os.path.join(ROOT, "tools", "bridge.py"), *words],
            options.show,
        )

    def ask(self, command, answer):
        """Has our user ask for something; answers the first notice that begins so."""
        since = self.ours.mark()
        self.ours.tell(command)
        return self.ours.hear(since, answer, self.patience)[0]

    def order(self, command, answer):
        """Has the guest do something; answers its line that begins so."""
        since = self.guest.mark()
        self.guest.tell(command)
        return self.guest.hear(since, answer, self.patience)[0]

    def heed(self, command, answer):
        """Has the guest do something that our user is told of; answers the first notice that
        begins so."""
        since = self.ours.mark()
        self.guest.tell(command)
        return self.ours.hear(since, answer, self.patience)[0]

    def both(self, act, ours, guests):
        """Does something that both are told of; answers both lines."""
        since, there = self.ours.mark(), self.guest.mark()
        act()
        return (
            self.ours.hear(since, ours, self.patience)[0],
            self.guest.hear(there, guests, self.patience)[0],
        )


# ---- the rows


def set_up(it):
    """link set-up and restart"""
    since = it.ours.mark()
    if it.lose == XOT:
        it.order("tun", "linked")
        it.gateway.begin()
        it.ours.hear(0, "dce restarted", it.patience)
        return
    it.order("link", "linked")
    if not any(line.startswith("dce linkup") for line in it.ours.said[since:]):
        it.ours.tell("dce connect")
    it.ours.hear(since, "dce restart", it.patience)


def heard(trace):
    """The frames of a trace that came."""
    with open(trace) as file:
        return [bytes.fromhex(line.split()[2]) for line in file if "\t> " in line]


def channel_of(notice):
    return int(re.search(r" ch=(\d+)", notice)[1])


def call(it, words="", address=PLAIN, given="", data="c0ffee"):
    """Has us call the guest; answers channel, slot, and what both say of the call."""
    ours, guests = it.both(
        lambda: it.ours.tell(f"dce {given}call {address} 111 {data}{words}"),
        "dce connected",
        "accepted",
    )
    return channel_of(ours), int(guests.split()[1]), ours, guests


def clear(it, channel, slot):
    """Has us clear a circuit."""
    it.both(
        lambda: it.ours.tell(f"dce clear {channel}"),
        f"dce cleardone ch={channel}",
        f"closed {slot} ",
    )


def called(it):
    """a call by the station, without facilities"""
    channel, slot, ours, _ = call(it)
    clear(it, channel, slot)


def negotiated(it):
    """sizes of 256, windows of 3, proposed by the station"""
    # They are taken where the kernel's socket has set them, and else answered by 128 and 2.
    for address, taken in (LARGE, "size=8,8 win=3,3"), (PLAIN, "size=7,7 win=2,2"):
        channel, slot, ours, guests = call(it, " 8 8 3 3", address)
        clear(it, channel, slot)
        # The station leaves out what is the default.
        if (
            (ours.split(" ", 3) + ["size=7,7 win=2,2"])[3] != taken
            or guests.split(" ", 3)[3] != taken
        ):
            raise Missing(f"the ends hold otherwise: {ours}, {guests}")


def calls(it):
    """a call, a message and a clear by the kernel, with these"""
    it.order("facilities 8 8 3 3", "set")
    there = it.guest.mark()
    channel = channel_of(it.heed("call 111 222 aabb", "dce incoming"))
    it.ours.tell(f"dce accept {channel}")
    slot = it.guest.hear(there, "connected", it.patience)[0].split()[1]
    message = it.heed(f"send {slot} 700 5", f"dce message ch={channel} ")
    if not message.endswith(pattern(700, 5)):
        raise Missing("the guest's message came otherwise")
    it.both(lambda: it.guest.tell(f"close {slot}"), f"dce cleared ch={channel}", f"closing {slot}")
    it.order("facilities 0 0 0 0", "set")


def facilities_of(throughput, reverse, calling, called):
    """The facilities that a call of the kernel has with these options, those before sizes and
    windows, and those after them."""
    before = f"01{reverse:>02}" if reverse != "0" else ""
    before += f"02{throughput}" if throughput != "0" else ""
    extensions = [
        (code, digits) for code, digits in (("cb", calling), ("c9", called)) if digits != "-"
    ]
    after = "000f" if extensions else ""
    for code, digits in extensions:
        octets = digits + "0" * (len(digits) % 2)
        after += f"{code}{1 + len(octets) // 2:02x}{len(digits):02x}{octets}"
    return bytes.fromhex(before), bytes.fromhex(after)


def is_call(octets):
    """Whether a frame is an I frame with a CALL."""
    return len(octets) > 6 and not octets[1] & 1 and octets[4] == 0x0B


def taken(it, options, data):
    """Has the kernel call with these options; the call comes with their facilities, stands, and is
    cleared."""
    it.order(f"options {' '.join(options)}", "set")
    there = it.guest.mark()
    notice = it.heed(f"call 111 222 {data}", "dce incoming")
    channel = channel_of(notice)
    it.ours.tell(f"dce accept {channel}")
    slot = it.guest.hear(there, "connected", it.patience)[0].split()[1]
    clear(it, channel, slot)
    # The bridge writes what came to the trace after the notice of it.
    call = [octets for octets in heard(it.trace) if is_call(octets)][-1]
    if (
        not all(field in call for field in facilities_of(*options))
        or not notice.endswith(f" data={data}")
    ):
        raise Missing(f"{call.hex()} was told as {notice}")


def equipped(it):
    """16 calls by the kernel, with each of its facilities"""
    for options in OPTIONS:
        taken(it, options, "aabb")
    it.order("options 0 0 - -", "set")


def fast_select(it):
    """a call by the kernel with fast select, 128 octets of user data"""
    taken(it, ("0", REVERSE, "-", "-"), pattern(128, 7))
    it.order("options 0 0 - -", "set")


def gives(it, slot, *words):
    """Whether the kernel has what we gave with our call or our acceptance."""
    line = it.order(f"given {slot}", "given ")
    if line.split()[1:] != list(words):
        raise Missing(f"the kernel has otherwise what was given as {' '.join(words)}: {line}")


def giving(it):
    """16 calls by the station, with each of these facilities"""
    for throughput, reverse, extensions in GIVEN:
        field = b"".join(facilities_of(throughput, reverse, *extensions)).hex() or "-"
        channel, slot, _, _ = call(it, given=f"with {field} - ")
        gives(it, slot, throughput, reverse, *extensions, "c0ffee")
        clear(it, channel, slot)


def giving_data(it):
    """128 octets of user data with a call, an acceptance, a clearing"""
    data = pattern(128, 7)
    channel, slot, _, _ = call(it, given="with 0180 - ", data=data)
    gives(it, slot, "0", "80", "-", "-", data)
    it.both(
        lambda: it.ours.tell(f"dce with - {data} clear {channel}"),
        f"dce cleardone ch={channel}",
        f"closed {slot} ",
    )
    it.order(f"options 0 {REVERSE} - -", "set")
    there = it.guest.mark()
    channel = channel_of(it.heed("call 111 222 aabb", "dce incoming"))
    it.ours.tell(f"dce with - {data} accept {channel}")
    slot = int(it.guest.hear(there, "connected", it.patience)[0].split()[1])
    gives(it, slot, "0", REVERSE, "-", "-", data)
    clear(it, channel, slot)
    it.order("options 0 0 - -", "set")


def echoed(it, channel, size, seed, q=0):
    """Sends a message, which comes back octet for octet."""
    octets = pattern(size, seed)
    since = it.ours.mark()
    it.ours.tell(f"dce send {channel} {q} {octets}")
    message = it.ours.hear(since, f"dce message ch={channel} ", it.patience)[0]
    if not message.endswith(f" q={q} data={octets}"):
        raise Missing(f"{size} octets came back otherwise")


def messages(it):
    """12 messages, 17,255 octets each way, echoed"""
    channel, slot, _, _ = call(it, " 8 8 3 3", LARGE)
    for size in SIZES:
        echoed(it, channel, size, size & 255)
    clear(it, channel, slot)


def at_once(it):
    """four channels at once, 3 messages on each, echoed"""
    opened = [call(it, " 7 7 2 2")[:2] for _ in range(CHANNELS)]
    since, size = it.ours.mark(), 2500
    for channel, _ in opened:
        for seed in range(3):
            it.ours.tell(f"dce send {channel} 0 {pattern(size, 16 * channel + seed)}")
    for channel, _ in opened:
        came = it.ours.hear(since, f"dce message ch={channel} ", it.patience, 3)
        if [line.partition("data=")[2] for line in came] != [
            pattern(size, 16 * channel + seed) for seed in range(3)
        ]:
            raise Missing(f"the messages of channel {channel} came back otherwise")
    for channel, slot in opened:
        clear(it, channel, slot)


def q_bit(it):
    """the Q bit, echoed"""
    channel, slot, _, _ = call(it, address=QUALIFIED)
    for q in (1, 0):
        echoed(it, channel, 10, q, q)
    clear(it, channel, slot)


def interrupts(it):
    """an interrupt either way"""
    channel, slot, _, _ = call(it)
    since, there = it.ours.mark(), it.guest.mark()
    it.ours.tell(f"dce int {channel} 07")
    it.ours.hear(since, f"dce intdone ch={channel}", it.patience)
    it.guest.hear(there, f"interrupt {slot} 7", it.patience)
    it.heed(f"interrupt {slot} 9", f"dce interrupt ch={channel}")
    echoed(it, channel, 3, 1)
    clear(it, channel, slot)


def resets(it):
    """a reset by the station, a message before and after it"""
    channel, slot, _, _ = call(it)
    echoed(it, channel, 100, 3)
    it.ask(f"dce reset {channel}", f"dce resetdone ch={channel}")
    echoed(it, channel, 100, 4)
    clear(it, channel, slot)


def is_not_ready(octets, channel):
    """Whether a frame is an I frame with RNR of a channel."""
    return len(octets) == 7 and not octets[1] & 1 and octets[3] == channel and octets[4] & 31 == 5


def too_long(it):
    """a message larger than the kernel's receive buffer"""
    channel, slot, _, _ = call(it, " 8 8 3 3", LARGE)
    there = it.guest.mark()
    it.ours.tell(f"dce send {channel} 0 {pattern(60_000, 1)}")
    time.sleep(30)
    if any(line.startswith(f"message {slot} ") for line in it.guest.said[there:]):
        raise Missing("RNR: the message came whole")
    if not any(is_not_ready(octets, channel) for octets in heard(it.trace)):
        raise Missing("RNR: none came")
    clear(it, channel, slot)


def again(it):
    """DISC by the kernel, set-up anew, a call, a message"""
    since = it.ours.mark()
    it.order("down", "down")
    # The kernel sends DISC once; where that is lost the link goes down by its SABM.
    if not it.lose:
        it.ours.hear(since, "dce linkdown disc", it.patience)
    it.order("link", "linked")
    it.ours.hear(since, "dce linkdown", it.patience)
    it.ours.hear(since, "dce restart", it.patience)
    channel, slot, _, _ = call(it)
    echoed(it, channel, 500, 5)
    clear(it, channel, slot)


ROWS = (
    set_up, called, negotiated, calls, equipped, fast_select, giving, giving_data, messages,
    at_once, q_bit, interrupts, resets,
)
# Played where there is a link that may end, and where no frame of it is lost alone.
LINK_ROWS, LAST_ROWS = (again,), (too_long,)


def played(row, it):
    """What came of a row: whether it passed, and its cell of the table."""
    begin = time.monotonic()
    try:
        row(it)
    except Missing as missing:
        return False, f"FAILED: {missing}"
    return True, f"ok, {time.monotonic() - begin:.0f}"


def frmrs(trace):
    """How many FRMR there are in a trace, by their control octets."""
    with open(trace) as file:
        frames = [line.split("\t")[1].split() for line in file]
    return sum(
        1 for frame in frames if len(frame) == 2 and int(frame[1][2:4] or "0", 16) & 0xEF == 0x87
    )


# What is counted of each probability, in the rows after those that are played.
COUNTED = ("frames sent, come", "frames lost out, in", "firings of T1 here", "FRMR")


def counted(it):
    """The cells of what is counted, once the bridge has ended."""
    said = " ".join(line.partition("frames: ")[2] for line in it.ours.said if "frames: " in line)
    found = re.match(
        r"(\d+) sent, (\d+) came; (\d+) \+ (\d+) lost, .*; T1 fired (\d+) times", said
    )
    if not found:
        return ["not told"] * 3 + [str(frmrs(it.trace))]
    sent, come, out, back, fired = (f"{int(number):,}" for number in found.groups())
    return [f"{sent}, {come}", f"{out}, {back}", fired, str(frmrs(it.trace))]


def prepare(guest):
    """Waits until the guest runs, and has it listen; what its circuits take they send back."""
    begin = time.monotonic()
    guest.hear(0, "ready", 900)
    print(f"booted in {time.monotonic() - begin:.0f} s", file=sys.stderr, flush=True)
    for command in [
        "echo 1",
        *(
            line
            for before, address, after in LISTENERS
            for line in (before, f"listen {address}", after)
            if line
        ),
    ]:
        since = guest.mark()
        guest.tell(command)
        guest.hear(since, "listening" if command.startswith("listen") else "set", 60)


def play(it, options):
    """Plays all rows with one probability; answers their cells, by the rows' names."""
    cells = {}
    for row in ROWS + (LINK_ROWS if it.lose != XOT else ()) + (LAST_ROWS if not it.lose else ()):
        if row is set_up or not options.only or options.only in row.__name__:
            passed, cells[row.__doc__] = played(row, it)
            print(
                f"{column(it.lose)}: {row.__doc__}: {cells[row.__doc__]}",
                file=sys.stderr,
                flush=True,
            )
            if row is set_up and not passed:
                break
    if it.lose == XOT:
        it.ours.stop()
        return cells
    it.guest.tell("down")
    time.sleep(2)
    it.ours.stop()
    return {**cells, **dict(zip(COUNTED, counted(it)))}


def column(lose):
    """The name of a column."""
    return XOT if lose == XOT else f"{100 * lose:.0f}"


def run(options):
    """Plays all rows with each probability, and writes the table; answers whether all passed."""
    guest = Talker("kernel", boot(options.folder, *PORTS), options.show)
    try:
        prepare(guest)
        columns = [play(Joined(guest, options, lose), options) for lose in [*options.lose, XOT]]
        guest.tell("quit")
        guest.end(20)
    finally:
        guest.end(0)
    print("| Row | " + " | ".join(map(column, [*options.lose, XOT])) + " |")
    print("|---" * (1 + len(columns)) + "|")
    for name in [row.__doc__ for row in ROWS + LINK_ROWS + LAST_ROWS] + list(COUNTED):
        print(f"| {name} | " + " | ".join(cells.get(name, "-") for cells in columns) + " |")
    return not any("FAILED" in cell for cells in columns for cell in cells.values())


def main():
    parser = argparse.ArgumentParser(
        description=__doc__, formatter_class=argparse.RawDescriptionHelpFormatter
    )
    parser.add_argument("folder")
    parser.add_argument(
        "--x25",
        default=os.path.join(ROOT, "build", "x25"),
        metavar="PROGRAM",
        help="the program (build/x25)",
    )
    parser.add_argument(
        "--lose",
        type=float,
        nargs="*",
        default=[0, 0.05, 0.2],
        metavar="P",
        help="probabilities (0 0.05 0.2)",
    )
    parser.add_argument(
        "--seed", type=int, default=1, metavar="N", help="what the losses come from (1)"
    )
    parser.add_argument(
        "--only", metavar="WORD", help="the rows whose functions' names have this word"
    )
    parser.add_argument("--show", action="store_true", help="show all that both ends say")
    return 0 if run(parser.parse_args()) else 1


if __name__ == "__main__":
    sys.exit(main())
