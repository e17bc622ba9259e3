"""Scripts for `x25 sim`, drawn by chance, and the words to run them by."""
import os
import random
import subprocess
import sys

from building import TOP

chance = random.Random()

# N2 is at its most, so that the link stays up however many frames are lost.
SIM = ["sim", "--n2", "255"]
SIM_OF_THREE = [*SIM, "--channels", "3"]
# A call takes the highest channel that is free.
SET_UP_OF_THREE = "drain 100\ndte call 1 2 -\ndrain 100\ndce accept 3\ndrain 100\n"
# A timer that runs, and of what it sends each round of `undelivered` leaves most on the line.
POLLING = "dte send 1 0 61\nlose > 0\n"


def set_up(channels):
    """A call on each channel."""
    calls = "".join(f"dte call {100 + channel} 99 -\n" for channel in range(channels))
    accepts = "".join(f"dce accept {channel}\n" for channel in range(1, channels + 1))
    return f"drain 100\n{calls}drain 1000\n{accepts}drain 1000\n"


def user(length):
    return chance.randbytes(length).hex() or "-"


def one_octet():
    return f"dte send 1 0 {user(1)}\ndeliver >\ndeliver <\ndeliver <\n"


def both_ways():
    return f"dte send 1 0 {user(128)}\ndce send 1 0 {user(128)}\ndrain 50\n"


def refused():
    return f"dte accept {chance.randint(1, 16)}\n"


def undelivered():
    return "t1 dte\ndeliver >\n" * 240 + "deliver <\nlose > 0\n"


def random_line():
    """A line of any kind, of four channels."""
    end, channel = chance.choice(("dte", "dce")), chance.randint(1, 4)
    kinds = {
        f"{end} send {channel} {chance.randrange(2)} {user(chance.randint(0, 300))}": 30,
        f"drain {chance.randint(1, 20)}": 30,
        f"deliver {chance.choice('<>')}": 15,
        f"lose {chance.choice('<>')} {chance.randrange(3)}": 5,
        f"t1 {end}": 6,
        f"{end} call {chance.randint(1, 999)} {chance.randint(1, 999)} -": 4,
        f"{end} accept {channel}": 4,
        f"{end} int {channel} 07": 3,
        f"{end} reset {channel}": 2,
        f"{end} clear {channel}": 1,
    }
    return chance.choices(list(kinds), list(kinds.values()))[0] + "\n"


def script(channels, one, times, begun=""):
    """A call on each channel, and then so many rounds."""
    return set_up(channels) + begun + "".join(one() for _ in range(times))


def round_of_16():
    sends = (
        f"{end} send {channel} 0 {user(64)}\n"
        for channel in range(1, 17)
        for end in ("dte", "dce")
    )
    return "".join(sends) + "drain 200\n"


def of_losses(lines):
    """A script of so many lines by `tools/losses.py`, on three channels."""
    writer = [
        sys.executable, os.path.join(TOP, "tools", "losses.py"), "1", str(lines), "--channels", "3"
    ]
    return subprocess.run(writer, check=True, stdout=subprocess.PIPE, text=True).stdout
