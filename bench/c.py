#!/usr/bin/env python3
"""Times two stations in memory from C (`bench/two_stations.c`) and from Python: what a message
takes of a processor, sent, delivered, read and acknowledged, and how often the one takes the time
of the other. Each is the least of nine runs.

    c.py [COUNT]
    c.py --python COUNT LENGTH      sends messages from Python alone

It compiles the program over `build/libx25.a`, and takes Python's binding over `build/libx25.so`;
`make lib` leaves both there. `bench/station.py` has the same in Rattle. Allocations and
instructions are counted by valgrind, where that is there.
"""
import os
import shutil
import subprocess
import sys
import time

from building import TOP
from timing import instructions, processor_time, rates

sys.path.append(os.path.join(TOP, "bindings", "python"))
import x25  # noqa: E402

LENGTHS, READS, RUNS, CHANNELS = (3, 128, 1000, 4000), 1000, 9, (1, 16, 4095)


def talk(answer, near, far):
    """Delivers all frames, and those that are answered, until there is none; answers what was
    told."""
    events = answer.events
    while answer.frames:
        answer, near, far = far.receive_all(answer.frames), far, near
        events += answer.events
    return events


def python(count, length):
    """The seconds that so many messages take from Python."""
    with x25.Station(x25.DTE) as dte, x25.Station(x25.DCE) as dce:
        talk(dte.connect(), dte, dce)
        answer = dte.call("1", "2")
        channel = answer.channel
        talk(answer, dte, dce)
        talk(dce.accept(channel), dce, dte)
        message, start = bytes(length), time.process_time()
        for _ in range(count):
            told = talk(dte.send(channel, message), dte, dce)
            if told[-1].user != message:
                sys.exit("the message didn't come")
        return time.process_time() - start


def least(run, *words):
    """The least that some runs take."""
    return min(run(*words) for _ in range(RUNS))


def each_takes(*words, more=()):
    """The instructions that a message of 1,000 octets takes of these words, which are followed by
    a count, a length and more."""
    few, many = (instructions([*words, str(count), "1000", *more]) for count in (100, 300))
    return (many - few) / 200


def main(count):
    program = os.path.join(TOP, "build", "two_stations_c")
    source, library = (
        os.path.join(TOP, "bench", "two_stations.c"), os.path.join(TOP, "build", "libx25.a")
    )
    subprocess.run(["cc", "-O2", f"-I{TOP}/include", source, library, "-o", program], check=True)
    for length in LENGTHS:
        one = least(processor_time, [program, str(count), str(length)]) / count
        more = least(
            processor_time, [program, str(count // 10), str(length), str(READS)]
        ) * 10 / count
        other = least(python, max(count // 20, 1), length) / max(count // 20, 1)
        print(
            f"messages of {length} octets: {1e6 * one:.2f} us from C, of it "
            f"{1e6 * (more - one) / (READS - 1):.3f} us to read it; "
            f"{1e6 * other:.1f} us from Python, {other / one:.1f} times as long"
        )
    if shutil.which("valgrind"):
        os.environ["PYTHONHASHSEED"] = "0"
        one, other = each_takes(program), each_takes(sys.executable, __file__, "--python")
        print(
            f"messages of 1000 octets: {one:,.0f} instructions from C, {other:,.0f} from Python, "
            f"{other / one:.1f} times as many"
        )
        for channels in CHANNELS:
            print(
                f"on one of {channels} channels: "
                f"{each_takes(program, more=('1', str(channels))):,.0f} instructions"
            )
    rates(program, "message", count)


if __name__ == "__main__":
    if sys.argv[1:2] == ["--python"]:
        python(*map(int, sys.argv[2:]))
    else:
        main(int(sys.argv[1]) if len(sys.argv) > 1 else 100_000)
