#!/usr/bin/env python3
"""Times the scripts of tools/ on many frames, beside tshark where that is installed.

    tools.py [FRAMES [ROUNDS]]

Makes a trace of DATA packets both ways on four channels, in frames of 65 octets, and the same as
captures: LAPB in pcapng, and XOT in pcap. Runs each script and `tshark -n -r` on them in turn,
their output thrown away, and prints of each the least time on the clock, the least processor time,
of what it runs too, and the most memory of one process. FRAMES is 1,000,000 where it is missing,
ROUNDS 3. The program is the one that the variable X25 names, or build/x25.
"""

import os
import random
import resource
import shutil
import struct
import subprocess
import sys
import tempfile
import time

from building import TOP

TOOLS = os.path.join(TOP, "tools")
sys.path.insert(0, TOOLS)

from x25tools import captures, x25lines  # noqa: E402

PROGRAM = os.environ.get("X25") or os.path.join(TOP, "build", "x25")
SITA, ETHERNET = 196, 1
DATA_OCTETS = 58
CHANNELS = 4
MILLISECOND = 10**6
BEGIN = 1_700_000_000 * x25lines.NANOSECONDS


def packets(count):
    """Yields direction, N(S), N(R) and packet of each frame: both ends in turn, on each channel in
    turn."""
    dice, data = random.Random(1), {}
    for number in range(count):
        direction, channel, sent = "><"[number % 2], 1 + number // 2 % CHANNELS, number // 2
        ps, pr = data.get((direction, channel), 0), data.get(("<>"[number % 2], channel), 0)
        data[direction, channel] = (ps + 1) % 8
        packet = bytes([0x10, channel, pr << 5 | ps << 1]) + dice.getrandbits(
            8 * DATA_OCTETS
        ).to_bytes(DATA_OCTETS, "big")
        yield direction, sent % 8, (sent + number % 2) % 8, packet


def segment(direction, sequence, packet):
    """A frame of Ethernet with a segment of TCP that has a packet of XOT; `sequence` has the next
    octet of both ways."""
    octets = struct.pack(">HH", 0, len(packet)) + packet
    other = "<" if direction == ">" else ">"
    ends, addresses = ((40000, 1998), (b"\x0a\0\0\1", b"\x0a\0\0\2"))
    if direction == "<":
        ends, addresses = ends[::-1], addresses[::-1]
    tcp = struct.pack(
        ">HHIIBBHHH",
        *ends,
        sequence[direction] % 2**32,
        sequence[other] % 2**32,
        5 << 4,
        0x18,
        8000,
        0,
        0,
    ) + octets
    sequence[direction] += len(octets)
    return bytes(12) + struct.pack(
        ">HBBHHHBBH", 0x0800, 0x45, 0, 20 + len(tcp), 0, 0, 64, 6, 0
    ) + b"".join(addresses) + tcp


def make(folder, count):
    """Writes the trace and the captures into a folder."""
    sequence = {">": 1, "<": 1}
    with open(f"{folder}/trace", "w") as trace, open(f"{folder}/lapb", "wb") as lapb, open(
        f"{folder}/xot", "wb"
    ) as over_tcp:
        writer = captures.Writer(lapb, SITA)
        over_tcp.write(struct.pack("<IHHiIII", 0xA1B2C3D4, 2, 4, 0, 0, 65535, ETHERNET))
        for number, (direction, ns, nr, packet) in enumerate(packets(count)):
            frame = bytes([1 if direction == ">" else 3, nr << 5 | ns << 1]) + packet
            trace.write(f"{direction} {(frame + x25lines.fcs(frame)).hex()}\n")
            time_of, is_sent = BEGIN + number * MILLISECOND, direction == ">"
            writer.packet(
                bytes([0 if is_sent else 1, 0, 0, 0, 1]) + frame,
                time_of,
                captures.OUTBOUND if is_sent else captures.INBOUND,
            )
            octets = segment(direction, sequence, packet)
            whole, rest = divmod(time_of, x25lines.NANOSECONDS)
            over_tcp.write(
                struct.pack("<IIII", whole, rest // 1000, len(octets), len(octets)) + octets
            )


def rows(folder):
    """Yields the name of each row and its command."""
    def script(name, *words):
        return [sys.executable, os.path.join(TOOLS, name), *words]

    asked = ["--x25", PROGRAM]
    yield "decode, trace", f"{PROGRAM} decode < {folder}/trace"
    for words in (), ("--messages",), ("--stats",):
        yield (
            " ".join(["x25dump", *words]) + ", trace",
            [*script("x25dump.py", *asked, *words), f"{folder}/trace"],
        )
    yield "chart, trace", [*script("chart.py", *asked), f"{folder}/trace"]
    for capture in ("lapb", "xot"):
        if shutil.which("tshark"):
            yield f"tshark, {capture}", ["tshark", "-n", "-r", f"{folder}/{capture}"]
        yield f"pcap2x25, {capture}", script("pcap2x25.py", f"{folder}/{capture}")
        yield f"x25dump, {capture}", [*script("x25dump.py", *asked), f"{folder}/{capture}"]
        yield (
            f"pcap2x25 | decode, {capture}",
            f"{' '.join(script('pcap2x25.py', f'{folder}/{capture}'))} | {PROGRAM} decode",
        )


def timed(command):
    """Runs a command in a process of its own that counts; answers seconds on the clock, of the
    processors, and kB at most."""
    reader, writer = os.pipe()
    if os.fork() == 0:
        begun = time.monotonic()
        subprocess.run(
            command,
            shell=isinstance(command, str),
            stdout=subprocess.DEVNULL,
            stderr=subprocess.DEVNULL,
            check=True,
        )
        used = resource.getrusage(resource.RUSAGE_CHILDREN)
        os.write(
            writer,
            f"{time.monotonic() - begun} {used.ru_utime + used.ru_stime} "
            f"{used.ru_maxrss}".encode(),
        )
        os._exit(0)
    os.close(writer)
    with os.fdopen(reader) as given:
        told = given.read().split()
    os.wait()
    if not told:
        sys.exit(f"it failed: {command}")
    return tuple(map(float, told))


def main():
    count, rounds = (
        int(word) for word in (sys.argv[1:] + ["1000000", "3"][len(sys.argv) - 1 :])[:2]
    )
    with tempfile.TemporaryDirectory() as folder:
        make(folder, count)
        told = {}
        for _ in range(rounds):
            for name, command in rows(folder):
                told.setdefault(name, []).append(timed(command))
        print(
            f"{count:,} frames, the least of {rounds} rounds\n"
            f"{'':28}{'seconds':>9}{'of processors':>15}{'MB at most':>12}"
        )
        for name, times in told.items():
            clock, processors, memory = (min(column) for column in zip(*times))
            print(f"{name:28}{clock:9.1f}{processors:15.1f}{memory / 1000:12.0f}")


if __name__ == "__main__":
    main()
