#!/usr/bin/env python3
"""Times two bridges over the loopback, their stations behind pipes and then of the library for C:
messages a second, and processor time a message.

    bridge.py [COUNT]

The DTE sends COUNT messages of 128 octets, 5,000 where it is missing; the time is from the first
command to the end of both bridges. The program is build/x25, or the one that the variable X25
names, the library build/libx25.so.
"""
import os
import subprocess
import sys
import tempfile
import time

from building import TOP

COUNT = int(sys.argv[1]) if len(sys.argv) > 1 else 5_000
BRIDGE = [sys.executable, os.path.join(TOP, "tools", "bridge.py")]
PROGRAM = os.environ.get("X25") or os.path.join(TOP, "build", "x25")
STATIONS = {
    "the pipe": ["--x25", PROGRAM],
    "the library": ["--library", os.path.join(TOP, "build", "libx25.so")],
}
SET_UP = "dte connect\nwait dte restarted\ndte call 1 2 -\nwait dte connected\n"


def commands(folder, name, text):
    path = os.path.join(folder, name)
    with open(path, "w") as file:
        file.write(text)
    return ["--commands", path]


def used(child):
    """The processor time of a bridge and its station, once both have ended well."""
    _, status, it = os.wait4(child.pid, 0)
    child.returncode = os.waitstatus_to_exitcode(status)
    if child.returncode:
        sys.exit(f"a bridge ended with status {child.returncode}")
    return it.ru_utime + it.ru_stime


with tempfile.TemporaryDirectory() as folder:
    called = commands(folder, "dce", "wait dce incoming\ndce accept 1\n")
    calling = commands(folder, "dte", SET_UP + f"dte send 1 0 {'a5' * 128}\n" * COUNT)
    for name, station in STATIONS.items():
        dce = subprocess.Popen(
            [*BRIDGE, "dce", "--listen", "0", *called, *station],
            stdout=subprocess.DEVNULL,
            stderr=subprocess.PIPE,
            text=True,
        )
        port = dce.stderr.readline().rpartition(":")[2].strip()
        begun = time.monotonic()
        dte = subprocess.Popen(
            [
                *BRIDGE,
                "dte",
                "--connect",
                f"127.0.0.1:{port}",
                "--quiet",
                "0.2",
                *calling,
                *station,
            ],
            stdout=subprocess.DEVNULL,
        )
        seconds = used(dte) + used(dce)
        clock = time.monotonic() - begun
        print(
            f"{name}: {COUNT / clock:,.0f} messages a second, {seconds / COUNT * 1e6:,.0f} "
            "microseconds of processor time a message"
        )
