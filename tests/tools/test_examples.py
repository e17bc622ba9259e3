"""Runs the scripts of examples/ on the simulator, and says where its traces come from.

Each script writes the transcript that stands beside it. Each trace is what went over the line in a
run of a script, or the beginning of that: so two stations sent each of its frames, and the other
one took it without fault, but for a damaged one.
"""

import os
import re
import subprocess
import unittest

import samples
import support

from x25tools import drawing, simruns

EXAMPLES = os.path.join(support.ROOT, "examples")

# What a run says where a station was told of a fault, or refused what came.
FAULT = re.compile(
    r"linkdown (?!local|disc)|(?:restarted|wasreset|cleared) .*cause=(?!0 diag=0$|7 diag=0$)|^! |"
    r"^\? "
)


def names(ending):
    """The names of the examples of a kind, without their ending."""
    return sorted(name[: -len(ending)] for name in os.listdir(EXAMPLES) if name.endswith(ending))


def frames_of(script):
    """The lines of the frames that went over the line in a run; a damaged frame is as it came."""
    text = support.read("examples", f"{script}.script")
    run = simruns.run(support.PROGRAM, text, [])
    damage = re.findall(rb"^damage . 0 (\w+)$", text, re.MULTILINE)
    frames, faults = [], []
    for place, line in enumerate(run.lines):
        if line[:1] not in b"<>":
            faults += re.findall(FAULT, line.decode())
        elif place in run.fates:
            if run.fates[place] != drawing.DAMAGED:
                raise AssertionError(f"{script}: {line} was lost, or is still on the line")
            frames.append(line[:2] + damage.pop(0))
        else:
            frames.append(line)
    if faults or damage:
        raise AssertionError(f"{script}: {faults or damage}")
    return frames


class Scripts(unittest.TestCase):
    def test_there_are_some(self):
        self.assertGreaterEqual(len(names(".script")), 4)

    @support.needs_program
    def test_each_writes_its_transcript(self):
        for name in names(".script"):
            with self.subTest(name):
                script = support.read("examples", f"{name}.script")
                done = subprocess.run(
                    [support.PROGRAM, "sim"], input=script, capture_output=True, timeout=60
                )
                self.assertEqual(done.stdout, support.read("examples", f"{name}.transcript"))
                self.assertEqual(done.returncode, 0)


# What the DCE's user does in the capture, after so many lines of it.
OF_THE_USER = {8: "dce accept 1"}


class Capture(support.ToolCase):
    @support.needs_program
    def test_a_station_is_the_network_of_the_capture(self):
        """It answers the DTE's frames by those of the capture; that some come later there is what
        a line does."""
        trace = support.run(
            "pcap2x25.py", os.path.join(EXAMPLES, "line.pcapng")
        ).stdout.decode().splitlines()
        given = []
        for number, line in enumerate(trace):
            given += [OF_THE_USER[number]] if number in OF_THE_USER else []
            given += [line] if line[0] == ">" else []
        done = subprocess.run(
            [support.PROGRAM, "station", "dce"],
            input="\n".join([*given, ""]),
            capture_output=True,
            text=True,
            timeout=60,
        )
        self.assertEqual(
            [line for line in done.stdout.splitlines() if line[0] == "<"],
            [line for line in trace if line[0] == "<"],
        )

    def test_it_is_a_capture_of_its_lines(self):
        path = os.path.join(EXAMPLES, "line.pcapng")
        timed = support.run("pcap2x25.py", "--time", path).stdout
        self.assertEqual(support.run("x25pcap.py", given=timed).stdout, support.read(path))


class CaptureOfXot(unittest.TestCase):
    def test_they_are_those_of_the_samples(self):
        """The second lacks the answer of the called end."""
        self.assertEqual(support.read("examples", "xot.pcap"), samples.capture_of_xot())
        self.assertEqual(support.read("examples", "xot-gap.pcap"), samples.capture_of_xot(4))


class Traces(unittest.TestCase):
    @support.needs_program
    def test_each_went_over_the_line_without_fault(self):
        runs = {"setup": "exchange"}
        self.assertGreaterEqual(len(names(".trace")), 3)
        for name in names(".trace"):
            with self.subTest(name):
                frames = frames_of(runs.get(name, name))
                trace = support.read("examples", f"{name}.trace").splitlines()
                self.assertEqual(trace, frames[: len(trace)] if name in runs else frames)


if __name__ == "__main__":
    unittest.main()
