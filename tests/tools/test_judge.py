"""Tests of `judge`: each rule has a case that breaks it alone; nothing is told of random runs of
two stations, nor of a recording of Linux's X.25, and what is told of another one stands here."""

import collections
import gzip
import re
import subprocess
import unittest

import support
from support import PROGRAM

import golden
import judge_runs
import rules
import runs
from x25tools.x25lines import fcs, is_sealed

# In the gate; `make judge-runs` plays 10,000.
RUNS = support.runs(300)


def in_another_form(packet):
    """A packet of the form that a station writes in another one that X.25 lets equipment send."""
    head, kind, rest = packet[:2], packet[2:3], packet[3:]
    if kind in b"\x13\x1b\xfb" and len(rest) == 2:
        return packet[:4]
    if kind == b"\x17" and not rest:
        return packet + b"\0\0"
    if kind == b"\x0f":
        return head + kind + b"\x11\x12" + (rest[1:] or b"\0")
    if kind == b"\x0b":
        place = 1 + (rest[0] % 16 + rest[0] // 16 + 1) // 2
        return head + kind + rest[:place] + bytes([rest[place] + 2]) + b"\1\1" + rest[place + 1 :]
    if not kind[0] & 1:
        return bytes([head[0] | 0x40]) + packet[1:]
    return packet


def in_other_forms(trace):
    """A trace with each packet in another form, where it has one."""
    made = []
    for line in trace.splitlines():
        octets = bytes.fromhex(line[2:].decode())
        if is_sealed(octets) and not octets[1] & 1 and octets[2] & 0xF0 in (0x10, 0x90):
            octets = octets[:2] + in_another_form(octets[2:-2])
            octets += fcs(octets)
        made.append(b"%s %s\n" % (line[:1], octets.hex().encode()))
    return b"".join(made)


NOTHING = b"# nothing was judged: no line has a frame in hexadecimal digits\n"
UNJUDGED = b"# nothing was judged: the trace shows no set-up of the link\n"


def remarks(mark, output):
    """What stands after a mark in the lines of an answer, each without the number at its end."""
    return [
        re.sub(r" \d+$", "", line.partition(mark)[2])
        for line in output.decode().splitlines()
        if mark in line
    ]


class Cases(unittest.TestCase):
    """The golden cases of `judge`, and the lists of docs/JUDGE.md, of rules, of manners and of
    notes."""

    def setUp(self):
        page = support.read("docs", "JUDGE.md").decode()
        told: dict[str, list[str]] = {}
        for section in re.split(r"^## ", page, flags=re.MULTILINE):
            texts = re.findall(r"^\*\*`([^`]+)`", section, re.MULTILINE)
            told[section.partition("\n")[0]] = [re.sub(r" \d+$", "", text) for text in texts]
        self.rules = told["Rules of the link"] + told["Rules of packets"]
        self.manners, self.notes = told["Manners"], told["Notes"]
        self.cases = {case.name: case for case in golden.cases(golden.chosen(["judge"])[0])}

    def broken(self, mark, rules):
        """What each case has after a mark. Each of these rules stands alone there in one, and no
        other does."""
        broken = {
            name: [rule.partition(": ")[2] for rule in remarks(mark, case.output)]
            for name, case in self.cases.items()
        }
        self.assertEqual([rule for rule in rules if [rule] not in broken.values()], [])
        self.assertEqual([told for told in broken.values() if not set(told) <= set(rules)], [])
        return broken

    def test_each_rule_has_one_that_breaks_it_alone(self):
        self.assertGreater(len(self.rules), 20)
        broken, ill = self.broken(" ! ", self.rules), self.broken(" ~ manners: ", self.manners)
        for name, case in self.cases.items():
            is_strict = "--strict" in case.words and re.search(
                rb"^# .* [1-9]\d* not judged$|^[<>] \.\.$| in doubt$", case.output, re.MULTILINE
            )
            doubts = len(re.findall(rb" (?:!|~)\? ", case.output))
            is_empty = b"# dte: 0 frames" in case.output and b"# dce: 0 frames" in case.output
            is_judged = (
                re.search(rb"^# .* [1-9]\d* judged, ", case.output, re.MULTILINE)
                or broken[name]
                or ill[name]
                or doubts
            )
            counts = (
                broken[name]
                or ("--manners" in case.words and ill[name])
                or is_strict
                or not is_judged
                or b"\n? 60\n" in b"\n" + case.output
            )
            self.assertEqual(case.status, 1 if counts else 0, name)
            more = b", %d in doubt" % doubts if doubts else b""
            told = b"# told: %d rules, %d manners%s\n" % (len(broken[name]), len(ill[name]), more)
            self.assertTrue(
                case.output.endswith(NOTHING if is_empty else told if is_judged else UNJUDGED),
                name,
            )

    def test_each_of_manners_counts_with_a_word_for_it(self):
        ill = self.broken(" ~ manners: ", self.manners)
        self.assertEqual(
            {
                rule
                for name, case in self.cases.items()
                if "--manners" in case.words
                for rule in ill[name]
            },
            set(self.manners),
        )

    def test_the_lists_are_those_of_the_program(self):
        sources = (
            "x25_judge/src/rule_text.rt",
            "x25_packet_judge/src/packet_rule_text.rt",
            "x25_judge/src/note.rt",
        )
        said = {
            text.strip()
            for source in sources
            for text in re.findall(r'b"([^"]+)"', support.read("crates", source).decode())
        }
        self.assertEqual(said, {*self.rules, *self.manners, *self.notes})

    def test_each_note_has_one_that_breaks_no_rule(self):
        noted = [
            note
            for case in self.cases.values()
            if b" ! " not in case.output
            for note in remarks(" ~ note: ", case.output)
        ]
        self.assertEqual(set(noted), set(self.notes))


@support.needs_program
class Forms(support.ToolCase):
    """With --wide a packet in another form is judged as the one that a station writes for it."""

    def judged(self, trace, *words):
        """What is told and noted line by line, and how much was judged."""
        done = subprocess.run(
            [PROGRAM, "judge", "--at", "line", *words],
            input=trace,
            stdout=subprocess.PIPE,
            timeout=60,
        )
        return (
            done.returncode,
            [
                re.sub(rb"^[<>].*?(?= ! | ~ manners: | ~ note: |$)", b"", line).replace(
                    b" ~ wide", b""
                )
                for line in done.stdout.splitlines()
            ],
        )

    def test_each_is_judged_as_the_one_that_a_station_writes(self):
        changed = 0
        for seed in range(RUNS // 10):
            words, judge_words, script = judge_runs.run(seed)
            trace = "".join(judge_runs.frames_of(PROGRAM, words, script)).encode()
            wide, told = in_other_forms(trace), self.judged(trace, *judge_words)
            changed += wide != trace
            self.assertEqual(self.judged(wide, "--wide", *judge_words), told, f"seed {seed}")
            self.assertEqual(self.judged(trace, "--wide", *judge_words), told, f"seed {seed}")
        self.assertGreater(changed, RUNS // 20)


@support.needs_program
class Missing(support.ToolCase):
    def test_any_one_i_frame(self):
        """Nothing is told where a gap stands for it, and nothing without doubt where nothing says
        that the trace has all frames."""
        lines = support.read("examples", "exchange.trace").splitlines()
        places = [
            place
            for place, line in enumerate(lines)
            if len(line) > 8 and not int(line[4:6], 16) & 1
        ]
        self.assertGreater(len(places), 9)
        for place in places:
            gap, doubts = [*lines[:place], lines[place][:1] + b" .."], 0
            for words, given in (["--at", "line"], gap), ([], gap[:-1]):
                trace = b"\n".join([*given, *lines[place + 1 :], b""])
                done = subprocess.run(
                    [PROGRAM, "judge", *words], input=trace, stdout=subprocess.PIPE, timeout=60
                )
                self.assertEqual((done.returncode, b" ! " in done.stdout), (0, False), done.stdout)
                doubts += done.stdout.count(b" !? ")
            self.assertGreater(doubts, 0)


@support.needs_program
class Idle(support.ToolCase):
    """Polls and answers, 500 of each, with no I frame: then RR with N(R)=3 of an end is told."""

    SET_UP, POLLS = "> 013febdf\n< 01738357\n", "> 01119717\n< 01119717\n" * 500
    WRONG = {"dte": "> 01611064\n", "dce": "< 0361a057\n"}

    def judged(self, *parts):
        done = subprocess.run(
            [PROGRAM, "judge", "--at", "line"],
            input="".join(parts),
            stdout=subprocess.PIPE,
            text=True,
            timeout=60,
        )
        return [
            line
            for line in done.stdout.splitlines()
            if " ! " in line or " ~ " in line or line.startswith("#")
        ]

    def test_each_end_is_judged_on(self):
        for end, wrong in self.WRONG.items():
            told, *counts, _ = self.judged(self.SET_UP, self.POLLS, wrong)
            self.assertIn(
                f" ! {end}: N(R) acknowledges what was never sent (2.3.4.9): at most 0", told
            )
            self.assertEqual([count[-12:] for count in counts], ["0 not judged"] * 2)

    def test_it_is_behind_a_set_up_in_a_trace_from_the_midst(self):
        for end, wrong in self.WRONG.items():
            told = [
                line
                for line in self.judged(self.POLLS, self.SET_UP, self.POLLS, wrong)
                if " ! " in line
            ]
            self.assertEqual(len(told), 1)
            self.assertIn(f" ! {end}: N(R) acknowledges", told[0])


@support.needs_program
class Runs(support.ToolCase):
    def test_nothing_is_told(self):
        for seed in range(RUNS):
            self.assertEqual(judge_runs.told(PROGRAM, seed)[0], [], f"seed {seed}")


@support.needs_program
class Recorded(support.ToolCase):
    def test_nothing_is_told_of_linux(self):
        """Linux 6.1 as the DTE and a station as the DCE, no frame lost: all rows of
        interop/play.py, 1,641 frames."""
        trace = gzip.decompress(support.read("tests", "traces", "linux.trace.gz"))
        done = subprocess.run(
            [PROGRAM, "judge", "--at", "line"], input=trace, stdout=subprocess.PIPE, timeout=60
        )
        self.assertEqual(
            [
                line
                for line in done.stdout.decode().splitlines()
                if runs.TOLD.search(line) or line == "? 60"
            ],
            [],
        )
        self.assertEqual(
            len([line for line in done.stdout.splitlines() if not line.startswith(b"# ")]), 1641
        )
        self.assertEqual(done.returncode, 0)

    def test_what_is_told_of_a_soak(self):
        """Four rounds of interop/soak.py with Linux 6.1 as the DTE, with 0, 10, 10 and 3 of 100
        frames lost, one after another."""
        trace = gzip.decompress(support.read("tests", "traces", "soak.trace.gz"))
        done = subprocess.run(
            [PROGRAM, "judge", "--at", "line", "--wide"],
            input=trace,
            stdout=subprocess.PIPE,
            timeout=60,
        )
        lines = [line for line in done.stdout.decode().splitlines() if not line.startswith("# ")]
        told = collections.Counter(
            told[1].split(" (")[0] for line in lines if (told := runs.TOLD.search(line))
        )
        self.assertEqual(told, {
            "dte: CLEAR CONFIRMATION of no CLEAR": 4,
            "dte: nothing but CLEAR goes before its confirmation": 1,
            "dte: P(R) falls": 1,
            "dte: an I frame sent again has other octets": 1,
            "dte: N(S) repeats without REJ or a poll": 3,
        })
        # Packets weren't seen since the set-up before these.
        doubted = collections.Counter(
            line.split(" !? ")[1].split(" (")[0] for line in lines if " !? " in line
        )
        self.assertEqual(doubted, {"dte: CLEAR CONFIRMATION of no CLEAR": 2})
        ends = rules.Ends()
        for line in trace.splitlines():
            ends.passes(rules.frame_of(chr(line[0]), bytes.fromhex(line[2:].decode())[:-2]))
        self.assertEqual((ends.places, len(lines), ends.links), (10_498, 10_498, {">": 10_454}))


if __name__ == "__main__":
    unittest.main()
