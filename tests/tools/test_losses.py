"""Tests of losses.py: the scripts are in the grammar, and the same numbers give the same
script."""

import collections
import hashlib
import re
import subprocess
import unittest

import support
from support import PROGRAM, ToolCase

from x25tools import losses, x25lines

# One line of each form, and lines that are none.
LINES = """dte call 123 4567 41|dce call - - -|dte call 1 2 0A0b|dte accept 1|dce clear 65535
dte send 1 0 6869|dce send 0 1 -|dte int 1 00|dte int 1 -|dte reset 1|dce ready 1
dte notready 1|dce restart|dce connect|dte disconnect|t1 dte|t1 dce|deliver >|deliver <
lose > 0|lose < 65535|damage > 0 00|damage < 12 -|drain 1|drain 100|drain 65535|heal"""
NO_LINES = """|dte| dte restart|dte restart |dte  restart|dte\trestart|DTE restart|dte call 1 2
dte call 1 2 4|dte call x 2 -|dte call  2 -|dte accept|dte accept 01|dte accept -1
dte accept +1|dte accept 65536|dte accept 1 |dte send 1 2 -|dte send 1 0|dte int 1 0g|t1
t1 both|deliver|deliver =|deliver > 0|lose >|lose > 70000|damage > 0|damage > 0 0|drain|drain 0
drain 00|drain 65536|drain 1.5|heal |heal 1|dte heal|dte connect 1|dte restart\r"""

# What may follow a call or its acceptance, and what may not.
PARAMS = ["7 7 2 2", "7 8 3 2", "0 255 0 255", "3 9 99 199", "12 10 249 250"]
NO_PARAMS = [
    "", "7", "7 7", "7 7 2", "7 7 2 ", "7 7 2 2 ", " 7 7 2 2", "7  7 2 2", "7 7 2 2 2",
    "256 7 2 2", "7 7 2 256", "7 300 2 2", "7 7 1000 2", "03 7 2 2", "7 7 2 00", "+7 7 2 2",
    "7 7 -2 2", "- - - -", "7 7 2 a", "7,7 2,2",
]


def script(*words):
    done = support.run("losses.py", *words)
    return done.stdout.decode().splitlines()


def kinds(lines):
    """How often each kind of line comes."""
    fields = [line.split() for line in lines]
    return collections.Counter(it[1] if it[0] in ("dte", "dce") else it[0] for it in fields)


def refused(lines, *words):
    """How many of the lines the program says are none of a script."""
    given = "".join(f"{line}\n" for line in lines).encode()
    return subprocess.run(
        [PROGRAM, "sim", "--down", *words], input=given, capture_output=True, timeout=60
    ).stdout.splitlines().count(b"? 60")


@support.needs_program
class Grammar(unittest.TestCase):
    def test_lines(self):
        self.assertEqual(refused(LINES.replace("\n", "|").split("|")), 0)

    def test_no_lines(self):
        lines = NO_LINES.replace("\n", "|").split("|")
        self.assertEqual(refused(lines), len(lines))

    def test_numbers(self):
        self.assertEqual(
            refused([f"lose > {number}" for number in range(65_530, 70_000)]), 70_000 - 65_536
        )

    def test_sizes_and_windows(self):
        for front in "dte call 1 2 -", "dce call - - 0A", "dce accept 0":
            self.assertEqual(refused([f"{front} {params}" for params in PARAMS]), 0)
            self.assertEqual(
                refused([f"{front} {params}" for params in NO_PARAMS]), len(NO_PARAMS)
            )
        fronts = (
            "dte clear 1", "dte send 1 0 -", "dte int 1 00", "dte call 1 2", "dte restart",
            "dte accept",
        )
        self.assertEqual(refused([f"{front} 7 7 2 2" for front in fronts]), len(fronts))

    def test_causes_and_diagnostics(self):
        fronts, given = (
            ("dte clear 1", "dce reset 65535", "dte restart"),
            ("cause=0", "diag=255", "cause=255 diag=0"),
        )
        lines = [f"{front} {it}" for front in fronts for it in given]
        self.assertEqual((refused(lines), refused(lines, "--wide")), (len(lines), 0))
        given = (
            "", "cause=256", "diag=", "diag=-1", "diag=00", "diag=5 cause=9", "cause=9  diag=5",
            "cause=9 diag=5 ", "cause=9,diag=5", "Cause=9", "9", "9 5",
        )
        lines = [f"{front} {it}" for front in fronts for it in given] + [
            "dte accept 1 diag=5", "dce ready 1 cause=9", "dte clear diag=5", "heal diag=5"
        ]
        self.assertEqual(refused(lines, "--wide"), len(lines))

    def test_what_is_given(self):
        fronts, rests = (
            ("dte with - -", "dce with 0A 00", "dte with - - d"),
            (
                "call 1 2 -", "call - - 41 7 7 2 2", "accept 1", "accept 65535 8 8 3 3", "clear 1",
                "clear 0 cause=9",
            ),
        )
        lines = [f"{front} {rest}" for front in fronts for rest in rests]
        self.assertEqual((refused(lines), refused(lines, "--wide")), (len(lines), 0))
        fronts = (
            "dte with", "dte with -", "dte with - - D", "dte with - - d d", "dte with 0 -",
            "dte with - 0", "dte with  - -", "dte with - - -", "with - -", "dte With - -",
            "dte with - 0g",
        )
        rests = (
            "send 1 0 41", "int 1 00", "reset 1", "ready 1", "restart", "pull", "connect",
            "with - - clear 1", "call 1 2", "accept", "clear 1 9", "", "d",
        )
        lines = (
            [f"{front} clear 1" for front in fronts] + [f"dte with - - {rest}" for rest in rests]
        )
        self.assertEqual(refused(lines, "--wide"), len(lines))

    def test_the_longest_line(self):
        line = "dte send 1 0 " + "00" * 65_593
        self.assertEqual(len(line), 131_199)
        self.assertEqual((refused([line]), refused([line + "00"])), (0, 1))

    def test_what_is_said_of_a_line(self):
        said = {
            "drian 9": "no such event 'drian 9' (did you mean drain?)",
            "dte sned 1 0 -": "no such event 'dte sned 1 0 -' (did you mean send?)",
            "drain x": "'drain x' isn't of the form 'drain N': N is a number from 1 to 65535",
            "drain 0": "'drain 0' isn't of the form 'drain N': N is a number from 1 to 65535",
            "drain 65536": (
                "'drain 65536' isn't of the form 'drain N': N is a number from 1 to 65535"
            ),
            "drain 9 9": "'drain 9 9' isn't of the form 'drain N': N is the last word",
            "lose > 07": (
                "'lose > 07' isn't of the form 'lose DIR PLACE': PLACE is a number from 0 to 65535"
            ),
            "dte send 1 0 d 414": (
                "'dte send 1 0 d 414' isn't of the form 'END send CH Q [d] HEX (d with --wide)': "
                "HEX is pairs of digits 0 to f, or -"
            ),
            "dce call 1 2": (
                "'dce call 1 2' isn't of the form 'END call CALLED CALLING HEX [SIZE SIZE WINDOW "
                "WINDOW]': HEX is missing"
            ),
            "dte with 01 call 1 2 -": (
                "'dte with 01 call 1 2 -' isn't of the form 'END with FAC HEX [d] REST (with "
                "--wide; REST is call .., accept .. or clear ..)': HEX is pairs of digits 0 to f, "
                "or -"
            ),
            "xyzzy": "no such event 'xyzzy'",
            "# comment": "no such event '# comment' (--loose takes comments)",
            "\ufeffheal": (
                "has other characters than text (--loose takes a time and a tab or the mark of "
                "UTF-8 before an event, and a carriage return at its end)"
            ),
            "": "empty (--loose takes empty lines)",
            "heal\r": (
                "has other characters than text (--loose takes a time and a tab or the mark of "
                "UTF-8 before an event, and a carriage return at its end)"
            ),
            "x" * 99: f"no such event '{'x' * 60}'",
            "x" * 131_201: "longer than 131,200 characters",
        }
        self.are_said(said)

    def test_which_word_of_a_line_is_wrong(self):
        said = {
            "drain 9 ": "'drain 9 ' isn't of the form 'drain N': N is the last word",
            " drain 9": "no such event ' drain 9' (a blank stands before it)",
            "call 1 2 -": "no such event 'call 1 2 -' (dte or dce stands before it)",
            "DTE connect": "no such event 'DTE connect' (words are in lower case)",
            "dte send 1 2 41": (
                "'dte send 1 2 41' isn't of the form 'END send CH Q [d] HEX (d with --wide)': Q "
                "is 0 or 1"
            ),
            "dte send 1 0  41": (
                "'dte send 1 0  41' isn't of the form 'END send CH Q [d] HEX (d with --wide)': "
                "HEX is after a blank too many"
            ),
            "t1 dec": "'t1 dec' isn't of the form 't1 END': END is dte or dce",
            "deliver dte": "'deliver dte' isn't of the form 'deliver DIR': DIR is > or <",
        }
        self.are_said(said)

    def are_said(self, said):
        """Of each line it is said what is wrong with it."""
        lines = "".join(f"{line}\n" for line in said)
        words = [PROGRAM, "sim", "--down"]
        done = subprocess.run(words, input=lines, capture_output=True, text=True, timeout=60)
        wanted = [f"line {number}: {why}" for number, why in enumerate(said.values(), 1)]
        self.assertEqual(done.stderr.splitlines(), wanted)
        self.assertEqual((done.returncode, done.stdout), (1, "? 60\n" * len(said)))


class Scripts(ToolCase):
    @support.needs_program
    def test_all_lines_are_in_the_grammar(self):
        for seed in range(5):
            lines = script(
                str(seed),
                "1000",
                "--loss",
                "0.1",
                "--damage",
                "0.1",
                "--t1",
                "0.1",
                "--channels",
                "16",
            )
            self.assertEqual(len(lines), 1000)
            self.assertEqual(refused(lines, "--channels", "16"), 0)

    def test_the_same_numbers_give_the_same_script(self):
        words = "9", "500", "--loss", "0.2", "--channels", "3"
        self.assertEqual(script(*words), script(*words))

    def test_other_numbers_give_another_script(self):
        scripts = [
            script("9", "500"),
            script("10", "500"),
            script("9", "500", "--loss", "0.2"),
            script("9", "500", "--channels", "3"),
        ]
        self.assertEqual(
            len({hashlib.sha256("\n".join(lines).encode()).hexdigest() for lines in scripts}), 4
        )

    def test_this_script_stays_what_it_is(self):
        # Made once by this script: it is to stay the same on any machine and any Python.
        text = "\n".join(script("1", "200", "--channels", "4"))
        self.assertEqual(
            hashlib.sha256(text.encode()).hexdigest(),
            "bfd35f9b580a0f2d0784ed14c9a19c973e9535c45388d26279df86872fe00d9a",
        )

    def test_a_longer_script_begins_with_the_shorter(self):
        self.assertEqual(script("5", "400")[:100], script("5", "100"))

    def test_everything_comes(self):
        found = kinds(script("2", "4000", "--channels", "4"))
        wanted = {
            "call", "accept", "clear", "send", "int", "reset", "ready", "notready", "restart",
            "t1", "deliver", "lose", "damage", "drain",
        }
        self.assertEqual(set(found), wanted)

    def test_it_ends_by_heal(self):
        healing = [
            f"{end} ready {channel}" for channel in (1, 2, 3) for end in ("dte", "dce")
        ] + ["heal"]
        words = "9", "50", "--channels", "3"
        self.assertEqual(script(*words, "--heal"), script(*words) + healing)

    def test_probabilities(self):
        found = kinds(script("3", "10000", "--loss", "0.3", "--damage", "0.2", "--t1", "0.1"))
        for kind, share in (("lose", 0.3), ("damage", 0.2), ("t1", 0.1)):
            self.assertAlmostEqual(found[kind] / 10_000, share, delta=0.02)
        found = kinds(script("3", "2000", "--loss", "0", "--damage", "0", "--t1", "0"))
        self.assertEqual((found["lose"], found["damage"], found["t1"]), (0, 0, 0))

    def test_damage_shows(self):
        damaged = [
            line.split()[3]
            for line in script("4", "3000", "--damage", "0.9", "--loss", "0", "--t1", "0")
            if line.startswith("damage")
        ]
        self.assertGreater(len(damaged), 2000)
        self.assertFalse(any(x25lines.is_sealed(bytes.fromhex(octets)) for octets in damaged))

    def test_channels(self):
        for count in (1, 16):
            numbers = {
                int(line.split()[2])
                for line in script("6", "4000", "--channels", str(count))
                if line.split()[1] in ("send", "accept")
            }
            self.assertEqual(numbers, set(range(1, count + 1)))

    def test_bad_words(self):
        for words in (
            ["1"],
            ["x", "5"],
            ["1", "-5"],
            ["1", "5", "--loss", "1.5"],
            ["1", "5", "--loss", "nan"],
            ["1", "5", "--channels", "17"],
        ):
            self.assertEqual(support.run("losses.py", *words).returncode, 2)
        self.assertEqual(
            support.run("losses.py", "1", "5", "--loss", "0.9", "--t1", "0.2").returncode, 2
        )
        self.assertEqual(support.run("losses.py", "--help").returncode, 0)


RUNS = support.runs(300)
# After `heal` nothing is on the line, and timer T1 runs at neither end.
AT_REST = "t1 dte\nt1 dce\ndeliver >\ndeliver <\n"
REFUSED_AT_REST = ["! 11", "! 11", "! 50", "! 50"]
DATA = re.compile("(dte|dce) (send|message|int|interrupt) ch=([0-9]+) (at .*)")
# What ends a stretch of a channel, so that data may be lost; and what ends those of all channels.
ENDING = re.compile("(?:dte|dce) (?:clear|cleared|reset|wasreset|collided|fault) ch=([0-9]+)")
ENDING_ALL = re.compile("(?:dte|dce) (?:linkdown|restart|restartdone|fault)( |$)")


def healed(seed):
    """What `sim` writes for a random script that ends by `heal`, and is then asked whether all is
    at rest. In three of four nothing is cleared or reset."""
    dice = losses.Dice(seed)
    channels, window = dice.one_of((1, 1, 2, 4)), dice.one_of((7, 7, 1, 2, 3))
    made = losses.Script(
        dice, channels, 0.2 * dice.fraction(), 0.1 * dice.fraction(), 0.2 * dice.fraction()
    )
    begun = [
        line
        for line in made.lines(120)
        if seed % 4 == 0 or not re.search("clear|reset|restart", line)
    ]
    lines = "".join(line + "\n" for line in (*begun, *made.healing()))
    words = ["sim", "--k", str(window), "--channels", str(channels)]
    done = subprocess.run(
        [PROGRAM, *words], input=(lines + AT_REST).encode(), stdout=subprocess.PIPE, timeout=60
    )
    return done.stdout.decode().splitlines()


def handed(lines):
    """By giver and channel, the messages and interrupts that were handed down and those that were
    handed up, where nothing ended their stretch."""
    down, up = collections.defaultdict(list), collections.defaultdict(list)
    ended = {match[1] for match in map(ENDING.match, lines) if match}
    for match in map(DATA.match, lines):
        if match and match[3] not in ended:
            end, word, channel, rest = match.groups()
            giver = end if word in ("send", "int") else "dce" if end == "dte" else "dte"
            kind = "message" if word in ("send", "message") else "interrupt"
            (down if word in ("send", "int") else up)[giver, channel, kind].append(rest)
    return down, up


@support.needs_program
class Healed(ToolCase):
    def test_everything_arrives(self):
        compared = runs = 0
        for seed in range(RUNS):
            with self.subTest(seed):
                lines = healed(seed)
                self.assertEqual(lines[-4:], REFUSED_AT_REST)
                if any(ENDING_ALL.match(line) for line in lines):
                    continue
                down, up = handed(lines)
                self.assertEqual(down, up)
                compared, runs = compared + sum(map(len, down.values())), runs + 1
        self.assertGreater(runs, RUNS // 2)
        self.assertGreater(compared, support.runs(2000))


if __name__ == "__main__":
    unittest.main()
