"""What a golden case can't say of the program: devices that fail, answers before the input ends,
lines as long as may be, memory that doesn't grow."""

import os
import re
import subprocess
import unittest

import support

from x25tools import x25lines, x25names

# How much more memory a long input may take than a short one, in kilobytes.
MORE = 500


@support.needs_program
class Program(unittest.TestCase):
    def run_on(self, words, **streams):
        """What the program does with its streams: status and what it says on standard error."""
        done = subprocess.run(
            [support.PROGRAM, *words], stderr=subprocess.PIPE, timeout=60, **streams
        )
        return done.returncode, done.stderr

    def test_a_write_that_fails(self):
        with open("/dev/full", "wb") as full:
            self.assertEqual(
                self.run_on(["decode"], input=b"> 013febdf\n", stdout=full), (3, b"write failed\n")
            )
            self.assertEqual(
                self.run_on(["vectors"], input=b"", stdout=full), (3, b"write failed\n")
            )

    def test_a_write_that_nobody_reads(self):
        lines_of = {
            "decode": b"> 013febdf\n", "judge": b"> 013febdf\n", "frame": b"> 013febdf\n",
            "deframe dte": b"\x7e\x01\x7e", "station dte": b"", "sim": b"drain 9\n",
        }
        for words, lines in (
            *((name.split(), given) for name, given in lines_of.items()),
            (["vectors"], b""),
            (["--help"], b""),
            (["--version"], b""),
        ):
            with self.subTest(words):
                left, right = os.pipe()
                os.close(left)
                with open(right, "wb") as unread:
                    self.assertEqual(self.run_on(words, input=lines, stdout=unread), (3, b""))

    def test_head_takes_a_line_of_an_endless_answer(self):
        sabm = "> 013febdf", b"> SABM cmd P=1\n"
        for words, line, first in (
            ("decode", *sabm),
            ("judge", *sabm),
            ("sim --down", "x", b"? 60\n"),
            ("station dte", "x", b". off busy\n"),
        ):
            with self.subTest(words):
                script = f'yes "$1" | "$0" {words} | head -1; echo "${{PIPESTATUS[1]}}"'
                done = subprocess.run(
                    ["bash", "-c", script, support.PROGRAM, line], capture_output=True, timeout=60
                )
                self.assertEqual(done.stdout, first + b"3\n")
                # The first lines that are none of a script are told, and no more.
                self.assertEqual(done.stderr.count(b"\n"), 21 if words == "sim --down" else 0)

    def test_each_wrong_word_has_its_reason(self):
        ends, places = "dte or dce", "line, dte, dce or either"
        rows = {
            "": "no command",
            "quux": "no such command: 'quux'",
            "deocde": "no such command: 'deocde'; did you mean 'decode'?",
            "--wide decode": "the command comes first, then '--wide'",
            "decode --foo": "no such option: '--foo'",
            "decode --lon": "no such option: '--lon'; did you mean '--long'?",
            "sim --chan=3": "no such option: '--chan'; did you mean '--channels'?",
            "decode -x": "no such option: '-x'",
            "decode --tap trace": "'--tap' is no option of 'decode'; commands that have it: sim",
            "frame --k 3": (
                "'--k' is no option of 'frame'; commands that have it: sim station judge"
            ),
            "sim --channels 17 script": "17 is not in 1..=16: '--channels'",
            "sim --channels=17": "17 is not in 1..=16: '--channels'",
            "station dte --channels 5000": "5000 is not in 1..=4095: '--channels'",
            "sim script --k 03": (
                "'03' is no number in 1..=7, without a sign and leading zeros: '--k'"
            ),
            "sim --k=": "'' is no number in 1..=7, without a sign and leading zeros: '--k'",
            "sim script --k": "'--k' wants a number",
            "judge --at foo trace": f"'foo' is none of {places}: '--at'",
            "judge --at": f"'--at' wants a place: {places}",
            "decode --long=yes": "'--long' has no value: '--long=yes'",
            "decode --long trace --long": "'--long' is there twice",
            "deframe": f"no end: {ends}",
            "deframe xyz": f"'xyz' is no end: {ends}",
            "station --k 2": f"no end: {ends}",
            "station dte --t1 5": "'--t1' is a time of a clock: '--clock' isn't there",
            "station dte --incoming 2": (
                "'--incoming' and '--outgoing' are more than '--channels' together"
            ),
            "decode trace extra": "unexpected argument 'extra' found",
            "judge trace --k 3 dte": "unexpected argument 'dte' found",
            "vectors trace": "unexpected argument 'trace' found",
        }
        for words, reason in rows.items():
            with self.subTest(words):
                done = subprocess.run(
                    [support.PROGRAM, *words.split()], input=b"", capture_output=True, timeout=60
                )
                self.assertEqual((done.returncode, done.stdout), (2, b""))
                said = done.stderr.decode()
                self.assertEqual(said.partition("\n")[0], f"error: {reason}")
                usage = r"\n\nUsage: x25 .*\n\nFor more information, try '--help'\.\n"
                self.assertRegex(said, usage)

    def test_each_refusal_of_a_script_has_its_reason(self):
        script = "drain 9\ndte send 9 0 41\n\ndce accept 1\nlose > 0\ndte call 1 2 -\n"
        done = subprocess.run(
            [support.PROGRAM, "sim", "-"], input=script.encode(), capture_output=True, timeout=60
        )
        answers = [line for line in done.stdout.decode().splitlines() if line[0] in "?!"]
        self.assertEqual((done.returncode, answers), (1, ["! 42", "? 60", "! 30", "! 51"]))
        self.assertEqual(
            done.stderr.decode().splitlines(),
            [
                "line 2: ! 42, no such channel: 'dte send 9 0 41'",
                "line 3: empty (--loose takes empty lines)",
                "line 4: ! 30, not in this state of the channel: 'dce accept 1'",
                "line 5: ! 51, no frame at that place: 'lose > 0'",
            ],
        )
        many = "drain 9\n" + "dte send 9 0 41\n" * 50
        done = subprocess.run(
            [support.PROGRAM, "sim"], input=many.encode(), capture_output=True, timeout=60
        )
        self.assertEqual((done.returncode, done.stdout.count(b"! 42\n")), (1, 50))
        said = done.stderr.decode().splitlines()
        self.assertEqual((len(said), said[-1]), (21, "no more is said of such lines"))

    def test_each_refusal_of_a_station_has_its_reason_where_that_is_asked_for(self):
        rows = {
            "dte send 9 0 41": "! 9, the link isn't up: 'dte send 9 0 41'",
            "dte cal 1 2 -": "no such event 'dte cal 1 2 -' (did you mean call?)",
            "dte call 1 2 4": "'dte call 1 2 4' isn't of the form 'END call CALLED CALLING HEX"
            " [SIZE SIZE WINDOW WINDOW]': HEX is pairs of digits 0 to f, or -",
            "dce accept 1": "'dce accept 1' is of the other end",
            "t1 dce": "'t1 dce' is of the other end",
            "drain 9": "'drain 9' is of `sim`: a station has no line between two ends",
            "@ 5": "'@ 5' says the time, which --clock reads",
            "> 013febdf": "'> 013febdf' is what this end sends, and no line that comes to it",
            "< 013": "'< 013' has no octets of a frame: pairs of digits 0 to f",
            "": "empty (--loose takes empty lines)",
            "# a": "no such event '# a' (--loose takes comments)",
        }
        lines = "".join(f"{line}\n" for line in rows).encode()
        command = [support.PROGRAM, "station", "dte"]
        said = "".join(f"line {place}: {why}\n" for place, why in enumerate(rows.values(), 1))
        told = subprocess.run(
            [*command, "--reasons"], input=lines, capture_output=True, timeout=60
        )
        self.assertEqual((told.returncode, told.stderr.decode()), (1, said))
        untold = subprocess.run(command, input=lines, capture_output=True, timeout=60)
        self.assertEqual(untold.stdout.count(b"? 60\n"), len(rows) - 1)
        self.assertEqual((untold.returncode, untold.stdout, untold.stderr), (1, told.stdout, b""))

    def test_each_refusal_of_a_clock_has_its_reason(self):
        lines = b"# begins\n@ 500\n0.5\tdte connect\r\n\n@ 400\n@ x\ndce connect\n"
        words = [support.PROGRAM, "station", "dte", "--clock", "--loose", "--reasons"]
        done = subprocess.run(words, input=lines, capture_output=True, timeout=60)
        late = "says no time in milliseconds, or an earlier one than before"
        said = [
            f"line 5: '@ 400' {late}",
            f"line 6: '@ x' {late}",
            "line 7: 'dce connect' is of the other end",
        ]
        self.assertEqual(done.stderr.decode().splitlines(), said)
        # What is passed over has no mark.
        marks = [line for line in done.stdout.decode().splitlines() if line.startswith(". ")]
        self.assertEqual((done.returncode, len(marks)), (1, 6))

    def test_the_meanings_of_refusals_are_those_of_the_scripts(self):
        source = support.read("crates/x25/src/explainer.rt").decode()
        body = source.partition("fn meaning")[2].partition("\n}\n")[0]
        found = {int(number): text for number, text in re.findall(r'(\d+) => "(.*)",', body)}
        told = {number: text for number, text in x25names.REFUSALS.items() if number < 60}
        self.assertEqual(found, told)

    def test_a_capture_in_place_of_lines(self):
        said = b"this is a capture, and no lines: `x25 dump` reads it (tools/x25dump.py)\n"
        capture = os.path.join(support.ROOT, "examples", "line.pcapng")
        with open(capture, "rb") as file:
            octets = file.read()
        for words in ["decode"], ["judge"], ["decode", "--loose"]:
            with self.subTest(words):
                named = subprocess.run(
                    [support.PROGRAM, *words, capture], capture_output=True, timeout=60
                )
                read = subprocess.run(
                    [support.PROGRAM, *words], input=octets, capture_output=True, timeout=60
                )
                self.assertEqual(named.stderr, said)
                self.assertEqual((read.stdout, read.stderr), (named.stdout, said))
                self.assertEqual(named.returncode, 1)
        for front in b"\xd4\xc3\xb2\xa1", b"\xa1\xb2\x3c\x4d", b"> 013febdf\n", b"":
            done = subprocess.run(
                [support.PROGRAM, "decode"], input=front, capture_output=True, timeout=60
            )
            self.assertEqual(done.stderr, said if front[:1] > b"\x80" else b"")

    def judged(self, words, path, given=b""):
        """Status, output and standard error of the program, where FILE among the words is a
        path."""
        named = [path if word == "FILE" else word for word in words.split()]
        done = subprocess.run(
            [support.PROGRAM, *named], input=given, capture_output=True, timeout=60
        )
        return done.returncode, done.stdout, done.stderr

    def test_words_in_any_order(self):
        trace = os.path.join(support.ROOT, "examples", "exchange.trace")
        plain = self.judged("judge --wide --k 3 FILE", trace)
        self.assertEqual((plain[0], plain[2]), (0, b""))
        with open(trace, "rb") as file:
            given = file.read()
        for words in (
            "judge FILE --wide --k 3",
            "judge --k=3 FILE --wide",
            "judge --wide --k=3 -- FILE",
        ):
            self.assertEqual(self.judged(words, trace), plain)
        for words in "judge - --wide --k=3", "judge --wide --k 3 -- -", "judge --k=3 --wide":
            self.assertEqual(self.judged(words, trace, given), plain)
        end = self.judged("station dte --k 2", trace, b"dte connect\n")
        self.assertEqual((end[0], end[2]), (0, b""))
        self.assertEqual(self.judged("station --k=2 dte", trace, b"dte connect\n"), end)

    def test_a_file_in_place_of_standard_input(self):
        trace, script = (
            os.path.join(support.ROOT, "examples", name)
            for name in ("exchange.trace", "call.script")
        )
        for words, path in (
            (["decode"], trace),
            (["decode", "--wide"], trace),
            (["judge", "--k", "3"], trace),
            (["frame"], trace),
            (["sim"], script),
            (["deframe", "dte"], trace),
        ):
            with self.subTest(words), open(path, "rb") as file:
                read = subprocess.run(
                    [support.PROGRAM, *words], stdin=file, capture_output=True, timeout=60
                )
                named = subprocess.run(
                    [support.PROGRAM, *words, path],
                    stdin=subprocess.DEVNULL,
                    capture_output=True,
                    timeout=60,
                )
                self.assertEqual(
                    (named.returncode, named.stdout, named.stderr),
                    (read.returncode, read.stdout, read.stderr),
                )
        status, said = self.run_on(
            ["decode", "/none"], input=b"> 013febdf\n", stdout=subprocess.DEVNULL
        )
        self.assertEqual(status, 2)
        self.assertRegex(said, rb"^/none: .*\n$")
        for words in (["vectors", trace], [trace], ["decode", trace, trace]):
            self.assertEqual(self.run_on(words, input=b"", stdout=subprocess.DEVNULL)[0], 2)

    def test_a_read_that_fails(self):
        folder = os.open("/", os.O_RDONLY)
        self.addCleanup(os.close, folder)
        self.assertEqual(
            self.run_on(["decode"], stdin=folder, stdout=subprocess.DEVNULL), (3, b"read failed\n")
        )

    def test_usage_has_its_reason_on_standard_error(self):
        status, said = self.run_on(
            ["decode", "twice"], input=b"> 013febdf\n", stdout=subprocess.DEVNULL
        )
        self.assertEqual(status, 2)
        self.assertTrue(said)

    def test_help_and_the_version_go_to_standard_output(self):
        for words in (
            ["--help"],
            ["-h"],
            ["help"],
            ["decode", "--help"],
            ["sim", "--help"],
            ["vectors", "--help"],
            ["--version"],
        ):
            with self.subTest(words):
                done = subprocess.run(
                    [support.PROGRAM, *words],
                    input=b"> 013febdf\n",
                    capture_output=True,
                    timeout=60,
                )
                self.assertEqual((done.returncode, done.stderr), (0, b""))
                self.assertRegex(
                    done.stdout, rb"^x25 \d" if words == ["--version"] else rb"Usage: x25"
                )

    def test_help_that_can_not_be_written(self):
        with open("/dev/full", "wb") as full:
            self.assertEqual(
                self.run_on(["--help"], input=b"", stdout=full), (3, b"write failed\n")
            )

    def test_a_line_is_answered_before_the_input_ends(self):
        for word in "decode", "judge":
            with self.subTest(word), subprocess.Popen(
                [support.PROGRAM, word], stdin=subprocess.PIPE, stdout=subprocess.PIPE
            ) as child:
                for _ in range(3):
                    child.stdin.write(b"> 01011607\n")
                    child.stdin.flush()
                    # Without what `judge` notes of it.
                    answer, *_ = child.stdout.readline().rstrip(b"\n").split(b" ~ ")
                    self.assertEqual(answer, b"> RR cmd P=0 R=0")
                child.stdin.close()
                self.assertTrue(
                    all(line.startswith(b"# ") for line in child.stdout)
                    if word == "judge"
                    else not child.stdout.read()
                )

    def test_memory_does_not_grow_with_the_input(self):
        whole = b"> " + b"0" * ((80 << 20) // support.SHARE) + b"\n> 013febdf\n"
        for word in "decode", "judge":
            with self.subTest(word):
                _, least = support.run_with_peak([word], whole[-13:])
                done, most = support.run_with_peak([word], whole)
                self.assertLess(most, least + MORE)
                answers = b"".join(
                    line
                    for line in done.stdout.splitlines(keepends=True)
                    if not line.startswith(b"# ")
                )
                self.assertEqual(
                    (done.returncode, answers, done.stderr), (1, b"? 60\n> SABM cmd P=1\n", b"")
                )


def line(mark, octets):
    """The line of a frame of these octets and their frame check sequence."""
    return f"{mark} {(octets + x25lines.fcs(octets)).hex()}"


@support.needs_program
class Lines(unittest.TestCase):
    MOST_OF_SCRIPT = 131_200

    def answer(self, words, given):
        done = subprocess.run(
            [support.PROGRAM, *words], input=given.encode(), capture_output=True, timeout=60
        )
        return done.stdout.decode(), done.returncode

    def test_decode_in_each_reading(self):
        restart = "> 01001000fb00007702"
        rows = [
            ("> 013febdf\n< 01738357\n", "> SABM cmd P=1\n< UA rsp F=1\n", 0),
            ("> 033f5bec", "> fault 4 undefined ctl=3f\n", 0),
            (restart, "> I cmd P=0 S=0 R=0 | RESTART cause=0 diag=0\n", 0),
            ("> \n> 0101\n", "> fault 1 short\n> fault 1 short\n", 0),
            ("> 013febde\nx\n\n", "> fault 2 fcs\n? 60\n? 60\n", 1),
            (
                "> 013FEBDF\n>013febdf\n> 013febd\n> 013febdf \r\n",
                "> SABM cmd P=1\n? 60\n? 60\n? 60\n",
                1,
            ),
            ("", "", 0),
            (
                f"{restart}\nx\n> 0101\n",
                "> I cmd P=0 S=0 R=0 | RESTART cause=0 diag=0\n? 60\n> fault 1 short\n",
                1,
            ),
        ]
        for words in (
            ["decode"], ["decode", "--long"], ["decode", "--wide"], ["decode", "--long", "--wide"]
        ):
            for given, output, status in rows:
                self.assertEqual(self.answer(words, given), (output, status))

    def test_the_longest_lines_of_a_trace(self):
        octets = bytes.fromhex("0310100100") + b"\xa5" * 4096
        longest = line("<", octets)
        self.assertEqual(len(longest), 2 + 8206)
        shown = "< I cmd P=1 S=0 R=0 | DATA ch=1 S=0 R=0 M=0 Q=0 data=" + "a5" * 4096
        given = f"{longest}\n>{longest[1:]}00\n> 013febdf\n>{longest[1:]}0\n{longest}"
        self.assertEqual(
            self.answer(["decode"], given), (f"{shown}\n? 60\n> SABM cmd P=1\n? 60\n{shown}\n", 1)
        )

    def test_the_longest_user_data_of_a_call(self):
        for words, most in ((["decode"], 16), (["decode", "--long"], 128)):
            for count in (16, 17, 128, 129):
                told = (
                    f"CALL ch=1 called=- calling=- fac=- data={'a5' * count}"
                    if count <= most
                    else "fault 23 diag=39"
                )
                given = line(">", bytes.fromhex("010010010b0000") + b"\xa5" * count)
                self.assertEqual(self.answer(words, given), (f"> I cmd P=0 S=0 R=0 | {told}\n", 0))

    def test_the_longest_lines_of_a_script(self):
        for front, length, told in (
            ("dte int 1 ", self.MOST_OF_SCRIPT, "! 40"),
            ("damage > 0 ", self.MOST_OF_SCRIPT + 1, "? 60"),
            ("damage > 0 ", 3 * self.MOST_OF_SCRIPT, "? 60"),
        ):
            given = f"lose > 0\n{front.ljust(length, '0')}\ndeliver >\n"
            self.assertEqual(
                self.answer(["sim"], given), (f"dce linkup\ndte linkup\n{told}\n! 50\n", 1)
            )

    def test_the_longest_message(self):
        """Its line is longer than the text that waits to be written."""
        user = "a" * 131_070
        opening = "drain 100\ndte call 1 2 -\ndrain 100\ndce accept 1\ndrain 100\n"
        output, status = self.answer(["sim"], f"{opening}dte send 1 0 {user}\ndrain 65535\n")
        self.assertEqual(status, 0)
        self.assertTrue(output.endswith(f"\ndce message ch=1 at 1.0.0 q=0 data={user}\n"))


if __name__ == "__main__":
    unittest.main()
