"""`deframe` and `frame` where a golden case is too short: many frames, each place in an octet,
memory, answers before the end."""

import random
import subprocess
import unittest

import support

FRAMES = 1_000_000 // support.SHARE
# How much more memory a long input may take than a short one, in kilobytes.
MORE = 500
FLAG = "01111110"


def bits_of(octets):
    """The bits of octets, each lowest bit first."""
    return "".join(str(octet >> place & 1) for octet in octets for place in range(8))


def stuffed(bits):
    """The bits with a 0 after each five 1 bits."""
    return bits.replace("11111", "111110")


def octets_of(bits):
    """The octets of bits, each lowest bit first, the last one filled by 1 bits."""
    bits += "1" * (-len(bits) % 8)
    return bytes(int(bits[at : at + 8][::-1], 2) for at in range(0, len(bits), 8))


def some_frames(count, seed):
    """Contents of 4 to 8 octets, of which many have runs of 1 bits."""
    source = random.Random(seed)
    return [
        bytes(
            source.choice((0xFF, 0x7E, 0x1F, source.randrange(256)))
            for _ in range(source.randrange(4, 9))
        )
        for _ in range(count)
    ]


def trace_of(mark, frames):
    return b"".join(b"%s %s\n" % (mark, frame.hex().encode()) for frame in frames)


@support.needs_program
class BitLine(unittest.TestCase):
    def answer(self, words, given, **more):
        """What the program writes for an input; it has to end well."""
        done = subprocess.run(
            [support.PROGRAM, *words], input=given, capture_output=True, timeout=60, **more
        )
        self.assertEqual((done.returncode, done.stderr), (0, b""))
        return done.stdout

    def test_a_trace_comes_back(self):
        frames = some_frames(1000, 1)
        trace = trace_of(b">", [frames[number % 1000] for number in range(FRAMES)])
        line = self.answer(["frame"], trace)
        self.assertTrue(self.answer(["deframe", "dte"], line) == trace)

    def test_frames_are_put_as_the_standard_says(self):
        frames = some_frames(500, 2) + [bytes(range(256)) * 16, b"\xff" * 4103]
        line = "".join(FLAG + stuffed(bits_of(frame)) + FLAG for frame in frames)
        self.assertEqual(self.answer(["frame"], trace_of(b"<", frames)), octets_of(line))

    def test_frames_are_found_at_each_place_of_an_octet(self):
        frames = some_frames(40, 3)
        flags = "0111111" * 3 + "0"
        for place in range(8):
            for between in (FLAG, flags, FLAG * 2 + flags):
                line = "1" * place + FLAG + "".join(
                    stuffed(bits_of(frame)) + between for frame in frames
                )
                with self.subTest(place=place, between=between):
                    self.assertEqual(
                        self.answer(["deframe", "dce"], octets_of(line)), trace_of(b"<", frames)
                    )

    def test_an_idle_line_has_no_frames(self):
        for place in range(8):
            for idle in (
                "1" * place + FLAG * 4000,
                "1" * place + "0111111" * 4000 + "0",
                "1" * 4000,
                "0" * 4000,
            ):
                self.assertEqual(self.answer(["deframe", "dte"], octets_of(idle)), b"")

    def test_what_is_found_is_written_before_the_input_ends(self):
        line = octets_of(FLAG + stuffed(bits_of(bytes.fromhex("013febdf"))) + FLAG)
        with subprocess.Popen(
            [support.PROGRAM, "deframe", "dte"], stdin=subprocess.PIPE, stdout=subprocess.PIPE
        ) as child:
            for _ in range(3):
                for octet in line:
                    child.stdin.write(bytes([octet]))
                    child.stdin.flush()
                self.assertEqual(child.stdout.readline(), b"> 013febdf\n")
            child.stdin.close()
            self.assertEqual(child.stdout.read(), b"")

    def test_memory_does_not_grow_with_the_input(self):
        frame = b"> " + b"ff" * 4103 + b"\n"
        for words, short, long in (
            (
                ["deframe", "dte"],
                b"\x7e" + b"\x55" * 5000 + b"\x7e",
                b"\x7e" + b"\x55" * ((20 << 20) // support.SHARE) + b"\x7e",
            ),
            (
                ["frame"],
                b"# a comment of some length\n",
                b"# a comment of some length\n" * ((1 << 20) // support.SHARE),
            ),
            (["frame"], frame, frame * (2000 // support.SHARE)),
        ):
            with self.subTest(words):
                (done, least), (longer, most) = (
                    support.run_with_peak(words, it) for it in (short, long)
                )
                self.assertEqual((longer.returncode, longer.stderr), (0, b""))
                if short != frame:
                    self.assertEqual(longer.stdout, done.stdout)
                self.assertLess(most, least + MORE)

    def test_lines_that_are_left_out_are_said(self):
        for given, said in (
            (b"> 013febdf\n> 0\n\n", b"left out: lines that are no frame\n"),
            (b"# a comment\n> ..\n", b""),
        ):
            done = subprocess.run(
                [support.PROGRAM, "frame"], input=given, capture_output=True, timeout=60
            )
            self.assertEqual((done.returncode, done.stderr), (1 if said else 0, said))

    def test_a_read_and_a_write_that_fail(self):
        for words in ["deframe", "dte"], ["frame"]:
            with self.subTest(words), open("/dev/full", "wb") as full:
                given = (
                    bytes.fromhex("7e015fd677fb01") if words[0] == "deframe" else b"> 013febdf\n"
                )
                done = subprocess.run(
                    [support.PROGRAM, *words],
                    input=given,
                    stdout=full,
                    stderr=subprocess.PIPE,
                    timeout=60,
                )
                self.assertEqual((done.returncode, done.stderr), (3, b"write failed\n"))
                done = subprocess.run(
                    ["sh", "-c", '"$0" "$@" < /', support.PROGRAM, *words],
                    capture_output=True,
                    timeout=60,
                )
                self.assertEqual(
                    (done.returncode, done.stdout, done.stderr), (3, b"", b"read failed\n")
                )


if __name__ == "__main__":
    unittest.main()
