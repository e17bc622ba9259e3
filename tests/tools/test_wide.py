"""`x25 decode --wide`: no octet is dropped silently, and no cut or random octets have a wrong
length.

The octets of each packet and frame that was read are built again from its text, and compared with
those that were given.
"""

import random
import subprocess
import unittest
import unittest.mock

import corpus
import support
import with_runs
from x25tools.x25lines import fcs

# Packets of which each cut is tried, and each with more after it: in other forms, and one of each
# in the form that a station writes.
PACKETS = """
10010b431234567000 50010b43123456700041 10010b1112 10010b11120201014142
10010b111208000fc902123401ff 10010b0000 10010b111206420707430202 10010b11120143
10010b11120201804e4e4e4e4e4e4e4e4e4e4e4e4e4e4e4e4e4e 10010b1112034302024142 10010f 50010f
10010f00 10010f0000 10010f1112 10010f111203420707 10010f000041 10010f0003420707
10010f00064207074302024a 10011300 1001130541 100113054100 10011305410000c0ffee
1001130541111204c9020102 100117 10011700 1001170000 10011711120201ff 1001024142 9001b4
5001024142 d001f20102 100121 1fff25 100149 1fff89 100123c0 100127 90010b0000 90010b000000
90010b0705114930113450 90010b010010 d0010b0a0050c0a80001000041 90010f0203131320 90010f 90011305
9001130541000213 90011702001300 900117 10011b00 10011b0541 10011f 1000fb07 1000fb0741 1000ff
1000f121 1000f12110010b 1000f3 1000f30001020304 1000f70500
""".split()

CODES = {
    "CALL": 0x0B, "ACCEPT": 0x0F, "CLEAR": 0x13, "CLEARCONF": 0x17, "INT": 0x23, "INTCONF": 0x27,
    "RESET": 0x1B, "RESETCONF": 0x1F, "RESTART": 0xFB, "RESTARTCONF": 0xFF, "DIAG": 0xF1,
    "REG": 0xF3, "REGCONF": 0xF7, "RR": 0x01, "RNR": 0x05, "REJ": 0x09,
}
CONTROLS = {"SABME": 0x6F, "SARM": 0x0F, "XID": 0xAF, "TEST": 0xE3, "UI": 0x03, "SREJ": 0x0D}


def octets(text):
    return b"" if text == "-" else bytes.fromhex(text)


def halves(address):
    """The half octets of an address: its digits, or the type of address, the numbering plan and
    the digits, with a stroke after each of the first two."""
    return address.replace("/", "").replace("-", "")


def block(fields):
    """Addresses, and the facilities and user data after them."""
    called, calling = halves(fields["called"]), halves(fields["calling"])
    digits = called + calling
    lengths = [len(called), len(calling)] if "A" in fields else [len(calling) * 16 + len(called)]
    built = bytes(lengths) + bytes.fromhex(digits + "0" * (len(digits) % 2))
    if "fac" in fields:
        facilities = octets(fields["fac"])
        built += bytes([len(facilities)]) + facilities + octets(fields["data"])
    return built


def body(name, fields, wide):
    """What follows the third octet."""
    if name == "ACCEPT" and not wide:
        facilities = octets(fields["fac"])
        return bytes([0, len(facilities)]) + facilities if facilities else b""
    built = b"".join(bytes([int(fields[word])]) for word in ("cause", "diag") if word in fields)
    if "called" in fields:
        return built + block(fields)
    return built + octets(fields.get("expl", "-")) + octets(fields.get("data", "-"))


def packet(text):
    """The octets of the packet that a text tells."""
    name, *words = text.removesuffix(" ~ wide").split(" ")
    fields = dict(word.split("=") for word in words)
    channel = int(fields.get("ch", 0))
    first = (
        0x10
        | channel >> 8
        | int(fields.get("Q", 0) or fields.get("A", 0)) << 7
        | int(fields.get("D", 0)) << 6
    )
    if name == "DATA":
        kind = int(fields["S"]) * 2 + int(fields["M"]) * 16 + int(fields["R"]) * 32
    else:
        kind = CODES[name] + int(fields.get("R", 0)) * 32
    return bytes([first, channel & 255, kind]) + body(name, fields, text.endswith(" ~ wide"))


def frame(text, from_dte):
    """Address, control and information of the frame that a text tells, of those that LAPB modulo 8
    lacks."""
    name, end, *words = text.removesuffix(" ~ wide").split(" ")
    fields = dict(word.split("=") for word in words)
    address = 1 if (end == "cmd") == from_dte else 3
    control = (
        CONTROLS[name]
        + int(fields.get("P", 0) or fields.get("F", 0)) * 16
        + int(fields.get("R", 0)) * 32
    )
    return bytes([address, control]) + octets(fields.get("info", "-"))


def decoded(frames):
    """What `decode --wide` says of frames from the DTE, without their frame check sequences."""
    lines = "".join(f"> {(it + fcs(it)).hex()}\n" for it in frames)
    done = subprocess.run(
        [support.PROGRAM, "decode", "--wide"],
        input=lines.encode(),
        capture_output=True,
        timeout=60,
        check=True,
    )
    return [line.removeprefix("> ") for line in done.stdout.decode().splitlines()]


def packets_decoded(packets):
    """The texts of packets, each after the bar of an I frame."""
    return [line.partition(" | ")[2] for line in decoded([b"\x01\x00" + it for it in packets])]


@support.needs_program
class Wide(unittest.TestCase):
    def compare(self, packets):
        """Each packet that is read has the octets that it was read from."""
        texts = packets_decoded(packets)
        self.assertEqual(len(texts), len(packets))
        for given, text in zip(packets, texts):
            if not text.startswith("fault "):
                self.assertEqual(packet(text).hex(), given.hex(), text)
        return texts

    def test_each_packet_is_told_whole(self):
        texts = self.compare([bytes.fromhex(it) for it in PACKETS])
        self.assertEqual(
            [given for given, text in zip(PACKETS, texts) if text.startswith("fault ")],
            ["10010b11120143"],
        )

    def test_each_form_of_a_packet_is_told_whole(self):
        texts = self.compare(list(corpus.packets()))
        self.assertEqual([text for text in texts if text.startswith("fault ")], [])

    def test_each_cut_of_each_packet(self):
        self.compare([
            bytes.fromhex(it)[:count] for it in PACKETS for count in range(len(it) // 2)
        ])

    def test_each_packet_with_more_behind_it(self):
        self.compare([
            bytes.fromhex(it + more) for it in PACKETS for more in ("00", "41", "ffff", "00" * 129)
        ])

    def test_facility_fields_of_up_to_three_octets(self):
        fields = [
            bytes(it)
            for first in range(256)
            for it in ([first], [first, 1], [first, 0], [first, 2, 3], [first, 1, 255])
        ]
        texts = self.compare([b"\x10\x01\x0b\x00" + bytes([len(it)]) + it for it in fields])
        for field, text in zip(fields, texts):
            with self.subTest(field.hex()):
                size = {0: 2, 1: 3, 2: 4}.get(field[0] >> 6, 2 + field[1] if len(field) > 1 else 9)
                self.assertEqual(text.startswith("fault 26"), size != len(field), text)

    def test_random_octets(self):
        drawn = random.Random(55)
        heads = [bytes.fromhex(it)[:3] for it in PACKETS]
        few = [drawn.choice(heads) + drawn.randbytes(drawn.randrange(12)) for _ in range(4000)]
        changed = []
        for _ in range(4000):
            octets_of = bytearray.fromhex(drawn.choice(PACKETS))
            octets_of[drawn.randrange(len(octets_of))] = drawn.randrange(256)
            changed.append(bytes(octets_of))
        self.compare(few + changed + [drawn.randbytes(drawn.randrange(20)) for _ in range(2000)])

    def test_frames_that_modulo_8_lacks(self):
        frames = [bytes.fromhex(it) for it in corpus.FRAMES]
        for given, text in zip(frames, decoded(frames)):
            with self.subTest(text):
                self.assertTrue(text.endswith(" ~ wide"), text)
                self.assertEqual(frame(text, True).hex(), given.hex())

    def test_a_packet_as_it_is_written_has_the_same_line(self):
        lines = "".join(
            f"> {(it + fcs(it)).hex()}\n"
            for it in (b"\x01\x00" + bytes.fromhex(packet) for packet in PACKETS)
        ).encode()
        plain = subprocess.run(
            [support.PROGRAM, "decode"], input=lines, capture_output=True, timeout=60, check=True
        ).stdout.splitlines()
        wide = subprocess.run(
            [support.PROGRAM, "decode", "--wide"],
            input=lines,
            capture_output=True,
            timeout=60,
            check=True,
        ).stdout.splitlines()
        for old, new in zip(plain, wide, strict=True):
            self.assertTrue(old == new or b"| fault" in old, (old, new))


if __name__ == "__main__":
    unittest.main()


@support.needs_program
class Given(unittest.TestCase):
    """What users give beside calls, acceptances and clearings goes out as they gave it."""

    RUNS = 4

    def test_random_lines_come_back(self):
        for seed in range(self.RUNS):
            self.assertEqual(with_runs.faults(support.PROGRAM, seed)[0], [], f"seed {seed}")

    def test_what_does_not_come_back_is_told(self):
        for name, other in (
            ("own_facilities", lambda numbers, but: b""),
            ("HEARS", {">": "dte", "<": "dce"}),
            ("refused", with_runs.given),
        ):
            with self.subTest(name), unittest.mock.patch.object(with_runs, name, other):
                self.assertNotEqual(with_runs.faults(support.PROGRAM, 0)[0], [])
