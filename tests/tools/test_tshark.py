"""tshark reads what x25pcap.py writes, and its fields are those of the lines of `x25 decode`, and
of `decode --wide`.

The texts of the golden cases need no program; so tshark is a second judge of these cases too.
Where tshark isn't installed, these tests are left out, and say so.
"""

import os
import re
import shutil
import subprocess
import sys
import unittest

import corpus
import samples
import support
import test_wide
from support import ToolCase

import golden
from x25tools import facilities

FIELDS = """frame.p2p_dir lapb.address lapb.control.ftype lapb.control.s_ftype
lapb.control.u_modifier_cmd lapb.control.u_modifier_resp lapb.control.n_s lapb.control.n_r
lapb.control.p lapb.control.f x25.lcn x25.type x25.p_s x25.p_r x25.m x25.a x25.q x25.d
x25.called_address x25.calling_address x25.clear_cause x25.reset_cause x25.restart_cause
x25.diagnostic x25.x263_sec_protocol_id data.data x25.facilities_length x25.facility_length
x25.facility.classA x25.facility.classB x25.facility.classC x25.facility.classD""".split()

# The field of the value of a facility, where it is one number.
NUMBERS = {
    0x00: "facility.comp_mark",
    0x01: "facility.reverse",
    0x03: "facility.cug",
    0x04: "facility.charging_info",
    0x08: "facility.called_motif",
    0x09: "facility.cug_outgoing_acc",
    0x0A: "facility.throughput_min",
    0x0B: "facility.express_data",
    0x41: "facility.bilateral_cug",
    0x44: "facility.data_network_id_code",
    0x47: "facility.cug_ext",
    0x48: "facility.cug_outgoing_acc_ext",
    0x49: "facility.transit_delay",
    0xC4: "data_network_identification_code",
}
# The fields of its octets, one each or as many as each has.
OCTETS = {
    0x42: ["facility.packet_size.called_dte", "facility.packet_size.calling_dte"],
    0x43: ["window_size.called_dte", "window_size.calling_dte"],
    0xD2: [
        f"facility.{least}priority_{of}"
        for least in ("", "min_acceptable_")
        for of in ("data", "estab_conn", "keep_conn")
    ],
}
PARTS = {
    0xC1: [("call_duration", 4)],
    0xC2: [("segments_to_dte", 4), ("segments_from_dte", 4)],
    0xC5: [("facility.monetary_unit", 4)],
    0xC6: [("facility.nui", 99)],
}
DELAYS = [
    f"facility.{of}_ete_transit_delay" for of in ("cumulative", "requested", "mac_acceptable")
]
# An address as digits, after the field of how many they are.
EXTENSIONS = {
    0xC9: "facility.called_addr_ext_num_semi_octets",
    0xCB: "facility.calling_addr_ext_num_semi_octets",
}
DIVERTED = {
    0xC3: ("call_transfer", "dte_address"), 0xD1: ("call_deflect", "alternative_dte_address")
}
TEXTS = (
    "_address", "data.data", "duration", "segments_to_dte", "segments_from_dte", "monetary_unit",
    "nui", "classD_unknown",
)
FACILITY_FIELDS = [
    *NUMBERS.values(),
    *sum(OCTETS.values(), []),
    *DELAYS,
    *EXTENSIONS.values(),
    "dte_address",
    "alternative_dte_address",
]
FACILITY_FIELDS += [name for parts in PARTS.values() for name, _ in parts] + [
    "facility.throughput.called_dte", "facility.throughput.calling_dte"
]
FACILITY_FIELDS += [
    f"facility.{of}_{what}"
    for of, _ in DIVERTED.values()
    for what in ("reason", "num_semi_octets")
]
FACILITY_FIELDS += [
    "facility.classA_unknown", "facility.classB_unknown", "facility.classD_unknown"
]
FIELDS += [f"x25.{name}" for name in FACILITY_FIELDS]

# What tshark reads otherwise: a cause alone it takes for cut off, of two addresses with nothing
# after them it has none, where A is 1 it has some addresses cut off and some facilities as user
# data, and of a registration it has fields.
OTHERWISE = re.compile(
    r"\| (?:\w+ (?:ch=\d+ )?(?:A=1 )?cause=\d+|\w+ ch=\d+ (?:D=1 )?called=\d+ calling=\d+|\w+ "
    r"ch=\d+ A=1 (?:D=1 )?called=(?:-|5|1/3/1)\S* .*|REG.*) ~ wide$"
)

LINE = re.compile(r"([<>]) (\w+) (cmd|rsp)(?: (.*?))?(?: \| (\w+) ?(.*))?")
FIELD = re.compile(r"(\w+)=(\S+)")

# Control fields as tshark names them: the kind of an S frame, the modifier of a U frame.
S_FRAMES = {"RR": 0, "RNR": 1, "REJ": 2, "SREJ": 3}
U_COMMANDS = {
    "SABM": 0x0B, "DISC": 0x10, "SABME": 0x1B, "SARM": 0x03, "XID": 0x2B, "TEST": 0x38, "UI": 0x00
}
U_RESPONSES = {"UA": 0x18, "DM": 0x03, "FRMR": 0x21, "XID": 0x2B, "TEST": 0x38, "UI": 0x00}
PACKETS = {"DATA": 0x00, **test_wide.CODES}
CAUSES = {"CLEAR": "x25.clear_cause", "RESET": "x25.reset_cause", "RESTART": "x25.restart_cause"}


def given_by_decode(line):
    """What a line of `x25 decode` says, by tshark's names of the fields; None where the frame or
    packet doesn't decode."""
    found = LINE.fullmatch(line.removesuffix(" ~ wide"))
    if not found or found[5] == "fault":
        return None
    direction, kind, sort, fields, packet, rest = found.groups()
    fields = dict(FIELD.findall(fields or ""))
    is_to_dce = direction == ">"
    said = {
        "frame.p2p_dir": 0 if is_to_dce else 1,
        "lapb.address": 1 if is_to_dce == (sort == "cmd") else 3,
    }
    said |= control(kind, sort, fields)
    return said | (x25(packet, dict(FIELD.findall(rest))) if packet else {})


def control(kind, sort, fields):
    """The fields of a frame's control."""
    poll = (
        {"lapb.control.p": 1}
        if fields.get("P") == "1"
        else {"lapb.control.f": 1}
        if fields.get("F") == "1"
        else {}
    )
    if kind == "I":
        return poll | {
            "lapb.control.ftype": 0,
            "lapb.control.n_s": int(fields["S"]),
            "lapb.control.n_r": int(fields["R"]),
        }
    if kind in S_FRAMES:
        return poll | {
            "lapb.control.ftype": 1,
            "lapb.control.s_ftype": S_FRAMES[kind],
            "lapb.control.n_r": int(fields["R"]),
        }
    if sort == "cmd":
        return poll | {"lapb.control.ftype": 3, "lapb.control.u_modifier_cmd": U_COMMANDS[kind]}
    return poll | {"lapb.control.ftype": 3, "lapb.control.u_modifier_resp": U_RESPONSES[kind]}


def x25(packet, fields):
    """The fields of a packet."""
    said = {"x25.type": PACKETS[packet]}
    numbers = {
        "ch": "x25.lcn",
        "S": "x25.p_s",
        "R": "x25.p_r",
        "M": "x25.m",
        "Q": "x25.q",
        "diag": "x25.diagnostic",
        "cause": CAUSES.get(packet),
    }
    said |= {numbers[name]: int(value) for name, value in fields.items() if name in numbers}
    if packet in ("CALL", "ACCEPT", "CLEAR", "CLEARCONF"):
        said["x25.a"] = int(fields.get("A", 0))
    if packet in ("CALL", "ACCEPT", "DATA"):
        said["x25.d"] = int(fields.get("D", 0))
    if packet == "CLEAR" and "called" in fields:
        # Of these tshark has all that is after the diagnostic as it is.
        return said | {"data.data": test_wide.block(fields).hex()}
    texts = {"called": "x25.called_address", "calling": "x25.calling_address"}
    said |= {
        texts[name]: shown(test_wide.halves(value))
        for name, value in fields.items()
        if name in texts and value != "-"
    }
    data = fields.get("data", fields.get("expl", "-")).strip("-")
    if packet == "CALL" and data:
        said["x25.x263_sec_protocol_id"], data = int(data[:2], 16), data[2:]
    if packet in ("REG", "REGCONF"):
        return said
    return said | ({"data.data": data} if data else {}) | facility_fields(
        bytes.fromhex(fields.get("fac", "-").strip("-"))
    )


def shown(address):
    """An address as tshark has it: each half octet by the character so far behind `0`; `value`
    leaves out the colons."""
    return "".join(chr(ord("0") + int(half, 16)) for half in address).replace(":", "")


def facility_fields(octets):
    """The fields of a field of facilities, of each all values in their order."""
    said = {"x25.facilities_length": [len(octets)]} if octets else {}
    for code, value in facilities.split(octets):
        for name, it in [
            (f"facility.class{'ABCD'[code >> 6]}", code),
            *([("facility_length", len(value))] if code >= 0xC0 else []),
            *values(code, value),
        ]:
            said.setdefault(f"x25.{name}", []).append(it)
    return said


def values(code, value):
    """The fields of a facility's value, by their names without what stands before them."""
    if code in NUMBERS:
        return [(NUMBERS[code], int.from_bytes(value, "big"))]
    if code == 0x02:
        return [
            ("facility.throughput.called_dte", value[0] >> 4),
            ("facility.throughput.calling_dte", value[0] & 15),
        ]
    if code in OCTETS:
        return list(zip(OCTETS[code], value))
    if code == 0xCA:
        return [
            (name, int.from_bytes(value[at : at + 2], "big"))
            for at, name in zip(range(0, len(value), 2), DELAYS)
        ]
    if code in PARTS:
        return [
            (name, value[4 * at : 4 * at + most].hex())
            for at, (name, most) in enumerate(PARTS[code])
        ]
    if code in EXTENSIONS:
        count = value[0] & 0x3F
        return [(EXTENSIONS[code], count), ("dte_address", value[1:].hex().upper()[:count])]
    if code in DIVERTED:
        of, address = DIVERTED[code]
        return [
            (f"facility.{of}_reason", value[0]),
            (f"facility.{of}_num_semi_octets", value[1]),
            (address, value[2:].hex().upper()[: value[1]]),
        ]
    # The value of class C tshark reads an octet too early.
    names = {0: "classA_unknown", 1: "classB_unknown", 3: "classD_unknown"}
    return [
        (
            f"facility.{names[code >> 6]}",
            (value.hex() or "<MISSING>") if code >= 0xC0 else int.from_bytes(value, "big"),
        )
    ] if code >> 6 in names else []


def value(name, text):
    """A value that tshark printed, as `given_by_decode` has it."""
    return text.replace(":", "") if name.endswith(TEXTS) else int(text, 0)


def as_lists(said):
    """All values of each field."""
    return {name: it if isinstance(it, list) else [it] for name, it in said.items()}


def given_by_tshark(capture):
    """For each packet of a capture the fields that tshark finds in it."""
    words = [word for name in FIELDS for word in ("-e", name)]
    command = [
        "tshark",
        "-n",
        "-o",
        "x25.reassemble:false",
        "-r",
        capture,
        "-T",
        "fields",
        "-E",
        "separator=|",
        *words,
    ]
    done = subprocess.run(command, capture_output=True, text=True, timeout=60, check=True)
    for row in done.stdout.splitlines():
        yield {
            name: [value(name, it) for it in text.split(",")]
            for name, text in zip(FIELDS, row.split("|"))
            if text
        }


def x25_fields(found):
    """Those of the fields found that are the packet's, without how it is carried."""
    return {name: it for name, it in found.items() if name.startswith("x25.")}


@unittest.skipUnless(shutil.which("tshark"), "tshark isn't installed")
class Tshark(ToolCase):
    def check(self, trace, texts, least):
        """tshark finds in each frame of a trace what the texts say; at least so many are
        compared."""
        capture = os.path.join(self.folder, "trace.pcapng")
        self.assertEqual(support.run("x25pcap.py", "-o", capture, given=trace).returncode, 0)
        compared = 0
        for line, found in zip(texts, given_by_tshark(capture), strict=True):
            said = given_by_decode(line)
            if said is not None and not OTHERWISE.search(line):
                self.assertEqual(found, as_lists(said), line)
                compared += 1
        self.assertGreaterEqual(compared, least)

    def golden(self, name, least):
        case, = golden.cases([f"decode/{name}"])
        self.check(case.input, case.output.decode().splitlines(), least)

    def test_frames_of_each_kind(self):
        self.golden("frames_of_each_kind", 104)

    def test_packets_of_each_kind(self):
        self.golden("packets_of_each_kind", 60)

    def test_vectors(self):
        self.golden("vectors_as_a_trace", 11)

    def test_packets_over_tcp(self):
        """In a capture of XOT tshark finds the packets that it finds in the frames which
        pcap2x25.py makes of it."""
        packets = [
            bytes.fromhex(it)
            for it in (
                "10010b43123456700041", "10010f", "1001b048656c6c6f", "100141", "10012300",
                "10011b0000", "1001130000",
            )
        ]
        sequence, records = {True: 1, False: 1}, []
        for number, packet in enumerate(packets):
            to_server, octets = number % 2 == 0, samples.xot(packet)
            records.append((
                number,
                0,
                samples.ethernet(
                    samples.ipv4(to_server, samples.tcp(to_server, sequence[to_server], octets))
                ),
            ))
            sequence[to_server] += len(octets)
        captured = self.file("xot.pcap", samples.pcap(records, link_type=1))
        framed = os.path.join(self.folder, "framed.pcapng")
        support.run("x25pcap.py", "-o", framed, given=support.run("pcap2x25.py", captured).stdout)
        there, here = (
            [x25_fields(row) for row in given_by_tshark(capture)] for capture in (captured, framed)
        )
        self.assertEqual(there, here)
        self.assertEqual(
            [row["x25.type"] for row in here],
            [[0x0B], [0x0F], [0x00], [0x01], [0x23], [0x1B], [0x13]],
        )

    @support.needs_program
    def test_packets_in_each_form(self):
        trace = corpus.trace(corpus.frames())
        self.check(trace, support.decode(trace, "--wide"), 440)

    @support.needs_program
    def test_what_users_give(self):
        """With a call, its acceptance and its clearing, and with messages."""
        for name, least in (
            ("sim/wide_given_with_calls", 16),
            ("station/wide_dte_gives_facilities", 10),
            ("sim/wide_confirmed_by_its_last_packet", 22),
        ):
            case, = golden.cases([name])
            trace = b"".join(
                line
                for line in (case.input + case.output).splitlines(True)
                if line[:1] in (b"<", b">")
            )
            self.check(trace, support.decode(trace, "--wide"), least)

    @support.needs_program
    def test_each_facility_that_users_give(self):
        """With a call, its acceptance and its clearing; packet and window sizes before a marker
        are the station's own."""
        script = ["drain 9"]
        for it in [
            *(it for it in corpus.FACILITIES if it[:2] not in ("42", "43")),
            "000f420808",
            "0000430303",
            "00ffcb0304abcd",
        ]:
            for line in (
                f"dte with {it} - d call 1 2 c0",
                f"dce with {it} c0ffee d accept 1",
                f"dte with {it} c0ffee clear 1",
            ):
                script += [line, "drain 9"]
        script += [
            "dte call 1 2 - 8 9 3 4",
            "drain 9",
            f"dce with 0101 {128 * 'c0'} accept 1 7 8 2 3",
            "drain 9",
        ]
        done = subprocess.run(
            [support.PROGRAM, "sim", "--wide", "--tap"],
            input="\n".join(script).encode(),
            capture_output=True,
            timeout=60,
        )
        self.assertEqual((done.returncode, done.stderr), (0, b""))
        trace = b"".join(line for line in done.stdout.splitlines(True) if line[:1] in (b"<", b">"))
        self.check(trace, support.decode(trace, "--wide"), 400)

    def test_facilities_have_their_names(self):
        table = subprocess.run(
            ["tshark", "-G", "values"], capture_output=True, text=True, timeout=60, check=True
        ).stdout
        named = {}
        for field, number, name in re.findall(
            r"^V\tx25\.facility\.(\S+)\t(\S+)\t(.*)$", table, re.MULTILINE
        ):
            named.setdefault(field, {})[int(number, 0)] = name.lower()
        codes = {
            code: name for sort in "ABCD" for code, name in named.get(f"class{sort}", {}).items()
        }
        self.assertEqual(
            codes,
            {code: name.lower() for code, name in facilities.NAMES.items()}
            | {0x00: "marker", 0x01: "reverse charging / fast select"},
        )
        self.assertEqual(
            named["comp_mark"],
            {code: name.lower().replace(", ", " - ") for code, name in facilities.MARKERS.items()},
        )
        self.assertEqual(
            named["throughput.called_dte"],
            {rate: f"{bits} bps" for rate, bits in facilities.RATES.items()},
        )

    @support.needs_program
    def test_the_example(self):
        trace = support.read("examples/exchange.trace")
        self.check(trace, support.decode(trace), 36)

    @support.needs_program
    def test_a_long_trace(self):
        command = [
            sys.executable, os.path.join(support.ROOT, "bench", "make_trace.py"), "3000", "5"
        ]
        trace = subprocess.run(command, capture_output=True, timeout=60, check=True).stdout
        self.check(trace, support.decode(trace), 2500)


if __name__ == "__main__":
    unittest.main()
