"""Tests of pcap2x25.py and x25pcap.py: captures in and out."""

import gzip
import io
import os
import signal
import struct
import types
import unittest
from unittest import mock

import samples
import support
from support import ToolCase

import golden
from x25tools import ahead, captures, early, ip, pcap2x25, x25lines, xot

SABM, UA = bytes.fromhex("013f"), bytes.fromhex("0173")
SET_UP = b"> 013febdf\n< 01738357\n"
CALL, ACCEPT = bytes.fromhex("10010b43123456700041"), bytes.fromhex("10010f")
CASES = [
    f"decode/{name}"
    for name in (
        "frames_of_each_kind",
        "packets_of_each_kind",
        "octets_that_spell_no_frame",
        "octets_that_spell_no_packet",
    )
]
TRACES = {name: support.read("examples", f"{name}.trace") for name in ("exchange", "setup")}
TRACES |= {case.name: case.input for case in golden.cases(CASES)}


def words(**given):
    """What `pcap2x25.words` answers, with no words but these."""
    return types.SimpleNamespace(
        **{
            "swap": False,
            "fcs": None,
            "lapb": None,
            "sent_by": None,
            "port": 1998,
            "dte": None,
            "connection": None,
            **given,
        }
    )


def lines(capture, **given):
    """The lines that a capture becomes, as a text, and the notes on what was left out."""
    converter = pcap2x25.Converter(words(**given))
    found = [
        it
        for block in converter.blocks(captures.blocks(io.BytesIO(capture), converter.notes))
        for it in zip(*block)
    ]
    text = "".join(
        line
        for connection, _, line in found
        if connection.number == (given.get("connection") or 1)
    )
    return text, dict(converter.notes)


def times(capture):
    """The times of the records of a capture."""
    return [
        time for block in captures.blocks(io.BytesIO(capture)) for _, _, _, _, time, *_ in block
    ]


class FrameCheckSequence(unittest.TestCase):
    def test_check_value(self):
        self.assertEqual(x25lines.fcs(b"123456789"), bytes.fromhex("6e90"))

    def test_sealed(self):
        self.assertTrue(x25lines.is_sealed(bytes.fromhex("013febdf")))
        self.assertFalse(x25lines.is_sealed(bytes.fromhex("013febde")))
        self.assertFalse(x25lines.is_sealed(bytes.fromhex("0000")))


class RoundTrip(ToolCase):
    def test_traces_come_back(self):
        for name, given in TRACES.items():
            with self.subTest(name):
                back = support.run(
                    "pcap2x25.py", given=support.run("x25pcap.py", given=given).stdout
                )
                self.assertEqual((back.returncode, back.stdout, back.stderr), (0, given, b""))

    @support.needs_program
    def test_the_same_text_by_decode(self):
        given = support.read("examples/exchange.trace")
        back = support.run("pcap2x25.py", given=support.run("x25pcap.py", given=given).stdout)
        self.assertEqual(support.decode(back.stdout), support.decode(given))

    def test_times_come_back(self):
        timed = b"1700000000.000000001\t> 013febdf\n9999999999.999999999\t< 01738357\n"
        back = support.run(
            "pcap2x25.py", "--time", given=support.run("x25pcap.py", given=timed).stdout
        )
        self.assertEqual(back.stdout, timed)

    def test_a_line_without_a_time_is_found_by_its_number(self):
        back = support.run(
            "pcap2x25.py", "--time", given=support.run("x25pcap.py", given=SET_UP).stdout
        )
        self.assertEqual(back.stdout, b"0.001000000\t> 013febdf\n0.002000000\t< 01738357\n")

    def test_entries_of_a_run_are_passed_over(self):
        run = (
            b"> 013febdf\ndce linkup\n< 01738357\n? 60\n! 51\ndte send ch=1 at 1.0.0 q=0 data=-\n"
        )
        back = support.run("pcap2x25.py", given=support.run("x25pcap.py", given=run).stdout)
        self.assertEqual(back.stdout, SET_UP)

    def test_output_to_a_file(self):
        path = os.path.join(self.folder, "trace.pcapng")
        self.assertEqual(support.run("x25pcap.py", "-o", path, given=SET_UP).returncode, 0)
        self.assertEqual(support.run("pcap2x25.py", path).stdout, SET_UP)


class Formats(unittest.TestCase):
    def test_pcap_of_both_byte_orders_and_units(self):
        for order in (samples.LITTLE, samples.BIG):
            for nano in (False, True):
                file = samples.pcap(
                    [(5, 7, b"\x01" + SABM), (6, 0, b"\x00" + UA)], order=order, nano=nano
                )
                with self.subTest(order=order, nano=nano):
                    self.assertEqual(lines(file), (SET_UP.decode(), {}))
                    self.assertEqual(
                        times(file), [5 * 10**9 + 7 * (1 if nano else 1000), 6 * 10**9]
                    )

    def test_pcap_that_says_its_frames_have_their_check_sequence(self):
        file = samples.pcap(
            [(0, 0, b"\x01" + bytes.fromhex("013febde"))], network_flags=0x1400_0000
        )
        self.assertEqual(lines(file), ("> 013febde\n", {}))

    def test_pcapng_of_both_byte_orders(self):
        for order in (samples.LITTLE, samples.BIG):
            file = samples.section(order) + samples.interface(207, order=order)
            file += samples.packet(b"\x01" + SABM, order=order) + samples.block(
                0xBAD, b"unknown", order
            ) + samples.packet(b"\x00" + UA, order=order)
            with self.subTest(order=order):
                self.assertEqual(lines(file), (SET_UP.decode(), {}))

    def test_sections_of_two_byte_orders(self):
        file = samples.section(samples.BIG) + samples.interface(
            207, order=samples.BIG
        ) + samples.packet(b"\x01" + SABM, order=samples.BIG)
        file += samples.section() + samples.interface(207) + samples.packet(b"\x00" + UA)
        self.assertEqual(lines(file), (SET_UP.decode(), {}))

    def test_clocks(self):
        for resolution, ticks, time in (
            (b"\x00", 3, 3 * 10**9), (b"\x06", 3, 3000), (b"\x09", 3, 3), (b"\x81", 3, 15 * 10**8)
        ):
            file = samples.section() + samples.interface(
                207, samples.option(9, resolution)
            ) + samples.packet(b"\x01" + SABM, ticks)
            self.assertEqual(times(file), [time])

    def test_packets_without_direction_or_options(self):
        head = samples.section() + samples.interface(147)
        for file in (head + samples.simple_packet(SABM), head + samples.old_packet(SABM)):
            self.assertEqual(lines(file, lapb=147, sent_by="dte"), ("> 013febdf\n", {}))
            with self.assertRaisesRegex(x25lines.BadInput, "no direction"):
                lines(file, lapb=147)

    def test_direction_of_the_flags(self):
        head = samples.section() + samples.interface(147)
        file = head + samples.packet(SABM, flags=2) + samples.packet(UA, flags=1)
        self.assertEqual(lines(file, lapb=147), (SET_UP.decode(), {}))

    def test_sita_without_flags_has_its_own_direction(self):
        file = samples.pcap(
            [(0, 0, bytes([0, 0, 0, 0, 1]) + SABM), (0, 0, bytes([1, 0, 0, 0, 1]) + UA)],
            link_type=196,
        )
        self.assertEqual(lines(file), (SET_UP.decode(), {}))

    def test_other_protocols_of_sita_are_left_out(self):
        file = samples.pcap([(0, 0, bytes([0, 0, 0, 0, 2]) + SABM)], link_type=196)
        self.assertEqual(lines(file), ("", {"SITA record of protocol 2": 1}))

    def test_swap(self):
        file = samples.pcap([(0, 0, b"\x00" + SABM), (0, 0, b"\x01" + UA)])
        self.assertEqual(lines(file, swap=True), (SET_UP.decode(), {}))

    def test_of_a_frame_captured_in_part_nothing_is_known(self):
        file = samples.pcap([(0, 0, b"\x01" + SABM, 40), (0, 0, b"\x00" + UA)])
        self.assertEqual(lines(file), ("> \n< 01738357\n", {"frame that was captured in part": 1}))

    def test_a_record_shorter_than_its_header_is_a_gap(self):
        for link_type, head, short in (
            (207, b"\x01", (0, 0, b"", 5)), (196, bytes([0, 0, 0, 0, 1]), (0, 0, b"\0"))
        ):
            with self.subTest(link_type):
                file = samples.pcap(
                    [(0, 0, head + SABM), short, (0, 0, head + SABM)], link_type=link_type
                )
                self.assertEqual(
                    lines(file), ("> 013febdf\n> ..\n< ..\n> 013febdf\n", {pcap2x25.SHORT: 1})
                )
        file = samples.section() + samples.interface(147) + samples.block(
            6, struct.pack("<IIIII", 0, 0, 0, 0, 5)
        ) + samples.packet(SABM, flags=2)
        self.assertEqual(
            lines(file, lapb=147, sent_by="dce"),
            ("< \n> 013febdf\n", {"frame that was captured in part": 1}),
        )


class XotStreams(unittest.TestCase):
    def setUp(self):
        whole = samples.xot(CALL), samples.xot(ACCEPT)
        self.call, self.accept = whole
        self.expected, _ = self.read([(True, 1, self.call), (False, 1, self.accept)])

    def read(self, segments, link_type=1, wrap=samples.ethernet, **given):
        """The lines of a capture of segments, each (to the server, sequence number, octets,
        flags)."""
        records = [
            (0, 0, wrap(samples.ipv4(to_server, samples.tcp(to_server, *rest))))
            for to_server, *rest in segments
        ]
        return lines(samples.pcap(records, link_type=link_type), **given)

    def test_packets_in_i_frames_that_count(self):
        frames = [x25lines.frame_line(line.encode()) for line in self.expected.splitlines()]
        self.assertEqual([frame.direction for frame in frames], [">", "<"])
        self.assertTrue(all(x25lines.is_sealed(frame.octets) for frame in frames))
        self.assertEqual(frames[0].octets[:-2], b"\x01\x00" + CALL)
        # The answer counts the packet that came before it: N(R)=1.
        self.assertEqual(frames[1].octets[:-2], b"\x03\x20" + ACCEPT)

    def test_numbers_go_round(self):
        text, _ = self.read([(True, 1, samples.xot(*[ACCEPT] * 9))])
        controls = [x25lines.frame_line(line.encode()).octets[1] for line in text.splitlines()]
        self.assertEqual(controls, [0, 2, 4, 6, 8, 10, 12, 14, 0])

    def test_segments_in_any_order_twice_and_cut_anywhere(self):
        pieces = [(True, 1 + at, self.call[at : at + 3]) for at in range(0, len(self.call), 3)]
        syn = (True, 0, b"", 2)
        for segments in (
            pieces[:1] + pieces[1:][::-1],
            [syn] + pieces[::-1],
            [syn] + pieces + pieces,
            [syn, *pieces[:2], syn, *pieces[2:]],
        ):
            text, notes = self.read([*segments, (False, 1, self.accept)])
            self.assertEqual((text, notes), (self.expected, {}))

    def test_overlapping_segments(self):
        cut = (True, 1, self.call[:6]), (True, 4, self.call[3:]), (True, 2, self.call[1:5])
        self.assertEqual(self.read([*cut, (False, 1, self.accept)]), (self.expected, {}))

    def test_numbers_of_segments_go_round(self):
        last = (1 << 32) - 5
        segments = (
            (True, last - 1, b"", 2),
            (True, last + 8, self.call[8:]),
            (True, last, self.call[:8]),
            (False, 1, self.accept),
        )
        self.assertEqual(self.read(segments), (self.expected, {}))

    def test_links_below_ip(self):
        tags = b"\x81\x00\x00\x05\x81\x00\x00\x06"
        for link_type, wrap in (
            (1, lambda packet: samples.ethernet(packet, tags=tags)),
            (101, lambda packet: packet),
            (0, lambda packet: b"\x02\x00\x00\x00" + packet),
            (113, lambda packet: bytes(14) + b"\x08\x00" + packet),
            (276, lambda packet: b"\x08\x00" + bytes(18) + packet),
        ):
            with self.subTest(link_type):
                got = self.read([(True, 1, self.call), (False, 1, self.accept)], link_type, wrap)
                self.assertEqual(got, (self.expected, {}))

    def test_ipv6_with_an_extension_header(self):
        both = (True, self.call), (False, self.accept)
        records = [
            (
                0,
                0,
                samples.ethernet(
                    samples.ipv6(to_server, samples.tcp(to_server, 1, octets)), 0x86DD
                ),
            )
            for to_server, octets in both
        ]
        self.assertEqual(lines(samples.pcap(records, link_type=1)), (self.expected, {}))

    def test_another_port(self):
        packet = samples.ethernet(samples.ipv4(True, samples.tcp(True, 1, self.call, port=2000)))
        file = samples.pcap([(0, 0, packet)], link_type=1)
        self.assertEqual(lines(file), ("", {}))
        self.assertEqual(lines(file, port=2000)[0].count("\n"), 1)

    def test_both_ends_have_the_port_of_xot(self):
        """The one that opens the connection is the DTE, or else the first one that is seen, and
        both are of one connection."""
        syn, answer, call, accept = (
            (True, 0, b"", 2), (False, 0, b"", 18), (True, 1, self.call), (False, 1, self.accept)
        )
        for segments in ([syn, answer, call, accept], [answer, call, accept], [call, accept]):
            records = []
            for to_server, sequence, octets, *flags in segments:
                tcp = samples.tcp(to_server, sequence, octets, *flags)
                records.append((
                    0,
                    0,
                    samples.ethernet(
                        samples.ipv4(to_server, struct.pack(">HH", 1998, 1998) + tcp[4:])
                    ),
                ))
            self.assertEqual(lines(samples.pcap(records, link_type=1)), (self.expected, {}))

    def test_a_packet_of_ip_whose_length_the_card_writes(self):
        both = (True, self.call), (False, self.accept)
        for kind, make, at in (0x0800, samples.ipv4, 2), (0x86DD, samples.ipv6, 4):
            packets = [
                make(to_server, samples.tcp(to_server, 1, octets)) for to_server, octets in both
            ]
            records = [
                (0, 0, bytes(12) + struct.pack(">H", kind) + it[:at] + b"\0\0" + it[at + 2 :])
                for it in packets
            ]
            self.assertEqual(lines(samples.pcap(records, link_type=1)), (self.expected, {}))

    def test_swap_makes_frames_of_the_other_end(self):
        text, _ = self.read([(True, 1, self.accept)], swap=True)
        frame = x25lines.frame_line(text.strip().encode())
        self.assertEqual((frame.direction, frame.octets[:-2]), ("<", b"\x03\x00" + ACCEPT))

    def test_what_is_no_xot_is_passed_over(self):
        arp, fragment = (
            samples.ethernet(bytes(28), 0x0806),
            samples.ethernet(samples.ipv4(True, samples.tcp(True, 1, self.call), fragment=5)),
        )
        self.assertEqual(
            lines(samples.pcap([(0, 0, arp), (0, 0, fragment), (0, 0, b"\x00")], link_type=1)),
            ("", {}),
        )

    def test_a_gap_is_told_and_passed(self):
        segments = (
            (True, 1, self.call[:5]),
            (True, 1 + len(self.call), self.call),
            (False, 1, self.accept),
        )
        text, notes = self.read(segments)
        self.assertEqual([line[:4] for line in text.splitlines()], ["< 03", "> ..", "> 01"])
        self.assertEqual(notes, {"gap in a connection, octets that weren't captured": 1})

    def test_a_segment_after_its_acknowledgement(self):
        """A capture of two taps may have it so: what acknowledges it waits for it, with its own
        time, but not for one that doesn't come."""
        syn, answer = (True, 0, b"", 2), (False, 1, self.accept, 16, 1998, 1 + len(self.call))
        self.assertEqual(self.read([syn, answer, (True, 1, self.call)]), (self.expected, {}))
        rest = [
            (False, 1 + number * len(self.accept), self.accept, 16, 1998, 1 + len(self.call))
            for number in range(early.MOST_EARLY)
        ]
        text, notes = self.read([syn, *rest, (True, 1, self.call)])
        self.assertEqual([text.splitlines()[0], notes], [self.expected.splitlines()[0], {}])
        for late in [], [(True, 1, self.call)]:
            rest = [
                (False, 1 + number * len(self.accept), self.accept, 16, 1998, 1 + len(self.call))
                for number in range(early.MOST_EARLY + 1)
            ]
            text, notes = self.read([syn, *rest, *late])
            self.assertEqual(
                [line[:4] for line in text.splitlines()], ["> ..", *["< 03"] * len(rest)]
            )
            self.assertEqual(
                notes,
                {
                    "gap in a connection, octets that weren't captured": 1,
                    **({xot.TOO_LATE: 1} if late else {}),
                },
            )

    def test_segments_that_wait_keep_their_times(self):
        ways = (False, self.accept, 1 + len(self.call)), (True, self.call, 0)
        records = [
            (
                at,
                0,
                samples.ethernet(samples.ipv4(way, samples.tcp(way, 1, octets, wanted=wanted))),
            )
            for at, (way, octets, wanted) in enumerate(ways, 5)
        ]
        syn = 4, 0, samples.ethernet(samples.ipv4(True, samples.tcp(True, 0, b"", 2)))
        done = support.run(
            "pcap2x25.py", "--time", given=samples.pcap([syn, *records], link_type=1)
        )
        self.assertEqual(
            [row[:15] for row in done.stdout.decode().splitlines()],
            ["6.000000000\t> 0", "5.000000000\t< 0"],
        )

    def test_where_the_capture_begins_within_a_connection(self):
        """One end's segments are late; or aren't there at all, as where one way was captured
        alone."""
        ends, call, answer = (
            (1 + len(self.call), 1 + len(self.accept)),
            (True, 1, self.call, 16, 1998, 1),
            (False, 1, self.accept, 16, 1998, 1 + len(self.call)),
        )
        data = (True, ends[0], samples.xot(bytes.fromhex("10010041")), 16, 1998, ends[1])
        self.assertEqual(self.read([call, data, answer]), self.read([call, answer, data]))
        text, notes = self.read(
            [call]
            + [
                (True, 1 + (number + 1) * len(self.call), self.call, 16, 1998, 100 * number + 1)
                for number in range(40)
            ]
        )
        self.assertEqual((text.count("\n"), notes), (41, {}))

    def test_behind_a_gap_the_next_packet_is_looked_for(self):
        """Of the second packet the beginning is missing; what is left of it may look like a
        header, but for its length or its format."""
        for rest in (self.call[9:], b"\0\0\x20\0" + bytes(9), b"\0\0\0\5\x30" + bytes(9)):
            end = 1 + len(self.call) + 5 + len(rest)
            segments = (
                (True, 1, self.call),
                (True, 6 + len(self.call), rest),
                (True, end, self.call),
                (False, 1, self.accept),
            )
            text, notes = self.read(segments)
            self.assertEqual(
                [line if line[2:] == ".." else line[6:-4] for line in text.splitlines()],
                [CALL.hex(), ACCEPT.hex(), "> ..", CALL.hex()],
            )
            self.assertEqual(
                notes, {"gap in a connection, octets that weren't captured": 1, xot.WITHIN: 1}
            )

    def test_fragments_are_put_together(self):
        """In any order, one twice, those of other packets between them."""
        head, answer = samples.tcp(True, 1, self.call), samples.tcp(False, 1, self.accept)
        first, second, third = (
            samples.ipv4(True, head[:16], 0x2000),
            samples.ipv4(True, head[16:32], 0x2002),
            samples.ipv4(True, head[32:], 4),
        )
        other = samples.ipv4(True, head[:16], 0x2000, number=1)
        for packets in (
            [first, second, third], [third, first, first, second], [other, second, third, first]
        ):
            packets = [*packets, samples.ipv4(False, answer)]
            text, notes = lines(
                samples.pcap([(0, 0, samples.ethernet(packet)) for packet in packets], link_type=1)
            )
            self.assertEqual(text, self.expected)
            self.assertEqual(notes, {xot.FRAGMENT: 1} if other in packets else {})
        sixth = [samples.ipv6_fragment(head[24:], 24), samples.ipv6_fragment(head[:24], 1)]
        text, notes = lines(
            samples.pcap(
                [(0, 0, samples.ethernet(packet, 0x86DD)) for packet in sixth], link_type=1
            )
        )
        self.assertEqual((text, notes), (self.expected.splitlines(True)[0], {}))

    def test_fragments_that_stay_alone_are_told(self):
        head = samples.tcp(True, 1, self.call)
        other = samples.tcp(True, 1, self.call, port=80)
        for packets, count in (
            ([samples.ipv4(True, head[:24], 0x2000)], 1),
            ([samples.ipv4(True, head[:24], 0x2000), samples.ipv4(True, head[32:], 4)], 1),
            (
                [
                    samples.ipv4(True, samples.tcp(True, 1, self.call)),
                    samples.ipv4(True, head[24:], 3),
                    samples.ipv4(False, head[24:], 3),
                ],
                1,
            ),
            ([samples.ipv4(True, head[:24], 0x2000), samples.ipv4(True, head[24:], 3)[:-1]], 1),
            ([samples.ipv4(True, other[:24], 0x2000), samples.ipv4(True, other[24:], 3)], 0),
        ):
            records = [(0, 0, bytes(12) + b"\x08\x00" + packet) for packet in packets]
            self.assertEqual(
                lines(samples.pcap(records, link_type=1))[1],
                {xot.FRAGMENT: count} if count else {},
            )

    def test_few_fragments_are_held(self):
        """The fragments of 65 packets: of the first one the rest comes too late."""
        head = samples.tcp(True, 1, self.call)
        begun = [
            samples.ipv4(True, head[:24], 0x2000, number=number)
            for number in range(ip.MOST_IN_FRAGMENTS + 1)
        ]
        ended = [samples.ipv4(True, head[24:], 3, number=number) for number in (1, 0)]
        text, notes = lines(
            samples.pcap(
                [(0, 0, samples.ethernet(packet)) for packet in begun + ended], link_type=1
            )
        )
        self.assertEqual(
            (text, notes),
            (self.expected.splitlines(True)[0], {xot.FRAGMENT: ip.MOST_IN_FRAGMENTS + 1}),
        )

    def test_a_connection_that_is_no_xot_is_told_once(self):
        text, notes = self.read([
            (True, 0, b"", 2), (True, 1, b"GET / HTTP/1.0\r\n"), (True, 17, self.call)
        ])
        self.assertEqual(
            (text, notes), ("", {"connection that isn't XOT, or was read out of step": 1})
        )

    def test_a_capture_that_begins_within_a_packet(self):
        text, notes = self.read([
            (True, 1, self.call[9:]),
            (True, 1 + len(self.call[9:]), self.call),
            (False, 1, self.accept),
        ])
        self.assertEqual((text, notes), (self.expected, {xot.WITHIN: 1}))

    def test_a_packet_broken_off_is_told(self):
        self.assertEqual(
            self.read([(True, 1, self.call[:9])]),
            ("", {"packet broken off at the end of its connection": 1}),
        )

    def test_a_new_connection_on_the_same_ports(self):
        segments = (
            (True, 0, b"", 2),
            (True, 1, self.call[:9]),
            (True, 5000, b"", 2),
            (True, 5001, self.call),
            (False, 1, self.accept),
        )
        self.assertEqual(
            self.read(segments),
            (self.expected, {"packet broken off at the end of its connection": 1}),
        )

    def test_a_new_connection_on_the_same_ports_has_its_own_number(self):
        """Its SYN comes twice, and of a third one the answer to it alone was captured."""
        first = [
            (True, 0, b"", 2),
            (False, 0, b"", 18, 1998, 1),
            (True, 1, self.call),
            (False, 1, self.accept),
        ]
        second = [
            (True, 5000, b"", 2),
            (True, 5000, b"", 2),
            (False, 700, b"", 18, 1998, 5001),
            (True, 5001, self.call),
            (False, 701, self.accept),
        ]
        third = [(False, 20, b"", 18, 1998, 9001), (True, 9001, self.call)]
        records = [
            (0, 0, samples.ethernet(samples.ipv4(to_server, samples.tcp(to_server, *rest))))
            for to_server, *rest in first + second + third
        ]
        done = support.run("pcap2x25.py", "--list", given=samples.pcap(records, link_type=1))
        ends = "XOT 10.0.0.1:40000 > 10.0.0.2:1998"
        rows = [
            f"{number}\t{ends}\t{counts}"
            for number, counts in ((1, "> 1\t< 1"), (2, "> 1\t< 1"), (3, "> 1\t< 0"))
        ]
        self.assertEqual((done.stdout.decode().splitlines(), done.stderr), (rows, b""))


class LocalNetworks(ToolCase):
    """lapbether and LLC."""

    def ethernet(self, *frames, **given):
        return lines(samples.pcap([(0, 0, frame) for frame in frames], link_type=1), **given)

    def test_lapbether_tells_its_directions_by_its_frames(self):
        sabm, ua = samples.lapbether(1, SABM), samples.lapbether(2, UA)
        self.assertEqual(self.ethernet(sabm, ua), (SET_UP.decode(), {}))
        # The DCE's frame comes first, and so tells that the other station is the DTE; a
        # supervisory frame follows that.
        ready = bytes.fromhex("0121")
        self.assertEqual(
            self.ethernet(ua, samples.lapbether(1, ready))[0],
            f"< 01738357\n> 0121{x25lines.fcs(ready).hex()}\n",
        )
        self.assertEqual(self.ethernet(sabm, ua, swap=True)[0], "< 013febdf\n> 01738357\n")

    def test_lapbether_without_a_frame_that_tells(self):
        ready = samples.lapbether(1, bytes.fromhex("0121"))
        text, notes = self.ethernet(ready, samples.lapbether(1, SABM))
        self.assertEqual(
            (text, notes),
            (
                "> 013febdf\n",
                {
                    "frame of lapbether before one that tells which end is the DTE (--dte says "
                    "it)": 1
                },
            ),
        )
        self.assertEqual(self.ethernet(ready, dte=samples.station(2))[0][:6], "< 0121")

    def test_lapbether_of_a_wrong_length_and_of_a_third_station(self):
        sabm = samples.lapbether(1, SABM)
        self.assertEqual(
            self.ethernet(sabm, samples.lapbether(2, UA, 300))[1],
            {"frame of lapbether that is shorter than it says": 1},
        )
        self.assertEqual(
            self.ethernet(sabm, samples.lapbether(2, UA), samples.lapbether(3, UA)),
            (SET_UP.decode(), {"frame of a third station of lapbether": 1}),
        )

    def test_lapbether_in_cooked_captures(self):
        for link_type, head in (
            (113, lambda at: bytes(6) + samples.station(at) + bytes(2) + b"\x60\x00"),
            (276, lambda at: b"\x60\x00" + bytes(10) + samples.station(at) + bytes(2)),
        ):
            records = [
                (0, 0, head(at) + len(frame).to_bytes(2, "little") + frame)
                for at, frame in ((1, SABM), (2, UA))
            ]
            self.assertEqual(
                lines(samples.pcap(records, link_type=link_type)), (SET_UP.decode(), {})
            )

    def test_packets_of_llc(self):
        set_up = samples.llc(1, 2, b"\x7f"), samples.llc(2, 1, b"\x73")
        call, again, accept = (
            samples.llc(*ends, bytes([0, 0]), packet)
            for ends, packet in (((1, 2), CALL), ((1, 2), CALL), ((2, 1), ACCEPT))
        )
        text, notes = self.ethernet(*set_up, call, samples.llc(2, 1, b"\x01\x02"), again, accept)
        frames = [x25lines.frame_line(line.encode()) for line in text.splitlines()]
        self.assertEqual(
            [(frame.direction, frame.octets[:-2]) for frame in frames],
            [(">", b"\x01\x00" + CALL), ("<", b"\x03\x20" + ACCEPT)],
        )
        self.assertEqual(notes, {})
        _, notes = self.ethernet(
            *set_up, samples.llc(1, 2, b"\x00\x00", CALL), samples.llc(1, 2, b"\x04\x00", CALL)
        )
        self.assertEqual(notes, {"gap in a connection of LLC": 1})

    def test_a_gap_of_llc_is_where_the_other_station_has_taken_more(self):
        """By N(R) of an I frame or of RR; a gap before the first packet stands before it, and the
        frame that is missing may come a little later."""
        set_up, lacks = (samples.llc(1, 2, b"\x7f"), samples.llc(2, 1, b"\x73")), {
            "gap in a connection of LLC": 1
        }
        call, late = samples.llc(1, 2, b"\x00\x00", CALL), samples.llc(2, 1, b"\x00\x02", ACCEPT)
        data, more = samples.llc(1, 2, b"\x02\x02", b"\x10\x01\x00A"), samples.llc(
            2, 1, b"\x02\x04", b"\x10\x01\x21"
        )
        for frames, ways, notes in (
            ([*set_up, call, data, more], "> <.. > <", lacks),
            (
                [*set_up, call, samples.llc(1, 2, b"\x01\x02"), more],
                "> <.. >.. <",
                {"gap in a connection of LLC": 2},
            ),
            ([*set_up, late, data], ">.. < >", lacks),
            ([*set_up, late, call, data], "> < >", {}),
            ([*set_up, call, data, late, more], "> < > <", {}),
        ):
            text, noted = self.ethernet(*frames)
            self.assertEqual(
                (
                    " ".join(
                        line[0] + line[2:].replace(line[2:], ".." if line[2:] == ".." else "")
                        for line in text.splitlines()
                    ),
                    noted,
                ),
                (ways, notes),
            )

    def test_the_dte_of_llc_may_be_named(self):
        frame = samples.llc(1, 2, b"\x00\x00", CALL)
        self.assertEqual(
            [self.ethernet(frame, dte=dte)[0][:1] for dte in (None, samples.station(2))],
            [">", "<"],
        )


class Connections(ToolCase):
    """Connections aren't merged, and what wasn't found is told."""

    def capture(self, port=1998):
        packets = [(1, samples.xot(CALL)), (9, samples.xot(ACCEPT)), (1, samples.xot(ACCEPT))]
        at, records = {1: 1, 9: 1}, []
        for client, octets in packets:
            records.append((
                0,
                0,
                samples.ethernet(
                    samples.ipv4(
                        True, samples.tcp(True, at[client], octets, port=port), client=client
                    )
                ),
            ))
            at[client] += len(octets)
        return samples.pcap(records, link_type=1)

    def test_one_is_written_and_the_others_are_told(self):
        done = support.run("pcap2x25.py", given=self.capture())
        frames = [x25lines.frame_line(line) for line in done.stdout.splitlines()]
        self.assertEqual([frame.octets[:2] for frame in frames], [b"\x01\x00", b"\x01\x02"])
        self.assertEqual((done.returncode, done.stderr.count(b"\n")), (1, 1))
        self.assertIn(b"1 more connections", done.stderr)

    def test_a_connection_by_its_number(self):
        done = support.run("pcap2x25.py", "--connection", "2", given=self.capture())
        self.assertEqual((done.returncode, done.stdout.count(b"\n"), done.stderr), (0, 1, b""))
        self.assertEqual(x25lines.frame_line(done.stdout[:-1]).octets[:-2], b"\x01\x00" + ACCEPT)
        self.assert_refused(
            support.run("pcap2x25.py", "--connection", "3", given=self.capture()),
            "there is no connection 3: the last is 2",
        )
        self.assertEqual(support.run("pcap2x25.py", "--connection", "0").returncode, 2)

    def test_the_list(self):
        done = support.run("pcap2x25.py", "--list", given=self.capture())
        self.assertEqual(
            done.stdout,
            b"1\tXOT 10.0.0.1:40000 > 10.0.0.2:1998\t> 2\t< 0\n2\tXOT 10.0.0.9:40000 > "
            b"10.0.0.2:1998\t> 1\t< 0\n",
        )
        self.assertEqual((done.returncode, done.stderr), (0, b""))

    def test_nothing_found_says_why(self):
        for capture, said in (
            (
                self.capture(port=2000),
                b"passed over: segment of TCP like XOT, to or from port 2000 (--port) (3)",
            ),
            (
                samples.pcap([(0, 0, samples.ethernet(bytes(28), 0x0806))], link_type=1),
                b"passed over: frame of the type 0806 (1)",
            ),
            (samples.pcap([]), b"the capture has no records"),
            (b"", b"the capture has no records"),
            (
                samples.pcap([(0, 0, SABM)] * 2, link_type=105),
                b"left out: record of the link type 105, of which nothing is read (--help lists "
                b"those that are) (2)",
            ),
        ):
            done = support.run("pcap2x25.py", given=capture)
            self.assertEqual((done.returncode, done.stdout), (1, b""))
            self.assertIn(b"nothing was found", done.stderr)
            self.assertIn(said, done.stderr)

    def test_a_handshake_alone_says_that_nothing_was_brought(self):
        flags = (True, 0, b"", 2), (False, 0, b"", 18), (True, 1, b"", 16)
        packets = [samples.ipv4(it[0], samples.tcp(*it)) for it in flags]
        capture = samples.pcap([(0, 0, samples.ethernet(it)) for it in packets], link_type=1)
        done = support.run("pcap2x25.py", given=capture)
        self.assertEqual(done.returncode, 1)
        self.assertIn(b"passed over: segment of TCP that brings no octets (3)", done.stderr)

    def test_a_record_of_another_link_type_is_passed_over(self):
        file = samples.section() + samples.interface(207) + samples.interface(105)
        file += samples.packet(b"\x01" + SABM) + samples.packet(
            b"\x00" * 9, index=1
        ) + samples.packet(b"\x00" + UA)
        done = support.run("pcap2x25.py", given=file)
        self.assertEqual((done.returncode, done.stdout, done.stderr.count(b"\n")), (1, SET_UP, 1))


class Packed(ToolCase):
    def test_gzip_is_read_from_a_file_and_a_pipe(self):
        packed = gzip.compress(samples.pcap([(0, 0, b"\x01" + SABM), (0, 0, b"\x00" + UA)]))
        self.assertEqual(
            support.run("pcap2x25.py", self.file("trace.pcap.gz", packed)).stdout, SET_UP
        )
        self.assertEqual(support.run("pcap2x25.py", given=packed).stdout, SET_UP)
        for bad in (packed[:-9], packed[:20], packed[:12] + bytes(20), b"\x1f\x8b", b"\x1fno"):
            done = support.run("pcap2x25.py", given=bad)
            self.assertEqual((done.returncode, done.stderr.count(b"\n")), (2, 1), done.stderr)

    def test_packed_lines_are_read(self):
        back = support.run(
            "pcap2x25.py", given=support.run("x25pcap.py", given=gzip.compress(SET_UP)).stdout
        )
        self.assertEqual(back.stdout, SET_UP)


class OddClocks(ToolCase):
    def test_times_go_through_both_tools(self):
        for resolution, ticks in (
            (b"\x00", (1 << 64) - 1),
            (b"\x00", 10**10),
            (b"\x00", 10**10 - 1),
            (b"\xff", 5),
            (b"\x7f", 5),
            (b"\x01", 7),
            (b"\x80", 1 << 63),
        ):
            file = samples.section() + samples.interface(
                207, samples.option(9, resolution)
            ) + samples.packet(b"\x01" + SABM, ticks)
            timed = support.run("pcap2x25.py", "--time", given=file)
            capture = support.run("x25pcap.py", given=timed.stdout)
            self.assertEqual((capture.returncode, capture.stderr), (0, b""))
            self.assertEqual(
                support.run("pcap2x25.py", "--time", given=capture.stdout).stdout, timed.stdout
            )
            self.assertEqual(timed.returncode, 1 if ticks > 10**10 - 1 else 0)


class Pipes(ToolCase):
    """What comes of a line, or a record, is written before the next is there."""

    def test_pcap2x25(self):
        whole = samples.pcap([(0, 0, b"\x01" + SABM), (0, 0, b"\x00" + UA)])
        live, first = support.Live("pcap2x25.py"), len(samples.pcap([(0, 0, b"\x01" + SABM)]))
        live.give(whole[:first])
        self.assertEqual(live.some(), b"> 013febdf\n")
        live.give(whole[first:])
        self.assertEqual(live.some(), b"< 01738357\n")
        self.assertEqual(live.end(), (0, b"", b""))

    def test_x25pcap(self):
        live = support.Live("x25pcap.py")
        live.give(b"> 013febdf\n")
        self.assertEqual(lines(live.some())[0], "> 013febdf\n")
        self.assertEqual(live.end(), (0, b"", b""))


class Dribble(io.BytesIO):
    """A file of which so many octets come at once."""

    def __init__(self, octets, count):
        super().__init__(octets)
        self._count = count

    def read1(self, _):
        return super().read1(self._count)


class Pieces(unittest.TestCase):
    """However a file comes, it holds the same; and what is there is passed on before more is
    read."""

    def test_captures(self):
        frames = [(at, 0, b"\x01" + SABM) for at in range(5)]
        for whole in (
            samples.pcap(frames),
            samples.section()
            + samples.interface(207)
            + b"".join(samples.packet(octets, at) for at, _, octets in frames),
        ):
            for count in (1, 2, 3, 7, 64):
                blocks = list(captures.blocks(Dribble(whole, count)))
                self.assertEqual(
                    [(number, octets) for block in blocks for number, _, octets, *_ in block],
                    [(at + 1, b"\x01" + SABM) for at in range(5)],
                )
                self.assertEqual(len(blocks), -(-len(whole) // count))
                self.assertLessEqual(max(map(len, blocks)), 1 + count // 19)

    def test_lines(self):
        whole = b"> 013febdf\n\n< 01738357\nno line feed"
        for count in (1, 2, 5, 1000):
            for file in (whole, whole.replace(b"\n", b"\r\n")):
                self.assertEqual(
                    list(x25lines.lines_of(Dribble(file, count))),
                    list(enumerate(whole.split(b"\n"), 1)),
                )

    def test_a_line_that_is_too_long_is_told_behind_those_before_it(self):
        read = []
        with self.assertRaisesRegex(x25lines.BadInput, "line 2 is longer than 131,264"):
            for number, _ in x25lines.lines_of(io.BytesIO(b"> 013febdf\n" + b"0" * 200_000)):
                read.append(number)
        self.assertEqual(read, [1])


class Ahead(unittest.TestCase):
    """What a process of its own makes."""

    def test_what_is_made_and_what_is_raised_behind_it(self):
        def made():
            yield from ([1, "a"], [2])
            raise x25lines.BadInput("it breaks off")

        taken = []
        with self.assertRaisesRegex(x25lines.BadInput, "it breaks off"):
            for thing in ahead.ahead(made()):
                taken.append(thing)
        self.assertEqual(taken, [[1, "a"], [2]])
        self.assertEqual(list(ahead.ahead(iter([]))), [])

    def test_it_is_stopped(self):
        def made():
            yield 1
            os.kill(os.getpid(), signal.SIGKILL)

        with self.assertRaisesRegex(x25lines.BadInput, "was stopped"):
            list(ahead.ahead(made()))


class Hostile(ToolCase):
    """Files that are cut off, damaged, or no captures at all end with a message; none ends with a
    traceback."""

    def captures(self):
        frames = [(1, 2, b"\x01" + SABM), (3, 4, b"\x00" + UA)]
        segments = [
            (0, 0, samples.ethernet(samples.ipv4(True, samples.tcp(True, at, samples.xot(CALL)))))
            for at in (1, 15, 60)
        ]
        return {
            "pcap": samples.pcap(frames),
            "pcapng": support.run("x25pcap.py", given=SET_UP).stdout,
            "xot": samples.pcap(segments, link_type=1),
            "lapbether": samples.pcap(
                [(0, 0, samples.lapbether(1, SABM)), (0, 0, samples.lapbether(2, UA))], link_type=1
            ),
            "llc": samples.pcap(
                [
                    (0, 0, samples.llc(1, 2, b"\x00\x00", CALL)),
                    (0, 0, samples.llc(2, 1, b"\x00\x02", ACCEPT)),
                ],
                link_type=1,
            ),
            "options": samples.section()
            + samples.interface(207, samples.option(9, b"\x06"))
            + samples.packet(frames[0][2], flags=2),
        }

    def read(self, octets):
        """Reads a capture to its end, or to bad input; anything else is an error of the test."""
        try:
            lines(octets)
        except x25lines.BadInput as error:
            return str(error)
        return None

    def test_cut_off_anywhere(self):
        for name, whole in self.captures().items():
            self.assertIsNone(self.read(whole))
            refused = [at for at in range(len(whole)) if self.read(whole[:at]) is not None]
            # Only between records is a file that ends there a whole one.
            self.assertGreater(len(refused), len(whole) * 9 // 10, name)

    def test_any_octet_changed(self):
        for whole in self.captures().values():
            for at in range(len(whole)):
                for value in (0, 1, 0x7F, 0x80, 0xFF):
                    self.read(whole[:at] + bytes([value]) + whole[at + 1 :])

    def test_messages(self):
        whole = samples.section() + samples.interface(207)
        cases = {
            "neither a pcap nor": b"GET / HTTP/1.0\r\n",
            "the file ends within the file header": samples.pcap([])[:20],
            "record 1 has a wrong length": samples.pcap([])
            + bytes.fromhex("0000000000000000ffffffffffffffff"),
            "the file ends within record 1": samples.pcap([(0, 0, b"\x01" + SABM)])[:-1],
            "record 1 names the interface 7": whole + samples.packet(SABM, index=7),
            "a section header has no byte order": samples.section()[:8] + bytes(20),
            "the two lengths": whole[:-1] + b"\x01",
            "a block after record 0 has a wrong length": whole
            + b"\x06\x00\x00\x00\xff\xff\xff\xff",
            "record 1 is too short": whole + samples.block(6, bytes(4)),
            "an option of record 1 has a wrong length": whole
            + samples.block(6, samples.packet(b"\x01" + SABM)[8:-4] + b"\x02\x00\xff\xff"),
        }
        for message, octets in cases.items():
            with self.subTest(message):
                self.assert_refused(support.run("pcap2x25.py", given=octets), message)

    def test_large_sparse_files(self):
        heads = {
            "neither a pcap": b"",
            "record 1 holds no octets": samples.pcap([]),
            "wrong length": samples.section() + samples.interface(207),
        }
        for message, head in heads.items():
            with self.subTest(message):
                self.assert_refused(
                    support.run("pcap2x25.py", self.sparse("capture", head)), message
                )
        self.assert_refused(
            support.run("x25pcap.py", self.sparse("trace", SET_UP)), "line 3 is longer than"
        )

    def test_what_stands_before_bad_input_is_written(self):
        done = support.run(
            "pcap2x25.py", given=samples.pcap([(0, 0, b"\x01" + SABM), (0, 0, b"\x00" + UA)])[:-1]
        )
        self.assertEqual(done.stdout, b"> 013febdf\n")
        self.assert_refused(done, "the file ends within record 2")

    def test_files_that_are_not_there(self):
        for script in ("pcap2x25.py", "x25pcap.py"):
            self.assert_refused(
                support.run(script, os.path.join(self.folder, "none")), "No such file"
            )
            self.assert_refused(support.run(script, self.folder), "Is a directory")
        self.assert_refused(
            support.run("x25pcap.py", "-o", "/nowhere/file", given=SET_UP),
            "/nowhere/file: No such file",
        )

    def test_lines_that_are_none(self):
        for line in (
            b"x",
            b"> 0",
            b"> 013febdf\r\r",
            b" ",
            b">013febdf",
            b"> " + b"00" * 4104,
            b"10:11 > 013febdf",
            b"99999999999\t> 013febdf",
            b"\xff\xfe\x00",
        ):
            with self.subTest(line[:20]):
                self.assert_refused(
                    support.run("x25pcap.py", given=SET_UP + line + b"\n"),
                    "line 3 is no line of a trace",
                )

    def test_a_capture_is_no_trace(self):
        for capture in (samples.pcap([]), samples.section()):
            self.assert_refused(
                support.run("x25pcap.py", given=capture),
                "this is a capture already; pcap2x25.py makes lines of one",
            )

    def test_a_warning_is_one_write(self):
        with mock.patch("sys.stderr") as stderr:
            x25lines.warn("it")
        self.assertEqual(stderr.write.call_count, 1)

    def test_what_was_left_out_makes_status_1(self):
        done = support.run("pcap2x25.py", given=samples.pcap([(0, 0, b"\x01" + SABM, 40)]))
        self.assertEqual(
            (done.returncode, done.stdout, done.stderr),
            (1, b"> \n", b"pcap2x25.py: left out: frame that was captured in part (1)\n"),
        )

    def test_help_and_bad_words(self):
        for script in ("pcap2x25.py", "x25pcap.py"):
            self.assertEqual(support.run(script, "--help").returncode, 0)
            self.assertEqual(support.run(script, "--no-such-word").returncode, 2)


if __name__ == "__main__":
    unittest.main()
