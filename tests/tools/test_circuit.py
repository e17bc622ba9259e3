"""Tests of the tables of docs/CIRCUIT.md: each cell is played on `x25 station`, at both ends, and
the state after it is found out."""

import re
import unittest

import support
from runs import ACCEPTED, CALL, CLEAR, CLEAR_CONFIRMATION, INTERRUPT, INTERRUPT_CONFIRMATION
from runs import RESET, RESET_CONFIRMATION, RESTART, RNR, RR
from x25tools.piped import Station
from x25tools.x25lines import fcs

PACKETS = {
    "CALL": bytes((CALL, 0x11, 0x12, 0, 7)),
    "CALL ACCEPTED": bytes((ACCEPTED,)),
    "CLEAR": bytes((CLEAR, 5, 6)),
    "CLEAR CONF": bytes((CLEAR_CONFIRMATION,)),
    "RESET": bytes((RESET, 7, 8)),
    "RESET CONF": bytes((RESET_CONFIRMATION,)),
    "DATA": bytes((0x02, 7)),
    "RR": bytes((RR,)),
    "RNR": bytes((RNR,)),
    "INT": bytes((INTERRUPT, 5)),
    "INT CONF": bytes((INTERRUPT_CONFIRMATION,)),
}

# Octets that spell no packet, by the diagnostic of their error: the first one, and those after the
# channel.
NONE = {
    0: (0x10, bytes((CALL, 0x11, 0x1A, 0))),  # a digit of an address that is none
    33: (0x10, bytes((0x09,))),  # a code that is none
    38: (0x10, bytes((RESET, 7))),  # no diagnostic
    39: (0x10, bytes((RR, 0))),  # an octet too many
    40: (0x90, bytes((RR,))),  # Q
    65: (0x10, bytes((CALL, 0, 2, 1, 1))),  # a facility that isn't allowed
    66: (0x10, bytes((CALL, 0, 3, 0x42, 3, 7))),  # a packet size that isn't
}

# What is asked and what comes, from p1 on, to be in each state.
WAYS = {
    "p1": (),
    "out": ("call 1 2 -",),
    "in": (PACKETS["CALL"],),
    "p5": ("call 1 2 -", PACKETS["CALL"]),
    "d1": (PACKETS["CALL"], "accept 1"),
    "rst": (PACKETS["CALL"], "accept 1", "reset 1"),
    "clr": (PACKETS["CALL"], "clear 1"),
}

# In d1: the row of the table, what goes before the packet, its first octet and those after the
# channel, and what is sent where no error is.
IN_D1 = (
    (0, (), 0x10, bytes((0x20, 7)), []),
    (0, (), 0x10, bytes((0x20 | RR,)), []),
    (0, (), 0x10, bytes((0x20 | RNR,)), []),
    (1, (), 0x10, bytes((0x02, 7)), []),
    (2, (), 0x10, bytes(130), []),
    (3, (bytes((0x10, *range(128))),), 0x90, bytes((0x02, 7)), []),
    (4, (), 0x10, bytes((0x00, 7)), [0x20 | RR]),
    (4, ("notready 1",), 0x10, bytes((0x00, 7)), [0x20 | RNR]),
    (5, (), 0x10, PACKETS["RR"], []),
    (5, (), 0x10, PACKETS["RNR"], []),
    (6, (), 0x10, PACKETS["INT"], [INTERRUPT_CONFIRMATION]),
    (7, (), 0x10, PACKETS["INT CONF"], []),
    (8, ("int 1 05",), 0x10, PACKETS["INT CONF"], []),
)

# Packet sizes and windows that are proposed and answered, and whether each answered one is from
# the proposed one to the default.
ANSWERS = (
    ((7, 7, 1, 7), (7, 7, 0, 7), False),
    ((7, 7, 1, 7), (7, 7, 1, 7), True),
    ((7, 7, 1, 7), (7, 7, 2, 7), True),
    ((7, 7, 1, 7), (7, 7, 3, 7), False),
    ((7, 7, 1, 7), (7, 7, 1, 1), False),
    ((7, 7, 1, 7), (7, 7, 1, 2), True),
    ((7, 7, 1, 7), (7, 7, 2, 4), True),
    ((7, 7, 1, 7), (7, 7, 2, 8), False),
    ((7, 7, 2, 2), (8, 7, 2, 2), False),
    ((7, 7, 2, 2), (7, 6, 2, 2), False),
    ((5, 9, 2, 2), (6, 8, 2, 2), True),
)

S = {
    "p1": (20, 20),
    "out": (21, 22),
    "in": (22, 21),
    "d1": (23, 23),
    "rst": (23, 23),
    "p5": (24, 24),
}

REQUESTS = {
    "Call": ("call 1 2 -", CALL),
    "Accept": ("accept 1", ACCEPTED),
    "Clear": ("clear 1", CLEAR),
    "Send": ("send 1 0 07", 0x00),
    "Interrupt": ("int 1 05", INTERRUPT),
    "Reset": ("reset 1", RESET),
    "Ready": ("ready 1", RR),
    "NotReady": ("notready 1", RNR),
}

CHANNEL = re.compile(r"ch=1\b( at [0-9.]+)? ?")


def table(heading):
    """The rows of the table under a heading of the document, the first one apart."""
    text = support.read("docs", "CIRCUIT.md").decode().partition(
        f"\n## {heading}\n"
    )[2].partition("\n## ")[0]
    first, _, *rows = (
        [cell.strip() for cell in line.strip("|").split("|")]
        for line in text.splitlines()
        if line.startswith("|")
    )
    return first, rows


class Linked:
    """A station whose link is up; packets come to it in I frames, and those that it sends are
    acknowledged by the next one."""

    def __init__(self, end):
        self.end, self.station = end, Station(support.PROGRAM, end)
        self.station.begin()
        self.mark, self.address = ("<", 3) if end == "dte" else (">", 1)
        self.sent = self.taken = 0
        self.station.ask(f"{end} connect")
        self.frame(bytes((self.address ^ 2, 0x73)))

    def frame(self, octets):
        return self.heard(self.station.ask(f"{self.mark} {(octets + fcs(octets)).hex()}"))

    def heard(self, answer):
        """The entries of an answer, each without the end and the stretch, after its refusal, and
        the packets that were sent."""
        told = [answer.refusal, *answer.notices] if answer.refusal else answer.notices
        packets = []
        for frame in answer.frames:
            octets = bytes.fromhex(frame.text()[2:])
            if octets[1] & 1 == 0:
                self.taken = (self.taken + 1) % 8
                packets.append(octets[2:-2])
        return (
            [CHANNEL.sub("", entry.removeprefix(self.end + " ")).strip() for entry in told],
            packets,
        )

    def comes(self, body, channel=1, first=0x10):
        octets = bytes((self.address, self.taken << 5 | self.sent << 1, first, channel)) + body
        self.sent = (self.sent + 1) % 8
        return self.frame(octets)

    def asks(self, words):
        return self.heard(self.station.ask(f"{self.end} {words}"))

    def does(self, what):
        return self.comes(what) if isinstance(what, bytes) else self.asks(what)

    def goes_to(self, state):
        """A RESTART comes, and then what leads to a state."""
        self.comes(bytes((RESTART, 0, 0)), 0)
        for what in WAYS[state]:
            self.does(what)

    def is_taken(self, words):
        return not self.asks(words)[0][:1] == ["! 30"]

    def state(self):
        """The state that it is in, found out by what it takes and answers; it isn't in that one
        then."""
        if self.is_taken("ready 1"):
            return "d1"
        if self.is_taken("accept 1"):
            return "in"
        if self.asks("call 1 2 -")[0] != ["! 41"]:
            return "p1"
        told = self.comes(PACKETS["RESET CONF"])[0]
        states = {
            "resetdone": "rst",
            f"fault diag={S['out'][self.end == 'dce']}": "out",
            "fault diag=24": "p5",
        }
        return states[told[0]] if told else "clr"


@support.needs_program
class Tables(unittest.TestCase):
    def setUp(self):
        self.ends = {end: Linked(end) for end in ("dte", "dce")}
        for linked in self.ends.values():
            self.addCleanup(linked.station.__exit__)

    def error(self, linked, of_call, diagnostic, cause=19):
        """CLEAR or RESET for an error, what is told, and the state."""
        kind, cause, state = (CLEAR, cause, "clr") if of_call else (RESET, 5, "rst")
        return (
            [f"fault diag={diagnostic}"],
            [bytes((kind, 128 if linked.end == "dte" else cause, diagnostic))],
            state,
        )

    def wanted(self, linked, cell, state, diagnostic):
        """What a cell says: what is told, what is sent, and the state after it."""
        where = linked.end == "dce"
        if cell in ("E S", "E"):
            number = S[state][where] if cell == "E S" else diagnostic
            return self.error(
                linked, True, number, 3 if cell == "E" and number in (65, 66) else 19
            )
        if cell[0] == "F":
            return self.error(linked, False, int(cell[2:] or diagnostic))
        if cell == "dropped":
            return [], [], state
        after, *rest = cell.partition(", or")[0].split(", ")
        return (
            [word.strip("`") for word in rest if word != "CONF"], [None] * ("CONF" in rest), after
        )

    def cell(self, linked, state, cell, body, diagnostic=None, first=0x10):
        linked.goes_to(state)
        told, packets = linked.comes(body, first=first)
        sent = [packet[2:] for packet in packets]
        told_wanted, sent_wanted, after = self.wanted(linked, cell, state, diagnostic)
        confirmation = {CLEAR: CLEAR_CONFIRMATION, RESET: RESET_CONFIRMATION}.get(body[0])
        sent_wanted = [
            bytes((confirmation,)) if octets is None else octets for octets in sent_wanted
        ]
        self.assertEqual(
            (
                [
                    entry if entry.startswith("fault") else entry.partition(" ")[0]
                    for entry in told
                ],
                sent,
            ),
            (told_wanted, sent_wanted),
        )
        self.assertEqual(linked.state(), after)

    def columns(self, linked, first, row):
        """The states of an end, and the cells under them; 'as' stands for the cell of another
        state, which is named before it."""
        cells = dict(zip(first[1:], row[1:], strict=True))
        for state, cell in cells.items():
            if state != "p5" or linked.end == "dte":
                yield state, cells[cell.removeprefix("as ")] if cell.startswith("as ") else cell

    def test_packets(self):
        first, rows = table("Packets")
        played = set()
        for linked in self.ends.values():
            for row in rows:
                for name in row[0].split(", ") if row[0] != "octets that spell none" else ():
                    for state, cell in self.columns(linked, first, row):
                        if "below" in cell:
                            cell = "p5" if linked.end == "dte" else "in, `collided`, `incoming`"
                        if "In d1" not in cell:
                            with self.subTest(end=linked.end, packet=name, state=state):
                                self.cell(linked, state, cell, PACKETS[name])
                                played.add(name)
        self.assertEqual(played, set(PACKETS))

    def test_octets_that_spell_none(self):
        first, rows = table("Packets")
        (row,) = (row for row in rows if row[0] == "octets that spell none")
        for linked in self.ends.values():
            for diagnostic, (first_octet, body) in NONE.items():
                for state, cell in self.columns(linked, first, row):
                    with self.subTest(end=linked.end, octets=body.hex(), state=state):
                        self.cell(linked, state, cell, body, diagnostic, first_octet)

    def test_in_d1(self):
        _, rows = table("In d1")
        for linked in self.ends.values():
            for place, before, first, body, sent in IN_D1:
                with self.subTest(end=linked.end, row=rows[place][:2], before=before):
                    linked.goes_to("d1")
                    for what in before:
                        linked.does(what)
                    told, packets = linked.comes(body, first=first)
                    done = rows[place][2]
                    if done[0] == "F":
                        wanted = self.error(linked, False, int(done[2:]))
                        self.assertEqual(
                            (told, [packet[2:] for packet in packets], linked.state()), wanted
                        )
                    else:
                        self.assertEqual(
                            [entry.partition(" ")[0] for entry in told],
                            re.findall("`([a-z]+)`", done),
                        )
                        self.assertEqual(
                            ([packet[2] for packet in packets], linked.state()), (sent, "d1")
                        )
        self.assertEqual({place for place, *_ in IN_D1}, set(range(len(rows))))

    def test_answers_to_a_proposal(self):
        for linked in self.ends.values():
            for proposed, answered, is_allowed in ANSWERS:
                with self.subTest(end=linked.end, proposed=proposed, answered=answered):
                    linked.goes_to("p1")
                    linked.comes(
                        bytes((CALL, 0x11, 0x12, 6, 0x42, *proposed[:2], 0x43, *proposed[2:]))
                    )
                    told, packets = linked.asks(f"accept 1 {' '.join(map(str, answered))}")
                    self.assertEqual(told == ["! 34"], not is_allowed)
                    self.assertEqual([packet[2] for packet in packets], [ACCEPTED] * is_allowed)

    def test_requests(self):
        _, rows = table("The user's calls")
        names = []
        for kind, where, _, refusal in rows:
            for name in re.findall("`([A-Z][A-Za-z]*)", kind):
                names.append(name)
                words, code = REQUESTS[name]
                number = "41" if name == "Call" else refusal.partition(",")[0]
                for linked in self.ends.values():
                    for state in WAYS:
                        if state == "p5" and linked.end == "dce":
                            continue
                        may = (
                            state not in ("p1", "clr")
                            if where == "any but p1 and clr"
                            else state == where
                        )
                        with self.subTest(end=linked.end, request=name, state=state):
                            linked.goes_to(state)
                            told, packets = linked.asks(words)
                            self.assertEqual(
                                [packet[2] for packet in packets], [code] if may else []
                            )
                            self.assertEqual(told[0] == f"! {number}", not may)
        self.assertEqual(sorted(names), sorted(REQUESTS))


if __name__ == "__main__":
    unittest.main()
