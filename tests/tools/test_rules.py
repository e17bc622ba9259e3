"""Tests of the oracle of rules.py: a tape that breaks each rule, and tapes that break none."""

import re
import unittest

import support  # noqa: F401, by which the scripts are found

import golden
import rules
import rules_runs
from rules import INFO, UNREAD, UNSEEN, Frame
from rules_runs import BEGINNING, packet
from runs import (
    ACCEPTED, CALL, CLEAR, CLEAR_CONFIRMATION, DISC, DM, INTERRUPT, INTERRUPT_CONFIRMATION, OTHERS
)
from runs import RESET, RESET_CONFIRMATION, RESTART, RESTART_CONFIRMATION, RNR, RR, SABM, UA

from x25tools.x25lines import is_sealed  # where runs finds it

KINDS = {
    "call": CALL,
    "accepted": ACCEPTED,
    "clear": CLEAR,
    "cleared": CLEAR_CONFIRMATION,
    "reset": RESET,
    "was-reset": RESET_CONFIRMATION,
    "restart": RESTART,
    "restarted": RESTART_CONFIRMATION,
    "int": INTERRUPT,
    "confirmed": INTERRUPT_CONFIRMATION,
    "rr": RR,
    "rnr": RNR,
    "sabm": SABM,
    "disc": DISC,
    "ua": UA,
    "dm": DM,
    "unread": UNREAD,
    "unseen": UNSEEN,
}
OPEN = ">call <accepted "
# The last packet of each breaks a rule of docs/PEER.md: its number.
BROKEN_PACKETS = {
    "<restart <call": 9,
    ">clear >call": 9,
    OPEN + ">reset >rr:0": 9,
    ">restarted": 10,
    ">cleared": 10,
    OPEN + ">was-reset": 10,
    ">restart <restarted <restarted": 10,
    OPEN + "<reset >was-reset >was-reset": 10,
    OPEN + ">data:0:0 <reset >was-reset >data:1:0": 12,
    OPEN + ">restart <restarted >data:0:0": 12,
    OPEN + "<clear >cleared >rr:0": 12,
    ">call >call": 13,
    ">accepted": 13,
    ">call <accepted:16": 13,
    ">call <call >accepted": 13,
    ">rr:0": 13,
    OPEN + ">data:1:0": 15,
    OPEN + " ".join(f">data:{number}:0" for number in range(7)) + " <int >data:7:0": 16,
    OPEN + ">rr:1": 17,
    OPEN + "<data:0:0 >rnr:1 >rr:0": 17,
    OPEN + ">data:0:0:129": 18,
    ">call:16 <accepted >data:0:0:17": 18,
    OPEN + ">more:0:0 >qualified:1:0": 18,
    OPEN + ">int >int": 19,
    OPEN + ">confirmed": 19,
    OPEN + "<int >confirmed >confirmed": 19,
}
# None of these breaks one: collisions; what is sent again, with one answer or one each; what ends
# what waits for an answer.
KEPT_PACKETS = (
    ">call <call <accepted",
    OPEN + ">clear <clear >call",
    OPEN + ">reset <data:0:0 <reset >rr:0",
    ">restart <restart >call",
    ">restart >restart <restarted >call <restarted",
    ">restart >restart <restarted >call",
    OPEN + ">clear >clear <cleared >call <cleared",
    OPEN + ">reset >reset <was-reset >data:0:0 <was-reset",
    OPEN + ">reset >clear <cleared",
    OPEN + ">reset >restart <restarted",
    OPEN + ">clear >restart <restarted",
    OPEN + "<restart >rr:0 >clear >restarted",
    OPEN + " ".join(f">data:{number}:0" for number in range(7)) + " <rr:1 >data:7:0",
    ">call:16 <accepted:16 >data:0:0:16",
)
# The same of frames: I frames have N(S), N(R) and what they carry.
BROKEN_FRAMES = {
    ">i:1:1:a >i:1:1:b": 1,
    " ".join(f">i:{number % 8}:1:a" for number in range(1, 9)): 2,
    ">rr:2": 5,
    "<i:1:1:a >rr:2 >rr:1": 5,
    ">sabm >rr:1": 20,
    ">sabm <ua >rr:1": 21,
    ">ua": 22,
    "<sabm >ua >ua": 22,
    ">disc <ua >rr:1": 20,
}
KEPT_FRAMES = (
    ">i:1:1:a >i:1:1:a",
    " ".join(f">i:{number % 8}:1:a" for number in range(1, 8)) + " <rr:2 >i:0:1:a",
    ">sabm >sabm <ua <i:0:0:a >rr:1 <ua",
    ">sabm >sabm <ua <i:0:0:a <ua >rr:0",
    "<sabm >sabm >ua >rr:0",
    ">sabm <sabm >ua <ua >rr:0",
    "<sabm <disc >rr:1",
    ">sabm >dm <ua >rr:0",
    "<disc >ua <sabm >ua >rr:0",
    f">sabm <ua <i:0:0:{packet(0, RESTART).hex()} >sabm "
    f">i:0:1:{packet(0, RESTART_CONFIRMATION).hex()}",
)
# The same where something is missing: the beginning of a tape, frames that can't be read, or in
# place of which a gap stands, and, in front of the DTE, what the line lost of the DCE.
BROKEN_FROM_THE_MIDST = {
    ">disc >rr:1": 20,
    ">sabm >rr:1": 20,
    ">sabm <ua >rr:1": 21,
    "<sabm >ua <ua <rr:1": 22,
    ">ua <ua >i:0:0:a >i:0:0:b": 1,
}
KEPT_FROM_THE_MIDST = (
    ">rr:3 <i:5:2:a >rr:1 >i:4:1:a >i:4:1:b",
    ">ua >ua <ua",
    ">dm <ua >rr:0",
    "<ua >sabm >rr:0",
    ">ua >rr:0",
    "<sabm >ua >rr:0 >sabm",
)
BROKEN_WHERE_UNREAD = {
    "<unread >rr:3": 5,
    "<unread >ua >ua": 22,
    ">unread >ua": 22,
    ">unread >i:3:1:a": 2,
    ">unread >i:1:1:a >i:1:1:b": 1,
}
KEPT_WHERE_UNREAD = (
    "<unread >rr:2 >rr:2",
    "<unread >ua >rr:0",
    ">sabm <unread >rr:0",
    "<unread " + " ".join(f">i:{number % 8}:1:a" for number in range(1, 9)),
    ">unread >i:2:1:a >i:1:1:b",
    ">unread <ua >rr:0",
    " ".join(f">i:{number}:1:a" for number in range(1, 8)) + " <rr:2 >unread >i:1:1:a",
    "<sabm >unread <i:0:0:a >rr:1",
)
BROKEN_BEHIND_A_GAP = {
    "<unseen >disc >rr:1": 20,
    "<unseen >sabm <ua >i:0:0:a <rr:1 <rr:2": 5,
    ">unseen <sabm <ua >sabm <ua >i:0:0:a >i:0:0:b": 1,
}
KEPT_BEHIND_A_GAP = (
    ">unseen >sabm <ua >i:0:0:a <rr:1 <rr:2",
    "<unseen >rr:5 >rr:3",
    "<unseen >ua >i:0:3:a >rr:4",
    ">unseen >i:5:1:a",
    "<unseen >sabm >rr:5",
)
BROKEN_AT_THE_DTE = {
    ">rr:2": 5,
    "<rr:2": 5,
    "<ua": 22,
    "<i:3:1:a <i:3:1:b": 1,
    "<i:7:1:a <i:0:1:a": 2,
    "<disc <rr:1": 20,
}
KEPT_AT_THE_DTE = (
    "<i:3:1:a <i:1:1:b",
    ">sabm <rr:0",
)
# Of two frames that can't be read one is SABM; the other one is an I frame by the packet that goes
# next, and SABM too by the second UA.
EITHER_WAY = f"<unread <unread >ua >i:0:0:{packet(1, RR).hex()} >ua"


class Tape:
    """A tape by its words: each has an end, a kind and numbers. A packet goes in an I frame that
    comes at once."""

    def __init__(self):
        self.counts = dict.fromkeys(OTHERS, 1)

    def packet(self, word):
        end, (kind, *numbers) = word[0], word[1:].split(":")
        if kind in ("data", "more", "qualified"):
            ps, pr, size = (*map(int, numbers), 1)[:3]
            octets = packet(
                1, pr << 5 | (kind == "more") << 4 | ps << 1, bytes(size), kind == "qualified"
            )
        elif kind in ("call", "accepted") and numbers:
            octets = packet(1, KINDS[kind], rules_runs.SMALL)
        else:
            octets = packet(
                0 if kind in ("restart", "restarted") else 1,
                KINDS[kind] | int((numbers or [0])[0]) << 5,
            )
        self.counts[end] += 1
        return Frame(end, INFO, self.counts[OTHERS[end]] % 8, (self.counts[end] - 1) % 8, octets)

    @staticmethod
    def frame(word):
        end, (kind, *rest) = word[0], word[1:].split(":")
        if kind == "i":
            return Frame(
                end,
                INFO,
                int(rest[1]),
                int(rest[0]),
                bytes.fromhex(rest[2]) if len(rest[2]) > 1 else rest[2].encode(),
            )
        return Frame(end, KINDS[kind], *map(int, rest))


def played(frames, beginning=BEGINNING, at=None):
    ends = rules.Ends(at)
    for frame in [*beginning, *frames]:
        ends.passes(frame)
    return ends, ends.places - 1


class Rules(unittest.TestCase):
    def test_packets_that_break_one(self):
        self.assertEqual({9, 10, 12, 13, 15, 16, 17, 18, 19}, set(BROKEN_PACKETS.values()))
        for text in BROKEN_PACKETS:
            with self.subTest(text):
                ends, last = played(map(Tape().packet, text.split()))
                self.assertEqual((ends.links, ends.packets), ({}, {text.split()[-1][0]: last}))

    def test_they_do_in_front_of_an_end_too(self):
        """Those of the near end, of which nothing is missing; of the far end one may have been
        lost that explains them."""
        for text in BROKEN_PACKETS:
            with self.subTest(text):
                ends, last = played(map(Tape().packet, text.split()), at=text.split()[-1][0])
                self.assertEqual((ends.links, ends.packets), ({}, {text.split()[-1][0]: last}))

    def test_packets_that_break_none(self):
        for text in KEPT_PACKETS:
            with self.subTest(text):
                ends, _ = played(map(Tape().packet, text.split()))
                self.assertEqual((ends.links, ends.packets), ({}, {}))

    def test_frames_that_break_one(self):
        self.assertEqual({1, 2, 5, 20, 21, 22}, set(BROKEN_FRAMES.values()))
        for text in BROKEN_FRAMES:
            with self.subTest(text):
                ends, last = played(map(Tape.frame, text.split()))
                self.assertEqual(ends.links, {text.split()[-1][0]: last})

    def test_frames_that_break_none(self):
        for text in KEPT_FRAMES:
            with self.subTest(text):
                self.assertEqual(played(map(Tape.frame, text.split()))[0].links, {})

    def test_packets_say_nothing_of_the_link(self):
        ends, _ = played(map(Tape.frame, EITHER_WAY.split()))
        self.assertEqual((ends.links, ends.packets), ({}, {}))

    def test_where_something_is_missing(self):
        for broken, kept, given in (
            (BROKEN_FROM_THE_MIDST, KEPT_FROM_THE_MIDST, {"beginning": ()}),
            (BROKEN_WHERE_UNREAD, KEPT_WHERE_UNREAD, {}),
            (BROKEN_BEHIND_A_GAP, KEPT_BEHIND_A_GAP, {}),
            (BROKEN_AT_THE_DTE, KEPT_AT_THE_DTE, {"at": ">"}),
        ):
            for text in (*broken, *kept):
                with self.subTest(text, **given):
                    ends, last = played(map(Tape.frame, text.split()), **given)
                    self.assertEqual(
                        ends.links, {text.split()[-1][0]: last} if text in broken else {}
                    )


class Faults(unittest.TestCase):
    def test_a_judge_that_is_silent_or_accuses_is_seen(self):
        ends, last = played(map(Tape().packet, (OPEN + ">rr:1").split()))
        right = rules_runs.Told(last, ">", True, True)
        self.assertEqual([*rules_runs.faults(ends, [right])], [])
        self.assertEqual([*rules_runs.faults(ends, [])], [("missed", last, ">", True)])
        for told in (
            right._replace(place=last - 1),
            right._replace(end="<"),
            right._replace(is_of_packets=False),
        ):
            self.assertIn("accused", [fault.what for fault in rules_runs.faults(ends, [told])])

    def test_packets_are_compared_where_all_are_known(self):
        words = (OPEN + ">rr:0").split()
        unread = [{"beginning": (*BEGINNING, Frame(end, UNREAD))} for end in OTHERS]
        for given in ({}, {"at": ">"}, {"beginning": ()}, *unread, {"at": "<"}):
            with self.subTest(**given):
                ends, last = played(map(Tape().packet, words), **given)
                accused = [("accused", last, ">", True)] if given in ({}, {"at": ">"}) else []
                self.assertEqual(
                    [*rules_runs.faults(ends, [rules_runs.Told(last, ">", True, True)])], accused
                )

    def test_manners_tell_of_a_number_out_of_order_alone(self):
        ends, last = played(map(Tape.frame, ">i:2:1:a".split()))
        told = rules_runs.Told(last, ">", False, False)
        self.assertEqual([*rules_runs.faults(ends, [told])], [])
        self.assertEqual(
            [*rules_runs.faults(ends, [told._replace(place=last - 1)])],
            [("missed", last, ">", False)],
        )


class Stored(unittest.TestCase):
    def test_no_answer_accuses_an_end_that_broke_nothing(self):
        """The golden cases of `judge` that are whole traces from a set-up on, and short, on a
        network with the defaults that rules.py knows."""
        count = 0
        for case in golden.cases(golden.chosen(["judge"])[0]):
            lines = case.input.decode("latin1").splitlines()
            words = {*re.sub("--at line", "", " ".join(case.words)).split()}
            if (
                words & {"--at", "--wide", "--loose", "--long", "--size", "--window"}
                or len(lines) > 60
                or not all(re.fullmatch("[<>] (?:[0-9a-f]{2}){4,}", line) for line in lines)
            ):
                continue
            octets = [bytes.fromhex(line[2:]) for line in lines]
            frames = [rules.frame_of(line[0], frame[:-2]) for line, frame in zip(lines, octets)]
            if (
                all(map(is_sealed, octets))
                and [frame.kind for frame in frames[:2]] == [SABM, UA]
                and frames[0].end != frames[1].end
            ):
                count += 1
                ends = rules.Ends()
                for frame in frames:
                    ends.passes(frame)
                told = [*rules_runs.told_of(case.output.decode().splitlines())]
                self.assertNotIn(
                    "accused", [fault.what for fault in rules_runs.faults(ends, told)], case.name
                )
        self.assertGreater(count, 100)


if __name__ == "__main__":
    unittest.main()
