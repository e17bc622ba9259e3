"""Random traces of two stations with one frame changed, judged beside an oracle of the rules.

    order_runs.py [--program PROGRAM] [--from SEED] [RUNS]

Each run is a random script of two stations (losses.py), of which `sim --tap` makes a trace without
damage. In ten copies of it one frame is changed: other octets in an I frame that goes again,
another N(S), another N(R), another P(S) or P(R), an N(R) that stays, an I frame that goes once
more later, or one that is left out. What `judge` tells is compared with what rules.py says, as in
rules_runs.py.

Exit status: 0; 1 where an end was missed or accused, with the seed; 2 for bad words, or where
there is no program.
"""

import subprocess
import sys
from typing import NamedTuple

import judge_runs
import rules_runs
from runs import RNR, RR

from x25tools import losses  # where runs finds it
from x25tools.x25lines import fcs

COPIES = 10
LINES = 120


class Frame(NamedTuple):
    """A frame without its frame check sequence: its end, `>` or `<`, and its octets."""

    end: str
    octets: bytes

    def control(self):
        return self.octets[1]

    def is_info(self):
        return not self.control() & 1

    def is_unnumbered(self):
        return self.control() & 3 == 3

    def packet(self):
        return self.octets[2:] if self.is_info() else b""

    def kind(self):
        """The third octet of its packet, if it has one."""
        return self.packet()[2] if len(self.packet()) > 2 else None

    def is_data(self):
        return self.kind() is not None and not self.kind() & 1 and self.packet()[0] & 0x70 == 0x10

    def has_pr(self):
        return self.is_data() or (
            len(self.packet()) == 3
            and self.kind() & 0x1F in (RR, RNR)
            and self.packet()[0] & 0xF0 == 0x10
        )

    def line(self):
        return f"{self.end} {(self.octets + fcs(self.octets)).hex()}\n"

    def with_octet(self, place, octet):
        return Frame(self.end, self.octets[:place] + bytes((octet,)) + self.octets[place + 1 :])


# ---- copies with one frame changed


def numbered(frames):
    return [place for place, frame in enumerate(frames) if not frame.is_unnumbered()]


def infos(frames):
    return [place for place, frame in enumerate(frames) if frame.is_info()]


def other_octets(dice, frames):
    """Another octet in an I frame, of those that go again where there are any."""
    went, again = set(), []
    for place in infos(frames):
        again += [place] if frames[place] in went else []
        went.add(frames[place])
    place = dice.one_of(again or infos(frames))
    at = 2 + dice.below(len(frames[place].octets) - 2)
    return changed(
        frames, place, frames[place].with_octet(at, frames[place].octets[at] ^ 1 + dice.below(255))
    )


def other_ns(dice, frames):
    place = dice.one_of(infos(frames))
    return changed(
        frames,
        place,
        frames[place].with_octet(1, frames[place].control() ^ 1 + dice.below(7) << 1),
    )


def other_nr(dice, frames):
    place = dice.one_of(numbered(frames))
    return changed(
        frames,
        place,
        frames[place].with_octet(1, frames[place].control() ^ 1 + dice.below(7) << 5),
    )


def other_packet_number(dice, frames):
    """Another P(S) or P(R) in a packet, each time that its I frame goes."""
    packets = [frame for frame in frames if frame.has_pr()]
    if not packets:
        return frames
    frame = dice.one_of(packets)
    bits = 1 + dice.below(7) << dice.one_of((1, 5) if frame.is_data() else (5,))
    return [
        other.with_octet(4, other.octets[4] ^ bits)
        if other.octets[2:] == frame.octets[2:] and other.end == frame.end
        else other
        for other in frames
    ]


def once_more(dice, frames):
    """An I frame goes once more later, with the N(R) that its end sent last."""
    place = dice.one_of(infos(frames))
    later = place + 1 + dice.below(min(40, len(frames) - place))
    last = [
        frame
        for frame in frames[:later]
        if frame.end == frames[place].end and not frame.is_unnumbered()
    ][-1]
    again = frames[place].with_octet(1, frames[place].control() & 0x1F | last.control() & 0xE0)
    return frames[:later] + [again] + frames[later:]


def unacknowledged(dice, frames):
    """An end's N(R) stays where it is, from a frame on."""
    place = dice.one_of(numbered(frames))
    bits = frames[place].control() & 0xE0
    return frames[:place] + [
        other.with_octet(1, other.control() & 0x1F | bits)
        if other.end == frames[place].end and not other.is_unnumbered()
        else other
        for other in frames[place:]
    ]


def left_out(dice, frames):
    place = dice.one_of(infos(frames))
    return frames[:place] + frames[place + 1 :]


def changed(frames, place, frame):
    return frames[:place] + [frame] + frames[place + 1 :]


CHANGES = (
    other_octets, other_ns, other_nr, other_packet_number, once_more, unacknowledged, left_out
)


# ---- runs


def trace(program, seed):
    """The frames of a random run."""
    dice = losses.Dice(seed)
    channels = dice.one_of((1, 1, 2, 4))
    script = losses.Script(dice, channels, 0.2 * dice.fraction(), 0, 0.4 * dice.fraction())
    lines = list(script.lines(LINES))
    if dice.chance(0.5):
        lines = list(judge_runs.with_calls(dice, lines, channels))
    if dice.chance(0.2):
        lines = list(judge_runs.with_set_ups(dice, lines))
    words = ["sim", "--tap", "--k", str(dice.one_of((7, 7, 7, 2, 4))), "--channels", str(channels)]
    text = "".join(line + "\n" for line in lines)
    tap = subprocess.run([program, *words], input=text, stdout=subprocess.PIPE, text=True).stdout
    return [
        Frame(line[0], bytes.fromhex(line[2:])[:-2])
        for line in tap.splitlines()
        if line[:2] in ("> ", "< ")
    ]


def play(program, seed):
    """A run, and copies of it with one frame changed: how many they are, in how many a rule is
    broken, and what is wrong with what was told."""
    frames, dice = trace(program, seed), losses.Dice(seed)
    copies = [frames] + [
        dice.one_of(CHANGES)(dice, frames) for _ in range(COPIES if infos(frames) else 0)
    ]
    return rules_runs.compared(
        program, seed, [([frame.line() for frame in copy], None) for copy in copies]
    )


if __name__ == "__main__":
    sys.exit(rules_runs.main(play, __doc__, 3_600))
