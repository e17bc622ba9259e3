"""Random runs of two stations, captured at one end or with frames left out, judged as captures
are: nothing certain may be told of them.

    tap_runs.py [--program PROGRAM] [--from SEED] [RUNS]

Each run is one of judge_runs.py with more losses. A capture at an end has what that end puts on
the line, as it puts it, and of the other end's frames those that come, as they come: what the line
loses before is missing. It is judged with `--at` that end. From the whole trace frames are left
out, in stretches, each of which leaves a gap that the judge is told of, and some of those that
remain can't be read.

Exit status: 0; 1 where a rule was told without doubt, with the seed of that run; 2 for bad words,
or where there is no program.
"""

import sys

import runs

import judge_runs
from x25tools import judging, losses, pcap2x25, simruns, x25lines  # where runs finds it
from x25tools.drawing import DAMAGED

LOST = 0.15


class Tapped(simruns.Line):
    """A line between the stations, with what passes in front of each."""

    def __init__(self):
        super().__init__()
        self.tapes = {direction: [] for direction in simruns.DIRECTIONS}

    def put(self, made):
        """Takes lines of the run: each frame passes in front of its sender."""
        for text in made:
            if text[:1] in self.tapes:
                self.tapes[text[0]].append(text)
        super().put(made)

    def deliver(self, direction):
        """Takes the first frame off the line, where there is one: it passes in front of the end
        that it comes to."""
        if self._waiting[direction]:
            place = self._waiting[direction][0]
            is_damaged = self._fates.get(place) == DAMAGED
            self.tapes[pcap2x25.OTHER[direction]].append(
                f"{direction} " if is_damaged else self.lines[place]
            )
        super().deliver(direction)


def captured(program, words, script):
    """What was captured in front of the end whose frames have each direction."""
    line = Tapped()
    simruns.follow(
        line, simruns.steps(program, script.encode(), [word for word in words if word != "--tap"])
    )
    return line.tapes


def with_gaps(dice, frames):
    """Most of some frames, with a gap where others are left out, and some that can't be read."""
    left = 0
    for frame in frames:
        if left == 0 and dice.chance(0.03):
            left = 1 + dice.below(12)
            yield f"{frame[0]} {x25lines.GAP}"
        if left:
            left -= 1
        else:
            yield f"{frame[0]} " if dice.chance(0.02) else frame


def told(program, lines, words, at, is_made_up=False):
    """The lines of which a rule is told without doubt."""
    connection = pcap2x25.Connection(1, "LAPB", is_made_up)
    with judging.Judge(program, words, [], at) as judge:
        texts = judge.texts("".join(f"{line}\n" for line in lines), [connection] * len(lines))
    return [text for text in texts if text and judging.RULE in text]


def play(program, seed):
    """The lines that tell a rule, of a run as it is captured at each end and with gaps, and how
    many frames there are."""
    words, judge_words, script = judge_runs.run(seed)
    dice = losses.Dice(seed)
    script = "".join(
        f"{line}\n" + (f"lose {dice.one_of('><')} 0\n" if dice.chance(LOST) else "")
        for line in script.splitlines()
    )
    tapes = captured(program, words, script)
    at_fault = []
    for at, direction in judging.ENDS.items():
        at_fault += [
            f"at {at}: {text}" for text in told(program, tapes[direction], judge_words, at)
        ]
    whole = [frame.rstrip("\n") for frame in judge_runs.frames_of(program, words, script)]
    at_fault += [
        f"with gaps: {text}"
        for text in told(program, list(with_gaps(dice, whole)), judge_words, "line")
    ]
    return at_fault, sum(map(len, tapes.values())) + len(whole)


def main():
    options = runs.options_of(runs.words(__doc__, 1_000))
    return runs.tell(options, lambda seed: play(options.program, seed))


if __name__ == "__main__":
    sys.exit(main())
