"""Random runs of two stations, judged: nothing may be told of them.

    judge_runs.py [--program PROGRAM] [--from SEED] [RUNS]

Each run is a script of losses.py with its own losses, damage, early firings of T1, window and N2,
some of them from both links down and with set-ups anew in their midst, some with little but
set-ups whose frames wait on their way, and most with more calls, resets and restarts and with
packet sizes and windows; what `sim --tap` puts on the line goes through `judge`, whole, and again
from a frame in its midst on. `make judge-runs` plays 10,000. A note tells of nothing broken.

Exit status: 0; 1 where a rule was told, with the seed of that run; 2 for bad words, or where there
is no program.
"""

import subprocess
import sys

import runs

from x25tools import losses  # where runs finds it

LINES = 150
MOST_LOSS, MOST_DAMAGE, MOST_T1 = 0.2, 0.1, 0.4


def with_set_ups(dice, lines):
    """Some of the lines, and between them asks that the link be set up, large messages, and
    firings until N2 is reached."""
    for line in lines:
        if dice.chance(0.04):
            yield f"{dice.one_of(losses.ENDS)} {'disconnect' if dice.chance(0.02) else 'connect'}"
        if dice.chance(0.02):
            yield f"{dice.one_of(losses.ENDS)} send 1 0 {'aa' * 1024}"
        if dice.chance(0.005):
            yield from [f"t1 {dice.one_of(losses.ENDS)}"] * 12
        yield line


def with_calls(dice, lines, channels):
    """Some of the lines, and between them calls with packet sizes and windows of their own, and
    what collides with them."""
    for line in lines:
        if dice.chance(0.08):
            end, channel = dice.one_of(losses.ENDS), 1 + dice.below(channels)
            yield dice.one_of(
                (
                    f"{end} call 1 2 - {sizes(dice)}",
                    f"{end} accept {channel} {sizes(dice)}",
                    f"{end} accept {channel}",
                    f"{end} clear {channel}",
                    f"{end} reset {channel}",
                    f"{end} int {channel} 01",
                    f"{end} restart",
                    f"{end} send {channel} 0 {'bb' * 300}",
                )
            )
            if dice.chance(0.3):
                yield from [f"deliver {dice.one_of(losses.DIRECTIONS)}"] * dice.below(3)
        yield line


def slow_set_ups(dice, count):
    """From both links down: set-ups, firings of T1, RESTARTs and calls, while frames wait on their
    way."""
    yield f"{dice.one_of(losses.ENDS)} connect"
    direction, most = dice.one_of(losses.DIRECTIONS), dice.one_of((0.5, 0.7, 0.9))
    for _ in range(count):
        end = dice.one_of(losses.ENDS)
        if dice.chance(0.1):
            direction = dice.one_of(losses.DIRECTIONS)
        if dice.chance(most):
            yield f"deliver {direction if dice.chance(0.7) else dice.one_of(losses.DIRECTIONS)}"
        else:
            yield dice.one_of((
                f"t1 {end}", f"t1 {end}", f"{end} connect", f"{end} call 1 2 -", f"{end} accept 1",
                f"{end} restart",
            ))


def sizes(dice):
    """Packet sizes and windows of a call or of its acceptance."""
    return f"{4 + dice.below(5)} {4 + dice.below(5)} {1 + dice.below(7)} {1 + dice.below(7)}"


def run(seed):
    """The words of `sim`, the words of `judge` and the script of a run."""
    dice = losses.Dice(seed)
    channels = dice.one_of((1, 1, 2, 4))
    most = dice.one_of((0.1, 0.25, 0.5, 1))
    script = losses.Script(
        dice,
        channels,
        MOST_LOSS * most * dice.fraction(),
        MOST_DAMAGE * most * dice.fraction(),
        MOST_T1 * most * dice.fraction(),
    )
    lines = list(
        with_set_ups(dice, script.lines(LINES)) if dice.chance(0.5) else script.lines(LINES)
    )
    if dice.chance(0.7):
        lines = list(with_calls(dice, lines, channels))
    window = str(dice.one_of((7, 7, 7, 1, 2, 3, 4, 5, 6)))
    words = [
        "--tap",
        "--k",
        window,
        "--n2",
        str(dice.one_of((1, 2, 3, 10))),
        "--channels",
        str(channels),
    ]
    if dice.chance(0.3):
        lines = [
            f"{dice.one_of(losses.ENDS)} connect", f"{dice.one_of(losses.ENDS)} connect", *lines
        ]
        words.append("--down")
    elif dice.chance(0.15):
        lines = slow_set_ups(dice, LINES)
        words.append("--down")
    return words, ["--k", window], "".join(line + "\n" for line in lines)


def frames_of(program, words, script):
    """The lines of the frames that both stations put on the line."""
    tap = subprocess.run(
        [program, "sim", *words], input=script, stdout=subprocess.PIPE, text=True
    ).stdout
    return [line for line in tap.splitlines(True) if line[:2] in ("> ", "< ")]


def judged(program, words, frames):
    """The lines of a trace that tell of a rule, and how many frames it has."""
    done = subprocess.run(
        [program, "judge", "--at", "line", *words],
        input="".join(frames),
        stdout=subprocess.PIPE,
        text=True,
    )
    lines = done.stdout.splitlines()
    at_fault = [line for line in lines if runs.TOLD.search(line) or line == "? 60"]
    nothing_judged = bool(lines) and lines[-1].startswith("# nothing was judged")
    if done.returncode != nothing_judged and not at_fault:
        at_fault = [f"judge ended with status {done.returncode}"]
    return at_fault, len(lines)


def told(program, seed):
    """The lines that tell of a rule, of a run as a whole and from a frame in its midst on, and how
    many frames the whole run has."""
    words, judge_words, script = run(seed)
    frames = frames_of(program, words, script)
    at_fault, count = judged(program, judge_words, frames)
    midst = losses.Dice(seed).below(len(frames) + 1)
    return (
        at_fault + [
            f"from frame {midst} on: {line}"
            for line in judged(program, judge_words, frames[midst:])[0]
        ],
        count,
    )


def main():
    options = runs.options_of(runs.words(__doc__, 10_000))
    return runs.tell(options, lambda seed: told(options.program, seed))


if __name__ == "__main__":
    sys.exit(main())
