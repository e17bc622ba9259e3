"""Random traces of two ends that keep the rules of the packet layer and ask again before an answer
comes, judged beside an oracle.

    again_runs.py [--program PROGRAM] [--from SEED] [RUNS]

Both ends are the packet layer of ends.py on two channels, over a link that loses nothing. They
keep the rules of docs/PEER.md, but that they send RESTART, CLEAR and RESET again at any moment
while the answer is due, as timers T20, T22 and T23 have it, and take CLEAR and RESTART before they
answer what these end. Packets wait on their way as long as chance has it, so one that is sent
again often crosses the answer. Some links are set up by a SABM that goes again while its UA is on
the way, and then anew. No rule may be told, nor is one broken by rules.py. `make judge-runs` plays
10,000.

Exit status: 0; 1 where one was, with the seed of that run; 2 for bad words, or where there is no
program.
"""

import random
import sys

import ends
import rules_runs
import runs
from runs import CALL, OTHERS, P_OR_F, RESTART, RESTART_CONFIRMATION, RR, SABM, UA

CHANNELS = (1, 2)
STEPS = 120
ROW = {
    "lazy": (0.3, 0.5, 0.7),
    "lags": (1,),
    "restarts": (0.03,),
    "clears": (0.1,),
    "resets": (0.15,),
    "insists": (0.4,),
    "is_prompt": (False,),
    "kinds": ((4, 2, 2, 3),),
    "more": (0,),
    "window": (2,),
}
ASKED, CONFIRMED = (bytes([0x10, 0, kind]) for kind in (RESTART, RESTART_CONFIRMATION))
ASKED += bytes(2)


def line(mark, is_command, control, information=b""):
    return f"{mark} {runs.frame(mark, is_command, control, information).hex()}\n"


def information(mark, number, acknowledged, packet):
    return line(mark, True, acknowledged % 8 << 5 | number % 8 << 1, packet)


def set_up():
    return line(">", True, SABM | P_OR_F), line("<", False, UA | P_OR_F)


def asked_twice(is_confirmed):
    """SABM goes again, and the DCE restarts between its two UAs: the DTE confirms that, or its own
    RESTART crosses it, at the first UA."""
    sabm, ua = set_up()
    yield from (sabm, sabm, ua, information("<", 0, 0, ASKED), ua)
    if is_confirmed:
        yield information(">", 0, 1, CONFIRMED)
    else:
        yield information(">", 0, 1, ASKED)
        yield information(">", 1, 1, bytes([0x10, 1, CALL, 0, 0]))


def packets(dice):
    """The packets that both ends send, each with the mark of its end."""
    sent = [(">", ASKED), ("<", CONFIRMED)]

    def puts(mark):
        def put(packet):
            sent.append((mark, packet))
            layers[OTHERS[mark]].take(packet)

        return put

    choices = ends.drawn(dice, ROW)
    layers = {it: ends.Layer(dice, choices, puts(it), CHANNELS, it == "<") for it in "><"}
    for _ in range(STEPS):
        layers[dice.choice("<>")].turn()
    return sent


def trace(seed):
    """The lines of a run: SABM and UA, and each packet in an I frame that is acknowledged."""
    dice, counts = random.Random(seed), {">": 0, "<": 0}
    if dice.random() < 0.3:
        yield from asked_twice(dice.random() < 0.5)
    yield from set_up()
    for mark, packet in packets(dice):
        other = OTHERS[mark]
        yield information(mark, counts[mark], counts[other], packet)
        counts[mark] += 1
        yield line(other, False, counts[mark] % 8 << 5 | RR)


def play(program, seed):
    """What comes of a run; manners are none either, and both ends keep the rules."""
    lines = list(trace(seed))
    played = rules_runs.compared(program, seed, [(lines, None)])
    told = [text for text in rules_runs.judged(program, lines) if runs.TOLD.search(text)]
    told += ["a rule is broken"] * played.broken
    return played._replace(wrong=played.wrong + [f"seed {seed}: {text}" for text in told])


if __name__ == "__main__":
    sys.exit(rules_runs.main(play, __doc__, 10_000))
