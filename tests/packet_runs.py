"""Random runs of one station and a peer whose packet layer keeps the rules of docs/PEER.md, and is
odd in all that these leave free.

    packet_runs.py [--program PROGRAM] [--from SEED] [RUNS]

The station is `x25 station dte` with two channels; the peer is the DCE, as ends.py has it. Half of
the links are odd too, as `peer_runs.py` has them. The packet layer takes packets late and channel
by channel, acknowledges and confirms late or never, says RR and RNR at will, sends data though RNR
came, calls, answers, clears, resets and restarts at any moment, with any cause. So does the
station's user. Under each name of a stretch, what the station's transcript says that it handed up
has to be a beginning of what the peer's packets carried, and what the peer took one of what the
transcript says that was asked, after each step: messages, interrupts and calls. The station may
neither tell nor send an error of procedure. At the end all that is on the way is taken and
confirmed; then what is open has to have come.

Exit status: 0; 1 where a run fails, with its seed; 2 for bad words, or where there is no program.
"""

import sys
from functools import partial

import peer_runs

MORE = {"int {} {octets}": 3, "ready {}": 1, "notready {}": 1}
# What the user asks for more or less often: these shares of it.
WILD = {"reset {}": 1, "clear {}": 1, "restart": 1 / 3}


class PacketRun(peer_runs.Run):
    """A run of an odd packet layer, over a link that is plain or odd."""

    ROW = {
        **peer_runs.Run.ROW,
        "again": (0.2, 0.5),
        "talks": (0.8,),
        "lazy": (0.1, 0.5),
        "speaks": (0.4, 0.8),
        "lags": (0, 0.5, 1),
        "restarts": (0.00025, 0.001, 0.005),
        "clears": (0.001, 0.004, 0.02),
        "resets": (0.005, 0.02, 0.1),
        "kinds": ((2, 1, 1, 1),),
    }
    FIRES, PLAIN = (0, 0.01, 0.05), 0.5
    # A user who isn't ready takes nothing.
    ALL_ARRIVES = False

    def wants(self):
        wild = self.dice.choice((0.02, 0.1, 0.5))
        return peer_runs.USER | MORE | {words: share * wild for words, share in WILD.items()}


play = partial(peer_runs.play, kind=PacketRun)

if __name__ == "__main__":
    held = "order was kept under each name, and no error of procedure was found"
    sys.exit(peer_runs.main(held, __doc__, play))
