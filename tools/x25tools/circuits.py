"""What the entries of a station tell of its link and its circuits, and by that what can't be told
any more."""

from __future__ import annotations

import re
from collections import Counter

CHANNEL = re.compile(r" ch=(\d+)")
# The channel that a text names, or the first digits of it, where no blank comes after these.
NAMED = re.compile(r"ch=([1-9]\d*)(?:$|( ))")
MOST_DIGITS = 4
PROPOSED = re.compile(r" size=(\d+),(\d+) ")
EVENT = re.compile(r"(d[tc]e) ([a-z]+)(?: |$)")
# The state of a circuit after an event; after a fault the station clears or resets it.
BECOMES = {
    "call": "calling", "incoming": "called", "accept": "open", "connected": "open",
    "clear": "clearing", "reset": "resetting",
}
BECOMES |= {"resetdone": "open", "wasreset": "open", "fault": "fault"}
ENDS = ("cleared", "cleardone", "collided")
OPEN = ("open", "resetting", "fault")
# In which states of a circuit an event may come next, or after what the other end does first; and
# what is said where none is in such a one.
COMES_IN = {
    "connected": (("calling",), "no call waits for an answer"),
    "cleardone": (("clearing", "fault"), "nothing is being cleared"),
    "resetdone": (("resetting", "fault"), "nothing is being reset"),
    **dict.fromkeys(
        ("message", "interrupt", "intdone", "confirmed", "wasreset"),
        (("calling", *OPEN), "no call is up"),
    ),
}
# The events of all notices.
EVENTS = frozenset(
    "accept beside call clear cleardone cleared collided confirmed connect connected diagnostic"
    " disconnect disconnected fault incoming int intdone interrupt linkdown linkup message "
    "notready ready"
    " relink reset resetdone restart restartdone restarted send timeout wasreset".split()
)
# What comes of the link that this end sets up.
OF_THE_LINK = ("linkup", "restarted", "incoming")


class Circuits:
    """The states of the circuits by their channels, those of which the user isn't ready, what
    calls propose, and whether the link is up."""

    def __init__(self) -> None:
        self._states: dict[int, str] = {}
        # How many circuits are in each state.
        self._counts: Counter[str] = Counter()
        self.not_ready: set[int] = set()
        self.proposed: dict[int, int] = {}
        self.is_up = False
        # Whether this end asked for the link, whether that came to nothing, and whether it ended
        # it; whether it has restarted.
        self._connects = self._has_failed = self._has_ended = self._restarts = False

    def heed(self, notice: str) -> tuple[str, int | None]:
        """Takes an entry; answers its event and its channel, or None."""
        event = notice.split(" ")[1]
        found = CHANNEL.search(notice)
        channel = int(found[1]) if found else None
        if (event, channel) == ("fault", 0):
            # A confirmation that wasn't awaited is answered by a restart.
            self._heed_the_link("restart")
        elif channel is not None:
            self._heed_a_circuit(event, channel, notice)
        elif event in ("connect", "disconnect", "relink") or event.startswith(("restart", "link")):
            self._heed_the_link(event)
        return event, channel

    def _heed_a_circuit(self, event: str, channel: int, notice: str) -> None:
        """Takes an entry on a circuit."""
        if event in BECOMES or event in ENDS:
            self._become(channel, BECOMES.get(event))
        if event == "incoming":
            said = PROPOSED.search(notice)
            self.proposed[channel] = max(int(said[1]), int(said[2])) if said else 0
        elif event in ("ready", "notready"):
            (self.not_ready.add if event == "notready" else self.not_ready.discard)(channel)
        elif event in ("clear", "cleared", "cleardone", "reset", "wasreset", "resetdone"):
            # Both ends are ready after a reset.
            self.not_ready.discard(channel)

    def _become(self, channel: int, state: str | None) -> None:
        """A circuit is in a state, or there is none any more."""
        was = self._states.pop(channel, None)
        if was is not None:
            self._counts[was] -= 1
        if state is not None:
            self._states[channel] = state
            self._counts[state] += 1

    def _heed_the_link(self, event: str) -> None:
        """Takes an entry on the link, or on all circuits."""
        if event in ("connect", "relink"):
            self._connects, self._has_failed, self._has_ended = True, False, False
            return
        if event == "disconnect":
            self._connects, self._has_ended = False, True
            return
        self._states.clear()
        self._counts.clear()
        self.not_ready.clear()
        self._restarts = event == "restart"
        if event == "linkdown":
            self.is_up, self._has_failed, self._connects = False, self._connects, False
        elif event == "linkup":
            self.is_up, self._has_failed, self._has_ended = True, False, False
        else:
            self._connects = False

    def said(self) -> list[str]:
        """What is known of the link and of each circuit, a line each."""
        if self.is_up:
            link = "the link is up" + (", and a restart is under way" if self._restarts else "")
        elif self._has_ended:
            link = "the link was ended here"
        else:
            link = "the link is being set up" if self._connects else "the link is down"
        held = {channel: ", not ready" for channel in self.not_ready}
        states = sorted(self._states.items())
        return [link, *(f"channel {it}: {state}{held.get(it, '')}" for it, state in states)]

    def cannot_come(self, text: str) -> str:
        """Why no notice that begins with a text can come any more, while this end asks for
        nothing; nothing where one can."""
        found = EVENT.match(text)
        if not found:
            return ""
        end, event = found.groups()
        if self._has_ended:
            return "the link was ended here"
        states, why = COMES_IN.get(event, ((), ""))
        if why and not self._is_one_in(states, text[found.end() :]):
            return why if self.is_up else "the link isn't up"
        if event == "restartdone" and not self._restarts:
            return "no restart is under way"
        return "the link didn't come up" if event in OF_THE_LINK and self._has_failed else ""

    def _is_one_in(self, states: tuple[str, ...], rest: str) -> bool:
        """Whether a circuit is in one of these states, and a notice of it may begin so after its
        event."""
        if "ch=".startswith(rest):
            return any(self._counts[state] for state in states)
        found = NAMED.match(rest)
        if not found:
            return False
        first, steps = int(found[1]), [10**more for more in range(1 if found[2] else MOST_DIGITS)]
        numbers = (it for step in steps for it in range(first * step, (first + 1) * step))
        return any(self._states.get(it) in states for it in numbers)


def never_comes(text: str, end: str) -> str:
    """Why no notice of an end begins with a text, whatever happens; nothing where one may."""
    if any(sign.startswith(text) or text.startswith(sign) for sign in ("# ", "! ", "? 60")):
        return ""
    word, has_more, rest = text.partition(" ")
    if not has_more and end.startswith(word):
        return ""
    if word != end:
        return f"notices of this end begin with `{end} `"
    event, is_whole, _ = rest.partition(" ")
    if event in EVENTS or not is_whole and any(it.startswith(event) for it in EVENTS):
        return ""
    return f"no notice tells of {event!r}"
