"""Random lists of events at two stations, by `x25 sim`: what is handed up at one end was handed
down before at the other, in order, and once the line was good for a moment all of it has come."""

import collections
import re
import subprocess
import unittest

import support
from support import PROGRAM, ToolCase

from x25tools import losses

LISTS, EVENTS = support.runs(1000), 80
ENDS, OTHER = ("dte", "dce"), {"dte": "dce", "dce": "dte"}
ADDRESSES = ("-", "7", "0123456789", "999999999999999")
# How often each command comes, of 64; `with` has packet sizes and windows.
OFTEN = {
    "call": 8, "accept": 9, "clear": 2, "send": 19, "int": 6, "reset": 1, "ready": 2,
    "notready": 1, "call with": 6, "accept with": 7,
}
OFTEN |= {"restart": 1, "connect": 1, "disconnect": 1}
COMMANDS = [kind for kind, often in OFTEN.items() for _ in range(often)]
# After each event, a line that is none parts what it told from what the next one tells.
MARK, ANSWERED = "x", "? 60"
HANDED = re.compile(r"(dte|dce) (call|send|int|incoming|message|interrupt) ch=(\d+) at (\S+) (.*)")
DOWN_OF = {"incoming": "call", "message": "send", "interrupt": "int"}
# What ends the stretch of a channel at an end, so that data may be lost; and what ends those of
# all its channels.
ENDING = re.compile(
    r"(dte|dce) (?:(?:clear|cleared|reset|wasreset|collided) ch=(\d+)|(?:linkdown|restart|"
    r"restarted|fault)\b)"
)


def octets(dice, most):
    return "5a" * dice.below(most) or "-"


def params(dice):
    """Packet sizes and windows: the defaults, which may always be answered, or any that may be
    proposed."""
    if dice.chance(0.5):
        return " 7 7 2 2"
    return "".join(
        f" {number}"
        for number in (4 + dice.below(9), 4 + dice.below(9), 1 + dice.below(7), 1 + dice.below(7))
    )


def command(dice, channels):
    """A command of either end, and its kind."""
    kind, end, channel = dice.one_of(COMMANDS), dice.one_of(ENDS), 1 + dice.below(channels)
    word = kind.split()[0]
    rest = {
        "call": lambda: f" {dice.one_of(ADDRESSES)} {dice.one_of(ADDRESSES)} {octets(dice, 17)}",
        "send": lambda: f" {channel} {dice.below(2)} {octets(dice, 400)}",
        "int": lambda: f" {channel} {octets(dice, 33)}",
        "restart": str,
        "connect": str,
        "disconnect": str,
    }.get(word, lambda: f" {channel}")()
    return kind, f"{end} {word}{rest}{params(dice) if word != kind else ''}"


def event(dice, channels):
    """An event, and its kind."""
    drawn = dice.below(20)
    if drawn < 7:
        return command(dice, channels)
    if drawn < 16:
        return "deliver", f"deliver {dice.one_of('<>')}"
    if drawn == 16:
        return "lose", f"lose {dice.one_of('<>')} {dice.below(3)}"
    if drawn == 17:
        return "damage", f"damage {dice.one_of('<>')} {dice.below(3)} {octets(dice, 9)}"
    return "t1", f"t1 {dice.one_of(ENDS)}"


def played(seed):
    """The events of a list, each with its kind and the lines that it told; at the end all users
    are ready, and the line is good for a moment."""
    dice = losses.Dice(seed)
    k, n2, channels = 1 + dice.below(7), 1 + dice.below(20), 1 + dice.below(3)
    events = [event(dice, channels) for _ in range(EVENTS)]
    events += [
        ("ready", f"{end} ready {1 + channel}") for end in ENDS for channel in range(channels)
    ] + [("heal", "heal")]
    script = "".join(f"{line}\n{MARK}\n" for _, line in [("set-up", MARK), *events])
    words = ["sim", "--k", str(k), "--n2", str(n2), "--channels", str(channels)]
    done = subprocess.run(
        [PROGRAM, *words],
        input=script.encode(),
        stdout=subprocess.PIPE,
        stderr=subprocess.DEVNULL,
        timeout=60,
    )
    told = [part.splitlines() for part in done.stdout.decode().split(f"{ANSWERED}\n")]
    # The first is what set-up told, the second is between two marks, and the last is after all.
    return [(kind, lines) for (kind, _), lines in zip(events, told[2:-1], strict=True)]


def handed(lines):
    """What was handed down or up: the number of its line, whether it is up, the end that it is
    from, its kind and stretch, and what it is."""
    for number, match in enumerate(map(HANDED.match, lines)):
        if match:
            end, word, channel, name, content = match.groups()
            is_up = word in DOWN_OF
            place = OTHER[end] if is_up else end, DOWN_OF.get(word, word), channel, name
            yield number, is_up, place, re.sub(r" (?:size|win)=\S+", "", content)


def breaks(lines):
    """What was handed up in a stretch that wasn't handed down before as the same in number, in the
    same stretch at the other end."""
    down, up = collections.defaultdict(list), collections.Counter()
    for _, is_up, place, content in handed(lines):
        if not is_up:
            down[place].append(content)
            continue
        if down[place][up[place] : up[place] + 1] != [content]:
            yield place, content
        up[place] += 1


def open_stretches(lines):
    """Of the stretches that nothing has ended, by their places: how many messages and interrupts
    were handed down, and how many up."""
    ended = collections.defaultdict(
        lambda: -1,
        {match.groups(): number for number, match in enumerate(map(ENDING.match, lines)) if match},
    )
    counts = collections.defaultdict(lambda: [0, 0])
    for number, is_up, place, _ in handed(lines):
        giver, kind, channel, _ = place
        end = OTHER[giver] if is_up else giver
        if kind != "call" and number > max(ended[end, channel], ended[end, None]):
            counts[place][is_up] += 1
    return counts


@support.needs_program
class Order(ToolCase):
    def test_what_comes_is_what_was_sent(self):
        accepted, anew, came = collections.Counter(), 0, 0
        for seed in range(LISTS):
            told = []
            for kind, lines in played(seed):
                self.assertNotIn("! 70", lines)
                accepted[kind] += not any(line.startswith("! ") for line in lines)
                if any(line.endswith(" linkup") for line in lines):
                    # The names of stretches begin anew.
                    anew += 1
                    break
                told += lines
            else:
                for place, (down, up) in open_stretches(told).items():
                    self.assertEqual(down, up, f"seed {seed}, {place}")
                    came += up
            self.assertEqual(list(breaks(told)), [], f"seed {seed}")
        self.assertEqual(
            {kind for kind in accepted if accepted[kind]},
            {*OFTEN, "deliver", "lose", "damage", "t1", "heal"},
        )
        self.assertGreater(came, support.runs(200))
        # In a tenth of the lists, those of an unproved program, none need begin anew.
        self.assertTrue(anew or LISTS < 1000)

    def test_what_breaks_it_is_seen(self):
        sent = ["dte send ch=1 at 1.0.0 q=0 data=41", "dte send ch=1 at 1.0.0 q=1 data=42"]
        came = ["dce message ch=1 at 1.0.0 q=0 data=41", "dce message ch=1 at 1.0.0 q=1 data=42"]
        self.assertEqual(list(breaks(sent + came)), [])
        others = (
            ["dce message ch=1 at 1.0.1 q=0 data=41"],
            ["dte message ch=1 at 1.0.0 q=0 data=41"],
            ["dce message ch=1 at 1.0.0 q=0 data=-"],
        )
        for lines in (
            came + sent,
            sent + came[::-1],
            sent + [came[0]] * 2,
            *(sent + other for other in others),
        ):
            self.assertNotEqual(list(breaks(lines)), [], lines)
        self.assertEqual(open_stretches(sent + came[:1]), {("dte", "send", "1", "1.0.0"): [2, 1]})
        self.assertEqual(open_stretches(sent + ["dte reset ch=1"]), {})


if __name__ == "__main__":
    unittest.main()
