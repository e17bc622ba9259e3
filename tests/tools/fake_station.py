"""Stands in for the program's `station` in the tests of bridge.py: answers written by hand.

    fake_station.py FILE station END ..

FILE has the answers: lines as the station writes them, and before each answer a line `= EVENT`,
what it has to be asked. Anything else that it is asked is told on standard error and answered by
`? 60`. What was asked goes to FILE.asked, with the time that was said; a carriage return stands
there, and in an EVENT, as \\r.

The marks are written as those of a station without a clock: by `start` T1 begins anew, whose time
--t1 has. `+MS` says that something is due so much later, in place of what T1 does. Where that time
is said, the next EVENT happens, as `t1 dte`.
"""

import re
import sys

MARK = re.compile(r"^\. (on|off|start|\+\d+) (\S+)$", re.MULTILINE)


class Clock:
    """The time that was said last, when something is due, and what there is to do."""

    def __init__(self, t1):
        self._t1, self.now, self._due, self._work = t1, 0, None, "busy"

    def passes(self, now):
        """Takes the time; answers whether something is due."""
        self.now = now
        is_due = self._due is not None and now >= self._due
        self._due = None if is_due else self._due
        return is_due

    def marked(self, answer):
        """The answer with the mark that a clock gives it."""
        return MARK.sub(self._mark, answer)

    def mark(self):
        return f". {'-' if self._due is None else self._due} {self._work}"

    def _mark(self, found):
        does, self._work = found.groups()
        if does != "on":
            self._due = (
                None if does == "off" else self.now + (self._t1 if does == "start" else int(does))
            )
        return self.mark()


def main():
    file, word = sys.argv[1:3]
    if word != "station":
        sys.exit(2)
    clock = Clock(int(sys.argv[sys.argv.index("--t1") + 1]))
    with open(file) as answers, open(file + ".asked", "w", buffering=1) as asked:
        first, *turns = ("\n" + answers.read()).split("\n= ")
        print(clock.marked(first.strip("\n")), flush=True)
        for line in open(0, newline="\n"):
            event = line.rstrip("\n").replace("\r", "\\r")
            is_due = event.startswith("@ ") and clock.passes(int(event[2:]))
            if event.startswith("@ ") and not is_due:
                print(clock.mark(), flush=True)
                continue
            wanted, _, answer = turns.pop(0).partition("\n") if turns else ("nothing", "", "")
            event = wanted if is_due else event
            if is_due and wanted.startswith("t1 "):
                answer = f"{wanted[3:]} timeout T1\n{answer}"
            asked.write(f"{clock.now / 1000} {event}\n")
            if event != wanted:
                print(f"asked {event!r} for {wanted!r}", file=sys.stderr)
                answer = "? 60\n. off busy"
            print(clock.marked(answer.strip("\n")), flush=True)


main()
