#!/usr/bin/env python3
"""Stands in for the program in the tests of chart.py: answers written by hand, for one short
script and its frames.

The run: the DTE's RESTART is damaged on the line and so not taken; T1 fires, the DTE polls, learns
that it is missing, and sends it again; that one's acknowledgement is lost. As `x25 sim --tap
--events` does, each event is answered by its entries and its frames, and then by itself.
"""

import sys

SET_UP = [
    "> 013febdf", "dce linkup", "< 01738357", "< 03001000fb0700c478", ". deliver >", "dte linkup",
    "> 01001000fb00007702", ". deliver <",
]
POLL, FINAL, ACKNOWLEDGED = "> 01119717", "< 01119717", "> 0321a415"
AGAIN, LAST = "> 01201000fb00001787", "< 01211426"

# The lines of the script in order, and what answers them: what each event made, and the event.
LINES = [
    ("damage > 0 013febdf", ["! 52", ". damage > 0"]),
    ("damage > 1 00", ["! 51", ". damage > 1"]),
    ("damage > 0 00", [". damage > 0"]),
    ("deliver >", [". deliver >"]),
    ("deliver >", ["! 50", ". deliver >"]),
    ("t1 dte", [POLL, ". t1 dte"]),
    (
        "drain 5",
        [
            FINAL, ". deliver >", "dte restarted cause=7 diag=0", ACKNOWLEDGED, ". deliver <",
            ". deliver >", AGAIN, ". deliver <",
        ]
        + ["dce restarted cause=0 diag=0", LAST, ". deliver >"],
    ),
    ("lose < 0", [". lose < 0"]),
    (
        "dte call 1 2 -",
        [
            "dte call ch=1 at 1.0.0 called=1 calling=2 data=-",
            "> 012210010b1112007da6",
            ". dte asks",
        ],
    ),
]
NO_EVENTS = ("drain 0", "deliver", " # comment")
TEXTS = {
    "> 013febdf": "> SABM cmd P=1",
    "< 01738357": "< UA rsp F=1",
    "< 03001000fb0700c478": "< I cmd P=0 S=0 R=0 | RESTART cause=7 diag=0",
    "> 01001000fb00007702": "> I cmd P=0 S=0 R=0 | RESTART cause=0 diag=0",
    POLL: "> RR cmd P=1 R=0",
    FINAL: "< RR rsp F=1 R=0",
    ACKNOWLEDGED: "> RR rsp F=0 R=1",
    AGAIN: "> I cmd P=0 S=0 R=1 | RESTART cause=0 diag=0",
    LAST: "< RR rsp F=0 R=1",
    "> 012210010b1112007da6": "> I cmd P=0 S=1 R=1 | CALL ch=1 called=1 calling=2 fac=- data=-",
}


def sim(lines):
    """Answers the lines of the script, each as the list above has it."""
    answer = list(SET_UP)
    for number, (line, (known, made)) in enumerate(zip(lines, LINES), 1):
        if line in NO_EVENTS:
            print(f"line {number}: no such event '{line}'", file=sys.stderr)
            return answer
        if known != line:
            print(f"the script is another one: {line!r} for {known!r}", file=sys.stderr)
            sys.exit(2)
        answer += made
    return answer


def main():
    if sys.argv[1:] == ["decode", "--wide"]:
        sys.stdin.reconfigure(encoding="latin-1")
        for line in sys.stdin:
            print(TEXTS.get(line.rstrip("\n"), "? 60"), flush=True)
        return
    lines = sys.stdin.read().splitlines()
    if sys.argv[1:5] == ["sim", "--loose", "--tap", "--events"]:
        answer = sim(lines)
    else:
        sys.exit(2)
    print("\n".join(answer))


main()
