"""Makes a page of a capture or a trace for a browser: what was judged, calls, plots, a timeline.

    x25report.py CAPTURE > report.html
    x25 sim --tap < script | x25report.py > report.html

Reads what x25dump.py reads, and judges it as `x25dump.py --judge` does. The page stands alone: it
asks no network, and needs no other file. It has the two ends and what was judged in a sentence;
what is told, with the text of docs/JUDGE.md; one row a call, with addresses, times, octets each
way, and how it ended and by whom; frames that went again, RNR and round-trip times as plots; and a
timeline of all frames, with verdicts in place. That is folded where there are many, and shows one
channel, one end or what is told alone where that is chosen there.

Round-trip times are those from a frame, or of XOT and LLC a data packet, to its acknowledgement,
as the capture saw them. Octets are those that an end's link took, each once. A page holds 200,000
frames; a longer capture is to be cut, or one --connection of it to be taken.

Exit status: that of `x25dump.py --judge`; so 1 where a rule was broken or something was left out.
"""

from __future__ import annotations

import argparse
import json
import os
import re
import sys
import zlib
from collections import Counter
from html import escape
from typing import Dict, Iterable, Iterator, List, NamedTuple, Optional, Tuple

from x25tools import decoding, fields, judging, messages, page, pcap2x25, x25dump
from x25tools import x25lines, x25names
from x25tools.pcap2x25 import Connection
from x25tools.x25lines import ENDS, OTHER, BadInput

MOST_FRAMES = 200_000
# Where docs/JUDGE.md stands, in the repository and where the scripts are installed.
PAGES = ("../docs/JUDGE.md", "../../share/doc/x25/JUDGE.md")
RULE_OF = re.compile(r"^(.*?) \(")
ENDED = re.compile(r"(CLEAR|RESTART)\b(?: ch=(\d+))?")
NUMBERS = 8
# A plot has so many columns, and at most so many points.
COLUMNS, POINTS = 120, 4_000


class Row(NamedTuple):
    """A thing of the timeline: its time as it is given and in seconds, its connection, direction
    (or nothing), channel, text, words, and what is told."""

    time: str
    at: Optional[float]
    connection: Connection
    direction: str
    channel: Optional[int]
    text: str
    words: str
    verdict: Optional[fields.Verdict]


class Call(NamedTuple):
    """A call: its connection, channel and addresses, who called, when it was asked, accepted and
    ended, and how."""

    connection: int
    channel: int
    called: str
    calling: str
    by: str
    asked: str
    accepted: str
    ended: str
    how: str
    octets: Dict[str, int]


class Calls(messages.Messages):
    """The calls of a connection, out of the packets that its links took."""

    def __init__(self, connection: Connection) -> None:
        super().__init__(is_made_up=connection.is_made_up)
        self._number = connection.number
        self._open: Dict[int, Call] = {}
        self.ended: List[Call] = []
        # The last packets of an end that cleared, by channel: who, and what it said.
        self._clears: Dict[int, Tuple[str, str]] = {}

    def _packet(self, direction: str, packet: Optional[str]) -> None:
        if packet is None:
            return
        found = fields.fields_of(packet.removesuffix(fields.WIDE))
        kind, channel = str(found["kind"]), int(found.get("ch", 0))
        call = self._open.get(channel)
        if kind == "CALL":
            self._begin(direction, channel, found)
        elif kind in ("RESTART", "RESTARTCONF"):
            self._restart(direction, kind, packet)
        elif call is None:
            return
        elif kind == "ACCEPT" and not call.accepted and direction != call.by:
            self._open[channel] = call._replace(accepted=self._time)
        elif kind in ("DATA", "INT"):
            call.octets[direction] += len(str(found.get("data", ""))) // 2
        elif kind == "CLEAR":
            self._clears.setdefault(channel, (direction, packet))
            who = ENDS[self._clears[channel][0]].upper()
            said = x25names.words(f"{direction} {packet}") or "no reason given"
            was = "cleared" if call.accepted else "refused" if direction != call.by else "given up"
            self._open[channel] = call._replace(
                ended=self._time, how=call.how or f"{was} by the {who}: {said}"
            )
        elif kind == "CLEARCONF":
            self._close(channel)

    def _begin(self, direction: str, channel: int, found: fields.Fields) -> None:
        if channel in self._open and self._open[channel].how:
            self._close(channel)
        elif channel in self._open and not self._open[channel].accepted:
            # Both ends called: the DTE's call goes on.
            self._open[channel] = self._open[channel]._replace(by=">")
            return
        self._open[channel] = Call(
            self._number, channel, str(found.get("called", "")), str(found.get("calling", "")),
            direction, self._time, "", "", "", dict.fromkeys(OTHER, 0),
        )

    def _restart(self, direction: str, kind: str, packet: str) -> None:
        if kind == "RESTART":
            said = x25names.words(f"{direction} {packet}")
            how = f"ended by a restart of the {ENDS[direction].upper()}: {said}"
            for channel in list(self._open):
                call = self._open[channel]
                self._open[channel] = call._replace(how=call.how or how, ended=self._time)
                self._close(channel)

    def _close(self, channel: int) -> None:
        self._clears.pop(channel, None)
        self.ended.append(self._open.pop(channel))

    def all(self) -> List[Call]:
        """Those that have ended, and those that are there at the end."""
        left = "the capture ends while the call is up", "the call isn't answered"
        there = [it._replace(how=it.how or left[not it.accepted]) for it in self._open.values()]
        return sorted([*self.ended, *there], key=lambda it: it.asked)


class Trips:
    """Numbered frames, or data packets, of one way that wait for their acknowledgement: round-trip
    times, and which went again."""

    def __init__(self) -> None:
        self._due: Optional[int] = None
        self._sent: Dict[int, Tuple[float, bool]] = {}

    def begin(self) -> None:
        """Numbers begin anew."""
        self._due, self._sent = 0, {}

    def send(self, number: int, at: float) -> bool:
        """Takes a number; answers whether it goes again."""
        is_again = self._due is not None and (self._due - number - 1) % NUMBERS < NUMBERS - 1
        is_again = is_again and number in self._sent
        # Of what went twice it isn't known which one is acknowledged.
        self._sent[number] = at, is_again
        if not is_again:
            self._due = (number + 1) % NUMBERS
        return is_again

    def acknowledge(self, number: int, at: float) -> Optional[float]:
        """Takes N(R) or P(R); answers how long the last one that it acknowledges has waited."""
        last = (number - 1) % NUMBERS
        if last not in self._sent:
            return None
        waited, is_again = at - self._sent[last][0], self._sent[last][1]
        while last in self._sent:
            del self._sent[last]
            last = (last - 1) % NUMBERS
        return None if is_again or waited < 0 else waited


class Numbers:
    """What is plotted: by their times round trips, what went again, and RNR."""

    def __init__(self) -> None:
        self.trips: List[Tuple[float, float]] = []
        self.again: List[float] = []
        self.busy: List[float] = []
        self._ways: Dict[Tuple[int, str, int], Trips] = {}

    def take(self, row: Row, frame: fields.Frame) -> None:
        """Takes a frame with a time."""
        if row.at is None:
            return
        shown = frame.frame or frame.packet or {}
        if shown.get("kind") in ("SABM", "UA"):
            for key in [key for key in self._ways if key[0] == row.connection.number]:
                self._ways[key].begin()
        if "RNR" in (shown.get("kind"), (frame.packet or {}).get("kind")):
            self.busy.append(row.at)
        channel = 0 if frame.frame else row.channel or 0
        if shown.get("kind") in ("CALL", "ACCEPT", "RESET", "RESETCONF"):
            for direction in OTHER:
                self._way(row, direction, channel).begin()
        if isinstance(sent := shown.get("S"), int) and shown["kind"] in ("I", "DATA"):
            if self._way(row, row.direction, channel).send(sent, row.at):
                self.again.append(row.at)
        if isinstance(heard := shown.get("R"), int):
            waited = self._way(row, OTHER[row.direction], channel).acknowledge(heard, row.at)
            if waited is not None:
                self.trips.append((row.at, waited))

    def _way(self, row: Row, direction: str, channel: int) -> Trips:
        return self._ways.setdefault((row.connection.number, direction, channel), Trips())


def key_of(verdict: fields.Verdict) -> Tuple[str, bool, str, str]:
    """What is told: whether it is a rule or manners, in doubt, of which end, and the rule."""
    rule = found[1] if (found := RULE_OF.match(verdict.text)) else verdict.text
    return verdict.kind, verdict.is_in_doubt, verdict.end or "", rule


class Report:
    """All that the page shows."""

    def __init__(self) -> None:
        self.rows: List[Row] = []
        self.connections: Dict[Connection, Counter[str]] = {}
        self._calls: Dict[Connection, Calls] = {}
        self.numbers = Numbers()
        self.told: Dict[Tuple[str, bool, str, str], List[int]] = {}

    def take(self, time: str, connection: Connection, text: str) -> None:
        """Takes a thing of x25dump.py."""
        if len(self.rows) == MOST_FRAMES:
            raise BadInput(f"a page holds {MOST_FRAMES:,} frames: cut the capture, or take one")
        if connection not in self.connections:
            self.connections[connection] = Counter()
            self._calls[connection] = Calls(connection)
        if x25lines.is_gap(text) or text[:1] not in OTHER:
            self._add_other(time, connection, text)
            return
        frame = fields.read(text, connection.is_made_up)
        nanoseconds = x25lines.nanoseconds(time)
        at = None if nanoseconds is None else nanoseconds / x25lines.NANOSECONDS
        channel = x25dump.channel_of(text)
        shown = clock(time)
        row = Row(
            shown, at, connection, text[0], channel, frame.text, frame.words, frame.verdict
        )
        self.connections[connection][text[0]] += 1
        self._calls[connection].take([(shown, text)])
        self.numbers.take(row, frame)
        if frame.verdict and frame.verdict.kind != "note":
            self.told.setdefault(key_of(frame.verdict), []).append(len(self.rows))
        self.rows.append(row)

    def _add_other(self, time: str, connection: Connection, text: str) -> None:
        direction = text[0] if x25lines.is_gap(text) else ""
        shown = x25lines.LACKS if direction else text
        self._calls[connection].take([(clock(time), text)] if direction else [])
        self.rows.append(Row(clock(time), None, connection, direction, None, shown, "", None))

    def calls(self) -> List[Call]:
        """The calls of all connections."""
        for calls in self._calls.values():
            calls.end()
        return [call for calls in self._calls.values() for call in calls.all()]


def clock(time: str) -> str:
    """A time in seconds as it is shown."""
    nanoseconds = x25lines.nanoseconds(time)
    return time if nanoseconds is None else x25lines.moment(nanoseconds)


def ends_of(connection: Connection) -> str:
    """The two ends of a connection, in words."""
    name, _, ends = (connection.name or "a trace").partition(" ")
    dte, has_ends, dce = ends.partition(" > ")
    return f"{name}: the DTE is {dte}, the DCE {dce}" if has_ends else connection.name or "A trace"


def sentences(report: Report, counts: Iterable[Tuple[int, str]]) -> Iterator[str]:
    """Yields what there is and what was judged, a sentence for each connection, and one of all."""
    judged: Counter[Tuple[int, str]] = Counter()
    for number, line in counts:
        if found := judging.COUNTS.fullmatch(line):
            judged[number, "seen"] += int(found[3])
            judged[number, "judged"] += int(found[4])
    for connection, sent in report.connections.items():
        seen, done = judged[connection.number, "seen"], judged[connection.number, "judged"]
        what = "packets" if connection.is_made_up else "frames and packets"
        how = "all" if done == seen else f"{done:,} of {seen:,}"
        was = f"{how} {what} were judged" if seen else "nothing was judged"
        kind = "packets" if connection.is_made_up else "frames"
        frames = f"The DTE sent {sent['>']:,} {kind}, the DCE {sent['<']:,}"
        yield f"#{connection.number} {ends_of(connection)}. {frames}; {was}."
    told: Counter[Tuple[str, bool, str]] = Counter()
    for (kind, is_in_doubt, end, _), places in report.told.items():
        told[kind, is_in_doubt, end] += len(places)
    said = [
        f"the {end.upper()} broke a rule {often(told['rule', False, end])}"
        for end in ("dte", "dce") if told["rule", False, end]
    ] or ["no end broke a rule for certain"]
    manners = sum(count for (kind, doubt, _), count in told.items() if kind == "manners")
    doubts = sum(count for (_, doubt, _), count in told.items() if doubt)
    said += [f"manners were broken {often(manners)}"] if manners else []
    said += [f"what is told is in doubt {often(doubts)}"] if doubts else []
    text = "; ".join(said)
    yield f"{text[0].upper()}{text[1:]}."


def often(count: int) -> str:
    """How often, in words."""
    return "once" if count == 1 else f"{count:,} times"


def rules_text() -> str:
    """The text of docs/JUDGE.md, or nothing where it isn't there."""
    for place in PAGES:
        path = os.path.join(decoding.FOLDER, place)
        if os.path.isfile(path):
            with open(path, encoding="utf-8") as file:
                return file.read()
    return ""


def text_of_rule(text: str, rule: str) -> str:
    """What docs/JUDGE.md says of a rule: the part of a list, the row of a table or the paragraph
    that names it."""
    wanted = " ".join(rule.split())
    for part in re.split(r"\n(?=- |\||\n|#)", text):
        whole = " ".join(part.split()).removeprefix("- ")
        if wanted in whole:
            return whole.strip("| ")
    return "docs/JUDGE.md has its text."


def options_of(argv: Optional[List[str]] = None) -> argparse.Namespace:
    """The words after the script's name."""
    parser = x25lines.parser(__doc__)
    x25lines.add_input(parser, "the capture or the trace")
    parser.add_argument("--long", action="store_true", help="a CALL may have 128 octets of data")
    pcap2x25.add_capture_words(parser)
    judging.add_words(parser)
    decoding.add_program(parser)
    options = parser.parse_args(argv)
    options.judge, options.wide, options.epoch, options.channel = True, True, True, None
    return options


def main() -> int:
    options = options_of()
    report, counts, bad = Report(), [], None
    with x25lines.opened(options.file) as file, x25dump.asked(options, file) as judge:
        assert isinstance(judge, judging.Judge)
        name = "standard input" if options.file == "-" else os.path.basename(options.file)
        reader = x25dump.Reader(judge, options)
        try:
            for block in reader.shown(file):
                for thing in block:
                    report.take(*thing)
        except (BadInput, EOFError, zlib.error) as error:
            bad = error
        counts = list(judge.counts())
    sys.stdout.write(written(name, report, counts, options.file if bad else ""))
    if bad is not None:
        raise bad
    return reader.status


def written(name: str, report: Report, counts: List[Tuple[int, str]], cut: str) -> str:
    """The page."""
    summary = [f"<li>{escape(it)}</li>" for it in sentences(report, counts)]
    if cut:
        summary.append(
            "<li><b>The file breaks off: what follows is what stands before that.</b></li>"
        )
    parts = {
        "TITLE": escape(name),
        "SUMMARY": "".join(summary),
        "TOLD": told_table(report),
        "CALLS": calls_table(report.calls()),
        "PLOTS": plots(report.numbers),
        "DATA": data_of(report),
    }
    # In one pass, so that nothing which a part brings is taken for the name of another.
    return re.sub(r"@([A-Z]+)@", lambda found: parts[found[1]], page.PAGE)


def told_table(report: Report) -> str:
    """What is told, with the rule's text of docs/JUDGE.md."""
    if not report.told:
        return "<p>Nothing is told of either end.</p>"
    text, rows = rules_text(), []
    for (kind, is_in_doubt, end, rule), places in report.told.items():
        sort = ("in doubt: " if is_in_doubt else "") + kind
        first = f"<a href='#timeline' class='go' data-row='{places[0]}'>{len(places):,}</a>"
        rows.append(
            f"<tr class='{'doubt' if is_in_doubt else kind}'><td>{escape(end.upper())}</td>"
            f"<td>{escape(sort)}</td><td id='rule-{places[0]}'><details><summary>{escape(rule)}"
            f"</summary>{escape(text_of_rule(text, rule))}</details></td><td>{first}</td></tr>"
        )
    return (
        "<table><tr><th>End<th>What<th>Rule (click: its text)<th>Frames (click: the first)</tr>"
        + "".join(rows) + "</table>"
    )


def calls_table(calls: List[Call]) -> str:
    """One row a call."""
    if not calls:
        return "<p>No call was seen from its CALL on.</p>"
    rows = []
    for it in calls:
        cells = (
            f"#{it.connection} ch={it.channel}", ENDS[it.by].upper(), it.calling or "-",
            it.called or "-", it.asked, it.accepted or "-", it.ended or "-",
            f"{it.octets['>']:,}", f"{it.octets['<']:,}", it.how,
        )
        rows.append("<tr>" + "".join([f"<td>{escape(cell)}</td>" for cell in cells]) + "</tr>")
    heads = (
        "Channel", "Called by", "Calling", "Called", "Asked", "Accepted", "Ended",
        "Octets of the DTE", "Octets of the DCE", "How it ended",
    )
    head = "".join([f"<th>{head}</th>" for head in heads])
    return f"<table class='calls'><tr>{head}</tr>{''.join(rows)}</table>"


def plots(numbers: Numbers) -> str:
    """What goes again, RNR and round trips over the time, each as a picture."""
    times = [*numbers.again, *numbers.busy, *(at for at, _ in numbers.trips)]
    if not times:
        return "<p>There is nothing to plot: no frame with a time is acknowledged.</p>"
    begin, end = min(times), max(times)
    waits = sorted(waited for _, waited in numbers.trips)
    middle = f", half of them within {waits[len(waits) // 2]:.3f} s" if waits else ""
    return (
        page.dots(f"Round-trip times{middle}", thinned(numbers.trips), begin, end)
        + plotted("Went again", numbers.again, begin, end)
        + plotted("RNR", numbers.busy, begin, end)
    )


def plotted(title: str, times: List[float], begin: float, end: float) -> str:
    """How often something came, as a picture, or that it didn't."""
    if not times:
        return f"<p>{title}: none.</p>"
    return page.bars(title, columns(times, begin, end), begin, end)


def thinned(points: List[Tuple[float, float]]) -> List[Tuple[float, float]]:
    """At most so many of some points; the longest ones stay."""
    if len(points) <= POINTS:
        return points
    longest = sorted(points, key=lambda it: -it[1])[: POINTS // 10]
    return [*points[:: 1 + len(points) // POINTS], *longest]


def columns(times: List[float], begin: float, end: float) -> List[int]:
    """How many times lie in each of the parts of a stretch."""
    counts, width = [0] * COLUMNS, (end - begin) / COLUMNS or 1
    for at in times:
        counts[min(COLUMNS - 1, int((at - begin) / width))] += 1
    return counts


def data_of(report: Report) -> str:
    """The rows of the timeline as JSON that may stand in a page: no tag can end it."""
    rows: List[List[object]] = []
    for it in report.rows:
        row: List[object] = [it.time, it.connection.number, it.direction, it.channel, it.text]
        row.append(it.words)
        if it.verdict:
            verdict = it.verdict
            sort = "doubt" if verdict.is_in_doubt else verdict.kind
            end = f"{verdict.end}: " if verdict.end else ""
            row += [sort, f"{end}{verdict.text}"]
            if verdict.kind != "note":
                row.append(report.told[key_of(verdict)][0])
        rows.append(row)
    text = json.dumps(rows, separators=(",", ":"))
    for character in "<>&":
        text = text.replace(character, f"\\u{ord(character):04x}")
    return text
