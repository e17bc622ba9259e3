"""Draws a sequence chart: what two stations sent each other, time downwards, as text or as SVG.

    x25 decode < trace | chart.py
    x25 sim --tap < script | chart.py
    chart.py --script script
    chart.py --svg examples/exchange.trace > exchange.svg
    chart.py --connection 2 capture.pcapng

Reads the lines of `x25 decode`, the lines of a trace, also with a time before them, comments,
which begin with `#`, the lines of `x25 sim --tap`, and what x25dump.py shows. Frames in
hexadecimal digits are given to `x25 decode --wide`. Of a capture, which is read as pcap2x25.py
reads it, one connection is drawn. A run alone doesn't say which of its frames was lost: with
--script the run is made here from its script, by `x25 sim --tap`, and what the script loses or
damages is marked.

The program is the one that --x25 or the variable X25 names, or `x25` of the PATH, or else the one
that was built or installed with this script, or that of `make look`, which is unproved.

Exit status: 0, 1 where something of a capture was left out, or 2 for bad words or bad input, where
a chart as text has the rows before it.
"""

from __future__ import annotations

import argparse
import itertools
import sys
from typing import Iterable, Iterator, TextIO

from x25tools import captures, decoding, drawing, pcap2x25, simruns, written, x25lines
from x25tools.drawing import Entry, Frame, Note, Row
from x25tools.x25lines import BadInput

LEAST_WIDTH, MOST_WIDTH = 40, 400
DECODING = "--wide",


def rows(
    decoder: decoding.Decoder,
    blocks: Iterable[tuple[int, list[bytes]]],
    sent_by: str | None = None,
) -> Iterator[list[Row]]:
    """Yields the rows of the lines of each block, which is given with the number of its first
    line. Bad input is told after the rows before."""
    for first, lines in blocks:
        found: list[Row] = []
        try:
            given = [written.read(line, sent_by) for line in lines]
            for number, (line, answer) in enumerate(
                zip(given, written.answers(decoder, given)), first
            ):
                if answer:
                    time = x25lines.nanoseconds(line.time)
                    found.append(
                        Frame(
                            answer[0],
                            answer[2:],
                            None,
                            line.time if time is None else x25lines.moment(time),
                        )
                    )
                elif line.rest:
                    found.append(row(number, line))
        finally:
            yield found


def row(number: int, line: written.Line) -> Row:
    """The row that a line makes that holds no frame in digits."""
    rest = line.rest
    if line.kind != written.NONE:
        text = rest.decode()
        return Frame(text[0], text[2:], None, line.time)
    if found := x25lines.ENTRY_LINE.fullmatch(rest):
        return Entry(found[1].decode(), found[2].decode())
    if any(
        it.fullmatch(rest) for it in (x25lines.REFUSAL_LINE, written.DAY, written.NAMED)
    ) or x25lines.is_passed_over(rest):
        return Note(rest.decode("utf-8", "replace"))
    raise BadInput(
        f"line {number} is no line of decode, of a trace or of a run: {x25lines.shown(rest)}"
    )


def lines_of_capture(
    converter: pcap2x25.Converter, file: x25lines.Readable, options: argparse.Namespace
) -> Iterator[tuple[int, list[bytes]]]:
    """Yields the lines of a connection with their times, as blocks of lines."""
    number = 1
    for times, lines in pcap2x25.lines_of(converter, file, options):
        yield (
            number,
            [
                f"{x25lines.seconds(time)}\t{line}".rstrip("\n").encode()
                for time, line in zip(times, lines)
            ],
        )
        number += len(lines)


def rows_of_script(
    decoder: decoding.Decoder, program: str, file: x25lines.Readable, words: list[str]
) -> list[list[Row]]:
    """The rows of the run of a script, with what became of each frame."""
    run = simruns.run(program, b"".join(x25lines.pieces(file)), words)
    drawn, = rows(decoder, [(1, run.lines)])
    for index, fate in run.fates.items():
        if isinstance(frame := drawn[index], Frame):
            drawn[index] = frame._replace(fate=fate)
    return [drawn]


def draw(blocks: Iterable[list[Row]], options: argparse.Namespace, out: TextIO) -> None:
    """Writes the chart of the rows of some blocks."""
    if options.svg:
        blocks = [
            list(
                itertools.islice(itertools.chain.from_iterable(blocks), drawing.Svg.MOST_ROWS + 1)
            )
        ]
        if len(blocks[0]) > drawing.Svg.MOST_ROWS:
            raise BadInput(
                f"a picture has at most {drawing.Svg.MOST_ROWS:,} rows: cut the trace, or draw it "
                "as text"
            )
        chart: drawing.Svg | drawing.Text = drawing.Svg(options.width, len(blocks[0]))
    else:
        chart = drawing.Text(options.width)
    for lines in itertools.chain(
        [chart.begin()], (map(chart.row, block) for block in blocks), [chart.end()]
    ):
        out.write("".join([f"{line}\n" for line in lines]))


def words() -> argparse.Namespace:
    """The words after the script's name, and those for `x25 sim`."""
    parser = x25lines.parser(__doc__)
    x25lines.add_input(parser, "what to draw")
    parser.add_argument("--script", action="store_true", help="the input is a script: run it")
    parser.add_argument(
        "--sim",
        default="",
        metavar="WORDS",
        help="with --script, more words for `x25 sim`, as in --sim '--k 2'",
    )
    parser.add_argument("--svg", action="store_true", help="draw SVG")
    parser.add_argument(
        "--width", type=int, default=76, metavar="N", help="characters between the two ends (76)"
    )
    pcap2x25.add_capture_words(parser)
    decoding.add_program(parser)
    options = parser.parse_args()
    if not LEAST_WIDTH <= options.width <= MOST_WIDTH:
        parser.error(f"the width is from {LEAST_WIDTH} to {MOST_WIDTH}")
    if options.script and options.x25 is None:
        parser.error(
            "a script needs the program x25: build it (make look, make x25) or name it (--x25)"
        )
    return options


def main() -> int:
    options = words()
    with x25lines.opened(options.file) as file, decoding.Decoder(options.x25, DECODING) as decoder:
        if options.script:
            drawn: Iterable[list[Row]] = rows_of_script(
                decoder, options.x25, file, options.sim.split()
            )
        elif captures.is_capture(file):
            converter = pcap2x25.Converter(options)
            draw(rows(decoder, lines_of_capture(converter, file, options)), options, sys.stdout)
            return pcap2x25.tell_of_one(converter, options)
        else:
            drawn = rows(decoder, x25lines.blocks_of_lines(file), options.sent_by)
        draw(drawn, options, sys.stdout)
    return 0
