"""Sequence charts: two life lines, DTE and DCE, time downwards; as text and as SVG.

A chart is a list of rows: a frame from one end to the other, an entry of one end, or a note.
"""

from __future__ import annotations

from typing import NamedTuple, Optional, Union
from xml.sax.saxutils import escape

# What may have become of a frame, beside being delivered as it was sent.
LOST, DAMAGED, WAITING = "lost", "damaged", "on the line"
# How the arrows of these are drawn as text.
STROKES = {DAMAGED: "~", WAITING: "."}


class Frame(NamedTuple):
    """A frame put on the line: `>` or `<`, its text, what became of it (None: it was delivered),
    the time or nothing."""

    direction: str
    text: str
    fate: Optional[str] = None
    time: str = ""


class Entry(NamedTuple):
    """Something that one end, `dte` or `dce`, did or was told."""

    end: str
    text: str


class Note(NamedTuple):
    """Something that belongs to neither end."""

    text: str


Row = Union[Frame, Entry, Note]


def elided(text: str, most: int) -> str:
    """A text of at most so many characters; a longer one loses its end, and shows that."""
    return text if len(text) <= most else text[: most - 2] + ".."


class Text:
    """Writes a chart as lines of text, `width` characters between the two life lines."""

    def __init__(self, width: int) -> None:
        self._width = width

    def begin(self) -> list[str]:
        """The lines above the rows."""
        inner = self._width - 2
        return [f"  DTE{' ' * inner}DCE", f"   |{' ' * self._width}|"]

    def row(self, row: Row) -> str:
        """The line of a row."""
        if isinstance(row, Frame):
            line = self._arrow(row)
            return f"   |{line}|  {row.time}".rstrip()
        if isinstance(row, Entry):
            text = elided(row.text, self._width - 4)
            return (
                f"   o {text.ljust(self._width - 1)}|"
                if row.end == "dte"
                else f"   |{text.rjust(self._width - 1)} o"
            )
        return f"   |{elided(row.text, self._width - 4).center(self._width)}|"

    def end(self) -> list[str]:
        """The lines below the rows."""
        return []

    def _arrow(self, frame: Frame) -> str:
        """An arrow with its text, `width` characters; that of a lost frame doesn't arrive."""
        is_lost = frame.fate == LOST
        stroke = STROKES.get(frame.fate or "", "-")
        fate = f" {frame.fate} " if frame.fate else ""
        if frame.direction == ">":
            head = f"X{fate}" if is_lost else f"{fate}{stroke}>"
        else:
            head = f"{fate}X" if is_lost else f"<{stroke}{fate}"
        room = self._width * (3 if is_lost else 4) // 4 - 2 - len(head)
        text = f" {elided(frame.text, room - 2)} "
        line = stroke * (room - len(text))
        if frame.direction == ">":
            return f"{stroke}{stroke}{text}{line}{head}".ljust(self._width)
        return f"{head}{line}{text}{stroke}{stroke}".rjust(self._width)


class Svg:
    """Writes a chart as SVG, in a font of fixed width; the colours are those of a white page."""

    ROW, TOP, MARGIN = 24, 40, 40
    CHARACTER = 6.7
    # More rows than these are no picture any more.
    MOST_ROWS = 10_000

    STYLE = """
  text { font: 11px monospace; fill: #222 }
  .end { font-weight: bold; font-size: 13px; text-anchor: middle }
  .middle { text-anchor: middle } .right { text-anchor: end }
  .note { font-style: italic; fill: #666 }
  line { stroke: #222; stroke-width: 1.2 } .life { stroke: #999 }
  path.lost { stroke-width: 1.8 } .lost, .damaged { stroke: #b00020 }
  .damaged, .waiting { stroke-dasharray: 5 3 }
"""

    def __init__(self, width: int, rows: int) -> None:
        self._left, self._right = self.MARGIN, self.MARGIN + round(width * self.CHARACTER)
        self._most = width - 4
        self._height = self.TOP + self.ROW * (rows + 1)
        self._y = self.TOP

    def begin(self) -> list[str]:
        """The lines above the rows: the size, the style, the life lines."""
        width, height = self._right + self.MARGIN, self._height
        return [
            f'<svg xmlns="http://www.w3.org/2000/svg" width="{width}" height="{height}" '
            f'viewBox="0 0 {width} {height}">',
            f"<style>{self.STYLE}</style>",
            '<marker id="head" viewBox="0 0 8 8" refX="8" refY="4" markerWidth="8" '
            'markerHeight="8" orient="auto"><path d="M0 0 8 4 0 8z" fill="#222"/></marker>',
            f'<rect width="{width}" height="{height}" fill="#fff"/>',
            *(
                f'<text class="end" x="{x}" y="22">{name}</text>'
                for x, name in ((self._left, "DTE"), (self._right, "DCE"))
            ),
            *(
                f'<line class="life" x1="{x}" y1="30" x2="{x}" y2="{height - 8}"/>'
                for x in (self._left, self._right)
            ),
        ]

    def row(self, row: Row) -> str:
        """The line of a row."""
        self._y += self.ROW
        if isinstance(row, Frame):
            return self._arrow(row)
        if isinstance(row, Entry):
            return self._entry(row)
        return self._text("middle note", (self._left + self._right) // 2, row.text)

    def end(self) -> list[str]:
        """The lines below the rows."""
        return ["</svg>"]

    def _text(self, sort: str, x: int, text: str) -> str:
        return (
            f'<text class="{sort}" x="{x}" '
            f'y="{self._y - 4}">{escape(elided(text, self._most))}</text>'
        )

    def _entry(self, entry: Entry) -> str:
        x, step, sort = (
            (self._left, 8, "left") if entry.end == "dte" else (self._right, -8, "right")
        )
        return (
            f'<circle cx="{x}" cy="{self._y - 8}" r="3"/>' + self._text(sort, x + step, entry.text)
        )

    def _arrow(self, frame: Frame) -> str:
        start, end = (
            (self._left, self._right) if frame.direction == ">" else (self._right, self._left)
        )
        if frame.fate == LOST:
            end = start + (end - start) * 3 // 4
        sort = {LOST: "lost", DAMAGED: "damaged", WAITING: "waiting"}.get(
            frame.fate or "", "frame"
        )
        head = "" if frame.fate == LOST else ' marker-end="url(#head)"'
        line = (
            f'<line class="{sort}" x1="{start}" y1="{self._y}" x2="{end}" y2="{self._y}"{head}/>'
        )
        # The text of a lost frame ends before the cross.
        most = self._most * 3 // 4 - 2 if frame.fate == LOST else self._most
        return line + self._cross(end, frame.fate) + self._text(
            "middle", (start + end) // 2, label(frame, most)
        )

    def _cross(self, x: int, fate: str | None) -> str:
        """The cross where the arrow of a lost frame ends."""
        if fate != LOST:
            return ""
        left, right, above, below = x - 5, x + 5, self._y - 5, self._y + 5
        return (
            f'<path class="lost" d="M{left} {above} {right} {below}M{right} {above} {left} '
            f'{below}"/>'
        )


def label(frame: Frame, most: int) -> str:
    """The text of a frame with its time before it and what became of it after it, where there is
    that to say."""
    time = f"{frame.time}  " if frame.time else ""
    fate = f"  ({frame.fate})" if frame.fate else ""
    return time + elided(frame.text, max(most - len(time) - len(fate), 2)) + fate
