#!/usr/bin/env python3
"""Measures the sentences of documents: how many words they have on the average and at most, and
which are the longest.

    english.py [--over N] [DOCUMENT ..]

Headings, examples and quotations aren't sentences; each cell of a table has its own. A word of
code counts as one word. With --over, each sentence of more than N words is shown, with its line;
without, the longest of each document.
"""

from __future__ import annotations

import argparse
import os
import re
from typing import Iterator

ROOT = os.path.dirname(os.path.dirname(os.path.abspath(__file__)))


def parts_of(text: str) -> Iterator[tuple[int, str]]:
    """The paragraphs, items and cells of a text, each with its first line."""
    part: list[str] = []
    begun, fenced = 0, False
    for number, line in enumerate([*text.splitlines(), ""], 1):
        fenced ^= line.startswith("```")
        is_none = fenced or not line.strip() or line.startswith((
            "    ", "#", "|", ">", "```", "<!--"
        )) and not (line.startswith("    ") and part)
        if is_none or re.match(r" *(?:[-*]|\d+\.) ", line):
            if part:
                yield begun, " ".join(part)
            part = []
        if line.startswith("|") and not fenced:
            yield from ((number, cell.strip()) for cell in line.strip("|\n").split("|"))
        if not is_none:
            begun = begun if part else number
            part.append(re.sub(r"^ *(?:[-*]|\d+\.) ", "", line).strip())


def sentences_of(text: str) -> Iterator[tuple[int, str]]:
    """The sentences of a text, each with the line in which its paragraph begins."""
    for number, part in parts_of(text):
        part = re.sub(r"`[^`]*`", "code", re.sub(r"\[([^]]*)\]\([^)]*\)", r"\1", part))
        for sentence in re.split(r"(?<=[.:!?])[\"')*]* +(?=[A-Z'\"(*]|code|\d+\b)", part):
            if len(words_of(sentence)) > 1:
                yield number, sentence


def words_of(sentence: str) -> list[str]:
    return re.findall(r"[^\s]*\w[^\s]*", sentence)


def measure(text: str) -> tuple[int, float, tuple[int, int, str]]:
    """How many sentences a text has, how many words they have on the average, and the longest with
    its words and line."""
    found = [
        (len(words_of(sentence)), number, sentence) for number, sentence in sentences_of(text)
    ]
    count = len(found)
    return count, sum(words for words, *_ in found) / max(count, 1), max(found, default=(0, 0, ""))


def main() -> None:
    parser = argparse.ArgumentParser(
        description=__doc__, formatter_class=argparse.RawDescriptionHelpFormatter
    )
    parser.add_argument(
        "--over", type=int, metavar="N", help="show each sentence of more than N words"
    )
    parser.add_argument("document", nargs="+")
    options = parser.parse_args()
    for document in options.document:
        with open(document, encoding="utf-8") as file:
            text = file.read()
        count, mean, (most, line, worst) = measure(text)
        print(f"{document}: {count} sentences, {mean:.1f} words on the average, {most} at most")
        shown = (
            [(line, worst)]
            if options.over is None
            else [it for it in sentences_of(text) if len(words_of(it[1])) > options.over]
        )
        for line, sentence in shown:
            print(f"  {line} ({len(words_of(sentence))}): {sentence}")


if __name__ == "__main__":
    main()
