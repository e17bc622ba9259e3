#!/usr/bin/env python3
"""Runs the stored cases of tests/golden on the built program and compares octet for octet.

    golden.py [--program PROGRAM] [NAME ..]

A case is a command, its input, what standard output has to be, and the exit status, under its name
in a file SUBJECT/FILE.cases. CONTRIBUTING.md says how one is written, and where its answer comes
from. A NAME is SUBJECT/NAME, or SUBJECT for all of its cases; with none, all cases.

Exit status: 0 all agree, 1 one differs, 2 there is no program or no such case.
"""

from __future__ import annotations

import argparse
import ast
import functools
import os
import re
import shlex
import subprocess
import sys
from glob import glob
from typing import cast

from program import find_program

FOLDER = os.path.join(os.path.dirname(os.path.abspath(__file__)), "golden")
SECONDS = 60
FORM = re.compile(
    r"\$ x25(.*)\n== input(.*)\n((?:(?!== ).*\n)*)== answer(.*)\n((?:(?!== ).*\n)*)== status "
    r"(\d)\n\n?"
)
# A case as rows: `INPUT => ANSWER / ANSWER`, or ` -> ` where the answer begins with the two
# characters of its line of a trace.
ROWS = re.compile(r"x25(.*) = (\d)\n((?:.+\n)*)\n?")
ROW = re.compile(r"(.*?)(?:(?:^| )(=>|->)(?: (.*))?)?$")
# What a row of counts begins with: those of an end, of a channel of it, and of what is told.
COUNTS = "counts "
# The name of a case, above it or before its command.
NAMED = re.compile(r"^(\w+)(?:\n(?=\$ x25)|: (?=x25\b))", re.MULTILINE)
# The rows with which many cases begin, by their names; the row `= NAME` stands for them.
BEGINNINGS = os.path.join(FOLDER, "beginnings.txt")


class Case:
    """One stored case: its words, its input, and what the program has to answer."""

    def __init__(self, name: str, text: str) -> None:
        self.name = name
        rows, form = ROWS.fullmatch(text), FORM.fullmatch(text)
        if rows is not None:
            self.words, self.status = shlex.split(rows[1]), int(rows[2])
            self.input, self.output = both(rows[3])
        elif form is not None:
            self.words, self.status = shlex.split(form[1]), int(form[6])
            self.input, self.output = octets(form[2], form[3]), octets(form[4], form[5])
        else:
            raise ValueError(f"{name} has not the form of a case")

    def difference(self, program: str) -> str | None:
        """Runs the case; answers None where all agrees, else what differs first, in a line."""
        try:
            done = subprocess.run(
                [program, *self.words], input=self.input, capture_output=True, timeout=SECONDS
            )
        except subprocess.TimeoutExpired:
            return f"no end within {SECONDS} seconds"
        if done.stdout != self.output:
            return first_difference(self.output, done.stdout)
        if done.returncode != self.status:
            return f"status {done.returncode}, wanted {self.status}"
        return None


def first_difference(wanted: bytes, given: bytes) -> str:
    """Says in which line two outputs differ first, and what stands there."""
    lines, others = wanted.split(b"\n"), given.split(b"\n")
    for number, (want, have) in enumerate(zip(lines, others), 1):
        if want != have:
            return f"line {number}: wanted {want[:200]!r}, got {have[:200]!r}"
    return f"wanted {len(lines) - 1} ended lines, got {len(others) - 1}"


def octets(how: str, text: str) -> bytes:
    """The octets of a section, by what its heading says and what stands below it."""
    if how == "":
        return text.encode()
    if how == " without final LF":
        return text[:-1].encode()
    if how == " in rows":
        return ended(text.replace("\n/ ", " / ")[:-1].split(" / "))
    if how == " in rows without final LF":
        return octets(" in rows", text)[:-1]
    if how == " in hex":
        return bytes.fromhex(text)
    if how == " in Python":
        values = [
            eval(compile(ast.Expression(it.value), "case", "eval"))
            for it in cast("list[ast.Expr]", ast.parse(text).body)
        ]
        return b"".join(it.encode("ascii") if isinstance(it, str) else it for it in values)
    raise ValueError(f"'{how}' doesn't say how a section is written")


@functools.lru_cache(maxsize=None)
def beginnings() -> dict[str, str]:
    """The rows with which many cases begin, by their names."""
    with open(BEGINNINGS, encoding="ascii") as file:
        return dict(re.findall(r"^(\w+)\n((?:.+\n)+)", file.read(), re.MULTILINE))


def both(rows: str) -> tuple[bytes, bytes]:
    """The input and the answer that rows stand for."""
    given: list[str] = []
    answers: list[str] = []
    for name in re.findall(r"^= (\w+)$", rows, re.MULTILINE):
        rows = rows.replace(f"= {name}\n", beginnings()[name])
    for row in re.sub(r"\n {4}(?=/ )", " ", rows).splitlines():
        if row.startswith(COUNTS):
            answers += counted(row)
            continue
        found = ROW.fullmatch(row)
        assert found
        asked, arrow, told = found.groups()
        given += asked.split(" / ") if asked else []
        if told:
            answers += [asked[:2] + told] if arrow == "->" else told.split(" / ")
    return ended(given), ended(answers)


def ended(lines: list[str]) -> bytes:
    """The octets of lines, each with its line feed."""
    return "".join(f"{line}\n" for line in lines).encode()


def counted(row: str) -> list[str]:
    """The lines that a row of counts stands for."""
    lines, end = [], ""
    for part in row.removeprefix(COUNTS).split(", "):
        name, *numbers = part.split(" ")
        if name == "told":
            doubt = f", {numbers[2]} in doubt" if numbers[2:] else ""
            lines.append(f"# told: {numbers[0]} rules, {numbers[1]} manners{doubt}")
            continue
        is_end = name in ("dte", "dce")
        end = name if is_end else end
        what = (
            f"{end}: {numbers[0]} frames"
            if is_end
            else f"{end} channel {name}: {numbers[0]} packets"
        )
        lines.append(f"# {what}, {numbers[1]} judged, {numbers[2]} not judged")
    return lines


def texts() -> dict[str, str]:
    """The text of each stored case by its name, in the order of the names."""
    found: list[tuple[str, str]] = []
    for path in glob(os.path.join(FOLDER, "*", "*.cases")):
        file = os.path.relpath(path, FOLDER)
        with open(path, encoding="ascii", newline="") as opened:
            front, *parts = NAMED.split(opened.read())
        if front:
            raise ValueError(f"{file} begins with no name of a case")
        found += [
            (f"{os.path.dirname(file)}/{name}", it) for name, it in zip(parts[::2], parts[1::2])
        ]
    if len(dict(found)) != len(found):
        raise ValueError("two cases have one name")
    return dict(sorted(found))


def names() -> list[str]:
    """The names of the stored cases, in order."""
    return list(texts())


def cases(names: list[str]) -> list[Case]:
    """The stored cases of these names, in their order."""
    stored = texts()
    return [Case(name, stored[name]) for name in names]


def chosen(words: list[str]) -> tuple[list[str], list[str]]:
    """The names of the cases that words name, each a case or a subject, in the order of the words;
    and the words that name none."""
    found = [
        [name for name in names() if word in (name, name.partition("/")[0])] for word in words
    ]
    return (
        [name for some in found for name in some],
        [word for word, some in zip(words, found) if not some],
    )


def run(program: str, names: list[str]) -> tuple[int, int]:
    """Runs the cases of these names, says of each that differs what differs; answers how many
    agree and how many differ."""
    differing = 0
    for case in cases(names):
        difference = case.difference(program)
        if difference is not None:
            differing += 1
            print(f"golden case {case.name} differs: {difference}")
    return len(names) - differing, differing


def main() -> int:
    parser = argparse.ArgumentParser(
        description=__doc__, formatter_class=argparse.RawDescriptionHelpFormatter
    )
    parser.add_argument(
        "--program",
        default=find_program(),
        help="the program to run; else the one that was built last",
    )
    parser.add_argument("name", nargs="*", help="a case or a subject to run; else all")
    options = parser.parse_args()
    wanted, unknown = chosen(options.name) if options.name else (names(), [])
    if options.program is None or not os.path.isfile(options.program):
        parser.error("the program x25 isn't built: `make x25` builds it")
    if unknown:
        parser.error(f"no such case: {' '.join(unknown)}")
    agreeing, differing = run(options.program, wanted)
    print(f"golden cases: {agreeing} agree, {differing} differ")
    return 1 if differing else 0


if __name__ == "__main__":
    sys.exit(main())
