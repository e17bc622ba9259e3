#!/usr/bin/env python3
"""Writes the files of golden cases anew: each case as rows, where these are fewer lines.

    rows.py [--program PROGRAM]

What a case asks and answers stays the same. Rows of `judge` and `decode` have a line and its
answer, rows of `station` a line and its answer up to the mark. Rows of `sim` have what a line
made, which the program has to say: without it all answers follow all lines.
"""

from __future__ import annotations

import argparse
import os
import re
import shlex
import subprocess
from glob import glob

from golden import COUNTS, FOLDER, FORM, NAMED, ROWS, SECONDS, Case, beginnings, both, octets
from program import find_program

# The lines that a row of counts stands for.
NUMBERS = r"(\d+) {}, (\d+) judged, (\d+) not judged"
OF_AN_END = re.compile(r"# (dte|dce): " + NUMBERS.format("frames"))
OF_A_CHANNEL = re.compile(r"# (?:dte|dce) channel (\d+): " + NUMBERS.format("packets"))
OF_ALL = re.compile(r"# (told): (\d+) rules, (\d+) manners(?:, (\d+) in doubt)?")
# A line that is none of a script, and its answer.
NO_LINE, REFUSED = "x", "? 60"
# How wide a row is made, and how many octets a line of hexadecimal digits has.
WIDTH, OCTETS = 150, 75


def row_of_counts(lines: list[str]) -> tuple[int, str]:
    """How many of the last lines are counts, and the row that stands for them."""
    parts: list[str] = []
    for line in reversed(lines):
        for pattern in (OF_AN_END, OF_A_CHANNEL, OF_ALL):
            if found := pattern.fullmatch(line):
                parts.insert(0, " ".join(filter(None, found.groups())))
                break
        else:
            break
    return len(parts), COUNTS + ", ".join(parts)


def as_rows(case: Case, program: str | None) -> str | None:
    """A case as rows, or None where rows don't say it."""
    given, answers = (it.decode("latin-1").split("\n")[:-1] for it in (case.input, case.output))
    count, counts = row_of_counts(answers)
    parts = paired(given, answers[: len(answers) - count], case.words, program)
    rows = [wrapped(row) for row in parts] + [counts] * bool(count)
    body = "".join(f"{row}\n" for row in rows)
    for name, begun in sorted(beginnings().items(), key=lambda it: -len(it[1])):
        if body.startswith(begun):
            body = f"= {name}\n{body[len(begun):]}"
            break
    words = "".join(f" {shlex.quote(word)}" for word in case.words)
    text = f"x25{words} = {case.status}\n{body}"
    is_same = ROWS.fullmatch(text) and both(body) == (case.input, case.output)
    return text if is_same else None


def paired(
    given: list[str], answers: list[str], words: list[str], program: str | None
) -> list[str]:
    """The rows of lines and their answers; all answers follow all lines where that isn't known."""
    if words[:1] == ["station"]:
        rows = paired_by_marks(given, answers)
    elif words[:1] == ["sim"]:
        rows = paired_by_a_run(given, answers, words, program) if program else []
    elif len(answers) == len(given):
        return [joined(asked, told) for asked, told in zip(given, answers)]
    else:
        rows = []
    return (
        rows or [" / ".join(given)] * bool(given) + [f"=> {' / '.join(answers)}"] * bool(answers)
    )


def joined(asked: str, told: str) -> str:
    """The row of a line and its one answer."""
    is_marked = asked[:2] == told[:2] and asked[:2] in ("> ", "< ")
    return f"{asked} -> {told[2:]}" if is_marked else f"{asked} => {told}"


def paired_by_marks(given: list[str], answers: list[str]) -> list[str]:
    """The rows of a station, whose answers end with a mark; the first one is to nothing."""
    ends = [place + 1 for place, line in enumerate(answers) if line.startswith(". ")]
    parts = [answers[begin:end] for begin, end in zip([0, *ends], ends)]
    if len(parts) != len(given) + 1 or ends[-1] != len(answers):
        return []
    rows = [f"{asked} => {' / '.join(told)}" for asked, told in zip(given, parts[1:])]
    return [f"=> {' / '.join(parts[0])}", *rows]


def paired_by_a_run(
    given: list[str], answers: list[str], words: list[str], program: str
) -> list[str]:
    """The rows of a script. After each line the program is given one that is none: its answer
    parts those of the others."""
    text = "".join(f"{line}\n{NO_LINE}\n" for line in given).encode()
    done = subprocess.run([program, *words], input=text, capture_output=True, timeout=SECONDS)
    parts = done.stdout.decode().split(f"{REFUSED}\n")
    if REFUSED in answers or "".join(parts).splitlines() != answers:
        return []
    rows: list[str] = []
    asked: list[str] = []
    for line, part in zip(given, parts):
        asked.append(line)
        if part:
            rows.append(f"{' / '.join(asked)} => {' / '.join(part.splitlines())}")
            asked = []
    return rows + [" / ".join(asked)] * bool(asked)


def wrapped(row: str) -> str:
    """A row over several lines, each further one with a slash at its beginning."""
    first, *parts = row.split(" / ")
    lines = [first]
    for part in parts:
        if len(lines[-1]) + 3 + len(part) <= WIDTH:
            lines[-1] += f" / {part}"
        else:
            lines.append(f"    / {part}")
    return "\n".join(lines)


def as_sections(case: Case, text: str) -> str | None:
    """A case as sections, each in the fewest lines; None where it is rows already."""
    form = FORM.fullmatch(text)
    if form is None:
        return None
    given = section(form[2], form[3], case.input)
    answer = section(form[4], form[5], case.output)
    return f"$ x25{form[1]}\n== input{given}== answer{answer}== status {case.status}\n"


def section(how: str, stood: str, whole: bytes) -> str:
    """A section, from how it is written on."""
    forms = {how: stood}
    if how == " in hex":
        places = range(0, len(whole), OCTETS)
        forms[how] = "".join(f"{whole[at : at + OCTETS].hex()}\n" for at in places)
    if how in ("", " without final LF") and whole:
        row = wrapped(stood[:-1].replace("\n", " / "))
        forms[f" in rows{how}"] = row.replace("\n    /", "\n/") + "\n"
    right = [form for form in forms.items() if octets(*form) == whole]
    how, text = min(right, key=lambda form: form[1].count("\n"))
    return f"{how}\n{text}"


def write(program: str | None) -> None:
    for path in glob(os.path.join(FOLDER, "*", "*.cases")):
        with open(path, encoding="ascii", newline="") as opened:
            _, *parts = NAMED.split(opened.read())
        written = []
        for name, text in zip(parts[::2], parts[1::2]):
            case = Case(name, text)
            rows, sections = as_rows(case, program), as_sections(case, text)
            if rows and (sections is None or rows.count("\n") < sections.count("\n")):
                written.append(f"{name}: {rows}")
            else:
                written.append(f"{name}\n{sections}" if sections else f"{name}: {text.rstrip()}\n")
        with open(path, "w", encoding="ascii", newline="") as opened:
            opened.write("\n".join(written))


if __name__ == "__main__":
    parser = argparse.ArgumentParser(description=(__doc__ or "").partition("\n")[0])
    parser.add_argument(
        "--program", default=find_program(), help="the program that says what a script makes"
    )
    write(parser.parse_args().program)
