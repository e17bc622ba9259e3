#!/usr/bin/env python3
"""Makes the manual page x25(1) of docs/MANUAL.md, pages of the scripts, and documents as they are
true of what is installed.

    manpage.py > x25.1; man ./x25.1
    manpage.py --prefix /usr/local > /usr/local/share/man/man1/x25.1
    manpage.py --script x25dump > /usr/local/share/man/man1/x25dump.1
    manpage.py --text --prefix /usr/local README.md > /usr/local/share/doc/x25/README.md

Reads what the manual is written in, and no more of Markdown: headings, paragraphs, list items,
tables, indented examples, `code` and **bold**. With --prefix the page is that of what `make
install` has put there: the scripts have the names that they have there, documents and examples
stand where they are there, and what tells of the repository alone is left out. The page of a
script is what its --help says; a text is a document as it is true of that. The documents stand
beside one another there.

Exit status: 0, or 2 for bad words or bad input.
"""

import argparse
import os
import re
import subprocess
import sys
from typing import Iterable, Iterator

from x25tools import x25lines

MANUAL = os.path.join(
    os.path.dirname(os.path.dirname(os.path.abspath(__file__))), "docs", "MANUAL.md"
)
# A row of the manual's table of commands: how one is used.
USAGE = re.compile(r"\| `x25 (\w+)(?: (.*))?` \| ")
SEE_ALSO = [
    ".SH SEE ALSO",
    "\\fBdocs/FORMATS.md\\fR, \\fBdocs/PROOFS.md\\fR, \\fBtshark\\fR(1), \\fBtcpdump\\fR(1)",
]
RULE = re.compile(r"\|[-| :]+\|")
# What stands for the program in the repository.
PROGRAM = re.compile(r"\bbuild/x25(?:-unproved)?(?![\w.])")
# Paragraphs that tell of the repository alone, and lists that are made of the manual.
OF_THE_REPOSITORY = re.compile("`make |`source share/|<!--")


def head(lines: Iterable[str]) -> list[str]:
    """The lines up to the description, of the lines of the manual."""
    usages = [found.groups() for line in lines if (found := USAGE.match(line))]
    made = [
        ".TH X25 1",
        ".SH NAME",
        "x25 \\- X.25 packet layer over LAPB, on lines of text",
        ".SH SYNOPSIS",
    ]
    for place, (name, words) in enumerate(usages):
        made += [
            *([".br"] if place else []), f".B x25 {name}", *([escaped(words)] if words else [])
        ]
    return [*made, ".SH DESCRIPTION"]


def escaped(text: str) -> str:
    """A text whose characters stand for themselves in roff."""
    text = text.replace("\\", "\\e").replace("-", "\\-")
    return "\\&" + text if text[:1] in (".", "'") else text


def inline(text: str) -> str:
    """A text with its code and bold words in bold type."""
    parts = re.split(r"(`[^`]*`|\*\*[^*]+\*\*)", text)
    drawn = [
        f"\\fB{escaped(part.strip('`*'))}\\fR"
        if part[:1] == "`" or part[:2] == "**"
        else escaped(part)
        for part in parts
        if part
    ]
    return "".join(drawn)


def table_row(line: str) -> list[str]:
    """The cells of a row of a table; a bar that is part of a cell stands after a backslash."""
    return [cell.strip().replace("\\|", "|") for cell in re.split(r"(?<!\\)\|", line)[1:-1]]


def roff(lines: Iterable[str]) -> Iterator[str]:
    """Yields the lines of the manual page."""
    lines = list(lines)
    yield from head(lines)
    is_example = False
    for line in lines:
        if is_example != line.startswith("    ") and (line.strip() or not is_example):
            is_example = not is_example
            yield ".PP\n.nf\n.RS 4" if is_example else ".RE\n.fi"
        if is_example:
            yield escaped(line[4:]) or "\\&"
        elif line.strip():
            yield from prose(line)
        else:
            yield ".PP"
    if is_example:
        yield ".RE\n.fi"
    yield from SEE_ALSO


def prose(line: str) -> Iterator[str]:
    """Yields what a line outside of the examples becomes; the heading of the whole is that of the
    page."""
    if found := re.fullmatch(r"(#+) (.*)", line):
        if len(found[1]) > 1:
            yield {2: ".SH ", 3: ".SS "}.get(len(found[1]), ".SS ") + escaped(
                found[2].replace("`", "")
            ).replace('"', '\\(dq')
    elif line.startswith("|"):
        if not RULE.fullmatch(line):
            first, *rest = table_row(line)
            yield ".TP\n" + (inline(first) or "\\&") + "\n" + (
                inline("; ".join(filter(None, rest))) or "\\&"
            )
    elif line.startswith("- "):
        yield ".IP \\(bu 2\n" + inline(line[2:])
    elif not line.startswith("!["):
        yield inline(line.strip())


def installed(lines: Iterable[str], prefix: str) -> Iterator[str]:
    """The lines of the manual as they are true of what is installed below a prefix."""
    documents = f"{prefix}/share/doc/x25"
    for paragraph in "\n".join(lines).split("\n\n"):
        if paragraph.startswith("    ") or not OF_THE_REPOSITORY.search(paragraph):
            text = x25lines.SCRIPT.sub(lambda found: x25lines.NAMES[found[1]], paragraph)
            text = text.replace("docs/", f"{documents}/").replace(
                "at the root of the repository", f"in `{documents}`"
            ).replace("tools/", f"{prefix}/lib/x25/")
            yield from [*text.split("\n"), ""]


def installed_text(lines: Iterable[str], prefix: str) -> str:
    """A document as it is true of what is installed below a prefix."""
    text = "\n".join(installed(lines, prefix)).rstrip("\n") + "\n"
    return PROGRAM.sub("x25", text).replace(f"{prefix}/share/doc/x25/", "")


def script_page(name: str) -> Iterator[str]:
    """The lines of the page of a script, by the name that it has where it is installed."""
    script, = (script for script, known in x25lines.NAMES.items() if known == name)
    command = [
        sys.executable,
        os.path.join(os.path.dirname(os.path.abspath(__file__)), f"{script}.py"),
        "--help",
    ]
    said = subprocess.run(
        command, env={**os.environ, "COLUMNS": "100"}, capture_output=True, text=True, check=True
    ).stdout
    said = x25lines.SCRIPT.sub(lambda found: x25lines.NAMES[found[1]], said)
    usage, what, rest = re.sub("^usage: ", "", said).split("\n\n", 2)
    yield f".TH {name.upper()} 1\n.SH NAME\n{name} \\- {escaped(' '.join(what.split()))}"
    for heading, text in ("SYNOPSIS", usage), ("DESCRIPTION", rest):
        yield f".SH {heading}\n.nf"
        yield from (escaped(line) or "\\&" for line in text.splitlines())
        yield ".fi"
    yield ".SH SEE ALSO\n\\fBx25\\fR(1)"


def main() -> int:
    parser = argparse.ArgumentParser(
        description=__doc__, formatter_class=argparse.RawDescriptionHelpFormatter
    )
    parser.add_argument(
        "file",
        nargs="?",
        default=MANUAL,
        metavar="FILE",
        help="the manual; docs/MANUAL.md where it is missing",
    )
    parser.add_argument(
        "--prefix", metavar="FOLDER", help="the folder in which the program is installed"
    )
    parser.add_argument(
        "--script", choices=sorted(x25lines.NAMES.values()), help="make the page of this script"
    )
    parser.add_argument(
        "--text", action="store_true", help="write the document as it is installed, and no page"
    )
    options = parser.parse_args()
    if options.script:
        sys.stdout.write("".join(f"{line}\n" for line in script_page(options.script)))
        return 0
    with x25lines.opened(options.file) as file:
        lines = [line.decode("utf-8", "replace") for _, line in x25lines.lines_of(file)]
    if options.text:
        sys.stdout.write(installed_text(lines, options.prefix or "/usr/local"))
        return 0
    page = "".join(
        f"{line}\n" for line in roff(installed(lines, options.prefix) if options.prefix else lines)
    )
    sys.stdout.write(
        page.replace("docs/", f"{options.prefix}/share/doc/x25/") if options.prefix else page
    )
    return 0


if __name__ == "__main__":
    x25lines.run(main)
