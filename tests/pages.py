#!/usr/bin/env python3
"""Runs the examples of documents, and writes what they answer into the documents.

    pages.py [--program PROGRAM] DOCUMENT ..           names the examples that answer otherwise
    pages.py [--program PROGRAM] --write DOCUMENT ..   puts the answers below them

An example is indented lines. One that begins with `$` is a command for bash at the root of the
sources, with `x25` as it is installed on the PATH; it goes on after a line that ends with a bar or
a backslash, and what it writes stands below. One that begins with `# UP`, `# CALL`, `# CALL16` or
`# from its first line` is a trace in the words of `x25 decode` (tests/texts.py), with what `x25
judge --at line` tells of it, or judge with the words that stand after a comma; a start is left out
below, and so are the last lines unless the example has some.

Exit status: 0, or 1 where an answer is another one.
"""

from __future__ import annotations

import argparse
import os
import re
import shutil
import subprocess
import sys
import tempfile
from typing import Iterator

import texts
from program import ROOT, find_program

BLOCK = re.compile(r"(?:^    .*\n)+", re.MULTILINE)
COMMAND = re.compile(r"^\$ ((?:.*[|\\]\n)*.*)\n", re.MULTILINE)
TRACE = re.compile(r"# (UP|CALL|CALL16|from its first line)(?:, x25 judge(.*))?")


def lay_out(folder: str, program: str) -> dict[str, str]:
    """Makes of a folder a root of the sources with the program installed; answers the
    variables."""
    os.makedirs(f"{folder}/libexec")
    os.makedirs(f"{folder}/bin")
    shutil.copy(os.path.join(ROOT, "share", "x25.sh"), f"{folder}/bin/x25")
    os.symlink(os.path.join(ROOT, "tools", "x25tools.py"), f"{folder}/bin/x25tools")
    os.symlink(os.path.realpath(program), f"{folder}/libexec/x25")
    for name in ("examples", "tools", "tests"):
        os.symlink(os.path.join(ROOT, name), f"{folder}/{name}")
    places = f"{folder}/bin:{os.environ['PATH']}"
    return {
        **os.environ,
        "PATH": places,
        "X25": "",
        "LC_ALL": "C",
        "TZ": "UTC",
        "PYTHONDONTWRITEBYTECODE": "1",
    }


def answers(block: str, folder: str, variables: dict[str, str]) -> str | None:
    """An example with what it answers; None where the lines are none. The lines aren't
    indented."""
    if block.startswith("$ "):
        commands = COMMAND.findall(block)
        return "".join(f"$ {it}\n{written(it, folder, variables)}" for it in commands)
    head, *shown = block.splitlines()
    found = TRACE.fullmatch(head)
    if not found:
        return None
    start = texts.STARTS.get(found[1], [])
    words = ["--at", "line"] if found[2] is None else found[2].split()
    given = "".join(f"{line}\n" for line in texts.lines_of("\n".join([*start, *shown])))
    command = ["x25", "judge", *words]
    done = subprocess.run(
        command, input=given, capture_output=True, text=True, env=variables, timeout=60
    )
    told = done.stdout.splitlines()[len(start) :]
    if not any(line.startswith("#") for line in shown):
        told = [line for line in told if not line.startswith("#")]
    return "".join(f"{line}\n" for line in [head, *told])


def written(command: str, folder: str, variables: dict[str, str]) -> str:
    """What a command writes to its standard output and error, but for the word 'unproved'."""
    how = {"cwd": folder, "env": variables, "text": True, "timeout": 60}
    done = subprocess.run(
        ["bash", "-c", command], stdout=subprocess.PIPE, stderr=subprocess.STDOUT, **how
    )
    return re.sub(r"^(x25 [\d.]+) unproved$", r"\1", done.stdout, flags=re.MULTILINE)


def examples(text: str, folder: str, variables: dict[str, str]) -> Iterator[tuple[str, str]]:
    """Each example of a document, and that with what it answers, both as they stand there."""
    for found in BLOCK.finditer(text):
        block = re.sub("^    ", "", found[0], flags=re.MULTILINE)
        answered = answers(block, folder, variables)
        if answered is not None:
            yield found[0], re.sub(r"^(?=.)", "    ", answered, flags=re.MULTILINE)


def main() -> int:
    form = argparse.RawDescriptionHelpFormatter
    parser = argparse.ArgumentParser(description=__doc__, formatter_class=form)
    parser.add_argument("--program", default=find_program(), help="the program")
    parser.add_argument("--write", action="store_true", help="put the answers into the documents")
    parser.add_argument("document", nargs="+", metavar="DOCUMENT")
    options = parser.parse_args()
    status = 0
    with tempfile.TemporaryDirectory() as folder:
        variables = lay_out(folder, options.program)
        for path in options.document:
            with open(path, encoding="utf-8") as file:
                text = file.read()
            for stood, answered in list(examples(text, folder, variables)):
                if stood != answered:
                    status = 0 if options.write else 1
                    print(f"{path}: {stood.splitlines()[0].strip()}")
                    text = text.replace(stood, answered, 1)
            if options.write:
                with open(path, "w", encoding="utf-8") as file:
                    file.write(text)
    return status


if __name__ == "__main__":
    sys.exit(main())
