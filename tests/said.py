#!/usr/bin/env python3
"""Lists what README.md, docs/PROOFS.md, docs/JUDGE.md and docs/PEER.md say, sentence by sentence.

Below each stands what carries it, by the pairs of tests/said.txt, and below a clause of a law what
the law asks before it holds, as the definitions have it. With --premises it writes the second part
of said.txt anew: what each such clause asks, each by one name.

Of README.md these are those of 'What is proved', and of the rest those that speak of proof; of
docs/PROOFS.md all; of docs/JUDGE.md those of 'What is proved of a verdict' that begin with a name;
of docs/PEER.md those that speak of proof, begin with a name, or name the definitions of a rule. A
row of a table is one. tests/tools/test_said.py holds that each has its pair, that what carries it
is there, and that the premises are those of the definitions.
"""

from __future__ import annotations

import argparse
import os
import re
from typing import Iterator

import premises

# where a rule stands in the standard, and its definitions
DEFINED = re.compile(r"\(\d[^();]*; (?:of rule \d+ )?([\w, ]+)\)")
PROVES = re.compile(r"\bproo[fv]|\bprove")
# a sentence that begins with names of laws
NAMED = re.compile(r"^\w*_\w+(, \w+)*:")
TESTS = os.path.dirname(os.path.abspath(__file__))


def text_of(path: str) -> str:
    with open(os.path.join(os.path.dirname(TESTS), path), encoding="utf-8") as file:
        return file.read()


def sentences_of(text: str) -> Iterator[str]:
    """The sentences of a text, without headings, examples, heads of tables and lists of names."""
    text = re.sub(
        r"^```\n(?:.*\n)*?```$|(?<=\n\n)(?:    .*\n)+|^#.*$|^\|.*\n\|-.*$|^> ?",
        "",
        text,
        flags=re.MULTILINE,
    )
    for part in re.split(r"\n\s*\n|\n(?= *- |\d+\. |\|)", text):
        part = re.sub(
            r"\[([^]]*)\]\([^)]*\)|\*",
            r"\1",
            " ".join(re.sub(r"^\s*(?:- |\d+\. )", "", part).split()),
        )
        for sentence in re.split(r"(?<=\.) +(?=[A-Z`])", part):
            if re.sub(r"`[^`]*`|[, ]", "", sentence):
                yield sentence.replace("`", "")


def section(path: str, heading: str) -> str:
    """A section of a document, to the next of its kind."""
    found, = re.findall(rf"^## {heading}\n.*?(?=^## |\Z)", text_of(path), re.MULTILINE | re.DOTALL)
    return str(found)


def sentences() -> list[tuple[str, str]]:
    """What is to be carried: the document and the sentence."""
    trust, verdicts = (
        section("README.md", "What is proved"),
        section("docs/JUDGE.md", "What is proved of a verdict"),
    )
    rest = sentences_of(text_of("README.md").replace(trust, ""))
    is_rule = re.compile(r"^[a-z]|[Pp]roo[fv]|[Pp]rove|" + DEFINED.pattern)
    of_documents = {
        "README.md": [
            *sentences_of(re.sub(r"\*\*[^*]*\*\* ", "", trust)), *filter(PROVES.search, rest)
        ],
        "docs/PROOFS.md": sentences_of(text_of("docs/PROOFS.md")),
        "docs/JUDGE.md": filter(NAMED.search, sentences_of(verdicts)),
        "docs/PEER.md": filter(is_rule.search, sentences_of(text_of("docs/PEER.md"))),
    }
    return [(document, sentence) for document, found in of_documents.items() for sentence in found]


def pairs() -> list[tuple[str, str, list[str]]]:
    """The document, the first words of a sentence, and what carries it, line by line."""
    found: list[tuple[str, str, list[str]]] = []
    for line in text_of("tests/said.txt").partition("\n# Premises\n")[0].splitlines():
        if line.startswith("# "):
            document = line[2:]
        elif line.startswith("    "):
            found[-1][2].append(line.strip())
        elif line:
            found.append((document, line, []))
    return found


def clauses_of(line: str) -> Iterator[tuple[str, str, str]]:
    """The crate, the function and each clause of a line that carries a sentence.

    No clause stands for all of them.
    """
    function, _, clauses = line.partition(": ")
    crate, mark, name = function.partition("::")
    if mark:
        yield from ((crate, name, clause) for clause in clauses.split(", "))


def asked_of_clauses() -> dict[str, dict[str, list[str]]]:
    """What the clauses of laws ask that carry a sentence: by law, and by clause, or * for all."""
    found: dict[str, dict[str, list[str]]] = {}
    lines = {line for *_, of_sentence in pairs() for line in of_sentence}
    for crate, law, clause in {it for line in lines for it in clauses_of(line)}:
        if asked := premises.premises_of(crate, law, clause):
            names = sorted({premises.name_of(it) for it in asked})
            found.setdefault(f"{crate}::{law}", {})[clause or "*"] = names
    return found


def table() -> str:
    """The second part of said.txt: clauses that ask the same stand in one line."""
    rows = ""
    for law, by_clause in sorted(asked_of_clauses().items()):
        rows += f"{law}\n"
        of_asked: dict[str, list[str]] = {}
        for clause, asked in sorted(by_clause.items()):
            of_asked.setdefault(", ".join(asked), []).append(clause)
        rows += "".join(f"    {', '.join(it)}: {asked}\n" for asked, it in of_asked.items())
    return rows


def main() -> None:
    form = argparse.RawDescriptionHelpFormatter
    parser = argparse.ArgumentParser(description=__doc__, formatter_class=form)
    parser.add_argument(
        "--premises", action="store_true", help="write the second part of said.txt"
    )
    if parser.parse_args().premises:
        print(table(), end="")
        return
    for document, sentence in sentences():
        print(f"{document}: {sentence}")
        carried = [
            it for of, words, it in pairs() if of == document and sentence.startswith(words)
        ]
        for line in carried[0] if carried else ["nothing"]:
            print(f"    {line}")
            asked = [premises.premises_of(*clause) or [] for clause in clauses_of(line)]
            for premise in dict.fromkeys(it for of_clause in asked for it in of_clause):
                print(f"        if {premise}")


if __name__ == "__main__":
    main()
