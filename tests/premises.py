"""The premises of the clauses of a law, as its definitions have them.

A law is a public function that takes nothing, and whose contract says it: each `ensures` has a
name and a term, or a term alone. A premise is what stands before an arrow of the term, or of a
definition that it leads to. A definition by cases is left as it is.
"""

from __future__ import annotations

import functools
import os
import re
from glob import glob
from typing import Iterator, NamedTuple

CRATES = os.path.join(os.path.dirname(os.path.dirname(os.path.abspath(__file__))), "crates")
OPEN, CLOSE = "([{", ")]}"


class Definition(NamedTuple):
    """An abbreviation, with its parameters and its body, or a record, with its fields."""

    module: str
    parameters: tuple[str, ...]
    body: str
    fields: tuple[tuple[str, str], ...]


class Term(NamedTuple):
    """A term, the module whose names it uses, and what the parameters in it stand for."""

    module: str
    text: str
    given: tuple[tuple[str, "Term"], ...] = ()


def parts_of(text: str, mark: str) -> list[str]:
    """The parts of a text between the marks that no bracket encloses."""
    parts, depth, begin = [], 0, 0
    for at, letter in enumerate(text):
        depth += (letter in OPEN) - (letter in CLOSE)
        if letter == mark and not depth:
            parts.append(text[begin:at])
            begin = at + 1
    return [part.strip() for part in [*parts, text[begin:]]]


def braced(text: str, at: int) -> str:
    """What stands in the braces that open there."""
    depth = 0
    for end in range(at, len(text)):
        depth += (text[end] == "{") - (text[end] == "}")
        if not depth:
            return text[at + 1 : end]
    return ""


def uses_of(tree: str, path: str = "") -> Iterator[tuple[str, str]]:
    """The names that a tree of `use` takes, each with its module."""
    for branch in parts_of(tree, ","):
        stem, brace, _ = branch.partition("{")
        if brace:
            yield from uses_of(braced(branch, len(stem)), path + stem)
        elif "." in path + branch:
            module, _, name = (path + branch).rpartition(".")
            yield name, module


def read(path: str) -> str:
    with open(path, encoding="utf-8") as file:
        return file.read()


@functools.cache
def module_text(module: str) -> str:
    """The text of a module `Rattle.CRATE.specs.PATH` without its comments, or of a source."""
    if module.endswith(".rt"):
        return read(module)
    _, crate, *rest = module.split(".")
    path = os.path.join(CRATES, crate, *rest) + ".antt"
    return re.sub(r"^\s*--.*$", "", read(path), flags=re.MULTILINE) if os.path.isfile(path) else ""


@functools.cache
def imports(text: str) -> dict[str, str]:
    found: dict[str, str] = {}
    taken = r"^(?:ghost )?use (Rattle\.[^;\n]*(?:\n[^;\n]*)*?\})"
    for tree in re.findall(taken, text, re.MULTILINE):
        found.update(uses_of(tree))
    return found


@functools.cache
def definitions(module: str) -> dict[str, Definition]:
    found = {}
    for part in re.split(r"\n(?=\S)", module_text(module)):
        if record := re.match(
            r"(?:pub )?record(?: pub)? (\w+)(.*?)\bwhere\n(.*)", part, re.DOTALL
        ):
            names = " ".join(re.findall(r"\(([\w ]+) :", record[2])).split()
            fields = re.findall(r"^  (?:pub )?(\w+) :(.*(?:\n    .*)*)", record[3], re.MULTILINE)
            kinds = tuple((name, " ".join(kind.split())) for name, kind in fields)
            found[record[1]] = Definition(module, tuple(names), "", kinds)
    bodies: dict[str, list[tuple[str, str]]] = {}
    for part in re.split(r"\n(?=\S)", module_text(module)):
        if equation := re.match(r"(\w+)((?: [^=\n]*)?)=\s(.*)", part, re.DOTALL):
            bodies.setdefault(equation[1], []).append((equation[2], " ".join(equation[3].split())))
    for name, equations in bodies.items():
        parameters, body = equations[0]
        if len(equations) == 1 and re.fullmatch(r"[\w ]*", parameters):
            found[name] = Definition(module, tuple(parameters.split()), body, ())
    return found


def definition_of(name: str, term: Term) -> Definition | None:
    if not term.module.endswith(".rt") and name in definitions(term.module):
        return definitions(term.module)[name]
    module = imports(module_text(term.module)).get(name, "")
    return definitions(module).get(name) if module.startswith("Rattle.") else None


def bare(text: str) -> str:
    """A text without the brackets around all of it."""
    while re.fullmatch(r"\(.*\)", text) and balanced(text[1:-1]):
        text = text[1:-1].strip()
    return text


def balanced(text: str) -> bool:
    depth = 0
    for letter in text:
        depth += (letter in OPEN) - (letter in CLOSE)
        if depth < 0:
            return False
    return True


def name_of(premise: str) -> str:
    """The first word of a premise that is no number and no variable."""
    words = re.findall(r"[A-Za-z][\w.']*", premise)
    return next((word for word in words if len(word) > 1), premise)


def without_parameters(text: str) -> str:
    """A text without the brackets around it and the parameters before it."""
    return bare(re.sub(r"^λ [^.]*\.", "", bare(text)).strip())


def led_to(term: Term, wanted: str, depth: int = 0) -> list[str] | None:
    """What is asked on the way to a field, or of the whole where none is wanted.

    None where the field isn't there.
    """
    *before, last = parts_of(without_parameters(term.text), "→")
    last = without_parameters(last)
    asked = [re.sub(r"^let .* in ", "", part) for part in before]
    asked = [part for part in asked if not re.match(r"[({]?[\w ]+ :", part)]
    if depth > 12:
        return None
    below = [
        led_to(it, sought, depth + 1) for it, sought in steps(term._replace(text=last), wanted)
    ]
    there = [it for it in below if it is not None]
    if wanted and not there:
        return None
    return list(dict.fromkeys([*asked, *(name for it in there for name in it)]))


def steps(term: Term, wanted: str) -> Iterator[tuple[Term, str]]:
    """The terms that a term leads to, each with the field that is wanted of it."""
    products = parts_of(term.text, "×")
    if len(products) > 1 or len(parts_of(term.text, "→")) > 1:
        yield from ((term._replace(text=product), wanted) for product in products)
        return
    head, *given = [part for part in parts_of(term.text, " ") if part] or [""]
    if head in dict(term.given):
        yield dict(term.given)[head], wanted
    elif named := definition_of(head, term):
        terms = [term._replace(text=it) for it in given]
        passed = tuple(zip(named.parameters, terms))
        fields = dict(named.fields)
        if named.body:
            yield Term(named.module, named.body, passed), wanted
        elif wanted in fields:
            yield Term(named.module, fields[wanted], passed), ""
        elif wanted:
            yield from ((Term(named.module, kind, passed), wanted) for kind in fields.values())


def premises_of(crate: str, law: str, clause: str = "") -> list[str] | None:
    """The premises of a clause of a law; None where it is no law, or has no such clause."""
    for path in sorted(glob(os.path.join(CRATES, crate, "src", "*.rt"))):
        if found := re.search(rf"^pub fn {law}\(\)\n((?:    .*\n)*)\{{", read(path), re.MULTILINE):
            begins = re.finditer(r"ensures\*? ?(\w+)? ?\{", found[1])
            terms = [(it[1] or "", braced(found[1], it.end() - 1)) for it in begins]
            chosen = [it for it in terms if it[0] == clause] or terms
            ways = [
                led_to(Term(path, " ".join(term.split())), "" if name == clause else clause)
                for name, term in chosen
            ]
            there = [way for way in ways if way is not None]
            return list(dict.fromkeys(it for way in there for it in way)) if there else None
    return None
