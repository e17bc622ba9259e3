"""The sources and definitions: how wide they are, that each comment is a sentence of its own, and
that no long clause stands in many places."""

import os
import re
import unittest
from collections import Counter
from glob import glob

import support

WIDTH, WIDTH_OF_PYTHON = 120, 99
# Folders of what was built.
BUILT = (".git", "out", "build", "__pycache__")
LONG_CLAUSE = 100
STRING = re.compile(r'"(?:[^"\\]|\\.)*"')


def sources(*folders):
    """The paths of the files of each crate that stand in these folders, from the root on."""
    for folder in folders:
        for path in glob(
            os.path.join(support.ROOT, "crates", "*", folder, "**", "*.*"), recursive=True
        ):
            yield os.path.relpath(path, support.ROOT)


def scripts():
    """The paths of the files of Python, from the root on."""
    for folder, folders, names in os.walk(support.ROOT):
        folders[:] = [name for name in folders if name not in BUILT]
        for path in (os.path.join(folder, name) for name in names):
            if path.endswith(".py") or "." not in os.path.basename(path) and is_script(path):
                yield os.path.relpath(path, support.ROOT)


def is_script(path):
    """Whether a file begins as a script of Python does."""
    with open(path, "rb") as file:
        return re.match(rb"#!.*python", file.readline(200)) is not None


def lines_of(path):
    return enumerate(support.read(path).decode().splitlines(), 1)


def clauses(text):
    """The clauses of a source without their names, each on one line."""
    text = re.sub(r"//.*", "", text)
    for head in re.finditer(r"\b(?:ensures|requires)\*?\s+\w*\s*\{", text):
        depth, end = 1, head.end()
        while depth:
            depth += {"{": 1, "}": -1}.get(text[end], 0)
            end += 1
        yield " ".join(text[head.end() : end - 1].split())


class Sources(unittest.TestCase):
    def test_no_line_is_wider(self):
        """But for one string that is wider itself: a text that is compared as a whole stands on
        one line."""
        for path in sources("src", "specs"):
            wide = [
                number
                for number, line in lines_of(path)
                if len(line) - max(map(len, STRING.findall(line)), default=0) > WIDTH
            ]
            with self.subTest(path):
                self.assertEqual(wide, [])

    def test_no_comment_goes_on_from_another(self):
        for path in sources("src", "specs", "proofs"):
            going_on = [
                number
                for number, line in lines_of(path)
                if re.match(r"\s*(?:--|//[/!]?) \.\.", line)
            ]
            with self.subTest(path):
                self.assertEqual(going_on, [])

    def test_no_long_clause_stands_in_four_places(self):
        """What so many functions of a crate have in common is a record, which each ensures by its
        name."""
        counts = Counter()
        for path in sources("src"):
            if path.endswith(".rt"):
                counts.update(
                    (path.split(os.sep)[1], clause)
                    for clause in clauses(support.read(path).decode())
                )
        often = [
            place for place, count in counts.items() if count >= 4 and len(place[1]) >= LONG_CLAUSE
        ]
        self.assertEqual(often, [])

    def test_no_line_of_python_is_wider(self):
        for path in scripts():
            wide = [number for number, line in lines_of(path) if len(line) > WIDTH_OF_PYTHON]
            with self.subTest(path):
                self.assertEqual(wide, [])
