"""The wrong bodies of a crate: edits that the prover has to refuse.

In must-fail/ each is a file of its own, FILE.FUNCTION.what.edit, as `rt` reads it. In
wrong-bodies/ those of a source stand in one file, FILE.edits: first the line `file:`, then each
edit with its name FUNCTION.what above it, and an empty line between them.

    file: src/stuffing.rt

    put_octet.put_stuffs_behind_four
    old: STUFFED[run as usize * 256 + octet as usize]
    new: STUFFED[(run as usize + 1) % 5 * 256 + octet as usize]
"""

from __future__ import annotations

import os
import re
from glob import glob
from typing import Iterator


def read(path: str) -> str:
    with open(path, encoding="utf-8") as file:
        return file.read()


def stem(path: str) -> str:
    return os.path.basename(path).rpartition(".")[0]


def of_file(path: str) -> dict[str, str]:
    """The edits of a file of wrong-bodies/, by their names FILE.FUNCTION.what, each with the text
    that `rt` reads."""
    first, *rest = read(path).rstrip("\n").split("\n\n")
    parts = [edit.partition("\n") for edit in rest]
    found = {f"{stem(path)}.{name}": f"{first}\n{text}\n" for name, _, text in parts}
    if len(found) < len(parts):
        raise ValueError(f"{path} has two edits of one name")
    return found


def wrong_bodies(crate: str) -> dict[str, str]:
    """The edits of the wrong-bodies/ of a crate, given by its folder, by their names."""
    return {
        name: text
        for path in sorted(glob(os.path.join(crate, "wrong-bodies", "*.edits")))
        for name, text in of_file(path).items()
    }


def must_fail(crate: str) -> dict[str, str]:
    """The edits of the must-fail/ of a crate, given by its folder, by their names."""
    return {
        stem(path): read(path) for path in sorted(glob(os.path.join(crate, "must-fail", "*.edit")))
    }


def changes(text: str) -> Iterator[tuple[str, str, str]]:
    """Yields what an edit changes: a file, the old text there and the new one."""
    file = old = ""
    for kind, said in re.findall("^(file|old|new): ?(.*)$", text, re.MULTILINE):
        if kind == "file":
            file = said
        elif kind == "old":
            old = said
        else:
            yield file, old, said


def names_of(edit: str) -> set[str]:
    """What a document may call a wrong body FILE.FUNCTION.what: `what`, with FUNCTION or FILE or
    both before it, joined by lines below."""
    source, function, what = edit.split(".")
    return {what, f"{function}_{what}", f"{source}_{what}", f"{source}_{function}_{what}"}
