"""The edits of must-fail/ and wrong-bodies/ still fit the files that they change, and are named
for them; whether the prover refuses them is tried elsewhere."""

import os
import re
import unittest
from glob import glob

import support

import edits

LINE = re.compile("file: \\S+|old: .*|new: .*")


def misfits(crate, edit):
    """The texts of an edit that don't stand exactly once in their file, the edits before them
    done."""
    texts = {}
    for file, old, new in edits.changes(edit):
        text = texts.get(file) or support.read("crates", crate, file).decode()
        if text.count(old) != 1:
            yield old
        texts[file] = text.replace(old, new, 1)


def crates():
    """The folders of the crates."""
    return glob(os.path.join(support.ROOT, "crates", "*"))


def all_edits():
    """The crate, the name and the text of each edit."""
    return sorted(
        (os.path.basename(crate), *edit)
        for crate in crates()
        for of in (edits.must_fail, edits.wrong_bodies)
        for edit in of(crate).items()
    )


class Edits(unittest.TestCase):
    def test_each_old_text_stands_once(self):
        self.assertTrue(all_edits())
        for crate, name, edit in all_edits():
            with self.subTest(f"{crate}: {name}"):
                self.assertEqual(list(misfits(crate, edit)), [])

    def test_each_is_named_for_its_place(self):
        """An edit is FILE.FUNCTION.what: the file that it changes first, without its ending, and a
        name that stands there."""
        for crate, name, edit in all_edits():
            with self.subTest(f"{crate}: {name}"):
                self.assertRegex(name, r"^\w+\.\w+\.\w+$")
                self.assertEqual(
                    [line for line in edit.splitlines() if not LINE.fullmatch(line)], []
                )
                file, function, _ = name.split(".")
                first = re.match(r"file: (\S+)\n", edit)[1]
                self.assertEqual(file, os.path.splitext(os.path.basename(first))[0])
                self.assertRegex(support.read("crates", crate, first).decode(), rf"\b{function}\b")

    def test_no_other_files_stand_beside_them(self):
        files = {
            path
            for crate in crates()
            for path in glob(os.path.join(crate, "must-fail", "*"))
            + glob(os.path.join(crate, "wrong-bodies", "*"))
        }
        self.assertEqual(
            [
                path
                for path in files
                if not re.search(r"/must-fail/[\w.]+\.edit$|/wrong-bodies/\w+\.edits$", path)
            ],
            [],
        )

    def test_the_gate_tries_few(self):
        """For the edit of a must-fail/ the gate proves its crate a second time, from nothing."""
        tried = {crate: len(found) for crate in crates() if (found := edits.must_fail(crate))}
        self.assertLessEqual(len(tried), 8)
        self.assertEqual(set(tried.values()), {1})
