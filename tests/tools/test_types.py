"""The types of what is in tools/ by mypy, all Python by a linter, each where it is installed, and
the command of the package."""

import os
import re
import shutil
import subprocess
import unittest

import support

from x25tools import command


class Types(unittest.TestCase):
    @unittest.skipUnless(shutil.which("mypy"), "mypy isn't installed")
    def test_mypy_finds_nothing(self):
        done = subprocess.run(
            ["mypy", "--no-error-summary"],
            cwd=support.TOOLS,
            capture_output=True,
            text=True,
            timeout=600,
        )
        self.assertEqual((done.stdout, done.stderr, done.returncode), ("", "", 0))


class Lint(unittest.TestCase):
    @unittest.skipUnless(shutil.which("flake8"), "flake8 isn't installed")
    def test_flake8_finds_nothing(self):
        """`.flake8` says what is left out; scripts without an ending are named."""
        scripts = [os.path.join(".ci", name) for name in ("prove", "tables", "wrong_bodies")]
        done = subprocess.run(
            ["flake8", ".", *scripts],
            cwd=support.ROOT,
            capture_output=True,
            text=True,
            timeout=600,
        )
        self.assertEqual((done.stdout, done.stderr, done.returncode), ("", "", 0))


class Command(unittest.TestCase):
    def test_each_script_has_one(self):
        scripts = {name for name in os.listdir(support.TOOLS) if name.endswith(".py")} - {
            "manpage.py", "x25tools.py"
        }
        self.assertEqual({f"{module}.py" for module, _ in command.COMMANDS.values()}, scripts)

    def test_each_is_a_word_of_what_is_installed_as_x25(self):
        words = re.findall(r"^([a-z |]+)\)$", support.read("share/x25.sh").decode(), re.MULTILINE)
        self.assertEqual(words[0], " | ".join(sorted(command.COMMANDS)))

    def test_it_is_the_script(self):
        self.assertEqual(
            support.run("x25tools.py", "losses", "1", "9").stdout,
            support.run("losses.py", "1", "9").stdout,
        )
        done = support.run("x25tools.py", "dump", "/nowhere/file")
        self.assertEqual(
            (done.returncode, done.stderr),
            (2, b"x25tools.py dump: /nowhere/file: No such file or directory\n"),
        )
        self.assertIn(
            b"usage: x25tools.py chart ", support.run("x25tools.py", "chart", "--help").stdout
        )

    def test_what_is_no_command(self):
        for words, status in (([], 2), (["dance"], 2), (["--help"], 0)):
            with self.subTest(words):
                done = support.run("x25tools.py", *words)
                said = done.stdout if status == 0 else done.stderr
                self.assertEqual(done.returncode, status)
                self.assertIn(b"usage: x25tools COMMAND ..", said)
                for name in command.COMMANDS:
                    self.assertIn(f"\n  {name} ".encode(), said)


if __name__ == "__main__":
    unittest.main()
