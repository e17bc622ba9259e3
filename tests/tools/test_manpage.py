"""Tests of manpage.py and of the completion for bash."""

import os
import re
import shutil
import subprocess
import tempfile
import unittest

import support
from support import ToolCase

import manpage
from x25tools import command

COMPLETION = os.path.join(support.ROOT, "share", "x25.bash")


def complete(*words, path=None):
    """What bash offers for the last of some words after `x25`."""
    script = (
        'source "$1"; shift; COMP_WORDS=(x25 "$@"); COMP_CWORD=$#; _x25; echo "${COMPREPLY[*]}"'
    )
    command = ["bash", "-c", script, "bash", COMPLETION, *words]
    environment = {**os.environ, "PATH": path or os.environ["PATH"]}
    done = subprocess.run(
        command, env=environment, capture_output=True, text=True, timeout=60, check=True
    )
    return done.stdout.split()


class Page(ToolCase):
    def test_what_the_manual_is_written_in(self):
        text = (
            "## `x25` \"a\"\n\nIt's `--k` **or**\n.no request\n\n    $ a\\b\n\n    'c\n\n| H | I "
            "|\n|---|---|\n| a \\| b | c |\n- one\n  two\n"
        )
        drawn = support.run("manpage.py", self.file("manual", text.encode())).stdout.decode()
        body = drawn.split(".SH DESCRIPTION\n")[1].split(".SH SEE ALSO\n")[0]
        expected = (
            ".SH x25 \\(dqa\\(dq\n.PP\nIt's \\fB\\-\\-k\\fR \\fBor\\fR\n\\&.no request\n.PP\n.PP\n"
            ".nf\n.RS 4\n$ a\\eb\n\\&\n\\&'c\n\\&\n.RE\n.fi\n"
        )
        expected += ".TP\nH\nI\n.TP\na | b\nc\n.IP \\(bu 2\none\ntwo\n"
        self.assertEqual(body, expected)

    def test_the_manual_keeps_its_headings_and_examples(self):
        manual = support.read("docs/MANUAL.md").decode()
        lines = "\n".join(manpage.roff(manual.splitlines())).splitlines()
        self.assertEqual(
            sum(line.startswith(".SH") for line in lines),
            4 + len(re.findall("^## ", manual, re.MULTILINE)),
        )
        self.assertEqual(
            sum(line.startswith("$ ") for line in lines),
            len(re.findall(r"^    \$ ", manual, re.MULTILINE)),
        )
        self.assertEqual(lines.count(".nf"), lines.count(".fi"))

    def test_the_synopsis_and_the_completion_have_the_words_of_the_manual(self):
        manual = support.read("docs/MANUAL.md").decode()
        head = "\n".join(manpage.head(manual.splitlines()))
        commands = re.findall(r"^\.B x25 (\w+)", head, re.MULTILINE)
        self.assertIn(".B x25 station\nEND [OPTIONS] [FILE]\n", head)
        offered = [word for word in complete("") if word != "help" and word[0] != "-"]
        self.assertEqual([*commands, *command.COMMANDS], offered)
        rows = re.findall(r"^\| `(--[\w-]+)(?: [A-Z]+)?` \| ([a-z, ]+) \| ", manual, re.MULTILINE)
        for name in commands:
            words = {word for word, having in rows if name in having.split(", ")}
            ends = ["dte"] if name in ("station", "deframe") else []
            offered = {*complete(name, *ends, "--"), *complete(name, *ends, "--clock", "--")}
            self.assertEqual({*words, "--help"}, offered, name)

    @unittest.skipUnless(shutil.which("groff"), "groff isn't installed")
    def test_groff_takes_it_without_a_warning(self):
        page = support.run("manpage.py").stdout
        done = subprocess.run(
            ["groff", "-man", "-Tascii", "-ww", "-z"], input=page, capture_output=True, timeout=60
        )
        said = [
            line
            for line in done.stderr.decode().splitlines()
            if "break" not in line and "adjust" not in line
        ]
        self.assertEqual((done.returncode, said), (0, []))


class Completion(unittest.TestCase):
    def test_words(self):
        self.assertEqual(complete("dec"), ["decode"])
        self.assertEqual(complete("deframe", ""), ["dte", "dce", "--help"])
        self.assertEqual(complete("deframe", "dte", ""), ["--help"])
        self.assertEqual(complete("--"), ["--help", "--version"])
        self.assertEqual(complete("decode", "--l"), ["--long", "--loose"])
        self.assertEqual(complete("sim", "--tap", "--k", ""), list("1234567"))
        self.assertEqual(complete("station", "d"), ["dte", "dce"])
        self.assertEqual(complete("station", "dte", "--k", ""), list("1234567"))
        self.assertEqual(complete("judge", "--k", ""), list("1234567"))
        self.assertEqual(complete("vectors", "x"), [])

    def test_what_is_refused_is_not_offered(self):
        """A word that is there, a timer without a clock, a channel that isn't there, and the
        scripts where `x25` is the program by itself."""
        self.assertEqual(complete("decode", "--long", "--"), ["--loose", "--wide", "--help"])
        self.assertNotIn("--t1", complete("station", "dte", "--"))
        self.assertIn("--t1", complete("station", "dte", "--clock", "--"))
        self.assertEqual(complete("station", "dte", "--incoming", ""), ["0", "1"])
        with tempfile.TemporaryDirectory() as folder:
            for octets, has_scripts in (b"\x7fELF\0\0", False), (b"#!/bin/sh\n", True):
                with open(f"{folder}/x25", "wb") as out:
                    out.write(octets)
                os.chmod(f"{folder}/x25", 0o755)
                offered = complete("", path=f"{folder}:{os.environ['PATH']}")
                self.assertEqual(["dump" in offered, "decode" in offered], [has_scripts, True])

    @support.needs_program
    def test_all_words_of_the_program_are_offered(self):
        for words in (
            [], ["decode"], ["sim"], ["station", "dte"], ["judge"], ["vectors"], ["frame"]
        ):
            done = subprocess.run(
                [support.PROGRAM, *words, "--help"], capture_output=True, text=True, timeout=60
            )
            usage = done.stdout + done.stderr
            said = set(re.findall(r"^  (?:    |-[hV], )?(--[\w-]+)", usage, re.MULTILINE)) | set(
                re.findall(r"^  (\w+)  ", usage, re.MULTILINE) if not words else []
            )
            said |= set() if words else set(command.COMMANDS)
            self.assertTrue(said)
            offered = [*complete(*words, ""), *complete(*words, "--")]
            offered += complete(*words, "--clock", "--") if words else []
            self.assertEqual(set(offered), said, words)


if __name__ == "__main__":
    unittest.main()
