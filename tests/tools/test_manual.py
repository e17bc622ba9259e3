"""Runs the examples of the documents, by tests/pages.py, and those of README.md as they stand
there."""

import os
import re
import shutil
import socket
import subprocess
import sys
import unittest

import pages
import support
from support import ToolCase
from tunnels import free_ports

# Pages for users of what is installed: `x25` is on the PATH, with the scripts as its words.
PAGES = ["docs/MANUAL.md", "docs/CAPTURES.md", "docs/JUDGE.md"]
EXAMPLE = re.compile(r"^    \$ ((?:.*[|\\]\n    )*.*)\n((?:    (?!\$ ).*\n)*)", re.MULTILINE)


def examples(document):
    """Each command of a document, with the text that stands below it."""
    text = support.read(document).decode()
    return [
        (command, re.sub("^    ", "", output, flags=re.MULTILINE))
        for command, output in EXAMPLE.findall(text)
    ]


@support.needs_program
class Examples(ToolCase):
    def setUp(self):
        """Makes a folder that looks like the root of the repository, with what is installed on the
        PATH."""
        super().setUp()
        self.environment = pages.lay_out(self.folder, support.PROGRAM)

    def test_each_example_writes_what_stands_below_it(self):
        before = sorted(os.listdir(self.folder))
        for page in PAGES:
            found = list(
                pages.examples(support.read(page).decode(), self.folder, self.environment)
            )
            self.assertGreater(len(found), 5)
            for stood, answered in found:
                with self.subTest(f"{page}: {stood.splitlines()[0].strip()}"):
                    self.assertEqual(answered, stood)
        self.assertEqual(sorted(os.listdir(self.folder)), before)

    def test_the_commands_of_the_first_page_run_behind_make_look(self):
        """With nothing but what that leaves: no x25 on the PATH, and scripts that say that theirs
        is unproved."""
        os.unlink(f"{self.folder}/tools")
        shutil.copytree(
            support.TOOLS, f"{self.folder}/tools", ignore=shutil.ignore_patterns("__pycache__")
        )
        os.mkdir(f"{self.folder}/build")
        os.symlink(os.path.realpath(support.PROGRAM), f"{self.folder}/build/x25-unproved")
        environment = {**self.environment, "PATH": os.environ["PATH"], "X25": ""}
        commands = examples("README.md")
        self.assertGreaterEqual(len(commands), 3)
        for command, output in commands:
            with self.subTest(command):
                done = subprocess.run(
                    ["bash", "-c", command],
                    cwd=self.folder,
                    env=environment,
                    capture_output=True,
                    text=True,
                    timeout=60,
                )
                self.assertEqual(done.stdout, output)
                self.assertRegex(
                    done.stderr, r"^(\w+\.py: \S+/build/x25-unproved is unproved .*\n)?$"
                )

    def test_two_stations_in_two_shells_talk_to_each_other(self):
        """The two commands of docs/BRIDGE.md, at another port."""
        text = re.sub("^    ", "", support.read("docs/BRIDGE.md").decode(), flags=re.MULTILINE)
        port, = free_ports(1, socket.SOCK_STREAM)
        bridge = f'"{sys.executable}" "{support.TOOLS}/bridge.py" --x25 "{support.PROGRAM}"'
        shells = (
            r"^(printf .*\\\n.* \| x25 bridge dce --listen 7000 .*)\n(printf .*\\\n(?:.*\n"
            r")*?.*localhost:7000 .*)$"
        )
        listens, calls = (
            command.replace("7000", str(port)).replace("x25 bridge", bridge)
            for command in re.search(shells, text, re.MULTILINE).groups()
        )
        how = {
            "cwd": self.folder,
            "env": self.environment,
            "stdout": subprocess.PIPE,
            "stderr": subprocess.STDOUT,
            "text": True,
        }
        with subprocess.Popen(["bash", "-c", listens], **how) as called:
            self.assertIn("listening", called.stdout.readline())
            calling = subprocess.run(["bash", "-c", calls], timeout=60, **how)
            told = called.communicate(timeout=60)[0]
        self.assertEqual((called.returncode, calling.returncode), (0, 0))
        self.assertIn("dce accept ch=1", told)
        self.assertIn("dte message ch=1 at 1.0.0 q=0 data=776f726c64", calling.stdout)

    def test_the_program_in_python(self):
        text = support.read("docs/MANUAL.md").decode()
        lines = re.search(r"^    import subprocess\n(?:(?:    .*)?\n)+", text, re.MULTILINE)[0]
        program = re.sub("^    ", "", lines, flags=re.MULTILINE)
        self.assertLessEqual(
            len([line for line in program.splitlines() if line.strip() and '"""' not in line]), 25
        )
        written = re.search(r"^It writes `(.*)`\.$", text, re.MULTILINE)[1]
        done = subprocess.run(
            [sys.executable, "-c", program],
            env=self.environment,
            capture_output=True,
            text=True,
            timeout=60,
        )
        self.assertEqual((done.stdout, done.stderr), (written + "\n", ""))

    def test_each_subcommand_has_one(self):
        usage = subprocess.run(
            [support.PROGRAM, "--help"], capture_output=True, text=True, timeout=60
        ).stdout
        subcommands = set(re.findall(r"^  (\w+)  ", usage, re.MULTILINE)) - {"help"}
        commands = "\n".join(command for command, _ in examples("docs/MANUAL.md"))
        self.assertTrue(subcommands)
        self.assertEqual(
            {name for name in subcommands if not re.search(rf"\bx25 {name}\b", commands)}, set()
        )

    def test_each_example_of_the_help_runs(self):
        for words in ([], ["decode"], ["vectors"], ["sim"], ["judge"], ["frame"]):
            done = subprocess.run(
                [support.PROGRAM, *words, "--help"], capture_output=True, text=True, timeout=60
            )
            self.assertEqual((done.returncode, done.stderr), (0, ""))
            self.assertIn("Usage: x25", done.stdout)
            commands = re.findall(
                r"^  (x25 .*)$", done.stdout.partition("Examples:")[2], re.MULTILINE
            )
            self.assertEqual(bool(commands), words in (["sim"], ["judge"]))
            for command in commands:
                with self.subTest(command):
                    done = subprocess.run(
                        ["bash", "-o", "pipefail", "-c", command],
                        cwd=self.folder,
                        env=self.environment,
                        capture_output=True,
                        text=True,
                        timeout=60,
                    )
                    self.assertEqual((done.returncode, done.stderr), (0, ""), command)
                    self.assertTrue(done.stdout)
                    self.assertNotRegex(done.stdout, "(?m)^[!?]|fault")


class Documents(unittest.TestCase):
    def test_they_have_examples(self):
        for document in ["README.md", "docs/MANUAL.md", "docs/CAPTURES.md"]:
            self.assertTrue(examples(document), document)

    def test_each_text_of_judge_has_an_example(self):
        page = support.read("docs/JUDGE.md").decode()
        texts = re.findall(
            r"^\*\*`([^`]*)`\.\*\*(.*?)(?=^\*\*`|^## )", page, re.MULTILINE | re.DOTALL
        )
        self.assertGreater(len(texts), 35)
        for text, below in texts:
            shown = [line for line in below.splitlines() if line.startswith("    ")]
            self.assertTrue([line for line in shown if text in line], text)

    def test_what_excludes_a_bug_is_proved(self):
        """Each function and clause that docs/BUGS.md names as excluding a bug stands among the
        claims, or is a wrong body."""
        section = re.sub(
            r"\n +(?=[^ -])",
            " ",
            support.read("docs/BUGS.md").decode().split(
                "## Excluded by what is proved"
            )[1].split("\n## ")[0],
        )
        claimed = set(re.findall(r"\w+", " ".join(re.findall("`([^`]*)`", support.claims()))))
        wrong_bodies = support.names_of_edits()
        reasons = re.findall(r"^  - (.*)$", section, re.MULTILINE)
        self.assertEqual(len(reasons), len(re.findall(r"^- ", section, re.MULTILINE)))
        for reason in reasons:
            with self.subTest(reason):
                names = {
                    name
                    for code in re.findall("`([^`]*)`", reason)
                    for name in re.findall(r"\w+", code)
                }
                self.assertTrue(names)
                self.assertEqual(names - claimed - wrong_bodies, set())

    def test_each_script_stands_in_the_manual(self):
        manual = support.read("docs/MANUAL.md").decode()
        scripts = [
            name
            for name in os.listdir(support.TOOLS)
            if os.access(os.path.join(support.TOOLS, name), os.X_OK) and name.endswith(".py")
        ]
        self.assertEqual([name for name in scripts if name not in manual], [])


if __name__ == "__main__":
    unittest.main()
