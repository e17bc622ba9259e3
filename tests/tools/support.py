"""What the tests of the tools share: the folders, running a script, the built program."""

import os
import select
import subprocess
import sys
import tempfile
import unittest
from glob import glob

TESTS = os.path.dirname(os.path.dirname(os.path.abspath(__file__)))
ROOT = os.path.dirname(TESTS)
TOOLS = os.path.join(ROOT, "tools")
GOLDEN = os.path.join(TESTS, "golden")
sys.path[:0] = [TESTS, TOOLS]

import edits  # noqa: E402
from program import find_program  # noqa: E402

PROGRAM = find_program()
needs_program = unittest.skipUnless(PROGRAM, "the program x25 isn't built")


def has_station():
    """Whether the program is built, and has the word `station`: that writes a mark before it reads
    anything."""
    if not PROGRAM:
        return False
    done = subprocess.run(
        [PROGRAM, "station", "dte"],
        stdin=subprocess.DEVNULL,
        stdout=subprocess.PIPE,
        stderr=subprocess.DEVNULL,
        timeout=60,
    )
    return done.stdout.startswith(b". ")


def is_unproved():
    """Whether the program is one of `make look`. A sanitizer watches it, and it is slow."""
    if not PROGRAM:
        return False
    done = subprocess.run(
        [PROGRAM, "--version"], stdin=subprocess.DEVNULL, capture_output=True, timeout=60
    )
    return done.stdout.endswith(b" unproved\n")


# How much shorter long inputs are for a program that is slow.
SHARE = 100 if is_unproved() else 1


def runs(count):
    """How many random runs a test plays: so many with a program that is proved, else a tenth."""
    return count if SHARE == 1 else max(1, count // 10)


needs_station = unittest.skipUnless(
    has_station(),
    "the program has no word `station` yet" if PROGRAM else "the program x25 isn't built",
)


def run(script, *words, given=b""):
    """Runs a script of tools/ on some octets; answers what it did: returncode, stdout, stderr."""
    command = [sys.executable, os.path.join(TOOLS, script), *words]
    return subprocess.run(command, input=given, capture_output=True, timeout=60)


class Live:
    """A script that runs while a test feeds it, with Python's normal buffering; `line` answers
    what comes within seconds."""

    def __init__(self, script, *words):
        command = [sys.executable, os.path.join(TOOLS, script), *words]
        environment = {
            name: value for name, value in os.environ.items() if name != "PYTHONUNBUFFERED"
        }
        self._child = subprocess.Popen(
            command,
            stdin=subprocess.PIPE,
            stdout=subprocess.PIPE,
            stderr=subprocess.PIPE,
            env=environment,
        )

    def give(self, octets):
        """Writes octets to the script, and leaves its input open."""
        self._child.stdin.write(octets)
        self._child.stdin.flush()

    def some(self):
        """The octets that the script writes next; none within ten seconds are an error of the
        test."""
        if not select.select([self._child.stdout], [], [], 10)[0]:
            raise AssertionError("nothing was written before the end of the input")
        return os.read(self._child.stdout.fileno(), 1 << 16)

    def end(self):
        """Ends the input; answers the status and what else was written."""
        out, said = self._child.communicate(timeout=60)
        return self._child.returncode, out, said


# Runs a command, and says on standard error, last, how much memory it had at most, in kilobytes.
PEAK = """import resource, subprocess, sys
status = subprocess.call(sys.argv[1:])
sys.stderr.write(f"{resource.getrusage(resource.RUSAGE_CHILDREN).ru_maxrss}\\n")
sys.exit(status)"""


def run_with_peak(words, given):
    """What the program does with an input, and how much memory it had at most, in kilobytes.

    A program that a sanitizer watches gives back what it is done with at once."""
    command = [sys.executable, "-c", PEAK, PROGRAM, *words]
    environment = {**os.environ, "ASAN_OPTIONS": "quarantine_size_mb=0"}
    done = subprocess.run(command, input=given, env=environment, capture_output=True, timeout=60)
    *said, peak = done.stderr.splitlines(keepends=True)
    done.stderr = b"".join(said)
    return done, int(peak)


def decode(trace, *words):
    """What `x25 decode` answers to a trace, as lines of text."""
    done = subprocess.run(
        [PROGRAM, "decode", *words], input=trace, capture_output=True, timeout=60, check=True
    )
    return done.stdout.decode().splitlines()


def read(*path):
    """The octets of a file of the repository."""
    with open(os.path.join(ROOT, *path), "rb") as file:
        return file.read()


def claims():
    """The text of docs/PROOFS.md and of the claims of each crate."""
    files = [
        os.path.join(ROOT, "docs", "PROOFS.md"),
        *sorted(glob(os.path.join(ROOT, "crates", "*", "README.md"))),
    ]
    return "\n".join(read(file).decode() for file in files)


def names_of_edits(crate="*"):
    """What documents may call the wrong bodies of a crate, or of all."""
    folders = glob(os.path.join(ROOT, "crates", crate))
    return {
        name
        for folder in folders
        for of in (edits.must_fail, edits.wrong_bodies)
        for edit in of(folder)
        for name in edits.names_of(edit)
    }


class ToolCase(unittest.TestCase):
    """A test that runs scripts, with a folder for its files."""

    def setUp(self):
        folder = tempfile.TemporaryDirectory()
        self.addCleanup(folder.cleanup)
        self.folder = folder.name

    def file(self, name, octets):
        """Writes a file into the test's folder; answers its path."""
        path = os.path.join(self.folder, name)
        with open(path, "wb") as out:
            out.write(octets)
        return path

    def sparse(self, name, octets, size=1 << 30):
        """Writes a file that begins with some octets and goes on with 0 up to a size, without
        taking so much room."""
        path = self.file(name, octets)
        os.truncate(path, size)
        return path

    def assert_refused(self, done, words):
        """The script has ended with status 2 and one line that has these words."""
        said = done.stderr.decode()
        self.assertEqual(done.returncode, 2, said)
        self.assertIn(words, said)
        self.assertEqual(said.count("\n"), 1, said)
