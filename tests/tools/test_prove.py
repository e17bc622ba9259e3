"""Tests of how `make x25` has a program proved with all that it stands on, with a stand-in for
`rt`."""

import os
import shutil
import subprocess

import support
from support import ToolCase

# Proves the crates of the rows in order, but for one with a file `false`, and those that come
# after it; and builds a program of each. It refuses a copy with wrong bodies, or with what was
# built before. Of a static library it builds the archive by `rt lib`.
RT = b"""#!/bin/sh
if [ "$1" = lib ]; then
    crate=$(basename "$PWD")
    [ -e wrong ] && { echo "an open goal of $crate"; exit 1; }
    mkdir out
    echo "$(ls ..)" > out/lib$crate.a
    exit 0
fi
[ "$1" = ci ] && [ -e HANDLES ] || exit 2
for crate in $(sed "s/:.*//" crates.txt); do
    [ -e crates/$crate/must-fail ] || [ -e crates/$crate/out ] && exit 2
    echo "== $crate"
    [ -e crates/$crate/false ] && { echo "an open goal"; echo "rt: $crate NOT PROVED"; exit 1; }
    echo "fn $crate::f: proved"
    if [ $crate = kept ]; then
        echo "rt: kept is kept: an earlier run proved it"
    else
        echo "rt: $crate proved"
    fi
    mkdir crates/$crate/out
    echo "$(ls crates)" > crates/$crate/out/$crate
done
[ -e crates/program/wrong ] && { echo "the program wrote something else"; exit 1; }
echo "5 passed, 0 failed"
"""

CRATES = {
    "low": "", "kept": "low", "right": "low", "high": "kept right low", "apart": "",
    "program": "high low", "archive staticlib": "right",
}


class Prove(ToolCase):
    def proves(self, name, *first, broken=()):
        """The status, the crates that are said to be proved, and what is said of an error, in a
        repository of CRATES."""
        rows = "".join(f"{crate}: {low} thiserror\n" for crate, low in CRATES.items())
        self.file("crates.txt", f"# lowest first\n{rows}".encode())
        for crate in (row.split()[0] for row in CRATES):
            os.makedirs(f"{self.folder}/crates/{crate}/must-fail")
            os.makedirs(f"{self.folder}/crates/{crate}/out")
            if crate in broken:
                self.file(f"crates/{crate}/false", b"")
        if name in broken:
            os.rename(f"{self.folder}/crates/{name}/false", f"{self.folder}/crates/{name}/wrong")
        os.makedirs(f"{self.folder}/.ci")
        shutil.copy(f"{support.ROOT}/.ci/prove", f"{self.folder}/.ci")
        os.chmod(self.file("rt", RT), 0o755)
        self.file("HANDLES", b"Handles allowed: none.\n")
        environment = dict(os.environ, PATH=f"{self.folder}:{os.environ['PATH']}", PROVE_LEAD="0")
        ran = subprocess.run(
            [f"{self.folder}/.ci/prove", name, *first],
            env=environment,
            capture_output=True,
            text=True,
        )
        return (
            ran.returncode,
            [line.partition(":")[0] for line in ran.stdout.splitlines()],
            ran.stderr,
        )

    def test_what_it_stands_on_and_itself(self):
        self.assertEqual(
            self.proves("program"), (0, ["low", "kept", "right", "high", "program"], "")
        )

    def test_a_run_before_over_some_of_them_changes_nothing(self):
        self.assertEqual(
            self.proves("program", "right"), (0, ["low", "kept", "right", "high", "program"], "")
        )

    def test_the_program_is_left_in_build(self):
        self.proves("program")
        self.assertEqual(os.listdir(f"{self.folder}/build"), ["program"])
        with open(f"{self.folder}/build/program") as file:
            self.assertEqual(file.read().split(), ["high", "kept", "low", "program", "right"])

    def test_nothing_is_below(self):
        self.assertEqual(self.proves("apart"), (0, ["apart"], ""))

    def test_a_static_library_is_built_behind_the_others(self):
        status, proved, said = self.proves("archive")
        self.assertEqual((status, proved), (0, ["low", "right", "archive"]))
        self.assertRegex(said, r"^rt lib doesn't take what rt ci proved: ")
        self.assertEqual(os.listdir(f"{self.folder}/build"), ["libarchive.a"])
        with open(f"{self.folder}/build/libarchive.a") as file:
            self.assertEqual(file.read().split(), ["archive", "low", "right"])

    def test_a_static_library_is_not_proved(self):
        status, proved, said = self.proves("archive", broken=["archive"])
        self.assertEqual((status, proved), (1, ["low", "right"]))
        self.assertIn("an open goal of archive\n", said)
        self.assertFalse(os.path.exists(f"{self.folder}/build"))

    def test_one_that_is_built_already_wants_what_rt_lib_takes(self):
        status, proved, said = self.proves("--built", "archive")
        self.assertEqual((status, proved), (3, []))
        self.assertIn("rt lib doesn't take what rt ci proved: ", said)

    def test_one_is_not_proved(self):
        status, proved, said = self.proves("program", broken=["right"])
        self.assertEqual(
            (status, proved, said),
            (1, ["low", "kept"], "== right\nan open goal\nrt: right NOT PROVED\n"),
        )
        self.assertFalse(os.path.exists(f"{self.folder}/build"))

    def test_the_program_runs_wrong(self):
        status, proved, said = self.proves("program", broken=["program"])
        self.assertEqual((status, proved[-1]), (1, "program"))
        self.assertIn("the program wrote something else\n", said)

    def test_no_such_crate(self):
        self.assertEqual(self.proves("other"), (2, [], "There is no crate other.\n"))
