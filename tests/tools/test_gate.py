"""Tests of the gate's counting, with a stand-in for `rt`."""

import contextlib
import io
import os
import subprocess
import sys
from unittest import mock

import support  # noqa: F401
from support import ToolCase

import gate


class Proofs(ToolCase):
    def run_with(self, text):
        """What `gate.proofs` answers and prints where `rt` is this script of a shell."""
        path = self.file("rt", b"#!/bin/sh\n" + text)
        os.chmod(path, 0o755)
        out = io.StringIO()
        with mock.patch.dict(
            os.environ, PATH=f"{self.folder}:{os.environ['PATH']}"
        ), contextlib.redirect_stdout(out):
            return gate.proofs(), out.getvalue()

    def test_the_closing_line_is_held_back(self):
        self.assertEqual(
            self.run_with(b"echo proved; echo '20 passed, 0 failed'"), ((20, 0), "proved\n")
        )

    def test_failures(self):
        self.assertEqual(self.run_with(b"echo '20 passed, 3 failed'; exit 1")[0], (20, 3))
        self.assertEqual(self.run_with(b"echo '20 passed, 0 failed'; exit 1")[0], (20, 1))
        self.assertEqual(self.run_with(b"echo stopped; exit 2")[0], (0, 1))
        self.assertEqual(self.run_with(b"exit 0")[0], (0, 1))

    def test_a_program_that_was_not_built_has_failed(self):
        with mock.patch.object(gate, "ROOT", self.folder), contextlib.redirect_stdout(
            io.StringIO()
        ):
            self.assertEqual(gate.golden_cases(), (0, 1))

    def test_the_library_for_c(self):
        os.mkdir(f"{self.folder}/.ci")
        self.file("Makefile", b"build/libx25.so:\n\t@echo made; [ ! -e bad ]\n")
        for status, counted in ((0, (1, 0)), (1, (0, 1)), (3, (0, 0))):
            os.chmod(self.file(".ci/prove", b"#!/bin/sh\nexit %d\n" % status), 0o755)
            with mock.patch.object(gate, "ROOT", self.folder), mock.patch.object(
                gate.shutil, "which", lambda name: name
            ):
                self.assertEqual(gate.library(), counted)
        out = io.StringIO()
        with mock.patch.object(
            gate.shutil, "which", lambda name: None
        ), contextlib.redirect_stdout(out):
            self.assertEqual(gate.library(), (0, 0))
        self.assertIn("there is no C compiler", out.getvalue())

    def test_the_last_line_counts_all(self):
        out = io.StringIO()
        with mock.patch.multiple(
            gate,
            quick=lambda: True,
            proofs=lambda: (20, 1),
            library=lambda: (1, 0),
            golden_cases=lambda: (5, 0),
            tools=lambda: (7, 2),
        ):
            with contextlib.redirect_stdout(out):
                self.assertEqual(gate.main(), 1)
        *before, last = out.getvalue().splitlines()
        self.assertEqual(last, "33 passed, 3 failed")
        self.assertRegex(
            before[-1],
            r"^[\d.]+ processor minutes \(rt ci 0.0, library for C 0.0, golden cases 0.0, tools "
            r"0.0\), 0 on the clock$",
        )

    def test_processor_time_of_what_has_ended_is_counted(self):
        before = gate.processor_seconds()
        burn = "import time\nwhile time.process_time() < 0.3: pass"
        subprocess.run(["sh", "-c", '"$1" -c "$2"; true', "sh", sys.executable, burn], check=True)
        self.assertGreater(gate.processor_seconds() - before, 0.3)

    def test_nothing_is_begun_where_a_quick_test_fails(self):
        out = io.StringIO()
        with mock.patch.multiple(
            gate, quick=lambda: False, proofs=mock.DEFAULT
        ) as patched, contextlib.redirect_stdout(out):
            self.assertEqual(gate.main(), 1)
        patched["proofs"].assert_not_called()
        self.assertEqual(out.getvalue(), "0 passed, 1 failed\n")
