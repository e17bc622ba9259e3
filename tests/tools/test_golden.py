"""Tests of the runner of the golden cases, and of the cases' files."""

import os
import re
import unittest
from unittest import mock

import support
from support import ToolCase

import golden
import rows


class Files(unittest.TestCase):
    def test_each_case_is_of_its_subject(self):
        """A subject is the word that the program is called by, or its usage."""
        paths = [
            os.path.join(folder, name)
            for folder, _, names in os.walk(support.GOLDEN)
            for name in names
        ]
        others = {
            os.path.relpath(path, support.GOLDEN)
            for path in paths
            if not re.search(r"/\w+/\w+\.cases$", path)
        }
        self.assertEqual(others, {".gitattributes", "beginnings.txt"})
        subjects = {
            case.name: (case.name.partition("/")[0], case.words)
            for case in golden.cases(golden.names())
        }
        self.assertEqual(
            [
                name
                for name, (subject, words) in subjects.items()
                if subject != "usage" and words[0] != subject
            ],
            [],
        )

    def test_bad_usage_writes_nothing(self):
        cases = [case for case in golden.cases(golden.chosen(["usage"])[0]) if case.status]
        self.assertGreater(len(cases), 15)
        self.assertEqual({(case.output, case.status) for case in cases}, {(b"", 2)})


class Form(ToolCase):
    def case(self, text, rows=b""):
        """A case with this text, or as these rows."""
        os.makedirs(os.path.join(self.folder, "decode"), exist_ok=True)
        self.file("decode/some.cases", b"one: " + rows if rows else b"one\n" + text)
        with mock.patch.object(golden, "FOLDER", self.folder):
            case, = golden.cases(golden.names())
            self.assertEqual(case.name, "decode/one")
            return case

    def sections(self, text):
        case = self.case(b"$ x25 decode\n%s== status 1\n" % text)
        return case.input, case.output

    def test_words_input_answer_and_status(self):
        case = self.case(
            b"$ x25 decode --wide 'two words' ''\n== input\n> 01\n== answer\n> fault 1\n\n== "
            b"status 3\n"
        )
        self.assertEqual(
            (case.words, case.input, case.output, case.status),
            (["decode", "--wide", "two words", ""], b"> 01\n", b"> fault 1\n\n", 3),
        )

    def test_empty(self):
        self.assertEqual(self.sections(b"== input\n== answer\n"), (b"", b""))

    def test_without_a_final_line_feed(self):
        self.assertEqual(
            self.sections(b"== input without final LF\na\nb\n== answer without final LF\na\n\n"),
            (b"a\nb", b"a\n"),
        )

    def test_hex(self):
        self.assertEqual(
            self.sections(b"== input in hex\n00 7eff\n80\n== answer in hex\n0a\n"),
            (b"\x00\x7e\xff\x80", b"\n"),
        )

    def test_python(self):
        text = (
            b'== input in Python\n"a" * 3\n(\n  b"\\xff" +\n  bytes(2)\n)\n"\\r\\n"\n== answer in '
            b'Python\nbytes(range(3)).hex()\n'
        )
        self.assertEqual(self.sections(text), (b"aaa\xff\0\0\r\n", b"000102"))

    def rows(self, text):
        case = self.case(b"", text)
        return case.words, case.input, case.output, case.status

    def test_rows(self):
        text = (
            b"x25 station dte --k 2 = 1\n=> . off busy\na => b / c\n    / d\ne / f\n> 01 -> fault "
            b"3 / no slash\n"
        )
        given, answer = b"a\ne\nf\n> 01\n", b". off busy\nb\nc\nd\n> fault 3 / no slash\n"
        self.assertEqual(self.rows(text), (["station", "dte", "--k", "2"], given, answer, 1))

    def test_rows_of_counts(self):
        text = (
            b"x25 judge = 0\ncounts dte 5 4 1, 0 1 1 0, dce 2 2 0, 12 3 0 3, told 1 2\ncounts "
            b"told 0 0 3\n"
        )
        answer = (
            "# dte: 5 frames, 4 judged, 1 not judged\n# dte channel 0: 1 packets, 1 judged, 0 not "
            "judged\n"
        )
        answer += (
            "# dce: 2 frames, 2 judged, 0 not judged\n# dce channel 12: 3 packets, 0 judged, 3 "
            "not judged\n"
        )
        answer += "# told: 1 rules, 2 manners\n# told: 0 rules, 0 manners, 3 in doubt\n"
        self.assertEqual(self.rows(text), (["judge"], b"", answer.encode(), 0))

    def test_a_beginning(self):
        text = b"x25 judge = 0\n= up\n> 01\n"
        given, answer = b"> 013febdf\n< 01738357\n> 01\n", b"> SABM cmd P=1\n< UA rsp F=1\n"
        self.assertEqual(self.rows(text), (["judge"], given, answer, 0))

    def test_sections_as_rows(self):
        text = b"== input in rows without final LF\na / b\n/ c\n== answer in rows\nd / e\n"
        self.assertEqual(self.sections(text), (b"a\nb\nc", b"d\ne\n"))

    def test_a_case_that_is_written_as_rows_says_the_same(self):
        for name in (
            "judge/accepts_no_call_between_two_restarts",
            "station/call_collision",
            "decode/loose",
            "sim/heal_both_ends",
        ):
            case, = golden.cases([name])
            for program in (None, support.PROGRAM):
                text = rows.as_rows(case, program)
                if text is not None:
                    other = golden.Case(name, text)
                    self.assertEqual(
                        (other.words, other.input, other.output, other.status),
                        (case.words, case.input, case.output, case.status),
                    )

    def test_what_has_another_form(self):
        for text in (
            b"== input\n",
            b"== input\na\n== answer\n== answer\n",
            b"== input\na\n== input\n== answer\n",
            b"== answer\n== input\n",
        ):
            with self.subTest(text), self.assertRaisesRegex(ValueError, "has not the form"):
                self.sections(text)
        with self.assertRaisesRegex(ValueError, "doesn't say how"):
            self.sections(b"== input in base64\nAA==\n== answer\n")

    def test_cases_of_one_file(self):
        one, two = (
            f"$ x25 decode\n== input\n{text}\n== answer\n== status 1\n".encode()
            for text in ("a\n\nb", "two")
        )
        os.makedirs(os.path.join(self.folder, "decode"))
        for text, found in (
            (
                b"first\n" + one + b"\nsecond\n" + two,
                [("decode/first", b"a\n\nb\n"), ("decode/second", b"two\n")],
            ),
            (b"first\n" + one, [("decode/first", b"a\n\nb\n")]),
            (b"first\n" + one + b"\nfirst\n" + two, "two cases have one name"),
            (one + b"\nsecond\n" + two, "begins with no name"),
            (b"first\n" + one + b"\n" + two, "has not the form"),
        ):
            self.file("decode/some.cases", text)
            with self.subTest(text), mock.patch.object(golden, "FOLDER", self.folder):
                if isinstance(found, list):
                    self.assertEqual(
                        [(case.name, case.input) for case in golden.cases(golden.names())], found
                    )
                else:
                    with self.assertRaisesRegex(ValueError, found):
                        golden.cases(golden.names())

    def test_chosen(self):
        self.assertEqual(
            golden.chosen(["decode/set_up", "frames"]), (["decode/set_up"], ["frames"])
        )
        self.assertEqual(golden.chosen(["vectors"]), (["vectors/all", "vectors/read_nothing"], []))


class Runner(ToolCase):
    def program(self, text):
        """A program that a shell runs."""
        path = self.file("program", b"#!/bin/sh\n" + text)
        os.chmod(path, 0o755)
        return path

    def test_agreement(self):
        program = self.program(b'printf "> SABM cmd P=1\\n< UA rsp F=1\\n"')
        self.assertEqual(golden.run(program, ["decode/set_up"]), (1, 0))

    def test_differences(self):
        case, = golden.cases(["decode/set_up"])
        for text, difference in (
            (b'printf "> SABM cmd P=1\\n< UA rsp F=1\\n"; exit 1', "status 1, wanted 0"),
            (
                b'printf "> SABM cmd P=1\\n< UA rsp F=0\\n"',
                "line 2: wanted b'< UA rsp F=1', got b'< UA rsp F=0'",
            ),
            (b'printf "> SABM cmd P=1\\n< UA rsp F=1"', "wanted 2 ended lines, got 1"),
            (b'printf "> SABM cmd P=1\\n< UA rsp F=1\\n\\n"', "wanted 2 ended lines, got 3"),
            (b"exit 0", "line 1: wanted b'> SABM cmd P=1', got b''"),
        ):
            with self.subTest(text):
                self.assertEqual(case.difference(self.program(text)), difference)

    def test_the_program_gets_words_and_input(self):
        program = self.program(
            b'[ "$*" = decode ] && [ "$(cat)" = "> 013febdf\n< 01738357" ] || exit 5'
        )
        cases = golden.cases(["decode/set_up", "usage/empty_word", "usage/no_words"])
        self.assertNotIn("status 5", cases[0].difference(program))
        self.assertEqual([case.words for case in cases[1:]], [[""], []])


if __name__ == "__main__":
    unittest.main()
