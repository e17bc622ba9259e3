"""Tests of `x25 tabs`: what the scripts read of a line is what its record has."""

import glob
import os
import subprocess
import unittest

import support

from x25tools import records

# Lines that the examples don't have.
OTHERS = """\
0.5\t> I cmd P=0 S=0 R=0 | CALL ch=1 D=1 called=1 calling=2 fac=0101 data=- ~ wide
1.5\t< I cmd P=0 S=1 R=1 | RESTARTCONF ~ wide ~ manners: dce: a word
> SABME cmd P=1 ~ wide
> I cmd P=0 S=0 R=1 | fault 20 diag=38
< fault 4 undefined ctl=3f
> RR rsp F=0 R=1 !? dte: a word, or the capture lacks frames
> ..
dte linkup
7\tdce message ch=1 at 1.0.0 q=0 data=6869
? 60
! 42
. off busy
# a comment

x\ty
"""


def answers(command, given):
    """What the program writes of some lines."""
    words = [support.PROGRAM, *command]
    return subprocess.run(words, input=given, capture_output=True, timeout=60).stdout.decode()


@support.needs_program
class Tabs(unittest.TestCase):
    def given(self):
        """Lines of each sort, as the program writes them."""
        yield OTHERS
        examples = os.path.join(support.ROOT, "examples")
        for path in glob.glob(f"{examples}/*.trace"):
            with open(path, "rb") as file:
                trace = file.read()
            for words in ["decode"], ["decode", "--wide"], ["judge"], ["judge", "--at", "line"]:
                yield answers(words, trace)
        for path in glob.glob(f"{examples}/*.script"):
            with open(path, "rb") as file:
                yield answers(["sim", "--tap", "--loose", "--channels", "16"], file.read())

    def test_the_scripts_read_what_it_writes(self):
        for text in self.given():
            told = answers(["tabs"], text.encode()).splitlines()
            lines = text.splitlines()
            self.assertEqual(len(told), len(lines))
            for line, record in zip(lines, told):
                found = records.read(line)
                self.assertEqual(record, line if found is None else "\t".join(found))


if __name__ == "__main__":
    unittest.main()
